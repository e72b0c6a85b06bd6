"""Prints a script of random calls: python3 random_script.py SEED COUNT [plain]

With `plain` it has only the commands that the replayers in C and Rust know.
"""

import random
import sys

from script_calls import METHODS, SETTERS

TEXTS = ["one", "two words", "a\\nb", "\\n", "", "犬", "é", "e\\u{301}", "\\t", "x\\r\\ny", "long_word_that_wraps", " ", "a.b, c", "👩‍👩‍👧", "\\\\", "1\\n2\\n3"]
CHARS = ["a", "b", " ", "\\n", "\\t", "犬", "é", "\\u{301}", "_", ".", "\\\\", "Z", "\\r"]
BARE = [name for name, (kind, _) in METHODS.items() if not kind] + "undo undo yank_text clear_mask_char".split()
WITH_ARGUMENTS = {name: kind for name, (kind, _) in METHODS.items() if kind} | {name: kind for name, (_, kind) in SETTERS.items()}
VALUES = {"bool": ["true", "false"], "u8": range(8), "u16": range(8), "usize": range(8)}
# Where the values of the type would leave too little to try.
OWN_VALUES = {
    "set_tab_length": [0, 1, 2, 4, 8],
    "set_undo_coalescing": ["true", "true", "false"],
    "set_max_histories": [0, 3, 50, 50],
    "set_read_only": ["true", "false", "false", "false"],
    "set_single_line": ["true", "false", "false", "false"],
}
MOVES = """Forward Back Up Down Head End Top Bottom WordForward WordEnd WordBack ParagraphForward ParagraphBack
InViewport""".split()
PATTERNS = ["o", "a+", "^", "[a-z]+", "(", "", "\\\\s", "犬", "b$"]
SEARCH_TEXTS = ["o", "O", "a", ".", "a.b", "(", "", "\\\\", "犬", "two words", "É"]
KEYS = """Backspace Enter Left Right Up Down Tab Delete Home End PageUp PageDown Esc Copy Cut Paste MouseScrollDown
MouseScrollUp Null""".split()


def search_text(r):
    """A command that searches for a plain text."""
    pick = r.choice
    return f"set_search_text {pick(['true', 'false'])} {pick(['true', 'false'])} {pick(SEARCH_TEXTS)}"


def max_chars(r):
    """A command that sets the greatest number of characters."""
    return f"set_max_chars {r.choice(['None', 'None', '0', '3', '12'])}"


def command(r):
    """A random command."""
    pick, small = r.choice, lambda: r.randrange(8)
    kind = r.randrange(24)
    if kind < 5:
        return "insert_char " + pick(CHARS)
    if kind < 8:
        return "insert_str " + pick(TEXTS)
    if kind < 12:
        return pick(BARE)
    if kind < 15:
        return "move " + pick(MOVES)
    if kind < 17:
        key = pick([pick(KEYS), "Char " + pick(list("abefhkjwdnpury<>]v")), f"F {small()}"])
        return f"input {pick(['-', '-', 'c', 'a', 's', 'ca', 'cs', 'as', 'cas'])} {key}"
    return pick([
        lambda: f"jump {small()} {small()}",
        lambda: f"go_to {small()} {small()}",
        lambda: f"insert_pasted {pick(TEXTS)}",
        lambda: "text",
        lambda: f"text_range {small()} {small()} {small()} {small()}",
        lambda: f"replace_range {small()} {small()} {small()} {small()} {pick(TEXTS)}",
        lambda: f"{pick(['replace_match', 'replace_all'])} {pick(TEXTS)}",
        lambda: f"scroll {r.randrange(-4, 5)} {r.randrange(-2, 3)}",
        lambda: f"page {pick(['PageDown', 'PageUp', 'HalfPageDown', 'HalfPageUp'])}",
        lambda: f"set_search_pattern {pick(PATTERNS)}",
        lambda: search_text(r),
        lambda: pick(["match_count", "match_index"]),
        lambda: f"set_yank_text {pick(TEXTS)}",
        lambda: "ranges " + " ".join(f"{small()} {small()} {small()}" for _ in range(r.randrange(1, 3))),
        lambda: "ranges",
        lambda: f"set_lines {small()} {small()} {pick(TEXTS)}\\n{pick(TEXTS)}",
        lambda: f"measure {r.randrange(30)}",
        lambda: f"render {r.randrange(90)} {r.randrange(30)} {r.randrange(30)} {r.randrange(8)}",
        lambda: f"render {small()} {small()} {r.randrange(5, 30)} {r.randrange(1, 8)}",
        lambda: f"hit {r.randrange(30)} {r.randrange(12)}",
        lambda: f"set_wrap_mode {pick(['None', 'Word', 'Glyph', 'WordOrGlyph'])}",
        lambda: f"set_mask_char {pick(CHARS[:2] + ['•'])}",
        lambda: f"set_cursor_unit {pick(['Character', 'Cluster'])}",
        lambda: max_chars(r),
        lambda: f"line_numbers {pick(['true', 'false'])}",
        lambda: f"now {r.randrange(5000)}",
        lambda: f"set_change_log {pick(['Characters', 'Bytes', 'Utf16', 'Utf16', 'None'])}",
        lambda: "take_changes",
        lambda: "take_changes",
        *[lambda name=name, kind=kind: f"{name} {pick(OWN_VALUES.get(name, VALUES[kind]))}" for name, kind in WITH_ARGUMENTS.items()],
    ])()


def plain_command(r):
    """A random command whose call passes a character, a text, a move, a truth value or a number at most."""
    pick, kind = r.choice, r.randrange(12)
    if kind < 4:
        return "insert_char " + pick([c for c in CHARS if c.isascii() and "u{" not in c])
    if kind < 6:
        return "insert_str " + pick([text for text in TEXTS if "u{" not in text])
    if kind < 9:
        return pick([name for name, (argument, _) in METHODS.items() if not argument])
    if kind < 10:
        return "move " + pick(MOVES)
    if kind < 11:
        name = pick(list(WITH_ARGUMENTS))
        return f"{name} {pick(OWN_VALUES.get(name, VALUES[WITH_ARGUMENTS[name]]))}"
    text = pick([text for text in TEXTS if "u{" not in text])
    others = ["set_search_pattern " + pick(PATTERNS), search_text(r), max_chars(r)]
    return pick([*others, "replace_match " + text, "replace_all " + text])


def main():
    r, random_command = random.Random(int(sys.argv[1])), plain_command if sys.argv[3:] else command
    sys.stdout.buffer.write("".join(random_command(r) + "\n" for _ in range(int(sys.argv[2]))).encode())


main()
