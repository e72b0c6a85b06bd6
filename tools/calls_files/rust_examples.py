"""Examples for the documentation of the wrappers for Rust."""

# Of a call, the text of `area`, and what the example does with it.
EXAMPLES = {
    "insert_newline": ("hi", """\
area.insert_newline();
assert_eq!(area.lines(), ["", "hi"]);"""),
    "insert_tab": ("hi", """\
assert!(area.insert_tab());
assert_eq!(area.lines(), ["    hi"]);
area.set_tab_length(0);
assert!(!area.insert_tab());"""),
    "paste": ("one", """\
area.set_yank_text("two\\nthree ");
assert!(area.paste());
assert_eq!(area.lines(), ["two", "three one"]);"""),
    "delete_char": ("ab", """\
assert!(!area.delete_char()); // the cursor is at the text's start
area.move_cursor(CursorMove::Forward);
assert!(area.delete_char());
assert_eq!(area.lines(), ["b"]);"""),
    "delete_next_char": ("ab", """\
assert!(area.delete_next_char());
assert_eq!(area.lines(), ["b"]);"""),
    "delete_newline": ("one\ntwo", """\
area.move_cursor(CursorMove::Down);
assert!(area.delete_newline());
assert_eq!(area.lines(), ["onetwo"]);"""),
    "delete_str": ("one\ntwo", """\
assert!(area.delete_str(4)); // three letters and a line break
assert_eq!(area.lines(), ["two"]);
assert_eq!(area.yank_text(), "one\\n");"""),
    "delete_line_by_end": ("one two", """\
area.move_cursor(CursorMove::WordForward);
assert!(area.delete_line_by_end());
assert_eq!(area.lines(), ["one "]);"""),
    "delete_line_by_head": ("one two", """\
area.move_cursor(CursorMove::WordForward);
assert!(area.delete_line_by_head());
assert_eq!(area.lines(), ["two"]);"""),
    "delete_word": ("one two", """\
area.move_cursor(CursorMove::End);
assert!(area.delete_word());
assert_eq!(area.lines(), ["one "]);"""),
    "delete_next_word": ("one two", """\
assert!(area.delete_next_word());
assert_eq!(area.lines(), [" two"]);"""),
    "clear": ("one\ntwo", """\
assert!(area.clear() && area.is_empty());
assert_eq!(area.yank_text(), "one\\ntwo");
assert!(!area.clear());"""),
    "cut": ("one two", """\
area.start_selection();
area.move_cursor(CursorMove::WordForward);
assert!(area.cut());
assert_eq!((area.lines(), area.yank_text()), (&["two".to_string()][..], "one ".to_string()));"""),
    "undo": ("one", """\
area.delete_next_word();
assert!(area.undo());
assert_eq!(area.lines(), ["one"]);
assert!(!area.undo());"""),
    "redo": ("one", """\
area.delete_next_word();
area.undo();
assert!(area.redo() && area.is_empty());
assert!(!area.redo());"""),
    "set_max_histories": ("one", """\
area.set_max_histories(1);
area.insert_str("two ");
area.insert_str("three ");
assert!(area.undo() && !area.undo());
assert_eq!(area.lines(), ["two one"]);"""),
    "start_selection": ("one two", """\
area.start_selection();
area.move_cursor(CursorMove::WordForward);
assert_eq!(area.selection_range(), Some(((0, 0), (0, 4))));"""),
    "cancel_selection": ("one", """\
area.start_selection();
area.cancel_selection();
assert!(!area.is_selecting());"""),
    "select_all": ("one\ntwo", """\
area.select_all();
assert_eq!(area.selection_range(), Some(((0, 0), (1, 3))));"""),
    "copy": ("one\ntwo", """\
area.select_all();
area.copy();
assert_eq!(area.yank_text(), "one\\ntwo");"""),
    "search_forward": ("one two one", """\
area.set_search_pattern("o.e")?;
assert!(area.search_forward(false));
assert_eq!(area.cursor(), (0, 8));
assert!(area.search_forward(false)); // past the end it begins at the start
assert_eq!(area.cursor(), (0, 0));
# Ok::<(), tui_textarea::SearchError>(())"""),
    "search_back": ("one two one", """\
area.set_search_pattern("o.e")?;
assert!(area.search_back(false)); // past the start it begins at the end
assert_eq!(area.cursor(), (0, 8));
# Ok::<(), tui_textarea::SearchError>(())"""),
    "set_undo_grouping": ("one", """\
area.set_undo_grouping(true);
area.select_all();
area.insert_char('x');
assert!(area.undo());
assert_eq!(area.lines(), ["one"]);"""),
    "set_undo_ranges": ("@one two", """\
let range = tui_textarea::AtomicRange { row: 0, start_col: 0, end_col: 4 };
area.set_atomic_ranges([range]);
area.set_undo_ranges(true);
area.delete_next_char(); // removes the whole range
assert!(area.undo());
assert_eq!(area.atomic_ranges(), [range]);"""),
    "begin_undo_group": ("one", """\
area.begin_undo_group();
area.insert_str("a");
area.insert_newline();
area.end_undo_group();
assert!(area.undo());
assert_eq!(area.lines(), ["one"]);"""),
    "end_undo_group": ("one", """\
area.begin_undo_group();
area.insert_str("a");
area.end_undo_group();
area.insert_str("b");
assert!(area.undo());
assert_eq!(area.lines(), ["aone"]);"""),
    "end_run": ("", """\
area.set_undo_coalescing(true);
area.insert_char('a');
area.end_run(); // the next character is an edit of its own
area.insert_char('b');
assert!(area.undo());
assert_eq!(area.lines(), ["a"]);"""),
    "set_tab_length": ("", """\
area.set_tab_length(2);
area.insert_tab();
assert_eq!(area.lines(), ["  "]);"""),
    "set_hard_tab_indent": ("", """\
area.set_hard_tab_indent(true);
area.insert_tab();
assert_eq!(area.lines(), ["\\t"]);"""),
    "set_read_only": ("one", """\
area.set_read_only(true);
area.insert_char('x'); // inserts nothing
assert!(!area.delete_next_char());
assert_eq!(area.lines(), ["one"]);"""),
    "set_single_line": ("one", """\
assert!(area.set_single_line(true));
area.insert_newline(); // breaks no line
area.insert_str("a\\nb");
assert_eq!(area.lines(), ["a bone"]);"""),
    "remove_line_number": ("one", """\
area.set_line_number_style(Style::new().dark_gray());
area.remove_line_number();
assert_eq!(area.line_number_style(), None);"""),
    "set_min_rows": ("one", """\
area.set_min_rows(3);
assert_eq!(area.measure(20).preferred_rows, 3);"""),
    "set_max_rows": ("one\ntwo\nthree", """\
area.set_max_rows(2);
assert_eq!(area.measure(20).preferred_rows, 2);"""),
    "set_cursor_line_style": ("one", """\
area.set_cursor_line_style(Style::new()); // the cursor's line looks as any other
assert_eq!(area.cursor_line_style(), Style::new());"""),
    "clear_mask_char": ("one", """\
area.set_mask_char('•');
area.clear_mask_char();
assert_eq!(area.mask_char(), None);"""),
    "clear_custom_highlight": ("one two", """\
area.custom_highlight(((0, 0), (0, 3)), Style::new().bold(), 15);
area.clear_custom_highlight();"""),
    "is_selecting": ("one", """\
assert!(!area.is_selecting());
area.start_selection();
assert!(area.is_selecting());"""),
    "max_histories": ("one", "assert_eq!(area.max_histories(), 50);"),
    "undo_coalescing": ("one", "assert!(!area.undo_coalescing());"),
    "undo_grouping": ("one", "assert!(!area.undo_grouping());"),
    "undo_ranges": ("one", "assert!(!area.undo_ranges());"),
    "read_only": ("one", "assert!(!area.read_only());"),
    "single_line": ("one", "assert!(!area.single_line());"),
    "tab_length": ("one", "assert_eq!(area.tab_length(), 4);"),
    "hard_tab_indent": ("one", "assert!(!area.hard_tab_indent());"),
    "min_rows": ("one", "assert_eq!(area.min_rows(), 1);"),
    "max_rows": ("one", "assert_eq!(area.max_rows(), u16::MAX);"),
    "style": ("one", "assert_eq!(area.style(), Style::new());"),
    "cursor_style": ("one", "assert_eq!(area.cursor_style(), Style::new().reversed());"),
    "cursor_line_style": ("one", "assert_eq!(area.cursor_line_style(), Style::new().underlined());"),
    "selection_style": ("one", "assert_eq!(area.selection_style(), Style::new().bg(Color::LightBlue));"),
    "search_style": ("one", "assert_eq!(area.search_style(), Style::new().bg(Color::Blue));"),
}


def of_style(call):
    """The example of a call that sets or reads a style, unless it has one of its own."""
    field = call.field()
    return "one", f"area.set_{field}(Style::new().bg(Color::Yellow));\nassert_eq!(area.{field}().bg, Some(Color::Yellow));"


def imports(path, names):
    """The line that imports these names, if there are any."""
    one = names[0] if len(names) == 1 else f"{{{', '.join(names)}}}"
    return [f"use {path}::{one};"] if names else []


def example(call):
    """The example of a call as lines of a page, none if it has none."""
    if call.name not in EXAMPLES and not call.look:
        return []
    text, code = EXAMPLES.get(call.name) or of_style(call)
    styles = imports("tui_textarea::ratatui::style", [word for word in ("Color", "Style") if f"{word}::" in code])
    moves = ["CursorMove"] if "CursorMove::" in code else []
    lines = ", ".join(f'"{line}"' for line in text.split("\n"))
    changing = "mut " if "\n" in code else ""
    made = f"let {changing}area = TextArea::from([{lines}]);"
    return ["```", *styles, *imports("tui_textarea", [*moves, "TextArea"]), "", made, *code.split("\n"), "```"]
