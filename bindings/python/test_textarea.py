"""Tests of each group of calls: python3 -m unittest test_textarea"""

import curses
import doctest
import os
import subprocess
import sys
import unittest

import textarea
from script_calls import STYLES
from textarea import (
    Alignment, Area, Block, Borders, ChangeUnit, Color, CursorRenderMode, CursorUnit, Input, Key, Line, Modifier,
    Move, Padding, Page, PatternRejected, Range, RangesRejected, Reason, Side, Span, Style, TextArea,
    WrapMode, in_curses,
)
from textarea.terminal import LEFT, RIGHT, Mouse, MouseKind, Paste

RED = Style(Color.RED, add=Modifier.BOLD)


class Calls(unittest.TestCase):
    def test_lines(self):
        area = TextArea("one\ntwo")
        self.assertEqual((area.lines, area.cursor, area.is_empty), (["one", "two"], (0, 0), False))
        self.assertEqual((area.line(1), area.line(2)), ("two", None))
        area.set_lines(["a\nb", "é" * 200], (1, 999))
        self.assertEqual((area.lines, area.cursor), (["a\nb", "é" * 200], (1, 200)))
        self.assertEqual(TextArea.from_lines([]).lines, [""])
        file = TextArea.from_text("a\r\nb\n\n")
        self.assertEqual((file.lines, file.text), (["a", "b", ""], "a\nb\n"))
        self.assertEqual(TextArea.from_lines(str(i) for i in range(50)).line(49), "49")
        copy = area.copy_area()
        self.assertTrue(area.clear() and area.is_empty)
        self.assertEqual(copy.lines[0], "a\nb")
        self.assertEqual(repr(area), "<TextArea [''] cursor=(0, 0)>")
        with self.assertRaises(ValueError):
            area.set_lines([])

    def test_replacements(self):
        area = TextArea.from_text("one two\nthree")
        self.assertEqual(area.text_range((1, 2), (0, 5)), "wo\nth")
        self.assertTrue(area.replace_range((9, 9), (0, 4), "2\n3"))
        self.assertEqual((area.lines, area.cursor), (["one 2", "3"], (1, 1)))
        self.assertTrue(area.undo())
        self.assertEqual(area.lines, ["one two", "three"])
        self.assertFalse(area.replace_range((0, 1), (0, 1), ""))

    def test_replaced_matches(self):
        area = TextArea.from_text("one two\nthree")
        self.assertEqual((area.replace_match("x"), area.replace_all("x")), (False, 0))
        area.set_search_text("t")
        self.assertTrue(area.search_forward() and area.replace_match("tt"))
        self.assertEqual((area.lines, area.cursor), (["one ttwo", "three"], (1, 0)))
        self.assertEqual((area.replace_all("\n"), area.lines), (3, ["one ", "", "wo", "", "hree"]))
        self.assertTrue(area.undo())
        self.assertEqual(area.lines, ["one ttwo", "three"])

    def test_edits(self):
        area = TextArea()
        area.insert_char("a")
        area.insert_newline()
        self.assertTrue(area.insert_str("b\r\nc") and area.insert_tab() and not area.insert_str(""))
        self.assertEqual(area.lines, ["a", "b", "c   "])
        self.assertTrue(area.insert_pasted("x\ry\r\n") and area.undo())
        self.assertFalse(area.insert_pasted(""))
        self.assertFalse(area.paste())
        area.yank_text = "x\ny"
        self.assertTrue(area.paste() and area.yank_text == "x\ny")
        self.assertTrue(area.delete_char() and area.delete_newline() and area.delete_word())
        area.jump(0, 0)
        self.assertTrue(area.delete_next_char() and area.delete_next_char() and area.delete_str(2))
        self.assertTrue(area.delete_next_word() and area.delete_line_by_end() and not area.delete_line_by_head())
        self.assertTrue(area.undo() and area.redo() and not area.redo())
        with self.assertRaises(ValueError):
            area.insert_char("\ud800")

    def test_history(self):
        area = TextArea()
        self.assertEqual((area.max_histories, area.undo_coalescing), (50, False))
        area.undo_coalescing = True
        area.insert_char("a")
        area.insert_char("b")
        self.assertTrue(area.undo() and area.is_empty)
        for seconds in (1, 2):
            area.set_now(seconds * 10**9)
            area.insert_char("c")
        self.assertTrue(area.undo() and area.text == "c")
        area.max_histories = 0
        self.assertFalse(area.undo())

    def test_read_only(self):
        area = TextArea("one")
        self.assertFalse(area.read_only)
        area.read_only = True
        area.insert_char("x")
        self.assertFalse(area.insert_str("x") or area.delete_next_char() or area.input(Input.char("x")))
        area.select_all()
        self.assertTrue(area.read_only and area.cut() and area.text == area.yank_text == "one")
        area.read_only = False
        area.insert_char("x")
        self.assertTrue(area.text == "onex" and area.undo())

    def test_single_line(self):
        area = TextArea("one\ntwo")
        self.assertFalse(area.single_line or area.set_single_line(True))
        area.set_lines(["one"])
        self.assertTrue(area.set_single_line(True) and area.single_line)
        area.insert_newline()
        self.assertTrue(area.insert_pasted("a\r\nb") and not area.input(Input.char("\n")))
        self.assertEqual(area.text, "a bone")

    def test_max_chars(self):
        area = TextArea("one")
        self.assertIsNone(area.max_chars)
        area.max_chars = 6
        self.assertTrue(area.insert_str("a\u0301e\u0301"))
        self.assertEqual((area.text, area.max_chars), ("a\u0301one", 6))
        area.insert_str("xy")
        self.assertEqual(area.text, "a\u0301xone")
        area.insert_char("y")
        self.assertEqual(area.text, "a\u0301xone")
        area.max_chars = None
        area.insert_char("y")
        self.assertEqual((area.text, area.max_chars), ("a\u0301xyone", None))

    def test_cursor_unit(self):
        area = TextArea("e\u0301x")
        self.assertEqual(area.cursor_unit, CursorUnit.CHARACTER)
        area.move_cursor(Move.FORWARD)
        self.assertEqual(area.cursor, (0, 1))
        area.cursor_unit = CursorUnit.CLUSTER
        self.assertEqual((area.cursor, area.cursor_unit), ((0, 2), CursorUnit.CLUSTER))
        area.search_pattern = "e"
        self.assertEqual((area.match_count, area.replace_all("a")), (0, 0))
        self.assertTrue(area.delete_char())
        self.assertEqual(area.text, "x")

    def test_undo_groups(self):
        area = TextArea("one")
        self.assertFalse(area.undo_grouping)
        area.undo_grouping = True
        area.select_all()
        area.insert_char("x")
        self.assertTrue(area.undo_grouping and area.undo() and area.text == "one")
        area.begin_undo_group()
        area.insert_newline()
        area.insert_char("y")
        area.end_undo_group()
        area.end_run()
        self.assertTrue(area.undo() and not area.undo() and area.redo() and area.text == "one\ny")

    def test_moves_and_selection(self):
        area = TextArea("one two\nthree")
        area.move_cursor(Move.WORD_FORWARD)
        self.assertEqual((area.cursor, area.selection_range, area.is_selecting), ((0, 4), None, False))
        area.start_selection()
        area.move_cursor(Move.DOWN)
        self.assertEqual(area.selection_range, ((0, 4), (1, 4)))
        area.go_to(1 << 40, 2)
        self.assertEqual(area.cursor, (1, 2))
        area.go_to(1, 4)
        area.copy()
        self.assertEqual(area.yank_text, "two\nthre")
        self.assertFalse(area.cut())
        area.select_all()
        area.cancel_selection()
        area.select_all()
        self.assertTrue(area.cut() and area.is_empty)
        area = TextArea("\n".join(map(str, range(20))))
        area.reset_screen(Area(0, 0, 24, 8))
        area.render(Area(0, 0, 24, 8))
        area.scroll(15)
        self.assertEqual((area.cursor, area.viewport), ((15, 0), (15, 0, 24, 8)))
        area.scroll_page(Page.HALF_PAGE_UP)
        area.scroll_page(Page.PAGE_UP)
        self.assertEqual(area.cursor, (10, 0))
        with self.assertRaises(ValueError):
            area.move_cursor(14)

    def test_inputs(self):
        area = TextArea()
        self.assertTrue(area.input(Input.char("犬")) and area.input(Input(Key.ENTER)))
        self.assertFalse(area.input(Input(Key.F, 12)) or area.input(Input(Key.NULL)))
        self.assertTrue(area.input(Input.char("u", ctrl=True)) and area.text == "犬")
        self.assertFalse(area.input_without_shortcuts(Input.char("u", ctrl=True)))
        self.assertTrue(area.input_without_shortcuts(Input(Key.BACKSPACE)) and area.is_empty)

    def test_search(self):
        area = TextArea("one two\none")
        self.assertIsNone(area.search_pattern)
        area.search_pattern = "o.e"
        self.assertTrue(area.search_forward() and area.cursor == (1, 0))
        self.assertTrue(area.search_back() and area.cursor == (0, 0) and area.search_forward(True))
        with self.assertRaisesRegex(PatternRejected, "."):
            area.search_pattern = "("
        self.assertEqual(area.search_pattern, "o.e")
        area.search_pattern = None
        self.assertIsNone(area.search_pattern)
        self.assertEqual((area.match_count, area.match_index), (0, None))

    def test_search_of_a_text(self):
        area = TextArea("a.b axb\nA.B")
        area.set_search_text("a.b")
        self.assertEqual((area.match_count, area.match_index), (1, 0))
        area.set_search_text("a.b", ignore_case=True, whole_word=True)
        self.assertTrue(area.match_count == 2 and area.search_forward() and area.match_index == 1)
        area.set_search_text("")
        self.assertIsNone(area.search_pattern)

    def test_ranges(self):
        area = TextArea("@one two\nthree")
        area.atomic_ranges = [Range(1, 0, 5), Range(0, 0, 4)]
        self.assertEqual(area.atomic_ranges, [(0, 0, 4), (1, 0, 5)])
        with self.assertRaises(RangesRejected) as caught:
            area.atomic_ranges = [Range(0, 2, 2), Range(7, 0, 1)]
        self.assertEqual(caught.exception.rejected, [((0, 2, 2), Reason.EMPTY), ((7, 0, 1), Reason.ROW_OUT_OF_BOUNDS)])
        self.assertEqual(area.atomic_range_at_cursor(Side.FORWARD), (0, 0, 4))
        self.assertIsNone(area.atomic_range_at_cursor(Side.BACKWARD))
        self.assertFalse(area.normalize_cursor_around_atomic_ranges(Side.FORWARD))
        self.assertEqual(area.delete_atomic_range_at_cursor(Side.FORWARD), (0, 0, 4))
        self.assertEqual((area.lines[0], area.atomic_ranges), (" two", [(1, 0, 5)]))
        self.assertTrue(not area.undo_ranges and area.undo() and area.atomic_ranges == [(1, 0, 5)])
        area.undo_ranges = True
        self.assertTrue(area.undo_ranges and area.redo() and area.undo())
        area.atomic_ranges = [Range(0, 0, 4)]
        area.delete_atomic_range_at_cursor(Side.BACKWARD)
        self.assertTrue(area.atomic_ranges == [] and area.undo() and area.atomic_ranges == [(0, 0, 4)])
        self.assertTrue(area.redo() and area.atomic_ranges == [] and area.text == " two\nthree")
        area.clear_atomic_ranges()
        self.assertEqual(area.atomic_ranges, [])

    def test_changes(self):
        area = TextArea("é\nx")
        area.insert_char("a")
        self.assertEqual(area.take_changes(), [])
        area.set_change_log(ChangeUnit.BYTES)
        area.go_to(0, 2)
        area.insert_str("b\nc")
        area.delete_str(2)
        self.assertEqual(area.take_changes(), [((0, 3), (0, 3), ["b", "c"]), ((1, 1), (2, 1), [""])])
        area.set_lines(["one\ntwo", ""])
        self.assertEqual(area.copy_area().take_changes(), [])
        self.assertEqual(area.take_changes(), [((0, 0), (1, 1), ["one\ntwo", ""])])
        area.set_change_log(None)
        area.insert_char("a")
        self.assertEqual(area.take_changes(), [])

    def test_settings(self):
        area = TextArea("one two three")
        self.assertEqual((area.tab_length, area.hard_tab_indent, area.indent), (4, False, "    "))
        area.tab_length, area.hard_tab_indent = 2, True
        self.assertEqual((area.tab_length, area.indent), (2, "\t"))
        for mode in WrapMode:
            area.wrap_mode = mode
            self.assertEqual(area.wrap_mode, mode)
        area.wrap_mode = WrapMode.WORD
        self.assertEqual(area.measure(6), (3, 3, 1, 65535))
        area.line_number_style = RED
        self.assertEqual(area.line_number_style, RED)
        for alignment in Alignment:
            area.alignment = alignment
            self.assertEqual(area.alignment, alignment)
        self.assertIsNone(area.line_number_style)
        area.line_number_style = None
        area.min_rows, area.max_rows = 3, 0
        self.assertEqual((area.min_rows, area.max_rows), (3, 3))

    def test_looks(self):
        area = TextArea("one")
        some = [RED, Style(bg=Color.rgb(1, 2, 3)), Style(Color.indexed(9)), Style(remove=Modifier.DIM), Style(Color.RESET)]
        styles = {name: some[i % len(some)] for i, name in enumerate(STYLES)}
        for name, style in styles.items():
            setattr(area, name, style)
        self.assertEqual({name: getattr(area, name) for name in STYLES}, styles)
        self.assertIsNone(area.mask_char)
        area.mask_char = "•"
        area.cursor_render_mode = CursorRenderMode.HIDDEN
        self.assertEqual((area.mask_char, area.cursor_render_mode), ("•", CursorRenderMode.HIDDEN))
        area.custom_highlight((0, 1), (0, 3), Style(Color.GREEN), 40)
        area.reset_screen(Area(0, 0, 5, 1))
        area.render(Area(0, 0, 5, 1))
        self.assertEqual((area.screen, area.cell(1, 0).fg, area.cell(9, 9)), (["•••  "], Color.GREEN, None))
        area.mask_char = None
        area.clear_custom_highlight()
        area.render(Area(0, 0, 5, 1))
        self.assertEqual(area.screen, ["one  "])

    def test_surroundings(self):
        area = TextArea()
        title = Line((Span("a"), Span("bc", RED)), RED)
        block = Block(Borders.ALL, Padding(1, 1, 1, 1), title, RED, RED)
        self.assertIsNone(area.block)
        area.block = block
        self.assertEqual(area.block, block)
        area.set_placeholder_text("say")
        area.reset_screen(Area(2, 1, 9, 5))
        area.render(Area(2, 1, 9, 5))
        self.assertEqual([area.screen[0], area.screen[2]], ["┌abc────┐", "│  say  │"])
        self.assertEqual((area.placeholder_text, area.placeholder_style), ("say", Style(Color.DARK_GRAY)))
        area.set_placeholder([title, Line.of("x"), Line()], RED)
        self.assertEqual(area.placeholder, ((title, Line.of("x"), Line()), RED))
        area.placeholder_style = Style()
        self.assertEqual(area.placeholder_style, Style())
        area.set_placeholder([])
        self.assertIsNone(area.placeholder_style)
        area.block = None
        self.assertIsNone(area.block)

    def test_drawing(self):
        area = TextArea("one\ntwo")
        self.assertIsNone(area.rendered_cursor_position)
        area.reset_screen(Area(10, 5, 8, 2))
        area.render(Area(10, 5, 8, 2))
        self.assertEqual((area.screen, area.screen_area), (["one     ", "two     "], (10, 5, 8, 2)))
        self.assertEqual(area.rendered_cursor_position, (10, 5))
        self.assertEqual((area.cursor_at_position(12, 6), area.cursor_at_position(9, 5)), ((1, 2), None))
        long = "e" + "\u0301" * 14
        area.put(11, 5, long, RED)
        self.assertEqual((area.cell(11, 5).symbol, area.cells[0][1].fg), (long, Color.RED))
        area.set_screen_style(Area(11, 5, 1, 1), Style(Color.BLUE))
        self.assertEqual(area.cell(11, 5).fg, Color.BLUE)
        area.clear_screen()
        self.assertEqual((area.screen[0].strip(), area.cell(11, 5).fg), ("", Color.RESET))

    def test_documentation(self):
        self.assertEqual(doctest.testmod(textarea).failed, 0)


class FakeWindow:
    """A window of curses that gives these bytes and numbers of keys; None is a pause."""

    def __init__(self, *found):
        self.found = [byte for it in found for byte in (it if isinstance(it, bytes) else [it])]
        self.patience = None

    def timeout(self, milliseconds):
        self.patience = milliseconds

    def getch(self):
        if self.found and self.found[0] is not None:
            return self.found.pop(0)
        assert self.patience != -1, "it would wait for ever"
        if self.found and self.patience:
            self.found.pop(0)
        return -1


class InCurses(unittest.TestCase):
    def test_events(self):
        sent = b"a\xc3\xa9\x1b[1;5C\x1b[200~one\rtwo\x1b[201~"
        events = in_curses.Events(FakeWindow(sent, curses.KEY_RESIZE, b"\r\x1b", None, b"[A\x1b", None, None))
        wanted = [Input.char("a"), Input.char("é"), Input(Key.RIGHT, ctrl=True), Paste("one\rtwo"), None]
        wanted += [Input(Key.ENTER), Input(Key.ESC), Input.char("["), Input.char("A"), Input(Key.ESC)]
        self.assertEqual([events.read() for _ in wanted], wanted)

    def test_effects(self):
        area, modifiers = TextArea("one two"), (False, False, False)
        area.reset_screen(Area(0, 0, 20, 2))
        area.render(Area(0, 0, 20, 2))
        self.assertFalse(in_curses.take(area, None) or in_curses.take(area, Mouse(MouseKind.PRESS, LEFT, 4, 0, *modifiers)))
        self.assertFalse(in_curses.take(area, Mouse(MouseKind.DRAG, LEFT, 7, 0, *modifiers)))
        self.assertFalse(in_curses.take(area, Mouse(MouseKind.PRESS, RIGHT, 0, 0, *modifiers)))
        self.assertEqual(area.selection_range, ((0, 4), (0, 7)))
        self.assertTrue(in_curses.take(area, Paste("a\rb")) and in_curses.take(area, Input.char("!")))
        self.assertEqual(area.lines, ["one a", "b!"])


class Package(unittest.TestCase):
    def test_names(self):
        self.assertEqual({kind.__module__ for kind in (TextArea, Key, Style, Input, PatternRejected)}, {"textarea"})
        self.assertEqual(Color.WHITE, Color(17))
        self.assertIn("WORD_FORWARD", dir(Move))
        self.assertEqual(Borders.ALL, Borders.TOP | Borders.RIGHT | Borders.BOTTOM | Borders.LEFT)

    def test_library(self):
        place = os.path.dirname(os.path.dirname(textarea.__file__))
        for library, wanted in (("/nowhere.so", "there is no library /nowhere.so"), (textarea.__file__, "can't be loaded")):
            own = {**os.environ, "TEXTAREA_LIBRARY": library, "PYTHONPATH": place}
            ran = subprocess.run([sys.executable, "-c", "import textarea"], capture_output=True, text=True, env=own)
            self.assertIn("ImportError: textarea: ", ran.stderr)
            self.assertIn(wanted, ran.stderr)


if __name__ == "__main__":
    unittest.main()
