"""Tests of a terminal: python3 -m unittest test_terminal"""

import doctest
import unittest

import textarea.terminal
from textarea import Area, Color, Input, Key, Style, TextArea
from textarea.terminal import (
    LEFT, RIGHT, Colors, Cursor, CursorShape, Focus, Mouse, MouseKind, Paste, Size, Terminal, Unknown,
    cursor_shape_bytes, title_bytes,
)

PLACE = Area(0, 0, 10, 2)


class Events(unittest.TestCase):
    def test_keys(self):
        terminal = Terminal(PLACE)
        self.assertEqual(terminal.feed(b""), [])
        self.assertEqual(terminal.feed("aé\x1b[1;5".encode()), [Input.char("a"), Input.char("é")])
        self.assertEqual(terminal.feed(b"A\x1b[15~"), [Input(Key.UP, ctrl=True), Input(Key.F, 5)])
        self.assertEqual(terminal.feed(b"\x1b"), [])
        self.assertEqual(terminal.idle(50), [Input(Key.ESC)])
        self.assertEqual(terminal.feed(b"\x1b\t"), [Input(Key.TAB, alt=True)])
        terminal.set_console(True)
        self.assertEqual(terminal.feed(b"\x1b\t"), [Input(Key.TAB, shift=True)])
        self.assertEqual((terminal.feed(b"\x1b[12"), terminal.idle(4999), terminal.idle(1)), ([], [], [Unknown()]))

    def test_reports(self):
        terminal = Terminal(PLACE)
        long = "é" * 3000
        self.assertEqual(terminal.feed(b"\x1b[200~" + long.encode() + b"\x1b[201~"), [Paste(long)])
        self.assertEqual(
            terminal.feed(b"\x1b[<18;3;4M\x1b[<0;1;2m\x1b[I\x1b[O\x1b[99z"),
            [
                Mouse(MouseKind.PRESS, RIGHT, 2, 3, True, False, False),
                Mouse(MouseKind.RELEASE, LEFT, 0, 1, False, False, False),
                Focus(True),
                Focus(False),
                Unknown(),
            ],
        )
        terminal.asked()
        terminal.set_resizes(True)
        self.assertEqual(terminal.feed(b"\x1b[8;24;80t\x1b[?3;7R"), [Size(80, 24), Cursor(6, 2)])


class Frames(unittest.TestCase):
    def test_paint(self):
        terminal, area = Terminal(PLACE), TextArea("one\ntwo")
        area.reset_screen(PLACE)
        area.render(PLACE)
        first = terminal.paint(area, area.rendered_cursor_position)
        self.assertTrue(b"ne" in first and b"two" in first)
        self.assertEqual(terminal.paint(area, area.rendered_cursor_position), b"")
        self.assertIn(b"\x1b[2;4H", terminal.paint(area, (3, 1)))
        self.assertIn(b"\x1b[?25l", terminal.paint(area))
        terminal.reset()
        self.assertIn(b"two", terminal.paint(area))
        area.set_screen_style(PLACE, Style(Color.rgb(255, 0, 0)))
        self.assertIn(b"38;2;255;0;0", terminal.paint(area))
        terminal.set_colors(Colors.SIXTEEN)
        self.assertNotIn(b"38;2", terminal.paint(area))
        terminal.resize(Area(0, 1, 3, 1))
        shown = terminal.paint(area, (1, 1))
        self.assertTrue(b"two" in shown and b"one" not in shown and b"\x1b[1;2H" in shown)
        with self.assertRaises(ValueError):
            terminal.set_colors(4)

    def test_large(self):
        whole = Area(0, 0, 200, 60)
        terminal, area = Terminal(whole), TextArea("\n".join(["x" * 200] * 60))
        area.reset_screen(whole)
        area.render(whole)
        self.assertGreater(len(terminal.paint(area)), 10000)

    def test_cursor_and_title(self):
        for shape in CursorShape:
            self.assertEqual(cursor_shape_bytes(shape), f"\x1b[{int(shape)} q".encode())
        with self.assertRaises(ValueError):
            cursor_shape_bytes(7)
        self.assertEqual(title_bytes("a\x07b\x9c\x1b漢"), "\x1b]2;ab漢\x1b\\".encode())
        self.assertEqual(title_bytes(""), b"\x1b]2;\x1b\\")
        long = "x" * 3000
        self.assertEqual(title_bytes(long), f"\x1b]2;{long}\x1b\\".encode())

    def test_documentation(self):
        self.assertEqual(doctest.testmod(textarea.terminal).failed, 0)


if __name__ == "__main__":
    unittest.main()
