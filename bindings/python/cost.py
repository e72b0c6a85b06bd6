"""Prints what calls cost from Python, in nanoseconds of processor time: the least of five rounds."""

import itertools
import time

from textarea import Area, TextArea
from textarea.terminal import Terminal

PLACE = Area(0, 0, 80, 24)


def cost(name, count, call):
    least = float("inf")
    for _ in range(5):
        start = time.process_time_ns()
        for _ in range(count):
            call()
        least = min(least, (time.process_time_ns() - start) / count)
    print(f"{name:<28} {least:10.1f}")


def key_to_frame(terminal, area, byte):
    """A key: its byte is decoded, the input is taken, the text area drawn, and the frame painted."""
    for event in terminal.feed(byte):
        area.input(event)
    area.clear_screen()
    area.render(PLACE)
    return terminal.paint(area, area.rendered_cursor_position)


def main():
    area, terminal = TextArea("one two three\nfour"), Terminal(PLACE)
    area.reset_screen(PLACE)
    cost("cursor", 20000, lambda: area.cursor)
    keys = itertools.cycle([b"x", b"\x7f"])
    cost("a key and its frame, bytes", 500, lambda: key_to_frame(terminal, area, next(keys)))


main()
