"""The handle of a text area in the library: how its calls are made, and what they pass and return."""

from __future__ import annotations

import ctypes
import time
from typing import Any, Callable, Iterable, List, Optional, Sequence, Tuple

from . import _sys
from ._data import Line, PatternRejected, Range, RangesRejected, Reason, Span, Style
from ._library import lib


def passed_text(text: str) -> Tuple[Any, int]:
    """A text as the library takes it: its bytes and their number."""
    data = text.encode()
    return (ctypes.c_uint8 * max(1, len(data))).from_buffer_copy(data or b"\0"), len(data)


def passed_list(kind: Any, items: Sequence) -> Tuple[Any, int]:
    """A list as the library takes it: its items and their number."""
    return (kind * max(1, len(items)))(*items), len(items)


def sizes(count: int) -> list:
    return [ctypes.c_size_t() for _ in range(count)]


def passed_lines(lines: Iterable[Line]) -> Tuple[Any, Any, Any]:
    """Styled lines as the library takes them: the text, the spans and the lines."""
    text, spans, plain = "", [], []
    for line in lines:
        for span in line.spans:
            text += span.text
            spans.append(_sys.Span(len(span.text.encode()), span.style._core()))
        plain.append(_sys.Line(len(line.spans), line.style._core()))
    return passed_text(text), passed_list(_sys.Span, spans), passed_list(_sys.Line, plain)


def lines_of(data: bytes, spans: list, lines: list) -> Tuple[Line, ...]:
    """The styled lines that the library wrote."""
    found, start, first = [], 0, 0
    for line in lines:
        own = []
        for span in spans[first:first + line.spans]:
            own.append(Span(data[start:start + span.bytes].decode(), Style._of(span.style)))
            start += span.bytes
        first += line.spans
        found.append(Line(tuple(own), Style._of(line.style)))
    return tuple(found)


class Core:
    """A handle, which is freed with this object, and the ways to call the library with it."""

    def __init__(self) -> None:
        self._handle = _sys.Handle()
        self._start: Optional[float] = time.monotonic()
        self._call(lib.ta_new)

    def __del__(self) -> None:
        if hasattr(self, "_handle"):
            lib.ta_free(self._handle)

    def _call(self, function: Callable, *arguments: Any) -> bool:
        """Makes a call. Returns whether its status is ok, and not false."""
        status = function(self._handle, *arguments)
        if status == _sys.OK:
            return True
        if status == _sys.FALSE:
            return False
        if status == _sys.OUT_OF_MEMORY:
            raise MemoryError
        if status == _sys.RANGES_REJECTED:
            rejected = self._list(_sys.Rejected, lib.ta_rejected_ranges)
            raise RangesRejected([(Range._of(r.range), Reason(r.reason)) for r in rejected])
        if status == _sys.PATTERN_REJECTED:
            raise PatternRejected(self._text(lib.ta_pattern_error))
        if status == _sys.INVALID_ARGUMENT:
            raise ValueError("the core does not take this argument")
        raise RuntimeError(f"status {status}")

    def _edit(self, function: Callable, *arguments: Any) -> bool:
        if self._start is not None and self._call(lib.ta_undo_coalescing):
            self._call(lib.ta_set_now, int((time.monotonic() - self._start) * 1e9))
        return self._call(function, *arguments)

    def _text(self, function: Callable, *arguments: Any) -> str:
        return self._text_if_any(function, *arguments) or ""

    def _text_if_any(self, function: Callable, *arguments: Any) -> Optional[str]:
        room, needed = 64, ctypes.c_size_t()
        while True:
            out = (ctypes.c_uint8 * room)()
            if not self._call(function, *arguments, out, room, needed):
                return None
            if needed.value <= room:
                return bytes(out)[:needed.value].decode()
            room = needed.value

    def _list(self, kind: Any, function: Callable) -> List[Any]:
        room, needed = 8, ctypes.c_size_t()
        while True:
            out = (kind * room)()
            self._call(function, out, room, needed)
            if needed.value <= room:
                return list(out[:needed.value])
            room = needed.value

    def _numbers(self, kind: Any, count: int, function: Callable, *arguments: Any) -> Any:
        found = [kind() for _ in range(count)]
        return tuple(n.value for n in found) if self._call(function, *arguments, *found) else None

    def _style(self, function: Callable) -> Any:
        style = _sys.Style()
        return Style._of(style) if self._call(function, style) else None
