"""Written by tools/c-binding from crates/textarea_c and crates/textarea_c_data. Do not edit."""

from ctypes import *

OK = 0
FALSE = 1
OUT_OF_MEMORY = 2
PATTERN_REJECTED = 3
RANGES_REJECTED = 4
EMPTY_HANDLE = 5
INVALID_ARGUMENT = 6
KEY_NULL = 0
KEY_CHAR = 1
KEY_F = 2
KEY_BACKSPACE = 3
KEY_ENTER = 4
KEY_LEFT = 5
KEY_RIGHT = 6
KEY_UP = 7
KEY_DOWN = 8
KEY_TAB = 9
KEY_DELETE = 10
KEY_HOME = 11
KEY_END = 12
KEY_PAGE_UP = 13
KEY_PAGE_DOWN = 14
KEY_ESC = 15
KEY_COPY = 16
KEY_CUT = 17
KEY_PASTE = 18
KEY_MOUSE_SCROLL_DOWN = 19
KEY_MOUSE_SCROLL_UP = 20
MOVE_FORWARD = 0
MOVE_BACK = 1
MOVE_UP = 2
MOVE_DOWN = 3
MOVE_HEAD = 4
MOVE_END = 5
MOVE_TOP = 6
MOVE_BOTTOM = 7
MOVE_WORD_FORWARD = 8
MOVE_WORD_END = 9
MOVE_WORD_BACK = 10
MOVE_PARAGRAPH_FORWARD = 11
MOVE_PARAGRAPH_BACK = 12
MOVE_IN_VIEWPORT = 13
SCROLL_PAGE_DOWN = 0
SCROLL_PAGE_UP = 1
SCROLL_HALF_PAGE_DOWN = 2
SCROLL_HALF_PAGE_UP = 3
BACKWARD = 0
FORWARD = 1
UNIT_CHARACTERS = 0
UNIT_BYTES = 1
UNIT_UTF16 = 2
WRAP_NONE = 0
WRAP_WORD = 1
WRAP_GLYPH = 2
WRAP_WORD_OR_GLYPH = 3
ALIGNMENT_LEFT = 0
ALIGNMENT_CENTER = 1
ALIGNMENT_RIGHT = 2
CURSOR_CELL = 0
CURSOR_HIDDEN = 1
CURSOR_UNIT_CHARACTER = 0
CURSOR_UNIT_CLUSTER = 1
COLOR_NONE = 0
COLOR_RESET = 1
COLOR_BLACK = 2
COLOR_RED = 3
COLOR_GREEN = 4
COLOR_YELLOW = 5
COLOR_BLUE = 6
COLOR_MAGENTA = 7
COLOR_CYAN = 8
COLOR_GRAY = 9
COLOR_DARK_GRAY = 10
COLOR_LIGHT_RED = 11
COLOR_LIGHT_GREEN = 12
COLOR_LIGHT_YELLOW = 13
COLOR_LIGHT_BLUE = 14
COLOR_LIGHT_MAGENTA = 15
COLOR_LIGHT_CYAN = 16
COLOR_WHITE = 17
COLOR_RGB = 18
COLOR_INDEXED = 19
REASON_EMPTY = 0
REASON_ROW_OUT_OF_BOUNDS = 1
REASON_COLUMN_OUT_OF_BOUNDS = 2
REASON_OVERLAPS_PREVIOUS = 3
EVENT_UNKNOWN = 0
EVENT_INPUT = 1
EVENT_PASTE = 2
EVENT_MOUSE = 3
EVENT_SIZE = 4
EVENT_CURSOR = 5
EVENT_FOCUS_GAINED = 6
EVENT_FOCUS_LOST = 7
MOUSE_PRESS = 0
MOUSE_RELEASE = 1
MOUSE_DRAG = 2
MOUSE_MOVE = 3
MOUSE_RELEASE_ANY = 4
MOUSE_WHEEL_LEFT = 5
MOUSE_WHEEL_RIGHT = 6
BUTTON_LEFT = 0
BUTTON_MIDDLE = 1
BUTTON_RIGHT = 2
COLORS_NONE = 0
COLORS_SIXTEEN = 1
COLORS_INDEXED = 2
COLORS_TRUE = 3
SHAPE_DEFAULT = 0
SHAPE_BLINKING_BLOCK = 1
SHAPE_BLOCK = 2
SHAPE_BLINKING_UNDERLINE = 3
SHAPE_UNDERLINE = 4
SHAPE_BLINKING_BAR = 5
SHAPE_BAR = 6
BORDER_TOP = 1
BORDER_RIGHT = 2
BORDER_BOTTOM = 4
BORDER_LEFT = 8
MODIFIER_BOLD = 1
MODIFIER_DIM = 2
MODIFIER_ITALIC = 4
MODIFIER_UNDERLINED = 8
MODIFIER_SLOW_BLINK = 16
MODIFIER_RAPID_BLINK = 32
MODIFIER_REVERSED = 64
MODIFIER_HIDDEN = 128
MODIFIER_CROSSED_OUT = 256


class Held(Structure):
    _fields_ = [("at", c_void_p)]


class Handle(Structure):
    _fields_ = [("stored", Held), ("full", c_bool)]


class HeldTerminal(Structure):
    _fields_ = [("at", c_void_p)]


class TerminalHandle(Structure):
    _fields_ = [("stored", HeldTerminal), ("full", c_bool)]


class Area(Structure):
    _fields_ = [("x", c_uint16), ("y", c_uint16), ("width", c_uint16), ("height", c_uint16)]


class Padding(Structure):
    _fields_ = [("left", c_uint16), ("right", c_uint16), ("top", c_uint16), ("bottom", c_uint16)]


class Color(Structure):
    _fields_ = [("kind", c_uint8), ("red", c_uint8), ("green", c_uint8), ("blue", c_uint8)]


class Cell(Structure):
    _fields_ = [("fg", Color), ("bg", Color), ("modifier", c_uint16), ("bytes", c_uint16), ("symbol", c_uint8 * 24)]


class Input(Structure):
    _fields_ = [("key", c_uint32), ("argument", c_uint32), ("ctrl", c_bool), ("alt", c_bool), ("shift", c_bool)]


class Event(Structure):
    _fields_ = [("kind", c_uint32), ("input", Input), ("mouse", c_uint32), ("button", c_uint32), ("column", c_uint16), ("row", c_uint16), ("bytes", c_size_t)]


class Measure(Structure):
    _fields_ = [("content_rows", c_uint16), ("preferred_rows", c_uint16), ("min_rows", c_uint16), ("max_rows", c_uint16)]


class Range(Structure):
    _fields_ = [("row", c_size_t), ("start_col", c_size_t), ("end_col", c_size_t)]


class Rejected(Structure):
    _fields_ = [("range", Range), ("reason", c_uint32)]


class Style(Structure):
    _fields_ = [("fg", Color), ("bg", Color), ("add_modifier", c_uint16), ("sub_modifier", c_uint16)]


class Span(Structure):
    _fields_ = [("bytes", c_size_t), ("style", Style)]


class Line(Structure):
    _fields_ = [("spans", c_size_t), ("style", Style)]


class Block(Structure):
    _fields_ = [("borders", c_uint8), ("has_title", c_bool), ("padding", Padding), ("style", Style), ("border_style", Style), ("title_style", Style)]


def declare_call(library, name, arguments, result):
    """Declares a call. If the library is older and has none, the call is an error where it is made."""
    try:
        call = getattr(library, name)
    except AttributeError:
        def missing(*_):
            raise NotImplementedError(f"textarea: the library has no {name}: it is older than this package")
        setattr(library, name, missing)
        return
    call.argtypes, call.restype = arguments, result


def declare(library):
    declare_call(library, "ta_new", [POINTER(Handle)], c_uint32)
    declare_call(library, "ta_from_text", [POINTER(Handle), POINTER(c_uint8), c_size_t], c_uint32)
    declare_call(library, "ta_free", [POINTER(Handle)], None)
    declare_call(library, "ta_clone", [POINTER(Handle), POINTER(Handle)], c_uint32)
    declare_call(library, "ta_set_lines", [POINTER(Handle), POINTER(c_uint8), c_size_t, POINTER(c_size_t), c_size_t, c_size_t, c_size_t], c_uint32)
    declare_call(library, "ta_line_count", [POINTER(Handle), POINTER(c_size_t)], c_uint32)
    declare_call(library, "ta_line", [POINTER(Handle), c_size_t, POINTER(c_uint8), c_size_t, POINTER(c_size_t)], c_uint32)
    declare_call(library, "ta_lines", [POINTER(Handle), POINTER(c_uint8), c_size_t, POINTER(c_size_t), POINTER(c_size_t), c_size_t, POINTER(c_size_t)], c_uint32)
    declare_call(library, "ta_text", [POINTER(Handle), POINTER(c_uint8), c_size_t, POINTER(c_size_t)], c_uint32)
    declare_call(library, "ta_is_empty", [POINTER(Handle)], c_uint32)
    declare_call(library, "ta_duplicate_line", [POINTER(Handle)], c_uint32)
    declare_call(library, "ta_move_lines_up", [POINTER(Handle)], c_uint32)
    declare_call(library, "ta_move_lines_down", [POINTER(Handle)], c_uint32)
    declare_call(library, "ta_insert_char", [POINTER(Handle), c_uint32], c_uint32)
    declare_call(library, "ta_insert_newline", [POINTER(Handle)], c_uint32)
    declare_call(library, "ta_insert_str", [POINTER(Handle), POINTER(c_uint8), c_size_t], c_uint32)
    declare_call(library, "ta_insert_pasted", [POINTER(Handle), POINTER(c_uint8), c_size_t], c_uint32)
    declare_call(library, "ta_insert_tab", [POINTER(Handle)], c_uint32)
    declare_call(library, "ta_paste", [POINTER(Handle)], c_uint32)
    declare_call(library, "ta_text_range", [POINTER(Handle), c_size_t, c_size_t, c_size_t, c_size_t, POINTER(c_uint8), c_size_t, POINTER(c_size_t)], c_uint32)
    declare_call(library, "ta_replace_range", [POINTER(Handle), c_size_t, c_size_t, c_size_t, c_size_t, POINTER(c_uint8), c_size_t], c_uint32)
    declare_call(library, "ta_replace_match", [POINTER(Handle), POINTER(c_uint8), c_size_t], c_uint32)
    declare_call(library, "ta_replace_all", [POINTER(Handle), POINTER(c_uint8), c_size_t, POINTER(c_size_t)], c_uint32)
    declare_call(library, "ta_indent_lines", [POINTER(Handle)], c_uint32)
    declare_call(library, "ta_outdent_lines", [POINTER(Handle)], c_uint32)
    declare_call(library, "ta_delete_char", [POINTER(Handle)], c_uint32)
    declare_call(library, "ta_delete_next_char", [POINTER(Handle)], c_uint32)
    declare_call(library, "ta_delete_newline", [POINTER(Handle)], c_uint32)
    declare_call(library, "ta_delete_str", [POINTER(Handle), c_size_t], c_uint32)
    declare_call(library, "ta_delete_line_by_end", [POINTER(Handle)], c_uint32)
    declare_call(library, "ta_delete_line_by_head", [POINTER(Handle)], c_uint32)
    declare_call(library, "ta_clear", [POINTER(Handle)], c_uint32)
    declare_call(library, "ta_cut", [POINTER(Handle)], c_uint32)
    declare_call(library, "ta_delete_word", [POINTER(Handle)], c_uint32)
    declare_call(library, "ta_delete_next_word", [POINTER(Handle)], c_uint32)
    declare_call(library, "ta_input", [POINTER(Handle), POINTER(Input)], c_uint32)
    declare_call(library, "ta_input_without_shortcuts", [POINTER(Handle), POINTER(Input)], c_uint32)
    declare_call(library, "ta_undo", [POINTER(Handle)], c_uint32)
    declare_call(library, "ta_redo", [POINTER(Handle)], c_uint32)
    declare_call(library, "ta_set_max_histories", [POINTER(Handle), c_size_t], c_uint32)
    declare_call(library, "ta_set_undo_coalescing", [POINTER(Handle), c_bool], c_uint32)
    declare_call(library, "ta_set_undo_grouping", [POINTER(Handle), c_bool], c_uint32)
    declare_call(library, "ta_set_undo_ranges", [POINTER(Handle), c_bool], c_uint32)
    declare_call(library, "ta_begin_undo_group", [POINTER(Handle)], c_uint32)
    declare_call(library, "ta_end_undo_group", [POINTER(Handle)], c_uint32)
    declare_call(library, "ta_end_run", [POINTER(Handle)], c_uint32)
    declare_call(library, "ta_max_histories", [POINTER(Handle), POINTER(c_size_t)], c_uint32)
    declare_call(library, "ta_undo_coalescing", [POINTER(Handle)], c_uint32)
    declare_call(library, "ta_undo_grouping", [POINTER(Handle)], c_uint32)
    declare_call(library, "ta_undo_ranges", [POINTER(Handle)], c_uint32)
    declare_call(library, "ta_set_now", [POINTER(Handle), c_uint64], c_uint32)
    declare_call(library, "ta_set_change_log", [POINTER(Handle), c_uint32], c_uint32)
    declare_call(library, "ta_remove_change_log", [POINTER(Handle)], c_uint32)
    declare_call(library, "ta_take_changes", [POINTER(Handle), POINTER(c_size_t)], c_uint32)
    declare_call(library, "ta_change", [POINTER(Handle), c_size_t, POINTER(c_size_t), POINTER(c_size_t), POINTER(c_size_t), POINTER(c_size_t), POINTER(c_size_t)], c_uint32)
    declare_call(library, "ta_change_line", [POINTER(Handle), c_size_t, c_size_t, POINTER(c_uint8), c_size_t, POINTER(c_size_t)], c_uint32)
    declare_call(library, "ta_move_cursor", [POINTER(Handle), c_uint32], c_uint32)
    declare_call(library, "ta_jump", [POINTER(Handle), c_uint16, c_uint16], c_uint32)
    declare_call(library, "ta_go_to", [POINTER(Handle), c_size_t, c_size_t], c_uint32)
    declare_call(library, "ta_cursor", [POINTER(Handle), POINTER(c_size_t), POINTER(c_size_t)], c_uint32)
    declare_call(library, "ta_scroll", [POINTER(Handle), c_int16, c_int16], c_uint32)
    declare_call(library, "ta_scroll_page", [POINTER(Handle), c_uint32], c_uint32)
    declare_call(library, "ta_start_selection", [POINTER(Handle)], c_uint32)
    declare_call(library, "ta_cancel_selection", [POINTER(Handle)], c_uint32)
    declare_call(library, "ta_select_all", [POINTER(Handle)], c_uint32)
    declare_call(library, "ta_copy", [POINTER(Handle)], c_uint32)
    declare_call(library, "ta_is_selecting", [POINTER(Handle)], c_uint32)
    declare_call(library, "ta_selection_range", [POINTER(Handle), POINTER(c_size_t), POINTER(c_size_t), POINTER(c_size_t), POINTER(c_size_t)], c_uint32)
    declare_call(library, "ta_yank_text", [POINTER(Handle), POINTER(c_uint8), c_size_t, POINTER(c_size_t)], c_uint32)
    declare_call(library, "ta_set_yank_text", [POINTER(Handle), POINTER(c_uint8), c_size_t], c_uint32)
    declare_call(library, "ta_set_search_pattern", [POINTER(Handle), POINTER(c_uint8), c_size_t], c_uint32)
    declare_call(library, "ta_set_search_text", [POINTER(Handle), POINTER(c_uint8), c_size_t, c_bool, c_bool], c_uint32)
    declare_call(library, "ta_match_count", [POINTER(Handle), POINTER(c_size_t)], c_uint32)
    declare_call(library, "ta_match_index", [POINTER(Handle), POINTER(c_size_t)], c_uint32)
    declare_call(library, "ta_pattern_error", [POINTER(Handle), POINTER(c_uint8), c_size_t, POINTER(c_size_t)], c_uint32)
    declare_call(library, "ta_search_pattern", [POINTER(Handle), POINTER(c_uint8), c_size_t, POINTER(c_size_t)], c_uint32)
    declare_call(library, "ta_search_forward", [POINTER(Handle), c_bool], c_uint32)
    declare_call(library, "ta_search_back", [POINTER(Handle), c_bool], c_uint32)
    declare_call(library, "ta_clear_atomic_ranges", [POINTER(Handle)], c_uint32)
    declare_call(library, "ta_set_atomic_ranges", [POINTER(Handle), POINTER(Range), c_size_t], c_uint32)
    declare_call(library, "ta_rejected_ranges", [POINTER(Handle), POINTER(Rejected), c_size_t, POINTER(c_size_t)], c_uint32)
    declare_call(library, "ta_atomic_ranges", [POINTER(Handle), POINTER(Range), c_size_t, POINTER(c_size_t)], c_uint32)
    declare_call(library, "ta_normalize_cursor_around_atomic_ranges", [POINTER(Handle), c_uint32], c_uint32)
    declare_call(library, "ta_atomic_range_at_cursor", [POINTER(Handle), c_uint32, POINTER(Range)], c_uint32)
    declare_call(library, "ta_delete_atomic_range_at_cursor", [POINTER(Handle), c_uint32, POINTER(Range)], c_uint32)
    declare_call(library, "ta_set_tab_length", [POINTER(Handle), c_uint8], c_uint32)
    declare_call(library, "ta_set_hard_tab_indent", [POINTER(Handle), c_bool], c_uint32)
    declare_call(library, "ta_set_read_only", [POINTER(Handle), c_bool], c_uint32)
    declare_call(library, "ta_set_single_line", [POINTER(Handle), c_bool], c_uint32)
    declare_call(library, "ta_remove_line_number", [POINTER(Handle)], c_uint32)
    declare_call(library, "ta_set_min_rows", [POINTER(Handle), c_uint16], c_uint32)
    declare_call(library, "ta_set_max_rows", [POINTER(Handle), c_uint16], c_uint32)
    declare_call(library, "ta_read_only", [POINTER(Handle)], c_uint32)
    declare_call(library, "ta_single_line", [POINTER(Handle)], c_uint32)
    declare_call(library, "ta_tab_length", [POINTER(Handle), POINTER(c_uint8)], c_uint32)
    declare_call(library, "ta_hard_tab_indent", [POINTER(Handle)], c_uint32)
    declare_call(library, "ta_min_rows", [POINTER(Handle), POINTER(c_uint16)], c_uint32)
    declare_call(library, "ta_max_rows", [POINTER(Handle), POINTER(c_uint16)], c_uint32)
    declare_call(library, "ta_indent", [POINTER(Handle), POINTER(c_uint8), c_size_t, POINTER(c_size_t)], c_uint32)
    declare_call(library, "ta_set_max_chars", [POINTER(Handle), c_size_t], c_uint32)
    declare_call(library, "ta_clear_max_chars", [POINTER(Handle)], c_uint32)
    declare_call(library, "ta_max_chars", [POINTER(Handle), POINTER(c_size_t)], c_uint32)
    declare_call(library, "ta_set_cursor_unit", [POINTER(Handle), c_uint32], c_uint32)
    declare_call(library, "ta_cursor_unit", [POINTER(Handle), POINTER(c_uint32)], c_uint32)
    declare_call(library, "ta_set_wrap_mode", [POINTER(Handle), c_uint32], c_uint32)
    declare_call(library, "ta_wrap_mode", [POINTER(Handle), POINTER(c_uint32)], c_uint32)
    declare_call(library, "ta_set_line_number_style", [POINTER(Handle), POINTER(Style)], c_uint32)
    declare_call(library, "ta_line_number_style", [POINTER(Handle), POINTER(Style)], c_uint32)
    declare_call(library, "ta_set_alignment", [POINTER(Handle), c_uint32], c_uint32)
    declare_call(library, "ta_alignment", [POINTER(Handle), POINTER(c_uint32)], c_uint32)
    declare_call(library, "ta_measure", [POINTER(Handle), c_uint16, POINTER(Measure)], c_uint32)
    declare_call(library, "ta_set_style", [POINTER(Handle), POINTER(Style)], c_uint32)
    declare_call(library, "ta_set_cursor_style", [POINTER(Handle), POINTER(Style)], c_uint32)
    declare_call(library, "ta_set_cursor_line_style", [POINTER(Handle), POINTER(Style)], c_uint32)
    declare_call(library, "ta_set_cursor_line_number_style", [POINTER(Handle), POINTER(Style)], c_uint32)
    declare_call(library, "ta_set_selection_style", [POINTER(Handle), POINTER(Style)], c_uint32)
    declare_call(library, "ta_set_search_style", [POINTER(Handle), POINTER(Style)], c_uint32)
    declare_call(library, "ta_style", [POINTER(Handle), POINTER(Style)], c_uint32)
    declare_call(library, "ta_cursor_style", [POINTER(Handle), POINTER(Style)], c_uint32)
    declare_call(library, "ta_cursor_line_style", [POINTER(Handle), POINTER(Style)], c_uint32)
    declare_call(library, "ta_cursor_line_number_style", [POINTER(Handle), POINTER(Style)], c_uint32)
    declare_call(library, "ta_selection_style", [POINTER(Handle), POINTER(Style)], c_uint32)
    declare_call(library, "ta_search_style", [POINTER(Handle), POINTER(Style)], c_uint32)
    declare_call(library, "ta_clear_mask_char", [POINTER(Handle)], c_uint32)
    declare_call(library, "ta_clear_custom_highlight", [POINTER(Handle)], c_uint32)
    declare_call(library, "ta_set_mask_char", [POINTER(Handle), c_uint32], c_uint32)
    declare_call(library, "ta_mask_char", [POINTER(Handle), POINTER(c_uint32)], c_uint32)
    declare_call(library, "ta_set_cursor_render_mode", [POINTER(Handle), c_uint32], c_uint32)
    declare_call(library, "ta_cursor_render_mode", [POINTER(Handle), POINTER(c_uint32)], c_uint32)
    declare_call(library, "ta_custom_highlight", [POINTER(Handle), c_size_t, c_size_t, c_size_t, c_size_t, POINTER(Style), c_uint8], c_uint32)
    declare_call(library, "ta_set_block", [POINTER(Handle), POINTER(Block), POINTER(c_uint8), c_size_t, POINTER(Span), c_size_t], c_uint32)
    declare_call(library, "ta_remove_block", [POINTER(Handle)], c_uint32)
    declare_call(library, "ta_block", [POINTER(Handle), POINTER(Block), POINTER(c_uint8), c_size_t, POINTER(c_size_t), POINTER(Span), c_size_t, POINTER(c_size_t)], c_uint32)
    declare_call(library, "ta_set_placeholder_text", [POINTER(Handle), POINTER(c_uint8), c_size_t], c_uint32)
    declare_call(library, "ta_set_styled_placeholder", [POINTER(Handle), POINTER(c_uint8), c_size_t, POINTER(Span), c_size_t, POINTER(Line), c_size_t, POINTER(Style)], c_uint32)
    declare_call(library, "ta_set_placeholder_style", [POINTER(Handle), POINTER(Style)], c_uint32)
    declare_call(library, "ta_placeholder", [POINTER(Handle), POINTER(Style), POINTER(c_uint8), c_size_t, POINTER(c_size_t), POINTER(Span), c_size_t, POINTER(c_size_t), POINTER(Line), c_size_t, POINTER(c_size_t)], c_uint32)
    declare_call(library, "ta_placeholder_text", [POINTER(Handle), POINTER(c_uint8), c_size_t, POINTER(c_size_t)], c_uint32)
    declare_call(library, "ta_placeholder_style", [POINTER(Handle), POINTER(Style)], c_uint32)
    declare_call(library, "ta_screen_reset", [POINTER(Handle), POINTER(Area)], c_uint32)
    declare_call(library, "ta_screen_clear", [POINTER(Handle)], c_uint32)
    declare_call(library, "ta_screen_area", [POINTER(Handle), POINTER(Area)], c_uint32)
    declare_call(library, "ta_screen_put", [POINTER(Handle), c_uint16, c_uint16, POINTER(c_uint8), c_size_t, POINTER(Style)], c_uint32)
    declare_call(library, "ta_screen_set_style", [POINTER(Handle), POINTER(Area), POINTER(Style)], c_uint32)
    declare_call(library, "ta_screen_cell", [POINTER(Handle), c_uint16, c_uint16, POINTER(Cell)], c_uint32)
    declare_call(library, "ta_screen_symbol", [POINTER(Handle), c_uint16, c_uint16, POINTER(c_uint8), c_size_t, POINTER(c_size_t)], c_uint32)
    declare_call(library, "ta_screen_cells", [POINTER(Handle), POINTER(Cell), c_size_t, POINTER(c_size_t)], c_uint32)
    declare_call(library, "ta_render", [POINTER(Handle), POINTER(Area)], c_uint32)
    declare_call(library, "ta_rendered_cursor_position", [POINTER(Handle), POINTER(c_uint16), POINTER(c_uint16)], c_uint32)
    declare_call(library, "ta_cursor_at_position", [POINTER(Handle), c_uint16, c_uint16, POINTER(c_size_t), POINTER(c_size_t)], c_uint32)
    declare_call(library, "ta_viewport", [POINTER(Handle), POINTER(c_size_t), POINTER(c_size_t), POINTER(c_size_t), POINTER(c_size_t)], c_uint32)
    declare_call(library, "ta_terminal_new", [POINTER(TerminalHandle), POINTER(Area)], c_uint32)
    declare_call(library, "ta_terminal_free", [POINTER(TerminalHandle)], None)
    declare_call(library, "ta_decoder_feed", [POINTER(TerminalHandle), POINTER(c_uint8), c_size_t], c_uint32)
    declare_call(library, "ta_decoder_idle", [POINTER(TerminalHandle), c_uint32], c_uint32)
    declare_call(library, "ta_decoder_event", [POINTER(TerminalHandle), POINTER(Event)], c_uint32)
    declare_call(library, "ta_decoder_pasted", [POINTER(TerminalHandle), POINTER(c_uint8), c_size_t, POINTER(c_size_t)], c_uint32)
    declare_call(library, "ta_decoder_asked", [POINTER(TerminalHandle)], c_uint32)
    declare_call(library, "ta_decoder_set_resizes", [POINTER(TerminalHandle), c_bool], c_uint32)
    declare_call(library, "ta_decoder_set_console", [POINTER(TerminalHandle), c_bool], c_uint32)
    declare_call(library, "ta_painter_paint", [POINTER(TerminalHandle), POINTER(Handle), c_bool, c_uint16, c_uint16], c_uint32)
    declare_call(library, "ta_painter_bytes", [POINTER(TerminalHandle), POINTER(c_uint8), c_size_t, POINTER(c_size_t)], c_uint32)
    declare_call(library, "ta_painter_reset", [POINTER(TerminalHandle)], c_uint32)
    declare_call(library, "ta_painter_resize", [POINTER(TerminalHandle), POINTER(Area)], c_uint32)
    declare_call(library, "ta_painter_set_colors", [POINTER(TerminalHandle), c_uint32], c_uint32)
    declare_call(library, "ta_cursor_shape_bytes", [c_uint32, POINTER(c_uint8), c_size_t, POINTER(c_size_t)], c_uint32)
    declare_call(library, "ta_title_bytes", [POINTER(c_uint8), c_size_t, POINTER(c_uint8), c_size_t, POINTER(c_size_t)], c_uint32)
