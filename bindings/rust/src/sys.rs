//! Written by tools/c-binding from crates/textarea_c and crates/textarea_c_data. Do not edit.
#![allow(dead_code)]

pub const OK: u32 = 0;
pub const FALSE: u32 = 1;
pub const OUT_OF_MEMORY: u32 = 2;
pub const PATTERN_REJECTED: u32 = 3;
pub const RANGES_REJECTED: u32 = 4;
pub const EMPTY_HANDLE: u32 = 5;
pub const INVALID_ARGUMENT: u32 = 6;
pub const KEY_NULL: u32 = 0;
pub const KEY_CHAR: u32 = 1;
pub const KEY_F: u32 = 2;
pub const KEY_BACKSPACE: u32 = 3;
pub const KEY_ENTER: u32 = 4;
pub const KEY_LEFT: u32 = 5;
pub const KEY_RIGHT: u32 = 6;
pub const KEY_UP: u32 = 7;
pub const KEY_DOWN: u32 = 8;
pub const KEY_TAB: u32 = 9;
pub const KEY_DELETE: u32 = 10;
pub const KEY_HOME: u32 = 11;
pub const KEY_END: u32 = 12;
pub const KEY_PAGE_UP: u32 = 13;
pub const KEY_PAGE_DOWN: u32 = 14;
pub const KEY_ESC: u32 = 15;
pub const KEY_COPY: u32 = 16;
pub const KEY_CUT: u32 = 17;
pub const KEY_PASTE: u32 = 18;
pub const KEY_MOUSE_SCROLL_DOWN: u32 = 19;
pub const KEY_MOUSE_SCROLL_UP: u32 = 20;
pub const MOVE_FORWARD: u32 = 0;
pub const MOVE_BACK: u32 = 1;
pub const MOVE_UP: u32 = 2;
pub const MOVE_DOWN: u32 = 3;
pub const MOVE_HEAD: u32 = 4;
pub const MOVE_END: u32 = 5;
pub const MOVE_TOP: u32 = 6;
pub const MOVE_BOTTOM: u32 = 7;
pub const MOVE_WORD_FORWARD: u32 = 8;
pub const MOVE_WORD_END: u32 = 9;
pub const MOVE_WORD_BACK: u32 = 10;
pub const MOVE_PARAGRAPH_FORWARD: u32 = 11;
pub const MOVE_PARAGRAPH_BACK: u32 = 12;
pub const MOVE_IN_VIEWPORT: u32 = 13;
pub const SCROLL_PAGE_DOWN: u32 = 0;
pub const SCROLL_PAGE_UP: u32 = 1;
pub const SCROLL_HALF_PAGE_DOWN: u32 = 2;
pub const SCROLL_HALF_PAGE_UP: u32 = 3;
pub const BACKWARD: u32 = 0;
pub const FORWARD: u32 = 1;
pub const UNIT_CHARACTERS: u32 = 0;
pub const UNIT_BYTES: u32 = 1;
pub const UNIT_UTF16: u32 = 2;
pub const WRAP_NONE: u32 = 0;
pub const WRAP_WORD: u32 = 1;
pub const WRAP_GLYPH: u32 = 2;
pub const WRAP_WORD_OR_GLYPH: u32 = 3;
pub const ALIGNMENT_LEFT: u32 = 0;
pub const ALIGNMENT_CENTER: u32 = 1;
pub const ALIGNMENT_RIGHT: u32 = 2;
pub const CURSOR_CELL: u32 = 0;
pub const CURSOR_HIDDEN: u32 = 1;
pub const CURSOR_UNIT_CHARACTER: u32 = 0;
pub const CURSOR_UNIT_CLUSTER: u32 = 1;
pub const COLOR_NONE: u32 = 0;
pub const COLOR_RESET: u32 = 1;
pub const COLOR_BLACK: u32 = 2;
pub const COLOR_RED: u32 = 3;
pub const COLOR_GREEN: u32 = 4;
pub const COLOR_YELLOW: u32 = 5;
pub const COLOR_BLUE: u32 = 6;
pub const COLOR_MAGENTA: u32 = 7;
pub const COLOR_CYAN: u32 = 8;
pub const COLOR_GRAY: u32 = 9;
pub const COLOR_DARK_GRAY: u32 = 10;
pub const COLOR_LIGHT_RED: u32 = 11;
pub const COLOR_LIGHT_GREEN: u32 = 12;
pub const COLOR_LIGHT_YELLOW: u32 = 13;
pub const COLOR_LIGHT_BLUE: u32 = 14;
pub const COLOR_LIGHT_MAGENTA: u32 = 15;
pub const COLOR_LIGHT_CYAN: u32 = 16;
pub const COLOR_WHITE: u32 = 17;
pub const COLOR_RGB: u32 = 18;
pub const COLOR_INDEXED: u32 = 19;
pub const REASON_EMPTY: u32 = 0;
pub const REASON_ROW_OUT_OF_BOUNDS: u32 = 1;
pub const REASON_COLUMN_OUT_OF_BOUNDS: u32 = 2;
pub const REASON_OVERLAPS_PREVIOUS: u32 = 3;
pub const EVENT_UNKNOWN: u32 = 0;
pub const EVENT_INPUT: u32 = 1;
pub const EVENT_PASTE: u32 = 2;
pub const EVENT_MOUSE: u32 = 3;
pub const EVENT_SIZE: u32 = 4;
pub const EVENT_CURSOR: u32 = 5;
pub const EVENT_FOCUS_GAINED: u32 = 6;
pub const EVENT_FOCUS_LOST: u32 = 7;
pub const MOUSE_PRESS: u32 = 0;
pub const MOUSE_RELEASE: u32 = 1;
pub const MOUSE_DRAG: u32 = 2;
pub const MOUSE_MOVE: u32 = 3;
pub const MOUSE_RELEASE_ANY: u32 = 4;
pub const MOUSE_WHEEL_LEFT: u32 = 5;
pub const MOUSE_WHEEL_RIGHT: u32 = 6;
pub const BUTTON_LEFT: u32 = 0;
pub const BUTTON_MIDDLE: u32 = 1;
pub const BUTTON_RIGHT: u32 = 2;
pub const COLORS_NONE: u32 = 0;
pub const COLORS_SIXTEEN: u32 = 1;
pub const COLORS_INDEXED: u32 = 2;
pub const COLORS_TRUE: u32 = 3;
pub const SHAPE_DEFAULT: u32 = 0;
pub const SHAPE_BLINKING_BLOCK: u32 = 1;
pub const SHAPE_BLOCK: u32 = 2;
pub const SHAPE_BLINKING_UNDERLINE: u32 = 3;
pub const SHAPE_UNDERLINE: u32 = 4;
pub const SHAPE_BLINKING_BAR: u32 = 5;
pub const SHAPE_BAR: u32 = 6;
pub const BORDER_TOP: u32 = 1;
pub const BORDER_RIGHT: u32 = 2;
pub const BORDER_BOTTOM: u32 = 4;
pub const BORDER_LEFT: u32 = 8;
pub const MODIFIER_BOLD: u32 = 1;
pub const MODIFIER_DIM: u32 = 2;
pub const MODIFIER_ITALIC: u32 = 4;
pub const MODIFIER_UNDERLINED: u32 = 8;
pub const MODIFIER_SLOW_BLINK: u32 = 16;
pub const MODIFIER_RAPID_BLINK: u32 = 32;
pub const MODIFIER_REVERSED: u32 = 64;
pub const MODIFIER_HIDDEN: u32 = 128;
pub const MODIFIER_CROSSED_OUT: u32 = 256;

#[repr(C)]
pub struct Held {
    pub at: *mut core::ffi::c_void,
}

#[repr(C)]
pub struct Handle {
    pub stored: Held,
    pub full: bool,
}

#[repr(C)]
pub struct HeldTerminal {
    pub at: *mut core::ffi::c_void,
}

#[repr(C)]
pub struct TerminalHandle {
    pub stored: HeldTerminal,
    pub full: bool,
}

#[repr(C)]
#[derive(Clone, Copy)]
pub struct Area {
    pub x: u16,
    pub y: u16,
    pub width: u16,
    pub height: u16,
}

#[repr(C)]
#[derive(Clone, Copy)]
pub struct Padding {
    pub left: u16,
    pub right: u16,
    pub top: u16,
    pub bottom: u16,
}

#[repr(C)]
#[derive(Clone, Copy)]
pub struct Color {
    pub kind: u8,
    pub red: u8,
    pub green: u8,
    pub blue: u8,
}

#[repr(C)]
#[derive(Clone, Copy)]
pub struct Cell {
    pub fg: Color,
    pub bg: Color,
    pub modifier: u16,
    pub bytes: u16,
    pub symbol: [u8; 24],
}

#[repr(C)]
#[derive(Clone, Copy)]
pub struct Input {
    pub key: u32,
    pub argument: u32,
    pub ctrl: bool,
    pub alt: bool,
    pub shift: bool,
}

#[repr(C)]
#[derive(Clone, Copy)]
pub struct Event {
    pub kind: u32,
    pub input: Input,
    pub mouse: u32,
    pub button: u32,
    pub column: u16,
    pub row: u16,
    pub bytes: usize,
}

#[repr(C)]
#[derive(Clone, Copy)]
pub struct Measure {
    pub content_rows: u16,
    pub preferred_rows: u16,
    pub min_rows: u16,
    pub max_rows: u16,
}

#[repr(C)]
#[derive(Clone, Copy)]
pub struct Range {
    pub row: usize,
    pub start_col: usize,
    pub end_col: usize,
}

#[repr(C)]
#[derive(Clone, Copy)]
pub struct Rejected {
    pub range: Range,
    pub reason: u32,
}

#[repr(C)]
#[derive(Clone, Copy)]
pub struct Style {
    pub fg: Color,
    pub bg: Color,
    pub add_modifier: u16,
    pub sub_modifier: u16,
}

#[repr(C)]
#[derive(Clone, Copy)]
pub struct Span {
    pub bytes: usize,
    pub style: Style,
}

#[repr(C)]
#[derive(Clone, Copy)]
pub struct Line {
    pub spans: usize,
    pub style: Style,
}

#[repr(C)]
#[derive(Clone, Copy)]
pub struct Block {
    pub borders: u8,
    pub has_title: bool,
    pub padding: Padding,
    pub style: Style,
    pub border_style: Style,
    pub title_style: Style,
}

unsafe extern "C" {
    pub fn ta_new(handle: *mut Handle) -> u32;
    pub fn ta_from_text(handle: *mut Handle, text: *const u8, text_len: usize) -> u32;
    pub fn ta_free(handle: *mut Handle);
    pub fn ta_clone(handle: *mut Handle, copy: *mut Handle) -> u32;
    pub fn ta_set_lines(handle: *mut Handle, text: *const u8, text_len: usize, ends: *const usize, ends_len: usize, row: usize, column: usize) -> u32;
    pub fn ta_line_count(handle: *mut Handle, count: *mut usize) -> u32;
    pub fn ta_line(handle: *mut Handle, row: usize, out: *mut u8, out_len: usize, needed: *mut usize) -> u32;
    pub fn ta_lines(handle: *mut Handle, out: *mut u8, out_len: usize, needed: *mut usize, ends: *mut usize, ends_len: usize, count: *mut usize) -> u32;
    pub fn ta_text(handle: *mut Handle, out: *mut u8, out_len: usize, needed: *mut usize) -> u32;
    pub fn ta_is_empty(handle: *mut Handle) -> u32;
    pub fn ta_duplicate_line(handle: *mut Handle) -> u32;
    pub fn ta_move_lines_up(handle: *mut Handle) -> u32;
    pub fn ta_move_lines_down(handle: *mut Handle) -> u32;
    pub fn ta_insert_char(handle: *mut Handle, character: u32) -> u32;
    pub fn ta_insert_newline(handle: *mut Handle) -> u32;
    pub fn ta_insert_str(handle: *mut Handle, text: *const u8, text_len: usize) -> u32;
    pub fn ta_insert_pasted(handle: *mut Handle, text: *const u8, text_len: usize) -> u32;
    pub fn ta_insert_tab(handle: *mut Handle) -> u32;
    pub fn ta_paste(handle: *mut Handle) -> u32;
    pub fn ta_text_range(handle: *mut Handle, from_row: usize, from_column: usize, to_row: usize, to_column: usize, out: *mut u8, out_len: usize, needed: *mut usize) -> u32;
    pub fn ta_replace_range(handle: *mut Handle, from_row: usize, from_column: usize, to_row: usize, to_column: usize, text: *const u8, text_len: usize) -> u32;
    pub fn ta_replace_match(handle: *mut Handle, text: *const u8, text_len: usize) -> u32;
    pub fn ta_replace_all(handle: *mut Handle, text: *const u8, text_len: usize, count: *mut usize) -> u32;
    pub fn ta_indent_lines(handle: *mut Handle) -> u32;
    pub fn ta_outdent_lines(handle: *mut Handle) -> u32;
    pub fn ta_delete_char(handle: *mut Handle) -> u32;
    pub fn ta_delete_next_char(handle: *mut Handle) -> u32;
    pub fn ta_delete_newline(handle: *mut Handle) -> u32;
    pub fn ta_delete_str(handle: *mut Handle, count: usize) -> u32;
    pub fn ta_delete_line_by_end(handle: *mut Handle) -> u32;
    pub fn ta_delete_line_by_head(handle: *mut Handle) -> u32;
    pub fn ta_clear(handle: *mut Handle) -> u32;
    pub fn ta_cut(handle: *mut Handle) -> u32;
    pub fn ta_delete_word(handle: *mut Handle) -> u32;
    pub fn ta_delete_next_word(handle: *mut Handle) -> u32;
    pub fn ta_input(handle: *mut Handle, input: *const Input) -> u32;
    pub fn ta_input_without_shortcuts(handle: *mut Handle, input: *const Input) -> u32;
    pub fn ta_undo(handle: *mut Handle) -> u32;
    pub fn ta_redo(handle: *mut Handle) -> u32;
    pub fn ta_set_max_histories(handle: *mut Handle, maximum: usize) -> u32;
    pub fn ta_set_undo_coalescing(handle: *mut Handle, joins: bool) -> u32;
    pub fn ta_set_undo_grouping(handle: *mut Handle, groups: bool) -> u32;
    pub fn ta_set_undo_ranges(handle: *mut Handle, on: bool) -> u32;
    pub fn ta_begin_undo_group(handle: *mut Handle) -> u32;
    pub fn ta_end_undo_group(handle: *mut Handle) -> u32;
    pub fn ta_end_run(handle: *mut Handle) -> u32;
    pub fn ta_max_histories(handle: *mut Handle, max_histories: *mut usize) -> u32;
    pub fn ta_undo_coalescing(handle: *mut Handle) -> u32;
    pub fn ta_undo_grouping(handle: *mut Handle) -> u32;
    pub fn ta_undo_ranges(handle: *mut Handle) -> u32;
    pub fn ta_set_now(handle: *mut Handle, nanoseconds: u64) -> u32;
    pub fn ta_set_change_log(handle: *mut Handle, unit: u32) -> u32;
    pub fn ta_remove_change_log(handle: *mut Handle) -> u32;
    pub fn ta_take_changes(handle: *mut Handle, count: *mut usize) -> u32;
    pub fn ta_change(handle: *mut Handle, index: usize, start_row: *mut usize, start_column: *mut usize, end_row: *mut usize, end_column: *mut usize, lines: *mut usize) -> u32;
    pub fn ta_change_line(handle: *mut Handle, index: usize, row: usize, out: *mut u8, out_len: usize, needed: *mut usize) -> u32;
    pub fn ta_move_cursor(handle: *mut Handle, cursor_move: u32) -> u32;
    pub fn ta_jump(handle: *mut Handle, row: u16, column: u16) -> u32;
    pub fn ta_go_to(handle: *mut Handle, row: usize, column: usize) -> u32;
    pub fn ta_cursor(handle: *mut Handle, row: *mut usize, column: *mut usize) -> u32;
    pub fn ta_scroll(handle: *mut Handle, rows: i16, columns: i16) -> u32;
    pub fn ta_scroll_page(handle: *mut Handle, page: u32) -> u32;
    pub fn ta_start_selection(handle: *mut Handle) -> u32;
    pub fn ta_cancel_selection(handle: *mut Handle) -> u32;
    pub fn ta_select_all(handle: *mut Handle) -> u32;
    pub fn ta_copy(handle: *mut Handle) -> u32;
    pub fn ta_is_selecting(handle: *mut Handle) -> u32;
    pub fn ta_selection_range(handle: *mut Handle, start_row: *mut usize, start_column: *mut usize, end_row: *mut usize, end_column: *mut usize) -> u32;
    pub fn ta_yank_text(handle: *mut Handle, out: *mut u8, out_len: usize, needed: *mut usize) -> u32;
    pub fn ta_set_yank_text(handle: *mut Handle, text: *const u8, text_len: usize) -> u32;
    pub fn ta_set_search_pattern(handle: *mut Handle, pattern: *const u8, pattern_len: usize) -> u32;
    pub fn ta_set_search_text(handle: *mut Handle, text: *const u8, text_len: usize, ignore_case: bool, whole_word: bool) -> u32;
    pub fn ta_match_count(handle: *mut Handle, count: *mut usize) -> u32;
    pub fn ta_match_index(handle: *mut Handle, index: *mut usize) -> u32;
    pub fn ta_pattern_error(handle: *mut Handle, out: *mut u8, out_len: usize, needed: *mut usize) -> u32;
    pub fn ta_search_pattern(handle: *mut Handle, out: *mut u8, out_len: usize, needed: *mut usize) -> u32;
    pub fn ta_search_forward(handle: *mut Handle, match_cursor: bool) -> u32;
    pub fn ta_search_back(handle: *mut Handle, match_cursor: bool) -> u32;
    pub fn ta_clear_atomic_ranges(handle: *mut Handle) -> u32;
    pub fn ta_set_atomic_ranges(handle: *mut Handle, ranges: *const Range, ranges_len: usize) -> u32;
    pub fn ta_rejected_ranges(handle: *mut Handle, out: *mut Rejected, out_len: usize, needed: *mut usize) -> u32;
    pub fn ta_atomic_ranges(handle: *mut Handle, out: *mut Range, out_len: usize, needed: *mut usize) -> u32;
    pub fn ta_normalize_cursor_around_atomic_ranges(handle: *mut Handle, bias: u32) -> u32;
    pub fn ta_atomic_range_at_cursor(handle: *mut Handle, direction: u32, range: *mut Range) -> u32;
    pub fn ta_delete_atomic_range_at_cursor(handle: *mut Handle, direction: u32, range: *mut Range) -> u32;
    pub fn ta_set_tab_length(handle: *mut Handle, columns: u8) -> u32;
    pub fn ta_set_hard_tab_indent(handle: *mut Handle, hard: bool) -> u32;
    pub fn ta_set_read_only(handle: *mut Handle, read_only: bool) -> u32;
    pub fn ta_set_single_line(handle: *mut Handle, single_line: bool) -> u32;
    pub fn ta_remove_line_number(handle: *mut Handle) -> u32;
    pub fn ta_set_min_rows(handle: *mut Handle, rows: u16) -> u32;
    pub fn ta_set_max_rows(handle: *mut Handle, rows: u16) -> u32;
    pub fn ta_read_only(handle: *mut Handle) -> u32;
    pub fn ta_single_line(handle: *mut Handle) -> u32;
    pub fn ta_tab_length(handle: *mut Handle, tab_length: *mut u8) -> u32;
    pub fn ta_hard_tab_indent(handle: *mut Handle) -> u32;
    pub fn ta_min_rows(handle: *mut Handle, min_rows: *mut u16) -> u32;
    pub fn ta_max_rows(handle: *mut Handle, max_rows: *mut u16) -> u32;
    pub fn ta_indent(handle: *mut Handle, out: *mut u8, out_len: usize, needed: *mut usize) -> u32;
    pub fn ta_set_max_chars(handle: *mut Handle, maximum: usize) -> u32;
    pub fn ta_clear_max_chars(handle: *mut Handle) -> u32;
    pub fn ta_max_chars(handle: *mut Handle, maximum: *mut usize) -> u32;
    pub fn ta_set_cursor_unit(handle: *mut Handle, unit: u32) -> u32;
    pub fn ta_cursor_unit(handle: *mut Handle, unit: *mut u32) -> u32;
    pub fn ta_set_wrap_mode(handle: *mut Handle, mode: u32) -> u32;
    pub fn ta_wrap_mode(handle: *mut Handle, mode: *mut u32) -> u32;
    pub fn ta_set_line_number_style(handle: *mut Handle, style: *const Style) -> u32;
    pub fn ta_line_number_style(handle: *mut Handle, style: *mut Style) -> u32;
    pub fn ta_set_alignment(handle: *mut Handle, alignment: u32) -> u32;
    pub fn ta_alignment(handle: *mut Handle, alignment: *mut u32) -> u32;
    pub fn ta_measure(handle: *mut Handle, width: u16, measure: *mut Measure) -> u32;
    pub fn ta_set_style(handle: *mut Handle, style: *const Style) -> u32;
    pub fn ta_set_cursor_style(handle: *mut Handle, style: *const Style) -> u32;
    pub fn ta_set_cursor_line_style(handle: *mut Handle, style: *const Style) -> u32;
    pub fn ta_set_cursor_line_number_style(handle: *mut Handle, style: *const Style) -> u32;
    pub fn ta_set_selection_style(handle: *mut Handle, style: *const Style) -> u32;
    pub fn ta_set_search_style(handle: *mut Handle, style: *const Style) -> u32;
    pub fn ta_style(handle: *mut Handle, style: *mut Style) -> u32;
    pub fn ta_cursor_style(handle: *mut Handle, style: *mut Style) -> u32;
    pub fn ta_cursor_line_style(handle: *mut Handle, style: *mut Style) -> u32;
    pub fn ta_cursor_line_number_style(handle: *mut Handle, style: *mut Style) -> u32;
    pub fn ta_selection_style(handle: *mut Handle, style: *mut Style) -> u32;
    pub fn ta_search_style(handle: *mut Handle, style: *mut Style) -> u32;
    pub fn ta_clear_mask_char(handle: *mut Handle) -> u32;
    pub fn ta_clear_custom_highlight(handle: *mut Handle) -> u32;
    pub fn ta_set_mask_char(handle: *mut Handle, mask: u32) -> u32;
    pub fn ta_mask_char(handle: *mut Handle, mask: *mut u32) -> u32;
    pub fn ta_set_cursor_render_mode(handle: *mut Handle, mode: u32) -> u32;
    pub fn ta_cursor_render_mode(handle: *mut Handle, mode: *mut u32) -> u32;
    pub fn ta_custom_highlight(handle: *mut Handle, start_row: usize, start_byte: usize, end_row: usize, end_byte: usize, style: *const Style, priority: u8) -> u32;
    pub fn ta_set_block(handle: *mut Handle, block: *const Block, title: *const u8, title_len: usize, spans: *const Span, spans_len: usize) -> u32;
    pub fn ta_remove_block(handle: *mut Handle) -> u32;
    pub fn ta_block(handle: *mut Handle, block: *mut Block, title: *mut u8, title_len: usize, title_needed: *mut usize, spans: *mut Span, spans_len: usize, spans_needed: *mut usize) -> u32;
    pub fn ta_set_placeholder_text(handle: *mut Handle, text: *const u8, text_len: usize) -> u32;
    pub fn ta_set_styled_placeholder(handle: *mut Handle, text: *const u8, text_len: usize, spans: *const Span, spans_len: usize, lines: *const Line, lines_len: usize, style: *const Style) -> u32;
    pub fn ta_set_placeholder_style(handle: *mut Handle, style: *const Style) -> u32;
    pub fn ta_placeholder(handle: *mut Handle, style: *mut Style, text: *mut u8, text_len: usize, text_needed: *mut usize, spans: *mut Span, spans_len: usize, spans_needed: *mut usize, lines: *mut Line, lines_len: usize, lines_needed: *mut usize) -> u32;
    pub fn ta_placeholder_text(handle: *mut Handle, out: *mut u8, out_len: usize, needed: *mut usize) -> u32;
    pub fn ta_placeholder_style(handle: *mut Handle, style: *mut Style) -> u32;
    pub fn ta_screen_reset(handle: *mut Handle, area: *const Area) -> u32;
    pub fn ta_screen_clear(handle: *mut Handle) -> u32;
    pub fn ta_screen_area(handle: *mut Handle, area: *mut Area) -> u32;
    pub fn ta_screen_put(handle: *mut Handle, x: u16, y: u16, text: *const u8, text_len: usize, style: *const Style) -> u32;
    pub fn ta_screen_set_style(handle: *mut Handle, area: *const Area, style: *const Style) -> u32;
    pub fn ta_screen_cell(handle: *mut Handle, x: u16, y: u16, cell: *mut Cell) -> u32;
    pub fn ta_screen_symbol(handle: *mut Handle, x: u16, y: u16, out: *mut u8, out_len: usize, needed: *mut usize) -> u32;
    pub fn ta_screen_cells(handle: *mut Handle, out: *mut Cell, out_len: usize, needed: *mut usize) -> u32;
    pub fn ta_render(handle: *mut Handle, area: *const Area) -> u32;
    pub fn ta_rendered_cursor_position(handle: *mut Handle, x: *mut u16, y: *mut u16) -> u32;
    pub fn ta_cursor_at_position(handle: *mut Handle, x: u16, y: u16, row: *mut usize, column: *mut usize) -> u32;
    pub fn ta_viewport(handle: *mut Handle, row: *mut usize, column: *mut usize, width: *mut usize, height: *mut usize) -> u32;
    pub fn ta_terminal_new(terminal: *mut TerminalHandle, area: *const Area) -> u32;
    pub fn ta_terminal_free(terminal: *mut TerminalHandle);
    pub fn ta_decoder_feed(terminal: *mut TerminalHandle, bytes: *const u8, bytes_len: usize) -> u32;
    pub fn ta_decoder_idle(terminal: *mut TerminalHandle, milliseconds: u32) -> u32;
    pub fn ta_decoder_event(terminal: *mut TerminalHandle, event: *mut Event) -> u32;
    pub fn ta_decoder_pasted(terminal: *mut TerminalHandle, out: *mut u8, out_len: usize, needed: *mut usize) -> u32;
    pub fn ta_decoder_asked(terminal: *mut TerminalHandle) -> u32;
    pub fn ta_decoder_set_resizes(terminal: *mut TerminalHandle, resizes: bool) -> u32;
    pub fn ta_decoder_set_console(terminal: *mut TerminalHandle, console: bool) -> u32;
    pub fn ta_painter_paint(terminal: *mut TerminalHandle, handle: *mut Handle, has_caret: bool, x: u16, y: u16) -> u32;
    pub fn ta_painter_bytes(terminal: *mut TerminalHandle, out: *mut u8, out_len: usize, needed: *mut usize) -> u32;
    pub fn ta_painter_reset(terminal: *mut TerminalHandle) -> u32;
    pub fn ta_painter_resize(terminal: *mut TerminalHandle, area: *const Area) -> u32;
    pub fn ta_painter_set_colors(terminal: *mut TerminalHandle, colors: u32) -> u32;
    pub fn ta_cursor_shape_bytes(shape: u32, out: *mut u8, out_len: usize, needed: *mut usize) -> u32;
    pub fn ta_title_bytes(title: *const u8, title_len: usize, out: *mut u8, out_len: usize, needed: *mut usize) -> u32;
}
