/* Written by tools/c-binding from crates/textarea_c and crates/textarea_c_data. Do not edit. */
/** A text area, a multi-line editor widget for terminals.
 *
 * A program makes a handle with all bytes zero, passes its address to `ta_new`, to other calls, and
 * to `ta_free` at the end:
 *
 *     ta_handle_t area = {0};
 *     if (ta_new(&area) != TA_OK) ..
 *     ta_insert_str(&area, (const uint8_t *)"one\ntwo", 7);
 *     ta_free(&area);
 *
 * Each call but `ta_free` returns a status. Each returns TA_EMPTY_HANDLE, and does nothing else, if
 * there is no text area behind the handle, as before `ta_new` and after `ta_free`. It writes to what
 * other parameters point to only if it returns TA_OK, where its comment says nothing else.
 *
 * A program that has no library for its terminal makes a terminal, too, by `ta_terminal_new`, with the
 * same rules: `ta_decoder_feed` takes the bytes that the terminal sends, `ta_decoder_event` returns
 * keys for `ta_input`, and `ta_painter_paint` makes the bytes that show what `ta_render` drew.
 *
 * The library owes its promises to callers that keep to these rules:
 *
 * - A handle begins as zeroes. Only the library writes it, no copy of it is used beside it, only one
 *   call has it at a time, and all its calls are on one thread.
 * - No pointer is null, not even that of a slice of length 0, and each points to a value of its type,
 *   or to as many as the length after it says. What parameters of one call point to does not overlap,
 *   where one of them is not const.
 * - A `bool` is true or false.
 * - No call is made from a signal handler, or in the forked child of a process with threads.
 *
 * Texts are UTF-8. Rows and columns count from 0, columns in characters. A call that runs out of
 * memory leaves the text area unchanged; only an insertion may have removed the selected text. */
#ifndef TEXTAREA_H
#define TEXTAREA_H

#include <stdbool.h>
#include <stddef.h>
#include <stdint.h>

#ifdef __cplusplus
extern "C" {
#endif

/** What the calls return. */
enum {
    /** The call was made. If it returns whether it did something, it did; if it returns something that
     * may not be there, it is there. */
    TA_OK = 0,
    /** The call was made, and did nothing, or there is nothing to return. */
    TA_FALSE = 1,
    /** Memory ran out. */
    TA_OUT_OF_MEMORY = 2,
    /** The search pattern is not one of `regex`. */
    TA_PATTERN_REJECTED = 3,
    /** The atomic ranges are not valid for the text. */
    TA_RANGES_REJECTED = 4,
    /** There is nothing behind the handle. */
    TA_EMPTY_HANDLE = 5,
    /** An argument has a value that its type in C allows, but the call does not. */
    TA_INVALID_ARGUMENT = 6,
};

/** `Key`. */
enum {
    TA_KEY_NULL = 0,
    TA_KEY_CHAR = 1,
    TA_KEY_F = 2,
    TA_KEY_BACKSPACE = 3,
    TA_KEY_ENTER = 4,
    TA_KEY_LEFT = 5,
    TA_KEY_RIGHT = 6,
    TA_KEY_UP = 7,
    TA_KEY_DOWN = 8,
    TA_KEY_TAB = 9,
    TA_KEY_DELETE = 10,
    TA_KEY_HOME = 11,
    TA_KEY_END = 12,
    TA_KEY_PAGE_UP = 13,
    TA_KEY_PAGE_DOWN = 14,
    TA_KEY_ESC = 15,
    TA_KEY_COPY = 16,
    TA_KEY_CUT = 17,
    TA_KEY_PASTE = 18,
    TA_KEY_MOUSE_SCROLL_DOWN = 19,
    TA_KEY_MOUSE_SCROLL_UP = 20,
};

/** `CursorMove`. */
enum {
    TA_MOVE_FORWARD = 0,
    TA_MOVE_BACK = 1,
    TA_MOVE_UP = 2,
    TA_MOVE_DOWN = 3,
    TA_MOVE_HEAD = 4,
    TA_MOVE_END = 5,
    TA_MOVE_TOP = 6,
    TA_MOVE_BOTTOM = 7,
    TA_MOVE_WORD_FORWARD = 8,
    TA_MOVE_WORD_END = 9,
    TA_MOVE_WORD_BACK = 10,
    TA_MOVE_PARAGRAPH_FORWARD = 11,
    TA_MOVE_PARAGRAPH_BACK = 12,
    TA_MOVE_IN_VIEWPORT = 13,
};

/** `Scrolling`. */
enum {
    TA_SCROLL_PAGE_DOWN = 0,
    TA_SCROLL_PAGE_UP = 1,
    TA_SCROLL_HALF_PAGE_DOWN = 2,
    TA_SCROLL_HALF_PAGE_UP = 3,
};

/** `AtomicCursorBias`. */
enum {
    TA_BACKWARD = 0,
    TA_FORWARD = 1,
};

/** `ChangeUnit`. */
enum {
    TA_UNIT_CHARACTERS = 0,
    TA_UNIT_BYTES = 1,
    TA_UNIT_UTF16 = 2,
};

/** `WrapMode`. */
enum {
    TA_WRAP_NONE = 0,
    TA_WRAP_WORD = 1,
    TA_WRAP_GLYPH = 2,
    TA_WRAP_WORD_OR_GLYPH = 3,
};

/** `Alignment`. */
enum {
    TA_ALIGNMENT_LEFT = 0,
    TA_ALIGNMENT_CENTER = 1,
    TA_ALIGNMENT_RIGHT = 2,
};

/** `CursorRenderMode`. */
enum {
    TA_CURSOR_CELL = 0,
    TA_CURSOR_HIDDEN = 1,
};

/** `CursorUnit`. */
enum {
    TA_CURSOR_UNIT_CHARACTER = 0,
    TA_CURSOR_UNIT_CLUSTER = 1,
};

/** `Color`. */
enum {
    TA_COLOR_NONE = 0,
    TA_COLOR_RESET = 1,
    TA_COLOR_BLACK = 2,
    TA_COLOR_RED = 3,
    TA_COLOR_GREEN = 4,
    TA_COLOR_YELLOW = 5,
    TA_COLOR_BLUE = 6,
    TA_COLOR_MAGENTA = 7,
    TA_COLOR_CYAN = 8,
    TA_COLOR_GRAY = 9,
    TA_COLOR_DARK_GRAY = 10,
    TA_COLOR_LIGHT_RED = 11,
    TA_COLOR_LIGHT_GREEN = 12,
    TA_COLOR_LIGHT_YELLOW = 13,
    TA_COLOR_LIGHT_BLUE = 14,
    TA_COLOR_LIGHT_MAGENTA = 15,
    TA_COLOR_LIGHT_CYAN = 16,
    TA_COLOR_WHITE = 17,
    TA_COLOR_RGB = 18,
    TA_COLOR_INDEXED = 19,
};

/** `AtomicRangeRejectReason`. */
enum {
    TA_REASON_EMPTY = 0,
    TA_REASON_ROW_OUT_OF_BOUNDS = 1,
    TA_REASON_COLUMN_OUT_OF_BOUNDS = 2,
    TA_REASON_OVERLAPS_PREVIOUS = 3,
};

/** `Event`. */
enum {
    TA_EVENT_UNKNOWN = 0,
    TA_EVENT_INPUT = 1,
    TA_EVENT_PASTE = 2,
    TA_EVENT_MOUSE = 3,
    TA_EVENT_SIZE = 4,
    TA_EVENT_CURSOR = 5,
    TA_EVENT_FOCUS_GAINED = 6,
    TA_EVENT_FOCUS_LOST = 7,
};

/** `MouseKind`. */
enum {
    TA_MOUSE_PRESS = 0,
    TA_MOUSE_RELEASE = 1,
    TA_MOUSE_DRAG = 2,
    TA_MOUSE_MOVE = 3,
    TA_MOUSE_RELEASE_ANY = 4,
    TA_MOUSE_WHEEL_LEFT = 5,
    TA_MOUSE_WHEEL_RIGHT = 6,
};

/** `MouseButton`. */
enum {
    TA_BUTTON_LEFT = 0,
    TA_BUTTON_MIDDLE = 1,
    TA_BUTTON_RIGHT = 2,
};

/** `Colors`. */
enum {
    TA_COLORS_NONE = 0,
    TA_COLORS_SIXTEEN = 1,
    TA_COLORS_INDEXED = 2,
    TA_COLORS_TRUE = 3,
};

/** `CursorShape`. */
enum {
    TA_SHAPE_DEFAULT = 0,
    TA_SHAPE_BLINKING_BLOCK = 1,
    TA_SHAPE_BLOCK = 2,
    TA_SHAPE_BLINKING_UNDERLINE = 3,
    TA_SHAPE_UNDERLINE = 4,
    TA_SHAPE_BLINKING_BAR = 5,
    TA_SHAPE_BAR = 6,
};

/** `Borders`, a set of bits. */
enum {
    TA_BORDER_TOP = 1,
    TA_BORDER_RIGHT = 2,
    TA_BORDER_BOTTOM = 4,
    TA_BORDER_LEFT = 8,
};

/** `Modifier`, a set of bits. */
enum {
    TA_MODIFIER_BOLD = 1,
    TA_MODIFIER_DIM = 2,
    TA_MODIFIER_ITALIC = 4,
    TA_MODIFIER_UNDERLINED = 8,
    TA_MODIFIER_SLOW_BLINK = 16,
    TA_MODIFIER_RAPID_BLINK = 32,
    TA_MODIFIER_REVERSED = 64,
    TA_MODIFIER_HIDDEN = 128,
    TA_MODIFIER_CROSSED_OUT = 256,
};

/** A pointer to an editor, or null. Dropping one forgets the editor, so a handle drops none that
 * has one. */
typedef struct ta_held_t {
    void *at;
} ta_held_t;

/** What C has of a text area, with its screen. C makes one with all bytes zero, which is empty, and
 * passes it by its address to `ta_new`, then to other calls, and to `ta_free` at the end. C reads
 * and writes none of its fields, and uses no copy of it beside it. It may move between the calls,
 * but only one call has it at a time, and all calls are on one thread. */
typedef struct ta_handle_t {
    ta_held_t stored;
    bool full;
} ta_handle_t;

/** A pointer to a terminal, or null. Dropping one forgets the terminal, so a handle drops none that
 * has one. */
typedef struct ta_held_terminal_t {
    void *at;
} ta_held_terminal_t;

/** What C has of a terminal: a decoder of the bytes that it sends, and a painter of frames for it. C
 * makes one with all bytes zero, which is empty, and passes it by its address to `ta_terminal_new`,
 * then to other calls, and to `ta_terminal_free` at the end. The rules are those of a text area's. */
typedef struct ta_terminal_handle_t {
    ta_held_terminal_t stored;
    bool full;
} ta_terminal_handle_t;

/** A rectangle of cells: its left column, its top row, its width and its height. */
typedef struct ta_area_t {
    uint16_t x;
    uint16_t y;
    uint16_t width;
    uint16_t height;
} ta_area_t;

/** Free columns and rows at the four sides of a rectangle. */
typedef struct ta_padding_t {
    uint16_t left;
    uint16_t right;
    uint16_t top;
    uint16_t bottom;
} ta_padding_t;

/** A colour, or none: its kind is one of `TA_COLOR_..`. An RGB colour has its three parts here, and
 * an indexed one its number in `red`. With all bytes zero it is none. */
typedef struct ta_color_t {
    uint8_t kind;
    uint8_t red;
    uint8_t green;
    uint8_t blue;
} ta_color_t;

/** A drawn cell: its colours and modifiers, the number of bytes of its text, at most 65535, and the
 * first of these bytes, with zeroes after the text. `ta_screen_symbol` returns a longer text as a
 * whole. */
typedef struct ta_cell_t {
    ta_color_t fg;
    ta_color_t bg;
    uint16_t modifier;
    uint16_t bytes;
    uint8_t symbol[24];
} ta_cell_t;

/** A key with the modifiers that are pressed. The key is one of `TA_KEY_..`; `argument` is the
 * number of the character for `TA_KEY_CHAR`, of the function key for `TA_KEY_F`, and ignored for
 * any other key. With all bytes zero it is no key, which text areas ignore. */
typedef struct ta_input_t {
    uint32_t key;
    uint32_t argument;
    bool ctrl;
    bool alt;
    bool shift;
} ta_input_t;

/** An event that a terminal reports. Its kind is one of `TA_EVENT_..`, and fields that a kind doesn't
 * name are 0.
 *
 * - `TA_EVENT_INPUT`: `input`, for `ta_input`.
 * - `TA_EVENT_PASTE`: `bytes`, the length of the text, which `ta_decoder_pasted` returns.
 * - `TA_EVENT_MOUSE`: `mouse`, one of `TA_MOUSE_..`; `button`, one of `TA_BUTTON_..` or the number of a
 *   further one, from 8 on; the cell's `column` and `row`, from 0; and the modifiers in `input`.
 * - `TA_EVENT_SIZE`: the numbers of columns and rows, in `column` and `row`.
 * - `TA_EVENT_CURSOR`: the `column` and `row` of the cursor, from 0. */
typedef struct ta_event_t {
    uint32_t kind;
    ta_input_t input;
    uint32_t mouse;
    uint32_t button;
    uint16_t column;
    uint16_t row;
    size_t bytes;
} ta_event_t;

/** Measured heights, in screen rows: those of the text, or of the placeholder if that is drawn; the
 * height of the whole area that shows it, from `min_rows` to `max_rows`; and these two, which are
 * the heights that are set, or more if the block needs more. */
typedef struct ta_measure_t {
    uint16_t content_rows;
    uint16_t preferred_rows;
    uint16_t min_rows;
    uint16_t max_rows;
} ta_measure_t;

/** Characters of a line that are edited as a whole: from `start_col` up to, but not including,
 * `end_col`. Row and columns count from 0, columns in characters. */
typedef struct ta_range_t {
    size_t row;
    size_t start_col;
    size_t end_col;
} ta_range_t;

/** A rejected range, and why it is rejected: one of `TA_REASON_..`. */
typedef struct ta_rejected_t {
    ta_range_t range;
    uint32_t reason;
} ta_rejected_t;

/** A change to the colours and modifiers of cells. A colour that is none leaves the cell's colour;
 * first the modifiers `add_modifier` are added, then those of `sub_modifier` are removed, each a
 * set of `TA_MODIFIER_..`. With all bytes zero it is the empty style, which changes nothing. */
typedef struct ta_style_t {
    ta_color_t fg;
    ta_color_t bg;
    uint16_t add_modifier;
    uint16_t sub_modifier;
} ta_style_t;

/** A text in one style. `bytes` is the length of the text; the texts of several spans follow one
 * another in one slice. */
typedef struct ta_span_t {
    size_t bytes;
    ta_style_t style;
} ta_span_t;

/** A line of styled text. `spans` is the number of its spans; the spans of several lines follow one
 * another in one slice. The style of the line is under theirs. */
typedef struct ta_line_t {
    size_t spans;
    ta_style_t style;
} ta_line_t;

/** A frame around an area: the sides with a border, a set of `TA_BORDER_..`; free rows and columns
 * inside; and its styles. Its title, if it has one, is in the top row. With all bytes zero it is
 * a block with no border, no padding and no title, in empty styles. */
typedef struct ta_block_t {
    uint8_t borders;
    bool has_title;
    ta_padding_t padding;
    ta_style_t style;
    ta_style_t border_style;
    ta_style_t title_style;
} ta_block_t;

/* Making, copying and freeing text areas. */

/** Makes an empty text area, with one empty line, behind the handle. A text area that was behind it
 * is freed.
 *
 * Statuses: ok, out of memory (the handle stays as it was). */
uint32_t ta_new(ta_handle_t *handle);

/** Makes a text area with the text of a file behind the handle, and the cursor at the start. Each
 * line feed ends a line, and one at the text's end begins no line; a carriage return directly
 * before a line feed is dropped. A text area that was behind the handle is freed.
 *
 * Statuses: ok, out of memory, invalid argument (the text is not UTF-8). Where it is not ok, the
 * handle stays as it was. */
uint32_t ta_from_text(ta_handle_t *handle, const uint8_t *text, size_t text_len);

/** Frees the text area behind the handle, which is empty then. An empty handle stays empty. */
void ta_free(ta_handle_t *handle);

/** Makes a copy of the text area, with its history, behind another handle, `copy`. A text area that
 * was behind that one is freed. The copy's screen has no cells, it has no rejected ranges or
 * pattern, and its log of changes is empty.
 *
 * Statuses: ok, out of memory, empty handle. Where it is not ok, `copy` stays as it was. */
uint32_t ta_clone(ta_handle_t *handle, ta_handle_t *copy);

/* The lines of a text area. */

/** Replaces all lines, and moves the cursor to the position in them that is nearest to `row` and
 * `column`. The lines follow one another in `text`; `ends` has the byte in `text` after each of
 * them. A line feed inside a line stays a character of that line. Forgets all edits, the
 * selection, the atomic ranges and the custom highlights, and resets the viewport's numbers to 0.
 *
 * Statuses: ok, out of memory, invalid argument (there is no line, a line ends before its start or
 * past the text, or it is not UTF-8), empty handle. Where it is not ok, nothing changes. */
uint32_t ta_set_lines(ta_handle_t *handle, const uint8_t *text, size_t text_len, const size_t *ends, size_t ends_len, size_t row, size_t column);

/** Returns the number of lines, at least one.
 *
 * Statuses: ok, empty handle. */
uint32_t ta_line_count(ta_handle_t *handle, size_t *count);

/** Returns one line, by its row. `out` gets the first of its bytes, as many as there is room for,
 * and `needed` the number of all.
 *
 * Statuses: ok, false (there is no such row), empty handle. */
uint32_t ta_line(ta_handle_t *handle, size_t row, uint8_t *out, size_t out_len, size_t *needed);

/** Returns all lines, one after another, without line feeds between them. `out` gets the first of
 * their bytes, as many as there is room for, and `needed` the number of all; `ends` gets the byte
 * after each of the first lines, as many as there is room for, and `count` the number of lines.
 *
 * Statuses: ok, empty handle. */
uint32_t ta_lines(ta_handle_t *handle, uint8_t *out, size_t out_len, size_t *needed, size_t *ends, size_t ends_len, size_t *count);

/** Returns the text: the lines, with a line feed between two. `out` gets the first of its bytes, as
 * many as there is room for, and `needed` the number of all.
 *
 * Statuses: ok, out of memory, empty handle. */
uint32_t ta_text(ta_handle_t *handle, uint8_t *out, size_t out_len, size_t *needed);

/** Returns whether the text is one empty line.
 *
 * Statuses: ok (it is), false, empty handle. */
uint32_t ta_is_empty(ta_handle_t *handle);

/* Insertions. Each first removes the selected text, as its own edit, and then moves a cursor that */

/** Inserts the cursor's line once more below it, or the lines of the selection below the last of
 * them, as one edit. The selection's lines are those of which it holds a character or the break.
 * Cursor and selection move down into the copy, and keep their columns.
 *
 * Statuses: ok, out of memory, empty handle. */
uint32_t ta_duplicate_line(ta_handle_t *handle);

/** Moves the cursor's line, or the lines of the selection, up by one row. The line above is then
 * below them; the result is whether there was one. It is one group of edits. Cursor, selection and
 * the atomic ranges of these lines move along; those of the line above are removed with it.
 *
 * Statuses: ok (true), false, out of memory, empty handle. */
uint32_t ta_move_lines_up(ta_handle_t *handle);

/** Moves these lines down by one row. The line below is then above them; the result is whether
 * there was one. All else is as for `ta_move_lines_up`.
 *
 * Statuses: ok (true), false, out of memory, empty handle. */
uint32_t ta_move_lines_down(ta_handle_t *handle);

/** Inserts the character with this number at the cursor, or at the end of the atomic range that
 * strictly contains it, as typed; a line feed and a carriage return break the line.
 *
 * Statuses: ok, out of memory (the selected text may have been removed), invalid argument (no
 * character has this number), empty handle. */
uint32_t ta_insert_char(ta_handle_t *handle, uint32_t character);

/** Breaks the line at the cursor, or at the end of the atomic range that strictly contains it.
 *
 * Statuses: ok, out of memory (the selected text may have been removed), empty handle. */
uint32_t ta_insert_newline(ta_handle_t *handle);

/** Inserts the text at the cursor, or at the end of the atomic range that strictly contains it.
 * Each line feed breaks the line; a carriage return directly before it is dropped.
 *
 * Statuses: ok (it inserted something or removed a selection), false, out of memory (the selected
 * text may have been removed), invalid argument (the text is not UTF-8), empty handle. */
uint32_t ta_insert_str(ta_handle_t *handle, const uint8_t *text, size_t text_len);

/** Inserts a text that was pasted from outside, where `ta_insert_str` inserts. Each line end breaks
 * the line: a line feed, a carriage return, or a carriage return and a line feed.
 *
 * Statuses: ok (it inserted something or removed a selection), false, out of memory (the selected
 * text may have been removed), invalid argument (the text is not UTF-8), empty handle. */
uint32_t ta_insert_pasted(ta_handle_t *handle, const uint8_t *text, size_t text_len);

/** Inserts a tab at the cursor, or at the end of the atomic range that strictly contains it: with
 * hard tabs a tab character, as typed, otherwise spaces up to the next tab stop; at tab length 0
 * nothing.
 *
 * Statuses: ok (it inserted something or removed a selection), false, out of memory (the selected
 * text may have been removed), empty handle. */
uint32_t ta_insert_tab(ta_handle_t *handle);

/** Inserts the yanked text where `ta_insert_str` inserts.
 *
 * Statuses: ok, false (there was none), out of memory (the selected text may have been removed),
 * empty handle. */
uint32_t ta_paste(ta_handle_t *handle);

/* Replacements of text, and of what lines begin with, each one group of edits. */

/** Returns the text between two positions, in either order, with a line feed for each line break.
 * Positions beyond the text count as the nearest ones in it. `out` gets the first of its bytes, as
 * many as there is room for, and `needed` the number of all.
 *
 * Statuses: ok, out of memory, empty handle. */
uint32_t ta_text_range(ta_handle_t *handle, size_t from_row, size_t from_column, size_t to_row, size_t to_column, uint8_t *out, size_t out_len, size_t *needed);

/** Replaces the text between two positions, in either order, by this one; one undo takes both back.
 * Positions beyond the text count as the nearest ones in it. Each atomic range that the replaced
 * text overlaps is removed, and each line feed of the text breaks the line. The cursor is then
 * after what was inserted, and nothing is selected.
 *
 * Statuses: ok (it removed or inserted something), false, out of memory (nothing changed), invalid
 * argument (the text is not UTF-8), empty handle. */
uint32_t ta_replace_range(ta_handle_t *handle, size_t from_row, size_t from_column, size_t to_row, size_t to_column, const uint8_t *text, size_t text_len);

/** Replaces the match of the search pattern that begins at the cursor by this text, and moves the
 * cursor to the next match at or after what was inserted; after an empty match at least one
 * character later. Without such a match it searches as `ta_search_forward` does.
 *
 * Statuses: ok (it replaced a match), false, out of memory (nothing changed, and a pattern is set),
 * invalid argument (the text is not UTF-8), empty handle. */
uint32_t ta_replace_match(ta_handle_t *handle, const uint8_t *text, size_t text_len);

/** Replaces each match of the search pattern in the text as it is now by this text; one undo takes
 * all back, if as many edits are remembered, at most two for each match. Matches in what is inserted
 * are left, and so is a match of which an end is strictly inside an atomic range. An empty match
 * inserts the text. The cursor is then after the last one that was replaced, and `count` is their
 * number; without matches nothing changes.
 *
 * Statuses: ok, out of memory (nothing changed, and a pattern is set), invalid argument (the text is
 * not UTF-8), empty handle. */
uint32_t ta_replace_all(ta_handle_t *handle, const uint8_t *text, size_t text_len, size_t *count);

/** Inserts a tab at the start of the cursor's line, or of each line of the selection, as one group
 * of edits, and returns whether it inserted one. Empty lines are left, and at tab length 0 all
 * lines. Cursor and selection move with the text, but a selection that begins at column 0 still
 * does.
 *
 * Statuses: ok (true), false, out of memory, empty handle. */
uint32_t ta_indent_lines(ta_handle_t *handle);

/** Removes a tab character, or spaces, at most as many as the tab length, from the start of the
 * cursor's line, or of each line of the selection, as one group of edits, and returns whether
 * there were any. It removes no character of an atomic range. Cursor and selection move with the
 * text.
 *
 * Statuses: ok (true), false, out of memory, empty handle. */
uint32_t ta_outdent_lines(ta_handle_t *handle);

/* Removals. If text is selected, each of them but `ta_clear` removes only that. */

/** Removes the atomic range that ends at the cursor or strictly contains it, or else the character
 * before the cursor, or at column 0 the line break. Returns whether it removed text.
 *
 * Statuses: ok (true), false, out of memory, empty handle. */
uint32_t ta_delete_char(ta_handle_t *handle);

/** Removes the atomic range that starts at the cursor or strictly contains it, or else the
 * character after the cursor, or at a line's end the line break. Returns whether it removed text.
 *
 * Statuses: ok (true), false, out of memory, empty handle. */
uint32_t ta_delete_next_char(ta_handle_t *handle);

/** Removes the line break before the cursor's line. Returns whether it removed text.
 *
 * Statuses: ok (true), false, out of memory, empty handle. */
uint32_t ta_delete_newline(ta_handle_t *handle);

/** Removes and yanks the next characters after the cursor, at most this number; each line break
 * counts as one. Returns whether it removed text.
 *
 * Statuses: ok (true), false, out of memory, empty handle. */
uint32_t ta_delete_str(ta_handle_t *handle, size_t count);

/** Removes and yanks the text from the cursor to its line's end; at the line's end it does what
 * `ta_delete_next_char` does. Returns whether it removed text.
 *
 * Statuses: ok (true), false, out of memory, empty handle. */
uint32_t ta_delete_line_by_end(ta_handle_t *handle);

/** Removes and yanks the text from the line's start to the cursor; at the line's start it does what
 * `ta_delete_newline` does. Returns whether it removed text.
 *
 * Statuses: ok (true), false, out of memory, empty handle. */
uint32_t ta_delete_line_by_head(ta_handle_t *handle);

/** Removes and yanks the whole text, as one edit, and returns whether there was any.
 *
 * Statuses: ok (true), false, out of memory, empty handle. */
uint32_t ta_clear(ta_handle_t *handle);

/** Yanks and removes the selected text, returns whether there was any, and drops the selection.
 *
 * Statuses: ok (true), false, out of memory, empty handle. */
uint32_t ta_cut(ta_handle_t *handle);

/** Removes the atomic range that ends at the cursor or strictly contains it. Otherwise removes
 * and yanks the text from the start of the word before the cursor, or from the line's start, to
 * the cursor; at column 0 it does what `ta_delete_newline` does.
 *
 * Statuses: ok (text was removed), false, out of memory, empty handle. */
uint32_t ta_delete_word(ta_handle_t *handle);

/** Removes the atomic range that starts at the cursor or strictly contains it. Otherwise removes
 * and yanks the text from the cursor to the word's end, or to the line's end; at the line's end
 * it does what `ta_delete_next_char` does.
 *
 * Statuses: ok (text was removed), false, out of memory, empty handle. */
uint32_t ta_delete_next_word(ta_handle_t *handle);

/* Keys: each input asks for one of the calls, by one of two key tables. */

/** Makes the call that the key table with shortcuts has for the input. With Shift, a move or scroll
 * extends the selection, or begins one; without Shift it drops the selection. A move without a
 * target changes nothing.
 *
 * Statuses: ok (the text changed: a character or a line break was inserted, or the call of another
 * edit, an undo or a redo did something), false, out of memory (only for a key whose call may
 * return it, which leaves the text area as that call does), invalid argument (there is no such
 * key), empty handle. */
uint32_t ta_input(ta_handle_t *handle, const ta_input_t *input);

/** As `ta_input`, but by the table without shortcuts, for a caller that has its own: only
 * characters, Tab, Backspace, Delete, Enter and the mouse wheel. The wheel scrolls as `ta_scroll`
 * does: an open selection stays open, and the input's Shift is ignored.
 *
 * Statuses: as of `ta_input`. */
uint32_t ta_input_without_shortcuts(ta_handle_t *handle, const ta_input_t *input);

/* Undo and redo. */

/** Undoes the newest edit, with all of its group, and returns whether there was one. The cursor is
 * then after the restored text, or where the removed text began, and nothing is selected.
 *
 * Statuses: ok (true), false, out of memory, empty handle. */
uint32_t ta_undo(ta_handle_t *handle);

/** Redoes the edit that was undone last, with all of its group, and returns whether there was one.
 * The cursor is then where that edit left it, and nothing is selected.
 *
 * Statuses: ok (true), false, out of memory, empty handle. */
uint32_t ta_redo(ta_handle_t *handle);

/** Forgets all edits, and remembers at most this number from now on, done and undone together.
 *
 * Statuses: ok, empty handle. */
uint32_t ta_set_max_histories(ta_handle_t *handle, size_t maximum);

/** Sets whether typed edits join into one edit, which is undone at once. A run of typing ends.
 *
 * Statuses: ok, empty handle. */
uint32_t ta_set_undo_coalescing(ta_handle_t *handle, bool joins);

/** Sets whether all edits of one call are one group, which is undone and redone at once. So an undo
 * of a text that was typed or pasted over a selection brings the selected text back.
 *
 * Statuses: ok, empty handle. */
uint32_t ta_set_undo_grouping(ta_handle_t *handle, bool groups);

/** Sets whether atomic ranges are remembered for undo and redo. Then an undo of an edit, or of a
 * group of edits, leaves exactly the ranges that were there before it, and a redo those after it:
 * a range that was removed is there again. Where ranges were set or cleared since the edit, or
 * this was off, they move with the text instead. Each edit takes a copy of the ranges. Off at
 * first.
 *
 * Statuses: ok, empty handle. */
uint32_t ta_set_undo_ranges(ta_handle_t *handle, bool on);

/** Begins a group, if none is open, and ends a run of typing. The edits until `ta_end_undo_group`
 * are undone and redone together. If they are more than are remembered, all edits are forgotten.
 *
 * Statuses: ok, empty handle. */
uint32_t ta_begin_undo_group(ta_handle_t *handle);

/** Ends the open group, if one is open, and a run of typing. An undo or a redo of something, new
 * lines and `ta_set_max_histories` close a group too.
 *
 * Statuses: ok, empty handle. */
uint32_t ta_end_undo_group(ta_handle_t *handle);

/** Ends a run of typing: the next edit is recorded separately.
 *
 * Statuses: ok, empty handle. */
uint32_t ta_end_run(ta_handle_t *handle);

/** Returns the greatest number of edits that are remembered, done and undone together.
 *
 * Statuses: ok, empty handle. */
uint32_t ta_max_histories(ta_handle_t *handle, size_t *max_histories);

/** Returns whether typed edits join into one.
 *
 * Statuses: ok (true), false, empty handle. */
uint32_t ta_undo_coalescing(ta_handle_t *handle);

/** Returns whether all edits of one call are one group.
 *
 * Statuses: ok (true), false, empty handle. */
uint32_t ta_undo_grouping(ta_handle_t *handle);

/** Returns whether atomic ranges are remembered for undo and redo.
 *
 * Statuses: ok (true), false, empty handle. */
uint32_t ta_undo_ranges(ta_handle_t *handle);

/** Sets the time of the edits that follow, in nanoseconds from any fixed time. A time before the
 * last edit's counts as no pause.
 *
 * Statuses: ok, empty handle. */
uint32_t ta_set_now(ta_handle_t *handle, uint64_t nanoseconds);

/* What changed in the text. */

/** Begins a log of what changes in the text, with columns in the unit: `TA_UNIT_CHARACTERS`,
 * `TA_UNIT_BYTES` of UTF-8, or `TA_UNIT_UTF16`. The changes in the log before are forgotten.
 *
 * Statuses: ok, invalid argument (there is no such unit), empty handle. */
uint32_t ta_set_change_log(ta_handle_t *handle, uint32_t unit);

/** Ends the log of what changes in the text, and forgets its changes.
 *
 * Statuses: ok, empty handle. */
uint32_t ta_remove_change_log(ta_handle_t *handle);

/** Takes the changes out of the log; `count` gets their number. `ta_change` and `ta_change_line`
 * return them, in place of those that were taken before.
 *
 * Statuses: ok, empty handle. */
uint32_t ta_take_changes(ta_handle_t *handle, size_t *count);

/** Returns one of the changes that were taken last, by its index, from 0 in the order in which they
 * were made: its start, the end of what it removed, both in the text just before it, and the number
 * of the inserted lines, at least one.
 *
 * Statuses: ok, false (there is no such change), empty handle. */
uint32_t ta_change(ta_handle_t *handle, size_t index, size_t *start_row, size_t *start_column, size_t *end_row, size_t *end_column, size_t *lines);

/** Returns one of the inserted lines of a change that was taken last, by its row in it, from 0. `out`
 * gets the first of its bytes, as many as there is room for, and `needed` the number of all. A line
 * feed in it is a character of the line.
 *
 * Statuses: ok, false (there is no such change, or no such line), empty handle. */
uint32_t ta_change_line(ta_handle_t *handle, size_t index, size_t row, uint8_t *out, size_t out_len, size_t *needed);

/* Moves of the cursor, and scrolls. */

/** Moves the cursor by one of `TA_MOVE_..`. An open selection follows it, and a run of typing ends.
 * A target strictly inside an atomic range is moved to the range's start for `TA_MOVE_BACK`,
 * `TA_MOVE_UP`, `TA_MOVE_HEAD`, `TA_MOVE_TOP`, `TA_MOVE_WORD_BACK` and `TA_MOVE_PARAGRAPH_BACK`,
 * and to its end for other moves. A move without a target changes nothing.
 *
 * Statuses: ok, invalid argument (there is no such move), empty handle. */
uint32_t ta_move_cursor(ta_handle_t *handle, uint32_t cursor_move);

/** Moves the cursor to this row and column, both counted from 0, or to the nearest position.
 *
 * Statuses: ok, empty handle. */
uint32_t ta_jump(ta_handle_t *handle, uint16_t row, uint16_t column);

/** Moves the cursor to this row and column, both counted from 0, or to the nearest position: the row
 * is at most the last, the column at most its line's length. A position strictly inside an atomic
 * range is moved to the range's end. An open selection follows the cursor, and a run of typing
 * ends. Unlike `ta_jump` it reaches every row.
 *
 * Statuses: ok, empty handle. */
uint32_t ta_go_to(ta_handle_t *handle, size_t row, size_t column);

/** Returns the cursor's row and column, which is always a position of the text.
 *
 * Statuses: ok, empty handle. */
uint32_t ta_cursor(ta_handle_t *handle, size_t *row, size_t *column);

/** Scrolls the viewport by rows, down if positive, and by columns, to the right if positive, and
 * moves the cursor into it, to the nearest visible row and column. An open selection follows the
 * cursor, and a run of typing ends.
 *
 * Statuses: ok, empty handle. */
uint32_t ta_scroll(ta_handle_t *handle, int16_t rows, int16_t columns);

/** Scrolls by one of `TA_SCROLL_..`, as `ta_scroll` does. A page has the height of the last
 * `ta_render`, 0 rows before the first one.
 *
 * Statuses: ok, invalid argument (there is no such scroll), empty handle. */
uint32_t ta_scroll_page(ta_handle_t *handle, uint32_t page);

/* The selection, copying, and the yanked text. */

/** Begins an empty selection at the cursor.
 *
 * Statuses: ok, empty handle. */
uint32_t ta_start_selection(ta_handle_t *handle);

/** Drops the selection, if there is one; the text stays.
 *
 * Statuses: ok, empty handle. */
uint32_t ta_cancel_selection(ta_handle_t *handle);

/** Selects the whole text, and moves the cursor to its end.
 *
 * Statuses: ok, empty handle. */
uint32_t ta_select_all(ta_handle_t *handle);

/** Yanks the selected text, if there is any, and drops the selection.
 *
 * Statuses: ok, out of memory, empty handle. */
uint32_t ta_copy(ta_handle_t *handle);

/** Returns whether a selection is open, even an empty one.
 *
 * Statuses: ok (it is), false, empty handle. */
uint32_t ta_is_selecting(ta_handle_t *handle);

/** Returns the two ends of the selection, the first one first, even if it is empty.
 *
 * Statuses: ok, false (no selection is open), empty handle. */
uint32_t ta_selection_range(ta_handle_t *handle, size_t *start_row, size_t *start_column, size_t *end_row, size_t *end_column);

/** Returns the text that was yanked last, with a line feed for each line break; empty at first.
 * `out` gets the first of its bytes, as many as there is room for, and `needed` the number of all.
 *
 * Statuses: ok, out of memory, empty handle. */
uint32_t ta_yank_text(ta_handle_t *handle, uint8_t *out, size_t out_len, size_t *needed);

/** Sets the text that `ta_paste` inserts. Each line feed becomes a line break; a carriage return
 * directly before it is dropped.
 *
 * Statuses: ok, out of memory, invalid argument (the text is not UTF-8), empty handle. */
uint32_t ta_set_yank_text(ta_handle_t *handle, const uint8_t *text, size_t text_len);

/* The search pattern, and the searches for it. */

/** Sets the search pattern, in the syntax of the Rust crate `regex`; an empty one removes the
 * pattern. `ta_pattern_error` returns why a pattern is rejected.
 *
 * Statuses: ok, out of memory, pattern rejected, invalid argument (the pattern is not UTF-8),
 * empty handle. Where it is not ok, the pattern stays. */
uint32_t ta_set_search_pattern(ta_handle_t *handle, const uint8_t *pattern, size_t pattern_len);

/** Sets a search pattern that finds the text as it is: each character that has a meaning in the
 * syntax of patterns is escaped. The empty text removes the pattern. With `ignore_case`, letters
 * of either case match. With `whole_word`, each end of the text that is a word's character must be
 * an end of a word.
 *
 * Statuses: ok, out of memory, pattern rejected (it is too large), invalid argument (the text is
 * not UTF-8), empty handle. Where it is not ok, the pattern stays. */
uint32_t ta_set_search_text(ta_handle_t *handle, const uint8_t *text, size_t text_len, bool ignore_case, bool whole_word);

/** Writes the number of the search pattern's matches in the whole text; 0 without a pattern.
 *
 * Statuses: ok, out of memory, empty handle. */
uint32_t ta_match_count(ta_handle_t *handle, size_t *count);

/** Writes the number, counted from 0 in the order of the text, of the match that starts at the
 * cursor.
 *
 * Statuses: ok, false (no match starts at the cursor, or no pattern is set), out of memory, empty
 * handle. */
uint32_t ta_match_index(ta_handle_t *handle, size_t *index);

/** Returns why a pattern was rejected last, in words; empty if none was. `out` gets the first of
 * its bytes, as many as there is room for, and `needed` the number of all.
 *
 * Statuses: ok, empty handle. */
uint32_t ta_pattern_error(ta_handle_t *handle, uint8_t *out, size_t out_len, size_t *needed);

/** Returns the text of the search pattern. `out` gets the first of its bytes, as many as there is
 * room for, and `needed` the number of all.
 *
 * Statuses: ok, false (no pattern is set), empty handle. */
uint32_t ta_search_pattern(ta_handle_t *handle, uint8_t *out, size_t out_len, size_t *needed);

/** Moves the cursor to the next start of a match: the first after the cursor or, with
 * `match_cursor`, at it, and past the text's end the first of all. An open selection stays open,
 * and a run of typing ends. Without a match nothing changes.
 *
 * Statuses: ok (there was a match), false, out of memory, empty handle. */
uint32_t ta_search_forward(ta_handle_t *handle, bool match_cursor);

/** Moves the cursor to the last start of a match before it or, with `match_cursor`, at it, and past
 * the text's start to the last of all. An open selection stays open, and a run of typing ends.
 * Without a match nothing changes.
 *
 * Statuses: ok (there was a match), false, out of memory, empty handle. */
uint32_t ta_search_back(ta_handle_t *handle, bool match_cursor);

/* Atomic ranges: spans of characters in a line that are edited as a whole. */

/** Drops all atomic ranges.
 *
 * Statuses: ok, empty handle. */
uint32_t ta_clear_atomic_ranges(ta_handle_t *handle);

/** Replaces the atomic ranges; they are sorted by row and start. Each has at least one character,
 * within one line, and no two share a character. A cursor strictly inside a range moves to its
 * end, a selection's beginning to its start, and a selection that is empty after that is dropped.
 * Ranges move with the text at each edit, undo and redo: a removal drops those that it removes, an
 * undo or redo also those that it splits. `ta_rejected_ranges` returns the rejected ones.
 *
 * Statuses: ok, out of memory, ranges rejected, empty handle. Where it is not ok, the ranges stay. */
uint32_t ta_set_atomic_ranges(ta_handle_t *handle, const ta_range_t *ranges, size_t ranges_len);

/** Returns the ranges that the last rejected `ta_set_atomic_ranges` rejected, sorted by row and
 * start, each with the first reason that applies. `out` gets the first of them, as many as there
 * is room for, and `needed` their number.
 *
 * Statuses: ok, empty handle. */
uint32_t ta_rejected_ranges(ta_handle_t *handle, ta_rejected_t *out, size_t out_len, size_t *needed);

/** Returns the atomic ranges, sorted by row and start. `out` gets the first of them, as many as
 * there is room for, and `needed` their number.
 *
 * Statuses: ok, empty handle. */
uint32_t ta_atomic_ranges(ta_handle_t *handle, ta_range_t *out, size_t out_len, size_t *needed);

/** Moves a cursor strictly inside an atomic range to its start for `TA_BACKWARD`, to its end for
 * `TA_FORWARD`. The selection stays, and a run of typing continues.
 *
 * Statuses: ok (the cursor moved), false, invalid argument (there is no such end), empty handle. */
uint32_t ta_normalize_cursor_around_atomic_ranges(ta_handle_t *handle, uint32_t bias);

/** Returns the atomic range at the cursor: for `TA_BACKWARD` one that starts before the cursor and
 * ends at or after it, for `TA_FORWARD` one that starts at or before the cursor and ends after it.
 *
 * Statuses: ok, false (there is none), invalid argument (there is no such side), empty handle. */
uint32_t ta_atomic_range_at_cursor(ta_handle_t *handle, uint32_t direction, ta_range_t *range);

/** Removes the atomic range at the cursor, as `ta_atomic_range_at_cursor` finds it, and returns it;
 * yanks nothing. The selection stays open; if its beginning is past its line's end after that, it
 * moves to that end.
 *
 * Statuses: ok, false (there is none), out of memory, invalid argument (there is no such side),
 * empty handle. */
uint32_t ta_delete_atomic_range_at_cursor(ta_handle_t *handle, uint32_t direction, ta_range_t *range);

/* Options of tabs, the greatest number of characters, and what the cursor goes over. */

/** Sets the distance of tab stops, in columns; at 0 a tab inserts nothing.
 *
 * Statuses: ok, out of memory, empty handle. */
uint32_t ta_set_tab_length(ta_handle_t *handle, uint8_t columns);

/** Sets whether a tab is inserted as a tab character, and not as spaces.
 *
 * Statuses: ok, empty handle. */
uint32_t ta_set_hard_tab_indent(ta_handle_t *handle, bool hard);

/** Sets whether the text area is read only. Then no call but `ta_set_lines` changes the text: every
 * other call that edits, and an undo and a redo, changes nothing, neither what is yanked nor the
 * selection, and returns false, 0 or nothing. But `ta_cut` does what `ta_copy` does, and returns
 * whether a text was selected. Off at first.
 *
 * Statuses: ok, empty handle. */
uint32_t ta_set_read_only(ta_handle_t *handle, bool read_only);

/** Sets whether the text is kept in a single line, and returns whether it could be set: a text of
 * several lines can't be. Then a line break that is typed, and `ta_duplicate_line`, do nothing,
 * breaks of a text that is inserted or pasted become spaces, and `ta_set_lines` of several lines
 * does nothing. Setting it forgets all edits. Off at first.
 *
 * Statuses: ok (true), false, empty handle. */
uint32_t ta_set_single_line(ta_handle_t *handle, bool single_line);

/** Hides the line numbers.
 *
 * Statuses: ok, out of memory, empty handle. */
uint32_t ta_remove_line_number(ta_handle_t *handle);

/** Sets the least height of the whole area, in screen rows; 0 counts as 1. The greatest height is
 * raised to it if it is less.
 *
 * Statuses: ok, empty handle. */
uint32_t ta_set_min_rows(ta_handle_t *handle, uint16_t rows);

/** Sets the greatest height of the whole area, in screen rows; 0 counts as 1, and less than the
 * least height as that height.
 *
 * Statuses: ok, empty handle. */
uint32_t ta_set_max_rows(ta_handle_t *handle, uint16_t rows);

/** Returns whether the text area is read only.
 *
 * Statuses: ok (true), false, empty handle. */
uint32_t ta_read_only(ta_handle_t *handle);

/** Returns whether the text is kept in a single line.
 *
 * Statuses: ok (true), false, empty handle. */
uint32_t ta_single_line(ta_handle_t *handle);

/** Returns the distance of tab stops, in columns.
 *
 * Statuses: ok, empty handle. */
uint32_t ta_tab_length(ta_handle_t *handle, uint8_t *tab_length);

/** Returns whether a tab is inserted as a tab character.
 *
 * Statuses: ok (true), false, empty handle. */
uint32_t ta_hard_tab_indent(ta_handle_t *handle);

/** Returns the least height of the whole area, in screen rows, from 1 to the greatest height.
 *
 * Statuses: ok, empty handle. */
uint32_t ta_min_rows(ta_handle_t *handle, uint16_t *min_rows);

/** Returns the greatest height of the whole area, in screen rows: at least the least height.
 *
 * Statuses: ok, empty handle. */
uint32_t ta_max_rows(ta_handle_t *handle, uint16_t *max_rows);

/** Returns a tab at a line's start: a tab character, or a space for each column of its length.
 * `out` gets the first of its bytes, as many as there is room for, and `needed` the number of all.
 *
 * Statuses: ok, empty handle. */
uint32_t ta_indent(ta_handle_t *handle, uint8_t *out, size_t out_len, size_t *needed);

/** Sets the greatest number of characters of the text, a line break counted as one. Then what is
 * typed does nothing if it doesn't fit, and an inserted text is cut at the end of the last of its
 * grapheme clusters that fits. `ta_duplicate_line`, `ta_indent_lines` and `ta_replace_all` do
 * nothing unless all that they insert fits. Undo, redo and `ta_set_lines` are never cut. There is
 * no such number at first, and after `ta_clear_max_chars`.
 *
 * Statuses: ok, empty handle. */
uint32_t ta_set_max_chars(ta_handle_t *handle, size_t maximum);

/** Lets the text have any number of characters, as at first.
 *
 * Statuses: ok, empty handle. */
uint32_t ta_clear_max_chars(ta_handle_t *handle);

/** Returns the greatest number of characters of the text.
 *
 * Statuses: ok, false (there is none: any number fits), empty handle. */
uint32_t ta_max_chars(ta_handle_t *handle, size_t *maximum);

/** Sets what the cursor goes over as a whole, beside atomic ranges: a character
 * (`TA_CURSOR_UNIT_CHARACTER`, as at first) or an extended grapheme cluster
 * (`TA_CURSOR_UNIT_CLUSTER`), such as a letter with its accents. With clusters no call leaves the
 * cursor or the selection's beginning inside one, this call included. What is removed is whole
 * clusters of the text before it, but for `ta_delete_str`; what stays may form others, as flags do.
 * A match at an end of which no cluster begins or ends isn't found, counted or replaced.
 *
 * Statuses: ok, invalid argument (there is no such unit), empty handle. */
uint32_t ta_set_cursor_unit(ta_handle_t *handle, uint32_t unit);

/** Returns what the cursor goes over as a whole.
 *
 * Statuses: ok, empty handle. */
uint32_t ta_cursor_unit(ta_handle_t *handle, uint32_t *unit);

/* Wrapping, line numbers, alignment and measuring. */

/** Sets how lines are wrapped, to one of `TA_WRAP_..`. Before the first `ta_render` no line is
 * wrapped.
 *
 * Statuses: ok, out of memory, invalid argument (there is no such mode), empty handle. */
uint32_t ta_set_wrap_mode(ta_handle_t *handle, uint32_t mode);

/** Returns how lines are wrapped.
 *
 * Statuses: ok, empty handle. */
uint32_t ta_wrap_mode(ta_handle_t *handle, uint32_t *mode);

/** Shows line numbers, counted from 1, in this style.
 *
 * Statuses: ok, out of memory, invalid argument (a colour's kind does not exist), empty handle. */
uint32_t ta_set_line_number_style(ta_handle_t *handle, const ta_style_t *style);

/** Returns the style of the line numbers.
 *
 * Statuses: ok, false (they are hidden), empty handle. */
uint32_t ta_line_number_style(ta_handle_t *handle, ta_style_t *style);

/** Sets the alignment of visual rows in the inner area, to one of `TA_ALIGNMENT_..`. In the middle
 * and at the right it also hides the line numbers.
 *
 * Statuses: ok, out of memory, invalid argument (there is no such alignment), empty handle. */
uint32_t ta_set_alignment(ta_handle_t *handle, uint32_t alignment);

/** Returns the alignment of visual rows in the inner area.
 *
 * Statuses: ok, empty handle. */
uint32_t ta_alignment(ta_handle_t *handle, uint32_t *alignment);

/** Returns the height that an area of this width, in columns, needs for the block and all visual
 * rows of the text, or for the placeholder if that is shown. The text area does not change.
 *
 * Statuses: ok, out of memory, empty handle. */
uint32_t ta_measure(ta_handle_t *handle, uint16_t width, ta_measure_t *measure);

/* The styles of a text area. */

/** Sets the style of each cell of the inner area, under all others; a placeholder has its own.
 *
 * Statuses: ok, invalid argument (a colour's kind does not exist), empty handle. */
uint32_t ta_set_style(ta_handle_t *handle, const ta_style_t *style);

/** Sets the style of the cell at the cursor.
 *
 * Statuses: ok, invalid argument (a colour's kind does not exist), empty handle. */
uint32_t ta_set_cursor_style(ta_handle_t *handle, const ta_style_t *style);

/** Sets the style of the cursor's line, in all its visual rows, where no highlight is.
 *
 * Statuses: ok, invalid argument (a colour's kind does not exist), empty handle. */
uint32_t ta_set_cursor_line_style(ta_handle_t *handle, const ta_style_t *style);

/** Sets the style of the line number of the cursor's line, over the style of all line numbers. The
 * blanks before the line's other visual rows aren't in it.
 *
 * Statuses: ok, invalid argument (a colour's kind does not exist), empty handle. */
uint32_t ta_set_cursor_line_number_style(ta_handle_t *handle, const ta_style_t *style);

/** Sets the style of selected text.
 *
 * Statuses: ok, invalid argument (a colour's kind does not exist), empty handle. */
uint32_t ta_set_selection_style(ta_handle_t *handle, const ta_style_t *style);

/** Sets the style of the search pattern's matches.
 *
 * Statuses: ok, invalid argument (a colour's kind does not exist), empty handle. */
uint32_t ta_set_search_style(ta_handle_t *handle, const ta_style_t *style);

/** Returns the style of each cell of the inner area, under all others.
 *
 * Statuses: ok, empty handle. */
uint32_t ta_style(ta_handle_t *handle, ta_style_t *style);

/** Returns the style of the cell at the cursor.
 *
 * Statuses: ok, empty handle. */
uint32_t ta_cursor_style(ta_handle_t *handle, ta_style_t *style);

/** Returns the style of the cursor's line, where no highlight is.
 *
 * Statuses: ok, empty handle. */
uint32_t ta_cursor_line_style(ta_handle_t *handle, ta_style_t *style);

/** Returns the style of the line number of the cursor's line, over the style of all line numbers.
 *
 * Statuses: ok, empty handle. */
uint32_t ta_cursor_line_number_style(ta_handle_t *handle, ta_style_t *style);

/** Returns the style of selected text.
 *
 * Statuses: ok, empty handle. */
uint32_t ta_selection_style(ta_handle_t *handle, ta_style_t *style);

/** Returns the style of the search pattern's matches.
 *
 * Statuses: ok, empty handle. */
uint32_t ta_search_style(ta_handle_t *handle, ta_style_t *style);

/* The mask, the cursor's cell, and custom highlights. */

/** Shows the text itself again.
 *
 * Statuses: ok, empty handle. */
uint32_t ta_clear_mask_char(ta_handle_t *handle);

/** Removes all custom highlights.
 *
 * Statuses: ok, empty handle. */
uint32_t ta_clear_custom_highlight(ta_handle_t *handle);

/** Shows the character with this number instead of each character of the text. The cursor's cell
 * and `ta_cursor_at_position` still follow the columns of the text itself.
 *
 * Statuses: ok, invalid argument (no character has this number), empty handle. */
uint32_t ta_set_mask_char(ta_handle_t *handle, uint32_t mask);

/** Returns the number of the character that is shown instead of each character of the text.
 *
 * Statuses: ok, false (none is set), empty handle. */
uint32_t ta_mask_char(ta_handle_t *handle, uint32_t *mask);

/** Sets whether the cell at the cursor has its own style (`TA_CURSOR_CELL`), or is drawn as any
 * other because the terminal's own cursor is there (`TA_CURSOR_HIDDEN`).
 *
 * Statuses: ok, invalid argument (there is no such mode), empty handle. */
uint32_t ta_set_cursor_render_mode(ta_handle_t *handle, uint32_t mode);

/** Returns how the cell at the cursor is drawn.
 *
 * Statuses: ok, empty handle. */
uint32_t ta_cursor_render_mode(ta_handle_t *handle, uint32_t *mode);

/** Highlights the text between two positions, each a row and a byte offset in it. A byte inside a
 * character counts as the character's first byte, one past the line's end as the end. Where
 * several highlights begin at one position, the one of the highest priority is visible, among
 * equals the last one added. The cursor has priority 30, a match 20, a selection 10. Highlights do
 * not move when the text changes.
 *
 * Statuses: ok, out of memory, invalid argument (a colour's kind does not exist), empty handle. */
uint32_t ta_custom_highlight(ta_handle_t *handle, size_t start_row, size_t start_byte, size_t end_row, size_t end_byte, const ta_style_t *style, uint8_t priority);

/* The surround: a block around the text, a placeholder for an empty text, and height limits. */

/** Draws this block around the text, and replaces the old one. The texts of its title's spans
 * follow one another in `title`; without a title there are none.
 *
 * Statuses: ok, out of memory, invalid argument (the spans are not exactly the title, it is not
 * UTF-8, or a colour's kind does not exist), empty handle. */
uint32_t ta_set_block(ta_handle_t *handle, const ta_block_t *block, const uint8_t *title, size_t title_len, const ta_span_t *spans, size_t spans_len);

/** Removes the block, if there is one.
 *
 * Statuses: ok, empty handle. */
uint32_t ta_remove_block(ta_handle_t *handle);

/** Returns the block around the text. `title` and `spans` get the first bytes and spans of its
 * title, as many as there is room for; `title_needed` and `spans_needed` the number of all, 0
 * without a title.
 *
 * Statuses: ok, false (there is no block), empty handle. */
uint32_t ta_block(ta_handle_t *handle, ta_block_t *block, uint8_t *title, size_t title_len, size_t *title_needed, ta_span_t *spans, size_t spans_len, size_t *spans_needed);

/** Sets the placeholder, which is shown while the text is empty, to one line of this text, even if
 * it has line feeds; the empty text removes the line. The placeholder's style stays.
 *
 * Statuses: ok, out of memory, invalid argument (the text is not UTF-8), empty handle. */
uint32_t ta_set_placeholder_text(ta_handle_t *handle, const uint8_t *text, size_t text_len);

/** Sets the placeholder, which is shown while the text is empty, to these lines and their style;
 * without lines there is none. The spans of the lines follow one another in `spans`, and the texts
 * of these in `text`.
 *
 * Statuses: ok, out of memory, invalid argument (the lines are not exactly the spans, or these not
 * exactly the text; it is not UTF-8; or a colour's kind does not exist), empty handle. */
uint32_t ta_set_styled_placeholder(ta_handle_t *handle, const uint8_t *text, size_t text_len, const ta_span_t *spans, size_t spans_len, const ta_line_t *lines, size_t lines_len, const ta_style_t *style);

/** Sets the style under those of the placeholder's lines, even while it has none.
 *
 * Statuses: ok, invalid argument (a colour's kind does not exist), empty handle. */
uint32_t ta_set_placeholder_style(ta_handle_t *handle, const ta_style_t *style);

/** Returns the whole placeholder, even if it has no line: its style, and the first of the bytes,
 * spans and lines that `ta_set_styled_placeholder` takes, as many as there is room for, with the
 * number of all.
 *
 * Statuses: ok, empty handle. */
uint32_t ta_placeholder(ta_handle_t *handle, ta_style_t *style, uint8_t *text, size_t text_len, size_t *text_needed, ta_span_t *spans, size_t spans_len, size_t *spans_needed, ta_line_t *lines, size_t lines_len, size_t *lines_needed);

/** Returns the text of the first span of the placeholder's first line; empty if there is none.
 * `out` gets the first of its bytes, as many as there is room for, and `needed` the number of all.
 *
 * Statuses: ok, empty handle. */
uint32_t ta_placeholder_text(ta_handle_t *handle, uint8_t *out, size_t out_len, size_t *needed);

/** Returns the style of the placeholder.
 *
 * Statuses: ok, false (it has no line), empty handle. */
uint32_t ta_placeholder_style(ta_handle_t *handle, ta_style_t *style);

/* The screen of a text area, and drawing on it. */

/** Gives the screen of the text area the cells of this rectangle, each a blank in the terminal's
 * own colours. Columns and rows past 65535 are left out. A new text area's screen has no cells.
 *
 * Statuses: ok, out of memory, empty handle. */
uint32_t ta_screen_reset(ta_handle_t *handle, const ta_area_t *area);

/** Makes each cell of the screen a blank in the terminal's own colours.
 *
 * Statuses: ok, empty handle. */
uint32_t ta_screen_clear(ta_handle_t *handle);

/** Returns the rectangle whose cells the screen has.
 *
 * Statuses: ok, empty handle. */
uint32_t ta_screen_area(ta_handle_t *handle, ta_area_t *area);

/** Replaces the text of the cell at column `x` and row `y` of the screen, and applies a style to
 * it. Does nothing outside of the screen.
 *
 * Statuses: ok, out of memory, invalid argument (the text is not UTF-8, or a colour's kind does
 * not exist), empty handle. Where it is not ok, nothing changes. */
uint32_t ta_screen_put(ta_handle_t *handle, uint16_t x, uint16_t y, const uint8_t *text, size_t text_len, const ta_style_t *style);

/** Applies a style to those cells of an area that the screen has.
 *
 * Statuses: ok, invalid argument (a colour's kind does not exist), empty handle. */
uint32_t ta_screen_set_style(ta_handle_t *handle, const ta_area_t *area, const ta_style_t *style);

/** Returns the cell at column `x` and row `y` of the screen.
 *
 * Statuses: ok, false (it is outside of the screen), empty handle. */
uint32_t ta_screen_cell(ta_handle_t *handle, uint16_t x, uint16_t y, ta_cell_t *cell);

/** Returns the text of the cell at column `x` and row `y` of the screen. `out` gets the first of
 * its bytes, as many as there is room for, and `needed` the number of all.
 *
 * Statuses: ok, false (it is outside of the screen), empty handle. */
uint32_t ta_screen_symbol(ta_handle_t *handle, uint16_t x, uint16_t y, uint8_t *out, size_t out_len, size_t *needed);

/** Returns all cells of the screen, row after row. `out` gets the first of them, as many as there
 * is room for, and `needed` their number.
 *
 * Statuses: ok, empty handle. */
uint32_t ta_screen_cells(ta_handle_t *handle, ta_cell_t *out, size_t out_len, size_t *needed);

/** Draws the text area into an area of its screen: the block, and inside it the visual rows, or the
 * placeholder if the text is empty and the placeholder has lines. The viewport follows the cursor.
 * A cell that nothing is drawn on keeps its text, and no cell outside the area changes.
 *
 * Statuses: ok, out of memory (cells of the area may have been drawn, but the text area is
 * unchanged), empty handle. */
uint32_t ta_render(ta_handle_t *handle, const ta_area_t *area);

/** Returns the cursor's cell at the last `ta_render`, for the terminal's own cursor.
 *
 * Statuses: ok, false (the cursor was outside the viewport, or nothing was drawn yet), empty
 * handle. */
uint32_t ta_rendered_cursor_position(ta_handle_t *handle, uint16_t *x, uint16_t *y);

/** Returns the position of the text that a cell of the screen shows, in the inner area of the last
 * `ta_render`, for the present text and viewport. A cell below the last visual row counts as one
 * in that row, and a cell past a row's end as its greatest cursor column; with a placeholder each
 * cell shows the text's start.
 *
 * Statuses: ok, false (the cell is outside the inner area), out of memory, empty handle. */
uint32_t ta_cursor_at_position(ta_handle_t *handle, uint16_t x, uint16_t y, size_t *row, size_t *column);

/** Returns the viewport: the first visible visual row and column, and the width and height of the
 * inner area of the last `ta_render`. All four are 0 before the first one.
 *
 * Statuses: ok, empty handle. */
uint32_t ta_viewport(ta_handle_t *handle, size_t *row, size_t *column, size_t *width, size_t *height);

/* A terminal: a decoder of the bytes that it sends, and a painter of frames for it. */

/** Makes a terminal behind the handle. It shows the cells of an area, of which the first is in its
 * first column and row; what it shows at first is unknown. A terminal that was behind the handle is
 * freed.
 *
 * Statuses: ok, out of memory (the handle stays as it was). */
uint32_t ta_terminal_new(ta_terminal_handle_t *terminal, const ta_area_t *area);

/** Frees the terminal behind the handle, which is empty then. An empty handle stays empty. */
void ta_terminal_free(ta_terminal_handle_t *terminal);

/* The bytes that a terminal sends, as events. */

/** Decodes the next bytes that the terminal sent, however they are split; `ta_decoder_event` takes
 * the events. The bytes of what is incomplete are stored until more are there: at most 4097, but
 * 1048576 in a string, and a pasted text until its end.
 *
 * Statuses: ok, out of memory, empty handle. Where it is not ok, nothing changes. */
uint32_t ta_decoder_feed(ta_terminal_handle_t *terminal, const uint8_t *bytes, size_t bytes_len);

/** Tells that the terminal sent nothing for so many milliseconds, since the last byte or the last
 * call of this. The keys that are incomplete bytes by themselves are events then: a lone ESC is
 * the key Esc, and ESC with `[`, `O` or the start of a string is Alt with that character. After 5
 * seconds of such pauses nothing stays incomplete: what came of a pasted text is one, the rest of it
 * is dropped when it comes, and queries without a reply are given up.
 *
 * Statuses: ok, out of memory, empty handle. Where it is not ok, nothing changes. */
uint32_t ta_decoder_idle(ta_terminal_handle_t *terminal, uint32_t milliseconds);

/** Takes the oldest event that was not taken yet.
 *
 * Statuses: ok, false (there is none), empty handle. */
uint32_t ta_decoder_event(ta_terminal_handle_t *terminal, ta_event_t *event);

/** Returns the text of the `TA_EVENT_PASTE` that `ta_decoder_event` returned last; empty before the
 * first. `out` gets the first of its bytes, as many as there is room for, and `needed` the number of
 * all.
 *
 * Statuses: ok, empty handle. */
uint32_t ta_decoder_pasted(ta_terminal_handle_t *terminal, uint8_t *out, size_t out_len, size_t *needed);

/** Tells that a query was sent whose reply is a size (`ESC [ 18 t`) or the cursor's position
 * (`ESC [ ? 6 n`). Its reply is then no part of a pasted text in which it is sent.
 *
 * Statuses: ok, empty handle. */
uint32_t ta_decoder_asked(ta_terminal_handle_t *terminal);

/** Sets whether the terminal reports a new size by itself (mode 2048). Such a report is then no part
 * of a pasted text in which it is sent.
 *
 * Statuses: ok, empty handle. */
uint32_t ta_decoder_set_resizes(ta_terminal_handle_t *terminal, bool resizes);

/** Sets whether the terminal is the Linux console, on which ESC and a tab are Tab with Shift.
 *
 * Statuses: ok, empty handle. */
uint32_t ta_decoder_set_console(ta_terminal_handle_t *terminal, bool console);

/* Frames on a terminal. */

/** Paints the screen of a text area, on which `ta_render` draws: `ta_painter_bytes` returns the
 * bytes that the terminal is to be sent after those of the frame before. With `has_caret` the
 * terminal's cursor is shown in column `x` and row `y`, if the terminal's area has that cell;
 * otherwise it is hidden. A cell that the screen doesn't have is a blank. A frame that the terminal
 * shows already takes no byte.
 *
 * Statuses: ok, out of memory, empty handle (one of the two). Where it is not ok, nothing changes. */
uint32_t ta_painter_paint(ta_terminal_handle_t *terminal, ta_handle_t *handle, bool has_caret, uint16_t x, uint16_t y);

/** Returns the bytes of the last `ta_painter_paint`, which the terminal is to be sent. `out` gets the
 * first of them, as many as there is room for, and `needed` the number of all.
 *
 * Statuses: ok, empty handle. */
uint32_t ta_painter_bytes(ta_terminal_handle_t *terminal, uint8_t *out, size_t out_len, size_t *needed);

/** Forgets what the terminal shows, and its modes, as after another program has written to it. The
 * next `ta_painter_paint` erases it.
 *
 * Statuses: ok, empty handle. */
uint32_t ta_painter_reset(ta_terminal_handle_t *terminal);

/** Changes the area that the terminal shows, and forgets what it shows. Call it at each
 * `TA_EVENT_SIZE`, also of the same size: the terminal may have had another in between.
 *
 * Statuses: ok, out of memory, empty handle. Where it is not ok, nothing changes. */
uint32_t ta_painter_resize(ta_terminal_handle_t *terminal, const ta_area_t *area);

/** Sets the colours that the terminal has, to one of `TA_COLORS_..`, and forgets what it shows. At
 * first it has all. Other colours are shown as the nearest that it has.
 *
 * Statuses: ok, invalid argument (there are no such colours), empty handle. */
uint32_t ta_painter_set_colors(ta_terminal_handle_t *terminal, uint32_t colors);

/* The shape of a terminal's cursor, and the title of its window. */

/** Returns the bytes that give a terminal's cursor a shape, one of `TA_SHAPE_..` (DECSCUSR). `out`
 * gets the first of them, as many as there is room for, and `needed` the number of all.
 *
 * Statuses: ok, out of memory, invalid argument (there is no such shape). */
uint32_t ta_cursor_shape_bytes(uint32_t shape, uint8_t *out, size_t out_len, size_t *needed);

/** Returns the bytes that give a terminal's window a title (OSC 2), without the title's control
 * characters. `out` gets the first of them, as many as there is room for, and `needed` the number
 * of all.
 *
 * Statuses: ok, out of memory, invalid argument (the bytes are not UTF-8). */
uint32_t ta_title_bytes(const uint8_t *title, size_t title_len, uint8_t *out, size_t out_len, size_t *needed);

#ifdef __cplusplus
}
#endif

#endif
