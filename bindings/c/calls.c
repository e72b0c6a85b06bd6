/* Tests of each group of calls. Exit status 1, and the check that fails, if one does. */
#include "check.h"
#include "style_calls.h"

static const ta_style_t red = {.fg = {.kind = TA_COLOR_RED}, .add_modifier = TA_MODIFIER_BOLD};
static const ta_style_t rgb = {.bg = {TA_COLOR_RGB, 1, 2, 3}, .sub_modifier = TA_MODIFIER_DIM};
static const ta_style_t none = {0};
static const ta_style_t wrong = {.fg = {.kind = 20}};

static int same_style(ta_style_t a, ta_style_t b) { return memcmp(&a, &b, sizeof a) == 0; }

static void handles(void) {
    ta_handle_t area = {0}, copy = {0};
    size_t row = 7, column = 8;
    CHECK(ta_insert_char(&area, 'a') == TA_EMPTY_HANDLE && ta_undo(&area) == TA_EMPTY_HANDLE);
    CHECK(ta_cursor(&area, &row, &column) == TA_EMPTY_HANDLE && row == 7 && column == 8);
    CHECK(ta_clone(&area, &copy) == TA_EMPTY_HANDLE && !copy.full);
    CHECK(ta_from_text(&area, (const uint8_t *)"\xff", 1) == TA_INVALID_ARGUMENT && !area.full);
    ta_free(&area);
    ta_free(&area);
    CHECK(ta_new(&area) == TA_OK && has_lines(&area, "\n") && has_cursor(&area, 0, 0));
    CHECK(ta_insert_str(&area, TEXT("one\ntwo")) == TA_OK);
    CHECK(ta_clone(&area, &copy) == TA_OK && has_lines(&copy, "one\ntwo\n"));
    CHECK(ta_undo(&copy) == TA_OK && has_lines(&copy, "\n") && has_lines(&area, "one\ntwo\n"));
    CHECK(ta_clone(&area, &copy) == TA_OK && has_lines(&copy, "one\ntwo\n"));
    ta_handle_t no_area = {0};
    CHECK(ta_clone(&no_area, &copy) == TA_EMPTY_HANDLE && has_lines(&copy, "one\ntwo\n"));
    CHECK(ta_from_text(&area, TEXT("a\r\nb\n\n")) == TA_OK && has_lines(&area, "a\nb\n\n"));
    CHECK(ta_from_text(&area, (const uint8_t *)"\xff", 1) == TA_INVALID_ARGUMENT && has_lines(&area, "a\nb\n\n"));
    CHECK(ta_from_text(&area, TEXT("")) == TA_OK && has_lines(&area, "\n"));
    CHECK(ta_new(&area) == TA_OK && has_lines(&area, "\n"));
    ta_handle_t moved = area;
    memset(&area, 0, sizeof area);
    CHECK(ta_insert_char(&moved, 'x') == TA_OK && has_lines(&moved, "x\n"));
    ta_free(&moved);
    ta_free(&moved);
    ta_free(&copy);
    ta_free(&area);
}

static void lines(void) {
    ta_handle_t area = area_of("");
    size_t ends[] = {3, 3, 8}, bad[] = {3, 2}, past[] = {9}, half[] = {7, 8}, count = 0, needed = 0;
    const char *text = "onef\xc3\xa9ur";
    uint8_t out[4] = {0};
    CHECK(ta_is_empty(&area) == TA_OK);
    CHECK(ta_set_lines(&area, TEXT(text), ends, 3, 2, 9) == TA_OK);
    CHECK(has_lines(&area, "one\n\nf\xc3\xa9ur\n") && has_cursor(&area, 2, 4));
    CHECK(ta_is_empty(&area) == TA_FALSE);
    CHECK(ta_line_count(&area, &count) == TA_OK && count == 3);
    CHECK(ta_line(&area, 2, out, 3, &needed) == TA_OK && needed == 5 && !memcmp(out, "f\xc3\xa9\0", 4));
    CHECK(ta_line(&area, 3, out, 3, &needed) == TA_FALSE && needed == 5 && !memcmp(out, "f\xc3\xa9\0", 4));
    CHECK(ta_text(&area, out, 3, &needed) == TA_OK && needed == 10 && !memcmp(out, "one\0", 4));
    CHECK(ta_lines(&area, out, 1, &needed, ends, 1, &count) == TA_OK);
    CHECK(needed == 8 && count == 3 && out[0] == 'o' && ends[0] == 3);
    CHECK(ta_set_lines(&area, TEXT(text), bad, 2, 0, 0) == TA_INVALID_ARGUMENT);
    CHECK(ta_set_lines(&area, TEXT(text), past, 1, 0, 0) == TA_INVALID_ARGUMENT);
    CHECK(ta_set_lines(&area, (const uint8_t *)"abcdef\xc3\xa9", 8, half, 2, 0, 0) == TA_INVALID_ARGUMENT);
    CHECK(ta_set_lines(&area, TEXT(text), ends, 0, 0, 0) == TA_INVALID_ARGUMENT);
    CHECK(has_lines(&area, "one\n\nf\xc3\xa9ur\n"));
    ta_free(&area);
}

static void edits(void) {
    ta_handle_t area = area_of("");
    CHECK(ta_insert_char(&area, 'a') == TA_OK && ta_insert_char(&area, 0xD800) == TA_INVALID_ARGUMENT);
    CHECK(ta_insert_char(&area, 0x72AC) == TA_OK && ta_insert_newline(&area) == TA_OK);
    CHECK(has_lines(&area, "a\xe7\x8a\xac\n\n") && has_cursor(&area, 1, 0));
    CHECK(ta_insert_str(&area, TEXT("")) == TA_FALSE && ta_insert_str(&area, (const uint8_t *)"\xff", 1) == TA_INVALID_ARGUMENT);
    CHECK(ta_insert_str(&area, TEXT("b\r\nc")) == TA_OK && has_lines(&area, "a\xe7\x8a\xac\nb\nc\n"));
    CHECK(ta_insert_pasted(&area, TEXT("x\ry\r\n")) == TA_OK && has_lines(&area, "a\xe7\x8a\xac\nb\ncx\ny\n\n"));
    CHECK(ta_undo(&area) == TA_OK && ta_insert_pasted(&area, TEXT("")) == TA_FALSE);
    CHECK(ta_insert_pasted(&area, (const uint8_t *)"\xff", 1) == TA_INVALID_ARGUMENT);
    CHECK(ta_insert_tab(&area) == TA_OK && has_lines(&area, "a\xe7\x8a\xac\nb\nc   \n"));
    CHECK(ta_paste(&area) == TA_FALSE && ta_set_yank_text(&area, TEXT("x\ny")) == TA_OK);
    CHECK(ta_paste(&area) == TA_OK && has_lines(&area, "a\xe7\x8a\xac\nb\nc   x\ny\n"));
    CHECK(ta_set_tab_length(&area, 0) == TA_OK && ta_insert_tab(&area) == TA_FALSE);
    ta_free(&area);
}

static void replacements(void) {
    ta_handle_t area = area_of("one two\nthree");
    uint8_t out[8];
    size_t needed = 0;
    CHECK(ta_text_range(&area, 1, 2, 0, 5, out, sizeof out, &needed) == TA_OK && needed == 5);
    CHECK(memcmp(out, "wo\nth", 5) == 0);
    CHECK(ta_replace_range(&area, 9, 9, 0, 4, TEXT("2\n3")) == TA_OK && has_lines(&area, "one 2\n3\n"));
    CHECK(has_cursor(&area, 1, 1) && ta_undo(&area) == TA_OK && has_lines(&area, "one two\nthree\n"));
    CHECK(ta_replace_range(&area, 0, 1, 0, 1, TEXT("")) == TA_FALSE && has_cursor(&area, 0, 1));
    CHECK(ta_replace_range(&area, 0, 0, 0, 1, (const uint8_t *)"\xff", 1) == TA_INVALID_ARGUMENT);
    size_t count = 9;
    CHECK(ta_replace_match(&area, TEXT("x")) == TA_FALSE && ta_replace_all(&area, TEXT("x"), &count) == TA_OK && count == 0);
    CHECK(ta_set_search_text(&area, TEXT("t"), false, false) == TA_OK && ta_search_forward(&area, false) == TA_OK);
    CHECK(ta_replace_match(&area, TEXT("tt")) == TA_OK && has_lines(&area, "one ttwo\nthree\n") && has_cursor(&area, 1, 0));
    CHECK(ta_replace_all(&area, TEXT("\n"), &count) == TA_OK && count == 3 && has_lines(&area, "one \n\nwo\n\nhree\n"));
    CHECK(ta_undo(&area) == TA_OK && has_lines(&area, "one ttwo\nthree\n"));
    CHECK(ta_replace_match(&area, (const uint8_t *)"\xff", 1) == TA_INVALID_ARGUMENT);
    CHECK(ta_replace_all(&area, (const uint8_t *)"\xff", 1, &count) == TA_INVALID_ARGUMENT && count == 3);
    ta_free(&area);
}

static void removals(void) {
    ta_handle_t area = area_of("one two\nthree\nfour");
    CHECK(ta_delete_char(&area) == TA_FALSE && ta_delete_newline(&area) == TA_FALSE);
    CHECK(ta_delete_next_char(&area) == TA_OK && has_lines(&area, "ne two\nthree\nfour\n"));
    CHECK(ta_delete_next_word(&area) == TA_OK && has_lines(&area, " two\nthree\nfour\n"));
    CHECK(ta_move_cursor(&area, TA_MOVE_END) == TA_OK && ta_delete_word(&area) == TA_OK);
    CHECK(has_lines(&area, " \nthree\nfour\n"));
    CHECK(ta_delete_char(&area) == TA_OK && has_lines(&area, "\nthree\nfour\n"));
    CHECK(ta_jump(&area, 1, 2) == TA_OK && ta_delete_line_by_end(&area) == TA_OK);
    CHECK(has_lines(&area, "\nth\nfour\n") && ta_delete_line_by_head(&area) == TA_OK);
    CHECK(has_lines(&area, "\n\nfour\n") && ta_delete_newline(&area) == TA_OK);
    CHECK(has_lines(&area, "\nfour\n") && ta_delete_str(&area, 3) == TA_OK);
    CHECK(has_lines(&area, "ur\n") && ta_clear(&area) == TA_OK && ta_clear(&area) == TA_FALSE);
    CHECK(has_lines(&area, "\n") && ta_delete_str(&area, 1) == TA_FALSE);
    ta_free(&area);
}

static void moves(void) {
    ta_handle_t area = area_of("one two\nthree\n\nfour");
    CHECK(ta_move_cursor(&area, TA_MOVE_FORWARD) == TA_OK && has_cursor(&area, 0, 1));
    CHECK(ta_move_cursor(&area, TA_MOVE_DOWN) == TA_OK && has_cursor(&area, 1, 1));
    CHECK(ta_move_cursor(&area, TA_MOVE_END) == TA_OK && has_cursor(&area, 1, 5));
    CHECK(ta_move_cursor(&area, TA_MOVE_WORD_BACK) == TA_OK && has_cursor(&area, 1, 0));
    CHECK(ta_move_cursor(&area, TA_MOVE_PARAGRAPH_FORWARD) == TA_OK && has_cursor(&area, 3, 0));
    CHECK(ta_move_cursor(&area, TA_MOVE_TOP) == TA_OK && has_cursor(&area, 0, 0));
    CHECK(ta_move_cursor(&area, 14) == TA_INVALID_ARGUMENT && ta_jump(&area, 9, 9) == TA_OK);
    CHECK(has_cursor(&area, 3, 4));
    CHECK(ta_go_to(&area, 1, 2) == TA_OK && has_cursor(&area, 1, 2));
    CHECK(ta_go_to(&area, SIZE_MAX, SIZE_MAX) == TA_OK && has_cursor(&area, 3, 4));
    ta_area_t place = {0, 0, 10, 2};
    CHECK(ta_screen_reset(&area, &place) == TA_OK && ta_render(&area, &place) == TA_OK);
    CHECK(ta_scroll(&area, -2, 0) == TA_OK && has_cursor(&area, 1, 4));
    CHECK(ta_scroll_page(&area, TA_SCROLL_PAGE_DOWN) == TA_OK && has_cursor(&area, 2, 0));
    CHECK(ta_scroll_page(&area, 4) == TA_INVALID_ARGUMENT);
    static uint8_t many[70000];
    memset(many, '\n', sizeof many);
    CHECK(ta_from_text(&area, many, sizeof many) == TA_OK);
    CHECK(ta_go_to(&area, 69998, 1) == TA_OK && has_cursor(&area, 69998, 0));
    ta_free(&area);
}

static void selection(void) {
    ta_handle_t area = area_of("one\ntwo");
    size_t a = 9, b = 9, c = 9, d = 9, needed = 0;
    uint8_t out[8] = {0};
    CHECK(ta_is_selecting(&area) == TA_FALSE && ta_selection_range(&area, &a, &b, &c, &d) == TA_FALSE);
    CHECK(a == 9 && ta_start_selection(&area) == TA_OK && ta_is_selecting(&area) == TA_OK);
    CHECK(ta_jump(&area, 1, 1) == TA_OK && ta_selection_range(&area, &a, &b, &c, &d) == TA_OK);
    CHECK(a == 0 && b == 0 && c == 1 && d == 1 && ta_copy(&area) == TA_OK);
    CHECK(ta_yank_text(&area, out, 8, &needed) == TA_OK && needed == 5 && !memcmp(out, "one\nt\0", 6));
    CHECK(ta_cut(&area) == TA_FALSE && ta_select_all(&area) == TA_OK && ta_cut(&area) == TA_OK);
    CHECK(has_lines(&area, "\n") && ta_paste(&area) == TA_OK && has_lines(&area, "one\ntwo\n"));
    CHECK(ta_start_selection(&area) == TA_OK && ta_cancel_selection(&area) == TA_OK);
    CHECK(ta_is_selecting(&area) == TA_FALSE);
    CHECK(ta_set_yank_text(&area, (const uint8_t *)"\xff", 1) == TA_INVALID_ARGUMENT);
    ta_free(&area);
}

static void read_only(void) {
    ta_handle_t area = area_of("one");
    CHECK(ta_read_only(&area) == TA_FALSE && ta_set_read_only(&area, true) == TA_OK);
    CHECK(ta_insert_char(&area, 'x') == TA_OK && ta_delete_next_char(&area) == TA_FALSE);
    CHECK(ta_insert_newline(&area) == TA_OK && ta_undo(&area) == TA_FALSE);
    CHECK(ta_read_only(&area) == TA_OK && has_lines(&area, "one\n"));
    CHECK(ta_set_read_only(&area, false) == TA_OK && ta_insert_char(&area, 'x') == TA_OK);
    CHECK(has_lines(&area, "xone\n"));
    ta_free(&area);
}

static void single_line(void) {
    ta_handle_t area = area_of("one\ntwo");
    CHECK(ta_single_line(&area) == TA_FALSE && ta_set_single_line(&area, true) == TA_FALSE);
    CHECK(ta_clear(&area) == TA_OK && ta_set_single_line(&area, true) == TA_OK);
    CHECK(ta_undo(&area) == TA_FALSE && ta_single_line(&area) == TA_OK);
    CHECK(ta_insert_newline(&area) == TA_OK && ta_insert_char(&area, '\r') == TA_OK);
    CHECK(ta_insert_str(&area, TEXT("a\nb")) == TA_OK && has_lines(&area, "a b\n"));
    CHECK(ta_set_single_line(&area, false) == TA_OK && ta_insert_newline(&area) == TA_OK);
    CHECK(has_lines(&area, "a b\n\n"));
    ta_free(&area);
}

static void max_chars(void) {
    ta_handle_t area = area_of("one");
    size_t most = 0;
    CHECK(ta_max_chars(&area, &most) == TA_FALSE && ta_set_max_chars(&area, 5) == TA_OK);
    CHECK(ta_max_chars(&area, &most) == TA_OK && most == 5);
    CHECK(ta_insert_str(&area, TEXT("abc")) == TA_OK && has_lines(&area, "abone\n"));
    CHECK(ta_insert_newline(&area) == TA_OK && ta_insert_tab(&area) == TA_FALSE);
    CHECK(has_lines(&area, "abone\n") && ta_clear_max_chars(&area) == TA_OK);
    CHECK(ta_insert_newline(&area) == TA_OK && has_lines(&area, "ab\none\n"));
    ta_free(&area);
}

static void cursor_unit(void) {
    ta_handle_t area = area_of("e\xcc\x81x");
    uint32_t unit = 9;
    CHECK(ta_cursor_unit(&area, &unit) == TA_OK && unit == TA_CURSOR_UNIT_CHARACTER);
    CHECK(ta_set_cursor_unit(&area, 2) == TA_INVALID_ARGUMENT);
    CHECK(ta_set_cursor_unit(&area, TA_CURSOR_UNIT_CLUSTER) == TA_OK);
    CHECK(ta_cursor_unit(&area, &unit) == TA_OK && unit == TA_CURSOR_UNIT_CLUSTER);
    CHECK(ta_delete_next_char(&area) == TA_OK && has_lines(&area, "x\n"));
    ta_free(&area);
}

static void history(void) {
    ta_handle_t area = area_of("");
    size_t most = 0;
    CHECK(ta_undo(&area) == TA_FALSE && ta_max_histories(&area, &most) == TA_OK && most == 50);
    CHECK(ta_undo_coalescing(&area) == TA_FALSE && ta_set_undo_coalescing(&area, true) == TA_OK);
    CHECK(ta_undo_coalescing(&area) == TA_OK && ta_set_now(&area, 1000000000) == TA_OK);
    CHECK(ta_insert_char(&area, 'a') == TA_OK && ta_insert_char(&area, 'b') == TA_OK);
    CHECK(ta_set_now(&area, 2000000000) == TA_OK && ta_insert_char(&area, 'c') == TA_OK);
    CHECK(ta_undo(&area) == TA_OK && has_lines(&area, "ab\n"));
    CHECK(ta_undo(&area) == TA_OK && has_lines(&area, "\n") && ta_undo(&area) == TA_FALSE);
    CHECK(ta_redo(&area) == TA_OK && ta_redo(&area) == TA_OK && ta_redo(&area) == TA_FALSE);
    CHECK(has_lines(&area, "abc\n") && ta_set_max_histories(&area, 0) == TA_OK);
    CHECK(ta_undo(&area) == TA_FALSE && ta_max_histories(&area, &most) == TA_OK && most == 0);
    CHECK(ta_undo_grouping(&area) == TA_FALSE && ta_set_undo_grouping(&area, true) == TA_OK);
    CHECK(ta_undo_grouping(&area) == TA_OK && ta_set_max_histories(&area, 9) == TA_OK);
    CHECK(ta_clear(&area) == TA_OK && ta_insert_char(&area, 'a') == TA_OK);
    CHECK(ta_end_run(&area) == TA_OK && ta_select_all(&area) == TA_OK && ta_insert_char(&area, 'b') == TA_OK);
    CHECK(ta_undo(&area) == TA_OK && has_lines(&area, "a\n"));
    CHECK(ta_begin_undo_group(&area) == TA_OK && ta_insert_char(&area, 'c') == TA_OK);
    CHECK(ta_insert_newline(&area) == TA_OK && ta_end_undo_group(&area) == TA_OK);
    CHECK(ta_undo(&area) == TA_OK && has_lines(&area, "a\n"));
    ta_free(&area);
}

static void search(void) {
    ta_handle_t area = area_of("one two\none");
    uint8_t out[100] = {0};
    size_t needed = 0;
    CHECK(ta_search_pattern(&area, out, 4, &needed) == TA_FALSE && ta_search_forward(&area, true) == TA_FALSE);
    CHECK(ta_pattern_error(&area, out, 100, &needed) == TA_OK && needed == 0);
    CHECK(ta_set_search_pattern(&area, TEXT("on.")) == TA_OK);
    CHECK(ta_search_pattern(&area, out, 2, &needed) == TA_OK && needed == 3 && !memcmp(out, "on\0", 3));
    CHECK(ta_search_forward(&area, true) == TA_OK && has_cursor(&area, 0, 0));
    CHECK(ta_search_forward(&area, false) == TA_OK && has_cursor(&area, 1, 0));
    CHECK(ta_search_back(&area, false) == TA_OK && has_cursor(&area, 0, 0));
    CHECK(ta_set_search_pattern(&area, TEXT("(")) == TA_PATTERN_REJECTED);
    CHECK(ta_pattern_error(&area, out, 100, &needed) == TA_OK && needed > 0);
    CHECK(ta_search_pattern(&area, out, 2, &needed) == TA_OK && needed == 3);
    CHECK(ta_set_search_pattern(&area, (const uint8_t *)"\xff", 1) == TA_INVALID_ARGUMENT);
    CHECK(ta_set_search_pattern(&area, TEXT("")) == TA_OK && ta_search_pattern(&area, out, 2, &needed) == TA_FALSE);
    size_t count = 9, index = 9;
    CHECK(ta_match_count(&area, &count) == TA_OK && count == 0 && ta_match_index(&area, &index) == TA_FALSE && index == 9);
    CHECK(ta_set_search_text(&area, TEXT("O"), true, false) == TA_OK);
    CHECK(ta_match_count(&area, &count) == TA_OK && count == 3 && ta_match_index(&area, &index) == TA_OK && index == 0);
    CHECK(ta_set_search_text(&area, TEXT("o"), false, true) == TA_OK);
    CHECK(ta_match_count(&area, &count) == TA_OK && count == 0 && ta_match_index(&area, &index) == TA_FALSE);
    CHECK(ta_set_search_text(&area, (const uint8_t *)"\xff", 1, false, false) == TA_INVALID_ARGUMENT);
    ta_free(&area);
}

static void ranges(void) {
    ta_handle_t area = area_of("@one two\nthree");
    ta_range_t both[] = {{1, 0, 5}, {0, 0, 4}}, bad[] = {{0, 2, 2}, {7, 0, 1}, {0, 0, 4}}, out[3];
    ta_rejected_t rejected[3];
    size_t needed = 9;
    CHECK(ta_atomic_ranges(&area, out, 3, &needed) == TA_OK && needed == 0);
    CHECK(ta_set_atomic_ranges(&area, both, 2) == TA_OK);
    CHECK(ta_atomic_ranges(&area, out, 1, &needed) == TA_OK && needed == 2 && out[0].row == 0 && out[0].end_col == 4);
    CHECK(ta_set_atomic_ranges(&area, bad, 3) == TA_RANGES_REJECTED);
    CHECK(ta_rejected_ranges(&area, rejected, 3, &needed) == TA_OK && needed == 2);
    CHECK(rejected[0].range.start_col == 2 && rejected[0].reason == TA_REASON_EMPTY);
    CHECK(rejected[1].range.row == 7 && rejected[1].reason == TA_REASON_ROW_OUT_OF_BOUNDS);
    CHECK(ta_atomic_range_at_cursor(&area, TA_FORWARD, out) == TA_OK && out[0].end_col == 4);
    CHECK(ta_atomic_range_at_cursor(&area, TA_BACKWARD, out) == TA_FALSE);
    CHECK(ta_atomic_range_at_cursor(&area, 2, out) == TA_INVALID_ARGUMENT);
    CHECK(ta_normalize_cursor_around_atomic_ranges(&area, TA_FORWARD) == TA_FALSE);
    CHECK(ta_normalize_cursor_around_atomic_ranges(&area, 2) == TA_INVALID_ARGUMENT);
    CHECK(ta_delete_atomic_range_at_cursor(&area, TA_FORWARD, out) == TA_OK && out[0].start_col == 0);
    CHECK(has_lines(&area, " two\nthree\n"));
    CHECK(ta_delete_atomic_range_at_cursor(&area, TA_FORWARD, out) == TA_FALSE);
    CHECK(ta_delete_atomic_range_at_cursor(&area, 2, out) == TA_INVALID_ARGUMENT);
    CHECK(ta_undo_ranges(&area) == TA_FALSE && ta_undo(&area) == TA_OK);
    CHECK(ta_set_undo_ranges(&area, true) == TA_OK && ta_undo_ranges(&area) == TA_OK);
    CHECK(ta_set_atomic_ranges(&area, both, 2) == TA_OK);
    CHECK(ta_delete_atomic_range_at_cursor(&area, TA_BACKWARD, out) == TA_OK);
    CHECK(ta_atomic_ranges(&area, out, 3, &needed) == TA_OK && needed == 1 && ta_undo(&area) == TA_OK);
    CHECK(ta_atomic_ranges(&area, out, 3, &needed) == TA_OK && needed == 2 && ta_redo(&area) == TA_OK);
    CHECK(ta_atomic_ranges(&area, out, 3, &needed) == TA_OK && needed == 1);
    CHECK(ta_clear_atomic_ranges(&area) == TA_OK);
    CHECK(ta_atomic_ranges(&area, out, 3, &needed) == TA_OK && needed == 0);
    ta_free(&area);
}

static void settings(void) {
    ta_handle_t area = area_of("");
    uint8_t columns = 0, out[8] = {0};
    size_t needed = 0;
    CHECK(ta_tab_length(&area, &columns) == TA_OK && columns == 4 && ta_hard_tab_indent(&area) == TA_FALSE);
    CHECK(ta_indent(&area, out, 2, &needed) == TA_OK && needed == 4 && !memcmp(out, "  \0", 3));
    CHECK(ta_set_tab_length(&area, 2) == TA_OK && ta_tab_length(&area, &columns) == TA_OK && columns == 2);
    CHECK(ta_set_hard_tab_indent(&area, true) == TA_OK && ta_hard_tab_indent(&area) == TA_OK);
    CHECK(ta_indent(&area, out, 2, &needed) == TA_OK && needed == 1 && out[0] == '\t');
    CHECK(ta_insert_tab(&area) == TA_OK && has_lines(&area, "\t\n"));
    ta_free(&area);
}

static void layout(void) {
    ta_handle_t area = area_of("one two three");
    uint32_t number = 9;
    ta_style_t style;
    ta_measure_t heights;
    CHECK(ta_wrap_mode(&area, &number) == TA_OK && number == TA_WRAP_NONE);
    CHECK(ta_set_wrap_mode(&area, 4) == TA_INVALID_ARGUMENT && ta_set_wrap_mode(&area, TA_WRAP_WORD) == TA_OK);
    CHECK(ta_wrap_mode(&area, &number) == TA_OK && number == TA_WRAP_WORD);
    CHECK(ta_measure(&area, 6, &heights) == TA_OK && heights.content_rows == 3 && heights.preferred_rows == 3);
    CHECK(heights.min_rows == 1 && heights.max_rows == 65535);
    CHECK(ta_line_number_style(&area, &style) == TA_FALSE);
    CHECK(ta_set_line_number_style(&area, &wrong) == TA_INVALID_ARGUMENT);
    CHECK(ta_set_line_number_style(&area, &red) == TA_OK);
    CHECK(ta_line_number_style(&area, &style) == TA_OK && same_style(style, red));
    CHECK(ta_remove_line_number(&area) == TA_OK && ta_line_number_style(&area, &style) == TA_FALSE);
    CHECK(ta_alignment(&area, &number) == TA_OK && number == TA_ALIGNMENT_LEFT);
    CHECK(ta_set_alignment(&area, 3) == TA_INVALID_ARGUMENT && ta_set_alignment(&area, TA_ALIGNMENT_RIGHT) == TA_OK);
    CHECK(ta_alignment(&area, &number) == TA_OK && number == TA_ALIGNMENT_RIGHT);
    ta_free(&area);
}

static void styles(void) {
    ta_handle_t area = area_of("");
    size_t count = sizeof style_calls / sizeof *style_calls;
    ta_style_t style;
    CHECK(ta_cursor_style(&area, &style) == TA_OK && style.add_modifier == TA_MODIFIER_REVERSED);
    CHECK(ta_selection_style(&area, &style) == TA_OK && style.bg.kind == TA_COLOR_LIGHT_BLUE);
    for (size_t i = 0; i < count; i++) {
        CHECK(style_calls[i].set(&area, i % 2 ? &red : &rgb) == TA_OK);
        CHECK(style_calls[i].set(&area, &wrong) == TA_INVALID_ARGUMENT);
    }
    for (size_t i = 0; i < count; i++)
        CHECK(style_calls[i].get(&area, &style) == TA_OK && same_style(style, i % 2 ? red : rgb));
    ta_free(&area);
}

static void appearance(void) {
    ta_handle_t area = area_of("one");
    uint32_t number = 9;
    ta_area_t place = {0, 0, 5, 1};
    ta_cell_t cell;
    CHECK(ta_mask_char(&area, &number) == TA_FALSE && ta_set_mask_char(&area, 0xDFFF) == TA_INVALID_ARGUMENT);
    CHECK(ta_set_mask_char(&area, '*') == TA_OK && ta_mask_char(&area, &number) == TA_OK && number == '*');
    CHECK(ta_screen_reset(&area, &place) == TA_OK && ta_render(&area, &place) == TA_OK && shows(&area, 0, "***"));
    CHECK(ta_clear_mask_char(&area) == TA_OK && ta_render(&area, &place) == TA_OK && shows(&area, 0, "one"));
    CHECK(ta_cursor_render_mode(&area, &number) == TA_OK && number == TA_CURSOR_CELL);
    CHECK(ta_set_cursor_render_mode(&area, 2) == TA_INVALID_ARGUMENT);
    CHECK(ta_set_cursor_render_mode(&area, TA_CURSOR_HIDDEN) == TA_OK);
    CHECK(ta_cursor_render_mode(&area, &number) == TA_OK && number == TA_CURSOR_HIDDEN);
    CHECK(ta_custom_highlight(&area, 0, 1, 0, 3, &wrong, 40) == TA_INVALID_ARGUMENT);
    CHECK(ta_custom_highlight(&area, 0, 1, 0, 3, &red, 40) == TA_OK && ta_render(&area, &place) == TA_OK);
    CHECK(ta_screen_cell(&area, 1, 0, &cell) == TA_OK && cell.fg.kind == TA_COLOR_RED);
    CHECK(ta_screen_cell(&area, 0, 0, &cell) == TA_OK && cell.fg.kind == TA_COLOR_RESET);
    CHECK(ta_clear_custom_highlight(&area) == TA_OK && ta_screen_reset(&area, &place) == TA_OK);
    CHECK(ta_render(&area, &place) == TA_OK);
    CHECK(ta_screen_cell(&area, 1, 0, &cell) == TA_OK && cell.fg.kind == TA_COLOR_RESET);
    ta_free(&area);
}

static void surround(void) {
    ta_handle_t area = area_of("");
    ta_block_t block = {.borders = TA_BORDER_TOP | TA_BORDER_LEFT, .has_title = true, .padding = {1, 0, 0, 0}, .border_style = red};
    ta_block_t found;
    ta_span_t spans[] = {{2, red}, {1, none}}, out[4];
    ta_line_t lines[] = {{1, none}, {1, rgb}}, out_lines[4];
    ta_style_t style;
    ta_area_t place = {0, 0, 8, 3};
    uint8_t text[8] = {0};
    size_t bytes = 9, count = 9, line_count = 9;
    uint16_t rows = 0;
    CHECK(ta_block(&area, &found, text, 8, &bytes, out, 4, &count) == TA_FALSE);
    CHECK(ta_set_block(&area, &block, TEXT("abcd"), spans, 2) == TA_INVALID_ARGUMENT);
    CHECK(ta_set_block(&area, &block, TEXT("abc"), spans, 2) == TA_OK);
    CHECK(ta_block(&area, &found, text, 8, &bytes, out, 1, &count) == TA_OK && bytes == 3 && count == 2);
    CHECK(found.borders == 9 && found.has_title && found.padding.left == 1 && !memcmp(text, "abc\0", 4));
    CHECK(out[0].bytes == 2 && same_style(out[0].style, red) && same_style(found.border_style, red));
    CHECK(ta_set_placeholder_text(&area, TEXT("say")) == TA_OK);
    CHECK(ta_placeholder_text(&area, text, 2, &bytes) == TA_OK && bytes == 3 && !memcmp(text, "sac", 3));
    CHECK(ta_screen_reset(&area, &place) == TA_OK && ta_render(&area, &place) == TA_OK);
    CHECK(shows(&area, 0, "\xe2\x94\x8c" "abc\xe2\x94\x80\xe2\x94\x80\xe2\x94\x80\xe2\x94\x80"));
    CHECK(shows(&area, 1, "\xe2\x94\x82  say"));
    CHECK(ta_set_styled_placeholder(&area, TEXT("abc"), spans, 2, lines, 2, &rgb) == TA_OK);
    CHECK(ta_placeholder(&area, &style, text, 8, &bytes, out, 4, &count, out_lines, 4, &line_count) == TA_OK);
    CHECK(bytes == 3 && count == 2 && line_count == 2 && same_style(style, rgb));
    CHECK(out_lines[1].spans == 1 && same_style(out_lines[1].style, rgb) && out[0].bytes == 2 && out[1].bytes == 1);
    CHECK(ta_set_styled_placeholder(&area, TEXT("abc"), spans, 1, lines, 2, &rgb) == TA_INVALID_ARGUMENT);
    CHECK(ta_placeholder_style(&area, &style) == TA_OK && same_style(style, rgb));
    CHECK(ta_set_placeholder_style(&area, &red) == TA_OK && ta_set_placeholder_style(&area, &wrong) == TA_INVALID_ARGUMENT);
    CHECK(ta_placeholder_style(&area, &style) == TA_OK && same_style(style, red));
    CHECK(ta_set_placeholder_text(&area, TEXT("")) == TA_OK && ta_placeholder_style(&area, &style) == TA_FALSE);
    CHECK(ta_remove_block(&area) == TA_OK && ta_block(&area, &found, text, 8, &bytes, out, 4, &count) == TA_FALSE);
    CHECK(ta_set_min_rows(&area, 3) == TA_OK && ta_min_rows(&area, &rows) == TA_OK && rows == 3);
    CHECK(ta_set_max_rows(&area, 2) == TA_OK && ta_max_rows(&area, &rows) == TA_OK && rows == 3);
    ta_free(&area);
}

static void screen(void) {
    ta_handle_t area = area_of("one\ntwo");
    ta_area_t place = {2, 1, 6, 2}, found, part = {3, 1, 1, 1};
    ta_cell_t cell, cells[20];
    uint8_t out[40];
    size_t needed = 9, row = 9, column = 9, width = 9, height = 9;
    uint16_t x = 9, y = 9;
    const char *long_text = "e\xcc\x81\xcc\x81\xcc\x81\xcc\x81\xcc\x81\xcc\x81\xcc\x81\xcc\x81\xcc\x81\xcc\x81\xcc\x81\xcc\x81\xcc\x81\xcc\x81";
    CHECK(ta_screen_cells(&area, cells, 20, &needed) == TA_OK && needed == 0);
    CHECK(ta_rendered_cursor_position(&area, &x, &y) == TA_FALSE && ta_cursor_at_position(&area, 2, 1, &row, &column) == TA_FALSE);
    CHECK(ta_screen_reset(&area, &place) == TA_OK && ta_screen_area(&area, &found) == TA_OK);
    CHECK(!memcmp(&found, &place, sizeof place) && ta_render(&area, &place) == TA_OK);
    CHECK(shows(&area, 1, "one") && shows(&area, 2, "two"));
    CHECK(ta_rendered_cursor_position(&area, &x, &y) == TA_OK && x == 2 && y == 1);
    CHECK(ta_cursor_at_position(&area, 3, 2, &row, &column) == TA_OK && row == 1 && column == 1);
    CHECK(ta_cursor_at_position(&area, 0, 0, &row, &column) == TA_FALSE);
    CHECK(ta_viewport(&area, &row, &column, &width, &height) == TA_OK && row == 0 && column == 0 && width == 6 && height == 2);
    CHECK(ta_screen_cell(&area, 2, 1, &cell) == TA_OK && cell.bytes == 1 && cell.symbol[0] == 'o' && (cell.modifier & TA_MODIFIER_REVERSED));
    CHECK(ta_screen_cell(&area, 0, 0, &cell) == TA_FALSE);
    CHECK(ta_screen_put(&area, 3, 1, TEXT(long_text), &red) == TA_OK && ta_screen_put(&area, 0, 0, TEXT("x"), &red) == TA_OK);
    CHECK(ta_screen_put(&area, 3, 1, TEXT("x"), &wrong) == TA_INVALID_ARGUMENT);
    CHECK(ta_screen_cell(&area, 3, 1, &cell) == TA_OK && cell.bytes == 29 && !memcmp(cell.symbol, long_text, 24));
    CHECK(ta_screen_symbol(&area, 3, 1, out, 40, &needed) == TA_OK && needed == 29 && !memcmp(out, long_text, 29));
    CHECK(ta_screen_symbol(&area, 9, 9, out, 40, &needed) == TA_FALSE);
    CHECK(ta_screen_set_style(&area, &part, &rgb) == TA_OK && ta_screen_set_style(&area, &part, &wrong) == TA_INVALID_ARGUMENT);
    CHECK(ta_screen_cells(&area, cells, 20, &needed) == TA_OK && needed == 12);
    CHECK(cells[1].bg.kind == TA_COLOR_RGB && cells[1].bg.green == 2 && cells[6].symbol[0] == 't' && cells[11].symbol[0] == ' ');
    memset(cells, 0xee, sizeof cells);
    CHECK(ta_screen_cells(&area, cells, 2, &needed) == TA_OK && needed == 12 && cells[1].bytes == 29 && cells[2].bytes == 0xeeee);
    CHECK(ta_screen_clear(&area) == TA_OK && shows(&area, 1, "") && shows(&area, 2, ""));
    CHECK(ta_screen_cell(&area, 2, 1, &cell) == TA_OK && cell.fg.kind == TA_COLOR_RESET && cell.modifier == 0);
    ta_free(&area);
}

static void inputs(void) {
    ta_handle_t area = area_of("");
    ta_input_t a = {.key = TA_KEY_CHAR, .argument = 'a'}, undo = {.key = TA_KEY_CHAR, .argument = 'u', .ctrl = true};
    ta_input_t left = {.key = TA_KEY_LEFT, .shift = true}, nothing = {0}, wrong_key = {.key = 21}, f = {.key = TA_KEY_F, .argument = 256};
    CHECK(ta_input(&area, &a) == TA_OK && has_lines(&area, "a\n") && ta_input(&area, &nothing) == TA_FALSE);
    CHECK(ta_input(&area, &wrong_key) == TA_INVALID_ARGUMENT && ta_input(&area, &f) == TA_INVALID_ARGUMENT);
    CHECK(ta_input(&area, &left) == TA_FALSE && ta_is_selecting(&area) == TA_OK && has_cursor(&area, 0, 0));
    CHECK(ta_input(&area, &undo) == TA_OK && has_lines(&area, "\n"));
    CHECK(ta_input_without_shortcuts(&area, &undo) == TA_FALSE && ta_input_without_shortcuts(&area, &a) == TA_OK);
    CHECK(ta_input_without_shortcuts(&area, &wrong_key) == TA_INVALID_ARGUMENT && has_lines(&area, "a\n"));
    ta_free(&area);
}

int main(void) {
    handles();
    lines();
    edits();
    replacements();
    removals();
    moves();
    selection();
    read_only();
    single_line();
    max_chars();
    cursor_unit();
    history();
    search();
    ranges();
    settings();
    layout();
    styles();
    appearance();
    surround();
    screen();
    inputs();
    puts("all checks hold");
    return 0;
}
