/* Tests of the calls on a terminal: a decoder and a painter. Exit status 1, and the check that fails,
 * if one does. */
#include "check.h"

static const ta_area_t place = {0, 0, 10, 2};

static ta_terminal_handle_t terminal_of(ta_area_t area) {
    ta_terminal_handle_t terminal = {0};
    CHECK(ta_terminal_new(&terminal, &area) == TA_OK);
    return terminal;
}

/* The next event, which there has to be. */
static ta_event_t next(ta_terminal_handle_t *terminal) {
    ta_event_t event;
    CHECK(ta_decoder_event(terminal, &event) == TA_OK);
    return event;
}

static int is_key(ta_event_t event, uint32_t key, uint32_t argument) {
    return event.kind == TA_EVENT_INPUT && event.input.key == key && event.input.argument == argument;
}

static int has_none(ta_terminal_handle_t *terminal) {
    ta_event_t event = {.kind = 99};
    return ta_decoder_event(terminal, &event) == TA_FALSE && event.kind == 99;
}

/* The bytes of the last frame, as a string. It is overwritten by the next call. */
static const char *bytes_of(ta_terminal_handle_t *terminal) {
    static char text[2000];
    size_t needed = 9999;
    CHECK(ta_painter_bytes(terminal, (uint8_t *)text, sizeof text - 1, &needed) == TA_OK);
    CHECK(needed < sizeof text);
    text[needed] = 0;
    return text;
}

static void handles(void) {
    ta_terminal_handle_t terminal = {0};
    ta_handle_t area = {0};
    ta_event_t event;
    uint8_t out[4];
    size_t needed = 7;
    CHECK(ta_decoder_feed(&terminal, TEXT("a")) == TA_EMPTY_HANDLE);
    CHECK(ta_decoder_idle(&terminal, 9) == TA_EMPTY_HANDLE);
    CHECK(ta_decoder_event(&terminal, &event) == TA_EMPTY_HANDLE);
    CHECK(ta_decoder_pasted(&terminal, out, 4, &needed) == TA_EMPTY_HANDLE && needed == 7);
    CHECK(ta_painter_bytes(&terminal, out, 4, &needed) == TA_EMPTY_HANDLE && needed == 7);
    CHECK(ta_painter_paint(&terminal, &area, false, 0, 0) == TA_EMPTY_HANDLE);
    CHECK(ta_painter_reset(&terminal) == TA_EMPTY_HANDLE);
    CHECK(ta_painter_resize(&terminal, &place) == TA_EMPTY_HANDLE && !terminal.full);
    ta_terminal_free(&terminal);
    CHECK(ta_terminal_new(&terminal, &place) == TA_OK && terminal.full);
    CHECK(ta_painter_paint(&terminal, &area, false, 0, 0) == TA_EMPTY_HANDLE && terminal.full && !area.full);
    CHECK(ta_new(&area) == TA_OK);
    ta_terminal_free(&terminal);
    CHECK(ta_painter_paint(&terminal, &area, false, 0, 0) == TA_EMPTY_HANDLE && area.full);
    CHECK(ta_terminal_new(&terminal, &place) == TA_OK && ta_decoder_feed(&terminal, TEXT("a")) == TA_OK);
    CHECK(ta_terminal_new(&terminal, &place) == TA_OK && has_none(&terminal));
    ta_terminal_free(&terminal);
    ta_terminal_free(&terminal);
    ta_free(&area);
}

static void keys(void) {
    ta_terminal_handle_t terminal = terminal_of(place);
    CHECK(has_none(&terminal));
    CHECK(ta_decoder_feed(&terminal, TEXT("a\xc3\xa9\x1b[1;5")) == TA_OK);
    CHECK(ta_decoder_feed(&terminal, TEXT("A\x1b[15~\r")) == TA_OK);
    CHECK(is_key(next(&terminal), TA_KEY_CHAR, 'a') && is_key(next(&terminal), TA_KEY_CHAR, 0xe9));
    ta_event_t up = next(&terminal);
    CHECK(is_key(up, TA_KEY_UP, 0) && up.input.ctrl && !up.input.alt && !up.input.shift);
    CHECK(is_key(next(&terminal), TA_KEY_F, 5) && is_key(next(&terminal), TA_KEY_ENTER, 0) && has_none(&terminal));
    CHECK(ta_decoder_feed(&terminal, TEXT("\x1b")) == TA_OK && has_none(&terminal));
    CHECK(ta_decoder_idle(&terminal, 50) == TA_OK && is_key(next(&terminal), TA_KEY_ESC, 0) && has_none(&terminal));
    CHECK(ta_decoder_feed(&terminal, TEXT("\x1b\t")) == TA_OK);
    ta_event_t tab = next(&terminal);
    CHECK(is_key(tab, TA_KEY_TAB, 0) && tab.input.alt && !tab.input.shift);
    CHECK(ta_decoder_set_console(&terminal, true) == TA_OK && ta_decoder_feed(&terminal, TEXT("\x1b\t")) == TA_OK);
    tab = next(&terminal);
    CHECK(is_key(tab, TA_KEY_TAB, 0) && !tab.input.alt && tab.input.shift);
    CHECK(ta_decoder_feed(&terminal, TEXT("\x1b[12")) == TA_OK && ta_decoder_idle(&terminal, 4999) == TA_OK);
    CHECK(has_none(&terminal) && ta_decoder_idle(&terminal, 1) == TA_OK);
    CHECK(next(&terminal).kind == TA_EVENT_UNKNOWN && has_none(&terminal));
    ta_terminal_free(&terminal);
}

static void events(void) {
    ta_terminal_handle_t terminal = terminal_of(place);
    uint8_t out[8] = {0};
    size_t needed = 0;
    CHECK(ta_decoder_pasted(&terminal, out, 8, &needed) == TA_OK && needed == 0);
    CHECK(ta_decoder_feed(&terminal, TEXT("\x1b[200~one\rtwo\x1b[201~x")) == TA_OK);
    CHECK(ta_decoder_feed(&terminal, TEXT("\x1b[<18;3;4M\x1b[<0;1;2m\x1b[I\x1b[O\x1b[99z")) == TA_OK);
    ta_event_t paste = next(&terminal);
    CHECK(paste.kind == TA_EVENT_PASTE && paste.bytes == 7 && paste.input.key == TA_KEY_NULL);
    CHECK(ta_decoder_pasted(&terminal, out, 5, &needed) == TA_OK && needed == 7 && !memcmp(out, "one\rt\0\0", 8));
    CHECK(is_key(next(&terminal), TA_KEY_CHAR, 'x'));
    CHECK(ta_decoder_pasted(&terminal, out, 8, &needed) == TA_OK && needed == 7 && !memcmp(out, "one\rtwo", 8));
    ta_event_t press = next(&terminal), up = next(&terminal);
    CHECK(press.kind == TA_EVENT_MOUSE && press.mouse == TA_MOUSE_PRESS && press.button == TA_BUTTON_RIGHT);
    CHECK(press.column == 2 && press.row == 3 && press.input.ctrl && !press.input.alt && !press.input.shift);
    CHECK(up.mouse == TA_MOUSE_RELEASE && up.button == TA_BUTTON_LEFT && up.column == 0 && up.row == 1 && !up.input.ctrl);
    CHECK(next(&terminal).kind == TA_EVENT_FOCUS_GAINED && next(&terminal).kind == TA_EVENT_FOCUS_LOST);
    CHECK(next(&terminal).kind == TA_EVENT_UNKNOWN && has_none(&terminal));
    CHECK(ta_decoder_asked(&terminal) == TA_OK && ta_decoder_set_resizes(&terminal, true) == TA_OK);
    CHECK(ta_decoder_feed(&terminal, TEXT("\x1b[8;24;80t\x1b[?3;7R")) == TA_OK);
    ta_event_t size = next(&terminal), cursor = next(&terminal);
    CHECK(size.kind == TA_EVENT_SIZE && size.column == 80 && size.row == 24);
    CHECK(cursor.kind == TA_EVENT_CURSOR && cursor.column == 6 && cursor.row == 2 && has_none(&terminal));
    ta_terminal_free(&terminal);
}

static void frames(void) {
    ta_terminal_handle_t terminal = terminal_of(place);
    ta_handle_t area = area_of("one\ntwo");
    uint16_t x = 9, y = 9;
    uint8_t out[2];
    size_t needed = 0;
    CHECK(!strcmp(bytes_of(&terminal), ""));
    CHECK(ta_screen_reset(&area, &place) == TA_OK && ta_render(&area, &place) == TA_OK);
    CHECK(ta_rendered_cursor_position(&area, &x, &y) == TA_OK && x == 0 && y == 0);
    CHECK(ta_painter_paint(&terminal, &area, true, x, y) == TA_OK);
    CHECK(strstr(bytes_of(&terminal), "ne") && strstr(bytes_of(&terminal), "two"));
    CHECK(ta_painter_bytes(&terminal, out, 2, &needed) == TA_OK && needed > 2 && out[0] == '\x1b');
    CHECK(ta_painter_paint(&terminal, &area, true, x, y) == TA_OK && !strcmp(bytes_of(&terminal), ""));
    CHECK(ta_painter_paint(&terminal, &area, true, 3, 1) == TA_OK && strstr(bytes_of(&terminal), "\x1b[2;4H"));
    CHECK(ta_painter_paint(&terminal, &area, false, 3, 1) == TA_OK && strstr(bytes_of(&terminal), "\x1b[?25l"));
    CHECK(ta_insert_char(&area, 'X') == TA_OK && ta_render(&area, &place) == TA_OK);
    CHECK(ta_painter_paint(&terminal, &area, false, 0, 0) == TA_OK);
    CHECK(strstr(bytes_of(&terminal), "X") && !strstr(bytes_of(&terminal), "two"));
    CHECK(ta_painter_reset(&terminal) == TA_OK && ta_painter_paint(&terminal, &area, false, 0, 0) == TA_OK);
    CHECK(strstr(bytes_of(&terminal), "two"));
    ta_style_t rgb = {.fg = {TA_COLOR_RGB, 255, 0, 0}};
    CHECK(ta_screen_set_style(&area, &place, &rgb) == TA_OK);
    CHECK(ta_painter_paint(&terminal, &area, false, 0, 0) == TA_OK && strstr(bytes_of(&terminal), "38;2;255;0;0"));
    CHECK(ta_painter_set_colors(&terminal, 4) == TA_INVALID_ARGUMENT);
    CHECK(ta_painter_set_colors(&terminal, TA_COLORS_SIXTEEN) == TA_OK);
    CHECK(ta_painter_paint(&terminal, &area, false, 0, 0) == TA_OK && !strstr(bytes_of(&terminal), "38;2"));
    ta_area_t one_row = {0, 1, 3, 1};
    CHECK(ta_painter_resize(&terminal, &one_row) == TA_OK && ta_painter_paint(&terminal, &area, true, 1, 1) == TA_OK);
    CHECK(strstr(bytes_of(&terminal), "two") && !strstr(bytes_of(&terminal), "one"));
    CHECK(strstr(bytes_of(&terminal), "\x1b[1;2H"));
    ta_terminal_free(&terminal);
    ta_free(&area);
}

static void cursor_and_title(void) {
    uint8_t out[32];
    size_t needed = 9;
    for (uint32_t shape = TA_SHAPE_DEFAULT; shape <= TA_SHAPE_BAR; shape++) {
        CHECK(ta_cursor_shape_bytes(shape, out, sizeof out, &needed) == TA_OK && needed == 5);
        CHECK(!memcmp(out, "\x1b[", 2) && out[2] == '0' + shape && !memcmp(out + 3, " q", 2));
    }
    memset(out, '.', sizeof out), needed = 9;
    CHECK(ta_cursor_shape_bytes(TA_SHAPE_BAR + 1, out, sizeof out, &needed) == TA_INVALID_ARGUMENT);
    CHECK(needed == 9 && out[0] == '.');
    CHECK(ta_cursor_shape_bytes(TA_SHAPE_BAR, out, 3, &needed) == TA_OK && needed == 5 && !memcmp(out, "\x1b[6.", 4));
    CHECK(ta_title_bytes(TEXT("a\x07" "b\xc2\x9c\x1b\xc3\xa9"), out, sizeof out, &needed) == TA_OK && needed == 10);
    CHECK(!memcmp(out, "\x1b]2;ab\xc3\xa9\x1b\\", 10));
    memset(out, '.', sizeof out);
    CHECK(ta_title_bytes(TEXT("note"), out, 6, &needed) == TA_OK && needed == 10 && !memcmp(out, "\x1b]2;no.", 7));
    CHECK(ta_title_bytes(TEXT("\xff"), out, sizeof out, &needed) == TA_INVALID_ARGUMENT && needed == 10 && out[6] == '.');
    CHECK(ta_title_bytes(out, 0, out + 8, 8, &needed) == TA_OK && needed == 6);
}

/* A whole terminal: from bytes to keys, and from a text to bytes. */
static void typed(void) {
    ta_terminal_handle_t terminal = terminal_of(place);
    ta_handle_t area = area_of("");
    ta_event_t event;
    CHECK(ta_decoder_feed(&terminal, TEXT("hi\x1b[D!\x7f\x1b[200~ all\x1b[201~")) == TA_OK);
    while (ta_decoder_event(&terminal, &event) == TA_OK) {
        uint8_t text[16];
        size_t needed;
        if (event.kind == TA_EVENT_INPUT) CHECK(ta_input(&area, &event.input) <= TA_FALSE);
        if (event.kind == TA_EVENT_PASTE) {
            CHECK(ta_decoder_pasted(&terminal, text, sizeof text, &needed) == TA_OK);
            CHECK(ta_insert_pasted(&area, text, needed) == TA_OK);
        }
    }
    CHECK(has_lines(&area, "h alli\n"));
    CHECK(ta_screen_reset(&area, &place) == TA_OK && ta_render(&area, &place) == TA_OK);
    CHECK(ta_painter_paint(&terminal, &area, false, 0, 0) == TA_OK && strstr(bytes_of(&terminal), "h all"));
    ta_terminal_free(&terminal);
    ta_free(&area);
}

int main(void) {
    handles();
    keys();
    events();
    frames();
    cursor_and_title();
    typed();
    puts("all checks hold");
    return 0;
}
