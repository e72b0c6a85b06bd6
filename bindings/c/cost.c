/* Prints what calls across the border cost, in nanoseconds of processor time: the least of five
 * rounds. */
#define _POSIX_C_SOURCE 199309L
#include "check.h"

#include <time.h>

static double now(void) {
    struct timespec t;
    clock_gettime(CLOCK_PROCESS_CPUTIME_ID, &t);
    return t.tv_sec * 1e9 + t.tv_nsec;
}

#define COST(name, count, call)                                  \
    do {                                                         \
        double least = 1e18;                                     \
        for (int round = 0; round < 5; round++) {                \
            double start = now();                                \
            for (long i = 0; i < (count); i++) call;             \
            double each = (now() - start) / (count);             \
            if (each < least) least = each;                      \
        }                                                        \
        printf("%-28s %10.1f\n", name, least);                   \
    } while (0)

/* A key: its byte is decoded, the input is taken, the text area drawn, and the frame painted. */
static void key_to_frame(ta_terminal_handle_t *terminal, ta_handle_t *area, const ta_area_t *place, uint8_t byte) {
    static uint8_t out[8192];
    ta_event_t event;
    uint16_t x, y;
    size_t needed;
    ta_decoder_feed(terminal, &byte, 1);
    while (ta_decoder_event(terminal, &event) == TA_OK) ta_input(area, &event.input);
    ta_screen_clear(area);
    ta_render(area, place);
    bool is_shown = ta_rendered_cursor_position(area, &x, &y) == TA_OK;
    ta_painter_paint(terminal, area, is_shown, is_shown ? x : 0, is_shown ? y : 0);
    ta_painter_bytes(terminal, out, sizeof out, &needed);
}

int main(void) {
    ta_handle_t area = area_of("one two three\nfour\nfive six");
    ta_input_t key = {.key = TA_KEY_CHAR, .argument = 'x'}, back = {.key = TA_KEY_BACKSPACE};
    ta_area_t place = {0, 0, 80, 24};
    static ta_cell_t cells[80 * 24];
    size_t row, column, needed;
    uint8_t out[64];
    COST("ta_cursor", 2000000, ta_cursor(&area, &row, &column));
    COST("ta_is_empty", 2000000, ta_is_empty(&area));
    COST("ta_line, 13 bytes", 1000000, ta_line(&area, 0, out, 64, &needed));
    COST("ta_insert_char", 20000, ta_insert_char(&area, 'a'));
    CHECK(ta_clear(&area) == TA_OK && ta_insert_str(&area, TEXT("one two three\nfour")) == TA_OK);
    COST("ta_input, key and Backspace", 100000, (ta_input(&area, &key), ta_input(&area, &back)));
    CHECK(ta_screen_reset(&area, &place) == TA_OK);
    COST("ta_render, 80 by 24", 500, ta_render(&area, &place));
    COST("ta_screen_cells, 80 by 24", 2000, ta_screen_cells(&area, cells, 80 * 24, &needed));
    COST("ta_screen_cell, each", 1000000, ta_screen_cell(&area, 3, 3, cells));
    ta_terminal_handle_t terminal = {0};
    CHECK(ta_terminal_new(&terminal, &place) == TA_OK);
    COST("a key and its frame, bytes", 2000, key_to_frame(&terminal, &area, &place, i % 2 ? 0x7f : 'x'));
    ta_terminal_free(&terminal);
    ta_free(&area);
    return 0;
}
