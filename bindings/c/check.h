/* What the tests in C share. */
#ifndef CHECK_H
#define CHECK_H

#include "textarea.h"

#include <stdio.h>
#include <stdlib.h>
#include <string.h>

#define CHECK(what)                                                        \
    do {                                                                   \
        if (!(what)) {                                                     \
            printf("%s:%d: it is not so: %s\n", __FILE__, __LINE__, #what); \
            exit(1);                                                       \
        }                                                                  \
    } while (0)

/* A string literal or any other C string, as the two arguments of a text. */
#define TEXT(text) (const uint8_t *)(text), strlen(text)

/* The lines of a text area with a line feed after each, up to 999 bytes. It is overwritten by the
 * next call. */
static inline const char *lines_of(ta_handle_t *area) {
    static char text[2000];
    uint8_t bytes[500];
    size_t ends[100], needed = 0, count = 0, used = 0, start = 0;
    CHECK(ta_lines(area, bytes, sizeof bytes, &needed, ends, 100, &count) == TA_OK);
    CHECK(needed <= sizeof bytes && count <= 100);
    for (size_t i = 0; i < count; start = ends[i++]) {
        memcpy(text + used, bytes + start, ends[i] - start);
        used += ends[i] - start;
        text[used++] = '\n';
    }
    text[used] = 0;
    return text;
}

static inline int has_lines(ta_handle_t *area, const char *text) {
    return strcmp(lines_of(area), text) == 0;
}

static inline int has_cursor(ta_handle_t *area, size_t row, size_t column) {
    size_t at_row = 9999, at_column = 9999;
    return ta_cursor(area, &at_row, &at_column) == TA_OK && at_row == row && at_column == column;
}

/* A text area with this text, and the cursor at its start. */
static inline ta_handle_t area_of(const char *text) {
    ta_handle_t area = {0};
    CHECK(ta_new(&area) == TA_OK);
    CHECK(ta_insert_str(&area, TEXT(text)) != TA_OUT_OF_MEMORY);
    CHECK(ta_jump(&area, 0, 0) == TA_OK);
    return area;
}

/* What a screen row shows, without the blanks at its end. It is overwritten by the next call. */
static inline const char *screen_row(ta_handle_t *area, uint16_t y) {
    static char text[1000];
    size_t used = 0, end = 0, needed = 0;
    ta_area_t screen;
    CHECK(ta_screen_area(area, &screen) == TA_OK);
    for (uint16_t x = screen.x; x < screen.x + screen.width; x++) {
        CHECK(ta_screen_symbol(area, x, y, (uint8_t *)text + used, sizeof text - used, &needed) == TA_OK);
        used += needed;
        if (text[used - 1] != ' ') end = used;
    }
    text[end] = 0;
    return text;
}

static inline int shows(ta_handle_t *area, uint16_t y, const char *text) {
    return strcmp(screen_row(area, y), text) == 0;
}

#endif
