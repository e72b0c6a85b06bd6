/* Types a text into a text area 24 columns wide, undoes a word, and prints the wrapped rows. */
#include <stdio.h>
#include <textarea.h>

static const char *const TEXT = "A text area wraps its lines, numbers them, and undoes what was typed.";

int main(void) {
    ta_handle_t area = {0}; /* all bytes zero: an empty handle */
    ta_style_t gray = {.fg = {.kind = TA_COLOR_DARK_GRAY}};
    ta_area_t screen = {.width = 24, .height = 5};
    if (ta_new(&area) != TA_OK || ta_screen_reset(&area, &screen) != TA_OK) return 1;
    ta_set_wrap_mode(&area, TA_WRAP_WORD);
    ta_set_line_number_style(&area, &gray);
    for (const char *at = TEXT; *at; at++) {
        ta_input_t key = {.key = TA_KEY_CHAR, .argument = (unsigned char)*at};
        if (ta_input(&area, &key) != TA_OK) return 1;
    }
    ta_delete_word(&area);
    ta_undo(&area);
    ta_render(&area, &screen);
    for (uint16_t y = 0; y < screen.height; y++) {
        for (uint16_t x = 0; x < screen.width; x++) {
            ta_cell_t cell;
            if (ta_screen_cell(&area, x, y, &cell) == TA_OK) fwrite(cell.symbol, 1, cell.bytes, stdout);
        }
        putchar('\n');
    }
    ta_free(&area);
    return 0;
}
