// Shows frames on a screen of libvterm: vterm-screen COLUMNS ROWS
//
// Reads frames as terminal_cases prints them: a line `frame N`, N bytes and a line feed. After each it prints one line: the
// column and the row of the cursor, or `-`, and then the cells, row after row. A cell is the code points of its text in
// hexadecimal with dots between them (`-` for the second half of a wide one), its colours and its modifiers, with slashes.
#include <stdio.h>
#include <stdlib.h>
#include <vterm.h>

static VTermPos cursor;
static int is_visible = 1;

static int move_cursor(VTermPos pos, VTermPos old, int visible, void *user)
{
    (void)old, (void)visible, (void)user;
    cursor = pos;
    return 1;
}

static int set_property(VTermProp property, VTermValue *value, void *user)
{
    (void)user;
    if (property == VTERM_PROP_CURSORVISIBLE)
        is_visible = value->boolean;
    return 1;
}

static void print_color(const VTermColor *color, int is_own)
{
    if (is_own)
        printf("/-");
    else if (VTERM_COLOR_IS_INDEXED(color))
        printf("/%d", color->indexed.idx);
    else
        printf("/#%d,%d,%d", color->rgb.red, color->rgb.green, color->rgb.blue);
}

static void print_cell(const VTermScreenCell *cell)
{
    if (cell->chars[0] == (uint32_t)-1) {
        putchar('-');
    } else {
        printf("%x", cell->chars[0] ? cell->chars[0] : 32);
        for (int i = 1; i < VTERM_MAX_CHARS_PER_CELL && cell->chars[0] && cell->chars[i]; i++)
            printf(".%x", cell->chars[i]);
    }
    print_color(&cell->fg, VTERM_COLOR_IS_DEFAULT_FG(&cell->fg));
    print_color(&cell->bg, VTERM_COLOR_IS_DEFAULT_BG(&cell->bg));
    printf("/%s%s%s%s%s%s", cell->attrs.bold ? "1" : "", cell->attrs.italic ? "3" : "", cell->attrs.underline ? "4" : "",
           cell->attrs.blink ? "5" : "", cell->attrs.reverse ? "7" : "", cell->attrs.strike ? "9" : "");
}

int main(int count, char **words)
{
    if (count != 3)
        return 2;
    int columns = atoi(words[1]), rows = atoi(words[2]);
    VTerm *terminal = vterm_new(rows, columns);
    vterm_set_utf8(terminal, 1);
    VTermScreen *screen = vterm_obtain_screen(terminal);
    VTermScreenCallbacks callbacks = { .movecursor = move_cursor, .settermprop = set_property };
    vterm_screen_set_callbacks(screen, &callbacks, NULL);
    vterm_screen_reset(screen, 1);
    long size;
    while (scanf("frame %ld", &size) == 1) {
        getchar();
        char *bytes = malloc(size + 1);
        if (fread(bytes, 1, size + 1, stdin) != (size_t)size + 1)
            return 1;
        vterm_input_write(terminal, bytes, size);
        free(bytes);
        if (is_visible)
            printf("%d %d", cursor.col, cursor.row);
        else
            printf("- -");
        for (VTermPos at = { 0, 0 }; at.row < rows; at.row++)
            for (at.col = 0; at.col < columns; at.col++) {
                VTermScreenCell cell = { 0 };
                vterm_screen_get_cell(screen, at, &cell);
                putchar(' ');
                print_cell(&cell);
            }
        putchar('\n');
    }
    return 0;
}
