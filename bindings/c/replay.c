/* Makes the calls of a script of `tascript` on a text area, and prints what `tascript` prints:
 *
 *     replay < script
 *
 * The commands are those of script_calls.h, insert_char of ASCII, insert_str, move, set_max_chars,
 * set_search_pattern, set_search_text, replace_match and replace_all. Texts have no escape \u{..}. */
#include "check.h"

/* A command: whether its call returns whether it did something, and the call, by its argument. */
struct script_call {
    const char *name;
    bool has_flag;
    uint32_t (*bare)(ta_handle_t *);
    uint32_t (*with_bool)(ta_handle_t *, bool);
    uint32_t (*with_byte)(ta_handle_t *, uint8_t);
    uint32_t (*with_size)(ta_handle_t *, size_t);
};

#include "script_calls.h"

/* The moves, by their numbers. */
static const char *moves[] = {"Forward", "Back", "Up", "Down", "Head", "End", "Top", "Bottom", "WordForward",
    "WordEnd", "WordBack", "ParagraphForward", "ParagraphBack", "InViewport"};

/* Replaces the escapes of a text, in its place, and returns the new length. */
static size_t unescape(char *text) {
    size_t used = 0;
    for (char *at = text; *at; at++) {
        char c = *at;
        if (c == '\\') {
            at++;
            c = *at == 'n' ? '\n' : *at == 'r' ? '\r' : *at == 't' ? '\t' : *at;
        }
        text[used++] = c;
    }
    return used;
}

static void print_escaped(const uint8_t *text, size_t length) {
    for (size_t i = 0; i < length; i++) {
        switch (text[i]) {
        case '\\': fputs("\\\\", stdout); break;
        case '\n': fputs("\\n", stdout); break;
        case '\r': fputs("\\r", stdout); break;
        case '\t': fputs("\\t", stdout); break;
        default: putchar(text[i]);
        }
    }
}

static uint32_t made(ta_handle_t *area, const struct script_call *call, const char *words) {
    if (call->with_bool) return call->with_bool(area, strcmp(words, "true") == 0);
    if (call->with_byte) return call->with_byte(area, (uint8_t)strtoul(words, NULL, 10));
    if (call->with_size) return call->with_size(area, strtoul(words, NULL, 10));
    return call->bare(area);
}

/* Makes the call of a command that is not in script_calls.h. */
static uint32_t made_otherwise(ta_handle_t *area, const char *name, char *words) {
    if (strcmp(name, "move") == 0) {
        uint32_t number = 0;
        while (number < 14 && strcmp(words, moves[number]) != 0) number++;
        return ta_move_cursor(area, number);
    }
    if (strcmp(name, "set_max_chars") == 0)
        return strcmp(words, "None") ? ta_set_max_chars(area, strtoul(words, NULL, 10)) : ta_clear_max_chars(area);
    if (strcmp(name, "set_search_text") == 0) {
        char *second = strchr(words, ' ') + 1, *text = strchr(second, ' ');
        char none[1] = "";
        bool ignore_case = strncmp(words, "true", 4) == 0, whole_word = strncmp(second, "true", 4) == 0;
        text = text ? text + 1 : none;
        return ta_set_search_text(area, (uint8_t *)text, unescape(text), ignore_case, whole_word);
    }
    size_t length = unescape(words);
    if (strcmp(name, "insert_char") == 0) return ta_insert_char(area, (uint8_t)words[0]);
    if (strcmp(name, "set_search_pattern") == 0) return ta_set_search_pattern(area, (uint8_t *)words, length);
    if (strcmp(name, "replace_match") == 0) return ta_replace_match(area, (uint8_t *)words, length);
    CHECK(strcmp(name, "insert_str") == 0);
    return ta_insert_str(area, (uint8_t *)words, length);
}

/* Replaces all matches by a text, and returns their number. */
static const char *all_replaced(ta_handle_t *area, char *words) {
    static char number[21];
    size_t count = 0, length = unescape(words);
    CHECK(ta_replace_all(area, (uint8_t *)words, length, &count) == TA_OK);
    snprintf(number, sizeof number, "%zu", count);
    return number;
}

/* Makes the call of a line, and returns its result in words. */
static const char *result_of(ta_handle_t *area, char *line) {
    char *words = strchr(line, ' ');
    if (words) *words++ = 0;
    for (size_t i = 0; i < sizeof script_calls / sizeof *script_calls; i++) {
        const struct script_call *call = &script_calls[i];
        if (strcmp(call->name, line) == 0) {
            uint32_t status = made(area, call, words ? words : "");
            CHECK(status == TA_OK || (call->has_flag && status == TA_FALSE));
            return !call->has_flag ? "ok" : status == TA_OK ? "true" : "false";
        }
    }
    char none[1] = "";
    if (strcmp(line, "replace_all") == 0) return all_replaced(area, words ? words : none);
    uint32_t status = made_otherwise(area, line, words ? words : none);
    if (strcmp(line, "insert_str") == 0 || strcmp(line, "replace_match") == 0) return status == TA_OK ? "true" : "false";
    return status == TA_PATTERN_REJECTED ? "pattern" : "ok";
}

/* Prints the lines, the cursor and the selection. */
static void print_end(ta_handle_t *area) {
    static uint8_t bytes[100000];
    size_t count = 0, needed = 0, row = 0, column = 0, end_row = 0, end_column = 0;
    CHECK(ta_line_count(area, &count) == TA_OK);
    printf("lines %zu\n", count);
    for (size_t i = 0; i < count; i++) {
        CHECK(ta_line(area, i, bytes, sizeof bytes, &needed) == TA_OK && needed <= sizeof bytes);
        putchar('|');
        print_escaped(bytes, needed);
        putchar('\n');
    }
    CHECK(ta_cursor(area, &row, &column) == TA_OK);
    printf("cursor %zu %zu\n", row, column);
    if (ta_selection_range(area, &row, &column, &end_row, &end_column) == TA_OK)
        printf("selection %zu %zu %zu %zu\n", row, column, end_row, end_column);
    else
        puts("selection none");
}

int main(void) {
    static char line[10000];
    ta_handle_t area = {0};
    CHECK(ta_new(&area) == TA_OK);
    for (int number = 1; fgets(line, sizeof line, stdin); number++) {
        line[strcspn(line, "\n")] = 0;
        printf("%d %s\n", number, result_of(&area, line));
    }
    print_end(&area);
    ta_free(&area);
    return 0;
}
