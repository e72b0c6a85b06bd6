/* Refuses each request for memory of a list of calls, one in turn. The call that is refused says so,
 * leaves what is behind its handles as it was, and, made again, leads to the same end and to the same
 * changes of the text. At the end all handles are freed, and then no block of memory is left. Linked
 * with -Wl,--wrap=malloc,--wrap=realloc,--wrap=free. Exit status 1, and what fails, if something
 * does. */
#include "check.h"

static long refused_at; /* the number of the request to refuse; 0 for none */
static long requests;
static long blocks; /* the number of blocks that aren't freed */

void *__real_malloc(size_t size);
void *__real_realloc(void *at, size_t size);
void __real_free(void *at);

static int is_refused(void) { return ++requests == refused_at; }

static void *counted(void *at) {
    if (at) blocks++;
    return at;
}

void *__wrap_malloc(size_t size) { return is_refused() ? NULL : counted(__real_malloc(size)); }

void *__wrap_realloc(void *at, size_t size) {
    if (is_refused()) return NULL;
    return at ? __real_realloc(at, size) : counted(__real_realloc(at, size));
}

void __wrap_free(void *at) {
    if (at) blocks--;
    __real_free(at);
}

static ta_handle_t copy;
static ta_terminal_handle_t terminal;
static const ta_style_t none = {0};
static const ta_area_t place = {1, 1, 12, 5};

static uint32_t made(ta_handle_t *a) { return ta_new(a); }
static uint32_t loaded(ta_handle_t *a) { return ta_from_text(a, TEXT("one\ntwo\n")); }
static uint32_t pasted_in(ta_handle_t *a) { return ta_insert_pasted(a, TEXT("a\rb\r\nc")); }
static uint32_t replaced(ta_handle_t *a) { return ta_replace_range(a, 0, 1, 1, 0, TEXT("x\ny")); }
static uint32_t one_match(ta_handle_t *a) { return ta_replace_match(a, TEXT("y\nz")); }
static uint32_t all_matches(ta_handle_t *a) {
    size_t count;
    return ta_replace_all(a, TEXT("Tx"), &count);
}
static uint32_t log_begun(ta_handle_t *a) { return ta_set_change_log(a, TA_UNIT_UTF16); }
static char log_text[8000]; /* the changes that were taken last */
static uint32_t log_taken(ta_handle_t *a) {
    size_t count = 0, n[5], needed;
    uint8_t line[200];
    char *at = log_text;
    uint32_t status = ta_take_changes(a, &count);
    for (size_t i = 0; i < count; i++) {
        CHECK(ta_change(a, i, &n[0], &n[1], &n[2], &n[3], &n[4]) == TA_OK);
        at += sprintf(at, "%zu:%zu-%zu:%zu", n[0], n[1], n[2], n[3]);
        for (size_t row = 0; row < n[4]; row++) {
            CHECK(ta_change_line(a, i, row, line, sizeof line, &needed) == TA_OK);
            at += sprintf(at, "|%.*s", (int)needed, line);
        }
        *at++ = '\n';
    }
    *at = 0;
    CHECK(count > 0);
    return status;
}
static uint32_t part(ta_handle_t *a) {
    uint8_t out[4];
    size_t needed;
    return ta_text_range(a, 1, 1, 0, 1, out, 4, &needed);
}
static uint32_t whole(ta_handle_t *a) {
    uint8_t out[4];
    size_t needed;
    return ta_text(a, out, 4, &needed);
}
static uint32_t typed(ta_handle_t *a) { return ta_insert_char(a, 'x'); }
static uint32_t broken(ta_handle_t *a) { return ta_insert_newline(a); }
static uint32_t written(ta_handle_t *a) { return ta_insert_str(a, TEXT("one two\nthree and a long line of text\n\xe7\x8a\xac")); }
static uint32_t tabbed(ta_handle_t *a) { return ta_insert_tab(a); }
static uint32_t selected(ta_handle_t *a) { return ta_start_selection(a) | ta_move_cursor(a, TA_MOVE_UP); }
static uint32_t over(ta_handle_t *a) { return ta_insert_str(a, TEXT("over\nit")); }
static uint32_t copied(ta_handle_t *a) { return ta_select_all(a) | ta_copy(a); }
static uint32_t pasted(ta_handle_t *a) { return ta_paste(a); }
static uint32_t top(ta_handle_t *a) { return ta_jump(a, 0, 2); }
static uint32_t next_word(ta_handle_t *a) { return ta_delete_next_word(a); }
static uint32_t to_end(ta_handle_t *a) { return ta_delete_line_by_end(a); }
static uint32_t next_char(ta_handle_t *a) { return ta_delete_next_char(a); }
static uint32_t some(ta_handle_t *a) { return ta_delete_str(a, 4); }
static uint32_t undone(ta_handle_t *a) { return ta_undo(a); }
static uint32_t redone(ta_handle_t *a) { return ta_redo(a); }
static uint32_t wrapped(ta_handle_t *a) { return ta_set_wrap_mode(a, TA_WRAP_WORD_OR_GLYPH); }
static uint32_t numbered(ta_handle_t *a) { return ta_set_line_number_style(a, &none); }
static uint32_t pattern(ta_handle_t *a) { return ta_set_search_pattern(a, TEXT("t[a-z]+")); }
static uint32_t wrong(ta_handle_t *a) {
    uint32_t status = ta_set_search_pattern(a, TEXT("(a"));
    return status == TA_PATTERN_REJECTED ? TA_OK : status;
}
static uint32_t found(ta_handle_t *a) { return ta_search_forward(a, false); }
static uint32_t plain_text(ta_handle_t *a) { return ta_set_search_text(a, TEXT("T."), true, true); }
static uint32_t matches_counted(ta_handle_t *a) {
    size_t count, index;
    uint32_t status = ta_match_index(a, &index);
    return status > TA_FALSE ? status : ta_match_count(a, &count);
}
static uint32_t ranges(ta_handle_t *a) {
    ta_range_t two[] = {{1, 0, 2}, {0, 0, 1}};
    return ta_set_atomic_ranges(a, two, 2);
}
static uint32_t bad_ranges(ta_handle_t *a) {
    ta_range_t two[] = {{1, 2, 2}, {9, 0, 1}};
    uint32_t status = ta_set_atomic_ranges(a, two, 2);
    return status == TA_RANGES_REJECTED ? TA_OK : status;
}
static uint32_t block(ta_handle_t *a) {
    ta_block_t all = {.borders = TA_BORDER_TOP | TA_BORDER_LEFT, .has_title = true};
    ta_span_t span = {5, none};
    return ta_set_block(a, &all, TEXT("title"), &span, 1);
}
static uint32_t placeholder(ta_handle_t *a) { return ta_set_placeholder_text(a, TEXT("placeholder")); }
static uint32_t styled(ta_handle_t *a) {
    ta_span_t spans[] = {{2, none}, {3, none}};
    ta_line_t lines[] = {{1, none}, {1, none}};
    return ta_set_styled_placeholder(a, TEXT("title"), spans, 2, lines, 2, &none);
}
static uint32_t highlight(ta_handle_t *a) { return ta_custom_highlight(a, 0, 0, 1, 3, &none, 3); }
static uint32_t screen(ta_handle_t *a) { return ta_screen_reset(a, &place); }
static uint32_t long_cell(ta_handle_t *a) {
    return ta_screen_put(a, 2, 2, TEXT("a text that is longer than a cell has room for"), &none);
}
static uint32_t drawn(ta_handle_t *a) { return ta_render(a, &place); }
static uint32_t measured(ta_handle_t *a) {
    ta_measure_t heights;
    return ta_measure(a, 9, &heights);
}
static uint32_t yank(ta_handle_t *a) {
    uint8_t out[4];
    size_t needed;
    return ta_yank_text(a, out, 4, &needed) | ta_set_yank_text(a, TEXT("new\ntext"));
}
static uint32_t cloned(ta_handle_t *a) { return ta_clone(a, &copy); }
static uint32_t lines(ta_handle_t *a) {
    size_t ends[] = {3, 10};
    return ta_set_lines(a, TEXT("one and two"), ends, 2, 1, 4);
}
static uint32_t key(ta_handle_t *a) {
    ta_input_t input = {.key = TA_KEY_CHAR, .argument = 'k'};
    return ta_input(a, &input);
}
static uint32_t cleared(ta_handle_t *a) { return ta_clear(a); }
static uint32_t terminal_made(ta_handle_t *a) { return (void)a, ta_terminal_new(&terminal, &place); }
static uint32_t fed(ta_handle_t *a) {
    return (void)a, ta_decoder_feed(&terminal, TEXT("abc\x1b[A\x1b[200~pasted\x1b[201~\x1b"));
}
static uint32_t idle(ta_handle_t *a) { return (void)a, ta_decoder_idle(&terminal, 50); }
static uint32_t taken(ta_handle_t *a) {
    ta_event_t event;
    return (void)a, ta_decoder_event(&terminal, &event);
}
static uint32_t painted(ta_handle_t *a) { return ta_painter_paint(&terminal, a, true, 3, 2); }
static uint32_t resized(ta_handle_t *a) {
    ta_area_t wider = {0, 0, 20, 6};
    return (void)a, ta_painter_resize(&terminal, &wider);
}

static uint32_t shaped(ta_handle_t *a) {
    uint8_t out[4];
    size_t needed;
    return (void)a, ta_cursor_shape_bytes(TA_SHAPE_BAR, out, 4, &needed);
}
static uint32_t titled(ta_handle_t *a) {
    uint8_t out[4];
    size_t needed;
    return (void)a, ta_title_bytes(TEXT("a title"), out, 4, &needed);
}

static uint32_t (*const steps[])(ta_handle_t *) = {
    made,    log_begun, written, typed,  broken,  selected,  over,       tabbed,      copied, pasted, top,
    typed,   undone,  redone,   wrapped, numbered,  screen,     drawn,       some,   drawn,  next_word,
    to_end,  undone,  undone,   ranges,  bad_ranges, next_char, undone,      pattern, wrong, found,
    matches_counted, plain_text, matches_counted, one_match, all_matches, undone, log_taken,
    block,   placeholder, styled, highlight, drawn, long_cell,  measured,    yank,   pasted, cloned,
    key,     lines,   key,      drawn,   cleared,   drawn,     loaded,      whole,  pasted_in, replaced, part, cloned,
    terminal_made, fed, taken, idle, screen, drawn, painted, typed, drawn, painted,
    resized, painted, fed, terminal_made, fed, painted, made, typed,
    shaped,  titled,
};

/* A text of all that can be read of the text area and the terminal without memory, but for the events
 * that wait. */
static const char *state_of(ta_handle_t *area) {
    static char state[4][8000];
    static int next;
    size_t n[8] = {0};
    uint8_t bytes[2][1000] = {0};
    char of_copy[2000] = "";
    char *text = state[next++ % 4];
    if (!area->full) return "empty";
    long before = refused_at;
    refused_at = 0;
    if (terminal.full) CHECK(ta_painter_bytes(&terminal, bytes[0], 999, &n[6]) == TA_OK);
    if (terminal.full) CHECK(ta_decoder_pasted(&terminal, bytes[1], 999, &n[7]) == TA_OK);
    if (copy.full) snprintf(of_copy, sizeof of_copy, "%s", lines_of(&copy));
    ta_cursor(area, &n[0], &n[1]);
    ta_selection_range(area, &n[2], &n[3], &n[4], &n[5]);
    snprintf(text, 8000, "%s%zu %zu, %zu %zu %zu %zu, %zu %zu %s %s %s", lines_of(area), n[0], n[1], n[2], n[3], n[4], n[5], n[6],
             n[7], of_copy, bytes[0], bytes[1]);
    refused_at = before;
    return text;
}

/* Takes the events that wait at the end: no refused call has lost one, or added one. */
static void check_events(void) {
    static const uint32_t kinds[] = {TA_EVENT_INPUT, TA_EVENT_INPUT, TA_EVENT_INPUT, TA_EVENT_INPUT, TA_EVENT_PASTE};
    ta_event_t event;
    for (size_t i = 0; i < sizeof kinds / sizeof *kinds; i++)
        CHECK(ta_decoder_event(&terminal, &event) == TA_OK && event.kind == kinds[i]);
    CHECK(ta_decoder_event(&terminal, &event) == TA_FALSE);
}

/* Makes all calls; where one is refused, checks it and makes it again. */
static const char *run(long refused, int *was_refused) {
    ta_handle_t area = {0};
    refused_at = refused;
    requests = 0;
    *was_refused = 0;
    for (size_t i = 0; i < sizeof steps / sizeof *steps; i++) {
        const char *before = state_of(&area);
        uint32_t status = steps[i](&area);
        if (status == TA_OUT_OF_MEMORY) {
            CHECK(!*was_refused && requests >= refused);
            *was_refused = 1;
            if (steps[i] != over && steps[i] != copied) CHECK(!strcmp(before, state_of(&area)));
            status = steps[i](&area);
        }
        if (status > TA_FALSE) {
            printf("step %zu returns %u where request %ld is refused\n", i, status, refused);
            exit(1);
        }
    }
    refused_at = 0;
    const char *end = state_of(&area);
    check_events();
    ta_free(&area);
    ta_free(&copy);
    ta_terminal_free(&terminal);
    CHECK(blocks == 0);
    return end;
}

int main(void) {
    int was_refused;
    char end[8000], changes[8000];
    strcpy(end, run(0, &was_refused));
    strcpy(changes, log_text);
    long count = requests;
    for (long k = 1; k <= count; k++) {
        const char *other = run(k, &was_refused);
        CHECK(!strcmp(end, other) && !strcmp(changes, log_text));
    }
    printf("%ld requests refused, each in turn\n", count);
    return 0;
}
