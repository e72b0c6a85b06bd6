/* Written by tools/calls from crates/textarea_calls/calls.txt. */
static const struct {
    uint32_t (*set)(ta_handle_t *, const ta_style_t *);
    uint32_t (*get)(ta_handle_t *, ta_style_t *);
} style_calls[] = {
    {ta_set_style, ta_style},
    {ta_set_cursor_style, ta_cursor_style},
    {ta_set_cursor_line_style, ta_cursor_line_style},
    {ta_set_cursor_line_number_style, ta_cursor_line_number_style},
    {ta_set_selection_style, ta_selection_style},
    {ta_set_search_style, ta_search_style},
};
