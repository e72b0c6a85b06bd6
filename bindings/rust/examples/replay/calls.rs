//! Written by tools/calls from crates/textarea_calls/calls.txt.
//! The commands of scripts whose calls only pass an argument.

use tui_textarea::TextArea;

pub fn done(_made: ()) -> &'static str {
    "ok"
}

pub fn flag(flag: bool) -> &'static str {
    if flag { "true" } else { "false" }
}

/// Makes the call of a command, and returns its result in words; `None` for another command.
pub fn call(area: &mut TextArea, name: &str, words: &str) -> Option<&'static str> {
    let result = match name {
        "insert_newline" => done(area.insert_newline()),
        "insert_tab" => flag(area.insert_tab()),
        "paste" => flag(area.paste()),
        "duplicate_line" => done(area.duplicate_line()),
        "indent_lines" => flag(area.indent_lines()),
        "outdent_lines" => flag(area.outdent_lines()),
        "move_lines_up" => flag(area.move_lines_up()),
        "move_lines_down" => flag(area.move_lines_down()),
        "delete_char" => flag(area.delete_char()),
        "delete_next_char" => flag(area.delete_next_char()),
        "delete_newline" => flag(area.delete_newline()),
        "delete_str" => flag(area.delete_str(words.parse().ok()?)),
        "delete_line_by_end" => flag(area.delete_line_by_end()),
        "delete_line_by_head" => flag(area.delete_line_by_head()),
        "delete_word" => flag(area.delete_word()),
        "delete_next_word" => flag(area.delete_next_word()),
        "clear" => flag(area.clear()),
        "cut" => flag(area.cut()),
        "undo" => flag(area.undo()),
        "redo" => flag(area.redo()),
        "set_max_histories" => done(area.set_max_histories(words.parse().ok()?)),
        "set_undo_coalescing" => done(area.set_undo_coalescing(words.parse().ok()?)),
        "set_undo_grouping" => done(area.set_undo_grouping(words.parse().ok()?)),
        "set_undo_ranges" => done(area.set_undo_ranges(words.parse().ok()?)),
        "begin_undo_group" => done(area.begin_undo_group()),
        "end_undo_group" => done(area.end_undo_group()),
        "end_run" => done(area.end_run()),
        "start_selection" => done(area.start_selection()),
        "cancel_selection" => done(area.cancel_selection()),
        "select_all" => done(area.select_all()),
        "copy" => done(area.copy()),
        "search_forward" => flag(area.search_forward(words.parse().ok()?)),
        "search_back" => flag(area.search_back(words.parse().ok()?)),
        "set_tab_length" => done(area.set_tab_length(words.parse().ok()?)),
        "set_hard_tab_indent" => done(area.set_hard_tab_indent(words.parse().ok()?)),
        "set_read_only" => done(area.set_read_only(words.parse().ok()?)),
        "set_single_line" => flag(area.set_single_line(words.parse().ok()?)),
        "clear_mask_char" => done(area.clear_mask_char()),
        _ => return None,
    };
    Some(result)
}
