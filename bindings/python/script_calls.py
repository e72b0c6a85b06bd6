"""Written by tools/calls from crates/textarea_calls/calls.txt."""

# Commands that are methods: the type of the argument, and whether the method returns a bool.
METHODS = {
    "insert_newline": (None, False),
    "insert_tab": (None, True),
    "paste": (None, True),
    "duplicate_line": (None, False),
    "indent_lines": (None, True),
    "outdent_lines": (None, True),
    "move_lines_up": (None, True),
    "move_lines_down": (None, True),
    "delete_char": (None, True),
    "delete_next_char": (None, True),
    "delete_newline": (None, True),
    "delete_str": ("usize", True),
    "delete_line_by_end": (None, True),
    "delete_line_by_head": (None, True),
    "delete_word": (None, True),
    "delete_next_word": (None, True),
    "clear": (None, True),
    "cut": (None, True),
    "undo": (None, True),
    "redo": (None, True),
    "begin_undo_group": (None, False),
    "end_undo_group": (None, False),
    "end_run": (None, False),
    "start_selection": (None, False),
    "cancel_selection": (None, False),
    "select_all": (None, False),
    "copy": (None, False),
    "search_forward": ("bool", True),
    "search_back": ("bool", True),
    "set_single_line": ("bool", True),
}

# Commands that set a property: its name, and its type.
SETTERS = {
    "set_max_histories": ("max_histories", "usize"),
    "set_undo_coalescing": ("undo_coalescing", "bool"),
    "set_undo_grouping": ("undo_grouping", "bool"),
    "set_undo_ranges": ("undo_ranges", "bool"),
    "set_tab_length": ("tab_length", "u8"),
    "set_hard_tab_indent": ("hard_tab_indent", "bool"),
    "set_read_only": ("read_only", "bool"),
}

# The styles of a text area.
STYLES = [
    "style",
    "cursor_style",
    "cursor_line_style",
    "cursor_line_number_style",
    "selection_style",
    "search_style",
]
