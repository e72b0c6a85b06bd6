//! What changed in the text.

use super::TextArea;
use crate::data::{ChangeUnit, TextChange};
use crate::handle::must;
use crate::sys;

impl TextArea<'_> {
    /// Begins a log of what changes in the text, with columns in this unit, or ends it for `None`.
    /// The changes in the log before are forgotten.
    ///
    /// ```
    /// use tui_textarea::{ChangeUnit, TextArea};
    ///
    /// let mut area = TextArea::from(["é"]);
    /// area.set_change_log(Some(ChangeUnit::Bytes));
    /// area.go_to((0, 1));
    /// area.insert_char('x');
    /// assert_eq!(area.take_changes()[0].start, (0, 2));
    /// ```
    pub fn set_change_log(&mut self, unit: Option<ChangeUnit>) {
        self.core.is(|h| unsafe {
            match unit {
                None => sys::ta_remove_change_log(h),
                Some(ChangeUnit::Characters) => sys::ta_set_change_log(h, sys::UNIT_CHARACTERS),
                Some(ChangeUnit::Bytes) => sys::ta_set_change_log(h, sys::UNIT_BYTES),
                Some(ChangeUnit::Utf16) => sys::ta_set_change_log(h, sys::UNIT_UTF16),
            }
        });
    }

    /// Returns what changed in the text since this was last called, or since the log began; nothing
    /// without a log. The changes, one after another, lead from the text then to the text now.
    ///
    /// ```
    /// use tui_textarea::{ChangeUnit, TextArea};
    ///
    /// let mut area = TextArea::from(["one"]);
    /// area.set_change_log(Some(ChangeUnit::Characters));
    /// area.delete_str(1);
    /// area.undo();
    /// let changes = area.take_changes();
    /// assert_eq!((changes[0].start, changes[0].end), ((0, 0), (0, 1)));
    /// assert_eq!(changes[1].lines, ["o"]);
    /// assert!(area.take_changes().is_empty());
    /// ```
    pub fn take_changes(&mut self) -> Vec<TextChange> {
        let mut count = 0;
        self.core
            .is(|h| unsafe { sys::ta_take_changes(h, &mut count) });
        (0..count).map(|index| self.change(index)).collect()
    }

    fn change(&self, index: usize) -> TextChange {
        let mut n = [0; 5];
        let [a, b, c, d, count] = &mut n;
        self.core
            .is(|h| unsafe { sys::ta_change(h, index, a, b, c, d, count) });
        TextChange {
            start: (n[0], n[1]),
            end: (n[2], n[3]),
            lines: (0..n[4]).map(|row| self.change_line(index, row)).collect(),
        }
    }

    fn change_line(&self, index: usize, row: usize) -> String {
        let line = self.core.text(|h, out, room, needed| unsafe {
            sys::ta_change_line(h, index, row, out, room, needed)
        });
        must(line).unwrap_or_default()
    }
}
