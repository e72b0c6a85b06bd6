//! The block around the text.

use super::TextArea;
use super::texts::NO_SPAN;
use crate::data::OutOfMemory;
use crate::handle::must;
use crate::ratatui::widgets::{Block, Borders, Padding};
use crate::ratatui::{BLANK, Parts};
use crate::sys;

impl<'a> TextArea<'a> {
    /// Draws this block around the text, and replaces the old one.
    ///
    /// ```
    /// use tui_textarea::ratatui::widgets::Block;
    /// use tui_textarea::TextArea;
    ///
    /// let mut area = TextArea::default();
    /// area.set_block(Block::bordered().title("Message"));
    /// assert!(area.block().is_some());
    /// ```
    pub fn set_block(&mut self, block: impl Into<Block<'a>>) {
        must(self.try_set_block(block));
    }

    /// As `set_block`, but returns that memory ran out.
    pub fn try_set_block(&mut self, block: impl Into<Block<'a>>) -> Result<(), OutOfMemory> {
        let block = block.into();
        self.set_core_block(&block)?;
        #[cfg(feature = "tui")]
        self.keep_foreign(block);
        Ok(())
    }

    fn set_core_block(&mut self, block: &Block) -> Result<(), OutOfMemory> {
        let title = Parts::of(block.title.as_slice());
        let plain = sys::Block {
            borders: block.borders.bits(),
            has_title: block.title.is_some(),
            padding: sys::Padding {
                left: block.padding.left,
                right: block.padding.right,
                top: block.padding.top,
                bottom: block.padding.bottom,
            },
            style: block.style.into(),
            border_style: block.border_style.into(),
            title_style: title.lines.first().map_or(BLANK, |line| line.style),
        };
        self.block.take();
        self.core.on(|h| unsafe {
            sys::ta_set_block(
                h,
                &plain,
                title.text.as_ptr(),
                title.text.len(),
                title.spans.as_ptr(),
                title.spans.len(),
            )
        })?;
        Ok(())
    }

    /// Removes the block, if there is one.
    ///
    /// ```
    /// use tui_textarea::ratatui::widgets::Block;
    /// use tui_textarea::TextArea;
    ///
    /// let mut area = TextArea::default();
    /// area.set_block(Block::bordered());
    /// area.remove_block();
    /// assert_eq!(area.block(), None);
    /// ```
    pub fn remove_block(&mut self) {
        self.block.take();
        self.core.is(|h| unsafe { sys::ta_remove_block(h) });
        #[cfg(feature = "tui")]
        self.foreign.take();
    }

    #[cfg(feature = "tui")]
    fn keep_foreign(&mut self, block: Block<'a>) {
        self.foreign = block.foreign.is_some().then_some(block);
    }

    /// Returns the block around the text, if there is one.
    pub fn block(&self) -> Option<&Block<'a>> {
        #[cfg(feature = "tui")]
        if self.foreign.is_some() {
            return self.foreign.as_ref();
        }
        let block: &Option<Block<'static>> = self.block.get_or_init(|| self.core_block());
        block.as_ref()
    }

    fn core_block(&self) -> Option<Block<'static>> {
        let mut block = NO_BLOCK;
        let (mut bytes, mut spans) = (Vec::new(), Vec::new());
        let (mut needed, mut count) = (0, 0);
        loop {
            let is_there = self.core.is(|h| unsafe {
                sys::ta_block(
                    h,
                    &mut block,
                    bytes.as_mut_ptr(),
                    bytes.len(),
                    &mut needed,
                    spans.as_mut_ptr(),
                    spans.len(),
                    &mut count,
                )
            });
            if !is_there {
                return None;
            }
            if needed == bytes.len() && count == spans.len() {
                break;
            }
            bytes.resize(needed, 0);
            spans.resize(count, NO_SPAN);
        }
        let title = Parts {
            text: String::from_utf8(bytes).expect("texts of the core are UTF-8"),
            lines: vec![sys::Line {
                spans: spans.len(),
                style: block.title_style,
            }],
            spans,
        };
        let padding = block.padding;
        let found = Block::new()
            .borders(Borders::from_core(block.borders))
            .padding(Padding::new(
                padding.left,
                padding.right,
                padding.top,
                padding.bottom,
            ))
            .style(block.style)
            .border_style(block.border_style);
        Some(match title.lines().pop() {
            Some(line) if block.has_title => found.title(line),
            _ => found,
        })
    }
}

const NO_BLOCK: sys::Block = sys::Block {
    borders: 0,
    has_title: false,
    padding: sys::Padding {
        left: 0,
        right: 0,
        top: 0,
        bottom: 0,
    },
    style: BLANK,
    border_style: BLANK,
    title_style: BLANK,
};
