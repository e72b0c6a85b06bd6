//! The handle of the core's text area, and calls on it.
//!
//! All `unsafe` of the crate is here and in the calls of `on`. The core asks of its callers what
//! include/textarea.h lists; it is kept so: a handle begins as zeroes, is private, and is passed to
//! one call at a time, on one thread; references and slices are never null, and those that the core
//! writes don't overlap, as Rust's `&mut` don't.

use crate::data::OutOfMemory;
use crate::ratatui::buffer::Cell;
use crate::sys;
use std::alloc::{Layout, handle_alloc_error};
use std::cell::UnsafeCell;
use std::ptr::null_mut;

/// The handle of a text area that is there.
pub struct Handle(UnsafeCell<sys::Handle>);

/// The handle without a text area.
fn empty() -> sys::Handle {
    sys::Handle {
        stored: sys::Held { at: null_mut() },
        full: false,
    }
}

impl Handle {
    pub fn new() -> Result<Handle, OutOfMemory> {
        let handle = Handle(UnsafeCell::new(empty()));
        handle.on(|h| unsafe { sys::ta_new(h) })?;
        Ok(handle)
    }

    pub fn with_text(text: &str) -> Result<Handle, OutOfMemory> {
        let handle = Handle(UnsafeCell::new(empty()));
        handle.on(|h| unsafe { sys::ta_from_text(h, text.as_ptr(), text.len()) })?;
        Ok(handle)
    }

    pub fn copy(&self) -> Result<Handle, OutOfMemory> {
        let copy = Handle(UnsafeCell::new(empty()));
        self.on(|h| unsafe { sys::ta_clone(h, copy.0.get()) })?;
        Ok(copy)
    }

    /// Makes a call, and returns whether its status is ok, or that memory ran out. The other
    /// statuses are for arguments that this crate never passes, or are asked for by `status`.
    #[inline]
    pub fn on(&self, call: impl FnOnce(*mut sys::Handle) -> u32) -> Result<bool, OutOfMemory> {
        status(call(self.0.get()))
    }

    /// Makes a call, and returns its status.
    pub fn status(&self, call: impl FnOnce(*mut sys::Handle) -> u32) -> u32 {
        call(self.0.get())
    }

    /// Makes a call that takes no memory, and returns whether its status is ok.
    #[inline]
    pub fn is(&self, call: impl FnOnce(*mut sys::Handle) -> u32) -> bool {
        must(self.on(call))
    }

    /// Returns the text that a call writes: as many bytes as there is room for, and how many it
    /// needs; or `None` if there is none.
    pub fn text(
        &self,
        call: impl Fn(*mut sys::Handle, *mut u8, usize, *mut usize) -> u32,
    ) -> Result<Option<String>, OutOfMemory> {
        text_of(|out, room, needed| self.on(|h| call(h, out, room, needed)))
    }

    /// Replaces a cell of the screen, if the screen has it.
    pub fn put(&self, x: u16, y: u16, cell: &Cell) -> Result<(), OutOfMemory> {
        let (symbol, style) = (cell.symbol(), cell.whole_style().into());
        self.on(|h| unsafe { sys::ta_screen_put(h, x, y, symbol.as_ptr(), symbol.len(), &style) })?;
        Ok(())
    }

    /// Returns the items that a call writes: as many as there is room for, and how many there are.
    pub fn list<T: Clone>(
        &self,
        blank: T,
        call: impl Fn(*mut sys::Handle, *mut T, usize, *mut usize) -> u32,
    ) -> Vec<T> {
        let mut items = Vec::new();
        let mut needed = 0;
        loop {
            self.is(|h| call(h, items.as_mut_ptr(), items.len(), &mut needed));
            let is_whole = needed <= items.len();
            items.resize(needed, blank.clone());
            if is_whole {
                return items;
            }
        }
    }
}

impl Drop for Handle {
    fn drop(&mut self) {
        unsafe { sys::ta_free(self.0.get()) }
    }
}

/// Returns whether a status is ok, or that memory ran out.
#[inline]
pub fn status(status: u32) -> Result<bool, OutOfMemory> {
    match status {
        sys::OK => Ok(true),
        sys::FALSE => Ok(false),
        sys::OUT_OF_MEMORY => Err(OutOfMemory),
        status => unreachable!("status {status} of the core"),
    }
}

/// Returns the text that a call writes: as many bytes as there is room for, and how many it needs; or
/// `None` if there is none.
pub fn text_of(
    mut call: impl FnMut(*mut u8, usize, *mut usize) -> Result<bool, OutOfMemory>,
) -> Result<Option<String>, OutOfMemory> {
    let mut bytes = vec![0; 64];
    let mut needed = 0;
    loop {
        if !call(bytes.as_mut_ptr(), bytes.len(), &mut needed)? {
            return Ok(None);
        }
        let is_whole = needed <= bytes.len();
        bytes.resize(needed, 0);
        if is_whole {
            return Ok(Some(
                String::from_utf8(bytes).expect("texts of the core are UTF-8"),
            ));
        }
    }
}

/// Returns the value. Out of memory ends the program, as in collections of `std`.
#[inline]
pub fn must<T>(result: Result<T, OutOfMemory>) -> T {
    match result {
        Ok(value) => value,
        Err(OutOfMemory) => handle_alloc_error(Layout::new::<u8>()),
    }
}
