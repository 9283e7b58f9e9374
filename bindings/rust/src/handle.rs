//! A handle of C that closes itself.

use crate::error::{answer, Error, Result};
use crate::sys;
use core::cell::UnsafeCell;

type Close = unsafe extern "C" fn(*mut sys::Handle);

/// An open handle, and the call that closes it.
///
/// A call that only reads takes a `const` handle in C, but has it alone all the same: it may take the value out and put it back. So the
/// handle is in a cell.
#[derive(Debug)]
pub(crate) struct Held {
    raw: UnsafeCell<sys::Handle>,
    close: Close,
}

// SAFETY: the library has no variables of its own, and a handle may be used by one thread after another (docs/c-library.md, What
// C must promise). It is not Sync, by the cell and the raw pointer in it: one call at a time has a handle, even to read.
unsafe impl Send for Held {}

impl Held {
    /// Opens a handle by the call that is passed, which gets a closed one.
    pub(crate) fn open(close: Close, open: impl FnOnce(*mut sys::Handle) -> u32) -> Result<Held> {
        // The structs of another version may have another layout.
        let version = crate::version();
        if version >> 8 != sys::VERSION >> 8 {
            return Err(Error::WrongVersion(version));
        }
        let mut raw = sys::Handle::CLOSED;
        answer(open(&mut raw), 0)?;
        Ok(Held { raw: UnsafeCell::new(raw), close })
    }

    /// The handle, for calls that change it.
    pub(crate) fn raw(&mut self) -> *mut sys::Handle {
        self.raw.get()
    }

    /// The handle, for calls that only read it.
    pub(crate) fn read(&self) -> *const sys::Handle {
        self.raw.get()
    }
}

impl Drop for Held {
    fn drop(&mut self) {
        // SAFETY: the handle was opened by the call that belongs to `close`, and no other value has it.
        unsafe { (self.close)(self.raw.get()) }
    }
}

/// The status of a call that, over an open handle of the right kind, always returns `DONE`.
pub(crate) fn is_done(status: u32) {
    debug_assert_eq!(status, sys::DONE);
}
