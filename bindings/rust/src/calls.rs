//! The calls of icu_locale.h.
use std::ffi::c_void;
use std::ptr::null_mut;

/// A handle of C: null is closed. It closes itself.
#[repr(C)]
pub struct Handle {
    at: *mut c_void,
}

// SAFETY: it is proved of the handle that it may go to another thread.
unsafe impl Send for Handle {}

impl Handle {
    /// A handle that is closed.
    pub const fn closed() -> Self {
        Handle { at: null_mut() }
    }

    /// The handle that was taken out of another one.
    pub const fn at(at: *mut c_void) -> Self {
        Handle { at }
    }

    /// What it holds, and leaves it closed.
    pub fn take(&mut self) -> *mut c_void {
        std::mem::replace(&mut self.at, null_mut())
    }
}

impl Drop for Handle {
    fn drop(&mut self) {
        // SAFETY: no other call is made on the handle, by `&mut`.
        unsafe { icu_locale_close(self) }
    }
}

extern "C" {
    pub fn icu_locale_open(json: *const u8, length: usize, handle: *mut Handle) -> i32;
    pub fn icu_locale_supplement(handle: *mut Handle, json: *const u8, length: usize) -> i32;
    pub fn icu_locale_share(from: *mut Handle, to: *mut Handle) -> i32;
    pub fn icu_locale_answer(
        handle: *mut Handle,
        command: *const u8,
        command_length: usize,
        line: *const u8,
        line_length: usize,
        out: *mut u8,
        room: usize,
        written: *mut usize,
    ) -> i32;
    pub fn icu_locale_missing(
        handle: *mut Handle,
        command: *const u8,
        command_length: usize,
        out: *mut u8,
        room: usize,
        written: *mut usize,
    ) -> i32;
    pub fn icu_locale_is_settled(handle: *mut Handle) -> i32;
    pub fn icu_locale_available_in(
        from: *mut Handle,
        syntax: *const u8,
        syntax_length: usize,
        list: *const u8,
        list_length: usize,
        negotiator: *mut Handle,
    ) -> i32;
    pub fn icu_locale_negotiate_in(
        negotiator: *mut Handle,
        syntax: *const u8,
        syntax_length: usize,
        requests: *const u8,
        requests_length: usize,
        request: *mut usize,
        available: *mut usize,
    ) -> i32;
    pub fn icu_locale_fault(text: *const u8, length: usize, from: *mut usize, to: *mut usize) -> i32;
    pub fn icu_locale_lend_names(handle: *mut Handle, flat: *const u8, length: usize) -> i32;
    pub fn icu_locale_flat_names(handle: *mut Handle, out: *mut u8, room: usize, written: *mut usize) -> i32;
    pub fn icu_locale_data_name(handle: *mut Handle, out: *mut u8, room: usize, written: *mut usize) -> i32;
    pub fn icu_locale_close(handle: *mut Handle);
}
