//! Handles to the same tables, one for each call that runs, so that a call is made by `&self` from any thread.
use crate::calls::{self, Handle};
use crate::Refusal;
use std::ffi::c_void;
use std::ptr::null_mut;
use std::sync::atomic::{AtomicPtr, AtomicUsize, Ordering};
use std::sync::{Mutex, PoisonError};

const DONE: i32 = 0;
const ACCEPTED: i32 = 0;
const LINE_REFUSED: i32 = 1;
const ROOM: i32 = 3;
const TABLE: i32 = 8;
const PLACES: usize = 32;
/// The command that needs what a list and `is_settled` need.
pub const LIKELY: &str = "maximize";
// Bytes of an answer whose room a handle keeps.
const LARGEST: usize = 1 << 16;

/// A place for a handle that is free, in a line of memory of its own, so that threads do not wait for each other's.
#[repr(align(64))]
struct Place(AtomicPtr<c_void>);

/// The root is a handle that others are made of, and no call else is made on it. With a list they negotiate.
pub struct Pool {
    root: Mutex<Handle>,
    list: Option<List>,
    free: [Place; PLACES],
}

/// The line of a list, and the word of its syntax, which is empty where it has none.
pub struct List {
    pub word: &'static str,
    pub line: String,
}

/// A handle of one call, which goes back at its end.
struct Taken<'a> {
    pool: &'a Pool,
    handle: Handle,
    home: usize,
}

// The place that a thread looks at first.
fn home() -> usize {
    static NEXT: AtomicUsize = AtomicUsize::new(0);
    thread_local!(static HOME: usize = NEXT.fetch_add(1, Ordering::Relaxed) % PLACES);
    HOME.try_with(|home| *home).unwrap_or(0)
}

impl Pool {
    /// A pool over tables, and over the line of a list where there is one.
    pub fn over(root: Handle, list: Option<List>) -> Self {
        Pool { root: Mutex::new(root), list, free: std::array::from_fn(|_| Place(AtomicPtr::new(null_mut()))) }
    }

    /// A pool over tables and a list, which is read.
    pub fn listing<T: AsRef<str>>(root: Handle, word: &'static str, available: &[T]) -> Result<Self, Refusal> {
        let pool = Pool::over(root, Some(List { word, line: line(available)? }));
        pool.with(|_| ())?;
        Ok(pool)
    }

    /// What the program answers to a line, without its line feed.
    pub fn answer(&self, command: &str, line: &[u8]) -> Result<String, Refusal> {
        let (number, out) = self.written(|handle, out, written| call(handle, command, line, out, written))?;
        match number {
            ACCEPTED => Ok(String::from_utf8(out).expect("an answer is a text")),
            LINE_REFUSED => Err(Refusal::of_name(String::from_utf8_lossy(&out).trim_start_matches("?\t"))),
            number => Err(self.with(|handle| refusal(number, handle, command))?),
        }
    }

    /// Lends names to the tables. No call runs on a handle here, by `&mut`, and those that were free are closed first.
    pub fn lend_names(&mut self, names: &'static [u8]) -> Result<(), Refusal> {
        for place in &mut self.free {
            drop(Handle::at(std::mem::replace(place.0.get_mut(), null_mut())));
        }
        let root = self.root.get_mut().unwrap_or_else(PoisonError::into_inner);
        // SAFETY: the root is this call's, by `&mut`, and the slice stays where it is and as it is.
        match unsafe { calls::icu_locale_lend_names(root, names.as_ptr(), names.len()) } {
            DONE => Ok(()),
            number => Err(Refusal::of_number(number)),
        }
    }

    /// The names of the tables in the flat form.
    pub fn flat_names(&self) -> Result<Vec<u8>, Refusal> {
        let (number, out) = self.written(|handle, out, written| {
            // SAFETY: `out` is Rust's, and overlaps neither `written` nor the handle, which is this call's, by `&mut`.
            unsafe { calls::icu_locale_flat_names(handle, out.as_mut_ptr(), out.len(), written) }
        })?;
        match number {
            ACCEPTED => Ok(out),
            number => Err(Refusal::of_number(number)),
        }
    }

    /// The name of the data, if it has one.
    pub fn data_name(&self) -> Result<Option<String>, Refusal> {
        let (number, out) = self.written(|handle, out, written| {
            // SAFETY: `out` is Rust's, and overlaps neither `written` nor the handle, which is this call's, by `&mut`.
            unsafe { calls::icu_locale_data_name(handle, out.as_mut_ptr(), out.len(), written) }
        })?;
        match number {
            ACCEPTED => Ok(Some(String::from_utf8(out).expect("a name is a text"))),
            LINE_REFUSED => Ok(None),
            number => Err(Refusal::of_number(number)),
        }
    }

    // The number of a call that writes a text, which is made again where it wants more room, and the text.
    fn written(&self, ask: impl Fn(&mut Handle, &mut [u8], &mut usize) -> i32) -> Result<(i32, Vec<u8>), Refusal> {
        let mut out = vec![0; 64];
        let mut written = 0;
        let number = self.with(|handle| {
            let mut number = ask(handle, &mut out, &mut written);
            if number == ROOM {
                out.resize(written, 0);
                number = ask(handle, &mut out, &mut written);
            }
            if written > LARGEST {
                *handle = Handle::closed(); // with the room that it took
            }
            number
        })?;
        out.truncate(written);
        Ok((number, out))
    }

    /// A call on a handle that no other call has.
    pub fn with<T>(&self, call: impl FnOnce(&mut Handle) -> T) -> Result<T, Refusal> {
        Ok(call(&mut self.take()?.handle))
    }

    /// A second handle to the tables, without the list.
    pub fn share(&self) -> Result<Handle, Refusal> {
        let mut root = self.root.lock().unwrap_or_else(PoisonError::into_inner);
        let mut handle = Handle::closed();
        // SAFETY: the two handles are two, the root is this call's by the lock, and nobody else has the other.
        match unsafe { calls::icu_locale_share(&mut *root, &mut handle) } {
            DONE => Ok(handle),
            number => Err(Refusal::of_number(number)),
        }
    }

    fn take(&self) -> Result<Taken<'_>, Refusal> {
        let home = home();
        for step in 0..PLACES {
            let at = self.free[(home + step) % PLACES].0.swap(null_mut(), Ordering::Acquire);
            if !at.is_null() {
                return Ok(Taken { pool: self, handle: Handle::at(at), home });
            }
        }
        Ok(Taken { pool: self, handle: self.fresh()?, home })
    }

    // A new handle that holds what the others hold.
    fn fresh(&self) -> Result<Handle, Refusal> {
        let mut tables = self.share()?;
        let Some(List { word, line }) = &self.list else { return Ok(tables) };
        let mut handle = Handle::closed();
        // SAFETY: the slices are Rust's, and the two handles are two, which nobody else has.
        let number = unsafe {
            calls::icu_locale_available_in(
                &mut tables,
                word.as_ptr(),
                word.len(),
                line.as_ptr(),
                line.len(),
                &mut handle,
            )
        };
        match number {
            DONE => Ok(handle),
            number => Err(refusal(number, &mut tables, LIKELY)),
        }
    }
}

/// The refusal of a number that a handle tells, by the words of a command. Of a table that is left out C tells the name.
pub fn refusal(number: i32, handle: &mut Handle, command: &str) -> Refusal {
    if number != TABLE {
        return Refusal::of_number(number);
    }
    let (mut out, mut written) = ([0; 64], 0);
    // SAFETY: the slices are Rust's, `out` and `written` overlap nothing by `&mut`, and so the handle is this call's.
    let number = unsafe {
        calls::icu_locale_missing(handle, command.as_ptr(), command.len(), out.as_mut_ptr(), out.len(), &mut written)
    };
    match number {
        ACCEPTED => Refusal::of_member(&out[..written]),
        number => Refusal::of_number(number),
    }
}

impl Drop for Taken<'_> {
    // Where each place has a handle already, this one is closed.
    fn drop(&mut self) {
        let at = self.handle.take();
        for step in 0..PLACES {
            let place = &self.pool.free[(self.home + step) % PLACES].0;
            if place.compare_exchange(null_mut(), at, Ordering::Release, Ordering::Relaxed).is_ok() {
                return;
            }
        }
        drop(Handle::at(at));
    }
}

impl Drop for Pool {
    fn drop(&mut self) {
        for place in &mut self.free {
            drop(Handle::at(*place.0.get_mut()));
        }
    }
}

impl std::fmt::Debug for Pool {
    fn fmt(&self, f: &mut std::fmt::Formatter<'_>) -> std::fmt::Result {
        f.write_str("..")
    }
}

fn call(handle: &mut Handle, command: &str, line: &[u8], out: &mut [u8], written: &mut usize) -> i32 {
    // SAFETY: the slices are Rust's, `out` and `written` overlap nothing by `&mut`, and so the handle is this call's.
    unsafe {
        calls::icu_locale_answer(
            handle,
            command.as_ptr(),
            command.len(),
            line.as_ptr(),
            line.len(),
            out.as_mut_ptr(),
            out.len(),
            written,
        )
    }
}

/// A list as one line. There, an identifier that is empty or holds a space would be none, or two.
pub fn line<I>(identifiers: I) -> Result<String, Refusal>
where
    I: IntoIterator,
    I::Item: AsRef<str>,
{
    let mut line = String::new();
    for identifier in identifiers {
        let identifier = identifier.as_ref();
        if identifier.is_empty() || identifier.contains(' ') {
            return Err(Refusal::List);
        }
        if !line.is_empty() {
            line.push(' ');
        }
        line.push_str(identifier);
    }
    Ok(line)
}
