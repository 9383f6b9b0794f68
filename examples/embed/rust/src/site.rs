//! A site of niluppang for Rust, by hand: what include/niluppang.h declares, and a struct that owns a site.
//!
//! The library gives away the functions that begin with `sct_raw_`. None of them is given a null pointer: the pointer of a slice never is.

use std::fmt;

/// What C calls sct_site.
#[repr(C)]
struct Handle {
    address: *mut u8,
    is_full: bool,
}

#[repr(C)]
struct Outcome {
    ok: bool,
    code: u8,
    place: u64,
    length: usize,
    reserved: u64,
}

#[repr(C)]
struct TakenOutcome {
    ok: bool,
    code: u8,
    is_repeat: bool,
    place: u64,
    number: u64,
    reserved: u64,
}

#[repr(C)]
struct AcceptedOutcome {
    ok: bool,
    code: u8,
    place: u64,
    fresh: u64,
    reserved: u64,
}

extern "C" {
    fn sct_version() -> u32;
    fn sct_raw_open(site: *mut Handle, number: u16, group: u16) -> Outcome;
    fn sct_raw_close(site: *mut Handle);
    fn sct_raw_take(site: *mut Handle, json: *const u8, length: usize) -> TakenOutcome;
    fn sct_raw_accept(site: *mut Handle, text: *const u8, length: usize) -> AcceptedOutcome;
    fn sct_raw_vector_text(site: *mut Handle) -> Outcome;
    fn sct_raw_cut(site: *mut Handle, vector: *const u8, length: usize) -> Outcome;
    fn sct_raw_status_text(site: *mut Handle) -> Outcome;
    fn sct_raw_answer(site: *mut Handle, out: *mut u8, room: usize) -> Outcome;
    fn sct_raw_why(site: *mut Handle, out: *mut u8, room: usize) -> Outcome;
}

/// The version of the library that this file declares, 0.3, as `sct_version` writes it without the last number.
const VERSION: u32 = 3;

/// Why a call was refused: the number, the place or 0, and the whole reason, such as `36 InstgAgt 1`. docs/users/codes.md has each number.
#[derive(Clone, Debug, PartialEq, Eq)]
pub struct Refused {
    pub number: u8,
    pub place: u64,
    pub why: String,
}

impl fmt::Display for Refused {
    fn fmt(&self, out: &mut fmt::Formatter) -> fmt::Result {
        write!(out, "{}", self.why)
    }
}

impl std::error::Error for Refused {}

/// What a take came to: the message's number among the site's own, or that the site held it already.
#[derive(Clone, Copy, Debug, PartialEq, Eq)]
pub enum Taken {
    Fresh(u64),
    Repeat,
}

/// A site. Dropping it frees its memory.
///
/// A call needs `&mut`, so there is one at a time. The handle is in a box, so that it stays at its address when the site is moved.
pub struct Site {
    handle: Box<Handle>,
}

// SAFETY: a site may pass from thread to thread. It has nothing to do with the thread that opened it.
unsafe impl Send for Site {}

impl Site {
    /// Site `number` of a group. It holds nothing.
    pub fn open(number: u16, group: u16) -> Result<Site, Refused> {
        // SAFETY: the function has no argument.
        let version = unsafe { sct_version() };
        assert_eq!(version / 1000, VERSION, "the library has another version");
        let handle = Handle {
            address: std::ptr::null_mut(),
            is_full: false,
        };
        let mut site = Site {
            handle: Box::new(handle),
        };
        // SAFETY: the handle is empty. A call that is refused leaves it so.
        let made = unsafe { sct_raw_open(&mut *site.handle, number, group) };
        site.checked(made.ok, made.code, made.place)?;
        Ok(site)
    }

    /// Takes the message that one JSON object is.
    pub fn take(&mut self, json: &[u8]) -> Result<Taken, Refused> {
        // SAFETY: the pointer of a slice is not null, and the length is its own. The same holds for each call below.
        let taken = unsafe { sct_raw_take(&mut *self.handle, json.as_ptr(), json.len()) };
        self.checked(taken.ok, taken.code, taken.place)?;
        Ok(if taken.is_repeat {
            Taken::Repeat
        } else {
            Taken::Fresh(taken.number)
        })
    }

    /// Accepts a delta, and returns how many of its messages are new.
    pub fn accept(&mut self, delta: &[u8]) -> Result<u64, Refused> {
        let accepted = unsafe { sct_raw_accept(&mut *self.handle, delta.as_ptr(), delta.len()) };
        self.checked(accepted.ok, accepted.code, accepted.place)?;
        Ok(accepted.fresh)
    }

    /// The version vector, such as `1:20,3:7`.
    pub fn vector_text(&mut self) -> Result<Vec<u8>, Refused> {
        let made = unsafe { sct_raw_vector_text(&mut *self.handle) };
        self.made(made)
    }

    /// The delta of what the site holds above a version vector.
    pub fn cut(&mut self, vector: &[u8]) -> Result<Vec<u8>, Refused> {
        let made = unsafe { sct_raw_cut(&mut *self.handle, vector.as_ptr(), vector.len()) };
        self.made(made)
    }

    /// The status text.
    pub fn status_text(&mut self) -> Result<Vec<u8>, Refused> {
        let made = unsafe { sct_raw_status_text(&mut *self.handle) };
        self.made(made)
    }

    /// Whether a call was done. If it was refused, the site says why.
    fn checked(&mut self, ok: bool, number: u8, place: u64) -> Result<(), Refused> {
        if ok {
            return Ok(());
        }
        let why = self.why(number);
        Err(Refused { number, place, why })
    }

    /// Why the last call was refused. It is the number alone if the handle has no site, or if there is no memory for the reason.
    fn why(&mut self, number: u8) -> String {
        let length = unsafe { sct_raw_why(&mut *self.handle, [].as_mut_ptr(), 0) }.length;
        let mut text = vec![0; length];
        let told = unsafe { sct_raw_why(&mut *self.handle, text.as_mut_ptr(), text.len()) };
        match String::from_utf8(text) {
            Ok(why) if told.ok && length > 0 => why,
            _ => number.to_string(),
        }
    }

    /// The answer that a call made.
    fn made(&mut self, made: Outcome) -> Result<Vec<u8>, Refused> {
        self.checked(made.ok, made.code, made.place)?;
        self.answer(made.length)
    }

    /// The answer, whose length is known.
    fn answer(&mut self, length: usize) -> Result<Vec<u8>, Refused> {
        let mut text = vec![0; length];
        let copied = unsafe { sct_raw_answer(&mut *self.handle, text.as_mut_ptr(), text.len()) };
        self.checked(copied.ok, copied.code, copied.place)?;
        Ok(text)
    }
}

impl Drop for Site {
    fn drop(&mut self) {
        // SAFETY: the handle is empty, or has a site, which nobody else has.
        unsafe { sct_raw_close(&mut *self.handle) }
    }
}
