//! The calls of libbolt.a, as include/bolt.h declares them, and what they answer as types.

use crate::error::Outcome;
use std::ffi::c_void;

#[repr(C)]
pub(crate) struct Handle {
    pub at: *mut c_void,
}

#[repr(C)]
#[derive(Clone, Copy, Default)]
pub(crate) struct Asked {
    pub ordinal: u64,
    pub rule: u64,
    pub place: u64,
}

#[repr(C)]
#[derive(Clone, Copy, Default)]
pub(crate) struct Standing {
    pub first: u64,
    pub pending: u32,
    pub phase: u32,
    pub version: u32,
    pub has_ended: u32,
    pub awaits: u32,
    pub padding: u32,
}

/// How many requests may wait.
pub(crate) const PIPELINE: usize = 32;
pub(crate) const MESSAGE: usize = 65_536;
pub(crate) const NOT_ALLOWED: u32 = 1;
pub(crate) const FULL: u32 = 2;
pub(crate) const CLOSED: u32 = 4;
pub(crate) const MEMORY: u32 = 5;
pub(crate) const NO_REQUEST: u32 = 8;
pub(crate) const LARGE: u32 = 12;
pub(crate) const READY: u32 = 2;
pub(crate) const TX_READY: u32 = 4;
pub(crate) const HALTED: u32 = 6;

extern "C" {
    fn bolt_open(c: *mut Handle, versions: u32, rows: usize) -> u32;
    fn bolt_close(c: *mut Handle);
    fn bolt_ask(c: *mut Handle, message: *const u8, length: usize, asked: *mut Asked) -> u32;
    fn bolt_unsent(c: *mut Handle, into: *mut u8, room: usize, length: *mut usize) -> u32;
    fn bolt_sent(c: *mut Handle, count: usize) -> u32;
    fn bolt_feed(c: *mut Handle, piece: *const u8, length: usize, used: *mut usize) -> u32;
    fn bolt_outcome(c: *mut Handle, ordinal: u64, outcome: *mut u32) -> u32;
    fn bolt_response(c: *mut Handle, ordinal: u64, into: *mut u8, room: usize, length: *mut usize) -> u32;
    fn bolt_rows(c: *mut Handle, ordinal: u64, held: *mut u64, left: *mut u64) -> u32;
    fn bolt_row(c: *mut Handle, ordinal: u64, index: u64, into: *mut u8, room: usize, length: *mut usize) -> u32;
    fn bolt_drop_rows(c: *mut Handle, ordinal: u64) -> u32;
    fn bolt_lose(c: *mut Handle) -> u32;
    fn bolt_settle(c: *mut Handle) -> u32;
    fn bolt_state(c: *mut Handle, state: *mut Standing) -> u32;
}

/// A client of the library, with the account of its requests. Each call does what bolt.h says of it. A code that
/// isn't 0 is why it did nothing.
pub(crate) struct Client {
    handle: Handle,
}

// SAFETY: bolt.h lets any thread call, if the calls of two threads are ordered. Each call here takes `&mut self`, and
// so does the drop. To move a client to another thread, or to lend it there, Rust demands a hand-over that orders them.
// The library keeps nothing of a thread: what a handle refers to is from malloc, whose blocks any thread may free. A
// client isn't Sync, because its pointer isn't.
unsafe impl Send for Client {}

// Each pointer below is that of a value or slice of the call's own, with its own length. That of an empty slice isn't
// null. A client is there, so a call that has no other code returns 0.
impl Client {
    /// All rows are kept until they are taken.
    pub fn open(versions: u32) -> Result<Client, u32> {
        let mut client = Client { handle: Handle { at: std::ptr::null_mut() } };
        code(unsafe { bolt_open(&mut client.handle, versions, isize::MAX as usize) })?;
        Ok(client)
    }

    pub fn ask(&mut self, message: &[u8]) -> Result<u64, (u32, Asked)> {
        let mut told = Asked::default();
        match unsafe { bolt_ask(&mut self.handle, message.as_ptr(), message.len(), &mut told) } {
            0 => Ok(told.ordinal),
            code => Err((code, told)),
        }
    }

    /// Copies the next bytes that are to be sent, and answers how many.
    pub fn unsent(&mut self, into: &mut [u8]) -> usize {
        let mut length = 0;
        let _code = unsafe { bolt_unsent(&mut self.handle, into.as_mut_ptr(), into.len(), &mut length) };
        length.min(into.len())
    }

    /// How many bytes are to be sent.
    pub fn waiting(&mut self) -> usize {
        let mut length = 0;
        let _code = unsafe { bolt_unsent(&mut self.handle, [].as_mut_ptr(), 0, &mut length) };
        length
    }

    pub fn sent(&mut self, count: usize) {
        let _code = unsafe { bolt_sent(&mut self.handle, count) };
    }

    /// Feeds a piece. What it says is in the account, also if this returns a code.
    pub fn feed(&mut self, piece: &[u8]) -> Result<(), u32> {
        let mut used = 0;
        code(unsafe { bolt_feed(&mut self.handle, piece.as_ptr(), piece.len(), &mut used) })
    }

    /// Returns the outcome of a request, once it is known.
    pub fn outcome(&mut self, ordinal: u64) -> Option<Outcome> {
        let mut outcome = 0;
        let _code = unsafe { bolt_outcome(&mut self.handle, ordinal, &mut outcome) };
        Outcome::of(outcome)
    }

    pub fn response(&mut self, ordinal: u64, into: &mut [u8]) -> Result<usize, u32> {
        let mut length = 0;
        code(unsafe { bolt_response(&mut self.handle, ordinal, into.as_mut_ptr(), into.len(), &mut length) })?;
        Ok(length)
    }

    /// How many rows of a request are held.
    pub fn rows(&mut self, ordinal: u64) -> u64 {
        let (mut held, mut left) = (0, 0);
        let _code = unsafe { bolt_rows(&mut self.handle, ordinal, &mut held, &mut left) };
        held
    }

    pub fn row(&mut self, ordinal: u64, index: u64, into: &mut [u8]) -> Result<usize, u32> {
        let mut length = 0;
        code(unsafe { bolt_row(&mut self.handle, ordinal, index, into.as_mut_ptr(), into.len(), &mut length) })?;
        Ok(length)
    }

    pub fn drop_rows(&mut self, ordinal: u64) {
        let _code = unsafe { bolt_drop_rows(&mut self.handle, ordinal) };
    }

    /// No byte comes any more.
    pub fn lose(&mut self) {
        let _code = unsafe { bolt_lose(&mut self.handle) };
    }

    /// Forgets what came of the requests. None may wait.
    pub fn settle(&mut self) {
        let _code = unsafe { bolt_settle(&mut self.handle) };
    }

    pub fn state(&mut self) -> Standing {
        let mut state = Standing::default();
        let _code = unsafe { bolt_state(&mut self.handle, &mut state) };
        state
    }
}

impl Drop for Client {
    fn drop(&mut self) {
        unsafe { bolt_close(&mut self.handle) }
    }
}

fn code(code: u32) -> Result<(), u32> {
    if code == 0 {
        Ok(())
    } else {
        Err(code)
    }
}
