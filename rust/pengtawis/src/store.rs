//! A store in this process.

use crate::commands::{commands, Asks};
use crate::error::{Error, Refusal};
use crate::ffi::{self, Answer, Given, Handle, Request};
use crate::shown::Shown;
use crate::values::Version;

/// Holds facts about programs that crash and restart.
///
/// Its calls take `&mut self`, so it gets one request at a time. It may move to another thread, and threads may share one in a
/// [`Mutex`](std::sync::Mutex), or a store at a [`Desk`](crate::Desk). Dropping it frees its memory.
///
/// ```
/// use pengtawis::{Endpoint, Publisher, Store};
///
/// let mut store = Store::open(1)?;
/// store.rs_started("eth0", Endpoint::new(3, 16))?;
/// Publisher::open(&mut store, Endpoint::new(3, 16))?.publish(&mut store, "eth0.mtu", 1500, false)?;
/// assert_eq!(store.retrieve::<u32>("eth0.mtu")?, 1500);
/// # Ok::<(), pengtawis::Error>(())
/// ```
#[derive(Debug)]
pub struct Store {
    handle: Handle,
}

// SAFETY: the handle of a store may go to another thread, by the law `handles_cross` of the crate ds_c.
unsafe impl Send for Store {}

impl Store {
    /// Opens a store whose journal keeps 256 items. Each run needs another incarnation, such as the time in nanoseconds, so that no cursor
    /// of an earlier run is taken for one of this run.
    pub fn open(incarnation: u64) -> Result<Store, Refusal> {
        Store::open_with(incarnation, 0, 256)
    }

    /// Opens a store whose first item gets the position `first`, at most 2^62, and whose journal keeps the last `ring` items, 1 to 4096.
    pub fn open_with(incarnation: u64, first: u64, ring: u32) -> Result<Store, Refusal> {
        let mut handle = std::ptr::null_mut();
        // SAFETY: the handle begins as null.
        match unsafe { ffi::ds_open(&mut handle, incarnation, first, ring) } {
            0 => Ok(Store { handle }),
            number => Err(Refusal::numbered(number, Version::default())),
        }
    }

    /// Carries out a line of a script, for one store. [`Shown::text`] is the answer as `dsctl` prints it. Write `let _ = store.line(..)?;`
    /// if you don't need the answer.
    pub fn line(&mut self, line: &str) -> Result<Shown<'_>, Error> {
        let mut answer = Answer::default();
        // SAFETY: the handle is open, and the length is the line's.
        unsafe { ffi::ds_call_line(&mut self.handle, line.as_ptr(), line.len(), &mut answer) };
        Error::of(&answer).map_or_else(|| Ok(Shown::new(self, answer)), Err)
    }

    pub(crate) fn handle(&mut self) -> &mut Handle {
        &mut self.handle
    }
}

commands!(Store);

impl Asks for Store {
    fn ask(&mut self, request: &Request, text: &[u8]) -> Result<Answer, Error> {
        let mut answer = Answer::default();
        // SAFETY: the handle is open, and the length is the text's.
        unsafe { ffi::ds_call(&mut self.handle, request, text.as_ptr(), text.len(), &mut answer) };
        Error::of(&answer).map_or(Ok(answer), Err)
    }

    unsafe fn items(&mut self, first: usize, room: *mut u8, length: usize, given: &mut Given) {
        ffi::ds_items(&mut self.handle, first, room, length, given);
    }
}

impl Drop for Store {
    fn drop(&mut self) {
        // SAFETY: the handle is open, and isn't used again.
        unsafe { ffi::ds_close(&mut self.handle) };
    }
}
