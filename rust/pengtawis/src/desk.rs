//! A store that threads share, and their seats.

use crate::commands::{commands, Asks};
use crate::error::{Error, Refusal};
use crate::ffi::{self, Answer, Given, Handle, Request};
use crate::values::{Notices, Version};
use std::sync::{Arc, Mutex};

const NO_PLACE: u64 = u64::MAX; // places are below 2^62

/// Holds a store that threads share. Each thread calls the store at a [`Seat`] of its own, and needs no mutex.
///
/// Dropping the desk and its seats, in any order, frees the memory.
///
/// ```
/// use pengtawis::{Desk, Endpoint, Publisher};
/// use std::thread;
///
/// let desk = Desk::open(1, 5)?;
/// let mut rs = desk.seat()?;
/// for at in 0..4 {
///     rs.rs_started(&format!("eth{at}"), Endpoint::new(3, 16 + at))?;
/// }
/// thread::scope(|threads| {
///     for at in 0..4 {
///         let mut seat = desk.seat().unwrap();
///         threads.spawn(move || {
///             let mut driver = Publisher::open(&mut seat, Endpoint::new(3, 16 + at)).unwrap();
///             driver.publish(&mut seat, &format!("eth{at}.mtu"), 1500, false).unwrap();
///         });
///     }
/// });
/// assert_eq!(rs.retrieve::<u32>("eth3.mtu")?, 1500);
/// assert_eq!(rs.place(), Some(16)); // four labels, and each thread has made three calls
/// # Ok::<(), pengtawis::Error>(())
/// ```
#[derive(Debug)]
pub struct Desk {
    opened: Arc<Opened>,
}

/// The handle of a desk, which is closed after the last seat.
#[derive(Debug)]
struct Opened {
    handle: Mutex<DeskHandle>,
}

#[derive(Debug)]
struct DeskHandle(Handle);

// SAFETY: the handle of a desk may go to another thread, by the law `handles_cross` of the crate ds_c.
unsafe impl Send for DeskHandle {}

impl Drop for Opened {
    fn drop(&mut self) {
        let handle = self.handle.get_mut().unwrap_or_else(|it| it.into_inner());
        // SAFETY: the handle is open, and isn't used again. Each seat is closed before it drops its part of the `Arc`.
        unsafe { ffi::ds_desk_close(&mut handle.0) };
    }
}

impl Desk {
    /// Opens a store, as [`Store::open`](crate::Store::open) does, at a desk that has so many seats in all, 1 to 64.
    pub fn open(incarnation: u64, seats: u32) -> Result<Desk, Refusal> {
        Desk::open_with(incarnation, 0, 256, seats)
    }

    /// Opens a store, as [`Store::open_with`](crate::Store::open_with) does, at a desk that has so many seats in all, 1 to 64.
    pub fn open_with(incarnation: u64, first: u64, ring: u32, seats: u32) -> Result<Desk, Refusal> {
        let mut handle = std::ptr::null_mut();
        // SAFETY: the handle begins as null.
        match unsafe { ffi::ds_desk_open(&mut handle, incarnation, first, ring, seats) } {
            0 => Ok(Desk { opened: Arc::new(Opened { handle: Mutex::new(DeskHandle(handle)) }) }),
            number => Err(Refusal::numbered(number, Version::default())),
        }
    }

    /// Opens a seat. One that is dropped doesn't come back: hand it to another thread instead. [`Refusal::NoSeat`] if none is left.
    pub fn seat(&self) -> Result<Seat, Refusal> {
        let mut desk = self.opened.handle.lock().unwrap_or_else(|it| it.into_inner());
        let mut handle = std::ptr::null_mut();
        // SAFETY: the desk's handle is open, and the lock is held; the seat's begins as null.
        match unsafe { ffi::ds_seat_open(&mut desk.0, &mut handle) } {
            0 => Ok(Seat { handle, waits: true, place: None, _desk: Arc::clone(&self.opened) }),
            number => Err(Refusal::numbered(number, Version::default())),
        }
    }
}

/// Calls the store of a [`Desk`], as a [`Store`](crate::Store) of its own is called.
///
/// The calls of all seats have one order, and each answer is that of a store which one thread calls in this order. Calls take `&mut self`,
/// so a seat has one call at a time. It may move to another thread.
///
/// ```compile_fail
/// let mut seat = pengtawis::Desk::open(1, 2).unwrap().seat().unwrap();
/// std::thread::scope(|threads| {
///     threads.spawn(|| seat.name_of(pengtawis::RS)); // two threads at one seat
///     threads.spawn(|| seat.name_of(pengtawis::RS));
/// });
/// ```
#[derive(Debug)]
pub struct Seat {
    handle: Handle,
    waits: bool,
    place: Option<u64>,
    _desk: Arc<Opened>, // dropped after the handle is closed
}

// SAFETY: the handle of a seat may go to another thread, by the law `handles_cross` of the crate ds_c.
unsafe impl Send for Seat {}

impl Seat {
    /// Returns the place of the last call in the order of all seats' calls, from 0. `None` if there was none yet, if the last one was
    /// [`Error::NoRequest`], or if memory ran out for its text. Each call of a merge of more than 256 items has a place.
    pub fn place(&self) -> Option<u64> {
        self.place
    }

    /// Sets whether a call waits while another seat has the turn, as it does at first. Else such a call is refused as
    /// [`Refusal::IsBusy`]: nothing was called, and [`place`](Seat::place) is unchanged.
    ///
    /// ```
    /// # let desk = pengtawis::Desk::open(1, 1)?;
    /// let mut seat = desk.seat()?;
    /// seat.set_waiting(false);
    /// assert_eq!(seat.name_of(pengtawis::RS)?, "rs"); // no other seat has the turn
    /// # Ok::<(), pengtawis::Error>(())
    /// ```
    pub fn set_waiting(&mut self, waits: bool) {
        self.waits = waits;
    }

    /// Takes the pending notices of a server, 0 to 15, which has the subscriptions from 8 * `server` on. Never waits.
    ///
    /// Each call posts the notices that it owes once it is carried out. Several of one subscription are one. If threads take the
    /// notices of one server, each notice goes to one of them.
    ///
    /// ```
    /// use pengtawis::{Desk, Endpoint, Kind, Scope, RS};
    ///
    /// let desk = Desk::open(1, 2)?;
    /// let (mut rs, mut server) = (desk.seat()?, desk.seat()?);
    /// server.subscribe(40, Scope::new("eth.*", Kind::Label), false, false)?;
    /// rs.publish(RS, "eth0", Endpoint::new(3, 16), (3, 0), false)?;
    /// let notices = server.take(5)?;
    /// assert!(notices.owed.contains(40) && notices.floor == 2);
    /// # Ok::<(), pengtawis::Error>(())
    /// ```
    pub fn take(&mut self, server: u32) -> Result<Notices, Refusal> {
        let (mut bits, mut notices) = (0, Notices { owed: Default::default(), floor: 0 });
        // SAFETY: the handle is open.
        match unsafe { ffi::ds_seat_take(&mut self.handle, server, &mut bits, &mut notices.floor) } {
            0 => {
                notices.owed.0[server as usize] = bits; // a server has a byte of them
                Ok(notices)
            }
            number => Err(Refusal::numbered(number, Version::default())),
        }
    }
}

commands!(Seat);

impl Asks for Seat {
    fn ask(&mut self, request: &Request, text: &[u8]) -> Result<Answer, Error> {
        let call = if self.waits { ffi::ds_seat_wait } else { ffi::ds_seat_call };
        let (mut answer, mut place) = (Answer::default(), NO_PLACE);
        // SAFETY: the handle is open, and the length is the text's.
        let refusal = unsafe { call(&mut self.handle, request, text.as_ptr(), text.len(), &mut answer, &mut place) };
        if refusal > 0 {
            return Err(Refusal::numbered(refusal, Version::default()).into());
        }
        self.place = if place == NO_PLACE { None } else { Some(place) };
        Error::of(&answer).map_or(Ok(answer), Err)
    }

    unsafe fn items(&mut self, first: usize, room: *mut u8, length: usize, given: &mut Given) {
        ffi::ds_seat_items(&mut self.handle, first, room, length, given);
    }
}

impl Drop for Seat {
    fn drop(&mut self) {
        // SAFETY: the handle is open, and isn't used again.
        unsafe { ffi::ds_seat_close(&mut self.handle) };
    }
}
