//! A server's driver table in this process.

use crate::error::{Error, Refusal};
use crate::ffi::{self, Answer, Handle};
use crate::map::Map;
use crate::values::{Endpoint, Version};
use std::fmt;

/// A server that keeps a driver table.
#[derive(Clone, Copy, Debug, PartialEq, Eq)]
pub enum Server {
    /// A file server, whose units are major devices.
    Files = 0,
    /// A network server, whose units are ports.
    Network = 1,
}

/// The class of a service, which is that of a unit's driver.
#[derive(Clone, Copy, Debug, PartialEq, Eq)]
pub enum Class {
    /// Of a file server: a request is sent again to the next instance.
    Block = 0,
    /// Of a file server: a request fails with its driver.
    Character = 1,
    /// Of a network server.
    Network = 2,
    /// It drives no unit.
    Server = 3,
}

/// What a server carries out.
#[derive(Clone, Copy, Debug, PartialEq, Eq)]
pub enum Move {
    /// Starts a port anew, with the driver that has this endpoint.
    Start { unit: u8, endpoint: Endpoint },
    /// Sends a request to a driver, for the first time or again.
    Send { request: u64, endpoint: Endpoint },
    /// Answers a request: its driver replied. No call here returns it, since [`Table::reply`] returns `Ok` in its place.
    Done { request: u64 },
    /// Answers a request by an error: its driver is gone, and nobody knows how far it got.
    Fault { request: u64 },
    /// Keeps a request, which a later move sends.
    Held { request: u64 },
}

/// The driver of each unit of a server, and the requests that aren't answered yet.
///
/// The table learns from a map where each driver is. The server carries out the moves of each call, in order. No request goes to an older
/// instance than the map has, and none to a block driver is lost.
///
/// ```
/// use pengtawis::{Class, Endpoint, Items, Kind, Map, Move, Server, Table};
///
/// let (mut drivers, mut table) = (Map::new(".*", Kind::Label)?, Table::new(Server::Files)?);
/// table.assign(3, Class::Block, "disk")?;
/// assert_eq!(table.submit(&mut drivers, 1, 3).collect::<Vec<_>>(), [Move::Held { request: 1 }]);
/// drivers.take(&Items::from(b"disk label rs 4.0 = 4/16\n".to_vec()))?;
/// let disk = Endpoint::new(4, 16);
/// assert_eq!(table.follow(&mut drivers).collect::<Vec<_>>(), [Move::Send { request: 1, endpoint: disk }]);
/// table.reply(disk, 1)?; // request 1 is done
/// # Ok::<(), pengtawis::Error>(())
/// ```
#[derive(Debug)]
pub struct Table {
    handle: Handle,
}

// SAFETY: the handle of a table may go to another thread, by the law `handles_cross` of the crate ds_c.
unsafe impl Send for Table {}

impl Table {
    /// Makes an empty table.
    pub fn new(server: Server) -> Result<Table, Refusal> {
        let mut handle = std::ptr::null_mut();
        // SAFETY: the handle begins as null.
        match unsafe { ffi::ds_table_new(&mut handle, server as u32) } {
            0 => Ok(Table { handle }),
            number => Err(Refusal::numbered(number, Version::default())),
        }
    }

    /// Assigns a unit to the driver with a label. A class that isn't of this server is [`Error::NoRequest`].
    pub fn assign(&mut self, unit: u8, class: Class, label: &str) -> Result<(), Error> {
        let mut answer = Answer::default();
        // SAFETY: the handle is open, and the length is the label's.
        unsafe { ffi::ds_table_assign(&mut self.handle, unit, class as u8, label.as_ptr(), label.len(), &mut answer) };
        Error::of(&answer).map_or(Ok(()), Err)
    }

    /// Takes what the map has of the labels. Call it after each take of the map.
    pub fn follow(&mut self, drivers: &mut Map) -> Moves<'_> {
        let mut answer = Answer::default();
        // SAFETY: both handles are open.
        unsafe { ffi::ds_table_follow(&mut self.handle, drivers.handle(), &mut answer) };
        Moves::new(self, &answer)
    }

    /// Follows the map, and then submits a request to a unit. Requests are numbers that rise. The request's own move is the last one.
    pub fn submit(&mut self, drivers: &mut Map, request: u64, unit: u8) -> Moves<'_> {
        let mut answer = Answer::default();
        // SAFETY: both handles are open.
        unsafe { ffi::ds_table_submit(&mut self.handle, drivers.handle(), request, unit, &mut answer) };
        Moves::new(self, &answer)
    }

    /// Takes the reply of the driver at an endpoint, which ends the request. It is refused as [`Refusal::NotPending`] if the request was
    /// answered already, or as [`Refusal::OldEndpoint`] if it was last sent to another endpoint.
    pub fn reply(&mut self, endpoint: Endpoint, request: u64) -> Result<(), Error> {
        let mut answer = Answer::default();
        // SAFETY: the handle is open.
        unsafe { ffi::ds_table_reply(&mut self.handle, endpoint.generation, endpoint.slot, request, &mut answer) };
        Error::of(&answer).map_or(Ok(()), Err)
    }
}

impl Drop for Table {
    fn drop(&mut self) {
        // SAFETY: the handle is open, and isn't used again.
        unsafe { ffi::ds_table_close(&mut self.handle) };
    }
}

/// The moves of a call, which takes no memory to fetch. It borrows the table, so no other call can replace them. Moves that are dropped
/// are lost. Loop over `&mut moves` to ask [`refused`](Moves::refused) afterwards.
#[must_use = "a server carries out each move"]
pub struct Moves<'table> {
    table: &'table mut Table,
    refused: Option<Refusal>,
    count: u64,
    next: u64,
}

impl<'table> Moves<'table> {
    fn new(table: &'table mut Table, answer: &Answer) -> Moves<'table> {
        let refused = Error::of(answer).and_then(|it| it.refusal());
        Moves { table, refused, count: answer.count, next: 0 }
    }

    /// Returns why a follow ended early, or why a request wasn't accepted. The moves that there are have to be carried out all the same.
    pub fn refused(&self) -> Option<Refusal> {
        self.refused
    }
}

impl Iterator for Moves<'_> {
    type Item = Move;

    fn next(&mut self) -> Option<Move> {
        if self.next == self.count {
            return None;
        }
        let (mut told, mut given) = (ffi::Move::default(), 0);
        // SAFETY: the handle is open, and there is room for one move.
        unsafe { ffi::ds_table_moves(&mut self.table.handle, self.next as usize, &mut told, 1, &mut given) };
        self.next += 1;
        (given == 1).then(|| move_of(&told))
    }

    fn size_hint(&self) -> (usize, Option<usize>) {
        let left = (self.count - self.next) as usize;
        (left, Some(left))
    }
}

impl fmt::Debug for Moves<'_> {
    fn fmt(&self, to: &mut fmt::Formatter<'_>) -> fmt::Result {
        to.debug_struct("Moves").field("left", &(self.count - self.next)).field("refused", &self.refused).finish_non_exhaustive()
    }
}

fn move_of(told: &ffi::Move) -> Move {
    let (request, endpoint) = (told.id, Endpoint { generation: told.generation, slot: told.slot });
    match told.kind {
        0 => Move::Start { unit: told.unit, endpoint },
        1 => Move::Send { request, endpoint },
        2 => Move::Done { request },
        3 => Move::Fault { request },
        _ => Move::Held { request },
    }
}
