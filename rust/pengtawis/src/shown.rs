//! The text of the last answer of a store, or at a seat.

use crate::commands::Asks;
use crate::error::Refusal;
use crate::ffi::{self, stop, word, Answer, Given, MAX_PIECE};
use crate::items::Items;
use crate::store::Store;
use crate::values::{Cursor, Owed};
use std::fmt;

const ROOM: usize = 1 << 16; // bytes that are asked for at a time

/// The answer to a check, a since, a snapshot, a page or a line, whose text isn't fetched yet.
///
/// It borrows the store or the seat, so no other request can replace the answer. The library copies each byte only once, straight into the
/// caller's text. A call that is refused as [`Refusal::NoRoom`] may be made again, and loses nothing. Keep the `Shown` of a check until
/// `items` succeeded; dropping it loses its items.
///
/// ```compile_fail
/// # let mut store = pengtawis::Store::open(1).unwrap();
/// let mut shown = store.check(40, 256)?;
/// let _ = store.check(41, 256)?; // the items of the first check would be lost
/// shown.items()?;
/// # Ok::<(), pengtawis::Error>(())
/// ```
#[must_use = "dropping it loses the answer, and the items of a check"]
pub struct Shown<'store, T: Asks = Store> {
    store: &'store mut T,
    answer: Answer,
    fetched: u64,
    text: Vec<u8>,
}

impl<T: Asks> fmt::Debug for Shown<'_, T> {
    fn fmt(&self, to: &mut fmt::Formatter<'_>) -> fmt::Result {
        to.debug_struct("Shown").field("count", &self.count()).field("cursor", &self.cursor()).finish_non_exhaustive()
    }
}

impl<'store, T: Asks> Shown<'store, T> {
    pub(crate) fn new(store: &'store mut T, answer: Answer) -> Shown<'store, T> {
        Shown { store, answer, fetched: 0, text: Vec::new() }
    }

    /// Returns how many items the answer has.
    pub fn count(&self) -> u64 {
        self.answer.pieces
    }

    /// Returns the cursor from which a since continues; `None` unless this answers a since, a snapshot or a page. After a walk of all
    /// pages, continue from the first page's.
    pub fn cursor(&self) -> Option<Cursor> {
        match self.answer.word {
            word::JOURNALED | word::SNAPPED | word::PAGED => Some(Cursor { incarnation: self.answer.before, position: self.answer.after }),
            _ => None,
        }
    }

    /// Returns the subscriptions that the answer owes a notice: none, unless a line changed something or subscribed.
    pub fn owed(&self) -> Owed {
        Owed(self.answer.owed)
    }

    /// Returns whether a page is the last one.
    pub fn is_last(&self) -> bool {
        self.answer.last == 1
    }

    /// Fetches the items of the answer. A second call returns none.
    pub fn items(&mut self) -> Result<Items, Refusal> {
        let mut text = std::mem::take(&mut self.text);
        let fetched = self.append_to(&mut text);
        if let Err(refusal) = fetched {
            self.text = text;
            return Err(refusal);
        }
        Ok(Items::from(text))
    }

    /// Appends the lines of the items to a text. A refusal keeps the lines that were fetched; call again for the others.
    pub fn append_to(&mut self, text: &mut Vec<u8>) -> Result<(), Refusal> {
        while self.fetched < self.answer.pieces {
            let (room, first) = (ROOM.min((self.answer.pieces - self.fetched) as usize * MAX_PIECE), self.fetched as usize);
            self.fetched += self.store.pieces(first, room, text)?;
        }
        Ok(())
    }
}

impl Shown<'_> {
    /// Returns the whole answer as `dsctl` prints it.
    ///
    /// ```
    /// # let mut store = pengtawis::Store::open(1)?;
    /// assert_eq!(store.line("nameof 3/16").unwrap_err().refusal(), Some(pengtawis::Refusal::NotFound));
    /// assert_eq!(store.line("publish 0/2 new eth0 label 3.0 = 3/16")?.text()?, "taken\n");
    /// assert_eq!(store.line("nameof 3/16")?.text()?, "named eth0\n");
    /// # Ok::<(), pengtawis::Error>(())
    /// ```
    pub fn text(&mut self) -> Result<String, Refusal> {
        let (mut text, mut given) = (Vec::new(), Given::default());
        loop {
            let room = (given.count as usize).saturating_sub(text.len()).max(64);
            text.try_reserve(room).map_err(|_| Refusal::NoRoom)?;
            let (end, left) = (text.spare_capacity_mut().as_mut_ptr().cast(), text.capacity() - text.len());
            // SAFETY: the handle is open, and `left` bytes are there from `end` on.
            unsafe { ffi::ds_text(self.store.handle(), text.len(), end, left, &mut given) };
            // SAFETY: so many of these bytes are written.
            unsafe { text.set_len(text.len() + given.length as usize) };
            match given.stop {
                stop::WHOLE => return String::from_utf8(text).map_err(|_| Refusal::NoRoom),
                stop::TOOSMALL => {}
                _ => return Err(Refusal::NoRoom),
            }
        }
    }
}
