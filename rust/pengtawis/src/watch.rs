//! What a daemon's store holds under a pattern, and then each change.

use crate::client::{end_of, scope, Client, Pauses};
use crate::error::{ClientError, Refusal};
use crate::items::{Items, OwnedItem, OwnedItems};
use crate::values::{Cursor, Kinds};
use std::time::{Duration, Instant};

const MOST: u64 = 256; // items of a since

/// What a [`Watch`] returns.
#[derive(Clone, Debug, PartialEq, Eq)]
pub enum Event {
    /// All that was known is forgotten: the items that follow are all there is.
    Anew,
    /// A change, or a floor.
    Item(OwnedItem),
}

/// Follows a daemon's store, also after the connection was lost.
///
/// Its first event is [`Event::Anew`], and then come all items that are held, and then each later one. A lost connection is opened again,
/// and the watch continues at its cursor. If the journal doesn't have the cursor any longer, `Anew` and a snapshot follow.
///
/// ```no_run
/// use pengtawis::{Client, Event, Kind, Watch};
///
/// let mut client = Client::open("/run/dsrs/socket", None)?;
/// let mut watch = Watch::new("eth.*", Kind::Label, None);
/// while let Event::Item(it) = watch.next(&mut client, None)? {
///     println!("{}", it.line());
/// }
/// # Ok::<(), pengtawis::ClientError>(())
/// ```
#[derive(Debug)]
pub struct Watch {
    scope: String,
    opened: u64, // the connection in which it subscribed
    sub: u32,
    is_due: bool, // there may be more in the store
    is_anew: bool,
    at: Option<Cursor>,       // after the items at hand
    returned: Option<Cursor>, // after those that were returned
    items: OwnedItems,
}

impl Watch {
    /// Makes a watch of the names of some kinds that a pattern matches whole. With the cursor of an earlier watch it begins there.
    pub fn new(pattern: &str, kinds: impl Into<Kinds>, cursor: Option<Cursor>) -> Watch {
        let items = Items::default().into_iter();
        Watch { scope: scope(pattern, kinds.into()), opened: 0, sub: 0, is_due: false, is_anew: false, at: cursor, returned: cursor, items }
    }

    /// Returns the cursor up to which all items were returned.
    pub fn cursor(&self) -> Option<Cursor> {
        self.returned
    }

    /// Waits for the next event, of this client's daemon: [`ClientError::Timeout`] if there is none in time, [`ClientError::Lost`] if the
    /// daemon can't be reached in time. Another call may follow either. A request that the watch sends meanwhile may take the client's
    /// timeout.
    pub fn next(&mut self, client: &mut Client, timeout: Option<Duration>) -> Result<Event, ClientError> {
        let (end, mut pauses) = (end_of(timeout), Pauses::new());
        loop {
            if let Some(event) = self.take() {
                return Ok(event);
            }
            match self.renew(client).and_then(|()| self.advance(client, end)) {
                Ok(()) => pauses = Pauses::new(),
                Err(ClientError::Lost(_)) if !client.is_instance() && pauses.wait(end) => {}
                Err(other) => return Err(other),
            }
        }
    }

    /// Leaves the subscription, whose number the client may use again. Its notices aren't reported.
    pub fn close(&mut self, client: &mut Client) {
        if self.opened == client.opened() {
            client.leave(self.sub);
            self.opened = 0;
        }
    }

    /// Takes the next item at hand. After the last one, the cursor is that of all items returned.
    fn take(&mut self) -> Option<Event> {
        if std::mem::take(&mut self.is_anew) {
            return Some(Event::Anew);
        }
        let item = self.items.next();
        if item.is_none() {
            self.returned = self.at;
        }
        item.map(Event::Item)
    }

    /// Subscribes in a connection in which it hasn't yet. That comes before the items, so that each later change has a notice.
    fn renew(&mut self, client: &mut Client) -> Result<(), ClientError> {
        if client.is_lost() {
            client.reconnect()?;
        }
        if self.opened != client.opened() {
            self.sub = client.subscribe_to(&self.scope, "later")?;
            client.watched |= 1 << self.sub;
            self.opened = client.opened();
            self.is_due = true;
        }
        Ok(())
    }

    /// Fetches items if there may be some, or else waits for a notice.
    fn advance(&mut self, client: &mut Client, end: Option<Instant>) -> Result<(), ClientError> {
        client.sort()?;
        self.is_due |= client.noticed >> self.sub & 1 == 1;
        client.noticed &= !(1 << self.sub);
        if self.is_due {
            self.fetch(client)
        } else {
            client.wait(end)
        }
    }

    /// Fetches the items after the cursor, or a snapshot if the store doesn't have these.
    fn fetch(&mut self, client: &mut Client) -> Result<(), ClientError> {
        let found = self.at.map(|it| client.ask(&format!("since {} {} {} {MOST}", self.scope, it.incarnation, it.position)));
        match found {
            Some(Err(ClientError::Refused(Refusal::OldCursor | Refusal::Ahead | Refusal::Behind))) | None => {
                let answer = client.ask(&format!("snapshot {}", self.scope))?;
                self.keep(answer, true)
            }
            Some(answer) => self.keep(answer?, false),
        }
    }

    /// Keeps the items of an answer, whose last line is `WORD COUNT INCARNATION POSITION`.
    fn keep(&mut self, answer: String, is_snapshot: bool) -> Result<(), ClientError> {
        let last = answer.lines().last().unwrap_or("");
        let numbers: Vec<u64> = last.split(' ').skip(1).filter_map(|it| it.parse().ok()).collect();
        let (count, incarnation, position) = match numbers[..] {
            [count, incarnation, position] => (count, incarnation, position),
            _ => return Err(ClientError::Other(last.to_owned())),
        };
        self.at = Some(Cursor { incarnation, position });
        (self.is_anew, self.is_due) = (is_snapshot, !is_snapshot && count == MOST);
        self.items = Items::from(answer.into_bytes()).into_iter();
        Ok(())
    }
}
