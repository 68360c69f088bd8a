//! The side of a process that publishes into a store of this process, or at a seat.

use crate::commands::Publishes;
use crate::error::Error;
use crate::items::Item;
use crate::values::{Done, Endpoint, Kind, Scope, Value, Version};

/// Publishes the entries of a process, and counts their versions. Each version is greater than all earlier ones of the process.
///
/// The count begins after the greatest number that the store holds of this generation, so a later publisher of the same endpoint continues.
/// One at a time may publish under an endpoint. A refused call takes a number, too. The store may be a [`Store`](crate::Store) or a
/// [`Seat`](crate::Seat).
///
/// ```
/// use pengtawis::{Endpoint, Publisher, Store, Version};
///
/// let mut store = Store::open(1)?;
/// store.rs_started("eth0", Endpoint::new(3, 16))?;
/// let mut eth0 = Publisher::open(&mut store, Endpoint::new(3, 16))?;
/// eth0.publish(&mut store, "eth0.mtu", 1500, true)?;
/// eth0.publish(&mut store, "eth0.mtu", 9000, true)?;
/// assert_eq!(store.retrieve::<u32>("eth0.mtu")?, 9000);
/// assert_eq!(eth0.draw(), Version::new(3, 2));
/// # Ok::<(), pengtawis::Error>(())
/// ```
#[derive(Debug)]
pub struct Publisher {
    endpoint: Endpoint,
    number: u32,
}

impl Publisher {
    /// Begins after what the store holds of the process. [`NotFound`](crate::Refusal::NotFound): no live label has the endpoint.
    pub fn open(store: &mut impl Publishes, endpoint: Endpoint) -> Result<Publisher, Error> {
        let owner = store.name_at(endpoint)?;
        let items = store.items_under(Scope::new(".*", Kind::U32 | Kind::Str | Kind::Mem))?;
        let is_own = |epoch: u32, by: &str| epoch == endpoint.generation && by == owner;
        let numbers = items.iter().filter_map(|it| match it {
            Item::Change(it) if is_own(it.version.epoch, it.owner) => Some(it.version.seq),
            _ => None,
        });
        Ok(Publisher { endpoint, number: numbers.max().map_or(0, |it| it.saturating_add(1)) })
    }

    /// Puts a value under a key, over a live entry only with `overwrite`.
    pub fn publish<'a>(
        &mut self, store: &mut impl Publishes, name: &str, value: impl Into<Value<'a>>, overwrite: bool,
    ) -> Result<Done, Error> {
        store.put(self.endpoint, name, value.into(), self.draw(), overwrite)
    }

    /// Ends a live entry, and leaves a tombstone.
    pub fn delete(&mut self, store: &mut impl Publishes, name: &str, kind: Kind) -> Result<Done, Error> {
        store.end(self.endpoint, name, kind, self.draw())
    }

    /// Returns the next version, and counts it.
    pub fn draw(&mut self) -> Version {
        let drawn = Version::new(self.endpoint.generation, self.number);
        self.number = self.number.saturating_add(1);
        drawn
    }
}
