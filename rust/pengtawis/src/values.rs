//! What a store holds and answers, except items.

use std::fmt;
use std::ops::BitOr;
use std::str::FromStr;

/// Names a process by its generation, at most 2097151, and its process slot, at most 1023.
#[derive(Clone, Copy, Debug, PartialEq, Eq, PartialOrd, Ord, Hash)]
pub struct Endpoint {
    pub generation: u32,
    pub slot: u16,
}

const MAX_GENERATION: u32 = 2_097_151;
const MAX_SLOT: u16 = 1023;

/// The reincarnation server, which publishes labels and sweeps.
pub const RS: Endpoint = Endpoint::new(0, 2);

impl Endpoint {
    pub const fn new(generation: u32, slot: u16) -> Endpoint {
        Endpoint { generation, slot }
    }
}

impl fmt::Display for Endpoint {
    fn fmt(&self, to: &mut fmt::Formatter<'_>) -> fmt::Result {
        write!(to, "{}/{}", self.generation, self.slot)
    }
}

/// A text isn't an endpoint.
#[derive(Clone, Copy, Debug, PartialEq, Eq)]
pub struct NoEndpoint;

impl fmt::Display for NoEndpoint {
    fn fmt(&self, to: &mut fmt::Formatter<'_>) -> fmt::Result {
        to.write_str("an endpoint is GENERATION/SLOT, at most 2097151/1023")
    }
}

impl std::error::Error for NoEndpoint {}

/// Reads an endpoint as it is displayed, and as a service has it in DS_ENDPOINT.
///
/// ```
/// assert_eq!("3/16".parse(), Ok(pengtawis::Endpoint::new(3, 16)));
/// assert!("3/1024".parse::<pengtawis::Endpoint>().is_err());
/// ```
impl FromStr for Endpoint {
    type Err = NoEndpoint;

    fn from_str(text: &str) -> Result<Endpoint, NoEndpoint> {
        let (generation, slot) = text.split_once('/').ok_or(NoEndpoint)?;
        let it = Endpoint { generation: generation.parse().map_err(|_| NoEndpoint)?, slot: slot.parse().map_err(|_| NoEndpoint)? };
        // Rust reads `+3` and `03` as numbers, too.
        if it.generation > MAX_GENERATION || it.slot > MAX_SLOT || it.to_string() != text {
            return Err(NoEndpoint);
        }
        Ok(it)
    }
}

/// An owner's generation, and a number that it counts. A label's is the generation of its endpoint, and 0, or 1 for its deletion.
#[derive(Clone, Copy, Debug, Default, PartialEq, Eq, PartialOrd, Ord, Hash)]
pub struct Version {
    pub epoch: u32,
    pub seq: u32,
}

impl Version {
    pub const fn new(epoch: u32, seq: u32) -> Version {
        Version { epoch, seq }
    }
}

/// `(3, 0)` is version 3.0.
impl From<(u32, u32)> for Version {
    fn from((epoch, seq): (u32, u32)) -> Version {
        Version { epoch, seq }
    }
}

impl fmt::Display for Version {
    fn fmt(&self, to: &mut fmt::Formatter<'_>) -> fmt::Result {
        write!(to, "{}.{}", self.epoch, self.seq)
    }
}

/// A place in the journal of one run of a store.
#[derive(Clone, Copy, Debug, PartialEq, Eq, Hash)]
pub struct Cursor {
    pub incarnation: u64,
    pub position: u64,
}

/// The kind of a key, which is that of its values.
#[derive(Clone, Copy, Debug, PartialEq, Eq, PartialOrd, Ord, Hash)]
pub enum Kind {
    Label = 1,
    U32 = 2,
    Str = 4,
    Mem = 8,
}

/// A set of kinds: `Kind::Label | Kind::U32`.
#[derive(Clone, Copy, Debug, PartialEq, Eq, Hash)]
pub struct Kinds(pub(crate) u8);

impl Kinds {
    pub const ALL: Kinds = Kinds(15);
    /// The empty set, to which kinds may be added. A map of no kind is refused as [`BadKind`](crate::Refusal::BadKind).
    pub const NONE: Kinds = Kinds(0);
}

impl From<Kind> for Kinds {
    fn from(kind: Kind) -> Kinds {
        Kinds(kind as u8)
    }
}

impl<K: Into<Kinds>> BitOr<K> for Kind {
    type Output = Kinds;

    fn bitor(self, other: K) -> Kinds {
        Kinds::from(self) | other
    }
}

impl<K: Into<Kinds>> BitOr<K> for Kinds {
    type Output = Kinds;

    fn bitor(self, other: K) -> Kinds {
        Kinds(self.0 | other.into().0)
    }
}

/// A value to be published. A string has at most 256 printable bytes of ASCII, memory at most 1024 bytes.
#[derive(Clone, Copy, Debug, PartialEq, Eq)]
pub enum Value<'a> {
    Label(Endpoint),
    U32(u32),
    Str(&'a str),
    Mem(&'a [u8]),
}

impl Value<'_> {
    pub fn kind(&self) -> Kind {
        match self {
            Value::Label(_) => Kind::Label,
            Value::U32(_) => Kind::U32,
            Value::Str(_) => Kind::Str,
            Value::Mem(_) => Kind::Mem,
        }
    }

    /// Returns the number, the slot and the text of a value. A kind has one or two of them; the others are zero or empty.
    pub(crate) fn parts(&self) -> (u32, u16, &[u8]) {
        match self {
            Value::Label(at) => (at.generation, at.slot, &[]),
            Value::U32(number) => (*number, 0, &[]),
            Value::Str(text) => (0, 0, text.as_bytes()),
            Value::Mem(bytes) => (0, 0, bytes),
        }
    }
}

impl From<Endpoint> for Value<'_> {
    fn from(at: Endpoint) -> Self {
        Value::Label(at)
    }
}

impl From<u32> for Value<'_> {
    fn from(number: u32) -> Self {
        Value::U32(number)
    }
}

impl<'a> From<&'a str> for Value<'a> {
    fn from(text: &'a str) -> Self {
        Value::Str(text)
    }
}

impl<'a> From<&'a String> for Value<'a> {
    fn from(text: &'a String) -> Self {
        Value::Str(text)
    }
}

impl<'a> From<&'a Vec<u8>> for Value<'a> {
    fn from(bytes: &'a Vec<u8>) -> Self {
        Value::Mem(bytes)
    }
}

impl<'a> From<&'a [u8]> for Value<'a> {
    fn from(bytes: &'a [u8]) -> Self {
        Value::Mem(bytes)
    }
}

impl<'a, const LENGTH: usize> From<&'a [u8; LENGTH]> for Value<'a> {
    fn from(bytes: &'a [u8; LENGTH]) -> Self {
        Value::Mem(bytes)
    }
}

/// The keys that a pattern matches whole, of some kinds.
#[derive(Clone, Copy, Debug, PartialEq, Eq)]
pub struct Scope<'a> {
    pub(crate) pattern: &'a str,
    pub(crate) kinds: Kinds,
}

impl<'a> Scope<'a> {
    pub fn new(pattern: &'a str, kinds: impl Into<Kinds>) -> Scope<'a> {
        Scope { pattern, kinds: kinds.into() }
    }
}

/// The subscriptions that are owed a notice. `{:?}` shows their numbers.
#[derive(Clone, Copy, Default, PartialEq, Eq)]
pub struct Owed(pub(crate) [u8; 16]);

impl fmt::Debug for Owed {
    fn fmt(&self, to: &mut fmt::Formatter<'_>) -> fmt::Result {
        to.debug_set().entries(self.iter()).finish()
    }
}

impl Owed {
    pub fn contains(&self, sub: u32) -> bool {
        self.0.get(sub as usize / 8).map_or(false, |it| it >> (sub % 8) & 1 == 1)
    }

    pub fn is_empty(&self) -> bool {
        self.0 == [0; 16]
    }

    /// Returns the numbers of these subscriptions, in ascending order.
    pub fn iter(&self) -> impl Iterator<Item = u32> + '_ {
        (0..128).filter(|it| self.contains(*it))
    }

    /// Adds the subscriptions of another answer.
    pub fn add(&mut self, other: &Owed) {
        self.0.iter_mut().zip(other.0).for_each(|(mine, more)| *mine |= more);
    }
}

/// The notices that a server took at a seat.
#[derive(Clone, Copy, Debug, PartialEq, Eq)]
pub struct Notices {
    /// The subscriptions whose notices were pending.
    pub owed: Owed,
    /// Each of these notices is owed by a call whose place is below the floor.
    pub floor: u64,
}

/// The answer that a change is held. `changed` is false if it was held already.
#[derive(Clone, Copy, Debug, PartialEq, Eq)]
pub struct Done {
    pub changed: bool,
    pub owed: Owed,
}

/// How many live entries a sweep dropped.
#[derive(Clone, Copy, Debug, PartialEq, Eq)]
pub struct Swept {
    pub dropped: u64,
    pub owed: Owed,
}

/// The stamp of a subscription, a number that rises with each subscription and each check that shows something.
#[derive(Clone, Copy, Debug, PartialEq, Eq)]
pub struct Subscribed {
    pub stamp: u64,
    pub owed: Owed,
}

/// How many items were done, and how many of these took effect or were stale. The others were held already, or aren't under a map's query.
#[derive(Clone, Copy, Debug, Default, PartialEq, Eq)]
pub struct Merged {
    pub done: u64,
    pub taken: u64,
    pub stale: u64,
    pub owed: Owed,
}
