//! The items of an answer: their lines, and what they say.

use crate::values::{Endpoint, Kind, Version};
use std::borrow::Cow;
use std::slice::Split;

/// The lines of items, as a store returns them. [`Store::merge`](crate::Store::merge) and [`Map::take`](crate::Map::take) take them
/// unchanged.
///
/// ```
/// use pengtawis::{Body, Endpoint, Item, Items};
///
/// let items = Items::from(b"! tty 1\neth0 label rs 3.0 = 3/16\n".to_vec());
/// assert_eq!(items.len(), 2);
/// match items.iter().last() {
///     Some(Item::Change(it)) => assert_eq!(it.body, Body::Label(Endpoint::new(3, 16))),
///     other => panic!("{other:?}"),
/// }
/// ```
#[derive(Clone, Debug, Default, PartialEq, Eq)]
pub struct Items {
    text: Vec<u8>,
}

impl Items {
    /// The lines, each with its newline.
    pub fn text(&self) -> &[u8] {
        &self.text
    }

    pub fn into_text(self) -> Vec<u8> {
        self.text
    }

    pub fn len(&self) -> usize {
        self.text.iter().filter(|it| **it == b'\n').count()
    }

    pub fn is_empty(&self) -> bool {
        self.text.is_empty()
    }

    /// Returns the items. A line that isn't an item's is skipped; a store returns no such line.
    pub fn iter(&self) -> ItemsIter<'_> {
        ItemsIter { lines: self.text.split(|it| *it == b'\n') }
    }
}

impl<'items> IntoIterator for &'items Items {
    type Item = Item<'items>;
    type IntoIter = ItemsIter<'items>;

    fn into_iter(self) -> ItemsIter<'items> {
        self.iter()
    }
}

impl IntoIterator for Items {
    type Item = OwnedItem;
    type IntoIter = OwnedItems;

    fn into_iter(self) -> OwnedItems {
        OwnedItems { at: 0, text: self.text }
    }
}

/// An item that has its own line. Iterating over [`Items`] by value returns it.
///
/// ```
/// use pengtawis::{Item, Items};
///
/// for it in Items::from(b"! tty 1\n".to_vec()) {
///     assert_eq!(it.item(), Item::Floor { owner: "tty", generation: 1 });
/// }
/// ```
#[derive(Clone, Debug, PartialEq, Eq)]
pub struct OwnedItem {
    line: String,
}

impl OwnedItem {
    /// Returns what the item says.
    pub fn item(&self) -> Item<'_> {
        Item::read(&self.line).unwrap_or(Item::Floor { owner: "", generation: 0 }) // an item's line was read when it was made
    }

    /// Returns its line, without the newline.
    pub fn line(&self) -> &str {
        &self.line
    }
}

/// Iterates over the items of [`Items`] by value, in order. A line that isn't an item's is skipped, as by [`Items::iter`].
#[derive(Clone, Debug)]
pub struct OwnedItems {
    text: Vec<u8>,
    at: usize,
}

impl Iterator for OwnedItems {
    type Item = OwnedItem;

    fn next(&mut self) -> Option<OwnedItem> {
        while self.at < self.text.len() {
            let rest = &self.text[self.at..];
            let line = rest.split(|it| *it == b'\n').next().unwrap_or(rest);
            self.at += line.len() + 1;
            match std::str::from_utf8(line) {
                Ok(it) if Item::read(it).is_some() => return Some(OwnedItem { line: it.to_owned() }),
                _ => {}
            }
        }
        None
    }
}

/// Iterates over the items of [`Items`], in order.
#[derive(Clone, Debug)]
pub struct ItemsIter<'items> {
    lines: Split<'items, u8, fn(&u8) -> bool>,
}

impl<'items> Iterator for ItemsIter<'items> {
    type Item = Item<'items>;

    fn next(&mut self) -> Option<Item<'items>> {
        self.lines.find_map(|it| Item::read(std::str::from_utf8(it).ok()?))
    }
}

/// Keeps the lines, each with its newline, unchecked: the store or map that takes them reads them, and may refuse them.
impl From<Vec<u8>> for Items {
    fn from(text: Vec<u8>) -> Items {
        Items { text }
    }
}

/// What an item says.
#[derive(Clone, Debug, PartialEq, Eq)]
pub enum Item<'a> {
    Change(Change<'a>),
    /// What the owner published up to this generation is void. It is shown under every scope, in place of what was dropped.
    Floor { owner: &'a str, generation: u32 },
}

/// What became of a key.
#[derive(Clone, Debug, PartialEq, Eq)]
pub struct Change<'a> {
    pub name: &'a str,
    pub kind: Kind,
    pub owner: &'a str,
    pub version: Version,
    pub body: Body<'a>,
}

/// The value of a change. A string is borrowed from the line, unless it has a quote or a backslash.
#[derive(Clone, Debug, PartialEq, Eq)]
pub enum Body<'a> {
    /// The entry was deleted.
    Gone,
    Label(Endpoint),
    U32(u32),
    Str(Cow<'a, str>),
    Mem(Vec<u8>),
}

impl<'a> Item<'a> {
    /// Reads a line without its newline. `None` if it isn't an item's line.
    pub fn read(line: &'a str) -> Option<Item<'a>> {
        if let Some(rest) = line.strip_prefix("! ") {
            let (owner, generation) = rest.split_once(' ')?;
            return Some(Item::Floor { owner, generation: generation.parse().ok()? });
        }
        let mut words = line.splitn(5, ' ');
        let (name, kind, owner) = (words.next()?, kind_of(words.next()?)?, words.next()?);
        let (epoch, seq) = words.next()?.split_once('.')?;
        let version = Version { epoch: epoch.parse().ok()?, seq: seq.parse().ok()? };
        let rest = words.next()?;
        let body = if rest == "-" { Body::Gone } else { body_of(kind, rest.strip_prefix("= ")?)? };
        Some(Item::Change(Change { name, kind, owner, version, body }))
    }
}

fn kind_of(word: &str) -> Option<Kind> {
    match word {
        "label" => Some(Kind::Label),
        "u32" => Some(Kind::U32),
        "str" => Some(Kind::Str),
        "mem" => Some(Kind::Mem),
        _ => None,
    }
}

pub(crate) fn body_of(kind: Kind, text: &str) -> Option<Body<'_>> {
    match kind {
        Kind::Label => {
            let (generation, slot) = text.split_once('/')?;
            Some(Body::Label(Endpoint { generation: generation.parse().ok()?, slot: slot.parse().ok()? }))
        }
        Kind::U32 => Some(Body::U32(text.parse().ok()?)),
        Kind::Str => Some(Body::Str(unquoted(text.strip_prefix('"')?.strip_suffix('"')?))),
        Kind::Mem => bytes_of(text.as_bytes()).map(Body::Mem),
    }
}

/// Removes the backslash before each quote and each backslash.
fn unquoted(text: &str) -> Cow<'_, str> {
    if !text.contains('\\') {
        return Cow::Borrowed(text);
    }
    let (mut plain, mut is_escaped) = (String::with_capacity(text.len()), false);
    for it in text.chars() {
        is_escaped = it == '\\' && !is_escaped;
        if !is_escaped {
            plain.push(it);
        }
    }
    Cow::Owned(plain)
}

fn bytes_of(digits: &[u8]) -> Option<Vec<u8>> {
    let number = |it: u8| (it as char).to_digit(16);
    let pair = |it: &[u8]| Some((number(it[0])? << 4 | number(*it.get(1)?)?) as u8);
    digits.chunks(2).map(pair).collect()
}
