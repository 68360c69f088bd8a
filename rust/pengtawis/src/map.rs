//! A subscriber's map in this process.

use crate::commands::{merged, Found, LONGEST_VALUE};
use crate::error::{Error, Refusal};
use crate::ffi::{self, Answer, Given, Handle, MapKey};
use crate::items::{Body, Items};
use crate::values::{Endpoint, Kind, Kinds, Merged, Version};
use std::borrow::Cow;

/// Follows stores, whose items may come late, twice or out of order. It never returns an older generation than it did before.
///
/// ```
/// use pengtawis::{Endpoint, Items, Kind, Map};
///
/// let mut drivers = Map::new("eth.*", Kind::Label)?;
/// drivers.take(&Items::from(b"eth0 label rs 4.0 = 4/16\neth0 label rs 3.0 = 3/16\n".to_vec()))?;
/// assert_eq!(drivers.label("eth0")?, Endpoint::new(4, 16));
/// assert_eq!(drivers.iter().map(|it| it.name).collect::<Vec<_>>(), ["eth0"]);
/// # Ok::<(), pengtawis::Error>(())
/// ```
#[derive(Debug)]
pub struct Map {
    handle: Handle,
}

// SAFETY: the handle of a map may go to another thread, by the law `handles_cross` of the crate ds_c.
unsafe impl Send for Map {}

impl Map {
    /// Makes an empty map for names of some kinds that a pattern matches whole.
    pub fn new(pattern: &str, kinds: impl Into<Kinds>) -> Result<Map, Refusal> {
        let mut handle = std::ptr::null_mut();
        // SAFETY: the handle begins as null, and the length is the pattern's.
        match unsafe { ffi::ds_map_new(&mut handle, kinds.into().0, pattern.as_ptr(), pattern.len()) } {
            0 => Ok(Map { handle }),
            number => Err(Refusal::numbered(number, Version::default())),
        }
    }

    /// The handle, which is open.
    pub(crate) fn handle(&mut self) -> *mut Handle {
        &mut self.handle
    }

    /// Takes items in order, up to the first that is refused. That one and those after it may be taken again later.
    pub fn take(&mut self, items: &Items) -> Result<Merged, Error> {
        let (mut answer, text) = (Answer::default(), items.text());
        // SAFETY: the handle is open, and the length is the text's.
        unsafe { ffi::ds_map_take(&mut self.handle, text.as_ptr(), text.len(), &mut answer) };
        Error::of(&answer).map_or_else(|| Ok(merged(&answer)), Err)
    }

    /// Returns where the label is now, or [`NotFound`](crate::Refusal::NotFound).
    pub fn label(&mut self, name: &str) -> Result<Endpoint, Error> {
        let mut answer = Answer::default();
        // SAFETY: the handle is open, and the length is the name's.
        unsafe { ffi::ds_map_label(&mut self.handle, name.as_ptr(), name.len(), &mut answer) };
        Error::of(&answer).map_or(Ok(Endpoint { generation: answer.value, slot: answer.value_slot }), Err)
    }

    /// Returns the value of a live entry, or [`NotFound`](crate::Refusal::NotFound). The type chooses the kind: an [`Endpoint`], a `u32`, a
    /// `String` or a `Vec<u8>`.
    ///
    /// ```
    /// use pengtawis::{Items, Kind, Map};
    ///
    /// let mut driver = Map::new("eth0.*", Kind::Label | Kind::U32)?;
    /// driver.take(&Items::from(b"eth0.mtu u32 eth0 4.0 = 1500\n".to_vec()))?;
    /// assert_eq!(driver.get::<u32>("eth0.mtu")?, 1500);
    /// # Ok::<(), pengtawis::Error>(())
    /// ```
    pub fn get<T: Found>(&mut self, name: &str) -> Result<T, Error> {
        let mut room = [0; LONGEST_VALUE];
        let (answer, length) = self.value(T::KIND as u8, name.as_bytes(), &mut room)?;
        Ok(T::of(&answer, &room[..length])?)
    }

    /// Iterates over the live entries, by name.
    pub fn iter(&mut self) -> Entries<'_> {
        Entries { map: self, key: MapKey::FIRST }
    }

    /// Finds a value, and returns the answer, and how many bytes of the room are the value's.
    fn value(&mut self, kind: u8, name: &[u8], room: &mut [u8; LONGEST_VALUE]) -> Result<(Answer, usize), Error> {
        let (mut answer, mut given) = (Answer::default(), Given::default());
        let (place, length) = (room.as_mut_ptr(), room.len());
        // SAFETY: the handle is open, and the lengths are those of the name and the room.
        unsafe { ffi::ds_map_value(&mut self.handle, kind, name.as_ptr(), name.len(), &mut answer, place, length, &mut given) };
        Error::of(&answer).map_or(Ok((answer, given.length as usize)), Err)
    }
}

/// A live entry of a map.
#[derive(Clone, Debug, PartialEq, Eq)]
pub struct Entry {
    pub name: String,
    /// Its value: never [`Body::Gone`].
    pub body: Body<'static>,
}

/// Iterates over the live entries of a [`Map`], by name.
#[derive(Debug)]
pub struct Entries<'map> {
    map: &'map mut Map,
    key: MapKey,
}

impl Iterator for Entries<'_> {
    type Item = Entry;

    fn next(&mut self) -> Option<Entry> {
        // SAFETY: the handle is open.
        if unsafe { ffi::ds_map_next(&mut self.map.handle, &mut self.key) } != 0 {
            return None;
        }
        let (mut room, name) = ([0; LONGEST_VALUE], &self.key.name[..self.key.name_length.into()]);
        let (answer, length) = self.map.value(self.key.kind, name, &mut room).ok()?;
        let (name, bytes) = (String::from_utf8_lossy(name).into_owned(), &room[..length]);
        let body = match self.key.kind {
            it if it == Kind::Label as u8 => Body::Label(Endpoint { generation: answer.value, slot: answer.value_slot }),
            it if it == Kind::U32 as u8 => Body::U32(answer.value),
            it if it == Kind::Str as u8 => Body::Str(Cow::Owned(String::from_utf8_lossy(bytes).into_owned())),
            _ => Body::Mem(bytes.to_vec()),
        };
        Some(Entry { name, body })
    }
}

impl Drop for Map {
    fn drop(&mut self) {
        // SAFETY: the handle is open, and isn't used again.
        unsafe { ffi::ds_map_close(&mut self.handle) };
    }
}
