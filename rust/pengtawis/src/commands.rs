//! The commands of a store: those that a [`Store`](crate::Store) and a [`Seat`](crate::Seat) have.

use crate::error::{Error, Refusal, Stopped};
use crate::ffi::{Answer, Given, Request, MAX_PIECE};
use crate::items::Items;
use crate::values::{Done, Endpoint, Kind, Merged, Owed, Scope, Value, Version};

pub(crate) const MOST: usize = 256; // items of one merge
pub(crate) const LONGEST_NAME: usize = 64;
pub(crate) const LONGEST_VALUE: usize = 1024;

/// Carries out requests, and has the text of the last answer.
pub trait Asks {
    /// Sends a request with its text.
    fn ask(&mut self, request: &Request, text: &[u8]) -> Result<Answer, Error>;

    /// Writes pieces of the last answer into room, from the piece `first` on, as many as fit.
    ///
    /// # Safety
    ///
    /// `length` bytes are there from `room` on.
    unsafe fn items(&mut self, first: usize, room: *mut u8, length: usize, given: &mut Given);

    /// Appends pieces of the last answer, from the piece `first` on, as many as fit into `room` bytes, and returns how many these are.
    fn pieces(&mut self, first: usize, room: usize, text: &mut Vec<u8>) -> Result<u64, Refusal> {
        let mut given = Given::default();
        text.try_reserve(room).map_err(|_| Refusal::NoRoom)?;
        let (end, left) = (text.spare_capacity_mut().as_mut_ptr().cast(), text.capacity() - text.len());
        // SAFETY: `left` bytes are there from `end` on.
        unsafe { self.items(first, end, left, &mut given) };
        // SAFETY: so many of these bytes are written.
        unsafe { text.set_len(text.len() + given.length as usize) };
        if given.count > 0 {
            return Ok(given.count);
        }
        Err(Refusal::NoRoom)
    }

    /// Fetches the only piece of the last answer, which has at most `longest` bytes.
    fn piece(&mut self, longest: usize) -> Result<Vec<u8>, Refusal> {
        let mut text = Vec::new();
        self.pieces(0, longest, &mut text)?;
        Ok(text)
    }
}

/// A [`Store`](crate::Store) or a [`Seat`](crate::Seat), into which a [`Publisher`](crate::Publisher) publishes.
pub trait Publishes: Asks {
    #[doc(hidden)]
    fn name_at(&mut self, endpoint: Endpoint) -> Result<String, Error>;
    #[doc(hidden)]
    fn items_under(&mut self, scope: Scope<'_>) -> Result<Items, Error>;
    #[doc(hidden)]
    fn put(&mut self, caller: Endpoint, name: &str, value: Value<'_>, version: Version, overwrite: bool) -> Result<Done, Error>;
    #[doc(hidden)]
    fn end(&mut self, caller: Endpoint, name: &str, kind: Kind, version: Version) -> Result<Done, Error>;
}

/// Writes the commands as functions of a type that implements [`Asks`].
macro_rules! commands {
    ($type:ident) => { const _: () = {
        use $crate::commands::{self, add, is_name, keyed, length_of, merged, named, of, stopped, LONGEST_NAME, MOST};
        use $crate::commands::{Asks, Found, Publishes};
        use $crate::error::{Error, Refusal};
        use $crate::ffi::{command, word, Answer, Request};
        use $crate::items::{Body, Item, Items};
        use $crate::shown::Shown;
        use $crate::values::{Cursor, Done, Endpoint, Kind, Kinds, Merged, Owed, Scope, Subscribed, Swept, Value, Version, RS};

        impl $type {
            /// Puts a value under a key, over a live entry only with `overwrite`. A name has 1 to 64 ASCII letters, digits, `.`, `_` and
            /// `-`.
            pub fn publish<'a>(
                &mut self, caller: Endpoint, name: &str, value: impl Into<Value<'a>>, version: impl Into<Version>, overwrite: bool,
            ) -> Result<Done, Error> {
                let (value, version) = (value.into(), version.into());
                let (number, slot, text) = value.parts();
                let request = of(command::PUBLISH, caller, version);
                let request = Request { value: number, value_slot: slot, overwrite: overwrite.into(), ..request };
                self.ask_done(keyed(request, name, value.kind())?, text)
            }

            /// Ends a live entry, and leaves a tombstone. When a driver dies, RS ends its label, and then [sweeps](Self::sweep) its
            /// entries.
            pub fn delete(&mut self, caller: Endpoint, name: &str, kind: Kind, version: impl Into<Version>) -> Result<Done, Error> {
                self.ask_done(keyed(of(command::DELETE, caller, version.into()), name, kind)?, &[])
            }

            /// Raises the floor of a dead owner, which drops the entries that it published up to this generation. Its label stays.
            pub fn sweep(&mut self, caller: Endpoint, owner: &str, generation: u32) -> Result<Swept, Error> {
                let request = Request { value: generation, ..of(command::SWEEP, caller, Version::default()) };
                let answer = self.sent(named(request, owner)?, &[])?;
                Ok(Swept { dropped: answer.count, owed: Owed(answer.owed) })
            }

            /// Publishes where a driver runs, as RS does at its start, over an earlier endpoint. The label's version is its generation,
            /// and 0.
            pub fn rs_started(&mut self, label: &str, endpoint: Endpoint) -> Result<Done, Error> {
                self.publish(RS, label, endpoint, (endpoint.generation, 0), true)
            }

            /// Ends what a dead driver left, as RS does: its label, and all that it published. A repeat does what a refusal left
            /// undone. [`NotFound`](Refusal::NotFound): the store never held the label. An [`Rs`](crate::Rs) does so by itself, and its
            /// store answers [`NotAllowed`](Refusal::NotAllowed).
            ///
            /// ```
            /// use pengtawis::{Endpoint, Publisher, Store};
            ///
            /// let mut store = Store::open(1)?;
            /// store.rs_started("eth0", Endpoint::new(3, 16))?;
            /// Publisher::open(&mut store, Endpoint::new(3, 16))?.publish(&mut store, "eth0.mtu", 1500, false)?;
            /// assert_eq!(store.rs_died("eth0")?.dropped, 1);
            /// # Ok::<(), pengtawis::Error>(())
            /// ```
            pub fn rs_died(&mut self, label: &str) -> Result<Swept, Error> {
                if !is_name(label) {
                    return Err(Error::NoRequest);
                }
                let items = self.snapshot(Some(Scope::new(&label.replace('.', "\\."), Kind::Label)))?.items()?;
                let held = items.iter().find_map(|it| match it {
                    Item::Change(it) => Some(it),
                    Item::Floor { .. } => None,
                });
                let held = held.ok_or(Error::Refused(Refusal::NotFound))?;
                let mut owed = Owed::default();
                if held.body != Body::Gone {
                    owed = self.delete(RS, label, Kind::Label, (held.version.epoch, 1))?.owed;
                }
                let mut swept = self.sweep(RS, label, held.version.epoch)?;
                swept.owed.add(&owed);
                Ok(swept)
            }

            /// Returns the value of a live entry. The type chooses the kind: an [`Endpoint`], a `u32`, a `String` or a `Vec<u8>`.
            pub fn retrieve<T: Found>(&mut self, name: &str) -> Result<T, Error> {
                let answer = self.sent(keyed(Request::new(command::RETRIEVE), name, T::KIND)?, &[])?;
                Ok(T::found(self, &answer)?)
            }

            /// Returns the least name whose live label holds the endpoint.
            pub fn name_of(&mut self, endpoint: Endpoint) -> Result<String, Error> {
                self.sent(of(command::NAMEOF, endpoint, Version::default()), &[])?;
                Ok(commands::text_of(self.piece(LONGEST_NAME)?)?)
            }

            /// Makes the subscription `sub`, 0 to 127, to a scope. With `initial` the first check shows what is held already. With
            /// `overwrite` it replaces the subscription of this number.
            pub fn subscribe(&mut self, sub: u32, scope: Scope<'_>, initial: bool, overwrite: bool) -> Result<Subscribed, Error> {
                let request = Request { sub, initial: initial.into(), overwrite: overwrite.into(), ..Request::new(command::SUBSCRIBE) };
                let answer = self.sent(Request { kinds: scope.kinds.0, ..request }, scope.pattern.as_bytes())?;
                Ok(Subscribed { stamp: answer.after, owed: Owed(answer.owed) })
            }

            /// Shows the first `most` items, 1 to 256, that the subscription wasn't shown yet. If it shows `most` items, there may be more.
            /// Floors are shown first, under every scope; then changes, by name.
            pub fn check(&mut self, sub: u32, most: u32) -> Result<Shown<'_, Self>, Error> {
                self.show(Request { sub, max: most, ..Request::new(command::CHECK) }, None)
            }

            /// Shows the first `most` items, 1 to 256, that took effect after a cursor, in that order. Floors are under every scope.
            /// Without a scope, shows all keys. If it shows `most` items, there may be more.
            pub fn since(&mut self, cursor: Cursor, scope: Option<Scope<'_>>, most: u32) -> Result<Shown<'_, Self>, Error> {
                let Cursor { incarnation, position } = cursor;
                self.show(Request { incarnation, position, max: most, ..Request::new(command::SINCE) }, scope)
            }

            /// Shows all that is held under a scope, tombstones too, and all floors. Without a scope, shows everything held.
            pub fn snapshot(&mut self, scope: Option<Scope<'_>>) -> Result<Shown<'_, Self>, Error> {
                self.show(Request::new(command::SNAPSHOT), scope)
            }

            /// Shows a part of what a snapshot shows: the first `most` changes, 1 to 256, past the key `after`. The first page has all
            /// floors, too.
            pub fn page(&mut self, after: Option<(&str, Kind)>, scope: Option<Scope<'_>>, most: u32) -> Result<Shown<'_, Self>, Error> {
                let mut request = Request { max: most, ..Request::new(command::PAGE) };
                if let Some((name, kind)) = after {
                    request = Request { behind: kind as u8, ..named(request, name)? };
                }
                self.show(request, scope)
            }

            /// Merges the items of other stores in order, 256 at a time, up to the first that is refused: [`Error::Stopped`]. If a line is
            /// malformed, none of its 256 items is done: [`Error::NoRequest`] among the first 256, and [`Error::BadItems`] after them.
            pub fn merge(&mut self, items: &Items) -> Result<Merged, Error> {
                let (text, mut total, mut at) = (items.text(), Merged::default(), 0);
                while at < text.len() {
                    let length = length_of(&text[at..], MOST);
                    let part = self.sent(Request { text_at: at as u64, text_length: length as u64, ..Request::new(command::MERGE) }, text);
                    match part {
                        Ok(answer) => add(&mut total, merged(&answer)),
                        Err(Error::Stopped(it)) => {
                            add(&mut total, Merged { done: it.done, owed: it.owed, ..Merged::default() });
                            return Err(stopped(total, it.refusal));
                        }
                        Err(Error::Refused(refusal)) if total.done > 0 => return Err(stopped(total, refusal)),
                        Err(Error::NoRequest) if total.done > 0 => return Err(Error::BadItems { done: total.done, owed: total.owed }),
                        Err(other) => return Err(other),
                    }
                    at += length;
                }
                Ok(total)
            }

            /// Sends a request. Its text is all of `text`, unless the request names a part.
            fn sent(&mut self, mut request: Request, text: &[u8]) -> Result<Answer, Error> {
                if request.text_length == 0 {
                    request.text_length = text.len() as u64;
                }
                self.ask(&request, text)
            }

            fn ask_done(&mut self, request: Request, text: &[u8]) -> Result<Done, Error> {
                let answer = self.sent(request, text)?;
                Ok(Done { changed: answer.word == word::CHANGED, owed: Owed(answer.owed) })
            }

            fn show(&mut self, request: Request, scope: Option<Scope<'_>>) -> Result<Shown<'_, Self>, Error> {
                let Scope { pattern, kinds } = scope.unwrap_or(Scope { pattern: "", kinds: Kinds(0) });
                let answer = self.sent(Request { under: scope.is_some().into(), kinds: kinds.0, ..request }, pattern.as_bytes())?;
                Ok(Shown::new(self, answer))
            }
        }

        impl Publishes for $type {
            fn name_at(&mut self, endpoint: Endpoint) -> Result<String, Error> {
                self.name_of(endpoint)
            }

            fn items_under(&mut self, scope: Scope<'_>) -> Result<Items, Error> {
                Ok(self.snapshot(Some(scope))?.items()?)
            }

            fn put(&mut self, caller: Endpoint, name: &str, value: Value<'_>, version: Version, overwrite: bool) -> Result<Done, Error> {
                self.publish(caller, name, value, version, overwrite)
            }

            fn end(&mut self, caller: Endpoint, name: &str, kind: Kind, version: Version) -> Result<Done, Error> {
                self.delete(caller, name, kind, version)
            }
        }
    }; };
}
pub(crate) use commands;

/// What an entry may hold, for [`Store::retrieve`](crate::Store::retrieve) and [`Map::get`](crate::Map::get).
pub trait Found: Sized + sealed::Sealed {
    #[doc(hidden)]
    const KIND: Kind;
    #[doc(hidden)]
    fn found<T: Asks>(store: &mut T, answer: &Answer) -> Result<Self, Refusal>;
    /// Returns the value of an answer whose text is in a buffer.
    #[doc(hidden)]
    fn of(answer: &Answer, text: &[u8]) -> Result<Self, Refusal>;
}

mod sealed {
    pub trait Sealed {}
    impl Sealed for crate::Endpoint {}
    impl Sealed for u32 {}
    impl Sealed for String {}
    impl Sealed for Vec<u8> {}
}

impl Found for Endpoint {
    const KIND: Kind = Kind::Label;
    fn found<T: Asks>(_: &mut T, answer: &Answer) -> Result<Endpoint, Refusal> {
        Endpoint::of(answer, &[])
    }

    fn of(answer: &Answer, _: &[u8]) -> Result<Endpoint, Refusal> {
        Ok(Endpoint { generation: answer.value, slot: answer.value_slot })
    }
}

impl Found for u32 {
    const KIND: Kind = Kind::U32;
    fn found<T: Asks>(_: &mut T, answer: &Answer) -> Result<u32, Refusal> {
        u32::of(answer, &[])
    }

    fn of(answer: &Answer, _: &[u8]) -> Result<u32, Refusal> {
        Ok(answer.value)
    }
}

impl Found for String {
    const KIND: Kind = Kind::Str;
    fn found<T: Asks>(store: &mut T, _: &Answer) -> Result<String, Refusal> {
        text_of(store.piece(LONGEST_VALUE)?)
    }

    fn of(answer: &Answer, text: &[u8]) -> Result<String, Refusal> {
        text_of(Vec::of(answer, text)?)
    }
}

impl Found for Vec<u8> {
    const KIND: Kind = Kind::Mem;
    fn found<T: Asks>(store: &mut T, answer: &Answer) -> Result<Vec<u8>, Refusal> {
        if answer.pieces == 0 {
            return Ok(Vec::new());
        }
        store.piece(LONGEST_VALUE)
    }

    fn of(_: &Answer, text: &[u8]) -> Result<Vec<u8>, Refusal> {
        let mut bytes = Vec::new();
        bytes.try_reserve(text.len()).map_err(|_| Refusal::NoRoom)?;
        bytes.extend_from_slice(text);
        Ok(bytes)
    }
}

/// Names and strings are ASCII.
pub(crate) fn text_of(bytes: Vec<u8>) -> Result<String, Refusal> {
    String::from_utf8(bytes).map_err(|_| Refusal::NoRoom)
}

pub(crate) fn is_name(text: &str) -> bool {
    (1..=LONGEST_NAME).contains(&text.len()) && text.bytes().all(|it| it.is_ascii_alphanumeric() || b"._-".contains(&it))
}

pub(crate) fn of(command: u32, caller: Endpoint, version: Version) -> Request {
    let (generation, slot) = (caller.generation, caller.slot);
    Request { generation, slot, epoch: version.epoch, seq: version.seq, ..Request::new(command) }
}

pub(crate) fn named(mut request: Request, name: &str) -> Result<Request, Error> {
    request.name.get_mut(..name.len()).ok_or(Error::NoRequest)?.copy_from_slice(name.as_bytes());
    request.name_length = name.len() as u8;
    Ok(request)
}

pub(crate) fn keyed(request: Request, name: &str, kind: Kind) -> Result<Request, Error> {
    named(Request { kinds: kind as u8, ..request }, name)
}

/// How many bytes the first lines have.
pub(crate) fn length_of(text: &[u8], lines: usize) -> usize {
    let mut ends = text.iter().enumerate().filter(|(_, it)| **it == b'\n');
    ends.nth(lines - 1).map_or(text.len(), |(at, _)| at + 1)
}

pub(crate) fn merged(answer: &Answer) -> Merged {
    Merged { done: answer.count, taken: answer.taken, stale: answer.stale, owed: Owed(answer.owed) }
}

pub(crate) fn add(total: &mut Merged, part: Merged) {
    total.done += part.done;
    total.taken += part.taken;
    total.stale += part.stale;
    total.owed.add(&part.owed);
}

pub(crate) fn stopped(total: Merged, refusal: Refusal) -> Error {
    Error::Stopped(Stopped { refusal, done: total.done, owed: total.owed })
}

const _: () = assert!(LONGEST_VALUE <= MAX_PIECE);
