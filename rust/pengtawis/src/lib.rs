//! Pengtawis: where drivers are that crash and restart. `docs/guide/rust.md` is its page.
//!
//! A [`Store`], an [`Rs`] beside one, a [`Map`] and a [`Table`] are in this process, and a store that threads share is at a [`Desk`]. They
//! are over the library for C, which is proved; this crate around it is tested. Every refusal is a variant of [`Refusal`]. No call panics.
//! A [`Client`] sends lines to a dsfleet or a dsrs, and an [`Instance`] is the side of a process that dsrs started.
//!
//! If memory runs out, a call of a `Store`, an `Rs`, a `Map`, a `Table` or a `Seat` is refused as [`Refusal::NoRoom`], and you can repeat
//! it. Keep the [`Shown`] of a check until [`items`](Shown::items) succeeded; dropping it loses its items. Iterating over [`Items`]
//! allocates by the standard library, which aborts the program if memory runs out.

#![doc(test(attr(deny(unused_must_use))))] // an example that drops an answer fails

mod client;
mod commands;
mod desk;
mod error;
mod ffi;
mod instance;
mod items;
#[cfg(test)]
mod layout;
mod map;
mod publisher;
mod rs;
mod shown;
mod sockets;
mod store;
mod table;
mod values;
mod watch;

pub use client::Client;
pub use commands::{Found, Publishes};
pub use desk::{Desk, Seat};
pub use error::{ClientError, Error, Refusal, Stopped};
pub use instance::Instance;
pub use items::{Body, Change, Item, Items, ItemsIter, OwnedItem, OwnedItems};
pub use map::{Entries, Entry, Map};
pub use publisher::Publisher;
pub use rs::{Acted, Action, Cause, Rs, Service, SettingsFault, State};
pub use shown::Shown;
pub use store::Store;
pub use table::{Class, Move, Moves, Server, Table};
pub use values::{Cursor, Done, Endpoint, Kind, Kinds, Merged, NoEndpoint, Notices, Owed, Scope, Subscribed, Swept, Value, Version, RS};
pub use watch::{Event, Watch};

/// The examples of the guide.
#[cfg(doctest)]
#[doc = include_str!("../../../docs/guide/rust.md")]
struct Guide;

/// The version of the library for C that this program runs with.
///
/// ```
/// assert_eq!(pengtawis::library_version(), env!("CARGO_PKG_VERSION"));
/// ```
pub fn library_version() -> &'static str {
    // SAFETY: it is a static text with a zero at its end.
    unsafe { std::ffi::CStr::from_ptr(ffi::ds_version()) }.to_str().unwrap_or("")
}
