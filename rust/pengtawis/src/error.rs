//! Why a call did nothing, or not all of it.

use crate::ffi::{word, Answer};
use crate::values::{Owed, Version};
use std::fmt;

macro_rules! refusals {
    ($($name:ident $word:literal $number:literal $said:literal;)*) => {
        /// Why a call was refused: first by a store or a map, in the order in which a store judges; then by RS, of an event and of settings;
        /// then by a table; then at a desk.
        #[derive(Clone, Copy, Debug, PartialEq, Eq)]
        #[non_exhaustive]
        pub enum Refusal {
            $(#[doc = $said] $name,)*
            /// The version that it has is held already, with another value: that of the key, or of the change.
            Clash(Version),
        }

        impl Refusal {
            /// Returns the word by which a script and a dsfleet name the refusal.
            ///
            /// ```
            /// assert_eq!(pengtawis::Refusal::NotFound.word(), "notfound");
            /// ```
            pub fn word(&self) -> &'static str {
                match self {
                    $(Refusal::$name => $word,)*
                    Refusal::Clash(_) => "clash",
                }
            }

            pub(crate) fn numbered(number: u32, version: Version) -> Refusal {
                match number {
                    $($number => Refusal::$name,)*
                    11 => Refusal::Clash(version),
                    _ => Refusal::NoRoom,
                }
            }

            /// Returns the refusal of a word, if the word is known.
            pub(crate) fn worded(word: &str, version: Version) -> Option<Refusal> {
                match word {
                    $($word => Some(Refusal::$name),)*
                    "clash" => Some(Refusal::Clash(version)),
                    _ => None,
                }
            }

            fn said(&self) -> &'static str {
                match self {
                    $(Refusal::$name => $said,)*
                    Refusal::Clash(_) => "this version is held already, with another value",
                }
            }
        }
    };
}

refusals! {
    BadSub "badsub" 1 "subscriptions are numbered from 0 to 127";
    TooMany "toomany" 2 "a check, a page and a since show 1 to 256 items";
    TooLong "toolong" 3 "a pattern has at most 128 bytes";
    BadPattern "badpattern" 4 "the pattern is no regular expression of printable ASCII";
    BadKind "badkind" 5 "no kind is in the set";
    BadLabel "badlabel" 6 "a label's epoch is its generation, its number 0 for a put and 1 for an end; none is named rs";
    BadVersion "badversion" 7 "the epoch is the caller's generation, and the number is below 4294967295";
    NoCaller "nocaller" 8 "the caller's endpoint is neither a live label's nor that of RS";
    NotAllowed "notallowed" 9 "only RS publishes labels, deletes them and sweeps; an `Rs` does so by itself";
    NotOwner "notowner" 10 "the key belongs to another owner";
    Stale "stale" 12 "a greater version is held, or a floor of the owner made the change void";
    Exists "exists" 13 "the entry or the subscription exists, and the call doesn't overwrite";
    NotFound "notfound" 14 "there is no such live entry, endpoint or subscription";
    OldCursor "oldcursor" 15 "the cursor is of another incarnation: continue from a snapshot";
    Ahead "ahead" 16 "the cursor is past everything that the store accepted";
    Behind "behind" 17 "the journal doesn't reach back to the cursor: continue from a snapshot";
    Full "full" 18 "4096 keys are held, or floors of 64 owners";
    Worn "worn" 19 "the store's positions are used up, or the tick is above 2^62";
    NoRoom "noroom" 20 "out of memory, or the pattern compiles to too much";
    BadRing "badring" 21 "a journal keeps 1 to 4096 items";
    BadFirst "badfirst" 22 "the first position is at most 2^62, RS's first generation 1 to 2097152, and its slots 16 to 1023";
    TickBack "tickback" 25 "no event has a tick below that of the last event";
    UnknownLabel "unknownlabel" 26 "the settings have no service of this label";
    BadCause "badcause" 27 "a death's cause is 1 to 6";
    AlreadyUp "alreadyup" 28 "the service is up or waits";
    NotUp "notup" 29 "the service isn't in the state that the event needs: up, or waiting, or for a restart given up";
    OldEndpoint "oldendpoint" 30 "no running instance has this endpoint, or the request was last sent to another one";
    GenerationsSpent "generationsspent" 31 "RS has no generation left for a start";
    NoSlot "noslot" 32 "each process slot has an instance, or there were more slots";
    Toml "toml" 33 "the settings aren't TOML";
    UnknownField "unknownfield" 34 "the settings have an unknown field";
    Missing "missing" 35 "a service of the settings lacks a field";
    OutOfRange "outofrange" 36 "a value of the settings is of another type or out of range, or a server has a unit";
    TwoLabels "twolabels" 37 "two services have one label";
    TwoUnits "twounits" 38 "two services have one unit";
    SharedName "sharedname" 39 "a name is published by two services, or twice by one";
    Assigned "assigned" 40 "the unit has a driver already";
    TwoIds "twoids" 41 "the request's number isn't above all that were accepted";
    NoDevice "nodevice" 42 "the unit has no driver";
    NotPending "notpending" 43 "no such request waits for a reply";
    IsBusy "isbusy" 44 "another seat of the desk has the turn";
    NoSeat "noseat" 45 "the desk has no seat left";
    NoLines "nolines" 46 "the text isn't lines of items";
}

impl fmt::Display for Refusal {
    fn fmt(&self, to: &mut fmt::Formatter<'_>) -> fmt::Result {
        write!(to, "{}: {}", self.word(), self.said())
    }
}

impl std::error::Error for Refusal {}

/// Why a call did nothing, or not all of it.
#[derive(Clone, Copy, Debug, PartialEq, Eq)]
#[non_exhaustive]
pub enum Error {
    /// The call was refused. Nothing changed.
    Refused(Refusal),
    /// A merge, or a take of a map, stopped at an item that was refused. The items before it are done.
    Stopped(Stopped),
    /// A line of items past the first 256 of a merge is malformed. The first `done` items are done, and no item after them.
    BadItems {
        /// How many items are done: a multiple of 256. The malformed line is one of the next 256.
        done: u64,
        /// The subscriptions that are owed a notice by these items.
        owed: Owed,
    },
    /// A name, a value, a number or a line is malformed, too long or out of range, or the line isn't for one store. Nothing changed.
    NoRequest,
    /// The line can't be read from this byte on. Nothing changed.
    BadLine(u64),
}

/// What was done before an item was refused. That item and those after it may be given again later.
#[derive(Clone, Copy, Debug, PartialEq, Eq)]
pub struct Stopped {
    /// Why the next item was refused.
    pub refusal: Refusal,
    /// How many items are done.
    pub done: u64,
    /// The subscriptions that are owed a notice by these items.
    pub owed: Owed,
}

impl Error {
    /// Returns the refusal; `None` if the call itself was malformed.
    pub fn refusal(&self) -> Option<Refusal> {
        match self {
            Error::Refused(refusal) => Some(*refusal),
            Error::Stopped(stopped) => Some(stopped.refusal),
            Error::BadItems { .. } | Error::NoRequest | Error::BadLine(_) => None,
        }
    }

    /// Returns the error that an answer stands for, if any.
    pub(crate) fn of(answer: &Answer) -> Option<Error> {
        let refusal = || Refusal::numbered(answer.refusal, Version { epoch: answer.epoch, seq: answer.seq });
        match answer.word {
            word::NOREQUEST => Some(Error::NoRequest),
            word::BADLINE => Some(Error::BadLine(answer.count)),
            word::STOPPED => Some(Error::Stopped(Stopped { refusal: refusal(), done: answer.count, owed: Owed(answer.owed) })),
            _ if answer.refusal > 0 => Some(Error::Refused(refusal())),
            _ => None,
        }
    }
}

impl From<Refusal> for Error {
    fn from(refusal: Refusal) -> Error {
        Error::Refused(refusal)
    }
}

impl fmt::Display for Error {
    fn fmt(&self, to: &mut fmt::Formatter<'_>) -> fmt::Result {
        match self {
            Error::Refused(refusal) => refusal.fmt(to),
            Error::Stopped(it) => write!(to, "{}; {} items before it are done", it.refusal, it.done),
            Error::BadItems { done, .. } => write!(to, "a line of items is malformed; the first {} items are done", done),
            Error::NoRequest => {
                to.write_str("a name, a value, a number or a line is malformed or out of range, or the line isn't for one store")
            }
            Error::BadLine(byte) => write!(to, "the line can't be read from byte {} on", byte),
        }
    }
}

impl std::error::Error for Error {}

/// Why a call of a [`Client`](crate::Client) did nothing.
#[derive(Debug)]
#[non_exhaustive]
pub enum ClientError {
    /// The daemon refused the call. Nothing changed.
    Refused(Refusal),
    /// The connection acts under another endpoint.
    NotSender,
    /// The daemon can't read the line.
    BadLine,
    /// The daemon doesn't know the line, or not from this client.
    NoRequest,
    /// A refusal of a newer daemon, by its word.
    Other(String),
    /// The time is over. A later answer is dropped, so the next call gets its own.
    Timeout,
    /// There is no connection.
    Lost(std::io::Error),
    /// A line with a newline, or no endpoint to publish under. Nothing was sent.
    BadCall,
}

impl ClientError {
    /// Returns the daemon's word, or `timeout`, `lost` or `badcall`.
    pub fn word(&self) -> &str {
        match self {
            ClientError::Refused(refusal) => refusal.word(),
            ClientError::NotSender => "notsender",
            ClientError::BadLine => "badline",
            ClientError::NoRequest => "norequest",
            ClientError::Other(word) => word,
            ClientError::Timeout => "timeout",
            ClientError::Lost(_) => "lost",
            ClientError::BadCall => "badcall",
        }
    }
}

impl From<Refusal> for ClientError {
    fn from(refusal: Refusal) -> ClientError {
        ClientError::Refused(refusal)
    }
}

impl fmt::Display for ClientError {
    fn fmt(&self, to: &mut fmt::Formatter<'_>) -> fmt::Result {
        match self {
            ClientError::Refused(refusal) => refusal.fmt(to),
            ClientError::Lost(why) => write!(to, "lost: {why}"),
            other => to.write_str(other.word()),
        }
    }
}

impl std::error::Error for ClientError {}
