//! A client of a dsrs or a dsfleet.

use crate::error::{ClientError, Refusal};
use crate::items::{body_of, Body, Items};
use crate::sockets;
use crate::values::{Endpoint, Kind, Kinds, Value, Version};
use std::fmt::Write as _;
use std::io::{self, Read, Write};
use std::os::unix::io::{AsRawFd, RawFd};
use std::os::unix::net::UnixStream;
use std::path::{Path, PathBuf};
use std::thread;
use std::time::{Duration, Instant};

const PIECE: usize = 1 << 16; // bytes that are received at a time
const MOST: u32 = 256; // items of a check
const PUBLIC: std::ops::Range<u32> = 120..128; // the subscriptions that dsrs has for its clients
const SUBS: u32 = 8; // those that it has for a server
const LEAST_PAUSE: Duration = Duration::from_millis(1);
const MOST_PAUSE: Duration = Duration::from_millis(32);
const SOONEST: Duration = Duration::from_millis(1); // a timeout that is over, since a socket's can't be 0

/// Sends lines to a dsfleet or a dsrs over one connection. `docs/reference/client.md` describes the calls.
///
/// A call that takes longer than the timeout is [`ClientError::Timeout`]; later calls still get their own answers.
/// [`ClientError::Lost`] means that there is no connection: [`reconnect`](Client::reconnect). A [`connect`](Client::connect) and a
/// [`Watch`](crate::Watch) do so themselves.
///
/// ```no_run
/// use pengtawis::{Client, Kind};
/// use std::time::Duration;
///
/// let mut client = Client::open("/run/dsrs/socket", Some(Duration::from_secs(5)))?;
/// println!("{:?}", client.retrieve("echo", Kind::Label)?);
/// # Ok::<(), pengtawis::ClientError>(())
/// ```
#[derive(Debug)]
pub struct Client {
    path: PathBuf,
    timeout: Option<Duration>,
    socket: Option<UnixStream>,
    opened: u64, // how many connections there were, this one included
    is_instance: bool,
    first_sub: Option<u32>, // of an instance: the first of its own subscriptions
    endpoint: Option<Endpoint>,
    number: u32, // of the next change
    inbox: Vec<u8>,
    searched: usize, // bytes at the front of the inbox that have no end of an answer
    awaits: bool,
    late: usize,  // answers that nobody waits for, before the awaited one
    later: usize, // and after it
    pub(crate) noticed: u128,
    used: u128,               // the subscriptions of this connection
    pub(crate) watched: u128, // those of watches
}

/// The time at which a timeout is over.
pub(crate) fn end_of(timeout: Option<Duration>) -> Option<Instant> {
    timeout.and_then(|it| Instant::now().checked_add(it))
}

pub(crate) fn is_over(end: Option<Instant>) -> bool {
    end.map_or(false, |it| Instant::now() >= it)
}

/// Pauses between two attempts, longer each time.
#[derive(Debug)]
pub(crate) struct Pauses(Duration);

impl Pauses {
    pub(crate) fn new() -> Pauses {
        Pauses(LEAST_PAUSE)
    }

    /// Returns false once the time is over.
    pub(crate) fn wait(&mut self, end: Option<Instant>) -> bool {
        if is_over(end) {
            return false;
        }
        thread::sleep(self.0);
        self.0 = MOST_PAUSE.min(self.0 * 2);
        true
    }
}

/// A pattern and kinds as a line has them.
pub(crate) fn scope(pattern: &str, kinds: Kinds) -> String {
    format!("{} {}", quoted(pattern), kinds.0)
}

fn quoted(text: &str) -> String {
    format!("\"{}\"", text.replace('\\', "\\\\").replace('"', "\\\""))
}

fn spelled(value: &Value<'_>) -> String {
    match value {
        Value::Label(at) => at.to_string(),
        Value::U32(number) => number.to_string(),
        Value::Str(text) => quoted(text),
        Value::Mem(bytes) => bytes.iter().fold(String::new(), |mut hex, it| {
            let _ = write!(hex, "{it:02x}"); // a String takes all
            hex
        }),
    }
}

fn word_of(kind: Kind) -> &'static str {
    match kind {
        Kind::Label => "label",
        Kind::U32 => "u32",
        Kind::Str => "str",
        Kind::Mem => "mem",
    }
}

fn refusal_of(rest: &str) -> ClientError {
    let (word, version) = rest.split_once(' ').unwrap_or((rest, ""));
    let (epoch, seq) = version.split_once('.').unwrap_or(("", ""));
    let version = Version { epoch: epoch.parse().unwrap_or(0), seq: seq.parse().unwrap_or(0) };
    match Refusal::worded(word, version) {
        Some(refusal) => ClientError::Refused(refusal),
        None if word == "notsender" => ClientError::NotSender,
        None => ClientError::Other(word.to_owned()),
    }
}

/// Returns the answer, or an error if its only line is a refusal, `badline` or `norequest`.
fn judged(answer: String) -> Result<String, ClientError> {
    let line = answer.trim_end_matches('\n');
    if line.contains('\n') {
        return Ok(answer);
    }
    match line.strip_prefix("refused ") {
        Some(rest) => Err(refusal_of(rest)),
        None if line.starts_with("badline ") => Err(ClientError::BadLine),
        None if line == "norequest" => Err(ClientError::NoRequest),
        None => Ok(answer),
    }
}

impl Client {
    /// Connects to the socket of a dsfleet or a dsrs. Without a timeout a call waits without end.
    pub fn open(path: impl AsRef<Path>, timeout: Option<Duration>) -> Result<Client, ClientError> {
        let mut made = Client::closed(path.as_ref().to_owned(), timeout);
        made.reconnect()?;
        Ok(made)
    }

    fn closed(path: PathBuf, timeout: Option<Duration>) -> Client {
        Client {
            path,
            timeout,
            socket: None,
            opened: 0,
            is_instance: false,
            first_sub: None,
            endpoint: None,
            number: 0,
            inbox: Vec::new(),
            searched: 0,
            awaits: false,
            late: 0,
            later: 0,
            noticed: 0,
            used: 0,
            watched: 0,
        }
    }

    /// The client over the connection of an instance, which can't be opened again.
    pub(crate) fn of_instance(socket: UnixStream, path: PathBuf, at: Endpoint, first_sub: u32, timeout: Option<Duration>) -> Client {
        let none = Client::closed(path, timeout);
        Client { socket: Some(socket), opened: 1, is_instance: true, first_sub: Some(first_sub), endpoint: Some(at), ..none }
    }

    /// Opens the connection again, and repeats the `act_as`. Subscriptions are lost; watches make their own again.
    pub fn reconnect(&mut self) -> Result<(), ClientError> {
        if self.is_instance {
            return Err(ClientError::Lost(io::ErrorKind::NotConnected.into()));
        }
        let (end, mut pauses) = (end_of(self.timeout), Pauses::new());
        self.socket = None;
        let socket = loop {
            match sockets::stream(&self.path) {
                Ok(it) => break it,
                Err(why) if why.kind() == io::ErrorKind::WouldBlock && pauses.wait(end) => {}
                Err(why) => return Err(ClientError::Lost(why)),
            }
        };
        self.inbox.clear();
        (self.searched, self.late, self.later) = (0, 0, 0);
        (self.noticed, self.used, self.watched) = (0, 0, 0);
        self.socket = Some(socket);
        self.opened += 1;
        self.endpoint.map_or(Ok(()), |it| self.ask(&format!("as {it}")).map(drop))
    }

    /// Returns the descriptor to poll, or -1 while there is no connection. What came earlier is in the client already: call
    /// [`Watch::next`](crate::Watch::next) or [`notice`](Client::notice) until they time out.
    pub fn file(&self) -> RawFd {
        self.socket.as_ref().map_or(-1, AsRawFd::as_raw_fd)
    }

    pub(crate) fn opened(&self) -> u64 {
        self.opened
    }

    pub(crate) fn is_lost(&self) -> bool {
        self.socket.is_none()
    }

    pub(crate) fn is_instance(&self) -> bool {
        self.is_instance
    }

    /// Sends a line, without its newline, and returns the lines of its answer, each with its newline.
    pub fn ask(&mut self, line: &str) -> Result<String, ClientError> {
        if line.contains('\n') {
            return Err(ClientError::BadCall);
        }
        self.send(format!("{line}\n").as_bytes())?;
        self.awaits = true;
        let found = self.answer(end_of(self.timeout));
        self.awaits = false;
        self.late += self.later + usize::from(found.is_err()); // an answer that comes later is dropped
        self.later = 0;
        judged(found?)
    }

    fn lose(&mut self, why: io::Error) -> ClientError {
        self.socket = None;
        ClientError::Lost(why)
    }

    /// Sends bytes. If they can't be sent in time, the connection is lost, since a part of a line may be under way.
    pub(crate) fn send(&mut self, bytes: &[u8]) -> Result<(), ClientError> {
        let timeout = self.timeout.map(|it| it.max(SOONEST));
        let mut socket = self.socket.as_ref().ok_or_else(|| ClientError::Lost(io::ErrorKind::NotConnected.into()))?;
        let sent = socket.set_write_timeout(timeout).and_then(|()| socket.write_all(bytes));
        sent.map_err(|why| self.lose(why))
    }

    fn answer(&mut self, end: Option<Instant>) -> Result<String, ClientError> {
        loop {
            if let Some(answer) = self.sort()? {
                return Ok(answer);
            }
            self.wait(end)?;
        }
    }

    /// Receives what comes until a time.
    pub(crate) fn wait(&mut self, end: Option<Instant>) -> Result<(), ClientError> {
        let mut some = [0; PIECE];
        let left = end.map(|it| it.saturating_duration_since(Instant::now()).max(SOONEST));
        let mut socket = self.socket.as_ref().ok_or_else(|| ClientError::Lost(io::ErrorKind::NotConnected.into()))?;
        match socket.set_read_timeout(left).and_then(|()| socket.read(&mut some)) {
            Ok(0) => Err(self.lose(io::ErrorKind::UnexpectedEof.into())),
            Ok(length) => {
                self.inbox.extend_from_slice(&some[..length]);
                Ok(())
            }
            Err(why) => match why.kind() {
                io::ErrorKind::WouldBlock | io::ErrorKind::TimedOut => Err(ClientError::Timeout),
                io::ErrorKind::Interrupted => Ok(()),
                _ => Err(self.lose(why)),
            },
        }
    }

    /// Takes the next whole answer or notice, without its empty line.
    fn take(&mut self) -> Option<String> {
        if self.inbox.first() == Some(&b'\n') {
            self.inbox.drain(..1);
            return Some(String::new());
        }
        let from = self.searched.saturating_sub(1);
        let end = self.inbox[from..].windows(2).position(|it| it == b"\n\n");
        self.searched = end.map_or(self.inbox.len(), |_| 0);
        let taken: Vec<u8> = self.inbox.drain(..from + end? + 2).collect();
        Some(String::from_utf8_lossy(&taken[..taken.len() - 1]).into_owned())
    }

    /// Takes all up to the next answer that is awaited.
    pub(crate) fn sort(&mut self) -> Result<Option<String>, ClientError> {
        while let Some(answer) = self.take() {
            if self.take_other(&answer)? {
                continue;
            }
            if self.late == 0 {
                return Ok(Some(answer));
            }
            self.late -= 1;
        }
        Ok(None)
    }

    /// Takes what isn't an answer: a notice; a ping of dsrs; the line on another instance that connected, whose descriptor the kernel has
    /// closed.
    fn take_other(&mut self, answer: &str) -> Result<bool, ClientError> {
        if let Some(sub) = answer.strip_prefix("notice ").and_then(|it| it.trim_end().parse::<u32>().ok()) {
            self.noticed |= 1u128.checked_shl(sub).unwrap_or(0);
            return Ok(true);
        }
        if self.is_instance && answer == "ping\n" {
            self.beat()?;
            return Ok(true);
        }
        Ok(self.is_instance && answer.starts_with("peer "))
    }

    pub(crate) fn beat(&mut self) -> Result<(), ClientError> {
        if self.awaits {
            self.later += 1;
        } else {
            self.late += 1;
        }
        self.send(b"beat\n")
    }

    /// Returns the value of a live entry.
    pub fn retrieve(&mut self, name: &str, kind: Kind) -> Result<Body<'static>, ClientError> {
        let answer = self.ask(&format!("retrieve {name} {}", word_of(kind)))?;
        let value = answer.trim_end_matches('\n').strip_prefix("found ").and_then(|it| body_of(kind, it));
        match value.ok_or_else(|| ClientError::Other(answer.clone()))? {
            Body::Str(text) => Ok(Body::Str(text.into_owned().into())),
            Body::Label(at) => Ok(Body::Label(at)),
            Body::U32(number) => Ok(Body::U32(number)),
            Body::Mem(bytes) => Ok(Body::Mem(bytes)),
            Body::Gone => Ok(Body::Gone),
        }
    }

    /// Returns the least name whose live label holds the endpoint.
    pub fn name_of(&mut self, endpoint: Endpoint) -> Result<String, ClientError> {
        let answer = self.ask(&format!("nameof {endpoint}"))?;
        Ok(answer.trim_start_matches("named ").trim_end().to_owned())
    }

    /// Makes a client of a dsfleet publish under an endpoint. An [`Instance`](crate::Instance) has its own from the start.
    pub fn act_as(&mut self, endpoint: Endpoint) -> Result<(), ClientError> {
        self.ask(&format!("as {endpoint}"))?;
        self.endpoint = Some(endpoint);
        Ok(())
    }

    /// Publishes a value, over an older one. The version is the endpoint's generation, and the client's count of its changes. Each call
    /// takes a new number, so a change without an answer is repeated by another call.
    pub fn publish<'a>(&mut self, name: &str, value: impl Into<Value<'a>>) -> Result<(), ClientError> {
        let value = value.into();
        let at = self.endpoint.ok_or(ClientError::BadCall)?;
        let (kind, version) = (word_of(value.kind()), self.version(at));
        self.ask(&format!("publish {at} over {name} {kind} {version} = {}", spelled(&value))).map(drop)
    }

    /// Ends a live entry. Its version is counted as that of [`publish`](Client::publish) is.
    pub fn delete(&mut self, name: &str, kind: Kind) -> Result<(), ClientError> {
        let at = self.endpoint.ok_or(ClientError::BadCall)?;
        let version = self.version(at);
        self.ask(&format!("delete {at} {name} {} {version}", word_of(kind))).map(drop)
    }

    fn version(&mut self, at: Endpoint) -> Version {
        let seq = self.number;
        self.number = self.number.wrapping_add(1);
        Version { epoch: at.generation, seq }
    }

    /// Follows the names of some kinds that a pattern matches whole, and asks for notices. Returns the number of the subscription, which
    /// nobody else uses. The first check shows all that is held.
    pub fn subscribe(&mut self, pattern: &str, kinds: impl Into<Kinds>) -> Result<u32, ClientError> {
        let sub = self.subscribe_to(&scope(pattern, kinds.into()), "first")?;
        self.watched &= !(1 << sub);
        Ok(sub)
    }

    /// A dsfleet chooses the number. A dsrs can't read such a line; it has numbers for its clients, and some for each server.
    pub(crate) fn subscribe_to(&mut self, scope: &str, when: &str) -> Result<u32, ClientError> {
        let sub = match self.first_sub {
            Some(first) => self.subscribe_from(first..first + SUBS, scope, when)?,
            None => match self.ask(&format!("subscribe {scope} {when} new")) {
                Ok(answer) => answer.rsplit("sub ").next().and_then(|it| it.trim_end().parse().ok()).ok_or(ClientError::BadCall)?,
                Err(ClientError::BadLine) => self.subscribe_from(PUBLIC, scope, when)?,
                Err(other) => return Err(other),
            },
        };
        self.ask(&format!("listen {sub}"))?;
        self.used |= 1u128.checked_shl(sub).unwrap_or(0);
        Ok(sub)
    }

    pub(crate) fn leave(&mut self, sub: u32) {
        self.used &= !(1 << sub);
    }

    fn subscribe_from(&mut self, subs: std::ops::Range<u32>, scope: &str, when: &str) -> Result<u32, ClientError> {
        for sub in subs {
            if self.used >> sub & 1 == 1 {
                continue;
            }
            match self.ask(&format!("subscribe {sub} {scope} {when} over")) {
                Err(ClientError::Refused(Refusal::NotAllowed)) => {}
                Err(other) => return Err(other),
                Ok(_) => return Ok(sub),
            }
        }
        Err(ClientError::Refused(Refusal::NotAllowed))
    }

    /// Returns the items that the subscription wasn't shown yet, at most 256.
    pub fn check(&mut self, sub: u32) -> Result<Items, ClientError> {
        let answer = self.ask(&format!("check {sub} {MOST}"))?;
        Ok(Items::from(answer.into_bytes())) // the line after the items is no item's
    }

    /// Waits for a notice, and returns its subscription. Those of watches aren't reported.
    pub fn notice(&mut self, timeout: Option<Duration>) -> Result<u32, ClientError> {
        let end = end_of(timeout);
        loop {
            self.sort()?;
            let own = self.noticed & !self.watched;
            if own != 0 {
                self.noticed &= !(own & own.wrapping_neg());
                return Ok(own.trailing_zeros());
            }
            self.wait(end)?;
        }
    }

    /// Connects to the living instance of a service by its label. Each write to the connection is a message, and each read returns one.
    /// While the service or the daemon restarts, the call tries again, until the client's timeout: [`Refusal::NotFound`] if no instance
    /// lives then.
    pub fn connect(&mut self, label: &str) -> Result<(Endpoint, UnixStream), ClientError> {
        let (end, mut pauses) = (end_of(self.timeout), Pauses::new());
        loop {
            let fault = match self.find(label) {
                Ok(found) => return Ok(found),
                Err(fault) => fault,
            };
            let may_come = match fault {
                ClientError::Refused(Refusal::NotFound) => true,
                ClientError::Lost(_) => self.is_lost() && !self.is_instance,
                _ => false,
            };
            if !may_come || !pauses.wait(end) {
                return Err(fault);
            }
        }
    }

    /// Makes one attempt. An instance that has just died leaves a label or a socket that nobody serves.
    fn find(&mut self, label: &str) -> Result<(Endpoint, UnixStream), ClientError> {
        if self.is_lost() {
            self.reconnect()?;
        }
        let at = match self.retrieve(label, Kind::Label)? {
            Body::Label(at) => at,
            _ => return Err(ClientError::BadCall),
        };
        let mut path = self.path.clone().into_os_string();
        path.push(format!(".d/{}.{}", at.generation, at.slot));
        match sockets::messages(Path::new(&path)) {
            Ok(service) => Ok((at, service)),
            Err(why) => Err(match why.kind() {
                io::ErrorKind::NotFound | io::ErrorKind::ConnectionRefused | io::ErrorKind::WouldBlock => Refusal::NotFound.into(),
                _ => ClientError::Lost(why),
            }),
        }
    }
}
