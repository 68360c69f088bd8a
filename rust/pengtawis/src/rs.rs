//! A store with RS beside it.

use crate::error::{Error, Refusal};
use crate::ffi::{self, action, event, state, word, Answer, Event};
use crate::store::Store;
use crate::table::Class;
use crate::values::{Endpoint, Kind, Owed, Version};
use std::fmt;

const FIRST_GENERATION: u32 = 1;
const FIRST_SLOT: u16 = 16;
const MOST: usize = 6; // actions of an event
const NEVER: u64 = u64::MAX;
const WHOLE_TEXT: u32 = u32::MAX;

/// Decides which services run, and under which endpoints: the reincarnation server (RS), beside a store.
///
/// A supervisor reports events, and carries out the actions that each returns, in order. RS publishes labels in the store, deletes them and
/// sweeps it by itself; another caller that passes for RS is refused as [`Refusal::NotAllowed`]. A merge has no caller: merge only items
/// of stores whose labels come from this RS, or from a later run of it. Time is counted in ticks of the supervisor's choice: no event has
/// a tick below that of the last accepted event, nor above 2^62.
///
/// ```
/// use pengtawis::{Action, Cause, Endpoint, Rs};
///
/// let settings = "service = [{label = 'eth0', class = 'network', unit = 0, limit = 3}]";
/// let mut rs = Rs::open(1, settings)?;
/// let first = Endpoint::new(1, 16);
/// assert_eq!(rs.up("eth0", 0)?.iter().next(), Some(Action::Start { label: "eth0", endpoint: first }));
/// assert_eq!(rs.store().retrieve::<Endpoint>("eth0")?, first);
/// assert_eq!(rs.death(first, Cause::Killed, 5)?.iter().count(), 2); // the label is deleted, and the store is swept
/// assert_eq!(rs.due(), Some(6));
/// assert!(rs.tick(6)?.iter().any(|it| it == Action::Start { label: "eth0", endpoint: Endpoint::new(2, 16) }));
/// # Ok::<(), Box<dyn std::error::Error>>(())
/// ```
#[derive(Debug)]
pub struct Rs {
    store: Store,
}

impl Rs {
    /// Opens RS beside a new store, as a first run does. `settings` is the whole text of a TOML file. Every service is down.
    pub fn open(incarnation: u64, settings: &str) -> Result<Rs, SettingsFault> {
        let store = Store::open(incarnation).map_err(SettingsFault::from)?;
        Rs::open_with(store, settings, FIRST_GENERATION, FIRST_SLOT)
    }

    /// Opens RS beside a store. The first start has the generation `next`, which the last run's [`next_generation`](Rs::next_generation)
    /// was, so that no generation comes twice. Process slots are counted from `slot` on, 16 or above; hosts that exchange items have slots
    /// of their own. What is refused drops the store.
    pub fn open_with(mut store: Store, settings: &str, next: u32, slot: u16) -> Result<Rs, SettingsFault> {
        let mut fault = ffi::SettingsFault::default();
        // SAFETY: the handle is open, and the length is the text's.
        let refusal = unsafe { ffi::ds_rs_open(store.handle(), settings.as_ptr(), settings.len(), next, slot, &mut fault) };
        settled(refusal, &fault).map(|()| Rs { store })
    }

    /// Gives RS other settings while services run. A service whose label stays keeps its instance, state and failures; a new one is down.
    /// A service that isn't in the text has to be down or given up.
    ///
    /// After the faults of the text, the refusals are, in this order: [`Refusal::NoSlot`], if the text has fewer slots than RS has;
    /// [`Refusal::BadFirst`], if the last slot would be above 1023; [`Refusal::AlreadyUp`], if a service that isn't in the text is up or
    /// waits: stop it first. What is refused changes nothing.
    pub fn renew(&mut self, settings: &str) -> Result<(), SettingsFault> {
        let mut fault = ffi::SettingsFault::default();
        // SAFETY: the handle is open, and the length is the text's.
        let refusal = unsafe { ffi::ds_rs_renew(self.store.handle(), settings.as_ptr(), settings.len(), &mut fault) };
        settled(refusal, &fault)
    }

    /// The store, where clients find the services by their labels.
    pub fn store(&mut self) -> &mut Store {
        &mut self.store
    }

    /// Starts a service that is down or was given up.
    pub fn up(&mut self, label: &str, tick: u64) -> Result<Acted, Error> {
        self.report(labelled(Event::new(event::UP, tick), label)?)
    }

    /// Stops a service that is up or waits.
    pub fn down(&mut self, label: &str, tick: u64) -> Result<Acted, Error> {
        self.report(labelled(Event::new(event::DOWN, tick), label)?)
    }

    /// Stops a service that is up, and starts it at once.
    pub fn refresh(&mut self, label: &str, tick: u64) -> Result<Acted, Error> {
        self.report(labelled(Event::new(event::REFRESH, tick), label)?)
    }

    /// Starts a service that waits or was given up.
    pub fn restart(&mut self, label: &str, tick: u64) -> Result<Acted, Error> {
        self.report(labelled(Event::new(event::RESTART, tick), label)?)
    }

    /// Reports that an instance died. It is refused as [`Refusal::OldEndpoint`] if no instance that is up has this endpoint.
    pub fn death(&mut self, at: Endpoint, cause: Cause, tick: u64) -> Result<Acted, Error> {
        self.report(Event { cause: cause as u32, ..of(event::DEATH, at, tick) })
    }

    /// Reports that an instance is alive.
    pub fn beat(&mut self, at: Endpoint, tick: u64) -> Result<Acted, Error> {
        self.report(of(event::BEAT, at, tick))
    }

    /// Reports that time passed. Report it again at the same tick until it returns no actions.
    pub fn tick(&mut self, tick: u64) -> Result<Acted, Error> {
        self.report(Event::new(event::TICK, tick))
    }

    /// Returns the first tick at which [`tick`](Rs::tick) has actions. `None`: there is none until another event.
    pub fn due(&mut self) -> Option<u64> {
        let mut tick = NEVER;
        // SAFETY: the handle is open.
        unsafe { ffi::ds_rs_due(self.store.handle(), &mut tick) };
        Some(tick).filter(|it| *it != NEVER)
    }

    /// Returns the generation of the next start, for the next run. Save it before you carry out the start that used the previous one.
    pub fn next_generation(&mut self) -> u32 {
        let mut generation = 0;
        // SAFETY: the handle is open.
        unsafe { ffi::ds_rs_next(self.store.handle(), &mut generation) };
        generation
    }

    /// Returns what RS knows of the service of this number, counted from 0 in the order of the settings. `None`: there are fewer.
    pub fn service(&mut self, number: usize) -> Option<Service> {
        let mut told = ffi::Service::NONE;
        // SAFETY: the handle is open.
        let refusal = unsafe { ffi::ds_rs_service(self.store.handle(), number, &mut told) };
        (refusal == 0).then(|| Service { told })
    }

    /// Returns what RS knows of each service, in the order of the settings.
    pub fn services(&mut self) -> impl Iterator<Item = Service> + '_ {
        (0..).map_while(move |it| self.service(it))
    }

    /// Returns whether an instance is up, and its service's settings let it publish under this key. Only RS publishes labels.
    pub fn may_publish(&mut self, at: Endpoint, name: &str, kind: Kind) -> bool {
        let Endpoint { generation, slot } = at;
        // SAFETY: the handle is open, and the length is the name's.
        unsafe { ffi::ds_rs_may_publish(self.store.handle(), generation, slot, kind as u8, name.as_ptr(), name.len()) == 0 }
    }

    /// Returns whether an instance is up and may complain of a service, so that a supervisor reports a death by [`Cause::Complaint`].
    pub fn may_complain(&mut self, at: Endpoint, label: &str) -> bool {
        let Endpoint { generation, slot } = at;
        // SAFETY: the handle is open, and the length is the label's.
        unsafe { ffi::ds_rs_may_complain(self.store.handle(), generation, slot, label.as_ptr(), label.len()) == 0 }
    }

    /// Returns whether an instance is up and may connect to a service.
    pub fn may_connect(&mut self, at: Endpoint, label: &str) -> bool {
        let Endpoint { generation, slot } = at;
        // SAFETY: the handle is open, and the length is the label's.
        unsafe { ffi::ds_rs_may_connect(self.store.handle(), generation, slot, label.as_ptr(), label.len()) == 0 }
    }

    fn report(&mut self, event: Event) -> Result<Acted, Error> {
        let (mut answer, mut acted) = (Answer::default(), Acted { told: [ffi::Action::NONE; MOST], count: 0, owed: Owed::default() });
        // SAFETY: the handle is open.
        unsafe { ffi::ds_rs_event(self.store.handle(), &event, &mut answer) };
        if let Some(error) = Error::of(&answer) {
            return Err(error);
        }
        acted.owed = Owed(answer.owed);
        for (at, room) in acted.told.iter_mut().enumerate() {
            // SAFETY: the handle is open.
            acted.count += usize::from(unsafe { ffi::ds_rs_action(self.store.handle(), at, room) } == 0);
        }
        Ok(acted)
    }
}

/// What an event led to. It owns its actions, so the supervisor may call RS while it carries them out.
#[must_use = "a supervisor carries out each action"]
#[derive(Clone, Copy)]
pub struct Acted {
    told: [ffi::Action; MOST],
    count: usize,
    /// The subscriptions that are owed a notice.
    pub owed: Owed,
}

impl Acted {
    /// Returns the actions, in the order in which they are carried out.
    pub fn iter(&self) -> impl Iterator<Item = Action<'_>> + '_ {
        self.told[..self.count].iter().map(action_of)
    }

    /// Returns whether there are none.
    pub fn is_empty(&self) -> bool {
        self.count == 0
    }
}

impl fmt::Debug for Acted {
    fn fmt(&self, to: &mut fmt::Formatter<'_>) -> fmt::Result {
        to.debug_list().entries(self.iter()).finish()
    }
}

/// What follows from an event. The supervisor carries out the first three. RS itself has made an offer and a sweep, in the store.
#[derive(Clone, Copy, Debug, PartialEq, Eq)]
#[non_exhaustive]
pub enum Action<'a> {
    /// Kills an instance, if it hasn't ended.
    Kill { endpoint: Endpoint },
    /// Starts an instance of a service, under this endpoint.
    Start { label: &'a str, endpoint: Endpoint },
    /// Asks an instance for a heartbeat, which [`Rs::beat`] reports.
    Ping { endpoint: Endpoint },
    /// RS published the label with this endpoint, or deleted it (`None`), unless the store refused it. RS never repeats one that was
    /// refused, as when memory ran out. [`Store::line`] makes it: `offer eth0 label rs 3.0 = 3/16` for generation 3, and
    /// `offer eth0 label rs 3.1 -` if it was deleted.
    Offer { label: &'a str, endpoint: Option<Endpoint>, refused: Option<Refusal> },
    /// RS swept what the service published up to this generation, unless the store refused it. RS never repeats one that was refused; the
    /// line `offer ! eth0 3` makes it, up to generation 3.
    Sweep { label: &'a str, generation: u32, refused: Option<Refusal> },
    /// The service failed too often. It is down until [`Rs::up`] or [`Rs::restart`].
    GiveUp { label: &'a str },
}

/// Why an instance died.
#[derive(Clone, Copy, Debug, PartialEq, Eq)]
pub enum Cause {
    /// It exited, or panicked.
    Exit = 1,
    /// The processor or the memory refused it something.
    Exception,
    /// A user killed it.
    Killed,
    /// A heartbeat is missing. RS itself finds this.
    Silent,
    /// Another service complained of it.
    Complaint,
    /// A dynamic update. It starts again at once, and this is no failure.
    Update,
}

/// A service's settings and state.
#[derive(Clone, Copy)]
pub struct Service {
    told: ffi::Service,
}

impl Service {
    pub fn label(&self) -> &str {
        text_of(&self.told.label, self.told.label_length)
    }

    pub fn class(&self) -> Class {
        match self.told.service_class {
            0 => Class::Block,
            1 => Class::Character,
            2 => Class::Network,
            _ => Class::Server,
        }
    }

    /// Returns its major number or port. A server has none.
    pub fn unit(&self) -> Option<u8> {
        (self.told.has_unit == 1).then(|| self.told.unit)
    }

    /// Returns how many ticks pass between two pings. 0: it isn't pinged.
    pub fn period(&self) -> u32 {
        self.told.period
    }

    /// Returns how many failures in a row are answered by a start.
    pub fn limit(&self) -> u32 {
        self.told.limit
    }

    pub fn state(&self) -> State {
        let ffi::Service { generation, slot, until, failures, .. } = self.told;
        match self.told.state {
            state::DOWN => State::Down,
            state::UP => State::Up { endpoint: Endpoint { generation, slot }, failures },
            state::WAITING => State::Waiting { until, failures },
            _ => State::GivenUp,
        }
    }
}

impl fmt::Debug for Service {
    fn fmt(&self, to: &mut fmt::Formatter<'_>) -> fmt::Result {
        let mut shown = to.debug_struct("Service");
        shown.field("label", &self.label()).field("class", &self.class()).field("unit", &self.unit());
        shown.field("period", &self.period()).field("limit", &self.limit()).field("state", &self.state()).finish()
    }
}

/// What a service is.
#[derive(Clone, Copy, Debug, PartialEq, Eq)]
pub enum State {
    /// It was never started, or was stopped.
    Down,
    /// It has an instance, after so many failures in a row.
    Up { endpoint: Endpoint, failures: u32 },
    /// It starts at a tick.
    Waiting { until: u64, failures: u32 },
    /// It failed too often.
    GivenUp,
}

/// Why RS refused settings, and where.
#[derive(Clone, Copy, Debug, PartialEq, Eq)]
#[non_exhaustive]
pub struct SettingsFault {
    pub refusal: Refusal,
    /// The line from 1, where TOML can't be read.
    pub line: Option<u64>,
    /// The service from 0, in the order of the text; of a fault between two services, the second. Of [`Refusal::AlreadyUp`], from 0 as
    /// [`Rs::service`] counts. `None`: the fault is none of a service.
    pub service: Option<u32>,
}

impl From<Refusal> for SettingsFault {
    fn from(refusal: Refusal) -> SettingsFault {
        SettingsFault { refusal, line: None, service: None }
    }
}

impl fmt::Display for SettingsFault {
    fn fmt(&self, to: &mut fmt::Formatter<'_>) -> fmt::Result {
        match (self.line, self.service) {
            (Some(line), _) => write!(to, "line {}: {}", line, self.refusal),
            (None, Some(service)) => write!(to, "service {}: {}", service, self.refusal),
            (None, None) => self.refusal.fmt(to),
        }
    }
}

impl std::error::Error for SettingsFault {}

/// Returns what a call with settings returned, and where the fault is, if it is in the text.
fn settled(number: u32, fault: &ffi::SettingsFault) -> Result<(), SettingsFault> {
    if number == 0 {
        return Ok(());
    }
    let in_text = fault.cause != 0;
    Err(SettingsFault {
        refusal: Refusal::numbered(number, Version::default()),
        line: Some(fault.line).filter(|it| *it > 0),
        service: Some(fault.service).filter(|it| in_text && *it != WHOLE_TEXT),
    })
}

fn labelled(mut event: Event, label: &str) -> Result<Event, Error> {
    event.label.get_mut(..label.len()).ok_or(Error::NoRequest)?.copy_from_slice(label.as_bytes());
    event.label_length = label.len() as u8;
    Ok(event)
}

fn of(kind: u32, at: Endpoint, tick: u64) -> Event {
    Event { generation: at.generation, slot: at.slot, ..Event::new(kind, tick) }
}

/// Labels are ASCII.
fn text_of(room: &[u8; 64], length: u8) -> &str {
    room.get(..usize::from(length)).and_then(|it| std::str::from_utf8(it).ok()).unwrap_or("")
}

fn action_of(told: &ffi::Action) -> Action<'_> {
    let (label, generation) = (text_of(&told.label, told.label_length), told.generation);
    let endpoint = Endpoint { generation, slot: told.slot };
    let refused = (told.word == word::REFUSED).then(|| Refusal::numbered(told.refusal, Version::default()));
    match told.kind {
        action::KILL => Action::Kill { endpoint },
        action::START => Action::Start { label, endpoint },
        action::PING => Action::Ping { endpoint },
        action::OFFER => Action::Offer { label, endpoint: (told.gone == 0).then(|| endpoint), refused },
        action::SWEEP => Action::Sweep { label, generation, refused },
        _ => Action::GiveUp { label },
    }
}
