//! Asks a store, RS and a map, and prints what they answer; tests/programs/rust refuses each growth of its memory in turn.
//!
//! A call that is refused memory is made again, and then all answers are as ever: a refused call changed nothing, and no item was lost. It
//! prints by no call of std that takes memory, and begins by a line, after which growths count.

use pengtawis::{Endpoint, Error, Items, Kind, Kinds, Map, Refusal, Rs, Scope, Store, Version, RS};
use std::fs::File;
use std::io::Write;
use std::os::unix::io::FromRawFd;

const ETH: Endpoint = Endpoint::new(3, 16);
const SETTINGS: &str = "service = [{label = 'eth0', class = 'network', unit = 0, limit = 1}]";
const LARGE: u32 = 40; // values of 1024 bytes: more than one buffer of text

/// Makes a call again until it isn't refused memory.
fn insist<T>(mut call: impl FnMut() -> Result<T, Error>) -> Result<T, Error> {
    loop {
        match call() {
            Err(it) if it.refusal() == Some(Refusal::NoRoom) => {}
            other => return other,
        }
    }
}

fn insist_on<T>(mut call: impl FnMut() -> Result<T, Refusal>) -> Result<T, Error> {
    insist(|| call().map_err(Error::from))
}

/// Names that take no memory.
fn named(number: u32, room: &mut [u8; 8]) -> &str {
    let length = {
        let mut rest = &mut room[..];
        let before = rest.len();
        write!(rest, "m{}", number).ok();
        before - rest.len()
    };
    std::str::from_utf8(&room[..length]).unwrap_or("m")
}

fn publish(store: &mut Store) -> Result<(), Error> {
    insist(|| store.publish(RS, "eth0", ETH, Version::new(3, 0), false))?;
    insist(|| store.publish(ETH, "eth0.s", "a \"value\"", Version::new(3, 0), false))?;
    insist(|| store.publish(ETH, "eth0.m", &[97; 1024][..], Version::new(3, 0), false))?;
    insist(|| store.subscribe(40, Scope::new("eth.*", Kinds::ALL), true, false))?;
    let mut room = [0; 8];
    for at in 0..LARGE {
        let name = named(at, &mut room);
        insist(|| store.publish(ETH, name, &[0; 1024][..], Version::new(3, 0), false))?;
    }
    Ok(())
}

fn show(store: &mut Store, to: &mut File) -> Result<Items, Error> {
    let text = insist(|| store.retrieve::<String>("eth0.s"))?;
    let bytes = insist(|| store.retrieve::<Vec<u8>>("eth0.m"))?;
    let name = insist(|| store.name_of(ETH))?;
    writeln!(to, "{} {} {}", text, bytes.len(), name).ok();
    loop {
        // A check that is refused shows nothing; one that isn't gives its items, however often fetching them is refused.
        let mut shown = match store.check(40, 2) {
            Err(it) if it.refusal() == Some(Refusal::NoRoom) => continue,
            other => other?,
        };
        let items = insist_on(|| shown.items())?;
        if items.is_empty() {
            break;
        }
        to.write_all(items.text()).ok();
    }
    loop {
        match store.line("retrieve eth0 label").map(|mut it| insist_on(|| it.text())) {
            Err(it) if it.refusal() == Some(Refusal::NoRoom) => continue,
            other => writeln!(to, "{}", other??.trim_end()).ok(),
        };
        break;
    }
    loop {
        let mut all = match store.snapshot(None) {
            Err(it) if it.refusal() == Some(Refusal::NoRoom) => continue,
            other => other?,
        };
        return insist_on(|| all.items());
    }
}

/// Opens RS, and gives it its settings again. An event isn't tried: RS's offer may be refused memory, and then the event isn't made again.
fn open_rs() -> Result<(), Error> {
    let mut rs = insist_on(|| Rs::open(3, SETTINGS).map_err(|it| it.refusal))?;
    insist_on(|| rs.renew(SETTINGS).map_err(|it| it.refusal))?;
    Ok(())
}

fn answer(to: &mut File) -> Result<(), Error> {
    let mut store = insist_on(|| Store::open_with(1, 0, 4096))?;
    publish(&mut store)?;
    open_rs()?;
    let items = show(&mut store, to)?;
    let mut other = insist_on(|| Store::open(2))?;
    insist(|| match other.merge(&items) {
        Err(Error::Stopped(it)) if it.refusal == Refusal::NoRoom => Err(Refusal::NoRoom.into()),
        done => done,
    })?;
    let mut map = insist_on(|| Map::new("eth.*", Kind::Label))?;
    insist(|| map.take(&items))?;
    writeln!(to, "{} {}", items.len(), map.label("eth0")?).ok();
    let again = insist(|| other.snapshot(None).and_then(|mut it| Ok(insist_on(|| it.items())?)))?;
    writeln!(to, "the other one holds {}", if again == items { "the same" } else { "something else" }).ok();
    Ok(())
}

fn main() {
    // SAFETY: standard output is open, and nothing else here has it.
    let mut to = unsafe { File::from_raw_fd(1) };
    to.write_all(b"begun\n").ok();
    if let Err(it) = answer(&mut to) {
        writeln!(to, "{}", it).ok();
    }
}
