//! Each refusal that a store or a map can be met with, once. IsClosed and IsOpen are met in src/ffi.rs alone, memory that runs out by
//! tests/programs/rust.

use pengtawis::{Cursor, Endpoint, Error, Items, Kind, Kinds, Map, Refusal, Scope, Store, Version, RS};

const ETH: Endpoint = Endpoint::new(3, 16);
const LAST: u64 = 1 << 62;

fn store() -> Store {
    let mut store = Store::open(1).unwrap();
    store.publish(RS, "eth0", ETH, Version::new(3, 0), false).unwrap();
    store.publish(RS, "eth1", Endpoint::new(4, 17), Version::new(4, 0), false).unwrap();
    store
}

fn cursor(incarnation: u64, position: u64) -> Cursor {
    Cursor { incarnation, position }
}

fn all(pattern: &str) -> Scope<'_> {
    Scope::new(pattern, Kinds::ALL)
}

/// Meets each refusal, in the order of enum ds_refusal.
fn met() -> Vec<Refusal> {
    let (v, long) = (Version::new, "a".repeat(129));
    let mut it = store();
    it.publish(ETH, "mtu", 1500, v(3, 1), false).unwrap();
    it.subscribe(40, all("eth.*"), true, false).unwrap();
    let mut worn = Store::open_with(1, LAST, 1).unwrap();
    let mut full = store();
    full.merge(&Items::from((0..4094).map(|at| format!("n{at} u32 eth0 3.0 = 1\n")).collect::<String>().into_bytes())).unwrap();
    let mut short = Store::open_with(1, 0, 1).unwrap();
    short.publish(RS, "eth0", ETH, v(3, 0), false).unwrap();
    short.publish(RS, "eth1", Endpoint::new(4, 17), v(4, 0), false).unwrap();
    let faults: Vec<Error> = vec![
        it.check(128, 8).err().unwrap(),
        it.check(40, 257).err().unwrap(),
        it.subscribe(41, all(&long), true, false).unwrap_err(),
        it.subscribe(41, all("("), true, false).unwrap_err(),
        Map::new("a", Kinds::NONE).unwrap_err().into(),
        it.publish(RS, "rs", Endpoint::new(1, 16), v(1, 0), false).unwrap_err(),
        it.publish(ETH, "n", 1, v(4, 0), false).unwrap_err(),
        it.publish(Endpoint::new(9, 99), "n", 1, v(9, 0), false).unwrap_err(),
        it.sweep(ETH, "eth0", 3).unwrap_err(),
        it.publish(Endpoint::new(4, 17), "mtu", 1, v(4, 0), true).unwrap_err(),
        it.publish(ETH, "mtu", 9000, v(3, 1), true).unwrap_err(),
        it.publish(ETH, "mtu", 9000, v(3, 0), true).unwrap_err(),
        it.publish(ETH, "mtu", 9000, v(3, 2), false).unwrap_err(),
        it.retrieve::<u32>("none").unwrap_err(),
        it.since(cursor(2, 0), None, 8).err().unwrap(),
        it.since(cursor(1, 99), None, 8).err().unwrap(),
        short.since(cursor(1, 0), None, 8).err().unwrap(),
        full.publish(ETH, "more", 1, v(3, 0), false).unwrap_err(),
        worn.publish(RS, "eth0", ETH, v(3, 0), false).unwrap_err(),
        it.subscribe(41, all("a{4000}"), true, false).unwrap_err(),
        Store::open_with(1, 0, 0).err().unwrap().into(),
        Store::open_with(1, LAST + 1, 1).err().unwrap().into(),
    ];
    faults.iter().map(|it| it.refusal().unwrap_or_else(|| panic!("{faults:?}"))).collect()
}

#[test]
fn each_refusal() {
    let words = "badsub toomany toolong badpattern badkind badlabel badversion nocaller notallowed notowner clash stale exists notfound \
                 oldcursor ahead behind full worn noroom badring badfirst";
    assert_eq!(met().iter().map(Refusal::word).collect::<Vec<_>>(), words.split_whitespace().collect::<Vec<_>>());
}

#[test]
fn of_maps() {
    let refused = |pattern: &str, kinds| Map::new(pattern, kinds).err().unwrap();
    assert_eq!(refused(".*", Kinds::NONE), Refusal::BadKind);
    assert_eq!(refused(&"a".repeat(129), Kinds::ALL), Refusal::TooLong);
    assert_eq!(refused("(", Kinds::ALL), Refusal::BadPattern);
    assert_eq!(refused("a{4000}", Kinds::ALL), Refusal::NoRoom);
    let mut map = Map::new(".*", Kinds::ALL).unwrap();
    let mut take = |lines: &str| map.take(&Items::from(lines.as_bytes().to_vec())).err().and_then(|it| it.refusal());
    assert_eq!(take("a u32 b 1.0 = 1\na u32 c 1.0 = 1\n"), Some(Refusal::NotOwner));
    assert_eq!(take("a u32 b 1.0 = 2\n"), Some(Refusal::Clash(Version::new(1, 0))));
    assert_eq!(take(&(0..4096).map(|at| format!("n{at} u32 b 1.0 = 1\n")).collect::<String>()), Some(Refusal::Full));
}

#[test]
fn a_refusal_changes_nothing() {
    let mut store = store();
    let before = store.snapshot(None).unwrap().items().unwrap();
    assert_eq!(store.publish(ETH, "eth0", 1, Version::new(9, 0), true).unwrap_err(), Error::Refused(Refusal::BadVersion));
    assert_eq!(store.snapshot(None).unwrap().items(), Ok(before));
}

#[test]
fn what_no_request_has() {
    let mut store = store();
    let (long, big) = ("n".repeat(65), "s".repeat(257));
    for name in ["", "a b", "ä", &long] {
        assert_eq!(store.publish(ETH, name, 1, Version::new(3, 0), false), Err(Error::NoRequest), "{name}");
        assert_eq!(store.retrieve::<u32>(name), Err(Error::NoRequest), "{name}");
    }
    assert_eq!(store.publish(ETH, "s", big.as_str(), Version::new(3, 0), false), Err(Error::NoRequest));
    assert_eq!(store.publish(ETH, "s", "\n", Version::new(3, 0), false), Err(Error::NoRequest));
    assert_eq!(store.name_of(Endpoint::new(1 << 21, 0)), Err(Error::NoRequest));
    assert_eq!(store.page(Some(("", Kind::U32)), None, 8).err(), Some(Error::NoRequest));
    assert_eq!(store.subscribe(1, Scope::new("a", Kinds::NONE), true, false), Err(Error::NoRequest));
    assert_eq!(Map::new(".*", Kind::Label).unwrap().label("a b"), Err(Error::NoRequest));
}

#[test]
fn faults_are_said() {
    assert_eq!(Error::from(Refusal::Stale).to_string(), "stale: a greater version is held, or a floor of the owner made the change void");
    let refusals = [
        (Refusal::NotAllowed, "only RS publishes labels, deletes them and sweeps; an `Rs` does so by itself"),
        (Refusal::NotUp, "the service isn't in the state that the event needs: up, or waiting, or for a restart given up"),
        (Refusal::GenerationsSpent, "RS has no generation left for a start"),
        (Refusal::Toml, "the settings aren't TOML"),
        (Refusal::OutOfRange, "a value of the settings is of another type or out of range, or a server has a unit"),
        (Refusal::SharedName, "a name is published by two services, or twice by one"),
    ];
    for (refusal, said) in refusals {
        assert_eq!(refusal.to_string(), format!("{}: {said}", refusal.word()));
    }
    assert_eq!(Error::BadLine(7).to_string(), "the line can't be read from byte 7 on");
    let malformed = "a name, a value, a number or a line is malformed or out of range, or the line isn't for one store";
    assert_eq!(Error::NoRequest.to_string(), malformed);
    let it: Box<dyn std::error::Error + Send + Sync> = Refusal::NoRoom.into();
    assert!(it.to_string().starts_with("noroom: "));
}
