//! A publisher counts its versions, and a death ends what it published.

use pengtawis::{Endpoint, Error, Item, Items, Kind, Kinds, Publisher, Refusal, Rs, Scope, Store, Version};

const ETH: Endpoint = Endpoint::new(3, 16);
const SETTINGS: &str = r#"service = [{label = "eth0", class = "server", limit = 1}]"#;

fn started() -> Store {
    let mut store = Store::open(1).unwrap();
    assert!(store.rs_started("eth0", ETH).unwrap().changed);
    store
}

fn refused<T: std::fmt::Debug + PartialEq>(answer: Result<T, Error>, by: Refusal) {
    assert_eq!(answer, Err(Error::Refused(by)));
}

fn text(store: &mut Store) -> String {
    String::from_utf8(store.snapshot(None).unwrap().items().unwrap().into_text()).unwrap()
}

#[test]
fn versions_rise() {
    let mut store = started();
    let mut eth0 = Publisher::open(&mut store, ETH).unwrap();
    assert!(eth0.publish(&mut store, "mtu", 1500, false).unwrap().changed);
    refused(eth0.publish(&mut store, "mtu", 9000, false), Refusal::Exists);
    assert!(eth0.publish(&mut store, "mtu", 9000, true).unwrap().changed);
    assert_eq!(text(&mut store), "eth0 label rs 3.0 = 3/16\nmtu u32 eth0 3.2 = 9000\n");
    assert!(eth0.delete(&mut store, "mtu", Kind::U32).unwrap().changed);
    assert_eq!(text(&mut store), "eth0 label rs 3.0 = 3/16\nmtu u32 eth0 3.3 -\n");
    assert_eq!(eth0.draw(), Version::new(3, 4));
}

#[test]
fn a_later_publisher_continues() {
    let mut store = started();
    store.rs_started("tty", Endpoint::new(4, 17)).unwrap();
    let mut tty = Publisher::open(&mut store, Endpoint::new(4, 17)).unwrap();
    for _ in 0..9 {
        tty.publish(&mut store, "tty.speed", 9600, true).unwrap();
    }
    store.merge(&Items::from(b"old u32 eth0 2.77 = 1\nother u32 tty 3.88 = 1\n".to_vec())).unwrap();
    let mut first = Publisher::open(&mut store, ETH).unwrap();
    first.publish(&mut store, "mtu", 1500, true).unwrap();
    first.publish(&mut store, "mac", &b"RT"[..], true).unwrap();
    first.delete(&mut store, "mac", Kind::Mem).unwrap();
    let mut second = Publisher::open(&mut store, ETH).unwrap();
    assert_eq!(second.draw(), Version::new(3, 3));
    second.publish(&mut store, "mtu", 9000, true).unwrap();
    refused(first.publish(&mut store, "mtu", 1500, true), Refusal::Stale);
    assert_eq!(store.retrieve::<u32>("mtu"), Ok(9000));
    assert_eq!(second.draw(), Version::new(3, 5));
    store.rs_started("eth0", Endpoint::new(5, 16)).unwrap();
    refused(second.publish(&mut store, "mtu", 1, true), Refusal::NoCaller);
    assert_eq!(Publisher::open(&mut store, Endpoint::new(5, 16)).unwrap().draw(), Version::new(5, 0));
}

#[test]
fn the_last_number() {
    let mut store = started();
    store.merge(&Items::from(b"mtu u32 eth0 3.4294967295 -\n".to_vec())).unwrap();
    let mut eth0 = Publisher::open(&mut store, ETH).unwrap();
    assert!(eth0.publish(&mut store, "mtu", 1, true).is_err());
    assert_eq!(eth0.draw(), Version::new(3, u32::MAX));
}

#[test]
fn a_death() {
    let mut store = started();
    store.rs_started("ethX0", Endpoint::new(4, 17)).unwrap();
    store.subscribe(40, Scope::new("eth0", Kind::Label), false, false).unwrap();
    store.subscribe(41, Scope::new("mtu", Kinds::ALL), false, false).unwrap();
    Publisher::open(&mut store, ETH).unwrap().publish(&mut store, "mtu", 1500, true).unwrap();
    let swept = store.rs_died("eth0").unwrap();
    assert_eq!((swept.dropped, swept.owed.iter().collect::<Vec<_>>()), (1, vec![40, 41]));
    assert_eq!(text(&mut store), "! eth0 3\neth0 label rs 3.1 -\nethX0 label rs 4.0 = 4/17\n");
    assert_eq!(store.rs_died("eth0").unwrap().dropped, 0);
    refused(Publisher::open(&mut store, ETH).map(|_| ()), Refusal::NotFound);
    refused(store.rs_started("eth0", ETH), Refusal::Stale);
    assert!(store.rs_started("eth0", Endpoint::new(5, 16)).unwrap().changed);
}

#[test]
fn a_name_with_a_dot() {
    let mut store = Store::open(1).unwrap();
    store.rs_started("a-b", ETH).unwrap();
    refused(store.rs_died("a.b"), Refusal::NotFound);
    let longest = ".".repeat(64);
    store.rs_started(&longest, Endpoint::new(5, 18)).unwrap();
    store.rs_died(&longest).unwrap();
    let items = store.snapshot(None).unwrap().items().unwrap();
    assert!(items.iter().any(|it| matches!(it, Item::Change(it) if it.name == longest && it.version == Version::new(5, 1))));
    for wrong in ["", "eth(", &".".repeat(65)] {
        assert_eq!(store.rs_died(wrong), Err(Error::NoRequest));
    }
}

#[test]
fn beside_rs() {
    let mut rs = Rs::open(1, SETTINGS).unwrap();
    let _ = rs.up("eth0", 0).unwrap();
    refused(rs.store().rs_died("eth0"), Refusal::NotAllowed);
    refused(rs.store().rs_started("eth0", ETH), Refusal::NotAllowed);
    let mut eth0 = Publisher::open(rs.store(), Endpoint::new(1, 16)).unwrap();
    assert!(eth0.publish(rs.store(), "mtu", 1500, false).unwrap().changed);
}
