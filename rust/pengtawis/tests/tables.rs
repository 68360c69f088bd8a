//! A driver table: where requests go, and what each call refuses.

use pengtawis::{Class, Endpoint, Error, Items, Kind, Map, Move, Refusal, Server, Table};

const DISK: Endpoint = Endpoint::new(3, 16);
const LATER: Endpoint = Endpoint::new(4, 17);

fn runs(drivers: &mut Map, label: &str, at: Endpoint) {
    drivers.take(&Items::from(format!("{label} label rs {}.0 = {at}\n", at.generation).into_bytes())).unwrap();
}

fn of_disk() -> (Map, Table) {
    let mut table = Table::new(Server::Files).unwrap();
    table.assign(3, Class::Block, "disk").unwrap();
    table.assign(4, Class::Character, "tty").unwrap();
    (Map::new(".*", Kind::Label).unwrap(), table)
}

fn sent(request: u64, endpoint: Endpoint) -> Move {
    Move::Send { request, endpoint }
}

#[test]
fn a_block_request_is_sent_again() {
    let (mut drivers, mut table) = of_disk();
    assert_eq!(table.submit(&mut drivers, 1, 3).collect::<Vec<_>>(), [Move::Held { request: 1 }]);
    runs(&mut drivers, "disk", DISK);
    assert_eq!(table.submit(&mut drivers, 2, 3).collect::<Vec<_>>(), [sent(1, DISK), sent(2, DISK)]);
    assert_eq!(table.reply(DISK, 1), Ok(()));
    runs(&mut drivers, "disk", LATER);
    assert_eq!(table.follow(&mut drivers).collect::<Vec<_>>(), [sent(2, LATER)]);
    runs(&mut drivers, "disk", DISK); // late
    assert_eq!(table.follow(&mut drivers).count(), 0);
    assert_eq!(table.reply(DISK, 2), Err(Error::Refused(Refusal::OldEndpoint)));
    assert_eq!(table.reply(LATER, 2), Ok(()));
}

#[test]
fn another_request_fails_with_its_driver() {
    let (mut drivers, mut table) = of_disk();
    runs(&mut drivers, "tty", DISK);
    assert_eq!(table.submit(&mut drivers, 1, 4).collect::<Vec<_>>(), [sent(1, DISK)]);
    drivers.take(&Items::from(b"tty label rs 3.1 -\n".to_vec())).unwrap();
    assert_eq!(table.follow(&mut drivers).collect::<Vec<_>>(), [Move::Fault { request: 1 }]);
}

#[test]
fn ports_start() {
    let (mut drivers, mut table) = (Map::new(".*", Kind::Label).unwrap(), Table::new(Server::Network).unwrap());
    table.assign(0, Class::Network, "eth").unwrap();
    table.assign(1, Class::Network, "eth").unwrap();
    runs(&mut drivers, "eth", DISK);
    let started = |unit| Move::Start { unit, endpoint: DISK };
    assert_eq!(table.submit(&mut drivers, 1, 1).collect::<Vec<_>>(), [started(0), started(1), sent(1, DISK)]);
}

#[test]
fn a_refused_submission_has_the_moves_of_its_follow() {
    let (mut drivers, mut table) = of_disk();
    assert_eq!(table.submit(&mut drivers, 1, 3).count(), 1);
    runs(&mut drivers, "disk", DISK);
    let moves = table.submit(&mut drivers, 2, 99);
    assert_eq!((moves.refused(), moves.size_hint()), (Some(Refusal::NoDevice), (1, Some(1))));
    assert_eq!(moves.collect::<Vec<_>>(), [sent(1, DISK)]);
}

#[test]
fn what_it_refuses() {
    let (mut drivers, mut table) = of_disk();
    assert_eq!(table.assign(3, Class::Block, "tty"), Err(Error::Refused(Refusal::Assigned)));
    assert_eq!(table.assign(5, Class::Network, "eth"), Err(Error::NoRequest));
    assert_eq!(table.assign(5, Class::Block, "a b"), Err(Error::NoRequest));
    assert_eq!(table.submit(&mut drivers, 7, 3).refused(), None);
    assert_eq!(table.submit(&mut drivers, 7, 3).refused(), Some(Refusal::TwoIds));
    assert_eq!(table.reply(DISK, 8), Err(Error::Refused(Refusal::NotPending)));
    assert_eq!(table.reply(Endpoint::new(1, 1024), 7), Err(Error::NoRequest));
    assert_eq!(Refusal::NotPending.word(), "notpending");
}
