//! Four drivers, each a thread, publish how far they are in one store, while a client waits for their notices. Each thread calls the store at
//! a seat of its own, and no mutex is needed. It prints what `examples/c/threads.c` prints.
//!
//!     threads [CHANGES]        how many changes each driver makes; by default 1000

use pengtawis::{Desk, Endpoint, Error, Kind, Publisher, Scope, Seat};
use std::{env, thread};

const DRIVERS: u16 = 4;
const SERVER: u32 = 0;

fn name(at: u16) -> String {
    format!("disk{at}")
}

fn endpoint(at: u16) -> Endpoint {
    Endpoint::new(1, 16 + at)
}

/// Publishes 1, 2, 3 .. under the driver's own name, and returns the place of the last change.
fn drive(mut seat: Seat, at: u16, changes: u32) -> Result<Option<u64>, Error> {
    let mut driver = Publisher::open(&mut seat, endpoint(at))?;
    for it in 1..=changes {
        driver.publish(&mut seat, &name(at), it, true)?;
    }
    Ok(seat.place())
}

/// Takes notices, and counts what each check shows, until every driver has made its last change.
fn watch(mut seat: Seat, changes: u32) -> Result<(), Error> {
    let mut done = 0;
    while done < DRIVERS {
        if seat.take(SERVER)?.owed.is_empty() {
            thread::yield_now();
            continue;
        }
        seat.check(8 * SERVER, u32::from(DRIVERS))?.items()?;
        done = 0;
        while done < DRIVERS && matches!(seat.retrieve::<u32>(&name(done)), Ok(it) if it >= changes) {
            done += 1;
        }
    }
    Ok(())
}

/// RS publishes where each driver runs, and subscribes the client.
fn begin(rs: &mut Seat) -> Result<(), Error> {
    for at in 0..DRIVERS {
        rs.rs_started(&name(at), endpoint(at))?;
    }
    rs.subscribe(8 * SERVER, Scope::new("disk[0-9]+", Kind::U32), true, false)?;
    println!("rs: {DRIVERS} drivers run, the subscription is at place {}", rs.place().unwrap_or(0));
    Ok(())
}

fn main() -> Result<(), Error> {
    let changes = env::args().nth(1).and_then(|it| it.parse().ok()).unwrap_or(1000);
    let desk = Desk::open(1, u32::from(DRIVERS) + 2)?;
    let (mut rs, client) = (desk.seat()?, desk.seat()?);
    begin(&mut rs)?;
    let mut drivers = Vec::new();
    for at in 0..DRIVERS {
        let seat = desk.seat()?;
        drivers.push(thread::spawn(move || drive(seat, at, changes)));
    }
    let watcher = thread::spawn(move || watch(client, changes));
    let mut last = None;
    for it in drivers {
        last = last.max(it.join().expect("a driver failed")?);
    }
    watcher.join().expect("the client failed")?;
    for at in 0..DRIVERS {
        println!("{}: {} changes", name(at), rs.retrieve::<u32>(&name(at))?);
    }
    println!("client: every driver is done{}", if rs.place() > last { ", and rs asked after them" } else { "" });
    Ok(())
}
