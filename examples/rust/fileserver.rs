//! The same as examples/c/fileserver.c, by the crate of rust/pengtawis: a file server follows its disk drivers by a map, and sends them
//! requests by a driver table. It never sends to an older driver than it knew.
//!
//!     cargo run --quiet --offline --manifest-path rust/pengtawis/Cargo.toml --example fileserver
//!
//! docs/guide/rust.md says where the crate finds the library.

use pengtawis::{Class, Cursor, Endpoint, Error, Items, Kind, Map, Merged, Move, Moves, Refusal, Server, Shown, Store, Table, RS};
use std::collections::BTreeMap;

const FIRST_SLOT: u16 = 16; // of the disks' drivers
const MOST_DISKS: u16 = 1000; // slots end at 1023
const JOURNAL: u32 = 512; // items that the store's journal keeps
const MOST: u32 = 256; // items of an answer to a since

/// The names are disk, disk1, disk2 ..
fn name_of(disk: u16) -> String {
    match disk {
        0 => "disk".to_string(),
        _ => format!("disk{disk}"),
    }
}

/// RS says that each disk's driver runs in this generation, in a slot of its own.
fn started(store: &mut Store, disks: u16, generation: u32) -> Result<(), Error> {
    for disk in 0..disks {
        let (name, at) = (name_of(disk), Endpoint::new(generation, FIRST_SLOT + disk));
        store.rs_started(&name, at)?;
        println!("rs: {name} runs at {at}");
    }
    Ok(())
}

fn died(store: &mut Store, generation: u32) -> Result<(), Error> {
    store.sweep(RS, "disk", generation)?;
    println!("rs: disk of generation {generation} died");
    Ok(())
}

/// Follows the drivers of its disks by a map, and sends them requests by a table.
struct FileServer {
    drivers: Map,
    table: Table,
    cursor: Option<Cursor>,        // after what was taken
    units: Vec<u8>,                // one for each disk, but at most 256
    requests: u64,                 // the id of the last one
    sent: BTreeMap<u64, Endpoint>, // where each request is, by its id, until it is done
}

impl FileServer {
    fn new(disks: u16) -> Result<FileServer, Error> {
        let (drivers, mut table) = (Map::new("disk.*", Kind::Label)?, Table::new(Server::Files)?);
        let units: Vec<u8> = (0..=u8::MAX).take(disks.into()).collect();
        for unit in &units {
            table.assign(*unit, Class::Block, &name_of((*unit).into()))?;
        }
        Ok(FileServer { drivers, table, cursor: None, units, requests: 0, sent: BTreeMap::new() })
    }

    /// Submits a request to each unit.
    fn submit(&mut self) -> Result<(), Error> {
        for unit in &self.units {
            self.requests += 1;
            carry_out(self.table.submit(&mut self.drivers, self.requests, *unit), &mut self.sent)?;
        }
        Ok(())
    }

    /// Takes all that is new, and lets the table follow: what waits is sent, and what a dead driver had is sent again.
    fn catch_up(&mut self, store: &mut Store) -> Result<(), Error> {
        self.take_new(store)?;
        carry_out(self.table.follow(&mut self.drivers), &mut self.sent)
    }

    /// Takes what came after the cursor. Without one, or if the journal has forgotten it, takes all that is held.
    fn take_new(&mut self, store: &mut Store) -> Result<(), Error> {
        while let Some(cursor) = self.cursor {
            match store.since(cursor, None, MOST) {
                Ok(shown) if shown.count() < u64::from(MOST) => return self.take_shown("what came since", shown),
                Ok(shown) => self.take_shown("what came since", shown)?, // there may be more
                Err(Error::Refused(Refusal::Behind)) => self.cursor = None,
                Err(other) => return Err(other),
            }
        }
        self.take_shown("all that is held", store.snapshot(None)?)
    }

    /// Takes the items of an answer, and puts the cursor after them.
    fn take_shown(&mut self, what: &str, mut shown: Shown<'_>) -> Result<(), Error> {
        self.take(what, &shown.items()?)?;
        self.cursor = shown.cursor();
        Ok(())
    }

    fn take(&mut self, what: &str, items: &Items) -> Result<(), Error> {
        let Merged { done, taken, stale, .. } = self.drivers.take(items)?;
        println!("fs: {what}: {done} items, {taken} taken, {stale} stale");
        Ok(())
    }

    /// Each driver replies to the requests that were sent to it.
    fn reply(&mut self) -> Result<(), Error> {
        for (request, at) in std::mem::take(&mut self.sent) {
            self.table.reply(at, request)?;
            println!("fs: request {request} is done");
        }
        Ok(())
    }

    /// The driver that died replied before its death.
    fn reply_late(&mut self, at: Endpoint, request: u64) -> Result<(), Error> {
        match self.table.reply(at, request) {
            Err(Error::Refused(refusal)) => println!("fs: a reply from {at} is refused: {}", refusal.word()),
            other => return other,
        }
        Ok(())
    }
}

/// Carries out the moves of a table, in order.
fn carry_out(mut moves: Moves<'_>, sent: &mut BTreeMap<u64, Endpoint>) -> Result<(), Error> {
    for it in &mut moves {
        match it {
            Move::Send { request, endpoint } => {
                println!("fs: request {request} goes to {endpoint}");
                sent.insert(request, endpoint);
            }
            Move::Held { request } => println!("fs: request {request} waits for a driver"),
            other => unreachable!("a disk has no {other:?}"),
        }
    }
    moves.refused().map_or(Ok(()), |it| Err(it.into()))
}

/// `fileserver [DISKS]`: the number of disks, at most 1000; by default 1. The first 256 have a unit.
fn main() -> Result<(), Box<dyn std::error::Error>> {
    let disks = std::env::args().nth(1).map_or(Ok(1), |it| it.parse())?;
    if disks > MOST_DISKS {
        return Err("too many disks".into());
    }
    let mut store = Store::open_with(1, 0, JOURNAL)?;
    let mut server = FileServer::new(disks)?;
    server.submit()?;

    started(&mut store, disks, 3)?;
    server.catch_up(&mut store)?;
    server.reply()?;
    let second = server.requests + 1; // the first request of the second round
    server.submit()?;

    died(&mut store, 3)?;
    started(&mut store, disks, 4)?;
    server.catch_up(&mut store)?;

    let late = Items::from(b"disk label rs 3.0 = 3/16\n".to_vec()); // another server passes it on
    server.take("the first message, late", &late)?;
    server.reply_late(Endpoint::new(3, FIRST_SLOT), second)?;
    server.reply()?;
    Ok(())
}
