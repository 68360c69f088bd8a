//! The same as examples/c/driver.c, by the crate of rust/pengtawis: a driver dies and comes back, and inet follows it.
//!
//! From the repository's root, once `tools/build ds_c` has built the library:
//!
//!     export PENGTAWIS_LIB_DIR=$PWD/crates/ds_c/out:$(dirname "$(rt doc | head -n 1)")/c
//!     cargo run --quiet --offline --manifest-path rust/pengtawis/Cargo.toml --example driver

use pengtawis::{Cursor, Endpoint, Error, Kind, Owed, Refusal, Scope, Shown, Store, Version, RS};
use std::io::Write;

const INET: u32 = 40; // inet's subscription
const MOST: u32 = 256; // items of one answer

/// Prints an answer: its word, and whether inet is owed a notice.
fn print(what: &str, word: &str, owed: &Owed) {
    println!("{what}: {word}{}", if owed.contains(INET) { ", and inet is owed a notice" } else { "" });
}

/// Prints a refusal, unless memory ran out: that is the example's own fault.
fn print_refusal(what: &str, fault: Error) -> Result<(), Error> {
    match fault {
        Error::Refused(refusal) if refusal != Refusal::NoRoom => {
            print(what, &format!("refused {}", refusal.word()), &Owed::default());
            Ok(())
        }
        other => Err(other),
    }
}

/// Prints an answer that has items. Returns whether there may be more of them, and where a since continues.
fn print_items(what: &str, word: &str, shown: Result<Shown<'_>, Error>) -> Result<(bool, Option<Cursor>), Error> {
    let mut shown = match shown {
        Ok(shown) => shown,
        Err(fault) => return print_refusal(what, fault).map(|_| (false, None)),
    };
    print(what, word, &Owed::default());
    std::io::stdout().write_all(shown.items()?.text()).expect("standard output");
    Ok((shown.count() == u64::from(MOST), shown.cursor()))
}

/// RS says that eth0 runs in this generation and slot.
fn started(store: &mut Store, at: Endpoint) -> Result<(), Error> {
    let done = store.rs_started("eth0", at)?;
    print("rs: eth0 runs", if done.changed { "changed" } else { "known" }, &done.owed);
    Ok(())
}

/// eth0, known by its endpoint, says its MTU on each of its networks: eth0.mtu, eth0.mtu1, eth0.mtu2 ..
fn publish_mtus(store: &mut Store, by: Endpoint, bytes: u32, networks: u32) -> Result<(), Error> {
    for network in 0..networks {
        let name = if network == 0 { "eth0.mtu".to_string() } else { format!("eth0.mtu{network}") };
        match store.publish(by, &name, bytes, Version::new(by.generation, 0), false) {
            Ok(done) => print("eth0: my mtu", if done.changed { "changed" } else { "known" }, &done.owed),
            Err(fault) => print_refusal("eth0: my mtu", fault)?,
        }
    }
    Ok(())
}

/// Asks for what inet wasn't shown until there is no more, because one answer has at most `MOST` items.
fn check(store: &mut Store) -> Result<(), Error> {
    while print_items("inet: what is new", "checked", store.check(INET, MOST))?.0 {}
    Ok(())
}

/// `driver [NETWORKS]`: eth0 publishes an MTU for each of its networks; by default it has one.
fn main() -> Result<(), Box<dyn std::error::Error>> {
    let networks = std::env::args().nth(1).map_or(Ok(1), |it| it.parse())?;
    let (first, second) = (Endpoint::new(3, 16), Endpoint::new(4, 16));
    let mut store = Store::open(1)?;
    let told = store.subscribe(INET, Scope::new("eth0.*", Kind::Label | Kind::U32), true, false)?;
    print("inet: follow eth0.*", "subscribed", &told.owed);

    started(&mut store, first)?;
    publish_mtus(&mut store, first, 1500, networks)?;
    check(&mut store)?;

    print("rs: eth0 died", "swept", &store.sweep(RS, "eth0", first.generation)?.owed);
    started(&mut store, second)?;
    publish_mtus(&mut store, first, 9000, networks)?; // the dead one, late
    publish_mtus(&mut store, second, 1492, networks)?;
    check(&mut store)?;

    print("inet: who is 4/16", "named", &Owed::default());
    println!("{}", store.name_of(second)?);
    let mut next = Some(Cursor { incarnation: 1, position: 2 });
    while let Some(cursor) = next {
        let (has_more, end) = print_items("inet: what came from position 2 on", "journaled", store.since(cursor, None, MOST))?;
        next = end.filter(|_| has_more);
    }
    print_items("inet: all that is held", "snapped", store.snapshot(None))?;
    Ok(())
}
