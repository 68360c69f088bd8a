//! A supervisor in small: RS decides, this program carries out. Processes are lines of output here, and time is a number.
//!
//!     cargo run --quiet --offline --manifest-path rust/pengtawis/Cargo.toml --example supervisor
//!
//! docs/guide/rust.md says where the crate finds the library.

use pengtawis::{Acted, Action, Cause, Endpoint, Error, Rs};

const SETTINGS: &str = r#"
format = 2
[[service]]
label = "disk"
class = "block"
unit = 3
period = 5 # ticks from one ping to the next
limit = 2  # failures in a row that are answered by a start
"#;

/// Carries out the actions of an event, in order.
fn carry_out(what: &str, tick: u64, acted: &Acted) {
    if !acted.is_empty() {
        println!("tick {tick}, {what}");
    }
    for action in acted.iter() {
        match action {
            Action::Kill { endpoint } => println!("  kill {endpoint}"),
            Action::Start { label, endpoint } => println!("  start {label} as {endpoint}"),
            Action::Ping { endpoint } => println!("  ping {endpoint}"),
            Action::GiveUp { label } => println!("  {label} is given up"),
            _ => {} // the store has taken an offer or a sweep
        }
    }
}

/// Sleeps until a tick has actions, and reports that tick until it has none.
fn sleep_until_due(rs: &mut Rs) -> Result<u64, Error> {
    let tick = match rs.due() {
        Some(tick) => tick,
        None => return Ok(0),
    };
    loop {
        let acted = rs.tick(tick)?;
        carry_out("time passed", tick, &acted);
        if acted.is_empty() {
            return Ok(tick);
        }
    }
}

/// Prints where clients find the driver: its label in the store.
fn find(rs: &mut Rs) {
    match rs.store().retrieve::<Endpoint>("disk") {
        Ok(endpoint) => println!("clients find it at {endpoint}"),
        Err(_) => println!("clients find it nowhere"),
    }
}

fn main() -> Result<(), Box<dyn std::error::Error>> {
    let mut rs = Rs::open(1, SETTINGS)?;
    carry_out("an administrator brings it up", 1, &rs.up("disk", 1)?);
    find(&mut rs);
    carry_out("it exits", 2, &rs.death(Endpoint::new(1, 16), Cause::Exit, 2)?);
    find(&mut rs);
    sleep_until_due(&mut rs)?;
    find(&mut rs);
    sleep_until_due(&mut rs)?; // a ping
    sleep_until_due(&mut rs)?; // it isn't answered in time
    let tick = sleep_until_due(&mut rs)? + 9;
    carry_out("a trap", tick, &rs.death(Endpoint::new(3, 16), Cause::Exception, tick)?);
    find(&mut rs);
    Ok(())
}
