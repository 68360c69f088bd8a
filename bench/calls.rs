//! `calls WHAT COUNT`: does what bench/calls.c does, with the crate for Rust.

use pengtawis::{Endpoint, Error, Store, Version, RS};

const DRIVERS: u32 = 16;

fn at(driver: u32) -> Endpoint {
    Endpoint::new(driver + 1, 16 + driver as u16)
}

fn main() -> Result<(), Error> {
    let words: Vec<_> = std::env::args().collect();
    let (what, count): (&str, u32) = (&words[1], words[2].parse().expect("a number"));
    let (mut store, mut sum) = (Store::open(1)?, 0u64);
    let names: Vec<_> = (0..DRIVERS).map(|it| format!("d{it}.mtu")).collect();
    for it in 0..DRIVERS {
        store.publish(RS, &format!("d{it}"), at(it), Version::new(it + 1, 0), false)?;
        store.publish(at(it), &names[it as usize], 0, Version::new(it + 1, 0), false)?;
        store.publish(at(it), &names[it as usize], &[0; 1024][..], Version::new(it + 1, 0), false)?;
    }
    for i in 1..=count {
        let driver = i % DRIVERS;
        let name = &names[driver as usize];
        sum += match what {
            "publish" => store.publish(at(driver), name, i, Version::new(driver + 1, i), true)?.changed.into(),
            "retrieve" => store.retrieve::<u32>(name)?.into(),
            "nameof" => store.name_of(at(driver))?.len() as u64,
            "memory" => store.retrieve::<Vec<u8>>(name)?.len() as u64,
            _ => panic!("publish, retrieve, nameof or memory"),
        };
    }
    println!("{sum}");
    Ok(())
}
