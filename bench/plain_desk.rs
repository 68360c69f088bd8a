//! `plain_desk`: a plain, fast, unproved store behind a `Mutex`, to compare a desk over a store with.
//!
//! Each line of standard input is `overwrite THREADS CALLS`, as `test_desk` has it: threads that overwrite a label each,
//! under one subscription; or `load COUNT`: COUNT loads of an atomic word. The store keeps what is held in an ordered map
//! with the subscriptions that each key is under, the floors of owners, the names of endpoints, and the last 256 changes;
//! notices are bits of 16 atomic words. `rustc -O` builds it.
use std::collections::{BTreeMap, BTreeSet, VecDeque};
use std::hint::black_box;
use std::io::BufRead;
use std::sync::atomic::{AtomicU64, Ordering};
use std::sync::Mutex;
use std::thread;

const RING: usize = 256;

#[derive(Clone, Copy, PartialEq, Eq, PartialOrd, Ord)]
struct Version {
    epoch: u32,
    seq: u32,
}

#[derive(Clone, Copy, PartialEq, Eq, PartialOrd, Ord)]
struct Endpoint {
    generation: u32,
    slot: u16,
}

struct Entry {
    version: Version,
    endpoint: Endpoint,
    /// The subscriptions under whose pattern the key is, and those that weren't shown it.
    under: u128,
    unshown: u128,
}

struct Change {
    position: u64,
    name: Box<[u8]>,
    version: Version,
    endpoint: Endpoint,
}

enum Reply {
    Changed { owed: u128 },
    Known,
    Stale,
}

#[derive(Default)]
struct Store {
    held: BTreeMap<Box<[u8]>, Entry>,
    floors: BTreeMap<Box<[u8]>, u32>,
    names: BTreeSet<(Endpoint, Box<[u8]>)>,
    journal: VecDeque<Change>,
    followers: u128,
    position: u64,
}

impl Store {
    fn follow(&mut self, subscription: u32) -> Reply {
        self.followers |= 1 << subscription;
        for entry in self.held.values_mut() {
            entry.under |= 1 << subscription;
        }
        Reply::Changed { owed: 0 }
    }

    fn publish(&mut self, name: &[u8], version: Version, endpoint: Endpoint) -> Reply {
        if self
            .floors
            .get(name)
            .is_some_and(|floor| version.epoch <= *floor)
        {
            return Reply::Stale;
        }
        let owed = match self.held.get_mut(name) {
            Some(entry) if version == entry.version => return Reply::Known,
            Some(entry) if version < entry.version => return Reply::Stale,
            Some(entry) => {
                self.names.remove(&(entry.endpoint, name.into()));
                (entry.version, entry.endpoint) = (version, endpoint);
                entry.unshown |= entry.under;
                entry.under
            }
            None => {
                let (under, unshown) = (self.followers, self.followers);
                self.held.insert(
                    name.into(),
                    Entry {
                        version,
                        endpoint,
                        under,
                        unshown,
                    },
                );
                under
            }
        };
        self.names.insert((endpoint, name.into()));
        if self.journal.len() == RING {
            self.journal.pop_front();
        }
        self.journal.push_back(Change {
            position: self.position,
            name: name.into(),
            version,
            endpoint,
        });
        self.position += 1;
        Reply::Changed { owed }
    }

    /// Returns a number that depends on all that is kept, so that no work is optimized away.
    fn sum(&self) -> u64 {
        let held = self.held.values().map(|it| {
            u64::from(it.endpoint.generation) + u64::from(it.endpoint.slot) + it.unshown as u64
        });
        let kept = self.journal.iter().map(|it| {
            it.position
                + u64::from(it.version.seq)
                + u64::from(it.endpoint.slot)
                + it.name.len() as u64
        });
        held.sum::<u64>() + kept.sum::<u64>()
    }
}

#[derive(Default)]
struct Desk {
    store: Mutex<Store>,
    pending: [AtomicU64; 16],
}

impl Desk {
    fn call(&self, step: impl FnOnce(&mut Store) -> Reply) -> Reply {
        let reply = step(&mut self.store.lock().unwrap());
        if let Reply::Changed { owed } = reply {
            for (server, word) in self.pending.iter().enumerate() {
                let bits = (owed >> (8 * server)) as u64 & 255;
                if bits != 0 {
                    word.fetch_or(bits, Ordering::SeqCst);
                }
            }
        }
        reply
    }
}

fn overwrite(threads: u32, calls: u32) -> u64 {
    let desk = Desk::default();
    thread::scope(|scope| {
        for number in 0..threads {
            let desk = &desk;
            scope.spawn(move || {
                desk.call(|store| store.follow(0));
                let name = format!("driver{number}");
                for turn in 0..calls {
                    let generation = 1 + turn % 2_000_000;
                    let endpoint = Endpoint {
                        generation,
                        slot: (number % 1000) as u16,
                    };
                    desk.call(|store| {
                        store.publish(
                            name.as_bytes(),
                            Version {
                                epoch: generation,
                                seq: 0,
                            },
                            endpoint,
                        )
                    });
                }
            });
        }
    });
    let store = desk.store.into_inner().unwrap();
    assert!(
        store.position == u64::from(threads) * u64::from(calls),
        "a change was refused"
    );
    store.sum()
}

fn load(count: u32) -> u64 {
    let word = AtomicU64::new(1);
    (0..count)
        .map(|_| black_box(&word).load(Ordering::SeqCst))
        .sum()
}

fn main() {
    for line in std::io::stdin().lock().lines() {
        let line = line.unwrap();
        let words: Vec<&str> = line.split(' ').collect();
        let number = |at: usize| words[at].parse().unwrap();
        let sum = match words[0] {
            "overwrite" => overwrite(number(1), number(2)),
            "load" => load(number(1)),
            _ => panic!("no such line"),
        };
        println!("sum {sum}");
    }
}
