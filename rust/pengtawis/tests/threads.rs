//! A store for each thread, a store that moves between threads, and a store that threads share by a lock.

mod memory;

use pengtawis::{Endpoint, Kind, Map, Store, Version, RS};
use std::sync::{Arc, Mutex};
use std::thread;

const THREADS: u32 = 8;
const CALLS: u32 = 500;

fn driver(at: u32) -> (String, Endpoint) {
    (format!("eth{at}"), Endpoint::new(1, 100 + at as u16))
}

/// One driver publishes its count over and over.
fn publish(store: &mut Store, at: u32, seq: u32) {
    let (name, endpoint) = driver(at);
    store.publish(endpoint, &name, seq, Version::new(1, seq), true).unwrap();
}

fn with_drivers(incarnation: u64) -> Store {
    let mut store = Store::open(incarnation).unwrap();
    for at in 0..THREADS {
        let (name, endpoint) = driver(at);
        store.publish(RS, &name, endpoint, Version::new(1, 0), false).unwrap();
    }
    store
}

/// What a store holds when each driver has published all its counts.
fn is_whole(store: &mut Store) {
    for at in 0..THREADS {
        assert_eq!(store.retrieve::<u32>(&driver(at).0), Ok(CALLS - 1));
    }
    assert_eq!(store.snapshot(None).unwrap().cursor().unwrap().position, u64::from(THREADS + THREADS * CALLS));
}

#[test]
fn a_store_for_each_thread() {
    let threads: Vec<_> = (0..THREADS).map(|it| thread::spawn(move || {
        let mut store = with_drivers(u64::from(it));
        (0..CALLS).for_each(|seq| (0..THREADS).for_each(|at| publish(&mut store, at, seq)));
        store
    })).collect();
    for it in threads {
        is_whole(&mut it.join().unwrap()); // which another thread made
    }
}

#[test]
fn a_store_by_a_lock() {
    let store = Arc::new(Mutex::new(with_drivers(1)));
    let threads: Vec<_> = (0..THREADS).map(|at| {
        let store = Arc::clone(&store);
        thread::spawn(move || (0..CALLS).for_each(|seq| publish(&mut store.lock().unwrap(), at, seq)))
    }).collect();
    threads.into_iter().for_each(|it| it.join().unwrap());
    is_whole(&mut store.lock().unwrap());
}

/// 500 stores of 200 KB would be 100 MB.
#[test]
fn memory_goes_back() {
    let before = memory::most();
    for _ in 0..500 {
        let (mut store, mut map) = (with_drivers(1), Map::new(".*", Kind::Mem).unwrap());
        for at in 0..100 {
            store.publish(driver(0).1, &format!("m{at}"), &[0; 1024][..], Version::new(1, 0), false).unwrap();
        }
        map.take(&store.snapshot(None).unwrap().items().unwrap()).unwrap();
    }
    assert!(memory::most() < before + 60_000, "{before} and then {} kB", memory::most());
}

#[test]
fn what_may_move() {
    fn moves<T: Send>() {}
    moves::<Store>();
    moves::<Map>();
}
