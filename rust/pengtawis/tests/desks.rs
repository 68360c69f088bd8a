//! Threads at a desk. Their calls are made again by one thread at a store of its own, in the order of their places: each place comes once,
//! and each answer is the same.

mod memory;

use pengtawis::{Desk, Endpoint, Error, Items, Kind, Kinds, Refusal, Scope, Seat, Store, RS};
use std::sync::atomic::{AtomicBool, Ordering};
use std::thread;
use std::time::{Duration, Instant};

const THREADS: u16 = 8;
const CALLS: u32 = 500;
const SERVER: u32 = 5;
const SUB: u32 = 8 * SERVER;
const RING: u32 = 64;

fn endpoint(at: u16) -> Endpoint {
    Endpoint::new(1, 100 + at)
}

/// A call of a thread, drawn by its number.
#[derive(Clone, Copy, Debug)]
struct Call {
    by: u16,
    seq: u32,
    drawn: u64,
}

/// Makes a call of a store or at a seat, and returns the answer with its text.
macro_rules! answer {
    ($asked:expr, $call:expr) => {{
        let Call { by, seq, drawn } = $call;
        let (key, of) = (drawn / 8 % 8, drawn / 64 % u64::from(THREADS));
        let (own, other) = (format!("t{by}.n{key}"), format!("t{of}.n{key}"));
        let text = format!("{drawn:x}");
        match drawn % 8 {
            0 | 1 => format!("{:?}", $asked.publish(endpoint(by), &own, seq, (1, seq), true)),
            2 => format!("{:?}", $asked.publish(endpoint(by), &own, &text, (1, seq), true)),
            3 => format!("{:?}", $asked.delete(endpoint(by), &own, Kind::U32, (1, seq))),
            4 => format!("{:?}", $asked.check(SUB, 8).and_then(|mut it| Ok((it.count(), it.items()?)))),
            5 => format!("{:?}", $asked.retrieve::<u32>(&other)),
            6 => {
                let scope = Scope::new("t[0-3].*", Kind::Str);
                format!("{:?}", $asked.snapshot(Some(scope)).and_then(|mut it| Ok((it.cursor(), it.items()?))))
            }
            _ => format!("{:?}", $asked.retrieve::<String>(&other)),
        }
    }};
}

/// Makes the first calls: a label for each thread, and a subscription.
macro_rules! begin {
    ($asked:expr) => {
        for at in 0..THREADS {
            $asked.publish(RS, &format!("t{at}"), endpoint(at), (1, 0), false).unwrap();
        }
        $asked.subscribe(SUB, Scope::new(".*", Kinds::ALL), true, false).unwrap();
    };
}

/// Makes a thread's calls. Its places rise.
fn called(mut seat: Seat, by: u16) -> Vec<(u64, Call, String)> {
    let (mut made, mut drawn) = (Vec::new(), 88172645463325252 + 977 * u64::from(by));
    for seq in 0..CALLS {
        drawn ^= drawn << 13;
        drawn ^= drawn >> 7;
        drawn ^= drawn << 17;
        let call = Call { by, seq, drawn };
        let answer = answer!(seat, call);
        made.push((seat.place().unwrap(), call, answer));
    }
    assert!(made.windows(2).all(|it| it[0].0 < it[1].0), "a place went back");
    made
}

/// Takes notices until the callers have ended, and returns how often there were some. The floor never falls.
fn listened(mut seat: Seat, is_over: &AtomicBool) -> u32 {
    let (mut count, mut floor) = (0, 0);
    loop {
        let was_over = is_over.load(Ordering::SeqCst);
        let notices = seat.take(SERVER).unwrap();
        assert!(notices.floor >= floor && notices.owed.iter().all(|it| it == SUB), "{notices:?}");
        floor = notices.floor;
        count += u32::from(!notices.owed.is_empty());
        if was_over && notices.owed.is_empty() {
            return count;
        }
        thread::yield_now();
    }
}

#[test]
fn as_one_thread() {
    let desk = Desk::open_with(7, 0, RING, u32::from(THREADS) + 2).unwrap();
    let mut home = desk.seat().unwrap();
    begin!(home);
    let first = home.place().unwrap() + 1;
    let is_over = AtomicBool::new(false);
    let mut all = Vec::new();
    thread::scope(|threads| {
        let seat = desk.seat().unwrap();
        let listener = threads.spawn(|| listened(seat, &is_over));
        let seats: Vec<_> = (0..THREADS).map(|at| (at, desk.seat().unwrap())).collect();
        let callers: Vec<_> = seats.into_iter().map(|(at, seat)| threads.spawn(move || called(seat, at))).collect();
        callers.into_iter().for_each(|it| all.extend(it.join().unwrap()));
        is_over.store(true, Ordering::SeqCst);
        assert!(listener.join().unwrap() > 0, "no notice came");
    });
    all.sort_by_key(|it| it.0);
    let mut store = Store::open_with(7, 0, RING).unwrap();
    begin!(store);
    for (at, (place, call, given)) in all.iter().enumerate() {
        assert_eq!(*place, first + at as u64);
        assert_eq!(*given, answer!(store, *call), "{call:?}");
    }
    assert_eq!(all.len(), usize::from(THREADS) * CALLS as usize);
    let held = |it: Result<Items, Error>| it.unwrap().into_text();
    let of_all = home.snapshot(None).and_then(|mut it| Ok(it.items()?));
    assert_eq!(held(of_all), held(store.snapshot(None).and_then(|mut it| Ok(it.items()?))));
}

/// A call that doesn't wait meets a busy desk at last, and changes nothing then.
#[test]
fn busy() {
    let desk = Desk::open(1, 3).unwrap();
    let is_over = AtomicBool::new(false);
    thread::scope(|threads| {
        for _ in 0..2 {
            let mut seat = desk.seat().unwrap();
            let is_over = &is_over;
            threads.spawn(move || while !is_over.load(Ordering::SeqCst) { seat.snapshot(None).unwrap().items().unwrap(); });
        }
        let mut seat = desk.seat().unwrap();
        seat.set_waiting(false);
        let end = Instant::now() + Duration::from_secs(60);
        let (mut place, mut is_met) = (None, false);
        while !is_met && Instant::now() < end {
            match seat.publish(RS, "eth0", Endpoint::new(1, 16), (1, 0), false) {
                Ok(_) => assert!(seat.place() > place),
                Err(why) => {
                    assert_eq!((why.refusal(), seat.place()), (Some(Refusal::IsBusy), place));
                    is_met = true;
                }
            }
            place = seat.place();
        }
        is_over.store(true, Ordering::SeqCst);
        assert!(is_met, "no call was busy");
    });
}

#[test]
fn refusals() {
    let last = 1 << 62;
    assert_eq!(Desk::open(1, 0).err(), Some(Refusal::TooMany));
    assert_eq!(Desk::open_with(1, 0, 0, 65).err(), Some(Refusal::TooMany));
    assert_eq!(Desk::open_with(1, last + 1, 0, 64).err(), Some(Refusal::BadRing));
    assert_eq!(Desk::open_with(1, last + 1, 1, 64).err(), Some(Refusal::BadFirst));
    let desk = Desk::open(1, 1).unwrap();
    let mut seat = desk.seat().unwrap();
    assert_eq!(desk.seat().err(), Some(Refusal::NoSeat));
    assert_eq!(seat.take(16), Err(Refusal::BadSub));
    assert_eq!(seat.place(), None);
    assert_eq!(seat.retrieve::<u32>("mtu"), Err(Error::Refused(Refusal::NotFound)));
    assert_eq!(seat.place(), Some(0));
    assert_eq!(seat.retrieve::<u32>("a name"), Err(Error::NoRequest));
    assert_eq!(seat.place(), None);
}

/// A desk may be dropped before its seats. 300 desks of 200 KB would be 60 MB.
#[test]
fn memory_goes_back() {
    let fill = || {
        let desk = Desk::open(1, 2).unwrap();
        let (mut seat, idle) = (desk.seat().unwrap(), desk.seat().unwrap());
        drop(desk);
        seat.publish(RS, "eth0", Endpoint::new(1, 16), (1, 0), false).unwrap();
        for at in 0..100 {
            seat.publish(Endpoint::new(1, 16), &format!("m{at}"), &[0; 1024][..], (1, 0), false).unwrap();
        }
        thread::spawn(move || drop(idle)).join().unwrap();
    };
    (0..20).for_each(|_| fill());
    let before = memory::most();
    (0..300).for_each(|_| fill());
    assert!(memory::most() < before + 30_000, "{before} and then {} kB", memory::most());
}

#[test]
fn what_may_move() {
    fn moves<T: Send>() {}
    fn is_shared<T: Sync>() {}
    moves::<Seat>();
    moves::<Desk>();
    is_shared::<Desk>();
}
