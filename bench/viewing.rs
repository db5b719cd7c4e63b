//! Times boards: making one, publishing one version, and the looks of viewers on threads beside a publisher that goes on. Each
//! line is what was done, with how much beside it, and the microseconds of the thread's processor that one such call took.
use board::{start, Publisher, Viewer};
use shim::alloc::Global;
use shim::sync::Waiting;
use shim::Vec as List;
use std::sync::atomic::{AtomicUsize, Ordering};
use std::time::Duration;
use units::{Install, Key, Seen, ShardNo, Splits, Stamp, Value};
use versions::Places;

/// Looks that each viewer makes, and rounds of a hundred publications, of which the least counts.
const LOOKS: u64 = 500_000;
const ROUNDS: u64 = 50;

/// A board; earlier revisions are told no places, and have none with a horizon.
#[cfg(places)]
macro_rules! begun {
    ($rt:expr, $alloc:expr, $installs:expr, $places:expr, $safe:expr; $($rest:expr),*) => {
        start($rt, $alloc, $installs, $places, $safe, Stamp::zero(), $($rest),*)
    };
}
#[cfg(all(horizons, not(places)))]
macro_rules! begun {
    ($rt:expr, $alloc:expr, $installs:expr, $places:expr, $safe:expr; $($rest:expr),*) => {
        start($rt, $alloc, $installs, $safe, Stamp::zero(), $($rest),*)
    };
}
#[cfg(not(horizons))]
macro_rules! begun {
    ($rt:expr, $alloc:expr, $installs:expr, $places:expr, $safe:expr; $($rest:expr),*) => { start($rt, $alloc, $installs, $safe, $($rest),*) };
}

/// The places of the installs in order, as a core has them.
fn places_of(installs: &List<Install>) -> Places {
    let mut places = Places::none(Global);
    places.reserve(installs.len()).unwrap();
    for n in 0..installs.len() {
        places.follow(&installs[..n + 1], n);
    }
    places
}

#[repr(C)]
struct Timespec {
    seconds: i64,
    nanos: i64,
}

unsafe extern "C" {
    fn clock_gettime(clock: i32, time: *mut Timespec) -> i32;
}

// CLOCK_THREAD_CPUTIME_ID of Linux.
const THREAD: i32 = 3;

/// The processor's time that this thread has had, so that what else runs counts for little.
fn cpu() -> Duration {
    let mut time = Timespec { seconds: 0, nanos: 0 };
    // SAFETY: the pointer is that of a value of the layout that the call writes.
    unsafe { clock_gettime(THREAD, &mut time) };
    Duration::new(time.seconds as u64, time.nanos as u32)
}

fn tell(what: &str, took: Duration, calls: u64) {
    println!("{what:<56} {:>10.3}", took.as_secs_f64() * 1e6 / calls as f64);
}

/// Numbers without order.
fn scattered(number: u64) -> u64 {
    let mixed = (number ^ (number >> 31)).wrapping_mul(0x9e37_79b9_7f4a_7c15);
    (mixed ^ (mixed >> 29)).wrapping_mul(0xbf58_476d_1ce4_e5b9)
}

/// A key of 21 bytes.
fn key(number: u64) -> Key {
    Key::new(format!("k/account/{:011}", scattered(number) % 100_000_000_000).as_bytes()).unwrap()
}

fn version(number: u64, at: u64) -> Install {
    Install {
        key: key(number),
        at: Stamp::new(at).unwrap(),
        value: Some(Value::new(Global, b"a value of 20 bytes.").unwrap()),
    }
}

/// A board of so many versions, each of a key of its own, and its viewers.
fn board(count: u64, viewers: usize) -> (Publisher<Waiting>, List<Viewer>) {
    let mut installs = List::new(Global);
    for n in 0..count {
        installs.push(version(n, n + 1)).unwrap();
    }
    let splits = Splits::new(Global, &[]).unwrap();
    let _places = places_of(&installs);
    let began = cpu();
    let made = begun!(Waiting, Global, &installs, &_places, Stamp::new(count).unwrap(); splits, ShardNo::new(0).unwrap(), viewers);
    tell(&format!("making a board, {count} versions"), cpu() - began, 1);
    made.ok().unwrap()
}

/// One more version of one of the keys is shown, and all is served up to its timestamp.
fn publish(publisher: &mut Publisher<Waiting>, count: u64, at: u64) {
    publisher.install(version(scattered(at) % count, at)).unwrap();
    publisher.safe(Stamp::new(at).unwrap()).unwrap();
    publisher.publish().ok().unwrap();
}

/// The time of one viewer's looks.
fn look(viewer: &mut Viewer, keys: &[Key], at: Stamp) -> Duration {
    let mut buffer = [0; 64];
    let began = cpu();
    for turn in 0..LOOKS {
        let seen = viewer.look(&keys[turn as usize % keys.len()], at, &mut buffer);
        assert!(matches!(seen, Ok(Seen::Value(_))));
    }
    cpu() - began
}

/// The looks of some viewers, each on a thread of its own, while the publisher shows one version after another.
fn looks(count: u64, threads: usize) {
    let (mut publisher, viewers) = board(count, threads);
    let mut at = count;
    let mut least = Duration::MAX;
    for _ in 0..ROUNDS {
        let began = cpu();
        for _ in 0..100 {
            at += 1;
            publish(&mut publisher, count, at);
        }
        least = least.min(cpu() - began);
    }
    tell(&format!("publish one version, {count} versions"), least, 100);

    let keys: Vec<Key> = (0..10_000).map(|n| key(scattered(n) % count)).collect();
    let (ended, upto) = (AtomicUsize::new(0), Stamp::new(at).unwrap());
    let mut published = 0;
    let spent: Vec<Duration> = std::thread::scope(|scope| {
        let running: Vec<_> = viewers
            .into_iter()
            .map(|mut viewer| {
                let (ended, keys) = (&ended, &keys);
                scope.spawn(move || {
                    let spent = look(&mut viewer, keys, upto);
                    ended.fetch_add(1, Ordering::SeqCst);
                    spent
                })
            })
            .collect();
        while ended.load(Ordering::SeqCst) < threads {
            published += 1;
            publish(&mut publisher, count, at + published);
        }
        running.into_iter().map(|thread| thread.join().unwrap()).collect()
    });
    let most = spent.into_iter().max().unwrap();
    tell(&format!("look, {count} versions, {threads} viewers, {published} publications"), most, LOOKS);
}

fn main() {
    for count in [1_000, 100_000] {
        for threads in [1, 4] {
            looks(count, threads);
        }
    }
}
