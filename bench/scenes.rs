//! The scenes that a shard is timed by, whatever it is made of. Each line is what was done, with how much beside it,
//! and the microseconds of the processor that one such call took. The words are the scenes to run, none for all.
use std::alloc::{GlobalAlloc, Layout, System};
use std::hint::black_box;
use std::sync::atomic::{AtomicBool, AtomicIsize, Ordering::Relaxed};
use std::time::{Duration, Instant};

/// The value that is written everywhere.
pub const VALUE: &[u8; 20] = b"a value of 20 bytes.";

/// An id: the run, and the number in it.
pub type Txn = (u64, u64);

/// A shard of a store, and how its inputs are made.
pub trait Shard: Sized {
    type Key;
    type Input;
    type Stamp: Copy;
    type Disk: Send;

    /// A new one, of the keys from `m` on where it is shard 1.
    fn new(shard: u8) -> Self;
    fn key(bytes: &[u8]) -> Self::Key;
    fn read(txn: Txn, key: Self::Key) -> Self::Input;
    fn give_up(txn: Txn) -> Self::Input;
    /// It writes the value to the keys, which ascend, as does a commit to its key. The coordinator is shard 0.
    fn prepare(txn: Txn, keys: Vec<Self::Key>) -> Self::Input;
    fn outcome(txn: Txn, at: u64) -> Self::Input;
    fn commit(txn: Txn, keys: Vec<Self::Key>) -> Self::Input;
    fn settle(txn: Txn) -> Self::Input;
    /// The oldest wait that would be granted goes on.
    fn resume() -> Self::Input;
    /// Takes an input at a time. It panics where the input is refused.
    fn give(&mut self, at: u64, input: &Self::Input);
    /// Some wait would be granted now.
    fn is_ready(&self) -> bool;
    fn served(&self) -> Self::Stamp;
    /// The length of a key's value, which is put at the front of the buffer.
    fn find(&self, key: &Self::Key, at: Self::Stamp, buffer: &mut [u8]) -> Option<usize>;
    fn end(self) -> Self::Disk;
    fn reopen(disk: Self::Disk) -> Self;
}

/// The processor's time that this thread has had, so that what else runs counts for little.
struct Cpu(Duration);

#[repr(C)]
struct Timespec {
    seconds: i64,
    nanos: i64,
}

unsafe extern "C" {
    fn clock_gettime(clock: i32, time: *mut Timespec) -> i32;
}

// CLOCK_THREAD_CPUTIME_ID of Linux.
const THREAD: i32 = 3;

impl Cpu {
    fn now() -> Cpu {
        let mut time = Timespec { seconds: 0, nanos: 0 };
        // SAFETY: the pointer is that of a value of the layout that the call writes.
        unsafe { clock_gettime(THREAD, &mut time) };
        Cpu(Duration::new(time.seconds as u64, time.nanos as u32))
    }

    fn elapsed(&self) -> Duration {
        Cpu::now().0 - self.0
    }
}

/// The memory that stands, and the most that stood, in bytes, while that is counted: it is not while something is timed.
struct Counted {
    counts: AtomicBool,
    standing: AtomicIsize,
    most: AtomicIsize,
}

#[global_allocator]
static MEMORY: Counted = Counted {
    counts: AtomicBool::new(false),
    standing: AtomicIsize::new(0),
    most: AtomicIsize::new(0),
};

impl Counted {
    fn add(&self, size: isize) {
        if self.counts.load(Relaxed) {
            let standing = self.standing.fetch_add(size, Relaxed) + size;
            self.most.fetch_max(standing, Relaxed);
        }
    }
}

// SAFETY: each call is the system's.
unsafe impl GlobalAlloc for Counted {
    unsafe fn alloc(&self, layout: Layout) -> *mut u8 {
        self.add(layout.size() as isize);
        unsafe { System.alloc(layout) }
    }

    unsafe fn dealloc(&self, place: *mut u8, layout: Layout) {
        self.add(-(layout.size() as isize));
        unsafe { System.dealloc(place, layout) }
    }

    // The old block stands until the new one is filled.
    unsafe fn realloc(&self, place: *mut u8, layout: Layout, size: usize) -> *mut u8 {
        self.add(size as isize);
        self.add(-(layout.size() as isize));
        unsafe { System.realloc(place, layout, size) }
    }
}

/// What a call gives, and in megabytes the most memory that it took at a time, and what it left standing.
fn memory<T>(call: impl FnOnce() -> T) -> (T, f64, f64) {
    MEMORY.standing.store(0, Relaxed);
    MEMORY.most.store(0, Relaxed);
    MEMORY.counts.store(true, Relaxed);
    let given = call();
    MEMORY.counts.store(false, Relaxed);
    let megabytes = |bytes: &AtomicIsize| bytes.load(Relaxed) as f64 / 1e6;
    (given, megabytes(&MEMORY.most), megabytes(&MEMORY.standing))
}

/// A key of 21 bytes, of which ten are those of its kind.
fn key<S: Shard>(letter: u8, number: u64) -> S::Key {
    S::key(format!("{}/account/{:011}", letter as char, number % 100_000_000_000).as_bytes())
}

/// Numbers without order.
fn scattered(number: u64) -> u64 {
    let mixed = (number ^ (number >> 31)).wrapping_mul(0x9e37_79b9_7f4a_7c15);
    (mixed ^ (mixed >> 29)).wrapping_mul(0xbf58_476d_1ce4_e5b9)
}

fn tell(what: &str, took: Duration, calls: u64) {
    println!("{what:<48} {:>10.3}", took.as_secs_f64() * 1e6 / calls as f64);
}

/// The key was written, and its value is found. That is not timed.
fn check<S: Shard>(store: &S, key: &S::Key) {
    let mut buffer = [0; 64];
    assert_eq!(store.find(key, store.served(), &mut buffer), Some(VALUE.len()));
    assert_eq!(&buffer[..VALUE.len()], VALUE);
}

/// Each call of the first kind on a hundred ids, then, 200 microseconds later, of the second kind, over and over; the least of several
/// rounds.
fn in_turn<S: Shard>(
    store: &mut S,
    first: impl Fn(u64, u64) -> S::Input,
    second: impl Fn(u64, u64) -> S::Input,
) -> (Duration, Duration) {
    let mut least = (Duration::MAX, Duration::MAX);
    for round in 0..300u64 {
        let ids = round * 100..round * 100 + 100;
        let at = 1_000 + round * 1_000;
        let inputs: Vec<S::Input> = ids.clone().map(|n| first(n, at)).collect();
        let start = Cpu::now();
        inputs.iter().for_each(|input| store.give(at, input));
        least.0 = least.0.min(start.elapsed());
        let inputs: Vec<S::Input> = ids.map(|n| second(n, at)).collect();
        let start = Cpu::now();
        inputs.iter().for_each(|input| store.give(at + 200, input));
        least.1 = least.1.min(start.elapsed());
    }
    least
}

fn rows<S: Shard>(rows: u64) {
    let mut store = S::new(1);
    for n in 0..rows {
        store.give(100, &S::read((1, n), key::<S>(b's', n)));
    }
    let (taken, ended) = in_turn(
        &mut store,
        |n, _| S::read((2, n), key::<S>(b'r', n)),
        |n, _| S::give_up((2, n)),
    );
    tell(&format!("read, {rows} rows"), taken, 100);
    tell(&format!("its ending, {rows} rows"), ended, 100);
    let (taken, ended) = in_turn(
        &mut store,
        |n, _| S::prepare((3, n), vec![key::<S>(b'p', n)]),
        |n, at| S::outcome((3, n), at + 900),
    );
    tell(&format!("prepare, {rows} rows"), taken, 100);
    tell(&format!("its outcome, {rows} rows"), ended, 100);
    (0..30_000).for_each(|n| check(&store, &key::<S>(b'p', n)));
    store.end();
}

/// Each prepare writes some keys of its own, beside rows of other keys; and so does each commit.
fn wide<S: Shard>(rows: u64) {
    const KEYS: u64 = 16;
    let mut store = S::new(1);
    for n in 0..rows {
        store.give(100, &S::read((1, n), key::<S>(b's', n)));
    }
    let (taken, ended) = in_turn(
        &mut store,
        |n, _| S::prepare((3, n), (0..KEYS).map(|m| key::<S>(b'p', n * KEYS + m)).collect()),
        |n, at| S::outcome((3, n), at + 900),
    );
    tell(&format!("prepare of {KEYS} keys, {rows} rows"), taken, 100);
    tell(&format!("its outcome, {rows} rows"), ended, 100);
    store.end();
    let mut store = S::new(0);
    for n in 0..rows {
        store.give(100, &S::read((1, n), key::<S>(b'a', n)));
    }
    let (taken, ended) = in_turn(
        &mut store,
        |n, _| S::commit((3, n), (0..KEYS).map(|m| key::<S>(b'k', n * KEYS + m)).collect()),
        |n, _| S::settle((3, n)),
    );
    tell(&format!("commit of {KEYS} keys, {rows} rows"), taken, 100);
    tell(&format!("its settling, {rows} rows"), ended, 100);
    store.end();
}

fn ready<S: Shard>(waiters: u64) {
    let mut store = S::new(1);
    store.give(100, &S::prepare((2, 0), vec![key::<S>(b'w', 0)]));
    for n in 0..waiters {
        store.give(100, &S::read((1, n), key::<S>(b'w', 0)));
    }
    let mut least = Duration::MAX;
    for _ in 0..50 {
        let start = Cpu::now();
        assert!(!black_box(&store).is_ready());
        least = least.min(start.elapsed());
    }
    tell(&format!("ready, {waiters} waiters behind one"), least, 1);
    // They waited for that one alone.
    store.give(200, &S::outcome((2, 0), 1_000));
    for _ in 0..waiters {
        assert!(store.is_ready());
        store.give(200, &S::resume());
    }
    assert!(!store.is_ready());
    store.end();
}

/// As `rows`, but all of them read the one key that is read then.
fn sharers<S: Shard>(rows: u64) {
    let mut store = S::new(1);
    for n in 0..rows {
        store.give(100, &S::read((1, n), key::<S>(b's', 0)));
    }
    let (taken, ended) = in_turn(
        &mut store,
        |n, _| S::read((2, n), key::<S>(b's', 0)),
        |n, _| S::give_up((2, n)),
    );
    tell(&format!("read of one key, {rows} rows read it"), taken, 100);
    tell(&format!("its ending, {rows} rows read it"), ended, 100);
    store.end();
}

/// Each of some waiters waits for a key of its own.
fn many<S: Shard>(waiters: u64) {
    let mut store = S::new(1);
    for n in 0..waiters {
        store.give(100, &S::prepare((2, n), vec![key::<S>(b'w', n)]));
    }
    for n in 0..waiters {
        store.give(100, &S::read((1, n), key::<S>(b'w', n)));
    }
    let mut least = Duration::MAX;
    for _ in 0..50 {
        let start = Cpu::now();
        assert!(!black_box(&store).is_ready());
        least = least.min(start.elapsed());
    }
    tell(&format!("ready, {waiters} waiters behind as many"), least, 1);
    store.end();
}

/// Commits and settles, on from a number.
fn write<S: Shard>(store: &mut S, n: u64, run: u64, place: u64) {
    let at = n * 100 + 100;
    store.give(at, &S::commit((run, n), vec![key::<S>(b'k', place)]));
    store.give(at + 50, &S::settle((run, n)));
}

/// The least time of a thousand commits, of several rounds of them.
fn write_on<S: Shard>(store: &mut S, from: u64, runs: u64) -> Duration {
    let mut least = Duration::MAX;
    for round in 0..10 {
        let start = Cpu::now();
        for n in from + round * 1_000..from + round * 1_000 + 1_000 {
            write(store, n, n % runs + 1, scattered(n));
        }
        least = least.min(start.elapsed());
    }
    (from..from + 10_000).for_each(|n| check(store, &key::<S>(b'k', scattered(n))));
    least
}

fn versions<S: Shard>(count: u64) {
    let mut store = S::new(0);
    for n in 0..count {
        write(&mut store, n, 1, scattered(n));
    }
    let took = write_on(&mut store, count, 1);
    tell(&format!("commit and settle, random key, {count} versions"), took, 1_000);
    let at = store.served();
    let mut buffer = [0; 64];
    let keys: Vec<S::Key> = (0..10_000)
        .map(|turn| key::<S>(b'k', scattered(scattered(turn) % count)))
        .collect();
    let mut least = Duration::MAX;
    for _ in 0..50 {
        let start = Cpu::now();
        for key in &keys {
            black_box(store.find(key, at, &mut buffer).is_some());
        }
        least = least.min(start.elapsed());
    }
    tell(&format!("look, {count} versions"), least, 10_000);
    keys.iter().for_each(|key| check(&store, key));
    store.end();
}

fn ids<S: Shard>(count: u64, runs: u64) {
    let mut store = S::new(0);
    for n in 0..count {
        write(&mut store, n, n % runs + 1, n % 1_000);
    }
    let took = write_on(&mut store, count, runs);
    tell(&format!("commit and settle, {count} ids of {runs} runs"), took, 1_000);
    store.end();
}

/// The disk of a shard whose log has so many records.
fn logged<S: Shard>(records: u64, place: impl Fn(u64) -> u64) -> S::Disk {
    let mut store = S::new(0);
    for n in 0..records / 2 {
        write(&mut store, n, 1, place(n));
    }
    store.end()
}

fn opening<S: Shard>(records: u64, is_scattered: bool) {
    let place = |n| if is_scattered { scattered(n) } else { n };
    let order = if is_scattered { "scattered" } else { "ascending" };
    let mut disk = logged::<S>(records, place);
    let mut least = Duration::MAX;
    for _ in 0..3 {
        let start = Cpu::now();
        let store = S::reopen(disk);
        least = least.min(start.elapsed());
        (0..records / 2).for_each(|n| check(&store, &key::<S>(b'k', place(n))));
        disk = store.end();
    }
    tell(&format!("opening, {records} records, {order} keys"), least, 1);
    let (store, most, left) = memory(|| S::reopen(disk));
    println!("opening, {records} records, {order} keys, at most {most:.1} MB, {left:.1} MB left");
    store.end();
}

/// How long it takes by the clock until so many shards are opened, each by a thread of its own.
fn aside<S: Shard>(records: u64, shards: u64) {
    let mut disks: Vec<S::Disk> = (0..shards).map(|_| logged::<S>(records, scattered)).collect();
    let mut least = Duration::MAX;
    for _ in 0..7 {
        let start = Instant::now();
        let opened: Vec<(Duration, S::Disk)> = std::thread::scope(|scope| {
            let open = |disk| {
                let store = S::reopen(disk);
                (start.elapsed(), store.end())
            };
            let threads: Vec<_> = disks.into_iter().map(|disk| scope.spawn(move || open(disk))).collect();
            threads.into_iter().map(|thread| thread.join().expect("an opening")).collect()
        });
        least = least.min(opened.iter().map(|it| it.0).max().unwrap_or_default());
        disks = opened.into_iter().map(|it| it.1).collect();
    }
    tell(&format!("by the clock, {shards} openings side by side, {records} records each"), least, 1);
}

/// Tells the least time of a call, of 50, each of which has to say yes.
#[allow(dead_code)]
pub fn time(what: &str, call: impl Fn() -> bool) {
    let mut least = Duration::MAX;
    for _ in 0..50 {
        let start = Cpu::now();
        assert!(black_box(call()));
        least = least.min(start.elapsed());
    }
    tell(what, least, 1);
}

/// Runs the scenes that the words name.
pub fn run<S: Shard>() {
    let scenes: [(&str, fn()); 9] = [
        ("rows", || [0, 900].into_iter().for_each(rows::<S>)),
        ("wide", || [0, 900].into_iter().for_each(wide::<S>)),
        ("ready", || ready::<S>(1_000)),
        ("sharers", || [0, 900].into_iter().for_each(sharers::<S>)),
        ("many", || [100, 500].into_iter().for_each(many::<S>)),
        ("versions", || {
            [1_000, 10_000, 100_000, 1_000_000].into_iter().for_each(versions::<S>)
        }),
        ("ids", || [1, 2].into_iter().for_each(|runs| ids::<S>(60_000, runs))),
        ("opening", || {
            for records in [100_000, 1_000_000] {
                [false, true].into_iter().for_each(|order| opening::<S>(records, order));
            }
        }),
        ("aside", || [1, 4].into_iter().for_each(|shards| aside::<S>(100_000, shards))),
    ];
    let told: Vec<String> = std::env::args().skip(1).collect();
    for (name, scene) in scenes {
        if told.is_empty() || told.iter().any(|it| it == name) {
            scene();
        }
    }
}
