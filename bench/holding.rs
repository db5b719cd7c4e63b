//! What versions hold in memory: a core with so many of them, of 100 bytes each, and its desk with one viewer. Its log is a file, so that no
//! image of it counts. In megabytes, by the sizes that were asked for, and by what is resident.
use desk::Desk;
use disk::Disk;
use gatelog::GateLog;
use message::{Commit, Input, Message, Reads};
use shard::Core;
use shim::alloc::Global;
use shim::sync::Waiting;
use shim::Vec as List;
use std::alloc::{GlobalAlloc, Layout, System};
use std::fs::File;
use std::os::unix::fs::FileExt;
use std::sync::atomic::{AtomicIsize, Ordering::Relaxed};
use truetime::Reading;
use units::{Book, Fault, Key, Parts, Setup, ShardNo, Splits, Stamp, Stride, TxnId, Value, Write, Writes};

struct Counted(AtomicIsize);

#[global_allocator]
static MEMORY: Counted = Counted(AtomicIsize::new(0));

// SAFETY: each call is the system's.
unsafe impl GlobalAlloc for Counted {
    unsafe fn alloc(&self, layout: Layout) -> *mut u8 {
        self.0.fetch_add(layout.size() as isize, Relaxed);
        unsafe { System.alloc(layout) }
    }
    unsafe fn dealloc(&self, place: *mut u8, layout: Layout) {
        self.0.fetch_sub(layout.size() as isize, Relaxed);
        unsafe { System.dealloc(place, layout) }
    }
    unsafe fn realloc(&self, place: *mut u8, layout: Layout, size: usize) -> *mut u8 {
        self.0.fetch_add(size as isize - layout.size() as isize, Relaxed);
        unsafe { System.realloc(place, layout, size) }
    }
}

fn megabytes() -> f64 {
    MEMORY.0.load(Relaxed) as f64 / 1e6
}

/// What of this program is resident, on Linux.
fn resident() -> f64 {
    let told = std::fs::read_to_string("/proc/self/statm").unwrap_or_default();
    let pages: f64 = told.split(' ').nth(1).and_then(|word| word.parse().ok()).unwrap_or(0.0);
    pages * 4096.0 / 1e6
}

/// A file that is never synced.
struct Unsynced(File, u64);

impl Disk for Unsynced {
    fn len(&self) -> u64 {
        self.1
    }
    fn reserve(&mut self, _bytes: u64) -> Result<(), Fault> {
        Ok(())
    }
    fn read_at(&mut self, at: u64, buffer: &mut [u8]) -> Result<(), Fault> {
        self.0.read_exact_at(buffer, at).map_err(|_| Fault::Device)
    }
    fn write_at(&mut self, at: u64, bytes: &[u8]) -> Result<(), Fault> {
        self.1 = self.1.max(at + bytes.len() as u64);
        self.0.write_all_at(bytes, at).map_err(|_| Fault::Device)
    }
    fn cut(&mut self, len: u64) -> Result<(), Fault> {
        self.1 = len;
        self.0.set_len(len).map_err(|_| Fault::Device)
    }
    fn sync(&mut self) -> Result<(), Fault> {
        Ok(())
    }
    fn arm(&mut self, _call: Option<u64>) {}
}

fn scattered(number: u64) -> u64 {
    let mixed = (number ^ (number >> 31)).wrapping_mul(0x9e37_79b9_7f4a_7c15);
    (mixed ^ (mixed >> 29)).wrapping_mul(0xbf58_476d_1ce4_e5b9)
}

/// Transaction `number` writes a key of its own.
fn commit(number: u64) -> Input {
    let key = Key::new(format!("k/account/{:011}", scattered(number) % 100_000_000_000).as_bytes()).unwrap();
    let mut list = List::new(Global);
    let value = Some(Value::new(Global, &[7; 100]).unwrap());
    list.push(Write { key, value }).unwrap();
    Input::Deliver(Message::Commit(Commit {
        txn: TxnId::new(1, number).unwrap(),
        parts: Parts::only(ShardNo::new(0).unwrap()),
        reads: Reads::none(Global),
        writes: Writes::from_vec(list).ok().unwrap(),
    }))
}

/// The clock reads just that.
fn reading(now: u64) -> Reading {
    let now = Stamp::new(now).unwrap();
    Reading::new(now, now).ok().unwrap()
}

fn main() {
    let count: u64 = std::env::args().nth(1).and_then(|word| word.parse().ok()).unwrap_or(100_000);
    let name = std::env::temp_dir().join(format!("holding.{}", std::process::id()));
    let file = File::options().read(true).write(true).create_new(true).open(&name).unwrap();
    std::fs::remove_file(name).unwrap();
    let setup = Setup {
        shard: ShardNo::new(0).unwrap(),
        splits: Splits::new(Global, &[]).unwrap(),
        stride: Stride::new(0).unwrap(),
        book: Book::Off,
    };
    let Ok(log) = GateLog::format(Unsynced(file, 0)) else { panic!() };
    let Ok(mut core) = Core::open(Global, log.into_disk(), setup) else { panic!() };
    let (empty, bare) = (megabytes(), resident());
    for number in 0..count {
        let now = 10 * number + 1;
        assert!(core.on(Global, &reading(now), &commit(number)).is_ok());
        assert!(core.on(Global, &reading(now + 2), &Input::Settle(TxnId::new(1, number).unwrap())).is_ok());
    }
    let (alone, seen) = (megabytes() - empty, resident() - bare);
    let now = 10 * count;
    assert!(core.on(Global, &reading(now), &Input::Advance(Stamp::new(now).unwrap())).is_ok());
    let Ok((desk, viewers)) = Desk::new(Waiting, Global, core, 1) else { panic!() };
    let (both, all_seen) = (megabytes() - empty, resident() - bare);
    println!("{count} versions of 100 bytes: a core {alone:.1} MB, behind a desk with one viewer {both:.1} MB");
    println!("resident: a core {seen:.1} MB, behind a desk with one viewer {all_seen:.1} MB");
    drop((desk, viewers));
}
