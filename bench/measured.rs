//! Memory by the sizes that were asked for, and a shard over a file that is never synced.
use disk::Disk;
use gatelog::GateLog;
use shard::Core;
use shim::alloc::Global;
use std::alloc::{GlobalAlloc, Layout, System};
use std::fs::File;
use std::os::unix::fs::FileExt;
use std::sync::atomic::{AtomicIsize, Ordering::Relaxed};
use truetime::Reading;
use units::{Book, Fault, Setup, ShardNo, Splits, Stamp, Stride};

struct Counted(AtomicIsize);

#[global_allocator]
static MEMORY: Counted = Counted(AtomicIsize::new(0));

// SAFETY: each call is the system's.
unsafe impl GlobalAlloc for Counted {
    unsafe fn alloc(&self, layout: Layout) -> *mut u8 {
        self.0.fetch_add(layout.size() as isize, Relaxed);
        unsafe { System.alloc(layout) }
    }
    unsafe fn dealloc(&self, place: *mut u8, layout: Layout) {
        self.0.fetch_sub(layout.size() as isize, Relaxed);
        unsafe { System.dealloc(place, layout) }
    }
    unsafe fn realloc(&self, place: *mut u8, layout: Layout, size: usize) -> *mut u8 {
        self.0.fetch_add(size as isize - layout.size() as isize, Relaxed);
        unsafe { System.realloc(place, layout, size) }
    }
}

pub fn megabytes() -> f64 {
    MEMORY.0.load(Relaxed) as f64 / 1e6
}

/// A file that is never synced.
pub struct Unsynced(File, u64);

impl Disk for Unsynced {
    fn len(&self) -> u64 {
        self.1
    }
    fn reserve(&mut self, _bytes: u64) -> Result<(), Fault> {
        Ok(())
    }
    fn read_at(&mut self, at: u64, buffer: &mut [u8]) -> Result<(), Fault> {
        self.0.read_exact_at(buffer, at).map_err(|_| Fault::Device)
    }
    fn write_at(&mut self, at: u64, bytes: &[u8]) -> Result<(), Fault> {
        self.1 = self.1.max(at + bytes.len() as u64);
        self.0.write_all_at(bytes, at).map_err(|_| Fault::Device)
    }
    fn cut(&mut self, len: u64) -> Result<(), Fault> {
        self.1 = len;
        self.0.set_len(len).map_err(|_| Fault::Device)
    }
    fn sync(&mut self) -> Result<(), Fault> {
        Ok(())
    }
    fn arm(&mut self, _call: Option<u64>) {}
}

/// The clock reads just that.
pub fn reading(now: u64) -> Reading {
    let now = Stamp::new(now).unwrap();
    Reading::new(now, now).ok().unwrap()
}

/// A new file, without a name.
fn nameless() -> File {
    let name = std::env::temp_dir().join(format!("measured.{}", std::process::id()));
    let file = File::options().read(true).write(true).create_new(true).open(&name).unwrap();
    std::fs::remove_file(name).unwrap();
    file
}

/// The core of the log on a disk.
pub fn opened_over(disk: Unsynced) -> Core<Unsynced> {
    let setup = Setup {
        shard: ShardNo::new(0).unwrap(),
        splits: Splits::new(Global, &[]).unwrap(),
        stride: Stride::new(0).unwrap(),
        book: Book::Off,
    };
    let Ok(core) = Core::open(Global, disk, setup) else { panic!() };
    core
}

/// That of a new log.
pub fn opened() -> Core<Unsynced> {
    let Ok(log) = GateLog::format(Unsynced(nameless(), 0)) else { panic!() };
    opened_over(log.into_disk())
}
