//! How long a store takes to open: `opening FOLDER SHARDS TRANSACTIONS`. Where FOLDER has no logs they are made first, and that run
//! opens nothing. Each transaction writes 8 bytes to one of 10,000 keys; files are not synced. A line tells the seconds by the clock and of the
//! processor, and the most memory that was resident.
use disk::Disk;
use gatelog::GateLog;
use message::{Commit, Input, Message, Reads};
use shard::Core;
use shim::alloc::Global;
use shim::sync::Waiting;
use shim::Vec as List;
use std::fs::File;
use std::os::unix::fs::FileExt;
use std::time::Instant;
use store::{Options, Store};
use truetime::Reading;
use units::{Book, Fault, Key, Parts, Setup, ShardNo, Splits, Stamp, Stride, TxnId, Value, Write, Writes};

const KEYS: u64 = 10_000;

/// A file that is never synced.
struct Unsynced(File, u64);

impl Disk for Unsynced {
    fn len(&self) -> u64 {
        self.1
    }
    fn reserve(&mut self, _bytes: u64) -> Result<(), Fault> {
        Ok(())
    }
    fn read_at(&mut self, at: u64, buffer: &mut [u8]) -> Result<(), Fault> {
        self.0.read_exact_at(buffer, at).map_err(|_| Fault::Device)
    }
    fn write_at(&mut self, at: u64, bytes: &[u8]) -> Result<(), Fault> {
        self.1 = self.1.max(at + bytes.len() as u64);
        self.0.write_all_at(bytes, at).map_err(|_| Fault::Device)
    }
    fn cut(&mut self, len: u64) -> Result<(), Fault> {
        self.1 = len;
        self.0.set_len(len).map_err(|_| Fault::Device)
    }
    fn sync(&mut self) -> Result<(), Fault> {
        Ok(())
    }
    fn arm(&mut self, _call: Option<u64>) {}
}

fn key(number: u64) -> Key {
    Key::new(format!("a{number:04}").as_bytes()).unwrap()
}

fn splits(shards: u64) -> Splits {
    let keys: Vec<Key> = (1..shards).map(|shard| key(shard * KEYS / shards)).collect();
    Splits::new(Global, &keys).unwrap()
}

fn reading(now: u64) -> Reading {
    let now = Stamp::new(now).unwrap();
    Reading::new(now, now).ok().unwrap()
}

/// The transaction of a number writes a key.
fn commit(txn: TxnId, shard: ShardNo, key: Key) -> Input {
    let mut writes = List::new(Global);
    writes.push(Write { key, value: Some(Value::new(Global, &txn.number().to_be_bytes()).unwrap()) }).unwrap();
    Input::Deliver(Message::Commit(Commit {
        txn,
        parts: Parts::only(shard),
        reads: Reads::none(Global),
        writes: Writes::from_vec(writes).ok().unwrap(),
    }))
}

/// The log of a shard, of every so many-th of the transactions.
fn make(name: &str, shard: u64, shards: u64, transactions: u64) {
    let file = File::options().read(true).write(true).create_new(true).open(name).unwrap();
    let Ok(log) = GateLog::format(Unsynced(file, 0)) else { panic!() };
    let number = ShardNo::new(shard as u8).unwrap();
    let setup = Setup { shard: number, splits: splits(shards), stride: Stride::new(100_000).unwrap(), book: Book::Off };
    let Ok(mut core) = Core::open(Global, log.into_disk(), setup) else { panic!() };
    let mut state = shard + 1;
    for turn in 0..transactions / shards {
        state = state.wrapping_mul(6364136223846793005).wrapping_add(1442695040888963407);
        let own = KEYS / shards;
        let txn = TxnId::new(1, turn * shards + shard).unwrap();
        let now = 100 * turn + 100;
        let key = key(shard * own + (state >> 33) % own);
        assert!(core.on(Global, &reading(now), &commit(txn, number, key)).is_ok());
        assert!(core.on(Global, &reading(now + 2), &Input::Settle(txn)).is_ok());
    }
    drop(core.stop());
}

#[repr(C)]
struct Timespec {
    seconds: i64,
    nanos: i64,
}

unsafe extern "C" {
    fn clock_gettime(clock: i32, time: *mut Timespec) -> i32;
}

/// The processor's time that this process has had.
fn processor() -> f64 {
    let mut time = Timespec { seconds: 0, nanos: 0 };
    // SAFETY: the pointer is that of a value of the layout that the call writes; 2 is CLOCK_PROCESS_CPUTIME_ID of Linux.
    unsafe { clock_gettime(2, &mut time) };
    time.seconds as f64 + time.nanos as f64 / 1e9
}

fn main() {
    let words: Vec<String> = std::env::args().collect();
    let (shards, transactions): (u64, u64) = (words[2].parse().unwrap(), words[3].parse().unwrap());
    let names: Vec<String> = (0..shards).map(|shard| format!("{}/shard-{shard}.log", words[1])).collect();
    if !std::fs::exists(&names[0]).unwrap() {
        std::thread::scope(|scope| {
            for (shard, name) in names.iter().enumerate() {
                scope.spawn(move || make(name, shard as u64, shards, transactions));
            }
        });
        return;
    }
    let mut disks = List::new(Global);
    for name in names {
        let file = File::options().read(true).write(true).open(name).unwrap();
        let len = file.metadata().unwrap().len();
        disks.push(Unsynced(file, len)).unwrap();
    }
    let options = Options::new(splits(shards), 4);
    let (start, before) = (Instant::now(), processor());
    let opened = Store::open(&Waiting, Global, disks, options);
    let took = (start.elapsed().as_secs_f64(), processor() - before);
    assert!(opened.is_ok());
    let status = std::fs::read_to_string("/proc/self/status").unwrap();
    let most = status.lines().find(|line| line.starts_with("VmHWM")).unwrap();
    println!("{transactions} transactions on {shards} shards: {:.2} s, processor {:.2} s, {most}", took.0, took.1);
    std::process::exit(0);
}
