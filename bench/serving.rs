//! Clients of a store on threads: each runs transactions that read and write two keys, one behind the other. A line tells how they ended.
//!
//!     serving DISK SHARDS CLIENTS TRANSACTIONS KEYS EPSILON FOLDER [GIVE_UP [KEEP RENEW [RETIRE]]]
//!
//! DISK is `memory`, `files` (in FOLDER), or how many microseconds a sync of a disk in memory takes. Clients wait for GIVE_UP milliseconds for a
//! silent shard. With KEEP and RENEW each shard keeps the past for so many microseconds, and renews a log that has grown by so many bytes.
//! With RETIRE it retires ids once there are so many.
use disk::Disk;
use gatelog::GateLog;
use shim::alloc::Global;
use shim::sync::Waiting;
use shim::Vec as List;
use simdisk::SimDisk;
use std::fs::File;
use std::os::unix::fs::FileExt;
use std::sync::Mutex;
use std::time::{Duration, Instant};
use store::{Client, Ended, Halt, Options, Store, Transaction};
use units::{Fault, Key, Splits, Value};

/// A disk in memory, whose syncs take so long, or a file.
enum Device {
    Memory(SimDisk, Duration),
    OnFile(File, u64),
}

impl Disk for Device {
    fn len(&self) -> u64 {
        match self {
            Device::Memory(disk, _) => disk.len(),
            Device::OnFile(_, len) => *len,
        }
    }
    fn reserve(&mut self, bytes: u64) -> Result<(), Fault> {
        match self {
            Device::Memory(disk, _) => disk.reserve(bytes),
            Device::OnFile(..) => Ok(()),
        }
    }
    fn read_at(&mut self, at: u64, buffer: &mut [u8]) -> Result<(), Fault> {
        match self {
            Device::Memory(disk, _) => disk.read_at(at, buffer),
            Device::OnFile(file, _) => file.read_exact_at(buffer, at).map_err(|_| Fault::Device),
        }
    }
    fn write_at(&mut self, at: u64, bytes: &[u8]) -> Result<(), Fault> {
        match self {
            Device::Memory(disk, _) => disk.write_at(at, bytes),
            Device::OnFile(file, len) => {
                *len = (*len).max(at + bytes.len() as u64);
                file.write_all_at(bytes, at).map_err(|_| Fault::Device)
            }
        }
    }
    fn cut(&mut self, len: u64) -> Result<(), Fault> {
        match self {
            Device::Memory(disk, _) => disk.cut(len),
            Device::OnFile(file, old) => {
                *old = len;
                file.set_len(len).map_err(|_| Fault::Device)
            }
        }
    }
    fn sync(&mut self) -> Result<(), Fault> {
        match self {
            Device::Memory(disk, pause) => {
                if *pause > Duration::ZERO {
                    std::thread::sleep(*pause);
                }
                disk.sync()
            }
            Device::OnFile(file, _) => file.sync_all().map_err(|_| Fault::Device),
        }
    }
    fn arm(&mut self, _call: Option<u64>) {}
}

/// A formatted log.
fn formatted(place: &str, folder: &str, shard: usize) -> Device {
    let device = match place {
        "files" => {
            let name = format!("{folder}/shard-{shard}.log");
            let file = File::options().read(true).write(true).create(true).truncate(true).open(name).unwrap();
            Device::OnFile(file, 0)
        }
        _ => Device::Memory(SimDisk::new(Global), Duration::ZERO),
    };
    let mut device = match GateLog::format(device) {
        Ok(log) => log.into_disk(),
        Err((fault, _)) => panic!("{}", fault.number()),
    };
    if let (Device::Memory(_, pause), Ok(micros)) = (&mut device, place.parse()) {
        *pause = Duration::from_micros(micros);
    }
    device
}

#[derive(Default)]
struct Told {
    committed: Vec<u64>,
    aborted: usize,
    unknown: usize,
    refused: usize,
    slowest: u64,
    attempts: usize,
}

fn number_of(value: Option<Value>) -> u64 {
    value.map_or(0, |value| std::str::from_utf8(value.as_bytes()).unwrap().parse().unwrap())
}

/// The n-th turn of a client: which two keys it adds one to.
fn keys_of(client: usize, turn: usize, keys: usize) -> [Key; 2] {
    let mut state = (client * 1_000_003 + turn) as u64;
    let mut draw = || {
        state = state.wrapping_mul(6364136223846793005).wrapping_add(1442695040888963407);
        ((state >> 33) % keys as u64) as usize
    };
    [draw(), draw()].map(|n| Key::new(format!("k{n:06}").as_bytes()).unwrap())
}

fn work(client: &mut Client<'_, Waiting>, number: usize, turns: usize, keys: usize, hot: bool, told: &Mutex<Told>) {
    for turn in 0..turns {
        let [one, other] = keys_of(number, turn, keys);
        let start = Instant::now();
        let mut attempts = 0;
        let ended = client.transact(50, |tx: &mut Transaction<'_, Waiting>| -> Result<(), Halt> {
            attempts += 1;
            let both = [one, other];
            let some = if hot || one == other { &both[..1] } else { &both[..] };
            drop(tx.get_all(some)?);
            for key in some {
                let next = number_of(tx.get(key)?) + 1;
                tx.put(key, Value::new(Global, next.to_string().as_bytes())?)?;
            }
            Ok(())
        });
        let took = start.elapsed().as_micros() as u64;
        let mut told = told.lock().unwrap();
        told.slowest = told.slowest.max(took);
        told.attempts += attempts;
        match ended {
            Ok(Ended::Committed { .. }) => told.committed.push(took),
            Ok(Ended::Abandoned(()) | Ended::Aborted { .. }) => told.aborted += 1,
            Ok(Ended::Unknown { .. }) => told.unknown += 1,
            Err(_) => told.refused += 1,
        }
    }
}

fn main() {
    let words: Vec<String> = std::env::args().collect();
    let number = |at: usize| words[at].parse::<usize>().unwrap();
    let (place, shards, clients, transactions, keys) = (&words[1], number(2), number(3), number(4), number(5));
    let hot = keys <= 8;
    let split = |n: usize| Key::new(format!("k{:06}", n * keys / shards).as_bytes()).unwrap();
    let splits: Vec<Key> = (1..shards).map(split).collect();
    let mut options = Options::new(Splits::new(Global, &splits).unwrap(), clients as u64);
    options.epsilon = number(6) as u64;
    if words.len() > 8 {
        options.give_up = number(8) as u64;
    }
    if words.len() > 10 {
        (options.keep, options.renew) = (Some(number(9) as u64), Some(number(10) as u64));
        options.retire = words.get(11).map(|_| number(11) as u64);
    }
    let mut disks = List::new(Global);
    for shard in 0..shards {
        disks.push(formatted(place, &words[7], shard)).unwrap();
    }
    let rt = Waiting;
    let store = match Store::open(&rt, Global, disks, options) {
        Ok(store) => store,
        Err(unopened) => panic!("{}", unopened.fault.number()),
    };
    let told = Mutex::new(Told::default());
    let start = Instant::now();
    let served = store.serve(|all: List<Client<'_, Waiting>>| {
        std::thread::scope(|scope| {
            for (n, mut client) in all.into_iter().enumerate() {
                let told = &told;
                scope.spawn(move || work(&mut client, n, transactions / clients, keys, hot, told));
            }
        });
        start.elapsed().as_secs_f64()
    });
    let seconds = match served {
        Ok((seconds, _)) => seconds,
        Err(fault) => panic!("{}", fault.number()),
    };
    let mut told = told.into_inner().unwrap();
    told.committed.sort();
    let within = |percent: usize| told.committed.get((told.committed.len() * percent).saturating_sub(1) / 100).copied().unwrap_or(0);
    println!(
        "{place} {shards} {clients}: {:.0}/s, half {}, 99 of 100 {}, slowest {}; committed {} aborted {} unknown {} refused {}; attempts {}",
        told.committed.len() as f64 / seconds,
        within(50),
        within(99),
        told.slowest,
        told.committed.len(),
        told.aborted,
        told.unknown,
        told.refused,
        told.attempts,
    );
}
