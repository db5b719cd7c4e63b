//! Drives shards with workers on threads: in memory, on a device whose syncs take 5 milliseconds, and on files. A line for each, with
//! what the workers saw.
use disk::Disk;
use drive::drive;
use gatelog::GateLog;
use letters::Gate;
use progress::{Ended, Turn, Watch};
use settings::Settings;
use shim::Vec as List;
use shim::alloc::Global;
use shim::sync::Waiting;
use simdisk::SimDisk;
use std::fs::File;
use std::os::unix::fs::FileExt;
use std::sync::Mutex;
use std::time::{Duration, Instant};
use record::Record;
use units::{Fault, Key, ShardNo, Splits, Stride, Verdict};

fn slow_sync() -> Duration {
    Duration::from_micros(std::env::var("SYNC_US").ok().and_then(|n| n.parse().ok()).unwrap_or(5000))
}
const EPSILON: u64 = 100;
static SYNCS: std::sync::atomic::AtomicU64 = std::sync::atomic::AtomicU64::new(0);

/// A disk in memory whose syncs take longer, or a file.
enum Device {
    Memory(SimDisk),
    Slow(SimDisk),
    OnFile(File, u64),
}

impl Disk for Device {
    fn len(&self) -> u64 {
        match self {
            Device::Memory(disk) | Device::Slow(disk) => disk.len(),
            Device::OnFile(_, len) => *len,
        }
    }
    fn reserve(&mut self, bytes: u64) -> Result<(), Fault> {
        match self {
            Device::Memory(disk) | Device::Slow(disk) => disk.reserve(bytes),
            Device::OnFile(..) => Ok(()),
        }
    }
    fn read_at(&mut self, at: u64, buffer: &mut [u8]) -> Result<(), Fault> {
        match self {
            Device::Memory(disk) | Device::Slow(disk) => disk.read_at(at, buffer),
            Device::OnFile(file, _) => file.read_exact_at(buffer, at).map_err(|_| Fault::Device),
        }
    }
    fn write_at(&mut self, at: u64, bytes: &[u8]) -> Result<(), Fault> {
        match self {
            Device::Memory(disk) | Device::Slow(disk) => disk.write_at(at, bytes),
            Device::OnFile(file, len) => {
                *len = (*len).max(at + bytes.len() as u64);
                file.write_all_at(bytes, at).map_err(|_| Fault::Device)
            }
        }
    }
    fn cut(&mut self, len: u64) -> Result<(), Fault> {
        match self {
            Device::Memory(disk) | Device::Slow(disk) => disk.cut(len),
            Device::OnFile(file, old) => {
                *old = len;
                file.set_len(len).map_err(|_| Fault::Device)
            }
        }
    }
    fn sync(&mut self) -> Result<(), Fault> {
        SYNCS.fetch_add(1, std::sync::atomic::Ordering::Relaxed);
        match self {
            Device::Memory(disk) => disk.sync(),
            Device::Slow(disk) => {
                std::thread::sleep(slow_sync());
                disk.sync()
            }
            Device::OnFile(file, _) => file.sync_all().map_err(|_| Fault::Device),
        }
    }
    fn arm(&mut self, _call: Option<u64>) {}
}

/// A formatted log of a place.
fn formatted(place: &str, folder: &str, shard: usize) -> Device {
    let device = match place {
        "memory" => Device::Memory(SimDisk::new(Global)),
        "slow" => Device::Slow(SimDisk::new(Global)),
        _ => {
            let name = format!("{folder}/shard-{shard}.log");
            let file = File::options().read(true).write(true).create(true).truncate(true).open(name).unwrap();
            Device::OnFile(file, 0)
        }
    };
    match GateLog::format(device) {
        Ok(log) => log.into_disk(),
        Err((fault, _)) => panic!("{}", fault.number()),
    }
}

struct Nobody;
impl Gate for Nobody {
    fn before(&self, _shard: ShardNo, _n: u64) {}
    fn after(&self, _shard: ShardNo, _n: u64) {}
}

/// How long the transactions took that committed, and when the last one ended.
struct Times(Mutex<(Vec<u64>, Instant)>);
impl Watch for Times {
    fn turned(&self, turn: Turn) {
        let mut times = self.0.lock().unwrap();
        times.1 = Instant::now();
        if let Ended::Committed = turn.ended {
            times.0.push(turn.micros);
        }
    }
}

fn settings(shards: u64, workers: u64, turns: u64, keys: u64, stride: u64) -> Settings {
    let mut splits = Vec::new();
    for number in 1..shards {
        splits.push(Key::new(format!("k{:04}", number * keys / shards).as_bytes()).unwrap());
    }
    Settings {
        splits: Splits::new(Global, &splits).unwrap(),
        stride: Stride::new(stride).unwrap(),
        epsilon: EPSILON,
        workers,
        transactions: turns,
        keys,
        dir: None,
    }
}

fn row(place: &str, folder: &str, shards: u64, workers: u64, turns: u64, keys: u64, stride: u64) {
    let mut disks = List::new(Global);
    for shard in 0..shards {
        disks.push(formatted(place, folder, shard as usize)).unwrap();
    }
    let settings = settings(shards, workers, turns, keys, stride);
    SYNCS.store(0, std::sync::atomic::Ordering::Relaxed);
    let start = Instant::now();
    let times = Times(Mutex::new((Vec::new(), start)));
    let driven = drive(&Waiting, Global, &settings, disks, &Nobody, &times);
    let driven = match driven {
        Ok(driven) => driven,
        Err(fault) => return println!("{place} {shards} {workers}: fault {}", fault.number()),
    };
    let (mut times, end) = times.0.into_inner().unwrap();
    let seconds = (end - start).as_secs_f64();
    times.sort();
    let within = |percent: usize| times.get((times.len() * percent).saturating_sub(1) / 100).copied().unwrap_or(0);
    let counts = driven.summary.counts;
    let verdict = if let Verdict::Yes = driven.summary.verdict { "yes" } else { "NO" };
    let syncs = SYNCS.load(std::sync::atomic::Ordering::Relaxed);
    let mut kinds = [0u64; 6];
    for disk in driven.disks {
        let Ok((log, entries)) = GateLog::open(Global, disk) else { panic!() };
        drop(log);
        for entry in entries.iter() {
            kinds[match entry.item() {
                Record::Opened { .. } => 0,
                Record::Prepare { .. } => 1,
                Record::Abort { .. } => 2,
                Record::Commit { .. } => 3,
                Record::Outcome { .. } => 4,
                // A ceiling; of a horizon, which earlier revisions lack, a drive logs none.
                _ => 5,
            }] += 1;
        }
    }
    println!(
        "{place:<7} {shards:>2} {workers:>3} | committed {:>6} aborted {:>5} unknown {:>3} | {:>8.0} commits/s, half {:>6} us, 99 of 100 {:>8} us, {:>7.0} turns/s, looks {:>3.0} % {verdict}; prepare {} abort {} commit {} outcome {} ceiling {}; syncs/commit {:.2}, records/2 syncs {:.2}",
        counts.committed,
        counts.aborted,
        counts.unknown,
        counts.committed as f64 / seconds,
        within(50),
        within(99),
        (workers * turns) as f64 / seconds,
        100.0 * counts.looks as f64 / (workers * turns) as f64,
        kinds[1],
        kinds[2],
        kinds[3],
        kinds[4],
        kinds[5],
        syncs as f64 / counts.committed as f64,
        2.0 * kinds.iter().sum::<u64>() as f64 / syncs as f64,
    );
}

/// `drives PLACES SHARDS WORKERS TURNS STRIDE [KEYS]`, the first three as lists with commas. A worker goes over as many keys as it has
/// turns, 1,000 at most, if no number is given.
fn main() {
    let words: Vec<String> = std::env::args().skip(1).collect();
    let numbers = |at: usize| words[at].split(',').map(|word| word.parse::<u64>().unwrap()).collect::<Vec<_>>();
    let folder = std::env::temp_dir().join(format!("drives.{}", std::process::id()));
    std::fs::create_dir(&folder).unwrap();
    let keys = if words.len() > 5 { numbers(5)[0] } else { numbers(3)[0].min(1_000) };
    for place in words[0].split(',') {
        for shards in numbers(1) {
            for workers in numbers(2) {
                row(place, folder.to_str().unwrap(), shards, workers, numbers(3)[0], keys, numbers(4)[0]);
            }
        }
    }
    if std::env::var("KEEP").is_err() {
        std::fs::remove_dir_all(folder).unwrap();
    } else {
        println!("{}", folder.display());
    }
}
