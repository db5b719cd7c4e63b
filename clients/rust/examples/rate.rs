//! How many transactions and reads a store serves to threads: rate FOLDER THREADS SECONDS WORK [OPTION..].
//!
//! WORK is `commits`, transactions that each read and write a key of the thread's own, or `reads`, a key each. The store is opened for as many
//! clients as there are threads, with the options behind. It prints how many were answered a second, the half time of one in microseconds,
//! and how many were aborted and unknown, which are not counted.

use spanner_shards::{Failed, Store};
use std::error::Error;
use std::process::Command;
use std::thread;
use std::time::{Duration, Instant};

#[derive(Default)]
struct Told {
    times: Vec<Duration>,
    aborted: u64,
    unknown: u64,
}

fn transaction(store: &Store, key: &[u8], turn: u64) -> Result<(), Failed> {
    store.transact(50, |tx| {
        tx.get(key)?;
        tx.put(key, &turn.to_be_bytes())
    })?;
    Ok(())
}

fn work(store: &Store, number: usize, until: Instant, reads: bool) -> Result<Told, Failed> {
    // Half of the keys are before `m`, where the store is parted.
    let key = format!("{}{number}", if number % 2 == 0 { "a" } else { "z" }).into_bytes();
    let mut told = Told::default();
    for turn in 0.. {
        let start = Instant::now();
        if start > until {
            break;
        }
        let done = if reads { store.get(&key).map(drop) } else { transaction(store, &key, turn) };
        match done {
            Ok(()) => told.times.push(start.elapsed()),
            Err(Failed::Aborted) => told.aborted += 1,
            Err(Failed::Unknown(_)) => told.unknown += 1,
            Err(failed) => return Err(failed),
        }
    }
    Ok(told)
}

fn main() -> Result<(), Box<dyn Error>> {
    let words: Vec<String> = std::env::args().skip(1).collect();
    let [folder, threads, seconds, kind, options @ ..] = words.as_slice() else {
        return Err("rate FOLDER THREADS SECONDS commits|reads [OPTION..]".into());
    };
    let (count, seconds) = (threads.parse::<usize>()?, seconds.parse::<f64>()?);
    let mut command = Command::new(std::env::var_os("SHARDS_PROGRAM").ok_or("SHARDS_PROGRAM names no program")?);
    command.args(["serve", folder, "--clients", threads]).args(options);
    let store = Store::start(command, count)?;
    let start = Instant::now();
    let until = start + Duration::from_secs_f64(seconds);
    let told = thread::scope(|scope| {
        let threads: Vec<_> = (0..count)
            .map(|number| (number, &store))
            .map(|(number, store)| scope.spawn(move || work(store, number, until, kind == "reads")))
            .collect();
        threads.into_iter().map(|thread| thread.join().unwrap_or(Err(Failed::Closed))).collect::<Result<Vec<_>, _>>()
    })?;
    let took = start.elapsed().as_secs_f64();
    let mut times: Vec<Duration> = told.iter().flat_map(|told| told.times.iter().copied()).collect();
    times.sort();
    let half = times.get(times.len() / 2).copied().unwrap_or_default();
    let (aborted, unknown) = (told.iter().map(|told| told.aborted).sum::<u64>(), told.iter().map(|told| told.unknown).sum::<u64>());
    println!("{:.0} a second, half within {} us, aborted {aborted}, unknown {unknown}", times.len() as f64 / took, half.as_micros());
    Ok(())
}
