//! What a log that is renewed costs and gives back: a desk over a file that is never synced, whose transactions each write one of 10,000 keys, with
//! values of 100 bytes, one each 100 microseconds. Each 10,000 of them come an advance and, where the log is renewed, a renewal that keeps a
//! second and has the log grow by a megabyte at least. Then what the log and the file have, how long the longest turnover took, in which the shard
//! stands still, and how long an opening takes and what memory it holds. Last, a turnover of so many keys of one version each.
mod measured;

use desk::Desk;
use measured::{megabytes, opened, opened_over, reading};
use message::{Commit, Input, Message, Reads};
use shim::alloc::Global;
use shim::sync::Waiting;
use shim::Vec as List;
use std::time::Instant;
use units::{Key, Parts, ShardNo, Stamp, TxnId, Value, Write, Writes};

const STEP: u64 = 10_000;

fn write(key: u64) -> Write {
    let key = Key::new(format!("k/account/{key:011}").as_bytes()).unwrap();
    Write { key, value: Some(Value::new(Global, &[7; 100]).unwrap()) }
}

/// Transaction `number` writes these keys.
fn commit(number: u64, keys: std::ops::Range<u64>) -> Input {
    let mut list = List::new(Global);
    for key in keys {
        list.push(write(key)).unwrap();
    }
    Input::Deliver(Message::Commit(Commit {
        txn: TxnId::new(1, number).unwrap(),
        parts: Parts::only(ShardNo::new(0).unwrap()),
        reads: Reads::none(Global),
        writes: Writes::from_vec(list).ok().unwrap(),
    }))
}

/// When so many transactions have been made.
fn time_of(number: u64) -> u64 {
    100 * number + 1
}

fn millis(start: Instant) -> f64 {
    start.elapsed().as_secs_f64() * 1e3
}

fn transactions(count: u64, renew: bool) {
    let Ok((mut desk, viewers)) = Desk::new(Waiting, Global, opened(), 1) else { panic!() };
    let (mut turnovers, mut longest) = (0, 0.0_f64);
    for number in 0..count {
        let now = time_of(number);
        let key = number * 7_919 % STEP;
        assert!(desk.deliver(&reading(now), &commit(number, key..key + 1)).is_ok());
        assert!(desk.deliver(&reading(now + 2), &Input::Settle(TxnId::new(1, number).unwrap())).is_ok());
        if (number + 1) % STEP != 0 {
            continue;
        }
        let now = now + 10;
        if renew {
            let before = desk.core().gate();
            let start = Instant::now();
            assert!(desk.renew(&reading(now), 1_000_000, 1 << 20).is_ok());
            if desk.core().gate() > before + 1_000 {
                turnovers += 1;
                longest = longest.max(millis(start));
            }
        }
        assert!(desk.advance(&reading(now), Stamp::new(now).unwrap()).is_ok());
    }
    let end = desk.core().gate();
    drop(viewers);
    let disk = desk.close();
    let empty = megabytes();
    let start = Instant::now();
    let core = opened_over(disk);
    let took = millis(start);
    let held = megabytes() - empty;
    let how = if renew { "renewed" } else { "as it grew" };
    println!(
        "{count} transactions, {how}: the file has {:.1} MB, {turnovers} turnovers, the longest {longest:.0} ms; an opening takes {took:.0} ms, and {held:.1} MB",
        end as f64 / 1e6
    );
    drop(core.stop());
}

fn versions(count: u64) {
    let mut core = opened();
    let mut number = 0;
    while 128 * number < count {
        let now = time_of(number);
        let keys = 128 * number..(128 * number + 128).min(count);
        assert!(core.on(Global, &reading(now), &commit(number, keys)).is_ok());
        assert!(core.on(Global, &reading(now + 2), &Input::Settle(TxnId::new(1, number).unwrap())).is_ok());
        number += 1;
    }
    let before = core.gate();
    let start = Instant::now();
    assert!(core.turn_over(Global).is_ok());
    println!("{count} versions: a turnover takes {:.0} ms, for {:.1} MB", millis(start), (core.gate() - before) as f64 / 1e6);
    drop(core.stop());
}

fn main() {
    let count: u64 = std::env::args().nth(1).and_then(|word| word.parse().ok()).unwrap_or(1_000_000);
    transactions(count, false);
    transactions(count, true);
    for count in [10_000, 100_000, 1_000_000] {
        versions(count);
    }
}
