//! What a key that is written again and again holds in memory: a desk with one viewer, that keeps all versions, or those of so many
//! microseconds. A write comes each 100 microseconds, and an advance and a horizon each 10,000 writes, so each second. Its log is a file, so
//! that no image of it counts. In megabytes, by the sizes that were asked for; and how long a look at the present takes, in microseconds.
mod measured;

use desk::Desk;
use measured::{megabytes, opened, reading};
use message::{Commit, Input, Message, Reads};
use shim::alloc::Global;
use shim::sync::Waiting;
use shim::Vec as List;
use std::time::Instant;
use units::{Key, Parts, ShardNo, Stamp, TxnId, Value, Write, Writes};

/// Transaction `number` writes the one key.
fn commit(number: u64) -> Input {
    let key = Key::new(b"k/account/00000000001").unwrap();
    let mut list = List::new(Global);
    let value = Some(Value::new(Global, &[7; 100]).unwrap());
    list.push(Write { key, value }).unwrap();
    Input::Deliver(Message::Commit(Commit {
        txn: TxnId::new(1, number).unwrap(),
        parts: Parts::only(ShardNo::new(0).unwrap()),
        reads: Reads::none(Global),
        writes: Writes::from_vec(list).ok().unwrap(),
    }))
}

/// When so many writes have been made.
fn time_of(number: u64) -> u64 {
    100 * number + 1
}

/// What a core alone holds behind each 10,000 writes, which keeps all.
fn alone(count: u64) -> Vec<f64> {
    let empty = megabytes();
    let mut core = opened();
    let mut held = Vec::with_capacity(64);
    for number in 0..count {
        let now = time_of(number);
        assert!(core.on(Global, &reading(now), &commit(number)).is_ok());
        assert!(core.on(Global, &reading(now + 2), &Input::Settle(TxnId::new(1, number).unwrap())).is_ok());
        if (number + 1) % 10_000 == 0 {
            held.push(megabytes() - empty);
        }
    }
    drop(core.stop());
    held
}

/// The same behind a desk, and of it what is more than the core alone holds: the copies of its board, and what they forget.
fn told(count: u64, keep: Option<u64>, alone: &[f64]) {
    let empty = megabytes();
    let Ok((mut desk, mut viewers)) = Desk::new(Waiting, Global, opened(), 1) else { panic!() };
    let key = Key::new(b"k/account/00000000001").unwrap();
    let mut buffer = [0; 1024];
    for number in 0..count {
        let now = time_of(number);
        assert!(desk.deliver(&reading(now), &commit(number)).is_ok());
        assert!(desk.deliver(&reading(now + 2), &Input::Settle(TxnId::new(1, number).unwrap())).is_ok());
        if (number + 1) % 10_000 != 0 {
            continue;
        }
        let now = now + 10;
        if let Some(micros) = keep {
            assert!(desk.keep_for(&reading(now), micros).is_ok());
        }
        assert!(desk.advance(&reading(now), Stamp::new(now).unwrap()).is_ok());
        let start = Instant::now();
        for _ in 0..10_000 {
            assert!(viewers[0].look(&key, Stamp::new(now).unwrap(), &mut buffer).is_ok());
        }
        let each = start.elapsed().as_nanos() as f64 / 1e7;
        let kept = keep.map_or("all".to_string(), |micros| format!("{micros} us"));
        let all = megabytes() - empty;
        let board = all - alone[(number / 10_000) as usize];
        println!("{:>7} writes, {kept} kept: {all:.1} MB, {board:.1} beside those of a core alone, a look {each:.2} us", number + 1);
    }
    drop((desk, viewers));
}

fn main() {
    let count: u64 = std::env::args().nth(1).and_then(|word| word.parse().ok()).unwrap_or(100_000);
    let alone = alone(count);
    told(count, None, &alone);
    told(count, Some(1_000_000), &alone);
}
