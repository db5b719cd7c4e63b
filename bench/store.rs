//! Times the core of a shard over a disk in memory, by the scenes.
mod scenes;

use gatelog::GateLog;
use locks::Table;
use message::{Commit, GiveUp, Input, Message, Outcome, Prepare, Read, Reads};
use scenes::{Shard, Txn, VALUE};
use shard::Core;
use shim::alloc::Global;
use shim::Vec as List;
use simdisk::SimDisk;
use truetime::Reading;
use units::{Book, Key, Lock, Mode, Parts, Seen, Setup, ShardNo, Splits, Stamp, Stride, TxnId, Value, Write, Writes};

type Store = Core<SimDisk>;

fn setup(shard: u8) -> Setup {
    // The second of two shards has the keys from `m` on.
    let split = [Key::new(b"m").unwrap()];
    Setup {
        shard: ShardNo::new(shard).unwrap(),
        splits: Splits::new(Global, &split[..usize::from(shard)]).unwrap(),
        stride: Stride::new(0).unwrap(),
        book: Book::Off,
    }
}

fn opened(disk: SimDisk, shard: u8) -> Store {
    match Core::open(Global, disk, setup(shard)) {
        Ok(core) => core,
        Err((fault, _)) => panic!("{}", fault.number()),
    }
}

fn id(txn: Txn) -> TxnId {
    TxnId::new(txn.0, txn.1).unwrap()
}

fn writes(keys: Vec<Key>) -> Writes {
    let mut list = List::new(Global);
    for key in keys {
        let value = Some(Value::new(Global, VALUE).unwrap());
        list.push(Write { key, value }).unwrap();
    }
    Writes::from_vec(list).ok().unwrap()
}

impl Shard for Store {
    type Key = Key;
    type Input = Input;
    type Stamp = Stamp;
    type Disk = SimDisk;

    fn new(shard: u8) -> Store {
        match GateLog::format(SimDisk::new(Global)) {
            Ok(log) => opened(log.into_disk(), shard),
            Err((fault, _)) => panic!("{}", fault.number()),
        }
    }

    fn key(bytes: &[u8]) -> Key {
        Key::new(bytes).unwrap()
    }

    fn read(txn: Txn, key: Key) -> Input {
        Input::Deliver(Message::Read(Read { txn: id(txn), key }))
    }

    fn give_up(txn: Txn) -> Input {
        Input::Deliver(Message::GiveUp(GiveUp { txn: id(txn) }))
    }

    fn prepare(txn: Txn, keys: Vec<Key>) -> Input {
        Input::Deliver(Message::Prepare(Prepare {
            txn: id(txn),
            coordinator: ShardNo::new(0).unwrap(),
            reads: Reads::none(Global),
            writes: writes(keys),
        }))
    }

    fn outcome(txn: Txn, at: u64) -> Input {
        Input::Deliver(Message::Outcome(Outcome {
            from: ShardNo::new(0).unwrap(),
            txn: id(txn),
            outcome: Some(Stamp::new(at).unwrap()),
        }))
    }

    fn commit(txn: Txn, keys: Vec<Key>) -> Input {
        Input::Deliver(Message::Commit(Commit {
            txn: id(txn),
            parts: Parts::only(ShardNo::new(0).unwrap()),
            reads: Reads::none(Global),
            writes: writes(keys),
        }))
    }

    fn settle(txn: Txn) -> Input {
        Input::Settle(id(txn))
    }

    fn resume() -> Input {
        Input::Resume
    }

    fn give(&mut self, at: u64, input: &Input) {
        let now = Reading::new(Stamp::new(at).unwrap(), Stamp::new(at + 10).unwrap()).unwrap();
        if let Err(fault) = self.on(Global, &now, input) {
            panic!("{}", fault.number());
        }
    }

    fn is_ready(&self) -> bool {
        self.ready().is_some()
    }

    fn served(&self) -> Stamp {
        self.safe()
    }

    fn find(&self, key: &Key, at: Stamp, buffer: &mut [u8]) -> Option<usize> {
        match self.look(key, at, buffer) {
            Ok(Seen::Value(size)) => Some(size),
            Ok(Seen::Absent) => None,
            Err(fault) => panic!("{}", fault.number()),
        }
    }

    fn end(self) -> SimDisk {
        self.stop()
    }

    fn reopen(disk: SimDisk) -> Store {
        opened(disk, 0)
    }
}

/// Finds the one that is ready in a lock table alone, where waiters stand behind as many holders and none is. A shard has 1,024 rows.
fn table(waiters: u64) {
    let mut table = Table::new(Global);
    let mut tokens = Vec::new();
    for txn in [1, 2].into_iter().flat_map(|run| (0..waiters).map(move |n| (run, n))) {
        let mut held = table.enter(Global, id(txn)).ok().unwrap();
        let key = Key::new(format!("table-{:06}", txn.1).as_bytes()).unwrap();
        let lock = Lock { key, mode: Mode::Exclusive };
        assert!(table.request(Global, &mut held, &[lock]).is_ok());
        tokens.push(held);
    }
    scenes::time(&format!("ready of a table, {waiters} waiters behind as many"), || table.ready().is_none());
}

fn main() {
    scenes::run::<Store>();
    if std::env::args().len() < 2 || std::env::args().any(|it| it == "table") {
        table(1_000);
    }
}
