//! Times the verdict on logs and lines. Each line is a scene, how many records and lines it has, the verdict, and the seconds
//! of the processor that it took.
use inspector::inspect;
use record::{Committed, Record};
use shim::alloc::Global;
use shim::Vec as List;
use std::time::Duration;
use units::{Epoch, Key, Keys, Line, Parts, ShardNo, Stamp, TxnId, Value, Verdict, Write, Writes};

/// The processor's time that this thread has had, so that what else runs counts for little.
struct Cpu(Duration);

#[repr(C)]
struct Timespec {
    seconds: i64,
    nanos: i64,
}

unsafe extern "C" {
    fn clock_gettime(clock: i32, time: *mut Timespec) -> i32;
}

// CLOCK_THREAD_CPUTIME_ID of Linux.
const THREAD: i32 = 3;

impl Cpu {
    fn now() -> Cpu {
        let mut time = Timespec { seconds: 0, nanos: 0 };
        // SAFETY: the pointer is that of a value of the layout that the call writes.
        unsafe { clock_gettime(THREAD, &mut time) };
        Cpu(Duration::new(time.seconds as u64, time.nanos as u32))
    }

    fn elapsed(&self) -> Duration {
        Cpu::now().0 - self.0
    }
}

fn id(number: u64) -> TxnId {
    TxnId::new(1, number).unwrap()
}

fn key(number: u64) -> Key {
    Key::new(format!("k{}", number % 10_000).as_bytes()).unwrap()
}

fn value(number: u64) -> Value {
    Value::new(Global, number.to_string().as_bytes()).unwrap()
}

fn at(number: u64) -> Stamp {
    Stamp::new(number * 10 + 10).unwrap()
}

/// Two records a transaction, each of a key, and the ids in an order that is not that of time.
fn log(count: u64) -> List<Record> {
    let mut log = List::new(Global);
    log.push(Record::Opened { epoch: Epoch::new(1).unwrap() }).unwrap();
    for number in 0..count {
        let mut writes = List::new(Global);
        writes.push(Write { key: key(number), value: Some(value(number)) }).unwrap();
        let txn = id(number ^ 1_023);
        log.push(Record::Commit(Committed {
            txn,
            at: at(number),
            parts: Parts::only(ShardNo::new(0).unwrap()),
            reads: Keys::none(Global),
            writes: Writes::from_vec(writes).ok().unwrap(),
        }))
        .unwrap();
        log.push(Record::Outcome { txn, outcome: Some(at(number)) }).unwrap();
    }
    log
}

/// A begin line, an acknowledgement, a look or a read, by turns; each begins before the acknowledgements of those before it.
fn sound(count: u64) -> List<Line> {
    let mut lines = List::new(Global);
    for line in 0..count {
        let number = line / 2;
        let txn = id(number ^ 1_023);
        lines.push(match line % 4 {
            0 => Line::Begin(txn, number),
            1 => Line::Ack(txn, at(number), number),
            2 => Line::Look(key(number), at(number), Some(value(number))),
            _ => Line::Read(txn, key(number), number.checked_sub(10_000).map(value)),
        })
        .unwrap();
    }
    lines
}

/// Acknowledgements alone, of ids that no log has, the oldest id last.
fn lost(count: u64) -> List<Line> {
    let mut lines = List::new(Global);
    for number in 0..count {
        lines.push(Line::Ack(id(4_000_000 - number), at(number), number)).unwrap();
    }
    lines
}

/// Each transaction begins after many acknowledgements, of which the last one alone is out of order.
fn late(count: u64) -> List<Line> {
    let mut lines = List::new(Global);
    let half = count / 2;
    for number in 0..half {
        lines.push(Line::Ack(id(number ^ 1_023), at(number), number)).unwrap();
    }
    for number in 0..half {
        // Its own acknowledgement came before only for the last.
        let moment = if number + 1 == half { count } else { number };
        lines.push(Line::Begin(id(number ^ 1_023), moment)).unwrap();
    }
    lines
}

fn told(verdict: &Verdict) -> String {
    match verdict {
        Verdict::Yes => "yes".to_string(),
        Verdict::Torn(_) => "no torn".to_string(),
        Verdict::Lost(txn) => format!("no lost {}", txn.number()),
        Verdict::WrongRead(place) => format!("no read {place}"),
        Verdict::WrongOrder(begin, ack) => format!("no order {begin} {ack}"),
    }
}

fn main() {
    let scenes: [(&str, fn(u64) -> List<Line>); 3] = [("sound", sound), ("lost", lost), ("late", late)];
    for count in [100_000u64, 1_000_000] {
        let mut logs = List::new(Global);
        logs.push(log(count / 2)).unwrap();
        for (name, lines_of) in scenes {
            let lines = lines_of(count);
            let start = Cpu::now();
            let verdict = inspect(Global, &logs, &lines).unwrap();
            let took = start.elapsed().as_secs_f64();
            println!("{name}: {} records, {} lines: {} in {took:.2} s", count + 1, lines.len(), told(&verdict));
        }
    }
}
