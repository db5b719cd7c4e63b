//! The log of the plain engine, and the bytes of its records.
use crate::scenes::Txn;
use crate::{Key, Stamp, Value};
use std::sync::atomic::{compiler_fence, Ordering};

#[derive(Clone)]
pub struct Write {
    pub key: Key,
    pub value: Option<Value>,
}

/// What a transaction read and writes at this shard.
#[derive(Clone)]
pub struct Part {
    pub reads: Vec<Key>,
    pub writes: Vec<Write>,
}

/// A promise to a coordinator, which is a decision where there is none; an abort; or an outcome, `None` for aborted.
pub enum Record {
    Stands {
        txn: Txn,
        at: Stamp,
        coordinator: Option<u8>,
        part: Part,
    },
    Abort {
        txn: Txn,
    },
    Outcome {
        txn: Txn,
        outcome: Option<Stamp>,
    },
}

fn put_count(out: &mut Vec<u8>, count: usize) {
    out.extend_from_slice(&(count as u32).to_be_bytes());
}

fn put_long(out: &mut Vec<u8>, number: u64) {
    out.extend_from_slice(&number.to_be_bytes());
}

fn put_bytes(out: &mut Vec<u8>, bytes: &[u8]) {
    put_count(out, bytes.len());
    out.extend_from_slice(bytes);
}

fn put_head(out: &mut Vec<u8>, kind: u8, txn: Txn) {
    out.push(kind);
    put_long(out, txn.0);
    put_long(out, txn.1);
}

fn put_option<T>(out: &mut Vec<u8>, one: &Option<T>, put: impl Fn(&mut Vec<u8>, &T)) {
    out.push(u8::from(one.is_some()));
    if let Some(one) = one {
        put(out, one);
    }
}

fn put_part(out: &mut Vec<u8>, part: &Part) {
    put_count(out, part.reads.len());
    part.reads.iter().for_each(|key| put_bytes(out, key));
    put_count(out, part.writes.len());
    for write in &part.writes {
        put_bytes(out, &write.key);
        put_option(out, &write.value, |out, value| put_bytes(out, value));
    }
}

impl Record {
    fn encode(&self, out: &mut Vec<u8>) {
        match self {
            Record::Stands {
                txn,
                at,
                coordinator,
                part,
            } => {
                put_head(out, 1, *txn);
                put_long(out, *at);
                put_option(out, coordinator, |out, shard| out.push(*shard));
                put_part(out, part);
            }
            Record::Abort { txn } => put_head(out, 2, *txn),
            Record::Outcome { txn, outcome } => {
                put_head(out, 3, *txn);
                put_option(out, outcome, |out, at| put_long(out, *at));
            }
        }
    }

    fn decode(bytes: &[u8]) -> Option<Record> {
        let mut rest = Rest(bytes);
        let kind = rest.byte()?;
        let txn = (rest.long()?, rest.long()?);
        let record = match kind {
            1 => Record::Stands {
                txn,
                at: rest.long()?,
                coordinator: rest.option(Rest::byte)?,
                part: rest.part()?,
            },
            2 => Record::Abort { txn },
            3 => Record::Outcome {
                txn,
                outcome: rest.option(Rest::long)?,
            },
            _ => return None,
        };
        rest.0.is_empty().then_some(record)
    }
}

/// What is still to be read.
struct Rest<'a>(&'a [u8]);

impl<'a> Rest<'a> {
    fn take(&mut self, count: usize) -> Option<&'a [u8]> {
        let (front, rest) = self.0.split_at_checked(count)?;
        self.0 = rest;
        Some(front)
    }

    fn byte(&mut self) -> Option<u8> {
        Some(self.take(1)?[0])
    }

    fn count(&mut self) -> Option<usize> {
        Some(u32::from_be_bytes(self.take(4)?.try_into().ok()?) as usize)
    }

    fn long(&mut self) -> Option<u64> {
        Some(u64::from_be_bytes(self.take(8)?.try_into().ok()?))
    }

    fn bytes(&mut self) -> Option<Vec<u8>> {
        let count = self.count()?;
        Some(self.take(count)?.to_vec())
    }

    fn option<T>(&mut self, read: impl Fn(&mut Self) -> Option<T>) -> Option<Option<T>> {
        match self.byte()? {
            0 => Some(None),
            1 => Some(Some(read(self)?)),
            _ => None,
        }
    }

    fn write(&mut self) -> Option<Write> {
        Some(Write {
            key: self.bytes()?,
            value: self.option(Rest::bytes)?,
        })
    }

    fn part(&mut self) -> Option<Part> {
        let reads = (0..self.count()?).map(|_| self.bytes()).collect::<Option<_>>()?;
        let writes = (0..self.count()?).map(|_| self.write()).collect::<Option<_>>()?;
        Some(Part { reads, writes })
    }
}

const CLOSED: u8 = 0;
const OPEN: u8 = 0xa5;

/// Behind each open gate the length of a record and its bytes, and a closed gate at the end.
pub struct Log {
    bytes: Vec<u8>,
    syncs: u64,
}

impl Log {
    pub fn new() -> Log {
        Log {
            bytes: vec![CLOSED],
            syncs: 0,
        }
    }

    /// What was stored before is stored for good. A device would be told so here.
    fn sync(&mut self) {
        compiler_fence(Ordering::SeqCst);
        self.syncs += 1;
    }

    /// The gate is opened once the record and the gate behind it are stored.
    pub fn append(&mut self, record: &Record) {
        let gate = self.bytes.len() - 1;
        self.bytes.extend_from_slice(&[0; 4]);
        record.encode(&mut self.bytes);
        let size = (self.bytes.len() - gate - 5) as u32;
        self.bytes[gate + 1..gate + 5].copy_from_slice(&size.to_be_bytes());
        self.bytes.push(CLOSED);
        self.sync();
        self.bytes[gate] = OPEN;
        self.sync();
    }

    /// The records, in order; none where a record is due and none is whole.
    pub fn records(&mut self) -> Option<Vec<Record>> {
        self.sync();
        let mut rest = Rest(&self.bytes);
        let mut records = Vec::new();
        while rest.byte()? == OPEN {
            let count = rest.count()?;
            records.push(Record::decode(rest.take(count)?)?);
        }
        Some(records)
    }
}
