//! A plain engine of the store's design, over std alone, timed by the same scenes: one shard with its log in memory,
//! locks by wound-wait, promises, decisions and versions. It leaves out what makes the store's answers sure: contracts
//! and proofs, crash safety of the log (a sync is a count), limits and refused memory, epochs, ceilings of the served
//! time, books, the split of keys, and commit wait, which needs a clock of two ends. It votes, but counts no votes.
mod engine_locks;
mod engine_log;
mod scenes;

use engine_locks::{Locks, Mode};
use engine_log::{Log, Part, Record, Write};
use scenes::{Shard, Txn, VALUE};
use std::collections::{BTreeMap, BTreeSet, HashMap};
use std::hint::black_box;

type Key = Vec<u8>;
type Value = Vec<u8>;
type Stamp = u64;

enum Input {
    Read { txn: Txn, key: Key },
    Prepare { txn: Txn, coordinator: u8, part: Part },
    Commit { txn: Txn, part: Part },
    Outcome { from: u8, txn: Txn, outcome: Option<Stamp> },
    GiveUp(Txn),
    Settle(Txn),
    Resume,
}

/// Each names its transaction. An outcome of `None` is an abort, and a vote of `None` a refusal.
#[allow(dead_code)]
enum Output {
    Value { txn: Txn, key: Key, value: Option<Value> },
    Refused { txn: Txn, key: Key },
    Vote { txn: Txn, to: u8, at: Option<Stamp> },
    Done { txn: Txn, outcome: Option<Stamp> },
}

/// An input that nobody could have sent as things stand.
#[derive(Debug)]
struct Stranger;

type Answer = Result<Vec<Output>, Stranger>;

/// What a transaction waits with.
enum Wait {
    Read(Key),
    /// With a prepare, or with a commit where there is no coordinator.
    Write(Option<u8>, Part),
}

impl Wait {
    fn needs(&self) -> Vec<(&Key, Mode)> {
        match self {
            Wait::Read(key) => vec![(key, Mode::Shared)],
            Wait::Write(_, part) => needs(part).collect(),
        }
    }
}

/// The locks that are asked for by what is written.
fn needs(part: &Part) -> impl Iterator<Item = (&Key, Mode)> {
    part.writes.iter().map(|write| (&write.key, Mode::Exclusive))
}

/// A transaction that is under way, with the keys that it shares.
#[derive(Default)]
struct Row {
    shared: Vec<Key>,
    state: State,
}

enum State {
    Reading(Option<Wait>),
    /// Promised to a coordinator, and decided here where there is none: nobody ends it.
    Stands {
        at: Stamp,
        coordinator: Option<u8>,
        writes: Vec<Write>,
    },
}

impl Default for State {
    fn default() -> State {
        State::Reading(None)
    }
}

/// How a transaction went that is under way no more.
enum Past {
    Ended,
    Aborted,
    Closed(Option<Stamp>),
    Settled(Stamp),
}

struct Engine {
    log: Log,
    locks: Locks,
    rows: HashMap<Txn, Row>,
    past: HashMap<Txn, Past>,
    /// The versions of each key, the oldest first.
    versions: BTreeMap<Key, Vec<(Stamp, Option<Value>)>>,
    /// The timestamps of those that stand.
    holds: BTreeSet<Stamp>,
    last: Stamp,
}

impl Engine {
    fn on(&mut self, now: Stamp, input: &Input) -> Answer {
        match input {
            Input::Read { txn, key } => self.read(*txn, key),
            Input::Prepare { txn, coordinator, part } => self.prepare(now, *txn, *coordinator, part),
            Input::Commit { txn, part } => self.commit(now, *txn, part),
            Input::Outcome { from, txn, outcome } => self.outcome(*from, *txn, *outcome),
            Input::GiveUp(txn) => self.give_up(*txn),
            Input::Settle(txn) => self.settle(*txn),
            Input::Resume => self.resume(now),
        }
    }

    fn state(&self, txn: Txn) -> Option<&State> {
        self.rows.get(&txn).map(|row| &row.state)
    }

    fn read(&mut self, txn: Txn, key: &Key) -> Answer {
        match self.rows.get(&txn) {
            Some(Row {
                state: State::Stands { .. },
                ..
            }) => return Ok(Vec::new()),
            Some(row) if row.shared.contains(key) => return Ok(vec![self.value(txn, key)]),
            Some(Row {
                state: State::Reading(Some(_)),
                ..
            }) => return Ok(Vec::new()),
            Some(_) => {}
            None if self.past.contains_key(&txn) => return Ok(vec![Output::Refused { txn, key: key.clone() }]),
            None => {}
        }
        if self.ask(txn, std::iter::once((key, Mode::Shared))) {
            return Ok(vec![self.read_now(txn, key)]);
        }
        self.wait(txn, Wait::Read(key.clone()))
    }

    fn read_now(&mut self, txn: Txn, key: &Key) -> Output {
        self.locks.grant(txn, key, Mode::Shared);
        self.rows.entry(txn).or_default().shared.push(key.clone());
        self.value(txn, key)
    }

    fn value(&self, txn: Txn, key: &Key) -> Output {
        let latest = self.versions.get(key).and_then(|it| it.last());
        Output::Value {
            txn,
            key: key.clone(),
            value: latest.and_then(|it| it.1.clone()),
        }
    }

    fn prepare(&mut self, now: Stamp, txn: Txn, to: u8, part: &Part) -> Answer {
        let vote = |at| Ok(vec![Output::Vote { txn, to, at }]);
        match (self.state(txn), self.past.get(&txn)) {
            (
                Some(State::Stands {
                    at,
                    coordinator: Some(_),
                    ..
                }),
                _,
            ) => vote(Some(*at)),
            (Some(State::Reading(Some(Wait::Write(Some(_), _)))), _) => Ok(Vec::new()),
            (Some(State::Reading(Some(Wait::Read(_)) | None)), _) | (None, None) => {
                self.write(now, txn, Some(to), part)
            }
            (None, Some(Past::Ended | Past::Closed(None))) => vote(None),
            (None, Some(Past::Closed(Some(_)))) => Ok(Vec::new()),
            _ => Err(Stranger),
        }
    }

    fn commit(&mut self, now: Stamp, txn: Txn, part: &Part) -> Answer {
        match (self.state(txn), self.past.get(&txn)) {
            (Some(State::Stands { coordinator: None, .. }), _) => Ok(Vec::new()),
            (Some(State::Reading(Some(Wait::Write(None, _)))), _) => Ok(Vec::new()),
            (Some(State::Reading(Some(Wait::Read(_)) | None)), _) | (None, None) => self.write(now, txn, None, part),
            (None, Some(Past::Ended)) => Ok(self.abort(txn)),
            (None, Some(Past::Aborted)) => Ok(vec![Output::Done { txn, outcome: None }]),
            (None, Some(Past::Settled(at))) => Ok(vec![Output::Done {
                txn,
                outcome: Some(*at),
            }]),
            _ => Err(Stranger),
        }
    }

    /// Where what was read stands, exclusive locks of what is written; or a wait.
    fn write(&mut self, now: Stamp, txn: Txn, coordinator: Option<u8>, part: &Part) -> Answer {
        if self.reads_stand(txn, part) {
            if self.ask(txn, needs(part)) {
                return Ok(self.write_now(now, txn, coordinator, part.clone()));
            }
            return self.wait(txn, Wait::Write(coordinator, part.clone()));
        }
        let Some(to) = coordinator else {
            return Ok(self.abort(txn));
        };
        self.end(txn);
        Ok(vec![Output::Vote { txn, to, at: None }])
    }

    /// A promise is above all that was served, and a decision also above the present.
    fn write_now(&mut self, now: Stamp, txn: Txn, coordinator: Option<u8>, part: Part) -> Vec<Output> {
        let present = if coordinator.is_some() { now } else { now + 1 };
        let at = present.max(self.last + 1);
        self.store(Record::Stands {
            txn,
            at,
            coordinator,
            part,
        });
        coordinator
            .map(|to| Output::Vote { txn, to, at: Some(at) })
            .into_iter()
            .collect()
    }

    fn abort(&mut self, txn: Txn) -> Vec<Output> {
        self.store(Record::Abort { txn });
        vec![Output::Done { txn, outcome: None }]
    }

    fn outcome(&mut self, from: u8, txn: Txn, outcome: Option<Stamp>) -> Answer {
        match (self.state(txn), self.past.get(&txn)) {
            (Some(State::Stands { at, coordinator, .. }), _) => {
                if *coordinator != Some(from) || outcome.is_some_and(|it| it < *at) {
                    return Err(Stranger);
                }
                self.store(Record::Outcome { txn, outcome });
            }
            (Some(State::Reading(Some(Wait::Write(None, _)))), _) => return Err(Stranger),
            (Some(State::Reading(_)), _) | (None, None) if outcome.is_none() => self.end(txn),
            (None, Some(Past::Ended | Past::Closed(_))) => {}
            _ => return Err(Stranger),
        }
        Ok(Vec::new())
    }

    fn settle(&mut self, txn: Txn) -> Answer {
        let Some(State::Stands {
            at, coordinator: None, ..
        }) = self.state(txn)
        else {
            return Err(Stranger);
        };
        let outcome = Some(*at);
        self.store(Record::Outcome { txn, outcome });
        Ok(vec![Output::Done { txn, outcome }])
    }

    /// A transaction that reads is ended; any other goes on.
    fn give_up(&mut self, txn: Txn) -> Answer {
        match self.state(txn) {
            Some(State::Reading(Some(Wait::Write(None, _)))) => return Ok(self.abort(txn)),
            Some(State::Reading(_)) => self.end(txn),
            None if !self.past.contains_key(&txn) => self.end(txn),
            Some(State::Stands { .. }) | None => {}
        }
        Ok(Vec::new())
    }

    fn resume(&mut self, now: Stamp) -> Answer {
        let Some(txn) = self.ready() else { return Err(Stranger) };
        match self.withdraw(txn) {
            Some(Wait::Read(key)) => Ok(vec![self.read_now(txn, &key)]),
            Some(Wait::Write(coordinator, part)) => Ok(self.write_now(now, txn, coordinator, part)),
            None => Err(Stranger),
        }
    }

    /// The oldest waiter whose keys are all free. Nobody is free behind one that holds a key, or waits for it, alone.
    fn ready(&self) -> Option<Txn> {
        let mut oldest: Option<Txn> = None;
        for (key, waiters) in &self.locks.waiters {
            if self.locks.holders.get(key).is_some_and(|it| it.exclusive.is_some()) {
                continue;
            }
            for (txn, mode) in waiters.range(..oldest.unwrap_or((u64::MAX, u64::MAX))) {
                if self.may_resume(*txn) {
                    oldest = Some(*txn);
                    break;
                }
                if *mode == Mode::Exclusive {
                    break;
                }
            }
        }
        oldest
    }

    fn may_resume(&self, txn: Txn) -> bool {
        let Some(State::Reading(Some(wait))) = self.state(txn) else {
            return false;
        };
        wait.needs()
            .into_iter()
            .all(|(key, mode)| self.locks.is_free(txn, key, mode))
    }

    /// Asks for locks: younger holders in the way are ended, but for those that stand. Says whether all are free then.
    fn ask<'a>(&mut self, txn: Txn, needs: impl Iterator<Item = (&'a Key, Mode)>) -> bool {
        let mut wounded = Vec::new();
        let mut is_free = true;
        for (key, mode) in needs {
            is_free &= !self.locks.is_behind(txn, key, mode);
            for other in self.locks.in_way(txn, key, mode) {
                let stands = matches!(self.rows[&other].state, State::Stands { .. });
                if txn < other && !stands {
                    wounded.push(other);
                } else {
                    is_free = false;
                }
            }
        }
        wounded.into_iter().for_each(|other| self.end(other));
        if is_free {
            self.withdraw(txn);
        }
        is_free
    }

    fn wait(&mut self, txn: Txn, wait: Wait) -> Answer {
        self.withdraw(txn);
        for (key, mode) in wait.needs() {
            self.locks.wait(txn, key, mode);
        }
        self.rows.entry(txn).or_default().state = State::Reading(Some(wait));
        Ok(Vec::new())
    }

    /// It waits no more. Says what it waited with.
    fn withdraw(&mut self, txn: Txn) -> Option<Wait> {
        let State::Reading(wait) = &mut self.rows.get_mut(&txn)?.state else {
            return None;
        };
        let wait = wait.take()?;
        for (key, _) in wait.needs() {
            self.locks.withdraw(txn, key);
        }
        Some(wait)
    }

    /// The keys that it read are still locked for it.
    fn reads_stand(&self, txn: Txn, part: &Part) -> bool {
        let held = self.rows.get(&txn).map_or(&[][..], |row| &row.shared);
        part.reads.iter().all(|key| held.contains(key))
    }

    /// Ends a transaction that reads, or has no row.
    fn end(&mut self, txn: Txn) {
        self.withdraw(txn);
        if let Some(row) = self.rows.remove(&txn) {
            row.shared.iter().for_each(|key| self.locks.release(txn, key));
        }
        self.past.insert(txn, Past::Ended);
    }

    fn store(&mut self, record: Record) {
        self.log.append(&record);
        self.learn(record);
    }

    /// What a record changes, whether it was logged now or is read from the log.
    fn learn(&mut self, record: Record) {
        match record {
            Record::Stands {
                txn,
                at,
                coordinator,
                part,
            } => self.stand(txn, at, coordinator, part),
            Record::Abort { txn } => {
                self.end(txn);
                self.past.insert(txn, Past::Aborted);
            }
            Record::Outcome { txn, outcome } => self.close(txn, outcome),
        }
    }

    fn stand(&mut self, txn: Txn, at: Stamp, coordinator: Option<u8>, part: Part) {
        let Part { reads, writes } = part;
        let row = self.rows.entry(txn).or_default();
        for key in reads {
            if !row.shared.contains(&key) {
                self.locks.grant(txn, &key, Mode::Shared);
                row.shared.push(key);
            }
        }
        writes
            .iter()
            .for_each(|write| self.locks.grant(txn, &write.key, Mode::Exclusive));
        row.state = State::Stands {
            at,
            coordinator,
            writes,
        };
        self.holds.insert(at);
        self.last = self.last.max(at);
    }

    /// One that stood is over: its locks are released, and what it wrote is installed where it is committed.
    fn close(&mut self, txn: Txn, outcome: Option<Stamp>) {
        let Some(Row {
            shared,
            state:
                State::Stands {
                    at,
                    coordinator,
                    writes,
                },
        }) = self.rows.remove(&txn)
        else {
            return;
        };
        shared.iter().for_each(|key| self.locks.release(txn, key));
        for Write { key, value } in writes {
            self.locks.release(txn, &key);
            if let Some(at) = outcome {
                self.versions.entry(key).or_default().push((at, value));
            }
        }
        self.holds.remove(&at);
        self.last = self.last.max(outcome.unwrap_or(0));
        let past = if coordinator.is_some() {
            Past::Closed(outcome)
        } else {
            Past::Settled(at)
        };
        self.past.insert(txn, past);
    }

    /// The greatest timestamp below which nothing changes any more.
    fn safe(&self) -> Stamp {
        self.holds.first().map_or(self.last, |at| at - 1)
    }

    /// The length of a key's value at a timestamp that is served; the buffer has it in front.
    fn look(&self, key: &[u8], at: Stamp, buffer: &mut [u8]) -> Option<usize> {
        if self.safe() < at {
            return None;
        }
        let versions = self.versions.get(key)?;
        let place = versions.partition_point(|it| it.0 <= at).checked_sub(1)?;
        let value = versions[place].1.as_ref()?;
        buffer.get_mut(..value.len())?.copy_from_slice(value);
        Some(value.len())
    }

    /// Takes up a log. There is none where the log is damaged.
    fn open(mut log: Log) -> Option<Engine> {
        let records = log.records()?;
        let mut engine = Engine {
            log,
            locks: Locks::default(),
            rows: HashMap::new(),
            past: HashMap::new(),
            versions: BTreeMap::new(),
            holds: BTreeSet::new(),
            last: 0,
        };
        records.into_iter().for_each(|record| engine.learn(record));
        Some(engine)
    }
}

fn part(keys: Vec<Key>) -> Part {
    let value = || Some(VALUE.to_vec());
    Part {
        reads: Vec::new(),
        writes: keys.into_iter().map(|key| Write { key, value: value() }).collect(),
    }
}

impl Shard for Engine {
    type Key = Key;
    type Input = Input;
    type Stamp = Stamp;
    type Disk = Log;

    fn new(_: u8) -> Engine {
        Engine::reopen(Log::new())
    }

    fn key(bytes: &[u8]) -> Key {
        bytes.to_vec()
    }

    fn read(txn: Txn, key: Key) -> Input {
        Input::Read { txn, key }
    }

    fn give_up(txn: Txn) -> Input {
        Input::GiveUp(txn)
    }

    fn prepare(txn: Txn, keys: Vec<Key>) -> Input {
        Input::Prepare {
            txn,
            coordinator: 0,
            part: part(keys),
        }
    }

    fn outcome(txn: Txn, at: u64) -> Input {
        Input::Outcome {
            from: 0,
            txn,
            outcome: Some(at),
        }
    }

    fn commit(txn: Txn, keys: Vec<Key>) -> Input {
        Input::Commit { txn, part: part(keys) }
    }

    fn settle(txn: Txn) -> Input {
        Input::Settle(txn)
    }

    fn resume() -> Input {
        Input::Resume
    }

    fn give(&mut self, at: u64, input: &Input) {
        black_box(self.on(at, input)).unwrap();
    }

    fn is_ready(&self) -> bool {
        self.ready().is_some()
    }

    fn served(&self) -> Stamp {
        self.safe()
    }

    fn find(&self, key: &Key, at: Stamp, buffer: &mut [u8]) -> Option<usize> {
        self.look(key, at, buffer)
    }

    fn end(self) -> Log {
        black_box(self.log)
    }

    fn reopen(log: Log) -> Engine {
        Engine::open(log).expect("a log that is whole")
    }
}

fn main() {
    scenes::run::<Engine>();
}
