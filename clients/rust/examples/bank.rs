//! A bank over a store that is held open: bank FOLDER [KILLS].
//!
//! Four tellers, each a thread, move money between 16 accounts, and an auditor adds the accounts up. After a moment the program is killed. Then
//! it is opened again: all money has to be there, and each move that a teller was told of. That goes on until KILLS kills (10). It prints
//! what it did, and ends with status 1 if anything was wrong.

use spanner_shards::{Failed, Store, Transaction};
use std::collections::hash_map::RandomState;
use std::collections::BTreeSet;
use std::error::Error;
use std::hash::{BuildHasher, Hasher};
use std::process::ExitCode;
use std::thread;
use std::time::{Duration, Instant};

const WHOLE: u64 = 16_000;
const TELLERS: usize = 4;

fn accounts() -> Vec<Vec<u8>> {
    (0..16).map(|number| format!("acct-{number:02}").into_bytes()).collect()
}

fn number(value: Option<Vec<u8>>) -> u64 {
    value.and_then(|value| String::from_utf8(value).ok()?.parse().ok()).unwrap_or(0)
}

fn written(number: u64) -> Vec<u8> {
    number.to_string().into_bytes()
}

fn below(limit: u64) -> u64 {
    RandomState::new().build_hasher().finish() % limit
}

/// Puts 1,000 on each account, unless that was done.
fn open_accounts(tx: &mut Transaction<'_>) -> Result<(), Failed> {
    if tx.get(&accounts()[0])?.is_none() {
        for account in accounts() {
            tx.put(&account, b"1000")?;
        }
    }
    Ok(())
}

/// What all accounts have at one timestamp.
pub fn total(store: &Store) -> Result<u64, Failed> {
    let all = accounts();
    let keys: Vec<&[u8]> = all.iter().map(Vec::as_slice).collect();
    Ok(store.view(None)?.get_all(&keys)?.into_iter().map(number).sum())
}

/// What a teller was told: the number of its last move that was committed, those whose end is unknown, and how many were committed.
#[derive(Default)]
struct Teller {
    key: Vec<u8>,
    last: u64,
    sure: u64,
    unknown: BTreeSet<u64>,
    moves: u64,
}

impl Teller {
    /// A teller that goes on behind what a store has of it.
    fn new(store: &Store, place: usize) -> Result<Teller, Failed> {
        let key = format!("teller-{place}").into_bytes();
        let sure = number(store.get(&key)?);
        Ok(Teller { key, last: sure, sure, ..Teller::default() })
    }

    /// Moves money until the store is closed. Each move is numbered, and writes its number beside the accounts.
    fn work(&mut self, store: &Store) -> Result<(), Failed> {
        let all = accounts();
        loop {
            self.last += 1;
            let giver = below(16) as usize;
            let taker = (giver + 1 + below(15) as usize) % 16;
            let moved = store.transact(50, |tx| -> Result<(), Failed> {
                let mut both = tx.get_all(&[&all[giver], &all[taker]])?.into_iter().map(number);
                let (has, gets) = (both.next().unwrap_or(0), both.next().unwrap_or(0));
                let amount = below(has.min(100) + 1);
                tx.put(&all[giver], &written(has - amount))?;
                tx.put(&all[taker], &written(gets + amount))?;
                tx.put(&self.key, &written(self.last))
            });
            match moved {
                Ok(_) => (self.sure, self.moves) = (self.last, self.moves + 1),
                Err(Failed::Unknown(_)) => drop(self.unknown.insert(self.last)),
                Err(Failed::Aborted) => {}
                Err(Failed::Closed) => return Ok(()),
                Err(failed) => return Err(failed),
            }
        }
    }

    /// A store has each move that the teller was told of, and none that it never asked for.
    fn is_kept(&self, store: &Store) -> Result<bool, Failed> {
        let written = number(store.get(&self.key)?);
        Ok(written == self.sure || written > self.sure && self.unknown.contains(&written))
    }
}

/// What a bank did: how often it was killed, how many moves were told, how many audits there were, and how many things were wrong.
#[derive(Default)]
pub struct Bank {
    pub kills: u64,
    pub moves: u64,
    pub audits: u64,
    pub wrong: u64,
    tellers: Vec<Teller>,
}

impl Bank {
    fn audit(&mut self, store: &Store) -> Result<(), Failed> {
        self.audits += 1;
        self.wrong += u64::from(total(store)? != WHOLE);
        Ok(())
    }

    /// What stands after an opening.
    pub fn check(&mut self, store: &Store) -> Result<(), Failed> {
        self.audit(store)?;
        for teller in &self.tellers {
            self.wrong += u64::from(!teller.is_kept(store)?);
        }
        Ok(())
    }

    /// Checks a store that was opened, and lets the tellers work for so long. Then the program is killed.
    pub fn serve_until_killed(&mut self, store: &Store, time: Duration) -> Result<(), Failed> {
        store.transact(50, open_accounts)?;
        self.check(store)?;
        self.tellers = (0..TELLERS).map(|place| Teller::new(store, place)).collect::<Result<_, _>>()?;
        let mut tellers = std::mem::take(&mut self.tellers);
        let worked = thread::scope(|scope| {
            let threads: Vec<_> = tellers.iter_mut().map(|teller| scope.spawn(|| teller.work(store))).collect();
            let until = Instant::now() + time;
            let mut audited = Ok(());
            while Instant::now() < until && audited.is_ok() {
                audited = self.audit(store);
            }
            let killed = store.child.lock().unwrap().kill();
            let worked = threads.into_iter().map(|thread| thread.join().unwrap_or(Err(Failed::Closed)));
            audited.and(killed.map_err(|_| Failed::Closed)).and(worked.collect())
        });
        self.tellers = tellers;
        self.kills += 1;
        self.moves += self.tellers.iter().map(|teller| teller.moves).sum::<u64>();
        worked
    }
}

// As an example this is a program; as a module of the tests it is not.
#[allow(dead_code)]
fn main() -> Result<ExitCode, Box<dyn Error>> {
    let mut words = std::env::args().skip(1);
    let folder = words.next().ok_or("a folder is wanted")?;
    let kills = words.next().unwrap_or("10".into()).parse::<u64>()?;
    let mut bank = Bank::default();
    for _kill in 0..kills {
        bank.serve_until_killed(&Store::open(&folder)?, Duration::from_millis(below(1000)))?;
    }
    bank.check(&Store::open(&folder)?)?;
    println!("kills {} moves {} audits {} wrong {}", bank.kills, bank.moves, bank.audits, bank.wrong);
    Ok(ExitCode::from(u8::from(bank.wrong > 0)))
}
