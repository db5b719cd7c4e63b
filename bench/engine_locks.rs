//! The locks of the plain engine.
use crate::scenes::Txn;
use crate::Key;
use std::collections::{BTreeMap, HashMap};

#[derive(Clone, Copy, PartialEq, Eq)]
pub enum Mode {
    Shared,
    Exclusive,
}

fn clash(a: Mode, b: Mode) -> bool {
    a == Mode::Exclusive || b == Mode::Exclusive
}

/// Who holds a key.
#[derive(Default)]
pub struct Holders {
    pub exclusive: Option<Txn>,
    shared: Vec<Txn>,
}

/// Who holds each key, and who waits for it, the oldest first.
#[derive(Default)]
pub struct Locks {
    pub holders: HashMap<Key, Holders>,
    pub waiters: BTreeMap<Key, BTreeMap<Txn, Mode>>,
}

impl Locks {
    /// The other holders that a lock would clash with.
    pub fn in_way(&self, txn: Txn, key: &Key, mode: Mode) -> impl Iterator<Item = Txn> + '_ {
        let holders = self.holders.get(key);
        let exclusive = holders.and_then(|it| it.exclusive);
        let shared = holders
            .filter(|_| mode == Mode::Exclusive)
            .map_or(&[][..], |it| &it.shared);
        exclusive
            .into_iter()
            .chain(shared.iter().copied())
            .filter(move |it| *it != txn)
    }

    /// An older transaction waits for a lock that clashes.
    pub fn is_behind(&self, txn: Txn, key: &Key, mode: Mode) -> bool {
        let Some(waiters) = self.waiters.get(key) else {
            return false;
        };
        waiters.range(..txn).any(|(_, theirs)| clash(*theirs, mode))
    }

    pub fn is_free(&self, txn: Txn, key: &Key, mode: Mode) -> bool {
        self.in_way(txn, key, mode).next().is_none() && !self.is_behind(txn, key, mode)
    }

    pub fn grant(&mut self, txn: Txn, key: &Key, mode: Mode) {
        let holders = self.holders.entry(key.clone()).or_default();
        match mode {
            Mode::Exclusive => holders.exclusive = Some(txn),
            Mode::Shared => holders.shared.push(txn),
        }
    }

    pub fn release(&mut self, txn: Txn, key: &Key) {
        let Some(holders) = self.holders.get_mut(key) else {
            return;
        };
        holders.exclusive = holders.exclusive.filter(|it| *it != txn);
        holders.shared.retain(|it| *it != txn);
        if holders.exclusive.is_none() && holders.shared.is_empty() {
            self.holders.remove(key);
        }
    }

    pub fn wait(&mut self, txn: Txn, key: &Key, mode: Mode) {
        self.waiters.entry(key.clone()).or_default().insert(txn, mode);
    }

    pub fn withdraw(&mut self, txn: Txn, key: &Key) {
        let Some(waiters) = self.waiters.get_mut(key) else {
            return;
        };
        waiters.remove(&txn);
        if waiters.is_empty() {
            self.waiters.remove(key);
        }
    }
}
