//! What the crates use of their library, over Rust's own.
pub use std::{cmp, fmt, hash, marker, mem, ops, option, result, slice, str};

pub mod alloc {
    #[derive(Clone, Copy, Debug)]
    pub struct Global;
    #[derive(Clone, Copy, Debug)]
    pub struct AllocError;
    #[derive(Debug)]
    pub struct AllocFailed<T>(pub AllocError, pub T);
}

pub mod sync {
    use crate::alloc::{AllocError, Global};
    use std::marker::PhantomData;

    pub struct Arc<T, A = Global>(std::sync::Arc<T>, PhantomData<A>);
    impl<T> Arc<T> {
        pub fn new(_: Global, x: T) -> Result<Self, AllocError> {
            Ok(Arc(std::sync::Arc::new(x), PhantomData))
        }
        pub fn try_clone(one: &Self) -> Result<Self, AllocError> {
            Ok(Arc(one.0.clone(), PhantomData))
        }
    }
    impl<T> std::ops::Deref for Arc<T> {
        type Target = T;
        fn deref(&self) -> &T {
            &self.0
        }
    }

    /// The right to wait.
    pub trait Wait {
        fn forever(&self) -> std::iter::Repeat<()> {
            std::iter::repeat(())
        }
    }
    impl<W: Wait> Wait for &W {}
    pub struct Waiting;
    impl Wait for Waiting {}
    impl crate::thread::Threads for Waiting {}
    impl crate::time::Clock for Waiting {}

    pub use crate::threads::sync::{Mutex, atomic};
}

#[path = "threads_shim.rs"]
mod threads;
pub use threads::{crossbeam_channel, thread, time};

#[path = "left_right.rs"]
pub mod left_right;

pub mod crossbeam_utils {
    pub mod rule {
        pub trait Protocol<T, V> {}
        pub trait Outcome<T, V> {}
    }
}

pub mod atomic_table {
    pub trait Split<V> {}
    pub trait Join<V> {}
}

pub mod collections {
    use crate::alloc::{AllocError, Global};
    pub struct VecDeque<T>(std::collections::VecDeque<T>);
    impl<T> VecDeque<T> {
        pub fn new(_: Global) -> Self {
            VecDeque(std::collections::VecDeque::new())
        }
        pub fn push_back(&mut self, x: T) -> Result<(), AllocError> {
            self.0.push_back(x);
            Ok(())
        }
        pub fn with_capacity(_: Global, n: usize) -> Result<Self, AllocError> {
            Ok(VecDeque(std::collections::VecDeque::with_capacity(n)))
        }
        pub fn insert(&mut self, at: usize, x: T) -> Result<(), AllocError> {
            self.0.insert(at, x);
            Ok(())
        }
    }
    impl<T> std::ops::Deref for VecDeque<T> {
        type Target = std::collections::VecDeque<T>;
        fn deref(&self) -> &Self::Target {
            &self.0
        }
    }
    impl<T> std::ops::DerefMut for VecDeque<T> {
        fn deref_mut(&mut self) -> &mut Self::Target {
            &mut self.0
        }
    }
}

pub mod prelude {
    pub use super::{Box, CollectIn, ToVecIn, Vec};
}

use alloc::{AllocError, Global};

pub fn said(text: String) -> Result<String, AllocError> {
    Ok(text)
}

/// A value in memory of its own, which can be written over there.
pub struct Box<T>(std::boxed::Box<T>);
impl<T> Box<T> {
    pub fn new(_: Global, x: T) -> Result<Self, AllocError> {
        Ok(Box(std::boxed::Box::new(x)))
    }
    pub fn replace(one: &mut Self, x: T) -> T {
        std::mem::replace(&mut one.0, x)
    }
    pub fn into_inner(one: Self) -> T {
        *one.0
    }
}
impl<T> std::ops::Deref for Box<T> {
    type Target = T;
    fn deref(&self) -> &T {
        &self.0
    }
}
impl<T> std::ops::DerefMut for Box<T> {
    fn deref_mut(&mut self) -> &mut T {
        &mut self.0
    }
}

#[derive(Debug)]
pub struct Vec<T>(pub std::vec::Vec<T>);

impl<T> Vec<T> {
    pub fn new(_: Global) -> Self {
        Vec(std::vec::Vec::new())
    }
    pub fn with_capacity(_: Global, n: usize) -> Result<Self, AllocError> {
        Ok(Vec(std::vec::Vec::with_capacity(n)))
    }
    pub fn from_elem(_: Global, x: T, n: usize) -> Result<Self, AllocError>
    where
        T: Clone,
    {
        Ok(Vec(vec![x; n]))
    }
    pub fn allocator(&self) -> &Global {
        &Global
    }
    pub fn push(&mut self, x: T) -> Result<(), AllocError> {
        self.0.push(x);
        Ok(())
    }
    pub fn push_reserved(&mut self, x: T) {
        self.0.push(x);
    }
    pub fn insert(&mut self, at: usize, x: T) -> Result<(), AllocError> {
        self.0.insert(at, x);
        Ok(())
    }
    pub fn remove(&mut self, at: usize) -> T {
        self.0.remove(at)
    }
    pub fn pop(&mut self) -> Option<T> {
        self.0.pop()
    }
    pub fn clear(&mut self) {
        self.0.clear();
    }
    pub fn append(&mut self, other: &mut Vec<T>) -> Result<(), AllocError> {
        self.0.append(&mut other.0);
        Ok(())
    }
    pub fn drain(&mut self, range: std::ops::RangeTo<usize>) -> std::vec::Drain<'_, T> {
        self.0.drain(range)
    }
    pub fn truncate(&mut self, n: usize) {
        self.0.truncate(n);
    }
    pub fn reserve(&mut self, n: usize) -> Result<(), AllocError> {
        self.0.try_reserve(n).map_err(|_| AllocError)
    }
    pub fn reserve_exact(&mut self, n: usize) -> Result<(), AllocError> {
        self.0.try_reserve_exact(n).map_err(|_| AllocError)
    }
    pub fn resize(&mut self, n: usize, x: T) -> Result<(), AllocError>
    where
        T: Clone,
    {
        self.0.resize(n, x);
        Ok(())
    }
    pub fn extend_from_slice(&mut self, xs: &[T]) -> Result<(), AllocError>
    where
        T: Clone,
    {
        self.0.extend_from_slice(xs);
        Ok(())
    }
    pub fn sort_by(&mut self, compare: impl FnMut(&T, &T) -> std::cmp::Ordering) -> Result<(), AllocError> {
        self.0.sort_by(compare);
        Ok(())
    }
    pub fn sort(&mut self) -> Result<(), AllocError>
    where
        T: Ord,
    {
        self.0.sort();
        Ok(())
    }
    pub fn sort_by_key<K: Ord>(&mut self, key: impl FnMut(&T) -> K) -> Result<(), AllocError> {
        self.0.sort_by_key(key);
        Ok(())
    }
    pub fn retain(&mut self, keeps: impl FnMut(&T) -> bool) {
        self.0.retain(keeps);
    }
    pub fn as_slice(&self) -> &[T] {
        &self.0
    }
    pub fn as_mut_slice(&mut self) -> &mut [T] {
        &mut self.0
    }
    pub fn capacity(&self) -> usize {
        self.0.capacity()
    }
    pub fn destroy_empty(self) {}
}

impl<T> std::ops::Deref for Vec<T> {
    type Target = [T];
    fn deref(&self) -> &[T] {
        &self.0
    }
}

impl<T> std::ops::DerefMut for Vec<T> {
    fn deref_mut(&mut self) -> &mut [T] {
        &mut self.0
    }
}

impl<T> IntoIterator for Vec<T> {
    type Item = T;
    type IntoIter = std::vec::IntoIter<T>;
    fn into_iter(self) -> Self::IntoIter {
        self.0.into_iter()
    }
}

impl<'a, T> IntoIterator for &'a Vec<T> {
    type Item = &'a T;
    type IntoIter = std::slice::Iter<'a, T>;
    fn into_iter(self) -> Self::IntoIter {
        self.0.iter()
    }
}

impl<'a, T> IntoIterator for &'a mut Vec<T> {
    type Item = &'a mut T;
    type IntoIter = std::slice::IterMut<'a, T>;
    fn into_iter(self) -> Self::IntoIter {
        self.0.iter_mut()
    }
}

pub trait CollectIn: Iterator + Sized {
    fn collect_in(self, _: Global) -> Result<Vec<Self::Item>, AllocError> {
        Ok(Vec(self.collect()))
    }
}

impl<I: Iterator> CollectIn for I {}

pub trait ToVecIn<T> {
    fn to_vec_in(&self, alloc: Global) -> Result<Vec<T>, AllocError>;
}

impl<T: Clone> ToVecIn<T> for [T] {
    fn to_vec_in(&self, _: Global) -> Result<Vec<T>, AllocError> {
        Ok(Vec(<[T]>::to_vec(self)))
    }
}

pub mod byteorder {
    pub trait ByteOrder {
        fn read_u16(b: &[u8]) -> u16;
        fn read_u32(b: &[u8]) -> u32;
        fn read_u64(b: &[u8]) -> u64;
        fn write_u16(b: &mut [u8], n: u16);
        fn write_u32(b: &mut [u8], n: u32);
        fn write_u64(b: &mut [u8], n: u64);
    }
    pub struct BigEndian;
    impl ByteOrder for BigEndian {
        fn read_u16(b: &[u8]) -> u16 {
            u16::from_be_bytes([b[0], b[1]])
        }
        fn read_u32(b: &[u8]) -> u32 {
            u32::from_be_bytes([b[0], b[1], b[2], b[3]])
        }
        fn read_u64(b: &[u8]) -> u64 {
            u64::from_be_bytes([b[0], b[1], b[2], b[3], b[4], b[5], b[6], b[7]])
        }
        fn write_u16(b: &mut [u8], n: u16) {
            b[..2].copy_from_slice(&n.to_be_bytes());
        }
        fn write_u32(b: &mut [u8], n: u32) {
            b[..4].copy_from_slice(&n.to_be_bytes());
        }
        fn write_u64(b: &mut [u8], n: u64) {
            b[..8].copy_from_slice(&n.to_be_bytes());
        }
    }
}

pub mod indexmap {
    use crate::alloc::{AllocError, Global};
    use std::hash::{BuildHasher, BuildHasherDefault, Hash, Hasher};

    /// The hasher of the ported map, which folds a product of 128 bits.
    pub struct Fold(u64);
    impl Default for Fold {
        fn default() -> Self {
            Fold(0x243f_6a88_85a3_08d3)
        }
    }
    fn folded(a: u64, b: u64) -> u64 {
        let product = a as u128 * b as u128;
        product as u64 ^ (product >> 64) as u64
    }
    impl Hasher for Fold {
        fn write(&mut self, bytes: &[u8]) {
            let mut rest = bytes;
            self.0 ^= rest.len() as u64;
            while rest.len() >= 16 {
                let a = u64::from_le_bytes(rest[..8].try_into().unwrap());
                let b = u64::from_le_bytes(rest[8..16].try_into().unwrap());
                self.0 = folded(a ^ self.0, b ^ 0x1319_8a2e_0370_7344);
                rest = &rest[16..];
            }
            let mut last = [0; 16];
            last[..rest.len()].copy_from_slice(rest);
            let a = u64::from_le_bytes(last[..8].try_into().unwrap());
            let b = u64::from_le_bytes(last[8..].try_into().unwrap());
            self.0 = folded(a ^ self.0, b ^ 0xa409_3822_299f_31d0);
        }
        fn write_u64(&mut self, n: u64) {
            self.0 = folded(self.0 ^ n, 0x5851_f42d_4c95_7f2d);
        }
        fn finish(&self) -> u64 {
            self.0
        }
    }

    /// A map in the order of its entries. As in the ported map, a key is hashed once a call, and an entry that is moved not at all.
    pub struct IndexMap<K, V, S = BuildHasherDefault<Fold>> {
        // The place of an entry and one more, by its hash: as many as a power of two, of which a quarter are 0, for none.
        slots: Vec<u32>,
        entries: Vec<(u32, K, V)>,
        hasher: S,
    }

    pub mod map {
        pub struct Slice<'a, K, V>(pub &'a [(u32, K, V)]);
    }

    impl<K: Hash + Eq + Copy, V> IndexMap<K, V> {
        pub fn new(alloc: Global) -> Self {
            IndexMap::with_hasher(alloc, BuildHasherDefault::default())
        }
    }

    impl<K: Hash + Eq + Copy, V, S: BuildHasher> IndexMap<K, V, S> {
        pub fn keys(&self) -> impl Iterator<Item = &K> {
            self.entries.iter().map(|e| &e.1)
        }
        pub fn with_hasher(_: Global, hasher: S) -> Self {
            IndexMap {
                slots: Vec::new(),
                entries: Vec::new(),
                hasher,
            }
        }
        fn hash(&self, k: &K) -> u32 {
            let hash = self.hasher.hash_one(k);
            (hash ^ (hash >> 32)) as u32
        }
        fn first_slot(&self, hash: u32) -> usize {
            hash as usize & (self.slots.len() - 1)
        }
        fn next_slot(&self, slot: usize) -> usize {
            (slot + 1) & (self.slots.len() - 1)
        }
        /// The slot of the entry of this hash that is meant, or the free one behind those of its hash.
        fn slot(&self, hash: u32, is_meant: impl Fn(usize) -> bool) -> usize {
            let mut slot = self.first_slot(hash);
            loop {
                let place = self.slots[slot] as usize;
                if place == 0 || (self.entries[place - 1].0 == hash && is_meant(place - 1)) {
                    return slot;
                }
                slot = self.next_slot(slot);
            }
        }
        fn find(&self, hash: u32, k: &K) -> Option<usize> {
            if self.slots.is_empty() {
                return None;
            }
            let slot = self.slot(hash, |at| self.entries[at].1 == *k);
            (self.slots[slot] as usize).checked_sub(1)
        }
        fn free(&mut self, mut slot: usize) {
            let mut next = self.next_slot(slot);
            while self.slots[next] != 0 {
                let first = self.first_slot(self.entries[self.slots[next] as usize - 1].0);
                let mask = self.slots.len() - 1;
                if (next.wrapping_sub(first) & mask) >= (next.wrapping_sub(slot) & mask) {
                    self.slots[slot] = self.slots[next];
                    slot = next;
                }
                next = self.next_slot(next);
            }
            self.slots[slot] = 0;
        }
        fn place_all(&mut self, slots: usize) {
            self.slots = vec![0; slots];
            for at in 0..self.entries.len() {
                let slot = self.slot(self.entries[at].0, |_| false);
                self.slots[slot] = at as u32 + 1;
            }
        }
        pub fn reserve(&mut self, n: usize) -> Result<(), AllocError> {
            let all = self.entries.len() + n;
            if self.slots.len() / 4 * 3 < all {
                self.place_all((all * 4 / 3 + 1).next_power_of_two().max(16));
            }
            self.entries.reserve(self.slots.len() / 4 * 3 - self.entries.len());
            Ok(())
        }
        pub fn len(&self) -> usize {
            self.entries.len()
        }
        pub fn is_empty(&self) -> bool {
            self.entries.is_empty()
        }
        pub fn capacity(&self) -> usize {
            self.slots.len() / 4 * 3
        }
        pub fn clear(&mut self) {
            self.slots.fill(0);
            self.entries.clear();
        }
        pub fn get(&self, k: &K) -> Option<&V> {
            Some(&self.entries[self.get_index_of(k)?].2)
        }
        pub fn get_mut(&mut self, k: &K) -> Option<&mut V> {
            let at = self.get_index_of(k)?;
            Some(&mut self.entries[at].2)
        }
        pub fn get_index_of(&self, k: &K) -> Option<usize> {
            self.find(self.hash(k), k)
        }
        pub fn get_full(&self, k: &K) -> Option<(usize, &K, &V)> {
            let at = self.get_index_of(k)?;
            Some((at, &self.entries[at].1, &self.entries[at].2))
        }
        pub fn get_index(&self, at: usize) -> Option<(&K, &V)> {
            self.entries.get(at).map(|e| (&e.1, &e.2))
        }
        pub fn pair_mut(&mut self, at: usize) -> (&K, &mut V) {
            let (_, key, value) = &mut self.entries[at];
            (key, value)
        }
        pub fn contains_key(&self, k: &K) -> bool {
            self.get_index_of(k).is_some()
        }
        pub fn as_slice(&self) -> map::Slice<'_, K, V> {
            map::Slice(&self.entries)
        }
        pub fn swap_remove(&mut self, k: &K) -> Option<V> {
            let at = self.get_index_of(k)?;
            Some(self.swap_remove_index(at)?.1)
        }
        pub fn swap_remove_index(&mut self, at: usize) -> Option<(K, V)> {
            let last = self.entries.len().checked_sub(1)?;
            let slot = self.slot(self.entries.get(at)?.0, |it| it == at);
            self.free(slot);
            if at < last {
                let moved = self.slot(self.entries[last].0, |it| it == last);
                self.slots[moved] = at as u32 + 1;
            }
            let gone = self.entries.swap_remove(at);
            Some((gone.1, gone.2))
        }
        pub fn retain(&mut self, mut keeps: impl FnMut(&K, &mut V) -> bool) {
            self.entries.retain_mut(|(_, k, v)| keeps(k, v));
            self.slots.fill(0);
            for at in 0..self.entries.len() {
                let slot = self.slot(self.entries[at].0, |_| false);
                self.slots[slot] = at as u32 + 1;
            }
        }
        fn insert_at(&mut self, at: usize, hash: u32, k: K, v: V) -> Result<(), AllocError> {
            if self.capacity() == self.len() {
                self.reserve(1)?;
            }
            if at < self.entries.len() {
                for place in &mut self.slots {
                    *place += u32::from(*place as usize > at);
                }
            }
            self.entries.insert(at, (hash, k, v));
            let slot = self.slot(hash, |_| false);
            self.slots[slot] = at as u32 + 1;
            Ok(())
        }
        pub fn insert_full(&mut self, k: K, v: V) -> Result<(usize, Option<V>), AllocError> {
            let hash = self.hash(&k);
            if let Some(at) = self.find(hash, &k) {
                return Ok((at, Some(std::mem::replace(&mut self.entries[at].2, v))));
            }
            let at = self.entries.len();
            self.insert_at(at, hash, k, v)?;
            Ok((at, None))
        }
        pub fn insert(&mut self, k: K, v: V) -> Result<Option<V>, AllocError> {
            Ok(self.insert_full(k, v)?.1)
        }
    }

    impl<K: Hash + Ord + Copy, V, S: BuildHasher> IndexMap<K, V, S> {
        pub fn insert_sorted(&mut self, k: K, v: V) -> Result<(usize, Option<V>), AllocError> {
            match self.entries.binary_search_by(|e| e.1.cmp(&k)) {
                Ok(at) => Ok((at, Some(std::mem::replace(&mut self.entries[at].2, v)))),
                Err(at) => {
                    let hash = self.hash(&k);
                    self.insert_at(at, hash, k, v)?;
                    Ok((at, None))
                }
            }
        }
    }

    impl<K, V, S> std::ops::Index<usize> for IndexMap<K, V, S> {
        type Output = V;
        fn index(&self, at: usize) -> &V {
            &self.entries[at].2
        }
    }

    impl<K, V, S> std::ops::IndexMut<usize> for IndexMap<K, V, S> {
        fn index_mut(&mut self, at: usize) -> &mut V {
            &mut self.entries[at].2
        }
    }
}
