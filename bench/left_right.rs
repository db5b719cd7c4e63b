//! Two copies of a value: viewers read the one while the writer brings the other up to date. It does what the ported crate does,
//! with the same steps of atomics at a look: two additions, two swaps and a load.
use crate::alloc::{AllocError, Global};
use std::cell::UnsafeCell;
use std::marker::PhantomData;
use std::sync::atomic::{AtomicUsize, Ordering::SeqCst};
use std::sync::Arc;

pub trait Absorb<O>: Sized {
    type State;
    fn absorb_first(&mut self, change: &O, other: &Self) -> Result<(), AllocError>;
}

// A reader's count of entries and exits, and whether it has its part of a copy.
#[repr(align(128))]
struct Seat {
    epoch: AtomicUsize,
    part: AtomicUsize,
}

// Which copy is shown; 2 where the writer is gone.
struct Board<T> {
    side: AtomicUsize,
    taken: AtomicUsize,
    seats: std::vec::Vec<Seat>,
    copies: [UnsafeCell<T>; 2],
}

// SAFETY: a copy is changed by the one writer alone, once every reader that entered it has left.
unsafe impl<T: Send + Sync> Sync for Board<T> {}

pub mod reader {
    use super::*;

    pub struct Factory<T>(pub(super) Arc<Board<T>>);

    impl<T> Factory<T> {
        pub fn reader<V, P>(&self) -> Result<Reader<T, V, P>, AllocError> {
            let index = self.0.taken.fetch_add(1, SeqCst);
            if index < self.0.seats.len() {
                Ok(Reader { board: self.0.clone(), index, rule: PhantomData })
            } else {
                Err(AllocError)
            }
        }
    }

    pub struct Reader<T, V, P> {
        board: Arc<Board<T>>,
        index: usize,
        rule: PhantomData<fn() -> (V, P)>,
    }

    pub struct Reading<T, V, P> {
        reader: Reader<T, V, P>,
        side: usize,
    }

    impl<T, V, P> Reader<T, V, P> {
        pub fn learn<M>(&mut self, _note: ()) {}

        pub fn enter_as<M>(self) -> Result<Reading<T, V, P>, Reader<T, V, P>> {
            let seat = &self.board.seats[self.index];
            seat.epoch.fetch_add(1, SeqCst);
            let side = self.board.side.load(SeqCst);
            if side >= 2 {
                seat.epoch.fetch_add(1, SeqCst);
                return Err(self);
            }
            seat.part.swap(1, SeqCst);
            Ok(Reading { reader: self, side })
        }
    }

    impl<T, V, P> Reading<T, V, P> {
        pub fn get(&self) -> &T {
            // SAFETY: the writer leaves this copy alone until the epoch moves on.
            unsafe { &*self.reader.board.copies[self.side].get() }
        }

        pub fn leave(self) -> Reader<T, V, P> {
            let seat = &self.reader.board.seats[self.reader.index];
            seat.part.swap(0, SeqCst);
            seat.epoch.fetch_add(1, SeqCst);
            self.reader
        }
    }
}

pub mod writer {
    use super::reader::Factory;
    use super::*;
    use std::collections::VecDeque;

    pub struct Writer<T, O, V, P> {
        factory: Factory<T>,
        log: VecDeque<O>,
        // Operations at the front that the copy which is shown has, and the other lacks.
        behind: usize,
        // The epochs of the readers when the copies changed places.
        last: std::vec::Vec<usize>,
        rule: PhantomData<fn() -> (V, P)>,
    }

    impl<T: Absorb<O>, O, V, P> Writer<T, O, V, P> {
        pub fn new(_: Global, first: T, second: T, readers: usize) -> Result<Self, AllocError> {
            let seat = || Seat { epoch: AtomicUsize::new(0), part: AtomicUsize::new(0) };
            Ok(Writer {
                factory: Factory(Arc::new(Board {
                    side: AtomicUsize::new(0),
                    taken: AtomicUsize::new(0),
                    seats: (0..readers).map(|_| seat()).collect(),
                    copies: [UnsafeCell::new(first), UnsafeCell::new(second)],
                })),
                log: VecDeque::new(),
                behind: 0,
                last: vec![0; readers],
                rule: PhantomData,
            })
        }

        pub fn factory(&self) -> &Factory<T> {
            &self.factory
        }

        pub fn tell<M>(&mut self) {}

        pub fn published(&self) -> &T {
            let board = &self.factory.0;
            // SAFETY: nobody changes the copy that is shown.
            unsafe { &*board.copies[board.side.load(SeqCst)].get() }
        }

        pub fn append(&mut self, change: O) -> Result<(), O> {
            self.log.push_back(change);
            Ok(())
        }

        // Waits until each reader has left the copy that is not shown.
        fn wait(&self) {
            for (seat, last) in self.factory.0.seats.iter().zip(&self.last) {
                while last % 2 == 1 && seat.epoch.load(SeqCst) == *last {
                    std::hint::spin_loop();
                }
            }
        }

        pub fn publish_as<M, R>(mut self, _: &R) -> (Self, Result<(), AllocError>) {
            self.wait();
            let board = self.factory.0.clone();
            let side = board.side.load(SeqCst);
            // SAFETY: no reader is in the spare copy, and none enters it before the copies change places.
            let (spare, shown) = unsafe { (&mut *board.copies[1 - side].get(), &*board.copies[side].get()) };
            for change in &self.log {
                if spare.absorb_first(change, shown).is_err() {
                    panic!("no memory");
                }
            }
            self.log.drain(..self.behind);
            self.behind = self.log.len();
            board.side.store(1 - side, SeqCst);
            for (seat, last) in board.seats.iter().zip(&mut self.last) {
                *last = seat.epoch.load(SeqCst);
            }
            (self, Ok(()))
        }

        pub fn take<R>(mut self, _: &R) {
            let board = self.factory.0.clone();
            board.side.store(2, SeqCst);
            for (seat, last) in board.seats.iter().zip(&mut self.last) {
                *last = seat.epoch.load(SeqCst);
            }
            self.wait();
        }
    }
}
