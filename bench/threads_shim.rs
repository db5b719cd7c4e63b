//! What the crates of threads use of their library: locks, words that threads wait at, channels, clocks and threads, over Rust's own.

pub mod sync {
    use std::ops::{Deref, DerefMut};

    /// A lock that is never poisoned, since nothing here unwinds.
    pub struct Mutex<T>(std::sync::Mutex<T>);
    pub struct Guard<'a, T>(std::sync::MutexGuard<'a, T>);
    impl<T> Mutex<T> {
        pub fn new(x: T) -> Self {
            Mutex(std::sync::Mutex::new(x))
        }
        pub fn lock<R>(&self, _: &R) -> Guard<'_, T> {
            Guard(self.0.lock().unwrap())
        }
        pub fn into_inner(self) -> T {
            self.0.into_inner().unwrap()
        }
    }
    impl<T> Deref for Guard<'_, T> {
        type Target = T;
        fn deref(&self) -> &T {
            &self.0
        }
    }
    impl<T> DerefMut for Guard<'_, T> {
        fn deref_mut(&mut self) -> &mut T {
            &mut self.0
        }
    }

    pub mod atomic {
        use std::ops::Deref;
        use std::ptr::null;
        use std::time::Duration;
        pub use std::sync::atomic::{AtomicBool, Ordering};

        #[repr(C)]
        struct Timespec {
            seconds: i64,
            nanos: i64,
        }
        unsafe extern "C" {
            fn syscall(number: i64, ...) -> i64;
        }
        // The call `futex` of Linux on x86-64, and its two private operations.
        const FUTEX: i64 = 202;
        const WAIT: i32 = 128;
        const WAKE: i32 = 129;

        /// A word whose low half threads wait at.
        pub struct AtomicU64(std::sync::atomic::AtomicU64);
        impl AtomicU64 {
            pub fn new(n: u64) -> Self {
                AtomicU64(std::sync::atomic::AtomicU64::new(n))
            }
            pub fn park_timeout<R>(&self, _: &R, low: u32, longest: Duration) {
                let time = Timespec { seconds: longest.as_secs() as i64, nanos: i64::from(longest.subsec_nanos()) };
                // SAFETY: the word and the time outlive the call, which reads them alone.
                unsafe { syscall(FUTEX, self.0.as_ptr(), WAIT, low, &time, null::<u32>(), 0u32) };
            }
            pub fn wake_all(&self) {
                // SAFETY: the call takes the word for its address alone.
                unsafe { syscall(FUTEX, self.0.as_ptr(), WAKE, i32::MAX, null::<Timespec>(), null::<u32>(), 0u32) };
            }
        }
        impl Deref for AtomicU64 {
            type Target = std::sync::atomic::AtomicU64;
            fn deref(&self) -> &Self::Target {
                &self.0
            }
        }
    }
}

pub mod time {
    pub use std::time::Duration;

    /// The machine's clocks.
    pub trait Clock {
        fn since_1970(&self) -> Result<Duration, ()> {
            std::time::UNIX_EPOCH.elapsed().map_err(drop)
        }
    }

    #[derive(Clone, Copy)]
    pub struct Instant(std::time::Instant);
    impl Instant {
        pub fn now<R>(_: &R) -> Result<Self, ()> {
            Ok(Instant(std::time::Instant::now()))
        }
        pub fn elapsed<R>(&self, _: &R) -> Result<Duration, ()> {
            Ok(self.0.elapsed())
        }
        pub fn duration_since(&self, earlier: Instant) -> Duration {
            self.0.duration_since(earlier.0)
        }
    }
}

pub mod thread {
    use crate::alloc::AllocError;
    use std::marker::PhantomData;
    use std::time::Duration;

    /// The right to start threads.
    pub trait Threads {}

    pub fn sleep<R>(_: &R, longest: Duration) {
        std::thread::sleep(longest);
    }

    /// A scope of threads that may use what lives as long as `'e`.
    pub struct Scope<'s, E>(*const (), PhantomData<(&'s (), E)>);
    impl<'s, 'e: 's> Scope<'s, &'e ()> {
        pub fn spawn<T: Send + 's>(&self, body: impl FnOnce() -> T + Send + 's) -> Result<(), AllocError> {
            // SAFETY: it was made of such a scope, which outlives it.
            let scope: &'s std::thread::Scope<'s, 'e> = unsafe { &*self.0.cast() };
            scope.spawn(body);
            Ok(())
        }
    }
    pub fn scope_env() {}
    pub fn scope<'e, R, T>(_: (), _: &R, body: impl for<'s> FnOnce(&'s Scope<'s, &'e ()>) -> T) -> T {
        std::thread::scope(|scope| {
            let made = Scope(std::ptr::from_ref(scope).cast(), PhantomData);
            // SAFETY: the threads that it starts end within this scope, and they have nothing of it.
            body(unsafe { &*std::ptr::from_ref(&made) })
        })
    }

    /// Each part by a thread of its own.
    pub fn for_each_mut<R, T: Send>(_: &R, all: &mut [T], _: usize, body: &(impl Fn(usize, &mut T) + Sync)) {
        std::thread::scope(|scope| {
            for (at, one) in all.iter_mut().enumerate() {
                scope.spawn(move || body(at, one));
            }
        });
    }

    pub fn join<R, A: Send, B>(_: &R, first: impl FnOnce() -> A + Send, second: impl FnOnce() -> B) -> (A, B) {
        std::thread::scope(|scope| {
            let running = scope.spawn(first);
            let second = second();
            (running.join().unwrap(), second)
        })
    }

    pub fn map_vec<R, X: Send, Y: Send>(_: &R, all: crate::Vec<X>, body: &(impl Fn(X) -> Y + Sync)) -> Result<crate::Vec<Y>, AllocError> {
        Ok(crate::Vec(std::thread::scope(|scope| {
            let running: Vec<_> = all.into_iter().map(|one| scope.spawn(move || body(one))).collect();
            running.into_iter().map(|thread| thread.join().unwrap()).collect()
        })))
    }
}

pub mod crossbeam_channel {
    use crate::alloc::{AllocError, Global};
    use std::collections::VecDeque;
    use std::sync::{Arc, Condvar, Mutex};
    use std::time::{Duration, Instant};

    struct Line<T> {
        waiting: VecDeque<T>,
        senders: usize,
        receivers: usize,
        // Whether the receiver sleeps.
        sleeps: bool,
    }
    struct Channel<T> {
        line: Mutex<Line<T>>,
        came: Condvar,
    }
    pub struct Sender<T>(Arc<Channel<T>>);
    pub struct Receiver<T>(Arc<Channel<T>>);
    pub enum SendError<T> {
        Disconnected(T),
        OutOfMemory(T),
    }
    impl<T> SendError<T> {
        pub fn is_disconnected(&self) -> bool {
            matches!(self, SendError::Disconnected(_))
        }
    }
    pub enum RecvTimeoutError {
        Timeout,
        Disconnected,
    }

    pub fn unbounded<T>(_: Global) -> Result<(Sender<T>, Receiver<T>), AllocError> {
        let line = Mutex::new(Line { waiting: VecDeque::new(), senders: 1, receivers: 1, sleeps: false });
        let channel = Arc::new(Channel { line, came: Condvar::new() });
        Ok((Sender(channel.clone()), Receiver(channel)))
    }

    impl<T> Sender<T> {
        pub fn send<R>(&self, _: &R, x: T) -> Result<(), SendError<T>> {
            let mut line = self.0.line.lock().unwrap();
            if line.receivers == 0 {
                return Err(SendError::Disconnected(x));
            }
            line.waiting.push_back(x);
            let wakes = std::mem::replace(&mut line.sleeps, false);
            drop(line);
            if wakes {
                self.0.came.notify_one();
            }
            Ok(())
        }
    }

    impl<T> Receiver<T> {
        pub fn clone(&self) -> Result<Self, AllocError> {
            self.0.line.lock().unwrap().receivers += 1;
            Ok(Receiver(self.0.clone()))
        }
        pub fn is_empty(&self) -> bool {
            self.0.line.lock().unwrap().waiting.is_empty()
        }
        pub fn len(&self) -> usize {
            self.0.line.lock().unwrap().waiting.len()
        }
        pub fn recv_timeout<R>(&self, _: &R, longest: Duration) -> Result<T, RecvTimeoutError> {
            let mut line = self.0.line.lock().unwrap();
            let until = (longest > Duration::ZERO).then(|| Instant::now() + longest);
            loop {
                if let Some(x) = line.waiting.pop_front() {
                    return Ok(x);
                }
                if line.senders == 0 {
                    return Err(RecvTimeoutError::Disconnected);
                }
                let left = until.map_or(Duration::ZERO, |until| until.saturating_duration_since(Instant::now()));
                if left == Duration::ZERO {
                    return Err(RecvTimeoutError::Timeout);
                }
                line.sleeps = true;
                line = self.0.came.wait_timeout(line, left).unwrap().0;
                line.sleeps = false;
            }
        }
    }

    impl<T> Drop for Sender<T> {
        fn drop(&mut self) {
            self.0.line.lock().unwrap().senders -= 1;
            self.0.came.notify_all();
        }
    }
    impl<T> Drop for Receiver<T> {
        fn drop(&mut self) {
            self.0.line.lock().unwrap().receivers -= 1;
        }
    }
}
