// Who is told of the turns of a drive.
#[derive(Clone, Copy)]
pub enum Ended {
    Committed,
    Aborted,
    Unknown,
}

#[derive(Clone, Copy)]
pub struct Turn {
    pub ended: Ended,
    pub micros: u64,
}

pub trait Watch {
    fn turned(&self, turn: Turn);

    fn looked(&self, _micros: u64) {}

    fn stopped(&self, _shard: usize) {}
}

#[derive(Clone, Copy)]
pub struct Stopwatch(std::time::Instant);

impl Stopwatch {
    pub fn start<R>(_: &R) -> Stopwatch {
        Stopwatch(std::time::Instant::now())
    }
    pub fn micros<R>(&self, _: &R) -> u64 {
        self.0.elapsed().as_micros() as u64
    }
}
