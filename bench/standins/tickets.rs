// A counter that threads draw from.
use shim::alloc::Global;
use shim::Vec;
use std::sync::atomic::{AtomicU64, Ordering};
use units::Fault;

pub struct Tickets(AtomicU64);
pub struct Drawer;

impl Tickets {
    pub fn new(alloc: Global, n: usize) -> Result<(Tickets, Vec<Drawer>), Fault> {
        let mut drawers = Vec::new(alloc);
        for _ in 0..n {
            drawers.push(Drawer)?;
        }
        Ok((Tickets(AtomicU64::new(0)), drawers))
    }
    pub fn draw(&self, _: &mut Drawer) -> Result<u64, Fault> {
        Ok(self.0.fetch_add(1, Ordering::SeqCst))
    }
}
