// A drive by the machine's clock.
use disk::Disk;
use engine::{Driven, clock_of, drive_by};
use letters::Gate;
use progress::Watch;
use settings::Settings;
use shim::alloc::Global;
use shim::sync::Wait;
use shim::thread::Threads;
use shim::time;
use units::Fault;

pub fn drive<R: Threads + Wait + time::Clock + Sync, D: Disk + Send, G: Gate + Sync, W: Watch + Sync>(
    rt: &R,
    alloc: Global,
    settings: &Settings,
    disks: Vec<D>,
    gate: &G,
    watch: &W,
) -> Result<Driven<D>, Fault> {
    let clock = clock_of(rt, settings);
    drive_by(rt, alloc, settings, disks, clock, gate, watch).map_err(|none| none.fault)
}
