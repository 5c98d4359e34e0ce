//! Box as a host holds it: a network's slices, a journal, and the calls on them.

use crate::linked;
use differential::language::{Fix, Network, Relation, Settings, Side};

/// The twelve slices of a network; the three of windows are empty where no relation has one.
pub struct Slices {
    lengths: Vec<f64>,
    headings: Vec<f64>,
    flags: Vec<u32>,
    relations: [Vec<u32>; 6],
    windows: [Vec<u32>; 3],
}

/// The minute and the five slices of a fix.
pub struct FixSlices {
    minute: u32,
    elements: Vec<u32>,
    intrinsics: Vec<f64>,
    near: Vec<u32>,
    raw_logs: Vec<f64>,
    distances: Vec<f64>,
}

impl Slices {
    pub fn of(network: &Network) -> Slices {
        let field = |get: fn(&Relation) -> u32| network.relations.iter().map(get).collect();
        let windowed = if network.relations.iter().any(|r| r.windows.count > 0) { &network.relations[..] } else { &[] };
        let minutes = |get: fn(&(u32, u32)) -> u32| windowed.iter().flat_map(|r| r.windows.minutes.iter().map(get)).collect();
        Slices {
            lengths: network.elements.iter().map(|e| e.length).collect(),
            headings: network.elements.iter().flat_map(|e| e.headings).collect(),
            flags: network.elements.iter().map(|e| e.flag).collect(),
            relations: [
                field(|r| r.from),
                field(|r| r.to),
                field(|r| r.from_side),
                field(|r| r.to_side),
                field(|r| r.forward),
                field(|r| r.backward),
            ],
            windows: [windowed.iter().map(|r| r.windows.count).collect(), minutes(|window| window.0), minutes(|window| window.1)],
        }
    }
}

impl FixSlices {
    pub fn of(fix: &Fix) -> FixSlices {
        FixSlices {
            minute: fix.minute,
            elements: fix.candidates.iter().map(|c| c.element).collect(),
            intrinsics: fix.candidates.iter().map(|c| c.intrinsic).collect(),
            near: fix.candidates.iter().map(|c| c.near).collect(),
            raw_logs: fix.candidates.iter().map(|c| c.raw_log).collect(),
            distances: fix.distances.clone(),
        }
    }
}

/// A call that is refused here is a fault of the benchmark.
fn accepted(status: u32, call: &str) {
    assert_eq!(status, 0, "{call} was refused");
}

/// A call with the network's slices first.
macro_rules! on_network {
    ($call:ident, $slices:expr, $($argument:expr),*) => {{
        let Slices { lengths, headings, flags, relations, windows } = $slices;
        let [from, to, from_side, to_side, forward, backward] = relations;
        let [counts, firsts, lasts] = windows;
        unsafe {
            linked::$call(
                lengths.as_ptr(), lengths.len(), headings.as_ptr(), headings.len(), flags.as_ptr(), flags.len(), from.as_ptr(), from.len(),
                to.as_ptr(), to.len(), from_side.as_ptr(), from_side.len(), to_side.as_ptr(), to_side.len(), forward.as_ptr(), forward.len(),
                backward.as_ptr(), backward.len(), counts.as_ptr(), counts.len(), firsts.as_ptr(), firsts.len(), lasts.as_ptr(), lasts.len(),
                $($argument),*
            )
        }
    }};
}

/// The cost of a route that there is, at minute 0.
pub fn distance(s: &Slices, start: Side, goal: Side) -> f64 {
    let mut cost = 0.0;
    let status = on_network!(box_shortest_path_distance, s, 0, start.element, start.side, goal.element, goal.side, &mut cost);
    accepted(status, "distance");
    cost
}

pub fn open(journal: &mut [u32]) {
    accepted(unsafe { linked::box_open(journal.as_mut_ptr(), journal.len()) }, "open");
}

/// Check 7 alone: no row is struck.
pub fn check(journal: &mut [u32]) {
    accepted(unsafe { linked::box_strike(journal.as_mut_ptr(), journal.len(), 0) }, "strike");
}

/// That of the checkout before.
#[cfg(feature = "before")]
pub fn check_before(journal: &mut [u32]) {
    accepted(status_before(journal), "strike before");
}

/// Whether the checkout before reads this journal.
#[cfg(feature = "before")]
pub fn is_read_before(journal: &mut [u32]) -> bool {
    status_before(journal) == 0
}

#[cfg(feature = "before")]
fn status_before(journal: &mut [u32]) -> u32 {
    unsafe { linked::before_box_strike(journal.as_mut_ptr(), journal.len(), 0) }
}

pub fn feed(s: &Slices, settings: Settings, journal: &mut [u32], fix: &FixSlices) {
    let status = on_network!(
        box_feed, s, settings.beta, settings.scale, journal.as_mut_ptr(), journal.len(), fix.minute,
        fix.elements.as_ptr(), fix.elements.len(), fix.intrinsics.as_ptr(), fix.intrinsics.len(), fix.near.as_ptr(), fix.near.len(),
        fix.raw_logs.as_ptr(), fix.raw_logs.len(), fix.distances.as_ptr(), fix.distances.len()
    );
    accepted(status, "feed");
}

/// A journal that is clean.
pub fn replay(s: &Slices, settings: Settings, journal: &[u32]) {
    let mut row = 0;
    let status = on_network!(box_replay, s, settings.beta, settings.scale, journal.as_ptr(), journal.len(), &mut row);
    accepted(status, "replay");
}

/// The score, and how many pairs the path has.
pub fn close(journal: &[u32], rows: &mut [u32], candidates: &mut [u32]) -> (f64, usize) {
    let (mut score, mut count) = (0.0, 0);
    let status = unsafe {
        linked::box_close(
            journal.as_ptr(), journal.len(), rows.as_mut_ptr(), rows.len(), candidates.as_mut_ptr(), candidates.len(), &mut score, &mut count,
        )
    };
    accepted(status, "close");
    (score, count)
}

/// How many segments the path has.
pub fn build(s: &Slices, journal: &[u32], segments: &mut [linked::Segment]) -> usize {
    let mut count = 0;
    let status = on_network!(box_build_path, s, journal.as_ptr(), journal.len(), segments.as_mut_ptr(), segments.len(), &mut count);
    accepted(status, "build");
    count
}
