//! Box for Rust: its fourteen calls on slices, safe to call with any values. `include/box.h` says more of each of them.
//!
//! Nothing is allocated and no standard library is needed. A refused call changes no lent memory.
#![no_std]
#![warn(missing_docs)]

mod calls;

use core::fmt;

/// What Box says no with, by the numbers of documents 01 and 02. Checks run in number order, but for 16, which comes right
/// after 5, and 17, right after 10.
#[derive(Clone, Copy, Debug, PartialEq, Eq)]
pub enum Refusal {
    /// Too many elements or relations; headings not 4, or flags not 1, per element; relation fields of unequal count; over 4
    /// windows of a relation; windows given, but not 1 count, 4 first and 4 last minutes per relation.
    Counts = 1,
    /// An element's length is out of range.
    Length = 2,
    /// A heading is out of range.
    Heading = 3,
    /// A relation's side is above 1.
    Side = 4,
    /// A relation of an element with itself.
    SelfRelation = 5,
    /// Beta or scale is out of range.
    Setting = 6,
    /// The journal is not well formed.
    Journal = 7,
    /// Over 16 candidates, or candidate fields of unequal count.
    CandidateCount = 8,
    /// An element that the network does not have, in the fix or in a standing row; a candidate's field is out of range.
    Candidate = 9,
    /// The wrong number of distances, or one out of range.
    Distances = 10,
    /// 65,535 rows stand already.
    RowLimit = 11,
    /// The journal has too few words left.
    Room = 12,
    /// More rows to strike than stand, or a row that does not stand.
    Row = 13,
    /// A segment's intrinsic outside 0 to 1, its first row after its last, or a row above 65,534.
    Segment = 14,
    /// The list is longer than the answer buffer, or there are fewer decisions than segments.
    Buffer = 15,
    /// A window's last minute is not after its first; of skipped relations too.
    Window = 16,
    /// The fix's minute is below that of the last row that stands, or over 28 bits.
    Minute = 17,
}

impl fmt::Display for Refusal {
    fn fmt(&self, out: &mut fmt::Formatter) -> fmt::Result {
        write!(out, "refused with {}: {:?}", *self as u32, self)
    }
}

const REFUSALS: [Refusal; 17] = [
    Refusal::Counts,
    Refusal::Length,
    Refusal::Heading,
    Refusal::Side,
    Refusal::SelfRelation,
    Refusal::Setting,
    Refusal::Journal,
    Refusal::CandidateCount,
    Refusal::Candidate,
    Refusal::Distances,
    Refusal::RowLimit,
    Refusal::Room,
    Refusal::Row,
    Refusal::Segment,
    Refusal::Buffer,
    Refusal::Window,
    Refusal::Minute,
];

/// Whether there is an answer, by a call's status: 0 done, 255 none, otherwise a refusal's number.
fn found(status: u32) -> Result<bool, Refusal> {
    match status {
        0 => Ok(true),
        255 => Ok(false),
        number => Err(REFUSALS[number as usize - 1]),
    }
}

/// For a call that never answers none.
fn done(status: u32) -> Result<(), Refusal> {
    found(status).map(|_| ())
}

/// The track network; relation `i` joins `from_side[i]` of `from[i]` to `to_side[i]` of `to[i]`.
#[derive(Clone, Copy)]
#[allow(missing_docs)]
pub struct Network<'a> {
    pub lengths: &'a [f64],
    /// Four per element: out at side 0, out at side 1, in at side 0, in at side 1.
    pub headings: &'a [f64],
    pub flags: &'a [u32],
    pub from: &'a [u32],
    pub to: &'a [u32],
    pub from_side: &'a [u32],
    pub to_side: &'a [u32],
    pub forward: &'a [u32],
    pub backward: &'a [u32],
    /// How many windows each relation has, up to 4. A window shuts its relation both ways from its first minute on; at its last
    /// it is open again. Where there are no windows, this and the two below are empty.
    pub window_counts: &'a [u32],
    /// Four per relation; those past its count are not looked at.
    pub window_firsts: &'a [u32],
    pub window_lasts: &'a [u32],
}

/// An element's end: side 0 or 1.
#[derive(Clone, Copy)]
#[allow(missing_docs)]
pub struct Side {
    pub element: u32,
    pub side: u32,
}

/// A route's cost in metres, and its states from start to goal.
#[allow(missing_docs)]
pub struct Route<'b> {
    pub cost: f64,
    pub states: &'b [u32],
}

/// What steps are scored by.
#[derive(Clone, Copy)]
#[allow(missing_docs)]
pub struct Settings {
    pub beta: f64,
    pub scale: f64,
}

/// The row that the next fix's distances count from: the latest one with a finite score.
#[derive(Clone, Copy, Debug, PartialEq, Eq)]
#[allow(missing_docs)]
pub struct Predecessor {
    pub row: u32,
    /// How many candidates it has.
    pub candidates: usize,
}

/// A position fix: its minute, its candidates, field by field, and a distance for each pair of a candidate of the predecessor
/// (outer) and an own one (inner). `Journal::predecessor` tells which row that is; without one there are no distances.
#[derive(Clone, Copy, Default)]
#[allow(missing_docs)]
pub struct Fix<'a> {
    /// Whole minutes from the campaign's start, not below that of the last row that stands.
    pub minute: u32,
    pub elements: &'a [u32],
    pub intrinsics: &'a [f64],
    pub near: &'a [u32],
    pub raw_logs: &'a [f64],
    pub distances: &'a [f64],
}

/// The most candidates of a fix.
pub const MAX_CANDIDATES: usize = 16;
/// The most steps into a row, and distances of a fix.
pub const MAX_STEPS: usize = MAX_CANDIDATES * MAX_CANDIDATES;

/// A row of the journal; the first `count` entries of each field, and `count * predecessor_count` distances.
#[derive(Clone, Copy)]
#[allow(missing_docs)]
pub struct Row {
    pub count: usize,
    pub predecessor_count: usize,
    pub minute: u32,
    pub elements: [u32; MAX_CANDIDATES],
    pub intrinsics: [f64; MAX_CANDIDATES],
    pub near: [u32; MAX_CANDIDATES],
    pub raw_logs: [f64; MAX_CANDIDATES],
    /// A candidate of the predecessor, or 31 for none.
    pub parents: [u32; MAX_CANDIDATES],
    pub scores: [f64; MAX_CANDIDATES],
    pub distances: [f64; MAX_STEPS],
}

/// The best path: pairs of a row and the number of its candidate, in row order.
#[allow(missing_docs)]
pub struct Path<'b> {
    pub score: f64,
    pub rows: &'b [u32],
    pub candidates: &'b [u32],
}

/// The possible steps into a row, with their scores from -745.0 to 0; the first `count` entries of each field.
#[derive(Clone, Copy)]
#[allow(missing_docs)]
pub struct Steps {
    pub count: usize,
    pub predecessor_rows: [u32; MAX_STEPS],
    pub predecessor_candidates: [u32; MAX_STEPS],
    pub rows: [u32; MAX_STEPS],
    pub candidates: [u32; MAX_STEPS],
    pub steps: [f64; MAX_STEPS],
}

/// What replaying a journal tells.
#[derive(Clone, Copy, Debug, PartialEq, Eq)]
#[must_use]
pub enum Replay {
    /// The words of each row are those that feeding the fix it records would write.
    Clean,
    /// Those of this row, the first such one, are not.
    Differs(u32),
}

/// A part of the path: an element, from where to where on it, and its rows.
#[repr(C)]
#[derive(Clone, Copy, Debug, Default, PartialEq)]
#[allow(missing_docs)]
pub struct Segment {
    pub element: u32,
    pub start_intrinsic: f64,
    pub end_intrinsic: f64,
    pub first_row: u32,
    pub last_row: u32,
}

/// A collapse: the element that goes on, the rows' span, and the elements removed.
#[repr(C)]
#[derive(Clone, Copy, Debug, Default, PartialEq)]
#[allow(missing_docs)]
pub struct Decision {
    pub element: u32,
    pub span: u32,
    removed_count: u32,
    removed: [u32; 3],
}

impl Decision {
    /// The elements of the segments that lay between.
    pub fn removed(&self) -> &[u32] {
        &self.removed[..self.removed_count as usize]
    }
}

const _: () = assert!(core::mem::size_of::<Segment>() == 32 && core::mem::size_of::<Decision>() == 24);

/// A call with the network's twelve slices first. Every pointer and length of a call is of one slice or array that is borrowed for
/// it, exclusively where the call writes, which is all that Box asks.
macro_rules! on_network {
    ($call:ident, $network:expr $(, $argument:expr)*) => {{
        let n = $network;
        // SAFETY: as above.
        unsafe {
            calls::$call(
                n.lengths.as_ptr(), n.lengths.len(), n.headings.as_ptr(), n.headings.len(), n.flags.as_ptr(), n.flags.len(),
                n.from.as_ptr(), n.from.len(), n.to.as_ptr(), n.to.len(), n.from_side.as_ptr(), n.from_side.len(),
                n.to_side.as_ptr(), n.to_side.len(), n.forward.as_ptr(), n.forward.len(), n.backward.as_ptr(), n.backward.len(),
                n.window_counts.as_ptr(), n.window_counts.len(), n.window_firsts.as_ptr(), n.window_firsts.len(),
                n.window_lasts.as_ptr(), n.window_lasts.len() $(, $argument)*
            )
        }
    }};
}

/// Routes use the relations that are open at the minute, which may be any.
impl Network<'_> {
    /// The checks that every call on a network makes.
    pub fn check(&self) -> Result<(), Refusal> {
        done(on_network!(box_check_network, self))
    }

    /// The cost of the cheapest route in metres.
    pub fn distance(&self, minute: u32, start: Side, goal: Side) -> Result<Option<f64>, Refusal> {
        let mut cost = 0.0;
        let status = on_network!(
            box_shortest_path_distance, self, minute, start.element, start.side, goal.element, goal.side, &mut cost
        );
        Ok(found(status)?.then_some(cost))
    }

    /// The cheapest route, its states in the buffer.
    pub fn route<'b>(
        &self,
        minute: u32,
        start: Side,
        goal: Side,
        states: &'b mut [u32],
    ) -> Result<Option<Route<'b>>, Refusal> {
        let (mut cost, mut count) = (0.0, 0);
        let status = on_network!(
            box_shortest_path_route, self, minute, start.element, start.side, goal.element, goal.side,
            states.as_mut_ptr(), states.len(), &mut cost, &mut count
        );
        Ok(found(status)?.then_some(Route { cost, states: &states[..count] }))
    }

    /// Whether three elements can be passed in this order without turning round on the second.
    pub fn is_consistent(&self, minute: u32, a: u32, b: u32, c: u32) -> Result<bool, Refusal> {
        let mut consistent = 0;
        done(on_network!(box_triple_is_consistent, self, minute, a, b, c, &mut consistent))?;
        Ok(consistent != 0)
    }
}

/// A journal in lent words: a row stands for each fix that was fed and not struck.
pub struct Journal<'a> {
    words: &'a mut [u32],
}

impl<'a> Journal<'a> {
    /// An empty journal, whatever the words were.
    pub fn open(words: &'a mut [u32]) -> Result<Self, Refusal> {
        // SAFETY: as at `on_network`.
        done(unsafe { calls::box_open(words.as_mut_ptr(), words.len()) })?;
        Ok(Journal { words })
    }

    /// Words that a journal was kept in; each call checks them.
    pub fn resume(words: &'a mut [u32]) -> Self {
        Journal { words }
    }

    /// The words that are in use, to keep or compare.
    pub fn used(&self) -> &[u32] {
        let used = self.words.first().map_or(0, |word| *word as usize & 0xFFF_FFFF);
        &self.words[..used.min(self.words.len())]
    }

    /// The row that the next fix's distances count from. A fix of n candidates comes with n distances for each candidate of
    /// that row, without a row with none, and is then never refused for their number.
    pub fn predecessor(&self) -> Result<Option<Predecessor>, Refusal> {
        let (mut row, mut candidates) = (0, 0);
        // SAFETY: as at `on_network`.
        let status = unsafe { calls::box_predecessor(self.words.as_ptr(), self.words.len(), &mut row, &mut candidates) };
        Ok(found(status)?.then_some(Predecessor { row, candidates }))
    }

    /// One more row.
    pub fn feed(&mut self, network: &Network, settings: Settings, fix: &Fix) -> Result<(), Refusal> {
        done(on_network!(
            box_feed, network, settings.beta, settings.scale, self.words.as_mut_ptr(), self.words.len(), fix.minute,
            fix.elements.as_ptr(), fix.elements.len(), fix.intrinsics.as_ptr(), fix.intrinsics.len(),
            fix.near.as_ptr(), fix.near.len(), fix.raw_logs.as_ptr(), fix.raw_logs.len(),
            fix.distances.as_ptr(), fix.distances.len()
        ))
    }

    /// The last rows, empty ones counted, no longer stand.
    pub fn strike(&mut self, rows: u32) -> Result<(), Refusal> {
        // SAFETY: as at `on_network`.
        done(unsafe { calls::box_strike(self.words.as_mut_ptr(), self.words.len(), rows) })
    }

    /// The best path, in two buffers; none where no row has a finite score.
    pub fn close<'b>(&self, rows: &'b mut [u32], candidates: &'b mut [u32]) -> Result<Option<Path<'b>>, Refusal> {
        let (mut score, mut count) = (0.0, 0);
        // SAFETY: as at `on_network`.
        let status = unsafe {
            calls::box_close(
                self.words.as_ptr(), self.words.len(), rows.as_mut_ptr(), rows.len(),
                candidates.as_mut_ptr(), candidates.len(), &mut score, &mut count,
            )
        };
        Ok(found(status)?.then_some(Path { score, rows: &rows[..count], candidates: &candidates[..count] }))
    }

    /// A row, numbered from 0.
    pub fn row(&self, number: u32) -> Result<Row, Refusal> {
        const N: usize = MAX_CANDIDATES;
        let mut r = Row {
            count: 0, predecessor_count: 0, minute: 0, elements: [0; N], intrinsics: [0.0; N], near: [0; N], raw_logs: [0.0; N],
            parents: [0; N], scores: [0.0; N], distances: [0.0; MAX_STEPS],
        };
        // SAFETY: as at `on_network`.
        done(unsafe {
            calls::box_read_row(
                self.words.as_ptr(), self.words.len(), number, r.elements.as_mut_ptr(), N, r.intrinsics.as_mut_ptr(), N,
                r.near.as_mut_ptr(), N, r.raw_logs.as_mut_ptr(), N, r.parents.as_mut_ptr(), N, r.scores.as_mut_ptr(), N,
                r.distances.as_mut_ptr(), MAX_STEPS, &mut r.count, &mut r.predecessor_count, &mut r.minute,
            )
        })?;
        Ok(r)
    }

    /// The possible steps into a row, over the relations that are open at its minute.
    pub fn steps(&self, network: &Network, settings: Settings, row: u32) -> Result<Steps, Refusal> {
        const N: usize = MAX_STEPS;
        let mut s = Steps {
            count: 0, predecessor_rows: [0; N], predecessor_candidates: [0; N], rows: [0; N], candidates: [0; N], steps: [0.0; N],
        };
        done(on_network!(
            box_list_steps, network, settings.beta, settings.scale, self.words.as_ptr(), self.words.len(), row,
            s.predecessor_rows.as_mut_ptr(), N, s.predecessor_candidates.as_mut_ptr(), N, s.rows.as_mut_ptr(), N,
            s.candidates.as_mut_ptr(), N, s.steps.as_mut_ptr(), N, &mut s.count
        ))?;
        Ok(s)
    }

    /// Whether feeding with this network and these settings can have written the journal, say one from another cab: it is clean
    /// exactly where some accepted fixes and strikes from opening leave its used words.
    pub fn replay(&self, network: &Network, settings: Settings) -> Result<Replay, Refusal> {
        let mut row = 0;
        let status = on_network!(
            box_replay, network, settings.beta, settings.scale, self.words.as_ptr(), self.words.len(), &mut row
        );
        match status {
            254 => Ok(Replay::Differs(row)),
            _ => done(status).map(|()| Replay::Clean),
        }
    }

    /// The best path as segments, with those that bridge the gaps; empty where there is no path. A bridge uses the relations that
    /// are open at the minute of the first row of the segment it leads to.
    pub fn build<'b>(&self, network: &Network, segments: &'b mut [Segment]) -> Result<&'b mut [Segment], Refusal> {
        let mut count = 0;
        done(on_network!(
            box_build_path, network, self.words.as_ptr(), self.words.len(), segments.as_mut_ptr(), segments.len(), &mut count
        ))?;
        Ok(&mut segments[..count])
    }
}

/// Takes short excursions to other elements out of a list: what is left of it, and the decisions. There must be room for as many
/// decisions as segments.
pub fn remove_oscillations<'b>(
    segments: &'b mut [Segment],
    decisions: &'b mut [Decision],
) -> Result<(&'b [Segment], &'b [Decision]), Refusal> {
    let (mut left, mut decided) = (0, 0);
    // SAFETY: as at `on_network`; a decision is six words, without gaps.
    done(unsafe {
        calls::box_remove_oscillations(
            segments.as_mut_ptr(), segments.len(), decisions.as_mut_ptr().cast(), decisions.len() * 6, &mut left, &mut decided,
        )
    })?;
    Ok((&segments[..left], &decisions[..decided]))
}
