//! What documents 01 and 02 refuse, by number, over what a call takes.

use crate::journal::{predecessor, Row};
use crate::language::{Candidate, Fix, Network, Segment, Settings, MOST_WINDOWS};

pub fn within(value: f64, low: f64, high: f64) -> bool {
    value >= low && value <= high
}

fn first(checks: &[(u32, bool)]) -> Option<u32> {
    checks.iter().find(|(_, refused)| *refused).map(|(number, _)| *number)
}

/// Checks 1 to 5 and 16; that no field is cut short is seen before.
pub fn network(network: &Network) -> Option<u32> {
    let Network { elements, relations } = network;
    let too_many_windows = relations.iter().any(|r| r.windows.count as usize > MOST_WINDOWS);
    first(&[
        (1, elements.len() > 1024 || relations.len() > 4096 || too_many_windows),
        (2, elements.iter().any(|e| !within(e.length, 0.0, 1_048_576.0) || e.length.is_sign_negative())),
        (3, elements.iter().any(|e| e.headings.iter().any(|&h| !(h >= 0.0 && h < 360.0)))),
        (4, relations.iter().any(|r| r.from_side > 1 || r.to_side > 1)),
        (5, relations.iter().any(|r| r.from == r.to)),
        (16, relations.iter().any(|r| r.windows.counted().iter().any(|(first, last)| last <= first))),
    ])
}

/// Check 6.
pub fn settings(settings: Settings) -> Option<u32> {
    let Settings { beta, scale } = settings;
    let accepted = (beta == 0.0 || within(beta, 0.001, 1_000_000.0)) && within(scale, 0.001, 1_000_000.0);
    (!accepted).then_some(6)
}

pub fn candidate(candidate: &Candidate, elements: usize) -> bool {
    (candidate.element as usize) < elements
        && within(candidate.intrinsic, 0.0, 1.0)
        && candidate.intrinsic.is_sign_positive()
        && candidate.near <= 1
        && (candidate.raw_log == f64::NEG_INFINITY || within(candidate.raw_log, -745.0, 0.0))
}

pub fn distance(distance: f64) -> bool {
    within(distance, 0.0, 20_100_000.0)
}

/// Check 9 on the standing rows.
pub fn standing(rows: &[Row], elements: usize) -> Option<u32> {
    let known = |candidate: &Candidate| (candidate.element as usize) < elements;
    (!rows.iter().all(|row| row.fix.candidates.iter().all(known))).then_some(9)
}

/// Checks 8 to 10, 17, 11 and 12 on a fix behind the standing rows, with so many words past the used ones.
pub fn fix(fix: &Fix, rows: &[Row], elements: usize, free: usize) -> Option<u32> {
    let before = predecessor(rows).map_or(0, |row| rows[row].cells.len());
    first(&[
        (8, fix.candidates.len() > 16),
        (9, standing(rows, elements).is_some() || !fix.candidates.iter().all(|c| candidate(c, elements))),
        (10, fix.distances.len() != fix.candidates.len() * before || !fix.distances.iter().all(|&d| distance(d))),
        (17, fix.minute < last_minute(rows) || fix.minute >= MINUTE_LIMIT),
        (11, rows.len() >= 65_535),
        (12, record_length(fix) > free),
    ])
}

/// A minute has 28 bits in its word.
pub const MINUTE_LIMIT: u32 = 1 << 28;

/// The minute of the last standing row, an empty one too; 0 if none stands.
pub fn last_minute(rows: &[Row]) -> u32 {
    rows.last().map_or(0, |row| row.fix.minute)
}

/// The words of a fix's record.
pub fn record_length(fix: &Fix) -> usize {
    7 * fix.candidates.len() + 2 * fix.distances.len() + 5
}

/// Check 14.
pub fn segments(segments: &[Segment]) -> Option<u32> {
    let in_range = |s: &Segment| within(s.start, 0.0, 1.0) && within(s.end, 0.0, 1.0) && s.first <= s.last && s.last <= 65_534;
    (!segments.iter().all(in_range)).then_some(14)
}
