//! Document 01's segments: building them from a path, with document 02's minutes of bridges (K4), and collapsing.

use crate::document::{close, Document};
use crate::journal::Row;
use crate::language::Segment;
use crate::routes::Routes;
use crate::session::Decision;

/// Consecutive states of the closed path on one element, with the least and greatest intrinsic.
fn groups(rows: &[Row]) -> Vec<Segment> {
    let mut groups: Vec<Segment> = Vec::new();
    for (row, candidate) in close(rows).map_or(Vec::new(), |path| path.states) {
        let candidate = rows[row].fix.candidates[candidate];
        let (intrinsic, row) = (candidate.intrinsic, row as u32);
        match groups.last_mut().filter(|group| group.element == candidate.element) {
            Some(group) => {
                group.start = if intrinsic < group.start { intrinsic } else { group.start };
                group.end = if intrinsic > group.end { intrinsic } else { group.end };
                group.last = row;
            }
            None => groups.push(Segment { element: candidate.element, start: intrinsic, end: intrinsic, first: row, last: row }),
        }
    }
    groups
}

/// The other elements of the cheapest route between two groups, once each; none if it costs below 1e-9.
fn bridge(routes: &mut Routes, from: u32, to: u32) -> Vec<u32> {
    let mut elements = Vec::new();
    let cheapest = routes.cheapest(from, to).filter(|(cost, _, _)| *cost >= 1e-9);
    let route = cheapest.and_then(|(_, a, b)| routes.route(a, b));
    for element in route.into_iter().flat_map(|route| route.states).map(|state| state / 4) {
        if element != from && element != to && !elements.contains(&element) {
            elements.push(element);
        }
    }
    elements
}

/// The routes that a bridge into a group is sought in: those at the minute of its first row.
fn routes_into<'a>(document: &'a mut Document, rows: &[Row], group: &Segment) -> &'a mut Routes {
    document.routes_at(rows[group.first as usize].fix.minute)
}

pub fn build(document: &mut Document, rows: &[Row]) -> Vec<Segment> {
    let mut segments: Vec<Segment> = Vec::new();
    for group in groups(rows) {
        if let Some(Segment { element, last, .. }) = segments.last().copied() {
            let bridges = bridge(routes_into(document, rows, &group), element, group.element);
            segments.extend(bridges.iter().map(|&element| Segment { element, start: 0.0, end: 1.0, first: last, last }));
        }
        segments.push(group);
    }
    segments
}

/// Whether every bridge rests on a route of which there is only one.
pub fn rests_on_single_routes(document: &mut Document, rows: &[Row]) -> bool {
    groups(rows).windows(2).all(|pair| {
        let routes = routes_into(document, rows, &pair[1]);
        match routes.cheapest(pair[0].element, pair[1].element) {
            Some((cost, from, to)) if cost >= 1e-9 => routes.is_single(from, to),
            _ => true,
        }
    })
}

fn span(first: u32, last: u32) -> u32 {
    last.saturating_sub(first)
}

/// What collapsing the segment at `at` with the next of its element removes, and the span of those between.
fn oscillation(segments: &[Segment], at: usize) -> Option<(usize, u32)> {
    let own = segments[at];
    let between = segments[at + 1..].iter().position(|s| s.element == own.element)?;
    let covered = if between == 0 { 0 } else { span(segments[at + 1].first, segments[at + between].last) };
    let short = covered <= span(own.first, own.last) || covered < 10;
    (between <= 3 && short).then_some((between, covered))
}

/// One pass over the list.
fn pass(segments: &mut Vec<Segment>, decisions: &mut Vec<Decision>) {
    let mut at = 0;
    while at < segments.len() {
        let Some((between, span)) = oscillation(segments, at) else {
            at += 1;
            continue;
        };
        let removed: Vec<Segment> = segments.drain(at + 1..at + between + 2).collect();
        let second = removed[between];
        segments[at].last = second.last;
        if second.first != second.last {
            segments[at].end = second.end;
        }
        let removed = removed[..between].iter().map(|s| s.element).collect();
        decisions.push(Decision { element: second.element, span, removed });
    }
}

pub fn collapse(list: &[Segment]) -> (Vec<Segment>, Vec<Decision>) {
    let mut segments = list.to_vec();
    let mut decisions = Vec::new();
    let mut before = if list.len() < 3 { list.len() } else { usize::MAX };
    while segments.len() != before {
        before = segments.len();
        pass(&mut segments, &mut decisions);
    }
    (segments, decisions)
}
