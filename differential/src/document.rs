//! Document 01's decoding: the step score with document 02's K2, rows and steps each at its minute (K4), closing and listing steps. With routes and
//! segments it is a second reading of the documents, written without the original.

use crate::journal::{predecessor, Cell, Row};
use crate::language::{Candidate, Fix, Network, Segment, Settings, Side};
use crate::routes::{Route, Routes};
use crate::segments;
use crate::session::{Core, Decision, Path, Step, Unasked};
use std::collections::HashMap;

const FLOOR: f64 = -23.025850929940457;
const PENALTY: f64 = -23.0;

/// The lowest score of a possible side pair (document 02, K2).
pub const LOWEST_POSSIBLE: f64 = -745.0;

/// A network, and its routes by the relations that are shut.
pub struct Document {
    network: Network,
    routes: HashMap<Vec<usize>, Routes>,
}

impl Document {
    pub fn new(network: &Network) -> Self {
        Document { network: network.clone(), routes: HashMap::new() }
    }

    pub fn elements(&self) -> usize {
        self.network.elements.len()
    }

    pub fn routes_at(&mut self, minute: u32) -> &mut Routes {
        let shut = self.network.shut_at(minute);
        self.routes.entry(shut).or_insert_with(|| Routes::new(&self.network, minute))
    }

    /// From part, cost at a minute and to part, in this order; none without a route.
    pub fn route_length(&mut self, minute: u32, from: &Candidate, from_side: u32, to: &Candidate, to_side: u32) -> Option<f64> {
        let (a, b) = (Side { element: from.element, side: from_side }, Side { element: to.element, side: to_side });
        let cost = self.routes_at(minute).cost(a, b)?;
        Some(self.part(from, from_side) + cost + self.part(to, to_side))
    }

    fn part(&self, candidate: &Candidate, side: u32) -> f64 {
        let share = if side == 0 { candidate.intrinsic } else { 1.0 - candidate.intrinsic };
        share * self.network.elements[candidate.element as usize].length
    }

    pub fn turn_term(&self, scale: f64, from: u32, from_side: u32, to: u32, to_side: u32) -> f64 {
        let (from, to) = (&self.network.elements[from as usize], &self.network.elements[to as usize]);
        if from.flag == 0 || to.flag == 0 {
            return 0.0;
        }
        let apart = (from.headings[from_side as usize] - to.headings[2 + to_side as usize]).abs() % 360.0;
        let turn = if apart > 180.0 { 360.0 - apart } else { apart };
        -turn / scale
    }

    /// The score of a side pair; none if it is impossible.
    fn pair_score(&mut self, at: At, from: &Candidate, to: &Candidate, sides: (u32, u32), distance: f64) -> Option<f64> {
        let At { settings: Settings { beta, scale }, minute } = at;
        let off = (self.route_length(minute, from, sides.0, to, sides.1)? - distance).abs();
        let first_term = if beta != 0.0 {
            -off / beta
        } else if off < 1e-9 {
            0.0
        } else {
            return None;
        };
        let score = first_term + self.turn_term(scale, from.element, sides.0, to.element, sides.1);
        (score >= LOWEST_POSSIBLE).then_some(score)
    }

    /// The step score; none for an impossible step.
    fn step(&mut self, at: At, from: &Candidate, to: &Candidate, distance: f64) -> Option<f64> {
        if from.element == to.element {
            return Some(0.0);
        }
        if from.near == 0 && to.near == 0 {
            return None;
        }
        let mut best: Option<f64> = None;
        for sides in [(0, 0), (0, 1), (1, 0), (1, 1)] {
            if let Some(score) = self.pair_score(at, from, to, sides, distance) {
                best = Some(best.filter(|best| score <= *best).unwrap_or(score));
            }
        }
        best
    }

    /// The possible steps into a fix behind the standing rows at the fix's minute, own candidate outer.
    fn steps_into(&mut self, settings: Settings, rows: &[Row], fix: &Fix) -> Vec<Step> {
        let mut steps = Vec::new();
        let Some(before) = predecessor(rows) else {
            return steps;
        };
        let at = At { settings, minute: fix.minute };
        for (own, to) in fix.candidates.iter().enumerate() {
            for (its, from) in rows[before].fix.candidates.iter().enumerate() {
                let finite = rows[before].cells[its].score != f64::NEG_INFINITY;
                let score = finite.then(|| self.step(at, from, to, fix.distance(its, own))).flatten();
                steps.extend(score.map(|score| Step { before, its, row: rows.len(), own, score }));
            }
        }
        steps
    }
}

/// What a step's score hangs on besides its candidates and distance.
#[derive(Clone, Copy)]
struct At {
    settings: Settings,
    minute: u32,
}

/// The first of the greatest of (previous + step) + floored log, or minus infinity.
fn stepped(previous: &[Cell], steps: &[Step], own: usize, floored: f64) -> Cell {
    let mut best = Cell { score: f64::NEG_INFINITY, parent: None };
    for step in steps.iter().filter(|step| step.own == own) {
        let score = (previous[step.its].score + step.score) + floored;
        if score > best.score {
            best = Cell { score, parent: Some(step.its) };
        }
    }
    best
}

/// The last of the equal best.
fn last_best(cells: &[Cell]) -> usize {
    let best = cells.iter().fold(f64::NEG_INFINITY, |best, cell| if cell.score > best { cell.score } else { best });
    cells.iter().rposition(|cell| cell.score == best).unwrap()
}

fn make_row(fix: &Fix, previous: Option<&[Cell]>, steps: &[Step]) -> Vec<Cell> {
    let floored = |candidate: &Candidate| if candidate.raw_log > FLOOR { candidate.raw_log } else { FLOOR };
    let candidates = fix.candidates.iter().enumerate();
    match previous {
        None => candidates.map(|(_, c)| Cell { score: c.raw_log, parent: None }).collect(),
        Some(previous) if steps.is_empty() => {
            let best = last_best(previous);
            let carried = previous[best].score + PENALTY;
            candidates.map(|(_, c)| Cell { score: carried + floored(c), parent: Some(best) }).collect()
        }
        Some(previous) => candidates.map(|(own, c)| stepped(previous, steps, own, floored(c))).collect(),
    }
}

/// Starts at the last of equal best candidates of the last scoring row and follows parents.
pub fn close(rows: &[Row]) -> Option<Path> {
    let mut row = predecessor(rows)?;
    let mut candidate = last_best(&rows[row].cells);
    let score = rows[row].cells[candidate].score;
    let mut states = vec![(row, candidate)];
    while let Some(parent) = rows[row].cells[candidate].parent {
        row = predecessor(&rows[..row]).expect("a parent lies in a predecessor");
        candidate = parent;
        states.push((row, candidate));
    }
    states.reverse();
    Some(Path { score, states })
}

impl Core for Document {
    fn adopt(&mut self, network: &Network) {
        *self = Document::new(network);
    }

    fn route(&mut self, minute: u32, from: Side, to: Side) -> Option<Route> {
        self.routes_at(minute).route(from, to)
    }

    fn triple(&mut self, minute: u32, elements: [u32; 3]) -> bool {
        self.routes_at(minute).triple(elements)
    }

    fn row(&mut self, settings: Settings, rows: &[Row], fix: &Fix) -> Result<Vec<Cell>, Unasked> {
        let steps = self.steps_into(settings, rows, fix);
        let previous = predecessor(rows).map(|before| rows[before].cells.as_slice());
        Ok(make_row(fix, previous, &steps))
    }

    fn steps(&mut self, settings: Settings, rows: &[Row], row: usize) -> Result<Vec<Step>, Unasked> {
        Ok(self.steps_into(settings, &rows[..row], &rows[row].fix))
    }

    fn close(&mut self, _: Settings, rows: &[Row]) -> Result<Option<Path>, Unasked> {
        Ok(close(rows))
    }

    fn segments(&mut self, _: Settings, rows: &[Row]) -> Result<Vec<Segment>, Unasked> {
        Ok(segments::build(self, rows))
    }

    fn collapse(&mut self, list: &[Segment]) -> (Vec<Segment>, Vec<Decision>) {
        segments::collapse(list)
    }
}
