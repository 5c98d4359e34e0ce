//! Drives the original: hands it a network and fixes, and takes its answers. It knows no windows: relations that are shut are left out of the network
//! that it gets.

use crate::document;
use crate::journal::{predecessor, Cell, Row};
use crate::language::{Candidate, Element, Fix, Network, Relation, Segment, Settings, Side};
use crate::routes::Route;
use crate::session::{Core, Decision, Path, Step, Unasked};
use geo::{LineString, Point};
use original::models::{AssociatedNetElement, NetRelation, Netelement};
use original::path::candidate::CandidateNetElement;
use original::path::graph::{self, NetelementSide, ShortestPathCache};
use original::path::viterbi::{self, ViterbiResult, ViterbiSubsequence};
use original::path::PathConfig;
use petgraph::graph::{DiGraph, NodeIndex};
use std::collections::HashMap;

/// A network, the original's graph of it without some of its relations, its cache of route costs, and the last decoding.
#[derive(Default)]
pub struct Original {
    network: Network,
    left_out: Vec<usize>,
    netelements: Vec<Netelement>,
    index: HashMap<String, usize>,
    graph: DiGraph<NetelementSide, f64>,
    nodes: HashMap<NetelementSide, NodeIndex>,
    cache: ShortestPathCache,
    last: Option<(Vec<u64>, Decoded)>,
}

/// What the original makes of a list of fixes.
#[derive(Clone)]
struct Decoded {
    rows: Vec<Vec<Cell>>,
    steps: Vec<Step>,
    path: Option<Path>,
}

fn netelement(number: usize, element: &Element) -> Netelement {
    let geometry = LineString::handed(element.length, element.headings, element.flag != 0);
    Netelement { id: number.to_string(), geometry, crs: String::new() }
}

fn netrelation(number: usize, relation: &Relation) -> NetRelation {
    NetRelation {
        id: number.to_string(),
        from_netelement_id: relation.from.to_string(),
        to_netelement_id: relation.to.to_string(),
        position_on_a: relation.from_side as u8,
        position_on_b: relation.to_side as u8,
        navigable_forward: relation.forward != 0,
        navigable_backward: relation.backward != 0,
    }
}

fn side_of(side: Side) -> NetelementSide {
    NetelementSide { netelement_id: side.element.to_string(), position: side.side.min(2) as u8 }
}

fn number_of(id: &str) -> u32 {
    id.parse().expect("ids are numbers")
}

/// A fix's candidates; `first` is the place of the fix's distances in the table.
fn candidates_of(fix: &Fix, first: usize) -> Vec<CandidateNetElement> {
    let stride = fix.candidates.len();
    let candidate = |(number, c): (usize, &Candidate)| CandidateNetElement {
        netelement_id: c.element.to_string(),
        distance_meters: 0.0,
        intrinsic_coordinate: c.intrinsic,
        projected_point: Point::candidate(geo::Candidate { number, near: c.near != 0, first: first + number, stride }),
    };
    fix.candidates.iter().enumerate().map(candidate).collect()
}

/// All fixes' candidates; their distances are handed over on the way.
pub fn position_candidates(fixes: &[&Fix]) -> Vec<Vec<CandidateNetElement>> {
    let mut table = Vec::new();
    let mut positions = Vec::new();
    for fix in fixes {
        positions.push(candidates_of(fix, table.len()));
        table.extend_from_slice(&fix.distances);
    }
    geo::hand_over(table);
    positions
}

/// The state numbers of a list of nodes: a node is reached by an external edge where the element changes.
fn states_of(graph: &DiGraph<NetelementSide, f64>, nodes: &[NodeIndex]) -> Vec<u32> {
    let element = |node: NodeIndex| number_of(&graph[node].netelement_id);
    let state = |(place, &node): (usize, &NodeIndex)| {
        let crossed = place > 0 && element(nodes[place - 1]) != element(node);
        4 * element(node) + 2 * graph[node].position as u32 + crossed as u32
    };
    nodes.iter().enumerate().map(state).collect()
}

fn segment_of(segment: &AssociatedNetElement) -> Segment {
    Segment {
        element: number_of(&segment.netelement_id),
        start: segment.start_intrinsic,
        end: segment.end_intrinsic,
        first: segment.gnss_start_index as u32,
        last: segment.gnss_end_index as u32,
    }
}

fn associated(segment: &Segment) -> AssociatedNetElement {
    let Segment { element, start, end, first, last } = *segment;
    AssociatedNetElement::new(element.to_string(), 1.0, start, end, first as usize, last as usize).expect("in range")
}

/// A collapse: the span stands only in the warning's text, behind the last `covered`.
fn decision_of(decision: &viterbi::SanityDecision) -> Decision {
    let span = decision.warning.rsplit("covered ").next().and_then(|rest| rest.split(' ').next());
    Decision {
        element: number_of(&decision.from_netelement_id),
        span: span.and_then(|span| span.parse().ok()).expect("a span"),
        removed: decision.rerouted_via.iter().map(|id| number_of(id)).collect(),
    }
}

fn cells(scores: &[f64], parents: &[Option<usize>]) -> Vec<Cell> {
    scores.iter().zip(parents).map(|(&score, &parent)| Cell { score, parent }).collect()
}

fn same(one: &[Cell], other: &[Cell]) -> bool {
    let bits = |cell: &Cell| (cell.score.to_bits(), cell.parent);
    one.iter().map(bits).eq(other.iter().map(bits))
}

/// How many predecessor candidates a fix has distances for: from the first finite raw log on, every row with candidates scores.
fn asked_for(before: &[&Fix], fix: &Fix) -> usize {
    let scores = before.iter().any(|fix| fix.candidates.iter().any(|c| c.raw_log != f64::NEG_INFINITY));
    let latest = before.iter().rfind(|fix| !fix.candidates.is_empty());
    latest.filter(|_| scores && !fix.candidates.is_empty()).map_or(0, |fix| fix.candidates.len())
}

/// All bits that a decoding hangs on, besides the network's.
fn key(settings: Settings, fixes: &[&Fix]) -> Vec<u64> {
    let mut key = vec![settings.beta.to_bits(), settings.scale.to_bits()];
    for fix in fixes {
        key.push((fix.candidates.len() << 32 | fix.distances.len()) as u64);
        for c in &fix.candidates {
            key.extend([(c.element as u64) << 32 | c.near as u64, c.intrinsic.to_bits(), c.raw_log.to_bits()]);
        }
        key.extend(fix.distances.iter().map(|distance| distance.to_bits()));
    }
    key
}

/// All fixes' raw logs.
pub fn raw_logs(fixes: &[&Fix]) -> Vec<Vec<f64>> {
    fixes.iter().map(|fix| fix.candidates.iter().map(|c| c.raw_log).collect()).collect()
}

pub fn config(settings: Settings) -> PathConfig {
    PathConfig { beta: settings.beta, turn_scale: settings.scale, ..PathConfig::default() }
}

/// Two fixes of which the second has the first as predecessor, with these logs as the first one's scores.
fn on_predecessor(before: &Fix, logs: impl Fn(usize) -> f64, fix: &Fix) -> [Fix; 2] {
    let mut first = Fix { distances: Vec::new(), ..before.clone() };
    first.candidates.iter_mut().enumerate().for_each(|(number, candidate)| candidate.raw_log = logs(number));
    [first, fix.clone()]
}

impl Original {
    /// The original's own call, over the cache as it is.
    pub fn viterbi_decode(&mut self, candidates: &[Vec<CandidateNetElement>], logs: &[Vec<f64>], config: &PathConfig) -> ViterbiResult {
        let (nodes, cache) = (&self.nodes, &mut self.cache);
        viterbi::viterbi_decode(candidates, logs, &self.netelements, &self.index, &self.graph, nodes, cache, config).expect("a decoding")
    }

    /// The original's own call, over the cache as it is.
    pub fn build_path_from_viterbi(&mut self, result: &ViterbiResult, candidates: &[Vec<CandidateNetElement>]) -> Vec<AssociatedNetElement> {
        let (nodes, cache) = (&self.nodes, &mut self.cache);
        viterbi::build_path_from_viterbi(result, candidates, &self.netelements, &self.index, &self.graph, nodes, cache).expect("segments")
    }

    pub fn shortest_path_distance(&self, from: Side, to: Side) -> Option<f64> {
        graph::shortest_path_distance(&self.graph, &self.nodes, &side_of(from), &side_of(to))
    }

    pub fn clear_cache(&mut self) {
        self.cache.clear();
    }

    /// Builds the original's graph without these relations; the others keep their order.
    fn leave_out(&mut self, left_out: Vec<usize>) {
        let kept = |number: &usize| !left_out.contains(number);
        let numbers = (0..self.network.relations.len()).filter(kept);
        let relations: Vec<NetRelation> = numbers.map(|number| netrelation(number, &self.network.relations[number])).collect();
        (self.graph, self.nodes) = graph::build_topology_graph(&self.netelements, &relations).expect("an accepted network");
        self.cache.clear();
        self.last = None;
        self.left_out = left_out;
    }

    /// Has the graph be that of a minute.
    fn go_to(&mut self, minute: u32) {
        let shut = self.network.shut_at(minute);
        if shut != self.left_out {
            self.leave_out(shut);
        }
    }

    /// Has the graph be that of all these fixes' minutes. Unasked if they do not all see the same relations.
    fn go_to_all(&mut self, fixes: &[&Fix]) -> Result<(), Unasked> {
        let first = fixes.first().map_or(0, |fix| fix.minute);
        let shut = self.network.shut_at(first);
        if !fixes.iter().all(|fix| fix.minute == first || self.network.shut_at(fix.minute) == shut) {
            return Err(Unasked);
        }
        self.go_to(first);
        Ok(())
    }

    fn decode(&mut self, settings: Settings, fixes: &[&Fix]) -> Decoded {
        let result = self.viterbi_decode(&position_candidates(fixes), &raw_logs(fixes), &config(settings));
        let (scores, parents) = original::tables::take();
        let step = |&(before, its, row, own, score): &(usize, usize, usize, usize, f64)| Step { before, its, row, own, score };
        let path = |closed: &ViterbiSubsequence| Path { score: closed.log_probability, states: closed.states.clone() };
        Decoded {
            rows: scores.iter().zip(&parents).map(|(scores, parents)| cells(scores, parents)).collect(),
            steps: result.transition_records.iter().map(step).collect(),
            path: result.subsequences.first().map(path),
        }
    }

    /// Decodes these fixes. Unasked if one has not the distances that it needs behind those before it, or if the minutes do not see the same relations.
    fn decode_fairly(&mut self, settings: Settings, fixes: &[&Fix]) -> Result<Decoded, Unasked> {
        if !(0..fixes.len()).all(|at| fixes[at].predecessors() == asked_for(&fixes[..at], fixes[at])) {
            return Err(Unasked);
        }
        self.go_to_all(fixes)?;
        let key = key(settings, fixes);
        let last = self.last.take().filter(|(last, _)| *last == key);
        let decoded = last.map_or_else(|| self.decode(settings, fixes), |(_, decoded)| decoded);
        self.last = Some((key, decoded.clone()));
        Ok(decoded)
    }

    /// Decodes the standing fixes, and perhaps one more. Unasked if that is not fair, or if the standing rows do not come out as they stand.
    fn decoded(&mut self, settings: Settings, rows: &[Row], more: Option<&Fix>) -> Result<Decoded, Unasked> {
        let fixes: Vec<&Fix> = rows.iter().map(|row| &row.fix).chain(more).collect();
        let decoded = self.decode_fairly(settings, &fixes)?;
        let clean = rows.iter().zip(&decoded.rows).all(|(row, cells)| same(&row.cells, cells));
        clean.then_some(decoded).ok_or(Unasked)
    }

    /// Decodes a fix behind its predecessor alone, at the fix's minute: the predecessor's scores are handed over as the logs of a first row.
    /// Unasked if one of them is below -745.0, where the original takes a log as that of 0.
    fn row_alone(&mut self, settings: Settings, rows: &[Row], fix: &Fix) -> Result<Vec<Cell>, Unasked> {
        self.go_to(fix.minute);
        let Some(before) = predecessor(rows).map(|row| &rows[row]).filter(|_| !fix.candidates.is_empty()) else {
            return Ok(self.decode(settings, &[fix]).rows.remove(0));
        };
        if before.cells.iter().any(|cell| cell.score.is_finite() && cell.score < document::LOWEST_POSSIBLE) {
            return Err(Unasked);
        }
        let fixes = on_predecessor(&before.fix, |number| before.cells[number].score, fix);
        Ok(self.decode(settings, &[&fixes[0], &fixes[1]]).rows.remove(1))
    }

    /// A row's steps, from its predecessor and itself alone, at its minute: they hang on which of the predecessor's scores are finite.
    fn steps_alone(&mut self, settings: Settings, rows: &[Row], row: usize) -> Vec<Step> {
        let Some(before) = predecessor(&rows[..row]).filter(|_| !rows[row].cells.is_empty()) else {
            return Vec::new();
        };
        self.go_to(rows[row].fix.minute);
        let finite = |number: usize| if rows[before].cells[number].score.is_finite() { 0.0 } else { f64::NEG_INFINITY };
        let fixes = on_predecessor(&rows[before].fix, finite, &rows[row].fix);
        let steps = self.decode(settings, &[&fixes[0], &fixes[1]]).steps;
        steps.into_iter().map(|step| Step { before, row, ..step }).collect()
    }

    /// The segments of these states of a path, on the graph as it is.
    fn segments_along(&mut self, rows: &[Row], states: Vec<(usize, usize)>) -> Vec<Segment> {
        let closed = ViterbiSubsequence { states, log_probability: 0.0 };
        let result = ViterbiResult { subsequences: vec![closed], transition_records: Vec::new() };
        let candidates = position_candidates(&rows.iter().map(|row| &row.fix).collect::<Vec<_>>());
        self.build_path_from_viterbi(&result, &candidates).iter().map(segment_of).collect()
    }

    /// The segments of the standing rows' path, which is ours, from two groups of states at a time: the bridge between them is one at the
    /// minute of the later one's first row.
    fn segments_by_twos(&mut self, rows: &[Row]) -> Vec<Segment> {
        let states = document::close(rows).map_or(Vec::new(), |path| path.states);
        let element = |&(row, candidate): &(usize, usize)| rows[row].fix.candidates[candidate].element;
        let groups: Vec<&[(usize, usize)]> = states.chunk_by(|one, next| element(one) == element(next)).collect();
        let mut segments = self.segments_along(rows, groups.first().map_or(Vec::new(), |group| group.to_vec()));
        for pair in groups.windows(2) {
            let (first_row, _) = pair[1][0];
            self.go_to(rows[first_row].fix.minute);
            segments.extend_from_slice(&self.segments_along(rows, pair.concat())[1..]);
        }
        segments
    }
}

impl Core for Original {
    fn adopt(&mut self, network: &Network) {
        self.network = network.clone();
        self.netelements = network.elements.iter().enumerate().map(|(n, e)| netelement(n, e)).collect();
        self.index = self.netelements.iter().enumerate().map(|(n, e)| (e.id.clone(), n)).collect();
        self.leave_out(Vec::new());
    }

    fn route(&mut self, minute: u32, from: Side, to: Side) -> Option<Route> {
        self.go_to(minute);
        let cost = self.shortest_path_distance(from, to)?;
        let nodes = graph::shortest_path_route(&self.graph, &self.nodes, &side_of(from), &side_of(to)).expect("a route that has a cost");
        Some(Route { cost, states: states_of(&self.graph, &nodes) })
    }

    fn triple(&mut self, minute: u32, elements: [u32; 3]) -> bool {
        self.go_to(minute);
        let [a, b, c] = elements.map(|element| element.to_string());
        viterbi::triple_is_consistent(&a, &b, &c, &self.graph, &self.nodes)
    }

    fn row(&mut self, settings: Settings, rows: &[Row], fix: &Fix) -> Result<Vec<Cell>, Unasked> {
        match self.decoded(settings, rows, Some(fix)) {
            Ok(mut decoded) => Ok(decoded.rows.remove(rows.len())),
            Err(Unasked) => self.row_alone(settings, rows, fix),
        }
    }

    fn all_rows(&mut self, settings: Settings, rows: &[Row]) -> Result<Vec<Vec<Cell>>, Unasked> {
        let fixes: Vec<&Fix> = rows.iter().map(|row| &row.fix).collect();
        Ok(self.decode_fairly(settings, &fixes)?.rows)
    }

    fn steps(&mut self, settings: Settings, rows: &[Row], row: usize) -> Result<Vec<Step>, Unasked> {
        match self.decoded(settings, rows, None) {
            Ok(decoded) => Ok(decoded.steps.into_iter().filter(|step| step.row == row).collect()),
            Err(Unasked) => Ok(self.steps_alone(settings, rows, row)),
        }
    }

    fn close(&mut self, settings: Settings, rows: &[Row]) -> Result<Option<Path>, Unasked> {
        Ok(self.decoded(settings, rows, None)?.path)
    }

    fn segments(&mut self, settings: Settings, rows: &[Row]) -> Result<Vec<Segment>, Unasked> {
        match self.decoded(settings, rows, None) {
            Ok(decoded) => Ok(self.segments_along(rows, decoded.path.map_or(Vec::new(), |path| path.states))),
            Err(Unasked) => Ok(self.segments_by_twos(rows)),
        }
    }

    fn collapse(&mut self, list: &[Segment]) -> (Vec<Segment>, Vec<Decision>) {
        let (mut warnings, mut decisions, mut pair_index) = (Vec::new(), Vec::new(), 0);
        let list = list.iter().map(associated).collect();
        let kept = viterbi::remove_oscillations(list, &mut warnings, &mut decisions, &mut pair_index);
        (kept.iter().map(segment_of).collect(), decisions.iter().map(decision_of).collect())
    }
}
