//! Document 01's network as it is at a minute: states, the search, routes and consistent triples.

use crate::language::{Network, Side};
use std::cmp::Reverse;
use std::collections::{BinaryHeap, HashMap, HashSet};
use std::rc::Rc;

#[derive(Debug, Clone)]
pub struct Route {
    pub cost: f64,
    pub states: Vec<u32>,
}

/// A network with the external edges of its open relations by node. A node is 2 times element plus side; a state is 2 times node, plus 1 if
/// reached by an external edge.
pub struct Routes {
    lengths: Vec<f64>,
    external: Vec<Vec<u32>>,
    searches: HashMap<u32, Rc<Search>>,
}

/// A search from one side to all others: costs, predecessors and the order of settling, by state.
struct Search {
    cost: Vec<f64>,
    before: Vec<u32>,
    order: Vec<u32>,
}

const NONE: u32 = u32::MAX;

impl Routes {
    pub fn new(network: &Network, minute: u32) -> Self {
        let count = network.elements.len();
        let mut external = vec![Vec::new(); 2 * count];
        for relation in network.relations.iter().filter(|relation| !relation.is_shut(minute)) {
            let (a, b) = (2 * relation.from as usize, 2 * relation.to as usize);
            if a >= 2 * count || b >= 2 * count {
                continue;
            }
            let (a, b) = (a + relation.from_side as usize, b + relation.to_side as usize);
            if relation.forward != 0 {
                external[a].push(b as u32);
            }
            if relation.backward != 0 {
                external[b].push(a as u32);
            }
        }
        let lengths = network.elements.iter().map(|e| e.length).collect();
        Routes { lengths, external, searches: HashMap::new() }
    }

    pub fn elements(&self) -> usize {
        self.lengths.len()
    }

    pub fn length(&self, element: u32) -> f64 {
        self.lengths[element as usize]
    }

    fn node(&self, side: Side) -> Option<u32> {
        ((side.element as usize) < self.elements() && side.side <= 1).then(|| 2 * side.element + side.side)
    }

    /// The states that one edge leads to, with its weight.
    fn edges(&self, state: u32) -> Vec<(u32, f64)> {
        let node = state / 2;
        let mut edges = vec![(2 * (node ^ 1), self.length(node / 2))];
        if state % 2 == 0 {
            edges.extend(self.external[node as usize].iter().map(|&next| (2 * next + 1, 0.0)));
        }
        edges
    }

    /// States settle by cost, then number; a predecessor changes only for a strictly lower cost.
    fn search_from(&self, start: u32) -> Search {
        let states = 2 * self.external.len();
        let mut search = Search { cost: vec![f64::INFINITY; states], before: vec![NONE; states], order: vec![NONE; states] };
        let mut settled = 0;
        let mut waiting = BinaryHeap::new();
        search.cost[2 * start as usize] = 0.0;
        waiting.push(Reverse((0f64.to_bits(), 2 * start)));
        while let Some(Reverse((bits, state))) = waiting.pop() {
            if search.order[state as usize] != NONE {
                continue;
            }
            search.order[state as usize] = settled;
            settled += 1;
            for (next, weight) in self.edges(state) {
                let cost = f64::from_bits(bits) + weight;
                if cost < search.cost[next as usize] {
                    search.cost[next as usize] = cost;
                    search.before[next as usize] = state;
                    waiting.push(Reverse((cost.to_bits(), next)));
                }
            }
        }
        search
    }

    fn search(&mut self, start: u32) -> Rc<Search> {
        if let Some(search) = self.searches.get(&start) {
            return search.clone();
        }
        let search = Rc::new(self.search_from(start));
        self.searches.insert(start, search.clone());
        search
    }

    /// The first settled state of the target, and the states before it.
    pub fn route(&mut self, from: Side, to: Side) -> Option<Route> {
        let (from, to) = (self.node(from)?, self.node(to)?);
        if from == to {
            return Some(Route { cost: 0.0, states: vec![2 * from] });
        }
        let search = self.search(from);
        let mut state = [2 * to, 2 * to + 1].into_iter().min_by_key(|&s| search.order[s as usize])?;
        let cost = search.cost[state as usize];
        let mut states = Vec::new();
        while state != NONE {
            states.push(state);
            state = search.before[state as usize];
        }
        states.reverse();
        cost.is_finite().then_some(Route { cost, states })
    }

    pub fn cost(&mut self, from: Side, to: Side) -> Option<f64> {
        self.route(from, to).map(|route| route.cost)
    }

    /// The cheapest pair of sides between two elements, first of equals, with its cost.
    pub fn cheapest(&mut self, from: u32, to: u32) -> Option<(f64, Side, Side)> {
        let mut best: Option<(f64, Side, Side)> = None;
        for (a, b) in [(0, 0), (0, 1), (1, 0), (1, 1)] {
            let (a, b) = (Side { element: from, side: a }, Side { element: to, side: b });
            if let Some(cost) = self.cost(a, b) {
                if best.is_none_or(|(least, _, _)| cost < least) {
                    best = Some((cost, a, b));
                }
            }
        }
        best
    }

    /// Whether listed states are a walk of the network whose rounded cost is this one.
    pub fn is_walk(&self, from: Side, to: Side, route: &Route) -> bool {
        let ends = (route.states.first(), route.states.last().map(|s| s / 2));
        let legal_ends = ends == (self.node(from).map(|n| 2 * n).as_ref(), self.node(to)) && ends.1.is_some();
        let mut sum = Some(0.0);
        for pair in route.states.windows(2) {
            let edges = if (pair[0] as usize) < 2 * self.external.len() { self.edges(pair[0]) } else { Vec::new() };
            let edge = edges.into_iter().find(|(next, _)| *next == pair[1]);
            sum = sum.zip(edge).map(|(sum, (_, weight))| sum + weight);
        }
        legal_ends && sum.is_some_and(|sum: f64| sum.to_bits() == route.cost.to_bits())
    }

    /// Whether only one list of states can come out of a search by least costs. Such a list repeats no state, meets the target at its
    /// end alone, and each of its states has that state's least cost.
    pub fn is_single(&mut self, from: Side, to: Side) -> bool {
        let (Some(from), Some(to)) = (self.node(from), self.node(to)) else {
            return true;
        };
        let search = self.search(from);
        let [plain, crossed] = [2 * to, 2 * to + 1];
        let least = search.cost[plain as usize].min(search.cost[crossed as usize]);
        if from == to || least.is_infinite() {
            return true;
        }
        let start = 2 * from;
        let reached = self.reached(&search, start, to, &[]);
        let is_end = |state: &u32| reached.contains(state) && search.cost[*state as usize] == least;
        let mut list: Vec<u32> = [plain, crossed].into_iter().filter(is_end).collect();
        let mut single = list.len() == 1;
        while single && list.last() != Some(&start) {
            let before = self.befores(&search, start, to, &list);
            single = before.len() == 1;
            list.extend(before);
        }
        single
    }

    /// The states that can stand before the last of `list`, which is listed from the target back.
    fn befores(&self, search: &Search, start: u32, target: u32, list: &[u32]) -> Vec<u32> {
        let Some(&last) = list.last() else {
            return Vec::new();
        };
        let reached = self.reached(search, start, target, list);
        let leads = |state: &u32| self.tight(search, *state, target).contains(&last);
        reached.into_iter().filter(leads).collect()
    }

    /// The edges out of a state over which a least cost comes about; none out of the target.
    fn tight(&self, search: &Search, state: u32, target: u32) -> Vec<u32> {
        let cost = search.cost[state as usize];
        let is_tight = |(next, weight): &(u32, f64)| cost + weight == search.cost[*next as usize];
        let edges = if state / 2 == target { Vec::new() } else { self.edges(state) };
        let mut next: Vec<u32> = edges.into_iter().filter(is_tight).map(|(next, _)| next).collect();
        next.dedup();
        next
    }

    fn reached(&self, search: &Search, start: u32, target: u32, avoid: &[u32]) -> HashSet<u32> {
        let mut reached = HashSet::from([start]);
        let mut waiting = vec![start];
        while let Some(state) = waiting.pop() {
            for next in self.tight(search, state, target) {
                if !avoid.contains(&next) && reached.insert(next) {
                    waiting.push(next);
                }
            }
        }
        reached
    }

    /// Whether two neighbours are equal, or external edges join the first to one side of the middle one and its other side to the third.
    pub fn triple(&self, [a, b, c]: [u32; 3]) -> bool {
        let joined = |from: u32, to: u32| {
            let known = (from as usize) < self.external.len();
            known && self.external[from as usize].contains(&to)
        };
        let sides = |element: u32| [element.saturating_mul(2), element.saturating_mul(2).saturating_add(1)];
        let through = |entry: u32| sides(a).iter().any(|&s| joined(s, entry)) && sides(c).iter().any(|&s| joined(entry ^ 1, s));
        a == b || b == c || sides(b).into_iter().any(through)
    }
}
