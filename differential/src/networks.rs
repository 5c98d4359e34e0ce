//! Makes networks, and writes them as case text.

use crate::language::{Element, Network, Relation, Windows, MOST_WINDOWS};
use crate::random::Random;
use std::fmt::Write;

/// What most lengths of a network are drawn from: ties, sums that round, the edges of the range and of 1e-9, sums that absorb.
#[derive(Clone, Copy)]
enum Lengths {
    Few,
    Hundreds,
    Tenths,
    Fractions,
    Edges,
    Apart,
}

const EDGES: [f64; 12] = [
    0.0,
    5e-324,
    f64::MIN_POSITIVE,
    1e-10,
    5e-10,
    9.999999999999999e-10,
    1e-9,
    1.0000000000000002e-9,
    0.1,
    1.0,
    1_048_575.999_999_999_9,
    1_048_576.0,
];

fn length(random: &mut Random, lengths: Lengths) -> f64 {
    match lengths {
        Lengths::Few => random.below(4) as f64,
        Lengths::Hundreds => random.pick(&[50.0, 100.0, 100.0, 200.0]),
        Lengths::Tenths => random.below(12) as f64 / 10.0,
        Lengths::Fractions => random.unit() * 1000.0,
        Lengths::Edges => random.pick(&EDGES),
        Lengths::Apart => random.pick(&[1_048_576.0, 1e-11, 3e-11, 1.0]),
    }
}

fn heading(random: &mut Random, straight: bool) -> f64 {
    match random.below(4) {
        _ if straight => 90.0,
        0 => random.pick(&[0.0, -0.0, 90.0, 180.0, 270.0]),
        1 => random.pick(&[359.99999999999994, 180.00000000000003, 179.99999999999997, 5e-324, 1.0]),
        2 => random.below(360) as f64,
        _ => random.unit() * 360.0,
    }
}

fn element(random: &mut Random, lengths: Lengths, straight: bool) -> Element {
    let lengths = if random.chance(8) { Lengths::Edges } else { lengths };
    let headings = [(); 4].map(|_| heading(random, straight));
    Element { length: length(random, lengths), headings, flag: random.pick(&[1, 1, 1, 1, 1, 0, 7, u32::MAX]) }
}

fn flag(random: &mut Random) -> u32 {
    random.pick(&[0, 1, 1, 1, 1, 1, 2, u32::MAX])
}

/// A relation between two different elements, some of them unknown to the network.
fn relation(random: &mut Random, elements: u32) -> Relation {
    let from = if elements == 0 || random.chance(3) { elements + random.below(3) } else { random.below(elements) };
    let mut to = from;
    while to == from {
        to = if elements < 2 || random.chance(3) { random.pick(&[elements, elements + 1, u32::MAX]) } else { random.below(elements) };
    }
    let (forward, backward) = (flag(random), flag(random));
    Relation { from, to, from_side: random.below(2), to_side: random.below(2), forward, backward, windows: Windows::default() }
}

/// The end of an element to the start of the next, both ways or one.
fn chain(random: &mut Random, elements: u32) -> Vec<Relation> {
    let windows = Windows::default();
    let link = |from: u32, one_way: bool| Relation { from, to: from + 1, from_side: 1, to_side: 0, forward: 1, backward: !one_way as u32, windows };
    (1..elements).map(|to| link(to - 1, random.chance(15))).collect()
}

fn relations(random: &mut Random, elements: u32) -> Vec<Relation> {
    let mut relations = if random.chance(50) { chain(random, elements) } else { Vec::new() };
    let most = if relations.is_empty() { 2 * elements + 2 } else { elements / 2 + 1 };
    for _ in 0..random.below(most + 1) {
        relations.push(relation(random, elements));
    }
    if !relations.is_empty() && random.chance(15) {
        relations.push(random.pick(&relations.clone()));
    }
    relations
}

/// A window, most often one in the first minutes, so that it shares them with others and with drives.
fn window(random: &mut Random) -> (u32, u32) {
    let far = [0, 0, (1 << 28) - 2, (1 << 28) - 1, 1 << 28, u32::MAX - 1];
    let first = if random.chance(10) { random.pick(&far) } else { random.below(20) };
    let last = match random.below(8) {
        0 => u32::MAX,
        1 => first + 1,
        _ => first.saturating_add(random.between(1, 9)),
    };
    (first, last)
}

/// Gives some relations windows, one to four, which may overlap.
fn shut(random: &mut Random, relations: &mut [Relation]) {
    let count = relations.len() as u32;
    for _ in 0..random.between(1, 6).min(count) {
        let pairs: Vec<(u32, u32)> = (0..random.pick(&[1, 1, 1, 2, 3, 4])).map(|_| window(random)).collect();
        relations[random.below(count) as usize].windows.store(&pairs);
    }
}

/// The minutes about the edges of a network's windows.
pub fn edges(network: &Network) -> Vec<u32> {
    let windows = network.relations.iter().flat_map(|relation| relation.windows.counted());
    windows.flat_map(|&(first, last)| [first.saturating_sub(1), first, last.saturating_sub(1), last]).collect()
}

pub fn sized(random: &mut Random, elements: u32) -> Network {
    let kinds = [Lengths::Few, Lengths::Few, Lengths::Hundreds, Lengths::Tenths, Lengths::Fractions, Lengths::Edges, Lengths::Apart];
    let lengths = random.pick(&kinds);
    let straight = random.chance(30);
    let mut relations = relations(random, elements);
    if random.chance(20) {
        shut(random, &mut relations);
    }
    Network { elements: (0..elements).map(|_| element(random, lengths, straight)).collect(), relations }
}

/// The same network but for one value: a length, a heading, a flag or a way of a relation; or fewer elements, or one relation less.
pub fn altered(random: &mut Random, network: &Network) -> Network {
    let mut other = network.clone();
    let (element, relation) = (random.bits() as usize, random.bits() as usize);
    match (random.below(8), network.elements.len(), network.relations.len()) {
        (0..=1, elements @ 1.., _) => other.elements[element % elements].length = length(random, Lengths::Few),
        (2, elements @ 1.., _) => other.elements[element % elements].headings[element % 4] = heading(random, false),
        (3, elements @ 1.., _) => other.elements[element % elements].flag = random.below(2),
        (4, _, relations @ 1..) => other.relations[relation % relations].forward = flag(random),
        (5, _, relations @ 1..) => other.relations[relation % relations].backward = flag(random),
        (6, _, relations @ 1..) => drop(other.relations.remove(relation % relations)),
        (_, elements, _) => other.elements.truncate(elements.saturating_sub(element % 3)),
    }
    other
}

/// A network in which relations are shut at some minutes, if it has any.
pub fn with_windows(random: &mut Random) -> Network {
    let mut network = network(random);
    shut(random, &mut network.relations);
    network
}

pub fn network(random: &mut Random) -> Network {
    let elements = match random.below(100) {
        0 => 0,
        1..=39 => random.between(1, 4),
        40..=84 => random.between(3, 8),
        _ => random.between(6, 12),
    };
    sized(random, elements)
}

/// Puts in a fault that checks 1 or 16 refuse: too many windows, or a last one that falls.
fn spoil_windows(random: &mut Random, windows: &mut Windows) {
    if random.chance(30) {
        windows.count = random.pick(&[5, 6]);
        return;
    }
    let mut pairs: Vec<(u32, u32)> = (0..random.below(4)).map(|_| window(random)).collect();
    pairs.push(random.pick(&[(0, 0), (7, 7), (7, 6), (u32::MAX, 0), (u32::MAX, u32::MAX)]));
    windows.store(&pairs);
}

/// Puts in a fault that checks 1 to 5 or 16 refuse.
pub fn spoil(random: &mut Random, network: &mut Network) {
    let lengths = [-1.0, -0.0, 1_048_576.000_000_000_2, f64::NAN, f64::INFINITY];
    let headings = [360.0, -5e-324, f64::NAN, f64::INFINITY, -90.0];
    let (element, relation) = (random.bits() as usize, random.bits() as usize);
    if let Some(count @ 1..) = Some(network.elements.len()) {
        match random.below(3) {
            0 => network.elements[element % count].length = random.pick(&lengths),
            1 => network.elements[element % count].headings[element % 4] = random.pick(&headings),
            _ => (),
        }
    }
    if let Some(count @ 1..) = Some(network.relations.len()) {
        let relation = &mut network.relations[relation % count];
        match random.below(5) {
            0 => relation.to_side = random.pick(&[2, u32::MAX]),
            1 => relation.from_side = 2,
            2 => relation.to = relation.from,
            3 => spoil_windows(random, &mut relation.windows),
            _ => (),
        }
    }
}

/// A float for the case language: a decimal where that is short, else its bits.
pub fn float(value: f64) -> String {
    match value {
        f64::NEG_INFINITY => "-inf".to_string(),
        _ if value == 0.0 && value.is_sign_negative() => "-0.0".to_string(),
        _ if value.fract() == 0.0 && value.abs() < 1e9 => format!("{value}"),
        _ if (value * 4.0).fract() == 0.0 && value.abs() < 1e6 => format!("{value}"),
        _ => format!("{:016X}", value.to_bits()),
    }
}

pub fn text(network: &Network) -> String {
    let mut out = format!("network {} {}", network.elements.len(), network.relations.len());
    for e in &network.elements {
        let [a, b, c, d] = e.headings.map(float);
        write!(out, "\n{} {a} {b} {c} {d} {}", float(e.length), e.flag).unwrap();
    }
    for r in &network.relations {
        let Relation { from, to, from_side, to_side, forward, backward, windows: _ } = r;
        write!(out, "\n{from} {to} {from_side} {to_side} {forward} {backward}").unwrap();
    }
    for (number, r) in network.relations.iter().enumerate().filter(|(_, r)| r.windows.count > 0) {
        write!(out, "\n{}", windows_text(number, &r.windows)).unwrap();
    }
    out
}

/// A relation's windows; those past the fourth, which are not stored, are any.
pub fn windows_text(relation: usize, windows: &Windows) -> String {
    let mut out = format!("windows {relation} {}", windows.count);
    for number in 0..windows.count as usize {
        let (first, last) = windows.minutes[number % MOST_WINDOWS];
        write!(out, " {first} {last}").unwrap();
    }
    out
}

/// Other windows of one of the relations, now and then such as are refused; none without a relation.
pub fn other_windows(random: &mut Random, network: &Network) -> Option<String> {
    let mut other = network.clone();
    let number = random.below(network.relations.len() as u32) as usize;
    let relation = other.relations.get_mut(number)?;
    shut(random, std::slice::from_mut(relation));
    if random.chance(10) {
        spoil_windows(random, &mut relation.windows);
    }
    Some(windows_text(number, &relation.windows))
}
