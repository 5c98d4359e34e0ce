//! The inputs: a yard of tracks side by side with crossovers, and drives on it.

use differential::language::{Candidate, Element, Fix, Network, Relation, Windows};
use differential::random::Random;

/// The elements of one track.
const TRACK: u32 = 32;

const SEED: u64 = 2009;

/// The minute of a drive's first fix. The others follow, a minute each.
const START: u32 = 1000;

/// Two windows before a drive of up to 1,000 fixes, and two after it.
const WINDOWS: [(u32, u32); 4] = [(0, 400), (600, START), (START + 1000, 2400), (2600, 3000)];

/// Each element leads to the next of its track, and to the one beside that on the next track, both ways. There are no windows.
pub fn network(elements: u32) -> Network {
    let mut random = Random::new(SEED);
    let mut element = |_| {
        let heading = random.between(80, 100) as f64;
        Element { length: random.between(20, 400) as f64 + random.unit(), headings: [heading; 4], flag: 1 }
    };
    let windows = Windows::default();
    let relation = |from: u32, to: u32| Relation { from, to, from_side: 1, to_side: 0, forward: 1, backward: 1, windows };
    let ahead = (0..elements - 1).map(|e| relation(e, e + 1));
    let across = (0..elements.saturating_sub(TRACK + 1)).map(|e| relation(e, e + TRACK + 1));
    Network { elements: (0..elements).map(&mut element).collect(), relations: ahead.chain(across).collect() }
}

/// The same with four windows on each relation, which is open at every minute of a drive.
pub fn with_windows(network: &Network) -> Network {
    let mut network = network.clone();
    network.relations.iter_mut().for_each(|relation| relation.windows.store(&WINDOWS));
    network
}

fn candidate(random: &mut Random, element: u32) -> Candidate {
    Candidate { element, intrinsic: random.unit(), near: 1, raw_log: -5.0 * random.unit() }
}

/// A fix on some elements at minute 0, after one with so many candidates.
fn fix(random: &mut Random, elements: &[u32], before: usize) -> Fix {
    let candidates: Vec<Candidate> = elements.iter().map(|&element| candidate(random, element)).collect();
    let distances = (0..before * elements.len()).map(|_| 500.0 * random.unit()).collect();
    Fix { minute: 0, candidates, distances }
}

/// Different elements anywhere in the network.
fn spread(random: &mut Random, network: &Network, count: usize) -> Vec<u32> {
    let mut elements = Vec::new();
    while elements.len() < count {
        let element = random.below(network.elements.len() as u32);
        if !elements.contains(&element) {
            elements.push(element);
        }
    }
    elements
}

/// Elements on two tracks side by side, from one on.
fn neighbouring(first: u32, count: usize) -> Vec<u32> {
    let half = count as u32 / 2;
    (0..half).map(|k| first + k).chain((0..half).map(|k| first + TRACK + k)).collect()
}

pub fn two_spread(network: &Network, count: usize) -> Vec<Fix> {
    let mut random = Random::new(SEED + 1);
    let (first, second) = (spread(&mut random, network, count), spread(&mut random, network, count));
    vec![fix(&mut random, &first, 0), fix(&mut random, &second, count)]
}

pub fn two_neighbouring(network: &Network, count: usize) -> Vec<Fix> {
    let mut random = Random::new(SEED + 2);
    let first = network.elements.len() as u32 / 3;
    vec![fix(&mut random, &neighbouring(first, count), 0), fix(&mut random, &neighbouring(first + 1, count), count)]
}

/// A train that passes an element in five fixes, and goes on at the network's beginning when it reaches its end.
pub fn drive(network: &Network, fixes: usize, count: usize) -> Vec<Fix> {
    let mut random = Random::new(SEED + 3);
    let places = network.elements.len() as u32 - TRACK - count as u32;
    let one = |k: usize| {
        let on = neighbouring(k as u32 / 5 % places, count);
        Fix { minute: START + k as u32, ..fix(&mut random, &on, if k == 0 { 0 } else { count }) }
    };
    (0..fixes).map(one).collect()
}

/// A journal of so many rows with four candidates each: that of a short drive, with the records after its first repeated, each of them naming the
/// record before it, a minute later. Scores then come from other rows than those that stand before, which check 7, closing and building do not ask about.
pub fn long_journal(short: &[u32], rows: usize) -> Vec<u32> {
    let first = 7 * 4 + 5;
    let record = 7 * 4 + 2 * 16 + 5;
    let used = (short[0] & 0x0FFF_FFFF) as usize;
    let mut journal = vec![0; 1 + first + (rows - 1) * record];
    journal[0] = 0x5000_0000 | journal.len() as u32;
    journal[1..1 + first].copy_from_slice(&short[1..1 + first]);
    let rest = short[1 + first..used].iter().cycle();
    journal[1 + first..].iter_mut().zip(rest).for_each(|(to, &word)| *to = word);
    let mut before = 1;
    for at in (1 + first..journal.len()).step_by(record) {
        journal[at + 1] = 0x7000_0000 | before as u32;
        journal[at + 2] = journal[before + 2] + 1;
        before = at;
    }
    journal
}

/// That journal as it was written before rows had minutes (document 02, K4): a word less a row, which the places that rows name do not count.
#[cfg(feature = "before")]
pub fn without_minutes(journal: &[u32]) -> Vec<u32> {
    let (mut former, mut at, mut before) = (vec![0], 1, 0);
    while at < journal.len() {
        let (count, pairs) = (journal[at] as usize & 31, journal[at] as usize >> 5 & 31);
        let end = at + 7 * count + 2 * count * pairs + 5;
        let place = former.len() as u32;
        former.extend([journal[at], 0x7000_0000 | before]);
        former.extend_from_slice(&journal[at + 3..end - 1]);
        former.push(journal[end - 1] - 1);
        (at, before) = (end, place);
    }
    former[0] = 0x5000_0000 | former.len() as u32;
    former
}
