//! Box beside the original, on the same inputs in one run: a table of ratios.

mod host;
mod linked;
mod yard;

use differential::language::{Fix, Network, Settings, Side};
use differential::original::{config, position_candidates, raw_logs, Original};
use differential::session::Core;
use host::{FixSlices, Slices};
use std::hint::black_box;
use std::time::Instant;

const SETTINGS: Settings = Settings { beta: 50.0, scale: 30.0 };

/// The median of some times in microseconds, the least and the greatest.
#[derive(Clone, Copy)]
struct Times {
    median: f64,
    least: f64,
    greatest: f64,
}

impl Times {
    fn of(mut micros: Vec<f64>) -> Times {
        micros.sort_by(f64::total_cmp);
        Times { median: micros[micros.len() / 2], least: micros[0], greatest: micros[micros.len() - 1] }
    }

    fn shown(&self) -> String {
        format!("{:.1} ({:.1} to {:.1})", self.median, self.least, self.greatest)
    }
}

/// Runs something so many times; fewer, but three at least, where that takes over four seconds.
fn timed(runs: usize, mut run: impl FnMut()) -> Times {
    let start = Instant::now();
    let mut micros = Vec::new();
    while micros.len() < runs && (micros.len() < 3 || start.elapsed().as_secs_f64() < 4.0) {
        let began = Instant::now();
        run();
        micros.push(began.elapsed().as_secs_f64() * 1e6);
    }
    Times::of(micros)
}

fn print_row(case: &str, goal: &str, box_times: Times, other: Times) {
    let ratio = box_times.median / other.median;
    println!("| {case} | {} | {} | {ratio:.3} | {goal} |", box_times.shown(), other.shown());
}

fn original_of(network: &Network) -> Original {
    let mut original = Original::default();
    original.adopt(network);
    original
}

/// Two fixes: Box opens and feeds both, the original decodes both with an empty cache.
fn two_fixes(case: &str, goal: &str, network: &Network, fixes: &[Fix], runs: usize) {
    let (slices, given): (_, Vec<FixSlices>) = (Slices::of(network), fixes.iter().map(FixSlices::of).collect());
    let mut journal = vec![0; 4096];
    let box_times = timed(runs, || {
        host::open(&mut journal);
        given.iter().for_each(|fix| host::feed(&slices, SETTINGS, &mut journal, fix));
    });
    let handed: Vec<&Fix> = fixes.iter().collect();
    let (logs, config) = (raw_logs(&handed), config(SETTINGS));
    let candidates = position_candidates(&handed);
    let mut original = original_of(network);
    let other = timed(runs, || {
        original.clear_cache();
        black_box(original.viterbi_decode(&candidates, &logs, &config));
    });
    print_row(case, goal, box_times, other);
}

/// One drive, in microseconds a fix, without the checks of the journal.
fn drive_once(slices: &Slices, fixes: &[FixSlices], journal: &mut [u32]) -> f64 {
    host::open(journal);
    let mut spent = 0.0;
    for fix in fixes {
        let began = Instant::now();
        host::check(journal);
        let checked = began.elapsed().as_secs_f64();
        host::feed(slices, SETTINGS, journal, fix);
        spent += began.elapsed().as_secs_f64() - 2.0 * checked;
    }
    spent * 1e6 / fixes.len() as f64
}

/// A drive, in microseconds a fix: Box without its checks of the journal, the original with a cache that fills over the drive.
fn drive(case: &str, goal: &str, network: &Network, fixes: &[Fix], runs: usize) {
    let (slices, given): (_, Vec<FixSlices>) = (Slices::of(network), fixes.iter().map(FixSlices::of).collect());
    let count = fixes.len() as f64;
    let mut journal = vec![0; 80 * fixes.len() + 1];
    let times = (0..runs).map(|_| drive_once(&slices, &given, &mut journal)).collect();
    let handed: Vec<&Fix> = fixes.iter().collect();
    let (logs, config) = (raw_logs(&handed), config(SETTINGS));
    let candidates = position_candidates(&handed);
    let mut original = original_of(network);
    let whole = timed(runs, || {
        original.clear_cache();
        black_box(original.viterbi_decode(&candidates, &logs, &config));
    });
    let other = Times { median: whole.median / count, least: whole.least / count, greatest: whole.greatest / count };
    print_row(case, goal, Times::of(times), other);
}

/// The same drive with four windows on each relation, beside Box's own without any, by turns. All relations are open at its minutes, so that the same
/// routes are sought; the original knows no windows.
fn drive_with_windows(case: &str, network: &Network, fixes: &[Fix], runs: usize) {
    let slices = [Slices::of(&yard::with_windows(network)), Slices::of(network)];
    let given: Vec<FixSlices> = fixes.iter().map(FixSlices::of).collect();
    let mut journals = [(); 2].map(|_| vec![0; 80 * fixes.len() + 1]);
    let mut times = [Vec::new(), Vec::new()];
    for turn in 0..2 * runs {
        times[turn % 2].push(drive_once(&slices[turn % 2], &given, &mut journals[turn % 2]));
    }
    assert!(journals[0] == journals[1], "windows changed the drive");
    let [with, without] = times.map(Times::of);
    print_row(case, "", with, without);
}

/// A drive and then one of twice the rows, replayed. Each fix has a minute of its own, so that the network is compiled for each row, as it is in feeding.
fn replays(network: &Network, fixes: &[Fix], runs: usize) {
    let slices = Slices::of(network);
    let given: Vec<FixSlices> = fixes.iter().map(FixSlices::of).collect();
    let half = fixes.len() / 2;
    let mut journals = [half, fixes.len()].map(|rows| vec![0; 80 * rows + 1]);
    drive_once(&slices, &given, &mut journals[1]);
    let (mut fed, mut replayed, mut twice) = (Vec::new(), Vec::new(), Vec::new());
    for _ in 0..runs {
        fed.push(drive_once(&slices, &given[..half], &mut journals[0]));
        replayed.push(replay_once(&slices, &journals[0]));
        twice.push(replay_once(&slices, &journals[1]));
    }
    let a_row = Times::of(replayed.iter().map(|micros| micros / half as f64).collect());
    print_row("replay, drive of 1,000 fixes, a row, beside feeding it", "1.000", a_row, Times::of(fed));
    print_row("replay, 2,000 rows beside 1,000", "2.200", Times::of(twice), Times::of(replayed));
}

fn replay_once(slices: &Slices, journal: &[u32]) -> f64 {
    let began = Instant::now();
    host::replay(slices, SETTINGS, journal);
    began.elapsed().as_secs_f64() * 1e6
}

/// The cost of a route: Box checks and indexes the network at each call, the original has built its graph before.
fn route(case: &str, network: &Network, start: Side, goal: Side) {
    let (slices, original) = (Slices::of(network), original_of(network));
    assert_eq!(Some(host::distance(&slices, start, goal)), original.shortest_path_distance(start, goal));
    let box_times = timed(101, || {
        black_box(host::distance(&slices, start, goal));
    });
    let other = timed(101, || {
        black_box(original.shortest_path_distance(start, goal));
    });
    print_row(case, "", box_times, other);
}

/// The segments of a drive's best path: Box from its journal, the original from its decoding with an empty cache.
fn build(case: &str, network: &Network, fixes: &[Fix], runs: usize) {
    let slices = Slices::of(network);
    let mut journal = vec![0; 80 * fixes.len() + 1];
    host::open(&mut journal);
    fixes.iter().map(FixSlices::of).for_each(|fix| host::feed(&slices, SETTINGS, &mut journal, &fix));
    let mut segments = vec![linked::Segment::default(); 4 * fixes.len()];
    let count = host::build(&slices, &journal, &mut segments);
    let box_times = timed(runs, || {
        black_box(host::build(&slices, &journal, &mut segments));
    });
    let handed: Vec<&Fix> = fixes.iter().collect();
    let candidates = position_candidates(&handed);
    let mut original = original_of(network);
    let decoded = original.viterbi_decode(&candidates, &raw_logs(&handed), &config(SETTINGS));
    assert_eq!(count, original.build_path_from_viterbi(&decoded, &candidates).len());
    let other = timed(runs, || {
        original.clear_cache();
        black_box(original.build_path_from_viterbi(&decoded, &candidates));
    });
    print_row(case, "", box_times, other);
}

/// A plain sum, as the compiler makes it: several words at a time.
fn plain_sum(words: &[u32]) -> u32 {
    words.iter().fold(0, |sum: u32, &word| sum.wrapping_add(word))
}

/// The same, one word after the other.
fn sum_by_words(words: &[u32]) -> u32 {
    words.iter().fold(0, |sum: u32, word| sum.wrapping_add(unsafe { std::ptr::read_volatile(word) }))
}

/// A journal of so many rows of 4 candidates.
fn long_journal(slices: &Slices, network: &Network, rows: usize) -> Vec<u32> {
    let mut short = vec![0; 80 * 500];
    host::open(&mut short);
    yard::drive(network, 500, 4).iter().map(FixSlices::of).for_each(|fix| host::feed(slices, SETTINGS, &mut short, &fix));
    yard::long_journal(&short, rows)
}

fn feeds(elements: u32, goal: &str) {
    let network = yard::network(elements);
    for (candidates, goal) in [(16, goal), (4, "")] {
        let case = format!("feed, {elements} elements, {candidates} spread");
        two_fixes(&case, goal, &network, &yard::two_spread(&network, candidates), 21);
    }
    for candidates in [4, 16] {
        let case = format!("feed, {elements} elements, {candidates} neighbouring");
        two_fixes(&case, "0.500", &network, &yard::two_neighbouring(&network, candidates), 101);
    }
}

fn checks(journal: &mut [u32]) {
    let check = timed(101, || host::check(journal));
    let sum = |sum: fn(&[u32]) -> u32| {
        timed(101, || {
            black_box(sum(black_box(journal)));
        })
    };
    let (by_words, plain) = (sum(sum_by_words), sum(plain_sum));
    print_row("check 7, 10,000 rows, beside a plain sum of its words", "4.000", check, plain);
    print_row("check 7, 10,000 rows, beside a sum of one word after the other", "", check, by_words);
    #[cfg(feature = "before")]
    checks_by_turns(journal, plain);
}

/// Check 7 and that of the checkout before by turns, so that what the machine does meanwhile falls on both. A checkout from before rows had minutes gets
/// a copy of the journal without them.
#[cfg(feature = "before")]
fn checks_by_turns(journal: &mut [u32], plain: Times) {
    let mut former = if host::is_read_before(journal) { journal.to_vec() } else { yard::without_minutes(journal) };
    let mut micros = [Vec::new(), Vec::new()];
    for turn in 0..2 * 101 {
        let began = Instant::now();
        match turn % 2 {
            0 => host::check(journal),
            _ => host::check_before(&mut former),
        }
        micros[turn % 2].push(began.elapsed().as_secs_f64() * 1e6);
    }
    let [now, before] = micros.map(Times::of);
    print_row("check 7 of the checkout before, by turns with this one's, beside the plain sum", "", before, plain);
    print_row("check 7, by turns with it, beside the plain sum", "", now, plain);
    print_row("check 7, beside that of the checkout before", "", now, before);
}

fn close_and_build(slices: &Slices, journal: &[u32]) -> Times {
    let (mut rows, mut candidates) = (vec![0; 20_000], vec![0; 20_000]);
    let mut segments = vec![linked::Segment::default(); 40_000];
    timed(5, || {
        black_box(host::close(journal, &mut rows, &mut candidates));
        black_box(host::build(slices, journal, &mut segments));
    })
}

fn main() {
    println!("| case | Box, us: median (least to greatest) | beside it | ratio | goal |");
    println!("|---|---|---|---|---|");
    feeds(1024, "0.100");
    feeds(100, "0.200");
    let network = yard::network(1024);
    let fixes = yard::drive(&network, 1000, 4);
    drive("drive of 1,000 fixes, 4 neighbouring, a fix", "1.000", &network, &fixes, 5);
    drive_with_windows("drive of 1,000 fixes, 4 neighbouring, four windows a relation, a fix, beside that without windows", &network, &fixes, 5);
    replays(&network, &yard::drive(&network, 2000, 4), 5);
    let start = Side { element: 0, side: 0 };
    route("route, 1024 elements, near", &network, start, Side { element: 34, side: 1 });
    route("route, 1024 elements, far", &network, start, Side { element: 1023, side: 1 });
    build("build, drive of 1,000 fixes", &network, &fixes, 21);
    let slices = Slices::of(&network);
    let (mut journal, twice) = (long_journal(&slices, &network, 10_000), long_journal(&slices, &network, 20_000));
    checks(&mut journal);
    let (long, longer) = (close_and_build(&slices, &journal), close_and_build(&slices, &twice));
    print_row("close and build, 20,000 rows beside 10,000", "2.200", longer, long);
}
