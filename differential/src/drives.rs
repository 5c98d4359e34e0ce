//! Makes drives on a network, questions about routes, and lists to collapse, as case text.

use crate::checks::{last_minute, MINUTE_LIMIT};
use crate::document::{Document, LOWEST_POSSIBLE};
use crate::journal::{place, predecessor, tag, Row};
use crate::language::{Candidate, Fix, Network, Segment, Settings, Words};
use crate::networks::{self, float};
use crate::random::Random;
use crate::session::Session;
use std::fmt::Write;

/// The text so far, and where it leads by document 01.
pub struct Script<'a> {
    out: &'a mut String,
    pub session: Session<Document>,
}

impl Script<'_> {
    /// Writes commands and performs them.
    pub fn say(&mut self, text: &str) {
        self.out.push_str(text);
        self.out.push('\n');
        let mut words = Words::behind(self.session.network.relations.len(), text);
        while let Some(command) = words.command().expect("our own words") {
            self.session.perform_silently(&command);
        }
    }

    pub fn rows(&self) -> Vec<Row> {
        self.session.standing()
    }

    pub fn poke(&mut self, at: usize, word: u32) {
        self.say(&format!("poke {at} {word:08X}"));
    }

    /// A fix's text, behind its minute if that is another than now.
    pub fn feed_text(&self, fix: &Fix) -> String {
        let minute = if fix.minute == self.session.minute { String::new() } else { format!("minute {}\n", fix.minute) };
        minute + &fix_text(fix)
    }
}

/// What a drive's fixes are drawn from.
pub struct Habits {
    most_candidates: u32,
    near: u32,
    stay: u32,
    empty: u32,
    impossible: u32,
    whole: bool,
    lowest: u32,
    strikes: u32,
    faults: u32,
    pub shorts: u32,
    changes: u32,
    moves: u32,
}

/// The minute moves in few drives without windows, and in most with some.
pub fn habits(random: &mut Random, network: &Network) -> Habits {
    let has_windows = network.relations.iter().any(|relation| relation.windows.count > 0);
    Habits {
        most_candidates: if random.chance(1) { 16 } else { random.pick(&[1, 2, 2, 3, 3, 3, 4]) },
        near: random.pick(&[0, 30, 70, 90, 100]),
        stay: random.pick(&[0, 40, 70]),
        empty: random.pick(&[0, 0, 10, 30]),
        impossible: random.pick(&[0, 0, 20, 60]),
        whole: random.chance(50),
        lowest: random.pick(&[0, 0, 0, 10, 60]),
        strikes: random.pick(&[0, 0, 10, 30]),
        faults: random.pick(&[0, 0, 0, 0, 10]),
        shorts: if random.chance(5) { 10 } else { 0 },
        changes: if random.chance(3) { 20 } else { 0 },
        moves: if has_windows { random.pick(&[0, 20, 50, 90]) } else { random.pick(&[0, 0, 0, 30]) },
    }
}

/// A binary64 of at least 0, or one next to it.
pub fn neighbour(random: &mut Random, value: f64) -> f64 {
    let bits = value.to_bits();
    f64::from_bits(random.pick(&[bits, bits, bits + 1, bits.saturating_sub(1)]))
}

/// A scale at which a turn between two elements scores about the lowest possible score by itself.
fn lowest_scale(random: &mut Random, document: &Document) -> f64 {
    let elements = document.elements() as u32;
    if elements < 2 {
        return 0.001;
    }
    let from = random.below(elements);
    let to = (from + random.between(1, elements - 1)) % elements;
    let turn = document.turn_term(1.0, from, random.below(2), to, random.below(2)).abs();
    neighbour(random, turn / -LOWEST_POSSIBLE).clamp(0.001, 1_000_000.0)
}

fn settings(random: &mut Random, document: &Document) -> Settings {
    let edges = [0.001, 1_000_000.0, 50.0, 1.0];
    let drawn = 10f64.powf(random.unit() * 9.0 - 3.0).clamp(0.001, 1_000_000.0);
    let beta = match random.below(10) {
        0 => 0.0,
        1 => -0.0,
        2..=5 => random.pick(&edges),
        _ => drawn,
    };
    // With beta 0 only a turn can score so low.
    let lowest = if beta == 0.0 { 60 } else { 20 };
    let scale = match random.below(2) {
        _ if random.chance(lowest) => lowest_scale(random, document),
        0 => random.pick(&edges),
        _ => random.unit() * 100.0 + 0.001,
    };
    Settings { beta, scale }
}

pub fn settings_text(settings: Settings) -> String {
    format!("settings {} {}", float(settings.beta), float(settings.scale))
}

pub fn raw_log(random: &mut Random, habits: &Habits) -> f64 {
    let floor = [-23.025850929940457, -23.02585092994046, -23.025850929940453, -745.0, -0.0];
    match random.below(10) {
        _ if random.chance(habits.impossible) => f64::NEG_INFINITY,
        0 => random.pick(&floor),
        _ if habits.whole => -(random.below(4) as f64),
        1 => -random.unit() * 745.0,
        _ => -random.unit() * 5.0,
    }
}

pub fn intrinsic(random: &mut Random, habits: &Habits) -> f64 {
    match random.below(8) {
        0 => random.pick(&[0.9999999999999999, 5e-324, 0.1]),
        1 => random.unit(),
        _ if habits.whole => random.pick(&[0.0, 0.25, 0.5, 1.0]),
        _ => random.unit(),
    }
}

fn candidate(random: &mut Random, habits: &Habits, elements: u32, before: Option<&Fix>) -> Candidate {
    let earlier = before.filter(|_| random.chance(habits.stay)).map(|fix| random.pick(&fix.candidates).element);
    Candidate {
        element: earlier.unwrap_or_else(|| random.below(elements)),
        intrinsic: intrinsic(random, habits),
        near: random.chance(habits.near) as u32,
        raw_log: raw_log(random, habits),
    }
}

/// A distance at which a side pair with this route and turn scores the lowest possible score or one next to it: longer than the route, or shorter.
fn lowest_distance(random: &mut Random, beta: f64, route: f64, turn_term: f64) -> f64 {
    let score = random.pick(&[LOWEST_POSSIBLE, -745.0000000000001, -744.9999999999999]);
    let gap = ((turn_term - score) * beta).max(0.0);
    let shorter = gap <= route && random.chance(50);
    neighbour(random, if shorter { route - gap } else { route + gap })
}

/// A distance between two candidates at a minute: often the route's length at a side pair, or close to it.
fn distance(random: &mut Random, habits: &Habits, session: &mut Session<Document>, minute: u32, from: &Candidate, to: &Candidate) -> f64 {
    let (settings, document) = (session.settings, &mut session.core);
    let [out, into] = [(); 2].map(|_| random.below(2));
    let known = document.route_length(minute, from, out, to, into);
    let route = known.unwrap_or(0.0);
    let off = [1e-9, 9.999999999999999e-10, 1.0000000000000002e-9, 5e-10, 0.5, 1.0, 100.0];
    let value: f64 = match random.below(10) {
        _ if known.is_some() && random.chance(habits.lowest) => {
            let turn_term = document.turn_term(settings.scale, from.element, out, to.element, into);
            lowest_distance(random, settings.beta, route, turn_term)
        }
        0..=3 => route,
        4 => route + random.pick(&off),
        5 => route - random.pick(&off),
        6 => random.below(300) as f64,
        7 => random.pick(&[0.0, -0.0, 5e-324, 20_100_000.0]),
        _ => random.unit() * 1000.0,
    };
    if value >= 0.0 && value <= 20_100_000.0 {
        value
    } else {
        0.0
    }
}

/// The minute of a fix behind the standing rows: now, or, if it moves, that of the last row, one a little later, or one at the edge of a window.
fn minute(random: &mut Random, habits: &Habits, script: &Script) -> u32 {
    let last = last_minute(&script.rows());
    let now = script.session.minute;
    let edges: Vec<u32> = networks::edges(&script.session.network).into_iter().filter(|&edge| edge >= last).collect();
    let minute = match random.below(10) {
        _ if !random.chance(habits.moves) => now,
        0 => last,
        1..=6 if !edges.is_empty() => random.pick(&edges),
        7 if random.chance(20) => MINUTE_LIMIT - 1,
        8 => last + random.below(20),
        _ => now.saturating_add(1),
    };
    if minute < last || minute >= MINUTE_LIMIT {
        last
    } else {
        minute
    }
}

pub fn fix(random: &mut Random, habits: &Habits, script: &mut Script) -> Fix {
    let minute = minute(random, habits, script);
    let rows = script.rows();
    let elements = script.session.network.elements.len() as u32;
    let most = if random.below(400) == 0 { 16 } else { habits.most_candidates };
    let count = if elements == 0 || random.chance(habits.empty) { 0 } else { random.between(1, most) };
    let before = predecessor(&rows).map(|row| &rows[row].fix);
    let candidates: Vec<Candidate> = (0..count).map(|_| candidate(random, habits, elements, before)).collect();
    let mut distances = Vec::new();
    for from in before.map_or(&[][..], |fix| &fix.candidates) {
        distances.extend(candidates.iter().map(|to| distance(random, habits, &mut script.session, minute, from, to)));
    }
    Fix { minute, candidates, distances }
}

/// Puts in a fault that checks 8 to 10 or 17 refuse, behind a last row of this minute.
fn spoil(random: &mut Random, fix: &mut Fix, last: u32) {
    if random.chance(15) {
        let earlier = last.wrapping_sub(random.between(1, 3));
        fix.minute = random.pick(&[earlier, earlier, MINUTE_LIMIT, u32::MAX]);
        return;
    }
    let Some(first) = fix.candidates.first_mut() else {
        return fix.distances.push(1.0);
    };
    match random.below(7) {
        0 => first.element = random.pick(&[12, 1024, u32::MAX]),
        1 => first.intrinsic = random.pick(&[-0.0, 1.0000000000000002, f64::NAN, -1.0]),
        2 => first.near = random.pick(&[2, u32::MAX]),
        3 => first.raw_log = random.pick(&[5e-324, -745.0000000000001, f64::NAN, f64::INFINITY]),
        4 => fix.distances.push(0.0),
        5 => fix.candidates = vec![*first; 17],
        _ if fix.distances.is_empty() => fix.distances.push(2.0),
        _ => fix.distances[0] = random.pick(&[-5e-324, 20_100_000.000000004, f64::NAN, f64::INFINITY]),
    }
}

fn fix_text(fix: &Fix) -> String {
    let mut out = format!("feed {} {}", fix.candidates.len(), fix.distances.len());
    for c in &fix.candidates {
        write!(out, "\n{} {} {} {}", c.element, float(c.intrinsic), c.near, float(c.raw_log)).unwrap();
    }
    if !fix.distances.is_empty() {
        let distances: Vec<String> = fix.distances.iter().copied().map(float).collect();
        write!(out, "\n{}", distances.join(" ")).unwrap();
    }
    out
}

pub const OF_ELEMENTS: &[&str] = &["lengths", "headings", "flags"];
pub const OF_RELATIONS: &[&str] =
    &["from", "to", "from_side", "to_side", "forward", "backward", "window_counts", "window_firsts", "window_lasts"];
pub const OF_WINDOWS: &[&str] = &["window_counts", "window_firsts", "window_lasts"];
const OF_FIX: &[&str] = &["elements", "intrinsics", "near", "raw_logs"];
const OF_ANSWER: &[&str] = &["answer"];
const OF_DISTANCES: &[&str] = &["distances"];
const OF_DECISIONS: &[&str] = &["decisions"];

/// Cuts one of the slices that the next call takes, or all that belong together.
fn cut(random: &mut Random, script: &mut Script, taken: &[&[&str]]) {
    let slices = random.pick(taken);
    let count = if slices == OF_WINDOWS { random.below(2) } else { random.below(5) };
    let one = random.pick(slices);
    let together = random.chance(40);
    for slice in slices.iter().filter(|slice| together || **slice == one) {
        let entries = match *slice {
            "headings" | "window_firsts" | "window_lasts" => 4 * count,
            "decisions" => 6 * count + random.below(6),
            _ => count,
        };
        script.say(&format!("short {slice} {entries}"));
    }
}

/// A call, now and then with a slice cut short.
pub fn call(random: &mut Random, script: &mut Script, habits: &Habits, taken: &[&[&str]], text: &str) {
    if random.chance(habits.shorts) {
        cut(random, script, taken);
    }
    script.say(text);
    if random.chance(habits.shorts) && !text.contains("feed") {
        script.say("kept");
    }
}

/// Everything that can be asked about the standing rows, now and then at another minute, on which none of it hangs.
pub fn ask(random: &mut Random, script: &mut Script, habits: &Habits) {
    let rows = script.rows().len();
    if random.chance(habits.moves) {
        let any = random.below(30);
        script.say(&format!("minute {}", random.pick(&[0, any, u32::MAX])));
    }
    call(random, script, habits, &[OF_ANSWER], "close");
    for row in 0..rows + random.chance(2) as usize {
        call(random, script, habits, &[OF_ANSWER, OF_DISTANCES], &format!("row {row}"));
        call(random, script, habits, &[OF_ELEMENTS, OF_RELATIONS, OF_WINDOWS, OF_ANSWER], &format!("steps {row}"));
    }
    call(random, script, habits, &[OF_ELEMENTS, OF_RELATIONS, OF_WINDOWS, OF_ANSWER], "segments");
    call(random, script, habits, &[OF_DECISIONS], "collapse built");
    if random.chance(10) {
        script.say("kept words");
    }
    if random.chance(2) {
        script.say(&format!("strike {}", rows + 1));
    }
}

fn row_count(random: &mut Random) -> u32 {
    match random.below(1000) {
        0 => random.between(60, 150),
        1..=19 => random.between(15, 40),
        20..=299 => random.between(6, 14),
        300..=309 => 0,
        _ => random.between(1, 6),
    }
}

/// Other settings, other windows, or another network of about as many elements, under the standing rows; some that are refused.
pub fn change(random: &mut Random, script: &mut Script) {
    let outside = [-1.0, 0.0009999999999999998, 1_000_000.000_000_000_1, f64::NAN, f64::INFINITY];
    let Settings { mut beta, mut scale } = settings(random, &script.session.core);
    match random.below(10) {
        0 => beta = random.pick(&outside),
        1 => scale = random.pick(&outside),
        _ => (),
    }
    let mut text = settings_text(Settings { beta, scale });
    if random.chance(20) {
        text = networks::other_windows(random, &script.session.network).unwrap_or(text);
    } else if random.chance(40) {
        let fewer = random.chance(20) as u32;
        let elements = (script.session.network.elements.len() as u32).saturating_sub(fewer);
        let mut network = networks::sized(random, elements);
        if random.chance(10) {
            networks::spoil(random, &mut network);
        }
        text = networks::text(&network);
    }
    script.say(&text);
}

/// Feeds fixes and strikes some of them again.
pub fn feed(random: &mut Random, script: &mut Script, habits: &Habits) {
    for _ in 0..row_count(random) {
        let mut next = fix(random, habits, script);
        if random.chance(habits.faults) {
            spoil(random, &mut next, last_minute(&script.rows()));
        }
        let text = script.feed_text(&next);
        call(random, script, habits, &[OF_ELEMENTS, OF_RELATIONS, OF_WINDOWS, OF_FIX, OF_DISTANCES], &text);
        if random.chance(habits.strikes) {
            let most = script.rows().len().min(if random.chance(70) { 1 } else { usize::MAX });
            script.say(&format!("strike {}", random.below(most as u32 + 1)));
        }
        if random.chance(habits.changes) {
            change(random, script);
        }
    }
}

fn leg(random: &mut Random, script: &mut Script, habits: &Habits) {
    feed(random, script, habits);
    ask(random, script, habits);
}

/// What check 7 refuses as the word of a row's predecessor: an offset one off, that of the row before where it is not the predecessor (twice, so that
/// it is drawn more often), 0 where there is one, the row's own offset, another kind.
fn misnamings(rows: &[Row], row: usize) -> Vec<u32> {
    let right = place(&rows[..row]);
    let before = row.checked_sub(1).map_or(0, |row| rows[row].at);
    let offsets = [right + 1, right.wrapping_sub(1) & 0x0FFF_FFFF, before, before, 0, rows[row].at];
    let wrong = offsets.into_iter().filter(|&offset| offset != right).map(|offset| tag(7, offset));
    wrong.chain([tag(6, right)]).collect()
}

/// Changes the predecessor that one of the rows names, half the time that of an empty row or of one behind a row that does not score.
fn misname(random: &mut Random, script: &mut Script, rows: &[Row]) {
    let is_rare = |row: &usize| rows[*row].cells.is_empty() || *row > 0 && !rows[row - 1].scores();
    let rare: Vec<usize> = (0..rows.len()).filter(is_rare).collect();
    let row = if !rare.is_empty() && random.chance(50) { random.pick(&rare) } else { random.below(rows.len() as u32) as usize };
    script.poke(rows[row].at + 1, random.pick(&misnamings(rows, row)));
}

/// Changes the minute of a row: a word of another kind, one below the row before, one after the row behind, or any other.
pub fn mistime(random: &mut Random, script: &mut Script, rows: &[Row], row: usize) {
    let minute = rows[row].fix.minute;
    let before = last_minute(&rows[..row]);
    let after = rows.get(row + 1).map_or(MINUTE_LIMIT - 2, |row| row.fix.minute);
    let later = (after + 1).min(MINUTE_LIMIT - 1);
    let times = [minute + 1, before.saturating_sub(1), before, after, later, random.below(30)];
    let others = [tag(7, minute as usize), tag(9, minute as usize), tag(0, minute as usize)];
    let words: Vec<u32> = times.map(|time| tag(8, (time % MINUTE_LIMIT) as usize)).into_iter().chain(others).collect();
    script.poke(rows[row].at + 2, random.pick(&words));
}

/// Writes another count into a row's head word: any of five bits, for its candidates or for its predecessor's.
fn recount(random: &mut Random, script: &mut Script, rows: &[Row]) {
    let at = random.pick(rows).at;
    let head = script.session.journal()[at as usize];
    let place = random.pick(&[0, 5]);
    script.poke(at, head & !(31 << place) | random.below(32) << place);
}

/// Changes words of the journal, most often one bit.
fn damage(random: &mut Random, script: &mut Script) {
    for _ in 0..random.between(1, 3) {
        let journal = script.session.journal();
        let used = (journal[0] & 0x0FFF_FFFF).min(journal.len() as u32);
        let at = if random.chance(80) { random.below(used) } else { random.below(journal.len() as u32).min(used + 3) };
        let word = journal[at as usize];
        let poked = match random.below(6) {
            0 => random.bits() as u32,
            1 => word | 31 << 11,
            2 => word.wrapping_add(random.pick(&[1, u32::MAX])),
            3 => random.pick(&[0xFFF0_0000, 0x8000_0000, 0, 0x3FF0_0000, 0xBFF0_0000]),
            _ => word ^ 1 << random.below(32),
        };
        script.poke(at as usize, poked);
    }
}

/// Changes words of the journal: those that rows name their predecessors in, or have their counts or minutes in, or any.
pub fn hurt(random: &mut Random, script: &mut Script) {
    let rows = script.rows();
    match random.below(10) {
        0..=2 if !rows.is_empty() => misname(random, script, &rows),
        3 if !rows.is_empty() => recount(random, script, &rows),
        4..=5 if !rows.is_empty() => {
            let row = random.below(rows.len() as u32) as usize;
            mistime(random, script, &rows, row);
        }
        _ => damage(random, script),
    }
}

/// Changes the journal and asks again.
fn hurt_and_ask(random: &mut Random, script: &mut Script, habits: &Habits) {
    hurt(random, script);
    let next = fix(random, habits, script);
    ask(random, script, habits);
    script.say(&script.feed_text(&next));
    script.say(random.pick(&["strike 0 words", "strike 1", "open close", "words"]));
    ask(random, script, habits);
}

/// A network, a minute, settings and a journal.
pub fn begin<'a>(random: &mut Random, out: &'a mut String, network: &Network) -> Script<'a> {
    let mut script = Script { out, session: Session::new(Document::new(&Network::default())) };
    script.say(&networks::text(network));
    script.say(&format!("minute {}", if random.chance(70) { 0 } else { random.below(30) }));
    let settings = settings(random, &script.session.core);
    script.say(&settings_text(settings));
    if random.chance(1) {
        script.say("journal 0\nfeed 0 0\nstrike 0\nclose\nsegments\nrow 0\nsteps 0\nreplay\nopen\nwords");
    }
    let words = if random.chance(2) { random.between(1, 200) } else { random.pick(&[10_000, 20_000, 65_536]) };
    script.say(&format!("journal {words}"));
    script
}

pub fn drive(random: &mut Random, out: &mut String, network: &Network) {
    let mut script = begin(random, out, network);
    let habits = habits(random, network);
    leg(random, &mut script, &habits);
    if random.chance(10) {
        leg(random, &mut script, &habits);
    }
    if random.chance(7) {
        hurt_and_ask(random, &mut script, &habits);
    }
}

fn any_element(random: &mut Random, elements: u32) -> u32 {
    if elements == 0 || random.chance(5) {
        random.pick(&[elements, elements + 1, 1024, u32::MAX])
    } else {
        random.below(elements)
    }
}

/// Triples, and routes that may begin or end at unknown sides, each at one of the minutes.
pub fn questions(random: &mut Random, out: &mut String, elements: u32, minutes: &[u32], count: u32) {
    for _ in 0..count {
        if minutes.len() > 1 {
            writeln!(out, "minute {}", random.pick(minutes)).unwrap();
        }
        let [a, b, c] = [(); 3].map(|_| any_element(random, elements));
        writeln!(out, "triple {a} {b} {c}").unwrap();
        if random.chance(2) {
            let slice = random.pick(&[OF_ELEMENTS, OF_RELATIONS, OF_ANSWER].concat());
            writeln!(out, "short {slice} {}", random.below(6)).unwrap();
        }
        let [s, t] = [(); 2].map(|_| random.pick(&[0, 0, 0, 1, 1, 1, 2]));
        writeln!(out, "route {a} {s} {b} {t}").unwrap();
    }
}

/// A segment behind the row `at`: a few rows, or a span at the edges that collapsing looks at.
fn segment(random: &mut Random, names: u32, at: u32, ordered: bool) -> Segment {
    let first = if ordered { (at + random.below(3)).min(65_534) } else { random.pick(&[0, 3, 10, 65_534, 7]) };
    let span = random.pick(&[0, 0, 1, 2, 8, 9, 10, 11, 30]);
    let [start, end] = [(); 2].map(|_| random.pick(&[0.0, 0.5, 1.0, 0.25, -0.0, 0.1]));
    Segment { element: random.below(names), start, end, first, last: (first + span).min(65_534) }
}

/// Puts in a fault that check 14 refuses.
fn spoil_segment(random: &mut Random, segment: &mut Segment) {
    let outside = [1.0000000000000002, -5e-324, f64::NAN];
    match random.below(4) {
        0 => segment.start = random.pick(&outside),
        1 => segment.end = random.pick(&outside),
        2 => segment.last = 65_535,
        _ => segment.first = segment.last + 1,
    }
}

pub fn list(random: &mut Random, out: &mut String) {
    let count = if random.chance(3) { random.between(15, 40) } else { random.below(13) };
    let names = random.between(1, 5);
    let ordered = random.chance(60);
    let fault = if random.chance(3) { random.below(12) } else { count };
    let mut at = random.pick(&[0, 5, 65_520]);
    writeln!(out, "collapse {count}").unwrap();
    for number in 0..count {
        let mut segment = segment(random, names, at, ordered);
        at = segment.last;
        if number == fault {
            spoil_segment(random, &mut segment);
        }
        let Segment { element, start, end, first, last } = segment;
        writeln!(out, "{element} {} {} {first} {last}", float(start), float(end)).unwrap();
    }
    out.push_str("collapse built\n");
}

/// The minutes to ask about a network at: without windows any one, else some about their edges.
fn minutes(random: &mut Random, network: &Network) -> Vec<u32> {
    let edges = networks::edges(network);
    if edges.is_empty() {
        return vec![random.pick(&[0, 0, 1, u32::MAX])];
    }
    (0..3).map(|_| random.pick(&edges)).collect()
}

/// A network with questions, and perhaps a fault; tells how many pairs of sides it asks for.
pub fn routes(random: &mut Random, out: &mut String) -> u32 {
    let mut network = networks::network(random);
    if random.chance(1) {
        networks::spoil(random, &mut network);
    }
    let elements = network.elements.len() as u32;
    let minutes = minutes(random, &network);
    writeln!(out, "{}", networks::text(&network)).unwrap();
    for minute in &minutes {
        writeln!(out, "minute {minute}\nroutes").unwrap();
    }
    questions(random, out, elements, &minutes, elements);
    4 * elements * elements * minutes.len() as u32
}

/// A network of up to 1,024 elements (now and then more) with a few routes.
pub fn large(random: &mut Random, out: &mut String) {
    let elements = if random.chance(5) { random.between(1025, 1100) } else { random.between(100, 1024) };
    let network = networks::sized(random, elements);
    let minutes = minutes(random, &network);
    writeln!(out, "{}\nminute {}", networks::text(&network), minutes[0]).unwrap();
    questions(random, out, elements, &minutes, 5);
}
