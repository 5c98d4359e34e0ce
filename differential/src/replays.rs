//! Makes drives whose journals are replayed: as they were fed, damaged, loaded, and over another network or with other settings.

use crate::drives::{self, Habits, Script, OF_ELEMENTS, OF_RELATIONS, OF_WINDOWS};
use crate::journal::{place, read, tag, used, Row};
use crate::language::{Network, Settings};
use crate::networks;
use crate::random::Random;
use crate::session::Core;
use std::fmt::Write;

/// A drive whose journal is replayed as it was fed, and after each of some changes.
pub fn drive(random: &mut Random, out: &mut String) {
    let network = if random.chance(30) { networks::with_windows(random) } else { networks::network(random) };
    let mut script = drives::begin(random, out, &network);
    let mut habits = drives::habits(random, &network);
    habits.shorts = if random.chance(10) { 20 } else { 0 };
    drives::feed(random, &mut script, &habits);
    replay(random, &mut script, &habits);
    for _ in 0..random.between(1, 4) {
        change_and_replay(random, &mut script, &habits);
    }
    go_on(random, &mut script, &habits);
}

fn replay(random: &mut Random, script: &mut Script, habits: &Habits) {
    drives::call(random, script, habits, &[OF_ELEMENTS, OF_RELATIONS, OF_WINDOWS], "replay");
}

/// Changes words, the journal as a whole, or what it is replayed over. All is put back half the time, and most often where the journal is refused.
fn change_and_replay(random: &mut Random, script: &mut Script, habits: &Habits) {
    let (network, settings) = (script.session.network.clone(), script.session.settings);
    let words = script.session.journal().to_vec();
    match random.below(20) {
        0..=8 => mar(random, script, habits),
        9..=11 => forge(random, script, habits),
        12..=14 => load(random, script),
        15..=16 => alter(random, script),
        17 => drives::change(random, script),
        18 => strike(random, script),
        _ if words.is_empty() => load(random, script),
        _ => drives::hurt(random, script),
    }
    replay(random, script, habits);
    let refused = read(script.session.journal()).is_none();
    if random.chance(if refused { 90 } else { 50 }) {
        put_back(script, &words, &network, settings);
    }
}

/// Feeds on, strikes, or asks everything else, and replays again.
fn go_on(random: &mut Random, script: &mut Script, habits: &Habits) {
    if random.chance(30) {
        let next = drives::fix(random, habits, script);
        script.say(&script.feed_text(&next));
        replay(random, script, habits);
    }
    if random.chance(10) {
        strike(random, script);
        replay(random, script, habits);
    }
    match random.below(10) {
        0 => drives::ask(random, script, habits),
        1..=3 => script.say("close\nwords"),
        _ => (),
    }
}

fn strike(random: &mut Random, script: &mut Script) {
    let rows = script.rows().len() as u32;
    script.say(&format!("strike {}", random.below(rows + 2)));
}

/// Network, settings and words as they were; of a slice of another length the used ones.
fn put_back(script: &mut Script, words: &[u32], network: &Network, settings: Settings) {
    if networks::text(&script.session.network) != networks::text(network) {
        script.say(&networks::text(network));
    }
    let bits = |settings: Settings| (settings.beta.to_bits(), settings.scale.to_bits());
    if bits(script.session.settings) != bits(settings) {
        script.say(&drives::settings_text(settings));
    }
    if script.session.journal().len() == words.len() {
        poke_all(script, 0, words);
    } else {
        script.say(&load_text(used_words(words)));
    }
}

/// Pokes these words from a place on, where others stand.
fn poke_all(script: &mut Script, at: usize, words: &[u32]) {
    let standing = script.session.journal()[at..].iter();
    let differing: Vec<usize> = standing.zip(words).enumerate().filter(|(_, (stands, word))| stands != word).map(|(place, _)| place).collect();
    for place in differing {
        script.poke(at + place, words[place]);
    }
}

fn poke_float(script: &mut Script, at: usize, value: f64) {
    let bits = value.to_bits();
    poke_all(script, at, &[(bits >> 32) as u32, bits as u32]);
}

/// Another binary64: one next to it, 0 of the other sign, or one of its bits flipped.
fn other(random: &mut Random, value: f64) -> f64 {
    let bits = value.to_bits();
    f64::from_bits(match random.below(4) {
        0 => bits.wrapping_add(1),
        1 => bits.saturating_sub(1),
        2 if value == 0.0 => bits ^ 1 << 63,
        2 => bits ^ 1,
        _ => bits ^ 1 << random.below(64),
    })
}

/// The number of one of the rows.
fn any_row(random: &mut Random, rows: &[Row]) -> usize {
    random.below(rows.len() as u32) as usize
}

/// Changes a field of a row: one of what feeding gives, or one of its fix.
fn mar(random: &mut Random, script: &mut Script, habits: &Habits) {
    let rows = script.rows();
    if rows.is_empty() {
        return;
    }
    let row = any_row(random, &rows);
    if random.chance(50) && !rows[row].cells.is_empty() {
        mar_cell(random, script, &rows, row);
    } else {
        mar_fix(random, script, habits, &rows, row);
    }
}

/// Changes a score, most often, or a parent: another candidate of the predecessor, none, one past the last.
fn mar_cell(random: &mut Random, script: &mut Script, rows: &[Row], row: usize) {
    let Row { fix, cells, .. } = &rows[row];
    let own = random.below(cells.len() as u32) as usize;
    let cell = rows[row].cell_at(own);
    if random.chance(30) {
        let any = random.below(16);
        let parent = random.pick(&[0, any, fix.predecessors() as u32, 31]);
        let word = script.session.journal()[cell];
        return script.poke(cell, word & !(31 << 11) | parent << 11);
    }
    let score = match random.below(8) {
        0 => f64::NEG_INFINITY,
        1 => random.pick(&[0.0, -0.0]),
        2 => random.pick(cells).score,
        _ => other(random, cells[own].score),
    };
    poke_float(script, cell + 5, score);
}

/// Changes a field of a row's fix, most often within its range: a candidate's, a distance, or the minute.
fn mar_fix(random: &mut Random, script: &mut Script, habits: &Habits, rows: &[Row], row: usize) {
    let Row { fix, cells, .. } = &rows[row];
    if cells.is_empty() || random.chance(15) {
        return drives::mistime(random, script, rows, row);
    }
    if !fix.distances.is_empty() && random.chance(35) {
        return mar_distance(random, script, &rows[row]);
    }
    let own = random.below(cells.len() as u32) as usize;
    let (cell, candidate) = (rows[row].cell_at(own), fix.candidates[own]);
    let word = script.session.journal()[cell];
    let elements = script.session.network.elements.len() as u32;
    match random.below(8) {
        0 => script.poke(cell, word & !1023 | random.below(elements + 1).min(1023)),
        1..=2 => script.poke(cell, word ^ 1 << 10),
        3 => poke_float(script, cell + 1, other(random, candidate.intrinsic)),
        4 => poke_float(script, cell + 1, drives::intrinsic(random, habits)),
        5..=6 => poke_float(script, cell + 3, other(random, candidate.raw_log)),
        _ => poke_float(script, cell + 3, drives::raw_log(random, habits)),
    }
}

fn mar_distance(random: &mut Random, script: &mut Script, row: &Row) {
    let distances = &row.fix.distances;
    let number = random.below(distances.len() as u32) as usize;
    let value = match random.below(6) {
        0 => random.pick(&[0.0, -0.0, 20_100_000.0, 20_100_000.000000004]),
        1 => random.pick(distances),
        2 => random.unit() * 1000.0,
        _ => other(random, distances[number]),
    };
    poke_float(script, row.distance_at(number), value);
}

/// Changes a field of a row's fix, and what feeding gives to what it would give now: such a row does not differ, but one behind it may.
fn forge(random: &mut Random, script: &mut Script, habits: &Habits) {
    let rows = script.rows();
    if rows.is_empty() {
        return;
    }
    let row = any_row(random, &rows);
    mar_fix(random, script, habits, &rows, row);
    let rows = script.rows();
    let Some(Row { at, fix, .. }) = rows.get(row).cloned() else {
        return;
    };
    let settings = script.session.settings;
    if let Ok(cells) = script.session.core.row(settings, &rows[..row], &fix) {
        poke_all(script, at, &Row { at, fix, cells }.words(place(&rows[..row])));
    }
}

/// The used words; none if the first word does not tell them.
fn used_words(journal: &[u32]) -> &[u32] {
    &journal[..used(journal).unwrap_or(0)]
}

/// Loads the used words: as they are, cut short, with another first word, or with words past the used ones.
fn load(random: &mut Random, script: &mut Script) {
    let mut words = used_words(script.session.journal()).to_vec();
    let rows = script.rows();
    let count = words.len() as u32;
    match random.below(10) {
        0 => words.truncate(random.below(count + 1) as usize),
        1 if !rows.is_empty() => {
            words.truncate(random.pick(&rows).at);
            words[0] = tag(5, words.len());
        }
        2 if count > 0 => words[0] = random.pick(&[tag(5, 0), tag(5, 1), words[0] + 1, words[0] - 1, tag(4, words.len()), u32::MAX]),
        3..=5 => (0..random.below(80)).for_each(|_| words.push(u32::MAX)),
        6 => (0..random.below(30)).for_each(|_| words.push(random.bits() as u32)),
        _ => (),
    }
    script.say(&load_text(&words));
}

/// So many words to a line.
const WORDS_PER_LINE: usize = 14;

fn load_text(words: &[u32]) -> String {
    let mut out = format!("load {}", words.len());
    for line in words.chunks(WORDS_PER_LINE) {
        let line: Vec<String> = line.iter().map(|word| format!("{word:08X}")).collect();
        write!(out, "\n{}", line.join(" ")).unwrap();
    }
    out
}

/// The same network but for one value, or settings next to those now.
fn alter(random: &mut Random, script: &mut Script) {
    let Settings { beta, scale } = script.session.settings;
    let text = match random.below(3) {
        0 => drives::settings_text(Settings { beta: drives::neighbour(random, beta), scale: drives::neighbour(random, scale) }),
        _ => networks::text(&networks::altered(random, &script.session.network)),
    };
    script.say(&text);
}
