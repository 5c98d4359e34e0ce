//! Document 01's journal: rows as 32-bit words, the top four bits of a word its kind.

use crate::checks;
use crate::language::{Candidate, Fix};

#[derive(Debug, Clone, Copy)]
pub struct Cell {
    pub score: f64,
    pub parent: Option<usize>,
}

/// A fix with the scores and parents of its candidates; its head word stands at the word `at` of the journal.
#[derive(Debug, Clone)]
pub struct Row {
    pub at: usize,
    pub fix: Fix,
    pub cells: Vec<Cell>,
}

impl Row {
    pub fn scores(&self) -> bool {
        self.cells.iter().any(|cell| cell.score != f64::NEG_INFINITY)
    }

    /// Where in the journal a candidate's seven words begin: parent, near flag and element in one, then intrinsic, raw log and score.
    pub fn cell_at(&self, number: usize) -> usize {
        self.at + 3 + 7 * number
    }

    /// Where a distance's two words begin, behind the word with their count.
    pub fn distance_at(&self, number: usize) -> usize {
        self.cell_at(self.cells.len()) + 1 + 2 * number
    }

    /// The words of the record of a row whose predecessor stands at `place`.
    pub fn words(&self, place: usize) -> Vec<u32> {
        let halves = |value: f64| [(value.to_bits() >> 32) as u32, value.to_bits() as u32];
        let Fix { minute, candidates, distances } = &self.fix;
        let mut words = vec![tag(1, self.fix.predecessors() << 5 | candidates.len()), tag(7, place), tag(8, *minute as usize)];
        for (candidate, cell) in candidates.iter().zip(&self.cells) {
            let named = cell.parent.unwrap_or(31) << 11 | (candidate.near as usize) << 10 | candidate.element as usize;
            words.push(tag(2, named));
            words.extend([candidate.intrinsic, candidate.raw_log, cell.score].into_iter().flat_map(halves));
        }
        words.push(tag(3, distances.len()));
        words.extend(distances.iter().copied().flat_map(halves));
        words.push(tag(4, checks::record_length(&self.fix)));
        words
    }
}

pub fn tag(kind: u32, value: usize) -> u32 {
    kind << 28 | value as u32
}

/// The latest row with a finite score.
pub fn predecessor(rows: &[Row]) -> Option<usize> {
    rows.iter().rposition(Row::scores)
}

/// Where the head word of the latest row with a finite score stands; 0 if there is none.
pub fn place(rows: &[Row]) -> usize {
    predecessor(rows).map_or(0, |row| rows[row].at)
}

/// How many words word 0 says are used, if it is of its kind and they lie within the slice.
pub fn used(journal: &[u32]) -> Option<usize> {
    let word = *journal.first()?;
    let count = (word & 0x0FFF_FFFF) as usize;
    (word >> 28 == 5 && count <= journal.len()).then_some(count)
}

/// The rows of a well-formed journal; none if it is not well formed.
pub fn read(journal: &[u32]) -> Option<Vec<Row>> {
    let mut rest = journal.get(1..used(journal)?)?;
    let mut at = 1;
    let mut rows = Vec::new();
    while !rest.is_empty() {
        let row = read_row(rest, at, &rows)?;
        let length = checks::record_length(&row.fix);
        rest = &rest[length..];
        at += length;
        rows.push(row);
    }
    (rows.len() <= 65_535).then_some(rows)
}

/// The first record's row, whose head word stands at `at`: each field is read from its place, and the words must be those of the row that was read,
/// on the predecessor that stands among the rows before it, and at a minute that is not below theirs.
fn read_row(words: &[u32], at: usize, rows: &[Row]) -> Option<Row> {
    let count = (words[0] & 31) as usize;
    let before = predecessor(rows).filter(|_| count > 0).map_or(0, |row| rows[row].cells.len());
    let length = 7 * count + 2 * count * before + 5;
    let record = words.get(..length)?;
    let float = |at: usize| f64::from_bits((record[at] as u64) << 32 | record[at + 1] as u64);
    let candidate = |at: usize| Candidate {
        element: record[at] & 1023,
        intrinsic: float(at + 1),
        near: record[at] >> 10 & 1,
        raw_log: float(at + 3),
    };
    let cell = |at: usize| Cell { score: float(at + 5), parent: Some((record[at] >> 11 & 31) as usize).filter(|&parent| parent != 31) };
    let places = || (0..count).map(|number| 3 + 7 * number);
    let distances = (0..count * before).map(|number| float(4 + 7 * count + 2 * number)).collect();
    let fix = Fix { minute: record[2] & 0x0FFF_FFFF, candidates: places().map(candidate).collect(), distances };
    let row = Row { at, fix, cells: places().map(cell).collect() };
    let rises = row.fix.minute >= checks::last_minute(rows);
    (rises && in_range(&row, rows.len(), before) && row.words(place(rows)) == record).then_some(row)
}

fn in_range(row: &Row, number: usize, before: usize) -> bool {
    let least = -1e13 * (number + 1) as f64;
    let cell_in_range = |cell: &Cell| {
        let score = cell.score == f64::NEG_INFINITY || checks::within(cell.score, least, 0.0);
        score && cell.parent.is_none_or(|parent| parent < before)
    };
    row.fix.candidates.len() <= 16
        && row.fix.candidates.iter().all(|candidate| checks::candidate(candidate, 1024))
        && row.fix.distances.iter().all(|&distance| checks::distance(distance))
        && row.cells.iter().all(cell_in_range)
}
