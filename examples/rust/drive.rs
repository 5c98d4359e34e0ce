//! The drives of `examples/c/drive.c` through the safe interface: it prints the same text.
use matcher::{remove_oscillations, Decision, Fix, Journal, Network, Refusal, Replay, Segment, Settings, Side};

// ---- The network. Every element runs from west (side 0) to east (side 1).
//
//                  ,-- 1 track 1 --.
//   0 west line --<                 >-- 3 points -- 4 east line
//                  '-- 2 track 2 --'

const NAMES: [&str; 5] = ["west line", "track 1", "track 2", "points", "east line"];

const NETWORK: Network = Network {
    lengths: &[400.0, 600.0, 600.0, 10.0, 500.0],
    headings: &[
        270.0, 90.0, 90.0, 270.0, // out at side 0, out at side 1, in at side 0, in at side 1
        270.0, 90.0, 90.0, 270.0, //
        275.0, 90.0, 95.0, 270.0, //
        270.0, 90.0, 90.0, 270.0, //
        270.0, 90.0, 90.0, 270.0,
    ],
    flags: &[1; 5],
    from: &[0, 0, 1, 2, 3],
    to: &[1, 2, 3, 3, 4],
    from_side: &[1; 5],
    to_side: &[0; 5],
    forward: &[1; 5],
    backward: &[1; 5],
    // A possession: relation 0, of west line and track 1, is shut from minute 120 on and open again at 240. It has one window,
    // the others none; entries past these counts are not looked at.
    window_counts: &[1, 0, 0, 0, 0],
    window_firsts: &[120; 5 * 4],
    window_lasts: &[240; 5 * 4],
};

const SETTINGS: Settings = Settings { beta: 20.0, scale: 60.0 };

// ---- The fixes: metres driven, and for each candidate its element, intrinsic, near flag and raw log.

type Candidates = &'static [(u32, f64, u32, f64)];

const APPROACH: [(f64, Candidates); 6] = [
    (250.0, &[(0, 0.625, 0, -0.1)]),
    (350.0, &[(0, 0.875, 1, -0.1)]),
    (450.0, &[(1, 0.083, 1, -0.3), (2, 0.083, 1, -2.5)]),
    (550.0, &[(1, 0.25, 0, -0.3), (2, 0.25, 0, -2.5)]),
    (650.0, &[]), // the tunnel: rows without candidates
    (750.0, &[]),
];

const AT_THE_PORTAL: [(f64, Candidates); 2] = [
    (850.0, &[(1, 0.75, 0, -9.0), (2, 0.75, 0, -0.1)]), // few satellites: track 2 seems much closer
    (900.0, &[(1, 0.833, 0, -9.0), (2, 0.833, 0, -0.1)]),
];

const ONWARD: [(f64, Candidates); 9] = [
    (850.0, &[(1, 0.75, 0, -0.3), (2, 0.75, 0, -2.5)]), // the same two places, worked out again
    (900.0, &[(1, 0.833, 0, -0.3), (2, 0.833, 0, -2.5)]),
    (950.0, &[(1, 0.917, 1, -0.3), (2, 0.917, 1, -2.5)]),
    (975.0, &[(1, 0.958, 1, -12.0), (2, 0.958, 1, -0.1)]), // a reflection
    (985.0, &[(1, 0.975, 1, -12.0), (2, 0.975, 1, -0.1)]),
    (990.0, &[(1, 0.983, 1, -0.1), (2, 0.983, 1, -12.0)]),
    (995.0, &[(1, 0.992, 1, -0.1), (2, 0.992, 1, -12.0)]),
    (1060.0, &[(4, 0.1, 1, -0.1)]),
    (1160.0, &[(4, 0.3, 0, -0.1)]),
];

// ---- The host: the journal, and where each standing row was fed.

struct Host<'a> {
    journal: Journal<'a>,
    metres: Vec<f64>,
}

impl<'a> Host<'a> {
    fn open(words: &'a mut [u32]) -> Result<Self, Refusal> {
        Ok(Host { journal: Journal::open(words)?, metres: Vec::new() })
    }

    /// A distance for each pair of a candidate of the predecessor and one of the fix: the metres driven since then, which is
    /// near enough to all of them on this straight line.
    fn feed_one(&mut self, minute: u32, metres: f64, candidates: Candidates) -> Result<(), Refusal> {
        let distances = match self.journal.predecessor()? {
            Some(p) => vec![metres - self.metres[p.row as usize]; p.candidates * candidates.len()],
            None => Vec::new(),
        };
        let fix = Fix {
            minute,
            elements: &Vec::from_iter(candidates.iter().map(|c| c.0)),
            intrinsics: &Vec::from_iter(candidates.iter().map(|c| c.1)),
            near: &Vec::from_iter(candidates.iter().map(|c| c.2)),
            raw_logs: &Vec::from_iter(candidates.iter().map(|c| c.3)),
            distances: &distances,
        };
        self.journal.feed(&NETWORK, SETTINGS, &fix)?;
        self.metres.push(metres);
        Ok(())
    }

    /// A fix a minute, from this one on.
    fn feed(&mut self, minute: u32, fixes: &[(f64, Candidates)]) -> Result<(), Refusal> {
        (minute..).zip(fixes).try_for_each(|(minute, (metres, candidates))| self.feed_one(minute, *metres, candidates))
    }

    fn strike(&mut self, rows: usize) -> Result<(), Refusal> {
        self.journal.strike(rows as u32)?;
        self.metres.truncate(self.metres.len() - rows);
        Ok(())
    }
}

// ---- What a person reads.

fn name(element: u32) -> &'static str {
    NAMES[element as usize]
}

fn yes_or_no(is_so: bool) -> &'static str {
    match is_so {
        true => "yes",
        false => "no",
    }
}

fn show_route(minute: u32) -> Result<(), Refusal> {
    let (start, goal) = (Side { element: 0, side: 0 }, Side { element: 4, side: 1 });
    let mut states = [0; 4096];
    let cost = NETWORK.distance(minute, start, goal)?.expect("the lines are joined");
    let route = NETWORK.route(minute, start, goal, &mut states)?.expect("the lines are joined");
    let mut elements = Vec::from_iter(route.states.iter().map(|state| name(state / 4)));
    elements.dedup();
    println!("  minute {minute}, from end to end: {cost:.0} m, over {}", elements.join(", "));
    let (through, back) = (NETWORK.is_consistent(minute, 0, 1, 3)?, NETWORK.is_consistent(minute, 1, 3, 2)?);
    println!("  west line, track 1, points: {}; track 1, points, track 2: {}", yes_or_no(through), yes_or_no(back));
    Ok(())
}

fn show_path(host: &Host) -> Result<(), Refusal> {
    let (mut rows, mut candidates) = ([0; 32], [0; 32]);
    let path = host.journal.close(&mut rows, &mut candidates)?.expect("a row has a finite score");
    println!("  best path, score {:.3}, of {} rows:", path.score, host.metres.len());
    for (row, candidate) in path.rows.iter().zip(path.candidates) {
        let (fed, own) = (host.journal.row(*row)?, *candidate as usize);
        let (minute, metres) = (fed.minute, host.metres[*row as usize]);
        let element = name(fed.elements[own]);
        println!("    row {row:2}  minute {minute:3}  {metres:4.0} m  {element:9} at {:.3}", fed.intrinsics[own]);
    }
    Ok(())
}

fn show_steps(host: &Host, number: u32) -> Result<(), Refusal> {
    let s = host.journal.steps(&NETWORK, SETTINGS, number)?;
    for i in 0..s.count {
        let (before, row) = (host.journal.row(s.predecessor_rows[i])?, host.journal.row(s.rows[i])?);
        let from = name(before.elements[s.predecessor_candidates[i] as usize]);
        let to = name(row.elements[s.candidates[i] as usize]);
        println!("  step from row {} to {}, {from} to {to}: {:.3}", s.predecessor_rows[i], s.rows[i], s.steps[i]);
    }
    Ok(())
}

fn show_segments(segments: &[Segment]) {
    for s in segments {
        let element = name(s.element);
        println!(
            "    {element:9} from {:.3} to {:.3}, rows {} to {}",
            s.start_intrinsic, s.end_intrinsic, s.first_row, s.last_row
        );
    }
}

fn show_decisions(decisions: &[Decision]) {
    for d in decisions {
        let removed = Vec::from_iter(d.removed().iter().map(|element| name(*element)));
        println!("    {} goes on over a span of {} rows; removed: {}", name(d.element), d.span, removed.join(", "));
    }
}

// ---- The drives.

fn drive_in_possession(words: &mut [u32]) -> Result<(), Refusal> {
    println!("7. The way from west line to track 1 is shut from minute 120 on, until 240.");
    [119, 120, 240].into_iter().try_for_each(show_route)?;

    let mut host = Host::open(words)?;
    host.feed(130, &APPROACH)?;
    host.feed(136, &ONWARD[..3])?;
    println!("8. The same fixes from minute 130 on, in a journal opened again.");
    show_path(&host)?;

    let last = host.journal.row(host.metres.len() as u32 - 1)?.minute;
    let (early, (metres, candidates)) = (last - 1, ONWARD[3]);
    let refusal = host.feed_one(early, metres, candidates).expect_err("minutes do not fall") as u32;
    println!("9. A fix of minute {early} is refused with {refusal}: the last row is of minute {last}.");
    Ok(())
}

/// The word with the low half of the score of a row's first candidate. A record begins with three words, for the counts, the
/// predecessor and the minute; a candidate has one of its own and two for its intrinsic, raw log and score each.
fn score_word(journal: &Journal, number: u32) -> Result<usize, Refusal> {
    let mut at = 1;
    for i in 0..number {
        let row = journal.row(i)?;
        at += 7 * row.count + 2 * row.count * row.predecessor_count + 5;
    }
    Ok(at + 3 + 6)
}

fn show_replay(what: &str, journal: &Journal) -> Result<(), Refusal> {
    match journal.replay(&NETWORK, SETTINGS)? {
        Replay::Clean => println!("{what}: clean."),
        Replay::Differs(row) => println!("{what}: row {row} differs."),
    }
    Ok(())
}

fn replay_in_another_cab(words: &mut [u32]) -> Result<(), Refusal> {
    let journal = Journal::resume(words);
    show_replay("10. The journal, replayed in another cab", &journal)?;
    let at = score_word(&journal, 6)?;
    words[at] ^= 1;
    show_replay("11. The same with one bit of a score in row 6 changed", &Journal::resume(words))
}

fn main() -> Result<(), Refusal> {
    NETWORK.check()?;
    println!("1. The network is accepted.");
    show_route(0)?;

    let mut words = [0; 1024];
    let mut host = Host::open(&mut words)?;
    host.feed(0, &APPROACH)?;
    host.feed(6, &AT_THE_PORTAL)?;
    println!("2. Fed up to the far portal; rows 4 and 5 are in the tunnel.");
    show_path(&host)?;

    let refusal = host.journal.strike(9).expect_err("9 rows do not stand");
    println!("3. Striking 9 rows is refused with {}: only {} stand.", refusal as u32, host.metres.len());
    host.strike(2)?;
    host.feed(6, &ONWARD)?;
    println!("4. The last two rows struck, worked out again, and fed to the end.");
    show_path(&host)?;
    show_steps(&host, 9)?;

    let mut list = [Segment::default(); 32];
    let segments = host.journal.build(&NETWORK, &mut list)?;
    println!("5. The path as {} segments, bridges among them.", segments.len());
    show_segments(segments);

    let mut room = [Decision::default(); 32];
    let (left, decisions) = remove_oscillations(segments, &mut room)?;
    println!("6. Collapsed: {} segments are left. Decisions: {}.", left.len(), decisions.len());
    show_segments(left);
    show_decisions(decisions);

    drive_in_possession(&mut words)?;
    replay_in_another_cab(&mut words)
}
