//! Performs the commands of a case text and writes the answers. Journal and checks are the documents'; what is computed comes from a `Core`.

use crate::checks;
use crate::journal::{place, read, tag, used, Cell, Row};
use crate::language::{bits, Command, Fix, Network, Segment, Settings, Side, Stop, Windows, Words, MOST_WINDOWS};
use crate::routes::Route;
use std::collections::HashMap;
use std::fmt::Write;

/// A possible step: predecessor row, its candidate, row, own candidate, score.
#[derive(Debug, Clone, Copy)]
pub struct Step {
    pub before: usize,
    pub its: usize,
    pub row: usize,
    pub own: usize,
    pub score: f64,
}

/// The score and the (row, candidate) pairs of a closed journal.
#[derive(Debug, Clone)]
pub struct Path {
    pub score: f64,
    pub states: Vec<(usize, usize)>,
}

#[derive(Debug, Clone)]
pub struct Decision {
    pub element: u32,
    pub span: u32,
    pub removed: Vec<u32>,
}

/// It was not asked: the rows are not those that the fixes give now, or not all minutes see the same relations.
pub struct Unasked;

/// What computes the answers of accepted calls. A fix has its minute; a row's steps are those at its minute.
pub trait Core {
    fn adopt(&mut self, network: &Network);
    fn route(&mut self, minute: u32, from: Side, to: Side) -> Option<Route>;
    fn triple(&mut self, minute: u32, elements: [u32; 3]) -> bool;
    fn row(&mut self, settings: Settings, rows: &[Row], fix: &Fix) -> Result<Vec<Cell>, Unasked>;
    /// What feeding the fixes of all these rows gives, from the first on, where that can be asked at once.
    fn all_rows(&mut self, _settings: Settings, _rows: &[Row]) -> Result<Vec<Vec<Cell>>, Unasked> {
        Err(Unasked)
    }
    fn steps(&mut self, settings: Settings, rows: &[Row], row: usize) -> Result<Vec<Step>, Unasked>;
    fn close(&mut self, settings: Settings, rows: &[Row]) -> Result<Option<Path>, Unasked>;
    fn segments(&mut self, settings: Settings, rows: &[Row]) -> Result<Vec<Segment>, Unasked>;
    fn collapse(&mut self, segments: &[Segment]) -> (Vec<Segment>, Vec<Decision>);
}

/// Why a call gives no answer of its own.
enum No {
    Refused(u32),
    Unasked,
}

impl From<Unasked> for No {
    fn from(_: Unasked) -> Self {
        No::Unasked
    }
}

fn refuse(check: Option<u32>) -> Result<(), No> {
    check.map_or(Ok(()), |number| Err(No::Refused(number)))
}

fn refuse_if(refused: bool, number: u32) -> Result<(), No> {
    refuse(refused.then_some(number))
}

pub struct Session<C: Core> {
    pub core: C,
    pub network: Network,
    pub settings: Settings,
    pub minute: u32,
    journal: Vec<u32>,
    /// The slices that the next call gets cut short.
    shorts: HashMap<String, usize>,
    /// A row could not be worked out: no more is asked about the journal until it is opened.
    lost: bool,
    /// The list held; none if it could not be worked out.
    built: Option<Vec<Segment>>,
    pub out: String,
}

/// Answers a whole text.
pub fn answer<C: Core>(core: C, text: &str) -> String {
    let mut session = Session::new(core);
    let mut words = Words::new(text);
    loop {
        let command = words.command().and_then(|command| match command {
            Some(Command::Poke(at, _)) if at as usize >= session.journal.len() => Err(Stop(words.read() - 1)),
            command => Ok(command),
        });
        match command {
            Ok(Some(command)) => session.perform(&command),
            Ok(None) => return session.out,
            Err(Stop(number)) => {
                writeln!(session.out, "error {number}").unwrap();
                return session.out;
            }
        }
    }
}

impl<C: Core> Session<C> {
    pub fn new(core: C) -> Self {
        Session {
            core,
            network: Network::default(),
            settings: Settings::default(),
            minute: 0,
            journal: Vec::new(),
            shorts: HashMap::new(),
            lost: false,
            built: Some(Vec::new()),
            out: String::new(),
        }
    }

    fn line(&mut self, text: std::fmt::Arguments) {
        self.out.write_fmt(text).unwrap();
        self.out.push('\n');
    }

    pub fn perform(&mut self, command: &Command) {
        let done = match command {
            Command::Network(network) => self.set_network(network),
            Command::Windows(relation, pairs) => self.set_windows(*relation as usize, pairs),
            Command::Minute(minute) => self.set_minute(*minute),
            Command::Settings(settings) => self.set_settings(*settings),
            Command::Poke(at, word) => self.poke(*at as usize, *word),
            Command::Load(words) => self.load(words),
            Command::Short(slice, count) => self.short(slice, *count as usize),
            Command::Journal(words) => self.new_journal(*words as usize),
            Command::Open => self.open(),
            Command::Feed(fix) => self.feed(fix),
            Command::Strike(count) => self.strike(*count as usize),
            Command::Words => self.words(),
            Command::Replay => self.replay(),
            Command::Close => self.close(),
            Command::Row(row) => self.row(*row as usize),
            Command::Steps(row) => self.steps(*row as usize),
            Command::Route(from, to) => self.route(*from, *to),
            Command::Routes => self.routes(),
            Command::Triple(elements) => self.triple(*elements),
            Command::Segments => self.segments(),
            Command::Collapse(segments) => self.collapse(Some(segments.clone())),
            Command::CollapseBuilt => self.collapse(self.built.clone()),
            Command::Kept => self.kept(),
        };
        match done {
            Ok(()) => (),
            Err(No::Refused(number)) => self.line(format_args!("{} refused {number}", name(command))),
            Err(No::Unasked) => self.line(format_args!("{} unasked", name(command))),
        }
    }

    /// Performs a command for what it changes alone: network, minute, settings, journal, or that a slice was cut for it.
    pub fn perform_silently(&mut self, command: &Command) {
        if matches!(name(command), "" | "open" | "feed" | "strike") || !self.shorts.is_empty() {
            self.perform(command);
            self.out.clear();
        }
    }

    fn set_network(&mut self, network: &Network) -> Result<(), No> {
        self.network = network.clone();
        self.adopt_network();
        Ok(())
    }

    /// Has the core work on the whole network, if it passes.
    fn adopt_network(&mut self) {
        if checks::network(&self.network).is_none() {
            self.core.adopt(&self.network);
        }
    }

    fn set_windows(&mut self, relation: usize, pairs: &[(u32, u32)]) -> Result<(), No> {
        self.network.relations[relation].windows.store(pairs);
        self.adopt_network();
        Ok(())
    }

    fn set_minute(&mut self, minute: u32) -> Result<(), No> {
        self.minute = minute;
        Ok(())
    }

    fn set_settings(&mut self, settings: Settings) -> Result<(), No> {
        self.settings = settings;
        Ok(())
    }

    fn poke(&mut self, at: usize, word: u32) -> Result<(), No> {
        if let Some(place) = self.journal.get_mut(at) {
            *place = word;
        }
        Ok(())
    }

    /// The journal is a slice of just these words.
    fn load(&mut self, words: &[u32]) -> Result<(), No> {
        self.journal = words.to_vec();
        self.lost = false;
        Ok(())
    }

    fn short(&mut self, slice: &str, count: usize) -> Result<(), No> {
        self.shorts.insert(slice.to_string(), count);
        Ok(())
    }

    /// How many entries of a slice the call gets.
    fn entries(&mut self, slice: &str, count: usize) -> usize {
        self.shorts.remove(slice).map_or(count, |short| short.min(count))
    }

    /// The one count of several slices that have each `per` entries for one of `count`; none if they differ.
    fn common(&mut self, slices: &[(&str, usize)], count: usize) -> Option<usize> {
        let counts: Vec<usize> = slices.iter().map(|(slice, per)| self.entries(slice, per * count)).collect();
        let common = counts[0] / slices[0].1;
        counts.iter().zip(slices).all(|(&entries, (_, per))| entries == per * common).then_some(common)
    }

    /// Whether a call on so many relations gets windows: of all of them, or, where the three slices are empty, of none; refused by check 1 else.
    fn takes_windows(&mut self, relations: Option<usize>) -> Option<bool> {
        let fields = [("window_counts", 1), ("window_firsts", MOST_WINDOWS), ("window_lasts", MOST_WINDOWS)];
        let counts = self.common(&fields, self.network.relations.len())?;
        (counts == 0 || Some(counts) == relations).then_some(counts > 0)
    }

    /// The network that the call gets, through checks 1 to 5 and 16.
    fn take_network(&mut self) -> Result<Network, No> {
        let relation_fields = [("from", 1), ("to", 1), ("from_side", 1), ("to_side", 1), ("forward", 1), ("backward", 1)];
        let elements = self.common(&[("lengths", 1), ("headings", 4), ("flags", 1)], self.network.elements.len());
        let relations = self.common(&relation_fields, self.network.relations.len());
        let windows = self.takes_windows(relations);
        let (Some(elements), Some(relations), Some(windows)) = (elements, relations, windows) else {
            return Err(No::Refused(1));
        };
        let mut network = self.network.clone();
        network.elements.truncate(elements);
        network.relations.truncate(relations);
        if !windows {
            network.relations.iter_mut().for_each(|relation| relation.windows = Windows::default());
        }
        refuse(checks::network(&network))?;
        Ok(network)
    }

    /// The network that the next call gets; none if it is refused.
    pub fn next_network(&mut self) -> Option<Network> {
        let shorts = self.shorts.clone();
        let network = self.take_network().ok();
        self.shorts = shorts;
        network
    }

    /// Has the core work on the network that a call got; the whole one is adopted again behind it.
    fn on<T>(&mut self, network: &Network, call: impl FnOnce(&mut Self) -> T) -> T {
        if !is_cut(&self.network, network) {
            return call(self);
        }
        self.core.adopt(network);
        let result = call(self);
        self.adopt_network();
        result
    }

    /// The standing rows, by check 7.
    fn rows(&self) -> Result<Vec<Row>, No> {
        if self.lost {
            return Err(No::Unasked);
        }
        read(&self.journal).ok_or(No::Refused(7))
    }

    fn new_journal(&mut self, words: usize) -> Result<(), No> {
        self.journal = vec![u32::MAX; words];
        self.open()
    }

    fn open(&mut self) -> Result<(), No> {
        refuse_if(self.journal.is_empty(), 12)?;
        self.journal[0] = tag(5, 1);
        self.lost = false;
        self.line(format_args!("open ok"));
        Ok(())
    }

    /// The fix that the call gets; none if its fields are of unequal count.
    fn take_fix(&mut self, fix: &Fix) -> Option<Fix> {
        let distances = self.entries("distances", fix.distances.len());
        let fields = [("elements", 1), ("intrinsics", 1), ("near", 1), ("raw_logs", 1)];
        let count = self.common(&fields, fix.candidates.len())?;
        let (candidates, distances) = (fix.candidates[..count].to_vec(), fix.distances[..distances].to_vec());
        Some(Fix { minute: self.minute, candidates, distances })
    }

    fn feed(&mut self, fix: &Fix) -> Result<(), No> {
        let (network, fix) = (self.take_network(), self.take_fix(fix));
        let network = network?;
        refuse(checks::settings(self.settings))?;
        let rows = self.rows()?;
        let fix = fix.ok_or(No::Refused(8))?;
        let at = used(&self.journal).unwrap();
        refuse(checks::fix(&fix, &rows, network.elements.len(), self.journal.len() - at))?;
        let settings = self.settings;
        match self.on(&network, |session| session.core.row(settings, &rows, &fix)) {
            Ok(cells) => self.store(at, &Row { at, fix, cells }.words(place(&rows))),
            Err(Unasked) => self.lost = true,
        }
        self.line(format_args!("feed ok"));
        Ok(())
    }

    fn store(&mut self, at: usize, record: &[u32]) {
        self.journal[at..at + record.len()].copy_from_slice(record);
        self.journal[0] = tag(5, at + record.len());
    }

    fn strike(&mut self, count: usize) -> Result<(), No> {
        let rows = self.rows()?;
        refuse_if(count > rows.len(), 13)?;
        let kept = rows[..rows.len() - count].iter().map(|row| checks::record_length(&row.fix)).sum::<usize>();
        self.journal[0] = tag(5, 1 + kept);
        self.line(format_args!("strike ok"));
        Ok(())
    }

    fn words(&mut self) -> Result<(), No> {
        if self.lost {
            return Err(No::Unasked);
        }
        let words = self.journal[..used(&self.journal).unwrap_or(0)].to_vec();
        self.line(format_args!("words {}", words.len()));
        for word in words {
            self.line(format_args!("{word:08X}"));
        }
        Ok(())
    }

    fn replay(&mut self) -> Result<(), No> {
        let network = self.take_network()?;
        refuse(checks::settings(self.settings))?;
        let rows = self.rows()?;
        let elements = network.elements.len();
        refuse(checks::standing(&rows, elements))?;
        match self.on(&network, |session| session.feed_again(&rows, elements))? {
            None => self.line(format_args!("replay clean")),
            Some(row) => self.line(format_args!("replay row {row}")),
        }
        Ok(())
    }

    /// Feeds the fixes of the standing rows anew, behind none at first: the number of the first whose record comes out otherwise than it stands.
    fn feed_again(&mut self, rows: &[Row], elements: usize) -> Result<Option<usize>, Unasked> {
        let all = self.core.all_rows(self.settings, rows).ok();
        let mut fed: Vec<Row> = Vec::new();
        for (number, Row { at, fix, .. }) in rows.iter().enumerate() {
            assert_eq!(checks::fix(fix, &fed, elements, usize::MAX), None, "the fix of row {number} is refused");
            let cells = match &all {
                Some(all) => all[number].clone(),
                None => self.core.row(self.settings, &fed, fix)?,
            };
            let again = Row { at: *at, fix: fix.clone(), cells };
            let record = again.words(place(&fed));
            if record != self.journal[*at..*at + record.len()] {
                return Ok(Some(number));
            }
            fed.push(again);
        }
        Ok(None)
    }

    fn close(&mut self) -> Result<(), No> {
        let room = self.entries("answer", usize::MAX);
        let rows = self.rows()?;
        let Some(path) = self.core.close(self.settings, &rows)? else {
            self.line(format_args!("close none"));
            return Ok(());
        };
        refuse_if(path.states.len() > room, 15)?;
        self.line(format_args!("close {} {}", bits(path.score), path.states.len()));
        for (row, candidate) in path.states {
            self.line(format_args!("at {row} {candidate}"));
        }
        Ok(())
    }

    fn row(&mut self, row: usize) -> Result<(), No> {
        let (room, distances) = (self.entries("answer", usize::MAX), self.entries("distances", usize::MAX));
        let Row { fix, cells, .. } = self.rows()?.get(row).cloned().ok_or(No::Refused(13))?;
        refuse_if(cells.len() > room || fix.distances.len() > distances, 15)?;
        self.line(format_args!("row {} {} {}", fix.candidates.len(), fix.predecessors(), fix.minute));
        for (c, cell) in fix.candidates.iter().zip(cells) {
            let parent = cell.parent.unwrap_or(31);
            let (intrinsic, raw_log, score) = (bits(c.intrinsic), bits(c.raw_log), bits(cell.score));
            self.line(format_args!("candidate {} {intrinsic} {} {raw_log} {parent} {score}", c.element, c.near));
        }
        for distance in fix.distances {
            self.line(format_args!("distance {}", bits(distance)));
        }
        Ok(())
    }

    fn steps(&mut self, row: usize) -> Result<(), No> {
        let (network, room) = (self.take_network(), self.entries("answer", usize::MAX));
        let network = network?;
        refuse(checks::settings(self.settings))?;
        let rows = self.rows()?;
        refuse(checks::standing(&rows, network.elements.len()))?;
        refuse_if(row >= rows.len(), 13)?;
        let settings = self.settings;
        let steps = self.on(&network, |session| session.core.steps(settings, &rows, row))?;
        refuse_if(steps.len() > room, 15)?;
        self.line(format_args!("steps {}", steps.len()));
        for Step { before, its, row, own, score } in steps {
            self.line(format_args!("step {before} {its} {row} {own} {}", bits(score)));
        }
        Ok(())
    }

    fn route(&mut self, from: Side, to: Side) -> Result<(), No> {
        let (network, room) = (self.take_network(), self.entries("answer", usize::MAX));
        let minute = self.minute;
        let route = self.on(&network?, |session| session.core.route(minute, from, to));
        let Some(Route { cost, states }) = route else {
            self.line(format_args!("route none"));
            return Ok(());
        };
        refuse_if(states.len() > room, 15)?;
        let listed: Vec<String> = states.iter().map(u32::to_string).collect();
        self.line(format_args!("route {} {}\n{}", bits(cost), states.len(), listed.join(" ")));
        Ok(())
    }

    fn routes(&mut self) -> Result<(), No> {
        for (from, to) in side_pairs(self.network.elements.len()) {
            self.perform(&Command::Route(from, to));
        }
        Ok(())
    }

    fn triple(&mut self, elements: [u32; 3]) -> Result<(), No> {
        let network = self.take_network()?;
        let minute = self.minute;
        let consistent = self.on(&network, |session| session.core.triple(minute, elements));
        self.line(format_args!("triple {}", if consistent { "yes" } else { "no" }));
        Ok(())
    }

    fn list_segments(&mut self, segments: &[Segment]) {
        for Segment { element, start, end, first, last } in segments {
            self.line(format_args!("segment {element} {} {} {first} {last}", bits(*start), bits(*end)));
        }
    }

    fn build(&mut self) -> Result<Vec<Segment>, No> {
        let (network, room) = (self.take_network(), self.entries("answer", usize::MAX));
        let network = network?;
        let rows = self.rows()?;
        refuse(checks::standing(&rows, network.elements.len()))?;
        let settings = self.settings;
        let segments = self.on(&network, |session| session.core.segments(settings, &rows))?;
        refuse_if(segments.len() > room, 15)?;
        Ok(segments)
    }

    fn segments(&mut self) -> Result<(), No> {
        let built = self.build();
        if matches!(built, Err(No::Unasked)) {
            self.built = None;
        }
        let segments = built?;
        self.line(format_args!("segments {}", segments.len()));
        self.list_segments(&segments);
        self.built = Some(segments);
        Ok(())
    }

    fn collapse(&mut self, segments: Option<Vec<Segment>>) -> Result<(), No> {
        // six words a decision
        let room = self.entries("decisions", usize::MAX) / 6;
        let segments = segments.ok_or(No::Unasked)?;
        refuse(checks::segments(&segments))?;
        refuse_if(segments.len() > room, 15)?;
        let (kept, decisions) = self.core.collapse(&segments);
        self.line(format_args!("collapse {} {}", kept.len(), decisions.len()));
        self.list_segments(&kept);
        for Decision { element, span, removed } in decisions {
            let names: String = removed.iter().map(|element| format!(" {element}")).collect();
            self.line(format_args!("decision {element} {span} {}{names}", removed.len()));
        }
        self.built = Some(kept);
        Ok(())
    }

    /// What every call promises.
    fn kept(&mut self) -> Result<(), No> {
        self.line(format_args!("kept yes"));
        Ok(())
    }

    /// The standing rows, if they are known.
    pub fn standing(&self) -> Vec<Row> {
        self.rows().unwrap_or_default()
    }

    pub fn journal(&self) -> &[u32] {
        &self.journal
    }
}

/// Whether a network that a call got lacks elements, relations or windows of the whole one.
fn is_cut(whole: &Network, network: &Network) -> bool {
    let windows = |network: &Network| network.relations.iter().map(|relation| relation.windows).collect::<Vec<_>>();
    network.elements.len() != whole.elements.len() || windows(network) != windows(whole)
}

/// Every known side to every known side, in order of element and side.
pub fn side_pairs(elements: usize) -> impl Iterator<Item = (Side, Side)> {
    let nodes = 2 * elements as u32;
    let side = |node: u32| Side { element: node / 2, side: node % 2 };
    (0..nodes).flat_map(move |a| (0..nodes).map(move |b| (side(a), side(b))))
}

/// The word that a command's answer begins with.
pub fn name(command: &Command) -> &'static str {
    match command {
        Command::Open | Command::Journal(_) => "open",
        Command::Feed(_) => "feed",
        Command::Strike(_) => "strike",
        Command::Words => "words",
        Command::Replay => "replay",
        Command::Close => "close",
        Command::Row(_) => "row",
        Command::Steps(_) => "steps",
        Command::Route(..) => "route",
        Command::Routes => "routes",
        Command::Triple(_) => "triple",
        Command::Segments => "segments",
        Command::Collapse(_) | Command::CollapseBuilt => "collapse",
        Command::Kept => "kept",
        Command::Network(_) | Command::Windows(..) | Command::Minute(_) | Command::Settings(_) => "",
        Command::Poke(..) | Command::Load(_) | Command::Short(..) => "",
    }
}
