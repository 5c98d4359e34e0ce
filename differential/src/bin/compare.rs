//! compare CASES ONE OTHER [strict]: compares two answers to a case text, and counts.
//!
//! Everything is compared as text, which is in bits. Only where more than one walk has the least cost may two routes differ, if both are
//! walks of that cost, or one is and the other is longer than a buffer that was cut short; and then the segments whose bridges rest on such
//! routes, and what comes of collapsing them. `strict` allows neither. An answer that says `unasked` is passed over.

use differential::document::Document;
use differential::language::{Command, Network, Side, Words};
use differential::routes::Route;
use differential::segments::rests_on_single_routes;
use differential::session::{name, side_pairs, Session};
use std::collections::BTreeMap;
use std::str::Lines;

/// One program's answers.
struct Answers<'a> {
    lines: Lines<'a>,
}

impl<'a> Answers<'a> {
    fn new(text: &'a str) -> Self {
        Answers { lines: text.lines() }
    }

    fn take(&mut self, count: usize) -> Vec<&'a str> {
        self.lines.by_ref().take(count).collect()
    }

    /// The next answer: its first line tells how many follow.
    fn block(&mut self) -> Vec<&'a str> {
        let mut block = self.take(1);
        let words: Vec<&str> = block.first().map_or(Vec::new(), |line| line.split(' ').collect());
        let number = |at: usize| words.get(at).and_then(|word| word.parse::<usize>().ok()).unwrap_or(0);
        let follow = match words.first() {
            _ if words.len() < 2 || matches!(words[1], "refused" | "none" | "unasked") => 0,
            Some(&"route") => 1,
            Some(&"close") => number(2),
            Some(&"row") => number(1) + number(1) * number(2),
            Some(&"collapse") => number(1) + number(2),
            Some(&("steps" | "segments" | "words")) => number(1),
            _ => 0,
        };
        block.extend(self.take(follow));
        block
    }
}

fn route_of(block: &[&str]) -> Option<Route> {
    let cost = u64::from_str_radix(block.first()?.split(' ').nth(1)?, 16).ok()?;
    let states = block.get(1)?.split(' ').map(|word| word.parse().ok()).collect::<Option<_>>()?;
    Some(Route { cost: f64::from_bits(cost), states })
}

/// Where the cases lead by document 01, both answers, and whether the lists held differ, by licence or by being unasked.
struct Comparison<'a> {
    session: Session<Document>,
    one: Answers<'a>,
    other: Answers<'a>,
    strict: bool,
    lists_differ: bool,
    counts: BTreeMap<String, usize>,
    shown: usize,
}

impl Comparison<'_> {
    fn count(&mut self, what: &str) {
        *self.counts.entry(what.to_string()).or_default() += 1;
    }

    fn differs(&mut self, case: &str, one: &[&str], other: &[&str]) {
        self.count("DIFFERENT");
        self.shown += 1;
        if self.shown <= 3 {
            println!("--- case\n{case}\n--- one\n{}\n--- other\n{}", one.join("\n"), other.join("\n"));
        }
    }

    /// Whether two different answers are walks of the least cost, of which there are several. They may differ in length: where the buffer is
    /// short, the longer one is refused.
    fn other_walk(&mut self, from: Side, to: Side, one: &[&str], other: &[&str]) -> bool {
        let minute = self.session.minute;
        let Some(mut document) = self.asked() else {
            return false;
        };
        let routes = document.routes_at(minute);
        let Some(least) = routes.cost(from, to) else {
            return false;
        };
        let (one_route, other_route) = (route_of(one), route_of(other));
        let fair = |block: &[&str], route: &Option<Route>| match route {
            Some(route) => route.cost.to_bits() == least.to_bits() && routes.is_walk(from, to, route),
            None => block == ["route refused 15"],
        };
        let both_fair = fair(one, &one_route) && fair(other, &other_route);
        both_fair && (one_route.is_some() || other_route.is_some()) && !routes.is_single(from, to)
    }

    /// What answers the next call by document 01, on the network that it gets; none if that is refused.
    fn asked(&mut self) -> Option<Document> {
        self.session.next_network().map(|network| Document::new(&network))
    }

    fn route(&mut self, case: &str, from: Side, to: Side) {
        let (one, other) = (self.one.block(), self.other.block());
        if one == other {
            self.count(&kind(&Command::Route(from, to), &one));
        } else if !self.strict && self.other_walk(from, to, &one, &other) {
            self.count("routes: another walk of the same cost");
        } else {
            self.differs(case, &one, &other);
        }
    }

    /// Any other answer, alike as text unless `licence` says that it may differ.
    fn plain(&mut self, case: &str, command: &Command, licence: impl FnOnce(&mut Self) -> bool) {
        let (one, other) = (self.one.block(), self.other.block());
        let says = |block: &[&str], word: &str| block.first().is_some_and(|line| line.contains(word));
        let same = one == other;
        let answers_list = matches!(name(command), "segments" | "collapse");
        if answers_list && !(same && says(&one, " refused ")) {
            self.lists_differ = !same;
        }
        if same || says(&one, " unasked") {
            self.count(&kind(command, &one));
        } else if says(&other, " unasked") {
            self.count(&kind(command, &other));
        } else if !self.strict && licence(self) {
            self.count(&format!("{}: on another walk of the same cost", plural(command)));
        } else {
            self.differs(case, &one, &other);
        }
    }

    fn perform(&mut self, case: &str, command: &Command) {
        match command {
            _ if name(command).is_empty() => (),
            Command::Route(from, to) => self.route(case, *from, *to),
            Command::Routes => {
                for (from, to) in side_pairs(self.session.network.elements.len()) {
                    self.route(case, from, to);
                    self.session.perform_silently(&Command::Route(from, to));
                }
            }
            Command::Segments => self.plain(case, command, Self::on_several_walks),
            Command::CollapseBuilt => {
                let lists_differ = self.lists_differ;
                self.plain(case, command, |_| lists_differ);
            }
            _ => self.plain(case, command, |_| false),
        }
        self.session.perform_silently(command);
    }

    /// Whether a bridge of the standing path rests on one of several least walks.
    fn on_several_walks(&mut self) -> bool {
        let rows = self.session.standing();
        self.asked().is_some_and(|mut document| !rests_on_single_routes(&mut document, &rows))
    }
}

/// What an answer counts as: calls that are refused or not asked are counted apart, replays by what they tell.
fn kind(command: &Command, block: &[&str]) -> String {
    let told = block.first().and_then(|line| line.split(' ').nth(1)).unwrap_or("");
    match (command, told) {
        (Command::Replay, _) => format!("replays: {told}"),
        (_, "refused" | "unasked") => told.to_string(),
        _ => plural(command).to_string(),
    }
}

fn plural(command: &Command) -> &'static str {
    match command {
        Command::Journal(_) => "drives",
        Command::Open => "openings",
        Command::Feed(_) => "fixes",
        Command::Strike(_) => "strikes",
        Command::Words => "journals in words",
        Command::Close => "paths and scores",
        Command::Row(_) => "rows",
        Command::Steps(_) => "rows' steps",
        Command::Route(..) => "routes",
        Command::Triple(_) => "triples",
        Command::Segments => "lists of segments",
        Command::Collapse(_) | Command::CollapseBuilt => "collapsed lists",
        _ => "others",
    }
}

fn main() {
    let arguments: Vec<String> = std::env::args().skip(1).collect();
    let read = |at: usize| std::fs::read_to_string(&arguments[at]).expect("a file to compare");
    let (cases, one, other) = (read(0), read(1), read(2));
    let mut comparison = Comparison {
        session: Session::new(Document::new(&Network::default())),
        one: Answers::new(&one),
        other: Answers::new(&other),
        strict: arguments.get(3).is_some_and(|word| word == "strict"),
        lists_differ: false,
        counts: BTreeMap::new(),
        shown: 0,
    };
    let mut words = Words::new(&cases);
    let mut first = 0;
    let mut place = 0;
    while let Ok(Some(command)) = words.command() {
        first = if matches!(command, Command::Network(_) | Command::Collapse(_)) { place } else { first };
        comparison.perform(cases[first..words.place()].trim(), &command);
        place = words.place();
    }
    if comparison.one.block() != comparison.other.block() {
        comparison.count("DIFFERENT at the end");
    }
    for (kind, count) in &comparison.counts {
        println!("{count} {kind}");
    }
}
