//! The case language: words in, commands out.

/// A network as document 01 has it, with document 02's windows (K4). A flag is true unless 0.
#[derive(Debug, Clone, Default)]
pub struct Network {
    pub elements: Vec<Element>,
    pub relations: Vec<Relation>,
}

impl Network {
    /// The numbers of the relations that are shut at a minute.
    pub fn shut_at(&self, minute: u32) -> Vec<usize> {
        (0..self.relations.len()).filter(|&number| self.relations[number].is_shut(minute)).collect()
    }
}

/// Headings: out at side 0, out at side 1, in at side 0, in at side 1.
#[derive(Debug, Clone, Copy)]
pub struct Element {
    pub length: f64,
    pub headings: [f64; 4],
    pub flag: u32,
}

#[derive(Debug, Clone, Copy)]
pub struct Relation {
    pub from: u32,
    pub to: u32,
    pub from_side: u32,
    pub to_side: u32,
    pub forward: u32,
    pub backward: u32,
    pub windows: Windows,
}

impl Relation {
    /// Both ways: from a window's first minute on, until its last, at which it is open again.
    pub fn is_shut(&self, minute: u32) -> bool {
        self.windows.counted().iter().any(|&(first, last)| first <= minute && minute < last)
    }
}

/// A relation's windows: how many it has, and the first and last minute of each. Those past the count are not looked at.
#[derive(Debug, Clone, Copy, Default, PartialEq, Eq)]
pub struct Windows {
    pub count: u32,
    pub minutes: [(u32, u32); MOST_WINDOWS],
}

pub const MOST_WINDOWS: usize = 4;

impl Windows {
    pub fn counted(&self) -> &[(u32, u32)] {
        &self.minutes[..MOST_WINDOWS.min(self.count as usize)]
    }

    /// The count of these pairs becomes that of the windows; the first four are stored.
    pub fn store(&mut self, pairs: &[(u32, u32)]) {
        self.count = pairs.len() as u32;
        self.minutes.iter_mut().zip(pairs).for_each(|(stored, &pair)| *stored = pair);
    }
}

#[derive(Debug, Clone, Copy, PartialEq, Eq)]
pub struct Side {
    pub element: u32,
    pub side: u32,
}

#[derive(Debug, Clone, Copy, Default)]
pub struct Settings {
    pub beta: f64,
    pub scale: f64,
}

#[derive(Debug, Clone, Copy)]
pub struct Candidate {
    pub element: u32,
    pub intrinsic: f64,
    pub near: u32,
    pub raw_log: f64,
}

/// Distances: predecessor candidate outer, own candidate inner.
#[derive(Debug, Clone, Default)]
pub struct Fix {
    pub minute: u32,
    pub candidates: Vec<Candidate>,
    pub distances: Vec<f64>,
}

impl Fix {
    /// How many candidates the predecessor has, as the distances tell it.
    pub fn predecessors(&self) -> usize {
        self.distances.len().checked_div(self.candidates.len()).unwrap_or(0)
    }

    pub fn distance(&self, predecessor: usize, own: usize) -> f64 {
        self.distances[predecessor * self.candidates.len() + own]
    }
}

#[derive(Debug, Clone, Copy)]
pub struct Segment {
    pub element: u32,
    pub start: f64,
    pub end: f64,
    pub first: u32,
    pub last: u32,
}

#[derive(Debug, Clone)]
pub enum Command {
    Network(Network),
    Windows(u32, Vec<(u32, u32)>),
    Minute(u32),
    Settings(Settings),
    Journal(u32),
    Open,
    Feed(Fix),
    Strike(u32),
    Poke(u32, u32),
    Load(Vec<u32>),
    Short(String, u32),
    Words,
    Replay,
    Close,
    Row(u32),
    Steps(u32),
    Route(Side, Side),
    Routes,
    Triple([u32; 3]),
    Segments,
    Collapse(Vec<Segment>),
    CollapseBuilt,
    Kept,
}

/// Reading stopped at the word of this number, counted from 1.
#[derive(Debug, Clone, Copy, PartialEq, Eq)]
pub struct Stop(pub usize);

/// The words of a text, how many of them were read, and how many relations the network has that was read last.
pub struct Words<'a> {
    text: &'a str,
    at: usize,
    count: usize,
    relations: u32,
}

/// The most words of a journal that are taken in.
const MOST_WORDS: u32 = 700_000;

const SLICES: &str = "lengths headings flags from to from_side to_side forward backward elements intrinsics near raw_logs distances \
                      answer decisions window_counts window_firsts window_lasts";

impl<'a> Words<'a> {
    pub fn new(text: &'a str) -> Self {
        Words::behind(0, text)
    }

    /// A text that goes on where the network has so many relations.
    pub fn behind(relations: usize, text: &'a str) -> Self {
        Words { text, at: 0, count: 0, relations: relations as u32 }
    }

    /// Where in the text the next word is looked for.
    pub fn place(&self) -> usize {
        self.at
    }

    /// How many words were read.
    pub fn read(&self) -> usize {
        self.count
    }

    /// The next word, behind spaces, line ends and comments.
    fn next(&mut self) -> Option<&'a str> {
        self.count += 1;
        let bytes = self.text.as_bytes();
        let mut at = self.at;
        let mut comment = false;
        while at < bytes.len() && (comment || bytes[at].is_ascii_whitespace() || bytes[at] == b'#') {
            comment = bytes[at] == b'#' || comment && bytes[at] != b'\n';
            at += 1;
        }
        let rest = &bytes[at..];
        let length = rest.iter().position(|&b| b.is_ascii_whitespace() || b == b'#').unwrap_or(rest.len());
        self.at = at + length;
        (length > 0).then(|| &self.text[at..at + length])
    }

    fn stop(&self) -> Stop {
        Stop(self.count)
    }

    fn number(&mut self) -> Result<u32, Stop> {
        let word = self.next().unwrap_or("");
        let value = word.bytes().all(|b| b.is_ascii_digit()).then(|| word.parse().ok());
        value.flatten().ok_or(self.stop())
    }

    fn number_up_to(&mut self, limit: u32) -> Result<u32, Stop> {
        let value = self.number()?;
        (value <= limit).then_some(value).ok_or(self.stop())
    }

    fn float(&mut self) -> Result<f64, Stop> {
        let word = self.next().unwrap_or("");
        float_of(word).ok_or(self.stop())
    }

    fn element(&mut self) -> Result<Element, Stop> {
        let length = self.float()?;
        let headings = [self.float()?, self.float()?, self.float()?, self.float()?];
        Ok(Element { length, headings, flag: self.number()? })
    }

    fn relation(&mut self) -> Result<Relation, Stop> {
        let [from, to, from_side, to_side, forward, backward] = self.numbers()?;
        Ok(Relation { from, to, from_side, to_side, forward, backward, windows: Windows::default() })
    }

    fn numbers<const N: usize>(&mut self) -> Result<[u32; N], Stop> {
        let mut values = [0; N];
        for value in &mut values {
            *value = self.number()?;
        }
        Ok(values)
    }

    fn network(&mut self) -> Result<Network, Stop> {
        let elements = self.number_up_to(1100)?;
        let relations = self.number_up_to(4200)?;
        self.relations = relations;
        Ok(Network {
            elements: (0..elements).map(|_| self.element()).collect::<Result<_, _>>()?,
            relations: (0..relations).map(|_| self.relation()).collect::<Result<_, _>>()?,
        })
    }

    fn windows(&mut self) -> Result<Command, Stop> {
        let relation = self.number()?;
        if relation >= self.relations {
            return Err(self.stop());
        }
        let count = self.number_up_to(6)?;
        Ok(Command::Windows(relation, (0..count).map(|_| Ok((self.number()?, self.number()?))).collect::<Result<_, _>>()?))
    }

    fn candidate(&mut self) -> Result<Candidate, Stop> {
        Ok(Candidate { element: self.number()?, intrinsic: self.float()?, near: self.number()?, raw_log: self.float()? })
    }

    /// A fix; its minute is not among its words.
    fn fix(&mut self) -> Result<Fix, Stop> {
        let candidates = self.number_up_to(20)?;
        let distances = self.number_up_to(400)?;
        Ok(Fix {
            minute: 0,
            candidates: (0..candidates).map(|_| self.candidate()).collect::<Result<_, _>>()?,
            distances: (0..distances).map(|_| self.float()).collect::<Result<_, _>>()?,
        })
    }

    fn segment(&mut self) -> Result<Segment, Stop> {
        Ok(Segment {
            element: self.number()?,
            start: self.float()?,
            end: self.float()?,
            first: self.number()?,
            last: self.number()?,
        })
    }

    fn collapse(&mut self) -> Result<Command, Stop> {
        let word = self.next().unwrap_or("");
        if word == "built" {
            return Ok(Command::CollapseBuilt);
        }
        let count: u32 = word.parse().map_err(|_| self.stop())?;
        Ok(Command::Collapse((0..count).map(|_| self.segment()).collect::<Result<_, _>>()?))
    }

    /// A word of a journal: 8 digits.
    fn journal_word(&mut self) -> Result<u32, Stop> {
        let word = self.next().unwrap_or("");
        let value = (word.len() == 8 && word.bytes().all(is_hex_digit)).then(|| u32::from_str_radix(word, 16).ok());
        value.flatten().ok_or(self.stop())
    }

    fn poke(&mut self) -> Result<Command, Stop> {
        Ok(Command::Poke(self.number()?, self.journal_word()?))
    }

    fn load(&mut self) -> Result<Command, Stop> {
        let count = self.number_up_to(MOST_WORDS)?;
        Ok(Command::Load((0..count).map(|_| self.journal_word()).collect::<Result<_, _>>()?))
    }

    fn short(&mut self) -> Result<Command, Stop> {
        let name = self.next().unwrap_or("");
        if !SLICES.split_whitespace().any(|slice| slice == name) {
            return Err(self.stop());
        }
        Ok(Command::Short(name.to_string(), self.number()?))
    }

    fn side(&mut self) -> Result<Side, Stop> {
        Ok(Side { element: self.number()?, side: self.number()? })
    }

    /// The next command; none at the end of the text.
    pub fn command(&mut self) -> Result<Option<Command>, Stop> {
        let Some(word) = self.next() else {
            return Ok(None);
        };
        let command = match word {
            "network" => Command::Network(self.network()?),
            "windows" => self.windows()?,
            "minute" => Command::Minute(self.number()?),
            "settings" => Command::Settings(Settings { beta: self.float()?, scale: self.float()? }),
            "journal" => Command::Journal(self.number_up_to(MOST_WORDS)?),
            "open" => Command::Open,
            "feed" => Command::Feed(self.fix()?),
            "strike" => Command::Strike(self.number()?),
            "poke" => self.poke()?,
            "load" => self.load()?,
            "short" => self.short()?,
            "words" => Command::Words,
            "replay" => Command::Replay,
            "close" => Command::Close,
            "row" => Command::Row(self.number()?),
            "steps" => Command::Steps(self.number()?),
            "route" => Command::Route(self.side()?, self.side()?),
            "routes" => Command::Routes,
            "triple" => Command::Triple(self.numbers()?),
            "segments" => Command::Segments,
            "collapse" => self.collapse()?,
            "kept" => Command::Kept,
            _ => return Err(self.stop()),
        };
        Ok(Some(command))
    }
}

fn is_hex_digit(byte: u8) -> bool {
    byte.is_ascii_digit() || (b'A'..=b'F').contains(&byte)
}

/// A float from its 16 digits of bits or from a decimal.
fn float_of(word: &str) -> Option<f64> {
    let is_bits = word.len() == 16 && word.bytes().all(is_hex_digit);
    if is_bits {
        return u64::from_str_radix(word, 16).ok().map(f64::from_bits);
    }
    let (negative, size) = match word.strip_prefix('-') {
        Some(rest) => (true, rest),
        None => (false, word),
    };
    let value = if negative && size == "inf" { f64::INFINITY } else { decimal(size)? };
    Some(if negative { -value } else { value })
}

/// The digits as a whole number, divided once by a power of ten. At most 15 digits, on both sides of a point if there is one.
fn decimal(word: &str) -> Option<f64> {
    let (whole, fraction) = match word.split_once('.') {
        Some((_, "")) => return None,
        Some(parts) => parts,
        None => (word, ""),
    };
    let digits = format!("{whole}{fraction}");
    let fits = !whole.is_empty() && digits.len() <= 15 && digits.bytes().all(|b| b.is_ascii_digit());
    fits.then(|| digits.parse::<u64>().unwrap() as f64 / 10u64.pow(fraction.len() as u32) as f64)
}

/// A float's bits, 16 digits.
pub fn bits(value: f64) -> String {
    format!("{:016X}", value.to_bits())
}
