//! From text to sheets and logs. A log's bytes go out as its lines are read, in memory that does
//! not grow with them.

use std::io::{self, Read, Write};

use crate::lines::{Line, Lines};
use crate::notation::number;
use crate::rules::MOST_STATIONS;
use crate::rules::{header_number, require, Entry, MarkEntry, VisitEntry};
use crate::rules::{Head, Plan, Refusal, Request, Station};
use crate::sheet::{end_field, record_field, write_plan, write_request};
use crate::text::Fault;

/// Why a text makes no sheet, and a second line on it where there is one.
#[derive(Debug)]
pub struct Complaint {
    pub fault: Fault,
    pub reason: Option<String>,
}

/// Writes the bytes of the sheet or log that a text describes. A line that cannot be read comes
/// before every refusal. A fault behind the first record leaves a log without its end.
pub fn compose(text: impl Read, out: &mut impl Write) -> io::Result<Result<(), Complaint>> {
    let mut lines = Lines::new(text);
    let mut draft = Draft::default();
    let mut out_of_range = None;
    while let Some(line) = lines.next_line()? {
        match draft.take(&line.words()) {
            None => {
                let fault = Fault::Unreadable(line.number);
                return Ok(Err(Complaint { fault, reason: Some(unreadable(&line)) }));
            }
            Some(bytes) => out.write_all(&bytes)?,
        }
        out_of_range = out_of_range.or_else(|| ranged(&line));
    }
    match draft.end() {
        Ok(bytes) => out.write_all(&bytes).map(Ok),
        Err(refusal) => {
            let reason = out_of_range.filter(|_| refusal == Refusal::OutOfRange);
            Ok(Err(Complaint { fault: Fault::Refused(refusal), reason }))
        }
    }
}

/// Whether these words are a line.
fn reads(words: &[&[u8]]) -> bool {
    Draft::default().take(words).is_some()
}

/// Whether they begin one: some zeros behind them make it a line.
fn begins(words: &[&[u8]]) -> bool {
    (0..=5).any(|zeros| reads(&[words, &vec![&b"0"[..]; zeros]].concat()))
}

/// What was expected at the first word with which the words begin no line, or behind them all, and
/// what stands there.
fn unreadable(line: &Line) -> String {
    let words = line.words();
    let stuck = (0..words.len()).find(|&place| !begins(&words[..=place]));
    let place = stuck.unwrap_or(words.len());
    let takes = |word: &[u8]| begins(&[&words[..place], &[word]].concat());
    let expected = if place == 0 {
        "ttrt, mode, frame, grid, station, visit or mark".to_string()
    } else if takes(b"4294967295") {
        format!("number {place}, a whole number up to 4,294,967,295")
    } else if takes(b"255") {
        format!("number {place}, a whole number up to 255")
    } else {
        "the end of the line".to_string()
    };
    let found = match stuck {
        Some(place) => line.raw[place].iter().map(|&byte| sign(byte)).collect(),
        None => "the end of the line".to_string(),
    };
    format!("expected {expected}, found {found}")
}

fn sign(byte: u8) -> char {
    if byte.is_ascii_graphic() {
        char::from(byte)
    } else {
        '?'
    }
}

/// The first number of a line that no set may have, tried one by one in a set that is right.
fn ranged(line: &Line) -> Option<String> {
    let words = line.words();
    let numbers: Vec<u32> = words.iter().skip(1).filter_map(|word| number(word)).collect();
    let what = match (*words.first()?, &numbers[..]) {
        (b"ttrt", &[ttrt]) => {
            head_out(ttrt, None, None, None).then_some("TTRT is not in 1 to 1,000,000")
        }
        (b"mode", &[mode]) => head_out(9, Some(mode), None, None)
            .then_some("the mode is not in 2 to 3, leave the line out for 1"),
        (b"frame", &[frame]) => head_out(9, None, Some(frame), None)
            .then_some("F is not in 2 to 65,535, leave the line out for 1"),
        (b"grid", &[grid]) => head_out(9, None, None, Some(grid))
            .then_some("g is not in 2 to 1,000, leave the line out for 1"),
        (b"station", &[walk, longest, deadline, gap, ref rest @ ..]) => {
            let s = rest.first().copied().unwrap_or(0);
            [
                (station_out(walk, 1, 1, 1, 0), "w is not in 0 to 1,000,000"),
                (station_out(1, longest, 1, 1, 0), "C is not in 0 to 100,000,000"),
                (station_out(1, 1, deadline, 100_000_000, 0), "D is not in 1 to 100,000,000"),
                (station_out(1, 1, deadline, gap, 0), "P is not in D to 100,000,000"),
                (station_out(1, 1, 1, 1, s), "S is not in 0 to 1,000,000"),
            ]
            .into_iter()
            .find_map(|(out, what)| out.then_some(what))
        }
        _ => None,
    };
    what.map(|what| format!("line {}: {what}", line.number))
}

fn head_out(ttrt: u32, mode: Option<u32>, frame: Option<u32>, grid: Option<u32>) -> bool {
    let [mode, frame, grid] = [mode, frame, grid].map(header_number);
    let station = Station { walk: 1, longest: 1, deadline: 1, gap: 1 };
    is_out(Head { ttrt, mode, frame, grid }, station, 0)
}

fn station_out(walk: u32, longest: u32, deadline: u32, gap: u32, s: u32) -> bool {
    let [mode, frame, grid] = [None; 3].map(header_number);
    is_out(Head { ttrt: 9, mode, frame, grid }, Station { walk, longest, deadline, gap }, s)
}

/// Whether the plan of this one station has a number out of its range.
fn is_out(head: Head, station: Station, s: u32) -> bool {
    let plan = Plan { request: Request { head, stations: vec![station] }, allocation: vec![s] };
    write_plan(&plan, usize::MAX) == Err(Refusal::OutOfRange)
}

/// What the lines so far said. At most one station too many is kept, to be refused.
#[derive(Default)]
struct Draft {
    ttrt: Option<u32>,
    mode: Option<u32>,
    frame: Option<u32>,
    grid: Option<u32>,
    stations: Vec<Station>,
    allocation: Vec<u32>,
    misplaced: bool,
    /// What became of the plan, once a record stands behind it.
    plan: Option<Result<(), Refusal>>,
}

impl Draft {
    /// Takes one line's words, and gives the bytes that they let out; `None` if they cannot be read.
    fn take(&mut self, words: &[&[u8]]) -> Option<Vec<u8>> {
        match *words {
            [] => (),
            [b"ttrt", ttrt] => self.take_ttrt(number(ttrt)?),
            [b"mode", mode] => self.take_mode(number(mode)?),
            [b"frame", frame] => self.take_frame(number(frame)?),
            [b"grid", grid] => self.take_grid(number(grid)?),
            [b"station", ref numbers @ ..] => self.take_station(numbers)?,
            [b"visit", ref numbers @ ..] => return Some(self.take_record(&visit(numbers)?)),
            [b"mark", ref numbers @ ..] => return Some(self.take_record(&mark(numbers)?)),
            _ => return None,
        }
        Some(vec![])
    }

    /// `ttrt` stands once, before every station.
    fn take_ttrt(&mut self, ttrt: u32) {
        self.misplaced |= self.ttrt.is_some() || !self.stations.is_empty() || self.plan.is_some();
        self.ttrt = Some(ttrt);
    }

    /// Behind `ttrt` and before every station.
    fn in_head(&self) -> bool {
        self.ttrt.is_some() && self.stations.is_empty() && self.plan.is_none()
    }

    /// `mode` stands at most once, in the head and before `frame` and `grid`.
    fn take_mode(&mut self, mode: u32) {
        let behind = [self.mode, self.frame, self.grid].iter().any(Option::is_some);
        self.misplaced |= behind || !self.in_head();
        self.mode = Some(mode);
    }

    /// `frame` stands at most once, in the head and before `grid`.
    fn take_frame(&mut self, frame: u32) {
        self.misplaced |= self.frame.is_some() || self.grid.is_some() || !self.in_head();
        self.frame = Some(frame);
    }

    /// `grid` stands at most once, in the head.
    fn take_grid(&mut self, grid: u32) {
        self.misplaced |= self.grid.is_some() || !self.in_head();
        self.grid = Some(grid);
    }

    fn take_station(&mut self, words: &[&[u8]]) -> Option<()> {
        let numbers: Option<Vec<u32>> = words.iter().map(|word| number(word)).collect();
        let (station, s) = match numbers?[..] {
            [walk, longest, deadline, gap] => (Station { walk, longest, deadline, gap }, None),
            [walk, longest, deadline, gap, s] => {
                (Station { walk, longest, deadline, gap }, Some(s))
            }
            _ => return None,
        };
        self.misplaced |= self.plan.is_some();
        if self.stations.len() <= MOST_STATIONS {
            self.stations.push(station);
            self.allocation.extend(s);
        }
        Some(())
    }

    /// A record's field; before the first also the fields of the plan, if it is accepted.
    fn take_record(&mut self, entry: &Entry) -> Vec<u8> {
        let mut bytes = vec![];
        if self.plan.is_none() {
            let plan = self.plan_before_records();
            self.plan = Some(plan.map(|fields| bytes = fields));
        }
        if self.goes_out() {
            bytes.extend(record_field(entry));
        }
        bytes
    }

    /// Whether the bytes of a log still go out.
    fn goes_out(&self) -> bool {
        self.plan == Some(Ok(())) && !self.misplaced
    }

    /// What the lines before the stations say.
    fn head(&self) -> Result<Head, Refusal> {
        let ttrt = self.ttrt.ok_or(Refusal::WrongField)?;
        let [mode, frame, grid] = [self.mode, self.frame, self.grid].map(header_number);
        Ok(Head { ttrt, mode, frame, grid })
    }

    fn request(&self) -> Result<Request, Refusal> {
        require(!self.misplaced, Refusal::WrongField)?;
        Ok(Request { head: self.head()?, stations: self.stations.clone() })
    }

    /// Lines of both kinds leave fewer allocations than stations: they are refused for their count.
    fn plan_sheet(&self) -> Result<Vec<u8>, Refusal> {
        let request = self.request()?;
        write_plan(&Plan { request, allocation: self.allocation.clone() }, usize::MAX)
    }

    /// Stations without allocations are no plan either, and refused for their count too.
    fn plan_before_records(&self) -> Result<Vec<u8>, Refusal> {
        let mut bytes = self.plan_sheet()?;
        bytes.truncate(bytes.len() - end_field().len());
        Ok(bytes)
    }

    /// The last bytes: the end of a log, or the whole sheet.
    fn end(self) -> Result<Vec<u8>, Refusal> {
        require(!self.misplaced, Refusal::WrongField)?;
        match self.plan {
            Some(plan) => plan.map(|()| end_field()),
            None if self.allocation.is_empty() => write_request(&self.request()?, usize::MAX),
            None => self.plan_sheet(),
        }
    }
}

/// `STATION START LIMIT SYNC ASYNC`
fn visit(words: &[&[u8]]) -> Option<Entry> {
    let [station, start, limit, synchronous, asynchronous] = *words else {
        return None;
    };
    Some(Entry::Visit(VisitEntry {
        station: number(station)?,
        start: number(start)?,
        limit: number(limit)?,
        synchronous: number(synchronous)?,
        asynchronous: number(asynchronous)?,
    }))
}

/// `STATION MARK`
fn mark(words: &[&[u8]]) -> Option<Entry> {
    let [station, mark] = *words else {
        return None;
    };
    Some(Entry::Mark(MarkEntry { station: number(station)?, mark: number(mark)? }))
}
