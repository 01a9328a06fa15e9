//! Logs: what a recorder writes of a run, and a log of any length read field by field.

use std::io::{self, BufReader, Read};

use crate::ring::{StationNumber, Ticks, Visit};
use crate::rules::{require, Entry, MarkEntry, Plan, Refusal, VisitEntry};
use crate::sheet::{end_field, record_field, write_plan, Passage, Row};
use crate::text::{Answer, Call};

/// A recorder's counter has 32 bits and runs past its top to 0. It is derived from the clock: at
/// some time it showed some number.
#[derive(Clone, Copy, Debug, PartialEq, Eq)]
pub struct Counter {
    pub shown: u32,
    pub at: u64,
}

impl Counter {
    /// What the program's recorder has: 0 when the ring is opened.
    pub const ZERO: Counter = Counter { shown: 0, at: 0 };

    /// What the counter shows at a time; before `at` it ran to there.
    fn at(&self, time: Ticks) -> u32 {
        let run = i128::from(time) - i128::from(self.at);
        (i128::from(self.shown) + run).rem_euclid(1 << 32) as u32
    }

    /// The entry of an accepted visit.
    pub fn entry(&self, visit: &Visit) -> Entry {
        Entry::Visit(VisitEntry {
            station: visit.station.0 as u8,
            start: self.at(visit.start),
            limit: visit.limit as u32,
            synchronous: visit.synchronous as u32,
            asynchronous: visit.asynchronous as u32,
        })
    }
}

/// What a recorder notes of a call and its answer: each accepted visit, and each accepted marking
/// and unmarking, one that changed nothing too.
pub fn noted(call: &Call, answer: &Result<Answer, Refusal>, counter: Counter) -> Option<Entry> {
    let mark = |station: &StationNumber, mark| MarkEntry { station: station.0 as u8, mark };
    match (call, answer) {
        (_, Ok(Answer::Visited(visit))) => Some(counter.entry(visit)),
        (Call::Mark(station), Ok(_)) => Some(Entry::Mark(mark(station, 1))),
        (Call::Unmark(station), Ok(_)) => Some(Entry::Mark(mark(station, 0))),
        _ => None,
    }
}

/// The bytes of a plan's fields, which a log begins with, or number 2, 4, 5 or 7.
pub fn plan_fields(plan: &Plan) -> Result<Vec<u8>, Refusal> {
    let mut bytes = write_plan(plan, usize::MAX)?;
    bytes.truncate(bytes.len() - end_field().len());
    Ok(bytes)
}

/// A log in a buffer of so many bytes. It can always be ended.
pub struct Recorder {
    room: usize,
    bytes: Vec<u8>,
}

impl Recorder {
    /// The log of a plan, or number 2, 4, 5, 7 or 14.
    pub fn begin(plan: &Plan, room: usize) -> Result<Recorder, Refusal> {
        let bytes = plan_fields(plan)?;
        let recorder = Recorder { room, bytes };
        require(recorder.has_room(0), Refusal::NoRoom)?;
        Ok(recorder)
    }

    /// Whether so many bytes and the end fit.
    fn has_room(&self, more: usize) -> bool {
        self.bytes.len() + more + end_field().len() <= self.room
    }

    /// Adds a record, or gives number 14.
    pub fn add(&mut self, entry: &Entry) -> Result<(), Refusal> {
        let field = record_field(entry);
        require(self.has_room(field.len()), Refusal::NoRoom)?;
        self.bytes.extend(field);
        Ok(())
    }

    /// The log.
    pub fn end(self) -> Vec<u8> {
        [self.bytes, end_field()].concat()
    }
}

/// The log of a plan and of any records, unjudged as to room.
pub fn log_of(plan: &Plan, entries: &[Entry]) -> Result<Vec<u8>, Refusal> {
    let records: Vec<Vec<u8>> = entries.iter().map(record_field).collect();
    Ok([plan_fields(plan)?, records.concat(), end_field()].concat())
}

/// A sheet or log read field by field, in memory that does not grow with its records.
pub struct Stream<R> {
    input: BufReader<R>,
    passage: Passage,
}

/// What a stream came to.
pub enum Passed {
    /// A visit or a mark; what is before the records is whole.
    Record(Entry),
    /// The end, with nothing behind it.
    End,
}

impl<R: Read> Stream<R> {
    pub fn new(input: R, table: &'static [Row]) -> Stream<R> {
        Stream { input: BufReader::new(input), passage: Passage::new(table) }
    }

    pub fn passage(&self) -> &Passage {
        &self.passage
    }

    /// Goes on to the next record or to the end; or number 1, 2 or 3, the first fault.
    pub fn pass(&mut self) -> io::Result<Result<Passed, Refusal>> {
        while !self.passage.is_done() {
            if let Err(refusal) = self.pass_field()? {
                return Ok(Err(refusal));
            }
            if let Some(entry) = self.passage.contents.entries.pop() {
                return Ok(Ok(Passed::Record(entry)));
            }
        }
        let behind = self.filled(&mut [0])?;
        Ok(require(!behind, Refusal::TrailingByte).map(|()| Passed::End))
    }

    fn pass_field(&mut self) -> io::Result<Result<(), Refusal>> {
        let (mut head, mut body) = ([0; 3], [0; 17]);
        if !self.filled(&mut head)? {
            return Ok(Err(Refusal::EndsEarly));
        }
        let row = match self.passage.row(&head) {
            Ok(row) => row,
            Err(refusal) => return Ok(Err(refusal)),
        };
        if !self.filled(&mut body[..row.length])? {
            return Ok(Err(Refusal::EndsEarly));
        }
        self.passage.take(row, &body[..row.length]);
        Ok(Ok(()))
    }

    /// Fills the bytes from the input; false if it has fewer.
    fn filled(&mut self, bytes: &mut [u8]) -> io::Result<bool> {
        match self.input.read_exact(bytes) {
            Err(error) if error.kind() == io::ErrorKind::UnexpectedEof => Ok(false),
            read => read.map(|()| true),
        }
    }
}
