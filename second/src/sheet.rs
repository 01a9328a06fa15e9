//! Request and plan sheets and logs: a reader driven by a table of the fields allowed at each
//! place, and a writer.

use crate::planted::Planted;
use crate::rules::MOST_STATIONS;
use crate::rules::{header_number, require, Entry, MarkEntry, VisitEntry};
use crate::rules::{Head, Plan, Refusal, Request, Station};

const TTRT_TAG: u8 = 1;
pub const STATION_TAG: u8 = 2;
pub const ALLOCATION_TAG: u8 = 3;
const MODE_TAG: u8 = 4;
pub const FRAME_TAG: u8 = 5;
pub const GRID_TAG: u8 = 6;
pub const VISIT_TAG: u8 = 16;
pub const MARK_TAG: u8 = 17;
const END_TAG: u8 = 255;

/// What TTRT, the mode, F, g and the end take on a sheet.
const AROUND_STATIONS: usize = 7 + 4 + 7 + 7 + 3;
/// The most bytes that a program needs to read of a request sheet: the longest, and one more.
pub const REQUEST_READ: usize = AROUND_STATIONS + 19 * MOST_STATIONS + 1;
/// The same of a plan sheet.
pub const PLAN_READ: usize = AROUND_STATIONS + 26 * MOST_STATIONS + 1;

/// A sheet of either kind.
#[derive(Clone, Debug, PartialEq, Eq)]
pub enum Sheet {
    Request(Request),
    Plan(Plan),
}

/// Where the reader stands between two fields.
#[derive(Clone, Copy, PartialEq, Eq)]
enum Place {
    Start,
    /// Behind TTRT.
    Head,
    /// Behind the mode.
    Moded,
    /// Behind F.
    Framed,
    Stations,
    Allocations,
    /// Behind a visit or a mark.
    Records,
    Done,
}

/// What the fields so far held.
#[derive(Default)]
pub struct Contents {
    pub ttrt: u32,
    pub mode: Option<u32>,
    pub frame: Option<u32>,
    pub grid: Option<u32>,
    pub stations: Vec<Station>,
    pub allocation: Vec<u32>,
    pub entries: Vec<Entry>,
}

impl Contents {
    fn head(&self) -> Head {
        let [mode, frame, grid] = [self.mode, self.frame, self.grid].map(header_number);
        Head { ttrt: self.ttrt, mode, frame, grid }
    }

    /// The set, unjudged.
    pub fn request(&self) -> Request {
        Request { head: self.head(), stations: self.stations.clone() }
    }

    /// The plan, unjudged.
    pub fn plan(&self) -> Plan {
        Plan { request: self.request(), allocation: self.allocation.clone() }
    }

    fn all_allocated(&self) -> bool {
        self.allocation.len() == self.stations.len()
    }

    /// The plan before any record, judged.
    pub fn judged_plan(&self) -> Result<Plan, Refusal> {
        self.judged_plan_with(Planted::Nothing)
    }

    fn judged_plan_with(&self, planted: Planted) -> Result<Plan, Refusal> {
        let plan = self.plan();
        plan.judge_with(planted)?;
        Ok(plan)
    }

    /// The sheet before any record, judged: a request where it has no allocations.
    pub fn judged(&self) -> Result<Sheet, Refusal> {
        if self.allocation.is_empty() {
            let request = self.request();
            request.judge()?;
            return Ok(Sheet::Request(request));
        }
        self.judged_plan().map(Sheet::Plan)
    }
}

/// A field allowed at some places: its head, what must hold, what to keep of it, where it leads.
pub struct Row {
    at: &'static [Place],
    tag: u8,
    pub length: usize,
    when: fn(&Contents) -> bool,
    keep: fn(&mut Contents, &[u8]),
    then: Place,
}

const TTRT_FIELD: Row = Row {
    at: &[Place::Start],
    tag: TTRT_TAG,
    length: 4,
    when: |_| true,
    keep: |contents, body| contents.ttrt = number(body, 0),
    then: Place::Head,
};

const MODE_FIELD: Row = Row {
    at: &[Place::Head],
    tag: MODE_TAG,
    length: 1,
    when: |_| true,
    keep: |contents, body| contents.mode = Some(body[0].into()),
    then: Place::Moded,
};

const FRAME_FIELD: Row = Row {
    at: &[Place::Head, Place::Moded],
    tag: FRAME_TAG,
    length: 4,
    when: |_| true,
    keep: |contents, body| contents.frame = Some(number(body, 0)),
    then: Place::Framed,
};

const GRID_FIELD: Row = Row {
    at: &[Place::Head, Place::Moded, Place::Framed],
    tag: GRID_TAG,
    length: 4,
    when: |_| true,
    keep: |contents, body| contents.grid = Some(number(body, 0)),
    then: Place::Stations,
};

const STATION_FIELD: Row = Row {
    at: &[Place::Head, Place::Moded, Place::Framed, Place::Stations],
    tag: STATION_TAG,
    length: 16,
    when: |contents| contents.stations.len() < MOST_STATIONS,
    keep: |contents, body| contents.stations.push(station(body)),
    then: Place::Stations,
};

const REQUEST_END: Row = Row {
    at: &[Place::Stations],
    tag: END_TAG,
    length: 0,
    when: |contents| !contents.stations.is_empty(),
    keep: |_, _| (),
    then: Place::Done,
};

const FIRST_ALLOCATION: Row = Row {
    at: &[Place::Stations],
    tag: ALLOCATION_TAG,
    length: 4,
    when: |contents| !contents.stations.is_empty(),
    keep: |contents, body| contents.allocation.push(number(body, 0)),
    then: Place::Allocations,
};

const NEXT_ALLOCATION: Row = Row {
    at: &[Place::Allocations],
    tag: ALLOCATION_TAG,
    length: 4,
    when: |contents| !contents.all_allocated(),
    keep: |contents, body| contents.allocation.push(number(body, 0)),
    then: Place::Allocations,
};

const PLAN_END: Row = Row {
    at: &[Place::Allocations],
    tag: END_TAG,
    length: 0,
    when: Contents::all_allocated,
    keep: |_, _| (),
    then: Place::Done,
};

const VISIT: Row = Row {
    at: &[Place::Allocations, Place::Records],
    tag: VISIT_TAG,
    length: 17,
    when: Contents::all_allocated,
    keep: |contents, body| contents.entries.push(visit(body)),
    then: Place::Records,
};

const MARK: Row = Row {
    at: &[Place::Allocations, Place::Records],
    tag: MARK_TAG,
    length: 2,
    when: Contents::all_allocated,
    keep: |contents, body| contents.entries.push(mark(body)),
    then: Place::Records,
};

const LOG_END: Row = Row {
    at: &[Place::Records],
    tag: END_TAG,
    length: 0,
    when: |_| true,
    keep: |_, _| (),
    then: Place::Done,
};

pub const REQUEST_TABLE: &[Row] =
    &[TTRT_FIELD, MODE_FIELD, FRAME_FIELD, GRID_FIELD, STATION_FIELD, REQUEST_END];

pub const PLAN_TABLE: &[Row] = &[
    TTRT_FIELD,
    MODE_FIELD,
    FRAME_FIELD,
    GRID_FIELD,
    STATION_FIELD,
    FIRST_ALLOCATION,
    NEXT_ALLOCATION,
    PLAN_END,
];

/// A log without a record is a plan.
pub const LOG_TABLE: &[Row] = &[
    TTRT_FIELD,
    MODE_FIELD,
    FRAME_FIELD,
    GRID_FIELD,
    STATION_FIELD,
    FIRST_ALLOCATION,
    NEXT_ALLOCATION,
    PLAN_END,
    VISIT,
    MARK,
    LOG_END,
];

/// A request, a plan or a log.
pub const ANY_TABLE: &[Row] = &[
    TTRT_FIELD,
    MODE_FIELD,
    FRAME_FIELD,
    GRID_FIELD,
    STATION_FIELD,
    REQUEST_END,
    FIRST_ALLOCATION,
    NEXT_ALLOCATION,
    PLAN_END,
    VISIT,
    MARK,
    LOG_END,
];

/// The four-byte number at a place of a body, counted in numbers.
fn number(body: &[u8], place: usize) -> u32 {
    let bytes = &body[4 * place..4 * place + 4];
    bytes.iter().fold(0, |sum, &byte| sum << 8 | u32::from(byte))
}

fn station(body: &[u8]) -> Station {
    Station {
        walk: number(body, 0),
        longest: number(body, 1),
        deadline: number(body, 2),
        gap: number(body, 3),
    }
}

fn visit(body: &[u8]) -> Entry {
    let numbers = &body[1..];
    Entry::Visit(VisitEntry {
        station: body[0],
        start: number(numbers, 0),
        limit: number(numbers, 1),
        synchronous: number(numbers, 2),
        asynchronous: number(numbers, 3),
    })
}

fn mark(body: &[u8]) -> Entry {
    Entry::Mark(MarkEntry { station: body[0], mark: body[1] })
}

impl Row {
    fn allows(&self, place: Place, head: &[u8; 3], contents: &Contents) -> bool {
        let length = usize::from(u16::from_be_bytes([head[1], head[2]]));
        self.at.contains(&place)
            && self.tag == head[0]
            && self.length == length
            && (self.when)(contents)
    }
}

/// Goes through the fields of a table from the left, one at a time.
pub struct Passage {
    table: &'static [Row],
    place: Place,
    pub contents: Contents,
}

impl Passage {
    pub fn new(table: &'static [Row]) -> Passage {
        Passage { table, place: Place::Start, contents: Contents::default() }
    }

    pub fn is_done(&self) -> bool {
        self.place == Place::Done
    }

    /// The row that allows a field with this head here, or number 2.
    pub fn row(&self, head: &[u8; 3]) -> Result<&'static Row, Refusal> {
        let allows = |row: &&Row| row.allows(self.place, head, &self.contents);
        self.table.iter().find(allows).ok_or(Refusal::WrongField)
    }

    pub fn take(&mut self, row: &Row, body: &[u8]) {
        (row.keep)(&mut self.contents, body);
        self.place = row.then;
    }

    /// The fields that may stand here: tag and length of each, by rising tags.
    pub fn allowed(&self) -> Vec<(u8, usize)> {
        let here = |row: &&Row| row.at.contains(&self.place) && (row.when)(&self.contents);
        let mut heads: Vec<_> =
            self.table.iter().filter(here).map(|row| (row.tag, row.length)).collect();
        heads.sort();
        heads
    }
}

/// How far a sheet can be read: the fields that passed, what is left behind them, and why no more.
pub struct Walk<'a> {
    pub passage: Passage,
    pub rest: &'a [u8],
    pub fault: Result<(), Refusal>,
}

/// Reads field after field up to the first fault, or to the end.
pub fn walked<'a>(sheet: &'a [u8], table: &'static [Row]) -> Walk<'a> {
    let mut walk = Walk { passage: Passage::new(table), rest: sheet, fault: Ok(()) };
    while !walk.passage.is_done() && walk.fault.is_ok() {
        walk.fault = walk.step();
    }
    if walk.fault.is_ok() {
        walk.fault = require(walk.rest.is_empty(), Refusal::TrailingByte);
    }
    walk
}

impl Walk<'_> {
    /// Takes the next field; a fault leaves all as it is.
    fn step(&mut self) -> Result<(), Refusal> {
        let (head, after) = self.rest.split_first_chunk::<3>().ok_or(Refusal::EndsEarly)?;
        let row = self.passage.row(head)?;
        let (body, after) = after.split_at_checked(row.length).ok_or(Refusal::EndsEarly)?;
        self.passage.take(row, body);
        self.rest = after;
        Ok(())
    }
}

/// What is on a sheet; the first fault decides.
fn contents(sheet: &[u8], table: &'static [Row]) -> Result<Contents, Refusal> {
    let walk = walked(sheet, table);
    walk.fault.map(|()| walk.passage.contents)
}

/// The set of a request sheet, or number 1 to 5.
pub fn read_request(sheet: &[u8]) -> Result<Request, Refusal> {
    let request = contents(sheet, REQUEST_TABLE)?.request();
    request.judge()?;
    Ok(request)
}

/// The plan of a plan sheet, or number 1 to 5 or 7.
pub fn read_plan(sheet: &[u8]) -> Result<Plan, Refusal> {
    read_plan_with(sheet, Planted::Nothing)
}

/// The same with an error planted in the judgement of the plan.
pub fn read_plan_with(sheet: &[u8], planted: Planted) -> Result<Plan, Refusal> {
    contents(sheet, PLAN_TABLE)?.judged_plan_with(planted)
}

/// The plan of a log and its records, or number 1 to 5 or 7.
pub fn read_log(log: &[u8]) -> Result<(Plan, Vec<Entry>), Refusal> {
    let contents = contents(log, LOG_TABLE)?;
    Ok((contents.judged_plan()?, contents.entries))
}

/// A sheet of either kind and the records behind a plan, or number 1 to 5 or 7.
pub fn read_any(sheet: &[u8]) -> Result<(Sheet, Vec<Entry>), Refusal> {
    let contents = contents(sheet, ANY_TABLE)?;
    Ok((contents.judged()?, contents.entries))
}

/// The fields of a sheet, unjudged; with an allocation they are those of a plan.
pub fn fields(request: &Request, allocation: &[u32]) -> Vec<Vec<u8>> {
    let Head { ttrt, mode, frame, grid } = request.head;
    let mut fields = vec![field(TTRT_TAG, &[ttrt])];
    if mode != header_number(None) {
        fields.push(mode_field(mode as u8));
    }
    if frame != header_number(None) {
        fields.push(number_field(FRAME_TAG, frame));
    }
    if grid != header_number(None) {
        fields.push(number_field(GRID_TAG, grid));
    }
    for station in &request.stations {
        let Station { walk, longest, deadline, gap } = *station;
        fields.push(field(STATION_TAG, &[walk, longest, deadline, gap]));
    }
    fields.extend(allocation.iter().map(|&s| field(ALLOCATION_TAG, &[s])));
    fields.push(end_field());
    fields
}

pub fn end_field() -> Vec<u8> {
    field(END_TAG, &[])
}

/// The field of a record.
pub fn record_field(entry: &Entry) -> Vec<u8> {
    match *entry {
        Entry::Visit(VisitEntry { station, start, limit, synchronous, asynchronous }) => {
            let mut bytes = vec![VISIT_TAG, 0, 17, station];
            let numbers = [start, limit, synchronous, asynchronous];
            numbers.iter().for_each(|number| bytes.extend(number.to_be_bytes()));
            bytes
        }
        Entry::Mark(MarkEntry { station, mark }) => vec![MARK_TAG, 0, 2, station, mark],
    }
}

/// The field of a mode, any byte.
pub fn mode_field(mode: u8) -> Vec<u8> {
    vec![MODE_TAG, 0, 1, mode]
}

/// The field of F or of g, any number.
pub fn number_field(tag: u8, number: u32) -> Vec<u8> {
    field(tag, &[number])
}

fn field(tag: u8, numbers: &[u32]) -> Vec<u8> {
    let mut bytes = vec![tag, 0, 4 * numbers.len() as u8];
    numbers.iter().for_each(|number| bytes.extend(number.to_be_bytes()));
    bytes
}

/// The bytes of a request sheet for a buffer of `room` bytes, or number 2, 4, 5 or 14.
pub fn write_request(request: &Request, room: usize) -> Result<Vec<u8>, Refusal> {
    request.judge()?;
    fitting(fields(request, &[]).concat(), room)
}

/// The bytes of a plan sheet for a buffer of `room` bytes, or number 2, 4, 5, 7 or 14.
pub fn write_plan(plan: &Plan, room: usize) -> Result<Vec<u8>, Refusal> {
    plan.judge()?;
    fitting(fields(&plan.request, &plan.allocation).concat(), room)
}

fn fitting(bytes: Vec<u8>, room: usize) -> Result<Vec<u8>, Refusal> {
    require(bytes.len() <= room, Refusal::NoRoom)?;
    Ok(bytes)
}
