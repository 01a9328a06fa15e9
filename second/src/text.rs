//! Requests, plans, calls and answers as text.

use std::fmt;

use crate::lines::Line;
use crate::notation::number;
use crate::ring::{Held, Message, Ring, StationNumber, Visit};
use crate::rules::{header_number, Ask, Head, Plan, Refusal, Request, Station};
use crate::sheet::Sheet;

/// Why a text has no sheet.
#[derive(Clone, Copy, Debug, PartialEq, Eq)]
pub enum Fault {
    Unreadable(u64),
    Refused(Refusal),
}

impl fmt::Display for Fault {
    fn fmt(&self, f: &mut fmt::Formatter) -> fmt::Result {
        match self {
            Fault::Unreadable(line) => write!(f, "line {line}: cannot be read"),
            Fault::Refused(refusal) => write!(f, "refused {}", refusal.number()),
        }
    }
}

/// A call on a ring.
#[derive(Clone, Copy, Debug, PartialEq, Eq)]
pub enum Call {
    Visit(Ask),
    HandIn(Message),
    Mark(StationNumber),
    Unmark(StationNumber),
}

/// `FRAMES LENGTH`; frames of one tick are shown without their length.
impl fmt::Display for Ask {
    fn fmt(&self, f: &mut fmt::Formatter) -> fmt::Result {
        match *self {
            Ask { frames, length: 1 } => write!(f, "{frames}"),
            Ask { frames, length } => write!(f, "{frames} {length}"),
        }
    }
}

impl fmt::Display for Call {
    fn fmt(&self, f: &mut fmt::Formatter) -> fmt::Result {
        match self {
            Call::Visit(ask) => write!(f, "visit {ask}"),
            Call::HandIn(Message { station, length, arrival }) => {
                write!(f, "message {} {length} {arrival}", station.0)
            }
            Call::Mark(station) => write!(f, "mark {}", station.0),
            Call::Unmark(station) => write!(f, "unmark {}", station.0),
        }
    }
}

/// The answer to a call that was not refused.
#[derive(Clone, Copy, Debug, PartialEq, Eq)]
pub enum Answer {
    Visited(Visit),
    Taken,
    /// A station is switched through; with the message that it held.
    Marked(Option<Held>),
    Unmarked,
}

impl fmt::Display for Answer {
    fn fmt(&self, f: &mut fmt::Formatter) -> fmt::Result {
        match self {
            Answer::Visited(visit) => show_visit(f, visit),
            Answer::Taken => write!(f, "taken"),
            Answer::Marked(None) => write!(f, "marked"),
            Answer::Marked(Some(Held { remaining, arrival })) => {
                write!(f, "marked withdrawn {remaining} {arrival}")
            }
            Answer::Unmarked => write!(f, "unmarked"),
        }
    }
}

fn show_visit(f: &mut fmt::Formatter, visit: &Visit) -> fmt::Result {
    let Visit { station, start, trt, limit, synchronous, asynchronous, completed } = visit;
    write!(f, "visit {} {start} {trt} {limit} {synchronous} {asynchronous} ", station.0)?;
    match completed {
        Some(completed) => write!(f, "{} {}", completed.finish, completed.margin),
        None => write!(f, "- -"),
    }
}

impl Call {
    /// The answer of a ring to the call.
    pub fn answer(&self, ring: &mut Ring) -> Result<Answer, Refusal> {
        match self {
            Call::Visit(ask) => ring.visit(*ask).map(Answer::Visited),
            Call::HandIn(message) => ring.hand_in(message).map(|()| Answer::Taken),
            Call::Mark(station) => ring.mark(*station).map(Answer::Marked),
            Call::Unmark(station) => ring.unmark(*station).map(|()| Answer::Unmarked),
        }
    }
}

/// The line of an answer, refused ones too.
pub fn answer_line(answer: Result<Answer, Refusal>) -> String {
    match answer {
        Ok(answer) => answer.to_string(),
        Err(refusal) => Fault::Refused(refusal).to_string(),
    }
}

/// The plan as the program prints it.
pub fn show_plan(plan: &Plan) -> String {
    let Request { head, stations } = &plan.request;
    let spare = plan.spare();
    let (count, ttrt, walk_sum) = (stations.len(), head.ttrt, plan.request.walk_sum());
    let mut text = format!("plan {count} {ttrt} {walk_sum} {spare}\n");
    for (index, s) in plan.allocation.iter().enumerate() {
        text += &format!("{index} {s}\n");
    }
    text
}

/// The text of a sheet, which composes to the same sheet.
pub fn show_sheet(sheet: &Sheet) -> String {
    match sheet {
        Sheet::Request(request) => show_stations(request, &[]),
        Sheet::Plan(plan) => show_stations(&plan.request, &plan.allocation),
    }
}

/// The text of a set, and with an allocation that of a plan; nothing is judged.
pub fn show_stations(request: &Request, allocation: &[u32]) -> String {
    let Head { ttrt, mode, frame, grid } = request.head;
    let mut text = format!("ttrt {ttrt}\n");
    for (name, number) in [("mode", mode), ("frame", frame), ("grid", grid)] {
        if number != header_number(None) {
            text += &format!("{name} {number}\n");
        }
    }
    for (index, station) in request.stations.iter().enumerate() {
        let Station { walk, longest, deadline, gap } = station;
        text += &format!("station {walk} {longest} {deadline} {gap}");
        if let Some(s) = allocation.get(index) {
            text += &format!(" {s}");
        }
        text.push('\n');
    }
    text
}

/// The call of a line: `Ok(None)` if the line is blank.
pub fn read_call(line: &Line) -> Result<Option<Call>, Fault> {
    let words = line.words();
    if words.is_empty() {
        return Ok(None);
    }
    call(&words).map(Some).ok_or(Fault::Unreadable(line.number))
}

/// The call that the words make.
pub fn call(words: &[&[u8]]) -> Option<Call> {
    match *words {
        [b"visit", ref asked @ ..] => Some(Call::Visit(ask(asked)?)),
        [b"message", station, length, arrival] => Some(Call::HandIn(Message {
            station: StationNumber(number(station)?),
            length: number(length)?,
            arrival: number(arrival)?,
        })),
        [b"mark", station] => Some(Call::Mark(StationNumber(number(station)?))),
        [b"unmark", station] => Some(Call::Unmark(StationNumber(number(station)?))),
        _ => None,
    }
}

/// `FRAMES` or `FRAMES LENGTH`.
pub fn ask(words: &[&[u8]]) -> Option<Ask> {
    match *words {
        [frames] => Some(number::<u32>(frames)?.into()),
        [frames, length] => Some(Ask { frames: number(frames)?, length: number(length)? }),
        _ => None,
    }
}
