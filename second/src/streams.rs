//! What each command puts out of what it takes in, from bytes to bytes.

use std::fmt;
use std::io::{self, Read, Write};

use crate::check::WatchedRing;
use crate::compose::compose;
use crate::differences;
use crate::explain;
use crate::hopper::{self, Train};
use crate::inspect::{judge_to_inspect, Inspector};
use crate::lines::Lines;
use crate::log::{noted, plan_fields, Counter, Passed, Stream};
use crate::planner;
use crate::planted::Planted;
use crate::ring::Ring;
use crate::rules::{Plan, Refusal};
use crate::sheet::{end_field, read_plan, read_request, record_field, write_plan};
use crate::sheet::{Sheet, ANY_TABLE, LOG_TABLE, PLAN_READ, REQUEST_READ};
use crate::store::{self, Area};
use crate::text::{self, answer_line, read_call, Fault};
use crate::tune;

/// Where a command writes: standard output and standard error.
pub struct Streams<O, E> {
    pub out: O,
    pub err: E,
}

impl<O: Write, E: Write> Streams<O, E> {
    fn text(&mut self, text: &str) -> io::Result<()> {
        self.out.write_all(text.as_bytes())
    }

    /// A fault where standard output carries bytes.
    fn fault(&mut self, fault: Fault) -> io::Result<()> {
        writeln!(self.err, "{fault}")
    }

    fn sheet(&mut self, answer: Result<Vec<u8>, Refusal>) -> io::Result<()> {
        match answer {
            Ok(bytes) => self.out.write_all(&bytes),
            Err(refusal) => self.fault(Fault::Refused(refusal)),
        }
    }

    /// A command that has only its name; tells whether there is one.
    pub fn simple(&mut self, name: &str, input: impl Read, planted: Planted) -> io::Result<bool> {
        match name {
            "plan" => {
                let plan = planned(&at_most(input, REQUEST_READ)?, planted);
                self.text(&plan.map_or_else(refused, |plan| text::show_plan(&plan)))?;
            }
            "plan-sheet" => {
                let plan = planned(&at_most(input, REQUEST_READ)?, planted);
                self.sheet(plan.and_then(|plan| write_plan(&plan, PLAN_READ)))?;
            }
            "explain" => {
                let sheet = at_most(input, PLAN_READ)?;
                self.text(&explain::explained(&sheet, planted))?;
            }
            "show" => self.show(input)?,
            "inspect" => self.text(&found(None, input, planted)?.to_string())?,
            "hopper" => self.hopper(input, planted)?,
            "hopper-sheet" => match hopper::read_list(input)? {
                Ok(list) => self.sheet(hopper::sheet(&list, planted))?,
                Err(fault) => self.fault(fault)?,
            },
            "compose" => {
                if let Err(complaint) = compose(input, &mut self.out)? {
                    self.fault(complaint.fault)?;
                    if let Some(reason) = complaint.reason {
                        writeln!(self.err, "{reason}")?;
                    }
                }
            }
            _ => return Ok(false),
        }
        Ok(true)
    }

    /// At which TTRT between two whole numbers, or at which of all, a request has a plan.
    pub fn tune(
        &mut self,
        between: Option<[&str; 2]>,
        input: impl Read,
        planted: Planted,
    ) -> io::Result<()> {
        self.text(&tune::tuned(&at_most(input, REQUEST_READ)?, between, planted))
    }

    /// The text of a request, a plan or a log of any length. That of a log goes out as it is read,
    /// and ends with the refusal if there is a fault behind its plan.
    fn show(&mut self, input: impl Read) -> io::Result<()> {
        let mut stream = Stream::new(input, ANY_TABLE);
        // What is before the records, once a record has passed: shown, or refused.
        let mut before: Option<Result<(), Refusal>> = None;
        loop {
            let passed = stream.pass()?;
            let judged = || stream.passage().contents.judged();
            match passed {
                Err(refusal) => return self.text(&refused(refusal)),
                Ok(Passed::Record(entry)) => {
                    if before.is_none() {
                        before = Some(self.shown(judged())?);
                    }
                    if before == Some(Ok(())) {
                        self.text(&format!("{entry}\n"))?;
                    }
                }
                Ok(Passed::End) => {
                    let shown = match before {
                        None => self.shown(judged())?,
                        Some(shown) => shown,
                    };
                    return shown.or_else(|refusal| self.text(&refused(refusal)));
                }
            }
        }
    }

    /// What is found in a log of any length that is to keep a plan.
    pub fn inspect_of(&mut self, plan: &[u8], log: impl Read, planted: Planted) -> io::Result<()> {
        self.text(&found(Some(plan), log, planted)?.to_string())
    }

    /// The plan of a wagon list. A line that cannot be read goes to standard error.
    fn hopper(&mut self, input: impl Read, planted: Planted) -> io::Result<()> {
        match hopper::read_list(input)? {
            Ok(list) => {
                let plan = hopper::plan(&list, planted);
                self.text(&plan.map_or_else(refused, |plan| text::show_plan(&plan)))
            }
            Err(fault) => self.fault(fault),
        }
    }

    fn shown(&mut self, sheet: Result<Sheet, Refusal>) -> io::Result<Result<(), Refusal>> {
        match sheet {
            Ok(sheet) => self.text(&text::show_sheet(&sheet)).map(Ok),
            Err(refusal) => Ok(Err(refusal)),
        }
    }

    /// Answers the calls as they are read, and waits for none with an answer unsaid.
    pub fn run(&mut self, plan: &[u8], calls: impl Read, planted: Planted) -> io::Result<()> {
        let mut ring = match opened(plan, planted) {
            Ok(ring) => ring,
            Err(refusal) => return self.text(&refused(refusal)),
        };
        let mut lines = Lines::new(calls);
        while let Some(line) = lines.next_line()? {
            match read_call(&line) {
                Ok(None) => (),
                Ok(Some(call)) => writeln!(self.out, "{}", answer_line(ring.answer(&call)))?,
                Err(fault) => writeln!(self.out, "{fault}")?,
            }
            if lines.must_wait() {
                self.out.flush()?;
            }
        }
        Ok(())
    }

    /// Writes the log of a run: the fields of its plan, a field for each record, the end. The first
    /// line that cannot be read is named when the calls have ended.
    pub fn log(&mut self, plan: &[u8], calls: impl Read, planted: Planted) -> io::Result<()> {
        let mut ring = match opened(plan, planted) {
            Ok(ring) => ring,
            Err(refusal) => return self.fault(Fault::Refused(refusal)),
        };
        self.sheet(plan_fields(ring.ring().plan()))?;
        let mut lines = Lines::new(calls);
        let mut unread = None;
        while let Some(line) = lines.next_line()? {
            match read_call(&line) {
                Ok(None) => (),
                Ok(Some(call)) => {
                    let entry = noted(&call, &ring.answer(&call), Counter::ZERO);
                    self.out.write_all(&entry.map_or(vec![], |entry| record_field(&entry)))?;
                }
                Err(fault) => unread = unread.or(Some(fault)),
            }
            if lines.must_wait() {
                self.out.flush()?;
            }
        }
        self.out.write_all(&end_field())?;
        unread.map_or(Ok(()), |fault| self.fault(fault))
    }

    /// Couples the train of a wagon list, and answers each change as it is read: with the plan that is
    /// then in force, or with the number of its refusal.
    pub fn refit(&mut self, list: &[u8], changes: impl Read, planted: Planted) -> io::Result<()> {
        let list = match hopper::read_list(list)? {
            Ok(list) => list,
            Err(fault) => return self.fault(fault),
        };
        let mut train = Train::default();
        if let Err(refusal) = train.relist(list, planted) {
            return self.text(&refused(refusal));
        }
        let mut lines = Lines::new(changes);
        while let Some(line) = lines.next_line()? {
            match hopper::read_change(&line) {
                Ok(None) => (),
                Ok(Some(change)) => match train.change(&change, planted) {
                    Ok(()) => {
                        self.text(&text::show_plan(train.plan.as_ref().expect("just planned")))?;
                    }
                    Err(refusal) => self.text(&refused(refusal))?,
                },
                Err(fault) => writeln!(self.out, "{fault}")?,
            }
            if lines.must_wait() {
                self.out.flush()?;
            }
        }
        Ok(())
    }

    /// Says what differs in two plan sheets, or which of them is refused.
    pub fn diff(&mut self, old: &[u8], new: &[u8], planted: Planted) -> io::Result<()> {
        self.text(&differences::compared(old, new, planted))
    }

    /// Says the number of a version that was stored.
    pub fn keep(&mut self, stored: Result<u32, Refusal>) -> io::Result<()> {
        self.text(&stored.map_or_else(refused, |number| format!("version {number}\n")))
    }

    /// Writes the plan of a version. A number that has more than 32 bits was never given.
    pub fn kept(&mut self, area: Vec<u8>, number: &str, planted: Planted) -> io::Result<()> {
        let area = Area::new(area, planted);
        let found = area.find(number.parse().unwrap_or(0));
        self.sheet(found.map(|place| area.bytes[place].to_vec()))
    }

    /// Says which versions are kept.
    pub fn versions(&mut self, area: &[u8]) -> io::Result<()> {
        self.text(&store::listed(area).unwrap_or_else(refused))
    }
}

/// The inspector of a log of any length that was read whole, or why it is no log.
fn inspected(log: impl Read, planted: Planted) -> io::Result<Result<Inspector, Refusal>> {
    let mut stream = Stream::new(log, LOG_TABLE);
    let mut inspector: Option<Result<Inspector, Refusal>> = None;
    loop {
        let passed = stream.pass()?;
        let opened = || {
            let plan = stream.passage().contents.judged_plan()?;
            judge_to_inspect(&plan, planted).map(|()| Inspector::new(&plan, planted))
        };
        match passed {
            Err(refusal) => return Ok(Err(refusal)),
            Ok(Passed::Record(entry)) => {
                if let Ok(inspector) = inspector.get_or_insert_with(opened) {
                    inspector.take(&entry);
                }
            }
            Ok(Passed::End) => return Ok(inspector.unwrap_or_else(opened)),
        }
    }
}

/// The lines from the plan that a log is to keep to its own; none where it is that plan.
pub fn departures(plan: &Plan, own: &Plan, planted: Planted) -> String {
    let plan = if planted == Planted::OwnPlanTaken { own } else { plan };
    let lines = differences::of_plans(plan, own, planted);
    match planted {
        Planted::AllocationNotCompared => lines
            .lines()
            .filter(|line| !line.contains(" S "))
            .map(|line| line.to_string() + "\n")
            .collect(),
        Planted::OtherGridAccepted if lines.starts_with("6 ") && lines.lines().count() == 1 => {
            String::new()
        }
        _ => lines,
    }
}

/// What is found in a log: why it, or the plan that it is to keep, is none, the lines to another plan,
/// or what its records are.
pub enum Found {
    PlanRefused(Refusal),
    Refused(Refusal),
    Another(String),
    Judged(Inspector),
}

impl fmt::Display for Found {
    fn fmt(&self, f: &mut fmt::Formatter) -> fmt::Result {
        match self {
            Found::PlanRefused(refusal) => write!(f, "plan {}", refused(*refusal)),
            Found::Refused(refusal) => f.write_str(&refused(*refusal)),
            Found::Another(lines) => write!(f, "another plan\n{lines}"),
            Found::Judged(inspector) => match inspector.finding() {
                None => writeln!(f, "accepted {}", inspector.records()),
                Some(finding) => write!(f, "{finding}\n{}\n", finding.words),
            },
        }
    }
}

/// What is found in a log of any length, which may have to keep a plan.
pub fn found(plan: Option<&[u8]>, log: impl Read, planted: Planted) -> io::Result<Found> {
    let found = inspected(log, planted)?;
    Ok(match (plan.map(read_plan), found) {
        (Some(Err(refusal)), _) => Found::PlanRefused(refusal),
        (_, Err(refusal)) => Found::Refused(refusal),
        (None, Ok(inspector)) => Found::Judged(inspector),
        (Some(Ok(plan)), Ok(inspector)) => match departures(&plan, inspector.plan(), planted) {
            lines if lines.is_empty() => Found::Judged(inspector),
            lines => Found::Another(lines),
        },
    })
}

fn refused(refusal: Refusal) -> String {
    format!("{}\n", Fault::Refused(refusal))
}

fn planned(sheet: &[u8], planted: Planted) -> Result<Plan, Refusal> {
    planner::plan(&read_request(sheet)?, planted)
}

fn opened(plan: &[u8], planted: Planted) -> Result<WatchedRing, Refusal> {
    let ring = Ring::open(&read_plan(plan)?, planted)?;
    Ok(WatchedRing::new(ring, planted))
}

/// What is in the input, at most so many bytes.
pub fn at_most(input: impl Read, most: usize) -> io::Result<Vec<u8>> {
    let mut bytes = vec![];
    input.take(most as u64).read_to_end(&mut bytes)?;
    Ok(bytes)
}
