//! The tables of the rules, the refusals at each place, the round trips, and the promises.

mod allocations;
mod cases;
mod departures;
mod differences;
mod earlier;
mod explain;
mod fddi_plans;
mod fddi_rings;
mod fddi_sheets;
mod grid;
mod grid_sheets;
mod hopper;
mod inspections;
mod layers;
mod log_texts;
mod logs;
mod marks;
mod page;
mod planted;
mod program;
mod promises;
mod retired;
mod ring;
mod rivals;
mod sheets;
mod states;
mod steps;
mod texts;
mod ticks;
mod tune;
mod uncut;
mod uncut_sheets;
mod versions;

use second::compose::compose;
use second::rules::{Head, Mode, Plan, Request, Station};
use second::text::Fault;

pub fn timely(ttrt: u32) -> Head {
    Head::new(ttrt, Mode::Timely)
}

pub fn fddi(ttrt: u32) -> Head {
    Head::new(ttrt, Mode::Fddi)
}

pub fn earlier(ttrt: u32) -> Head {
    Head::new(ttrt, Mode::Earlier)
}

pub fn station(walk: u32, longest: u32, deadline: u32, gap: u32) -> Station {
    Station { walk, longest, deadline, gap }
}

/// The ring of the worked run.
pub fn worked_request() -> Request {
    let later = station(0, 20, 100, 100);
    Request { head: timely(100), stations: vec![station(2, 20, 100, 100), later, later, later] }
}

pub fn worked_plan() -> Plan {
    Plan { request: worked_request(), allocation: vec![20; 4] }
}

/// The bytes of a text that has no visits: all of them, or none.
pub fn composed(text: &str) -> Result<Vec<u8>, Fault> {
    let mut bytes = vec![];
    let answer = compose(text.as_bytes(), &mut bytes).expect("bytes at hand");
    assert!(answer.is_ok() || bytes.is_empty(), "{text}");
    answer.map(|()| bytes).map_err(|complaint| complaint.fault)
}
