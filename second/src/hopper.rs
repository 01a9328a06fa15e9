//! The twelve-wagon product. A wagon list becomes the text of a request, and this is composed, read
//! and planned as any other. A train is planned anew from its whole list at each change.

use std::io::{self, Read};

use crate::compose::compose;
use crate::lines::{Line, Lines};
use crate::notation::{joined, number};
use crate::planner;
use crate::planted::Planted;
use crate::rules::{require, Head, Mode, Plan, Refusal, Request};
use crate::sheet::read_request;
use crate::text::Fault;

pub const MOST_WAGONS: usize = 12;
pub const MOST_BOXES: u32 = 8;

/// What is sent of each axle box, of a brake unit and of a door unit, in ticks.
const OF_A_BOX: u32 = 4;
const OF_A_BRAKE: u32 = 6;
const OF_A_DOOR: u32 = 2;

const TTRT: u32 = 250;

/// A wagon as it was given: any numbers.
#[derive(Clone, Copy, Debug, PartialEq, Eq)]
pub struct Wagon {
    pub boxes: u32,
    pub brake: u32,
    pub door: u32,
}

impl Wagon {
    fn in_range(&self) -> bool {
        self.boxes <= MOST_BOXES && [self.brake, self.door].iter().all(|unit| *unit <= 1)
    }

    /// C of a wagon in range, unit by unit.
    fn longest(&self, planted: Planted) -> u32 {
        let [brake, door] = match planted {
            Planted::DoorForBrake => [OF_A_DOOR, OF_A_BRAKE],
            _ => [OF_A_BRAKE, OF_A_DOOR],
        };
        let units = [(self.boxes, OF_A_BOX), (self.brake, brake), (self.door, door)];
        units.iter().flat_map(|&(count, ticks)| (0..count).map(move |_| ticks)).sum()
    }

    /// The line of its station.
    fn station(&self, planted: Planted) -> String {
        let walk = if planted == Planted::WalkLeftOut { 0 } else { 1 };
        format!("station {walk} {} 500 500\n", self.longest(planted))
    }
}

/// The request sheet of a list, or number 2 or 4.
pub fn sheet(list: &[Wagon], planted: Planted) -> Result<Vec<u8>, Refusal> {
    require((1..=MOST_WAGONS).contains(&list.len()), Refusal::WrongField)?;
    require(list.iter().all(Wagon::in_range), Refusal::OutOfRange)?;
    let stations: String = list.iter().map(|wagon| wagon.station(planted)).collect();
    let text = format!("ttrt {TTRT}\n{stations}");
    let mut bytes = vec![];
    match compose(text.as_bytes(), &mut bytes).expect("bytes at hand") {
        Ok(()) => Ok(bytes),
        Err(complaint) => match complaint.fault {
            Fault::Refused(refusal) => Err(refusal),
            Fault::Unreadable(line) => panic!("line {line} of {text}"),
        },
    }
}

/// The plan of a list: the planner's answer to its sheet.
pub fn plan(list: &[Wagon], planted: Planted) -> Result<Plan, Refusal> {
    if list.is_empty() && planted == Planted::EmptyListPlanned {
        let request = Request { head: Head::new(TTRT, Mode::Timely), stations: vec![] };
        return Ok(Plan { request, allocation: vec![] });
    }
    planner::plan(&read_request(&sheet(list, planted)?)?, planted)
}

/// A change of a train.
#[derive(Clone, Copy, Debug, PartialEq, Eq)]
pub enum Change {
    /// Another wagon at a place, counted from 0.
    Other(u32, Wagon),
    /// One wagon more at the end.
    Couple(Wagon),
    /// The last wagon off.
    Uncouple,
}

/// A list with its plan; a blank train has neither.
#[derive(Clone, Debug, Default, PartialEq, Eq)]
pub struct Train {
    pub list: Vec<Wagon>,
    pub plan: Option<Plan>,
}

impl Train {
    /// Puts another list into force, if it has a plan.
    pub fn relist(&mut self, list: Vec<Wagon>, planted: Planted) -> Result<(), Refusal> {
        let answer = plan(&list, planted);
        if answer.is_ok() || planted == Planted::RefusedListKept {
            self.list = list;
        }
        self.plan = Some(answer?);
        Ok(())
    }

    pub fn change(&mut self, change: &Change, planted: Planted) -> Result<(), Refusal> {
        let list = self.changed(change)?;
        self.relist(list, planted)
    }

    /// The list with the change, or number 2, 4 or 9; what else is wrong with a list is found when it
    /// is planned. A place that there is not is looked at behind the count and every wagon.
    fn changed(&self, change: &Change) -> Result<Vec<Wagon>, Refusal> {
        let mut list = self.list.clone();
        match *change {
            Change::Other(place, wagon) => match list.get_mut(place as usize) {
                Some(old) => *old = wagon,
                None => {
                    list.push(wagon);
                    require((2..=MOST_WAGONS + 1).contains(&list.len()), Refusal::WrongField)?;
                    require(list.iter().all(Wagon::in_range), Refusal::OutOfRange)?;
                    return Err(Refusal::NoSuchStation);
                }
            },
            Change::Couple(wagon) => list.push(wagon),
            Change::Uncouple => drop(list.pop()),
        }
        Ok(list)
    }
}

/// The wagons of a text: the first line that cannot be read is named. At most one wagon too many is
/// kept, to be refused.
pub fn read_list(text: impl Read) -> io::Result<Result<Vec<Wagon>, Fault>> {
    let mut lines = Lines::new(text);
    let mut list = vec![];
    while let Some(line) = lines.next_line()? {
        match line.words()[..] {
            [] => (),
            [b"wagon", ref numbers @ ..] => match wagon(numbers) {
                Some(wagon) if list.len() <= MOST_WAGONS => list.push(wagon),
                Some(_) => (),
                None => return Ok(Err(Fault::Unreadable(line.number))),
            },
            _ => return Ok(Err(Fault::Unreadable(line.number))),
        }
    }
    Ok(Ok(list))
}

/// The change of a line: `Ok(None)` if the line is blank.
pub fn read_change(line: &Line) -> Result<Option<Change>, Fault> {
    let words = line.words();
    if words.is_empty() {
        return Ok(None);
    }
    change(&words).map(Some).ok_or(Fault::Unreadable(line.number))
}

fn change(words: &[&[u8]]) -> Option<Change> {
    match *words {
        [b"change", place, ref numbers @ ..] => {
            Some(Change::Other(number(place)?, wagon(numbers)?))
        }
        [b"couple", ref numbers @ ..] => Some(Change::Couple(wagon(numbers)?)),
        [b"uncouple"] => Some(Change::Uncouple),
        _ => None,
    }
}

/// `BOXES BRAKE DOOR`
fn wagon(words: &[&[u8]]) -> Option<Wagon> {
    let [boxes, brake, door] = *words else {
        return None;
    };
    Some(Wagon { boxes: number(boxes)?, brake: number(brake)?, door: number(door)? })
}

/// `B,R,D/B,R,D/...`: the axle boxes of each wagon, its brake unit and its door unit; `-` for none.
pub fn show_wagons(wagons: &[Wagon]) -> String {
    let wagon = |wagon: &Wagon| joined(&[wagon.boxes, wagon.brake, wagon.door]);
    match wagons {
        [] => "-".to_string(),
        _ => wagons.iter().map(wagon).collect::<Vec<String>>().join("/"),
    }
}

/// What `show_wagons` shows.
pub fn read_wagons(text: &str) -> Option<Vec<Wagon>> {
    match text {
        "-" => Some(vec![]),
        _ => text.split('/').map(read_wagon).collect(),
    }
}

/// One wagon of such a list.
pub fn read_wagon(text: &str) -> Option<Wagon> {
    wagon(&text.split(',').map(str::as_bytes).collect::<Vec<&[u8]>>())
}
