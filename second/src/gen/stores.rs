//! Areas with plan versions, and calls on them: stores that storing leads to, some with numbers at
//! their end, areas that are almost one, others, and sequences of calls.

use super::random::Random;
use super::sets;
use super::sheets::{self, SheetKind};
use super::sort::Sort;
use crate::notation::to_hex;
use crate::sheet::{end_field, fields};
use crate::store::{Version, AREA, MOST_KEPT};

/// About how long the line of a case may become.
const LONGEST: usize = 50_000;

/// Where the versions of a store begin.
fn first_number(random: &mut Random) -> u32 {
    let top = u32::MAX - (MOST_KEPT as u32 - 1);
    match random.between(0, 5) {
        0 => random.between32(2, 300),
        1 => random.between32(1, u32::MAX - 16),
        2 => 1,
        _ => top - random.pick(&[0, 0, 1, 2, 3, 8]),
    }
}

fn plan_sheet(random: &mut Random, sort: Sort) -> Vec<u8> {
    let plan = match random.once_in(12) {
        true => sets::sound_plan(random, sort),
        false => sets::small_plan(random, sort),
    };
    fields(&plan.request, &plan.allocation).concat()
}

fn small_sheet(random: &mut Random, sort: Sort) -> Vec<u8> {
    let plan = sets::small_plan(random, sort);
    fields(&plan.request, &plan.allocation).concat()
}

/// The versions of a store: up to sixteen from 1 on, or sixteen from anywhere.
fn versions(random: &mut Random, sort: Sort) -> Vec<Version> {
    let first = first_number(random);
    let count = match first {
        1 => random.between32(0, MOST_KEPT as u32),
        _ => MOST_KEPT as u32,
    };
    let version = |number| Version { number, sheet: small_sheet(random, sort) };
    (0..count).map(|place| first + place).map(version).collect()
}

/// What makes versions none that storing leads to.
fn changed(random: &mut Random, sort: Sort, versions: &mut Vec<Version>) {
    let place = random.index(versions.len().max(1));
    let top = versions.last().map_or(0, |newest| newest.number);
    let Some(version) = versions.get_mut(place) else {
        versions.push(Version { number: 2, sheet: small_sheet(random, sort) });
        return;
    };
    match random.between(0, 7) {
        0 => version.number = random.pick(&[0, version.number ^ 1, u32::MAX]),
        1 => version.sheet = sheets::sheet(random, SheetKind::Plan, sort),
        2 => version.sheet = sheets::sheet(random, SheetKind::Request, sort),
        3 => version.sheet.clear(),
        4 => drop(versions.remove(place)),
        5 => drop(versions.remove(0)),
        6 => versions.swap(0, place),
        _ => {
            versions.push(Version { number: top.wrapping_add(1), sheet: small_sheet(random, sort) })
        }
    }
}

/// The used bytes of an area, and its length.
fn area(random: &mut Random, sort: Sort) -> (usize, Vec<u8>) {
    let length = match random.once_in(16) {
        true => random.pick(&[0, 1, 3, AREA - 1, AREA + 1, AREA + 64]),
        false => AREA,
    };
    let mut bytes = match random.between(0, 7) {
        0 => (0..random.pick(&[0, 1, 40, 300])).map(|_| random.byte()).collect(),
        1 | 2 => end_field(),
        kind => {
            let mut versions = versions(random, sort);
            if kind == 3 {
                changed(random, sort, &mut versions);
            }
            let fields = versions.iter().flat_map(Version::field);
            fields.chain(end_field()).collect::<Vec<u8>>()
        }
    };
    if random.once_in(12) {
        // A byte behind the end, or in the place of another.
        bytes.resize(bytes.len() + random.pick(&[0, 1, 2, 30]), 0);
        let place = random.index(bytes.len().max(1));
        bytes.iter_mut().skip(place).take(1).for_each(|byte| *byte = random.byte());
    }
    bytes.truncate(length);
    (length, bytes)
}

/// The number that stands where the oldest version has it.
fn oldest(bytes: &[u8]) -> u32 {
    let number = bytes.get(3..7).map_or([0; 4], |four| four.try_into().expect("four bytes"));
    u32::from_be_bytes(number)
}

/// A number that may be asked for.
fn asked(random: &mut Random, oldest: u32) -> u32 {
    match random.between(0, 9) {
        0 => random.pick(&[0, 1, u32::MAX]),
        1 => random.between32(1, 40),
        _ => oldest.saturating_add(random.between32(0, 20)).saturating_sub(random.between32(0, 1)),
    }
}

fn call(random: &mut Random, sort: Sort, oldest: u32) -> String {
    match random.between(0, 39) {
        0 => "empty".to_string(),
        1 if random.once_in(3) => {
            format!("byte {} {}", random.pick(&[0, 2, 6, 30, 65_535]), random.byte())
        }
        2 => {
            let count = random.pick(&[2, 15, 16, 17, 33]);
            format!("stores {count} {}", to_hex(&plan_sheet(random, sort)))
        }
        3 | 4 => format!("store {}", to_hex(&sheets::sheet(random, SheetKind::Plan, sort))),
        5 => "store -".to_string(),
        6 | 7 => "versions".to_string(),
        8..=20 => format!("find {}", asked(random, oldest)),
        _ => format!("store {}", to_hex(&plan_sheet(random, sort))),
    }
}

/// An area and a sequence of calls on it.
pub fn sequence(random: &mut Random, sort: Sort) -> String {
    let (length, bytes) = area(random, sort);
    let mut case = format!("store {length},{};versions", to_hex(&bytes));
    for _ in 0..random.between(1, 30) {
        let call = call(random, sort, oldest(&bytes));
        if case.len() + call.len() < LONGEST && (length == AREA || !call.starts_with("byte")) {
            case += &format!(";{call}");
        }
    }
    case
}

/// An area to one of the commands on stores.
pub fn command(random: &mut Random, sort: Sort) -> String {
    let (length, bytes) = area(random, sort);
    let area = format!("{length},{}", to_hex(&bytes));
    match random.between(0, 3) {
        0 => format!("versions;{area}"),
        1 => {
            let near = u64::from(asked(random, oldest(&bytes)));
            let number = random.pick(&[near, near, near, 1 << 32, (1 << 32) + near]);
            format!("kept;{area};{number}")
        }
        _ if random.once_in(5) => {
            format!("keep;{area};{}", to_hex(&sheets::sheet(random, SheetKind::Plan, sort)))
        }
        _ => format!("keep;{area};{}", to_hex(&plan_sheet(random, sort))),
    }
}
