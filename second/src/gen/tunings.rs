//! Requests to plan at every TTRT of a range, and such ranges.

use super::random::Random;
use super::sets;
use super::sheets::{self, SheetKind};
use super::sort::Sort;
use crate::rules::{Head, Request, Station, TTRT};
use crate::sheet::fields;

/// The most that is tried for a case, in stations at a TTRT: each case of the proved program is a
/// process of its own.
const MOST_TRIED: u32 = 20_000;
const WIDEST: u32 = 4_000;

/// Both ends of a range, and a request sheet.
pub fn input(random: &mut Random, sort: Sort) -> ([String; 2], Vec<u8>) {
    let (request, range) = match random.once_in(4) {
        true => heavy(random, sort),
        false => {
            let request = request(random, sort);
            let range = range(random, &request);
            (request, range)
        }
    };
    let sheet = match random.once_in(6) {
        true => sheets::sheet(random, SheetKind::Request, sort),
        false => fields(&request, &[]).concat(),
    };
    (range, sheet)
}

/// A set whose own TTRT has a plan, is close to one that has, or is any; and such as `plan` refuses.
fn request(random: &mut Random, sort: Sort) -> Request {
    let mut request = match random.between(0, 11) {
        0 => sets::overstepped(random, sort).request,
        1 => sets::broken_plan(random, sort).request,
        2 => sets::plan_at_edge(random, sort).request,
        3..=6 => sets::tight(random, sort, 0),
        _ => sets::request(random, sort),
    };
    match random.between(0, 3) {
        0 => request.head.ttrt = centre(random, &request),
        1 => {
            let less = random.between32(0, 20);
            request.head.ttrt = request.head.ttrt.saturating_sub(less);
        }
        _ => (),
    }
    if random.once_in(30) {
        request.head.ttrt = random.pick(&[0, *TTRT.end() + 1, u32::MAX]);
    }
    if random.once_in(30) {
        request.stations.iter_mut().for_each(|station| station.walk = 0);
    }
    request
}

/// A set of a few stations that takes much of the ring, with deadlines of about as many rotations, and a
/// range up to where one rotation fewer fits into them: A* is larger there, and its part smaller.
fn heavy(random: &mut Random, sort: Sort) -> (Request, [String; 2]) {
    let ttrt = random.between32(50, 1_500);
    let count = random.index(4) + 1;
    let walk_sum = random.between32(1, ttrt / 40);
    let walks = random.split(walk_sum, count);
    let rotations = random.between32(2, 3);
    let station = |&walk: &u32| {
        let deadline = rotations * ttrt + random.between32(0, ttrt / 10);
        let longest = deadline / count as u32 * random.between32(2, 8) / 10;
        Station { walk, longest, deadline, gap: deadline }
    };
    let stations = walks.iter().map(station).collect();
    let frame = if sort.uncut { random.between32(1, ttrt / 40) } else { 1 };
    let grid = if sort.grid { random.between32(2, 5) } else { 1 };
    let (before, behind) = (random.between32(0, ttrt / 2), ttrt / (rotations - 1));
    let to = ttrt + random.between32(behind / 2, behind * 9 / 10);
    let head = Head { frame, grid, ..Head::new(ttrt, sort.mode) };
    (Request { head, stations }, [ttrt - before, to].map(|end| end.to_string()))
}

/// A TTRT about which something changes: the set's own, τ and F − 1, a whole part of a deadline, an end.
fn centre(random: &mut Random, request: &Request) -> u32 {
    let own = request.head.ttrt;
    let lost = u32::try_from(request.lost()).unwrap_or(own);
    let deadline = match request.stations.len() {
        0 => own,
        count => request.stations[random.index(count)].deadline,
    };
    let part = deadline / random.between32(1, 6);
    let near = match random.between(0, 10) {
        0..=4 => own,
        5 => lost,
        6 => random.pick(&[*TTRT.start(), *TTRT.end()]),
        7 => own.saturating_mul(2),
        _ => part,
    };
    near.clamp(*TTRT.start(), *TTRT.end())
}

/// A range about a centre, now and then one that is none.
fn range(random: &mut Random, request: &Request) -> [String; 2] {
    let most = MOST_TRIED / request.stations.len().max(1) as u32;
    let width = match random.between(0, 5) {
        0 => 0,
        1 => random.between32(1, 20),
        2 | 3 => random.between32(1, request.head.ttrt.min(most).min(WIDEST)),
        _ => random.between32(20, most.min(WIDEST)),
    };
    let (middle, before) = (centre(random, request), random.between32(0, width));
    let from = middle.saturating_sub(before).max(*TTRT.start());
    let to = (from + width).min(*TTRT.end());
    let ends = [from, to].map(|end| end.to_string());
    if random.once_in(12) {
        return no_range(random, ends);
    }
    ends
}

/// An end out of its range, of more than 32 bits too, or both ends the other way round.
fn no_range(random: &mut Random, [from, to]: [String; 2]) -> [String; 2] {
    let past = random.pick(&[
        "0".to_string(),
        "1000001".to_string(),
        u32::MAX.to_string(),
        // In 32 bits it would be the first number of the range.
        ((1_u64 << 32) + 1).to_string(),
        format!("{}{from}", "9".repeat(20)),
    ]);
    match random.between(0, 3) {
        0 => [past, to],
        1 => [from, past],
        2 => [to, from],
        _ => [format!("00{from}"), to],
    }
}
