//! Why a sheet is accepted or refused, in lines that a person can check by hand.

use std::ops::RangeInclusive;

use crate::planner::{each_smallest, plan, smallest};
use crate::planted::Planted;
use crate::rules::{in_service, least_time, rotations};
use crate::rules::{Head, Mode, Plan, Refusal, Request, Station};
use crate::rules::{ALLOCATION, DEADLINE, FRAME, GRID, LONGEST, MOST_GAP, TTRT, WALK};
use crate::sheet::{walked, Contents, Walk, ALLOCATION_TAG, PLAN_TABLE, REQUEST_TABLE};

/// The explanation of a sheet, of which no more is given than what is read of a plan sheet.
pub fn explained(sheet: &[u8], planted: Planted) -> String {
    let asked = walked(sheet, REQUEST_TABLE);
    let given = is_given(&asked);
    let walk = if given { walked(sheet, PLAN_TABLE) } else { asked };
    let lines = match walk.fault {
        Err(refusal) => fault_lines(&walk, refusal, sheet.len(), given, planted),
        Ok(()) if given => given_lines(&walk.passage.contents, planted),
        Ok(()) => asked_lines(&walk.passage.contents, planted),
    };
    lines.iter().map(|line| line.to_string() + "\n").collect()
}

/// Whether a plan begins where a request cannot be read on: behind stations, with an allocation's tag.
fn is_given(asked: &Walk) -> bool {
    let behind_stations = !asked.passage.contents.stations.is_empty();
    let stopped = behind_stations && !asked.passage.is_done();
    stopped && asked.rest.first() == Some(&ALLOCATION_TAG)
}

fn refused(refusal: Refusal) -> String {
    format!("refused {}", refusal.number())
}

// ---- 1, 2, 3: the first fault

fn fault_lines(
    walk: &Walk,
    refusal: Refusal,
    length: usize,
    given: bool,
    planted: Planted,
) -> Vec<String> {
    let kind = if given { "plan" } else { "request" };
    let mut lines = vec![refused(refusal), format!("read as a {kind}")];
    lines.push(fault_line(walk, length, planted));
    let allowed = walk.passage.allowed();
    if allowed.is_empty() {
        lines.push("may stand: nothing".to_string());
    }
    let name = |tag: u8, length: usize| {
        format!("may stand: tag {tag} length {length}, {}", field_name(tag))
    };
    lines.extend(allowed.into_iter().map(|(tag, length)| name(tag, length)));
    lines
}

/// Where the walk stopped, what stands there and how many bytes are left from there on.
fn fault_line(walk: &Walk, length: usize, planted: Planted) -> String {
    let left = walk.rest.len();
    let mut place = length - left;
    match walk.rest {
        [tag, high, low, ..] if !walk.passage.is_done() => {
            let size = u16::from_be_bytes([*high, *low]);
            if planted == Planted::FaultBehindField {
                place += 3 + usize::from(size);
            }
            format!("byte {place} tag {tag} length {size} left {left}")
        }
        _ => format!("byte {place} left {left}"),
    }
}

fn field_name(tag: u8) -> &'static str {
    match tag {
        1 => "TTRT",
        2 => "station",
        3 => "S",
        4 => "mode",
        5 => "F",
        6 => "g",
        _ => "end",
    }
}

// ---- 4: the numbers out of their ranges

/// A line for a number that is outside of its range.
fn out_of(name: &str, number: u32, range: RangeInclusive<u32>) -> Option<String> {
    let (low, high) = (range.start(), range.end());
    (number < *low || number > *high).then(|| format!("{name} {number} is not in {low} to {high}"))
}

/// The numbers out of range, of the header and then of each station. They are those of the fields:
/// the header's that has none is right, and one that says 1 is not.
fn out_of_range(contents: &Contents, planted: Planted) -> Vec<String> {
    let further = |name: &str, number: Option<u32>, last: u32| {
        let line = out_of(name, number?, 2..=last)?;
        Some(if number == Some(1) { line + ", leave the field out" } else { line })
    };
    let mut found = vec![
        out_of("TTRT", contents.ttrt, TTRT),
        further("mode", contents.mode, 3),
        further("F", contents.frame, *FRAME.end()),
        further("g", contents.grid, *GRID.end()),
    ];
    for (index, station) in contents.stations.iter().enumerate() {
        let Station { walk, longest, deadline, gap } = *station;
        let named = |name: &str| format!("station {index} {name}");
        let deadline_line = out_of(&named("D"), deadline, DEADLINE);
        let gap_left_out = planted == Planted::GapNotListed && deadline_line.is_some();
        found.extend([
            out_of(&named("w"), walk, WALK),
            out_of(&named("C"), longest, LONGEST),
            deadline_line,
            out_of(&named("P"), gap, deadline..=MOST_GAP).filter(|_| !gap_left_out),
            contents.allocation.get(index).and_then(|&s| out_of(&named("S"), s, ALLOCATION)),
        ]);
    }
    found.into_iter().flatten().collect()
}

// ---- 5: the walk times

fn walk_lines(request: &Request) -> Vec<String> {
    let (sum, ttrt) = (request.walk_sum(), request.head.ttrt);
    let mut lines = vec![format!("tau {sum} is not in 1 to TTRT {ttrt}")];
    let walks = request.stations.iter().map(|station| station.walk).enumerate();
    let above = walks.filter(|&(_, walk)| walk > 0);
    lines.extend(above.map(|(index, walk)| format!("station {index} w {walk}")));
    lines
}

/// The lines of a refusal that goes by the numbers alone, 4 or 5.
fn number_lines(contents: &Contents, refusal: Refusal, planted: Planted) -> Vec<String> {
    let mut lines = vec![refused(refusal)];
    lines.extend(match refusal {
        Refusal::OutOfRange => out_of_range(contents, planted),
        _ => walk_lines(&contents.request()),
    });
    lines
}

// ---- the lines that several have

fn head_line(request: &Request) -> String {
    let Head { ttrt, mode, frame, grid } = request.head;
    format!("TTRT {ttrt} mode {mode} F {frame} g {grid}")
}

/// A station with its S, and the rotations in its deadline as the mode counts them.
fn station_words(plan: &Plan, index: usize) -> String {
    let Station { longest, deadline, .. } = plan.request.stations[index];
    let ttrt = plan.request.head.ttrt;
    let rotations = match plan.request.mode() {
        Mode::Fddi => format!("q {} r {}", deadline / ttrt, deadline % ttrt),
        Mode::Timely | Mode::Earlier => {
            let (whole, missing) = rotations(ttrt, deadline);
            format!("m {whole} alpha {missing}")
        }
    };
    let s = plan.allocation[index];
    format!("station {index} C {longest} D {deadline} {rotations} S {s}")
}

fn token_line(plan: &Plan) -> String {
    let (sum, walk_sum) = (plan.allocated(), plan.request.walk_sum());
    let Head { ttrt, .. } = plan.request.head;
    format!("sum of S {sum} tau {walk_sum} F-1 {} TTRT {ttrt}", plan.request.head.overrun())
}

/// What the token rule leaves for all S together.
fn available(request: &Request) -> u64 {
    u64::from(request.head.ttrt).saturating_sub(request.lost())
}

/// What there is, and by how much all S, τ and F − 1 are above TTRT.
fn missing_line(plan: &Plan, planted: Planted) -> String {
    let whole_frame = u64::from(planted == Planted::OneTickMoreMissing);
    let needed = plan.allocated() + plan.request.lost() + whole_frame;
    let missing = needed.saturating_sub(plan.request.head.ttrt.into());
    format!("available {} missing {missing}", available(&plan.request))
}

/// The lines behind the stations of what is accepted: the sum, the spare time and the promises.
fn accepted_lines(plan: &Plan) -> Vec<String> {
    let spare = plan.spare();
    let mut lines =
        vec![token_line(plan), format!("available {} A* {spare}", available(&plan.request))];
    let Plan { request, .. } = plan;
    lines.push(format!("the token is back within {}", plan.bound()));
    lines.push("no station sends more than its S synchronously in a visit".to_string());
    if request.mode() == Mode::Fddi {
        lines.push(
            "it meets the rules of FDDI, which is retired and promises no deadline".to_string(),
        );
        return lines;
    }
    let (count, most) = (request.stations.len(), spare + request.head.overrun());
    lines.push("every accepted message that is not withdrawn is sent by its deadline".to_string());
    let visits =
        if count == 1 { "visit sends".to_string() } else { format!("{count} visits send") };
    lines.push(format!("any {visits} asynchronously at most {most}"));
    let offered = "every station that is not switched through is offered asynchronous time";
    match request.mode() {
        Mode::Earlier => lines
            .push("it is not promised that every station is offered asynchronous time".to_string()),
        _ if spare >= 1 => lines.push(offered.to_string()),
        _ => (),
    }
    lines
}

fn first_line(word: &str, plan: &Plan) -> String {
    let Request { head, stations } = &plan.request;
    let (count, ttrt, walk_sum) = (stations.len(), head.ttrt, plan.request.walk_sum());
    format!("{word} {count} {ttrt} {walk_sum} {}", plan.spare())
}

// ---- requests

fn asked_lines(contents: &Contents, planted: Planted) -> Vec<String> {
    let request = contents.request();
    if let Err(refusal) = request.judge() {
        return number_lines(contents, refusal, planted);
    }
    if let Err(refusal) = in_service(Ok(()), &request.head, planted) {
        return retired_lines(&request, refusal);
    }
    match plan(&request, planted) {
        Ok(plan) => planned_lines(&plan, planted),
        Err(refusal) => unplanned_lines(&request, refusal, planted),
    }
}

fn retired_lines(request: &Request, refusal: Refusal) -> Vec<String> {
    vec![
        refused(refusal),
        head_line(request),
        "mode 2 is FDDI, which is retired: no plan is made with it".to_string(),
        "show prints this sheet, and compose writes it again".to_string(),
        "without its mode it is a request for timely-token".to_string(),
    ]
}

/// Number 6: the smallest S of each station, which together are too much.
fn unplanned_lines(request: &Request, refusal: Refusal, planted: Planted) -> Vec<String> {
    let least = Plan { request: request.clone(), allocation: each_smallest(request, planted) };
    let there = available(request);
    let mut lines = vec![refused(refusal), head_line(request)];
    for (index, &s) in least.allocation.iter().enumerate() {
        let alone = if u64::from(s) > there { ", more than there is" } else { "" };
        lines.push(station_words(&least, index) + alone);
    }
    lines.push(token_line(&least));
    lines.push(missing_line(&least, planted));
    let mut gridless = request.clone();
    gridless.head.grid = 1;
    if plan(&gridless, planted).is_ok() {
        lines.push("the grid is the cause: without it there is a plan".to_string());
    }
    lines
}

fn planned_lines(plan: &Plan, planted: Planted) -> Vec<String> {
    let Head { ttrt, grid, .. } = plan.request.head;
    let mut lines = vec![first_line("plan", plan), head_line(&plan.request)];
    for (index, station) in plan.request.stations.iter().enumerate() {
        let below = plan.allocation[index].checked_sub(grid);
        let below = below.map(|s| least_time(ttrt, station.deadline, s.into()).to_string());
        lines.push(format!(
            "{} X(S) {} X(S-g) {} largest C {}",
            station_words(plan, index),
            plan.least_time(index, planted),
            below.as_deref().unwrap_or("-"),
            largest(plan, index, planted),
        ));
    }
    lines.extend(accepted_lines(plan));
    lines
}

/// The largest C of a station with which the set still has a plan, all else as it is. A larger C
/// never needs a smaller S: halve between the C that there is and the first that is out of range.
fn largest(plan: &Plan, index: usize, planted: Planted) -> u32 {
    let Request { head, stations } = &plan.request;
    let fits = |longest: u32| {
        let s = smallest(head, &Station { longest, ..stations[index] }, planted);
        let mut allocation = plan.allocation.clone();
        allocation[index] = s;
        Plan { request: plan.request.clone(), allocation }.token_in_time()
    };
    let (mut fitting, mut above) = (stations[index].longest, LONGEST.end() + 1);
    while above - fitting > 1 {
        let middle = fitting + (above - fitting) / 2;
        if fits(middle) {
            fitting = middle;
        } else {
            above = middle;
        }
    }
    fitting
}

// ---- plans

fn given_lines(contents: &Contents, planted: Planted) -> Vec<String> {
    let plan = contents.plan();
    if let Err(refusal) = plan.judge_numbers() {
        return number_lines(contents, refusal, planted);
    }
    match plan.judge_rules(planted) {
        Ok(()) => kept_lines(&plan, planted),
        Err(refusal) => broken_lines(&plan, refusal, planted),
    }
}

/// Number 7: the stations that break a rule of their own, and the token rule.
fn broken_lines(plan: &Plan, refusal: Refusal, planted: Planted) -> Vec<String> {
    let mut lines = vec![refused(refusal), head_line(&plan.request)];
    for (index, station) in plan.request.stations.iter().enumerate() {
        let least = plan.least_time(index, planted);
        let below = if least < station.longest.into() { ", below C" } else { "" };
        let off = plan.allocation[index] % plan.request.head.grid != 0;
        let off = if off { ", off the grid" } else { "" };
        if !(below.is_empty() && off.is_empty()) {
            lines.push(format!("{} X(S) {least}{below}{off}", station_words(plan, index)));
        }
    }
    lines.push(token_line(plan));
    lines.push(missing_line(plan, planted));
    lines
}

fn kept_lines(plan: &Plan, planted: Planted) -> Vec<String> {
    let mut lines = vec![first_line("accepted", plan), head_line(&plan.request)];
    let least = match plan.request.mode() {
        Mode::Fddi => plan.allocation.clone(),
        Mode::Timely | Mode::Earlier => each_smallest(&plan.request, planted),
    };
    for (index, (&s, least)) in plan.allocation.iter().zip(least).enumerate() {
        let words =
            format!("{} X(S) {}", station_words(plan, index), plan.least_time(index, planted));
        lines.push(match s.saturating_sub(least) {
            0 => words,
            more => format!("{words}, more than need be by {more}"),
        });
    }
    lines.extend(accepted_lines(plan));
    lines
}
