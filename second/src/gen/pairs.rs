//! Pairs of plan sheets, to be laid side by side: twice the same plan, related ones, and any two; now
//! and then one of them is refused, or is no plan. And a log with the plan that it is to keep.

use super::random::Random;
use super::sheets::{self, SheetKind};
use super::sort::Sort;
use super::{logs, sets};
use crate::rules::{Plan, Station, MOST_GAP, MOST_STATIONS};
use crate::sheet::{fields, read_log};

/// How often a change is tried until the plan is sound with it.
const TRIES: usize = 8;

/// The old sheet and the new one.
pub fn pair(random: &mut Random, sort: Sort) -> (Vec<u8>, Vec<u8>) {
    let plan = match random.once_in(3) {
        true => sets::small_plan(random, sort),
        false => sets::sound_plan(random, sort),
    };
    let other = match random.between(0, 9) {
        0 => plan.clone(),
        1 => {
            let sort = random.pick(Sort::unmarked());
            sets::sound_plan(random, sort)
        }
        _ => {
            let times = random.pick(&[1, 1, 1, 2, 4]);
            (0..times).fold(plan.clone(), |plan, _| changed(random, &plan))
        }
    };
    let sheets = [&plan, &other].map(|plan| fields(&plan.request, &plan.allocation).concat());
    let [mut old, mut new] = sheets.map(|sheet| handed_in(random, sort, sheet));
    if random.once_in(2) {
        (old, new) = (new, old);
    }
    (old, new)
}

/// The sheet, and now and then another: a plan that may be damaged or out of range, a request, a log.
fn handed_in(random: &mut Random, sort: Sort, sheet: Vec<u8>) -> Vec<u8> {
    match random.between(0, 31) {
        0 | 1 => sheets::sheet(random, SheetKind::Plan, sort),
        2 => {
            let plan = sets::plan_at_edge(random, sort);
            fields(&plan.request, &plan.allocation).concat()
        }
        3 => sheets::sheet(random, SheetKind::Request, sort),
        4 => logs::log(random, sort),
        _ => sheet,
    }
}

/// A plan sheet and a log that is to keep it: most often the log's own plan, or that with a number of
/// its header or of a station changed; now and then any other, and no plan.
pub fn departure(random: &mut Random, sort: Sort) -> (Vec<u8>, Vec<u8>) {
    let log = logs::to_inspect(random, sort);
    let own = match read_log(&log) {
        Ok((plan, _)) => plan,
        Err(_) => sets::sound_plan(random, sort),
    };
    let plan = match random.between(0, 9) {
        0..=3 => own,
        4 => with_more(random, &own),
        5 => with_other_grid(random, &own),
        6 => sets::sound_plan(random, sort),
        _ => changed(random, &own),
    };
    let sheet = fields(&plan.request, &plan.allocation).concat();
    (handed_in(random, sort, sheet), log)
}

/// The plan with another S of a station, if there is room.
fn with_more(random: &mut Random, plan: &Plan) -> Plan {
    let mut other = plan.clone();
    let index = random.index(plan.allocation.len());
    other.allocation[index] += plan.request.head.grid;
    if other.judge().is_ok() {
        return other;
    }
    changed(random, plan)
}

/// The plan with another g that its S are multiples of, if there is one.
fn with_other_grid(random: &mut Random, plan: &Plan) -> Plan {
    let grids = (1..=1_000).filter(|&grid| grid != plan.request.head.grid);
    let with = |grid: u32| {
        let mut other = plan.clone();
        other.request.head.grid = grid;
        other
    };
    let sound: Vec<Plan> = grids.map(with).filter(|plan| plan.judge().is_ok()).take(8).collect();
    match sound.is_empty() {
        true => changed(random, plan),
        false => random.pick(&sound),
    }
}

/// The plan with a change that leaves it sound; as it was, if none was found.
fn changed(random: &mut Random, plan: &Plan) -> Plan {
    let sound = (0..TRIES).map(|_| any_change(random, plan)).find(|plan| plan.judge().is_ok());
    sound.unwrap_or_else(|| plan.clone())
}

fn any_change(random: &mut Random, plan: &Plan) -> Plan {
    let mut plan = plan.clone();
    match random.between(0, 4) {
        0 | 1 => change_header(random, &mut plan),
        2 | 3 => change_station(random, &mut plan),
        _ => change_stations(random, &mut plan),
    }
    plan
}

/// Another TTRT, mode, F or g, or none of the last three where there was one.
fn change_header(random: &mut Random, plan: &mut Plan) {
    let spare = plan.spare() as u32;
    let head = &mut plan.request.head;
    match random.between(0, 3) {
        0 => head.ttrt = random.pick(&[head.ttrt - 1, head.ttrt + 1, 2 * head.ttrt]),
        1 => head.mode = random.pick(&[1, 2, 3]),
        2 => head.frame = random.pick(&[1, 2, head.frame + 1, head.frame + spare]),
        _ => head.grid = random.pick(&[1, 2, 3, 5, 10, 2 * head.grid]),
    }
}

/// One number of a station a little more or less, or at an end of what it may be.
fn change_station(random: &mut Random, plan: &mut Plan) {
    let (spare, step) = (plan.spare() as u32, plan.request.head.grid);
    let index = random.index(plan.allocation.len());
    let (station, s) = (&mut plan.request.stations[index], &mut plan.allocation[index]);
    let Station { walk, longest, deadline, gap } = *station;
    match random.between(0, 4) {
        0 => station.walk = random.pick(&[0, walk.saturating_sub(1), walk + 1, walk + spare]),
        1 => station.longest = random.pick(&[0, longest.saturating_sub(1), longest + 1]),
        2 => station.deadline = random.pick(&[1, deadline - 1, deadline + 1, gap]),
        3 => station.gap = random.pick(&[deadline, gap - 1, gap + 1, MOST_GAP]),
        _ => *s = random.pick(&[s.saturating_sub(step), *s + step, *s + spare / step * step]),
    }
}

/// A station more or fewer, at the end or between, and many of them.
fn change_stations(random: &mut Random, plan: &mut Plan) {
    let (stations, allocation) = (&mut plan.request.stations, &mut plan.allocation);
    let (count, index) = (stations.len(), random.index(stations.len()));
    // Idle ones are sound with any others.
    let idle = Station { walk: 0, longest: 0, deadline: 1, gap: 1 };
    match random.between(0, 6) {
        0 | 1 => {
            stations.truncate(count - 1);
            allocation.truncate(count - 1);
        }
        2 => {
            stations.remove(index);
            allocation.remove(index);
        }
        3 => {
            stations.push(stations[index]);
            allocation.push(allocation[index]);
        }
        4 => {
            stations.insert(index, idle);
            allocation.insert(index, 0);
        }
        _ => {
            let count = random.pick(&[1, count + 1, count + 2, MOST_STATIONS]);
            stations.resize(count, idle);
            allocation.resize(count, 0);
        }
    }
}
