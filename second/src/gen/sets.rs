//! Sets of stations and allocations: feasible, tight, impossible by one tick, and wild.

use super::random::Random;
use super::sort::Sort;
use crate::planner;
use crate::rules::{fddi_least_time, least_time, Head, Mode, Plan, Request, Station};
use crate::rules::{FRAME, GRID, MOST_GAP, MOST_STATIONS};

const MOST_TICKS: u32 = 100_000_000;

fn station_count(random: &mut Random) -> usize {
    match random.between(0, 9) {
        0 => 1,
        1 => MOST_STATIONS,
        2 => random.index(MOST_STATIONS) + 1,
        _ => random.index(6) + 1,
    }
}

fn rotation_target(random: &mut Random) -> u32 {
    match random.between(0, 5) {
        0 => random.pick(&[1, 2, 3, 10, 999_999, 1_000_000]),
        1 => random.between32(1, 1_000_000),
        2 => 100,
        _ => random.between32(20, 3_000),
    }
}

/// Deadlines around whole rotations, below one rotation, and at the ends of the range.
fn deadline(random: &mut Random, ttrt: u32) -> u32 {
    let near = match random.between(0, 9) {
        0 => random.pick(&[1, MOST_TICKS]),
        1 => random.between32(1, ttrt),
        2 => random.between32(1, MOST_TICKS),
        3 | 4 => ttrt * random.between32(1, 20) - 1,
        5 | 6 => ttrt * random.between32(1, 20),
        _ => ttrt + random.between32(0, 5 * ttrt),
    };
    near.clamp(1, MOST_TICKS)
}

/// Deadlines of about one to four rotations, now and then of less than one.
fn short_deadline(random: &mut Random, ttrt: u32) -> u32 {
    match random.between(0, 7) {
        0 => random.between32(ttrt / 2 + 1, ttrt),
        1 | 2 => ttrt * random.between32(1, 3),
        3 => ttrt * random.between32(2, 4) - 1,
        _ => random.between32(ttrt, 4 * ttrt),
    }
}

/// The time of an FDDI rotation that is not the station's own: τ, F − 1, and the others' S.
struct Rotation {
    ttrt: u32,
    before: u32,
}

/// FDDI's deadlines: as others, a rotation longer, and with a rest in which about the share fits.
fn fddi_deadline(
    random: &mut Random,
    rotation: &Rotation,
    share: u32,
    deadline: fn(&mut Random, u32) -> u32,
) -> u32 {
    let Rotation { ttrt, before } = *rotation;
    let near = match random.between(0, 7) {
        0 => deadline(random, ttrt),
        1 | 2 => deadline(random, ttrt) + ttrt,
        3 => ttrt * random.between32(1, 20) + before + random.between32(0, share + 1),
        _ => ttrt * random.between32(1, 4) + before + random.between32(0, share + 1),
    };
    near.clamp(1, MOST_TICKS)
}

fn gap(random: &mut Random, deadline: u32) -> u32 {
    match random.between(0, 7) {
        0 => MOST_GAP,
        1 => random.between32(deadline, MOST_GAP),
        2 => (deadline + 1).min(MOST_GAP),
        3 => random.between32(deadline, (2 * deadline).min(MOST_GAP)),
        _ => deadline,
    }
}

/// A longest message that needs about the share: all that it carries, or a little less. What a
/// share carries is X.
fn longest(random: &mut Random, share: u32, least_time: impl Fn(u64) -> u64) -> u32 {
    let carried = |s: u32| least_time(u64::from(s)).min(u64::from(MOST_TICKS));
    let most = carried(share) as u32;
    match random.between(0, 5) {
        0 => random.between32(0, most),
        1 | 2 => random.between32(carried(share.saturating_sub(1)) as u32, most),
        _ => most,
    }
}

/// Walk times of a given sum, often all at one station.
fn walks(random: &mut Random, sum: u32, count: usize) -> Vec<u32> {
    if random.once_in(3) {
        let mut walks = vec![0; count];
        walks[random.index(count)] = sum;
        return walks;
    }
    random.split(sum, count)
}

/// A set with a plan.
pub fn feasible(random: &mut Random, sort: Sort) -> Request {
    let ttrt = rotation_target(random);
    let count = station_count(random);
    feasible_of(random, (sort, ttrt), count, deadline)
}

/// A set with a plan, whose messages take few rotations.
fn lively(random: &mut Random, sort: Sort) -> Request {
    let ttrt = rotation_target(random);
    let count = if random.once_in(30) { MOST_STATIONS } else { random.index(6) + 1 };
    let mut request = feasible_of(random, (sort, ttrt), count, short_deadline);
    for station in &mut request.stations {
        let longer = random.pick(&[0, 0, 1, ttrt]);
        station.gap = (station.deadline + longer).min(MOST_GAP);
    }
    request
}

/// F − 1, from 0 to the room that there is for it.
fn overrun(random: &mut Random, room: u32) -> u32 {
    let near = match random.between(0, 5) {
        0 => room,
        1 => random.between32(0, room),
        2 => 1,
        3 => random.pick(&[2, 9, *FRAME.end()]),
        _ => random.between32(1, room / 4),
    };
    near.min(room).min(*FRAME.end() - 1)
}

/// g, from 2 on: small, as large as there is room for, or larger.
fn grid(random: &mut Random, room: u32) -> u32 {
    let near = match random.between(0, 5) {
        0 => *GRID.end(),
        1 => random.between32(2, *GRID.end()),
        2 => random.pick(&[room, room + 1, room / 2, room / 3]),
        3 => random.between32(2, 2 + room / 4),
        _ => random.between32(2, 10),
    };
    near.clamp(2, *GRID.end())
}

fn feasible_of(
    random: &mut Random,
    (sort, ttrt): (Sort, u32),
    count: usize,
    deadline: fn(&mut Random, u32) -> u32,
) -> Request {
    let walk_sum = match random.between(0, 5) {
        0 => ttrt,
        1 => random.between32(1, ttrt),
        2 => 1,
        _ => random.between32(1, ttrt / 8),
    };
    let room = ttrt - walk_sum;
    let uncut = sort.uncut && !((sort.grid || sort.marked) && random.once_in(2));
    let overrun = if uncut { overrun(random, room) } else { 0 };
    let room = room - overrun;
    let grid = if sort.grid { grid(random, room) } else { 1 };
    let steps = if random.once_in(2) { room / grid } else { random.between32(0, room / grid) };
    let shared = steps * grid;
    let shares: Vec<u32> = random.split(steps, count).iter().map(|step| step * grid).collect();
    let walks = walks(random, walk_sum, count);
    let station = |(&walk, &share): (&u32, &u32)| {
        let (longest, deadline) = if sort.is_fddi() {
            let rotation = Rotation { ttrt, before: walk_sum + overrun + shared - share };
            fddi_message(random, &rotation, share, deadline)
        } else {
            let deadline = deadline(random, ttrt);
            (longest(random, share, |s| least_time(ttrt, deadline, s)), deadline)
        };
        Station { walk, longest, deadline, gap: gap(random, deadline) }
    };
    let head = Head { frame: overrun + 1, grid, ..Head::new(ttrt, sort.mode) };
    Request { head, stations: walks.iter().zip(&shares).map(station).collect() }
}

/// The longest message and the deadline of an FDDI station that has the share.
fn fddi_message(
    random: &mut Random,
    rotation: &Rotation,
    share: u32,
    deadline: fn(&mut Random, u32) -> u32,
) -> (u32, u32) {
    let deadline = fddi_deadline(random, rotation, share, deadline);
    let before = u64::from(rotation.before);
    let carried = |s| fddi_least_time(rotation.ttrt, deadline, s, before);
    (longest(random, share, carried), deadline)
}

/// The smallest plan of a feasible set.
pub fn smallest_plan(request: &Request) -> Plan {
    planner::least_plan(request).expect("the set is feasible")
}

/// A feasible set with all spare time walked away, and `over` ticks more; or given to a frame.
pub fn tight(random: &mut Random, sort: Sort, over: u32) -> Request {
    let mut request = feasible(random, sort);
    let left = smallest_plan(&request).left_over() as u32;
    let index = random.index(request.stations.len());
    let more = match sort.mode {
        Mode::Timely | Mode::Earlier => left,
        Mode::Fddi => most_walk(&request, index, left),
    };
    let longer = request.head.frame + more + over;
    if sort.uncut && FRAME.contains(&longer) && random.once_in(2) {
        request.head.frame = longer;
    } else {
        request.stations[index].walk += more + over;
    }
    request
}

/// The most ticks, up to the spare ones, that a station may walk beside its own and leave a plan: in
/// FDDI each S may rise with the walk.
fn most_walk(request: &Request, index: usize, left: u32) -> u32 {
    let feasible = |more: u32| {
        let mut request = request.clone();
        request.stations[index].walk += more;
        planner::least_plan(&request).is_ok()
    };
    let (mut low, mut high) = (0, left);
    while low < high {
        let middle = (low + high).div_ceil(2);
        if feasible(middle) {
            low = middle;
        } else {
            high = middle - 1;
        }
    }
    low
}

/// A set of FDDI in which each station's S rises with every other's, by little at a time: the
/// deadlines are of about as many rotations as there are stations.
fn climbing(random: &mut Random, sort: Sort) -> Request {
    let ttrt = random.between32(20, 5_000);
    let count = random.index(7) + 2;
    let walk_sum = random.between32(1, ttrt / 8);
    let overrun = if sort.uncut { random.between32(1, ttrt / 8) } else { 0 };
    let rotations = count as u32 + random.between32(0, 1);
    let walks = random.split(walk_sum, count);
    let station = |&walk: &u32| {
        let rest = random.between32(0, ttrt - 1);
        let deadline = (rotations + random.pick(&[0, 0, 1])) * ttrt + rest;
        let longest = (rest + random.between32(0, ttrt / 4)).saturating_sub(walk_sum + overrun);
        Station { walk, longest, deadline, gap: deadline }
    };
    let stations = walks.iter().map(station).collect();
    let grid = if sort.grid { random.between32(2, 10) } else { 1 };
    let head = Head { frame: overrun + 1, grid, ..Head::new(ttrt, Mode::Fddi) };
    Request { head, stations }
}

/// A tight set with one message longer by one tick; most often impossible by one tick.
fn longer_by_one(random: &mut Random, sort: Sort) -> Request {
    let mut request = tight(random, sort, 0);
    let index = random.index(request.stations.len());
    let station = &mut request.stations[index];
    station.longest = (station.longest + 1).min(MOST_TICKS);
    request
}

/// Numbers in range, without regard to the rules.
fn wild(random: &mut Random, sort: Sort) -> Request {
    let mut request = feasible(random, sort);
    for station in &mut request.stations {
        station.longest = random.between32(0, MOST_TICKS);
        station.deadline = random.between32(1, MOST_TICKS);
        station.gap = random.between32(station.deadline, MOST_GAP);
    }
    if sort.uncut {
        request.head.frame = random.between32(*FRAME.start(), *FRAME.end());
    }
    if sort.grid {
        request.head.grid = random.between32(*GRID.start(), *GRID.end());
    }
    request
}

/// A set in range, of any of these kinds.
pub fn request(random: &mut Random, sort: Sort) -> Request {
    match random.between(0, 9) {
        0 => tight(random, sort, 0),
        1 => tight(random, sort, 1),
        2 => longer_by_one(random, sort),
        3 => wild(random, sort),
        4 | 5 if sort.is_fddi() => climbing(random, sort),
        _ => feasible(random, sort),
    }
}

/// The smallest plan of a feasible set, or one with some of the spare time given away.
pub fn sound_plan(random: &mut Random, sort: Sort) -> Plan {
    let request = feasible(random, sort);
    generous_plan(random, &request)
}

/// The same of a set that suits a run of a few hundred calls.
pub fn plan_to_run(random: &mut Random, sort: Sort) -> Plan {
    let request = if random.once_in(8) { feasible(random, sort) } else { lively(random, sort) };
    generous_plan(random, &request)
}

fn generous_plan(random: &mut Random, request: &Request) -> Plan {
    let smallest = smallest_plan(request);
    if !random.once_in(3) {
        return smallest;
    }
    let mut plan = smallest.clone();
    let step = request.head.grid;
    let left = plan.left_over() as u32 / step;
    let given = random.between32(0, left);
    let extra = random.split(given, plan.allocation.len());
    plan.allocation.iter_mut().zip(extra).for_each(|(s, more)| *s += more * step);
    // In FDDI what one station gets may be missing at another.
    if plan.judge().is_ok() {
        plan
    } else {
        smallest
    }
}

/// A plan in range, now and then with one S too small by a tick, too large by one, or off the grid.
pub fn plan(random: &mut Random, sort: Sort) -> Plan {
    let mut plan = sound_plan(random, sort);
    let index = random.index(plan.allocation.len());
    match random.between(0, 9) {
        0 => plan.allocation[index] = plan.allocation[index].saturating_sub(1),
        1 => {
            let left = plan.left_over() as u32;
            plan.allocation[index] += left + random.between32(0, 1);
        }
        2..=4 if sort.grid => {
            let step = plan.request.head.grid;
            plan.allocation[index] += random.pick(&[1, step - 1, step, step + 1]);
        }
        _ => (),
    }
    plan
}

/// Every number of the plan in turn at the ends of its range, and one past them.
pub fn at_edges(plan: &Plan) -> Vec<Plan> {
    let mut edges = head_edges(plan);
    for index in 0..plan.allocation.len() {
        edges.extend(station_edges(plan, index));
    }
    edges
}

fn changed(plan: &Plan, change: impl FnOnce(&mut Plan)) -> Plan {
    let mut plan = plan.clone();
    change(&mut plan);
    plan
}

fn head_edges(plan: &Plan) -> Vec<Plan> {
    let walk_sum = plan.request.walk_sum() as u32;
    let values = [0, 1, walk_sum - 1, walk_sum, 1_000_000, 1_000_001, u32::MAX];
    let edge = |&value| changed(plan, |plan| plan.request.head.ttrt = value);
    let mut edges: Vec<Plan> = values.iter().map(edge).collect();
    let edge = |mode| changed(plan, |plan| plan.request.head.mode = mode);
    match plan.request.mode() {
        Mode::Timely => (),
        Mode::Fddi => edges.extend([0, 1, 3, 255, 256, 258, u32::MAX].map(edge)),
        Mode::Earlier => edges.extend([0, 1, 2, 4, 255, 256, 259, u32::MAX].map(edge)),
    }
    if plan.request.head.frame > 1 {
        edges
            .extend(frame_edges(plan).map(|frame| changed(plan, |p| p.request.head.frame = frame)));
    }
    if plan.request.head.grid > 1 {
        edges.extend(grid_edges(plan).map(|grid| changed(plan, |p| p.request.head.grid = grid)));
    }
    edges
}

/// The ends of F's range and of what the plan leaves room for, and one past them.
pub fn frame_edges(plan: &Plan) -> [u32; 8] {
    let most = plan.request.head.frame.saturating_add(plan.left_over() as u32);
    let (last, past) = (*FRAME.end(), *FRAME.end() + 1);
    [0, 1, 2, most, most.saturating_add(1), last, past, u32::MAX]
}

/// The ends of g's range, those next to the plan's own, and one past them.
pub fn grid_edges(plan: &Plan) -> [u32; 8] {
    let (grid, last, past) = (plan.request.head.grid, *GRID.end(), *GRID.end() + 1);
    [0, 1, 2, grid.saturating_sub(1), grid.saturating_add(1), last, past, u32::MAX]
}

fn station_edges(plan: &Plan, index: usize) -> Vec<Plan> {
    let Station { walk, deadline, gap, .. } = plan.request.stations[index];
    let s = plan.allocation[index];
    let left = plan.left_over() as u32;
    let mut edges = vec![];
    let mut add = |values: &[u32], place: fn(&mut Plan, usize) -> &mut u32| {
        edges.extend(values.iter().map(|&value| changed(plan, |p| *place(p, index) = value)));
    };
    add(&[0, walk + left, walk + left + 1, 1_000_000, 1_000_001, u32::MAX], |plan, index| {
        &mut plan.request.stations[index].walk
    });
    add(&[0, 1, MOST_TICKS, MOST_TICKS + 1, u32::MAX], |plan, index| {
        &mut plan.request.stations[index].longest
    });
    add(&[0, 1, gap, gap + 1, MOST_TICKS, MOST_TICKS + 1, u32::MAX], |plan, index| {
        &mut plan.request.stations[index].deadline
    });
    add(&[0, deadline - 1, deadline, MOST_GAP, MOST_GAP + 1, u32::MAX], |plan, index| {
        &mut plan.request.stations[index].gap
    });
    add(&[0, s.saturating_sub(1), s + left, s + left + 1], |plan, index| {
        &mut plan.allocation[index]
    });
    add(&[1_000_000, 1_000_001, u32::MAX], |plan, index| &mut plan.allocation[index]);
    edges.push(changed(plan, |plan| longest_times(plan, index)));
    edges.push(changed(plan, |plan| one_long_walk(plan, index)));
    edges
}

/// C, D and P all at the top, which only together are in range.
fn longest_times(plan: &mut Plan, index: usize) {
    let station = &mut plan.request.stations[index];
    (station.longest, station.deadline, station.gap) = (MOST_TICKS, MOST_TICKS, MOST_GAP);
}

/// TTRT and one walk time at the top, the only way to have such a walk time.
fn one_long_walk(plan: &mut Plan, index: usize) {
    plan.request.head.ttrt = 1_000_000;
    plan.request.stations.iter_mut().for_each(|station| station.walk = 0);
    plan.request.stations[index].walk = 1_000_000;
}

/// A small plan, to be damaged at every place.
pub fn small_plan(random: &mut Random, sort: Sort) -> Plan {
    let ttrt = rotation_target(random);
    let count = random.index(3) + 1;
    smallest_plan(&feasible_of(random, (sort, ttrt), count, deadline))
}

/// A plan with any of its numbers at an edge.
pub fn plan_at_edge(random: &mut Random, sort: Sort) -> Plan {
    let edges = at_edges(&small_plan(random, sort));
    random.pick(&edges)
}

/// A small plan that breaks some of the rules at once, or none: the token rule or a deadline (7), a
/// deadline that no S keeps (6), τ (5), a range (4), the count of stations (2).
pub fn broken_plan(random: &mut Random, sort: Sort) -> Plan {
    let mut plan = small_plan(random, sort);
    let index = random.index(plan.allocation.len());
    let ttrt = plan.request.head.ttrt;
    if random.once_in(2) {
        plan.allocation[index] = random.pick(&[0, ttrt]);
    }
    let station = &mut plan.request.stations[index];
    if random.once_in(2) {
        station.longest = MOST_TICKS;
    }
    if random.once_in(3) {
        station.walk = (ttrt + 1).min(1_000_000);
        if random.once_in(2) {
            plan.request.stations.iter_mut().for_each(|station| station.walk = 0);
        }
    }
    if random.once_in(4) {
        out_of_range(random, &mut plan, index);
    }
    if random.once_in(6) {
        let count = random.pick(&[0, MOST_STATIONS + 1]);
        plan.request.stations.resize(count, plan.request.stations[0]);
        plan.allocation.resize(count, plan.allocation[0]);
    }
    plan
}

/// An FDDI plan whose stations push each other, with one S a little smaller or larger: what the
/// others have decides whether it keeps the rules.
pub fn pushed_plan(random: &mut Random, sort: Sort) -> Plan {
    let climbed = planner::least_plan(&climbing(random, sort)).ok();
    let mut plan =
        climbed.filter(|_| !random.once_in(3)).unwrap_or_else(|| sound_plan(random, sort));
    let index = random.index(plan.allocation.len());
    let (s, step) = (plan.allocation[index], plan.request.head.grid);
    let [less, half] = [s.saturating_sub(step), s / 2 / step * step];
    plan.allocation[index] = random.pick(&[less, less, less, half, s, s + 1, s + 1, s + step]);
    plan
}

/// One number of a plan past its range.
fn out_of_range(random: &mut Random, plan: &mut Plan, index: usize) {
    let station = &mut plan.request.stations[index];
    match random.between(0, 6) {
        0 => plan.request.head.ttrt = random.pick(&[0, 1_000_001]),
        1 => plan.request.head.mode = random.pick(&[0, 4]),
        2 => station.walk = 1_000_001,
        3 => station.longest = MOST_TICKS + 1,
        4 => station.deadline = 0,
        5 => station.gap = station.deadline - 1,
        _ => plan.allocation[index] = random.pick(&[1_000_001, u32::MAX]),
    }
}

/// A plan whose S are together just what the token rule lets them be, or a tick or two more.
pub fn crowded(random: &mut Random, sort: Sort) -> Plan {
    let mut plan = sound_plan(random, sort);
    let (index, left) = (random.index(plan.allocation.len()), plan.left_over() as u32);
    plan.allocation[index] += left + random.between32(0, 2);
    plan
}

/// A plan of which any of its numbers are at an end of a range, past it or anywhere: some of them, or
/// all.
pub fn overstepped(random: &mut Random, sort: Sort) -> Plan {
    let mut plan = plan(random, sort);
    let times = random.pick(&[1, 2, 4, 10]);
    let mut overstep = |number: &mut u32| {
        if random.once_in(times) {
            let any = random.between32(0, u32::MAX);
            let ends = [0, 1_000_000, 1_000_001, MOST_TICKS, MOST_TICKS + 1, u32::MAX, any];
            *number = random.pick(&ends);
        }
    };
    let Plan { request: Request { head, stations }, allocation } = &mut plan;
    overstep(&mut head.ttrt);
    let further = [&mut head.mode, &mut head.frame, &mut head.grid];
    further.into_iter().filter(|number| **number != 1).for_each(&mut overstep);
    for Station { walk, longest, deadline, gap } in stations {
        [walk, longest, deadline, gap].into_iter().for_each(&mut overstep);
    }
    allocation.iter_mut().for_each(overstep);
    plan
}

/// A plan of any kind, in range or not, now and then of a wrong count of stations.
pub fn any_plan(random: &mut Random, sort: Sort) -> Plan {
    let mut plan = if random.once_in(3) { plan_at_edge(random, sort) } else { plan(random, sort) };
    if random.once_in(10) {
        let count = random.pick(&[0, MOST_STATIONS + 1, MOST_STATIONS + 2]);
        plan.request.stations.resize(count, plan.request.stations[0]);
        plan.allocation.resize(count, plan.allocation[0]);
    }
    plan
}
