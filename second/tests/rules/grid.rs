//! Plans on a grid, of which every S is a multiple.

use crate::{fddi, station, timely, worked_plan};
use second::gen::random::Random;
use second::planner::least_plan;
use second::planted::Planted;
use second::ring::Ring;
use second::rules::{least_time, Head, Mode, Plan, Refusal, Request, Station};

/// The allocation and A*, or the number.
fn planned(request: &Request) -> Result<(Vec<u32>, u64), u8> {
    let planned = least_plan(request).map_err(Refusal::number)?;
    let spare = planned.spare();
    Ok((planned.allocation, spare))
}

fn judged(request: &Request, allocation: &[u32]) -> u8 {
    let plan = Plan { request: request.clone(), allocation: allocation.to_vec() };
    plan.judge().map_or_else(Refusal::number, |()| 0)
}

fn alone(grid: u32, longest: u32, deadline: u32) -> Request {
    let head = Head { grid, ..timely(100) };
    Request { head, stations: vec![station(2, longest, deadline, deadline)] }
}

/// The table of the rules at TTRT 100, each S rounded up to the grid.
#[test]
fn the_table_on_a_grid() {
    let rows = [(250, 30, 15), (250, 100, 50), (250, 101, 51), (250, 130, 60), (200, 10, 5)];
    let more = [(60, 10, 50), (60, 0, 0), (100, 20, 20)];
    for (deadline, longest, s) in rows.into_iter().chain(more) {
        for grid in [1, 2, 3, 7, 10, 25, 49, 50, 60, 98] {
            let rounded = u32::div_ceil(s, grid) * grid;
            let expected = if rounded <= 98 { Ok(vec![rounded]) } else { Err(6) };
            let found = planned(&alone(grid, longest, deadline)).map(|(s, _)| s);
            assert_eq!(found, expected, "D {deadline}, C {longest}, g {grid}");
        }
    }
}

/// At S 50 of D 250 the second part begins to count; on a grid of 40 the next S is 80.
#[test]
fn past_the_whole_rotations() {
    assert_eq!(planned(&alone(40, 80, 250)), Ok((vec![40], 58)));
    assert_eq!(planned(&alone(40, 81, 250)), Ok((vec![80], 18)));
    assert_eq!(planned(&alone(99, 80, 250)), Err(6));
    assert_eq!(planned(&alone(1_000, 0, 250)), Ok((vec![0], 98)));
    assert_eq!(planned(&alone(1_000, 1, 250)), Err(6));
}

/// The worked ring has A* 18: four S of 20 may rise to 24, and no further.
#[test]
fn the_worked_ring_on_grids() {
    let on_grid = |grid| {
        let mut request = worked_plan().request;
        request.head.grid = grid;
        planned(&request)
    };
    assert_eq!(on_grid(1), Ok((vec![20; 4], 18)));
    for (grids, s, spare) in [(&[2, 4, 5, 10, 20][..], 20, 18), (&[3, 7], 21, 14)] {
        grids.iter().for_each(|&grid| assert_eq!(on_grid(grid), Ok((vec![s; 4], spare)), "{grid}"));
    }
    assert_eq!(on_grid(24), Ok((vec![24; 4], 2)));
    for (grids, number) in [([13, 25, 1_000], 6), ([0, 1_001, u32::MAX], 4)] {
        grids.iter().for_each(|&grid| assert_eq!(on_grid(grid), Err(number), "{grid}"));
    }
}

#[test]
fn given_vectors() {
    let mut request = worked_plan().request;
    request.head.grid = 4;
    assert_eq!(judged(&request, &[20; 4]), 0);
    assert_eq!(judged(&request, &[20, 24, 28, 24]), 0);
    assert_eq!(judged(&request, &[20, 22, 20, 20]), 7);
    assert_eq!(judged(&request, &[20, 20, 20, 21]), 7);
    assert_eq!(judged(&request, &[20, 16, 20, 20]), 7);
    assert_eq!(judged(&request, &[20, 40, 20, 20]), 7);
    // 4 comes first, and so does 5.
    assert_eq!(judged(&request, &[20, 20, 20, 1_000_001]), 4);
    request.stations[0].walk = 0;
    assert_eq!(judged(&request, &[20, 20, 20, 21]), 5);
    let off = Plan { request: alone(2, 20, 100), allocation: vec![21] };
    assert_eq!(Ring::open(&off, Planted::Nothing).err(), Some(Refusal::RuleBroken));
    assert_eq!(Ring::open(&off, Planted::OffGridOutOfRange).err(), Some(Refusal::OutOfRange));
}

/// Two FDDI stations of D 250: with S from 24 to 48 each has one S and what the other leaves of the
/// rest, 48 together. From C 49 on each S must carry all of C.
#[test]
fn fddi_pairs() {
    let pair = |longest, grid| {
        let stations = vec![station(2, longest, 250, 250), station(0, longest, 250, 250)];
        planned(&Request { head: Head { grid, ..fddi(100) }, stations })
    };
    for (grid, s) in [(1, 20), (5, 20), (24, 24), (15, 30), (25, 25), (48, 48)] {
        assert_eq!(pair(40, grid), Ok((vec![s; 2], 98 - 2 * u64::from(s))), "{grid}");
    }
    assert_eq!(pair(40, 50), Err(6));
    for grid in [1, 7, 49] {
        assert_eq!(pair(49, grid), Ok((vec![49; 2], 0)));
    }
    assert_eq!([2, 5, 10].map(|grid| pair(49, grid).is_err()), [true; 3]);
}

/// A small set of a mode; the deadlines are of none to five rotations.
fn small(random: &mut Random, mode: Mode) -> Request {
    let ttrt = random.between32(1, 12);
    let count = random.index(3) + 1;
    let walk_sum = random.between32(1, ttrt);
    let walks = random.split(walk_sum, count);
    let station = |&walk: &u32| {
        let deadline = random.between32(1, 6 * ttrt);
        let most = random.pick(&[1, 3, 5, 40]);
        station(walk, random.between32(0, most), deadline, deadline)
    };
    let stations = walks.iter().map(station).collect();
    let (frame, grid) = (random.pick(&[1, 1, 2, 3]), random.between32(2, 5));
    Request { head: Head { frame, grid, ..Head::new(ttrt, mode) }, stations }
}

/// Every vector of a sum within the token rule, on the grid or off it.
fn vectors(count: usize, most: u32) -> Vec<Vec<u32>> {
    if count == 0 {
        return vec![vec![]];
    }
    let longer =
        |s: u32| vectors(count - 1, most - s).into_iter().map(move |v| [vec![s], v].concat());
    (0..=most).flat_map(longer).collect()
}

#[test]
fn the_least_of_all_vectors_of_multiples_or_none() {
    let mut counts = [0; 3];
    for place in 0..20_000 {
        let mode = Mode::ALL[place as usize % Mode::ALL.len()];
        let request = small(&mut Random::of_case(32, place), mode);
        let most = request.head.ttrt - request.walk_sum() as u32;
        let all = vectors(request.stations.len(), most);
        let good: Vec<_> = all.iter().filter(|vector| judged(&request, vector) == 0).collect();
        assert!(good.iter().all(|vector| vector.iter().all(|s| s % request.head.grid == 0)));
        match planned(&request) {
            Ok((least, _)) => {
                assert!(good.contains(&&least), "{request:?}: {least:?}");
                let below = |vector: &[u32]| least.iter().zip(vector).all(|(a, b)| a <= b);
                assert!(good.iter().all(|vector| below(vector)), "{request:?}: {least:?}");
                counts[usize::from(least.iter().any(|&s| s > 0))] += 1;
            }
            Err(number) => {
                assert_eq!((number, good.len()), (6, 0), "{request:?}");
                counts[2] += 1;
            }
        }
    }
    assert!(counts.iter().all(|&count| count > 1_000), "{counts:?}");
}

/// Step by step from 0 on, the first multiple that meets the rule.
#[test]
fn the_first_multiple_that_meets_the_rule() {
    let first = |head: &Head, station: &Station| {
        let meets = |s: &u32| {
            least_time(head.ttrt, station.deadline, (*s).into()) >= station.longest.into()
        };
        (0..).step_by(head.grid as usize).find(meets).expect("some S does")
    };
    for place in 0..2_000 {
        let random = &mut Random::of_case(33, place);
        let ttrt = random.between32(20, 2_000);
        let deadline = random.between32(1, 6 * ttrt);
        let request = Request {
            head: Head { grid: random.between32(2, 60), ..timely(ttrt) },
            stations: vec![station(1, random.between32(0, ttrt / 2), deadline, deadline)],
        };
        let s = first(&request.head, &request.stations[0]);
        let fits = s < ttrt;
        let expected = if fits { Ok(vec![s]) } else { Err(6) };
        assert_eq!(planned(&request).map(|(s, _)| s), expected, "{request:?}");
    }
}

/// With g 1 the least multiple is the least of all; what has a plan on a grid has one without, of less.
#[test]
fn a_grid_of_1_is_none() {
    for place in 0..2_000 {
        let mode = Mode::ALL[place as usize % Mode::ALL.len()];
        let mut request = small(&mut Random::of_case(34, place), mode);
        let on_grid = planned(&request);
        request.head.grid = 1;
        let free = planned(&request);
        if let Ok((on_grid, _)) = on_grid {
            let (free, _) = free.clone().expect("a plan on the grid is one without it");
            assert!(free.iter().zip(&on_grid).all(|(a, b)| a <= b));
        }
        let most = request.head.ttrt - request.walk_sum() as u32;
        let all = vectors(request.stations.len(), most);
        let good: Vec<_> = all.iter().filter(|vector| judged(&request, vector) == 0).collect();
        let least = |i: usize| good.iter().map(|vector| vector[i]).min();
        let expected: Option<Vec<_>> = (0..request.stations.len()).map(least).collect();
        assert_eq!(free.ok().map(|(free, _)| free), expected, "{request:?}");
    }
}
