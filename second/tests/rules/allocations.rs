use crate::{station, timely};
use second::gen::{random::Random, sets, Sort};
use second::planner;
use second::planted::Planted;
use second::rules::{least_time, Plan, Refusal, Request};

fn plan(request: &Request) -> Result<Plan, Refusal> {
    planner::plan(request, Planted::Nothing)
}

fn lone(ttrt: u32, walk: u32, deadline: u32, longest: u32) -> Request {
    Request { head: timely(ttrt), stations: vec![station(walk, longest, deadline, deadline)] }
}

/// S of a lone station, wherever the token rule allows it.
fn smallest(ttrt: u32, deadline: u32, longest: u32) -> u32 {
    plan(&lone(ttrt, 1, deadline, longest)).expect("feasible").allocation[0]
}

#[test]
fn the_table_at_ttrt_100() {
    let rows = [
        (250, 30, 15),
        (250, 100, 50),
        (250, 101, 51),
        (250, 130, 60),
        (200, 10, 5),
        (60, 10, 50),
        (60, 0, 0),
        (100, 20, 20),
    ];
    for (deadline, longest, s) in rows {
        assert_eq!(smallest(100, deadline, longest), s, "D {deadline}, C {longest}");
    }
}

#[test]
fn two_stations_fit_exactly_and_then_not() {
    let pair =
        |longest| Request { head: timely(100), stations: vec![station(1, longest, 60, 60); 2] };
    let fits = plan(&pair(9)).expect("feasible");
    assert_eq!((fits.allocation.clone(), fits.spare()), (vec![49, 49], 0));
    assert_eq!(plan(&pair(10)), Err(Refusal::NoAllocation));
}

#[test]
fn the_shortest_ring() {
    let plan_of = |longest| plan(&lone(1, 1, 1, longest)).map(|plan| plan.allocation);
    assert_eq!(plan_of(0), Ok(vec![0]));
    assert_eq!(plan_of(1), Err(Refusal::NoAllocation));
}

#[test]
fn the_search_finds_what_trying_every_s_finds() {
    for ttrt in 1..=7 {
        for deadline in 1..=24 {
            for longest in 0..=30 {
                let enough = |&s: &u64| least_time(ttrt, deadline, s) >= u64::from(longest);
                let tried = (0u64..).find(enough).expect("some S is enough");
                let expected = if tried < u64::from(ttrt) { Ok(tried as u32) } else { Err(6) };
                let answer = plan(&lone(ttrt, 1, deadline, longest));
                let found = answer.map(|plan| plan.allocation[0]).map_err(Refusal::number);
                assert_eq!(found, expected, "TTRT {ttrt}, D {deadline}, C {longest}");
            }
        }
    }
}

#[test]
fn every_s_of_a_plan_is_the_smallest() {
    for place in 0..1_000 {
        let request = sets::feasible(&mut Random::of_case(8, place), Sort::TIMELY);
        let smallest = plan(&request).expect("feasible");
        assert_eq!(smallest.judge(), Ok(()));
        for index in 0..smallest.allocation.len() {
            let mut less = smallest.clone();
            less.allocation[index] = less.allocation[index].saturating_sub(1);
            assert!(less == smallest || less.judge() == Err(Refusal::RuleBroken));
        }
    }
}

#[test]
fn an_s_beyond_the_range_of_s_is_number_6() {
    assert_eq!(plan(&lone(1_000_000, 1, 1, 100_000_000)), Err(Refusal::NoAllocation));
    let long = lone(1_000_000, 1, 100_000_000, 100_000_000);
    assert_eq!(plan(&long), Err(Refusal::NoAllocation));
}

#[test]
fn a_given_allocation_breaks_the_token_or_the_deadline_rule() {
    let judged = |s| Plan { request: lone(100, 40, 60, 10), allocation: vec![s] }.judge();
    assert_eq!(judged(49), Err(Refusal::RuleBroken));
    assert_eq!(judged(50), Ok(()));
    assert_eq!(judged(60), Ok(()));
    assert_eq!(judged(61), Err(Refusal::RuleBroken));
}

fn with(change: impl FnOnce(&mut Plan)) -> u8 {
    let mut plan = Plan { request: lone(100, 2, 100, 20), allocation: vec![20] };
    plan.request.stations[0].gap = 150;
    change(&mut plan);
    plan.judge().map_or_else(Refusal::number, |()| 0)
}

#[test]
fn ranges_at_both_ends_and_one_past() {
    assert_eq!(with(|plan| plan.request.head.ttrt = 0), 4);
    assert_eq!(with(|plan| plan.request.head.ttrt = 1_000_000), 7);
    assert_eq!(with(|plan| plan.request.head.ttrt = 1_000_001), 4);
    assert_eq!(with(|plan| plan.request.stations[0].walk = 1_000_000), 5);
    assert_eq!(with(|plan| plan.request.stations[0].walk = 1_000_001), 4);
    assert_eq!(with(|plan| plan.request.stations[0].longest = 0), 0);
    assert_eq!(with(|plan| plan.request.stations[0].longest = 100_000_000), 7);
    assert_eq!(with(|plan| plan.request.stations[0].longest = 100_000_001), 4);
    assert_eq!(with(|plan| plan.request.stations[0].deadline = 0), 4);
    assert_eq!(with(|plan| plan.request.stations[0].deadline = 150), 0);
    assert_eq!(with(|plan| plan.request.stations[0].deadline = 151), 4);
    assert_eq!(with(|plan| plan.request.stations[0].gap = 99), 4);
    assert_eq!(with(|plan| plan.request.stations[0].gap = 100), 0);
    assert_eq!(with(|plan| plan.request.stations[0].gap = 100_000_000), 0);
    assert_eq!(with(|plan| plan.request.stations[0].gap = 100_000_001), 4);
    assert_eq!(with(|plan| plan.allocation[0] = 1_000_000), 7);
    assert_eq!(with(|plan| plan.allocation[0] = 1_000_001), 4);
}

#[test]
fn walk_sum_and_counts() {
    assert_eq!(with(|plan| plan.request.stations[0].walk = 0), 5);
    assert_eq!(with(|plan| plan.request.stations[0].walk = 80), 0);
    assert_eq!(with(|plan| plan.request.stations[0].walk = 81), 7);
    assert_eq!(with(|plan| plan.request.stations[0].walk = 100), 7);
    assert_eq!(with(|plan| plan.request.stations[0].walk = 101), 5);
    assert_eq!(with(|plan| plan.allocation.push(0)), 2);
    assert_eq!(with(|plan| plan.request.stations.clear()), 2);
    let many =
        |count| Request { head: timely(200), stations: vec![station(1, 0, 1, 1); count] }.judge();
    assert_eq!(many(128), Ok(()));
    assert_eq!(many(129), Err(Refusal::WrongField));
}

#[test]
fn the_lowest_number_is_given() {
    assert_eq!(with(|plan| (plan.request.head.ttrt, plan.allocation[0]) = (1, 1_000_001)), 4);
    assert_eq!(with(|plan| (plan.request.head.ttrt, plan.allocation[0]) = (1, 0)), 5);
}
