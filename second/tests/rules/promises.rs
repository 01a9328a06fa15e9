//! The promises of every run, on thousands of generated runs.

use std::collections::HashMap;

use second::check::WatchedRing;
use second::frames::answer;
use second::gen::{calls, random::Random, Kind, Sort};
use second::planted::Planted;
use second::ring::Ring;
use second::rules::{Refusal, LAST_TIME};
use second::text::{Answer, Call};
use second::waits;

/// How often each answer was given: its number, or 0 for taken, 100 for a completion and 102 for
/// one after the deadline; 103 for a marking, 104 for one that took a message back, 105 for an
/// unmarking.
type Counts = HashMap<u8, usize>;

fn follow(place: u64, sort: Sort, counts: &mut Counts) {
    let (plan, script) = calls::script(&mut Random::of_case(1, place), sort);
    let ring = Ring::opened(&plan, Planted::Nothing).expect("sound");
    let mut ring = WatchedRing::new(ring, Planted::Nothing);
    for call in &script {
        let before = ring.ring().clone();
        let (answer, broken) = ring.checked(call);
        assert!(broken.is_empty(), "run {place} breaks {broken:?} at {call}");
        if answer.is_err() {
            assert_eq!(*ring.ring(), before);
        }
        *counts.entry(kind(&answer)).or_default() += 1;
    }
}

fn kind(answer: &Result<Answer, Refusal>) -> u8 {
    match answer {
        Ok(Answer::Taken) => 0,
        Ok(Answer::Visited(visit)) if visit.completed.is_some_and(|done| done.margin < 0) => 102,
        Ok(Answer::Visited(visit)) if visit.completed.is_some() => 100,
        Ok(Answer::Visited(_)) => 101,
        Ok(Answer::Marked(None)) => 103,
        Ok(Answer::Marked(Some(_))) => 104,
        Ok(Answer::Unmarked) => 105,
        Err(refusal) => refusal.number(),
    }
}

#[test]
fn thousands_of_runs_keep_every_promise() {
    for sort in Sort::ALL {
        let mut counts = Counts::new();
        (0..2_000).for_each(|place| follow(place, sort, &mut counts));
        let kinds = [0, 9, 10, 11, 12, 15, 100, 101, 103, 104, 105];
        let kinds = if sort.marked { &kinds[..] } else { &kinds[..8] };
        for kind in kinds {
            assert!(counts[kind] > 1_000, "{sort:?}, {kind}: {counts:?}");
        }
        assert_eq!(counts.len(), kinds.len(), "{sort:?}: {counts:?}");
    }
}

/// What the scripts reach: asks at both ends, margins of 0 or 1, messages at the clock and a tick
/// ahead of it, such as are refused twice over, and the reasons for number 12.
#[test]
fn the_scripts_reach_the_edges() {
    let mut reached = [0; 8];
    for place in 0..1_000 {
        let (plan, script) = calls::script(&mut Random::of_case(2, place), Sort::TIMELY);
        let mut ring = Ring::opened(&plan, Planted::Nothing).expect("sound");
        script.iter().for_each(|call| count_edges(&mut ring, call, &mut reached));
    }
    assert!(reached.iter().all(|&times| times > 50), "{reached:?}");
}

fn count_edges(ring: &mut Ring, call: &Call, reached: &mut [usize; 8]) {
    match call {
        Call::Visit(ask) => {
            let visit = ring.visit(*ask).expect("in time");
            reached[0] += usize::from(ask.frames == 0);
            reached[1] += usize::from(ask.frames == u32::MAX);
            reached[2] += usize::from(visit.completed.is_some_and(|done| done.margin <= 1));
        }
        Call::HandIn(message) => {
            let answer = ring.hand_in(message);
            let index = message.station.index();
            let refused = answer == Err(Refusal::WrongArrival);
            let ahead = answer == Err(Refusal::NotArrived);
            let arrival = i128::from(message.arrival);
            let clock = i128::from(ring.clock());
            let before_visit =
                refused && ring.last_start(index).is_some_and(|last| arrival <= last.into());
            let soon = ahead && arrival < ring.earliest_arrival(index).into();
            reached[3] += usize::from(answer.is_ok() && arrival == clock);
            reached[4] += usize::from(ahead && arrival == clock + 1);
            reached[5] += usize::from(before_visit);
            reached[6] += usize::from(refused && !before_visit);
            reached[7] += usize::from(soon || ahead && message.arrival > LAST_TIME);
        }
        Call::Mark(_) | Call::Unmark(_) => unreachable!("no station of this sort is marked"),
    }
}

/// No station waits longer for asynchronous time than is proved, and small rings wait as long.
#[test]
fn waits_for_asynchronous_time() {
    let sizes = waits::longest(1, 3_000);
    for (&size, longest) in &sizes {
        let rotations = size as u64 + 1;
        assert!(longest.visits <= size as u64 * rotations, "N {size}: {longest:?}");
        assert!(longest.ticks <= rotations as i64 * longest.ttrt, "N {size}: {longest:?}");
    }
    for size in 1..=5 {
        assert_eq!(sizes[&size].visits, size as u64 * (size as u64 + 1));
    }
}

#[test]
fn a_clock_at_the_last_time() {
    let answers = |sort, place| answer(&Kind::Late.case(sort, 1, place)[0], Planted::Nothing);
    for place in 0..12 {
        let answers = answers(Sort::ALL[place as usize / 2], place);
        assert!(answers.contains("|refused 13"), "{answers}");
    }
    for sort in [Sort::GRID, Sort::FDDI_GRID, Sort::EARLIER_GRID] {
        assert!((0..4).any(|place| answers(sort, place).contains("|refused 13")), "{sort:?}");
    }
}

#[test]
fn the_extremes_are_among_the_rings() {
    let mut sizes = HashMap::<usize, usize>::new();
    let (mut shortest, mut no_walk) = (0, 0);
    for place in 0..3_000 {
        let (plan, _) = calls::script(&mut Random::of_case(1, place), Sort::TIMELY);
        *sizes.entry(plan.allocation.len()).or_default() += 1;
        shortest += usize::from(plan.request.head.ttrt == 1);
        no_walk += usize::from(plan.request.stations.iter().any(|station| station.walk == 0));
    }
    assert!(sizes[&1] > 100 && sizes[&128] > 20 && shortest > 20 && no_walk > 100);
}
