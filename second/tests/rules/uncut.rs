//! Frames that are not cut: what is sent under a limit, the rules with F − 1, and runs, all worked
//! out by hand.

use crate::{fddi, station, timely, worked_plan, worked_request};
use second::frames::answer;
use second::gen::{calls, random::Random, Sort};
use second::planner;
use second::planted::Planted;
use second::ring::{Completed, Message, Ring, StationNumber, Ticks, Visit};
use second::rules::{Ask, Head, Plan, Refusal, Request, Station};
use second::text::Call;

fn ask(frames: u32, length: u32) -> Ask {
    Ask { frames, length }
}

#[test]
fn frames_under_a_limit() {
    let all = |length, limit| ask(u32::MAX, length).sent(limit);
    // Of five ticks each: the last begins at 15, or at 20 if that is below the limit.
    assert_eq!([15, 16, 18, 20, 21].map(|limit| all(5, limit)), [15, 20, 20, 20, 25]);
    assert_eq!([0, 1, 39, 40, 41].map(|limit| all(40, limit)), [0, 40, 40, 40, 80]);
    assert_eq!([0, 1, 18].map(|limit| all(1, limit)), [0, 1, 18]);
    assert_eq!(all(65_535, 1_000_000), 16 * 65_535);
    assert_eq!([0, 1, 3, 4, 5].map(|frames| ask(frames, 5).sent(18)), [0, 5, 15, 20, 20]);
}

/// The smaller of the frames asked for and the limit / length rounded up, times the length.
#[test]
fn frame_by_frame_and_at_once() {
    for place in 0..20_000 {
        let random = &mut Random::of_case(41, place);
        let most = random.pick(&[3, 30, 65_535]);
        let length = random.between32(1, most);
        let limit = random.pick(&[20, 300, 100_000]);
        let limit = random.between(0, limit);
        let frames = random.between(0, limit / u64::from(length) + 2) as u32;
        let whole = u64::from(frames).min(limit.div_ceil(length.into()));
        assert_eq!(ask(frames, length).sent(limit), whole * u64::from(length));
    }
}

fn framed(mut request: Request, frame: u32) -> Request {
    request.head.frame = frame;
    request
}

/// S of each station and A*, or the number.
fn planned(request: &Request) -> Result<(Vec<u32>, u64), u8> {
    let plan = planner::least_plan(request).map_err(Refusal::number)?;
    Ok((plan.allocation.clone(), plan.spare()))
}

/// 18 ticks are spare on the worked ring: F may be 19, which leaves none.
#[test]
fn the_token_rule() {
    let worked = |frame| planned(&framed(worked_request(), frame));
    assert_eq!(worked(1), Ok((vec![20; 4], 18)));
    assert_eq!(worked(2), Ok((vec![20; 4], 17)));
    assert_eq!(worked(19), Ok((vec![20; 4], 0)));
    assert_eq!([20, 99, 100, 65_535].map(worked), [Err(6), Err(6), Err(6), Err(6)]);
    let given = |frame| Plan { request: framed(worked_request(), frame), allocation: vec![20; 4] };
    let judged = |frame| given(frame).judge().map_or_else(Refusal::number, |()| 0);
    assert_eq!([0, 1, 2, 19, 20, 65_535, 65_536].map(judged), [4, 0, 0, 0, 7, 7, 4]);
    assert_eq!(given(20).spare(), 0);
}

/// A frame takes from what is spare even where nobody has an S.
#[test]
fn frames_without_allocations() {
    let lone = |head: fn(u32) -> Head, ttrt| Request {
        head: head(ttrt),
        stations: vec![station(1, 0, 1, 1)],
    };
    // Of A* FDDI does not lose F − 1.
    let modes: [(fn(u32) -> Head, u64); 2] = [(timely, 1), (fddi, 0)];
    for (head, loses) in modes {
        assert_eq!(planned(&framed(lone(head, 3), 3)), Ok((vec![0], 2 - 2 * loses)));
        assert_eq!(planned(&framed(lone(head, 3), 4)), Err(6));
        assert_eq!(planned(&framed(lone(head, 1), 1)), Ok((vec![0], 0)));
        assert_eq!(planned(&framed(lone(head, 1), 2)), Err(6));
        assert_eq!(
            planned(&framed(lone(head, 1_000_000), 65_535)),
            Ok((vec![0], 999_999 - 65_534 * loses))
        );
        assert_eq!(planned(&framed(lone(head, 1_000_000), 65_536)), Err(4));
        assert_eq!(planned(&framed(lone(head, 1_000_000), 0)), Err(4));
        // 4 before 5, and 5 before 6.
        let mut standing = lone(head, 1);
        standing.stations[0].walk = 0;
        assert_eq!(planned(&framed(standing.clone(), 0)), Err(4));
        assert_eq!(planned(&framed(standing, 2)), Err(5));
    }
}

/// In FDDI's rule F − 1 goes with τ. Two stations of D 250, C 48: the rest of 50 holds a second S
/// of both if nothing is lost but τ; with F 2 each pushes the other out of it, and S is all of C.
#[test]
fn fddi_plans() {
    let mut stations = vec![station(0, 48, 250, 250); 2];
    stations[0].walk = 2;
    let pair = Request { head: fddi(100), stations };
    let pair = |frame| framed(pair.clone(), frame);
    assert_eq!(planned(&pair(1)), Ok((vec![24, 24], 50)));
    assert_eq!(planned(&pair(2)), Ok((vec![48, 48], 2)));
    assert_eq!(planned(&pair(3)), Ok((vec![48, 48], 2)));
    assert_eq!(planned(&pair(4)), Err(6));
    let judged = |frame, s: u32| {
        let plan = Plan { request: pair(frame), allocation: vec![s; 2] };
        plan.judge().map_or_else(Refusal::number, |()| 0)
    };
    assert_eq!([judged(1, 24), judged(2, 24), judged(2, 47), judged(2, 48)], [0, 7, 7, 0]);
    // With q 1 the rest alone counts: 99 − 2 − (F − 1) is X.
    let lone = |longest, frame| {
        let stations = vec![station(2, longest, 199, 199)];
        planned(&Request { head: Head { frame, ..fddi(100) }, stations })
    };
    assert_eq!([lone(97, 1), lone(97, 2)], [Ok((vec![97], 1)), Err(6)]);
    assert_eq!(
        [lone(96, 2), lone(58, 40), lone(59, 40)],
        [Ok((vec![96], 2)), Ok((vec![58], 40)), Err(6)]
    );
}

fn open(head: Head, stations: Vec<Station>, allocation: Vec<u32>) -> Ring {
    let plan = Plan { request: Request { head, stations }, allocation };
    Ring::opened(&plan, Planted::Nothing).expect("sound")
}

fn hand_in(ring: &mut Ring, station: u32, length: u64, arrival: u64) {
    let message = Message { station: StationNumber(station), length, arrival };
    ring.hand_in(&message).expect("taken");
}

/// Station, start, TRT, limit, synchronous and asynchronous.
fn visited(ring: &mut Ring, ask: Ask) -> [Ticks; 6] {
    let visit = ring.visit(ask).expect("in time");
    let Visit { station, start, trt, limit, synchronous, asynchronous, .. } = visit;
    [station.0.into(), start, trt, limit, synchronous, asynchronous]
}

/// The worked ring with F 5: A* is 14, and the first station's third frame runs 1 past it. A* less
/// what was sent is −1 then: the limit is 0 until the frames are a rotation ago.
#[test]
fn the_worked_ring_with_frames() {
    let mut plan = worked_plan();
    plan.request.head.frame = 5;
    assert_eq!(plan.spare(), 14);
    let mut ring = Ring::opened(&plan, Planted::Nothing).expect("sound");
    (0..4).for_each(|index| hand_in(&mut ring, index, 20, 0));
    let greedy = ask(1_000, 5);
    assert_eq!(visited(&mut ring, greedy), [0, 0, 2, 14, 20, 15]);
    assert_eq!(visited(&mut ring, greedy), [1, 37, 37, 0, 20, 0]);
    assert_eq!(visited(&mut ring, greedy), [2, 57, 57, 0, 20, 0]);
    assert_eq!(visited(&mut ring, greedy), [3, 77, 77, 0, 20, 0]);
    assert_eq!(visited(&mut ring, greedy), [0, 97, 97, 0, 0, 0]);
    // Two frames of four: 8 of the 14 are used, and 6 are left to the next.
    assert_eq!(visited(&mut ring, ask(2, 4)), [1, 99, 62, 14, 0, 8]);
    assert_eq!(visited(&mut ring, ask(9, 3)), [2, 107, 50, 6, 0, 6]);
    assert_eq!(visited(&mut ring, ask(9, 1)), [3, 113, 36, 0, 0, 0]);
}

/// A* is 40 − 3 − 9 = 28. A frame of F begins one tick below the limit: in all A* + F − 1 are sent, and
/// the token is back just at TTRT.
#[test]
fn a_token_just_in_time() {
    let stations = vec![station(1, 0, 1, 1); 3];
    let mut ring = open(Head { frame: 10, ..timely(40) }, stations, vec![0; 3]);
    assert_eq!(visited(&mut ring, ask(1, 7)), [0, 0, 3, 28, 0, 7]);
    assert_eq!(visited(&mut ring, ask(9, 10)), [1, 8, 10, 21, 0, 30]);
    assert_eq!(visited(&mut ring, ask(9, 10)), [2, 39, 40, 0, 0, 0]);
    assert_eq!(visited(&mut ring, ask(9, 10)), [0, 40, 40, 0, 0, 0]);
    assert_eq!(visited(&mut ring, ask(9, 10)), [1, 41, 33, 0, 0, 0]);
    assert_eq!(visited(&mut ring, ask(9, 10)), [2, 42, 3, 28, 0, 30]);
}

/// FDDI, TTRT 10, F 3: the limit is as before, and a frame that begins below it may run 2 past it.
#[test]
fn fddi_with_frames() {
    let mut ring = open(Head { frame: 3, ..fddi(10) }, vec![station(2, 4, 30, 30)], vec![2]);
    hand_in(&mut ring, 0, 4, 0);
    assert_eq!(visited(&mut ring, ask(100, 3)), [0, 0, 2, 8, 2, 9]);
    assert_eq!((ring.trt(0), ring.late(0)), (3, 1));
    let visit = ring.visit(ask(100, 3)).expect("in time");
    assert_eq!((visit.start, visit.trt, visit.limit, visit.asynchronous), (13, 3, 0, 0));
    assert_eq!(visit.completed, Some(Completed { finish: 15, margin: 15 }));
    assert_eq!(visited(&mut ring, ask(100, 3)), [0, 17, 7, 3, 0, 3]);
    assert_eq!(visited(&mut ring, ask(100, 2)), [0, 22, 5, 5, 0, 6]);
    assert_eq!(visited(&mut ring, ask(2, 2)), [0, 30, 8, 2, 0, 2]);
    assert_eq!((ring.trt(0), ring.late(0)), (4, 0));
}

fn refused(ring: &mut Ring, ask: Ask) -> u8 {
    let before = ring.clone();
    let number = ring.visit(ask).map_or_else(Refusal::number, |_| 0);
    assert!(number == 0 || *ring == before, "a refused call leaves the ring unchanged");
    number
}

#[test]
fn lengths() {
    let ring = |frame| open(Head { frame, ..timely(100) }, vec![station(2, 0, 1, 1)], vec![0]);
    let numbers =
        |frame, lengths: [u32; 5]| lengths.map(|length| refused(&mut ring(frame), ask(0, length)));
    assert_eq!(numbers(1, [0, 1, 2, 3, u32::MAX]), [10, 0, 10, 10, 10]);
    assert_eq!(numbers(5, [0, 1, 5, 6, u32::MAX]), [10, 0, 0, 10, 10]);
    let mut longest =
        open(Head { frame: 65_535, ..timely(70_000) }, vec![station(2, 0, 1, 1)], vec![0]);
    assert_eq!([65_535, 65_536].map(|length| refused(&mut longest, ask(1, length))), [0, 10]);
}

/// 8 before 10, 10 before 13.
#[test]
fn the_order_of_refusals() {
    let number = |state: &str, visit: &str| {
        let said = answer(&format!("state {state};{visit}"), Planted::Nothing);
        said.split('|').next().expect("an answer").to_string()
    };
    let late = "1000000000001,0,9,0;100,1,5;2,0,1,1,0,2,0,0,0,0,0";
    assert_eq!(number(late, "visit 1 6"), "refused 10");
    assert_eq!(number(late, "visit 1 0"), "refused 10");
    assert_eq!(number(late, "visit 1 5"), "refused 13");
    assert_eq!(number(late, "visit 1"), "refused 13");
    for unsound in [
        late.replace("100,1,5", "100,1,100"),
        late.replace("100,1,5", "100,1,0"),
        late.replace("100,1,5", "100,1,65536"),
        late.replace(",0,9,0;", ",1,9,0;"),
        late.replace(",0,9,0;", ",0,9,1;"),
    ] {
        assert_eq!(number(&unsound, "visit 1 0"), "refused 8", "{unsound}");
    }
    // F 99 is sound with τ 2: 98 and 2 are all of TTRT.
    assert_eq!(number(&late.replace("100,1,5", "100,1,99"), "visit 1 99"), "refused 13");
}

/// Runs with F reach what it changes: limits held at 0, frames that run past their limit, and in
/// FDDI tokens that come later than TTRT and all S, up to F − 1 later.
#[test]
fn the_scripts_reach_what_f_changes() {
    let (mut held, mut past, mut refused, mut latest) = (0, 0, 0, i64::MIN);
    for (place, sort) in
        (0..600).flat_map(|place| [(place, Sort::UNCUT), (place, Sort::FDDI_UNCUT)])
    {
        let (plan, script) = calls::script(&mut Random::of_case(3, place), sort);
        let mut ring = Ring::opened(&plan, Planted::Nothing).expect("sound");
        let most = i64::from(plan.request.head.ttrt) + plan.allocated() as i64 + ring.overrun();
        let (mut recent, mut starts) = (vec![0; ring.size()], vec![None; ring.size()]);
        for call in &script {
            let Call::Visit(ask) = call else {
                let Call::HandIn(message) = call else { continue };
                let _ = ring.hand_in(message);
                continue;
            };
            let Ok(visit) = ring.visit(*ask) else {
                refused += 1;
                continue;
            };
            let index = visit.station.index();
            let spare = plan.spare() as i64;
            held += usize::from(!sort.is_fddi() && recent.iter().sum::<i64>() > spare);
            past += usize::from(visit.asynchronous > visit.limit);
            recent[index] = visit.asynchronous;
            if let Some(last) = starts[index].replace(visit.start).filter(|_| sort.is_fddi()) {
                latest = latest.max(visit.start - last - most);
            }
        }
    }
    assert!(held > 1_000 && past > 1_000 && refused > 500, "{held}, {past}, {refused}");
    assert_eq!(latest, 0, "the sharper bound is met, and just met");
}
