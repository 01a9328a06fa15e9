use crate::{station, timely, worked_plan};
use second::planted::Planted;
use second::ring::{Completed, Message, Ring, StationNumber, Ticks, Visit};
use second::rules::{Plan, Refusal, Request, LAST_TIME};

fn open(plan: &Plan) -> Ring {
    Ring::open(plan, Planted::Nothing).expect("sound")
}

fn message(station: u32, length: u64, arrival: u64) -> Message {
    Message { station: StationNumber(station), length, arrival }
}

fn hand_in(ring: &mut Ring, station: u32, length: u64, arrival: u64) -> u8 {
    let before = ring.clone();
    let answer = ring.hand_in(&message(station, length, arrival));
    assert!(answer.is_ok() || *ring == before, "a refused call leaves the ring unchanged");
    answer.map_or_else(Refusal::number, |()| 0)
}

/// A lone station of TTRT 10, w 2, C 4, D 20, P 30; S is 2 and A* is 6.
fn lone() -> Ring {
    let request = Request { head: timely(10), stations: vec![station(2, 4, 20, 30)] };
    open(&Plan { request, allocation: vec![2] })
}

#[test]
fn the_worked_run() {
    let rows: [[Ticks; 8]; 6] = [
        [0, 0, 2, 18, 20, 18, 20, 80],
        [1, 40, 40, 0, 20, 0, 60, 40],
        [2, 60, 60, 0, 20, 0, 80, 20],
        [3, 80, 80, 0, 20, 0, 100, 0],
        [0, 100, 100, 0, 20, 0, 120, 80],
        [1, 122, 82, 18, 20, 18, 142, 58],
    ];
    let mut ring = open(&worked_plan());
    (0..4).for_each(|index| assert_eq!(hand_in(&mut ring, index, 20, 0), 0));
    for [index, start, trt, limit, synchronous, asynchronous, finish, margin] in rows {
        let completed = Some(Completed { finish, margin });
        let station = StationNumber(index as u32);
        let row = Visit { station, start, trt, limit, synchronous, asynchronous, completed };
        assert_eq!(ring.visit(1_000), Ok(row));
        match start {
            0..=79 => assert_eq!(hand_in(&mut ring, index as u32, 20, 100), 15),
            // The clock has reached 100.
            80 => (0..4).for_each(|index| assert_eq!(hand_in(&mut ring, index, 20, 100), 0)),
            _ => assert_eq!(hand_in(&mut ring, index as u32, 20, 100), 12),
        }
    }
}

#[test]
fn the_opening() {
    let stations = vec![station(3, 0, 1, 1), station(0, 9, 100, 100), station(4, 5, 100, 100)];
    let plan = Plan { request: Request { head: timely(100), stations }, allocation: vec![7, 9, 5] };
    let ring = open(&plan);
    assert_eq!((ring.clock(), ring.token(), ring.visits(), ring.unused()), (0, 0, 0, 21));
    assert_eq!([0, 1, 2].map(|index| ring.trt(index)), [7, 4, 4]);
    assert!((0..3).all(|index| ring.sent(index) == 0 && ring.held(index).is_none()));
}

#[test]
fn a_refused_opening() {
    let number = |change: fn(&mut Plan)| {
        let mut plan = worked_plan();
        change(&mut plan);
        Ring::open(&plan, Planted::Nothing).map_or_else(Refusal::number, |_| 0)
    };
    assert_eq!(number(|plan| plan.request.stations.clear()), 2);
    assert_eq!(number(|plan| plan.request.stations[1].deadline = 0), 4);
    assert_eq!(number(|plan| plan.request.stations[0].walk = 0), 5);
    assert_eq!(number(|plan| plan.allocation[0] = 19), 7);
}

#[test]
fn stations_and_lengths() {
    let mut ring = lone();
    assert_eq!(hand_in(&mut ring, 1, 0, LAST_TIME + 1), 9);
    assert_eq!(hand_in(&mut ring, u32::MAX, 1, 0), 9);
    assert_eq!(hand_in(&mut ring, 0, 0, LAST_TIME + 1), 10);
    assert_eq!(hand_in(&mut ring, 0, 5, 0), 10);
    assert_eq!(hand_in(&mut ring, 0, u64::MAX, 0), 10);
    assert_eq!(hand_in(&mut ring, 0, 4, 0), 0);
    assert_eq!(hand_in(&mut ring, 0, 5, 0), 10);
    assert_eq!(hand_in(&mut ring, 0, 4, LAST_TIME + 1), 11);
}

#[test]
fn arrivals() {
    let mut ring = lone();
    for ahead in [1, LAST_TIME, LAST_TIME + 1, u64::MAX] {
        assert_eq!(hand_in(&mut ring, 0, 1, ahead), 15);
    }
    assert_eq!(hand_in(&mut ring, 0, 1, 0), 0);
    ring.visit(0).expect("in time");
    assert_eq!(ring.clock(), 3);
    assert_eq!(hand_in(&mut ring, 0, 1, 0), 12);
    // Less than P after 0, but 15 comes before 12.
    assert_eq!([3, 4].map(|arrival| hand_in(&mut ring, 0, 1, arrival)), [12, 15]);
    (0..14).for_each(|_| assert!(ring.visit(0).is_ok()));
    assert_eq!((ring.clock(), ring.last_start(0)), (31, Some(29)));
    assert_eq!([29, 32].map(|arrival| hand_in(&mut ring, 0, 1, arrival)), [12, 15]);
    assert_eq!([30, 31].map(|arrival| hand_in(&mut ring.clone(), 0, 1, arrival)), [0, 0]);
}

#[test]
fn an_arrival_is_later_than_the_last_start() {
    let mut ring = lone();
    ring.visit(3).expect("in time");
    ring.visit(0).expect("in time");
    assert_eq!(ring.last_start(0), Some(5));
    assert_eq!(hand_in(&mut ring, 0, 1, 5), 12);
    assert_eq!(hand_in(&mut ring, 0, 1, 6), 0);
}

#[test]
fn before_its_first_visit_a_station_takes_any_arrival() {
    let stations = vec![station(1, 4, 20, 20), station(0, 4, 20, 20)];
    let request = Request { head: timely(10), stations };
    let mut ring = open(&Plan { request, allocation: vec![2, 2] });
    ring.visit(0).expect("in time");
    assert_eq!(ring.clock(), 1);
    assert_eq!(hand_in(&mut ring, 1, 4, 0), 0);
    assert_eq!(hand_in(&mut ring, 0, 4, 0), 12);
}

#[test]
fn a_message_is_taken_when_the_clock_has_reached_it() {
    let mut ring = lone();
    for (start, ask) in [(0, 0), (2, 1)] {
        assert_eq!(hand_in(&mut ring, 0, 4, 3), 15);
        let waiting = ring.visit(ask).expect("in time");
        assert_eq!((waiting.start, waiting.limit, waiting.synchronous), (start, 6, 0));
    }
    assert_eq!((ring.clock(), hand_in(&mut ring, 0, 4, 3)), (5, 0));
    let mut visit = |ask| ring.visit(ask).expect("in time");
    let begun = visit(0);
    assert_eq!((begun.start, begun.synchronous, begun.completed), (5, 2, None));
    let done = visit(u32::MAX);
    assert_eq!((done.start, done.trt, done.limit, done.asynchronous), (9, 4, 6, 6));
    assert_eq!(done.completed, Some(Completed { finish: 11, margin: 12 }));
}

#[test]
fn the_last_time_at_which_a_visit_may_start() {
    let request = Request { head: timely(1_000_000), stations: vec![station(1_000_000, 0, 1, 1)] };
    let mut ring = open(&Plan { request, allocation: vec![0] });
    for _ in 0..1_000_000 {
        ring.visit(0).expect("in time");
    }
    assert_eq!(ring.clock(), LAST_TIME as Ticks);
    ring.visit(u32::MAX).expect("just in time");
    let before = ring.clone();
    assert_eq!(ring.visit(0), Err(Refusal::ClockPast));
    assert_eq!(ring, before);
    assert_eq!(ring.clock(), LAST_TIME as Ticks + 1_000_000);
}

/// 12 for what is past the range needs a clock that is past it too.
#[test]
fn the_last_arrival() {
    let stations = vec![station(999_990, 0, 1, 1), station(0, 1, 2_000_000, 2_000_000)];
    let request = Request { head: timely(1_000_000), stations };
    let mut ring = open(&Plan { request, allocation: vec![0, 1] });
    while ring.clock() <= LAST_TIME as Ticks {
        ring.visit(u32::MAX).expect("in time");
    }
    let past = ring.clock() as u64;
    assert!(past > LAST_TIME + 1);
    let answers = [past + 1, past, LAST_TIME + 1, LAST_TIME];
    assert_eq!(answers.map(|arrival| hand_in(&mut ring, 1, 1, arrival)), [15, 12, 12, 0]);
}
