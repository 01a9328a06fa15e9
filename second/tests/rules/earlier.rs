//! The 2002 edition: the worked run's set in its order, worked out by hand, and where it differs.

use crate::{composed, earlier, station, worked_plan};
use second::frames::answer;
use second::notation::to_hex;
use second::planted::Planted;
use second::ring::{Completed, Message, Ring, StationNumber, Ticks, Visit};
use second::rules::{Ask, Plan, Refusal, Request, Station};
use second::sheet::{fields, Sheet};
use second::text::show_sheet;

fn open(stations: Vec<Station>, allocation: Vec<u32>, frame: u32) -> Ring {
    let mut head = earlier(100);
    head.frame = frame;
    let plan = Plan { request: Request { head, stations }, allocation };
    Ring::open(&plan, Planted::Nothing).expect("sound")
}

fn worked() -> Plan {
    let mut plan = worked_plan();
    plan.request.head = earlier(100);
    plan
}

fn message(station: u32, length: u64, arrival: u64) -> Message {
    Message { station: StationNumber(station), length, arrival }
}

/// Station, start, TRT, limit, synchronous and asynchronous; finish and margin.
type Row = ([Ticks; 6], Option<(Ticks, Ticks)>);

fn visited(ring: &mut Ring, ask: impl Into<Ask>) -> Row {
    let Visit { station, start, trt, limit, synchronous, asynchronous, completed } =
        ring.visit(ask).expect("in time");
    let completed = completed.map(|Completed { finish, margin }| (finish, margin));
    ([station.0.into(), start, trt, limit, synchronous, asynchronous], completed)
}

/// Station 0 is offered all of A* in every rotation: what it sent itself is not in its timer.
#[test]
fn the_worked_run() {
    let mut ring = Ring::open(&worked(), Planted::Nothing).expect("sound");
    (0..4).for_each(|index| ring.hand_in(&message(index, 20, 0)).expect("taken"));
    let table = [
        ([0, 0, 2, 18, 20, 18], Some((38, 62))),
        ([1, 40, 40, 0, 20, 0], Some((60, 40))),
        ([2, 60, 60, 0, 20, 0], Some((80, 20))),
        ([3, 80, 80, 0, 20, 0], Some((100, 0))),
        ([0, 100, 82, 18, 20, 18], Some((138, 62))),
        ([1, 140, 100, 0, 20, 0], Some((160, 40))),
    ];
    for row in table {
        assert_eq!(visited(&mut ring, 1_000), row);
        if ring.clock() == 100 {
            (0..4).for_each(|index| ring.hand_in(&message(index, 20, 100)).expect("taken"));
        }
    }
    assert_eq!([0, 1, 2, 3].map(|index| ring.trt(index)), [42, 20, 100, 80]);
}

/// TTRT 100, w 1 each; station 0 has C 30, D 250, P 250 and S 15, station 1 has no stream.
fn pair() -> Ring {
    open(vec![station(1, 30, 250, 250), station(1, 0, 100, 100)], vec![15, 0], 1)
}

#[test]
fn a_message_is_looked_at_when_the_synchronous_part_starts() {
    // No run leads to a message that arrives after 0.
    let visit = |arrival: u64, ask: u32| {
        let places = format!("1,30,250,250,15,2,0,30,1,{arrival},0;1,0,100,100,0,1,0,0,0,0,0");
        let said = answer(&format!("state 0,0,0,15;100,3;{places};visit {ask}"), Planted::Nothing);
        said.split('|').next().expect("a visit").to_string()
    };
    for (arrival, sent) in [(0, 15), (83, 15), (84, 0), (85, 0)] {
        assert_eq!(visit(arrival, 1_000), format!("visit 0 0 2 83 {sent} 83 - -"), "{arrival}");
    }
    // With fewer ticks asked for it starts sooner.
    assert_eq!(visit(5, 4), "visit 0 0 2 83 0 4 - -");
}

/// Before the visit it has not arrived, and behind it it is not later than the synchronous part's
/// start.
#[test]
fn none_is_taken_that_arrives_in_the_own_asynchronous_part() {
    let mut ring = pair();
    for arrival in 1..=84 {
        assert_eq!(ring.hand_in(&message(0, 30, arrival)), Err(Refusal::NotArrived));
    }
    assert_eq!(visited(&mut ring, 1_000), ([0, 0, 2, 83, 0, 83], None));
    for arrival in 1..=83 {
        assert_eq!(ring.hand_in(&message(0, 30, arrival)), Err(Refusal::WrongArrival));
    }
    assert_eq!(ring.hand_in(&message(0, 30, 85)), Err(Refusal::NotArrived));
    assert_eq!(ring.hand_in(&message(0, 30, 84)), Ok(()));
}

#[test]
fn the_last_start_is_that_of_the_synchronous_part() {
    let mut ring = pair();
    visited(&mut ring, 1_000);
    assert_eq!((ring.clock(), ring.last_start(0)), (84, Some(83)));
    assert_eq!(ring.hand_in(&message(0, 30, 83)), Err(Refusal::WrongArrival));
    assert_eq!(ring.hand_in(&message(0, 30, 84)), Ok(()));
}

/// A station that asks for all at each of its visits leaves its neighbour nothing, for ever.
#[test]
fn a_neighbour_may_wait_for_ever() {
    let mut ring = pair();
    for rotation in 0..1_000 {
        assert_eq!(visited(&mut ring, u32::MAX), ([0, 85 * rotation, 2, 83, 0, 83], None));
        assert_eq!(visited(&mut ring, u32::MAX).0[3], 0);
    }
}

/// F 16: 80 ticks are sent at a limit of 65, and the token is back after just TTRT.
#[test]
fn frames_run_on_past_the_limit() {
    let stations = vec![station(2, 34, 250, 250), station(1, 0, 100, 100)];
    let mut ring = open(stations, vec![17, 0], 16);
    ring.hand_in(&message(0, 34, 0)).expect("taken");
    let frames = Ask { frames: 1_000, length: 16 };
    assert_eq!(visited(&mut ring, frames), ([0, 0, 3, 65, 17, 80], None));
    assert_eq!(visited(&mut ring, frames), ([1, 99, 100, 0, 0, 0], None));
    assert_eq!(visited(&mut ring, frames), ([0, 100, 20, 65, 17, 80], Some((197, 53))));
}

#[test]
fn a_state() {
    // The token is at station 0, which holds 20 that arrive at 1018: in its own 18 ticks.
    let state =
        "1000,0,9,8;100,3;2,20,100,100,20,70,12,20,1,1018,960;0,20,100,100,20,99,20,0,0,0,5";
    assert_eq!(
        answer(&format!("state {state};visit 18"), Planted::Nothing),
        "visit 0 1000 70 22 20 18 1038 80|1040,1,10,0;22,20,0,1,1018,1018;139,20,0,0,0,5"
    );
    // One tick later it is not sent; TRT of station 1 is then too large.
    assert_eq!(
        answer(&format!("state {state};visit 17;visit 1"), Planted::Nothing),
        "visit 0 1000 70 22 0 17 - -|refused 8|1019,1,10,20;2,0,20,1,1018,1017;118,20,0,0,0,5"
    );
}

#[test]
fn sheets_and_texts() {
    let plan = worked();
    let sheet = fields(&plan.request, &plan.allocation).concat();
    assert_eq!(sheet[7..11], [4, 0, 1, 3]);
    let text = show_sheet(&Sheet::Plan(plan));
    assert!(text.starts_with("ttrt 100\nmode 3\nstation 2 20 100 100 20\n"));
    assert_eq!(composed(&text), Ok(sheet.clone()));
    let asked = |case: &str| answer(&format!("{case} {}", to_hex(&sheet)), Planted::Nothing);
    assert!(asked("plan").starts_with("0 4 100,3;"));
    assert_eq!(asked("ring"), "0 0,0,0,80;2,0,0,0,0,0;0,0,0,0,0,0;0,0,0,0,0,0;0,0,0,0,0,0");
    let set = "100,3;2,20,100,100;0,20,100,100;0,20,100,100;0,20,100,100";
    assert_eq!(answer(&format!("planning {set}"), Planted::Nothing), "0 18 20,20,20,20");
}
