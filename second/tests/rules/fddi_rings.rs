//! FDDI's ring: openings, limits and late counts worked out by hand, and calls on any states.

use crate::{fddi, station};
use second::frames::answer;
use second::planted::Planted;
use second::ring::{Completed, Message, Ring, StationNumber, Ticks, Visit};
use second::rules::{Plan, Request, Station};

fn open(ttrt: u32, stations: Vec<Station>, allocation: Vec<u32>) -> Ring {
    let plan = Plan { request: Request { head: fddi(ttrt), stations }, allocation };
    Ring::opened(&plan, Planted::Nothing).expect("sound")
}

/// A lone station of TTRT 10, w 2, C 4, D 30, P 30, S 2: q is 3, and X is 2·S.
fn lone() -> Ring {
    open(10, vec![station(2, 4, 30, 30)], vec![2])
}

fn hand_in(ring: &mut Ring, station: u32, length: u64, arrival: u64) {
    let message = Message { station: StationNumber(station), length, arrival };
    ring.hand_in(&message).expect("taken");
}

/// Station, start, TRT, limit, synchronous and asynchronous; finish and margin; then the timer and
/// count that the visit leaves.
type Row = ([Ticks; 6], Option<(Ticks, Ticks)>, (Ticks, Ticks));

fn visited(ring: &mut Ring, ask: u32) -> Row {
    let visit = ring.visit(ask).expect("in time");
    let Visit { station, start, trt, limit, synchronous, asynchronous, completed } = visit;
    let completed = completed.map(|Completed { finish, margin }| (finish, margin));
    let index = station.index();
    let row = [station.0.into(), start, trt, limit, synchronous, asynchronous];
    (row, completed, (ring.trt(index), ring.late(index)))
}

#[test]
fn a_timer_that_just_reaches_ttrt() {
    let mut ring = lone();
    assert_eq!((ring.trt(0), ring.late(0), ring.unused()), (2, 0, 2));
    // 10 − 2 is sent; with the walk the timer comes to 10: it goes to 0, and the token is late.
    assert_eq!(visited(&mut ring, 100), ([0, 0, 2, 8, 0, 8], None, (0, 1)));
    assert_eq!(visited(&mut ring, 100), ([0, 10, 0, 0, 0, 0], None, (2, 0)));
    assert_eq!(visited(&mut ring, 7), ([0, 12, 2, 8, 0, 7], None, (9, 0)));
    assert_eq!(visited(&mut ring, 7), ([0, 21, 9, 1, 0, 1], None, (3, 0)));
    assert_eq!(ring.unused(), 2);
}

#[test]
fn a_late_token_sends_what_is_synchronous_and_the_timer_runs_on() {
    let mut ring = lone();
    hand_in(&mut ring, 0, 4, 0);
    assert_eq!(visited(&mut ring, 100), ([0, 0, 2, 8, 2, 8], None, (2, 1)));
    assert_eq!(visited(&mut ring, 100), ([0, 12, 2, 0, 2, 0], Some((14, 16)), (6, 0)));
    assert_eq!(visited(&mut ring, 100), ([0, 16, 6, 4, 0, 4], None, (6, 0)));
}

#[test]
fn timers_that_start_at_ttrt() {
    let ring = open(4, vec![station(4, 0, 1, 1)], vec![0]);
    assert_eq!((ring.trt(0), ring.late(0)), (0, 1));
    // Every rotation takes a whole TTRT: each token is late, and nothing is given.
    let mut ring = ring;
    assert_eq!(visited(&mut ring, 9), ([0, 0, 0, 0, 0, 0], None, (0, 1)));
    assert_eq!(visited(&mut ring, 9), ([0, 4, 0, 0, 0, 0], None, (0, 1)));
    // Stations 0 and 1 start at TTRT, station 2 at 1.
    let stations = vec![station(0, 0, 1, 1), station(3, 0, 1, 1), station(1, 0, 1, 1)];
    let mut ring = open(4, stations, vec![0; 3]);
    let timers = |ring: &Ring| [0, 1, 2].map(|index| (ring.trt(index), ring.late(index)));
    assert_eq!(timers(&ring), [(0, 1), (0, 1), (1, 0)]);
    assert_eq!(visited(&mut ring, 9), ([0, 0, 0, 0, 0, 0], None, (0, 0)));
    assert_eq!(visited(&mut ring, 9), ([1, 0, 0, 0, 0, 0], None, (3, 0)));
    // Station 2's timer was at 1 and has reached TTRT in these 3 ticks.
    assert_eq!(timers(&ring), [(3, 0), (3, 0), (0, 1)]);
    assert_eq!(visited(&mut ring, 9), ([2, 3, 0, 0, 0, 0], None, (1, 0)));
    assert_eq!(timers(&ring), [(0, 1), (0, 1), (1, 0)]);
}

/// Two stations of TTRT 10, w 1, D 30: S may be 3 each. The token is late by all the others' S.
#[test]
fn two_stations() {
    let mut ring = open(10, vec![station(1, 6, 30, 30); 2], vec![3, 3]);
    assert_eq!([0, 1].map(|index| ring.trt(index)), [2, 1]);
    hand_in(&mut ring, 0, 6, 0);
    hand_in(&mut ring, 1, 6, 0);
    assert_eq!(visited(&mut ring, 100), ([0, 0, 2, 8, 3, 8], None, (2, 1)));
    assert_eq!(visited(&mut ring, 100), ([1, 12, 3, 0, 3, 0], None, (7, 0)));
    assert_eq!((ring.trt(0), ring.late(0)), (6, 1));
    assert_eq!(visited(&mut ring, 100), ([0, 16, 6, 0, 3, 0], Some((19, 11)), (0, 1)));
    assert_eq!((ring.trt(1), ring.late(1)), (1, 1));
    assert_eq!(visited(&mut ring, 100), ([1, 20, 1, 0, 3, 0], Some((23, 7)), (5, 0)));
    assert_eq!(visited(&mut ring, 100), ([0, 24, 4, 0, 0, 0], None, (5, 0)));
}

fn answered(state: &str) -> String {
    answer(&format!("state {state}"), Planted::Nothing)
}

/// TTRT 100. Both stations: C 20, D 200, P 200, S 20. The token is at station 0, which holds 20.
const SOUND: &str =
    "1000,0,9,7;100,2;2,20,200,200,20,30,12,20,1,700,960;0,20,200,200,20,99,0,0,0,0,5,3";

/// The state with one text in it changed.
fn with(from: &str, to: &str) -> String {
    assert_eq!(SOUND.matches(from).count(), 1, "{from}");
    SOUND.replace(from, to)
}

#[test]
fn margins_below_0_at_0_and_above() {
    let rest = "20,0,1,ARRIVAL,1000;28,0,0,0,0,5,4";
    for (arrival, margin) in [(700, -120), (819, -1), (820, 0), (821, 1), (1000, 180)] {
        let state = with("1,700", &format!("1,{arrival}"));
        let rest = rest.replace("ARRIVAL", &arrival.to_string());
        assert_eq!(
            answered(&format!("{state};visit 7")),
            format!("visit 0 1000 30 70 20 7 1020 {margin}|1029,1,10,7;29,{rest}")
        );
    }
}

#[test]
fn counts_are_lowered_one_at_a_time() {
    // Station 1's count falls from 3; its timer has run on. u is as it was.
    let state = with("2,20,200,200,20,30,12,20,1,700,960", "2,20,200,200,20,0,0,0,0,0,0")
        .replace("1000,0,9", "1000,1,9");
    assert_eq!(
        answered(&format!("{state};visit 7")),
        "visit 1 1000 99 0 0 0 - -|1000,0,10,7;0,0,0,0,0,0;99,0,0,0,0,1000,2"
    );
    // With count 0 its timer is the holding time.
    let state = state.replace(",5,3", ",5");
    assert_eq!(
        answered(&format!("{state};visit 7")),
        "visit 1 1000 99 1 0 1 - -|1001,0,10,7;1,0,0,0,0,0;1,0,0,0,0,1000"
    );
}

/// One visit may raise a count by 2, and leave the state unsound.
#[test]
fn counts_past_3() {
    let state = with("2,20,200,200,20,30", "2,20,200,200,20,0");
    assert_eq!(
        answered(&format!("{state};visit 200;visit 0;message 0 20 5000")),
        "visit 0 1000 0 100 20 100 1020 -120|refused 8|refused 8|\
         1122,1,10,7;22,20,0,1,700,1000,1;21,0,0,0,0,5,5"
    );
}

/// Each line of the unsound states that FDDI has of its own, and those that it does not have.
#[test]
fn unsound_states() {
    let numbers = |state: &str| {
        let said = answered(&format!("{state};message 2 1 0;visit 0"));
        let words: Vec<&str> = said.split('|').take(2).map(|word| &word[..9]).collect();
        words.join(", ")
    };
    let (sound, unsound) = ("refused 9, visit 0 1", "refused 8, refused 8");
    for (from, to) in [
        ("2,20,200,200,20,30", "2,20,200,200,20,99"),
        (",9,7;", ",9,0;"),
        (",9,7;", ",9,18446744073709551615;"),
        (",5,3", ",5,2"),
        (",5,3", ",5"),
    ] {
        assert_eq!(numbers(&with(from, to)), sound, "{to}");
    }
    for (from, to) in [
        ("2,20,200,200,20,30", "2,20,200,200,20,100"),
        (",5,3", ",5,4"),
        (",5,3", ",5,4294967295"),
        ("20,30,12,", "20,30,21,"),
        ("12,20,1", "12,21,1"),
        ("100,2;", "100,0;"),
        ("100,2;", "100,3;"),
        ("100,2;", "100,258;"),
        ("100,2;", "100,1;"),
        ("200,20,99", "200,19,99"),
        ("1,700", "1,1000000000001"),
        ("1000,0,", "1000,2,"),
    ] {
        assert_eq!(numbers(&with(from, to)), unsound, "{to}");
    }
}

/// A timely-token ring keeps late counts and never looks at them.
#[test]
fn late_counts_of_a_timely_token_ring() {
    let timely = with("100,2;", "100;").replace(",9,7;", ",9,28;") + "000;visit 7";
    assert_eq!(
        answered(&timely),
        "visit 0 1000 30 42 20 7 1020 -120|1029,1,10,20;29,20,0,1,700,1000;128,0,0,0,0,5,3000"
    );
}
