//! Stations that are switched through: the calls and visits worked out by hand, in rings from an
//! opening and in states that no run leads to; texts, recorded logs, and the checker.

use crate::logs::{entry, mark};
use crate::{earlier, fddi, station, worked_plan};
use second::check::WatchedRing;
use second::frames::answer;
use second::inspect::{inspected, Rule};
use second::log::log_of;
use second::notation::to_hex;
use second::planted::Planted;
use second::ring::{Held, Message, Ring, StationNumber};
use second::rules::{Entry, Head, Plan, Refusal, Request};
use second::sheet::write_plan;
use second::text::{answer_line, call, Answer, Call};

/// The answers of a ring to calls, each as its line; the promises are checked.
fn answers(plan: &Plan, calls: &str) -> Vec<String> {
    let ring = Ring::opened(plan, Planted::Nothing).expect("sound");
    let mut ring = WatchedRing::new(ring, Planted::Nothing);
    let read = |line: &str| call(&line.split(' ').map(str::as_bytes).collect::<Vec<_>>());
    let calls = calls.split(';').map(|line| read(line).expect("a call"));
    calls.map(|call| answer_line(ring.answer(&call))).collect()
}

/// A lone station of w 2, C 20, D 250, P 250 and S 10.
fn lone(head: Head) -> Plan {
    let request = Request { head, stations: vec![station(2, 20, 250, 250)] };
    Plan { request, allocation: vec![10] }
}

#[test]
fn marking_withdraws_what_is_unsent() {
    let plan = lone(crate::timely(100));
    let said = answers(&plan, "message 0 20 0;visit 0;mark 0;mark 0;visit 9;unmark 0;visit 0");
    assert_eq!(
        said,
        [
            "taken",
            "visit 0 0 2 88 10 0 - -",
            "marked withdrawn 10 0",
            "marked",
            "visit 0 12 12 0 0 0 - -",
            "unmarked",
            "visit 0 14 2 88 0 0 - -"
        ]
    );
    // The withdrawn message's arrival counts for the next one, though nothing of it was sent.
    let said = answers(
        &plan,
        "visit 5;message 0 20 7;mark 0;message 0 20 300;unmark 0;message 0 20 256;visit 83;visit 0;\
         visit 88;visit 0;visit 88;message 0 20 256;message 0 20 257",
    );
    let said: Vec<&str> =
        said.iter().map(String::as_str).filter(|line| !line.starts_with("visit")).collect();
    let refused = ["taken", "marked withdrawn 20 7", "refused 11", "unmarked", "refused 15"];
    assert_eq!(said, [&refused[..], &["refused 12", "taken"]].concat());
}

#[test]
fn numbers() {
    let said = answers(&worked_plan(), "mark 4;unmark 4;mark 4294967295;unmark 3;mark 3;unmark 3");
    assert_eq!(said, ["refused 9", "refused 9", "refused 9", "unmarked", "marked", "unmarked"]);
    // 9 and 10 before 11, and 11 before 12.
    let said = answers(
        &worked_plan(),
        "mark 0;message 4 20 0;message 0 21 0;message 0 20 1000000000001;message 1 20 0",
    );
    assert_eq!(said, ["marked", "refused 9", "refused 10", "refused 11", "taken"]);
}

/// Timers move as those of an idle station: FDDI's late token lowers the count, the next sets the
/// timer to 0; in the 2002 edition the synchronous part begins at once.
#[test]
fn each_mode() {
    let request = Request { head: fddi(10), stations: vec![station(2, 4, 30, 30)] };
    let plan = Plan { request, allocation: vec![2] };
    let said = answers(&plan, "visit 8;mark 0;visit 8;visit 8;unmark 0;visit 8");
    assert_eq!(
        said,
        [
            "visit 0 0 2 8 0 8 - -",
            "marked",
            "visit 0 10 0 0 0 0 - -",
            "visit 0 12 2 0 0 0 - -",
            "unmarked",
            "visit 0 14 2 8 0 8 - -"
        ]
    );
    let said = answers(
        &lone(earlier(100)),
        "visit 10;mark 0;visit 88;message 0 20 12;unmark 0;message 0 20 12;message 0 20 13",
    );
    assert_eq!(
        said,
        [
            "visit 0 0 2 88 0 10 - -",
            "marked",
            "visit 0 12 2 0 0 0 - -",
            "refused 11",
            "unmarked",
            "refused 12",
            "taken"
        ]
    );
    // The length of the frames is judged all the same.
    let framed = lone(Head { frame: 5, ..crate::timely(100) });
    let said = answers(&framed, "mark 0;visit 9 6;visit 9 0;visit 9 5");
    assert_eq!(said, ["marked", "refused 10", "refused 10", "visit 0 0 2 0 0 0 - -"]);
}

#[test]
fn answers_of_the_calls() {
    let mut ring = Ring::open(&worked_plan(), Planted::Nothing).expect("sound");
    let station = StationNumber(1);
    ring.visit(1).expect("in time");
    ring.hand_in(&Message { station, length: 7, arrival: 3 }).expect("taken");
    let held = Some(Held { remaining: 7, arrival: 3 });
    assert_eq!(Call::Mark(station).answer(&mut ring), Ok(Answer::Marked(held)));
    assert!(ring.marked(1) && ring.held(1).is_none() && ring.last_accepted(1) == Some(3));
    assert_eq!(ring.mark(station), Ok(None));
    assert_eq!(ring.unmark(station), Ok(()));
    assert!(!ring.marked(1));
    assert_eq!(ring.mark(StationNumber(4)), Err(Refusal::NoSuchStation));
}

fn of_state(state: &str) -> String {
    answer(&format!("state {state}"), Planted::Nothing)
}

/// A marked station that holds a message, which no run leads to: it keeps it, and any byte but 0 is a
/// mark.
#[test]
fn states_with_marks() {
    let held = "1000,0,9,10;100;2,20,250,250,20,30,10,15,1,900,960";
    let through = "visit 0 1000 30 0 0 0 - -";
    for mark in [1, 2, 128, 255] {
        assert_eq!(
            of_state(&format!("{held},0,{mark};visit 50;mark 0;message 0 5 5000")),
            format!("{through}|marked|refused 11|1002,0,10,20;2,0,15,1,900,1000,0,{mark}")
        );
    }
    // Unmarked it holds it still, and sends it; marked it gives it back.
    assert_eq!(
        of_state(&format!("{held},0,1;unmark 0;visit 5")),
        "unmarked|visit 0 1000 30 60 15 5 1015 135|1022,0,10,5;22,15,0,1,900,1000"
    );
    assert_eq!(
        of_state(&format!("{held};mark 0")),
        "marked withdrawn 15 900|1000,0,9,10;30,10,0,1,900,960,0,1"
    );
    // Soundness does not go by the mark; 8 comes before 9.
    let unsound = held.replace("9,10;", "9,11;");
    assert_eq!(
        of_state(&format!("{unsound},0,1;mark 5;unmark 0;visit 0")),
        "refused 8|refused 8|refused 8|1000,0,9,11;30,10,15,1,900,960,0,1"
    );
    assert!(
        of_state(&format!("{held};mark 1;unmark 4294967295")).starts_with("refused 9|refused 9|")
    );
    // A late count of FDDI stands before the mark.
    assert_eq!(
        of_state("500,0,3,10;100,2;2,20,250,250,10,40,0,0,0,0,450,1,7;visit 9;visit 9"),
        "visit 0 500 40 0 0 0 - -|visit 0 502 42 0 0 0 - -|504,0,5,10;2,0,0,0,0,502,0,7"
    );
    assert_eq!(of_state("0,0,0,0;1;1,0,1,1,0,1,0,0,0,0,0,0,256;visit 0"), "no case");
}

fn recorded(room: usize, calls: &str) -> String {
    let plan = lone(crate::timely(100));
    let sheet = to_hex(&write_plan(&plan, usize::MAX).expect("sound"));
    answer(&format!("record {room};7,0;{sheet};{calls}"), Planted::Nothing)
}

fn log(entries: &[Entry]) -> String {
    to_hex(&log_of(&lone(crate::timely(100)), entries).expect("sound"))
}

/// Each accepted marking and unmarking is noted, and takes no time.
#[test]
fn recorded_marks() {
    let entries = [
        mark(0, 0),
        mark(0, 1),
        mark(0, 1),
        entry([0, 7, 0, 0, 0]),
        mark(0, 0),
        entry([0, 9, 88, 0, 5]),
    ];
    let calls = "unmark 0;mark 0;mark 0;mark 1;message 0 20 0;visit 9;unmark 0;unmark 7;visit 5";
    let room = 36 + 4 * 5 + 2 * 20;
    assert_eq!(recorded(room, calls), format!("0 {}", log(&entries)));
    assert_eq!(recorded(room - 1, calls), format!("14 {}", log(&entries[..5])));
    assert_eq!(recorded(36 + 4, calls), format!("14 {}", log(&[])));
    assert_eq!(recorded(36 + 5, calls), format!("14 {}", log(&entries[..1])));
    assert_eq!(
        answer(&format!("log {}", log(&entries)), Planted::Nothing),
        "0 100;2,20,250,250,10|0,0|0,1|0,1|0,7,0,0,0|0,0|0,9,88,0,5"
    );
    let inspected = answer(&format!("inspect {}", log(&entries)), Planted::Nothing);
    assert_eq!(inspected, "0 accepted 6");
}

/// The first broken rule in words.
fn words(plan: &Plan, entries: &[Entry]) -> String {
    let (_, finding) = inspected(plan, entries, Planted::Nothing);
    finding.map_or("accepted".to_string(), |found| format!("{found}: {}", found.words))
}

#[test]
fn the_checker() {
    let plan = lone(crate::timely(100));
    for (station, kind) in [(1, 0), (1, 1), (0, 2), (255, 255)] {
        assert_eq!(
            words(&plan, &[entry([0, 0, 88, 0, 0]), mark(station, kind)]),
            format!("record 2 station: expected a station below 1 and mark 0 or 1, found {station} {kind}")
        );
    }
    // The first start is free behind marks too; a mark between two visits takes no time.
    let begun = [mark(0, 0), mark(0, 0), entry([0, u32::MAX, 88, 10, 7])];
    assert_eq!(words(&plan, &begun), "accepted");
    let next = |start| [&begun[..], &[mark(0, 0), entry([0, start, 81, 0, 0])]].concat();
    assert_eq!(words(&plan, &next(18)), "accepted");
    assert_eq!(
        words(&plan, &next(19)),
        "record 5 start: expected 19 ticks after the visit before, found 20"
    );
    let late = [entry([0, 0, 88, 10, 7]), entry([0, 20, 81, 0, 0])];
    assert_eq!(
        words(&plan, &late),
        "record 2 start: expected 19 ticks after the record before, found 20"
    );
    // A marked visit.
    for (row, rule) in [
        ([0, 0, 0, 0, 0], None),
        ([0, 0, 88, 0, 0], Some("limit: expected limit 0, found 88")),
        ([0, 0, 0, 1, 0], Some("synchronous: expected at most 0, found 1")),
        ([0, 0, 0, 0, 1], Some("asynchronous: expected at most 0, found 1")),
    ] {
        let expected = rule.map_or("accepted".to_string(), |rule| format!("record 2 {rule}"));
        assert_eq!(words(&plan, &[mark(0, 1), entry(row)]), expected);
    }
    assert_eq!(words(&plan, &[mark(0, 1), mark(0, 0), entry([0, 0, 88, 0, 0])]), "accepted");
}

/// u rises by the whole S of a station that was passed over; the token moves with visits alone.
#[test]
fn the_checker_on_four_stations() {
    let plan = worked_plan();
    let first = [[0, 0, 18, 20, 0], [1, 22, 18, 20, 0], [2, 42, 18, 20, 0], [3, 62, 18, 20, 0]];
    let before: Vec<Entry> = first.into_iter().map(entry).collect();
    let after = |limit| {
        let more = [mark(0, 1), entry([0, 82, 0, 0, 0]), mark(2, 0), entry([1, 84, limit, 0, 0])];
        let (_, finding) = inspected(&plan, &[&before[..], &more].concat(), Planted::Nothing);
        finding.map(|finding| (finding.record, finding.rule))
    };
    assert_eq!(after(18), None);
    assert_eq!(after(38), Some((8, Rule::Limit)));
}
