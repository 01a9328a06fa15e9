//! Number 16: FDDI sets are neither planned nor opened any more. All else of them goes on.

use crate::{earlier, fddi, station};
use second::frames::answer;
use second::notation::{show_set, to_hex};
use second::planted::Planted;
use second::ring::Ring;
use second::rules::{Plan, Request};
use second::sheet::fields;
use second::state::State;

fn answered(case: String) -> String {
    answer(&case, Planted::Nothing)
}

/// Two stations of TTRT 100, C 48 and D 250, with S 24 each, which is the least.
fn pair() -> Plan {
    let stations = vec![station(2, 48, 250, 250), station(0, 48, 250, 250)];
    Plan { request: Request { head: fddi(100), stations }, allocation: vec![24; 2] }
}

/// What planning, opening, and opening the ring of its sheet answer to a plan with a change.
fn numbers(change: impl Fn(&mut Plan)) -> [String; 3] {
    let mut plan = pair();
    change(&mut plan);
    let Plan { request, allocation } = &plan;
    let sheet = to_hex(&fields(request, allocation).concat());
    [
        answered(format!("planning {}", show_set(request, &[]))),
        answered(format!("open {}", show_set(request, allocation))),
        answered(format!("run {sheet};visit 1")),
    ]
}

/// A plan sheet is read first: there 7 is given, and 16 of what was read.
#[test]
fn behind_5_and_before_6_and_7() {
    assert_eq!(numbers(|_| ()), ["16", "16", "16"]);
    let broken = |plan: &mut Plan| plan.allocation[0] = 23;
    let impossible = |plan: &mut Plan| plan.request.stations[0].longest = 1_000;
    assert_eq!(numbers(broken), ["16", "16", "7"]);
    assert_eq!(numbers(impossible), ["16", "16", "7"]);
    let both = |plan: &mut Plan| (broken(plan), impossible(plan));
    let no_walk = |plan: &mut Plan| plan.request.stations[0].walk = 0;
    assert_eq!(numbers(|plan| (both(plan), no_walk(plan)).1), ["5", "5", "5"]);
    let no_deadline = |plan: &mut Plan| plan.request.stations[1].deadline = 0;
    assert_eq!(numbers(|plan| (both(plan), no_walk(plan), no_deadline(plan)).2), ["4", "4", "4"]);
    assert_eq!(numbers(|plan| plan.allocation[1] = 1_000_001), ["16", "4", "4"]);
    assert_eq!(numbers(|plan| plan.request.stations.clear()), ["2", "2", "2"]);
    // The other mode of these sheets is not retired.
    assert_eq!(numbers(|plan| plan.request.head = earlier(100))[0], "0 50 24,24");
    assert_eq!(numbers(|plan| (broken(plan), plan.request.head = earlier(100)).1)[1], "7");
}

/// A ring that is open runs on, from the state that its opening gave.
#[test]
fn an_open_ring_runs_on() {
    let plan = pair();
    let state = State::opened(&plan);
    assert!(state.is_opened());
    let ring = Ring::opened(&plan, Planted::Nothing).expect("judged");
    assert_eq!((ring.trt(0), ring.trt(1), ring.unused()), (2, 0, 48));
    let calls = ";message 0 48 0;visit 1000;visit 1000;mark 0;visit 5;unmark 0;message 2 1 1";
    let case = format!("state {}{calls}", state.show());
    assert_eq!(
        answered(case.clone()),
        "taken|visit 0 0 2 98 24 98 - -|visit 1 124 24 0 0 0 - -|marked withdrawn 24 0|\
         visit 0 124 24 0 0 0 - -|unmarked|refused 9|126,1,3,48;26,0,0,1,0,124;26,0,0,0,0,124"
    );
    // Its log is written, and accepted.
    let log = answered(format!("record-on 4000;0,0;{}{calls}", state.show()));
    let log = log.strip_prefix("0 ").expect("room enough");
    assert_eq!(answered(format!("inspect {log}")), "0 accepted 5");
    let sheet = to_hex(&fields(&plan.request, &plan.allocation).concat());
    assert_eq!(answered(format!("inspect-of {sheet};{log}")), "0 accepted 5 3");
    assert_eq!(answered(format!("record 4000;0,0;{sheet}{calls}")), "16");
    assert_eq!(answer(&format!("inspect {log}"), Planted::LogRetired), "16");
    let unsound = answer(&case, Planted::OpenRingUnsound);
    assert!(unsound.starts_with("refused 8|refused 8|"), "{unsound}");
}

/// Room and counter are judged as for a ring that is opened; a log of a state whose plan is refused
/// is not begun.
#[test]
fn logs_of_rings_that_are_there() {
    let state = State::opened(&pair()).show();
    assert_eq!(answered(format!("record-on 58;0,0;{state};visit 1")), "14");
    assert_eq!(
        answered(format!("record-on 4000;0,0;{};visit 1", state.replace(",24,", ",23,"))),
        "7"
    );
    assert_eq!(
        answered(format!("record-on 4000;0,0;{};visit 1", state.replace("100,2", "100,4"))),
        "4"
    );
    for line in
        ["record-on 4000;0,0", "record-on 4000;0,0;visit 1", "record-on 4000;0;0,0,0,0;100,2"]
    {
        assert_eq!(answered(line.to_string()), "no case", "{line}");
    }
}

#[test]
fn commands() {
    let plan = pair();
    let hex = |text: &str| to_hex(text.as_bytes());
    let request = to_hex(&fields(&plan.request, &[]).concat());
    let sheet = |plan: &Plan| to_hex(&fields(&plan.request, &plan.allocation).concat());
    let said = hex("refused 16\n");
    assert_eq!(answered(format!("command plan;{request}")), format!("{said} -"));
    assert_eq!(answered(format!("command plan-sheet;{request}")), format!("- {said}"));
    let calls = hex("visit 1\nnonsense\n");
    assert_eq!(answered(format!("command run;{};{calls}", sheet(&plan))), format!("{said} -"));
    assert_eq!(answered(format!("command log;{};{calls}", sheet(&plan))), format!("- {said}"));
    let mut broken = plan.clone();
    broken.allocation[0] = 23;
    let said = hex("refused 7\n");
    assert_eq!(answered(format!("command run;{};{calls}", sheet(&broken))), format!("{said} -"));
    assert_eq!(answered(format!("command log;{};{calls}", sheet(&broken))), format!("- {said}"));
}
