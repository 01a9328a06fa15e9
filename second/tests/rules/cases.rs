//! The frames and the generator.

use crate::{worked_plan, worked_request};
use second::frames::{answer, NO_CASE};
use second::gen::{write_cases, Kind, Sort};
use second::notation::{from_hex, show_set, to_hex};
use second::planner::least_plan;
use second::planted::Planted;
use second::rules::Refusal;
use second::sheet::fields;

fn answered(case: &str) -> String {
    answer(case, Planted::Nothing)
}

const WORKED_SET: &str = "100;2,20,100,100;0,20,100,100;0,20,100,100;0,20,100,100";

fn request_hex() -> String {
    to_hex(&fields(&worked_request(), &[]).concat())
}

fn plan_hex() -> String {
    to_hex(&fields(&worked_plan().request, &worked_plan().allocation).concat())
}

#[test]
fn every_frame_has_its_answer() {
    let (request, plan) = (request_hex(), plan_hex());
    let planned = show_set(&worked_request(), &[20; 4]);
    let cases = [
        ("request -".to_string(), "1".to_string()),
        (format!("request {request}"), format!("0 4 {WORKED_SET}")),
        (format!("plan {plan}"), format!("0 4 {planned}")),
        (format!("plan {request}"), "2".to_string()),
        (format!("planning {WORKED_SET}"), "0 18 20,20,20,20".to_string()),
        ("planning 1;1,1,1,1".to_string(), "6".to_string()),
        ("planning 100".to_string(), "2".to_string()),
        (format!("write-request 86;{WORKED_SET}"), format!("0 {request}")),
        (format!("write-request 85;{WORKED_SET}"), "14".to_string()),
        (format!("write-plan 114;{planned}"), format!("0 {plan}")),
        ("write-plan 114;100".to_string(), "2".to_string()),
        (format!("run {plan}"), "0".to_string()),
        (format!("run {request};visit 1"), "2".to_string()),
        (
            format!(
                "run {plan};message 0 20 0;visit 1000;visits 3 7;message 0 1 1;visit 4294967295"
            ),
            "0 taken|visit 0 0 2 18 20 18 20 80|visit 3 40 40 0 0 0 - -|refused 12|\
             visit 0 40 40 0 0 0 - -"
                .to_string(),
        ),
        (
            format!("ring {plan};message 2 7 0;visits 3 1;message 1 20 5"),
            "0 12,3,3,73;12,0,0,0,0,0;9,0,20,1,5,3;8,7,0,1,0,4;12,0,0,0,0,0".to_string(),
        ),
        (
            format!("open {planned}"),
            "0 0,0,0,80;2,0,0,0,0,0;0,0,0,0,0,0;0,0,0,0,0,0;0,0,0,0,0,0".to_string(),
        ),
        ("open 1;1,0,1,1,1".to_string(), "7".to_string()),
        ("state 7,0,0,0;1;1,0,1,1,0,1,0,0,0,0,0".to_string(), "7,0,0,0;1,0,0,0,0,0".to_string()),
        (
            "state 7,0,0,0;1;1,0,1,1,0,1,0,0,0,0,0;visits 2 9;message 1 1 1".to_string(),
            "visit 0 8 1 0 0 0 - -|refused 9|9,0,2,0;1,0,0,0,0,8".to_string(),
        ),
        ("command plan;-".to_string(), format!("{} -", to_hex(b"refused 1\n"))),
        ("command plan-sheet;-".to_string(), format!("- {}", to_hex(b"refused 1\n"))),
        (format!("command plan-sheet;{request}"), format!("{plan} -")),
        (
            format!("command run;{plan};{}", to_hex(b"visit 0\nvisit")),
            format!("{} -", to_hex(b"visit 0 0 2 18 0 0 - -\nline 2: cannot be read\n")),
        ),
        (format!("command diff;{plan};{plan}"), format!("{} -", to_hex(b"same\n"))),
        (
            format!("store 65536,-;versions;empty;store {plan};stores 2 {plan};versions;find 4"),
            format!(
                "refused 2|emptied|version 1|version 3|versions 1 3|refused 17|{}ff",
                (1..4).map(|n| format!("2000760000000{n}{plan}")).collect::<String>()
            ),
        ),
        (
            format!("store 65536,20007600000001{plan}ff;find 1;byte 65535 9;find 1"),
            format!(
                "found 7 {plan}|byte|refused 2|20007600000001{plan}ff{}09",
                "0".repeat(130_826)
            ),
        ),
        ("store 2,ff00;empty;versions".to_string(), "refused 2|refused 2|ff".to_string()),
        (
            format!("command keep;65536,ff;{plan}"),
            format!("{} - 20007600000001{plan}ff", to_hex(b"version 1\n")),
        ),
        ("command kept;65536,ff;4294967296".to_string(), format!("- {}", to_hex(b"refused 17\n"))),
        ("command versions;65537,ff".to_string(), format!("{} -", to_hex(b"refused 2\n"))),
        (format!("command diff;-;{plan}"), format!("{} -", to_hex(b"old refused 1\n"))),
    ];
    for (case, expected) in cases {
        assert_eq!(answered(&case), expected, "{case}");
    }
}

#[test]
fn a_line_of_no_frame() {
    let lines = [
        "",
        "request",
        "request ",
        "request 0",
        "request 0g",
        "request 0A",
        "else 1",
        "planning 100;1,2,3",
        "planning x",
        "write-plan 1;100;1,2,3,4",
        "write-request 100",
        "run -;stop",
        "run -;visits 0 1",
        "ring -;visit",
        "state 0,0,0;1",
        "state 0,0,0,0",
        "state 0,0,0,0;1;1,0,1,1,0,1,0,0",
        "state 0,0,0,0;1;1,0,1,1,0,1,0,0,256,0,0",
        "state 0,0,0,0;1;1,0,1,1,0,1,0,0,0,0,0;visit 0;1,0,1,1,0,1,0,0,0,0,0",
        "open 1;1,0,1,1",
        "command else;-",
        "command plan;-;-",
        "command diff;-",
        "store 2",
        "store 2,ffffff",
        "store 65601,-",
        "store 2,-;stores 0 -",
        "store 2,-;byte 2 0",
        "store 2,-;find 4294967296",
        "command kept;0,-",
        "command diff;-;-;-",
    ];
    for line in lines {
        assert_eq!(answered(line), NO_CASE, "{line}");
    }
}

#[test]
fn hex() {
    let bytes: Vec<u8> = (0..=255).collect();
    assert_eq!(from_hex(&to_hex(&bytes)), Some(bytes));
    assert_eq!((to_hex(&[]), from_hex("-")), ("-".to_string(), Some(vec![])));
}

fn cases(kind: (Kind, Sort), seed: u64, count: u64) -> Vec<String> {
    let mut bytes = vec![];
    write_cases(kind, seed, count, &mut bytes).expect("room in memory");
    String::from_utf8(bytes).expect("text").lines().map(str::to_string).collect()
}

#[test]
fn every_case_is_framed_and_comes_again_from_its_seed() {
    for kind in Kind::ALL.into_iter().filter(|&kind| kind != Kind::Late) {
        let sorts = if kind.has_sorts() { &Sort::ALL[..] } else { &[Sort::TIMELY] };
        for &sort in sorts {
            let kind = (kind, sort);
            let made = cases(kind, 3, 40);
            let name = format!("{}{}", sort.prefix(), kind.0.name());
            assert!(made.len() >= 40);
            assert!(made.iter().all(|case| answered(case) != NO_CASE), "{name}");
            assert_eq!(made, cases(kind, 3, 40));
            assert_ne!(made, cases(kind, 4, 40));
            assert_eq!(Kind::from_name(&name), Some(kind));
        }
    }
}

/// The numbers that begin the answers to a kind's cases, each once, in order.
fn numbers(kind: (Kind, Sort), count: u64) -> Vec<u8> {
    let first = |case: &String| {
        let answer = answered(case);
        answer.split(' ').next().and_then(|word| word.parse().ok()).expect("a number")
    };
    each_once(cases(kind, 11, count).iter().map(first).collect())
}

fn each_once(mut numbers: Vec<u8>) -> Vec<u8> {
    numbers.sort();
    numbers.dedup();
    numbers
}

/// The numbers that the calls of a kind's cases are refused with, and 0 for an accepted call.
fn numbers_of_calls(kind: (Kind, Sort), count: u64) -> Vec<u8> {
    let of_calls = |case: &String| -> Vec<u8> {
        let said = answered(case);
        let calls = &said[..said.rfind('|').expect("a call")];
        let number =
            |call: &str| call.strip_prefix("refused ").map_or(0, |n| n.parse().expect("one"));
        calls.split('|').map(number).collect()
    };
    each_once(cases(kind, 11, count).iter().flat_map(of_calls).collect())
}

#[test]
fn every_number_of_a_kind_is_reached() {
    for sort in Sort::ALL {
        assert_eq!(numbers((Kind::Requests, sort), 600), [0, 1, 2, 3, 4, 5]);
        assert_eq!(numbers((Kind::Plans, sort), 600), [0, 1, 2, 3, 4, 5, 7]);
        assert_eq!(numbers((Kind::Edges, sort), 3), [0, 1, 2, 3, 4, 5, 7]);
        let begun = [Kind::Planning, Kind::Openings, Kind::Orders].map(|kind| (kind, sort));
        let [planned, opened, ordered] = begun.map(|kind| numbers(kind, 600));
        match sort.is_fddi() {
            // Beside them are a few sets whose mode was changed.
            true => {
                let reached = |numbers: &[u8]| [2, 4, 5, 16].iter().all(|n| numbers.contains(n));
                assert!(reached(&planned) && reached(&opened), "{planned:?}, {opened:?}");
                assert_eq!(ordered, [0, 2, 4, 5, 7, 16]);
            }
            // Where a mode was changed to 2, that is 16.
            false => {
                let begun = [planned, opened, ordered].map(|mut numbers| {
                    numbers.retain(|&number| number != 16 || !sort.has_mode());
                    numbers
                });
                assert_eq!(begun, [&[0, 2, 4, 5, 6][..], &[0, 2, 4, 5, 7], &[0, 2, 4, 5, 6, 7]]);
            }
        }
        assert_eq!(numbers((Kind::Writing, sort), 600), [0, 2, 4, 5, 7, 14]);
        assert_eq!(numbers((Kind::Logs, sort), 1_500), [0, 1, 2, 3, 4, 5, 7]);
        let inspected = numbers((Kind::Inspections, sort), 1_500);
        assert!([0, 1, 2, 3, 4, 7].iter().all(|number| inspected.contains(number)));
        let recorded = numbers((Kind::Records, sort), 400);
        assert!([0, 1, 2, 7, 14].iter().all(|number| recorded.contains(number)), "{recorded:?}");
        for kind in [Kind::States, Kind::Steps] {
            assert_eq!(numbers_of_calls((kind, sort), 2_000), [0, 8, 9, 10, 11, 12, 13, 15]);
        }
        let stored = numbers_of_calls((Kind::Versions, sort), 1_500);
        assert_eq!(stored, [0, 1, 2, 3, 4, 5, 7, 17, 18]);
    }
}

#[test]
fn the_empty_text_is_among_the_commands() {
    let made = cases((Kind::Commands, Sort::TIMELY), 7, 2_000);
    assert!(made.iter().any(|case| case == "command compose;-"));
}

#[test]
fn accepted_sheets_are_written_again_the_same() {
    for (kind, name) in [(Kind::Requests, "request"), (Kind::Plans, "plan")] {
        let every = Sort::ALL.map(|sort| cases((kind, sort), 21, 500));
        every.concat().iter().for_each(|case| written_again(name, case));
    }
}

fn written_again(name: &str, case: &str) {
    let sheet = case.split(' ').nth(1).expect("a sheet");
    if let Some(read) = answered(case).strip_prefix("0 ") {
        let set = read.split_once(' ').expect("a count").1;
        let written = answered(&format!("write-{name} 4000;{set}"));
        assert_eq!(written, format!("0 {sheet}"));
        shown_and_composed(sheet);
    }
}

fn shown_and_composed(sheet: &str) {
    let shown = answered(&format!("command show;{sheet}"));
    let text = shown.strip_suffix(" -").expect("no error");
    assert_eq!(answered(&format!("command compose;{text}")), format!("{sheet} -"));
}

#[test]
fn feasible_and_impossible_by_one_tick() {
    use second::gen::{random::Random, sets};
    for place in 0..1_000 {
        let sort = if place % 2 == 0 { Sort::TIMELY } else { Sort::UNCUT };
        let planned = |over| {
            let request = sets::tight(&mut Random::of_case(5, place), sort, over);
            answered(&format!("planning {}", show_set(&request, &[])))
        };
        let exact = planned(0);
        let list = exact.strip_prefix("0 0 ").expect("no spare time");
        // Without any S a tick of walking too many breaks other rules; one of F does not.
        let impossible = match list.contains(|digit| digit > '0') {
            true => &["6"][..],
            false if sort.uncut => &["4", "5", "6"],
            false => &["4", "5"],
        };
        assert!(impossible.contains(&&*planned(1)), "{list}");
    }
}

#[test]
fn fddi_sets_that_one_tick_of_walking_makes_impossible() {
    use second::gen::{random::Random, sets};
    let mut impossible = 0;
    for place in 0..500 {
        let sort = if place % 2 == 0 { Sort::FDDI } else { Sort::FDDI_UNCUT };
        let planned = |over| {
            let request = sets::tight(&mut Random::of_case(5, place), sort, over);
            // Whether there is a plan or not, it is not planned any more.
            let said = answered(&format!("planning {}", show_set(&request, &[])));
            assert!(["4", "5", "16"].contains(&&*said), "{said}");
            least_plan(&request).map(|_| ())
        };
        assert_eq!(planned(0), Ok(()));
        impossible += usize::from(planned(1) == Err(Refusal::NoAllocation));
    }
    assert!(impossible > 250, "{impossible}");
}
