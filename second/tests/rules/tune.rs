//! At which TTRT a set has a plan: worked examples of each line and each number, and of random sets what
//! planning at each TTRT gives.

use crate::{composed, fddi, station, timely, worked_request};
use second::frames::answer;
use second::gen::{random::Random, sets, Kind, Sort};
use second::hopper::{self, read_list};
use second::notation::{from_hex, to_hex};
use second::planner;
use second::planted::Planted;
use second::rules::{Head, Refusal, Request};
use second::sheet::fields;
use second::tune::tuned;

fn sheet(request: &Request) -> Vec<u8> {
    fields(request, &[]).concat()
}

fn between(request: &Request, from: &str, to: &str) -> String {
    tuned(&sheet(request), Some([from, to]), Planted::Nothing)
}

fn of_text(text: &str, from: &str, to: &str) -> String {
    tuned(&composed(text).expect("a sheet"), Some([from, to]), Planted::Nothing)
}

/// A station whose S is C wherever TTRT is from half of its deadline to all of it.
fn one(ttrt: u32) -> Request {
    Request { head: timely(ttrt), stations: vec![station(10, 20, 100, 100)] }
}

#[test]
fn every_line() {
    let lines = "tried 1 to 200\nown 100 plan\nplans 188\nsmallest 13\nlargest 200\n\
                 below 99\nabove 101\nbest 100\nplan 1 100 10 70\n";
    assert_eq!(between(&one(100), "1", "200"), lines);
    // Above its deadline as much more is reserved as the rotation is longer: A* stays at 70.
    let all = lines.replace("to 200", "to 1000000").replace("plans 188", "plans 999988");
    let all = all.replace("largest 200", "largest 1000000");
    assert_eq!(tuned(&sheet(&one(100)), None, Planted::Nothing), all);
}

#[test]
fn a_full_hopper_train() {
    let list = read_list("wagon 8 1 1\n".repeat(12).as_bytes()).expect("bytes at hand");
    let full = hopper::sheet(&list.expect("a list"), Planted::Nothing).expect("a sheet");
    let said = tuned(&full, None, Planted::Nothing);
    assert!(said.starts_with("tried 1 to 1000000\nown 250 refused 6\nplans 9\nsmallest 492\n"));
    assert!(said.contains("\nlargest 500\nbelow -\nabove 492\nbest "), "{said}");
}

#[test]
fn none_at_any() {
    let short = "ttrt 100\nstation 2 20 100 100\nstation 0 79 100 100\n";
    let said = of_text(short, "1", "1000000");
    assert_eq!(said, "tried 1 to 1000000\nown 100 refused 6\nplans 0\n");
}

#[test]
fn what_is_refused() {
    let own = sheet(&worked_request());
    let said = |sheet: &[u8]| tuned(sheet, Some(["90", "110"]), Planted::Nothing);
    assert_eq!(said(b""), "refused 1\n");
    assert_eq!(said(&own[..own.len() - 1]), "refused 1\n");
    assert_eq!(said(&[4, 0, 0]), "refused 2\n");
    assert_eq!(said(&[&own[..], b"\0"].concat()), "refused 3\n");
    // The reading is before the range, and the range before FDDI.
    assert_eq!(tuned(b"", Some(["2", "1"]), Planted::Nothing), "refused 1\n");
    let older = Request { head: fddi(100), ..worked_request() };
    assert_eq!(between(&older, "1", "2"), "refused 16\n");
    assert_eq!(between(&older, "2", "1"), "refused 4\n");
    let mut outside = older.clone();
    outside.stations[3].gap = 99;
    assert_eq!(between(&outside, "1", "2"), "refused 4\n");
    for (from, to) in [
        ("0", "10"),
        ("1", "0"),
        ("1", "1000001"),
        ("1000001", "1000001"),
        ("1", "4294967297"),
        ("4294967297", "4294967298"),
        ("10", "9"),
        ("99999999999999999999999999999999", "5"),
    ] {
        assert_eq!(between(&worked_request(), from, to), "refused 4\n", "{from} {to}");
    }
    assert!(between(&worked_request(), "0000000000000000000000000001", "0001000000")
        .starts_with("tried 1 to 1000000\n"));
}

#[test]
fn header_fields_that_say_one() {
    for head in ["040001", "050004000000", "060004000000"] {
        for number in ["00", "01", "02"] {
            let sheet =
                format!("01000400000064{head}{number}02001000000002000000140000006400000064ff0000");
            let bytes = from_hex(&sheet).expect("digits");
            let said = tuned(&bytes, Some(["90", "110"]), Planted::Nothing);
            let expected = match (head, number) {
                (_, "00" | "01") => "refused 4\n",
                ("040001", _) => "refused 16\n",
                _ => "tried 90 to 110\n",
            };
            assert!(said.starts_with(expected), "{head} {number}: {said}");
        }
    }
}

/// Its own TTRT out of its range is said as it is, and τ outside of every TTRT is no refusal.
#[test]
fn numbers_that_are_no_refusal() {
    for ttrt in [0, 1_000_001, u32::MAX] {
        let said = between(&one(ttrt), "30", "31");
        let near = if ttrt == 0 { "below -\nabove 30" } else { "below 31\nabove -" };
        let lines = format!("tried 30 to 31\nown {ttrt} refused 4\nplans 2\nsmallest 30\n");
        assert!(said.starts_with(&lines) && said.contains(near), "{said}");
    }
    let still = Request { head: timely(100), stations: vec![station(0, 20, 100, 100)] };
    assert_eq!(between(&still, "1", "500"), "tried 1 to 500\nown 100 refused 5\nplans 0\n");
    let far = vec![station(600_000, 0, 100, 100), station(600_000, 0, 100, 100)];
    let far = Request { head: timely(1_000_000), stations: far };
    let said = between(&far, "999990", "1000000");
    assert_eq!(said, "tried 999990 to 1000000\nown 1000000 refused 5\nplans 0\n");
}

/// Equal parts, of equal A* and of others: the smallest TTRT.
#[test]
fn the_smallest_of_equal_parts() {
    let nothing = Request { head: timely(10), stations: vec![station(1, 9, 10, 10)] };
    assert!(between(&nothing, "1", "11").contains("\nbest 10\nplan 1 10 1 0\n"));
    // A half is left at 4, 6 and 8: 2, 3 and 4 ticks. Between them it is less.
    let said = of_text("ttrt 5\nstation 1 3 12 12\n", "4", "8");
    assert!(said.ends_with("\nbelow 4\nabove 6\nbest 4\nplan 1 4 1 2\n"), "{said}");
    let said = of_text("ttrt 5\nstation 1 3 12 12\n", "5", "8");
    assert!(said.ends_with("\nbelow -\nabove 6\nbest 6\nplan 1 6 1 3\n"), "{said}");
    let grid = "ttrt 8\ngrid 4\nstation 2 6 24 24\n";
    // S is 4 up to a rotation of 13, and 8 behind that.
    for (from, to, best, spare) in [("8", "12", 12, 6), ("8", "24", 24, 14), ("12", "20", 13, 7)] {
        let said = of_text(grid, from, to);
        assert!(said.ends_with(&format!("\nbest {best}\nplan 1 {best} 2 {spare}\n")), "{said}");
    }
}

/// The part decides, not A*: at 45 a larger one is left than at 70.
#[test]
fn the_best_is_not_the_largest_spare_time() {
    let request = Request { head: timely(45), stations: vec![station(1, 40, 90, 90)] };
    let said = between(&request, "30", "70");
    assert!(said.ends_with("\nbest 45\nplan 1 45 1 24\n"), "{said}");
    let wrong = tuned(&sheet(&request), Some(["30", "70"]), Planted::BestBySpare);
    assert!(wrong.ends_with("\nbest 70\nplan 1 70 1 29\n"), "{wrong}");
}

#[test]
fn each_planted_error() {
    let said = |planted| tuned(&sheet(&one(30)), Some(["5", "40"]), planted);
    assert!(said(Planted::Nothing).contains("\nplans 28\nsmallest 13\nlargest 40\n"));
    assert!(said(Planted::EndLeftOut).contains("\nplans 27\nsmallest 13\nlargest 39\n"));
    assert!(said(Planted::WalkSumCounted).contains("\nplans 33\nsmallest 5\nlargest 40\n"));
}

/// What planning at each TTRT says, TTRT by TTRT.
fn expected(request: &Request, from: u32, to: u32) -> String {
    let plan = |ttrt| {
        let head = Head { ttrt, ..request.head };
        planner::plan(&Request { head, ..request.clone() }, Planted::Nothing)
    };
    let own = request.head.ttrt;
    let mut lines = vec![format!("tried {from} to {to}")];
    lines.push(match plan(own) {
        Ok(_) => format!("own {own} plan"),
        Err(refusal) => format!("own {own} refused {}", refusal.number()),
    });
    let planned: Vec<u32> = (from..=to).filter(|&ttrt| plan(ttrt).is_ok()).collect();
    lines.push(format!("plans {}", planned.len()));
    let near = |ttrt: Option<&u32>| ttrt.map_or("-".to_string(), u32::to_string);
    if !planned.is_empty() {
        lines.push(format!("smallest {}", near(planned.iter().min())));
        lines.push(format!("largest {}", near(planned.iter().max())));
        lines.push(format!("below {}", near(planned.iter().filter(|ttrt| **ttrt < own).max())));
        lines.push(format!("above {}", near(planned.iter().filter(|ttrt| **ttrt > own).min())));
        // One that no other beats, and no smaller one equals.
        let spare = |ttrt: u32| plan(ttrt).expect("planned").spare();
        let part = |ttrt: u32, over: u32| spare(ttrt) * u64::from(over);
        let beaten = |ttrt: u32| {
            planned.iter().any(|&other| {
                let (mine, others) = (part(ttrt, other), part(other, ttrt));
                others > mine || (others == mine && other < ttrt)
            })
        };
        let best = *planned.iter().find(|ttrt| !beaten(**ttrt)).expect("one");
        let (count, walk_sum) = (request.stations.len(), request.walk_sum());
        lines.push(format!("best {best}"));
        lines.push(format!("plan {count} {best} {walk_sum} {}", spare(best)));
    }
    lines.iter().map(|line| line.to_string() + "\n").collect()
}

#[test]
fn as_planning_says_at_each() {
    for sort in [Sort::TIMELY, Sort::UNCUT, Sort::GRID, Sort::EARLIER, Sort::EARLIER_GRID] {
        for place in 0..60 {
            let random = &mut Random::of_case(9, place);
            let request = sets::small_plan(random, sort).request;
            let from = request.head.ttrt.saturating_sub(random.between32(0, 60)).max(1);
            let to = (from + random.between32(0, 120)).min(1_000_000);
            let said = between(&request, &from.to_string(), &to.to_string());
            assert_eq!(said, expected(&request, from, to), "{request:?}");
        }
    }
}

#[test]
fn cases_have_every_answer() {
    let mut seen = std::collections::BTreeSet::new();
    for sort in [Sort::TIMELY, Sort::FDDI, Sort::UNCUT, Sort::GRID, Sort::EARLIER] {
        for case in (0..300).flat_map(|place| Kind::Tunings.case(sort, 3, place)) {
            let said = answer(&case, Planted::Nothing);
            let said = from_hex(said.split(' ').next().expect("one")).expect("digits");
            let text = String::from_utf8(said).expect("text");
            let own = text.lines().nth(1).map(|line| line.split(' ').skip(2).collect::<Vec<_>>());
            seen.insert(own.map_or(text.trim().to_string(), |words| words.join(" ")));
            for line in ["below -", "above -", "plans 0"] {
                if text.contains(line) {
                    seen.insert(line.to_string());
                }
            }
        }
    }
    let own = [Refusal::OutOfRange, Refusal::WalkSum, Refusal::NoAllocation]
        .map(|refusal| format!("refused {}", refusal.number()));
    let others =
        ["refused 1", "refused 2", "refused 3", "refused 16", "plan", "below -", "above -"];
    let others = others.map(str::to_string);
    for answer in own.iter().chain(&others).chain(&["plans 0".to_string()]) {
        assert!(seen.contains(answer), "{answer} in {seen:?}");
    }
    let numbers = "command tune;-;5;".to_string() + &to_hex(&sheet(&worked_request()));
    assert_eq!(answer(&numbers, Planted::Nothing), "no case");
}
