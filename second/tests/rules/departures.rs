//! Logs beside the plan that the set left with: the one answer and its order, and of random pairs that
//! a log is accepted exactly if it has that plan and is accepted by itself.

use crate::{worked_plan, worked_request};
use second::differences::compared;
use second::frames::answer;
use second::gen::{pairs, random::Random, Sort};
use second::log::log_of;
use second::notation::to_hex;
use second::planted::Planted;
use second::rules::{Entry, MarkEntry, Plan, VisitEntry};
use second::sheet::{fields, read_log, read_plan};
use second::streams::Streams;

fn sheet(plan: &Plan) -> Vec<u8> {
    fields(&plan.request, &plan.allocation).concat()
}

/// What is said of a log that is to keep a plan.
fn said(plan: &[u8], log: &[u8]) -> String {
    let mut streams = Streams { out: vec![], err: vec![] };
    streams.inspect_of(plan, log, Planted::Nothing).expect("room in memory");
    assert!(streams.err.is_empty());
    String::from_utf8(streams.out).expect("text")
}

/// The same of a log by itself.
fn alone(log: &[u8]) -> String {
    let mut streams = Streams { out: vec![], err: vec![] };
    assert!(streams.simple("inspect", log, Planted::Nothing).expect("room in memory"));
    String::from_utf8(streams.out).expect("text")
}

fn visit(station: u8, start: u32, limit: u32, synchronous: u32, asynchronous: u32) -> Entry {
    Entry::Visit(VisitEntry { station, start, limit, synchronous, asynchronous })
}

/// The first visits of the worked run, with a mark between.
fn worked_log() -> Vec<u8> {
    let mark = Entry::Mark(MarkEntry { station: 3, mark: 1 });
    let entries = [visit(0, 0, 18, 20, 18), mark, visit(1, 40, 0, 20, 0)];
    log_of(&worked_plan(), &entries).expect("sound")
}

#[test]
fn the_plan_that_it_left_with() {
    let plan = worked_plan();
    assert_eq!(said(&sheet(&plan), &worked_log()), "accepted 3\n");
    // No visit shows nothing, and is accepted.
    assert_eq!(said(&sheet(&plan), &sheet(&plan)), "accepted 0\n");
    let mark = Entry::Mark(MarkEntry { station: 3, mark: 1 });
    let marks = log_of(&plan, &[mark; 3]).expect("sound");
    assert_eq!(said(&sheet(&plan), &marks), "accepted 3\n");
    let broken = log_of(&plan, &[visit(0, 0, 18, 21, 18)]).expect("sound");
    let found = "record 1 synchronous\nexpected at most 20, found 21\n";
    assert_eq!(said(&sheet(&plan), &broken), found);
}

#[test]
fn another_plan() {
    let log = worked_log();
    let mut more = worked_plan();
    more.allocation[2] += 1;
    assert_eq!(said(&sheet(&more), &log), "another plan\n2 S 21 20\n");
    let mut longer = worked_plan();
    longer.request.head.ttrt = 98;
    longer.request.stations.iter_mut().for_each(|station| station.deadline = 98);
    let lines: String = (0..4).map(|index| format!("{index} D 98 100\n")).collect();
    assert_eq!(said(&sheet(&longer), &log), format!("another plan\n1 98 100\n{lines}"));
    let mut earlier = worked_plan();
    earlier.request.head.mode = 3;
    assert_eq!(said(&sheet(&earlier), &log), "another plan\n4 3 1\n");
    let mut framed = worked_plan();
    framed.request.head.frame = 19;
    assert_eq!(said(&sheet(&framed), &log), "another plan\n5 19 1\n");
    let mut stepped = worked_plan();
    stepped.request.head.grid = 20;
    assert_eq!(said(&sheet(&stepped), &log), "another plan\n6 20 1\n");
    // A record that breaks a rule is not looked for under another plan.
    let broken = log_of(&worked_plan(), &[visit(9, 0, 0, 0, 0)]).expect("sound");
    assert_eq!(said(&sheet(&stepped), &broken), "another plan\n6 20 1\n");
}

#[test]
fn the_first_refusal_is_said() {
    let (plan, log) = (sheet(&worked_plan()), worked_log());
    let request = fields(&worked_request(), &[]).concat();
    assert_eq!(said(&request, &log), "plan refused 2\n");
    assert_eq!(said(&log, &log), "plan refused 2\n");
    assert_eq!(said(&[], &log[..20]), "plan refused 1\n");
    assert_eq!(said(&plan, &log[..log.len() - 1]), "refused 1\n");
    assert_eq!(said(&plan, &request), "refused 2\n");
    assert_eq!(said(&plan, &[log.clone(), vec![0]].concat()), "refused 3\n");
    let mut broken = worked_plan();
    broken.allocation[0] = 39;
    assert_eq!(said(&sheet(&broken), &log), "plan refused 7\n");
    assert_eq!(said(&plan, &sheet(&broken)), "refused 7\n");
}

#[test]
fn accepted_exactly_if_it_is_that_plan_and_a_run_of_it() {
    let mut seen = [0; 5];
    for (place, sort) in (0..150).flat_map(|place| Sort::ALL.map(|sort| (place, sort))) {
        let (plan, log) = pairs::departure(&mut Random::of_case(19, place), sort);
        let text = said(&plan, &log);
        let expected = match (read_plan(&plan), read_log(&log)) {
            (Err(refusal), _) => format!("plan refused {}\n", refusal.number()),
            (_, Err(refusal)) => format!("refused {}\n", refusal.number()),
            (Ok(left), Ok((own, _))) if left == own => alone(&log),
            (_, Ok((own, _))) => {
                format!("another plan\n{}", compared(&plan, &sheet(&own), Planted::Nothing))
            }
        };
        assert_eq!(text, expected);
        let kinds = ["accepted", "record", "another", "plan", "refused"];
        let kind = text.split(' ').next().expect("a word");
        seen[kinds.iter().position(|&it| it == kind).expect("a kind")] += 1;
        framed(&plan, &log, &text);
    }
    assert!(seen.iter().all(|&times| times > 50), "{seen:?}");
}

/// The answer for a host says the same, with the visits beside the records.
fn framed(plan: &[u8], log: &[u8], text: &str) {
    let case = format!("inspect-of {};{}", to_hex(plan), to_hex(log));
    let numbers = answer(&case, Planted::Nothing);
    let first = text.lines().next().expect("a line");
    match read_log(log) {
        Ok((_, entries)) if first.starts_with("accepted ") => {
            let visits = entries.iter().filter(|entry| matches!(entry, Entry::Visit(_))).count();
            assert_eq!(numbers, format!("0 {first} {visits}"));
        }
        _ if first.starts_with("record ") => assert_eq!(numbers, format!("0 {first}")),
        _ => assert_eq!(numbers, first.replace("refused ", "")),
    }
    let case = format!("command inspect;{};{}", to_hex(plan), to_hex(log));
    assert_eq!(answer(&case, Planted::Nothing), format!("{} -", to_hex(text.as_bytes())));
}
