//! The mode on sheets and in texts.

use crate::{composed, fddi, worked_plan, worked_request};
use second::frames::answer;
use second::notation::to_hex;
use second::planted::Planted;
use second::rules::{Head, Plan, Refusal, Request};
use second::sheet::*;
use second::text::{show_sheet, Fault};

const ROOM: usize = 4_000;

/// The worked ring as an older set: with D 200 X is S, and S is C as before.
fn older() -> Plan {
    let mut plan = worked_plan();
    plan.request.head = fddi(100);
    for station in &mut plan.request.stations {
        (station.deadline, station.gap) = (200, 200);
    }
    plan
}

fn request_sheet() -> Vec<u8> {
    write_request(&older().request, ROOM).expect("sound")
}

fn plan_sheet() -> Vec<u8> {
    write_plan(&older(), ROOM).expect("sound")
}

/// The numbers that a sheet of a request, and the same with the plan's fields, is refused with.
fn number(sheet: &[u8]) -> u8 {
    read_request(sheet).map_or_else(Refusal::number, |_| 0)
}

fn with_head(fields: &[&[u8]]) -> Vec<u8> {
    [&request_sheet()[..7], &fields.concat(), &request_sheet()[11..]].concat()
}

#[test]
fn the_field_stands_behind_ttrt() {
    assert_eq!(request_sheet().len(), 90);
    assert_eq!(request_sheet()[..14], [1, 0, 4, 0, 0, 0, 100, 4, 0, 1, 2, 2, 0, 16]);
    assert_eq!(plan_sheet().len(), 118);
    assert_eq!(read_request(&request_sheet()), Ok(older().request));
    assert_eq!(read_plan(&plan_sheet()), Ok(older()));
    assert_eq!(write_request(&older().request, 90), Ok(request_sheet()));
    assert_eq!(write_request(&older().request, 89), Err(Refusal::NoRoom));
    assert_eq!(read_any(&plan_sheet()), Ok((Sheet::Plan(older()), vec![])));
    assert_eq!((REQUEST_READ, PLAN_READ), (2_461, 3_357));
}

#[test]
fn cut_at_every_place() {
    for cut in 0..request_sheet().len() {
        assert_eq!(number(&request_sheet()[..cut]), 1, "cut at {cut}");
    }
}

#[test]
fn every_value() {
    for value in 0..=255 {
        let expected = if matches!(value, 2 | 3) { 0 } else { 4 };
        assert_eq!(number(&with_head(&[&[4, 0, 1, value]])), expected, "{value}");
    }
    assert_eq!(number(&with_head(&[])), 0);
}

#[test]
fn misplaced_doubled_and_of_a_wrong_length() {
    let mode = &[4, 0, 1, 2];
    assert_eq!(number(&with_head(&[mode, mode])), 2);
    assert_eq!(number(&with_head(&[&[4, 0, 0]])), 2);
    assert_eq!(number(&with_head(&[&[4, 0, 2, 0, 2]])), 2);
    assert_eq!(number(&with_head(&[&[4, 1, 1, 2]])), 2);
    assert_eq!(number(&with_head(&[&[5, 0, 1, 2]])), 2);
    assert_eq!(number(&[mode, &request_sheet()[..7], &request_sheet()[11..]].concat()), 2);
    for place in [30, 49, 68, 87] {
        let sheet = with_head(&[]);
        let (before, behind) = sheet.split_at(place - 4);
        assert_eq!(number(&[before, mode, behind].concat()), 2, "at {place}");
    }
    let plan = plan_sheet();
    for place in [7, 14, 21, 28] {
        let (before, behind) = plan.split_at(plan.len() - 3 - place);
        let sheet = [before, mode, behind].concat();
        assert_eq!(read_plan(&sheet), Err(Refusal::WrongField), "at {place} from the end");
    }
    // A mode alone is no station.
    assert_eq!(number(&with_head(&[mode])[..11]), 1);
    assert_eq!(number(&[&request_sheet()[..11], &[255, 0, 0]].concat()), 2);
}

/// The first fault from the left, before the value of the mode; then 4 before 5.
#[test]
fn other_faults_beside_the_value() {
    let wrong = with_head(&[&[4, 0, 1, 1]]);
    assert_eq!(number(&wrong[..wrong.len() - 1]), 1);
    assert_eq!(number(&[&wrong[..], &[0]].concat()), 3);
    assert_eq!(number(&[&wrong[..11], &[9], &wrong[12..]].concat()), 2);
    let mut walk = wrong.clone();
    walk[17] = 0;
    assert_eq!(number(&walk), 4);
    walk[10] = 2;
    assert_eq!(number(&walk), 5);
}

#[test]
fn texts() {
    let text = show_sheet(&Sheet::Request(older().request));
    assert!(text.starts_with("ttrt 100\nmode 2\nstation 2 20 200 200\n"));
    assert_eq!(composed(&text), Ok(request_sheet()));
    let text = show_sheet(&Sheet::Plan(older()));
    assert!(text.starts_with("ttrt 100\nmode 2\nstation 2 20 200 200 20\n"));
    assert_eq!(composed(&text), Ok(plan_sheet()));
    assert_eq!(composed(&text.replace("mode 2", "# old\n\t mode  002 # FDDI")), Ok(plan_sheet()));
    assert!(!show_sheet(&Sheet::Request(worked_request())).contains("mode"));
}

#[test]
fn texts_that_are_refused() {
    let refused = |text: &str, number: u8| match composed(text) {
        Err(Fault::Refused(refusal)) => assert_eq!(refusal.number(), number, "{text}"),
        other => panic!("{other:?} of {text}"),
    };
    let station = "station 2 20 200 200\n";
    for mode in ["0", "1", "4", "255", "256", "258", "4294967295"] {
        refused(&format!("ttrt 100\nmode {mode}\n{station}"), 4);
        refused(&format!("ttrt 100\nmode {mode}\nmode 2\n{station}"), 2);
        refused(&format!("ttrt 100\nmode {mode}\n"), 2);
    }
    refused(&format!("mode 2\nttrt 100\n{station}"), 2);
    refused(&format!("mode 2\n{station}"), 2);
    refused(&format!("ttrt 100\n{station}mode 2\n"), 2);
    refused(&format!("ttrt 100\n{station}mode 2\n{station}"), 2);
    refused(&format!("ttrt 100\nmode 2\nmode 2\n{station}"), 2);
    refused(&format!("ttrt 100\nmode 2\n{station}mode 2\n"), 2);
    refused("ttrt 100\nmode 2\nstation 0 20 200 200\n", 5);
    refused("ttrt 100\nmode 2\nstation 2 20 100 100 20\n", 7);
    for line in ["mode", "mode x", "mode 4294967296", "mode 2 2", "mode -1", "Mode 2"] {
        let text = format!("ttrt 100\n{line}\n{station}");
        assert_eq!(composed(&text), Err(Fault::Unreadable(2)), "{line}");
    }
}

#[test]
fn frames() {
    let plan = older();
    let set = "100,2;2,20,200,200;0,20,200,200;0,20,200,200;0,20,200,200";
    let planset = set.replace("200,200", "200,200,20");
    let answered = |case: String| answer(&case, Planted::Nothing);
    let request = to_hex(&request_sheet());
    assert_eq!(answered(format!("request {request}")), format!("0 4 {set}"));
    assert_eq!(answered(format!("plan {}", to_hex(&plan_sheet()))), format!("0 4 {planset}"));
    assert_eq!(answered(format!("planning {set}")), "16");
    assert_eq!(answered(format!("write-request 90;{set}")), format!("0 {request}"));
    assert_eq!(answered(format!("write-request 90;{}", set.replace("100,2", "100,4"))), "4");
    assert_eq!(answered(format!("open {planset}")), "16");
    assert_eq!(answered("open 4,2;4,0,1,1,0".to_string()), "16");
    // Mode 1 may stand in a case as well.
    assert_eq!(answered("open 4,1;4,0,1,1,0".to_string()), "0 0,0,0,0;4,0,0,0,0,0");
    for line in ["planning 100,;1,0,1,1", "planning 100,2,1,1,1;1,0,1,1", "planning ,2;1,0,1,1"] {
        assert_eq!(answered(line.to_string()), "no case", "{line}");
    }
    let judged = |head: Head| Request { head, stations: plan.request.stations.clone() }.judge();
    assert_eq!(judged(Head { ttrt: 0, mode: 3, frame: 1, grid: 1 }), Err(Refusal::OutOfRange));
}
