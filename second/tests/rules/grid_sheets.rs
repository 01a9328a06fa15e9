//! g on sheets, in texts and in cases.

use crate::{composed, fddi, worked_plan, worked_request};
use second::frames::answer;
use second::notation::to_hex;
use second::planted::Planted;
use second::rules::{Head, Plan, Refusal};
use second::sheet::*;
use second::text::{show_sheet, Fault};

const ROOM: usize = 4_000;

/// The worked ring on a grid of 5.
fn stepped() -> Plan {
    let mut plan = worked_plan();
    plan.request.head.grid = 5;
    plan
}

/// The same as an older set with F 5: with D 200 and P 200 each S is C as before.
fn older() -> Plan {
    let mut plan = worked_plan();
    plan.request.head = Head { frame: 5, grid: 4, ..fddi(100) };
    for station in &mut plan.request.stations {
        (station.deadline, station.gap) = (200, 200);
    }
    plan
}

fn request_sheet() -> Vec<u8> {
    write_request(&stepped().request, ROOM).expect("sound")
}

fn plan_sheet(plan: &Plan) -> Vec<u8> {
    write_plan(plan, ROOM).expect("sound")
}

fn number(sheet: &[u8]) -> u8 {
    read_request(sheet).map_or_else(Refusal::number, |_| 0)
}

const GRID: &[u8] = &[6, 0, 4, 0, 0, 0, 5];
const FRAME: &[u8] = &[5, 0, 4, 0, 0, 0, 5];
const MODE: &[u8] = &[4, 0, 1, 2];

/// The sheet with these fields in the place of g's.
fn with_head(fields: &[&[u8]]) -> Vec<u8> {
    [&request_sheet()[..7], &fields.concat(), &request_sheet()[14..]].concat()
}

#[test]
fn the_field_stands_behind_ttrt_the_mode_and_f() {
    assert_eq!(request_sheet().len(), 93);
    assert_eq!(request_sheet()[..17], [1, 0, 4, 0, 0, 0, 100, 6, 0, 4, 0, 0, 0, 5, 2, 0, 16]);
    assert_eq!(plan_sheet(&older()).len(), 132);
    assert_eq!(plan_sheet(&older())[7..24], [MODE, FRAME, &GRID[..6]].concat());
    for plan in [stepped(), older()] {
        assert_eq!(read_plan(&plan_sheet(&plan)), Ok(plan.clone()));
        assert_eq!(read_any(&plan_sheet(&plan)), Ok((Sheet::Plan(plan.clone()), vec![])));
        let request = write_request(&plan.request, ROOM).expect("sound");
        assert_eq!(read_request(&request), Ok(plan.request));
    }
    assert_eq!(write_request(&stepped().request, 93), Ok(request_sheet()));
    assert_eq!(write_request(&stepped().request, 92), Err(Refusal::NoRoom));
}

#[test]
fn cut_at_every_place() {
    for cut in 0..request_sheet().len() {
        assert_eq!(number(&request_sheet()[..cut]), 1, "cut at {cut}");
    }
}

#[test]
fn values() {
    let rows = [(0, 4), (1, 4), (2, 0), (7, 0), (999, 0), (1_000, 0), (1_001, 4), (u32::MAX, 4)];
    for (value, expected) in rows {
        assert_eq!(number(&with_head(&[&number_field(GRID_TAG, value)])), expected, "{value}");
    }
    assert_eq!(number(&with_head(&[])), 0);
    // A plan's S must be multiples: all are 20.
    let given = |grid: u32| {
        let sheet = plan_sheet(&stepped());
        let sheet = [&sheet[..10], &grid.to_be_bytes(), &sheet[14..]].concat();
        read_plan(&sheet).map_or_else(Refusal::number, |_| 0)
    };
    assert_eq!([0, 1, 2, 3, 20, 40, 1_000, 1_001].map(given), [4, 4, 0, 7, 0, 7, 7, 4]);
}

#[test]
fn misplaced_doubled_and_of_a_wrong_length() {
    assert_eq!(number(&with_head(&[MODE, GRID])), 0);
    assert_eq!(number(&with_head(&[FRAME, GRID])), 0);
    assert_eq!(number(&with_head(&[MODE, FRAME, GRID])), 0);
    for fields in [
        &[GRID, MODE][..],
        &[GRID, FRAME],
        &[GRID, GRID],
        &[MODE, GRID, FRAME],
        &[FRAME, GRID, MODE],
        &[GRID, FRAME, GRID],
        &[FRAME, MODE, GRID],
    ] {
        assert_eq!(number(&with_head(fields)), 2);
    }
    for head in [&[6, 0, 0][..], &[6, 0, 1, 5], &[6, 0, 3, 0, 0, 5], &[6, 0, 5, 0, 0, 0, 0, 5]] {
        assert_eq!(number(&with_head(&[head])), 2);
    }
    assert_eq!(number(&with_head(&[&[6, 1, 4, 0, 0, 0, 5]])), 2);
    assert_eq!(number(&with_head(&[&[7, 0, 4, 0, 0, 0, 5]])), 2);
    assert_eq!(number(&[GRID, &request_sheet()[..7], &request_sheet()[14..]].concat()), 2);
    let (without, length) = (with_head(&[]), with_head(&[]).len());
    for place in [26, 45, 64, length - 3] {
        let (before, behind) = without.split_at(place);
        assert_eq!(number(&[before, GRID, behind].concat()), 2, "at {place}");
    }
    let plan = plan_sheet(&stepped());
    for place in [3, 10, 17, 24, 31] {
        let (before, behind) = plan.split_at(plan.len() - place);
        let sheet = [before, GRID, behind].concat();
        assert_eq!(read_plan(&sheet), Err(Refusal::WrongField), "at {place} from the end");
    }
    // g alone is no station.
    assert_eq!(number(&[&request_sheet()[..14], &[255, 0, 0]].concat()), 2);
}

/// The first fault from the left, before the value of g; then 4 before 5.
#[test]
fn other_faults_beside_the_value() {
    let wrong = with_head(&[&number_field(GRID_TAG, 1)]);
    assert_eq!(number(&wrong[..wrong.len() - 1]), 1);
    assert_eq!(number(&[&wrong[..], &[0]].concat()), 3);
    assert_eq!(number(&[&wrong[..14], &[9], &wrong[15..]].concat()), 2);
    let mut walk = wrong.clone();
    walk[20] = 0;
    assert_eq!(number(&walk), 4);
    walk[13] = 2;
    assert_eq!(number(&walk), 5);
}

#[test]
fn texts() {
    let text = show_sheet(&Sheet::Request(stepped().request));
    assert!(text.starts_with("ttrt 100\ngrid 5\nstation 2 20 100 100\n"));
    assert_eq!(composed(&text), Ok(request_sheet()));
    let text = show_sheet(&Sheet::Plan(older()));
    assert!(text.starts_with("ttrt 100\nmode 2\nframe 5\ngrid 4\nstation 2 20 200 200 20\n"));
    assert_eq!(composed(&text), Ok(plan_sheet(&older())));
    let untidy = text.replace("grid 4", "# steps\n\t grid  004 # ticks");
    assert_eq!(composed(&untidy), Ok(plan_sheet(&older())));
    assert!(!show_sheet(&Sheet::Request(worked_request())).contains("grid"));
}

#[test]
fn texts_that_are_refused() {
    let refused = |text: &str, number: u8| match composed(text) {
        Err(Fault::Refused(refusal)) => assert_eq!(refusal.number(), number, "{text}"),
        other => panic!("{other:?} of {text}"),
    };
    let station = "station 2 20 200 200\n";
    for grid in ["0", "1", "1001", "65541", "4294967295"] {
        refused(&format!("ttrt 100\ngrid {grid}\n{station}"), 4);
        refused(&format!("ttrt 100\nmode 2\nframe 2\ngrid {grid}\n{station}"), 4);
        refused(&format!("ttrt 100\ngrid {grid}\ngrid 2\n{station}"), 2);
        refused(&format!("ttrt 100\ngrid {grid}\n"), 2);
    }
    refused(&format!("grid 2\nttrt 100\n{station}"), 2);
    refused(&format!("grid 2\n{station}"), 2);
    refused(&format!("ttrt 100\ngrid 2\nmode 2\n{station}"), 2);
    refused(&format!("ttrt 100\ngrid 2\nframe 2\n{station}"), 2);
    refused(&format!("ttrt 100\nmode 2\ngrid 2\nframe 2\n{station}"), 2);
    refused(&format!("ttrt 100\n{station}grid 2\n"), 2);
    refused(&format!("ttrt 100\n{station}grid 2\n{station}"), 2);
    refused(&format!("ttrt 100\ngrid 2\ngrid 2\n{station}"), 2);
    refused("ttrt 100\ngrid 2\nstation 0 20 200 200\n", 5);
    refused("ttrt 100\ngrid 2\nstation 2 20 200 200 11\n", 7);
    for line in ["grid", "grid x", "grid 4294967296", "grid 2 2", "grid -1", "Grid 2"] {
        let text = format!("ttrt 100\n{line}\n{station}");
        assert_eq!(composed(&text), Err(Fault::Unreadable(2)), "{line}");
    }
}

#[test]
fn grids_of_cases() {
    let answered = |case: String| answer(&case, Planted::Nothing);
    let set = "100,1,1,5;2,20,100,100;0,20,100,100;0,20,100,100;0,20,100,100";
    let planset = set.replace("100,100;", "100,100,20;") + ",20";
    let request = to_hex(&request_sheet());
    assert_eq!(answered(format!("request {request}")), format!("0 4 {set}"));
    assert_eq!(
        answered(format!("plan {}", to_hex(&plan_sheet(&stepped())))),
        format!("0 4 {planset}")
    );
    assert_eq!(answered(format!("planning {set}")), "0 18 20,20,20,20");
    assert_eq!(answered(format!("write-request 93;{set}")), format!("0 {request}"));
    let other = |grid: &str| set.replace("100,1,1,5;", &format!("100,1,1,{grid};"));
    assert_eq!(answered(format!("planning {}", other("7"))), "0 14 21,21,21,21");
    assert_eq!(answered(format!("planning {}", other("25"))), "6");
    assert_eq!(answered(format!("write-request 93;{}", other("1001"))), "4");
    assert_eq!(answered(format!("write-request 93;{}", other("0"))), "4");
    // g 1 may stand in a case as well, and is the same as none.
    let plain = set.replace("100,1,1,5;", "100;");
    let written = answered(format!("write-request 93;{plain}"));
    assert_eq!(answered(format!("write-request 93;{}", other("1"))), written);
    assert_eq!(answered(format!("open {}", planset.replace(",20;", ",21;"))), "7");
    for line in ["planning 100,1,2,;1,0,1,1", "planning 100,1,2,2,2;1,0,1,1"] {
        assert_eq!(answered(line.to_string()), "no case", "{line}");
    }
}
