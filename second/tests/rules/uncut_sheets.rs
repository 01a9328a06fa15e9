//! F on sheets, in texts and in cases.

use crate::{composed, fddi, worked_plan, worked_request};
use second::frames::answer;
use second::notation::to_hex;
use second::planted::Planted;
use second::rules::{Head, Plan, Refusal};
use second::sheet::*;
use second::text::{show_sheet, Fault};

const ROOM: usize = 4_000;

/// The worked ring with F 5.
fn uncut() -> Plan {
    let mut plan = worked_plan();
    plan.request.head.frame = 5;
    plan
}

/// The same as an older set: with D 200 and P 200 each S is C as before.
fn older() -> Plan {
    let mut plan = worked_plan();
    plan.request.head = Head { frame: 5, ..fddi(100) };
    for station in &mut plan.request.stations {
        (station.deadline, station.gap) = (200, 200);
    }
    plan
}

fn request_sheet() -> Vec<u8> {
    write_request(&uncut().request, ROOM).expect("sound")
}

fn plan_sheet(plan: &Plan) -> Vec<u8> {
    write_plan(plan, ROOM).expect("sound")
}

fn number(sheet: &[u8]) -> u8 {
    read_request(sheet).map_or_else(Refusal::number, |_| 0)
}

const FRAME: &[u8] = &[5, 0, 4, 0, 0, 0, 5];
const MODE: &[u8] = &[4, 0, 1, 2];

/// The sheet with these fields in the place of F's.
fn with_head(fields: &[&[u8]]) -> Vec<u8> {
    [&request_sheet()[..7], &fields.concat(), &request_sheet()[14..]].concat()
}

#[test]
fn the_field_stands_behind_ttrt_and_the_mode() {
    assert_eq!(request_sheet().len(), 93);
    assert_eq!(request_sheet()[..17], [1, 0, 4, 0, 0, 0, 100, 5, 0, 4, 0, 0, 0, 5, 2, 0, 16]);
    assert_eq!(plan_sheet(&older()).len(), 125);
    assert_eq!(plan_sheet(&older())[7..18], [MODE, FRAME].concat());
    for plan in [uncut(), older()] {
        assert_eq!(read_plan(&plan_sheet(&plan)), Ok(plan.clone()));
        assert_eq!(read_any(&plan_sheet(&plan)), Ok((Sheet::Plan(plan.clone()), vec![])));
        let request = write_request(&plan.request, ROOM).expect("sound");
        assert_eq!(read_request(&request), Ok(plan.request));
    }
    assert_eq!(write_request(&uncut().request, 93), Ok(request_sheet()));
    assert_eq!(write_request(&uncut().request, 92), Err(Refusal::NoRoom));
    assert_eq!((REQUEST_READ, PLAN_READ), (2_461, 3_357));
}

#[test]
fn cut_at_every_place() {
    for cut in 0..request_sheet().len() {
        assert_eq!(number(&request_sheet()[..cut]), 1, "cut at {cut}");
    }
}

#[test]
fn values() {
    let rows = [(0, 4), (1, 4), (2, 0), (19, 0), (20, 0), (65_535, 0), (65_536, 4), (u32::MAX, 4)];
    for (value, expected) in rows {
        assert_eq!(number(&with_head(&[&number_field(FRAME_TAG, value)])), expected, "{value}");
    }
    assert_eq!(number(&with_head(&[])), 0);
    // A plan is held to the token rule: F 19 at most.
    let given = |frame: u32| {
        let sheet = plan_sheet(&uncut());
        let sheet = [&sheet[..10], &frame.to_be_bytes(), &sheet[14..]].concat();
        read_plan(&sheet).map_or_else(Refusal::number, |_| 0)
    };
    assert_eq!([0, 1, 2, 19, 20, 65_535, 65_536].map(given), [4, 4, 0, 0, 7, 7, 4]);
}

#[test]
fn misplaced_doubled_and_of_a_wrong_length() {
    assert_eq!(number(&with_head(&[MODE, FRAME])), 0);
    assert_eq!(number(&with_head(&[FRAME, MODE])), 2);
    assert_eq!(number(&with_head(&[FRAME, FRAME])), 2);
    assert_eq!(number(&with_head(&[MODE, FRAME, MODE])), 2);
    assert_eq!(number(&with_head(&[MODE, MODE, FRAME])), 2);
    for head in [&[5, 0, 0][..], &[5, 0, 1, 5], &[5, 0, 3, 0, 0, 5], &[5, 0, 5, 0, 0, 0, 0, 5]] {
        assert_eq!(number(&with_head(&[head])), 2);
    }
    assert_eq!(number(&with_head(&[&[5, 1, 4, 0, 0, 0, 5]])), 2);
    assert_eq!(number(&with_head(&[&[7, 0, 4, 0, 0, 0, 5]])), 2);
    assert_eq!(number(&[FRAME, &request_sheet()[..7], &request_sheet()[14..]].concat()), 2);
    let (without, length) = (with_head(&[]), with_head(&[]).len());
    for place in [26, 45, 64, length - 3] {
        let (before, behind) = without.split_at(place);
        assert_eq!(number(&[before, FRAME, behind].concat()), 2, "at {place}");
    }
    let plan = plan_sheet(&uncut());
    for place in [3, 10, 17, 24, 31] {
        let (before, behind) = plan.split_at(plan.len() - place);
        let sheet = [before, FRAME, behind].concat();
        assert_eq!(read_plan(&sheet), Err(Refusal::WrongField), "at {place} from the end");
    }
    // F alone is no station, and a cut in its head or body is 1.
    assert_eq!(number(&[&request_sheet()[..14], &[255, 0, 0]].concat()), 2);
    for cut in 7..=14 {
        assert_eq!(number(&request_sheet()[..cut]), 1);
    }
}

/// The first fault from the left, before the value of F; then 4 before 5.
#[test]
fn other_faults_beside_the_value() {
    let wrong = with_head(&[&number_field(FRAME_TAG, 1)]);
    assert_eq!(number(&wrong[..wrong.len() - 1]), 1);
    assert_eq!(number(&[&wrong[..], &[0]].concat()), 3);
    assert_eq!(number(&[&wrong[..14], &[9], &wrong[15..]].concat()), 2);
    let mut walk = wrong.clone();
    walk[20] = 0;
    assert_eq!(number(&walk), 4);
    walk[13] = 2;
    assert_eq!(number(&walk), 5);
}

#[test]
fn texts() {
    let text = show_sheet(&Sheet::Request(uncut().request));
    assert!(text.starts_with("ttrt 100\nframe 5\nstation 2 20 100 100\n"));
    assert_eq!(composed(&text), Ok(request_sheet()));
    let text = show_sheet(&Sheet::Plan(older()));
    assert!(text.starts_with("ttrt 100\nmode 2\nframe 5\nstation 2 20 200 200 20\n"));
    assert_eq!(composed(&text), Ok(plan_sheet(&older())));
    let untidy = text.replace("frame 5", "# long\n\t frame  005 # ticks");
    assert_eq!(composed(&untidy), Ok(plan_sheet(&older())));
    assert!(!show_sheet(&Sheet::Request(worked_request())).contains("frame"));
}

#[test]
fn texts_that_are_refused() {
    let refused = |text: &str, number: u8| match composed(text) {
        Err(Fault::Refused(refusal)) => assert_eq!(refusal.number(), number, "{text}"),
        other => panic!("{other:?} of {text}"),
    };
    let station = "station 2 20 200 200\n";
    for frame in ["0", "1", "65536", "65541", "4294967295"] {
        refused(&format!("ttrt 100\nframe {frame}\n{station}"), 4);
        refused(&format!("ttrt 100\nmode 2\nframe {frame}\n{station}"), 4);
        refused(&format!("ttrt 100\nframe {frame}\nframe 2\n{station}"), 2);
        refused(&format!("ttrt 100\nframe {frame}\n"), 2);
    }
    refused(&format!("frame 2\nttrt 100\n{station}"), 2);
    refused(&format!("frame 2\n{station}"), 2);
    refused(&format!("ttrt 100\nframe 2\nmode 2\n{station}"), 2);
    refused(&format!("ttrt 100\nframe 2\nmode 1\n{station}"), 2);
    refused(&format!("ttrt 100\n{station}frame 2\n"), 2);
    refused(&format!("ttrt 100\n{station}frame 2\n{station}"), 2);
    refused(&format!("ttrt 100\nframe 2\nframe 2\n{station}"), 2);
    refused(&format!("ttrt 100\nframe 2\n{station}frame 2\n"), 2);
    refused("ttrt 100\nframe 2\nstation 0 20 200 200\n", 5);
    refused("ttrt 100\nframe 90\nstation 2 20 200 200 10\n", 7);
    for line in ["frame", "frame x", "frame 4294967296", "frame 2 2", "frame -1", "Frame 2"] {
        let text = format!("ttrt 100\n{line}\n{station}");
        assert_eq!(composed(&text), Err(Fault::Unreadable(2)), "{line}");
    }
}

#[test]
fn frames_of_cases() {
    let answered = |case: String| answer(&case, Planted::Nothing);
    let set = "100,1,5;2,20,100,100;0,20,100,100;0,20,100,100;0,20,100,100";
    let planset = set.replace("100,100;", "100,100,20;") + ",20";
    let request = to_hex(&request_sheet());
    assert_eq!(answered(format!("request {request}")), format!("0 4 {set}"));
    assert_eq!(
        answered(format!("plan {}", to_hex(&plan_sheet(&uncut())))),
        format!("0 4 {planset}")
    );
    assert_eq!(answered(format!("planning {set}")), "0 14 20,20,20,20");
    assert_eq!(answered(format!("write-request 93;{set}")), format!("0 {request}"));
    let other = |frame: &str| set.replace("100,1,5;", &format!("100,1,{frame};"));
    assert_eq!(answered(format!("write-request 93;{}", other("65536"))), "4");
    assert_eq!(answered(format!("write-request 93;{}", other("0"))), "4");
    // F 1 may stand in a case as well, and is the same as none.
    let plain = set.replace("100,1,5;", "100;");
    let written = answered(format!("write-request 93;{plain}"));
    assert_eq!(answered(format!("write-request 93;{}", other("1"))), written);
    let run = format!("run {}", to_hex(&plan_sheet(&uncut())));
    assert_eq!(
        answered(format!("{run};visit 2 5;visits 2 0 4;visits 3 9 6;visits 9 1 3;visit 3")),
        "0 visit 0 0 2 14 0 10 - -|visit 2 12 12 4 0 0 - -|refused 10|visit 3 40 14 2 0 3 - -|\
         visit 0 43 14 2 0 2 - -"
    );
    for line in ["visit 1 2 3", "visits 1", "visits 2 1 1 1", "visit", "visit 1 4294967296"] {
        assert_eq!(answered(format!("{run};{line}")), "no case", "{line}");
    }
    for line in ["planning 100,,2;1,0,1,1", "planning 100,1,2,2,2;1,0,1,1", "planning ,,;1,0,1,1"] {
        assert_eq!(answered(line.to_string()), "no case", "{line}");
    }
}
