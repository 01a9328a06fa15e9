use crate::{station, timely, worked_plan, worked_request};
use second::rules::{Plan, Refusal, Request};
use second::sheet::*;

const ROOM: usize = 4_000;

fn request_sheet() -> Vec<u8> {
    write_request(&worked_request(), ROOM).expect("sound")
}

fn plan_sheet() -> Vec<u8> {
    write_plan(&worked_plan(), ROOM).expect("sound")
}

fn request_number(sheet: &[u8]) -> u8 {
    read_request(sheet).map_or_else(Refusal::number, |_| 0)
}

fn plan_number(sheet: &[u8]) -> u8 {
    read_plan(sheet).map_or_else(Refusal::number, |_| 0)
}

fn changed(sheet: &[u8], index: usize, byte: u8) -> Vec<u8> {
    let mut sheet = sheet.to_vec();
    sheet[index] = byte;
    sheet
}

#[test]
fn the_layout() {
    let lone = Request { head: timely(100), stations: vec![station(2, 20, 250, 0x0102_0304)] };
    assert_eq!(write_request(&lone, ROOM), {
        let mut bytes = vec![1, 0, 4, 0, 0, 0, 100, 2, 0, 16, 0, 0, 0, 2, 0, 0, 0, 20];
        bytes.extend([0, 0, 0, 250, 1, 2, 3, 4, 255, 0, 0]);
        Ok(bytes)
    });
    let plan = Plan { request: lone, allocation: vec![10] };
    let bytes = write_plan(&plan, ROOM).expect("sound");
    assert_eq!(bytes[26..], [3, 0, 4, 0, 0, 0, 10, 255, 0, 0]);
}

#[test]
fn lengths() {
    let many = |count| Request { head: timely(200), stations: vec![station(1, 0, 1, 1); count] };
    for (count, length) in [(1, 29), (128, 2_442)] {
        assert_eq!(write_request(&many(count), ROOM).expect("sound").len(), length);
        let plan = Plan { request: many(count), allocation: vec![0; count] };
        assert_eq!(write_plan(&plan, ROOM).expect("sound").len(), 10 + 26 * count);
    }
}

#[test]
fn what_is_written_is_read() {
    assert_eq!(read_request(&request_sheet()), Ok(worked_request()));
    assert_eq!(read_plan(&plan_sheet()), Ok(worked_plan()));
}

#[test]
fn cut_at_every_place() {
    for cut in 0..request_sheet().len() {
        assert_eq!(request_number(&request_sheet()[..cut]), 1, "cut at {cut}");
    }
    for cut in 0..plan_sheet().len() {
        assert_eq!(plan_number(&plan_sheet()[..cut]), 1, "cut at {cut}");
    }
}

#[test]
fn wrong_tags_and_lengths() {
    for start in [0, 7, 26, 83] {
        for tag in (0..=255).filter(|&tag| tag != request_sheet()[start]) {
            assert_eq!(request_number(&changed(&request_sheet(), start, tag)), 2);
        }
        assert_eq!(request_number(&changed(&request_sheet(), start + 1, 1)), 2);
        let length = request_sheet()[start + 2];
        assert_eq!(request_number(&changed(&request_sheet(), start + 2, length + 1)), 2);
    }
}

#[test]
fn a_wrong_head_comes_before_a_body_cut_short() {
    assert_eq!(request_number(&[1, 0, 4, 0]), 1);
    assert_eq!(request_number(&[1, 0, 5, 0]), 2);
    assert_eq!(request_number(&[2, 0, 4]), 2);
    assert_eq!(request_number(&[9, 9]), 1);
}

#[test]
fn counts_of_stations_and_allocations() {
    let many = |count| Request { head: timely(200), stations: vec![station(1, 0, 1, 1); count] };
    let request = |count| request_number(&fields(&many(count), &[]).concat());
    assert_eq!([0, 1, 128, 129].map(request), [2, 0, 0, 2]);
    let plan = |count, given: usize| plan_number(&fields(&many(count), &vec![0; given]).concat());
    assert_eq!([plan(0, 0), plan(0, 1), plan(2, 0), plan(2, 1)], [2, 2, 2, 2]);
    assert_eq!([plan(2, 2), plan(2, 3), plan(128, 128), plan(128, 129)], [0, 2, 0, 2]);
    assert_eq!(plan(129, 129), 2);
}

#[test]
fn a_byte_after_the_end() {
    let request = [request_sheet(), vec![0]].concat();
    let plan = [plan_sheet(), vec![255]].concat();
    assert_eq!((request_number(&request), plan_number(&plan)), (3, 3));
}

#[test]
fn the_kinds_are_not_taken_for_each_other() {
    assert_eq!((request_number(&plan_sheet()), plan_number(&request_sheet())), (2, 2));
    assert_eq!(read_any(&request_sheet()), Ok((Sheet::Request(worked_request()), vec![])));
    assert_eq!(read_any(&plan_sheet()), Ok((Sheet::Plan(worked_plan()), vec![])));
    let cut = &plan_sheet()[..plan_sheet().len() - 1];
    assert_eq!(read_any(cut), Err(Refusal::EndsEarly));
}

#[test]
fn faults_of_the_layout_come_before_numbers() {
    let mut request = worked_request();
    request.head.ttrt = 0;
    let sheet = fields(&request, &[]).concat();
    assert_eq!(request_number(&sheet), 4);
    assert_eq!(request_number(&sheet[..sheet.len() - 1]), 1);
    assert_eq!(request_number(&[sheet, vec![0]].concat()), 3);
}

#[test]
fn numbers_of_a_sheet_in_their_order() {
    let numbered = |change: fn(&mut Plan)| {
        let mut plan = worked_plan();
        change(&mut plan);
        plan_number(&fields(&plan.request, &plan.allocation).concat())
    };
    assert_eq!(numbered(|plan| plan.allocation[3] = 19), 7);
    assert_eq!(numbered(|plan| plan.allocation[3] = 38), 0);
    assert_eq!(numbered(|plan| plan.allocation[3] = 39), 7);
    assert_eq!(numbered(|plan| plan.allocation[3] = 1_000_001), 4);
    assert_eq!(numbered(|plan| plan.request.stations[0].walk = 0), 5);
    assert_eq!(numbered(|plan| plan.request.stations[3].walk = 99), 5);
}

#[test]
fn writing_needs_room_last_of_all() {
    let request = worked_request();
    assert_eq!(write_request(&request, 86), Ok(request_sheet()));
    assert_eq!(write_request(&request, 85), Err(Refusal::NoRoom));
    assert_eq!(write_plan(&worked_plan(), 113), Err(Refusal::NoRoom));
    let mut broken = worked_plan();
    broken.allocation[0] = 0;
    assert_eq!(write_plan(&broken, 0), Err(Refusal::RuleBroken));
    let empty = Request { head: timely(0), stations: vec![] };
    assert_eq!(write_request(&empty, 0), Err(Refusal::WrongField));
}
