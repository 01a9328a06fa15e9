//! Logs as bytes: reading with a plan's refusals, writing with 14, the recorder's counter.

use crate::{station, timely, worked_plan};
use second::frames::answer;
use second::gen::{Kind, Sort};
use second::log::{log_of, Recorder};
use second::notation::to_hex;
use second::planted::Planted;
use second::rules::{Entry, MarkEntry, Plan, Refusal, Request, VisitEntry};
use second::sheet::{end_field, read_any, read_log, read_plan, record_field, write_plan, Sheet};

pub fn entry(numbers: [u32; 5]) -> Entry {
    let [station, start, limit, synchronous, asynchronous] = numbers;
    Entry::Visit(VisitEntry { station: station as u8, start, limit, synchronous, asynchronous })
}

pub fn mark(station: u8, mark: u8) -> Entry {
    Entry::Mark(MarkEntry { station, mark })
}

/// The worked run.
pub fn worked_entries() -> Vec<Entry> {
    let rows = [
        [0, 0, 18, 20, 18],
        [1, 40, 0, 20, 0],
        [2, 60, 0, 20, 0],
        [3, 80, 0, 20, 0],
        [0, 100, 0, 20, 0],
        [1, 122, 18, 20, 18],
    ];
    rows.map(entry).to_vec()
}

pub fn worked_log() -> Vec<u8> {
    log_of(&worked_plan(), &worked_entries()).expect("sound")
}

fn number(log: &[u8]) -> u8 {
    read_log(log).map_or_else(Refusal::number, |_| 0)
}

/// Where the visits begin.
const FIRST: usize = 111;

#[test]
fn the_worked_log() {
    let log = worked_log();
    assert_eq!(log.len(), 114 + 6 * 20);
    let plan = write_plan(&worked_plan(), 114).expect("sound");
    assert_eq!(log[..FIRST], plan[..FIRST]);
    assert_eq!(
        log[FIRST..FIRST + 20],
        [16, 0, 17, 0, 0, 0, 0, 0, 0, 0, 0, 18, 0, 0, 0, 20, 0, 0, 0, 18]
    );
    assert_eq!(
        log[FIRST + 100..],
        [16, 0, 17, 1, 0, 0, 0, 122, 0, 0, 0, 18, 0, 0, 0, 20, 0, 0, 0, 18, 255, 0, 0]
    );
    assert_eq!(read_log(&log), Ok((worked_plan(), worked_entries())));
    assert_eq!(read_any(&log), Ok((Sheet::Plan(worked_plan()), worked_entries())));
}

#[test]
fn a_log_without_visits_is_a_plan() {
    let plan = write_plan(&worked_plan(), 114).expect("sound");
    assert_eq!(log_of(&worked_plan(), &[]), Ok(plan.clone()));
    assert_eq!(read_log(&plan), Ok((worked_plan(), vec![])));
    assert_eq!(read_plan(&worked_log()), Err(Refusal::WrongField));
}

#[test]
fn cut_at_every_place_and_bytes_behind() {
    for cut in 0..worked_log().len() {
        assert_eq!(number(&worked_log()[..cut]), 1, "cut at {cut}");
    }
    let visit = record_field(&worked_entries()[0]);
    for behind in [&[0][..], &[255, 0, 0], &visit] {
        assert_eq!(number(&[&worked_log()[..], behind].concat()), 3);
    }
}

#[test]
fn any_numbers_are_read() {
    let top = u32::MAX;
    let entries = [[255, top, top, top, top], [0, 0, 0, 0, 0], [128, 1, 2, 3, 4]].map(entry);
    let log = log_of(&worked_plan(), &entries).expect("sound");
    assert_eq!(read_log(&log), Ok((worked_plan(), entries.to_vec())));
}

/// A mark may stand before the first visit, between, and behind the last; any numbers are read.
#[test]
fn marks_among_the_visits() {
    let [first, second] = [worked_entries()[0], worked_entries()[1]];
    let entries = [mark(3, 1), first, mark(255, 255), mark(0, 0), second, mark(3, 0)];
    let log = log_of(&worked_plan(), &entries).expect("sound");
    assert_eq!(log.len(), 114 + 2 * 20 + 4 * 5);
    assert_eq!(log[FIRST..FIRST + 5], [17, 0, 2, 3, 1]);
    assert_eq!(log[FIRST + 25..FIRST + 35], [17, 0, 2, 255, 255, 17, 0, 2, 0, 0]);
    assert_eq!(read_log(&log), Ok((worked_plan(), entries.to_vec())));
    for cut in 0..log.len() {
        assert_eq!(number(&log[..cut]), 1, "cut at {cut}");
    }
    // A mark with the length of a visit, and a visit with that of a mark, are no fields.
    for (place, value) in
        [(FIRST, 16), (FIRST + 2, 17), (FIRST + 2, 1), (FIRST + 1, 1), (FIRST, 18)]
    {
        let mut changed = log.clone();
        changed[place] = value;
        assert_eq!(number(&changed), 2, "{value} at {place}");
    }
    let alone = log_of(&worked_plan(), &[mark(9, 9)]).expect("sound");
    assert_eq!(read_log(&alone), Ok((worked_plan(), vec![mark(9, 9)])));
    assert_eq!(read_plan(&alone), Err(Refusal::WrongField));
}

/// Each byte of a visit's field and of the end behind it with every value.
#[test]
fn every_byte_of_a_visit_and_of_the_end() {
    let log = log_of(&worked_plan(), &worked_entries()[..1]).expect("sound");
    for (place, value) in (FIRST..log.len()).flat_map(|place| (0..=255).map(move |v| (place, v))) {
        let mut changed = log.clone();
        changed[place] = value;
        let expected = match place - FIRST {
            0..=2 | 20..=22 if value == log[place] => 0,
            // An end with a length of 17, and a visit with one of 0, are no fields.
            0..=2 | 20..=22 => 2,
            _ => 0,
        };
        assert_eq!(number(&changed), expected, "{value} at {place}");
    }
}

/// The parts of the worked log, and visits among them.
#[test]
fn fields_elsewhere() {
    let log = worked_log();
    let (visit, share) = (record_field(&worked_entries()[0]), &log[FIRST - 7..FIRST]);
    let with = |place: usize, field: &[u8]| number(&[&log[..place], field, &log[place..]].concat());
    // Before TTRT, the stations, the allocations, the last of these.
    for place in [0, 7, 26, 83, 90, FIRST - 7] {
        assert_eq!(with(place, &visit), 2, "at {place}");
    }
    for place in [FIRST, FIRST + 20, FIRST + 120] {
        assert_eq!(with(place, &visit), 0, "at {place}");
    }
    for field in [share, &log[..7], &log[7..26], &[4, 0, 1, 2], &[17, 0, 3, 0, 1, 0], &[16, 0, 16]]
    {
        assert_eq!([with(FIRST, field), with(FIRST + 20, field)], [2, 2], "{field:?}");
    }
    // An allocation too few, and one too many.
    assert_eq!(number(&[&log[..FIRST - 7], &log[FIRST..]].concat()), 2);
    // A request with visits.
    assert_eq!(number(&[&log[..83], &log[FIRST..]].concat()), 2);
    assert_eq!(read_any(&[&log[..83], &log[FIRST..]].concat()), Err(Refusal::WrongField));
}

/// 1, 2 and 3 of the whole log come before 4, 5 and 7 of its plan.
#[test]
fn a_plans_refusals() {
    for (change, expected) in [
        ((|plan| plan.request.head.ttrt = 0) as fn(&mut Plan), 4),
        (|plan| plan.request.head.frame = 65_536, 4),
        (|plan| plan.request.stations[0].walk = 0, 5),
        (|plan| plan.allocation[0] = 19, 7),
        (|plan| plan.request.head.frame = 20, 7),
    ] {
        let mut plan = worked_plan();
        change(&mut plan);
        assert_eq!(log_of(&plan, &[]).map_err(Refusal::number), Err(expected));
        let visits: Vec<Vec<u8>> = worked_entries().iter().map(record_field).collect();
        let mut fields = second::sheet::fields(&plan.request, &plan.allocation);
        fields.pop();
        let log = [fields.concat(), visits.concat(), end_field()].concat();
        assert_eq!(number(&log), expected);
        assert_eq!(number(&log[..log.len() - 1]), 1);
        assert_eq!(number(&[&log[..], &[0]].concat()), 3);
        let place = log.len() - 3;
        assert_eq!(number(&[&log[..place], &[3, 0, 4, 0, 0, 0, 1], &log[place..]].concat()), 2);
    }
}

#[test]
fn room_for_the_end_is_kept() {
    let begun = |room| Recorder::begin(&worked_plan(), room);
    assert_eq!(begun(113).err(), Some(Refusal::NoRoom));
    for room in 114..=160 {
        let mut recorder = begun(room).expect("room for the plan");
        let entries = worked_entries();
        let added = entries.iter().take_while(|entry| recorder.add(entry).is_ok()).count();
        assert_eq!(added, (room - 114) / 20, "room {room}");
        assert_eq!(recorder.add(&entries[0]), Err(Refusal::NoRoom));
        let log = recorder.end();
        assert_eq!(read_log(&log), Ok((worked_plan(), entries[..added].to_vec())));
        assert!(log.len() <= room);
    }
    let mut broken = worked_plan();
    broken.allocation[0] = 0;
    assert_eq!(Recorder::begin(&broken, 0).err(), Some(Refusal::RuleBroken));
    broken.request.stations.clear();
    assert_eq!(Recorder::begin(&broken, 0).err(), Some(Refusal::WrongField));
}

fn answered(case: &str) -> String {
    answer(case, Planted::Nothing)
}

/// The starts that a recorder notes of six visits at 0, 2, 2, 2, 2 and 4.
fn starts(counter: &str) -> Vec<u32> {
    let plan = to_hex(&write_plan(&worked_plan(), 114).expect("sound"));
    let log = answered(&format!("record 234;{counter};{plan};visits 6 0"));
    let read = answered(&log.replacen("0 ", "log ", 1));
    let visits = read.split('|').skip(1).map(|visit| visit.split(',').nth(1).expect("a start"));
    visits.map(|start| start.parse().expect("a number")).collect()
}

#[test]
fn the_counter_runs_past_its_top() {
    let top = u32::MAX;
    assert_eq!(starts("0,0"), [0, 2, 2, 2, 2, 4]);
    assert_eq!(starts("7,0"), [7, 9, 9, 9, 9, 11]);
    assert_eq!(starts("4294967293,0"), [top - 2, top, top, top, top, 1]);
    assert_eq!(starts("4294967294,0"), [top - 1, 0, 0, 0, 0, 2]);
    assert_eq!(starts("4294967295,0"), [top, 1, 1, 1, 1, 3]);
    // A counter that showed 7 at some other time.
    assert_eq!(starts("7,2"), [5, 7, 7, 7, 7, 9]);
    assert_eq!(starts("7,4294967296"), [7, 9, 9, 9, 9, 11]);
    assert_eq!(starts("7,10"), [top - 2, top, top, top, top, 1]);
    assert_eq!(starts("0,18446744073709551615"), [1, 3, 3, 3, 3, 5]);
}

/// A lone station of TTRT 1,000,000 that only walks: after 4,295 visits the counter is past its top.
#[test]
fn a_long_run_runs_past_the_top() {
    let stations = vec![station(1_000_000, 0, 1, 1)];
    let request = Request { head: timely(1_000_000), stations };
    let plan = Plan { request, allocation: vec![0] };
    let sheet = to_hex(&write_plan(&plan, 36).expect("sound"));
    let log = answered(&format!("record 100000;0,0;{sheet};visits 4296 0"));
    let read = answered(&log.replacen("0 ", "log ", 1));
    assert!(read.ends_with("|0,4294000000,0,0,0|0,32704,0,0,0"));
}

#[test]
fn cases() {
    let plan = to_hex(&write_plan(&worked_plan(), 114).expect("sound"));
    let log = to_hex(&worked_log());
    let planset = "100;2,20,100,100,20;0,20,100,100,20;0,20,100,100,20;0,20,100,100,20";
    let calls = "message 0 20 0;message 1 20 0;message 2 20 0;message 3 20 0;\
                 visits 4 1000;message 0 20 100;message 1 20 100;visits 2 1000";
    assert_eq!(answered(&format!("record 234;0,0;{plan};{calls}")), format!("0 {log}"));
    let short = to_hex(&log_of(&worked_plan(), &worked_entries()[..5]).expect("sound"));
    assert_eq!(answered(&format!("record 233;0,0;{plan};{calls}")), format!("14 {short}"));
    assert_eq!(answered(&format!("record 114;0,0;{plan};visit 0")), format!("14 {plan}"));
    assert_eq!(answered(&format!("record 114;0,0;{plan};visit 0 2")), format!("0 {plan}"));
    assert_eq!(answered(&format!("record 113;0,0;{plan}")), "14");
    assert_eq!(answered(&format!("record 0;0,0;{log}")), "2");
    assert_eq!(
        answered(&format!("log {log}")),
        format!("0 {planset}|0,0,18,20,18|1,40,0,20,0|2,60,0,20,0|3,80,0,20,0|0,100,0,20,0|1,122,18,20,18")
    );
    assert_eq!(answered(&format!("log {plan}")), format!("0 {planset}"));
    assert_eq!(answered("log -"), "1");
    for line in ["log", "log x", "record 0;-", "record 0;1;-", "record 0;4294967296,0;-"] {
        assert_eq!(answered(line), "no case", "{line}");
    }
}

/// Accepted logs are written again the same, by entries and by text; damaged ones have every number.
#[test]
fn read_and_write_undo_each_other() {
    let mut numbers = [0; 8];
    for (place, sort) in (0..600).flat_map(|place| Sort::ALL.map(|sort| (place, sort))) {
        let case = &Kind::Logs.case(sort, 17, place)[0];
        let bytes = second::notation::from_hex(&case[4..]).expect("bytes");
        match read_log(&bytes) {
            Ok((plan, entries)) => {
                assert_eq!(log_of(&plan, &entries), Ok(bytes));
                let shown = answered(&case.replacen("log ", "command show;", 1));
                let text = shown.strip_suffix(" -").expect("no error");
                let composed = answered(&format!("command compose;{text}"));
                assert_eq!(composed, format!("{} -", &case[4..]));
                numbers[0] += 1;
            }
            Err(refusal) => numbers[usize::from(refusal.number())] += 1,
        }
    }
    numbers[6] = usize::MAX;
    assert!(numbers.iter().all(|&count| count > 2), "{numbers:?}");
}
