//! Why a sheet is accepted or refused: worked examples of each number and each kind, and of random
//! sheets that the place is that of the first fault, that the list of numbers is whole, and that S, X,
//! the largest C and the missing ticks are what trying every number gives.

use crate::{composed, fddi, station, timely, worked_request};
use second::explain::explained;
use second::gen::{random::Random, sheets, sheets::SheetKind, Kind, Sort};
use second::notation::from_hex;
use second::planner;
use second::planted::Planted;
use second::rules::{least_time, Head, Mode, Plan, Request, Station, MOST_STATIONS};
use second::sheet::{fields, mode_field, number_field, read_plan, read_request};
use second::sheet::{walked, FRAME_TAG, GRID_TAG, PLAN_READ, PLAN_TABLE, REQUEST_TABLE};

fn said(sheet: &[u8]) -> String {
    explained(sheet, Planted::Nothing)
}

/// The lines of what is said of a sheet in hexadecimal digits.
fn of_hex(digits: &str) -> String {
    said(&from_hex(digits).expect("digits"))
}

fn of_text(text: &str) -> String {
    said(&composed(text).expect("a sheet"))
}

fn request_sheet(request: &Request) -> Vec<u8> {
    fields(request, &[]).concat()
}

fn plan_sheet(plan: &Plan) -> Vec<u8> {
    fields(&plan.request, &plan.allocation).concat()
}

const PROMISES: &str = "no station sends more than its S synchronously in a visit\n\
     every accepted message that is not withdrawn is sent by its deadline\n";

#[test]
fn an_accepted_request() {
    let station = "C 20 D 100 m 1 alpha 100 S 20 X(S) 20 X(S-g) 19 largest C 38\n";
    let stations: String = (0..4).map(|index| format!("station {index} {station}")).collect();
    let expected = format!(
        "plan 4 100 2 18\nTTRT 100 mode 1 F 1 g 1\n{stations}\
         sum of S 80 tau 2 F-1 0 TTRT 100\navailable 98 A* 18\n\
         the token is back within 100\n{PROMISES}any 4 visits send asynchronously at most 18\n\
         every station that is not switched through is offered asynchronous time\n"
    );
    assert_eq!(said(&request_sheet(&worked_request())), expected);
}

#[test]
fn an_accepted_request_with_every_field() {
    let text = "ttrt 100\nmode 3\nframe 5\ngrid 8\nstation 4 30 200 200\nstation 0 0 60 60\n";
    let expected = format!(
        "plan 2 100 4 76\nTTRT 100 mode 3 F 5 g 8\n\
         station 0 C 30 D 200 m 2 alpha 100 S 16 X(S) 32 X(S-g) 16 largest C 176\n\
         station 1 C 0 D 60 m 0 alpha 40 S 0 X(S) 0 X(S-g) - largest C 32\n\
         sum of S 16 tau 4 F-1 4 TTRT 100\navailable 92 A* 76\n\
         the token is back within 100\n{PROMISES}any 2 visits send asynchronously at most 80\n\
         it is not promised that every station is offered asynchronous time\n"
    );
    assert_eq!(of_text(text), expected);
}

#[test]
fn accepted_plans() {
    let text = "ttrt 100\nstation 2 20 100 100 78\nstation 0 20 100 100 20\n";
    let expected = format!(
        "accepted 2 100 2 0\nTTRT 100 mode 1 F 1 g 1\n\
         station 0 C 20 D 100 m 1 alpha 100 S 78 X(S) 78, more than need be by 58\n\
         station 1 C 20 D 100 m 1 alpha 100 S 20 X(S) 20\n\
         sum of S 98 tau 2 F-1 0 TTRT 100\navailable 98 A* 0\n\
         the token is back within 100\n{PROMISES}any 2 visits send asynchronously at most 0\n"
    );
    assert_eq!(of_text(text), expected);
    let older = "ttrt 100\nmode 2\nframe 5\nstation 2 20 300 300 20\nstation 0 20 250 250 20\n";
    let expected = "accepted 2 100 2 58\nTTRT 100 mode 2 F 5 g 1\n\
         station 0 C 20 D 300 q 3 r 0 S 20 X(S) 40\nstation 1 C 20 D 250 q 2 r 50 S 20 X(S) 40\n\
         sum of S 40 tau 2 F-1 4 TTRT 100\navailable 94 A* 58\nthe token is back within 144\n\
         no station sends more than its S synchronously in a visit\n\
         it meets the rules of FDDI, which is retired and promises no deadline\n";
    assert_eq!(of_text(older), expected);
}

const STATION: &str = "may stand: tag 2 length 16, station\n";
const END: &str = "may stand: tag 255 length 0, end\n";
const SHARE: &str = "may stand: tag 3 length 4, S\n";

#[test]
fn the_first_fault() {
    let first = "may stand: tag 1 length 4, TTRT\n";
    assert_eq!(of_hex("-"), format!("refused 1\nread as a request\nbyte 0 left 0\n{first}"));
    let mode = "may stand: tag 4 length 1, mode\n";
    let frame = "may stand: tag 5 length 4, F\n";
    let grid = "may stand: tag 6 length 4, g\n";
    let ttrt = "01000400000064";
    for (behind, place, allowed) in [
        ("", 7, [STATION, mode, frame, grid].concat()),
        ("04000103", 11, [STATION, frame, grid].concat()),
        ("0500040000000c", 14, [STATION, grid].concat()),
        ("0600040000000c", 14, STATION.to_string()),
    ] {
        let head = format!("refused 2\nread as a request\nbyte {place} tag 9 length 260 left 3\n");
        assert_eq!(of_hex(&format!("{ttrt}{behind}090104")), head + &allowed);
    }
    let ring = format!("{ttrt}02001000000002000000140000006400000064");
    let at_26 = |rest: &str| of_hex(&format!("{ring}{rest}"));
    let lines = |number: u8, kind: &str, found: &str, allowed: &[&str]| {
        format!("refused {number}\nread as a {kind}\nbyte {found}\n{}", allowed.concat())
    };
    for (rest, found) in [("", "left 0"), ("02", "left 1"), ("0200", "left 2")] {
        assert_eq!(at_26(rest), lines(1, "request", &format!("26 {found}"), &[STATION, END]));
    }
    let cut = lines(1, "request", "26 tag 2 length 16 left 4", &[STATION, END]);
    assert_eq!(at_26("02001000"), cut);
    let short = lines(2, "request", "26 tag 2 length 15 left 3", &[STATION, END]);
    assert_eq!(at_26("02000f"), short);
    let behind = lines(3, "request", "29 left 1", &["may stand: nothing\n"]);
    assert_eq!([at_26("ff00000a"), at_26("ff000003")], [behind.clone(), behind]);
    for (rest, number, found, allowed) in [
        ("03", 1, "26 left 1", &[STATION, SHARE][..]),
        ("030005", 2, "26 tag 3 length 5 left 3", &[STATION, SHARE]),
        ("030004000000", 1, "26 tag 3 length 4 left 6", &[STATION, SHARE]),
        ("03000400000014", 1, "33 left 0", &[END]),
        ("0300040000001403", 1, "33 left 1", &[END]),
        ("03000400000014020010", 2, "33 tag 2 length 16 left 3", &[END]),
        ("03000400000014ff00000a0b", 3, "36 left 2", &["may stand: nothing\n"]),
    ] {
        assert_eq!(at_26(rest), lines(number, "plan", found, allowed), "{rest}");
    }
}

#[test]
fn a_station_too_many_and_an_allocation_too_few() {
    let mut request = worked_request();
    request.stations.resize(MOST_STATIONS + 1, request.stations[1]);
    let found = "refused 2\nread as a request\nbyte 2439 tag 2 length 16 left 22\n";
    assert_eq!(said(&request_sheet(&request)), format!("{found}{END}"));
    let many = Plan { allocation: vec![0; MOST_STATIONS + 1], request };
    assert_eq!(
        said(&plan_sheet(&many)[..PLAN_READ]),
        format!("{}{END}", found.replace("left 22", "left 918"))
    );
    let few = Plan { request: worked_request(), allocation: vec![20; 3] };
    let found = "refused 2\nread as a plan\nbyte 104 tag 255 length 0 left 3\n";
    assert_eq!(said(&plan_sheet(&few)), format!("{found}{SHARE}"));
}

/// The fields of the worked ring's sheet with fields of the header behind TTRT.
fn with_header(header: &[Vec<u8>]) -> Vec<u8> {
    let fields = fields(&worked_request(), &[]);
    [&fields[..1], header, &fields[1..]].concat().concat()
}

#[test]
fn numbers_out_of_range() {
    let header = |mode, frame, grid| {
        [mode_field(mode), number_field(FRAME_TAG, frame), number_field(GRID_TAG, grid)]
    };
    let ones = said(&with_header(&header(1, 1, 1)));
    assert_eq!(
        ones,
        "refused 4\nmode 1 is not in 2 to 3, leave the field out\n\
         F 1 is not in 2 to 65535, leave the field out\n\
         g 1 is not in 2 to 1000, leave the field out\n"
    );
    for (mode, frame, grid) in [(0, 0, 0), (4, 65_536, 1_001), (255, u32::MAX, u32::MAX)] {
        let expected = format!(
            "refused 4\nmode {mode} is not in 2 to 3\nF {frame} is not in 2 to 65535\n\
             g {grid} is not in 2 to 1000\n"
        );
        assert_eq!(said(&with_header(&header(mode, frame, grid))), expected);
    }
    let stations = vec![
        station(1_000_001, 100_000_001, 100_000_001, 100_000_001),
        station(0, 0, 0, 0),
        station(0, 0, 7, 6),
        station(u32::MAX, u32::MAX, u32::MAX, 5),
    ];
    let plan = Plan {
        request: Request { head: timely(1_000_001), stations },
        allocation: vec![1_000_001, 0, u32::MAX, 1_000_000],
    };
    assert_eq!(
        said(&plan_sheet(&plan)),
        "refused 4\nTTRT 1000001 is not in 1 to 1000000\n\
         station 0 w 1000001 is not in 0 to 1000000\n\
         station 0 C 100000001 is not in 0 to 100000000\n\
         station 0 D 100000001 is not in 1 to 100000000\n\
         station 0 P 100000001 is not in 100000001 to 100000000\n\
         station 0 S 1000001 is not in 0 to 1000000\n\
         station 1 D 0 is not in 1 to 100000000\n\
         station 2 P 6 is not in 7 to 100000000\n\
         station 2 S 4294967295 is not in 0 to 1000000\n\
         station 3 w 4294967295 is not in 0 to 1000000\n\
         station 3 C 4294967295 is not in 0 to 100000000\n\
         station 3 D 4294967295 is not in 1 to 100000000\n\
         station 3 P 5 is not in 4294967295 to 100000000\n"
    );
}

#[test]
fn walk_times() {
    let with = |walks: [u32; 3]| {
        let stations = walks.map(|walk| station(walk, 20, 100, 100)).to_vec();
        said(&request_sheet(&Request { head: fddi(100), stations }))
    };
    assert_eq!(with([0; 3]), "refused 5\ntau 0 is not in 1 to TTRT 100\n");
    let above = "refused 5\ntau 110 is not in 1 to TTRT 100\nstation 0 w 60\nstation 2 w 50\n";
    assert_eq!(with([60, 0, 50]), above);
}

#[test]
fn no_plan() {
    let one_short = "ttrt 100\nstation 2 20 100 100\nstation 0 79 100 100\n";
    assert_eq!(
        of_text(one_short),
        "refused 6\nTTRT 100 mode 1 F 1 g 1\nstation 0 C 20 D 100 m 1 alpha 100 S 20\n\
         station 1 C 79 D 100 m 1 alpha 100 S 79\nsum of S 99 tau 2 F-1 0 TTRT 100\n\
         available 98 missing 1\n"
    );
    let nothing_there = "ttrt 10\nframe 12\nstation 10 1 100 100\nstation 0 0 100 100\n";
    assert_eq!(
        of_text(nothing_there),
        "refused 6\nTTRT 10 mode 1 F 12 g 1\n\
         station 0 C 1 D 100 m 10 alpha 10 S 1, more than there is\n\
         station 1 C 0 D 100 m 10 alpha 10 S 0\nsum of S 1 tau 10 F-1 11 TTRT 10\n\
         available 0 missing 12\n"
    );
    let on_a_grid = "ttrt 100\ngrid 10\nstation 2 9 60 60\nstation 0 9 60 60\n";
    assert_eq!(
        of_text(on_a_grid),
        "refused 6\nTTRT 100 mode 1 F 1 g 10\nstation 0 C 9 D 60 m 0 alpha 40 S 50\n\
         station 1 C 9 D 60 m 0 alpha 40 S 50\nsum of S 100 tau 2 F-1 0 TTRT 100\n\
         available 98 missing 2\nthe grid is the cause: without it there is a plan\n"
    );
    // One more each, and there is none without the grid either.
    let one_more = of_text(&on_a_grid.replace(" 9 60 60", " 10 60 60"));
    assert!(one_more.ends_with("available 98 missing 2\n"), "{one_more}");
}

#[test]
fn broken_plans() {
    let stations =
        vec![station(2, 20, 100, 100), station(0, 20, 100, 100), station(0, 20, 100, 100)];
    let head = Head { grid: 4, ..timely(100) };
    let plan = Plan { request: Request { head, stations }, allocation: vec![25, 16, 18] };
    assert_eq!(
        said(&plan_sheet(&plan)),
        "refused 7\nTTRT 100 mode 1 F 1 g 4\n\
         station 0 C 20 D 100 m 1 alpha 100 S 25 X(S) 25, off the grid\n\
         station 1 C 20 D 100 m 1 alpha 100 S 16 X(S) 16, below C\n\
         station 2 C 20 D 100 m 1 alpha 100 S 18 X(S) 18, below C, off the grid\n\
         sum of S 59 tau 2 F-1 0 TTRT 100\navailable 98 missing 0\n"
    );
    let plan = Plan { allocation: vec![40, 40, 20], ..plan };
    assert_eq!(
        said(&plan_sheet(&plan)),
        "refused 7\nTTRT 100 mode 1 F 1 g 4\nsum of S 100 tau 2 F-1 0 TTRT 100\n\
         available 98 missing 2\n"
    );
    let stations = vec![station(2, 20, 150, 150), station(0, 20, 150, 150)];
    let plan = Plan { request: Request { head: fddi(100), stations }, allocation: vec![20, 40] };
    assert_eq!(
        said(&plan_sheet(&plan)),
        "refused 7\nTTRT 100 mode 2 F 1 g 1\n\
         station 0 C 20 D 150 q 1 r 50 S 20 X(S) 8, below C\nsum of S 60 tau 2 F-1 0 TTRT 100\n\
         available 98 missing 0\n"
    );
}

#[test]
fn retired() {
    let expected = "refused 16\nTTRT 100 mode 2 F 1 g 1\n\
         mode 2 is FDDI, which is retired: no plan is made with it\n\
         show prints this sheet, and compose writes it again\n\
         without its mode it is a request for timely-token\n";
    assert_eq!(of_text("ttrt 100\nmode 2\nstation 1 10 100 100\n"), expected);
    assert_eq!(of_text("ttrt 100\nmode 2\nstation 1 1000 100 100\n"), expected);
}

// ---- any sheets

/// Sheets of every sort, sound and damaged, with what is said of each.
fn every(count: u64) -> impl Iterator<Item = (Vec<u8>, String)> {
    let of_sort =
        move |sort| (0..count).flat_map(move |place| Kind::Explanations.case(sort, 31, place));
    Sort::ALL.into_iter().flat_map(of_sort).map(|case| {
        let sheet = from_hex(case.strip_prefix("command explain;").expect("explain"));
        let mut sheet = sheet.expect("digits");
        sheet.truncate(PLAN_READ);
        let text = said(&sheet);
        (sheet, text)
    })
}

/// The number of the first line; 0 where the sheet is accepted.
fn number(text: &str) -> u8 {
    let first = text.lines().next().expect("a line");
    first.strip_prefix("refused ").map_or(0, |number| number.parse().expect("a number"))
}

/// The number behind a word of a line.
fn behind(line: &str, word: &str) -> u64 {
    let (_, rest) = line.split_once(&format!("{word} ")).expect("the word");
    rest.split([' ', ',']).next().and_then(|number| number.parse().ok()).expect("a number")
}

#[test]
fn the_number_is_that_of_reading_and_planning() {
    let mut reached = [0; 17];
    for (sheet, text) in every(300) {
        let given = read_plan(&sheet);
        let asked = read_request(&sheet).and_then(|set| planner::plan(&set, Planted::Nothing));
        let as_plan = text.contains("read as a plan") || walked(&sheet, PLAN_TABLE).fault.is_ok();
        let expected = if as_plan { given } else { asked }.map_or_else(|it| it.number(), |_| 0);
        assert_eq!(number(&text), expected, "{text}");
        reached[usize::from(expected)] += 1;
    }
    for number in [0, 1, 2, 3, 4, 5, 6, 7, 16] {
        assert!(reached[number] > 20, "{number}: {reached:?}");
    }
}

/// How many bytes of a sheet pass as a beginning of one.
fn passed(sheet: &[u8], given: bool) -> usize {
    let walk = walked(sheet, if given { PLAN_TABLE } else { REQUEST_TABLE });
    sheet.len() - walk.rest.len()
}

/// All before the place passes, a field that may stand there takes the place of what does and passes
/// too, and no other field does.
#[test]
fn the_place_is_that_of_the_first_fault() {
    for (sheet, text) in every(60).filter(|(_, text)| (1..=3).contains(&number(text))) {
        let lines: Vec<&str> = text.lines().collect();
        let (given, place) = (lines[1] == "read as a plan", behind(lines[2], "byte") as usize);
        assert_eq!(behind(lines[2], "left") as usize, sheet.len() - place);
        assert_eq!(passed(&sheet[..place], given), place);
        assert_eq!(passed(&sheet, given), place);
        let may_stand = |tag: u8, length: usize| {
            let line = format!("may stand: tag {tag} length {length}, ");
            lines[3..].iter().any(|found| found.starts_with(&line))
        };
        for tag in 0..=255 {
            for length in [0, 1, 3, 4, 5, 15, 16, 17] {
                let body = vec![0; length];
                let field = [&sheet[..place], &[tag, 0, length as u8], &body].concat();
                let passes = passed(&field, given) == field.len();
                assert_eq!(passes, may_stand(tag, length), "{text} {tag} {length}");
            }
        }
    }
}

/// A sheet in which every number that the list names is put right is not refused with 4; and it is as
/// long as any of them is wrong.
#[test]
fn the_list_of_numbers_is_whole() {
    for (sheet, text) in every(200).filter(|(_, text)| number(text) == 4) {
        let mut lines: Vec<&str> = text.lines().skip(1).collect();
        let mut wrong = sheet;
        while let Some(line) = lines.pop() {
            assert_eq!(number(&said(&wrong)), 4, "{line}");
            wrong = righted(&wrong, line);
        }
        assert_ne!(number(&said(&wrong)), 4, "{text}");
    }
}

/// The sheet with the number of a line put right: of the header by a number in range or no field, of a
/// station by one in range. The lines are taken from the last, so P is put right before D is.
fn righted(sheet: &[u8], line: &str) -> Vec<u8> {
    let words: Vec<&str> = line.split(' ').collect();
    let place = |tag: u8, count: usize| {
        let mut at = 0;
        let mut seen = 0;
        while sheet[at] != tag || seen < count {
            seen += usize::from(sheet[at] == tag);
            at += 3 + usize::from(sheet[at + 2]);
        }
        at
    };
    let put = |at: usize, value: u32| {
        assert_eq!(sheet[at..at + 4], words_number(&words).to_be_bytes(), "{line}");
        [&sheet[..at], &value.to_be_bytes(), &sheet[at + 4..]].concat()
    };
    match words[0] {
        "TTRT" => put(3, 100),
        "mode" => [&sheet[..7], &sheet[11..]].concat(),
        "F" | "g" => {
            let at = place(if words[0] == "F" { FRAME_TAG } else { GRID_TAG }, 0);
            [&sheet[..at], &sheet[at + 7..]].concat()
        }
        _ => {
            let index = words[1].parse().expect("a station");
            let at = place(2, index) + 3;
            match words[2] {
                "w" => put(at, 0),
                "C" => put(at + 4, 0),
                // As large as P lets it be; of P 0, which only D 0 allows, P is the largest then.
                "D" => {
                    let gap = u32::from_be_bytes(sheet[at + 12..at + 16].try_into().expect("four"));
                    let righted = put(at + 8, gap.clamp(1, 100_000_000));
                    match gap {
                        0 => {
                            [&righted[..at + 12], &100_000_000_u32.to_be_bytes(), &sheet[at + 16..]]
                                .concat()
                        }
                        _ => righted,
                    }
                }
                "P" => put(at + 12, 100_000_000),
                _ => put(place(3, index) + 3, 0),
            }
        }
    }
}

fn words_number(words: &[&str]) -> u32 {
    let at = if words[0] == "station" { 3 } else { 1 };
    words[at].parse().expect("a number")
}

/// Small sets, on which every S and every C can be tried.
fn small(random: &mut Random) -> Request {
    let ttrt = random.between32(1, 12);
    let stations = (0..random.between(1, 3)).map(|index| {
        let deadline = random.between32(1, 4 * ttrt);
        let walk = if index == 0 { random.between32(1, (ttrt / 4).max(1)) } else { 0 };
        let most = random.pick(&[1, 4, deadline]);
        Station { walk, longest: random.between32(0, most), deadline, gap: deadline }
    });
    let stations = stations.collect();
    let mode = random.pick(&[Mode::Timely, Mode::Earlier]);
    let frame = random.pick(&[1, 1, 2, 3]);
    let head = Head { frame, grid: random.pick(&[1, 1, 2, 3, 5]), ..Head::new(ttrt, mode) };
    Request { head, stations }
}

/// The smallest multiple of g that is enough, one after another.
fn smallest(head: &Head, station: &Station) -> u64 {
    let step = head.grid as usize;
    let enough = |s: &u64| least_time(head.ttrt, station.deadline, *s) >= station.longest.into();
    (0..).step_by(step).find(enough).expect("one is enough")
}

#[test]
fn small_sets_by_trying_every_number() {
    let (mut plans, mut none, mut grids) = (0, 0, 0);
    for place in 0..3_000 {
        let request = small(&mut Random::of_case(41, place));
        let Head { ttrt, grid, .. } = request.head;
        let text = said(&request_sheet(&request));
        let lines: Vec<&str> = text.lines().collect();
        let each: Vec<u64> =
            request.stations.iter().map(|it| smallest(&request.head, it)).collect();
        let sum: u64 = each.iter().sum();
        for (index, s) in each.iter().enumerate() {
            assert_eq!(behind(lines[2 + index], " S"), *s, "{text}");
        }
        assert_eq!(behind(lines[2 + each.len()], "sum of S"), sum);
        if number(&text) == 6 {
            none += 1;
            // Ticks are taken away from the S one by one until the rest would do.
            let short =
                (0..).find(|less| sum - less + request.lost() <= ttrt.into() || *less == sum);
            let short = short.expect("some") + request.lost().saturating_sub(ttrt.into());
            assert_eq!(behind(lines[3 + each.len()], "missing"), short, "{text}");
            let mut without = request.clone();
            without.head.grid = 1;
            let caused = planner::plan(&without, Planted::Nothing).is_ok();
            assert_eq!(lines.len() == 5 + each.len(), caused);
            grids += u64::from(caused);
            continue;
        }
        plans += 1;
        for (index, s) in each.iter().enumerate() {
            let station = request.stations[index];
            let line = lines[2 + index];
            let at = |s: u64| least_time(ttrt, station.deadline, s);
            assert_eq!(behind(line, "X(S)"), at(*s));
            match s.checked_sub(grid.into()) {
                None => assert!(line.contains(" X(S-g) - "), "{line}"),
                Some(below) => {
                    assert_eq!(behind(line, "X(S-g)"), at(below));
                    assert!(at(below) < station.longest.into());
                }
            }
            let with = |longest: u32| {
                let mut request = request.clone();
                request.stations[index].longest = longest;
                planner::plan(&request, Planted::Nothing).is_ok()
            };
            let largest = behind(line, "largest C") as u32;
            assert!(largest <= station.deadline);
            assert!(
                (0..2 * station.deadline + 2).all(|longest| with(longest) == (longest <= largest))
            );
        }
    }
    assert!(plans > 500 && none > 500 && grids > 50, "{plans}, {none}, {grids}");
}

/// All five numbers of 128 stations are wrong, and each has its line.
#[test]
fn a_set_that_is_all_wrong() {
    let station = station(u32::MAX, u32::MAX, 0, u32::MAX);
    let plan = Plan {
        request: Request { head: timely(0), stations: vec![station; MOST_STATIONS] },
        allocation: vec![u32::MAX; MOST_STATIONS],
    };
    assert_eq!(said(&plan_sheet(&plan)).lines().count(), 2 + 5 * MOST_STATIONS);
}

/// X of the longest deadline and the largest S is far above 32 bits.
#[test]
fn the_largest_numbers() {
    let stations = vec![station(1, 0, 100_000_000, 100_000_000)];
    let request = Request { head: timely(1), stations };
    let text = said(&plan_sheet(&Plan { request: request.clone(), allocation: vec![1_000_000] }));
    assert!(text.contains("sum of S 1000000 tau 1 F-1 0 TTRT 1\navailable 0 missing 1000000\n"));
    let mut request = request;
    request.head.grid = 7;
    let text = said(&plan_sheet(&Plan { request, allocation: vec![1_000_000] }));
    let line = "D 100000000 m 100000000 alpha 1 S 1000000 X(S) 100000000999999, off the grid\n";
    assert!(text.contains(line), "{text}");
    let stations = vec![station(1, 100_000_000, 1, 1); MOST_STATIONS];
    let text = said(&request_sheet(&Request { head: timely(1_000_000), stations }));
    assert!(text.contains("sum of S 12927999872 tau 128 F-1 0 TTRT 1000000\n"), "{text}");
}

/// Damaged in every way, a small sheet is always explained, and by lines alone.
#[test]
fn every_damage_is_explained() {
    for sort in Sort::ALL {
        for kind in [SheetKind::Request, SheetKind::Plan] {
            for sheet in sheets::every_damage(&mut Random::of_case(5, 1), kind, sort) {
                let text = said(&sheet);
                assert!(text.ends_with('\n') && !text.contains("\n\n") && !text.contains("  "));
                assert!(text.lines().count() >= 2, "{text}");
            }
        }
    }
}
