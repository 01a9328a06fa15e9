//! The twelve-wagon product: the sheet of a list, its refusals, that its answer is the planner's on
//! that sheet, and trains that are changed.

use second::frames::answer;
use second::gen::{random::Random, trains};
use second::hopper::{plan, read_list, sheet, show_wagons, Change, Train, Wagon};
use second::notation::to_hex;
use second::planted::Planted;
use second::rules::Refusal;
use second::streams::Streams;
use second::text::Fault;

const FULL: Wagon = Wagon { boxes: 8, brake: 1, door: 1 };
const NO_DOOR: Wagon = Wagon { door: 0, ..FULL };
const EMPTY: Wagon = Wagon { boxes: 0, brake: 0, door: 0 };

fn planned(list: &[Wagon]) -> Result<Vec<u32>, Refusal> {
    plan(list, Planted::Nothing).map(|plan| plan.allocation)
}

/// Standard output and standard error of a command on a text.
fn said(name: &str, input: &[u8]) -> (Vec<u8>, String) {
    let mut streams = Streams { out: vec![], err: vec![] };
    assert!(streams.simple(name, input, Planted::Nothing).expect("room in memory"));
    (streams.out, String::from_utf8(streams.err).expect("text"))
}

fn refitted(list: &str, changes: &str) -> (String, String) {
    let mut streams = Streams { out: vec![], err: vec![] };
    let done = streams.refit(list.as_bytes(), changes.as_bytes(), Planted::Nothing);
    done.expect("room in memory");
    let text = |bytes| String::from_utf8(bytes).expect("text");
    (text(streams.out), text(streams.err))
}

#[test]
fn the_numbers_of_a_wagon() {
    let wagons = [FULL, NO_DOOR, Wagon { brake: 0, ..FULL }, EMPTY, Wagon { boxes: 3, ..EMPTY }];
    let text = "ttrt 250\nstation 1 40 500 500\nstation 1 38 500 500\nstation 1 34 500 500\n\
                station 1 0 500 500\nstation 1 12 500 500\n";
    let bytes = sheet(&wagons, Planted::Nothing).expect("a list");
    assert_eq!(said("show", &bytes), (text.as_bytes().to_vec(), String::new()));
    assert_eq!(planned(&wagons), Ok(vec![20, 19, 17, 0, 6]));
}

/// 12·20 + 12 = 252 of 250; with two wagons of S 19 it is 250.
#[test]
fn twelve_full_wagons_are_two_ticks_too_many() {
    let mut list = vec![FULL; 12];
    assert_eq!(planned(&list), Err(Refusal::NoAllocation));
    list[4] = NO_DOOR;
    assert_eq!(planned(&list), Err(Refusal::NoAllocation));
    list[11] = NO_DOOR;
    assert_eq!(plan(&list, Planted::Nothing).map(|plan| plan.spare()), Ok(0));
    assert_eq!(planned(&[FULL; 11]), Ok(vec![20; 11]));
}

#[test]
fn counts_and_numbers_out_of_range() {
    let bad = [
        Wagon { boxes: 9, ..EMPTY },
        Wagon { brake: 2, ..EMPTY },
        Wagon { door: 2, ..EMPTY },
        Wagon { door: u32::MAX, ..FULL },
    ];
    for wagon in bad {
        assert_eq!(planned(&[wagon]), Err(Refusal::OutOfRange));
        assert_eq!(planned(&[vec![EMPTY; 11], vec![wagon]].concat()), Err(Refusal::OutOfRange));
        assert_eq!(planned(&[wagon; 13]), Err(Refusal::WrongField));
    }
    for count in [0, 13, 14, 1_000] {
        assert_eq!(planned(&vec![EMPTY; count]), Err(Refusal::WrongField));
        assert_eq!(sheet(&vec![EMPTY; count], Planted::Nothing), Err(Refusal::WrongField));
    }
    // Twelve full wagons have a sheet, though no plan.
    assert_eq!(sheet(&[FULL; 12], Planted::Nothing).map(|bytes| bytes.len()), Ok(10 + 19 * 12));
}

/// In an interval D = 2·TTRT a station is sure of two visits: S is half of C, rounded up.
fn expected(list: &[Wagon]) -> Result<Vec<u32>, Refusal> {
    let good = |wagon: &Wagon| wagon.boxes <= 8 && wagon.brake <= 1 && wagon.door <= 1;
    if !(1..=12).contains(&list.len()) {
        return Err(Refusal::WrongField);
    }
    if !list.iter().all(good) {
        return Err(Refusal::OutOfRange);
    }
    let half = |wagon: &Wagon| (4 * wagon.boxes + 6 * wagon.brake + 2 * wagon.door).div_ceil(2);
    let shares: Vec<u32> = list.iter().map(half).collect();
    let fits = shares.iter().sum::<u32>() + list.len() as u32 <= 250;
    if fits {
        Ok(shares)
    } else {
        Err(Refusal::NoAllocation)
    }
}

fn many_lists() -> impl Iterator<Item = Vec<Wagon>> {
    let longer = (0..3_000).map(|place| trains::list(&mut Random::of_case(13, place)));
    trains::every_short_list().into_iter().chain(longer)
}

#[test]
fn the_answer_is_the_planners_on_the_sheet() {
    assert_eq!(trains::every_short_list().len(), 36 + 36 * 36);
    for list in many_lists() {
        assert_eq!(planned(&list), expected(&list), "{}", show_wagons(&list));
        let text: String = list
            .iter()
            .map(|it| format!("wagon {} {} {}\n", it.boxes, it.brake, it.door))
            .collect();
        let (bytes, fault) = said("hopper-sheet", text.as_bytes());
        let hopper = said("hopper", text.as_bytes());
        if fault.is_empty() {
            assert_eq!(said("plan", &bytes), hopper, "{text}");
        } else {
            assert_eq!((bytes, hopper), (vec![], (fault.into_bytes(), String::new())), "{text}");
        }
    }
}

#[test]
fn texts_of_lists() {
    let read = |text: &str| read_list(text.as_bytes()).expect("bytes at hand");
    let untidy = "# a train\n\n  wagon\t8  01 1 # the first\r\nwagon 8 1 0";
    assert_eq!(read(untidy), Ok(vec![FULL, NO_DOOR]));
    assert_eq!(read(""), Ok(vec![]));
    let most = u32::MAX;
    let largest = Wagon { boxes: most, brake: most, door: most };
    assert_eq!(read("wagon 4294967295 4294967295 4294967295"), Ok(vec![largest]));
    let unreadable = [
        "wagon 8 1",
        "wagon 8 1 1 1",
        "wagon",
        "wagon 4294967296 1 1",
        "wagon -1 1 1",
        "wagon 8 yes no",
        "waggon 8 1 1",
        "couple 8 1 1",
        "uncouple",
    ];
    for line in unreadable {
        let text = format!("wagon 9 1 1\n\n{line}\nwagon\n");
        assert_eq!(read(&text), Err(Fault::Unreadable(3)), "{line}");
        let said = [said("hopper", text.as_bytes()), said("hopper-sheet", text.as_bytes())];
        assert!(said.iter().all(|(out, err)| out.is_empty() && err == "line 3: cannot be read\n"));
        let (out, err) = refitted(&text, "uncouple\n");
        assert_eq!((&*out, &*err), ("", "line 3: cannot be read\n"));
    }
    // A line that cannot be read is named behind wagons too many as well.
    let text = "wagon 0 0 0\n".repeat(5_000) + "wagon\n";
    assert_eq!(read(&text), Err(Fault::Unreadable(5_001)));
}

#[test]
fn a_refused_change_leaves_the_train() {
    let list = "wagon 8 1 0\n".repeat(2) + &"wagon 8 1 1\n".repeat(9);
    let eleven = "0 19\n1 19\n2 20\n3 20\n4 20\n5 20\n6 20\n7 20\n8 20\n9 20\n10 20\n";
    let changes = "couple 8 1 1\n change 1 8 1 1\nchange 0 0 0 0\nchange 1 8 1 1\nuncouple\n";
    let with_no_first = eleven.replacen("0 19\n", "0 0\n", 1);
    let answers = [
        format!("plan 12 250 12 0\n{eleven}11 20\n"),
        "refused 6\n".to_string(),
        format!("plan 12 250 12 19\n{with_no_first}11 20\n"),
        format!("plan 12 250 12 18\n{}11 20\n", with_no_first.replacen("1 19\n", "1 20\n", 1)),
        format!("plan 11 250 11 39\n{}", with_no_first.replacen("1 19\n", "1 20\n", 1)),
    ];
    assert_eq!(refitted(&list, changes), (answers.concat(), String::new()));
}

#[test]
fn the_numbers_of_a_change() {
    let twelve = "wagon 0 0 0\n".repeat(12);
    for (changes, number) in [
        ("change 12 0 0 0", 9),
        ("change 4294967295 0 0 0", 9),
        ("change 12 9 0 0", 4),
        ("change 0 0 2 0", 4),
        ("change 11 0 0 4294967295", 4),
        ("couple 0 0 0", 2),
        ("couple 9 0 0", 2),
    ] {
        assert_eq!(refitted(&twelve, changes).0, format!("refused {number}\n"), "{changes}");
    }
    assert_eq!(refitted("wagon 0 0 0", "couple 0 0 2\nuncouple\n").0, "refused 4\nrefused 2\n");
    for line in ["change 0 0 0", "change 4294967296 0 0 0", "couple", "uncouple 1", "wagon 0 0 0"] {
        let changes = format!("\n{line}\nuncouple\n");
        let answers = "line 2: cannot be read\nrefused 2\n";
        assert_eq!(refitted("wagon 0 0 0\n", &changes), (answers.to_string(), String::new()));
    }
}

#[test]
fn a_refused_list_is_one_line() {
    for (list, number) in [("", 2), ("wagon 9 0 0\n", 4), (&"wagon 8 1 1\n".repeat(12), 6)] {
        let said = (format!("refused {number}\n"), String::new());
        assert_eq!(refitted(list, "couple 0 0 0\nchange\n"), said);
    }
    assert_eq!(refitted("wagon 8 1 1\n", ""), (String::new(), String::new()));
}

/// After any changes the plan is the planner's for the list; a refused one leaves both, and an
/// accepted one has just that wagon changed.
#[test]
fn trains_keep_their_plans() {
    let mut seen = [0; 2];
    for place in 0..400 {
        let random = &mut Random::of_case(17, place);
        let mut train = Train::default();
        let coupled = train.relist(trains::list(random), Planted::Nothing);
        assert_eq!(coupled.is_err(), train == Train::default());
        for _ in 0..20 {
            let before = train.clone();
            let change = trains::change(random, before.list.len());
            let answer = train.change(&change, Planted::Nothing);
            seen[usize::from(answer.is_ok())] += 1;
            if answer.is_err() {
                assert_eq!(train, before);
                continue;
            }
            let mut list = before.list;
            match change {
                Change::Other(place, wagon) => list[place as usize] = wagon,
                Change::Couple(wagon) => list.push(wagon),
                Change::Uncouple => list.truncate(list.len() - 1),
            }
            assert_eq!(train.list, list);
            assert_eq!(train.plan, plan(&list, Planted::Nothing).ok());
        }
    }
    assert!(seen.iter().all(|&times| times > 2_000), "{seen:?}");
}

#[test]
fn framed_trains() {
    let full = ["8,1,1"; 12].join("/");
    let fits = full.replacen("8,1,1/8,1,1", "8,1,0/8,1,0", 1);
    let shares = "19,19,20,20,20,20,20,20,20,20,20,20";
    let cases = [
        ("train 8,1,1".to_string(), "0 20|8,1,1".to_string()),
        ("train -".to_string(), "2|-".to_string()),
        (format!("train {full}"), "6|-".to_string()),
        (format!("train {full}/0,0,0"), "2|-".to_string()),
        ("train 8,1,1;change 0 9,1,1;change 1 0,0,0".to_string(), "0 20|4|9|8,1,1".to_string()),
        (format!("train {fits};change 0 8,1,1;list -"), format!("0 {shares}|6|2|{fits}")),
        ("train -;change 0 9,0,0;list 1,0,0".to_string(), "2|2|0 2|1,0,0".to_string()),
        (
            "train 1,1,1;couple 8,1,1;uncouple;uncouple".to_string(),
            "0 6|0 6,20|0 6|2|1,1,1".to_string(),
        ),
        // A train that no call made: its count, then its wagons and the new one, then the place.
        (
            "train -;given 9,0,0;change 1 0,0,0;change 0 0,0,0".to_string(),
            "2|4|0 0|0,0,0".to_string(),
        ),
        (
            "train -;given 1,0,0;change 1 9,0,0;change 1 0,0,0".to_string(),
            "2|4|9|1,0,0".to_string(),
        ),
        (
            format!("train -;given {full}/8,1,1;change 13 9,1,1;couple 0,0,0"),
            format!("2|2|2|{full}"),
        ),
        (
            format!("command hopper;{}", to_hex(b"wagon 1 1 1\n")),
            format!("{} -", to_hex(b"plan 1 250 1 243\n0 6\n")),
        ),
        (
            format!("command refit;{};{}", to_hex(b"wagon 1 1 1\n"), to_hex(b"uncouple\n")),
            format!("{} -", to_hex(b"refused 2\n")),
        ),
    ];
    for (case, expected) in cases {
        assert_eq!(answer(&case, Planted::Nothing), expected, "{case}");
    }
    for line in ["train", "train ", "train 1,1", "train 1,1,1;wagon 1,1,1", "command refit;-"] {
        assert_eq!(answer(line, Planted::Nothing), "no case", "{line}");
    }
}
