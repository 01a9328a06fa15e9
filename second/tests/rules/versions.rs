//! Plan versions: the bytes of a store by hand, the numbers of the refusals in their order, which
//! areas are stores, and of random runs of calls that each answers as a plain list of all that was
//! ever stored would.

use crate::{worked_plan, worked_request};
use second::gen::{random::Random, sets, Sort};
use second::planted::Planted;
use second::rules::Refusal;
use second::sheet::{fields, read_plan};
use second::store::{laid_out, read, Area, Version, AREA, MOST_KEPT};

fn area(bytes: Vec<u8>) -> Area {
    Area::new(bytes, Planted::Nothing)
}

fn empty() -> Area {
    let mut area = area(vec![7; AREA]);
    area.empty().expect("its length");
    area
}

fn worked_sheet() -> Vec<u8> {
    fields(&worked_plan().request, &worked_plan().allocation).concat()
}

fn small_sheet(random: &mut Random) -> Vec<u8> {
    let plan = sets::small_plan(random, Sort::TIMELY);
    fields(&plan.request, &plan.allocation).concat()
}

/// A store of sixteen whose oldest has this number.
fn sixteen(first: u32) -> Vec<Version> {
    (0..16).map(|place| Version { number: first + place, sheet: worked_sheet() }).collect()
}

#[test]
fn the_bytes_of_a_store() {
    let mut store = empty();
    assert_eq!(store.bytes[..4], [255, 0, 0, 0]);
    assert!(store.bytes.len() == 65_536 && store.bytes[3..].iter().all(|&byte| byte == 0));
    assert_eq!(store.versions(), Ok((0, 0)));
    let sheet = worked_sheet();
    assert_eq!((store.store(&sheet), store.store(&sheet)), (Ok(1), Ok(2)));
    assert_eq!(store.bytes[..7], [32, 0, 118, 0, 0, 0, 1]);
    assert_eq!(store.bytes[7..121], sheet);
    assert_eq!(store.bytes[121..128], [32, 0, 118, 0, 0, 0, 2]);
    assert_eq!(store.bytes[242..246], [255, 0, 0, 0]);
    assert_eq!((store.find(1), store.find(2)), (Ok(7..121), Ok(128..242)));
    assert_eq!(store.versions(), Ok((1, 2)));
}

#[test]
fn refusals_in_their_order() {
    use Refusal::{EndsEarly, NoSuchVersion, NumbersUsedUp, WrongField};
    for length in [0, 3, AREA - 1, AREA + 1] {
        let mut other = area(laid_out(&[])[..length.min(AREA)].to_vec());
        other.bytes.resize(length, 0);
        assert_eq!(other.empty(), Err(WrongField));
        assert_eq!(other.store(&[]), Err(WrongField));
        assert_eq!(other.find(0), Err(WrongField));
        assert_eq!(other.versions(), Err(WrongField));
    }
    let mut full = area(laid_out(&sixteen(u32::MAX - 15)));
    let before = full.bytes.clone();
    let request = fields(&worked_request(), &[]).concat();
    assert_eq!(full.store(&[]), Err(EndsEarly));
    assert_eq!(full.store(&request), Err(WrongField));
    assert_eq!(full.store(&worked_sheet()), Err(NumbersUsedUp));
    assert_eq!(full.store(&worked_sheet()), Err(NumbersUsedUp));
    assert_eq!(full.bytes, before);
    assert_eq!(full.find(u32::MAX - 16), Err(NoSuchVersion));
    assert_eq!(full.versions(), Ok((u32::MAX - 15, u32::MAX)));
    full.bytes[65_535] = 1;
    assert_eq!((full.store(&[]), full.find(0)), (Err(WrongField), Err(WrongField)));
    full.empty().expect("its length");
    assert_eq!(full.store(&worked_sheet()), Ok(1));
}

#[test]
fn sixteen_of_the_longest_fit() {
    let plan = crate::composed(&format!(
        "ttrt 1000\nmode 3\nframe 2\ngrid 2\n{}",
        "station 1 0 1 1 0\n".repeat(128)
    ))
    .expect("a plan");
    assert_eq!(plan.len(), 3_356);
    let mut store = empty();
    for number in 1..=40 {
        assert_eq!(store.store(&plan), Ok(number));
    }
    assert_eq!(store.bytes[53_808..53_811], [255, 0, 0]);
    assert_eq!(store.versions(), Ok((25, 40)));
}

#[test]
fn a_store_is_what_storing_leads_to() {
    // Numbers from 1 on, or sixteen from anywhere.
    for first in [1, 2, 3, 18, 300] {
        for kept in 0..=17 {
            let mut versions = sixteen(first);
            versions.push(Version { number: first + 16, sheet: worked_sheet() });
            versions.truncate(kept);
            let led_to = kept == 0 || kept <= 16 && (first == 1 || kept == 16);
            assert_eq!(read(&laid_out(&versions)).is_ok(), led_to, "{kept} from {first}");
            if !led_to {
                continue;
            }
            let mut store = empty();
            let last = if kept == 0 { 0 } else { first + kept as u32 - 1 };
            (1..=last).for_each(|n| assert_eq!(store.store(&worked_sheet()), Ok(n)));
            assert_eq!(store.bytes, laid_out(&versions), "{kept} from {first}");
        }
    }
    let none = Version { number: 0, sheet: worked_sheet() };
    assert!(read(&laid_out(&[none])).is_err());
}

#[test]
fn every_byte_of_a_small_store_changed() {
    let random = &mut Random::of_case(3, 0);
    let versions: Vec<Version> =
        (1..=3).map(|number| Version { number, sheet: small_sheet(random) }).collect();
    let bytes = laid_out(&versions);
    let used: usize = versions.iter().map(|version| version.field().len()).sum();
    let mut accepted = 0;
    for (place, to) in (0..used + 40).flat_map(|place| [1, 2, 128].map(|bit| (place, bit))) {
        let mut other = bytes.clone();
        other[place] ^= to;
        let Ok(found) = read(&other) else { continue };
        // Another plan stands there, of the same length, with its number.
        let sheets = found.iter().zip(&versions).filter(|(a, b)| a.sheet != b.sheet).count();
        assert!(place < used && found.len() == 3 && sheets == 1);
        assert!(found.iter().all(|version| read_plan(&version.sheet).is_ok()));
        accepted += 1;
    }
    assert!(accepted > 10, "{accepted}");
}

#[test]
fn any_run_of_calls_answers_as_a_list_of_all_that_was_stored() {
    for place in 0..60 {
        let random = &mut Random::of_case(5, place);
        let mut store = empty();
        let mut ever: Vec<Vec<u8>> = vec![];
        for _ in 0..80 {
            let before = store.bytes.clone();
            let sheet = match random.once_in(4) {
                true => worked_sheet()[..random.index(100)].to_vec(),
                false => small_sheet(random),
            };
            match read_plan(&sheet) {
                Ok(_) => {
                    ever.push(sheet.clone());
                    assert_eq!(store.store(&sheet), Ok(ever.len() as u32));
                }
                Err(refusal) => {
                    assert_eq!(store.store(&sheet), Err(refusal));
                    assert_eq!(store.bytes, before);
                }
            }
            let dropped = ever.len().saturating_sub(MOST_KEPT);
            for number in 0..=ever.len() + 1 {
                let kept = number > dropped && number <= ever.len();
                let found = store.find(number as u32).map(|at| store.bytes[at].to_vec());
                let expected =
                    if kept { Ok(ever[number - 1].clone()) } else { Err(Refusal::NoSuchVersion) };
                assert_eq!(found, expected, "{number}");
            }
            let oldest = if ever.is_empty() { 0 } else { dropped as u32 + 1 };
            assert_eq!(store.versions(), Ok((oldest, ever.len() as u32)));
        }
    }
}
