//! Wagon lists and changes of trains: every list of one and two wagons, longer ones about the most
//! that a train carries, and their texts.

use super::random::Random;
use super::texts::untidy_with;
use crate::hopper::{show_wagons, Change, Wagon, MOST_BOXES, MOST_WAGONS};

/// Every wagon in range, in one order.
fn every_wagon() -> Vec<Wagon> {
    let units = [(0, 0), (0, 1), (1, 0), (1, 1)];
    let of = |boxes| units.map(|(brake, door)| Wagon { boxes, brake, door });
    (0..=MOST_BOXES).flat_map(of).collect()
}

/// Every list of one wagon and of two.
pub fn every_short_list() -> Vec<Vec<Wagon>> {
    let every = every_wagon();
    let two = |first: &Wagon| every.iter().map(|second| vec![*first, *second]).collect::<Vec<_>>();
    let one = every.iter().map(|wagon| vec![*wagon]);
    one.chain(every.iter().flat_map(two)).collect()
}

/// A full wagon: all boxes, brake and door.
const FULL: Wagon = Wagon { boxes: MOST_BOXES, brake: 1, door: 1 };

/// A wagon in range; most often a full one, or one that is little less.
fn wagon(random: &mut Random) -> Wagon {
    match random.between(0, 5) {
        0 => random.pick(&every_wagon()),
        1 => Wagon { door: 0, ..FULL },
        _ => FULL,
    }
}

/// A wagon with a number out of range.
fn bad_wagon(random: &mut Random) -> Wagon {
    let mut wagon = wagon(random);
    match random.between(0, 2) {
        0 => wagon.boxes = random.pick(&[MOST_BOXES + 1, 10, 256, u32::MAX]),
        1 => wagon.brake = random.pick(&[2, 3, 256, u32::MAX]),
        _ => wagon.door = random.pick(&[2, 3, 256, u32::MAX]),
    }
    wagon
}

fn any_wagon(random: &mut Random) -> Wagon {
    match random.once_in(12) {
        true => bad_wagon(random),
        false => wagon(random),
    }
}

/// So many full wagons but for up to three: twelve with two of S 19, or one below, just fit.
fn nearly_full(random: &mut Random, count: usize) -> Vec<Wagon> {
    let mut list = vec![FULL; count];
    for _ in 0..random.between(0, 3) {
        let place = random.index(count.max(1));
        let other = random.pick(&[Wagon { door: 0, ..FULL }, Wagon { boxes: 7, ..FULL }]);
        list.iter_mut().skip(place).take(1).for_each(|wagon| *wagon = other);
    }
    list
}

/// A list, most often of twelve wagons; now and then of none, of too many, or with a bad wagon.
pub fn list(random: &mut Random) -> Vec<Wagon> {
    let most = MOST_WAGONS as u64;
    let count = match random.between(0, 15) {
        0 => random.pick(&[0, most + 1, most + 2, 40]),
        1..=4 => random.between(1, most),
        _ => most,
    };
    let mut list = match random.once_in(2) {
        true => (0..count).map(|_| wagon(random)).collect(),
        false => nearly_full(random, count as usize),
    };
    if !list.is_empty() && random.once_in(12) {
        let place = random.index(list.len());
        list[place] = bad_wagon(random);
    }
    list
}

/// A change of a train that had so many wagons at first.
pub fn change(random: &mut Random, count: usize) -> Change {
    let place = match random.once_in(10) {
        true => random.pick(&[count as u32, count as u32 + 1, 12, 255, u32::MAX]),
        false => random.between32(0, (count as u32).saturating_sub(1)),
    };
    match random.between(0, 7) {
        0 => Change::Couple(any_wagon(random)),
        1 => Change::Uncouple,
        _ => Change::Other(place, any_wagon(random)),
    }
}

/// The calls of a host: changes, another list, and now and then a train that no call made.
fn host_calls(random: &mut Random, list: &[Wagon], calls: u64) -> String {
    let mut text = String::new();
    for _ in 0..calls {
        text += &match (random.between(0, 11), change(random, list.len())) {
            (0, _) => format!(";given {}", show_wagons(&any_list(random))),
            (1, _) => format!(";list {}", show_wagons(&self::list(random))),
            (_, Change::Other(place, wagon)) => {
                format!(";change {place} {}", show_wagons(&[wagon]))
            }
            (_, Change::Couple(wagon)) => format!(";couple {}", show_wagons(&[wagon])),
            (_, Change::Uncouple) => ";uncouple".to_string(),
        };
    }
    text
}

/// A list such as no train has, or one that a train might have.
fn any_list(random: &mut Random) -> Vec<Wagon> {
    let count = random.pick(&[0, 1, 2, 11, 12, 12, 12, 13, 14, 200]);
    (0..count).map(|_| any_wagon(random)).collect()
}

/// A train to be coupled and changed by a host, up to so many times.
pub fn train_case(random: &mut Random, list: &[Wagon], calls: u64) -> String {
    let calls = random.between(1, calls);
    format!("train {}{}", show_wagons(list), host_calls(random, list, calls))
}

/// Lines that fit nowhere, or not everywhere, and such with numbers at the ends.
const STRAY_WAGONS: [&str; 20] = [
    "wagon",
    "wagon 8",
    "wagon 8 1",
    "wagon 8 1 1 1",
    "wagon 9 1 1",
    "wagon 8 2 1",
    "wagon 8 1 2",
    "wagon 4294967295 0 0",
    "wagon 4294967296 0 0",
    "wagon 0 4294967296 0",
    "wagon 0 0 4294967296",
    "wagon -1 1 1",
    "wagon 8 yes no",
    "waggon 8 1 1",
    "Wagon 8 1 1",
    "station 1 40 500 500",
    "ttrt 250",
    "couple 8 1 1",
    "change 0 8 1 1",
    "uncouple",
];

const STRAY_CHANGES: [&str; 18] = [
    "change",
    "change 0",
    "change 0 8 1",
    "change 0 8 1 1 1",
    "change 0 9 1 1",
    "change 12 8 1 1",
    "change 12 9 1 1",
    "change 4294967295 8 1 1",
    "change 4294967296 8 1 1",
    "change 0 4294967296 1 1",
    "change 0 8 +1 1",
    "couple",
    "couple 8 1",
    "couple 8 1 1 1",
    "couple 4294967295 4294967295 4294967295",
    "uncouple 1",
    "wagon 8 1 1",
    "visit 0",
];

/// The text of a list, at times with stray lines or a broken byte.
pub fn list_text(random: &mut Random) -> Vec<u8> {
    let list = list(random);
    let lines = list.iter().map(|wagon| format!("wagon {}\n", words(wagon)));
    untidy_sometimes(random, &lines.collect::<String>(), &STRAY_WAGONS)
}

/// The text of changes of a train.
pub fn changes_text(random: &mut Random) -> Vec<u8> {
    let count = random.pick(&[1, 2, 11, 12, 12, 12]);
    let line = |random: &mut Random| match change(random, count) {
        Change::Other(place, wagon) => format!("change {place} {}\n", words(&wagon)),
        Change::Couple(wagon) => format!("couple {}\n", words(&wagon)),
        Change::Uncouple => "uncouple\n".to_string(),
    };
    // A long run of one kind takes a train to its ends.
    let run = random.pick(&["uncouple\n", "couple 8 1 1\n", "couple 0 0 0\n"]);
    let mut text: String = (0..random.between(0, 12)).map(|_| line(random)).collect();
    if random.once_in(4) {
        text += &run.repeat(random.between(1, 13) as usize);
    }
    untidy_sometimes(random, &text, &STRAY_CHANGES)
}

fn words(wagon: &Wagon) -> String {
    let Wagon { boxes, brake, door } = wagon;
    format!("{boxes} {brake} {door}")
}

fn untidy_sometimes(random: &mut Random, text: &str, strays: &[&str]) -> Vec<u8> {
    if random.once_in(2) {
        return text.as_bytes().to_vec();
    }
    untidy_with(random, text, &|random, lines, index| {
        lines.insert(index + 1, random.pick(strays).to_string());
    })
}
