//! Two plans side by side: the lines that 02 gives, the refused sides, and of random pairs that the
//! lines lead from the first plan to the second, in their order, and say nothing that does not differ.

use std::collections::BTreeMap;

use crate::{composed, worked_plan, worked_request};
use second::differences::compared;
use second::gen::{pairs, random::Random, Sort};
use second::planted::Planted;
use second::rules::{Plan, Station, MOST_STATIONS};
use second::sheet::{fields, read_plan};

fn sheet(plan: &Plan) -> Vec<u8> {
    fields(&plan.request, &plan.allocation).concat()
}

fn said(old: &[u8], new: &[u8]) -> String {
    compared(old, new, Planted::Nothing)
}

/// What is said of two plans as texts.
fn of_texts(old: &str, new: &str) -> String {
    let [old, new] = [old, new].map(|text| composed(text).expect("a plan"));
    said(&old, &new)
}

const FOUR: &str = "ttrt 200\nstation 2 20 200 200 20\nstation 0 20 200 200 20\n\
                    station 0 20 200 200 20\nstation 0 20 200 200 20\n";

#[test]
fn the_lines_of_the_request() {
    let with_frames = FOUR.replace("ttrt 200\n", "ttrt 200\nframe 40\n");
    assert_eq!(of_texts(FOUR, &with_frames), "5 1 40\n");
    let with_more = [FOUR.strip_suffix("20\n").expect("S 20"), "25\n"].concat();
    assert_eq!(of_texts(FOUR, &with_more), "3 S 20 25\n");
    let with_fifth = [FOUR, "station 0 20 200 200 20\n"].concat();
    assert_eq!(of_texts(FOUR, &with_fifth), "4 new 0 20 200 200 20\n");
    assert_eq!(of_texts(&with_fifth, FOUR), "4 old 0 20 200 200 20\n");
    assert_eq!(of_texts(FOUR, FOUR), "same\n");
}

#[test]
fn every_place_in_its_order() {
    let old = "ttrt 200\nstation 1 0 1 1 0\nstation 2 10 400 400 6\nstation 3 0 7 7 0\n";
    let new = "ttrt 250\nmode 3\nframe 9\ngrid 5\nstation 2 10 500 600 5\nstation 1 0 1 1 0\n";
    let lines = "1 200 250\n4 1 3\n5 1 9\n6 1 5\n\
                 0 w 1 2\n0 C 0 10\n0 D 1 500\n0 P 1 600\n0 S 0 5\n\
                 1 w 2 1\n1 C 10 0\n1 D 400 1\n1 P 400 1\n1 S 6 0\n\
                 2 old 3 0 7 7 0\n";
    assert_eq!(of_texts(old, new), lines);
    let back = "1 250 200\n4 3 1\n5 9 1\n6 5 1\n\
                0 w 2 1\n0 C 10 0\n0 D 500 1\n0 P 600 1\n0 S 5 0\n\
                1 w 1 2\n1 C 0 10\n1 D 1 400\n1 P 1 400\n1 S 0 6\n\
                2 new 3 0 7 7 0\n";
    assert_eq!(of_texts(new, old), back);
}

#[test]
fn more_than_ten_stations_in_number_order() {
    let station = "station 1 0 1 1 0\n";
    let [few, many] = [9, 128].map(|count| format!("ttrt 200\n{}", station.repeat(count)));
    let alone = |side: &str| -> String {
        (9..MOST_STATIONS).map(|number| format!("{number} {side} 1 0 1 1 0\n")).collect()
    };
    assert_eq!(of_texts(&few, &many), alone("new"));
    assert_eq!(of_texts(&many, &few), alone("old"));
}

#[test]
fn the_first_refused_side_is_named() {
    let plan = sheet(&worked_plan());
    let request = fields(&worked_request(), &[]).concat();
    assert_eq!(said(&plan, &request), "new refused 2\n");
    assert_eq!(said(&request, &plan), "old refused 2\n");
    assert_eq!(said(&[], &request), "old refused 1\n");
    assert_eq!(said(&request, &[]), "old refused 2\n");
    let mut broken = worked_plan();
    broken.allocation[0] = 39;
    assert_eq!(said(&plan, &sheet(&broken)), "new refused 7\n");
    assert_eq!(said(&sheet(&broken), &plan[..20]), "old refused 7\n");
}

/// A plan by its numbers: the header's by their tags, and each station's w, C, D, P, S.
#[derive(Debug, PartialEq, Eq)]
struct Numbers {
    header: BTreeMap<usize, u32>,
    stations: BTreeMap<usize, [u32; 5]>,
}

impl Numbers {
    fn of(plan: &Plan) -> Numbers {
        let head = plan.request.head;
        let header = [(1, head.ttrt), (4, head.mode), (5, head.frame), (6, head.grid)];
        let five = |(station, &s): (&Station, &u32)| {
            let Station { walk, longest, deadline, gap } = *station;
            [walk, longest, deadline, gap, s]
        };
        let stations = plan.request.stations.iter().zip(&plan.allocation).map(five);
        Numbers { header: header.into(), stations: stations.enumerate().collect() }
    }

    /// Does what a line says; tells whether the plan had what the line has as old, and what is new
    /// there is something else.
    fn apply(&mut self, line: &str) -> bool {
        let words: Vec<&str> = line.split(' ').collect();
        let numbers: Vec<u32> = words.iter().filter_map(|word| word.parse().ok()).collect();
        let place = numbers[0] as usize;
        match (&words[1..], &numbers[1..]) {
            ([_, _], &[old, new]) => self.header.insert(place, new) == Some(old) && old != new,
            ([letter, _, _], &[old, new]) => {
                let number = &mut self.stations.get_mut(&place).expect("a station")[column(letter)];
                std::mem::replace(number, new) == old && old != new
            }
            (["new", ..], &[w, c, d, p, s]) => {
                self.stations.insert(place, [w, c, d, p, s]).is_none()
            }
            (["old", ..], &[w, c, d, p, s]) => {
                self.stations.remove(&place) == Some([w, c, d, p, s])
            }
            _ => false,
        }
    }
}

fn column(letter: &str) -> usize {
    "wCDPS".find(letter).expect("a letter of a station's number")
}

/// Where a line stands among all, by 02's order.
fn rank(line: &str) -> (usize, usize, usize) {
    let words: Vec<&str> = line.split(' ').collect();
    let first = words[0].parse().expect("a number");
    match words.len() {
        3 => (0, first, 0),
        4 => (1, first, column(words[1])),
        _ => (2, first, 0),
    }
}

#[test]
fn the_lines_lead_from_the_first_plan_to_the_second() {
    let mut seen = [0; 3];
    for (place, sort) in (0..100).flat_map(|place| Sort::ALL.map(|sort| (place, sort))) {
        let (old, new) = pairs::pair(&mut Random::of_case(9, place), sort);
        let text = said(&old, &new);
        let (Ok(old), Ok(new)) = (read_plan(&old), read_plan(&new)) else {
            assert!(text.contains(" refused "), "{text}");
            continue;
        };
        assert_eq!(text == "same\n", old == new, "{text}");
        let lines: Vec<&str> = text.lines().filter(|&line| line != "same").collect();
        let mut numbers = Numbers::of(&old);
        assert!(lines.iter().all(|line| numbers.apply(line)), "{text}");
        assert_eq!(numbers, Numbers::of(&new), "{text}");
        let ranks: Vec<_> = lines.iter().map(|line| rank(line)).collect();
        assert!(ranks.windows(2).all(|pair| pair[0] < pair[1]), "{text}");
        ranks.iter().for_each(|rank| seen[rank.0] += 1);
    }
    assert!(seen.iter().all(|&lines| lines > 300), "{seen:?}");
}

#[test]
fn every_answer_is_among_the_pairs() {
    let of = |(sort, place)| {
        let (old, new) = pairs::pair(&mut Random::of_case(11, place), sort);
        said(&old, &new)
    };
    let cases = Sort::ALL.map(|sort| (0..400).map(move |place| (sort, place)));
    let said: Vec<String> = cases.into_iter().flatten().map(of).collect();
    let refused = ["old", "new"]
        .map(|side| [1, 2, 3, 4, 5, 7].map(|number| format!("{side} refused {number}\n")));
    let parts = ["1 new ", "127 new ", "1 old ", "127 old ", "4 1 ", "5 1 ", "6 1 ", "same\n"];
    for part in refused.concat().into_iter().chain(parts.map(String::from)) {
        let there =
            said.iter().any(|text| text.lines().any(|line| format!("{line}\n").starts_with(&part)));
        assert!(there, "{part:?}");
    }
}
