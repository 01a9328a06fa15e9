//! The differences of two plans, from the two texts that `show` gives: each number has a place, the
//! numbers of both plans go into one table, and what is not twice the same there is a line.

use std::collections::BTreeMap;

use crate::planted::Planted;
use crate::rules::Plan;
use crate::sheet::{read_plan, Sheet};
use crate::text::{show_sheet, Fault};

/// Row and column of a number: row 0 is the header, whose columns are the tags; row i + 1 is
/// station i.
type Place = (usize, usize);

/// The table: at each place the number of the old plan and that of the new one, as their texts have
/// them.
type Table<'a> = BTreeMap<Place, [Option<&'a str>; 2]>;

const HEADER: [(&str, usize); 4] = [("ttrt", 1), ("mode", 4), ("frame", 5), ("grid", 6)];
const COLUMNS: [&str; 5] = ["w", "C", "D", "P", "S"];
const SIDES: [&str; 2] = ["old", "new"];

/// What is said of the bytes of two plan sheets: their differences, or which one is refused.
pub fn compared(old: &[u8], new: &[u8], planted: Planted) -> String {
    let mut texts = vec![];
    for (side, sheet) in SIDES.iter().zip([old, new]) {
        match read_plan(sheet) {
            Ok(plan) => texts.push(show_sheet(&Sheet::Plan(plan))),
            Err(refusal) => return format!("{side} {}\n", Fault::Refused(refusal)),
        }
    }
    match differences(&texts[0], &texts[1], planted) {
        lines if lines.is_empty() => "same\n".to_string(),
        lines => lines,
    }
}

/// The lines of two plans; none where they are the same.
pub fn of_plans(old: &Plan, new: &Plan, planted: Planted) -> String {
    let [old, new] = [old, new].map(|plan| show_sheet(&Sheet::Plan(plan.clone())));
    differences(&old, &new, planted)
}

/// The lines of two texts of plans.
fn differences(old: &str, new: &str, planted: Planted) -> String {
    let mut table = Table::new();
    lay(&mut table, 0, old, planted);
    lay(&mut table, 1, new, planted);
    with_error(&mut table, planted);
    let lines = lines(&table);
    lines.values().map(|line| format!("{line}\n")).collect()
}

/// Puts the numbers of a side's text into the table. What a header does not name is 1.
fn lay<'a>(table: &mut Table<'a>, side: usize, text: &'a str, planted: Planted) {
    let mut put = |place, number| table.entry(place).or_default()[side] = Some(number);
    let no_mode = if planted == Planted::AbsentModeIsZero { "0" } else { "1" };
    for (tag, number) in [(4, no_mode), (5, "1"), (6, "1")] {
        put((0, tag), number);
    }
    let mut row = 0;
    for line in text.lines() {
        let (word, numbers) = line.split_once(' ').expect("a word and numbers");
        if let Some((_, tag)) = HEADER.iter().find(|(name, _)| *name == word) {
            put((0, *tag), numbers);
            continue;
        }
        row += 1;
        let numbers = numbers.split(' ').enumerate();
        numbers.for_each(|(column, number)| put((row, column), number));
    }
}

/// The errors that show in a table.
fn with_error(table: &mut Table, planted: Planted) {
    match planted {
        Planted::GridNotCompared => drop(table.remove(&(0, 6))),
        Planted::NewBeforeOld => table.values_mut().for_each(|sides| sides.reverse()),
        Planted::MissingAsZeros => {
            table.values_mut().for_each(|sides| *sides = sides.map(|side| side.or(Some("0"))))
        }
        _ => (),
    }
}

/// The lines by their order: what both sides have, then the stations of one side, each by its row.
fn lines(table: &Table) -> BTreeMap<(bool, Place), String> {
    let mut lines = BTreeMap::new();
    for (&(row, column), &sides) in table {
        match sides {
            [Some(old), Some(new)] if old == new => (),
            [Some(old), Some(new)] => {
                let place = match row {
                    0 => column.to_string(),
                    _ => format!("{} {}", row - 1, COLUMNS[column]),
                };
                lines.insert((false, (row, column)), format!("{place} {old} {new}"));
            }
            _ => {
                let side = usize::from(sides[0].is_none());
                let begun = || format!("{} {}", row - 1, SIDES[side]);
                let line = lines.entry((true, (row, 0))).or_insert_with(begun);
                *line = format!("{line} {}", sides[side].expect("one of the two"));
            }
        }
    }
    lines
}
