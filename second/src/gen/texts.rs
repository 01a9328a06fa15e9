//! Texts of requests, plans and calls: tidy, untidy, and some that cannot be read.

use super::calls;
use super::random::Random;
use super::sort::Sort;
use super::{logs, sets};
use crate::rules::Plan;
use crate::text::show_stations;

/// Lines that fit nowhere, or not everywhere.
const STRAY_LINES: [&str; 20] = [
    "ttrt",
    "ttrt 100",
    "ttrt 4294967296",
    "ttrt 100 100",
    "station",
    "station 1 2 3",
    "station 1 2 3 4 5 6",
    "station 1 20 100 100",
    "station 1 20 100 100 20",
    "station 1 20 -100 100",
    "station 1 20 1e2 100",
    "station 1 20 +100 100",
    "stations 1 20 100 100",
    "visit",
    "visit -1",
    "visit 4294967296",
    "visit 1 1",
    "message 0 1",
    "message 4294967296 1 1",
    "message 0 1 18446744073709551616",
];

/// The same for texts that have a mode.
const STRAY_MODES: [&str; 10] = [
    "mode",
    "mode 0",
    "mode 1",
    "mode 2",
    "mode 3",
    "mode 255",
    "mode 256",
    "mode 258",
    "mode 4294967296",
    "mode 2 2",
];

/// The same for texts that have an F.
const STRAY_FRAMES: [&str; 15] = [
    "frame",
    "frame 0",
    "frame 1",
    "frame 2",
    "frame 2",
    "frame 65535",
    "frame 65536",
    "frame 4294967295",
    "frame 4294967296",
    "frame 2 2",
    "mode 1",
    "mode 2",
    "visit 1 2 3",
    "visit 3 4294967296",
    "visit 3 0",
];

/// The same for texts that have a g.
const STRAY_GRIDS: [&str; 13] = [
    "grid",
    "grid 0",
    "grid 1",
    "grid 2",
    "grid 5",
    "grid 1000",
    "grid 1001",
    "grid 4294967295",
    "grid 4294967296",
    "grid 2 2",
    "frame 2",
    "mode 1",
    "mode 2",
];

/// The same for texts that have marks, in calls and in logs.
const STRAY_MARKS: [&str; 16] = [
    "mark",
    "mark 0",
    "mark 4294967295",
    "mark 4294967296",
    "mark -1",
    "mark 0 0",
    "mark 0 1",
    "mark 0 2",
    "mark 255 255",
    "mark 256 0",
    "mark 0 256",
    "mark 0 1 1",
    "marks 0 1",
    "unmark",
    "unmark 0",
    "unmark 4294967296",
];

/// The same for texts of logs.
const STRAY_VISITS: [&str; 14] = [
    "visit 0 0 0 0 0",
    "visit 255 4294967295 4294967295 4294967295 4294967295",
    "visit 256 0 0 0 0",
    "visit 0 4294967296 0 0 0",
    "visit 0 0 4294967296 0 0",
    "visit 0 0 0 0 4294967296",
    "visit 0 0 0 0",
    "visit 0 0 0 0 0 0",
    "visit",
    "visits 0 0 0 0 0",
    "station 1 20 100 100 20",
    "station 1 20 100 100",
    "ttrt 100",
    "message 0 1 1",
];

/// The text of a log, most often of a run, at times with stray lines.
pub fn log_text(random: &mut Random, sort: Sort) -> Vec<u8> {
    let (run, entries) = logs::run(random, sort, 12);
    let plan = match random.between(0, 5) {
        0 => sets::any_plan(random, sort),
        1 => sets::plan(random, sort),
        _ => run,
    };
    let shown = if random.once_in(12) { &[][..] } else { &plan.allocation };
    let mut text = show_stations(&plan.request, shown);
    entries.iter().for_each(|entry| text += &format!("{entry}\n"));
    let mut lines: Vec<&str> = text.lines().collect();
    for _ in 0..random.between(0, 2) {
        let place = random.pick(&[0, 1, lines.len() - 1, lines.len()]);
        let place = if random.once_in(2) { random.index(lines.len() + 1) } else { place };
        let stray = match sort.marked && random.once_in(2) {
            true => random.pick(&STRAY_MARKS),
            false => random.pick(&STRAY_VISITS),
        };
        lines.insert(place, stray);
    }
    let text = lines.join("\n");
    if random.once_in(2) {
        return text.into_bytes();
    }
    untidy(random, sort, &text)
}

/// The text of a request or plan, at times with a stray line or a broken byte.
pub fn sheet_text(random: &mut Random, sort: Sort) -> Vec<u8> {
    let text = match random.between(0, 5) {
        0 | 1 => show_stations(&sets::request(random, sort), &[]),
        2 => {
            let plan = sets::plan_at_edge(random, sort);
            let shown = random.pick(&[&plan.allocation[..], &[]]);
            show_stations(&plan.request, shown)
        }
        3 => {
            // Lines of both kinds, unless the allocation has one number only.
            let plan = sets::plan(random, sort);
            show_stations(&plan.request, &plan.allocation[..1])
        }
        _ => {
            let plan = sets::plan(random, sort);
            show_stations(&plan.request, &plan.allocation)
        }
    };
    untidy(random, sort, &text)
}

/// The plan and the calls of a script as text.
pub fn script_text(random: &mut Random, sort: Sort) -> (Plan, Vec<u8>) {
    let (plan, calls) = calls::script(random, sort);
    let text: String = calls.iter().map(|call| format!("{call}\n")).collect();
    (plan, untidy(random, sort, &text))
}

/// The text with blanks, comments and stray lines put in, and now and then a byte changed.
fn untidy(random: &mut Random, sort: Sort, text: &str) -> Vec<u8> {
    untidy_with(random, text, &|random, lines, index| put_stray(random, sort, lines, index))
}

/// What puts a stray line among others, near an index.
type Stray<'a> = &'a dyn Fn(&mut Random, &mut Vec<String>, usize);

/// The same for any texts, by their own stray lines.
pub fn untidy_with(random: &mut Random, text: &str, stray: Stray) -> Vec<u8> {
    let mut lines: Vec<String> = text.lines().map(str::to_string).collect();
    for _ in 0..random.between(0, 4) {
        if lines.is_empty() {
            lines.push(String::new());
        }
        let index = random.index(lines.len());
        put_in(random, stray, &mut lines, index);
    }
    let mut bytes = lines.join("\n").into_bytes();
    if !random.once_in(4) {
        bytes.push(b'\n');
    }
    if !bytes.is_empty() && random.once_in(6) {
        let index = random.index(bytes.len());
        bytes[index] = random.byte();
    }
    bytes
}

fn put_in(random: &mut Random, stray: Stray, lines: &mut Vec<String>, index: usize) {
    match random.between(0, 7) {
        0 => lines.insert(index, String::new()),
        1 => lines.insert(index, " \t# a comment: ttrt 5".to_string()),
        2 => lines[index] += "# and no more",
        3 => lines[index] = format!("  {} ", lines[index].replace(' ', "  ")),
        4 => lines[index] = lines[index].replace(' ', "\t") + "\r",
        5 => lines[index] = lines[index].replace(' ', " 00"),
        6 => stray(random, lines, index),
        _ => drop(lines.remove(index)),
    }
    if lines.is_empty() {
        lines.push(String::new());
    }
}

/// A stray line of a sort: one of the header's somewhere in the header, any other behind the index.
fn put_stray(random: &mut Random, sort: Sort, lines: &mut Vec<String>, index: usize) {
    let (places, strays): (&[usize], &[&str]) = if sort.marked && random.once_in(2) {
        return lines.insert(index + 1, random.pick(&STRAY_MARKS).to_string());
    } else if sort.grid && random.once_in(2) {
        (&[0, 1, 2, 3, 4], &STRAY_GRIDS)
    } else if sort.uncut && random.once_in(2) {
        (&[0, 1, 2, 3], &STRAY_FRAMES)
    } else if sort.has_mode() && random.once_in(2) {
        (&[0, 1, 2], &STRAY_MODES)
    } else {
        return lines.insert(index + 1, random.pick(&STRAY_LINES).to_string());
    };
    let place = random.pick(&[places, &[index + 1]].concat()).min(lines.len());
    lines.insert(place, random.pick(strays).to_string());
}
