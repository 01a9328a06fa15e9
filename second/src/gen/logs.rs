//! Logs: of runs, with any numbers in their records, and damaged; logs to inspect, of which one number
//! is wrong, or that are cut and joined; and such to draw, of many rotations.

use super::random::Random;
use super::sort::Sort;
use super::{calls, sets};
use crate::inspect::Inspector;
use crate::log::{log_of, noted, Counter};
use crate::planted::Planted;
use crate::ring::Ring;
use crate::rules::{Ask, Entry, MarkEntry, Plan, VisitEntry};
use crate::sheet::{fields, record_field};
use crate::text::Call;

/// The visits and marks of a run, as a recorder notes them.
pub fn entries(plan: &Plan, calls: &[Call], counter: Counter) -> Vec<Entry> {
    let mut ring = Ring::opened(plan, Planted::Nothing).expect("the plan is sound");
    calls.iter().filter_map(|call| noted(call, &call.answer(&mut ring), counter)).collect()
}

/// What a recorder's counter showed at some time, often near its top.
pub fn counter(random: &mut Random) -> (u32, u64) {
    let shown = match random.between(0, 3) {
        0 => 0,
        1 => u32::MAX - random.between32(0, 1_000),
        _ => random.between32(0, u32::MAX),
    };
    let past = random.between(0, 1 << 40);
    (shown, random.pick(&[0, 0, 0, 1, past, u64::MAX]))
}

/// The log's length, a little more or less, the plan's, that of some records, or none.
pub fn room(random: &mut Random, plan: &Plan, calls: &[Call]) -> usize {
    let sheet = fields(&plan.request, &plan.allocation).concat().len();
    let entries = entries(plan, calls, Counter::ZERO);
    let length = |entries: &[Entry]| entries.iter().map(|entry| record_field(entry).len()).sum();
    let [some, whole]: [usize; 2] =
        [random.index(entries.len() + 1), entries.len()].map(|count| length(&entries[..count]));
    let [some, whole] = [some, whole].map(|records| sheet + records);
    let room =
        random.pick(&[whole, whole, whole + 1, whole - 1, some, some - 1, some + 19, sheet, 0]);
    random.pick(&[room, room, room, sheet - 1, 65_535])
}

/// A run and its records, at most so many.
pub fn run(random: &mut Random, sort: Sort, most: usize) -> (Plan, Vec<Entry>) {
    let (plan, calls) = calls::script(random, sort);
    let (shown, _) = counter(random);
    let mut entries = entries(&plan, &calls, Counter { shown, at: 0 });
    entries.truncate(random.index(most + 1));
    (plan, entries)
}

fn any_number(random: &mut Random) -> u32 {
    let any = random.between32(0, u32::MAX);
    random.pick(&[0, 1, any, u32::MAX])
}

fn any_entry(random: &mut Random, sort: Sort) -> Entry {
    if sort.marked && random.once_in(2) {
        return Entry::Mark(MarkEntry { station: random.byte(), mark: random.byte() });
    }
    Entry::Visit(VisitEntry {
        station: random.byte(),
        start: any_number(random),
        limit: any_number(random),
        synchronous: any_number(random),
        asynchronous: any_number(random),
    })
}

/// A log of a run, with some records of any numbers, or of a plan that is refused, or damaged.
pub fn log(random: &mut Random, sort: Sort) -> Vec<u8> {
    let (plan, mut entries) = run(random, sort, 12);
    if random.once_in(3) {
        let any = (0..=random.index(4)).map(|_| any_entry(random, sort)).collect::<Vec<_>>();
        entries.extend(any);
    }
    match random.between(0, 9) {
        0..=3 => log_of(&plan, &entries).expect("the plan is sound"),
        4 => unjudged(&sets::any_plan(random, sort), &entries).concat(),
        5 => unjudged(&sets::plan(random, sort), &entries).concat(),
        6 => {
            let fields = unjudged(&sets::any_plan(random, sort), &entries);
            damaged(random, fields, sort)
        }
        _ => {
            let fields = unjudged(&plan, &entries);
            damaged(random, fields, sort)
        }
    }
}

/// The fields of a log, whatever its plan is.
fn unjudged(plan: &Plan, entries: &[Entry]) -> Vec<Vec<u8>> {
    let mut all = fields(&plan.request, &plan.allocation);
    let end = all.len() - 1;
    all.splice(end..end, entries.iter().map(record_field));
    all
}

/// Damage near the records: a field elsewhere, twice, gone, or with another head; or to bytes.
fn damaged(random: &mut Random, mut fields: Vec<Vec<u8>>, sort: Sort) -> Vec<u8> {
    let (index, other) = (place(random, fields.len()), place(random, fields.len()));
    let any = any_entry(random, sort);
    match random.between(0, 9) {
        0 => fields[index][0] = random.pick(&[0, 1, 2, 3, 4, 5, 15, 16, 17, 255]),
        1 => fields[index][1] = random.byte(),
        2 if sort.marked => fields[index][2] = random.pick(&[0, 1, 2, 3, 5, 17]),
        2 => fields[index][2] = random.pick(&[0, 4, 16, 17, 18, 255]),
        3 => fields.insert(other, fields[index].clone()),
        4 => drop(fields.remove(index)),
        5 => fields.swap(index, other),
        6 => fields.insert(other, record_field(&any)),
        7 => fields[index].push(random.byte()),
        _ => return cut_or_changed(random, fields.concat()),
    }
    fields.concat()
}

/// A place among so many, most often among the last: there the records and the end are.
fn place(random: &mut Random, length: usize) -> usize {
    let behind = random.index(length);
    length - 1 - if random.once_in(2) { behind.min(3) } else { behind }
}

fn cut_or_changed(random: &mut Random, mut bytes: Vec<u8>) -> Vec<u8> {
    let index = place(random, bytes.len());
    match random.between(0, 4) {
        0 | 1 => bytes.truncate(index),
        2 => bytes[index] = random.byte(),
        3 => bytes.insert(index, random.byte()),
        _ => bytes.extend([random.byte(), 0, 17]),
    }
    bytes
}

/// A log that a run with any synchronous amounts gives: they need not come from messages.
/// With marks, a station may be marked or unmarked at any place, the token's most often.
pub fn free_run(random: &mut Random, plan: &Plan, most: usize, sort: Sort) -> Vec<Entry> {
    let mut inspector = Inspector::new(plan, Planted::Nothing);
    let (shown, _) = counter(random);
    let mut entries: Vec<Entry> = vec![];
    let mut begun = false;
    for _ in 0..random.index(most + 1) {
        let entry = match sort.marked && random.once_in(4) {
            true => free_mark(random, &inspector, plan),
            false => {
                let start = if begun { inspector.counter() } else { shown };
                begun = true;
                free_visit(random, &inspector, plan, start)
            }
        };
        inspector.take(&entry);
        entries.push(entry);
    }
    entries
}

fn free_visit(random: &mut Random, inspector: &Inspector, plan: &Plan, start: u32) -> Entry {
    let here = inspector.station();
    let s = if inspector.marked() { 0 } else { plan.allocation[here] };
    let some = random.between32(0, s);
    let limit = inspector.limit();
    Entry::Visit(VisitEntry {
        station: here as u8,
        start,
        limit,
        synchronous: random.pick(&[0, s, some]),
        asynchronous: some_frames(random, plan, limit),
    })
}

fn free_mark(random: &mut Random, inspector: &Inspector, plan: &Plan) -> Entry {
    let any = random.index(plan.allocation.len());
    let station = random.pick(&[inspector.station(), any]) as u8;
    Entry::Mark(MarkEntry { station, mark: random.pick(&[0, 1, 1]) })
}

fn some_frames(random: &mut Random, plan: &Plan, limit: u32) -> u32 {
    let frame = plan.request.head.frame;
    let some = random.between32(1, frame);
    let length = random.pick(&[1, frame, some, some]);
    let few = random.between32(0, limit / length + 1);
    let frames = random.pick(&[0, few, few, u32::MAX]);
    Ask { frames, length }.sent(limit.into()) as u32
}

/// A log to inspect: of a run, or of one with any synchronous amounts, and half of them not quite.
pub fn to_inspect(random: &mut Random, sort: Sort) -> Vec<u8> {
    if random.once_in(8) {
        return log(random, sort);
    }
    let (plan, mut entries) = match random.once_in(2) {
        true => run(random, sort, 40),
        false => {
            let plan = sets::plan_to_run(random, sort);
            let entries = free_run(random, &plan, 40, sort);
            (plan, entries)
        }
    };
    match random.between(0, 5) {
        0..=2 => (),
        3 if !entries.is_empty() => {
            let index = random.index(entries.len());
            spoil(random, &plan, &mut entries[index]);
        }
        4 => cut_and_joined(random, &plan, &mut entries, sort),
        _ => {
            for _ in 0..random.between(0, 3).min(entries.len() as u64) {
                let index = random.index(entries.len());
                spoil(random, &plan, &mut entries[index]);
            }
        }
    }
    log_of(&plan, &entries).expect("the plan is sound")
}

/// A log to draw: of more rotations than a page has, where the stations are few; some with a wrong
/// number, most often near the end, and now and then without a record.
pub fn to_draw(random: &mut Random, sort: Sort) -> Vec<u8> {
    let plan = match random.once_in(2) {
        true => sets::small_plan(random, sort),
        false => sets::plan_to_run(random, sort),
    };
    let count = plan.allocation.len();
    let most = match random.once_in(12) {
        true => 0,
        false if count <= 3 => 120 * count,
        false => 2 * count.min(20),
    };
    let mut entries = free_run(random, &plan, most, sort);
    let wrong = random.pick(&[0, 1, 1, 2]).min(entries.len());
    for _ in 0..wrong {
        let index = place(random, entries.len());
        spoil(random, &plan, &mut entries[index]);
    }
    log_of(&plan, &entries).expect("the plan is sound")
}

/// One number changed: by one, to an edge of what its rule allows, or to any.
fn spoil(random: &mut Random, plan: &Plan, entry: &mut Entry) {
    match entry {
        Entry::Visit(visit) => spoil_visit(random, plan, visit),
        Entry::Mark(mark) => spoil_mark(random, plan, mark),
    }
}

fn spoil_mark(random: &mut Random, plan: &Plan, entry: &mut MarkEntry) {
    let count = plan.allocation.len() as u8;
    match random.once_in(2) {
        true => entry.station = random.pick(&[count - 1, count, count + 1, 128, 255]),
        false => entry.mark = random.pick(&[1 - entry.mark.min(1), 2, 255]),
    }
}

fn spoil_visit(random: &mut Random, plan: &Plan, entry: &mut VisitEntry) {
    let index = usize::from(entry.station).min(plan.allocation.len() - 1);
    let count = plan.allocation.len() as u8;
    let frame = plan.request.head.frame;
    let any = any_number(random);
    let near = |number: u32| [number.wrapping_add(1), number.wrapping_sub(1), any];
    match random.between(0, 7) {
        0 => {
            let station = entry.station;
            let others = [station.wrapping_add(1), station.wrapping_sub(1), count, 128, 255];
            entry.station = random.pick(&others);
        }
        1 => entry.start = random.pick(&near(entry.start)),
        2 => entry.start ^= 1 << random.index(32),
        3 => entry.limit = random.pick(&near(entry.limit)),
        4 => entry.synchronous = random.pick(&near(entry.synchronous)),
        5 => {
            let (s, longest) = (plan.allocation[index], plan.request.stations[index].longest);
            entry.synchronous = random.pick(&[s, s + 1, longest, s.saturating_sub(1)]);
        }
        6 => entry.asynchronous = random.pick(&near(entry.asynchronous)),
        _ => {
            let past = random.between32(0, frame);
            entry.asynchronous =
                entry.limit.saturating_add(random.pick(&[past, past, frame, frame - 1]));
        }
    }
}

/// Records dropped at the front or among the others, doubled or swapped, or those of another run
/// put behind.
fn cut_and_joined(random: &mut Random, plan: &Plan, entries: &mut Vec<Entry>, sort: Sort) {
    let from = random.index(entries.len() + 1);
    let to = from + random.index(entries.len() - from + 1);
    match random.between(0, 4) {
        0 => drop(entries.drain(..to)),
        1 => drop(entries.drain(from..to)),
        2 => {
            let doubled = entries[from..to].to_vec();
            entries.splice(from..from, doubled);
        }
        3 => entries.extend(free_run(random, plan, 8, sort)),
        _ if entries.len() > 1 => {
            let [one, other] = [0, 0].map(|_: usize| random.index(entries.len()));
            entries.swap(one, other);
        }
        _ => (),
    }
}
