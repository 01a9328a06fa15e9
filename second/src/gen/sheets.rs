//! Sheets, sound ones and damaged ones.

use super::random::Random;
use super::sets;
use super::sort::Sort;
use crate::rules::{Plan, FRAME, GRID};
use crate::sheet::{fields, mode_field, number_field, FRAME_TAG, GRID_TAG, STATION_TAG};

const TAGS: [u8; 7] = [0, 1, 2, 3, 4, 254, 255];
/// The same for sheets that have an F.
const UNCUT_TAGS: [u8; 9] = [0, 1, 2, 3, 4, 5, 6, 254, 255];

/// The same for sheets that have a g.
const GRID_TAGS: [u8; 10] = [0, 1, 2, 3, 4, 5, 6, 7, 254, 255];

fn tags(sort: Sort) -> &'static [u8] {
    if sort.grid {
        &GRID_TAGS
    } else if sort.uncut {
        &UNCUT_TAGS
    } else {
        &TAGS
    }
}

/// A field of the header with a number of four bytes: its tag, and the last number of its range.
#[derive(Clone, Copy)]
struct Wide {
    tag: u8,
    last: u32,
}

const FRAMES: Wide = Wide { tag: FRAME_TAG, last: *FRAME.end() };
const GRIDS: Wide = Wide { tag: GRID_TAG, last: *GRID.end() };

#[derive(Clone, Copy, Debug, PartialEq, Eq)]
pub enum SheetKind {
    Request,
    Plan,
}

fn fields_of(kind: SheetKind, plan: &Plan) -> Vec<Vec<u8>> {
    match kind {
        SheetKind::Request => fields(&plan.request, &[]),
        SheetKind::Plan => fields(&plan.request, &plan.allocation),
    }
}

/// The sheet of a plan, or of its request, unjudged.
pub fn sheet_of(kind: SheetKind, plan: &Plan) -> Vec<u8> {
    fields_of(kind, plan).concat()
}

fn sound_fields(random: &mut Random, kind: SheetKind, sort: Sort) -> Vec<Vec<u8>> {
    match kind {
        SheetKind::Request => fields(&sets::request(random, sort), &[]),
        SheetKind::Plan => fields_of(kind, &sets::plan(random, sort)),
    }
}

/// A sheet: sound, with a number at an edge, or damaged once or twice.
pub fn sheet(random: &mut Random, kind: SheetKind, sort: Sort) -> Vec<u8> {
    match random.between(0, 9) {
        0..=3 => sound_fields(random, kind, sort).concat(),
        4 => fields_of(kind, &sets::plan_at_edge(random, sort)).concat(),
        5 => {
            let fields = sound_fields(random, kind, sort);
            let once = damaged(random, fields, sort);
            damaged_bytes(random, once)
        }
        6 if sort.uncut => {
            let fields = sound_fields(random, kind, sort);
            let wide = if sort.grid { random.pick(&[GRIDS, GRIDS, FRAMES]) } else { FRAMES };
            damaged_wide(random, fields, wide).concat()
        }
        6 if sort.has_mode() => {
            let fields = sound_fields(random, kind, sort);
            damaged_mode(random, fields).concat()
        }
        _ => {
            let fields = sound_fields(random, kind, sort);
            damaged(random, fields, sort)
        }
    }
}

/// Where a sheet has the field, or might have it.
fn wide_place(fields: &[Vec<u8>], tag: u8) -> (usize, bool) {
    let behind_ttrt = |tag: u8| fields.iter().position(|field| field[0] == tag);
    match behind_ttrt(tag) {
        Some(place) => (place, true),
        None => (behind_ttrt(STATION_TAG).unwrap_or(1), false),
    }
}

fn any_number(random: &mut Random, last: u32) -> u32 {
    let inside = random.between32(2, last);
    random.pick(&[0, 1, 2, inside, last, last + 1, u32::MAX])
}

/// The field with another value or length, elsewhere, twice, or beside a mode on either side.
fn damaged_wide(random: &mut Random, mut fields: Vec<Vec<u8>>, wide: Wide) -> Vec<Vec<u8>> {
    let Wide { tag, last } = wide;
    let (place, there) = wide_place(&fields, tag);
    let number = any_number(random, last);
    if !there {
        fields.insert(place, number_field(tag, number));
    }
    let elsewhere = random.index(fields.len() + 1);
    let near = random.between(0, 1) as usize;
    match random.between(0, 4) {
        0 => fields[place] = number_field(tag, number),
        1 => {
            let length = random.pick(&[0, 1, 3, 5]);
            fields[place] = [vec![tag, 0, length], vec![0, 0, 0, 2, 2]].concat();
        }
        2 => fields.insert(elsewhere, number_field(tag, number)),
        3 => fields.insert(place + near, mode_field(random.pick(&[0, 1, 2, 3]))),
        _ => {
            let moved = fields.remove(place);
            fields.insert(elsewhere.min(fields.len()), moved);
        }
    }
    fields
}

/// The mode's field, which is the second, with another value or length, elsewhere, or twice.
fn damaged_mode(random: &mut Random, mut fields: Vec<Vec<u8>>) -> Vec<Vec<u8>> {
    let mode = random.pick(&[0, 1, 2, 3, 255]);
    let elsewhere = random.index(fields.len() + 1);
    match random.between(0, 3) {
        0 => fields[1] = mode_field(random.pick(&[0, 1, 3, 4, 255])),
        1 => fields[1] = [vec![4, 0, random.pick(&[0, 2, 4])], vec![mode; 4]].concat(),
        2 => fields.insert(elsewhere, mode_field(mode)),
        _ => {
            let moved = fields.remove(1);
            fields.insert(elsewhere.min(fields.len()), moved);
        }
    }
    fields
}

fn damaged(random: &mut Random, fields: Vec<Vec<u8>>, sort: Sort) -> Vec<u8> {
    if random.once_in(2) {
        return damaged_bytes(random, fields.concat());
    }
    damaged_fields(random, fields, sort).concat()
}

/// Damage to whole fields: a wrong tag or length, a field too many, too few or elsewhere.
fn damaged_fields(random: &mut Random, mut fields: Vec<Vec<u8>>, sort: Sort) -> Vec<Vec<u8>> {
    let (index, other) = (random.index(fields.len()), random.index(fields.len()));
    match random.between(0, 6) {
        0 => fields[index][0] = random.pick(tags(sort)),
        1 => fields[index][1] = random.byte(),
        2 => fields[index][2] = random.pick(&[0, 3, 4, 5, 15, 16, 17, 255]),
        3 => fields.insert(other, fields[index].clone()),
        4 => drop(fields.remove(index)),
        5 => fields.swap(index, other),
        _ => fields = many_stations(random, &fields),
    }
    fields
}

/// The first station again and again, to 127, 128 or 129 fields of it or beyond.
fn many_stations(random: &mut Random, fields: &[Vec<u8>]) -> Vec<Vec<u8>> {
    let times = random.between(124, 130) as usize;
    let first = fields.iter().position(|field| field[0] == STATION_TAG).expect("a station");
    let mut many = fields[..first].to_vec();
    many.extend(vec![fields[first].clone(); times]);
    many.extend_from_slice(&fields[first + 1..]);
    many
}

/// Damage to bytes: cut, changed, dropped, put in, or put after the end.
fn damaged_bytes(random: &mut Random, mut bytes: Vec<u8>) -> Vec<u8> {
    if bytes.is_empty() {
        return bytes;
    }
    let index = random.index(bytes.len());
    match random.between(0, 6) {
        0 | 1 => bytes.truncate(index),
        2 => bytes[index] = random.byte(),
        3 => bytes[index] ^= 1 << random.index(8),
        4 => drop(bytes.remove(index)),
        5 => bytes.insert(index, random.byte()),
        _ => (0..=random.index(4)).for_each(|_| bytes.push(random.byte())),
    }
    bytes
}

/// A small sheet damaged in every way in turn, each at every place.
pub fn every_damage(random: &mut Random, kind: SheetKind, sort: Sort) -> Vec<Vec<u8>> {
    let plan = sets::small_plan(random, sort);
    let fields = fields_of(kind, &plan);
    let whole = fields.concat();
    let mut sheets: Vec<Vec<u8>> = (0..=whole.len()).map(|cut| whole[..cut].to_vec()).collect();
    sheets.extend(every_byte_changed(random, &whole));
    sheets.extend(every_field_damaged(&fields, tags(sort)));
    if sort.has_mode() {
        sheets.extend(every_mode_damaged(&fields));
    }
    if sort.uncut {
        sheets.extend(every_wide_damaged(&fields, FRAMES));
    }
    if sort.grid {
        sheets.extend(every_wide_damaged(&fields, GRIDS));
    }
    sheets.extend([0, 1, 3, 255].map(|byte| [&whole[..], &[byte]].concat()));
    sheets.extend(sets::at_edges(&plan).iter().map(|plan| fields_of(kind, plan).concat()));
    sheets
}

fn every_byte_changed(random: &mut Random, whole: &[u8]) -> Vec<Vec<u8>> {
    let mut sheets = vec![];
    for index in 0..whole.len() {
        for value in [0, 255, whole[index] ^ 1, whole[index] ^ 128, random.byte()] {
            let mut sheet = whole.to_vec();
            sheet[index] = value;
            sheets.push(sheet);
        }
    }
    sheets
}

/// Every value of the mode's field, and the field at every place, alone and as a second one.
fn every_mode_damaged(fields: &[Vec<u8>]) -> Vec<Vec<u8>> {
    let others = [&fields[..1], &fields[2..]].concat();
    let with = |fields: &[Vec<u8>], at: usize, mode: u8| {
        [&fields[..at], &[mode_field(mode)], &fields[at..]].concat().concat()
    };
    let mut sheets: Vec<Vec<u8>> = (0..=255).map(|mode| with(&others, 1, mode)).collect();
    for mode in [1, 2] {
        sheets.extend((0..=others.len()).map(|at| with(&others, at, mode)));
        sheets.extend((0..=fields.len()).map(|at| with(fields, at, mode)));
    }
    sheets
}

/// The field with the ends of its range and one past, at every place, alone and as a second one.
fn every_wide_damaged(fields: &[Vec<u8>], wide: Wide) -> Vec<Vec<u8>> {
    let Wide { tag, last } = wide;
    let (place, there) = wide_place(fields, tag);
    let behind = place + usize::from(there);
    let others = [&fields[..place], &fields[behind..]].concat();
    let with = |fields: &[Vec<u8>], at: usize, number: u32| {
        [&fields[..at], &[number_field(tag, number)], &fields[at..]].concat().concat()
    };
    let values = [0, 1, 2, 3, 255, 256, last - 1, last, last + 1, last + 2, 1 << 24, u32::MAX];
    let mut sheets: Vec<Vec<u8>> = values.map(|number| with(&others, place, number)).to_vec();
    for number in [1, 2] {
        sheets.extend((0..=others.len()).map(|at| with(&others, at, number)));
        sheets.extend((0..=fields.len()).map(|at| with(fields, at, number)));
    }
    sheets
}

fn every_field_damaged(fields: &[Vec<u8>], tags: &[u8]) -> Vec<Vec<u8>> {
    let mut sheets = vec![];
    for (index, field) in fields.iter().enumerate() {
        let heads = tags.iter().map(|&tag| [tag, field[1], field[2]]);
        let lengths = [0, 1, field[2].wrapping_sub(1), field[2] + 1, 255];
        let heads = heads.chain(lengths.map(|length| [field[0], 0, length]));
        for head in heads.chain([[field[0], 1, field[2]]]) {
            let mut damaged = fields.to_vec();
            damaged[index].splice(..3, head);
            sheets.push(damaged.concat());
        }
        sheets.push([&fields[..index], &fields[index + 1..]].concat().concat());
        sheets.push([&fields[..=index], &fields[index..]].concat().concat());
    }
    sheets
}
