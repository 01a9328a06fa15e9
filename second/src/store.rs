//! Plan versions in an area of 64 KiB, oldest first. An area is read as a list of versions, whatever
//! it holds, and is a store exactly if the list is one that storing leads to and is laid out as these
//! bytes.

use std::ops::Range;

use crate::planted::Planted;
use crate::rules::{require, Refusal};
use crate::sheet::{end_field, read_plan};
use crate::text::show_plan;

/// The bytes of a store.
pub const AREA: usize = 65_536;
/// How many versions are kept.
pub const MOST_KEPT: usize = 16;
pub const VERSION_TAG: u8 = 32;

/// A plan sheet, byte for byte, and the number that storing it gave.
#[derive(Clone, Debug, PartialEq, Eq)]
pub struct Version {
    pub number: u32,
    pub sheet: Vec<u8>,
}

impl Version {
    pub fn field(&self) -> Vec<u8> {
        let length = (4 + self.sheet.len()) as u16;
        [&[VERSION_TAG][..], &length.to_be_bytes(), &self.number.to_be_bytes(), &self.sheet]
            .concat()
    }
}

/// The versions and the end field, and zeros behind, whatever the versions are.
pub fn laid_out(versions: &[Version]) -> Vec<u8> {
    let mut bytes: Vec<u8> = versions.iter().flat_map(Version::field).collect();
    bytes.extend(end_field());
    bytes.resize(bytes.len().max(AREA), 0);
    bytes
}

/// As many versions as stand one behind the other.
fn guessed(bytes: &[u8]) -> Vec<Version> {
    let mut versions = vec![];
    let mut rest = bytes;
    while let [VERSION_TAG, high, low, after @ ..] = rest {
        let length = usize::from(u16::from_be_bytes([*high, *low]));
        let Some((body, behind)) = after.split_at_checked(length) else { break };
        let Some((number, sheet)) = body.split_first_chunk::<4>() else { break };
        versions.push(Version { number: u32::from_be_bytes(*number), sheet: sheet.to_vec() });
        rest = behind;
    }
    versions
}

/// Whether storing leads to such a list: numbers one after another, from 1 on or sixteen of them.
fn reached(versions: &[Version]) -> bool {
    let numbers: Vec<u64> = versions.iter().map(|version| version.number.into()).collect();
    let first = numbers.first().copied().unwrap_or(1);
    numbers.iter().zip(first..).all(|(&number, expected)| number == expected)
        && (first == 1 || first > 1 && versions.len() == MOST_KEPT)
        && versions.len() <= MOST_KEPT
        && versions.iter().all(|version| read_plan(&version.sheet).is_ok())
}

/// The versions of a store, or number 2.
pub fn read(bytes: &[u8]) -> Result<Vec<Version>, Refusal> {
    let versions = guessed(bytes);
    require(reached(&versions) && laid_out(&versions) == bytes, Refusal::WrongField)?;
    Ok(versions)
}

/// An area that a host lends, of any length and with any bytes.
pub struct Area {
    pub bytes: Vec<u8>,
    /// How many plans were refused, which nothing goes by but an error.
    refused: u32,
    planted: Planted,
}

impl Area {
    pub fn new(bytes: Vec<u8>, planted: Planted) -> Area {
        Area { bytes, refused: 0, planted }
    }

    /// Makes it the empty store, whatever it holds; 2 for another length.
    pub fn empty(&mut self) -> Result<(), Refusal> {
        require(self.bytes.len() == AREA, Refusal::WrongField)?;
        self.bytes = laid_out(&[]);
        self.refused = 0;
        Ok(())
    }

    /// The number that the stored plan gets, or 2 for the area, 1 to 5 or 7 for the sheet, 18.
    pub fn store(&mut self, sheet: &[u8]) -> Result<u32, Refusal> {
        let mut versions = read(&self.bytes)?;
        if let Err(refusal) = read_plan(sheet) {
            self.refused += u32::from(self.planted == Planted::RefusedNumberUsed);
            return Err(refusal);
        }
        let last = match self.planted {
            Planted::NumberFromCount => versions.len() as u32,
            _ => versions.last().map_or(0, |newest| newest.number),
        };
        let number = last.checked_add(1 + self.refused).ok_or(Refusal::NumbersUsedUp)?;
        if versions.len() == MOST_KEPT {
            versions.remove(if self.planted == Planted::NewestDropped { MOST_KEPT - 1 } else { 0 });
        }
        versions.push(Version { number, sheet: sheet.to_vec() });
        self.lay(&versions);
        Ok(number)
    }

    fn lay(&mut self, versions: &[Version]) {
        let was = std::mem::replace(&mut self.bytes, laid_out(versions));
        if self.planted == Planted::HoleLeft {
            let used = self.bytes.iter().rposition(|&byte| byte != 0).map_or(0, |last| last + 3);
            self.bytes[used..].copy_from_slice(&was[used..]);
        }
    }

    /// Where the plan of a version stands, or 2, or 17.
    pub fn find(&self, number: u32) -> Result<Range<usize>, Refusal> {
        let mut end = 0;
        for version in read(&self.bytes)? {
            end += version.field().len();
            if version.number == number {
                return Ok(end - version.sheet.len()..end);
            }
        }
        Err(Refusal::NoSuchVersion)
    }

    /// The oldest and the newest number, 0 and 0 where none is kept, or 2.
    pub fn versions(&self) -> Result<(u32, u32), Refusal> {
        let versions = read(&self.bytes)?;
        let numbers = || versions.iter().map(|version| version.number);
        Ok((numbers().next().unwrap_or(0), numbers().last().unwrap_or(0)))
    }
}

/// A line for each version: its number, and the first line of its plan.
pub fn listed(bytes: &[u8]) -> Result<String, Refusal> {
    let line = |Version { number, sheet }: Version| {
        let plan = show_plan(&read_plan(&sheet).expect("a store's plan"));
        format!("{number} {}\n", plan.lines().next().expect("a first line"))
    };
    Ok(read(bytes)?.into_iter().map(line).collect())
}
