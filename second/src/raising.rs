//! FDDI's least allocation by raising, for the making of cases: FDDI sets are not planned any more,
//! but plans of them are read, judged and run. Every S begins at 0. A station whose deadline rule fails
//! against what the others have now is raised to the smallest multiple of the grid that meets it; nobody is ever
//! lowered. What others have only takes from a station, so no S rises above that of any vector that
//! meets the rules. The search is by halving on the rule itself.

use std::cmp::Reverse;
use std::collections::BinaryHeap;

use crate::rules::{fddi_least_time, require, Refusal, Request};

/// The least S at each station of a judged set, or number 6.
pub fn raised(request: &Request) -> Result<Vec<u32>, Refusal> {
    let mut raising = Raising::new(request)?;
    while let Some(index) = raising.next_failing() {
        raising.raise(index)?;
    }
    Ok(raising.allocation.iter().map(|&s| s as u32).collect())
}

struct Raising<'a> {
    request: &'a Request,
    /// τ + F − 1.
    lost: u64,
    /// g.
    step: u64,
    /// The most that all S together may be.
    most: u64,
    allocation: Vec<u64>,
    sum: u64,
    /// For each station whose rule may come to fail: the sum of all S from which on it does.
    fails_from: BinaryHeap<Reverse<(u64, usize)>>,
}

impl Raising<'_> {
    fn new(request: &Request) -> Result<Raising<'_>, Refusal> {
        let lost = request.lost();
        let room = u64::from(request.head.ttrt).checked_sub(lost);
        let mut raising = Raising {
            request,
            lost,
            step: request.head.grid.into(),
            most: room.ok_or(Refusal::NoAllocation)?,
            allocation: vec![0; request.stations.len()],
            sum: 0,
            fails_from: BinaryHeap::new(),
        };
        (0..request.stations.len()).for_each(|index| raising.expect_failure(index));
        Ok(raising)
    }

    /// Whether a station's rule holds with this S while the others have so much.
    fn meets(&self, index: usize, s: u64, others: u64) -> bool {
        let station = &self.request.stations[index];
        let (ttrt, deadline) = (self.request.head.ttrt, station.deadline);
        fddi_least_time(ttrt, deadline, s, self.lost + others) >= u64::from(station.longest)
    }

    /// A station whose rule fails now.
    fn next_failing(&mut self) -> Option<usize> {
        let &Reverse((from, index)) = self.fails_from.peek()?;
        (from <= self.sum).then(|| {
            self.fails_from.pop();
            index
        })
    }

    /// Raises a station to the smallest S that meets its rule; number 6 if the token rule has none.
    fn raise(&mut self, index: usize) -> Result<(), Refusal> {
        let s = self.allocation[index];
        let others = self.sum - s;
        let (from, last) = (s / self.step, self.most / self.step);
        let steps = first(from, last + 1, |more| self.meets(index, more * self.step, others));
        let found = steps * self.step;
        require(found + others <= self.most, Refusal::NoAllocation)?;
        self.allocation[index] = found;
        self.sum = others + found;
        self.expect_failure(index);
        Ok(())
    }

    /// Notes from which sum of all S on the station's rule fails, if it ever does.
    fn expect_failure(&mut self, index: usize) {
        let s = self.allocation[index];
        let others = first(0, self.most + 1, |others| !self.meets(index, s, others));
        if others <= self.most {
            self.fails_from.push(Reverse((s + others, index)));
        }
    }
}

/// The first number from `low` on for which `holds`, which holds from there on; at most `high`.
fn first(mut low: u64, mut high: u64, holds: impl Fn(u64) -> bool) -> u64 {
    while low < high {
        let middle = (low + high) / 2;
        if holds(middle) {
            high = middle;
        } else {
            low = middle + 1;
        }
    }
    low
}
