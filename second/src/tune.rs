//! At which TTRT of a range a set has a plan, all else as it is: it is planned at each of them.

use std::ops::RangeInclusive;

use crate::planner::plan;
use crate::planted::Planted;
use crate::rules::{in_service, require, Refusal, Request, TTRT};
use crate::sheet::{walked, REQUEST_TABLE};

/// A TTRT at which the set has a plan, and the spare time A* that is left there.
#[derive(Clone, Copy, Debug, PartialEq, Eq)]
struct Fit {
    ttrt: u32,
    spare: u64,
}

/// What is said of a request sheet at every TTRT between two whole numbers, or at all.
pub fn tuned(sheet: &[u8], between: Option<[&str; 2]>, planted: Planted) -> String {
    let lines = tuned_lines(sheet, between, planted)
        .unwrap_or_else(|refusal| vec![format!("refused {}", refusal.number())]);
    lines.iter().map(|line| line.to_string() + "\n").collect()
}

fn tuned_lines(
    sheet: &[u8],
    between: Option<[&str; 2]>,
    planted: Planted,
) -> Result<Vec<String>, Refusal> {
    let walk = walked(sheet, REQUEST_TABLE);
    walk.fault?;
    let request = walk.passage.contents.request();
    judge_without_ttrt(&request)?;
    let range = between.map_or(Ok(TTRT), range)?;
    in_service(Ok(()), &request.head, planted)?;
    let fits = fits(&request, &range, planted);
    let mut lines = vec![
        format!("tried {} to {}", range.start(), range.end()),
        own_line(&request, planted),
        format!("plans {}", fits.len()),
    ];
    lines.extend(fit_lines(&request, &fits, planted));
    Ok(lines)
}

/// Number 4 of what is no TTRT: with a TTRT in its range only another number gives it. What 5 says of
/// this TTRT does not count.
fn judge_without_ttrt(request: &Request) -> Result<(), Refusal> {
    match at(request, *TTRT.end()).judge() {
        Err(Refusal::WalkSum) => Ok(()),
        judged => judged,
    }
}

/// The set with another TTRT.
fn at(request: &Request, ttrt: u32) -> Request {
    let mut other = request.clone();
    other.head.ttrt = ttrt;
    other
}

/// The range between two whole numbers of any length, or number 4: both must be a TTRT, and the first
/// not above the second.
fn range(between: [&str; 2]) -> Result<RangeInclusive<u32>, Refusal> {
    let [from, to] = between.map(|word| word.parse().ok().filter(|ttrt| TTRT.contains(ttrt)));
    let range = from.ok_or(Refusal::OutOfRange)?..=to.ok_or(Refusal::OutOfRange)?;
    require(!range.is_empty(), Refusal::OutOfRange)?;
    Ok(range)
}

/// Every TTRT of the range at which the set has a plan, by rising TTRT.
fn fits(request: &Request, range: &RangeInclusive<u32>, planted: Planted) -> Vec<Fit> {
    let (from, to) = (*range.start(), *range.end());
    let end = if planted == Planted::EndLeftOut { to } else { to + 1 };
    let mut tried = request.clone();
    let fit = |ttrt: u32| {
        tried.head.ttrt = ttrt;
        match plan(&tried, planted) {
            Ok(plan) => Some(Fit { ttrt, spare: plan.spare() }),
            Err(Refusal::WalkSum) if planted == Planted::WalkSumCounted => {
                Some(Fit { ttrt, spare: 0 })
            }
            Err(_) => None,
        }
    };
    (from..end).filter_map(fit).collect()
}

/// What `plan` says of the request as it is.
fn own_line(request: &Request, planted: Planted) -> String {
    let ttrt = request.head.ttrt;
    match plan(request, planted) {
        Ok(_) => format!("own {ttrt} plan"),
        Err(refusal) => format!("own {ttrt} refused {}", refusal.number()),
    }
}

/// The lines behind the count, none where no TTRT has a plan.
fn fit_lines(request: &Request, fits: &[Fit], planted: Planted) -> Vec<String> {
    let (Some(smallest), Some(largest)) = (fits.first(), fits.last()) else {
        return vec![];
    };
    let own = request.head.ttrt;
    let below = fits.iter().rev().find(|fit| fit.ttrt < own);
    let above = fits.iter().find(|fit| fit.ttrt > own);
    let shown = |fit: Option<&Fit>| fit.map_or("-".to_string(), |fit| fit.ttrt.to_string());
    let Fit { ttrt, spare } = best(fits, planted);
    let (count, walk_sum) = (request.stations.len(), request.walk_sum());
    vec![
        format!("smallest {}", smallest.ttrt),
        format!("largest {}", largest.ttrt),
        format!("below {}", shown(below)),
        format!("above {}", shown(above)),
        format!("best {ttrt}"),
        format!("plan {count} {ttrt} {walk_sum} {spare}"),
    ]
}

/// The one that leaves the largest part of the rotation, A* / TTRT; of equal ones the first.
fn best(fits: &[Fit], planted: Planted) -> Fit {
    let larger = |one: &Fit, other: &Fit| match planted {
        Planted::BestBySpare => one.spare > other.spare,
        _ => one.spare * u64::from(other.ttrt) > other.spare * u64::from(one.ttrt),
    };
    fits.iter().copied().fold(fits[0], |best, fit| if larger(&fit, &best) { fit } else { best })
}
