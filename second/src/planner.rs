//! The smallest allocation, found by search on the deadline rule, among the multiples of the grid.

use crate::planted::Planted;
use crate::raising::raised;
use crate::rules::{in_service, least_time, require, rotations};
use crate::rules::{Head, Mode, Plan, Refusal, Request, Station};

/// The plan with the smallest S at each station, or number 2, 4, 5, 16 or 6.
pub fn plan(request: &Request, planted: Planted) -> Result<Plan, Refusal> {
    in_service(request.judge(), &request.head, planted)?;
    least(request, planted)
}

/// The least plan of a set of any mode, of FDDI too, or number 2, 4, 5 or 6. No command gives it of
/// FDDI, and no case asks for it: cases are made by it.
pub fn least_plan(request: &Request) -> Result<Plan, Refusal> {
    request.judge()?;
    least(request, Planted::Nothing)
}

fn least(request: &Request, planted: Planted) -> Result<Plan, Refusal> {
    let allocation = match request.mode() {
        Mode::Timely | Mode::Earlier => each_smallest(request, planted),
        Mode::Fddi => raised(request)?,
    };
    let plan = Plan { request: request.clone(), allocation };
    require(plan.token_in_time() || passed(&plan, planted), Refusal::NoAllocation)?;
    Ok(plan)
}

/// Whether a planted error takes a plan that breaks the token rule.
fn passed(plan: &Plan, planted: Planted) -> bool {
    let reserved = plan.allocated() + plan.request.walk_sum();
    planted == Planted::OverrunLeftOut && reserved <= u64::from(plan.request.head.ttrt)
}

/// A timely-token station's rule looks at its own S alone.
pub fn each_smallest(request: &Request, planted: Planted) -> Vec<u32> {
    let smallest = |station: &Station| smallest(&request.head, station, planted);
    request.stations.iter().map(smallest).collect()
}

/// The smallest S that meets the deadline rule of a station in range.
pub fn smallest(head: &Head, station: &Station, planted: Planted) -> u32 {
    let step = u64::from(head.grid);
    let found = misjudged(head.ttrt, station, planted).unwrap_or_else(|| match planted {
        Planted::DownToTheGrid => searched(head.ttrt, 1, station) / step * step,
        _ => searched(head.ttrt, step, station),
    });
    u32::try_from(found).expect("S is at most C + TTRT + g")
}

/// X never falls as S grows, and S = C + α always meets the rule: halve among the multiples of the
/// step up to the first that is not below that.
fn searched(ttrt: u32, step: u64, station: &Station) -> u64 {
    let needed = u64::from(station.longest);
    let (_, missing) = rotations(ttrt, station.deadline);
    let (mut low, mut high) = (0, (needed + missing).div_ceil(step));
    while low < high {
        let middle = (low + high) / 2;
        if least_time(ttrt, station.deadline, middle * step) >= needed {
            high = middle;
        } else {
            low = middle + 1;
        }
    }
    low * step
}

/// The wrong S of a planted error, where it applies.
fn misjudged(ttrt: u32, station: &Station, planted: Planted) -> Option<u64> {
    let needed = u64::from(station.longest);
    let (whole, missing) = rotations(ttrt, station.deadline);
    match planted {
        Planted::TimeForNobody if needed == 0 && whole == 0 => Some(missing),
        Planted::RoundedDown if needed <= whole * missing => needed.checked_div(whole),
        _ => None,
    }
}
