//! The local rule of source document 002 for FDDI, for the study of how much a ring can carry: each
//! station's S from its own C and P alone.

use crate::rules::Request;

/// S = C / ⌊a·P/TTRT + 1 − 2a⌋ at each station, rounded up to a multiple of the grid, where a is
/// 1 / `parts`. None where the divisor of a station is not above 0.
pub fn local(request: &Request, parts: u32) -> Option<Vec<u32>> {
    let (ttrt, parts) = (i64::from(request.head.ttrt), i64::from(parts));
    let step = u64::from(request.head.grid);
    let each = request.stations.iter().map(|station| {
        let over = i64::from(station.gap) + (parts - 2) * ttrt;
        let visits = u64::try_from(over.div_euclid(parts * ttrt)).ok()?;
        let longest = u64::from(station.longest);
        let s = (visits > 0).then(|| longest.div_ceil(visits).div_ceil(step) * step)?;
        u32::try_from(s).ok()
    });
    each.collect()
}
