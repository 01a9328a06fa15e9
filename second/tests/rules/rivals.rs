//! What a set would have in FDDI: its least vector, and the local rule of source document 002.

use crate::{fddi, station};
use second::frames::answer;
use second::local::local;
use second::planted::Planted;
use second::rules::Request;

fn shares(deadline: u32, grid: u32, parts: u32) -> Option<Vec<u32>> {
    let mut request = Request { head: fddi(100), stations: vec![] };
    request.head.grid = grid;
    request.stations = vec![station(2, 41, deadline, deadline), station(0, 0, deadline, deadline)];
    local(&request, parts)
}

/// With a = 1 the divisor is P / TTRT − 1, with a = 1/3 it is (P / TTRT + 1) / 3, both rounded down.
#[test]
fn the_local_rule() {
    for (parts, deadline, share) in [
        (1, 400, Some(14)),
        (1, 399, Some(21)),
        (1, 300, Some(21)),
        (1, 299, Some(41)),
        (1, 200, Some(41)),
        (1, 199, None),
        (1, 1, None),
        (3, 500, Some(21)),
        (3, 499, Some(41)),
        (3, 200, Some(41)),
        (3, 199, None),
    ] {
        assert_eq!(shares(deadline, 1, parts), share.map(|s| vec![s, 0]), "{parts} {deadline}");
    }
    assert_eq!(shares(300, 8, 1), Some(vec![24, 0]));
}

#[test]
fn as_cases() {
    for (case, said) in [
        ("100;2,40,300,300;0,10,300,300", "0 20,5|20,5|40,10"),
        // 45 + 15 and a walk time of 2 are more than 60.
        ("60;2,45,180,180;0,15,180,180", "0 23,8|23,8|-"),
        ("60;2,45,59,59", "0 -|-|-"),
        ("60;0,45,180,180", "5"),
        ("60;2,45,0,180", "4"),
        ("60;2,45,180", "no case"),
    ] {
        assert_eq!(answer(&format!("rivals {case}"), Planted::Nothing), said, "{case}");
    }
}
