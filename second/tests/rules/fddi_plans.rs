//! FDDI's deadline rule and its least vectors, which the making of cases goes by: worked out by hand,
//! and against every vector.

use crate::{fddi, station, timely};
use second::gen::random::Random;
use second::planner;
use second::rules::{fddi_least_time, Head, Plan, Refusal, Request};

/// S of each station, or the number.
fn planned(request: &Request) -> Result<Vec<u32>, u8> {
    let plan = planner::least_plan(request);
    plan.map(|plan| plan.allocation).map_err(Refusal::number)
}

fn judged(request: &Request, allocation: &[u32]) -> u8 {
    let plan = Plan { request: request.clone(), allocation: allocation.to_vec() };
    plan.judge().map_or_else(Refusal::number, |()| 0)
}

/// Stations of one D and C; station 0 walks the 2 ticks.
fn alike(count: usize, deadline: u32, longest: u32) -> Request {
    let mut stations = vec![station(0, longest, deadline, deadline); count];
    stations[0].walk = 2;
    Request { head: fddi(100), stations }
}

#[test]
fn the_least_time() {
    // D 250: q is 2 and r is 50. The second S has what 50 leaves behind τ and the others.
    let x = |s, before| fddi_least_time(100, 250, s, before);
    assert_eq!([x(15, 2), x(48, 2), x(49, 2), x(0, 2)], [30, 96, 97, 0]);
    assert_eq!([x(20, 30), x(20, 31), x(20, 49), x(20, 50), x(20, 51)], [40, 39, 21, 20, 20]);
    // D below TTRT: nothing is sure. D of 1 to 2 TTRT: a part of one S. D of 3 TTRT: two whole S.
    assert_eq!(fddi_least_time(100, 99, 98, 0), 0);
    assert_eq!([100, 101, 150, 199].map(|d| fddi_least_time(100, d, 98, 2)), [0, 0, 48, 97]);
    assert_eq!([300, 303].map(|d| fddi_least_time(100, d, 10, 2)), [20, 21]);
}

#[test]
fn a_lone_station() {
    let rows = [
        (250, 30, Ok(15)),
        (250, 96, Ok(48)),
        (250, 97, Ok(49)),
        (250, 120, Ok(72)),
        (250, 146, Ok(98)),
        (250, 147, Err(6)),
        (199, 20, Ok(20)),
        (199, 97, Ok(97)),
        (199, 98, Err(6)),
        (200, 98, Ok(98)),
        (100, 1, Err(6)),
        (100, 0, Ok(0)),
        (99, 0, Ok(0)),
        (99, 1, Err(6)),
        (300, 11, Ok(6)),
        (305, 12, Ok(5)),
        (100_000_000, 100_000_000, Err(6)),
    ];
    for (deadline, longest, s) in rows {
        let expected = s.map(|s| vec![s]);
        assert_eq!(planned(&alike(1, deadline, longest)), expected, "D {deadline}, C {longest}");
    }
}

/// Two stations of D 250. Up to C 48 half of it is enough, as the rest of 48 has room for both. From
/// 49 on each pushes the other out of the rest, until each S is all of C.
#[test]
fn two_stations_that_push_each_other() {
    let rows = [(40, Ok(20)), (48, Ok(24)), (49, Ok(49)), (50, Err(6))];
    for (longest, s) in rows {
        assert_eq!(planned(&alike(2, 250, longest)), s.map(|s| vec![s; 2]), "C {longest}");
    }
}

/// The example of source document 003 that a climb in fractions never ends on, but for τ: five
/// stations, T 30, q 6, r 24, C 30, in tenths of a tick.
#[test]
fn the_example_of_the_source() {
    let mut stations = vec![station(0, 300, 2_040, 2_040); 5];
    stations[0].walk = 1;
    let request = Request { head: fddi(300), stations };
    // In the rest 5·S + 239 − 4·S is below 300 up to S = 59. At 60 the rest is full, and 5·S is C; but
    // five times 60 is all of TTRT.
    assert_eq!(planned(&request), Err(6));
    let mut shorter = request.clone();
    // With C 290 it is S = 51: 5·51 and the 35 that 239 leaves behind the others.
    shorter.stations.iter_mut().for_each(|station| station.longest = 290);
    assert_eq!(planned(&shorter), Ok(vec![51; 5]));
}

#[test]
fn given_vectors() {
    let pair = alike(2, 250, 48);
    assert_eq!(judged(&pair, &[24, 24]), 0);
    assert_eq!(judged(&pair, &[23, 24]), 7);
    // What one station has more is missing at the other.
    assert_eq!(judged(&pair, &[25, 24]), 7);
    assert_eq!(judged(&pair, &[48, 48]), 0);
    let pair = alike(2, 250, 49);
    assert_eq!([judged(&pair, &[49, 49]), judged(&pair, &[50, 49])], [0, 7]);
    assert_eq!([judged(&pair, &[50, 48]), judged(&pair, &[24, 24])], [7, 7]);
    // The same in timely-token: there each S counts for itself.
    let mut pair = alike(2, 250, 48);
    pair.head = timely(100);
    assert_eq!([judged(&pair, &[24, 24]), judged(&pair, &[25, 24])], [0, 0]);
}

#[test]
fn numbers_before_and_behind_the_mode() {
    let moded = |mode, ttrt| {
        let mut request = alike(2, 250, 48);
        request.head = Head { ttrt, mode, frame: 1, grid: 1 };
        planned(&request)
    };
    assert_eq!(moded(2, 100), Ok(vec![24; 2]));
    for mode in [0, 4, 255, 256, 258, u32::MAX] {
        assert_eq!([moded(mode, 100), moded(mode, 1)], [Err(4), Err(4)], "mode {mode}");
    }
    assert_eq!(moded(2, 1), Err(5));
    let none = Request { head: Head { ttrt: 100, mode: 4, frame: 1, grid: 1 }, stations: vec![] };
    assert_eq!(planned(&none), Err(2));
}

/// A small set; the deadlines are of none to five rotations.
fn small(random: &mut Random) -> Request {
    let ttrt = random.between32(1, 9);
    let count = random.index(3) + 1;
    let walk_sum = random.between32(1, ttrt);
    let walks = random.split(walk_sum, count);
    let station = |&walk: &u32| {
        let deadline = random.between32(1, 6 * ttrt);
        let most = random.pick(&[1, 3, 5, 40]);
        station(walk, random.between32(0, most), deadline, deadline)
    };
    let stations = walks.iter().map(station).collect();
    Request { head: Head { frame: random.pick(&[1, 1, 2, 3]), ..fddi(ttrt) }, stations }
}

/// Every vector of a sum within the token rule.
fn vectors(count: usize, most: u32) -> Vec<Vec<u32>> {
    if count == 0 {
        return vec![vec![]];
    }
    let longer =
        |s: u32| vectors(count - 1, most - s).into_iter().map(move |v| [vec![s], v].concat());
    (0..=most).flat_map(longer).collect()
}

#[test]
fn the_least_of_all_vectors_or_none() {
    let mut counts = [0; 3];
    for place in 0..20_000 {
        let request = small(&mut Random::of_case(31, place));
        let most = request.head.ttrt - request.walk_sum() as u32;
        let all = vectors(request.stations.len(), most);
        let good: Vec<_> = all.iter().filter(|vector| judged(&request, vector) == 0).collect();
        match planned(&request) {
            Ok(least) => {
                assert!(good.contains(&&least), "{request:?}: {least:?}");
                let below = |vector: &[u32]| least.iter().zip(vector).all(|(a, b)| a <= b);
                assert!(good.iter().all(|vector| below(vector)), "{request:?}: {least:?}");
                counts[usize::from(least.iter().any(|&s| s > 0))] += 1;
            }
            Err(number) => {
                assert_eq!((number, good.len()), (6, 0), "{request:?}");
                counts[2] += 1;
            }
        }
    }
    assert!(counts.iter().all(|&count| count > 1_000), "{counts:?}");
}

/// Sets on which the S rise tick by tick: 128 stations, each of so many rotations that all together
/// gain next to nothing on what they push each other.
#[test]
fn a_long_climb_ends() {
    for (rotations, longest) in [(128, 1_000_000), (129, 900_000), (128, 870_001)] {
        let deadline = rotations * 700_000 + 699_999;
        let mut stations = vec![station(0, longest, deadline, deadline); 128];
        stations[0].walk = 1;
        let request = Request { head: fddi(700_000), stations };
        let answer = planned(&request);
        assert!(answer.is_ok() || answer == Err(6), "{answer:?}");
    }
}
