//! How long stations wait for asynchronous time, measured on random runs: the longest waits
//! seen, beside what request No. 3 promises and the stronger promise that is proved.

use std::collections::BTreeMap;
use std::fmt;

use crate::check::WatchedRing;
use crate::gen::random::Random;
use crate::gen::{calls, Sort};
use crate::planted::Planted;
use crate::ring::{Ring, Ticks, Visit};
use crate::text::{Answer, Call};

/// The longest waits among the rings of one size. A wait ends with the visit that offers its
/// station a limit above 0; it is counted in visits up to that one, and in ticks from the first
/// start to the last.
#[derive(Clone, Copy, Debug, Default, PartialEq, Eq)]
pub struct Longest {
    pub runs: u64,
    pub visits: u64,
    /// The ticks of a wait, and TTRT of its ring, where the first are most TTRTs.
    pub ticks: Ticks,
    pub ttrt: Ticks,
}

impl Longest {
    fn waited(&mut self, visits: u64, ticks: Ticks, ttrt: Ticks) {
        self.visits = self.visits.max(visits);
        if self.ttrt == 0 || ticks * self.ttrt > self.ticks * ttrt {
            (self.ticks, self.ttrt) = (ticks, ttrt);
        }
    }
}

/// The wait of one station.
#[derive(Clone, Copy)]
struct Wait {
    visits: u64,
    from: Ticks,
}

/// Follows the waits of every station through a run.
fn follow(ring: Ring, calls: &[Call], longest: &mut Longest) {
    let ttrt = Ticks::from(ring.plan().request.head.ttrt);
    let mut waits = vec![Wait { visits: 0, from: 0 }; ring.size()];
    let mut ring = WatchedRing::new(ring, Planted::Nothing);
    for call in calls {
        let Ok(Answer::Visited(visit)) = ring.answer(call) else { continue };
        for (index, wait) in waits.iter_mut().enumerate() {
            wait.visits += 1;
            longest.waited(wait.visits, visit.start - wait.from, ttrt);
            if offered(&visit, index) {
                *wait = Wait { visits: 0, from: ring.ring().clock() };
            }
        }
    }
}

fn offered(visit: &Visit, index: usize) -> bool {
    visit.station.index() == index && visit.limit > 0
}

/// The longest waits of the random runs of a seed, by the number of stations. Rings with A* 0,
/// which offer nothing, are passed over.
pub fn longest(seed: u64, runs: u64) -> BTreeMap<usize, Longest> {
    let mut sizes = BTreeMap::<usize, Longest>::new();
    for place in 0..runs {
        let (plan, calls) = calls::script(&mut Random::of_case(seed, place), Sort::TIMELY);
        if plan.spare() > 0 {
            let ring = Ring::open(&plan, Planted::Nothing).expect("the plan is sound");
            let longest = sizes.entry(ring.size()).or_default();
            longest.runs += 1;
            follow(ring, &calls, longest);
        }
    }
    sizes
}

/// What is seen at one size, and what is promised.
pub struct Line(pub usize, pub Longest);

impl fmt::Display for Line {
    fn fmt(&self, to: &mut fmt::Formatter) -> fmt::Result {
        let Line(size, Longest { runs, visits, ticks, ttrt }) = self;
        let (most, asked) = (size * (size + 1), (size + 1) * (size + 1));
        let most_ticks = (size + 1) as Ticks * ttrt;
        write!(to, "N {size}, runs {runs}: ")?;
        write!(to, "{visits} of {most} visits (No. 3: {asked}), {ticks} of {most_ticks} ticks")
    }
}
