//! Call scripts that mix accepted and refused calls, made by following the ring.

use super::random::Random;
use super::sets;
use super::sort::Sort;
use crate::planted::Planted;
use crate::ring::{Message, Ring, StationNumber, Ticks};
use crate::rules::{Ask, Head, Plan, Request, Station, LAST_TIME};
use crate::text::Call;

/// The calls of one script.
pub const CALLS: usize = 200;

/// How a script chooses its calls.
#[derive(Clone, Copy, PartialEq, Eq)]
enum Manner {
    /// Visits, good messages and bad ones, in any order.
    Mixed,
    /// The longest messages as early as allowed, and every ask the largest.
    Crowded,
    /// The same, but every message arrives just after the token came, which is the worst time.
    Unlucky,
}

impl Manner {
    fn any(random: &mut Random) -> Manner {
        random.pick(&[Manner::Mixed, Manner::Crowded, Manner::Unlucky])
    }
}

struct Script {
    ring: Ring,
    calls: Vec<Call>,
    manner: Manner,
    /// Whether frames of any length are asked for, or only such of one tick.
    uncut: bool,
    /// Whether stations are marked, and unmarked again.
    marked: bool,
}

impl Script {
    fn new(plan: &Plan, manner: Manner, sort: Sort) -> Script {
        let ring = Ring::opened(plan, Planted::Nothing).expect("the plan is sound");
        Script { ring, calls: vec![], manner, uncut: sort.uncut, marked: sort.marked }
    }

    fn push(&mut self, call: Call) {
        // A refused call leaves the ring as it was, and belongs to the script all the same.
        let _ = call.answer(&mut self.ring);
        self.calls.push(call);
    }

    fn push_any(&mut self, random: &mut Random) {
        let call = match self.manner {
            _ if self.marked && random.once_in(8) => self.switch(random),
            Manner::Mixed => self.mixed_call(random),
            Manner::Crowded => self.crowded_call(random, |index| self.is_due(index)),
            Manner::Unlucky => {
                self.crowded_call(random, |index| self.is_due(index) && self.just_missed(index))
            }
        };
        self.push(call);
    }

    fn mixed_call(&self, random: &mut Random) -> Call {
        let due = self.free_station(random, |index| self.is_due(index));
        let free = due.or_else(|| self.free_station(random, |_| true));
        match (random.between(0, 9), free) {
            (0..=2, _) => Call::Visit(self.ask(random)),
            (3..=6, Some(index)) => Call::HandIn(self.good_message(random, index)),
            (7.., _) => Call::HandIn(self.bad_message(random, free.unwrap_or(0))),
            _ => Call::Visit(self.ask(random)),
        }
    }

    /// A marking or an unmarking: most often one that changes something, at times one that changes
    /// nothing, or of a station that there is not.
    fn switch(&self, random: &mut Random) -> Call {
        let size = self.ring.size();
        let any = random.index(size);
        let from = |index: usize| (index..index + size).map(|index| index % size);
        let marked = from(any).find(|&index| self.ring.marked(index)).unwrap_or(any);
        let holder = from(any).find(|&index| self.ring.held(index).is_some()).unwrap_or(any);
        let none = random.pick(&[size as u32, size as u32 + 1, 128, u32::MAX]);
        let number = |index: usize| StationNumber(index as u32);
        match random.between(0, 11) {
            0 => random.pick(&[Call::Mark(StationNumber(none)), Call::Unmark(StationNumber(none))]),
            1..=3 => Call::Mark(number(holder)),
            4 => Call::Mark(number(self.ring.token())),
            5 => Call::Mark(number(any)),
            6 => Call::Mark(number(marked)),
            7 => Call::Unmark(number(any)),
            _ => Call::Unmark(number(marked)),
        }
    }

    fn crowded_call(&self, random: &mut Random, ready: impl Fn(usize) -> bool) -> Call {
        match (random.between(0, 9), self.free_station(random, ready)) {
            (0..=7, Some(index)) => Call::HandIn(self.next_message(index)),
            (0..=8, _) => Call::Visit(self.largest_ask(random)),
            _ => self.mixed_call(random),
        }
    }

    fn ask(&self, random: &mut Random) -> Ask {
        let ticks = self.ticks(random);
        if !self.uncut {
            return ticks.into();
        }
        let frame = self.ring.plan().request.head.frame;
        let length = match random.between(0, 9) {
            0 => random.pick(&[0, frame + 1, u32::MAX]),
            1 => 1,
            2 | 3 => frame,
            _ => random.between32(1, frame),
        };
        let frames = if random.once_in(2) { ticks } else { ticks.div_ceil(length.max(1)) };
        Ask { frames, length }
    }

    /// As many frames as there are, most often of the longest.
    fn largest_ask(&self, random: &mut Random) -> Ask {
        let frame = self.ring.plan().request.head.frame;
        let length = match self.uncut {
            true if random.once_in(3) => random.between32(1, frame),
            true => frame,
            false => 1,
        };
        Ask { frames: u32::MAX, length }
    }

    fn ticks(&self, random: &mut Random) -> u32 {
        let left = self.ring.plan().left_over() as u32;
        match random.between(0, 5) {
            0 => 0,
            1 => u32::MAX,
            2 => 1,
            3 => random.between32(0, u32::MAX),
            _ => random.between32(0, left + 1),
        }
    }

    fn message(&self, index: usize, length: u64, arrival: u64) -> Message {
        Message { station: StationNumber(index as u32), length, arrival }
    }

    fn longest(&self, index: usize) -> u64 {
        u64::from(self.ring.plan().request.stations[index].longest)
    }

    /// A station that has a stream, is not marked, holds no message, and is ready for one.
    fn free_station(&self, random: &mut Random, ready: impl Fn(usize) -> bool) -> Option<usize> {
        let size = self.ring.size();
        let from = random.index(size);
        let free = |index| self.longest(index) > 0 && !self.is_busy(index);
        (from..from + size).map(|index| index % size).find(|&index| free(index) && ready(index))
    }

    /// Whether the clock has reached the earliest arrival that a station's next message may have.
    fn is_due(&self, index: usize) -> bool {
        self.ring.earliest_arrival(index) <= self.ring.clock()
    }

    /// Whether a station's next message may arrive just after its last visit's start.
    fn just_missed(&self, index: usize) -> bool {
        self.ring
            .last_start(index)
            .is_some_and(|start| self.ring.earliest_arrival(index) == start + 1)
    }

    /// The longest message at the earliest time.
    fn next_message(&self, index: usize) -> Message {
        self.message(index, self.longest(index), self.ring.earliest_arrival(index) as u64)
    }

    /// A message that a free station accepts if it may have one already, unless the times have run
    /// out. Else the clock has not reached its arrival.
    fn good_message(&self, random: &mut Random, index: usize) -> Message {
        let longest = self.longest(index);
        let length = if random.once_in(2) { longest } else { random.between(1, longest) };
        let earliest = self.ring.earliest_arrival(index).max(0) as u64;
        let clock = self.ring.clock() as u64;
        let arrival = match random.between(0, 5) {
            0 => clock.max(earliest),
            1 | 2 => random.between(earliest, clock),
            3 => (earliest + 1).min(clock.max(earliest)),
            _ => earliest,
        };
        self.message(index, length, arrival)
    }

    /// An arrival that the clock has not reached: by a tick, by up to three rotations, or what the
    /// station may have next; at times one that is not allowed either.
    fn arrival_ahead(&self, random: &mut Random, index: usize) -> u64 {
        let clock = self.ring.clock() as u64;
        let earliest = self.ring.earliest_arrival(index).max(0) as u64;
        let ttrt = u64::from(self.ring.plan().request.head.ttrt);
        let far = clock + random.between(1, 3 * ttrt);
        random.pick(&[clock + 1, far, earliest.max(clock + 1), earliest.saturating_sub(1)])
    }

    /// A message with one or two faults.
    fn bad_message(&self, random: &mut Random, index: usize) -> Message {
        let mut message = self.good_message(random, index);
        for _ in 0..random.between(1, 2) {
            self.spoil(random, &mut message);
        }
        message
    }

    fn spoil(&self, random: &mut Random, message: &mut Message) {
        let count = self.ring.size() as u32;
        let inside = message.station.0 < count;
        match random.between(0, 7) {
            6 | 7 if inside => {
                message.arrival = self.arrival_ahead(random, message.station.index());
            }
            0 => message.station = StationNumber(random.pick(&[count, count + 1, 128, u32::MAX])),
            1 if inside => {
                let longest = self.longest(message.station.index());
                message.length = random.pick(&[0, longest + 1, u64::MAX]);
            }
            2 => message.arrival = random.pick(&[LAST_TIME, LAST_TIME + 1, u64::MAX]),
            3 if inside => {
                let start = self.ring.last_start(message.station.index());
                message.arrival = start.unwrap_or(0) as u64;
            }
            4 if inside => {
                message.station = self.busy().unwrap_or(message.station);
                message.arrival = random.pick(&[message.arrival, self.ring.clock() as u64]);
            }
            _ if inside => {
                let earliest = self.ring.earliest_arrival(message.station.index());
                message.arrival = (earliest - 1).max(0) as u64;
            }
            _ => (),
        }
    }

    /// Whether a station holds a message or is marked.
    fn is_busy(&self, index: usize) -> bool {
        self.ring.held(index).is_some() || self.ring.marked(index)
    }

    /// The first station that is.
    fn busy(&self) -> Option<StationNumber> {
        let busy = (0..self.ring.size()).find(|&index| self.is_busy(index));
        busy.map(|index| StationNumber(index as u32))
    }
}

/// A plan and a script for its ring.
pub fn script(random: &mut Random, sort: Sort) -> (Plan, Vec<Call>) {
    let plan = sets::plan_to_run(random, sort);
    let mut script = Script::new(&plan, Manner::any(random), sort);
    while script.calls.len() < CALLS {
        script.push_any(random);
    }
    (plan, script.calls)
}

/// A ring of long rotations, whose clock comes near to the last time in few visits.
fn slow_plan(random: &mut Random, sort: Sort) -> Plan {
    let count = random.index(3) + 1;
    let ttrt = 1_000_000;
    let walk_sum = random.between32(999_900, ttrt - 4 * count as u32);
    let walks = random.split(walk_sum, count);
    // Behind F − 1 there is room for a few ticks at each visit.
    let room = ttrt - walk_sum;
    let overrun = if sort.uncut { random.between32(0, room - 4 * count as u32) } else { 0 };
    let share = (room - overrun) / (2 * count as u32);
    // In FDDI nothing is sure within the first rotation.
    let sure_from = if sort.is_fddi() { ttrt } else { 0 };
    let station = |&walk: &u32| {
        let deadline = sure_from + random.pick(&[ttrt, 2 * ttrt, 2 * ttrt + 5]);
        let longest = random.between32(1, share);
        Station { walk, longest, deadline, gap: deadline }
    };
    let stations = walks.iter().map(station).collect();
    // A step of at most the share leaves room for each S, rounded up to it.
    let grid = if sort.grid { random.between32(2, share) } else { 1 };
    let head = Head { frame: overrun + 1, grid, ..Head::new(ttrt, sort.mode) };
    sets::smallest_plan(&Request { head, stations })
}

/// The two counts of visits that bring the clock to `target`: those that ask for one tick,
/// then those that ask for none. In every rotation the ring walks τ ticks.
fn visits_to(plan: &Plan, target: u64) -> (u64, u64) {
    let walk_sum = plan.request.walk_sum();
    let visits = target / walk_sum * plan.allocation.len() as u64;
    let asking = target % walk_sum;
    (asking, visits - asking)
}

/// A script whose clock comes to the last time or next to it: the plan, the visits that ask
/// for one tick, those that ask for none, and the calls after them.
pub fn late_script(random: &mut Random, sort: Sort) -> (Plan, [u64; 2], Vec<Call>) {
    let plan = slow_plan(random, sort);
    let target = LAST_TIME - 5_000_000 + random.pick(&[0, 4_999_999, 5_000_000, 5_000_001]);
    let (asking, silent) = visits_to(&plan, target);
    let mut script = Script::new(&plan, Manner::any(random), sort);
    for (count, ask) in [(asking, 1), (silent, 0)] {
        // Only visits without a walk can be refused, at the very end.
        let _ = (0..count).try_for_each(|_| script.ring.visit(ask).map(|_| ()));
    }
    assert_eq!(script.ring.clock(), target as Ticks, "the visits bring the clock to the target");
    while script.calls.len() < CALLS / 4 {
        script.push_any(random);
    }
    (plan, [asking, silent], script.calls)
}
