//! The checker of other makers' logs: which records a run of the published steps from an opened
//! ring could give. Times are absolute, from the first visit on; what the stations' timers show is
//! derived from when they began.

use std::fmt;
use std::ops::ControlFlow;

use crate::planted::Planted;
use crate::ring::Ticks;
use crate::rules::{require, Ask, Entry, MarkEntry, Mode, Plan, Refusal, VisitEntry};

/// A log's plan was judged when it was read, and nothing more is asked of it; but a planted error
/// refuses that of an FDDI ring.
pub fn judge_to_inspect(plan: &Plan, planted: Planted) -> Result<(), Refusal> {
    let retired = planted == Planted::LogRetired && plan.request.mode() == Mode::Fddi;
    require(!retired, Refusal::Retired)
}

/// The rules of a record, in the order in which they are looked at.
#[derive(Clone, Copy, Debug, PartialEq, Eq, PartialOrd, Ord, Hash)]
pub enum Rule {
    Station,
    Start,
    Limit,
    Synchronous,
    Asynchronous,
}

impl Rule {
    pub const ALL: [Rule; 5] =
        [Rule::Station, Rule::Start, Rule::Limit, Rule::Synchronous, Rule::Asynchronous];
}

impl fmt::Display for Rule {
    fn fmt(&self, f: &mut fmt::Formatter) -> fmt::Result {
        f.write_str(match self {
            Rule::Station => "station",
            Rule::Start => "start",
            Rule::Limit => "limit",
            Rule::Synchronous => "synchronous",
            Rule::Asynchronous => "asynchronous",
        })
    }
}

/// The first record that breaks a rule, counted from 1, the first rule that it breaks, and that in
/// words.
#[derive(Clone, Debug, PartialEq, Eq)]
pub struct Finding {
    pub record: u64,
    pub rule: Rule,
    pub words: String,
}

impl fmt::Display for Finding {
    fn fmt(&self, f: &mut fmt::Formatter) -> fmt::Result {
        write!(f, "record {} {}", self.record, self.rule)
    }
}

/// What is known of a station: when its timer began, what it last sent, and whether it is switched
/// through.
#[derive(Clone, Copy, Debug)]
struct Memory {
    timer_began: Ticks,
    sent: u32,
    marked: bool,
}

/// Follows the records of a log.
pub struct Inspector {
    plan: Plan,
    planted: Planted,
    now: Ticks,
    /// The records of both kinds, the visits among them, and whether the last record was a visit.
    records: u64,
    visits: u64,
    behind_visit: bool,
    /// What the counter showed at time 0, and then.
    first: u32,
    last: u32,
    memories: Vec<Memory>,
    finding: Option<Finding>,
}

impl Inspector {
    /// The ring of a sound plan is opened; the silent rotation began at −τ.
    pub fn new(plan: &Plan, planted: Planted) -> Inspector {
        let mut came = -(plan.request.walk_sum() as Ticks);
        let mut memories = vec![];
        for station in &plan.request.stations {
            memories.push(Memory { timer_began: came, sent: 0, marked: false });
            came += Ticks::from(station.walk);
        }
        Inspector {
            plan: plan.clone(),
            planted,
            now: 0,
            records: 0,
            visits: 0,
            behind_visit: false,
            first: 0,
            last: 0,
            memories,
            finding: None,
        }
    }

    pub fn plan(&self) -> &Plan {
        &self.plan
    }

    pub fn records(&self) -> u64 {
        self.records
    }

    /// The visits among the records that were looked at.
    pub fn visits(&self) -> u64 {
        self.visits
    }

    /// The first broken rule so far.
    pub fn finding(&self) -> Option<&Finding> {
        self.finding.as_ref()
    }

    /// The station that the token is at.
    pub fn station(&self) -> usize {
        let passed = match self.planted {
            Planted::MarkCountedAsVisit => self.records,
            _ => self.visits,
        };
        (passed % self.memories.len() as u64) as usize
    }

    /// What the recorder's counter shows now; at the first record it may show anything.
    pub fn counter(&self) -> u32 {
        (i64::from(self.first) + self.now).rem_euclid(1 << 32) as u32
    }

    fn ttrt(&self) -> Ticks {
        Ticks::from(self.plan.request.head.ttrt)
    }

    fn since(&self, index: usize) -> Ticks {
        self.now - self.memories[index].timer_began
    }

    /// Whether the station that the token is at is switched through.
    pub fn marked(&self) -> bool {
        self.memories[self.station()].marked
    }

    /// The limit of the visit that is next: nothing at a marked station.
    pub fn limit(&self) -> u32 {
        let here = self.station();
        if self.marked() && self.planted != Planted::MarkedLimitByTimers {
            return 0;
        }
        let kept = match self.plan.request.mode() {
            Mode::Timely | Mode::Earlier => {
                self.unused() + self.plan.request.head.overrun() as Ticks
            }
            Mode::Fddi => 0,
        };
        (self.ttrt() - kept - self.since(here)).max(0) as u32
    }

    /// What the timer of the station that the token is at shows.
    pub fn timer(&self) -> Ticks {
        self.since(self.station())
    }

    /// The start of the last visit and what it took, by the counter; none before the first visit.
    pub fn before(&self) -> Option<(u32, u32)> {
        (self.visits > 0).then(|| (self.last, self.counter().wrapping_sub(self.last)))
    }

    /// The most synchronous time of the visit that is next: nothing at a marked station.
    pub fn share(&self) -> u32 {
        let here = self.station();
        match self.planted {
            _ if self.marked() => 0,
            Planted::SynchronousUpToC => self.plan.request.stations[here].longest,
            _ => self.plan.allocation[here],
        }
    }

    /// u, over all stations what of S they last did not send.
    pub fn unused(&self) -> Ticks {
        let sent: Ticks = self.memories.iter().map(|memory| Ticks::from(memory.sent)).sum();
        self.plan.allocated() as Ticks - sent
    }

    /// Takes the next record. Behind the first broken rule none is looked at any more.
    pub fn take(&mut self, entry: &Entry) {
        if self.finding.is_none() {
            match self.judge(entry) {
                ControlFlow::Break((rule, words)) => {
                    self.finding = Some(Finding { record: self.records + 1, rule, words });
                }
                ControlFlow::Continue(()) => self.follow(entry),
            }
        }
        self.records += 1;
    }

    /// The first rule that a record breaks, with what was expected.
    fn judge(&self, entry: &Entry) -> ControlFlow<(Rule, String)> {
        match entry {
            Entry::Visit(visit) => self.judge_visit(visit),
            Entry::Mark(mark) => self.judge_mark(mark),
        }
    }

    /// A mark has one rule, which is named after the station.
    fn judge_mark(&self, entry: &MarkEntry) -> ControlFlow<(Rule, String)> {
        let MarkEntry { station, mark } = *entry;
        let count = self.memories.len();
        unless(usize::from(station) < count && mark <= 1, Rule::Station, || {
            format!("expected a station below {count} and mark 0 or 1, found {station} {mark}")
        })
    }

    fn judge_visit(&self, entry: &VisitEntry) -> ControlFlow<(Rule, String)> {
        let here = self.station();
        let VisitEntry { station, start, limit, synchronous, asynchronous } = *entry;
        unless(usize::from(station) == here, Rule::Station, || {
            format!("expected station {here}, found {station}")
        })?;
        unless(self.starts_at(start), Rule::Start, || {
            let [expected, found] = [self.counter(), start].map(|it| it.wrapping_sub(self.last));
            let before = if self.behind_visit { "record" } else { "visit" };
            format!("expected {expected} ticks after the {before} before, found {found}")
        })?;
        let expected = self.limit();
        let compared = self.planted != Planted::LimitNotCompared;
        unless(limit == expected || !compared, Rule::Limit, || {
            format!("expected limit {expected}, found {limit}")
        })?;
        let most = self.share();
        unless(synchronous <= most, Rule::Synchronous, || {
            format!("expected at most {most}, found {synchronous}")
        })?;
        let frame = self.plan.request.head.frame;
        unless(in_frames(asynchronous, limit, frame), Rule::Asynchronous, || {
            let expected = match frame {
                1 => format!("at most {limit}"),
                _ => format!("whole frames of one length up to {frame}, begun below {limit}"),
            };
            format!("expected {expected}, found {asynchronous}")
        })
    }

    fn starts_at(&self, start: u32) -> bool {
        match (self.visits, self.planted) {
            (0, Planted::FirstStartCompared) => start == 0,
            (0, Planted::FirstStartBoundByMark) if self.records > 0 => start == self.counter(),
            (0, _) => true,
            (_, Planted::WrappedStartRefused) => {
                i64::from(start) == i64::from(self.first) + self.now
            }
            _ => start == self.counter(),
        }
    }

    /// When the timer of the token's station begins anew: in the 2002 edition behind the visit's
    /// asynchronous part. A late token of FDDI takes one TTRT off the timer.
    fn timer_begins(&self, here: usize, entry: &VisitEntry) -> Ticks {
        match self.plan.request.mode() {
            Mode::Fddi if self.since(here) >= self.ttrt() => {
                self.memories[here].timer_began + self.ttrt()
            }
            Mode::Earlier if self.planted != Planted::LogByTheLaterEdition => {
                self.now + Ticks::from(entry.asynchronous)
            }
            _ => self.now,
        }
    }

    /// What an accepted record says happens.
    fn follow(&mut self, entry: &Entry) {
        self.behind_visit = matches!(entry, Entry::Visit(_));
        match entry {
            Entry::Visit(visit) => self.follow_visit(visit),
            Entry::Mark(MarkEntry { station, mark }) => {
                self.memories[usize::from(*station)].marked = *mark == 1;
            }
        }
    }

    fn follow_visit(&mut self, entry: &VisitEntry) {
        let here = self.station();
        if self.visits == 0 {
            self.first = entry.start;
        }
        self.visits += 1;
        self.last = entry.start;
        self.memories[here].timer_began = self.timer_begins(here, entry);
        self.memories[here].sent = entry.synchronous;
        let walk = self.plan.request.stations[here].walk;
        self.now +=
            [entry.synchronous, entry.asynchronous, walk].map(Ticks::from).iter().sum::<Ticks>();
    }
}

/// Goes on if the rule holds, and else breaks off with its words.
fn unless(holds: bool, rule: Rule, words: impl FnOnce() -> String) -> ControlFlow<(Rule, String)> {
    match holds {
        true => ControlFlow::Continue(()),
        false => ControlFlow::Break((rule, words())),
    }
}

/// Whether some number of frames of some one length sends just this under a limit. Every length is
/// tried, and as many frames of it as would make the amount.
pub fn in_frames(amount: u32, limit: u32, frame: u32) -> bool {
    // The last frame begins below the limit, and is no longer than the longest.
    if u64::from(amount) >= u64::from(limit) + u64::from(frame) {
        return false;
    }
    let fits = |length: u32| {
        let ask = Ask { frames: amount / length, length };
        amount % length == 0 && ask.sent(limit.into()) == u64::from(amount)
    };
    (1..=frame).rev().any(fits)
}

/// What is found in a log of a sound plan, and how many records it has.
pub fn inspected(plan: &Plan, entries: &[Entry], planted: Planted) -> (u64, Option<Finding>) {
    let mut inspector = Inspector::new(plan, planted);
    entries.iter().for_each(|entry| inspector.take(entry));
    (inspector.records, inspector.finding)
}
