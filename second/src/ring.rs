//! The ring on one absolute time line. Its clock 0 is the end of the silent first rotation,
//! which began at −τ; the ring remembers when the token last came to each station, and derives
//! every TRT and u from what it remembers. Of an FDDI station it remembers one moment too: the
//! timer runs from there, and its late count is how many whole TTRTs it has run. In the 2002
//! edition TRT runs from the end of the visit's asynchronous part, which comes first. A station that
//! is switched through holds nothing, and its visits are those of an idle one that is offered nothing.

use crate::planted::Planted;
use crate::rules::{in_service, require, Ask, Mode, Plan, Refusal, Station, LAST_TIME};

/// A time, or a length of time.
pub type Ticks = i64;

/// A station's number in the ring, from 0.
#[derive(Clone, Copy, Debug, PartialEq, Eq)]
pub struct StationNumber(pub u32);

impl StationNumber {
    pub fn index(self) -> usize {
        self.0 as usize
    }

    fn of(index: usize) -> StationNumber {
        StationNumber(index as u32)
    }
}

/// A message to hand in.
#[derive(Clone, Copy, Debug, PartialEq, Eq)]
pub struct Message {
    pub station: StationNumber,
    pub length: u64,
    pub arrival: u64,
}

/// When a message was completed, and the deadline less that.
#[derive(Clone, Copy, Debug, PartialEq, Eq)]
pub struct Completed {
    pub finish: Ticks,
    pub margin: Ticks,
}

/// The record of one visit.
#[derive(Clone, Copy, Debug, PartialEq, Eq)]
pub struct Visit {
    pub station: StationNumber,
    pub start: Ticks,
    pub trt: Ticks,
    pub limit: Ticks,
    pub synchronous: Ticks,
    pub asynchronous: Ticks,
    pub completed: Option<Completed>,
}

/// A message that a station holds.
#[derive(Clone, Copy, Debug, PartialEq, Eq)]
pub struct Held {
    pub remaining: Ticks,
    pub arrival: Ticks,
}

/// What the ring remembers of a station.
#[derive(Clone, Debug, PartialEq, Eq)]
struct Memory {
    /// When the station's synchronous part last began.
    served: Ticks,
    /// When TRT was last 0: when the synchronous part began, but for a planted error. In FDDI a
    /// token that comes in time sets it to the present, and one that comes late moves it on by
    /// TTRT.
    timer_began: Ticks,
    /// The synchronous time used then.
    sent: Ticks,
    held: Option<Held>,
    last_accepted: Option<Ticks>,
    /// Whether the station is switched through.
    marked: bool,
}

#[derive(Clone, Debug, PartialEq, Eq)]
pub struct Ring {
    plan: Plan,
    clock: Ticks,
    visits: u64,
    memories: Vec<Memory>,
    planted: Planted,
}

/// The wrong number of a planted error, where it applies.
fn misnamed(plan: &Plan, refusal: Refusal, planted: Planted) -> Refusal {
    let off_grid = refusal == Refusal::RuleBroken && !plan.on_grid();
    if planted == Planted::OffGridOutOfRange && off_grid {
        return Refusal::OutOfRange;
    }
    refusal
}

impl Ring {
    /// The ring at the end of the silent rotation, or number 2, 4, 5, 16 or 7.
    pub fn open(plan: &Plan, planted: Planted) -> Result<Ring, Refusal> {
        let judged = match planted {
            Planted::RetiredAfterRules => plan.judge(),
            _ => plan.judge_numbers(),
        };
        in_service(judged, &plan.request.head, planted)?;
        Ring::opened(plan, planted)
    }

    /// The ring that an opening gives, and of an FDDI plan gave until these were retired; or number
    /// 2, 4, 5 or 7.
    pub fn opened(plan: &Plan, planted: Planted) -> Result<Ring, Refusal> {
        plan.judge().map_err(|refusal| misnamed(plan, refusal, planted))?;
        Ok(Ring {
            plan: plan.clone(),
            clock: 0,
            visits: 0,
            memories: silent_rotation(&plan.request.stations),
            planted,
        })
    }

    pub fn plan(&self) -> &Plan {
        &self.plan
    }

    pub fn clock(&self) -> Ticks {
        self.clock
    }

    pub fn visits(&self) -> u64 {
        self.visits
    }

    /// The number of stations.
    pub fn size(&self) -> usize {
        self.memories.len()
    }

    /// The station that has the token.
    pub fn token(&self) -> usize {
        (self.visits % self.size() as u64) as usize
    }

    pub fn mode(&self) -> Mode {
        self.plan.request.mode()
    }

    fn ttrt(&self) -> Ticks {
        Ticks::from(self.plan.request.head.ttrt)
    }

    fn since(&self, index: usize) -> Ticks {
        self.clock - self.memories[index].timer_began
    }

    /// The time since a station's last token arrival; in FDDI the station's timer.
    pub fn trt(&self, index: usize) -> Ticks {
        match self.mode() {
            Mode::Timely | Mode::Earlier => self.since(index),
            Mode::Fddi => self.since(index) % self.ttrt(),
        }
    }

    /// An FDDI station's late count.
    pub fn late(&self, index: usize) -> Ticks {
        match self.mode() {
            Mode::Timely | Mode::Earlier => 0,
            Mode::Fddi => self.since(index) / self.ttrt(),
        }
    }

    /// The synchronous time that a station used when the token last came.
    pub fn sent(&self, index: usize) -> Ticks {
        self.memories[index].sent
    }

    pub fn held(&self, index: usize) -> Option<Held> {
        self.memories[index].held
    }

    pub fn last_accepted(&self, index: usize) -> Option<Ticks> {
        self.memories[index].last_accepted
    }

    /// Whether a station is switched through.
    pub fn marked(&self, index: usize) -> bool {
        self.memories[index].marked
    }

    /// When a station's synchronous part last began; the silent rotation has none.
    pub fn last_start(&self, index: usize) -> Option<Ticks> {
        self.visited(index).then_some(self.memories[index].served)
    }

    fn visited(&self, index: usize) -> bool {
        self.visits > index as u64
    }

    pub fn allocation(&self, index: usize) -> Ticks {
        Ticks::from(self.plan.allocation[index])
    }

    /// u, the allocated time that the stations left unused when the token last came. FDDI has no u:
    /// there it stays as the opening has it.
    pub fn unused(&self) -> Ticks {
        match self.mode() {
            Mode::Timely | Mode::Earlier => {
                (0..self.size()).map(|index| self.unused_at(index)).sum()
            }
            Mode::Fddi => self.plan.allocated() as Ticks,
        }
    }

    fn unused_at(&self, index: usize) -> Ticks {
        let forgotten = match self.planted {
            Planted::UnusedFromZero => !self.visited(index),
            Planted::UnusedCleared => index >= self.token() && self.visited(self.size() - 1),
            _ => false,
        };
        if forgotten {
            return 0;
        }
        self.allocation(index) - self.sent(index)
    }

    /// One visit at the station that has the token, or number 10 or 13.
    pub fn visit(&mut self, ask: impl Into<Ask>) -> Result<Visit, Refusal> {
        let ask = ask.into();
        ask.judge(&self.plan.request.head)?;
        require(self.clock <= LAST_TIME as Ticks, Refusal::ClockPast)?;
        let here = self.token();
        let start = self.clock;
        let trt = self.trt(here);
        let limit = self.limit(here);
        let asynchronous = match self.passed_over(here) {
            true => 0,
            false => self.sent_in_frames(ask, self.unmarked_limit(here)),
        };
        let served = match self.mode() {
            Mode::Timely | Mode::Fddi => start,
            Mode::Earlier => start + asynchronous,
        };
        let (synchronous, completed) = self.serve(here, served);
        self.memories[here].served = served;
        self.memories[here].timer_began = match self.mode() {
            Mode::Timely | Mode::Earlier => self.trt_began(served, synchronous + asynchronous),
            Mode::Fddi => self.fddi_timer_began(here),
        };
        self.memories[here].sent = self.counted_as_sent(here, synchronous);
        let walk = Ticks::from(self.plan.request.stations[here].walk);
        self.clock = start + synchronous + asynchronous + walk;
        self.visits += 1;
        let station = StationNumber::of(here);
        Ok(Visit { station, start, trt, limit, synchronous, asynchronous, completed })
    }

    /// Whether the token walks through a station that sends nothing of either kind.
    fn passed_over(&self, here: usize) -> bool {
        self.marked(here) && self.planted != Planted::MarkAfterSending
    }

    /// What a station is offered: nothing where it is marked.
    fn limit(&self, here: usize) -> Ticks {
        if self.marked(here) && self.planted != Planted::MarkedLimitByTimers {
            return 0;
        }
        self.unmarked_limit(here)
    }

    fn counted_as_sent(&self, here: usize, synchronous: Ticks) -> Ticks {
        match self.planted {
            Planted::MarkedUnusedNotRaised if self.marked(here) => self.allocation(here),
            _ => synchronous,
        }
    }

    /// The time before which an unmarked station may begin to send beside its synchronous part.
    fn unmarked_limit(&self, here: usize) -> Ticks {
        let kept = match (self.mode(), self.planted) {
            (Mode::Fddi, _) => 0,
            (_, Planted::LimitWithoutUnused) => self.overrun(),
            (_, Planted::WholeFrameKept) => self.unused() + self.overrun() + 1,
            _ => self.unused() + self.overrun(),
        };
        let sent = match (self.mode(), self.planted) {
            (Mode::Fddi, Planted::HoldingAfterSending)
            | (Mode::Earlier, Planted::LimitAfterSending) => self.to_send(here, self.clock),
            _ => 0,
        };
        (self.ttrt() - kept - sent - self.since(here)).max(0)
    }

    /// F − 1.
    pub fn overrun(&self) -> Ticks {
        self.plan.request.head.overrun() as Ticks
    }

    fn sent_in_frames(&self, ask: Ask, limit: Ticks) -> Ticks {
        let limit = limit as u64;
        let sent = match self.planted {
            Planted::FrameCut => ask.sent(limit).min(limit),
            Planted::FrameAtLimit => ask.sent(limit + 1),
            _ => ask.sent(limit),
        };
        sent as Ticks
    }

    fn trt_began(&self, served: Ticks, sent: Ticks) -> Ticks {
        match self.planted {
            Planted::TrtResetLate => self.clock + sent,
            Planted::TrtResetFirst => self.clock,
            _ => served,
        }
    }

    fn fddi_timer_began(&self, here: usize) -> Ticks {
        let (ttrt, began) = (self.ttrt(), self.memories[here].timer_began);
        match (self.late(here), self.planted) {
            (0, _) => self.clock,
            (_, Planted::CountNotLowered) => began,
            (late, Planted::TimerResetWhenLate) => self.clock - (late - 1) * ttrt,
            _ => began + ttrt,
        }
    }

    /// The message that a station sends of, looked at at this time.
    fn served(&self, here: usize, now: Ticks) -> Option<Held> {
        let arrived = self.held(here).filter(|held| held.arrival <= now);
        arrived.filter(|_| !self.passed_over(here))
    }

    /// What a station may send of its message, looked at at this time.
    fn to_send(&self, here: usize, now: Ticks) -> Ticks {
        self.served(here, now).map_or(0, |held| held.remaining.min(self.allocation(here)))
    }

    /// Sends of the station's message what it may from this time on; gives the amount, and the
    /// completion if any.
    fn serve(&mut self, here: usize, now: Ticks) -> (Ticks, Option<Completed>) {
        let Some(held) = self.served(here, now) else {
            return (0, None);
        };
        let sent = self.to_send(here, now);
        let remaining = held.remaining - sent;
        if remaining > 0 {
            self.memories[here].held = Some(Held { remaining, ..held });
            return (sent, None);
        }
        self.memories[here].held = None;
        let finish = now + sent;
        let deadline = held.arrival + Ticks::from(self.plan.request.stations[here].deadline);
        (sent, Some(Completed { finish, margin: deadline - finish }))
    }

    /// Hands in a message, or gives number 9, 10, 11, 15 or 12.
    pub fn hand_in(&mut self, message: &Message) -> Result<(), Refusal> {
        let index = message.station.index();
        require(index < self.size(), Refusal::NoSuchStation)?;
        let longest = u64::from(self.plan.request.stations[index].longest);
        require((1..=longest).contains(&message.length), Refusal::WrongLength)?;
        require(self.held(index).is_none() && !self.marked(index), Refusal::StillHeld)?;
        self.judge_arrival(index, message.arrival)?;
        let arrival = message.arrival as Ticks;
        let remaining = message.length as Ticks;
        self.memories[index].held = Some(Held { remaining, arrival });
        self.memories[index].last_accepted = Some(arrival);
        Ok(())
    }

    /// Number 15 of an arrival that the clock has not reached, and only then 12.
    fn judge_arrival(&self, index: usize, arrival: u64) -> Result<(), Refusal> {
        let arrived = require(self.reached(index, arrival), Refusal::NotArrived);
        let allowed = arrival <= LAST_TIME && arrival as Ticks >= self.earliest_arrival(index);
        let allowed = require(allowed, Refusal::WrongArrival);
        match self.planted {
            Planted::NotArrivedLast => allowed.and(arrived),
            _ => arrived.and(allowed),
        }
    }

    /// Whether the clock has reached an arrival.
    fn reached(&self, index: usize, arrival: u64) -> bool {
        let clock = match (self.mode(), self.planted) {
            (_, Planted::NotArrivedAtClock) => self.clock - 1,
            (Mode::Earlier, Planted::ServedForClock) => {
                self.last_start(index).unwrap_or(self.clock)
            }
            _ => self.clock,
        };
        i128::from(arrival) <= i128::from(clock)
    }

    /// Switches a station through, or gives number 9. The message that it held is withdrawn; its
    /// arrival stays the last accepted one.
    pub fn mark(&mut self, station: StationNumber) -> Result<Option<Held>, Refusal> {
        let index = station.index();
        require(index < self.size(), Refusal::NoSuchStation)?;
        if self.marked(index) {
            return Ok(None);
        }
        let planted = self.planted;
        let memory = &mut self.memories[index];
        memory.marked = true;
        let withdrawn = memory.held;
        if planted != Planted::KeptUnderMark {
            memory.held = None;
        }
        if planted == Planted::WithdrawnArrivalForgotten && withdrawn.is_some() {
            memory.last_accepted = None;
        }
        Ok(withdrawn)
    }

    /// Switches a station in again, or gives number 9.
    pub fn unmark(&mut self, station: StationNumber) -> Result<(), Refusal> {
        require(station.index() < self.size(), Refusal::NoSuchStation)?;
        self.memories[station.index()].marked = false;
        Ok(())
    }

    /// The earliest arrival that a station's next message may have.
    pub fn earliest_arrival(&self, index: usize) -> Ticks {
        let gap = Ticks::from(self.plan.request.stations[index].gap);
        let after_visit = self.last_start(index).map_or(0, |start| start + 1);
        let after_message = self.last_accepted(index).map_or(0, |arrival| arrival + gap);
        after_visit.max(after_message)
    }
}

/// The token leaves station 0 at −τ, and nobody sends.
fn silent_rotation(stations: &[Station]) -> Vec<Memory> {
    let walk_sum: Ticks = stations.iter().map(|station| Ticks::from(station.walk)).sum();
    let mut now = -walk_sum;
    let mut memories = Vec::new();
    for station in stations {
        memories.push(Memory {
            served: now,
            timer_began: now,
            sent: 0,
            held: None,
            last_accepted: None,
            marked: false,
        });
        now += Ticks::from(station.walk);
    }
    memories
}
