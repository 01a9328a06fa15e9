//! Any state of a ring, reachable or not: whether it is unsound (number 8), and what a visit, a
//! handing in, a marking and an unmarking make of it. The steps are those of the rules, one after another, on the numbers
//! that a ring stores.

use crate::notation::{number, read_head, show_head};
use crate::planted::Planted;
use crate::ring::{Completed, Held, Message, StationNumber, Ticks, Visit};
use crate::rules::{require, Ask, Head, Mode, Plan, Refusal, Request, Station};
use crate::rules::{LAST_CLOCK, LAST_TIME, MOST_LATE, VISITS_END};
use crate::text::{Answer, Call};

/// What a ring stores of a station.
#[derive(Clone, Debug, Default, PartialEq, Eq)]
pub struct Place {
    /// TRT, in FDDI the timer.
    pub trt: u32,
    /// FDDI's late count. A timely-token ring never looks at it.
    pub late: u32,
    pub sent: u32,
    /// 0 says that no message is held.
    pub remaining: u32,
    /// Whether a message was ever accepted: 0 says no, anything else yes.
    pub had: u8,
    /// Whether the station is switched through: 0 says no, anything else yes.
    pub mark: u8,
    /// The arrival of the last accepted message.
    pub arrival: u64,
    /// The start of the last synchronous part, where there was a visit.
    pub last: u64,
}

impl Place {
    /// As they are shown: behind the others the late count and the mark, up to the last of the two
    /// that is not 0.
    pub fn numbers(&self) -> Vec<i128> {
        let Place { trt, late, sent, remaining, had, mark, arrival, last } = *self;
        let mut numbers = vec![
            trt.into(),
            sent.into(),
            remaining.into(),
            had.into(),
            arrival.into(),
            last.into(),
        ];
        let further: [i128; 2] = [late.into(), mark.into()];
        let shown = further.iter().rposition(|&number| number != 0).map_or(0, |place| place + 1);
        numbers.extend(&further[..shown]);
        numbers
    }
}

#[derive(Clone, Debug, PartialEq, Eq)]
pub struct State {
    pub clock: u64,
    pub token: u32,
    pub visits: u64,
    /// u. An FDDI ring never looks at it.
    pub unused: u64,
    pub plan: Plan,
    pub places: Vec<Place>,
}

impl State {
    /// The state that an opening gives to a plan that was judged, and gave to an FDDI plan until
    /// these were retired. A timer that starts at TTRT becomes 0 with a late count of 1 there.
    pub fn opened(plan: &Plan) -> State {
        let Head { ttrt, .. } = plan.request.head;
        let stations = &plan.request.stations;
        let place = |index: usize| {
            let trt = stations[index..].iter().map(|station| station.walk).sum();
            match plan.request.mode() {
                Mode::Fddi if trt == ttrt => Place { late: 1, ..Place::default() },
                _ => Place { trt, ..Place::default() },
            }
        };
        State {
            clock: 0,
            token: 0,
            visits: 0,
            unused: plan.allocated(),
            plan: plan.clone(),
            places: (0..stations.len()).map(place).collect(),
        }
    }

    /// Whether it is such a state.
    pub fn is_opened(&self) -> bool {
        self.plan.judge().is_ok() && *self == State::opened(&self.plan)
    }

    fn unsound(&self) -> bool {
        self.plan.judge().is_err()
            || self.token as usize >= self.places.len()
            || self.unsound_place()
            || self.unsound_timers()
            || self.clock > LAST_CLOCK
            || self.visits >= VISITS_END
    }

    fn unsound_place(&self) -> bool {
        let Plan { request, allocation } = &self.plan;
        (0..self.places.len()).any(|index| {
            let Place { sent, remaining, arrival, .. } = self.places[index];
            sent > allocation[index]
                || remaining > request.stations[index].longest
                || arrival > LAST_TIME
        })
    }

    /// The lines that each mode has of its own, of a sound plan and of places that are sound else.
    fn unsound_timers(&self) -> bool {
        let ttrt = self.plan.request.head.ttrt;
        match self.plan.request.mode() {
            Mode::Timely | Mode::Earlier => {
                self.places.iter().any(|place| place.trt > ttrt) || self.unused != self.unsent()
            }
            Mode::Fddi => {
                self.places.iter().any(|place| place.trt >= ttrt || place.late > MOST_LATE)
            }
        }
    }

    /// The sum of S − s, where no s is above its S.
    fn unsent(&self) -> u64 {
        let sent: u64 = self.places.iter().map(|place| u64::from(place.sent)).sum();
        self.plan.allocated() - sent
    }

    pub fn answer(&mut self, call: &Call) -> Result<Answer, Refusal> {
        self.answer_with(call, Planted::Nothing)
    }

    /// The answer with an error planted. Only those are, of a message that is looked at, which no ring
    /// from an opening shows: what it holds has arrived; and that of an open FDDI ring.
    pub fn answer_with(&mut self, call: &Call, planted: Planted) -> Result<Answer, Refusal> {
        let fddi = Mode::of(self.plan.request.head.mode) == Some(Mode::Fddi);
        require(!(fddi && planted == Planted::OpenRingUnsound), Refusal::Unsound)?;
        match call {
            Call::Visit(ask) => self.visit_with(*ask, planted).map(Answer::Visited),
            Call::HandIn(message) => self.hand_in(message).map(|()| Answer::Taken),
            Call::Mark(station) => self.mark(*station).map(Answer::Marked),
            Call::Unmark(station) => self.unmark(*station).map(|()| Answer::Unmarked),
        }
    }

    /// One visit at the station that has the token, or number 8, 10 or 13.
    pub fn visit(&mut self, ask: impl Into<Ask>) -> Result<Visit, Refusal> {
        self.visit_with(ask.into(), Planted::Nothing)
    }

    fn visit_with(&mut self, ask: Ask, planted: Planted) -> Result<Visit, Refusal> {
        require(!self.unsound(), Refusal::Unsound)?;
        ask.judge(&self.plan.request.head)?;
        require(self.clock <= LAST_TIME, Refusal::ClockPast)?;
        let here = self.token as usize;
        let (start, trt) = (self.clock, self.places[here].trt);
        let mode = self.plan.request.mode();
        // 1: the limit; an FDDI timer goes to 0 or runs on. A marked station is offered nothing.
        let unmarked = match mode {
            Mode::Timely | Mode::Earlier => self.timely_limit(here),
            Mode::Fddi => self.fddi_limit(here),
        };
        let limit = if self.places[here].mark == 0 { unmarked } else { 0 };
        // 4: the asynchronous part, in whole frames; in the 2002 edition it comes before all else.
        let asynchronous = ask.sent(limit.into()) as u32;
        if mode == Mode::Earlier {
            self.pass(asynchronous);
        }
        // 2 and 3: TRT becomes 0, and u falls by the old unused time; the synchronous part; u rises
        // by the new unused time.
        let served = self.clock;
        if mode != Mode::Fddi {
            self.places[here].trt = 0;
            self.unused -= self.unused_at(here);
        }
        let looked_at = match planted {
            Planted::ServedAhead => u64::MAX,
            Planted::LookedAtFirst => start,
            _ => served,
        };
        let (synchronous, completed) = self.serve(here, looked_at);
        self.places[here].sent = synchronous;
        if mode != Mode::Fddi {
            self.unused += self.unused_at(here);
        }
        // 5: the rest of the time passes, and the token moves on.
        let behind = if mode == Mode::Earlier { 0 } else { asynchronous };
        self.pass(synchronous + behind + self.plan.request.stations[here].walk);
        self.places[here].last = served;
        self.token = if here + 1 < self.places.len() { self.token + 1 } else { 0 };
        self.visits += 1;
        Ok(Visit {
            station: StationNumber(here as u32),
            start: start as Ticks,
            trt: trt.into(),
            limit: limit.into(),
            synchronous: synchronous.into(),
            asynchronous: asynchronous.into(),
            completed,
        })
    }

    /// S − s, at a sound place.
    fn unused_at(&self, index: usize) -> u64 {
        u64::from(self.plan.allocation[index] - self.places[index].sent)
    }

    /// TTRT − (F − 1) − u − TRT, held at 0.
    fn timely_limit(&self, here: usize) -> u32 {
        let head = &self.plan.request.head;
        let (ttrt, overrun) = (u64::from(head.ttrt), head.overrun());
        let spent = overrun + self.unused + u64::from(self.places[here].trt);
        ttrt.saturating_sub(spent) as u32
    }

    /// A late token lowers the count, lets the timer run on and gives nothing. Any other gives
    /// TTRT less the timer, which goes to 0.
    fn fddi_limit(&mut self, here: usize) -> u32 {
        let place = &mut self.places[here];
        if place.late > 0 {
            place.late -= 1;
            return 0;
        }
        self.plan.request.head.ttrt - std::mem::take(&mut place.trt)
    }

    /// Time passes: the clock and every TRT rise. An FDDI timer that reaches TTRT goes to 0 and
    /// raises its count.
    fn pass(&mut self, ticks: u32) {
        let ttrt = self.plan.request.head.ttrt;
        let wraps = self.plan.request.mode() == Mode::Fddi;
        self.clock += u64::from(ticks);
        for place in &mut self.places {
            place.trt += ticks;
            while wraps && place.trt >= ttrt {
                place.trt -= ttrt;
                place.late += 1;
            }
        }
    }

    /// Sends the smaller of S and what remains of a message that has arrived when it is looked at;
    /// nothing at a marked station.
    fn serve(&mut self, here: usize, looked_at: u64) -> (u32, Option<Completed>) {
        let place = &mut self.places[here];
        if place.mark != 0 || place.remaining == 0 || place.arrival > looked_at {
            return (0, None);
        }
        let sent = place.remaining.min(self.plan.allocation[here]);
        place.remaining -= sent;
        if place.remaining > 0 {
            return (sent, None);
        }
        let finish = (self.clock + u64::from(sent)) as Ticks;
        let deadline = place.arrival + u64::from(self.plan.request.stations[here].deadline);
        (sent, Some(Completed { finish, margin: deadline as Ticks - finish }))
    }

    /// Hands in a message, or gives number 8, 9, 10, 11, 15 or 12.
    pub fn hand_in(&mut self, message: &Message) -> Result<(), Refusal> {
        require(!self.unsound(), Refusal::Unsound)?;
        let index = message.station.index();
        require(index < self.places.len(), Refusal::NoSuchStation)?;
        let Station { longest, gap, .. } = self.plan.request.stations[index];
        require((1..=u64::from(longest)).contains(&message.length), Refusal::WrongLength)?;
        let visited = (index as u64) < self.visits;
        let place = &mut self.places[index];
        require(place.remaining == 0 && place.mark == 0, Refusal::StillHeld)?;
        require(message.arrival <= self.clock, Refusal::NotArrived)?;
        let soon = place.had != 0 && message.arrival < place.arrival + u64::from(gap);
        let early = visited && message.arrival <= place.last;
        require(message.arrival <= LAST_TIME && !early && !soon, Refusal::WrongArrival)?;
        place.remaining = message.length as u32;
        place.had = 1;
        place.arrival = message.arrival;
        Ok(())
    }

    /// Switches a station through and gives what it held, or number 8 or 9.
    pub fn mark(&mut self, station: StationNumber) -> Result<Option<Held>, Refusal> {
        let place = self.place_to_switch(station)?;
        if place.mark != 0 {
            return Ok(None);
        }
        place.mark = 1;
        let remaining = Ticks::from(std::mem::take(&mut place.remaining));
        Ok((remaining > 0).then_some(Held { remaining, arrival: place.arrival as Ticks }))
    }

    /// Switches a station in again, or gives number 8 or 9.
    pub fn unmark(&mut self, station: StationNumber) -> Result<(), Refusal> {
        self.place_to_switch(station)?.mark = 0;
        Ok(())
    }

    fn place_to_switch(&mut self, station: StationNumber) -> Result<&mut Place, Refusal> {
        require(!self.unsound(), Refusal::Unsound)?;
        self.places.get_mut(station.index()).ok_or(Refusal::NoSuchStation)
    }

    /// `CLOCK,TOKEN,VISITS,U`, the head of the set, and for each station
    /// `W,C,D,P,S,TRT,s,REMAINING,HAD,ARRIVAL,LAST`, behind these perhaps its late count, and behind
    /// that perhaps its mark.
    pub fn read(parts: &[&str]) -> Option<State> {
        let [ring, head, places @ ..] = parts else {
            return None;
        };
        let [clock, token, visits, unused] = words(ring)?;
        let request = Request { head: read_head(head)?, stations: vec![] };
        let mut state = State {
            clock: number(clock)?,
            token: number(token)?,
            visits: number(visits)?,
            unused: number(unused)?,
            plan: Plan { request, allocation: vec![] },
            places: vec![],
        };
        places.iter().try_for_each(|part| state.add(part)).map(|()| state)
    }

    fn add(&mut self, part: &str) -> Option<()> {
        let (eleven, more) = match part.match_indices(',').nth(10) {
            Some((at, _)) => (&part[..at], &part[at + 1..]),
            None => (part, "0"),
        };
        let (late, mark) = more.split_once(',').unwrap_or((more, "0"));
        let [walk, longest, deadline, gap, s, trt, sent, remaining, had, arrival, last] =
            words(eleven)?;
        self.plan.request.stations.push(Station {
            walk: number(walk)?,
            longest: number(longest)?,
            deadline: number(deadline)?,
            gap: number(gap)?,
        });
        self.plan.allocation.push(number(s)?);
        self.places.push(Place {
            trt: number(trt)?,
            late: number(late.as_bytes())?,
            sent: number(sent)?,
            remaining: number(remaining)?,
            had: number(had)?,
            mark: number(mark.as_bytes())?,
            arrival: number(arrival)?,
            last: number(last)?,
        });
        Some(())
    }

    /// The text that `read` takes, with its parts joined by `;`.
    pub fn show(&self) -> String {
        let State { clock, token, visits, unused, plan, places } = self;
        let head = show_head(&plan.request.head);
        let mut text = format!("{clock},{token},{visits},{unused};{head}");
        for (index, place) in places.iter().enumerate() {
            let Station { walk, longest, deadline, gap } = plan.request.stations[index];
            let s = plan.allocation[index];
            text += &format!(";{walk},{longest},{deadline},{gap},{s}");
            place.numbers().iter().for_each(|number| text += &format!(",{number}"));
        }
        text
    }
}

fn words<const COUNT: usize>(part: &str) -> Option<[&[u8]; COUNT]> {
    let words: Vec<&[u8]> = part.split(',').map(str::as_bytes).collect();
    words.try_into().ok()
}
