//! The promises of every run from an opening, checked call by call on this program itself. FDDI
//! has fewer of them: exact limits, deadlines and "never 11" are timely-token's. The limit of the
//! 2002 edition looks back on one visit less. A station that is switched through is offered nothing,
//! sends nothing and holds nothing; the exact limit and "never 11" are of the others.

use std::collections::VecDeque;

use crate::planted::Planted;
use crate::ring::{Held, Message, Ring, StationNumber, Ticks, Visit};
use crate::rules::{Ask, Mode, Refusal, LAST_CLOCK, MOST_LATE, VISITS_END};
use crate::text::{Answer, Call};

/// A promise that a call broke.
#[derive(Clone, Copy, Debug, PartialEq, Eq, Hash)]
pub enum Broken {
    /// The token came back later than TTRT; in FDDI, than TTRT, all S and F − 1. (With τ beside
    /// them it is promised; this is the sharper bound.)
    TokenLate,
    /// A visit sent more synchronous time than S.
    TooMuchSynchronous,
    /// The limit is not A* less the asynchronous time of the N visits before, in the 2002 edition
    /// of the N − 1 before, held at 0.
    LimitNotExact,
    /// A visit did not send whole frames, not all that it might, or one that may not begin.
    FramesNotExact,
    /// A visit sent more asynchronous time than its limit and F − 1, or any at a limit of 0.
    TooMuchAsynchronous,
    /// N successive visits sent more asynchronous time than A* and F − 1.
    TooMuchInRotation,
    /// A message finished after its deadline.
    MessageLate,
    /// A message is unsent though the clock has reached its deadline.
    UnsentAtDeadline,
    /// The ring's state is unsound.
    Unsound,
    /// A message that kept C and P, and came in time, was answered 11 at an unmarked station.
    WrongElevenAnswer,
    /// A message whose arrival the clock has reached was answered 15.
    WrongFifteenAnswer,
    /// A message is held whose arrival is ahead of the clock.
    HeldAhead,
    /// A visit did not send the smaller of S and what its station held.
    NotServed,
    /// In the 2002 edition a message was taken that arrived in its station's own asynchronous part.
    TakenInOwnPart,
    /// A visit of a marked station had a limit or sent something.
    MarkedStationSent,
    /// A marked station holds a message.
    HeldUnderMark,
    /// A marking handed back another message than was held, or more or less of it than was unsent.
    WithdrawnOtherwise,
}

/// Follows a run by its visit records.
struct Watch {
    spare: Ticks,
    /// The asynchronous time of the N visits before; the silent rotation counts as nothing.
    before: VecDeque<Ticks>,
    /// The start of each visit of each station, and of that visit's synchronous part.
    starts: Vec<Vec<(Ticks, Ticks)>>,
    /// The message that each station was last handed, with what is unsent of it.
    unsent: Vec<Option<Held>>,
}

impl Watch {
    fn new(ring: &Ring) -> Watch {
        Watch {
            spare: ring.plan().spare() as Ticks,
            before: VecDeque::from(vec![0; ring.size()]),
            starts: vec![vec![]; ring.size()],
            unsent: vec![None; ring.size()],
        }
    }

    fn visited(&mut self, ring: &Ring, ask: Ask, visit: &Visit) -> Vec<Broken> {
        let index = visit.station.index();
        let served = match ring.mode() {
            Mode::Timely | Mode::Fddi => visit.start,
            Mode::Earlier => visit.start + visit.asynchronous,
        };
        let before = self.starts[index].last().copied();
        self.starts[index].push((visit.start, served));
        let apart = before.map(|(start, served)| (visit.start - start, visit.start - served));
        let synchronous = visit.synchronous <= ring.allocation(index);
        let unsent = self.unsent[index].map_or(0, |held| held.remaining);
        let served_all = visit.synchronous == unsent.min(ring.allocation(index));
        self.sent(index, visit);
        let amounts = [visit.limit, visit.synchronous, visit.asynchronous];
        let passed_over = !ring.marked(index) || amounts == [0, 0, 0];
        let most = if visit.limit == 0 { 0 } else { visit.limit + ring.overrun() };
        let mut broken = broken(&[
            (in_time(ring, visit, apart), Broken::TokenLate),
            (synchronous, Broken::TooMuchSynchronous),
            (whole_frames(ask, visit), Broken::FramesNotExact),
            (visit.asynchronous <= most, Broken::TooMuchAsynchronous),
            (served_all, Broken::NotServed),
            (none_held_ahead(ring), Broken::HeldAhead),
            (passed_over, Broken::MarkedStationSent),
            (none_held_under_mark(ring), Broken::HeldUnderMark),
            (sound(ring), Broken::Unsound),
        ]);
        if ring.mode() != Mode::Fddi {
            broken.extend(self.timely_visited(ring, visit));
        }
        broken
    }

    /// What a visit sent comes off its station's message.
    fn sent(&mut self, index: usize, visit: &Visit) {
        if let Some(held) = &mut self.unsent[index] {
            held.remaining -= visit.synchronous;
        }
        self.unsent[index] = self.unsent[index].filter(|held| held.remaining > 0);
    }

    /// What is held has arrived, and of each visit of its station by the start or behind the start of
    /// the synchronous part.
    fn handed_in(&mut self, ring: &Ring, message: &Message, taken: bool) -> Vec<Broken> {
        if !taken {
            return vec![];
        }
        let index = message.station.index();
        self.unsent[index] = ring.held(index);
        let arrival = message.arrival as Ticks;
        let inside = |(start, served): (Ticks, Ticks)| start < arrival && arrival <= served;
        broken(&[
            (none_held_ahead(ring), Broken::HeldAhead),
            (!self.starts[index].iter().copied().any(inside), Broken::TakenInOwnPart),
        ])
    }

    /// A marking of an unmarked station hands back all that is unsent; any other nothing.
    fn marked(&mut self, ring: &Ring, index: usize, withdrawn: Option<Held>) -> Vec<Broken> {
        let unsent = self.unsent[index].take();
        broken(&[
            (withdrawn == unsent, Broken::WithdrawnOtherwise),
            (none_held_under_mark(ring), Broken::HeldUnderMark),
            (sound(ring), Broken::Unsound),
        ])
    }

    fn timely_visited(&mut self, ring: &Ring, visit: &Visit) -> Vec<Broken> {
        let left_out = usize::from(ring.mode() == Mode::Earlier);
        let limit = (self.spare - self.before.iter().skip(left_out).sum::<Ticks>()).max(0);
        self.before.pop_front();
        self.before.push_back(visit.asynchronous);
        let rotation = self.before.iter().sum::<Ticks>();
        let completed = visit.completed.is_none_or(|completed| completed.margin >= 0);
        let unsent = (0..ring.size()).all(|index| unsent_in_time(ring, index));
        broken(&[
            (ring.marked(visit.station.index()) || visit.limit == limit, Broken::LimitNotExact),
            (rotation <= self.spare + ring.overrun(), Broken::TooMuchInRotation),
            (completed, Broken::MessageLate),
            (unsent, Broken::UnsentAtDeadline),
        ])
    }
}

fn none_held_ahead(ring: &Ring) -> bool {
    (0..ring.size()).all(|index| ring.held(index).is_none_or(|held| held.arrival <= ring.clock()))
}

fn none_held_under_mark(ring: &Ring) -> bool {
    (0..ring.size()).all(|index| !ring.marked(index) || ring.held(index).is_none())
}

/// Whether the frames sent are the most that fit: the last of them began below the limit, and if
/// there were more to send, the time used has reached it.
fn whole_frames(ask: Ask, visit: &Visit) -> bool {
    let length = Ticks::from(ask.length);
    let frames = visit.asynchronous / length;
    let whole = visit.asynchronous % length == 0 && frames <= Ticks::from(ask.frames);
    let began = frames == 0 || visit.asynchronous - length < visit.limit;
    let all = frames == Ticks::from(ask.frames) || visit.asynchronous >= visit.limit;
    whole && began && all
}

/// Whether the token came in time, so long after it last came; and whether TRT is the time since
/// the station's last synchronous part began. Before the first visit both are TRT.
fn in_time(ring: &Ring, visit: &Visit, apart: Option<(Ticks, Ticks)>) -> bool {
    let request = &ring.plan().request;
    let ttrt = Ticks::from(request.head.ttrt);
    match ring.mode() {
        Mode::Timely | Mode::Earlier => {
            let (came, served) = apart.unwrap_or((visit.trt, visit.trt));
            served == visit.trt && came <= ttrt
        }
        Mode::Fddi => {
            let most = ttrt + ring.plan().allocated() as Ticks + ring.overrun();
            apart.is_none_or(|(came, _)| came <= most)
        }
    }
}

/// The promises that do not hold.
fn broken(promises: &[(bool, Broken)]) -> Vec<Broken> {
    let not_held = promises.iter().filter(|(holds, _)| !holds);
    not_held.map(|&(_, broken)| broken).collect()
}

/// While a message is unsent, its deadline is ahead of the clock.
fn unsent_in_time(ring: &Ring, index: usize) -> bool {
    let deadline = Ticks::from(ring.plan().request.stations[index].deadline);
    ring.held(index).is_none_or(|held| held.arrival + deadline > ring.clock())
}

/// Whether all is sound that can become unsound in a ring opened soundly.
fn sound(ring: &Ring) -> bool {
    let ttrt = Ticks::from(ring.plan().request.head.ttrt);
    let timer = |index: usize| match ring.mode() {
        Mode::Timely | Mode::Earlier => (0..=ttrt).contains(&ring.trt(index)),
        Mode::Fddi => {
            let late = (0..=Ticks::from(MOST_LATE)).contains(&ring.late(index));
            late && (0..ttrt).contains(&ring.trt(index))
        }
    };
    let station_sound = |index: usize| {
        let longest = Ticks::from(ring.plan().request.stations[index].longest);
        let held = ring.held(index).is_none_or(|held| (1..=longest).contains(&held.remaining));
        let sent = (0..=ring.allocation(index)).contains(&ring.sent(index));
        held && sent && timer(index)
    };
    let clock = ring.clock() <= LAST_CLOCK as Ticks;
    let count = ring.visits() < VISITS_END;
    clock && count && (0..ring.size()).all(station_sound)
}

/// Whether a message keeps C and P, and is handed in when the clock has reached its arrival
/// and it is later than the station's last start. Such a message is never answered 11, but where its
/// station is marked; nor is it ever answered 15.
fn due(ring: &Ring, message: &Message) -> bool {
    let index = message.station.index();
    let longest = u64::from(ring.plan().request.stations[index].longest);
    (1..=longest).contains(&message.length)
        && message.arrival <= ring.clock() as u64
        && message.arrival as Ticks >= ring.earliest_arrival(index)
        && !ring.marked(index)
}

fn handed_in(ring: &Ring, message: &Message, answer: Result<(), Refusal>) -> Vec<Broken> {
    let deadlines = ring.mode() != Mode::Fddi;
    match answer {
        Ok(()) if !deadlines => broken(&[(sound(ring), Broken::Unsound)]),
        Ok(()) => {
            let unsent = unsent_in_time(ring, message.station.index());
            broken(&[(unsent, Broken::UnsentAtDeadline), (sound(ring), Broken::Unsound)])
        }
        Err(Refusal::StillHeld) if deadlines => {
            broken(&[(!due(ring, message), Broken::WrongElevenAnswer)])
        }
        Err(Refusal::NotArrived) => {
            let ahead = message.arrival > ring.clock() as u64;
            broken(&[(ahead, Broken::WrongFifteenAnswer)])
        }
        Err(_) => vec![],
    }
}

/// A ring whose every call is checked, unless an error is planted in it.
pub struct WatchedRing {
    ring: Ring,
    watch: Option<Watch>,
}

impl WatchedRing {
    pub fn new(ring: Ring, planted: Planted) -> WatchedRing {
        let watch = (planted == Planted::Nothing).then(|| Watch::new(&ring));
        WatchedRing { ring, watch }
    }

    /// Checks the promises even of a ring with a planted error.
    pub fn suspected(ring: Ring) -> WatchedRing {
        WatchedRing { watch: Some(Watch::new(&ring)), ring }
    }

    pub fn ring(&self) -> &Ring {
        &self.ring
    }

    /// The answer to a call. A broken promise is an error of this program, and ends it.
    pub fn answer(&mut self, call: &Call) -> Result<Answer, Refusal> {
        let (answer, broken) = self.checked(call);
        assert!(broken.is_empty(), "a run from an opening broke {broken:?} at {call}");
        answer
    }

    /// The answer to a call, and the promises that it broke.
    pub fn checked(&mut self, call: &Call) -> (Result<Answer, Refusal>, Vec<Broken>) {
        match call {
            Call::Visit(ask) => self.visit(*ask),
            Call::HandIn(message) => self.hand_in(message),
            Call::Mark(station) => self.mark(*station),
            Call::Unmark(station) => {
                (self.ring.unmark(*station).map(|()| Answer::Unmarked), vec![])
            }
        }
    }

    fn visit(&mut self, ask: Ask) -> (Result<Answer, Refusal>, Vec<Broken>) {
        let answer = self.ring.visit(ask);
        let broken = match (&mut self.watch, &answer) {
            (Some(watch), Ok(visit)) => watch.visited(&self.ring, ask, visit),
            _ => vec![],
        };
        (answer.map(Answer::Visited), broken)
    }

    fn hand_in(&mut self, message: &Message) -> (Result<Answer, Refusal>, Vec<Broken>) {
        let answer = self.ring.hand_in(message);
        let broken = match &mut self.watch {
            Some(watch) => {
                let mut broken = handed_in(&self.ring, message, answer);
                broken.extend(watch.handed_in(&self.ring, message, answer.is_ok()));
                broken
            }
            None => vec![],
        };
        (answer.map(|()| Answer::Taken), broken)
    }

    fn mark(&mut self, station: StationNumber) -> (Result<Answer, Refusal>, Vec<Broken>) {
        let answer = self.ring.mark(station);
        let broken = match (&mut self.watch, answer) {
            (Some(watch), Ok(held)) => watch.marked(&self.ring, station.index(), held),
            _ => vec![],
        };
        (answer.map(Answer::Marked), broken)
    }
}
