//! States of rings, sound ones and ones with a number at an edge or past it, and calls on them.

use super::random::Random;
use super::sets;
use super::sort::Sort;
use crate::ring::{Message, StationNumber};
use crate::rules::{Ask, Mode, Plan, LAST_CLOCK, LAST_TIME, MOST_LATE, VISITS_END};
use crate::state::{Place, State};
use crate::text::Call;

/// Most states have a u of 32 bits.
const LAST_UNUSED: u64 = u32::MAX as u64;

/// A state, and one to three calls.
pub fn state_with_calls(random: &mut Random, sort: Sort) -> (State, Vec<Call>) {
    let mut state = state(random, sort);
    add_histories(random, &mut state, sort);
    let calls = (0..random.between(1, 3)).map(|_| call(random, &state, sort)).collect();
    (state, calls)
}

/// A sound state of a ring in which messages take few visits, and one to six calls.
pub fn sound_with_calls(random: &mut Random, sort: Sort) -> (State, Vec<Call>) {
    let plan = sets::plan_to_run(random, sort);
    let mut state = state_of(random, plan, sort);
    let ttrt = u64::from(state.plan.request.head.ttrt);
    if random.once_in(8) {
        state.clock = random.pick(&[LAST_TIME - ttrt, LAST_TIME, LAST_TIME + 1, LAST_CLOCK]);
    }
    for place in &mut state.places {
        if !random.once_in(4) {
            // About now: most messages are served at the next visit, some of them late.
            let from = state.clock.saturating_sub(4 * ttrt);
            place.arrival = random.between(from, state.clock + ttrt).min(LAST_TIME);
        }
    }
    if random.once_in(4) != (sort.mode == Mode::Earlier) {
        arrive_soon(random, &mut state);
    }
    add_histories(random, &mut state, sort);
    let calls = (0..random.between(1, 6)).map(|_| call(random, &state, sort)).collect();
    (state, calls)
}

/// The station that has the token holds a message that arrives soon after the clock, in the 2002
/// edition most often in the station's own asynchronous part. No run leads to that.
fn arrive_soon(random: &mut Random, state: &mut State) {
    let ttrt = state.plan.request.head.ttrt;
    let token = state.token as usize;
    let longest = longest(state, token) as u32;
    let place = &mut state.places[token];
    place.trt = random.between32(0, ttrt / 8);
    place.remaining = random.between32(longest.min(1), longest);
    place.arrival = (state.clock + random.between(1, 1 + u64::from(ttrt) / 8)).min(LAST_TIME);
}

fn add_histories(random: &mut Random, state: &mut State, sort: Sort) {
    for index in 0..state.places.len() {
        add_history(random, state, index);
        if sort.marked {
            // Any byte, and beside a held message too, which no run leads to.
            state.places[index].mark = random.pick(&[0, 0, 0, 1, 1, 2, 128, 255]);
        }
    }
    if random.once_in(4) {
        state.visits = random.between(0, state.places.len() as u64);
    }
}

/// What a handing in looks at and no sound state is bound to: `had` and `last`.
fn add_history(random: &mut Random, state: &mut State, index: usize) {
    let clock = state.clock;
    let place = &mut state.places[index];
    let times = [0, place.arrival, clock.saturating_sub(1), clock, LAST_TIME, u64::MAX];
    place.had = random.pick(&[0, 0, 0, 1, 1, 1, 2, 128, 255]);
    place.last = if random.once_in(2) { random.between(0, clock) } else { random.pick(&times) };
}

fn call(random: &mut Random, state: &State, sort: Sort) -> Call {
    if sort.marked && random.once_in(3) {
        return switch(random, state);
    }
    if random.once_in(2) {
        let ticks = ticks(random, state);
        return Call::Visit(if sort.uncut { ask(random, state, ticks) } else { ticks.into() });
    }
    let mut message = good_message(random, state);
    if random.once_in(3) {
        spoil(random, state, &mut message);
    }
    Call::HandIn(message)
}

/// A marking or an unmarking, at times of a station that there is not.
fn switch(random: &mut Random, state: &State) -> Call {
    let count = state.places.len() as u32;
    let [any, other] = [0, 0].map(|_: u32| random.between32(0, count.saturating_sub(1)));
    let choices =
        [state.token, any, any, other, other, other, count, random.pick(&[128, u32::MAX])];
    let station = StationNumber(random.pick(&choices));
    random.pick(&[Call::Mark(station), Call::Mark(station), Call::Unmark(station)])
}

/// About so many ticks in frames, or as many frames; their length may be none that there is.
fn ask(random: &mut Random, state: &State, ticks: u32) -> Ask {
    let frame = state.plan.request.head.frame;
    let inside = random.between32(1, frame.min(65_535));
    let lengths = [1, inside, inside, inside, frame, frame, 0, frame.saturating_add(1), u32::MAX];
    let length = random.pick(&lengths);
    let frames = if random.once_in(2) { ticks } else { ticks.div_ceil(length.max(1)) };
    Ask { frames, length }
}

fn ticks(random: &mut Random, state: &State) -> u32 {
    let asked = random.between32(0, state.plan.request.head.ttrt);
    random.pick(&[0, 1, asked, u32::MAX])
}

/// A message that the state takes, if any of its stations takes one.
fn good_message(random: &mut Random, state: &State) -> Message {
    let count = state.places.len();
    let from = random.index(count.max(1));
    let mut indices = (from..from + count).map(|index| index % count);
    let due = |index| is_free(state, index) && earliest_arrival(state, index) <= state.clock;
    let found = indices.clone().find(|&index| due(index));
    let free = found.or_else(|| indices.find(|&index| is_free(state, index)));
    let index = free.unwrap_or(from);
    let earliest = earliest_arrival(state, index);
    let arrival = match random.between(0, 4) {
        0 => random.between(earliest, LAST_TIME.max(earliest)),
        1 => random.between(earliest, state.clock.max(earliest)),
        2 => state.clock.max(earliest),
        _ => earliest,
    };
    let longest = longest(state, index);
    let length = if random.once_in(2) { longest } else { random.between(1, longest) };
    Message { station: StationNumber(index as u32), length, arrival }
}

/// Whether a station takes messages, holds none, and a next one can arrive in range.
fn is_free(state: &State, index: usize) -> bool {
    let Place { remaining, mark, .. } = state.places[index];
    let free = longest(state, index) > 0 && remaining == 0 && mark == 0;
    free && earliest_arrival(state, index) <= LAST_TIME
}

fn longest(state: &State, index: usize) -> u64 {
    state.plan.request.stations.get(index).map_or(0, |station| station.longest.into())
}

/// The earliest arrival that a station's next message may have; 0 where there is no station.
fn earliest_arrival(state: &State, index: usize) -> u64 {
    let Some(place) = state.places.get(index) else {
        return 0;
    };
    let gap = u64::from(state.plan.request.stations[index].gap);
    let visited = (index as u64) < state.visits;
    let after_visit = if visited { place.last.saturating_add(1) } else { 0 };
    let after_message = if place.had != 0 { place.arrival.saturating_add(gap) } else { 0 };
    after_visit.max(after_message)
}

fn spoil(random: &mut Random, state: &State, message: &mut Message) {
    let count = state.places.len() as u32;
    let index = message.station.index();
    match random.between(0, 5) {
        5 => message.arrival = random.pick(&[state.clock, state.clock.saturating_add(1)]),
        0 => message.station = StationNumber(random.pick(&[count, count + 1, 128, u32::MAX])),
        1 => message.length = random.pick(&[0, longest(state, index) + 1, u64::MAX]),
        2 => message.station = StationNumber(random.between32(0, count)),
        3 => message.arrival = random.pick(&[0, LAST_TIME, LAST_TIME + 1, u64::MAX]),
        _ => message.arrival = earliest_arrival(state, index).saturating_sub(1),
    }
}

/// A state, sound unless its plan is not, and then often with one or two numbers at an edge.
fn state(random: &mut Random, sort: Sort) -> State {
    let any = random.once_in(4);
    let plan = if any { sets::any_plan(random, sort) } else { sets::sound_plan(random, sort) };
    let mut state = state_of(random, plan, sort);
    if !random.once_in(4) {
        for _ in 0..random.between(1, 2) {
            edge(random, sort, &mut state);
        }
    }
    state
}

fn state_of(random: &mut Random, plan: Plan, sort: Sort) -> State {
    let places: Vec<Place> =
        (0..plan.allocation.len()).map(|index| place(random, &plan, index, sort)).collect();
    let sent: u64 = places.iter().map(|place| u64::from(place.sent)).sum();
    State {
        clock: random.between(0, LAST_TIME),
        token: random.between(0, places.len().saturating_sub(1) as u64) as u32,
        visits: random.between(0, VISITS_END - 1),
        unused: (plan.allocated() - sent).min(LAST_UNUSED),
        plan,
        places,
    }
}

fn place(random: &mut Random, plan: &Plan, index: usize, sort: Sort) -> Place {
    let longest = plan.request.stations[index].longest;
    let ttrt = plan.request.head.ttrt;
    let (trt, late) = match sort.mode {
        Mode::Timely | Mode::Earlier => (random.between32(0, ttrt), 0),
        Mode::Fddi => fddi_timer(random, ttrt),
    };
    Place {
        trt,
        late,
        sent: random.between32(0, plan.allocation[index]),
        remaining: if random.once_in(2) { random.between32(0, longest) } else { 0 },
        arrival: random.between(0, LAST_TIME),
        ..Place::default()
    }
}

/// A sound timer and late count: most counts are 0 or 1, as in a ring that comes from an opening.
fn fddi_timer(random: &mut Random, ttrt: u32) -> (u32, u32) {
    let last = ttrt.saturating_sub(1);
    let timer = if random.once_in(8) { last } else { random.between32(0, last) };
    (timer, random.pick(&[0, 0, 0, 0, 1, 1, 2, MOST_LATE]))
}

/// Puts one number at an end of what is sound, or past it.
fn edge(random: &mut Random, sort: Sort, state: &mut State) {
    let count = state.places.len();
    match random.between(0, 6) {
        4 if sort.has_mode() && random.once_in(2) => mode_edge(random, state),
        5 if sort.uncut && random.once_in(2) => frame_edge(random, state),
        6 if sort.grid && random.once_in(2) => grid_edge(random, state),
        0 => {
            let count = count as u32;
            let last = u32::MAX;
            state.token = random.pick(&[count, count.saturating_sub(1), count + 1, last]);
        }
        1 => {
            let unused = state.unused;
            let more = unused.saturating_add(1).min(LAST_UNUSED);
            state.unused = random.pick(&[0, unused.saturating_sub(1), more, LAST_UNUSED]);
        }
        2 => {
            let clocks = [LAST_TIME, LAST_TIME + 1, LAST_CLOCK, LAST_CLOCK + 1, u64::MAX];
            state.clock = random.pick(&clocks);
        }
        3 => state.visits = random.pick(&[VISITS_END - 1, VISITS_END, u64::MAX]),
        _ if count > 0 => {
            let index = random.index(count);
            place_edge(random, sort, state, index);
        }
        _ => (),
    }
}

/// A mode that there is not; or the other one, whose rings keep the late counts and look at u, which
/// may have any number of 64 bits.
fn mode_edge(random: &mut Random, state: &mut State) {
    state.plan.request.head.mode = random.pick(&[0, 1, 1, 1, 1, 3, 258, u32::MAX]);
    let unused = state.unused;
    state.unused = random.pick(&[unused, unused, unused, unused.saturating_add(1 << 32), u64::MAX]);
}

/// An F at an end of its range, of what the plan leaves room for, or past it.
fn frame_edge(random: &mut Random, state: &mut State) {
    state.plan.request.head.frame = random.pick(&sets::frame_edges(&state.plan));
}

/// A g at an end of its range or past it, or one that the plan may be off.
fn grid_edge(random: &mut Random, state: &mut State) {
    state.plan.request.head.grid = random.pick(&sets::grid_edges(&state.plan));
}

fn place_edge(random: &mut Random, sort: Sort, state: &mut State, index: usize) {
    let ttrt = state.plan.request.head.ttrt;
    let longest = state.plan.request.stations[index].longest;
    let s = state.plan.allocation[index];
    let place = &mut state.places[index];
    let fddi = sort.is_fddi();
    match random.between(0, 4) {
        0 if fddi && random.once_in(2) => {
            place.late = random.pick(&[0, MOST_LATE, MOST_LATE + 1, MOST_LATE + 2, u32::MAX]);
        }
        0 if fddi => place.trt = random.pick(&[0, ttrt.saturating_sub(1), ttrt, u32::MAX]),
        0 => place.trt = random.pick(&[0, ttrt, ttrt.saturating_add(1), u32::MAX]),
        1 => {
            // All else stays as it was: u is moved by what s is, below 0 to the last of 32 bits.
            let sent = random.pick(&[0, s, s.saturating_add(1)]);
            let unused = (state.unused as u32).wrapping_add(place.sent).wrapping_sub(sent);
            state.unused = u64::from(unused);
            place.sent = sent;
        }
        2 => place.sent = random.pick(&[0, s, s.saturating_add(1), u32::MAX]),
        3 => place.remaining = random.pick(&[0, longest, longest.saturating_add(1), u32::MAX]),
        _ => place.arrival = random.pick(&[0, LAST_TIME, LAST_TIME + 1, u64::MAX]),
    }
}
