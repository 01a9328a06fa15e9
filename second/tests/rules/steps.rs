//! The ring once more, by timers and a running u, step by step as the rules are written: the
//! steps over any state, from an opening on.

use second::gen::{calls, random::Random, Sort};
use second::planted::Planted;
use second::ring::{Ring, Ticks};
use second::state::State;

fn assert_same(ring: &Ring, state: &State) {
    assert_eq!((ring.clock(), ring.visits()), (state.clock as Ticks, state.visits));
    assert_eq!((ring.token(), ring.unused()), (state.token as usize, state.unused as Ticks));
    for (index, place) in state.places.iter().enumerate() {
        let held = ring.held(index).map_or(0, |held| held.remaining);
        assert_eq!((ring.trt(index), ring.sent(index)), (place.trt.into(), place.sent.into()));
        assert_eq!((ring.late(index), held), (place.late.into(), place.remaining.into()));
        let accepted = (place.had != 0).then_some(place.arrival as Ticks);
        let last_start = ((index as u64) < state.visits).then_some(place.last as Ticks);
        assert_eq!((ring.last_accepted(index), ring.last_start(index)), (accepted, last_start));
        assert_eq!(ring.marked(index), place.mark != 0);
    }
}

#[test]
fn absolute_times_and_timers_agree() {
    for (place, sort) in (0..1_000).flat_map(|place| Sort::ALL.map(|sort| (place, sort))) {
        let (plan, script) = calls::script(&mut Random::of_case(9, place), sort);
        let mut ring = Ring::opened(&plan, Planted::Nothing).expect("sound");
        let mut state = State::opened(&plan);
        assert_same(&ring, &state);
        for call in &script {
            assert_eq!(call.answer(&mut ring), state.answer(call));
            assert_same(&ring, &state);
        }
    }
}
