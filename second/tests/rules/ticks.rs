//! FDDI tick by tick, as request No. 1 says it: every timer runs up by one at a time and, on
//! reaching TTRT, goes to 0 and raises a late count. Frames are sent tick by tick too, as request
//! No. 4 says it: one begins while the time used is below the limit, and is finished.

use second::gen::{calls, random::Random, Sort};
use second::planted::Planted;
use second::ring::{Ring, Ticks};
use second::rules::{Ask, Plan, Refusal};
use second::text::Call;

/// One station's timer and late count.
#[derive(Clone, Copy, Debug, Default, PartialEq, Eq)]
struct Timer {
    ticks: u32,
    late: u32,
}

struct Timers {
    ttrt: u32,
    now: u64,
    timers: Vec<Timer>,
}

impl Timers {
    /// The silent rotation: each station's timer begins when the token leaves it.
    fn opened(plan: &Plan) -> Timers {
        let stations = &plan.request.stations;
        let mut timers = Timers { ttrt: plan.request.head.ttrt, now: 0, timers: vec![] };
        for station in stations {
            timers.timers.push(Timer::default());
            timers.pass(station.walk);
        }
        timers.now = 0;
        timers
    }

    fn pass(&mut self, ticks: u32) {
        (0..ticks).for_each(|_| self.tick());
    }

    fn tick(&mut self) {
        self.now += 1;
        for timer in &mut self.timers {
            timer.ticks += 1;
            if timer.ticks == self.ttrt {
                *timer = Timer { ticks: 0, late: timer.late + 1 };
            }
        }
    }

    /// The token comes: the asynchronous time that it gives.
    fn token(&mut self, station: usize) -> u32 {
        let timer = &mut self.timers[station];
        if timer.late > 0 {
            timer.late -= 1;
            return 0;
        }
        let holding = timer.ticks;
        timer.ticks = 0;
        self.ttrt - holding
    }
}

impl Timers {
    /// Sends frames under a limit; gives the time that they took.
    fn send(&mut self, ask: Ask, limit: u32) -> u32 {
        let (mut used, mut frames, mut left_of_frame) = (0, 0, 0);
        loop {
            if left_of_frame == 0 {
                if frames == ask.frames || used >= limit {
                    return used;
                }
                frames += 1;
                left_of_frame = ask.length;
            }
            self.tick();
            used += 1;
            left_of_frame -= 1;
        }
    }
}

/// Follows one script; gives how often a token came late, and the largest count seen.
fn follow(plan: &Plan, script: &[Call]) -> (usize, u32) {
    let mut ring = Ring::opened(plan, Planted::Nothing).expect("sound");
    let mut timers = Timers::opened(plan);
    let (mut late_tokens, mut largest) = (0, 0);
    for call in script {
        let Call::Visit(ask) = call else {
            let _ = call.answer(&mut ring);
            continue;
        };
        if !(1..=plan.request.head.frame).contains(&ask.length) {
            assert_eq!(ring.visit(*ask), Err(Refusal::WrongLength));
            continue;
        }
        let visit = ring.visit(*ask).expect("in time");
        let here = visit.station.index();
        let before = timers.timers[here];
        assert_eq!((visit.start, visit.trt), (timers.now as Ticks, before.ticks.into()));
        // The timer of a marked station moves as if it were idle.
        let unmarked = timers.token(here);
        let limit = if ring.marked(here) { 0 } else { unmarked };
        assert_eq!(visit.limit, limit.into());
        timers.pass(visit.synchronous as u32);
        assert_eq!(visit.asynchronous, timers.send(*ask, limit).into());
        timers.pass(plan.request.stations[here].walk);
        for (index, timer) in timers.timers.iter().enumerate() {
            let shown = (ring.trt(index), ring.late(index));
            assert_eq!(shown, (timer.ticks.into(), timer.late.into()));
            largest = largest.max(timer.late);
        }
        late_tokens += usize::from(before.late > 0);
    }
    (late_tokens, largest)
}

#[test]
fn absolute_times_and_ticks_agree() {
    let (mut runs, mut late_tokens) = (0, 0);
    for place in 0..2_000 {
        let sort = [Sort::FDDI, Sort::FDDI_UNCUT, Sort::FDDI_MARKED][place as usize % 3];
        let (plan, script) = calls::script(&mut Random::of_case(12, place), sort);
        if plan.request.head.ttrt <= 300 {
            let (late, largest) = follow(&plan, &script);
            assert!(largest <= 1, "no count of a ring from an opening comes to 2");
            runs += 1;
            late_tokens += late;
        }
    }
    assert!(runs > 500 && late_tokens > 1_000, "{runs} runs, {late_tokens} late tokens");
}
