//! The checker of logs: findings worked out by hand, and random logs on small sets against a
//! relation that tries every run.

use crate::logs::{entry, worked_entries, worked_log};
use crate::{fddi, station, timely, worked_plan};
use second::frames::answer;
use second::gen::{calls, logs, random::Random, Sort};
use second::inspect::{in_frames, inspected, Inspector, Rule};
use second::log::{log_of, Counter};
use second::notation::{from_hex, to_hex};
use second::planted::Planted;
use second::rules::{Ask, Entry, Head, MarkEntry, Mode, Plan, Request, VisitEntry};

/// The record and rule, or `None` for accepted.
fn found(plan: &Plan, entries: &[Entry]) -> Option<(u64, Rule)> {
    let (_, finding) = inspected(plan, entries, Planted::Nothing);
    finding.map(|finding| (finding.record, finding.rule))
}

/// What the program prints.
fn printed(log: &[u8]) -> String {
    let said = answer(&format!("command inspect;{}", to_hex(log)), Planted::Nothing);
    let out = said.strip_suffix(" -").expect("nothing on standard error");
    String::from_utf8(from_hex(out).expect("bytes")).expect("text")
}

fn log(plan: &Plan, rows: &[[u32; 5]]) -> Vec<u8> {
    let entries: Vec<Entry> = rows.iter().map(|&row| entry(row)).collect();
    log_of(plan, &entries).expect("sound")
}

#[test]
fn the_worked_log() {
    assert_eq!(printed(&worked_log()), "accepted 6\n");
    assert_eq!(printed(&log(&worked_plan(), &[])), "accepted 0\n");
    assert_eq!(
        answer(&format!("inspect {}", to_hex(&worked_log())), Planted::Nothing),
        "0 accepted 6"
    );
}

/// One number of the worked log changed.
#[test]
fn each_rule_in_words() {
    let rows = [
        (2, [2, 60, 0, 20, 0], [3, 60, 0, 20, 0], "station\nexpected station 2, found 3"),
        (2, [2, 60, 0, 20, 0], [4, 60, 0, 20, 0], "station\nexpected station 2, found 4"),
        (2, [2, 60, 0, 20, 0], [255, 60, 0, 20, 0], "station\nexpected station 2, found 255"),
        (
            2,
            [2, 60, 0, 20, 0],
            [2, 61, 0, 20, 0],
            "start\nexpected 20 ticks after the record before, found 21",
        ),
        (
            2,
            [2, 60, 0, 20, 0],
            [2, 39, 0, 20, 0],
            "start\nexpected 20 ticks after the record before, found 4294967295",
        ),
        (2, [2, 60, 0, 20, 0], [2, 60, 1, 20, 0], "limit\nexpected limit 0, found 1"),
        (5, [1, 122, 18, 20, 18], [1, 122, 17, 20, 17], "limit\nexpected limit 18, found 17"),
        (2, [2, 60, 0, 20, 0], [2, 60, 0, 21, 0], "synchronous\nexpected at most 20, found 21"),
        (2, [2, 60, 0, 20, 0], [2, 60, 0, 20, 1], "asynchronous\nexpected at most 0, found 1"),
        (0, [0, 0, 18, 20, 18], [0, 0, 18, 20, 19], "asynchronous\nexpected at most 18, found 19"),
    ];
    for (index, was, is, words) in rows {
        let mut entries = worked_entries();
        assert_eq!(entries[index], entry(was));
        entries[index] = entry(is);
        let log = log_of(&worked_plan(), &entries).expect("sound");
        assert_eq!(printed(&log), format!("record {} {words}\n", index + 1));
        let framed = answer(&format!("inspect {}", to_hex(&log)), Planted::Nothing);
        let rule = words.lines().next().expect("a rule");
        assert_eq!(framed, format!("0 record {} {rule}", index + 1));
    }
}

/// With every number wrong the rules are named in their order, each once the ones before hold.
#[test]
fn the_first_broken_rule() {
    let mut rows = [[0, 0, 18, 20, 18], [3, 41, 7, 21, 9]];
    let right = [1, 40, 0, 20, 0];
    let plan = worked_plan();
    for (place, rule) in Rule::ALL.into_iter().enumerate() {
        assert_eq!(found(&plan, &rows.map(entry)), Some((2, rule)));
        rows[1][place] = right[place];
    }
    assert_eq!(found(&plan, &rows.map(entry)), None);
}

/// Less is sent than might be, and nothing; the next limits follow from that.
#[test]
fn amounts_are_free_within_their_rules() {
    let plan = worked_plan();
    // s 7 of 20: u is 80 − 7. The limit of 18 leaves 5, of which all are sent, and 6 would be.
    let rows = [[0, 9, 18, 7, 13], [1, 31, 5, 0, 5], [2, 36, 0, 20, 0]];
    assert_eq!(found(&plan, &rows.map(entry)), None);
    let rows = [[0, 9, 18, 7, 13], [1, 31, 5, 0, 6]];
    assert_eq!(found(&plan, &rows.map(entry)), Some((2, Rule::Asynchronous)));
    let rows = [[0, 9, 18, 0, 0], [1, 11, 18, 0, 0], [2, 11, 18, 0, 18], [3, 29, 0, 0, 0]];
    assert_eq!(found(&plan, &rows.map(entry)), None);
}

/// C may be more than S, as here, or less: S alone counts.
#[test]
fn synchronous_up_to_s() {
    let plan = |longest, s| {
        let request = Request { head: timely(100), stations: vec![station(2, longest, 250, 250)] };
        Plan { request, allocation: vec![s] }
    };
    assert_eq!(found(&plan(20, 10), &[entry([0, 0, 88, 10, 0])]), None);
    assert_eq!(found(&plan(20, 10), &[entry([0, 0, 88, 11, 0])]), Some((1, Rule::Synchronous)));
    assert_eq!(found(&plan(5, 10), &[entry([0, 0, 88, 10, 0])]), None);
    assert_eq!(found(&plan(0, 10), &[entry([0, 0, 88, 10, 0])]), None);
}

#[test]
fn starts_on_the_wrapping_counter() {
    let top = u32::MAX;
    for (first, second, holds) in [
        (0, 40, true),
        (7, 47, true),
        (top, 39, true),
        (top - 39, 0, true),
        (top - 40, top, true),
        (top - 39, 1, false),
        (top, 40, false),
        (0, 39, false),
        (0, 1 << 31, false),
    ] {
        let rows = [[0, first, 18, 20, 18], [1, second, 0, 20, 0]];
        let expected = if holds { None } else { Some((2, Rule::Start)) };
        assert_eq!(found(&worked_plan(), &rows.map(entry)), expected, "{first}, {second}");
    }
}

/// A million rotations of a million ticks and ten more: the clock is past its top limit.
#[test]
fn the_clocks_top_is_no_rule() {
    let stations = vec![station(1_000_000, 0, 1, 1)];
    let plan = Plan { request: Request { head: timely(1_000_000), stations }, allocation: vec![0] };
    let mut inspector = Inspector::new(&plan, Planted::Nothing);
    for record in 0..1_000_010_u64 {
        let start = (record * 1_000_000 % (1 << 32)) as u32;
        inspector.take(&entry([0, start, 0, 0, 0]));
    }
    assert_eq!((inspector.records(), inspector.finding()), (1_000_010, None));
}

/// 9 at limit 7: three frames of 3 begin at 0, 3 and 6; a frame of 9 begins at 0. 8 has 2, 4 and 8 as
/// lengths: four frames of 2 begin below 7. 11 is a frame of 11, or none.
#[test]
fn amounts_in_frames() {
    let rows = [
        (9, 7, 1, false),
        (9, 7, 2, false),
        (9, 7, 3, true),
        (8, 7, 1, false),
        (8, 7, 2, true),
        (7, 7, 1, true),
        (11, 7, 10, false),
        (11, 7, 11, true),
        (0, 0, 1, true),
        (1, 0, 65_535, false),
        (0, 7, 5, true),
        (65_535, 1, 65_535, true),
        (65_536, 1, 65_535, false),
        (65_536, 2, 65_535, false),
        (1_048_560, 1_000_000, 65_535, true),
        (1_048_561, 1_000_000, 65_535, false),
        (u32::MAX, 1_000_000, 65_535, false),
        (u32::MAX, u32::MAX, 1, true),
    ];
    for (amount, limit, frame, holds) in rows {
        assert_eq!(in_frames(amount, limit, frame), holds, "{amount} at {limit}, F {frame}");
    }
}

/// Against every ask, and against the divisors of the amount.
#[test]
fn amounts_in_frames_by_other_means() {
    for (limit, frame) in (0..14).flat_map(|limit| (1..12).map(move |frame| (limit, frame))) {
        let asks = (0..=limit + 1).flat_map(|n| (1..=frame).map(move |length| (n, length)));
        let sent: Vec<u64> =
            asks.map(|(frames, length)| Ask { frames, length }.sent(limit.into())).collect();
        for amount in 0..=limit + frame + 2 {
            let possible = sent.contains(&amount.into());
            assert_eq!(in_frames(amount, limit, frame), possible, "{amount} at {limit}, F {frame}");
        }
    }
    for place in 0..3_000 {
        let random = &mut Random::of_case(51, place);
        let (limit, frame) = (random.between32(0, 5_000), random.between32(1, 3_000));
        let amount = limit + random.between32(0, frame);
        let divides = |d: u32| d <= frame && amount % d == 0 && amount < limit + d;
        let possible = (1..=amount).take_while(|d| d * d <= amount);
        let possible = possible.into_iter().any(|d| divides(d) || divides(amount / d));
        assert_eq!(in_frames(amount, limit, frame), possible || amount == 0);
    }
}

/// FDDI: TTRT 10, w 2, S 2, F 3. The first visit takes 2 + 9 + 2: its timer is at 3 then, and late.
#[test]
fn an_fddi_log() {
    let head = Head { frame: 3, ..fddi(10) };
    let request = Request { head, stations: vec![station(2, 4, 30, 30)] };
    let plan = Plan { request, allocation: vec![2] };
    let rows = [[0, 5, 8, 2, 9], [0, 18, 0, 2, 0], [0, 22, 3, 0, 3], [0, 27, 5, 0, 6]];
    assert_eq!(found(&plan, &rows.map(entry)), None);
    let changed = |index: usize, row: [u32; 5]| {
        let mut rows = rows;
        rows[index] = row;
        found(&plan, &rows.map(entry))
    };
    assert_eq!(changed(0, [0, 5, 8, 2, 10]), Some((1, Rule::Asynchronous)));
    assert_eq!(changed(0, [0, 5, 8, 2, 8]), Some((2, Rule::Start)));
    assert_eq!(changed(1, [0, 18, 7, 2, 0]), Some((2, Rule::Limit)));
    assert_eq!(changed(2, [0, 22, 10, 0, 3]), Some((3, Rule::Limit)));
    assert_eq!(changed(3, [0, 27, 5, 3, 6]), Some((4, Rule::Synchronous)));
    // The same numbers are no log of the timely-token ring.
    let mut timely = plan.clone();
    timely.request.head.mode = Mode::Timely.number();
    assert_eq!(found(&timely, &rows.map(entry)), Some((1, Rule::Limit)));
    // A timer that starts at TTRT is late at once.
    let request = Request { head: fddi(4), stations: vec![station(4, 0, 1, 1)] };
    let plan = Plan { request, allocation: vec![0] };
    assert_eq!(found(&plan, &[[0, 0, 0, 0, 0], [0, 4, 0, 0, 0]].map(entry)), None);
}

/// 1, 2, 3 and the plan's refusals come before any finding.
#[test]
fn refusals_come_first() {
    let mut entries = worked_entries();
    entries[0] = entry([9, 0, 18, 20, 18]);
    let log = log_of(&worked_plan(), &entries).expect("sound");
    assert_eq!(printed(&log), "record 1 station\nexpected station 0, found 9\n");
    assert_eq!(printed(&log[..log.len() - 1]), "refused 1\n");
    assert_eq!(printed(&[&log[..], &[0]].concat()), "refused 3\n");
    let share = [&log[..131], &log[104..111], &log[131..]].concat();
    assert_eq!(printed(&share), "refused 2\n");
    let broken = [&log[..110], &[19], &log[111..]].concat();
    assert_eq!(printed(&broken), "refused 7\n");
    let standing = [&log[..13], &[0], &log[14..]].concat();
    assert_eq!(printed(&standing), "refused 5\n");
    assert_eq!(printed(&log[..26]), "refused 1\n");
}

/// Every log that the model writes from an opening on is accepted, whatever the counter showed; and
/// no record behind a finding plays a part.
#[test]
fn logs_of_runs() {
    let mut findings = 0;
    for (place, sort) in (0..500).flat_map(|place| Sort::ALL.map(|sort| (place, sort))) {
        let random = &mut Random::of_case(61, place);
        let (plan, script) = calls::script(random, sort);
        let (shown, at) = logs::counter(random);
        let mut entries = logs::entries(&plan, &script, Counter { shown, at });
        assert_eq!(found(&plan, &entries), None, "run {place} of {sort:?}");
        if entries.is_empty() {
            continue;
        }
        let index = random.index(entries.len());
        let rule = match &mut entries[index] {
            Entry::Visit(visit) => {
                visit.limit ^= 1;
                Rule::Limit
            }
            Entry::Mark(mark) => {
                mark.mark |= 2;
                Rule::Station
            }
        };
        let finding = found(&plan, &entries);
        assert_eq!(finding, Some((index as u64 + 1, rule)));
        entries[index + 1..].iter_mut().for_each(|entry| match entry {
            Entry::Visit(visit) => visit.start = visit.start.rotate_left(7),
            Entry::Mark(mark) => mark.station = mark.station.rotate_left(7),
        });
        assert_eq!(found(&plan, &entries), finding);
        entries.truncate(index + 1);
        assert_eq!(found(&plan, &entries), finding);
        findings += 1;
    }
    assert!(findings > 1_900, "{findings}");
}

/// The published steps on the numbers that a ring stores, with the synchronous amount free.
#[derive(Clone, PartialEq, Eq, Debug)]
struct Steps {
    trt: Vec<i64>,
    late: Vec<i64>,
    sent: Vec<i64>,
    marked: Vec<bool>,
    token: usize,
    /// What passed since the first visit; `None` before it.
    passed: Option<i64>,
}

impl Steps {
    fn opened(plan: &Plan) -> Steps {
        let stations = &plan.request.stations;
        let ttrt = i64::from(plan.request.head.ttrt);
        let walk_from = |index: usize| stations[index..].iter().map(|s| i64::from(s.walk)).sum();
        let mut trt: Vec<i64> = (0..stations.len()).map(walk_from).collect();
        let mut late = vec![0; stations.len()];
        if plan.request.mode() == Mode::Fddi {
            for (timer, count) in trt.iter_mut().zip(&mut late).filter(|(timer, _)| **timer == ttrt)
            {
                (*timer, *count) = (0, 1);
            }
        }
        let (sent, marked) = (vec![0; stations.len()], vec![false; stations.len()]);
        Steps { trt, late, sent, marked, token: 0, passed: None }
    }

    /// A visit that sends so much, and frames as asked for: limit, asynchronous time, and what is after.
    fn visit(&self, plan: &Plan, synchronous: i64, ask: (i64, i64)) -> (i64, i64, Steps) {
        let (mut next, here) = (self.clone(), self.token);
        let head = plan.request.head;
        let (ttrt, overrun) = (i64::from(head.ttrt), i64::from(head.frame) - 1);
        let unmarked = match plan.request.mode() {
            Mode::Timely | Mode::Earlier => {
                let unused: i64 = plan
                    .allocation
                    .iter()
                    .zip(&self.sent)
                    .map(|(&s, sent)| i64::from(s) - sent)
                    .sum();
                next.trt[here] = 0;
                (ttrt - overrun - unused - self.trt[here]).max(0)
            }
            Mode::Fddi if self.late[here] > 0 => {
                next.late[here] -= 1;
                0
            }
            Mode::Fddi => {
                next.trt[here] = 0;
                ttrt - self.trt[here]
            }
        };
        let limit = if self.marked[here] { 0 } else { unmarked };
        let (mut frames, length) = ask;
        let mut asynchronous = 0;
        while frames > 0 && asynchronous < limit {
            frames -= 1;
            asynchronous += length;
        }
        next.sent[here] = synchronous;
        if plan.request.mode() == Mode::Earlier {
            // The timer goes to 0 behind the asynchronous part.
            next.trt[here] = -asynchronous;
        }
        let span = synchronous + asynchronous + i64::from(plan.request.stations[here].walk);
        for (timer, count) in next.trt.iter_mut().zip(&mut next.late) {
            *timer += span;
            while plan.request.mode() == Mode::Fddi && *timer >= ttrt {
                *timer -= ttrt;
                *count += 1;
            }
        }
        next.token = (here + 1) % plan.allocation.len();
        next.passed = Some(self.passed.unwrap_or(0) + span);
        (limit, asynchronous, next)
    }

    /// Every visit's record that may be next, with what is after it.
    fn visits(&self, plan: &Plan, first: i64) -> Vec<([i64; 5], Steps)> {
        let s = if self.marked[self.token] { 0 } else { i64::from(plan.allocation[self.token]) };
        let (most, frame) = (i64::from(plan.request.head.ttrt) + 1, plan.request.head.frame.into());
        let start = self.passed.map_or(first, |passed| (first + passed).rem_euclid(1 << 32));
        let mut possible = vec![];
        for synchronous in 0..=s {
            for (frames, length) in (0..=most).flat_map(|n| (1..=frame).map(move |l| (n, l))) {
                let (limit, asynchronous, next) = self.visit(plan, synchronous, (frames, length));
                let record = [self.token as i64, start, limit, synchronous, asynchronous];
                if !possible.contains(&(record, next.clone())) {
                    possible.push((record, next));
                }
            }
        }
        possible
    }

    /// What is after every marking and unmarking that may be next and has this record.
    fn marked(&self, entry: &MarkEntry) -> Vec<Steps> {
        let every = (0..self.marked.len()).flat_map(|station| [0, 1].map(|mark| (station, mark)));
        let given = (entry.station.into(), entry.mark);
        let of = |(station, mark): (usize, u8)| {
            let mut next = self.clone();
            next.marked[station] = mark == 1;
            next
        };
        every.filter(|&it| it == given).map(of).collect()
    }
}

/// The first record that no run gives, and the first rule up to which none does, by trying every
/// synchronous amount and every ask at every visit.
fn by_every_run(plan: &Plan, entries: &[Entry]) -> Option<(u64, Rule)> {
    let mut rings = vec![Steps::opened(plan)];
    let mut first = None;
    for (place, entry) in entries.iter().enumerate() {
        let visit = match entry {
            Entry::Visit(visit) => visit,
            Entry::Mark(mark) => {
                rings = rings.iter().flat_map(|ring| ring.marked(mark)).collect();
                if rings.is_empty() {
                    return Some((place as u64 + 1, Rule::Station));
                }
                continue;
            }
        };
        let first = i64::from(*first.get_or_insert(visit.start));
        let every = rings.iter().flat_map(|ring| ring.visits(plan, first));
        let mut possible: Vec<([i64; 5], Steps)> = every.collect();
        let VisitEntry { station, start, limit, synchronous, asynchronous } = *visit;
        let given = [station.into(), start, limit, synchronous, asynchronous].map(i64::from);
        for (index, rule) in Rule::ALL.into_iter().enumerate() {
            possible.retain(|(record, _)| record[index] == given[index]);
            if possible.is_empty() {
                return Some((place as u64 + 1, rule));
            }
        }
        rings = possible.into_iter().map(|(_, next)| next).collect();
    }
    None
}

/// A small plan that is sound: few stations, a short TTRT, a short F.
fn small_plan(random: &mut Random) -> Option<Plan> {
    let ttrt = random.between32(2, 8);
    let count = random.index(3) + 1;
    let walk_sum = random.between32(1, ttrt);
    let walks = random.split(walk_sum, count);
    let stations = walks.iter().map(|&walk| station(walk, 0, 1, 1)).collect();
    let mode = random.pick(&Mode::ALL);
    let head = Head { frame: random.pick(&[1, 1, 2, 3, 4]), ..Head::new(ttrt, mode) };
    let most = ttrt - walk_sum;
    let shared = random.between32(0, most);
    let allocation = random.split(shared, count);
    let plan = Plan { request: Request { head, stations }, allocation };
    plan.judge().is_ok().then_some(plan)
}

/// One number of a log moved a little.
fn change(random: &mut Random, entry: &mut Entry) {
    let by = random.pick(&[1, 2, u32::MAX, u32::MAX - 1]);
    let entry = match entry {
        Entry::Visit(visit) => visit,
        Entry::Mark(mark) => {
            let number = random.pick(&[true, false]);
            let number = if number { &mut mark.station } else { &mut mark.mark };
            *number = number.wrapping_add(by as u8);
            return;
        }
    };
    let number = match random.between(0, 4) {
        0 => {
            entry.station = entry.station.wrapping_add(by as u8);
            return;
        }
        1 => &mut entry.start,
        2 => &mut entry.limit,
        3 => &mut entry.synchronous,
        _ => &mut entry.asynchronous,
    };
    *number = number.wrapping_add(by);
}

#[test]
fn the_relation_on_small_sets() {
    relation(71, 6_000, Sort::TIMELY);
}

/// With marks among the records.
#[test]
fn the_relation_with_marks() {
    relation(73, 6_000, Sort::MARKED);
}

/// The sort says only whether there are marks.
fn relation(seed: u64, logs: u64, sort: Sort) {
    let mut counts = [0; 6];
    for place in 0..logs {
        let random = &mut Random::of_case(seed, place);
        let Some(plan) = small_plan(random) else { continue };
        let mut entries = logs::free_run(random, &plan, 5, sort);
        if random.once_in(3) && !entries.is_empty() {
            let index = random.index(entries.len());
            change(random, &mut entries[index]);
        }
        let finding = found(&plan, &entries);
        assert_eq!(finding, by_every_run(&plan, &entries), "{plan:?}, {entries:?}");
        counts[finding.map_or(5, |(_, rule)| rule as usize)] += 1;
    }
    assert!(counts.iter().all(|&count| count > 50), "{counts:?}");
}
