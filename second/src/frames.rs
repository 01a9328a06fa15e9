//! Framed cases, one on a line, and the one line of answer to each. README.md has the format.

use crate::check::WatchedRing;
use crate::hopper::{read_wagon, read_wagons, show_wagons, Change, Train, MOST_WAGONS};
use crate::inspect::{inspected, judge_to_inspect, Inspector};
use crate::local::local;
use crate::log::{noted, Counter, Recorder};
use crate::notation::{from_hex, joined, number, parse, read_head, show_set, to_hex, whole};
use crate::page::page;
use crate::planner;
use crate::planted::Planted;
use crate::ring::Ring;
use crate::rules::{Entry, MarkEntry, VisitEntry, MOST_STATIONS};
use crate::rules::{Mode, Plan, Refusal, Request, Station};
use crate::sheet::{read_log, read_plan, read_plan_with, read_request};
use crate::sheet::{write_plan, write_request};
use crate::state::{Place, State};
use crate::store::Area;
use crate::streams::{departures, Streams};
use crate::text::{answer_line, ask, call, Answer, Call};

/// What is answered to a line that is no case.
pub const NO_CASE: &str = "no case";

/// A line of more bytes is no case, unless it is a command, whose input may have any length.
const MOST_BYTES: usize = 65_535;

/// The line of answer to a line of bytes, both without their newlines.
pub fn answer_bytes(line: &[u8], planted: Planted) -> String {
    if line.len() > MOST_BYTES && !line.starts_with(b"command ") {
        return NO_CASE.to_string();
    }
    answer(&String::from_utf8_lossy(line), planted)
}

/// The line of answer to a case, without its newline.
pub fn answer(case: &str, planted: Planted) -> String {
    try_answer(case, planted).unwrap_or_else(|| NO_CASE.to_string())
}

fn try_answer(case: &str, planted: Planted) -> Option<String> {
    let (kind, rest) = case.split_once(' ')?;
    match kind {
        "request" => Some(line(read_request(&from_hex(rest)?), |set| counted(&set, &[]))),
        "plan" => {
            let plan = read_plan_with(&from_hex(rest)?, planted);
            Some(line(plan, |plan| counted(&plan.request, &plan.allocation)))
        }
        "planning" => planning(rest, planted),
        "rivals" => rivals(rest),
        "write-request" => writing_request(rest),
        "write-plan" => writing_plan(rest),
        "open" => opening(rest, planted),
        "run" => running(rest, planted, |answers, _| answers.join("|")),
        "ring" => running(rest, planted, |_, ring| ring.show()),
        "state" => any_state(rest, planted),
        "log" => {
            Some(line(read_log(&from_hex(rest)?), |(plan, entries)| show_log(&plan, &entries)))
        }
        "record" => recording(rest, planted, false),
        "record-on" => recording(rest, planted, true),
        "inspect" => {
            Some(line(log_to_inspect(rest, planted)?, |(plan, entries)| {
                match inspected(&plan, &entries, planted) {
                    (records, None) => format!("accepted {records}"),
                    (_, Some(finding)) => finding.to_string(),
                }
            }))
        }
        "store" => storing(rest, planted),
        "inspect-of" => inspecting_of(rest, planted),
        "train" => any_train(rest, planted),
        "command" => command(rest, planted),
        _ => None,
    }
}

/// `0` and what was answered, or the number alone.
fn line<T>(answer: Result<T, Refusal>, show: impl FnOnce(T) -> String) -> String {
    match answer {
        Ok(answered) => format!("0 {}", show(answered)).trim_end().to_string(),
        Err(refusal) => refusal.number().to_string(),
    }
}

fn counted(request: &Request, allocation: &[u32]) -> String {
    format!("{} {}", request.stations.len(), show_set(request, allocation))
}

fn planning(rest: &str, planted: Planted) -> Option<String> {
    let mut parts = rest.split(';');
    let request = read_set(&mut parts)?;
    let show = |plan: Plan| format!("{} {}", plan.spare(), joined(&plan.allocation));
    Some(line(planner::plan(&request, planted), show))
}

/// What a set would have in FDDI: its least vector, and what the local rule gives it with a = 1 and with
/// a = 1/3, each where it keeps FDDI's rules.
fn rivals(rest: &str) -> Option<String> {
    let mut request = read_set(&mut rest.split(';'))?;
    request.head.mode = Mode::Fddi.number();
    if let Err(refusal) = request.judge() {
        return Some(refusal.number().to_string());
    }
    let keeps = |allocation: Vec<u32>| {
        let plan = Plan { request: request.clone(), allocation };
        plan.judge().ok().map(|()| joined(&plan.allocation))
    };
    let least = planner::least_plan(&request).ok().map(|plan| plan.allocation);
    let each = [least, local(&request, 1), local(&request, 3)];
    let shown = each.map(|it| it.and_then(keeps).unwrap_or("-".to_string()));
    Some(format!("0 {}", shown.join("|")))
}

fn writing_request(rest: &str) -> Option<String> {
    let mut parts = rest.split(';');
    let room = parse(parts.next()?)?;
    let request = read_set(&mut parts)?;
    Some(line(write_request(&request, room), |bytes| to_hex(&bytes)))
}

fn writing_plan(rest: &str) -> Option<String> {
    let mut parts = rest.split(';');
    let room = parse(parts.next()?)?;
    let plan = read_planset(&mut parts)?;
    Some(line(write_plan(&plan, room), |bytes| to_hex(&bytes)))
}

fn opening(rest: &str, planted: Planted) -> Option<String> {
    let plan = read_planset(&mut rest.split(';'))?;
    Some(line(Ring::open(&plan, planted), |ring| show_ring(&ring)))
}

fn read_planset<'a>(parts: &mut impl Iterator<Item = &'a str>) -> Option<Plan> {
    let head = read_head(parts.next()?)?;
    let mut plan = Plan { request: Request { head, stations: vec![] }, allocation: vec![] };
    for part in parts {
        let (numbers, s) = part.rsplit_once(',')?;
        plan.request.stations.push(read_station(numbers)?);
        plan.allocation.push(parse(s)?);
    }
    Some(plan)
}

fn read_set<'a>(parts: &mut impl Iterator<Item = &'a str>) -> Option<Request> {
    let head = read_head(parts.next()?)?;
    let stations: Option<Vec<Station>> = parts.map(read_station).collect();
    Some(Request { head, stations: stations? })
}

fn read_station(part: &str) -> Option<Station> {
    let numbers: Option<Vec<u32>> = part.split(',').map(parse).collect();
    let [walk, longest, deadline, gap] = numbers?[..] else {
        return None;
    };
    Some(Station { walk, longest, deadline, gap })
}

/// A ring with calls on it: on its time line, where it is one that an opening gives or used to give,
/// and else the numbers that it stores.
enum AnyRing {
    Watched(WatchedRing),
    Stored(State),
}

impl AnyRing {
    /// A ring of any numbers.
    fn of(state: State, planted: Planted) -> AnyRing {
        if planted.is_of_states() || !state.is_opened() {
            return AnyRing::Stored(state);
        }
        let ring = Ring::opened(&state.plan, planted).expect("judged");
        AnyRing::Watched(WatchedRing::new(ring, planted))
    }

    fn plan(&self) -> &Plan {
        match self {
            AnyRing::Watched(ring) => ring.ring().plan(),
            AnyRing::Stored(state) => &state.plan,
        }
    }

    fn answer(&mut self, call: &Call, planted: Planted) -> Result<Answer, Refusal> {
        match self {
            AnyRing::Watched(ring) => ring.answer(call),
            AnyRing::Stored(state) => state.answer_with(call, planted),
        }
    }

    fn show(&self) -> String {
        match self {
            AnyRing::Watched(ring) => show_ring(ring.ring()),
            AnyRing::Stored(state) => show_state(state),
        }
    }
}

/// The ring of a plan sheet, opened; the number is the sheet's, or the opening's.
fn opened(sheet: &str, planted: Planted) -> Option<Result<AnyRing, Refusal>> {
    let opened = read_plan(&from_hex(sheet)?).and_then(|plan| Ring::open(&plan, planted));
    Some(opened.map(|ring| AnyRing::Watched(WatchedRing::new(ring, planted))))
}

/// How many of the parts are numbers: those behind them are calls.
fn numbers(parts: &[&str]) -> usize {
    let is_call = |part: &&str| !part.starts_with(|first: char| first.is_ascii_digit());
    parts.iter().position(is_call).unwrap_or(parts.len())
}

/// Opens the ring, makes every call, and shows the answers or the ring after them.
fn running(
    rest: &str,
    planted: Planted,
    show: impl FnOnce(Vec<String>, &AnyRing) -> String,
) -> Option<String> {
    let mut parts = rest.split(';');
    let opened = opened(parts.next()?, planted)?;
    let steps = read_steps(parts)?;
    let answered = |mut ring: AnyRing| {
        let answer = |step: &Step| step.answer(|call| ring.answer(call, planted));
        let answers = steps.iter().map(answer).collect();
        show(answers, &ring)
    };
    Some(line(opened, answered))
}

/// `PLANSET|STATION,START,LIMIT,SYNC,ASYNC|...`, and `STATION,MARK` for a mark.
fn show_log(plan: &Plan, entries: &[Entry]) -> String {
    let mut parts = vec![show_set(&plan.request, &plan.allocation)];
    for entry in entries {
        parts.push(match *entry {
            Entry::Visit(VisitEntry { station, start, limit, synchronous, asynchronous }) => {
                joined(&[station.into(), start, limit, synchronous, asynchronous])
            }
            Entry::Mark(MarkEntry { station, mark }) => joined(&[station, mark]),
        });
    }
    parts.join("|")
}

/// Begins a log of a ring that is opened, or of one that is there (`record-on`), makes every call and
/// adds every record, until one does not fit.
fn recording(rest: &str, planted: Planted, given: bool) -> Option<String> {
    let parts: Vec<&str> = rest.split(';').collect();
    let [room, counter, ring @ ..] = &parts[..] else {
        return None;
    };
    let (shown, at) = counter.split_once(',')?;
    let counter = Counter { shown: parse(shown)?, at: parse(at)? };
    let (ring, calls) = match given {
        true => {
            let (numbers, calls) = ring.split_at(numbers(ring));
            (Ok(AnyRing::of(State::read(numbers)?, planted)), calls)
        }
        false => (opened(ring.first()?, planted)?, &ring[1..]),
    };
    let (room, steps) = (parse(room)?, read_steps(calls.iter().copied())?);
    let begun = ring.and_then(|ring| {
        let recorder = Recorder::begin(ring.plan(), room)?;
        Ok((ring, recorder))
    });
    let (mut ring, mut recorder) = match begun {
        Ok(begun) => begun,
        Err(refusal) => return Some(refusal.number().to_string()),
    };
    let make = |call: &Call| ring.answer(call, planted);
    let added = add_records(make, &mut recorder, counter, &steps);
    let number = added.map_or_else(Refusal::number, |()| 0);
    Some(format!("{number} {}", to_hex(&recorder.end())))
}

fn add_records(
    mut make: impl FnMut(&Call) -> Result<Answer, Refusal>,
    recorder: &mut Recorder,
    counter: Counter,
    steps: &[Step],
) -> Result<(), Refusal> {
    for step in steps {
        for _ in 0..step.times {
            let answer = make(&step.call);
            if let Some(entry) = noted(&step.call, &answer, counter) {
                recorder.add(&entry)?;
            }
            if answer.is_err() {
                break;
            }
        }
    }
    Ok(())
}

/// Makes every call on a state; shows the answers, and then the state. A state that an opening gives,
/// or used to give, is followed twice, on the ring's time line too.
fn any_state(rest: &str, planted: Planted) -> Option<String> {
    let parts: Vec<&str> = rest.split(';').collect();
    let (numbers, calls) = parts.split_at(numbers(&parts));
    let state = State::read(numbers)?;
    let steps = read_steps(calls.iter().copied())?;
    let shown = |mut ring: AnyRing| {
        let answer = |step: &Step| step.answer(|call| ring.answer(call, planted));
        let answers: Vec<String> = steps.iter().map(answer).collect();
        [answers, vec![ring.show()]].concat().join("|")
    };
    let said = shown(AnyRing::of(state.clone(), planted));
    if planted == Planted::Nothing {
        assert_eq!(said, shown(AnyRing::Stored(state)), "both models agree");
    }
    Some(said)
}

/// A log, or its number.
type Log = Result<(Plan, Vec<Entry>), Refusal>;

/// A log to inspect.
fn log_to_inspect(log: &str, planted: Planted) -> Option<Log> {
    let log = read_log(&from_hex(log)?);
    Some(log.and_then(|(plan, entries)| judge_to_inspect(&plan, planted).map(|()| (plan, entries))))
}

/// A call, made one or more times until it is refused; the last answer counts.
struct Step {
    times: u64,
    call: Call,
}

impl Step {
    fn answer(&self, mut make: impl FnMut(&Call) -> Result<Answer, Refusal>) -> String {
        let mut answer = make(&self.call);
        for _ in 1..self.times {
            if answer.is_err() {
                break;
            }
            answer = make(&self.call);
        }
        answer_line(answer)
    }
}

fn read_steps<'a>(parts: impl Iterator<Item = &'a str>) -> Option<Vec<Step>> {
    parts.map(read_step).collect()
}

/// A call as text, or `visits COUNT` and what is asked for.
fn read_step(part: &str) -> Option<Step> {
    let words: Vec<&[u8]> = part.split(' ').map(str::as_bytes).collect();
    if let [b"visits", times, asked @ ..] = &words[..] {
        let times = number(times).filter(|&times| times > 0)?;
        return Some(Step { times, call: Call::Visit(ask(asked)?) });
    }
    Some(Step { times: 1, call: call(&words)? })
}

/// `CLOCK,TOKEN,VISITS,U;TRT,s,REMAINING,HAD,ARRIVAL,LAST;...`, of the first 128 places.
fn ring_text(head: [i128; 4], places: impl Iterator<Item = Vec<i128>>) -> String {
    let places = places.take(MOST_STATIONS).map(|place| joined(&place));
    let parts: Vec<String> = std::iter::once(joined(&head)).chain(places).collect();
    parts.join(";")
}

/// A ring that has no time of a visit or a message yet stores 0 for it. A late count and a mark
/// stand behind, up to the last of the two that is not 0.
fn show_ring(ring: &Ring) -> String {
    let place = |index: usize| {
        let remaining = ring.held(index).map_or(0, |held| held.remaining);
        let accepted = ring.last_accepted(index);
        let had = i64::from(accepted.is_some());
        let [arrival, last] = [accepted, ring.last_start(index)].map(|time| time.unwrap_or(0));
        let timer = [ring.trt(index), ring.sent(index), remaining, had, arrival, last];
        let further = [ring.late(index), ring.marked(index).into()];
        let shown = further.iter().rposition(|&number| number != 0).map_or(0, |place| place + 1);
        timer.iter().chain(&further[..shown]).map(|&number| number.into()).collect()
    };
    let (token, visits) = (ring.token() as i128, ring.visits().into());
    let head = [ring.clock().into(), token, visits, ring.unused().into()];
    ring_text(head, (0..ring.size()).map(place))
}

fn show_state(state: &State) -> String {
    let head = [state.clock.into(), state.token.into(), state.visits.into(), state.unused.into()];
    ring_text(head, state.places.iter().map(Place::numbers))
}

/// The longest area that a case has.
const MOST_AREA: usize = 65_600;

/// `LENGTH,HEX`: the bytes, and zeros behind them up to the length.
fn read_area(part: &str) -> Option<Vec<u8>> {
    let (length, hex) = part.split_once(',')?;
    let (length, mut bytes): (usize, _) = (parse(length)?, from_hex(hex)?);
    if bytes.len() > length || length > MOST_AREA {
        return None;
    }
    bytes.resize(length, 0);
    Some(bytes)
}

/// The bytes of an area without the zeros at its end.
fn show_area(bytes: &[u8]) -> String {
    let used = bytes.iter().rposition(|&byte| byte != 0).map_or(0, |last| last + 1);
    to_hex(&bytes[..used])
}

/// The `store` case: an area and calls on it, their answers, and the area after them.
fn storing(rest: &str, planted: Planted) -> Option<String> {
    let mut parts = rest.split(';');
    let mut area = Area::new(read_area(parts.next()?)?, planted);
    let answers: Option<Vec<String>> = parts.map(|part| on_area(part, &mut area)).collect();
    let mut said = answers?;
    said.push(show_area(&area.bytes));
    Some(said.join("|"))
}

/// One call on an area, and its answer.
fn on_area(part: &str, area: &mut Area) -> Option<String> {
    let words: Vec<&str> = part.split(' ').collect();
    let stored = |number: u32| format!("version {number}");
    let said = match words[..] {
        ["empty"] => area.empty().map(|()| "emptied".to_string()),
        ["store", sheet] => area.store(&from_hex(sheet)?).map(stored),
        ["stores", count, sheet] => {
            let (count, sheet): (u32, _) = (parse(count)?, from_hex(sheet)?);
            (0..count).map(|_| area.store(&sheet).map(stored)).last()?
        }
        ["find", number] => {
            let found = area.find(parse(number)?);
            found.map(|at| format!("found {} {}", at.start, to_hex(&area.bytes[at.clone()])))
        }
        ["versions"] => area.versions().map(|(old, new)| format!("versions {old} {new}")),
        ["byte", place, value] => {
            *area.bytes.get_mut(parse::<usize>(place)?)? = parse(value)?;
            Ok("byte".to_string())
        }
        _ => return None,
    };
    Some(said.unwrap_or_else(|refusal| format!("refused {}", refusal.number())))
}

/// A plan sheet and a log: which side is refused, whether the log has another plan, or what is found.
fn inspecting_of(rest: &str, planted: Planted) -> Option<String> {
    let (plan, log) = rest.split_once(';')?;
    let (plan, log) = (read_plan(&from_hex(plan)?), log_to_inspect(log, planted)?);
    Some(match (plan, log) {
        (Err(refusal), _) => format!("plan {}", refusal.number()),
        (_, Err(refusal)) => refusal.number().to_string(),
        (Ok(plan), Ok((own, entries))) => {
            let mut inspector = Inspector::new(&own, planted);
            entries.iter().for_each(|entry| inspector.take(entry));
            match inspector.finding() {
                _ if !departures(&plan, &own, planted).is_empty() => "another plan".to_string(),
                Some(finding) => format!("0 {finding}"),
                None => format!("0 accepted {} {}", inspector.records(), inspector.visits()),
            }
        }
    })
}

/// Couples a train, makes every call on it, and shows the answers and the list that is in force, at
/// most twelve of its wagons. A train whose coupling is refused is blank.
fn any_train(rest: &str, planted: Planted) -> Option<String> {
    let mut parts = rest.split(';');
    let list = read_wagons(parts.next()?)?;
    let mut train = Train::default();
    let mut shown = vec![];
    let answer = train.relist(list, planted);
    shown.push(train_line(&train, answer));
    for part in parts {
        let answer = match part.split(' ').collect::<Vec<&str>>()[..] {
            ["change", place, wagon] => {
                train.change(&Change::Other(parse(place)?, read_wagon(wagon)?), planted)
            }
            ["couple", wagon] => train.change(&Change::Couple(read_wagon(wagon)?), planted),
            ["uncouple"] => train.change(&Change::Uncouple, planted),
            ["list", list] => train.relist(read_wagons(list)?, planted),
            ["given", list] => {
                train = Train { list: read_wagons(list)?, plan: None };
                continue;
            }
            _ => return None,
        };
        shown.push(train_line(&train, answer));
    }
    shown.push(show_wagons(&train.list[..train.list.len().min(MOST_WAGONS)]));
    Some(shown.join("|"))
}

fn train_line(train: &Train, answer: Result<(), Refusal>) -> String {
    line(answer, |()| joined(&train.plan.as_ref().expect("accepted").allocation))
}

/// The `command` case: `NAME;HEX`, `run;HEXPLAN;HEX` and the same with `log`, `diff;HEX;HEX`,
/// `inspect;HEX;HEX`, `page;HEX`, `page;HEX;HEX`, `refit;HEX;HEX`, `tune;FROM;TO;HEX`, and those of
/// stores.
fn command(rest: &str, planted: Planted) -> Option<String> {
    let parts: Vec<&str> = rest.split(';').collect();
    let mut streams = Streams { out: vec![], err: vec![] };
    match parts[..] {
        ["run", plan, calls] => {
            streams.run(&from_hex(plan)?, &from_hex(calls)?[..], planted).ok()?;
        }
        ["log", plan, calls] => {
            streams.log(&from_hex(plan)?, &from_hex(calls)?[..], planted).ok()?;
        }
        ["tune", from, to, request] if whole(from) && whole(to) => {
            streams.tune(Some([from, to]), &from_hex(request)?[..], planted).ok()?;
        }
        ["kept", area, number] => streams.kept(read_area(area)?, number, planted).ok()?,
        ["versions", area] => streams.versions(&read_area(area)?).ok()?,
        ["keep", area, plan] => return keeping(read_area(area)?, &from_hex(plan)?, planted),
        ["inspect", plan, log] => {
            streams.inspect_of(&from_hex(plan)?, &from_hex(log)?[..], planted).ok()?;
        }
        ["page", log] => {
            streams.out = page(None, &from_hex(log)?, planted).ok()?.into_bytes();
        }
        ["page", plan, log] => {
            let plan = from_hex(plan)?;
            streams.out = page(Some(&plan), &from_hex(log)?, planted).ok()?.into_bytes();
        }
        ["refit", list, changes] => {
            streams.refit(&from_hex(list)?, &from_hex(changes)?[..], planted).ok()?;
        }
        ["diff", old, new] => streams.diff(&from_hex(old)?, &from_hex(new)?, planted).ok()?,
        [name, input] => {
            let input = from_hex(input)?;
            streams.simple(name, &input[..], planted).ok().filter(|&known| known)?;
        }
        _ => return None,
    };
    Some(format!("{} {}", to_hex(&streams.out), to_hex(&streams.err)))
}

/// The `command` case of `keep`: both streams, and the store after it.
fn keeping(area: Vec<u8>, plan: &[u8], planted: Planted) -> Option<String> {
    let mut streams = Streams { out: vec![], err: vec![] };
    let mut area = Area::new(area, planted);
    streams.keep(area.store(plan)).ok()?;
    Some(format!("{} {} {}", to_hex(&streams.out), to_hex(&streams.err), show_area(&area.bytes)))
}
