//! The page about a log, in HTML: what is found in it, what that means, the plan, what each station did
//! before the named record, and a picture of the rotations. The whole log is in memory.

pub mod picture;
pub mod records;
pub mod words;

use std::collections::BTreeSet;
use std::io;

use crate::inspect::{Inspector, Rule};
use crate::planted::Planted;
use crate::rules::{Entry, MarkEntry, Mode, Plan, Refusal, Station, VisitEntry};
use crate::sheet::read_log;
use crate::streams::{found, Found};
use picture::{picture, rotations, Named};
use records::{seen, switched_through, Seen};
use words::VERSION;

/// The page of a log, which may have to keep a plan.
pub fn page(plan: Option<&[u8]>, log: &[u8], planted: Planted) -> io::Result<String> {
    let held = plan.is_some();
    let found = found(plan, log, planted)?;
    let means = match &found {
        Found::PlanRefused(refusal) | Found::Refused(refusal) => refused(*refusal),
        Found::Another(_) => [words::MEANS, words::ANOTHER].concat(),
        Found::Judged(inspector) => {
            let (plan, entries) = read_log(log).expect("it was judged");
            let held = if held { words::PLAN_NAMED } else { words::NO_PLAN_NAMED };
            [held, &judged(&plan, &entries, inspector, planted)].concat()
        }
    };
    let foot = format!(
        "<footer>\n<p>Olivastrum {VERSION}. The log has {} bytes.</p>\n</footer>\n</body>\n</html>\n",
        log.len()
    );
    Ok([words::HEAD, &large(&found), &means, &foot].concat())
}

/// The finding in its own words, below one that says it without colours.
fn large(found: &Found) -> String {
    let (class, word) = match found {
        Found::PlanRefused(_) | Found::Refused(_) => ("bad", "NOT JUDGED"),
        Found::Another(_) => ("bad", "ANOTHER PLAN"),
        Found::Judged(inspector) if inspector.finding().is_some() => ("bad", "A RULE IS BROKEN"),
        Found::Judged(_) => ("good", "ACCEPTED"),
    };
    format!(
        "<div class=\"{class}\">\n<p class=\"word\">{word}</p>\n\
         <pre class=\"finding\">{found}</pre>\n</div>\n"
    )
}

fn refused(refusal: Refusal) -> String {
    [words::sentence(refusal.number()), words::NOT_JUDGED].concat()
}

/// All behind the finding of a log whose records were judged.
fn judged(plan: &Plan, entries: &[Entry], inspector: &Inspector, planted: Planted) -> String {
    let place = inspector.finding().map(|finding| finding.record as usize - 1);
    let kept = place.unwrap_or(entries.len());
    let (visits, through) = (seen(plan, entries), switched_through(&entries[..kept]));
    let named = place.map(|place| Named { place, mark: mark_of(&entries[place]) });
    let drawn = match rotations(plan.request.stations.len(), &visits, named) {
        0 => "<p>The log has no visit.</p>\n".to_string(),
        all => {
            let (shown, text) = picture(plan, &visits, named, planted);
            let (from, to) = (shown.start + 1, shown.end);
            format!("<p>Rotations {from} to {to} of {all}.</p>\n{}{text}", words::KEY)
        }
    };
    [
        &meaning(place, visits.is_empty()),
        &place.map_or(String::new(), |place| named_table(&entries[place], place, inspector)),
        &plan_tables(plan),
        &did(plan, &visits, kept, place, planted),
        &still_through(&through, place),
        words::PICTURE,
        &drawn,
    ]
    .concat()
}

fn mark_of(entry: &Entry) -> Option<MarkEntry> {
    match entry {
        Entry::Mark(mark) => Some(*mark),
        Entry::Visit(_) => None,
    }
}

fn meaning(named: Option<usize>, empty: bool) -> String {
    let first = match named {
        None if empty => words::NO_VISIT.to_string(),
        None => words::ACCEPTED.to_string(),
        Some(place) => format!(
            "<p>Record {} is the first that breaks a rule. All records before it keep every rule. \
             What comes behind it was not judged.</p>\n",
            place + 1
        ),
    };
    [words::MEANS, &first, words::RULES].concat()
}

/// What each rule expects of the named record, what is there, and where the first comes from.
fn named_table(entry: &Entry, place: usize, inspector: &Inspector) -> String {
    let broken = inspector.finding().expect("a record is named").rule;
    let rows = match entry {
        Entry::Visit(visit) => visit_rows(visit, inspector),
        Entry::Mark(MarkEntry { station, mark }) => {
            let count = inspector.plan().request.stations.len();
            let expected = format!("below {count}, mark 0 or 1");
            let found = format!("{station}, mark {mark}");
            vec![(Rule::Station, expected, found, "N of the plan".to_string())]
        }
    };
    let kind = if mark_of(entry).is_some() { "mark" } else { "visit" };
    let mut text = format!("<h3>Record {}, a {kind}</h3>\n{}", place + 1, words::NAMED_HEAD);
    for (rule, expected, found, source) in rows {
        let (class, word) = match rule.cmp(&broken) {
            std::cmp::Ordering::Less => ("", "kept"),
            std::cmp::Ordering::Equal => (" class=\"bad\"", "broken"),
            std::cmp::Ordering::Greater => ("", "not judged"),
        };
        text += &format!(
            "<tr{class}><td>{word}</td><td>{rule}</td><td>{expected}</td><td>{found}</td>\
             <td>{source}</td></tr>\n"
        );
    }
    text + words::NAMED_END
}

/// A rule, what it expects, what is found, and where the first comes from.
type RuleRow = (Rule, String, String, String);

fn visit_rows(visit: &VisitEntry, inspector: &Inspector) -> Vec<RuleRow> {
    let VisitEntry { station, start, limit, synchronous, asynchronous } = *visit;
    let head = inspector.plan().request.head;
    let through = "the station is switched through".to_string();
    let (start_expected, start_source) = match inspector.before() {
        None => ("any".to_string(), "the first visit may start at any moment".to_string()),
        Some((before, took)) => (
            inspector.counter().to_string(),
            format!("start of the visit before {before}, and what it took, {took}"),
        ),
    };
    let (ttrt, timer) = (head.ttrt, inspector.timer());
    let limit_source = match inspector.plan().request.mode() {
        _ if inspector.marked() => through.clone(),
        Mode::Fddi => format!("TTRT {ttrt} - timer {timer}, held at 0"),
        Mode::Timely | Mode::Earlier => {
            let (overrun, unused) = (head.overrun(), inspector.unused());
            format!("TTRT {ttrt} - (F - 1) {overrun} - u {unused} - TRT {timer}, held at 0")
        }
    };
    let share_source = if inspector.marked() { through } else { "S of the station".to_string() };
    let (frames_expected, frames_source) = match (inspector.limit(), head.frame) {
        (limit, 1) => (format!("at most {limit}"), "the limit".to_string()),
        (limit, frame) => (
            format!("begun below {limit}"),
            format!("the limit; whole frames of one length up to F {frame}"),
        ),
    };
    let turn = "the station whose turn it is".to_string();
    let share = format!("at most {}", inspector.share());
    vec![
        (Rule::Station, inspector.station().to_string(), station.to_string(), turn),
        (Rule::Start, start_expected, start.to_string(), start_source),
        (Rule::Limit, inspector.limit().to_string(), limit.to_string(), limit_source),
        (Rule::Synchronous, share, synchronous.to_string(), share_source),
        (Rule::Asynchronous, frames_expected, asynchronous.to_string(), frames_source),
    ]
}

/// The plan's numbers, its stations and what is promised of it.
fn plan_tables(plan: &Plan) -> String {
    let Plan { request, allocation } = plan;
    let mode = match request.mode() {
        Mode::Timely => "1, timely-token, 2003 edition",
        Mode::Fddi => "2, FDDI, which is retired",
        Mode::Earlier => "3, timely-token, 2002 edition",
    };
    let or_none = |number: u32, none: &str| match number {
        1 => format!("1 ({none})"),
        _ => number.to_string(),
    };
    let frame = or_none(request.head.frame, "no frames: asynchronous traffic may stop at any tick");
    let grid = or_none(request.head.grid, "no grid: S may be any whole number");
    let numbers = [
        ("TTRT, the target time of a rotation", request.head.ttrt.to_string()),
        ("mode", mode.to_string()),
        ("F, the longest asynchronous frame", frame),
        ("g, the step in which S is held", grid),
        ("tau, all walk times together", request.walk_sum().to_string()),
        ("the sum of all S", plan.allocated().to_string()),
        ("A*, the spare time", plan.spare().to_string()),
    ];
    let numbers = numbers.map(|(name, number)| cells(&[name, &number])).concat();
    let stations: String =
        request.stations.iter().zip(allocation).enumerate().map(station_row).collect();
    let promises: String =
        promised(plan).iter().map(|promise| format!("<li>{promise}</li>\n")).collect();
    format!(
        "<h2>The plan</h2>\n<table>\n{numbers}{}{stations}</table>\n\
         <p>What is promised of a ring that keeps the steps, not read from the log:</p>\n<ul>\n{promises}</ul>\n",
        words::STATIONS_HEAD
    )
}

/// A row of a table.
fn cells(texts: &[&str]) -> String {
    let cells: String = texts.iter().map(|text| format!("<td>{text}</td>")).collect();
    format!("<tr>{cells}</tr>\n")
}

fn station_row((index, (station, &s)): (usize, (&Station, &u32))) -> String {
    let Station { walk, longest, deadline, gap } = *station;
    let numbers = [index as u32, walk, longest, deadline, gap, s].map(|number| number.to_string());
    cells(&numbers.each_ref().map(String::as_str))
}

fn promised(plan: &Plan) -> Vec<String> {
    let mode = plan.request.mode();
    let mut promised = vec![
        format!("The token is back at every station within {} ticks.", plan.bound()),
        "No station sends more than its S synchronously in a visit.".to_string(),
    ];
    if mode == Mode::Fddi {
        promised.push("FDDI is retired and promises no deadline.".to_string());
        return promised;
    }
    let (count, most) = (plan.allocation.len(), plan.spare() + plan.request.head.overrun());
    promised.extend([
        "Every accepted message that is not withdrawn is sent by its deadline.".to_string(),
        format!(
            "As many visits as there are stations, {count}, send asynchronously at most {most} ticks."
        ),
    ]);
    match mode {
        Mode::Earlier => promised.push(
            "It is not promised that every station is offered asynchronous time.".to_string(),
        ),
        _ if plan.spare() >= 1 => promised.push(
            "Every station that is not switched through is offered asynchronous time.".to_string(),
        ),
        _ => (),
    }
    promised
}

/// What each station did in the records before the named one: of its visits alone, taken out of all.
fn did(
    plan: &Plan,
    visits: &[Seen],
    kept: usize,
    named: Option<usize>,
    planted: Planted,
) -> String {
    let told = match named {
        None => format!("Records counted: {kept}, all of the log."),
        Some(place) => format!("Records counted: {kept}, those before record {}.", place + 1),
    };
    let kept = match planted {
        Planted::LastRecordLeftOut => kept.saturating_sub(1),
        _ => kept,
    };
    let kept = &visits[..visits.partition_point(|seen| seen.place < kept)];
    let rows: String =
        (0..plan.allocation.len()).map(|index| did_row(plan, kept, index, planted)).collect();
    format!("{}<p>{told}</p>\n{}{rows}</table>\n", words::DID, words::DID_HEAD)
}

/// Who is switched through behind the records before the named one.
fn still_through(through: &BTreeSet<u8>, named: Option<usize>) -> String {
    let stations: Vec<String> =
        through.iter().map(|station| format!("station {station}")).collect();
    let stations = if stations.is_empty() { "no station".to_string() } else { stations.join(", ") };
    match named {
        None => format!("<p>Switched through when the log ends: {stations}.</p>\n"),
        Some(place) => {
            format!("<p>Switched through before record {}: {stations}.</p>\n", place + 1)
        }
    }
}

fn did_row(plan: &Plan, kept: &[Seen], index: usize, planted: Planted) -> String {
    let its: Vec<&Seen> =
        kept.iter().filter(|seen| usize::from(seen.entry.station) == index).collect();
    let times: Vec<u64> = match planted {
        Planted::BetweenTwoStations => kept.iter().map(|seen| seen.began).collect(),
        _ => its.iter().map(|seen| seen.began).collect(),
    };
    let longest = times.windows(2).map(|two| two[1] - two[0]).max();
    let sum = |amount: fn(&VisitEntry) -> u32| {
        its.iter().map(|seen| u64::from(amount(&seen.entry))).sum::<u64>().to_string()
    };
    let most = its.iter().map(|seen| seen.entry.synchronous).max().unwrap_or(0);
    cells(&[
        &index.to_string(),
        &its.len().to_string(),
        &its.iter().filter(|seen| seen.through).count().to_string(),
        &longest.map_or("-".to_string(), |longest| longest.to_string()),
        &plan.bound().to_string(),
        &most.to_string(),
        &plan.allocation[index].to_string(),
        &sum(|visit| visit.synchronous),
        &sum(|visit| visit.asynchronous),
    ])
}
