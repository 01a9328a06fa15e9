//! Framed cases from a seed. Each case depends on its kind, the seed and its place only.

pub mod calls;
pub mod logs;
pub mod pairs;
pub mod random;
pub mod sets;
pub mod sheets;
pub mod sort;
pub mod states;
pub mod stores;
pub mod texts;
pub mod trains;
pub mod tunings;

use std::io::{Result, Write};

use crate::notation::{show_set, to_hex};
use crate::rules::{Mode, Plan};
use crate::sheet::fields;
use crate::state::State;
use crate::text::Call;
use random::Random;
use sheets::SheetKind;
pub use sort::Sort;

#[derive(Clone, Copy, Debug, PartialEq, Eq)]
pub enum Kind {
    Requests,
    Plans,
    Planning,
    Writing,
    Runs,
    Rings,
    Late,
    States,
    Edges,
    Openings,
    Steps,
    Commands,
    Logs,
    Records,
    Inspections,
    Differences,
    Versions,
    Keeping,
    ShortTrains,
    Trains,
    Hoppers,
    Departures,
    Returns,
    Orders,
    Explanations,
    Pages,
    Tunings,
}

impl Kind {
    pub const ALL: [Kind; 27] = [
        Kind::Requests,
        Kind::Plans,
        Kind::Planning,
        Kind::Writing,
        Kind::Runs,
        Kind::Rings,
        Kind::Late,
        Kind::States,
        Kind::Edges,
        Kind::Openings,
        Kind::Steps,
        Kind::Commands,
        Kind::Logs,
        Kind::Records,
        Kind::Inspections,
        Kind::Differences,
        Kind::Versions,
        Kind::Keeping,
        Kind::ShortTrains,
        Kind::Trains,
        Kind::Hoppers,
        Kind::Departures,
        Kind::Returns,
        Kind::Orders,
        Kind::Explanations,
        Kind::Pages,
        Kind::Tunings,
    ];

    pub fn name(self) -> &'static str {
        match self {
            Kind::Requests => "requests",
            Kind::Plans => "plans",
            Kind::Planning => "planning",
            Kind::Writing => "writing",
            Kind::Runs => "runs",
            Kind::Rings => "rings",
            Kind::Late => "late",
            Kind::States => "states",
            Kind::Edges => "edges",
            Kind::Openings => "openings",
            Kind::Steps => "steps",
            Kind::Commands => "commands",
            Kind::Logs => "logs",
            Kind::Records => "records",
            Kind::Inspections => "inspections",
            Kind::Differences => "differences",
            Kind::Versions => "versions",
            Kind::Keeping => "keeping",
            Kind::ShortTrains => "short-trains",
            Kind::Trains => "trains",
            Kind::Hoppers => "hoppers",
            Kind::Departures => "departures",
            Kind::Returns => "returns",
            Kind::Orders => "orders",
            Kind::Explanations => "explanations",
            Kind::Pages => "pages",
            Kind::Tunings => "tunings",
        }
    }

    /// Whether the cases are of sets, each sort of which has its own. Those of wagons are not.
    pub fn has_sorts(self) -> bool {
        ![Kind::ShortTrains, Kind::Trains, Kind::Hoppers].contains(&self)
    }

    /// A kind and the sort of its sets: `KIND` is timely-token and has no F, `fddi-KIND` is FDDI,
    /// `earlier-KIND` is the 2002 edition; `uncut-KIND`, `fddi-uncut-KIND` and `earlier-uncut-KIND`
    /// have an F, `grid-KIND`, `fddi-grid-KIND` and `earlier-grid-KIND` a g; stations are marked in
    /// `marked-KIND`, `fddi-marked-KIND` and `earlier-marked-KIND`.
    pub fn from_name(name: &str) -> Option<(Kind, Sort)> {
        let names = |kind: Kind| Sort::ALL.map(|sort| (kind, sort));
        let sorted = |(kind, sort): &(Kind, Sort)| kind.has_sorts() || *sort == Sort::TIMELY;
        let mut every = Kind::ALL.into_iter().flat_map(names).filter(sorted);
        every.find(|(kind, sort)| format!("{}{}", sort.prefix(), kind.name()) == name)
    }

    /// The lines of one case; more than one only for `edges` and `short-trains`.
    pub fn case(self, sort: Sort, seed: u64, place: u64) -> Vec<String> {
        let random = &mut Random::of_case(seed, place);
        match self {
            Kind::Requests => vec![sheet_case(random, SheetKind::Request, sort)],
            Kind::Plans => vec![sheet_case(random, SheetKind::Plan, sort)],
            Kind::Planning => vec![planning_case(random, sort)],
            Kind::Writing => vec![writing_case(random, sort)],
            Kind::Runs => vec![run_case(random, sort)],
            Kind::Rings => vec![ring_case(random, sort)],
            Kind::Late => vec![late_case(random, sort)],
            Kind::States => vec![state_case(states::state_with_calls(random, sort))],
            Kind::Steps => vec![state_case(states::sound_with_calls(random, sort))],
            Kind::Edges => edge_cases(random, sort),
            Kind::Openings => vec![opening_case(random, sort)],
            Kind::Orders => vec![order_case(random, sort)],
            Kind::Explanations => {
                vec![format!("command explain;{}", to_hex(&sheet_to_explain(random, sort)))]
            }
            Kind::Pages => vec![format!("command page;{}", page_input(random, sort))],
            Kind::Tunings => vec![format!("command tune;{}", tune_input(random, sort))],
            Kind::Commands => vec![command_case(random, sort)],
            Kind::Logs => vec![format!("log {}", to_hex(&logs::log(random, sort)))],
            Kind::Records => vec![record_case(random, sort)],
            Kind::Inspections => {
                vec![format!("inspect {}", to_hex(&logs::to_inspect(random, sort)))]
            }
            Kind::Differences => vec![format!("command diff;{}", diff_input(random, sort))],
            Kind::Versions => vec![stores::sequence(random, sort)],
            Kind::Keeping => vec![format!("command {}", stores::command(random, sort))],
            Kind::Departures => vec![format!("inspect-of {}", departure_input(random, sort))],
            Kind::Returns => vec![format!("command inspect;{}", departure_input(random, sort))],
            Kind::ShortTrains => {
                let lists = trains::every_short_list();
                lists.iter().map(|list| trains::train_case(random, list, 1)).collect()
            }
            Kind::Trains => {
                let list = trains::list(random);
                vec![trains::train_case(random, &list, 12)]
            }
            Kind::Hoppers => {
                let name = random.pick(&["hopper", "hopper-sheet", "refit", "refit"]);
                vec![format!("command {name};{}", hopper_input(random, name))]
            }
        }
    }
}

/// Writes the cases of a kind, one on a line.
pub fn write_cases(
    (kind, sort): (Kind, Sort),
    seed: u64,
    count: u64,
    out: &mut impl Write,
) -> Result<()> {
    for place in 0..count {
        for case in kind.case(sort, seed, place) {
            writeln!(out, "{case}")?;
        }
    }
    Ok(())
}

fn sheet_case(random: &mut Random, kind: SheetKind, sort: Sort) -> String {
    framed_sheet(kind, &sheets::sheet(random, kind, sort))
}

fn framed_sheet(kind: SheetKind, sheet: &[u8]) -> String {
    match kind {
        SheetKind::Request => format!("request {}", to_hex(sheet)),
        SheetKind::Plan => format!("plan {}", to_hex(sheet)),
    }
}

fn planning_case(random: &mut Random, sort: Sort) -> String {
    let request = match random.once_in(4) {
        false => sets::request(random, sort),
        true => sets::any_plan(random, sort).request,
    };
    format!("planning {}", show_set(&request, &[]))
}

/// A set or plan to write, into room enough or too short by a byte or more.
fn writing_case(random: &mut Random, sort: Sort) -> String {
    let plan = sets::any_plan(random, sort);
    let choices = [("write-request", &[][..]), ("write-plan", &plan.allocation[..])];
    let (kind, allocation) = random.pick(&choices);
    let length = fields(&plan.request, allocation).concat().len();
    let room = random.pick(&[length, length + 1, length - 1, 0, 4_000]);
    format!("{kind} {room};{}", show_set(&plan.request, allocation))
}

fn run_case(random: &mut Random, sort: Sort) -> String {
    let (plan, calls) = calls::script(random, sort);
    begun("run", &plan) + &framed_calls(&calls)
}

/// A run whose ring is asked for. An FDDI ring is handed in when half of the calls are made.
fn ring_case(random: &mut Random, sort: Sort) -> String {
    let (plan, calls) = calls::script(random, sort);
    if !sort.is_fddi() {
        return begun("ring", &plan) + &framed_calls(&calls);
    }
    let (before, after) = calls.split_at(calls.len() / 2);
    let mut state = State::opened(&plan);
    // A refused call leaves the ring as it was.
    before.iter().for_each(|call| {
        let _ = state.answer(call);
    });
    state_case((state, after.to_vec()))
}

/// What a run begins with: the plan sheet that is opened; of FDDI, which is not opened any more, the
/// state that an opening used to give.
fn begun(kind: &str, plan: &Plan) -> String {
    match plan.request.mode() {
        Mode::Timely | Mode::Earlier => {
            format!("{kind} {}", to_hex(&fields(&plan.request, &plan.allocation).concat()))
        }
        Mode::Fddi => format!("state {}", State::opened(plan).show()),
    }
}

fn framed_calls(calls: &[Call]) -> String {
    calls.iter().map(|call| format!(";{call}")).collect()
}

fn late_case(random: &mut Random, sort: Sort) -> String {
    let (plan, [asking, silent], calls) = calls::late_script(random, sort);
    let visits = |(count, ask): (u64, u32)| match count {
        0 => String::new(),
        _ => format!(";visits {count} {ask}"),
    };
    let visits = visits((asking, 1)) + &visits((silent, 0));
    format!("{}{visits}{}", begun("run", &plan), framed_calls(&calls))
}

fn state_case((state, calls): (State, Vec<Call>)) -> String {
    format!("state {}{}", state.show(), framed_calls(&calls))
}

fn opening_case(random: &mut Random, sort: Sort) -> String {
    let plan = sets::any_plan(random, sort);
    format!("open {}", show_set(&plan.request, &plan.allocation))
}

/// Sets and plans that break several rules at once: which number is given. An FDDI plan that breaks
/// only one is read as well: its rule is not asked for in an opening any more.
fn order_case(random: &mut Random, sort: Sort) -> String {
    if sort.is_fddi() && random.once_in(3) {
        let plan = sets::pushed_plan(random, sort);
        return format!("plan {}", to_hex(&fields(&plan.request, &plan.allocation).concat()));
    }
    let plan = sets::broken_plan(random, sort);
    let Plan { request, allocation } = &plan;
    match random.between(0, 4) {
        0 | 1 => format!("planning {}", show_set(request, &[])),
        2 | 3 => format!("open {}", show_set(request, allocation)),
        _ => format!("run {};visit 1", to_hex(&fields(request, allocation).concat())),
    }
}

fn edge_cases(random: &mut Random, sort: Sort) -> Vec<String> {
    let mut cases = vec![];
    for kind in [SheetKind::Request, SheetKind::Plan] {
        let sheets = sheets::every_damage(random, kind, sort);
        cases.extend(sheets.iter().map(|sheet| framed_sheet(kind, sheet)));
    }
    cases
}

fn command_case(random: &mut Random, sort: Sort) -> String {
    const NAMES: [&str; 14] = [
        "plan",
        "plan-sheet",
        "explain",
        "tune",
        "show",
        "compose",
        "run",
        "log",
        "inspect",
        "page",
        "diff",
        "hopper",
        "hopper-sheet",
        "refit",
    ];
    let name = random.pick(&NAMES);
    let kind = random.pick(&[SheetKind::Request, SheetKind::Plan]);
    let of_log = random.once_in(3);
    let input = match name {
        "plan" | "plan-sheet" => to_hex(&sheets::sheet(random, SheetKind::Request, sort)),
        "explain" => to_hex(&sheet_to_explain(random, sort)),
        "tune" => tune_input(random, sort),
        "inspect" if of_log => departure_input(random, sort),
        "inspect" => to_hex(&logs::to_inspect(random, sort)),
        "page" => page_input(random, sort),
        "show" if of_log => to_hex(&logs::log(random, sort)),
        "show" => to_hex(&sheets::sheet(random, kind, sort)),
        "compose" if random.once_in(100) => to_hex(&[]),
        "compose" if of_log => to_hex(&texts::log_text(random, sort)),
        "compose" => to_hex(&texts::sheet_text(random, sort)),
        "diff" => diff_input(random, sort),
        "hopper" | "hopper-sheet" | "refit" => hopper_input(random, name),
        _ => run_input(random, sort),
    };
    format!("command {name};{input}")
}

/// A request or a plan, sound or damaged, one that breaks several rules at once, or has any numbers
/// out of range; now and then a log.
fn sheet_to_explain(random: &mut Random, sort: Sort) -> Vec<u8> {
    let kind = random.pick(&[SheetKind::Request, SheetKind::Plan]);
    match random.between(0, 19) {
        0..=6 => sheets::sheet(random, kind, sort),
        7..=9 => sheets::sheet_of(kind, &sets::broken_plan(random, sort)),
        10..=12 => sheets::sheet_of(kind, &sets::overstepped(random, sort)),
        13 | 14 if sort.is_fddi() => {
            sheets::sheet_of(SheetKind::Plan, &sets::pushed_plan(random, sort))
        }
        13 | 14 => sheets::sheet_of(SheetKind::Plan, &sets::plan(random, sort)),
        15 => sheets::sheet_of(SheetKind::Plan, &sets::crowded(random, sort)),
        16..=18 => fields(&sets::request(random, sort), &[]).concat(),
        _ => logs::log(random, sort),
    }
}

/// A range of TTRT and a request to plan at each of it.
fn tune_input(random: &mut Random, sort: Sort) -> String {
    let ([from, to], sheet) = tunings::input(random, sort);
    format!("{from};{to};{}", to_hex(&sheet))
}

/// A script for its plan; now and then the plan's sheet is damaged, or a log.
fn run_input(random: &mut Random, sort: Sort) -> String {
    let (plan, text) = texts::script_text(random, sort);
    let mut sheet = fields(&plan.request, &plan.allocation).concat();
    if random.once_in(8) {
        sheet = sheets::sheet(random, SheetKind::Plan, sort);
    } else if random.once_in(20) {
        sheet = logs::log(random, sort);
    }
    format!("{};{}", to_hex(&sheet), to_hex(&text))
}

fn diff_input(random: &mut Random, sort: Sort) -> String {
    let (old, new) = pairs::pair(random, sort);
    format!("{};{}", to_hex(&old), to_hex(&new))
}

/// A plan sheet and a log that is to keep it.
fn departure_input(random: &mut Random, sort: Sort) -> String {
    let (plan, log) = pairs::departure(random, sort);
    format!("{};{}", to_hex(&plan), to_hex(&log))
}

/// A log to draw, or one beside the plan that it is to keep.
fn page_input(random: &mut Random, sort: Sort) -> String {
    match random.between(0, 6) {
        0..=2 => to_hex(&logs::to_draw(random, sort)),
        3 | 4 => departure_input(random, sort),
        _ => to_hex(&logs::to_inspect(random, sort)),
    }
}

/// The text of a wagon list; for `refit` that of changes too.
fn hopper_input(random: &mut Random, name: &str) -> String {
    let list = to_hex(&trains::list_text(random));
    match name {
        "refit" => format!("{list};{}", to_hex(&trains::changes_text(random))),
        _ => list,
    }
}

/// A run to record, into room enough, or too short for the plan, for some visit or for the end.
fn record_case(random: &mut Random, sort: Sort) -> String {
    let (plan, calls) = calls::script(random, sort);
    let own = || fields(&plan.request, &plan.allocation).concat();
    let (kind, ring) = match random.once_in(8) {
        true => ("record", to_hex(&sheets::sheet(random, SheetKind::Plan, sort))),
        false if sort.is_fddi() => ("record-on", State::opened(&plan).show()),
        false => ("record", to_hex(&own())),
    };
    let room = logs::room(random, &plan, &calls);
    let (shown, at) = logs::counter(random);
    format!("{kind} {room};{shown},{at};{ring}{}", framed_calls(&calls))
}
