//! The numbers allowed, the refusal numbers, and the judgement of a set and of an allocation; and
//! which sets are no longer planned and opened.

use std::fmt;
use std::ops::RangeInclusive;

use crate::planted::Planted;

pub const MOST_STATIONS: usize = 128;
pub const TTRT: RangeInclusive<u32> = 1..=1_000_000;
pub const WALK: RangeInclusive<u32> = 0..=1_000_000;
pub const LONGEST: RangeInclusive<u32> = 0..=100_000_000;
pub const DEADLINE: RangeInclusive<u32> = 1..=100_000_000;
/// The least gap goes from the deadline to this.
pub const MOST_GAP: u32 = 100_000_000;
pub const ALLOCATION: RangeInclusive<u32> = 0..=1_000_000;
/// F, the longest frame; 1 says that asynchronous traffic may be cut at any tick.
pub const FRAME: RangeInclusive<u32> = 1..=65_535;
/// g, the grid, of which every S is a multiple; 1 says that S may be any whole number.
pub const GRID: RangeInclusive<u32> = 1..=1_000;
/// The last arrival time, and the last clock at which a visit may start.
pub const LAST_TIME: u64 = 1_000_000_000_000;
/// The clock of no sound ring is above this.
pub const LAST_CLOCK: u64 = 1_000_002_000_000;
/// The visit count of no sound ring reaches this.
pub const VISITS_END: u64 = 1 << 62;
/// The late count of no sound FDDI ring is above this.
pub const MOST_LATE: u32 = 3;

/// The protocol of a ring, which a set's header names by a number.
#[derive(Clone, Copy, Debug, PartialEq, Eq)]
pub enum Mode {
    Timely,
    Fddi,
    /// The 2002 edition of timely-token: asynchronous traffic first.
    Earlier,
}

impl Mode {
    pub const ALL: [Mode; 3] = [Mode::Timely, Mode::Fddi, Mode::Earlier];

    pub fn number(self) -> u32 {
        match self {
            Mode::Timely => 1,
            Mode::Fddi => 2,
            Mode::Earlier => 3,
        }
    }

    pub fn of(number: u32) -> Option<Mode> {
        Mode::ALL.into_iter().find(|mode| mode.number() == number)
    }
}

/// The refusals by their numbers. Number 8 is given to states only (`state`): this program's
/// rings come from an opening.
#[derive(Clone, Copy, Debug, PartialEq, Eq)]
#[repr(u8)]
pub enum Refusal {
    EndsEarly = 1,
    WrongField = 2,
    TrailingByte = 3,
    OutOfRange = 4,
    WalkSum = 5,
    NoAllocation = 6,
    RuleBroken = 7,
    Unsound = 8,
    NoSuchStation = 9,
    WrongLength = 10,
    StillHeld = 11,
    WrongArrival = 12,
    ClockPast = 13,
    NoRoom = 14,
    NotArrived = 15,
    Retired = 16,
    NoSuchVersion = 17,
    NumbersUsedUp = 18,
}

impl Refusal {
    pub fn number(self) -> u8 {
        self as u8
    }
}

/// Refuses unless the condition holds.
pub fn require(holds: bool, otherwise: Refusal) -> Result<(), Refusal> {
    if holds {
        Ok(())
    } else {
        Err(otherwise)
    }
}

/// One station's walk time w to the next, longest message C, deadline D and least gap P.
#[derive(Clone, Copy, Debug, PartialEq, Eq)]
pub struct Station {
    pub walk: u32,
    pub longest: u32,
    pub deadline: u32,
    pub gap: u32,
}

impl Station {
    fn in_range(&self) -> bool {
        WALK.contains(&self.walk)
            && LONGEST.contains(&self.longest)
            && DEADLINE.contains(&self.deadline)
            && (self.deadline..=MOST_GAP).contains(&self.gap)
    }
}

/// What a sheet says before its stations: TTRT, the number of the mode, any number at first, the
/// longest frame F and the grid g.
#[derive(Clone, Copy, Debug, PartialEq, Eq)]
pub struct Head {
    pub ttrt: u32,
    pub mode: u32,
    pub frame: u32,
    pub grid: u32,
}

impl Head {
    /// A head without F and g: frames are of one tick, and S is any number.
    pub fn new(ttrt: u32, mode: Mode) -> Head {
        Head { ttrt, mode: mode.number(), frame: 1, grid: 1 }
    }

    fn in_range(&self) -> bool {
        let sizes = FRAME.contains(&self.frame) && GRID.contains(&self.grid);
        TTRT.contains(&self.ttrt) && Mode::of(self.mode).is_some() && sizes
    }

    /// F − 1, the most that a frame runs past the moment before which it must start. A head that
    /// is out of range may have none.
    pub fn overrun(&self) -> u64 {
        u64::from(self.frame.saturating_sub(1))
    }
}

/// What a header number's field or line says: where there is none, 1. One that says 1 itself has
/// no number (0 is none), so that each head is written in one way only.
pub fn header_number(said: Option<u32>) -> u32 {
    match said {
        None => 1,
        Some(1) => 0,
        Some(number) => number,
    }
}

/// What a visit is asked for: a number of frames of one length.
#[derive(Clone, Copy, Debug, PartialEq, Eq)]
pub struct Ask {
    pub frames: u32,
    pub length: u32,
}

/// A number alone asks for frames of one tick.
impl From<u32> for Ask {
    fn from(frames: u32) -> Ask {
        Ask { frames, length: 1 }
    }
}

impl Ask {
    /// Number 10 unless the length is that of a frame.
    pub fn judge(&self, head: &Head) -> Result<(), Refusal> {
        require((1..=head.frame).contains(&self.length), Refusal::WrongLength)
    }

    /// What is sent under a limit, frame by frame: each starts while the time used is below the
    /// limit, and is finished.
    pub fn sent(&self, limit: u64) -> u64 {
        let mut used = 0;
        for _ in 0..self.frames {
            if used >= limit {
                break;
            }
            used += u64::from(self.length);
        }
        used
    }
}

/// The set of a request sheet.
#[derive(Clone, Debug, PartialEq, Eq)]
pub struct Request {
    pub head: Head,
    pub stations: Vec<Station>,
}

impl Request {
    /// The mode of a set that was judged.
    pub fn mode(&self) -> Mode {
        Mode::of(self.head.mode).expect("a judged set has a mode")
    }

    /// τ, the sum of all walk times.
    pub fn walk_sum(&self) -> u64 {
        self.stations.iter().map(|station| u64::from(station.walk)).sum()
    }

    /// The time of a rotation that no station sends in, and that a frame may run over: τ + F − 1.
    pub fn lost(&self) -> u64 {
        self.walk_sum() + self.head.overrun()
    }

    /// Numbers 2, 4 and 5, in this order.
    pub fn judge(&self) -> Result<(), Refusal> {
        require(self.count_allowed(), Refusal::WrongField)?;
        require(self.in_range(), Refusal::OutOfRange)?;
        require(self.walk_sum_allowed(), Refusal::WalkSum)
    }

    fn count_allowed(&self) -> bool {
        (1..=MOST_STATIONS).contains(&self.stations.len())
    }

    fn in_range(&self) -> bool {
        self.head.in_range() && self.stations.iter().all(Station::in_range)
    }

    fn walk_sum_allowed(&self) -> bool {
        (1..=u64::from(self.head.ttrt)).contains(&self.walk_sum())
    }
}

/// A set with the synchronous time S of each station.
#[derive(Clone, Debug, PartialEq, Eq)]
pub struct Plan {
    pub request: Request,
    pub allocation: Vec<u32>,
}

impl Plan {
    /// The sum of all S.
    pub fn allocated(&self) -> u64 {
        self.allocation.iter().map(|&s| u64::from(s)).sum()
    }

    /// What the token rule counts: all S, τ and F − 1.
    fn reserved(&self) -> u64 {
        self.allocated() + self.request.lost()
    }

    /// The token rule.
    pub fn token_in_time(&self) -> bool {
        self.reserved() <= u64::from(self.request.head.ttrt)
    }

    /// What the token rule leaves of TTRT; 0 where it is broken.
    pub fn left_over(&self) -> u64 {
        u64::from(self.request.head.ttrt).saturating_sub(self.reserved())
    }

    /// The spare time A* of a judged set: timely-token subtracts F − 1 in it, FDDI does not.
    pub fn spare(&self) -> u64 {
        match self.request.mode() {
            Mode::Timely | Mode::Earlier => self.left_over(),
            Mode::Fddi => {
                let taken = self.request.walk_sum() + self.allocated();
                u64::from(self.request.head.ttrt).saturating_sub(taken)
            }
        }
    }

    /// The most ticks that the token is away from a station of a judged set.
    pub fn bound(&self) -> u64 {
        let ttrt = u64::from(self.request.head.ttrt);
        match self.request.mode() {
            Mode::Timely | Mode::Earlier => ttrt,
            Mode::Fddi => ttrt + self.allocated() + self.request.head.overrun(),
        }
    }

    /// Numbers 2, 4, 5 and 7, in this order.
    pub fn judge(&self) -> Result<(), Refusal> {
        self.judge_with(Planted::Nothing)
    }

    /// The same with an error planted in number 7 of an FDDI plan.
    pub fn judge_with(&self, planted: Planted) -> Result<(), Refusal> {
        self.judge_numbers()?;
        self.judge_rules(planted)
    }

    /// Numbers 2, 4 and 5, of the set and of S.
    pub fn judge_numbers(&self) -> Result<(), Refusal> {
        let counts = self.allocation.len() == self.request.stations.len();
        require(counts && self.request.count_allowed(), Refusal::WrongField)?;
        let in_range = self.allocation.iter().all(|s| ALLOCATION.contains(s));
        require(in_range && self.request.in_range(), Refusal::OutOfRange)?;
        require(self.request.walk_sum_allowed(), Refusal::WalkSum)
    }

    /// Number 7, of a plan whose numbers were judged.
    pub fn judge_rules(&self, planted: Planted) -> Result<(), Refusal> {
        let off_grid = planted == Planted::FddiOffTheGrid && self.request.mode() == Mode::Fddi;
        let on_grid = self.on_grid() || off_grid;
        let rules = self.token_in_time() && self.meets_deadlines(planted) && on_grid;
        require(rules, Refusal::RuleBroken)
    }

    /// Whether every S is a multiple of g, in a judged set.
    pub fn on_grid(&self) -> bool {
        self.allocation.iter().all(|s| s % self.request.head.grid == 0)
    }

    fn meets_deadlines(&self, planted: Planted) -> bool {
        let mut stations = self.request.stations.iter().enumerate();
        stations.all(|(index, it)| self.least_time(index, planted) >= u64::from(it.longest))
    }

    /// X of a station, in the mode of a judged set.
    pub fn least_time(&self, index: usize, planted: Planted) -> u64 {
        let (ttrt, deadline) = (self.request.head.ttrt, self.request.stations[index].deadline);
        let s = u64::from(self.allocation[index]);
        match self.request.mode() {
            Mode::Timely | Mode::Earlier => least_time(ttrt, deadline, s),
            Mode::Fddi => {
                let others = match planted {
                    Planted::OthersLeftOut => 0,
                    _ => self.allocated() - s,
                };
                let least = fddi_least_time(ttrt, deadline, s, self.request.lost() + others);
                match planted {
                    Planted::OneVisitTooMany if deadline >= ttrt => least + s,
                    _ => least,
                }
            }
        }
    }
}

/// m and α of a station: the whole rotations in its deadline, and what is missing to one more.
pub fn rotations(ttrt: u32, deadline: u32) -> (u64, u64) {
    let (ttrt, deadline) = (u64::from(ttrt), u64::from(deadline));
    let whole = deadline / ttrt;
    (whole, (whole + 1) * ttrt - deadline)
}

/// X, the least synchronous time in any interval of the deadline's length.
pub fn least_time(ttrt: u32, deadline: u32, s: u64) -> u64 {
    let (whole, missing) = rotations(ttrt, deadline);
    whole * s + s.saturating_sub(missing)
}

/// X in FDDI (source document 003, Theorem 2): all of S at each rotation in the deadline but one,
/// and of the last S what the rest of the deadline leaves behind τ + F − 1 and the others' S.
pub fn fddi_least_time(ttrt: u32, deadline: u32, s: u64, before: u64) -> u64 {
    let (whole, rest) = (u64::from(deadline / ttrt), u64::from(deadline % ttrt));
    match whole {
        0 => 0,
        _ => (whole - 1) * s + rest.saturating_sub(before).min(s),
    }
}

/// Number 16 of a set that runs FDDI, where it is to be planned or opened: behind what was judged
/// of its numbers, 2, 4 or 5.
pub fn in_service(
    judged: Result<(), Refusal>,
    head: &Head,
    planted: Planted,
) -> Result<(), Refusal> {
    let retired = match Mode::of(head.mode) {
        Some(Mode::Fddi) => true,
        Some(Mode::Earlier) => planted == Planted::EarlierRetired,
        _ => false,
    };
    match (judged, planted) {
        (Err(Refusal::WalkSum), Planted::RetiredBeforeWalkSum) if retired => Err(Refusal::Retired),
        (Ok(()), _) => require(!retired, Refusal::Retired),
        _ => judged,
    }
}

/// A visit as a log has it; any numbers. The start is what the recorder's counter showed.
#[derive(Clone, Copy, Debug, PartialEq, Eq)]
pub struct VisitEntry {
    pub station: u8,
    pub start: u32,
    pub limit: u32,
    pub synchronous: u32,
    pub asynchronous: u32,
}

/// A mark as a log has it; any numbers. 1 says that the station is switched through from here on, 0
/// that it is no longer.
#[derive(Clone, Copy, Debug, PartialEq, Eq)]
pub struct MarkEntry {
    pub station: u8,
    pub mark: u8,
}

/// A record of a log.
#[derive(Clone, Copy, Debug, PartialEq, Eq)]
pub enum Entry {
    Visit(VisitEntry),
    Mark(MarkEntry),
}

impl fmt::Display for Entry {
    fn fmt(&self, f: &mut fmt::Formatter) -> fmt::Result {
        match self {
            Entry::Visit(VisitEntry { station, start, limit, synchronous, asynchronous }) => {
                write!(f, "visit {station} {start} {limit} {synchronous} {asynchronous}")
            }
            Entry::Mark(MarkEntry { station, mark }) => write!(f, "mark {station} {mark}"),
        }
    }
}
