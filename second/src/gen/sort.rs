//! The sorts of sets that cases have.

use crate::rules::Mode;

/// What sets a case has: their mode, whether they have an F, and whether they have a g, those with a
/// g with an F or without; and whether stations are marked, in sets with an F or without.
#[derive(Clone, Copy, Debug, PartialEq, Eq)]
pub struct Sort {
    pub mode: Mode,
    pub uncut: bool,
    pub grid: bool,
    pub marked: bool,
}

impl Sort {
    pub const TIMELY: Sort = Sort::of(Mode::Timely);
    pub const FDDI: Sort = Sort::of(Mode::Fddi);
    pub const UNCUT: Sort = Sort { uncut: true, ..Sort::TIMELY };
    pub const FDDI_UNCUT: Sort = Sort { uncut: true, ..Sort::FDDI };
    pub const EARLIER: Sort = Sort::of(Mode::Earlier);
    pub const EARLIER_UNCUT: Sort = Sort { uncut: true, ..Sort::EARLIER };
    pub const GRID: Sort = Sort { grid: true, ..Sort::UNCUT };
    pub const FDDI_GRID: Sort = Sort { grid: true, ..Sort::FDDI_UNCUT };
    pub const EARLIER_GRID: Sort = Sort { grid: true, ..Sort::EARLIER_UNCUT };
    pub const MARKED: Sort = Sort { marked: true, ..Sort::UNCUT };
    pub const FDDI_MARKED: Sort = Sort { marked: true, ..Sort::FDDI_UNCUT };
    pub const EARLIER_MARKED: Sort = Sort { marked: true, ..Sort::EARLIER_UNCUT };
    pub const ALL: [Sort; 12] = [
        Sort::TIMELY,
        Sort::FDDI,
        Sort::UNCUT,
        Sort::FDDI_UNCUT,
        Sort::EARLIER,
        Sort::EARLIER_UNCUT,
        Sort::GRID,
        Sort::FDDI_GRID,
        Sort::EARLIER_GRID,
        Sort::MARKED,
        Sort::FDDI_MARKED,
        Sort::EARLIER_MARKED,
    ];

    const fn of(mode: Mode) -> Sort {
        Sort { mode, uncut: false, grid: false, marked: false }
    }

    /// Those whose stations are never marked.
    pub fn unmarked() -> &'static [Sort] {
        &Sort::ALL[..9]
    }

    pub fn is_fddi(self) -> bool {
        self.mode == Mode::Fddi
    }

    /// Whether a sheet of such a set names its mode.
    pub fn has_mode(self) -> bool {
        self.mode != Mode::Timely
    }

    /// What stands before the name of a kind of such sets.
    pub fn prefix(self) -> &'static str {
        match (self.mode, self.uncut, self.grid) {
            (Mode::Timely, ..) if self.marked => "marked-",
            (Mode::Fddi, ..) if self.marked => "fddi-marked-",
            (Mode::Earlier, ..) if self.marked => "earlier-marked-",
            (Mode::Timely, _, true) => "grid-",
            (Mode::Fddi, _, true) => "fddi-grid-",
            (Mode::Earlier, _, true) => "earlier-grid-",
            (Mode::Timely, false, _) => "",
            (Mode::Fddi, false, _) => "fddi-",
            (Mode::Timely, true, _) => "uncut-",
            (Mode::Fddi, true, _) => "fddi-uncut-",
            (Mode::Earlier, false, _) => "earlier-",
            (Mode::Earlier, true, _) => "earlier-uncut-",
        }
    }
}
