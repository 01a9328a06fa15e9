//! Errors that look right, built in on demand, to show that a comparison finds them.

#[derive(Clone, Copy, Debug, PartialEq, Eq)]
pub enum Planted {
    Nothing,
    /// 1: α + (C − mα)/(m + 1) rounded up, also when C is 0 and D is below TTRT.
    TimeForNobody,
    /// 2: C/m rounded down.
    RoundedDown,
    /// 3: the limit by early arrival alone, without u.
    LimitWithoutUnused,
    /// 4: u starts at 0.
    UnusedFromZero,
    /// 5: a message that arrives after the visit's start is served. Only states that no run leads to
    /// hold one.
    ServedAhead,
    /// 6: TRT becomes 0 after the visit's sending, not before.
    TrtResetLate,
    /// 7: u is cleared whenever the token is back at station 0.
    UnusedCleared,
    /// 8: FDDI's late count is not lowered by a late token.
    CountNotLowered,
    /// 9: FDDI's timer goes to 0 at a late token too.
    TimerResetWhenLate,
    /// 10: FDDI's holding time is the timer after the synchronous part.
    HoldingAfterSending,
    /// 11: X of a given FDDI plan's station without the other stations' S.
    OthersLeftOut,
    /// 12: X of a given FDDI plan's station with q·S in the place of (q − 1)·S.
    OneVisitTooMany,
    /// 13: a frame is cut at the limit.
    FrameCut,
    /// 14: a frame begins when the time used is just the limit.
    FrameAtLimit,
    /// 15: the limit with F in the place of F − 1.
    WholeFrameKept,
    /// 16: the token rule without F − 1.
    OverrunLeftOut,
    /// 17: a log's start that ran past the counter's top is refused.
    WrappedStartRefused,
    /// 18: a log's synchronous amount is compared with C.
    SynchronousUpToC,
    /// 19: a log's limit is not compared.
    LimitNotCompared,
    /// 20: a log's first start is compared, with 0.
    FirstStartCompared,
    /// 21: in the 2002 edition TRT becomes 0 before the asynchronous part.
    TrtResetFirst,
    /// 22: in the 2002 edition a message is looked at when the visit starts, which states alone show.
    LookedAtFirst,
    /// 23: in the 2002 edition the limit is taken after the synchronous part.
    LimitAfterSending,
    /// 24: a log of the 2002 edition is judged by the order of the 2003 edition.
    LogByTheLaterEdition,
    /// 25: the smallest S rounded down to the grid.
    DownToTheGrid,
    /// 26: a given FDDI plan whose S are off the grid is taken.
    FddiOffTheGrid,
    /// 27: a given S off the grid is refused with 4 in the place of 7.
    OffGridOutOfRange,
    /// 28: of two plans a field of the header, g, is not compared.
    GridNotCompared,
    /// 29: of two plans the new numbers stand before the old ones.
    NewBeforeOld,
    /// 30: a station that one plan alone has is compared with zeros.
    MissingAsZeros,
    /// 31: of two plans an absent mode counts as 0.
    AbsentModeIsZero,
    /// 32: a visit sends, and looks at its station's mark after that.
    MarkAfterSending,
    /// 33: the limit of a marked visit is taken from the timers, in a log too.
    MarkedLimitByTimers,
    /// 34: a withdrawn message's arrival is forgotten for number 12.
    WithdrawnArrivalForgotten,
    /// 35: at a marked visit u is not raised by S.
    MarkedUnusedNotRaised,
    /// 36: a log's mark is counted as a visit.
    MarkCountedAsVisit,
    /// 37: the withdrawn message is kept under the mark, and sent after unmarking.
    KeptUnderMark,
    /// 38: a log's mark before the first visit binds that visit's start.
    FirstStartBoundByMark,
    /// 39: number 12 is given before 15.
    NotArrivedLast,
    /// 40: a message that arrives just when it is handed in is answered 15.
    NotArrivedAtClock,
    /// 41: in the 2002 edition 15 goes by the start of the station's last synchronous part.
    ServedForClock,
    /// 42: a version's number is taken from how many are kept.
    NumberFromCount,
    /// 43: the oldest of sixteen versions is kept, and the newest dropped.
    NewestDropped,
    /// 44: old bytes are left behind a store's end.
    HoleLeft,
    /// 45: a refused plan's number is used up.
    RefusedNumberUsed,
    /// 46: of a wagon 6 for the door unit and 2 for the brake unit.
    DoorForBrake,
    /// 47: a wagon's station without its walk time.
    WalkLeftOut,
    /// 48: a train keeps the new list when its plan is refused.
    RefusedListKept,
    /// 49: a list of no wagon is planned.
    EmptyListPlanned,
    /// 50: a log's own plan is taken for the one that it is inspected against.
    OwnPlanTaken,
    /// 51: of a log's plan and the one that it is inspected against S is not compared.
    AllocationNotCompared,
    /// 52: a log is accepted though its plan differs in g alone.
    OtherGridAccepted,
    /// 53: of a set that runs FDDI 16 is given before 5.
    RetiredBeforeWalkSum,
    /// 54: an opening gives 7 to an FDDI plan that breaks a rule.
    RetiredAfterRules,
    /// 55: 16 for the 2002 edition too.
    EarlierRetired,
    /// 56: an FDDI ring that is open is unsound.
    OpenRingUnsound,
    /// 57: an FDDI log is refused with 16.
    LogRetired,
    /// 58: of the numbers out of range P is left out where D is out of its range too.
    GapNotListed,
    /// 59: the missing ticks with F in the place of F − 1.
    OneTickMoreMissing,
    /// 60: the place of a fault is the one behind its field.
    FaultBehindField,
    /// 61: of what each station did the last record is left out.
    LastRecordLeftOut,
    /// 62: the longest time between two visits is taken between visits of two stations.
    BetweenTwoStations,
    /// 63: the record before the named one is framed.
    FramedTooEarly,
    /// 64: of the range of TTRT that is tried the end is left out.
    EndLeftOut,
    /// 65: the best TTRT goes by A* and not by its part of the rotation.
    BestBySpare,
    /// 66: a TTRT at which the set is refused with 5 counts as one with a plan.
    WalkSumCounted,
}

impl Planted {
    pub const ALL: [Planted; 66] = [
        Planted::TimeForNobody,
        Planted::RoundedDown,
        Planted::LimitWithoutUnused,
        Planted::UnusedFromZero,
        Planted::ServedAhead,
        Planted::TrtResetLate,
        Planted::UnusedCleared,
        Planted::CountNotLowered,
        Planted::TimerResetWhenLate,
        Planted::HoldingAfterSending,
        Planted::OthersLeftOut,
        Planted::OneVisitTooMany,
        Planted::FrameCut,
        Planted::FrameAtLimit,
        Planted::WholeFrameKept,
        Planted::OverrunLeftOut,
        Planted::WrappedStartRefused,
        Planted::SynchronousUpToC,
        Planted::LimitNotCompared,
        Planted::FirstStartCompared,
        Planted::TrtResetFirst,
        Planted::LookedAtFirst,
        Planted::LimitAfterSending,
        Planted::LogByTheLaterEdition,
        Planted::DownToTheGrid,
        Planted::FddiOffTheGrid,
        Planted::OffGridOutOfRange,
        Planted::GridNotCompared,
        Planted::NewBeforeOld,
        Planted::MissingAsZeros,
        Planted::AbsentModeIsZero,
        Planted::MarkAfterSending,
        Planted::MarkedLimitByTimers,
        Planted::WithdrawnArrivalForgotten,
        Planted::MarkedUnusedNotRaised,
        Planted::MarkCountedAsVisit,
        Planted::KeptUnderMark,
        Planted::FirstStartBoundByMark,
        Planted::NotArrivedLast,
        Planted::NotArrivedAtClock,
        Planted::ServedForClock,
        Planted::NumberFromCount,
        Planted::NewestDropped,
        Planted::HoleLeft,
        Planted::RefusedNumberUsed,
        Planted::DoorForBrake,
        Planted::WalkLeftOut,
        Planted::RefusedListKept,
        Planted::EmptyListPlanned,
        Planted::OwnPlanTaken,
        Planted::AllocationNotCompared,
        Planted::OtherGridAccepted,
        Planted::RetiredBeforeWalkSum,
        Planted::RetiredAfterRules,
        Planted::EarlierRetired,
        Planted::OpenRingUnsound,
        Planted::LogRetired,
        Planted::GapNotListed,
        Planted::OneTickMoreMissing,
        Planted::FaultBehindField,
        Planted::LastRecordLeftOut,
        Planted::BetweenTwoStations,
        Planted::FramedTooEarly,
        Planted::EndLeftOut,
        Planted::BestBySpare,
        Planted::WalkSumCounted,
    ];

    /// Whether the error is one of states, and a ring on its time line does not have it.
    pub fn is_of_states(self) -> bool {
        [Planted::ServedAhead, Planted::LookedAtFirst, Planted::OpenRingUnsound].contains(&self)
    }

    /// The error of a number, from 1 on.
    pub fn from_number(number: usize) -> Option<Planted> {
        number.checked_sub(1).and_then(|place| Planted::ALL.get(place).copied())
    }
}
