//! Where a session stands in its operation.

use crate::reclaimer::CellId;
use crate::word::Place;

/// What leads to a cell of the list: the front, or the link of the cell before.
#[derive(Clone, Copy, Debug, PartialEq, Eq)]
pub enum Prev {
    Front,
    Cell(CellId),
}

/// What a search is for.
#[derive(Clone, Copy, Debug, PartialEq, Eq)]
pub enum Goal {
    /// A contains.
    Look { sought: Place },
    /// An insert.
    Add { sought: Place, fresh: CellId },
    /// A delete that is not decided.
    Take { sought: Place },
    /// A delete that is decided and only has to clear up.
    Finish { sought: Place },
}

impl Goal {
    #[inline]
    pub fn sought(self) -> Place {
        match self {
            Goal::Look { sought }
            | Goal::Add { sought, .. }
            | Goal::Take { sought }
            | Goal::Finish { sought } => sought,
        }
    }
}

/// How far a search is.
#[derive(Clone, Copy, Debug, PartialEq, Eq)]
pub enum At {
    ReadFront,
    ProtectFirst { cur: CellId },
    CheckFront { cur: CellId },
    ReadCell { prev: Prev, cur: CellId },
    ProtectNext { prev: Prev, cur: CellId, marked: bool, next: CellId, place: Place },
    CheckPrev { prev: Prev, cur: CellId, marked: bool, next: Option<CellId>, place: Place },
    ConfirmCell { prev: Prev, cur: CellId, next: Option<CellId>, place: Place },
    ShiftPrev { cur: CellId, next: CellId },
    ShiftCur { prev: Prev, next: CellId },
    Unlink { prev: Prev, cur: CellId, next: Option<CellId> },
}

/// The stage of a session, with the values that its next step works with.
#[derive(Clone, Copy, Debug, PartialEq, Eq)]
pub enum Stage {
    Outside,
    PushReadHead { fresh: CellId },
    PushSwapHead { fresh: CellId, seen: Option<CellId> },
    PopReadHead,
    PopProtectTop { top: CellId },
    PopCheckHead { top: CellId },
    PopReadTop { top: CellId },
    PopSwapHead { top: CellId, next: Option<CellId>, place: Place },
    Find { goal: Goal, at: At },
    LinkFresh { sought: Place, fresh: CellId, prev: Prev, cur: Option<CellId> },
    MarkCell { sought: Place, prev: Prev, cur: CellId, next: Option<CellId> },
    RemoveCell { sought: Place, prev: Prev, cur: CellId, next: Option<CellId> },
}

impl Stage {
    /// The first stage of a search.
    pub fn search(goal: Goal) -> Self {
        Stage::Find { goal, at: At::ReadFront }
    }

    pub fn name(self) -> &'static str {
        match self {
            Stage::Outside => "Outside",
            Stage::PushReadHead { .. } => "PushReadHead",
            Stage::PushSwapHead { .. } => "PushSwapHead",
            Stage::PopReadHead => "PopReadHead",
            Stage::PopProtectTop { .. } => "PopProtectTop",
            Stage::PopCheckHead { .. } => "PopCheckHead",
            Stage::PopReadTop { .. } => "PopReadTop",
            Stage::PopSwapHead { .. } => "PopSwapHead",
            Stage::Find { at, .. } => at.name(),
            Stage::LinkFresh { .. } => "LinkFresh",
            Stage::MarkCell { .. } => "MarkCell",
            Stage::RemoveCell { .. } => "RemoveCell",
        }
    }
}

impl At {
    fn name(self) -> &'static str {
        match self {
            At::ReadFront => "ReadFront",
            At::ProtectFirst { .. } => "ProtectFirst",
            At::CheckFront { .. } => "CheckFront",
            At::ReadCell { .. } => "ReadCell",
            At::ProtectNext { .. } => "ProtectNext",
            At::CheckPrev { .. } => "CheckPrev",
            At::ConfirmCell { .. } => "ConfirmCell",
            At::ShiftPrev { .. } => "ShiftPrev",
            At::ShiftCur { .. } => "ShiftCur",
            At::Unlink { .. } => "Unlink",
        }
    }
}
