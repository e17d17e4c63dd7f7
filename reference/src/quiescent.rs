//! Quiescent states: a held cell waits for all sessions that were inside when it
//! was retired.
//!
//! The records are not written down. A session is in the record of a held cell
//! exactly if it is inside and entered before the cell was retired, so it is
//! enough to know the order of entries and retirements. And a session in the
//! record of the oldest cell is in all records, so only the oldest cell can
//! have an empty record when any has.

use std::collections::VecDeque;

use crate::reclaimer::{CellId, Reclaimer, SessionId, Sizes, Slot, MOST_SESSIONS};

struct HeldCell {
    cell: CellId,
    /// How many retirements there were before this one.
    retired: u64,
}

pub struct QuiescentStates {
    retirements: u64,
    /// For each session inside how many retirements there were when it entered.
    entered: [Option<u64>; MOST_SESSIONS],
    /// The held cells, oldest first.
    held: VecDeque<HeldCell>,
}

impl QuiescentStates {
    fn has_empty_record(&self, held: &HeldCell) -> bool {
        self.entered.iter().flatten().all(|&entered| entered > held.retired)
    }
}

impl Reclaimer for QuiescentStates {
    fn new(sizes: Sizes) -> Self {
        QuiescentStates {
            retirements: 0,
            entered: [None; MOST_SESSIONS],
            held: VecDeque::with_capacity(sizes.cells()),
        }
    }

    #[inline]
    fn enter(&mut self, session: SessionId) {
        debug_assert!(self.entered[session.index()].is_none());
        self.entered[session.index()] = Some(self.retirements);
    }

    #[inline]
    fn leave(&mut self, session: SessionId) {
        debug_assert!(self.entered[session.index()].is_some());
        self.entered[session.index()] = None;
    }

    #[inline]
    fn protect(&mut self, _: SessionId, _: Slot, _: CellId) {}

    #[inline]
    fn retire(&mut self, cell: CellId) {
        debug_assert!(self.held.iter().all(|held| held.cell != cell));
        self.held.push_back(HeldCell { cell, retired: self.retirements });
        self.retirements += 1;
    }

    fn collect(&mut self) -> Option<CellId> {
        if !self.has_empty_record(self.held.front()?) {
            return None;
        }
        self.held.pop_front().map(|held| held.cell)
    }

    fn held_count(&self) -> usize {
        self.held.len()
    }
}

#[cfg(test)]
mod tests {
    use super::*;

    #[test]
    fn a_cell_waits_for_those_inside_at_its_retirement() {
        let mut quiescent = QuiescentStates::new(Sizes::new(3, 4).unwrap());
        let [early, middle, late] = [0, 1, 2].map(SessionId::new);
        let [one, two] = [1, 2].map(CellId::new);
        quiescent.enter(early);
        quiescent.retire(one);
        quiescent.enter(middle);
        quiescent.retire(two);
        quiescent.enter(late);
        assert_eq!(quiescent.collect(), None);
        quiescent.leave(early);
        assert_eq!(quiescent.collect(), Some(one));
        assert_eq!(quiescent.collect(), None, "the middle session is in the record of cell 2");
        quiescent.leave(middle);
        // Back again it is another stay, and no record knows it.
        quiescent.enter(middle);
        assert_eq!(quiescent.collect(), Some(two));
        assert_eq!(quiescent.held_count(), 0);
    }
}
