//! Epochs: a held cell waits for two advances.
//!
//! Lags and ages are not counted one by one. The epoch counts the advances, and
//! a lag or an age is how far the epoch has gone since the session entered or
//! the cell was retired.

use std::collections::VecDeque;

use crate::reclaimer::{CellId, Reclaimer, SessionId, Sizes, Slot, MOST_SESSIONS};

/// At this age a cell is given back.
const RIPE: u64 = 2;

struct HeldCell {
    cell: CellId,
    retired: u64,
}

pub struct Epochs {
    epoch: u64,
    /// For each session inside the epoch in which it entered.
    entered: [Option<u64>; MOST_SESSIONS],
    /// The held cells, oldest first, so that none behind is of a greater age.
    held: VecDeque<HeldCell>,
}

impl Epochs {
    /// The epoch may advance while no session inside is behind it already.
    fn may_advance(&self) -> bool {
        self.entered.iter().flatten().all(|&entered| entered == self.epoch)
    }
}

impl Reclaimer for Epochs {
    fn new(sizes: Sizes) -> Self {
        Epochs {
            epoch: 0,
            entered: [None; MOST_SESSIONS],
            held: VecDeque::with_capacity(sizes.cells()),
        }
    }

    #[inline]
    fn enter(&mut self, session: SessionId) {
        debug_assert!(self.entered[session.index()].is_none());
        self.entered[session.index()] = Some(self.epoch);
    }

    #[inline]
    fn leave(&mut self, session: SessionId) {
        debug_assert!(self.entered[session.index()].is_some());
        self.entered[session.index()] = None;
    }

    #[inline]
    fn protect(&mut self, _: SessionId, _: Slot, _: CellId) {}

    #[inline]
    fn retire(&mut self, cell: CellId) {
        debug_assert!(self.held.iter().all(|held| held.cell != cell));
        self.held.push_back(HeldCell { cell, retired: self.epoch });
    }

    fn collect(&mut self) -> Option<CellId> {
        let ripe_at = self.held.front()?.retired + RIPE;
        // What is advanced stays so, even if the cell is not ripe in the end.
        while self.epoch < ripe_at {
            if !self.may_advance() {
                return None;
            }
            self.epoch += 1;
        }
        self.held.pop_front().map(|held| held.cell)
    }

    fn held_count(&self) -> usize {
        self.held.len()
    }
}

#[cfg(test)]
mod tests {
    use super::*;

    #[test]
    fn with_nobody_inside_one_collect_gives_a_cell() {
        let mut epochs = Epochs::new(Sizes::new(1, 1).unwrap());
        epochs.retire(CellId::new(0));
        assert_eq!(epochs.collect(), Some(CellId::new(0)));
        assert_eq!(epochs.epoch, 2);
        assert_eq!(epochs.collect(), None);
        assert_eq!(epochs.epoch, 2, "with nothing held it does not advance");
    }

    #[test]
    fn a_session_inside_lets_the_epoch_advance_once() {
        let mut epochs = Epochs::new(Sizes::new(2, 2).unwrap());
        let (stalled, late) = (SessionId::new(0), SessionId::new(1));
        epochs.enter(stalled);
        epochs.retire(CellId::new(1));
        assert_eq!(epochs.collect(), None);
        assert_eq!(epochs.epoch, 1);
        // This one has lag 0: it alone would not hold the next advance back.
        epochs.enter(late);
        assert_eq!(epochs.collect(), None);
        epochs.leave(stalled);
        assert_eq!(epochs.collect(), Some(CellId::new(1)));
    }
}
