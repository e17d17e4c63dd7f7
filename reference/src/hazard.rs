//! Hazard pointers: a held cell waits while a slot stores it.

use std::collections::VecDeque;

use crate::reclaimer::{CellId, Reclaimer, SessionId, Sizes, Slot, MOST_SESSIONS, SLOTS};

type Row = [Option<CellId>; SLOTS];

pub struct HazardPointers {
    /// A session that is outside has an empty row.
    rows: [Row; MOST_SESSIONS],
    /// The held cells, oldest first.
    held: VecDeque<CellId>,
}

impl HazardPointers {
    fn is_stored(&self, cell: CellId) -> bool {
        self.rows.as_flattened().contains(&Some(cell))
    }
}

impl Reclaimer for HazardPointers {
    fn new(sizes: Sizes) -> Self {
        HazardPointers {
            rows: [[None; SLOTS]; MOST_SESSIONS],
            held: VecDeque::with_capacity(sizes.cells()),
        }
    }

    #[inline]
    fn enter(&mut self, session: SessionId) {
        debug_assert_eq!(self.rows[session.index()], [None; SLOTS]);
    }

    #[inline]
    fn leave(&mut self, session: SessionId) {
        self.rows[session.index()] = [None; SLOTS];
    }

    #[inline]
    fn protect(&mut self, session: SessionId, slot: Slot, cell: CellId) {
        self.rows[session.index()][slot.index()] = Some(cell);
    }

    #[inline]
    fn retire(&mut self, cell: CellId) {
        debug_assert!(!self.held.contains(&cell));
        self.held.push_back(cell);
    }

    fn collect(&mut self) -> Option<CellId> {
        let position = self.held.iter().position(|&cell| !self.is_stored(cell))?;
        self.held.remove(position)
    }

    fn held_count(&self) -> usize {
        self.held.len()
    }
}

#[cfg(test)]
mod tests {
    use super::*;

    #[test]
    fn a_stored_cell_is_passed_over() {
        let mut hazard = HazardPointers::new(Sizes::new(2, 8).unwrap());
        let session = SessionId::new(1);
        let (four, five) = (CellId::new(4), CellId::new(5));
        hazard.enter(session);
        hazard.protect(session, Slot::Behind, four);
        hazard.retire(four);
        hazard.retire(five);
        assert_eq!(hazard.collect(), Some(five));
        assert_eq!(hazard.collect(), None);
        assert_eq!(hazard.held_count(), 1);
        hazard.leave(session);
        assert_eq!(hazard.collect(), Some(four));
        assert_eq!(hazard.held_count(), 0);
    }
}
