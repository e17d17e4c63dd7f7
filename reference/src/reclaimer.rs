//! What a board asks of a reclaimer: when may a cell that was taken out be used
//! again?

use crate::word::Reason;

pub const MOST_SESSIONS: usize = 8;
pub const MOST_CELLS: usize = 256;
pub const MOST_ITEMS: usize = 1024;
pub const SLOTS: usize = 3;

/// The number of a session that the board has.
#[derive(Clone, Copy, Debug, PartialEq, Eq)]
pub struct SessionId(u8);

impl SessionId {
    pub fn new(number: u8) -> Self {
        debug_assert!(usize::from(number) < MOST_SESSIONS);
        SessionId(number)
    }

    pub fn index(self) -> usize {
        usize::from(self.0)
    }
}

/// The number of a cell. Every number of a byte is below the most cells, so an
/// array of that many cells needs no check of its index.
#[derive(Clone, Copy, Debug, PartialEq, Eq)]
pub struct CellId(u8);

impl CellId {
    #[cfg(test)]
    pub fn new(number: u8) -> Self {
        CellId(number)
    }

    pub fn index(self) -> usize {
        usize::from(self.0)
    }

    /// The first `count` cells in the order of their numbers.
    pub fn first(count: usize) -> impl DoubleEndedIterator<Item = CellId> {
        debug_assert!(count <= MOST_CELLS);
        (0..count).map(|number| CellId(number as u8))
    }
}

/// The slots of a session, by what a step stores there.
#[derive(Clone, Copy, Debug, PartialEq, Eq)]
pub enum Slot {
    /// Slot 0: the next cell of a search, or the top cell of a pop.
    Ahead,
    /// Slot 1: the cell that a search stands at.
    Current,
    /// Slot 2: the cell before it.
    Behind,
}

impl Slot {
    pub fn index(self) -> usize {
        match self {
            Slot::Ahead => 0,
            Slot::Current => 1,
            Slot::Behind => 2,
        }
    }
}

/// Checked numbers of sessions and cells.
#[derive(Clone, Copy, Debug, PartialEq, Eq)]
pub struct Sizes {
    sessions: usize,
    cells: usize,
}

impl Sizes {
    pub fn new(sessions: usize, cells: usize) -> Result<Self, Reason> {
        if (1..=MOST_SESSIONS).contains(&sessions) && (1..=MOST_CELLS).contains(&cells) {
            Ok(Sizes { sessions, cells })
        } else {
            Err(Reason::Sizes)
        }
    }

    pub fn sessions(self) -> usize {
        self.sessions
    }

    pub fn cells(self) -> usize {
        self.cells
    }
}

/// A scheme of giving cells back.
///
/// The board calls `enter` for sessions outside and `leave` and `protect` for
/// sessions inside only, and retires no cell that is held. The schemes check
/// this in debug builds.
pub trait Reclaimer {
    /// Whether retired cells are held. Where they are not, the board puts an
    /// unlinked cell straight back on its free stack.
    const HOLDS: bool = true;

    fn new(sizes: Sizes) -> Self;
    fn enter(&mut self, session: SessionId);
    fn leave(&mut self, session: SessionId);
    fn protect(&mut self, session: SessionId, slot: Slot, cell: CellId);
    fn retire(&mut self, cell: CellId);
    /// Gives back a held cell that nobody can still use, if it finds one.
    fn collect(&mut self) -> Option<CellId>;
    fn held_count(&self) -> usize;
}

/// The schemes that a schedule or a load can name.
#[derive(Clone, Copy, Debug, PartialEq, Eq)]
pub enum Scheme {
    Hazard,
    Epoch,
    Quiescent,
}

impl Scheme {
    pub const ALL: [Scheme; 3] = [Scheme::Hazard, Scheme::Epoch, Scheme::Quiescent];

    pub fn name(self) -> &'static str {
        match self {
            Scheme::Hazard => "hazard",
            Scheme::Epoch => "epoch",
            Scheme::Quiescent => "quiescent",
        }
    }

    pub fn named(name: &str) -> Option<Self> {
        Self::ALL.into_iter().find(|scheme| scheme.name() == name)
    }
}

#[cfg(test)]
mod tests {
    use super::*;

    #[test]
    fn the_sizes_of_sessions_and_cells() {
        for (sessions, cells) in [(1, 1), (8, 256), (8, 1), (1, 256)] {
            assert!(Sizes::new(sessions, cells).is_ok());
        }
        for (sessions, cells) in [(0, 1), (9, 256), (1, 0), (8, 257)] {
            assert_eq!(Sizes::new(sessions, cells), Err(Reason::Sizes));
        }
    }
}
