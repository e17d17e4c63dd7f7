//! The board: two structures over the same cells, done step by step.

use std::cmp::Ordering;

use crate::reclaimer::{
    CellId, Reclaimer, SessionId, Sizes, Slot, MOST_CELLS, MOST_ITEMS, MOST_SESSIONS,
};
use crate::stage::{At, Goal, Prev, Stage};
use crate::witness::{Unwatched, Witness};
use crate::word::{Answer, Operation, Order, Place, Reason};

/// A mark together with a cell or none. A marked link says that its own cell is
/// deleted.
#[derive(Clone, Copy, Debug, PartialEq, Eq)]
struct Link {
    marked: bool,
    to: Option<CellId>,
}

impl Link {
    fn plain(to: Option<CellId>) -> Self {
        Link { marked: false, to }
    }

    fn marked(to: Option<CellId>) -> Self {
        Link { marked: true, to }
    }
}

#[derive(Clone, Copy)]
struct Cell {
    place: Place,
    link: Link,
}

pub struct Board<R, W = Unwatched> {
    reclaimer: R,
    witness: W,
    sizes: Sizes,
    item_count: usize,
    /// There is room for the most cells, so that a cell's number needs no check.
    cells: Box<[Cell; MOST_CELLS]>,
    /// The top cell of the stack.
    head: Option<CellId>,
    /// The first cell of the list. The link to it is never marked.
    front: Option<CellId>,
    /// The cells ready for use; the last one is on top.
    free: Vec<CellId>,
    stages: [Stage; MOST_SESSIONS],
}

impl<R: Reclaimer> Board<R> {
    pub fn open(sizes: Sizes, item_count: usize) -> Result<Self, Reason> {
        Board::watched(sizes, item_count, Unwatched)
    }
}

impl<R: Reclaimer, W: Witness> Board<R, W> {
    pub fn watched(sizes: Sizes, item_count: usize, witness: W) -> Result<Self, Reason> {
        if item_count > MOST_ITEMS {
            return Err(Reason::Sizes);
        }
        let mut free = Vec::with_capacity(sizes.cells());
        free.extend(CellId::first(sizes.cells()).rev());
        Ok(Board {
            reclaimer: R::new(sizes),
            witness,
            sizes,
            item_count,
            cells: Box::new([Cell { place: Place(0), link: Link::plain(None) }; MOST_CELLS]),
            head: None,
            front: None,
            free,
            stages: [Stage::Outside; MOST_SESSIONS],
        })
    }

    /// How many cells the reclaimer holds, and how many are on the free stack.
    pub fn tallies(&self) -> (usize, usize) {
        (self.reclaimer.held_count(), self.free.len())
    }

    pub fn sizes(&self) -> Sizes {
        self.sizes
    }

    pub fn witness(&self) -> &W {
        &self.witness
    }

    pub fn witness_mut(&mut self) -> &mut W {
        &mut self.witness
    }

    /// The stage of a session; a session that the board does not have stands
    /// outside.
    pub fn stage_of(&self, session: u8) -> Stage {
        self.stages.get(usize::from(session)).copied().unwrap_or(Stage::Outside)
    }

    /// The places in the list, from its front, without those of marked cells.
    /// If the links lead in a circle, it is gone round more than once.
    pub fn list_places(&self) -> Vec<Place> {
        self.chain(self.front).filter(|cell| !cell.link.marked).map(|cell| cell.place).collect()
    }

    /// The places on the stack, from its top.
    pub fn stack_places(&self) -> Vec<Place> {
        self.chain(self.head).map(|cell| cell.place).collect()
    }

    /// The cells from the first one on, and no more than there are on the board.
    fn chain(&self, first: Option<CellId>) -> impl Iterator<Item = &Cell> {
        let follow = |id: &CellId| self.cells[id.index()].link.to;
        std::iter::successors(first, follow)
            .take(self.sizes.cells())
            .map(|id| &self.cells[id.index()])
    }

    /// Does one word and answers it.
    #[inline]
    pub fn word<I: Ord>(&mut self, items: &[I], word: u32) -> Answer {
        self.obey(items, word).unwrap_or_else(Answer::Refused)
    }

    #[inline]
    fn obey<I: Ord>(&mut self, items: &[I], word: u32) -> Result<Answer, Reason> {
        if items.len() != self.item_count {
            return Err(Reason::OtherItems);
        }
        match Order::read(word)? {
            Order::Step { session } => {
                let session = self.session(session)?;
                self.step(items, session)
            }
            Order::Begin { session, operation } => {
                let session = self.session(session)?;
                self.begin(session, operation)
            }
            Order::Tidy => Ok(self.tidy()),
        }
    }

    #[inline]
    fn session(&self, number: u8) -> Result<SessionId, Reason> {
        if usize::from(number) < self.sizes.sessions() {
            Ok(SessionId::new(number))
        } else {
            Err(Reason::NoSession)
        }
    }

    #[inline]
    fn begin(&mut self, session: SessionId, operation: Operation) -> Result<Answer, Reason> {
        if operation.place().is_some_and(|place| place.index() >= self.item_count) {
            return Err(Reason::NoPlace);
        }
        if self.stages[session.index()] != Stage::Outside {
            return Err(Reason::Inside);
        }
        let first = match operation {
            Operation::Insert(sought) => {
                let fresh = self.fresh_cell(sought)?;
                Stage::search(Goal::Add { sought, fresh })
            }
            Operation::Delete(sought) => Stage::search(Goal::Take { sought }),
            Operation::Contains(sought) => Stage::search(Goal::Look { sought }),
            Operation::Push(place) => Stage::PushReadHead { fresh: self.fresh_cell(place)? },
            Operation::Pop => Stage::PopReadHead,
        };
        self.reclaimer.enter(session);
        self.witness.began(session, operation);
        self.stages[session.index()] = first;
        Ok(Answer::UnderWay)
    }

    /// A cell for an insert or a push: from the free stack, else from the
    /// reclaimer, which is asked once.
    #[inline]
    fn fresh_cell(&mut self, place: Place) -> Result<CellId, Reason> {
        let ready = self.free.pop();
        let fresh = ready.or_else(|| self.collect()).ok_or(Reason::NoCell)?;
        self.cells[fresh.index()] = Cell { place, link: Link::plain(None) };
        Ok(fresh)
    }

    fn collect(&mut self) -> Option<CellId> {
        let cell = self.reclaimer.collect()?;
        self.witness.gave_back(cell);
        Some(cell)
    }

    fn tidy(&mut self) -> Answer {
        let mut given_back = 0;
        while let Some(cell) = self.collect() {
            self.free.push(cell);
            given_back += 1;
        }
        Answer::Tidied(given_back)
    }

    #[inline]
    fn step<I: Ord>(&mut self, items: &[I], session: SessionId) -> Result<Answer, Reason> {
        Ok(match self.stages[session.index()] {
            Stage::Outside => return Err(Reason::Outside),
            Stage::PushReadHead { fresh } => self.push_read_head(session, fresh),
            Stage::PushSwapHead { fresh, seen } => self.push_swap_head(session, fresh, seen),
            Stage::PopReadHead => self.pop_read_head(session),
            Stage::PopProtectTop { top } => self.pop_protect_top(session, top),
            Stage::PopCheckHead { top } => self.pop_check_head(session, top),
            Stage::PopReadTop { top } => self.pop_read_top(session, top),
            Stage::PopSwapHead { top, next, place } => {
                self.pop_swap_head(session, top, next, place)
            }
            Stage::Find { goal, at } => self.find(items, session, goal, at),
            Stage::LinkFresh { sought, fresh, prev, cur } => {
                self.link_fresh(session, sought, fresh, prev, cur)
            }
            Stage::MarkCell { sought, prev, cur, next } => {
                self.mark_cell(session, sought, prev, cur, next)
            }
            Stage::RemoveCell { sought, prev, cur, next } => {
                self.remove_cell(session, sought, prev, cur, next)
            }
        })
    }

    // The parts of steps that several share.

    /// The operation goes on at a stage. Every step writes its stage itself: one
    /// way out for all would put the stage together twice.
    #[inline(always)]
    fn go(&mut self, session: SessionId, stage: Stage) -> Answer {
        self.stages[session.index()] = stage;
        Answer::UnderWay
    }

    /// The step completes the operation.
    #[inline]
    fn complete(&mut self, session: SessionId, answer: Answer) -> Answer {
        self.reclaimer.leave(session);
        self.witness.completed(session, answer);
        self.stages[session.index()] = Stage::Outside;
        answer
    }

    /// The step decides the operation and completes it.
    #[inline]
    fn decide(&mut self, session: SessionId, answer: Answer) -> Answer {
        self.witness.decided(session, answer);
        self.complete(session, answer)
    }

    /// The link of a cell, for a step that has to touch it for that.
    #[inline]
    fn touch(&mut self, session: SessionId, cell: CellId) -> Link {
        self.witness.touched(session, cell);
        self.cells[cell.index()].link
    }

    /// Whether prev leads to `cur` and is not deleted itself.
    #[inline]
    fn leads_to(&mut self, session: SessionId, prev: Prev, cur: Option<CellId>) -> bool {
        match prev {
            Prev::Front => self.front == cur,
            Prev::Cell(cell) => self.touch(session, cell) == Link::plain(cur),
        }
    }

    /// Makes prev, which was touched in this step, lead to `to`.
    #[inline]
    fn lead(&mut self, prev: Prev, to: Option<CellId>) {
        match prev {
            Prev::Front => self.front = to,
            Prev::Cell(cell) => self.cells[cell.index()].link = Link::plain(to),
        }
    }

    #[inline]
    fn clear(&mut self, session: SessionId, cell: Option<CellId>) {
        if let Some(cell) = cell {
            self.witness.cleared(session, cell);
        }
    }

    /// Hands over a cell that nothing leads to any more.
    #[inline]
    fn retire(&mut self, cell: CellId) {
        if R::HOLDS {
            self.reclaimer.retire(cell);
        } else {
            self.free.push(cell);
        }
    }

    // Push.

    #[inline]
    fn push_read_head(&mut self, session: SessionId, fresh: CellId) -> Answer {
        self.cells[fresh.index()].link = Link::plain(self.head);
        self.go(session, Stage::PushSwapHead { fresh, seen: self.head })
    }

    #[inline]
    fn push_swap_head(
        &mut self,
        session: SessionId,
        fresh: CellId,
        seen: Option<CellId>,
    ) -> Answer {
        if self.head != seen {
            return self.go(session, Stage::PushReadHead { fresh });
        }
        self.head = Some(fresh);
        self.decide(session, Answer::Yes(0))
    }

    // Pop.

    #[inline]
    fn pop_read_head(&mut self, session: SessionId) -> Answer {
        match self.head {
            None => self.decide(session, Answer::No),
            Some(top) => self.go(session, Stage::PopProtectTop { top }),
        }
    }

    #[inline]
    fn pop_protect_top(&mut self, session: SessionId, top: CellId) -> Answer {
        self.reclaimer.protect(session, Slot::Ahead, top);
        self.go(session, Stage::PopCheckHead { top })
    }

    #[inline]
    fn pop_check_head(&mut self, session: SessionId, top: CellId) -> Answer {
        if self.head != Some(top) {
            return self.go(session, Stage::PopReadHead);
        }
        self.clear(session, Some(top));
        self.go(session, Stage::PopReadTop { top })
    }

    #[inline]
    fn pop_read_top(&mut self, session: SessionId, top: CellId) -> Answer {
        let next = self.touch(session, top).to;
        let place = self.cells[top.index()].place;
        self.go(session, Stage::PopSwapHead { top, next, place })
    }

    #[inline]
    fn pop_swap_head(
        &mut self,
        session: SessionId,
        top: CellId,
        next: Option<CellId>,
        place: Place,
    ) -> Answer {
        if self.head != Some(top) {
            return self.go(session, Stage::PopReadHead);
        }
        self.head = next;
        self.retire(top);
        self.decide(session, Answer::Yes(place.0))
    }

    // Search.

    /// The search goes on.
    #[inline(always)]
    fn seek(&mut self, session: SessionId, goal: Goal, at: At) -> Answer {
        self.go(session, Stage::Find { goal, at })
    }

    #[inline]
    fn find<I: Ord>(&mut self, items: &[I], session: SessionId, goal: Goal, at: At) -> Answer {
        match at {
            At::ReadFront => match self.front {
                None => self.absent(session, goal, Prev::Front, None),
                Some(cur) => self.seek(session, goal, At::ProtectFirst { cur }),
            },
            At::ProtectFirst { cur } => {
                self.reclaimer.protect(session, Slot::Current, cur);
                self.seek(session, goal, At::CheckFront { cur })
            }
            At::CheckFront { cur } => {
                if self.front != Some(cur) {
                    return self.seek(session, goal, At::ReadFront);
                }
                self.clear(session, Some(cur));
                self.seek(session, goal, At::ReadCell { prev: Prev::Front, cur })
            }
            At::ReadCell { prev, cur } => {
                let Link { marked, to } = self.touch(session, cur);
                let place = self.cells[cur.index()].place;
                let at = match to {
                    None => At::CheckPrev { prev, cur, marked, next: None, place },
                    Some(next) => At::ProtectNext { prev, cur, marked, next, place },
                };
                self.seek(session, goal, at)
            }
            At::ProtectNext { prev, cur, marked, next, place } => {
                self.reclaimer.protect(session, Slot::Ahead, next);
                self.seek(
                    session,
                    goal,
                    At::CheckPrev { prev, cur, marked, next: Some(next), place },
                )
            }
            At::CheckPrev { prev, cur, marked, next, place } => {
                if !self.leads_to(session, prev, Some(cur)) {
                    self.seek(session, goal, At::ReadFront)
                } else if marked {
                    self.seek(session, goal, At::Unlink { prev, cur, next })
                } else if compare(items, place, goal.sought()) == Ordering::Greater {
                    self.absent(session, goal, prev, Some(cur))
                } else {
                    self.seek(session, goal, At::ConfirmCell { prev, cur, next, place })
                }
            }
            At::ConfirmCell { prev, cur, next, place } => {
                if self.touch(session, cur) != Link::plain(next) {
                    return self.seek(session, goal, At::ReadFront);
                }
                self.clear(session, next);
                if compare(items, place, goal.sought()) == Ordering::Equal {
                    return self.present(session, goal, prev, cur, next);
                }
                match next {
                    None => self.absent(session, goal, Prev::Cell(cur), None),
                    Some(next) => self.seek(session, goal, At::ShiftPrev { cur, next }),
                }
            }
            At::ShiftPrev { cur, next } => {
                self.reclaimer.protect(session, Slot::Behind, cur);
                self.seek(session, goal, At::ShiftCur { prev: Prev::Cell(cur), next })
            }
            At::ShiftCur { prev, next } => {
                self.reclaimer.protect(session, Slot::Current, next);
                self.seek(session, goal, At::ReadCell { prev, cur: next })
            }
            At::Unlink { prev, cur, next } => {
                if !self.leads_to(session, prev, Some(cur)) {
                    return self.seek(session, goal, At::ReadFront);
                }
                self.lead(prev, next);
                self.retire(cur);
                self.clear(session, next);
                match next {
                    None => self.absent(session, goal, prev, None),
                    Some(next) => self.seek(session, goal, At::ShiftCur { prev, next }),
                }
            }
        }
    }

    /// A search has found the sought item in `cur`.
    #[inline]
    fn present(
        &mut self,
        session: SessionId,
        goal: Goal,
        prev: Prev,
        cur: CellId,
        next: Option<CellId>,
    ) -> Answer {
        match goal {
            Goal::Look { .. } => self.decide(session, Answer::Yes(0)),
            Goal::Add { fresh, .. } => {
                self.free.push(fresh);
                self.decide(session, Answer::No)
            }
            Goal::Take { sought } => self.go(session, Stage::MarkCell { sought, prev, cur, next }),
            // Decided already: the item found here came into the list later.
            Goal::Finish { .. } => self.complete(session, Answer::Yes(0)),
        }
    }

    /// A search has found that the sought item would stand between `prev` and
    /// `cur` and does not.
    #[inline]
    fn absent(
        &mut self,
        session: SessionId,
        goal: Goal,
        prev: Prev,
        cur: Option<CellId>,
    ) -> Answer {
        match goal {
            Goal::Look { .. } | Goal::Take { .. } => self.decide(session, Answer::No),
            Goal::Add { sought, fresh } => {
                self.go(session, Stage::LinkFresh { sought, fresh, prev, cur })
            }
            Goal::Finish { .. } => self.complete(session, Answer::Yes(0)),
        }
    }

    // After the search.

    #[inline]
    fn link_fresh(
        &mut self,
        session: SessionId,
        sought: Place,
        fresh: CellId,
        prev: Prev,
        cur: Option<CellId>,
    ) -> Answer {
        self.cells[fresh.index()].link = Link::plain(cur);
        if !self.leads_to(session, prev, cur) {
            return self.go(session, Stage::search(Goal::Add { sought, fresh }));
        }
        self.lead(prev, Some(fresh));
        self.decide(session, Answer::Yes(0))
    }

    #[inline]
    fn mark_cell(
        &mut self,
        session: SessionId,
        sought: Place,
        prev: Prev,
        cur: CellId,
        next: Option<CellId>,
    ) -> Answer {
        if self.touch(session, cur) != Link::plain(next) {
            return self.go(session, Stage::search(Goal::Take { sought }));
        }
        self.cells[cur.index()].link = Link::marked(next);
        // From the mark on other searches treat the item as gone, so the delete
        // is decided here although it completes later.
        self.witness.decided(session, Answer::Yes(0));
        self.go(session, Stage::RemoveCell { sought, prev, cur, next })
    }

    #[inline]
    fn remove_cell(
        &mut self,
        session: SessionId,
        sought: Place,
        prev: Prev,
        cur: CellId,
        next: Option<CellId>,
    ) -> Answer {
        if !self.leads_to(session, prev, Some(cur)) {
            return self.go(session, Stage::search(Goal::Finish { sought }));
        }
        self.lead(prev, next);
        self.retire(cur);
        self.complete(session, Answer::Yes(0))
    }
}

/// Two places are compared by the items at them.
#[inline]
fn compare<I: Ord>(items: &[I], one: Place, other: Place) -> Ordering {
    items[one.index()].cmp(&items[other.index()])
}
