//! What can be told about a run beyond its answers.

use crate::reclaimer::{CellId, SessionId};
use crate::word::{Answer, Operation};

/// Is told what happens within each word, in this order: cells given back,
/// begin, touches, clears, decision, completion.
///
/// A witness that does not care for something leaves the method as it is; the
/// call then costs nothing.
pub trait Witness {
    fn gave_back(&mut self, _cell: CellId) {}
    fn began(&mut self, _session: SessionId, _operation: Operation) {}
    fn touched(&mut self, _session: SessionId, _cell: CellId) {}
    fn cleared(&mut self, _session: SessionId, _cell: CellId) {}
    fn decided(&mut self, _session: SessionId, _answer: Answer) {}
    fn completed(&mut self, _session: SessionId, _answer: Answer) {}
}

/// The witness of a board that nobody watches.
#[derive(Default)]
pub struct Unwatched;

impl Witness for Unwatched {}
