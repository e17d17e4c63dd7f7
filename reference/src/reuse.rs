//! The accident: the same board, but an unlinked cell is used again at once.

use std::fmt::Display;
use std::io::{self, Write};

use crate::answers::{give, Verdict};
use crate::board::Board;
use crate::items::Items;
use crate::reclaimer::{CellId, Reclaimer, SessionId, Sizes, Slot, MOST_SESSIONS};
use crate::schedule::{Schedule, WordLine};
use crate::serial::{first_equal_places, SerialMachine};
use crate::witness::Witness;
use crate::word::{Answer, Operation, Order, Place, Reason};

/// No reclaimer: it holds nothing, and the board keeps its unlinked cells.
pub struct ReuseAtOnce;

impl Reclaimer for ReuseAtOnce {
    const HOLDS: bool = false;

    fn new(_: Sizes) -> Self {
        ReuseAtOnce
    }

    fn enter(&mut self, _: SessionId) {}
    fn leave(&mut self, _: SessionId) {}
    fn protect(&mut self, _: SessionId, _: Slot, _: CellId) {}
    fn retire(&mut self, _: CellId) {}

    fn collect(&mut self) -> Option<CellId> {
        None
    }

    fn held_count(&self) -> usize {
        0
    }
}

/// An operation that was decided.
#[derive(Clone, Copy)]
struct Decision {
    word: u64,
    session: SessionId,
    operation: Operation,
    answer: Answer,
}

/// Writes down the decisions in their order.
#[derive(Default)]
struct Recorder {
    /// The number of the word that is being done, counted from 1.
    word: u64,
    /// What each session began last.
    operations: [Option<Operation>; MOST_SESSIONS],
    decisions: Vec<Decision>,
}

impl Recorder {
    fn operation_of(&self, session: u8) -> Option<Operation> {
        self.operations.get(usize::from(session)).copied().flatten()
    }
}

impl Witness for Recorder {
    fn began(&mut self, session: SessionId, operation: Operation) {
        self.operations[session.index()] = Some(operation);
    }

    fn decided(&mut self, session: SessionId, answer: Answer) {
        if let Some(operation) = self.operations[session.index()] {
            self.decisions.push(Decision { word: self.word, session, operation, answer });
        }
    }
}

/// Runs a schedule with reuse at once, prints every word and then what became of
/// the locks.
pub fn print_reuse(text: &[u8], output: &mut impl Write) -> io::Result<Verdict> {
    let schedule = match Schedule::read(text) {
        Ok(schedule) => schedule,
        Err(error) => return Ok(Verdict::BadText(error)),
    };
    let opened = schedule.items.make().and_then(|items| {
        let sizes = Sizes::new(schedule.sessions, schedule.cells)?;
        let board = Board::watched(sizes, items.len(), Recorder::default())?;
        Ok((board, items))
    });
    match opened {
        Ok((board, Items::Numbers(items))) => {
            Rerun { board, items: &items }.print(&schedule.lines, output)
        }
        Ok((board, Items::Bytes(items))) => {
            Rerun { board, items: &items }.print(&schedule.lines, output)
        }
        Err(reason) => {
            writeln!(output, "refused {}", reason.number())?;
            Ok(Verdict::Refused)
        }
    }
}

struct Rerun<'a, I> {
    board: Board<ReuseAtOnce, Recorder>,
    items: &'a [I],
}

impl<I: Ord + Display> Rerun<'_, I> {
    fn print(mut self, lines: &[WordLine], output: &mut impl Write) -> io::Result<Verdict> {
        let mut words = 0;
        for &line in lines {
            give(line, |word| {
                words += 1;
                self.print_word(words, word, output)
            })?;
        }
        self.print_end(output)?;
        Ok(Verdict::Ran { words })
    }

    fn print_word(
        &mut self,
        number: u64,
        word: u32,
        output: &mut impl Write,
    ) -> io::Result<Answer> {
        let order = Order::read(word);
        // The stage has to be asked for before the word changes it.
        let said = self.word_name(word, order);
        self.board.witness_mut().word = number;
        let answer = self.board.word(self.items, word);
        let begun = match order {
            Ok(Order::Step { session }) => self.board.witness().operation_of(session),
            _ => None,
        };
        writeln!(output, "{number:>3} {said:<20} {}", self.answer_name(begun, answer))?;
        Ok(answer)
    }

    fn print_end(&self, output: &mut impl Write) -> io::Result<()> {
        writeln!(output, "list, from its front: {}", self.place_names(&self.board.list_places()))?;
        writeln!(output, "stack, from its top: {}", self.place_names(&self.board.stack_places()))?;
        let wrong = self.first_wrong();
        if let Some((decision, serial)) = wrong {
            writeln!(output, "wrong: {}", self.wrong_sentence(decision, serial))?;
        }
        let lost = self.lost_locks();
        for decision in &lost {
            writeln!(output, "lost: {}", self.lost_sentence(*decision))?;
        }
        if wrong.is_none() && lost.is_empty() {
            writeln!(
                output,
                "nothing went wrong: the answers fit one serial order, and no lock is lost"
            )?;
        }
        Ok(())
    }

    /// The first decided operation that the serial machine would have answered
    /// otherwise, with the answer that it should have had.
    fn first_wrong(&self) -> Option<(Decision, Answer)> {
        let mut machine = SerialMachine::new(self.items);
        let decisions = self.board.witness().decisions.iter().copied();
        decisions
            .map(|decision| (decision, machine.feed(decision.operation)))
            .find(|(decision, serial)| decision.answer != *serial)
    }

    /// The inserts decided with yes whose item nobody has deleted since and is
    /// not in the list all the same.
    ///
    /// A delete counts for the item that its session asked for: the session was
    /// told of no other.
    fn lost_locks(&self) -> Vec<Decision> {
        let first_equal = first_equal_places(self.items);
        let mut standing: Vec<Option<Decision>> = vec![None; self.items.len()];
        for decision in &self.board.witness().decisions {
            match (decision.operation, decision.answer) {
                (Operation::Insert(place), Answer::Yes(_)) => {
                    standing[first_equal[place.index()]] = Some(*decision);
                }
                (Operation::Delete(place), Answer::Yes(_)) => {
                    standing[first_equal[place.index()]] = None;
                }
                _ => {}
            }
        }
        for place in self.board.list_places() {
            standing[first_equal[place.index()]] = None;
        }
        let mut lost: Vec<_> = standing.into_iter().flatten().collect();
        lost.sort_by_key(|decision| decision.word);
        lost
    }

    fn wrong_sentence(&self, decision: Decision, serial: Answer) -> String {
        let Decision { word, session, operation, answer } = decision;
        format!(
            "word {word} decided session {}'s {} with {}; one operation at a time, in the order \
             of their decisions, it would be {}",
            letter(session.index()),
            self.operation_name(operation),
            self.answer_name(Some(operation), answer),
            self.answer_name(Some(operation), serial),
        )
    }

    fn lost_sentence(&self, decision: Decision) -> String {
        let item = decision.operation.place().map(|place| self.place_name(place));
        format!(
            "session {} was told at word {} that it has locked {}; nobody has removed that lock, \
             and it is not in the list",
            letter(decision.session.index()),
            decision.word,
            item.unwrap_or_default(),
        )
    }

    fn word_name(&self, word: u32, order: Result<Order, Reason>) -> String {
        match order {
            Ok(Order::Step { session }) => {
                let stage = self.board.stage_of(session).name();
                format!("{} step {stage}", letter(session.into()))
            }
            Ok(Order::Begin { session, operation }) => {
                format!("{} {}", letter(session.into()), self.operation_name(operation))
            }
            Ok(Order::Tidy) => "- tidy".to_string(),
            Err(_) => format!("- {word:#010x}"),
        }
    }

    fn operation_name(&self, operation: Operation) -> String {
        match operation.place() {
            Some(place) => format!("{} {}", operation.name(), self.place_name(place)),
            None => operation.name().to_string(),
        }
    }

    /// An answer; the value of a yes means something for a pop only.
    fn answer_name(&self, begun: Option<Operation>, answer: Answer) -> String {
        match answer {
            Answer::UnderWay => "under way".to_string(),
            Answer::Yes(place) if begun == Some(Operation::Pop) => {
                format!("yes {}", self.place_name(Place(place)))
            }
            Answer::Yes(_) => "yes".to_string(),
            Answer::No => "no".to_string(),
            Answer::Tidied(count) => format!("tidied {count}"),
            Answer::Refused(reason) => format!("refused {}", reason.number()),
        }
    }

    /// A place by its item, or by its number if the list has no such place.
    fn place_name(&self, place: Place) -> String {
        match self.items.get(place.index()) {
            Some(item) => item.to_string(),
            None => format!("place {}", place.0),
        }
    }

    fn place_names(&self, places: &[Place]) -> String {
        if places.is_empty() {
            return "nothing".to_string();
        }
        let names: Vec<_> = places.iter().map(|&place| self.place_name(place)).collect();
        names.join(" ")
    }
}

fn letter(session: usize) -> char {
    char::from(b"ABCDEFGHIJKLMNOPQRSTUVWXYZ".get(session).copied().unwrap_or(b'?'))
}

#[cfg(test)]
mod tests {
    use super::*;

    fn printed(text: &str) -> String {
        let mut output = Vec::new();
        let verdict = print_reuse(text.as_bytes(), &mut output).expect("a Vec takes all");
        assert_eq!(verdict.status(), 0);
        String::from_utf8(output).expect("ASCII")
    }

    #[test]
    fn the_accident_loses_a_lock() {
        let output = printed(include_str!("../../schedules/accident.txt"));
        let lines: Vec<_> = output.lines().collect();
        assert_eq!(lines[22], " 23 A step MarkCell      under way");
        assert_eq!(lines[23], " 24 A step RemoveCell    yes");
        assert_eq!(lines[24], " 25 C contains 9         under way");
        assert_eq!(lines[25], " 26 C step ReadFront     no");
        assert_eq!(lines[26], "list, from its front: nothing");
        assert_eq!(lines[27], "stack, from its top: nothing");
        assert!(lines[28].starts_with("wrong: word 23 decided session A's delete 7 with yes"));
        assert!(lines[29].starts_with("lost: session C was told at word 22 that it has locked 9"));
        assert_eq!(lines.len(), 30);
    }

    #[test]
    fn one_session_alone_loses_nothing() {
        let text = "reclaimer epoch\nsessions 1\ncells 2\nitems bytes \"a\" x00\n\
                    insert 0 1\nfinish 0\npush 0 0\nfinish 0\npop 0\nfinish 0\n0xffffffff\n";
        let output = printed(text);
        assert!(output.contains(" 12 A step PopSwapHead   yes \"a\"\n"), "{output}");
        assert!(output.contains(" 13 - 0xffffffff         refused 5\n"), "{output}");
        assert!(output.contains("list, from its front: x00\n"), "{output}");
        assert!(output.contains("nothing went wrong"), "{output}");
    }
}
