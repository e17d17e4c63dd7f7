//! Seeded loads: a board driven with words made from a seed.

use std::fmt;
use std::num::NonZeroU64;
use std::time::{Duration, Instant};

use crate::board::Board;
use crate::epoch::Epochs;
use crate::hazard::HazardPointers;
use crate::items::{ByteString, ItemKind, MOST_BYTES};
use crate::quiescent::QuiescentStates;
use crate::random::Random;
use crate::reclaimer::{Reclaimer, Scheme, Sizes, MOST_SESSIONS};
use crate::word::{session_bits, Answer, Operation, Order, Place, Reason};

/// How the words of a load come.
#[derive(Clone, Copy, Debug, PartialEq, Eq)]
pub enum Mode {
    /// One operation after another, each to its end.
    Whole,
    /// Steps of all sessions in any order.
    Mixed,
    /// As mixed, with words of any bits among them.
    Junk,
}

impl Mode {
    pub const ALL: [Mode; 3] = [Mode::Whole, Mode::Mixed, Mode::Junk];

    pub fn name(self) -> &'static str {
        match self {
            Mode::Whole => "whole",
            Mode::Mixed => "mixed",
            Mode::Junk => "junk",
        }
    }

    pub fn named(name: &str) -> Option<Self> {
        Self::ALL.into_iter().find(|mode| mode.name() == name)
    }
}

#[derive(Clone, Copy)]
pub struct Load {
    pub scheme: Scheme,
    pub sessions: usize,
    pub cells: usize,
    pub kind: ItemKind,
    /// Not 0: every begin word needs a place.
    pub keys: usize,
    pub mode: Mode,
    pub seed: NonZeroU64,
    pub turns: u64,
}

impl fmt::Display for Load {
    fn fmt(&self, formatter: &mut fmt::Formatter<'_>) -> fmt::Result {
        let Load { sessions, cells, keys, .. } = self;
        let (scheme, kind) = (self.scheme.name(), self.kind.name());
        write!(formatter, "{scheme} {sessions} sessions {cells} cells {kind} {keys} keys")
    }
}

/// What a load comes to.
#[derive(Clone, Copy)]
pub struct Sums {
    pub words: u64,
    pub operations: u64,
    pub sum: u64,
    pub held: usize,
    pub free: usize,
    pub time: Duration,
}

impl Load {
    pub fn run(&self) -> Result<Sums, Reason> {
        match self.kind {
            ItemKind::Numbers => self.run_items(&item_numbers(self.keys).collect::<Vec<_>>()),
            ItemKind::Bytes => self.run_items(
                &item_numbers(self.keys).map(byte_string).collect::<Result<Vec<_>, _>>()?,
            ),
        }
    }

    fn run_items<I: Ord>(&self, items: &[I]) -> Result<Sums, Reason> {
        match self.scheme {
            Scheme::Hazard => self.run_over::<HazardPointers, I>(items),
            Scheme::Epoch => self.run_over::<Epochs, I>(items),
            Scheme::Quiescent => self.run_over::<QuiescentStates, I>(items),
        }
    }

    fn run_over<R: Reclaimer, I: Ord>(&self, items: &[I]) -> Result<Sums, Reason> {
        let sizes = Sizes::new(self.sessions, self.cells)?;
        let mut driver = Driver::new(Board::<R>::open(sizes, items.len())?, items, self.seed);
        let start = Instant::now();
        driver.drive(self.mode, self.turns);
        let time = start.elapsed();
        let (held, free) = driver.board.tallies();
        let Driver { words, operations, sum, .. } = driver;
        Ok(Sums { words, operations, sum, held, free, time })
    }

    /// The line that a load prints.
    pub fn report(&self, ran: Result<Sums, Reason>) -> String {
        match ran {
            Ok(Sums { words, operations, sum, held, free, .. }) => format!(
                "{self} {} seed {} turns {}: words {words} operations {operations} sum {sum:016x} \
                 held {held} free {free}",
                self.mode.name(),
                self.seed,
                self.turns,
            ),
            Err(reason) => format!("{self}: refused {}", reason.number()),
        }
    }
}

/// The numbers behind the items. Only three quarters of them differ.
fn item_numbers(keys: usize) -> impl Iterator<Item = u32> {
    let different = keys - keys / 4;
    (0..keys).map(move |place| (place * 7919 % different) as u32)
}

fn byte_string(number: u32) -> Result<ByteString, Reason> {
    let mut bytes = [0; MOST_BYTES];
    for (position, byte) in (0..).zip(&mut bytes) {
        *byte = (number * 37 + position * 85 + number / 12) as u8;
    }
    ByteString::new(&bytes[..number as usize % 12])
}

struct Driver<'a, R, I> {
    board: Board<R>,
    items: &'a [I],
    random: Random,
    sessions: u64,
    busy: [bool; MOST_SESSIONS],
    words: u64,
    operations: u64,
    sum: u64,
}

impl<'a, R: Reclaimer, I: Ord> Driver<'a, R, I> {
    fn new(board: Board<R>, items: &'a [I], seed: NonZeroU64) -> Self {
        Driver {
            sessions: board.sizes().sessions() as u64,
            board,
            items,
            random: Random::new(seed),
            busy: [false; MOST_SESSIONS],
            words: 0,
            operations: 0,
            sum: 0,
        }
    }

    fn drive(&mut self, mode: Mode, turns: u64) {
        match mode {
            Mode::Whole => (0..turns).for_each(|_| self.whole_turn()),
            Mode::Mixed => (0..turns).for_each(|_| {
                let drawn = self.random.draw();
                self.mixed_turn(drawn);
            }),
            Mode::Junk => (0..turns).for_each(|_| self.junk_turn()),
        }
    }

    #[inline]
    fn whole_turn(&mut self) {
        let drawn = self.random.draw();
        let session = self.session(drawn);
        let begin = self.begin(session);
        let mut answer = self.give(begin);
        while answer == Answer::UnderWay {
            answer = self.give(Order::Step { session }.word());
        }
    }

    #[inline]
    fn mixed_turn(&mut self, drawn: u64) {
        let session = self.session(drawn);
        let word = if self.busy[usize::from(session)] {
            Order::Step { session }.word()
        } else if drawn >> 20 & 255 == 0 {
            Order::Tidy.word()
        } else {
            self.begin(session)
        };
        self.give(word);
    }

    #[inline]
    fn junk_turn(&mut self) {
        let drawn = self.random.draw();
        match drawn >> 40 & 7 {
            0 => {
                self.give(drawn as u32);
            }
            1 => {
                let session = ((drawn >> 3) % 32) as u8;
                self.give(Order::Step { session }.word());
            }
            _ => self.mixed_turn(drawn),
        }
    }

    #[inline]
    fn session(&self, drawn: u64) -> u8 {
        ((drawn >> 3) % self.sessions) as u8
    }

    #[inline]
    fn begin(&mut self, session: u8) -> u32 {
        let drawn = self.random.draw();
        let keys = self.items.len() as u32;
        let place = Place(((drawn >> 8 & 0xffff) as u32 % keys) as u16);
        let operation = match drawn & 15 {
            0..=3 => Operation::Insert(place),
            4..=7 => Operation::Delete(place),
            8..=11 => Operation::Contains(place),
            12 | 13 => Operation::Push(place),
            _ => Operation::Pop,
        };
        Order::Begin { session, operation }.word()
    }

    #[inline]
    fn give(&mut self, word: u32) -> Answer {
        let answer = self.board.word(self.items, word);
        self.words += 1;
        let letter = match answer {
            Answer::UnderWay => {
                self.set_busy(word, true);
                0
            }
            Answer::Yes(_) => {
                self.end_operation(word);
                1
            }
            Answer::No => {
                self.end_operation(word);
                2
            }
            Answer::Tidied(_) => 3,
            Answer::Refused(_) => 4,
        };
        let term = letter * 65_536 + u64::from(answer.value());
        self.sum = self.sum.wrapping_mul(31).wrapping_add(term);
        answer
    }

    #[inline]
    fn end_operation(&mut self, word: u32) {
        self.operations += 1;
        self.set_busy(word, false);
    }

    #[inline]
    fn set_busy(&mut self, word: u32, busy: bool) {
        if let Some(session) = self.busy.get_mut(usize::from(session_bits(word))) {
            *session = busy;
        }
    }
}

#[cfg(test)]
mod tests {
    use super::*;

    #[test]
    fn the_items_of_eight_keys() {
        // P is 6, and 7919 is 5 more than a multiple of 6.
        let numbers: Vec<_> = item_numbers(8).collect();
        assert_eq!(numbers, [0, 5, 4, 3, 2, 1, 0, 5]);
        let strings: Vec<_> = [0, 2, 13].map(|number| byte_string(number).unwrap()).to_vec();
        assert_eq!(strings[0].as_bytes(), b"");
        // 2 * 37 = 74, and 85 more for the second byte.
        assert_eq!(strings[1].as_bytes(), [74, 159]);
        // 13 * 37 + 13 / 12 = 482, less 256.
        assert_eq!(strings[2].as_bytes(), [226]);
    }

    #[test]
    fn a_load_of_one_turn() {
        let load = Load {
            scheme: Scheme::Hazard,
            sessions: 1,
            cells: 1,
            kind: ItemKind::Numbers,
            keys: 1,
            mode: Mode::Whole,
            seed: NonZeroU64::MIN,
            turns: 1,
        };
        let sums = load.run().unwrap();
        // The second number from seed 1 is 0x100041060c011441: low bits 1, an
        // insert. The answers are w, w, y: the sum is 65536.
        assert_eq!((sums.words, sums.operations, sums.sum), (3, 1, 65_536));
        assert_eq!((sums.held, sums.free), (0, 0));
        assert_eq!(
            load.report(Ok(sums)),
            "hazard 1 sessions 1 cells numbers 1 keys whole seed 1 turns 1: words 3 operations 1 \
             sum 0000000000010000 held 0 free 0"
        );
        let refused = Load { cells: 257, ..load };
        assert_eq!(
            refused.report(refused.run()),
            "hazard 1 sessions 257 cells numbers 1 keys: refused 3"
        );
    }
}
