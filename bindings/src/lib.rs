//! The slot-lock board: a safe API over the proved static library.
//!
//! A call opens a board over a new reclaimer, runs words on it, writes one answer for each word and reports.
//!
//! ```
//! use slotlock::{play_numbers, word, Answer, Scheme};
//!
//! let words = [word::insert(0, 0), word::step(0), word::step(0)];
//! let mut answers = [Answer::UNDER_WAY; 3];
//! let report = play_numbers(Scheme::Hazard, 2, 4, &[7, 9], &words, &mut answers)?;
//! assert_eq!((answers[2].letter(), report.held, report.free), ('y', 0, 3));
//! # Ok::<(), slotlock::Error>(())
//! ```

mod border;
pub mod word;

use std::error;
use std::fmt;

/// The scheme by which cells are used again.
#[derive(Clone, Copy, Debug, PartialEq, Eq)]
#[repr(u8)]
pub enum Scheme {
    Hazard = 0,
    Epoch = 1,
    Quiescent = 2,
}

/// What a word came to.
#[derive(Clone, Copy, Debug, PartialEq, Eq)]
pub enum AnswerKind {
    UnderWay,
    Yes,
    No,
    Tidied,
    Refused,
}

/// The answer to one word, as it is in memory: nothing is copied between the library's records and these.
#[derive(Clone, Copy, Debug, PartialEq, Eq)]
#[repr(C)]
pub struct Answer {
    letter: u8,
    value: u16,
}

impl Answer {
    /// What to fill a list of answers with before a call.
    pub const UNDER_WAY: Answer = Answer { letter: b'w', value: 0 };

    /// `w`, `y`, `n`, `t` or `r`.
    pub fn letter(&self) -> char {
        char::from(self.letter)
    }

    /// The place for a pop, the number of cells for a tidy, the number of the refusal; else 0.
    pub fn value(&self) -> u16 {
        self.value
    }

    pub fn kind(&self) -> AnswerKind {
        match self.letter {
            b'w' => AnswerKind::UnderWay,
            b'y' => AnswerKind::Yes,
            b'n' => AnswerKind::No,
            b't' => AnswerKind::Tidied,
            _ => AnswerKind::Refused,
        }
    }
}

/// The held and the free cells at the end, and how many words were done.
#[derive(Clone, Copy, Debug, PartialEq, Eq)]
pub struct Report {
    pub held: u16,
    pub free: u16,
    pub words: u64,
}

/// Why a call was refused. The answers are as they were.
#[derive(Clone, Copy, Debug, PartialEq, Eq)]
pub enum Error {
    NoScheme,
    Memory,
    Sizes,
    TooLong,
    ShortAnswers,
    Lengths,
    /// A number that the library does not give.
    Other(u16),
}

impl Error {
    pub fn number(self) -> u16 {
        match self {
            Error::NoScheme => 1,
            Error::Memory => 2,
            Error::Sizes => 3,
            Error::TooLong => 4,
            Error::ShortAnswers => 10,
            Error::Lengths => 11,
            Error::Other(number) => number,
        }
    }

    fn numbered(number: u16) -> Error {
        match number {
            1 => Error::NoScheme,
            2 => Error::Memory,
            3 => Error::Sizes,
            4 => Error::TooLong,
            10 => Error::ShortAnswers,
            11 => Error::Lengths,
            other => Error::Other(other),
        }
    }
}

impl fmt::Display for Error {
    fn fmt(&self, f: &mut fmt::Formatter<'_>) -> fmt::Result {
        match self {
            Error::NoScheme => write!(f, "there is no such scheme"),
            Error::Memory => write!(f, "there was not enough memory"),
            Error::Sizes => write!(f, "the number of sessions, cells or items is outside its sizes"),
            Error::TooLong => write!(f, "a byte string has more than 11 bytes"),
            Error::ShortAnswers => write!(f, "there are fewer answers than words"),
            Error::Lengths => write!(f, "the lengths do not add up to the bytes"),
            Error::Other(number) => write!(f, "refused {number}"),
        }
    }
}

impl error::Error for Error {}

/// Runs the words on a new board for these numbers.
pub fn play_numbers(scheme: Scheme, sessions: u8, cells: u16, items: &[u32], words: &[u32], answers: &mut [Answer]) -> Result<Report, Error> {
    border::numbers(scheme as u8, sessions, cells, items, words, answers)
}

/// Runs the words on a new board for these byte strings.
pub fn play_bytes(scheme: Scheme, sessions: u8, cells: u16, items: &[&[u8]], words: &[u32], answers: &mut [Answer]) -> Result<Report, Error> {
    let mut lengths = Vec::new();
    for item in items {
        lengths.push(u8::try_from(item.len()).map_err(|_| Error::TooLong)?);
    }
    border::bytes(scheme as u8, sessions, cells, &items.concat(), &lengths, words, answers)
}

/// The same with the strings one after another in `bytes`, `lengths[i]` bytes each.
pub fn play_cut(
    scheme: Scheme,
    sessions: u8,
    cells: u16,
    bytes: &[u8],
    lengths: &[u8],
    words: &[u32],
    answers: &mut [Answer],
) -> Result<Report, Error> {
    border::bytes(scheme as u8, sessions, cells, bytes, lengths, words, answers)
}
