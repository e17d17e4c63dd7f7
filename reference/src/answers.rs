//! Runs a schedule and prints the answers.

use std::io::{self, Write};

use crate::board::Board;
use crate::epoch::Epochs;
use crate::hazard::HazardPointers;
use crate::items::Items;
use crate::quiescent::QuiescentStates;
use crate::reclaimer::{Reclaimer, Scheme, Sizes};
use crate::schedule::{Schedule, TextError, WordLine, MOST_FINISH};
use crate::word::{Answer, Order, Reason};

/// How a text fared.
pub enum Verdict {
    Ran { words: u64 },
    Refused,
    BadText(TextError),
}

impl Verdict {
    pub fn status(&self) -> u8 {
        match self {
            Verdict::Ran { .. } => 0,
            Verdict::Refused | Verdict::BadText(_) => 1,
        }
    }
}

/// A board with its item list, of whatever scheme and items.
pub trait Player {
    fn play(&mut self, word: u32) -> Answer;
    fn tallies(&self) -> (usize, usize);
}

struct Seated<R, I> {
    board: Board<R>,
    items: Vec<I>,
}

impl<R: Reclaimer, I: Ord> Player for Seated<R, I> {
    fn play(&mut self, word: u32) -> Answer {
        self.board.word(&self.items, word)
    }

    fn tallies(&self) -> (usize, usize) {
        self.board.tallies()
    }
}

/// Opens a board as a header asks for it.
pub fn seat(
    scheme: Scheme,
    sessions: usize,
    cells: usize,
    items: Items,
) -> Result<Box<dyn Player>, Reason> {
    let sizes = Sizes::new(sessions, cells)?;
    match items {
        Items::Numbers(items) => seat_items(scheme, sizes, items),
        Items::Bytes(items) => seat_items(scheme, sizes, items),
    }
}

fn seat_items<I: Ord + 'static>(
    scheme: Scheme,
    sizes: Sizes,
    items: Vec<I>,
) -> Result<Box<dyn Player>, Reason> {
    match scheme {
        Scheme::Hazard => seat_over::<HazardPointers, I>(sizes, items),
        Scheme::Epoch => seat_over::<Epochs, I>(sizes, items),
        Scheme::Quiescent => seat_over::<QuiescentStates, I>(sizes, items),
    }
}

fn seat_over<R: Reclaimer + 'static, I: Ord + 'static>(
    sizes: Sizes,
    items: Vec<I>,
) -> Result<Box<dyn Player>, Reason> {
    let board = Board::<R>::open(sizes, items.len())?;
    Ok(Box::new(Seated { board, items }))
}

/// Gives the words of a line to `play`, which answers them.
pub fn give<E>(line: WordLine, mut play: impl FnMut(u32) -> Result<Answer, E>) -> Result<(), E> {
    match line {
        WordLine::Word(word) => {
            play(word)?;
        }
        WordLine::Steps { session, count } => {
            for _ in 0..count {
                play(Order::Step { session }.word())?;
            }
        }
        WordLine::Finish { session } => {
            for _ in 0..MOST_FINISH {
                if play(Order::Step { session }.word())? != Answer::UnderWay {
                    break;
                }
            }
        }
    }
    Ok(())
}

/// Reads a schedule, runs it and writes what `answers` prints.
pub fn print_answers(text: &[u8], output: &mut impl Write) -> io::Result<Verdict> {
    let schedule = match Schedule::read(text) {
        Ok(schedule) => schedule,
        Err(error) => return Ok(Verdict::BadText(error)),
    };
    let opened = schedule
        .items
        .make()
        .and_then(|items| seat(schedule.scheme, schedule.sessions, schedule.cells, items));
    match opened {
        Ok(mut player) => {
            let words = print_run(&schedule.lines, player.as_mut(), output)?;
            Ok(Verdict::Ran { words })
        }
        Err(reason) => {
            writeln!(output, "refused {}", reason.number())?;
            Ok(Verdict::Refused)
        }
    }
}

fn print_run(
    lines: &[WordLine],
    player: &mut dyn Player,
    output: &mut impl Write,
) -> io::Result<u64> {
    let mut words = 0;
    for &line in lines {
        give(line, |word| {
            let answer = player.play(word);
            words += 1;
            print_answer(answer, output)?;
            Ok::<_, io::Error>(answer)
        })?;
    }
    let (held, free) = player.tallies();
    writeln!(output, "held {held} free {free}")?;
    Ok(words)
}

fn print_answer(answer: Answer, output: &mut impl Write) -> io::Result<()> {
    // By far the most answers are these, and this is quicker than formatting.
    match answer {
        Answer::UnderWay => output.write_all(b"w 0\n"),
        Answer::No => output.write_all(b"n 0\n"),
        _ => writeln!(output, "{} {}", answer.letter(), answer.value()),
    }
}

#[cfg(test)]
mod tests {
    use super::*;

    fn printed(text: &str) -> (String, u8) {
        let mut output = Vec::new();
        let verdict = print_answers(text.as_bytes(), &mut output).expect("a Vec takes all");
        (String::from_utf8(output).expect("ASCII"), verdict.status())
    }

    /// The answers of a run, the letters and values without the line ends.
    fn answers(scheme: &str, sessions: u32, cells: u32, items: &str, body: &str) -> Vec<String> {
        let text = format!(
            "reclaimer {scheme}\nsessions {sessions}\ncells {cells}\nitems {items}\n{body}"
        );
        let (output, status) = printed(&text);
        assert_eq!(status, 0, "{text}");
        output.lines().map(str::to_string).collect()
    }

    const SCHEMES: [&str; 3] = ["hazard", "epoch", "quiescent"];

    #[test]
    fn an_insert_on_an_empty_list() {
        for scheme in SCHEMES {
            let lines = answers(scheme, 1, 1, "numbers 7", "insert 0 0\nstep 0\nstep 0");
            assert_eq!(lines, ["w 0", "w 0", "y 0", "held 0 free 0"]);
        }
    }

    #[test]
    fn one_cell_serves_insert_delete_and_insert() {
        for scheme in SCHEMES {
            let body = "insert 0 0\nfinish 0\ndelete 0 0\nfinish 0\ninsert 0 1\nfinish 0";
            let lines = answers(scheme, 1, 1, "bytes \"A\" x00", body);
            // Insert 2 steps; delete 8: ReadFront, ProtectFirst, CheckFront,
            // ReadCell, CheckPrev, ConfirmCell, MarkCell, RemoveCell.
            let letters: String = lines.iter().map(|line| &line[..1]).collect();
            assert_eq!(letters, "wwywwwwwwwwywwyh");
            assert_eq!(lines.last().unwrap(), "held 0 free 0");
        }
    }

    /// Session 0 pushes places 0 and 1 and pops as far as `PopReadTop`, session
    /// 1 pops twice and begins a push.
    const STALLED_POP: &str = "push 0 0\nfinish 0\npush 0 1\nfinish 0\npop 0\nsteps 0 4\n\
                               pop 1\nfinish 1\npop 1\nfinish 1\npush 1 0\n";

    #[test]
    fn a_stalled_pop_with_hazard_pointers() {
        let body = format!("{STALLED_POP}finish 1\nstep 0");
        let lines = answers("hazard", 2, 2, "numbers 5 6", &body);
        // Two pushes of 3 words, the pop begun and 4 steps, two pops of 6 words.
        assert_eq!(lines[16], "y 1");
        assert_eq!(lines[22], "y 0");
        assert_eq!(lines[23], "w 0", "the push begins: collect gives cell 0");
        assert_eq!(lines[24..26], ["w 0", "y 0"]);
        assert_eq!(lines[26], "w 0", "session 0 finds another head");
        assert_eq!(lines[27], "held 1 free 0", "cell 1 is held, cell 0 on the stack");
    }

    #[test]
    fn a_stalled_pop_with_epochs_and_quiescent_states() {
        for scheme in ["epoch", "quiescent"] {
            let lines = answers(scheme, 2, 2, "numbers 5 6", STALLED_POP);
            assert_eq!(lines[23..], ["r 23", "held 2 free 0"]);
        }
    }

    #[test]
    fn refused_words() {
        let body = "0xe0000000\n0xc0000001\n0x28800000\n0x2800ffff\ninsert 1 2\nstep 1\n\
                    insert 0 1\ninsert 0 1\ninsert 0 2\npush 1 0\ntidy";
        let lines = answers("hazard", 2, 1, "numbers 1 2", body);
        let expected = [
            "r 5",
            "r 6",
            "r 6",
            "r 7",
            "r 8",
            "r 22",
            "w 0",
            "r 21",
            "r 8",
            "r 23",
            "t 0",
            "held 0 free 0",
        ];
        assert_eq!(lines, expected);
    }

    #[test]
    fn the_accident_does_not_happen() {
        let text = include_str!("../../schedules/accident.txt");
        for scheme in SCHEMES {
            let (output, status) =
                printed(&text.replace("reclaimer hazard", &format!("reclaimer {scheme}")));
            let letters: String = output.lines().map(|line| &line[..1]).collect();
            // A inserts; A searches for its delete; B deletes; C inserts; A
            // finds nothing to delete; C finds its lock.
            assert_eq!(letters, "wwywwwwwwwwwwwwwwwywwywwwwwnwwwwwwyh");
            assert!(output.ends_with("held 1 free 0\n"));
            assert_eq!(status, 0);
        }
    }

    #[test]
    fn equal_items_are_one_lock() {
        let body = "insert 0 0\nfinish 0\ninsert 0 2\nfinish 0\ndelete 0 2\nfinish 0\n\
                    contains 0 0\nfinish 0";
        let lines = answers("quiescent", 1, 2, "numbers 5 4 5", body);
        let letters: String = lines.iter().map(|line| &line[..1]).collect();
        // The second insert: ReadFront, ProtectFirst, CheckFront, ReadCell,
        // CheckPrev, ConfirmCell. At the end the list is empty.
        assert_eq!(letters, "wwywwwwwwnwwwwwwwwywnh");
    }

    #[test]
    fn sizes_and_long_strings_are_refused() {
        let numbers = |count| "1 ".repeat(count);
        let text = |sessions, cells, items: &str| {
            printed(&format!(
                "reclaimer epoch\nsessions {sessions}\ncells {cells}\nitems {items}\ntidy"
            ))
        };
        let most = format!("numbers {}", numbers(1024));
        assert_eq!(text(8, 256, &most), ("t 0\nheld 0 free 256\n".to_string(), 0));
        let refused = |number| (format!("refused {number}\n"), 1);
        assert_eq!(text(9, 256, &most), refused(3));
        assert_eq!(text(8, 257, &most), refused(3));
        assert_eq!(text(8, 256, &format!("numbers {}", numbers(1025))), refused(3));
        assert_eq!(text(0, 1, "numbers"), refused(3));
        assert_eq!(text(1, 0, "numbers"), refused(3));
        assert_eq!(text(0, 0, "bytes x \"twelve bytes\""), refused(4));
    }

    #[test]
    fn bad_text_prints_nothing() {
        assert_eq!(printed("tidy"), (String::new(), 1));
    }

    #[test]
    fn finish_gives_one_word_to_a_session_outside() {
        let lines = answers("hazard", 1, 1, "numbers", "finish 0\nfinish 5\nsteps 0 0");
        assert_eq!(lines, ["r 22", "r 7", "held 0 free 1"]);
    }
}
