//! The accident: A begins to remove lock 7 and stalls, B removes it, C locks 9, A wakes.
use slotlock::{play_numbers, word, Answer, AnswerKind, Error, Scheme};

const A: u8 = 0;
const B: u8 = 1;
const C: u8 = 2;
const SEVEN: u16 = 0;
const NINE: u16 = 1;

fn steps(words: &mut Vec<u32>, session: u8, count: usize) {
    words.extend(std::iter::repeat(word::step(session)).take(count));
}

fn accident() -> Vec<u32> {
    let mut words = vec![word::insert(A, SEVEN)];
    steps(&mut words, A, 2); // 7 is locked
    words.push(word::delete(A, SEVEN));
    steps(&mut words, A, 6); // A has found 7 and stalls before it marks the cell
    words.push(word::delete(B, SEVEN));
    steps(&mut words, B, 8); // B removes 7
    words.push(word::insert(C, NINE));
    steps(&mut words, C, 2); // C locks 9
    steps(&mut words, A, 6); // A wakes, and answers no
    words
}

fn main() -> Result<(), Error> {
    let items = [7, 9];
    let mut words = accident();
    let mut answers = vec![Answer::UNDER_WAY; words.len()];
    let report = play_numbers(Scheme::Hazard, 3, 2, &items, &words, &mut answers)?;
    for answer in &answers {
        println!("{} {}", answer.letter(), answer.value());
    }
    println!("held {} free {}", report.held, report.free);

    words.push(word::contains(B, NINE));
    steps(&mut words, B, 6);
    let mut answers = vec![Answer::UNDER_WAY; words.len()];
    play_numbers(Scheme::Hazard, 3, 2, &items, &words, &mut answers)?;
    match answers.last().map(Answer::kind) {
        Some(AnswerKind::Yes) => {
            eprintln!("C keeps its lock");
            Ok(())
        }
        _ => {
            eprintln!("C's lock was lost");
            std::process::exit(1)
        }
    }
}
