//! Invents the texts of schedules, most of them good and some damaged.

use crate::answers::{give, seat, Player};
use crate::damage::damaged_text;
use crate::items::{ByteString, Items, MOST_BYTES};
use crate::random::Random;
use crate::reclaimer::{Scheme, MOST_CELLS, MOST_ITEMS, MOST_SESSIONS};
use crate::schedule::WordLine;
use crate::word::{session_bits, Answer, Operation, Order, Place};

/// One of so many texts is damaged.
const DAMAGED_EACH: u64 = 10;

/// The text of the `index`th schedule.
pub fn invent(random: &mut Random, index: u64) -> Vec<u8> {
    let mut lines = Scribe { random }.good_lines();
    if index % DAMAGED_EACH == DAMAGED_EACH - 1 {
        return damaged_text(random, index / DAMAGED_EACH, lines);
    }
    if random.chance(20) {
        lines.push(String::new());
    }
    join(random, &lines)
}

/// Joins lines with LF, with CR LF or with both in a mixture. There is no end
/// after the last line.
pub fn join(random: &mut Random, lines: &[String]) -> Vec<u8> {
    let crlf_percent = random.pick(&[0, 0, 0, 0, 10, 100]);
    let mut text = Vec::new();
    for (index, line) in lines.iter().enumerate() {
        if index > 0 {
            let end: &[u8] = if random.chance(crlf_percent) { b"\r\n" } else { b"\n" };
            text.extend_from_slice(end);
        }
        text.extend_from_slice(line.as_bytes());
    }
    text
}

/// Writes good lines.
struct Scribe<'a> {
    random: &'a mut Random,
}

/// How the sessions of one schedule behave, in percent.
struct Habits {
    /// Weights of insert, delete, contains, push and pop.
    kinds: [usize; 5],
    /// So many places are used most of the time, so that sessions meet.
    hot_places: usize,
    finish: usize,
    stall: usize,
    tidy: usize,
    junk: usize,
    raw: usize,
}

/// What is known while the words of a schedule are written. The words are
/// played as well, since only a board knows which operation is under way.
struct Body {
    player: Box<dyn Player>,
    sessions: usize,
    places: usize,
    habits: Habits,
    busy: [bool; MOST_SESSIONS],
    /// Stalled sessions get no word before this many words are written.
    stalled_until: [usize; MOST_SESSIONS],
    words: usize,
    lines: Vec<String>,
}

impl Scribe<'_> {
    fn good_lines(&mut self) -> Vec<String> {
        let scheme = self.random.pick(&Scheme::ALL);
        let sessions = self.session_count();
        let cells = self.cell_count();
        let items = self.items();
        let mut lines = self.header(scheme, sessions, cells, &items);
        let places = items.len();
        if let Ok(player) = seat(scheme, sessions, cells, items) {
            let habits = self.habits(places);
            let body = Body {
                player,
                sessions,
                places,
                habits,
                busy: [false; MOST_SESSIONS],
                stalled_until: [0; MOST_SESSIONS],
                words: 0,
                lines: Vec::new(),
            };
            lines.extend(self.body(body));
        }
        lines
    }

    fn session_count(&mut self) -> usize {
        match self.random.below(10) {
            0 => 1,
            1..=6 => self.random.between(2, 4),
            _ => self.random.between(5, MOST_SESSIONS),
        }
    }

    /// Few cells are used again soon, so small numbers are favoured.
    fn cell_count(&mut self) -> usize {
        match self.random.below(20) {
            0..=11 => self.random.between(1, 6),
            12..=16 => self.random.between(7, 24),
            17..=18 => self.random.between(25, MOST_CELLS),
            _ => MOST_CELLS,
        }
    }

    fn item_count(&mut self) -> usize {
        match self.random.below(40) {
            0 => 0,
            1..=25 => self.random.between(1, 7),
            26..=34 => self.random.between(8, 40),
            35..=38 => self.random.between(41, MOST_ITEMS),
            _ => MOST_ITEMS,
        }
    }

    fn items(&mut self) -> Items {
        let count = self.item_count();
        if self.random.chance(50) {
            Items::Numbers((0..count).map(|_| self.number_item(count)).collect())
        } else {
            Items::Bytes((0..count).map(|_| self.byte_item()).collect())
        }
    }

    /// Most numbers come from a small range, so that some are equal.
    fn number_item(&mut self, count: usize) -> u32 {
        match self.random.below(12) {
            0 => u32::MAX - self.random.below(2) as u32,
            1 => (1 << 31) - self.random.below(2) as u32,
            2 => self.random.draw() as u32,
            _ => self.random.below(count) as u32,
        }
    }

    fn byte_item(&mut self) -> ByteString {
        let longest = self.random.pick(&[1, 2, 3, MOST_BYTES]);
        let length = self.random.between(0, longest);
        let few: &[u8] = &[0, b'A', b'B', b'a', b'#', b' ', 0x7f, 0x80, 0xff];
        let choices = if self.random.chance(60) { &few[1..6] } else { few };
        let mut bytes = [0; MOST_BYTES];
        // Equal bytes up to the last one make the longest comparisons.
        let same = self.random.chance(30);
        let first = self.random.pick(choices);
        for byte in &mut bytes {
            *byte = if same { first } else { self.random.pick(choices) };
        }
        ByteString::new(&bytes[..length]).expect("no longer than the most bytes")
    }

    fn habits(&mut self, places: usize) -> Habits {
        let kinds = self.random.pick(&[
            [4, 4, 4, 2, 2],
            [4, 4, 1, 0, 0],
            [3, 5, 2, 0, 0],
            [5, 3, 2, 1, 1],
            [0, 0, 0, 5, 5],
            [1, 1, 1, 6, 6],
            [2, 2, 2, 2, 2],
        ]);
        Habits {
            kinds,
            hot_places: self.random.between(1, 4).min(places.max(1)),
            finish: self.random.pick(&[1, 5, 5, 15, 40]),
            stall: self.random.pick(&[0, 1, 3, 6]),
            tidy: self.random.pick(&[0, 1, 2, 8]),
            junk: self.random.pick(&[0, 0, 1, 2, 6]),
            raw: self.random.pick(&[0, 0, 3, 30]),
        }
    }

    fn header(
        &mut self,
        scheme: Scheme,
        sessions: usize,
        cells: usize,
        items: &Items,
    ) -> Vec<String> {
        let mut header = vec![
            format!("reclaimer {}", scheme.name()),
            format!("sessions {}", self.number(sessions as u64)),
            format!("cells {}", self.number(cells as u64)),
            self.items_line(items),
        ];
        let mut lines = Vec::new();
        while !header.is_empty() {
            if self.random.chance(15) {
                lines.push(self.empty_line());
            }
            let line = header.swap_remove(self.random.below(header.len()));
            lines.push(self.dressed(line));
        }
        lines
    }

    fn items_line(&mut self, items: &Items) -> String {
        let tokens: Vec<String> = match items {
            Items::Numbers(numbers) => {
                numbers.iter().map(|&number| self.number(number.into())).collect()
            }
            Items::Bytes(strings) => strings.iter().map(|string| self.string(string)).collect(),
        };
        let kind = match items {
            Items::Numbers(_) => "numbers",
            Items::Bytes(_) => "bytes",
        };
        format!("items {kind} {}", tokens.join(" "))
    }

    /// A number, now and then with zeros in front.
    fn number(&mut self, value: u64) -> String {
        let zeros = if self.random.chance(4) { self.random.between(1, 24) } else { 0 };
        format!("{}{value}", "0".repeat(zeros))
    }

    fn string(&mut self, string: &ByteString) -> String {
        let printed = string.to_string();
        if printed.starts_with('"') && self.random.chance(50) {
            return printed;
        }
        let digits = string.as_bytes().iter().map(|byte| {
            if self.random.chance(50) {
                format!("{byte:02x}")
            } else {
                format!("{byte:02X}")
            }
        });
        format!("x{}", digits.collect::<String>())
    }

    /// The line with blanks and a comment, now and then.
    fn dressed(&mut self, line: String) -> String {
        if !self.random.chance(8) {
            return line;
        }
        let before = self.random.pick(&["", " ", "\t", " \t  "]);
        let after =
            self.random.pick(&["", " ", "\t ", "# lock", "#", "\t# \"x\u{e9}\u{2713}\r", " #\"#"]);
        // Blanks between quotes are part of a string and stay as they are.
        let line = match line.contains('"') {
            true => line,
            false => line.replace(' ', self.random.pick(&[" ", "  ", "\t", " \t"])),
        };
        format!("{before}{line}{after}")
    }

    fn empty_line(&mut self) -> String {
        self.random
            .pick(&["", " ", "\t\t", "# a comment", "#reclaimer hazard", " # \"\u{1f512}"])
            .to_string()
    }

    fn body(&mut self, mut body: Body) -> Vec<String> {
        let words = match self.random.below(10) {
            0..=2 => self.random.between(0, 100),
            3..=7 => self.random.between(100, 1000),
            _ => self.random.between(1000, 4000),
        };
        while body.words < words {
            if self.random.chance(1) {
                body.lines.push(self.empty_line());
            }
            let line = self.next_line(&mut body);
            self.write(&mut body, line);
        }
        if self.random.chance(50) {
            self.wind_up(&mut body);
        }
        body.lines
    }

    /// Completes all operations, asks for some locks and tidies up.
    fn wind_up(&mut self, body: &mut Body) {
        for session in 0..body.sessions as u8 {
            self.write(body, WordLine::Finish { session });
        }
        for _ in 0..body.habits.hot_places {
            let session = self.random.below(body.sessions) as u8;
            let operation = Operation::Contains(Place(self.place(body)));
            self.write(body, WordLine::Word(Order::Begin { session, operation }.word()));
            self.write(body, WordLine::Finish { session });
        }
        self.write(body, WordLine::Word(Order::Tidy.word()));
    }

    fn next_line(&mut self, body: &mut Body) -> WordLine {
        if self.random.chance(body.habits.tidy) {
            return WordLine::Word(Order::Tidy.word());
        }
        if self.random.chance(body.habits.junk) {
            return self.junk_line(body);
        }
        let session = self.awake_session(body);
        // Now and then a word comes to a session that cannot take it.
        if body.busy[usize::from(session)] != self.random.chance(2) {
            self.step_line(body, session)
        } else {
            let operation = self.operation(body);
            WordLine::Word(Order::Begin { session, operation }.word())
        }
    }

    /// A session that is not stalled, if there is one.
    fn awake_session(&mut self, body: &mut Body) -> u8 {
        for _ in 0..8 {
            let session = self.random.below(body.sessions);
            if body.stalled_until[session] > body.words {
                continue;
            }
            if body.busy[session] && self.random.chance(body.habits.stall) {
                body.stalled_until[session] = body.words + self.random.between(5, 300);
                continue;
            }
            return session as u8;
        }
        self.random.below(body.sessions) as u8
    }

    fn step_line(&mut self, body: &Body, session: u8) -> WordLine {
        if self.random.chance(body.habits.finish) {
            WordLine::Finish { session }
        } else if self.random.chance(15) {
            WordLine::Steps { session, count: self.random.below(8) as u32 }
        } else {
            WordLine::Word(Order::Step { session }.word())
        }
    }

    fn operation(&mut self, body: &Body) -> Operation {
        let total = body.habits.kinds.iter().sum();
        let mut chosen = self.random.below(total);
        let place = Place(self.place(body));
        let operations = [
            Operation::Insert(place),
            Operation::Delete(place),
            Operation::Contains(place),
            Operation::Push(place),
            Operation::Pop,
        ];
        for (operation, weight) in operations.into_iter().zip(body.habits.kinds) {
            if chosen < weight {
                return operation;
            }
            chosen -= weight;
        }
        Operation::Pop
    }

    /// A place; one past the last now and then.
    fn place(&mut self, body: &Body) -> u16 {
        let place = if self.random.chance(70) {
            self.random.below(body.habits.hot_places)
        } else if self.random.chance(5) {
            body.places
        } else {
            self.random.below(body.places.max(1))
        };
        place as u16
    }

    fn junk_line(&mut self, body: &Body) -> WordLine {
        let any = self.random.draw() as u32;
        let session = self.random.below(32) as u8;
        let known = self.random.below(body.sessions) as u32;
        match self.random.below(7) {
            0 => WordLine::Word(any),
            1 => WordLine::Word(Order::Step { session }.word()),
            2 => WordLine::Finish { session },
            3 => WordLine::Steps { session, count: self.random.below(4) as u32 },
            // A word of a session of the board with one bit turned.
            4 => WordLine::Word((any & 0xe000_0003 | known << 24) ^ 1 << self.random.below(32)),
            5 => WordLine::Word(any & 0xff00_0003),
            _ => {
                let operation = Operation::Insert(Place(any as u16));
                WordLine::Word(Order::Begin { session, operation }.word())
            }
        }
    }

    /// Writes a line and plays it.
    fn write(&mut self, body: &mut Body, line: WordLine) {
        let text = self.word_line(body, line);
        body.lines.push(self.dressed(text));
        body.play(line);
    }

    fn word_line(&mut self, body: &Body, line: WordLine) -> String {
        match line {
            WordLine::Word(word) => match Order::read(word) {
                Ok(order) if !self.random.chance(body.habits.raw) => self.order(order),
                _ => self.raw_word(word),
            },
            WordLine::Steps { session, count } => {
                format!("steps {} {}", self.number(session.into()), self.number(count.into()))
            }
            WordLine::Finish { session } => format!("finish {}", self.number(session.into())),
        }
    }

    fn order(&mut self, order: Order) -> String {
        match order {
            Order::Step { session } => format!("step {}", self.number(session.into())),
            Order::Begin { session, operation } => {
                let session = self.number(session.into());
                match operation.place() {
                    Some(place) => {
                        format!("{} {session} {}", operation.name(), self.number(place.0.into()))
                    }
                    None => format!("{} {session}", operation.name()),
                }
            }
            Order::Tidy => "tidy".to_string(),
        }
    }

    fn raw_word(&mut self, word: u32) -> String {
        match self.random.below(3) {
            0 => format!("0x{word:x}"),
            1 => format!("0x{word:08x}"),
            _ => format!("0x{word:08X}"),
        }
    }
}

impl Body {
    fn play(&mut self, line: WordLine) {
        let played: Result<(), std::convert::Infallible> = give(line, |word| {
            self.words += 1;
            let answer = self.player.play(word);
            if let Some(busy) = self.busy.get_mut(usize::from(session_bits(word))) {
                match answer {
                    Answer::UnderWay => *busy = true,
                    Answer::Yes(_) | Answer::No => *busy = false,
                    Answer::Tidied(_) | Answer::Refused(_) => {}
                }
            }
            Ok(answer)
        });
        let Ok(()) = played;
    }
}

#[cfg(test)]
mod tests {
    use super::*;
    use crate::answers::{print_answers, Verdict};

    #[test]
    fn most_texts_run_and_some_are_bad_or_refused() {
        let (mut ran, mut refused, mut bad, mut all_words) = (0, 0, 0, 0);
        for index in 0..1000 {
            let text = invent(&mut Random::stirred(3, index), index);
            let mut output = Vec::new();
            match print_answers(&text, &mut output).unwrap() {
                Verdict::Ran { words } => {
                    ran += 1;
                    all_words += words;
                }
                Verdict::Refused => refused += 1,
                Verdict::BadText(_) => bad += 1,
            }
        }
        assert!(ran > 900 && refused > 5 && bad > 40, "{ran} {refused} {bad}");
        assert!(all_words > 400_000, "{all_words}");
    }
}
