//! The text of a schedule: which board to open and which words to give it.

use std::fmt;

use crate::items::{ByteString, ItemKind, Items};
use crate::reclaimer::Scheme;
use crate::word::{Operation, Order, Place, Reason};

const MOST_SESSION: u64 = 31;
const MOST_PLACE: u64 = 65_535;
const MOST_SIZE: u64 = 65_535;
const MOST_STEPS: u64 = 1_000_000;
const MOST_WORDS: u64 = 10_000_000;

/// The most step words that a `finish` line gives.
pub const MOST_FINISH: u32 = 1_000_000;

/// A good schedule. The sizes of a board are no rules of the text, so the sizes
/// here may still be refused.
#[derive(Debug, PartialEq, Eq)]
pub struct Schedule {
    pub scheme: Scheme,
    pub sessions: usize,
    pub cells: usize,
    pub items: WrittenItems,
    pub lines: Vec<WordLine>,
}

/// The item list as it is written: byte strings may still be too long.
#[derive(Debug, PartialEq, Eq)]
pub enum WrittenItems {
    Numbers(Vec<u32>),
    Bytes(Vec<Vec<u8>>),
}

impl WrittenItems {
    pub fn make(&self) -> Result<Items, Reason> {
        match self {
            WrittenItems::Numbers(numbers) => Ok(Items::Numbers(numbers.clone())),
            WrittenItems::Bytes(strings) => strings
                .iter()
                .map(|string| ByteString::new(string))
                .collect::<Result<_, _>>()
                .map(Items::Bytes),
        }
    }
}

/// A line that gives words to the board.
#[derive(Clone, Copy, Debug, PartialEq, Eq)]
pub enum WordLine {
    Word(u32),
    Steps { session: u8, count: u32 },
    Finish { session: u8 },
}

impl WordLine {
    /// How many words the line counts for in the length of a schedule.
    fn count(self) -> u64 {
        match self {
            WordLine::Word(_) | WordLine::Finish { .. } => 1,
            WordLine::Steps { count, .. } => u64::from(count),
        }
    }
}

/// What is wrong with a text.
#[derive(Debug, PartialEq, Eq)]
pub struct TextError {
    /// The first bad line, counted from 1; none if the text has no lines at all
    /// because it is not UTF-8.
    pub line: Option<usize>,
    pub expected: String,
}

impl fmt::Display for TextError {
    fn fmt(&self, formatter: &mut fmt::Formatter<'_>) -> fmt::Result {
        match self.line {
            Some(line) => write!(formatter, "line {line}: expected {}", self.expected),
            None => write!(formatter, "expected {}", self.expected),
        }
    }
}

/// What was expected instead of what stands in a line.
type Expected = String;

impl Schedule {
    pub fn read(text: &[u8]) -> Result<Schedule, TextError> {
        let text = std::str::from_utf8(text)
            .map_err(|_| TextError { line: None, expected: "UTF-8".to_string() })?;
        let mut reader = Reader::default();
        let mut tokens = Vec::new();
        let mut lines = 0;
        for line in text.split_inclusive('\n') {
            lines += 1;
            let at_line = |expected| TextError { line: Some(lines), expected };
            cut(without_end(line), &mut tokens).map_err(at_line)?;
            reader.line(&tokens).map_err(at_line)?;
            tokens.clear();
        }
        reader.finish().map_err(|expected| TextError { line: Some(lines + 1), expected })
    }
}

/// Only a CR directly before the LF belongs to the end of the line.
fn without_end(line: &str) -> &str {
    match line.strip_suffix('\n') {
        Some(line) => line.strip_suffix('\r').unwrap_or(line),
        None => line,
    }
}

/// Cuts a line into tokens and leaves out its comment. A quoted token keeps its
/// quotes, so that it cannot be taken for a name or a number.
fn cut<'a>(line: &'a str, tokens: &mut Vec<&'a str>) -> Result<(), Expected> {
    let mut rest = line;
    loop {
        rest = rest.trim_start_matches([' ', '\t']);
        let length = match rest.as_bytes().first() {
            None | Some(b'#') => return Ok(()),
            Some(b'"') => quoted_length(rest)?,
            Some(_) => rest.find([' ', '\t', '#']).unwrap_or(rest.len()),
        };
        let (token, after) = rest.split_at(length);
        tokens.push(token);
        rest = after;
    }
}

/// The length of the quoted token at the start of `rest`, quotes included.
fn quoted_length(rest: &str) -> Result<usize, Expected> {
    let content = rest[1..].find('"').ok_or("a closing quote")?;
    let length = content + 2;
    match rest.as_bytes().get(length) {
        None | Some(b' ' | b'\t' | b'#') => Ok(length),
        Some(_) => Err("a blank, a comment or the end of the line after a quote".to_string()),
    }
}

/// The header lines read so far, and the words.
#[derive(Default)]
struct Reader {
    scheme: Option<Scheme>,
    sessions: Option<usize>,
    cells: Option<usize>,
    items: Option<WrittenItems>,
    lines: Vec<WordLine>,
    words: u64,
}

impl Reader {
    fn line(&mut self, tokens: &[&str]) -> Result<(), Expected> {
        let Some((&name, rest)) = tokens.split_first() else {
            return Ok(());
        };
        match name {
            "reclaimer" => set_once(&mut self.scheme, name, read_scheme(rest)?),
            "sessions" => set_once(&mut self.sessions, name, read_size(rest)?),
            "cells" => set_once(&mut self.cells, name, read_size(rest)?),
            "items" => set_once(&mut self.items, name, read_items(rest)?),
            _ => {
                let line = read_word_line(name, rest)?;
                self.expect_header()?;
                self.words += line.count();
                if self.words > MOST_WORDS {
                    return Err(format!("at most {MOST_WORDS} words"));
                }
                self.lines.push(line);
                Ok(())
            }
        }
    }

    fn expect_header(&self) -> Result<(), Expected> {
        let header = [
            ("reclaimer", self.scheme.is_some()),
            ("sessions", self.sessions.is_some()),
            ("cells", self.cells.is_some()),
            ("items", self.items.is_some()),
        ];
        match header.iter().find(|(_, read)| !read) {
            Some((name, _)) => Err(format!("the header line `{name}` before this")),
            None => Ok(()),
        }
    }

    fn finish(self) -> Result<Schedule, Expected> {
        self.expect_header()?;
        let Reader { scheme, sessions, cells, items, lines, .. } = self;
        scheme
            .zip(sessions)
            .zip(cells)
            .zip(items)
            .map(|(((scheme, sessions), cells), items)| Schedule {
                scheme,
                sessions,
                cells,
                items,
                lines,
            })
            .ok_or_else(|| "all header lines".to_string())
    }
}

/// A header line may come once only. One after a word line would always be the
/// second of its name, since the first word line comes after all four.
fn set_once<T>(place: &mut Option<T>, name: &str, value: T) -> Result<(), Expected> {
    if place.is_some() {
        return Err(format!("the header line `{name}` only once"));
    }
    *place = Some(value);
    Ok(())
}

fn read_scheme(tokens: &[&str]) -> Result<Scheme, Expected> {
    let [token] = exactly(tokens)?;
    Scheme::named(token).ok_or_else(|| "hazard, epoch or quiescent".to_string())
}

fn read_size(tokens: &[&str]) -> Result<usize, Expected> {
    let [token] = exactly(tokens)?;
    Ok(number(token, MOST_SIZE)? as usize)
}

fn read_items(tokens: &[&str]) -> Result<WrittenItems, Expected> {
    let (kind, items) = tokens.split_first().ok_or("numbers or bytes")?;
    match ItemKind::named(kind).ok_or("numbers or bytes")? {
        ItemKind::Numbers => {
            let read = |token: &&str| Ok(number(token, u32::MAX.into())? as u32);
            items.iter().map(read).collect::<Result<_, _>>().map(WrittenItems::Numbers)
        }
        ItemKind::Bytes => items
            .iter()
            .map(|token| byte_string(token))
            .collect::<Result<_, _>>()
            .map(WrittenItems::Bytes),
    }
}

fn read_word_line(name: &str, tokens: &[&str]) -> Result<WordLine, Expected> {
    let with_place = |operation: fn(Place) -> Operation| {
        let [session, place] = exactly(tokens)?;
        let session = number(session, MOST_SESSION)? as u8;
        let operation = operation(Place(number(place, MOST_PLACE)? as u16));
        Ok(WordLine::Word(Order::Begin { session, operation }.word()))
    };
    let lone_session = || {
        let [session] = exactly(tokens)?;
        Ok::<u8, Expected>(number(session, MOST_SESSION)? as u8)
    };
    match name {
        "step" => Ok(WordLine::Word(Order::Step { session: lone_session()? }.word())),
        "insert" => with_place(Operation::Insert),
        "delete" => with_place(Operation::Delete),
        "contains" => with_place(Operation::Contains),
        "push" => with_place(Operation::Push),
        "pop" => {
            let begin = Order::Begin { session: lone_session()?, operation: Operation::Pop };
            Ok(WordLine::Word(begin.word()))
        }
        "tidy" => {
            let [] = exactly(tokens)?;
            Ok(WordLine::Word(Order::Tidy.word()))
        }
        "steps" => {
            let [session, count] = exactly(tokens)?;
            let session = number(session, MOST_SESSION)? as u8;
            Ok(WordLine::Steps { session, count: number(count, MOST_STEPS)? as u32 })
        }
        "finish" => Ok(WordLine::Finish { session: lone_session()? }),
        _ => {
            let word = raw_word(name)?;
            let [] = exactly(tokens)?;
            Ok(WordLine::Word(word))
        }
    }
}

/// The tokens after a name, if they are as many as the line has to have.
fn exactly<'a, const N: usize>(tokens: &[&'a str]) -> Result<[&'a str; N], Expected> {
    tokens.try_into().map_err(|_| match N {
        0 => "nothing more in this line".to_string(),
        1 => "1 token after the name".to_string(),
        _ => format!("{N} tokens after the name"),
    })
}

fn number(token: &str, most: u64) -> Result<u64, Expected> {
    let expected = || format!("a number up to {most}");
    if token.is_empty() {
        return Err(expected());
    }
    token
        .bytes()
        .try_fold(0, |value: u64, byte| {
            let digit = byte.is_ascii_digit().then(|| u64::from(byte - b'0'))?;
            // The bounds are far below the most of a u64, so this cannot overflow.
            Some(value * 10 + digit).filter(|&value| value <= most)
        })
        .ok_or_else(expected)
}

fn raw_word(token: &str) -> Result<u32, Expected> {
    token
        .strip_prefix("0x")
        .filter(|digits| (1..=8).contains(&digits.len()))
        .filter(|digits| digits.bytes().all(|digit| digit.is_ascii_hexdigit()))
        .and_then(|digits| u32::from_str_radix(digits, 16).ok())
        .ok_or_else(|| "a header line or a word line".to_string())
}

fn byte_string(token: &str) -> Result<Vec<u8>, Expected> {
    let quoted = token.strip_prefix('"').and_then(|rest| rest.strip_suffix('"'));
    if let Some(content) = quoted {
        if content.bytes().all(|byte| matches!(byte, b' '..=b'~')) {
            return Ok(content.as_bytes().to_vec());
        }
        return Err("printable ASCII between quotes".to_string());
    }
    token
        .strip_prefix('x')
        .and_then(hexadecimal_bytes)
        .ok_or_else(|| "a byte string: \"..\", or x and two hexadecimal digits a byte".to_string())
}

fn hexadecimal_bytes(digits: &str) -> Option<Vec<u8>> {
    let pairs = digits.as_bytes().chunks(2);
    pairs
        .map(|pair| {
            let &[high, low] = pair else { return None };
            Some(hexadecimal_digit(high)? << 4 | hexadecimal_digit(low)?)
        })
        .collect()
}

fn hexadecimal_digit(digit: u8) -> Option<u8> {
    char::from(digit).to_digit(16).map(|value| value as u8)
}

#[cfg(test)]
mod tests {
    use super::*;

    const HEADER: &str = "reclaimer epoch\nsessions 2\ncells 3\nitems numbers 7 9\n";

    fn lines(body: &str) -> Vec<WordLine> {
        let text = format!("{HEADER}{body}");
        Schedule::read(text.as_bytes()).expect("good text").lines
    }

    fn bad_line(text: &str) -> Option<usize> {
        Schedule::read(text.as_bytes()).expect_err("bad text").line
    }

    fn bad_body(body: &str) -> usize {
        bad_line(&format!("{HEADER}{body}")).expect("a line") - 4
    }

    fn bytes(tokens: &str) -> Vec<Vec<u8>> {
        let text = format!("reclaimer hazard\nsessions 1\ncells 1\nitems bytes {tokens}");
        match Schedule::read(text.as_bytes()).expect("good text").items {
            WrittenItems::Bytes(strings) => strings,
            WrittenItems::Numbers(_) => panic!("numbers read for bytes"),
        }
    }

    #[test]
    fn the_words_of_every_line() {
        let body = "step 1\ninsert 1 2\ndelete 31 65535\ncontains 0 0\npush 2 003\npop 1\ntidy\n\
                    0xA1\nsteps 1 5\nfinish 4\nsteps 0 0";
        let expected = [
            WordLine::Word(0x0100_0000),
            WordLine::Word(0x2100_0002),
            WordLine::Word(0x5f00_ffff),
            WordLine::Word(0x6000_0000),
            WordLine::Word(0x8200_0003),
            WordLine::Word(0xa100_0000),
            WordLine::Word(0xc000_0000),
            WordLine::Word(0x0000_00a1),
            WordLine::Steps { session: 1, count: 5 },
            WordLine::Finish { session: 4 },
            WordLine::Steps { session: 0, count: 0 },
        ];
        assert_eq!(lines(body), expected);
    }

    #[test]
    fn blanks_comments_and_line_ends() {
        assert_eq!(lines("\t tidy\t #x\r\n\r\n  # \"\r\ntidy#\rx\nstep \t 1").len(), 3);
        assert_eq!(lines(""), []);
        assert_eq!(bad_body("tidy\r"), 1, "no LF after this CR");
        assert_eq!(bad_body("tidy\n\ntidy\r\r\n"), 3);
        assert_eq!(bad_body("tidy\u{a0}\n"), 1);
        assert_eq!(bad_body("tidy\u{c}\n"), 1);
    }

    #[test]
    fn quoted_and_hexadecimal_strings() {
        let read = bytes("\"\" x \"a # b\"# \"c\"");
        assert_eq!(read, [b"".to_vec(), b"".to_vec(), b"a # b".to_vec()]);
        assert_eq!(bytes("x00fF \"x00\"\t"), [vec![0, 255], b"x00".to_vec()]);
        assert_eq!(bytes("\"twelve bytes\"")[0].len(), 12);
    }

    #[test]
    fn bad_byte_strings() {
        for token in [
            "x0",
            "x0g",
            "X00",
            "\"a",
            "\"a\"b",
            "\"a\"\"b\"",
            "a",
            "\"\u{e9}\"",
            "\"\t\"",
            "\"",
            "0x00",
        ] {
            let text = format!("items bytes {token}\n");
            assert_eq!(bad_line(&text), Some(1), "{token}");
        }
    }

    #[test]
    fn bad_word_lines() {
        let bodies = [
            "step",
            "step 32",
            "step 0 0",
            "insert 0",
            "insert 0 65536",
            "insert 0 0 0",
            "pop 0 0",
            "tidy 0",
            "0x",
            "0X1",
            "0x123456789",
            "0xg",
            "0x1 2",
            "steps 0 1000001",
            "steps 0",
            "finish",
            "Step 0",
            "step -1",
            "step +1",
            "step 0x1",
            "step \"1\"",
            "\"tidy\"",
            "steps 0 1e3",
            "wait 0",
            "reclaimer epoch",
            "items numbers",
            "step 99999999999999999999999",
        ];
        for body in bodies {
            assert_eq!(bad_body(&format!("tidy\n{body}\ntidy")), 2, "{body}");
        }
    }

    #[test]
    fn bad_headers() {
        assert_eq!(bad_line(""), Some(1));
        assert_eq!(bad_line("sessions 1\n\n"), Some(3));
        assert_eq!(bad_line("sessions 1\ncells 1\nreclaimer hazard\nstep 0\nitems bytes"), Some(4));
        assert_eq!(bad_line("sessions 1\nsessions 1\n"), Some(2));
        assert_eq!(bad_line("sessions 65536"), Some(1));
        assert_eq!(bad_line("items\n"), Some(1));
        assert_eq!(bad_line("items numbers 4294967296"), Some(1));
        assert_eq!(bad_line("reclaimer none"), Some(1));
        let broken = Schedule::read(b"# \xff\n").expect_err("not UTF-8");
        assert_eq!(broken.line, None);
    }

    #[test]
    fn ten_million_words_are_the_most() {
        let most = "steps 0 1000000\n".repeat(10);
        assert_eq!(lines(&most).len(), 10);
        assert_eq!(lines(&format!("{most}steps 0 0\n")).len(), 11);
        assert_eq!(bad_body(&format!("{most}\nfinish 0\n")), 12);
    }

    #[test]
    fn sizes_are_no_rules_of_the_text() {
        let text = "reclaimer hazard\nsessions 0\ncells 65535\nitems numbers\n";
        let schedule = Schedule::read(text.as_bytes()).expect("good text");
        assert_eq!((schedule.sessions, schedule.cells), (0, 65_535));
    }
}
