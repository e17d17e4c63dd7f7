//! Damages the texts of schedules.

use crate::invent::join;
use crate::random::Random;
use crate::reclaimer::MOST_ITEMS;

/// Lines that are bad wherever they stand in a text with a whole header.
#[rustfmt::skip]
const BAD_LINES: &[&str] = &[
    "step", "step 32", "step 0 0", "step -1", "step +0", "step 0x0", "step \"0\"",
    "step 1.0", "step 99999999999999999999999999", "Step 0", "STEP 0", "stepp 0",
    "insert 0", "insert 0 65536", "insert 0 0 0", "insert 32 0", "delete 0", "delete 0 x",
    "contains 0 4294967296", "contains", "push 0", "push 0 -1", "pop", "pop 0 0", "pop 32",
    "tidy 0", "\"tidy\"", "tidy\u{a0}", "tidy\u{b}", "tidy\u{c}", "tidy\rtidy", "tidy \r\r",
    "0x", "0X1", "x1", "0x123456789", "0x00000000c", "0xg", "0x-1", "0x+1", "0x1 0",
    "0x1 0x1", "12", "steps 0", "steps 0 1000001", "steps 0 1 1", "steps 32 1",
    "steps 0 18446744073709551616", "finish", "finish 32", "finish 0 1", "wait 0",
    "\u{feff}tidy", "t\u{456}dy", "\"", "\"\"", "tidy \"", "tidy \"#\"", ",", "step 0,",
    "step 0;", "step\u{2003}0", "reclaimer hazard", "sessions 2", "cells 4",
    "items numbers 1", "items bytes", "items", "step \u{663}", "\u{0}", "step 0\u{0}",
    "reclaimer", "sessions", "steps 0 -0",
];

/// Header lines that are bad, or good text and refused, or good after all.
#[rustfmt::skip]
const ODD_HEADERS: &[&str] = &[
    "reclaimer none", "reclaimer Hazard", "reclaimer hazard epoch", "reclaimer \"hazard\"",
    "reclaimer", "sessions 0", "sessions 9", "sessions 31", "sessions 65535",
    "sessions 65536", "sessions", "sessions -1", "sessions 1 1", "sessions 0x2",
    "sessions 264", "sessions 257", "cells 0", "cells 257", "cells 512", "cells 65535",
    "cells 65536", "cells 4294967297", "cells", "cells 1 2", "cells \"4\"", "items",
    "items number 1", "items numbers 4294967296", "items numbers -1", "items numbers 1,2",
    "items numbers x00", "items numbers \"1\"", "items bytes x0", "items bytes x0g",
    "items bytes X00", "items bytes \"a", "items bytes \"a\"b", "items bytes \"a\"\"b\"",
    "items bytes a", "items bytes \"\u{e9}\"", "items bytes \"\t\"", "items bytes 0x00",
    "items bytes 1", "items bytes \"a\"x00", "items bytes x00\"a\"",
    "items bytes \"twelve bytes\"", "items bytes x000102030405060708090a0b",
    "items bytes \"eleven  byt\"", "items bytes \"a\" \"a longer string than may be\" x",
    "items bytes x00 \"\u{7f}\"", "items bytes \"twelve bytes\" \"",
    "items bytes \"a#b\"#c\"", "items bytes x#00", "items numbers 1#2",
    "items bytes \"a\\\"", "items bytes \"a\\\"b\"",
    "items numbers 00000000000000000000000000000000007",
];

/// A damaged text. The odd lines come in turn, so that none is left out when
/// there are many texts; everything else is left to chance.
pub fn damaged_text(random: &mut Random, index: u64, mut lines: Vec<String>) -> Vec<u8> {
    let in_turn = (index / 3) as usize;
    match index % 3 {
        0 => insert_line(random, &mut lines, BAD_LINES[in_turn % BAD_LINES.len()]),
        1 => replace_header(&mut lines, ODD_HEADERS[in_turn % ODD_HEADERS.len()]),
        _ => match random.below(8) {
            0 => remove_header(random, &mut lines),
            1 => repeat_header(random, &mut lines),
            2 => replace_header(&mut lines, &many_items(random)),
            3 => lines.extend(vec!["steps 0 1000000".to_string(); 11]),
            _ => {
                let mut text = join(random, &lines);
                damage_bytes(random, &mut text);
                return text;
            }
        },
    }
    join(random, &lines)
}

/// An item list that is too long for a board, or just not too long.
fn many_items(random: &mut Random) -> String {
    format!("items numbers{}", " 5".repeat(MOST_ITEMS + random.below(3)))
}

fn is_header(line: &str) -> bool {
    let name = line.trim_start_matches([' ', '\t']);
    ["reclaimer", "sessions", "cells", "items"].iter().any(|header| name.starts_with(header))
}

fn header_positions(lines: &[String]) -> Vec<usize> {
    (0..lines.len()).filter(|&position| is_header(&lines[position])).collect()
}

fn remove_header(random: &mut Random, lines: &mut Vec<String>) {
    let positions = header_positions(lines);
    lines.remove(random.pick(&positions));
    if random.chance(20) {
        lines.truncate(random.below(4));
    }
}

fn repeat_header(random: &mut Random, lines: &mut Vec<String>) {
    let positions = header_positions(lines);
    let from = random.pick(&positions);
    let header = if random.chance(50) { lines.remove(from) } else { lines[from].clone() };
    lines.insert(random.below(lines.len() + 1), header);
}

fn insert_line(random: &mut Random, lines: &mut Vec<String>, line: &str) {
    lines.insert(random.below(lines.len() + 1), line.to_string());
}

/// Puts a header line in the place of the one of the same name.
fn replace_header(lines: &mut [String], header: &str) {
    let name = header.split(' ').next().unwrap_or(header);
    let has_name = |line: &&mut String| line.trim_start_matches([' ', '\t']).starts_with(name);
    if let Some(line) = lines.iter_mut().find(has_name) {
        *line = header.to_string();
    }
}

/// Changes, takes out or adds a byte somewhere, or cuts the text off. The result
/// may be good text or not, and UTF-8 or not.
fn damage_bytes(random: &mut Random, text: &mut Vec<u8>) {
    let any: &[u8] = b"\n\r\t \"#x0123456789abzAF-+.,\x00\x7f\x80\xc3\xff";
    let byte = random.pick(any);
    // The header is the smaller part of a text and has the more rules.
    let end = if random.chance(50) { text.len().min(120) } else { text.len() };
    let position = random.below(end.max(1));
    match random.below(5) {
        0 if !text.is_empty() => text[position] = byte,
        1 if !text.is_empty() => drop(text.remove(position)),
        2 => text.truncate(position),
        3 => text.push(b'\r'),
        _ => text.insert(position.min(text.len()), byte),
    }
}

#[cfg(test)]
mod tests {
    use super::*;
    use crate::answers::{print_answers, Verdict};

    #[test]
    fn bad_lines_are_bad() {
        for line in BAD_LINES {
            let text = format!("reclaimer epoch\nsessions 1\ncells 1\nitems bytes\n{line}\n");
            let verdict = print_answers(text.as_bytes(), &mut Vec::new()).unwrap();
            assert!(matches!(verdict, Verdict::BadText(_)), "{line}");
        }
    }
}
