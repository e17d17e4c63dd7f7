//! Compares another program's answers with those of this one.

use std::fs;
use std::io::{self, Write};
use std::process::{Command, ExitStatus, Stdio};
use std::thread;

use crate::answers::{print_answers, Verdict};
use crate::invent::invent;
use crate::random::Random;

/// How a comparison came out.
pub enum Comparison {
    Same { words: u64 },
    Different { file: String, what: String },
}

pub fn compare(program: &str, count: u64, seed: u64) -> io::Result<Comparison> {
    let mut words = 0;
    for index in 0..count {
        let text = invent(&mut Random::stirred(seed, index), index);
        let mut output = Vec::new();
        let verdict = print_answers(&text, &mut output)?;
        let other = run_program(program, &text)?;
        if let Some(what) = difference(&output, verdict.status(), &other) {
            let file = format!("difference-{seed}-{index}.txt");
            fs::write(&file, &text)?;
            return Ok(Comparison::Different { file, what });
        }
        if let Verdict::Ran { words: ran } = verdict {
            words += ran;
        }
    }
    Ok(Comparison::Same { words })
}

struct Ran {
    output: Vec<u8>,
    status: ExitStatus,
}

fn run_program(program: &str, text: &[u8]) -> io::Result<Ran> {
    let mut child = Command::new(program)
        .arg("answers")
        .stdin(Stdio::piped())
        .stdout(Stdio::piped())
        .stderr(Stdio::null())
        .spawn()?;
    let input = child.stdin.take();
    // The text is written beside the reading: if the program prints before it
    // has read all, neither side waits for the other.
    let ran = thread::scope(|scope| {
        scope.spawn(move || {
            // A program that stops reading is judged by what it prints.
            input.map(|mut input| input.write_all(text))
        });
        child.wait_with_output()
    })?;
    Ok(Ran { output: ran.stdout, status: ran.status })
}

/// Says in what the two differ, if they do.
fn difference(output: &[u8], status: u8, other: &Ran) -> Option<String> {
    let Some(code) = other.status.code() else {
        return Some(format!("the program was stopped: {}", other.status));
    };
    if output != other.output {
        let (ours, theirs) =
            (String::from_utf8_lossy(output), String::from_utf8_lossy(&other.output));
        let same = ours.lines().zip(theirs.lines()).take_while(|(one, two)| one == two).count();
        let shown = |text: &str| text.lines().nth(same).unwrap_or("nothing").to_string();
        return Some(format!(
            "line {} of the output: here `{}`, there `{}`",
            same + 1,
            shown(&ours),
            shown(&theirs)
        ));
    }
    ((status == 0) != (code == 0)).then(|| format!("the status: here {status}, there {code}"))
}
