//! Writes the outputs that a check compares with.

use std::ffi::OsStr;
use std::fs;
use std::io::{self, Write};
use std::path::{Path, PathBuf};

use crate::answers::print_answers;
use crate::soak::print_soak;

const SOAK_TURNS: u64 = 2000;

/// Writes the answers to all schedules of a directory, and the soak. Answers
/// how many files it has written.
pub fn write_expected(directory: &Path) -> io::Result<usize> {
    let expected = directory.join("expected");
    fs::create_dir_all(&expected)?;
    let schedules = schedules_in(&directory.join("schedules"))?;
    for schedule in &schedules {
        let name = schedule.file_stem().unwrap_or(OsStr::new("schedule"));
        let file = expected.join(name).with_extension("out");
        fs::write(file, answers_with_status(&fs::read(schedule)?)?)?;
    }
    let mut soak = Vec::new();
    print_soak(SOAK_TURNS, &mut soak)?;
    fs::write(expected.join("soak.out"), soak)?;
    Ok(schedules.len() + 1)
}

fn schedules_in(directory: &Path) -> io::Result<Vec<PathBuf>> {
    let mut files = Vec::new();
    for entry in fs::read_dir(directory)? {
        let path = entry?.path();
        if path.extension() == Some(OsStr::new("txt")) {
            files.push(path);
        }
    }
    files.sort();
    Ok(files)
}

fn answers_with_status(text: &[u8]) -> io::Result<Vec<u8>> {
    let mut output = Vec::new();
    let status = print_answers(text, &mut output)?.status();
    writeln!(output, "status {status}")?;
    Ok(output)
}
