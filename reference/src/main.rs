//! A slot-lock board in plain Rust, for comparison with other programs that
//! follow the same documents.

mod answers;
mod board;
mod compare;
mod damage;
mod epoch;
mod expect;
mod hazard;
mod invent;
mod items;
mod load;
#[cfg(test)]
mod promises;
mod quiescent;
mod random;
mod reclaimer;
mod reuse;
mod schedule;
mod serial;
mod soak;
mod stage;
mod witness;
mod word;

use std::fs;
use std::io::{self, BufWriter, Read, StdoutLock, Write};
use std::num::NonZeroU64;
use std::path::Path;
use std::process::ExitCode;
use std::time::Duration;

use answers::{print_answers, Verdict};
use compare::{compare, Comparison};
use items::ItemKind;
use load::{Load, Mode};
use reclaimer::{Scheme, MOST_CELLS, MOST_SESSIONS};
use reuse::print_reuse;
use soak::{print_soak, FIRST_SEED};

const HELP: &str = "\
reference - a slot-lock board in plain Rust

  reference answers [FILE]
      run a schedule and print the answer of every word
  reference reuse [FILE]
      run a schedule on a board that uses unlinked cells again at once, and
      say what went wrong
  reference load SCHEME MODE KEYS TURNS [--items numbers|bytes]
                 [--sessions S] [--cells C] [--seed N]
      run one seeded load; SCHEME is hazard, epoch or quiescent, MODE is whole,
      mixed or junk; without options numbers, 8 sessions, 256 cells and the
      first seed of the soak
  reference soak [TURNS]
      run the seeded loads over all sizes, 2000 turns each if not said
  reference compare PROGRAM COUNT [SEED]
      give COUNT invented schedules to `PROGRAM answers` and compare
  reference expect DIR
      write DIR/expected/NAME.out for every DIR/schedules/NAME.txt, and
      DIR/expected/soak.out
  reference --help
      this text

Without FILE a schedule is read from standard input. Times go to standard error.
";

const DEFAULT_SOAK_TURNS: u64 = 2000;

/// Why a command did not come to its end.
enum Failure {
    /// It was not called as it has to be.
    Usage(String),
    Io(io::Error),
}

impl From<io::Error> for Failure {
    fn from(error: io::Error) -> Self {
        Failure::Io(error)
    }
}

fn main() -> ExitCode {
    let arguments: Vec<String> = std::env::args_os()
        .skip(1)
        .map(|argument| argument.to_string_lossy().into_owned())
        .collect();
    let arguments: Vec<&str> = arguments.iter().map(String::as_str).collect();
    match run(&arguments) {
        Ok(status) => ExitCode::from(status),
        Err(Failure::Usage(message)) => {
            eprintln!("reference: {message}\nreference --help says more");
            ExitCode::from(2)
        }
        Err(Failure::Io(error)) => {
            eprintln!("reference: {error}");
            ExitCode::from(1)
        }
    }
}

fn run(arguments: &[&str]) -> Result<u8, Failure> {
    let mut output = BufWriter::with_capacity(1 << 16, io::stdout().lock());
    let status = match arguments {
        ["answers"] => run_text(&standard_input()?, &mut output, print_answers)?,
        ["answers", file] => run_text(&contents(file)?, &mut output, print_answers)?,
        ["reuse"] => run_text(&standard_input()?, &mut output, print_reuse)?,
        ["reuse", file] => run_text(&contents(file)?, &mut output, print_reuse)?,
        ["load", scheme, mode, keys, turns, options @ ..] => {
            run_load(read_load(scheme, mode, keys, turns, options)?, &mut output)?
        }
        ["soak"] => run_soak(DEFAULT_SOAK_TURNS, &mut output)?,
        ["soak", turns] => run_soak(count(turns, "TURNS")?, &mut output)?,
        ["compare", program, number] => {
            run_compare(program, count(number, "COUNT")?, FIRST_SEED.get(), &mut output)?
        }
        ["compare", program, number, seed] => {
            run_compare(program, count(number, "COUNT")?, count(seed, "SEED")?, &mut output)?
        }
        ["expect", directory] => run_expect(directory, &mut output)?,
        ["--help" | "-h" | "help"] => {
            output.write_all(HELP.as_bytes())?;
            0
        }
        [] => return Err(Failure::Usage("a command is missing".to_string())),
        [command, ..] => {
            return Err(Failure::Usage(format!("`{command}` is no command with these arguments")))
        }
    };
    output.flush()?;
    Ok(status)
}

type Output<'a> = BufWriter<StdoutLock<'a>>;

fn standard_input() -> io::Result<Vec<u8>> {
    let mut text = Vec::new();
    io::stdin().lock().read_to_end(&mut text)?;
    Ok(text)
}

fn contents(file: &str) -> io::Result<Vec<u8>> {
    fs::read(file).map_err(|error| io::Error::new(error.kind(), format!("{file}: {error}")))
}

fn run_text<'a>(
    text: &[u8],
    output: &mut Output<'a>,
    print: fn(&[u8], &mut Output<'a>) -> io::Result<Verdict>,
) -> Result<u8, Failure> {
    let verdict = print(text, output)?;
    if let Verdict::BadText(error) = &verdict {
        eprintln!("reference: {error}");
    }
    Ok(verdict.status())
}

fn run_load(load: Load, output: &mut impl Write) -> Result<u8, Failure> {
    let ran = load.run();
    writeln!(output, "{}", load.report(ran))?;
    match ran {
        Ok(sums) => {
            print_times(sums.words, sums.operations, sums.time);
            Ok(0)
        }
        Err(_) => Ok(1),
    }
}

fn run_soak(turns: u64, output: &mut impl Write) -> Result<u8, Failure> {
    let effort = print_soak(turns, output)?;
    print_times(effort.words, effort.operations, effort.time);
    Ok(0)
}

fn print_times(words: u64, operations: u64, time: Duration) {
    let each = |count: u64| time.as_nanos() as f64 / count.max(1) as f64;
    eprintln!(
        "{:.3} s, {:.2} ns per word, {:.2} ns per operation",
        time.as_secs_f64(),
        each(words),
        each(operations)
    );
}

fn run_compare(
    program: &str,
    count: u64,
    seed: u64,
    output: &mut impl Write,
) -> Result<u8, Failure> {
    match compare(program, count, seed)? {
        Comparison::Same { words } => {
            writeln!(output, "{count} schedules, {words} words, no difference")?;
            Ok(0)
        }
        Comparison::Different { file, what } => {
            writeln!(output, "{file}: {what}")?;
            Ok(1)
        }
    }
}

fn run_expect(directory: &str, output: &mut impl Write) -> Result<u8, Failure> {
    let files = expect::write_expected(Path::new(directory))?;
    writeln!(output, "{files} files written")?;
    Ok(0)
}

fn read_load(
    scheme: &str,
    mode: &str,
    keys: &str,
    turns: &str,
    options: &[&str],
) -> Result<Load, Failure> {
    let mut load = Load {
        scheme: Scheme::named(scheme)
            .ok_or_else(|| Failure::Usage("SCHEME is hazard, epoch or quiescent".to_string()))?,
        sessions: MOST_SESSIONS,
        cells: MOST_CELLS,
        kind: ItemKind::Numbers,
        keys: size(keys, "KEYS")?,
        mode: Mode::named(mode)
            .ok_or_else(|| Failure::Usage("MODE is whole, mixed or junk".to_string()))?,
        seed: FIRST_SEED,
        turns: count(turns, "TURNS")?,
    };
    if load.keys == 0 {
        return Err(Failure::Usage("KEYS is at least 1".to_string()));
    }
    for option in options.chunks(2) {
        match *option {
            ["--items", name] => {
                load.kind = ItemKind::named(name)
                    .ok_or_else(|| Failure::Usage("--items is numbers or bytes".to_string()))?;
            }
            ["--sessions", number] => load.sessions = size(number, "--sessions")?,
            ["--cells", number] => load.cells = size(number, "--cells")?,
            ["--seed", number] => {
                load.seed = NonZeroU64::new(count(number, "--seed")?)
                    .ok_or_else(|| Failure::Usage("--seed is not 0".to_string()))?;
            }
            _ => return Err(Failure::Usage(format!("`{}` is no option with a value", option[0]))),
        }
    }
    Ok(load)
}

fn count(argument: &str, name: &str) -> Result<u64, Failure> {
    argument.parse().map_err(|_| Failure::Usage(format!("{name} is a number, not `{argument}`")))
}

/// A size of a board. Sizes that no board has are refused later, so a bound is
/// set only against lists that no machine could hold.
fn size(argument: &str, name: &str) -> Result<usize, Failure> {
    argument
        .parse::<u16>()
        .map(usize::from)
        .map_err(|_| Failure::Usage(format!("{name} is a number up to 65535, not `{argument}`")))
}
