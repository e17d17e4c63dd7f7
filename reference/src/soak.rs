//! The soak: loads over all schemes, sizes, items and modes.

use std::io::{self, Write};
use std::num::NonZeroU64;
use std::time::Duration;

use crate::items::ItemKind;
use crate::load::{Load, Mode};
use crate::reclaimer::Scheme;

/// Sessions, cells and keys.
const SIZES: [(usize, usize, usize); 6] =
    [(1, 1, 4), (2, 2, 4), (3, 5, 8), (8, 16, 16), (8, 64, 64), (8, 256, 1024)];

pub const FIRST_SEED: NonZeroU64 = match NonZeroU64::new(88_172_645_463_325_252) {
    Some(seed) => seed,
    None => NonZeroU64::MIN,
};

/// What the whole soak took.
#[derive(Default)]
pub struct Effort {
    pub words: u64,
    pub operations: u64,
    pub time: Duration,
}

pub fn print_soak(turns: u64, output: &mut impl Write) -> io::Result<Effort> {
    let mut effort = Effort::default();
    let mut total: u64 = 0;
    for load in loads(turns) {
        let ran = load.run();
        writeln!(output, "{}", load.report(ran))?;
        if let Ok(sums) = ran {
            effort.words += sums.words;
            effort.operations += sums.operations;
            effort.time += sums.time;
            total = total.wrapping_mul(31).wrapping_add(sums.sum);
        }
    }
    writeln!(output, "total words {} sum {total:016x}", effort.words)?;
    Ok(effort)
}

fn loads(turns: u64) -> Vec<Load> {
    let mut seed = FIRST_SEED;
    let mut loads = Vec::new();
    for scheme in Scheme::ALL {
        for (sessions, cells, keys) in SIZES {
            for kind in ItemKind::ALL {
                for mode in Mode::ALL {
                    loads.push(Load { scheme, sessions, cells, kind, keys, mode, seed, turns });
                    seed = seed.saturating_add(1);
                }
            }
        }
    }
    loads
}

#[cfg(test)]
mod tests {
    use super::*;

    #[test]
    fn every_combination_comes_once_with_its_own_seed() {
        let loads = loads(1);
        assert_eq!(loads.len(), 3 * 6 * 2 * 3);
        assert_eq!(loads[0].to_string(), "hazard 1 sessions 1 cells numbers 4 keys");
        assert_eq!(loads[0].seed, FIRST_SEED);
        let last = &loads[107];
        assert_eq!(last.to_string(), "quiescent 8 sessions 256 cells bytes 1024 keys");
        assert_eq!((last.mode, last.seed.get()), (Mode::Junk, FIRST_SEED.get() + 107));
    }

    #[test]
    fn the_soak_ends_with_its_total() {
        let mut output = Vec::new();
        let effort = print_soak(50, &mut output).unwrap();
        let output = String::from_utf8(output).unwrap();
        assert_eq!(output.lines().count(), 109);
        let total = format!("total words {} sum ", effort.words);
        assert!(output.lines().last().unwrap().starts_with(&total));
    }
}
