//! Drawn calls, tables and logs: each replay beside the oracle, and the library beside the jumps at large amounts.
//!
//! ANDURI_SEED chooses the first seed and ANDURI_TIMES multiplies the number of cases. A failing case is printed as
//! small as it goes, with its seed.

use anduri_tests::compare;
use anduri_tests::gen::{call_case, edge_setup, log_case, table_case, CallCase, Random, Size, TableCase};
use anduri_tests::jumps::Jumps;
use anduri_tests::oracle::Oracle;
use anduri_tests::shrink::hold;
use anduri_tests::{fewer, Replay, Row, Setup};

fn number_of(name: &str, otherwise: u64) -> u64 {
    let Ok(text) = std::env::var(name) else { return otherwise };
    text.parse().unwrap_or_else(|_| panic!("{name}={text} is not a number"))
}

/// The seeds of this run: `cases` of them, times ANDURI_TIMES.
fn seeds(cases: u64) -> std::ops::Range<u64> {
    let first = number_of("ANDURI_SEED", 1);
    let count = fewer(cases) * number_of("ANDURI_TIMES", 1);
    println!("seeds {first} to {}", first + count - 1);
    first..first + count
}

fn calls<T: Replay, E: Replay>(tested: &T, expected: &E, size: Size, cases: u64, most: u32) {
    for seed in seeds(cases) {
        let case = call_case(&mut Random::new(seed), size, most);
        hold("calls", seed, &case, |case| compare::calls(tested, expected, case));
    }
}

fn tables<T: Replay, E: Replay>(tested: &T, expected: &E, size: Size, cases: u64, most: u32) {
    for seed in seeds(cases) {
        let case = table_case(&mut Random::new(seed), size, most);
        hold("table", seed, &case, |case| compare::table(tested, expected, case));
    }
}

fn logs<T: Replay, E: Replay>(tested: &T, expected: &E, cases: u64) {
    for seed in seeds(cases) {
        let case = log_case(&mut Random::new(seed));
        hold("log", seed, &case, |case| compare::log_case(tested, expected, case));
    }
}

fn setups<T: Replay>(tested: &T, cases: u64) {
    for seed in seeds(cases) {
        let case = CallCase { setup: edge_setup(&mut Random::new(seed)), calls: Vec::new() };
        hold("setup", seed, &case, |case| compare::calls(tested, &Oracle, case));
    }
}

/// Every table of three rows over two tasks, times 0 to 3 and amounts 1 to 3, for slices 1 to 3 and three priorities.
fn small_tables<T: Replay>(tested: &T) {
    let mut all = Vec::new();
    for time in 0..4 {
        for task in 0..2 {
            all.extend((1..=3).map(|amount| Row { time, task, amount }));
        }
    }
    let robin = (1..=3).map(|slice| Setup::round_robin(2, slice));
    let setups = robin.chain([[1, 1], [1, 2], [2, 1]].map(|priorities| Setup::priority(&priorities)));
    for setup in setups {
        for first in &all {
            for second in &all {
                for third in &all {
                    let case = TableCase::of(&setup, &[*first, *second, *third]);
                    hold("small table", 0, &case, |case| compare::table(tested, &Oracle, case));
                }
            }
        }
    }
}

macro_rules! beside_the_oracle {
    ($name:ident, $replay:expr) => {
        mod $name {
            use super::*;

            #[test]
            fn setups() {
                super::setups(&$replay, 4_000);
            }
            #[test]
            fn calls() {
                super::calls(&$replay, &Oracle, Size::Small, 6_000, 40);
            }
            #[test]
            fn long_calls() {
                super::calls(&$replay, &Oracle, Size::Small, 40, 1_500);
            }
            #[test]
            fn tables() {
                super::tables(&$replay, &Oracle, Size::Small, 15_000, 30);
            }
            #[test]
            fn long_tables() {
                super::tables(&$replay, &Oracle, Size::Small, 60, 1_100);
            }
            #[test]
            fn logs() {
                super::logs(&$replay, &Oracle, 4_000);
            }
            #[test]
            fn small_tables() {
                super::small_tables(&$replay);
            }
            #[test]
            fn large_amounts() {
                super::tables(&$replay, &Oracle, Size::Large, 4, 6);
            }
        }
    };
}

beside_the_oracle!(jumps, Jumps);
#[cfg(anduri_lib)]
beside_the_oracle!(library, anduri_tests::face::Library);

/// Calls and readings in place, beside those by value and beside the oracle and the jumps.
#[cfg(anduri_lib)]
mod kept {
    use super::*;
    use anduri_tests::kept::Kept;

    #[test]
    fn setups() {
        super::setups(&Kept, 4_000);
    }
    #[test]
    fn calls() {
        super::calls(&Kept, &Oracle, Size::Small, 6_000, 40);
    }
    #[test]
    fn long_calls() {
        super::calls(&Kept, &Oracle, Size::Small, 40, 1_500);
    }
    #[test]
    fn large_calls() {
        super::calls(&Kept, &Jumps, Size::Large, 150, 30);
    }
}

#[cfg(anduri_lib)]
mod library_beside_jumps {
    use super::*;
    use anduri_tests::edges::edge_case;
    use anduri_tests::face::Library;

    #[test]
    fn large_calls() {
        super::calls(&Library, &Jumps, Size::Large, 150, 30);
    }
    /// Numbers on and beside every limit.
    #[test]
    fn limits() {
        for seed in seeds(1_000) {
            let case = edge_case(&mut Random::new(seed), 30);
            hold("limits", seed, &case, |case| compare::calls(&Library, &Jumps, case));
        }
    }
    #[test]
    fn large_tables() {
        super::tables(&Library, &Jumps, Size::Large, 150, 60);
    }
}
