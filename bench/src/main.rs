//! Does one thing with one workload and one implementation, so that its instructions are the difference between two
//! processes.
//!
//! usage: anduri-bench table WORKLOAD IMPLEMENTATION TABLES   replays the table so many times, prints a sum over what came out
//!        anduri-bench log WORKLOAD                           writes the workload as a log
//!        anduri-bench judge WORKLOAD JUDGE TIMES             judges that log so many times: library, plain, or copy
//!        anduri-bench speeds WORKLOAD                        prints the judges' megabytes a second

mod judge;
mod logs;
mod slices;
mod ticks;
mod workloads;

use anduri_tests::{Columns, Refusal, Setup};
use std::hint::black_box;
use std::io::Write;

type Table = fn(&Setup, Columns, &mut [u32]) -> Result<u32, Refusal>;

#[cfg(anduri_lib)]
fn library(setup: &Setup, columns: Columns, result: &mut [u32]) -> Result<u32, Refusal> {
    use anduri_tests::Replay;
    anduri_tests::face::Library.table(setup, columns, result)
}

fn implementation(name: &str) -> Option<Table> {
    match name {
        "ticks" => Some(ticks::table),
        "slices" => Some(slices::table),
        #[cfg(anduri_lib)]
        "library" => Some(library),
        _ => None,
    }
}

fn tables(workload: workloads::Workload, table: Table, tables: u32) {
    let columns = Columns { times: &workload.times, tasks: &workload.tasks, amounts: &workload.amounts };
    let mut result = vec![0; workload.times.len()];
    let mut sum = 0u64;
    for _ in 0..tables {
        let end =
            black_box(table)(black_box(&workload.setup), black_box(columns), &mut result).expect("the table is taken");
        sum = result.iter().fold(u64::from(end), |sum, &done| sum.wrapping_mul(31).wrapping_add(u64::from(done)));
    }
    println!("{sum}");
}

/// Does what the arguments say; none where they say nothing that is known.
fn done(arguments: &[&str]) -> Option<()> {
    match arguments {
        ["table", workload, name, count] => {
            tables(workloads::workload(workload)?, implementation(name)?, count.parse().ok()?);
            Some(())
        }
        ["log", workload] => std::io::stdout().write_all(&logs::log(workload)?).ok(),
        ["judge", workload, name, count] => logs::judge(&logs::log(workload)?, name, count.parse().ok()?),
        ["speeds", workload] => {
            logs::speeds(&logs::log(workload)?);
            Some(())
        }
        _ => None,
    }
}

fn main() {
    let arguments: Vec<String> = std::env::args().skip(1).collect();
    let arguments: Vec<&str> = arguments.iter().map(String::as_str).collect();
    if done(&arguments).is_none() {
        eprintln!("usage: anduri-bench (table WORKLOAD IMPLEMENTATION TABLES | log WORKLOAD | judge WORKLOAD JUDGE TIMES | speeds WORKLOAD)");
        eprintln!("workloads: {} G_AMOUNT_SLICE; implementations: ticks, slices, library", workloads::NAMES.join(" "));
        std::process::exit(2);
    }
}

#[cfg(test)]
mod tests {
    use super::*;
    use anduri_tests::gen::{log_case, table_case, Random, Size};
    use anduri_tests::jumps::Jumps;
    use anduri_tests::Replay;

    /// What is measured is right: both plain implementations agree with the tests' replay, refusals included.
    #[test]
    fn implementations_agree() {
        for seed in 1..=3_000 {
            let case = table_case(&mut Random::new(seed), Size::Small, 40);
            let columns = Columns { times: &case.times, tasks: &case.tasks, amounts: &case.amounts };
            let mut expected = vec![7; case.room];
            let answer = Jumps.table(&case.setup, columns, &mut expected);
            for (name, table) in [("ticks", ticks::table as Table), ("slices", slices::table)] {
                // Tick by tick the last times take seconds.
                if name == "ticks" && case.times.iter().any(|&time| time > 10_000_000) {
                    continue;
                }
                let mut result = vec![7; case.room];
                assert_eq!(table(&case.setup, columns, &mut result), answer, "{name}, seed {seed}");
                assert_eq!(result, expected, "{name}, seed {seed}");
            }
        }
    }

    /// The plain judge of logs too.
    #[test]
    fn judges_agree() {
        for seed in 1..=3_000 {
            let log = log_case(&mut Random::new(seed)).bytes();
            assert_eq!(judge::judge_log(&log), Jumps.judge(&log), "seed {seed}");
        }
    }

    #[test]
    fn workloads_are_taken() {
        for name in workloads::NAMES.into_iter().chain(["G_1000_10", "G_1000000_65535"]) {
            let workload = workloads::workload(name).unwrap();
            let columns = Columns { times: &workload.times, tasks: &workload.tasks, amounts: &workload.amounts };
            let mut result = vec![0; workload.times.len()];
            let answer = slices::table(&workload.setup, columns, &mut result);
            let mut expected = vec![0; workload.times.len()];
            assert_eq!(answer, Jumps.table(&workload.setup, columns, &mut expected), "{name}");
            assert!(answer.is_ok() && result == expected, "{name}");
        }
    }
}
