//! The library as a C program has it: `src/calls.c`, compiled with the header, makes drawn calls, runs tables, judges logs,
//! and prints all answers and readings. With `src/wrong.c` around the library one answer is wrong; each such fault is found.
#![cfg(anduri_lib)]

use anduri_tests::edges::edge_case;
use anduri_tests::gen::{call_case, log_case, table_case, CallCase, LogCase, Random, Size, TableCase};
use anduri_tests::jumps::Jumps;
use anduri_tests::oracle::Oracle;
use anduri_tests::script::{same, Script};
use anduri_tests::shrink::failure;
use anduri_tests::{fewer, run, Replay, LAST_TIME};
use std::cell::RefCell;
use std::io::{BufRead, BufReader, Write};
use std::path::{Path, PathBuf};
use std::process::{ChildStdin, ChildStdout, Command, Stdio};

const WRONG: &str = include_str!("../src/wrong.c");

/// The functions that `wrong.c` stands around.
fn wrapped() -> Vec<&'static str> {
    let name = |line: &'static str| Some(line.strip_prefix("WRAPPED(")?.split(", ").nth(1)?.trim_end_matches(','));
    WRONG.lines().filter_map(name).collect()
}

/// The faults that it can have.
fn faults() -> Vec<&'static str> {
    WRONG.split("has(\"").skip(1).map(|rest| rest.split('"').next().unwrap()).collect()
}

fn compiled(name: &str, sources: &[&str], wrapped: &[&str]) -> PathBuf {
    let here = Path::new(env!("CARGO_MANIFEST_DIR"));
    let path = Path::new(env!("CARGO_TARGET_TMPDIR")).join(name);
    let status = Command::new(here.join("../tools/cc"))
        .args(["-std=c11", "-Wall", "-Wextra", "-Werror", "-O2", "-I"])
        .arg(here.join("../include"))
        .args(sources.iter().map(|source| here.join("src").join(source)))
        .arg(env!("ANDURI_ARCHIVE"))
        .args(wrapped.iter().map(|function| format!("-Wl,--wrap={function}")))
        .arg("-o")
        .arg(&path)
        .status();
    assert!(status.expect("tools/cc starts").success(), "{name} is not compiled");
    path
}

/// The compiled program as it runs: it answers script after script.
struct Program {
    to: RefCell<ChildStdin>,
    from: RefCell<BufReader<ChildStdout>>,
}

impl Program {
    /// Starts the program with a fault, or with none.
    fn started(path: &Path, fault: &str) -> Program {
        let child = run(path).env("ANDURI_FAULT", fault).stdin(Stdio::piped()).stdout(Stdio::piped()).spawn();
        let child = child.expect("the program starts");
        Program { to: child.stdin.unwrap().into(), from: BufReader::new(child.stdout.unwrap()).into() }
    }

    /// What the program prints for a script.
    fn told(&self, script: String) -> String {
        let (to, from) = (&mut *self.to.borrow_mut(), &mut *self.from.borrow_mut());
        std::thread::scope(|scope| {
            let writer = scope.spawn(move || to.write_all((script + "answer\n").as_bytes()));
            let mut text = String::new();
            while !text.ends_with("answered\n") {
                assert_ne!(from.read_line(&mut text).unwrap(), 0, "the program stops");
            }
            writer.join().unwrap().expect("the program reads the whole script");
            text.truncate(text.len() - "answered\n".len());
            text
        })
    }

    /// The first failing case, as it is printed. Many cases are one script.
    fn failure<C: Script>(&self, cases: &[Drawn<C>]) -> Option<String> {
        cases.chunks(25).find_map(|some| self.failure_among(some))
    }

    fn failure_among<C: Script>(&self, cases: &[Drawn<C>]) -> Option<String> {
        let all = self.told(cases.iter().map(|drawn| drawn.case.script()).collect());
        let starts: Vec<usize> = all.match_indices(C::START).map(|(at, _)| at).chain([all.len()]).collect();
        assert_eq!(starts.len(), cases.len() + 1, "each case is answered");
        let (drawn, found) =
            cases.iter().zip(starts.windows(2)).find(|(drawn, at)| all[at[0]..at[1]] != drawn.expected)?;
        let whole = same(&all[found[0]..found[1]], &drawn.expected).unwrap_err();
        let verdict = |case: &C| Jumps.setup(case.setup()).err();
        let alone = |case: &C| match verdict(case) == verdict(&drawn.case) {
            true => same(&self.told(case.script()), &case.told(&Jumps)),
            false => Ok(()),
        };
        let small = failure("in C", drawn.seed, &drawn.case, alone);
        Some(small.unwrap_or_else(|| format!("seed {}, only after other cases: {whole}", drawn.seed)))
    }

    fn hold<C: Script>(&self, cases: &[Drawn<C>]) {
        if let Some(failure) = self.failure(cases) {
            panic!("{failure}");
        }
    }
}

/// A drawn case and what is to be printed for it.
struct Drawn<C> {
    seed: u64,
    case: C,
    expected: String,
}

fn drawn<C: Script, E: Replay>(expected: &E, cases: u64, draw: impl Fn(&mut Random) -> C) -> Vec<Drawn<C>> {
    println!("seeds 1 to {cases}");
    let one = |seed| {
        let case = draw(&mut Random::new(seed));
        let expected = case.told(expected);
        Drawn { seed, case, expected }
    };
    (1..=cases).map(one).collect()
}

/// Calls at short times, tick by tick.
fn small(cases: u64) -> Vec<Drawn<CallCase>> {
    drawn(&Oracle, cases, |random| call_case(random, Size::Small, 40))
}

/// Calls with numbers at every limit, from change to change.
fn at_limits(cases: u64) -> Vec<Drawn<CallCase>> {
    drawn(&Jumps, cases, |random| edge_case(random, 30))
}

fn tables(cases: u64) -> Vec<Drawn<TableCase>> {
    drawn(&Oracle, cases, |random| table_case(random, Size::Small, 30))
}

fn logs(cases: u64) -> Vec<Drawn<LogCase>> {
    drawn(&Oracle, cases, log_case)
}

#[test]
fn answers_in_c() {
    let program = Program::started(&compiled("calls", &["calls.c"], &[]), "");
    program.hold(&small(fewer(800)));
    program.hold(&at_limits(fewer(800)));
    program.hold(&tables(fewer(2_000)));
    program.hold(&logs(fewer(800)));
}

/// The cases reach every answer, times above the last one, and completions beyond it.
#[test]
fn cases_reach_every_answer() {
    let text: String = at_limits(300).into_iter().map(|drawn| drawn.expected).collect();
    let has = |line: &str| text.lines().any(|found| found == line);
    for number in [0, 1, 2, 3, 4] {
        assert!(has(&format!("setup {number}")), "setup {number}");
    }
    for number in [0, 10, 11, 12, 13, 14] {
        assert!(has(&format!("request {number}")), "request {number}");
    }
    for number in [0, 10, 11] {
        assert!(has(&format!("advance {number}")), "advance {number}");
    }
    let clocks = text.lines().filter_map(|line| line.strip_prefix("  clock ")?.split(',').next()?.parse().ok());
    let latest: u32 = clocks.max().unwrap();
    assert!(latest > LAST_TIME, "no clock past the last time: {latest}");
}

#[test]
fn wrong_answers_are_found() {
    let path = compiled("wrong_calls", &["calls.c", "wrong.c"], &wrapped());
    let (small, at_limits, tables, logs) = (small(200), at_limits(400), tables(200), logs(50));
    let calls = include_str!("../src/calls.c").split(|c: char| !(c == '_' || c == '(' || c.is_ascii_alphanumeric()));
    for call in calls.filter(|word| word.starts_with("anduri_")).filter_map(|word| Some(word.split_once('(')?.0)) {
        assert!(wrapped().contains(&call), "{call} has no fault");
    }
    for fault in faults() {
        let program = Program::started(&path, fault);
        // Tables and logs print the least.
        let others = || program.failure(&tables).or_else(|| program.failure(&logs));
        let found = others().or_else(|| program.failure(&small)).or_else(|| program.failure(&at_limits));
        let text = found.unwrap_or_else(|| panic!("{fault} is not found"));
        println!("{fault}\n{text}\n");
        assert!(text.contains("# seed ") && text.contains("setup "), "{fault}: {text}");
        assert!(text.lines().count() <= 8, "{fault} is not small:\n{text}");
    }
}
