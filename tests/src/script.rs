//! Cases as lines that the program of `calls.c` reads, and the text that it prints for them, as another replay would have it.

use crate::compare::{readings, TaskReadings};
use crate::edges::plain_setup;
use crate::gen::{CallCase, LogCase, TableCase};
use crate::shrink::{show_setup, Case};
use crate::{Call, Columns, Refusal, Replay, Setup};
use std::fmt::Write;

/// A case that the program in C can be given.
pub trait Script: Case {
    /// With what the answer to each case begins.
    const START: &'static str;

    fn script(&self) -> String;
    fn told<R: Replay>(&self, replay: &R) -> String;
    fn setup(&self) -> &Setup;
}

/// A refusal and a value, of which one is 0.
fn pair(reading: Result<u32, u32>) -> String {
    match reading {
        Ok(value) => format!("0 {value}"),
        Err(refusal) => format!("{refusal} 0"),
    }
}

/// A refusal, its place, and a number.
fn triple(answer: Result<u32, Refusal>) -> String {
    match answer {
        Ok(number) => format!("0 0 {number}"),
        Err(Refusal { number, place }) => format!("{number} {place} 0"),
    }
}

fn show_readings<R: Replay>(replay: &R, run: &R::Run, text: &mut String) {
    let read = readings(replay, run);
    let (task, at) = read.next.unwrap_or((0, 0));
    writeln!(text, "  clock {}, owed {}, idle {}, next {task} at {at}", read.clock, read.total_owed, read.idle)
        .unwrap();
    for TaskReadings { task, owed, given, completed } in read.tasks {
        let done = completed.map(|at| at.unwrap_or(0));
        writeln!(text, "  task {task}: owed {}, given {}, done {}", pair(owed), pair(given), pair(done)).unwrap();
    }
}

impl Script for CallCase {
    const START: &'static str = "setup ";

    fn script(&self) -> String {
        self.shown()
    }

    /// After a refused setup the calls are made on the plain run.
    fn told<R: Replay>(&self, replay: &R) -> String {
        let made = replay.setup(&self.setup);
        let mut text = format!("setup {}\n", made.as_ref().err().unwrap_or(&0));
        let mut run = made.unwrap_or_else(|_| replay.setup(&plain_setup()).expect("the plain setup is taken"));
        show_readings(replay, &run, &mut text);
        for &call in &self.calls {
            let name = match call {
                Call::Request(_) => "request",
                Call::Advance(_) => "advance",
                Call::Drain => "drain",
            };
            writeln!(text, "{name} {}", replay.call(&mut run, call).err().unwrap_or(0)).unwrap();
            show_readings(replay, &run, &mut text);
        }
        text
    }

    fn setup(&self) -> &Setup {
        &self.setup
    }
}

impl Script for TableCase {
    const START: &'static str = "setup ";

    fn script(&self) -> String {
        let columns = [&self.times, &self.tasks, &self.amounts];
        let mut text = show_setup(&self.setup);
        for i in 0..columns.iter().map(|column| column.len()).max().unwrap() {
            let [time, task, amount] = columns.map(|column| column.get(i).unwrap_or(&0));
            writeln!(text, "row {time} {task} {amount}").unwrap();
        }
        let [times, tasks, amounts] = columns.map(|column| column.len());
        text + &format!("table {} {times} {tasks} {amounts}\n", self.room)
    }

    fn told<R: Replay>(&self, replay: &R) -> String {
        let columns = Columns { times: &self.times, tasks: &self.tasks, amounts: &self.amounts };
        let mut result: Vec<u32> = (0..self.room as u32 + 2).map(|i| 0xA5A5_0000 + i).collect();
        let answer = replay.table(&self.setup, columns, &mut result[..self.room]);
        let mut text = CallCase { setup: self.setup.clone(), calls: Vec::new() }.told(replay);
        writeln!(text, "table {}", triple(answer)).unwrap();
        for entry in result {
            writeln!(text, "  {entry}").unwrap();
        }
        text
    }

    fn setup(&self) -> &Setup {
        &self.setup
    }
}

impl Script for LogCase {
    const START: &'static str = "log ";

    fn script(&self) -> String {
        let hex: String = self.bytes().iter().map(|byte| format!("{byte:02x}")).collect();
        format!("log {hex}\n")
    }

    fn told<R: Replay>(&self, replay: &R) -> String {
        let log = self.bytes();
        format!("log {}\n{}", triple(replay.judge(&log)), String::from_utf8_lossy(&replay.report(&log)))
    }

    fn setup(&self) -> &Setup {
        &self.setup
    }
}

/// Where two texts differ first: the line, under the last line before it that is not set in, and what both have there.
pub fn same(found: &str, expected: &str) -> Result<(), String> {
    let (mut line, mut above) = (0, "");
    let [mut found, mut expected] = [found, expected].map(str::lines);
    loop {
        line += 1;
        match (found.next(), expected.next()) {
            (None, None) => return Ok(()),
            (a, b) if a != b => return Err(format!("line {line}, under {above:?}: found {a:?}, expected {b:?}")),
            (Some(same), _) if !same.starts_with(' ') => above = same,
            _ => {}
        }
    }
}
