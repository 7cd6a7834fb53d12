//! Two replays side by side: answers, all readings after every call, every entry of a result column, a log's text.

use crate::gen::{CallCase, LogCase, TableCase};
use crate::oracle;
use crate::{Call, Columns, Replay, Row, LAST_TIME};
use std::fmt::Debug;

/// Everything that can be read from a run.
#[derive(Clone, Debug, PartialEq, Eq)]
pub struct Readings {
    pub clock: u32,
    pub total_owed: u32,
    pub idle: u32,
    pub next: Option<(u32, u32)>,
    pub tasks: Vec<TaskReadings>,
}

#[derive(Clone, Debug, PartialEq, Eq)]
pub struct TaskReadings {
    pub task: u32,
    pub owed: Result<u32, u32>,
    pub given: Result<u32, u32>,
    pub completed: Result<Option<u32>, u32>,
}

pub fn readings<R: Replay>(replay: &R, run: &R::Run) -> Readings {
    let tasks = (0..=33).chain([256, u32::MAX]).map(|task| TaskReadings {
        task,
        owed: replay.owed(run, task),
        given: replay.given(run, task),
        completed: replay.completed(run, task),
    });
    Readings {
        clock: replay.clock(run),
        total_owed: replay.total_owed(run),
        idle: replay.idle(run),
        next: replay.next(run),
        tasks: tasks.collect(),
    }
}

fn same<T: PartialEq + Debug>(what: impl Fn() -> String, tested: T, expected: T) -> Result<(), String> {
    if tested == expected {
        return Ok(());
    }
    Err(format!("{}: found {tested:?}, expected {expected:?}", what()))
}

fn same_readings(what: impl Fn() -> String, tested: Readings, expected: Readings) -> Result<(), String> {
    for (tested, expected) in tested.tasks.iter().zip(&expected.tasks) {
        same(&what, tested, expected)?;
    }
    same(&what, Readings { tasks: Vec::new(), ..tested }, Readings { tasks: Vec::new(), ..expected })
}

/// The readings against the accepted requests alone: the backlog and the idle ticks at the clock are built from times
/// and amounts, and what a task was granted is what it was given and is owed.
pub fn accounted(accepted: &[Row], readings: &Readings) -> Result<(), String> {
    let (mut now, mut backlog, mut idle) = (0u64, 0u64, 0u64);
    let end = Row { time: readings.clock, task: 0, amount: 0 };
    for row in accepted.iter().chain([&end]) {
        let span = u64::from(row.time) - now;
        idle += span.saturating_sub(backlog);
        backlog = backlog.saturating_sub(span) + u64::from(row.amount);
        now = u64::from(row.time);
    }
    same(|| "backlog of the requests".into(), u64::from(readings.total_owed), backlog)?;
    same(|| "ticks without backlog".into(), u64::from(readings.idle), idle)?;
    for entry in readings.tasks.iter().filter(|entry| entry.owed.is_ok()) {
        let asked = accepted.iter().filter(|row| row.task == entry.task).map(|row| u64::from(row.amount)).sum();
        let had = u64::from(entry.given.unwrap_or(0)) + u64::from(entry.owed.unwrap_or(0));
        same(|| format!("amounts of task {}", entry.task), had, asked)?;
    }
    Ok(())
}

/// What the next reading says comes true: no completion before its instant, and at it that of its task alone.
fn next_comes_true<R: Replay>(replay: &R, run: &R::Run, now: &Readings) -> Result<(), String> {
    let Some((task, at)) = now.next.filter(|&(_, at)| at <= LAST_TIME) else { return Ok(()) };
    let completions = |time: u32| {
        let mut ahead = run.clone();
        replay
            .advance(&mut ahead, time)
            .map(|()| (0..32).map(|task| replay.completed(&ahead, task)).collect::<Vec<_>>())
    };
    let mut expected: Vec<_> = now.tasks[..32].iter().map(|entry| entry.completed).collect();
    same(|| "completions before the next".into(), completions(at - 1), Ok(expected.clone()))?;
    expected[task as usize] = Ok(Some(at));
    same(|| "completions at the next".into(), completions(at), Ok(expected))
}

/// "The clock moves by exactly the ticks owed", and nothing is open then.
fn drained(before: &Readings, after: &Readings) -> Result<(), String> {
    same(|| "clock after a drain".into(), after.clock, before.clock + before.total_owed)?;
    same(|| "open after a drain".into(), (after.total_owed, after.next), (0, None))
}

/// Makes the calls on both. After every call the answers and all readings are the same, a refused call has changed no
/// reading, the accepted requests account for the readings, and the next reading comes true.
pub fn calls<T: Replay, E: Replay>(tested: &T, expected: &E, case: &CallCase) -> Result<(), String> {
    let (mut run, mut model) = match (tested.setup(&case.setup), expected.setup(&case.setup)) {
        (Ok(run), Ok(model)) => (run, model),
        (found, wanted) => return same(|| "setup".into(), found.err(), wanted.err()),
    };
    let mut accepted = Vec::new();
    let mut before = readings(tested, &run);
    same_readings(|| "fresh run".into(), before.clone(), readings(expected, &model))?;
    for (i, &call) in case.calls.iter().enumerate() {
        let what = || format!("call {}, {call:?}", i + 1);
        let answer = tested.call(&mut run, call);
        same(what, answer, expected.call(&mut model, call))?;
        let after = readings(tested, &run);
        same_readings(what, after.clone(), readings(expected, &model))?;
        match (answer, call) {
            (Err(_), _) => same_readings(what, after.clone(), before)?,
            (Ok(()), Call::Request(row)) => accepted.push(row),
            (Ok(()), Call::Drain) => drained(&before, &after)?,
            _ => {}
        }
        let kept = accounted(&accepted, &after).and_then(|()| next_comes_true(tested, &run, &after));
        kept.map_err(|fault| format!("{}: {fault}", what()))?;
        before = after;
    }
    Ok(())
}

/// Replays the table on both, over a result column that holds other numbers before. The tested replay's calls give
/// the same end as its table.
pub fn table<T: Replay, E: Replay>(tested: &T, expected: &E, case: &TableCase) -> Result<(), String> {
    let columns = Columns { times: &case.times, tasks: &case.tasks, amounts: &case.amounts };
    let before: Vec<u32> = (0..case.room as u32).map(|i| 0xA5A5_0000 + i).collect();
    let (mut result, mut wanted) = (before.clone(), before.clone());
    let answer = tested.table(&case.setup, columns, &mut result);
    same(|| "table".into(), answer, expected.table(&case.setup, columns, &mut wanted))?;
    same(|| "result column".into(), &result, &wanted)?;
    if answer.is_err() {
        return same(|| "result column of a refused table".into(), &result, &before);
    }
    let mut run = tested.setup(&case.setup).map_err(|number| format!("setup refused {number} beside its table"))?;
    for i in 0..case.times.len() {
        let row = Row { time: case.times[i], task: case.tasks[i], amount: case.amounts[i] };
        same(|| format!("row {} as a call", i + 1), tested.request(&mut run, row), Ok(()))?;
    }
    same(|| "drain".into(), tested.drain(&mut run), Ok(()))?;
    same(|| "end as a call".into(), Ok(tested.clock(&run)), answer)
}

/// Judges and prints the log on both.
pub fn log<T: Replay, E: Replay>(tested: &T, expected: &E, log: &[u8]) -> Result<(), String> {
    same(|| "judge".into(), tested.judge(log), expected.judge(log))?;
    let [found, wanted] =
        [tested.report(log), expected.report(log)].map(|text| String::from_utf8_lossy(&text).into_owned());
    if found != wanted {
        let [found, wanted] = [&found, &wanted].map(|text| text.split_inclusive('\n'));
        let line = found.clone().zip(wanted.clone()).take_while(|(a, b)| a == b).count();
        let [found, wanted] = [found, wanted].map(|mut lines| lines.nth(line));
        return Err(format!("line {} of the text: found {found:?}, expected {wanted:?}", line + 1));
    }
    Ok(())
}

/// The same for a drawn log; a log that was not damaged says what was written into it.
pub fn log_case<T: Replay, E: Replay>(tested: &T, expected: &E, case: &LogCase) -> Result<(), String> {
    let bytes = case.bytes();
    log(tested, expected, &bytes)?;
    if case.damages.is_empty() && case.rows.len() <= crate::MOST_ROWS && oracle::judge_setup(&case.setup).is_ok() {
        let read = oracle::read_log(&bytes).map_err(|refusal| format!("a whole log: {refusal:?}"))?;
        same(|| "setup of a whole log".into(), &read.setup, &case.setup)?;
        same(|| "rows of a whole log".into(), &read.rows, &case.rows)?;
        same(|| "records of a whole log".into(), tested.judge(&bytes), Ok(case.rows.len() as u32))?;
    }
    Ok(())
}
