//! Document 01 tick by tick, slow and obvious: setups, the rule, calls, readings, tables, logs, the printed text.
//!
//! One shortcut: ticks at which nothing is open are passed in one step, since they change only the clock and the idle
//! ticks.

use crate::{
    Columns, Refusal, Replay, Row, Setup, BLOCK, BLOCK_RECORDS, LAST_TIME, MOST_AMOUNT, MOST_BLOCKS, MOST_ROWS,
};
use std::ops::Range;

pub struct Oracle;

// ---- Setting up a run

/// "Setup: 1 to 4 in that order."
pub fn judge_setup(setup: &Setup) -> Result<(), u32> {
    if setup.policy != 1 && setup.policy != 2 {
        return Err(1);
    }
    if setup.count < 1 || setup.count > 32 {
        return Err(2);
    }
    let slice_fits = match setup.policy {
        1 => setup.slice == 0,
        _ => (1..=65_535).contains(&setup.slice),
    };
    if !slice_fits {
        return Err(3);
    }
    if setup.priorities.len() != 32 {
        return Err(4);
    }
    let first_zero = match setup.policy {
        1 => setup.count as usize,
        _ => 0,
    };
    if setup.priorities[first_zero..].iter().any(|&byte| byte != 0) {
        return Err(4);
    }
    Ok(())
}

#[derive(Clone, Debug, PartialEq, Eq)]
pub struct Run {
    pub setup: Setup,
    pub clock: u64,
    pub idle: u64,
    /// How much of the head's slice is used. 0 under priority.
    pub used: u64,
    /// The open tasks of round robin, the head first. Empty under priority.
    pub queue: Vec<usize>,
    pub owed: Vec<u64>,
    pub given: Vec<u64>,
    pub done: Vec<Option<u64>>,
}

/// "A fresh run has clock 0, nothing open, nothing given, and no task has a completion."
fn fresh(setup: &Setup) -> Run {
    let count = setup.count as usize;
    Run {
        setup: setup.clone(),
        clock: 0,
        idle: 0,
        used: 0,
        queue: Vec::new(),
        owed: vec![0; count],
        given: vec![0; count],
        done: vec![None; count],
    }
}

// ---- The tick-by-tick rule

impl Run {
    fn is_round_robin(&self) -> bool {
        self.setup.policy == 2
    }

    fn is_open(&self, task: usize) -> bool {
        self.owed[task] > 0
    }

    fn nothing_open(&self) -> bool {
        self.owed.iter().all(|&owed| owed == 0)
    }

    /// "The open task with the greatest priority number; among equals, the smaller task number."
    fn greatest(&self) -> usize {
        let mut chosen = None;
        for task in 0..self.owed.len() {
            if self.is_open(task) {
                match chosen {
                    Some(best) if self.setup.priorities[task] <= self.setup.priorities[best] => {}
                    _ => chosen = Some(task),
                }
            }
        }
        chosen.expect("a task is open")
    }

    /// "If the used count equals the slice length, the head moves to the back and the count becomes 0."
    fn head(&mut self) -> usize {
        if self.used == self.setup.slice as u64 {
            let head = self.queue.remove(0);
            self.queue.push(head);
            self.used = 0;
        }
        self.queue[0]
    }

    fn tick(&mut self) {
        if self.nothing_open() {
            self.clock += 1;
            self.idle += 1;
            return;
        }
        let task = if self.is_round_robin() { self.head() } else { self.greatest() };
        self.clock += 1;
        self.owed[task] -= 1;
        self.given[task] += 1;
        if self.is_round_robin() {
            self.used += 1;
        }
        if self.owed[task] == 0 {
            self.done[task] = Some(self.clock);
            if self.is_round_robin() {
                self.queue.remove(0);
                self.used = 0;
            }
        }
    }

    fn move_to(&mut self, time: u64) {
        while self.clock < time {
            if self.nothing_open() {
                self.idle += time - self.clock;
                self.clock = time;
            } else {
                self.tick();
            }
        }
    }
}

// ---- Calls and readings

fn judge_time(run: &Run, time: u32) -> Result<(), u32> {
    if time > LAST_TIME {
        return Err(10);
    }
    if u64::from(time) < run.clock {
        return Err(11);
    }
    Ok(())
}

fn judge_task(run: &Run, task: u32) -> Result<usize, u32> {
    if task >= run.setup.count {
        return Err(12);
    }
    Ok(task as usize)
}

fn narrow(number: u64) -> u32 {
    u32::try_from(number).expect("a reading fits 32 bits")
}

impl Replay for Oracle {
    type Run = Run;

    fn setup(&self, setup: &Setup) -> Result<Run, u32> {
        judge_setup(setup)?;
        Ok(fresh(setup))
    }

    fn request(&self, run: &mut Run, row: Row) -> Result<(), u32> {
        judge_time(run, row.time)?;
        let task = judge_task(run, row.task)?;
        if row.amount == 0 || row.amount > MOST_AMOUNT {
            return Err(13);
        }
        let mut moved = run.clone();
        moved.move_to(u64::from(row.time));
        if moved.is_open(task) {
            return Err(14);
        }
        moved.owed[task] = u64::from(row.amount);
        if moved.is_round_robin() {
            moved.queue.push(task);
        }
        *run = moved;
        Ok(())
    }

    fn advance(&self, run: &mut Run, time: u32) -> Result<(), u32> {
        judge_time(run, time)?;
        run.move_to(u64::from(time));
        Ok(())
    }

    fn drain(&self, run: &mut Run) -> Result<(), u32> {
        while !run.nothing_open() {
            run.tick();
        }
        Ok(())
    }

    fn clock(&self, run: &Run) -> u32 {
        narrow(run.clock)
    }

    fn total_owed(&self, run: &Run) -> u32 {
        narrow(run.owed.iter().sum())
    }

    fn idle(&self, run: &Run) -> u32 {
        narrow(run.idle)
    }

    fn owed(&self, run: &Run, task: u32) -> Result<u32, u32> {
        Ok(narrow(run.owed[judge_task(run, task)?]))
    }

    fn given(&self, run: &Run, task: u32) -> Result<u32, u32> {
        Ok(narrow(run.given[judge_task(run, task)?]))
    }

    fn completed(&self, run: &Run, task: u32) -> Result<Option<u32>, u32> {
        Ok(run.done[judge_task(run, task)?].map(narrow))
    }

    fn next(&self, run: &Run) -> Option<(u32, u32)> {
        if run.nothing_open() {
            return None;
        }
        let mut ahead = run.clone();
        loop {
            ahead.tick();
            let mut tasks = 0..run.owed.len();
            if let Some(task) = tasks.find(|&task| run.is_open(task) && !ahead.is_open(task)) {
                return Some((task as u32, narrow(ahead.clock)));
            }
        }
    }

    fn table(&self, setup: &Setup, columns: Columns, result: &mut [u32]) -> Result<u32, Refusal> {
        let (completions, end) = table(setup, columns, result.len())?;
        result[..completions.len()].copy_from_slice(&completions);
        Ok(end)
    }

    fn judge(&self, log: &[u8]) -> Result<u32, Refusal> {
        Ok(read_log(log)?.rows.len() as u32)
    }

    fn report(&self, log: &[u8]) -> Vec<u8> {
        printed(log).into_bytes()
    }
}

// ---- Tables

/// The completions and the end, for a result column of `room` entries.
fn table(setup: &Setup, columns: Columns, room: usize) -> Result<(Vec<u32>, u32), Refusal> {
    judge_setup(setup).map_err(Refusal::alone)?;
    let length = columns.times.len();
    if columns.tasks.len() != length || columns.amounts.len() != length {
        return Err(Refusal::alone(20));
    }
    if length > MOST_ROWS {
        return Err(Refusal::alone(21));
    }
    if room < length {
        return Err(Refusal::alone(22));
    }
    let mut run = fresh(setup);
    let mut completions = vec![0; length];
    // A task's latest row. It is done before the task's next row, and a new request keeps the completion.
    let mut latest: Vec<Option<usize>> = vec![None; setup.count as usize];
    let note = |completions: &mut Vec<u32>, run: &Run, task: usize, row: usize| {
        completions[row] = narrow(run.done[task].expect("the row is done"));
    };
    for i in 0..length {
        let row = Row { time: columns.times[i], task: columns.tasks[i], amount: columns.amounts[i] };
        Oracle.request(&mut run, row).map_err(|number| Refusal::at(number, i + 1))?;
        let task = row.task as usize;
        if let Some(before) = latest[task].replace(i) {
            note(&mut completions, &run, task, before);
        }
    }
    Oracle.drain(&mut run).expect("a drain is never refused");
    for (task, row) in latest.iter().enumerate() {
        if let Some(row) = *row {
            note(&mut completions, &run, task, row);
        }
    }
    Ok((completions, narrow(run.clock)))
}

// ---- The desk's log form

/// What a log that is not refused says.
#[derive(Clone, Debug, PartialEq, Eq)]
pub struct Log {
    pub setup: Setup,
    pub rows: Vec<Row>,
}

fn word(bytes: &[u8], number: usize) -> u32 {
    let at = 4 * number;
    u32::from_le_bytes([bytes[at], bytes[at + 1], bytes[at + 2], bytes[at + 3]])
}

/// "The sum of the first 127 words of the block plus 1, modulo 4,294,967,296."
pub fn check_of(block: &[u8]) -> u32 {
    let sum: u64 = (0..127).map(|number| u64::from(word(block, number))).sum();
    ((sum + 1) % 4_294_967_296) as u32
}

fn all_zero(bytes: &[u8]) -> bool {
    bytes.iter().all(|&byte| byte == 0)
}

/// Judges the whole log, then says what it holds.
pub fn read_log(log: &[u8]) -> Result<Log, Refusal> {
    if log.is_empty() || log.len() % BLOCK != 0 || log.len() > BLOCK * MOST_BLOCKS {
        return Err(Refusal::alone(30));
    }
    let blocks: Vec<&[u8]> = log.chunks(BLOCK).collect();
    let mut setup = None;
    let mut rows = Vec::new();
    for (place, block) in blocks.iter().enumerate() {
        if word(block, 127) != check_of(block) {
            return Err(Refusal::at(31, place));
        }
        if word(block, 0) != place as u32 {
            return Err(Refusal::at(32, place));
        }
        if place == 0 {
            if !all_zero(&block[48..508]) {
                return Err(Refusal::at(33, place));
            }
            let found = Setup {
                policy: word(block, 1),
                count: word(block, 2),
                slice: word(block, 3),
                priorities: block[16..48].to_vec(),
            };
            judge_setup(&found).map_err(Refusal::alone)?;
            setup = Some(found);
        } else {
            let count = word(block, 1) as usize;
            let last = place == blocks.len() - 1;
            let breach = count < 1
                || count > BLOCK_RECORDS
                || !all_zero(&block[8 + 12 * count..508])
                || (!last && count != BLOCK_RECORDS)
                || rows.len() + count > MOST_ROWS;
            if breach {
                return Err(Refusal::at(33, place));
            }
            for record in block[8..8 + 12 * count].chunks(12) {
                rows.push(Row { time: word(record, 0), task: word(record, 1), amount: word(record, 2) });
            }
        }
    }
    Ok(Log { setup: setup.expect("block 0 is there"), rows })
}

/// The used records of a numbered record block, as a stretch of the log.
pub fn record_block(log: &[u8], block: u32) -> Result<Range<usize>, Refusal> {
    read_log(log)?;
    let blocks = (log.len() / BLOCK) as u64;
    if block == 0 || u64::from(block) >= blocks {
        return Err(Refusal::alone(34));
    }
    let start = BLOCK * block as usize;
    let count = word(&log[start..], 1) as usize;
    Ok(start + 8..start + 8 + 12 * count)
}

// ---- The printing program

fn replayed(log: &[u8]) -> Result<String, Refusal> {
    let log = read_log(log)?;
    let times: Vec<u32> = log.rows.iter().map(|row| row.time).collect();
    let tasks: Vec<u32> = log.rows.iter().map(|row| row.task).collect();
    let amounts: Vec<u32> = log.rows.iter().map(|row| row.amount).collect();
    let columns = Columns { times: &times, tasks: &tasks, amounts: &amounts };
    let (completions, end) = table(&log.setup, columns, log.rows.len())?;
    let mut text = String::from("row task asked amount done\n");
    for (i, row) in log.rows.iter().enumerate() {
        text += &format!("{} {} {} {} {}\n", i + 1, row.task, row.time, row.amount, completions[i]);
    }
    text += &format!("end {end}\n");
    Ok(text)
}

/// All that the printing program prints for this input.
pub fn printed(log: &[u8]) -> String {
    replayed(log).unwrap_or_else(|refusal| format!("refused {} at {}\n", refusal.number, refusal.place))
}
