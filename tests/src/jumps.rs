//! A second replay that goes from change to change, for amounts at which the oracle is too slow.
//!
//! It differs from the oracle in every part: given and idle ticks come from what was asked, the served task from an
//! ordered set or a ring, the next completion under round robin from counting turns, a row's completion from an event,
//! and a log's refusal from the list of all its faults.

use crate::{Columns, Refusal, Replay, Row, Setup, BLOCK, LAST_TIME, MOST_AMOUNT, MOST_ROWS};
use std::cmp::Reverse;
use std::collections::{BTreeSet, VecDeque};

pub struct Jumps;

#[derive(Clone, Debug, PartialEq, Eq)]
enum Line {
    /// The open tasks of priority, the one to be served first.
    Ranked(BTreeSet<(Reverse<u8>, u32)>),
    /// The open tasks of round robin with the ticks left of the head's slice.
    Turns { queue: VecDeque<u32>, left: u32 },
}

#[derive(Clone, Debug, PartialEq, Eq)]
pub struct Run {
    setup: Setup,
    clock: u32,
    line: Line,
    asked: [u64; 32],
    owed: [u32; 32],
    done: [Option<u32>; 32],
}

fn first_of(list: &[(bool, u32)]) -> Result<(), u32> {
    match list.iter().find(|(holds, _)| *holds) {
        Some(&(_, number)) => Err(number),
        None => Ok(()),
    }
}

fn judge_setup(setup: &Setup) -> Result<(), u32> {
    let priority = setup.policy == 1;
    let (least, most) = if priority { (0, 0) } else { (1, 65_535) };
    let counted = if priority { setup.count as usize } else { 0 };
    let past_zero = setup.priorities.iter().skip(counted).all(|&byte| byte == 0);
    first_of(&[
        (!matches!(setup.policy, 1 | 2), 1),
        (!matches!(setup.count, 1..=32), 2),
        (setup.slice < least || setup.slice > most, 3),
        (setup.priorities.len() != 32 || !past_zero, 4),
    ])
}

impl Run {
    fn fresh(setup: &Setup) -> Run {
        let line = match setup.policy {
            1 => Line::Ranked(BTreeSet::new()),
            _ => Line::Turns { queue: VecDeque::new(), left: setup.slice },
        };
        Run { setup: setup.clone(), clock: 0, line, asked: [0; 32], owed: [0; 32], done: [None; 32] }
    }

    /// The served task and the ticks it can have without a change, once the head has moved back if its slice is used.
    fn served(&mut self) -> Option<(u32, u32)> {
        match &mut self.line {
            Line::Ranked(open) => open.first().map(|&(_, task)| (task, self.owed[task as usize])),
            Line::Turns { queue, left } => {
                if *left == 0 {
                    queue.rotate_left(1);
                    *left = self.setup.slice;
                }
                queue.front().map(|&task| (task, self.owed[task as usize].min(*left)))
            }
        }
    }

    /// Moves the clock to `time`, or with `None` until nothing is open; tells each completion.
    fn go(&mut self, time: Option<u32>, mut tell: impl FnMut(u32, u32)) {
        while time.is_none_or(|time| self.clock < time) {
            let Some((task, most)) = self.served() else {
                self.clock = time.unwrap_or(self.clock);
                return;
            };
            let ticks = time.map_or(most, |time| most.min(time - self.clock));
            self.clock += ticks;
            self.owed[task as usize] -= ticks;
            let finished = self.owed[task as usize] == 0;
            if finished {
                self.done[task as usize] = Some(self.clock);
                tell(task, self.clock);
            }
            match &mut self.line {
                Line::Ranked(open) if finished => {
                    open.pop_first();
                }
                Line::Ranked(_) => {}
                Line::Turns { queue, left } if finished => {
                    queue.pop_front();
                    *left = self.setup.slice;
                }
                Line::Turns { left, .. } => *left -= ticks,
            }
        }
    }

    fn timed(&self, time: u32) -> [(bool, u32); 2] {
        [(time > LAST_TIME, 10), (time < self.clock, 11)]
    }

    fn ask(&mut self, row: Row, tell: impl FnMut(u32, u32)) -> Result<(), u32> {
        let [late, early] = self.timed(row.time);
        let amount_fits = (1..=MOST_AMOUNT).contains(&row.amount);
        first_of(&[late, early, (row.task >= self.setup.count, 12), (!amount_fits, 13)])?;
        let before = self.clone();
        self.go(Some(row.time), tell);
        let task = row.task as usize;
        if self.owed[task] != 0 {
            *self = before;
            return Err(14);
        }
        self.owed[task] = row.amount;
        self.asked[task] += u64::from(row.amount);
        match &mut self.line {
            Line::Ranked(open) => {
                open.insert((Reverse(self.setup.priorities[task]), row.task));
            }
            Line::Turns { queue, .. } => queue.push_back(row.task),
        }
        Ok(())
    }

    fn task(&self, task: u32) -> Result<usize, u32> {
        first_of(&[(task >= self.setup.count, 12)])?;
        Ok(task as usize)
    }

    fn given_to(&self, task: usize) -> u64 {
        self.asked[task] - u64::from(self.owed[task])
    }
}

/// The next completion under round robin. Until it comes the queue only turns round: a task owing n ticks needs so
/// many turns that they hold n, and the fewest turns win, then the place in the queue.
fn next_by_turns(run: &Run, queue: &VecDeque<u32>, left: u32) -> Option<(u32, u32)> {
    let slice = u64::from(run.setup.slice);
    let mut tasks: Vec<u32> = queue.iter().copied().collect();
    let mut first = u64::from(left);
    if left == 0 && !tasks.is_empty() {
        tasks.rotate_left(1);
        first = slice;
    }
    // The head may have used a part of its slice: it owes as if it had not.
    let used = |place: usize| if place == 0 { slice - first } else { 0 };
    let owes = |place: usize| u64::from(run.owed[tasks[place] as usize]) + used(place);
    let turns = |place: usize| owes(place).div_ceil(slice);
    let winner = (0..tasks.len()).min_by_key(|&place| (turns(place), place))?;
    let rounds = turns(winner);
    let others = (0..tasks.len()).filter(|&place| place != winner);
    let spent: u64 = others.map(|place| slice * if place < winner { rounds } else { rounds - 1 }).sum();
    let at = u64::from(run.clock) + spent + owes(winner) - used(0);
    Some((tasks[winner], at as u32))
}

/// All completions and the end.
fn table(setup: &Setup, columns: Columns, room: usize) -> Result<(Vec<u32>, u32), Refusal> {
    let Columns { times, tasks, amounts } = columns;
    judge_setup(setup).map_err(Refusal::alone)?;
    let unequal = times.len() != tasks.len() || tasks.len() != amounts.len();
    let lengths = [(unequal, 20), (times.len() > MOST_ROWS, 21), (times.len() > room, 22)];
    first_of(&lengths).map_err(Refusal::alone)?;
    let mut run = Run::fresh(setup);
    let mut completions = vec![0; times.len()];
    let mut row_of = [0; 32];
    for i in 0..times.len() {
        let row = Row { time: times[i], task: tasks[i], amount: amounts[i] };
        run.ask(row, |task, at| completions[row_of[task as usize]] = at)
            .map_err(|number| Refusal::at(number, i + 1))?;
        row_of[row.task as usize] = i;
    }
    run.go(None, |task, at| completions[row_of[task as usize]] = at);
    Ok((completions, run.clock))
}

// ---- Logs

fn words(block: &[u8]) -> Vec<u32> {
    block.chunks(4).map(|four| four.iter().rev().fold(0, |word, &byte| word << 8 | u32::from(byte))).collect()
}

/// Every fault of the log, in the order in which the document looks for them.
fn faults(log: &[u8]) -> Vec<Refusal> {
    let blocks: Vec<Vec<u32>> = log.chunks(BLOCK).map(words).collect();
    let mut faults = Vec::new();
    let mut total = 0u64;
    for (place, block) in blocks.iter().enumerate() {
        let mut fault = |holds: bool, number: u32| {
            if holds {
                faults.push(Refusal::at(number, place));
            }
        };
        let sum = block[..127].iter().fold(1u32, |sum, &word| sum.wrapping_add(word));
        fault(sum != block[127], 31);
        fault(block[0] as usize != place, 32);
        if place == 0 {
            fault(block[12..127].iter().any(|&word| word != 0), 33);
            if let Err(number) = judge_setup(&setup_of(log)) {
                faults.push(Refusal::alone(number));
            }
        } else {
            let count = block[1];
            total = total.saturating_add(u64::from(count));
            let unused = 2 + 3 * count.min(41) as usize;
            fault(!(1..=41).contains(&count), 33);
            fault(block[unused..127].iter().any(|&word| word != 0), 33);
            fault(place + 1 < blocks.len() && count != 41, 33);
            fault(total > 1_024, 33);
        }
    }
    faults
}

fn setup_of(log: &[u8]) -> Setup {
    let head = words(&log[..16]);
    Setup { policy: head[1], count: head[2], slice: head[3], priorities: log[16..48].to_vec() }
}

fn judge(log: &[u8]) -> Result<(), Refusal> {
    if !(1..=26).any(|blocks| log.len() == 512 * blocks) {
        return Err(Refusal::alone(30));
    }
    faults(log).first().map_or(Ok(()), |&fault| Err(fault))
}

fn columns_of(log: &[u8]) -> [Vec<u32>; 3] {
    let mut columns = [Vec::new(), Vec::new(), Vec::new()];
    for block in log.chunks(BLOCK).skip(1).map(words) {
        for (i, &word) in block[2..2 + 3 * block[1] as usize].iter().enumerate() {
            columns[i % 3].push(word);
        }
    }
    columns
}

fn report(log: &[u8]) -> Result<String, Refusal> {
    judge(log)?;
    let [times, tasks, amounts] = columns_of(log);
    let columns = Columns { times: &times, tasks: &tasks, amounts: &amounts };
    let (completions, end) = table(&setup_of(log), columns, times.len())?;
    let mut lines = vec!["row task asked amount done".to_string()];
    for i in 0..times.len() {
        let numbers = [i as u32 + 1, tasks[i], times[i], amounts[i], completions[i]];
        lines.push(numbers.map(|number| number.to_string()).join(" "));
    }
    lines.push(format!("end {end}"));
    Ok(lines.join("\n") + "\n")
}

impl Replay for Jumps {
    type Run = Run;

    fn setup(&self, setup: &Setup) -> Result<Run, u32> {
        judge_setup(setup).map(|()| Run::fresh(setup))
    }

    fn request(&self, run: &mut Run, row: Row) -> Result<(), u32> {
        run.ask(row, |_, _| ())
    }

    fn advance(&self, run: &mut Run, time: u32) -> Result<(), u32> {
        first_of(&run.timed(time))?;
        run.go(Some(time), |_, _| ());
        Ok(())
    }

    fn drain(&self, run: &mut Run) -> Result<(), u32> {
        run.go(None, |_, _| ());
        Ok(())
    }

    fn clock(&self, run: &Run) -> u32 {
        run.clock
    }

    fn total_owed(&self, run: &Run) -> u32 {
        run.owed.iter().sum()
    }

    fn idle(&self, run: &Run) -> u32 {
        let given: u64 = (0..32).map(|task| run.given_to(task)).sum();
        (u64::from(run.clock) - given) as u32
    }

    fn owed(&self, run: &Run, task: u32) -> Result<u32, u32> {
        Ok(run.owed[run.task(task)?])
    }

    fn given(&self, run: &Run, task: u32) -> Result<u32, u32> {
        Ok(run.given_to(run.task(task)?) as u32)
    }

    fn completed(&self, run: &Run, task: u32) -> Result<Option<u32>, u32> {
        Ok(run.done[run.task(task)?])
    }

    fn next(&self, run: &Run) -> Option<(u32, u32)> {
        match &run.line {
            Line::Ranked(open) => open.first().map(|&(_, task)| (task, run.clock + run.owed[task as usize])),
            Line::Turns { queue, left } => next_by_turns(run, queue, *left),
        }
    }

    fn table(&self, setup: &Setup, columns: Columns, result: &mut [u32]) -> Result<u32, Refusal> {
        let (completions, end) = table(setup, columns, result.len())?;
        result[..completions.len()].copy_from_slice(&completions);
        Ok(end)
    }

    fn judge(&self, log: &[u8]) -> Result<u32, Refusal> {
        judge(log)?;
        Ok(columns_of(log)[0].len() as u32)
    }

    fn report(&self, log: &[u8]) -> Vec<u8> {
        match report(log) {
            Ok(text) => text.into_bytes(),
            Err(Refusal { number, place }) => format!("refused {number} at {place}\n").into_bytes(),
        }
    }
}
