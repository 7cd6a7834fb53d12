//! A step for each slice or change, plainly written to be fast: under priority a mask of the open tasks in the order of
//! their ranks, under round robin a ring of 32 places.

use crate::judge::{judge_row, judge_table};
use anduri_tests::{Columns, Refusal, Setup};

/// What the policies share: ticks are given in stretches, and a row is done when its task is owed nothing more.
struct Tasks {
    clock: u32,
    owed: [u32; 32],
    row: [u16; 32],
    done: [u32; 1_024],
}

impl Tasks {
    /// Gives the task so many ticks; says whether it is done.
    #[inline]
    fn give(&mut self, task: usize, ticks: u32) -> bool {
        self.clock += ticks;
        self.owed[task] -= ticks;
        let is_done = self.owed[task] == 0;
        if is_done {
            self.done[self.row[task] as usize & 1_023] = self.clock;
        }
        is_done
    }
}

/// Who is served. `serve` gives ticks up to `until` or to the next change, and says whether a task was open.
trait Line {
    fn join(&mut self, task: usize);
    fn serve(&mut self, tasks: &mut Tasks, until: u32) -> bool;
}

struct Ranked {
    open: u32,
    rank_of: [u8; 32],
    task_of: [u8; 32],
}

impl Ranked {
    fn new(setup: &Setup) -> Ranked {
        let mut task_of: [u8; 32] = std::array::from_fn(|task| task as u8);
        task_of.sort_by_key(|&task| (std::cmp::Reverse(setup.priorities[task as usize]), task));
        let mut rank_of = [0; 32];
        for (rank, &task) in task_of.iter().enumerate() {
            rank_of[task as usize] = rank as u8;
        }
        Ranked { open: 0, rank_of, task_of }
    }
}

impl Line for Ranked {
    fn join(&mut self, task: usize) {
        self.open |= 1 << (self.rank_of[task] & 31);
    }

    #[inline]
    fn serve(&mut self, tasks: &mut Tasks, until: u32) -> bool {
        if self.open == 0 {
            return false;
        }
        let task = self.task_of[self.open.trailing_zeros() as usize & 31] as usize & 31;
        if tasks.give(task, tasks.owed[task].min(until - tasks.clock)) {
            self.open &= self.open - 1;
        }
        true
    }
}

struct Ring {
    places: [u8; 32],
    head: usize,
    length: usize,
    slice: u32,
    left: u32,
}

impl Line for Ring {
    fn join(&mut self, task: usize) {
        self.places[(self.head + self.length) & 31] = task as u8;
        self.length += 1;
    }

    #[inline]
    fn serve(&mut self, tasks: &mut Tasks, until: u32) -> bool {
        if self.length == 0 {
            return false;
        }
        if self.left == 0 {
            self.places[(self.head + self.length) & 31] = self.places[self.head & 31];
            self.head = (self.head + 1) & 31;
            self.left = self.slice;
        }
        let task = self.places[self.head & 31] as usize & 31;
        let ticks = tasks.owed[task].min(self.left).min(until - tasks.clock);
        self.left -= ticks;
        if tasks.give(task, ticks) {
            self.head = (self.head + 1) & 31;
            self.length -= 1;
            self.left = self.slice;
        }
        true
    }
}

fn replay(count: u32, columns: Columns, result: &mut [u32], line: &mut impl Line) -> Result<u32, Refusal> {
    let Columns { times, tasks: numbers, amounts } = columns;
    let mut tasks = Tasks { clock: 0, owed: [0; 32], row: [0; 32], done: [0; 1_024] };
    let rows = times.iter().zip(numbers).zip(amounts);
    for (i, ((&time, &task), &amount)) in rows.enumerate() {
        if let Some(number) = judge_row(count, tasks.clock, time, task, amount) {
            return Err(Refusal::at(number, i + 1));
        }
        while tasks.clock < time {
            if !line.serve(&mut tasks, time) {
                tasks.clock = time;
            }
        }
        let task = task as usize & 31;
        if tasks.owed[task] != 0 {
            return Err(Refusal::at(14, i + 1));
        }
        tasks.owed[task] = amount;
        tasks.row[task] = i as u16;
        line.join(task);
    }
    while line.serve(&mut tasks, u32::MAX) {}
    result[..times.len()].copy_from_slice(&tasks.done[..times.len()]);
    Ok(tasks.clock)
}

pub fn table(setup: &Setup, columns: Columns, result: &mut [u32]) -> Result<u32, Refusal> {
    judge_table(setup, &columns, result.len())?;
    if setup.policy == 1 {
        replay(setup.count, columns, result, &mut Ranked::new(setup))
    } else {
        let mut ring = Ring { places: [0; 32], head: 0, length: 0, slice: setup.slice, left: setup.slice };
        replay(setup.count, columns, result, &mut ring)
    }
}
