//! Tick by tick, as the rule is written.

use crate::judge::{judge_row, judge_table};
use anduri_tests::{Columns, Refusal, Setup};

struct Run<'a> {
    setup: &'a Setup,
    clock: u32,
    used: u32,
    /// The open tasks in the order of their requests, turned under round robin.
    queue: Vec<u8>,
    owed: [u32; 32],
    row: [usize; 32],
    done: Vec<u32>,
}

impl Run<'_> {
    fn tick(&mut self) {
        self.clock += 1;
        if self.queue.is_empty() {
            return;
        }
        let place = if self.setup.policy == 2 {
            if self.used == self.setup.slice {
                self.queue.rotate_left(1);
                self.used = 0;
            }
            self.used += 1;
            0
        } else {
            let rank = |task: u8| (self.setup.priorities[task as usize], !task);
            (0..self.queue.len()).max_by_key(|&place| rank(self.queue[place])).unwrap()
        };
        let task = self.queue[place] as usize;
        self.owed[task] -= 1;
        if self.owed[task] == 0 {
            self.queue.remove(place);
            self.used = 0;
            self.done[self.row[task]] = self.clock;
        }
    }
}

pub fn table(setup: &Setup, columns: Columns, result: &mut [u32]) -> Result<u32, Refusal> {
    judge_table(setup, &columns, result.len())?;
    let Columns { times, tasks, amounts } = columns;
    let done = vec![0; times.len()];
    let mut run = Run { setup, clock: 0, used: 0, queue: Vec::with_capacity(32), owed: [0; 32], row: [0; 32], done };
    for i in 0..times.len() {
        let (time, task, amount) = (times[i], tasks[i], amounts[i]);
        if let Some(number) = judge_row(setup.count, run.clock, time, task, amount) {
            return Err(Refusal::at(number, i + 1));
        }
        while run.clock < time {
            run.tick();
        }
        let task = task as usize;
        if run.owed[task] > 0 {
            return Err(Refusal::at(14, i + 1));
        }
        run.owed[task] = amount;
        run.row[task] = i;
        run.queue.push(task as u8);
    }
    while !run.queue.is_empty() {
        run.tick();
    }
    result[..times.len()].copy_from_slice(&run.done);
    Ok(run.clock)
}
