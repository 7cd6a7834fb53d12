//! The published round robin, figure 8 of document 000, beside the rule: it misses its own worked example, and most tables.

use anduri_tests::gen::{table_case, Random, Size, TableCase};
use anduri_tests::jumps::Jumps;
use anduri_tests::{rows, Columns, Replay, Row, Setup};
use std::collections::VecDeque;

/// `Scheduler` and `RoundRobin` of figure 8. Wakes of one instant go by task number, and before requests.
#[derive(Default)]
struct Figure8 {
    tasks: VecDeque<usize>,
    remaining: [u32; 32],
    last_time: u32,
}

impl Figure8 {
    fn update(&mut self, now: u32, time_slice: u32) {
        let mut time_to_consume = now - self.last_time;
        while time_to_consume > 0 {
            let Some(task) = self.tasks.pop_front() else { break };
            let step_time = time_slice.min(time_to_consume).min(self.remaining[task]);
            self.remaining[task] -= step_time;
            if self.remaining[task] > 0 {
                self.tasks.push_back(task);
            }
            time_to_consume -= step_time;
        }
        self.last_time = now;
    }
}

/// When each row's `consume` comes back; nothing where a task is asked again before that.
fn consumed(slice: u32, rows: &[Row]) -> Option<Vec<u32>> {
    let mut scheduler = Figure8::default();
    let mut waits: [Option<(u32, usize)>; 32] = [None; 32];
    let mut done = vec![0; rows.len()];
    let mut next = 0;
    loop {
        let wake = (0..32).filter_map(|task| waits[task].map(|(time, row)| (time, task, row))).min();
        match wake {
            Some((time, task, row)) if next == rows.len() || time <= rows[next].time => {
                scheduler.update(time, slice);
                let left = scheduler.remaining[task];
                waits[task] = Some((time + left, row)).filter(|_| left > 0);
                done[row] = time;
            }
            _ if next == rows.len() => return Some(done),
            _ => {
                let Row { time, task, amount } = rows[next];
                let task = task as usize;
                scheduler.update(time, slice);
                if waits[task].is_some() {
                    return None;
                }
                scheduler.tasks.push_back(task);
                scheduler.remaining[task] = amount;
                waits[task] = Some((time + amount, next));
                next += 1;
            }
        }
    }
}

/// The slice, the rows and their completions, where the table is taken under round robin and has several rows.
fn taken(case: &TableCase) -> Option<(u32, Vec<Row>, Vec<u32>)> {
    let columns = Columns { times: &case.times, tasks: &case.tasks, amounts: &case.amounts };
    let mut result = vec![0; case.room];
    let several = case.setup.policy == 2 && case.times.len() > 1;
    Jumps.table(&case.setup, columns, &mut result).ok().filter(|_| several)?;
    let row = |i: usize| Row { time: case.times[i], task: case.tasks[i], amount: case.amounts[i] };
    let rows: Vec<Row> = (0..case.times.len()).map(row).collect();
    result.truncate(rows.len());
    Some((case.setup.slice, rows, result))
}

/// "figure 10: done at 5 and 7"; figure 8's code says 6 and 7.
#[test]
fn its_own_example_comes_out_wrong() {
    let case_a = rows(&[(0, 0, 5), (2, 1, 2)]);
    assert_eq!(consumed(1, &case_a), Some(vec![7, 6]));
    let case = TableCase::of(&Setup::round_robin(2, 1), &case_a);
    assert_eq!(taken(&case).unwrap().2, [7, 5]);
}

/// README.md tells the figure.
#[test]
fn most_drawn_tables_come_out_wrong() {
    let drawn = (1..).map(|seed| table_case(&mut Random::new(seed), Size::Small, 30));
    let cases = drawn.filter_map(|case| taken(&case)).take(1_000);
    let wrong = cases.filter(|(slice, rows, done)| consumed(*slice, rows).as_ref() != Some(done)).count();
    assert_eq!(wrong, 735, "of 1,000 tables");
}
