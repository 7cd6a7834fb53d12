//! A failing case is made as small as it goes and printed with its seed.

use crate::gen::{CallCase, Damage, LogCase, TableCase};
use crate::{Call, Row, Setup};
use std::fmt::Write;

/// A case that can be made smaller and shown as text.
pub trait Case: Clone {
    /// Cases that are smaller by one step.
    fn smaller(&self) -> Vec<Self>;
    fn shown(&self) -> String;
}

/// Panics with the smallest failing case where the test fails.
pub fn hold<C: Case>(what: &str, seed: u64, case: &C, test: impl Fn(&C) -> Result<(), String>) {
    if let Some(failure) = failure(what, seed, case, test) {
        panic!("{failure}");
    }
}

/// Tests the case; where the test fails, tells the fault and the smallest failing case with its seed.
pub fn failure<C: Case>(what: &str, seed: u64, case: &C, test: impl Fn(&C) -> Result<(), String>) -> Option<String> {
    test(case).err()?;
    let small = smallest(case, |case| test(case).is_err());
    let fault = test(&small).expect_err("the smallest case fails");
    Some(format!("{what}: {fault}\n# seed {seed}\n{}", small.shown()))
}

/// How many cases are tried before what is reached counts as small.
const MOST_TRIED: u32 = 4_000;

/// The smallest case that still fails, reached by single steps.
pub fn smallest<C: Case>(case: &C, fails: impl Fn(&C) -> bool) -> C {
    let mut small = case.clone();
    let mut tried = 0;
    let mut still_fails = |next: &C| {
        tried += 1;
        tried <= MOST_TRIED && fails(next)
    };
    while let Some(next) = small.smaller().into_iter().find(|next| still_fails(next)) {
        small = next;
    }
    small
}

/// Smaller numbers, by ever smaller steps down: a limit is reached from far above in few of them.
fn numbers_below(number: u32) -> Vec<u32> {
    (0..32).map(|halvings| number >> halvings).take_while(|&step| step > 0).map(|step| number - step).collect()
}

fn setups_below(setup: &Setup) -> Vec<Setup> {
    let mut below = Vec::new();
    below.extend(numbers_below(setup.count).into_iter().map(|count| Setup { count, ..setup.clone() }));
    below.extend(numbers_below(setup.slice).into_iter().map(|slice| Setup { slice, ..setup.clone() }));
    for at in 0..setup.priorities.len() {
        for byte in numbers_below(u32::from(setup.priorities[at])) {
            let mut smaller = setup.clone();
            smaller.priorities[at] = byte as u8;
            below.push(smaller);
        }
    }
    below
}

fn rows_below(row: Row) -> Vec<Row> {
    let mut below = Vec::new();
    below.extend(numbers_below(row.time).into_iter().map(|time| Row { time, ..row }));
    below.extend(numbers_below(row.task).into_iter().map(|task| Row { task, ..row }));
    below.extend(numbers_below(row.amount).into_iter().map(|amount| Row { amount, ..row }));
    below
}

/// Lists with a stretch left out, longest stretches first, then with one entry made smaller. From a long list only long
/// stretches are left out, until it is short.
fn lists_below<T: Clone>(list: &[T], below: impl Fn(&T) -> Vec<T>) -> Vec<Vec<T>> {
    let mut smaller = Vec::new();
    let mut stretch = list.len();
    while stretch > list.len() / 64 {
        for start in (0..list.len()).step_by(stretch) {
            let mut rest = list[..start].to_vec();
            rest.extend_from_slice(&list[(start + stretch).min(list.len())..]);
            smaller.push(rest);
        }
        stretch /= 2;
    }
    for at in 0..if list.len() < 64 { list.len() } else { 0 } {
        for entry in below(&list[at]) {
            let mut changed = list.to_vec();
            changed[at] = entry;
            smaller.push(changed);
        }
    }
    smaller
}

/// The setup as a line; priorities that are left out are 0.
pub fn show_setup(setup: &Setup) -> String {
    let used = setup.priorities.iter().rposition(|&byte| byte != 0).map_or(0, |last| last + 1);
    let mut text = format!("setup {} {} {}", setup.policy, setup.count, setup.slice);
    if setup.priorities.len() != 32 {
        write!(text, " of {}", setup.priorities.len()).unwrap();
    }
    for byte in &setup.priorities[..used] {
        write!(text, " {byte}").unwrap();
    }
    text + "\n"
}

fn show_row(row: Row) -> String {
    format!("{} {} {}", row.time, row.task, row.amount)
}

impl Case for CallCase {
    fn smaller(&self) -> Vec<CallCase> {
        let calls_below = |call: &Call| match *call {
            Call::Request(row) => rows_below(row).into_iter().map(Call::Request).collect(),
            Call::Advance(time) => numbers_below(time).into_iter().map(Call::Advance).collect(),
            Call::Drain => Vec::new(),
        };
        let calls = lists_below(&self.calls, calls_below);
        let mut smaller: Vec<CallCase> =
            calls.into_iter().map(|calls| CallCase { setup: self.setup.clone(), calls }).collect();
        let setups = setups_below(&self.setup).into_iter();
        smaller.extend(setups.map(|setup| CallCase { setup, calls: self.calls.clone() }));
        smaller
    }

    fn shown(&self) -> String {
        let mut text = show_setup(&self.setup);
        for call in &self.calls {
            match *call {
                Call::Request(row) => writeln!(text, "request {}", show_row(row)),
                Call::Advance(time) => writeln!(text, "advance {time}"),
                Call::Drain => writeln!(text, "drain"),
            }
            .unwrap();
        }
        text
    }
}

impl Case for TableCase {
    fn smaller(&self) -> Vec<TableCase> {
        let mut smaller = Vec::new();
        let even = self.times.len() == self.tasks.len() && self.tasks.len() == self.amounts.len();
        if even {
            let rows: Vec<Row> = (0..self.times.len())
                .map(|i| Row { time: self.times[i], task: self.tasks[i], amount: self.amounts[i] })
                .collect();
            for rows in lists_below(&rows, |&row| rows_below(row)) {
                let dropped = self.times.len() - rows.len();
                let room = self.room.saturating_sub(dropped);
                smaller.push(TableCase { room, ..TableCase::of(&self.setup, &rows) });
            }
        }
        let rooms = numbers_below(self.room as u32).into_iter();
        smaller.extend(rooms.map(|room| TableCase { room: room as usize, ..self.clone() }));
        smaller.extend(setups_below(&self.setup).into_iter().map(|setup| TableCase { setup, ..self.clone() }));
        smaller
    }

    fn shown(&self) -> String {
        let mut text = show_setup(&self.setup);
        let lengths = [self.times.len(), self.tasks.len(), self.amounts.len()];
        if lengths.iter().any(|&length| length != self.room) {
            writeln!(text, "# columns of {lengths:?} entries, result of {}", self.room).unwrap();
        }
        let longest = lengths.into_iter().max().unwrap_or(0);
        let entry = |column: &[u32], i: usize| column.get(i).map_or("-".to_string(), |number| number.to_string());
        for i in 0..longest {
            let [time, task, amount] = [&self.times, &self.tasks, &self.amounts].map(|column| entry(column, i));
            writeln!(text, "{time} {task} {amount}").unwrap();
        }
        text
    }
}

impl Case for LogCase {
    fn smaller(&self) -> Vec<LogCase> {
        let mut smaller = Vec::new();
        let in_earlier_blocks = |damage: &Damage| match *damage {
            Damage::Byte { block, at, add } if block > 0 => vec![Damage::Byte { block: block / 2, at, add }],
            Damage::Word { block, word, value } if block > 0 => vec![Damage::Word { block: block / 2, word, value }],
            _ => Vec::new(),
        };
        for damages in lists_below(&self.damages, in_earlier_blocks) {
            smaller.push(LogCase { damages, ..self.clone() });
        }
        for rows in lists_below(&self.rows, |&row| rows_below(row)) {
            smaller.push(LogCase { rows, ..self.clone() });
        }
        smaller.extend(setups_below(&self.setup).into_iter().map(|setup| LogCase { setup, ..self.clone() }));
        smaller
    }

    fn shown(&self) -> String {
        let mut text = show_setup(&self.setup);
        for row in &self.rows {
            writeln!(text, "{}", show_row(*row)).unwrap();
        }
        for damage in &self.damages {
            writeln!(text, "# {damage:?}").unwrap();
        }
        text
    }
}
