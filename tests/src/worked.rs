//! The runs worked by hand in document 01, and those that tell readings of it apart, as numbers and not as programs.

use crate::{rows, Refusal, Row, Setup, LAST_TIME};

/// A table worked by hand: the completions with the end, or the refusal.
#[derive(Clone, Debug)]
pub struct Worked {
    /// The name of its vector.
    pub name: String,
    pub setup: Setup,
    pub rows: Vec<Row>,
    pub outcome: Result<(Vec<u32>, u32), Refusal>,
    pub idle: u32,
    /// Where the numbers come from.
    pub source: &'static str,
}

const PAPER: &str = "document 01, runs worked by hand";
const HAND: &str = "by hand from document 01's rule";

/// The setups for a run that "holds under both" policies.
pub fn both(count: u32) -> Vec<(&'static str, Setup)> {
    let rising: Vec<u8> = (0..count as u8).collect();
    let falling: Vec<u8> = rising.iter().rev().copied().collect();
    vec![
        ("priority", Setup::priority(&vec![5; count as usize])),
        ("priority_rising", Setup::priority(&rising)),
        ("priority_falling", Setup::priority(&falling)),
        ("robin", Setup::round_robin(count, 1)),
        ("robin_slice_2", Setup::round_robin(count, 2)),
        ("robin_slice_3", Setup::round_robin(count, 3)),
        ("robin_slice_65535", Setup::round_robin(count, 65_535)),
    ]
}

struct List(Vec<Worked>);

impl List {
    fn done(
        &mut self,
        name: &str,
        setup: Setup,
        table: &[(u32, u32, u32)],
        done: &[u32],
        idle: u32,
        source: &'static str,
    ) {
        let end = done.iter().copied().max().unwrap_or(0);
        let outcome = Ok((done.to_vec(), end));
        self.0.push(Worked { name: name.into(), setup, rows: rows(table), outcome, idle, source });
    }

    fn refused(
        &mut self,
        name: &str,
        setup: Setup,
        table: &[(u32, u32, u32)],
        number: u32,
        row: u32,
        source: &'static str,
    ) {
        let outcome = Err(Refusal { number, place: row });
        self.0.push(Worked { name: name.into(), setup, rows: rows(table), outcome, idle: 0, source });
    }
}

/// All worked tables.
pub fn worked() -> Vec<Worked> {
    let mut list = List(Vec::new());
    let robin = Setup::round_robin;
    let five_two = [(0, 0, 5), (2, 1, 2)];
    list.done("case_a", robin(2, 1), &five_two, &[7, 5], 0, PAPER);
    list.done("case_b", Setup::priority(&[0, 1]), &five_two, &[7, 4], 0, PAPER);
    list.done("case_c", robin(2, 2), &five_two, &[7, 4], 0, PAPER);
    list.done("case_d", robin(2, 3), &five_two, &[7, 5], 0, PAPER);
    for (name, priorities) in [("case_e", [0, 0]), ("case_e_255", [255, 255])] {
        list.done(name, Setup::priority(&priorities), &[(0, 1, 3), (1, 0, 2)], &[5, 3], 0, PAPER);
    }
    list.done("case_f", robin(1, 1), &[(0, 0, 1), (10, 0, 2)], &[1, 12], 9, PAPER);
    list.done("case_g", robin(3, 1), &[(0, 0, 1), (0, 1, 2), (0, 2, 1)], &[1, 4, 3], 0, PAPER);
    list.done("case_h", robin(2, 3), &[(0, 0, 4), (0, 1, 3)], &[7, 6], 0, PAPER);
    for (policy, setup) in both(1) {
        let name = |case: &str| format!("{case}_{policy}");
        list.refused(&name("case_i"), setup.clone(), &[(0, 0, 2), (1, 0, 1)], 14, 2, PAPER);
        list.done(&name("case_j"), setup.clone(), &[(0, 0, 2), (2, 0, 1)], &[2, 3], 0, PAPER);
        list.refused(&name("case_k_missing"), setup.clone(), &[(5, 0, 1), (4, 1, 1)], 11, 2, PAPER);
        list.done(&name("case_l"), setup.clone(), &[], &[], 0, PAPER);
        list.done(&name("amount_1000000"), setup.clone(), &[(0, 0, 1_000_000)], &[1_000_000], 0, PAPER);
        list.refused(&name("amount_0"), setup.clone(), &[(0, 0, 0)], 13, 1, PAPER);
        list.refused(&name("amount_1000001"), setup.clone(), &[(0, 0, 1_000_001)], 13, 1, PAPER);
        list.done(&name("time_last"), setup.clone(), &[(LAST_TIME, 0, 1)], &[4_000_000_001], LAST_TIME, PAPER);
        list.refused(&name("time_past_last"), setup, &[(4_000_000_001, 0, 1)], 10, 1, PAPER);
    }
    for (policy, setup) in both(2) {
        list.refused(&format!("case_k_{policy}"), setup, &[(5, 0, 1), (4, 1, 1)], 11, 2, PAPER);
    }
    list.done("slice_ends_at_completion", robin(3, 3), &[(0, 0, 2), (0, 1, 4), (0, 2, 3)], &[2, 9, 8], 0, HAND);
    list.done("lone_task_slice_restarts", robin(2, 2), &[(0, 0, 9), (3, 1, 3)], &[12, 9], 0, HAND);
    list.done("joins_as_round_ends", robin(3, 1), &[(0, 0, 5), (0, 1, 5), (4, 2, 1)], &[10, 11, 6], 0, HAND);
    list.refused("first_refused_row_decides", robin(1, 1), &[(0, 0, 1), (0, 0, 0), (LAST_TIME + 1, 0, 1)], 13, 2, HAND);
    list.refused("order_in_a_row", robin(1, 1), &[(9, 0, 1), (LAST_TIME + 1, 7, 0)], 10, 2, HAND);
    list.refused("task_before_amount", robin(1, 1), &[(0, 1, 0)], 12, 1, HAND);
    list.refused("amount_before_open", robin(1, 1), &[(0, 0, 9), (1, 0, 0)], 13, 2, HAND);
    list.0
}
