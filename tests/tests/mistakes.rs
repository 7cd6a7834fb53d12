//! The shortcuts that document 01 says go wrong, and some more: they give the wrong numbers that the document names,
//! and drawn tables find each and shrink to three rows or fewer.

use anduri_tests::gen::{table_case, Random, Size, TableCase};
use anduri_tests::jumps::Jumps;
use anduri_tests::shrink::{smallest, Case};
use anduri_tests::{rows, Columns, Replay, Row, Setup};

#[derive(Clone, Copy, Debug, PartialEq, Eq)]
enum Mistake {
    /// "Starting the slice anew at each advance", and so at each request.
    SliceAnew,
    /// "Moving the head back when its slice ends, before requests of that instant."
    HeadBackAtOnce,
    /// "Carrying the used count over to the next head when a task finishes early."
    UsedCarried,
    /// "Calling a task open at the very instant it is done."
    OpenWhenDone,
    /// "Keeping a finished task in the priority choice": it goes on to get ticks that nobody owes it.
    FinishedServed,
    /// The greater task number among equals.
    GreaterAmongEquals,
    /// The smallest priority number is served.
    SmallestServed,
    /// A task alone in the queue does not begin its slice anew.
    LoneSliceGrows,
    /// A row gets the task's latest completion.
    LatestForAllRows,
}

const ALL: [Mistake; 9] = [
    Mistake::SliceAnew,
    Mistake::HeadBackAtOnce,
    Mistake::UsedCarried,
    Mistake::OpenWhenDone,
    Mistake::FinishedServed,
    Mistake::GreaterAmongEquals,
    Mistake::SmallestServed,
    Mistake::LoneSliceGrows,
    Mistake::LatestForAllRows,
];

/// A tick-by-tick replay with the mistake: the completions, or the refused row, or 0 where it would never end.
fn wrong(mistake: Mistake, setup: &Setup, rows: &[Row]) -> Result<Vec<u32>, usize> {
    let slice = setup.slice;
    let (mut clock, mut used, mut queue) = (0, 0, Vec::<usize>::new());
    let (mut owed, mut done, mut row_of) = ([0u32; 32], [0u32; 32], [0usize; 32]);
    let mut result = vec![0; rows.len()];
    let end = Row { time: u32::MAX, task: 0, amount: 0 };
    for (i, row) in rows.iter().chain([&end]).enumerate() {
        while clock < row.time {
            if owed == [0; 32] {
                if i < rows.len() {
                    clock = row.time;
                }
                break;
            }
            if i == rows.len() && clock > rows[i - 1].time.saturating_add(2_000_000) {
                return Err(0);
            }
            if setup.policy == 2 && used >= slice && !(mistake == Mistake::LoneSliceGrows && queue.len() == 1) {
                queue.rotate_left(1);
                used = 0;
            }
            let sign = if mistake == Mistake::SmallestServed { -1 } else { 1 };
            let tie = if mistake == Mistake::GreaterAmongEquals { -1 } else { 1 };
            let rank = |task: usize| (-sign * i32::from(setup.priorities[task]), tie * task as i32);
            let place = match setup.policy {
                1 => (0..queue.len()).min_by_key(|&place| rank(queue[place])).unwrap(),
                _ => 0,
            };
            let task = queue[place];
            clock += 1;
            used += 1;
            if owed[task] == 0 {
                continue;
            }
            owed[task] -= 1;
            if owed[task] == 0 {
                if mistake != Mistake::FinishedServed || setup.policy == 2 {
                    queue.remove(place);
                }
                done[task] = clock;
                result[row_of[task]] = clock;
                if mistake != Mistake::UsedCarried {
                    used = 0;
                }
            } else if mistake == Mistake::HeadBackAtOnce && setup.policy == 2 && used == slice {
                queue.rotate_left(1);
                used = 0;
            }
        }
        if i == rows.len() {
            break;
        }
        if mistake == Mistake::SliceAnew {
            used = 0;
        }
        let task = row.task as usize;
        let open = owed[task] > 0 || (mistake == Mistake::OpenWhenDone && done[task] == row.time && row.time > 0);
        if row.time < clock || open {
            return Err(i + 1);
        }
        owed[task] = row.amount;
        row_of[task] = i;
        queue.retain(|&other| other != task);
        queue.push(task);
    }
    if mistake == Mistake::LatestForAllRows {
        for (i, row) in rows.iter().enumerate() {
            result[i] = done[row.task as usize];
        }
    }
    Ok(result)
}

fn right(case: &TableCase) -> Option<Result<Vec<u32>, usize>> {
    let columns = Columns { times: &case.times, tasks: &case.tasks, amounts: &case.amounts };
    let mut result = vec![0; case.room];
    match Jumps.table(&case.setup, columns, &mut result) {
        Ok(_) => Some(Ok(result[..case.times.len()].to_vec())),
        Err(refusal) if refusal.number == 14 || refusal.number == 11 => Some(Err(refusal.place as usize)),
        Err(_) => None,
    }
}

fn rows_of(case: &TableCase) -> Vec<Row> {
    (0..case.times.len()).map(|i| Row { time: case.times[i], task: case.tasks[i], amount: case.amounts[i] }).collect()
}

#[test]
fn documents_wrong_numbers() {
    let case_a = rows(&[(0, 0, 5), (2, 1, 2)]);
    let case_j = rows(&[(0, 0, 2), (2, 0, 1)]);
    let case_e = rows(&[(0, 1, 3), (1, 0, 2)]);
    let robin = Setup::round_robin;
    assert_eq!(wrong(Mistake::HeadBackAtOnce, &robin(2, 1), &case_a), Ok(vec![7, 6]));
    assert_eq!(wrong(Mistake::OpenWhenDone, &robin(1, 1), &case_j), Err(2));
    assert_eq!(wrong(Mistake::GreaterAmongEquals, &Setup::priority(&[0, 0]), &case_e), Ok(vec![3, 5]));
    let two = [Setup::priority(&[0, 1]), Setup::priority(&[1, 0])];
    assert_eq!(wrong(Mistake::FinishedServed, &two[0], &case_a), Err(0));
    assert_eq!(wrong(Mistake::FinishedServed, &two[1], &case_a), Err(0));
    // H with an advance to 2, for which a request of a third task stands here.
    let case_h = rows(&[(0, 0, 4), (0, 1, 3), (2, 2, 1)]);
    assert_eq!(wrong(Mistake::SliceAnew, &robin(3, 3), &case_h), Ok(vec![4, 7, 8]));
}

#[test]
fn drawn_tables_find_each() {
    for mistake in ALL {
        let differs =
            |case: &TableCase| right(case).is_some_and(|right| wrong(mistake, &case.setup, &rows_of(case)) != right);
        let mut tried = 0;
        let found = (1..=2_000).find_map(|seed| {
            tried += 1;
            let case = table_case(&mut Random::new(seed), Size::Small, 30);
            Some(case).filter(differs)
        });
        let small = smallest(&found.unwrap_or_else(|| panic!("{mistake:?} is not found")), differs);
        println!("{mistake:?}, found by table {tried}:\n{}", small.shown());
        assert!(small.times.len() <= 3, "{mistake:?} shrinks to {} rows", small.times.len());
    }
}
