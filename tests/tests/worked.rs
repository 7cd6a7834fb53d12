//! The runs worked by hand, and every reading of document 01 that a short run tells apart, on each replay.

use anduri_tests::compare::{self, readings};
use anduri_tests::gen::{damage, log_of, CallCase, Damage, TableCase};
use anduri_tests::oracle::{self, record_block, Oracle};
use anduri_tests::vectors::{damaged, single_ticks, whole_log};
use anduri_tests::worked::{both, worked};
use anduri_tests::{rows, Call, Columns, Refusal, Replay, Row, Setup, LAST_TIME};

const MARK: u32 = 0xA5A5_A5A5;

/// The table's answer with its result column, which is one entry longer than the rows.
fn table<R: Replay>(replay: &R, setup: &Setup, rows: &[Row]) -> (Result<u32, Refusal>, Vec<u32>) {
    let case = TableCase::of(setup, rows);
    let mut result = vec![MARK; rows.len() + 1];
    let columns = Columns { times: &case.times, tasks: &case.tasks, amounts: &case.amounts };
    (replay.table(setup, columns, &mut result), result)
}

/// The completions of a table that is taken.
fn done<R: Replay>(replay: &R, setup: &Setup, numbers: &[(u32, u32, u32)]) -> Vec<u32> {
    let (answer, mut result) = table(replay, setup, &rows(numbers));
    answer.expect("the table is taken");
    assert_eq!(result.pop(), Some(MARK));
    result
}

fn row(time: u32, task: u32, amount: u32) -> Row {
    Row { time, task, amount }
}

fn worked_runs<R: Replay>(replay: &R) {
    for run in worked() {
        let (answer, result) = table(replay, &run.setup, &run.rows);
        let mut expected = vec![MARK; run.rows.len() + 1];
        let end = run.outcome.clone().map(|(done, end)| {
            expected[..done.len()].copy_from_slice(&done);
            end
        });
        assert_eq!((answer, result), (end, expected), "{}", run.name);
        let mut state = replay.setup(&run.setup).unwrap();
        for (i, &row) in run.rows.iter().enumerate() {
            let before = readings(replay, &state);
            let refused = run.outcome.as_ref().err().filter(|refusal| refusal.place as usize == i + 1);
            assert_eq!(replay.request(&mut state, row).err(), refused.map(|refusal| refusal.number), "{}", run.name);
            if refused.is_some() {
                assert_eq!(readings(replay, &state), before, "{}: a refused request does not keep the move", run.name);
                break;
            }
        }
        replay.drain(&mut state).unwrap();
        if let Ok((_, end)) = run.outcome {
            assert_eq!((replay.clock(&state), replay.idle(&state)), (end, run.idle), "{}", run.name);
        }
    }
}

fn setups<R: Replay>(replay: &R) {
    let judged = |policy, count, slice, priorities: &[u8]| {
        replay.setup(&Setup { policy, count, slice, priorities: priorities.to_vec() }).err().unwrap_or(0)
    };
    let zero = [0; 32];
    let byte = |at: usize| std::array::from_fn::<u8, 32, _>(|i| u8::from(i == at));
    for (policy, number) in [(0, 1), (1, 0), (2, 3), (3, 1), (u32::MAX, 1)] {
        assert_eq!(judged(policy, 1, 0, &zero), number, "policy {policy}");
    }
    for (count, number) in [(0, 2), (1, 0), (32, 0), (33, 2), (u32::MAX, 2)] {
        assert_eq!(judged(1, count, 0, &zero), number, "count {count}");
        assert_eq!(judged(2, count, 1, &zero), number, "count {count}");
    }
    for (slice, number) in [(0, 3), (1, 0), (65_535, 0), (65_536, 3), (u32::MAX, 3)] {
        assert_eq!(judged(2, 1, slice, &zero), number, "slice {slice}");
        assert_eq!(judged(1, 1, slice, &zero), if slice == 0 { 0 } else { 3 }, "slice {slice} under priority");
    }
    // Bytes at and past the count are 0 under priority, all under round robin.
    for at in 0..32 {
        assert_eq!(judged(1, 7, 0, &byte(at)), if at < 7 { 0 } else { 4 }, "byte {at}, count 7");
        assert_eq!(judged(1, 32, 0, &byte(at)), 0, "byte {at}, count 32");
        assert_eq!(judged(2, 32, 1, &byte(at)), 4, "byte {at}, round robin");
    }
    // The length comes after 1, 2 and 3.
    for length in [0, 1, 31, 33, 64] {
        let bytes = vec![0; length];
        assert_eq!(judged(2, 1, 0, &bytes), 3);
        assert_eq!(judged(2, 1, 1, &bytes), 4);
        assert_eq!(judged(1, 32, 0, &bytes), 4);
    }
    assert_eq!(judged(3, 0, 9, &[1]), 1);
    assert_eq!(judged(2, 0, 0, &[1]), 2);
}

fn runs_and_readings<R: Replay>(replay: &R) {
    let robin = Setup::round_robin;
    // A refused setup makes nothing and changes nothing.
    let mut run = replay.setup(&robin(1, 1)).unwrap();
    replay.request(&mut run, row(0, 0, 2)).unwrap();
    assert!(replay.setup(&robin(0, 1)).is_err());
    assert_eq!(replay.request(&mut run, row(1, 0, 1)), Err(14));
    assert_eq!(replay.request(&mut run, row(2, 0, 1)), Ok(()));
    assert_eq!(replay.given(&run, 0), Ok(2));

    // A fresh run.
    for setup in [robin(3, 2), Setup::priority(&[1, 2, 3])] {
        let fresh = readings(replay, &replay.setup(&setup).unwrap());
        assert_eq!((fresh.clock, fresh.total_owed, fresh.idle, fresh.next), (0, 0, 0, None));
        for entry in &fresh.tasks {
            let expected = if entry.task < 3 { (Ok(0), Ok(0), Ok(None)) } else { (Err(12), Err(12), Err(12)) };
            assert_eq!((entry.owed, entry.given, entry.completed), expected, "task {}", entry.task);
        }
    }

    // Drained as far as it goes, every timed call is refused by 10 or 11.
    for setup in [robin(32, 1_000), Setup::priority(&[9; 32])] {
        let mut run = replay.setup(&setup).unwrap();
        for task in 0..32 {
            replay.request(&mut run, row(LAST_TIME, task, 1_000_000)).unwrap();
        }
        assert_eq!(replay.total_owed(&run), 32_000_000);
        for _ in 0..2 {
            replay.drain(&mut run).unwrap();
            assert_eq!((replay.clock(&run), replay.idle(&run)), (4_032_000_000, LAST_TIME));
        }
        for (time, number) in [(4_032_000_000, 10), (4_000_000_001, 10), (4_000_000_000, 11), (0, 11), (u32::MAX, 10)] {
            assert_eq!(replay.advance(&mut run, time), Err(number), "advance {time}");
            assert_eq!(replay.request(&mut run, row(time, 99, 0)), Err(number), "request at {time}");
        }
        assert_eq!(replay.clock(&run), 4_032_000_000);
    }

    // An advance to the clock changes nothing, also where the head's slice is used up.
    let mut run = replay.setup(&robin(2, 1)).unwrap();
    replay.request(&mut run, row(0, 0, 5)).unwrap();
    for _ in 0..3 {
        replay.advance(&mut run, 2).unwrap();
    }
    replay.request(&mut run, row(2, 1, 2)).unwrap();
    replay.drain(&mut run).unwrap();
    assert_eq!((replay.completed(&run, 0), replay.completed(&run, 1)), (Ok(Some(7)), Ok(Some(5))));

    // Run H with an advance to 2 before the drain, and to every other time.
    for time in 0..=7 {
        let mut run = replay.setup(&robin(2, 3)).unwrap();
        replay.request(&mut run, row(0, 0, 4)).unwrap();
        replay.request(&mut run, row(0, 1, 3)).unwrap();
        replay.advance(&mut run, time).unwrap();
        replay.drain(&mut run).unwrap();
        assert_eq!(
            (replay.completed(&run, 0), replay.completed(&run, 1)),
            (Ok(Some(7)), Ok(Some(6))),
            "advance {time}"
        );
    }

    // The next reading ignores the last time.
    for (_, setup) in both(1) {
        let mut run = replay.setup(&setup).unwrap();
        replay.request(&mut run, row(LAST_TIME, 0, 1)).unwrap();
        assert_eq!(replay.next(&run), Some((0, 4_000_000_001)));
    }

    // I as calls; the clock stays 0.
    for (_, setup) in both(1) {
        let mut run = replay.setup(&setup).unwrap();
        replay.request(&mut run, row(0, 0, 2)).unwrap();
        assert_eq!(replay.request(&mut run, row(1, 0, 1)), Err(14));
        assert_eq!((replay.clock(&run), replay.given(&run, 0), replay.owed(&run, 0)), (0, Ok(0), Ok(2)));
    }

    // A new request does not erase the latest completion.
    let mut run = replay.setup(&robin(1, 1)).unwrap();
    replay.request(&mut run, row(0, 0, 1)).unwrap();
    replay.request(&mut run, row(10, 0, 2)).unwrap();
    assert_eq!((replay.completed(&run, 0), replay.idle(&run), replay.next(&run)), (Ok(Some(1)), 9, Some((0, 12))));

    // The smaller number takes the processor at once from an equal.
    let mut run = replay.setup(&Setup::priority(&[0, 0])).unwrap();
    replay.request(&mut run, row(0, 1, 3)).unwrap();
    replay.request(&mut run, row(1, 0, 2)).unwrap();
    replay.advance(&mut run, 2).unwrap();
    assert_eq!((replay.given(&run, 0), replay.given(&run, 1), replay.next(&run)), (Ok(1), Ok(1), Some((0, 3))));
}

fn tables<R: Replay>(replay: &R) {
    let robin = Setup::round_robin(1, 1);
    let long = vec![0; 1_025];
    let ones = vec![1; 1_025];
    let times: Vec<u32> = (0..1_025).collect();
    let refused = |setup: &Setup, lengths: [usize; 3], room: usize, number: u32, place: u32| {
        let mut result = vec![MARK; room];
        let columns = Columns { times: &times[..lengths[0]], tasks: &long[..lengths[1]], amounts: &ones[..lengths[2]] };
        let answer = replay.table(setup, columns, &mut result);
        assert_eq!(answer, Err(Refusal { number, place }), "{lengths:?} into {room}");
        assert!(result.iter().all(|&entry| entry == MARK), "{lengths:?} into {room}");
    };
    refused(&Setup::round_robin(0, 0), [1, 2, 3], 0, 2, 0);
    refused(&robin, [1, 0, 1], 0, 20, 0);
    refused(&robin, [1_025, 1_025, 1_024], 0, 20, 0);
    refused(&robin, [0, 0, 1], 5, 20, 0);
    refused(&robin, [1_025, 1_025, 1_025], 0, 21, 0);
    refused(&robin, [1_025, 1_025, 1_025], 2_000, 21, 0);
    refused(&robin, [1_024, 1_024, 1_024], 1_023, 22, 0);
    refused(&robin, [1, 1, 1], 0, 22, 0);
    let mut result = vec![MARK; 1_030];
    let columns = Columns { times: &times[..1_024], tasks: &long[..1_024], amounts: &ones[..1_024] };
    assert_eq!(replay.table(&robin, columns, &mut result), Ok(1_024));
    let expected: Vec<u32> = (1..=1_024).chain([MARK; 6]).collect();
    assert_eq!(result, expected);
    // 22 comes before a bad row.
    let columns = Columns { times: &[0], tasks: &[9], amounts: &[0] };
    assert_eq!(replay.table(&robin, columns, &mut []), Err(Refusal::alone(22)));
    // The row gets the completion of its own request.
    assert_eq!(done(replay, &robin, &[(0, 0, 1), (10, 0, 2)]), [1, 12]);
}

fn logs<R: Replay>(replay: &R) {
    let (setup, rows_60) = whole_log();
    let whole = log_of(&setup, &rows_60);
    assert_eq!(replay.judge(&whole), Ok(60));
    for each in damaged() {
        let mut log = whole.clone();
        for step in &each.damages {
            damage(&mut log, step);
        }
        let Refusal { number, place } = each.refusal;
        assert_eq!(replay.report(&log), format!("refused {number} at {place}\n").as_bytes(), "{}", each.name);
        // A refused row is no fault of the log.
        let expected = if number < 30 && number > 4 { Ok(()) } else { Err(each.refusal) };
        assert_eq!(replay.judge(&log).map(|_| ()), expected, "{}", each.name);
    }
    for (count, answer) in
        [(0, Ok(0)), (1, Ok(1)), (41, Ok(41)), (42, Ok(42)), (1_024, Ok(1_024)), (1_025, Err(Refusal::at(33, 25)))]
    {
        assert_eq!(replay.judge(&log_of(&setup, &single_ticks(count))), answer, "{count} records");
    }
    assert_eq!(replay.judge(&log_of(&setup, &single_ticks(1_026))), Err(Refusal::alone(30)));
    // The refused line stands alone, and a log without rows prints the header and the end.
    assert_eq!(replay.report(&log_of(&setup, &[])), b"row task asked amount done\nend 0\n");
    let case_a = log_of(&Setup::round_robin(2, 1), &rows(&[(0, 0, 5), (2, 1, 2)]));
    assert_eq!(case_a.len(), 1_024);
    assert_eq!(replay.report(&case_a), b"row task asked amount done\n1 0 0 5 7\n2 1 2 2 5\nend 7\n");
    assert_eq!(replay.report(&[]), b"refused 30 at 0\n");
    assert_eq!(replay.report(&vec![0; 13_824]), b"refused 30 at 0\n");
    assert_eq!(replay.report(&vec![0; 512]), b"refused 31 at 0\n");
}

/// A refused call leaves the whole state as it was, not only the readings.
fn refused_calls_change_no_run<R: Replay>(replay: &R)
where
    R::Run: std::fmt::Debug + PartialEq,
{
    for setup in [Setup::round_robin(2, 2), Setup::priority(&[7, 7])] {
        let mut run = replay.setup(&setup).unwrap();
        replay.request(&mut run, row(0, 0, 9)).unwrap();
        replay.advance(&mut run, 2).unwrap();
        let before = run.clone();
        let refused = [
            (Call::Request(row(LAST_TIME + 1, 0, 1)), 10),
            (Call::Request(row(1, 0, 1)), 11),
            (Call::Request(row(3, 2, 1)), 12),
            (Call::Request(row(3, 1, 0)), 13),
            (Call::Request(row(3, 1, 1_000_001)), 13),
            (Call::Request(row(4, 0, 1)), 14),
            (Call::Request(row(8, 0, 1)), 14),
            (Call::Advance(LAST_TIME + 1), 10),
            (Call::Advance(1), 11),
        ];
        for (call, number) in refused {
            assert_eq!(replay.call(&mut run, call), Err(number), "{call:?}");
            assert_eq!(run, before, "{call:?}");
        }
        let mut calls = vec![Call::Request(row(0, 0, 9)), Call::Advance(2)];
        calls.extend(refused.map(|(call, _)| call));
        compare::calls(replay, &Oracle, &CallCase { setup, calls }).unwrap();
        // At 9 the task is done, and so not open.
        replay.request(&mut run, row(9, 0, 1)).unwrap();
        assert_ne!(run, before);
    }
}

macro_rules! each_replay {
    ($name:ident, $replay:expr) => {
        mod $name {
            #[test]
            fn worked_runs() {
                super::worked_runs(&$replay);
            }
            #[test]
            fn setups() {
                super::setups(&$replay);
            }
            #[test]
            fn runs_and_readings() {
                super::runs_and_readings(&$replay);
            }
            #[test]
            fn tables() {
                super::tables(&$replay);
            }
            #[test]
            fn logs() {
                super::logs(&$replay);
            }
            #[test]
            fn refused_calls_change_no_run() {
                super::refused_calls_change_no_run(&$replay);
            }
        }
    };
}

each_replay!(oracle_itself, anduri_tests::oracle::Oracle);
each_replay!(jumps, anduri_tests::jumps::Jumps);
#[cfg(anduri_lib)]
each_replay!(library, anduri_tests::face::Library);
#[cfg(anduri_lib)]
each_replay!(library_in_place, anduri_tests::kept::Kept);

/// The whole log is judged before 34, and the used records are a stretch of the log.
#[test]
fn oracle_record_blocks() {
    let (setup, rows_60) = whole_log();
    let mut log = log_of(&setup, &rows_60);
    assert_eq!(record_block(&log, 1), Ok(520..520 + 492));
    assert_eq!(record_block(&log, 2), Ok(1_032..1_032 + 228));
    for block in [0, 3, 25, 26, 8_388_608, u32::MAX] {
        assert_eq!(record_block(&log, block), Err(Refusal::alone(34)), "block {block}");
    }
    damage(&mut log, &Damage::Byte { block: 2, at: 508, add: 1 });
    for block in [0, 1, 3] {
        assert_eq!(record_block(&log, block), Err(Refusal::at(31, 2)), "block {block}");
    }
    assert_eq!(record_block(&[], 0), Err(Refusal::alone(30)));
}

/// One is added once.
#[test]
fn oracle_check() {
    assert_eq!(oracle::check_of(&[0; 512]), 1);
    let ones = vec![0xFF; 512];
    assert_eq!(oracle::check_of(&ones), 1u32.wrapping_sub(127));
}
