//! A replay with one fault in an answer or reading: the comparison finds each, and prints a small case with its seed.

use anduri_tests::compare;
use anduri_tests::damages::every_damage;
use anduri_tests::gen::{call_case, damage, log_case, table_case, Damage, Random, Size};
use anduri_tests::jumps::{self, Jumps};
use anduri_tests::oracle::Oracle;
use anduri_tests::shrink::failure;
use anduri_tests::{Columns, Refusal, Replay, Row, Setup, BLOCK, MOST_BLOCKS};
use std::ops::Range;

macro_rules! faults {
    ($($name:ident)*) => {
        #[derive(Clone, Copy, Debug, PartialEq, Eq)]
        enum Fault {
            $($name),*
        }

        const ALL: &[Fault] = &[$(Fault::$name),*];
    };
}

faults! {
    RefusedRequestKeepsMove
    AdvanceToClockRefused
    LateAdvanceIsBefore
    DrainMovesOnWhenEmpty
    ErasesCompletion
    IdleStopsAtTwenty
    ReadsEveryTask
    NextIsFirstOpen
    RefusedTableWrites
    WritesPastRows
    RowFromZero
    LogWithoutChecks
    RecordsOfLastBlock
    BlockFromOne
    FullLogTooLong
    MostRecordsUnseen
    PlaceUnseen
    UnusedBytesUnseen
    SetupBeforeLayout
    NoLastNewline
}

struct Faulty(Fault);

impl Faulty {
    fn has(&self, fault: Fault) -> bool {
        self.0 == fault
    }
}

impl Replay for Faulty {
    type Run = jumps::Run;

    fn setup(&self, setup: &Setup) -> Result<Self::Run, u32> {
        Jumps.setup(setup)
    }

    fn request(&self, run: &mut Self::Run, row: Row) -> Result<(), u32> {
        let answer = Jumps.request(run, row);
        if answer == Err(14) && self.has(Fault::RefusedRequestKeepsMove) {
            Jumps.advance(run, row.time)?;
        }
        answer
    }

    fn advance(&self, run: &mut Self::Run, time: u32) -> Result<(), u32> {
        if self.has(Fault::AdvanceToClockRefused) && time == Jumps.clock(run) {
            return Err(11);
        }
        let answer = Jumps.advance(run, time);
        if self.has(Fault::LateAdvanceIsBefore) && time < Jumps.clock(run) {
            return Err(11);
        }
        answer
    }

    fn drain(&self, run: &mut Self::Run) -> Result<(), u32> {
        if self.has(Fault::DrainMovesOnWhenEmpty) && Jumps.next(run).is_none() {
            let _ = Jumps.advance(run, Jumps.clock(&run.clone()) + 1);
        }
        Jumps.drain(run)
    }

    fn clock(&self, run: &Self::Run) -> u32 {
        Jumps.clock(run)
    }

    fn total_owed(&self, run: &Self::Run) -> u32 {
        Jumps.total_owed(run)
    }

    fn idle(&self, run: &Self::Run) -> u32 {
        Jumps.idle(run).min(if self.has(Fault::IdleStopsAtTwenty) { 20 } else { u32::MAX })
    }

    fn owed(&self, run: &Self::Run, task: u32) -> Result<u32, u32> {
        let answer = Jumps.owed(run, task);
        if self.has(Fault::ReadsEveryTask) && task < 32 {
            return answer.or(Ok(0));
        }
        answer
    }

    fn given(&self, run: &Self::Run, task: u32) -> Result<u32, u32> {
        Jumps.given(run, task)
    }

    fn completed(&self, run: &Self::Run, task: u32) -> Result<Option<u32>, u32> {
        let open = Jumps.owed(run, task)? > 0;
        Jumps.completed(run, task).map(|at| at.filter(|_| !(open && self.has(Fault::ErasesCompletion))))
    }

    fn next(&self, run: &Self::Run) -> Option<(u32, u32)> {
        let (task, at) = Jumps.next(run)?;
        let first = (0..32).find(|&task| Jumps.owed(run, task).is_ok_and(|owed| owed > 0));
        Some((if self.has(Fault::NextIsFirstOpen) { first? } else { task }, at))
    }

    fn table(&self, setup: &Setup, columns: Columns, result: &mut [u32]) -> Result<u32, Refusal> {
        let mut answer = Jumps.table(setup, columns, result);
        if let Err(refusal) = &mut answer {
            if self.has(Fault::RefusedTableWrites) && refusal.place > 1 && !result.is_empty() {
                result[0] = 1;
            }
            if self.has(Fault::RowFromZero) {
                refusal.place = refusal.place.saturating_sub(1);
            }
        } else if self.has(Fault::WritesPastRows) && result.len() > columns.times.len() {
            result[columns.times.len()] = 0;
        }
        answer
    }

    fn judge(&self, log: &[u8]) -> Result<u32, Refusal> {
        let answer = Jumps.judge(log);
        let with = |steps: &[Damage]| {
            let mut log = log.to_vec();
            steps.iter().chain([&Damage::Repair]).for_each(|step| damage(&mut log, step));
            Jumps.judge(&log)
        };
        let zeros = |block, words: Range<usize>| -> Vec<Damage> {
            words.map(|word| Damage::Word { block, word, value: 0 }).collect()
        };
        let at = answer.err().map_or(0, |refusal| refusal.place as usize);
        match (self.0, answer) {
            (Fault::LogWithoutChecks, Err(Refusal { number: 31, .. })) => with(&[]),
            (Fault::RecordsOfLastBlock, Ok(records)) if log.len() > 2 * BLOCK => Ok(records % 41),
            (Fault::BlockFromOne, Err(Refusal { number: number @ 31..=33, .. })) => Err(Refusal::at(number, at + 1)),
            (Fault::FullLogTooLong, _) if log.len() == MOST_BLOCKS * BLOCK => Err(Refusal::alone(30)),
            (Fault::MostRecordsUnseen, Err(Refusal { number: 33, place: 25 })) => Ok(1_025),
            (Fault::PlaceUnseen, Err(Refusal { number: 32, .. })) => {
                with(&[Damage::Word { block: at, word: 0, value: at as u32 }])
            }
            (Fault::UnusedBytesUnseen, Err(Refusal { number: 33, .. })) if at > 0 => with(&zeros(at, 125..127)),
            (Fault::SetupBeforeLayout, Err(Refusal { number: 33, place: 0 })) => {
                with(&zeros(0, 12..127)).err().filter(|refusal| refusal.number < 5).map_or(answer, Err)
            }
            _ => answer,
        }
    }

    fn report(&self, log: &[u8]) -> Vec<u8> {
        let mut text = Jumps.report(log);
        if self.has(Fault::NoLastNewline) {
            text.pop();
        }
        text
    }
}

/// The first failure of the comparisons, as it is printed.
fn first_failure(fault: Fault) -> Option<String> {
    let tested = Faulty(fault);
    (1..=400).find_map(|seed| {
        let calls = call_case(&mut Random::new(seed), Size::Small, 40);
        let table = table_case(&mut Random::new(seed), Size::Small, 30);
        let log = log_case(&mut Random::new(seed));
        failure("calls", seed, &calls, |case| compare::calls(&tested, &Oracle, case))
            .or_else(|| failure("table", seed, &table, |case| compare::table(&tested, &Oracle, case)))
            .or_else(|| failure("log", seed, &log, |case| compare::log_case(&tested, &Oracle, case)))
    })
}

#[test]
fn each_is_found_and_shrunk() {
    for &fault in ALL {
        let text = first_failure(fault).unwrap_or_else(|| panic!("{fault:?} is not found"));
        assert!(text.contains("# seed ") && text.contains("setup "), "{fault:?}: {text}");
        let lines = text.lines().filter(|line| !line.starts_with('#')).count();
        let most = match fault {
            Fault::RecordsOfLastBlock => 50,
            // No smaller log has the fault.
            Fault::FullLogTooLong | Fault::MostRecordsUnseen => 1_030,
            _ => 7,
        };
        assert!(lines <= most, "{fault:?} is not small:\n{text}");
        println!("{fault:?}\n{text}\n");
    }
}

/// The damages that are listed, and not drawn, find each fault of judging too.
#[test]
fn listed_damages_find_each_of_a_log() {
    let from = ALL.iter().position(|&fault| fault == Fault::LogWithoutChecks).unwrap();
    for &fault in &ALL[from..] {
        let found = every_damage().find(|case| compare::log_case(&Faulty(fault), &Oracle, case).is_err());
        assert!(found.is_some(), "{fault:?} is not found");
    }
}
