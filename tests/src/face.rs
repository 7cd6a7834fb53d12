//! The library behind its C face, as a `Replay`. Present where ANDURI_LIB names the archive.

#[cfg(not(target_arch = "x86_64"))]
use crate::far::*;
use crate::{Columns, Refusal, Replay, Row, Setup};

/// The run's struct as the library lays it out.
#[repr(C)]
#[derive(Clone, Copy, Debug, PartialEq, Eq)]
pub struct Run {
    pub setup: RunSetup,
    pub clock: u32,
    pub idle: u32,
    pub used: u32,
    pub queued: usize,
    pub queue: [u8; 32],
    pub owed: [u32; 32],
    pub given: [u32; 32],
    pub done: [u32; 32],
}

#[repr(C)]
#[derive(Clone, Copy, Debug, PartialEq, Eq)]
pub struct RunSetup {
    pub policy: u32,
    pub count: u32,
    pub slice: u32,
    pub priority: [u8; 32],
}

#[repr(C)]
#[derive(Clone, Copy)]
pub(crate) struct Moved {
    refusal: u32,
    run: Run,
}

#[repr(C)]
#[derive(Clone, Copy)]
pub struct Reading {
    refusal: u32,
    value: u32,
}

#[repr(C)]
#[derive(Clone, Copy)]
pub struct NextDone {
    pub task: u32,
    pub at: u32,
}

#[repr(C)]
#[derive(Clone, Copy)]
pub(crate) struct Outcome {
    refusal: u32,
    place: u32,
    end: u32,
}

#[repr(C)]
#[derive(Clone, Copy)]
pub(crate) struct Verdict {
    refusal: u32,
    place: u32,
    records: u32,
}

#[cfg(target_arch = "x86_64")]
extern "C" {
    fn anduri_setup(policy: u32, count: u32, slice: u32, priorities: *const u8, length: usize) -> Moved;
    fn anduri_request(run: Run, time: u32, task: u32, amount: u32) -> Moved;
    fn anduri_advance(run: Run, time: u32) -> Moved;
    fn anduri_drain(run: Run) -> Moved;
    fn anduri_clock(run: Run) -> u32;
    fn anduri_total_owed(run: Run) -> u32;
    fn anduri_idle(run: Run) -> u32;
    fn anduri_owed(run: Run, task: u32) -> Reading;
    fn anduri_given(run: Run, task: u32) -> Reading;
    fn anduri_completed(run: Run, task: u32) -> Reading;
    fn anduri_next(run: Run) -> NextDone;
    fn anduri_table(
        policy: u32,
        count: u32,
        slice: u32,
        priorities: *const u8,
        length: usize,
        times: *const u32,
        times_length: usize,
        tasks: *const u32,
        tasks_length: usize,
        amounts: *const u32,
        amounts_length: usize,
        result: *mut u32,
        result_length: usize,
    ) -> Outcome;
    fn anduri_judge(log: *const u8, length: usize) -> Verdict;
    fn anduri_report(log: *const u8, length: usize, out: *mut [u8; 65_536]) -> usize;
}

pub struct Library;

/// The answer of a call on a run. A refused call gives back the very run.
fn settle(run: &mut Run, moved: Moved) -> Result<(), u32> {
    if moved.refusal != 0 {
        assert_eq!(moved.run, *run, "a call refused {} gives back another run", moved.refusal);
        return Err(moved.refusal);
    }
    *run = moved.run;
    Ok(())
}

pub fn read(reading: Reading) -> Result<u32, u32> {
    match reading {
        Reading { refusal: 0, value } => Ok(value),
        Reading { refusal, value } => {
            assert_eq!(value, 0, "a refused reading has a value");
            Err(refusal)
        }
    }
}

/// An answer in two parts: a refusal with its place, or a number; the part that does not apply is 0.
fn settled(refusal: u32, place: u32, number: u32) -> Result<u32, Refusal> {
    if refusal == 0 {
        assert_eq!(place, 0, "what is not refused has no place");
        return Ok(number);
    }
    assert_eq!(number, 0, "what is refused has no number");
    Err(Refusal { number: refusal, place })
}

// SAFETY, for all calls below: pointers and lengths are those of live slices, the result column is lent to the call
// alone, and every run was made by `anduri_setup` and calls on it.
impl Replay for Library {
    type Run = Run;

    fn setup(&self, setup: &Setup) -> Result<Run, u32> {
        let bytes = &setup.priorities;
        let moved = unsafe { anduri_setup(setup.policy, setup.count, setup.slice, bytes.as_ptr(), bytes.len()) };
        match moved.refusal {
            0 => Ok(moved.run),
            number => Err(number),
        }
    }

    fn request(&self, run: &mut Run, row: Row) -> Result<(), u32> {
        let moved = unsafe { anduri_request(*run, row.time, row.task, row.amount) };
        settle(run, moved)
    }

    fn advance(&self, run: &mut Run, time: u32) -> Result<(), u32> {
        let moved = unsafe { anduri_advance(*run, time) };
        settle(run, moved)
    }

    fn drain(&self, run: &mut Run) -> Result<(), u32> {
        let moved = unsafe { anduri_drain(*run) };
        settle(run, moved)
    }

    fn clock(&self, run: &Run) -> u32 {
        unsafe { anduri_clock(*run) }
    }

    fn total_owed(&self, run: &Run) -> u32 {
        unsafe { anduri_total_owed(*run) }
    }

    fn idle(&self, run: &Run) -> u32 {
        unsafe { anduri_idle(*run) }
    }

    fn owed(&self, run: &Run, task: u32) -> Result<u32, u32> {
        read(unsafe { anduri_owed(*run, task) })
    }

    fn given(&self, run: &Run, task: u32) -> Result<u32, u32> {
        read(unsafe { anduri_given(*run, task) })
    }

    fn completed(&self, run: &Run, task: u32) -> Result<Option<u32>, u32> {
        let value = read(unsafe { anduri_completed(*run, task) })?;
        Ok(Some(value).filter(|&at| at != 0))
    }

    fn next(&self, run: &Run) -> Option<(u32, u32)> {
        let next = unsafe { anduri_next(*run) };
        assert!(next.at != 0 || next.task == 0, "nothing is open, and a task is named");
        Some((next.task, next.at)).filter(|&(_, at)| at != 0)
    }

    fn table(&self, setup: &Setup, columns: Columns, result: &mut [u32]) -> Result<u32, Refusal> {
        let bytes = &setup.priorities;
        let Columns { times, tasks, amounts } = columns;
        let outcome = unsafe {
            anduri_table(
                setup.policy,
                setup.count,
                setup.slice,
                bytes.as_ptr(),
                bytes.len(),
                times.as_ptr(),
                times.len(),
                tasks.as_ptr(),
                tasks.len(),
                amounts.as_ptr(),
                amounts.len(),
                result.as_mut_ptr(),
                result.len(),
            )
        };
        settled(outcome.refusal, outcome.place, outcome.end)
    }

    fn judge(&self, log: &[u8]) -> Result<u32, Refusal> {
        let verdict = unsafe { anduri_judge(log.as_ptr(), log.len()) };
        settled(verdict.refusal, verdict.place, verdict.records)
    }

    fn report(&self, log: &[u8]) -> Vec<u8> {
        let mut out = Box::new([0; 65_536]);
        let length = unsafe { anduri_report(log.as_ptr(), log.len(), &mut *out) };
        out[..length].to_vec()
    }
}

/// What a refused setup gives in the run's place.
pub fn refused_setup(setup: &Setup) -> Run {
    let bytes = &setup.priorities;
    let moved = unsafe { anduri_setup(setup.policy, setup.count, setup.slice, bytes.as_ptr(), bytes.len()) };
    assert_ne!(moved.refusal, 0, "the setup is taken");
    moved.run
}
