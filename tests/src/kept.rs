//! The library's calls on a run that the caller keeps, as a `Replay`. Each call and each reading is made beside the one
//! by value: the answers and every byte of the run are the same.

use crate::face::{read, Library, Run, RunSetup};
#[cfg(target_arch = "x86_64")]
use crate::face::{NextDone, Reading};
#[cfg(not(target_arch = "x86_64"))]
use crate::far::*;
use crate::{Columns, Refusal, Replay, Row, Setup};

#[cfg(target_arch = "x86_64")]
extern "C" {
    fn anduri_setup_in(run: *mut Run, setup: RunSetup) -> u32;
    fn anduri_request_in(run: *mut Run, time: u32, task: u32, amount: u32) -> u32;
    fn anduri_advance_in(run: *mut Run, time: u32) -> u32;
    fn anduri_drain_in(run: *mut Run) -> u32;
    fn anduri_clock_of(run: *const Run) -> u32;
    fn anduri_total_owed_of(run: *const Run) -> u32;
    fn anduri_idle_of(run: *const Run) -> u32;
    fn anduri_owed_of(run: *const Run, task: u32) -> Reading;
    fn anduri_given_of(run: *const Run, task: u32) -> Reading;
    fn anduri_completed_of(run: *const Run, task: u32) -> Reading;
    fn anduri_next_of(run: *const Run) -> NextDone;
}

type Bytes = [u8; std::mem::size_of::<Run>()];

/// The struct has no padding: its fields are 480 bytes, and so is it.
fn bytes(run: &Run) -> Bytes {
    unsafe { std::mem::transmute(*run) }
}

/// A run that no setup made, so that a byte that is not written shows.
fn marked() -> Run {
    unsafe { std::mem::transmute([0xA5u8; std::mem::size_of::<Run>()]) }
}

/// Makes a call both ways on the same run.
fn beside(
    run: &mut Run,
    by_value: impl Fn(&mut Run) -> Result<(), u32>,
    in_place: impl Fn(*mut Run) -> u32,
) -> Result<(), u32> {
    let mut expected = *run;
    let answer = by_value(&mut expected);
    let refusal = in_place(run);
    assert_eq!(refusal, answer.err().unwrap_or(0), "the refusal in place and by value");
    assert_eq!(bytes(run), bytes(&expected), "the run in place and by value, refusal {refusal}");
    answer
}

fn same<T: PartialEq + std::fmt::Debug>(of_kept: T, by_value: T) -> T {
    assert_eq!(of_kept, by_value, "the reading of a kept run and by value");
    of_kept
}

pub struct Kept;

// SAFETY, for all calls below: the pointer is that of a live run, lent to the call alone, and every run was made by a
// setup and calls on it; a setup takes any bytes.
impl Replay for Kept {
    type Run = Run;

    /// Priorities that are not 32 bytes can be said by value alone.
    fn setup(&self, setup: &Setup) -> Result<Run, u32> {
        let by_value = Library.setup(setup);
        let Ok(priority) = <[u8; 32]>::try_from(&setup.priorities[..]) else { return by_value };
        let numbers = RunSetup { policy: setup.policy, count: setup.count, slice: setup.slice, priority };
        let mut run = marked();
        let refusal = unsafe { anduri_setup_in(&mut run, numbers) };
        assert_eq!(refusal, by_value.err().unwrap_or(0), "the refusal in place and by value");
        assert_eq!(bytes(&run), bytes(&by_value.unwrap_or_else(|_| marked())), "the run, refusal {refusal}");
        by_value.map(|_| run)
    }

    fn request(&self, run: &mut Run, row: Row) -> Result<(), u32> {
        beside(run, |run| Library.request(run, row), |run| unsafe {
            anduri_request_in(run, row.time, row.task, row.amount)
        })
    }

    fn advance(&self, run: &mut Run, time: u32) -> Result<(), u32> {
        beside(run, |run| Library.advance(run, time), |run| unsafe { anduri_advance_in(run, time) })
    }

    fn drain(&self, run: &mut Run) -> Result<(), u32> {
        beside(run, |run| Library.drain(run), |run| unsafe { anduri_drain_in(run) })
    }

    fn clock(&self, run: &Run) -> u32 {
        same(unsafe { anduri_clock_of(run) }, Library.clock(run))
    }

    fn total_owed(&self, run: &Run) -> u32 {
        same(unsafe { anduri_total_owed_of(run) }, Library.total_owed(run))
    }

    fn idle(&self, run: &Run) -> u32 {
        same(unsafe { anduri_idle_of(run) }, Library.idle(run))
    }

    fn owed(&self, run: &Run, task: u32) -> Result<u32, u32> {
        same(read(unsafe { anduri_owed_of(run, task) }), Library.owed(run, task))
    }

    fn given(&self, run: &Run, task: u32) -> Result<u32, u32> {
        same(read(unsafe { anduri_given_of(run, task) }), Library.given(run, task))
    }

    fn completed(&self, run: &Run, task: u32) -> Result<Option<u32>, u32> {
        let of_kept = read(unsafe { anduri_completed_of(run, task) }).map(|at| Some(at).filter(|&at| at != 0));
        same(of_kept, Library.completed(run, task))
    }

    fn next(&self, run: &Run) -> Option<(u32, u32)> {
        let next = unsafe { anduri_next_of(run) };
        same(Some((next.task, next.at)).filter(|&(_, at)| at != 0), Library.next(run))
    }

    fn table(&self, setup: &Setup, columns: Columns, result: &mut [u32]) -> Result<u32, Refusal> {
        Library.table(setup, columns, result)
    }

    fn judge(&self, log: &[u8]) -> Result<u32, Refusal> {
        Library.judge(log)
    }

    fn report(&self, log: &[u8]) -> Vec<u8> {
        Library.report(log)
    }
}

/// Sets up anew a run that is kept: its answer, and whether the run is as it was.
pub fn set_up_anew(run: &mut Run, setup: RunSetup) -> (u32, bool) {
    let before = bytes(run);
    let refusal = unsafe { anduri_setup_in(run, setup) };
    (refusal, bytes(run) == before)
}
