//! Judging a full log, beside a plain loop that asks the same and beside a copy of the bytes.

use crate::judge::judge_log;
use anduri_tests::gen::log_of;
use anduri_tests::{rows, Refusal};
use std::hint::black_box;

/// Judges the log, or copies it to the buffer and answers its length.
type Judge = fn(&[u8], &mut [u8]) -> Result<u32, Refusal>;

#[cfg(anduri_lib)]
fn library(log: &[u8], _: &mut [u8]) -> Result<u32, Refusal> {
    use anduri_tests::Replay;
    anduri_tests::face::Library.judge(log)
}

fn plain(log: &[u8], _: &mut [u8]) -> Result<u32, Refusal> {
    judge_log(log)
}

fn copy(log: &[u8], buffer: &mut [u8]) -> Result<u32, Refusal> {
    buffer.copy_from_slice(log);
    Ok(log.len() as u32)
}

const JUDGES: &[(&str, Judge)] = &[
    #[cfg(anduri_lib)]
    ("library", library),
    ("plain", plain),
    ("copy", copy),
];

/// The log of a workload.
pub fn log(workload: &str) -> Option<Vec<u8>> {
    let crate::workloads::Workload { setup, times, tasks, amounts } = crate::workloads::workload(workload)?;
    let numbers: Vec<_> = times.iter().zip(&tasks).zip(&amounts).map(|((&t, &k), &a)| (t, k, a)).collect();
    Some(log_of(&setup, &rows(&numbers)))
}

fn times(judge: Judge, log: &[u8], buffer: &mut [u8], times: u32) {
    for _ in 0..times {
        let answer = black_box(judge)(black_box(log), buffer);
        black_box(answer).expect("the log is taken");
        black_box(&mut *buffer);
    }
}

/// Judges the log so many times with the named judge.
pub fn judge(log: &[u8], name: &str, count: u32) -> Option<()> {
    let (_, judge) = JUDGES.iter().find(|(known, _)| *known == name)?;
    times(*judge, log, &mut vec![0; log.len()], count);
    Some(())
}

#[repr(C)]
struct Instant {
    seconds: i64,
    nanoseconds: i64,
}

extern "C" {
    fn clock_gettime(clock: i32, at: *mut Instant) -> i32;
}

/// The seconds of the processor that this process has had.
fn processor_seconds() -> f64 {
    const PROCESS: i32 = 2;
    let mut at = Instant { seconds: 0, nanoseconds: 0 };
    // SAFETY: the instant is live and has the layout of a timespec.
    assert_eq!(unsafe { clock_gettime(PROCESS, &mut at) }, 0);
    at.seconds as f64 + at.nanoseconds as f64 / 1e9
}

/// Prints each judge with the most megabytes a second that it had in 300 turns, the judges taking turns.
pub fn speeds(log: &[u8]) {
    const TURNS: u32 = 300;
    const EACH: u32 = 50;
    let mut buffer = vec![0; log.len()];
    let mut best = vec![f64::INFINITY; JUDGES.len()];
    for _ in 0..TURNS {
        for (place, (_, judge)) in JUDGES.iter().enumerate() {
            let began = processor_seconds();
            times(*judge, log, &mut buffer, EACH);
            best[place] = best[place].min(processor_seconds() - began);
        }
    }
    for (place, (name, _)) in JUDGES.iter().enumerate() {
        println!("{name} {:.0}", f64::from(EACH) * log.len() as f64 / best[place] / 1e6);
    }
}
