//! The C face on a machine for which the library is not: `serve.c`, linked with it, makes the calls under the toolchain's
//! emulator, a process for each thread, and is asked through pipes. The functions are those of `include/anduri.h`.
#![allow(clippy::missing_safety_doc, clippy::too_many_arguments)]

use crate::face::{Moved, NextDone, Outcome, Reading, Run, RunSetup, Verdict};
use std::cell::RefCell;
use std::io::{BufReader, BufWriter, Read, Write};
use std::mem::{size_of, MaybeUninit};
use std::process::{ChildStdin, ChildStdout, Stdio};

/// The calls by number, as `serve.c` has them.
#[derive(Clone, Copy)]
#[repr(u32)]
enum Call {
    Setup,
    Request,
    Advance,
    Drain,
    Readings,
    Table,
    Judge,
    Report,
    SetupIn,
    RequestIn,
    AdvanceIn,
    DrainIn,
}

struct Server {
    to: BufWriter<ChildStdin>,
    from: BufReader<ChildStdout>,
}

impl Server {
    fn start() -> Server {
        let child = crate::run(env!("ANDURI_SERVER"))
            .stdin(Stdio::piped())
            .stdout(Stdio::piped())
            .spawn()
            .expect("the library's process starts");
        Server { to: BufWriter::new(child.stdin.unwrap()), from: BufReader::new(child.stdout.unwrap()) }
    }

    fn ask(&mut self, call: Call, parts: &[&[u8]]) -> std::io::Result<Vec<u8>> {
        let size: usize = parts.iter().map(|part| part.len()).sum();
        self.to.write_all(bytes(&[call as u32, size as u32]))?;
        for part in parts {
            self.to.write_all(part)?;
        }
        self.to.flush()?;
        let mut size = [0; 4];
        self.from.read_exact(&mut size)?;
        let mut answer = vec![0; u32::from_le_bytes(size) as usize];
        self.from.read_exact(&mut answer)?;
        Ok(answer)
    }
}

/// The bytes of plain data without padding.
fn bytes<T: Copy>(data: &T) -> &[u8] {
    unsafe { std::slice::from_raw_parts((data as *const T).cast(), size_of::<T>()) }
}

/// The bytes of a column; a length of 0 may come with any pointer.
unsafe fn column<'a, T>(entries: *const T, length: usize) -> &'a [u8] {
    match length {
        0 => &[],
        _ => std::slice::from_raw_parts(entries.cast(), size_of::<T>() * length),
    }
}

/// Takes plain data off the front of an answer.
fn taken<T: Copy>(answer: &mut &[u8]) -> T {
    let mut data = MaybeUninit::<T>::uninit();
    let (front, rest) = answer.split_at(size_of::<T>());
    *answer = rest;
    unsafe {
        data.as_mut_ptr().cast::<u8>().copy_from_nonoverlapping(front.as_ptr(), front.len());
        data.assume_init()
    }
}

fn ask(call: Call, parts: &[&[u8]]) -> Vec<u8> {
    thread_local!(static SERVER: RefCell<Server> = RefCell::new(Server::start()));
    SERVER.with(|server| server.borrow_mut().ask(call, parts)).expect("the library's process answers")
}

fn answer<T: Copy>(call: Call, parts: &[&[u8]]) -> T {
    taken(&mut &ask(call, parts)[..])
}

// ---- calls by value

pub unsafe fn anduri_setup(policy: u32, count: u32, slice: u32, priorities: *const u8, length: usize) -> Moved {
    answer(Call::Setup, &[bytes(&[policy, count, slice]), column(priorities, length)])
}

pub unsafe fn anduri_request(run: Run, time: u32, task: u32, amount: u32) -> Moved {
    answer(Call::Request, &[bytes(&run), bytes(&[time, task, amount])])
}

pub unsafe fn anduri_advance(run: Run, time: u32) -> Moved {
    answer(Call::Advance, &[bytes(&run), bytes(&time)])
}

pub unsafe fn anduri_drain(run: Run) -> Moved {
    answer(Call::Drain, &[bytes(&run)])
}

// ---- calls in place

fn in_place(run: *mut Run, call: Call, numbers: &[u8]) -> u32 {
    let told = ask(call, &[bytes(unsafe { &*run }), numbers]);
    let mut told = &told[..];
    let refusal = taken(&mut told);
    unsafe { *run = taken(&mut told) };
    refusal
}

pub unsafe fn anduri_setup_in(run: *mut Run, setup: RunSetup) -> u32 {
    in_place(run, Call::SetupIn, bytes(&setup))
}

pub unsafe fn anduri_request_in(run: *mut Run, time: u32, task: u32, amount: u32) -> u32 {
    in_place(run, Call::RequestIn, bytes(&[time, task, amount]))
}

pub unsafe fn anduri_advance_in(run: *mut Run, time: u32) -> u32 {
    in_place(run, Call::AdvanceIn, bytes(&time))
}

pub unsafe fn anduri_drain_in(run: *mut Run) -> u32 {
    in_place(run, Call::DrainIn, &[])
}

// ---- readings

/// All that was read of a run at once, since they are asked for one after the other.
#[derive(Clone)]
struct Told {
    run: Run,
    clock: u32,
    total_owed: u32,
    idle: u32,
    next: NextDone,
    tasks: Vec<(u32, [Reading; 3])>,
}

impl Told {
    fn asked(run: &Run, kept: bool, task: u32) -> Told {
        let tasks: Vec<u32> = (0..=33).chain([256, u32::MAX, task]).collect();
        let numbers = [u32::from(kept), tasks.len() as u32];
        let told = ask(Call::Readings, &[bytes(run), bytes(&numbers), unsafe { column(tasks.as_ptr(), tasks.len()) }]);
        let told = &mut &told[..];
        let [clock, total_owed, idle] = taken(told);
        let next = taken(told);
        let tasks = tasks.into_iter().map(|task| (task, taken(told))).collect();
        Told { run: *run, clock, total_owed, idle, next, tasks }
    }

    fn has(&self, run: &Run, task: u32) -> bool {
        self.run == *run && self.tasks.iter().any(|told| told.0 == task)
    }

    fn of(&self, task: u32) -> [Reading; 3] {
        self.tasks.iter().find(|told| told.0 == task).unwrap().1
    }
}

/// What is read of a run, by value or of a kept one.
fn told<T>(run: &Run, kept: bool, task: u32, read: impl Fn(&Told) -> T) -> T {
    thread_local!(static LAST: RefCell<[Option<Told>; 2]> = const { RefCell::new([None, None]) });
    LAST.with(|last| {
        let last = &mut last.borrow_mut()[usize::from(kept)];
        if !last.as_ref().is_some_and(|told| told.has(run, task)) {
            *last = Some(Told::asked(run, kept, task));
        }
        read(last.as_ref().unwrap())
    })
}

pub unsafe fn anduri_clock(run: Run) -> u32 {
    told(&run, false, 0, |told| told.clock)
}

pub unsafe fn anduri_total_owed(run: Run) -> u32 {
    told(&run, false, 0, |told| told.total_owed)
}

pub unsafe fn anduri_idle(run: Run) -> u32 {
    told(&run, false, 0, |told| told.idle)
}

pub unsafe fn anduri_owed(run: Run, task: u32) -> Reading {
    told(&run, false, task, |told| told.of(task)[0])
}

pub unsafe fn anduri_given(run: Run, task: u32) -> Reading {
    told(&run, false, task, |told| told.of(task)[1])
}

pub unsafe fn anduri_completed(run: Run, task: u32) -> Reading {
    told(&run, false, task, |told| told.of(task)[2])
}

pub unsafe fn anduri_next(run: Run) -> NextDone {
    told(&run, false, 0, |told| told.next)
}

pub unsafe fn anduri_clock_of(run: *const Run) -> u32 {
    told(&*run, true, 0, |told| told.clock)
}

pub unsafe fn anduri_total_owed_of(run: *const Run) -> u32 {
    told(&*run, true, 0, |told| told.total_owed)
}

pub unsafe fn anduri_idle_of(run: *const Run) -> u32 {
    told(&*run, true, 0, |told| told.idle)
}

pub unsafe fn anduri_owed_of(run: *const Run, task: u32) -> Reading {
    told(&*run, true, task, |told| told.of(task)[0])
}

pub unsafe fn anduri_given_of(run: *const Run, task: u32) -> Reading {
    told(&*run, true, task, |told| told.of(task)[1])
}

pub unsafe fn anduri_completed_of(run: *const Run, task: u32) -> Reading {
    told(&*run, true, task, |told| told.of(task)[2])
}

pub unsafe fn anduri_next_of(run: *const Run) -> NextDone {
    told(&*run, true, 0, |told| told.next)
}

// ---- tables and logs

pub unsafe fn anduri_table(
    policy: u32,
    count: u32,
    slice: u32,
    priorities: *const u8,
    length: usize,
    times: *const u32,
    times_length: usize,
    tasks: *const u32,
    tasks_length: usize,
    amounts: *const u32,
    amounts_length: usize,
    result: *mut u32,
    result_length: usize,
) -> Outcome {
    let lengths = [length, times_length, tasks_length, amounts_length, result_length].map(|length| length as u32);
    let told = ask(
        Call::Table,
        &[
            bytes(&[policy, count, slice]),
            bytes(&lengths),
            column(times, times_length),
            column(tasks, tasks_length),
            column(amounts, amounts_length),
            column(result, result_length),
            column(priorities, length),
        ],
    );
    let mut told = &told[..];
    let outcome = taken(&mut told);
    result.cast::<u8>().copy_from_nonoverlapping(told.as_ptr(), told.len());
    outcome
}

pub unsafe fn anduri_judge(log: *const u8, length: usize) -> Verdict {
    answer(Call::Judge, &[column(log, length)])
}

pub unsafe fn anduri_report(log: *const u8, length: usize, out: *mut [u8; 65_536]) -> usize {
    let text = ask(Call::Report, &[column(log, length)]);
    out.cast::<u8>().copy_from_nonoverlapping(text.as_ptr(), text.len());
    text.len()
}
