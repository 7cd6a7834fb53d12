//! Evidence beside the proofs, written from document 01 alone.
//!
//! `oracle` follows the rule tick by tick, `jumps` from change to change, `face` calls the library by value and `kept` in place.
//! All are a `Replay`, so `compare` can set any two side by side on what `worked` and `gen` hold.

pub mod compare;
pub mod damages;
pub mod edges;
#[cfg(anduri_lib)]
pub mod face;
#[cfg(all(anduri_lib, not(target_arch = "x86_64")))]
mod far;
pub mod gen;
pub mod jumps;
#[cfg(anduri_lib)]
pub mod kept;
pub mod oracle;
pub mod script;
pub mod shrink;
pub mod vectors;
pub mod worked;

/// The last time that a call may name.
pub const LAST_TIME: u32 = 4_000_000_000;
/// The greatest amount of a request.
pub const MOST_AMOUNT: u32 = 1_000_000;
/// The most rows of a table and records of a log.
pub const MOST_ROWS: usize = 1_024;
/// The bytes of a block, and the most blocks of a log.
pub const BLOCK: usize = 512;
pub const MOST_BLOCKS: usize = 26;
/// The most records of a block.
pub const BLOCK_RECORDS: usize = 41;

/// A setup as it is handed over, good or bad.
#[derive(Clone, Debug, PartialEq, Eq)]
pub struct Setup {
    pub policy: u32,
    pub count: u32,
    pub slice: u32,
    pub priorities: Vec<u8>,
}

impl Setup {
    /// Priority, with these priorities for tasks 0, 1, ..
    pub fn priority(priorities: &[u8]) -> Setup {
        let mut bytes = priorities.to_vec();
        bytes.resize(32, 0);
        Setup { policy: 1, count: priorities.len() as u32, slice: 0, priorities: bytes }
    }

    /// Round robin.
    pub fn round_robin(count: u32, slice: u32) -> Setup {
        Setup { policy: 2, count, slice, priorities: vec![0; 32] }
    }
}

/// A row of a table, a record of a log, or the numbers of a request.
#[derive(Clone, Copy, Debug, PartialEq, Eq)]
pub struct Row {
    pub time: u32,
    pub task: u32,
    pub amount: u32,
}

/// The rows written as (time, task, amount).
pub fn rows(numbers: &[(u32, u32, u32)]) -> Vec<Row> {
    numbers.iter().map(|&(time, task, amount)| Row { time, task, amount }).collect()
}

#[derive(Clone, Copy, Debug, PartialEq, Eq)]
pub enum Call {
    Request(Row),
    Advance(u32),
    Drain,
}

/// A refusal's number, and its row or block: 0 where the document gives none.
#[derive(Clone, Copy, Debug, PartialEq, Eq)]
pub struct Refusal {
    pub number: u32,
    pub place: u32,
}

impl Refusal {
    pub fn alone(number: u32) -> Refusal {
        Refusal { number, place: 0 }
    }

    pub fn at(number: u32, place: usize) -> Refusal {
        Refusal { number, place: place as u32 }
    }
}

/// What document 01 asks of a replay, as a caller sees it.
pub trait Replay {
    type Run: Clone;

    fn setup(&self, setup: &Setup) -> Result<Self::Run, u32>;
    fn request(&self, run: &mut Self::Run, row: Row) -> Result<(), u32>;
    fn advance(&self, run: &mut Self::Run, time: u32) -> Result<(), u32>;
    fn drain(&self, run: &mut Self::Run) -> Result<(), u32>;

    fn clock(&self, run: &Self::Run) -> u32;
    fn total_owed(&self, run: &Self::Run) -> u32;
    fn idle(&self, run: &Self::Run) -> u32;
    fn owed(&self, run: &Self::Run, task: u32) -> Result<u32, u32>;
    fn given(&self, run: &Self::Run, task: u32) -> Result<u32, u32>;
    /// The latest completion, or `None` for never.
    fn completed(&self, run: &Self::Run, task: u32) -> Result<Option<u32>, u32>;
    /// The task that would be done next and when, or `None` if nothing is open.
    fn next(&self, run: &Self::Run) -> Option<(u32, u32)>;

    /// Writes the completions and answers the end.
    fn table(&self, setup: &Setup, columns: Columns, result: &mut [u32]) -> Result<u32, Refusal>;
    /// The number of records of a log that is not refused.
    fn judge(&self, log: &[u8]) -> Result<u32, Refusal>;
    /// All that the printing program prints.
    fn report(&self, log: &[u8]) -> Vec<u8>;

    fn call(&self, run: &mut Self::Run, call: Call) -> Result<(), u32> {
        match call {
            Call::Request(row) => self.request(run, row),
            Call::Advance(time) => self.advance(run, time),
            Call::Drain => self.drain(run),
        }
    }
}

/// The three lent columns of a table.
#[derive(Clone, Copy, Debug)]
pub struct Columns<'a> {
    pub times: &'a [u32],
    pub tasks: &'a [u32],
    pub amounts: &'a [u32],
}

/// A program for x86-64, to be run on any machine that the toolchain is for.
pub fn run(program: impl AsRef<std::ffi::OsStr>) -> std::process::Command {
    let mut command = std::process::Command::new(concat!(env!("CARGO_MANIFEST_DIR"), "/../tools/run"));
    command.arg(program);
    command
}

/// The number of cases to draw: where the library's calls go through an emulator a third of those named.
pub fn fewer(cases: u64) -> u64 {
    if cfg!(target_arch = "x86_64") { cases } else { cases.div_ceil(3) }
}
