//! What the plain implementations ask of a setup, a table, a row and a log before they replay anything.

use anduri_tests::{Columns, Refusal, Setup, BLOCK, BLOCK_RECORDS, MOST_BLOCKS, MOST_ROWS};

/// Refusals 1 to 4.
fn judge_setup(policy: u32, count: u32, slice: u32, priorities: &[u8]) -> Option<u32> {
    let priority = policy == 1;
    let slices = if priority { 0..=0 } else { 1..=65_535 };
    let counted = if priority { count as usize } else { 0 };
    if !(1..=2).contains(&policy) {
        Some(1)
    } else if !(1..=32).contains(&count) {
        Some(2)
    } else if !slices.contains(&slice) {
        Some(3)
    } else if priorities.len() != 32 || !all_zero(&priorities[counted..]) {
        Some(4)
    } else {
        None
    }
}

/// Refusals 1 to 4 and 20 to 22.
pub fn judge_table(setup: &Setup, columns: &Columns, room: usize) -> Result<(), Refusal> {
    let rows = columns.times.len();
    let number = if let Some(number) = judge_setup(setup.policy, setup.count, setup.slice, &setup.priorities) {
        number
    } else if columns.tasks.len() != rows || columns.amounts.len() != rows {
        20
    } else if rows > MOST_ROWS {
        21
    } else if room < rows {
        22
    } else {
        return Ok(());
    };
    Err(Refusal::alone(number))
}

/// Refusals 10 to 13 of a row.
#[inline]
pub fn judge_row(count: u32, clock: u32, time: u32, task: u32, amount: u32) -> Option<u32> {
    if time > 4_000_000_000 {
        Some(10)
    } else if time < clock {
        Some(11)
    } else if task >= count {
        Some(12)
    } else if amount == 0 || amount > 1_000_000 {
        Some(13)
    } else {
        None
    }
}

fn all_zero(bytes: &[u8]) -> bool {
    bytes.iter().all(|&byte| byte == 0)
}

fn word(block: &[u8], number: usize) -> u32 {
    u32::from_le_bytes(block[4 * number..][..4].try_into().unwrap())
}

/// Refusals 1 to 4 and 30 to 33; else the number of records.
pub fn judge_log(log: &[u8]) -> Result<u32, Refusal> {
    if log.is_empty() || log.len() % BLOCK != 0 || log.len() > BLOCK * MOST_BLOCKS {
        return Err(Refusal::alone(30));
    }
    let blocks = log.len() / BLOCK;
    let mut records = 0;
    for (place, block) in log.chunks_exact(BLOCK).enumerate() {
        let check = (0..127).fold(1, |sum: u32, number| sum.wrapping_add(word(block, number)));
        if word(block, 127) != check {
            return Err(Refusal::at(31, place));
        }
        if word(block, 0) != place as u32 {
            return Err(Refusal::at(32, place));
        }
        let used = if place == 0 {
            48
        } else {
            let count = word(block, 1) as usize;
            records += count;
            let fits = (1..=BLOCK_RECORDS).contains(&count) && records <= MOST_ROWS;
            if !fits || (place + 1 < blocks && count < BLOCK_RECORDS) {
                return Err(Refusal::at(33, place));
            }
            8 + 12 * count
        };
        if !all_zero(&block[used..508]) {
            return Err(Refusal::at(33, place));
        }
        if place == 0 {
            let number = judge_setup(word(block, 1), word(block, 2), word(block, 3), &block[16..48]);
            number.map_or(Ok(()), |number| Err(Refusal::alone(number)))?;
        }
    }
    Ok(records as u32)
}
