//! Every kind of damage on logs of every size at which the layout changes, the checks as they come or made right again.

use crate::gen::{dense_rows, Damage, LogCase, Random};
use crate::vectors::single_ticks;
use crate::{Row, Setup, BLOCK, BLOCK_RECORDS};
use Damage::{Byte, Length, Repair, Swap, Word};

/// No record, one, both sides of a full block, and both sides of the most.
pub const SIZES: [usize; 8] = [0, 1, 40, 41, 42, 1_023, 1_024, 1_025];

/// Damages that every block can have.
fn of_a_block(block: usize) -> Vec<Damage> {
    let place = block as u32;
    let mut list: Vec<Damage> = [508, 509, 510, 511].map(|at| Byte { block, at, add: 1 }).to_vec();
    list.extend([0, place + 1, place + 256, place + 65_536, u32::MAX].map(|value| Word { block, word: 0, value }));
    list.push(Byte { block, at: 507, add: 255 });
    list
}

/// Damages of the setup and of what stands behind it.
fn of_block_0() -> Vec<Damage> {
    let word = |word, values: &[u32]| values.iter().map(|&value| Word { block: 0, word, value }).collect::<Vec<_>>();
    let mut list = word(1, &[0, 1, 2, 3, u32::MAX]);
    list.extend(word(2, &[0, 1, 31, 32, 33, u32::MAX]));
    list.extend(word(3, &[0, 1, 65_535, 65_536, u32::MAX]));
    list.extend([16, 17, 46, 47, 48, 49, 506].map(|at| Byte { block: 0, at, add: 1 }));
    list
}

/// Damages of a block that has so many records.
fn of_records(block: usize, records: usize) -> Vec<Damage> {
    let word = |word, value| Word { block, word, value };
    let byte = |at| Byte { block, at, add: 1 };
    let count = records as u32;
    // 357,913,942 times 12 is 8 more than 2 to the power of 32.
    let mut list = [0, 1, 40, 41, 42, count - 1, count + 1, 357_913_942, u32::MAX].map(|count| word(1, count)).to_vec();
    let last = 2 + 3 * (records - 1);
    list.extend([0, 4_000_000_000, 4_000_000_001, u32::MAX].map(|time| word(last, time)));
    list.extend([0, 1, 31, 32, u32::MAX].map(|task| word(last + 1, task)));
    list.extend([0, 2, 1_000_000, 1_000_001, u32::MAX].map(|amount| word(last + 2, amount)));
    list.extend([word(2, u32::MAX), word(4, 3), byte(8), byte(8 + 12 * records), byte(499), byte(500), byte(504)]);
    list
}

/// Damages of the log's length and of the order of its blocks.
fn of_the_log(blocks: usize) -> Vec<Damage> {
    let whole = BLOCK * blocks;
    let mut list = [0, 1, 511, 512, 513, whole - 1, whole + 1, whole - BLOCK, whole + BLOCK].map(Length).to_vec();
    list.extend([13_311, 13_312, 13_313, 13_824].map(Length));
    list.extend([Swap(0, 1), Swap(1, 2), Swap(0, blocks - 1), Swap(1, blocks - 1)]);
    list
}

fn damages(rows: &[Row]) -> Vec<Damage> {
    let blocks = 1 + rows.len().div_ceil(BLOCK_RECORDS);
    let mut list = [of_the_log(blocks), of_a_block(0), of_block_0()].concat();
    let mut places = vec![1, 2, blocks / 2, blocks.saturating_sub(2), blocks - 1];
    places.sort_unstable();
    places.dedup();
    for block in places.into_iter().filter(|block| (1..blocks).contains(block)) {
        let records = BLOCK_RECORDS.min(rows.len() - BLOCK_RECORDS * (block - 1));
        list.extend(of_a_block(block));
        list.extend(of_records(block, records));
    }
    list
}

/// The cases of one size: whole, and with each damage, repaired or not.
fn of_size(setup: &Setup, rows: Vec<Row>) -> Vec<LogCase> {
    let case = |damages: &[Damage]| LogCase { setup: setup.clone(), rows: rows.clone(), damages: damages.to_vec() };
    let each = damages(&rows)
        .into_iter()
        .flat_map(|damage| [case(std::slice::from_ref(&damage)), case(&[damage.clone(), Repair])]);
    [case(&[])].into_iter().chain(each).collect()
}

/// Two damages at once, for the order in which they are told: one for each refusal of each block of three, in all pairs;
/// the checks as they come, all right, or all right but for the second damage.
fn pairs() -> Vec<LogCase> {
    let (setup, rows) = (Setup::round_robin(1, 1), single_ticks(42));
    let setups = [(1, 0), (2, 0), (3, 65_536), (4, 1)].map(|(word, value)| Word { block: 0, word, value });
    let mut each = setups.to_vec();
    for block in 0..3 {
        each.extend([508, 0, 507].map(|at| Byte { block, at, add: 1 }));
    }
    let mut list = Vec::new();
    for first in &each {
        for second in each.iter().filter(|second| *second != first) {
            let both = [first.clone(), second.clone()];
            let last = [first.clone(), Repair, second.clone()];
            for damages in [both.to_vec(), [&both[..], &[Repair]].concat(), last.to_vec()] {
                list.push(LogCase { setup: setup.clone(), rows: rows.clone(), damages });
            }
        }
    }
    list
}

/// All cases: single damages under round robin with one task and under priority with 32, and pairs of damages.
pub fn every_damage() -> impl Iterator<Item = LogCase> {
    let one = Setup::round_robin(1, 1);
    let many = Setup::priority(&std::array::from_fn::<u8, 32, _>(|task| (task % 3) as u8));
    let single = SIZES.into_iter().flat_map(move |size| {
        let drawn = dense_rows(&mut Random::new(size as u64), &many, size);
        [of_size(&one, single_ticks(size as u32)), of_size(&many, drawn)].concat()
    });
    single.chain(pairs())
}
