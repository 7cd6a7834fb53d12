//! The vectors: logs with the text that the printing program gives for each, and where the numbers come from.

use crate::gen::{damage, log_of, Damage};
use crate::worked::worked;
use crate::{rows, Refusal, Row, Setup, BLOCK};
use std::fmt::Write;

pub struct Vector {
    pub name: String,
    pub log: Vec<u8>,
    pub text: String,
    pub source: String,
}

/// The text for these completions, put together here and not by a replay.
fn text_of(rows: &[Row], outcome: &Result<(Vec<u32>, u32), Refusal>) -> String {
    match outcome {
        Err(Refusal { number, place }) => format!("refused {number} at {place}\n"),
        Ok((done, end)) => {
            let mut text = "row task asked amount done\n".to_string();
            for (i, (row, done)) in rows.iter().zip(done).enumerate() {
                writeln!(text, "{} {} {} {} {done}", i + 1, row.task, row.time, row.amount).unwrap();
            }
            text + &format!("end {end}\n")
        }
    }
}

/// Rows of one tick each, the next asked at the instant the last is done: row i is done at i.
pub fn single_ticks(count: u32) -> Vec<Row> {
    (0..count).map(|time| Row { time, task: 0, amount: 1 }).collect()
}

/// A damaged log, and the refusal that document 01 gives for it.
pub struct Damaged {
    pub name: &'static str,
    pub damages: Vec<Damage>,
    pub refusal: Refusal,
}

/// Each kind of damage, on a log of 60 single ticks: block 0, 41 records in block 1, 19 in block 2.
pub fn damaged() -> Vec<Damaged> {
    use Damage::{Byte, Length, Repair, Swap, Word};
    let mut list = Vec::new();
    let mut add = |name, damages: &[Damage], number, place| {
        list.push(Damaged { name, damages: damages.to_vec(), refusal: Refusal { number, place } });
    };
    add("empty", &[Length(0)], 30, 0);
    add("length_1", &[Length(1)], 30, 0);
    add("length_511", &[Length(511)], 30, 0);
    add("length_513", &[Length(513)], 30, 0);
    add("one_byte_short", &[Length(3 * BLOCK - 1)], 30, 0);
    add("one_byte_more", &[Length(3 * BLOCK + 1)], 30, 0);
    add("length_13313", &[Length(13_313)], 30, 0);
    add("blocks_27", &[Length(27 * BLOCK)], 30, 0);
    add("zero_block_added", &[Length(4 * BLOCK)], 33, 2);
    add("check_block_0", &[Byte { block: 0, at: 508, add: 1 }], 31, 0);
    add("check_block_1_top_byte", &[Byte { block: 1, at: 511, add: 128 }], 31, 1);
    add("check_block_2", &[Byte { block: 2, at: 509, add: 255 }], 31, 2);
    add("record_changed", &[Byte { block: 2, at: 8, add: 1 }], 31, 2);
    add("padding_changed", &[Byte { block: 0, at: 48, add: 1 }], 31, 0);
    add("place_block_0", &[Word { block: 0, word: 0, value: 1 }, Repair], 32, 0);
    add("place_block_1", &[Word { block: 1, word: 0, value: 0 }, Repair], 32, 1);
    add("place_block_2_high_byte", &[Word { block: 2, word: 0, value: 0x0100_0002 }, Repair], 32, 2);
    add("blocks_swapped", &[Swap(1, 2)], 32, 1);
    add("blocks_0_and_1_swapped", &[Swap(0, 1)], 32, 0);
    add("head_byte_48", &[Byte { block: 0, at: 48, add: 1 }, Repair], 33, 0);
    add("head_byte_507", &[Byte { block: 0, at: 507, add: 1 }, Repair], 33, 0);
    add("policy_0", &[Word { block: 0, word: 1, value: 0 }, Repair], 1, 0);
    add("policy_3", &[Word { block: 0, word: 1, value: 3 }, Repair], 1, 0);
    add("count_0", &[Word { block: 0, word: 2, value: 0 }, Repair], 2, 0);
    add("count_33", &[Word { block: 0, word: 2, value: 33 }, Repair], 2, 0);
    add("slice_0", &[Word { block: 0, word: 3, value: 0 }, Repair], 3, 0);
    add("slice_65536", &[Word { block: 0, word: 3, value: 65_536 }, Repair], 3, 0);
    add("priority_byte_0", &[Byte { block: 0, at: 16, add: 1 }, Repair], 4, 0);
    add("priority_byte_31", &[Byte { block: 0, at: 47, add: 1 }, Repair], 4, 0);
    add("records_0", &[Word { block: 2, word: 1, value: 0 }, Repair], 33, 2);
    add("records_one_fewer", &[Word { block: 2, word: 1, value: 18 }, Repair], 33, 2);
    add("records_42", &[Word { block: 1, word: 1, value: 42 }, Repair], 33, 1);
    add("records_wrap_12_times", &[Word { block: 2, word: 1, value: 357_913_960 }, Repair], 33, 2);
    add(
        "records_40_before_last",
        &[
            Word { block: 1, word: 1, value: 40 },
            Word { block: 1, word: 122, value: 0 },
            Word { block: 1, word: 124, value: 0 },
            Repair,
        ],
        33,
        1,
    );
    add("first_unused_byte", &[Byte { block: 2, at: 236, add: 1 }, Repair], 33, 2);
    add("last_unused_byte", &[Byte { block: 2, at: 499, add: 1 }, Repair], 33, 2);
    add("byte_500", &[Byte { block: 1, at: 500, add: 1 }, Repair], 33, 1);
    add("byte_507", &[Byte { block: 2, at: 507, add: 1 }, Repair], 33, 2);
    add("one_record_more", &[Word { block: 2, word: 1, value: 20 }, Repair], 11, 61);
    add(
        "setup_before_block_1_check",
        &[Word { block: 0, word: 2, value: 0 }, Repair, Byte { block: 1, at: 508, add: 1 }],
        2,
        0,
    );
    add(
        "layout_before_setup",
        &[Word { block: 0, word: 1, value: 9 }, Byte { block: 0, at: 507, add: 1 }, Repair],
        33,
        0,
    );
    add(
        "place_before_layout",
        &[Word { block: 1, word: 0, value: 7 }, Word { block: 1, word: 1, value: 0 }, Repair],
        32,
        1,
    );
    add("check_before_place", &[Word { block: 1, word: 0, value: 7 }], 31, 1);
    add(
        "block_1_before_block_2",
        &[Byte { block: 1, at: 500, add: 1 }, Repair, Byte { block: 2, at: 508, add: 1 }],
        33,
        1,
    );
    add("log_before_rows", &[Word { block: 1, word: 4, value: 0 }, Repair, Byte { block: 2, at: 508, add: 1 }], 31, 2);
    add("row_over_the_whole_log", &[Word { block: 2, word: 2 + 3 * 18 + 2, value: 0 }, Repair], 13, 60);
    add("time_of_any_size_is_layout", &[Word { block: 2, word: 2, value: u32::MAX }, Repair], 10, 42);
    list
}

/// The log that `damaged` changes.
pub fn whole_log() -> (Setup, Vec<Row>) {
    (Setup::round_robin(1, 1), single_ticks(60))
}

/// Under both policies a vector is kept for two setups; the tests try them all.
fn is_kept(name: &str) -> bool {
    !["rising", "falling", "slice_2", "slice_3", "slice_65535"].iter().any(|end| name.ends_with(end))
}

fn run_in_words(setup: &Setup, rows: &[Row]) -> String {
    let counted = &setup.priorities[..setup.count as usize];
    let mut text = match setup.policy {
        1 => format!("priorities {counted:?}"),
        _ => format!("round robin, slice {}, task count {}", setup.slice, setup.count),
    };
    for row in rows {
        write!(text, " ({},{},{})", row.time, row.task, row.amount).unwrap();
    }
    text
}

pub fn vectors() -> Vec<Vector> {
    let mut list = Vec::new();
    let mut add = |name: &str, log: Vec<u8>, text: String, source: &str| {
        list.push(Vector { name: name.into(), log, text, source: source.into() });
    };
    for run in worked().iter().filter(|run| is_kept(&run.name)) {
        let source = format!("{}: {}", run.source, run_in_words(&run.setup, &run.rows));
        add(&run.name, log_of(&run.setup, &run.rows), text_of(&run.rows, &run.outcome), &source);
    }
    let one = Setup::round_robin(1, 1);
    let limits = "document 01, record limits; rows of one tick, row i done at i, by hand";
    for count in [1, 40, 41, 42, 1_023, 1_024] {
        let rows = single_ticks(count);
        let outcome = Ok(((1..=count).collect(), count));
        add(&format!("records_{count}"), log_of(&one, &rows), text_of(&rows, &outcome), limits);
    }
    add("records_1025", log_of(&one, &single_ticks(1_025)), "refused 33 at 25\n".into(), limits);
    let mut late = log_of(&one, &single_ticks(1_025));
    damage(&mut late, &Damage::Byte { block: 25, at: 508, add: 1 });
    add("records_1025_and_wrong_check", late, "refused 31 at 25\n".into(), "document 01, order 31, 32, 33");
    let all: Vec<(u32, u32, u32)> = (0..32).map(|task| (4_000_000_000, task, 1_000_000)).collect();
    let last = rows(&all);
    let one_after_other = (1..=32).map(|i| 4_000_000_000 + 1_000_000 * i).collect();
    let text = text_of(&last, &Ok((one_after_other, 4_032_000_000)));
    let source =
        "document 01, a drain carries the clock to at most 4,032,000,000; equal priorities, one after the other";
    add("latest_end", log_of(&Setup::priority(&[0; 32]), &last), text, source);
    let zero_record = rows(&[(0, 0, 1), (0, 0, 0)]);
    let mut short = log_of(&one, &zero_record);
    damage(&mut short, &Damage::Word { block: 1, word: 1, value: 1 });
    damage(&mut short, &Damage::Repair);
    let source = "document 01, layout: the record left out is all zero, so nothing is wrong";
    add("zero_record_left_out", short, text_of(&rows(&[(0, 0, 1)]), &Ok((vec![1], 1))), source);
    let (setup, rows) = whole_log();
    for each in damaged() {
        let mut log = log_of(&setup, &rows);
        for step in &each.damages {
            damage(&mut log, step);
        }
        let text = text_of(&[], &Err(each.refusal));
        let shown: Vec<String> = each.damages.iter().map(|step| format!("{step:?}")).collect();
        add(
            &format!("damaged_{}", each.name),
            log,
            text,
            &format!("document 01, refusal numbers; 60 rows, then {}", shown.join(", ")),
        );
    }
    list
}

/// The list of the vectors for a reader.
pub fn readme(vectors: &[Vector]) -> String {
    let mut text = String::from(
        "# Vectors\n\n\
         `NAME.log` is a log as the printing program reads it, `NAME.out` all that it prints. Both are written by\n\
         `cargo run --bin make_vectors` in `tests/` from numbers in `src/worked.rs` and `src/vectors.rs`; no replay\n\
         makes them. The tests fail where a file here differs from what is written anew.\n\n\
         In the damages, `Byte` adds to a byte of a block, `Word` puts a word, `Length` cuts or adds zero bytes,\n\
         `Swap` exchanges two blocks, and `Repair` makes all checks right again.\n\n\
         | vector | where its numbers come from |\n|---|---|\n",
    );
    for vector in vectors {
        writeln!(text, "| `{}` | {} |", vector.name, vector.source).unwrap();
    }
    text
}
