//! Every kind of damage on logs of every size, and every single byte of a log: each replay beside the oracle.

use anduri_tests::compare;
use anduri_tests::damages::{every_damage, SIZES};
use anduri_tests::gen::{log_of, repair};
use anduri_tests::oracle::{self, Oracle};
use anduri_tests::shrink::hold;
use anduri_tests::vectors::whole_log;
use anduri_tests::{Refusal, Replay, BLOCK};
use std::collections::BTreeSet;

fn each_damage<R: Replay>(tested: &R) {
    for case in every_damage() {
        hold("damage", 0, &case, |case| compare::log_case(tested, &Oracle, case));
    }
}

/// One byte of a log of three blocks is changed. The check of its block tells, whichever byte it is; made right again, the
/// log is what the oracle says.
fn each_byte<R: Replay>(tested: &R) {
    let (setup, rows) = whole_log();
    let whole = log_of(&setup, &rows);
    for at in 0..whole.len() {
        for add in [1, 128, 255] {
            let mut log = whole.clone();
            log[at] = log[at].wrapping_add(add);
            let wrong = Err(Refusal::at(31, at / BLOCK));
            assert_eq!([tested.judge(&log), Oracle.judge(&log)], [wrong, wrong], "byte {at}, {add} added");
            repair(&mut log);
            let told = compare::log(tested, &Oracle, &log);
            assert_eq!(told, Ok(()), "byte {at}, {add} added, and all checks right");
        }
    }
}

macro_rules! beside_the_oracle {
    ($name:ident, $replay:expr) => {
        mod $name {
            #[test]
            fn each_damage() {
                super::each_damage(&$replay);
            }
            #[test]
            fn each_byte() {
                super::each_byte(&$replay);
            }
        }
    };
}

beside_the_oracle!(jumps, anduri_tests::jumps::Jumps);
#[cfg(anduri_lib)]
beside_the_oracle!(library, anduri_tests::face::Library);

/// The damages reach every refusal of a log and of its rows, and logs of every size are taken that can be.
#[test]
fn damages_reach_every_answer() {
    let (mut numbers, mut sizes) = (BTreeSet::new(), BTreeSet::new());
    for case in every_damage() {
        let text = oracle::printed(&case.bytes());
        match text.strip_prefix("refused ").and_then(|rest| rest.split(' ').next()) {
            Some(number) => drop(numbers.insert(number.parse::<u32>().unwrap())),
            None => drop(sizes.insert(text.lines().count() - 2)),
        }
    }
    assert_eq!(numbers, BTreeSet::from([1, 2, 3, 4, 10, 11, 12, 13, 14, 30, 31, 32, 33]));
    let never: Vec<usize> = SIZES.into_iter().filter(|size| !sizes.contains(size)).collect();
    assert_eq!(never, [1_025], "of the sizes this one alone is never taken");
}
