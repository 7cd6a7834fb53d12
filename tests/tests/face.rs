//! What only the library's struct shows: every field of a run, and what stands in the place of a run that was not made.
#![cfg(anduri_lib)]

use anduri_tests::face::{refused_setup, Library, Run, RunSetup};
use anduri_tests::gen::{call_case, edge_setup, Random, Size};
use anduri_tests::kept::{set_up_anew, Kept};
use anduri_tests::oracle::{self, Oracle};
use anduri_tests::{Replay, Setup};

/// The oracle's state in the library's fields. Under priority document 01 has no queue: its places hold the open tasks.
fn agrees(run: &Run, model: &oracle::Run) {
    let setup = &model.setup;
    assert_eq!((run.setup.policy, run.setup.count, run.setup.slice), (setup.policy, setup.count, setup.slice));
    assert_eq!(run.setup.priority[..], setup.priorities[..]);
    assert_eq!((u64::from(run.clock), u64::from(run.idle), u64::from(run.used)), (model.clock, model.idle, model.used));
    for task in 0..32 {
        let entry = |column: &[u64]| column.get(task).copied().unwrap_or(0);
        assert_eq!(u64::from(run.owed[task]), entry(&model.owed));
        assert_eq!(u64::from(run.given[task]), entry(&model.given));
        assert_eq!(u64::from(run.done[task]), model.done.get(task).copied().flatten().unwrap_or(0));
    }
    let (queue, rest) = run.queue.split_at(run.queued);
    let mut queue: Vec<usize> = queue.iter().map(|&task| usize::from(task)).collect();
    assert!(rest.iter().all(|&byte| byte == 0), "behind the queue stands no task");
    if setup.policy == 2 {
        assert_eq!(queue, model.queue);
    } else {
        queue.sort_unstable();
        let open: Vec<usize> = (0..model.owed.len()).filter(|&task| model.owed[task] > 0).collect();
        assert_eq!(queue, open);
    }
}

#[test]
fn every_field_is_the_rules() {
    for seed in 1..=3_000 {
        let case = call_case(&mut Random::new(seed), Size::Small, 40);
        println!("seed {seed}");
        let mut run = Library.setup(&case.setup).unwrap();
        let mut model = Oracle.setup(&case.setup).unwrap();
        agrees(&run, &model);
        for call in case.calls {
            assert_eq!(Library.call(&mut run, call), Oracle.call(&mut model, call));
            agrees(&run, &model);
        }
    }
}

/// A run that is kept is set up anew amid its calls: a refusal leaves it, and an acceptance makes it a fresh one.
#[test]
fn kept_runs_are_set_up_anew() {
    let (mut accepted, mut refused) = (0, 0);
    for seed in 1..=2_000 {
        println!("seed {seed}");
        let mut random = Random::new(seed);
        let case = call_case(&mut random, Size::Small, 10);
        let mut run = Kept.setup(&case.setup).unwrap();
        for call in case.calls {
            let _ = Kept.call(&mut run, call);
        }
        let setup = edge_setup(&mut random);
        let Ok(priority) = <[u8; 32]>::try_from(&setup.priorities[..]) else { continue };
        let numbers = RunSetup { policy: setup.policy, count: setup.count, slice: setup.slice, priority };
        match Library.setup(&setup) {
            Ok(fresh) => {
                assert_eq!(set_up_anew(&mut run, numbers).0, 0);
                assert_eq!(run, fresh);
                accepted += 1;
            }
            Err(number) => {
                assert_eq!(set_up_anew(&mut run, numbers), (number, true));
                refused += 1;
            }
        }
    }
    assert!(accepted > 100 && refused > 100, "{accepted} accepted, {refused} refused");
}

#[test]
fn refused_setups_give_one_value() {
    let good = Setup::round_robin(3, 2);
    let bad = [
        Setup { policy: 3, ..good.clone() },
        Setup { count: 0, ..good.clone() },
        Setup { count: 33, ..good.clone() },
        Setup { slice: 0, ..good.clone() },
        Setup { priorities: vec![0; 31], ..good.clone() },
        Setup { priorities: vec![1; 32], ..good },
    ];
    let first = refused_setup(&bad[0]);
    for setup in &bad {
        assert_eq!(refused_setup(setup), first, "{setup:?}");
    }
}
