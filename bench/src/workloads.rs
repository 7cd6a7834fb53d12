//! The tables that are measured. Each is drawn from a fixed seed and taken whole.

use anduri_tests::gen::Random;
use anduri_tests::Setup;

pub const NAMES: [&str; 8] = ["W1", "W2", "W3", "W4", "W5_2000", "W5_1000", "W5_500", "W6"];

pub struct Workload {
    pub setup: Setup,
    pub times: Vec<u32>,
    pub tasks: Vec<u32>,
    pub amounts: Vec<u32>,
}

/// Batches in which all 32 tasks ask once, in a drawn order. The first `spread`th part of a batch's ticks has all its
/// requests; the next batch begins when the last has had all its ticks, so no task is asked while it is open.
fn batches(setup: Setup, batches: u32, least: u32, most: u32, spread: u32) -> Workload {
    let mut random = Random::new(7);
    let mut workload = Workload { setup, times: Vec::new(), tasks: Vec::new(), amounts: Vec::new() };
    let mut start = 0;
    for _ in 0..batches {
        let mut order: Vec<u32> = (0..32).collect();
        for i in (1..32).rev() {
            order.swap(i, random.within(0, i as u32) as usize);
        }
        let amounts: Vec<u32> = order.iter().map(|_| random.within(least, most)).collect();
        let ticks: u32 = amounts.iter().sum();
        let mut times: Vec<u32> = order.iter().map(|_| start + random.within(0, ticks / spread)).collect();
        times.sort_unstable();
        start = times[31] + ticks;
        workload.times.extend(times);
        workload.tasks.extend(order);
        workload.amounts.extend(amounts);
    }
    workload
}

/// A named workload; `G_AMOUNT_SLICE` is 32 rows of half that amount to all of it, round robin with that slice.
pub fn workload(name: &str) -> Option<Workload> {
    let robin = |slice| Setup::round_robin(32, slice);
    let mut random = Random::new(1);
    Some(match name {
        "W1" => {
            let priorities: Vec<u8> = (0..32).map(|_| random.within(0, 255) as u8).collect();
            batches(Setup::priority(&priorities), 32, 1, 1_000, 4)
        }
        "W2" => batches(robin(10), 32, 1, 2_000, 4),
        "W3" => batches(robin(1), 1, 999_000, 1_000_000, 1_000_000),
        "W4" => batches(robin(1), 32, 1_000, 3_000, 4),
        "W5_2000" => batches(robin(2_000), 32, 100_000, 1_000_000, 4),
        "W5_1000" => batches(robin(1_000), 32, 100_000, 1_000_000, 4),
        "W5_500" => batches(robin(500), 32, 100_000, 1_000_000, 4),
        "W6" => Workload {
            setup: robin(65_535),
            times: (0..64).map(|i| 62_500_000 * i).collect(),
            tasks: (0..64).map(|i| i % 32).collect(),
            amounts: (0..64).map(|_| random.within(1, 1_000)).collect(),
        },
        _ => {
            let (amount, slice) = name.strip_prefix("G_")?.split_once('_')?;
            let amount: u32 = amount.parse().ok()?;
            batches(robin(slice.parse().ok()?), 1, amount / 2, amount, 4)
        }
    })
}
