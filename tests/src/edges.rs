//! Calls whose numbers stand on and beside every limit, up to the last number of 32 bits.

use crate::gen::{edge_setup, good_setup, CallCase, Random};
use crate::jumps::{self, Jumps};
use crate::{Call, Replay, Row, Setup, LAST_TIME, MOST_AMOUNT};

/// Numbers that a wrong width or a wrong sign would take for others.
const WIDTHS: [u32; 6] = [255, 256, 65_536, 0x7FFF_FFFF, 0x8000_0000, u32::MAX];

fn time(random: &mut Random, run: &jumps::Run) -> u32 {
    let clock = Jumps.clock(run);
    let next = Jumps.next(run).map_or(clock, |(_, at)| at);
    let end = clock.saturating_add(Jumps.total_owed(run));
    match random.within(0, 11) {
        0 => random.of(&WIDTHS),
        1 => random.of(&[0, LAST_TIME - 1, LAST_TIME, LAST_TIME + 1, u32::MAX - 1]),
        2 => random.within(clock, u32::MAX),
        3..=7 => random.of(&[clock.saturating_sub(1), clock, clock, clock.saturating_add(1)]),
        8..=9 => random.of(&[next - 1.min(next), next, next.saturating_add(1)]),
        _ => random.of(&[end - 1.min(end), end, end.saturating_add(1)]),
    }
}

fn task(random: &mut Random, count: u32) -> u32 {
    match random.within(0, 7) {
        0 => random.of(&WIDTHS),
        1 => random.of(&[count - 1, count, 31, 32, 33]),
        _ => random.within(0, count - 1),
    }
}

fn amount(random: &mut Random) -> u32 {
    match random.within(0, 7) {
        0 => random.of(&WIDTHS),
        1 => random.of(&[0, MOST_AMOUNT + 1]),
        2 => random.of(&[MOST_AMOUNT - 1, MOST_AMOUNT]),
        _ => random.within(1, 9),
    }
}

/// The run on which the calls are made where a setup is refused: that of the header's "one plain setup".
pub fn plain_setup() -> Setup {
    Setup::priority(&[0])
}

/// Up to `most` calls with numbers at the limits; one setup in four is at its limits too, and may be refused.
pub fn edge_case(random: &mut Random, most: u32) -> CallCase {
    let setup = if random.once_in(4) { edge_setup(random) } else { good_setup(random) };
    let taken = if Jumps.setup(&setup).is_ok() { setup.clone() } else { plain_setup() };
    let mut run = Jumps.setup(&taken).expect("the setup is taken");
    let mut calls = Vec::new();
    for _ in 0..random.within(1, most) {
        let call = match random.within(0, 9) {
            0 => Call::Drain,
            1..=3 => Call::Advance(time(random, &run)),
            _ => {
                let (time, task) = (time(random, &run), task(random, taken.count));
                Call::Request(Row { time, task, amount: amount(random) })
            }
        };
        let _ = Jumps.call(&mut run, call);
        calls.push(call);
    }
    CallCase { setup, calls }
}
