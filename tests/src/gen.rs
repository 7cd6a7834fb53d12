//! Seeded cases: setups, call sequences, tables, and logs whole or damaged.

use crate::jumps::Jumps;
use crate::{Call, Replay, Row, Setup, BLOCK, LAST_TIME, MOST_AMOUNT};

/// Marsaglia's xorshift on 64 bits, with a multiplied output.
#[derive(Clone)]
pub struct Random(u64);

impl Random {
    pub fn new(seed: u64) -> Random {
        let mut random = Random(seed.wrapping_mul(0x9E37_79B9_7F4A_7C15) | 1);
        random.word();
        random
    }

    pub fn word(&mut self) -> u64 {
        self.0 ^= self.0 >> 12;
        self.0 ^= self.0 << 25;
        self.0 ^= self.0 >> 27;
        self.0.wrapping_mul(0x2545_F491_4F6C_DD1D)
    }

    /// A number from `least` to `most`, both included.
    pub fn within(&mut self, least: u32, most: u32) -> u32 {
        let span = u64::from(most) - u64::from(least) + 1;
        least + ((self.word() >> 16) % span) as u32
    }

    /// Holds once in `times`.
    pub fn once_in(&mut self, times: u32) -> bool {
        self.within(1, times) == 1
    }

    pub fn of<T: Clone>(&mut self, list: &[T]) -> T {
        list[self.within(0, list.len() as u32 - 1) as usize].clone()
    }
}

/// How large accepted amounts are: small ones for the oracle, large ones for the jumps.
#[derive(Clone, Copy, PartialEq, Eq, Debug)]
pub enum Size {
    Small,
    Large,
}

// ---- Setups

/// A setup that is not refused.
pub fn good_setup(random: &mut Random) -> Setup {
    let count = match random.within(0, 9) {
        0 => 32,
        1 => random.within(1, 32),
        _ => random.within(1, 5),
    };
    if random.once_in(2) {
        let most = random.of(&[0, 1, 2, 255]);
        let priorities: Vec<u8> = (0..count).map(|_| random.within(0, most) as u8).collect();
        Setup::priority(&priorities)
    } else {
        let slice = match random.within(0, 9) {
            0 => 65_535,
            1 => random.within(1, 65_535),
            2 => random.within(1, 40),
            _ => random.within(1, 4),
        };
        Setup::round_robin(count, slice)
    }
}

/// A setup with one or more numbers at the edge of what is taken, or past it.
pub fn edge_setup(random: &mut Random) -> Setup {
    let mut setup = good_setup(random);
    for _ in 0..random.within(1, 2) {
        match random.within(0, 5) {
            0 => setup.policy = random.of(&[0, 1, 2, 3, 258, u32::MAX]),
            1 => setup.count = random.of(&[0, 1, 31, 32, 33, 257, u32::MAX]),
            2 => setup.slice = random.of(&[0, 1, 65_535, 65_536, 65_537, u32::MAX]),
            3 => {
                let length = random.of(&[0, 1, 31, 33, 64]);
                setup.priorities.resize(length, 0);
            }
            4 if !setup.priorities.is_empty() => {
                let last = setup.priorities.len() - 1;
                let any = random.within(0, last as u32) as usize;
                let at = random.of(&[0, last, (setup.count as usize).min(last), any]);
                setup.priorities[at] = random.of(&[0, 1, 255]);
            }
            _ => {}
        }
    }
    setup
}

// ---- Calls and tables

/// A run's setup and the calls on it.
#[derive(Clone, Debug)]
pub struct CallCase {
    pub setup: Setup,
    pub calls: Vec<Call>,
}

/// A table as it is lent, with the length of the result column.
#[derive(Clone, Debug)]
pub struct TableCase {
    pub setup: Setup,
    pub times: Vec<u32>,
    pub tasks: Vec<u32>,
    pub amounts: Vec<u32>,
    pub room: usize,
}

impl TableCase {
    pub fn of(setup: &Setup, rows: &[Row]) -> TableCase {
        TableCase {
            setup: setup.clone(),
            times: rows.iter().map(|row| row.time).collect(),
            tasks: rows.iter().map(|row| row.task).collect(),
            amounts: rows.iter().map(|row| row.amount).collect(),
            room: rows.len(),
        }
    }
}

/// Draws calls whose times fall on and beside the instants at which something happens. The run that finds these
/// instants only steers what is drawn.
struct Drawer<'a> {
    random: &'a mut Random,
    setup: Setup,
    run: <Jumps as Replay>::Run,
    size: Size,
}

impl Drawer<'_> {
    fn time(&mut self) -> u32 {
        let clock = Jumps.clock(&self.run);
        let next = Jumps.next(&self.run).map_or(clock, |(_, at)| at);
        let span = match self.size {
            Size::Small => 12,
            Size::Large => MOST_AMOUNT,
        };
        match self.random.within(0, 39) {
            0 => self.random.of(&[0, LAST_TIME + 1, u32::MAX]),
            1 => clock.saturating_sub(self.random.within(1, 3)),
            2 if self.random.once_in(4) => self.random.of(&[LAST_TIME - 1, LAST_TIME]),
            3..=12 => clock,
            13..=16 => next,
            17 => next.saturating_sub(1),
            18 => next.saturating_add(1),
            19..=21 => clock.saturating_add(self.setup.slice),
            22 => clock.saturating_add(Jumps.total_owed(&self.run)),
            _ => clock.saturating_add(self.random.within(0, span)),
        }
    }

    fn task(&mut self) -> u32 {
        match self.random.within(0, 29) {
            0 => self.random.of(&[self.setup.count, 31, 32, 256, u32::MAX]),
            // A task that is not open, if there is one: most drawn requests should be taken.
            1..=20 => {
                let start = self.random.within(0, self.setup.count - 1);
                let turned = (0..self.setup.count).map(|i| (start + i) % self.setup.count);
                let closed = turned.clone().find(|&task| Jumps.owed(&self.run, task) == Ok(0));
                closed.unwrap_or(start)
            }
            _ => self.random.within(0, self.setup.count - 1),
        }
    }

    fn amount(&mut self) -> u32 {
        match (self.random.within(0, 39), self.size) {
            (0, _) => self.random.of(&[0, MOST_AMOUNT + 1, u32::MAX]),
            (1, Size::Small) if self.random.once_in(40) => MOST_AMOUNT,
            (2, _) => self.setup.slice.clamp(1, 60),
            (3, _) => (2 * self.setup.slice).clamp(1, 60),
            (_, Size::Small) => self.random.within(1, 9),
            (4, Size::Large) => self.random.of(&[MOST_AMOUNT - 1, MOST_AMOUNT]),
            (5..=20, Size::Large) => self.random.within(1, MOST_AMOUNT),
            (_, Size::Large) => self.random.within(1, 2_000),
        }
    }

    fn row(&mut self) -> Row {
        Row { time: self.time(), task: self.task(), amount: self.amount() }
    }

    fn call(&mut self) -> Call {
        let call = match self.random.within(0, 19) {
            0 => Call::Drain,
            1..=6 => Call::Advance(self.time()),
            _ => Call::Request(self.row()),
        };
        let _ = Jumps.call(&mut self.run, call);
        call
    }
}

fn drawer(random: &mut Random, size: Size) -> Drawer<'_> {
    let mut setup = good_setup(random);
    if size == Size::Large && setup.policy == 2 && random.once_in(2) {
        setup.slice = random.within(50, 65_535);
    }
    let run = Jumps.setup(&setup).expect("a good setup is taken");
    Drawer { random, setup, run, size }
}

/// A sequence of up to `most` calls, refused ones among them; one in eight begins beside the last time.
pub fn call_case(random: &mut Random, size: Size, most: u32) -> CallCase {
    let length = random.within(1, most);
    let late = random.once_in(8);
    let mut drawer = drawer(random, size);
    let mut calls = Vec::new();
    if late {
        let back = match size {
            Size::Small => 30,
            Size::Large => 3 * MOST_AMOUNT,
        };
        let start = Call::Advance(LAST_TIME - drawer.random.within(0, back));
        let _ = Jumps.call(&mut drawer.run, start);
        calls.push(start);
    }
    for _ in 0..length {
        calls.push(drawer.call());
    }
    CallCase { setup: drawer.setup, calls }
}

/// Up to `most` drawn rows. Of those that would be refused only one in 40 stays, so that most tables are taken.
fn rows_of(drawer: &mut Drawer, most: u32) -> Vec<Row> {
    let mut rows = Vec::new();
    for _ in 0..drawer.random.within(0, most) {
        let row = drawer.row();
        if Jumps.request(&mut drawer.run, row).is_ok() || drawer.random.once_in(40) {
            rows.push(row);
        }
    }
    rows
}

pub fn table_case(random: &mut Random, size: Size, most: u32) -> TableCase {
    let mut drawer = drawer(random, size);
    let rows = rows_of(&mut drawer, most);
    let mut case = TableCase::of(&drawer.setup, &rows);
    case.room += random.of(&[0, 0, 1, 5]);
    if random.once_in(12) {
        case.setup = edge_setup(random);
    }
    if random.once_in(12) {
        for column in [&mut case.times, &mut case.tasks, &mut case.amounts] {
            match random.within(0, 5) {
                0 => column.push(0),
                1 => drop(column.pop()),
                _ => {}
            }
        }
    }
    if random.once_in(12) {
        case.room = random.within(0, case.room as u32) as usize;
    }
    case
}

// ---- Logs

/// Writes the rows as a log, without judging anything: more than 1,024 rows make more blocks.
pub fn log_of(setup: &Setup, rows: &[Row]) -> Vec<u8> {
    let mut head: Vec<u8> =
        [0, setup.policy, setup.count, setup.slice].iter().flat_map(|word| word.to_le_bytes()).collect();
    head.extend(&setup.priorities);
    head.resize(BLOCK, 0);
    let mut log = head;
    for (i, records) in rows.chunks(41).enumerate() {
        let mut words = vec![i as u32 + 1, records.len() as u32];
        words.extend(records.iter().flat_map(|row| [row.time, row.task, row.amount]));
        words.resize(128, 0);
        log.extend(words.iter().flat_map(|word| word.to_le_bytes()));
    }
    repair(&mut log);
    log
}

/// Writes the right check into every whole block.
pub fn repair(log: &mut [u8]) {
    for block in log.chunks_exact_mut(BLOCK) {
        let words = block[..508].chunks_exact(4).map(|four| u32::from_le_bytes([four[0], four[1], four[2], four[3]]));
        let check = words.fold(1u32, u32::wrapping_add);
        block[508..].copy_from_slice(&check.to_le_bytes());
    }
}

/// A change of a log's bytes. Blocks and bytes that the log does not have are left out.
#[derive(Clone, Debug, PartialEq, Eq)]
pub enum Damage {
    /// Adds to a byte of a block, wrapping.
    Byte { block: usize, at: usize, add: u8 },
    /// Puts a word in a block.
    Word { block: usize, word: usize, value: u32 },
    /// Cuts the log, or lengthens it by zero bytes.
    Length(usize),
    /// Exchanges two blocks.
    Swap(usize, usize),
    /// Gives every block its right check again.
    Repair,
}

pub fn damage(log: &mut Vec<u8>, damage: &Damage) {
    let blocks = log.len() / BLOCK;
    match *damage {
        Damage::Byte { block, at, add } if block < blocks => {
            let byte = &mut log[BLOCK * block + at];
            *byte = byte.wrapping_add(add);
        }
        Damage::Word { block, word, value } if block < blocks => {
            log[BLOCK * block + 4 * word..][..4].copy_from_slice(&value.to_le_bytes());
        }
        Damage::Length(length) => log.resize(length, 0),
        Damage::Swap(a, b) if a < blocks && b < blocks => {
            for i in 0..BLOCK {
                log.swap(BLOCK * a + i, BLOCK * b + i);
            }
        }
        Damage::Repair => repair(log),
        _ => {}
    }
}

/// A log and what was done to it.
#[derive(Clone, Debug)]
pub struct LogCase {
    pub setup: Setup,
    pub rows: Vec<Row>,
    pub damages: Vec<Damage>,
}

impl LogCase {
    pub fn bytes(&self) -> Vec<u8> {
        let mut log = log_of(&self.setup, &self.rows);
        for each in &self.damages {
            damage(&mut log, each);
        }
        log
    }
}

fn draw_damage(random: &mut Random, blocks: usize) -> Damage {
    let block = random.within(0, blocks as u32 - 1) as usize;
    let record_block = random.within(1, (blocks as u32 - 1).max(1)) as usize;
    let add = random.of(&[1, 128, 255]);
    match random.within(0, 13) {
        0 => Damage::Byte { block, at: random.within(508, 511) as usize, add },
        1 | 2 => Damage::Byte { block, at: random.within(0, 507) as usize, add },
        3 => Damage::Word { block, word: 0, value: random.of(&[0, block as u32 + 1, 256 + block as u32, u32::MAX]) },
        4 => Damage::Byte { block: 0, at: random.of(&[48, 49, 61, 62, 507]), add },
        5 => Damage::Word { block: 0, word: 1, value: random.of(&[0, 1, 2, 3, u32::MAX]) },
        6 => Damage::Word { block: 0, word: 2, value: random.of(&[0, 1, 32, 33, u32::MAX]) },
        7 => Damage::Word { block: 0, word: 3, value: random.of(&[0, 1, 65_535, 65_536, u32::MAX]) },
        8 => Damage::Byte { block: 0, at: random.within(16, 47) as usize, add },
        9 => Damage::Word {
            block: record_block,
            word: 1,
            value: random.of(&[0, 1, 40, 41, 42, 43, 357_913_942, u32::MAX]),
        },
        10 => Damage::Byte { block: record_block, at: random.of(&[488, 499, 500, 504, 507]), add },
        11 => Damage::Length(random.of(&[
            0,
            1,
            511,
            512,
            513,
            BLOCK * blocks - 1,
            BLOCK * blocks + 1,
            BLOCK * (blocks + 1),
            13_312,
            13_313,
            13_824,
        ])),
        12 => Damage::Swap(block, record_block),
        _ => Damage::Word {
            block: record_block,
            word: random.within(2, 124) as usize,
            value: random.of(&[0, 1, LAST_TIME + 1, u32::MAX]),
        },
    }
}

/// The record counts at which the layout changes.
pub const RECORD_COUNTS: [usize; 12] = [0, 1, 2, 40, 41, 42, 82, 83, 983, 1_023, 1_024, 1_025];

/// Exactly `count` rows that are taken, at small times: each is a tick or two of a task that is not open.
pub fn dense_rows(random: &mut Random, setup: &Setup, count: usize) -> Vec<Row> {
    let mut run = Jumps.setup(setup).expect("a good setup is taken");
    let mut rows = Vec::new();
    while rows.len() < count {
        let now = Jumps.clock(&run);
        let closed: Vec<u32> = (0..setup.count).filter(|&task| Jumps.owed(&run, task) == Ok(0)).collect();
        if closed.is_empty() {
            let (_, at) = Jumps.next(&run).expect("a task is open");
            Jumps.advance(&mut run, at).unwrap();
            continue;
        }
        let row = Row { time: now + random.within(0, 1), task: random.of(&closed), amount: random.within(1, 6) };
        Jumps.request(&mut run, row).unwrap();
        rows.push(row);
    }
    rows
}

/// A log with up to three damages, and in half of the damaged ones all checks right again.
pub fn log_case(random: &mut Random) -> LogCase {
    let (mut setup, rows) = if random.once_in(3) {
        let setup = good_setup(random);
        let count = random.of(&RECORD_COUNTS);
        let rows = dense_rows(random, &setup, count);
        (setup, rows)
    } else {
        let most = random.of(&[3, 45, 100]);
        let mut drawer = drawer(random, Size::Small);
        let rows = rows_of(&mut drawer, most);
        (drawer.setup, rows)
    };
    if random.once_in(10) {
        setup = edge_setup(random);
        setup.priorities.resize(32, 0);
    }
    let blocks = 1 + rows.len().div_ceil(41);
    let mut damages: Vec<Damage> =
        (0..random.of(&[0, 0, 1, 1, 1, 2, 3])).map(|_| draw_damage(random, blocks)).collect();
    if !damages.is_empty() && random.once_in(2) {
        damages.push(Damage::Repair);
    }
    LogCase { setup, rows, damages }
}
