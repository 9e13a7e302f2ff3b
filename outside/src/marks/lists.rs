//! Made-up lists of calls on marks: sets and returns in any order, mostly accepted; cells of all sizes; a cell changed in a mark that holds a day;
//! test loads of every length.
use super::inputs::{at, written};
use super::{cells_of, Call, Calls, ALL, CELLS, COUNT};
use crate::input::{self, Size, With};
use crate::plain::{self, Day, MAX_PERIODS, MAX_TOTAL, NO_LIMIT};
use crate::random::Random;

/// A number up to a limit: none, the limit, of few bits or any.
fn up_to(random: &mut Random, limit: u64) -> u64 {
    let drawn = random.next() >> random.between(30, 63);
    match random.between(0, 7) {
        0 => 0,
        1 => limit,
        2 => drawn.min(limit),
        _ => random.between(0, limit),
    }
}

/// A day of n periods with values of every size, up to their limits.
pub fn any_day(random: &mut Random, n: usize) -> Day {
    let asked = up_to(random, MAX_TOTAL);
    let closing = if random.once_in(3) { 0 } else { up_to(random, asked) };
    let mut table = |limit: u64| (0..n).map(|_| up_to(random, limit)).collect::<Vec<u64>>();
    let [capacity, store] = [(); 2].map(|_| input::narrow16(table(NO_LIMIT as u64)));
    let [setup, unit, holding] = [plain::MAX_SETUP, plain::MAX_UNIT, plain::MAX_HOLDING].map(|limit| input::narrow32(table(limit)));
    let demand = input::narrow16(input::spread(random, n, asked - closing));
    Day { demand, capacity, setup, unit, holding, store, opening: up_to(random, asked) as u16, closing: closing as u16 }
}

/// A day to set: as other calls have them, or with values of every size.
fn day(random: &mut Random) -> Day {
    let size = match random.between(0, 15) {
        0 => Size::Limits,
        1..=3 => Size::Middle,
        4..=8 => Size::Tiny,
        _ => {
            let n = random.between(1, MAX_PERIODS as u64) as usize;
            return any_day(random, n);
        }
    };
    // limits that bind take long to find on the longest days
    let with = random.pick(if size == Size::Limits { &[With::NOTHING, With::ENDS] } else { &[With::STORES, With::BOTH] });
    input::day(random, input::Call::Weigh, size, with)
}

/// One that a set refuses.
fn damaged(random: &mut Random) -> Day {
    let numbers: Vec<u64> = (0..random.between(1, 2)).map(|_| random.pick(&[1, 2, 3, 4, 14])).collect();
    input::damaged(random, input::Call::Weigh, Size::Tiny, With::BOTH, &numbers).day
}

/// Tables for a day of n periods: just as long, longer, for any day; or a cell too short.
fn tables(random: &mut Random, n: usize) -> [usize; 6] {
    let mut tables = match random.between(0, 3) {
        0 => [MAX_PERIODS; 6],
        1 => [n; 6].map(|n| n + random.between(0, 3) as usize),
        _ => [n; 6],
    };
    if random.once_in(10) {
        tables[random.index(6)] = n.saturating_sub(1);
    }
    tables
}

/// A list of sets and returns, mostly on fresh marks, all or few of them.
fn list(random: &mut Random) -> Calls {
    let length = random.pick(&[ALL, ALL, ALL, ALL + 1, ALL + CELLS]);
    let marks = if random.once_in(4) { written(length) } else { [vec![0; ALL], written(length - ALL)].concat() };
    let few = random.pick(&[2, 3, COUNT, COUNT, COUNT]);
    // how long the day is that was last set in each mark
    let mut lengths = [1; COUNT];
    let mut calls = vec![];
    for _ in 0..random.between(10, 300) {
        let mark = 1 + random.index(few);
        let said = if random.once_in(20) { random.pick(&[0, 9, 10, COUNT + mark, 256 + mark, usize::MAX]) } else { mark };
        calls.push(match random.between(0, 9) {
            0 => Call::Set(said, damaged(random)),
            1..=4 => {
                let day = day(random);
                if said == mark {
                    lengths[mark - 1] = day.periods();
                }
                Call::Set(said, day)
            }
            _ => Call::Return(said, tables(random, lengths[mark - 1])),
        });
    }
    Calls { marks, calls }
}

/// Cells of few bits or many, by their place in a mark, so that each test passes here and there; now and then too few.
fn cells(random: &mut Random) -> Vec<u32> {
    let length = if random.once_in(8) { ALL - random.between(1, 9) as usize } else { ALL };
    let mut bits = [(); 9].map(|_| random.pick(&[3, 5, 6, 7, 9, 12, 16]));
    bits[0] = random.pick(&[3, 5, 6, 7]);
    if random.once_in(3) {
        bits[random.index(9)] = random.pick(&[13, 17, 20, 21, 30, 31, 32]);
    }
    let mut cell = |i: usize| {
        let place = i % CELLS;
        let part = if place < 3 { place } else { 3 + (place - 3) / MAX_PERIODS };
        (random.next() >> (64 - bits[part])) as u32
    };
    (0..length).map(&mut cell).collect()
}

/// Returns of all marks.
fn all_returned(random: &mut Random, marks: Vec<u32>) -> Calls {
    let calls = (1..=COUNT).map(|mark| {
        let n = (marks.get((mark - 1) * CELLS).copied().unwrap_or(0) as usize).min(MAX_PERIODS + 1);
        Call::Return(mark, tables(random, n))
    });
    Calls { calls: calls.collect(), marks }
}

/// Marks that hold days, and in each a cell changed: one of n, A, Z, of the tables' front, or any.
fn changed(random: &mut Random) -> Calls {
    let mut marks = vec![];
    for _ in 0..COUNT {
        let day = day(random);
        let mut cells = cells_of(&day);
        let (table, i) = (random.index(6), random.index(day.periods() + 1));
        let place = match random.between(0, 3) {
            0 => random.index(3),
            1 => random.index(CELLS),
            _ => at(table, i).min(CELLS - 1),
        };
        let old = cells[place];
        let limits = [96, 4096, 65_535, 500_000, 1_000_000, 1_000_000_000];
        cells[place] = match random.between(0, 4) {
            0 => random.pick(&limits) + random.between(0, 1) as u32,
            1 => old ^ 1 << random.between(0, 31),
            2 => old.wrapping_add(1),
            3 => old.wrapping_sub(1),
            _ => random.next() as u32 >> random.between(0, 31),
        };
        marks.extend(cells);
    }
    all_returned(random, marks)
}

/// Test loads of every length, each set in a mark and returned.
fn test_loads(random: &mut Random) -> Calls {
    let mut calls = vec![];
    for n in 1..=MAX_PERIODS {
        let mark = 1 + random.index(COUNT);
        calls.extend([Call::Set(mark, plain::test_load(random.next() as u32, n)), Call::Return(mark, tables(random, n))]);
    }
    Calls { marks: vec![0; ALL], calls }
}

/// One of these lists.
pub fn made_up(random: &mut Random) -> Calls {
    match random.between(0, 99) {
        0..=29 => list(random),
        30..=69 => {
            let marks = cells(random);
            all_returned(random, marks)
        }
        70..=98 => changed(random),
        _ => test_loads(random),
    }
}
