//! Calls on marks that are gone through one by one: every refusal of a set in all combinations; marks, lengths and values around their limits;
//! days of every length in every mark, and one over another; cells that something else wrote, with each reason to hold no day alone and with the
//! others, numbers that wrap in 16 or 32 bits, and anything in the cells that no call reads; tables around what a return needs.
use super::lists::any_day;
use super::{cells_of, Call, Calls, ALL, CELLS, COUNT};
use crate::ends;
use crate::plain::{self, Day, MAX_PERIODS, NO_LIMIT};
use crate::random::{mix, Random};

/// The most that a cell of each table may hold: r, c, b, p, h, s.
const LIMITS: [u32; 6] = [
    plain::MAX_DEMAND as u32,
    NO_LIMIT as u32,
    plain::MAX_SETUP as u32,
    plain::MAX_UNIT as u32,
    plain::MAX_HOLDING as u32,
    NO_LIMIT as u32,
];

/// Numbers that are no mark's: around the limits, and of a mark's number but for higher bytes.
const NO_MARKS: [usize; 10] = [0, 9, 10, 256, 257, 65_537, 1 << 32, (1 << 32) + 1, (1 << 63) + 8, usize::MAX];

/// Lengths enough for all marks, for one mark more, and too short.
const LENGTHS: [usize; 9] = [ALL, ALL + 1, ALL + CELLS, ALL - 1, 2 * CELLS, CELLS, CELLS - 1, 1, 0];

/// Cells that something else wrote: none is 0, and hardly one is within a limit.
pub fn written(length: usize) -> Vec<u32> {
    (0..length).map(|i| mix(i as u64) as u32 | 1).collect()
}

fn fresh(length: usize) -> Vec<u32> {
    vec![0; length]
}

/// Lent cells with these in the numbered mark, as far as they reach.
fn with_mark(mut marks: Vec<u32>, mark: usize, cells: &[u32]) -> Vec<u32> {
    let places = marks.iter_mut().skip((mark - 1) * CELLS);
    places.zip(cells).for_each(|(place, &cell)| *place = cell);
    marks
}

/// The place of a table's cell among its mark's.
pub fn at(table: usize, i: usize) -> usize {
    3 + MAX_PERIODS * table + i
}

/// Cells with other numbers in some places.
fn with(cells: &[u32], places: &[(usize, u32)]) -> Vec<u32> {
    let mut cells = cells.to_vec();
    places.iter().for_each(|&(place, number)| cells[place] = number);
    cells
}

/// With cells past n that something else wrote.
fn with_rest(mut cells: Vec<u32>) -> Vec<u32> {
    let n = cells[0] as usize;
    for (k, i) in (0..6).flat_map(|k| (n..MAX_PERIODS).map(move |i| (k, i))) {
        cells[at(k, i)] = u32::MAX - at(k, i) as u32;
    }
    cells
}

/// Three periods, no two cells alike. It asks for 16.
fn example() -> Day {
    Day {
        demand: vec![5, 0, 7],
        capacity: vec![900, 65_535, 40],
        setup: vec![1_000_000_000, 11, 70_000],
        unit: vec![1_000_000, 13, 66_000],
        holding: vec![500_000, 17, 65_600],
        store: vec![65_534, 600, 1],
        opening: 2,
        closing: 4,
    }
}

/// The same ends and needs, with numbers that any table may hold: also where tables are taken for one another.
fn small() -> Day {
    let costs = |cost: u32| vec![cost; 3];
    Day { capacity: vec![8; 3], setup: costs(9), unit: costs(10), holding: costs(11), store: vec![12; 3], ..example() }
}

fn set_all(marks: Vec<u32>, mark: usize, days: impl IntoIterator<Item = Day>) -> Calls {
    Calls { marks, calls: days.into_iter().map(|day| Call::Set(mark, day)).collect() }
}

fn return_all(marks: Vec<u32>, mark: usize, lent: &[[usize; 6]]) -> Calls {
    Calls { marks, calls: lent.iter().map(|&lent| Call::Return(mark, lent)).collect() }
}

/// Tables for n periods: just as many cells, more, many more; a cell too few in all, or none; a cell too few in one, none in one; the same in two.
fn tables(n: usize) -> Vec<[usize; 6]> {
    let (more, less) = (std::array::from_fn(|table| n + 1 + table), n.saturating_sub(1));
    let mut lent = vec![[n; 6], more, [MAX_PERIODS; 6], [256 + less; 6], [less; 6], [0; 6]];
    for apart in [0, 2] {
        for (enough, short) in [([n; 6], less), (more, less), (more, 0)] {
            lent.extend((0..6).map(|table| {
                let mut tables = enough;
                (tables[table], tables[(table + apart) % 6]) = (short, short);
                tables
            }));
        }
    }
    lent
}

/// A value in one of a day's tables.
fn put(day: &mut Day, table: usize, i: usize, value: u32) {
    let Day { demand, capacity, setup, unit, holding, store, .. } = day;
    match table {
        0 => demand[i] = value as u16,
        1 => capacity[i] = value as u16,
        2 => setup[i] = value,
        3 => unit[i] = value,
        4 => holding[i] = value,
        _ => store[i] = value as u16,
    }
}

/// Days with each fault that a set refuses, alone and in all combinations: no periods or too many; a table longer or shorter; a value above its limit
/// in the first period, in the last or in two; too much need or closing charge; too much charge to begin with.
fn faulty() -> Vec<Day> {
    let longer = |n: usize| Day { opening: 2, closing: 4, ..ends::day(n, 12, 5, 0, 0) };
    let no_needs = Day { demand: vec![], ..small() };
    let counts = [small(), Day::default(), no_needs, longer(MAX_PERIODS), longer(MAX_PERIODS + 1)];
    let values: [fn(&mut Day, usize); 6] = [
        |_, _| {},
        |day, _| put(day, 0, 0, 4097),
        |day, last| put(day, 2, last, 1_000_000_001),
        |day, _| put(day, 3, 0, 1_000_001),
        |day, last| put(day, 4, last, 500_001),
        |day, last| {
            put(day, 3, last, u32::MAX);
            put(day, 4, last / 2, u32::MAX);
        },
    ];
    let totals: [fn(&mut Day); 3] = [|_| {}, |day| day.closing = 4085, |day| day.demand.iter_mut().skip(1).for_each(|need| *need = 4096)];
    let openings: [fn(&mut Day); 3] = [|_| {}, |day| day.opening = (day.asked() + 1).min(65_535) as u16, |day| day.opening = u16::MAX];
    let lengths: [fn(&mut Day); 6] = [
        |_| {},
        |day| day.capacity.push(1),
        |day| day.setup.truncate(1),
        |day| day.unit.clear(),
        |day| day.holding.push(u32::MAX),
        |day| day.store.truncate(day.periods().saturating_sub(1)),
    ];
    let mut days = vec![];
    for count in &counts {
        for value in &values[..if count.periods() == 0 { 1 } else { values.len() }] {
            for (total, opening) in totals.iter().flat_map(|total| openings.iter().map(move |opening| (total, opening))) {
                for length in lengths {
                    let mut day = count.clone();
                    value(&mut day, count.periods().saturating_sub(1));
                    total(&mut day);
                    opening(&mut day);
                    length(&mut day);
                    days.push(day);
                }
            }
        }
    }
    days
}

/// Each of these for a mark and for none, in too few cells and in enough.
fn refused_sets() -> impl Iterator<Item = Calls> {
    let lengths = [ALL, ALL - 1, CELLS, 0];
    let places = lengths.into_iter().flat_map(|length| [3, 8, 0, 9].map(|mark| (length, mark)));
    places.map(|(length, mark)| set_all(written(length), mark, faulty()))
}

/// A day with a value around its limit in each table, in the first period, the last or between; need, closing and opening charge around what they may
/// be, and as large as they can be, also where the sum is small in 16 bits.
fn limit_days() -> Vec<Day> {
    let mut days = vec![];
    for n in [1, 2, MAX_PERIODS] {
        for (k, i) in (0..6).flat_map(|k| [0, n / 2, n - 1].map(|i| (k, i))) {
            let most = if matches!(k, 0 | 1 | 5) { u16::MAX as u32 } else { u32::MAX };
            for value in [0, LIMITS[k] - 1, LIMITS[k], LIMITS[k].saturating_add(1).min(most), most] {
                let mut day = ends::day(n, 0, 0, 0, 0);
                put(&mut day, k, i, value);
                days.push(day);
            }
        }
        for (total, closing) in
            [0, 1, 12, 4095, 4096, 4097].into_iter().flat_map(|total| [0, 1, 4084, 4095, 4096, 4097, 65_535].map(|z| (total, z)))
        {
            let asked = total as u64 + closing as u64;
            let openings = [0, 1, asked.saturating_sub(1), asked, asked + 1, 65_535];
            days.extend(openings.map(|opening| ends::day(n, total, 5, opening.min(65_535) as u16, closing)));
        }
        let most = n * plain::MAX_DEMAND as usize;
        days.extend([0, 4096, 65_535].map(|closing| ends::day(n, most, 5, 0, closing)));
    }
    // so many periods that they are few in a byte or two
    days.extend([256 + 3, 65_536 + 3].map(|n| ends::day(n, 12, 5, 0, 0)));
    // sums of 65,536, and of 4,096 more
    days.extend([(15, 4096), (16, 0), (17, 0), (16, 4096), (1, 61_440)].map(|(n, closing)| ends::day(n, 4096 * n, 5, 0, closing)));
    days
}

fn limit_sets() -> impl Iterator<Item = Calls> {
    limit_days().into_iter().enumerate().map(|(i, day)| {
        let mark = 1 + i % COUNT;
        let returned = Call::Return(mark, [day.periods(); 6]);
        Calls { marks: written(ALL), calls: vec![Call::Set(mark, day), returned] }
    })
}

/// Every mark and numbers that are none, in parts of every length; each is set and returned. A mark that has its cells may still be in a part
/// that is too short.
fn places() -> impl Iterator<Item = Calls> {
    let lengths = LENGTHS.into_iter().chain((3..COUNT).flat_map(|mark| [mark * CELLS - 1, mark * CELLS])).chain([2 * ALL, 65_536 + 5]);
    lengths.flat_map(|length| {
        (1..=COUNT).chain(NO_MARKS).flat_map(move |mark| {
            let calls = vec![Call::Set(mark, example()), Call::Return(mark, [3; 6]), Call::Return(mark, [2; 6])];
            [fresh(length), written(length)].map(|marks| Calls { marks, calls: calls.clone() })
        })
    })
}

/// A day of every length in every mark, over cells that something else wrote, and over fresh ones; the mark and its neighbours are returned.
fn every_length() -> impl Iterator<Item = Calls> {
    (1..=MAX_PERIODS).flat_map(|n| (1..=COUNT).map(move |mark| (n, mark))).map(|(n, mark)| {
        let day = any_day(&mut Random::new((n * COUNT + mark) as u64), n);
        let marks = if (n + mark) % 3 == 0 { fresh(ALL + n) } else { written(ALL + n) };
        let mut calls = vec![Call::Set(mark, day), Call::Return(mark, [n; 6])];
        calls.extend([mark - 1, mark + 1].map(|mark| Call::Return(mark, [MAX_PERIODS; 6])));
        Calls { marks, calls }
    })
}

/// A day over another one of another length or of the same, in one mark while its neighbours hold days too.
fn over_another() -> impl Iterator<Item = Calls> {
    let lengths = [1, 2, 3, 50, 95, MAX_PERIODS];
    let pairs = lengths.into_iter().flat_map(move |first| lengths.map(|second| (first, second)));
    pairs.enumerate().map(|(i, (first, second))| {
        let mut random = Random::new(i as u64);
        let mark = 2 + i % (COUNT - 2);
        let mut set = |mark: usize, n: usize| Call::Set(mark, any_day(&mut random, n));
        let mut calls = vec![set(mark - 1, 96), set(mark, first), set(mark + 1, 1), set(mark, second)];
        calls.extend((1..=COUNT).map(|mark| Call::Return(mark, [MAX_PERIODS; 6])));
        calls.extend(tables(second).into_iter().map(|lent| Call::Return(mark, lent)));
        Calls { marks: fresh(ALL), calls }
    })
}

/// Each reason to hold no day, as numbers in cells of the example: n; a value; Z; A. Some are right in 8, 16 or 32 bits, or as small as right ones.
fn reasons() -> [Vec<Vec<(usize, u32)>>; 4] {
    let one = |place: usize, numbers: &[u32]| numbers.iter().map(|&number| vec![(place, number)]).collect::<Vec<_>>();
    let values = (0..6).flat_map(|k| [vec![(at(k, 1), LIMITS[k] + 1)], vec![(at(k, 2), 65_536 + 7), (at(k, 0), u32::MAX)]]);
    [
        one(0, &[0, 97, 256 + 3, 65_536 + 3, (1 << 30) + 3, (1 << 31) + 3, u32::MAX]),
        values.collect(),
        one(2, &[4085, 65_536 + 4, u32::MAX - 11, u32::MAX]),
        one(1, &[17, 65_536 + 2, u32::MAX]),
    ]
}

/// What a mark may hold: the example, with each reason alone, and with one of each in all combinations.
fn held(base: &[u32], all: bool) -> Vec<Vec<u32>> {
    let mut held = vec![base.to_vec()];
    for reasons in reasons() {
        let front = if all { held.clone() } else { vec![base.to_vec()] };
        held.extend(front.iter().flat_map(|cells| reasons.iter().map(move |reason| with(cells, reason))));
    }
    held
}

/// Such cells returned to tables of all kinds, from any place; in a part that is just enough also all combinations.
fn refused_returns() -> impl Iterator<Item = Calls> {
    let bases = || [with_rest(cells_of(&example())), cells_of(&small())];
    let alone = LENGTHS.into_iter().flat_map(move |length| {
        let cells = bases().into_iter().flat_map(|base| held(&base, false));
        cells.flat_map(move |cells| {
            [1, 2, COUNT]
                .into_iter()
                .map(move |mark| return_all(with_mark(written(length), mark, &cells), mark, &tables(3)[..12]))
                .collect::<Vec<_>>()
        })
    });
    let no_mark = LENGTHS.into_iter().flat_map(move |length| {
        // the same in the first mark, in the last and past it, where numbers that are none may lead
        bases().into_iter().flat_map(|base| held(&base, false)).map(move |cells| {
            let marks = [1, COUNT, COUNT + 1].into_iter().fold(fresh(length), |marks, mark| with_mark(marks, mark, &cells));
            let calls = NO_MARKS.into_iter().flat_map(|mark| [[3; 6], [2; 6], [0; 6]].map(|lent| Call::Return(mark, lent))).collect();
            Calls { marks, calls }
        })
    });
    let together = bases().into_iter().flat_map(|base| held(&base, true)).enumerate().map(|(i, cells)| {
        let mark = 1 + i % COUNT;
        return_all(with_mark(fresh(ALL), mark, &cells), mark, &[[3; 6], [256 + 2; 6], [2; 6]])
    });
    alone.chain(no_mark).chain(together)
}

/// A number around its limit or small in 16 bits in each table, in the first period, the last, between, and right past the last, where it is not read.
fn limit_cells() -> impl Iterator<Item = Calls> {
    let places = [1, 2, 95, MAX_PERIODS].into_iter().flat_map(|n| (0..6).flat_map(move |k| [0, n / 2, n - 1, n].map(|i| (n, k, i))));
    places.filter(|&(_, _, i)| i < MAX_PERIODS).flat_map(|(n, k, i)| {
        let base = cells_of(&ends::day(n, 0, 0, 0, 0));
        let limit = LIMITS[k];
        [0, limit - 1, limit, limit + 1, 65_535, 65_536, 65_536 + 5, limit.wrapping_add(1 << 16), 1 << 31, u32::MAX]
            .map(|number| return_all(with_mark(fresh(ALL), 4, &with(&base, &[(at(k, i), number)])), 4, &[[n; 6]]))
    })
}

/// Need, Z and A in 32 bits: around what they may be; sums that are small in 16 or 32 bits; needs that come to 2^32 and more.
fn sums() -> impl Iterator<Item = Calls> {
    let even = |n: usize, total: usize| cells_of(&ends::day(n, total, 5, 0, 0));
    let mut needs: Vec<(u32, Vec<u32>)> = [1, 2, MAX_PERIODS]
        .into_iter()
        .flat_map(|n| [0, 1, 12, 4095, 4096].map(|total| (total as u32, even(n, total))))
        .chain([16, 17, MAX_PERIODS].map(|n| (4096 * n as u32, even(n, 4096 * n))))
        .collect();
    for table in [vec![1 << 31; 2], vec![u32::MAX, 1], vec![u32::MAX, 4097], vec![1 << 26; 64], vec![65_536; 2], vec![65_537, 3]] {
        let sum = table.iter().fold(0, |sum: u32, &need| sum.wrapping_add(need));
        let places: Vec<(usize, u32)> = table.iter().enumerate().map(|(i, &need)| (at(0, i), need)).collect();
        needs.push((sum, with(&even(table.len(), 0), &places)));
    }
    needs.into_iter().flat_map(|(total, cells)| {
        let n = cells[0] as usize;
        let rest = total.wrapping_neg();
        let closings = [0, 1, 4084, 4095, 4096, 4097, 65_535, 65_536, 65_536 + 4, 1 << 31, u32::MAX].into_iter().chain([
            rest,
            rest.wrapping_add(1),
            rest.wrapping_add(4096),
            rest.wrapping_add(4097),
        ]);
        closings
            .flat_map(|closing| {
                let asked = total.wrapping_add(closing);
                let openings = [
                    0,
                    1,
                    asked.wrapping_sub(1),
                    asked,
                    asked.wrapping_add(1),
                    65_535,
                    65_536,
                    asked.wrapping_add(65_536),
                    1 << 31,
                    u32::MAX,
                ];
                openings.map(|opening| return_all(with_mark(fresh(ALL), 8, &with(&cells, &[(1, opening), (2, closing)])), 8, &[[n; 6]]))
            })
            .collect::<Vec<_>>()
    })
}

/// Marks that each hold another day, or one of them does between others that something else wrote: all are returned, to tables that are too short
/// and to others, and once more.
fn neighbours() -> impl Iterator<Item = Calls> {
    let day = |mark: usize| any_day(&mut Random::new(mark as u64), 7 * mark);
    let full = (1..=COUNT).fold(written(ALL + 5), |marks, mark| with_mark(marks, mark, &cells_of(&day(mark))));
    let alone = (1..=COUNT).map(move |mark| with_mark(written(ALL + 5), mark, &with_rest(cells_of(&day(mark)))));
    alone.chain([full]).map(move |marks| {
        let once: Vec<Call> = (1..=COUNT).flat_map(|mark| tables(7 * mark).into_iter().map(move |lent| Call::Return(mark, lent))).collect();
        Calls { marks, calls: [&once[..], &once].concat() }
    })
}

/// So many cells in tables that they are too few in two bytes.
fn long_tables() -> impl Iterator<Item = Calls> {
    [return_all(with_mark(fresh(ALL), 1, &cells_of(&example())), 1, &[[65_536 + 2; 6]])].into_iter()
}

/// What is gone through one by one.
pub fn inputs() -> impl Iterator<Item = Calls> {
    let limits = limit_sets().chain(limit_cells()).chain(sums()).chain(long_tables());
    let accepted = every_length().chain(over_another()).chain(neighbours());
    places().chain(refused_sets()).chain(limits).chain(refused_returns()).chain(accepted)
}
