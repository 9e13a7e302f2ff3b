//! Request 2.14 of the plain implementation: rows by hand; and the calls that are gone through one by one, which have to tell every wrong way to set
//! and return marks. Both calls are written here once more, cell by cell and in wide numbers. The order of their tests, their limits and the places of
//! the tables are lists, each wrong in turn; other slips have a name.
use crate::compare::marks::{expected, Left, Trial};
use crate::compare::AROUND;
use crate::marks::{self, Call, ALL, CELLS, COUNT};
use crate::plain::{Day, MAX_PERIODS, NO_LIMIT};
use std::ops::Range;

/// Two periods that need 5, with 1 to begin with and 1 to hand on.
fn example() -> Day {
    let (setup, unit, holding, store) = (vec![10, 11], vec![6, 7], vec![8, 9], vec![NO_LIMIT, 4]);
    Day { demand: vec![2, 3], capacity: vec![5, 12], setup, unit, holding, store, opening: 1, closing: 1 }
}

/// Cells of its mark, by their place, with another number each, and whether they still hold a day.
const HELD: &[(&[(usize, u32)], bool)] = &[
    (&[], true),
    // n, with all cells past it 0
    (&[(0, 0)], false),
    (&[(0, 1)], true),
    (&[(0, 96)], true),
    (&[(0, 97)], false),
    (&[(0, 258)], false),
    (&[(0, u32::MAX)], false),
    // A up to R + Z; R + Z up to 4,096
    (&[(1, 6)], true),
    (&[(1, 7)], false),
    (&[(1, 65_537)], false),
    (&[(2, 0)], true),
    (&[(2, 4091)], true),
    (&[(2, 4092)], false),
    (&[(2, 65_536)], false),
    (&[(2, u32::MAX - 4)], false),
    (&[(1, 4096), (2, 4091)], true),
    // the tables from the first cell on, each up to its limit
    (&[(2, 0), (3, 4093)], true),
    (&[(2, 0), (3, 4094)], false),
    (&[(0, 1), (2, 0), (3, 4096)], true),
    (&[(0, 1), (2, 0), (3, 4097)], false),
    (&[(99, 65_535)], true),
    (&[(99, 65_536)], false),
    (&[(100, 65_536)], false),
    (&[(195, 1_000_000_000)], true),
    (&[(195, 1_000_000_001)], false),
    (&[(291, 1_000_000)], true),
    (&[(291, 1_000_001)], false),
    (&[(387, 500_000)], true),
    (&[(387, 500_001)], false),
    (&[(483, 65_535)], true),
    (&[(483, 65_536)], false),
    // past n anything
    (&[(5, u32::MAX), (98, u32::MAX), (101, u32::MAX), (578, u32::MAX)], true),
];

fn check_rows() {
    assert_eq!((CELLS, ALL), (3 + 6 * MAX_PERIODS, COUNT * CELLS));
    let mut marks = vec![97; ALL + 1];
    let set = Call::Set(2, example());
    assert_eq!(set.carry_out(&mut marks), Ok(None));
    let mut right = [vec![97; 579], vec![0; 579], vec![97; 3475]].concat();
    let tables = [(582, [2, 3]), (678, [5, 12]), (774, [10, 11]), (870, [6, 7]), (966, [8, 9]), (1062, [65_535, 4])];
    right[579..582].copy_from_slice(&[2, 1, 1]);
    tables.iter().for_each(|&(place, cells)| right[place..place + 2].copy_from_slice(&cells));
    assert_eq!(marks, right);
    assert_eq!(Call::Return(2, [2; 6]).carry_out(&mut marks), Ok(Some(example())));
    for &(places, holds) in HELD {
        let mut cells = marks::cells_of(&example());
        places.iter().for_each(|&(place, number)| cells[place] = number);
        assert_eq!(marks::day_in(&cells).is_some(), holds, "{places:?}");
    }
    let (short, fresh, bad) = (vec![0; ALL - 1], vec![0; ALL], Day { opening: 7, ..Day::default() });
    let refused: &[(&[u32], Call, &[u64])] = &[
        (&short, Call::Set(0, bad), &[21, 1, 14, 5]),
        (&short, Call::Set(8, example()), &[5]),
        (&fresh, Call::Set(9, example()), &[21]),
        (&fresh, set, &[]),
        (&[], Call::Return(0, [0; 6]), &[21, 5, 22]),
        (&short, Call::Return(9, [0; 6]), &[21, 5, 22]),
        (&short, Call::Return(1, [0; 6]), &[5, 22]),
        (&fresh, Call::Return(1, [0; 6]), &[22]),
        (&marks, Call::Return(1, [6; 6]), &[22, 6]),
        (&marks, Call::Return(2, [2, 2, 1, 2, 2, 2]), &[6]),
    ];
    for (marks, call, claim) in refused {
        let numbers: Vec<u64> = call.refusals(marks).iter().map(|refusal| refusal.number).collect();
        assert_eq!(numbers, *claim, "{call:?}");
    }
}

/// What a call goes by.
struct Rules {
    /// the refusals in order
    order: Vec<u64>,
    /// the most periods, the most in a cell of each table, the most that R + Z may be
    periods: i64,
    values: [i64; 6],
    total: i64,
    /// the tables whose lengths are looked at
    measured: [bool; 6],
    /// which table of a mark each is
    places: [usize; 6],
    slip: &'static str,
}

impl Rules {
    fn right(order: &[u64]) -> Rules {
        Rules {
            order: order.to_vec(),
            periods: 96,
            values: [4096, 65_535, 1_000_000_000, 1_000_000, 500_000, 65_535],
            total: 4096,
            measured: [true; 6],
            places: [0, 1, 2, 3, 4, 5],
            slip: "none",
        }
    }

    /// Its limits: those of the tables, the most periods, the most in all.
    fn limit(&mut self, which: usize) -> &mut i64 {
        match which {
            0..=5 => &mut self.values[which],
            6 => &mut self.periods,
            _ => &mut self.total,
        }
    }
}

/// A way to carry out both calls, the set's rules first, and for which of them it is wrong.
struct Way {
    name: String,
    rules: [Rules; 2],
    wrong: Range<usize>,
}

impl Way {
    fn right() -> Way {
        let rules = [Rules::right(&[21, 1, 2, 3, 4, 14, 5]), Rules::right(&[21, 5, 22, 6])];
        Way { name: "right".to_string(), rules, wrong: 0..0 }
    }
}

/// What may be wrong in either call: in which marks there are, in how many cells they need, in its counts and in its sums.
const SLIPS: &[&str] = &[
    "21 with the mark for its period",
    "mark 0 taken as the first",
    "mark 9 taken as the last",
    "mark 8 refused",
    "marks in a byte",
    "marks in 32 bits",
    "all cells but one taken",
    "a cell more wanted",
    "cells for one mark taken",
    "cells up to the mark's own taken",
    "more cells than the marks' refused",
    "cells counted in 16 bits",
    "no periods taken",
    "n in a byte",
    "n in 16 bits",
    "R + Z in 16 bits",
    "R + Z without Z",
    "R + Z without R",
    "R + Z without the last need",
    "A up to R",
    "A up to Z",
    "A below R + Z",
];

/// In a set: in the period of 3; in what it writes; in what else it changes; in what it changes though it refuses.
const SET_SLIPS: &[&str] = &[
    "3 names the last period",
    "3 names the first table's period",
    "n not written",
    "A not written",
    "Z not written",
    "A and Z exchanged",
    "a period too few written",
    "cells past n kept",
    "cells past n kept in the first table",
    "cells past n kept in the last table",
    "the cell after n kept",
    "the last cell of a table kept",
    "cells past n cleared up to the old n",
    "the last value in cells past n",
    "a cell more cleared",
    "the mark before cleared",
    "the next mark cleared",
    "all other marks cleared",
    "cells past the last mark cleared",
    "a mark that holds something kept",
    "n written, and refused",
    "cleared, and refused",
    "written as far as it goes, and refused 5",
];

/// In a return: in what it reads; in what 22 says; in the lengths that it wants; in what it fills; in what else it changes.
const RETURN_SLIPS: &[&str] = &[
    "n signed",
    "A signed",
    "Z signed",
    "values signed",
    "A in 16 bits",
    "Z in 16 bits",
    "R + Z in 32 bits",
    "R + Z in 32 bits, needs of any size",
    "r, c and s in 16 bits",
    "14 not tested",
    "only fresh marks refused",
    "cells past n tested",
    "the cell after n tested",
    "cells past n summed",
    "the need after n summed",
    "22 with the period of 3",
    "22 with period 1",
    "the reason's own number for 22",
    "1 for a fresh mark",
    "6 before 22 by 1",
    "6 before 22 by 3",
    "6 before 22 by 4",
    "6 before 22 by 14",
    "6 with n for its period",
    "table cells counted in a byte",
    "table cells counted in 16 bits",
    "tables longer than n refused",
    "tables shorter than 96 refused",
    "a table cell more wanted",
    "a period too few filled",
    "cells past n cleared",
    "cells past n filled",
    "the cell after n filled",
    "96 for n",
    "A not given",
    "Z not given",
    "A and Z exchanged",
    "n cleared in the mark",
    "the mark cleared",
    "cells past n cleared in the mark",
    "out-array written, and refused 22",
    "out-array written, and refused 6",
    "filled as far as it goes, and refused 6",
];

/// In where both have a mark's cells, so that they still go together.
const LAYOUT_SLIPS: &[&str] = &[
    "marks counted from 0",
    "marks counted from the last",
    "marks of 576 cells",
    "marks of 580 cells",
    "A and Z exchanged in the mark",
    "n after A and Z",
    "A and Z after the tables",
    "tables of n cells",
    "tables of 95 cells",
    "tables of 97 cells",
    "period by period",
];

/// Whether a higher limit is no other: the capacities and stores of a set have 16 bits, and a stored need above its limit is above that of R + Z.
fn is_loose(call: usize, which: usize) -> bool {
    matches!((call, which), (0, 1 | 5) | (1, 0))
}

/// All wrong ways: each test left out or before another, each limit off by one or none, each length not looked at, any two tables exchanged; each
/// slip.
fn wrong_ways() -> Vec<Way> {
    let mut ways = vec![];
    let mut add = |name: String, wrong: Range<usize>, change: &dyn Fn(&mut Rules)| {
        let mut way = Way { name, wrong: wrong.clone(), ..Way::right() };
        way.rules[wrong].iter_mut().for_each(change);
        ways.push(way);
    };
    let pairs = |count: usize| (0..count).flat_map(move |first| (first + 1..count).map(move |second| (first, second)));
    for (call, name) in ["set", "return"].into_iter().enumerate() {
        let this = call..call + 1;
        let Rules { order, .. } = &Way::right().rules[call];
        for (place, number) in order.iter().enumerate() {
            add(format!("{name}: {number} left out"), this.clone(), &|rules| {
                rules.order.remove(place);
            });
        }
        for (early, late) in pairs(order.len()) {
            add(format!("{name}: {} before {}", order[late], order[early]), this.clone(), &|rules| {
                let number = rules.order.remove(late);
                rules.order.insert(early, number);
            });
        }
        for which in 0..8 {
            add(format!("{name}: limit {which} lower"), this.clone(), &|rules| *rules.limit(which) -= 1);
            if !is_loose(call, which) {
                add(format!("{name}: limit {which} higher"), this.clone(), &|rules| *rules.limit(which) += 1);
                add(format!("{name}: no limit {which}"), this.clone(), &|rules| *rules.limit(which) = i64::MAX);
            }
        }
        // n is the length of needs, so a set has nothing to compare it with
        for table in 1 - call..6 {
            add(format!("{name}: length {table} not looked at"), this.clone(), &|rules| rules.measured[table] = false);
        }
        for slip in SLIPS.iter().chain([SET_SLIPS, RETURN_SLIPS][call]) {
            add(format!("{name}: {slip}"), this.clone(), &|rules| rules.slip = slip);
        }
    }
    for (calls, name) in [(0..1, "set"), (1..2, "return"), (0..2, "both")] {
        for (first, second) in pairs(6) {
            add(format!("{name}: tables {first} and {second} exchanged"), calls.clone(), &|rules| rules.places.swap(first, second));
        }
    }
    for slip in LAYOUT_SLIPS {
        add(format!("both: {slip}"), 0..2, &|rules| rules.slip = slip);
    }
    ways
}

/// A day in wide numbers, as a call tests it: each table as far as 3 is to look, and needs as far as 4 is to sum them.
struct Wide {
    n: i64,
    opening: i64,
    closing: i64,
    tables: [Vec<i64>; 6],
    needs: Vec<i64>,
}

impl Wide {
    fn of(slip: &str, day: &Day) -> Wide {
        let of16 = |table: &[u16]| table.iter().map(|&v| v as i64).collect::<Vec<i64>>();
        let of32 = |table: &[u32]| table.iter().map(|&v| v as i64).collect::<Vec<i64>>();
        let needs = of16(&day.demand);
        let tables = [needs.clone(), of16(&day.capacity), of32(&day.setup), of32(&day.unit), of32(&day.holding), of16(&day.store)];
        Wide { n: counted(slip, needs.len() as i64), opening: day.opening as i64, closing: day.closing as i64, tables, needs }
    }

    /// What a mark's cells hold.
    fn read(rules: &Rules, marks: &[u32], begin: usize) -> Wide {
        let slip = rules.slip;
        let cell = |signed: &str, place: usize| {
            let cell = marks.get(begin.wrapping_add(place)).copied().unwrap_or(0);
            if slip == signed {
                i64::from(cell as i32)
            } else {
                i64::from(cell)
            }
        };
        let [n, opening, closing] = head(slip);
        let n = counted(slip, cell("n signed", n));
        let (opening, closing) = (cell("A signed", opening), cell("Z signed", closing));
        // a wrong way may not test n, but need not read more than would show
        let read = n.clamp(0, MAX_PERIODS as i64 + 4) as usize;
        let past = |all: &str, one: &str| match slip {
            _ if slip == all => MAX_PERIODS,
            _ if slip == one => (read + 1).min(MAX_PERIODS),
            _ => read,
        };
        let table = |k: usize, count: usize| (0..count).map(|i| cell("values signed", place(rules, read, k, i))).collect::<Vec<i64>>();
        let tested = past("cells past n tested", "the cell after n tested");
        let needs = table(0, past("cells past n summed", "the need after n summed"));
        let mut wide = Wide { n, opening, closing, tables: std::array::from_fn(|k| table(k, tested)), needs };
        let Wide { tables: [r, c, .., s], needs, opening, closing, .. } = &mut wide;
        match slip {
            "A in 16 bits" => *opening %= 65_536,
            "Z in 16 bits" => *closing %= 65_536,
            "r, c and s in 16 bits" => [needs, r, c, s].into_iter().flatten().for_each(|cell| *cell %= 65_536),
            _ => {}
        }
        wide
    }

    fn asked(&self, slip: &str) -> i64 {
        let last = self.needs.last().copied().unwrap_or(0);
        let needs: i64 = self.needs.iter().sum();
        match slip {
            "R + Z in 16 bits" => (needs + self.closing) % 65_536,
            "R + Z in 32 bits" | "R + Z in 32 bits, needs of any size" => (needs + self.closing) % (1 << 32),
            "R + Z without Z" => needs,
            "R + Z without R" => self.closing,
            "R + Z without the last need" => needs - last + self.closing,
            _ => needs + self.closing,
        }
    }

    /// The period that 3 names.
    fn above(&self, rules: &Rules) -> Option<u64> {
        let above = |k: usize, i: usize| self.tables[k].get(i).is_some_and(|&value| value > rules.values[k]);
        let longest = self.tables[0].len();
        let tested = usize::from(rules.slip == "R + Z in 32 bits, needs of any size")..6;
        let mut periods = (0..longest).filter(|&i| tested.clone().any(|k| above(k, i)));
        let found = match rules.slip {
            "3 names the last period" => periods.last(),
            "3 names the first table's period" => (0..6).find_map(|k| (0..longest).find(|&i| above(k, i))),
            _ => periods.next(),
        };
        found.map(|i| i as u64 + 1)
    }

    /// The period of a refusal that the day itself brings, 0 where it names none.
    fn refused(&self, rules: &Rules, number: u64) -> Option<u64> {
        let asked = self.asked(rules.slip);
        let condition = match number {
            1 => self.n == 0 && rules.slip != "no periods taken" || self.n > rules.periods,
            3 => return self.above(rules),
            4 => asked > rules.total,
            _ => match rules.slip {
                "A up to R" => self.opening > self.needs.iter().sum(),
                "A up to Z" => self.opening > self.closing,
                "A below R + Z" => self.opening >= asked,
                "14 not tested" => false,
                _ => self.opening > asked,
            },
        };
        condition.then_some(0)
    }

    /// Why cells hold no day: number and period of the first test that it does not pass.
    fn unheld(&self, rules: &Rules) -> Option<(u64, u64)> {
        let tests: &[u64] = if rules.slip == "only fresh marks refused" { &[1] } else { &[1, 3, 4, 14] };
        tests.iter().find_map(|&number| self.refused(rules, number).map(|period| (number, period)))
    }
}

/// The count of periods.
fn counted(slip: &str, n: i64) -> i64 {
    match slip {
        "n in a byte" => n % 256,
        "n in 16 bits" => n % 65_536,
        _ => n,
    }
}

/// The mark that a number stands for.
fn numbered(slip: &str, mark: usize) -> usize {
    match (slip, mark) {
        ("mark 0 taken as the first", 0) => 1,
        ("mark 9 taken as the last", 9) => 8,
        ("mark 8 refused", 8) => 0,
        ("marks in a byte", _) => mark % 256,
        ("marks in 32 bits", _) => mark % (1 << 32),
        _ => mark,
    }
}

/// Where its cells begin.
fn begin(slip: &str, mark: usize) -> usize {
    match slip {
        "marks counted from 0" => mark.wrapping_mul(CELLS),
        "marks counted from the last" => COUNT.wrapping_sub(mark).wrapping_mul(CELLS),
        "marks of 576 cells" => mark.wrapping_sub(1).wrapping_mul(576),
        "marks of 580 cells" => mark.wrapping_sub(1).wrapping_mul(580),
        _ => mark.wrapping_sub(1).wrapping_mul(CELLS),
    }
}

/// The places of n, A and Z in a mark.
fn head(slip: &str) -> [usize; 3] {
    match slip {
        "A and Z exchanged in the mark" => [0, 2, 1],
        "n after A and Z" => [2, 0, 1],
        "A and Z after the tables" => [0, 577, 578],
        _ => [0, 1, 2],
    }
}

/// The place of a table's cell in a mark of n periods.
fn place(rules: &Rules, n: usize, table: usize, i: usize) -> usize {
    let table = rules.places[table];
    match rules.slip {
        "A and Z after the tables" => 1 + MAX_PERIODS * table + i,
        "tables of n cells" => 3 + n * table + i,
        "tables of 95 cells" => 3 + 95 * table + i,
        "tables of 97 cells" => 3 + 97 * table + i,
        "period by period" => 3 + 6 * i + table,
        _ => 3 + MAX_PERIODS * table + i,
    }
}

/// The period that 21 names, if it is given.
fn no_mark(slip: &str, mark: usize) -> Option<u64> {
    let period = if slip == "21 with the mark for its period" { mark as u64 % 1000 } else { 0 };
    (mark == 0 || mark > COUNT).then_some(period)
}

fn is_short(slip: &str, cells: usize, mark: usize) -> bool {
    match slip {
        "all cells but one taken" => cells + 1 < ALL,
        "a cell more wanted" => cells < ALL + 1,
        "cells for one mark taken" => cells < CELLS,
        "cells up to the mark's own taken" => cells < mark.saturating_mul(CELLS),
        "more cells than the marks' refused" => cells != ALL,
        "cells counted in 16 bits" => cells % 65_536 < ALL,
        _ => cells < ALL,
    }
}

/// The code of the first refusal whose condition holds.
fn first(rules: &Rules, holds: impl Fn(u64) -> Option<u64>) -> Option<u64> {
    rules.order.iter().find_map(|&number| holds(number).map(|period| number + 256 * period))
}

/// Writes a cell, if it is there.
fn put(marks: &mut [u32], place: usize, number: i64) {
    marks.get_mut(place).into_iter().for_each(|cell| *cell = number as u32);
}

fn set(rules: &Rules, left: &mut Left, mark: usize, day: &Day) {
    let (slip, wide, mark) = (rules.slip, Wide::of(rules.slip, day), numbered(rules.slip, mark));
    let begin = begin(slip, mark);
    let marks = left.cells();
    let code = first(rules, |number| match number {
        21 => no_mark(slip, mark),
        2 => (0..6).any(|k| rules.measured[k] && wide.tables[k].len() as i64 != wide.n).then_some(0),
        5 => is_short(slip, marks.len(), mark).then_some(0),
        number => wide.refused(rules, number),
    });
    if let Some(code) = code {
        match (slip, code) {
            ("n written, and refused", _) => put(marks, begin, wide.n),
            ("cleared, and refused", _) => (0..CELLS).for_each(|place| put(marks, begin.wrapping_add(place), 0)),
            ("written as far as it goes, and refused 5", 5) => write(rules, &wide, marks, begin),
            _ => {}
        }
        left.seen.code = code;
        return;
    }
    let old = marks.get(begin).map_or(0, |&n| n as usize).min(MAX_PERIODS);
    if slip == "a mark that holds something kept" && old > 0 {
        return;
    }
    let cleared: Vec<Range<usize>> = match slip {
        "cells past n cleared up to the old n" => {
            (0..6).map(|k| [day.periods(), old].map(|i| begin + place(rules, 0, k, i))).map(|[from, to]| from..to).collect()
        }
        "a cell more cleared" => vec![begin + CELLS..begin + CELLS + 1],
        "the mark before cleared" => vec![begin.saturating_sub(CELLS)..begin],
        "the next mark cleared" => vec![begin + CELLS..begin + 2 * CELLS],
        "all other marks cleared" => vec![0..begin, begin + CELLS..ALL],
        "cells past the last mark cleared" => vec![ALL..marks.len()],
        _ => vec![],
    };
    cleared.into_iter().flatten().for_each(|place| put(marks, place, 0));
    write(rules, &wide, marks, begin);
}

/// Writes a day to its mark: cells past n first, then what it holds.
fn write(rules: &Rules, wide: &Wide, marks: &mut [u32], begin: usize) {
    let (slip, n) = (rules.slip, wide.tables[0].len());
    let mut put = |place: usize, number: i64| put(marks, begin.wrapping_add(place), number);
    for (k, i) in (0..6).flat_map(|k| (n..MAX_PERIODS).map(move |i| (k, i))) {
        let kept = match slip {
            "cells past n kept" | "cells past n cleared up to the old n" => true,
            "cells past n kept in the first table" => k == 0,
            "cells past n kept in the last table" => k == 5,
            "the cell after n kept" => i == n,
            "the last cell of a table kept" => i + 1 == MAX_PERIODS,
            _ => false,
        };
        let last = wide.tables[k].last().copied().unwrap_or(0);
        if !kept {
            put(place(rules, n, k, i), if slip == "the last value in cells past n" { last } else { 0 });
        }
    }
    let (opening, closing) = if slip == "A and Z exchanged" { (wide.closing, wide.opening) } else { (wide.opening, wide.closing) };
    let unwritten = ["n not written", "A not written", "Z not written"];
    for ((place, number), left_out) in head(slip).into_iter().zip([wide.n, opening, closing]).zip(unwritten) {
        if slip != left_out {
            put(place, number);
        }
    }
    let written = n - usize::from(slip == "a period too few written" && n > 0);
    for (k, i) in (0..6).flat_map(|k| (0..written).map(move |i| (k, i))) {
        put(place(rules, n, k, i), wide.tables[k].get(i).copied().unwrap_or(0));
    }
}

fn give_back(rules: &Rules, cells: &[u32], left: &mut Left, mark: usize, lent: &[usize; 6]) {
    let (slip, mark) = (rules.slip, numbered(rules.slip, mark));
    let begin = begin(slip, mark);
    let wide = Wide::read(rules, cells, begin);
    let unheld = wide.unheld(rules);
    let wanted = match slip {
        "tables shorter than 96 refused" => MAX_PERIODS as i64,
        "a table cell more wanted" => wide.n + 1,
        _ => wide.n,
    };
    let lengths = lent.map(|cells| match slip {
        "table cells counted in a byte" => cells as i64 % 256,
        "table cells counted in 16 bits" => cells as i64 % 65_536,
        _ => cells as i64,
    });
    let wrong = |length: i64| length < wanted || slip == "tables longer than n refused" && length > wanted;
    let few = (0..6).any(|k| rules.measured[k] && wrong(lengths[k]));
    let code = first(rules, |number| match number {
        21 => no_mark(slip, mark),
        5 => is_short(slip, cells.len(), mark).then_some(0),
        22 => unheld.map(|(_, period)| match slip {
            "22 with the period of 3" => period,
            "22 with period 1" => 1,
            _ => 0,
        }),
        _ => few.then_some(if slip == "6 with n for its period" { wide.n as u64 } else { 0 }),
    });
    left.seen.code = match (slip, code, unheld) {
        ("the reason's own number for 22", Some(22), Some((number, period))) => number + 256 * period,
        ("1 for a fresh mark", Some(22), _) if wide.n == 0 => 1,
        ("6 before 22 by 1", Some(22), Some((1, _)))
        | ("6 before 22 by 3", Some(22), Some((3, _)))
        | ("6 before 22 by 4", Some(22), Some((4, _)))
        | ("6 before 22 by 14", Some(22), Some((14, _)))
            if few =>
        {
            6
        }
        _ => code.unwrap_or(0),
    };
    let (fills, gives) = match (slip, code) {
        (_, None) => (true, true),
        ("out-array written, and refused 22", Some(22)) | ("out-array written, and refused 6", Some(6)) => (false, true),
        ("filled as far as it goes, and refused 6", Some(6)) => (true, false),
        _ => (false, false),
    };
    if gives {
        let Wide { n, opening, closing, .. } = wide;
        let answer = match slip {
            "96 for n" => [96, opening, closing],
            "A not given" => [n, 0, closing],
            "Z not given" => [n, opening, 0],
            "A and Z exchanged" => [n, closing, opening],
            _ => [n, opening, closing],
        };
        left.seen.out[AROUND..][..3].copy_from_slice(&answer.map(|number| number as u64));
    }
    if fills {
        fill(rules, cells, left, begin, wide.n as usize, lent);
        clear(rules, left.cells(), begin, wide.n as usize);
    }
}

/// Fills the tables from a mark, as far as they go.
fn fill(rules: &Rules, cells: &[u32], left: &mut Left, begin: usize, n: usize, lent: &[usize; 6]) {
    let filled = match rules.slip {
        "a period too few filled" => n - 1,
        "cells past n filled" => MAX_PERIODS,
        "the cell after n filled" => n + 1,
        _ => n,
    };
    for (k, &length) in lent.iter().enumerate() {
        let table = &mut left.seen.lent[k][AROUND..][..length];
        if rules.slip == "cells past n cleared" {
            table.iter_mut().skip(n).for_each(|cell| *cell = 0);
        }
        for (i, to) in table.iter_mut().enumerate().take(filled) {
            let cell = cells.get(begin.wrapping_add(place(rules, n, k, i))).map_or(0, |&cell| cell as u64);
            *to = if matches!(k, 0 | 1 | 5) { cell % 65_536 } else { cell };
        }
    }
}

/// What a return must not do to the marks.
fn clear(rules: &Rules, marks: &mut [u32], begin: usize, n: usize) {
    let mut clear = |place: usize| marks.get_mut(begin + place).into_iter().for_each(|cell| *cell = 0);
    match rules.slip {
        "n cleared in the mark" => clear(0),
        "the mark cleared" => (0..CELLS).for_each(clear),
        "cells past n cleared in the mark" => (0..6).flat_map(|k| (n..MAX_PERIODS).map(move |i| 3 + MAX_PERIODS * k + i)).for_each(clear),
        _ => {}
    }
}

impl Way {
    /// Whether it goes by wrong rules there.
    fn is_wrong(&self, call: &Call) -> bool {
        self.wrong.contains(&usize::from(matches!(call, Call::Return(..))))
    }

    /// A call carried out this way.
    fn left(&self, call: &Call, marks: &[u32]) -> Left {
        let mut left = Left::before(call, marks);
        match call {
            Call::Set(mark, day) => set(&self.rules[0], &mut left, *mark, day),
            Call::Return(mark, lent) => give_back(&self.rules[1], &marks[AROUND..marks.len() - AROUND], &mut left, *mark, lent),
        }
        left
    }
}

/// The plain implementation on the rows, and beside the right way on all calls; every wrong way shows on some call. Gives how many there are.
pub fn check_marks() -> usize {
    check_rows();
    let (right, mut untold) = (Way::right(), wrong_ways());
    let count = untold.len();
    for calls in marks::inputs() {
        let mut marks = Trial::of(&calls).marks;
        for call in &calls.calls {
            let left = expected(call, &marks);
            assert_eq!(right.left(call, &marks), left, "{call:?}");
            untold.retain(|way| !way.is_wrong(call) || way.left(call, &marks) == left);
            marks = left.marks;
        }
    }
    let untold: Vec<String> = untold.into_iter().map(|way| way.name).collect();
    assert!(untold.is_empty(), "no call tells of these wrong ways: {untold:?}");
    count
}
