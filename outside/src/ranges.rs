//! Request 2.9: pairs of days of which one is easier, and inputs of needs known as ranges: tiny days with every table between the two; areas
//! around what the lowest and the highest needs take; lowest needs above the highest, too many or too few, above their limit; charge to begin
//! with; days with a plan for the lowest needs alone.
use crate::ends;
use crate::input::{self, Call, Input, Size, With};
use crate::plain::{self, Day, NO_LIMIT};
use crate::random::Random;

const N: usize = plain::MAX_PERIODS;

fn input(lowest: &[u16], day: &Day) -> Input {
    Input { lowest: lowest.to_vec(), ..Input::exact(Call::Bounds, day, [&[]; 2]) }
}

/// A tiny day that begins with nothing; some hand charge on or have store limits.
fn day(random: &mut Random) -> Day {
    let with = random.pick(&[With::NOTHING, With::STORES, With::BOTH]);
    Day { opening: 0, ..input::day(random, Call::Bounds, Size::Tiny, with) }
}

/// Lower values here and there.
fn lower<T: Copy + Into<u64> + TryFrom<u64>>(random: &mut Random, table: &mut [T]) {
    for entry in table {
        let value: u64 = (*entry).into();
        let less = random.pick(&[value, value, value.saturating_sub(1), value / 2, 0]);
        *entry = T::try_from(less).ok().expect("no more than it was");
    }
}

/// Higher values here and there.
fn raise(random: &mut Random, table: &mut [u16]) {
    table.iter_mut().for_each(|entry| *entry = entry.saturating_add(random.pick(&[0, 0, 1, 2, NO_LIMIT])));
}

/// A day that is nowhere harder, and easier in some places: of one kind alone, or of several.
fn easier(random: &mut Random, day: &Day) -> Day {
    let mut easier = day.clone();
    let Day { demand, capacity, setup, unit, holding, store, closing, .. } = &mut easier;
    let several = random.once_in(2);
    for _ in 0..if several { 5 } else { 1 } {
        match random.index(7) {
            0 => lower(random, demand),
            1 => lower(random, setup),
            2 => lower(random, unit),
            3 => lower(random, holding),
            4 => lower(random, std::slice::from_mut(closing)),
            5 => raise(random, capacity),
            _ => raise(random, store),
        }
    }
    easier
}

fn full(day: &Day) -> Input {
    Input::exact(Call::Full, day, [&[]; 2])
}

/// Pairs of tiny days, of which the first is nowhere harder and the second has a plan, both by the full path; by the plain implementation the
/// first has one at no higher least cost.
pub fn pairs(random: &mut Random, times: usize) -> Vec<Input> {
    let mut pairs = vec![];
    for _ in 0..times {
        let harder = day(random);
        let easier = easier(random, &harder);
        assert!(easier.is_easier(&harder), "{easier:?} {harder:?}");
        if let Some(most) = plain::least_cost(&harder) {
            assert!(plain::least_cost(&easier).is_some_and(|cost| cost <= most), "{easier:?} {harder:?}");
            pairs.push([easier, harder]);
        }
    }
    pairs.iter().flatten().map(full).collect()
}

/// With charge to begin with that is false: needs 0 1 and A = 1 have a plan, needs 0 0 have none.
fn charged() -> Vec<Input> {
    let harder = Day { demand: vec![0, 1], ..ends::day(2, 0, 0, 1, 0) };
    let easier = harder.with_needs(&[0, 0]);
    assert!(easier.is_easier(&harder) && plain::least_cost(&harder).is_some() && plain::least_cost(&easier).is_none());
    vec![full(&harder), full(&easier)]
}

/// The full path's inputs as ranges, from nothing, from half of the needs and from all of them.
pub fn of_full(inputs: &[Input]) -> Vec<Input> {
    let mut ranges = vec![];
    for full in inputs.iter().filter(|input| input.call == Call::Full) {
        for part in 0..=2 {
            let lowest = full.day.demand.iter().map(|need| (*need as u32 * part / 2) as u16).collect();
            ranges.push(Input { call: Call::Bounds, lowest, lent: full.lent[..2].to_vec(), ..full.clone() });
        }
    }
    ranges
}

/// A tiny day with some tables between its lowest and its highest needs, but not many.
pub fn few(random: &mut Random) -> Input {
    loop {
        let day = day(random);
        let input = input::complete(random, Call::Bounds, day, With::BOTH);
        let tables: f64 = input.lowest.iter().zip(&input.day.demand).map(|(&low, &high)| (high - low) as f64 + 1.0).product();
        if (2.0..=300.0).contains(&tables) {
            return input;
        }
    }
}

/// Areas around those that the lowest needs take and those that the highest take.
fn areas() -> Vec<Input> {
    let mut inputs = vec![];
    for (n, total, closing) in [(1, 3, 0), (2, 5, 2), (3, 9, 0), (N, 192, 5)] {
        let day = ends::day(n, total, 65_535, 0, closing);
        for lowest in [vec![0; n], day.demand.iter().map(|need| need / 2).collect(), day.demand.clone()] {
            let (low, high) = (Input::exact(Call::Bounds, &day.with_needs(&lowest), [&[]; 2]).lent, input(&lowest, &day).lent);
            let around = |i: usize| [0, low[i] - 1, low[i], high[i] - 1, high[i], high[i] + 1];
            for (costs, choices) in around(0).into_iter().flat_map(|costs| around(1).map(|choices| (costs, choices))) {
                inputs.push(Input { lent: vec![costs, choices], ..input(&lowest, &day) });
            }
        }
    }
    inputs
}

/// A lowest need one above its highest in each period alone, beside equal ones; far above, alone and in all later ones too; with charge to
/// begin with, and with no plan.
fn reversed() -> Vec<Input> {
    let mut inputs = vec![];
    for (n, i) in [1, 2, 3, N].into_iter().flat_map(|n| (0..n).map(move |i| (n, i))) {
        for (capacity, opening) in [(65_535, 0), (65_535, 1), (0, 0)] {
            let day = ends::day(n, 2 * n, capacity, opening, 0);
            let mut alone = day.demand.clone();
            alone[i] += 1;
            let mut far = vec![0; n];
            far[i] = 4096;
            let mut later = far.clone();
            later[i..].fill(4096);
            inputs.extend([alone, far, later].map(|lowest| input(&lowest, &day)));
        }
    }
    inputs
}

/// A lowest need at its limit and above it in each period, beside a value of the day above its limit in the same, the first or the last
/// period, or none.
fn limits() -> Vec<Input> {
    let mut inputs = vec![];
    for (n, i) in [1, 2, 3].into_iter().flat_map(|n| (0..n).map(move |i| (n, i))).chain([(N, 0), (N, 40), (N, N - 1)]) {
        for value in [4095, 4096, 4097, 65_535] {
            for other in [None, Some(0), Some(i), Some(n - 1)] {
                let mut day = ends::day(n, n, 65_535, 0, 0);
                if let Some(k) = other {
                    day.unit[k] = plain::MAX_UNIT as u32 + 1;
                }
                let mut lowest = day.demand.clone();
                lowest[i] = value;
                inputs.push(input(&lowest, &day));
            }
            // the highest there too; recursion (5) by its letter takes long on many periods
            let mut day = ends::day(n, 0, if n == N { 0 } else { 65_535 }, 0, 0);
            day.demand[i] = value;
            inputs.extend([input(&day.demand, &day), input(&vec![0; n], &day)]);
        }
    }
    inputs
}

/// Lowest needs too many or too few, beside tables of the day that are as long, longer or shorter, and beside none.
fn lengths() -> Vec<Input> {
    let mut inputs = vec![];
    for n in [0, 1, 2, N, N + 1] {
        let day = ends::day(n, if n == 0 { 0 } else { 5 }, 65_535, 0, 0);
        for length in [0, 1, n.saturating_sub(1), n, n + 1, N + 1] {
            let mut lowest = day.demand.clone();
            lowest.resize(length, 0);
            let mut longer = day.clone();
            longer.capacity.push(5);
            let mut shorter = day.clone();
            shorter.holding.pop();
            inputs.extend([input(&lowest, &day), input(&lowest, &longer), input(&lowest, &shorter)]);
        }
    }
    inputs
}

/// Charge to begin with, up to what the day asks for and above; with no lowest needs, equal ones, and one above its highest.
fn opening() -> Vec<Input> {
    let mut inputs = vec![];
    for (total, closing) in [(0, 0), (0, 2), (5, 0), (5, 2), (4096, 0)] {
        let asked = total as u16 + closing;
        for opening in [0, 1, asked.saturating_sub(1), asked, asked + 1, 65_535] {
            let day = ends::day(2, total, 65_535, opening, closing);
            let mut above = day.demand.clone();
            above[1] += 1;
            inputs.extend([input(&[0, 0], &day), input(&day.demand, &day), input(&above, &day)]);
        }
    }
    inputs
}

/// Days with a plan up to some need in one period, and with none for a unit more there: the highest alone, or both.
fn without_plan() -> Vec<Input> {
    let mut inputs = vec![];
    for (n, i) in [1, 2, 3, N].into_iter().flat_map(|n| (0..n).map(move |i| (n, i))) {
        let mut day = ends::day(n, n, 1, 0, 0);
        let supplied = day.demand.clone();
        day.demand[i] += 1;
        let short = day.demand.clone();
        inputs.extend([input(&supplied, &day), input(&short, &day), input(&vec![0; n], &day)]);
        inputs.push(input(&supplied, &day.with_needs(&supplied)));
        // a store that has no room for what the highest need ahead
        let mut full = Day { store: vec![0; n], capacity: vec![2; n], ..day.clone() };
        full.demand[i] = 3;
        inputs.extend([input(&supplied, &full), input(&short, &full), input(&short, &full.with_needs(&short))]);
    }
    inputs
}

/// What is gone through one by one.
pub fn inputs() -> Vec<Input> {
    [areas(), reversed(), limits(), lengths(), opening(), without_plan(), charged()].concat()
}
