//! Request 2.10: inputs of big days: tiny ones on which many plans cost the same, some with every number of trials that they can use; days of
//! 96 periods that ask for 60,000; days that a forbidden period leaves without a plan, and days with nothing to gain; needs, charge at the
//! ends, memory, store limits and trials around their limits. And the plans, counted by what the trials came to.
use crate::ends;
use crate::input::{self, Call, Input, With};
use crate::plain::{self, Day, NO_LIMIT};
use crate::random::Random;

const N: usize = plain::MAX_PERIODS;
const MOST: usize = plain::MAX_BIG_TOTAL as usize;

fn input(day: &Day, trials: usize) -> Input {
    Input { trials, ..Input::exact(Call::Big, day, [&[]; 2]) }
}

fn numbers<T: TryFrom<u64>>(random: &mut Random, n: usize, high: u64) -> Vec<T> {
    (0..n).map(|_| T::try_from(random.between(0, high)).ok().expect("a number that its table can hold")).collect()
}

/// A day of few periods and numbers, so that many plans cost the same; starts are as low as other costs, or decide.
fn tiny(random: &mut Random) -> Day {
    let n = random.between(1, 6) as usize;
    let (start, rate) = random.pick(&[(3, 3), (3, 1), (9, 2)]);
    let mut day = Day {
        demand: numbers(random, n, 3),
        capacity: numbers(random, n, 4),
        setup: numbers(random, n, start),
        unit: numbers(random, n, rate),
        holding: numbers(random, n, rate),
        store: vec![NO_LIMIT; n],
        opening: random.pick(&[0, 0, 1, 3]),
        closing: random.pick(&[0, 0, 1, 3]),
    };
    if !random.once_in(4) {
        supply(&mut day);
    }
    day
}

/// Raises capacities until there is a plan.
fn supply(day: &mut Day) {
    for i in 1..=day.periods() {
        let short = day.least_by(i).saturating_sub(day.capacity_to(i));
        day.capacity[i - 1] += short as u16;
    }
}

/// Such a day with up to 30 trials.
pub fn with_ties(random: &mut Random) -> Input {
    let day = tiny(random);
    let trials = random.between(1, 30) as usize;
    Input { trials, ..input::complete(random, Call::Big, day, With::ENDS) }
}

/// Such a day with every number of trials, up to one more than it can use.
pub fn every_count(random: &mut Random) -> Vec<Input> {
    let day = tiny(random);
    let used = plain::best_so_far(&day, usize::MAX, plain::in_batches).map_or(0, |best| best.trials);
    (1..=used + 1).map(|trials| input(&day, trials)).collect()
}

/// Needs of n periods that come to so much: of all sizes, or as large as they can be wherever there is one.
fn needs(random: &mut Random, n: usize, total: usize) -> Vec<u16> {
    let mut needs = vec![0; n];
    let (mut rest, most) = (total as u64, random.pick(&[300, 1500, plain::MAX_DEMAND]));
    while rest > 0 {
        let need = &mut needs[random.index(n)];
        let more = random.between(1, most).min(rest).min(plain::MAX_DEMAND - *need as u64);
        *need += more as u16;
        rest -= more;
    }
    needs
}

/// A made-up day that asks for 60,000, or a little less. Capacities bind here and there, or nowhere; starts weigh little, much or all.
pub fn large(random: &mut Random) -> Input {
    let n = random.pick(&[N, N, N, N - 1, 60, 24]);
    let asked = random.pick(&[MOST, MOST, MOST - 1, 50_000]);
    let closing = random.pick(&[0, 0, 1, 4000]);
    let (start, unit, holding) = random.pick(&[
        (30_000, 1200, 20),
        (200_000, 1200, 20),
        (2_000_000, 50, 3),
        (40, 3, 0),
        (plain::MAX_SETUP, plain::MAX_UNIT, plain::MAX_HOLDING),
    ]);
    let even = (asked / n) as u64;
    let capacity = random.pick(&[65_535, even + even / 8, 3 * even, 8 * even]);
    let mut day = Day {
        demand: needs(random, n, asked - closing),
        capacity: if random.once_in(2) { vec![capacity as u16; n] } else { numbers(random, n, capacity) },
        setup: numbers(random, n, start),
        unit: numbers(random, n, unit),
        holding: numbers(random, n, holding),
        store: vec![NO_LIMIT; n],
        opening: random.pick(&[0, 0, 1, 9000]),
        closing: closing as u16,
    };
    supply(&mut day);
    input(&day, random.pick(&[1, 2, n + 1, 300, usize::MAX, usize::MAX]))
}

/// The full path's inputs as big days: with one trial, with two, and with as many as they can use.
pub fn of_full(inputs: &[Input]) -> Vec<Input> {
    let full = inputs.iter().filter(|input| input.call == Call::Full);
    full.flat_map(|full| [1, 2, usize::MAX].map(|trials| input(&full.day, trials))).collect()
}

/// Need and closing charge at the limit, just below and just above, with opening charges up to what is asked for and above; capacities that
/// can't bind, that just suffice and that don't. A single need may be above its own limit.
fn totals() -> Vec<Input> {
    let mut inputs = vec![];
    let asked = [(MOST, 0), (MOST + 1, 0), (MOST - 1, 1), (MOST, 1), (0, MOST), (0, MOST + 1), (1, MOST), (5, 65_535), (15 * 4096, 0)];
    for (total, closing) in asked {
        let asked = total + closing;
        for opening in [0, 1, asked - 1, asked, asked + 1, 65_535] {
            for (n, capacity) in [(1, 65_535), (15, 65_535), (15, 4000), (15, 3999), (N, 625)] {
                let day = ends::day(n, total, capacity, opening.min(65_535) as u16, closing as u16);
                inputs.push(input(&day, usize::MAX));
            }
        }
    }
    inputs
}

/// One need around its limit, which is no higher here, in the first period, in the middle and in the last.
fn single_needs() -> Vec<Input> {
    let mut inputs = vec![];
    for (n, need) in [1, 2, 3, N].into_iter().flat_map(|n| [4095, 4096, 4097, MOST as u16, 65_535].map(|need| (n, need))) {
        for i in [0, n / 2, n - 1] {
            let mut day = ends::day(n, 7, 65_535, 0, 0);
            day.demand[i] = need;
            inputs.push(input(&day, usize::MAX));
        }
    }
    inputs
}

/// Cost cells and slots shorter than needed, as many, and more, on days of few and of many periods, and of more than there may be.
fn lengths() -> Vec<Input> {
    let mut inputs = vec![];
    for n in [1, 2, 3, N - 1, N, N + 1] {
        for costs in [0, n, 2 * n, 3 * n - 1, 3 * n, 3 * n + 1, 4 * n, 3 * n + 50] {
            for slots in [0, n - 1, n, n + 1, n + 50] {
                inputs.push(Input { lent: vec![costs, slots], ..input(&ends::day(n, n, 2, 0, 0), usize::MAX) });
            }
        }
    }
    inputs
}

/// Trials from none to more than any day can use, also numbers that are few or none in a smaller width.
fn trials() -> Vec<Input> {
    let mut inputs = vec![];
    let days = [
        ends::day(1, 3, 5, 0, 0),
        ends::day(3, 9, 5, 2, 1),
        ends::day(5, 0, 5, 0, 0),
        ends::day(N, 200, 9, 3, 4),
        ends::day(N, MOST, 700, 0, 0),
    ];
    for day in days {
        let used = plain::best_so_far(&day, usize::MAX, plain::in_batches).expect("a day with a plan").trials;
        let around = [0, 1, 2, used - 1, used, used + 1];
        let wide = [8, 16, 32, 63].into_iter().flat_map(|bits| [(1 << bits) - 1, 1 << bits, (1 << bits) + 1]);
        inputs.extend(around.into_iter().chain(wide).chain([usize::MAX]).map(|trials| input(&day, trials)));
    }
    inputs
}

/// One store limit at what the day asks for, a unit below and above, and at what it makes, with trials and without.
fn stores() -> Vec<Input> {
    let mut inputs = vec![];
    for (n, total, opening, closing) in [(1, 3, 1, 2), (2, 7, 0, 0), (3, 7, 4, 3), (N, 500, 60, 40), (N, MOST - 40, 60, 40)] {
        let unlimited = ends::day(n, total, 65_535, opening, closing);
        let (asked, whole) = (unlimited.asked() as u16, unlimited.whole().unwrap() as u16);
        for i in [0, n / 2, n - 1] {
            for limit in [whole - 1, whole, asked - 1, asked, asked + 1] {
                let mut day = unlimited.clone();
                day.store[i] = limit;
                inputs.extend([0, 1, usize::MAX].map(|trials| input(&day, trials)));
            }
        }
    }
    inputs
}

/// Days on which a forbidden period leaves no plan: each of them, where capacity just suffices; the first alone; one in the middle. Days on
/// which no period makes anything, since none can or none has to; and a period that can't between two that can.
fn without_plan() -> Vec<Input> {
    let mut days = vec![];
    for n in [1, 2, 3, 5, N] {
        let even = ends::day(n, 2 * n, 2, 0, 0);
        days.extend([even.clone(), Day { setup: vec![9; n], ..even.clone() }]);
        days.push(Day { capacity: vec![65_535; n], setup: vec![99; n], ..even.clone() });
        days.extend([Day { demand: vec![0; n], ..even.clone() }, Day { demand: vec![0; n], capacity: vec![0; n], ..even.clone() }]);
        days.push(Day { opening: 2 * n as u16, capacity: vec![0; n], ..even.clone() });
        let middle = (0..n).map(|i| if i == n / 2 { 65_535 } else { 0 }).collect();
        days.push(Day { capacity: middle, demand: vec![0; n], closing: 5, ..even.clone() });
        let mut idle = Day { capacity: vec![4; n], setup: vec![3; n], ..even };
        if n > 2 {
            idle.capacity[n / 2] = 0;
        }
        days.push(idle);
    }
    days.iter().flat_map(|day| [1, 2, day.periods(), day.periods() + 1, usize::MAX].map(|trials| input(day, trials))).collect()
}

/// The longest call: of 96 periods, each of which starts for a unit less than the one before it, the first allowed one makes all, so every
/// round forbids that one alone.
fn one_a_round() -> Vec<Input> {
    let demand = (0..N).map(|i| if i + 1 == N { 4096 } else { 0 }).collect();
    let setup = (0..N).map(|i| (N - i) as u32).collect();
    let day = Day { demand, setup, unit: vec![1; N], holding: vec![0; N], ..ends::day(N, 0, 65_535, 0, 0) };
    let used = plain::best_so_far(&day, usize::MAX, plain::in_batches).expect("a day with a plan").trials;
    assert_eq!(used, 1 + N * (N + 1) / 2);
    [used - 1, usize::MAX].map(|trials| input(&day, trials)).into()
}

/// Days of 96 periods on which every cost is at its limit: 60,000 made in the first period and needed or handed on last; made in loads that
/// just suffice, in any period; there from the beginning.
fn dearest() -> Vec<Input> {
    let costs = |limit: u64| vec![limit as u32; N];
    let late: Vec<u16> = (0..N).map(|i| if i + 15 < N { 0 } else { 4000 }).collect();
    let first: Vec<u16> = (0..N).map(|i| if i == 0 { MOST as u16 } else { 0 }).collect();
    let mut inputs = vec![];
    for (demand, opening, closing) in
        [(late.clone(), 0, 0), (vec![0; N], 0, MOST as u16), (late, MOST as u16, 0), (vec![0; N], MOST as u16, MOST as u16)]
    {
        for capacity in [first.clone(), vec![625; N], vec![65_535; N]] {
            let (setup, unit, holding) = (costs(plain::MAX_SETUP), costs(plain::MAX_UNIT), costs(plain::MAX_HOLDING));
            let (demand, store) = (demand.clone(), vec![NO_LIMIT; N]);
            inputs.push(input(&Day { demand, capacity, setup, unit, holding, store, opening, closing }, usize::MAX));
        }
    }
    inputs
}

/// What is gone through one by one.
pub fn inputs() -> Vec<Input> {
    [totals(), single_needs(), lengths(), trials(), stores(), without_plan(), one_a_round(), dearest()].concat()
}

/// Accepted calls.
#[derive(Default)]
pub struct Plans {
    pub plans: usize,
    /// of these, on days that ask for more than any other call allows
    pub above: usize,
    /// with a plan that is cheaper than the first trial's
    pub cheaper: usize,
    /// with all allowed trials used
    pub used_up: usize,
    /// beside which all plans were tried
    pub searched: usize,
    pub trials: u64,
}

impl Plans {
    pub fn add(&mut self, input: &Input, cost: u64, trials: u64) {
        let first = plain::in_batches(&input.day).map(|planned| planned.totals.cost);
        self.plans += 1;
        self.above += usize::from(input.day.asked() > plain::MAX_TOTAL);
        self.cheaper += usize::from(Some(cost) < first);
        self.used_up += usize::from(trials == input.trials as u64);
        self.searched += usize::from(plain::can_be_searched(&input.day));
        self.trials += trials;
    }
}
