//! Inputs for request 2.6: days with one capacity whose runs come to whole loads, a unit more or a unit less, from the opening charge and up
//! to the closing charge; capacities from 0 to the largest; days on which nothing is made. And the runs of all plans, counted by what they
//! make.
use crate::ends;
use crate::free::needs;
use crate::input::{self, Call, Input, Size, With};
use crate::plain::{self, Day, NO_LIMIT};
use crate::random::Random;

const N: usize = plain::MAX_PERIODS;

/// Needs of stretches that each come to some whole loads and a remainder, mostly none, 1 or a unit less than a load; all of it due at the
/// stretch's end, or some before. Capacity suffices.
fn stretches(random: &mut Random, n: usize, capacity: u64) -> Vec<u16> {
    let mut demand = vec![0; n];
    let mut begin = 0;
    while begin < n {
        let length = random.between(1, 6).min((n - begin) as u64) as usize;
        let any = random.between(0, capacity - 1);
        let rest = random.pick(&[0, 0, 0, 1, capacity - 1, any]);
        let need = (random.between(0, length as u64) * capacity + rest).min(length as u64 * capacity);
        let early = random.index(length);
        let before = if random.once_in(2) { random.between(0, need.min((early as u64 + 1) * capacity)) } else { 0 };
        demand[begin + early] += before as u16;
        demand[begin + length - 1] += (need - before) as u16;
        begin += length;
    }
    demand
}

/// A made-up day of such stretches. The last need may be handed on instead; an opening charge, of which one unit or more is needed in each of
/// the first periods, adds nothing to what is made.
pub fn made_up(random: &mut Random, size: Size) -> Input {
    let (n, capacity, setup, rate) = match size {
        Size::Tiny => (random.between(1, 6), random.between(1, 3), random.pick(&[0, 0, 2, 6]), random.pick(&[0, 1, 2])),
        Size::Middle => (random.between(4, 24), random.pick(&[1, 2, 7, 30]), random.pick(&[0, 20, 400]), random.pick(&[1, 9])),
        _ => (random.between(60, 96), random.pick(&[1, 5, 17, 40]), random.pick(&[0, 90, 3000]), random.pick(&[2, 50])),
    };
    let n = n as usize;
    let mut demand = stretches(random, n, capacity);
    let closing = if random.once_in(3) { std::mem::take(&mut demand[n - 1]) } else { 0 };
    let mut opening = 0;
    if random.once_in(3) {
        for need in &mut demand[..random.between(1, n as u64) as usize] {
            let more = random.pick(&[1, 1, 2]);
            *need += more;
            opening += more;
        }
    }
    let holding = random.pick(&[0, 0, 1, rate]);
    let mut costs = |high: u64| (0..n).map(|_| random.between(0, high) as u32).collect();
    let (setup, unit, holding) = (costs(setup), costs(rate), costs(holding));
    let day = Day { demand, capacity: vec![capacity as u16; n], setup, unit, holding, store: vec![NO_LIMIT; n], opening, closing };
    input::complete(random, Call::Equal, day, With::ENDS)
}

fn input(day: &Day) -> Input {
    Input::exact(Call::Equal, day, [&[]; 2])
}

/// The day as it is, without any cost, so that all plans cost the same, and with upkeep so dear that only what must be is kept.
fn with_costs(day: Day) -> [Input; 3] {
    let n = day.periods();
    let none = Day { setup: vec![0; n], unit: vec![0; n], holding: vec![0; n], ..day.clone() };
    let dear = Day { holding: vec![plain::MAX_HOLDING as u32; n], ..day.clone() };
    [input(&day), input(&none), input(&dear)]
}

/// Few periods and every amount that a small capacity lets them make: needed in the last period; handed on; beside an opening charge that
/// lasts to the end, or for half of the day.
fn amounts() -> Vec<Input> {
    let mut inputs = vec![];
    for (n, capacity) in (1..=5).flat_map(|n| (1..=3).map(move |capacity| (n, capacity))) {
        for made in 0..=n as u16 * capacity {
            let day = |covered: usize, closing: u16| {
                let mut demand: Vec<u16> = (0..n).map(|i| u16::from(i < covered)).collect();
                demand[n - 1] += made - closing;
                Day { demand, ..ends::day(n, 0, capacity, covered as u16, closing) }
            };
            inputs.extend([day(0, 0), day(0, made), day(n, made / 2), day(n / 2, 0)].into_iter().flat_map(with_costs));
        }
    }
    inputs
}

/// Capacities from 0 to the largest, around what is made in all, which then is one part load, one full one, or two; the opening charge may
/// leave nothing to make.
fn capacities() -> Vec<Input> {
    let mut inputs = vec![];
    for (n, total) in [1, 2, 3, 12, N].into_iter().flat_map(|n| [0, 1, 5, 100_usize].map(|total| (n, total))) {
        for (opening, closing) in [(0, 0), (total, 0), (total / 2, 0), (0, 3), (total, 3), (total + 3, 3), (7, 7)] {
            let whole = (total + closing).saturating_sub(opening);
            let around = [whole.div_ceil(2), whole.saturating_sub(1), whole, whole + 1].map(|c| c as u16);
            for capacity in [0, 1, 2].into_iter().chain(around).chain([4096, 65_534, 65_535]) {
                inputs.push(input(&ends::day(n, total, capacity, opening as u16, closing as u16)));
            }
        }
    }
    inputs
}

/// Days of 96 periods: whole loads in every period or in some, and a part load beside them.
fn large() -> Vec<Input> {
    let mut inputs = vec![];
    let ends = [(96, 0, 0), (500, 0, 0), (4096, 0, 0), (4032, 0, 0), (4000, 30, 96), (0, 0, 4096), (3000, 1000, 1096)];
    for (total, opening, closing) in ends {
        for demand in needs(total) {
            for capacity in [1, 5, 42, 43, 64, 200] {
                let day = Day { demand: demand.clone(), ..ends::day(N, 0, capacity, opening, closing) };
                inputs.extend(with_costs(day));
            }
        }
    }
    inputs
}

/// What is gone through one by one.
pub fn inputs() -> Vec<Input> {
    [amounts(), capacities(), large()].concat()
}

/// The equal path's plans and their runs.
#[derive(Default)]
pub struct Runs {
    pub plans: usize,
    /// of these, on days with an opening charge, and with a closing one
    pub opening: usize,
    pub closing: usize,
    /// runs by what they make: full loads, a part load beside them, a part load alone, nothing
    pub whole: usize,
    pub both: usize,
    pub part: usize,
    pub idle: usize,
}

impl Runs {
    pub fn add(&mut self, day: &Day, plan: &[u16]) {
        self.plans += 1;
        self.opening += usize::from(day.opening > 0);
        self.closing += usize::from(day.closing > 0);
        for run in plain::runs(day, plan) {
            let loads = plain::counted(day.capacity[0], &plan[run]);
            let kind = match (loads.full, loads.part) {
                (0, 0) => &mut self.idle,
                (_, 0) => &mut self.whole,
                (0, _) => &mut self.part,
                _ => &mut self.both,
            };
            *kind += 1;
        }
    }
}
