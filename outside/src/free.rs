//! Inputs for request 2.3: days without starting cost, with ties and at the limits; start costs in every period; lent memory shorter than
//! needed, as long, and longer.
use crate::ends;
use crate::input::{self, Call, Input, Size, With};
use crate::plain::{self, Day};
use crate::random::Random;

const N: usize = plain::MAX_PERIODS;

/// A made-up day whose unit costs make up for the upkeep spared, but for a little, so that many periods compare alike.
pub fn level(random: &mut Random, size: Size, with: With) -> Input {
    let mut day = input::day(random, Call::Free, size, with);
    // so low that unit costs stay within their limit
    day.holding.iter_mut().for_each(|h| *h = (*h).min(5000));
    let most = random.pick(&[0, 1, 2]);
    for i in 0..day.periods() {
        day.unit[i] = plain::spared(&day, i) as u32 + random.between(0, most) as u32;
    }
    input::complete(random, Call::Free, day, with)
}

fn input(day: &Day) -> Input {
    Input::exact(Call::Free, day, [&[]; 2])
}

/// A day of n periods without starting cost, with a need of 1 in each.
fn plain_day(n: usize) -> Day {
    let cost = |factor: usize, high: usize| (0..n).map(|i| (factor * i % high) as u32).collect();
    let (unit, holding, store) = (cost(3, 5), cost(5, 4), vec![plain::NO_LIMIT; n]);
    Day { demand: vec![1; n], capacity: vec![2; n], setup: vec![0; n], unit, holding, store, opening: 0, closing: 0 }
}

/// Unit costs and upkeep of 96 periods.
fn costs() -> [(Vec<u32>, Vec<u32>); 8] {
    let (unit, holding) = (plain::MAX_UNIT as u32, plain::MAX_HOLDING as u32);
    let by = |f: fn(u32) -> u32| (0..N as u32).map(f).collect::<Vec<_>>();
    [
        // a million less with each period, down to 94 millions below zero
        (vec![unit; N], vec![holding; N]),
        (vec![0; N], vec![holding; N]),
        // two periods alike each time, two million less with the next two; and the same for the later of two and the next
        (by(|i| i % 2 * 1_000_000), vec![holding; N]),
        (by(|i| (i + 1) % 2 * 1_000_000), vec![holding; N]),
        // all alike: without upkeep, and with
        (vec![unit; N], vec![0; N]),
        (by(|i| 10_000 * i), vec![5000; N]),
        // dearer with each period; and cheaper with each, with upkeep in one alone
        (by(|i| 10_500 * i), vec![5000; N]),
        (by(|i| 1_000_000 - 10_000 * i), by(|i| if i == 48 { 500_000 } else { 0 })),
    ]
}

/// Needs of 96 periods, `total` in all: even; in every twelfth period; all in the last.
pub fn needs(total: usize) -> [Vec<u16>; 3] {
    let even = |n: usize, i: usize| (total * (i + 1) / n - total * i / n) as u16;
    [
        (0..N).map(|i| even(N, i)).collect(),
        (0..N).map(|i| if i % 12 == 11 { even(N / 12, i / 12) } else { 0 }).collect(),
        (0..N).map(|i| if i == N - 1 { total as u16 } else { 0 }).collect(),
    ]
}

/// Days of 96 periods up to the limits, with and without charge at the ends.
fn large() -> Vec<Input> {
    let capacities: [Vec<u16>; 4] = [
        vec![65_535; N],
        vec![43; N],
        // none in every other period, and as much again before it
        (0..N).map(|i| if i % 2 == 0 { 86 } else { 0 }).collect(),
        // of all sizes
        (0..N).map(|i| [700, 0, 1, 50, 7][i % 5]).collect(),
    ];
    let mut inputs = vec![];
    for (total, opening, closing) in [(500, 0, 0), (4096, 0, 0), (4000, 30, 96), (0, 0, 4096), (3000, 1000, 1096)] {
        for demand in needs(total) {
            for capacity in &capacities {
                for (unit, holding) in costs() {
                    let (demand, capacity, store) = (demand.clone(), capacity.clone(), vec![plain::NO_LIMIT; N]);
                    inputs.push(input(&Day { demand, capacity, setup: vec![0; N], unit, holding, store, opening, closing }));
                }
            }
        }
    }
    inputs
}

/// A start cost in each period alone, and in it and all later ones, the least and the highest; also on days with nothing to make.
fn starts() -> Vec<Input> {
    let mut inputs = vec![];
    for n in [1, 2, 3, N] {
        for i in 0..n {
            let mut alone = plain_day(n);
            alone.setup[i] = 1;
            let mut later = Day { demand: vec![0; n], capacity: vec![0; n], ..plain_day(n) };
            later.setup[i..].fill(plain::MAX_SETUP as u32);
            inputs.extend([input(&alone), input(&later)]);
        }
    }
    inputs
}

/// Areas and slots shorter than needed, as long, and longer, on days of few and of many periods, and of more than there may be.
fn lengths() -> Vec<Input> {
    let mut inputs = vec![];
    for n in [1, 2, 3, N - 1, N, N + 1] {
        let around = [0, n - 1, n, n + 1, n + 50];
        for (costs, slots) in around.iter().flat_map(|&costs| around.map(|slots| (costs, slots))) {
            inputs.push(Input { lent: vec![costs, slots], ..input(&plain_day(n)) });
        }
    }
    inputs
}

/// The days around the limits of what is asked for, without their start costs.
fn ends() -> Vec<Input> {
    let mut inputs = ends::limits(&[Call::Free]);
    inputs.iter_mut().for_each(|input| input.day.setup.fill(0));
    inputs
}

/// What is gone through one by one.
pub fn inputs() -> Vec<Input> {
    [large(), starts(), lengths(), ends()].concat()
}
