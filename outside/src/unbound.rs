//! Inputs for request 2.13: days whose capacities and stores can't bind. Made-up ones on which many runs cost the same; the tie row of request 2.2
//! among periods that need nothing; days of 96 periods at the limits.
use crate::free;
use crate::input::{self, Call, Input, Size, With};
use crate::lots;
use crate::plain::{self, Day, Planned, Totals, NO_LIMIT};
use crate::random::Random;

const N: usize = plain::MAX_PERIODS;

/// Few units: needs of up to 3, with stretches in which nothing is needed.
fn needs(random: &mut Random, n: usize) -> Vec<u16> {
    let (high, longest) = (random.pick(&[1, 1, 2, 3]), (n as u64 / 3).clamp(1, 8));
    let mut needs = vec![];
    while needs.len() < n {
        let high = if random.once_in(4) { 0 } else { high };
        needs.extend((0..random.between(1, longest)).map(|_| random.between(0, high) as u16));
    }
    needs.truncate(n);
    needs
}

/// Costs of n periods: none, one throughout, any, or none but in a few periods.
fn costs(random: &mut Random, n: usize, high: u64) -> Vec<u32> {
    let throughout = random.between(0, high);
    let kind = random.between(0, 3);
    let mut cost = || match kind {
        0 => 0,
        1 => throughout,
        2 => random.between(0, high),
        _ => random.pick(&[0, 0, 0, high]),
    };
    (0..n).map(|_| cost() as u32).collect()
}

/// Unit costs that make up for the upkeep spared, but for a little: a unit costs much the same wherever it is made.
fn level(random: &mut Random, day: &mut Day) {
    let most = random.pick(&[0, 0, 1]);
    for i in 0..day.periods() {
        day.unit[i] = plain::spared(day, i) as u32 + random.between(0, most) as u32;
    }
}

/// Charge at the ends: none, or some to hand on; to begin with none, what the first periods need or a unit more, or any part of what is asked
/// for, up to all of it.
fn give_ends(random: &mut Random, day: &mut Day) {
    day.closing = random.pick(&[0, 0, 1, 3]);
    let asked = day.asked();
    let first = day.demand_to(random.index(day.periods()));
    let any = random.between(0, asked);
    day.opening = random.pick(&[0, 0, 0, 0, first, first + 1, any, asked]).min(asked) as u16;
}

/// The least capacities and store limits that can't bind, or higher ones, or those here and there.
fn unbind(random: &mut Random, day: &mut Day) {
    let spare = random.pick(&[[0, 0], [0, 1], [0, 65_535], [65_535, 65_535]]);
    let mut enough = |least: u64| (least + random.pick(&spare)).min(65_535) as u16;
    let (n, asked) = (day.periods(), day.asked());
    day.capacity = (1..=n).map(|i| enough(plain::rest(day, i) as u64)).collect();
    day.store = (0..n).map(|_| enough(asked)).collect();
}

/// A made-up day of few units and low costs.
pub fn with_ties(random: &mut Random, size: Size) -> Day {
    let long = random.between(31, 96);
    let n = match size {
        Size::Tiny => random.between(1, 6),
        Size::Middle => random.between(7, 30),
        _ => random.pick(&[long, 96]),
    } as usize;
    let start = random.pick(&[1, 2, 2, 6, 20]);
    let (demand, setup) = (needs(random, n), costs(random, n, start));
    let (unit, holding) = (costs(random, n, 2), costs(random, n, 2));
    let mut day = Day { demand, setup, unit, holding, ..Day::default() };
    if random.once_in(3) {
        level(random, &mut day);
    }
    give_ends(random, &mut day);
    unbind(random, &mut day);
    day
}

/// Such days with memory that suffices.
pub fn made_up(random: &mut Random, size: Size, times: usize) -> Vec<Input> {
    let input = |_| {
        let day = with_ties(random, size);
        input::complete(random, Call::Uncapped, day, With::BOTH)
    };
    (0..times).map(input).collect()
}

fn input(day: &Day) -> Input {
    Input::exact(Call::Uncapped, day, [&[]; 2])
}

/// The day with the least capacities and store limits that can't bind, and with the highest that there are.
fn least_and_most(day: Day) -> [Input; 2] {
    let n = day.periods();
    let (capacity, store) = ((1..=n).map(|i| plain::rest(&day, i) as u16).collect(), vec![day.asked() as u16; n]);
    let least = Day { capacity, store, ..day.clone() };
    let most = Day { capacity: vec![65_535; n], store: vec![NO_LIMIT; n], ..day };
    [input(&least), input(&most)]
}

/// The tie row with so many periods before it and after it that need nothing; what they need may also be there from the beginning, and the
/// second need may be handed on. All is made for the first need, as in the row, in a tie with a lot for each.
fn tie_row(before: usize, after: usize) -> Vec<Input> {
    let n = before + 2 + after;
    let mut demand = vec![0; n];
    demand[before..before + 2].fill(2);
    let row = Day { demand, setup: vec![8; n], unit: vec![1; n], holding: vec![2; n], ..Day::default() };
    let mut days = vec![row.clone()];
    if before > 0 {
        let mut covered = Day { opening: before as u16, ..row.clone() };
        covered.demand[..before].fill(1);
        days.push(covered);
    }
    if after == 0 {
        let mut handed_on = Day { closing: 2, ..row };
        handed_on.demand[n - 1] = 0;
        days.push(handed_on);
    }
    let (mut one, mut each) = (vec![0; n], vec![0; n]);
    one[before] = 4;
    each[before..before + 2].fill(2);
    for day in &days {
        let Planned { plan, totals } = lots::plan(day);
        assert_eq!((&plan, totals.cost), (&one, plain::cost(day, &each)), "{day:?}");
        assert!(day.opening + day.closing > 0 || totals == Totals { cost: 20, setups: 1 }, "{day:?}");
    }
    let as_in_row = |day: &Day| input(&Day { capacity: vec![4; n], store: vec![NO_LIMIT; n], ..day.clone() });
    days.into_iter().flat_map(|day| [vec![as_in_row(&day)], least_and_most(day).into()].concat()).collect()
}

/// That row in every place: at the end of a day, at its beginning, and within 96 periods.
pub fn tie_rows() -> Vec<Input> {
    let more = N - 2;
    let last = (0..=more).map(|before| (before, 0));
    let first = (1..=more).map(|after| (0, after));
    let within = (1..more).map(|before| (before, more - before));
    last.chain(first).chain(within).flat_map(|(before, after)| tie_row(before, after)).collect()
}

/// Starts, unit costs and upkeep of 96 periods.
type Costs = [Vec<u32>; 3];

/// Costs at their limits and none, throughout and in turns: one dear and the others nothing; cheap early, and late; alike wherever a unit is made;
/// a lot for each of even needs in a tie with one for two.
fn dearest() -> Vec<Costs> {
    let [start, unit, upkeep] = [plain::MAX_SETUP, plain::MAX_UNIT, plain::MAX_HOLDING].map(|limit| limit as u32);
    let by = |f: fn(u32) -> u32| (0..N as u32).map(f).collect::<Vec<_>>();
    let all = |cost: u32| vec![cost; N];
    vec![
        [all(start), all(unit), all(upkeep)],
        [all(start), all(0), all(0)],
        [all(0), all(unit), all(0)],
        [all(0), all(0), all(upkeep)],
        [all(0), all(0), all(0)],
        [all(start), by(|i| if i == 0 { 0 } else { 1_000_000 }), all(5000)],
        [by(|i| i % 2 * 1_000_000_000), all(unit), by(|i| i % 3 * 250_000)],
        [by(|i| (i + 1) % 2 * 1_000_000_000), by(|i| i % 2 * 1_000_000), all(0)],
        [all(start), by(|i| 10_000 * i), all(5000)],
        [all(0), by(|i| 10_000 * i), all(5000)],
        [all(start), by(|i| 1_000_000 - 10_000 * i), by(|i| if i == 48 { 500_000 } else { 0 })],
        [all(42_000_000), all(unit), all(upkeep)],
    ]
}

/// Days of 96 periods that ask for as much as can be: needed in the first period, in the last, in all and in some; with charge at the ends that
/// leaves nothing, a unit, some or all of it to make.
pub fn limits() -> Vec<Input> {
    let mut days = vec![];
    let ends = [
        (4096, 0, 0),
        (4032, 0, 0),
        (4096, 4095, 0),
        (4096, 4000, 0),
        (4096, 4096, 0),
        (1, 0, 4095),
        (0, 0, 4096),
        (0, 4095, 4096),
        (96, 4000, 4000),
        (3000, 1000, 1096),
    ];
    for (total, opening, closing) in ends {
        let first: Vec<u16> = (0..N).map(|i| if i == 0 { total as u16 } else { 0 }).collect();
        for demand in free::needs(total).into_iter().chain([first]) {
            // all costs without charge at the ends, and of each other four days every fourth
            let step = if opening + closing == 0 { 1 } else { 4 };
            for [setup, unit, holding] in dearest().into_iter().skip(days.len() % step).step_by(step) {
                days.push(Day { demand: demand.clone(), setup, unit, holding, opening, closing, ..Day::default() });
            }
        }
    }
    days.into_iter().flat_map(least_and_most).collect()
}
