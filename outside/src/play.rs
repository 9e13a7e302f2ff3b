//! Request 2.11: inputs of a day played through: made-up days with a plan that holds, of all that there are any one, against needs around those
//! that it was made for; every plan of tiny days against every table of few needs; actual needs around their limit, too many or too few, alone
//! and beside other faults; plans that break each rule; store limits around the charge that lower needs leave; charge to begin with around
//! the first need and the first limit; sums as large as they can be. And the plays, counted by what came of them.
use crate::ends;
use crate::input::{self, Call, Input, Size, With};
use crate::plain::{self, Day, Play, Verdict, NO_LIMIT};
use crate::random::Random;

const N: usize = plain::MAX_PERIODS;
const MOST: u16 = plain::MAX_DEMAND as u16;

fn input(day: &Day, plan: &[u16], actual: &[u16]) -> Input {
    Input { actual: actual.to_vec(), ..Input::exact(Call::Play, day, [plan, &[]]) }
}

fn holds(day: &Day, plan: &[u16]) -> bool {
    matches!(plain::verdict(day, plan), Verdict::Holds(_))
}

/// Any plan that holds, of a day that has one: from the last period on, the totals from which the rest of the day can be planned are an
/// interval; from the first on, each total is drawn from it.
fn any_plan(random: &mut Random, day: &Day) -> Vec<u16> {
    let n = day.periods();
    let whole = day.whole().expect("a day with a plan") as i64;
    let mut totals = vec![(whole, whole); n + 1];
    for i in (1..n).rev() {
        let (low, high) = totals[i + 1];
        let unmade = day.left(i, 0);
        totals[i] = ((low - day.capacity[i] as i64).max(-unmade).max(0), high.min(day.store[i - 1] as i64 - unmade));
    }
    let mut plan = vec![];
    let mut made = 0;
    for i in 0..n {
        let (low, high) = totals[i + 1];
        let next = random.between(made.max(low) as u64, (made + day.capacity[i] as i64).min(high) as u64) as i64;
        plan.push((next - made) as u16);
        made = next;
    }
    plan
}

/// A made-up day with such a plan, against made-up needs.
pub fn that_holds(random: &mut Random, size: Size) -> Input {
    loop {
        let with = random.pick(&[With::NOTHING, With::ENDS, With::STORES, With::BOTH]);
        let day = input::day(random, Call::Play, size, with);
        if plain::shortage(&day).is_some() {
            continue;
        }
        let plan = any_plan(random, &day);
        assert!(holds(&day, &plan), "{day:?} {plan:?}");
        return Input { plans: vec![plan], ..input::complete(random, Call::Play, day, with) };
    }
}

/// Plans that are weighed elsewhere: against the needs that they were made for, none, a unit more in each period, and each a period later.
pub fn of_weighed(inputs: &[Input]) -> Vec<Input> {
    let mut plays = vec![];
    for Input { day, plans, .. } in inputs.iter().filter(|input| input.call == Call::Weigh) {
        let more: Vec<u16> = day.demand.iter().map(|need| need.saturating_add(1).min(MOST)).collect();
        let mut later = day.demand.clone();
        later.rotate_right(1);
        let none = vec![0; day.periods()];
        plays.extend([&day.demand, &none, &more, &later].map(|actual| input(day, &plans[0], actual)));
    }
    plays
}

/// All tables of n entries out of these.
fn tables(n: usize, entries: &[u16]) -> Vec<Vec<u16>> {
    let longer = |front: &Vec<u16>| entries.iter().map(|&entry| [&front[..], &[entry]].concat()).collect::<Vec<_>>();
    (0..n).fold(vec![vec![]], |fronts, _| fronts.iter().flat_map(longer).collect())
}

/// Tiny days with every plan that holds, against every table of few needs.
fn every() -> Vec<Input> {
    let mut inputs = vec![];
    for demand in [vec![2], vec![1, 1], vec![0, 2], vec![2, 0], vec![1, 0, 1], vec![0, 1, 2]] {
        let n = demand.len();
        let stores = tables(n, if n == 3 { &[0, 1, NO_LIMIT] } else { &[0, 1, 2, NO_LIMIT] });
        for ((opening, closing), store) in
            [(0, 0), (2, 0), (0, 2), (2, 1)].into_iter().flat_map(|ends| stores.iter().map(move |s| (ends, s)))
        {
            let day = Day { demand: demand.clone(), store: store.clone(), ..ends::day(n, 0, 2, opening, closing) };
            for plan in tables(n, &[0, 1, 2]).iter().filter(|plan| holds(&day, plan)) {
                let needs: &[u16] = if n == 3 { &[0, 1, 3] } else { &[0, 1, 2, 3, 4] };
                inputs.extend(tables(n, needs).iter().map(|actual| input(&day, plan, actual)));
            }
        }
    }
    inputs
}

/// Each need made in its own period.
fn as_needed(n: usize) -> (Day, Vec<u16>) {
    let day = ends::day(n, 2 * n, 5, 0, 0);
    let plan = day.demand.clone();
    (day, plan)
}

/// An actual need around its limit in each period, alone and with all later ones, beside a value of the day above its limit in the same, the
/// first or the last period, too much need over the day, too much charge, or none of these; with a plan that holds, with a broken one, and with
/// too few amounts.
fn limits() -> Vec<Input> {
    let mut inputs = vec![];
    for (n, i) in [1, 2, 3].into_iter().flat_map(|n| (0..n).map(move |i| (n, i))).chain([(N, 0), (N, 40), (N, N - 1)]) {
        let (day, plan) = as_needed(n);
        let mut broken = plan.clone();
        broken[n / 2] = 6;
        for value in [0, MOST - 1, MOST, MOST + 1, 65_535] {
            let mut actual = day.demand.clone();
            actual[i] = value;
            let mut later = actual.clone();
            later[i..].fill(value);
            let mut days = vec![day.clone(), Day { closing: MOST, ..day.clone() }, Day { opening: 65_535, ..day.clone() }];
            for k in [0, i, n - 1] {
                let mut other = day.clone();
                other.unit[k] = plain::MAX_UNIT as u32 + 1;
                let mut need = day.clone();
                need.demand[k] = MOST + 1;
                days.extend([other, need]);
            }
            for day in &days {
                inputs.extend([
                    input(day, &plan, &actual),
                    input(day, &plan, &later),
                    input(day, &broken, &actual),
                    input(day, &[], &actual),
                ]);
            }
        }
    }
    inputs
}

/// Actual needs too many or too few and plans too long or too short, beside tables of the day that are as long, longer or shorter, and
/// beside none; with a plan that holds and with a broken one. What is past n is above every limit.
fn lengths() -> Vec<Input> {
    let mut inputs = vec![];
    for n in [0, 1, 2, N, N + 1] {
        let (day, plan) = if n == 0 { (Day::default(), vec![]) } else { as_needed(n) };
        let mut longer = day.clone();
        longer.capacity.push(5);
        let mut shorter = day.clone();
        shorter.store.pop();
        for needs in [0, 1, n.saturating_sub(1), n, n + 1, N + 1] {
            let mut actual = day.demand.clone();
            actual.resize(needs, 65_535);
            for amounts in [0, n.saturating_sub(1), n, n + 1, n + 50] {
                let mut plan = plan.clone();
                plan.resize(amounts, 65_535);
                let mut broken = plan.clone();
                broken.iter_mut().for_each(|amount| *amount = 0);
                for day in [&day, &longer, &shorter] {
                    inputs.extend([input(day, &plan, &actual), input(day, &broken, &actual)]);
                }
            }
        }
    }
    inputs
}

/// A plan that breaks a rule in some period: above capacity, short, above store, over at the end; against needs that it would serve and others,
/// too many and too few, and above their limit.
fn broken() -> Vec<Input> {
    let mut inputs = vec![];
    for (n, i) in [1, 2, 3, 5, N].into_iter().flat_map(|n| [0, n / 2, n - 1].map(|i| (n, i))) {
        let (day, plan) = as_needed(n);
        let mut full = day.clone();
        full.store[i] = 0;
        let with = |i: usize, amount: u16| {
            let mut plan = plan.clone();
            plan[i] = amount;
            plan
        };
        let plans = [(&day, with(i, 6)), (&day, with(i, 1)), (&day, with(i, 0)), (&full, with(i, 3)), (&day, with(n - 1, 3))];
        for (day, plan) in plans {
            assert!(!holds(day, &plan), "{day:?} {plan:?}");
            let mut above = day.demand.clone();
            above[i] = MOST + 1;
            let mut longer = day.demand.clone();
            longer.push(0);
            let tables = [day.demand.clone(), plan.clone(), vec![0; n], vec![MOST; n], above, longer, vec![1; n - 1]];
            inputs.extend(tables.iter().map(|actual| input(day, &plan, actual)));
        }
    }
    inputs
}

/// Lower needs than planned in all periods or in one, and limits in that period around what is then left there.
fn stores() -> Vec<Input> {
    let mut inputs = vec![];
    for (n, i) in [1, 2, 3, 5, N].into_iter().flat_map(|n| [0, n / 2, n - 1].map(|i| (n, i))) {
        let (day, plan) = as_needed(n);
        let mut once = day.demand.clone();
        once[i] = 0;
        let after = 2 * (i as u16 + 1);
        for limit in [0, 1, 2, 3, after - 1, after, after + 1, MOST, NO_LIMIT - 1, NO_LIMIT] {
            let mut limited = day.clone();
            limited.store[i] = limit;
            let everywhere = Day { store: vec![limit; n], ..day.clone() };
            for day in [&limited, &everywhere] {
                inputs.extend([&vec![0; n], &vec![1; n], &vec![MOST; n], &once].map(|actual| input(day, &plan, actual)));
            }
        }
    }
    inputs
}

/// Charge to begin with, of which some is to be left after the first period and handed on or needed in the second; limits from just that to
/// more than there is, and the first need from none to more than there is.
fn openings() -> Vec<Input> {
    let mut inputs = vec![];
    for (opening, kept) in [1, 5, MOST].into_iter().flat_map(|opening| [0, 1, opening].map(|kept| (opening, kept))) {
        for (second, closing) in [(kept, 0), (0, kept)] {
            for limit in [kept, kept + 1, opening - 1, opening, NO_LIMIT].into_iter().filter(|&limit| limit >= kept) {
                let day = Day { demand: vec![opening - kept, second], ..ends::day(2, 0, 0, opening, closing) };
                let day = Day { store: vec![limit, NO_LIMIT], ..day };
                assert!(holds(&day, &[0, 0]), "{day:?}");
                for first in [0, 1, opening - kept, opening - 1, opening, (opening + 1).min(MOST), MOST] {
                    inputs.extend([0, second, second / 2, MOST].map(|later| input(&day, &[0, 0], &[first, later])));
                }
            }
        }
    }
    inputs
}

/// As much as there can be: made, there from the beginning, or half of each; needed in the last period, or handed on. Against needs that come
/// to as much, a unit more, 65,535, 65,536 and all that 96 periods can need; against none, also with a store for nothing in the end.
fn most() -> Vec<Input> {
    let mut inputs = vec![];
    let in_one = |i: usize, amount: u16| (0..N).map(|k| if k == i { amount } else { 0 }).collect::<Vec<u16>>();
    let front = |whole: usize, rest: u16| (0..N).map(|k| if k < whole { MOST } else { [0, rest][usize::from(k == whole)] }).collect();
    let actual: [Vec<u16>; 9] = [
        vec![0; N],
        vec![MOST; N],
        in_one(0, MOST),
        in_one(N - 1, MOST),
        front(1, 1),
        front(15, MOST - 1),
        front(16, 0),
        front(16, 1),
        vec![43; N],
    ];
    for (opening, made) in [(0, MOST), (MOST, 0), (MOST / 2, MOST / 2)] {
        for (demand, closing) in [(in_one(N - 1, MOST), 0), (vec![0; N], MOST)] {
            let day = Day { demand, ..ends::day(N, 0, MOST, opening, closing) };
            for i in [0, 40, N - 1] {
                let plan = in_one(i, made);
                inputs.extend(actual.iter().map(|actual| input(&day, &plan, actual)));
                let mut empty = day.clone();
                empty.store[N - 1] = 0;
                inputs.extend(actual.iter().map(|actual| input(&empty, &plan, actual)));
            }
        }
    }
    inputs
}

/// What is gone through one by one.
pub fn inputs() -> Vec<Input> {
    [every(), limits(), lengths(), broken(), stores(), openings(), most()].concat()
}

/// Accepted calls.
#[derive(Default)]
pub struct Plays {
    pub plays: usize,
    /// against the needs that the plan was made for
    pub as_planned: usize,
    /// with something missed alone, spilled alone, and both
    pub lost: usize,
    pub disposed: usize,
    pub both: usize,
}

impl Plays {
    pub fn add(&mut self, input: &Input, play: &Play) {
        self.plays += 1;
        self.as_planned += usize::from(input.actual == input.day.demand);
        match (play.lost > 0, play.disposed > 0) {
            (true, true) => self.both += 1,
            (true, false) => self.lost += 1,
            (false, true) => self.disposed += 1,
            (false, false) => {}
        }
    }
}
