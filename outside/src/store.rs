//! Inputs for request 2.5: store limits around what a day asks for, what is made and nothing; days that a store limit alone leaves without
//! a plan; plans that break several rules at once; tables of other lengths; files with both kinds of period records. And days that differ in
//! store limits alone, with what must hold between their plans.
use crate::ends::{self, cuts};
use crate::input::{self, Call, Input, Size, With, CALLS};
use crate::plain::{self, Day, Planned, Rule, Verdict, NO_LIMIT};
use crate::random::Random;

/// Every call on a day; the free path gets it without start costs.
fn calls(day: &Day) -> Vec<Input> {
    let free = Day { setup: vec![0; day.setup.len()], ..day.clone() };
    CALLS.map(|call| ends::input(call, if call == Call::Free { &free } else { day })).into()
}

/// One limit in the first period, in the middle or in the last, at and around what the day asks for (below that it is refused 16), what a
/// plan makes, and nothing; and the longest file.
fn limits() -> Vec<Input> {
    let mut inputs = vec![];
    let ends = [(1, 3, 0, 0), (1, 3, 1, 2), (2, 4000, 96, 96), (3, 7, 0, 0), (3, 7, 2, 0), (3, 7, 0, 2), (3, 7, 4, 3), (96, 500, 60, 40)];
    for (n, total, opening, closing) in ends {
        let unlimited = ends::day(n, total, 65_535, opening, closing);
        let (asked, whole) = (unlimited.asked() as u16, unlimited.whole().unwrap() as u16);
        for i in [0, n / 2, n - 1] {
            for limit in [0, whole - 1, whole, asked - 1, asked, asked + 1, NO_LIMIT - 1, NO_LIMIT] {
                let mut day = unlimited.clone();
                day.store[i] = limit;
                inputs.extend(calls(&day));
            }
        }
    }
    let longest = Day { store: vec![NO_LIMIT - 1; 96], ..ends::day(96, 100, 65_535, 1, 1) };
    assert_eq!(plain::unstamped(&longest).len(), 1832);
    inputs.extend(calls(&longest));
    inputs
}

/// Days that a limit in period i alone leaves without a plan, and with a unit more not.
fn without_plan() -> Vec<Input> {
    let (mut inputs, mut days) = (vec![], vec![]);
    for (n, i) in (1..=5).chain([96]).flat_map(|n| (0..n).map(move |i| (n, i))) {
        // 2 of the charge at the beginning are left there; capacity that can't bind
        days.push((i, 2, ends::day(n, n, 65_535, i as u16 + 3, 2)));
        // one capacity, all of it needed in the last period
        if i + 1 < n {
            let demand = (0..n).map(|k| if k + 1 == n { n as u16 } else { 0 }).collect();
            days.push((i, i as u16 + 1, Day { demand, ..ends::day(n, 0, 1, 0, 0) }));
        }
        // all is made up to there and needed in a later period, or handed on
        let capacity: Vec<u16> = (0..n).map(|k| if k <= i { 2 } else { 0 }).collect();
        days.push((i, 2, Day { capacity: capacity.clone(), ..ends::day(n, 0, 0, 0, 2) }));
        for due in (i + 1..n).step_by(1 + n / 10) {
            let demand = (0..n).map(|k| if k == due { 2 } else { 0 }).collect();
            days.push((i, 2, Day { demand, capacity: capacity.clone(), ..ends::day(n, 0, 0, 0, 0) }));
        }
    }
    for (i, least, mut day) in days {
        day.store[i] = least;
        assert_eq!(plain::shortage(&day), None, "{day:?}");
        inputs.extend(calls(&day));
        day.store[i] = least - 1;
        assert!(plain::shortage(&day).is_some(), "{day:?}");
        inputs.extend(calls(&day));
    }
    inputs
}

/// Plans of days of two periods, each weighed and compared with itself turned round: all that make up to 3 in a period, so that every rule
/// is broken, alone and with each that can be in one period; and some that leave as much as a limit can say, and more.
fn weighed() -> Vec<Input> {
    let mut inputs = vec![];
    let mut weigh = |day: &Day, plan: [u16; 2]| {
        let turned = [plan[1], plan[0]];
        inputs.extend([Call::Weigh, Call::Compare].map(|call| Input::exact(call, day, [&plan, &turned])));
    };
    let plans = || (0..=3).flat_map(|first| (0..=3).map(move |second| [first, second]));
    let stores = || [0, 1, NO_LIMIT].into_iter().flat_map(|first| [0, 1, NO_LIMIT].map(|second| vec![first, second]));
    for (demand, capacity) in [[1, 1], [0, 2], [2, 0]].into_iter().flat_map(|demand| [[1, 2], [2, 2]].map(|capacity| (demand, capacity))) {
        for (opening, closing) in [(0, 0), (2, 0), (0, 2), (2, 1)] {
            for store in stores() {
                let (demand, capacity) = (demand.into(), capacity.into());
                let day = Day { demand, capacity, store, ..ends::day(2, 0, 0, opening, closing) };
                plans().for_each(|plan| weigh(&day, plan));
            }
        }
    }
    for (opening, store) in [0, 1, 2].into_iter().flat_map(|opening| [NO_LIMIT - 1, NO_LIMIT].map(|store| (opening, store))) {
        let day = Day { store: vec![store; 2], ..ends::day(2, 0, 65_535, opening, 2) };
        for plan in [[65_533, 0], [65_534, 0], [65_535, 0], [0, 65_535], [1, 65_535], [65_535, 65_535]] {
            weigh(&day, plan);
        }
    }
    inputs
}

/// A table of limits longer or shorter than the others; tables to fill, of which one is longer or shorter.
fn lengths() -> Vec<Input> {
    let mut inputs = vec![];
    for n in [1, 2, 96] {
        let day = ends::day(n, 5, 65_535, 0, 0);
        for length in [0, n - 1, n + 1] {
            let mut other = day.clone();
            other.store.resize(length, NO_LIMIT);
            let takes_day = CALLS.into_iter().filter(|&call| call != Call::Read && call != Call::Lookup);
            inputs.extend(takes_day.map(|call| ends::input(call, &other)));
        }
        let read = ends::input(Call::Read, &day);
        for (table, length) in (0..6).flat_map(|table| [0, n - 1, n, n + 1].map(|length| (table, length))) {
            let mut lent = read.lent.clone();
            lent[table] = length;
            inputs.push(Input { lent, ..read.clone() });
        }
    }
    inputs
}

/// What is gone through one by one.
pub fn inputs() -> Vec<Input> {
    [limits(), without_plan(), weighed(), lengths()].concat()
}

/// Files of days of 0 to 3 periods, each with a limit or without, with and without charge at the ends, cut at every length: as they are;
/// and with the limit that no record may hold in one period, or another kind byte.
pub fn files() -> Vec<Vec<u8>> {
    let mut files = vec![];
    for (n, (opening, closing)) in (0..=3).flat_map(|n| [(0, 0), (1, 2)].map(|ends| (n, ends))) {
        for limited in 0..1 << n {
            let store = (0..n).map(|i| if limited >> i & 1 == 1 { [0, 258, NO_LIMIT - 1][i] } else { NO_LIMIT }).collect();
            let file = plain::unstamped(&Day { store, ..ends::day(n, 5 * n, 3, opening, closing) });
            files.extend(cuts(&file, 0));
            for [body, length] in plain::walk(&file).unwrap().places {
                let mut no_limit = file.clone();
                no_limit[body - 1] = plain::STORED;
                no_limit.splice(body + plain::PERIOD_BODY..body + length, NO_LIMIT.to_be_bytes());
                files.extend(cuts(&no_limit, body));
                for kind in [0, 1, 2, 3, 4, 5, 255] {
                    let mut other = file.clone();
                    other[body - 1] = kind;
                    files.extend(cuts(&other, body));
                }
            }
        }
    }
    files
}

fn cost(planned: &Option<Planned>) -> u64 {
    planned.as_ref().map_or(u64::MAX, |planned| planned.totals.cost)
}

/// The charge that a plan leaves after each period.
fn left(day: &Day, plan: &[u16]) -> Vec<u16> {
    let made = |i: usize| plan[..i].iter().map(|&x| x as u64).sum();
    (1..=day.periods()).map(|i| day.left(i, made(i)) as u16).collect()
}

/// A made-up day, the same with some limits raised, with none, and with just what the plan without limits leaves or in one period a unit
/// less; by the full path, and that plan weighed on the last two.
pub fn beside(random: &mut Random, size: Size) -> Vec<Input> {
    let day = input::day(random, Call::Full, size, With::BOTH);
    let with = |store: Vec<u16>| Day { store, ..day.clone() };
    let raised = with(day.store.iter().map(|s| s.saturating_add(random.pick(&[0, 0, 1, 2, 65_535]))).collect());
    let days = [day.clone(), raised, with(vec![NO_LIMIT; day.periods()])];
    let plans = days.each_ref().map(plain::plan);
    let full = |day: &Day| Input::exact(Call::Full, day, [&[]; 2]);
    let mut inputs: Vec<Input> = days.iter().map(full).collect();
    // a limit that is raised takes no plan away and makes none dearer
    assert!(cost(&plans[1]) <= cost(&plans[0]) && cost(&plans[2]) <= cost(&plans[1]), "{days:?}");
    let Some(best) = &plans[2] else { return inputs };
    // limits that the plan without any keeps leave it the plan
    let mut store = left(&day, &best.plan);
    if store.iter().zip(&day.store).all(|(charge, limit)| charge <= limit) {
        assert_eq!(plans[0], plans[2], "{day:?}");
    }
    let weigh = |day: &Day| Input::exact(Call::Weigh, day, [&best.plan, &[]]);
    let just = with(store.clone());
    assert_eq!(plain::plan(&just).as_ref(), Some(best), "{just:?}");
    inputs.extend([full(&just), weigh(&just)]);
    let with_charge: Vec<usize> = (0..store.len()).filter(|&i| store[i] > 0).collect();
    if !with_charge.is_empty() {
        let i = random.pick(&with_charge);
        store[i] -= 1;
        let less = with(store);
        assert_eq!(plain::verdict(&less, &best.plan), Verdict::Broken(Rule::AboveStore, i + 1), "{less:?}");
        inputs.extend([full(&less), weigh(&less)]);
    }
    inputs
}
