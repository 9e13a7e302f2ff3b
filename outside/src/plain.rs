//! Documents 01 and 02 (requests 2.1 to 2.7 and 2.9 to 2.12; 2.8 is in price.rs, 2.13 in lots.rs) and the report in plain code, written from
//! these alone: what every call should answer.
//! Names are lot sizing's; the documents say need for demand, start for setup, upkeep for holding, made for produced, missed for lost,
//! spilled for disposed.
use std::iter::once;
use std::ops::Range;

/// A day: one entry a period in each table, and the charge at both its ends, A and Z.
#[derive(Clone, Debug, Default, PartialEq)]
pub struct Day {
    pub demand: Vec<u16>,
    pub capacity: Vec<u16>,
    pub setup: Vec<u32>,
    pub unit: Vec<u32>,
    pub holding: Vec<u32>,
    /// s, the most charge that may be left after a period
    pub store: Vec<u16>,
    pub opening: u16,
    pub closing: u16,
}

/// What a day file is for, the documents' pair: a station, and a day as so many since 1 January 2000.
#[derive(Clone, Copy, Debug, Default, PartialEq, Eq)]
pub struct Stamp {
    pub station: u16,
    pub date: u16,
}

impl Stamp {
    /// As the reader is told to expect it.
    pub fn numbers(self) -> Vec<u16> {
        vec![self.station, self.date]
    }
}

#[derive(Clone, Copy, Debug, PartialEq, Eq)]
pub struct Refusal {
    pub number: u64,
    pub period: usize,
}

#[derive(Clone, Copy, Debug, PartialEq, Eq)]
pub struct Totals {
    pub cost: u64,
    pub setups: u64,
}

#[derive(Clone, Debug, PartialEq, Eq)]
pub struct Planned {
    pub plan: Vec<u16>,
    pub totals: Totals,
}

#[derive(Clone, Copy, Debug, PartialEq, Eq)]
pub enum Rule {
    AboveCapacity,
    Short,
    AboveStore,
    Over,
}

#[derive(Clone, Copy, Debug, PartialEq, Eq)]
pub enum Verdict {
    Holds(Totals),
    Broken(Rule, usize),
}

#[derive(Clone, Copy, Debug, PartialEq, Eq)]
pub enum Path {
    Full,
    Uncapped,
    Equal,
    Free,
}

pub const MAX_PERIODS: usize = 96;
pub const MAX_DEMAND: u64 = 4096;
pub const MAX_SETUP: u64 = 1_000_000_000;
pub const MAX_UNIT: u64 = 1_000_000;
pub const MAX_HOLDING: u64 = 500_000;
pub const MAX_TOTAL: u64 = 4096;
/// That of the call on big days.
pub const MAX_BIG_TOTAL: u64 = 60_000;

/// The store limit of a period whose record in the file has none.
pub const NO_LIMIT: u16 = 65_535;

/// The file's kinds: a period, the end, the charge at both ends of the day, a period with a store limit, and what the file is for; with the
/// lengths of their bodies.
pub const PERIOD: u8 = 1;
pub const END: u8 = 2;
pub const CHARGE: u8 = 3;
pub const STORED: u8 = 4;
pub const STAMP: u8 = 5;
pub const PERIOD_BODY: usize = 16;
pub const END_BODY: usize = 2;
pub const CHARGE_BODY: usize = 4;
pub const STORED_BODY: usize = 18;
pub const STAMP_BODY: usize = 4;

const INFINITE: u64 = u64::MAX;

impl Day {
    pub fn periods(&self) -> usize {
        self.demand.len()
    }

    /// R: the demand of the first i periods.
    pub fn demand_to(&self, i: usize) -> u64 {
        sum_to(&self.demand, i)
    }

    /// C: the capacity of the first i periods.
    pub fn capacity_to(&self, i: usize) -> u64 {
        sum_to(&self.capacity, i)
    }

    pub fn total(&self) -> u64 {
        self.demand_to(self.periods())
    }

    /// R + Z: what the day asks for.
    pub fn asked(&self) -> u64 {
        self.total() + self.closing as u64
    }

    /// T: what a plan makes in all; none where the day begins with more than it asks for.
    pub fn whole(&self) -> Option<u64> {
        self.asked().checked_sub(self.opening as u64)
    }

    /// The least that a plan makes in the first i periods.
    pub fn least_by(&self, i: usize) -> u64 {
        let asked = if i == self.periods() { self.asked() } else { self.demand_to(i) };
        asked.saturating_sub(self.opening as u64)
    }

    /// The charge left after the first i periods, in which so much was made; below 0 where it does not reach. After none it is A.
    pub fn left(&self, i: usize, made: u64) -> i64 {
        self.opening as i64 + made as i64 - self.demand_to(i) as i64
    }
}

/// The sum of the first i entries, as far as there are so many.
fn sum_to(table: &[u16], i: usize) -> u64 {
    table.iter().take(i).map(|&v| v as u64).sum()
}

// The report's section 2: plans and what they cost.

/// p_i(x).
fn production(day: &Day, i: usize, x: u64) -> u64 {
    if x == 0 {
        0
    } else {
        day.setup[i] as u64 + day.unit[i] as u64 * x
    }
}

/// h_i on a charge: that before the period, I_{i-1}, or that left, I_i.
fn holding(day: &Day, i: usize, charge: i64) -> u64 {
    day.holding[i] as u64 * u64::try_from(charge).expect("a plan that is not short")
}

/// Sum (1) of a plan that keeps the conditions.
pub fn cost(day: &Day, plan: &[u16]) -> u64 {
    let charge = |i: usize| day.left(i, sum_to(plan, i));
    let period = |i: usize| production(day, i, plan[i] as u64) + holding(day, i, charge(i)) + holding(day, i, charge(i + 1));
    (0..day.periods()).map(period).sum()
}

pub fn totals(day: &Day, plan: &[u16]) -> Totals {
    let setups = plan.iter().take(day.periods()).filter(|&&x| x > 0).count() as u64;
    Totals { cost: cost(day, plan), setups }
}

/// The rule that amounts for the first i periods break in period i, counted from 1; of several the first in order.
pub fn broken(day: &Day, amounts: &[u16], i: usize) -> Option<Rule> {
    let left = day.left(i, sum_to(amounts, i));
    let last = i == day.periods();
    let least = if last { day.closing as i64 } else { 0 };
    if amounts[i - 1] > day.capacity[i - 1] {
        Some(Rule::AboveCapacity)
    } else if left < least {
        Some(Rule::Short)
    } else if left > day.store[i - 1] as i64 {
        Some(Rule::AboveStore)
    } else if last && left > least {
        Some(Rule::Over)
    } else {
        None
    }
}

/// The weigher's verdict: the first period that breaks a rule decides.
pub fn verdict(day: &Day, plan: &[u16]) -> Verdict {
    let first = (1..=day.periods()).find_map(|i| broken(day, plan, i).map(|rule| Verdict::Broken(rule, i)));
    first.unwrap_or_else(|| Verdict::Holds(totals(day, plan)))
}

/// Whether the first of two equally dear plans has the smaller amount in the last period where they differ.
fn smaller(x: &[u16], y: &[u16]) -> bool {
    (0..x.len()).rev().find(|&k| x[k] != y[k]).is_some_and(|k| x[k] < y[k])
}

/// How many plans `search` would try, at most.
pub fn plans(day: &Day) -> f64 {
    let most = day.whole().unwrap_or(0);
    day.capacity.iter().map(|&c| (c as u64).min(most) as f64 + 1.0).product()
}

/// Whether these are few enough to try all.
pub fn can_be_searched(day: &Day) -> bool {
    plans(day) <= 2000.0
}

/// The plan of a day by trying all: of those that hold the cheapest, and of equally cheap ones the smallest.
pub fn search(day: &Day) -> Option<Planned> {
    fn extend(day: &Day, plan: &mut Vec<u16>, best: &mut Option<Planned>) {
        let i = plan.len();
        if i == day.periods() {
            if let Verdict::Holds(totals) = verdict(day, plan) {
                let better = match best {
                    None => true,
                    Some(b) => totals.cost < b.totals.cost || totals.cost == b.totals.cost && smaller(plan, &b.plan),
                };
                if better {
                    *best = Some(Planned { plan: plan.clone(), totals });
                }
            }
            return;
        }
        // no period of a plan that holds makes more than the whole plan
        for x in 0..=(day.capacity[i] as u64).min(day.whole().unwrap_or(0)) {
            plan.push(x as u16);
            extend(day, plan, best);
            plan.pop();
        }
    }
    let mut best = None;
    extend(day, &mut Vec::new(), &mut best);
    best
}

/// The plan of a day by recursion (5), by its letter: D_i(X) for every X that the store can take, and the smallest x that gives it. Upkeep
/// on the charge left goes by X and stands outside the minimum, as in the report; that on the charge before goes by X - x and stands inside.
pub fn recursion(day: &Day) -> Option<Planned> {
    let n = day.periods();
    let whole = day.whole()? as usize;
    let mut before = vec![INFINITE; whole + 1];
    before[0] = 0;
    let mut chosen = Vec::new();
    for i in 1..=n {
        let begin = |(made, &cost)| if cost == INFINITE { cost } else { cost + holding(day, i - 1, day.left(i - 1, made as u64)) };
        let begun: Vec<u64> = before.iter().enumerate().map(begin).collect();
        let mut costs = vec![INFINITE; whole + 1];
        let mut amounts = vec![0u16; whole + 1];
        for made in day.least_by(i) as usize..=whole {
            if day.left(i, made as u64) > day.store[i - 1] as i64 {
                continue;
            }
            for x in 0..=(day.capacity[i - 1] as usize).min(made) {
                if begun[made - x] == INFINITE {
                    continue;
                }
                let price = begun[made - x] + production(day, i - 1, x as u64);
                if price < costs[made] {
                    costs[made] = price;
                    amounts[made] = x as u16;
                }
            }
            if costs[made] != INFINITE {
                costs[made] += holding(day, i - 1, day.left(i, made as u64));
            }
        }
        before = costs;
        chosen.push(amounts);
    }
    if before[whole] == INFINITE {
        return None;
    }
    let mut plan = vec![0u16; n];
    let mut made = whole;
    for i in (0..n).rev() {
        plan[i] = chosen[i][made];
        made -= plan[i] as usize;
    }
    let totals = totals(day, &plan);
    assert_eq!(totals.cost, before[whole], "recursion (5) and sum (1) differ");
    Some(Planned { plan, totals })
}

/// The plan of a day: by trying all plans where these are few, else by recursion (5).
pub fn plan(day: &Day) -> Option<Planned> {
    if can_be_searched(day) {
        search(day)
    } else {
        recursion(day)
    }
}

// Request 2.3: days without starting cost.

/// The upkeep spared by not making a unit in the first period but in period i, counted from 0. Made in the first it is left after every
/// period before i, and is paid for in that period and, as charge before, in the next.
pub fn spared(day: &Day, i: usize) -> i64 {
    (0..i).map(|j| day.holding[j] as i64 + day.holding[j + 1] as i64).sum()
}

/// The period, counted from 0, in which each watt-hour is needed, in turn: those of the periods, and those of Z last, in the last period;
/// less the first ones, which A serves until it has run out.
fn needed_in(day: &Day) -> impl Iterator<Item = usize> + '_ {
    let of_periods = (0..day.periods()).flat_map(|i| vec![i; day.demand[i] as usize]);
    let handed_on = vec![day.periods() - 1; day.closing as usize];
    of_periods.chain(handed_on).skip(day.opening as usize)
}

/// The plan of a day without starting cost by the rule: each watt-hour in turn from the cheapest period not after it that has capacity
/// left, the earliest of equals. Periods compare by unit cost less the upkeep spared, which can lie below zero.
pub fn unit_by_unit(day: &Day) -> Option<Planned> {
    day.whole()?;
    let price: Vec<i64> = (0..day.periods()).map(|i| day.unit[i] as i64 - spared(day, i)).collect();
    let mut plan = vec![0u16; day.periods()];
    for due in needed_in(day) {
        let cheapest = (0..=due).filter(|&i| plan[i] < day.capacity[i]).min_by_key(|&i| (price[i], i))?;
        plan[cheapest] += 1;
    }
    let totals = totals(day, &plan);
    Some(Planned { plan, totals })
}

/// The same in batches, for days that need much: what is still needed in a period, from the cheapest one as much as it has left.
pub fn in_batches(day: &Day) -> Option<Planned> {
    day.whole()?;
    let n = day.periods();
    let price: Vec<i64> = (0..n).map(|i| day.unit[i] as i64 - spared(day, i)).collect();
    let mut order: Vec<usize> = (0..n).collect();
    order.sort_by_key(|&i| (price[i], i));
    let mut plan = vec![0u16; n];
    let mut served = 0;
    for due in 0..n {
        let mut needed = day.least_by(due + 1) - served;
        served += needed;
        for &i in order.iter().filter(|&&i| i <= due) {
            let batch = needed.min((day.capacity[i] - plan[i]) as u64);
            plan[i] += batch as u16;
            needed -= batch;
        }
        if needed > 0 {
            return None;
        }
    }
    let totals = totals(day, &plan);
    Some(Planned { plan, totals })
}

// Request 2.6: how many full-load periods.

/// In how many periods something is made: all that can be, or less.
#[derive(Clone, Copy, Debug, Default, PartialEq, Eq)]
pub struct Loads {
    pub full: u64,
    pub part: u64,
}

/// The runs of a plan that holds, as periods counted from 0: each ends where the store is empty, or with the day.
pub fn runs(day: &Day, plan: &[u16]) -> Vec<Range<usize>> {
    let n = day.periods();
    let ends: Vec<usize> = (1..=n).filter(|&i| i == n || day.left(i, sum_to(plan, i)) == 0).collect();
    let begins = once(0).chain(ends.iter().copied());
    begins.zip(&ends).map(|(begin, &end)| begin..end).collect()
}

/// The loads of a run that makes so much with one capacity: W ÷ c rounded down full ones, and a part load for a remainder above 0.
pub fn run_loads(capacity: u16, made: u64) -> Loads {
    match capacity as u64 {
        0 => Loads::default(),
        c => Loads { full: made / c, part: u64::from(made % c > 0) },
    }
}

/// The loads over a day with one capacity: those of all runs.
pub fn loads(day: &Day, plan: &[u16]) -> Loads {
    let mut all = Loads::default();
    for run in runs(day, plan) {
        let Loads { full, part } = run_loads(day.capacity[0], plan[run].iter().map(|&x| x as u64).sum());
        all.full += full;
        all.part += part;
    }
    all
}

/// The loads counted amount by amount.
pub fn counted(capacity: u16, amounts: &[u16]) -> Loads {
    let count = |what: fn(u16, u16) -> bool| amounts.iter().filter(|&&x| x > 0 && what(x, capacity)).count() as u64;
    Loads { full: count(|x, c| x == c), part: count(|x, c| x < c) }
}

// Request 2.9: easier days, and needs known as ranges.

impl Day {
    /// The same day with other needs.
    pub fn with_needs(&self, needs: &[u16]) -> Day {
        Day { demand: needs.to_vec(), ..self.clone() }
    }

    /// Whether this day has no higher need, start, unit cost, upkeep or Z than the other and no lower capacity or store limit, in any place.
    pub fn is_easier(&self, other: &Day) -> bool {
        fn none_higher<T: PartialOrd>(low: &[T], high: &[T]) -> bool {
            low.len() == high.len() && low.iter().zip(high).all(|(l, h)| l <= h)
        }
        none_higher(&self.demand, &other.demand)
            && none_higher(&self.setup, &other.setup)
            && none_higher(&self.unit, &other.unit)
            && none_higher(&self.holding, &other.holding)
            && self.closing <= other.closing
            && none_higher(&other.capacity, &self.capacity)
            && none_higher(&other.store, &self.store)
    }
}

/// The least cost of a day that has a plan.
pub fn least_cost(day: &Day) -> Option<u64> {
    plan(day).map(|planned| planned.totals.cost)
}

/// Every table between the lowest and the highest needs, period by period.
pub fn tables_between(lowest: &[u16], highest: &[u16]) -> Vec<Vec<u16>> {
    let mut tables = vec![vec![]];
    for (&low, &high) in lowest.iter().zip(highest) {
        tables = tables.iter().flat_map(|front| (low..=high).map(|need| [&front[..], &[need]].concat())).collect();
    }
    tables
}

// Request 2.10: big days, best so far.

/// What the call gives: the best plan, how many trials it took, and its cost less the least with all starts free.
#[derive(Clone, Debug, PartialEq, Eq)]
pub struct BestSoFar {
    pub planned: Planned,
    pub trials: usize,
    pub gap: u64,
}

impl Day {
    /// The same day with all starts free.
    pub fn starts_free(&self) -> Day {
        Day { setup: vec![0; self.periods()], ..self.clone() }
    }

    /// The same day with some periods forbidden, which make nothing.
    pub fn without(&self, forbidden: &[bool]) -> Day {
        let capacity = self.capacity.iter().zip(forbidden).map(|(&capacity, &forbidden)| if forbidden { 0 } else { capacity }).collect();
        Day { capacity, ..self.clone() }
    }
}

/// The trials that are allowed, 1 or more, each by this rule, which takes starts as free and says what its plan costs with them.
pub fn best_so_far(day: &Day, trials: usize, rule: fn(&Day) -> Option<Planned>) -> Option<BestSoFar> {
    let mut forbidden = vec![false; day.periods()];
    let mut best = rule(day)?;
    let free = cost(&day.starts_free(), &best.plan);
    let mut used = 1;
    'rounds: loop {
        let before = forbidden.clone();
        for i in (0..day.periods()).rev() {
            if forbidden[i] {
                continue;
            }
            if used == trials {
                break 'rounds;
            }
            used += 1;
            forbidden[i] = true;
            match rule(&day.without(&forbidden)) {
                Some(planned) if planned.totals.cost < best.totals.cost => best = planned,
                _ => forbidden[i] = false,
            }
        }
        if forbidden == before {
            break;
        }
    }
    let gap = best.totals.cost - free;
    Some(BestSoFar { planned: best, trials: used, gap })
}

// Request 2.11: the day played through.

/// What a plan did against actual needs, over the day, and the charge left after it.
#[derive(Clone, Copy, Debug, Default, PartialEq, Eq)]
pub struct Play {
    pub produced: u64,
    pub delivered: u64,
    pub lost: u64,
    pub disposed: u64,
    pub left: u64,
}

/// A plan against actual needs, watt-hour by watt-hour: the cell makes each of its amount; each that is needed is delivered if there is any
/// charge, and else missed; then one is spilled as long as there are more than s.
pub fn play(day: &Day, plan: &[u16], actual: &[u16]) -> Play {
    let mut play = Play { left: day.opening as u64, ..Play::default() };
    for i in 0..day.periods() {
        for _ in 0..plan[i] {
            play.produced += 1;
            play.left += 1;
        }
        for _ in 0..actual[i] {
            if play.left > 0 {
                play.delivered += 1;
                play.left -= 1;
            } else {
                play.lost += 1;
            }
        }
        while play.left > day.store[i] as u64 {
            play.disposed += 1;
            play.left -= 1;
        }
    }
    play
}

// The papers' conditions, each by itself; where tables differ in length, entries past an end count as 0.

fn refused(number: u64, condition: bool) -> Option<Refusal> {
    condition.then_some(Refusal { number, period: 0 })
}

/// The refusal of the first period, counted from 1, in which the condition holds.
fn refused_at(number: u64, periods: usize, condition: impl Fn(usize) -> bool) -> Option<Refusal> {
    (1..=periods).find(|&i| condition(i)).map(|period| Refusal { number, period })
}

pub fn bad_count(n: usize) -> Option<Refusal> {
    refused(1, n == 0 || n > MAX_PERIODS)
}

pub fn bad_lengths(day: &Day) -> Option<Refusal> {
    let others = [day.capacity.len(), day.setup.len(), day.unit.len(), day.holding.len(), day.store.len()];
    refused(2, others.iter().any(|&length| length != day.periods()))
}

pub fn bad_value(day: &Day) -> Option<Refusal> {
    let above = |table: &[u32], i: usize, limit: u64| table.get(i - 1).is_some_and(|&v| v as u64 > limit);
    refused_at(3, day.periods(), |i| {
        day.demand[i - 1] as u64 > MAX_DEMAND
            || above(&day.setup, i, MAX_SETUP)
            || above(&day.unit, i, MAX_UNIT)
            || above(&day.holding, i, MAX_HOLDING)
    })
}

/// R + Z above what the call allows.
pub fn bad_total(day: &Day, most: u64) -> Option<Refusal> {
    refused(4, day.asked() > most)
}

pub fn bad_opening(day: &Day) -> Option<Refusal> {
    refused(14, day.opening as u64 > day.asked())
}

/// No amounts up to this period keep the rules through it: there is no total that such amounts come to. Totals above T need not be tried:
/// amounts that come to more keep the rules no less where they are cut off at T, which covers every period.
pub fn shortage(day: &Day) -> Option<Refusal> {
    let n = day.periods();
    let most = day.whole().unwrap_or(0) as usize;
    let entry = |table: &[u16], i: usize| table.get(i - 1).copied().unwrap_or(0);
    let mut reached = vec![false; most + 1];
    reached[0] = true;
    for i in 1..=n {
        // how many totals below each were reached before this period
        let mut below = vec![0; most + 2];
        for made in 0..=most {
            below[made + 1] = below[made] + usize::from(reached[made]);
        }
        let (capacity, store, unmade) = (entry(&day.capacity, i) as usize, entry(&day.store, i) as i64, day.left(i, 0));
        let kept = |made: usize| {
            let left = unmade + made as i64;
            0 <= left && left <= store && (i < n || left == day.closing as i64)
        };
        reached = (0..=most).map(|made| kept(made) && below[made + 1] > below[made.saturating_sub(capacity)]).collect();
        if !reached.contains(&true) {
            return Some(Refusal { number: 7, period: i });
        }
    }
    None
}

pub fn unequal(day: &Day) -> Option<Refusal> {
    refused(8, day.capacity.windows(2).any(|two| two[0] != two[1]))
}

/// What a plan can still have to make in period i, counted from 1: T less the larger of 0 and (R before the period - A).
/// Below 0 where the day begins with more than it asks for.
pub fn rest(day: &Day, i: usize) -> i64 {
    let whole = day.asked() as i64 - day.opening as i64;
    whole - (day.demand_to(i - 1) as i64 - day.opening as i64).max(0)
}

pub fn binding(day: &Day) -> Option<Refusal> {
    refused_at(9, day.periods(), |i| {
        let capacity = day.capacity.get(i - 1).copied().unwrap_or(0) as i64;
        capacity < rest(day, i)
    })
}

pub fn started(day: &Day) -> Option<Refusal> {
    refused_at(15, day.periods(), |i| day.setup.get(i - 1).is_some_and(|&v| v > 0))
}

pub fn low_store(day: &Day) -> Option<Refusal> {
    refused_at(16, day.periods(), |i| day.store.get(i - 1).is_some_and(|&s| (s as u64) < day.asked()))
}

pub fn opened(day: &Day) -> Option<Refusal> {
    refused(17, day.opening > 0)
}

pub fn reversed(lowest: &[u16], day: &Day) -> Option<Refusal> {
    refused_at(18, day.periods(), |i| lowest.get(i - 1).is_some_and(|&low| low > day.demand[i - 1]))
}

pub fn no_trials(trials: usize) -> Option<Refusal> {
    refused(19, trials == 0)
}

pub fn too_few(cells: usize, needed: usize) -> Option<Refusal> {
    refused(6, cells < needed)
}

/// The cells that a path needs: cost area, choice area. A day of refusal 14 counts as one with nothing to make.
pub fn cells(path: Path, day: &Day) -> (usize, usize) {
    let (n, whole) = (day.periods(), day.whole().unwrap_or(0) as usize);
    match path {
        Path::Full => (2 * (whole + 1), n * (whole + 1)),
        Path::Uncapped => (n + 1, n + 1),
        Path::Equal => (6 * (n + 1), 4 * (n + 1) * (n + 1)),
        Path::Free => (n, 0),
    }
}

pub fn short_area(path: Path, day: &Day, costs: usize, choices: usize) -> Option<Refusal> {
    let needed = cells(path, day);
    refused(5, costs < needed.0 || choices < needed.1)
}

/// The cost cells that the call on big days needs.
pub fn big_cells(day: &Day) -> usize {
    3 * day.periods()
}

/// What every call with a day to plan or to weigh refuses first, in order; `most` is the limit of R + Z.
fn day_refusals(day: &Day, most: u64) -> Vec<Refusal> {
    [bad_count(day.periods()), bad_lengths(day), bad_value(day), bad_total(day, most), bad_opening(day)].into_iter().flatten().collect()
}

/// What a path refuses, in order.
pub fn path_refusals(path: Path, day: &Day, costs: usize, choices: usize, slots: usize) -> Vec<Refusal> {
    let own = match path {
        Path::Full => None,
        Path::Uncapped => binding(day),
        Path::Equal => unequal(day),
        Path::Free => started(day),
    };
    let low = if path == Path::Full { None } else { low_store(day) };
    let areas = short_area(path, day, costs, choices);
    let mut refusals = day_refusals(day, MAX_TOTAL);
    refusals.extend([areas, too_few(slots, day.periods()), shortage(day), own, low].into_iter().flatten());
    refusals
}

/// What a call with a second table of needs refuses first, in order. 2 and 3 are of both tables: 3 names the first period of either.
fn second_refusals(day: &Day, second: &[u16]) -> Vec<Refusal> {
    let lengths = bad_lengths(day).or(refused(2, second.len() != day.periods()));
    let above = refused_at(3, day.periods(), |i| second.get(i - 1).is_some_and(|&need| need as u64 > MAX_DEMAND));
    let values = [bad_value(day), above].into_iter().flatten().min_by_key(|refusal| refusal.period);
    [bad_count(day.periods()), lengths, values, bad_total(day, MAX_TOTAL), bad_opening(day)].into_iter().flatten().collect()
}

/// What the call on needs known as ranges refuses, in order; the day has the highest.
pub fn bounds_refusals(lowest: &[u16], day: &Day, costs: usize, choices: usize) -> Vec<Refusal> {
    let mut refusals = second_refusals(day, lowest);
    let areas = short_area(Path::Full, day, costs, choices);
    refusals.extend([areas, opened(day), reversed(lowest, day), shortage(day)].into_iter().flatten());
    refusals
}

/// What the call on big days refuses, in order.
pub fn big_refusals(day: &Day, trials: usize, costs: usize, slots: usize) -> Vec<Refusal> {
    let short = refused(5, costs < big_cells(day));
    let mut refusals = day_refusals(day, MAX_BIG_TOTAL);
    refusals.extend([short, too_few(slots, day.periods()), shortage(day), low_store(day), no_trials(trials)].into_iter().flatten());
    refusals
}

/// What the weigher refuses, in order, for one plan or two.
pub fn weigh_refusals(day: &Day, plans: &[&[u16]]) -> Vec<Refusal> {
    let shortest = plans.iter().map(|plan| plan.len()).min().unwrap();
    let mut refusals = day_refusals(day, MAX_TOTAL);
    refusals.extend(too_few(shortest, day.periods()));
    refusals
}

/// What the call that plays a plan refuses, in order.
pub fn play_refusals(day: &Day, plan: &[u16], actual: &[u16]) -> Vec<Refusal> {
    let mut refusals = second_refusals(day, actual);
    refusals.extend(too_few(plan.len(), day.periods()));
    refusals
}

// The day file.

/// What a file that walks cleanly holds.
#[derive(Clone, Debug, Default, PartialEq)]
pub struct Records {
    /// the body of kind 5, where there is one
    pub stamp: Option<Vec<u8>>,
    pub opening: u16,
    pub closing: u16,
    /// where the body of each period record begins in the file, and how long it is
    pub places: Vec<[usize; 2]>,
}

impl Records {
    pub fn periods(&self) -> usize {
        self.places.len()
    }
}

fn two(bytes: &[u8], at: usize) -> u16 {
    u16::from_be_bytes(bytes[at..at + 2].try_into().unwrap())
}

fn four(bytes: &[u8], at: usize) -> u32 {
    u32::from_be_bytes(bytes[at..at + 4].try_into().unwrap())
}

/// What a kind byte cuts out of a file: where it stands, and what follows it, as far as the kind asks and the file goes.
struct Record<'a> {
    at: usize,
    kind: u8,
    body: &'a [u8],
}

/// The length of a kind's body; none of an unknown kind.
fn body_length(kind: u8) -> Option<usize> {
    match kind {
        PERIOD => Some(PERIOD_BODY),
        END => Some(END_BODY),
        CHARGE => Some(CHARGE_BODY),
        STORED => Some(STORED_BODY),
        STAMP => Some(STAMP_BODY),
        _ => None,
    }
}

/// A file cut into records, whatever they hold and wherever they stand: up to its end, an end record or an unknown kind.
fn split(file: &[u8]) -> Vec<Record<'_>> {
    let mut records = vec![];
    let mut at = 0;
    while at < file.len() {
        let kind = file[at];
        let length = body_length(kind);
        let next = (at + 1 + length.unwrap_or(0)).min(file.len());
        records.push(Record { at, kind, body: &file[at + 1..next] });
        if kind == END || length.is_none() {
            break;
        }
        at = next;
    }
    records
}

/// The number of what is wrong with the i-th record, counted from 0: its kind; where it stands; its length; what it holds; that the file ends
/// with it.
fn fault(file: &[u8], records: &[Record], i: usize) -> Option<u64> {
    let Record { at, kind, body } = records[i];
    let Some(length) = body_length(kind) else { return Some(10) };
    let in_place = match kind {
        STAMP => i == 0,
        CHARGE => i == 0 || i == 1 && records[0].kind == STAMP,
        _ => true,
    };
    if !in_place {
        return Some(12);
    }
    if body.len() < length {
        return Some(11);
    }
    let periods = || records[..i].iter().filter(|record| [PERIOD, STORED].contains(&record.kind)).count();
    let right = match kind {
        CHARGE => body != [0; CHARGE_BODY],
        STORED => two(body, PERIOD_BODY) != NO_LIMIT,
        END => two(body, 0) as usize == periods() && at + 1 + length == file.len(),
        _ => true,
    };
    if !right {
        return Some(12);
    }
    (kind != END && i + 1 == records.len()).then_some(11)
}

/// What the walk says of a file: what it holds, or the fault of the first record that has one; a file without any has ended too early.
pub fn walk(file: &[u8]) -> Result<Records, Refusal> {
    let split = split(file);
    let first = if split.is_empty() { Some(11) } else { (0..split.len()).find_map(|i| fault(file, &split, i)) };
    if let Some(number) = first {
        return Err(Refusal { number, period: 0 });
    }
    let mut records = Records::default();
    for Record { at, kind, body } in split {
        match kind {
            STAMP => records.stamp = Some(body.to_vec()),
            CHARGE => (records.opening, records.closing) = (two(body, 0), two(body, 2)),
            PERIOD | STORED => records.places.push([at + 1, body.len()]),
            _ => {}
        }
    }
    Ok(records)
}

/// The body of period i, counted from 1, of a file that walks cleanly.
pub fn body<'a>(file: &'a [u8], records: &Records, i: usize) -> &'a [u8] {
    let [start, length] = records.places[i - 1];
    &file[start..start + length]
}

/// The day of a file that walks cleanly.
pub fn day_in(file: &[u8], records: &Records) -> Day {
    let mut day = Day { opening: records.opening, closing: records.closing, ..Day::default() };
    for i in 1..=records.periods() {
        let body = body(file, records, i);
        day.demand.push(two(body, 0));
        day.capacity.push(two(body, 2));
        day.setup.push(four(body, 4));
        day.unit.push(four(body, 8));
        day.holding.push(four(body, 12));
        day.store.push(if body.len() == STORED_BODY { two(body, PERIOD_BODY) } else { NO_LIMIT });
    }
    day
}

/// The record of the charge at both ends of a day.
pub fn charge_record(opening: u16, closing: u16) -> Vec<u8> {
    let mut record = vec![CHARGE];
    record.extend(opening.to_be_bytes());
    record.extend(closing.to_be_bytes());
    record
}

/// The record of what a file is for.
pub fn stamp_record(stamp: Stamp) -> Vec<u8> {
    let mut record = vec![STAMP];
    record.extend(stamp.station.to_be_bytes());
    record.extend(stamp.date.to_be_bytes());
    record
}

/// How many bytes the record of a period with this store limit has.
pub fn period_record(store: u16) -> usize {
    1 + if store < NO_LIMIT { STORED_BODY } else { PERIOD_BODY }
}

/// The file of a day whose tables are as long as the first.
pub fn file_of(stamp: Stamp, day: &Day) -> Vec<u8> {
    [stamp_record(stamp), unstamped(day)].concat()
}

/// What follows the stamp in it, which is the whole file as it was before there was one.
pub fn unstamped(day: &Day) -> Vec<u8> {
    let mut file = Vec::new();
    if day.opening > 0 || day.closing > 0 {
        file.extend(charge_record(day.opening, day.closing));
    }
    for i in 0..day.periods() {
        let limited = day.store[i] < NO_LIMIT;
        file.push(if limited { STORED } else { PERIOD });
        file.extend(day.demand[i].to_be_bytes());
        file.extend(day.capacity[i].to_be_bytes());
        file.extend(day.setup[i].to_be_bytes());
        file.extend(day.unit[i].to_be_bytes());
        file.extend(day.holding[i].to_be_bytes());
        if limited {
            file.extend(day.store[i].to_be_bytes());
        }
    }
    file.push(END);
    file.extend((day.periods() as u16).to_be_bytes());
    file
}

pub fn file_length(day: &Day) -> usize {
    1 + STAMP_BODY + unstamped_length(day)
}

pub fn unstamped_length(day: &Day) -> usize {
    let first = if day.opening > 0 || day.closing > 0 { 1 + CHARGE_BODY } else { 0 };
    let periods: usize = (0..day.periods()).map(|i| period_record(day.store.get(i).copied().unwrap_or(0))).sum();
    first + periods + 1 + END_BODY
}

/// Another stamp than the expected one, which has two numbers, or none.
fn bad_stamp(records: &Records, expected: &[u16]) -> Option<Refusal> {
    let bytes: Vec<u8> = expected.iter().flat_map(|number| [number / 256, number % 256]).map(|byte| byte as u8).collect();
    refused(20, expected.len() != 2 || records.stamp != Some(bytes))
}

/// What the reader refuses, in order; `shortest` is the length of the shortest of the lent tables.
pub fn read_refusals(file: &[u8], expected: &[u16], shortest: usize) -> Vec<Refusal> {
    match walk(file) {
        Err(fault) => vec![fault],
        Ok(records) => {
            let n = records.periods();
            let value = bad_value(&day_in(file, &records));
            [bad_stamp(&records, expected), bad_count(n), too_few(shortest, n), value].into_iter().flatten().collect()
        }
    }
}

/// What the lookup refuses, in order.
pub fn lookup_refusals(file: &[u8], period: usize) -> Vec<Refusal> {
    match walk(file) {
        Err(fault) => vec![fault],
        Ok(records) => {
            let n = records.periods();
            [bad_count(n), refused(13, period == 0 || period > n)].into_iter().flatten().collect()
        }
    }
}

/// What the writer refuses, in order.
pub fn write_refusals(day: &Day, out: usize) -> Vec<Refusal> {
    [bad_count(day.periods()), bad_lengths(day), bad_value(day), too_few(out, file_length(day))].into_iter().flatten().collect()
}

// The test load of request 2.7.

/// The made-up day that a seed gives.
pub fn test_load(seed: u32, n: usize) -> Day {
    let mut state = seed as u64;
    let mut draw = |modulus: u64| {
        state = (1_664_525 * state + 1_013_904_223) % 4_294_967_296;
        (state >> 16) % modulus
    };
    let mut day = Day::default();
    for _ in 0..n {
        day.demand.push(draw(41) as u16);
        day.capacity.push(draw(61) as u16);
        day.setup.push(draw(30_001) as u32);
        day.unit.push(draw(1201) as u32);
        day.holding.push(draw(21) as u32);
        day.store.push(NO_LIMIT);
    }
    day
}

/// What a test load refuses, in order; `shortest` is the length of the shortest of the lent tables.
pub fn test_load_refusals(n: usize, shortest: usize) -> Vec<Refusal> {
    [bad_count(n), too_few(shortest, n)].into_iter().flatten().collect()
}
