//! Inputs of every call but the test load (test_load.rs): valid ones of several sizes, at the limits, and damaged so that a wanted refusal's condition holds.
use crate::plain::{self, Day, Path, Stamp};
use crate::random::Random;
use std::iter::repeat;

#[derive(Clone, Copy, Debug, PartialEq)]
pub enum Call {
    Full,
    Uncapped,
    Equal,
    Weigh,
    Compare,
    Read,
    Lookup,
    Write,
    Free,
    Bounds,
    Big,
    Play,
}

/// The calls of before request 2.9. Inputs of `Bounds` are drawn after all of theirs, then those of `Big`, and those of `Play` last, so that
/// what was drawn before a request stays what it was.
pub const CALLS: [Call; 9] =
    [Call::Full, Call::Uncapped, Call::Equal, Call::Weigh, Call::Compare, Call::Read, Call::Lookup, Call::Write, Call::Free];

/// The calls of before request 2.3. Their inputs are drawn first, so that they stay what they were.
pub const EARLIER: &[Call] = CALLS.split_at(8).0;

impl Call {
    /// The path that the call takes, if any.
    pub fn path(self) -> Option<Path> {
        match self {
            Call::Full | Call::Bounds => Some(Path::Full),
            Call::Uncapped => Some(Path::Uncapped),
            Call::Equal => Some(Path::Equal),
            // every trial goes by that path's rule
            Call::Free | Call::Big => Some(Path::Free),
            _ => None,
        }
    }

    /// The refusals that the call can give on such days, in the papers' order.
    pub fn refusals(self, with: With) -> Vec<u64> {
        let order: &[u64] = match self {
            Call::Full => &[1, 2, 3, 4, 14, 5, 6, 7],
            Call::Uncapped => &[1, 2, 3, 4, 14, 5, 6, 7, 9, 16],
            Call::Equal => &[1, 2, 3, 4, 14, 5, 6, 7, 8, 16],
            Call::Free => &[1, 2, 3, 4, 14, 5, 6, 7, 15, 16],
            Call::Bounds => &[1, 2, 3, 4, 14, 5, 17, 18, 7],
            Call::Big => &[1, 2, 3, 4, 14, 5, 6, 7, 16, 19],
            Call::Weigh | Call::Compare | Call::Play => &[1, 2, 3, 4, 14, 6],
            Call::Read => &[10, 11, 12, 20, 1, 6, 3],
            Call::Lookup => &[10, 11, 12, 1, 13],
            Call::Write => &[1, 2, 3, 6],
        };
        let can_be = |number: &u64| match number {
            14 | 17 => with.ends,
            16 => with.stores,
            20 => with.stamps,
            _ => true,
        };
        order.iter().copied().filter(can_be).collect()
    }

    /// How many plans the call weighs.
    fn plans(self) -> usize {
        match self {
            Call::Weigh | Call::Play => 1,
            Call::Compare => 2,
            _ => 0,
        }
    }

    /// How many work areas the call is lent.
    fn areas(self) -> usize {
        match self {
            Call::Full | Call::Uncapped | Call::Equal | Call::Bounds => 2,
            Call::Free | Call::Big => 1,
            _ => 0,
        }
    }

    /// The most that R + Z may be.
    fn most(self) -> u64 {
        if self == Call::Big {
            plain::MAX_BIG_TOTAL
        } else {
            plain::MAX_TOTAL
        }
    }

    fn reads_file(self) -> bool {
        matches!(self, Call::Read | Call::Lookup)
    }

    /// Whether the call reads a day file or writes one.
    pub fn has_file(self) -> bool {
        self.reads_file() || self == Call::Write
    }

    /// Whether the call is a path for some days only.
    pub fn is_short_path(self) -> bool {
        matches!(self, Call::Uncapped | Call::Equal | Call::Free)
    }
}

/// Everything that a caller hands over. What a call does not take stays empty.
#[derive(Clone, Debug, PartialEq)]
pub struct Input {
    pub call: Call,
    /// the day in the tables
    pub day: Day,
    /// the lowest needs, where those of the day are the highest
    pub lowest: Vec<u16>,
    /// the needs that a plan is played against
    pub actual: Vec<u16>,
    /// plans to weigh: one, also to play it, or two to compare
    pub plans: Vec<Vec<u16>>,
    pub file: Vec<u8>,
    /// the numbers that the reader expects in the file's stamp
    pub expected: Vec<u16>,
    /// the stamp that the writer puts in front
    pub stamp: Stamp,
    /// the asked-for period
    pub period: usize,
    /// the allowed trials
    pub trials: usize,
    /// lengths of what is lent: cost area, choice area (not for the free path and big days) and slots (not for needs known as ranges); or the
    /// six tables to fill; or the bytes to write
    pub lent: Vec<usize>,
}

/// What made-up days may have: charge at their ends, store limits; and whether their files have a stamp. Those without are drawn as they were
/// before there were any.
#[derive(Clone, Copy, Debug, PartialEq)]
pub struct With {
    pub ends: bool,
    pub stores: bool,
    pub stamps: bool,
}

impl With {
    pub const NOTHING: With = With { ends: false, stores: false, stamps: false };
    pub const ENDS: With = With { ends: true, ..With::NOTHING };
    pub const STORES: With = With { stores: true, ..With::NOTHING };
    pub const BOTH: With = With { ends: true, stores: true, stamps: false };

    pub fn stamps(self) -> With {
        With { stamps: true, ..self }
    }
}

/// How large a day is, and how its numbers are drawn.
#[derive(Clone, Copy, PartialEq)]
pub enum Size {
    /// few periods and few units, so that all plans can be tried and many cost the same
    Tiny,
    Middle,
    /// many periods
    Long,
    /// as much as the limits allow
    Limits,
}

impl Input {
    /// A call on a day, and nothing else yet.
    fn on_day(call: Call, day: Day) -> Input {
        Input {
            call,
            day,
            lowest: vec![],
            actual: vec![],
            plans: vec![],
            file: vec![],
            expected: vec![],
            stamp: Stamp::default(),
            period: 0,
            trials: 0,
            lent: vec![],
        }
    }

    /// A call on a day, with as much lent as is needed but for a stamp; the plans are for the calls that weigh. Needs known as ranges and actual
    /// ones are all the day's own; on a big day any number of trials is allowed. A file to read has no stamp.
    pub fn exact(call: Call, day: &Day, plans: [&[u16]; 2]) -> Input {
        let plans = plans.iter().take(call.plans()).map(|plan| plan.to_vec()).collect();
        let lowest = if call == Call::Bounds { day.demand.clone() } else { vec![] };
        let actual = if call == Call::Play { day.demand.clone() } else { vec![] };
        let trials = if call == Call::Big { usize::MAX } else { 0 };
        let mut input = Input { lowest, actual, plans, trials, ..Input::on_day(call, day.clone()) };
        if call.reads_file() {
            input.file = plain::unstamped(day);
            input.period = day.periods();
            input.day = Day::default();
        }
        input.lent = input.needed_unstamped();
        input
    }

    /// A call on a file.
    pub fn on_file(call: Call, file: Vec<u8>, period: usize, lent: Vec<usize>) -> Input {
        Input { file, period, lent, ..Input::on_day(call, Day::default()) }
    }

    /// With a stamp that the reader expects or the writer is given; file and room stay as they are.
    pub fn for_stamp(&self, stamp: Stamp) -> Input {
        match self.call {
            Call::Read => Input { expected: stamp.numbers(), ..self.clone() },
            Call::Write => Input { stamp, ..self.clone() },
            _ => self.clone(),
        }
    }

    /// The same with the stamp in front of the file, or with room for it.
    pub fn stamped(&self, stamp: Stamp) -> Input {
        let mut input = self.for_stamp(stamp);
        let record = plain::stamp_record(stamp);
        match self.call {
            Call::Write => input.lent[0] += record.len(),
            _ => input.file = [&record[..], &self.file].concat(),
        }
        input
    }

    /// The refusals whose conditions hold, in order; the first is the answer.
    pub fn refusals(&self) -> Vec<plain::Refusal> {
        match self.call {
            Call::Full | Call::Uncapped | Call::Equal => {
                plain::path_refusals(self.call.path().unwrap(), &self.day, self.lent[0], self.lent[1], self.lent[2])
            }
            Call::Free => plain::path_refusals(Path::Free, &self.day, self.lent[0], 0, self.lent[1]),
            Call::Bounds => plain::bounds_refusals(&self.lowest, &self.day, self.lent[0], self.lent[1]),
            Call::Big => plain::big_refusals(&self.day, self.trials, self.lent[0], self.lent[1]),
            Call::Weigh | Call::Compare => {
                plain::weigh_refusals(&self.day, &self.plans.iter().map(|plan| plan.as_slice()).collect::<Vec<_>>())
            }
            Call::Play => plain::play_refusals(&self.day, &self.plans[0], &self.actual),
            Call::Read => plain::read_refusals(&self.file, &self.expected, *self.lent.iter().min().unwrap()),
            Call::Lookup => plain::lookup_refusals(&self.file, self.period),
            Call::Write => plain::write_refusals(&self.day, self.lent[0]),
        }
    }

    /// How long each lent part has to be.
    pub fn needed(&self) -> Vec<usize> {
        match self.call {
            Call::Full | Call::Uncapped | Call::Equal => {
                let (costs, choices) = plain::cells(self.call.path().unwrap(), &self.day);
                vec![costs, choices, self.day.periods()]
            }
            Call::Free => vec![plain::cells(Path::Free, &self.day).0, self.day.periods()],
            Call::Bounds => {
                let (costs, choices) = plain::cells(Path::Full, &self.day);
                vec![costs, choices]
            }
            Call::Big => vec![plain::big_cells(&self.day), self.day.periods()],
            Call::Read => vec![plain::walk(&self.file).map_or(self.file.len() / 17, |records| records.periods()); 6],
            Call::Write => vec![plain::file_length(&self.day)],
            Call::Weigh | Call::Compare | Call::Play | Call::Lookup => vec![],
        }
    }

    /// The same without a stamp to write.
    fn needed_unstamped(&self) -> Vec<usize> {
        match self.call {
            Call::Write => vec![plain::unstamped_length(&self.day)],
            _ => self.needed(),
        }
    }
}

/// A table of n numbers up to `high`: one value throughout, or several.
fn table(random: &mut Random, n: usize, high: u64) -> Vec<u64> {
    if random.once_in(3) {
        vec![random.between(0, high); n]
    } else {
        (0..n).map(|_| random.between(0, high)).collect()
    }
}

fn narrow16(table: Vec<u64>) -> Vec<u16> {
    table.into_iter().map(|v| v as u16).collect()
}

fn narrow32(table: Vec<u64>) -> Vec<u32> {
    table.into_iter().map(|v| v as u32).collect()
}

/// Demands that sum to `total`, spread at random.
fn spread(random: &mut Random, n: usize, total: u64) -> Vec<u64> {
    let mut demand = vec![0; n];
    let mut rest = total;
    while rest > 0 {
        let part = random.between(1, (2 * total / n as u64 + 1).min(rest));
        demand[random.index(n)] += part;
        rest -= part;
    }
    demand
}

/// Lowers demands until there is a plan.
fn supply(day: &mut Day) {
    for i in 1..=day.periods() {
        let short = day.demand_to(i).saturating_sub(day.capacity_to(i));
        day.demand[i - 1] -= short as u16;
    }
}

/// Capacities or start costs of the form that a call's path asks for, mostly; any for other calls.
fn shape(random: &mut Random, call: Call, day: &mut Day) {
    let n = day.periods();
    match call {
        Call::Equal => {
            let least = (1..=n).map(|i| day.least_by(i).div_ceil(i as u64)).max().unwrap_or(0);
            let whole = day.least_by(n);
            let capacity = match random.between(0, 3) {
                0 => least,
                1 => least + random.between(0, 3),
                2 => random.between(0, whole + 1),
                _ => day.capacity[0] as u64,
            };
            day.capacity = vec![capacity.min(65_535) as u16; n];
        }
        Call::Uncapped => {
            for i in 0..n {
                let rest = plain::rest(day, i + 1).max(0);
                let spare = random.pick(&[0, 0, 1, 1000, 65_535]);
                day.capacity[i] = (rest + spare).min(65_535) as u16;
            }
        }
        Call::Free => day.setup.fill(0),
        _ => {}
    }
}

/// Hands on nothing, some of what later periods need, or all of the day's need: then R is 0.
fn give_closing(random: &mut Random, day: &mut Day) {
    let n = day.periods();
    let (from, all) = match random.between(0, 3) {
        0 => (n, false),
        1 => (0, true),
        _ => (random.index(n), false),
    };
    for need in &mut day.demand[from..] {
        let handed_on = if all { *need } else { random.between(0, *need as u64) as u16 };
        *need -= handed_on;
        day.closing += handed_on;
    }
}

/// Begins with nothing, with all that the day asks for, with what its first periods need, or with any part.
fn give_opening(random: &mut Random, size: Size, day: &mut Day) {
    let n = day.periods();
    let asked = day.asked();
    day.opening = match random.between(0, 6) {
        0 => 0,
        1 => asked as u16,
        2 => random.between(0, asked) as u16,
        3 => (day.demand_to(random.index(n)) + random.between(0, 1)).min(asked) as u16,
        // as much again as is added to the needs, so that as much is left to make
        _ if size != Size::Limits => {
            let last = random.index(n);
            let more = random.pick(&[1, 2, 3, 4]);
            for _ in 0..more {
                day.demand[random.index(last + 1)] += 1;
            }
            more
        }
        _ => asked.min(1) as u16,
    };
}

/// Gives a day charge at its ends, within the limits. A day with a plan mostly keeps one.
fn give_ends(random: &mut Random, call: Call, size: Size, day: &mut Day) {
    give_closing(random, day);
    // needs known as ranges are mostly of a day that begins with nothing
    if call != Call::Bounds || random.once_in(8) {
        give_opening(random, size, day);
    }
    // all that can be made is handed on, or one unit more
    let supply = day.opening as u64 + day.capacity_to(day.periods());
    if random.once_in(8) && day.total() <= supply && supply < 500 {
        day.closing = (supply - day.total() + random.pick(&[0, 0, 1])) as u16;
    } else if !random.once_in(3) {
        shape(random, call, day);
    }
}

/// The plan that makes all as late as capacity allows, of a day with enough of it: no plan leaves less charge after any period.
fn latest(day: &Day) -> Vec<u16> {
    let mut plan = vec![0u16; day.periods()];
    let mut wanted = 0u64;
    for i in (0..day.periods()).rev() {
        wanted += day.least_by(i + 1) - day.least_by(i);
        plan[i] = wanted.min(day.capacity[i] as u64) as u16;
        wanted -= plan[i] as u64;
    }
    plan
}

/// The charge that is left after period i, counted from 0, by that plan; 0 where capacity does not suffice.
fn least_left(day: &Day, i: usize) -> u64 {
    let made = latest(day)[..=i].iter().map(|&x| x as u64).sum();
    day.left(i + 1, made).max(0) as u64
}

/// Store limits: around the least charge that a plan can leave, so that they bind; around R + Z, below which the short paths refuse; here
/// and there none. A day with a plan mostly keeps one, and a call that refuses low limits (16) mostly gets limits that it accepts.
fn give_stores(random: &mut Random, call: Call, day: &mut Day) {
    let n = day.periods();
    let asked = day.asked();
    if call.refusals(With::STORES).contains(&16) && !random.once_in(4) {
        day.store.fill_with(|| (asked + random.pick(&[0, 0, 1, 65_535])).min(65_535) as u16);
        return;
    }
    let least: Vec<u64> = (0..n).map(|i| least_left(day, i)).collect();
    let spare = random.pick(&[0, 0, 1, 2, asked]);
    let mut limits: Vec<u64> = least.iter().map(|left| left + random.between(0, spare)).collect();
    if random.once_in(4) {
        // one battery all day
        limits.fill(least.iter().max().unwrap() + random.between(0, spare));
    } else {
        for limit in &mut limits {
            *limit = random.pick(&[*limit, *limit, *limit, asked, asked.saturating_sub(1), plain::NO_LIMIT as u64]);
        }
    }
    if random.once_in(6) {
        // too low for any plan, where something must be left
        let i = random.index(n);
        limits[i] = least[i].saturating_sub(1);
    }
    day.store = narrow16(limits);
}

/// A day within the limits; three of four have a plan.
pub fn day(random: &mut Random, call: Call, size: Size, with: With) -> Day {
    let (n, total, capacity, setup, rate) = match size {
        Size::Tiny => (random.between(1, 5), random.between(0, 9), 5, random.pick(&[0, 1, 3, 5]), random.pick(&[0, 1, 2])),
        Size::Middle => (random.between(1, 20), random.between(0, 120), 30, random.pick(&[5, 100, 1000]), random.pick(&[1, 10])),
        Size::Long => (
            random.between(60, 96),
            random.between(100, 500),
            random.pick(&[15, 60, 65_535]),
            random.pick(&[50, 5000, plain::MAX_SETUP]),
            random.pick(&[3, 100, plain::MAX_UNIT]),
        ),
        Size::Limits => (
            random.pick(&[1, 95, 96, 96, 96]),
            random.pick(&[4095, 4096, 4096]),
            random.pick(&[60, 60, 65_535]),
            plain::MAX_SETUP,
            plain::MAX_UNIT,
        ),
    };
    let n = n as usize;
    let extreme = size == Size::Limits && random.once_in(2);
    let costs = |random: &mut Random, high: u64| if extreme { vec![high; n] } else { table(random, n, high) };
    let mut day = Day {
        demand: narrow16(spread(random, n, total)),
        capacity: narrow16(table(random, n, capacity)),
        setup: narrow32(costs(random, setup)),
        unit: narrow32(costs(random, rate)),
        holding: narrow32(costs(random, rate.min(plain::MAX_HOLDING))),
        store: vec![plain::NO_LIMIT; n],
        opening: 0,
        closing: 0,
    };
    if size == Size::Limits {
        // the whole demand in the first period or in the last is the longest way through the tables
        match random.between(0, 3) {
            0 => day.demand = narrow16((0..n).map(|i| if i == 0 { total } else { 0 }).collect()),
            1 => day.demand = narrow16((0..n).map(|i| if i + 1 == n { total } else { 0 }).collect()),
            _ => {}
        }
        // R equal to C at every period leaves one plan
        if call != Call::Equal && random.once_in(4) {
            day.capacity = day.demand.clone();
        }
    }
    shape(random, call, &mut day);
    if !random.once_in(4) {
        supply(&mut day);
        if call == Call::Uncapped {
            shape(random, call, &mut day);
        }
    }
    if with.ends {
        give_ends(random, call, size, &mut day);
    }
    if with.stores {
        give_stores(random, call, &mut day);
    }
    day
}

/// A plan to weigh: the day's own with something moved, or any amounts; with cells past n that are not to be read.
fn weighed(random: &mut Random, day: &Day) -> Vec<u16> {
    let n = day.periods();
    let mut plan = match plain::shortage(day) {
        None if plain::can_be_searched(day) && !random.once_in(3) => plain::search(day).unwrap().plan,
        None => latest(day),
        Some(_) => narrow16(table(random, n, 5)),
    };
    for _ in 0..random.pick(&[0, 0, 0, 1, 1, 2]) {
        let (from, to) = (random.index(n), random.index(n));
        let amount = random.pick(&[1, 1, 2, 100]).min(plan[from]);
        plan[from] -= amount;
        if !random.once_in(6) {
            plan[to] = plan[to].saturating_add(amount);
        }
        if random.once_in(12) {
            plan[to] = random.pick(&[65_535, plan[to].saturating_add(1)]);
        }
    }
    plan.extend((0..random.pick(&[0, 0, 1, 3])).map(|_| random.next() as u16));
    plan
}

/// Lowest needs to go with the highest: all of them, none, or in each period any part.
fn lowest(random: &mut Random, highest: &[u16]) -> Vec<u16> {
    let kinds = random.pick::<&[u64]>(&[&[0], &[1], &[2], &[0, 1, 2], &[0, 0, 0, 2]]);
    let mut low = |high: u16| match random.pick(kinds) {
        0 => high,
        1 => 0,
        _ => random.between(0, high as u64) as u16,
    };
    highest.iter().map(|&high| low(high)).collect()
}

/// Actual needs for a plan that was made for others: these, shifted by a period or more, all higher by a margin or lower; or in each period the
/// same, none, a little more or less, or anything up to a limit.
pub fn actual(random: &mut Random, planned: &[u16]) -> Vec<u16> {
    let mut needs = planned.to_vec();
    let more = random.pick(&[1, 1, 2, 15]);
    match random.between(0, 5) {
        0 => {}
        1 => needs.rotate_right(random.index(planned.len().max(1))),
        2 => needs.iter_mut().for_each(|need| *need = need.saturating_sub(more)),
        3 => needs.iter_mut().for_each(|need| *need = need.saturating_add(more)),
        _ => {
            let high = random.pick(&[3, 9, 100, plain::MAX_DEMAND]);
            for need in &mut needs {
                *need = match random.between(0, 5) {
                    0 => 0,
                    1 => need.saturating_sub(more),
                    2 => need.saturating_add(more),
                    3 => random.between(0, high) as u16,
                    _ => *need,
                };
            }
        }
    }
    needs.iter_mut().for_each(|need| *need = (*need).min(plain::MAX_DEMAND as u16));
    needs
}

/// Trials to allow: few; around as many as a day has periods; more than it can use.
fn trials(random: &mut Random, n: usize) -> usize {
    match random.between(0, 3) {
        0 => random.between(1, 4) as usize,
        1 => random.between(1, 30) as usize,
        2 => random.between(n.max(1) as u64, 3 * n as u64 + 2) as usize,
        _ => random.pick(&[1000, u32::MAX as usize, usize::MAX]),
    }
}

/// A length that serves, mostly exactly.
fn enough(random: &mut Random, needed: usize) -> usize {
    needed + random.pick(&[0, 0, 0, 1, 2, 7])
}

/// How many lent parts are drawn one by one. The sixth table to fill is not where there are no store limits, so that draws stay what they
/// were with five.
fn drawn(parts: usize, with: With) -> usize {
    if with.stores {
        parts
    } else {
        parts.min(5)
    }
}

/// Lengths that serve; one that is not drawn is that of the part before it.
fn lend(random: &mut Random, needed: Vec<usize>, with: With) -> Vec<usize> {
    let mut lent: Vec<usize> = needed.iter().take(drawn(needed.len(), with)).map(|&needed| enough(random, needed)).collect();
    if lent.len() < needed.len() {
        lent.extend(lent.last().copied());
    }
    lent
}

/// Fills in what goes with the day, and lends enough.
pub fn complete(random: &mut Random, call: Call, day: Day, with: With) -> Input {
    let plans = (0..call.plans()).map(|_| weighed(random, &day)).collect();
    let lowest = if call == Call::Bounds { lowest(random, &day.demand) } else { vec![] };
    let trials = if call == Call::Big { trials(random, day.periods()) } else { 0 };
    let actual = if call == Call::Play { actual(random, &day.demand) } else { vec![] };
    let mut input = Input { lowest, actual, plans, trials, ..Input::on_day(call, day) };
    if call.reads_file() {
        input.file = plain::unstamped(&input.day);
        input.period = random.between(1, input.day.periods() as u64) as usize;
        input.day = Day::default();
    }
    input.lent = lend(random, input.needed_unstamped(), with);
    if call == Call::Lookup {
        input.lent.clear();
    }
    if with.stamps {
        input = input.stamped(stamp(random));
    }
    input
}

/// A stamp: of few stations and days, at the ends, or any.
pub fn stamp(random: &mut Random) -> Stamp {
    let mut number = || match random.between(0, 3) {
        0 => random.pick(&[0, 1, 255, 256, 65_535]),
        1 => random.pick(&[17, 9816, 9817]),
        _ => random.next() as u16,
    };
    Stamp { station: number(), date: number() }
}

/// An input that is refused, if at all, for a shortage, a capacity, a store limit or, where needs are known as ranges, charge to begin with alone.
pub fn valid(random: &mut Random, call: Call, size: Size, with: With) -> Input {
    let day = day(random, call, size, with);
    complete(random, call, day, with)
}

fn push_period(random: &mut Random, day: &mut Day) {
    let i = random.index(day.periods());
    day.demand.push(0);
    day.capacity.push(day.capacity[i]);
    day.setup.push(day.setup[i]);
    day.unit.push(day.unit[i]);
    day.holding.push(day.holding[i]);
    day.store.push(day.store[i]);
}

fn shorten<T>(random: &mut Random, table: &mut Vec<T>) {
    let length = if random.once_in(3) { 0 } else { table.len().saturating_sub(1) };
    table.truncate(length);
}

fn change<T: Copy + Default>(random: &mut Random, table: &mut Vec<T>) {
    if random.once_in(2) {
        shorten(random, table);
    } else {
        table.push(T::default());
    }
}

fn change_length(random: &mut Random, day: &mut Day, with: With) {
    match random.between(0, if with.stores { 4 } else { 3 }) {
        0 => change(random, &mut day.capacity),
        1 => change(random, &mut day.setup),
        2 => change(random, &mut day.unit),
        3 => change(random, &mut day.holding),
        _ => change(random, &mut day.store),
    }
}

/// A value above its limit.
fn over(random: &mut Random, limit: u64, top: u64) -> u64 {
    random.pick(&[limit + 1, limit + 1, limit + 2, top])
}

fn raise_value(random: &mut Random, day: &mut Day) {
    let n = day.periods();
    if n == 0 {
        return;
    }
    let i = random.index(n);
    match random.between(0, 3) {
        0 => day.demand[i] = over(random, plain::MAX_DEMAND, 65_535) as u16,
        1 if i < day.setup.len() => day.setup[i] = over(random, plain::MAX_SETUP, u32::MAX as u64) as u32,
        2 if i < day.unit.len() => day.unit[i] = over(random, plain::MAX_UNIT, u32::MAX as u64) as u32,
        _ if i < day.holding.len() => day.holding[i] = over(random, plain::MAX_HOLDING, u32::MAX as u64) as u32,
        _ => {}
    }
}

/// Raises needs, in more periods where there are too few, until the day asks for a unit or two more than so much.
fn raise_total(random: &mut Random, day: &mut Day, most: u64) {
    for _ in day.periods() as u64..=most / plain::MAX_DEMAND {
        push_period(random, day);
    }
    let mut missing = (most + random.pick(&[1, 1, 2])).saturating_sub(day.asked());
    for need in &mut day.demand {
        let more = missing.min(plain::MAX_DEMAND - *need as u64);
        *need += more as u16;
        missing -= more;
    }
}

/// Lowers a store limit below what must be left there, which may be what later periods need and now can't make.
fn lower_store(random: &mut Random, day: &mut Day) {
    let n = day.periods();
    let i = random.index(n);
    if random.once_in(2) {
        day.demand[n - 1] = day.demand[n - 1].max(1);
        day.capacity[i + 1..].fill(0);
    }
    day.store[i] = least_left(day, i).saturating_sub(random.pick(&[1, 1, 2])) as u16;
}

/// Changes a day so that the numbered condition may hold, where R + Z may be `most`; one that does not suit the day leaves it.
fn damage_day(random: &mut Random, day: &mut Day, with: With, most: u64, number: u64) {
    let n = day.periods();
    match number {
        1 if random.once_in(2) => {
            day.demand.clear();
            if random.once_in(2) {
                *day = Day::default();
            }
        }
        1 if n > 0 => {
            for _ in n..random.pick(&[97, 97, 98, 120]) {
                push_period(random, day);
            }
        }
        2 => change_length(random, day, with),
        3 => raise_value(random, day),
        4 if with.ends && random.once_in(2) => {
            let least = (most + 1).saturating_sub(day.total());
            day.closing = random.pick(&[least, least, least + 1, 65_535]) as u16;
        }
        4 if most > plain::MAX_TOTAL => raise_total(random, day, most),
        4 if n >= 2 => {
            let (i, j) = (random.index(n), random.index(n));
            day.demand[i] = 4096;
            day.demand[j] = day.demand[j].max(1);
        }
        7 if n > 0 && with.stores && random.once_in(2) => lower_store(random, day),
        7 if n > 0 => {
            let i = random.index(n);
            day.demand[i] = day.demand[i].max(1);
            day.opening = (day.opening as u64).min(day.demand_to(i + 1) - 1) as u16;
            let needed = day.demand_to(i + 1) - day.opening as u64;
            if random.once_in(2) {
                let each = (needed - 1) / (i as u64 + 1);
                day.capacity = vec![each as u16; n];
            } else {
                day.capacity.truncate(i + 1);
                day.capacity.fill(0);
                day.capacity.resize(n, 0);
            }
        }
        8 if n >= 2 && day.capacity.len() == n => {
            let i = random.index(n);
            day.capacity[i] = if day.capacity[i] < 65_535 { day.capacity[i] + 1 } else { 65_534 };
        }
        9 if n > 0 && day.capacity.len() == n => {
            let i = random.index(n);
            let rest = plain::rest(day, i + 1).max(0) as u64;
            day.capacity[i] = rest.saturating_sub(random.pick(&[1, 1, 2, rest])).min(65_535) as u16;
        }
        14 => {
            let least = day.asked() + 1;
            day.opening = random.pick(&[least, least, least + 1, 65_535]).min(65_535) as u16;
        }
        15 => {
            // in one period, or in two
            for _ in 0..random.pick(&[1, 2]) {
                day.setup[random.index(n)] = random.pick(&[1, 1, 2, plain::MAX_SETUP as u32]);
            }
        }
        17 => day.opening = random.between(1, day.asked().clamp(1, 65_535)) as u16,
        16 => {
            let asked = day.asked();
            for _ in 0..random.pick(&[1, 2]) {
                day.store[random.index(n)] = asked.saturating_sub(random.pick(&[1, 1, 2, asked])) as u16;
            }
        }
        _ => {}
    }
}

/// Changes a second table of needs, the lowest or the actual ones, so that the numbered condition may hold.
fn damage_second(random: &mut Random, second: &mut Vec<u16>, needs: &[u16], number: u64) {
    match number {
        2 => change(random, second),
        3 if !second.is_empty() => {
            let i = random.index(second.len());
            second[i] = over(random, plain::MAX_DEMAND, 65_535) as u16;
        }
        18 if !second.is_empty() => {
            // in one period, or in two
            for _ in 0..random.pick(&[1, 2]) {
                let i = random.index(second.len());
                second[i] = (needs[i].saturating_add(random.pick(&[1, 1, 2, 4096]))).min(4096);
            }
        }
        _ => {}
    }
}

/// Where the records begin of a file that was written of a day with these store limits.
fn boundaries(store: &[u16], file: &[u8]) -> Vec<usize> {
    let mut places = vec![0];
    if file[0] == plain::CHARGE {
        places.push(1 + plain::CHARGE_BODY);
    }
    let mut next = places[places.len() - 1];
    for &limit in store.iter().chain(repeat(&plain::NO_LIMIT)) {
        next += plain::period_record(limit);
        if next + 1 + plain::END_BODY > file.len() {
            break;
        }
        places.push(next);
    }
    places
}

/// Puts in a record of the charge at both ends: one too late, a second one, or a first one with two zeros.
fn misplace_charge(random: &mut Random, store: &[u16], file: &mut Vec<u8>) {
    let places = boundaries(store, file);
    let at = random.pick(&places);
    let record = if at == 0 { plain::charge_record(0, 0) } else { plain::charge_record(random.pick(&[0, 1]), 2) };
    put_in(random, file, at, record);
}

/// Puts in a stamp, which is not the first once the file's own is in front of it.
fn misplace_stamp(random: &mut Random, store: &[u16], file: &mut Vec<u8>) {
    let places = boundaries(store, file);
    let (at, record) = (random.pick(&places), plain::stamp_record(stamp(random)));
    put_in(random, file, at, record);
}

/// Puts a record in that must not be there; one that does not stand first now and then as the last, cut short.
fn put_in(random: &mut Random, file: &mut Vec<u8>, at: usize, record: Vec<u8>) {
    if at > 0 && random.once_in(3) {
        file.truncate(at);
        file.extend(&record[..random.between(1, 4) as usize]);
    } else {
        file.splice(at..at, record);
    }
}

/// Turns a period's record into one of kind 4 with the limit that such a record must not have.
fn write_no_limit(random: &mut Random, store: &[u16], file: &mut Vec<u8>) {
    let places = boundaries(store, file);
    let i = random.index(places.len());
    let body = places[i] + 1;
    let limit = body + plain::PERIOD_BODY;
    let old = match file[places[i]] {
        plain::PERIOD => limit..limit,
        plain::STORED => limit..body + plain::STORED_BODY,
        _ => return,
    };
    file[places[i]] = plain::STORED;
    file.splice(old, plain::NO_LIMIT.to_be_bytes());
}

fn damage_file(random: &mut Random, store: &[u16], file: &mut Vec<u8>, with: With, number: u64) {
    match number {
        10 => {
            let places = boundaries(store, file);
            let at = random.pick(&places);
            file[at] = random.pick(&[0, 6, 7, 255]);
        }
        11 => {
            let length =
                if random.once_in(3) { file.len().saturating_sub(random.between(1, 3) as usize) } else { random.index(file.len()) };
            file.truncate(length);
        }
        12 if with.stamps && random.once_in(2) => misplace_stamp(random, store, file),
        12 if with.stores && random.once_in(2) => write_no_limit(random, store, file),
        12 if with.ends && random.once_in(2) => misplace_charge(random, store, file),
        12 => {
            let last = file.len() - 1;
            match random.between(0, 2) {
                0 => file[last] = file[last].wrapping_add(random.pick(&[1, 255])),
                1 => file[last - 1] = file[last - 1].wrapping_add(1),
                _ => file.extend((0..random.between(1, 20)).map(|_| random.pick(&[0, 1, 2, 7]))),
            }
        }
        _ => {}
    }
}

/// Takes the stamp away from a file, or makes the reader expect another: one or both numbers otherwise, or exchanged, or not two of them.
fn damage_stamp(random: &mut Random, input: &mut Input) {
    let expected = &mut input.expected;
    if expected.len() != 2 {
        return;
    }
    let which = random.index(2);
    match random.between(0, 5) {
        0 => {
            input.file.drain(..=plain::STAMP_BODY);
        }
        1 => expected[which] = expected[which].wrapping_add(random.pick(&[1, 256, 255, 65_535, 65_280])),
        2 => expected[which] = random.next() as u16,
        3 => expected.reverse(),
        4 => expected.truncate(which),
        _ => expected.extend(vec![expected[which]; random.between(1, 3) as usize]),
    }
}

/// An input that was damaged for each of the numbers.
pub fn damaged(random: &mut Random, call: Call, size: Size, with: With, numbers: &[u64]) -> Input {
    let day = day(random, call, size, with);
    damage(random, call, day, with, numbers)
}

/// An input with this day, damaged for each of the numbers.
pub fn damage(random: &mut Random, call: Call, mut day: Day, with: With, numbers: &[u64]) -> Input {
    // 2 and 3 may be of the lowest or the actual needs instead
    let of_second: &[u64] = if matches!(call, Call::Bounds | Call::Play) && random.once_in(2) { &[18, 3, 2] } else { &[18] };
    // in an order in which what comes later mostly keeps what came before
    for number in [15, 17, 7, 8, 9, 4, 16, 3, 1, 2, 14] {
        if numbers.contains(&number) && !of_second.contains(&number) {
            damage_day(random, &mut day, with, call.most(), number);
        }
    }
    let mut input = Input::on_day(call, day);
    let (draw, second): (fn(&mut Random, &[u16]) -> Vec<u16>, _) = match call {
        Call::Bounds => (lowest, &mut input.lowest),
        _ => (actual, &mut input.actual),
    };
    if matches!(call, Call::Bounds | Call::Play) {
        *second = draw(random, &input.day.demand);
        for &number in of_second.iter().filter(|number| numbers.contains(number)) {
            damage_second(random, second, &input.day.demand, number);
        }
    }
    let n = input.day.periods();
    if call == Call::Big && !numbers.contains(&19) {
        input.trials = trials(random, n);
    }
    let plans = call.plans();
    input.plans = (0..plans).map(|_| vec![random.between(0, 3) as u16; enough(random, n)]).collect();
    if call.reads_file() {
        let mut day = std::mem::take(&mut input.day);
        day.capacity.truncate(n);
        input.file = plain::unstamped(&day);
        input.period = if n > 0 { random.between(1, n as u64) as usize } else { 1 };
        if numbers.contains(&13) {
            input.period = random.pick(&[0, n + 1, n + 2, usize::MAX]);
        }
        for number in [12, 10, 11] {
            if numbers.contains(&number) {
                damage_file(random, &day.store, &mut input.file, with, number);
            }
        }
    }
    let needed = input.needed_unstamped();
    input.lent = lend(random, needed.clone(), with);
    let short = |random: &mut Random, needed: usize| if random.once_in(3) { 0 } else { needed.saturating_sub(1) };
    if numbers.contains(&5) {
        let area = random.index(call.areas());
        input.lent[area] = short(random, needed[area]);
    }
    if numbers.contains(&6) {
        if plans > 0 {
            let which = random.index(plans);
            input.plans[which].truncate(short(random, n));
        } else {
            let which = if call.path().is_some() { call.areas() } else { random.index(drawn(needed.len(), with)) };
            input.lent[which] = short(random, needed[which]);
        }
    }
    if with.stamps {
        input = input.stamped(stamp(random));
        if numbers.contains(&20) {
            damage_stamp(random, &mut input);
        }
    }
    input
}

/// An input with something changed that no rule names: any value, length or byte.
pub fn changed(random: &mut Random, call: Call, size: Size, with: With) -> Input {
    let mut input = valid(random, call, size, with);
    let kinds: &[u8] = match with {
        With { stamps: true, .. } => &[0, 1, 2, 3, 4, 5],
        With { stores: true, .. } => &[0, 1, 2, 3, 4],
        _ => &[0, 1, 2, 3],
    };
    // the last is for a reader that expects a stamp
    let ways = if with.stamps && call == Call::Read { 5 } else { 4 };
    let mut parts = vec![0, 1, 2, 3, 4, 5];
    parts.extend(if with.ends { vec![6, 7] } else { vec![] });
    parts.extend(with.stores.then_some(8));
    for _ in 0..random.between(1, 3) {
        if call.reads_file() {
            let at = random.index(input.file.len());
            match random.between(0, ways) {
                0 => input.file[at] = random.next() as u8,
                1 => input.file[at] = random.pick(kinds),
                2 => input.file.insert(at, random.pick(&[0, 1, 2])),
                3 if input.file.len() > 1 => {
                    input.file.remove(at);
                }
                5 => damage_stamp(random, &mut input),
                _ => input.period = random.between(0, 100) as usize,
            }
        } else {
            let n = input.day.periods();
            let i = random.index(n);
            match random.pick(&parts) {
                0 => input.day.demand[i] = random.pick(&[0, 1, 4096, 4097, 65_535]),
                1 => input.day.capacity[i] = random.pick(&[0, 1, 4095, 4096, 65_535]),
                2 => input.day.setup[i] = random.pick(&[0, 999_999_999, 1_000_000_000, 1_000_000_001, u32::MAX]),
                3 => input.day.unit[i] = random.pick(&[0, 999_999, 1_000_000, 1_000_001, u32::MAX]),
                4 => input.day.holding[i] = random.pick(&[0, 499_999, 500_000, 500_001, u32::MAX]),
                6 => input.day.opening = random.pick(&[0, 1, 4095, 4096, 4097, 65_535]),
                7 => input.day.closing = random.pick(&[0, 1, 4095, 4096, 4097, 65_535]),
                8 => input.day.store[i] = random.pick(&[0, 0, 1, 4095, 4096, 65_534, 65_535]),
                _ if call == Call::Bounds => input.lowest[i] = random.pick(&[0, 1, 4096, 4097, 65_535]),
                _ if call == Call::Big => input.trials = random.pick(&[0, 1, 2, n, usize::MAX]),
                _ if call == Call::Play && random.once_in(2) => input.actual[i] = random.pick(&[0, 1, 4096, 4097, 65_535]),
                _ if input.plans.is_empty() => {}
                _ => {
                    let which = random.index(input.plans.len());
                    input.plans[which][i] = random.pick(&[0, 1, 4096, 65_535]);
                }
            }
        }
    }
    if !input.lent.is_empty() && random.once_in(4) {
        let which = random.index(drawn(input.lent.len(), with));
        input.lent[which] = random.index(input.lent[which] + 2);
    } else if call.path() == Some(Path::Full) {
        // the areas go by T, which may have changed; a full one is too large to lend every time
        let needed = input.needed();
        if needed[1] < 100_000 {
            input.lent = needed;
        }
    }
    input
}
