//! Times the library's paths beside plain programs, and prints the tables of docs/benchmarks.md.
//! A figure is the median of several rounds with the smallest and the largest beside it; in a round each program runs once, on the same day.
//! Of the uncapped path there are figures over many days too: for each day the shortest of many rounds.
mod methods;
#[allow(dead_code)]
#[path = "../../outside/src/plain.rs"]
mod plain;

use plain::{Day, Path};
use std::hint::black_box;
use std::time::Instant;
use yakkurem::{BigTotals, Memory, Play, TablesMut};

const ROUNDS: usize = 9;

/// What a path lends, as large as it needs.
struct Areas {
    costs: Vec<u64>,
    choices: Vec<u16>,
    slots: Vec<u16>,
}

impl Areas {
    fn of(path: Path, day: &Day) -> Areas {
        let (costs, choices) = plain::cells(path, day);
        Areas { costs: vec![0; costs], choices: vec![0; choices], slots: vec![0; day.periods()] }
    }
}

/// The test load of request 2.7 that a seed gives, drawn by the library.
fn drawn(seed: u32, n: usize) -> Day {
    let mut day = Day {
        demand: vec![0; n],
        capacity: vec![0; n],
        setup: vec![0; n],
        unit: vec![0; n],
        holding: vec![0; n],
        store: vec![0; n],
        opening: 0,
        closing: 0,
    };
    let Day { demand, capacity, setup, unit, holding, store, .. } = &mut day;
    yakkurem::test_load(seed, n, TablesMut { demand, capacity, setup, unit, holding, store }).expect("1 to 96 periods");
    day
}

/// The first seed whose load of 96 periods has a plan. A shorter load is the front of a longer one, so it has a plan too.
fn first_seed() -> u32 {
    (0..).find(|&seed| plain::shortage(&drawn(seed, 96)).is_none()).expect("a load with a plan")
}

/// Capacities as drawn, or one for every period in their place.
#[derive(Clone, Copy)]
enum Capacity {
    Drawn,
    One(u16),
}

impl Capacity {
    fn set_in(self, day: Day) -> Day {
        match self {
            Capacity::Drawn => day,
            Capacity::One(capacity) => Day { capacity: vec![capacity; day.periods()], ..day },
        }
    }
}

impl std::fmt::Display for Capacity {
    fn fmt(&self, f: &mut std::fmt::Formatter) -> std::fmt::Result {
        match self {
            Capacity::Drawn => write!(f, "drawn"),
            Capacity::One(capacity) => write!(f, "{capacity}"),
        }
    }
}

/// One that never binds.
const UNBOUND: Capacity = Capacity::One(65_535);

const CAPACITIES: [Capacity; 4] = [Capacity::Drawn, Capacity::One(60), Capacity::One(500), UNBOUND];

fn library(path: Path, day: &Day, areas: &mut Areas) -> u64 {
    let Day { demand, capacity, setup, unit, holding, store, .. } = day;
    let day = yakkurem::Day { demand, capacity, setup, unit, holding, store, opening: 0, closing: 0 };
    let memory = Memory { costs: &mut areas.costs, choices: &mut areas.choices, slots: &mut areas.slots };
    let planned = match path {
        Path::Full => yakkurem::full(day, memory),
        Path::Uncapped => yakkurem::uncapped(day, memory),
        Path::Equal => yakkurem::equal(day, memory).map(|planned| planned.totals),
        Path::Free => yakkurem::free(day, memory.costs, memory.slots),
    };
    planned.expect("a day that the path accepts").cost
}

fn same_method(path: Path, day: &Day, areas: &mut Areas) -> u64 {
    let Areas { costs, choices, slots } = areas;
    match path {
        Path::Full => methods::full(day, costs, choices, slots),
        Path::Uncapped => methods::uncapped(day, costs, choices, slots),
        Path::Equal => methods::equal(day, costs, choices, slots),
        Path::Free => methods::free(day, costs, slots),
    }
}

/// Seconds of processor time that this thread has used, so that other programs on the machine count for less.
fn now() -> f64 {
    #[repr(C)]
    struct Time {
        seconds: i64,
        nanoseconds: i64,
    }
    extern "C" {
        fn clock_gettime(clock: i32, time: *mut Time) -> i32;
    }
    const THREAD_CPUTIME: i32 = 3;
    let mut time = Time { seconds: 0, nanoseconds: 0 };
    assert_eq!(unsafe { clock_gettime(THREAD_CPUTIME, &mut time) }, 0);
    time.seconds as f64 + time.nanoseconds as f64 * 1e-9
}

/// Seconds of one call, over as many calls as take about 5 ms. The clock is read seldom, as that takes longer than the shortest calls.
fn time(mut call: impl FnMut() -> u64) -> f64 {
    let (mut calls, start) = (0, now());
    loop {
        let more = calls.clamp(1, 100);
        for _ in 0..more {
            black_box(call());
        }
        calls += more;
        let seconds = now() - start;
        if seconds >= 0.005 {
            return seconds / calls as f64;
        }
    }
}

/// Two digits that count.
fn two_digits(value: f64) -> String {
    format!("{value:.*}", if value >= 0.1 { 2 } else { 1 + (-value.log10()).ceil() as usize })
}

fn in_units(seconds: f64) -> String {
    match seconds * 1e6 {
        us if us < 10.0 => format!("{us:.2} µs"),
        us if us < 1e3 => format!("{us:.1} µs"),
        us => format!("{:.2} ms", us / 1e3),
    }
}

/// Median, smallest and largest.
struct Spread(f64, f64, f64);

fn spread(mut values: Vec<f64>) -> Spread {
    values.sort_by(f64::total_cmp);
    Spread(values[values.len() / 2], values[0], values[values.len() - 1])
}

impl Spread {
    fn ratio(&self) -> String {
        format!("{} ({} to {})", two_digits(self.0), two_digits(self.1), two_digits(self.2))
    }

    fn percent(&self) -> String {
        format!("{:.2} % ({:.2} to {:.2})", self.0, self.1, self.2)
    }

    fn time(&self) -> String {
        format!("{} ({} to {})", in_units(self.0), in_units(self.1), in_units(self.2))
    }
}

/// The library's time, and its ratios to the plain program and to recursion (5), round by round.
fn compare(path: Path, day: &Day) -> (Spread, Spread, Spread) {
    let (mut ours, mut theirs) = (Areas::of(path, day), Areas::of(path, day));
    let cost = library(path, day, &mut ours);
    assert_eq!(cost, same_method(path, day, &mut theirs), "the plain program gives another cost");
    assert_eq!(ours.slots, theirs.slots, "the plain program gives another plan");
    assert_eq!(Some(cost), plain::recursion(day).map(|p| p.totals.cost), "recursion (5) gives another cost");
    let (mut times, mut to_plain, mut to_letter) = (vec![], vec![], vec![]);
    for _ in 0..ROUNDS {
        let library = time(|| library(path, black_box(day), &mut ours));
        let same = time(|| same_method(path, black_box(day), &mut theirs));
        let letter = time(|| plain::recursion(black_box(day)).unwrap().totals.cost);
        times.push(library);
        to_plain.push(library / same);
        to_letter.push(library / letter);
    }
    (spread(times), spread(to_plain), spread(to_letter))
}

/// The library's time alone.
fn alone(path: Path, day: &Day) -> Spread {
    let mut areas = Areas::of(path, day);
    spread((0..ROUNDS).map(|_| time(|| library(path, black_box(day), &mut areas))).collect())
}

const SHORT_ROUNDS: usize = 100;
const SHORT_CALLS: usize = 10;

/// Seconds of one call in a short round, by the wall clock: of many rounds the shortest is one that nothing else on the machine disturbed.
fn in_short_round(mut call: impl FnMut() -> u64) -> f64 {
    let start = Instant::now();
    for _ in 0..SHORT_CALLS {
        black_box(call());
    }
    start.elapsed().as_secs_f64() / SHORT_CALLS as f64
}

type Method = fn(&Day, &mut Areas) -> u64;

/// The uncapped path, and two plain programs of its method: with sums kept up from candidate to candidate, and from row to row.
const UNCAPPED: [Method; 3] = [
    |day, areas| library(Path::Uncapped, day, areas),
    |day, areas| same_method(Path::Uncapped, day, areas),
    |day, areas| methods::uncapped_row_to_row(day, &mut areas.costs, &mut areas.choices, &mut areas.slots),
];

/// The time of each of these on each day, the shortest of the rounds. A round goes through all days, so that a machine that is busy for a
/// while disturbs a few rounds of every day, not all rounds of a few.
fn shortest(days: &[Day]) -> Vec<[f64; 3]> {
    let mut times = vec![[f64::MAX; 3]; days.len()];
    let mut areas = UNCAPPED.map(|_| Areas::of(Path::Uncapped, &drawn(0, 96)));
    for _ in 0..SHORT_ROUNDS {
        for (day, times) in days.iter().zip(&mut times) {
            let costs = [0, 1, 2].map(|k| UNCAPPED[k](day, &mut areas[k]));
            assert!(costs.iter().all(|&cost| cost == costs[0]), "a plain program gives another cost");
            assert!(areas.iter().all(|other| other.slots == areas[0].slots), "a plain program gives another plan");
            for k in 0..3 {
                times[k] = times[k].min(in_short_round(|| UNCAPPED[k](black_box(day), &mut areas[k])));
            }
        }
    }
    times
}

/// Of these times each program's, day by day, and the library's to the plain ones'.
fn columns(times: &[[f64; 3]]) -> [Vec<f64>; 5] {
    let column = |of: fn(&[f64; 3]) -> f64| times.iter().map(of).collect();
    [column(|t| t[0]), column(|t| t[1]), column(|t| t[2]), column(|t| t[0] / t[1]), column(|t| t[0] / t[2])]
}

/// Cells for the smallest value, 5 % from below, the median, 95 %, and the largest.
fn quantiles(mut values: Vec<f64>, cell: fn(f64) -> String) -> String {
    values.sort_by(f64::total_cmp);
    [0, 5, 50, 95, 100].map(|part| cell(values[part * (values.len() - 1) / 100])).join(" | ")
}

const MANY_LOADS: u32 = 500;

/// The uncapped path beside plain programs on many loads, by which request 2.13 is judged.
fn on_many_loads() {
    println!("\n## The uncapped path beside plain programs\n");
    println!(
        "Request 2.13 asks for no more than twice the time of a plain program from section 3. Both here keep up the sums of all ½n(n + 1) \
         candidates and drop none: from candidate to candidate as the report has them (the plain program of the other tables), and from row to \
         row, which lets the compiler make several products at a time. The days are the loads of seeds 0 to {}; n is 96 and every capacity \
         65,535. All give the same plan. A time is the shortest of {SHORT_ROUNDS} rounds of {SHORT_CALLS} calls by the wall clock, all taking \
         turns; the spread is over the days, a ratio that of two times on a day.\n",
        MANY_LOADS - 1
    );
    println!("| | Smallest | 5 % | Median | 95 % | Largest |");
    println!("|---|---|---|---|---|---|");
    let days: Vec<Day> = (0..MANY_LOADS).map(|seed| UNBOUND.set_in(drawn(seed, 96))).collect();
    let [library, by_candidate, by_row, to_candidate, to_row] = columns(&shortest(&days));
    println!("| Library | {} |", quantiles(library, in_units));
    println!("| Plain, from candidate to candidate | {} |", quantiles(by_candidate, in_units));
    println!("| Plain, from row to row | {} |", quantiles(by_row, in_units));
    println!("| Library to the first | {} |", quantiles(to_candidate, two_digits));
    println!("| Library to the second | {} |", quantiles(to_row, two_digits));
}

const FEW_LOADS: u32 = 50;

/// Days on which a search that drops candidates may take other times: what they are called, n, and what becomes of the drawn day.
const OTHER_DAYS: [(&str, usize, fn(Day) -> Day); 11] = [
    ("as drawn", 12, |day| day),
    ("as drawn", 24, |day| day),
    ("as drawn", 48, |day| day),
    ("as drawn", 96, |day| day),
    ("every cost 0", 96, |day| Day { setup: vec![0; 96], unit: vec![0; 96], holding: vec![0; 96], ..day }),
    ("every start 15,000, unit cost 600, upkeep 10", 96, |day| Day {
        setup: vec![15_000; 96],
        unit: vec![600; 96],
        holding: vec![10; 96],
        ..day
    }),
    ("unit costs sorted, falling", 96, |mut day| {
        day.unit.sort_by(|a, b| b.cmp(a));
        day
    }),
    ("unit costs sorted, rising", 96, |mut day| {
        day.unit.sort();
        day
    }),
    ("no upkeep", 96, |day| Day { holding: vec![0; 96], ..day }),
    ("no start cost", 96, |day| Day { setup: vec![0; 96], ..day }),
    ("needs in every sixth period only", 96, |mut day| {
        (0..96).filter(|i| i % 6 < 5).for_each(|i| day.demand[i] = 0);
        day
    }),
];

/// The same on other days.
fn on_other_days() {
    println!(
        "\nThe same for the loads of seeds 0 to {} with other n, costs and needs: how much it gains to drop candidates depends on them.\n",
        FEW_LOADS - 1
    );
    println!("| Costs and needs | n | Library | To the first | To the second |");
    println!("|---|---|---|---|---|");
    let loads = |(_, n, change): (_, usize, fn(Day) -> Day)| (0..FEW_LOADS).map(move |seed| change(UNBOUND.set_in(drawn(seed, n))));
    let days: Vec<Day> = OTHER_DAYS.into_iter().flat_map(loads).collect();
    for ((name, n, _), times) in OTHER_DAYS.into_iter().zip(shortest(&days).chunks(FEW_LOADS as usize)) {
        let [library, _, _, to_candidate, to_row] = columns(times).map(spread);
        println!("| {name} | {n} | {} | {} | {} |", library.time(), to_candidate.ratio(), to_row.ratio());
    }
}

/// The full path on days whose battery is full now and then: the smaller it is, the fewer totals can be reached.
fn with_store(seed: u32) {
    println!("\n## Days with a store limit\n");
    println!(
        "The full path; n is 96, and one limit takes the place of the 65,535 in every period. The other paths refuse such days (16). Beside \
         it the same day without a limit.\n"
    );
    println!("| Capacity | Limit | Without | With | To the plain program | To recursion (5) |");
    println!("|---|---|---|---|---|---|");
    for capacity in [Capacity::One(60), Capacity::One(65_535)] {
        for limit in [10, 50, 250, 1000] {
            let unlimited = capacity.set_in(drawn(seed, 96));
            let limited = Day { store: vec![limit; 96], ..unlimited.clone() };
            let (time, plain, letter) = compare(Path::Full, &limited);
            println!(
                "| {capacity} | {limit} | {} | {} | {} | {} |",
                alone(Path::Full, &unlimited).time(),
                time.time(),
                plain.ratio(),
                letter.ratio()
            );
        }
    }
}

const PATHS: [(Path, &str); 3] = [(Path::Full, "full"), (Path::Uncapped, "uncapped"), (Path::Equal, "equal")];

/// The free path beside those that may serve the same days: what a station would take without it.
fn without_starts(seed: u32) {
    println!("\n## Days without starting cost\n");
    println!(
        "Test loads of 96 periods and fewer, with every start cost 0; the ratios are the free path's, and a dash says that a capacity may \
         bind. It serves at most 2 × n batches, whatever R is.\n"
    );
    println!("| n | Capacity | full | uncapped | free | To the plain program | To recursion (5) |");
    println!("|---|---|---|---|---|---|---|");
    for (n, capacity) in [96, 48, 24, 12].into_iter().flat_map(|n| CAPACITIES.map(|capacity| (n, capacity))) {
        let day = Day { setup: vec![0; n], ..capacity.set_in(drawn(seed, n)) };
        let uncapped = if plain::binding(&day).is_none() { alone(Path::Uncapped, &day).time() } else { "–".to_string() };
        let (time, plain, letter) = compare(Path::Free, &day);
        println!(
            "| {n} | {capacity} | {} | {uncapped} | {} | {} | {} |",
            alone(Path::Full, &day).time(),
            time.time(),
            plain.ratio(),
            letter.ratio()
        );
    }
}

/// The sum of both costs that the call on ranges gives.
fn bounds(lowest: &[u16], day: &Day, areas: &mut Areas) -> u64 {
    let Day { demand, capacity, setup, unit, holding, store, .. } = day;
    let day = yakkurem::Day { demand, capacity, setup, unit, holding, store, opening: 0, closing: 0 };
    let bounds = yakkurem::bounds(lowest, day, &mut areas.costs, &mut areas.choices).expect("ranges that the call accepts");
    bounds.lowest + bounds.highest
}

/// The call on ranges beside the full path on each of its two days.
fn with_ranges(seed: u32) {
    println!("\n## Needs known as ranges\n");
    println!(
        "n is 96; the highest needs are those drawn, the lowest that part of them, rounded down. Beside the call the full path on each of \
         the two days.\n"
    );
    println!("| Capacity | Lowest | Full, lowest | Full, highest | Call | To both |");
    println!("|---|---|---|---|---|---|");
    let parts = [("0", 0), ("½", 2), ("1", 4)];
    for (capacity, (part, quarters)) in CAPACITIES.into_iter().flat_map(|capacity| parts.map(|part| (capacity, part))) {
        let highest = capacity.set_in(drawn(seed, 96));
        let lowest = highest.with_needs(&highest.demand.iter().map(|need| need * quarters / 4).collect::<Vec<_>>());
        let mut areas = Areas::of(Path::Full, &highest);
        let each = [&lowest, &highest].map(|day| library(Path::Full, day, &mut areas));
        assert_eq!(bounds(&lowest.demand, &highest, &mut areas), each[0] + each[1], "the call gives other costs than the full path");
        let (mut low, mut high, mut call, mut ratio) = (vec![], vec![], vec![], vec![]);
        for _ in 0..ROUNDS {
            let [l, h] = [&lowest, &highest].map(|day| time(|| library(Path::Full, black_box(day), &mut areas)));
            let both = time(|| bounds(black_box(&lowest.demand), black_box(&highest), &mut areas));
            low.push(l);
            high.push(h);
            call.push(both);
            ratio.push(both / (l + h));
        }
        let [low, high, call] = [low, high, call].map(|times| spread(times).time());
        println!("| {capacity} | {part} | {low} | {high} | {call} | {} |", spread(ratio).ratio());
    }
}

/// What the call on big days lends.
fn big_areas(day: &Day) -> Areas {
    Areas { costs: vec![0; plain::big_cells(day)], choices: vec![], slots: vec![0; day.periods()] }
}

fn big(trials: usize, day: &Day, areas: &mut Areas) -> BigTotals {
    let Day { demand, capacity, setup, unit, holding, store, .. } = day;
    let day = yakkurem::Day { demand, capacity, setup, unit, holding, store, opening: 0, closing: 0 };
    yakkurem::big(day, trials, &mut areas.costs, &mut areas.slots).expect("a day that the call accepts")
}

/// A day times what brings its need to 60,000: needs rounded down as sums from the first period on, capacities and start costs rounded up, so
/// that a day with a plan keeps one.
fn enlarged(day: &Day) -> Day {
    let (most, total) = (plain::MAX_BIG_TOTAL, day.total());
    let by = |i: usize| day.demand_to(i) * most / total;
    let up = |value: u64| (value * most).div_ceil(total);
    Day {
        demand: (0..day.periods()).map(|i| (by(i + 1) - by(i)) as u16).collect(),
        capacity: day.capacity.iter().map(|&c| up(c as u64).min(65_535) as u16).collect(),
        setup: day.setup.iter().map(|&b| up(b as u64) as u32).collect(),
        ..day.clone()
    }
}

/// The same day with the needs of every three periods in the last of them.
fn gathered(day: &Day) -> Day {
    let need = |i: usize| if i % 3 == 2 { day.demand[i - 2..=i].iter().sum() } else { 0 };
    Day { demand: (0..day.periods()).map(need).collect(), ..day.clone() }
}

const TRIALS: [usize; 4] = [1, 96, 1000, usize::MAX];

/// Capacities for these trials.
const BIG_CAPACITIES: [Capacity; 3] = [Capacity::Drawn, Capacity::One(60), Capacity::One(65_535)];

fn allowed(trials: usize) -> String {
    if trials == usize::MAX {
        "any".to_string()
    } else {
        trials.to_string()
    }
}

/// The call on days of 60,000 watt-hours.
fn with_big_days(seed: u32) {
    let load = drawn(seed, 96);
    let [each, third] = [load.clone(), gathered(&load)].map(|day| enlarged(&day).demand.into_iter().max().unwrap());
    println!("\n## Big days\n");
    println!(
        "n is 96 and R 60,000: needs, capacities and start costs times 60,000 ÷ {}, rounded. Needs are in every period, up to {each}, or those \
         of three periods in the third, up to {third}. The gap is in per cent of the plan's cost.\n",
        load.total()
    );
    println!("| Needs in | Capacity | Trials allowed | Used | Starts | Gap | Library | To the plain program |");
    println!("|---|---|---|---|---|---|---|---|");
    for (needs, load) in [("every period", load.clone()), ("every third", gathered(&load))] {
        for (capacity, trials) in BIG_CAPACITIES.into_iter().flat_map(|capacity| TRIALS.map(|trials| (capacity, trials))) {
            let (planned, times, ratios) = compare_big(trials, &enlarged(&capacity.set_in(load.clone())));
            println!(
                "| {needs} | {capacity} | {} | {} | {} | {:.2} % | {} | {} |",
                allowed(trials),
                planned.trials,
                planned.totals.setups,
                100.0 * planned.gap as f64 / planned.totals.cost as f64,
                times.time(),
                ratios.ratio()
            );
        }
    }
}

/// What the call answers, its time, and the ratio to the plain program, round by round.
fn compare_big(trials: usize, day: &Day) -> (BigTotals, Spread, Spread) {
    let (mut ours, mut theirs) = (big_areas(day), big_areas(day));
    let planned = big(trials, day, &mut ours);
    let Areas { costs, slots, .. } = &mut theirs;
    let by_plain = methods::big(day, trials, costs, slots);
    assert_eq!((planned.totals.cost, planned.trials), (by_plain.0, by_plain.1 as u64), "the plain program gives another answer");
    assert_eq!(&ours.slots, slots, "the plain program gives another plan");
    let (mut times, mut ratios) = (vec![], vec![]);
    for _ in 0..ROUNDS {
        let library = time(|| big(trials, black_box(day), &mut ours).totals.cost);
        let same = time(|| methods::big(black_box(day), trials, costs, slots).0);
        times.push(library);
        ratios.push(library / same);
    }
    (planned, spread(times), spread(ratios))
}

fn weigh(day: &Day, plan: &[u16]) -> u64 {
    let Day { demand, capacity, setup, unit, holding, store, .. } = day;
    let day = yakkurem::Day { demand, capacity, setup, unit, holding, store, opening: 0, closing: 0 };
    yakkurem::weigh(day, plan).expect("a plan that holds").cost
}

fn play(day: &Day, plan: &[u16], actual: &[u16]) -> [u64; 5] {
    let Day { demand, capacity, setup, unit, holding, store, .. } = day;
    let day = yakkurem::Day { demand, capacity, setup, unit, holding, store, opening: 0, closing: 0 };
    let Play { produced, delivered, lost, disposed, left } = yakkurem::play(day, plan, actual).expect("a plan that holds");
    [produced, delivered, lost, disposed, left]
}

/// The call that plays a plan beside the weigher, whose work is part of it.
fn with_plays(seed: u32) {
    println!("\n## Plans played\n");
    println!(
        "n is 96; the full path's plan, with one store limit of 50 in every period, against needs as planned, and against those that the next \
         seed draws. Beside the call the weigher on the same plan; the plain program weighs it too, but leaves out its cost.\n"
    );
    println!("| Capacity | Actual needs | Missed | Spilled | Weigher | Call | To the plain program |");
    println!("|---|---|---|---|---|---|---|");
    for capacity in [Capacity::One(60), Capacity::One(65_535)] {
        let day = Day { store: vec![50; 96], ..capacity.set_in(drawn(seed, 96)) };
        let mut areas = Areas::of(Path::Full, &day);
        library(Path::Full, &day, &mut areas);
        let plan = &areas.slots;
        for (needs, actual) in [("as planned", &day.demand), ("the next seed's", &drawn(seed + 1, 96).demand)] {
            let played = play(&day, plan, actual);
            assert_eq!(methods::play(&day, plan, actual), Some(played), "the plain program gives another answer");
            let (mut weighed, mut times, mut ratios) = (vec![], vec![], vec![]);
            for _ in 0..ROUNDS {
                weighed.push(time(|| weigh(black_box(&day), plan)));
                let library = time(|| play(black_box(&day), plan, actual)[4]);
                let same = time(|| methods::play(black_box(&day), plan, actual).expect("a plan that holds")[4]);
                times.push(library);
                ratios.push(library / same);
            }
            let [weighed, times] = [weighed, times].map(|times| spread(times).time());
            println!("| {capacity} | {needs} | {} | {} | {weighed} | {times} | {} |", played[2], played[3], spread(ratios).ratio());
        }
    }
}

const LOADS: usize = 25;

/// How much dearer the trials' plans are than the cheapest, on days that the full path plans too.
fn beside_the_cheapest() {
    println!("\n## The trials' plans beside the cheapest\n");
    println!(
        "The first {LOADS} loads of 96 periods that have a plan, as drawn or with one capacity. By how much the plan costs more than the \
         cheapest, which the full path gives, and the gap, which the call gives; both in per cent of the cheapest's cost.\n"
    );
    println!("| Capacity | Trials allowed | Used | More than the cheapest | Gap |");
    println!("|---|---|---|---|---|");
    let with_plan = (0..).filter(|&seed| plain::shortage(&drawn(seed, 96)).is_none());
    let loads: Vec<Day> = with_plan.take(LOADS).map(|seed| drawn(seed, 96)).collect();
    for (capacity, trials) in BIG_CAPACITIES.into_iter().flat_map(|capacity| TRIALS.map(|trials| (capacity, trials))) {
        let (mut used, mut more, mut gap) = (vec![], vec![], vec![]);
        for load in &loads {
            let day = capacity.set_in(load.clone());
            let least = library(Path::Full, &day, &mut Areas::of(Path::Full, &day));
            let planned = big(trials, &day, &mut big_areas(&day));
            let part = |cost: u64| 100.0 * cost as f64 / least as f64;
            used.push(planned.trials as f64);
            more.push(part(planned.totals.cost - least));
            gap.push(part(planned.gap));
        }
        let Spread(used, fewest, most) = spread(used);
        let [more, gap] = [more, gap].map(|parts| spread(parts).percent());
        println!("| {capacity} | {} | {used} ({fewest} to {most}) | {more} | {gap} |", allowed(trials));
    }
}

/// The paths on longer and longer days.
fn with_n(seed: u32) {
    println!("\n## Growth with n\n");
    println!("| n | R | full, capacity 60 | uncapped | equal, capacity 60 |");
    println!("|---|---|---|---|---|");
    for n in [12, 24, 48, 96] {
        let [capped, unbound] = [60, 65_535].map(|capacity| Capacity::One(capacity).set_in(drawn(seed, n)));
        println!(
            "| {n} | {} | {} | {} | {} |",
            capped.total(),
            alone(Path::Full, &capped).time(),
            alone(Path::Uncapped, &unbound).time(),
            alone(Path::Equal, &capped).time()
        );
    }
}

/// The paths on days with more and more need.
fn with_need(seed: u32) {
    println!("\n## Growth with R\n\nn is 96; the needs are those drawn times ¼, ½, 1 and 2, rounded down.\n");
    println!("| R | full, capacity 80 | full, capacity 65,535 | uncapped | equal, capacity 80 |");
    println!("|---|---|---|---|---|");
    for quarters in [1, 2, 4, 8] {
        let [capped, unbound] = [80, 65_535].map(|capacity| {
            let day = Capacity::One(capacity).set_in(drawn(seed, 96));
            Day { demand: day.demand.iter().map(|need| need * quarters / 4).collect(), ..day }
        });
        println!(
            "| {} | {} | {} | {} | {} |",
            capped.total(),
            alone(Path::Full, &capped).time(),
            alone(Path::Full, &unbound).time(),
            alone(Path::Uncapped, &unbound).time(),
            alone(Path::Equal, &capped).time()
        );
    }
}

fn main() {
    let seed = first_seed();
    println!("# Benchmarks\n");
    println!(
        "Written by `bench/run`: the library's paths beside plain Rust programs of the same methods (`bench/src/methods.rs`) and beside \
         recursion (5) by its letter (`outside/src/plain.rs`), which knows no bounds on the totals. Same process, same days, both built for \
         release; all work on lent memory that was not cleared before a call. The library also tests the tables, clears its areas and \
         weighs its plan; the plain programs do none of these. Recursion (5) by its letter allocates its rows.\n"
    );
    println!(
        "The days are test loads of request 2.7, drawn by `yakkurem_test_load` with seed {seed}, the first whose load of 96 periods has a \
         plan. Where a table names a capacity, a store limit, other costs or other needs, these take the place of the drawn ones; all else is as \
         drawn. The days have no charge at their ends, so R is T, and but for two tables no store limits.\n"
    );
    println!(
        "Times are the thread's processor time on x86-64 Linux. A figure is the median of {ROUNDS} rounds, with the smallest and the \
         largest: that spread is the machine's noise. A ratio below 1 means that the library is faster. A section with other seeds, clocks or \
         spreads says so.\n"
    );
    println!("## Days of 96 periods\n\nR is {}.\n", drawn(seed, 96).total());
    println!("| Path | Capacity | Library | To the plain program | To recursion (5) |");
    println!("|---|---|---|---|---|");
    for (path, name) in PATHS {
        for capacity in CAPACITIES {
            let day = capacity.set_in(drawn(seed, 96));
            if path == Path::Uncapped && plain::binding(&day).is_some() || path == Path::Equal && plain::unequal(&day).is_some() {
                continue;
            }
            let (time, plain, letter) = compare(path, &day);
            println!("| {name} | {capacity} | {} | {} | {} |", time.time(), plain.ratio(), letter.ratio());
        }
    }
    on_many_loads();
    on_other_days();
    without_starts(seed);
    with_store(seed);
    with_ranges(seed);
    with_big_days(seed);
    beside_the_cheapest();
    with_plays(seed);
    with_n(seed);
    with_need(seed);
}
