//! What a call should answer and leave behind, and what it does.
use crate::input::{Call, Input};
use crate::lots;
use crate::plain::{self, Loads, Path, Planned, Rule, Verdict};
use crate::random::mix;
use yakkurem::{codes, fault, BigTotals, Bounds, Day, EqualTotals, Fault, Filled, Memory, Play, Refusal, Stamp, TablesMut, Totals};

/// Everything that a caller can see after a call: its code, its out-array, and each lent part, with the cells around them.
#[derive(Clone, Debug, PartialEq)]
pub struct Seen {
    pub code: u64,
    pub out: Vec<u64>,
    pub lent: Vec<Vec<u64>>,
}

/// Cells before and after what is lent and the out-array, which no call may touch.
pub const AROUND: usize = 8;

impl Seen {
    /// The numbers in the out-array, where the call has one.
    pub fn values(&self) -> &[u64] {
        self.out.get(AROUND..self.out.len().saturating_sub(AROUND)).unwrap_or(&[])
    }

    /// The plan of a path, in its slots.
    pub fn plan(&self, periods: usize) -> Vec<u16> {
        self.lent.last().unwrap()[AROUND..][..periods].iter().map(|&x| x as u16).collect()
    }
}

/// A cell of any width, filled from a wide pattern and shown as a wide number.
pub trait Cell: Copy {
    fn of(wide: u64) -> Self;
    fn wide(self) -> u64;
}

macro_rules! cells {
    ($($t:ty),*) => { $(impl Cell for $t {
        fn of(wide: u64) -> Self { wide as $t }
        fn wide(self) -> u64 { self as u64 }
    })* };
}
cells!(u8, u16, u32, u64, i64);

/// Cells with a pattern, never 0, in and around the lent ones; `area` tells parts of one call apart.
fn pattern<T: Cell>(area: usize, length: usize) -> Vec<T> {
    (0..length + 2 * AROUND).map(|i| T::of(mix(((area as u64) << 32) + i as u64) | 1)).collect()
}

fn lent<T>(cells: &mut [T]) -> &mut [T] {
    let end = cells.len() - AROUND;
    &mut cells[AROUND..end]
}

fn wide<T: Cell>(cells: &[T]) -> Vec<u64> {
    cells.iter().map(|&cell| cell.wide()).collect()
}

/// An out-array's pattern, with the cells around it.
fn out<T: Cell>(length: usize) -> Vec<T> {
    pattern(6, length)
}

/// The out-array itself.
fn array<T, const N: usize>(cells: &mut [T]) -> &mut [T; N] {
    lent(cells).try_into().unwrap()
}

/// Six lent tables of such lengths, as they are before a call that fills them.
pub fn tables_before(l: &[usize]) -> Vec<Vec<u64>> {
    vec![
        wide::<u16>(&pattern(0, l[0])),
        wide::<u16>(&pattern(1, l[1])),
        wide::<u32>(&pattern(2, l[2])),
        wide::<u32>(&pattern(3, l[3])),
        wide::<u32>(&pattern(4, l[4])),
        wide::<u16>(&pattern(5, l[5])),
    ]
}

/// The parts that a call is lent, as they are before it.
fn before(input: &Input) -> Vec<Vec<u64>> {
    let l = &input.lent;
    match input.call {
        Call::Full | Call::Uncapped | Call::Equal => {
            vec![wide::<u64>(&pattern(0, l[0])), wide::<u16>(&pattern(1, l[1])), wide::<u16>(&pattern(2, l[2]))]
        }
        Call::Free | Call::Bounds | Call::Big => vec![wide::<u64>(&pattern(0, l[0])), wide::<u16>(&pattern(1, l[1]))],
        Call::Read => tables_before(l),
        Call::Write => vec![wide::<u8>(&pattern(0, l[0]))],
        Call::Weigh | Call::Compare | Call::Play | Call::Lookup => vec![],
    }
}

/// Writes cells at the front of a lent part.
fn fill<T: Cell>(part: &mut [u64], cells: &[T]) {
    for (i, &cell) in cells.iter().enumerate() {
        part[AROUND + i] = cell.wide();
    }
}

/// Writes a day at the front of six lent tables.
pub fn fill_tables(lent: &mut [Vec<u64>], day: &plain::Day) {
    fill(&mut lent[0], &day.demand);
    fill(&mut lent[1], &day.capacity);
    fill(&mut lent[2], &day.setup);
    fill(&mut lent[3], &day.unit);
    fill(&mut lent[4], &day.holding);
    fill(&mut lent[5], &day.store);
}

const NO_PLAN: &str = "no plan, and no shortage";

/// The code of a broken plan.
pub fn broken(rule: Rule, period: usize) -> u64 {
    let number = match rule {
        Rule::AboveCapacity => 101,
        Rule::Short => 102,
        Rule::Over => 103,
        Rule::AboveStore => 104,
    };
    number + 256 * period as u64
}

/// A way to the plan of a day.
type Way = fn(&plain::Day) -> Option<Planned>;

/// The plan by this way. Where capacities and stores can't bind, the last lots are to give it too.
fn accepted_path(path: Path, way: Way, input: &Input, seen: &mut Seen) {
    let planned = way(&input.day).expect(NO_PLAN);
    if path == Path::Uncapped {
        assert_eq!(lots::plan(&input.day), planned, "{:?}", input.day);
    }
    let (costs, choices) = plain::cells(path, &input.day);
    fill(&mut seen.lent[0], &vec![0u64; costs]);
    fill(&mut seen.lent[1], &vec![0u16; choices]);
    fill(&mut seen.lent[2], &planned.plan);
    let mut answer = vec![planned.totals.cost, planned.totals.setups];
    if path == Path::Equal {
        let Loads { full, part } = plain::loads(&input.day, &planned.plan);
        answer.extend([full, part]);
    }
    fill(&mut seen.out, &answer);
}

/// The plan by the rule. Where it does not take long, the search or recursion (5) is to give it too.
fn accepted_free(input: &Input, seen: &mut Seen) {
    let planned = plain::unit_by_unit(&input.day).expect(NO_PLAN);
    if input.day.whole() <= Some(500) {
        assert_eq!(plain::plan(&input.day).as_ref(), Some(&planned), "{:?}", input.day);
    }
    fill(&mut seen.lent[0], &vec![0u64; plain::cells(Path::Free, &input.day).0]);
    fill(&mut seen.lent[1], &planned.plan);
    fill(&mut seen.out, &[planned.totals.cost, planned.totals.setups]);
}

/// Both least costs, in the areas of the highest needs.
fn accepted_bounds(input: &Input, seen: &mut Seen) {
    let (costs, choices) = plain::cells(Path::Full, &input.day);
    fill(&mut seen.lent[0], &vec![0u64; costs]);
    fill(&mut seen.lent[1], &vec![0u16; choices]);
    let days = [&input.day.with_needs(&input.lowest), &input.day];
    fill(&mut seen.out, &days.map(|day| plain::least_cost(day).expect(NO_PLAN)));
}

/// What the trials lead to. Where it does not take long, the rule watt-hour by watt-hour is to lead there too, and the search or recursion
/// (5) to have the least cost with all starts free.
fn accepted_big(input: &Input, seen: &mut Seen) {
    let Input { day, trials, .. } = input;
    let best = plain::best_so_far(day, *trials, plain::in_batches).expect(NO_PLAN);
    if day.whole() <= Some(30) {
        assert_eq!(plain::best_so_far(day, *trials, plain::unit_by_unit).as_ref(), Some(&best), "{day:?}");
        assert_eq!(plain::least_cost(&day.starts_free()), Some(best.planned.totals.cost - best.gap), "{day:?}");
    }
    fill(&mut seen.lent[0], &vec![0u64; plain::big_cells(day)]);
    fill(&mut seen.lent[1], &best.planned.plan);
    fill(&mut seen.out, &[best.planned.totals.cost, best.planned.totals.setups, best.trials as u64, best.gap]);
}

fn accepted_comparison(input: &Input, seen: &mut Seen) {
    match (plain::verdict(&input.day, &input.plans[0]), plain::verdict(&input.day, &input.plans[1])) {
        (Verdict::Holds(first), Verdict::Holds(second)) => fill(&mut seen.out, &[first.cost as i64 - second.cost as i64]),
        (Verdict::Broken(rule, period), _) | (_, Verdict::Broken(rule, period)) => seen.code = broken(rule, period),
    }
}

/// The weigher's verdict of a broken plan, the play of one that holds.
fn accepted_play(input: &Input, seen: &mut Seen) {
    let Input { day, actual, plans, .. } = input;
    match plain::verdict(day, &plans[0]) {
        Verdict::Holds(_) => {
            let plain::Play { produced, delivered, lost, disposed, left } = plain::play(day, &plans[0], actual);
            fill(&mut seen.out, &[produced, delivered, lost, disposed, left]);
        }
        Verdict::Broken(rule, period) => seen.code = broken(rule, period),
    }
}

/// What the papers say.
pub fn expected(input: &Input) -> Seen {
    expected_by(plain::plan, input)
}

/// The same by the last lots alone, where these give the plan: for days on which recursion (5) takes long.
pub fn expected_quickly(input: &Input) -> Seen {
    match input.call {
        Call::Uncapped => expected_by(|day| Some(lots::plan(day)), input),
        _ => expected(input),
    }
}

/// The same, with the plan of a path found this way.
fn expected_by(way: Way, input: &Input) -> Seen {
    let unwritten = match input.call {
        Call::Full | Call::Uncapped | Call::Free | Call::Bounds | Call::Weigh | Call::Lookup => wide::<u64>(&out(2)),
        Call::Equal | Call::Big => wide::<u64>(&out(4)),
        Call::Play => wide::<u64>(&out(5)),
        Call::Compare => wide::<i64>(&out(1)),
        Call::Read => wide::<u64>(&out(3)),
        Call::Write => wide::<u64>(&out(1)),
    };
    let mut seen = Seen { code: 0, out: unwritten, lent: before(input) };
    if let Some(refusal) = input.refusals().first() {
        seen.code = refusal.number + 256 * refusal.period as u64;
        return seen;
    }
    match input.call {
        Call::Full => accepted_path(Path::Full, way, input, &mut seen),
        Call::Uncapped => accepted_path(Path::Uncapped, way, input, &mut seen),
        Call::Equal => accepted_path(Path::Equal, way, input, &mut seen),
        Call::Free => accepted_free(input, &mut seen),
        Call::Bounds => accepted_bounds(input, &mut seen),
        Call::Big => accepted_big(input, &mut seen),
        Call::Weigh => match plain::verdict(&input.day, &input.plans[0]) {
            Verdict::Holds(totals) => fill(&mut seen.out, &[totals.cost, totals.setups]),
            Verdict::Broken(rule, period) => seen.code = broken(rule, period),
        },
        Call::Compare => accepted_comparison(input, &mut seen),
        Call::Play => accepted_play(input, &mut seen),
        Call::Read => {
            let day = plain::day_in(&input.file, &plain::walk(&input.file).unwrap());
            fill_tables(&mut seen.lent, &day);
            fill(&mut seen.out, &[day.periods() as u64, day.opening as u64, day.closing as u64]);
        }
        Call::Lookup => fill(&mut seen.out, &plain::walk(&input.file).unwrap().places[input.period - 1].map(|v| v as u64)),
        Call::Write => {
            let file = plain::file_of(input.stamp, &input.day);
            fill(&mut seen.lent[0], &file);
            fill(&mut seen.out, &[file.len() as u64]);
        }
    }
    seen
}

fn day(input: &Input) -> Day<'_> {
    let plain::Day { demand, capacity, setup, unit, holding, store, opening, closing } = &input.day;
    Day { demand, capacity, setup, unit, holding, store, opening: *opening, closing: *closing }
}

fn stamp(plain::Stamp { station, date }: plain::Stamp) -> Stamp {
    Stamp { station, date }
}

/// A path's call with its code, whose answer has N numbers.
type PathCall<const N: usize> = fn(Day, Memory, &mut [u64; N]) -> u64;

fn run_path<const N: usize>(call: PathCall<N>, input: &Input) -> Seen {
    let mut costs: Vec<u64> = pattern(0, input.lent[0]);
    let mut choices: Vec<u16> = pattern(1, input.lent[1]);
    let mut slots: Vec<u16> = pattern(2, input.lent[2]);
    let mut answer = out(N);
    let memory = Memory { costs: lent(&mut costs), choices: lent(&mut choices), slots: lent(&mut slots) };
    let code = call(day(input), memory, array(&mut answer));
    Seen { code, out: wide(&answer), lent: vec![wide(&costs), wide(&choices), wide(&slots)] }
}

/// A call that is lent 64-bit cells and then 16-bit ones, and answers with N numbers.
fn run_two<const N: usize>(input: &Input, call: impl FnOnce(&mut [u64], &mut [u16], &mut [u64; N]) -> u64) -> Seen {
    let mut wider: Vec<u64> = pattern(0, input.lent[0]);
    let mut narrower: Vec<u16> = pattern(1, input.lent[1]);
    let mut answer = out(N);
    let code = call(lent(&mut wider), lent(&mut narrower), array(&mut answer));
    Seen { code, out: wide(&answer), lent: vec![wide(&wider), wide(&narrower)] }
}

/// A call that fills six tables of such lengths: its code, and the tables after it.
pub fn run_tables(l: &[usize], call: impl FnOnce(TablesMut) -> u64) -> (u64, Vec<Vec<u64>>) {
    let mut demand: Vec<u16> = pattern(0, l[0]);
    let mut capacity: Vec<u16> = pattern(1, l[1]);
    let mut setup: Vec<u32> = pattern(2, l[2]);
    let mut unit: Vec<u32> = pattern(3, l[3]);
    let mut holding: Vec<u32> = pattern(4, l[4]);
    let mut store: Vec<u16> = pattern(5, l[5]);
    let code = call(TablesMut {
        demand: lent(&mut demand),
        capacity: lent(&mut capacity),
        setup: lent(&mut setup),
        unit: lent(&mut unit),
        holding: lent(&mut holding),
        store: lent(&mut store),
    });
    (code, vec![wide(&demand), wide(&capacity), wide(&setup), wide(&unit), wide(&holding), wide(&store)])
}

fn run_read(input: &Input) -> Seen {
    let mut day = out(3);
    let (code, lent) = run_tables(&input.lent, |tables| codes::read(&input.file, &input.expected, tables, array(&mut day)));
    Seen { code, out: wide(&day), lent }
}

/// What the library does. The tables, plans and file that it only reads are to be as they were.
pub fn actual(given: &Input) -> Seen {
    let input = &given.clone();
    let seen = match input.call {
        Call::Full => run_path(codes::full, input),
        Call::Uncapped => run_path(codes::uncapped, input),
        Call::Equal => run_path(codes::equal, input),
        Call::Free => run_two(input, |costs, slots, answer| codes::free(day(input), costs, slots, answer)),
        Call::Bounds => run_two(input, |costs, choices, answer| codes::bounds(&input.lowest, day(input), costs, choices, answer)),
        Call::Big => run_two(input, |costs, slots, answer| codes::big(day(input), input.trials, costs, slots, answer)),
        Call::Weigh => {
            let mut answer = out(2);
            let code = codes::weigh(day(input), &input.plans[0], array(&mut answer));
            Seen { code, out: wide(&answer), lent: vec![] }
        }
        Call::Compare => {
            let mut difference = out(1);
            let code = codes::compare(day(input), &input.plans[0], &input.plans[1], array(&mut difference));
            Seen { code, out: wide(&difference), lent: vec![] }
        }
        Call::Play => {
            let mut answer = out(5);
            let code = codes::play(day(input), &input.plans[0], &input.actual, array(&mut answer));
            Seen { code, out: wide(&answer), lent: vec![] }
        }
        Call::Read => run_read(input),
        Call::Lookup => {
            let mut part = out(2);
            let code = codes::lookup(&input.file, input.period, array(&mut part));
            Seen { code, out: wide(&part), lent: vec![] }
        }
        Call::Write => {
            let mut bytes: Vec<u8> = pattern(0, input.lent[0]);
            let mut count = out(1);
            let code = codes::write(day(input), stamp(input.stamp), lent(&mut bytes), array(&mut count));
            Seen { code, out: wide(&count), lent: vec![wide(&bytes)] }
        }
    };
    assert!(input == given, "an input that is only read was changed: {given:?}");
    seen
}

/// Whether the library's full path, lent enough, says the same of a day that another path plans: slots, cost and starts.
pub fn full_agrees(input: &Input, seen: &Seen) -> bool {
    if !input.call.is_short_path() || seen.code != 0 {
        return true;
    }
    let full = actual(&Input::exact(Call::Full, &input.day, [&[]; 2]));
    let n = input.day.periods();
    full.code == 0 && full.values() == &seen.values()[..2] && full.plan(n) == seen.plan(n)
}

/// Whether the equal path's slots, counted amount by amount, have in each run the loads that go by what it makes, and over the day those of
/// its answer.
pub fn loads_counted(input: &Input, seen: &Seen) -> bool {
    if input.call != Call::Equal || seen.code != 0 {
        return true;
    }
    let (capacity, plan) = (input.day.capacity[0], seen.plan(input.day.periods()));
    let by_run = plain::runs(&input.day, &plan).into_iter().all(|run| {
        let amounts = &plan[run];
        plain::counted(capacity, amounts) == plain::run_loads(capacity, amounts.iter().map(|&x| x as u64).sum())
    });
    let Loads { full, part } = plain::counted(capacity, &plan);
    by_run && seen.values()[2..] == [full, part]
}

/// What the call on big days promises of the plan in its slots: it holds, at the cost and with the starts of the answer; a trial less does
/// not give a cheaper one; and, where all plans can be tried, none is cheaper than its cost less the gap, which is the least with all starts
/// free.
pub fn big_promises_kept(input: &Input, seen: &Seen) -> bool {
    if input.call != Call::Big || seen.code != 0 {
        return true;
    }
    let &[cost, setups, trials, gap] = seen.values() else { panic!("four numbers") };
    let plan = seen.plan(input.day.periods());
    let holds = plain::verdict(&input.day, &plan) == Verdict::Holds(plain::Totals { cost, setups });
    let counted = 0 < trials && trials <= input.trials as u64 && gap <= cost;
    let less = Input { trials: trials.saturating_sub(1) as usize, ..input.clone() };
    let no_dearer = less.trials == 0 || actual(&less).values()[0] >= cost;
    let least = |day: &plain::Day| plain::search(day).map(|planned| planned.totals.cost);
    let bounded = || least(&input.day) >= Some(cost - gap) && least(&input.day.starts_free()) == Some(cost - gap);
    holds && counted && no_dearer && (!plain::can_be_searched(&input.day) || bounded())
}

/// The play that the call's answer has.
pub fn play(seen: &Seen) -> plain::Play {
    let &[produced, delivered, lost, disposed, left] = seen.values() else { panic!("five numbers") };
    plain::Play { produced, delivered, lost, disposed, left }
}

/// What a play promises: nothing is lost from sight, neither charge nor need; and against the needs that the plan was made for all is
/// delivered, nothing is spilled, and the closing charge is left.
pub fn play_promises_kept(input: &Input, seen: &Seen) -> bool {
    if input.call != Call::Play || seen.code != 0 {
        return true;
    }
    let plain::Play { produced, delivered, lost, disposed, left } = play(seen);
    let sum = |parts: &[u64]| parts.iter().map(|&part| part as u128).sum::<u128>();
    let needed = input.actual.iter().map(|&need| need as u128).sum();
    let balanced = sum(&[input.day.opening as u64, produced]) == sum(&[delivered, disposed, left]) && sum(&[delivered, lost]) == needed;
    let as_planned = || [lost, disposed, left] == [0, 0, input.day.closing as u64] && Some(produced) == input.day.whole();
    balanced && (input.actual != input.day.demand || as_planned())
}

/// What the crate says of an input by a path with two work areas.
fn path_result<T>(path: fn(Day, Memory) -> Result<T, Refusal>, input: &Input) -> Result<T, Refusal> {
    let (mut costs, mut choices, mut slots) = (vec![7; input.lent[0]], vec![7; input.lent[1]], vec![7; input.lent[2]]);
    path(day(input), Memory { costs: &mut costs, choices: &mut choices, slots: &mut slots })
}

/// The same input through the crate's results, which are to say what code and out-array say.
pub fn results_agree(input: &Input, seen: &Seen) -> bool {
    let refusal = Refusal { number: seen.code % 256, period: seen.code / 256 };
    let accepted = seen.code == 0;
    let values = seen.values();
    let planned = || if accepted { Ok(Totals { cost: values[0], setups: values[1] }) } else { Err(refusal) };
    match input.call {
        Call::Full => path_result(yakkurem::full, input) == planned(),
        Call::Uncapped => path_result(yakkurem::uncapped, input) == planned(),
        Call::Equal => {
            let loads = || yakkurem::Loads { full: values[2], part: values[3] };
            path_result(yakkurem::equal, input) == planned().map(|totals| EqualTotals { totals, loads: loads() })
        }
        Call::Free => {
            let (mut costs, mut slots) = (vec![7; input.lent[0]], vec![7; input.lent[1]]);
            yakkurem::free(day(input), &mut costs, &mut slots) == planned()
        }
        Call::Bounds => {
            let (mut costs, mut choices) = (vec![7; input.lent[0]], vec![7; input.lent[1]]);
            let bounds = || if accepted { Ok(Bounds { lowest: values[0], highest: values[1] }) } else { Err(refusal) };
            yakkurem::bounds(&input.lowest, day(input), &mut costs, &mut choices) == bounds()
        }
        Call::Big => {
            let (mut costs, mut slots) = (vec![7; input.lent[0]], vec![7; input.lent[1]]);
            let big = planned().map(|totals| BigTotals { totals, trials: values[2], gap: values[3] });
            yakkurem::big(day(input), input.trials, &mut costs, &mut slots) == big
        }
        Call::Weigh => match yakkurem::weigh(day(input), &input.plans[0]) {
            Ok(totals) => accepted && values == [totals.cost, totals.setups],
            Err(why) => why == said(seen.code),
        },
        Call::Compare => match yakkurem::compare(day(input), &input.plans[0], &input.plans[1]) {
            Ok(difference) => accepted && values == [difference as u64],
            Err(why) => why == said(seen.code),
        },
        Call::Play => match yakkurem::play(day(input), &input.plans[0], &input.actual) {
            Ok(Play { produced, delivered, lost, disposed, left }) => accepted && values == [produced, delivered, lost, disposed, left],
            Err(why) => why == said(seen.code),
        },
        Call::Read => {
            let l = &input.lent;
            let [mut demand, mut capacity, mut store] = [0, 1, 5].map(|i| vec![0; l[i]]);
            let [mut setup, mut unit, mut holding] = [2, 3, 4].map(|i| vec![0; l[i]]);
            let filled = TablesMut {
                demand: &mut demand,
                capacity: &mut capacity,
                setup: &mut setup,
                unit: &mut unit,
                holding: &mut holding,
                store: &mut store,
            };
            let day = Filled { periods: values[0], opening: values[1] as u16, closing: values[2] as u16 };
            // any but two numbers are no stamp
            let expected = match input.expected[..] {
                [station, date] => Some(Stamp { station, date }),
                _ => None,
            };
            yakkurem::read(&input.file, expected, filled) == if accepted { Ok(day) } else { Err(refusal) }
        }
        Call::Lookup => match yakkurem::lookup(&input.file, input.period) {
            Ok(body) => accepted && std::ptr::eq(body, plain::body(&input.file, &plain::walk(&input.file).unwrap(), input.period)),
            Err(why) => why == refusal,
        },
        Call::Write => {
            let mut out = vec![0; input.lent[0]];
            yakkurem::write(day(input), stamp(input.stamp), &mut out) == if accepted { Ok(values[0]) } else { Err(refusal) }
        }
    }
}

/// A code by the header's words, beside the crate's own reading of it.
fn said(code: u64) -> Fault {
    let (number, period) = (code % 256, code / 256);
    let expected = match number {
        101 => Fault::Broken(yakkurem::Rule::AboveCapacity, period),
        102 => Fault::Broken(yakkurem::Rule::Short, period),
        103 => Fault::Broken(yakkurem::Rule::Over, period),
        104 => Fault::Broken(yakkurem::Rule::AboveStore, period),
        _ => Fault::Refused(Refusal { number, period }),
    };
    assert_eq!(fault(code), expected);
    expected
}
