//! The library's calls, compared with a plain implementation on seeded inputs.
//!
//!     outside [SEED]
//!
//! A failure prints the smallest failing input that is found, with what was expected and what was seen.
mod compare;
mod itself;
mod published;
mod shrink;
mod test_load;

use input::{Call, Input, Size, With, CALLS, EARLIER};
use outside::{big, ends, free, holding, input, loads, lots, plain, play, price, random, ranges, stamp, store, unbound};
use random::Random;
use std::iter::once;
use std::process::exit;
use std::time::Instant;
use test_load::TestLoad;

const SEED: u64 = 1979;

/// The last number of a refusal.
const LAST: usize = 20;

/// The inputs of one run, counted by their outcome.
struct Run {
    random: Random,
    /// what the days that are made up may have
    with: With,
    inputs: usize,
    accepted: usize,
    /// of these, plans of a path for some days only
    short_paths: usize,
    refused: [usize; LAST + 1],
    /// by the rule: above capacity, short, over, above store
    broken: [usize; 4],
    /// of the equal path's plans
    plan_runs: loads::Runs,
    /// tiny days with needs known as ranges, accepted, and all tables of needs between these
    bounded: usize,
    between: usize,
    /// of the call on big days
    big_plans: big::Plans,
    plays: play::Plays,
}

impl Run {
    /// An input from before files had a stamp: one with a file to read or to write is seen as it is, and with a stamp in front, by which it
    /// has the answer that it had.
    fn try_unstamped(&mut self, input: &Input) {
        if !input.call.has_file() {
            return self.try_input(input);
        }
        let stamp = stamp::numbered(self.inputs);
        self.try_input(&input.for_stamp(stamp));
        self.try_input(&input.stamped(stamp));
    }

    /// A made-up one, which may have a stamp.
    fn try_made_up(&mut self, input: &Input) {
        if self.with.stamps {
            self.try_input(input);
        } else {
            self.try_unstamped(input);
        }
    }

    fn try_input(&mut self, input: &Input) {
        self.try_expected(input, compare::expected(input));
    }

    fn try_expected(&mut self, input: &Input, expected: compare::Seen) {
        // every seventh by the crate's results too, an odd number as inputs without a stamp and with one take turns
        if differs(input, &expected) || self.inputs % 7 == 0 && !compare::results_agree(input, &expected) {
            report(input);
        }
        self.inputs += 1;
        match expected.code % 256 {
            0 => {
                self.accepted += 1;
                self.short_paths += usize::from(input.call.is_short_path());
                if input.call == Call::Equal {
                    self.plan_runs.add(&input.day, &expected.plan(input.day.periods()));
                }
                if input.call == Call::Big {
                    self.big_plans.add(input, expected.values()[0], expected.values()[2]);
                }
                if input.call == Call::Play {
                    self.plays.add(input, &compare::play(&expected));
                }
            }
            number if number <= LAST as u64 => self.refused[number as usize] += 1,
            number => self.broken[number as usize - 101] += 1,
        }
    }

    fn try_test_load(&mut self, load: &TestLoad) {
        if load.fails() {
            report_test_load(load);
        }
        self.inputs += 1;
        match load.expected().code {
            0 => self.accepted += 1,
            number => self.refused[number as usize] += 1,
        }
    }

    fn try_inputs(&mut self, inputs: &[Input]) {
        for input in inputs {
            self.try_unstamped(input);
        }
    }

    /// Its refusals where the file has a stamp that is as expected, which are those of before there were any.
    fn refusals(&self, input: &Input) -> Vec<plain::Refusal> {
        if input.call.has_file() && !self.with.stamps {
            input.stamped(stamp::EXAMPLE).refusals()
        } else {
            input.refusals()
        }
    }

    /// Each refusal alone and with each that comes after it: the first in order is given.
    fn pairs(&mut self, call: Call, times: usize) {
        let order = call.refusals(self.with);
        for (place, &first) in order.iter().enumerate() {
            for &second in &order[place..] {
                for _ in 0..times {
                    let input = self.refused_input(call, first, second);
                    self.try_made_up(&input);
                }
            }
        }
    }

    /// An input that is refused `first` and for which the condition of `second` holds too, as far as the file can be walked, and unless
    /// there is too much charge to make any (14): then no capacity is too low (9).
    fn refused_input(&mut self, call: Call, first: u64, second: u64) -> Input {
        for _ in 0..10_000 {
            let size = self.random.pick(&[Size::Tiny, Size::Tiny, Size::Middle]);
            let input = input::damaged(&mut self.random, call, size, self.with, &[first, second]);
            let refusals = self.refusals(&input);
            let alone = matches!((first, second), (10..=12, _) | (14, 9));
            if refusals.first().is_some_and(|r| r.number == first) && (alone || refusals.iter().any(|r| r.number == second)) {
                return input;
            }
        }
        panic!("{call:?}: no input found for refusals {first} and {second}");
    }

    /// Upkeep around its limit in one period of an input that is otherwise valid, and of inputs for each other refusal of the call.
    fn holding(&mut self, call: Call, times: usize) {
        let order = call.refusals(self.with);
        for value in holding::VALUES {
            for other in once(3).chain(order.iter().copied().filter(|&number| number != 3)) {
                for _ in 0..times {
                    let input = self.holding_input(call, value, other);
                    self.try_made_up(&input);
                }
            }
        }
    }

    /// An input with this upkeep in one period, for which the condition of `other` holds; for 3 nothing else is damaged. The condition of 3
    /// holds there exactly if the value is above the limit and the call comes to test values.
    fn holding_input(&mut self, call: Call, value: u32, other: u64) -> Input {
        for _ in 0..10_000 {
            let mut day = input::day(&mut self.random, call, Size::Tiny, self.with);
            let i = self.random.index(day.periods());
            day.holding[i] = value;
            let input = match other {
                3 => input::complete(&mut self.random, call, day, self.with),
                _ => input::damage(&mut self.random, call, day, self.with, &[other]),
            };
            let refusals = self.refusals(&input);
            let tested = call != Call::Lookup && !matches!(other, 10..=12);
            let above = value as u64 > plain::MAX_HOLDING;
            let by_value = refusals.contains(&plain::Refusal { number: 3, period: i + 1 });
            if by_value == (tested && above) && (other == 3 || refusals.iter().any(|r| r.number == other)) {
                return input;
            }
        }
        panic!("{call:?}: no input found for upkeep {value} and refusal {other}");
    }

    fn valid(&mut self, call: Call, size: Size, times: usize) {
        for _ in 0..times {
            let input = input::valid(&mut self.random, call, size, self.with);
            self.try_made_up(&input);
        }
    }

    fn changed(&mut self, call: Call, size: Size, times: usize) {
        for _ in 0..times {
            let input = input::changed(&mut self.random, call, size, self.with);
            self.try_made_up(&input);
        }
    }

    fn damaged(&mut self, call: Call, times: usize) {
        for _ in 0..times {
            let numbers: Vec<u64> = (0..3).map(|_| self.random.pick(&call.refusals(self.with))).collect();
            let input = input::damaged(&mut self.random, call, Size::Tiny, self.with, &numbers);
            self.try_made_up(&input);
        }
    }

    /// Days without starting cost on which many periods compare alike.
    fn level(&mut self, size: Size, times: usize) {
        for _ in 0..times {
            let input = free::level(&mut self.random, size, self.with);
            self.try_input(&input);
        }
    }

    /// Days that differ in store limits alone.
    fn stores(&mut self, size: Size, times: usize) {
        for _ in 0..times {
            let inputs = store::beside(&mut self.random, size);
            self.try_inputs(&inputs);
        }
    }

    /// Days with one capacity that come to whole loads, or nearly.
    fn loads(&mut self, size: Size, times: usize) {
        for _ in 0..times {
            let input = loads::made_up(&mut self.random, size);
            self.try_input(&input);
        }
    }

    /// Needs known as ranges, on a tiny day: every table between the two has a plan by the full path, at a cost between those given.
    fn range(&mut self) {
        let input = ranges::few(&mut self.random);
        self.try_input(&input);
        let seen = compare::actual(&input);
        if seen.code != 0 {
            return;
        }
        self.bounded += 1;
        for needs in plain::tables_between(&input.lowest, &input.day.demand) {
            let full = Input::exact(Call::Full, &input.day.with_needs(&needs), [&[]; 2]);
            self.try_input(&full);
            let cost = compare::actual(&full).values()[0];
            if !(seen.values()[0]..=seen.values()[1]).contains(&cost) {
                println!("failed: needs {needs:?} between\n  {}\nleast cost {cost}, seen {:?}", shrink::show(&input), seen.values());
                exit(1);
            }
            self.between += 1;
        }
    }

    /// The calls on such made-up days, after the plain implementation against itself; `part` of the full count of each.
    fn made_up(&mut self, calls: &[Call], with: With, part: usize) {
        self.with = with;
        itself::check(&mut self.random, calls, with, 4000 / part);
        for &call in calls {
            self.pairs(call, 24 / part + 1);
            self.valid(call, Size::Tiny, 3000 / part);
            self.valid(call, Size::Middle, 400 / part);
            self.valid(call, Size::Long, 40 / part);
            // recursion (5) by its letter takes long there
            let by_letter = matches!(call, Call::Full | Call::Uncapped | Call::Equal | Call::Bounds);
            self.valid(call, Size::Limits, if by_letter { 4 } else { 100 } / part);
            self.changed(call, Size::Tiny, 800 / part);
            self.changed(call, Size::Long, 12 / part);
            self.damaged(call, 400 / part);
        }
    }

    /// Request 2.9; gives how many pairs of an easier and a harder day were planned.
    fn ranges(&mut self) -> usize {
        for (with, part) in [(With::NOTHING, 2), (With::ENDS, 2), (With::STORES, 2), (With::BOTH, 1)] {
            self.made_up(&[Call::Bounds], with, part);
        }
        self.holding(Call::Bounds, 3);
        let drawn = test_load::inputs(&mut self.random);
        for inputs in [holding::dearest(), itself::inputs(), ends::limits(&[Call::Full]), store::inputs(), drawn] {
            self.try_inputs(&ranges::of_full(&inputs));
        }
        self.try_inputs(&ranges::inputs());
        for _ in 0..10_000 {
            self.range();
        }
        let pairs = ranges::pairs(&mut self.random, 20_000);
        self.try_inputs(&pairs);
        pairs.len() / 2
    }

    /// Request 2.10; gives how many inputs there were.
    fn big(&mut self) -> usize {
        let before = self.inputs;
        for (with, part) in [(With::NOTHING, 2), (With::ENDS, 2), (With::STORES, 2), (With::BOTH, 1)] {
            self.made_up(&[Call::Big], with, part);
        }
        self.holding(Call::Big, 3);
        for _ in 0..10_000 {
            let input = big::with_ties(&mut self.random);
            self.try_input(&input);
        }
        for _ in 0..2000 {
            let inputs = big::every_count(&mut self.random);
            self.try_inputs(&inputs);
        }
        for _ in 0..200 {
            let input = big::large(&mut self.random);
            self.try_input(&input);
        }
        let drawn = test_load::inputs(&mut self.random);
        for inputs in [holding::dearest(), itself::inputs(), ends::limits(&[Call::Full]), drawn] {
            self.try_inputs(&big::of_full(&inputs));
        }
        self.try_inputs(&big::inputs());
        self.inputs - before
    }

    /// Request 2.11; gives how many inputs there were.
    fn play(&mut self) -> usize {
        let before = self.inputs;
        itself::check_plays();
        for (with, part) in [(With::NOTHING, 2), (With::ENDS, 2), (With::STORES, 2), (With::BOTH, 1)] {
            self.made_up(&[Call::Play], with, part);
        }
        self.holding(Call::Play, 3);
        for (size, times) in [(Size::Tiny, 10_000), (Size::Middle, 2000), (Size::Long, 200), (Size::Limits, 100)] {
            for _ in 0..times {
                let input = play::that_holds(&mut self.random, size);
                self.try_input(&input);
            }
        }
        let drawn = test_load::inputs(&mut self.random);
        for inputs in [holding::dearest(), itself::inputs(), ends::limits(&[Call::Weigh]), store::inputs(), drawn] {
            self.try_inputs(&play::of_weighed(&inputs));
        }
        self.try_inputs(&itself::plays());
        self.try_inputs(&play::inputs());
        self.inputs - before
    }

    /// Request 2.12; gives how many inputs there were.
    fn stamps(&mut self) -> usize {
        let before = self.inputs;
        itself::check_stamps();
        for (with, part) in [(With::NOTHING, 2), (With::ENDS, 2), (With::STORES, 2), (With::BOTH, 1)] {
            self.made_up(&[Call::Read, Call::Lookup, Call::Write], with.stamps(), part);
        }
        self.holding(Call::Read, 3);
        for (size, times) in [(Size::Tiny, 2000), (Size::Middle, 500), (Size::Long, 100), (Size::Limits, 50)] {
            for _ in 0..times {
                self.round_trip(size);
            }
        }
        for input in stamp::inputs() {
            self.try_input(&input);
        }
        self.inputs - before
    }

    /// A day that is written and read again, by its own stamp and by another one, and looked up period by period.
    fn round_trip(&mut self, size: Size) {
        let with = self.random.pick(&[With::NOTHING, With::ENDS, With::STORES, With::BOTH]).stamps();
        let [write, other] = [(); 2].map(|_| input::valid(&mut self.random, Call::Write, size, with));
        self.try_input(&write);
        let written = compare::actual(&write);
        let n = write.day.periods();
        let bytes = written.lent[0][compare::AROUND..][..written.values()[0] as usize].iter().map(|&byte| byte as u8).collect();
        let read = Input::on_file(Call::Read, bytes, 0, vec![n; 6]).for_stamp(write.stamp);
        let mut tables = compare::tables_before(&read.lent);
        compare::fill_tables(&mut tables, &write.day);
        let seen = compare::actual(&read);
        let ends = [write.day.opening as u64, write.day.closing as u64];
        if seen.code != 0 || seen.lent != tables || seen.values()[1..] != ends {
            println!("failed: what is written is not read again\n  {}", shrink::show(&write));
            exit(1);
        }
        self.try_input(&read);
        self.try_input(&read.for_stamp(other.stamp));
        for period in 1..=n {
            self.try_input(&Input::on_file(Call::Lookup, read.file.clone(), period, vec![]));
        }
    }

    /// Request 2.13; gives how many inputs there were, what a search for their plans meets, and how many wrong searches they tell.
    fn searches(&mut self) -> (usize, itself::Met, usize) {
        let before = self.inputs;
        itself::check_lots(&mut self.random);
        let mut inputs = itself::with_events(&mut self.random);
        for (size, times) in [(Size::Tiny, 4000), (Size::Middle, 1000), (Size::Long, 400)] {
            inputs.extend(unbound::made_up(&mut self.random, size, times));
        }
        inputs.extend([unbound::tie_rows(), test_load::unbound(&mut self.random), unbound::limits()].concat());
        let (met, slips) = itself::check_searches(&inputs);
        for input in &inputs {
            if self.inputs % one_in(&input.day) == 0 {
                self.try_input(input);
            } else {
                self.try_expected(input, compare::expected_quickly(input));
            }
        }
        (self.inputs - before, met, slips)
    }

    fn print_counts(&self) {
        let refused = (1..=LAST).map(|number| format!("{number}: {}", self.refused[number])).collect::<Vec<_>>().join(", ");
        println!("accepted {}, refused {refused}", self.accepted);
        let [above, short, over, full] = self.broken;
        println!("broken plans: {above} above capacity, {short} short, {over} over at the end, {full} above store");
        println!("uncapped, equal and free path: {} plans, each the full path's on the same day", self.short_paths);
        let loads::Runs { plans, opening, closing, whole, both, part, idle } = self.plan_runs;
        println!("equal path: {plans} plans, {opening} with an opening charge, {closing} with a closing charge");
        println!("their runs: {whole} of full loads, {both} with a part load too, {part} with a part load alone, {idle} that make nothing");
    }
}

/// On one in how many days like this recursion (5) is gone through by its letter: it takes long where much is made, and too long where 2,500 units
/// or more are made in 96 periods.
fn one_in(day: &plain::Day) -> usize {
    let whole = day.least_by(day.periods());
    match day.periods() as u64 * whole * whole {
        0..30_000_000 => 1,
        30_000_000..600_000_000 => 25,
        _ => usize::MAX,
    }
}

fn differs(input: &Input, expected: &compare::Seen) -> bool {
    let seen = compare::actual(input);
    let kept =
        compare::loads_counted(input, &seen) && compare::big_promises_kept(input, &seen) && compare::play_promises_kept(input, &seen);
    seen != *expected || !compare::full_agrees(input, expected) || !kept
}

fn fails(input: &Input) -> bool {
    let expected = compare::expected_quickly(input);
    differs(input, &expected) || !compare::results_agree(input, &expected)
}

/// The first cell that differs, counted from 0; those before and after the part lie below 0 and past its end.
fn show_cell(part: &str, expected: &[u64], seen: &[u64]) {
    if let Some(i) = (0..expected.len()).find(|&i| expected[i] != seen[i]) {
        println!("{part}, cell {}: expected {}, seen {}", i as i64 - compare::AROUND as i64, expected[i], seen[i]);
    }
}

/// What was to be seen, and what was; the first cell of each part that differs.
fn show_seen(expected: &compare::Seen, seen: &compare::Seen) {
    for (which, said) in [("expected", expected), ("seen    ", seen)] {
        println!("{which} code {} (number {}, period {}), out {:?}", said.code, said.code % 256, said.code / 256, said.values());
    }
    show_cell("out-array", &expected.out, &seen.out);
    for (part, (e, s)) in expected.lent.iter().zip(&seen.lent).enumerate() {
        show_cell(&format!("lent part {part}"), e, s);
    }
}

fn report_test_load(load: &TestLoad) -> ! {
    let smallest = load.smallest();
    println!("failed: {smallest:?}");
    show_seen(&smallest.expected(), &smallest.actual());
    exit(1);
}

fn report(input: &Input) -> ! {
    let smallest = shrink::shrink(input, fails);
    let (expected, seen) = (compare::expected_quickly(&smallest), compare::actual(&smallest));
    println!("failed: {}", shrink::show(&smallest));
    show_seen(&expected, &seen);
    if !compare::full_agrees(&smallest, &expected) {
        println!("the full path says otherwise on this day than what is expected");
    }
    if expected.code == 0 && !compare::loads_counted(&smallest, &seen) {
        println!("the slots, counted, have other loads than the answer says, or than some run may have");
    }
    if !compare::big_promises_kept(&smallest, &seen) {
        println!("the plan breaks a rule or costs otherwise than the answer says, a trial less gives a cheaper one, or some plan is below the bound");
    }
    if !compare::play_promises_kept(&smallest, &seen) {
        println!("charge or need is lost from sight, or the plan does otherwise than planned against the needs that it was made for");
    }
    exit(1);
}

/// The depot's prices, from the smallest cost on; gives how many were compared.
fn prices(random: &mut Random) -> usize {
    price::check();
    let costs = price::costs(random);
    for &cost in &costs {
        let (expected, seen) = (price::price(cost), yakkurem::price(cost));
        if seen != expected {
            println!("failed: price of {cost}\nexpected {expected}\nseen     {seen}");
            exit(1);
        }
    }
    costs.len()
}

/// A file of more records than the end's two bytes can count, alone and after another kind: the count is not taken modulo 65,536.
fn long_files(call: Call) -> Vec<Input> {
    let mut inputs = vec![];
    for (kind, length) in [(plain::PERIOD, plain::PERIOD_BODY), (plain::STORED, plain::STORED_BODY)] {
        for mut file in [vec![], plain::charge_record(1, 2)] {
            for _ in 0..65_537 {
                file.push(kind);
                file.extend(vec![0; length]);
            }
            file.extend([plain::END, 0, 1]);
            let lent = if call == Call::Read { vec![1; 6] } else { vec![] };
            inputs.push(Input::on_file(call, file, 1, lent));
        }
    }
    inputs
}

fn main() {
    let seed = match std::env::args().nth(1) {
        None => SEED,
        Some(word) => word.parse().expect("the seed is a number"),
    };
    let start = Instant::now();
    let mut run = Run {
        random: Random::new(seed),
        with: With::NOTHING,
        inputs: 0,
        accepted: 0,
        short_paths: 0,
        refused: [0; LAST + 1],
        broken: [0; 4],
        plan_runs: loads::Runs::default(),
        bounded: 0,
        between: 0,
        big_plans: big::Plans::default(),
        plays: play::Plays::default(),
    };
    run.made_up(EARLIER, With::NOTHING, 1);
    for call in [Call::Read, Call::Lookup] {
        run.try_inputs(&long_files(call));
    }
    let published = published::inputs();
    run.try_inputs(&published);
    run.made_up(EARLIER, With::ENDS, 2);
    for &call in EARLIER {
        run.holding(call, 3);
    }
    for (with, part) in [(With::NOTHING, 1), (With::ENDS, 2)] {
        run.made_up(&[Call::Free], with, part);
        run.level(Size::Tiny, 1000);
        run.level(Size::Middle, 200);
        run.level(Size::Long, 40);
    }
    run.holding(Call::Free, 3);
    for (with, part) in [(With::STORES, 4), (With::BOTH, 2)] {
        run.made_up(&CALLS, with, part);
        run.level(Size::Tiny, 500);
    }
    run.stores(Size::Tiny, 1000);
    run.stores(Size::Middle, 100);
    run.stores(Size::Long, 10);
    run.try_inputs(&free::inputs());
    run.try_inputs(&holding::dearest());
    run.try_inputs(&itself::inputs());
    run.try_inputs(&ends::limits(&CALLS));
    for file in ends::files() {
        run.try_inputs(&ends::on_file(&file));
    }
    run.try_inputs(&store::inputs());
    for file in store::files() {
        run.try_inputs(&ends::on_file(&file));
    }
    run.loads(Size::Tiny, 3000);
    run.loads(Size::Middle, 600);
    run.loads(Size::Long, 120);
    run.try_inputs(&loads::inputs());
    test_load::check_draws();
    let test_loads = test_load::loads(&mut run.random);
    for load in &test_loads {
        run.try_test_load(load);
    }
    let on_test_loads = test_load::inputs(&mut run.random);
    run.try_inputs(&on_test_loads);
    let priced = prices(&mut run.random);
    let pairs = run.ranges();
    let big_inputs = run.big();
    let played = run.play();
    let stamped = run.stamps();
    let (unbound_inputs, met, slips) = run.searches();
    // the calls of `CALLS`, the test load, needs known as ranges, big days and plays; prices are counted apart
    println!("outside: seed {seed}, {} inputs of {} calls as the plain implementation has them", run.inputs, CALLS.len() + 4);
    run.print_counts();
    println!("test loads: {} inputs, and {} of the other calls on days so drawn", test_loads.len(), on_test_loads.len());
    println!(
        "needs known as ranges: {} tiny days with {} tables between, each with its least cost between the two; {pairs} pairs with an easier day",
        run.bounded, run.between
    );
    let big::Plans { plans, above, cheaper, used_up, searched, trials } = run.big_plans;
    println!(
        "big days: {big_inputs} inputs; {plans} plans in {trials} trials, {above} of more than {} watt-hours, {cheaper} cheaper than the first \
         trial's, {used_up} with all allowed trials used; each no dearer than with a trial less, and {searched} beside all plans, none below the bound",
        plain::MAX_TOTAL
    );
    let play::Plays { plays, as_planned, lost, disposed, both } = run.plays;
    println!(
        "plays: {played} inputs; {plays} plans played, {as_planned} against the needs that they were made for; {lost} missed something, \
         {disposed} spilled something, {both} both; each with charge and need in balance"
    );
    println!("stamps: {stamped} inputs, and each file of before with one and without");
    println!(
        "uncapped path: {unbound_inputs} inputs more, {} with ties; the search, written once more, meets {} candidates in {} rows, drops {}, carries \
         on {} that equal the best, leaves {} rows early; {slips} wrong searches told apart",
        met.tied,
        met.candidates,
        met.rows,
        met.dropped(),
        met.carried_on(),
        met.left()
    );
    println!("published instances: {} inputs, each with the published cost, doubled", published.len());
    println!("prices: {priced} costs, each as the plain implementation has it");
    eprintln!("{} seconds", start.elapsed().as_secs());
}
