//! Request 2.13 of the plain implementation: the last lots against all plans tried; and the inputs of the request, which have to tell every slip that
//! a search may make which drops candidates. That search is written here once more, on net needs: without a slip it finds the plan of the last
//! lots, and with a slip it is wrong. What it meets on the way is counted, so that no kind of drop or tie is missing.
use super::{net, standing};
use crate::input::{Input, Size};
use crate::lots;
use crate::plain::{self, Day, Planned, Totals, Verdict};
use crate::random::Random;
use crate::unbound;
use std::collections::BTreeMap;

/// How a search may be wrong: in what it drops and keeps; in where it leaves a row; in its sums of upkeep; in what else a candidate costs; in its
/// rows; and in its answer.
const SLIPS: &[&str] = &[
    "dropped at equal cost",
    "dropped at equal cost by its making",
    "dropped at equal cost before its last upkeep",
    "dropped at equal cost by its last upkeep",
    "dropped only where above by more than one",
    "not tested after its last upkeep",
    "the later of equals kept",
    "the first candidate's cost kept",
    "the row left where one is dropped",
    "the row left at an equal bound",
    "the bound by the next run's unit cost",
    "the bound by the last period's unit cost",
    "the bound by the cost of the next row",
    "the bound with the need before it",
    "the bound with its upkeep twice",
    "the bound with upkeep of a period more",
    "the bound by what is carried a period later",
    "the bound by what is carried a period earlier",
    "carried from the period before alone",
    "carried from the first period alone",
    "carried from the dearest period",
    "carried at the next period's upkeep",
    "what is left begun anew",
    "the upkeep of a dropped one lost",
    "the upkeep of a dropped one counted again",
    "the upkeep that a dropped one leaves out skipped",
    "the need of a dropped one forgotten",
    "the need where one is dropped not held",
    "its own need held in its own period",
    "the last need held in its own period",
    "the upkeep of its first period left out",
    "the upkeep of its first period twice",
    "the next period's upkeep",
    "the cost of the next row",
    "its own need not made",
    "the last period's start",
    "the last period's unit cost",
    "no start",
    "no run begins where nothing is needed",
    "a need of 0 searched",
    "a need of 1 copied",
    "row costs in 32 bits",
    "upkeep in 32 bits",
    "making in 32 bits",
    "read back from the row before",
    "read back period by period",
    "starts counted by runs",
    "the last row's cost",
];

/// What may happen to a row and to its candidates.
const LEFT: [&str; 2] = ["a row left at once", "a row left later"];
const DROPPED: [&str; 3] = ["dropped by its making", "dropped before its last upkeep", "dropped by its last upkeep"];
const CARRIED_ON: [&str; 3] =
    ["equal by its making, and carried on", "equal before its last upkeep, and carried on", "equal by its last upkeep, and taken"];
const EQUAL_AND_DROPPED: [&str; 2] = ["equal by its making, and dropped later", "equal before its last upkeep, and dropped later"];
const AFTER_DROPPED: [&str; 2] = ["cheaper, after a dropped one", "equal, after a dropped one"];
const AT_BOUND: &str = "equal, and begun before a bound that was equal too";

fn events() -> Vec<&'static str> {
    [&LEFT[..], &DROPPED, &CARRIED_ON, &EQUAL_AND_DROPPED, &AFTER_DROPPED, &[AT_BOUND]].concat()
}

/// What was met in searches: rows that were not copied, candidates after each row's first, and how often each of the events.
#[derive(Default)]
pub struct Met {
    /// days on which a candidate equals the best and takes its place
    pub tied: usize,
    pub rows: usize,
    pub candidates: usize,
    events: BTreeMap<&'static str, usize>,
}

impl Met {
    fn event(&mut self, event: &'static str) {
        *self.events.entry(event).or_default() += 1;
    }

    fn count(&self, events: &[&str]) -> usize {
        events.iter().filter_map(|event| self.events.get(event)).sum()
    }

    pub fn left(&self) -> usize {
        self.count(&LEFT)
    }

    pub fn dropped(&self) -> usize {
        self.count(&DROPPED)
    }

    pub fn carried_on(&self) -> usize {
        self.count(&CARRIED_ON)
    }

    /// Takes in what was met on one day more.
    fn add(&mut self, day: &Met) {
        self.tied += usize::from(day.carried_on() > 0);
        self.rows += day.rows;
        self.candidates += day.candidates;
        for (event, count) in &day.events {
            *self.events.entry(event).or_default() += count;
        }
    }
}

/// A day as a search takes it: net needs, costs, what a unit left after a period costs, and what one costs at least that is made before a period
/// and held until it.
struct Tables {
    needs: Vec<u64>,
    setup: Vec<u64>,
    unit: Vec<u64>,
    rates: Vec<u64>,
    carried: Vec<u64>,
}

impl Tables {
    fn of(slip: &str, day: &Day) -> Tables {
        let wide = |table: &[u32]| table.iter().map(|&v| v as u64).collect::<Vec<_>>();
        let needs = net(day).demand.iter().map(|&need| need as u64).collect();
        let (setup, unit, holding) = (wide(&day.setup), wide(&day.unit), wide(&day.holding));
        let rates: Vec<u64> = (0..day.periods()).map(|i| holding[i] + holding.get(i + 1).unwrap_or(&0)).collect();
        let carried = carried(slip, &unit, &rates);
        Tables { needs, setup, unit, rates, carried }
    }
}

/// What a unit costs at least by the beginning of each period; in the first none is there.
fn carried(slip: &str, unit: &[u64], rates: &[u64]) -> Vec<u64> {
    let mut carried = vec![plain::MAX_UNIT];
    for l in 0..unit.len() - 1 {
        let before = carried[l];
        let least = match slip {
            _ if l == 0 => unit[l],
            "carried from the period before alone" => unit[l],
            "carried from the first period alone" => before,
            "carried from the dearest period" => before.max(unit[l]),
            _ => before.min(unit[l]),
        };
        carried.push(least + rates[if slip == "carried at the next period's upkeep" { l + 1 } else { l }]);
    }
    carried
}

/// A row's cost, and how many periods come before its last run.
struct LastRun {
    cost: u64,
    begin: usize,
}

/// Where the search of a row is: its candidate, what that makes, down to which period upkeep is summed, what is held through the one before it,
/// and the sum.
#[derive(Clone, Copy)]
struct Sums {
    l: usize,
    made: u64,
    i: usize,
    left: u64,
    held: u64,
}

/// How far a candidate is summed: its making, with the upkeep that was summed before it; with more; with all of its upkeep.
#[derive(Clone, Copy, PartialEq)]
enum Summed {
    Making,
    Part,
    Whole,
}

/// The rows of a day, searched with a slip or without one.
struct Search<'a> {
    slip: &'a str,
    day: Tables,
    /// of the rows so far, from that of no periods on
    costs: Vec<u64>,
    begins: Vec<usize>,
    met: Met,
}

impl Search<'_> {
    fn of<'a>(slip: &'a str, day: &Day) -> Search<'a> {
        let day = Tables::of(slip, day);
        let n = day.needs.len();
        let mut search = Search { slip, day, costs: vec![0], begins: vec![0], met: Met::default() };
        for m in 0..n {
            let LastRun { cost, begin } = search.row(m);
            search.costs.push(if slip == "row costs in 32 bits" { cost % (1 << 32) } else { cost });
            search.begins.push(begin);
        }
        search
    }

    /// Whether row m + 1 is that of m.
    fn is_copied(&self, m: usize) -> bool {
        match self.slip {
            "a need of 0 searched" => false,
            "a need of 1 copied" => self.day.needs[m] <= 1,
            _ => self.day.needs[m] == 0,
        }
    }

    /// Row m + 1.
    fn row(&mut self, m: usize) -> LastRun {
        if self.is_copied(m) {
            return LastRun { cost: self.costs[m], begin: m };
        }
        self.met.rows += 1;
        let need = self.day.needs[m];
        let held = if self.slip == "the last need held in its own period" { self.day.rates[m] * need } else { 0 };
        let mut best = LastRun { cost: self.costs[m] + self.making(m, m, need), begin: m };
        let mut sums = Sums { l: m, made: need, i: m, left: need, held };
        let (mut dropped, mut at_bound) = (false, None);
        while sums.l > 0 {
            let bound = self.bound(m, &sums);
            if best.cost < bound || self.slip == "the row left at an equal bound" && best.cost == bound {
                self.met.event(LEFT[usize::from(sums.l < m)]);
                break;
            }
            if best.cost == bound {
                at_bound = at_bound.or(Some(sums.l));
            }
            if self.slip == "no run begins where nothing is needed" && self.day.needs[sums.l - 1] == 0 {
                sums.l -= 1;
                continue;
            }
            match self.candidate(m, best.cost, &mut sums) {
                Some(cost) => {
                    if dropped {
                        self.met.event(AFTER_DROPPED[usize::from(cost == best.cost)]);
                    }
                    best = self.better(best, LastRun { cost, begin: sums.l });
                }
                None if self.slip == "the row left where one is dropped" => break,
                None => dropped = true,
            }
        }
        if at_bound > Some(best.begin) {
            self.met.event(AT_BOUND);
        }
        best
    }

    /// What it costs to make so much in l, for the periods up to m.
    fn making(&self, l: usize, m: usize, made: u64) -> u64 {
        let setup = match self.slip {
            "the last period's start" => self.day.setup[m],
            "no start" => 0,
            _ => self.day.setup[l],
        };
        let making = setup + self.day.unit[if self.slip == "the last period's unit cost" { m } else { l }] * made;
        match self.slip {
            "making in 32 bits" => making % (1 << 32),
            _ => making,
        }
    }

    /// What a run costs at least that begins before l: the first l periods, what is made for l and after it by the beginning of l, and the upkeep
    /// that was summed.
    fn bound(&self, m: usize, sums: &Sums) -> u64 {
        let &Sums { l, made, held, .. } = sums;
        let Tables { needs, unit, rates, carried, .. } = &self.day;
        let each = match self.slip {
            "the bound by the next run's unit cost" => unit[l],
            "the bound by the last period's unit cost" => unit[m],
            "the bound with upkeep of a period more" => carried[l] + rates[l],
            "the bound by what is carried a period later" => carried[m.min(l + 1)],
            "the bound by what is carried a period earlier" => carried[l - 1],
            _ => carried[l],
        };
        let (row, made, held) = match self.slip {
            "the bound by the cost of the next row" => (m.min(l + 1), made, held),
            "the bound with the need before it" => (l, made + needs[l - 1], held),
            "the bound with its upkeep twice" => (l, made, 2 * held),
            _ => (l, made, held),
        };
        self.costs[row] + each * made + held
    }

    /// The next candidate's cost, unless it is dropped. Upkeep is summed on from where the one before left it.
    fn candidate(&mut self, m: usize, best: u64, sums: &mut Sums) -> Option<u64> {
        let before = *sums;
        self.met.candidates += 1;
        self.begin(m, sums);
        let made = if self.slip == "its own need not made" { before.made } else { sums.made };
        let row = sums.l + usize::from(self.slip == "the cost of the next row");
        let paid = self.costs[row] + self.making(sums.l, m, made);
        let end = sums.l + usize::from(self.slip == "the upkeep of its first period left out");
        let (mut summed, mut equal) = (Summed::Making, None);
        loop {
            let cost = paid + sums.held;
            if self.drops(cost, best, summed) {
                self.drop_at(summed, equal);
                self.leave(m, &before, sums);
                return None;
            }
            if cost == best {
                equal = equal.or(Some(summed));
            }
            if sums.i == end {
                if let Some(since) = equal {
                    self.met.event(CARRIED_ON[since as usize]);
                }
                return Some(cost);
            }
            self.hold(sums);
            summed = if sums.i == sums.l { Summed::Whole } else { Summed::Part };
        }
    }

    /// The candidate of a period earlier.
    fn begin(&self, m: usize, sums: &mut Sums) {
        match self.slip {
            "what is left begun anew" => sums.left = self.day.needs[m],
            "the upkeep that a dropped one leaves out skipped" => (sums.i, sums.left) = (sums.l, sums.made),
            _ => {}
        }
        sums.l -= 1;
        sums.made += self.day.needs[sums.l];
    }

    /// One term of upkeep more.
    fn hold(&self, sums: &mut Sums) {
        let Tables { needs, rates, .. } = &self.day;
        sums.i -= 1;
        let through = match self.slip {
            "its own need held in its own period" => sums.left + needs[sums.i],
            "the upkeep of its first period twice" if sums.i == sums.l => 2 * sums.left,
            _ => sums.left,
        };
        sums.held += rates[sums.i + usize::from(self.slip == "the next period's upkeep")] * through;
        sums.left += needs[sums.i];
        if self.slip == "upkeep in 32 bits" {
            sums.held %= 1 << 32;
        }
    }

    /// Whether a candidate that costs so much already is dropped.
    fn drops(&self, cost: u64, best: u64, summed: Summed) -> bool {
        match (self.slip, summed) {
            ("dropped at equal cost", _)
            | ("dropped at equal cost by its making", Summed::Making)
            | ("dropped at equal cost before its last upkeep", Summed::Part)
            | ("dropped at equal cost by its last upkeep", Summed::Whole) => best <= cost,
            ("dropped only where above by more than one", _) => best + 1 < cost,
            ("not tested after its last upkeep", Summed::Whole) => false,
            _ => best < cost,
        }
    }

    /// Notes a drop, and whether the candidate had equalled the best before.
    fn drop_at(&mut self, summed: Summed, equal: Option<Summed>) {
        self.met.event(DROPPED[summed as usize]);
        if let Some(since) = equal {
            self.met.event(EQUAL_AND_DROPPED[since as usize]);
        }
    }

    /// What a dropped candidate leaves to the next one: its sums.
    fn leave(&self, m: usize, before: &Sums, sums: &mut Sums) {
        match self.slip {
            "the upkeep of a dropped one lost" => sums.held = before.held,
            "the upkeep of a dropped one counted again" => (sums.i, sums.left) = (m, self.day.needs[m]),
            "the need of a dropped one forgotten" => sums.made = before.made,
            "the need where one is dropped not held" if sums.i < before.i => sums.left -= self.day.needs[sums.i],
            _ => {}
        }
    }

    /// The best once a candidate was summed to its end; candidates go down, so of equals the next one is kept.
    fn better(&self, best: LastRun, next: LastRun) -> LastRun {
        match self.slip {
            "the later of equals kept" if next.cost == best.cost => best,
            "the first candidate's cost kept" => LastRun { cost: best.cost, begin: next.begin },
            _ => next,
        }
    }

    /// The plan of the last row, and how many runs it has.
    fn read_back(&self) -> (Vec<u16>, u64) {
        let n = self.day.needs.len();
        let (mut plan, mut runs, mut m) = (vec![0; n], 0, n);
        while m > 0 {
            let begin = self.begins[m - usize::from(self.slip == "read back from the row before")];
            plan[begin] = self.day.needs[begin..m].iter().sum::<u64>() as u16;
            runs += 1;
            m = if self.slip == "read back period by period" { m - 1 } else { begin };
        }
        (plan, runs)
    }

    /// What is answered, the plan weighed: with a slip it may break a rule, and then is told as it is.
    fn answer(&self, day: &Day) -> Result<Planned, Vec<u16>> {
        let (plan, runs) = self.read_back();
        let Verdict::Holds(totals) = plain::verdict(day, &plan) else { return Err(plan) };
        let totals = match self.slip {
            "starts counted by runs" => Totals { setups: runs, ..totals },
            "the last row's cost" => Totals { cost: self.costs[day.periods()], ..totals },
            _ => totals,
        };
        Ok(Planned { plan, totals })
    }
}

/// The last lots against all plans tried, on tiny days on which many cost the same.
pub fn check_lots(random: &mut Random) {
    for _ in 0..4000 {
        let day = unbound::with_ties(random, Size::Tiny);
        if plain::plans(&day) <= 5000.0 {
            assert_eq!(plain::search(&day), Some(lots::plan(&day)), "{day:?}");
        }
    }
}

/// Made-up days on which each of the events is met, some for each.
pub fn with_events(random: &mut Random) -> Vec<Input> {
    let mut inputs = vec![];
    for event in events() {
        let drawn = (0..100_000).flat_map(|_| {
            let size = random.pick(&[Size::Tiny, Size::Middle]);
            unbound::made_up(random, size, 1)
        });
        let found: Vec<Input> = drawn.filter(|input| Search::of("none", &input.day).met.count(&[event]) > 0).take(30).collect();
        assert_eq!(found.len(), 30, "too few days found for this event: {event}");
        inputs.extend(found);
    }
    inputs
}

/// The search without a slip on all inputs; every slip shows on some input. Gives what was met, and how many slips there are.
pub fn check_searches(inputs: &[Input]) -> (Met, usize) {
    let mut met = Met::default();
    let mut untold = SLIPS.to_vec();
    for Input { day, .. } in inputs {
        let right = lots::plan(day);
        let search = Search::of("none", day);
        assert_eq!(search.costs[day.periods()] + standing(day), right.totals.cost, "{day:?}");
        let right = Ok(right);
        assert_eq!(search.answer(day), right, "{day:?}");
        met.add(&search.met);
        untold.retain(|slip| Search::of(slip, day).answer(day) == right);
    }
    assert!(untold.is_empty(), "no input tells of these slips: {untold:?}");
    let unmet: Vec<&str> = events().into_iter().filter(|event| met.count(&[event]) == 0).collect();
    assert!(unmet.is_empty(), "no input has these events: {unmet:?}");
    (met, SLIPS.len())
}
