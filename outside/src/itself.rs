//! The plain implementation against itself and the papers, before anything is compared with it.
mod played;
mod searched;
mod stamped;

use crate::input::{self, Call, Input, Size, With, CALLS};
use crate::lots;
use crate::plain::{self, BestSoFar, Day, Loads, Planned, Refusal, Totals, Verdict};
use crate::random::Random;
use crate::stamp;
pub use played::{check_plays, plays};
pub use searched::{check_lots, check_searches, with_events, Met};
pub use stamped::check_stamps;

/// A day and its plan with cost and setups, or the number and period of the refusal. One value of b, p or h stands for all periods.
struct Row {
    demand: &'static [u16],
    capacity: &'static [u16],
    setup: &'static [u32],
    unit: &'static [u32],
    holding: &'static [u32],
    /// A and Z
    ends: (u16, u16),
    claim: Result<(&'static [u16], u64, u64), (u64, usize)>,
}

#[rustfmt::skip]
const ROWS: &[Row] = &[
    // document 01's marked days, with request 2.2's upkeep, and the tie that it adds
    Row { demand: &[0], capacity: &[0], setup: &[5], unit: &[1], holding: &[1], ends: (0, 0), claim: Ok((&[0], 0, 0)) },
    Row { demand: &[1], capacity: &[1], setup: &[5], unit: &[2], holding: &[9], ends: (0, 0), claim: Ok((&[1], 7, 1)) },
    Row { demand: &[2], capacity: &[1], setup: &[5], unit: &[2], holding: &[9], ends: (0, 0), claim: Err((7, 1)) },
    Row { demand: &[2, 3], capacity: &[5, 5], setup: &[10], unit: &[1], holding: &[1], ends: (0, 0), claim: Ok((&[5, 0], 21, 1)) },
    Row { demand: &[2, 3], capacity: &[5, 5], setup: &[10], unit: &[1], holding: &[4], ends: (0, 0), claim: Ok((&[2, 3], 25, 2)) },
    Row { demand: &[2, 2], capacity: &[4, 4], setup: &[10], unit: &[1], holding: &[5], ends: (0, 0), claim: Ok((&[2, 2], 24, 2)) },
    Row { demand: &[0, 4], capacity: &[3, 3], setup: &[10], unit: &[1], holding: &[1], ends: (0, 0), claim: Ok((&[1, 3], 26, 2)) },
    Row { demand: &[1, 5], capacity: &[2, 3], setup: &[0], unit: &[1], holding: &[1], ends: (0, 0), claim: Err((7, 2)) },
    Row { demand: &[1, 4], capacity: &[2, 3], setup: &[0], unit: &[1], holding: &[1], ends: (0, 0), claim: Ok((&[2, 3], 7, 2)) },
    Row { demand: &[3, 0], capacity: &[2, 9], setup: &[0], unit: &[1], holding: &[1], ends: (0, 0), claim: Err((7, 1)) },
    Row { demand: &[2, 2, 3], capacity: &[4, 4, 4], setup: &[6], unit: &[1], holding: &[1], ends: (0, 0), claim: Ok((&[4, 0, 3], 23, 2)) },
    Row { demand: &[0, 0], capacity: &[0, 0], setup: &[5], unit: &[1], holding: &[1], ends: (0, 0), claim: Ok((&[0, 0], 0, 0)) },
    Row { demand: &[2, 2], capacity: &[4, 4], setup: &[8], unit: &[1], holding: &[2], ends: (0, 0), claim: Ok((&[4, 0], 20, 1)) },
    // ties that only demand 3 settles: not the larger first amount, nor the fewest starts; with one capacity, not where the last run begins
    Row { demand: &[1, 0, 2], capacity: &[2, 3, 1], setup: &[3], unit: &[1], holding: &[1], ends: (0, 0), claim: Ok((&[1, 2, 0], 13, 2)) },
    Row { demand: &[1, 1, 0, 2], capacity: &[3, 2, 1, 2], setup: &[4, 4, 1, 3], unit: &[0], holding: &[2, 1, 0, 0],
          ends: (0, 0), claim: Ok((&[1, 2, 1, 0], 10, 3)) },
    Row { demand: &[0, 0, 0, 4], capacity: &[3, 3, 3, 3], setup: &[0, 1, 0, 1], unit: &[1, 0, 0, 1], holding: &[0, 0, 0, 1],
          ends: (0, 0), claim: Ok((&[0, 3, 1, 0], 5, 2)) },
    Row { demand: &[3, 2, 0, 1], capacity: &[5, 5, 5, 5], setup: &[6], unit: &[0], holding: &[1], ends: (0, 0), claim: Ok((&[3, 3, 0, 0], 16, 2)) },
    Row { demand: &[1, 2, 1, 1], capacity: &[5, 5, 5, 5], setup: &[6], unit: &[0], holding: &[1, 1, 2, 3],
          ends: (0, 0), claim: Ok((&[3, 0, 2, 0], 21, 2)) },
    // charge at both ends: of the fourth marked day; with nothing to make, and one unit more than that
    Row { demand: &[2, 3], capacity: &[5, 5], setup: &[10], unit: &[1], holding: &[1], ends: (1, 1), claim: Ok((&[5, 0], 25, 1)) },
    Row { demand: &[2, 3], capacity: &[5, 5], setup: &[10], unit: &[1], holding: &[1], ends: (6, 1), claim: Ok((&[0, 0], 15, 0)) },
    Row { demand: &[2, 3], capacity: &[0, 0], setup: &[10], unit: &[1], holding: &[1], ends: (5, 0), claim: Ok((&[0, 0], 11, 0)) },
    Row { demand: &[2, 3], capacity: &[5, 5], setup: &[10], unit: &[1], holding: &[1], ends: (7, 1), claim: Err((14, 0)) },
    Row { demand: &[0], capacity: &[0], setup: &[0], unit: &[0], holding: &[0], ends: (1, 0), claim: Err((14, 0)) },
    // nothing needed, and something to hand on; more than can be made, by one unit
    Row { demand: &[0, 0], capacity: &[5, 5], setup: &[10], unit: &[1], holding: &[1], ends: (0, 3), claim: Ok((&[0, 3], 16, 1)) },
    Row { demand: &[0, 0], capacity: &[1, 1], setup: &[10], unit: &[1], holding: &[1], ends: (0, 2), claim: Ok((&[1, 1], 26, 2)) },
    Row { demand: &[0, 0], capacity: &[1, 1], setup: &[10], unit: &[1], holding: &[1], ends: (0, 3), claim: Err((7, 2)) },
    Row { demand: &[0, 0], capacity: &[1, 1], setup: &[10], unit: &[1], holding: &[1], ends: (1, 3), claim: Ok((&[1, 1], 30, 2)) },
    // more at the beginning than the first periods need; a shortage that it only puts off
    Row { demand: &[1, 1, 4], capacity: &[1, 1, 1], setup: &[0], unit: &[1], holding: &[1], ends: (3, 0), claim: Ok((&[1, 1, 1], 18, 3)) },
    Row { demand: &[5, 0], capacity: &[2, 9], setup: &[0], unit: &[1], holding: &[1], ends: (2, 0), claim: Err((7, 1)) },
    Row { demand: &[1, 5, 0], capacity: &[2, 1, 9], setup: &[0], unit: &[1], holding: &[1], ends: (2, 4), claim: Err((7, 2)) },
    // ties: what is made for closing at once or later, each at its own period's upkeep; the marked tie with some charge to begin with
    Row { demand: &[2, 0], capacity: &[4, 4], setup: &[10], unit: &[1], holding: &[2, 3], ends: (0, 2), claim: Ok((&[4, 0], 30, 1)) },
    Row { demand: &[3, 2], capacity: &[4, 4], setup: &[8], unit: &[1], holding: &[2], ends: (1, 0), claim: Ok((&[4, 0], 22, 1)) },
    // upkeep on the charge before the first period; on the charge after the last; on both; period by period, at different upkeep
    Row { demand: &[3], capacity: &[0], setup: &[5], unit: &[2], holding: &[7], ends: (3, 0), claim: Ok((&[0], 21, 0)) },
    Row { demand: &[0], capacity: &[3], setup: &[5], unit: &[2], holding: &[7], ends: (0, 3), claim: Ok((&[3], 32, 1)) },
    Row { demand: &[0], capacity: &[0], setup: &[5], unit: &[2], holding: &[7], ends: (3, 3), claim: Ok((&[0], 42, 0)) },
    Row { demand: &[1, 2], capacity: &[0, 0], setup: &[5], unit: &[2], holding: &[100, 10], ends: (3, 0), claim: Ok((&[0, 0], 520, 0)) },
    Row { demand: &[1, 0], capacity: &[5, 0], setup: &[5], unit: &[2], holding: &[100, 10], ends: (0, 2), claim: Ok((&[3, 0], 251, 1)) },
    // without starting cost: the upkeep spared decides, that of the next period with it; the earliest of equals, below zero too
    Row { demand: &[0, 1], capacity: &[1, 1], setup: &[0], unit: &[1, 2], holding: &[1], ends: (0, 0), claim: Ok((&[0, 1], 2, 1)) },
    Row { demand: &[0, 0, 1], capacity: &[1, 1, 1], setup: &[0], unit: &[0, 2, 7], holding: &[0, 3, 0], ends: (0, 0), claim: Ok((&[0, 1, 0], 5, 1)) },
    Row { demand: &[0, 1], capacity: &[1, 1], setup: &[0], unit: &[1, 3], holding: &[1], ends: (0, 0), claim: Ok((&[1, 0], 3, 1)) },
    Row { demand: &[0, 0, 0, 2], capacity: &[9, 0, 1, 9], setup: &[0], unit: &[0, 0, 0, 2], holding: &[1], ends: (0, 0), claim: Ok((&[0, 0, 1, 1], 4, 2)) },
    // what is handed on goes last: served first it would leave the first need without capacity; the cheapest period is full by then
    Row { demand: &[1, 0], capacity: &[1, 1], setup: &[0], unit: &[1, 9], holding: &[0], ends: (0, 1), claim: Ok((&[1, 1], 10, 2)) },
    Row { demand: &[0, 2, 0], capacity: &[2, 5, 5], setup: &[0], unit: &[1, 5, 6], holding: &[1], ends: (0, 2), claim: Ok((&[2, 0, 2], 20, 2)) },
    // charge at the beginning serves the first needs, and of what is handed on where it is more than these
    Row { demand: &[2, 2], capacity: &[2, 2], setup: &[0], unit: &[4, 1], holding: &[0], ends: (1, 0), claim: Ok((&[1, 2], 6, 2)) },
    Row { demand: &[1, 0], capacity: &[3, 3], setup: &[0], unit: &[1, 9], holding: &[2], ends: (3, 4), claim: Ok((&[2, 0], 32, 1)) },
];

/// Rows with the store limits of their days, each beside what it is without or with one unit more or less.
#[rustfmt::skip]
const LIMITED: &[(&[u16], Row)] = &[
    // as much as the fourth marked day's plan leaves; a unit less takes that plan away, and no other makes up for a second start
    (&[3, 9], Row { demand: &[2, 3], capacity: &[5, 5], setup: &[10], unit: &[1], holding: &[1], ends: (0, 0), claim: Ok((&[5, 0], 21, 1)) }),
    (&[2, 9], Row { demand: &[2, 3], capacity: &[5, 5], setup: &[10], unit: &[1], holding: &[1], ends: (0, 0), claim: Ok((&[2, 3], 25, 2)) }),
    // it pays to make early, as far as the store goes
    (&[2, 9], Row { demand: &[2, 3], capacity: &[5, 5], setup: &[0], unit: &[1, 9], holding: &[1], ends: (0, 0), claim: Ok((&[4, 1], 17, 2)) }),
    // nothing can be left: each need in its own period, or no plan
    (&[0, 0], Row { demand: &[2, 3], capacity: &[5, 5], setup: &[10], unit: &[1], holding: &[1], ends: (0, 0), claim: Ok((&[2, 3], 25, 2)) }),
    (&[0, 0], Row { demand: &[0, 4], capacity: &[3, 3], setup: &[10], unit: &[1], holding: &[1], ends: (0, 0), claim: Err((7, 2)) }),
    (&[1, 0], Row { demand: &[0, 4], capacity: &[3, 3], setup: &[10], unit: &[1], holding: &[1], ends: (0, 0), claim: Ok((&[1, 3], 26, 2)) }),
    // a low store shows only where the need comes, and there it leaves one plan
    (&[9, 1, 9], Row { demand: &[0, 1, 4], capacity: &[9, 2, 2], setup: &[0], unit: &[1], holding: &[0], ends: (0, 0), claim: Err((7, 3)) }),
    (&[9, 2, 9], Row { demand: &[0, 1, 4], capacity: &[9, 2, 2], setup: &[0], unit: &[1], holding: &[0], ends: (0, 0), claim: Ok((&[3, 0, 2], 5, 2)) }),
    (&[0, 9, 9], Row { demand: &[0, 3, 0], capacity: &[2, 2, 9], setup: &[1], unit: &[1], holding: &[0], ends: (0, 0), claim: Err((7, 2)) }),
    (&[1, 9, 9], Row { demand: &[0, 3, 0], capacity: &[2, 2, 9], setup: &[1], unit: &[1], holding: &[0], ends: (0, 0), claim: Ok((&[1, 2, 0], 5, 2)) }),
    // no store limits the charge before the first period; what is left of it counts
    (&[0], Row { demand: &[9], capacity: &[0], setup: &[0], unit: &[0], holding: &[1], ends: (9, 0), claim: Ok((&[0], 9, 0)) }),
    (&[1, 9], Row { demand: &[1, 4], capacity: &[5, 5], setup: &[10], unit: &[1], holding: &[1], ends: (3, 0), claim: Err((7, 1)) }),
    (&[2, 9], Row { demand: &[1, 4], capacity: &[5, 5], setup: &[10], unit: &[1], holding: &[1], ends: (3, 0), claim: Ok((&[0, 2], 19, 1)) }),
    (&[9, 1, 9], Row { demand: &[1, 1, 4], capacity: &[5, 5, 5], setup: &[10], unit: &[1], holding: &[1], ends: (4, 0), claim: Err((7, 2)) }),
    (&[9, 2, 9], Row { demand: &[1, 1, 4], capacity: &[5, 5, 5], setup: &[10], unit: &[1], holding: &[1], ends: (4, 0), claim: Ok((&[0, 0, 2], 26, 1)) }),
    // what is handed on has to fit; a shortage goes before it where it comes before
    (&[9, 2], Row { demand: &[0, 0], capacity: &[5, 5], setup: &[10], unit: &[1], holding: &[1], ends: (0, 3), claim: Err((7, 2)) }),
    (&[2, 3], Row { demand: &[0, 0], capacity: &[5, 5], setup: &[10], unit: &[1], holding: &[1], ends: (0, 3), claim: Ok((&[0, 3], 16, 1)) }),
    (&[0, 2], Row { demand: &[6, 0], capacity: &[5, 5], setup: &[10], unit: &[1], holding: &[1], ends: (0, 3), claim: Err((7, 1)) }),
    // nothing to make, and too much charge in the first period, or in the second
    (&[3, 9], Row { demand: &[2, 3], capacity: &[5, 5], setup: &[10], unit: &[1], holding: &[1], ends: (6, 1), claim: Err((7, 1)) }),
    (&[4, 0], Row { demand: &[2, 3], capacity: &[5, 5], setup: &[10], unit: &[1], holding: &[1], ends: (6, 1), claim: Err((7, 2)) }),
    (&[4, 1], Row { demand: &[2, 3], capacity: &[5, 5], setup: &[10], unit: &[1], holding: &[1], ends: (6, 1), claim: Ok((&[0, 0], 15, 0)) }),
    // ties: of request 2.2's two plans the store takes one; of all that cost nothing the smallest that it leaves
    (&[2, 9], Row { demand: &[2, 2], capacity: &[4, 4], setup: &[8], unit: &[1], holding: &[2], ends: (0, 0), claim: Ok((&[4, 0], 20, 1)) }),
    (&[1, 9], Row { demand: &[2, 2], capacity: &[4, 4], setup: &[8], unit: &[1], holding: &[2], ends: (0, 0), claim: Ok((&[2, 2], 20, 2)) }),
    (&[9, 9, 9], Row { demand: &[0, 0, 2], capacity: &[2, 2, 2], setup: &[0], unit: &[0], holding: &[0], ends: (0, 0), claim: Ok((&[2, 0, 0], 0, 1)) }),
    (&[1, 9, 9], Row { demand: &[0, 0, 2], capacity: &[2, 2, 2], setup: &[0], unit: &[0], holding: &[0], ends: (0, 0), claim: Ok((&[1, 1, 0], 0, 2)) }),
    (&[1, 1, 9], Row { demand: &[0, 0, 2], capacity: &[2, 2, 2], setup: &[0], unit: &[0], holding: &[0], ends: (0, 0), claim: Ok((&[1, 0, 1], 0, 2)) }),
    (&[9, 1, 9], Row { demand: &[0, 0, 2], capacity: &[2, 2, 2], setup: &[0], unit: &[0], holding: &[0], ends: (0, 0), claim: Ok((&[1, 0, 1], 0, 2)) }),
];

/// A plan of a day with one capacity: where its runs end, and its full and part loads.
struct Loaded {
    demand: &'static [u16],
    capacity: u16,
    /// A and Z
    ends: (u16, u16),
    plan: &'static [u16],
    run_ends: &'static [usize],
    loads: (u64, u64),
}

#[rustfmt::skip]
const LOADED: &[Loaded] = &[
    // marked days: a remainder of 0 is no part load, a capacity of 0 loads nothing; a full load and a part load in one run, and in two
    Loaded { demand: &[2, 3], capacity: 5, ends: (0, 0), plan: &[5, 0], run_ends: &[2], loads: (1, 0) },
    Loaded { demand: &[0, 0], capacity: 0, ends: (0, 0), plan: &[0, 0], run_ends: &[1, 2], loads: (0, 0) },
    Loaded { demand: &[0, 4], capacity: 3, ends: (0, 0), plan: &[1, 3], run_ends: &[2], loads: (1, 1) },
    Loaded { demand: &[2, 2, 3], capacity: 4, ends: (0, 0), plan: &[4, 0, 3], run_ends: &[2, 3], loads: (1, 1) },
    // two runs that make 3 of 5 each: not 6 ÷ 5; and as one run
    Loaded { demand: &[3, 2, 0, 1], capacity: 5, ends: (0, 0), plan: &[3, 3, 0, 0], run_ends: &[1, 4], loads: (0, 2) },
    Loaded { demand: &[3, 2, 0, 1], capacity: 5, ends: (0, 0), plan: &[5, 1, 0, 0], run_ends: &[4], loads: (1, 1) },
    // an idle run first, and last
    Loaded { demand: &[0, 0, 0, 4], capacity: 3, ends: (0, 0), plan: &[0, 3, 1, 0], run_ends: &[1, 4], loads: (1, 1) },
    Loaded { demand: &[6, 1, 0], capacity: 7, ends: (0, 0), plan: &[7, 0, 0], run_ends: &[2, 3], loads: (1, 0) },
    // from the opening charge: it lasts to the end, runs out at a period's end, runs out inside a period; nothing else is needed
    Loaded { demand: &[1, 1, 4], capacity: 1, ends: (3, 0), plan: &[1, 1, 1], run_ends: &[3], loads: (3, 0) },
    Loaded { demand: &[1, 1, 2], capacity: 2, ends: (2, 0), plan: &[0, 0, 2], run_ends: &[2, 3], loads: (1, 0) },
    Loaded { demand: &[1, 2, 2], capacity: 3, ends: (2, 0), plan: &[0, 3, 0], run_ends: &[3], loads: (1, 0) },
    Loaded { demand: &[2, 3], capacity: 9, ends: (5, 0), plan: &[0, 0], run_ends: &[2], loads: (0, 0) },
    // to the closing charge: made in one run with the need before it, or in one of its own; from one end of the day to the other
    Loaded { demand: &[2, 0], capacity: 2, ends: (0, 2), plan: &[2, 2], run_ends: &[1, 2], loads: (2, 0) },
    Loaded { demand: &[1, 0], capacity: 2, ends: (0, 2), plan: &[2, 1], run_ends: &[2], loads: (1, 1) },
    Loaded { demand: &[2, 3], capacity: 3, ends: (1, 1), plan: &[2, 3], run_ends: &[2], loads: (1, 1) },
    Loaded { demand: &[0, 0], capacity: 4, ends: (7, 7), plan: &[0, 0], run_ends: &[2], loads: (0, 0) },
];

fn check_loads() {
    for row in LOADED {
        let n = row.demand.len();
        let costs = vec![1; n];
        let (demand, store) = (row.demand.to_vec(), vec![plain::NO_LIMIT; n]);
        let (opening, closing) = row.ends;
        let capacity = vec![row.capacity; n];
        let day = Day { demand, capacity, setup: costs.clone(), unit: costs.clone(), holding: costs, store, opening, closing };
        assert!(matches!(plain::verdict(&day, row.plan), Verdict::Holds(_)), "{day:?}");
        let run_ends: Vec<usize> = plain::runs(&day, row.plan).iter().map(|run| run.end).collect();
        assert_eq!(run_ends, row.run_ends, "{day:?}");
        let (full, part) = row.loads;
        assert_eq!(plain::loads(&day, row.plan), Loads { full, part }, "{day:?}");
    }
}

/// A big day, the allowed trials, and what they come to: the plan with its cost and setups, the trials used, the gap. One value of b, p or h
/// stands for all periods.
struct Tried {
    demand: &'static [u16],
    capacity: &'static [u16],
    setup: &'static [u32],
    unit: &'static [u32],
    holding: &'static [u32],
    /// A and Z
    ends: (u16, u16),
    trials: usize,
    claim: (&'static [u16], u64, u64, usize, u64),
}

#[rustfmt::skip]
const TRIED: &[Tried] = &[
    // the fourth marked day: forbidding the second period pays; then the first leaves no plan, in this round and in the next
    Tried { demand: &[2, 3], capacity: &[5, 5], setup: &[10], unit: &[1], holding: &[1], ends: (0, 0), trials: 1, claim: (&[2, 3], 25, 2, 1, 20) },
    Tried { demand: &[2, 3], capacity: &[5, 5], setup: &[10], unit: &[1], holding: &[1], ends: (0, 0), trials: 2, claim: (&[5, 0], 21, 1, 2, 16) },
    Tried { demand: &[2, 3], capacity: &[5, 5], setup: &[10], unit: &[1], holding: &[1], ends: (0, 0), trials: 3, claim: (&[5, 0], 21, 1, 3, 16) },
    Tried { demand: &[2, 3], capacity: &[5, 5], setup: &[10], unit: &[1], holding: &[1], ends: (0, 0), trials: 9, claim: (&[5, 0], 21, 1, 4, 16) },
    Tried { demand: &[2, 3], capacity: &[5, 5], setup: &[10], unit: &[1], holding: &[1], ends: (1, 1), trials: 9, claim: (&[5, 0], 25, 1, 4, 18) },
    // at equal cost a period stays allowed
    Tried { demand: &[2, 2], capacity: &[4, 4], setup: &[8], unit: &[1], holding: &[2], ends: (0, 0), trials: 9, claim: (&[2, 2], 20, 2, 3, 16) },
    // one period; nothing to make
    Tried { demand: &[1], capacity: &[1], setup: &[5], unit: &[2], holding: &[9], ends: (0, 0), trials: 9, claim: (&[1], 7, 1, 2, 5) },
    Tried { demand: &[0, 0], capacity: &[0, 0], setup: &[5], unit: &[1], holding: &[1], ends: (0, 0), trials: 9, claim: (&[0, 0], 0, 0, 3, 0) },
    // the first round forbids the first period, the second one the second, the third one none; forbidden periods are passed over
    Tried { demand: &[0, 0, 1], capacity: &[2, 1, 1], setup: &[2, 1, 0], unit: &[0], holding: &[0], ends: (0, 0), trials: 3, claim: (&[1, 0, 0], 2, 1, 3, 2) },
    Tried { demand: &[0, 0, 1], capacity: &[2, 1, 1], setup: &[2, 1, 0], unit: &[0], holding: &[0], ends: (0, 0), trials: 5, claim: (&[0, 1, 0], 1, 1, 5, 1) },
    Tried { demand: &[0, 0, 1], capacity: &[2, 1, 1], setup: &[2, 1, 0], unit: &[0], holding: &[0], ends: (0, 0), trials: 9, claim: (&[0, 0, 1], 0, 1, 7, 0) },
    Tried { demand: &[2, 0, 0, 1], capacity: &[3, 1, 3, 1], setup: &[1, 6, 5, 3], unit: &[0, 0, 1, 1], holding: &[0, 1, 0, 0],
            ends: (0, 0), trials: 99, claim: (&[3, 0, 0, 0], 3, 1, 11, 2) },
    // after a success the round goes on downwards: it forbids the third period and the first
    Tried { demand: &[0, 0, 1], capacity: &[1, 3, 1], setup: &[1, 0, 3], unit: &[0, 1, 0], holding: &[1, 0, 0],
            ends: (0, 0), trials: 9, claim: (&[0, 1, 0], 1, 1, 5, 1) },
    // a period that can't make anything has its trials
    Tried { demand: &[0, 0, 1], capacity: &[0, 2, 1], setup: &[0, 2, 0], unit: &[0, 0, 1], holding: &[0],
            ends: (0, 0), trials: 9, claim: (&[0, 0, 1], 1, 1, 6, 1) },
    // not the cheapest plan: 0 0 1 costs nothing, but no period alone leads there
    Tried { demand: &[0, 0, 1], capacity: &[1, 3, 2], setup: &[2, 2, 0], unit: &[0], holding: &[0], ends: (0, 0), trials: 9, claim: (&[1, 0, 0], 2, 1, 4, 2) },
];

fn check_trials() {
    for row in TRIED {
        let n = row.demand.len();
        let day = Day {
            demand: row.demand.to_vec(),
            capacity: row.capacity.to_vec(),
            setup: all(row.setup, n),
            unit: all(row.unit, n),
            holding: all(row.holding, n),
            store: vec![plain::NO_LIMIT; n],
            opening: row.ends.0,
            closing: row.ends.1,
        };
        let (plan, cost, setups, trials, gap) = row.claim;
        let planned = Planned { plan: plan.to_vec(), totals: Totals { cost, setups } };
        for rule in [plain::unit_by_unit, plain::in_batches] {
            assert_eq!(plain::best_so_far(&day, row.trials, rule), Some(BestSoFar { planned: planned.clone(), trials, gap }), "{day:?}");
        }
    }
}

fn all(values: &[u32], n: usize) -> Vec<u32> {
    if values.len() == n {
        values.to_vec()
    } else {
        vec![values[0]; n]
    }
}

impl Row {
    fn day(&self, store: &[u16]) -> Day {
        let n = self.demand.len();
        Day {
            demand: self.demand.to_vec(),
            capacity: self.capacity.to_vec(),
            setup: all(self.setup, n),
            unit: all(self.unit, n),
            holding: all(self.holding, n),
            store: store.to_vec(),
            opening: self.ends.0,
            closing: self.ends.1,
        }
    }
}

/// All rows with their days.
fn rows() -> impl Iterator<Item = (Day, &'static Row)> {
    let unlimited = ROWS.iter().map(|row| (row.day(&vec![plain::NO_LIMIT; row.demand.len()]), row));
    unlimited.chain(LIMITED.iter().map(|(store, row)| (row.day(store), row)))
}

/// The rows as inputs of every call. The row's plan, or nothing, is weighed, and compared with making each need in its own period: on the
/// marked tie that costs the same.
pub fn inputs() -> Vec<Input> {
    let of = |(day, row): (Day, &Row)| {
        let nothing = vec![0; row.demand.len()];
        let plan = row.claim.map_or(&nothing[..], |(plan, _, _)| plan);
        CALLS.map(|call| Input::exact(call, &day, [plan, row.demand]))
    };
    rows().flat_map(of).collect()
}

fn check_row(day: &Day, row: &Row) {
    let expected = row.claim.ok().map(|(plan, cost, setups)| Planned { plan: plan.to_vec(), totals: Totals { cost, setups } });
    assert_eq!(planned(day), expected, "{day:?}");
    assert_eq!(refused(day), row.claim.err().map(|(number, period)| Refusal { number, period }), "{day:?}");
}

/// The plan by trying all, which recursion (5) gives too; without starting cost or low stores the rule of request 2.3; and where neither
/// capacities nor stores can bind the last lots.
fn planned(day: &Day) -> Option<Planned> {
    let found = plain::search(day);
    assert_eq!(found, plain::recursion(day), "{day:?}");
    if plain::started(day).is_none() && plain::low_store(day).is_none() {
        assert_eq!(found, plain::unit_by_unit(day), "{day:?}");
    }
    if found.is_some() && plain::binding(day).is_none() && plain::low_store(day).is_none() {
        assert_eq!(found, Some(lots::plan(day)), "{day:?}");
    }
    found
}

/// Why a day within the limits has no plan.
fn refused(day: &Day) -> Option<Refusal> {
    plain::bad_opening(day).or(plain::shortage(day))
}

/// Through how many periods some amounts keep the rules that begin with these, by trying all.
fn kept_through(day: &Day, amounts: &mut Vec<u16>) -> usize {
    let i = amounts.len();
    let mut most = i;
    for x in 0..=day.capacity.get(i).copied().unwrap_or(0) {
        amounts.push(x);
        if i < day.periods() && plain::broken(day, amounts, i + 1).is_none() {
            most = most.max(kept_through(day, amounts));
        }
        amounts.pop();
    }
    most
}

/// What every plan leaves after period i beyond that of the net day: of what the day begins with, until it is used up; what it hands on.
fn held(day: &Day, i: usize) -> u64 {
    if i == day.periods() {
        day.closing as u64
    } else {
        (day.opening as u64).saturating_sub(day.demand_to(i))
    }
}

/// The day without charge at its ends that has the same plans: what is still to be made counts as need, and the store has room for less.
fn net(day: &Day) -> Day {
    let demand = (1..=day.periods()).map(|i| day.least_by(i) - if i == 1 { 0 } else { day.least_by(i - 1) });
    let store = (1..=day.periods()).map(|i| day.store[i - 1] as u64 - held(day, i));
    let (demand, store) = (demand.map(|v| v as u16).collect(), store.map(|v| v as u16).collect());
    Day { demand, store, opening: 0, closing: 0, ..day.clone() }
}

/// The upkeep that every plan pays beyond the one of the net day, on the charge before each period as on that left.
fn standing(day: &Day) -> u64 {
    (1..=day.periods()).map(|i| day.holding[i - 1] as u64 * (held(day, i - 1) + held(day, i))).sum()
}

/// Document 01's file of the fourth marked day, alone, with charge at both ends and with a store limit, each also behind a stamp; what a walk says
/// of broken files.
fn check_files() {
    #[rustfmt::skip]
    let file = [
        1, 0, 2, 0, 5, 0, 0, 0, 10, 0, 0, 0, 1, 0, 0, 0, 1,
        1, 0, 3, 0, 5, 0, 0, 0, 10, 0, 0, 0, 1, 0, 0, 0, 1,
        2, 0, 2,
    ];
    let (demand, capacity) = (vec![2, 3], vec![5, 5]);
    let (setup, unit, holding, store) = (vec![10, 10], vec![1, 1], vec![1, 1], vec![plain::NO_LIMIT; 2]);
    let day = Day { demand, capacity, setup, unit, holding, store, opening: 0, closing: 0 };
    let with_ends = Day { opening: 1, closing: 258, ..day.clone() };
    let with_store = Day { store: vec![258, plain::NO_LIMIT], ..with_ends.clone() };
    let with_stores = Day { store: vec![65_534, 0], ..day.clone() };
    let stored = |body: &[u8], limit: &[u8]| [&[4], &body[1..], limit].concat();
    let (first, second, end) = (&file[..17], &file[17..34], &file[34..]);
    let charge = [3, 0, 1, 1, 2];
    let files = [
        (day, file.to_vec(), [[1, 16], [18, 16]]),
        (with_ends, [&charge, &file[..]].concat(), [[6, 16], [23, 16]]),
        (with_store, [&charge, &stored(first, &[1, 2])[..], second, end].concat(), [[6, 18], [25, 16]]),
        (with_stores, [&stored(first, &[255, 254]), &stored(second, &[0, 0])[..], end].concat(), [[1, 18], [20, 18]]),
    ];
    for (day, file, places) in files {
        let records = plain::walk(&file).unwrap();
        assert_eq!(records.places, places);
        assert_eq!(plain::day_in(&file, &records), day);
        assert_eq!(plain::unstamped(&day), file);
        assert_eq!(plain::unstamped_length(&day), file.len());
        let stamped = [&[5, 0x00, 0x11, 0x26, 0x58], &file[..]].concat();
        let records = plain::walk(&stamped).unwrap();
        assert_eq!(records.places, places.map(|[start, length]| [start + 5, length]));
        assert_eq!(plain::day_in(&stamped, &records), day);
        assert_eq!(plain::file_of(stamp::EXAMPLE, &day), stamped);
        assert_eq!(plain::file_length(&day), stamped.len());
        assert!(plain::read_refusals(&stamped, &[17, 9816], 2).is_empty());
    }
    let no_limit = stored(first, &[255, 255]);
    let broken: &[(&[u8], u64)] = &[
        (&[7], 10),
        (&[], 11),
        (&[2, 0, 1], 12),
        // kind 3: cut short; two zeros, before a later fault; a second one, cut short or whole; after the end
        (&[3], 11),
        (&[3, 0, 0, 0], 11),
        (&[3, 0, 0, 0, 1], 11),
        (&[3, 0, 0, 0, 0], 12),
        (&[3, 0, 0, 0, 0, 7], 12),
        (&[3, 0, 0, 0, 1, 7], 10),
        (&[3, 0, 0, 0, 1, 3], 12),
        (&[3, 0, 0, 0, 1, 3, 0, 0, 0, 1, 2, 0, 0], 12),
        (&[3, 0, 0, 0, 1, 2, 0, 1], 12),
        (&[2, 0, 0, 3, 0, 0, 0, 1], 12),
        // kind 4: cut short; no limit in it, cut short, whole, before a later fault; after the end; the first unknown kind
        (&[4], 11),
        (&no_limit[..18], 11),
        (&no_limit, 12),
        (&[&no_limit[..], &[7]].concat(), 12),
        (&[2, 0, 0, 4], 12),
        (&[6], 10),
    ];
    for &(bytes, number) in broken {
        assert_eq!(plain::walk(bytes), Err(Refusal { number, period: 0 }), "{bytes:?}");
    }
    assert_eq!(plain::walk(&[3, 0, 0, 0, 1, 2, 0, 0]).map(|records| records.periods()), Ok(0));
}

/// All plans tried, against the other ways to a plan, on days with many ties of the kinds that the paths of these calls are for; and
/// refusals 7 and 14 exactly where there is no plan, 7 with its period.
pub fn check(random: &mut Random, calls: &[Call], with: With, days: usize) {
    let paths: Vec<Call> = calls.iter().copied().filter(|call| call.path().is_some()).collect();
    for (day, row) in rows() {
        check_row(&day, row);
    }
    check_files();
    check_loads();
    check_trials();
    if paths.is_empty() {
        return;
    }
    for _ in 0..days {
        let call = random.pick(&paths);
        let mut day = input::day(random, call, Size::Tiny, with);
        if with.ends && random.once_in(8) {
            day.opening = day.asked() as u16 + random.pick(&[1, 2]);
        }
        if plain::plans(&day) <= 100_000.0 {
            check_day(&day);
        }
    }
}

fn check_day(day: &Day) {
    let found = planned(day);
    assert_eq!(found.is_some(), refused(day).is_none(), "{day:?}");
    assert_eq!(plain::in_batches(day), plain::unit_by_unit(day), "{day:?}");
    if day.capacity.iter().map(|&c| c as f64 + 1.0).product::<f64>() <= 10_000.0 {
        let kept = kept_through(day, &mut vec![]);
        let first = (kept < day.periods()).then_some(Refusal { number: 7, period: kept + 1 });
        assert_eq!(plain::shortage(day), first, "{day:?}");
    }
    if let Some(planned) = found {
        assert_eq!(plain::verdict(day, &planned.plan), Verdict::Holds(planned.totals));
        if plain::unequal(day).is_none() && plain::low_store(day).is_none() {
            assert_eq!(plain::loads(day, &planned.plan), plain::counted(day.capacity[0], &planned.plan), "{day:?}");
        }
        let Planned { plan, totals } = plain::recursion(&net(day)).unwrap();
        assert_eq!((plan, totals.cost + standing(day)), (planned.plan, planned.totals.cost), "{day:?}");
    }
}
