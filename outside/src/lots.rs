//! Section 3 of the report in plain code, for request 2.13: the plan of a day whose capacities and stores can't bind, by where its last run begins.
//! A run makes all that it needs in its first period, as one lot. Every candidate is summed from nothing and in full, and none is dropped; so
//! nothing here can be wrong in the way of a search that leaves some out. It is quick where recursion (5) takes long.
use crate::plain::{self, Day, Planned};

/// A day with its sums, from before the first period on.
struct Sums<'a> {
    day: &'a Day,
    /// what must have been made by the end of period i: the report's R, less A, with Z in the last period
    least: Vec<u64>,
    /// the charge left there if nothing is made, which is below 0 once A has run out
    unmade: Vec<i64>,
}

impl Sums<'_> {
    /// What a run from period l + 1 to period m makes: in its first period all that must have been made by its end, and in the others nothing.
    fn lot(&self, l: usize, m: usize) -> u64 {
        self.least[m] - self.least[l]
    }

    /// E_lm, what such a run costs: its lot; and upkeep in each period, on the charge before it and on the charge left, what is there of A and
    /// what is handed on included.
    fn run(&self, l: usize, m: usize) -> u64 {
        let lot = self.lot(l, m);
        let making = if lot == 0 { 0 } else { self.day.setup[l] as u64 + self.day.unit[l] as u64 * lot };
        let charge = |i: usize| {
            let made = if i == l { self.least[l] } else { self.least[m] };
            u64::try_from(self.unmade[i] + made as i64).expect("a run that is not short")
        };
        let upkeep = |i: usize| self.day.holding[i - 1] as u64 * (charge(i - 1) + charge(i));
        making + (l + 1..=m).map(upkeep).sum::<u64>()
    }
}

/// The plan: D_m, the least cost of the first m periods, is the least of D_l + E_lm, and of equals the run that begins first is taken.
pub fn plan(day: &Day) -> Planned {
    let n = day.periods();
    let least = (0..=n).map(|i| day.least_by(i)).collect();
    let unmade = (0..=n).map(|i| day.left(i, 0)).collect();
    let sums = Sums { day, least, unmade };
    let (mut costs, mut begins) = (vec![0], vec![0]);
    for m in 1..=n {
        let (cost, begin) = (0..m).map(|l| (costs[l] + sums.run(l, m), l)).min().expect("a candidate");
        costs.push(cost);
        begins.push(begin);
    }
    let mut plan = vec![0; n];
    let mut m = n;
    while m > 0 {
        let l = begins[m];
        plan[l] = sums.lot(l, m) as u16;
        m = l;
    }
    let totals = plain::totals(day, &plan);
    assert_eq!(totals.cost, costs[n], "section 3 and sum (1) differ");
    Planned { plan, totals }
}
