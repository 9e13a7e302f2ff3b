//! Request 2.7: the test load's call beside a plain copy of the draws, and the other calls on the days that it draws.
use crate::compare::{self, Seen};
use crate::input::{Call, Input, CALLS};
use crate::plain::{self, Day, MAX_PERIODS, NO_LIMIT};
use crate::random::Random;
use crate::{ends, shrink};
use yakkurem::{codes, Refusal};

/// What a caller hands over: the seed, the count of periods, and how many cells each table has.
#[derive(Clone, Debug)]
pub struct TestLoad {
    seed: u32,
    n: usize,
    lent: [usize; 6],
}

impl TestLoad {
    fn refusals(&self) -> Vec<plain::Refusal> {
        plain::test_load_refusals(self.n, *self.lent.iter().min().unwrap())
    }

    /// What the request says.
    pub fn expected(&self) -> Seen {
        let mut seen = Seen { code: 0, out: vec![], lent: compare::tables_before(&self.lent) };
        match self.refusals().first() {
            Some(refusal) => seen.code = refusal.number + 256 * refusal.period as u64,
            None => compare::fill_tables(&mut seen.lent, &plain::test_load(self.seed, self.n)),
        }
        seen
    }

    /// What the library does.
    pub fn actual(&self) -> Seen {
        let (code, lent) = compare::run_tables(&self.lent, |tables| codes::test_load(self.seed, self.n, tables));
        Seen { code, out: vec![], lent }
    }

    /// The same through the crate's result.
    fn result_agrees(&self, expected: &Seen) -> bool {
        let (mut result, refusal) = (Ok(()), Refusal { number: expected.code % 256, period: expected.code / 256 });
        let (_, lent) = compare::run_tables(&self.lent, |tables| {
            result = yakkurem::test_load(self.seed, self.n, tables);
            0
        });
        lent == expected.lent && result == if expected.code == 0 { Ok(()) } else { Err(refusal) }
    }

    pub fn fails(&self) -> bool {
        let expected = self.expected();
        self.actual() != expected || !self.result_agrees(&expected)
    }

    /// With one number smaller.
    fn smaller(&self) -> Vec<TestLoad> {
        let mut tries: Vec<TestLoad> =
            shrink::smaller(self.seed as u64).into_iter().map(|v| TestLoad { seed: v as u32, ..*self }).collect();
        tries.extend(shrink::smaller(self.n as u64).into_iter().map(|v| TestLoad { n: v as usize, ..*self }));
        for table in 0..6 {
            for length in shrink::smaller(self.lent[table] as u64) {
                let mut other = self.clone();
                other.lent[table] = length as usize;
                tries.push(other);
            }
        }
        tries
    }

    /// One that still fails, and of which no smaller try does; or what was found in good time.
    pub fn smallest(&self) -> TestLoad {
        let mut found = self.clone();
        for _ in 0..10_000 {
            let Some(other) = found.smaller().into_iter().find(TestLoad::fails) else { break };
            found = other;
        }
        found
    }
}

/// Tables of n cells, or some more in each.
fn enough(n: usize, more: usize) -> [usize; 6] {
    std::array::from_fn(|table| n + more * (table + 1))
}

/// Seeds at the ends, around half and around 16 bits; then some that are drawn.
fn seeds(random: &mut Random, drawn: usize) -> Vec<u32> {
    let mut seeds = vec![0, 1, 2, 65_535, 65_536, 0x7fff_ffff, 0x8000_0000, u32::MAX - 1, u32::MAX];
    seeds.extend((0..drawn).map(|_| random.next() as u32));
    seeds
}

/// Accepted: from one period to 96, in tables that just suffice and in longer ones.
fn accepted(random: &mut Random) -> Vec<TestLoad> {
    let mut loads = vec![];
    for seed in seeds(random, 200) {
        for n in [1, 2, random.between(3, 94) as usize, 95, 96] {
            loads.extend([0, 1, 7].map(|more| TestLoad { seed, n, lent: enough(n, more) }));
        }
    }
    loads
}

/// Refused 1: no period, more than 96, and counts that are few modulo a smaller width; in tables that suffice where there can be such, and
/// in short ones, for which 6 holds too.
fn refused_1(random: &mut Random) -> Vec<TestLoad> {
    let mut loads = vec![];
    for seed in seeds(random, 3) {
        for n in [0, 97, 98, 192, 65_536, 65_537, 1 << 32, (1 << 32) + 1, usize::MAX] {
            let lengths = [0, 1, 96, 97, 200, 65_537].map(|length| [length; 6]);
            loads.extend(lengths.map(|lent| TestLoad { seed, n, lent }));
        }
    }
    loads
}

/// Refused 6: one table short, by one cell or of none, or any two of them, or all.
fn refused_6(random: &mut Random) -> Vec<TestLoad> {
    let mut loads = vec![];
    for seed in seeds(random, 3) {
        for n in [1, 2, 50, 96] {
            for (first, second) in (0..6).flat_map(|first| (first..6).map(move |second| (first, second))) {
                for (short, more) in [(n - 1, 0), (n - 1, 3), (0, 0), (0, 3)] {
                    let mut lent = enough(n, more);
                    (lent[first], lent[second]) = (short, short);
                    loads.push(TestLoad { seed, n, lent });
                }
            }
            loads.extend([0, n - 1].map(|length| TestLoad { seed, n, lent: [length; 6] }));
        }
    }
    loads
}

pub fn loads(random: &mut Random) -> Vec<TestLoad> {
    let loads = [accepted(random), refused_1(random), refused_6(random)].concat();
    let kinds = [vec![], vec![1], vec![1, 6], vec![6]];
    let numbers = |load: &TestLoad| load.refusals().iter().map(|refusal| refusal.number).collect::<Vec<_>>();
    assert!(kinds.iter().all(|kind| loads.iter().any(|load| numbers(load) == *kind)), "a kind of refusal was not tried");
    loads
}

/// The plain copy against the request: the need that it names; the seed in 32 bits that wrap; every table from 0 to the highest remainder.
pub fn check_draws() {
    assert_eq!(plain::test_load(0, 1).demand, [13]);
    let day = plain::test_load(0, 1_000_000);
    let mut seed = 0u32;
    for i in 0..day.periods() {
        let drawn = [41, 61, 30_001, 1201, 21].map(|modulus| {
            seed = seed.wrapping_mul(1_664_525).wrapping_add(1_013_904_223);
            (seed >> 16) % modulus
        });
        assert_eq!(drawn, [day.demand[i] as u32, day.capacity[i] as u32, day.setup[i], day.unit[i], day.holding[i]]);
    }
    let ends = |table: &[u32]| (*table.iter().min().unwrap(), *table.iter().max().unwrap());
    let wide = |table: &[u16]| table.iter().map(|&v| v as u32).collect::<Vec<u32>>();
    let tables = [wide(&day.demand), wide(&day.capacity), day.setup, day.unit, day.holding];
    assert_eq!(tables.each_ref().map(|table| ends(table)), [(0, 40), (0, 60), (0, 30_000), (0, 1200), (0, 20)]);
    assert!(day.store.iter().all(|&s| s == NO_LIMIT) && day.opening == 0 && day.closing == 0);
}

/// The other calls on days that are drawn: as they are, and with capacities that can't bind, or without starting cost, by the paths for
/// such days and the full path.
pub fn inputs(random: &mut Random) -> Vec<Input> {
    let mut inputs = vec![];
    for (n, times) in [(1, 40), (2, 40), (5, 40), (24, 20), (MAX_PERIODS, 3)] {
        for _ in 0..times {
            let drawn = plain::test_load(random.next() as u32, n);
            let unbound = Day { capacity: vec![65_535; n], ..drawn.clone() };
            let free = Day { setup: vec![0; n], ..drawn.clone() };
            inputs.extend(CALLS.map(|call| ends::input(call, &drawn)));
            inputs.extend([Call::Full, Call::Uncapped, Call::Equal].map(|call| ends::input(call, &unbound)));
            inputs.extend([Call::Full, Call::Free].map(|call| ends::input(call, &free)));
        }
    }
    inputs
}

/// Days so drawn with capacities that can't bind, by the uncapped path: of 96 periods for most seeds, and of every length.
pub fn unbound(random: &mut Random) -> Vec<Input> {
    let mut inputs = vec![];
    let mut draw = |seed: u32, n: usize| {
        let day = Day { capacity: vec![65_535; n], ..plain::test_load(seed, n) };
        inputs.push(Input::exact(Call::Uncapped, &day, [&[]; 2]));
    };
    for seed in seeds(random, 300) {
        draw(seed, MAX_PERIODS);
    }
    for n in 1..MAX_PERIODS {
        draw(random.next() as u32, n);
    }
    inputs
}
