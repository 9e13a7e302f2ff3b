//! Request 2.11 of the plain implementation: rows by hand; and the inputs that are gone through one by one, which have to tell every slip that
//! a call may make. What comes of a play is computed here once more, by formulas in place of watt-hours, and with a slip it is wrong.
use crate::compare;
use crate::input::{Call, Input};
use crate::plain::{self, Day, Play, Refusal, Rule, Verdict};
use crate::play;

/// A plan that holds, the needs that it is played against, and what comes of it: made, delivered, missed, spilled, left.
struct Played {
    demand: &'static [u16],
    store: &'static [u16],
    /// A and Z
    ends: (u16, u16),
    plan: &'static [u16],
    actual: &'static [u16],
    claim: [u64; 5],
}

#[rustfmt::skip]
const PLAYED: &[Played] = &[
    // the fourth marked day's plan: as planned; more needed last, first, in both; less needed, and nothing; what is made later serves no need
    // of before
    Played { demand: &[2, 3], store: &[9, 9], ends: (0, 0), plan: &[5, 0], actual: &[2, 3], claim: [5, 5, 0, 0, 0] },
    Played { demand: &[2, 3], store: &[9, 9], ends: (0, 0), plan: &[5, 0], actual: &[3, 3], claim: [5, 5, 1, 0, 0] },
    Played { demand: &[2, 3], store: &[9, 9], ends: (0, 0), plan: &[5, 0], actual: &[6, 0], claim: [5, 5, 1, 0, 0] },
    Played { demand: &[2, 3], store: &[9, 9], ends: (0, 0), plan: &[5, 0], actual: &[6, 2], claim: [5, 5, 3, 0, 0] },
    Played { demand: &[2, 3], store: &[9, 9], ends: (0, 0), plan: &[5, 0], actual: &[1, 2], claim: [5, 3, 0, 0, 2] },
    Played { demand: &[2, 3], store: &[9, 9], ends: (0, 0), plan: &[5, 0], actual: &[0, 0], claim: [5, 0, 0, 0, 5] },
    Played { demand: &[2, 3], store: &[9, 9], ends: (0, 0), plan: &[2, 3], actual: &[4, 1], claim: [5, 3, 2, 0, 2] },
    // a full battery: what does not fit is spilled, and missing later; what just fits is not; the need goes first
    Played { demand: &[2, 3], store: &[3, 9], ends: (0, 0), plan: &[5, 0], actual: &[2, 3], claim: [5, 5, 0, 0, 0] },
    Played { demand: &[2, 3], store: &[3, 9], ends: (0, 0), plan: &[5, 0], actual: &[0, 0], claim: [5, 0, 0, 2, 3] },
    Played { demand: &[2, 3], store: &[3, 9], ends: (0, 0), plan: &[5, 0], actual: &[1, 4], claim: [5, 4, 1, 1, 0] },
    Played { demand: &[2, 3], store: &[0, 0], ends: (0, 0), plan: &[2, 3], actual: &[2, 3], claim: [5, 5, 0, 0, 0] },
    Played { demand: &[2, 3], store: &[0, 0], ends: (0, 0), plan: &[2, 3], actual: &[1, 2], claim: [5, 3, 0, 2, 0] },
    Played { demand: &[1, 1, 1], store: &[9, 0, 9], ends: (0, 0), plan: &[1, 1, 1], actual: &[0, 0, 4], claim: [3, 1, 3, 2, 0] },
    // charge at both ends: above the first limit, and gone with the first need or spilled after it; as much is left as is to be, or more, or less
    Played { demand: &[9], store: &[0], ends: (9, 0), plan: &[0], actual: &[9], claim: [0, 9, 0, 0, 0] },
    Played { demand: &[9], store: &[0], ends: (9, 0), plan: &[0], actual: &[4], claim: [0, 4, 0, 5, 0] },
    Played { demand: &[2, 3], store: &[9, 1], ends: (1, 1), plan: &[5, 0], actual: &[2, 3], claim: [5, 5, 0, 0, 1] },
    Played { demand: &[2, 3], store: &[9, 1], ends: (1, 1), plan: &[5, 0], actual: &[2, 0], claim: [5, 2, 0, 3, 1] },
    Played { demand: &[2, 3], store: &[9, 9], ends: (1, 1), plan: &[5, 0], actual: &[2, 0], claim: [5, 2, 0, 0, 4] },
    Played { demand: &[2, 3], store: &[9, 9], ends: (1, 1), plan: &[5, 0], actual: &[2, 4], claim: [5, 6, 0, 0, 0] },
    Played { demand: &[2, 3], store: &[9, 9], ends: (1, 1), plan: &[5, 0], actual: &[4096, 4096], claim: [5, 6, 8186, 0, 0] },
    Played { demand: &[2, 3], store: &[2, 2], ends: (1, 1), plan: &[1, 4], actual: &[4, 1], claim: [5, 3, 2, 1, 2] },
];

impl Played {
    fn input(&self) -> Input {
        let n = self.demand.len();
        let (demand, capacity, store) = (self.demand.to_vec(), vec![5; n], self.store.to_vec());
        let (setup, unit, holding, (opening, closing)) = (vec![10; n], vec![1; n], vec![1; n], self.ends);
        let day = Day { demand, capacity, setup, unit, holding, store, opening, closing };
        Input { actual: self.actual.to_vec(), ..Input::exact(Call::Play, &day, [self.plan, &[]]) }
    }
}

/// The rows as inputs.
pub fn plays() -> Vec<Input> {
    PLAYED.iter().map(Played::input).collect()
}

/// How a call may be wrong: in a period, in the sums, of a broken plan, and in what it refuses.
const SLIPS: &[&str] = &[
    "the need goes before what is made",
    "spilled before delivered",
    "nothing is spilled",
    "spilled where it just fits",
    "missed, and delivered later",
    "the first limit in all periods",
    "no limit in the last period",
    "needs as planned",
    "the opening charge forgotten",
    "the opening charge limited",
    "the opening charge counted as made",
    "amounts past the last period made",
    "missed in the last period alone",
    "spilled in the last period alone",
    "left before it is spilled",
    "left as planned",
    "missed modulo 65,536",
    "broken plans played",
    "plans with charge over played",
    "plans above store played",
    "plans weighed on actual needs",
    "any number of actual needs",
    "more actual needs",
    "fewer actual needs",
    "actual needs of any size",
    "the last actual need of any size",
    "actual needs up to 4,095",
    "actual needs up to 4,097",
    "values of the day before actual needs",
    "the weigher's refusals first",
    "the verdict before actual needs are tested",
    "the sum of actual needs tested",
    "too few amounts first",
    "too many amounts",
];

/// Which refusal is given.
fn refused(slip: &str, Input { day, plans, actual, .. }: &Input) -> Option<Refusal> {
    let n = day.periods();
    let (few, many) = (actual.len() < n, actual.len() > n);
    let mut tested = actual.clone();
    if slip == "any number of actual needs" || slip == "more actual needs" && many || slip == "fewer actual needs" && few {
        tested.resize(n, 0);
    }
    for (i, need) in tested.iter_mut().enumerate() {
        *need = match slip {
            "actual needs of any size" => 0,
            "the last actual need of any size" if i + 1 == n => 0,
            "actual needs up to 4,095" if *need == 4096 => 4097,
            "actual needs up to 4,097" if *need == 4097 => 4096,
            _ => *need,
        };
    }
    let refusals = plain::play_refusals(day, &plans[0], &tested);
    let weighers = plain::weigh_refusals(day, &[&plans[0]]);
    let of_number = |number: u64| refusals.iter().copied().find(|refusal| refusal.number == number);
    let none = |number: u64, condition: bool| condition.then_some(Refusal { number, period: 0 });
    let needed: u64 = actual.iter().map(|&need| need as u64).sum();
    let (before, after): (Vec<Refusal>, Vec<Refusal>) = refusals.iter().partition(|refusal| refusal.number < 4);
    match slip {
        "values of the day before actual needs" if before.first().is_some_and(|refusal| refusal.number == 3) => {
            plain::bad_value(day).or(of_number(3))
        }
        "the weigher's refusals first" => weighers.first().copied().or(refusals.first().copied()),
        "the sum of actual needs tested" => {
            before.first().copied().or(none(4, needed + day.closing as u64 > plain::MAX_TOTAL)).or(after.first().copied())
        }
        "too few amounts first" => of_number(6).or(refusals.first().copied()),
        "too many amounts" => refusals.first().copied().or(none(6, plans[0].len() > n)),
        _ => refusals.first().copied(),
    }
}

/// Which rule the plan breaks, and where.
fn broken(slip: &str, Input { day, plans, actual, .. }: &Input) -> Option<(Rule, usize)> {
    let on_actual = || day.with_needs(&actual[..day.periods()]);
    let verdict = plain::verdict(&if slip == "plans weighed on actual needs" { on_actual() } else { day.clone() }, &plans[0]);
    match (slip, verdict) {
        (_, Verdict::Holds(_)) | ("broken plans played", _) => None,
        ("plans with charge over played", Verdict::Broken(Rule::Over, _)) => None,
        ("plans above store played", Verdict::Broken(Rule::AboveStore, _)) => None,
        (_, Verdict::Broken(rule, period)) => Some((rule, period)),
    }
}

/// The steps of a period.
#[derive(Clone, Copy)]
enum Step {
    Make,
    Deliver,
    Spill,
}

/// The order of a period's steps.
fn order(slip: &str) -> [Step; 3] {
    match slip {
        "the need goes before what is made" => [Step::Deliver, Step::Make, Step::Spill],
        "spilled before delivered" => [Step::Make, Step::Spill, Step::Deliver],
        _ => [Step::Make, Step::Deliver, Step::Spill],
    }
}

/// The limit in a period's place, above which charge is spilled.
fn limit(slip: &str, day: &Day, i: usize) -> u64 {
    match slip {
        "nothing is spilled" => u64::MAX,
        "spilled where it just fits" => (day.store[i] as u64).saturating_sub(1),
        "the first limit in all periods" => day.store[0] as u64,
        "no limit in the last period" if i + 1 == day.periods() => u64::MAX,
        _ => day.store[i] as u64,
    }
}

/// What is made over the day.
fn produced(slip: &str, day: &Day, plan: &[u16]) -> u64 {
    let made = |amounts: &[u16]| amounts.iter().map(|&amount| amount as u64).sum::<u64>();
    match slip {
        "the opening charge counted as made" => day.opening as u64 + made(&plan[..day.periods()]),
        "amounts past the last period made" => made(plan),
        _ => made(&plan[..day.periods()]),
    }
}

fn played(slip: &str, Input { day, plans, actual, .. }: &Input) -> Play {
    let mut play = Play { produced: produced(slip, day, &plans[0]), ..Play::default() };
    let mut charge = day.opening as u64;
    match slip {
        "the opening charge forgotten" => charge = 0,
        "the opening charge limited" => {
            charge = charge.min(day.store[0] as u64);
            play.disposed = day.opening as u64 - charge;
        }
        _ => {}
    }
    let (mut lost, mut disposed, mut unspilled) = (0, 0, 0);
    for i in 0..day.periods() {
        let need = match slip {
            "needs as planned" => day.demand[i] as u64,
            "missed, and delivered later" => actual[i] as u64 + std::mem::take(&mut play.lost),
            _ => actual.get(i).copied().unwrap_or(0) as u64,
        };
        let limit = limit(slip, day, i);
        for step in order(slip) {
            match step {
                Step::Make => charge += plans[0][i] as u64,
                Step::Deliver => {
                    let delivered = need.min(charge);
                    lost = need - delivered;
                    charge -= delivered;
                    play.delivered += delivered;
                    play.lost += lost;
                }
                Step::Spill => {
                    unspilled = charge;
                    charge = charge.min(limit);
                    disposed = unspilled - charge;
                    play.disposed += disposed;
                }
            }
        }
    }
    match slip {
        "missed in the last period alone" => play.lost = lost,
        "missed modulo 65,536" => play.lost %= 65_536,
        "spilled in the last period alone" => play.disposed = disposed,
        _ => {}
    }
    play.left = match slip {
        "left before it is spilled" => unspilled,
        "left as planned" => day.closing as u64,
        _ => charge,
    };
    play
}

/// A call with this slip: its code, and what came of a plan that was played.
fn said(slip: &str, input: &Input) -> (u64, Option<Play>) {
    let weighed = plain::weigh_refusals(&input.day, &[&input.plans[0]]).is_empty();
    if slip == "the verdict before actual needs are tested" && weighed {
        if let Some((rule, period)) = broken(slip, input) {
            return (compare::broken(rule, period), None);
        }
    }
    if let Some(refusal) = refused(slip, input) {
        return (refusal.number + 256 * refusal.period as u64, None);
    }
    match broken(slip, input) {
        Some((rule, period)) => (compare::broken(rule, period), None),
        None => (0, Some(played(slip, input))),
    }
}

/// The plain implementation on the rows, and without a slip on all inputs; every slip shows on some input.
pub fn check_plays() {
    for (input, row) in plays().iter().zip(PLAYED) {
        let [produced, delivered, lost, disposed, left] = row.claim;
        assert!(matches!(plain::verdict(&input.day, row.plan), Verdict::Holds(_)), "{input:?}");
        assert_eq!(plain::play(&input.day, row.plan, row.actual), Play { produced, delivered, lost, disposed, left }, "{input:?}");
    }
    let right = |input: &Input| {
        let seen = compare::expected(input);
        (seen.code, (seen.code == 0).then(|| compare::play(&seen)))
    };
    let told: Vec<_> = play::inputs().into_iter().chain(plays()).map(|input| (right(&input), input)).collect();
    for (right, input) in &told {
        assert_eq!(said("none", input), *right, "{input:?}");
    }
    for slip in SLIPS {
        assert!(told.iter().any(|(right, input)| said(slip, input) != *right), "no input tells of this slip: {slip}");
    }
}
