//! Inputs for request 2.2: upkeep around its limit, and days that pay as much of it as there can be.
use crate::input::{Input, CALLS};
use crate::plain::{self, Day};

/// At the limit and around it; what was within the limit while upkeep was per period; and the largest that there is.
pub const VALUES: [u32; 9] = [499_999, 500_000, 500_001, 500_002, 750_000, 999_999, 1_000_000, 1_000_001, u32::MAX];

const N: usize = plain::MAX_PERIODS;

/// A day of 96 periods in which every cost is at its limit.
fn dear(demand: &[u16; N], capacity: &[u16; N], opening: u16, closing: u16) -> Day {
    let costs = |limit: u64| vec![limit as u32; N];
    let (setup, unit, holding) = (costs(plain::MAX_SETUP), costs(plain::MAX_UNIT), costs(plain::MAX_HOLDING));
    let store = vec![plain::NO_LIMIT; N];
    Day { demand: demand.to_vec(), capacity: capacity.to_vec(), setup, unit, holding, store, opening, closing }
}

/// Every call on the dearest days. The plans to weigh make all as early as capacity allows, which is held the longest; where it may also be
/// made in the last period, the two are compared.
pub fn dearest() -> Vec<Input> {
    let alone = |i: usize, amount: u16| std::array::from_fn(|k| if k == i { amount } else { 0 });
    let (first, last) = (alone(0, 4096), alone(N - 1, 4096));
    let (half_first, half_last) = (alone(0, 2048), alone(N - 1, 2048));
    let (none, free) = ([0; N], [65_535; N]);
    // 4,096 as full loads of 43 and a part load
    let loads = std::array::from_fn(|i| (4096 - 43 * i as u16).min(43));
    let days = [
        // needed last: made in the first period, in loads, or in any
        (dear(&last, &first, 0, 0), &first, &first),
        (dear(&last, &[43; N], 0, 0), &loads, &loads),
        (dear(&last, &free, 0, 0), &first, &last),
        // handed on: made in the first period, or in any
        (dear(&none, &first, 0, 4096), &first, &first),
        (dear(&none, &free, 0, 4096), &first, &last),
        // there from the beginning: needed last, handed on, or half of it
        (dear(&last, &none, 4096, 0), &none, &none),
        (dear(&none, &free, 4096, 4096), &none, &none),
        (dear(&half_last, &free, 2048, 2048), &half_first, &half_last),
    ];
    days.iter().flat_map(|(day, plan, other)| CALLS.map(|call| Input::exact(call, day, [*plan, *other]))).collect()
}
