//! The calls with their codes and out-arrays, as include/yakkurem.h has them; the price, which is no code. A slice goes over as its pointer and its length.
//! The library reads and writes only inside these, keeps no pointer, and asks nothing of its caller: so every call is safe.
use crate::{Day, Memory, Stamp, TablesMut};

/// Declares calls with a day: need, capacity, start, unit, upkeep and store, each with its length; opening, closing. It comes first, but for
/// what stands in brackets.
macro_rules! calls_with_a_day {
    ($(fn $call:ident$([$($first:ty),*])?($($more:ty),*);)*) => {
        extern "C" {
            $(fn $call(
                $($(_: $first,)*)?
                _: *const u16, _: usize, _: *const u16, _: usize, _: *const u32, _: usize, _: *const u32, _: usize, _: *const u32, _: usize,
                _: *const u16, _: usize, _: u16, _: u16, $(_: $more),*
            ) -> u64;)*
        }
    };
}

/// Calls one of them.
macro_rules! call_with_day {
    ($call:ident$([$($first:expr),*])?, $day:ident, $($more:expr),*) => {{
        let Day { demand, capacity, setup, unit, holding, store, opening, closing } = $day;
        unsafe {
            $call(
                $($($first,)*)?
                demand.as_ptr(), demand.len(), capacity.as_ptr(), capacity.len(), setup.as_ptr(), setup.len(), unit.as_ptr(), unit.len(),
                holding.as_ptr(), holding.len(), store.as_ptr(), store.len(), opening, closing, $($more),*
            )
        }
    }};
}

/// Calls one that is a path.
macro_rules! call_path {
    ($call:ident, $day:ident, $memory:ident, $answer:ident) => {{
        let Memory { costs, choices, slots } = $memory;
        let (cost_cells, choice_cells, slot_count) = (costs.len(), choices.len(), slots.len());
        let (costs, choices, slots) = (costs.as_mut_ptr(), choices.as_mut_ptr(), slots.as_mut_ptr());
        call_with_day!($call, $day, costs, cost_cells, choices, choice_cells, slots, slot_count, $answer.as_mut_ptr())
    }};
}

calls_with_a_day! {
    fn yakkurem_full(*mut u64, usize, *mut u16, usize, *mut u16, usize, *mut u64);
    fn yakkurem_uncapped(*mut u64, usize, *mut u16, usize, *mut u16, usize, *mut u64);
    fn yakkurem_equal(*mut u64, usize, *mut u16, usize, *mut u16, usize, *mut u64);
    fn yakkurem_free(*mut u64, usize, *mut u16, usize, *mut u64);
    fn yakkurem_bounds[*const u16, usize](*mut u64, usize, *mut u16, usize, *mut u64);
    fn yakkurem_big(usize, *mut u64, usize, *mut u16, usize, *mut u64);
    fn yakkurem_weigh(*const u16, usize, *mut u64);
    fn yakkurem_compare(*const u16, usize, *const u16, usize, *mut i64);
    fn yakkurem_play(*const u16, usize, *const u16, usize, *mut u64);
    fn yakkurem_write(u16, u16, *mut u8, usize, *mut u64);
}

#[rustfmt::skip]
extern "C" {
    fn yakkurem_read(
        file: *const u8, _: usize, expected: *const u16, _: usize,
        need: *mut u16, _: usize, capacity: *mut u16, _: usize, start: *mut u32, _: usize, unit: *mut u32, _: usize, upkeep: *mut u32, _: usize,
        store: *mut u16, _: usize, day: *mut u64,
    ) -> u64;
    fn yakkurem_lookup(file: *const u8, _: usize, period: usize, part: *mut u64) -> u64;
    fn yakkurem_test_load(
        seed: u32, n: usize,
        need: *mut u16, _: usize, capacity: *mut u16, _: usize, start: *mut u32, _: usize, unit: *mut u32, _: usize, upkeep: *mut u32, _: usize,
        store: *mut u16, _: usize,
    ) -> u64;
    fn yakkurem_price(cost: u64) -> u64;
}

pub fn full(day: Day, memory: Memory, answer: &mut [u64; 2]) -> u64 {
    call_path!(yakkurem_full, day, memory, answer)
}

pub fn uncapped(day: Day, memory: Memory, answer: &mut [u64; 2]) -> u64 {
    call_path!(yakkurem_uncapped, day, memory, answer)
}

pub fn equal(day: Day, memory: Memory, answer: &mut [u64; 4]) -> u64 {
    call_path!(yakkurem_equal, day, memory, answer)
}

pub fn free(day: Day, costs: &mut [u64], slots: &mut [u16], answer: &mut [u64; 2]) -> u64 {
    call_with_day!(yakkurem_free, day, costs.as_mut_ptr(), costs.len(), slots.as_mut_ptr(), slots.len(), answer.as_mut_ptr())
}

pub fn bounds(lowest: &[u16], day: Day, costs: &mut [u64], choices: &mut [u16], answer: &mut [u64; 2]) -> u64 {
    let (cost_cells, choice_cells) = (costs.len(), choices.len());
    let (costs, choices) = (costs.as_mut_ptr(), choices.as_mut_ptr());
    call_with_day!(yakkurem_bounds[lowest.as_ptr(), lowest.len()], day, costs, cost_cells, choices, choice_cells, answer.as_mut_ptr())
}

pub fn big(day: Day, trials: usize, costs: &mut [u64], slots: &mut [u16], answer: &mut [u64; 4]) -> u64 {
    call_with_day!(yakkurem_big, day, trials, costs.as_mut_ptr(), costs.len(), slots.as_mut_ptr(), slots.len(), answer.as_mut_ptr())
}

pub fn weigh(day: Day, plan: &[u16], answer: &mut [u64; 2]) -> u64 {
    call_with_day!(yakkurem_weigh, day, plan.as_ptr(), plan.len(), answer.as_mut_ptr())
}

pub fn compare(day: Day, first: &[u16], second: &[u16], difference: &mut [i64; 1]) -> u64 {
    call_with_day!(yakkurem_compare, day, first.as_ptr(), first.len(), second.as_ptr(), second.len(), difference.as_mut_ptr())
}

pub fn play(day: Day, plan: &[u16], actual: &[u16], answer: &mut [u64; 5]) -> u64 {
    call_with_day!(yakkurem_play, day, plan.as_ptr(), plan.len(), actual.as_ptr(), actual.len(), answer.as_mut_ptr())
}

#[rustfmt::skip]
pub fn read(file: &[u8], expected: &[u16], tables: TablesMut, day: &mut [u64; 3]) -> u64 {
    let TablesMut { demand, capacity, setup, unit, holding, store } = tables;
    unsafe {
        yakkurem_read(
            file.as_ptr(), file.len(), expected.as_ptr(), expected.len(), demand.as_mut_ptr(), demand.len(), capacity.as_mut_ptr(), capacity.len(),
            setup.as_mut_ptr(), setup.len(), unit.as_mut_ptr(), unit.len(), holding.as_mut_ptr(), holding.len(), store.as_mut_ptr(), store.len(),
            day.as_mut_ptr(),
        )
    }
}

pub fn lookup(file: &[u8], period: usize, part: &mut [u64; 2]) -> u64 {
    unsafe { yakkurem_lookup(file.as_ptr(), file.len(), period, part.as_mut_ptr()) }
}

pub fn write(day: Day, stamp: Stamp, out: &mut [u8], count: &mut [u64; 1]) -> u64 {
    call_with_day!(yakkurem_write, day, stamp.station, stamp.date, out.as_mut_ptr(), out.len(), count.as_mut_ptr())
}

#[rustfmt::skip]
pub fn test_load(seed: u32, n: usize, tables: TablesMut) -> u64 {
    let TablesMut { demand, capacity, setup, unit, holding, store } = tables;
    unsafe {
        yakkurem_test_load(
            seed, n, demand.as_mut_ptr(), demand.len(), capacity.as_mut_ptr(), capacity.len(), setup.as_mut_ptr(), setup.len(),
            unit.as_mut_ptr(), unit.len(), holding.as_mut_ptr(), holding.len(), store.as_mut_ptr(), store.len(),
        )
    }
}

pub fn price(cost: u64) -> u64 {
    unsafe { yakkurem_price(cost) }
}
