//! Inputs with charge at the day's ends that are gone through one by one: at the limits, and files with its record in every place.
use crate::input::{Call, Input};
use crate::plain::{self, Day};

/// A day of n periods that needs `total` in all, as evenly as can be, without store limits.
pub fn day(n: usize, total: usize, capacity: u16, opening: u16, closing: u16) -> Day {
    Day {
        demand: (0..n).map(|i| (total * (i + 1) / n - total * i / n) as u16).collect(),
        capacity: vec![capacity; n],
        setup: (0..n).map(|i| 7 * i as u32 % 50).collect(),
        unit: (0..n).map(|i| 3 * i as u32 % 5).collect(),
        holding: (0..n).map(|i| 5 * i as u32 % 4).collect(),
        store: vec![plain::NO_LIMIT; n],
        opening,
        closing,
    }
}

/// The input of a call; the plans to weigh make what is wanted in the last period.
pub fn input(call: Call, day: &Day) -> Input {
    let mut plan = vec![0; day.periods()];
    *plan.last_mut().unwrap() = day.least_by(day.periods()).min(65_535) as u16;
    Input::exact(call, day, [&plan, &plan])
}

/// Every call on days whose need and closing charge are at, just below and just above the limit of 4,096, or as large as they can be;
/// with opening charges up to, at and above what is asked for.
pub fn limits(calls: &[Call]) -> Vec<Input> {
    let mut inputs = vec![];
    for (total, closing) in [(0, 0), (0, 1), (0, 4096), (1, 4095), (4096, 0), (0, 4097), (1, 4096), (4096, 1), (4096, 65_535)] {
        let asked = total as u64 + closing as u64;
        for opening in [0, 1, asked.saturating_sub(1), asked, asked + 1, 65_535] {
            let opening = opening.min(65_535) as u16;
            for (n, capacity) in [(1, 65_535), (2, 65_535), (2, 2048), (2, 2047), (96, 43)] {
                let day = day(n, total, capacity, opening, closing);
                inputs.extend(calls.iter().map(|&call| input(call, &day)));
            }
        }
    }
    inputs
}

/// A file cut at every length from `least` on.
pub fn cuts(file: &[u8], least: usize) -> impl Iterator<Item = Vec<u8>> + '_ {
    (least..=file.len()).map(|length| file[..length].to_vec())
}

/// Files of days of 0 to 3 periods with and without the record of the charge at both ends, and with one more of it in every place, also
/// after the end; each cut at every length.
pub fn files() -> Vec<Vec<u8>> {
    let mut files = vec![];
    for (n, (opening, closing)) in (0..=3).flat_map(|n| [(0, 0), (1, 0), (0, 1), (0x0102, 0xfffe)].map(|ends| (n, ends))) {
        let mut day = day(3, 5, 3, opening, closing);
        day.demand.truncate(n);
        let file = plain::unstamped(&day);
        files.extend(cuts(&file, 0));
        let periods = file.len() - (17 * n + 3);
        let records = (0..=n).map(|i| periods + 17 * i);
        let front = (periods > 0).then_some(0);
        for at in records.chain(front).chain([file.len()]) {
            for record in [plain::charge_record(0, 0), plain::charge_record(0, 1), plain::charge_record(256, 0)] {
                let mut file = file.clone();
                file.splice(at..at, record);
                files.extend(cuts(&file, at + 1));
            }
        }
    }
    files
}

/// Both calls on a file: with tables of four cells, which serve, and for every period that may be in it.
pub fn on_file(file: &[u8]) -> Vec<Input> {
    let of = |call, period, lent| Input::on_file(call, file.to_vec(), period, lent);
    let last = plain::walk(file).map_or(0, |records| records.periods() + 1);
    let mut inputs = vec![of(Call::Read, 0, vec![4; 6])];
    inputs.extend((0..=last).map(|period| of(Call::Lookup, period, vec![])));
    inputs
}
