//! Makes a failing input smaller as long as it still fails, and prints it.
use crate::input::{Call, Input};
use crate::plain::{self, Day, Stamp};
use std::time::{Duration, Instant};

/// Smaller numbers to try in place of one.
pub fn smaller(v: u64) -> Vec<u64> {
    let mut tries = vec![];
    for w in [0, 1, v / 2, v.saturating_sub(1)] {
        if w < v && !tries.contains(&w) {
            tries.push(w);
        }
    }
    tries
}

fn without<T: Clone>(table: &[T], i: usize) -> Vec<T> {
    let mut rest = table.to_vec();
    if i < rest.len() {
        rest.remove(i);
    }
    rest
}

/// No store limit, which is simplest of all, or a smaller one.
fn lower(limit: u64) -> Vec<u64> {
    if limit == plain::NO_LIMIT as u64 {
        return vec![];
    }
    let mut tries = smaller(limit);
    tries.insert(0, plain::NO_LIMIT as u64);
    tries
}

/// A part of an input that is a list of numbers.
type Numbers<T> = fn(&mut Input) -> &mut Vec<T>;

/// Each input with one entry of a table made smaller.
fn values<T: Copy + Into<u64>>(input: &Input, table: Numbers<T>, of: fn(u64) -> T, smaller: fn(u64) -> Vec<u64>, tries: &mut Vec<Input>) {
    let mut copy = input.clone();
    for i in 0..table(&mut copy).len() {
        for v in smaller(table(&mut copy)[i].into()) {
            let mut next = input.clone();
            table(&mut next)[i] = of(v);
            tries.push(next);
        }
    }
}

/// Inputs that are a step smaller, the largest steps first.
fn steps(input: &Input) -> Vec<Input> {
    let mut tries = vec![];
    let day = &input.day;
    let of_day = [day.demand.len(), day.capacity.len(), day.setup.len(), day.unit.len(), day.holding.len(), day.store.len()];
    for i in 0..of_day.into_iter().chain([input.lowest.len(), input.actual.len()]).max().unwrap() {
        let mut next = input.clone();
        next.day.demand = without(&day.demand, i);
        next.day.capacity = without(&day.capacity, i);
        next.day.setup = without(&day.setup, i);
        next.day.unit = without(&day.unit, i);
        next.day.holding = without(&day.holding, i);
        next.day.store = without(&day.store, i);
        next.lowest = without(&input.lowest, i);
        next.actual = without(&input.actual, i);
        next.plans = input.plans.iter().map(|plan| without(plan, i)).collect();
        tries.push(next);
    }
    // a period of a file that is whole, and of its end's count
    if let Ok(records) = plain::walk(&input.file) {
        let count = (records.periods() as u16).wrapping_sub(1).to_be_bytes();
        for &[body, length] in &records.places {
            let mut file = input.file.clone();
            file.drain(body - 1..body + length);
            let end = file.len() - plain::END_BODY;
            file[end..].copy_from_slice(&count);
            tries.push(Input { file, ..input.clone() });
        }
    }
    // records of any file: the first two may have 5 bytes each
    for (first, length) in [(0, 5), (0, 17), (5, 17), (10, 17), (0, 19), (5, 19), (10, 19)] {
        for at in (first..input.file.len()).step_by(length) {
            let mut next = input.clone();
            next.file.drain(at..(at + length).min(input.file.len()));
            tries.push(next);
        }
    }
    // a file's stamp together with the expected one
    if let [station, date] = input.expected[..] {
        if input.file.starts_with(&plain::stamp_record(Stamp { station, date })) {
            let unstamped = Input { file: input.file[1 + plain::STAMP_BODY..].to_vec(), ..input.clone() };
            tries.extend(smaller(station as u64).into_iter().map(|v| unstamped.stamped(Stamp { station: v as u16, date })));
            tries.extend(smaller(date as u64).into_iter().map(|v| unstamped.stamped(Stamp { station, date: v as u16 })));
        }
    }
    for station in smaller(input.stamp.station as u64) {
        tries.push(Input { stamp: Stamp { station: station as u16, ..input.stamp }, ..input.clone() });
    }
    for date in smaller(input.stamp.date as u64) {
        tries.push(Input { stamp: Stamp { date: date as u16, ..input.stamp }, ..input.clone() });
    }
    tries.extend((0..input.expected.len()).map(|i| Input { expected: without(&input.expected, i), ..input.clone() }));
    // the charge at both ends, together and alone
    let both = day.opening.min(day.closing) as u64;
    for less in smaller(both).into_iter().map(|v| (both - v) as u16) {
        let ends = Day { opening: day.opening - less, closing: day.closing - less, ..day.clone() };
        tries.push(Input { day: ends, ..input.clone() });
    }
    for opening in smaller(day.opening as u64) {
        tries.push(Input { day: Day { opening: opening as u16, ..day.clone() }, ..input.clone() });
    }
    for closing in smaller(day.closing as u64) {
        tries.push(Input { day: Day { closing: closing as u16, ..day.clone() }, ..input.clone() });
    }
    values(input, |x| &mut x.day.store, |v| v as u16, lower, &mut tries);
    values(input, |x| &mut x.day.demand, |v| v as u16, smaller, &mut tries);
    values(input, |x| &mut x.lowest, |v| v as u16, smaller, &mut tries);
    values(input, |x| &mut x.actual, |v| v as u16, smaller, &mut tries);
    values(input, |x| &mut x.day.capacity, |v| v as u16, smaller, &mut tries);
    values(input, |x| &mut x.day.setup, |v| v as u32, smaller, &mut tries);
    values(input, |x| &mut x.day.unit, |v| v as u32, smaller, &mut tries);
    values(input, |x| &mut x.day.holding, |v| v as u32, smaller, &mut tries);
    values(input, |x| &mut x.file, |v| v as u8, smaller, &mut tries);
    values(input, |x| &mut x.expected, |v| v as u16, smaller, &mut tries);
    if !input.plans.is_empty() {
        values(input, |x| &mut x.plans[0], |v| v as u16, smaller, &mut tries);
    }
    if input.plans.len() > 1 {
        values(input, |x| &mut x.plans[1], |v| v as u16, smaller, &mut tries);
    }
    for period in smaller(input.period as u64) {
        tries.push(Input { period: period as usize, ..input.clone() });
    }
    for trials in smaller(input.trials as u64) {
        tries.push(Input { trials: trials as usize, ..input.clone() });
    }
    for i in 0..input.lent.len() {
        for length in smaller(input.lent[i] as u64) {
            let mut next = input.clone();
            next.lent[i] = length as usize;
            tries.push(next);
        }
    }
    // lent parts that went with a larger day: as many cells as are needed now
    for next in tries.clone() {
        let needed = next.needed();
        if needed.len() == next.lent.len() && next.lent != needed {
            tries.push(Input { lent: needed, ..next });
        }
    }
    tries
}

/// Inputs with half of the file or of the expected numbers, for one that is too long to keep a copy for each step.
fn halves(input: &Input) -> Vec<Input> {
    let Input { file, expected, .. } = input;
    let (bytes, numbers) = (file.len() / 2, expected.len() / 2);
    let files = [&file[..bytes], &file[bytes..]].map(|file| Input { file: file.to_vec(), ..input.clone() });
    let counts = [&expected[..numbers], &expected[numbers..]].map(|expected| Input { expected: expected.to_vec(), ..input.clone() });
    [files, counts].into_iter().flatten().filter(|half| half != input).collect()
}

/// The smallest failing input that is found in a few seconds.
pub fn shrink(input: &Input, fails: impl Fn(&Input) -> bool) -> Input {
    let end = Instant::now() + Duration::from_secs(10);
    let mut best = input.clone();
    loop {
        let long = best.file.len() > 5000 || best.expected.len() > 300;
        let next = if long { halves(&best) } else { steps(&best) };
        let next = next.into_iter().find(|next| Instant::now() < end && fails(next));
        match next {
            Some(next) => best = next,
            None => return best,
        }
    }
}

/// An input in document 01's form.
pub fn show(input: &Input) -> String {
    let Input { day, lowest, actual, plans, file, expected, stamp, period, trials, lent, .. } = input;
    let words = |numbers: Vec<u64>| numbers.iter().map(u64::to_string).collect::<Vec<_>>().join(" ");
    let words16 = |table: &[u16]| words(table.iter().map(|&v| v as u64).collect());
    let words32 = |table: &[u32]| words(table.iter().map(|&v| v as u64).collect());
    let mut lines = vec![format!("call {:?}", input.call)];
    if !matches!(input.call, Call::Read | Call::Lookup) {
        lines.push(format!(
            "needs {}; capacities {}; b {}; p {}; h {}; s {}; A {}; Z {}",
            words16(&day.demand),
            words16(&day.capacity),
            words32(&day.setup),
            words32(&day.unit),
            words32(&day.holding),
            words16(&day.store),
            day.opening,
            day.closing
        ));
    }
    if input.call == Call::Bounds {
        lines.push(format!("lowest needs {}", words16(lowest)));
    }
    if input.call == Call::Big {
        lines.push(format!("trials {trials}"));
    }
    if input.call == Call::Play {
        lines.push(format!("actual needs {}", words16(actual)));
    }
    for plan in plans {
        lines.push(format!("plan {}", words16(plan)));
    }
    if matches!(input.call, Call::Read | Call::Lookup) {
        lines.push(format!("file {}", file.iter().map(|byte| format!("{byte:02X}")).collect::<Vec<_>>().join(" ")));
    }
    if input.call == Call::Read {
        lines.push(format!("expected {}", words16(expected)));
    }
    if input.call == Call::Lookup {
        lines.push(format!("period {period}"));
    }
    if input.call == Call::Write {
        lines.push(format!("station {}, date {}", stamp.station, stamp.date));
    }
    if !lent.is_empty() {
        lines.push(format!("cells lent {}", words(lent.iter().map(|&v| v as u64).collect())));
    }
    lines.join("\n  ")
}
