//! Request 2.12: inputs with a stamp, gone through one by one: records of every kind in every order, cut at every length; every refusal of the
//! reader with all that come after it, and each way to come to 20; stamps and expected numbers at the ends and a byte or a bit apart; files without
//! a stamp that hold the expected numbers elsewhere; room around what the writer needs, up to the longest file. Inputs of before have no stamp:
//! each is seen as it is, and with one.
use crate::ends;
use crate::input::{Call, Input};
use crate::plain::{self, Day, Stamp, NO_LIMIT};
use crate::random::mix;
use std::iter::once;

/// That of the examples.
pub const EXAMPLE: Stamp = Stamp { station: 17, date: 9816 };

/// Both numbers 0, which are a stamp like any other, and as high as they can be.
const ENDS: [Stamp; 2] = [Stamp { station: 0, date: 0 }, Stamp { station: 65_535, date: 65_535 }];

/// The stamp for the numbered input of those from before there were any.
pub fn numbered(i: usize) -> Stamp {
    let drawn = mix(i as u64);
    match drawn % 8 {
        end @ 0..=1 => ENDS[end as usize],
        2 => EXAMPLE,
        _ => Stamp { station: (drawn >> 16) as u16, date: (drawn >> 32) as u16 },
    }
}

fn read(file: &[u8], expected: &[u16], cells: usize) -> Input {
    Input { expected: expected.to_vec(), ..Input::on_file(Call::Read, file.to_vec(), 0, vec![cells; 6]) }
}

fn lookup(file: &[u8], period: usize) -> Input {
    Input::on_file(Call::Lookup, file.to_vec(), period, vec![])
}

/// Other numbers than a stamp's: one of the two a bit, a byte or all of it off, or both; exchanged; not two of them.
fn others(stamp: Stamp) -> Vec<Vec<u16>> {
    let Stamp { station, date } = stamp;
    let mut others = vec![
        vec![],
        vec![station],
        vec![date],
        vec![station, date, 0],
        vec![station, date, date],
        vec![0, station, date],
        vec![station, date, station, date],
        vec![date, station],
        vec![station, station],
        vec![date, date],
        vec![station.swap_bytes(), date.swap_bytes()],
        vec![0, 0],
        vec![65_535, 65_535],
        vec![station.wrapping_add(1), date.wrapping_sub(1)],
    ];
    for off in [1, 128, 255, 256, 32_768, 65_280, 65_535] {
        others.extend([vec![station.wrapping_add(off), date], vec![station, date.wrapping_add(off)]]);
    }
    others.retain(|numbers| *numbers != stamp.numbers());
    others
}

/// A record by the kind that it begins with, its body right or, where it can be, not.
#[derive(Clone, Copy, PartialEq)]
enum Part {
    Stamp,
    Charge,
    /// two zeros
    NoCharge,
    Period,
    Stored,
    /// the limit that it must not have
    NoLimit,
    End,
    Unknown,
}

/// One of each kind, whole and right; and with what may be wrong in them.
const KINDS: &[Part] = &[Part::Stamp, Part::Charge, Part::Period, Part::Stored, Part::End, Part::Unknown];
const PARTS: &[Part] = &[Part::Stamp, Part::Charge, Part::NoCharge, Part::Period, Part::Stored, Part::NoLimit, Part::End, Part::Unknown];

impl Part {
    /// Its record after so many periods.
    fn record(self, periods: usize) -> Vec<u8> {
        let period = |kind: u8| [&[kind][..], &[0, 3, 0, 5, 0, 0, 0, 7, 0, 0, 0, 2, 0, 0, 0, 1]].concat();
        match self {
            Part::Stamp => plain::stamp_record(EXAMPLE),
            Part::Charge => plain::charge_record(1, 258),
            Part::NoCharge => plain::charge_record(0, 0),
            Part::Period => period(plain::PERIOD),
            Part::Stored => [period(plain::STORED), vec![1, 2]].concat(),
            Part::NoLimit => [period(plain::STORED), NO_LIMIT.to_be_bytes().to_vec()].concat(),
            Part::End => vec![plain::END, 0, periods as u8],
            Part::Unknown => vec![6],
        }
    }

    fn is_period(self) -> bool {
        matches!(self, Part::Period | Part::Stored | Part::NoLimit)
    }
}

/// All sequences of so many of these parts.
fn sequences(parts: &'static [Part], length: usize) -> impl Iterator<Item = Vec<Part>> {
    (0..parts.len().pow(length as u32)).map(move |number| {
        let mut rest = number;
        let next = |_| {
            let part = parts[rest % parts.len()];
            rest /= parts.len();
            part
        };
        (0..length).map(next).collect()
    })
}

/// The file of a sequence cut at every length in its last record; at those before it, it is the file of a shorter one. With how many
/// periods it may have.
fn cut_in_last(sequence: Vec<Part>) -> impl Iterator<Item = (usize, Vec<u8>)> {
    let (mut file, mut periods, mut least) = (vec![], 0, 0);
    for part in sequence {
        least = file.len() + 1;
        file.extend(part.record(periods));
        periods += usize::from(part.is_period());
    }
    (least..=file.len()).map(move |length| (periods, file[..length].to_vec()))
}

/// Up to five records of every kind in every order, up to four also with what may be wrong in them, cut at every length: read with the
/// right expectation and with another, looked up for every period.
fn orders() -> impl Iterator<Item = Input> {
    let sequences = (0..=5).flat_map(|length| sequences(KINDS, length)).chain((1..=4).flat_map(|length| {
        let right = |sequence: &Vec<Part>| sequence.iter().all(|part| KINDS.contains(part));
        sequences(PARTS, length).filter(move |sequence| !right(sequence))
    }));
    let others = others(EXAMPLE);
    sequences.flat_map(cut_in_last).enumerate().flat_map(move |(i, (periods, file))| {
        let reads = [read(&file, &EXAMPLE.numbers(), 5), read(&file, &others[i % others.len()], 5)];
        reads.into_iter().chain((0..=periods + 1).map(move |period| lookup(&file, period)))
    })
}

/// Records of a day of n periods, with charge at its ends or without: stamp, charge, periods, end.
fn records(n: usize, charge: bool, above: bool) -> Vec<Vec<u8>> {
    let period = |i: usize| {
        let mut record = if i % 2 == 0 { Part::Period } else { Part::Stored }.record(i);
        if above && i + 1 == n {
            // upkeep above its limit in the last period
            record[plain::PERIOD_BODY - 3..][..4].copy_from_slice(&500_001u32.to_be_bytes());
        }
        record
    };
    let front = [Part::Stamp.record(0)].into_iter().chain(charge.then(|| Part::Charge.record(0)));
    front.chain((0..n).map(period)).chain(once(Part::End.record(n))).collect()
}

/// A file and what can be wrong with it: an unknown kind, one more stamp or one more record of charge, in the first places and the last; an end
/// too early, in the first record or the last; another count; bytes after the end.
fn faults(records: &[Vec<u8>]) -> Vec<Vec<u8>> {
    let file = records.concat();
    let mut files = vec![file.clone()];
    let last = records.len();
    for place in [0, 1, 2, last - 1, last].into_iter().filter(|&place| place <= last) {
        let (front, rest) = (records[..place].concat(), records[place..].concat());
        for record in [vec![0], vec![7], plain::stamp_record(EXAMPLE), plain::stamp_record(ENDS[0]), plain::charge_record(3, 4)] {
            files.extend([[&front[..], &record, &rest].concat(), [&front[..], &record].concat()]);
        }
        let late = [plain::STAMP, 0, 17];
        files.push([&front[..], &late].concat());
    }
    let lengths = (0..5).chain(file.len().saturating_sub(4)..file.len());
    files.extend(lengths.filter(|&length| length < file.len()).map(|length| file[..length].to_vec()));
    let mut count = file.clone();
    *count.last_mut().unwrap() += 1;
    files.push(count);
    files.extend([&[0][..], &[5], &[2, 0, 0]].map(|after| [&file[..], after].concat()));
    files
}

/// The reader's refusals in all combinations: those of the walk; 20 by absence and by other numbers; 1 by too few periods and too many; 6; 3.
fn refusals() -> Vec<Input> {
    let mut inputs = vec![];
    let days = [0, 2, 97].into_iter().flat_map(|n| [false, true].map(|charge| (n, charge)));
    for ((n, charge), above) in days.flat_map(|day| [false, true].map(|above| (day, above))) {
        let stamped = records(n, charge, above);
        let expectations: Vec<Vec<u16>> = once(EXAMPLE.numbers()).chain(others(EXAMPLE)).collect();
        for (file, expectations) in [(&stamped[..], &expectations[..]), (&stamped[1..], &expectations[..2])] {
            for file in faults(file) {
                for cells in [n, n.saturating_sub(1)] {
                    inputs.extend(expectations.iter().map(|expected| read(&file, expected, cells)));
                }
                inputs.extend([0, 1, n, n + 1].map(|period| lookup(&file, period)));
            }
        }
    }
    inputs
}

/// Numbers at the ends, a byte apart, and with their bytes exchanged.
const NUMBERS: [u16; 11] = [0, 1, 17, 255, 256, 257, 0x1100, 9816, 0x5826, 65_534, 65_535];

/// All stamps of such numbers, each read with all of them expected, and written with just the room and a byte less.
fn grid() -> Vec<Input> {
    let stamps = || NUMBERS.into_iter().flat_map(|station| NUMBERS.map(|date| Stamp { station, date }));
    let day = ends::day(1, 3, 5, 0, 0);
    let mut inputs = vec![];
    for stamp in stamps() {
        let file = plain::file_of(stamp, &day);
        inputs.extend(stamps().map(|expected| read(&file, &expected.numbers(), 1)));
        inputs.push(lookup(&file, 1));
        for day in [&day, &Day { opening: 1, ..day.clone() }] {
            let write = Input::exact(Call::Write, day, [&[]; 2]).stamped(stamp);
            inputs.extend([Input { lent: vec![write.lent[0] - 1], ..write.clone() }, write]);
        }
    }
    inputs
}

/// Expected numbers of every count up to five, and of counts that are 2 in a byte or two: the right ones first, last, or over and over.
fn counts() -> Vec<Input> {
    let mut inputs = vec![];
    for stamp in [EXAMPLE, ENDS[0], ENDS[1], Stamp { station: 5, date: 5 }] {
        for file in [plain::file_of(stamp, &ends::day(2, 3, 5, 0, 0)), plain::unstamped(&ends::day(2, 3, 5, 0, 0))] {
            for count in (0..=5).chain([258, 65_538]) {
                let pair = stamp.numbers();
                let over: Vec<u16> = pair.iter().copied().cycle().take(count).collect();
                let mut first = vec![0; count];
                first.iter_mut().zip(&pair).for_each(|(number, &right)| *number = right);
                let mut last = vec![0; count];
                last.iter_mut().rev().zip(pair.iter().rev()).for_each(|(number, &right)| *number = right);
                inputs.extend([over, first, last, vec![0; count]].map(|expected| read(&file, &expected, 2)));
            }
        }
    }
    inputs
}

/// Files without a stamp that hold the expected numbers at its place: as charge at both ends, or as need and capacity.
fn elsewhere() -> Vec<Input> {
    let mut inputs = vec![];
    for Stamp { station, date } in [EXAMPLE, Stamp { station: 1, date: 1 }, ENDS[0]] {
        let charged = Day { opening: station, closing: date, ..ends::day(2, 3, 5, 0, 0) };
        let mut needed = ends::day(2, 3, 5, 0, 0);
        (needed.demand[0], needed.capacity[0]) = (station, date);
        let limited = Day { store: vec![9; 2], ..needed.clone() };
        for file in [charged, needed, limited].map(|day| plain::unstamped(&day)) {
            inputs.extend([read(&file, &[station, date], 2), lookup(&file, 2)]);
        }
    }
    inputs
}

/// Room around what the writer needs, also without the stamp, for days with and without charge at the ends and store limits; then what it writes,
/// read, and looked up for every period. The last is the longest file.
fn rooms() -> Vec<Input> {
    let mut inputs = vec![];
    for (n, charge) in [1, 2, 96].into_iter().flat_map(|n| [0, 1].map(|charge| (n, charge))) {
        for (stamp, store) in [EXAMPLE, ENDS[0], ENDS[1]].into_iter().flat_map(|stamp| [NO_LIMIT, 9].map(|store| (stamp, store))) {
            let day = Day { store: vec![store; n], ..ends::day(n, 3, 5, charge, charge) };
            let file = plain::file_of(stamp, &day);
            let write = Input::exact(Call::Write, &day, [&[]; 2]).stamped(stamp);
            let around = file.len() - 6..=file.len() + 6;
            inputs.extend((0..=6).chain(around).map(|room| Input { lent: vec![room], ..write.clone() }));
            inputs.extend(others(stamp).iter().chain([&stamp.numbers()]).map(|expected| read(&file, expected, n)));
            inputs.extend((0..=n + 1).map(|period| lookup(&file, period)));
            assert!(file.len() <= 1837 && (file.len() == 1837) == (n == 96 && charge > 0 && store < NO_LIMIT));
        }
    }
    inputs
}

/// The writer's other refusals, alone and with too little room.
fn unwritten() -> Vec<Input> {
    let mut inputs = vec![];
    let day = ends::day(2, 3, 5, 1, 0);
    let long = ends::day(97, 3, 5, 0, 0);
    let mut longer = day.clone();
    longer.unit.push(0);
    let mut above = day.clone();
    above.unit[1] = 1_000_001;
    for day in [Day::default(), long, longer, above] {
        for (stamp, room) in [EXAMPLE, ENDS[0]].into_iter().flat_map(|stamp| [0, 4, 5, 2000].map(|room| (stamp, room))) {
            inputs.push(Input { lent: vec![room], ..Input::exact(Call::Write, &day, [&[]; 2]).for_stamp(stamp) });
        }
    }
    inputs
}

/// What is gone through one by one.
pub fn inputs() -> impl Iterator<Item = Input> {
    [refusals(), grid(), counts(), elsewhere(), rooms(), unwritten()].into_iter().flatten().chain(orders())
}
