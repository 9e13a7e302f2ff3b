//! Request 2.12 of the plain implementation: files by hand; and the inputs that are gone through one by one, which have to tell every slip that a
//! reader, a lookup or a writer may make. Each answer is computed here once more, by a walk from byte to byte in place of records, and with a slip
//! it is wrong.
use crate::compare::{self, Seen};
use crate::input::{Call, Input};
use crate::plain::{self, Records, Refusal, Stamp};
use crate::stamp;

/// Files by their bytes before the first period, with what the walk says of them where one period and the end follow.
const FRONTS: &[(&[u8], Option<u64>)] = &[
    // the stamp, the charge, both; the other way round, each twice, a third record; zeros
    (&[5, 0, 17, 38, 88], None),
    (&[3, 0, 0, 0, 1], None),
    (&[5, 0, 17, 38, 88, 3, 0, 0, 0, 1], None),
    (&[3, 0, 0, 0, 1, 5, 0, 17, 38, 88], Some(12)),
    (&[5, 0, 17, 38, 88, 5, 0, 17, 38, 88], Some(12)),
    (&[3, 0, 0, 0, 1, 3, 0, 0, 0, 1], Some(12)),
    (&[5, 0, 17, 38, 88, 3, 0, 0, 0, 1, 3, 0, 0, 0, 1], Some(12)),
    (&[5, 0, 17, 38, 88, 3, 0, 0, 0, 1, 5, 0, 17, 38, 88], Some(12)),
    (&[5, 0, 0, 0, 0], None),
    (&[5, 0, 0, 0, 0, 3, 0, 0, 0, 0], Some(12)),
    // an unknown kind before and after the stamp
    (&[6, 5, 0, 17, 38, 88], Some(10)),
    (&[5, 0, 17, 38, 88, 6], Some(10)),
];

/// Whole files, with what the walk says of them.
const ENDED: &[(&[u8], u64)] = &[
    // a first stamp that is cut short, and one alone; a late one, cut short or whole
    (&[5], 11),
    (&[5, 0, 17, 38], 11),
    (&[5, 0, 17, 38, 88], 11),
    (&[5, 0, 17, 38, 88, 5], 12),
    (&[5, 0, 17, 38, 88, 5, 0, 17, 38, 88], 12),
    (&[3, 0, 0, 0, 1, 5], 12),
    (&[3, 0, 0, 0, 5, 5], 12),
    // charge after it, cut short; two zeros before a later fault; once more, cut short
    (&[5, 0, 17, 38, 88, 3], 11),
    (&[5, 0, 17, 38, 88, 3, 0, 0, 0], 11),
    (&[5, 0, 17, 38, 88, 3, 0, 0, 0, 0, 7], 12),
    (&[5, 0, 17, 38, 88, 3, 0, 0, 0, 1, 3], 12),
    // after the end, whatever is left of it; a count that counts the stamp
    (&[5, 0, 17, 38, 88, 2, 0, 0, 5], 12),
    (&[5, 0, 17, 38, 88, 2, 0, 1], 12),
];

/// The first period of the fourth marked day, and an end after it.
const PERIOD: &[u8] = &[1, 0, 2, 0, 5, 0, 0, 0, 10, 0, 0, 0, 1, 0, 0, 0, 1];
const END: &[u8] = &[2, 0, 1];

/// What is said of these files; and 20 before 1 and 6.
fn check_rows() {
    for &(front, claim) in FRONTS {
        let file = [front, PERIOD, END].concat();
        let said = plain::walk(&file).map(|records| (records.stamp, records.places));
        let stamp = (front[0] == plain::STAMP).then(|| front[1..5].to_vec());
        let right = claim.map_or(Ok((stamp, vec![[front.len() + 1, 16]])), |number| Err(Refusal { number, period: 0 }));
        assert_eq!(said, right, "{front:?}");
    }
    for &(file, number) in ENDED {
        assert_eq!(plain::walk(file), Err(Refusal { number, period: 0 }), "{file:?}");
    }
    let empty = [5, 0, 17, 38, 88, 2, 0, 0];
    let refused: &[(&[u8], &[u16], &[u64])] = &[
        (&empty, &[17, 9816], &[1]),
        (&empty, &[17, 9817], &[20, 1]),
        (&empty, &[18, 9816], &[20, 1]),
        (&empty, &[9816, 17], &[20, 1]),
        (&empty, &[], &[20, 1]),
        (&empty, &[17], &[20, 1]),
        (&empty, &[17, 9816, 0], &[20, 1]),
        (&empty[5..], &[17, 9816], &[20, 1]),
        (&[PERIOD, END].concat(), &[17, 9816], &[20, 6]),
    ];
    for &(file, expected, claim) in refused {
        let numbers: Vec<u64> = plain::read_refusals(file, expected, 0).iter().map(|refusal| refusal.number).collect();
        assert_eq!(numbers, claim, "{file:?} {expected:?}");
    }
}

/// How a call may be wrong: in its walk, in what it expects, in the order of its tests, in a lookup, and in what it writes.
const SLIPS: &[&str] = &[
    "kind 5 unknown",
    "a late kind 5 unknown",
    "kind 5 in any place",
    "kind 5 after kind 3",
    "kind 5 twice",
    "a late kind 5 that is cut short ends too early",
    "a first kind 5 that is cut short is misplaced",
    "zeros in kind 5 refused",
    "kind 5 counted as a period",
    "no kind 5 refused by the walk",
    "kind 3 at byte 0 alone",
    "kind 3 after kind 5 alone",
    "kind 3 at byte 5 after any record",
    "kind 3 in any place after kind 5",
    "a late kind 3 that is cut short ends too early",
    "zeros in kind 3 after kind 5",
    "20 before 10",
    "20 before 11",
    "20 before 12",
    "20 after 1",
    "20 after 6",
    "20 after 3",
    "20 with period 1",
    "20 never",
    "no kind 5 as expected",
    "no kind 5 as two zeros",
    "any kind's first numbers for the stamp",
    "station not compared",
    "date not compared",
    "one of the two compared",
    "high bytes not compared",
    "low bytes not compared",
    "sums compared",
    "a later day taken",
    "an earlier day taken",
    "read low byte first",
    "read with station and date exchanged",
    "nothing expected taken as any",
    "one number taken as the station",
    "three numbers taken by their first two",
    "more numbers taken by their first two",
    "numbers taken by their last two",
    "numbers counted in a byte",
    "numbers counted in two bytes",
    "lookup wants kind 5",
    "lookup from the stamp on",
    "lookup counts the stamp",
    "written low byte first",
    "written with station and date exchanged",
    "two zeros not written",
    "stamp not written",
    "stamp written after the charge",
    "stamp written last",
    "room for the stamp not tested",
    "room for two stamps tested",
    "the stamp's bytes not counted",
];

/// A file from byte to byte: what it holds, or the number of its first fault.
fn walk(slip: &str, file: &[u8]) -> Result<Records, u64> {
    let mut records = Records::default();
    let (mut at, mut counted) = (0, 0);
    if slip == "no kind 5 refused by the walk" && file.first() != Some(&5) {
        return Err(12);
    }
    // how far the records of the file's front reach that may stand before a period
    let (mut stamped, mut charged) = (0, 0);
    while at < file.len() {
        let (kind, rest) = (file[at], file.len() - at - 1);
        let length = match kind {
            5 if slip == "kind 5 unknown" || slip == "a late kind 5 unknown" && at > 0 => return Err(10),
            1 => 16,
            2 => 2,
            3 | 5 => 4,
            4 => 18,
            _ => return Err(10),
        };
        let misplaced = match (kind, slip) {
            (5, "kind 5 in any place") => false,
            (5, "kind 5 after kind 3") => at > 0 && at != charged,
            (5, "kind 5 twice") => at > 0 && at != stamped,
            (5, "a late kind 5 that is cut short ends too early") => at > 0 && rest >= length,
            (5, "a first kind 5 that is cut short is misplaced") => at > 0 || rest < length,
            (5, _) => at > 0,
            (3, "kind 3 at byte 0 alone") => at > 0,
            (3, "kind 3 after kind 5 alone") => stamped == 0 || at != stamped,
            (3, "kind 3 at byte 5 after any record") => at > 0 && at != 5,
            (3, "kind 3 in any place after kind 5") => at > 0 && stamped == 0,
            (3, "a late kind 3 that is cut short ends too early") => at != stamped && rest >= length,
            (3, _) => at != stamped,
            _ => false,
        };
        if misplaced {
            return Err(12);
        }
        if rest < length {
            return Err(11);
        }
        let body = &file[at + 1..at + 1 + length];
        at += 1 + length;
        let number = |i: usize| u16::from_be_bytes([body[i], body[i + 1]]);
        match kind {
            5 => {
                if slip == "zeros in kind 5 refused" && body == [0; 4] {
                    return Err(12);
                }
                counted += usize::from(slip == "kind 5 counted as a period");
                (records.stamp, stamped) = (Some(body.to_vec()), at);
            }
            3 => {
                (records.opening, records.closing) = (number(0), number(2));
                if body == [0; 4] && (slip != "zeros in kind 3 after kind 5" || stamped == 0) {
                    return Err(12);
                }
                charged = at;
            }
            2 if number(0) as usize != counted || at < file.len() => return Err(12),
            2 => return Ok(records),
            4 if number(16) == 65_535 => return Err(12),
            _ => {
                counted += 1;
                records.places.push([at - length, length]);
            }
        }
    }
    Err(11)
}

/// The two numbers of a stamp's body.
fn numbers(slip: &str, body: &[u8]) -> [u16; 2] {
    let pair = [0, 2].map(|i| {
        let two = [body[i], body[i + 1]];
        if slip == "read low byte first" {
            u16::from_le_bytes(two)
        } else {
            u16::from_be_bytes(two)
        }
    });
    match slip {
        "read with station and date exchanged" => [pair[1], pair[0]],
        _ => pair,
    }
}

/// Whether a file with this stamp is as expected.
fn as_expected(slip: &str, file: &[u8], stamp: Option<&[u8]>, expected: &[u16]) -> bool {
    let count = expected.len();
    let stamp = match (stamp, slip) {
        (_, "any kind's first numbers for the stamp") => file.get(1..5),
        (None, "no kind 5 as two zeros") => Some(&[0; 4][..]),
        (stamp, _) => stamp,
    };
    let Some(body) = stamp else { return slip == "no kind 5 as expected" };
    let [station, date] = numbers(slip, body);
    let taken = match (slip, count) {
        ("nothing expected taken as any", 0) => return true,
        ("one number taken as the station", 1) => return expected[0] == station,
        ("three numbers taken by their first two", 3) | ("more numbers taken by their first two", 4..) => &expected[..2],
        ("numbers taken by their last two", 2..) => &expected[count - 2..],
        ("numbers counted in a byte", _) if count % 256 == 2 => &expected[..2],
        ("numbers counted in two bytes", _) if count % 65_536 == 2 => &expected[..2],
        _ => expected,
    };
    let &[right_station, right_date] = taken else { return false };
    let (same_station, same_date) = (station == right_station, date == right_date);
    match slip {
        "station not compared" => same_date,
        "date not compared" => same_station,
        "one of the two compared" => same_station || same_date,
        "high bytes not compared" => station % 256 == right_station % 256 && date % 256 == right_date % 256,
        "low bytes not compared" => station / 256 == right_station / 256 && date / 256 == right_date / 256,
        "sums compared" => station as u32 + date as u32 == right_station as u32 + right_date as u32,
        "a later day taken" => same_station && date >= right_date,
        "an earlier day taken" => same_station && date <= right_date,
        _ => same_station && same_date,
    }
}

/// The reader's refusals by their numbers and periods, in order.
fn read_refused(slip: &str, input: &Input) -> Option<(u64, usize)> {
    let walked = walk(slip, &input.file);
    // what is known of the stamp also of a file with a fault
    let front = (input.file.first() == Some(&5)).then(|| input.file.get(1..5)).flatten();
    let stamp = walked.as_ref().map_or(front, |records| records.stamp.as_deref());
    let other = slip != "20 never" && !as_expected(slip, &input.file, stamp, &input.expected);
    let stranger = other.then_some((20, usize::from(slip == "20 with period 1")));
    let records = match walked {
        Ok(records) => records,
        Err(number) => {
            let before = matches!((slip, number), ("20 before 10", 10) | ("20 before 11", 11) | ("20 before 12", 12));
            return stranger.filter(|_| before).or(Some((number, 0)));
        }
    };
    let n = records.periods();
    let count = (n == 0 || n > 96).then_some((1, 0));
    let few = input.lent.iter().any(|&cells| cells < n).then_some((6, 0));
    let value = plain::bad_value(&plain::day_in(&input.file, &records)).map(|refusal| (3, refusal.period));
    match slip {
        "20 after 1" => count.or(stranger).or(few).or(value),
        "20 after 6" => count.or(few).or(stranger).or(value),
        "20 after 3" => count.or(few).or(value).or(stranger),
        _ => stranger.or(count).or(few).or(value),
    }
}

/// What a caller is told: a code, and with 0 the numbers in the out-array and the bytes that were written.
#[derive(Debug, PartialEq)]
struct Said {
    code: u64,
    values: Vec<u64>,
    written: Vec<u64>,
}

impl Said {
    fn refused(number: u64, period: usize) -> Said {
        Said { code: number + 256 * period as u64, values: vec![], written: vec![] }
    }

    fn accepted(values: &[usize]) -> Said {
        Said { code: 0, values: values.iter().map(|&value| value as u64).collect(), written: vec![] }
    }

    /// What the plain implementation says.
    fn right(input: &Input) -> Said {
        let seen: Seen = compare::expected(input);
        if seen.code != 0 {
            return Said { code: seen.code, values: vec![], written: vec![] };
        }
        let written = match input.call {
            Call::Write => seen.lent[0][compare::AROUND..][..seen.values()[0] as usize].to_vec(),
            _ => vec![],
        };
        Said { code: 0, values: seen.values().to_vec(), written }
    }
}

fn read(slip: &str, input: &Input) -> Said {
    match (read_refused(slip, input), walk(slip, &input.file)) {
        (None, Ok(records)) => Said::accepted(&[records.periods(), records.opening as usize, records.closing as usize]),
        (refused, _) => {
            let (number, period) = refused.expect("a file without a fault");
            Said::refused(number, period)
        }
    }
}

fn lookup(slip: &str, input: &Input) -> Said {
    let mut records = match walk(slip, &input.file) {
        Ok(records) => records,
        Err(number) => return Said::refused(number, 0),
    };
    let before = records.stamp.as_ref().map_or(0, |body| 1 + body.len());
    match slip {
        "lookup wants kind 5" if before == 0 => return Said::refused(20, 0),
        "lookup from the stamp on" => records.places.iter_mut().for_each(|place| place[0] -= before),
        "lookup counts the stamp" if before > 0 => records.places.insert(0, [1, 4]),
        _ => {}
    }
    let n = records.periods();
    match input.period {
        _ if n == 0 || n > 96 => Said::refused(1, 0),
        period if period == 0 || period > n => Said::refused(13, 0),
        period => Said::accepted(&records.places[period - 1]),
    }
}

fn write(slip: &str, input: &Input) -> Said {
    let Stamp { station, date } = input.stamp;
    let mut record = vec![5, (station >> 8) as u8, station as u8, (date >> 8) as u8, date as u8];
    match slip {
        "written low byte first" => record = vec![5, station as u8, (station >> 8) as u8, date as u8, (date >> 8) as u8],
        "written with station and date exchanged" => record[1..].rotate_left(2),
        "two zeros not written" if record[1..] == [0; 4] => record.clear(),
        "stamp not written" => record.clear(),
        _ => {}
    }
    // the tests of the tables are those of before
    if let Some(&Refusal { number, period }) = plain::write_refusals(&input.day, usize::MAX).first() {
        return Said::refused(number, period);
    }
    let mut file = plain::unstamped(&input.day);
    let at = match slip {
        "stamp written after the charge" if file[0] == 3 => 5,
        "stamp written last" => file.len(),
        _ => 0,
    };
    let unstamped = file.len();
    file.splice(at..at, record);
    let needed = match slip {
        "room for the stamp not tested" => unstamped,
        "room for two stamps tested" => file.len() + 5,
        _ => file.len(),
    };
    if input.lent[0] < needed {
        return Said::refused(6, 0);
    }
    let count = if slip == "the stamp's bytes not counted" { unstamped } else { file.len() };
    Said { written: file.iter().map(|&byte| byte as u64).collect(), ..Said::accepted(&[count]) }
}

/// A call with this slip.
fn said(slip: &str, input: &Input) -> Said {
    match input.call {
        Call::Read => read(slip, input),
        Call::Lookup => lookup(slip, input),
        _ => write(slip, input),
    }
}

/// The plain implementation on the rows, and without a slip on all inputs; every slip shows on some input.
pub fn check_stamps() {
    check_rows();
    let mut untold = SLIPS.to_vec();
    for input in stamp::inputs() {
        let right = Said::right(&input);
        assert_eq!(said("none", &input), right, "{input:?}");
        untold.retain(|slip| said(slip, &input) == right);
    }
    assert!(untold.is_empty(), "no input tells of these slips: {untold:?}");
}
