//! Request 2.12: a file may belong to another station or day. Both programs with a `station.id` that is right, another, of another length, missing or
//! unreadable, on files that are right and on files with each other fault; files without a stamp; the longest file.
use crate::dayplan::{day, m4, with};
use crate::printed::{id, needs, Beside, Given, LONGEST};
use crate::runs::Runs;
use outside::plain::{self, Day, Stamp};
use outside::stamp::EXAMPLE;

const OTHER: &str = "refused 20 period 0\n";

/// What stands in `station.id` where it is not as it should be.
fn others() -> Vec<(&'static str, Beside)> {
    let right = plain::stamp_record(EXAMPLE)[1..].to_vec();
    let of = |station, date| plain::stamp_record(Stamp { station, date })[1..].to_vec();
    let Stamp { station, date } = EXAMPLE;
    let bytes = [
        ("another station", of(station + 1, date)),
        ("the next day", of(station, date + 1)),
        ("no bytes", vec![]),
        ("1 byte", right[..1].to_vec()),
        ("2 bytes", right[..2].to_vec()),
        ("3 bytes", right[..3].to_vec()),
        ("5 bytes", with(right.clone(), &[0])),
        ("a record of kind 5", plain::stamp_record(EXAMPLE)),
        ("the right bytes twice", right.repeat(2)),
        ("260 bytes", right.repeat(65)),
        ("5,000 bytes", right.repeat(1250)),
        ("another station's high byte", of(station + 256, date)),
        ("the day before", of(station, date - 1)),
        ("another day's high byte", of(station, date - 256)),
        ("station and day exchanged", of(date, station)),
        ("low bytes first", of(station.swap_bytes(), date.swap_bytes())),
        ("zeros", of(0, 0)),
        ("the highest numbers", of(65_535, 65_535)),
    ];
    let bytes = bytes.into_iter().map(|(what, bytes)| (what, Beside::Bytes(bytes)));
    [("nothing", Beside::Missing)].into_iter().chain(bytes).collect()
}

/// A file, what it is, and its only line with the right `station.id`, where it has but one, and with any other.
type Case = (&'static str, Vec<u8>, Option<&'static str>, &'static str);

fn files() -> Vec<Case> {
    let of = |day: &Day| plain::file_of(EXAMPLE, day);
    let (right, unstamped) = (of(&m4()), plain::unstamped(&m4()));
    let above = Day { unit: vec![1, 1_000_001], ..m4() };
    let longest = of(&Day { store: vec![200; 96], opening: 20, closing: 30, ..day(96, 200) });
    assert_eq!(longest.len(), LONGEST);
    let mut counted = right.clone();
    *counted.last_mut().unwrap() = 3;
    let mut unknown = right.clone();
    unknown[22] = 6;
    let late = [&unstamped[..17], &right[..5], &unstamped[17..]].concat();
    let [ten, eleven, twelve] = ["refused 10 period 0\n", "refused 11 period 0\n", "refused 12 period 0\n"];
    let one = "refused 1 period 0\n";
    vec![
        ("M4", right.clone(), None, OTHER),
        ("M4 with charge", of(&Day { opening: 1, closing: 1, ..m4() }), None, OTHER),
        ("M4 with an unknown kind", unknown, Some(ten), ten),
        ("M4 cut short", right[..right.len() - 1].to_vec(), Some(eleven), eleven),
        ("a stamp cut short", right[..4].to_vec(), Some(eleven), eleven),
        ("nothing", vec![], Some(eleven), eleven),
        ("M4 with another count", counted, Some(twelve), twelve),
        ("M4 with its stamp twice", with(right[..5].to_vec(), &right), Some(twelve), twelve),
        ("M4 with a late stamp", late, Some(twelve), twelve),
        ("M4 with a stamp after it", with(unstamped.clone(), &right[..5]), Some(twelve), twelve),
        ("M4 with charge before its stamp", with(plain::charge_record(1, 1), &right), Some(twelve), twelve),
        ("no periods", with(right[..5].to_vec(), &[2, 0, 0]), Some(one), OTHER),
        ("97 periods", of(&day(97, 200)), Some(one), OTHER),
        ("M4, unit cost above its limit", of(&above), Some("refused 3 period 2\n"), OTHER),
        ("1,837 bytes", longest.clone(), None, OTHER),
        ("1,838 bytes", with(longest, &[0]), Some(twelve), twelve),
        ("M4 without a stamp", unstamped.clone(), Some(OTHER), OTHER),
        ("M4 with charge, without a stamp", with(plain::charge_record(1, 1), &unstamped), Some(OTHER), OTHER),
        ("M4 without a stamp, with a byte after it", with(unstamped, &[0]), Some(twelve), twelve),
        ("no periods, no stamp", vec![2, 0, 0], Some(OTHER), OTHER),
        ("97 periods without a stamp", plain::unstamped(&day(97, 200)), Some(OTHER), OTHER),
        ("M4 without a stamp, unit cost above its limit", plain::unstamped(&above), Some(OTHER), OTHER),
    ]
}

/// Needs to go with a file: of a day with as many periods; none; above their limit.
fn needs_for(file: &[u8]) -> [Beside; 3] {
    let periods = plain::walk(file).map_or(2, |records| records.periods());
    [needs(&vec![3; periods]), Beside::Missing, needs(&vec![4097; periods])]
}

/// Every `station.id` with every file; the first four also with other needs, where the program reads them.
fn pairs(runs: &mut Runs) {
    let ids: Vec<_> =
        [("as it should be", id(), true)].into_iter().chain(others().into_iter().map(|(what, id)| (what, id, false))).collect();
    for (of_file, file, by_right, by_other) in files() {
        let kinds = if runs.program.name == "margins" { 3 } else { 1 };
        for (kind, needs) in needs_for(&file).into_iter().take(kinds).enumerate() {
            for (of_id, id, right) in ids.iter().take(if kind == 0 { ids.len() } else { 4 }) {
                let what = format!("{of_file}, with {of_id} in station.id");
                let given = Given { file: file.clone(), id: id.clone(), needs: needs.clone() };
                let printed = runs.program.printed(&given);
                match if *right { by_right } else { Some(by_other) } {
                    Some(line) => assert_eq!(printed, line, "{what}"),
                    // faults of the needs alone are left
                    None => assert_eq!(printed.starts_with("refused"), kind > 0, "{what}"),
                }
                runs.on(&what, &given);
            }
        }
    }
}

/// A stamp of zeros, or of the highest numbers, is one like any other: no file that is missing, empty or cut short stands for it.
fn ends(runs: &mut Runs) {
    for number in [0, 65_535] {
        let file = plain::file_of(Stamp { station: number, date: number }, &m4());
        let byte = number as u8;
        for bytes in [vec![byte; 4], vec![byte; 3], vec![byte; 5], vec![], vec![byte; 2], vec![byte, byte, byte, 1]] {
            let given = Given { file: file.clone(), id: Beside::Bytes(bytes.clone()), needs: needs(&[2, 3]) };
            assert_eq!(runs.program.printed(&given) == OTHER, bytes != [byte; 4]);
            runs.on("a stamp at the ends", &given);
        }
        runs.on("a stamp at the ends", &Given { file, id: Beside::Missing, needs: needs(&[2, 3]) });
    }
}

/// A `station.id` that is there and can't be read counts as missing, and standard error says so, whatever the file is.
fn unread(runs: &mut Runs) {
    for (of_file, file, _, by_other) in files() {
        for (of_id, id) in [("a folder", Beside::Folder), ("a link to itself", Beside::Loop)] {
            let given = Given { file: file.clone(), id: id.clone(), needs: needs(&[2, 3]) };
            assert_eq!(runs.program.printed(&given), by_other, "{of_file}");
            runs.unread(&format!("{of_file}, with {of_id} for station.id"), &given);
        }
    }
}

pub fn run(runs: &mut Runs) {
    pairs(runs);
    ends(runs);
    unread(runs);
}
