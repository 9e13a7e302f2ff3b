//! The files and actual needs that `margins` is run on.
use crate::dayplan::{day, files_of_all_kinds, m4, made_up, with, MADE_UP};
use crate::printed::{against, alone, needs, read, stamped, Beside, Given, LONGEST, MARGINS};
use crate::runs::Runs;
use crate::stations;
use outside::input::{self, Size};
use outside::plain::{self, Day};
use outside::random::Random;
use std::fs;
use std::ops::RangeInclusive;
use std::path::Path;

/// What `margins` is given, what that is, and what the papers say of it, where it was worked out by hand.
type MarginCase = (&'static str, Given, Option<String>);

/// Lines of margins that have the same words after the margin.
fn lines(parts: &[(RangeInclusive<u16>, &str)]) -> Option<String> {
    Some(parts.iter().flat_map(|(margins, words)| margins.clone().map(move |margin| format!("margin {margin} {words}\n"))).collect())
}

/// M4 with charge at its ends and other needs and capacities.
fn m4_of(demand: [u16; 2], capacity: u16, opening: u16, closing: u16) -> Day {
    Day { demand: demand.to_vec(), capacity: vec![capacity; 2], opening, closing, ..m4() }
}

/// 96 periods of which one needs something.
fn one_need(i: usize, need: u16) -> Day {
    let mut day = Day { capacity: vec![65_535; 96], ..day(96, 0) };
    day.demand[i] = need;
    day
}

/// Days that have a plan with every margin, or up to some.
fn margins() -> Vec<MarginCase> {
    let with_store = |first: u16, second: u16| Day { store: vec![first, second], ..m4() };
    // too much for the cell from margin 3 on
    let m4_lines = |first: &str, second: &str, third: &str| {
        lines(&[(0..=0, first), (1..=1, second), (2..=2, third), (3..=3, "refused 7 period 2"), (4..=15, "refused 7 period 1")])
    };
    let as_planned = m4_lines("cost 21 missed 0 spilled 0", "cost 27 missed 0 spilled 0", "cost 29 missed 0 spilled 0");
    let more = m4_lines("cost 21 missed 4 spilled 0", "cost 27 missed 2 spilled 0", "cost 29 missed 0 spilled 0");
    let none = m4_lines("cost 21 missed 0 spilled 4", "cost 27 missed 0 spilled 6", "cost 29 missed 0 spilled 8");
    let late = m4_lines("cost 25 missed 3 spilled 2", "cost 27 missed 2 spilled 3", "cost 29 missed 1 spilled 4");
    vec![
        ("M4 as planned", against(&m4(), &[2, 3]), as_planned),
        ("M4, two more in each period", against(&m4(), &[4, 5]), more),
        ("M4, nothing needed, with little room", against(&with_store(3, 1), &[0, 0]), none),
        ("M4, all needed late, without room", against(&with_store(0, 0), &[0, 6]), late),
        ("M4, needs of two bytes", against(&m4(), &[0x0102, 0x0a00]), None),
        ("M4, the highest needs", against(&m4(), &[4096, 4096]), None),
        ("nothing planned", against(&m4_of([0, 0], 0, 0, 0), &[1, 2]), lines(&[(0..=15, "cost 0 missed 3 spilled 0")])),
        ("nothing planned in the first period", against(&Day { capacity: vec![0, 16], ..m4_of([0, 1], 0, 0, 0) }, &[0, 9]), None),
        ("nothing planned in the last period", against(&Day { capacity: vec![16, 0], ..m4_of([1, 0], 0, 0, 0) }, &[8, 1]), None),
        ("a closing charge alone", against(&m4_of([0, 0], 5, 0, 4), &[0, 0]), lines(&[(0..=15, "cost 18 missed 0 spilled 0")])),
        ("all cost cells with margin 2", against(&day(2, 495), &[250, 260]), None),
        ("all choice cells with margin 2", against(&one_need(50, 247), &[9; 96]), None),
        ("all cells of both areas with margin 0", against(&day(48, 499), &[10; 48]), None),
        ("4,096 in all with margin 3", against(&m4_of([4080, 10], 65_535, 3700, 0), &[4096, 0]), None),
        ("4,096 in one period with margin 6", against(&m4_of([0, 4090], 65_535, 4000, 0), &[0, 4096]), None),
        ("96 periods, as little as can be planned", against(&one_need(95, 1), &[0; 96]), None),
        ("96 periods, as much as can be needed", against(&one_need(0, 200), &[4096; 96]), None),
        ("96 periods without needs", against(&one_need(0, 0), &[4096; 96]), lines(&[(0..=15, "cost 0 missed 393216 spilled 0")])),
    ]
}

/// Days that have no plan with some margins that a higher one may have; days that are refused with every margin, by one number or several.
fn refused_margins() -> Vec<MarginCase> {
    let free = |day: Day| Day { setup: vec![0; 2], unit: vec![0; 2], holding: vec![0; 2], ..day };
    let with_store = |first: u16, second: u16, day: Day| Day { store: vec![first, second], ..day };
    let opened = lines(&[
        (0..=2, "refused 14 period 0"),
        (3..=3, "cost 0 missed 7 spilled 0"),
        (4..=4, "cost 0 missed 5 spilled 0"),
        (5..=5, "cost 0 missed 3 spilled 0"),
        (6..=6, "cost 0 missed 1 spilled 0"),
        (7..=15, "cost 0 missed 0 spilled 0"),
    ]);
    let full = with_store(3, 9, m4_of([4, 10], 65_535, 9, 0));
    let closed = with_store(9, 1, m4_of([2, 3], 5, 0, 2));
    let three = lines(&[(0..=3, "refused 14 period 0"), (4..=11, "refused 4 period 0"), (12..=15, "refused 3 period 1")]);
    vec![
        ("too much charge up to margin 2", against(&free(m4_of([2, 3], 65_535, 10, 0)), &[9, 9]), opened),
        ("no room for the charge up to margin 1", against(&full, &[0, 9]), None),
        (
            "no room for what is handed on",
            against(&closed, &[2, 3]),
            lines(&[(0..=3, "refused 7 period 2"), (4..=15, "refused 7 period 1")]),
        ),
        ("M3", against(&Day { demand: vec![2], capacity: vec![1], ..day(1, 0) }, &[2]), lines(&[(0..=15, "refused 7 period 1")])),
        (
            "no plan, and too few cells from margin 1 on",
            against(&m4_of([249, 249], 0, 0, 0), &[1, 1]),
            lines(&[(0..=0, "refused 7 period 1"), (1..=15, "refused 5 period 0")]),
        ),
        (
            "too few cells, and above 4,096 in the second period from margin 1 on",
            against(&m4_of([0, 4096], 0, 0, 0), &[0, 0]),
            lines(&[(0..=0, "refused 5 period 0"), (1..=15, "refused 3 period 2")]),
        ),
        ("too much charge, then above 4,096 in all, then in one period", against(&m4_of([4085, 5], 65_535, 60_000, 0), &[0, 0]), three),
    ]
}

/// Every day file that is refused, and days that are accepted with some margins or none, with actual needs of every kind: a fault of the file
/// goes first, one of the needs is the only line.
fn refused_needs() -> Vec<MarginCase> {
    let days = [
        m4(),
        m4_of([4085, 5], 65_535, 60_000, 0),
        m4_of([249, 250], 0, 0, 0),
        Day { store: vec![0; 2], ..m4_of([2, 3], 5, 0, 2) },
        day(1, 3),
        one_need(3, 2),
    ];
    let m4_file = plain::unstamped(&m4());
    let mut unknown = m4_file.clone();
    unknown[17] = 7;
    let above = Day { unit: vec![1, 1_000_001], ..m4() };
    let files = [
        // a byte too long with its stamp
        (vec![1; LONGEST - plain::STAMP_BODY], "refused 12 period 0\n"),
        (unknown, "refused 10 period 0\n"),
        (m4_file[..20].to_vec(), "refused 11 period 0\n"),
        (with(m4_file, &[0]), "refused 12 period 0\n"),
        (vec![2, 0, 0], "refused 1 period 0\n"),
        (plain::unstamped(&day(97, 5)), "refused 1 period 0\n"),
        (plain::unstamped(&above), "refused 3 period 2\n"),
    ];
    let mut cases = vec![];
    let mut add = |what, file: &[u8], needs: Beside, line: &str| {
        cases.push((what, stamped(file, needs), Some(line.to_string())));
    };
    for (file, line) in &files {
        for length in [0, 2, 3, 4, 5, 192, 194, 1000] {
            add("a refused file with needs of any length", file, Beside::Bytes(vec![0; length]), line);
        }
        add("a refused file with needs above 4,096", file, needs(&[4097, 4097]), line);
        add("a refused file without needs", file, Beside::Missing, line);
    }
    for day in &days {
        let (file, n) = (plain::unstamped(day), day.periods());
        add("no needs", &file, Beside::Missing, "refused 2 period 0\n");
        for length in [0, 1, 2 * n - 2, 2 * n - 1, 2 * n + 1, 2 * n + 2, 4 * n, 193, 194, 384, 1000, 5000] {
            // also above 4,096, as 2 goes before 3
            add("too many bytes or too few", &file, Beside::Bytes(vec![0; length]), "refused 2 period 0\n");
            add("too many bytes or too few", &file, Beside::Bytes(vec![255; length]), "refused 2 period 0\n");
        }
        for i in [0, n / 2, n - 1] {
            for value in [4097, 0x1100, 65_535] {
                let mut actual = vec![4096; n];
                actual[i] = value;
                let line = format!("refused 3 period {}\n", i + 1);
                add("a need above 4,096", &file, needs(&actual), &line);
                actual[i..].fill(value);
                add("needs above 4,096", &file, needs(&actual), &line);
            }
        }
    }
    cases
}

/// Needs to go with a file: of its day, around those that are planned; now and then too many bytes or too few, a need above its limit, or none.
fn made_up_needs(random: &mut Random, given: &Given) -> Beside {
    let planned = read(given).map_or(vec![1; 3], |day| day.demand);
    let mut actual = input::actual(random, &planned);
    match random.between(0, 9) {
        0 => return Beside::Missing,
        1 => actual.truncate(random.index(actual.len())),
        2 => actual.extend([0].repeat(random.between(1, 100) as usize)),
        3 => actual[random.index(planned.len())] = random.pick(&[4097, 4352, 65_535]),
        _ => {}
    }
    needs(&actual)
}

/// The example of the documents.
fn example(root: &Path) -> Given {
    let read = |name: &str| fs::read(root.join("examples/margins").join(name)).unwrap();
    let [id, needs] = ["station.id", "needs.act"].map(|name| Beside::Bytes(read(name)));
    Given { file: read("site.day"), id, needs }
}

/// Gives how many runs there were.
pub fn run(root: &Path, random: &mut Random) -> usize {
    let mut runs = Runs::new(root, MARGINS);
    for (what, given, text) in [margins(), refused_margins(), refused_needs()].concat() {
        if let Some(text) = text {
            assert_eq!(runs.program.printed(&given), text, "{what}");
        }
        runs.on(what, &given);
    }
    for (what, file, _) in files_of_all_kinds() {
        let given = alone(&file);
        let planned = read(&given).map_or(vec![], |day| day.demand);
        let given = Given { needs: needs(&planned), ..given };
        runs.on(what, &given);
        runs.on(what, &Given { file, ..given });
    }
    for (with, times) in MADE_UP {
        for changed in [false, true].repeat(times) {
            let size = random.pick(&[Size::Tiny, Size::Tiny, Size::Middle, Size::Middle, Size::Long]);
            let given = alone(&made_up(random, size, with, changed));
            let needs = made_up_needs(random, &given);
            runs.on("a made-up file with made-up needs", &Given { needs, ..given });
        }
    }
    let example = example(root);
    assert!(!runs.program.printed(&example).contains("refused"));
    runs.on("the example", &example);
    let folder = root.join("examples/margins");
    runs.in_place(&folder, &folder.join("site.day"), &example);
    for piece in [1, 16, 100, 1000] {
        runs.in_pieces(&example, piece);
    }
    let refused = Given { file: b"\x07".to_vec(), ..example.clone() };
    runs.all_fail(&example, &refused);
    for (what, needs) in [("a folder for the needs", Beside::Folder), ("needs that can't be opened", Beside::Loop)] {
        for Given { file, .. } in [&example, &refused] {
            runs.unread(what, &Given { file: file.clone(), needs: needs.clone(), ..example.clone() });
        }
    }
    stations::run(&mut runs);
    runs.count
}
