//! The files that `dayplan` is run on: those from before files had a stamp, with one in front.
use crate::printed::{alone, Beside, Given, DAYPLAN, LONGEST};
use crate::runs::Runs;
use crate::stations;
use outside::input::{self, Call, Size, With};
use outside::plain::{self, Day, NO_LIMIT};
use outside::random::Random;
use std::fs;
use std::path::Path;

/// A day of n periods that needs `total` in all, as evenly as can be, with uneven costs and no store limits.
pub fn day(n: usize, total: usize) -> Day {
    let cost = |factor: usize, high: usize| (0..n).map(|i| (1 + factor * i % high) as u32).collect();
    Day {
        demand: (0..n).map(|i| (total * (i + 1) / n - total * i / n) as u16).collect(),
        capacity: vec![total as u16; n],
        setup: cost(7, 50),
        unit: cost(3, 5),
        holding: cost(5, 4),
        store: vec![NO_LIMIT; n],
        opening: 0,
        closing: 0,
    }
}

/// The most that may follow the stamp.
const REST: usize = LONGEST - 1 - plain::STAMP_BODY;

/// What a file is, the bytes that follow its stamp, and what the papers say of it, where it is in one line.
pub type Case = (&'static str, Vec<u8>, Option<&'static str>);

pub fn with(mut file: Vec<u8>, more: &[u8]) -> Vec<u8> {
    file.extend(more);
    file
}

pub fn m4() -> Day {
    let (demand, capacity, store) = (vec![2, 3], vec![5; 2], vec![NO_LIMIT; 2]);
    Day { demand, capacity, setup: vec![10; 2], unit: vec![1; 2], holding: vec![1; 2], store, opening: 0, closing: 0 }
}

/// Files of days without charge at their ends and without store limits.
fn files() -> Vec<Case> {
    let of = |n, total| plain::unstamped(&day(n, total));
    let longest = of(96, 200);
    assert_eq!(longest.len(), 1635);
    let (demand, capacity, store) = (vec![2], vec![1], vec![NO_LIMIT]);
    let m3 = Day { demand, capacity, setup: vec![5], unit: vec![2], holding: vec![9], store, opening: 0, closing: 0 };
    vec![
        ("M3", plain::unstamped(&m3), Some("refused 7 period 1\n")),
        ("M4", plain::unstamped(&m4()), Some("periods 2 cost 21 starts 1\n1 made 5 left 3\n2 made 0 left 0\n")),
        ("a stamp alone", vec![], Some("refused 11 period 0\n")),
        ("1,640 bytes", longest.clone(), None),
        ("1,641 bytes", with(longest.clone(), &[0]), Some("refused 12 period 0\n")),
        ("1,838 bytes that go on with an unknown kind", vec![7; REST + 1], Some("refused 12 period 0\n")),
        ("1,837 bytes that go on with an unknown kind", vec![7; REST], Some("refused 10 period 0\n")),
        ("97 periods", of(97, 200), Some("refused 1 period 0\n")),
        ("107 periods, 1,827 bytes", of(107, 200), Some("refused 1 period 0\n")),
        ("108 periods, 1,844 bytes", of(108, 200), Some("refused 12 period 0\n")),
        ("one file after another", with(longest.clone(), &longest), Some("refused 12 period 0\n")),
        ("no periods", vec![2, 0, 0], Some("refused 1 period 0\n")),
        ("96 periods, all choice cells", of(96, 249), None),
        ("96 periods, one unit of need too much", of(96, 250), Some("refused 5 period 0\n")),
        ("63 periods, three choice cells too few", of(63, 380), Some("refused 5 period 0\n")),
        ("48 periods, all cells of both areas", of(48, 499), None),
        ("49 periods, a row of choices too many", of(49, 499), Some("refused 5 period 0\n")),
        ("2 periods, all cost cells", of(2, 499), None),
        ("2 periods, two cost cells too few", of(2, 500), Some("refused 5 period 0\n")),
        ("1 period, all cost cells", of(1, 499), None),
        ("1 period, two cost cells too few", of(1, 500), Some("refused 5 period 0\n")),
    ]
}

/// Files of days with charge at their ends, or with its record where it must not be.
fn files_with_ends() -> Vec<Case> {
    let ends = |day: Day, opening, closing| plain::unstamped(&Day { opening, closing, ..day });
    let longest = ends(day(96, 200), 20, 30);
    assert_eq!(longest.len(), 1640);
    let m4_with = |opening, closing| ends(m4(), opening, closing);
    // what is left has four digits in every period but the last, and what is made three in some
    let mut full = Day { demand: vec![0; 96], capacity: vec![249; 96], ..day(96, 0) };
    full.demand[95] = 4096;
    full.holding = vec![500_000; 96];
    full.setup = vec![1_000_000_000; 96];
    vec![
        ("M4 with both ends", m4_with(1, 1), Some("periods 2 cost 25 starts 1\n1 made 5 left 4\n2 made 0 left 1\n")),
        ("M4 with an opening charge", m4_with(2, 0), Some("periods 2 cost 15 starts 1\n1 made 0 left 0\n2 made 3 left 0\n")),
        ("M4 with a closing charge", m4_with(0, 5), Some("periods 2 cost 41 starts 2\n1 made 5 left 3\n2 made 5 left 5\n")),
        ("M4 with nothing to make", m4_with(6, 1), Some("periods 2 cost 15 starts 0\n1 made 0 left 4\n2 made 0 left 1\n")),
        ("M4 with more than it asks for", m4_with(7, 1), Some("refused 14 period 0\n")),
        ("M4 with the most that there is", m4_with(65_535, 0), Some("refused 14 period 0\n")),
        ("M4, more to hand on than can be made", m4_with(0, 6), Some("refused 7 period 2\n")),
        ("M4, asking for 4,096", m4_with(3600, 4091), Some("refused 7 period 2\n")),
        ("M4, asking for 4,096 in larger areas than there are", m4_with(3596, 4091), Some("refused 5 period 0\n")),
        ("M4, asking for 4,097", m4_with(65_535, 4092), Some("refused 4 period 0\n")),
        ("M4 with zeros for ends", with(plain::charge_record(0, 0), &m4_with(0, 0)), Some("refused 12 period 0\n")),
        ("M4 with its ends twice", with(plain::charge_record(1, 1), &m4_with(1, 1)), Some("refused 12 period 0\n")),
        ("M4 with its ends last", with(m4_with(0, 0), &plain::charge_record(1, 1)), Some("refused 12 period 0\n")),
        ("ends cut short", vec![3, 0, 1, 0], Some("refused 11 period 0\n")),
        ("ends alone", vec![3, 0, 1, 0, 0], Some("refused 11 period 0\n")),
        ("ends and no periods", vec![3, 0, 1, 0, 0, 2, 0, 0], Some("refused 1 period 0\n")),
        ("1,645 bytes", longest.clone(), None),
        ("1,646 bytes", with(longest.clone(), &[0]), Some("refused 12 period 0\n")),
        ("97 periods with ends", ends(day(97, 200), 1, 1), Some("refused 1 period 0\n")),
        ("96 periods with ends, all choice cells", ends(day(96, 300), 60, 9), None),
        ("96 periods with ends, one unit too much to hand on", ends(day(96, 300), 60, 10), Some("refused 5 period 0\n")),
        ("2 periods with ends, all cost cells", ends(day(2, 1000), 502, 1), None),
        ("2 periods with ends, two cost cells too few", ends(day(2, 1000), 501, 1), Some("refused 5 period 0\n")),
        ("much charge, nothing to make", ends(full.clone(), 4096, 0), None),
        ("much charge, all choice cells", ends(full, 3847, 0), None),
    ]
}

/// The tie that request 2.2 adds.
fn tie() -> Day {
    let (demand, capacity, store) = (vec![2; 2], vec![4; 2], vec![NO_LIMIT; 2]);
    Day { demand, capacity, setup: vec![8; 2], unit: vec![1; 2], holding: vec![2; 2], store, opening: 0, closing: 0 }
}

/// Files of days whose upkeep decides: the tie of request 2.2, and upkeep around its limit.
fn files_with_holding() -> Vec<Case> {
    let m4_with = |first, second| plain::unstamped(&Day { holding: vec![first, second], ..m4() });
    let tie = plain::unstamped(&tie());
    let (demand, capacity, store) = (vec![0], vec![0], vec![NO_LIMIT]);
    let kept = Day { demand, capacity, setup: vec![0], unit: vec![0], holding: vec![500_000], store, opening: 4096, closing: 4096 };
    vec![
        ("the tie row", tie, Some("periods 2 cost 20 starts 1\n1 made 4 left 2\n2 made 0 left 0\n")),
        ("M4, upkeep at its limit", m4_with(500_000, 500_000), Some("periods 2 cost 25 starts 2\n1 made 2 left 0\n2 made 3 left 0\n")),
        ("M4, upkeep above its limit", m4_with(500_000, 500_001), Some("refused 3 period 2\n")),
        ("M4, upkeep at the limit before 2.2", m4_with(1_000_000, 0), Some("refused 3 period 1\n")),
        (
            "the most charge at the highest upkeep",
            plain::unstamped(&kept),
            Some("periods 1 cost 4096000000 starts 0\n1 made 0 left 4096\n"),
        ),
    ]
}

/// Files of days with store limits, or with a record of one where it must not be.
fn files_with_stores() -> Vec<Case> {
    let stores = |day: Day, store: &[u16]| plain::unstamped(&Day { store: store.to_vec(), ..day });
    let m4_with = |first, second| stores(m4(), &[first, second]);
    let ends = |opening, closing| Day { opening, closing, ..m4() };
    let limited = |n, limit| Day { store: vec![limit; n], opening: 20, closing: 30, ..day(n, 200) };
    let longest = plain::unstamped(&limited(96, 200));
    assert_eq!(longest.len(), REST);
    // kind 4 with the limit that it must not have
    let mut no_limit = m4_with(3, 3);
    no_limit[17..19].copy_from_slice(&NO_LIMIT.to_be_bytes());
    vec![
        ("M4, room for its plan", m4_with(3, 0), Some("periods 2 cost 21 starts 1\n1 made 5 left 3\n2 made 0 left 0\n")),
        ("M4, a unit less", m4_with(2, 0), Some("periods 2 cost 25 starts 2\n1 made 2 left 0\n2 made 3 left 0\n")),
        ("M4, room for nothing", m4_with(0, 0), Some("periods 2 cost 25 starts 2\n1 made 2 left 0\n2 made 3 left 0\n")),
        (
            "the tie without room for its plan",
            stores(tie(), &[1, 0]),
            Some("periods 2 cost 20 starts 2\n1 made 2 left 0\n2 made 2 left 0\n"),
        ),
        ("M4 with too much charge", stores(ends(6, 1), &[3, 9]), Some("refused 7 period 1\n")),
        ("M4 with just as much", stores(ends(6, 1), &[4, 1]), Some("periods 2 cost 15 starts 0\n1 made 0 left 4\n2 made 0 left 1\n")),
        ("M4 with too much to hand on", stores(ends(1, 2), &[9, 1]), Some("refused 7 period 2\n")),
        ("M4 with too much, and more than it asks for", stores(ends(7, 1), &[0, 0]), Some("refused 14 period 0\n")),
        ("M4, the highest limit", m4_with(NO_LIMIT - 1, 9), Some("periods 2 cost 21 starts 1\n1 made 5 left 3\n2 made 0 left 0\n")),
        ("M4 with no limit in kind 4", no_limit.clone(), Some("refused 12 period 0\n")),
        ("no limit in kind 4, then an unknown kind", with(no_limit[..19].to_vec(), &[7]), Some("refused 12 period 0\n")),
        ("no limit in kind 4, cut short", no_limit[..18].to_vec(), Some("refused 11 period 0\n")),
        ("a limit cut short", m4_with(3, 3)[..18].to_vec(), Some("refused 11 period 0\n")),
        ("1,837 bytes", longest.clone(), None),
        ("1,837 bytes, room for too little", plain::unstamped(&limited(96, 17)), Some("refused 7 period 1\n")),
        ("1,838 bytes", with(longest.clone(), &[0]), Some("refused 12 period 0\n")),
        ("1,838 bytes, the sixth of an unknown kind", with(vec![7], &longest), Some("refused 12 period 0\n")),
        ("97 periods with limits, 1,856 bytes", plain::unstamped(&limited(97, 200)), Some("refused 12 period 0\n")),
    ]
}

pub fn files_of_all_kinds() -> Vec<Case> {
    [files(), files_with_ends(), files_with_holding(), files_with_stores()].concat()
}

/// What follows the stamp of a made-up file, or of a changed one.
pub fn made_up(random: &mut Random, size: Size, with: With, changed: bool) -> Vec<u8> {
    let make = if changed { input::changed } else { input::valid };
    make(random, Call::Read, size, with).file
}

/// How many of them are run, with what in their days.
pub const MADE_UP: [(With, usize); 3] = [(With::NOTHING, 60), (With::ENDS, 40), (With::BOTH, 40)];

/// The examples as the readme has them run, in the project's own folder.
fn examples(root: &Path, runs: &mut Runs) {
    let id = Beside::Bytes(fs::read(root.join("station.id")).unwrap());
    for entry in fs::read_dir(root.join("examples")).unwrap() {
        let path = entry.unwrap().path();
        if path.extension().is_some_and(|extension| extension == "day") {
            let given = Given { file: fs::read(&path).unwrap(), id: id.clone(), needs: Beside::Missing };
            assert!(!runs.program.printed(&given).starts_with("refused 20"), "{}", path.display());
            runs.in_place(root, &path, &given);
        }
    }
}

/// Gives how many runs there were.
pub fn run(root: &Path, random: &mut Random) -> usize {
    let mut runs = Runs::new(root, DAYPLAN);
    for (what, file, line) in files_of_all_kinds() {
        let given = alone(&file);
        if let Some(line) = line {
            assert_eq!(runs.program.printed(&given), line, "{what}");
        }
        runs.on(what, &given);
        runs.on(what, &Given { file, ..given });
    }
    for (with, times) in MADE_UP {
        for _ in 0..times {
            let size = random.pick(&[Size::Tiny, Size::Middle, Size::Long]);
            runs.on("a made-up file", &alone(&made_up(random, size, with, false)));
            runs.on("a changed file", &alone(&made_up(random, size, with, true)));
        }
    }
    let longest = alone(&plain::unstamped(&Day { closing: 1, opening: 1, store: vec![200; 96], ..day(96, 249) }));
    for piece in [1, 16, 100, 1000] {
        runs.in_pieces(&longest, piece);
    }
    runs.all_fail(&longest, &alone(b"\x07"));
    stations::run(&mut runs);
    examples(root, &mut runs);
    runs.count
}
