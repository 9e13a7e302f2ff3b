//! Writes the example of a site that is to open: a day of 48 half hours, site.day, by the library's writer; and needs.act, what is needed once it
//! has opened. The program `margins` reads both, and the station's and the day's number from station.id.
//!
//!     cargo run --offline --release --package yakkurem --example site examples/margins
use std::path::Path;
use yakkurem::{write, Day, Stamp};

const PERIODS: usize = 48;

/// That of all examples, which examples/station.id has: 9,816 days after 1 January 2000 is 16 November 2026.
const STAMP: Stamp = Stamp { station: 17, date: 9816 };

/// The receiver sleeps but for an hour in every three, a pass, in which it takes 16 watt-hours each half hour.
fn demand(i: usize) -> u16 {
    if matches!(i % 6, 2 | 3) {
        16
    } else {
        0
    }
}

/// Fuel is dearer in the cold of the night, which is the first seven hours.
fn unit(i: usize) -> u32 {
    if i < 14 {
        1100
    } else {
        900
    }
}

/// What is needed where something is planned: 10 less to 14 more, by the draws of a test load (document 02, 2.7) of seed 2, one for each such half
/// hour.
fn actual(demand: &[u16]) -> Vec<u16> {
    let mut seed = 2u32;
    let mut draw = |modulus: u32| {
        seed = seed.wrapping_mul(1_664_525).wrapping_add(1_013_904_223);
        ((seed >> 16) % modulus) as u16
    };
    demand.iter().map(|&need| if need > 0 { need + draw(25) - 10 } else { 0 }).collect()
}

fn main() {
    let folder = std::env::args().nth(1).expect("the folder to write into");
    let demand: Vec<u16> = (0..PERIODS).map(demand).collect();
    let unit: Vec<u32> = (0..PERIODS).map(unit).collect();
    let (capacity, setup, holding, store) = (vec![40; PERIODS], vec![4000; PERIODS], vec![20; PERIODS], vec![16; PERIODS]);
    let (opening, closing) = (8, 8);
    let day = Day { demand: &demand, capacity: &capacity, setup: &setup, unit: &unit, holding: &holding, store: &store, opening, closing };
    let mut file = [0; 1837];
    let bytes = write(day, STAMP, &mut file).expect("a day within the limits") as usize;
    let needs: Vec<u8> = actual(&demand).into_iter().flat_map(u16::to_be_bytes).collect();
    std::fs::create_dir_all(&folder).expect("a folder");
    for (name, bytes) in [("site.day", &file[..bytes]), ("needs.act", &needs)] {
        std::fs::write(Path::new(&folder).join(name), bytes).expect("a file that can be written");
    }
}
