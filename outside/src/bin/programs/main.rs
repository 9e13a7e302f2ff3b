//! The programs `dayplan` and `margins`, run by their scripts as a station runs them: what each prints beside the plain implementation, and
//! that it tells of an input or an output that fails.
//!
//!     programs [SEED]
mod dayplan;
mod margins;
mod printed;
mod runs;
mod stations;

use outside::random::Random;
use std::path::PathBuf;

const SEED: u64 = 1979;

fn main() {
    let seed = match std::env::args().nth(1) {
        None => SEED,
        Some(word) => word.parse().expect("the seed is a number"),
    };
    let root = PathBuf::from(env!("CARGO_MANIFEST_DIR")).parent().unwrap().to_path_buf();
    let mut random = Random::new(seed);
    // what is drawn for the first program stays what it was without the second
    let (dayplan, margins) = (dayplan::run(&root, &mut random), margins::run(&root, &mut random));
    println!("programs: seed {seed}, {dayplan} runs of dayplan and {margins} of margins, each as it should be");
}
