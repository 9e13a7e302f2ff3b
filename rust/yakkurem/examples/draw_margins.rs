//! Plans a site's day with margins of 0 to 15 on its needs, plays each plan against the needs as they turned out, and draws as an SVG what is
//! missed and what the day costs. It reads the files that the program `margins` reads, and lends what that lends.
//!
//!     cargo run --offline --release --package yakkurem --example draw_margins examples/margins > docs/margins.svg
mod picture;

use picture::{begin, below, end, legend, x, Panel, LEFT, WIDTH};
use std::path::Path;
use yakkurem::{full, play, read, Day, Memory, Stamp, TablesMut};

const LAST_MARGIN: usize = 15;
const MOST_PERIODS: usize = 96;

/// Both axes have so many steps, so that they share their lines.
const STEPS: usize = 6;

/// A margin's plan: what it misses in watt-hours, and what it costs in millilitres.
struct Tried {
    margin: usize,
    missed: f64,
    cost: f64,
}

/// The margins that have a plan.
fn tried(file: &[u8], expected: Option<Stamp>, actual: &[u16]) -> Vec<Tried> {
    let [mut demand, mut capacity, mut store] = [[0; MOST_PERIODS]; 3];
    let [mut setup, mut unit, mut holding] = [[0; MOST_PERIODS]; 3];
    let tables = TablesMut {
        demand: &mut demand,
        capacity: &mut capacity,
        setup: &mut setup,
        unit: &mut unit,
        holding: &mut holding,
        store: &mut store,
    };
    let filled = read(file, expected, tables).expect("a day file of this station and day");
    let n = filled.periods as usize;
    let (mut costs, mut choices, mut plan) = (vec![0; 1000], vec![0; 24_000], vec![0; n]);
    let mut tried = vec![];
    for margin in 0..=LAST_MARGIN {
        let demand: Vec<u16> = demand[..n].iter().map(|&need| if need > 0 { need + margin as u16 } else { 0 }).collect();
        let (capacity, setup, unit, holding, store) = (&capacity[..n], &setup[..n], &unit[..n], &holding[..n], &store[..n]);
        let day = Day { demand: &demand, capacity, setup, unit, holding, store, opening: filled.opening, closing: filled.closing };
        let memory = Memory { costs: &mut costs, choices: &mut choices, slots: &mut plan };
        if let Ok(totals) = full(day, memory) {
            let played = play(day, &plan, actual).expect("a plan that holds, and a need for each period");
            tried.push(Tried { margin, missed: played.lost as f64, cost: totals.cost as f64 / 1000.0 });
        }
    }
    tried
}

/// A step, a multiple of `unit`, with which the axis holds all amounts.
fn step(amounts: impl Iterator<Item = f64>, unit: usize) -> usize {
    let most = amounts.fold(1.0, f64::max);
    (most / (STEPS * unit) as f64).ceil() as usize * unit
}

fn curve(panel: &Panel, points: impl Iterator<Item = (usize, f64)>, colour: &str) {
    let points: Vec<(f64, f64)> = points.map(|(margin, amount)| (x(margin, LAST_MARGIN), panel.y(amount))).collect();
    let words: Vec<String> = points.iter().map(|(x, y)| format!("{x:.1},{y:.1}")).collect();
    println!("<polyline points='{}' fill='none' stroke='{colour}' stroke-width='2.5'/>", words.join(" "));
    for (x, y) in points {
        println!("<circle cx='{x:.1}' cy='{y:.1}' r='4' fill='{colour}'/>");
    }
}

/// Figures on the right, and the axis's name.
fn right_axis(panel: &Panel, step: usize, name: &str) {
    let right = LEFT + WIDTH;
    for amount in (0..=STEPS * step).step_by(step) {
        println!("<text x='{}' y='{:.1}' font-size='12'>{amount}</text>", right + 7.0, panel.y(amount as f64) + 4.0);
    }
    println!("<text x='{right}' y='{:.1}' text-anchor='end' font-weight='bold'>{name}</text>", panel.bottom - panel.height - 12.0);
}

const MISSED: &str = "#d9772b";
const COST: &str = "#35688f";

fn main() {
    let folder = std::env::args().nth(1).expect("the folder of site.day, station.id and needs.act");
    let file = |name: &str| std::fs::read(Path::new(&folder).join(name)).expect("a file that can be read");
    let numbers =
        |name: &str| -> Vec<u16> { file(name).chunks(2).map(|two| u16::from_be_bytes(two.try_into().expect("two bytes"))).collect() };
    let expected = match numbers("station.id")[..] {
        [station, date] => Some(Stamp { station, date }),
        _ => None,
    };
    let tried = tried(&file("site.day"), expected, &numbers("needs.act"));

    let (missed_step, cost_step) = (step(tried.iter().map(|t| t.missed), 5), step(tried.iter().map(|t| t.cost), 50));
    let panel = |step: usize| Panel { bottom: 480.0, height: 380.0, most: (STEPS * step) as f64 };
    let (missed, cost) = (panel(missed_step), panel(cost_step));
    begin("A site's day with margins on its needs, against the needs as they turned out");
    legend(690.0, MISSED, "missed (left)");
    legend(810.0, COST, "cost (right)");
    missed.grid(missed_step, "Wh missed over the day");
    right_axis(&cost, cost_step, "cost, ml of fuel");
    curve(&cost, tried.iter().map(|t| (t.margin, t.cost)), COST);
    curve(&missed, tried.iter().map(|t| (t.margin, t.missed)), MISSED);
    for margin in 0..=LAST_MARGIN {
        println!("<text x='{:.1}' y='498' text-anchor='middle'>{margin}</text>", x(margin, LAST_MARGIN));
    }
    below(LEFT + WIDTH / 2.0, "margin, Wh on every planned need above 0");
    end();
}
