//! Plans a day of 96 quarter hours and draws it as an SVG: need and amounts made above, charge left and its limit below.
//!
//!     cargo run --offline --release --package yakkurem --example draw > docs/day.svg
mod picture;

use picture::{begin, below, end, legend, Panel, WIDTH};
use yakkurem::{full, Day, Memory};

const PERIODS: usize = 96;

/// A mild day: a base load, a peak in the morning and a longer one in the evening; fuel goes further around noon.
fn demand(i: usize) -> u16 {
    let hour = i as f64 / 4.0;
    let peak = |at: f64, width: f64, height: f64| height * (-((hour - at) / width).powi(2)).exp();
    (3.0 + peak(7.5, 1.2, 11.0) + peak(19.5, 2.4, 14.0) + (i % 3) as f64).round() as u16
}

fn unit(i: usize) -> u32 {
    let from_noon = (i as f64 / 4.0 - 13.0).abs();
    (100.0 + 4.0 * from_noon).round() as u32
}

const NO_LIMIT: u16 = 65_535;

/// In the cold of the night the battery takes less.
fn store(i: usize) -> u16 {
    if (24..84).contains(&i) {
        NO_LIMIT
    } else {
        24
    }
}

fn x(period: usize) -> f64 {
    picture::x(period, PERIODS)
}

/// A bar of the whole period's width, or a part of it, in its middle.
fn bar(panel: &Panel, period: usize, amount: u16, part: f64, colour: &str) {
    if amount == 0 {
        return;
    }
    let whole = WIDTH / PERIODS as f64;
    let (y, width) = (panel.y(amount as f64), whole * part);
    println!(
        "<rect x='{:.1}' y='{y:.1}' width='{width:.1}' height='{:.1}' fill='{colour}'/>",
        x(period) + (whole - width) / 2.0,
        panel.bottom - y
    );
}

/// A line over the whole period, where there is a limit.
fn limit(panel: &Panel, period: usize, limit: u16, colour: &str) {
    if limit < NO_LIMIT {
        let (from, to, y) = (x(period), x(period + 1), panel.y(limit as f64));
        println!("<line x1='{from:.1}' x2='{to:.1}' y1='{y:.1}' y2='{y:.1}' stroke='{colour}' stroke-width='2'/>");
    }
}

fn main() {
    let demand: Vec<u16> = (0..PERIODS).map(demand).collect();
    let unit: Vec<u32> = (0..PERIODS).map(unit).collect();
    let store: Vec<u16> = (0..PERIODS).map(store).collect();
    let (capacity, setup, holding) = (vec![60; PERIODS], vec![5000; PERIODS], vec![3; PERIODS]);
    let total: usize = demand.iter().map(|&need| need as usize).sum();
    let (mut costs, mut choices, mut amounts) = (vec![0; 2 * (total + 1)], vec![0; PERIODS * (total + 1)], vec![0; PERIODS]);
    let (opening, closing) = (0, 0);
    let day = Day { demand: &demand, capacity: &capacity, setup: &setup, unit: &unit, holding: &holding, store: &store, opening, closing };
    let memory = Memory { costs: &mut costs, choices: &mut choices, slots: &mut amounts };
    let planned = full(day, memory).expect("a day with a plan");

    let mut charge = Vec::with_capacity(PERIODS);
    let mut left = 0;
    for i in 0..PERIODS {
        left = left + amounts[i] as u64 - demand[i] as u64;
        charge.push(left);
    }
    let most = charge.iter().max().unwrap().div_ceil(20) * 20;

    begin(&format!("A planned day: {total} Wh in 96 periods, {} µl of fuel, {} starts", planned.cost, planned.setups));
    legend(496.0, "#b9c6d6", "need");
    legend(576.0, "#d9772b", "amount made");
    legend(708.0, "#4f8f6b", "charge left");
    legend(824.0, "#a03050", "store limit");
    let (upper, lower) = (Panel { bottom: 300.0, height: 200.0, most: 60.0 }, Panel { bottom: 500.0, height: 140.0, most: most as f64 });
    upper.grid(10, "Wh in a period (capacity 60)");
    lower.grid(20, "Wh left at a period's end");
    for i in 0..PERIODS {
        bar(&upper, i, demand[i], 1.0, "#b9c6d6");
        bar(&upper, i, amounts[i], 0.6, "#d9772b");
        bar(&lower, i, charge[i] as u16, 1.0, "#4f8f6b");
        limit(&lower, i, store[i], "#a03050");
    }
    for hour in (0..=24).step_by(3) {
        below(x(4 * hour), &format!("{hour}:00"));
    }
    end();
}
