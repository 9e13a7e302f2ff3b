//! Safe calls of the proved planner. The meaning of each is in include/yakkurem.h; this crate turns codes into results.
//!
//! Names are lot sizing's. The documents': demand is need, setup is start cost, holding is upkeep, setups are starts, loads are full-load and
//! part-loaded periods; produced is made, lost is missed, disposed is spilled.
pub mod codes;

/// A day: one entry a period in each table, the charge at its beginning, and the charge that it is to hand on.
#[derive(Clone, Copy)]
pub struct Day<'a> {
    pub demand: &'a [u16],
    pub capacity: &'a [u16],
    pub setup: &'a [u32],
    pub unit: &'a [u32],
    /// per half period: on the charge before the period, and on the charge left
    pub holding: &'a [u32],
    /// the most charge that may be left after a period; 65,535 where the battery sets no limit
    pub store: &'a [u16],
    pub opening: u16,
    pub closing: u16,
}

/// What a day file is for, the documents' pair: a station, and a day as so many since 1 January 2000.
#[derive(Clone, Copy, Debug, PartialEq, Eq)]
pub struct Stamp {
    pub station: u16,
    pub date: u16,
}

/// Tables that a reader or a test load fills.
pub struct TablesMut<'a> {
    pub demand: &'a mut [u16],
    pub capacity: &'a mut [u16],
    pub setup: &'a mut [u32],
    pub unit: &'a mut [u32],
    pub holding: &'a mut [u32],
    pub store: &'a mut [u16],
}

/// What a reader gives beside the tables: how many of their cells it filled, and the charge at both ends of the day.
#[derive(Clone, Copy, Debug, PartialEq, Eq)]
pub struct Filled {
    pub periods: u64,
    pub opening: u16,
    pub closing: u16,
}

/// What a caller lends a path with two work areas: these, and the slots for the plan.
pub struct Memory<'a> {
    pub costs: &'a mut [u64],
    pub choices: &'a mut [u16],
    pub slots: &'a mut [u16],
}

/// A plan's cost in microlitres, and in how many periods it makes something.
#[derive(Clone, Copy, Debug, PartialEq, Eq)]
pub struct Totals {
    pub cost: u64,
    pub setups: u64,
}

/// How a plan loads a cell of one capacity.
#[derive(Clone, Copy, Debug, PartialEq, Eq)]
pub struct Loads {
    /// the periods that make the capacity, which is above 0
    pub full: u64,
    /// those that make something, and less
    pub part: u64,
}

/// What the equal path says of its plan. Where the capacity c is above 0, a run (between two moments of empty store, or an end of the day) that
/// makes W has W ÷ c full loads, rounded down, and one part load if the remainder is above 0; the loads are the sums over the runs.
#[derive(Clone, Copy, Debug, PartialEq, Eq)]
pub struct EqualTotals {
    pub totals: Totals,
    /// none where the capacity is 0
    pub loads: Loads,
}

/// Of needs known as ranges: the least cost of the day with the lowest, and with the highest.
#[derive(Clone, Copy, Debug, PartialEq, Eq)]
pub struct Bounds {
    pub lowest: u64,
    pub highest: u64,
}

/// What the call on big days says of its plan. No plan is cheaper than its cost less the gap.
#[derive(Clone, Copy, Debug, PartialEq, Eq)]
pub struct BigTotals {
    pub totals: Totals,
    /// how many were used
    pub trials: u64,
    /// the plan's cost less the least cost with all starts free
    pub gap: u64,
}

/// What a plan did against actual needs, over the day. The opening charge and what was produced are delivered, disposed or left; what was
/// needed is delivered or lost.
#[derive(Clone, Copy, Debug, PartialEq, Eq)]
pub struct Play {
    pub produced: u64,
    pub delivered: u64,
    /// needed where the charge did not reach
    pub lost: u64,
    /// charge above the store's limit
    pub disposed: u64,
    /// the charge after the last period
    pub left: u64,
}

/// The documents' number of a refusal, and the period that it names; 0 where it names none.
#[derive(Clone, Copy, Debug, PartialEq, Eq)]
pub struct Refusal {
    pub number: u64,
    pub period: u64,
}

/// The rules that a plan can break.
#[derive(Clone, Copy, Debug, PartialEq, Eq)]
pub enum Rule {
    AboveCapacity,
    Short,
    AboveStore,
    Over,
}

/// Why a plan was not weighed or played, or the first rule that it breaks and the period.
#[derive(Clone, Copy, Debug, PartialEq, Eq)]
pub enum Fault {
    Refused(Refusal),
    Broken(Rule, u64),
}

/// What a code other than 0 says.
pub fn fault(code: u64) -> Fault {
    let (number, period) = (code % 256, code / 256);
    match number {
        101 => Fault::Broken(Rule::AboveCapacity, period),
        102 => Fault::Broken(Rule::Short, period),
        103 => Fault::Broken(Rule::Over, period),
        104 => Fault::Broken(Rule::AboveStore, period),
        _ => Fault::Refused(Refusal { number, period }),
    }
}

fn refusal(code: u64) -> Refusal {
    Refusal { number: code % 256, period: code / 256 }
}

fn totals([cost, setups]: [u64; 2]) -> Totals {
    Totals { cost, setups }
}

/// The plan of any day, by the report's recursion (5).
pub fn full(day: Day, memory: Memory) -> Result<Totals, Refusal> {
    let mut answer = [0; 2];
    match codes::full(day, memory, &mut answer) {
        0 => Ok(totals(answer)),
        code => Err(refusal(code)),
    }
}

/// The plan of a day whose capacities can't bind, after Wagner and Whitin.
pub fn uncapped(day: Day, memory: Memory) -> Result<Totals, Refusal> {
    let mut answer = [0; 2];
    match codes::uncapped(day, memory, &mut answer) {
        0 => Ok(totals(answer)),
        code => Err(refusal(code)),
    }
}

/// The plan of a day with one capacity throughout, after Florian and Klein, and how it loads the cell.
pub fn equal(day: Day, memory: Memory) -> Result<EqualTotals, Refusal> {
    let mut answer = [0; 4];
    match codes::equal(day, memory, &mut answer) {
        0 => {
            let [cost, setups, full, part] = answer;
            Ok(EqualTotals { totals: Totals { cost, setups }, loads: Loads { full, part } })
        }
        code => Err(refusal(code)),
    }
}

/// The plan of a day without starting cost, after Johnson and Veinott. It takes no choice area.
pub fn free(day: Day, costs: &mut [u64], slots: &mut [u16]) -> Result<Totals, Refusal> {
    let mut answer = [0; 2];
    match codes::free(day, costs, slots, &mut answer) {
        0 => Ok(totals(answer)),
        code => Err(refusal(code)),
    }
}

/// Needs known as ranges, the day's being the highest; it begins with no charge. Whatever the needs turn out to be between the two, period by
/// period, the day has a plan, and its least cost lies between those given. The areas are those of the full path for the highest; no slots are taken.
pub fn bounds(lowest: &[u16], day: Day, costs: &mut [u64], choices: &mut [u16]) -> Result<Bounds, Refusal> {
    let mut answer = [0; 2];
    match codes::bounds(lowest, day, costs, choices, &mut answer) {
        0 => Ok(Bounds { lowest: answer[0], highest: answer[1] }),
        code => Err(refusal(code)),
    }
}

/// The plan of a big day, of up to 60,000 watt-hours, that so many trials lead to: the first plans as if starts were free, each further one
/// also forbids a period, which stays forbidden if the plan is cheaper. It need not be the cheapest; more trials never give a dearer one. It
/// takes no choice area.
pub fn big(day: Day, trials: usize, costs: &mut [u64], slots: &mut [u16]) -> Result<BigTotals, Refusal> {
    let mut answer = [0; 4];
    match codes::big(day, trials, costs, slots, &mut answer) {
        0 => {
            let [cost, setups, trials, gap] = answer;
            Ok(BigTotals { totals: Totals { cost, setups }, trials, gap })
        }
        code => Err(refusal(code)),
    }
}

/// Weighs somebody's plan.
pub fn weigh(day: Day, plan: &[u16]) -> Result<Totals, Fault> {
    let mut answer = [0; 2];
    match codes::weigh(day, plan, &mut answer) {
        0 => Ok(totals(answer)),
        code => Err(fault(code)),
    }
}

/// The first plan's cost less the second's.
pub fn compare(day: Day, first: &[u16], second: &[u16]) -> Result<i64, Fault> {
    let mut difference = [0];
    match codes::compare(day, first, second, &mut difference) {
        0 => Ok(difference[0]),
        code => Err(fault(code)),
    }
}

/// Plays a plan that holds against actual needs, in place of the day's, which it was made for. One that breaks a rule is not played.
pub fn play(day: Day, plan: &[u16], actual: &[u16]) -> Result<Play, Fault> {
    let mut answer = [0; 5];
    match codes::play(day, plan, actual, &mut answer) {
        0 => {
            let [produced, delivered, lost, disposed, left] = answer;
            Ok(Play { produced, delivered, lost, disposed, left })
        }
        code => Err(fault(code)),
    }
}

/// Fills the tables from a day file that has the expected stamp. Where none is expected no file has it.
pub fn read(file: &[u8], expected: Option<Stamp>, tables: TablesMut) -> Result<Filled, Refusal> {
    let mut day = [0; 3];
    let expected: &[u16] = match expected {
        Some(Stamp { station, date }) => &[station, date],
        None => &[],
    };
    match codes::read(file, expected, tables, &mut day) {
        0 => Ok(Filled { periods: day[0], opening: day[1] as u16, closing: day[2] as u16 }),
        code => Err(refusal(code)),
    }
}

/// The body of a numbered period record of a day file, whatever stamp it has or none: that very part of the file's bytes.
pub fn lookup(file: &[u8], period: usize) -> Result<&[u8], Refusal> {
    let mut part = [0; 2];
    match codes::lookup(file, period, &mut part) {
        0 => Ok(&file[part[0] as usize..][..part[1] as usize]),
        code => Err(refusal(code)),
    }
}

/// Writes the day file with this stamp at the front of `out`, and gives the count of its bytes.
pub fn write(day: Day, stamp: Stamp, out: &mut [u8]) -> Result<u64, Refusal> {
    let mut count = [0];
    match codes::write(day, stamp, out, &mut count) {
        0 => Ok(count[0]),
        code => Err(refusal(code)),
    }
}

/// Fills the tables with the test load of n periods that the seed gives: a made-up day without charge at its ends or store limits.
pub fn test_load(seed: u32, n: usize, tables: TablesMut) -> Result<(), Refusal> {
    match codes::test_load(seed, n, tables) {
        0 => Ok(()),
        code => Err(refusal(code)),
    }
}

/// What the depot charges for a cost in microlitres, in cents. Every cost has a price.
pub fn price(cost: u64) -> u64 {
    codes::price(cost)
}
