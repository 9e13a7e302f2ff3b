//! What the programs are given, and what they print.
use outside::plain::{self, Day, Path, Planned, Refusal};
use outside::stamp::EXAMPLE;

/// The papers': the longest file that a program reads, the cells of its areas, and the last margin.
pub const LONGEST: usize = 1837;
const COSTS: usize = 1000;
const CHOICES: usize = 24_000;
const LAST_MARGIN: u16 = 15;

/// What stands under a name in the folder that a program runs in.
#[derive(Clone)]
pub enum Beside {
    Missing,
    Bytes(Vec<u8>),
    /// which can be opened, but not read
    Folder,
    /// a link to itself, which can't be opened
    Loop,
}

/// What a program is given: the day file on standard input; in its folder `station.id` and, which `dayplan` does not read, `needs.act`.
#[derive(Clone)]
pub struct Given {
    pub file: Vec<u8>,
    pub id: Beside,
    pub needs: Beside,
}

pub struct Program {
    pub name: &'static str,
    /// what it prints, or a refusal that is its only line
    prints: fn(&Given) -> Result<String, Refusal>,
}

pub const DAYPLAN: Program = Program { name: "dayplan", prints: plan_lines };
pub const MARGINS: Program = Program { name: "margins", prints: margin_lines };

impl Program {
    pub fn printed(&self, given: &Given) -> String {
        (self.prints)(given).unwrap_or_else(|refusal| format!("{}\n", refused(refusal)))
    }
}

fn refused(Refusal { number, period }: Refusal) -> String {
    format!("refused {number} period {period}")
}

fn first(refusals: Vec<Refusal>) -> Result<(), Refusal> {
    refusals.first().map_or(Ok(()), |&refusal| Err(refusal))
}

/// The numbers that stand in `station.id`, if it is there: two bytes each, the high one first. Of another length than 4 it gives no two.
fn expected(id: &Beside) -> Vec<u16> {
    match id {
        Beside::Bytes(bytes) if bytes.len() == 4 => vec![bytes[0] as u16 * 256 + bytes[1] as u16, bytes[2] as u16 * 256 + bytes[3] as u16],
        _ => vec![],
    }
}

/// The day of a file that a program goes on with.
pub fn read(Given { file, id, .. }: &Given) -> Result<Day, Refusal> {
    if file.len() > LONGEST {
        return Err(Refusal { number: 12, period: 0 });
    }
    first(plain::read_refusals(file, &expected(id), plain::MAX_PERIODS))?;
    Ok(plain::day_in(file, &plain::walk(file).unwrap()))
}

/// Its plan, in the programs' areas.
fn planned(day: &Day) -> Result<Planned, Refusal> {
    first(plain::path_refusals(Path::Full, day, COSTS, CHOICES, plain::MAX_PERIODS))?;
    Ok(plain::plan(day).expect("no plan, and no shortage"))
}

/// What `dayplan` prints: the plan.
fn plan_lines(given: &Given) -> Result<String, Refusal> {
    let day = read(given)?;
    let Planned { plan, totals } = planned(&day)?;
    let mut text = format!("periods {} cost {} starts {}\n", day.periods(), totals.cost, totals.setups);
    let mut made = 0;
    for (i, &amount) in plan.iter().enumerate() {
        made += amount as u64;
        text += &format!("{} made {amount} left {}\n", i + 1, day.left(i + 1, made));
    }
    Ok(text)
}

/// The actual needs of so many periods: two bytes each, the high one first.
fn actual(needs: &Beside, periods: usize) -> Result<Vec<u16>, Refusal> {
    let bytes = match needs {
        Beside::Bytes(bytes) if bytes.len() == 2 * periods => bytes,
        _ => return Err(Refusal { number: 2, period: 0 }),
    };
    let actual: Vec<u16> = bytes.chunks(2).map(|two| two[0] as u16 * 256 + two[1] as u16).collect();
    match actual.iter().position(|&need| need as u64 > plain::MAX_DEMAND) {
        Some(i) => Err(Refusal { number: 3, period: i + 1 }),
        None => Ok(actual),
    }
}

/// What `margins` prints: for each margin on the planned needs that are above 0 what the plan costs and does against the actual ones.
fn margin_lines(given: &Given) -> Result<String, Refusal> {
    let day = read(given)?;
    let actual = actual(&given.needs, day.periods())?;
    let line = |margin: u16| {
        let needs: Vec<u16> = day.demand.iter().map(|&need| if need > 0 { need + margin } else { 0 }).collect();
        let day = day.with_needs(&needs);
        match planned(&day) {
            Ok(Planned { plan, totals }) => {
                let play = plain::play(&day, &plan, &actual);
                format!("margin {margin} cost {} missed {} spilled {}\n", totals.cost, play.lost, play.disposed)
            }
            Err(refusal) => format!("margin {margin} {}\n", refused(refusal)),
        }
    };
    Ok((0..=LAST_MARGIN).map(line).collect())
}

/// The actual needs in their file's form.
pub fn needs(actual: &[u16]) -> Beside {
    Beside::Bytes(actual.iter().flat_map(|need| need.to_be_bytes()).collect())
}

/// The id of the station and the day that the files are for.
pub fn id() -> Beside {
    Beside::Bytes(plain::stamp_record(EXAMPLE)[1..].to_vec())
}

/// A file with that stamp in front, and needs beside it.
pub fn stamped(file: &[u8], needs: Beside) -> Given {
    Given { file: [&plain::stamp_record(EXAMPLE), file].concat(), id: id(), needs }
}

/// A day against actual needs.
pub fn against(day: &Day, actual: &[u16]) -> Given {
    stamped(&plain::unstamped(day), needs(actual))
}

/// The day file alone.
pub fn alone(file: &[u8]) -> Given {
    stamped(file, Beside::Missing)
}
