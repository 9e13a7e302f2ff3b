//! Request 2.14 in plain code: marks to come back to. A day is laid out as its mark's cells all at once, and what cells hold is judged as a day.
mod inputs;
mod lists;

use crate::plain::{self, Day, Refusal, MAX_PERIODS, MAX_TOTAL};
pub use inputs::inputs;
pub use lists::made_up;

/// The marks are numbered from 1.
pub const COUNT: usize = 8;

/// A mark's cells: n, A, Z and six tables.
pub const CELLS: usize = 579;

/// The cells of all marks; later ones are nobody's.
pub const ALL: usize = 4632;

/// One of the two calls on the numbered mark.
#[derive(Clone, Debug, PartialEq)]
pub enum Call {
    Set(usize, Day),
    /// to tables of such lengths
    Return(usize, [usize; 6]),
}

/// The cells that are lent for marks, as they are at first, and calls on them in turn.
#[derive(Clone, Debug, PartialEq)]
pub struct Calls {
    pub marks: Vec<u32>,
    pub calls: Vec<Call>,
}

impl Calls {
    /// Whether the marks are all there and as they are when fresh: then only calls will have written them.
    pub fn are_fresh(&self) -> bool {
        self.marks.len() >= ALL && self.marks[..ALL].iter().all(|&cell| cell == 0)
    }
}

/// A day as its mark's cells.
pub fn cells_of(day: &Day) -> Vec<u32> {
    let wide = |table: &[u16]| table.iter().map(|&v| v as u32).collect::<Vec<u32>>();
    let mut cells = vec![day.periods() as u32, day.opening as u32, day.closing as u32];
    for mut table in [wide(&day.demand), wide(&day.capacity), day.setup.clone(), day.unit.clone(), day.holding.clone(), wide(&day.store)] {
        table.resize(MAX_PERIODS, 0);
        cells.extend(table);
    }
    cells
}

/// The day that a mark's cells hold, if it passes 1, 3, 4 and 14. What does not fit into 16 bits is above the limit of its table (3); as Z it
/// is above that of R + Z (4), and as A above any R + Z that passes 4 (14).
pub fn day_in(cells: &[u32]) -> Option<Day> {
    let n = cells[0] as usize;
    if plain::bad_count(n).is_some() {
        return None;
    }
    let narrow = |cell: u32| u16::try_from(cell).ok();
    let table = |k: usize| &cells[3 + MAX_PERIODS * k..][..n];
    let narrow_table = |k: usize| table(k).iter().map(|&cell| narrow(cell)).collect::<Option<Vec<u16>>>();
    let day = Day {
        demand: narrow_table(0)?,
        capacity: narrow_table(1)?,
        setup: table(2).to_vec(),
        unit: table(3).to_vec(),
        holding: table(4).to_vec(),
        store: narrow_table(5)?,
        opening: narrow(cells[1])?,
        closing: narrow(cells[2])?,
    };
    let refusal = plain::bad_value(&day).or(plain::bad_total(&day, MAX_TOTAL)).or(plain::bad_opening(&day));
    refusal.is_none().then_some(day)
}

/// Where the numbered mark's cells begin, as far as numbers go.
fn place(mark: usize) -> Option<usize> {
    mark.checked_sub(1)?.checked_mul(CELLS)
}

/// The cells of the numbered mark, if all are there. Past the last mark a long lent part has more of them, which are no mark's.
fn cells(marks: &[u32], mark: usize) -> Option<&[u32]> {
    marks.get(place(mark)?..)?.get(..CELLS)
}

fn bad_mark(mark: usize) -> Option<Refusal> {
    plain::refused(21, mark == 0 || mark > COUNT)
}

fn few_cells(marks: &[u32]) -> Option<Refusal> {
    plain::refused(5, marks.len() < ALL)
}

impl Call {
    /// The refusals whose conditions hold, in order; the first is the answer.
    pub fn refusals(&self, marks: &[u32]) -> Vec<Refusal> {
        match self {
            Call::Set(mark, day) => {
                let of_day = plain::day_refusals(day, MAX_TOTAL);
                bad_mark(*mark).into_iter().chain(of_day).chain(few_cells(marks)).collect()
            }
            Call::Return(mark, lent) => {
                let cells = cells(marks, *mark);
                let no_day = plain::refused(22, cells.and_then(day_in).is_none());
                let shortest = *lent.iter().min().unwrap();
                let few = cells.and_then(|cells| plain::too_few(shortest, cells[0] as usize));
                [bad_mark(*mark), few_cells(marks), no_day, few].into_iter().flatten().collect()
            }
        }
    }

    /// Carries the call out. Gives the day that a return fills the tables with.
    pub fn carry_out(&self, marks: &mut [u32]) -> Result<Option<Day>, Refusal> {
        if let Some(&refusal) = self.refusals(marks).first() {
            return Err(refusal);
        }
        match self {
            Call::Set(mark, day) => {
                marks[(mark - 1) * CELLS..][..CELLS].copy_from_slice(&cells_of(day));
                Ok(None)
            }
            Call::Return(mark, _) => Ok(cells(marks, *mark).and_then(day_in)),
        }
    }
}

/// Calls by what came of them.
#[derive(Default)]
pub struct Counts {
    pub lists: usize,
    pub sets: usize,
    pub returns: usize,
    /// of lists on fresh marks: returns of a day that the list had set, and of a mark that it had not
    pub as_last_set: usize,
    pub unset: usize,
    pub refused: usize,
}

impl Counts {
    pub fn add(&mut self, call: &Call, code: u64, on_fresh: bool) {
        match (call, code) {
            (Call::Set(..), 0) => self.sets += 1,
            (Call::Return(..), 0) => {
                self.returns += 1;
                self.as_last_set += usize::from(on_fresh);
            }
            _ => {
                self.refused += 1;
                self.unset += usize::from(on_fresh && code == 22);
            }
        }
    }
}
