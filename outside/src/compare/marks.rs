//! The same for calls on marks, which come in lists: each is lent the marks as the one before left them. Where these were fresh, what was last set
//! in each mark is kept beside them, and every return is to give it.
use super::{array, filled, give_day, handed, lent, out, pattern, refusal, refused, run_tables, tables_before, wide, Seen};
use crate::marks::{Call, Calls, COUNT};
use crate::plain::Day;
use yakkurem::codes;

/// What a caller can see after a call: that of other calls, the lent parts being the tables to fill; and the marks, with the cells around them.
#[derive(Clone, Debug, PartialEq)]
pub struct Left {
    pub seen: Seen,
    pub marks: Vec<u32>,
}

impl Left {
    /// What can be seen before the call.
    pub fn before(call: &Call, marks: &[u32]) -> Left {
        let (out, lent) = match call {
            Call::Set(..) => (vec![], vec![]),
            Call::Return(_, l) => (wide::<u64>(&out(3)), tables_before(l)),
        };
        Left { seen: Seen { code: 0, out, lent }, marks: marks.to_vec() }
    }

    /// The marks without the cells around them.
    pub fn cells(&mut self) -> &mut [u32] {
        lent(&mut self.marks)
    }
}

/// What the request says.
pub fn expected(call: &Call, marks: &[u32]) -> Left {
    let mut left = Left::before(call, marks);
    match call.carry_out(left.cells()) {
        Ok(None) => {}
        Ok(Some(day)) => give_day(&mut left.seen, &day),
        Err(refusal) => left.seen.code = refused(&refusal),
    }
    left
}

/// What the library does. The tables of a day that it only reads are to be as they were.
pub fn actual(call: &Call, marks: &[u32]) -> Left {
    let mut marks = marks.to_vec();
    let seen = match call {
        Call::Set(mark, given) => {
            let day = given.clone();
            let code = codes::set_mark(lent(&mut marks), *mark, handed(&day));
            assert!(day == *given, "a day that is only read was changed: {given:?}");
            Seen { code, out: vec![], lent: vec![] }
        }
        Call::Return(mark, l) => {
            let mut day = out(3);
            let (code, tables) = run_tables(l, |tables| codes::return_mark(lent(&mut marks), *mark, tables, array(&mut day)));
            Seen { code, out: wide(&day), lent: tables }
        }
    };
    Left { seen, marks }
}

/// Whether the crate's results say the same.
fn results_agree(call: &Call, marks: &[u32], expected: &Left) -> bool {
    let mut marks = marks.to_vec();
    match call {
        Call::Set(mark, day) => {
            let result = yakkurem::set_mark(lent(&mut marks), *mark, handed(day));
            marks == expected.marks && result == if expected.seen.code == 0 { Ok(()) } else { Err(refusal(expected.seen.code)) }
        }
        Call::Return(mark, l) => {
            let mut result = None;
            let (_, tables) = run_tables(l, |tables| {
                result = Some(yakkurem::return_mark(lent(&mut marks), *mark, tables));
                0
            });
            tables == expected.seen.lent && result == Some(filled(&expected.seen))
        }
    }
}

/// A list on its way: the marks as they are now, with the cells around them; and where they were fresh at first, the day that was last set in each.
pub struct Trial {
    pub marks: Vec<u32>,
    set: Option<[Option<Day>; COUNT]>,
}

impl Trial {
    pub fn of(calls: &Calls) -> Trial {
        let mut marks = pattern(7, calls.marks.len());
        lent(&mut marks).copy_from_slice(&calls.marks);
        Trial { marks, set: calls.are_fresh().then(Default::default) }
    }

    pub fn is_of_fresh(&self) -> bool {
        self.set.is_some()
    }

    /// Whether what is seen goes by the days last set, whatever lies between: a return gives that very day, or is refused 6 where it has no room;
    /// where none was set it is refused 22.
    fn as_last_set(&mut self, call: &Call, Left { seen, .. }: &Left) -> bool {
        let Some(set) = &mut self.set else { return true };
        let (Call::Set(mark, _) | Call::Return(mark, _)) = call;
        let Some(last) = mark.checked_sub(1).and_then(|place| set.get_mut(place)) else { return seen.code == 21 };
        match (call, last) {
            (Call::Set(_, day), last) => {
                if seen.code == 0 {
                    *last = Some(day.clone());
                }
                true
            }
            (Call::Return(..), None) => seen.code == 22,
            (Call::Return(_, lent), Some(day)) if lent.iter().any(|&cells| cells < day.periods()) => seen.code == 6,
            (Call::Return(_, lent), Some(day)) => {
                let mut right = Seen { code: 0, out: wide::<u64>(&out(3)), lent: tables_before(lent) };
                give_day(&mut right, day);
                *seen == right
            }
        }
    }

    /// Carries out the next call; gives its code if all is as it should be, by the crate's results too where these are asked for.
    pub fn goes_on(&mut self, call: &Call, results: bool) -> Option<u64> {
        let (expected, seen) = (expected(call, &self.marks), actual(call, &self.marks));
        let agree = seen == expected && self.as_last_set(call, &seen) && (!results || results_agree(call, &self.marks, &expected));
        if agree {
            self.marks = seen.marks;
        }
        agree.then_some(seen.seen.code)
    }
}

/// The first call that is not as it should be, if any, and the marks before it.
pub fn failing(calls: &Calls) -> Option<(&Call, Vec<u32>)> {
    let mut trial = Trial::of(calls);
    calls.calls.iter().find(|call| trial.goes_on(call, true).is_none()).map(|call| (call, trial.marks))
}
