//! Plain programs of the methods of the four paths and of the call on big days, on the same lent memory, and of the call that plays a plan,
//! for comparison of speed. They are for days without charge at the ends, all but the full path's and the play for days without store limits;
//! but for the play, which weighs its plan, they test nothing, and they leave their areas as they are.
use crate::plain::{Day, MAX_PERIODS};

fn production(day: &Day, i: usize, x: u64) -> u64 {
    if x == 0 {
        0
    } else {
        day.setup[i] as u64 + day.unit[i] as u64 * x
    }
}

/// What a unit left after period i, counted from 0, costs: upkeep there and, as the charge before it, in the next period.
fn rate(day: &Day, i: usize) -> u64 {
    day.holding[i] as u64 + day.holding.get(i + 1).map_or(0, |&v| v as u64)
}

/// Recursion (5) over the totals that can be reached and left in store, two cost rows taking turns. Of the totals before a period that a
/// total after it can come from, a queue keeps the cheapest at its head: both ends of that window only move up.
pub fn full(day: &Day, costs: &mut [u64], choices: &mut [u16], slots: &mut [u16]) -> u64 {
    let (n, total) = (day.periods(), day.total() as usize);
    let width = total + 1;
    let (mut before, mut after) = costs[..2 * width].split_at_mut(width);
    before[0] = 0;
    let (mut low, mut high) = (0, 0);
    let mut queue = Vec::with_capacity(width);
    for i in 0..n {
        let (capacity, setup, unit, rate) = (day.capacity[i] as usize, day.setup[i] as u64, day.unit[i] as u64, rate(day, i));
        let floor = low + day.demand[i] as usize;
        let top = (high + capacity).min(total).min(floor + day.store[i] as usize);
        let key = |y: usize| before[y] + unit * (top - y) as u64;
        let (mut head, mut next) = (0, low);
        queue.clear();
        for made in floor..=top {
            while next < made && next <= high {
                while queue.len() > head && key(queue[queue.len() - 1]) >= key(next) {
                    queue.pop();
                }
                queue.push(next);
                next += 1;
            }
            while head < queue.len() && queue[head] + capacity < made {
                head += 1;
            }
            let (mut best, mut amount) = (if made <= high { before[made] } else { u64::MAX }, 0);
            if head < queue.len() {
                let x = made - queue[head];
                let price = before[queue[head]] + setup + unit * x as u64;
                if price < best {
                    (best, amount) = (price, x);
                }
            }
            after[made] = best + rate * (made - floor) as u64;
            choices[i * width + made] = amount as u16;
        }
        (low, high) = (floor, top);
        (before, after) = (after, before);
    }
    let cost = before[total];
    let mut made = total;
    for i in (0..n).rev() {
        slots[i] = choices[i * width + made];
        made -= slots[i] as usize;
    }
    cost
}

/// Wagner and Whitin: of the candidates for a row's last lot, from the last to the first, the sums of the report's section 3 are kept up.
pub fn uncapped(day: &Day, costs: &mut [u64], choices: &mut [u16], slots: &mut [u16]) -> u64 {
    let n = day.periods();
    let (demand, setup, unit) = (&day.demand[..n], &day.setup[..n], &day.unit[..n]);
    let (mut rates, mut begun) = ([0u64; MAX_PERIODS], [0u64; MAX_PERIODS]);
    for (i, cell) in rates[..n].iter_mut().enumerate() {
        *cell = rate(day, i);
    }
    costs[0] = 0;
    for m in 0..n {
        let (mut best, mut from) = (costs[m], m);
        // to come to m and to start there
        begun[m] = costs[m] + setup[m] as u64;
        let mut made = demand[m] as u64;
        if made > 0 {
            best = begun[m] + unit[m] as u64 * made;
            let mut held = 0;
            let (demand, unit, rates, begun) = (&demand[..m], &unit[..m], &rates[..m], &begun[..m]);
            for l in (0..m).rev() {
                held += rates[l] * made;
                made += demand[l] as u64;
                let price = begun[l] + unit[l] as u64 * made + held;
                if price <= best {
                    (best, from) = (price, l);
                }
            }
        }
        costs[m + 1] = best;
        choices[m + 1] = from as u16;
    }
    read_lots(day, choices, slots);
    costs[n]
}

/// The plan of the last row, from where the last lot of every row begins.
fn read_lots(day: &Day, choices: &[u16], slots: &mut [u16]) {
    let mut m = day.periods();
    slots[..m].fill(0);
    while m > 0 {
        let from = choices[m] as usize;
        slots[from] = day.demand[from..m].iter().sum();
        m = from;
    }
}

/// The least of these, and the first place that has it.
fn first_least(prices: &[u64]) -> (u64, usize) {
    let (mut least, mut place) = (u64::MAX, 0);
    for (l, &price) in prices.iter().enumerate() {
        if price < least {
            (least, place) = (price, l);
        }
    }
    (least, place)
}

/// The same rows in another order of sums, which a compiler can turn into vector code: what every candidate costs is kept up from row to row.
/// Of a row's need a unit costs the candidate's key, which is unit cost and upkeep to the end of the day, less the upkeep from the row on.
pub fn uncapped_row_to_row(day: &Day, costs: &mut [u64], choices: &mut [u16], slots: &mut [u16]) -> u64 {
    let n = day.periods();
    let (demand, setup, unit) = (&day.demand[..n], &day.setup[..n], &day.unit[..n]);
    let (costs, choices) = (&mut costs[..=n], &mut choices[..=n]);
    let (mut keys, mut prices) = ([0u32; MAX_PERIODS], [0u64; MAX_PERIODS]);
    let mut rest = 0;
    for i in (0..n).rev() {
        rest += rate(day, i) as u32;
        keys[i] = unit[i] + rest;
    }
    costs[0] = 0;
    for m in 0..n {
        let (need, rest) = (demand[m] as u64, keys[m] - unit[m]);
        prices[m] = costs[m] + setup[m] as u64;
        let (cost, from) = if need > 0 {
            // keys of 32 bits, so that the compiler can make several products at a time
            for (price, key) in prices[..=m].iter_mut().zip(&keys[..=m]) {
                *price += (key - rest) as u64 * need;
            }
            first_least(&prices[..=m])
        } else {
            (costs[m], m)
        };
        costs[m + 1] = cost;
        choices[m + 1] = from as u16;
    }
    read_lots(day, choices, slots);
    costs[n]
}

/// What periods compare by in the greedy rule of the report's section 4: unit cost and upkeep to the end of the day, which in place of that
/// spared since its beginning keeps their order and never lies below zero.
fn keys(day: &Day, keys: &mut [u64]) {
    let mut held = 0;
    for k in (0..day.periods()).rev() {
        held += rate(day, k);
        keys[k] = day.unit[k] as u64 + held;
    }
}

/// That rule, in batches: from the cheapest allowed period with capacity left as much as it has, or as is needed. What the plan costs, if there
/// is one.
fn greedy(day: &Day, keys: &[u64], allowed: impl Fn(usize) -> bool, slots: &mut [u16]) -> Option<u64> {
    let n = day.periods();
    slots[..n].fill(0);
    for due in 0..n {
        let mut needed = day.demand[due];
        while needed > 0 {
            let with_room = (0..=due).filter(|&k| slots[k] < day.capacity[k] && allowed(k));
            let k = with_room.min_by_key(|&k| keys[k])?;
            let amount = needed.min(day.capacity[k] - slots[k]);
            slots[k] += amount;
            needed -= amount;
        }
    }
    let (mut cost, mut left) = (0, 0);
    for k in 0..n {
        left = left + slots[k] as u64 - day.demand[k] as u64;
        cost += production(day, k, slots[k] as u64) + rate(day, k) * left;
    }
    Some(cost)
}

pub fn free(day: &Day, costs: &mut [u64], slots: &mut [u16]) -> u64 {
    keys(day, costs);
    greedy(day, costs, |_| true, slots).expect("a day with a plan")
}

/// Trials by the greedy rule, each of which marks one period more; keys, marks and the best plan so far are in the cost cells. The cost, and the
/// trials used.
pub fn big(day: &Day, trials: usize, costs: &mut [u64], slots: &mut [u16]) -> (u64, usize) {
    let n = day.periods();
    let (keyed, rest) = costs.split_at_mut(n);
    let (marks, best) = rest.split_at_mut(n);
    keys(day, keyed);
    marks.fill(0);
    let mut cost = greedy(day, keyed, |_| true, slots).expect("a day with a plan");
    let keep = |best: &mut [u64], slots: &[u16]| (0..n).for_each(|k| best[k] = slots[k] as u64);
    keep(best, slots);
    let mut used = 1;
    loop {
        let mut marked = false;
        for k in (0..n).rev() {
            if marks[k] > 0 || used == trials {
                continue;
            }
            used += 1;
            marks[k] = 1;
            match greedy(day, keyed, |i| marks[i] == 0, slots) {
                Some(price) if price < cost => {
                    cost = price;
                    keep(best, slots);
                    marked = true;
                }
                _ => marks[k] = 0,
            }
        }
        if !marked || used == trials {
            break;
        }
    }
    (0..n).for_each(|k| slots[k] = best[k] as u16);
    (cost, used)
}

const NONE: u64 = u64::MAX / 4;

/// Florian and Klein: the plan of the first m periods is that of the first l and a run of full loads and at most one part load.
pub fn equal(day: &Day, costs: &mut [u64], choices: &mut [u16], slots: &mut [u16]) -> u64 {
    let n = day.periods();
    let c = day.capacity[0] as u64;
    let width = 2 * n + 2;
    let (rows, picks) = choices.split_at_mut((n + 1) * n);
    let (row_costs, state_costs) = costs.split_at_mut(n + 1);
    let mut candidate = vec![0u16; n];
    row_costs[0] = 0;
    for m in 1..=n {
        row_costs[m] = NONE;
        for l in (0..m).rev() {
            let left: u64 = day.demand[l..m].iter().map(|&v| v as u64).sum();
            let (full, part) = if c == 0 { (0, 0) } else { (left / c, left % c) };
            if full as usize > m - l || row_costs[l] >= NONE {
                continue;
            }
            let top = 2 * full as usize + usize::from(part > 0);
            run(day, l, m, top, part, state_costs, picks, width);
            let cost = row_costs[l] + state_costs[top];
            if cost > row_costs[m] || state_costs[top] >= NONE {
                continue;
            }
            candidate[..l].copy_from_slice(&rows[l * n..l * n + l]);
            read_back(c as u16, picks, width, top, &mut candidate[l..m]);
            let row = &mut rows[m * n..m * n + m];
            if cost < row_costs[m] || candidate[..m].iter().rev().lt(row.iter().rev()) {
                row_costs[m] = cost;
                row.copy_from_slice(&candidate[..m]);
            }
        }
    }
    slots[..n].copy_from_slice(&rows[n * n..n * n + n]);
    row_costs[n]
}

/// The costs of a run's states (twice the full loads made, and 1 if the part load is), and what each period makes on the way to them.
fn run(day: &Day, l: usize, m: usize, top: usize, part: u64, costs: &mut [u64], picks: &mut [u16], width: usize) {
    let c = day.capacity[0] as u64;
    costs[0] = 0;
    costs[1..=top].fill(NONE);
    let mut due = 0;
    for i in l..m {
        due += day.demand[i] as u64;
        let row = &mut picks[(i - l) * width..][..width];
        let rate = rate(day, i);
        for s in (0..=top).rev() {
            let made = (s as u64 / 2) * c + (s as u64 % 2) * part;
            if made < due {
                costs[s] = NONE;
                continue;
            }
            let mut best = costs[s];
            let mut amount = 0;
            if s % 2 == 1 && costs[s - 1] + production(day, i, part) < best {
                best = costs[s - 1] + production(day, i, part);
                amount = part;
            }
            if s >= 2 && costs[s - 2] + production(day, i, c) < best {
                best = costs[s - 2] + production(day, i, c);
                amount = c;
            }
            costs[s] = best + rate * (made - due);
            row[s] = amount as u16;
        }
    }
}

fn read_back(full: u16, picks: &[u16], width: usize, top: usize, amounts: &mut [u16]) {
    let mut state = top;
    for k in (0..amounts.len()).rev() {
        amounts[k] = picks[k * width + state];
        state -= match amounts[k] {
            0 => 0,
            x if x == full => 2,
            _ => 1,
        };
    }
}

/// A plan weighed, then played against actual needs: made, delivered, missed, spilled, left; none where it breaks a rule.
pub fn play(day: &Day, plan: &[u16], actual: &[u16]) -> Option<[u64; 5]> {
    let mut planned = 0;
    for i in 0..day.periods() {
        planned += plan[i] as u64;
        if plan[i] > day.capacity[i] || planned < day.demand[i] as u64 {
            return None;
        }
        planned -= day.demand[i] as u64;
        if planned > day.store[i] as u64 {
            return None;
        }
    }
    if planned > 0 {
        return None;
    }
    let [mut produced, mut delivered, mut lost, mut disposed, mut left] = [0; 5];
    for i in 0..day.periods() {
        let (amount, need) = (plan[i] as u64, actual[i] as u64);
        left += amount;
        produced += amount;
        let served = need.min(left);
        delivered += served;
        lost += need - served;
        left -= served;
        let over = left.saturating_sub(day.store[i] as u64);
        disposed += over;
        left -= over;
    }
    Some([produced, delivered, lost, disposed, left])
}
