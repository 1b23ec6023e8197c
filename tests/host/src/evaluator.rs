//! The definition, from document 01's operator table, the rules under it, and document 02's signal forms, rule of division,
//! windows and missing events: a plan and the readings of its inputs give for every stream a map from stamp to value, and one from
//! stamp to the reason where there is none. Batch and plain; it knows nothing of calls, bounds or held events, nor of a window that
//! moves or a count that grows.

use crate::engine::Missing;
use crate::plan::{Op, Stream};
use std::collections::{BTreeMap, BTreeSet};

pub const LAST_STAMP: u64 = 4_294_967_295;
pub const HORIZON: u64 = LAST_STAMP + 1;

pub type Events = BTreeMap<u32, i64>;

/// Why there is no value, where there is something to work on.
#[derive(Clone, Copy, PartialEq, Eq, Debug)]
pub enum Why {
    /// "A result outside the value range"
    Outside,
    /// "a zero divisor"
    Zero,
}

/// What an equation has at a stamp: nothing to work on, or a value, or none and the reason.
pub type Row = Option<Result<i64, Why>>;

/// What a plan means on some readings.
#[derive(Clone, PartialEq, Eq, Debug)]
pub struct Meaning {
    /// of each stream its events
    pub events: Vec<Events>,
    /// of each stream the stamps at which its event is missing
    pub missing: Vec<BTreeMap<u32, Why>>,
}

impl Meaning {
    /// "the number of such stamps below the stream's bound, up to that limit", of those from another bound on.
    pub fn counts(&self, s: usize, from: u64, bound: u64) -> Missing {
        let such = |why: Why| self.missing[s].iter().filter(|(t, found)| (from..bound).contains(&(**t as u64)) && **found == why).count();
        let limited = |why: Why| such(why).min(4_294_967_295) as u32;
        Missing { outside: limited(Why::Outside), zero: limited(Why::Zero) }
    }
}

struct Table<'a> {
    plan: &'a [Stream],
    readings: &'a [Events],
    /// the events at stamps below the present one
    before: Vec<Events>,
    /// (s, p) where stream s has at p the value t − p, for the present stamp t
    due: Vec<(usize, u32)>,
}

impl Table<'_> {
    /// The value that stream s has at stamp t. `now` remembers what was found at t; the cycle rule ends the recursion.
    fn at(&self, s: usize, t: u32, now: &mut Vec<Option<Row>>) -> Option<i64> {
        if now[s].is_none() {
            now[s] = Some(self.row(s, t, now));
        }
        value(now[s].unwrap())
    }

    fn row(&self, s: usize, t: u32, now: &mut Vec<Option<Row>>) -> Row {
        let Stream { op, a, b, k, .. } = self.plan[s];
        match op {
            Op::In => self.readings[s].get(&t).copied().map(Ok),
            Op::Nil => None,
            Op::Unit => (t == 0).then_some(Ok(0)),
            Op::Time => self.at(a, t, now).map(|_| Ok(t as i64)),
            Op::Set => self.at(a, t, now).map(|_| Ok(k)),
            Op::Plus => Some(within(self.at(a, t, now)? as i128 + k as i128)),
            Op::Neg => Some(within(-(self.at(a, t, now)? as i128))),
            Op::Keep => {
                let (x, y) = (self.at(a, t, now), self.at(b, t, now));
                if y? != 0 { x.map(Ok) } else { None }
            }
            Op::Merge => {
                let (x, y) = (self.at(a, t, now), self.at(b, t, now));
                x.or(y).map(Ok)
            }
            Op::Last => {
                self.at(b, t, now)?;
                self.before[a].range(..t).next_back().map(|(_, v)| Ok(*v))
            }
            Op::Delay => self.fires(s, a, b, t).then_some(Ok(0)),
            Op::Wsum | Op::Wmin | Op::Wmax => {
                let now = self.at(a, t, now)?;
                Some(of_latest(op, k, self.before[a].values().copied().chain([now])))
            }
            _ => {
                let (x, y) = (self.at(a, t, now), self.at(b, t, now));
                let Some(form) = op.on_signals() else { return Some(calculate(op, x? as i128, y? as i128)) };
                // "an event at each stamp where either argument has one and both have had one at that stamp or before"
                x.or(y)?;
                Some(calculate(form, self.latest(a, x)? as i128, self.latest(b, y)? as i128))
            }
        }
    }

    /// The latest value of stream s, which has `now` at the present stamp.
    fn latest(&self, s: usize, now: Option<i64>) -> Option<i64> {
        now.or(self.before[s].values().next_back().copied())
    }

    /// "The delay fires [..] at t exactly if for some set point p < t the stream a has value t − p at p, and b has no event
    /// strictly between p and t."
    fn fires(&self, s: usize, a: usize, b: usize, t: u32) -> bool {
        self.due.iter().filter(|(stream, _)| *stream == a).any(|(_, p)| {
            let set_point = self.before[b].contains_key(p) || self.before[s].contains_key(p);
            set_point && self.before[b].range(p + 1..t).next().is_none()
        })
    }
}

fn value(row: Row) -> Option<i64> {
    row.and_then(Result::ok)
}

/// "A result outside the value range [..] gives no event."
fn within(x: i128) -> Result<i64, Why> {
    i64::try_from(x).map_err(|_| Why::Outside)
}

/// Of all events of a so far, from the first one on: "the sum, least or greatest of the latest k events, this one included, or of
/// all so far while fewer". "A sum out of range gives no event": the whole sum, whatever a part of it is.
fn of_latest(op: Op, k: i64, all: impl DoubleEndedIterator<Item = i64>) -> Result<i64, Why> {
    let latest = all.rev().take(k as usize);
    match op {
        Op::Wsum => within(latest.map(i128::from).sum()),
        Op::Wmin => Ok(latest.min().unwrap()),
        Op::Wmax => Ok(latest.max().unwrap()),
        _ => unreachable!("{op:?} is no window"),
    }
}

/// "a quotient goes down to the next whole number and the remainder has the divisor's sign": of the whole numbers that are not
/// above x / y the greatest. One is not above it exactly if what it leaves of x is 0 or has y's sign.
fn quotient(x: i128, y: i128) -> i128 {
    let not_above = |q: &i128| {
        let left = x - q * y;
        left == 0 || (left < 0) == (y < 0)
    };
    // wherever Rust's own / rounds to, it is less than 1 away
    [1, 0, -1].map(|away| x / y + away).into_iter().find(not_above).unwrap()
}

fn calculate(op: Op, x: i128, y: i128) -> Result<i64, Why> {
    match op {
        Op::Add => within(x + y),
        Op::Sub => within(x - y),
        Op::Mul => within(x * y),
        // "a zero divisor, gives no event"; "Where both could be said, the zero divisor is"
        Op::Div | Op::Rem if y == 0 => Err(Why::Zero),
        Op::Div => within(quotient(x, y)),
        Op::Rem => within(x - quotient(x, y) * y),
        Op::Lt => Ok((x < y) as i64),
        Op::Le => Ok((x <= y) as i64),
        Op::Eq => Ok((x == y) as i64),
        _ => unreachable!("{op:?} is no calculation"),
    }
}

/// How many events of a stream come of a quotient below zero that is not whole: where it matters that it goes down.
pub fn rounded(plan: &[Stream], streams: &[Events], s: usize) -> u64 {
    let Stream { op, a, b, .. } = plan[s];
    if !matches!(op.on_signals().unwrap_or(op), Op::Div | Op::Rem) {
        return 0;
    }
    // at an event of div or rem both arguments have one, of a signal form both have had one
    let latest = |argument: usize, t: u32| *streams[argument].range(..=t).next_back().unwrap().1 as i128;
    let below_zero = |x: i128, y: i128| (x < 0) != (y < 0) && x % y != 0;
    streams[s].keys().filter(|t| below_zero(latest(a, **t), latest(b, **t))).count() as u64
}

/// All events at stamps below `until`; none if more than `most` stamps would have to be looked at.
pub fn evaluate(plan: &[Stream], readings: &[Events], until: u64, most: usize) -> Option<Vec<Events>> {
    Some(meaning(plan, readings, until, most)?.events)
}

/// The same, with those that are missing there.
///
/// The stamps at which something can happen: 0 (unit), those of the readings, and p + v for an event of a delay's first
/// argument at p with value v. They are looked at one after the other.
pub fn meaning(plan: &[Stream], readings: &[Events], until: u64, most: usize) -> Option<Meaning> {
    // to each such stamp t the (s, p) where stream s has at p the value t − p
    let mut agenda: BTreeMap<u64, Vec<(usize, u32)>> = BTreeMap::from([(0, vec![])]);
    for (stream, events) in plan.iter().zip(readings) {
        if stream.op == Op::In {
            agenda.extend(events.keys().map(|t| (*t as u64, vec![])));
        }
    }
    let timers: BTreeSet<usize> = plan.iter().filter(|stream| stream.op == Op::Delay).map(|stream| stream.a).collect();
    let mut table = Table { plan, readings, before: vec![Events::new(); plan.len()], due: vec![] };
    let mut missing = vec![BTreeMap::new(); plan.len()];
    let mut looked = 0;
    while let Some((t, due)) = agenda.pop_first() {
        table.due = due;
        if t >= until {
            break;
        }
        looked += 1;
        if looked > most {
            return None;
        }
        let mut now = vec![None; plan.len()];
        for s in 0..plan.len() {
            table.at(s, t as u32, &mut now);
        }
        for (s, found) in now.iter().enumerate() {
            match found.unwrap() {
                Some(Ok(v)) => {
                    table.before[s].insert(t as u32, v);
                }
                Some(Err(why)) => {
                    missing[s].insert(t as u32, why);
                }
                None => {}
            }
        }
        for &a in &timers {
            if let Some(v) = value(now[a].unwrap()) {
                if v > 0 && t as i128 + v as i128 <= LAST_STAMP as i128 {
                    agenda.entry(t + v as u64).or_default().push((a, t as u32));
                }
            }
        }
    }
    Some(Meaning { events: table.before, missing })
}
