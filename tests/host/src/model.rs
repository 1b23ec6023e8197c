//! A model of the calls on whole histories: every event that ever came in is kept, and the sentences of document 01 ("When
//! an equation can move", "The calls"), of document 02's signal forms, rule of division, windows and missing events are followed on
//! them. Slow and plain; it has no bytes and keeps nothing aside, a count neither.

use crate::engine::{Answer, Call, Missing};
use crate::evaluator::{Events, Why, HORIZON};
use crate::missing::absent;
use crate::plan::{Op, Plan, Stream};
use std::collections::BTreeSet;

#[derive(Clone)]
pub struct Model {
    pub plan: Plan,
    pub bound: Vec<u64>,
    /// every event that came in, let go or not
    pub events: Vec<Events>,
    /// of an output: one past the last collected stamp
    pub mark: Vec<u64>,
}

impl Model {
    pub fn new(plan: &Plan) -> Model {
        let n = plan.len();
        Model { plan: plan.clone(), bound: vec![0; n], events: vec![Events::new(); n], mark: vec![0; n] }
    }

    /// "A stream holds an event until every reader's bound is above its stamp and, for an output, until it is collected."
    pub fn held(&self, s: usize) -> Vec<(u32, i64)> {
        let readers = (0..self.plan.len()).filter(|&r| self.plan[r].reads().contains(&s)).map(|r| self.bound[r]);
        let collection = self.plan[s].out.then_some(self.mark[s]);
        let waiting = readers.chain(collection).min().unwrap_or(HORIZON);
        self.events[s].iter().filter(|(t, _)| **t as u64 >= waiting).map(|(t, v)| (*t, *v)).collect()
    }

    fn reach(&self, s: usize) -> u64 {
        let (a, b) = (self.plan[s].a, self.plan[s].b);
        let y = self.bound[s];
        let reach = match self.plan[s].op {
            Op::In => unreachable!("an input has no reach"),
            Op::Nil | Op::Unit => HORIZON,
            // "no further than the first event of b, at stamp y or later, that lies above a's bound"
            Op::Last => {
                let first = self.events[b].keys().map(|t| *t as u64).find(|t| *t >= y && *t > self.bound[a]);
                self.bound[b].min(first.unwrap_or(HORIZON))
            }
            // "the greatest k up to b's bound plus 1 and up to the horizon such that every set point p with p + 1 < k lies
            // below a's bound": no further than one past the first set point that does not
            Op::Delay => {
                let points = self.events[b].keys().chain(self.events[s].keys());
                let first = points.map(|t| *t as u64).filter(|t| *t >= self.bound[a]).min();
                (self.bound[b] + 1).min(HORIZON).min(first.map_or(HORIZON, |p| p + 1))
            }
            op if op.uses_b() => self.bound[a].min(self.bound[b]),
            _ => self.bound[a],
        };
        reach.max(y)
    }

    /// What the equation has at t, from the whole histories.
    fn gives(&self, s: usize, t: u64) -> Option<i64> {
        let stream = self.plan[s];
        let at = |i: usize| self.events[i].get(&(t as u32)).copied();
        let (x, z) = (at(stream.a), at(stream.b));
        match stream.op {
            Op::Last => z.and_then(|_| self.events[stream.a].range(..t as u32).next_back().map(|(_, v)| *v)),
            Op::Delay => {
                let due = |p: u64, v: i64| v > 0 && p + v as u64 == t;
                let set = |p: &u32| self.events[stream.b].contains_key(p) || self.events[s].contains_key(p);
                let quiet = |p: u32| self.events[stream.b].range(p..t as u32).all(|(q, _)| *q == p);
                let fires = self.events[stream.a]
                    .range(..t as u32)
                    .any(|(p, v)| *v as i128 <= HORIZON as i128 && due(*p as u64, *v) && set(p) && quiet(*p));
                fires.then_some(0)
            }
            // "works on the latest values": those at t itself, where there is one
            op if op.on_signals().is_some() => {
                x.or(z)?;
                let latest = |i: usize| self.events[i].range(..=t as u32).next_back().map(|(_, v)| *v);
                at_one_stamp(Stream { op: op.on_signals()?, ..stream }, Division::Down, t, latest(stream.a), latest(stream.b))
            }
            // "the latest k events, this one included"
            op if op.is_window() => {
                x?;
                at_window(op, &self.latest_of(stream, t + 1))
            }
            _ => at_one_stamp(stream, Division::Down, t, x, z),
        }
    }

    /// The values of a's events below a bound, the latest k of them, the oldest first.
    fn latest_of(&self, stream: Stream, bound: u64) -> Vec<i64> {
        let mut all: Vec<i64> = self.events[stream.a].iter().filter(|(t, _)| (**t as u64) < bound).map(|(_, v)| *v).collect();
        all.drain(..all.len().saturating_sub(stream.k as usize));
        all
    }

    /// Of a window, what the state keeps: the values of a's latest k events below its bound.
    pub fn window(&self, s: usize) -> Vec<i64> {
        self.latest_of(self.plan[s], self.bound[s])
    }

    /// Why the equation has no event at t, if it has something to work on there.
    fn absent(&self, s: usize, t: u64) -> Option<Why> {
        let stream = self.plan[s];
        let here = |i: usize| self.events[i].get(&(t as u32)).copied();
        let so_far = |i: usize| self.events[i].range(..=t as u32).next_back().map(|(_, v)| *v);
        absent(stream, [here(stream.a), here(stream.b)], [so_far(stream.a), so_far(stream.b)], self.gives(s, t))
    }

    /// "the number of such stamps below the stream's bound"
    pub fn missing(&self, s: usize) -> Missing {
        let mut count = Missing::default();
        if self.plan[s].op.counts() {
            let stamps: BTreeSet<u32> = self.plan[s].reads().iter().flat_map(|&i| self.events[i].keys().copied()).collect();
            for t in stamps.into_iter().filter(|t| (*t as u64) < self.bound[s]) {
                count.add(self.absent(s, t as u64));
            }
        }
        count
    }

    /// Of a signal form, what the state keeps: the value of the latest event below its bound, of a and of b.
    pub fn latest(&self, s: usize) -> [Option<i64>; 2] {
        let below = |i: usize| self.events[i].iter().rev().find(|(t, _)| (**t as u64) < self.bound[s]).map(|(_, v)| *v);
        [below(self.plan[s].a), below(self.plan[s].b)]
    }

    /// The first event at or above the bound and below the reach.
    fn first(&self, s: usize, reach: u64) -> Option<(u64, i64)> {
        let (y, stream) = (self.bound[s], self.plan[s]);
        let mut candidates: Vec<u64> = match stream.op {
            Op::Unit => vec![0],
            Op::Delay => self.events[stream.a]
                .iter()
                .filter(|(_, v)| **v > 0 && **v as i128 <= HORIZON as i128)
                .map(|(p, v)| *p as u64 + *v as u64)
                .collect(),
            _ => stream.reads().iter().flat_map(|&a| self.events[a].keys().map(|t| *t as u64)).collect(),
        };
        candidates.retain(|t| *t >= y && *t < reach);
        candidates.sort();
        candidates.iter().find_map(|&t| self.gives(s, t).map(|v| (t, v)))
    }

    /// The new bound and the event that comes in, if the equation can move.
    fn step(&self, s: usize) -> Option<(u64, Option<(u64, i64)>)> {
        let reach = self.reach(s);
        let (bound, event) = match self.first(s, reach) {
            None => (reach, None),
            Some((t, _)) if self.held(s).len() == 16 => (t, None),
            Some((t, v)) => (t + 1, Some((t, v))),
        };
        (bound != self.bound[s]).then_some((bound, event))
    }

    /// A stream that is full with an event waiting.
    pub fn full(&self, s: usize) -> bool {
        self.plan[s].op != Op::In && self.held(s).len() == 16 && self.first(s, self.reach(s)).is_some()
    }

    fn move_one(&mut self, s: usize) -> bool {
        let Some((bound, event)) = self.step(s) else { return false };
        self.bound[s] = bound;
        if let Some((t, v)) = event {
            self.events[s].insert(t as u32, v);
        }
        true
    }

    /// Of an output: the oldest event that waits to be collected.
    pub fn waiting(&self, s: usize) -> Option<(u32, i64)> {
        self.events[s].iter().find(|(t, _)| **t as u64 >= self.mark[s]).map(|(t, v)| (*t, *v))
    }

    pub fn call(&mut self, call: Call) -> Answer {
        let refused = |number| Answer { number, ..Answer::default() };
        let n = self.plan.len();
        let is_input = |s: u32| (s as usize) < n && self.plan[s as usize].op == Op::In;
        match call {
            Call::Reading(s, t, v) => {
                if !is_input(s) {
                    return refused(7);
                }
                let s = s as usize;
                if (t as u64) < self.bound[s] {
                    return refused(8);
                }
                if self.held(s).len() >= 16 {
                    return refused(9);
                }
                self.bound[s] = t as u64 + 1;
                self.events[s].insert(t, v);
            }
            Call::Progress(s, y) => {
                if !is_input(s) {
                    return refused(7);
                }
                if y > HORIZON {
                    return refused(10);
                }
                if y < self.bound[s as usize] {
                    return refused(8);
                }
                self.bound[s as usize] = y;
            }
            Call::Move(s) => {
                if s as usize >= n || is_input(s) {
                    return refused(11);
                }
                if !self.move_one(s as usize) {
                    return refused(12);
                }
            }
            Call::Run(count) => {
                let mut moves = 0;
                while moves < count {
                    let Some(s) = (0..n).find(|&s| self.plan[s].op != Op::In && self.step(s).is_some()) else { break };
                    self.move_one(s);
                    moves += 1;
                }
                return Answer { moves, ..Answer::default() };
            }
            Call::Collect(s) => {
                if s as usize >= n || !self.plan[s as usize].out {
                    return refused(13);
                }
                let s = s as usize;
                let Some((t, v)) = self.waiting(s) else { return refused(14) };
                self.mark[s] = t as u64 + 1;
                return Answer { stamp: t, value: v, ..Answer::default() };
            }
        }
        Answer::default()
    }
}

/// The rule of division: document 02's, and the one before it, by which versions up to 1.2 worked out what they saved.
#[derive(Clone, Copy, PartialEq, Eq, Debug, Default)]
pub enum Division {
    /// "a quotient goes down to the next whole number and the remainder has the divisor's sign"
    #[default]
    Down,
    /// "Division cuts toward zero and the remainder has the dividend's sign."
    TowardZero,
}

impl Division {
    /// Quotient and remainder; none for "a zero divisor".
    fn of(self, x: i64, y: i64) -> Option<(i128, i128)> {
        let (x, y) = (x as i128, y as i128);
        if y == 0 {
            return None;
        }
        // Rust's % has the dividend's sign; a y more and once again, it has y's
        let left = match self {
            Division::Down => (x % y + y) % y,
            Division::TowardZero => x % y,
        };
        Some(((x - left) / y, left))
    }
}

/// What a window gives of the values in it. The sum by halves: those of the lower 32 bits are never negative, what they are above
/// 2^32 is carried, and the rest must be the upper 32 bits of a value.
pub fn at_window(op: Op, values: &[i64]) -> Option<i64> {
    match op {
        Op::Wmin => values.iter().copied().reduce(|least, v| if v < least { v } else { least }),
        Op::Wmax => values.iter().copied().reduce(|greatest, v| if v > greatest { v } else { greatest }),
        _ => {
            let low: i64 = values.iter().map(|v| v & 0xFFFF_FFFF).sum();
            let high: i64 = values.iter().map(|v| v >> 32).sum::<i64>() + (low >> 32);
            i32::try_from(high).ok().map(|high| ((high as i64) << 32) | (low & 0xFFFF_FFFF))
        }
    }
}

/// The table's rows of document 01 that look at one stamp alone: all but last and delay, no signal form and no window. x and z are
/// the arguments' events.
pub fn at_one_stamp(stream: Stream, division: Division, t: u64, x: Option<i64>, z: Option<i64>) -> Option<i64> {
    match stream.op {
        Op::In | Op::Nil => None,
        Op::Unit => (t == 0).then_some(0),
        Op::Time => x.map(|_| t as i64),
        Op::Set => x.map(|_| stream.k),
        Op::Plus => x?.checked_add(stream.k),
        Op::Neg => x?.checked_neg(),
        Op::Add => x?.checked_add(z?),
        Op::Sub => x?.checked_sub(z?),
        Op::Mul => x?.checked_mul(z?),
        Op::Div => i64::try_from(division.of(x?, z?)?.0).ok(),
        Op::Rem => i64::try_from(division.of(x?, z?)?.1).ok(),
        Op::Lt => Some((x? < z?) as i64),
        Op::Le => Some((x? <= z?) as i64),
        Op::Eq => Some((x? == z?) as i64),
        Op::Keep => x.filter(|_| z.is_some_and(|z| z != 0)),
        Op::Merge => x.or(z),
        op => unreachable!("{op:?} looks back"),
    }
}
