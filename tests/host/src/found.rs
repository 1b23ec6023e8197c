//! A model of the calls on any state, left by a call or not: "the same rules work on the held events and what is kept, and a
//! reach below y counts as y". Written from documents 01 and 02, docs/LAYOUT.md and docs/DECISIONS.md. Slow and plain: it
//! searches where the engines step.

use crate::engine::{Answer, Call, Missing};
use crate::evaluator::{Events, Why, HORIZON};
use crate::layout::{self, Size};
use crate::missing::absent;
use crate::model::{at_one_stamp, at_window, Division};
use crate::plan::{keeps_cycle_rule, keeps_window_rule, windows, Op, Plan, Stream, OPERATORS};
use std::collections::BTreeSet;

/// A stream of a state.
#[derive(Clone, PartialEq, Debug, Default)]
pub struct Record {
    pub bound: u64,
    /// of an output: one past the last collected stamp
    pub mark: u64,
    pub held: Events,
    /// of a last: a's latest known value below the bound
    pub prev: Option<i64>,
    /// of a delay: one past the latest known set point below the bound, a's event there, a's event just below the bound
    pub since: u64,
    pub value: Option<i64>,
    pub prior: Option<i64>,
    /// of a signal form: the value of a's latest known event below the bound, and of b's
    pub latest: [Option<i64>; 2],
    /// of a window: the values of a's latest known k events below the bound, the oldest first
    pub window: Vec<i64>,
    /// of arithmetic: at how many stamps that it moved over its event was missing
    pub missing: Missing,
}

#[derive(Clone, PartialEq, Debug, Default)]
pub struct Found {
    pub plan: Plan,
    pub records: Vec<Record>,
    /// in how many bytes it lies
    pub size: Size,
    /// not of the bytes: by which rule the calls divide
    pub division: Division,
}

fn word(bytes: &[u8], at: usize) -> u64 {
    u64::from_le_bytes(bytes[at..at + 8].try_into().unwrap())
}

/// What is flagged by 1 is there, what is flagged by 0 is 0.
fn flagged(record: &[u8], flag: usize, at: usize) -> Option<Option<i64>> {
    match (record[flag], word(record, at)) {
        (0, 0) => Some(None),
        (1, bits) => Some(Some(bits as i64)),
        _ => None,
    }
}

/// One record of a state of n streams, or none where the layout gives it no meaning. The values of a window lie elsewhere.
fn read_record(r: &[u8], n: usize) -> Option<(Stream, Record)> {
    let op = OPERATORS.get((r[0] as usize).checked_sub(1)?)?.0;
    let stream = Stream { op, a: r[1] as usize, b: r[2] as usize, k: word(r, 8) as i64, out: r[3] == 1 };
    let used = |is: bool, argument: usize| if is { argument < n } else { argument == 0 };
    if !used(op.uses_a(), stream.a) || !used(op.uses_b(), stream.b) || (!op.uses_k() && stream.k != 0) {
        return None;
    }
    if r[3] > 1 || (op == Op::In && stream.out) || r[4] > 16 || r[7] != 0 {
        return None;
    }
    let mut record = Record { bound: word(r, 16), mark: word(r, 24), missing: layout::missing(r, 0), ..Record::default() };
    // counts of an operator that has none, or before the first move
    if record.missing != Missing::default() && (!op.counts() || record.bound == 0) {
        return None;
    }
    if record.bound > HORIZON || record.mark > if stream.out { record.bound } else { 0 } {
        return None;
    }
    let count = r[4] as usize;
    let mut next = 0;
    for slot in r[64..64 + 12 * count].chunks(12) {
        let t = u32::from_le_bytes(slot[..4].try_into().unwrap());
        if (t as u64) < next || t as u64 >= record.bound {
            return None;
        }
        next = t as u64 + 1;
        record.held.insert(t, word(slot, 4) as i64);
    }
    if r[64 + 12 * count..].iter().any(|&x| x != 0) {
        return None;
    }
    match op {
        Op::Last => {
            record.prev = flagged(r, 5, 32)?;
            if (record.bound == 0 && record.prev.is_some()) || r[6] != 0 || word(r, 40) != 0 || word(r, 48) != 0 {
                return None;
            }
        }
        Op::Delay => {
            (record.since, record.value, record.prior) = (word(r, 32), flagged(r, 5, 40)?, flagged(r, 6, 48)?);
            // "A set point of a delay is a stamp at which b or the delay itself has an event": since is past its own
            if record.since > record.bound || record.since < next {
                return None;
            }
            if (record.since == 0 && record.value.is_some()) || (record.bound == 0 && record.prior.is_some()) {
                return None;
            }
        }
        op if op.on_signals().is_some() => {
            record.latest = [flagged(r, 5, 32)?, flagged(r, 6, 40)?];
            if (record.bound == 0 && record.latest != [None; 2]) || word(r, 48) != 0 {
                return None;
            }
        }
        op => {
            let fill = if op.is_window() { r[5] } else { 0 };
            if r[5] != fill || (record.bound == 0 && fill != 0) || r[6] != 0 || r[32..56].iter().any(|&x| x != 0) {
                return None;
            }
            record.window = vec![0; fill as usize];
        }
    }
    Some((stream, record))
}

/// The values of a plan's windows, read from behind the records into these of the right lengths; none where a byte there has no
/// meaning: a fill above the width, a byte behind the fill or of a window that no stream has.
fn read_windows(bytes: &[u8], plan: &Plan, records: &mut [Record]) -> Option<()> {
    let mut slots = bytes.chunks(layout::WINDOW);
    for s in windows(plan) {
        let (values, rest) = slots.next()?.split_at_checked(8 * records[s].window.len())?;
        if records[s].window.len() as i64 > plan[s].k || rest.iter().any(|&x| x != 0) {
            return None;
        }
        records[s].window = values.chunks(8).map(|value| word(value, 0) as i64).collect();
    }
    slots.flatten().all(|&x| x == 0).then_some(())
}

impl Found {
    /// The state that load leaves: all bounds 0.
    pub fn fresh(plan: &Plan) -> Found {
        Found::fresh_in(Size::Short, plan)
    }

    pub fn fresh_in(size: Size, plan: &Plan) -> Found {
        Found { plan: plan.clone(), records: vec![Record::default(); plan.len()], size, ..Found::default() }
    }

    /// The state that bytes give, or none: 15.
    pub fn read(state: &[u8]) -> Option<Found> {
        let size = Size::of(state.len())?;
        let (all, behind) = state.split_at(size.windows());
        let n = all.chunks(256).position(|r| r[0] == 0).unwrap_or(size.cap());
        // with no streams too: all bytes are 0
        if all[256 * n..].iter().any(|&x| x != 0) {
            return None;
        }
        let (plan, mut records): (Plan, Vec<Record>) = all.chunks(256).take(n).map(|r| read_record(r, n)).collect::<Option<Vec<_>>>()?.into_iter().unzip();
        if !keeps_window_rule(&plan) || !keeps_cycle_rule(&plan) {
            return None;
        }
        read_windows(behind, &plan, &mut records)?;
        Some(Found { plan, records, size, division: Division::Down })
    }

    pub fn bytes(&self) -> Vec<u8> {
        assert!(self.plan.len() <= self.size.cap());
        let mut state = vec![0; self.size.length()];
        for (slot, s) in state[self.size.windows()..].chunks_mut(layout::WINDOW).zip(windows(&self.plan)) {
            for (at, v) in slot.chunks_mut(8).zip(&self.records[s].window) {
                at.copy_from_slice(&v.to_le_bytes());
            }
        }
        for ((stream, record), r) in self.plan.iter().zip(&self.records).zip(state.chunks_mut(256)) {
            let mut put = |at: usize, x: u64| r[at..at + 8].copy_from_slice(&x.to_le_bytes());
            put(8, stream.k as u64);
            put(16, record.bound);
            put(24, record.mark);
            let [first, second] = record.latest;
            put(32, record.prev.or(first).map_or(record.since, |v| v as u64));
            put(40, record.value.or(second).unwrap_or(0) as u64);
            put(48, record.prior.unwrap_or(0) as u64);
            r[0] = OPERATORS.iter().position(|(op, _)| *op == stream.op).unwrap() as u8 + 1;
            (r[1], r[2], r[3], r[4]) = (stream.a as u8, stream.b as u8, stream.out as u8, record.held.len() as u8);
            r[5] = record.prev.or(record.value).or(first).is_some() as u8 + record.window.len() as u8;
            r[6] = record.prior.or(second).is_some() as u8;
            r[56..60].copy_from_slice(&record.missing.outside.to_le_bytes());
            r[60..64].copy_from_slice(&record.missing.zero.to_le_bytes());
            for (slot, (t, v)) in r[64..].chunks_mut(12).zip(&record.held) {
                slot[..4].copy_from_slice(&t.to_le_bytes());
                slot[4..].copy_from_slice(&v.to_le_bytes());
            }
        }
        state
    }

    /// A stream of the plan divides.
    pub fn divides(&self) -> bool {
        self.plan.iter().any(|stream| stream.op.divides())
    }

    /// The set points of a delay from its bound on, and the latest below it, which stands for the earlier ones: b's held
    /// events, its own, and the one that is kept.
    fn set_points(&self, s: usize) -> Vec<u64> {
        let (record, b) = (&self.records[s], &self.records[self.plan[s].b]);
        let kept = record.since.checked_sub(1);
        let all = || b.held.keys().chain(record.held.keys()).map(|t| *t as u64).chain(kept);
        let latest = all().filter(|p| *p < record.bound).max();
        all().filter(|p| *p >= record.bound).chain(latest).collect()
    }

    /// A delay's first argument at a set point: held, or kept.
    fn a_at(&self, s: usize, p: u64) -> Option<i64> {
        let record = &self.records[s];
        let kept = if p + 1 == record.since { record.value } else { None };
        self.records[self.plan[s].a].held.get(&(p as u32)).copied().or(kept)
    }

    fn reach(&self, s: usize) -> u64 {
        let (stream, y) = (self.plan[s], self.records[s].bound);
        let (a, b) = (&self.records[stream.a], &self.records[stream.b]);
        let reach = match stream.op {
            Op::In => unreachable!("an input has no reach"),
            Op::Nil | Op::Unit => HORIZON,
            Op::Last => {
                let first = b.held.keys().map(|t| *t as u64).find(|t| *t >= y && *t > a.bound);
                b.bound.min(first.unwrap_or(HORIZON))
            }
            // "every set point p with p + 1 < k lies below a's bound"
            Op::Delay => {
                let first = self.set_points(s).into_iter().filter(|p| *p >= a.bound).min();
                (b.bound + 1).min(HORIZON).min(first.map_or(HORIZON, |p| p + 1))
            }
            op if op.uses_b() => a.bound.min(b.bound),
            _ => a.bound,
        };
        reach.max(y)
    }

    fn gives(&self, s: usize, t: u64) -> Option<i64> {
        let stream = self.plan[s];
        let (a, b) = (&self.records[stream.a], &self.records[stream.b]);
        let (x, z) = (a.held.get(&(t as u32)).copied(), b.held.get(&(t as u32)).copied());
        match stream.op {
            // "the value of a's latest event strictly before t": held, or kept
            Op::Last => z.and_then(|_| a.held.range(..t as u32).next_back().map(|(_, v)| *v).or(self.records[s].prev)),
            // "for some set point p < t the stream a has value t − p at p, and b has no event strictly between p and t"
            Op::Delay => {
                let due = |p: u64| self.a_at(s, p).is_some_and(|v| v as i128 == (t - p) as i128);
                let quiet = |p: u64| !b.held.keys().any(|q| (*q as u64) > p && (*q as u64) < t);
                self.set_points(s).into_iter().any(|p| p < t && due(p) && quiet(p)).then_some(0)
            }
            // the latest values: held at t or before, or kept
            op if op.on_signals().is_some() => {
                x.or(z)?;
                let [x, z] = self.latest(s, t + 1);
                at_one_stamp(Stream { op: op.on_signals()?, ..stream }, self.division, t, x, z)
            }
            op if op.is_window() => {
                x?;
                at_window(op, &self.window(s, t + 1))
            }
            _ => at_one_stamp(stream, self.division, t, x, z),
        }
    }

    /// Why the equation has no event at t, if the held events, and those that are kept, are something to work on there.
    fn absent(&self, s: usize, t: u64) -> Option<Why> {
        let stream = self.plan[s];
        let here = [stream.a, stream.b].map(|i| self.records[i].held.get(&(t as u32)).copied());
        absent(stream, here, self.latest(s, t + 1), self.gives(s, t))
    }

    /// The counts once the bound has passed the stamps below another one.
    fn counted(&self, s: usize, to: u64) -> Missing {
        let mut missing = self.records[s].missing;
        let held: BTreeSet<u32> = self.plan[s].reads().iter().flat_map(|&i| self.records[i].held.keys().copied()).collect();
        for t in held.into_iter().map(u64::from).filter(|t| (self.records[s].bound..to).contains(t)) {
            missing.add(self.absent(s, t));
        }
        missing
    }

    /// Of a window: the latest k of what is kept and then a's held events from the bound on to below another one. Those below the
    /// bound are in it already.
    fn window(&self, s: usize, to: u64) -> Vec<i64> {
        let (stream, record) = (self.plan[s], &self.records[s]);
        let more = self.records[stream.a].held.iter().filter(|(t, _)| (record.bound..to).contains(&(**t as u64)));
        let values: Vec<i64> = record.window.iter().copied().chain(more.map(|(_, v)| *v)).collect();
        values[values.len().saturating_sub(stream.k as usize)..].to_vec()
    }

    /// Of a signal form: the value of a's latest event below a bound, held or kept, and of b's.
    fn latest(&self, s: usize, bound: u64) -> [Option<i64>; 2] {
        let held = |i: usize| self.records[i].held.iter().rev().find(|(t, _)| (**t as u64) < bound).map(|(_, v)| *v);
        let (stream, [first, second]) = (self.plan[s], self.records[s].latest);
        [held(stream.a).or(first), held(stream.b).or(second)]
    }

    /// "If an event lies at or above y and below the reach, the first one"
    fn first(&self, s: usize, reach: u64) -> Option<(u64, i64)> {
        let stream = self.plan[s];
        let mut stamps: Vec<u64> = match stream.op {
            Op::Unit => vec![0],
            Op::Delay => {
                let due = |p: u64| self.a_at(s, p).filter(|v| *v > 0).map(|v| (p as i128 + v as i128).min(HORIZON as i128) as u64);
                self.set_points(s).into_iter().filter_map(due).collect()
            }
            _ => stream.reads().iter().flat_map(|&i| self.records[i].held.keys().map(|t| *t as u64)).collect(),
        };
        stamps.retain(|t| *t >= self.records[s].bound && *t < reach);
        stamps.sort();
        stamps.into_iter().find_map(|t| self.gives(s, t).map(|v| (t, v)))
    }

    fn step(&self, s: usize) -> Option<(u64, Option<(u32, i64)>)> {
        let reach = self.reach(s);
        let (bound, event) = match self.first(s, reach) {
            None => (reach, None),
            Some((t, _)) if self.records[s].held.len() == 16 => (t, None),
            Some((t, v)) => (t + 1, Some((t as u32, v))),
        };
        (bound != self.records[s].bound).then_some((bound, event))
    }

    /// The bound goes up, with at most one event: "the state still keeps what a last or delay needs of it", a signal form's latest
    /// values, and a window's.
    fn raise(&mut self, s: usize, bound: u64, event: Option<(u32, i64)>) {
        let stream = self.plan[s];
        if stream.op.counts() {
            self.records[s].missing = self.counted(s, bound);
        }
        if stream.op.is_window() {
            self.records[s].window = self.window(s, bound);
        }
        self.records[s].bound = bound;
        self.records[s].held.extend(event);
        match stream.op {
            Op::Last => {
                let latest = self.records[stream.a].held.range(..).take_while(|(t, _)| (**t as u64) < bound).last();
                self.records[s].prev = latest.map(|(_, v)| *v).or(self.records[s].prev);
            }
            Op::Delay => {
                let latest = self.set_points(s).into_iter().filter(|p| *p < bound).max();
                let value = latest.and_then(|p| self.a_at(s, p));
                let prior = self.records[stream.a].held.get(&((bound - 1) as u32)).copied();
                let record = &mut self.records[s];
                (record.since, record.value, record.prior) = (latest.map_or(0, |p| p + 1), value, prior);
            }
            op if op.on_signals().is_some() => self.records[s].latest = self.latest(s, bound),
            _ => {}
        }
        if let Some((t, v)) = event {
            for r in 0..self.plan.len() {
                self.tell(r, s, t as u64, v);
            }
        }
        self.let_go(s);
        for a in stream.reads() {
            self.let_go(a);
        }
    }

    /// The event (t, v) of stream s came in below the bound of stream r. A signal form and a window keep only what they took in by
    /// their own moves.
    fn tell(&mut self, r: usize, s: usize, t: u64, v: i64) {
        let (stream, record) = (self.plan[r], &mut self.records[r]);
        if t >= record.bound {
            return;
        }
        match stream.op {
            Op::Last if stream.a == s => record.prev = Some(v),
            Op::Delay => {
                let below = t + 1 == record.bound;
                if stream.a == s && t + 1 == record.since {
                    record.value = Some(v);
                }
                if stream.a == s && below {
                    record.prior = Some(v);
                }
                // at or above since it is the latest set point: a's event there is known if it is the one just below the bound
                if stream.b == s && t >= record.since {
                    record.since = t + 1;
                    record.value = if below { record.prior } else { None };
                }
            }
            _ => {}
        }
    }

    /// "A stream holds an event until every reader's bound is above its stamp and, for an output, until it is collected."
    fn let_go(&mut self, s: usize) {
        let readers = (0..self.plan.len()).filter(|&r| self.plan[r].reads().contains(&s)).map(|r| self.records[r].bound);
        let collection = self.plan[s].out.then_some(self.records[s].mark);
        let waiting = readers.chain(collection).min().unwrap_or(HORIZON);
        self.records[s].held.retain(|t, _| *t as u64 >= waiting);
    }

    /// Of an output: the oldest held event that is not collected.
    pub fn waiting(&self, s: usize) -> Option<(u32, i64)> {
        let record = &self.records[s];
        record.held.iter().find(|(t, _)| **t as u64 >= record.mark).map(|(t, v)| (*t, *v))
    }

    pub fn call(&mut self, call: Call) -> Answer {
        let refused = |number| Answer { number, ..Answer::default() };
        let n = self.plan.len();
        let is_input = |s: u32| (s as usize) < n && self.plan[s as usize].op == Op::In;
        match call {
            Call::Reading(s, _, _) | Call::Progress(s, _) if !is_input(s) => return refused(7),
            Call::Progress(_, y) if y > HORIZON => return refused(10),
            Call::Reading(s, t, _) if (t as u64) < self.records[s as usize].bound => return refused(8),
            Call::Progress(s, y) if y < self.records[s as usize].bound => return refused(8),
            Call::Reading(s, _, _) if self.records[s as usize].held.len() == 16 => return refused(9),
            Call::Reading(s, t, v) => self.raise(s as usize, t as u64 + 1, Some((t, v))),
            Call::Progress(s, y) => self.records[s as usize].bound = y,
            Call::Move(s) => {
                if s as usize >= n || is_input(s) {
                    return refused(11);
                }
                let Some((bound, event)) = self.step(s as usize) else { return refused(12) };
                self.raise(s as usize, bound, event);
            }
            Call::Run(count) => {
                let mut moves = 0;
                while moves < count {
                    let can = |s: usize| if self.plan[s].op == Op::In { None } else { self.step(s).map(|to| (s, to)) };
                    let Some((s, (bound, event))) = (0..n).find_map(can) else { break };
                    self.raise(s, bound, event);
                    moves += 1;
                }
                return Answer { moves, ..Answer::default() };
            }
            Call::Collect(s) => {
                if s as usize >= n || !self.plan[s as usize].out {
                    return refused(13);
                }
                let Some((t, v)) = self.waiting(s as usize) else { return refused(14) };
                self.records[s as usize].mark = t as u64 + 1;
                self.let_go(s as usize);
                return Answer { stamp: t, value: v, ..Answer::default() };
            }
        }
        Answer::default()
    }
}
