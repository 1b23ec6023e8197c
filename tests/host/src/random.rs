//! Random numbers from a printed seed, random plans and lengths of a state, and random records of a state.

use crate::engine::Missing;
use crate::evaluator::HORIZON;
use crate::found::Record;
use crate::layout::{Size, SIZES};
use crate::plan::{keeps_cycle_rule, keeps_window_rule, windows, Op, Plan, Stream, MOST_WINDOWS, OPERATORS, SIGNALS, WINDOWS};
use std::ops::RangeInclusive;

#[derive(Clone)]
pub struct Random(u64);

/// The seed of this run: TESSLA_SEED, or a fixed one.
pub fn seed() -> u64 {
    std::env::var("TESSLA_SEED").ok().map_or(1, |s| s.trim().parse().expect("TESSLA_SEED is a number"))
}

/// A test's share of rounds: TESSLA_SHARE in percent of what the gate runs.
pub fn rounds(gate: u64) -> u64 {
    let share = std::env::var("TESSLA_SHARE").ok().map_or(100, |s| s.trim().parse().expect("TESSLA_SHARE is a number"));
    (gate * share / 100).max(1)
}

impl Random {
    /// The numbers of one round of one test.
    pub fn of(test: u64, round: u64) -> Random {
        let mut random = Random(seed() ^ test.wrapping_mul(0x9E37_79B9_7F4A_7C15) ^ round.wrapping_mul(0xD1B5_4A32_D192_ED03));
        for _ in 0..4 {
            random.next();
        }
        random
    }

    pub fn next(&mut self) -> u64 {
        self.0 = self.0.wrapping_add(0x9E37_79B9_7F4A_7C15);
        let mut z = self.0;
        z = (z ^ (z >> 30)).wrapping_mul(0xBF58_476D_1CE4_E5B9);
        z = (z ^ (z >> 27)).wrapping_mul(0x94D0_49BB_1331_11EB);
        z ^ (z >> 31)
    }

    /// 0 to n − 1.
    pub fn below(&mut self, n: u64) -> u64 {
        self.next() % n
    }

    pub fn chance(&mut self, percent: u64) -> bool {
        self.below(100) < percent
    }

    pub fn pick<T: Copy>(&mut self, from: &[T]) -> T {
        from[self.below(from.len() as u64) as usize]
    }

    /// So many bytes of any contents.
    pub fn bytes(&mut self, n: usize) -> Vec<u8> {
        (0..n).map(|_| self.next() as u8).collect()
    }

    /// Mostly small values, sometimes those at the edges.
    pub fn value(&mut self) -> i64 {
        match self.below(20) {
            0 => self.pick(&[i64::MIN, i64::MIN + 1, i64::MAX, i64::MAX - 1, 3_037_000_499, 3_037_000_500, -3_037_000_500]),
            1 => self.next() as i64,
            2..=4 => 0,
            5..=9 => self.below(41) as i64 - 20,
            10..=11 => -1 - self.below(9) as i64,
            _ => self.below(9) as i64 + 1,
        }
    }

    /// Mostly at one end or the other, so that sums leave the range and come back into it.
    pub fn at_an_end(&mut self) -> i64 {
        let near = self.below(4) as i64;
        match self.below(8) {
            0..=2 => i64::MAX - near,
            3..=5 => i64::MIN + near,
            6 => self.pick(&[1 << 62, -(1 << 62), 1 << 58, -(1 << 58)]),
            _ => near - 2,
        }
    }

    /// A value with which results are often missing: a divisor of 0 or −1, an end of the range, or one whose double or square is out
    /// of it.
    pub fn at_an_edge(&mut self) -> i64 {
        match self.below(12) {
            0..=2 => 0,
            3 => -1,
            4..=5 => i64::MIN,
            6 => i64::MAX,
            7 => self.at_an_end(),
            8 => self.pick(&[1 << 62, -(1 << 62), (1 << 62) - 1, -(1 << 62) - 1]),
            9 => self.pick(&[1 << 32, -(1 << 32), 3_037_000_499, 3_037_000_500, -3_037_000_500, (1 << 31) + 1]),
            _ => self.below(9) as i64 - 4,
        }
    }

    /// Of missing events: none, some, as many as one byte or two or three hold, or near the limit.
    pub fn count(&mut self) -> u32 {
        let near = self.below(4) as u32;
        match self.below(8) {
            0..=1 => 0,
            2 => near,
            3 => self.pick(&[1 << 8, 1 << 16, 1 << 24]) - near,
            4 => self.next() as u32,
            _ => u32::MAX - near,
        }
    }

    /// The width of a window: mostly small, now and then the least or the greatest.
    pub fn width(&mut self) -> i64 {
        match self.below(10) {
            0 => 1,
            1 => 64,
            2 => 63 - self.below(48) as i64,
            _ => 2 + self.below(4) as i64,
        }
    }
}

/// Whether a window more is taken.
fn has_room(plan: &Plan) -> bool {
    windows(plan).len() < MOST_WINDOWS
}

/// Three streams in a cycle: a recursion over the past by last, as a count, a sum or a window, or a timer that sets itself again.
fn recursion(random: &mut Random, plan: &mut Plan, order: &[usize], place: usize) {
    let lower = |random: &mut Random| order[random.below(place as u64) as usize];
    let (first, second, third) = (order[place], order[place + 1], order[place + 2]);
    let trigger = lower(random);
    let out = |random: &mut Random| random.chance(40);
    if random.chance(50) {
        plan[first] = Stream { op: Op::Last, a: third, b: trigger, k: 0, out: out(random) };
        plan[second] = if random.chance(10) && has_room(plan) {
            Stream { op: random.pick(&WINDOWS), a: first, b: 0, k: random.width(), out: out(random) }
        } else if random.chance(50) {
            Stream { op: Op::Plus, a: first, b: 0, k: random.value(), out: out(random) }
        } else {
            let op = random.pick(&[Op::Add, Op::Sub, Op::Mul, Op::Add, Op::Div, Op::Rem, Op::Merge, Op::Le, Op::Sadd, Op::Ssub, Op::Srem, Op::Slt]);
            Stream { op, a: first, b: lower(random), k: 0, out: out(random) }
        };
    } else {
        plan[first] = Stream { op: Op::Delay, a: third, b: trigger, k: 0, out: out(random) };
        plan[second] = if random.chance(80) {
            Stream { op: Op::Set, a: first, b: 0, k: 1 + random.below(40) as i64, out: out(random) }
        } else {
            Stream { op: Op::Last, a: lower(random), b: first, k: 0, out: out(random) }
        };
    }
    plan[third] = Stream { op: Op::Merge, a: second, b: lower(random), k: 0, out: out(random) };
}

/// Numbers of streams that only the longer state takes.
pub const WIDE: RangeInclusive<usize> = 33..=64;

/// A length of a state and a number of streams that it takes: in half of the rounds at most `most` in the shorter one; else the longer
/// one, with 33 to 64 in so many percent and at most `most` in the others.
pub fn sized(random: &mut Random, most: usize, wide: u64) -> (Size, RangeInclusive<usize>) {
    let size = random.pick(&SIZES);
    (size, if size == Size::Long && random.chance(wide) { WIDE } else { 1..=most })
}

/// A length of a state and a plan that it takes, as above.
pub fn sized_plan(random: &mut Random, most: usize, wide: u64) -> (Size, Plan) {
    let (size, range) = sized(random, most, wide);
    (size, plan_of(random, range))
}

/// As many streams as lie in the range, often the most.
fn streams(random: &mut Random, range: RangeInclusive<usize>) -> usize {
    if random.chance(15) { *range.end() } else { range.start() + random.below((range.end() + 1 - range.start()) as u64) as usize }
}

/// A plan of at most so many streams.
pub fn plan(random: &mut Random, most: usize) -> Plan {
    plan_of(random, 1..=most)
}

/// A plan that keeps every rule: undelayed arguments go down a random order of the streams, delayed ones go anywhere. One in
/// twenty-five has no streams, one in twenty many windows, often all eight.
pub fn plan_of(random: &mut Random, range: RangeInclusive<usize>) -> Plan {
    if random.chance(4) {
        return vec![];
    }
    let many = *range.end() > MOST_WINDOWS && random.chance(5);
    let least = if many { MOST_WINDOWS } else { 1 };
    let n = streams(random, *range.start().max(&least)..=*range.end());
    let mut order: Vec<usize> = (0..n).collect();
    for i in (1..n).rev() {
        order.swap(i, random.below(i as u64 + 1) as usize);
    }
    let inputs = random.below(4.min(n as u64 + 1)) as usize;
    let mut plan = vec![Stream::new(Op::Nil); n];
    let mut skip = 0;
    for place in 0..n {
        if skip > 0 {
            skip -= 1;
            continue;
        }
        let s = order[place];
        if place > inputs && n - place >= 3 && !many && random.chance(30) {
            recursion(random, &mut plan, &order, place);
            skip = 2;
            continue;
        }
        let anywhere = |random: &mut Random| random.below(n as u64) as usize;
        let lower = |random: &mut Random| {
            // often a near one, so that chains come about
            let from = if random.chance(50) { place.saturating_sub(3) } else { 0 };
            order[from + random.below((place - from) as u64) as usize]
        };
        let op = if place < inputs {
            Op::In
        } else if place == inputs || place == 0 {
            random.pick(&[Op::Unit, Op::Unit, Op::Nil, Op::In])
        } else if many && random.chance(90) {
            random.pick(&WINDOWS)
        } else {
            match random.below(100) {
                0..=13 => Op::Last,
                14..=29 => Op::Delay,
                30..=41 => Op::Merge,
                42..=53 => Op::Set,
                54..=60 => Op::Plus,
                61..=65 => Op::Time,
                66..=69 => Op::Keep,
                70..=72 => random.pick(&[Op::Div, Op::Rem, Op::Sdiv, Op::Srem]),
                73..=80 => random.pick(&SIGNALS).0,
                81..=86 => random.pick(&WINDOWS),
                _ => random.pick(&OPERATORS).0,
            }
        };
        let op = if op.is_window() && !has_room(&plan) { Op::Neg } else { op };
        let mut stream = Stream::new(op);
        if op.uses_a() {
            stream.a = if matches!(op, Op::Last | Op::Delay) { anywhere(random) } else { lower(random) };
        }
        if op.uses_b() {
            stream.b = lower(random);
        }
        if op.uses_k() {
            stream.k = if op.is_window() { random.width() } else { random.value() };
        }
        stream.out = op != Op::In && random.chance(40);
        plan[s] = stream;
    }
    // a delay's first argument is often a stream that sets times
    for s in 0..n {
        if plan[s].op == Op::Delay && random.chance(30) {
            let timed: Vec<usize> = (0..n).filter(|&i| matches!(plan[i].op, Op::Set | Op::Plus | Op::Merge | Op::In)).collect();
            if !timed.is_empty() {
                plan[s].a = random.pick(&timed);
            }
        }
    }
    if n > 1 && plan.iter().all(|stream| !stream.out) {
        let equations: Vec<usize> = (0..n).filter(|&i| plan[i].op != Op::In).collect();
        if !equations.is_empty() {
            plan[random.pick(&equations)].out = true;
        }
    }
    assert!(keeps_cycle_rule(&plan) && keeps_window_rule(&plan));
    plan
}

/// A plan of which most streams are arithmetic, over one to three inputs: the argument of a last or a delay goes anywhere, the others go
/// down. The values of its constants are such that results are often missing.
pub fn arithmetic(random: &mut Random, range: RangeInclusive<usize>) -> Plan {
    let n = streams(random, *range.start().max(&2)..=*range.end());
    let inputs = 1 + random.below(3.min(n as u64 - 1)) as usize;
    let counting: Vec<Op> = OPERATORS.iter().map(|(op, _)| *op).filter(|op| op.counts()).collect();
    let mut plan: Plan = vec![];
    for s in 0..n {
        let op = match random.below(100) {
            _ if s < inputs => Op::In,
            0..=69 => random.pick(&counting),
            70..=79 => Op::Last,
            80..=84 => Op::Merge,
            85..=86 => Op::Delay,
            _ => random.pick(&OPERATORS).0,
        };
        let op = if op.is_window() && !has_room(&plan) { Op::Neg } else { op };
        let mut stream = Stream::new(op);
        // often an input
        let lower = |random: &mut Random| {
            let below = if random.chance(50) { inputs } else { s };
            random.below(below as u64) as usize
        };
        if op.uses_a() {
            stream.a = if matches!(op, Op::Last | Op::Delay) { random.below(n as u64) as usize } else { lower(random) };
        }
        if op.uses_b() {
            // now and then the same as the first
            stream.b = if random.chance(10) && stream.a < s { stream.a } else { lower(random) };
        }
        if op.uses_k() {
            stream.k = if op.is_window() { random.width() } else { random.at_an_edge() };
        }
        stream.out = op != Op::In && random.chance(40);
        plan.push(stream);
    }
    assert!(keeps_cycle_rule(&plan) && keeps_window_rule(&plan));
    plan
}

/// A record of a stream, with anything that the layout allows.
pub fn record(random: &mut Random, stream: &Stream) -> Record {
    let bound = match random.below(4) {
        0 => 0,
        1 => HORIZON - random.below(3),
        _ => random.below(500),
    };
    let mut record = Record { bound, mark: if stream.out { random.below(bound + 1) } else { 0 }, ..Record::default() };
    let stamps: Vec<u32> = (0..random.below(17)).map(|_| random.below(bound.max(1)) as u32).collect();
    if bound == 0 {
        return record;
    }
    record.held = stamps.into_iter().map(|t| (t, random.value())).collect();
    if stream.op.counts() {
        record.missing = Missing { outside: random.count(), zero: random.count() };
    }
    let maybe = |random: &mut Random| random.chance(50).then(|| random.value());
    match stream.op {
        Op::Last => record.prev = maybe(random),
        Op::Delay => {
            let newest = record.held.keys().next_back().map_or(0, |t| *t as u64 + 1);
            record.since = newest + random.below(bound - newest + 1);
            record.value = if record.since > 0 { maybe(random) } else { None };
            record.prior = maybe(random);
        }
        op if op.on_signals().is_some() => record.latest = [maybe(random), maybe(random)],
        op if op.is_window() => record.window = (0..random.below(stream.k as u64 + 1)).map(|_| random.value()).collect(),
        _ => {}
    }
    record
}
