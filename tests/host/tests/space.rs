//! Document 02's Q-6: what a stream holds, by its readers' bounds. Cases worked out by hand, through the exported calls; readers of
//! every kind at random bounds, against document 01's sentence; and one input with 31 readers, byte for byte as version 1.6 left it.

use host::buffer::Lent;
use host::engine::{engines, Answer, Call};
use host::evaluator::HORIZON;
use host::found::{Found, Record};
use host::history::Session;
use host::layout::{self, Size, SIZES};
use host::plan::{short, text_of, Op, Plan, Stream};
use host::random::{rounds, Random};
use host::worked::{as_defined, collected, numbers, record, runs};
use Call::{Move, Progress, Reading, Run};

/// A state with these bounds, in which stream 0, an input, holds these events; nothing else is held or kept.
fn state(size: Size, plan: &Plan, bounds: &[u64], held: &[(u32, i64)]) -> Vec<u8> {
    let mut records: Vec<Record> = bounds.iter().map(|&bound| Record { bound, ..Record::default() }).collect();
    records[0].held = held.iter().copied().collect();
    Found { plan: plan.clone(), records, size, ..Found::default() }.bytes()
}

/// A reading of stream 0 in both engines and the model, all with the same bytes after it: what stream 0 then holds.
fn after_reading(state: &[u8], t: u32) -> Vec<(u32, i64)> {
    let mut model = Found::read(state).expect("a state");
    assert_eq!(model.call(Reading(0, t, 7)).number, 0);
    for engine in engines() {
        let mut lent = Lent::of(state);
        assert_eq!(engine.call(&mut lent, Reading(0, t, 7)), Answer::default(), "{}", engine.name);
        assert!(lent[..] == model.bytes()[..] && lent.untouched(), "{}: another state than the model's", engine.name);
    }
    layout::held(&model.bytes(), 0)
}

/// Whether a reading of an input at t is held, with readers at these bounds: whether some reader waits for it.
fn waits(bounds: &[u64], t: u32) -> bool {
    let plan: Plan = std::iter::once(Op::In).chain(bounds.iter().map(|_| Op::Neg)).map(Stream::new).collect();
    let all: Vec<u64> = std::iter::once(0).chain(bounds.iter().copied()).collect();
    let ends = SIZES.map(|size| after_reading(&state(size, &plan, &all, &[]), t));
    let held = &ends[0];
    assert!(ends[0] == ends[1] && (*held == [] || *held == [(t, 7)]), "{ends:?}");
    !held.is_empty()
}

// ---- the cases

#[test]
fn cases_6_1_and_6_2_the_least_of_three_bounds() {
    assert!(waits(&[5, 3, 9], 3));
    assert!(!waits(&[5, 3, 9], 2));
    // whatever the order of the readers
    for bounds in [[3, 5, 9], [9, 5, 3], [5, 9, 3], [3, 9, 5], [9, 3, 5]] {
        assert!(waits(&bounds, 3) && !waits(&bounds, 2), "{bounds:?}");
    }
}

#[test]
fn cases_6_3_to_6_5_no_reader_the_horizon_and_0() {
    assert!(!waits(&[], u32::MAX));
    assert!(!waits(&[HORIZON], u32::MAX));
    assert!(waits(&[HORIZON - 1], u32::MAX));
    assert!(waits(&[0], 0));
}

#[test]
fn case_6_6_the_slowest_reader_decides() {
    let mut session = Session::load(&short("in; neg 0; time 0; set 0 k1"));
    numbers(&mut session, &[(Reading(0, 1, 1), 0), (Reading(0, 2, 1), 0), (Reading(0, 3, 1), 0), (Move(1), 0), (Move(2), 0)]);
    record(&session, 0, 4, &[3]);
    numbers(&mut session, &[(Move(3), 0)]);
    record(&session, 0, 4, &[2]);
    numbers(&mut session, &[(Move(1), 0), (Move(2), 0)]);
    record(&session, 0, 4, &[2]);
    numbers(&mut session, &[(Move(3), 0)]);
    record(&session, 0, 4, &[1]);
    as_defined(&mut session);
}

#[test]
fn case_6_7_twice_is_once_and_collection_is_no_reader() {
    let mut session = Session::load(&short("in; add 0 0; merge 0 1 out"));
    numbers(&mut session, &[(Reading(0, 1, 1), 0), (Reading(0, 2, 5), 0)]);
    runs(&mut session, 99, 4);
    record(&session, 0, 4, &[0]);
    record(&session, 1, 4, &[0]);
    record(&session, 2, 4, &[2]);
    collected(&mut session, 2, &[(1, 1), (2, 5)]);
    record(&session, 2, 4, &[0]);
    as_defined(&mut session);
}

/// FNV-1a of 64 bits, over what every call answers and leaves.
struct Print(u64);

impl Print {
    fn take(&mut self, bytes: &[u8]) {
        for byte in bytes {
            self.0 = (self.0 ^ *byte as u64).wrapping_mul(0x100_0000_01b3);
        }
    }

    fn call(&mut self, session: &mut Session, call: Call) -> Answer {
        let answer = session.call(call);
        self.take(&answer.number.to_le_bytes());
        self.take(&answer.moves.to_le_bytes());
        self.take(&answer.stamp.to_le_bytes());
        self.take(&answer.value.to_le_bytes());
        self.take(session.state());
        answer
    }
}

/// 16 readings of an input that all its readers wait for, and single moves to rest: how many, and the print of all calls.
fn one_by_one(plan: &str) -> (u32, u64) {
    let mut session = Session::load(&short(plan));
    let mut print = Print(0xcbf2_9ce4_8422_2325);
    for t in 0..16 {
        assert_eq!(print.call(&mut session, Reading(0, 3 * t, 5 - t as i64)).number, 0);
    }
    if session.inputs().len() > 1 {
        assert_eq!(print.call(&mut session, Progress(1, 48)).number, 0);
    }
    assert_eq!(layout::held(session.state(), 0).len(), 16, "all wait");
    let mut moves = 0;
    while print.call(&mut session, Run(1)).moves == 1 {
        moves += 1;
    }
    assert!(layout::held(session.state(), 0).is_empty(), "none waits");
    as_defined(&mut session);
    (moves, print.0)
}

#[test]
fn case_6_8_as_before_after_every_call() {
    // the prints are of the same calls on the library of version 1.6, before the space test changed
    assert_eq!(one_by_one(&format!("in; {}", ["neg 0"; 31].join("; "))), (31 * 16, NEGS));
    assert_eq!(one_by_one(&format!("in; in; {}", ["keep 0 1"; 30].join("; "))), (30, KEEPS));
}

/// The same with 63 readers in the longer state: after each call the first 32 records are those of the same calls on 31.
#[test]
fn case_6_8_with_63_readers() {
    let plan = |n: usize| short(&format!("in; {}", vec!["neg 0"; n].join("; ")));
    let (mut few, mut many) = (Session::load(&plan(31)), Session::load(&plan(63)));
    for t in 0..16 {
        numbers(&mut few, &[(Reading(0, 3 * t, 5 - t as i64), 0)]);
        numbers(&mut many, &[(Reading(0, 3 * t, 5 - t as i64), 0), (Move(0), 11)]);
    }
    // the 31 of the one, then the other 32; the readings go one by one as the last reader passes them
    runs(&mut few, 31 * 16, 31 * 16);
    runs(&mut many, 31 * 16, 31 * 16);
    assert!(few.state()[256..8192] == many.state()[256..8192]);
    assert_eq!((layout::held(few.state(), 0).len(), layout::held(many.state(), 0).len()), (0, 16));
    runs(&mut many, 31 * 16, 31 * 16);
    for left in (0..16).rev() {
        runs(&mut many, 1, 1);
        assert_eq!(layout::held(many.state(), 0).len(), left);
    }
    runs(&mut many, 9, 0);
    as_defined(&mut many);
}

const NEGS: u64 = 10_052_264_997_629_545_187;
const KEEPS: u64 = 8_708_994_515_386_552_028;

// ---- readers of every kind

/// A stream that may read stream 0, as a delayed argument or not, in either place, twice or not at all.
fn any_reader(random: &mut Random) -> Stream {
    let (a, b) = random.pick(&[(0, 1), (1, 0), (0, 0), (1, 1)]);
    let op = random.pick(&[Op::Neg, Op::Time, Op::Set, Op::Plus, Op::Add, Op::Keep, Op::Merge, Op::Last, Op::Delay, Op::Sadd, Op::Seq, Op::Wsum, Op::Nil, Op::Unit]);
    let stream = Stream::new(op);
    Stream {
        a: if op.uses_a() { a } else { 0 },
        b: if op.uses_b() { b } else { 0 },
        k: if op.is_window() { 3 } else { 0 },
        ..stream
    }
}

#[test]
fn held_until_every_readers_bound_is_above() {
    let (mut kept, mut gone, mut part) = (0, 0, 0);
    let all = rounds(3000);
    for round in 0..all {
        let mut random = Random::of(60, round);
        let size = random.pick(&SIZES);
        let n = 2 + random.below(size.cap() as u64 - 1) as usize;
        let mut plan: Plan = vec![Stream::new(Op::In), Stream::new(Op::In)];
        let mut windows = 0;
        while plan.len() < n {
            let stream = any_reader(&mut random);
            windows += stream.op.is_window() as usize;
            if !stream.op.is_window() || windows <= 8 {
                plan.push(stream);
            }
        }
        // stamps 10, 12, .. are held; the bounds lie around them, or at the ends
        let held: Vec<(u32, i64)> = (0..1 + random.below(15) as u32).map(|i| (10 + 2 * i, i as i64)).collect();
        let last = held.last().unwrap().0;
        let least = random.below(last as u64 + 8);
        let mut bounds: Vec<u64> = plan.iter().map(|_| least + random.below(12)).collect();
        for bound in &mut bounds {
            if random.chance(10) {
                *bound = random.pick(&[0, HORIZON]);
            }
        }
        bounds[0] = last as u64 + 1;
        let t = last + 1 + random.below(4) as u32;
        // "A stream holds an event until every reader's bound is above its stamp": the readers by the plan's arguments
        let readers: Vec<u64> = (0..n).filter(|&r| plan[r].reads().contains(&0)).map(|r| bounds[r]).collect();
        let waited = |t: u32| readers.iter().any(|&bound| bound <= t as u64);
        let before: Vec<(u32, i64)> = held.iter().copied().chain([(t, 7)]).collect();
        let expected: Vec<(u32, i64)> = before.iter().copied().filter(|(t, _)| waited(*t)).collect();
        let found = after_reading(&state(size, &plan, &bounds, &held), t);
        assert_eq!(found, expected, "{}\nbounds {bounds:?}", text_of(&plan));
        match expected.len() {
            0 => gone += 1,
            all if all == before.len() => kept += 1,
            _ => part += 1,
        }
    }
    assert!(all < 300 || [kept, gone, part].iter().all(|&some| some * 20 > all), "{kept} {gone} {part} of {all}");
}
