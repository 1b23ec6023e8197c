//! The two counts of a stream: where they stop, which bytes have a meaning, states that no call leaves; and random plans, whose counts
//! are the definition's after any list of calls, in any order. What is counted and when is in missing.rs.

use host::buffer::Lent;
use host::engine::{engines, Answer, Call, Missing, STATE_LENGTH};
use host::evaluator::{evaluate, meaning, HORIZON};
use host::found::{Found, Record};
use host::history::{any_acts, Session};
use host::layout::{self, Size};
use host::missing::{as_defined, asked};
use host::plan::{short, text_of, Op, Plan, Stream, OPERATORS};
use host::random::{arithmetic, rounds, seed, sized, Random};
use host::registers::{Act, Board};
use host::worked::numbers;
use Call::{Collect, Move, Progress, Reading, Run};

const LEAST: i64 = i64::MIN;
const GREATEST: i64 = i64::MAX;
const LIMIT: u32 = 4_294_967_295;

fn loaded(plan: &str) -> Session {
    Session::load(&short(plan))
}

/// A short run looks at some of many cases only.
fn step(short: usize) -> usize {
    if rounds(100) < 100 { short } else { 1 }
}

// ---- the limit

/// A quotient known to 10 with these counts, whose inputs hold readings at 10 to 15: twice a zero divisor, three times out of range,
/// then an event.
fn near_the_limit(form: &str, counts: Missing) -> Vec<u8> {
    let held = |values: [i64; 6]| (10..).zip(values).collect();
    let inputs = [[7, LEAST, LEAST, LEAST, LEAST, 6], [0, 0, -1, -1, -1, 2]].map(|values| Record { bound: 20, held: held(values), ..Record::default() });
    let plan = short(&format!("in; in; {form} 0 1 out; neg 0"));
    let quotient = Record { bound: 10, missing: counts, ..Record::default() };
    let neg = Record { bound: 20, ..Record::default() };
    Found { plan, records: vec![inputs[0].clone(), inputs[1].clone(), quotient, neg], ..Found::default() }.bytes()
}

/// The call on every engine's copy of a state, with the same answer of each, leaves the state that the model has.
fn called(states: &mut [Lent], model: &mut Found, call: Call) -> Answer {
    let wanted = model.call(call);
    for (engine, state) in engines().iter().zip(states) {
        assert_eq!(engine.call(state, call), wanted, "{}: {call:?}", engine.name);
        assert!(state[..] == model.bytes()[..] && state.untouched(), "{}: another state than the model's after {call:?}", engine.name);
    }
    wanted
}

fn lent(bytes: &[u8]) -> Vec<Lent> {
    engines().iter().map(|_| Lent::of(bytes)).collect()
}

#[test]
fn each_count_stops_by_itself() {
    let near = [0, 1, 253, 254, 255, 65_533, 65_534, 65_535, 16_777_213, 16_777_215, LIMIT - 4, LIMIT - 3, LIMIT - 2, LIMIT - 1, LIMIT];
    for form in ["div", "sdiv"] {
        for outside in near {
            for zero in near {
                let bytes = near_the_limit(form, Missing { outside, zero });
                let (mut states, mut model) = (lent(&bytes), Found::read(&bytes).expect("a state"));
                assert_eq!(asked(&bytes, 2), (0, Missing { outside, zero }));
                // one move to the event at 15, past all five
                assert_eq!(called(&mut states, &mut model, Move(2)).number, 0);
                let wanted = Missing { outside: outside.saturating_add(3), zero: zero.saturating_add(2) };
                for state in &states {
                    assert_eq!(asked(state, 2), (0, wanted), "{form} from {outside} and {zero}");
                    // the bytes before and behind: prior is not there, and the held event is the quotient at 15
                    let record = &state[512..768];
                    assert_eq!(record[48..56], [0; 8]);
                    assert_eq!(record[56..60], wanted.outside.to_le_bytes());
                    assert_eq!(record[60..64], wanted.zero.to_le_bytes());
                    assert_eq!(record[64..76], [15, 0, 0, 0, 3, 0, 0, 0, 0, 0, 0, 0]);
                    assert_eq!(layout::bound(state, 2), 16);
                }
                // past the silence, and the event handed out
                assert_eq!(called(&mut states, &mut model, Move(2)).number, 0);
                assert_eq!(called(&mut states, &mut model, Collect(2)), Answer { stamp: 15, value: 3, ..Answer::default() });
                assert_eq!(asked(&states[0], 2), (0, wanted));
            }
        }
    }
}

/// One stamp at a time, by moves that add no event.
#[test]
fn the_last_steps_to_the_limit() {
    let mut bytes = loaded("in; neg 0; in; rem 0 2").state().to_vec();
    for stream in [0, 1, 2, 3] {
        bytes[256 * stream + 16] = 1;
    }
    for (stream, at, count) in [(1, 56, LIMIT - 3), (1, 60, 77), (3, 56, LIMIT), (3, 60, LIMIT - 2)] {
        bytes[256 * stream + at..256 * stream + at + 4].copy_from_slice(&count.to_le_bytes());
    }
    let (mut states, mut model) = (lent(&bytes), Found::read(&bytes).expect("a state"));
    for (t, outside, zero) in [(1, LIMIT - 2, LIMIT - 1), (2, LIMIT - 1, LIMIT), (3, LIMIT, LIMIT), (4, LIMIT, LIMIT), (5, LIMIT, LIMIT)] {
        for call in [Reading(0, t, LEAST), Reading(2, t, 0), Move(1), Move(3)] {
            assert_eq!(called(&mut states, &mut model, call).number, 0, "{call:?}");
        }
        // neg had 77 zero divisors from somewhere, rem as many results out of range as can be: neither changes
        assert_eq!(asked(&states[0], 1), (0, Missing { outside, zero: 77 }));
        assert_eq!(asked(&states[0], 3), (0, Missing { outside: LIMIT, zero }));
    }
    // at the limit it goes on: a result that is there comes out, and the bound goes up
    for call in [Reading(0, 9, 5), Move(1), Reading(2, 9, 3), Move(3)] {
        assert_eq!(called(&mut states, &mut model, call).number, 0, "{call:?}");
    }
    assert_eq!((layout::bound(&states[0], 1), layout::bound(&states[0], 3)), (10, 10));
}

/// One move past 32 stamps to the limit, from every count near it.
#[test]
fn one_move_past_many_stamps_to_the_limit() {
    for left in 0..40 {
        let plan = short("in; in; sdiv 0 1");
        let a = Record { bound: 60, held: (0..16).map(|i| (20 + 2 * i, LEAST)).collect(), ..Record::default() };
        let b = Record { bound: 60, held: (0..16).map(|i| (21 + 2 * i, if i % 2 == 0 { 0 } else { -1 })).collect(), ..Record::default() };
        // b was −1 before: at 20 out of range, then by turns 21 and 22 by the divisor, 23 and 24 by the range, .. 51 by the range
        let form = Record { bound: 20, latest: [Some(7), Some(-1)], missing: Missing { outside: LIMIT - left, zero: 5 + left }, ..Record::default() };
        let bytes = Found { plan, records: vec![a, b, form], ..Found::default() }.bytes();
        let (mut states, mut model) = (lent(&bytes), Found::read(&bytes).expect("a state"));
        assert_eq!(called(&mut states, &mut model, Move(2)).number, 0);
        assert_eq!(layout::bound(&states[0], 2), 60);
        assert_eq!(asked(&states[0], 2), (0, Missing { outside: LIMIT - left.saturating_sub(16), zero: 5 + left + 16 }));
    }
}

/// A load leaves none of them.
#[test]
fn a_load_over_counts_at_the_limit() {
    let bytes = near_the_limit("sdiv", Missing { outside: LIMIT, zero: LIMIT });
    let next = Session::load_over(&short("in; in; sdiv 0 1 out; neg 0"), lent(&bytes));
    assert_eq!(asked(next.state(), 2), (0, Missing::default()));
}

#[test]
fn at_every_alignment() {
    let state = near_the_limit("div", Missing { outside: 0x0403_0201, zero: 0x8070_6050 });
    for engine in engines() {
        for shift in 0..8 {
            let mut around = vec![0x77; STATE_LENGTH + 64];
            let lent = &mut around[16 + shift..][..STATE_LENGTH];
            lent.copy_from_slice(&state);
            assert_eq!(engine.missing(lent, 2), (0, Missing { outside: 0x0403_0201, zero: 0x8070_6050 }), "{}", engine.name);
            assert_eq!(engine.missing(lent, 9), (11, Missing::default()), "{}", engine.name);
            assert_eq!(engine.call(lent, Move(2)).number, 0);
            assert_eq!(engine.missing(lent, 2), (0, Missing { outside: 0x0403_0204, zero: 0x8070_6052 }), "{}", engine.name);
            assert!(around[..16 + shift].iter().chain(&around[16 + shift + STATE_LENGTH..]).all(|&x| x == 0x77), "{}", engine.name);
        }
    }
}

// ---- number 15

/// Every call answers so to these bytes, in both engines, and to the same widened; the model agrees, nothing is written, and the counts
/// are the bytes.
fn is_state(bytes: &[u8], is: bool, stream: usize, why: &str) {
    is_state_in(bytes, is, stream, why);
    is_state_in(&layout::widened(bytes), is, stream, why);
}

fn is_state_in(bytes: &[u8], is: bool, stream: usize, why: &str) {
    assert_eq!(Found::read(bytes).is_some(), is, "the model: {why}");
    for engine in engines() {
        let mut state = Lent::of(bytes);
        for (call, done) in [(Reading(99, 1, 1), 7), (Progress(99, 1), 7), (Move(99), 11), (Run(0), 0), (Collect(99), 13)] {
            let answer = engine.call(&mut state, call);
            assert_eq!(answer, Answer { number: if is { done } else { 15 }, ..Answer::default() }, "{}: {call:?}, {why}", engine.name);
        }
        let wanted = if is { (0, layout::missing(bytes, stream)) } else { (15, Missing::default()) };
        assert_eq!(engine.missing(&mut state, stream as u32), wanted, "{}: {why}", engine.name);
        assert_eq!(engine.missing(&mut state, 99), if is { (11, Missing::default()) } else { wanted }, "{}: {why}", engine.name);
        assert!(state[..] == *bytes && state.untouched(), "{}: {why}", engine.name);
    }
}

/// Bytes 56 to 63 of every operator, bit by bit: a state exactly if the operator counts and the bound is above 0.
#[test]
fn each_byte_of_the_counts() {
    for (op, name) in OPERATORS {
        let k = if op.uses_k() { " k3" } else { "" };
        let arguments = if op.uses_b() { " 0 1" } else if op.uses_a() { " 0" } else { "" };
        let mut session = loaded(&format!("in; in; {name}{arguments}{k}"));
        let fresh = session.state().to_vec();
        numbers(&mut session, &[(Progress(0, 5), 0), (Progress(1, 5), 0), (Run(9), 0)]);
        let mut moved = session.state().to_vec();
        if op == Op::In {
            moved[512 + 16] = 5;
        }
        assert!(layout::bound(&moved, 2) > 0);
        let bits: Vec<usize> = (0..64).step_by(step(13)).collect();
        for (bytes, is) in [(fresh, false), (moved, op.counts())] {
            is_state(&bytes, true, 2, name);
            for bit in &bits {
                let mut bytes = bytes.clone();
                bytes[512 + 56 + bit / 8] = 1 << (bit % 8);
                is_state(&bytes, is, 2, &format!("{name}: bit {bit} of the counts, bound {}", layout::bound(&bytes, 2)));
            }
            let mut bytes = bytes;
            bytes[512 + 56..512 + 64].fill(255);
            is_state(&bytes, is, 2, &format!("{name}: both at the limit"));
        }
    }
}

/// With bound 0 nothing has been counted; with bound 1 it may have been.
#[test]
fn counts_and_the_bound() {
    let plan = short("in; neg 0; in; sdiv 0 2; wsum 0 k4");
    for stream in [1, 3, 4] {
        for known in [0, 1, 2, HORIZON - 1, HORIZON, HORIZON + 1] {
            for (outside, zero) in [(1, 0), (0, 1), (LIMIT, LIMIT)] {
                let mut records = vec![Record::default(); 5];
                records[stream] = Record { bound: known, missing: Missing { outside, zero }, ..Record::default() };
                let bytes = Found { plan: plan.clone(), records, ..Found::default() }.bytes();
                is_state(&bytes, (1..=HORIZON).contains(&known), stream, &format!("bound {known}"));
            }
        }
    }
    // in the record behind the plan's last, and of no stream
    let mut bytes = Session::load(&plan).state().to_vec();
    bytes[5 * 256 + 56] = 1;
    is_state(&bytes, false, 1, "behind the streams");
    let mut bytes = vec![0; STATE_LENGTH];
    bytes[60] = 1;
    is_state(&bytes, false, 0, "of no stream");
}

/// Another operator in the record of one with counts.
#[test]
fn counts_under_another_operator() {
    let bytes = near_the_limit("div", Missing { outside: 0, zero: 3 });
    for (place, (op, name)) in OPERATORS.into_iter().enumerate() {
        let mut bytes = bytes.clone();
        bytes[512] = place as u8 + 1;
        // two arguments, of which a last or a delay may be any; and no k
        is_state(&bytes, op.uses_b() && op.counts(), 2, name);
        bytes[512 + 60] = 0;
        is_state(&bytes, op.uses_b(), 2, name);
    }
}

// ---- states that no call leaves, by hand

/// A state of three streams, of which the third is an output.
fn foreign(plan: &str, a: Record, b: Record, third: Record) -> Vec<u8> {
    Found { plan: short(plan), records: vec![a, b, third], ..Found::default() }.bytes()
}

fn knows(bound: u64, held: &[(u32, i64)]) -> Record {
    Record { bound, held: held.iter().copied().collect(), ..Record::default() }
}

/// The calls with their numbers on every engine and the model; then the third stream's bound and counts.
fn gives(bytes: &[u8], calls: &[(Call, u32)], bound: u64, outside: u32, zero: u32) {
    gives_in(bytes, calls, bound, outside, zero);
    gives_in(&layout::widened(bytes), calls, bound, outside, zero);
}

fn gives_in(bytes: &[u8], calls: &[(Call, u32)], bound: u64, outside: u32, zero: u32) {
    let (mut states, mut model) = (lent(bytes), Found::read(bytes).expect("a state"));
    for (call, number) in calls {
        assert_eq!(called(&mut states, &mut model, *call).number, *number, "{call:?}");
    }
    for state in &states {
        assert_eq!((layout::bound(state, 2), asked(state, 2)), (bound, (0, Missing { outside, zero })));
    }
}

#[test]
fn held_events_below_the_bound_are_not_counted() {
    // the quotient is known to 10; 5 by 0 at 7 is held all the same, as is 6 by 0 at 12
    let a = knows(20, &[(7, 5), (12, 6)]);
    let b = knows(20, &[(7, 0), (12, 0)]);
    gives(&foreign("in; in; div 0 1 out", a.clone(), b.clone(), knows(10, &[])), &[(Move(2), 0), (Move(2), 12)], 20, 0, 1);
    // the form keeps what lies below, and works on it at 12 alone
    gives(&foreign("in; in; sdiv 0 1 out", a.clone(), b.clone(), knows(10, &[])), &[(Move(2), 0), (Move(2), 12)], 20, 0, 1);
    // ahead of both: it can't move, and what comes in below its bound is not counted
    let a = knows(5, &[]);
    let ahead = foreign("in; in; div 0 1 out", a.clone(), a, knows(10, &[]));
    gives(&ahead, &[(Reading(0, 7, 1), 0), (Reading(1, 7, 0), 0), (Move(2), 12), (Run(9), 0)], 10, 0, 0);
    gives(&ahead, &[(Reading(0, 7, 1), 0), (Reading(1, 7, 0), 0), (Reading(0, 11, 1), 0), (Reading(1, 11, 0), 0), (Move(2), 0)], 12, 0, 1);
}

#[test]
fn held_events_from_the_reach_on_are_not_counted() {
    // a is known to 20, b to 9 with nothing held from 9 on
    let a = knows(20, &[(3, LEAST), (9, LEAST), (12, LEAST)]);
    let b = knows(9, &[(3, -1)]);
    gives(&foreign("in; in; div 0 1 out", a.clone(), b.clone(), knows(0, &[])), &[(Move(2), 0)], 9, 1, 0);
    gives(&foreign("in; in; sdiv 0 1 out", a.clone(), b.clone(), knows(0, &[])), &[(Move(2), 0)], 9, 1, 0);
    gives(&foreign("in; in; sdiv 0 1 out", a, b, knows(0, &[])), &[(Move(2), 0), (Progress(1, 15), 0), (Move(2), 0)], 15, 3, 0);
}

#[test]
fn kept_values_are_worked_on() {
    // the form keeps the greatest of a and 2 of b; nothing is held of a
    let form = |latest: [Option<i64>; 2]| Record { latest, missing: Missing { outside: 7, zero: 9 }, ..knows(10, &[]) };
    let (a, b) = (knows(20, &[]), knows(20, &[(11, 3), (12, 1), (13, 4)]));
    let kept = |latest| foreign("in; in; smul 0 1 out", a.clone(), b.clone(), form(latest));
    gives(&kept([Some(GREATEST), Some(2)]), &[(Move(2), 0), (Move(2), 0)], 20, 9, 9);
    gives(&kept([Some(1), Some(2)]), &[(Run(9), 0)], 20, 7, 9);
    // never an event of a: nothing to work on
    gives(&kept([None, Some(2)]), &[(Move(2), 0)], 20, 7, 9);
    // a kept 0 is a divisor, no value there is none
    let zero = |latest| foreign("in; in; srem 0 1 out", knows(20, &[(15, 6), (16, LEAST)]), knows(20, &[]), form(latest));
    gives(&zero([None, Some(0)]), &[(Move(2), 0)], 20, 7, 11);
    gives(&zero([Some(3), None]), &[(Move(2), 0)], 20, 7, 9);
    gives(&zero([Some(3), Some(5)]), &[(Run(9), 0)], 20, 7, 9);
}

#[test]
fn kept_windows_are_worked_on() {
    let window = |values: &[i64]| Record { window: values.to_vec(), ..knows(10, &[]) };
    // the 4 at 7 lies below the bound and is in the window or not, by what is kept
    let a = knows(20, &[(7, 4), (11, GREATEST), (12, 1), (13, LEAST)]);
    let kept = |values: &[i64]| foreign("in; in; wsum 0 k3 out", a.clone(), knows(0, &[]), window(values));
    // 5 + 6 + greatest; 6 + greatest + 1; greatest + 1 + least is 0
    gives(&kept(&[4, 5, 6]), &[(Move(2), 0)], 14, 2, 0);
    // greatest; greatest + 1; 0
    gives(&kept(&[]), &[(Move(2), 0)], 12, 0, 0);
    gives(&kept(&[]), &[(Move(2), 0), (Move(2), 0)], 14, 1, 0);
    // −2 + greatest, − 2 + greatest + 1, then 0
    gives(&kept(&[0, -2]), &[(Move(2), 0), (Move(2), 0), (Move(2), 0)], 14, 0, 0);
    let least = |values: &[i64]| foreign("in; in; wmin 0 k3 out", a.clone(), knows(0, &[]), window(values));
    gives(&least(&[4, 5, 6]), &[(Run(99), 0)], 20, 0, 0);
}

// ---- any plan, any calls, any order

/// After every few calls of a list the counts of every stream are the definition's, through the call and in the bytes; copies put back
/// and other plans loaded in between.
#[test]
fn after_any_list_of_calls() {
    let (mut checked, mut copies, mut loads, mut wide, mut met) = (0u64, 0u64, 0u64, 0u64, [0u64; 2]);
    // by operator, how many had a count of the one kind and of the other at the end
    let mut by = [[0u64; 2]; OPERATORS.len()];
    let all = rounds(700);
    for round in 0..all {
        let mut random = Random::of(81, round);
        let (size, range) = sized(&mut random, 12, 20);
        let mut session = Session::load_in(size, &arithmetic(&mut random, range.clone()));
        wide += (session.plan.len() > 32) as u64;
        let mut copy = session.clone();
        for _ in 0..50 + random.below(60) {
            match random.below(40) {
                0 => copy = session.clone(),
                1 => {
                    session = copy.clone();
                    copies += 1;
                }
                2 if random.chance(20) => {
                    session = Session::load_over(&arithmetic(&mut random, range.clone()), session.states);
                    copy = session.clone();
                    loads += 1;
                }
                3..=5 => checked += session.check_missing().is_some() as u64,
                6..=20 => {
                    let call = edge_reading(&mut random, &session);
                    session.call(call);
                }
                _ => {
                    for act in any_acts(&mut random, &session) {
                        session.act(act);
                    }
                }
            }
        }
        checked += session.check_missing().is_some() as u64;
        if session.rest(3_000) {
            session.check_rest();
            let Some(sum) = session.check_missing() else { continue };
            met = [met[0] + sum[0], met[1] + sum[1]];
            for s in 0..session.plan.len() {
                let place = OPERATORS.iter().position(|(op, _)| *op == session.plan[s].op).unwrap();
                let count = layout::missing(session.state(), s);
                by[place] = [by[place][0] + (count.outside > 0) as u64, by[place][1] + (count.zero > 0) as u64];
            }
        }
    }
    println!("seed {}: {all} lists, {wide} of more than 32 streams, {checked} checked on the way, {copies} copies put back, {loads} plans loaded over; missing at rest {met:?}", seed());
    for ((op, name), [outside, zero]) in OPERATORS.into_iter().zip(by) {
        if op.counts() {
            println!("seed {}: {name} with counts outside {outside}, zero {zero}", seed());
            // of the least value by −1 alone a quotient is out of range: seldom, and looked at by hand
            let may = (op != Op::Rem && op != Op::Srem, op.divides());
            assert!((outside == 0 || may.0) && (zero == 0 || may.1), "{name}: {outside} {zero}");
            assert!(all < 500 || ((outside > 0 || op.divides()) && (zero > 0 || !may.1)), "{name}: {outside} {zero}");
        }
        assert!(op.counts() || (outside, zero) == (0, 0), "{name}");
    }
    assert!(all < 100 || (checked > 2 * all && copies > all / 2 && loads > 0 && wide > all / 20 && met.iter().all(|&count| count > all)), "{met:?}");
}

/// A reading of an input with a value at an edge, at the latest stamp of another if it is not known there, so that both have an event.
fn edge_reading(random: &mut Random, session: &Session) -> Call {
    let inputs = session.inputs();
    let (input, other) = (random.pick(&inputs), random.pick(&inputs));
    let stamp = (session.known[input].max(session.known[other].saturating_sub(1)) + random.chance(20) as u64).min(u32::MAX as u64) as u32;
    Reading(input as u32, stamp, random.at_an_edge())
}

/// The same readings, in many orders: inputs in turn or one after the other, single moves, runs of any length, collections in between
/// or none until it is full, by calls or by the block. On the way the counts are those below each bound; at rest they are the same, and
/// so is every byte.
#[test]
fn the_order_of_calls_does_not_matter() {
    const ORDERS: usize = 6;
    let (mut compared, mut ways, mut met) = (0u64, 0u64, [0u64; 2]);
    let all = rounds(120);
    for round in 0..all {
        let mut random = Random::of(82, round);
        let (size, range) = sized(&mut random, 9, 15);
        let plan = arithmetic(&mut random, range);
        let inputs: Vec<usize> = (0..plan.len()).filter(|&s| plan[s].op == Op::In).collect();
        let script: Vec<Vec<Call>> = inputs.iter().map(|&s| script(&mut random, s as u32)).collect();
        let mut ends: Vec<Session> = vec![];
        for order in 0..ORDERS {
            let Some(mut session) = in_order(&mut random, size, &plan, &script, order) else { continue };
            let Some(sum) = session.check_missing() else { continue };
            assert!(session.check_rest());
            met = [met[0] + sum[0], met[1] + sum[1]];
            ends.push(session);
            ways += 1;
        }
        for other in ends.iter().skip(1) {
            assert!(ends[0].state() == other.state(), "other bytes at rest\n{}\n{}", ends[0].story(), other.story());
            compared += 1;
        }
    }
    println!("seed {}: {ways} ways to rest, {compared} pairs compared, missing {met:?}", seed());
    assert!(all < 50 || (compared > 3 * all && met.iter().all(|&count| count > all)));
}

/// Readings and progress of an input, with values whose results are often missing.
fn script(random: &mut Random, input: u32) -> Vec<Call> {
    let (mut calls, mut t) = (vec![], 0u32);
    for _ in 0..20 {
        t += random.below(3) as u32;
        let value = if random.chance(75) { random.at_an_edge() } else { random.value() };
        calls.push(if random.chance(85) { Reading(input, t, value) } else { Progress(input, t as u64 + 1) });
        t += 1;
    }
    calls.push(Progress(input, 100));
    calls
}

/// The script to rest in some order; none if that takes too many moves. Now and then the counts are looked at.
fn in_order(random: &mut Random, size: Size, plan: &Plan, script: &[Vec<Call>], order: usize) -> Option<Session> {
    let mut session = Session::load_in(size, plan);
    let inputs = session.inputs();
    let mut next = vec![0; script.len()];
    let n = plan.len() as u64;
    while let Some(first) = (0..script.len()).find(|&i| next[i] < script[i].len()) {
        // all of one input as far as it is taken, or by turns
        let i = if order % 2 == 0 { first } else { random.below(script.len() as u64) as usize };
        if let Some(call) = script[i].get(next[i]) {
            let by_block = order > 2 && matches!(call, Reading(..));
            match if by_block { session.command(*call) } else { session.call(*call).number } {
                0 => next[i] += 1,
                9 => {
                    // an output is full, or another input is behind: the one furthest behind is always taken at rest
                    work(random, &mut session, order);
                    let rest = |&j: &usize| next[j] < script[j].len();
                    let behind = (0..script.len()).filter(rest).min_by_key(|&j| session.known[inputs[j]]).unwrap();
                    if session.call(script[behind][next[behind]]).number == 0 {
                        next[behind] += 1;
                    } else if !session.rest(3_000) {
                        return None;
                    }
                }
                number => panic!("refused {number}\n{}", session.story()),
            }
        }
        for _ in 0..random.below(4) * (order as u64 % 3) {
            session.act(Act::Call(match random.below(6) {
                0..=2 => Move(random.below(n) as u32),
                3 => Run(random.below(5) as u32),
                _ => Collect(random.below(n) as u32),
            }));
        }
        if random.chance(6) {
            session.check_missing();
        }
    }
    session.rest(3_000).then_some(session)
}

/// Some work: moves of single streams, the highest first or at random, or a run; then collections.
fn work(random: &mut Random, session: &mut Session, order: usize) {
    let n = session.plan.len() as u32;
    match order % 3 {
        0 => {
            session.call(Run(20));
        }
        1 => {
            for s in (0..n).rev() {
                while session.call(Move(s)).number == 0 {}
            }
        }
        _ => {
            for _ in 0..30 {
                session.call(Move(random.below(n as u64) as u32));
            }
        }
    }
    for s in session.outputs() {
        while random.chance(80) && session.call(Collect(s as u32)).number == 0 {}
    }
}

/// A long run: each reading worked off and collected, thousands of stamps, against counts kept beside it.
#[test]
fn a_long_run() {
    let mut random = Random::of(83, 0);
    let mut session = loaded("in; in; add 0 1 out; div 0 1 out; ssub 0 1 out; srem 0 1 out; wsum 0 k5 out; neg 0 out");
    let mut counts = [Missing::default(); 8];
    let (mut latest, mut window): ([Option<i128>; 2], Vec<i128>) = ([None; 2], vec![]);
    let out_of_range = |x: i128| (x > GREATEST as i128 || x < LEAST as i128) as u32;
    for t in 0..(30 * rounds(100)).max(50) as u32 {
        let now: [Option<i64>; 2] = [random.chance(80), random.chance(70)].map(|is| is.then(|| random.at_an_edge()));
        for (input, value) in now.into_iter().enumerate() {
            let call = value.map_or(Progress(input as u32, t as u64 + 1), |v| Reading(input as u32, t, v));
            numbers(&mut session, &[(call, 0)]);
            latest[input] = value.map(i128::from).or(latest[input]);
        }
        let [x, y] = now.map(|value| value.map(i128::from));
        if let (Some(x), Some(y)) = (x, y) {
            counts[2].outside += out_of_range(x + y);
            counts[3].zero += (y == 0) as u32;
            counts[3].outside += (y == -1) as u32 * out_of_range(-x);
        }
        if let ([Some(x), Some(y)], true) = (latest, x.or(y).is_some()) {
            counts[4].outside += out_of_range(x - y);
            counts[5].zero += (y == 0) as u32;
        }
        if let Some(x) = x {
            window.push(x);
            counts[6].outside += out_of_range(window.iter().rev().take(5).sum());
            counts[7].outside += out_of_range(-x);
        }
        numbers(&mut session, &[(Run(99), 0)]);
        for stream in 2..8 {
            assert!(session.call(Collect(stream)).number == 0 || layout::held(session.state(), stream as usize).is_empty());
            assert_eq!(session.missing(stream), (0, counts[stream as usize]), "stream {stream} at {t}");
        }
        // the story of a failure is long enough
        session.list.clear();
    }
    println!("seed {}: counts of a long run {:?}", seed(), &counts[2..]);
    assert!(rounds(100) < 100 || (counts[2..].iter().all(|c| c.outside + c.zero > 100) && counts[3].outside > 10));
    assert!(session.check_missing_within(usize::MAX).is_some());
}

// ---- any state

/// A record near the beginning, with counts, held events and kept values as the layout allows and values at the edges.
fn any_record(random: &mut Random, stream: &Stream) -> Record {
    let bound = if stream.op == Op::In { 12 + random.below(18) } else { random.below(20) };
    if bound == 0 {
        return Record::default();
    }
    let stamps: Vec<u32> = (0..random.below(17)).map(|_| random.below(bound) as u32).collect();
    let mut record = Record { bound, held: stamps.into_iter().map(|t| (t, random.at_an_edge())).collect(), ..Record::default() };
    record.mark = if stream.out { random.below(bound + 1) } else { 0 };
    let maybe = |random: &mut Random| random.chance(70).then(|| random.at_an_edge());
    match stream.op {
        Op::Last => record.prev = maybe(random),
        Op::Delay => record.since = record.held.keys().next_back().map_or(0, |t| *t as u64 + 1),
        op if op.on_signals().is_some() => record.latest = [maybe(random), maybe(random)],
        op if op.is_window() => record.window = (0..random.below(stream.k as u64 + 1)).map(|_| random.at_an_edge()).collect(),
        _ => {}
    }
    if stream.op.counts() {
        record.missing = Missing { outside: random.count(), zero: random.count() };
    }
    record
}

/// Calls on states that no call leaves: numbers, results, bytes and counts are those of the model of any state.
#[test]
fn states_that_no_call_leaves() {
    let (mut calls, mut moved, mut counted, mut stopped, mut several) = (0u64, 0u64, 0u64, 0u64, 0u64);
    let all = rounds(1500);
    for round in 0..all {
        let mut random = Random::of(84, round);
        let (size, range) = sized(&mut random, 7, 15);
        let plan = arithmetic(&mut random, range);
        let records = plan.iter().map(|stream| any_record(&mut random, stream)).collect();
        let bytes = Found { plan: plan.clone(), records, size, ..Found::default() }.bytes();
        let mut model = Board::new(Found::read(&bytes).unwrap_or_else(|| panic!("seed {} round {round}: no state", seed())));
        let mut states = lent(&bytes);
        for _ in 0..12 {
            let s = random.below(plan.len() as u64) as u32;
            let known = model.calls.records[s as usize].bound;
            let call = match random.below(10) {
                0..=1 => Reading(s, (known + random.below(4)).saturating_sub(1) as u32, random.at_an_edge()),
                2 => Progress(s, known + random.below(8)),
                3..=6 => Move(s),
                7..=8 => Run(random.below(6) as u32),
                _ => Collect(s),
            };
            let before: Vec<Missing> = model.calls.records.iter().map(|record| record.missing).collect();
            let answer = model.act(Act::Call(call));
            let after = model.calls.bytes();
            for (engine, state) in engines().iter().zip(&mut states) {
                let story = || format!("seed {} round {round}, {}: {call:?}\n{}", seed(), engine.name, text_of(&plan));
                assert_eq!(engine.call(state, call), answer, "{}", story());
                assert!(state[..] == after[..] && state.untouched(), "another state than the model's, {}", story());
            }
            calls += 1;
            moved += (matches!(call, Move(_)) && answer.number == 0) as u64;
            for (s, before) in before.into_iter().enumerate() {
                let now = model.calls.records[s].missing;
                assert!(now == before || matches!(call, Move(_) | Run(_)), "{call:?}");
                counted += (now != before) as u64;
                several += (now.outside - before.outside > 1 || now.zero - before.zero > 1) as u64;
                stopped += ((now.outside == LIMIT && before.outside < LIMIT) || (now.zero == LIMIT && before.zero < LIMIT)) as u64;
            }
        }
        for stream in 0..=plan.len() as u32 {
            as_defined(&states[0], stream);
        }
    }
    println!("seed {}: {calls} calls on states that no call leaves, {moved} moves, counts changed {counted} times, by several {several}, stopped at the limit {stopped}", seed());
    assert!(all < 500 || (moved > all && counted > all / 3 && several > all / 20 && stopped > all / 50));
}

/// The evaluator of the definition says why at each stamp; the events that it gives are those of a plan without the reasons.
#[test]
fn the_definition_by_itself() {
    for round in 0..rounds(300) {
        let mut random = Random::of(85, round);
        let plan = arithmetic(&mut random, if round % 10 == 0 { 33..=64 } else { 2..=8 });
        let mut readings = vec![std::collections::BTreeMap::new(); plan.len()];
        for s in (0..plan.len()).filter(|&s| plan[s].op == Op::In) {
            readings[s] = (0..20).filter(|_| random.chance(60)).collect::<Vec<u32>>().into_iter().map(|t| (t, random.at_an_edge())).collect();
        }
        let Some(meant) = meaning(&plan, &readings, 40, 5_000) else { continue };
        assert_eq!(evaluate(&plan, &readings, 40, 5_000), Some(meant.events.clone()));
        for s in 0..plan.len() {
            // never both; and a stamp that is missing has something to work on
            let (a, b) = (plan[s].a, plan[s].b);
            for t in meant.missing[s].keys() {
                assert!(plan[s].op.counts() && !meant.events[s].contains_key(t));
                let has = |i: usize| meant.events[i].contains_key(t);
                let has_had = |i: usize| meant.events[i].range(..=t).next().is_some();
                let something = match (plan[s].op.on_signals(), plan[s].op.uses_b()) {
                    (Some(_), _) => (has(a) || has(b)) && has_had(a) && has_had(b),
                    (None, true) => has(a) && has(b),
                    (None, false) => has(a),
                };
                assert!(something, "seed {} round {round}: stream {s} at {t}\n{}", seed(), text_of(&plan));
            }
            // and each stamp with something to work on has an event or is missing
            for t in meant.events[a].keys().filter(|_| plan[s].op.counts()) {
                let works = match (plan[s].op.on_signals(), plan[s].op.uses_b()) {
                    (Some(_), _) => meant.events[b].range(..=t).next().is_some(),
                    (None, true) => meant.events[b].contains_key(t),
                    (None, false) => true,
                };
                assert_eq!(works, meant.events[s].contains_key(t) || meant.missing[s].contains_key(t), "stream {s} at {t}\n{}", text_of(&plan));
            }
        }
    }
}
