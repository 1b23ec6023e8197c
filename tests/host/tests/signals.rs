//! Document 02's Q-1: the signal forms sadd to seq. Cases worked out by hand, through the exported calls; and each form against
//! the five streams that it stands for.

use host::engine::{Answer, Call};
use host::evaluator::{evaluate, HORIZON};
use host::history::Session;
use host::layout::{self, Size, SIZES};
use host::plan::{short, text_of, Op, Plan, Stream, SIGNALS};
use host::random::{plan_of, rounds, seed, Random};
use host::worked::{as_defined, collected, load, numbers, record, runs};
use Call::{Collect, Move, Progress, Reading, Run};

// ---- the cases

#[test]
fn case_1_1_no_event_before_both_have_had_one() {
    let mut session = Session::load(&short("in; in; sadd 0 1 out"));
    numbers(&mut session, &[(Reading(0, 3, 7), 0), (Move(2), 12), (Reading(1, 5, 10), 0), (Progress(0, 6), 0)]);
    runs(&mut session, 9, 1);
    collected(&mut session, 2, &[(5, 17)]);
    assert_eq!(layout::bound(session.state(), 2), 6);
    as_defined(&mut session);
}

#[test]
fn case_1_2_at_one_stamp_the_values_of_that_stamp() {
    let mut session = Session::load(&short("in; in; sadd 0 1 out"));
    numbers(&mut session, &[(Reading(0, 2, 1), 0), (Reading(0, 4, 5), 0), (Reading(1, 4, 10), 0), (Progress(0, 6), 0), (Progress(1, 6), 0)]);
    // nothing at 2; 5 + 10 at 4; silence up to 6
    runs(&mut session, 9, 2);
    collected(&mut session, 2, &[(4, 15)]);
    as_defined(&mut session);
}

#[test]
fn case_1_3_a_zero_divisor_gives_no_event_and_stays_the_latest() {
    let mut session = Session::load(&short("in; in; sdiv 0 1 out"));
    numbers(&mut session, &[(Reading(0, 1, 8), 0), (Reading(1, 2, 0), 0), (Reading(1, 3, 2), 0), (Progress(0, 4), 0)]);
    runs(&mut session, 9, 1);
    numbers(&mut session, &[(Reading(0, 4, 9), 0), (Progress(1, 5), 0)]);
    runs(&mut session, 9, 1);
    // 8 div 2, and 9 div 2, down from four and a half
    collected(&mut session, 2, &[(3, 4), (4, 4)]);
    as_defined(&mut session);
    // the 0 counts: a at 2 after b's 0 at 1 is nothing, though b had a 2 before
    let mut session = Session::load(&short("in; in; sdiv 0 1 out"));
    numbers(&mut session, &[(Reading(1, 0, 2), 0), (Reading(1, 1, 0), 0), (Reading(0, 2, 8), 0), (Progress(1, 3), 0)]);
    runs(&mut session, 9, 1);
    collected(&mut session, 2, &[]);
    assert_eq!(layout::latest(session.state(), 2), [Some(8), Some(0)]);
    as_defined(&mut session);
}

#[test]
fn case_1_4_an_argument_without_a_result_keeps_its_older_value() {
    let mut session = Session::load(&short("in; plus 0 k1; in; sadd 1 2 out"));
    numbers(&mut session, &[(Reading(0, 1, 5), 0), (Reading(0, 3, i64::MAX), 0), (Reading(2, 3, 10), 0)]);
    // plus: 6 at 1, then silence up to 4; the form: nothing at 1, 6 + 10 at 3
    runs(&mut session, 9, 3);
    collected(&mut session, 3, &[(3, 16)]);
    record(&session, 3, 5, &[1, 1]);
    record(&session, 3, 32, &[6, 0, 0, 0, 0, 0, 0, 0, 10, 0, 0, 0, 0, 0, 0, 0]);
    as_defined(&mut session);
}

#[test]
fn case_1_5_both_arguments_one_stream() {
    let mut session = Session::load(&short("in; smul 0 0 out"));
    numbers(&mut session, &[(Reading(0, 1, 3), 0), (Reading(0, 2, -4), 0)]);
    runs(&mut session, 9, 2);
    collected(&mut session, 1, &[(1, 9), (2, 16)]);
    as_defined(&mut session);
}

#[test]
fn case_1_6_comparisons_at_every_change_of_either() {
    let mut session = Session::load(&short("in; in; slt 0 1 out"));
    numbers(
        &mut session,
        &[(Reading(0, 1, 5), 0), (Reading(1, 1, 5), 0), (Reading(0, 2, 4), 0), (Reading(1, 3, 3), 0), (Progress(0, 9), 0), (Progress(1, 9), 0)],
    );
    // 5 < 5 at 1, 4 < 5 at 2, 4 < 3 at 3, then silence up to 9
    runs(&mut session, 9, 4);
    collected(&mut session, 2, &[(1, 0), (2, 1), (3, 0)]);
    as_defined(&mut session);
}

#[test]
fn case_1_7_a_full_form_keeps_the_next_event_waiting() {
    let mut session = Session::load(&short("in; in; sadd 0 1 out"));
    numbers(&mut session, &[(Reading(0, 0, 1), 0), (Reading(1, 0, 0), 0)]);
    runs(&mut session, 1, 1);
    numbers(&mut session, &[(Progress(0, 100), 0)]);
    for t in 1..=16 {
        numbers(&mut session, &[(Reading(1, t, t as i64), 0)]);
    }
    // with the event at 0 those at 1 to 15 make 16; the one at 16 waits
    runs(&mut session, 99, 15);
    assert_eq!(layout::bound(session.state(), 2), 16);
    numbers(&mut session, &[(Reading(1, 17, 17), 0)]);
    runs(&mut session, 99, 0);
    assert_eq!(layout::bound(session.state(), 2), 16);
    assert_eq!(session.call(Collect(2)), Answer { stamp: 0, value: 1, ..Answer::default() });
    // the event at 16 comes in, the one at 17 waits
    runs(&mut session, 99, 1);
    assert_eq!(layout::bound(session.state(), 2), 17);
    as_defined(&mut session);
    assert_eq!(session.handed[2], (0..=17).map(|t| (t, t as i64 + 1)).collect::<Vec<_>>());
}

#[test]
fn case_1_8_what_is_kept() {
    let mut session = Session::load(&short("in; in; ssub 0 1 out"));
    let fresh = session.state()[512..768].to_vec();
    assert!(fresh[5] == 0 && fresh[6] == 0 && fresh[32..56].iter().all(|&x| x == 0));
    numbers(&mut session, &[(Reading(0, 4, -1), 0), (Progress(1, 8), 0)]);
    runs(&mut session, 9, 1);
    record(&session, 2, 5, &[1, 0]);
    record(&session, 2, 16, &[5, 0, 0, 0, 0, 0, 0, 0]);
    record(&session, 2, 32, &[255, 255, 255, 255, 255, 255, 255, 255, 0, 0, 0, 0, 0, 0, 0, 0]);
    // a's event is let go, what is kept stands for it
    assert_eq!(layout::held(session.state(), 0), vec![]);
    numbers(&mut session, &[(Reading(1, 9, 2), 0), (Progress(0, 10), 0)]);
    runs(&mut session, 9, 1);
    record(&session, 2, 5, &[1, 1]);
    record(&session, 2, 32, &[255, 255, 255, 255, 255, 255, 255, 255, 2, 0, 0, 0, 0, 0, 0, 0]);
    record(&session, 2, 48, &[0; 8]);
    collected(&mut session, 2, &[(9, -3)]);
    as_defined(&mut session);
}

#[test]
fn cases_1_9_to_1_11_texts() {
    assert_eq!(load("plan=1\nstreams=1\nop=sadd\na=0\nb=0\nk=0\nout=1\n"), 6);
    assert_eq!(load(&text_of(&short("in; last 2 0; sadd 0 1 out"))), 0);
    assert_eq!(load("plan=1\nstreams=1\nop=sneg\na=0\nb=0\nk=0\nout=0\n"), 4);
}

#[test]
fn case_1_12_the_form_and_its_five_streams() {
    let mut session = Session::load(&short("in; in; sadd 0 1 out; last 0 1; merge 0 3; last 1 0; merge 1 5; add 4 6 out"));
    numbers(
        &mut session,
        &[
            (Reading(0, 3, 7), 0), (Reading(1, 5, 10), 0), (Reading(0, 5, 8), 0), (Reading(0, 6, 1), 0), (Reading(1, 9, 2), 0),
            (Progress(0, 10), 0),
        ],
    );
    // the form: 5, 6 and 9. Stream 3: 5 and 9; 4: 3, 5, 6 and 9; 5: 6, then silence; 6 and 7: 5, 6 and 9
    runs(&mut session, 99, 3 + 2 + 4 + 2 + 3 + 3);
    collected(&mut session, 2, &[(5, 18), (6, 11), (9, 3)]);
    collected(&mut session, 7, &[(5, 18), (6, 11), (9, 3)]);
    as_defined(&mut session);
}

#[test]
fn the_stored_numbers() {
    for (place, (form, _)) in SIGNALS.iter().enumerate() {
        let session = Session::load(&short(&format!("in; in; in; {} 1 2 out", form.name())));
        record(&session, 3, 0, &[20 + place as u8, 1, 2, 1, 0, 0, 0, 0]);
        record(&session, 3, 8, &[0; 248]);
    }
    assert_eq!(SIGNALS.map(|(form, _)| form.name()), ["sadd", "ssub", "smul", "sdiv", "srem", "slt", "sle", "seq"]);
}

#[test]
fn each_form_once_by_hand() {
    // a has −7 at 1 and 7 at 4, b has 2 at 2 and at 3: −7 and 2 at 2 and 3, 7 and 2 at 4. −7 = −4 · 2 + 1, 7 = 3 · 2 + 1
    for (form, twice, then) in [
        ("sadd", -5, 9), ("ssub", -9, 5), ("smul", -14, 14), ("sdiv", -4, 3), ("srem", 1, 1), ("slt", 1, 0), ("sle", 1, 0), ("seq", 0, 0),
    ] {
        let mut session = Session::load(&short(&format!("in; in; {form} 0 1 out")));
        numbers(&mut session, &[(Reading(0, 1, -7), 0), (Reading(1, 2, 2), 0), (Reading(1, 3, 2), 0), (Reading(0, 4, 7), 0), (Progress(1, 5), 0)]);
        runs(&mut session, 9, 3);
        collected(&mut session, 2, &[(2, twice), (3, twice), (4, then)]);
        as_defined(&mut session);
    }
}

// ---- against the five streams

/// The plan with two outputs more: a signal form on streams a and b, and the same spelled out. Their numbers beside it.
fn with_both(mut plan: Plan, place: usize, a: usize, b: usize) -> (Plan, usize, usize) {
    let n = plan.len();
    let (form, op) = SIGNALS[place];
    let stream = |op, a, b, out| Stream { op, a, b, k: 0, out };
    plan.push(stream(form, a, b, true));
    plan.extend([stream(Op::Last, a, b, false), stream(Op::Merge, a, n + 1, false)]);
    plan.extend([stream(Op::Last, b, a, false), stream(Op::Merge, b, n + 3, false)]);
    plan.push(stream(op, n + 2, n + 4, true));
    (plan, n, n + 5)
}

/// Case 1.13: ten thousand pairs of readings for each operation, one before the other or at the same stamp.
#[test]
fn case_1_13_the_same_events_as_the_five_streams() {
    const VALUES: [i64; 7] = [0, 1, -7, 5, 1 << 62, i64::MIN, i64::MAX];
    for place in 0..SIGNALS.len() {
        let (plan, form, spelled) = with_both(short("in; in"), place, 0, 1);
        let mut session = Session::load(&plan);
        let mut random = Random::of(20, place as u64);
        let mut t = 0;
        for _ in 0..rounds(10_000) {
            let (later, x, y) = (random.below(3) as u32, random.pick(&VALUES), random.pick(&VALUES));
            // b's reading 1 before a's, with it, 1 after it
            numbers(&mut session, &[(Reading(0, t + 1, x), 0), (Reading(1, t + later, y), 0)]);
            numbers(&mut session, &[(Progress(0, t as u64 + 3), 0), (Progress(1, t as u64 + 3), 0)]);
            t += 3 + random.below(2) as u32;
            session.call(Run(1000));
            for s in [form, spelled] {
                while session.call(Collect(s as u32)).number == 0 {}
            }
        }
        assert!(session.rest(10));
        assert_eq!(session.handed[form], session.handed[spelled], "seed {}: {}", seed(), plan[form].op.name());
        let meant = evaluate(&plan, &session.accepted, HORIZON, 1_000_000).unwrap();
        assert_eq!(session.handed[form], meant[form].iter().map(|(t, v)| (*t, *v)).collect::<Vec<_>>(), "seed {}: {}", seed(), plan[form].op.name());
        println!("seed {}: {}, {} events", seed(), plan[form].op.name(), session.handed[form].len());
        assert!(session.handed[form].len() as u64 > rounds(10_000) / 2);
    }
}

/// Any calls on one state that has both, on two inputs or on two streams of a random plan: the same events handed out, and at
/// rest the two known equally far.
#[test]
fn a_form_and_its_five_streams_in_any_order_of_calls() {
    let (mut rested, mut events, mut ahead, mut wide) = (0u64, 0u64, 0u64, 0u64);
    let all = rounds(3000);
    for round in 0..all {
        let mut random = Random::of(21, round);
        let size = random.pick(&SIZES);
        let most = if size == Size::Long && random.chance(20) { 27..=58 } else { 1..=20 };
        let base = plan_of(&mut random, most);
        let base = if base.is_empty() || random.chance(30) { short("in; in") } else { base };
        let n = base.len() as u64;
        let (a, b) = if n == 2 { (0, 1) } else { (random.below(n) as usize, random.below(n) as usize) };
        let (plan, form, spelled) = with_both(base, random.below(8) as usize, a, b);
        wide += (plan.len() > 32) as u64;
        let mut session = Session::load_in(size, &plan);
        let inputs = session.inputs();
        for _ in 0..60 + random.below(120) {
            let stream = if random.chance(40) { random.pick(&[form, spelled]) } else { random.below(plan.len() as u64) as usize } as u32;
            let input = if inputs.is_empty() { stream } else { random.pick(&inputs) as u32 };
            let known = session.known[input as usize];
            let call = match random.below(20) {
                0..=8 => Reading(input, (known + random.below(3)).min(u32::MAX as u64) as u32, random.value()),
                9..=10 => Progress(input, known + random.below(8)),
                11..=14 => Move(stream),
                15..=16 => Run(random.below(12) as u32),
                _ => Collect(stream),
            };
            session.call(call);
            ahead += (layout::bound(session.state(), form) != layout::bound(session.state(), spelled)) as u64;
        }
        if session.rest(4_000) {
            assert_eq!(session.handed[form], session.handed[spelled], "{}", session.story());
            assert_eq!(layout::bound(session.state(), form), layout::bound(session.state(), spelled), "{}", session.story());
            rested += 1;
            events += session.handed[form].len() as u64;
        }
    }
    println!("seed {}: {rested} of {all} lists at rest, {events} events of the form, one ahead of the other after {ahead} calls; plans of more than 32 streams {wide}", seed());
    assert!(rested * 2 > all && events > all && ahead > all && (all < 1000 || wide > all / 30));
}
