//! Document 02's Q-7: "Write the plan of a state as text into a lent buffer and give its length." Cases worked out by hand, through the
//! exported calls; every field and every length of the buffer; and random plans, whose text comes back after any calls.

use host::buffer::Lent;
use host::engine::{engines, Answer, Call, STATE_LENGTH};
use host::found::Found;
use host::history::{any_acts, Session};
use host::layout::{widened, Size, SIZES};
use host::plan::{parse, parse_in, short, text_of, Op, Plan, Stream, OPERATORS};
use host::random::{plan_of, record, rounds, seed, sized, Random};
use host::texts::{as_defined, asked, given, pattern, Given};
use std::fs;
use std::ops::RangeInclusive;
use Call::{Collect, Reading, Run};

/// `in; unit; set 1 k0; last 5 0; plus 3 k1; merge 4 2 out`, written by hand: 171 bytes.
const COUNT: &str = "plan=1\nstreams=6\n\
    op=in\na=0\nb=0\nk=0\nout=0\n\
    op=unit\na=0\nb=0\nk=0\nout=0\n\
    op=set\na=1\nb=0\nk=0\nout=0\n\
    op=last\na=5\nb=0\nk=0\nout=0\n\
    op=plus\na=3\nb=0\nk=1\nout=0\n\
    op=merge\na=4\nb=2\nk=0\nout=1\n";

/// `in; set 0 k-9223372036854775808 out`: 85 bytes.
const LEAST: &str = "plan=1\nstreams=2\nop=in\na=0\nb=0\nk=0\nout=0\nop=set\na=0\nb=0\nk=-9223372036854775808\nout=1\n";

/// `in; wsum 0 k64 out`.
const SUM: &str = "plan=1\nstreams=2\nop=in\na=0\nb=0\nk=0\nout=0\nop=wsum\na=0\nb=0\nk=64\nout=1\n";

/// The state that both engines leave of a text that they take, over these bytes.
fn loaded_over(before: &[u8], text: &str) -> Vec<u8> {
    let mut ends = vec![];
    for engine in engines() {
        let mut state = Lent::of(before);
        assert_eq!(engine.load(&mut state, text.as_bytes()), 0, "{}: {text:?}", engine.name);
        ends.push(state.to_vec());
    }
    assert!(ends[0] == ends[1], "the engines differ: {text:?}");
    ends.swap_remove(0)
}

fn loaded_in(size: Size, text: &str) -> Vec<u8> {
    loaded_over(&vec![165; size.length()], text)
}

fn loaded(text: &str) -> Vec<u8> {
    loaded_in(Size::Short, text)
}

/// The call on these bytes with a buffer of so many: done with this text, behind which so many bytes stay.
fn gives(state: &[u8], room: usize, text: &str, behind: usize) {
    assert_eq!(room, text.len() + behind);
    let buffer = [text.as_bytes(), &pattern(room)[text.len()..]].concat();
    assert_eq!(asked(state, &pattern(room)), Given { number: 0, length: text.len() as u64, buffer }, "a buffer of {room} bytes");
}

/// It is refused, and nothing is written.
fn refuses(state: &[u8], room: usize, number: u32) {
    assert_eq!(asked(state, &pattern(room)), Given { number, length: 0, buffer: pattern(room) }, "a buffer of {room} bytes");
}

/// A short run looks at some of many cases only.
fn step(short: usize) -> usize {
    if rounds(100) < 100 { short } else { 1 }
}

// ---- the cases

#[test]
fn cases_7_1_to_7_3_longer_just_long_enough_and_shorter() {
    assert_eq!(COUNT.len(), 171);
    let state = loaded(COUNT);
    for state in [state.clone(), widened(&state), loaded_in(Size::Long, COUNT)] {
        gives(&state, 2048, COUNT, 1877);
        gives(&state, 171, COUNT, 0);
        refuses(&state, 170, 19);
    }
}

#[test]
fn cases_7_4_and_7_5_no_bytes_for_no_streams() {
    for state in [loaded(""), vec![0; STATE_LENGTH], loaded_in(Size::Long, ""), vec![0; Size::Long.length()]] {
        gives(&state, 0, "", 0);
        gives(&state, 5, "", 5);
    }
}

#[test]
fn case_7_6_the_least_value() {
    assert_eq!(LEAST.len(), 85);
    gives(&loaded(LEAST), 100, LEAST, 15);
}

#[test]
fn case_7_7_no_buffer_for_a_plan() {
    refuses(&loaded(SUM), 0, 19);
}

#[test]
fn case_7_8_15_comes_before_19() {
    let state = loaded_in(Size::Long, COUNT);
    for length in [0, 1, 171, 256, 1536, 8192, STATE_LENGTH - 1, STATE_LENGTH + 1, 16_384, Size::Long.length() - 1] {
        refuses(&state[..length], 0, 15);
        refuses(&state[..length], 2048, 15);
    }
    refuses(&[&state[..], &[0]].concat(), 0, 15);
    // and so by its contents
    for byte in [1, 165, 255] {
        for size in SIZES {
            let mut bytes = state[..size.length()].to_vec();
            gives(&bytes, 171, COUNT, 0);
            bytes[size.length() - 1] = byte;
            for room in [0, 170, 171, 2048] {
                refuses(&bytes, room, 15);
            }
        }
    }
}

#[test]
fn case_7_9_after_readings_runs_and_collects() {
    let mut session = Session::load(&short("in; unit; set 1 k0; last 5 0; plus 3 k1; merge 4 2 out"));
    let mut calls: Vec<Call> = (1..=5).map(|t| Reading(0, 3 * t, 7041 + t as i64)).collect();
    calls.extend([Run(3), Run(100), Collect(5), Collect(5), Collect(5)]);
    for call in calls {
        assert_eq!(session.call(call).number, 0);
        gives(session.state(), 171, COUNT, 0);
        gives(session.state(), 300, COUNT, 129);
        refuses(session.state(), 170, 19);
    }
}

#[test]
fn case_7_10_loaded_into_a_second_buffer() {
    for text in [COUNT, LEAST, SUM, ""] {
        let mut session = Session::begin(&parse(text.as_bytes()).unwrap(), engines().iter().map(|_| Lent::of(&loaded(text))).collect());
        session.call(Reading(0, 3, 7));
        session.call(Run(9));
        let end = asked(session.state(), &pattern(2048));
        let back = String::from_utf8(end.buffer[..end.length as usize].to_vec()).unwrap();
        assert!(loaded_over(&[90; STATE_LENGTH], &back) == loaded(text), "{text:?}");
    }
}

// ---- every field

/// A plan is taken by the longer state, and by the shorter one if it has at most 32 streams, and its text comes back: into a buffer just
/// long enough, one byte short, and longer.
fn comes_back(text: &str) {
    let streams = parse_in(Size::Long, text.as_bytes()).expect("a plan").len();
    for size in SIZES.into_iter().filter(|size| streams <= size.cap()) {
        let state = loaded_in(size, text);
        gives(&state, text.len(), text, 0);
        gives(&state, text.len() + 3, text, 3);
        if !text.is_empty() {
            refuses(&state, text.len() - 1, 19);
        }
    }
}

fn line(op: &str, a: usize, b: usize, k: &str, out: u8) -> String {
    format!("op={op}\na={a}\nb={b}\nk={k}\nout={out}\n")
}

const IN: &str = "op=in\na=0\nb=0\nk=0\nout=0\n";

#[test]
fn every_operator() {
    for (op, name) in OPERATORS {
        for out in 0..=(op != Op::In) as u8 {
            let k = if op.is_window() { "7" } else if op.uses_k() { "-12" } else { "0" };
            let last = line(name, op.uses_a() as usize, 0, k, out);
            comes_back(&format!("plan=1\nstreams=3\n{IN}{IN}{last}"));
        }
    }
}

/// Values of every length, with and without a sign; 0 has none.
#[test]
fn every_length_of_k() {
    let written = ["0", "1", "-1", "9", "-9", "10", "-10", "9223372036854775807", "-9223372036854775807", "-9223372036854775808"];
    let mut values: Vec<String> = written.map(String::from).to_vec();
    for zeros in 0..=18 {
        // 1000, 1001 and 999, 8000
        let ones = format!("1{}", "0".repeat(zeros));
        let values_of = [ones.clone(), format!("{}1", &ones[..zeros]), "9".repeat(zeros), format!("8{}", "0".repeat(zeros))];
        values.extend(values_of.into_iter().filter(|value| !value.is_empty()).flat_map(|value| [format!("-{value}"), value]));
    }
    for value in values {
        for op in ["set", "plus"] {
            comes_back(&format!("plan=1\nstreams=2\n{IN}{}", line(op, 0, 0, &value, 1)));
        }
    }
    for width in 1..=64 {
        comes_back(&format!("plan=1\nstreams=2\n{IN}{}", line("wmin", 0, 0, &width.to_string(), 0)));
    }
}

/// Every number of streams, and every argument in both places.
#[test]
fn every_number_of_streams_and_every_argument() {
    for n in 1..=64 {
        comes_back(&format!("plan=1\nstreams={n}\n{}", IN.repeat(n)));
    }
    for a in 0..63 {
        for (first, second) in [(a, 62 - a), (a, a), (a, 0)] {
            comes_back(&format!("plan=1\nstreams=64\n{}{}", IN.repeat(63), line("ssub", first, second, "0", 1)));
        }
    }
    for (first, second) in [(63, 63), (63, 1), (9, 63), (32, 31)] {
        comes_back(&format!("plan=1\nstreams=64\n{}{}", line("keep", first, second, "0", 1), IN.repeat(63)));
    }
    for a in 0..31 {
        for (first, second) in [(a, 30 - a), (a, a), (a, 0)] {
            comes_back(&format!("plan=1\nstreams=32\n{}{}", IN.repeat(31), line("ssub", first, second, "0", 1)));
        }
    }
    for (first, second) in [(31, 31), (31, 1), (9, 31), (10, 9)] {
        comes_back(&format!("plan=1\nstreams=32\n{}{}", line("keep", first, second, "0", 1), IN.repeat(31)));
    }
    // a stream's delayed argument may be itself
    comes_back(&format!("plan=1\nstreams=2\n{IN}{}", line("delay", 1, 0, "0", 1)));
}

/// The plans of the office, and of no bytes.
#[test]
fn the_plans_of_the_folder() {
    let folder = std::env::var("TESSLA_PLANS").expect("start the tests by tests/run");
    let mut met = 0;
    for entry in fs::read_dir(folder).unwrap() {
        let Ok(text) = fs::read_to_string(entry.unwrap().path().join("plan.txt")) else { continue };
        comes_back(&text);
        met += 1;
    }
    assert!(met >= 15, "only {met} plans");
}

/// The longest line of a plan of 32 to 64 streams that an operator has.
fn longest_line(op: Op, name: &str) -> usize {
    let two_digits = |used: bool| if used { 31 } else { 0 };
    let k = if op.is_window() { "64" } else if op.uses_k() { "-9223372036854775808" } else { "0" };
    line(name, two_digits(op.uses_a()), two_digits(op.uses_b()), k, 0).len()
}

/// `plan=1` and `streams=32` are 18 bytes with their ends. The longest line is plus's with an argument of two digits and a k of 20: 8 + 5
/// + 4 + 23 + 6 = 46. Not all 32 may be so: some stream has no undelayed argument, or they would be a cycle, and the longest line of
/// such a one is unit's, 8 + 4 + 4 + 4 + 6 = 26. So 18 + 31 · 46 + 26 = 1,470, and of 64 streams 18 + 63 · 46 + 26 = 2,942.
#[test]
fn the_longest_text() {
    assert_eq!(OPERATORS.map(|(op, name)| longest_line(op, name)).into_iter().max(), Some(46));
    let without = OPERATORS.into_iter().filter(|(op, _)| Stream::new(*op).undelayed().is_empty());
    assert_eq!(without.map(|(op, name)| longest_line(op, name)).max(), Some(26));

    for (size, longest, not_taken) in [(Size::Short, 1470, 1490), (Size::Long, 2942, 2962)] {
        let n = size.cap();
        let plus = line("plus", n - 1, 0, "-9223372036854775808", 1);
        let text = format!("plan=1\nstreams={n}\n{}{}", plus.repeat(n - 1), line("unit", 0, 0, "0", 1));
        assert_eq!(text.len(), longest);
        let state = loaded_in(size, &text);
        gives(&state, longest, &text, 0);
        gives(&state, 3000, &text, 3000 - longest);
        gives(&state, 4096, &text, 4096 - longest);
        refuses(&state, longest - 1, 19);
        refuses(&state, 0, 19);
        // and after the plan has run
        let mut session = Session::load_in(size, &parse_in(size, text.as_bytes()).unwrap());
        // unit has 0 at 0, and so each other one the least value there; then all of them are silent
        assert_eq!(session.call(Run(999)).moves, 2 * n as u32);
        gives(session.state(), longest, &text, 0);
        // all of the longest: 18 + 32 · 46, 18 + 64 · 46, and refused
        let longer = format!("plan=1\nstreams={n}\n{}", plus.repeat(n));
        assert_eq!((longer.len(), parse_in(size, longer.as_bytes())), (not_taken, Err(6)));
        for engine in engines() {
            assert_eq!(engine.load(&mut vec![0; size.length()], longer.as_bytes()), 6, "{}", engine.name);
        }
    }
}

// ---- lengths

/// A length of a state and a plan, often with values of many digits.
fn any_plan(random: &mut Random) -> (Size, Plan) {
    let (size, range) = sized(random, 32, 60);
    (size, any_plan_of(random, range))
}

fn any_plan_of(random: &mut Random, range: RangeInclusive<usize>) -> Plan {
    let mut plan = plan_of(random, range);
    for stream in plan.iter_mut().filter(|stream| matches!(stream.op, Op::Set | Op::Plus)) {
        match random.below(4) {
            0 => stream.k = random.pick(&[i64::MIN, i64::MIN + 1, i64::MAX, 0, -1, 9, -9, 10, -10]),
            1 => stream.k = random.next() as i64 >> random.below(64),
            2 => stream.k = 10i64.pow(random.below(19) as u32) - random.below(2) as i64,
            _ => {}
        }
    }
    plan
}

/// Every length of the buffer from 0 to beyond the text's: below it 19 and nothing written, from it on the text and the rest as it was.
#[test]
fn every_length_of_the_buffer() {
    let mut random = Random::of(70, 0);
    let mut states: Vec<Vec<u8>> = [COUNT, LEAST, SUM, ""].map(loaded).to_vec();
    states.push(loaded_in(Size::Long, COUNT));
    states.extend((0..3).map(|_| {
        let (size, plan) = any_plan(&mut random);
        loaded_in(size, &text_of(&plan))
    }));
    states.push(loaded_in(Size::Long, &text_of(&any_plan_of(&mut random, 64..=64))));
    for state in states {
        let length = text_of(&Found::read(&state).expect("a state").plan).len();
        for room in (0..length + 40).step_by(step(37)).chain([2048, 4096]) {
            assert_eq!(as_defined(&state, room).number, if room < length { 19 } else { 0 });
        }
    }
}

/// Many plans, at the lengths around their text's.
#[test]
fn lengths_around_the_text_of_random_plans() {
    // by operator how often it was met
    let (mut met, mut empty, mut wide) = ([0u64; OPERATORS.len()], 0, 0);
    let all = rounds(1200);
    for round in 0..all {
        let (size, plan) = any_plan(&mut Random::of(71, round));
        let text = text_of(&plan);
        let state = loaded_in(size, &text);
        wide += (plan.len() > 32) as u64;
        let always = [1470, 2942][size as usize];
        let near = (text.len().saturating_sub(2)..=text.len() + 2).chain([0, always, 4096]);
        for room in near {
            let end = asked(&state, &pattern(room));
            assert_eq!(end, given(Some(&plan), &pattern(room)), "seed {}: {text:?}", seed());
            if room >= always {
                assert_eq!((end.number, &end.buffer[..end.length as usize]), (0, text.as_bytes()), "seed {}", seed());
            }
        }
        for (place, (op, _)) in OPERATORS.iter().enumerate() {
            met[place] += plan.iter().filter(|stream| stream.op == *op).count() as u64;
        }
        empty += plan.is_empty() as u64;
    }
    println!("seed {}: {all} plans, {empty} of no streams, {wide} of more than 32, operators met {met:?}", seed());
    assert!(all < 1000 || (met.iter().all(|&count| count > 0) && empty > 0 && wide > all / 6));
}

/// Nothing lies behind the pointer of a buffer of no bytes: it may be no address at all.
#[test]
fn no_buffer_behind_the_pointer() {
    let (no_state, long) = (vec![1; STATE_LENGTH], loaded_in(Size::Long, COUNT));
    let states = [(vec![0; STATE_LENGTH], (0, 0)), (loaded(""), (0, 0)), (loaded_in(Size::Long, ""), (0, 0)), (loaded(COUNT), (19, 0)), (long, (19, 0)), (no_state, (15, 0)), (vec![], (15, 0))];
    for (state, wanted) in states {
        for engine in engines() {
            let mut lent = Lent::of(&state);
            assert_eq!(engine.plan_text_to_nowhere(&mut lent), wanted, "{}", engine.name);
            assert!(lent[..] == state[..] && lent.untouched(), "{}", engine.name);
        }
    }
}

/// Both lengths are compared as 64 bits. Nothing is read through the pointer of a state of another length; a buffer that is said to be
/// longer than four gigabytes is long enough, and only the text's bytes of it are written.
#[test]
fn lengths_above_32_bits() {
    for (engine, size) in engines().into_iter().flat_map(|engine| SIZES.map(|size| (engine, size))) {
        let right = size.length() as u64;
        let (mut state, mut text) = (Lent::of(&[]), Lent::of(&pattern(171)));
        for length in [0, 1, right - 1, right + 1, 1 << 32, (1 << 32) + right, (1 << 56) + right, (1 << 63) + right, right << 32, u64::MAX] {
            assert_eq!(engine.plan_text_claiming(&mut state, &mut text, (length, 171)), (15, 0), "{}: {length}", engine.name);
        }
        assert!(text[..] == pattern(171)[..] && text.untouched(), "{}", engine.name);
        let mut state = Lent::of(&loaded_in(size, COUNT));
        for room in [172, 1 << 31, 1 << 32, (1 << 32) + 5, (1 << 32) + 170, (1 << 33) + 1, 1 << 63, (1 << 63) + 170, u64::MAX] {
            text.copy_from_slice(&pattern(171));
            assert_eq!(engine.plan_text_claiming(&mut state, &mut text, (right, room)), (0, 171), "{}: {room}", engine.name);
            assert!(text[..] == *COUNT.as_bytes() && text.untouched(), "{}: {room}", engine.name);
        }
    }
}

/// State and buffer at every alignment, between bytes that stay.
#[test]
fn at_every_alignment() {
    for (engine, size) in engines().into_iter().flat_map(|engine| SIZES.map(|size| (engine, size))) {
        let (state, bytes) = (loaded_in(size, COUNT), size.length());
        for shift in 0..8 {
            for room in [171, 170, 180] {
                let (mut around_state, mut around_text) = (vec![0x77; bytes + 64], vec![0x77; room + 64]);
                let (lent, text) = (&mut around_state[16 + shift..][..bytes], &mut around_text[16 + 7 - shift..][..room]);
                lent.copy_from_slice(&state);
                text.copy_from_slice(&pattern(room));
                let (number, length) = engine.plan_text(lent, text);
                let end = Given { number, length, buffer: text.to_vec() };
                assert_eq!(end, given(Some(&parse(COUNT.as_bytes()).unwrap()), &pattern(room)), "{}", engine.name);
                assert!(*lent == state[..], "{}: the state is another", engine.name);
                let outside = |around: &[u8], from: usize, length: usize| around[..from].iter().chain(&around[from + length..]).all(|&x| x == 0x77);
                assert!(outside(&around_state, 16 + shift, bytes) && outside(&around_text, 16 + 7 - shift, room), "{}", engine.name);
            }
        }
    }
}

// ---- after any calls

/// Texts that load refuses, with their numbers.
const REFUSED: [(&[u8], u32); 4] =
    [(&[b'x'; 4097], 1), (b"plan=1\n", 2), (b"plan=1\nstreams=65\n", 3), (b"plan=1\nstreams=1\nop=neg\na=0\nb=0\nk=0\nout=0\n", 6)];

/// Readings, progress, moves, runs, collects, writes to a block, refused loads, copies put back and other plans loaded: the text that was
/// loaded last comes back, byte for byte. Loaded into a second buffer, whatever that held, it leaves the fresh state of the same plan,
/// and both go on alike.
#[test]
fn the_text_comes_back_after_any_calls() {
    let (mut asked_for, mut refused, mut copies, mut loads, mut moved) = (0u64, 0u64, 0u64, 0u64, 0u64);
    let all = rounds(500);
    for round in 0..all {
        let mut random = Random::of(72, round);
        let (size, range) = sized(&mut random, 32, 60);
        let mut session = Session::load_in(size, &any_plan_of(&mut random, range.clone()));
        let mut copy = session.clone();
        for _ in 0..40 + random.below(80) {
            match random.below(30) {
                0 => copy = session.clone(),
                1 => {
                    session = copy.clone();
                    copies += 1;
                }
                2 => {
                    let (text, number) = random.pick(&REFUSED);
                    session.load_refused(text, number);
                }
                3 if random.chance(30) => {
                    session = Session::load_over(&any_plan_of(&mut random, range.clone()), session.states);
                    loads += 1;
                }
                _ => {
                    for act in any_acts(&mut random, &session) {
                        session.act(act);
                    }
                }
            }
            if random.chance(30) {
                let length = text_of(&session.plan).len();
                let room = if random.chance(20) { random.below(length as u64 + 1) as usize } else { length + random.below(9) as usize };
                refused += (session.text_back(room).number == 19) as u64;
                asked_for += 1;
            }
        }
        let text = text_of(&session.plan);
        gives(session.state(), 4096, &text, 4096 - text.len());
        moved += (session.state() != Found::fresh_in(size, &session.plan).bytes()) as u64;
        second_buffer(&mut random, &session);
    }
    println!("seed {}: {all} lists, {asked_for} texts asked for, {refused} refused 19, {copies} copies put back, {loads} plans loaded over", seed());
    assert!(all < 100 || (asked_for > 10 * all && refused > all && copies > all && loads > all / 4 && moved > all / 2), "{moved}");
}

/// The text of a session's state loaded into a buffer of any bytes, and the plan loaded anew: the same bytes, and after the same calls too.
fn second_buffer(random: &mut Random, session: &Session) {
    let end = asked(session.state(), &pattern(4096));
    let text = Lent::of(&end.buffer[..end.length as usize]);
    // of the same length, or the longer
    let size = if random.chance(50) { session.size() } else { Size::Long };
    let mut states: Vec<Lent> = engines().iter().map(|_| Lent::of(&random.bytes(size.length()))).collect();
    for (engine, state) in engines().iter().zip(&mut states) {
        assert_eq!(engine.load(state, &text), 0, "{}\n{}", engine.name, session.story());
        assert!(state[..] == Found::fresh_in(size, &session.plan).bytes()[..], "{}: no fresh state\n{}", engine.name, session.story());
    }
    let (mut second, mut anew) = (Session::begin(&session.plan, states), Session::load_in(size, &session.plan));
    for _ in 0..30 {
        for act in any_acts(random, &anew) {
            assert_eq!(second.act(act), anew.act(act), "{act:?}\n{}", anew.story());
            assert!(second.state() == anew.state() && second.block() == anew.block(), "{act:?}\n{}", anew.story());
        }
    }
    assert_eq!((second.accepted, second.handed), (anew.accepted, anew.handed));
}

// ---- states that no call leaves, and no states

/// The call on any bytes: 15 exactly if a run of no moves says so, and else the text of the plan that they have. Whether they are a state.
fn of_any_bytes(bytes: &[u8], rooms: &[usize]) -> bool {
    let is = Found::read(bytes).is_some();
    for engine in engines() {
        let answer = engine.call(&mut bytes.to_vec(), Run(0));
        assert_eq!(answer, Answer { number: if is { 0 } else { 15 }, ..Answer::default() }, "{}", engine.name);
    }
    for room in rooms {
        assert_eq!(as_defined(bytes, *room).number == 15, !is);
    }
    is
}

/// Every byte of the fields of a plan, with small values and others: where it is a state still, the text is that of the other plan.
#[test]
fn every_byte_of_the_fields() {
    let good = loaded(&text_of(&short("in; plus 0 k5 out; wmax 1 k3; last 1 0 out; merge 3 1")));
    let (mut states, mut none) = (0, 0);
    for s in 0..6 {
        for (i, at) in (256 * s..256 * s + 16).enumerate() {
            for byte in (0..40).chain([63, 64, 65, 127, 128, 254, 255]).step_by(step(11)) {
                let mut bytes = good.clone();
                bytes[at] = byte;
                let is = of_any_bytes(&bytes, &[[2048, 100, 0][i % 3], 149]);
                (states, none) = (states + is as u64, none + !is as u64);
            }
        }
    }
    assert!(step(2) == 2 || (states > 500 && none > 2000), "{states} {none}");
}

/// One byte of zeros set: the first makes a stream where its operator has no arguments; any other is 15.
#[test]
fn one_byte_set_in_zeros() {
    let mut bytes = vec![0; Size::Long.length()];
    for size in SIZES {
        let bytes = &mut bytes[..size.length()];
        for at in (1..size.length()).step_by(step(50) * 61).chain([256, 8191, 8192, size.windows(), size.length() - 1]) {
            bytes[at] = 1 << (at % 8);
            refuses(bytes, 300, 15);
            refuses(bytes, 0, 15);
            bytes[at] = 0;
        }
    }
    for byte in 0..=255 {
        bytes[0] = byte;
        let is = of_any_bytes(&bytes, &[0, 42, 300]);
        // none, in, nil, unit
        assert_eq!(is, byte < 4);
    }
    for (byte, name) in [(1, "in"), (2, "nil"), (3, "unit")] {
        bytes[0] = byte;
        let text = format!("plan=1\nstreams=1\nop={name}\na=0\nb=0\nk=0\nout=0\n");
        gives(&bytes, 50, &text, 50 - text.len());
    }
}

/// States of any bounds, held events and kept values, as no call leaves them, some of them damaged in one byte: the text is the plan's.
#[test]
fn foreign_and_damaged_states() {
    let (mut foreign, mut damaged, mut none) = (0u64, 0u64, 0u64);
    let all = rounds(1200);
    for round in 0..all {
        let mut random = Random::of(73, round);
        let (size, plan) = any_plan(&mut random);
        let records = plan.iter().map(|stream| record(&mut random, stream)).collect();
        let mut bytes = Found { plan: plan.clone(), records, size, ..Found::default() }.bytes();
        let text = text_of(&plan);
        let rooms = [text.len(), text.len() + 1 + random.below(50) as usize, random.below(text.len() as u64 + 1) as usize];
        assert!(of_any_bytes(&bytes, &rooms), "seed {}: {text:?}", seed());
        gives(&bytes, text.len(), &text, 0);
        foreign += 1;
        // a field of a record, or any byte
        for _ in 0..3 {
            let record = 256 * random.below(plan.len() as u64 + 1).min(size.cap() as u64 - 1) as usize;
            let at = if random.chance(80) { record + random.below(64) as usize } else { random.below(size.length() as u64) as usize };
            let before = std::mem::replace(&mut bytes[at], if random.chance(50) { random.below(40) as u8 } else { random.next() as u8 });
            let is = of_any_bytes(&bytes, &[rooms[0], rooms[2], 4096]);
            (damaged, none) = (damaged + is as u64, none + !is as u64);
            bytes[at] = before;
        }
    }
    println!("seed {}: {foreign} states that no call leaves, {damaged} damaged and still a state, {none} none", seed());
    assert!(all < 1000 || (damaged > all / 8 && none > all / 2), "{damaged} {none}");
}
