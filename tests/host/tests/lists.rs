//! Random plans and random lists of calls, some of them by writes to a block of registers: what document 01's "Whole runs" says, a
//! model on whole histories, copies put back, the order of inputs, and full streams. Each round takes a state of one length or the other,
//! with up to 64 streams. Both engines make every call, and now and then between two they give the plan's text back and say why events
//! are missing, which counts as no call.

use host::engine::{Call, Missing};
use host::evaluator::{evaluate, rounded, HORIZON};
use host::history::{any_acts, Session};
use host::layout::{self, Size, SIZES};
use host::model::Model;
use host::plan::{parse_in, short, text_of, windows, Op};
use host::random::{plan, plan_of, rounds, seed, sized, sized_plan, Random};
use host::registers::{Act, Board};

/// Arguments lead from one stream to the other.
fn reaches(plan: &[host::plan::Stream], from: usize, to: usize) -> bool {
    let (mut met, mut open) = (vec![false; plan.len()], vec![from]);
    while let Some(s) = open.pop() {
        if s == to {
            return true;
        }
        if !std::mem::replace(&mut met[s], true) {
            open.extend(plan[s].reads());
        }
    }
    false
}

/// The length of a buffer for a plan's text: as long as it is, longer, or too short.
fn any_room(random: &mut Random, plan: &[host::plan::Stream]) -> usize {
    let length = text_of(plan).len();
    match random.below(4) {
        0 => random.below(length as u64 + 1) as usize,
        1 => length,
        _ => length + 1 + random.below(40) as usize,
    }
}

/// The counts of a stream, by the call and in its record, are those of the model; behind the last there is none.
fn counts(session: &mut Session, model: &Model, s: usize) -> Missing {
    let is = s < model.plan.len();
    let wanted = if is { model.missing(s) } else { Missing::default() };
    assert_eq!(session.missing(s as u32), (if is { 0 } else { 11 }, wanted), "counts of {s}\n{}", session.story());
    assert!(!is || layout::missing(session.state(), s) == wanted, "bytes of the counts of {s}\n{}", session.story());
    wanted
}

/// Every call's number, results, bounds, held events, marks, kept latest values and windows are those of the model on whole
/// histories, and so are every write's number and all bytes of the block, and the counts of missing events.
#[test]
fn numbers_and_states_are_those_of_the_model_on_whole_histories() {
    let (mut calls, mut done, mut full, mut kept, mut down, mut empty) = (0u64, 0u64, 0u64, 0u64, 0u64, 0u64);
    // windows that are full, plans with eight of them
    let (mut filled, mut eight) = (0u64, 0u64);
    // of streams at the end: results out of range, of them sums, and divisors of 0
    let (mut outside, mut sums, mut zero) = (0u64, 0u64, 0u64);
    // commands done and refused, writes refused, others
    let mut written = [0u64; 4];
    // texts that came back, and buffers too short
    let mut texts = [0u64; 2];
    // states of both lengths, and plans of more than 32 streams
    let (mut sizes, mut wide) = ([0u64; 2], 0u64);
    let all = rounds(4000);
    for round in 0..all {
        let mut random = Random::of(2, round);
        let (size, plan) = sized_plan(&mut random, 12, 6);
        let mut session = Session::load_in(size, &plan);
        let mut board = Board::new(Model::new(&plan));
        sizes[size as usize] += 1;
        wide += (plan.len() > 32) as u64;
        for _ in 0..50 + random.below(70) {
            for act in any_acts(&mut random, &session) {
                let answer = session.act(act);
                assert_eq!(answer, board.act(act), "the model's answer to {act:?}\n{}", session.story());
                assert_eq!(session.block(), board.block, "the model's block\n{}", session.story());
                match (act, answer.number) {
                    (Act::Call(_), number) => (calls, done) = (calls + 1, done + (number == 0) as u64),
                    (Act::Write(16, _), 0) => written[0] += 1,
                    (Act::Write(16, _), number) if number != 17 => written[1] += 1,
                    (Act::Write(..), number) => written[if number == 17 { 2 } else { 3 }] += 1,
                }
            }
            if random.chance(3) {
                texts[(session.text_back(any_room(&mut random, &plan)).number != 0) as usize] += 1;
            }
            let model = &board.calls;
            if random.chance(10) {
                let s = random.below(plan.len() as u64 + 1) as usize;
                counts(&mut session, model, s);
            }
            for s in 0..plan.len() {
                let state = session.state();
                assert_eq!(layout::bound(state, s), model.bound[s], "bound of {s}\n{}", session.story());
                assert_eq!(layout::held(state, s), model.held(s), "held of {s}\n{}", session.story());
                assert_eq!(layout::mark(state, s), model.mark[s], "mark of {s}\n{}", session.story());
                full += (layout::held(state, s).len() == 16 && model.full(s)) as u64;
                if plan[s].op.on_signals().is_some() {
                    assert_eq!(layout::latest(state, s), model.latest(s), "latest values of {s}\n{}", session.story());
                    kept += model.latest(s).iter().all(Option::is_some) as u64;
                }
                if plan[s].op.is_window() {
                    assert_eq!(layout::window(state, s), model.window(s), "window of {s}\n{}", session.story());
                    filled += (model.window(s).len() as i64 == plan[s].k && plan[s].k > 1) as u64;
                }
            }
        }
        eight += (windows(&plan).len() == 8) as u64;
        for s in 0..plan.len() {
            let count = counts(&mut session, &board.calls, s);
            (outside, zero) = (outside + count.outside as u64, zero + count.zero as u64);
            sums += if plan[s].op.is_window() { count.outside as u64 } else { 0 };
        }
        down += (0..plan.len()).map(|s| rounded(&plan, &board.calls.events, s)).sum::<u64>();
        if plan.is_empty() {
            assert!(session.state().iter().all(|&x| x == 0), "{}", session.story());
            empty += 1;
        }
    }
    println!("seed {}: {calls} calls, {done} done, full streams met {full} times, signal forms that keep both values {kept}, divisions that go down {down}, plans of no streams {empty}", seed());
    println!("seed {}: commands done and refused, writes refused, others {written:?}; texts back and refused {texts:?}", seed());
    println!("seed {}: states of 12,288 and 20,480 bytes {sizes:?}, plans of more than 32 streams {wide}", seed());
    println!("seed {}: full windows met {filled} times, plans with eight windows {eight}; results out of range {outside}, of them sums {sums}, divisors of 0 {zero}", seed());
    assert!(filled > all && (all < 1000 || (eight > all / 250 && sums > all / 10)), "too few windows: {filled}, {eight}, {sums}");
    assert!(all < 1000 || (outside > all / 5 && zero > all / 10), "too few missing: {outside}, {zero}");
    assert!(written.iter().all(|&count| count > all / 2), "too few writes of a kind: {written:?}");
    assert!(all < 1000 || texts.iter().all(|&count| count > all / 10), "too few texts: {texts:?}");
    assert!(all < 1000 || empty > all / 50, "too few plans of no streams: {empty}");
    assert!(all < 1000 || (sizes.iter().all(|&count| count > all / 3) && wide > all / 100), "too few of a length: {sizes:?}, {wide}");
    assert!(done * 3 > calls && full > 0 && kept > 0, "too many calls refused: {done} of {calls}");
    assert!(all < 1000 || down > all / 250, "too few divisions that go down: {down}");
}

/// Handed out is a beginning at every moment looked at, and complete at rest, and the counts of missing events are the definition's; from
/// copies put back too.
#[test]
fn handed_out_is_a_beginning_and_complete_at_rest() {
    let (mut checked, mut rested, mut events, mut copies) = (0u64, 0u64, 0u64, 0u64);
    // how often the operators that look back had an event, and of lasts and delays how many read themselves through others
    let (mut firings, mut lasts, mut signals, mut windowed, mut recursive) = (0u64, 0u64, 0u64, 0u64, 0u64);
    // and divisions an inexact quotient below zero; lists whose counts were compared, and what they were
    let (mut down, mut counted, mut missing) = (0u64, 0u64, [0u64; 2]);
    // plans of more than 32 streams, and how many of their lists were at rest
    let (mut wide, mut wide_rested) = (0u64, 0u64);
    let all = rounds(3600);
    for round in 0..all {
        let mut random = Random::of(3, round);
        let (size, plan) = sized_plan(&mut random, 32, 50);
        let mut session = Session::load_in(size, &plan);
        wide += (plan.len() > 32) as u64;
        let mut copy = session.clone();
        for _ in 0..40 + random.below(160) {
            match random.below(60) {
                0 => copy = session.clone(),
                1 => {
                    // a copy goes on with the list up to the copy
                    session = copy.clone();
                    copies += 1;
                }
                2 => {
                    session.check_beginning();
                    session.text_back(any_room(&mut random, &plan));
                }
                _ => {
                    for act in any_acts(&mut random, &session) {
                        session.act(act);
                    }
                }
            }
        }
        checked += session.check_beginning() as u64;
        counted += session.check_missing().is_some() as u64;
        if session.rest(4_000) {
            session.check_beginning();
            let at_rest = session.check_rest();
            (rested, wide_rested) = (rested + at_rest as u64, wide_rested + (at_rest && plan.len() > 32) as u64);
            let sum = session.check_missing().unwrap_or_default();
            missing = [missing[0] + sum[0], missing[1] + sum[1]];
        }
        events += session.handed.iter().map(|h| h.len() as u64).sum::<u64>();
        if let Some(streams) = evaluate(&plan, &session.accepted, session.least_known().min(500), 5_000) {
            down += (0..plan.len()).map(|s| rounded(&plan, &streams, s)).sum::<u64>();
            for (s, stream) in plan.iter().enumerate().filter(|(s, _)| !streams[*s].is_empty()) {
                match stream.op {
                    Op::Delay => firings += streams[s].len() as u64,
                    Op::Last => lasts += streams[s].len() as u64,
                    op => {
                        signals += op.on_signals().map_or(0, |_| streams[s].len() as u64);
                        windowed += if op.is_window() { streams[s].len() as u64 } else { 0 };
                        continue;
                    }
                }
                recursive += reaches(&plan, stream.a, s) as u64;
            }
        }
    }
    println!("seed {}: {all} lists, {checked} checked, {rested} at rest, {events} events handed out, {copies} copies put back", seed());
    println!("seed {}: {wide} plans of more than 32 streams, {wide_rested} at rest", seed());
    println!("seed {}: counts compared in {counted} lists, missing at rest {missing:?}", seed());
    println!("seed {}: {firings} firings, {lasts} events of last, {recursive} of these streams in a cycle, {signals} events of signal forms, {windowed} of windows, {down} divisions that go down", seed());
    assert!(checked * 10 > all * 9 && rested * 2 > all && events > 5 * all && copies > 0);
    assert!(firings > all / 2 && lasts > all && recursive > all / 10 && signals > all / 2 && windowed > all / 2);
    assert!(all < 1000 || (wide > all / 5 && wide_rested * 2 > wide), "too few wide plans: {wide}, {wide_rested}");
    assert!(counted * 10 > all * 9 && (all < 1000 || (missing[0] > all / 4 && missing[1] > all / 8)), "{counted}, {missing:?}");
    assert!(all < 1000 || down > all / 250, "too few divisions that go down: {down}");
}

/// Texts that load refuses, with their numbers on a state of 12,288 bytes and one of 20,480.
const REFUSED: [(&[u8], [u32; 2]); 11] = [
    (&[b'x'; 4097], [1, 1]), (&[b'x'; 2049], [2, 2]), (b"\n", [2, 2]), (b"plan=1\n", [2, 2]), (b"plan=1\nstreams=0\n", [3, 3]),
    (b"plan=1\nstreams=33\n", [3, 2]), (b"plan=1\nstreams=65\n", [3, 3]),
    (b"plan=1\nstreams=1\nop=no\na=0\nb=0\nk=0\nout=0\n", [4, 4]), (b"plan=1\nstreams=1\nop=in\na=0\nb=0\nk=0\nout=1\n", [5, 5]),
    (b"plan=1\nstreams=1\nop=wsum\na=0\nb=0\nk=0\nout=0\n", [18, 18]), (b"plan=1\nstreams=1\nop=neg\na=0\nb=0\nk=0\nout=0\n", [6, 6]),
];

/// One load after the other into the same buffers: one that is done starts a new list, with streams or without, and nothing of
/// the list before is left; one that is refused leaves the list.
#[test]
fn loads_over_one_another() {
    // loads done, by whether the plan before had streams and whether the plan after has; loads refused
    let (mut met, mut refused) = ([[0u64; 2]; 2], 0u64);
    let all = rounds(600);
    for round in 0..all {
        let mut random = Random::of(8, round);
        let (size, range) = sized(&mut random, 12, 15);
        let mut session = Session::load_in(size, &plan_of(&mut random, range.clone()));
        for _ in 0..5 {
            let mut board = Board::new(Model::new(&session.plan));
            for _ in 0..random.below(50) {
                for act in any_acts(&mut random, &session) {
                    assert_eq!(session.act(act), board.act(act), "the model's answer to {act:?}\n{}", session.story());
                }
                if random.chance(10) {
                    let (text, numbers) = random.pick(&REFUSED);
                    session.load_refused(text, numbers[size as usize]);
                    refused += 1;
                    // that of the plan before
                    session.text_back(any_room(&mut random, &session.plan));
                }
            }
            session.check_beginning();
            if random.chance(50) && session.rest(2_000) {
                session.check_beginning();
                session.check_rest();
            }
            session.check_missing();
            let within = if random.chance(50) { range.clone() } else { 1..=12 };
            let next = if random.chance(40) { vec![] } else { plan_of(&mut random, within) };
            met[session.plan.is_empty() as usize][next.is_empty() as usize] += 1;
            session = Session::load_over(&next, session.states);
        }
    }
    println!("seed {}: loads done over a plan {:?}, over none {:?}, the second to a plan of no streams; refused {refused}", seed(), met[0], met[1]);
    assert!(met.iter().flatten().all(|&count| count > all / 4) && refused > all);
}

/// The same accepted readings in another order of inputs, offered directly or by registers, other moves and other collections: the
/// same events handed out, and the same bytes at rest.
#[test]
fn the_order_of_inputs_does_not_matter() {
    let (mut compared, mut bytes) = (0u64, 0u64);
    let all = rounds(1500);
    for round in 0..all {
        let mut random = Random::of(4, round);
        let (size, mut plan) = sized_plan(&mut random, 24, 20);
        if plan.iter().filter(|s| s.op == Op::In).count() < 2 {
            // two inputs at least: nil has no arguments either
            for stream in plan.iter_mut().filter(|s| matches!(s.op, Op::Nil | Op::Unit)) {
                (stream.op, stream.out) = (Op::In, false);
            }
        }
        let mut script: Vec<(usize, Vec<Call>)> = vec![];
        for s in (0..plan.len()).filter(|&s| plan[s].op == Op::In) {
            let (mut calls, mut t) = (vec![], 0u32);
            for _ in 0..random.below(24) {
                t += random.below(5) as u32;
                calls.push(if random.chance(80) { Call::Reading(s as u32, t, random.value()) } else { Call::Progress(s as u32, t as u64 + 1) });
                t += 1;
            }
            script.push((s, calls));
        }
        let mut ends: Vec<Session> = vec![];
        for _ in 0..3 {
            let mut session = Session::load_in(size, &plan);
            let mut next = vec![0; script.len()];
            let mut stuck = 0;
            while (0..script.len()).any(|i| next[i] < script[i].1.len()) && stuck < 50 {
                let i = random.below(script.len() as u64) as usize;
                let Some(call) = script[i].1.get(next[i]) else { continue };
                let by_registers = matches!(call, Call::Reading(..)) && random.chance(30);
                match if by_registers { session.command(*call) } else { session.call(*call).number } {
                    0 => next[i] += 1,
                    9 => {
                        stuck += 1;
                        if !session.rest(2_000) {
                            break;
                        }
                    }
                    number => panic!("refused {number}\n{}", session.story()),
                }
                if random.chance(40) {
                    let s = random.below(plan.len() as u64) as u32;
                    let call = match random.below(3) {
                        0 => Call::Run(random.below(9) as u32),
                        1 => Call::Move(s),
                        _ => Call::Collect(s),
                    };
                    session.call(call);
                }
            }
            let all_offered = (0..script.len()).all(|i| next[i] == script[i].1.len());
            if all_offered && session.rest(4_000) {
                session.check_missing();
                ends.push(session);
            }
        }
        for other in ends.iter().skip(1) {
            assert_eq!(ends[0].accepted, other.accepted);
            assert_eq!(ends[0].handed, other.handed, "other events\n{}\n{}", ends[0].story(), other.story());
            compared += 1;
            assert!(ends[0].state() == other.state(), "other bytes at rest\n{}\n{}", ends[0].story(), other.story());
            bytes += 1;
        }
    }
    println!("seed {}: {compared} pairs of orders compared, {bytes} of them byte for byte", seed());
    assert!(compared > all / 2);
}

/// A slow reader: one input runs ahead, the streams between fill up. The bound of a full stream goes to the waiting event,
/// which comes in when there is room; nothing is lost.
#[test]
fn a_full_stream_keeps_the_next_event_waiting() {
    // full streams with an event waiting, those of them that are windows, and those behind which events were missing
    let (mut full, mut waiting, mut missing) = (0u64, 0u64, 0u64);
    for round in 0..rounds(600) {
        let mut random = Random::of(5, round);
        // a chain of random length from the fast input to a stream that also reads the slow one
        let length = 1 + random.below(5) as usize;
        let mut parts = vec!["in".to_string(), "in".to_string()];
        for i in 0..length {
            let from = if i == 0 { 0 } else { i + 1 };
            parts.push(format!("{} {}", random.pick(&["neg", "time", "plus", "set", "wsum", "wmin"]), from));
            if parts[i + 2].starts_with("plus") || parts[i + 2].starts_with("set") {
                parts[i + 2] += &format!(" k{}", random.below(20) as i64 - 5);
            }
            if parts[i + 2].starts_with('w') {
                parts[i + 2] += &format!(" k{}", random.width());
            }
        }
        let end = length + 1;
        parts.push(match random.below(5) {
            0 => format!("add {end} 1 out"),
            1 => format!("merge {end} 1 out"),
            2 => format!("last 1 {end} out"),
            3 => format!("ssub {end} 1 out"),
            _ => format!("keep 1 {end} out"),
        });
        if random.chance(50) {
            parts[end] += " out";
        }
        let plan = short(&parts.join("; "));
        let mut session = Session::load_in(random.pick(&SIZES), &plan);
        let mut model = Model::new(&plan);
        let (mut fast, mut slow) = (0u32, 0u32);
        while slow < 60 {
            // the fast input as far as it is taken
            for _ in 0..random.below(30) {
                let call = Call::Reading(0, fast, if random.chance(10) { random.at_an_edge() } else { fast as i64 });
                let answer = session.call(call);
                assert_eq!(answer, model.call(call));
                if answer.number == 0 {
                    fast += 1 + random.below(2) as u32;
                }
                if random.chance(70) {
                    let call = Call::Run(random.below(20) as u32);
                    assert_eq!(session.call(call), model.call(call), "{}", session.story());
                }
            }
            let call = Call::Run(1000);
            assert_eq!(session.call(call), model.call(call), "{}", session.story());
            for s in 0..plan.len() {
                assert_eq!(layout::bound(session.state(), s), model.bound[s], "bound of {s}\n{}", session.story());
                assert_eq!(layout::held(session.state(), s), model.held(s), "held of {s}\n{}", session.story());
                if plan[s].op.is_window() {
                    assert_eq!(layout::window(session.state(), s), model.window(s), "window of {s}\n{}", session.story());
                    waiting += model.full(s) as u64;
                }
                assert_eq!(layout::missing(session.state(), s), model.missing(s), "counts of {s}\n{}", session.story());
                if model.full(s) {
                    full += 1;
                    missing += (model.missing(s) != Missing::default()) as u64;
                    // its bound has gone to the stamp of the waiting event, which is still to come
                    let bound = model.bound[s];
                    assert!(layout::held(session.state(), s).iter().all(|(t, _)| (*t as u64) < bound));
                    assert_eq!(session.call(Call::Move(s as u32)).number, 12);
                }
            }
            for s in session.outputs() {
                let call = Call::Collect(s as u32);
                assert_eq!(session.call(call), model.call(call));
            }
            slow += 1 + random.below(6) as u32;
            let call = if random.chance(60) { Call::Reading(1, slow, 1) } else { Call::Progress(1, slow as u64) };
            slow += 1;
            assert_eq!(session.call(call), model.call(call));
        }
        session.call(Call::Progress(0, HORIZON));
        session.call(Call::Progress(1, HORIZON));
        assert!(session.rest(100_000), "{}", session.story());
        assert!(session.check_beginning() && session.check_rest() && session.check_missing().is_some());
    }
    println!("seed {}: full streams with an event waiting met {full} times, windows {waiting}, with events missing before {missing}", seed());
    assert!(full > 0 && waiting > 0 && (missing > 0 || rounds(600) < 100), "no full stream was met");
}

/// Near the last stamp nothing wraps around.
#[test]
fn lists_that_start_near_the_horizon() {
    let mut rested = 0u64;
    let all = rounds(500);
    for round in 0..all {
        let mut random = Random::of(6, round);
        let (size, plan) = sized_plan(&mut random, 10, 20);
        let mut session = Session::load_in(size, &plan);
        // past unit's event at 0 first, so that timers set there are due long before
        session.call(Call::Run(50));
        for s in session.inputs() {
            session.call(Call::Progress(s as u32, HORIZON - 30 - random.below(30)));
        }
        if !session.rest(3_000) {
            continue;
        }
        for _ in 0..80 {
            for act in any_acts(&mut random, &session) {
                session.act(act);
            }
        }
        if session.rest(3_000) && session.check_beginning() {
            rested += session.check_rest() as u64;
        }
        session.check_missing();
        for s in session.inputs() {
            session.call(Call::Progress(s as u32, HORIZON));
        }
        if session.rest(3_000) && session.check_beginning() {
            rested += session.check_rest() as u64;
            session.check_missing();
        }
    }
    println!("seed {}: {rested} rests near the horizon of {all} lists", seed());
    assert!(rested > all / 4);
}

/// A plan text that is rendered is taken by load, and the longest fits well within the limit.
#[test]
fn rendered_plans_are_short() {
    for size in SIZES {
        let last = size.cap() - 1;
        let longest: Vec<String> = (0..=last).map(|i| if i == 0 { "in".into() } else { format!("merge {last} {last} out") }).collect();
        let text = text_of(&short(&longest.join("; ")));
        assert!(text.len() < 3072, "{}", text.len());
        for round in 0..rounds(500) {
            let mut random = Random::of(7, round);
            let plan = plan(&mut random, size.cap());
            // what the shorter state takes the longer one takes too
            for taken in SIZES.into_iter().filter(|taken| plan.len() <= taken.cap()) {
                assert_eq!(parse_in(taken, text_of(&plan).as_bytes()), Ok(plan.clone()));
            }
            assert!(plan.len() <= 32 || parse_in(Size::Short, text_of(&plan).as_bytes()) == Err(3));
        }
    }
}
