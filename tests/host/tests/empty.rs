//! Document 02's Q-3: "An empty plan text now means a plan of no streams, at rest from the start." Cases worked out by hand, through
//! the exported calls and the replay; then every call on a buffer of zeros, other lengths, and each byte of it.

use host::buffer::Lent;
use host::engine::{engines, Answer, Call, Missing, LONG_STATE_LENGTH, STATE_LENGTH};
use host::evaluator::{evaluate, HORIZON};
use host::found::Found;
use host::history::Session;
use host::layout::{widened, Size};
use host::plan::{parse, short, text_of, windows, OPERATORS};
use host::random::rounds;
use host::replay::replay;
use host::worked::{as_defined, collected, numbers, runs};
use Call::{Collect, Move, Progress, Reading, Run};

const COUNT: &str = "in; unit; set 1 k0; last 5 0; plus 3 k1; merge 4 2 out";

fn zeros() -> Vec<u8> {
    vec![0; STATE_LENGTH]
}

fn number(number: u32) -> Answer {
    Answer { number, ..Answer::default() }
}

/// Lent buffers of these bytes, one for each engine.
fn lent(bytes: &[u8]) -> Vec<Lent> {
    engines().iter().map(|_| Lent::of(bytes)).collect()
}

/// A buffer of zeros that was never loaded, as a list of no calls on the plan of no streams.
fn never_loaded() -> Session {
    Session::begin(&vec![], lent(&zeros())).widened()
}

fn stays_zero(session: &Session) {
    assert!(session.state().iter().all(|&byte| byte == 0), "{}", session.story());
}

/// The number of a load into a buffer of these bytes, and what it leaves; the same of both engines.
fn loaded(before: &[u8], text: &[u8]) -> (u32, Vec<u8>) {
    let mut ends = vec![];
    for engine in engines() {
        let (mut state, text) = (Lent::of(before), Lent::of(text));
        let number = engine.load(&mut state, &text);
        assert!(state.untouched() && text.untouched(), "{}", engine.name);
        ends.push((number, state.to_vec()));
    }
    assert!(ends[0] == ends[1], "the engines differ: {} and {}", ends[0].0, ends[1].0);
    ends.swap_remove(0)
}

// ---- the cases

#[test]
fn case_3_1_load_of_no_bytes_leaves_zeros() {
    assert!(loaded(&[165; STATE_LENGTH], b"") == (0, zeros()));
    assert!(loaded(&[165; LONG_STATE_LENGTH], b"") == (0, vec![0; LONG_STATE_LENGTH]));
}

/// Only the text of no bytes: what else has no whole plan is refused as before, and the buffer stays.
#[test]
fn cases_3_2_to_3_4_other_short_texts() {
    let cases: [(&[u8], u32); 12] = [
        (b"plan=1\nstreams=0\n", 3), (b"plan=1\n", 2), (b"\n", 2),
        // without its ending byte the form comes first; more lines after streams=0 are not looked at
        (b"plan=1\nstreams=0", 2), (b"plan=1\nstreams=0\nop=in\na=0\nb=0\nk=0\nout=0\n", 3), (b"plan=1\nstreams=0\nx", 3),
        (b"streams=0\n", 2), (b"plan=1", 2), (b"p", 2), (b" ", 2), (b"\0", 2), (b"\xef\xbb\xbf", 2),
    ];
    for before in [165, 0] {
        for (text, number) in cases {
            let before = [before; STATE_LENGTH];
            assert!(loaded(&before, text) == (number, before.to_vec()), "{:?}", String::from_utf8_lossy(text));
            assert_eq!(parse(text), Err(number));
        }
    }
    // any one byte is a text that is refused
    for byte in 0..=255 {
        assert!(loaded(&[165; STATE_LENGTH], &[byte]) == (2, vec![165; STATE_LENGTH]), "{byte}");
    }
}

#[test]
fn case_3_5_a_buffer_that_was_never_loaded() {
    let mut session = never_loaded();
    runs(&mut session, 5, 0);
    numbers(&mut session, &[(Move(0), 11), (Reading(0, 0, 0), 7), (Progress(0, 0), 7), (Progress(0, 4_294_967_297), 7)]);
    assert_eq!(session.call(Collect(0)), number(13));
    stays_zero(&session);
}

#[test]
fn case_3_6_one_byte_that_is_not_0() {
    let mut bytes = zeros();
    bytes[12_287] = 1;
    for engine in engines() {
        let mut state = Lent::of(&bytes);
        assert_eq!(engine.call(&mut state, Run(5)), number(15), "{}", engine.name);
        assert!(state[..] == bytes[..] && state.untouched());
    }
}

/// "A file that can't be opened counts as empty": the replay is given no bytes then.
#[test]
fn case_3_7_a_replay_without_a_plan() {
    let cases = [
        ("s=0 t=3 v=7\ns=0 p=9\ns=1 t=1 v=1\n", "refused=7\nrefused=7\nrefused=7\n"),
        ("", ""),
        // whatever the line says, if it can be read: below what was offered before, above the horizon
        ("s=0 t=3 v=7\ns=0 t=2 v=7\ns=0 p=9999999999\ns=999 p=0\n", "refused=7\nrefused=7\nrefused=7\nrefused=7\n"),
        // a bad line ends it
        ("s=0 t=3 v=7\ns=0\ns=0 p=9\n", "refused=7\nrefused=16\n"),
        ("\ns=0 t=3 v=7\n", "refused=16\n"),
        ("s=0 t=3 v=7", "refused=16\n"),
    ];
    for engine in engines() {
        for (trace, printed) in cases {
            assert_eq!(replay(&engine, b"", trace.as_bytes()), printed, "{}: {trace:?}", engine.name);
        }
        // a plan that is refused ends it before the first line, as before
        assert_eq!(replay(&engine, b"plan=1\nstreams=0\n", b"s=0 t=3 v=7\n"), "refused=3\n", "{}", engine.name);
    }
}

#[test]
fn case_3_8_a_refused_load_leaves_the_zeros() {
    let mut session = never_loaded();
    session.load_refused(b"plan=1\nstreams=0\n", 3);
    runs(&mut session, 1, 0);
    stays_zero(&session);
    // and so with each number
    let texts: [(&[u8], u32); 5] = [
        (&[b'x'; 4097], 1), (b"plan=1\n", 2), (b"plan=1\nstreams=1\nop=no\na=0\nb=0\nk=0\nout=0\n", 4),
        (b"plan=1\nstreams=1\nop=in\na=1\nb=0\nk=0\nout=0\n", 5), (b"plan=1\nstreams=1\nop=time\na=0\nb=0\nk=0\nout=0\n", 6),
    ];
    for (text, number) in texts {
        session.load_refused(text, number);
        runs(&mut session, 1, 0);
        numbers(&mut session, &[(Reading(0, 0, 0), 7), (Collect(0), 13)]);
        stays_zero(&session);
    }
}

// ---- load

/// States of many kinds, each left by calls: full, ahead, with kept values, with windows, with 32 streams.
fn running() -> Vec<Session> {
    let mut all = vec![];
    let chain: Vec<String> = (0..32).map(|i| if i == 0 { "in".into() } else { format!("neg {} out", i - 1) }).collect();
    for plan in ["in", "unit out", COUNT, "in; in; sadd 0 1 out; delay 0 1 out; last 0 1 out", "in; wsum 0 k3 out; wmin 1 k64 out", &chain.join("; ")] {
        let mut session = Session::load(&short(plan));
        for t in 0..17 {
            session.call(Reading(0, 3 * t + 1, -7));
        }
        session.call(Run(40));
        session.call(Collect(session.plan.len() as u32 - 1));
        assert!(session.state() != Found::fresh(&session.plan).bytes());
        all.push(session);
    }
    all
}

/// The text of no bytes over a state that runs: all of it goes, and a new list begins.
#[test]
fn no_bytes_over_a_running_state() {
    for before in running() {
        let mut session = Session::load_over(&vec![], before.states.clone());
        stays_zero(&session);
        for s in 0..32 {
            numbers(&mut session, &[(Reading(s, 100, 1), 7), (Progress(s, 100), 7), (Move(s), 11), (Collect(s), 13)]);
        }
        runs(&mut session, 100, 0);
        stays_zero(&session);
        as_defined(&mut session);
        // a copy made before goes on with its list
        let mut copy = before.clone();
        copy.states = session.states.iter().map(|_| Lent::of(before.state())).collect();
        assert_eq!(copy.call(Run(0)).number, 0);
        assert!(copy.rest(4_000) && copy.check_beginning() && copy.check_rest());
    }
    // over what is no state, too
    for byte in [1, 27, 28, 30, 31, 255] {
        assert!(loaded(&[byte; STATE_LENGTH], b"") == (0, zeros()));
    }
    assert!(loaded(&zeros(), b"") == (0, zeros()));
}

/// A plan over zeros is as fresh as over anything else, and runs.
#[test]
fn a_plan_over_zeros() {
    for before in [Session::load(&vec![]), never_loaded()] {
        let mut session = Session::load_over(&short(COUNT), before.states);
        numbers(&mut session, &[(Reading(0, 3, 7), 0), (Reading(0, 5, 7), 0), (Run(100), 0)]);
        collected(&mut session, 5, &[(0, 0), (3, 1), (5, 2)]);
        as_defined(&mut session);
        // no plan again, and then the same one: its first stamps are taken once more
        let empty = Session::load_over(&vec![], session.states);
        let mut session = Session::load_over(&short(COUNT), empty.states);
        numbers(&mut session, &[(Collect(5), 14), (Reading(0, 3, 7), 0), (Run(100), 0)]);
        collected(&mut session, 5, &[(0, 0), (3, 1)]);
        as_defined(&mut session);
    }
}

/// Reading and writing are inverse: the plan of no streams is the plan of no bytes.
#[test]
fn the_text_of_no_streams() {
    assert_eq!(text_of(&[]), "");
    assert_eq!(parse(b""), Ok(vec![]));
    assert_eq!(Found::read(&zeros()), Some(Found::default()));
    assert!(Found::default().bytes() == zeros());
}

/// Nothing lies behind the pointer of a text of no bytes: it may be no address at all.
#[test]
fn no_text_behind_the_pointer() {
    for engine in engines() {
        for length in [STATE_LENGTH, LONG_STATE_LENGTH] {
            let mut state = Lent::of(&vec![165; length]);
            assert_eq!(engine.load_from_nowhere(&mut state), 0, "{}", engine.name);
            assert!(state.iter().all(|&x| x == 0) && state.untouched(), "{}", engine.name);
        }
    }
}

// ---- the calls on no streams

const STREAMS: [u32; 14] = [0, 1, 2, 31, 32, 33, 47, 48, 255, 256, 65_536, 1 << 24, 1 << 31, u32::MAX];

/// 7 comes before 8, 9 and 10, whatever is offered; 11, 13 and a run of no moves, whatever is asked. All stays zero.
#[test]
fn every_call_on_no_streams() {
    for mut session in [Session::load(&vec![]), never_loaded()] {
        for stream in STREAMS {
            for stamp in [0, 1, 255, 1 << 31, u32::MAX] {
                for value in [0, -1, i64::MIN, i64::MAX] {
                    numbers(&mut session, &[(Reading(stream, stamp, value), 7)]);
                }
            }
            for bound in [0, 1, HORIZON - 1, HORIZON, HORIZON + 1, 1 << 33, u64::MAX] {
                numbers(&mut session, &[(Progress(stream, bound), 7)]);
            }
            numbers(&mut session, &[(Move(stream), 11)]);
            assert_eq!(session.missing(stream), (11, Missing::default()));
            assert_eq!(session.call(Collect(stream)), number(13));
            stays_zero(&session);
        }
        for n in [0, 1, 2, 5, 1000, 1 << 31, u32::MAX] {
            runs(&mut session, n, 0);
        }
        // seventeen readings of one stream: never 9
        for t in 0..17 {
            numbers(&mut session, &[(Reading(0, t, 1), 7)]);
        }
        stays_zero(&session);
    }
}

/// "at rest from the start": nothing moves, nothing waits, and what is due of the outputs has been handed out, there being none.
#[test]
fn at_rest_from_the_start() {
    for mut session in [Session::load(&vec![]), never_loaded()] {
        assert!(session.rest(0) && session.check_beginning() && session.check_rest());
        assert_eq!((session.inputs(), session.outputs(), session.least_known()), (vec![], vec![], HORIZON));
        stays_zero(&session);
    }
    assert_eq!(evaluate(&[], &[], HORIZON, 10), Some(vec![]));
}

/// A copy of the plan of no streams, put back over a plan, and into another buffer.
#[test]
fn a_copy_is_put_back() {
    let mut session = Session::load(&vec![]);
    numbers(&mut session, &[(Reading(0, 3, 7), 7), (Run(5), 0)]);
    let copy = session.state().to_vec();
    let mut other = Session::load_over(&short(COUNT), session.states.clone());
    numbers(&mut other, &[(Reading(0, 3, 7), 0), (Run(100), 0)]);
    for state in &mut other.states {
        state.copy_from_slice(&copy);
    }
    for states in [other.states, lent(&copy)] {
        session.states = states;
        numbers(&mut session, &[(Reading(0, 3, 7), 7), (Progress(0, 9), 7), (Move(1), 11), (Collect(5), 13)]);
        runs(&mut session, 5, 0);
        stays_zero(&session);
        as_defined(&mut session);
    }
}

// ---- number 15

/// The calls, each with what a state of no streams answers.
const CALLS: [(Call, u32); 5] = [(Reading(0, 0, 0), 7), (Progress(0, 0), 7), (Move(0), 11), (Run(5), 0), (Collect(0), 13)];

/// Zeros of any other length are refused, and so is the text of no bytes there; the buffer stays.
#[test]
fn other_lengths() {
    let near = (STATE_LENGTH - 300..STATE_LENGTH + 300).chain(LONG_STATE_LENGTH - 150..LONG_STATE_LENGTH + 150);
    let far = (0..300).chain((0..=90).map(|i| 256 * i)).chain([2 * STATE_LENGTH, 32_768, 2 * LONG_STATE_LENGTH, 49_152]);
    let mut met = 0;
    for length in near.chain(far).filter(|&length| Size::of(length).is_none()) {
        for engine in engines() {
            for byte in [0, 165] {
                let before = vec![byte; length];
                let mut state = Lent::of(&before);
                for text in [&b""[..], b"plan=1\n", b"plan=1\nstreams=0\n", &[b'x'; 4097]] {
                    assert_eq!(engine.load(&mut state, text), 15, "{}: {length}", engine.name);
                }
                for (call, _) in CALLS {
                    assert_eq!(engine.call(&mut state, call), number(15), "{}: {call:?}, {length}", engine.name);
                }
                assert!(state[..] == before[..] && state.untouched());
            }
        }
        met += 1;
    }
    assert!(met > 1200);
}

/// A call on these bytes by both engines, and on the same widened: the number is the wanted one, or 15 where it is no state; then
/// everything stays.
fn asked(bytes: &[u8], call: (Call, u32), is: bool, why: &str) {
    asked_in(bytes, call, is, why);
    asked_in(&widened(bytes), call, is, why);
}

fn asked_in(bytes: &[u8], (call, wanted): (Call, u32), is: bool, why: &str) {
    assert_eq!(Found::read(bytes).is_some(), is, "the model: {why}");
    for engine in engines() {
        let mut state = Lent::of(bytes);
        let answer = engine.call(&mut state, call);
        if is {
            assert_eq!(answer.number, wanted, "{}: {call:?}, {why}", engine.name);
            continue;
        }
        assert_eq!(answer, number(15), "{}: {call:?}, {why}", engine.name);
        assert!(state[..] == *bytes && state.untouched());
    }
}

/// One byte of zeros set, at every place: what is not the first byte never makes a state.
#[test]
fn one_byte_set_in_zeros() {
    let mut bytes = zeros();
    for call in CALLS {
        asked(&bytes, call, true, "all bytes 0");
    }
    // a short run looks at some places only
    let step = if rounds(100) < 100 { 97 } else { 1 };
    for at in (1..STATE_LENGTH).step_by(step).chain([12_287]) {
        // each bit alone and all of them, by the five calls in turn
        for (i, byte) in (0..8).map(|bit| 1 << bit).chain([255]).enumerate() {
            bytes[at] = byte;
            asked(&bytes, CALLS[(at + i) % 5], false, &format!("byte {at} is {byte}"));
        }
        bytes[at] = 0;
    }
    // and in the longer state, also where the shorter one has no byte
    let mut bytes = vec![0; LONG_STATE_LENGTH];
    for call in CALLS {
        asked_in(&bytes, call, true, "all bytes 0");
    }
    for at in (1..LONG_STATE_LENGTH).step_by(step).chain([8191, 8192, 16_383, 16_384, 20_479]) {
        bytes[at] = 1 << (at % 8);
        asked_in(&bytes, CALLS[at % 5], false, &format!("byte {at}"));
        bytes[at] = 0;
    }
}

/// The first byte set: an operator without arguments makes a stream of it, each other one would read itself and be a cycle.
#[test]
fn the_first_byte_set_in_zeros() {
    let mut bytes = zeros();
    for byte in 1..=255u8 {
        bytes[0] = byte;
        let name = OPERATORS.get(byte as usize - 1).map_or("no operator", |(_, name)| *name);
        let is = ["in", "nil", "unit"].contains(&name);
        // an input takes the offers and does not move; nil and unit move; none is an output
        let answers = if name == "in" { [0, 0, 11, 0, 13] } else { [7, 7, 0, 0, 13] };
        for ((call, _), answer) in CALLS.into_iter().zip(answers) {
            asked(&bytes, (call, answer), is, &format!("byte 0 is {byte}, {name}"));
        }
        if is {
            assert!(Session::load(&short(name)).state() == bytes);
        } else if name != "no operator" {
            // as its text says: the number of a cycle, or of a width of 0
            let arguments = host::plan::Stream::new(OPERATORS[byte as usize - 1].0);
            assert_eq!(parse(text_of(&[arguments]).as_bytes()), Err(if arguments.op.is_window() { 18 } else { 6 }));
        }
    }
}

/// A state that was wiped in part: where the first record has gone, the others are refused; where all have, and the windows behind
/// them, it is no plan.
#[test]
fn records_wiped() {
    for session in running() {
        let n = session.plan.len();
        let mut bytes = session.state().to_vec();
        bytes[0] = 0;
        for call in CALLS {
            asked(&bytes, call, false, "the first byte wiped");
        }
        let windowed = bytes[8192..].iter().any(|&x| x != 0);
        assert_eq!(windowed, !windows(&session.plan).is_empty());
        for s in 0..n {
            bytes[256 * s..256 * (s + 1)].fill(0);
            for call in CALLS {
                asked(&bytes, call, s + 1 == n && !windowed, &format!("{} of {n} records wiped", s + 1));
            }
        }
        bytes[8192..].fill(0);
        for call in CALLS {
            asked(&bytes, call, true, "all wiped");
        }
    }
}
