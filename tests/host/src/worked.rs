//! What a worked case says of calls on a session: their numbers, the moves of a run, what an output hands out, why events are missing,
//! bytes of the state; and load's number of a text.

use crate::buffer::Lent;
use crate::engine::{engines, Answer, Call, Missing};
use crate::found::Found;
use crate::history::Session;
use crate::layout::{Size, SIZES};
use crate::plan::parse_in;
use Call::{Collect, Run};

/// The calls with the numbers that they return.
pub fn numbers(session: &mut Session, calls: &[(Call, u32)]) {
    for (call, number) in calls {
        assert_eq!(session.call(*call).number, *number, "{call:?}");
    }
}

/// A run of n is done with so many moves.
pub fn runs(session: &mut Session, n: u32, moves: u32) {
    assert_eq!(session.call(Run(n)), Answer { moves, ..Answer::default() }, "run {n}");
}

/// An output is collected until nothing waits: these events, as (stamp, value).
pub fn collected(session: &mut Session, stream: u32, events: &[(u32, i64)]) {
    for (stamp, value) in events {
        assert_eq!(session.call(Collect(stream)), Answer { stamp: *stamp, value: *value, ..Answer::default() }, "stream {stream}");
    }
    numbers(session, &[(Collect(stream), 14)]);
}

/// The counts of a stream, by the call and as they lie in its record.
pub fn missing(session: &mut Session, stream: u32, outside: u32, zero: u32) {
    assert_eq!(session.missing(stream), (0, Missing { outside, zero }), "stream {stream}");
    record(session, stream as usize, 56, &[outside.to_le_bytes(), zero.to_le_bytes()].concat());
}

/// Run and collected to the end, all that was handed out is what the definition gives, and so are the counts.
pub fn as_defined(session: &mut Session) {
    assert!(session.rest(5000) && session.check_beginning() && session.check_rest() && session.check_missing().is_some());
}

/// Bytes of the state, from the first one named on.
pub fn holds(session: &Session, from: usize, bytes: &[u8]) {
    assert_eq!(&session.state()[from..from + bytes.len()], bytes, "from byte {from} on");
}

/// Bytes of a record, from the first one named on.
pub fn record(session: &Session, stream: usize, from: usize, bytes: &[u8]) {
    holds(session, 256 * stream + from, bytes);
}

/// Load's number, the same of both engines, by the rules, and on a state of either length.
pub fn load(text: &str) -> u32 {
    let numbers = SIZES.map(|size| load_in(size, text.as_bytes()));
    assert_eq!(numbers[0], numbers[1], "the two lengths: {text:?}");
    numbers[0]
}

/// Load's number on a state of this length, the same of both engines and by the rules: a refusal writes nothing, and what is taken
/// leaves a fresh state.
pub fn load_in(size: Size, text: &[u8]) -> u32 {
    let parsed = parse_in(size, text);
    let number = parsed.as_ref().err().copied().unwrap_or(0);
    let before = vec![0x96; size.length()];
    for engine in engines() {
        let (mut state, text) = (Lent::of(&before), Lent::of(text));
        assert_eq!(engine.load(&mut state, &text), number, "{} against the rules: {:?}", engine.name, String::from_utf8_lossy(&text));
        let after = parsed.as_ref().map_or(before.clone(), |plan| Found::fresh_in(size, plan).bytes());
        assert!(state[..] == after[..] && state.untouched() && text.untouched(), "{}: {:?}", engine.name, String::from_utf8_lossy(&text));
    }
    number
}
