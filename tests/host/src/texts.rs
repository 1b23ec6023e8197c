//! The plan of a state as text, from document 02's Q-7: what number, length and buffer the call leaves. A second implementation, over
//! the plan that a state has by the model of any state; and the call as both engines make it.

use crate::buffer::Lent;
use crate::engine::engines;
use crate::found::Found;
use crate::plan::{text_of, Stream};

/// What the call leaves: its number, the length, and the whole lent buffer.
#[derive(Clone, PartialEq, Eq, Debug)]
pub struct Given {
    pub number: u32,
    pub length: u64,
    pub buffer: Vec<u8>,
}

/// "Write the plan of a state as text into a lent buffer and give its length." "Bytes after the text stay." "19, buffer too short for
/// this text, after 15." On a number other than 0 each result is 0, and the lent buffers stay as they came.
pub fn given(plan: Option<&[Stream]>, buffer: &[u8]) -> Given {
    let refused = |number: u32| Given { number, length: 0, buffer: buffer.to_vec() };
    let Some(plan) = plan else { return refused(15) };
    let text = text_of(plan);
    match buffer.get(text.len()..) {
        None => refused(19),
        Some(behind) => Given { number: 0, length: text.len() as u64, buffer: [text.as_bytes(), behind].concat() },
    }
}

/// Bytes of which no two neighbours are the same, and none is of a plan's text: what a buffer holds before the call.
pub fn pattern(length: usize) -> Vec<u8> {
    (0..length).map(|i| 0x80 | (i % 127) as u8).collect()
}

/// The call on a state of these bytes and a buffer of these, by both engines: the same of both, the state stays, and nothing outside
/// the lent buffers is touched.
pub fn asked(state: &[u8], buffer: &[u8]) -> Given {
    let mut ends: Vec<Given> = vec![];
    for engine in engines() {
        let (mut lent, mut text) = (Lent::of(state), Lent::of(buffer));
        let (number, length) = engine.plan_text(&mut lent, &mut text);
        assert!(lent[..] == *state, "{}: the state is another", engine.name);
        assert!(lent.untouched() && text.untouched(), "{}: written outside", engine.name);
        ends.push(Given { number, length, buffer: text.to_vec() });
    }
    assert_eq!(ends[0], ends[1], "the engines differ");
    ends.swap_remove(0)
}

/// The call on a state of any bytes and a buffer with the pattern, which leaves what the definition says.
pub fn as_defined(state: &[u8], room: usize) -> Given {
    let (buffer, found) = (pattern(room), Found::read(state));
    let end = asked(state, &buffer);
    assert_eq!(end, given(found.as_ref().map(|found| &found.plan[..]), &buffer), "a buffer of {room} bytes");
    end
}
