//! Why events of a stream are missing, from document 02's Q-8: the reason at one stamp, the counts, and the call as both engines make
//! it. A second implementation, for the models; the evaluator of the definition has its own.

use crate::buffer::Lent;
use crate::engine::{engines, Missing};
use crate::evaluator::Why;
use crate::found::Found;
use crate::plan::Stream;

impl Missing {
    /// "each count stopping at 4,294,967,295"
    pub fn add(&mut self, why: Option<Why>) {
        match why {
            Some(Why::Outside) => self.outside = self.outside.saturating_add(1),
            Some(Why::Zero) => self.zero = self.zero.saturating_add(1),
            None => {}
        }
    }
}

/// Why an equation has no event at a stamp: of a and b the events there, the latest values there, and what the equation gives. It has
/// something to work on where both have an event, or of a signal form one of them has and both have had one.
pub fn absent(stream: Stream, here: [Option<i64>; 2], latest: [Option<i64>; 2], given: Option<i64>) -> Option<Why> {
    let is_form = stream.op.on_signals().is_some();
    let something = match here {
        _ if !stream.op.counts() => false,
        [a, b] if is_form => (a.is_some() || b.is_some()) && latest.iter().all(Option::is_some),
        [a, b] => a.is_some() && (b.is_some() || !stream.op.uses_b()),
    };
    if !something || given.is_some() {
        return None;
    }
    // "Where both could be said, the zero divisor is."
    let divisor = if is_form { latest[1] } else { here[1] };
    Some(if stream.op.divides() && divisor == Some(0) { Why::Zero } else { Why::Outside })
}

/// What the call answers of a state, none for bytes that are no state: 15 first, then "Reading a stream that isn't there gives 11".
pub fn given(found: Option<&Found>, stream: u32) -> (u32, Missing) {
    match found {
        None => (15, Missing::default()),
        Some(found) => found.records.get(stream as usize).map_or((11, Missing::default()), |record| (0, record.missing)),
    }
}

/// The call on a state of these bytes, by both engines: the same of both, the state stays, and nothing outside it is touched.
pub fn asked(state: &[u8], stream: u32) -> (u32, Missing) {
    let mut ends = vec![];
    for engine in engines() {
        let mut lent = Lent::of(state);
        ends.push(engine.missing(&mut lent, stream));
        assert!(lent[..] == *state, "{}: the state is another", engine.name);
        assert!(lent.untouched(), "{}: written outside", engine.name);
    }
    assert_eq!(ends[0], ends[1], "the engines differ, stream {stream}");
    ends[0]
}

/// The call on a state of any bytes gives what the definition says, of a stream.
pub fn as_defined(state: &[u8], stream: u32) -> (u32, Missing) {
    let end = asked(state, stream);
    assert_eq!(end, given(Found::read(state).as_ref(), stream), "stream {stream}");
    end
}
