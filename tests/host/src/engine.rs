//! A safe wrapper around the C interface, the same for both engines: a table of functions over a lent state, and a lent block or text.

use crate::layout::Size;

/// The two lengths of a state, for 32 streams and for 64.
pub const STATE_LENGTH: usize = 12_288;
pub const LONG_STATE_LENGTH: usize = 20_480;
pub const BLOCK_LENGTH: usize = 24;

type Load = unsafe extern "C" fn(*mut u8, u64, *const u8, u64) -> u32;
type OfferReading = unsafe extern "C" fn(*mut u8, u64, u32, u32, i64) -> u32;
type OfferProgress = unsafe extern "C" fn(*mut u8, u64, u32, u64) -> u32;
type Move = unsafe extern "C" fn(*mut u8, u64, u32) -> u32;
type Run = unsafe extern "C" fn(*mut u8, u64, u32, *mut u32) -> u32;
type Collect = unsafe extern "C" fn(*mut u8, u64, u32, *mut u32, *mut i64) -> u32;
type PlanText = unsafe extern "C" fn(*const u8, u64, *mut u8, u64, *mut u64) -> u32;
type ReadMissing = unsafe extern "C" fn(*const u8, u64, u32, *mut u32, *mut u32) -> u32;
type Widen = unsafe extern "C" fn(*const u8, u64, *mut u8, u64) -> u32;
type RegisterWrite = unsafe extern "C" fn(*mut u8, u64, *mut u8, u64, u32, u8) -> u32;
type RegisterLine = unsafe extern "C" fn(*const u8, u64, *mut u32) -> u32;

extern "C" {
    fn ref_load(state: *mut u8, state_length: u64, text: *const u8, text_length: u64) -> u32;
    fn ref_offer_reading(state: *mut u8, state_length: u64, stream: u32, stamp: u32, value: i64) -> u32;
    fn ref_offer_progress(state: *mut u8, state_length: u64, stream: u32, bound: u64) -> u32;
    fn ref_move(state: *mut u8, state_length: u64, stream: u32) -> u32;
    fn ref_run(state: *mut u8, state_length: u64, n: u32, moves: *mut u32) -> u32;
    fn ref_collect(state: *mut u8, state_length: u64, stream: u32, stamp: *mut u32, value: *mut i64) -> u32;
    fn ref_plan_text(state: *const u8, state_length: u64, text: *mut u8, text_length: u64, length: *mut u64) -> u32;
    fn ref_missing(state: *const u8, state_length: u64, stream: u32, outside: *mut u32, zero: *mut u32) -> u32;
    fn ref_widen(from: *const u8, from_length: u64, to: *mut u8, to_length: u64) -> u32;
    fn ref_register_write(state: *mut u8, state_length: u64, block: *mut u8, block_length: u64, at: u32, byte: u8) -> u32;
    fn ref_register_line(block: *const u8, block_length: u64, up: *mut u32) -> u32;

    fn tessla_load(state: *mut u8, state_length: u64, text: *const u8, text_length: u64) -> u32;
    fn tessla_offer_reading(state: *mut u8, state_length: u64, stream: u32, stamp: u32, value: i64) -> u32;
    fn tessla_offer_progress(state: *mut u8, state_length: u64, stream: u32, bound: u64) -> u32;
    fn tessla_move(state: *mut u8, state_length: u64, stream: u32) -> u32;
    fn tessla_run(state: *mut u8, state_length: u64, n: u32, moves: *mut u32) -> u32;
    fn tessla_collect(state: *mut u8, state_length: u64, stream: u32, stamp: *mut u32, value: *mut i64) -> u32;
    fn tessla_plan_text(state: *const u8, state_length: u64, text: *mut u8, text_length: u64, length: *mut u64) -> u32;
    fn tessla_missing(state: *const u8, state_length: u64, stream: u32, outside: *mut u32, zero: *mut u32) -> u32;
    fn tessla_widen(from: *const u8, from_length: u64, to: *mut u8, to_length: u64) -> u32;
    fn tessla_register_write(state: *mut u8, state_length: u64, block: *mut u8, block_length: u64, at: u32, byte: u8) -> u32;
    fn tessla_register_line(block: *const u8, block_length: u64, up: *mut u32) -> u32;
}

#[derive(Clone, Copy)]
pub struct Engine {
    pub name: &'static str,
    load: Load,
    offer_reading: OfferReading,
    offer_progress: OfferProgress,
    move_one: Move,
    run: Run,
    collect: Collect,
    plan_text: PlanText,
    read_missing: ReadMissing,
    widen: Widen,
    register_write: RegisterWrite,
    register_line: RegisterLine,
}

/// The plain C engine.
pub const REFERENCE: Engine = Engine {
    name: "reference",
    load: ref_load,
    offer_reading: ref_offer_reading,
    offer_progress: ref_offer_progress,
    move_one: ref_move,
    run: ref_run,
    collect: ref_collect,
    plan_text: ref_plan_text,
    read_missing: ref_missing,
    widen: ref_widen,
    register_write: ref_register_write,
    register_line: ref_register_line,
};

/// The proved library.
pub const LIBRARY: Engine = Engine {
    name: "library",
    load: tessla_load,
    offer_reading: tessla_offer_reading,
    offer_progress: tessla_offer_progress,
    move_one: tessla_move,
    run: tessla_run,
    collect: tessla_collect,
    plan_text: tessla_plan_text,
    read_missing: tessla_missing,
    widen: tessla_widen,
    register_write: tessla_register_write,
    register_line: tessla_register_line,
};

/// Both engines, the library first.
pub fn engines() -> [Engine; 2] {
    [LIBRARY, REFERENCE]
}

/// What a call answers: its number and its results.
#[derive(Clone, Copy, PartialEq, Eq, Debug, Default)]
pub struct Answer {
    pub number: u32,
    pub moves: u32,
    pub stamp: u32,
    pub value: i64,
}

/// Why events of a stream are missing: at how many stamps the result was outside the range, and at how many the divisor was 0.
#[derive(Clone, Copy, PartialEq, Eq, Debug, Default)]
pub struct Missing {
    pub outside: u32,
    pub zero: u32,
}

#[derive(Clone, Copy, PartialEq, Eq, Debug)]
pub enum Call {
    Reading(u32, u32, i64),
    Progress(u32, u64),
    Move(u32),
    Run(u32),
    Collect(u32),
}

/// What the results hold before a call, so that a result left alone is seen.
const STALE: Answer = Answer { number: 0, moves: 0xDEAD_BEEF, stamp: 0xDEAD_BEEF, value: -0x0123_4567_89AB_CDEF };
const STALE_LENGTH: u64 = 0xDEAD_BEEF_0123_4567;

/// Whether a state may have this length.
fn is_length(length: u64) -> bool {
    usize::try_from(length).is_ok_and(|length| Size::of(length).is_some())
}

impl Engine {
    pub fn load(&self, state: &mut [u8], text: &[u8]) -> u32 {
        // SAFETY: each length is that of its slice, and the slices do not overlap.
        unsafe { (self.load)(state.as_mut_ptr(), state.len() as u64, text.as_ptr(), text.len() as u64) }
    }

    /// A text of no bytes, with a pointer to nothing.
    pub fn load_from_nowhere(&self, state: &mut [u8]) -> u32 {
        // SAFETY: the length is that of the slice; no byte lies behind the other pointer, and its length says so.
        unsafe { (self.load)(state.as_mut_ptr(), state.len() as u64, std::ptr::null(), 0) }
    }

    pub fn call(&self, state: &mut [u8], call: Call) -> Answer {
        let (p, length) = (state.as_mut_ptr(), state.len() as u64);
        // SAFETY: p and length are those of a slice borrowed for writing; the results are locals.
        unsafe {
            match call {
                Call::Reading(stream, stamp, value) => {
                    Answer { number: (self.offer_reading)(p, length, stream, stamp, value), ..Answer::default() }
                }
                Call::Progress(stream, bound) => {
                    Answer { number: (self.offer_progress)(p, length, stream, bound), ..Answer::default() }
                }
                Call::Move(stream) => Answer { number: (self.move_one)(p, length, stream), ..Answer::default() },
                Call::Run(n) => {
                    let mut moves = STALE.moves;
                    let number = (self.run)(p, length, n, &mut moves);
                    Answer { number, moves, ..Answer::default() }
                }
                Call::Collect(stream) => {
                    let (mut stamp, mut value) = (STALE.stamp, STALE.value);
                    let number = (self.collect)(p, length, stream, &mut stamp, &mut value);
                    Answer { number, stamp, value, ..Answer::default() }
                }
            }
        }
    }

    /// The plan's text written into the buffer: the number, and the length. The state is borrowed for writing all the same, so that
    /// a byte of it that is written can be seen.
    pub fn plan_text(&self, state: &mut [u8], text: &mut [u8]) -> (u32, u64) {
        let lengths = (state.len() as u64, text.len() as u64);
        self.plan_text_claiming(state, text, lengths)
    }

    /// The same with other lengths said: of a state one that is refused, of the buffer more than it has. Of that nothing behind the
    /// plan's text may be touched.
    pub fn plan_text_claiming(&self, state: &mut [u8], text: &mut [u8], lengths: (u64, u64)) -> (u32, u64) {
        assert!(lengths.0 == state.len() as u64 || !is_length(lengths.0));
        assert!(lengths.1 >= text.len() as u64);
        let mut length = STALE_LENGTH;
        // SAFETY: both slices are borrowed for writing and do not overlap; a length that is not the state's own is refused, and one
        // that is longer than the buffer is said only where the text fits; the result is a local.
        let number = unsafe { (self.plan_text)(state.as_mut_ptr(), lengths.0, text.as_mut_ptr(), lengths.1, &mut length) };
        (number, length)
    }

    /// A buffer of no bytes, with a pointer to nothing.
    pub fn plan_text_to_nowhere(&self, state: &mut [u8]) -> (u32, u64) {
        let mut length = STALE_LENGTH;
        // SAFETY: as above; no byte lies behind the other pointer, and its length says so.
        let number = unsafe { (self.plan_text)(state.as_mut_ptr(), state.len() as u64, std::ptr::null_mut(), 0, &mut length) };
        (number, length)
    }

    /// Why events of a stream are missing: the number, and the two counts. The state is borrowed for writing as above.
    pub fn missing(&self, state: &mut [u8], stream: u32) -> (u32, Missing) {
        let length = state.len() as u64;
        self.missing_claiming(state, length, stream)
    }

    /// The same with another length said of the state: nothing behind such a pointer may be touched.
    pub fn missing_claiming(&self, state: &mut [u8], length: u64, stream: u32) -> (u32, Missing) {
        assert!(length == state.len() as u64 || !is_length(length));
        let mut results = [STALE.moves, !STALE.moves];
        let [outside, zero] = &mut results;
        // SAFETY: as above; the results are locals.
        let number = unsafe { (self.read_missing)(state.as_mut_ptr(), length, stream, outside, zero) };
        (number, Missing { outside: results[0], zero: results[1] })
    }

    /// A state copied into a longer buffer: the number. Both are borrowed for writing, so that a byte of the source that is written can
    /// be seen.
    pub fn widen(&self, from: &mut [u8], to: &mut [u8]) -> u32 {
        let lengths = (from.len() as u64, to.len() as u64);
        self.widen_claiming(from, to, lengths)
    }

    /// The same with other lengths said: one that no state has, or the other's, so that the call is refused. Nothing behind the pointers may
    /// be touched then, but of a source that has the length that is said.
    pub fn widen_claiming(&self, from: &mut [u8], to: &mut [u8], lengths: (u64, u64)) -> u32 {
        let own = lengths == (from.len() as u64, to.len() as u64);
        assert!(own || lengths.0 != STATE_LENGTH as u64 || (lengths.0 == from.len() as u64 && lengths.1 != LONG_STATE_LENGTH as u64));
        // SAFETY: both slices are borrowed for writing and do not overlap; lengths that are not their own are refused.
        unsafe { (self.widen)(from.as_mut_ptr(), lengths.0, to.as_mut_ptr(), lengths.1) }
    }

    /// One byte written to the block, and the number that comes back.
    pub fn write(&self, state: &mut [u8], block: &mut [u8], at: u32, byte: u8) -> u32 {
        let lengths = (state.len() as u64, block.len() as u64);
        self.write_claiming(state, block, lengths, at, byte)
    }

    /// The same with other lengths said of state and block: nothing behind such a pointer may be touched.
    pub fn write_claiming(&self, state: &mut [u8], block: &mut [u8], lengths: (u64, u64), at: u32, byte: u8) -> u32 {
        assert!(lengths.0 == state.len() as u64 || !is_length(lengths.0));
        assert!(lengths.1 == block.len() as u64 || lengths.1 != BLOCK_LENGTH as u64);
        // SAFETY: both slices are borrowed for writing and do not overlap; a length that is not a slice's own is refused.
        unsafe { (self.register_write)(state.as_mut_ptr(), lengths.0, block.as_mut_ptr(), lengths.1, at, byte) }
    }

    /// The number, and whether the line is up.
    pub fn line(&self, block: &[u8]) -> (u32, u32) {
        self.line_claiming(block, block.len() as u64)
    }

    pub fn line_claiming(&self, block: &[u8], length: u64) -> (u32, u32) {
        assert!(length == block.len() as u64 || length != BLOCK_LENGTH as u64);
        let mut up = STALE.moves;
        // SAFETY: as above; the result is a local.
        let number = unsafe { (self.register_line)(block.as_ptr(), length, &mut up) };
        (number, up)
    }
}
