//! The fields of a state, read from outside (docs/LAYOUT.md): for tests that look at bounds, held events and what is kept.

use crate::engine::{Missing, LONG_STATE_LENGTH, STATE_LENGTH};

pub const RECORD: usize = 256;
/// Eight windows of 64 values lie behind all records.
pub const WINDOW: usize = 512;

/// The two lengths of a state.
#[derive(Clone, Copy, PartialEq, Eq, Debug, Default)]
pub enum Size {
    /// "Saved states of 12,288 bytes still run, with at most 32 streams"
    #[default]
    Short,
    /// "A plan may have 64 streams [..] and a state of 20,480 bytes holds such a plan."
    Long,
}

pub const SIZES: [Size; 2] = [Size::Short, Size::Long];

impl Size {
    /// None of "a length that is neither".
    pub fn of(length: usize) -> Option<Size> {
        SIZES.into_iter().find(|size| size.length() == length)
    }

    pub fn length(self) -> usize {
        match self {
            Size::Short => STATE_LENGTH,
            Size::Long => LONG_STATE_LENGTH,
        }
    }

    /// How many streams there is room for.
    pub fn cap(self) -> usize {
        match self {
            Size::Short => 32,
            Size::Long => 64,
        }
    }

    /// Where the first window lies.
    pub fn windows(self) -> usize {
        RECORD * self.cap()
    }
}

/// Where the first window of a state lies.
pub fn windows_from(state: &[u8]) -> usize {
    Size::of(state.len()).expect("a state's length").windows()
}

/// A state of 12,288 bytes as it lies in 20,480: "records copied, records 32 to 63 zero, window bytes from 8,192 on now at 16,384".
pub fn widened(state: &[u8]) -> Vec<u8> {
    let (records, windows) = state.split_at(Size::Short.windows());
    [records, &[0; RECORD * 32], windows].concat()
}
/// The stored numbers of wsum, wmin and wmax.
pub const WINDOW_NUMBERS: std::ops::RangeInclusive<u8> = 28..=30;

fn word(bytes: &[u8], at: usize) -> u64 {
    u64::from_le_bytes(bytes[at..at + 8].try_into().unwrap())
}

pub fn is_output(state: &[u8], stream: usize) -> bool {
    state[RECORD * stream + 3] == 1
}

pub fn bound(state: &[u8], stream: usize) -> u64 {
    word(state, RECORD * stream + 16)
}

pub fn mark(state: &[u8], stream: usize) -> u64 {
    word(state, RECORD * stream + 24)
}

/// Of a signal form: the latest values of a and of b, each where its flag is 1.
pub fn latest(state: &[u8], stream: usize) -> [Option<i64>; 2] {
    let record = &state[RECORD * stream..RECORD * (stream + 1)];
    [(5, 32), (6, 40)].map(|(flag, at)| (record[flag] == 1).then_some(word(record, at) as i64))
}

/// Of a window: where its values lie, by its rank among the plan's windows.
pub fn window_at(state: &[u8], stream: usize) -> usize {
    let rank = (0..stream).filter(|s| WINDOW_NUMBERS.contains(&state[RECORD * s])).count();
    windows_from(state) + WINDOW * rank
}

/// Of a window: the values that it keeps, the oldest first.
pub fn window(state: &[u8], stream: usize) -> Vec<i64> {
    let (at, fill) = (window_at(state, stream), state[RECORD * stream + 5] as usize);
    (0..fill).map(|i| word(state, at + 8 * i) as i64).collect()
}

/// Of arithmetic: bytes 56 to 59 and 60 to 63, its two counts.
pub fn missing(state: &[u8], stream: usize) -> Missing {
    let count = |at: usize| u32::from_le_bytes(state[RECORD * stream + at..RECORD * stream + at + 4].try_into().unwrap());
    Missing { outside: count(56), zero: count(60) }
}

/// The state with every count taken for 0.
pub fn without_counts(state: &[u8]) -> Vec<u8> {
    let mut state = state.to_vec();
    let windows = windows_from(&state);
    for record in state[..windows].chunks_mut(RECORD) {
        record[56..64].fill(0);
    }
    state
}

pub fn held(state: &[u8], stream: usize) -> Vec<(u32, i64)> {
    let record = &state[RECORD * stream..RECORD * (stream + 1)];
    (0..(record[4] as usize).min(16))
        .map(|j| {
            let slot = &record[64 + 12 * j..];
            (u32::from_le_bytes(slot[..4].try_into().unwrap()), word(slot, 4) as i64)
        })
        .collect()
}
