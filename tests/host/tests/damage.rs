//! Texts, states of both lengths and blocks of registers damaged at random: the library's numbers, results and buffers are those of the plain C
//! engine and, on states and blocks, of the model of any state; a refusal writes nothing but what it says of the block, and nothing
//! outside the lent buffers is touched. A text that is taken all the same comes back byte for byte, and a state that is one gives its
//! plan's, and says why events are missing.

use host::buffer::Lent;
use host::engine::{engines, Answer, Call, BLOCK_LENGTH};
use host::evaluator::HORIZON;
use host::found::Found;
use host::history::{any_write, Session};
use host::layout::{self, Size, WINDOW_NUMBERS};
use host::missing;
use host::model::Division;
use host::plan::{parse_in, text_of, Stream, OPERATORS, WINDOWS};
use host::random::{plan_of, rounds, seed, sized, sized_plan, Random};
use host::registers::{line, started, writes, Act, Board};
use host::texts::{as_defined, asked, pattern, Given};
use std::ops::RangeInclusive;

/// For a state of one length or the other; now and then of a plan that only the longer one takes, or neither.
fn damaged_text(random: &mut Random) -> (Size, Vec<u8>) {
    let (size, range) = sized(random, 32, 50);
    let range = if random.chance(2) { random.pick(&[33, 64, 65])..=66 } else { range };
    let mut streams = plan_of(random, range);
    if random.chance(5) {
        // about as many windows as are taken
        for stream in streams.iter_mut().filter(|stream| stream.op.uses_a()).take(7 + random.below(4) as usize) {
            *stream = Stream { op: random.pick(&WINDOWS), b: 0, k: random.width(), ..*stream };
        }
    }
    let mut text = text_of(&streams).into_bytes();
    let lines = |text: &[u8]| text.split_inclusive(|&c| c == b'\n').map(<[u8]>::to_vec).collect::<Vec<_>>();
    for _ in 0..random.below(4) {
        match random.below(12) {
            0..=2 if !text.is_empty() => {
                let at = random.below(text.len() as u64) as usize;
                text[at] = random.pick(b"0123456789-=\n abkoinpltsudewmx\r\0\xff");
            }
            3 if !text.is_empty() => {
                text.remove(random.below(text.len() as u64) as usize);
            }
            4 => text.insert(random.below(text.len() as u64 + 1) as usize, random.pick(b"0123456789-=\n aklz\0\xff")),
            5 => text.truncate(random.below(text.len() as u64 + 1) as usize),
            6 => {
                let mut all = lines(&text);
                if !all.is_empty() {
                    let (i, j) = (random.below(all.len() as u64) as usize, random.below(all.len() as u64) as usize);
                    all.swap(i, j);
                }
                text = all.concat();
            }
            // one line in place of another, of the same key or not
            _ => {
                let mut all = lines(&text);
                if !all.is_empty() {
                    let i = random.below(all.len() as u64) as usize;
                    let key: Vec<u8> = all[i].iter().take_while(|&&c| c != b'=').copied().collect();
                    let value = random.pick(&[
                        "0", "1", "2", "31", "32", "33", "63", "64", "65", "100", "999", "1000", "-1", "-0", "00", "in", "nil", "unit", "last", "delay", "merge",
                        "add", "neg", "plus", "sadd", "sdiv", "seq", "wsum", "wmin", "wmax", "sneg", "sadds", "wsums", "zz", "abcdef", "", "9223372036854775807",
                        "9223372036854775808", "-9223372036854775808", "-9223372036854775809", "18446744073709551617",
                    ]);
                    all[i] = [&key, &b"="[..], value.as_bytes(), b"\n"].concat();
                }
                text = all.concat();
            }
        }
    }
    if random.chance(2) {
        text.resize((random.pick(&[2040, 4088, 4088]) + random.below(20)) as usize, b'x');
    }
    (size, text)
}

#[test]
fn damaged_texts() {
    // by number: 0 to 6 and 18, of which some by a ninth window
    let (mut met, mut empty, mut ninth) = ([0u64; 19], 0u64, 0u64);
    // taken with more than 32 streams, refused 3 by the shorter state alone
    let (mut wide, mut too_many) = (0u64, 0u64);
    let mut random = Random::of(10, 0);
    for _ in 0..rounds(40_000) {
        let (size, text) = damaged_text(&mut random);
        let parsed = parse_in(size, &text);
        let number = parsed.as_ref().err().copied().unwrap_or(0);
        met[number as usize] += 1;
        empty += text.is_empty() as u64;
        wide += parsed.as_ref().is_ok_and(|plan| plan.len() > 32) as u64;
        too_many += (number == 3 && parse_in(Size::Long, &text).is_ok()) as u64;
        ninth += (number == 18 && String::from_utf8_lossy(&text).matches("op=w").count() > 8) as u64;
        let text = Lent::of(&text);
        let mut ends = vec![];
        for engine in engines() {
            let before = vec![0x96; size.length()];
            let mut state = Lent::of(&before);
            let answer = engine.load(&mut state, &text);
            assert_eq!(answer, number, "seed {}: {} against the rules\n{}", seed(), engine.name, String::from_utf8_lossy(&text));
            match &parsed {
                Ok(plan) => assert!(state[..] == Found::fresh_in(size, plan).bytes()[..], "seed {}: {} leaves no fresh state\n{}", seed(), engine.name, String::from_utf8_lossy(&text)),
                Err(_) => assert!(state[..] == before[..], "seed {}: {} wrote on a refusal", seed(), engine.name),
            }
            assert!(state.untouched() && text.untouched());
            ends.push(state);
        }
        assert!(ends[0][..] == ends[1][..], "seed {}: the loaded states differ\n{}", seed(), String::from_utf8_lossy(&text));
        if number == 0 {
            let back = Given { number: 0, length: text.len() as u64, buffer: text.to_vec() };
            assert!(asked(&ends[0], &pattern(text.len())) == back, "seed {}: another text comes back\n{}", seed(), String::from_utf8_lossy(&text));
        }
    }
    println!("seed {}: numbers 0 to 6 met {:?} times, 18 {} times, {ninth} of them with more than eight windows; the text of no bytes {empty} times", seed(), &met[..7], met[18]);
    println!("seed {}: taken with more than 32 streams {wide}, refused 3 by the shorter state alone {too_many}", seed());
    assert!(met[7..18].iter().all(|&count| count == 0));
    let reached = [&met[..7], &[met[18], ninth, wide / 1000, too_many]].concat();
    assert!((reached.iter().all(|&count| count > 0) && empty > 100) || rounds(40_000) < 40_000, "a number was never met: {reached:?}, {empty}");
}

fn put(state: &mut [u8], at: usize, bytes: &[u8]) {
    state[at..at + bytes.len()].copy_from_slice(bytes);
}

/// Damage to a field, often such that the state is still one that document 01 gives a meaning.
fn damage(random: &mut Random, state: &mut [u8], streams: usize) {
    let record = 256 * random.below(streams as u64) as usize;
    let bound = u64::from_le_bytes(state[record + 16..record + 24].try_into().unwrap());
    let count = state[record + 4] as usize;
    match random.below(20) {
        0 => {
            // anywhere, or where the windows of the shorter state lie
            let at = if random.chance(70) { random.below(state.len() as u64) } else { 8192 + random.below(4096) } as usize;
            state[at] = random.next() as u8;
        }
        1 => {
            let at = record + random.below(64) as usize;
            state[at] = random.pick(&[0, 1, 2, 16, 17, 19, 20, 27, 28, 30, 31, 64, 65, 255]);
        }
        // another bound: often still above the held stamps
        2..=4 => {
            let bound = match random.below(6) {
                0 => HORIZON - random.below(2),
                1 => random.below(400),
                2 => HORIZON + random.below(3),
                3 => bound.saturating_sub(random.below(5)),
                _ => bound.saturating_add(random.below(40)),
            };
            put(state, record + 16, &bound.to_le_bytes());
        }
        5 => {
            let mark = if random.chance(80) { random.below(bound.saturating_add(2).max(1)) } else { random.next() };
            put(state, record + 24, &mark.to_le_bytes());
        }
        // what is kept: since, value and prior of a delay, one value of a last, two of a signal form, a window
        6..=8 => {
            let since = if random.chance(80) { random.below(bound.saturating_add(2).max(1)) } else { random.next() };
            if state[record] == 19 {
                put(state, record + 32, &since.to_le_bytes());
                state[record + 5] = random.below(2) as u8;
                state[record + 6] = random.below(2) as u8;
                let value = if state[record + 5] == 1 || random.chance(5) { random.value() } else { 0 };
                let prior = if state[record + 6] == 1 || random.chance(5) { random.value() } else { 0 };
                put(state, record + 40, &value.to_le_bytes());
                put(state, record + 48, &prior.to_le_bytes());
            } else if state[record] == 18 {
                state[record + 5] = random.below(2) as u8;
                let value = if state[record + 5] == 1 || random.chance(5) { random.value() } else { 0 };
                put(state, record + 32, &value.to_le_bytes());
            } else if SIGNAL.contains(&state[record]) {
                for (flag, at) in [(5, 32), (6, 40)] {
                    state[record + flag] = random.below(2) as u8;
                    let value = if state[record + flag] == 1 || random.chance(5) { random.value() } else { 0 };
                    put(state, record + at, &value.to_le_bytes());
                }
                // a byte that a signal form does not use
                if random.chance(5) {
                    state[record + 48 + random.below(8) as usize] = 1;
                }
            } else if WINDOW_NUMBERS.contains(&state[record]) {
                fill(random, state, record / 256);
            }
        }
        // a held event more, at the end or between; up to 16 and one beyond
        9..=12 => {
            let more = 1 + random.below(16) as usize;
            let mut stamps: Vec<(u32, i64)> = host::layout::held(state, record / 256);
            for _ in 0..more {
                stamps.push((random.below(bound.clamp(1, 500) + 1) as u32, random.value()));
            }
            if random.chance(95) {
                stamps.sort();
                stamps.dedup_by_key(|e| e.0);
            }
            stamps.truncate(16);
            for (j, (t, v)) in stamps.iter().enumerate() {
                put(state, record + 64 + 12 * j, &t.to_le_bytes());
                put(state, record + 68 + 12 * j, &v.to_le_bytes());
            }
            state[record + 4] = stamps.len() as u8;
        }
        // one fewer
        13 if count > 0 => {
            put(state, record + 64 + 12 * (count - 1), &[0; 12]);
            state[record + 4] -= 1;
        }
        // another operator of the same form, or other arguments
        14 => state[record] = random.pick(&[8, 9, 10, 11, 12, 13, 14, 15, 16, 17, 18, 19, 20, 21, 23, 24, 27, 28, 31, 4, 7]),
        // a window more, or another one, with its width; those behind it then lie elsewhere
        15 => {
            state[record] = random.pick(&[28, 29, 30]);
            put(state, record + 8, &width(random).to_le_bytes());
        }
        // a byte where windows lie: of one that is there, or of any
        16 => {
            let window = if random.chance(50) { layout::window_at(state, record / 256) } else { layout::windows_from(state) + 512 * random.below(8) as usize };
            let at = window + if random.chance(50) { random.below(32) } else { random.below(512) } as usize;
            state[at.min(state.len() - 1)] = random.next() as u8;
        }
        // counts of any kind, mostly of a stream that has them
        17..=18 => {
            let counting = counting(state, streams);
            let s = if counting.is_empty() || random.chance(30) { record / 256 } else { random.pick(&counting) };
            put_counts(random, state, s);
        }
        _ => {
            let at = record + 1 + random.below(2) as usize;
            state[at] = random.below(streams as u64 + 1) as u8;
        }
    }
}

/// The streams whose operator counts.
fn counting(state: &[u8], streams: usize) -> Vec<usize> {
    let op = |number: u8| (number as usize).checked_sub(1).and_then(|place| OPERATORS.get(place)).map(|(op, _)| *op);
    (0..streams).filter(|s| op(state[256 * s]).is_some_and(|op| op.counts())).collect()
}

fn put_counts(random: &mut Random, state: &mut [u8], stream: usize) {
    for at in [56, 60] {
        put(state, 256 * stream + at, &random.count().to_le_bytes());
    }
}

/// Counts of an operator that has none, or with bound 0.
fn unmeant_counts(state: &[u8], streams: usize) -> bool {
    let counting = counting(state, streams);
    (0..streams).any(|s| state[256 * s + 56..256 * s + 64] != [0; 8] && (!counting.contains(&s) || layout::bound(state, s) == 0))
}

/// Arithmetic with counts of any kind, and with readings of its arguments from its bound on whose result is often missing. The stream.
fn about_to_count(random: &mut Random, state: &mut [u8], streams: usize) -> Option<usize> {
    let all = counting(state, streams);
    if all.is_empty() {
        return None;
    }
    let s = random.pick(&all);
    let own = layout::held(state, s).last().map_or(0, |(t, _)| *t as u64 + 1);
    let bound = own.min(400) + 1 + random.below(5);
    put(state, 256 * s + 16, &bound.to_le_bytes());
    put_counts(random, state, s);
    let arguments = if state[256 * s] < 8 || WINDOW_NUMBERS.contains(&state[256 * s]) { 1..2 } else { 1..3 };
    let together = random.chance(70);
    let stamps: Vec<u32> = (0..16).map(|i| bound as u32 + i).collect();
    for a in arguments.map(|at| state[256 * s + at] as usize).filter(|&a| a < streams && a != s).collect::<Vec<_>>() {
        let stamps: Vec<u32> = stamps.iter().copied().filter(|_| together || random.chance(60)).collect();
        put(state, 256 * a + 16, &(bound + 17).to_le_bytes());
        put(state, 256 * a + 24, &[0; 8]);
        state[256 * a + 64..256 * a + 256].fill(0);
        for (j, t) in stamps.iter().enumerate() {
            put(state, 256 * a + 64 + 12 * j, &t.to_le_bytes());
            put(state, 256 * a + 68 + 12 * j, &random.at_an_edge().to_le_bytes());
        }
        state[256 * a + 4] = stamps.len() as u8;
    }
    Some(s)
}

/// Any width, mostly a good one.
fn width(random: &mut Random) -> i64 {
    if random.chance(90) { random.width() } else { random.pick(&[0, -1, 65, 66, 256, 257, 1 << 32 | 3, i64::MIN, i64::MAX]) }
}

/// Another fill of a window, up to its width and now and then above, with values of any kind and zeros or now and then a byte behind
/// them.
fn fill(random: &mut Random, state: &mut [u8], stream: usize) {
    let at = layout::window_at(state, stream);
    let width = (state[256 * stream + 8] as u64).min(64);
    if at + 512 > state.len() {
        return;
    }
    let fill = match random.below(20) {
        0 => width + 1 + random.below(3),
        1 => random.below(256),
        2..=8 => width,
        _ => random.below(width + 1),
    };
    state[256 * stream + 5] = fill as u8;
    let ends = random.chance(30);
    for i in 0..64 {
        let value = if ends { random.at_an_end() } else { random.value() };
        put(state, at + 8 * i, &if (i as u64) < fill { value } else { 0 }.to_le_bytes());
    }
    if random.chance(5) && fill < 64 {
        state[at + (8 * fill + random.below(512 - 8 * fill)) as usize] = 1;
    }
}

/// One byte of a buffer of zeros: the first one, which may make a stream of it, or another, which never does.
fn damage_zeros(random: &mut Random, state: &mut [u8]) {
    if random.chance(25) {
        state[0] = 1 + random.below(33) as u8;
    } else {
        let near = if random.chance(50) { 256 } else { state.len() as u64 - 1 };
        let at = 1 + random.below(near) as usize;
        state[at] = if random.chance(50) { 1 << random.below(8) } else { 1 + random.below(255) as u8 };
    }
}

/// The stored numbers of the signal forms.
const SIGNAL: RangeInclusive<u8> = 20..=27;

/// What a signal form's record keeps has no meaning: a flag above 1, a flag with bound 0, a value without its flag, an unused byte.
fn no_meaning(record: &[u8]) -> bool {
    let zero = |from: usize| record[from..from + 8].iter().all(|&x| x == 0);
    let wrong = |flag: usize, at: usize| record[flag] > 1 || (record[flag] == 1 && zero(16)) || (record[flag] == 0 && !zero(at));
    wrong(5, 32) || wrong(6, 40) || !zero(48)
}

/// A signal form as no call leaves it: ahead of its arguments, with values that it never took in.
fn ahead_of_both(random: &mut Random, state: &mut [u8], streams: usize) {
    let forms: Vec<usize> = (0..streams).filter(|s| SIGNAL.contains(&state[256 * s])).collect();
    if forms.is_empty() {
        return;
    }
    let record = 256 * random.pick(&forms);
    let known = |argument: usize| if argument < streams { host::layout::bound(state, argument).min(400) } else { 0 };
    let (a, b) = (known(state[record + 1] as usize), known(state[record + 2] as usize));
    let bound = (a.min(b) + random.below(30)).max(host::layout::held(state, record / 256).last().map_or(0, |(t, _)| *t as u64 + 1));
    put(state, record + 16, &bound.to_le_bytes());
    put(state, record + 24, &[0; 8]);
    for (flag, at) in [(5, 32), (6, 40)] {
        state[record + flag] = (bound > 0 && random.chance(60)) as u8;
        let value = if state[record + flag] == 1 { random.value() } else { 0 };
        put(state, record + at, &value.to_le_bytes());
    }
}

/// A window as no call leaves it: ahead of its argument or behind it, with values that it never took in, and with events of the
/// argument below its bound and from it on.
fn anywhere(random: &mut Random, state: &mut [u8], streams: usize) {
    let windows: Vec<usize> = (0..streams).filter(|s| WINDOW_NUMBERS.contains(&state[256 * s])).collect();
    if windows.is_empty() {
        return;
    }
    let s = random.pick(&windows);
    let (record, a) = (256 * s, state[256 * s + 1] as usize);
    if a >= streams {
        return;
    }
    if random.chance(40) {
        state[record] = 28;
    }
    let known = layout::bound(state, a).clamp(random.below(30), 400);
    put(state, 256 * a + 16, &known.to_le_bytes());
    let own = layout::held(state, s).last().map_or(0, |(t, _)| *t as u64 + 1);
    let bound = if random.chance(70) { known.saturating_sub(random.below(20)) } else { known + random.below(20) }.max(own);
    put(state, record + 16, &bound.to_le_bytes());
    put(state, record + 24, &[0; 8]);
    if bound == 0 {
        // a ninth one has no place
        let at = layout::window_at(state, s);
        if at < state.len() {
            put(state, at, &vec![0; 8 * state[record + 5].min(64) as usize]);
        }
        state[record + 5] = 0;
    } else if random.chance(60) {
        fill(random, state, s);
    }
    if random.chance(60) {
        // readings of the argument near the bound, often with sums that are missing
        let mut stamps: Vec<u32> = (0..1 + random.below(16)).map(|_| random.below(known + 1) as u32).filter(|t| (*t as u64) < known).collect();
        stamps.sort();
        stamps.dedup();
        state[256 * a + 64..256 * a + 256].fill(0);
        let at_one_end = random.chance(50);
        for (j, t) in stamps.iter().enumerate() {
            put(state, 256 * a + 64 + 12 * j, &t.to_le_bytes());
            let value = if at_one_end { i64::MAX - random.below(3) as i64 } else if random.chance(60) { random.at_an_end() } else { random.value() };
            put(state, 256 * a + 68 + 12 * j, &value.to_le_bytes());
        }
        state[256 * a + 4] = stamps.len() as u8;
    }
}

/// What a window's fields have no meaning for: by the width, a fill above it, a fill with bound 0, an unused byte of the record, a byte
/// behind the fill, a byte of a window that no stream has, a ninth window.
const UNMEANT: [&str; 7] = ["width", "fill", "bound 0", "unused", "behind the fill", "no stream's", "ninth"];

fn unmeant_windows(state: &[u8], streams: usize) -> [bool; 7] {
    let windows: Vec<usize> = (0..streams).filter(|s| WINDOW_NUMBERS.contains(&state[256 * s])).collect();
    let (mut met, from) = ([false; 7], layout::windows_from(state));
    for (rank, s) in windows.iter().enumerate() {
        let record = &state[256 * s..256 * (s + 1)];
        let (width, fill) = (i64::from_le_bytes(record[8..16].try_into().unwrap()), record[5] as usize);
        met[0] |= !(1..=64).contains(&width);
        met[1] |= (1..=64).contains(&width) && fill as i64 > width;
        met[2] |= fill > 0 && layout::bound(state, *s) == 0;
        met[3] |= record[6] != 0 || record[32..56].iter().any(|&x| x != 0);
        met[4] |= rank < 8 && fill < 64 && state[from + 512 * rank + 8 * fill..from + 512 * (rank + 1)].iter().any(|&x| x != 0);
    }
    met[5] = windows.len() < 8 && state[from + 512 * windows.len()..].iter().any(|&x| x != 0);
    met[6] = windows.len() > 8;
    met
}

/// A delay as no call leaves it: ahead of its second argument, with events of its own, since near the newest or anywhere.
fn ahead(random: &mut Random, state: &mut [u8], streams: usize) {
    let delays: Vec<usize> = (0..streams).filter(|s| state[256 * s] == 19).collect();
    if delays.is_empty() {
        return;
    }
    let s = random.pick(&delays);
    let record = 256 * s;
    let b = state[record + 2] as usize;
    let known = if b < streams { host::layout::bound(state, b).min(400) } else { 0 };
    let bound = known + random.below(30);
    put(state, record + 16, &bound.to_le_bytes());
    put(state, record + 24, &[0; 8]);
    state[record + 64..record + 256].fill(0);
    let mut stamps: Vec<u32> = (0..random.below(4)).map(|_| random.below(bound + 1) as u32).filter(|t| (*t as u64) < bound).collect();
    stamps.sort();
    stamps.dedup();
    for (j, t) in stamps.iter().enumerate() {
        put(state, record + 64 + 12 * j, &t.to_le_bytes());
    }
    state[record + 4] = stamps.len() as u8;
    let newest = stamps.last().map_or(0, |t| *t as u64 + 1);
    let since = match random.below(8) {
        0 => newest.saturating_sub(1),
        1..=3 => newest,
        4 => (newest + 1).min(bound),
        _ => newest + random.below(bound - newest + 1),
    };
    put(state, record + 32, &since.to_le_bytes());
    for (flag, at, is) in [(5, 40, since > 0), (6, 48, bound > 0)] {
        state[record + flag] = (is && random.chance(60)) as u8;
        let value = if state[record + flag] == 1 { 1 + random.below(25) as i64 } else { 0 };
        put(state, record + at, &value.to_le_bytes());
    }
}

/// A block of any contents, and a write to it: mostly the command of a call whose numbers it holds, now and then damaged after
/// they were written, or of another length.
fn damaged_block(random: &mut Random, call: Call) -> (Vec<u8>, u32, u8) {
    let mut block = random.bytes(BLOCK_LENGTH);
    let mut acts = writes(&block, call).unwrap_or(vec![any_write(random)]);
    if random.chance(10) {
        acts.push(any_write(random));
    }
    let Some(Act::Write(at, byte)) = acts.pop() else { unreachable!("a write is the last") };
    for act in acts {
        if let Act::Write(at @ 0..=15, byte) = act {
            block[at as usize] = byte;
        }
    }
    match random.below(30) {
        0 => block.resize(random.below(50) as usize, 0),
        1..=3 => block[random.below(BLOCK_LENGTH as u64) as usize] = random.next() as u8,
        _ => {}
    }
    (block, at, byte)
}

#[test]
fn damaged_states() {
    // delays with events of their own: since below one past the newest, at it, above it; b's reading told at or above since,
    // just below the bound and lower; told before since
    let (mut below, mut at, mut above, mut edge, mut lower, mut before_since) = (0u64, 0u64, 0u64, 0u64, 0u64, 0u64);
    // signal forms: readings of an argument below the bound, which the form is not told; events from a kept value, with nothing
    // of that argument held; kept fields that the layout gives no meaning
    let (mut untold, mut from_kept, mut unmeant) = (0u64, 0u64, 0u64);
    // windows: readings of an argument below the bound, which the window is not told; moves of one that take in an event, at once
    // several with missing sums, or with held events of the argument below its bound; fields without a meaning, by kind
    let (mut window_untold, mut taken_in, mut several, mut below_its, mut unmeant_by) = (0u64, 0u64, 0u64, 0u64, [0u64; 7]);
    // moves to which it matters that a quotient goes down
    let mut down = 0u64;
    // buffers of zeros, which are the plan of no streams; a first stream alone in them; bytes behind a first byte that is 0
    let (mut zeros, mut alone, mut headless) = (0u64, 0u64, 0u64);
    // writes: commands done, refused, refused 15, refused 17, others; an output that waits in the state left
    let (mut written, mut waited) = ([0u64; 5], 0u64);
    // texts of the plan: given, refused 19, refused 15
    let mut texts = [0u64; 3];
    // counts: read, refused 11, refused 15; without meaning; moves and runs that made one greater, or took one to the limit
    let (mut read, mut unmeant_count, mut counted, mut stopped) = ([0u64; 3], 0u64, 0u64, 0u64);
    // states of both lengths, and plans of more than 32 streams
    let (mut sizes, mut wide) = ([0u64; 2], 0u64);
    let (mut good, mut bad, mut moves, mut done) = (0u64, 0u64, 0u64, [0u64; 5]);
    let mut blocks = [Lent::of(&[0; BLOCK_LENGTH]), Lent::of(&[0; BLOCK_LENGTH])];
    for round in 0..rounds(15_000) {
        let mut random = Random::of(11, round);
        let (size, plan) = sized_plan(&mut random, 12, 8);
        sizes[size as usize] += 1;
        wide += (plan.len() > 32) as u64;
        // the records that are looked at: the first one of a plan of no streams too
        let records = plan.len().max(1);
        let mut session = Session::load_in(size, &plan);
        for _ in 0..random.below(60) {
            let s = random.below(records as u64) as u32;
            let known = session.known.get(s as usize).copied().unwrap_or(0);
            let call = match random.below(4) {
                0 => Call::Reading(s, (known + random.below(4)).min(u32::MAX as u64) as u32, random.value()),
                1 => Call::Progress(s, known + random.below(6)),
                2 => Call::Run(random.below(8) as u32),
                _ => Call::Collect(s),
            };
            session.call(call);
        }
        for _ in 0..4 {
            let mut bytes = session.state().to_vec();
            let of_a_kind = random.below(14);
            let mut counts_first = None;
            if random.chance(2) {
                // wiped
                bytes.fill(0);
            }
            if bytes[0] == 0 && random.chance(50) {
                damage_zeros(&mut random, &mut bytes);
            } else {
                for _ in 0..(of_a_kind > 9) as u64 + random.below(3) {
                    damage(&mut random, &mut bytes, records);
                }
            }
            match of_a_kind {
                0..=3 => ahead(&mut random, &mut bytes, records),
                4..=5 => ahead_of_both(&mut random, &mut bytes, records),
                6..=7 => anywhere(&mut random, &mut bytes, records),
                8..=9 => counts_first = about_to_count(&mut random, &mut bytes, records),
                _ => {}
            }
            if random.chance(20) {
                // as long as a text of these streams is, or somewhat longer or shorter
                let room = if random.chance(50) { 4096 } else { 17 + random.below(30 * records as u64 + 30) as usize };
                texts[match as_defined(&bytes, room).number {
                    0 => 0,
                    19 => 1,
                    _ => 2,
                }] += 1;
            }
            if random.chance(30) {
                let stream = random.below(records as u64 + 1) as u32;
                read[match missing::as_defined(&bytes, stream).0 {
                    0 => 0,
                    11 => 1,
                    _ => 2,
                }] += 1;
            }
            let mut states = [Lent::of(&bytes), Lent::of(&bytes)];
            // a list of calls on the damaged state, which may go on as one that no call leaves; first a move of a window that was put
            // anywhere, or of arithmetic that is about to count
            let mut first = (6..=7).contains(&of_a_kind);
            for _ in 0..12 {
                let before = states[0].to_vec();
                let mut s = random.below(records as u64 + 1) as u32;
                // often the second argument of a delay or a signal form, for a reading below the bound of that
                let seconds: Vec<usize> = (0..records).filter(|&d| before[256 * d] == 19 || SIGNAL.contains(&before[256 * d])).collect();
                if !seconds.is_empty() && random.chance(20) {
                    s = before[256 * random.pick(&seconds) + 2] as u32;
                }
                // and often a signal form itself, for a move of it
                let forms: Vec<usize> = (0..records).filter(|&f| SIGNAL.contains(&before[256 * f])).collect();
                if !forms.is_empty() && random.chance(20) {
                    s = random.pick(&forms) as u32;
                }
                // or a window, or its argument
                let windows: Vec<usize> = (0..records).filter(|&w| WINDOW_NUMBERS.contains(&before[256 * w])).collect();
                let moves_first = std::mem::take(&mut first) && !windows.is_empty();
                if !windows.is_empty() && (moves_first || random.chance(50)) {
                    s = random.pick(&windows) as u32;
                    s = if !moves_first && random.chance(30) { before[256 * s as usize + 1] as u32 } else { s };
                }
                let moves_first = moves_first || counts_first.is_some();
                s = counts_first.take().map_or(s, |counting| counting as u32);
                let own = (s as usize).min(records - 1);
                let bound = host::layout::bound(&before, own).min(HORIZON);
                let far = if random.chance(50) { 3 } else { 20 };
                let (kind, call) = match if moves_first { 3 } else { random.below(10) } {
                    0..=1 => (0, Call::Reading(s, (bound + random.below(far)).saturating_sub(1).min(u32::MAX as u64) as u32, random.value())),
                    2 => (1, Call::Progress(s, (bound + random.below(5)).saturating_sub(1))),
                    3..=5 => (2, Call::Move(s)),
                    6..=7 => (3, Call::Run(random.below(20) as u32)),
                    _ => (4, Call::Collect(s)),
                };
                // directly, or by a write to a block
                let (block, act) = match random.chance(25).then(|| damaged_block(&mut random, call)) {
                    None => (vec![0; BLOCK_LENGTH], Act::Call(call)),
                    Some((block, at, byte)) => (block, Act::Write(at, byte)),
                };
                if block.len() != blocks[0].len() {
                    blocks = [Lent::of(&block), Lent::of(&block)];
                }
                let answers: Vec<Answer> = engines()
                    .iter()
                    .zip(states.iter_mut().zip(&mut blocks))
                    .map(|(engine, (state, lent))| {
                        lent.copy_from_slice(&block);
                        match act {
                            Act::Call(call) => engine.call(state, call),
                            Act::Write(at, byte) => Answer { number: engine.write(state, lent, at, byte), ..Answer::default() },
                        }
                    })
                    .collect();
                let story = || format!("seed {} round {round}: {act:?} on {block:?} and\n{}", seed(), shown(&before, records));
                assert_eq!(answers[0], answers[1], "library and reference, {}", story());
                let found = Found::read(&before);
                let mut board = Board { calls: found.clone(), block: block.clone() };
                let wanted = board.act(act);
                let after = board.calls.as_ref().map_or(before.clone(), Found::bytes);
                for (engine, left) in engines().iter().zip(&blocks) {
                    assert_eq!(left[..], board.block[..], "{} and model leave other blocks, {}", engine.name, story());
                    assert!(left.untouched() && engine.line(left) == line(left), "{}, {}", engine.name, story());
                }
                assert_eq!(answers[0], wanted, "library and model, {}", story());
                assert!(states[0][..] == after[..], "library and model leave other states, {}\nlibrary\n{}\nmodel\n{}", story(), shown(&states[0], records), shown(&after, records));
                if before[0] == 0 {
                    zeros += found.is_some() as u64;
                    headless += found.is_none() as u64;
                    assert_eq!(found.is_some(), before.iter().all(|&x| x == 0), "{}", story());
                }
                alone += (found.is_some() && before[0] != 0 && plan.is_empty()) as u64;
                // the call that it counts as
                let command = match act {
                    Act::Call(call) => Some(call),
                    Act::Write(at, byte) => started(&block, at, byte),
                };
                if let (Some(made @ (Call::Move(_) | Call::Run(_))), Some(found)) = (command, &found) {
                    let mut toward_zero = Found { division: Division::TowardZero, ..found.clone() };
                    toward_zero.call(made);
                    down += (found.divides() && toward_zero.bytes() != after) as u64;
                }
                if let Act::Write(..) = act {
                    written[match (command, wanted.number) {
                        (Some(_), 0) => 0,
                        (Some(_), 15) => 2,
                        (Some(_), _) => 1,
                        (None, 17) => 3,
                        (None, _) => 4,
                    }] += 1;
                    waited += (command.is_some() && block[18] & 2 == 0 && board.block[18] & 2 != 0) as u64;
                    if command != Some(call) {
                        // not the call that is counted below
                        assert!(states[1][..] == after[..] && states.iter().all(Lent::untouched), "{}", story());
                        continue;
                    }
                }
                for d in (0..records).filter(|&d| before[256 * d] == 19) {
                    let newest = host::layout::held(&before, d).last().map(|(t, _)| *t as u64 + 1);
                    let since = u64::from_le_bytes(before[256 * d + 32..256 * d + 40].try_into().unwrap());
                    if let Some(newest) = newest {
                        below += (since < newest) as u64;
                        at += (since == newest && found.is_some()) as u64;
                        above += (since > newest && found.is_some()) as u64;
                    }
                    if let (Call::Reading(_, t, _), 0, true) = (call, wanted.number, before[256 * d + 2] as u32 == s) {
                        let (t, y) = (t as u64, host::layout::bound(&before, d));
                        edge += (t >= since && t + 1 == y) as u64;
                        lower += (t >= since && t + 1 < y) as u64;
                        before_since += (t < since) as u64;
                    }
                }
                for f in (0..records).filter(|&f| SIGNAL.contains(&before[256 * f])) {
                    let (a, b) = (before[256 * f + 1] as usize, before[256 * f + 2] as usize);
                    match call {
                        Call::Reading(s, t, _) if wanted.number == 0 && [a, b].contains(&(s as usize)) => {
                            untold += ((t as u64) < host::layout::bound(&before, f)) as u64;
                        }
                        Call::Move(s) if wanted.number == 0 && s as usize == f => {
                            let event = host::layout::held(&after, f).len() > host::layout::held(&before, f).len();
                            from_kept += (event && (before[256 * a + 4] == 0 || before[256 * b + 4] == 0)) as u64;
                        }
                        _ => unmeant += no_meaning(&before[256 * f..256 * (f + 1)]) as u64,
                    }
                }
                for w in windows {
                    let (a, y) = (before[256 * w + 1] as usize, layout::bound(&before, w));
                    match call {
                        Call::Reading(s, t, _) if wanted.number == 0 && s as usize == a => window_untold += ((t as u64) < y) as u64,
                        Call::Move(s) if wanted.number == 0 && s as usize == w => {
                            let to = layout::bound(&after, w);
                            let passed = layout::held(&before, a).iter().filter(|(t, _)| (y..to).contains(&(*t as u64))).count();
                            let events = layout::held(&after, w).len().saturating_sub(layout::held(&before, w).len());
                            taken_in += (passed > 0) as u64;
                            several += (passed > events + 1) as u64;
                            below_its += (passed > 0 && layout::held(&before, a).iter().any(|(t, _)| (*t as u64) < y)) as u64;
                        }
                        _ => {}
                    }
                }
                let unmeant = unmeant_counts(&before, records);
                assert!(!unmeant || found.is_none(), "counts without a meaning: {}", story());
                unmeant_count += unmeant as u64;
                for s in 0..records {
                    let (before, after) = (layout::missing(&before, s), layout::missing(&after, s));
                    assert!(before == after || matches!(call, Call::Move(_) | Call::Run(_)), "{}", story());
                    counted += (before != after) as u64;
                    stopped += ((after.outside == u32::MAX && before.outside < u32::MAX) || (after.zero == u32::MAX && before.zero < u32::MAX)) as u64;
                }
                for (kind, met) in unmeant_windows(&before, records).into_iter().enumerate() {
                    assert!(!met || found.is_none(), "{}: {}", UNMEANT[kind], story());
                    unmeant_by[kind] += met as u64;
                }
                assert!(states[0][..] == states[1][..], "library and reference leave other states, {}\nlibrary\n{}\nreference\n{}", story(), shown(&states[0], records), shown(&states[1], records));
                if answers[0].number != 0 {
                    assert!(states[0][..] == before[..], "written on a refusal, {}", story());
                    assert_eq!(answers[0], Answer { number: answers[0].number, ..Answer::default() });
                }
                assert!(states.iter().all(Lent::untouched));
                if answers[0].number == 15 {
                    bad += 1;
                    break;
                }
                good += 1;
                done[kind] += (answers[0].number == 0) as u64;
                moves += answers[0].moves as u64;
            }
        }
    }
    println!("seed {}: {good} calls on damaged states that are taken, {bad} refused 15, done by kind {done:?}, {moves} moves in runs", seed());
    println!(
        "seed {}: delays with events of their own, since below {below}, at {at}, above {above}; b's readings just below the bound \
         {edge}, lower {lower}, before since {before_since}",
        seed()
    );
    println!("seed {}: signal forms, readings of an argument below the bound {untold}, events from a kept value {from_kept}, without meaning {unmeant}; moves and runs with a quotient that goes down {down}", seed());
    println!(
        "seed {}: windows, readings of the argument below the bound {window_untold}, moves that took something in {taken_in}, several missing sums {several}, \
         with events below the bound {below_its}; without meaning {}",
        seed(),
        UNMEANT.iter().zip(unmeant_by).map(|(kind, count)| format!("{kind} {count}")).collect::<Vec<_>>().join(", ")
    );
    println!("seed {}: writes, commands done {}, refused {}, refused 15 {}, refused 17 {}, others {}; found waiting {waited}", seed(), written[0], written[1], written[2], written[3], written[4]);
    println!("seed {}: texts of the plan given {}, refused 19 {}, refused 15 {}", seed(), texts[0], texts[1], texts[2]);
    println!("seed {}: counts read {}, refused 11 {}, refused 15 {}; without meaning {unmeant_count}, greater after a call {counted}, at the limit then {stopped}", seed(), read[0], read[1], read[2]);
    println!("seed {}: calls on zeros {zeros}, on a first stream alone in them {alone}, on bytes behind a first byte that is 0 {headless}", seed());
    println!("seed {}: states of 12,288 and 20,480 bytes {sizes:?}, with more than 32 streams {wide}", seed());
    assert!(good > bad && moves > 0 && done.iter().all(|&count| count > 0));
    let reached = [below, at, above, edge, lower, before_since, untold, from_kept, unmeant, down, zeros, alone, headless];
    let reached = [&reached[..], &written, &texts, &read, &sizes, &[wide / 100, waited, window_untold, taken_in, several, below_its, unmeant_count, counted, stopped], &unmeant_by].concat();
    assert!(reached.iter().all(|&count| count > 0) || rounds(15_000) < 15_000, "a kind of state was never met: {reached:?}");
    assert!((counted > 1000 && stopped > 50) || rounds(15_000) < 15_000, "too few counts: {counted} {stopped}");
}

/// The records of a state, for a message.
fn shown(state: &[u8], streams: usize) -> String {
    let from = layout::windows_from(state);
    (0..streams)
        .map(|s| {
            let r = &state[256 * s..256 * (s + 1)];
            let word = |at: usize| i64::from_le_bytes(r[at..at + 8].try_into().unwrap());
            format!(
                "{s}: op {} a {} b {} out {} flags {} {} k {} bound {} mark {} kept {} {} {} missing {:?} held {:?}\n",
                r[0], r[1], r[2], r[3], r[5], r[6], word(8), word(16), word(24), word(32), word(40), word(48),
                host::layout::missing(state, s), host::layout::held(state, s)
            )
        })
        .chain((0..8).map(|j| {
            let window = &state[from + 512 * j..from + 512 * (j + 1)];
            let used = window.iter().rposition(|&x| x != 0).map_or(0, |at| at / 8 + 1);
            let values = window.chunks(8).take(used).map(|v| i64::from_le_bytes(v.try_into().unwrap())).collect::<Vec<_>>();
            if used == 0 { String::new() } else { format!("window {j}: {values:?}\n") }
        }))
        .collect()
}
