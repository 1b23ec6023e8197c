//! Document 02's Q-9: 64 streams, two lengths of a state, and the call that copies the shorter into the longer. Cases worked out by hand,
//! through the exported calls, each byte looked at; states of any kind widened; and after it the same calls on both.

use host::buffer::Lent;
use host::engine::{engines, Answer, Call, Missing, BLOCK_LENGTH, LONG_STATE_LENGTH, STATE_LENGTH};
use host::evaluator::HORIZON;
use host::found::{Found, Record};
use host::history::{any_acts, Session};
use host::layout::{self, widened, Size, SIZES};
use host::missing;
use host::plan::{keeps_cycle_rule, short, text_of, windows, Op, Plan, Stream};
use host::random::{plan, plan_of, record, rounds, seed, Random, WIDE};
use host::registers::{readers, Act, Block, Board, REFUSED, WAITING};
use host::saved::read;
use host::texts;
use host::worked::{as_defined, collected, holds, load_in, numbers, runs};
use std::fs;
use Call::{Collect, Move, Progress, Reading, Run};

/// "lengths 0, 12,287, 12,289, 20,479, 20,481, 32,768", and others that are neither.
const OTHERS: [usize; 14] = [0, 1, 256, 8192, 12_032, 12_287, 12_289, 16_384, 20_224, 20_479, 20_481, 24_576, 32_768, 40_960];

/// A short run looks at some of many cases only.
fn step(short: usize) -> usize {
    if rounds(100) < 100 { short } else { 1 }
}

fn repeated(op: &str, n: usize) -> Plan {
    short(&vec![op; n].join("; "))
}

/// Load's number of a plan on a state of this length.
fn loads(size: Size, plan: &Plan) -> u32 {
    load_in(size, text_of(plan).as_bytes())
}

/// The call from these bytes into a buffer of these, by both engines: its number. Done, each byte of the target is looked at; refused, it
/// is as it came. The source stays, and nothing outside is touched.
fn widen(from: &[u8], to: &[u8]) -> u32 {
    let mut ends = vec![];
    for engine in engines() {
        let (mut source, mut target) = (Lent::of(from), Lent::of(to));
        let number = engine.widen(&mut source, &mut target);
        assert!(source[..] == *from, "{}: the source is another", engine.name);
        assert!(source.untouched() && target.untouched(), "{}: written outside", engine.name);
        if number == 0 {
            assert_eq!(target.len(), 20_480, "{}", engine.name);
            for (at, byte) in target.iter().enumerate() {
                let wanted = match at {
                    0..=8191 => from[at],
                    8192..=16_383 => 0,
                    _ => from[8192 + (at - 16_384)],
                };
                assert_eq!(*byte, wanted, "{}: byte {at}", engine.name);
            }
        } else {
            assert!(target[..] == *to, "{}: written on a refusal", engine.name);
        }
        ends.push(number);
    }
    assert_eq!(ends[0], ends[1], "the engines differ");
    ends[0]
}

/// Whether the bytes are a state of 12,288, by the model: then the call is done, and else it is 15. Into a target of any contents. What it
/// leaves is the same plan with the same records, in 20,480 bytes.
fn widens(from: &[u8], to: &[u8]) -> bool {
    let found = Found::read(from).filter(|_| from.len() == 12_288 && to.len() == 20_480);
    assert_eq!(widen(from, to), if found.is_some() { 0 } else { 15 });
    if let Some(found) = &found {
        assert_eq!(Found::read(&widened(from)), Some(Found { size: Size::Long, ..found.clone() }));
    }
    found.is_some()
}

// ---- the cases

#[test]
fn cases_9_1_to_9_4_the_number_of_streams() {
    assert_eq!(loads(Size::Short, &repeated("nil", 33)), 3);
    assert_eq!(loads(Size::Long, &repeated("nil", 33)), 0);
    assert_eq!(loads(Size::Long, &repeated("nil", 64)), 0);
    assert_eq!(loads(Size::Long, &repeated("nil", 65)), 3);
}

#[test]
fn cases_9_5_and_9_6_the_length_of_a_text() {
    for size in SIZES {
        assert_eq!(load_in(size, &[b'x'; 4096]), 2);
        assert_eq!(load_in(size, &[b'x'; 4097]), 1);
    }
}

#[test]
fn cases_9_7_and_9_8_64_deep() {
    let chain = |first: &str| (0..64).map(|s| if s == 0 { first.into() } else { format!("neg {}", s - 1) }).collect::<Vec<String>>().join("; ");
    assert_eq!(loads(Size::Long, &short(&chain("in"))), 0);
    assert_eq!(loads(Size::Long, &short(&chain("neg 63"))), 6);
    // each of the one behind it: the way from stream 0 is 64 long
    let back = |last: &str| (0..64).map(|s| if s == 63 { last.into() } else { format!("neg {}", s + 1) }).collect::<Vec<String>>().join("; ");
    assert_eq!(loads(Size::Long, &short(&back("in"))), 0);
    assert_eq!(loads(Size::Long, &short(&back("neg 0"))), 6);
}

/// Every call that takes a state; of widen each buffer by itself.
#[test]
fn case_9_9_other_lengths() {
    let text = text_of(&short("in; neg 0 out"));
    for length in OTHERS {
        for byte in [0, 1, 0x5A].into_iter().step_by(step(3)) {
            let before = vec![byte; length];
            for engine in engines() {
                let refused = Answer { number: 15, ..Answer::default() };
                let mut state = Lent::of(&before);
                for text in [text.as_bytes(), b"", b"plan=1\n", &[b'x'; 4097]] {
                    assert_eq!(engine.load(&mut state, text), 15, "{}: {length}", engine.name);
                }
                for call in [Reading(0, 1, 1), Progress(0, 1), Move(1), Run(5), Run(0), Collect(1)] {
                    assert_eq!(engine.call(&mut state, call), refused, "{}: {call:?}, {length}", engine.name);
                }
                for stream in [0, 1, 31, 32, 63, 64, u32::MAX] {
                    assert_eq!(engine.missing(&mut state, stream), (15, Missing::default()), "{}: {length}", engine.name);
                }
                assert!(state[..] == before[..] && state.untouched(), "{}: {length}", engine.name);
            }
            for room in [0, 171, 4096] {
                assert_eq!(texts::as_defined(&before, room).number, 15, "{length}");
            }
            assert_eq!(missing::as_defined(&before, 0).0, 15, "{length}");
            for mut board in readers(&before, &[0; BLOCK_LENGTH]) {
                for command in 1..=3 {
                    assert_eq!(board.write(16, command), 15, "{}: {length}", board.engine.name);
                    let block = Block::read(&board.block).unwrap();
                    assert_eq!((block.command, block.status, block.flags), (command, 15, REFUSED), "{}: {length}", board.engine.name);
                }
                // no command: the state is not looked at
                assert_eq!((board.write(3, 7), board.write(19, 3)), (0, 0), "{}: {length}", board.engine.name);
                assert!(board.state[..] == before[..], "{}: {length}", board.engine.name);
            }
            assert_eq!(widen(&before, &[0x77; LONG_STATE_LENGTH]), 15, "from {length}");
            assert_eq!(widen(&[0; STATE_LENGTH], &before), 15, "to {length}");
        }
    }
}

/// A state of some calls, in both lengths: with windows, and with nothing behind the records.
fn some_states() -> Vec<Vec<u8>> {
    let mut states = vec![];
    for plan in ["in; neg 0 out", "in; wsum 0 k3 out; wmin 0 k64; last 0 1", "unit out", ""] {
        let mut session = Session::load(&short(plan));
        for t in 0..9 {
            session.call(Reading(0, t, -5 - t as i64));
        }
        session.call(Run(20));
        states.push(session.state().to_vec());
    }
    states
}

#[test]
fn case_9_10_the_lengths_of_both() {
    let target = vec![0x3C; LONG_STATE_LENGTH];
    for state in some_states() {
        let long = widened(&state);
        assert_eq!(widen(&state, &target), 0);
        assert_eq!(widen(&long, &target), 15);
        assert_eq!(widen(&state, &target[..12_288]), 15);
        assert_eq!(widen(&long, &target[..12_288]), 15);
        for length in OTHERS {
            let mut other = long.clone();
            other.resize(length, 0);
            assert_eq!(widen(&other, &target), 15, "from {length}");
            assert_eq!(widen(&state, &vec![0x3C; length]), 15, "to {length}");
            assert_eq!(widen(&other, &vec![0x3C; length]), 15, "both {length}");
        }
        // contents that are no state
        for (at, byte) in [(12_287, 1), (8191, 1), (7, 1), (0, 31), (0, 255)] {
            let mut other = state.clone();
            other[at] = byte;
            assert_eq!(widen(&other, &target), 15, "byte {at} is {byte}");
        }
    }
    for byte in [1, 2, 30, 0x5A, 255] {
        assert_eq!(widen(&[byte; STATE_LENGTH], &target), 15);
    }
}

#[test]
fn case_9_11_the_windows_stand_behind_record_63() {
    let mut session = Session::load_in(Size::Short, &short("in; wsum 0 k3 out"));
    numbers(&mut session, &[(Reading(0, 1, 5), 0), (Reading(0, 2, 6), 0)]);
    runs(&mut session, 9, 2);
    let before = session.state().to_vec();
    for engine in engines() {
        let (mut from, mut to) = (Lent::of(&before), Lent::of(&[0xEE; LONG_STATE_LENGTH]));
        assert_eq!(engine.widen(&mut from, &mut to), 0, "{}", engine.name);
        assert!(from[..] == before[..], "{}", engine.name);
        assert!(to[..8192] == before[..8192] && to[8192..16_384].iter().all(|&x| x == 0), "{}", engine.name);
        assert_eq!(to[16_384..16_400], [5, 0, 0, 0, 0, 0, 0, 0, 6, 0, 0, 0, 0, 0, 0, 0], "{}", engine.name);
        assert!(to[16_400..].iter().all(|&x| x == 0), "{}", engine.name);
        // record 1: wsum of 0, an output, with two held and two kept, k 3, known to 3
        assert_eq!(to[256..280], [28, 0, 0, 1, 2, 2, 0, 0, 3, 0, 0, 0, 0, 0, 0, 0, 3, 0, 0, 0, 0, 0, 0, 0], "{}", engine.name);
        for state in [&mut to, &mut from] {
            assert_eq!(engine.call(state, Collect(1)), Answer { stamp: 1, value: 5, ..Answer::default() }, "{}", engine.name);
            assert_eq!(engine.call(state, Collect(1)), Answer { stamp: 2, value: 11, ..Answer::default() }, "{}", engine.name);
        }
        // what it keeps goes on: 5 + 6 + 9, then 6 + 9 + 1
        for (t, v, sum) in [(4, 9, 20), (5, 1, 16)] {
            assert_eq!(engine.call(&mut to, Reading(0, t, v)).number, 0, "{}", engine.name);
            assert_eq!(engine.call(&mut to, Run(9)), Answer { moves: 1, ..Answer::default() }, "{}", engine.name);
            assert_eq!(engine.call(&mut to, Collect(1)), Answer { stamp: t, value: sum, ..Answer::default() }, "{}", engine.name);
        }
        assert_eq!(to[16_384..16_408], [6, 0, 0, 0, 0, 0, 0, 0, 9, 0, 0, 0, 0, 0, 0, 0, 1, 0, 0, 0, 0, 0, 0, 0], "{}", engine.name);
        assert!(to[8192..16_384].iter().all(|&x| x == 0) && to.untouched(), "{}", engine.name);
    }
}

/// By hand: every kind of thing that a state keeps, and every call after it.
#[test]
fn case_9_12_the_same_calls_on_both() {
    // 2: quotients; 3: the reading before; 4 to 6: a timer that sets itself again; 7: the sum of both latest values; 8: a window
    let plan = "in; in; div 0 1 out; last 0 1 out; delay 6 0 out; set 4 k7; merge 5 0; sadd 0 1 out; wmax 0 k2 out";
    let mut session = Session::load_in(Size::Short, &short(plan));
    numbers(&mut session, &[(Reading(0, 1, 6), 0), (Reading(1, 1, 0), 0), (Reading(0, 2, i64::MIN), 0), (Reading(1, 2, -1), 0), (Reading(0, 4, 8), 0), (Run(11), 0)]);
    let mut session = session.widened();
    numbers(
        &mut session,
        &[
            (Reading(1, 4, 2), 0), (Reading(1, 4, 2), 8), (Reading(2, 4, 2), 7), (Progress(0, HORIZON + 1), 10), (Progress(0, 3), 8), (Move(0), 11), (Move(9), 11),
            (Move(33), 11), (Collect(0), 13), (Collect(40), 13), (Move(2), 0), (Move(2), 12), (Run(3), 0), (Run(99), 0),
        ],
    );
    // 6 by 0 and the least by −1 are missing, before the copy; 8 by 2 came in after it
    host::worked::missing(&mut session, 2, 1, 1);
    collected(&mut session, 2, &[(4, 4)]);
    // the reading before 2 is 6, before 4 the least value
    collected(&mut session, 3, &[(2, 6), (4, i64::MIN)]);
    // at 2 the least value − 1 is out of range; 4 has 8 + 2
    collected(&mut session, 7, &[(1, 6), (4, 10)]);
    host::worked::missing(&mut session, 7, 1, 0);
    collected(&mut session, 8, &[(1, 6), (2, 6), (4, 8)]);
    // set at 4 to ring 8 later
    collected(&mut session, 4, &[]);
    numbers(&mut session, &[(Progress(0, 30), 0), (Progress(1, 30), 0), (Run(99), 0)]);
    // then every 7
    collected(&mut session, 4, &[(12, 0), (19, 0), (26, 0)]);
    assert_eq!(session.command(Reading(0, 30, 5)), 0);
    assert_eq!(session.command(Run(64)), 0);
    assert_eq!((session.command(Collect(8)), session.command(Collect(8))), (0, 14));
    assert_eq!(session.text_back(4096).length as usize, text_of(&short(plan)).len());
    as_defined(&mut session);
    // the longer one takes more streams
    session.load_refused(text_of(&repeated("nil", 33)).as_bytes(), 3);
    session.load_refused(text_of(&repeated("nil", 64)).as_bytes(), 3);
    session.load_refused(text_of(&repeated("nil", 65)).as_bytes(), 3);
    let session = session.load_both(&short("in; neg 0 out"));
    holds(&session, 512, &[0; STATE_LENGTH - 512]);
}

// ---- lengths as 64 bits

/// Nothing is read or written through the pointers where a length is none of the two, be it that its lower bits are.
#[test]
fn lengths_above_32_bits() {
    let (short, long) = (12_288u64, 20_480u64);
    let near = [0, 1, short - 1, short + 1, long - 1, long + 1, 32_768, 1 << 32, u64::MAX];
    let above: Vec<u64> = [32, 33, 56, 63].into_iter().flat_map(|bit| [(1 << bit) + short, (1 << bit) + long]).collect();
    let others = || near.into_iter().chain(above.iter().copied()).chain([short << 32, long << 32, long << 8]);
    let state = some_states().swap_remove(0);
    for engine in engines() {
        // from: no byte behind either pointer
        let (mut source, mut target) = (Lent::of(&[]), Lent::of(&[]));
        for from in others().chain([long]) {
            for to in others().chain([short, long]) {
                assert_eq!(engine.widen_claiming(&mut source, &mut target, (from, to)), 15, "{}: from {from} to {to}", engine.name);
            }
        }
        // to: the source is one
        let mut source = Lent::of(&state);
        for to in others().chain([short]) {
            assert_eq!(engine.widen_claiming(&mut source, &mut target, (short, to)), 15, "{}: to {to}", engine.name);
        }
        assert!(source[..] == state[..] && source.untouched() && target.untouched(), "{}", engine.name);
        // the other calls of a state that is said to be longer by 2^32
        let mut none = Lent::of(&[]);
        for length in above.iter().copied() {
            assert_eq!(engine.missing_claiming(&mut none, length, 0), (15, Missing::default()), "{}: {length}", engine.name);
            assert_eq!(engine.plan_text_claiming(&mut none, &mut Lent::of(&[]), (length, 0)), (15, 0), "{}: {length}", engine.name);
            assert_eq!(engine.write_claiming(&mut none, &mut Lent::of(&[0; BLOCK_LENGTH]), (length, 24), 16, 3), 15, "{}: {length}", engine.name);
        }
    }
}

/// Every length near the two, of either buffer, with contents that would be a state.
#[test]
fn every_length_near_the_right_ones() {
    let state = some_states().swap_remove(1);
    let long = widened(&state);
    for length in (12_288 - 40..12_288 + 40).chain(20_480 - 40..20_480 + 40).step_by(step(7)) {
        let mut from = state.clone();
        from.resize(length, 0);
        assert_eq!(widen(&from, &vec![0x5A; 20_480]), if length == 12_288 { 0 } else { 15 }, "from {length}");
        assert_eq!(widen(&state, &vec![0x5A; length]), if length == 20_480 { 0 } else { 15 }, "to {length}");
        let mut from = long.clone();
        from.resize(length, 0);
        assert_eq!(widen(&from, &vec![0x5A; length]), 15, "both {length}");
    }
}

/// Both buffers at every alignment, between bytes that stay.
#[test]
fn at_every_alignment() {
    for state in some_states() {
        let wanted = widened(&state);
        for (engine, shift) in engines().into_iter().flat_map(|engine| (0..8).map(move |shift| (engine, shift))) {
            let (mut around, mut target) = (vec![0x77; STATE_LENGTH + 64], vec![0x77; LONG_STATE_LENGTH + 64]);
            around[16 + shift..][..STATE_LENGTH].copy_from_slice(&state);
            let to = &mut target[16 + 7 - shift..][..LONG_STATE_LENGTH];
            assert_eq!(engine.widen(&mut around[16 + shift..][..STATE_LENGTH], to), 0, "{}", engine.name);
            assert!(*to == wanted[..] && around[16 + shift..][..STATE_LENGTH] == state[..], "{}", engine.name);
            let outside = |around: &[u8], from: usize, length: usize| around[..from].iter().chain(&around[from + length..]).all(|&x| x == 0x77);
            assert!(outside(&around, 16 + shift, STATE_LENGTH) && outside(&target, 16 + 7 - shift, LONG_STATE_LENGTH), "{}", engine.name);
        }
    }
}

// ---- the contents

/// "A state of zeros" widens to zeros, over anything; and one byte set in it is mostly no state.
#[test]
fn zeros() {
    let mut bytes = vec![0; STATE_LENGTH];
    for target in [vec![0; LONG_STATE_LENGTH], vec![0xFF; LONG_STATE_LENGTH]] {
        assert!(widens(&bytes, &target));
    }
    assert!(widened(&bytes).iter().all(|&x| x == 0) && Found::read(&vec![0; LONG_STATE_LENGTH]) == Some(Found { size: Size::Long, ..Found::default() }));
    let target = vec![0xA7; LONG_STATE_LENGTH];
    for at in (1..STATE_LENGTH).step_by(step(40) * 7).chain([255, 256, 8191, 8192, 8193, 12_287]) {
        bytes[at] = 1 << (at % 8);
        assert!(!widens(&bytes, &target), "byte {at}");
        bytes[at] = 0;
    }
    for byte in 1..=255 {
        bytes[0] = byte;
        // in, nil, unit
        assert_eq!(widens(&bytes, &target), byte < 4, "{byte}");
    }
}

/// Eight windows of 64 full ones: all 4,096 bytes behind the records are used, each of another value.
#[test]
fn eight_full_windows() {
    let plan = format!("in; {}", ["wsum 0 k64", "wmin 0 k64", "wmax 0 k64", "wsum 0 k63"].repeat(2).join("; "));
    let mut session = Session::load_in(Size::Short, &short(&plan));
    for t in 0..80 {
        numbers(&mut session, &[(Reading(0, t, 0x0101_0101_0101_0101 * (t as i64 % 100 + 1)), 0), (Run(99), 0)]);
    }
    let state = session.state();
    assert!(state[8192..12_287 - 512].iter().filter(|&&x| x == 0).count() == 8 && state[12_287 - 8] != 0 && state[12_287] == 0);
    assert!(widens(state, &[0; LONG_STATE_LENGTH]));
    let mut session = session.widened();
    for t in 80..200 {
        numbers(&mut session, &[(Reading(0, t, -(t as i64)), 0), (Run(99), 0)]);
    }
    // in the longer state by the same rule: window j at 16,384 + 512 j
    for (rank, s) in windows(&session.plan).into_iter().enumerate() {
        assert_eq!((layout::window_at(session.state(), s), layout::window_at(&session.twins[0], s)), (8192 + 512 * rank, 16_384 + 512 * rank));
        let width = if rank % 4 == 3 { 63 } else { 64 };
        let latest: Vec<i64> = (200 - width..200).map(|t| -t).collect();
        assert_eq!((layout::window(session.state(), s), layout::window(&session.twins[1], s)), (latest.clone(), latest));
    }
    as_defined(&mut session);
}

/// What the target held before.
fn any_target(random: &mut Random) -> Vec<u8> {
    match random.below(5) {
        0 => vec![0; LONG_STATE_LENGTH],
        1 => vec![0xFF; LONG_STATE_LENGTH],
        // a state of another plan
        2 => {
            let plan = plan(random, 64);
            let records = plan.iter().map(|stream| record(random, stream)).collect();
            Found { plan, records, size: Size::Long, ..Found::default() }.bytes()
        }
        _ => random.bytes(LONG_STATE_LENGTH),
    }
}

/// States that no call leaves: any bounds, held events, kept values, windows and counts; and the same damaged in a byte or some.
#[test]
fn foreign_and_damaged_states() {
    let (mut foreign, mut still, mut none) = (0u64, 0u64, 0u64);
    let all = rounds(1500);
    for round in 0..all {
        let mut random = Random::of(90, round);
        let plan = plan(&mut random, 32);
        let records = plan.iter().map(|stream| record(&mut random, stream)).collect();
        let mut bytes = Found { plan: plan.clone(), records, ..Found::default() }.bytes();
        let target = any_target(&mut random);
        assert!(widens(&bytes, &target), "seed {} round {round}: {:?}", seed(), text_of(&plan));
        foreign += 1;
        for _ in 0..3 {
            let record = 256 * random.below(plan.len() as u64 + 1).min(31) as usize;
            let at = match random.below(10) {
                0..=5 => record + random.below(64) as usize,
                6 => record + random.below(256) as usize,
                7..=8 => 8192 + random.below(4096) as usize,
                _ => random.below(STATE_LENGTH as u64) as usize,
            };
            let before = std::mem::replace(&mut bytes[at], if random.chance(50) { random.below(40) as u8 } else { random.next() as u8 });
            let is = widens(&bytes, &target);
            (still, none) = (still + is as u64, none + !is as u64);
            bytes[at] = before;
        }
    }
    println!("seed {}: {foreign} states that no call leaves widened, damaged {still} more, {none} refused", seed());
    assert!(all < 1000 || (still > all / 8 && none > all / 3), "{still} {none}");
}

/// 20,480 bytes of any kind are no source, be they a state.
#[test]
fn a_longer_state_is_no_source() {
    for round in 0..rounds(100) {
        let mut random = Random::of(91, round);
        let from = any_target(&mut random);
        assert!(!widens(&from, &any_target(&mut random)));
    }
}

// ---- after it

/// Any list of calls, then the copy, then any list on both: the same numbers and results, and after each call the longer state is the
/// shorter one widened. Loads in between; and now and then the copy is made anew.
#[test]
fn random_lists_before_and_after() {
    // acts before and after, done after; plans with windows, with counts; loads taken by both, by the longer alone, refused by both
    let (mut before, mut after, mut done, mut windowed, mut counted, mut loaded) = (0u64, 0u64, 0u64, 0u64, 0u64, [0u64; 3]);
    let (mut texts, mut asked) = ([0u64; 2], [0u64; 2]);
    let all = rounds(1500);
    for round in 0..all {
        let mut random = Random::of(92, round);
        let plan = plan(&mut random, 32);
        let mut session = Session::load_in(Size::Short, &plan);
        for _ in 0..random.below(80) {
            for act in any_acts(&mut random, &session) {
                session.act(act);
                before += 1;
            }
        }
        let target = any_target(&mut random);
        assert!(widens(session.state(), &target), "{}", session.story());
        windowed += session.state()[8192..].iter().any(|&x| x != 0) as u64;
        counted += (0..plan.len()).any(|s| layout::missing(session.state(), s) != Missing::default()) as u64;
        session = session.widened();
        for _ in 0..60 {
            match random.below(40) {
                0 => {
                    let next = host::random::plan(&mut random, 32);
                    session = session.load_both(&next);
                    loaded[0] += 1;
                }
                1 => {
                    let wide = plan_of(&mut random, WIDE);
                    if !wide.is_empty() {
                        session.load_refused(text_of(&wide).as_bytes(), 3);
                        loaded[1] += 1;
                    }
                }
                2 => {
                    let (text, number) = random.pick(&REFUSED_BY_BOTH);
                    session.load_refused(text, number);
                    loaded[2] += 1;
                }
                3 => {
                    let room = random.below(2 * text_of(&session.plan).len() as u64 + 1) as usize;
                    texts[(session.text_back(room).number != 0) as usize] += 1;
                }
                4 => {
                    let stream = random.below(session.plan.len() as u64 + 2) as u32;
                    asked[(session.missing(stream).0 != 0) as usize] += 1;
                }
                5 => session = session.widened(),
                _ => {
                    for act in any_acts(&mut random, &session) {
                        done += (session.act(act).number == 0) as u64;
                        after += 1;
                    }
                }
            }
        }
        session.check_beginning();
        session.check_missing();
        if session.rest(2_000) {
            session.check_beginning();
            session.check_rest();
        }
    }
    println!("seed {}: {all} lists, {before} acts before the copy and {after} after it, {done} of them done, windows that keep something {windowed}, counts {counted}", seed());
    println!("seed {}: loads taken by both {}, by the longer alone {}, by none {}; texts back and refused {texts:?}; counts read and refused {asked:?}", seed(), loaded[0], loaded[1], loaded[2]);
    assert!(done * 4 > after && (all < 1000 || (windowed > all / 15 && counted > all / 25 && loaded.iter().chain(&texts).chain(&asked).all(|&count| count > all / 10))));
}

const REFUSED_BY_BOTH: [(&[u8], u32); 6] = [
    (&[b'x'; 4097], 1), (&[b'x'; 4096], 2), (b"plan=1\nstreams=65\n", 3), (b"plan=1\nstreams=0\n", 3), (b"plan=1\nstreams=1\nop=no\na=0\nb=0\nk=0\nout=0\n", 4),
    (b"plan=1\nstreams=1\nop=neg\na=0\nb=0\nk=0\nout=0\n", 6),
];

/// The source goes on with its own list: what is done to the one is not seen in the other.
#[test]
fn both_go_on_apart() {
    let mut session = Session::load_in(Size::Short, &short("in; wsum 0 k2 out"));
    numbers(&mut session, &[(Reading(0, 1, 5), 0), (Run(9), 0)]);
    for engine in engines() {
        let (mut from, mut to) = (Lent::of(session.state()), Lent::of(&[0; LONG_STATE_LENGTH]));
        assert_eq!(engine.widen(&mut from, &mut to), 0);
        assert_eq!(engine.call(&mut to, Reading(0, 2, 7)).number, 0);
        assert_eq!(engine.call(&mut to, Run(9)).moves, 1);
        assert_eq!(engine.call(&mut from, Reading(0, 3, 70)).number, 0);
        assert_eq!(engine.call(&mut from, Run(9)).moves, 1);
        let event = |stamp, value| Answer { stamp, value, ..Answer::default() };
        assert_eq!([engine.call(&mut to, Collect(1)), engine.call(&mut to, Collect(1))], [event(1, 5), event(2, 12)], "{}", engine.name);
        assert_eq!([engine.call(&mut from, Collect(1)), engine.call(&mut from, Collect(1))], [event(1, 5), event(3, 75)], "{}", engine.name);
        // a second copy, over the first: what that had is gone
        assert_eq!(engine.widen(&mut from, &mut to), 0);
        assert!(to[..] == widened(&from)[..], "{}", engine.name);
    }
}

/// What the longer state held was widened into it: a load of 64 streams leaves nothing of that.
#[test]
fn the_longer_state_takes_64_streams_over_it() {
    let chain: Vec<String> = (0..64).map(|s| if s == 0 { "in".into() } else { format!("neg {}{}", s - 1, if s == 63 { " out" } else { "" }) }).collect();
    for state in some_states() {
        let states = engines().map(|engine| {
            let (mut from, mut to) = (Lent::of(&state), Lent::of(&[0xAA; LONG_STATE_LENGTH]));
            assert_eq!(engine.widen(&mut from, &mut to), 0, "{}", engine.name);
            to
        });
        let mut session = Session::load_over(&short(&chain.join("; ")), states.into());
        numbers(&mut session, &[(Reading(0, 3, 7), 0), (Reading(0, 4, i64::MIN), 0), (Reading(0, 5, 1), 0)]);
        // 63 of 7 and 63 of 1; the first negative of the least value is missing
        runs(&mut session, 999, 126);
        collected(&mut session, 63, &[(3, -7), (5, -1)]);
        host::worked::missing(&mut session, 1, 1, 0);
        as_defined(&mut session);
    }
}

// ---- every saved state

/// Each state saved by an earlier version is widened, and goes on there as it does where it was, in any calls.
#[test]
fn every_saved_state() {
    let folder = std::env::var("TESSLA_STATES").expect("start the tests by tests/run");
    let mut files: Vec<_> = fs::read_dir(folder).unwrap().map(|entry| entry.unwrap().path()).collect();
    files.sort();
    let (mut windowed, mut counted, mut kept) = (0, 0, 0);
    for path in &files {
        let saved = read(&fs::read_to_string(path).unwrap());
        let mut random = Random::of(93, saved.plan.len() as u64);
        assert!(widens(&saved.bytes, &any_target(&mut random)), "{}", path.display());
        let found = Found::read(&saved.bytes).expect("a state");
        windowed += found.records.iter().any(|record| !record.window.is_empty()) as u64;
        counted += found.records.iter().any(|record| record.missing != Missing::default()) as u64;
        kept += found.records.iter().any(|record| record.value.is_some() || record.prior.is_some()) as u64;
        for round in 0..rounds(40) {
            let mut random = Random::of(94, round);
            // the longer one by itself, against the model
            let long = engines().map(|engine| {
                let (mut from, mut to) = (Lent::of(&saved.bytes), Lent::of(&any_target(&mut random)));
                assert_eq!(engine.widen(&mut from, &mut to), 0, "{}: {}", engine.name, path.display());
                to
            });
            let mut session = Session::begin(&saved.plan, long.into());
            for s in 0..saved.plan.len() {
                session.known[s] = layout::bound(&saved.bytes, s);
            }
            let mut model = Board::new(Found { size: Size::Long, ..found.clone() });
            for _ in 0..40 {
                for act in any_acts(&mut random, &session) {
                    let answer = session.act(act);
                    assert_eq!((answer, session.block()), (model.act(act), &model.block[..]), "{}: {act:?}\n{}", path.display(), session.story());
                    assert!(session.state() == model.calls.bytes(), "{}: {act:?}\n{}", path.display(), session.story());
                }
            }
        }
    }
    assert!(files.len() >= 25 && windowed >= 3 && counted >= 1 && kept >= 2, "{} {windowed} {counted} {kept}", files.len());
}

// ---- the cycle rule in a state of the longer length

/// A ring of 33 to 64 streams is no state, one that a last or a delay opens is, and a chain is; by every call.
#[test]
fn rings_in_a_state() {
    let neg = |a: usize| Stream { a, ..Stream::new(Op::Neg) };
    for n in (33..=64).step_by(step(5)) {
        let ring: Plan = (0..n).map(|s| neg((s + 1) % n)).collect();
        let chain: Plan = (0..n).map(|s| if s + 1 == n { Stream::new(Op::In) } else { neg(s + 1) }).collect();
        let mut opened = ring.clone();
        (opened[n / 2], opened[n - 1]) = (Stream { op: Op::Last, b: n - 1, ..ring[n / 2] }, Stream::new(Op::Unit));
        opened[n - 2].a = 0;
        for (plan, is) in [(ring, false), (chain, true), (opened, true)] {
            assert_eq!(keeps_cycle_rule(&plan), is);
            let records = vec![Record::default(); n];
            let bytes = Found { plan, records, size: Size::Long, ..Found::default() }.bytes();
            assert_eq!(Found::read(&bytes).is_some(), is);
            for engine in engines() {
                for (call, number) in [(Reading(99, 1, 1), 7), (Progress(99, 1), 7), (Move(99), 11), (Run(0), 0), (Collect(99), 13)] {
                    let mut state = Lent::of(&bytes);
                    assert_eq!(engine.call(&mut state, call).number, if is { number } else { 15 }, "{}: {call:?} of {n}", engine.name);
                    assert!(state[..] == bytes[..] && state.untouched());
                }
            }
            assert_eq!(missing::as_defined(&bytes, n as u32).0, if is { 11 } else { 15 });
            assert_eq!(texts::as_defined(&bytes, 4096).number, if is { 0 } else { 15 });
        }
    }
}

/// A record behind the shorter state's last, and the byte that ends the plan, wherever it is: 1 to 64 streams.
#[test]
fn every_number_of_streams() {
    for n in (0..=64usize).step_by(step(16)) {
        let plan = repeated("in; neg 0 out", n.div_ceil(2))[..n].to_vec();
        let mut session = Session::load(&plan);
        let streams = (0..80).filter(|&s| session.missing(s).0 == 0).count();
        assert_eq!(streams, n);
        // a reading of input 0 reaches the last stream, if that is an equation
        if n > 1 {
            numbers(&mut session, &[(Reading(0, 3, 7), 0)]);
            runs(&mut session, 99, n as u32 / 2);
            let last = 2 * (n as u32 / 2) - 1;
            collected(&mut session, last, &[(3, -7)]);
            assert_eq!(layout::bound(session.state(), last as usize), 4);
        }
        as_defined(&mut session);
        // a byte behind the last stream's record makes it none, or another plan
        let bytes = session.state().to_vec();
        for at in [256 * n + 1, 256 * n + 255, bytes.len() - 1].into_iter().filter(|&at| at < bytes.len()) {
            let mut other = bytes.clone();
            other[at] = 1;
            assert!(Found::read(&other).is_none());
            for engine in engines() {
                assert_eq!(engine.call(&mut Lent::of(&other), Run(0)).number, 15, "{}: byte {at} of {n} streams", engine.name);
            }
        }
    }
}

/// Behind the last stream's record every byte up to the windows is 0, and behind the fill of each window: any other is no state.
#[test]
fn bytes_between_the_records_and_the_windows() {
    for n in [2, 31, 32, 33, 63, 64].into_iter().step_by(step(5)) {
        // the second stream is a window, and so is the last
        let stream = |s: usize| match s {
            0 => Stream::new(Op::In),
            _ if s == 1 || s + 1 == n => Stream { k: 3, ..Stream::new(Op::Wsum) },
            _ => Stream::new(Op::Neg),
        };
        let plan: Plan = (0..n).map(stream).collect();
        let mut session = Session::load_in(Size::Long, &plan);
        numbers(&mut session, &[(Reading(0, 1, -1), 0), (Reading(0, 2, -1), 0), (Run(999), 0)]);
        let good = session.state().to_vec();
        assert!(Found::read(&good).is_some());
        let count = windows(&plan).len();
        assert_eq!(count, if n == 2 { 1 } else { 2 });
        for rank in 0..count {
            holds(&session, 16_384 + 512 * rank, &[[255; 16], [0; 16]].concat());
        }
        let behind = (256 * n..16_384).step_by(step(60) * 5).chain([16_383, 16_384 + 16, 16_384 + 511, 16_384 + 512 * count, 20_479]);
        for at in behind.chain([8191, 8192, 12_287, 12_288]).filter(|&at| at >= 256 * n && (at < 16_384 || good[at] == 0)) {
            let mut bytes = good.clone();
            // where a record begins an input would be one stream more
            bytes[at] = if at == 256 * n { 255 } else { 1 << (at % 8) };
            assert!(Found::read(&bytes).is_none(), "byte {at} of {n} streams");
            for engine in engines() {
                assert_eq!(engine.call(&mut Lent::of(&bytes), Run(0)).number, 15, "{}: byte {at} of {n} streams", engine.name);
            }
        }
    }
}

/// The block of registers on the longer state: a command on the last of 64 streams, and a stream that is only a part of another.
#[test]
fn registers_on_64_streams() {
    let plan: Plan = (0..64).map(|s| if s == 63 { Stream::new(Op::In) } else { Stream { a: 63, out: true, ..Stream::new(Op::Neg) } }).collect();
    let mut session = Session::load(&plan);
    assert_eq!((session.command(Reading(63, 5, 9)), session.command(Reading(64, 6, 9)), session.command(Reading(62, 6, 9))), (0, 7, 7));
    // 64 moves are enough for 63 equations
    assert_eq!(session.command(Run(64)), 0);
    runs(&mut session, 9, 0);
    for s in 0..63 {
        assert_eq!(session.write(18, WAITING), 0);
        assert_eq!(session.command(Collect(s)), 0);
        let block = Block::read(session.block()).unwrap();
        assert_eq!((block.reply, block.value), (5, -9), "stream {s}");
        // the outputs behind it wait still
        assert_eq!(block.flags & WAITING != 0, s < 62, "stream {s}");
    }
    assert_eq!((session.command(Collect(62)), session.command(Collect(63)), session.command(Collect(64 + 62))), (14, 13, 13));
    let acts = [Act::Write(0, 63), Act::Write(16, 2)];
    assert_eq!(acts.map(|act| session.act(act).number), [0, 13]);
    as_defined(&mut session);
}
