//! Document 02's Q-4, the reader board's registers: cases worked out by hand through the exported calls, and each point of the
//! paragraph by itself. Both engines make every write, on buffers of exactly the lent length.

use host::buffer::Lent;
use host::engine::{engines, Answer, Call, BLOCK_LENGTH, STATE_LENGTH};
use host::found::Found;
use host::history::Session;
use host::layout::{widened, SIZES};
use host::plan::{short, text_of};
use host::random::{rounds, Random};
use host::registers::{readers, Block, REFUSED, WAITING};
use Call::{Collect, Progress, Reading, Run};

const COUNT: &str = "in; unit; set 1 k0; last 5 0; plus 3 k1; merge 4 2 out";

fn hex(text: &str) -> Vec<u8> {
    text.split_whitespace().map(|byte| u8::from_str_radix(byte, 16).unwrap()).collect()
}

const ZEROS: [u8; BLOCK_LENGTH] = [0; BLOCK_LENGTH];

/// A session on a plan, with this block.
fn with_block(plan: &str, block: &[u8]) -> Session {
    let mut session = Session::load(&short(plan));
    session.set_block(block);
    session
}

/// Bytes written one after the other from a place on, each 0.
fn put(session: &mut Session, at: u32, bytes: &[u8]) {
    for (at, byte) in (at..).zip(bytes) {
        assert_eq!(session.write(at, *byte), 0, "{byte} at {at}");
    }
}

/// A write, its number, and then (place, byte) of the block.
fn wrote(session: &mut Session, at: u32, byte: u8, number: u32, then: &[(usize, u8)]) {
    assert_eq!(session.write(at, byte), number, "{byte} at {at}");
    for (place, wanted) in then {
        assert_eq!(session.block()[*place], *wanted, "byte {place} after {byte} at {at}");
    }
}

/// Status and flags.
fn ended(session: &Session) -> (u8, u8) {
    let block = Block::read(session.block()).unwrap();
    (block.status, block.flags)
}

/// A write to these buffers, by both engines: the number and the block that it leaves. The state stays.
fn written(state: &[u8], block: &[u8], at: u32, byte: u8) -> (u32, Vec<u8>) {
    let mut ends = readers(state, block).into_iter().map(|mut board| {
        let number = board.write(at, byte);
        assert!(board.state[..] == *state, "{}: the state is another", board.engine.name);
        (number, board.block.to_vec())
    });
    let (first, second) = (ends.next().unwrap(), ends.next().unwrap());
    assert_eq!(first, second, "the engines differ: {byte} at {at}");
    first
}

/// The block with some bytes set.
fn but(block: &[u8], bytes: &[(usize, u8)]) -> Vec<u8> {
    let mut block = block.to_vec();
    for (at, byte) in bytes {
        block[*at] = *byte;
    }
    block
}

/// A state of the plan `in; neg 0 out` in which an output waits, and one in which none does.
fn waiting() -> Vec<u8> {
    let mut session = Session::load(&short("in; neg 0 out"));
    session.call(Reading(0, 3, 7));
    session.call(Run(9));
    session.state().to_vec()
}

fn idle() -> Vec<u8> {
    Session::load(&short("in; neg 0 out")).state().to_vec()
}

/// Buffers that number 15 refuses: wrong lengths, and contents that are no state, with an output that would wait among them.
fn no_states() -> Vec<Vec<u8>> {
    let (good, mut last, mut first) = (waiting(), waiting(), waiting());
    last[STATE_LENGTH - 1] = 1;
    first[0] = 0;
    let longer = [&good[..], &[0]].concat();
    // and of the longer length
    let long = widened(&good);
    let (mut between, cut, more) = (long.clone(), long[..long.len() - 1].to_vec(), [&long[..], &[0]].concat());
    between[8192] = 1;
    vec![
        vec![], good[..1].to_vec(), good[..STATE_LENGTH - 1].to_vec(), longer, good[..8192].to_vec(), last, first, vec![0xFF; STATE_LENGTH], vec![0; 256], between, cut, more,
        vec![0xFF; long.len()],
    ]
}

/// Blocks of zeros and of other contents.
fn blocks() -> Vec<Vec<u8>> {
    let mut random = Random::of(40, 0);
    let mut blocks = vec![ZEROS.to_vec(), vec![0xFF; BLOCK_LENGTH], (0..BLOCK_LENGTH as u8).collect()];
    blocks.extend((0..9).map(|_| random.bytes(BLOCK_LENGTH)));
    blocks
}

// ---- the cases

#[test]
fn case_4_1_offered_run_and_collected() {
    let mut session = with_block(COUNT, &ZEROS);
    put(&mut session, 4, &[3, 0, 0, 0]);
    put(&mut session, 8, &[7, 0, 0, 0, 0, 0, 0, 0]);
    wrote(&mut session, 16, 1, 0, &[(17, 0), (18, 0)]);
    wrote(&mut session, 16, 3, 0, &[(18, 2)]);
    wrote(&mut session, 0, 5, 0, &[]);
    wrote(&mut session, 16, 2, 0, &[]);
    assert_eq!(session.block(), hex("05 00 00 00 03 00 00 00 00 00 00 00 00 00 00 00 02 00 02 00 00 00 00 00"));
    wrote(&mut session, 16, 2, 0, &[]);
    assert_eq!(session.block(), hex("05 00 00 00 03 00 00 00 01 00 00 00 00 00 00 00 02 00 02 00 03 00 00 00"));
    assert_eq!((&session.accepted[0].iter().collect::<Vec<_>>()[..], &session.handed[5][..]), (&[(&3, &7)][..], &[(0, 0), (3, 1)][..]));
    assert!(session.rest(100) && session.check_beginning() && session.check_rest());
}

#[test]
fn case_4_2_a_refused_collect_leaves_value_and_reply_stamp() {
    let mut session = with_block(COUNT, &hex("00 00 00 00 00 00 00 00 09 09 09 09 09 09 09 09 00 00 00 00 08 08 08 08"));
    wrote(&mut session, 0, 5, 0, &[]);
    wrote(&mut session, 16, 2, 14, &[]);
    assert_eq!(session.block(), hex("05 00 00 00 00 00 00 00 09 09 09 09 09 09 09 09 02 0e 01 00 08 08 08 08"));
    // and so of an output that is none
    wrote(&mut session, 0, 4, 0, &[]);
    wrote(&mut session, 16, 2, 13, &[]);
    assert_eq!(session.block(), hex("04 00 00 00 00 00 00 00 09 09 09 09 09 09 09 09 02 0d 01 00 08 08 08 08"));
}

#[test]
fn case_4_3_no_command() {
    let mut session = with_block(COUNT, &but(&ZEROS, &[(16, 2)]));
    wrote(&mut session, 16, 0, 17, &[(16, 2), (17, 17), (18, 1)]);
    wrote(&mut session, 16, 4, 17, &[]);
    wrote(&mut session, 16, 255, 17, &[(16, 2)]);
}

#[test]
fn case_4_4_places_that_are_refused() {
    let mut session = with_block(COUNT, &ZEROS);
    for (at, byte) in [(17, 0), (20, 1), (23, 1), (24, 1), (u32::MAX, 1)] {
        wrote(&mut session, at, byte, 17, &[]);
        assert_eq!(session.block(), hex("00 00 00 00 00 00 00 00 00 00 00 00 00 00 00 00 00 11 01 00 00 00 00 00"), "{at}");
    }
}

#[test]
fn case_4_5_flags_are_cleared_by_a_1_and_the_mask_takes_all() {
    let mut session = with_block(COUNT, &but(&ZEROS, &[(18, 0xFF)]));
    wrote(&mut session, 19, 255, 0, &[]);
    wrote(&mut session, 18, 255, 0, &[]);
    for engine in engines() {
        assert_eq!(engine.line(session.block()), (0, 0), "{}", engine.name);
    }
    assert_eq!((session.block()[18], session.block()[19]), (252, 255));
}

#[test]
fn case_4_6_a_buffer_that_is_no_state() {
    for state in no_states() {
        for mut board in readers(&state, &ZEROS) {
            let name = board.engine.name;
            assert_eq!((board.write(5, 7), board.write(19, 3), board.write(16, 1)), (0, 0, 15), "{name}: {}", state.len());
            assert_eq!(board.block[..], hex("00 00 00 00 00 07 00 00 00 00 00 00 00 00 00 00 01 0f 01 03 00 00 00 00"), "{name}");
            assert_eq!(board.engine.line(&board.block), (0, 1), "{name}");
            assert_eq!((board.write(16, 9), board.block[16], board.block[17]), (17, 1, 17), "{name}");
            assert_eq!((board.write(16, 3), board.block[16], board.block[17], board.block[18]), (15, 3, 15, 1), "{name}");
            assert_eq!((board.write(16, 2), board.block[16], board.block[17], board.block[18]), (15, 2, 15, 1), "{name}");
            assert!(board.state[..] == state[..], "{name}");
        }
    }
}

#[test]
fn case_4_7_both_flags_stay_until_a_1_is_written() {
    let mut session = with_block(COUNT, &ZEROS);
    session.call(Reading(0, 3, 1));
    session.call(Run(99));
    wrote(&mut session, 0, 9, 0, &[]);
    wrote(&mut session, 16, 1, 7, &[(17, 7), (18, 3)]);
    wrote(&mut session, 0, 0, 0, &[]);
    wrote(&mut session, 16, 3, 0, &[(17, 0), (18, 3)]);
    wrote(&mut session, 18, 1, 0, &[(18, 2)]);
}

#[test]
fn case_4_8_blocks_of_other_lengths() {
    let state = waiting();
    for length in (0..BLOCK_LENGTH).chain(BLOCK_LENGTH + 1..40).chain([48, 255, 256, 280, 4096, STATE_LENGTH]) {
        let block = vec![0x5A; length];
        for (at, byte) in [(0, 1), (16, 1), (16, 2), (16, 3), (18, 255), (19, 3), (17, 0), (99, 1), (16, 9), (u32::MAX, 1)] {
            assert_eq!(written(&state, &block, at, byte), (17, block.clone()), "{length}");
        }
        for engine in engines() {
            let block = Lent::of(&vec![0xFF; length]);
            assert_eq!(engine.line(&block), (17, 0), "{}: {length}", engine.name);
            assert!(block.untouched());
        }
    }
}

#[test]
fn case_4_9_the_value_minus_1() {
    let mut session = with_block("in; neg 0 out", &ZEROS);
    put(&mut session, 8, &[255; 8]);
    wrote(&mut session, 16, 1, 0, &[]);
    wrote(&mut session, 16, 3, 0, &[]);
    wrote(&mut session, 0, 1, 0, &[]);
    wrote(&mut session, 16, 2, 0, &[]);
    assert_eq!(session.block(), hex("01 00 00 00 00 00 00 00 01 00 00 00 00 00 00 00 02 00 02 00 00 00 00 00"));
}

// ---- plain writes

/// Places 0 to 15 and 19 take every byte, whatever the state, and change nothing else: neither status nor flags.
#[test]
fn a_plain_write_stores_its_byte_alone() {
    let mut states = no_states();
    states.extend([waiting(), idle(), vec![0; STATE_LENGTH]]);
    for state in &states {
        for block in blocks() {
            for mut board in readers(state, &block) {
                let mut wanted = block.clone();
                for at in (0..16).chain([19]) {
                    for byte in [0, 1, 2, 3, 4, 17, 127, 128, 255] {
                        wanted[at] = byte;
                        assert_eq!((board.write(at as u32, byte), &board.block[..]), (0, &wanted[..]), "{}: {byte} at {at}", board.engine.name);
                    }
                }
                assert!(board.state[..] == state[..]);
            }
        }
    }
}

/// The status stays after a plain write, whatever it is, and after a write to the flags.
#[test]
fn status_stays_where_nothing_ends() {
    for status in 0..=255 {
        let block = but(&ZEROS, &[(17, status), (18, 3)]);
        for mut board in readers(&[], &block) {
            for at in (0..16).chain([18, 19]) {
                assert_eq!((board.write(at, 1), board.block[17]), (0, status), "{}: {at}", board.engine.name);
            }
            assert_eq!(board.block[18], 2, "only the 1 that was written");
        }
    }
}

/// The mask takes all eight bits.
#[test]
fn every_mask() {
    for mut board in readers(&[], &ZEROS) {
        for mask in 0..=255 {
            assert_eq!((board.write(19, mask), &board.block[..]), (0, &but(&ZEROS, &[(19, mask)])[..]), "{}", board.engine.name);
        }
    }
}

/// Byte 18 of every contents, written with every byte: a 1 clears flag 0 or 1, nothing else changes.
#[test]
fn every_write_to_the_flags() {
    for mut board in readers(&[], &[0xC3; BLOCK_LENGTH]) {
        for flags in 0..=255u8 {
            for byte in 0..=255u8 {
                board.block[18] = flags;
                let number = board.write(18, byte);
                // bit by bit
                let bit = |i: u8| if i < 2 && byte >> i & 1 == 1 { 0 } else { flags & 1 << i };
                let left: u8 = (0..8).map(bit).sum();
                assert_eq!((number, board.block[18]), (0, left), "{}: {byte} to {flags}", board.engine.name);
            }
        }
        assert_eq!(board.block[..], but(&[0xC3; BLOCK_LENGTH], &[(18, 0xFF & 0xFC)]), "{}", board.engine.name);
    }
}

// ---- refused writes

/// Every place that is refused: 17, 20 to 23, and from 24 to the last of 32 bits. Only status and flag 0 change.
#[test]
fn places_outside() {
    let powers = (5..32).flat_map(|i| [(1u32 << i) - 1, 1 << i, (1 << i) + 3, (1 << i) + 16, (1 << i) + 18, (1 << i) + 19]);
    let places = [17, 20, 21, 22, 23, 24, 25, 26, 31, u32::MAX, u32::MAX - 1, u32::MAX - 7].into_iter().chain(powers.filter(|&at| at > 23));
    let states = [waiting(), idle(), vec![], vec![0xFF; STATE_LENGTH]];
    for (i, at) in places.enumerate() {
        for block in &blocks()[..4] {
            for byte in [0, 1, 2, 3, 255] {
                let wanted = but(block, &[(17, 17), (18, block[18] | REFUSED)]);
                assert_eq!(written(&states[i % states.len()], block, at, byte), (17, wanted), "{byte} at {at}");
            }
        }
    }
}

/// Every byte that is no command: byte 16 stays, only status and flag 0 change; flag 1 not, though an output waits.
#[test]
fn every_byte_that_is_no_command() {
    for state in [waiting(), idle(), vec![], vec![0xFF; STATE_LENGTH]] {
        for block in [ZEROS.to_vec(), but(&ZEROS, &[(16, 3), (18, 0xFC)]), vec![0x5A; BLOCK_LENGTH]] {
            for byte in (0..=255u8).filter(|byte| ![1, 2, 3].contains(byte)) {
                let wanted = but(&block, &[(17, 17), (18, block[18] | REFUSED)]);
                assert_eq!(written(&state, &block, 16, byte), (17, wanted), "{byte}");
            }
        }
    }
}

/// Block length before place before command, and 17 before 15.
#[test]
fn the_order_of_the_tests() {
    let bad = vec![0xFF; STATE_LENGTH];
    let left = but(&ZEROS, &[(17, 17), (18, 1)]);
    for state in [waiting(), bad.clone(), vec![], vec![0; 100]] {
        // a wrong length, whatever else is wrong: nothing changes
        for (at, byte) in [(16, 1), (16, 9), (99, 9), (17, 9)] {
            assert_eq!(written(&state, &ZEROS[..23], at, byte), (17, vec![0; 23]));
            assert_eq!(written(&state, &[0; 25], at, byte), (17, vec![0; 25]));
        }
        // the right one: a wrong place or a wrong command, with a state or without
        for (at, byte) in [(99, 1), (17, 1), (20, 1), (16, 0), (16, 4), (16, 9)] {
            assert_eq!(written(&state, &ZEROS, at, byte), (17, left.clone()), "{byte} at {at}");
        }
    }
    for command in 1..=3 {
        assert_eq!(written(&bad, &ZEROS, 16, command), (15, but(&ZEROS, &[(16, command), (17, 15), (18, 1)])));
    }
}

/// Nothing is read or written through the pointer of a block whose length is not 24 as 64 bits.
#[test]
fn lengths_above_32_bits() {
    let state = waiting();
    for engine in engines() {
        let (mut lent, mut block) = (Lent::of(&state), Lent::of(&[]));
        for length in [(1 << 32) + 24, (1 << 33) + 24, (1 << 56) + 24, (1 << 63) + 24, u64::MAX, 1 << 32, u64::MAX - 23, 24 << 8, 24 << 32] {
            for (at, byte) in [(0, 1), (16, 1), (16, 2), (16, 3), (18, 1), (19, 1), (17, 1), (99, 1)] {
                let lengths = (STATE_LENGTH as u64, length);
                assert_eq!(engine.write_claiming(&mut lent, &mut block, lengths, at, byte), 17, "{}: {length}", engine.name);
            }
            assert_eq!(engine.line_claiming(&block, length), (17, 0), "{}: {length}", engine.name);
        }
        assert!(lent[..] == state[..] && lent.untouched() && block.untouched());
    }
}

/// A state whose length is neither 12,288 nor 20,480 as 64 bits: nothing is read or written through its pointer, plain writes are done, commands are
/// refused 15, and what is no command 17.
#[test]
fn state_lengths_above_32_bits() {
    for (engine, size) in engines().into_iter().flat_map(|engine| SIZES.map(|size| (engine, size))) {
        let right = size.length() as u64;
        let (mut state, mut block) = (Lent::of(&[]), Lent::of(&ZEROS));
        for length in [(1 << 32) + right, (1 << 56) + right, (1 << 63) + right, u64::MAX, 1 << 32, right << 32, right + 1, right - 1, 0] {
            for (at, byte, number) in [(5, 7, 0), (19, 3, 0), (16, 1, 15), (16, 2, 15), (16, 3, 15), (16, 4, 17), (17, 1, 17), (18, 255, 0), (99, 1, 17)] {
                let lengths = (length, BLOCK_LENGTH as u64);
                assert_eq!(engine.write_claiming(&mut state, &mut block, lengths, at, byte), number, "{}: {length}", engine.name);
            }
        }
        assert_eq!(block[..], but(&ZEROS, &[(5, 7), (16, 3), (17, 17), (18, 1), (19, 3)]), "{}", engine.name);
        assert!(block.untouched());
    }
}

// ---- commands

/// Each number that a command may return, with the calls before it and the call that it makes; and whether an output waits then.
fn endings() -> Vec<(u32, bool, Session, Call)> {
    let on = |calls: &[Call]| {
        let mut session = Session::load(&short("in; neg 0 out; in; add 0 2 out"));
        for call in calls {
            session.call(*call);
        }
        session
    };
    // neg has −7 at 3, and then −8 at 4; input 0 holds 16 readings for the add, and neg has the 16 of them
    let waits = [Reading(0, 3, 7), Run(9)];
    let more = [&waits[..], &[Reading(0, 4, 8), Run(9)]].concat();
    let full: Vec<Call> = (0..16).map(|t| Reading(0, t, 1)).collect();
    let full_run = [&full[..], &[Run(99)]].concat();
    vec![
        (0, false, on(&[]), Reading(0, 3, 7)),
        (0, true, on(&waits), Reading(0, 5, 7)),
        (0, false, on(&[]), Run(64)),
        (0, true, on(&waits), Run(64)),
        (0, false, on(&waits), Collect(1)),
        (0, true, on(&more), Collect(1)),
        (7, false, on(&[]), Reading(1, 3, 7)),
        (7, true, on(&waits), Reading(1, 3, 7)),
        (7, true, on(&waits), Reading(4, 3, 7)),
        (8, false, on(&[Progress(0, 4)]), Reading(0, 3, 7)),
        (8, true, on(&waits), Reading(0, 3, 7)),
        (9, false, on(&full), Reading(0, 99, 7)),
        (9, true, on(&full_run), Reading(0, 99, 7)),
        (13, false, on(&[]), Collect(0)),
        (13, true, on(&waits), Collect(0)),
        (13, true, on(&waits), Collect(4)),
        (14, false, on(&[]), Collect(1)),
        (14, true, on(&waits), Collect(3)),
    ]
}

/// By each command's end: byte 16 holds the command also where its call is refused, status its number, flag 0 is set where that is not
/// 0 and never cleared, flag 1 is set where an output waits then and never cleared, bits 2 to 7 stay, and so does every other byte.
#[test]
fn how_commands_end_with_every_byte_of_flags() {
    for (number, waits, before, call) in endings() {
        // a short run looks at some bytes only
        let step = if rounds(100) < 100 { 51 } else { 1 };
        for flags in (0..=255u8).step_by(step) {
            let mut session = before.clone();
            let first = Block { stream: 9, stamp: 77, value: -5, command: 0x99, status: 0x88, flags, mask: 0x77, reply: 0x0102_0304 };
            session.set_block(&first.bytes());
            let state = session.state().to_vec();
            assert_eq!(session.command(call), number, "{call:?}");
            let set = (if number != 0 { REFUSED } else { 0 }) | (if waits { WAITING } else { 0 });
            let mut wanted = Block { status: number as u8, flags: flags | set, ..first };
            wanted.command = match call {
                Reading(stream, stamp, value) => {
                    wanted = Block { stream, stamp, value, ..wanted };
                    1
                }
                Collect(stream) => {
                    wanted.stream = stream;
                    if number == 0 {
                        (wanted.value, wanted.reply) = (-7, 3);
                    }
                    2
                }
                _ => 3,
            };
            assert_eq!(session.block(), wanted.bytes(), "{call:?}, flags {flags}");
            assert!(number == 0 || session.state() == state, "a refused command wrote the state");
        }
    }
}

/// Flag 1 comes of the state after the command: a run that makes the first output wait sets it, a collect that takes the last does
/// not, and it does not clear it either.
#[test]
fn flag_1_is_of_the_state_after_the_command() {
    let mut session = with_block("in; neg 0 out", &ZEROS);
    assert_eq!((session.command(Reading(0, 3, 7)), ended(&session)), (0, (0, 0)));
    assert_eq!((session.command(Run(64)), ended(&session)), (0, (0, WAITING)));
    // cleared, and set again by the next command while it waits
    wrote(&mut session, 18, WAITING, 0, &[(18, 0)]);
    assert_eq!((session.command(Run(64)), ended(&session)), (0, (0, WAITING)));
    wrote(&mut session, 18, WAITING, 0, &[(18, 0)]);
    assert_eq!((session.command(Reading(0, 3, 7)), ended(&session)), (8, (8, REFUSED | WAITING)));
    wrote(&mut session, 18, REFUSED, 0, &[(18, WAITING)]);
    // not cleared by the collect that takes the last
    assert_eq!((session.command(Collect(1)), ended(&session)), (0, (0, WAITING)));
    wrote(&mut session, 18, WAITING, 0, &[(18, 0)]);
    // and not set by it
    session.call(Reading(0, 4, 8));
    session.call(Run(9));
    assert_eq!((session.command(Collect(1)), ended(&session)), (0, (0, 0)));
    assert_eq!((session.command(Collect(1)), ended(&session)), (14, (14, REFUSED)));
}

/// Flag 1 is of any output, not of the stream in the block, and of any place: the last of 32 streams, of 33 and of 64.
#[test]
fn any_output_that_waits() {
    for last in [31, 32, 63] {
        let wide: Vec<String> = (0..=last).map(|s| if s == 0 { "in".into() } else if s == last { "plus 0 k1 out".into() } else { format!("neg {} out", s - 1) }).collect();
        let mut session = with_block(&wide.join("; "), &ZEROS);
        session.call(Reading(0, 1, 1));
        assert_eq!(session.call(Call::Move(last)).number, 0);
        assert_eq!((session.command(Collect(5)), ended(&session)), (14, (14, REFUSED | WAITING)));
        wrote(&mut session, 18, 255, 0, &[(18, 0)]);
        assert_eq!((session.command(Collect(last)), ended(&session)), (0, (0, 0)));
        assert_eq!((session.command(Run(64)), ended(&session)), (0, (0, WAITING)));
    }
}

/// After number 15 flag 0 is set and flag 1 not, though the bytes are those of a state in which an output waits but for one.
#[test]
fn number_15_sets_flag_0_alone() {
    let good = waiting();
    for command in 1..=3 {
        for (at, byte) in [(STATE_LENGTH - 1, 1), (256 + 7, 1), (0, 28), (256 + 4, 17)] {
            for flags in [0, 1, 2, 3, 0xFC] {
                let block = but(&ZEROS, &[(0, 1), (8, 9), (18, flags), (20, 9)]);
                let wanted = but(&block, &[(16, command), (17, 15), (18, flags | REFUSED)]);
                assert_eq!(written(&but(&good, &[(at, byte)]), &block, 16, command), (15, wanted));
            }
        }
        // on the state itself an offer to stream 1 is 7
        let number = [7, 0, 0][command as usize - 1];
        for mut board in readers(&good, &but(&ZEROS, &[(0, 1)])) {
            assert_eq!(board.write(16, command), number, "{}", board.engine.name);
        }
    }
}

/// The state of no streams: 7, 13 and 0, and all stays zero.
#[test]
fn commands_without_a_plan() {
    let zeros = vec![0; STATE_LENGTH];
    for block in blocks() {
        for (command, number) in [(1, 7), (2, 13), (3, 0)] {
            let flag = if number == 0 { 0 } else { REFUSED };
            let wanted = but(&block, &[(16, command), (17, number), (18, block[18] | flag)]);
            assert_eq!(written(&zeros, &block, 16, command), (number as u32, wanted));
        }
    }
}

/// Stream numbers have four bytes: one that is only the low one of another is not meant.
#[test]
fn streams_above_255() {
    let mut session = with_block("in; neg 0 out", &ZEROS);
    session.call(Reading(0, 3, 7));
    session.call(Run(9));
    for stream in [2, 255, 256, 257, 512, 65_536, 65_537, 1 << 24, (1 << 24) + 1, 1 << 31, (1 << 31) + 1, u32::MAX, u32::MAX - 1] {
        assert_eq!(session.command(Reading(stream, 9, 1)), 7, "{stream}");
        assert_eq!(session.command(Collect(stream)), 13, "{stream}");
        assert_eq!(&session.block()[..4], stream.to_le_bytes());
    }
    assert_eq!((session.command(Reading(0, 9, 1)), session.command(Collect(1))), (0, 0));
}

/// Stamps and values at both ends, there and back.
#[test]
fn stamps_and_values_at_the_ends() {
    let stamps = [0, 1, 255, 256, 65_535, 65_536, 1 << 24, (1 << 31) - 1, 1 << 31, u32::MAX - 1, u32::MAX];
    let values = [0, 1, -1, 255, 256, -256, i32::MIN as i64, u32::MAX as i64, 1 << 32, -(1 << 32), 0x0102_0304_0506_0708, i64::MAX, i64::MIN, i64::MIN + 1];
    for value in values {
        let mut session = with_block("in; plus 0 k0 out", &[0xFF; BLOCK_LENGTH]);
        for stamp in stamps {
            assert_eq!(session.command(Reading(0, stamp, value)), 0);
            assert_eq!(session.block()[4..16], [&stamp.to_le_bytes()[..], &value.to_le_bytes()].concat());
            assert_eq!(session.accepted[0].get(&stamp), Some(&value));
            // other numbers in the way of the answer
            put(&mut session, 8, &[0x66; 8]);
            assert_eq!((session.command(Run(64)), session.command(Collect(1))), (0, 0));
            let block = Block::read(session.block()).unwrap();
            assert_eq!((block.reply, block.value, block.stamp, block.stream), (stamp, value, stamp, 1));
        }
        assert_eq!(session.command(Reading(0, u32::MAX, value)), 8);
    }
}

/// Command 3 makes 64 moves and no more: of 31 equations, each with three events to come, 29 are left.
#[test]
fn command_3_makes_64_moves() {
    let chain: Vec<String> = (0..32).map(|s| if s == 0 { "in".into() } else { format!("neg {}{}", s - 1, if s == 31 { " out" } else { "" }) }).collect();
    let mut session = with_block(&chain.join("; "), &but(&ZEROS, &[(20, 8), (8, 9)]));
    for t in 1..=3 {
        assert_eq!(session.call(Reading(0, t, 5)).number, 0);
    }
    wrote(&mut session, 16, 3, 0, &[(17, 0), (8, 9), (20, 8)]);
    assert_eq!(session.call(Run(1000)).moves, 3 * 31 - 64);
    // at rest: 0 too, and no number of moves anywhere
    let (state, block) = (session.state().to_vec(), session.block().to_vec());
    wrote(&mut session, 16, 3, 0, &[]);
    assert_eq!(session.block(), but(&block, &[(18, WAITING)]));
    assert!(session.state() == state);
}

/// States that no call leaves: an event that is held though it was collected does not wait, one above the mark does.
#[test]
fn foreign_states_with_held_events() {
    let with = |mark: u8, held: &[(u8, u8)]| {
        // neg: known to 10, collected up to the mark
        let mut state = but(&idle(), &[(256 + 16, 10), (256 + 24, mark), (256 + 4, held.len() as u8)]);
        for (j, (t, v)) in held.iter().enumerate() {
            (state[256 + 64 + 12 * j], state[256 + 64 + 12 * j + 4]) = (*t, *v);
        }
        assert!(Found::read(&state).is_some());
        state
    };
    let to_1 = but(&ZEROS, &[(0, 1), (8, 9), (20, 9)]);
    let ends = |number: u8, flags: u8| but(&to_1, &[(16, 3), (17, number), (18, flags)]);
    assert_eq!(written(&with(5, &[(3, 7)]), &to_1, 16, 3), (0, ends(0, 0)));
    assert_eq!(written(&with(4, &[(3, 7)]), &to_1, 16, 3), (0, ends(0, 0)));
    assert_eq!(written(&with(3, &[(3, 7)]), &to_1, 16, 3), (0, ends(0, WAITING)));
    assert_eq!(written(&with(0, &[(3, 7)]), &to_1, 16, 3), (0, ends(0, WAITING)));
    assert_eq!(written(&with(5, &[(3, 7), (8, 6)]), &to_1, 16, 3), (0, ends(0, WAITING)));
    // refused, in the same states
    assert_eq!(written(&with(5, &[(3, 7)]), &to_1, 16, 2), (14, but(&ends(14, REFUSED), &[(16, 2)])));
    assert_eq!(written(&with(5, &[(3, 7), (8, 6)]), &to_1, 16, 1), (7, but(&ends(7, REFUSED | WAITING), &[(16, 1)])));
    // collected: the one above the mark, after which nothing waits
    for mut board in readers(&with(5, &[(3, 7), (8, 6)]), &to_1) {
        assert_eq!(board.write(16, 2), 0, "{}", board.engine.name);
        assert_eq!(board.block[..], but(&to_1, &[(8, 6), (16, 2), (20, 8)]), "{}", board.engine.name);
        assert!(board.state[..] == with(9, &[])[..], "{}", board.engine.name);
    }
    // a stream that is no output never waits, whatever it holds
    let inside = but(&with(0, &[(3, 7)]), &[(256 + 3, 0)]);
    assert_eq!(written(&inside, &to_1, 16, 2), (13, but(&ends(13, REFUSED), &[(16, 2)])));
}

// ---- the line

/// Every pair of flags and mask: up exactly if bit 0 or bit 1 is set in both. Other bytes do not matter, and nothing is written.
#[test]
fn the_line_of_every_flags_and_mask() {
    for (round, other) in [0x00, 0xFF, 0x5A].into_iter().enumerate() {
        for engine in engines() {
            let mut block = Lent::of(&[other; BLOCK_LENGTH]);
            for flags in (0..=255u8).step_by(1 + 10 * round) {
                for mask in 0..=255u8 {
                    (block[18], block[19]) = (flags, mask);
                    let both = |bit: u8| flags >> bit & 1 == 1 && mask >> bit & 1 == 1;
                    assert_eq!(engine.line(&block), (0, (both(0) || both(1)) as u32), "{}: {flags} {mask}", engine.name);
                    assert!(block.iter().enumerate().all(|(at, byte)| *byte == if at == 18 { flags } else if at == 19 { mask } else { other }));
                }
            }
            assert!(block.untouched());
        }
    }
}

/// The line goes up where a flag is set under its mask, and down where it is cleared or masked.
#[test]
fn the_line_as_a_board_sees_it() {
    let mut session = with_block("in; neg 0 out", &ZEROS);
    let up = |session: &Session| {
        let lines = engines().map(|engine| engine.line(session.block()));
        assert_eq!(lines[0], lines[1]);
        assert_eq!(lines[0].0, 0);
        lines[0].1 == 1
    };
    session.call(Reading(0, 3, 7));
    assert_eq!(session.command(Run(64)), 0);
    assert!(!up(&session), "nothing is unmasked");
    put(&mut session, 19, &[REFUSED]);
    assert!(!up(&session));
    put(&mut session, 19, &[WAITING]);
    assert!(up(&session));
    assert_eq!(session.command(Collect(1)), 0);
    assert!(up(&session), "a flag stays until a 1 is written");
    put(&mut session, 18, &[WAITING]);
    assert!(!up(&session));
    assert_eq!(session.command(Collect(1)), 14);
    assert!(!up(&session), "flag 0 is masked");
    put(&mut session, 19, &[REFUSED | WAITING]);
    assert!(up(&session));
    put(&mut session, 18, &[REFUSED]);
    assert!(!up(&session));
    // a refused write
    assert_eq!(session.write(20, 0), 17);
    assert!(up(&session));
}

/// State and block at every alignment, between bytes that stay.
#[test]
fn at_every_alignment() {
    let text = text_of(&short(COUNT));
    for engine in engines() {
        let mut ends = vec![];
        for shift in 0..8 {
            let (mut around_state, mut around_block) = (vec![0x77; STATE_LENGTH + 64], vec![0x77; BLOCK_LENGTH + 64]);
            let (state, block) = (&mut around_state[16 + shift..][..STATE_LENGTH], &mut around_block[16 + 7 - shift..][..BLOCK_LENGTH]);
            block.fill(0);
            assert_eq!(engine.load(state, text.as_bytes()), 0);
            for (at, byte) in [(4, 3), (8, 7), (16, 1), (16, 3), (0, 5), (16, 2), (16, 2), (19, 2), (16, 2), (18, 1), (30, 1)] {
                engine.write(state, block, at, byte);
            }
            assert_eq!(engine.line(block), (0, 1), "{}", engine.name);
            ends.push((state.to_vec(), block.to_vec()));
            let outside = |around: &[u8], from: usize, length: usize| around[..from].iter().chain(&around[from + length..]).all(|&x| x == 0x77);
            assert!(outside(&around_state, 16 + shift, STATE_LENGTH) && outside(&around_block, 16 + 7 - shift, BLOCK_LENGTH), "{}", engine.name);
        }
        assert!(ends.iter().all(|end| *end == ends[0]), "{}", engine.name);
    }
}

/// An output that never has an event: a done command sets no flag.
#[test]
fn an_output_that_never_waits() {
    let mut session = with_block("in; nil out", &ZEROS);
    for t in 0..20 {
        assert_eq!((session.command(Reading(0, t, 1)), ended(&session)), (0, (0, 0)));
        assert_eq!((session.command(Run(64)), ended(&session)), (0, (0, 0)));
    }
    assert_eq!((session.command(Collect(1)), ended(&session)), (14, (14, REFUSED)));
    assert_eq!(session.call(Collect(1)), Answer { number: 14, ..Answer::default() });
}
