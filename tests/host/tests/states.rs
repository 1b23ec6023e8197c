//! States saved by earlier versions, under tests/states: each is read, is what its calls leave today but for the rule of division,
//! and goes on.

use host::engine::{Answer, Call, Missing, LIBRARY, STATE_LENGTH};
use host::evaluator::HORIZON;
use host::found::{Found, Record};
use host::history::{any_acts, Session};
use host::layout::{self, Size};
use host::model::Division;
use host::plan::{text_of, windows};
use host::random::{rounds, seed, Random};
use host::registers::{Act, Block, Board, REFUSED, WAITING};
use host::saved::{read, write, Saved};
use host::texts::pattern;
use host::worked::{collected, missing, numbers, runs};
use std::fs;
use std::path::PathBuf;

fn files() -> Vec<PathBuf> {
    let folder = std::env::var("TESSLA_STATES").expect("start the tests by tests/run");
    let mut files: Vec<PathBuf> = fs::read_dir(folder).unwrap().map(|entry| entry.unwrap().path()).collect();
    files.sort();
    files
}

fn states() -> Vec<(String, Saved)> {
    let name = |path: &PathBuf| path.file_name().unwrap().to_string_lossy().into_owned();
    let states: Vec<(String, Saved)> = files().iter().map(|path| (name(path), read(&fs::read_to_string(path).unwrap()))).collect();
    assert!(states.len() >= 25, "only {} saved states", states.len());
    states
}

fn named(name: &str) -> Saved {
    states().into_iter().find(|(found, _)| found == name).unwrap_or_else(|| panic!("no state {name}")).1
}

#[test]
fn each_saved_state_is_read() {
    for (name, saved) in states() {
        let found = Found::read(&saved.bytes).unwrap_or_else(|| panic!("{name}: no state"));
        assert_eq!(found.plan, saved.plan, "{name}");
        // nothing is to be done for a run of no moves, and number 15 comes before
        let mut session = Session::put_back(&saved);
        assert_eq!(session.call(Call::Run(0)).number, 0, "{name}");
        assert!(session.state() == saved.bytes, "{name}");
    }
}

/// The text of the plan that the file names comes back from each, also after further calls, and load takes it.
#[test]
fn each_gives_its_plan_back() {
    for (name, saved) in states() {
        let text = text_of(&saved.plan);
        let mut session = Session::put_back(&saved);
        for turn in 0..2 {
            for room in [text.len(), text.len() + 7, 4096] {
                let end = session.text_back(room);
                assert_eq!((end.number, end.length as usize, &end.buffer[..text.len()]), (0, text.len(), text.as_bytes()), "{name}");
                assert!(end.buffer[text.len()..] == pattern(room)[text.len()..], "{name}");
            }
            assert_eq!(session.text_back(text.len() - 1).number, 19, "{name}");
            assert!(turn == 1 || session.state() == saved.bytes, "{name}");
            session.call(Call::Run(1000));
            for stream in session.outputs() {
                session.call(Call::Collect(stream as u32));
            }
        }
        assert!(Session::load_over(&saved.plan, session.states).state() == Found::fresh(&saved.plan).bytes(), "{name}");
    }
}

/// What a file's calls answer and leave on the model, by a rule of division.
fn made_by(saved: &Saved, division: Division) -> (Vec<Answer>, Vec<u8>) {
    let mut model = Found { division, ..Found::read(Session::load(&saved.plan).state()).expect("a state") };
    (saved.calls.iter().map(|(call, _)| model.call(*call)).collect(), model.bytes())
}

/// The same with every value taken for 0: numbers, moves, bounds, marks, stamps, and which values are there.
fn but_for_values((answers, state): &(Vec<Answer>, Vec<u8>)) -> (Vec<Answer>, Vec<Record>) {
    let none = |value: Option<i64>| value.map(|_| 0);
    let record = |r: Record| Record {
        held: r.held.keys().map(|t| (*t, 0)).collect(),
        prev: none(r.prev),
        value: none(r.value),
        prior: none(r.prior),
        latest: r.latest.map(none),
        window: vec![0; r.window.len()],
        ..r
    };
    let answers = answers.iter().map(|answer| Answer { value: 0, ..*answer }).collect();
    (answers, Found::read(state).expect("a state").records.into_iter().map(record).collect())
}

/// Where no result of division by the earlier rule is inside, byte for byte but for the counts, which no version before 1.8 has. Where
/// one is, the file is what its calls leave by that rule, today's is what they leave by the new one, and they differ in values alone.
/// Today's counts are the definition's.
#[test]
fn each_is_what_its_calls_leave_today() {
    let (mut cut, mut counted) = (0, 0);
    for (name, saved) in states() {
        let then: (Vec<Answer>, Vec<u8>) = (saved.calls.iter().map(|(_, answer)| *answer).collect(), saved.bytes.clone());
        let mut session = Session::load(&saved.plan);
        let today = (saved.calls.iter().map(|(call, _)| session.call(*call)).collect::<Vec<_>>(), session.state().to_vec());
        let same = |x: &(Vec<Answer>, Vec<u8>), y: &(Vec<Answer>, Vec<u8>), what: &str| {
            assert_eq!(x.0, y.0, "{name}: answers, {what}");
            assert!(x.1 == y.1, "{name}: bytes, {what}");
        };
        same(&today, &made_by(&saved, Division::Down), "today and the model");
        counted += (session.check_missing().expect("few stamps") != [0, 0]) as u64;
        // as that version left it
        let at_that_time = |(answers, bytes): (Vec<Answer>, Vec<u8>)| (answers, if saved.before_counts() { layout::without_counts(&bytes) } else { bytes });
        let today = at_that_time(today);
        if saved.is_cut() {
            same(&then, &at_that_time(made_by(&saved, Division::TowardZero)), "the file and the model by the earlier rule");
            assert!(then != today, "{name}: holds no result of the earlier rule");
            assert_eq!(but_for_values(&then), but_for_values(&today), "{name}");
            cut += 1;
        } else {
            same(&then, &today, "the file and today");
        }
    }
    assert!(cut >= 2, "only {cut} states with results of the earlier rule");
    assert!(counted >= 4, "only {counted} states whose calls leave counts today");
}

/// Any calls on the state put back, directly and by a block of registers: answers and bytes are those of the model, and what was
/// handed out before the copy and after it is what the definition gives for the readings before and after, and so are the counts, from the
/// bounds on that the copy had. The latter two not of a state with results of the earlier rule of division: "demands 2 and 3 speak of
/// states loaded since".
#[test]
fn each_goes_on() {
    for (name, saved) in states() {
        let (mut calls, mut events, mut checked, mut rested, mut missing) = (0u64, 0u64, 0u64, 0u64, 0u64);
        let all = rounds(150);
        for round in 0..all {
            let mut random = Random::of(30, round);
            let mut session = Session::put_back(&saved);
            let mut model = Board::new(Found::read(&saved.bytes).expect("a state"));
            let mut act = |session: &mut Session, act: Act| {
                let answer = session.act(act);
                assert_eq!(answer, model.act(act), "{name}: {act:?}\n{}", session.story());
                assert_eq!(session.block(), model.block, "{name}: another block than the model's\n{}", session.story());
                assert!(session.state() == model.calls.bytes(), "{name}: another state than the model's\n{}", session.story());
                calls += 1;
                answer
            };
            for _ in 0..random.below(100) {
                for next in any_acts(&mut random, &session) {
                    act(&mut session, next);
                }
            }
            if saved.is_cut() {
                // to rest, so that all that is held, kept or waiting comes out
                let mut idle = false;
                while !idle {
                    idle = act(&mut session, Act::Call(Call::Run(50))).moves == 0;
                    for s in session.outputs() {
                        while act(&mut session, Act::Call(Call::Collect(s as u32))).number == 0 {
                            idle = false;
                        }
                    }
                }
                (checked, rested) = (checked + 1, rested + 1);
            } else {
                checked += (session.check_beginning() && session.check_missing().is_some()) as u64;
                if session.rest(4_000) {
                    let counts = session.check_missing();
                    rested += (session.check_beginning() && session.check_rest() && counts.is_some()) as u64;
                    missing += counts.map_or(0, |[outside, zero]| outside + zero);
                }
            }
            events += session.handed.iter().map(|handed| handed.len() as u64).sum::<u64>();
        }
        println!("seed {}: {name}, {calls} calls and writes on it, {events} events handed out, {missing} missing, {checked} lists checked, {rested} at rest", seed());
        let outputs = saved.plan.iter().any(|stream| stream.out);
        assert!(all < 20 || (checked * 2 > all && rested * 4 > all && (events > 0) == outputs));
    }
}

// ---- "A state saved before this change goes on by the new rule from where it is"

/// Case 2.13.
#[test]
fn waiting_readings_are_divided_by_the_new_rule() {
    let saved = named("1.2-quotient.txt");
    // before: −7 div 2 was −3
    assert_eq!(saved.calls[3], (Call::Collect(2), Answer { stamp: 1, value: -3, ..Answer::default() }));
    let mut session = Session::put_back(&saved);
    // and the same two readings at 2 are −4
    runs(&mut session, 9, 1);
    collected(&mut session, 2, &[(2, -4)]);
}

/// Results of the earlier rule that are held or kept stay as they came in; what comes in later follows the new one.
#[test]
fn what_is_held_or_kept_stays_as_it_came_in() {
    let saved = named("1.2-means.txt");
    let held = |stream: usize| layout::held(&saved.bytes, stream);
    let records = Found::read(&saved.bytes).expect("a state").records;
    // worked out before the copy, toward zero: −7 and −2 at 1 are 3, rem −1; 7 and −2 at 2 are −3, rem 1; −9 and 4 at 3 are −2,
    // rem −1; −7 and 2 at 5 are rem −1, and no quotient yet. Handed out were 3@1 of div, −1@1 and 1@2 of rem.
    assert_eq!((held(2), held(3)), (vec![(2, -3), (3, -2)], vec![(3, -1), (5, -1)]));
    assert_eq!((held(4), held(5)), (vec![(1, 3), (2, -3), (3, -2)], vec![(1, -1), (2, 1), (3, -1)]));
    // sdiv and srem keep their arguments' latest values; last and sadd keep the quotient of 3, beside 1 of input 6
    assert_eq!((records[4].latest, records[5].latest), ([Some(-9), Some(4)], [Some(-9), Some(4)]));
    assert_eq!((records[7].prev, records[8].latest), (Some(-2), [Some(-2), Some(1)]));
    // the quotient of 2 as last gave it at 3; −2 + 1
    assert_eq!((held(7), held(8)), (vec![(3, -3)], vec![(3, -1)]));

    let mut session = Session::put_back(&saved);
    // to come: at 4 the kept −9 and 2, of the forms alone: −5, rem 1; at 5 −7 and 2: −4, rem 1; at 6 23 and −4: −6, rem −1.
    // div moves twice, rem, which is past 5, once, each form three times, last and sadd once, to 4
    runs(&mut session, 99, 2 + 1 + 3 + 3 + 1 + 1);
    collected(&mut session, 2, &[(2, -3), (3, -2), (5, -4), (6, -6)]);
    collected(&mut session, 3, &[(3, -1), (5, -1), (6, -1)]);
    collected(&mut session, 4, &[(1, 3), (2, -3), (3, -2), (4, -5), (5, -4), (6, -6)]);
    collected(&mut session, 5, &[(1, -1), (2, 1), (3, -1), (4, 1), (5, 1), (6, -1)]);
    // at 4 the kept quotient −2, and −2 + 10
    collected(&mut session, 7, &[(3, -3), (4, -2)]);
    collected(&mut session, 8, &[(3, -1), (4, 8)]);

    // then input 6 at 7: last has the −6 of 6; sadd −4 + 10, −6 + 10, −6 + 100. The four divisions only learn of the silence
    numbers(&mut session, &[(Call::Reading(6, 7, 100), 0), (Call::Progress(0, 8), 0), (Call::Progress(1, 8), 0)]);
    runs(&mut session, 99, 4 + 1 + 3);
    collected(&mut session, 7, &[(7, -6)]);
    collected(&mut session, 8, &[(5, 6), (6, 4), (7, 94)]);
    for stream in 2..=5 {
        collected(&mut session, stream, &[]);
    }
}

// ---- states saved before the plan of no streams

/// Means that go down, as 1.3 had it: one was held when the copy was made, one is worked out after it.
#[test]
fn an_hour_that_was_begun_is_ended() {
    let saved = named("1.3-hill.txt");
    // handed out before: −1 in 4 readings are −1, rem 3; −12 in 4 are −3, rem 0
    let handed = |stream: u32| -> Vec<(u32, i64)> {
        let done = saved.calls.iter().filter(|(call, answer)| *call == Call::Collect(stream) && answer.number == 0);
        done.map(|(_, answer)| (answer.stamp, answer.value)).collect()
    };
    assert_eq!((handed(20), handed(21)), (vec![(3600, -1), (7200, -3)], vec![(3600, 3), (7200, 0)]));
    let mut session = Session::put_back(&saved);
    numbers(&mut session, &[(Call::Progress(0, 14_400), 0), (Call::Run(500), 0)]);
    // −10 in 3 readings are −4, rem 2; the hour begun had −8 and −3: −6, rem 1
    collected(&mut session, 20, &[(10_800, -4), (14_400, -6)]);
    collected(&mut session, 21, &[(10_800, 2), (14_400, 1)]);
}

/// One byte is not 0: the input's operator.
#[test]
fn an_input_alone_is_no_empty_buffer() {
    let saved = named("1.3-input.txt");
    assert_eq!(saved.bytes.iter().enumerate().filter(|(_, byte)| **byte != 0).collect::<Vec<_>>(), vec![(0, &1)]);
    let mut session = Session::put_back(&saved);
    numbers(&mut session, &[(Call::Reading(0, 4, 7), 0), (Call::Reading(0, 4, 7), 8), (Call::Progress(0, HORIZON + 1), 10), (Call::Reading(1, 5, 7), 7), (Call::Move(0), 11)]);
    runs(&mut session, 9, 0);
    numbers(&mut session, &[(Call::Collect(0), 13)]);
    assert_eq!(layout::bound(session.state(), 0), 5);
}

// ---- states saved before the block of registers

/// A command on the state put back, its number and the flags after it; then both flags are cleared.
fn commanded(session: &mut Session, call: Call, number: u32, flags: u8) {
    assert_eq!(session.command(call), number, "{call:?}");
    let block = Block::read(session.block()).unwrap();
    assert_eq!((block.status as u32, block.flags), (number, flags), "{call:?}");
    assert_eq!(session.write(18, REFUSED | WAITING), 0);
}

/// An event collected by command 2, as (stamp, value).
fn replied(session: &mut Session, stream: u32, event: (u32, i64), flags: u8) {
    commanded(session, Call::Collect(stream), 0, flags);
    let block = Block::read(session.block()).unwrap();
    assert_eq!((block.reply, block.value), event, "stream {stream}");
}

/// Outputs that waited when the copy was made come out through the block, and so does what is worked out after it.
#[test]
fn what_waited_is_collected_by_registers() {
    let mut session = Session::put_back(&named("1.4-waiting.txt"));
    // stream 5 counts the readings at 3, 5 and 9, of which the last is not worked off; stream 8 has their stamps
    commanded(&mut session, Call::Run(64), 0, WAITING);
    replied(&mut session, 5, (3, 1), WAITING);
    replied(&mut session, 5, (5, 2), WAITING);
    replied(&mut session, 5, (9, 3), WAITING);
    // nothing of it waits, but of stream 8
    commanded(&mut session, Call::Collect(5), 14, REFUSED | WAITING);
    replied(&mut session, 8, (5, 5), WAITING);
    replied(&mut session, 8, (9, 9), 0);
    commanded(&mut session, Call::Collect(8), 14, REFUSED);
    // input 6 had −4 at 1 and was known to 5: with 1 at 7 the difference at 5 is the least value + 4, and at 7 there is none,
    // the least value less 1 being outside the range
    commanded(&mut session, Call::Reading(6, 7, 1), 0, 0);
    commanded(&mut session, Call::Run(64), 0, WAITING);
    replied(&mut session, 7, (5, i64::MIN + 4), 0);
    commanded(&mut session, Call::Collect(7), 14, REFUSED);
    assert!(session.rest(100) && session.check_beginning() && session.check_rest());
}

/// At rest with nothing to collect: a run sets no flag, and a new reading goes through.
#[test]
fn a_state_at_rest_goes_on_by_registers() {
    let saved = named("1.4-rest.txt");
    let mut session = Session::put_back(&saved);
    commanded(&mut session, Call::Run(64), 0, 0);
    assert!(session.state() == saved.bytes);
    commanded(&mut session, Call::Collect(4), 14, REFUSED);
    assert!(session.state() == saved.bytes);
    // of input 0 a 9 at 4 waits for this: 9 div −2 is −5, 9 lt −2 is 0; a delay of −2 does not fire
    commanded(&mut session, Call::Reading(1, 4, -2), 0, 0);
    commanded(&mut session, Call::Reading(1, 4, -2), 8, REFUSED);
    commanded(&mut session, Call::Run(64), 0, WAITING);
    replied(&mut session, 2, (4, -5), WAITING);
    replied(&mut session, 3, (4, 0), 0);
    commanded(&mut session, Call::Collect(4), 14, REFUSED);
    assert!(session.rest(100) && session.check_beginning() && session.check_rest());
}

/// An input that holds 16 readings: the offer is refused 9 while an output waits, and taken once there is room.
#[test]
fn a_full_input_goes_on_by_registers() {
    let saved = named("1.4-full.txt");
    let mut session = Session::put_back(&saved);
    commanded(&mut session, Call::Reading(0, 31, 5), 9, REFUSED | WAITING);
    assert!(session.state() == saved.bytes);
    commanded(&mut session, Call::Reading(1, 0, 10), 0, WAITING);
    commanded(&mut session, Call::Reading(0, 31, 5), 9, REFUSED | WAITING);
    // −8 + 10 at 0; the add is past it, and 15 readings are held
    commanded(&mut session, Call::Run(64), 0, WAITING);
    commanded(&mut session, Call::Reading(0, 31, 5), 0, WAITING);
    commanded(&mut session, Call::Reading(0, 32, 5), 9, REFUSED | WAITING);
    replied(&mut session, 2, (0, 2), WAITING);
    commanded(&mut session, Call::Collect(2), 14, REFUSED | WAITING);
    // neg has 15 events from 2 to 30 and then that of 31
    commanded(&mut session, Call::Run(64), 0, WAITING);
    for t in (2..32).step_by(2) {
        replied(&mut session, 3, (t, 8 - t as i64), WAITING);
    }
    replied(&mut session, 3, (31, -5), 0);
    assert!(session.rest(100) && session.check_beginning() && session.check_rest());
}

// ---- states saved before the windows

/// What an earlier version left has nothing where windows keep their values.
#[test]
fn behind_the_records_of_an_earlier_state_all_is_0() {
    for (name, saved) in states() {
        let earlier = ["1.1-", "1.2-", "1.3-", "1.4-", "1.5-"].iter().any(|version| name.starts_with(version));
        assert!(earlier || ["1.6-", "1.7-", "1.8-"].iter().any(|version| name.starts_with(version)), "{name}: of which version?");
        assert!(!earlier || (saved.bytes[8192..].iter().all(|&x| x == 0) && windows(&saved.plan).is_empty()), "{name}");
    }
}

/// Signal forms go on from the latest values that they keep, and so does a sum of three that is spelled out by lasts.
#[test]
fn signals_and_lasts_go_on() {
    let mut session = Session::put_back(&named("1.5-signals.txt"));
    // input 0 had 5, 7 and −9 at 1, 4 and 6, input 1 100 at 2 and is known to 5. At 6: the reading before is 7, the one before that 5,
    // and −9 + 7 + 5. The forms wait for input 1
    runs(&mut session, 64, 4);
    collected(&mut session, 7, &[(6, 3)]);
    collected(&mut session, 2, &[(4, 107)]);
    collected(&mut session, 3, &[(2, 0), (4, 0)]);
    // −9 + 100 at 6, below 100; −9 − 50 at 8, below −50
    numbers(&mut session, &[(Call::Reading(1, 8, -50), 0), (Call::Progress(0, 9), 0), (Call::Run(64), 0)]);
    collected(&mut session, 2, &[(6, 91), (8, -59)]);
    collected(&mut session, 3, &[(6, 1), (8, 1)]);
    assert!(session.rest(100) && session.check_beginning() && session.check_rest());
}

/// A timer that was set when the copy was made rings, or is cut by the next reading.
#[test]
fn a_pending_timer_goes_on() {
    let saved = named("1.5-timers.txt");
    // set at 3 to ring at 13; input 0 is known to 8
    let mut session = Session::put_back(&saved);
    numbers(&mut session, &[(Call::Progress(0, 14), 0), (Call::Run(64), 0)]);
    collected(&mut session, 2, &[(13, 0)]);
    collected(&mut session, 3, &[(3, 3)]);
    collected(&mut session, 4, &[]);
    assert!(session.rest(100) && session.check_beginning() && session.check_rest());
    // a reading of 5 at 9: 9 + 10 in place of 13, and 9 + 5 of the other
    let mut session = Session::put_back(&saved);
    numbers(&mut session, &[(Call::Reading(0, 9, 5), 0)]);
    runs(&mut session, 64, 4);
    collected(&mut session, 2, &[]);
    collected(&mut session, 3, &[(3, 3), (9, 9)]);
    numbers(&mut session, &[(Call::Progress(0, 20), 0)]);
    // set and time once, each timer rings and is silent after
    runs(&mut session, 64, 1 + 2 + 1 + 2);
    collected(&mut session, 2, &[(19, 0)]);
    collected(&mut session, 4, &[(14, 0)]);
    assert!(session.rest(100) && session.check_beginning() && session.check_rest());
}

/// Outputs that were full: what waited comes in as they are collected, and a reading is taken once both readers are past one.
#[test]
fn full_outputs_go_on() {
    let mut session = Session::put_back(&named("1.5-full.txt"));
    let first = |value: i64| Answer { value, ..Answer::default() };
    numbers(&mut session, &[(Call::Reading(0, 32, 32), 9)]);
    runs(&mut session, 64, 0);
    // 16 · 3 at 16 comes in, 17 · 3 at 17 waits; neg is full still, and so is the input
    assert_eq!(session.call(Call::Collect(2)), first(0));
    runs(&mut session, 64, 1);
    numbers(&mut session, &[(Call::Reading(0, 32, 32), 9)]);
    assert_eq!(session.call(Call::Collect(3)), first(0));
    runs(&mut session, 64, 1);
    numbers(&mut session, &[(Call::Reading(0, 32, 32), 0), (Call::Reading(0, 33, 33), 9)]);
    assert_eq!((layout::bound(session.state(), 2), layout::bound(session.state(), 3)), (17, 17));
    assert!(session.rest(200) && session.check_beginning() && session.check_rest());
    assert_eq!(session.handed[2], (0..=32).map(|t| (t, 3 * t as i64)).collect::<Vec<_>>());
    assert_eq!(session.handed[3], (0..=32).map(|t| (t, -(t as i64))).collect::<Vec<_>>());
}

// ---- states saved before the faster space test

/// What was held is let go as the slowest reader passes it.
#[test]
fn held_readings_go_on() {
    let mut session = Session::put_back(&named("1.6-readers.txt"));
    let held = |session: &Session| layout::held(session.state(), 0).len();
    assert_eq!(held(&session), 16);
    // 12 readers have passed all 16, reader 13 eight, reader 20 two and reader 31 one. Once the 18 from 13 to 30 are done, the reading
    // at 0 is let go, which reader 31 has passed, and no other
    runs(&mut session, 18 * 16 - 8 - 2, 18 * 16 - 8 - 2);
    assert_eq!((held(&session), layout::bound(session.state(), 30), layout::bound(session.state(), 31)), (15, 46, 1));
    runs(&mut session, 999, 15);
    assert_eq!(held(&session), 0);
    assert!(session.rest(100) && session.check_beginning() && session.check_rest());
}

/// Readers ahead and behind, by delayed arguments and others.
#[test]
fn readers_of_every_kind_go_on() {
    let mut session = Session::put_back(&named("1.6-delayed.txt"));
    // input 0 had 4, 3 and 9 at 1, 2 and 5, input 1 events at 1 and 4; both are known to 6. neg and add wait for 2 and 5, merge for 4
    // and 5, the window for 5; the delay is silent up to 7, as input 0 has nothing at 4; last is done
    assert_eq!(layout::held(session.state(), 0), [(2, 3), (5, 9)]);
    runs(&mut session, 99, 2 + 2 + 2 + 1 + 1);
    assert!(layout::held(session.state(), 0).is_empty() && layout::held(session.state(), 1).is_empty());
    assert_eq!(layout::window(session.state(), 7), [3, 9]);
    collected(&mut session, 5, &[(2, 6), (5, 18)]);
    // strictly before 4: the 3 of 2
    collected(&mut session, 2, &[(4, 3)]);
    collected(&mut session, 3, &[]);
    assert!(session.rest(100) && session.check_beginning() && session.check_rest());
}

/// Windows go on from the values that they keep.
#[test]
fn windows_go_on() {
    let mut session = Session::put_back(&named("1.6-windows.txt"));
    // the greatest value is at 4; the third window, of 8, has passed none of the seven readings
    runs(&mut session, 99, 7);
    // 7 − 3; −3 + greatest + 1; 1 + 20 − 8; 20 − 8 + 4. At 4 and 8 the sum is out of range
    collected(&mut session, 1, &[(2, 4), (6, i64::MAX - 2), (10, 13), (20, 16)]);
    collected(&mut session, 2, &[(2, -3), (4, -3), (6, 1), (8, 1), (10, -8), (20, -8)]);
    let greatest: Vec<(u32, i64)> = [4, 6, 8, 10, 20].map(|t| (t, i64::MAX)).to_vec();
    collected(&mut session, 3, &[vec![(0, 7), (2, 7)], greatest].concat());
    // −8 + 4 − 50
    numbers(&mut session, &[(Call::Reading(0, 21, -50), 0)]);
    runs(&mut session, 99, 3);
    collected(&mut session, 1, &[(21, -54)]);
    assert!(session.rest(100) && session.check_beginning() && session.check_rest());
}

// ---- states saved before the counts: "an older state counts from its first move here"

/// Each is read with 0 and 0 of every stream, whatever was missing before, and neither an offer nor a collect changes that.
#[test]
fn an_earlier_state_has_no_counts() {
    let (mut earlier, mut missed) = (0, 0);
    for (name, saved) in states().into_iter().filter(|(_, saved)| saved.before_counts()) {
        earlier += 1;
        assert!(saved.bytes == layout::without_counts(&saved.bytes), "{name}");
        let mut session = Session::put_back(&saved);
        let mut anew = Session::load(&saved.plan);
        for (call, _) in &saved.calls {
            anew.call(*call);
        }
        let all_0 = |session: &mut Session| {
            for stream in 0..saved.plan.len() as u32 {
                assert_eq!(session.missing(stream), (0, Missing::default()), "{name}: stream {stream}");
            }
        };
        all_0(&mut session);
        missed += (0..saved.plan.len() as u32).filter(|&stream| anew.missing(stream).1 != Missing::default()).count();
        for s in session.inputs() {
            session.call(Call::Progress(s as u32, (session.known[s] + 7).min(HORIZON)));
        }
        for s in session.outputs() {
            session.call(Call::Collect(s as u32));
        }
        all_0(&mut session);
    }
    assert!(earlier >= 22 && missed >= 15, "only {earlier} states, {missed} streams that would have counts");
}

/// The counts of streams, as (stream, outside, zero).
fn counts(session: &mut Session, wanted: &[(u32, u32, u32)]) {
    for &(stream, outside, zero) in wanted {
        missing(session, stream, outside, zero);
    }
}

/// Case 8.9: divisors of 0 and the least value by −1, before the copy and after it.
#[test]
fn case_8_9_divisions_count_from_the_first_move() {
    let saved = named("1.7-division.txt");
    let mut session = Session::put_back(&saved);
    counts(&mut session, &[(2, 0, 0), (3, 0, 0), (4, 0, 0), (5, 0, 0)]);
    // 6 by 0 at 1, the least by −1 at 2, 7 by 2 at 3, then 0 alone at 4, the least by 0 at 5, 5 by −2 at 6. div is known to 4: 5 is
    // missing. rem is known to 3 and moves twice. sdiv has not moved: 1 and 2 are missing, then 4 and 5. srem is known to 4: 4 and 5
    runs(&mut session, 99, 1 + 2 + 2 + 1);
    counts(&mut session, &[(2, 0, 1), (3, 0, 1), (4, 1, 3), (5, 0, 2)]);
    collected(&mut session, 2, &[(6, -3)]);
    collected(&mut session, 4, &[(3, 3), (6, -3)]);
    collected(&mut session, 5, &[(2, 0), (3, 1), (6, -1)]);
    // had they been counted: 1 and 2 of div as well, 1 of both remainders
    let mut anew = Session::load(&saved.plan);
    for (call, _) in &saved.calls {
        anew.call(*call);
    }
    counts(&mut anew, &[(2, 1, 1), (3, 0, 1), (4, 0, 0), (5, 0, 1)]);
    runs(&mut anew, 99, 6);
    counts(&mut anew, &[(2, 1, 2), (3, 0, 2), (4, 1, 3), (5, 0, 3)]);
    assert!(session.check_missing().is_some() && anew.check_missing().is_some());
}

/// Sums, products and a window out of range: what a window keeps from before makes sums missing after.
#[test]
fn sums_count_from_the_first_move() {
    let mut session = Session::put_back(&named("1.7-sums.txt"));
    counts(&mut session, &[(1, 0, 0), (2, 0, 0), (3, 0, 0), (4, 0, 0), (6, 0, 0), (7, 0, 0), (8, 0, 0)]);
    // the greatest at 1 and 2, the least at 3, 5 at 4, the greatest at 6 and 7; beside them 1, 2, −1 at 1 to 3 and 1 at 6.
    // plus, from 4: 6; 6 and 7 are missing. neg, from 2: 3 is missing, four events. The sum of two, from 4 with the least kept: at 4,
    // then 6 and 7 are missing. wmax: six events. add, from 4: 6 is missing. smul, from 0: at 1, 4 and 6; 2 and 3 are missing. The
    // square, from 0: at 4 alone
    runs(&mut session, 99, 2 + 4 + 2 + 6 + 1 + 3 + 2);
    counts(&mut session, &[(0, 0, 0), (1, 2, 0), (2, 1, 0), (3, 2, 0), (4, 0, 0), (5, 0, 0), (6, 1, 0), (7, 2, 0), (8, 5, 0)]);
    collected(&mut session, 3, &[(3, -1), (4, i64::MIN + 5)]);
    collected(&mut session, 6, &[]);
    assert!(session.check_missing().is_some());
    // the window has the greatest twice: the next two sums are missing as well
    numbers(&mut session, &[(Call::Reading(0, 8, i64::MAX), 0), (Call::Reading(0, 9, 1), 0)]);
    runs(&mut session, 99, 1 + 2 + 1 + 2 + 1);
    counts(&mut session, &[(3, 4, 0), (1, 3, 0), (8, 6, 0)]);
    assert!(session.check_missing().is_some());
}

/// An output that was full: what was passed before the copy stays uncounted, the event that waited comes in uncounted, and the stamp
/// after it counts.
#[test]
fn a_full_output_counts_from_the_first_move() {
    let mut session = Session::put_back(&named("1.7-full.txt"));
    assert_eq!(layout::bound(session.state(), 2), 18);
    runs(&mut session, 9, 0);
    counts(&mut session, &[(2, 0, 0)]);
    assert_eq!(session.call(Call::Collect(2)), Answer { value: 10, ..Answer::default() });
    counts(&mut session, &[(2, 0, 0)]);
    // 9 by 2 at 18 comes in
    runs(&mut session, 1, 1);
    counts(&mut session, &[(2, 0, 0)]);
    // past 9 by 0 at 19 to 8 by 2 at 20, which waits
    runs(&mut session, 9, 1);
    assert_eq!(layout::bound(session.state(), 2), 20);
    counts(&mut session, &[(2, 0, 1)]);
    numbers(&mut session, &[(Call::Collect(2), 0)]);
    runs(&mut session, 9, 1);
    counts(&mut session, &[(2, 0, 1)]);
    assert!(session.rest(99) && session.check_beginning() && session.check_rest() && session.check_missing().is_some());
}

// ---- states saved before the longer state: each goes on where it is and, by put_back, widened; here also in the longer state alone

/// Put back, and its widened copy alone in a buffer of the longer length.
fn in_both(name: &str) -> [Session; 2] {
    let session = Session::put_back(&named(name));
    let mut long = session.clone();
    long.states = std::mem::take(&mut long.twins);
    assert_eq!((session.size(), long.size()), (Size::Short, Size::Long));
    [session, long]
}

/// What was counted before the copy stays, and what is missing after it is added.
#[test]
fn counts_go_on() {
    for mut session in in_both("1.8-counts.txt") {
        // div: the least by −1 at 1 and 6 by 0 at 2. wsum: 6 and the greatest at 3. smul: the least by −1 at 1. neg has not moved
        counts(&mut session, &[(2, 1, 1), (3, 1, 0), (4, 1, 0), (5, 0, 0)]);
        // div: 1 by 0 at 4, the greatest by 3 at 5. wsum: out of range at 4 and 5. smul: the greatest twice at 3, 1 by 0 at 4 is 0, three
        // times the greatest at 5. neg: none of the least at 1, then four
        runs(&mut session, 99, 1 + 1 + 2 + 4);
        counts(&mut session, &[(2, 1, 2), (3, 3, 0), (4, 3, 0), (5, 1, 0)]);
        collected(&mut session, 2, &[(5, 3_074_457_345_618_258_602)]);
        collected(&mut session, 3, &[(1, i64::MIN), (2, i64::MIN + 6)]);
        assert!(session.rest(99) && session.check_beginning() && session.check_rest() && session.check_missing().is_some());
    }
}

/// Windows that were not full: what they keep lies behind 32 records or behind 64, and goes on from there.
#[test]
fn half_full_windows_go_on() {
    for mut session in in_both("1.8-windows.txt") {
        let window = |session: &Session, stream: usize| layout::window(session.state(), stream);
        assert_eq!(layout::window_at(session.state(), 5), session.size().windows() + 3 * 512);
        assert_eq!([1, 2, 3, 5].map(|stream| window(&session, stream)), [vec![5, -3, 8], vec![5, -3], vec![5, -3, 8, 2], vec![100]]);
        // 5 − 3 + 8 + 2; the least of 5, −3 and 8, then of −3, 8 and 2; 100 − 100
        runs(&mut session, 99, 1 + 2 + 1);
        collected(&mut session, 1, &[(2, 2), (3, 10), (4, 12)]);
        collected(&mut session, 2, &[(1, 5), (2, -3), (3, -3), (4, -3)]);
        collected(&mut session, 3, &[(2, 5), (3, 8), (4, 8)]);
        assert_eq!([1, 2, 3, 5].map(|stream| window(&session, stream)), [vec![5, -3, 8, 2], vec![-3, 8, 2], vec![5, -3, 8, 2], vec![100, -100]]);
        numbers(&mut session, &[(Call::Reading(0, 5, -9), 0)]);
        runs(&mut session, 99, 3);
        collected(&mut session, 1, &[(5, 3)]);
        collected(&mut session, 2, &[(5, -9)]);
        collected(&mut session, 3, &[(5, 8)]);
        assert!(session.rest(99) && session.check_beginning() && session.check_rest());
    }
}

/// Nothing is held: what the delays keep decides. Set at 1 to ring 10 later; input 0 had 6 at 4, just below their bound.
#[test]
fn what_delays_keep_goes_on() {
    let records = Found::read(&named("1.8-delays.txt").bytes).expect("a state").records;
    for delay in [&records[2], &records[5]] {
        assert_eq!((delay.bound, delay.since, delay.value, delay.prior), (5, 2, Some(10), Some(6)));
    }
    assert!(records.iter().all(|record| record.held.is_empty()));
    // the second timer is set anew by the first one's ringing, to 5 later
    let ways: [(&[Call], &[(u32, i64)], &[(u32, i64)]); 3] = [
        (&[], &[(11, 0)], &[(11, 0), (16, 0)]),
        // input 1 at 4, where input 0 had 6
        (&[Call::Reading(1, 4, 1)], &[(10, 0)], &[(10, 0), (15, 0)]),
        // and at 5, where it has nothing
        (&[Call::Reading(1, 5, 1)], &[], &[]),
    ];
    for (calls, first, second) in ways {
        for mut session in in_both("1.8-delays.txt") {
            for call in calls {
                numbers(&mut session, &[(*call, 0)]);
            }
            numbers(&mut session, &[(Call::Progress(0, 30), 0), (Call::Progress(1, 30), 0), (Call::Run(99), 0)]);
            collected(&mut session, 2, first);
            collected(&mut session, 5, second);
            assert!(session.rest(99) && session.check_beginning() && session.check_rest());
        }
    }
}

/// No test: to save a state with the library of today, write a file with the two lines of head, the plan and the calls, and
/// `cargo test --test states -- --ignored` fills in the answers and the bytes. A file that has bytes stays as it is.
#[test]
#[ignore]
fn fill_in_new_files() {
    for path in files() {
        let mut saved = read(&fs::read_to_string(&path).unwrap());
        if !saved.bytes.is_empty() {
            continue;
        }
        saved.bytes = vec![0; STATE_LENGTH];
        assert_eq!(LIBRARY.load(&mut saved.bytes, text_of(&saved.plan).as_bytes()), 0);
        for (call, answer) in &mut saved.calls {
            *answer = LIBRARY.call(&mut saved.bytes, *call);
        }
        fs::write(&path, write(&saved)).unwrap();
    }
}
