//! States that no call leaves, each worked out by hand from documents 01 and 02 and docs/DECISIONS.md: a delay ahead of its
//! second argument, or with events of its own; a signal form or a window ahead of an argument. Streams 0 and 1 are the inputs a and
//! b, stream 2 is the delay, the form or the window, an output. Each in 12,288 bytes and, widened, in 20,480.

use host::buffer::Lent;
use host::engine::{engines, Answer, Call, Missing};
use host::found::{Found, Record};
use host::layout::widened;
use host::plan::{short, text_of};

const DELAY: &str = "in; in; delay 0 1 out";
const SUM: &str = "in; in; sadd 0 1 out";
const OF_THREE: &str = "in; in; wsum 0 k3 out";

fn record(bound: u64, held: &[(u32, i64)]) -> Record {
    Record { bound, held: held.iter().copied().collect(), ..Record::default() }
}

fn bytes(plan: &str, a: Record, b: Record, third: Record) -> Vec<u8> {
    Found { plan: short(plan), records: vec![a, b, third], ..Found::default() }.bytes()
}

fn number(number: u32) -> Answer {
    Answer { number, ..Answer::default() }
}

fn event(stamp: u32) -> Answer {
    Answer { stamp, ..Answer::default() }
}

/// Every call but load refuses the state, and load fills it.
fn refused(state: &[u8]) {
    refused_in(state);
    refused_in(&widened(state));
}

fn refused_in(state: &[u8]) {
    assert_eq!(Found::read(state), None);
    let text = text_of(&short(DELAY));
    for engine in engines() {
        for call in [Call::Reading(1, 30, 1), Call::Progress(1, 30), Call::Move(2), Call::Run(1), Call::Collect(2), Call::Move(9)] {
            let mut lent = Lent::of(state);
            assert_eq!(engine.call(&mut lent, call), number(15), "{}: {call:?}", engine.name);
            assert!(lent[..] == *state && lent.untouched());
        }
        let (mut lent, mut fresh) = (Lent::of(state), Lent::of(&vec![0; state.len()]));
        assert_eq!(engine.load(&mut lent, text.as_bytes()), 0);
        assert_eq!(engine.load(&mut fresh, text.as_bytes()), 0);
        assert!(lent[..] == fresh[..]);
    }
}

/// The calls with their answers, on both engines and the model; then the third record.
fn gives(state: &[u8], calls: &[(Call, Answer)], third: Record) {
    gives_in(state, calls, &third);
    gives_in(&widened(state), calls, &third);
}

fn gives_in(state: &[u8], calls: &[(Call, Answer)], third: &Record) {
    let mut model = Found::read(state).expect("a state");
    for (call, answer) in calls {
        assert_eq!(model.call(*call), *answer, "the model: {call:?}");
    }
    assert_eq!(model.records[2], *third, "the model");
    for engine in engines() {
        let mut lent = Lent::of(state);
        for (call, answer) in calls {
            assert_eq!(engine.call(&mut lent, *call), *answer, "{}: {call:?}", engine.name);
        }
        assert!(lent[..] == model.bytes()[..], "{}: another state than the model's", engine.name);
        assert_eq!(Found::read(&lent).expect("a state").records[2], *third, "{}", engine.name);
        assert!(lent.untouched());
    }
}

#[test]
fn a_since_not_past_the_own_events_has_no_meaning() {
    // a is known to 5, b to 20; the delay, known to 10, has an event of its own at 9
    let state = |since| bytes(DELAY, record(5, &[]), record(20, &[]), Record { since, ..record(10, &[(9, 0)]) });
    for since in [0, 1, 8, 9, 11] {
        refused(&state(since));
    }
    // the set point 9 does not lie below a's bound 5, so the reach is 10 at most: it cannot move
    let delay = Record { since: 10, ..record(10, &[(9, 0)]) };
    gives(&state(10), &[(Call::Move(2), number(12)), (Call::Run(5), number(0))], delay);
    // once a is known to be silent at 9, it is silent up to one past b's bound
    let delay = Record { since: 10, ..record(21, &[(9, 0)]) };
    gives(&state(10), &[(Call::Progress(0, 10), number(0)), (Call::Move(2), number(0)), (Call::Move(2), number(12))], delay);
}

#[test]
fn an_own_event_sets_the_delay_again() {
    // a is known to 10 and has 5 at 9, where the delay has an event: due at 14
    let state = |since| bytes(DELAY, record(10, &[(9, 5)]), record(20, &[]), Record { since, ..record(10, &[(9, 0)]) });
    for since in [0, 9] {
        refused(&state(since));
    }
    // that firing is a set point too, and a is not known there
    let calls = [
        (Call::Move(2), number(0)), (Call::Move(2), number(12)), (Call::Collect(2), event(9)), (Call::Collect(2), event(14)),
        (Call::Collect(2), number(14)),
    ];
    gives(&state(10), &calls, Record { since: 15, mark: 15, ..record(15, &[]) });
}

/// The delay is known to 10, its latest set point is 0 with a's 20 there, so it is due at 20; just below its bound a has 4.
/// b is known to 5 only.
fn due_at_20() -> Vec<u8> {
    bytes(DELAY, record(30, &[]), record(5, &[]), Record { since: 1, value: Some(20), prior: Some(4), ..record(10, &[]) })
}

#[test]
fn without_a_reading_of_b_it_fires() {
    let calls = [(Call::Progress(1, 30), number(0)), (Call::Move(2), number(0)), (Call::Collect(2), event(20))];
    gives(&due_at_20(), &calls, Record { since: 21, mark: 21, ..record(21, &[]) });
}

#[test]
fn a_reading_of_b_below_the_bound_is_kept_as_a_set_point() {
    // b at 6 lies strictly between 0 and 20: nothing at 20; a's event at 6 is not known
    let calls = [(Call::Reading(1, 6, 1), number(0))];
    gives(&due_at_20(), &calls, Record { since: 7, prior: Some(4), ..record(10, &[]) });
    let calls = [
        (Call::Reading(1, 6, 1), number(0)), (Call::Progress(1, 30), number(0)), (Call::Move(2), number(0)), (Call::Move(2), number(12)),
        (Call::Collect(2), number(14)),
    ];
    gives(&due_at_20(), &calls, Record { since: 7, ..record(31, &[]) });
}

#[test]
fn just_below_the_bound_a_is_known() {
    // b at 9, with a's 4 there: due at 13
    let calls = [(Call::Reading(1, 9, 1), number(0))];
    gives(&due_at_20(), &calls, Record { since: 10, value: Some(4), prior: Some(4), ..record(10, &[]) });
    let calls = [
        (Call::Reading(1, 9, 1), number(0)), (Call::Progress(1, 30), number(0)), (Call::Move(2), number(0)), (Call::Collect(2), event(13)),
        (Call::Collect(2), number(14)),
    ];
    gives(&due_at_20(), &calls, Record { since: 14, mark: 14, ..record(14, &[]) });
}

#[test]
fn a_reading_of_b_before_the_latest_set_point_changes_nothing() {
    // the set point 8 with a's 12: due at 20, whatever b had at 7
    let state = bytes(DELAY, record(30, &[]), record(5, &[]), Record { since: 9, value: Some(12), ..record(10, &[]) });
    let calls = [(Call::Reading(1, 7, 1), number(0))];
    gives(&state, &calls, Record { since: 9, value: Some(12), ..record(10, &[]) });
    let calls = [
        (Call::Reading(1, 7, 1), number(0)), (Call::Progress(1, 30), number(0)), (Call::Move(2), number(0)), (Call::Collect(2), event(20)),
    ];
    gives(&state, &calls, Record { since: 21, mark: 21, ..record(21, &[]) });
}

#[test]
fn what_is_kept_stands_for_the_earlier_set_points() {
    // b and a have events at 3, which would lead to 11; the latest set point below the bound 6 is the delay's own at 5
    let state = bytes(DELAY, record(20, &[(3, 8)]), record(20, &[(3, 1)]), Record { since: 6, ..record(6, &[(5, 0)]) });
    let calls = [(Call::Move(2), number(0)), (Call::Move(2), number(12)), (Call::Collect(2), event(5)), (Call::Collect(2), number(14))];
    gives(&state, &calls, Record { since: 6, mark: 6, ..record(21, &[]) });
}

// ---- signal forms

/// Both arguments are known to 5, the form to 10, with these latest values of a and b.
fn ahead_by_5(first: Option<i64>, second: Option<i64>) -> Vec<u8> {
    bytes(SUM, record(5, &[]), record(5, &[]), Record { latest: [first, second], ..record(10, &[]) })
}

fn value(stamp: u32, value: i64) -> Answer {
    Answer { stamp, value, ..Answer::default() }
}

#[test]
fn a_form_is_not_told_of_what_comes_in_below_its_bound() {
    // nobody waits for a's 4 at 7, and the form goes on with the 3 that it has
    let calls = [(Call::Move(2), number(12)), (Call::Reading(0, 7, 4), number(0)), (Call::Move(2), number(12)), (Call::Run(9), number(0))];
    gives(&ahead_by_5(Some(3), Some(2)), &calls, Record { latest: [Some(3), Some(2)], ..record(10, &[]) });
    // b's 1 at 12, with a's 3: 4, not 5
    let calls = [
        (Call::Reading(0, 7, 4), number(0)), (Call::Reading(1, 12, 1), number(0)), (Call::Progress(0, 13), number(0)), (Call::Move(2), number(0)),
        (Call::Collect(2), value(12, 4)), (Call::Collect(2), number(14)),
    ];
    gives(&ahead_by_5(Some(3), Some(2)), &calls, Record { latest: [Some(3), Some(1)], mark: 13, ..record(13, &[]) });
    // the same of b: a's 1 at 12, with b's 2, not with the 4 at 9
    let calls = [
        (Call::Reading(1, 9, 4), number(0)), (Call::Reading(0, 12, 1), number(0)), (Call::Progress(1, 13), number(0)), (Call::Move(2), number(0)),
        (Call::Collect(2), value(12, 3)), (Call::Collect(2), number(14)),
    ];
    gives(&ahead_by_5(Some(3), Some(2)), &calls, Record { latest: [Some(1), Some(2)], mark: 13, ..record(13, &[]) });
    // nor does it then have one: no event at 12
    let calls = [
        (Call::Reading(0, 7, 4), number(0)), (Call::Reading(1, 12, 1), number(0)), (Call::Progress(0, 13), number(0)), (Call::Move(2), number(0)),
        (Call::Collect(2), number(14)),
    ];
    gives(&ahead_by_5(None, Some(2)), &calls, Record { latest: [None, Some(1)], ..record(13, &[]) });
}

#[test]
fn a_held_event_counts_before_the_kept_value() {
    // a holds its 4 at 7, below the form's bound 10; b's 1 at 12 comes in: 4 + 1
    let form = Record { latest: [Some(3), Some(2)], ..record(10, &[]) };
    let state = bytes(SUM, record(8, &[(7, 4)]), record(5, &[]), form.clone());
    let calls = [
        (Call::Reading(1, 12, 1), number(0)), (Call::Progress(0, 13), number(0)), (Call::Move(2), number(0)), (Call::Collect(2), value(12, 5)),
    ];
    gives(&state, &calls, Record { latest: [Some(4), Some(1)], mark: 13, ..record(13, &[]) });
    // without an event of either from its bound on it only takes the 4 in
    let state = bytes(SUM, record(8, &[(7, 4)]), record(20, &[]), form);
    let calls = [(Call::Progress(0, 15), number(0)), (Call::Move(2), number(0)), (Call::Collect(2), number(14)), (Call::Move(2), number(12))];
    gives(&state, &calls, Record { latest: [Some(4), Some(2)], ..record(15, &[]) });
}

#[test]
fn a_full_form_takes_in_what_lies_below_the_waiting_event() {
    // 16 events held; the next one, at 18, waits; a's 6 at 17 lies below the new bound 18, b's 1 at 18 does not
    let held: Vec<(u32, i64)> = (0..16).map(|t| (t, 9)).collect();
    let form = Record { latest: [Some(3), None], ..record(16, &held) };
    let state = bytes(SUM, record(20, &[(17, 6)]), record(20, &[(18, 1)]), form);
    let calls = [(Call::Move(2), number(0)), (Call::Move(2), number(12))];
    gives(&state, &calls, Record { latest: [Some(6), None], ..record(18, &held) });
    // one collected: 6 + 1 at 18
    let calls = [(Call::Move(2), number(0)), (Call::Collect(2), value(0, 9)), (Call::Move(2), number(0))];
    let held: Vec<(u32, i64)> = (1..16).map(|t| (t, 9)).chain([(18, 7)]).collect();
    gives(&state, &calls, Record { latest: [Some(6), Some(1)], mark: 1, ..record(19, &held) });
}

#[test]
fn kept_values_without_a_meaning() {
    // a 0 that is there is not the same as none
    for kept in [[Some(3), None], [None, Some(3)], [Some(0), Some(0)], [None, None]] {
        gives(&ahead_by_5(kept[0], kept[1]), &[(Call::Run(9), number(0))], Record { latest: kept, ..record(10, &[]) });
    }
    let form = 2 * 256;
    let changed = |changes: &[(usize, u8)]| {
        let mut state = ahead_by_5(Some(3), None);
        for (at, byte) in changes {
            state[form + at] = *byte;
        }
        state
    };
    // with bound 0 nothing is kept, be it a 0
    for kept in [[Some(3), None], [None, Some(3)], [Some(0), None], [None, Some(0)], [Some(0), Some(0)]] {
        refused(&bytes(SUM, record(5, &[]), record(5, &[]), Record { latest: kept, ..record(0, &[]) }));
    }
    // flags of 2, of 255
    for (flag, byte) in [(5, 2), (6, 2), (5, 255), (6, 255)] {
        refused(&changed(&[(flag, byte)]));
    }
    // a word with flag 0, by its first byte or its last
    for at in [40, 47] {
        refused(&changed(&[(at, 1)]));
    }
    refused(&changed(&[(5, 0)]));
    refused(&changed(&[(5, 0), (32, 0), (39, 1)]));
    // bytes 48 to 55
    for at in 48..56 {
        refused(&changed(&[(at, 1)]));
    }
    // all of that on the record of an add: it keeps nothing
    for changes in [&[(0, 8)][..], &[(0, 8), (5, 0)], &[(0, 8), (32, 0)]] {
        refused(&changed(changes));
    }
}

// ---- windows

/// A window of three with these values, known to a bound.
fn window(bound: u64, values: &[i64]) -> Record {
    Record { window: values.to_vec(), ..record(bound, &[]) }
}

#[test]
fn a_window_is_not_told_of_what_comes_in_below_its_bound() {
    // a is known to 5, the window to 10: nobody waits for a's 4 at 7, and the window goes on with the values that it has
    let state = bytes(OF_THREE, record(5, &[]), record(0, &[]), window(10, &[1, 2]));
    let calls = [(Call::Move(2), number(12)), (Call::Reading(0, 7, 4), number(0)), (Call::Move(2), number(12)), (Call::Run(9), number(0))];
    gives(&state, &calls, window(10, &[1, 2]));
    // 1 + 2 + 8 at 12, then 2 + 8 + 16
    let calls = [
        (Call::Reading(0, 7, 4), number(0)), (Call::Reading(0, 12, 8), number(0)), (Call::Reading(0, 13, 16), number(0)), (Call::Move(2), number(0)),
        (Call::Move(2), number(0)), (Call::Collect(2), value(12, 11)), (Call::Collect(2), value(13, 26)), (Call::Collect(2), number(14)),
    ];
    gives(&state, &calls, Record { mark: 14, ..window(14, &[2, 8, 16]) });
}

#[test]
fn held_events_below_the_bound_are_in_the_window_already() {
    // a holds 4 at 7 and 5 at 9, below the window's bound 10, and 6 at 10; the window never took the 4 in, and does not now
    let state = bytes(OF_THREE, record(11, &[(7, 4), (9, 5), (10, 6)]), record(0, &[]), window(10, &[5]));
    let calls = [(Call::Move(2), number(0)), (Call::Move(2), number(12)), (Call::Collect(2), value(10, 11)), (Call::Collect(2), number(14))];
    gives(&state, &calls, Record { mark: 11, ..window(11, &[5, 6]) });
    // without an event from its bound on it takes nothing in
    let state = bytes(OF_THREE, record(15, &[(7, 4), (9, 5)]), record(0, &[]), window(10, &[5]));
    let calls = [(Call::Move(2), number(0)), (Call::Collect(2), number(14)), (Call::Move(2), number(12))];
    gives(&state, &calls, window(15, &[5]));
    // as it takes in what lies at its bound: none kept, though a is long known
    let state = bytes(OF_THREE, record(15, &[(10, 4), (11, 5)]), record(0, &[]), window(10, &[]));
    let calls = [(Call::Run(9), Answer { moves: 3, ..number(0) }), (Call::Collect(2), value(10, 4)), (Call::Collect(2), value(11, 9))];
    gives(&state, &calls, Record { mark: 12, ..window(15, &[4, 5]) });
}

#[test]
fn a_full_window_takes_in_what_lies_below_the_waiting_event() {
    // 16 events held. 5 + 6 + the greatest at 16 and 6 + twice the greatest at 17 are out of range; at 18 it is the greatest − 1
    let held: Vec<(u32, i64)> = (0..16).map(|t| (t, 9)).collect();
    let readings = [(16, i64::MAX), (17, i64::MAX), (18, i64::MIN)];
    let full = |bound: u64, values: &[i64]| Record { window: values.to_vec(), ..record(bound, &held) };
    let state = bytes(OF_THREE, record(20, &readings), record(0, &[]), full(16, &[4, 5, 6]));
    let calls = [(Call::Move(2), number(0)), (Call::Move(2), number(12))];
    let missing = Missing { outside: 2, zero: 0 };
    gives(&state, &calls, Record { missing, ..full(18, &[6, i64::MAX, i64::MAX]) });
    // one collected: it comes in, and the least value with it
    let calls = [(Call::Move(2), number(0)), (Call::Collect(2), value(0, 9)), (Call::Move(2), number(0)), (Call::Move(2), number(0))];
    let held: Vec<(u32, i64)> = (1..16).map(|t| (t, 9)).chain([(18, i64::MAX - 1)]).collect();
    gives(&state, &calls, Record { window: vec![i64::MAX, i64::MAX, i64::MIN], mark: 1, missing, ..record(20, &held) });
}

#[test]
fn values_that_no_run_has() {
    // fewer values than a has had, zeros, and values that the window's own events contradict
    for values in [&[][..], &[0], &[0, 0, 0], &[i64::MIN, i64::MIN, i64::MAX]] {
        gives(&bytes(OF_THREE, record(9, &[]), record(0, &[]), window(9, values)), &[(Call::Run(9), number(0))], window(9, values));
    }
    // with bound 0 nothing is kept; more than three are never kept
    for (bound, values) in [(0, &[0][..]), (0, &[1, 2, 3]), (9, &[1, 2, 3, 4]), (9, &[0; 64])] {
        refused(&bytes(OF_THREE, record(9, &[]), record(0, &[]), window(bound, values)));
    }
    let good = bytes(OF_THREE, record(9, &[]), record(0, &[]), window(9, &[1, 0]));
    let changed = |at: usize, byte: u8| {
        let mut state = good.clone();
        state[at] = byte;
        state
    };
    // the fill above the width, below it with a value behind; behind the fill; another window; byte 6; words 32 to 55
    for (at, byte) in [(512 + 5, 4), (512 + 5, 255), (512 + 5, 0), (8192 + 16, 1), (8192 + 511, 1), (8192 + 512, 1), (12_287, 1), (512 + 6, 1)] {
        refused(&changed(at, byte));
    }
    for at in 32..56 {
        refused(&changed(512 + at, 1));
    }
    // a 0 that is kept or not: a fill of 1 and of 3 have a meaning
    gives(&changed(512 + 5, 1), &[(Call::Run(9), number(0))], window(9, &[1]));
    gives(&changed(512 + 5, 3), &[(Call::Run(9), number(0))], window(9, &[1, 0, 0]));
}
