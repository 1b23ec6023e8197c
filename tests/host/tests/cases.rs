//! The cases of document 01, M9 as document 02 amends it, and the examples of document 002, each worked out by hand, against the
//! evaluator and against both engines in several orders of calls.

use host::engine::Call;
use host::evaluator::{evaluate, Events, HORIZON};
use host::history::Session;
use host::plan::{short, Op};
use host::random::Random;

type Pairs = &'static [(u32, i64)];

/// The outputs of a plan for the readings of its inputs, each known to `until`: what was worked out by hand is what the
/// definition gives below `until` and what the engines have handed out at rest.
fn gives(plan: &str, inputs: &[(usize, Pairs)], until: u64, expected: &[(usize, Pairs)]) {
    let plan = short(plan);
    let mut readings = vec![Events::new(); plan.len()];
    for (s, events) in inputs {
        assert_eq!(plan[*s].op, Op::In);
        readings[*s] = events.iter().copied().collect();
    }
    let streams = evaluate(&plan, &readings, until, 100_000).expect("few stamps");
    for (s, events) in expected {
        let found: Vec<(u32, i64)> = streams[*s].iter().map(|(t, v)| (*t, *v)).collect();
        assert_eq!(found, *events, "the evaluator, stream {s}");
    }
    for order in 0..6 {
        let handed = offered(&plan, &readings, until, order);
        for (s, events) in expected {
            assert!(plan[*s].out, "stream {s} is an output");
            let below: Vec<(u32, i64)> = handed[*s].iter().copied().filter(|(t, _)| (*t as u64) < until).collect();
            assert_eq!(below, *events, "the engines, stream {s}, order {order}");
        }
    }
}

/// What is handed out at rest when the readings come in one of several orders: input after input from the first or the last
/// one on, by rising stamp, or mixed at random with single moves and collections between.
fn offered(plan: &host::plan::Plan, readings: &[Events], until: u64, order: u64) -> Vec<Vec<(u32, i64)>> {
    let mut session = Session::load(plan);
    let inputs: Vec<usize> = (0..plan.len()).filter(|&s| plan[s].op == Op::In).collect();
    let mut random = Random::of(1, order);
    let mut waiting: Vec<Vec<Call>> = inputs
        .iter()
        .map(|&s| {
            let mut calls: Vec<Call> = readings[s].iter().map(|(t, v)| Call::Reading(s as u32, *t, *v)).collect();
            calls.push(Call::Progress(s as u32, until));
            calls.reverse();
            calls
        })
        .collect();
    while waiting.iter().any(|calls| !calls.is_empty()) {
        let open: Vec<usize> = (0..waiting.len()).filter(|&i| !waiting[i].is_empty()).collect();
        let stamp = |call: &Call| match call {
            Call::Reading(_, t, _) => *t as u64,
            _ => HORIZON,
        };
        let i = match order {
            0 => open[0],
            1 => *open.last().unwrap(),
            2 => *open.iter().min_by_key(|&&i| stamp(waiting[i].last().unwrap())).unwrap(),
            _ => random.pick(&open),
        };
        if order >= 3 && random.chance(60) {
            let s = random.below(plan.len() as u64) as u32;
            let call = match random.below(3) {
                0 => Call::Move(s),
                1 => Call::Run(random.below(6) as u32),
                _ => Call::Collect(s),
            };
            session.call(call);
        }
        let call = *waiting[i].last().unwrap();
        assert_eq!(session.call(call).number, 0, "{call:?} (no case fills an input)");
        waiting[i].pop();
    }
    assert!(session.rest(200_000), "comes to rest");
    session.handed
}

// ---- document 01, "Cases"

const COUNT: &str = "in; unit; set 1 k0; last 5 0; plus 3 k1; merge 4 2 out";

#[test]
fn m1_counting_visits() {
    gives(COUNT, &[(0, &[(3, 7), (5, 7)])], HORIZON, &[(5, &[(0, 0), (3, 1), (5, 2)])]);
}

#[test]
fn m2_a_visit_at_stamp_0_alone() {
    gives(COUNT, &[(0, &[(0, 7)])], HORIZON, &[(5, &[(0, 0)])]);
}

#[test]
fn m3_last_does_not_see_the_same_stamp() {
    gives("in; in; last 0 1 out", &[(0, &[(3, 7)]), (1, &[(3, 0)])], HORIZON, &[(2, &[])]);
}

#[test]
fn m4_last_sees_an_earlier_stamp() {
    gives("in; in; last 0 1 out", &[(0, &[(3, 7)]), (1, &[(4, 0)])], HORIZON, &[(2, &[(4, 7)])]);
}

#[test]
fn m5_a_reset_at_the_due_stamp_does_not_cancel() {
    // b again at 10 is a new set point, but a has no event there
    gives("in; in; delay 0 1 out", &[(0, &[(0, 10)]), (1, &[(0, 0), (10, 0)])], HORIZON, &[(2, &[(10, 0)])]);
}

#[test]
fn m6_a_reset_before_the_due_stamp_cancels() {
    gives("in; in; delay 0 1 out", &[(0, &[(0, 10)]), (1, &[(0, 0), (9, 0)])], HORIZON, &[(2, &[])]);
}

#[test]
fn m7_a_delay_without_a_set_point_fires_nothing() {
    gives("in; in; delay 0 1 out", &[(0, &[(3, 10)]), (1, &[])], HORIZON, &[(2, &[])]);
    gives("in; in; delay 0 1 out", &[(0, &[(3, 10)]), (1, &[(2, 0)])], HORIZON, &[(2, &[])]);
}

#[test]
fn m8_a_delay_of_0_or_less_fires_nothing() {
    gives("in; in; delay 0 1 out", &[(0, &[(3, 0)]), (1, &[(3, 0)])], HORIZON, &[(2, &[])]);
    gives("in; in; delay 0 1 out", &[(0, &[(3, -2)]), (1, &[(3, 0)])], HORIZON, &[(2, &[])]);
}

/// As document 02 amends it: "−7 div 2 is −4, rem 1; 7 div −2 is −4, rem −1".
#[test]
fn m9_a_quotient_goes_down() {
    // −7 = −4 · 2 + 1, 7 = 3 · 2 + 1
    let plan = "in; set 0 k2; div 0 1 out; rem 0 1 out";
    gives(plan, &[(0, &[(1, -7), (2, 7)])], HORIZON, &[(2, &[(1, -4), (2, 3)]), (3, &[(1, 1), (2, 1)])]);
    // the remainder has the divisor's sign, whatever the dividend's: −7 = 3 · −2 − 1, 7 = −4 · −2 − 1
    let plan = "in; set 0 k-2; div 0 1 out; rem 0 1 out";
    gives(plan, &[(0, &[(1, -7), (2, 7)])], HORIZON, &[(2, &[(1, 3), (2, -4)]), (3, &[(1, -1), (2, -1)])]);
}

#[test]
fn m10_the_least_value_divided_by_minus_1() {
    let plan = "in; set 0 k-1; div 0 1 out; rem 0 1 out";
    gives(plan, &[(0, &[(1, i64::MIN)])], HORIZON, &[(2, &[]), (3, &[(1, 0)])]);
}

#[test]
fn m11_the_greatest_square() {
    gives("in; mul 0 0 out", &[(0, &[(4, 3_037_000_499)])], HORIZON, &[(1, &[(4, 9_223_372_030_926_249_001)])]);
}

#[test]
fn m12_a_square_outside_the_values() {
    gives("in; mul 0 0 out", &[(0, &[(4, 3_037_000_500)])], HORIZON, &[(1, &[])]);
}

#[test]
fn a_delay_that_sets_itself_to_the_last_stamp() {
    // 1,000,000,000 apart from 0 on; five thousand million lies past the last stamp
    let fires: Pairs = &[(1_000_000_000, 0), (2_000_000_000, 0), (3_000_000_000, 0), (4_000_000_000, 0)];
    gives("unit; merge 3 0; set 1 k1000000000; delay 2 0 out", &[], HORIZON, &[(3, fires)]);
}

#[test]
fn a_delay_to_the_last_stamp_fires_and_one_past_it_does_not() {
    let plan = "in; set 0 k4294967295; delay 1 0 out";
    gives(plan, &[(0, &[(0, 1)])], HORIZON, &[(2, &[(4_294_967_295, 0)])]);
    gives(plan, &[(0, &[(1, 1)])], HORIZON, &[(2, &[])]);
}

#[test]
fn last_of_itself_is_taken_and_never_has_an_event() {
    gives("last 0 1 out; in", &[(1, &[(0, 1), (3, 2), (4, 3)])], HORIZON, &[(0, &[])]);
}

#[test]
fn zero_divisors_and_overflow_give_no_event() {
    let plan = "in; in; div 0 1 out; rem 0 1 out; add 0 1 out; sub 0 1 out; neg 0 out; plus 0 k1 out";
    // at 1: 5 and 0; at 2: the greatest and 1; at 3: the least and 1
    gives(
        plan,
        &[(0, &[(1, 5), (2, i64::MAX), (3, i64::MIN)]), (1, &[(1, 0), (2, 1), (3, 1)])],
        HORIZON,
        &[
            (2, &[(2, i64::MAX), (3, i64::MIN)]),
            (3, &[(2, 0), (3, 0)]),
            (4, &[(1, 5), (3, i64::MIN + 1)]),
            (5, &[(1, 5), (2, i64::MAX - 1)]),
            (6, &[(1, -5), (2, -i64::MAX)]),
            (7, &[(1, 6), (3, i64::MIN + 1)]),
        ],
    );
}

#[test]
fn comparisons_give_1_or_0() {
    let plan = "in; in; lt 0 1 out; le 0 1 out; eq 0 1 out";
    gives(
        plan,
        &[(0, &[(1, -1), (2, 4), (3, 4), (5, 9)]), (1, &[(1, 1), (2, 4), (3, 3), (4, 9)])],
        HORIZON,
        &[(2, &[(1, 1), (2, 0), (3, 0)]), (3, &[(1, 1), (2, 1), (3, 0)]), (4, &[(1, 0), (2, 1), (3, 0)])],
    );
}

#[test]
fn keep_wants_b_at_the_same_stamp() {
    let inputs: &[(usize, Pairs)] = &[(0, &[(1, 5), (2, 6), (3, 7), (4, 8)]), (1, &[(1, 0), (2, -3), (4, 1), (5, 1)])];
    gives("in; in; keep 0 1 out", inputs, HORIZON, &[(2, &[(2, 6), (4, 8)])]);
}

#[test]
fn a_firing_is_a_set_point() {
    // set at 2 by b: due at 5. At 5 the delay itself sets with a's 4: due at 9. At 9 a has no event.
    gives("in; in; delay 0 1 out", &[(0, &[(2, 3), (5, 4), (7, 1)]), (1, &[(2, 0)])], HORIZON, &[(2, &[(5, 0), (9, 0)])]);
}

#[test]
fn a_set_point_without_a_value_forgets_the_timer() {
    // set at 2: due at 12; b at 4 without a: strictly between, nothing at 12; b at 6 with a: due at 8
    gives("in; in; delay 0 1 out", &[(0, &[(2, 10), (6, 2)]), (1, &[(2, 0), (4, 0), (6, 0)])], HORIZON, &[(2, &[(8, 0)])]);
}

// ---- document 002

#[test]
fn introduction_temperature_within_boundaries() {
    // temperature 6 2 1 5 9: low is temperature < 3, high is 8 < temperature, unsafe is low or high
    let plan = "in; set 0 k3; lt 0 1 out; set 0 k8; lt 3 0 out; add 2 4; set 0 k0; lt 6 5 out";
    gives(
        plan,
        &[(0, &[(1, 6), (2, 2), (3, 1), (4, 5), (5, 9)])],
        HORIZON,
        &[
            (2, &[(1, 0), (2, 1), (3, 1), (4, 0), (5, 0)]),
            (4, &[(1, 0), (2, 0), (3, 0), (4, 0), (5, 1)]),
            (7, &[(1, 0), (2, 1), (3, 1), (4, 0), (5, 1)]),
        ],
    );
}

#[test]
fn introduction_ring_buffer() {
    // numReads is stream 5, numWrites stream 8, their difference with the last known values stream 13, safe stream 15
    let plan = "in; in; unit; last 5 0; plus 3 k1; merge 4 2 out; last 8 1; plus 6 k1; merge 7 2 out; \
                last 8 5; merge 8 9; last 5 8; merge 5 11; sub 10 12 out; set 13 k2; le 13 14 out";
    gives(
        plan,
        &[(0, &[(4, 0), (6, 0)]), (1, &[(1, 0), (2, 0), (3, 0), (5, 0)])],
        HORIZON,
        &[
            (5, &[(0, 0), (4, 1), (6, 2)]),
            (8, &[(0, 0), (1, 1), (2, 2), (3, 3), (5, 4)]),
            (13, &[(0, 0), (1, 1), (2, 2), (3, 3), (4, 2), (5, 3), (6, 2)]),
            (15, &[(0, 1), (1, 1), (2, 1), (3, 0), (4, 1), (5, 0), (6, 1)]),
        ],
    );
    // the difference as a signal form: stream 9
    let plan = "in; in; unit; last 5 0; plus 3 k1; merge 4 2; last 8 1; plus 6 k1; merge 7 2; ssub 8 5 out; set 9 k2; le 9 10 out";
    gives(
        plan,
        &[(0, &[(4, 0), (6, 0)]), (1, &[(1, 0), (2, 0), (3, 0), (5, 0)])],
        HORIZON,
        &[
            (9, &[(0, 0), (1, 1), (2, 2), (3, 3), (4, 2), (5, 3), (6, 2)]),
            (11, &[(0, 1), (1, 1), (2, 1), (3, 0), (4, 1), (5, 0), (6, 1)]),
        ],
    );
}

#[test]
fn introduction_lapse_between_writes() {
    // diff at each write but the first; error is diff − 5 where diff > 5
    let plan = "in; time 0; last 1 0; sub 1 2 out; set 3 k5; lt 4 3; plus 3 k-5; keep 6 5 out";
    gives(
        plan,
        &[(0, &[(2, 0), (6, 0), (13, 0), (18, 0), (24, 0)])],
        HORIZON,
        &[(3, &[(6, 4), (13, 7), (18, 5), (24, 6)]), (7, &[(13, 2), (24, 1)])],
    );
}

#[test]
fn introduction_error_as_soon_as_the_write_is_missing() {
    // 2 → 7 cut by 6; 6 → 11; 13 → 18, where the write at 18 itself does not cut; 18 → 23; 24 → 29
    let error: Pairs = &[(11, 0), (18, 0), (23, 0), (29, 0)];
    gives("in; set 0 k5; delay 1 0 out", &[(0, &[(2, 0), (6, 0), (13, 0), (18, 0), (24, 0)])], HORIZON, &[(2, error)]);
}

#[test]
fn introduction_period() {
    // period := merge(const(5)(delay(period, unit)), 5); without inputs it ticks to the horizon, so only a beginning is taken
    let plan = short("unit; delay 3 0; set 1 k5; merge 2 4 out; set 0 k5");
    let mut session = Session::load(&plan);
    session.call(Call::Run(40));
    while session.call(Call::Collect(3)).number == 0 {
        session.call(Call::Run(10));
        if session.handed[3].len() == 30 {
            break;
        }
    }
    let wanted: Vec<(u32, i64)> = (0..30).map(|i| (5 * i, 5)).collect();
    assert_eq!(session.handed[3], wanted);
    let streams = evaluate(&plan, &vec![Events::new(); 5], 150, 1000).unwrap();
    assert_eq!(streams[3].iter().map(|(t, v)| (*t, *v)).collect::<Vec<_>>(), wanted);
}

#[test]
fn example_1_merge() {
    let inputs: &[(usize, Pairs)] = &[(0, &[(1, 10), (3, 30)]), (1, &[(1, 99), (2, 20)])];
    gives("in; in; merge 0 1 out", inputs, HORIZON, &[(2, &[(1, 10), (2, 20), (3, 30)])]);
}

#[test]
fn example_2_const() {
    let plan = "in; set 0 k7 out; unit; set 2 k1 out; set 2 k0 out";
    gives(plan, &[(0, &[(0, 1), (4, -2)])], HORIZON, &[(1, &[(0, 7), (4, 7)]), (3, &[(0, 1)]), (4, &[(0, 0)])]);
}

#[test]
fn definitions_4_to_6_nil_unit_time() {
    let plan = "in; nil out; unit out; time 0 out";
    gives(plan, &[(0, &[(0, 9), (4_294_967_295, 9)])], HORIZON, &[(1, &[]), (2, &[(0, 0)]), (3, &[(0, 0), (4_294_967_295, 4_294_967_295)])]);
}

#[test]
fn definition_9_last() {
    let inputs: &[(usize, Pairs)] = &[(0, &[(1, 1), (4, 2), (5, 3)]), (1, &[(0, 0), (1, 0), (2, 0), (4, 0), (6, 0)])];
    gives("in; in; last 0 1 out", inputs, HORIZON, &[(2, &[(2, 1), (4, 1), (6, 3)])]);
}

#[test]
fn example_3_signal_lift() {
    // x' has 1 1 2 2 at 1 2 4 6, y' has 10 20 30 at 2 4 6
    let plan = "in; in; last 0 1; merge 0 2 out; last 1 0; merge 1 4 out; add 3 5 out";
    gives(
        plan,
        &[(0, &[(1, 1), (4, 2)]), (1, &[(2, 10), (4, 20), (6, 30)])],
        HORIZON,
        &[(3, &[(1, 1), (2, 1), (4, 2), (6, 2)]), (5, &[(2, 10), (4, 20), (6, 30)]), (6, &[(2, 11), (4, 22), (6, 32)])],
    );
    // in one line
    let inputs: &[(usize, Pairs)] = &[(0, &[(1, 1), (4, 2)]), (1, &[(2, 10), (4, 20), (6, 30)])];
    gives("in; in; sadd 0 1 out", inputs, HORIZON, &[(2, &[(2, 11), (4, 22), (6, 32)])]);
}

#[test]
fn example_4_filter() {
    // the condition known at 1 2 4 5 7 9: none 1 1 0 0 1
    let plan = "in; in; last 0 1; merge 0 2; keep 1 3 out";
    gives(
        plan,
        &[(0, &[(2, 1), (5, 0), (8, 1)]), (1, &[(1, 10), (2, 20), (4, 30), (5, 40), (7, 50), (9, 60)])],
        HORIZON,
        &[(4, &[(2, 20), (4, 30), (9, 60)])],
    );
}

#[test]
fn section_5_count_macro() {
    // c := merge(last(c, a) + 1, 0), with the events 4 5 9
    gives(COUNT, &[(0, &[(4, 0), (5, 0), (9, 0)])], HORIZON, &[(5, &[(0, 0), (4, 1), (5, 2), (9, 3)])]);
}

#[test]
fn section_4_comparison_of_times() {
    // slift(≥)(time(a), time(b)), of section 4's boolean fragment: a's latest time is not before b's
    let plan = "in; in; time 0; time 1; last 2 3; merge 2 4; last 3 2; merge 3 6; le 7 5 out";
    gives(
        plan,
        &[(0, &[(2, 0), (3, 0), (8, 0)]), (1, &[(3, 0), (5, 0)])],
        HORIZON,
        // at 2 b has none yet; at 3 both; at 5 a's 3 against 5; at 8 a's 8 against 5
        &[(8, &[(3, 1), (5, 0), (8, 1)])],
    );
    let inputs: &[(usize, Pairs)] = &[(0, &[(2, 0), (3, 0), (8, 0)]), (1, &[(3, 0), (5, 0)])];
    gives("in; in; time 0; time 1; sle 3 2 out", inputs, HORIZON, &[(4, &[(3, 1), (5, 0), (8, 1)])]);
}

#[test]
fn section_4_transducer_as_a_plan() {
    // "Translating DFST to TeSSLa_bool": states e and o (an even or odd number of p so far), e first; the symbols p and r.
    // Transitions: e p o 1, e r e 3, o p e 2, o r o 4. Streams 5 and 6 are a_e and a_o, 9 to 12 the d of the transitions,
    // 13 and 14 the x. A state is known from stamp 0 on and `last` looks strictly back, so the word begins at stamp 1.
    let plan = "in; in; merge 0 1; unit; set 3 k1; merge 13 4 out; merge 14 3 out; last 5 2; last 6 2; \
                mul 7 0; mul 7 1; mul 8 0; mul 8 1; add 11 10; add 9 12; \
                set 9 k1; keep 15 9; set 10 k3; keep 17 10; set 11 k2; keep 19 11; set 12 k4; keep 21 12; \
                merge 16 18; merge 20 22; merge 23 24 out";
    // the word p r r p p r: e, o, o, o, e, o, o
    gives(
        plan,
        &[(0, &[(1, 1), (2, 0), (3, 0), (4, 1), (5, 1), (6, 0)]), (1, &[(1, 0), (2, 1), (3, 1), (4, 0), (5, 0), (6, 1)])],
        HORIZON,
        &[
            (5, &[(0, 1), (1, 0), (2, 0), (3, 0), (4, 1), (5, 0), (6, 0)]),
            (6, &[(0, 0), (1, 1), (2, 1), (3, 1), (4, 0), (5, 1), (6, 1)]),
            (25, &[(1, 1), (2, 4), (3, 4), (4, 2), (5, 1), (6, 4)]),
        ],
    );
}

#[test]
fn section_4_distance_of_two_streams() {
    // lift(g_v)(time(a), last(time(b), a)) with g_v(t₁, t₂) = t₁ < t₂ + 5: a's event lies less than 5 after b's latest earlier one
    gives(
        "in; in; time 0; time 1; last 3 0; plus 4 k5; lt 2 5 out",
        &[(0, &[(1, 0), (4, 0), (9, 0), (12, 0)]), (1, &[(2, 0), (9, 0)])],
        HORIZON,
        // at 1 b has none; 4 < 7; 9 < 7 is not, as b's event at 9 is not earlier; 12 < 14
        &[(6, &[(4, 1), (9, 0), (12, 1)])],
    );
}

#[test]
fn section_4_timed_transducer_as_a_plan() {
    // "Translating DTFST to TeSSLa_bool+c": one state, the symbol p, one clock x that every transition sets back;
    // T ≤ x + 3 gives 1, its negation 2. Stream 3 is the state, 10 and 11 the constraints, 13 and 14 the d, 18 is b_x.
    let plan = "in; unit; set 1 k1; merge 15 2; last 3 0; merge 18 1; time 5; last 6 0; plus 7 k3; time 0; le 9 8; lt 8 9; \
                mul 4 0; mul 12 10; mul 12 11; add 13 14; keep 13 13; keep 14 14; merge 16 17; \
                set 13 k1; keep 19 13; set 14 k2; keep 21 14; merge 20 22 out";
    // x starts at 0: 2 ≤ 3, 5 ≤ 2 + 3, 9 > 5 + 3, 12 ≤ 9 + 3
    gives(plan, &[(0, &[(2, 1), (5, 1), (9, 1), (12, 1)])], HORIZON, &[(23, &[(2, 1), (5, 1), (9, 2), (12, 1)])]);
}

/// Lemma 1 (appendix A.2): a plan without delay that checks whether stream 2 is delay(0, 1), by a 1 in stream 28 wherever one
/// of the three has an event. Stream 15 is a', the effective delay in absolute time, with 5000000000 for ∞; 17 is t.
const DELAY_CHECK: &str = "in; in; in; time 0; add 3 0; last 15 0; eq 5 3; keep 4 6; time 1; eq 8 3; keep 4 9; \
                           unit; merge 1 11; set 12 k5000000000; merge 7 10; merge 14 13; merge 0 1; merge 16 2; \
                           time 2; merge 18 11; last 19 17; merge 19 20; last 15 17; eq 21 22; \
                           time 17; lt 21 24; lt 24 22; mul 25 26; add 23 27 out";

#[test]
fn appendix_a2_delay_checked_without_delay() {
    let a: Pairs = &[(2, 3), (5, 4), (7, 1)];
    // set at 2, due at 5; set anew at 5, due at 9; the 1 at 7 is at no set point
    gives("in; in; delay 0 1 out", &[(0, a), (1, &[(2, 0)])], HORIZON, &[(2, &[(5, 0), (9, 0)])]);
    let right: &[(usize, Pairs)] = &[(0, a), (1, &[(2, 0)]), (2, &[(5, 0), (9, 0)])];
    gives(DELAY_CHECK, right, HORIZON, &[(28, &[(2, 1), (5, 1), (7, 1), (9, 1)])]);
    let early: &[(usize, Pairs)] = &[(0, a), (1, &[(2, 0)]), (2, &[(5, 0), (8, 0)])];
    gives(DELAY_CHECK, early, HORIZON, &[(28, &[(2, 1), (5, 1), (7, 1), (8, 0)])]);
    let missing: &[(usize, Pairs)] = &[(0, a), (1, &[(2, 0), (10, 0)]), (2, &[(5, 0)])];
    gives(DELAY_CHECK, missing, HORIZON, &[(28, &[(2, 1), (5, 1), (7, 1), (10, 0)])]);
}
