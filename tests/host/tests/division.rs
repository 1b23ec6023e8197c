//! Document 02's Q-2: "a quotient goes down to the next whole number and the remainder has the divisor's sign". Cases worked out by
//! hand, through the exported calls, of div, rem and their signal forms; and the laws that fix the two results, over edge values
//! and random ones.

use host::engine::{Answer, Call};
use host::history::Session;
use host::plan::short;
use host::random::{rounds, seed, Random};
use host::worked::{as_defined, collected, numbers, runs};
use Call::{Collect, Progress, Reading, Run};

const LEAST: i64 = i64::MIN;
const GREATEST: i64 = i64::MAX;

/// Streams 2 to 5: the quotient and the remainder of inputs 0 and 1, the same of their latest values.
const FOUR: &str = "in; in; div 0 1 out; rem 0 1 out; sdiv 0 1 out; srem 0 1 out";

/// What waits to be collected of an output, at most one event, at stamp t.
fn at(session: &mut Session, stream: u32, t: u32) -> Option<i64> {
    let answer = session.call(Collect(stream));
    if answer.number == 14 {
        return None;
    }
    assert_eq!(answer, Answer { stamp: t, value: answer.value, ..Answer::default() });
    numbers(session, &[(Collect(stream), 14)]);
    Some(answer.value)
}

/// What the four hand out for the readings x and y at stamp t. Each makes one move, to its event or past the stamp.
fn divided(session: &mut Session, t: u32, x: i64, y: i64) -> [Option<i64>; 4] {
    numbers(session, &[(Reading(0, t, x), 0), (Reading(1, t, y), 0)]);
    runs(session, 9, 4);
    [2, 3, 4, 5].map(|stream| at(session, stream, t))
}

// ---- the cases

#[test]
fn cases_2_1_to_2_11() {
    let cases = [
        // −7 = −4 · 2 + 1; 7 = −4 · −2 − 1; −7 = 3 · −2 − 1; 7 = 3 · 2 + 1
        (-7, 2, Some(-4), Some(1)),
        (7, -2, Some(-4), Some(-1)),
        (-7, -2, Some(3), Some(-1)),
        (7, 2, Some(3), Some(1)),
        // exact: nothing to round
        (-6, 2, Some(-3), Some(0)),
        (0, -5, Some(0), Some(0)),
        // 2^63 is no value; nothing is left all the same
        (LEAST, -1, None, Some(0)),
        (LEAST, 2, Some(-4_611_686_018_427_387_904), Some(0)),
        (GREATEST, -1, Some(-9_223_372_036_854_775_807), Some(0)),
        (5, 0, None, None),
        // −1 = −1 · greatest + greatest − 1
        (-1, GREATEST, Some(-1), Some(9_223_372_036_854_775_806)),
    ];
    let mut session = Session::load(&short(FOUR));
    for (t, (x, y, quotient, remainder)) in cases.into_iter().enumerate() {
        assert_eq!(divided(&mut session, t as u32, x, y), [quotient, remainder, quotient, remainder], "{x} and {y}");
    }
    as_defined(&mut session);
}

#[test]
fn case_2_12_the_signal_forms_follow() {
    let mut session = Session::load(&short("in; in; sdiv 0 1 out; srem 0 1 out"));
    numbers(&mut session, &[(Reading(0, 1, -7), 0), (Reading(1, 1, 2), 0), (Reading(1, 2, -2), 0), (Progress(0, 3), 0)]);
    // each at 1 with −7 and 2, at 2 with −7 and −2
    runs(&mut session, 99, 4);
    collected(&mut session, 2, &[(1, -4), (2, 3)]);
    collected(&mut session, 3, &[(1, 1), (2, -1)]);
    as_defined(&mut session);
}

/// Hourly means around zero, in tenths of a degree: each step of the curve is as wide as the others.
#[test]
fn the_curve_has_no_flat_step_at_zero() {
    let mut session = Session::load(&short("in; set 0 k3; div 0 1 out; rem 0 1 out"));
    for t in 0..12 {
        numbers(&mut session, &[(Reading(0, t, t as i64 - 6), 0)]);
    }
    session.call(Run(99));
    let means = [-2, -2, -2, -1, -1, -1, 0, 0, 0, 1, 1, 1];
    collected(&mut session, 2, &(0..12).map(|t| (t, means[t as usize])).collect::<Vec<_>>());
    collected(&mut session, 3, &(0..12).map(|t| (t, t as i64 % 3)).collect::<Vec<_>>());
    as_defined(&mut session);
}

// ---- the laws

/// Pairs met, by what is special about them: inexact ones by the signs of x and y (+ +, − +, + −, − −), exact ones with a
/// quotient below zero, zero divisors, quotients outside the values.
#[derive(Default, Debug)]
struct Met {
    inexact: [u64; 4],
    exact_below_zero: u64,
    zero_divisor: u64,
    outside: u64,
}

impl Met {
    /// Over whole numbers x = q·y + r, where r is 0 or has y's sign and is below y in magnitude: no other q and r do that.
    /// Both are missing for a zero divisor, and q where it is no value; nothing else is missing.
    fn laws(&mut self, x: i64, y: i64, quotient: Option<i64>, remainder: Option<i64>) {
        let story = || format!("seed {}: {x} and {y} gave {quotient:?} and {remainder:?}", seed());
        if y == 0 {
            assert_eq!((quotient, remainder), (None, None), "{}", story());
            self.zero_divisor += 1;
            return;
        }
        let (wide_x, wide_y) = (x as i128, y as i128);
        let r = remainder.unwrap_or_else(|| panic!("{}", story())) as i128;
        assert!(r == 0 || (r < 0) == (y < 0), "{}", story());
        assert!(r.abs() < wide_y.abs(), "{}", story());
        match quotient {
            Some(q) => assert_eq!(wide_x, q as i128 * wide_y + r, "{}", story()),
            None => {
                assert_eq!((wide_x - r) % wide_y, 0, "{}", story());
                assert!(i64::try_from((wide_x - r) / wide_y).is_err(), "{}", story());
                self.outside += 1;
            }
        }
        if r != 0 {
            self.inexact[(x < 0) as usize + 2 * (y < 0) as usize] += 1;
        } else {
            self.exact_below_zero += (x != 0 && (x < 0) != (y < 0)) as u64;
        }
    }

    /// At least so many inexact pairs of each combination of signs.
    fn enough(&self, least: u64) {
        println!("seed {}: {self:?}", seed());
        assert!(self.inexact.iter().all(|&count| count >= least) && self.exact_below_zero > 0 && self.zero_divisor > 0, "{self:?}");
    }
}

/// Zero, both ends, and on both sides of zero small numbers and those around the halves of a word.
fn edges() -> Vec<i64> {
    let mut edges = vec![0, LEAST];
    for x in [
        1, 2, 3, 5, 6, 7, 10, 100, (1 << 31) - 1, 1 << 31, (1 << 32) - 1, 1 << 32, (1 << 32) + 1, 3_037_000_499, 3_037_000_500, 1 << 62,
        (1 << 62) + 1, GREATEST / 3, GREATEST - 1, GREATEST,
    ] {
        edges.extend([x, -x]);
    }
    edges
}

/// A number of any length, of either sign.
fn any(random: &mut Random) -> i64 {
    let x = (random.next() >> random.below(64)) as i64;
    if random.chance(50) { x.wrapping_neg() } else { x }
}

#[test]
fn the_laws_of_division() {
    let mut session = Session::load(&short(FOUR));
    let (mut met, mut t, edges) = (Met::default(), 0, edges());
    let mut pair = |x: i64, y: i64| {
        let [quotient, remainder, of_latest, left_of_latest] = divided(&mut session, t, x, y);
        met.laws(x, y, quotient, remainder);
        assert_eq!((of_latest, left_of_latest), (quotient, remainder), "{x} and {y}");
        t += 1;
    };
    for &x in &edges {
        for &y in &edges {
            pair(x, y);
        }
    }
    for round in 0..rounds(10_000) {
        let mut random = Random::of(40, round);
        let y = if random.chance(20) { random.pick(&edges) } else { any(&mut random) };
        let x = match random.below(10) {
            0 => random.pick(&edges),
            // a multiple of y, or one beside it
            1..=3 => y.wrapping_mul(any(&mut random) >> 32).wrapping_add(random.below(3) as i64 - 1),
            _ => any(&mut random),
        };
        pair(x, y);
    }
    // 42 edges: some 20 · 20 pairs of each combination of signs, most of them inexact
    met.enough(200);
    assert!(met.outside > 0);
}

/// The signal forms where only one argument reports: the other value is one that they keep.
#[test]
fn the_laws_on_kept_values() {
    let mut session = Session::load(&short("in; in; sdiv 0 1 out; srem 0 1 out"));
    let (mut met, mut latest, edges) = (Met::default(), [1, 1], edges());
    numbers(&mut session, &[(Reading(0, 0, 1), 0), (Reading(1, 0, 1), 0)]);
    for t in 0..2000 + rounds(4_000) as u32 {
        if t > 0 {
            let mut random = Random::of(41, t as u64);
            let side = random.below(2) as usize;
            latest[side] = if random.chance(50) { random.pick(&edges) } else { any(&mut random) };
            numbers(&mut session, &[(Reading(side as u32, t, latest[side]), 0), (Progress(1 - side as u32, t as u64 + 1), 0)]);
        }
        runs(&mut session, 9, 2);
        let (quotient, remainder) = (at(&mut session, 2, t), at(&mut session, 3, t));
        met.laws(latest[0], latest[1], quotient, remainder);
    }
    met.enough(100);
}
