//! Document 02's Q-5: wsum, wmin and wmax. Cases worked out by hand, through the exported calls; long runs against the plain
//! definition, which takes the last k of the list of all events so far; where the values lie; each byte that a window adds.

use host::buffer::Lent;
use host::engine::{engines, Answer, Call, Missing, STATE_LENGTH};
use host::evaluator::HORIZON;
use host::found::{Found, Record};
use host::history::Session;
use host::layout::{self, Size};
use host::plan::{short, text_of, windows, Op, WINDOWS};
use host::random::{rounds, seed, Random};
use host::worked::{as_defined, collected, holds, load, numbers, record, runs};
use Call::{Collect, Move, Progress, Reading, Run};

const LEAST: i64 = i64::MIN;
const GREATEST: i64 = i64::MAX;

/// Values as they lie in a state.
fn bytes_of(values: &[i64]) -> Vec<u8> {
    values.iter().flat_map(|v| v.to_le_bytes()).collect()
}

fn text(plan: &str) -> String {
    text_of(&short(plan))
}

fn loaded(plan: &str) -> Session {
    Session::load(&short(plan))
}

/// Readings of input 0, all taken.
fn offered(session: &mut Session, readings: &[(u32, i64)]) {
    for (t, v) in readings {
        numbers(session, &[(Reading(0, *t, *v), 0)]);
    }
}

// ---- the cases

#[test]
fn case_5_1_fewer_than_k_and_the_kept_values() {
    let mut session = loaded("in; wsum 0 k3 out");
    offered(&mut session, &[(0, 1), (1, 2), (2, 3), (3, 4), (4, 5)]);
    runs(&mut session, 99, 5);
    // 1, 1 + 2, 1 + 2 + 3, 2 + 3 + 4, 3 + 4 + 5
    collected(&mut session, 1, &[(0, 1), (1, 3), (2, 6), (3, 9), (4, 12)]);
    record(&session, 1, 5, &[3]);
    holds(&session, 8192, &[3, 0, 0, 0, 0, 0, 0, 0, 4, 0, 0, 0, 0, 0, 0, 0, 5, 0, 0, 0, 0, 0, 0, 0, 0, 0, 0, 0, 0, 0, 0, 0]);
    as_defined(&mut session);
}

#[test]
fn case_5_2_least_and_greatest() {
    let mut session = loaded("in; wmin 0 k2 out; wmax 0 k2 out");
    offered(&mut session, &[(1, 5), (2, -3), (9, 4), (10, 4)]);
    runs(&mut session, 99, 8);
    collected(&mut session, 1, &[(1, 5), (2, -3), (9, -3), (10, 4)]);
    collected(&mut session, 2, &[(1, 5), (2, 5), (9, 4), (10, 4)]);
    as_defined(&mut session);
}

#[test]
fn case_5_3_after_a_missing_sum_the_window_goes_on() {
    let mut session = loaded("in; wsum 0 k2 out");
    offered(&mut session, &[(1, GREATEST), (2, 1), (3, -5)]);
    // the sum at 2 is out of range: the second move passes it and adds 1 − 5 at 3
    runs(&mut session, 99, 2);
    collected(&mut session, 1, &[(1, GREATEST), (3, -4)]);
    assert_eq!(layout::window(session.state(), 1), [1, -5]);
    as_defined(&mut session);
}

#[test]
fn case_5_4_partial_sums_may_leave_the_range() {
    let mut session = loaded("in; wsum 0 k4 out");
    offered(&mut session, &[(1, GREATEST), (2, GREATEST), (3, LEAST), (4, LEAST)]);
    runs(&mut session, 99, 3);
    collected(&mut session, 1, &[(1, GREATEST), (3, GREATEST - 1), (4, -2)]);
    as_defined(&mut session);
}

#[test]
fn case_5_5_a_width_of_1() {
    let mut session = loaded("in; wsum 0 k1 out");
    offered(&mut session, &[(1, GREATEST), (2, LEAST)]);
    runs(&mut session, 9, 2);
    collected(&mut session, 1, &[(1, GREATEST), (2, LEAST)]);
    as_defined(&mut session);
}

#[test]
fn case_5_6_a_missing_result_of_the_argument_is_no_event() {
    let mut session = loaded("in; plus 0 k1; wmax 1 k2 out");
    offered(&mut session, &[(1, 7), (2, GREATEST), (3, 5)]);
    // plus: 8 at 1, 6 at 3
    runs(&mut session, 99, 4);
    collected(&mut session, 2, &[(1, 8), (3, 8)]);
    assert_eq!(layout::window(session.state(), 2), [8, 6]);
    as_defined(&mut session);
}

#[test]
fn cases_5_7_to_5_10_widths() {
    assert_eq!(load(&text("in; wsum 0 k0")), 18);
    assert_eq!(load(&text("in; wmin 0 k64")), 0);
    assert_eq!(load(&text("in; wmax 0 k65")), 18);
    assert_eq!(load(&text("in; wmax 0 k-1")), 18);
}

#[test]
fn cases_5_11_and_5_12_a_ninth_window() {
    assert_eq!(load(&text(&format!("in; {}", ["wmin 0 k1"; 9].join("; ")))), 18);
    assert_eq!(load(&text(&format!("in; {}", ["wmin 0 k1"; 8].join("; ")))), 0);
}

#[test]
fn cases_5_13_and_5_14_number_18_before_6() {
    assert_eq!(load(&text("wsum 0 k65")), 18);
    assert_eq!(load(&text("wsum 0 k1")), 6);
}

/// Document 02's generator of trial traces, Q-13: "Marsaglia's 32-bit xorshift (left 13, right 17, left 5); seed 1 gives 270,369
/// first". Stamp and value as it draws them for one input.
struct Trial {
    x: u32,
    known: u32,
}

impl Trial {
    fn draw(&mut self) -> u32 {
        self.x ^= self.x << 13;
        self.x ^= self.x >> 17;
        self.x ^= self.x << 5;
        self.x
    }

    fn record(&mut self) -> (u32, i64) {
        self.draw();
        let stamp = self.known + self.draw() % 100;
        self.known = stamp + 1;
        (stamp, (self.draw() % 201) as i64 - 100)
    }
}

/// The plain definition: the last k of the list of all values so far, or all while fewer, summed up over whole numbers.
fn defined(op: Op, k: usize, all: &[i64]) -> Option<i64> {
    let latest = &all[all.len() - all.len().min(k)..];
    match op {
        Op::Wsum => i64::try_from(latest.iter().map(|v| *v as i128).sum::<i128>()).ok(),
        Op::Wmin => latest.iter().min().copied(),
        _ => latest.iter().max().copied(),
    }
}

#[test]
fn case_5_15_a_long_run() {
    let mut trial = Trial { x: 1, known: 0 };
    assert_eq!(trial.draw(), 270_369);
    trial.x = 1;
    let mut session = loaded("in; wsum 0 k64 out; wmin 0 k64 out; wmax 0 k64 out");
    let count = if rounds(100) < 100 { 1000 * rounds(100) } else { 100_000 } as usize;
    let mut all = vec![];
    let mut wanted = vec![vec![]; 4];
    for i in 0..count {
        let (t, v) = trial.record();
        if i == 0 {
            // draws 270369, 67634689, 2647435461
            assert_eq!((t, v), (89, 41));
        }
        numbers(&mut session, &[(Reading(0, t, v), 0)]);
        all.push(v);
        runs(&mut session, 9, 3);
        for (stream, op) in [(1, Op::Wsum), (2, Op::Wmin), (3, Op::Wmax)] {
            let value = defined(op, 64, &all).expect("small values");
            collected(&mut session, stream, &[(t, value)]);
            wanted[stream as usize].push((t, value));
        }
        // the story of a failure is long enough
        session.list.clear();
    }
    assert_eq!(session.handed, wanted);
    assert_eq!(layout::window(session.state(), 1), all[all.len() - 64..]);
    println!("calls on {count} readings of a fixed generator, the last sum {:?}", wanted[1].last().unwrap());
}

// ---- long runs with sums that are missing

/// A run of one input under these windows, against the plain definition after every call; the events that a move passed.
struct Course {
    session: Session,
    stamps: Vec<u32>,
    values: Vec<i64>,
    /// moves of a window that passed so many missing sums at once, by their number; the last for all above
    passed: [u64; 4],
    /// moves after which a window that is full has its bound at the event that waits
    waited: u64,
    missing: u64,
}

impl Course {
    fn new(plan: &str) -> Course {
        Course { session: loaded(plan), stamps: vec![], values: vec![], passed: [0; 4], waited: 0, missing: 0 }
    }

    fn reading(&mut self, t: u32, v: i64) -> bool {
        let taken = self.session.call(Reading(0, t, v)).number == 0;
        if taken {
            self.stamps.push(t);
            self.values.push(v);
        }
        taken
    }

    /// How many readings lie below a bound.
    fn below(&self, bound: u64) -> usize {
        self.stamps.partition_point(|t| (*t as u64) < bound)
    }

    /// What is handed out and held is the definition's list up to the bound, and what is kept the latest k values below it.
    fn check(&self) {
        let state = self.session.state();
        for s in windows(&self.session.plan) {
            let (op, k) = (self.session.plan[s].op, self.session.plan[s].k as usize);
            let below = self.below(layout::bound(state, s));
            assert_eq!(layout::window(state, s), self.values[below - below.min(k)..below], "what is kept\n{}", self.session.story());
            let held = layout::held(state, s);
            for (t, v) in held.iter().rev() {
                let i = self.stamps.binary_search(t).expect("a reading there");
                assert!(i < below);
                assert_eq!(Some(*v), defined(op, k, &self.values[..=i]), "{}", self.session.story());
            }
        }
    }

    /// Moves a window once: it passes missing sums, and counts them, and adds one event, or goes to the end.
    fn move_one(&mut self, s: usize) -> bool {
        let (y, held) = (layout::bound(self.session.state(), s), layout::held(self.session.state(), s).len());
        let counted = layout::missing(self.session.state(), s);
        if self.session.call(Move(s as u32)).number != 0 {
            return false;
        }
        let state = self.session.state();
        let to = layout::bound(state, s);
        let added = layout::held(state, s).len() - held;
        let passed = self.below(to) - self.below(y) - added;
        self.passed[passed.min(3)] += 1;
        self.missing += passed as u64;
        assert_eq!(layout::missing(state, s), Missing { outside: counted.outside + passed as u32, zero: 0 }, "what is counted\n{}", self.session.story());
        self.waited += (held == 16 && self.stamps.binary_search(&(to as u32)).is_ok()) as u64;
        self.check();
        true
    }

    /// To the end: all that the definition gives was handed out.
    fn end(&mut self) {
        assert!(self.session.rest(100_000));
        for s in windows(&self.session.plan).into_iter().filter(|&s| self.session.plan[s].out) {
            let (op, k) = (self.session.plan[s].op, self.session.plan[s].k as usize);
            let event = |i: usize| defined(op, k, &self.values[..=i]).map(|v| (self.stamps[i], v));
            let wanted: Vec<(u32, i64)> = (0..self.stamps.len()).filter_map(event).collect();
            assert_eq!(self.session.handed[s], wanted, "stream {s}");
        }
        assert!(self.session.check_beginning() && self.session.check_rest());
        assert!(self.session.check_missing_within(usize::MAX).is_some());
    }
}

/// One reading, one move of each window, one collection: many sums are missing, and the window goes on over all readings.
#[test]
fn a_long_run_at_both_ends() {
    for (place, k) in [1, 2, 3, 10, 63, 64].into_iter().enumerate() {
        let mut random = Random::of(50, place as u64);
        let mut course = Course::new(&format!("in; wsum 0 k{k} out; wmin 0 k{k} out; wmax 0 k{k} out"));
        for i in 0..(2000 * rounds(100) / 100).max(3 * k as u64) as u32 {
            assert!(course.reading(3 * i + random.below(3) as u32, random.at_an_end()));
            for s in 1..4 {
                assert!(course.move_one(s));
                course.session.call(Collect(s as u32));
            }
        }
        course.end();
        println!("seed {}: width {k}, {} readings, {} sums missing", seed(), course.values.len(), course.missing);
        assert_eq!(course.missing > 0, k > 1, "width {k}");
        assert!(course.missing < course.values.len() as u64);
    }
}

/// Several readings before each run: one move passes several events whose sums are missing, and all of them enter the window.
#[test]
fn a_move_passes_several_missing_sums() {
    let mut passed = [0u64; 4];
    let all = rounds(300);
    for round in 0..all {
        let mut random = Random::of(51, round);
        let k = random.width();
        let mut course = Course::new(&format!("in; wsum 0 k{k} out"));
        let mut t = random.below(3) as u32;
        for _ in 0..40 {
            let one_end = random.chance(40);
            for _ in 0..1 + random.below(16) {
                let v = if one_end { GREATEST - random.below(5) as i64 } else if random.chance(70) { random.at_an_end() } else { random.value() };
                // an input that is full takes no more
                if !course.reading(t, v) {
                    break;
                }
                t += 1 + random.below(3) as u32;
            }
            let most = if random.chance(70) { 20 } else { random.below(3) };
            for _ in 0..most {
                if !course.move_one(1) {
                    break;
                }
            }
            while random.chance(90) && course.session.call(Collect(1)).number == 0 {}
        }
        course.end();
        passed = [0, 1, 2, 3].map(|i| passed[i] + course.passed[i]);
    }
    println!("seed {}: moves that passed 0, 1, 2, more missing sums {passed:?}", seed());
    assert!(all < 20 || passed.iter().all(|&count| count > all));
}

/// As many values as the window is wide, of any size, whose sum is an end of the range or one past it, or lies where its upper half
/// changes: what the sums of some of them are does not matter.
#[test]
fn sums_just_inside_and_just_outside() {
    let (least, greatest) = (LEAST as i128, GREATEST as i128);
    let inside = [greatest, greatest - 1, least, least + 1, 0, -1, 1 << 32, (1 << 32) - 1, -(1 << 32), -(1 << 32) - 1];
    let outside = [greatest + 1, least - 1, greatest + 2, least - 2];
    for round in 0..rounds(400) {
        let mut random = Random::of(55, round);
        let (k, is) = (2 + random.below(63) as i128, round % 2 == 0);
        let sum = if is { random.pick(&inside) } else { random.pick(&outside) };
        let mut course = Course::new(&format!("in; wsum 0 k{k} out"));
        // some that are no longer in it, then k of them, the others always able to make up for what is left
        let mut values: Vec<i64> = (0..random.below(3)).map(|_| random.at_an_end()).collect();
        let mut left = sum;
        for others in (0..k).rev() {
            let (low, high) = ((left - others * greatest).max(least), (left - others * least).min(greatest));
            let v = match random.below(4) {
                0 => low,
                1 => high,
                _ => low + random.next() as i128 % (high - low + 1),
            };
            left -= v;
            values.push(v as i64);
        }
        assert_eq!(left, 0);
        for (t, v) in values.iter().enumerate() {
            assert!(course.reading(t as u32, *v) && course.move_one(1));
            course.session.call(Collect(1));
        }
        course.end();
        let last = course.session.handed[1].last().copied();
        assert_eq!(last == Some((values.len() as u32 - 1, sum as i64)), is, "{last:?}, not {sum}\n{}", course.session.story());
    }
}

/// An output that nobody collects holds 16 events and the next one waits: the window keeps what lies below it, and no more. The event
/// comes in once one is collected.
#[test]
fn a_full_output_waits() {
    let (mut waited, mut passed) = (0u64, 0u64);
    let all = rounds(200);
    for round in 0..all {
        let mut random = Random::of(52, round);
        let (k, op) = (random.width(), random.pick(&WINDOWS));
        let mut course = Course::new(&format!("in; {} 0 k{k} out", op.name()));
        let mut t = 0;
        for _ in 0..80 {
            if course.reading(t, if random.chance(50) { random.at_an_end() } else { random.value() }) {
                t += 1 + random.below(2) as u32;
            }
            if random.chance(70) {
                while course.move_one(1) {}
            }
            if random.chance(20) {
                course.session.call(Collect(1));
            }
        }
        waited += course.waited;
        passed += course.passed[1..].iter().sum::<u64>();
        course.end();
    }
    println!("seed {}: the bound at an event that waits {waited} times, moves that passed missing sums {passed}", seed());
    assert!(all < 20 || (waited > all / 4 && passed > all / 4));
}

/// The same by hand: 16 events held, then two sums that are missing, then one that waits.
#[test]
fn a_full_output_by_hand() {
    let mut session = loaded("in; wsum 0 k2 out");
    offered(&mut session, &(0..16).map(|t| (t, 1)).collect::<Vec<_>>());
    runs(&mut session, 99, 16);
    offered(&mut session, &[(16, GREATEST), (17, GREATEST), (18, LEAST), (19, 5)]);
    // at 16 and 17 the sum is out of range, at 18 it is −1: the bound goes to 18, the readings at 16 and 17 are in the window
    runs(&mut session, 99, 1);
    assert_eq!(layout::bound(session.state(), 1), 18);
    assert_eq!(layout::window(session.state(), 1), [GREATEST, GREATEST]);
    assert_eq!(layout::held(session.state(), 0), [(18, LEAST), (19, 5)]);
    numbers(&mut session, &[(Move(1), 12)]);
    assert_eq!(session.call(Collect(1)), Answer { stamp: 0, value: 1, ..Answer::default() });
    // −1 comes in; the one at 19, the least value and 5, waits
    runs(&mut session, 99, 1);
    assert_eq!((layout::bound(session.state(), 1), layout::window(session.state(), 1)), (19, vec![GREATEST, LEAST]));
    // twice 1 + 1 are collected; the next comes in and nothing is left
    numbers(&mut session, &[(Collect(1), 0), (Collect(1), 0)]);
    runs(&mut session, 99, 1);
    assert_eq!((layout::bound(session.state(), 1), layout::window(session.state(), 1)), (20, vec![LEAST, 5]));
    let rest = (3..16).map(|t| (t, 2)).chain([(18, -1), (19, LEAST + 5)]).collect::<Vec<_>>();
    collected(&mut session, 1, &rest);
    as_defined(&mut session);
}

/// Readings that another stream still waits for lie below the window's bound: they are in it once, and not twice.
#[test]
fn readings_held_for_another() {
    let mut session = loaded("in; in; wsum 0 k5 out; add 0 1");
    offered(&mut session, &[(1, 1), (2, 10)]);
    runs(&mut session, 99, 2);
    offered(&mut session, &[(3, 100)]);
    runs(&mut session, 99, 1);
    assert_eq!(layout::held(session.state(), 0), [(1, 1), (2, 10), (3, 100)]);
    collected(&mut session, 2, &[(1, 1), (2, 11), (3, 111)]);
    assert_eq!(layout::window(session.state(), 2), [1, 10, 100]);
    numbers(&mut session, &[(Progress(0, 50), 0)]);
    runs(&mut session, 99, 1);
    assert_eq!((layout::bound(session.state(), 2), layout::window(session.state(), 2)), (50, vec![1, 10, 100]));
    as_defined(&mut session);
}

/// Silence enters nothing, and a window goes on over it.
#[test]
fn progress_alone() {
    let mut session = loaded("in; wmin 0 k2 out");
    numbers(&mut session, &[(Progress(0, 5), 0), (Run(9), 0)]);
    assert_eq!((layout::bound(session.state(), 1), layout::window(session.state(), 1)), (5, vec![]));
    offered(&mut session, &[(5, 0), (9, 3)]);
    numbers(&mut session, &[(Progress(0, 100), 0)]);
    runs(&mut session, 99, 3);
    // a 0 that is kept is not the same as none
    record(&session, 1, 5, &[2]);
    holds(&session, 8192, &bytes_of(&[0, 3]));
    offered(&mut session, &[(u32::MAX, 7)]);
    numbers(&mut session, &[(Progress(0, HORIZON), 0)]);
    runs(&mut session, 99, 1);
    collected(&mut session, 1, &[(5, 0), (9, 0), (u32::MAX, 3)]);
    assert_eq!((layout::bound(session.state(), 1), layout::window(session.state(), 1)), (HORIZON, vec![3, 7]));
    as_defined(&mut session);
}

/// A copy goes on from the values that it has.
#[test]
fn a_copy_put_back() {
    let mut session = loaded("in; wsum 0 k3 out");
    offered(&mut session, &[(0, 10), (1, 20), (2, 30)]);
    runs(&mut session, 99, 3);
    let mut copy = session.clone();
    offered(&mut session, &[(3, 40)]);
    offered(&mut copy, &[(5, 1)]);
    numbers(&mut session, &[(Run(9), 0)]);
    numbers(&mut copy, &[(Run(9), 0)]);
    collected(&mut session, 1, &[(0, 10), (1, 30), (2, 60), (3, 90)]);
    collected(&mut copy, 1, &[(0, 10), (1, 30), (2, 60), (5, 51)]);
    as_defined(&mut session);
    as_defined(&mut copy);
}

/// A load over a state with windows leaves nothing of them, whatever it loads.
#[test]
fn a_load_over_full_windows() {
    let mut session = loaded("in; wsum 0 k64 out; wmin 0 k64 out");
    for t in 0..70 {
        offered(&mut session, &[(t, -1)]);
        numbers(&mut session, &[(Run(9), 0), (Collect(1), 0), (Collect(2), 0)]);
    }
    holds(&session, 8192, &[255; 1024]);
    for plan in ["in; wmin 0 k3 out; neg 0 out; wmax 2 k1", "in; neg 0 out", ""] {
        // it is compared with a fresh state, all of it
        let next = Session::load_over(&short(plan), session.states.clone());
        holds(&next, 8192, &[0; 4096]);
    }
}

// ---- windows over windows, and over any equation

#[test]
fn windows_over_windows_by_hand() {
    let mut session = loaded("in; wsum 0 k2; wmin 1 k2 out; wmax 2 k3 out; wsum 1 k2 out");
    offered(&mut session, &[(1, 4), (2, 3), (3, -9), (4, 20), (5, 1)]);
    numbers(&mut session, &[(Run(99), 0)]);
    // sums of two: 4 7 −6 11 21
    collected(&mut session, 2, &[(1, 4), (2, 4), (3, -6), (4, -6), (5, 11)]);
    collected(&mut session, 3, &[(1, 4), (2, 4), (3, 4), (4, 4), (5, 11)]);
    collected(&mut session, 4, &[(1, 4), (2, 11), (3, 1), (4, 5), (5, 32)]);
    // the lowest stream's window first
    for (slot, values) in [(0, &[20, 1][..]), (1, &[11, 21]), (2, &[-6, -6, 11]), (3, &[11, 21])] {
        holds(&session, 8192 + 512 * slot, &bytes_of(values));
    }
    as_defined(&mut session);
}

/// A sum that is missing is no event for the window over it.
#[test]
fn a_window_over_missing_sums() {
    let mut session = loaded("in; wsum 0 k2; wsum 1 k2 out");
    offered(&mut session, &[(1, GREATEST), (2, 1), (3, -5), (4, -6)]);
    numbers(&mut session, &[(Run(99), 0)]);
    // the greatest at 1, −4 at 3, −11 at 4: the greatest − 4 at 3, −15 at 4
    collected(&mut session, 2, &[(1, GREATEST), (3, GREATEST - 4), (4, -15)]);
    holds(&session, 8192, &bytes_of(&[-5, -6]));
    holds(&session, 8704, &bytes_of(&[-4, -11]));
    as_defined(&mut session);
}

/// Windows over each kind of equation, over one another, and in a recursion: any calls, against the definition.
#[test]
fn windows_over_equations() {
    // two inputs, a merge of them, a signal form; a sum of the latest differences; a greatest that feeds back by a last; a timer that is
    // set by a window; a window over ticks
    let plan = "in; in; merge 0 1; ssub 0 1; wsum 3 k5 out; wmin 2 k4 out; last 8 2; merge 6 2; wmax 7 k3 out; wmin 0 k2; delay 9 0 out; wsum 10 k6 out; \
                keep 0 1; wsum 12 k2 out; wmax 4 k64 out";
    let (mut events, mut rested) = (0u64, 0u64);
    let all = rounds(600);
    for round in 0..all {
        let mut random = Random::of(53, round);
        let mut session = loaded(plan);
        for _ in 0..120 {
            let s = random.below(15) as u32;
            let input = random.below(2) as u32;
            let known = session.known[input as usize];
            let value = if random.chance(20) { random.at_an_end() } else { random.below(30) as i64 - 5 };
            session.call(match random.below(10) {
                0..=3 => Reading(input, known as u32 + random.below(4) as u32, value),
                4 => Progress(input, known + random.below(6)),
                5..=6 => Move(s),
                7 => Run(random.below(20) as u32),
                _ => Collect(s),
            });
        }
        assert!(session.check_beginning());
        if session.rest(4_000) {
            assert!(session.check_beginning() && session.check_rest());
            rested += 1;
        }
        events += windows(&session.plan).iter().map(|&s| session.handed[s].len() as u64).sum::<u64>();
    }
    println!("seed {}: {rested} of {all} lists at rest, {events} events of windows", seed());
    assert!(rested * 2 > all && events > 20 * all);
}

// ---- where the values lie

/// Eight windows of two inputs, higher streams first to have an event: each has its place by its stream number.
const EIGHT: &str = "wmax 12 k2 out; neg 13; wsum 12 k64 out; wmin 13 k1 out; in; wsum 13 k3 out; wmax 13 k64 out; unit; wmin 12 k5 out; \
                     wsum 1 k4 out; nil; wmin 12 k3 out; in; in";
/// Stream, the input behind it and its width, by stream number; stream 9 reads the negated one.
const EIGHT_ARE: [(usize, u32, usize); 8] = [(0, 12, 2), (2, 12, 64), (3, 13, 1), (5, 13, 3), (6, 13, 64), (8, 12, 5), (9, 13, 4), (11, 12, 3)];

/// All 4,096 bytes, from the values that each input has had.
fn eight_windows(values: &[&[i64]; 2]) -> Vec<u8> {
    let mut bytes = vec![0; 4096];
    for (slot, (stream, input, k)) in EIGHT_ARE.into_iter().enumerate() {
        let all = values[input as usize - 12];
        let latest: Vec<i64> = all[all.len() - all.len().min(k)..].iter().map(|v| if stream == 9 { -v } else { *v }).collect();
        bytes[512 * slot..512 * slot + 8 * latest.len()].copy_from_slice(&bytes_of(&latest));
    }
    bytes
}

#[test]
fn eight_windows_lie_by_stream_number() {
    let mut session = loaded(EIGHT);
    assert_eq!(windows(&session.plan), EIGHT_ARE.map(|(stream, ..)| stream));
    for (stream, _, k) in EIGHT_ARE {
        record(&session, stream, 5, &[0, 0, 0, k as u8]);
    }
    holds(&session, 8192, &[0; 4096]);
    let offer = |session: &mut Session, input: u32, t: u32, v: i64| numbers(session, &[(Reading(input, t, v), 0)]);
    // the highest window of input 13 first, alone, then the lowest of input 12
    offer(&mut session, 13, 3, 700);
    numbers(&mut session, &[(Move(6), 0), (Move(5), 0)]);
    holds(&session, 8192 + 4 * 512, &bytes_of(&[700, 0]));
    holds(&session, 8192 + 3 * 512, &bytes_of(&[700, 0]));
    holds(&session, 8192, &[0; 3 * 512]);
    holds(&session, 8192 + 5 * 512, &[0; 3 * 512]);
    numbers(&mut session, &[(Run(99), 0)]);
    holds(&session, 8192, &eight_windows(&[&[], &[700]]));
    offer(&mut session, 12, 1, -1);
    numbers(&mut session, &[(Move(11), 0)]);
    holds(&session, 8192 + 7 * 512, &bytes_of(&[-1, 0]));
    numbers(&mut session, &[(Run(99), 0)]);
    holds(&session, 8192, &eight_windows(&[&[-1], &[700]]));
    // then at random, until the widest are full
    let mut random = Random::of(54, 0);
    let (mut known, mut values) = ([2, 4], [vec![-1], vec![700]]);
    for _ in 0..400 {
        let i = random.below(2) as usize;
        let v = random.value();
        // neg has none of the least value
        let v = if v == LEAST { 1 } else { v };
        let t = known[i] + random.below(3) as u32;
        offer(&mut session, 12 + i as u32, t, v);
        (known[i], values[i]) = (t + 1, [&values[i][..], &[v]].concat());
        numbers(&mut session, &[(Run(99), 0)]);
        for (stream, ..) in EIGHT_ARE {
            while session.call(Collect(stream as u32)).number == 0 {}
        }
        numbers(&mut session, &[(Run(99), 0)]);
        holds(&session, 8192, &eight_windows(&[&values[0], &values[1]]));
        for (stream, input, k) in EIGHT_ARE {
            record(&session, stream, 5, &[values[input as usize - 12].len().min(k) as u8]);
        }
    }
    assert!(values.iter().all(|all| all.len() > 64));
    assert!(session.check_beginning() && session.check_rest());
}

/// Of 64 streams, on both sides of the 32nd: by their rank, behind all 64 records.
#[test]
fn eight_windows_among_64_streams() {
    const AT: [(usize, usize); 8] = [(0, 1), (5, 64), (30, 2), (31, 3), (32, 5), (33, 64), (61, 7), (62, 4)];
    let plan: Vec<String> = (0..64)
        .map(|s| match AT.iter().position(|(at, _)| *at == s) {
            Some(rank) => format!("{} 63 k{} out", WINDOWS[rank % 3].name(), AT[rank].1),
            None if s == 63 => "in".into(),
            None => "neg 63".into(),
        })
        .collect();
    let mut session = Session::load(&short(&plan.join("; ")));
    assert_eq!((session.size(), windows(&session.plan)), (Size::Long, AT.map(|(at, _)| at).to_vec()));
    let mut all: Vec<i64> = vec![];
    for t in 0..70 {
        let v = 1000 - 37 * t;
        numbers(&mut session, &[(Reading(63, t as u32, v), 0)]);
        all.push(v);
        // one move of each equation
        runs(&mut session, 99, 63);
        for (rank, (stream, k)) in AT.into_iter().enumerate() {
            let latest = &all[all.len() - all.len().min(k)..];
            holds(&session, 16_384 + 512 * rank, &bytes_of(latest));
            holds(&session, 16_384 + 512 * rank + 8 * latest.len(), &vec![0; 512 - 8 * latest.len()]);
            record(&session, stream, 5, &[latest.len() as u8]);
            collected(&mut session, stream as u32, &[(t as u32, defined(WINDOWS[rank % 3], k, &all).unwrap())]);
        }
    }
    assert!(session.check_beginning() && session.check_rest());
}

#[test]
fn the_stored_numbers() {
    for (place, window) in WINDOWS.iter().enumerate() {
        let session = loaded(&format!("in; in; in; {} 2 k37 out", window.name()));
        record(&session, 3, 0, &[28 + place as u8, 2, 0, 1, 0, 0, 0, 0, 37]);
        record(&session, 3, 9, &[0; 247]);
        holds(&session, 1024, &vec![0; STATE_LENGTH - 1024]);
    }
    assert_eq!(WINDOWS.map(|window| window.name()), ["wsum", "wmin", "wmax"]);
}

#[test]
fn what_a_record_keeps() {
    for window in ["wsum", "wmin", "wmax"] {
        let mut session = loaded(&format!("in; {window} 0 k3"));
        for (i, v) in [-1, 5, LEAST, 7].into_iter().enumerate() {
            offered(&mut session, &[(4 * i as u32, v)]);
            numbers(&mut session, &[(Run(9), 0)]);
            // the fill; byte 6 and words 32 to 55 stay 0, and so do the counts; nobody waits for its events
            record(&session, 1, 4, &[0, (i as u8 + 1).min(3), 0, 0, 3, 0, 0, 0, 0, 0, 0, 0, 4 * i as u8 + 1, 0, 0, 0, 0, 0, 0, 0]);
            record(&session, 1, 24, &[0; 232]);
        }
        holds(&session, 8192, &bytes_of(&[5, LEAST, 7, 0]));
        assert_eq!(layout::held(session.state(), 0), []);
    }
}

// ---- number 15

/// Every call answers so to these bytes, in both engines, and to the same widened; the model agrees, and nothing is written.
fn is_state(bytes: &[u8], is: bool, why: &str) {
    is_state_in(bytes, is, why);
    is_state_in(&layout::widened(bytes), is, why);
}

fn is_state_in(bytes: &[u8], is: bool, why: &str) {
    assert_eq!(Found::read(bytes).is_some(), is, "the model: {why}");
    for engine in engines() {
        let mut state = Lent::of(bytes);
        for (call, done) in [(Reading(99, 1, 1), 7), (Progress(99, 1), 7), (Move(99), 11), (Run(0), 0), (Collect(99), 13)] {
            let answer = engine.call(&mut state, call);
            assert_eq!(answer, Answer { number: if is { done } else { 15 }, ..Answer::default() }, "{}: {call:?}, {why}", engine.name);
            assert!(state[..] == *bytes && state.untouched(), "{}: {call:?}, {why}", engine.name);
        }
    }
}

/// The state after so many readings of both inputs, each −1 more than the one before.
fn filled(readings: i64) -> Session {
    let mut session = loaded(EIGHT);
    for i in 0..readings {
        for input in [12, 13] {
            numbers(&mut session, &[(Reading(input, i as u32, -1 - i), 0)]);
        }
        numbers(&mut session, &[(Run(99), 0)]);
        for (stream, ..) in EIGHT_ARE {
            numbers(&mut session, &[(Collect(stream as u32), 0)]);
        }
    }
    session
}

/// A short run looks at some places and bytes only.
fn step() -> usize {
    if rounds(100) < 100 { 61 } else { 1 }
}

#[test]
fn each_byte_of_the_windows_damaged() {
    let session = filled(3);
    let good = session.state().to_vec();
    is_state(&good, true, "three readings");
    for (slot, (stream, _, k)) in EIGHT_ARE.into_iter().enumerate() {
        let fill = k.min(3);
        assert_eq!(good[256 * stream + 5] as usize, fill);
        for at in (0..512).step_by(step()).chain([8 * fill, 511]) {
            let mut bytes = good.clone();
            for byte in [1, 128, 255] {
                bytes[8192 + 512 * slot + at] = byte;
                // within the fill any value has a meaning
                is_state(&bytes, at < 8 * fill, &format!("byte {at} of window {slot} is {byte}"));
            }
        }
    }
    // a window that no stream has
    let mut session = loaded("in; wsum 0 k64 out");
    offered(&mut session, &[(0, -1), (1, -1)]);
    numbers(&mut session, &[(Run(9), 0)]);
    let good = session.state().to_vec();
    for at in (8192 + 16..STATE_LENGTH).step_by(step()).chain([8192 + 16, 8192 + 511, 8192 + 512, STATE_LENGTH - 1]) {
        let mut bytes = good.clone();
        bytes[at] = 1;
        is_state(&bytes, false, &format!("byte {at}, behind the fill or in no window"));
    }
}

#[test]
fn each_field_of_a_window_s_record_damaged() {
    let good = filled(3).state().to_vec();
    for (slot, (stream, _, k)) in EIGHT_ARE.into_iter().enumerate() {
        let (record, fill) = (256 * stream, k.min(3));
        let changed = |changes: &[(usize, u8)]| {
            let mut bytes = good.clone();
            for (at, byte) in changes {
                bytes[record + at] = *byte;
            }
            bytes
        };
        // the fill: every other one is above the width, or has values behind it that are not 0, or zeros for values
        for other in (0..=255).step_by(step()).chain([fill as u8, k as u8, k as u8 + 1]) {
            let is = other as usize == fill || (other as usize > fill && other as usize <= k);
            is_state(&changed(&[(5, other)]), is, &format!("window {slot} with fill {other}"));
        }
        // the width: below the fill, or outside 1 to 64
        for width in (0..=255).step_by(step()).chain([fill as u8, 64, 65]) {
            let is = (fill as u8..=64).contains(&width);
            is_state(&changed(&[(8, width)]), is, &format!("window {slot} with width {width}"));
        }
        for at in 9..16 {
            is_state(&changed(&[(at, 1)]), false, &format!("window {slot}, byte {at} of the width"));
            is_state(&changed(&[(at, 255)]), false, &format!("window {slot}, byte {at} of the width"));
        }
        is_state(&changed(&[(8, 255), (9, 255), (10, 255), (11, 255), (12, 255), (13, 255), (14, 255), (15, 255)]), false, "a width of −1");
        // b, byte 6, byte 7, words 32 to 55; a sum counts those that are missing in 56 to 63, and no other window does
        for at in [2, 6, 7, 63].into_iter().chain((32..64).step_by(step())) {
            for byte in [1, 128, 255] {
                let is = at >= 56 && good[record] == 28;
                is_state(&changed(&[(at, byte)]), is, &format!("window {slot}, byte {at} is {byte}"));
            }
        }
        // another window of the same fill; anything else keeps less, or has no k
        for op in (0..=255).step_by(step()).chain([27, 28, 29, 30, 31]) {
            is_state(&changed(&[(0, op)]), (28..=30).contains(&op), &format!("window {slot} with operator {op}"));
        }
        // with bound 0 nothing is kept, be it a 0, nor is an event collected
        let zero = [(16, 0), (24, 0)];
        is_state(&changed(&zero), false, "kept with bound 0");
        let mut empty = changed(&[&zero[..], &[(5, 0)]].concat());
        is_state(&empty, false, "values behind the fill 0");
        empty[8192 + 512 * slot..8704 + 512 * slot].fill(0);
        is_state(&empty, true, "an empty window with bound 0");
        empty[record + 5] = 1;
        is_state(&empty, false, "a 0 kept with bound 0");
    }
}

#[test]
fn a_ninth_window_in_a_state() {
    let mut plan = short(EIGHT);
    let fresh = |plan: &host::plan::Plan| Found { plan: plan.clone(), records: vec![Record::default(); plan.len()], ..Found::default() }.bytes();
    is_state(&fresh(&plan), true, "eight windows");
    // nil and unit have no argument, neg has no k
    for (s, op, a) in [(10, "wmin", 4), (7, "wsum", 13), (1, "wmax", 13)] {
        let before = plan[s];
        plan[s] = short(&format!("{op} {a} k1"))[0];
        is_state(&fresh(&plan), false, "a ninth window");
        // one of the eight is none: as many as before
        let other = plan[0];
        plan[0] = short("neg 12")[0];
        is_state(&fresh(&plan), true, "eight windows");
        (plan[0], plan[s]) = (other, before);
    }
    // 31 windows of one input
    let many = format!("in; {}", ["wmax 0 k64"; 31].join("; "));
    is_state(&fresh(&short(&many)), false, "31 windows");
}

/// A record turned into a window moves the windows behind it: their values would be another's.
#[test]
fn a_window_more_in_a_state() {
    let mut session = loaded("in; set 0 k2; wsum 0 k64 out");
    offered(&mut session, &[(0, 9), (1, 8), (2, 7)]);
    numbers(&mut session, &[(Run(9), 0)]);
    let mut bytes = session.state().to_vec();
    holds(&session, 8192, &bytes_of(&[9, 8, 7]));
    // stream 1 would be a window with no value, so window 0 would have to be 0, and window 1 three values
    bytes[256] = 28;
    is_state(&bytes, false, "window 0 is not empty");
    bytes.copy_within(8192..8216, 8704);
    is_state(&bytes, false, "window 0 is not empty");
    bytes[8192..8216].fill(0);
    is_state(&bytes, true, "the second window's values where the second window lies");
}
