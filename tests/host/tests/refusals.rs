//! Each number 1 to 15 and 18 with cases by hand, on both engines, and on states of both lengths.

use host::buffer::Lent;
use host::engine::{engines, Answer, Call, Missing, LONG_STATE_LENGTH, STATE_LENGTH};
use host::history::Session;
use host::layout::{Size, SIZES};
use host::plan::{short, text_of, SIGNALS, WINDOWS};
use host::random::rounds;
use host::worked::load_in;

/// Load's number, the same on a state of either length.
fn load(text: &[u8]) -> u32 {
    let numbers = both(text);
    assert_eq!(numbers[0], numbers[1], "the two lengths: {:?}", String::from_utf8_lossy(text));
    numbers[0]
}

/// Load's number on a state of 12,288 bytes, and on one of 20,480.
fn both(text: &[u8]) -> [u32; 2] {
    SIZES.map(|size| load_in(size, text))
}

fn refused(text: &str) -> u32 {
    load(text.as_bytes())
}

const IN: &str = "op=in\na=0\nb=0\nk=0\nout=0\n";

fn plan_of(streams: &[&str]) -> String {
    format!("plan=1\nstreams={}\n{}", streams.len(), streams.concat())
}

/// One stream of operator set, with one field in place of the usual one.
fn with(field: &str) -> String {
    let mut text = String::from("plan=1\nstreams=2\nop=in\na=0\nb=0\nk=0\nout=0\n");
    let key = field.split('=').next().unwrap();
    for line in ["op=set", "a=0", "b=0", "k=5", "out=1"] {
        text += if line.split('=').next() == Some(key) { field } else { line };
        text += "\n";
    }
    text
}

#[test]
fn a_plan_is_taken() {
    assert_eq!(refused(&plan_of(&[IN])), 0);
    assert_eq!(refused(&with("op=set")), 0);
    assert_eq!(refused(&text_of(&short("in; unit; set 1 k0; last 5 0; plus 3 k1; merge 4 2 out"))), 0);
    // "An empty plan text now means a plan of no streams"
    assert_eq!(refused(""), 0);
}

#[test]
fn number_1_the_text_is_too_long() {
    // up to version 1.8 the limit was 2,048
    for length in [1, 2048, 2049, 4095, 4096] {
        assert_eq!(load(&vec![b'x'; length]), 2, "{length}");
    }
    for length in [4097, 4098, 8192, 65_536 + 171] {
        assert_eq!(load(&vec![b'x'; length]), 1, "{length}");
    }
    let mut long = plan_of(&[IN]).into_bytes();
    long.resize(4096, b'\n');
    assert_eq!(load(&long), 2);
    long.push(b'\n');
    assert_eq!(load(&long), 1);
    // before 3: the count of streams is not looked at
    let mut many = plan_of(&[IN; 65]).into_bytes();
    assert_eq!(load(&many), 3);
    many.resize(4097, b'\n');
    assert_eq!(load(&many), 1);
}

#[test]
fn number_2_form() {
    for text in ["\n", "plan=1", "plan=1\n", "plan=2\nstreams=1\n", "plan=01\n", " plan=1\n", "plan=1\r\nstreams=1\r\n", "Plan=1\n"] {
        assert_eq!(refused(text), 2, "{text:?}");
    }
    for streams in ["00", "033", "1000", "", "-1", "+1", "1 ", " 1", "1\r", "01", "a"] {
        assert_eq!(refused(&format!("plan=1\nstreams={streams}\n")), 2, "streams={streams}");
    }
    assert_eq!(refused("plan=1\nstreams=33"), 2);
    assert_eq!(refused("plan=1\nstreams=0"), 2);
    for name in ["", "IN", "In", "in ", "lasted", "delays", "abcdef", "l4st", "in-", "smerge", "sdelay", "Sadd", "sadd ", "wcount", "Wsum", "wmin "] {
        assert_eq!(refused(&with(&format!("op={name}"))), 2, "op={name}");
    }
    for field in ["a=", "a=00", "a=01", "a=-1", "a=1000", "b=", "b=00", "b=0000", "out=2", "out=", "out=00", "out=-1", "out=10"] {
        assert_eq!(refused(&with(field)), 2, "{field}");
    }
    for k in ["", "-", "-0", "00", "01", "-01", "+1", "9223372036854775808", "-9223372036854775809", "99999999999999999999", "1.0", "18446744073709551616", "--1"] {
        assert_eq!(refused(&with(&format!("k={k}"))), 2, "k={k}");
    }
    // bytes left over, a line missing, a line in another order, the last line without its ending byte
    assert_eq!(refused(&(plan_of(&[IN]) + "\n")), 2);
    assert_eq!(refused(&(plan_of(&[IN]) + IN)), 2);
    assert_eq!(refused(&plan_of(&[IN]).replace("streams=1", "streams=2")), 2);
    assert_eq!(refused(&plan_of(&["op=in\nb=0\na=0\nk=0\nout=0\n"])), 2);
    assert_eq!(refused(plan_of(&[IN]).strip_suffix('\n').unwrap()), 2);
    // the range of k is form, also where k is unused; bytes left over come before 5
    assert_eq!(refused(&plan_of(&["op=in\na=0\nb=0\nk=9223372036854775808\nout=0\n"])), 2);
    assert_eq!(refused(&(plan_of(&["op=in\na=1\nb=0\nk=0\nout=0\n"]) + "x")), 2);
}

#[test]
fn the_greatest_and_least_k_are_taken() {
    for k in ["9223372036854775807", "-9223372036854775808", "-1", "0"] {
        assert_eq!(refused(&with(&format!("k={k}"))), 0, "k={k}");
    }
}

#[test]
fn number_3_streams() {
    for n in ["0", "65", "66", "128", "999", "100"] {
        assert_eq!(refused(&format!("plan=1\nstreams={n}\n")), 3, "streams={n}");
        assert_eq!(refused(&format!("plan=1\nstreams={n}\nop=zz")), 3, "streams={n}");
    }
    // every count, by the state's length
    for n in 1..=70 {
        let wanted = [32, 64].map(|cap| if n <= cap { 0 } else { 3 });
        assert_eq!(both(plan_of(&vec![IN; n]).as_bytes()), wanted, "{n} streams");
        // and where the first line of a stream is missing, or is no operator's
        let cut = |line: &str| both(format!("plan=1\nstreams={n}\n{line}").as_bytes());
        assert_eq!(cut(""), wanted.map(|number| if number == 0 { 2 } else { 3 }), "{n} streams");
        assert_eq!(cut("op=zz\n"), wanted.map(|number| if number == 0 { 4 } else { 3 }), "{n} streams");
    }
    // at the place where it stands: after the form of its line and of the one before, before all that comes behind
    for n in [33, 64] {
        assert_eq!(both(format!("plan=2\nstreams={n}\n").as_bytes()), [2, 2]);
        assert_eq!(both(format!("plan=1\nstreams=0{n}\n").as_bytes()), [2, 2]);
        assert_eq!(both(format!("plan=1\nstreams={n}").as_bytes()), [2, 2]);
        let field = plan_of(&vec![IN; n]).replace("out=0", "out=1");
        assert_eq!(both(field.as_bytes()), [3, 5]);
        let wide = plan_of(&vec!["op=wsum\na=0\nb=0\nk=65\nout=0\n"; n]);
        assert_eq!(both(wide.as_bytes()), [3, 18]);
        let ring = plan_of(&vec!["op=neg\na=0\nb=0\nk=0\nout=0\n"; n]);
        assert_eq!(both(ring.as_bytes()), [3, 6]);
        assert_eq!(both((plan_of(&vec![IN; n]) + "x").as_bytes()), [3, 2]);
    }
}

#[test]
fn number_4_operators() {
    for name in ["x", "ins", "inn", "units", "abcde", "i", "merg", "dela", "sneg", "splus", "skeep", "slast", "sadds", "sad", "se", "seqs", "s", "wsums", "wsu", "wavg", "wmi", "wma", "w", "sum", "swsum"] {
        assert_eq!(refused(&with(&format!("op={name}"))), 4, "op={name}");
    }
    // without its ending byte the form comes first; the first faulty line decides
    assert_eq!(refused("plan=1\nstreams=1\nop=zz"), 2);
    assert_eq!(refused("plan=1\nstreams=1\nop=zz\na=x\n"), 4);
    assert_eq!(refused("plan=1\nstreams=1\nop=in\na=x\nb=0\nk=0\nout=0\nop=zz\n"), 2);
}

#[test]
fn number_5_fields() {
    for text in [
        "op=in\na=1\nb=0\nk=0\nout=0\n", "op=in\na=0\nb=1\nk=0\nout=0\n", "op=in\na=0\nb=0\nk=1\nout=0\n",
        "op=in\na=0\nb=0\nk=0\nout=1\n", "op=unit\na=0\nb=0\nk=-1\nout=0\n", "op=nil\na=0\nb=999\nk=0\nout=1\n",
    ] {
        assert_eq!(refused(&plan_of(&[text])), 5, "{text}");
    }
    for field in ["a=2", "a=999", "b=1"] {
        assert_eq!(refused(&with(field)), 5, "{field}");
    }
    assert_eq!(refused(&with("op=neg")), 5, "neg has no k");
    // a signal form uses a and b, and no k
    for (form, _) in SIGNALS {
        assert_eq!(refused(&with(&format!("op={}", form.name()))), 5, "{} has no k", form.name());
        let two = |a: u32, b: u32| refused(&plan_of(&[IN, &format!("op={}\na={a}\nb={b}\nk=0\nout=1\n", form.name())]));
        assert_eq!((two(0, 0), two(2, 0), two(0, 2)), (0, 5, 5), "{}", form.name());
    }
    // a window uses a and k, and no b
    for window in WINDOWS {
        let one = |a: u32, b: u32, k: i64| refused(&plan_of(&[IN, &format!("op={}\na={a}\nb={b}\nk={k}\nout=1\n", window.name())]));
        assert_eq!((one(0, 0, 5), one(0, 1, 5), one(2, 0, 5)), (0, 5, 5), "{}", window.name());
        // 5 comes before 18, of the same stream or a later one
        assert_eq!((one(0, 1, 0), one(2, 0, 65)), (5, 5), "{}", window.name());
        assert_eq!(refused(&plan_of(&[IN, &format!("op={}\na=0\nb=0\nk=65\nout=1\n", window.name()), "op=neg\na=0\nb=0\nk=1\nout=0\n"])), 5);
    }
    // 5 comes before 6, wherever it stands
    assert_eq!(refused(&plan_of(&["op=neg\na=0\nb=0\nk=0\nout=0\n", "op=in\na=0\nb=0\nk=0\nout=1\n"])), 5);
}

#[test]
fn number_6_cycles() {
    let number = |plan: &str| refused(&text_of(&short(plan)));
    assert_eq!(number("merge 0 0"), 6);
    assert_eq!(number("in; merge 1 0"), 6);
    assert_eq!(number("in; merge 0 1"), 6);
    assert_eq!(number("neg 0"), 6);
    // both arguments of a signal form are undelayed
    for (form, _) in SIGNALS {
        let name = form.name();
        for plan in [format!("{name} 0 0"), format!("in; {name} 1 0"), format!("in; {name} 0 1"), format!("in; last 0 2; {name} 0 1")] {
            assert_eq!(number(&plan), 6, "{plan}");
        }
        assert_eq!(number(&format!("in; last 2 0; {name} 0 1")), 0);
    }
    // longer ones, and through the second argument of a last or a delay
    assert_eq!(number("neg 1; neg 0"), 6);
    assert_eq!(number("in; add 0 2; neg 3; plus 1 k1"), 6);
    assert_eq!(number("in; last 0 1"), 6);
    assert_eq!(number("in; delay 0 2; last 0 1"), 6);
    // the first argument of a last or a delay makes it good
    assert_eq!(number("last 0 1; in"), 0);
    assert_eq!(number("in; last 2 0; plus 1 k1"), 0);
    assert_eq!(number("in; delay 2 0; set 1 k1"), 0);
    // 32 in a row, and a ring of 32
    let chain: Vec<String> = (0..32).map(|i| if i == 31 { "in".into() } else { format!("neg {}", i + 1) }).collect();
    assert_eq!(number(&chain.join("; ")), 0);
    let back: Vec<String> = (0..32).map(|i| if i == 0 { "in".into() } else { format!("neg {}", i - 1) }).collect();
    assert_eq!(number(&back.join("; ")), 0);
    let ring: Vec<String> = (0..32).map(|i| format!("neg {}", (i + 1) % 32)).collect();
    assert_eq!(number(&ring.join("; ")), 6);
    // every stream reads the next one twice: found in a few steps, or never in two to the power of 31
    let wide: Vec<String> = (0..32).map(|i| if i == 31 { "in".into() } else { format!("add {} {}", i + 1, i + 1) }).collect();
    assert_eq!(number(&wide.join("; ")), 0);
}

/// Rings of 33 to 64 streams, and ways as deep, in the longer state; the shorter one has 3.
#[test]
fn number_6_cycles_64_deep() {
    let number = |plan: &[String]| {
        let [shorter, longer] = both(text_of(&short(&plan.join("; "))).as_bytes());
        assert_eq!(shorter, 3);
        longer
    };
    // stream s reads by(s), but for the last: this
    let plan = |n: usize, by: &dyn Fn(usize) -> String, last: &str| -> Vec<String> { (0..n).map(|s| if s + 1 == n { last.to_string() } else { by(s) }).collect() };
    // a short run looks at some of them only
    for n in (33..=64).step_by(if rounds(100) < 100 { 31 } else { 1 }) {
        let up = |s: usize| format!("neg {}", s + 1);
        assert_eq!(number(&plan(n, &up, "in")), 0, "{n} deep");
        assert_eq!(number(&plan(n, &up, "neg 0")), 6, "a ring of {n}");
        // the same downwards, where the ways begin at the deep end
        let down = |s: usize| if s == 0 { "in".into() } else { format!("neg {}", s - 1) };
        assert_eq!(number(&plan(n, &down, &format!("neg {}", n - 2))), 0, "{n} deep");
        assert_eq!(number(&plan(n, &|s| if s == 0 { format!("neg {}", n - 1) } else { down(s) }, &format!("neg {}", n - 2))), 6, "a ring of {n}");
        // a first argument of a last or a delay in the ring, wherever it stands; its second one does not open it
        for at in [0, 1, n / 2, n - 2] {
            for op in ["last", "delay"] {
                // stream n − 1 is an input beside the ring of the others
                let ring = |open: bool| -> Vec<String> {
                    let (input, next) = (n - 1, |s: usize| (s + 1) % (n - 1));
                    let stream = |s: usize| match s {
                        _ if s == input => "in".into(),
                        _ if s != at => format!("plus {} k1", next(s)),
                        _ if open => format!("{op} {} {input}", next(s)),
                        _ => format!("{op} {input} {}", next(s)),
                    };
                    (0..n).map(stream).collect()
                };
                assert_eq!((number(&ring(true)), number(&ring(false))), (0, 6), "{op} at {at} in a ring of {}", n - 1);
            }
        }
        // the ring's last two: found only at the end of a long way
        assert_eq!(number(&plan(n, &up, &format!("neg {}", n - 2))), 6);
        assert_eq!(number(&plan(n, &up, &format!("neg {}", n - 1))), 6);
        // every stream reads the next one twice, with a ring at the end or without
        let twice = |s: usize| format!("add {} {}", s + 1, s + 1);
        assert_eq!(number(&plan(n, &twice, "unit")), 0, "{n} deep, twice");
        assert_eq!(number(&plan(n, &twice, &format!("merge {} {}", n - 1, n - 2))), 6);
        // every stream reads two that come later
        let two = |s: usize| format!("add {} {}", s + 1, (s + 2).min(n - 1));
        assert_eq!(number(&plan(n, &two, "nil")), 0);
        assert_eq!(number(&plan(n, &two, "neg 31")), 6);
    }
}

#[test]
fn number_18_windows() {
    let number = |plan: &str| refused(&text_of(&short(plan)));
    for name in WINDOWS.map(|window| window.name()) {
        for k in [1, 2, 63, 64] {
            assert_eq!(number(&format!("in; {name} 0 k{k}")), 0, "{name} {k}");
        }
        // also where k's lowest bits are those of a good width
        for k in [0, -1, 65, -64, 66, 128, 255, 256, 257, 1 << 16 | 5, 1 << 32 | 64, i64::MAX, i64::MIN, i64::MIN + 1] {
            assert_eq!(number(&format!("in; {name} 0 k{k}")), 18, "{name} {k}");
        }
        // before 6, of the same stream or another; after 6 nothing
        assert_eq!((number(&format!("{name} 0 k65")), number(&format!("{name} 0 k1"))), (18, 6));
        assert_eq!((number(&format!("in; {name} 0 k0; neg 2")), number(&format!("in; {name} 0 k1; neg 2"))), (18, 6));
        assert_eq!((number(&format!("in; {name} 2 k1; last 0 1")), number(&format!("in; {name} 2 k1; last 1 0"))), (6, 0));
        // a width that is no value is a fault of form
        assert_eq!(refused(&text_of(&short(&format!("in; {name} 0 k5"))).replace("k=5", "k=9223372036854775808")), 2);
        assert_eq!(refused(&text_of(&short(&format!("in; {name} 0 k5"))).replace("k=5", "k=05")), 2);
    }
    // eight of any kinds are taken, nine are not, wherever they stand
    let kinds = |n: usize| (0..n).map(|i| format!("{} 0 k{}", WINDOWS[i % 3].name(), 1 + 9 * i)).collect::<Vec<_>>();
    let plan = |n: usize, between: &str| format!("in; {}", kinds(n).join(&format!("; {between}")));
    for between in ["", "neg 0; ", "set 0 k65; plus 0 k0; "] {
        for n in 1..=8 {
            assert_eq!(number(&plan(n, between)), 0, "{n} windows");
        }
        for n in 9..=10 {
            assert_eq!(number(&plan(n, between).replace("k82", "k64").replace("k73", "k64")), 18, "{n} windows");
        }
    }
    let all = vec!["wmax 31 k64"; 31].join("; ") + "; in";
    assert_eq!(number(&all), 18);
    assert_eq!(number(&all.replacen("wmax 31 k64", "neg 31", 23)), 0);
    assert_eq!(number(&all.replacen("wmax 31 k64", "neg 31", 22)), 18);
    // nine windows before a cycle
    assert_eq!(number(&(vec!["wmin 0 k1"; 9].join("; "))), 18);
    assert_eq!(number(&(vec!["wmin 0 k1"; 8].join("; "))), 6);
}

fn numbers(session: &mut Session, calls: &[(Call, u32)]) {
    for (call, number) in calls {
        assert_eq!(session.call(*call).number, *number, "{call:?}");
    }
}

#[test]
fn numbers_7_to_10_offers() {
    use Call::{Progress, Reading};
    let mut session = Session::load(&short("in; neg 0 out; in"));
    numbers(
        &mut session,
        &[
            (Reading(1, 0, 5), 7), (Reading(3, 0, 5), 7), (Reading(u32::MAX, 0, 5), 7), (Progress(1, 5), 7), (Progress(3, 5), 7),
            // 7 comes before 10, 10 before 8
            (Progress(1, 4_294_967_297), 7), (Progress(0, 4_294_967_297), 10), (Progress(0, u64::MAX), 10),
            (Reading(0, 4, 1), 0), (Reading(0, 4, 1), 8), (Reading(0, 3, 1), 8), (Progress(0, 4), 8), (Progress(0, 5), 0),
            (Progress(0, 9), 0), (Progress(0, 8), 8), (Reading(0, 8, 1), 8), (Reading(0, 9, 1), 0), (Progress(0, 4_294_967_297), 10),
        ],
    );
}

#[test]
fn number_9_the_seventeenth_reading() {
    use Call::{Progress, Reading, Run};
    let mut session = Session::load(&short("in; in; add 0 1 out"));
    for t in 0..16 {
        assert_eq!(session.call(Reading(0, 2 * t, 1)).number, 0);
    }
    numbers(&mut session, &[(Reading(0, 40, 1), 9), (Reading(0, 30, 1), 8), (Run(100), 0), (Reading(0, 40, 1), 9)]);
    // progress has no 9, equal or higher, and the input behind is taken
    numbers(&mut session, &[(Progress(0, 31), 0), (Progress(0, 50), 0), (Reading(0, 50, 1), 9), (Reading(1, 0, 1), 0), (Run(100), 0), (Reading(0, 50, 1), 0)]);
}

#[test]
fn the_last_stamp_and_the_horizon() {
    use Call::{Progress, Reading};
    let mut session = Session::load(&short("in; neg 0 out"));
    numbers(
        &mut session,
        &[
            (Reading(0, 4_294_967_295, 1), 0), (Reading(0, 4_294_967_295, 1), 8), (Reading(0, 0, 1), 8),
            (Progress(0, 4_294_967_296), 0), (Progress(0, 4_294_967_295), 8), (Progress(0, 4_294_967_297), 10),
        ],
    );
}

#[test]
fn numbers_11_and_12_move() {
    use Call::{Collect, Move, Progress, Reading};
    let mut session = Session::load(&short("in; neg 0 out; unit"));
    numbers(
        &mut session,
        &[
            (Move(0), 11), (Move(3), 11), (Move(u32::MAX), 11), (Move(1), 12), (Move(2), 0), (Move(2), 0), (Move(2), 12),
            (Reading(0, 3, 1), 0), (Move(1), 0), (Move(1), 12), (Progress(0, 9), 0), (Move(1), 0), (Move(1), 12), (Collect(1), 0), (Collect(1), 14),
        ],
    );
}

#[test]
fn numbers_13_and_14_collect() {
    use Call::{Collect, Reading, Run};
    let mut session = Session::load(&short("in; neg 0 out; neg 1; in; add 1 3"));
    numbers(&mut session, &[(Collect(0), 13), (Collect(2), 13), (Collect(5), 13), (Collect(u32::MAX), 13), (Collect(1), 14), (Reading(0, 3, 8), 0), (Collect(1), 14), (Run(9), 0)]);
    assert_eq!(session.call(Collect(1)), Answer { number: 0, moves: 0, stamp: 3, value: -8 });
    // collected, but held for the add, which waits for stream 3: not waiting
    assert_eq!(host::layout::held(session.state(), 1), vec![(3, -8)]);
    numbers(&mut session, &[(Collect(1), 14)]);
}

#[test]
fn run_counts_its_moves() {
    use Call::{Reading, Run};
    let mut session = Session::load(&short("in; unit; set 1 k0; last 5 0; plus 3 k1; merge 4 2 out"));
    assert_eq!(session.call(Run(0)).moves, 0);
    // unit's event; set's; merge waits for plus, which waits for last, which is known to 0 as its b is
    assert_eq!(session.call(Run(2)).moves, 2);
    let mut total = 2;
    loop {
        let moves = session.call(Run(1)).moves;
        if moves == 0 {
            break;
        }
        total += moves;
    }
    let mut other = Session::load(&session.plan.clone());
    assert_eq!(other.call(Run(u32::MAX)).moves, total);
    assert_eq!(session.state(), other.state());
    session.call(Reading(0, 3, 7));
    let moves = session.call(Run(u32::MAX)).moves;
    assert!(moves > 0 && session.call(Run(u32::MAX)).moves == 0);
}

#[test]
fn number_15_lengths() {
    let text = text_of(&short("in; neg 0 out"));
    for engine in engines() {
        let mut good = vec![0; STATE_LENGTH];
        assert_eq!(engine.load(&mut good, text.as_bytes()), 0);
        let near = [STATE_LENGTH - 1, STATE_LENGTH + 1, 2 * STATE_LENGTH, 16_384, LONG_STATE_LENGTH - 1, LONG_STATE_LENGTH + 1, 32_768, 2 * LONG_STATE_LENGTH];
        for length in [0, 1, 255, 256, 4096, 8192].into_iter().chain(near) {
            let mut bytes = good.clone();
            bytes.resize(length, 0);
            let mut state = Lent::of(&bytes);
            // load's 15 comes before its other numbers
            for text in [text.as_bytes(), b"", &[b'x'; 3000], &[b'x'; 5000]] {
                assert_eq!(engine.load(&mut state, text), 15);
            }
            for call in [Call::Reading(0, 1, 1), Call::Progress(0, 1), Call::Move(1), Call::Run(5), Call::Collect(1)] {
                assert_eq!(engine.call(&mut state, call), Answer { number: 15, ..Answer::default() }, "{}", engine.name);
            }
            for stream in [0, 1, 2, u32::MAX] {
                assert_eq!(engine.missing(&mut state, stream), (15, Missing::default()), "{}", engine.name);
            }
            assert!(state[..] == bytes[..] && state.untouched());
        }
    }
}

#[test]
fn number_15_contents() {
    for size in SIZES {
        contents(size);
    }
}

fn contents(size: Size) {
    let text = text_of(&short("in; neg 0 out; last 0 1; delay 0 2; sadd 0 1; wsum 0 k5"));
    let mut good = vec![0; size.length()];
    assert_eq!(engines()[1].load(&mut good, text.as_bytes()), 0);
    let (windows, end) = (size.windows(), size.length());
    // (byte, what it is set to): each one alone makes a state that load and the calls cannot leave
    let bad: &[(usize, u8, &str)] = &[
        (0, 0, "no stream here, but streams after it"), (0, 31, "no operator"), (1, 1, "in has no a"), (2, 1, "in has no b"), (3, 1, "in is no output"),
        (256 + 1, 6, "a not below the number of streams"), (256 + 1, 1, "a cycle"), (256 + 2, 1, "neg has no b"), (256 + 3, 2, "out is 0 or 1"),
        (256 + 4, 17, "more than 16 held"), (256 + 4, 1, "a held stamp not below the bound 0"), (256 + 5, 1, "neg keeps nothing"), (256 + 7, 1, "unused"),
        (256 + 8, 1, "neg has no k"), (256 + 16 + 5, 1, "a bound above the horizon"), (256 + 24, 1, "a mark above the bound"), (24, 1, "a mark of no output"),
        (56, 1, "in counts nothing"), (256 + 56, 1, "counted with bound 0"), (256 + 63, 1, "counted with bound 0"),
        (256 + 64, 1, "an unused slot"), (256 + 255, 1, "an unused slot"), (512 + 5, 1, "kept with bound 0"), (512 + 5, 2, "a flag above 1"),
        (512 + 60, 1, "a last counts nothing"), (768 + 59, 1, "a delay counts nothing"), (1024 + 56, 1, "counted with bound 0"), (1024 + 60, 1, "counted with bound 0"),
        (512 + 32, 1, "a value without its flag"), (768 + 32, 1, "since above the bound"), (768 + 40, 1, "a value without its flag"), (768 + 6, 1, "a prior with bound 0"),
        (1024 + 1, 6, "a not below the number of streams"), (1024 + 2, 6, "b not below the number of streams"), (1024 + 1, 4, "a cycle"), (1024 + 2, 4, "a cycle"),
        (1024 + 8, 1, "a signal form has no k"), (1024 + 5, 1, "kept with bound 0"), (1024 + 6, 1, "kept with bound 0"), (1024 + 5, 2, "a flag above 1"),
        (1024 + 6, 2, "a flag above 1"), (1024 + 32, 1, "a value without its flag"), (1024 + 47, 1, "a value without its flag"), (1024 + 48, 1, "unused"),
        (1024 + 55, 1, "unused"), (1024, 31, "no operator"), (1024, 255, "no operator"), (1024, 0, "no stream here, but bytes after it"),
        (1024, 28, "a width of 0"), (1280 + 1, 6, "a not below the number of streams"), (1280 + 1, 5, "a cycle"), (1280 + 2, 1, "a window has no b"),
        (1280 + 5, 1, "kept with bound 0"), (1280 + 6, 1, "unused"), (1280 + 8, 0, "a width of 0"), (1280 + 8, 65, "a width above 64"), (1280 + 8, 255, "a width above 64"),
        (1280 + 9, 1, "a width above 64"), (1280 + 12, 1, "a width above 64"), (1280 + 15, 255, "a width below 0"), (1280 + 32, 1, "unused"), (1280 + 40, 1, "unused"),
        (1280 + 55, 1, "unused"), (1280 + 56, 1, "counted with bound 0"), (1280, 31, "no operator"), (1280, 7, "neg has no k"), (1280, 0, "no stream here, but bytes after it"),
        (1536, 31, "no operator"), (1537, 1, "behind the streams"), (8191, 1, "behind the streams"), (8192, 1, "behind the streams, or the fill of window 0"),
        (12_287, 1, "behind the streams, or a window that no stream has"), (windows - 1, 1, "behind the streams"), (windows, 1, "behind the fill of window 0"),
        (windows + 511, 1, "behind the fill of window 0"), (windows + 512, 1, "a window that no stream has"), (end - 1, 1, "a window that no stream has"),
    ];
    for engine in engines() {
        assert_eq!(engine.call(&mut good.clone(), Call::Run(0)).number, 0);
        for (at, byte, why) in bad {
            let mut bytes = good.clone();
            bytes[*at] = *byte;
            for call in [Call::Reading(9, 1, 1), Call::Progress(9, 1), Call::Move(9), Call::Run(0), Call::Collect(9)] {
                let mut state = Lent::of(&bytes);
                assert_eq!(engine.call(&mut state, call).number, 15, "{}: {why}", engine.name);
                assert_eq!(engine.missing(&mut state, 9), (15, Missing::default()), "{}: {why}", engine.name);
                assert!(state[..] == bytes[..] && state.untouched());
            }
        }
        // without streams all bytes are 0, and it is a state; with a byte left of what was loaded it is none
        let mut bytes = vec![0; size.length()];
        assert_eq!(engine.call(&mut bytes, Call::Run(0)).number, 0);
        for at in (1..1536).filter(|&at| good[at] != 0) {
            bytes[at] = good[at];
            assert_eq!(engine.call(&mut bytes, Call::Run(0)).number, 15, "{}: byte {at} alone", engine.name);
            bytes[at] = 0;
        }
    }
}

#[test]
fn a_refused_load_leaves_the_list_and_a_done_one_starts_anew() {
    for engine in engines() {
        let mut state = Lent::of(&vec![1; STATE_LENGTH]);
        let text = text_of(&short("in; neg 0 out"));
        assert_eq!(engine.load(&mut state, text.as_bytes()), 0);
        let fresh = state.to_vec();
        engine.call(&mut state, Call::Reading(0, 3, 1));
        let used = state.to_vec();
        assert!(used != fresh);
        assert_eq!(engine.load(&mut state, b"plan=2\n"), 2);
        assert!(state[..] == used[..]);
        assert_eq!(engine.load(&mut state, text.as_bytes()), 0);
        assert!(state[..] == fresh[..]);
    }
}

#[test]
fn a_state_at_every_alignment_between_guard_bytes() {
    let text = text_of(&short("in; unit; set 1 k0; last 5 0; plus 3 k1; merge 4 2 out"));
    for (engine, size) in engines().into_iter().flat_map(|engine| SIZES.map(|size| (engine, size))) {
        let mut ends = vec![];
        for shift in 0..8 {
            let mut block = vec![0x77; size.length() + 64];
            let range = 16 + shift..16 + shift + size.length();
            let state = &mut block[range.clone()];
            assert_eq!(engine.load(state, text.as_bytes()), 0);
            for call in [Call::Run(50), Call::Reading(0, 3, 7), Call::Run(50), Call::Collect(5), Call::Collect(5), Call::Progress(0, 99), Call::Run(9)] {
                engine.call(state, call);
            }
            ends.push(state.to_vec());
            assert!(block[..range.start].iter().chain(&block[range.end..]).all(|&x| x == 0x77));
        }
        assert!(ends.iter().all(|end| *end == ends[0]));
    }
}
