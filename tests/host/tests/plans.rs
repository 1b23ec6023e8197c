//! The plans under plans/: replayed on both engines they print expected.txt, byte for byte, and the events printed are what
//! the evaluator gives; and why events are missing in them.

use host::engine::{engines, Missing};
use host::evaluator::{evaluate, Events, HORIZON};
use host::history::Session;
use host::layout::Size;
use host::plan::{number, parse_in, value, Op};
use host::replay::{offer, replay};
use std::fs;
use std::path::PathBuf;

fn folders() -> Vec<PathBuf> {
    let root = std::env::var("TESSLA_PLANS").expect("start the tests by tests/run");
    let mut folders: Vec<PathBuf> =
        fs::read_dir(root).unwrap().map(|e| e.unwrap().path()).filter(|p| p.join("plan.txt").is_file()).collect();
    folders.sort();
    folders
}

fn read(folder: &PathBuf, name: &str) -> Vec<u8> {
    fs::read(folder.join(name)).unwrap_or_else(|e| panic!("{}/{name}: {e}", folder.display()))
}

#[test]
fn each_plan_prints_what_was_worked_out() {
    let folders = folders();
    assert!(folders.len() >= 10, "only {} plans", folders.len());
    for folder in folders {
        let expected = String::from_utf8(read(&folder, "expected.txt")).unwrap();
        for engine in engines() {
            let printed = replay(&engine, &read(&folder, "plan.txt"), &read(&folder, "trace.txt"));
            assert_eq!(printed, expected, "{} on {}", folder.display(), engine.name);
        }
    }
}

/// The readings and bounds of a trace, by the rules for offers on a stream's own bound (no trace here fills an input).
fn accepted(plan: &host::plan::Plan, trace: &str) -> (Vec<Events>, Vec<u64>) {
    let mut readings = vec![Events::new(); plan.len()];
    let mut known = vec![0; plan.len()];
    for line in trace.lines() {
        let words: Vec<&str> = line.split(' ').collect();
        let s = number(words[0][2..].as_bytes(), 3).unwrap() as usize;
        // a line that cannot be read ends the trace
        if words.len() < 2 || words[1].is_empty() {
            break;
        }
        if s >= plan.len() || plan[s].op != Op::In {
            continue;
        }
        let number = number(words[1][2..].as_bytes(), 10).unwrap();
        match words.get(2) {
            Some(v) if number >= known[s] => {
                readings[s].insert(number as u32, value(v[2..].as_bytes()).unwrap());
                known[s] = number + 1;
            }
            None if number >= known[s] && number <= HORIZON => known[s] = number,
            _ => {}
        }
    }
    (readings, known)
}

#[test]
fn the_events_printed_are_those_of_the_definition() {
    for folder in folders() {
        let plan = parse_in(Size::Long, &read(&folder, "plan.txt")).unwrap();
        let (readings, known) = accepted(&plan, &String::from_utf8(read(&folder, "trace.txt")).unwrap());
        let least = (0..plan.len()).filter(|&s| plan[s].op == Op::In).map(|s| known[s]).min().unwrap_or(HORIZON);
        let expected = String::from_utf8(read(&folder, "expected.txt")).unwrap();
        let streams = evaluate(&plan, &readings, HORIZON.min(least + 100_000), 100_000).unwrap();
        for s in (0..plan.len()).filter(|&s| plan[s].out) {
            let printed: Vec<(u32, i64)> = expected
                .lines()
                .filter_map(|line| line.strip_prefix(&format!("s={s} t=")))
                .map(|rest| rest.split_once(" v=").unwrap())
                .map(|(t, v)| (t.parse().unwrap(), v.parse().unwrap()))
                .collect();
            let all: Vec<(u32, i64)> = streams[s].iter().map(|(t, v)| (*t, *v)).collect();
            let below = all.iter().filter(|(t, _)| (*t as u64) < least).count();
            assert!(printed.len() >= below, "{} stream {s}: not all below {least} printed", folder.display());
            assert_eq!(printed, all[..printed.len()], "{} stream {s}", folder.display());
        }
    }
}

/// By plans/README.md: of hill the hour without a reading, of mean and share stamp 0, where the sums are 0; of share also the stamps
/// from the first nonsense reading on. No other stream has a gap that it counts.
#[test]
fn why_events_of_the_plans_are_missing() {
    let gaps = [("hill", 20, 0, 1), ("mean", 8, 0, 1), ("share", 5, 1, 0), ("share", 12, 3, 0), ("share", 13, 0, 1)];
    let mut met = 0;
    for folder in folders() {
        let name = folder.file_name().unwrap().to_string_lossy().into_owned();
        let mut session = Session::load(&parse_in(Size::Long, &read(&folder, "plan.txt")).unwrap());
        for call in read(&folder, "trace.txt").split(|&c| c == b'\n').map_while(offer) {
            session.call(call);
            assert!(session.rest(100_000), "{name}");
        }
        for s in 0..session.plan.len() {
            let gap = gaps.iter().find(|gap| (gap.0, gap.1) == (name.as_str(), s));
            let (outside, zero) = gap.map_or((0, 0), |gap| (gap.2, gap.3));
            assert_eq!(session.missing(s as u32), (0, Missing { outside, zero }), "{name}: stream {s}");
            met += gap.is_some() as usize;
        }
    }
    assert_eq!(met, gaps.len());
}

#[test]
fn the_edges_of_the_replay() {
    let plan = b"plan=1\nstreams=2\nop=in\na=0\nb=0\nk=0\nout=0\nop=neg\na=0\nb=0\nk=0\nout=1\n";
    let cases: &[(&str, &str)] = &[
        ("", ""),
        ("s=0 t=1 v=1\n", "s=1 t=1 v=-1\n"),
        ("s=0 t=1 v=1", "refused=16\n"),
        ("\n", "refused=16\n"),
        ("s=0 t=1 v=1\r\n", "refused=16\n"),
        ("s=0000 t=1 v=1\n", "refused=16\n"),
        ("s=00 t=1 v=1\n", "refused=16\n"),
        ("s=999 t=1 v=1\ns=0 p=3\n", "refused=7\n"),
        ("s=0 t=4294967296 v=1\n", "refused=16\n"),
        ("s=0 t=4294967295 v=1\n", "s=1 t=4294967295 v=-1\n"),
        ("s=0 t=1 v=-0\n", "refused=16\n"),
        ("s=0 t=1 v=9223372036854775808\n", "refused=16\n"),
        // the least value has no negative: taken, and no event
        ("s=0 t=1 v=-9223372036854775808\n", ""),
        ("s=0 p=4294967296\n", ""),
        ("s=0 p=4294967297\ns=0 t=2 v=3\n", "refused=10\ns=1 t=2 v=-3\n"),
        ("s=0 p=9999999999\n", "refused=10\n"),
        ("s=0 p=10000000000\n", "refused=16\n"),
        ("s=0 t=2 v=3 \n", "refused=16\n"),
        (" s=0 t=2 v=3\n", "refused=16\n"),
        ("s=0 t=5 v=3\ns=0 t=5 v=4\ns=0 t=6 v=5\n", "s=1 t=5 v=-3\nrefused=8\ns=1 t=6 v=-5\n"),
    ];
    for engine in engines() {
        for (trace, printed) in cases {
            assert_eq!(replay(&engine, plan, trace.as_bytes()), *printed, "{} on {trace:?}", engine.name);
        }
        // no bytes are the plan of no streams; any other text without a whole plan is refused
        assert_eq!(replay(&engine, b"", b"s=0 t=1 v=1\n"), "refused=7\n");
        assert_eq!(replay(&engine, b"\n", b"s=0 t=1 v=1\n"), "refused=2\n");
        // case 9.13, and the number of streams
        assert_eq!(replay(&engine, &[b'x'; 4096], b""), "refused=2\n");
        assert_eq!(replay(&engine, &[b'x'; 4097], b""), "refused=1\n");
        let many = |n: usize| host::plan::text_of(&host::plan::short(&format!("in{}", "; neg 0 out".repeat(n - 1))));
        assert_eq!(replay(&engine, many(64).as_bytes(), b"s=0 t=3 v=7\n"), (1..64).map(|s| format!("s={s} t=3 v=-7\n")).collect::<String>());
        assert_eq!(replay(&engine, many(65).as_bytes(), b"s=0 t=3 v=7\n"), "refused=3\n");
    }
}

/// More than 16 events of two outputs come out by rounds: each round empties the lower output, then the higher one.
#[test]
fn outputs_interleave_by_rounds() {
    // ticks at 1, 2, 3, ...; at each tick the input's last value, and that negated
    let plan = host::plan::short("in; unit; set 1 k1; delay 5 1; set 3 k1; merge 4 2; last 0 3 out; neg 6 out");
    let text = host::plan::text_of(&plan);
    // known to 1, the last at tick 1 is fixed; known to 40, those at ticks 2 to 40 are: 16, 16 and 7 of them
    let mut printed = String::new();
    for range in [1..2, 2..18, 18..34, 34..41] {
        for (s, v) in [(6, 7), (7, -7)] {
            for t in range.clone() {
                printed += &format!("s={s} t={t} v={v}\n");
            }
        }
    }
    for engine in engines() {
        assert_eq!(replay(&engine, text.as_bytes(), b"s=0 t=0 v=7\ns=0 p=40\n"), printed, "{}", engine.name);
    }
}

/// An input that runs ahead is refused 9, and the line after it goes on.
#[test]
fn a_refused_offer_goes_on() {
    let text = host::plan::text_of(&host::plan::short("in; in; add 0 1 out; neg 2 out"));
    let mut trace = String::new();
    for t in 0..17 {
        trace += &format!("s=0 t={t} v=1\n");
    }
    for t in 0..16 {
        trace += &format!("s=1 t={t} v=2\n");
    }
    let mut printed = String::from("refused=9\n");
    for t in 0..16 {
        printed += &format!("s=2 t={t} v=3\ns=3 t={t} v=-3\n");
    }
    for engine in engines() {
        assert_eq!(replay(&engine, text.as_bytes(), trace.as_bytes()), printed, "{}", engine.name);
    }
}
