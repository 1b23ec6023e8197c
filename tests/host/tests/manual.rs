//! What docs/MANUAL.md shows: each operator's example, each row of the tables of timers, signals and windows and each write to the
//! registers, read from the page itself, and the table from TeSSLa's usual operators by hand.

use host::engine::{engines, Call, Engine, BLOCK_LENGTH, STATE_LENGTH};
use host::evaluator::HORIZON;
use host::layout::SIZES;
use host::plan::{short, text_of, Op, OPERATORS};
use std::collections::BTreeSet;

type Events = Vec<(u32, i64)>;

/// Events written as value@stamp.
fn events(text: &str) -> Events {
    if text.trim() == "none" {
        return vec![];
    }
    text.split_whitespace()
        .map(|event| {
            let (value, stamp) = event.trim_end_matches(',').split_once('@').unwrap_or_else(|| panic!("event {event}"));
            (stamp.parse().unwrap(), value.parse().unwrap())
        })
        .collect()
}

/// What each engine hands out of the last stream, all inputs known to the horizon, in a state of either length that takes the plan.
fn check(plan: &str, inputs: &[Events], wanted: &Events) {
    let plan = short(plan);
    let both = || SIZES.into_iter().filter(|size| plan.len() <= size.cap());
    for (engine, size) in engines().into_iter().flat_map(|engine| both().map(move |size| (engine, size))) {
        let mut state = vec![0; size.length()];
        assert_eq!(engine.load(&mut state, text_of(&plan).as_bytes()), 0);
        let numbers: Vec<u32> = (0..plan.len() as u32).filter(|&s| plan[s as usize].op == Op::In).collect();
        assert!(inputs.len() <= numbers.len());
        for (s, events) in numbers.iter().zip(inputs) {
            for (t, v) in events {
                assert_eq!(engine.call(&mut state, Call::Reading(*s, *t, *v)).number, 0);
            }
        }
        for s in &numbers {
            assert_eq!(engine.call(&mut state, Call::Progress(*s, HORIZON)).number, 0);
        }
        let mut handed = vec![];
        loop {
            let moves = engine.call(&mut state, Call::Run(1000)).moves;
            let event = engine.call(&mut state, Call::Collect(plan.len() as u32 - 1));
            match event.number {
                0 => handed.push((event.stamp, event.value)),
                _ if moves == 0 => break,
                _ => {}
            }
        }
        assert_eq!(handed, *wanted, "{}: {}", engine.name, text_of(&plan));
    }
}

fn page() -> String {
    let path = std::env::var("TESSLA_MANUAL").expect("start the tests by tests/run");
    std::fs::read_to_string(path).unwrap().replace('−', "-")
}

#[test]
fn each_operator_is_shown_rightly() {
    let mut shown = BTreeSet::new();
    for line in page().lines().filter(|line| line.starts_with("| `") && line.matches('|').count() == 4) {
        let cells: Vec<&str> = line.split('|').map(str::trim).collect();
        let name = cells[1].trim_matches('`').split(' ').next().unwrap();
        if !OPERATORS.iter().any(|(_, known)| *known == name) {
            continue;
        }
        let example = cells[3];
        let (streams, result) = example.split_once(" <br> ").unwrap_or(("", example));
        if result.is_empty() {
            assert!(["in", "nil"].contains(&name), "{name} has no example");
            continue;
        }
        let (form, wanted) = result.strip_prefix('`').unwrap().split_once("`: ").unwrap();
        let (mut a, mut b) = (vec![], vec![]);
        if !streams.is_empty() {
            let (first, second) = streams.split_once(", b: ").unwrap_or((streams, "none"));
            a = events(first.strip_prefix("a: ").unwrap());
            b = events(second);
        }
        let words: Vec<String> = form.split(' ').map(|w| w.replace('a', "0").replace('b', "1")).collect();
        // the operator's own name keeps its letters
        let form = std::iter::once(name.to_string()).chain(words.into_iter().skip(1)).collect::<Vec<_>>().join(" ");
        check(&format!("in; in; {form} out"), &[a, b], &events(wanted));
        shown.insert(name.to_string());
    }
    assert_eq!(shown.len(), OPERATORS.len() - 2, "operators with an example: {shown:?}");
}

#[test]
fn each_row_of_the_timers_table() {
    let page = page();
    let table = page.split("| a | b | `delay a b` | why |").nth(1).expect("the timer's table");
    let mut rows = 0;
    for line in table.lines().skip(2).take_while(|line| line.starts_with('|')) {
        let cells: Vec<&str> = line.split('|').map(str::trim).collect();
        check("in; in; delay 0 1 out", &[events(cells[1]), events(cells[2])], &events(cells[3]));
        rows += 1;
    }
    assert_eq!(rows, 5);
}

/// The columns of the page's table with this head, from the second on, as events at the stamps in the first. A cell that is
/// no whole number is no event.
fn columns<const N: usize>(head: [&str; N], rows: usize) -> [Events; N] {
    let page = page();
    let table = page.split(&format!("| stamp | {} |\n", head.join(" | "))).nth(1).unwrap_or_else(|| panic!("no table {head:?}"));
    let lines: Vec<Vec<&str>> = table.lines().skip(1).take_while(|line| line.starts_with('|')).map(|line| line.split('|').map(str::trim).collect()).collect();
    assert_eq!(lines.len(), rows, "{head:?}");
    std::array::from_fn(|i| {
        let cells = lines.iter().map(|line| (line[1].parse().unwrap(), line[i + 2]));
        cells.filter_map(|(t, cell): (u32, &str)| Some((t, cell.parse().ok()?))).collect()
    })
}

#[test]
fn each_row_of_the_signals_table() {
    let [w, m, both, signal, _why] = columns(["w", "m", "`lt w m`", "`slt w m`", "why"], 5);
    assert_eq!((w.len(), m.len()), (3, 3));
    check("in; in; lt 0 1 out", &[w.clone(), m.clone()], &both);
    check("in; in; slt 0 1 out", &[w, m], &signal);
}

/// Of the last three: the mean, by their sum and how many they are, the least, the greatest and the spread.
#[test]
fn each_row_of_the_windows_table() {
    let [x, sum, many, _exactly, mean, least, greatest, spread] = columns(["x", "sum s", "how many n", "exactly", "`div s n`", "least", "greatest", "spread"], 5);
    assert_eq!(x.len(), 5);
    check("in; wsum 0 k3 out", &[x.clone()], &sum);
    check("in; set 0 k1; wsum 1 k3 out", &[x.clone()], &many);
    check("in; wsum 0 k3; set 0 k1; wsum 2 k3; div 1 3 out", &[x.clone()], &mean);
    check("in; wmin 0 k3 out", &[x.clone()], &least);
    check("in; wmax 0 k3 out", &[x.clone()], &greatest);
    check("in; wmin 0 k3; wmax 0 k3; sub 2 1 out", &[x], &spread);
}

#[test]
fn tessla_s_usual_operators() {
    let x = || events("5@2 7@4 1@9");
    // prev, const, default
    check("in; last 0 0 out", &[x()], &events("5@4 7@9"));
    check("in; set 0 k3 out", &[x()], &events("3@2 3@4 3@9"));
    check("in; unit; set 1 k8; merge 0 2 out", &[x()], &events("8@0 5@2 7@4 1@9"));
    check("in; unit; set 1 k8; merge 0 2 out", &[events("4@0 5@2")], &events("4@0 5@2"));
    // count, sum
    check("in; unit; last 4 0; plus 2 k1; merge 3 1 out", &[x()], &events("0@0 1@2 2@4 3@9"));
    check("in; unit; last 4 0; add 2 0; merge 3 1 out", &[x()], &events("0@0 5@2 12@4 13@9"));
    // on: x's last known value where y has an event, the same stamp counted
    check("in; in; last 0 1; merge 0 2; set 1 k1; keep 3 4 out", &[x(), events("0@1 0@3 0@4 0@10")], &events("5@3 7@4 1@10"));
    // filter by the last known condition
    check("in; in; last 0 1; merge 0 2; keep 1 3 out", &[events("1@3 0@5"), x()], &events("7@4"));
    // signal lift of sub
    check("in; in; last 0 1; merge 0 2; last 1 0; merge 1 4; sub 3 5 out", &[x(), events("1@3 2@9")], &events("4@3 6@4 -1@9"));
    check("in; in; ssub 0 1 out", &[x(), events("1@3 2@9")], &events("4@3 6@4 -1@9"));
    // and, or, not of 0 and 1
    let (p, q) = (|| events("0@1 0@2 1@3 1@4"), || events("0@1 1@2 0@3 1@4"));
    check("in; in; mul 0 1 out", &[p(), q()], &events("0@1 0@2 0@3 1@4"));
    check("in; in; add 0 1; set 2 k0; lt 3 2 out", &[p(), q()], &events("0@1 1@2 1@3 1@4"));
    check("in; neg 0; plus 1 k1 out", &[p()], &events("1@1 1@2 0@3 0@4"));
    // greater, at least, not equal, greater than a constant
    let (a, b) = (|| events("3@1 4@2 5@3"), || events("4@1 4@2 4@3"));
    check("in; in; lt 1 0 out", &[a(), b()], &events("0@1 0@2 1@3"));
    check("in; in; le 1 0 out", &[a(), b()], &events("0@1 1@2 1@3"));
    check("in; in; eq 0 1; neg 2; plus 3 k1 out", &[a(), b()], &events("1@1 0@2 1@3"));
    check("in; set 0 k4; lt 1 0 out", &[a()], &events("0@1 0@2 1@3"));
}

#[test]
fn the_tick_and_what_overflow_does() {
    // a tick every n, n large enough to come to the end
    check("unit; set 0 k1500000000; delay 4 0; set 2 k1500000000; merge 3 1; time 2 out", &[], &events("1500000000@1500000000 3000000000@3000000000"));
    // a sum heals, without what was to be added then
    let large = i64::MAX - 10;
    check("in; unit; last 4 0; add 2 0; merge 3 1 out", &[vec![(1, large), (2, 11), (3, 4)]], &vec![(0, 0), (1, large), (3, large + 4)]);
    // a doubling is silent from then on: 1, 2, 4, ... up to 2^62 at stamp 62
    let (readings, mut wanted): (Events, Events) = ((1..=70).map(|t| (t, 0)).collect(), vec![(0, 1)]);
    wanted.extend((1..=62).map(|t| (t as u32, 1i64 << t)));
    let plan = short("in; unit; set 1 k1; last 5 0; add 3 3; merge 4 2 out");
    for engine in engines() {
        let mut state = vec![0; STATE_LENGTH];
        assert_eq!(engine.load(&mut state, text_of(&plan).as_bytes()), 0);
        let mut handed = vec![];
        for (t, v) in &readings {
            assert_eq!(engine.call(&mut state, Call::Reading(0, *t, *v)).number, 0);
            engine.call(&mut state, Call::Run(1000));
            loop {
                let event = engine.call(&mut state, Call::Collect(5));
                if event.number != 0 {
                    break;
                }
                handed.push((event.stamp, event.value));
            }
        }
        assert_eq!(handed, wanted, "{}", engine.name);
    }
}

/// A stream as the page writes it in one line, `7: merge 6 1 out  0 at stamp 0`, without its number and the words behind it.
fn stream_of(line: &str) -> &str {
    let (_, stream) = line.split_once(": ").unwrap_or_else(|| panic!("stream {line}"));
    stream.split("  ").next().unwrap().trim()
}

#[test]
fn the_plans_that_are_written_out() {
    let page = page();
    let blocks: Vec<Vec<&str>> = page
        .split("```\n")
        .skip(1)
        .step_by(2)
        .filter(|block| block.starts_with("0: in\n"))
        .map(|block| block.lines().map(stream_of).collect())
        .collect();
    let visits = || vec![events("7041@60 7055@95 7041@130 9999@131 7041@301")];
    assert_eq!(blocks.len(), 2);
    check(&blocks[0].join("; "), &visits(), &events("0@0 1@60 2@95 3@130 4@131 5@301"));
    check(&blocks[1].join("; "), &visits(), &events("0@0 1@60 2@130 3@301"));

    // the shorter form, which repeats the count, is written between back quotes
    let from = page.find("`2: set 0 k7041`").expect("the form with five streams");
    let short_form: Vec<&str> = page[from..].split('`').skip(1).step_by(2).take(5).map(stream_of).collect();
    check(&format!("in; unit; {}", short_form.join("; ")), &visits(), &events("0@0 1@60 1@95 2@130 2@131 3@301"));

    // five rings of six streams fit, and six of five; in the longer state ten and twelve; one more does not
    for (streams, rings, cap) in [(6, 5, 32), (5, 6, 32), (6, 10, 64), (5, 12, 64)] {
        assert!(2 + streams * rings <= cap && cap < 2 + streams * (rings + 1));
    }
}

/// A row of the registers' example: a write, and what is shown after it.
#[derive(Clone, Debug)]
struct Write {
    at: u32,
    byte: u8,
    /// what the write returns, the status, the flags, and 1 if the line is up
    shown: [u32; 4],
}

/// The registers' example: its writes, and the block after them.
fn registers(page: &str) -> (Vec<Write>, Vec<u8>) {
    let example = page.split("| byte | written | returns | status | flags | line | why |").nth(1).expect("the registers' example");
    let writes = example.lines().skip(2).take_while(|line| line.starts_with('|')).map(|line| {
        let cells: Vec<&str> = line.split('|').map(str::trim).collect();
        let line = ["down", "up"].iter().position(|word| *word == cells[6]).unwrap_or_else(|| panic!("line {}", cells[6]));
        let number = |i: usize| cells[i].parse::<u32>().unwrap();
        Write { at: number(1), byte: number(2) as u8, shown: [number(3), number(4), number(5), line as u32] }
    });
    let block = example.split("```\n").nth(1).expect("the block after the example");
    (writes.collect(), block.split_whitespace().map(|byte| byte.parse().unwrap()).collect())
}

/// Whether an engine shows this after each write, and this block at the end, with the plan loaded and the block zeros at first.
fn shows(engine: &Engine, plan: &str, writes: &[Write], block_then: &[u8]) -> bool {
    let (mut state, mut block) = (vec![0; STATE_LENGTH], vec![0; BLOCK_LENGTH]);
    assert_eq!(engine.load(&mut state, plan.as_bytes()), 0);
    let each = writes.iter().all(|write| {
        let number = engine.write(&mut state, &mut block, write.at, write.byte);
        let (line, up) = engine.line(&block);
        line == 0 && [number, block[17].into(), block[18].into(), up] == write.shown
    });
    each && block == block_then
}

#[test]
fn each_write_to_the_registers() {
    let page = page();
    let plan = page.split("```\n").nth(1).expect("the first text of a plan");
    let (writes, block) = registers(&page);
    assert_eq!(writes.len(), 19);
    for engine in engines() {
        assert!(shows(&engine, plan, &writes, &block), "{}: {writes:?} {block:?}", engine.name);
        // and any other number in the example would be seen
        for (i, j) in (0..writes.len()).flat_map(|i| (0..4).map(move |j| (i, j))) {
            let mut wrong = writes.clone();
            wrong[i].shown[j] ^= 1;
            assert!(!shows(&engine, plan, &wrong, &block), "{}: write {i}", engine.name);
        }
        for i in 0..BLOCK_LENGTH {
            let mut wrong = block.clone();
            wrong[i] ^= 1;
            assert!(!shows(&engine, plan, &writes, &wrong), "{}: byte {i}", engine.name);
        }
    }
}
