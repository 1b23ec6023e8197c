//! States saved by an earlier version, as text (tests/states): the plan in short form, the calls that made the state with their
//! answers, and its bytes but for the zeros. The second line says where these hold results of division by the earlier rule.

use crate::engine::{Answer, Call, STATE_LENGTH};
use crate::layout::RECORD;
use crate::plan::{short, Plan};

pub struct Saved {
    /// the lines before the plan: what the lines of the file are, and which version saved it
    pub head: Vec<String>,
    pub plan: Plan,
    pub plan_line: String,
    pub calls: Vec<(Call, Answer)>,
    pub bytes: Vec<u8>,
}

/// Of a file whose answers or bytes the calls would not give today: "Division cuts toward zero" was the rule up to version 1.2.
const CUT: &str = "with results of division cut toward zero";

impl Saved {
    pub fn is_cut(&self) -> bool {
        self.head[1].contains(CUT)
    }

    /// Of a version before 1.8: nothing was counted, and bytes 56 to 63 of every record are 0.
    pub fn before_counts(&self) -> bool {
        (1..=7).any(|minor| self.head[1].starts_with(&format!("version 1.{minor},")))
    }
}

fn words<T: std::str::FromStr>(text: &str) -> Vec<T> {
    text.split_whitespace().map(|word| word.parse().unwrap_or_else(|_| panic!("word {word}"))).collect()
}

/// `offer 0 3 7`, `progress 0 6`, `move 2`, `run 9`, `collect 2`.
fn call(text: &str) -> Call {
    let (name, rest) = text.split_once(' ').unwrap_or_else(|| panic!("call {text}"));
    let w: Vec<i64> = words(rest);
    match name {
        "offer" => Call::Reading(w[0] as u32, w[1] as u32, w[2]),
        "progress" => Call::Progress(w[0] as u32, w[1] as u64),
        "move" => Call::Move(w[0] as u32),
        "run" => Call::Run(w[0] as u32),
        "collect" => Call::Collect(w[0] as u32),
        _ => panic!("call {text}"),
    }
}

/// `0`, `12`, `0, 4 moves`, `0, 17@5`.
fn answer(text: &str) -> Answer {
    let (number, result) = text.split_once(", ").unwrap_or((text, ""));
    let mut answer = Answer { number: number.parse().unwrap(), ..Answer::default() };
    if let Some(moves) = result.strip_suffix(" moves") {
        answer.moves = moves.parse().unwrap();
    } else if let Some((value, stamp)) = result.split_once('@') {
        (answer.value, answer.stamp) = (value.parse().unwrap(), stamp.parse().unwrap());
    }
    answer
}

pub fn read(text: &str) -> Saved {
    let mut lines = text.lines();
    let head: Vec<String> = lines.by_ref().take(2).map(str::to_string).collect();
    let plan_line = lines.next().and_then(|line| line.strip_prefix("plan ")).expect("the plan").to_string();
    let mut saved = Saved { head, plan: short(&plan_line), plan_line, calls: vec![], bytes: vec![] };
    for line in lines {
        let (left, right) = line.split_once(": ").unwrap_or((line, "0"));
        if let Some(at) = left.strip_prefix("bytes ") {
            saved.bytes.resize(STATE_LENGTH, 0);
            let bytes: Vec<u8> = right.split(' ').map(|byte| u8::from_str_radix(byte, 16).unwrap()).collect();
            let at: usize = at.parse().unwrap();
            saved.bytes[at..at + bytes.len()].copy_from_slice(&bytes);
        } else {
            saved.calls.push((call(left), answer(right)));
        }
    }
    saved
}

fn call_line((call, answer): &(Call, Answer)) -> String {
    let result = match (call, answer.number) {
        (Call::Run(_), 0) => format!(", {} moves", answer.moves),
        (Call::Collect(_), 0) => format!(", {}@{}", answer.value, answer.stamp),
        _ => String::new(),
    };
    let call = match call {
        Call::Reading(s, t, v) => format!("offer {s} {t} {v}"),
        Call::Progress(s, y) => format!("progress {s} {y}"),
        Call::Move(s) => format!("move {s}"),
        Call::Run(n) => format!("run {n}"),
        Call::Collect(s) => format!("collect {s}"),
    };
    format!("{call}: {}{result}", answer.number)
}

/// Lines of at most 32 bytes of one record, each from a byte that is not 0 to one that is not 0.
fn byte_lines(state: &[u8]) -> Vec<String> {
    let mut lines = vec![];
    let mut at = 0;
    while let Some(from) = (at..state.len()).find(|&i| state[i] != 0) {
        let to = (from..(from + 32).min((from / RECORD + 1) * RECORD)).rfind(|&i| state[i] != 0).unwrap() + 1;
        let hex: Vec<String> = state[from..to].iter().map(|byte| format!("{byte:02x}")).collect();
        lines.push(format!("bytes {from}: {}", hex.join(" ")));
        at = to;
    }
    lines
}

pub fn write(saved: &Saved) -> String {
    let mut lines = saved.head.clone();
    lines.push(format!("plan {}", saved.plan_line));
    lines.extend(saved.calls.iter().map(call_line));
    lines.extend(byte_lines(&saved.bytes));
    lines.join("\n") + "\n"
}
