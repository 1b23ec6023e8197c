//! A plan and its text, from document 01's "Plan text" and the numbers 1 to 6 of "Load", with document 02's signal forms, its plan
//! of no streams, its windows with number 18, and its two lengths of a state.

use crate::layout::Size;

#[derive(Clone, Copy, PartialEq, Eq, Debug)]
pub enum Op {
    In, Nil, Unit, Time, Set, Plus, Neg, Add, Sub, Mul, Div, Rem, Lt, Le, Eq, Keep, Merge, Last, Delay,
    Sadd, Ssub, Smul, Sdiv, Srem, Slt, Sle, Seq, Wsum, Wmin, Wmax,
}

use Op::*;

/// By the table's order, then the signal forms, then the windows; the stored number is the place plus 1.
pub const OPERATORS: [(Op, &str); 30] = [
    (In, "in"), (Nil, "nil"), (Unit, "unit"), (Time, "time"), (Set, "set"), (Plus, "plus"), (Neg, "neg"), (Add, "add"),
    (Sub, "sub"), (Mul, "mul"), (Div, "div"), (Rem, "rem"), (Lt, "lt"), (Le, "le"), (Eq, "eq"), (Keep, "keep"),
    (Merge, "merge"), (Last, "last"), (Delay, "delay"), (Sadd, "sadd"), (Ssub, "ssub"), (Smul, "smul"), (Sdiv, "sdiv"),
    (Srem, "srem"), (Slt, "slt"), (Sle, "sle"), (Seq, "seq"), (Wsum, "wsum"), (Wmin, "wmin"), (Wmax, "wmax"),
];

/// The signal forms, each with what it works out of the latest values.
pub const SIGNALS: [(Op, Op); 8] =
    [(Sadd, Add), (Ssub, Sub), (Smul, Mul), (Sdiv, Div), (Srem, Rem), (Slt, Lt), (Sle, Le), (Seq, Eq)];

/// "wsum, wmin and wmax with a and k"
pub const WINDOWS: [Op; 3] = [Wsum, Wmin, Wmax];
/// "a width outside 1 to 64 or a ninth window"
pub const WIDEST: i64 = 64;
pub const MOST_WINDOWS: usize = 8;

impl Op {
    pub fn uses_a(self) -> bool {
        !matches!(self, In | Nil | Unit)
    }
    pub fn uses_b(self) -> bool {
        self.uses_a() && !matches!(self, Time | Set | Plus | Neg) && !self.is_window()
    }
    pub fn uses_k(self) -> bool {
        matches!(self, Set | Plus) || self.is_window()
    }
    pub fn is_window(self) -> bool {
        WINDOWS.contains(&self)
    }
    /// "The arithmetic, plus, neg, signal forms and wsum included": what may have no value with something to work on. A comparison
    /// always has one.
    pub fn counts(self) -> bool {
        matches!(self, Plus | Neg | Wsum) || matches!(self.on_signals().unwrap_or(self), Add | Sub | Mul | Div | Rem)
    }
    /// It has a divisor, its second argument.
    pub fn divides(self) -> bool {
        matches!(self.on_signals().unwrap_or(self), Div | Rem)
    }
    /// Of a signal form: what it works out of the latest values.
    pub fn on_signals(self) -> Option<Op> {
        SIGNALS.iter().find(|(form, _)| *form == self).map(|(_, op)| *op)
    }
    pub fn name(self) -> &'static str {
        OPERATORS.iter().find(|(op, _)| *op == self).unwrap().1
    }
}

#[derive(Clone, Copy, PartialEq, Eq, Debug)]
pub struct Stream {
    pub op: Op,
    pub a: usize,
    pub b: usize,
    pub k: i64,
    pub out: bool,
}

pub type Plan = Vec<Stream>;

impl Stream {
    pub fn new(op: Op) -> Stream {
        Stream { op, a: 0, b: 0, k: 0, out: false }
    }
    /// The arguments that it reads.
    pub fn reads(&self) -> Vec<usize> {
        match (self.op.uses_a(), self.op.uses_b()) {
            (false, _) => vec![],
            (true, false) => vec![self.a],
            (true, true) => vec![self.a, self.b],
        }
    }
    /// The arguments but for the first one of a last or a delay.
    pub fn undelayed(&self) -> Vec<usize> {
        match self.op {
            Last | Delay => vec![self.b],
            _ => self.reads(),
        }
    }
}

/// The plan of no streams is written by no bytes, not by `streams=0`.
pub fn text_of(plan: &[Stream]) -> String {
    if plan.is_empty() {
        return String::new();
    }
    let mut text = format!("plan=1\nstreams={}\n", plan.len());
    for s in plan {
        text += &format!("op={}\na={}\nb={}\nk={}\nout={}\n", s.op.name(), s.a, s.b, s.k, s.out as u8);
    }
    text
}

/// A plan in short form, one stream after the other, as `in; unit; set 1 k0; last 5 0; merge 4 2 out`; nothing for no streams.
pub fn short(text: &str) -> Plan {
    if text.is_empty() {
        return vec![];
    }
    text.split(';')
        .map(|part| {
            let mut words = part.split_whitespace();
            let name = words.next().expect("an operator");
            let op = OPERATORS.iter().find(|(_, n)| *n == name).unwrap_or_else(|| panic!("no operator {name}")).0;
            let mut stream = Stream::new(op);
            let mut arguments = vec![];
            for word in words {
                if word == "out" {
                    stream.out = true;
                } else if let Some(k) = word.strip_prefix('k') {
                    stream.k = k.parse().unwrap();
                } else {
                    arguments.push(word.parse().unwrap());
                }
            }
            assert_eq!(arguments.len(), op.uses_a() as usize + op.uses_b() as usize, "arguments of {part}");
            stream.a = arguments.first().copied().unwrap_or(0);
            stream.b = arguments.get(1).copied().unwrap_or(0);
            stream
        })
        .collect()
}

/// Every cycle contains a delayed argument: streams whose undelayed arguments are all clear are clear, until no more are.
pub fn keeps_cycle_rule(plan: &[Stream]) -> bool {
    let mut clear = vec![false; plan.len()];
    loop {
        let more: Vec<usize> =
            (0..plan.len()).filter(|&s| !clear[s] && plan[s].undelayed().iter().all(|&a| clear[a])).collect();
        if more.is_empty() {
            return clear.iter().all(|&c| c);
        }
        for s in more {
            clear[s] = true;
        }
    }
}

/// The streams of a plan that are windows, by stream number.
pub fn windows(plan: &[Stream]) -> Vec<usize> {
    (0..plan.len()).filter(|&s| plan[s].op.is_window()).collect()
}

/// No "width outside 1 to 64", no "ninth window".
pub fn keeps_window_rule(plan: &[Stream]) -> bool {
    let windows = windows(plan);
    windows.len() <= MOST_WINDOWS && windows.iter().all(|&s| (1..=WIDEST).contains(&plan[s].k))
}

/// A number without leading zeros, of at most `digits` digits.
fn natural(word: &[u8], digits: usize) -> Option<u64> {
    let good = !word.is_empty() && word.len() <= digits && word.iter().all(u8::is_ascii_digit);
    if !good || (word.len() > 1 && word[0] == b'0') {
        return None;
    }
    std::str::from_utf8(word).unwrap().parse().ok()
}

/// A value: a minus sign never before 0.
pub fn value(word: &[u8]) -> Option<i64> {
    let (minus, digits) = match word.strip_prefix(b"-") {
        Some(rest) => (true, rest),
        None => (false, word),
    };
    natural(digits, 19)?;
    let value: i64 = std::str::from_utf8(word).unwrap().parse().ok()?;
    if minus && value == 0 { None } else { Some(value) }
}

pub fn number(word: &[u8], digits: usize) -> Option<u64> {
    natural(word, digits)
}

struct Lines<'a>(&'a [u8]);

impl<'a> Lines<'a> {
    /// What follows the key on the next line; none for a missing line, a missing ending byte or another key.
    fn after(&mut self, key: &str) -> Option<&'a [u8]> {
        let end = self.0.iter().position(|&c| c == b'\n')?;
        let (line, rest) = (&self.0[..end], &self.0[end + 1..]);
        self.0 = rest;
        line.strip_prefix(key.as_bytes())
    }
}

/// "the text limit becomes 4,096 bytes", of a state of either length
pub const TEXT_LIMIT: usize = 4096;

/// The plan of a text, or load's number on a state of 12,288 bytes.
pub fn parse(text: &[u8]) -> Result<Plan, u32> {
    parse_in(Size::Short, text)
}

/// The plan of a text, or load's number on a state of one length or the other.
pub fn parse_in(size: Size, text: &[u8]) -> Result<Plan, u32> {
    if text.len() > TEXT_LIMIT {
        return Err(1);
    }
    // "An empty plan text now means a plan of no streams"
    if text.is_empty() {
        return Ok(vec![]);
    }
    let mut lines = Lines(text);
    if lines.after("plan=") != Some(b"1") {
        return Err(2);
    }
    let n = lines.after("streams=").and_then(|w| natural(w, 3)).ok_or(2u32)?;
    // "Load gives 3 where the count is above the limit of the buffer lent"
    if n == 0 || n > size.cap() as u64 {
        return Err(3);
    }
    let mut plan = vec![];
    let mut fields_good = true;
    for _ in 0..n {
        let name = lines.after("op=").ok_or(2u32)?;
        if name.is_empty() || name.len() > 5 || !name.iter().all(u8::is_ascii_lowercase) {
            return Err(2);
        }
        let op = OPERATORS.iter().find(|(_, known)| known.as_bytes() == name).ok_or(4u32)?.0;
        let a = lines.after("a=").and_then(|w| natural(w, 3)).ok_or(2u32)?;
        let b = lines.after("b=").and_then(|w| natural(w, 3)).ok_or(2u32)?;
        let k = lines.after("k=").and_then(value).ok_or(2u32)?;
        let out = match lines.after("out=") {
            Some(b"0") => false,
            Some(b"1") => true,
            _ => return Err(2),
        };
        fields_good &= if op.uses_a() { a < n } else { a == 0 };
        fields_good &= if op.uses_b() { b < n } else { b == 0 };
        fields_good &= (op.uses_k() || k == 0) && !(op == In && out);
        plan.push(Stream { op, a: a as usize, b: b as usize, k, out });
    }
    if !lines.0.is_empty() {
        return Err(2);
    }
    if !fields_good {
        return Err(5);
    }
    // "18, [..] tested after 5 and before 6"
    if !keeps_window_rule(&plan) {
        return Err(18);
    }
    if keeps_cycle_rule(&plan) { Ok(plan) } else { Err(6) }
}
