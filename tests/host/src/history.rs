//! A list of calls made on every engine at once, directly or by writes to a block of registers, and what document 01's "Whole runs"
//! says of it, worked out from the numbers and results that the calls returned. The states may be of either length; or they are short ones
//! with a widened copy of each, on which all calls are made too, and which is the short one widened after each.

use crate::buffer::Lent;
use crate::engine::{engines, Answer, Call, Missing, BLOCK_LENGTH};
use crate::evaluator::{evaluate, meaning, Events, Meaning, HORIZON};
use crate::found::Found;
use crate::layout::{self, widened, Size};
use crate::plan::{parse_in, text_of, Op, Plan};
use crate::random::{seed, Random};
use crate::registers::{line, writes, Act, Board, Direct};
use crate::saved::Saved;
use crate::texts::{given, pattern, Given};

/// Stamps that the evaluator may look at before a check is given up, of what was handed out and of what is counted.
const MOST: usize = 20_000;
const MOST_COUNTED: usize = 3_000;

#[derive(Clone)]
pub struct Session {
    pub plan: Plan,
    pub states: Vec<Lent>,
    /// of each state its widened copy, or none of any
    pub twins: Vec<Lent>,
    pub blocks: Vec<Lent>,
    pub accepted: Vec<Events>,
    pub known: Vec<u64>,
    pub handed: Vec<Vec<(u32, i64)>>,
    /// the bounds from which on missing events are counted: 0 since a load
    pub counted_from: Vec<u64>,
    pub list: Vec<Act>,
}

impl Session {
    /// The list of no calls, over these states and blocks of zeros.
    pub fn begin(plan: &Plan, states: Vec<Lent>) -> Session {
        let n = plan.len();
        let blocks = states.iter().map(|_| Lent::of(&[0; BLOCK_LENGTH])).collect();
        Session {
            plan: plan.clone(), states, twins: vec![], blocks, accepted: vec![Events::new(); n], known: vec![0; n], handed: vec![vec![]; n], counted_from: vec![0; n],
            list: vec![],
        }
    }

    /// A plan of at most 32 streams in a state of 12,288 bytes, with a widened copy; one of more in a state of 20,480.
    pub fn load(plan: &Plan) -> Session {
        if plan.len() > Size::Short.cap() { Session::load_in(Size::Long, plan) } else { Session::load_in(Size::Short, plan).widened() }
    }

    pub fn load_in(size: Size, plan: &Plan) -> Session {
        let states = engines().iter().map(|_| Lent::of(&vec![0x5A; size.length()])).collect();
        Session::load_over(plan, states)
    }

    /// The session with a widened copy of each state, made by its engine: "a call copies one into a 20,480-byte buffer where it goes on from
    /// the same point".
    pub fn widened(mut self) -> Session {
        self.twins = vec![];
        for (engine, state) in engines().iter().zip(&mut self.states) {
            let (before, mut twin) = (state.to_vec(), Lent::of(&vec![0xC3; Size::Long.length()]));
            assert_eq!(engine.widen(state, &mut twin), 0, "{}: {:?}", engine.name, text_of(&self.plan));
            assert!(state[..] == before[..] && state.untouched() && twin.untouched(), "{}: written", engine.name);
            self.twins.push(twin);
        }
        self.same();
        self
    }

    /// In how many bytes the states lie.
    pub fn size(&self) -> Size {
        Size::of(self.state().len()).expect("a state's length")
    }

    /// "A load that is done starts a new list". What the buffers held before does not matter: all bounds are 0.
    pub fn load_over(plan: &Plan, mut states: Vec<Lent>) -> Session {
        let text = Lent::of(text_of(plan).as_bytes());
        for (engine, state) in engines().iter().zip(&mut states) {
            assert_eq!(engine.load(state, &text), 0, "{}: {:?}", engine.name, text_of(plan));
            assert!(state.untouched() && text.untouched());
        }
        let session = Session::begin(plan, states);
        session.same();
        assert!(session.state() == Found::fresh_in(session.size(), plan).bytes(), "not a fresh state\n{}", session.story());
        session
    }

    /// A load "that is refused leaves the list as it was".
    pub fn load_refused(&mut self, text: &[u8], number: u32) {
        let before = self.states[0].to_vec();
        for (engine, state) in engines().iter().zip(&mut self.states) {
            assert_eq!(engine.load(state, text), number, "{}: {:?}", engine.name, String::from_utf8_lossy(text));
            assert!(state[..] == before[..] && state.untouched(), "{} wrote on a refusal", engine.name);
        }
        // on a copy: there it may be taken, if it is 3 here
        for (engine, twin) in engines().iter().zip(&self.twins) {
            let (mut copy, parsed) = (twin.clone(), parse_in(Size::Long, text));
            let long = parsed.as_ref().err().copied().unwrap_or(0);
            assert!(engine.load(&mut copy, text) == long && (long == number || number == 3), "{}: {:?}", engine.name, String::from_utf8_lossy(text));
            let left = parsed.map_or(twin.to_vec(), |plan| Found::fresh_in(Size::Long, &plan).bytes());
            assert!(copy[..] == left[..] && copy.untouched(), "{}: {:?}", engine.name, String::from_utf8_lossy(text));
        }
    }

    /// Another plan over the one that is there, and over its widened copy: both are fresh, and so is the list.
    pub fn load_both(self, plan: &Plan) -> Session {
        let text = Lent::of(text_of(plan).as_bytes());
        let mut session = Session::load_over(plan, self.states);
        for (engine, mut twin) in engines().iter().zip(self.twins) {
            assert_eq!(engine.load(&mut twin, &text), 0, "{}: {:?}", engine.name, text_of(plan));
            session.twins.push(twin);
        }
        session.same();
        session
    }

    /// A saved state put back, and a widened copy: it has had the calls made up to its copy. "an older state counts from its first move
    /// here"
    pub fn put_back(saved: &Saved) -> Session {
        let mut session = Session::begin(&saved.plan, engines().iter().map(|_| Lent::of(&saved.bytes)).collect()).widened();
        if saved.before_counts() {
            session.counted_from = (0..saved.plan.len()).map(|s| layout::bound(&saved.bytes, s)).collect();
        }
        for (call, answer) in &saved.calls {
            session.list.push(Act::Call(*call));
            session.note(*call, *answer);
        }
        session
    }

    /// The state, the same in every engine.
    pub fn state(&self) -> &[u8] {
        &self.states[0]
    }

    /// The block, the same in every engine.
    pub fn block(&self) -> &[u8] {
        &self.blocks[0]
    }

    /// Other contents of every block, as the firmware may begin with.
    pub fn set_block(&mut self, block: &[u8]) {
        self.blocks = self.states.iter().map(|_| Lent::of(block)).collect();
    }

    pub fn story(&self) -> String {
        format!("seed {}\n{}{:?}", seed(), text_of(&self.plan), self.list)
    }

    fn same(&self) {
        for state in &self.states[1..] {
            if state[..] != self.states[0][..] {
                let at = (0..state.len()).find(|&i| state[i] != self.states[0][i]).unwrap();
                panic!("the engines' states differ at byte {} of record {}\n{}", at % 256, at / 256, self.story());
            }
        }
        if self.twins.is_empty() {
            return;
        }
        let wanted = widened(&self.states[0]);
        for (engine, twin) in engines().iter().zip(&self.twins) {
            if twin[..] != wanted[..] {
                let at = (0..twin.len()).find(|&i| twin[i] != wanted[i]).unwrap();
                panic!("{}: the widened state differs at byte {} of record {}\n{}", engine.name, at % 256, at / 256, self.story());
            }
            assert!(twin.untouched(), "{}: written outside the widened state\n{}", engine.name, self.story());
        }
    }

    /// Makes the call on every engine: the same answer, the same state; a refusal has no results and leaves the state.
    pub fn call(&mut self, call: Call) -> Answer {
        self.list.push(Act::Call(call));
        let before = self.states[0].to_vec();
        let answers: Vec<Answer> =
            engines().iter().zip(&mut self.states).map(|(engine, state)| engine.call(state, call)).collect();
        for (engine, twin) in engines().iter().zip(&mut self.twins) {
            assert_eq!(engine.call(twin, call), answers[0], "{}: another answer of the widened state, {:?}", engine.name, self.list);
        }
        for answer in &answers[1..] {
            assert_eq!(answers[0], *answer, "the engines' answers differ\n{}", self.story());
        }
        self.same();
        let answer = answers[0];
        if answer.number != 0 {
            assert_eq!((answer.moves, answer.stamp, answer.value), (0, 0, 0), "results of a refusal\n{}", self.story());
            assert!(self.state() == before, "a refusal wrote the state\n{}", self.story());
        }
        assert!(self.states.iter().all(Lent::untouched), "written outside the state\n{}", self.story());
        self.note(call, answer);
        answer
    }

    /// Writes a byte to every engine's block: number, block and state are those that document 02 gives over direct calls on a copy
    /// of the state. A command counts as its direct call.
    pub fn write(&mut self, at: u32, byte: u8) -> u32 {
        self.list.push(Act::Write(at, byte));
        let mut ends = vec![];
        let before = self.block().to_vec();
        for ((engine, state), block) in engines().into_iter().zip(&mut self.states).zip(&mut self.blocks) {
            let mut board = Board { calls: Direct::on(engine, state), block: block.to_vec() };
            let (wanted, number) = (board.write(at, byte), engine.write(state, block, at, byte));
            let story = || format!("{}: {byte} written at {at}", engine.name);
            assert_eq!((number, &block[..]), (wanted, &board.block[..]), "{}", story());
            assert!(state[..] == board.calls.state[..], "{}: another state than the direct call's", story());
            assert_eq!(engine.line(block), line(block), "{}", story());
            assert!(state.untouched() && block.untouched(), "{}: written outside", story());
            ends.push((number, board.calls.made));
        }
        for ((engine, twin), block) in engines().iter().zip(&mut self.twins).zip(&self.blocks) {
            let mut copy = Lent::of(&before);
            assert_eq!(engine.write(twin, &mut copy, at, byte), ends[0].0, "{}: of the widened state, {byte} at {at}", engine.name);
            assert!(copy[..] == block[..] && copy.untouched(), "{}: another block of the widened state, {byte} at {at}", engine.name);
        }
        self.same();
        assert_eq!(ends[0], ends[1], "the engines differ\n{}", self.story());
        assert!(self.blocks.iter().all(|block| block[..] == self.blocks[0][..]), "the engines' blocks differ\n{}", self.story());
        let (number, made) = ends.swap_remove(0);
        for (call, answer) in made {
            self.note(call, answer);
        }
        number
    }

    pub fn act(&mut self, act: Act) -> Answer {
        match act {
            Act::Call(call) => self.call(call),
            Act::Write(at, byte) => Answer { number: self.write(at, byte), ..Answer::default() },
        }
    }

    /// A call by way of the block: its numbers are written where they differ, then the command. The number of the last write.
    pub fn command(&mut self, call: Call) -> u32 {
        let acts = writes(self.block(), call).unwrap_or_else(|| panic!("no command for {call:?}"));
        acts.into_iter().map(|act| self.act(act).number).last().unwrap()
    }

    /// Asks every engine for the plan's text, into a buffer of so many bytes: the text that was loaded last, or 19. It is no call of
    /// the list, and changes nothing.
    pub fn text_back(&mut self, room: usize) -> Given {
        let (before, buffer) = (self.states[0].to_vec(), pattern(room));
        let wanted = given(Some(&self.plan), &buffer);
        for (engine, state) in engines().iter().zip(&mut self.states).chain(engines().iter().zip(&mut self.twins)) {
            let mut text = Lent::of(&buffer);
            let (number, length) = engine.plan_text(state, &mut text);
            let end = Given { number, length, buffer: text.to_vec() };
            if end != wanted {
                panic!("{}: {} bytes of text into {room}, number {number}, wanted {} and {}", engine.name, length, wanted.length, wanted.number);
            }
            assert!(state.untouched() && text.untouched(), "{}: written outside", engine.name);
        }
        assert!(self.state() == before, "a text wrote the state");
        self.same();
        wanted
    }

    /// Asks every engine why events of a stream are missing. It is no call of the list, and changes nothing.
    pub fn missing(&mut self, stream: u32) -> (u32, Missing) {
        let before = self.states[0].to_vec();
        let mut ends = vec![];
        for (engine, state) in engines().iter().zip(&mut self.states).chain(engines().iter().zip(&mut self.twins)) {
            ends.push(engine.missing(state, stream));
            assert!(state.untouched(), "{}: written outside", engine.name);
        }
        assert!(self.state() == before, "a reading of the counts wrote the state");
        self.same();
        assert!(ends.iter().all(|end| *end == ends[0]), "the counts of {stream} differ, {ends:?}\n{}", self.story());
        ends[0]
    }

    /// What the definition gives for the accepted readings, as far as any stream that counts is known; none if more than `most` stamps
    /// would have to be looked at.
    fn meant(&self, most: usize) -> Option<Meaning> {
        let counts = (0..self.plan.len()).filter(|&s| self.plan[s].op.counts());
        let until = counts.map(|s| layout::bound(self.state(), s)).max().unwrap_or(0);
        meaning(&self.plan, &self.accepted, until, most)
    }

    /// "After any list of calls [..] they equal the number of such stamps below the stream's bound": of every stream, by the call and
    /// in its record; and "a stream that isn't there gives 11". The sum of all counts, or none if the definition has too much to look
    /// at.
    pub fn check_missing(&mut self) -> Option<[u64; 2]> {
        self.check_missing_within(MOST_COUNTED)
    }

    pub fn check_missing_within(&mut self, most: usize) -> Option<[u64; 2]> {
        let meant = self.meant(most)?;
        let mut sum = [0; 2];
        for s in 0..self.plan.len() {
            let wanted = meant.counts(s, self.counted_from[s], layout::bound(self.state(), s));
            assert_eq!(self.missing(s as u32), (0, wanted), "counts of {s}\n{}", self.story());
            assert_eq!(layout::missing(self.state(), s), wanted, "bytes of the counts of {s}\n{}", self.story());
            sum = [sum[0] + wanted.outside as u64, sum[1] + wanted.zero as u64];
        }
        assert_eq!(self.missing(self.plan.len() as u32), (11, Missing::default()), "{}", self.story());
        Some(sum)
    }

    fn note(&mut self, call: Call, answer: Answer) {
        if answer.number != 0 {
            return;
        }
        match call {
            Call::Reading(s, t, v) => {
                self.accepted[s as usize].insert(t, v);
                self.known[s as usize] = t as u64 + 1;
            }
            Call::Progress(s, y) => self.known[s as usize] = y,
            Call::Collect(s) => self.handed[s as usize].push((answer.stamp, answer.value)),
            Call::Move(_) | Call::Run(_) => {}
        }
    }

    pub fn inputs(&self) -> Vec<usize> {
        (0..self.plan.len()).filter(|&s| self.plan[s].op == Op::In).collect()
    }

    pub fn outputs(&self) -> Vec<usize> {
        (0..self.plan.len()).filter(|&s| self.plan[s].out).collect()
    }

    /// The stamp to which the input furthest behind is known; with no inputs, the horizon.
    pub fn least_known(&self) -> u64 {
        self.inputs().iter().map(|&s| self.known[s]).min().unwrap_or(HORIZON)
    }

    /// Runs and collects until nothing moves and nothing waits; false if that takes more than so many moves.
    pub fn rest(&mut self, most_moves: u64) -> bool {
        let mut left = most_moves;
        loop {
            let moves = self.call(Call::Run(500)).moves as u64;
            let mut waited = false;
            for s in self.outputs() {
                while self.call(Call::Collect(s as u32)).number == 0 {
                    waited = true;
                }
            }
            if moves == 0 && !waited {
                break;
            }
            if moves >= left {
                return false;
            }
            left -= moves;
        }
        for s in 0..self.plan.len() as u32 {
            let number = self.call(Call::Move(s)).number;
            assert_eq!(number, if self.plan[s as usize].op == Op::In { 11 } else { 12 }, "at rest\n{}", self.story());
        }
        true
    }

    /// "the events handed out of each output are a beginning of what the definition gives for the accepted readings"
    /// False if the definition has too many events to look at.
    pub fn check_beginning(&self) -> bool {
        let last = self.handed.iter().flatten().map(|(t, _)| *t as u64).max();
        let Some(last) = last else { return true };
        let Some(streams) = evaluate(&self.plan, &self.accepted, last + 1, MOST) else { return false };
        for s in self.outputs() {
            let wanted: Vec<(u32, i64)> = streams[s].iter().map(|(t, v)| (*t, *v)).take(self.handed[s].len()).collect();
            assert_eq!(self.handed[s], wanted, "no beginning, stream {s}\n{}", self.story());
        }
        true
    }

    /// At rest: "every event that the definition gives of each output below the stamp to which the input furthest behind is
    /// known has been handed out, and no reading offered next to that input is refused for lack of space".
    pub fn check_rest(&self) -> bool {
        let least = self.least_known();
        let Some(streams) = evaluate(&self.plan, &self.accepted, least, MOST) else { return false };
        for s in self.outputs() {
            let wanted: Vec<(u32, i64)> = streams[s].iter().map(|(t, v)| (*t, *v)).collect();
            let handed = &self.handed[s];
            assert!(handed.len() >= wanted.len() && handed[..wanted.len()] == wanted[..], "not complete, stream {s}: {handed:?} {wanted:?}\n{}", self.story());
        }
        for s in self.inputs() {
            if self.known[s] == least && least < HORIZON {
                let number = self.clone().call(Call::Reading(s as u32, least as u32, 5)).number;
                assert_eq!(number, 0, "the input furthest behind, {s}\n{}", self.story());
            }
        }
        true
    }
}

/// A call of any kind, now and then one that is refused.
pub fn any_call(random: &mut Random, session: &Session) -> Call {
    let n = session.plan.len() as u64;
    let inputs = session.inputs();
    let outside = [n as u32, n as u32 + 1, 255, 256, u32::MAX];
    let stream = if n == 0 || random.chance(4) { random.pick(&outside) } else { random.below(n) as u32 };
    let input = if inputs.is_empty() || random.chance(5) { stream } else { random.pick(&inputs) as u32 };
    let known = session.known.get(input as usize).copied().unwrap_or(0);
    match random.below(100) {
        0..=34 => {
            let stamp = match random.below(50) {
                0 => random.next() as u32,
                1 => random.pick(&[0, u32::MAX, u32::MAX - 1, 1 << 31]),
                2..=5 => known.saturating_sub(1 + random.below(4)) as u32,
                6..=40 => known.saturating_add(random.below(3)).min(u32::MAX as u64) as u32,
                _ => known.saturating_add(random.below(12)).min(u32::MAX as u64) as u32,
            };
            // where something is summed up, often so that the sum is out of range; where something is calculated, that it has no value
            let sums = session.plan.iter().any(|stream| stream.op == Op::Wsum);
            let counts = session.plan.iter().any(|stream| stream.op.counts());
            let value = match random.below(100) {
                0..=29 if sums => random.at_an_end(),
                30..=59 if counts => random.at_an_edge(),
                _ => random.value(),
            };
            Call::Reading(input, stamp, value)
        }
        35..=44 => {
            let bound = match random.below(40) {
                0 => random.pick(&[HORIZON + 1, u64::MAX, 1 << 33]),
                1 => random.next() >> random.below(64),
                2..=5 => known.saturating_sub(random.below(3)),
                _ => known + random.below(10),
            };
            Call::Progress(input, bound)
        }
        45..=64 => Call::Move(stream),
        65..=79 => Call::Run(random.below(12) as u32),
        _ => Call::Collect(stream),
    }
}

/// One byte to any place of the block or outside it.
pub fn any_write(random: &mut Random) -> Act {
    const OUTSIDE: [u32; 10] = [24, 25, 31, 32, 255, 256 + 16, 65_536 + 16, (1 << 24) + 3, (1 << 31) + 16, u32::MAX];
    let at = match random.below(20) {
        0..=6 => random.below(16) as u32,
        7..=11 => 16,
        12..=13 => 18,
        14..=15 => 19,
        16..=18 => random.below(24) as u32,
        _ => random.pick(&OUTSIDE),
    };
    let byte = if at == 16 && random.chance(85) { random.below(5) as u8 } else { random.next() as u8 >> random.below(8) };
    Act::Write(at, byte)
}

/// A call of any kind, directly or by the writes of a board; or a write of any kind.
pub fn any_acts(random: &mut Random, session: &Session) -> Vec<Act> {
    if random.chance(6) {
        return vec![any_write(random)];
    }
    let call = any_call(random, session);
    let by_registers = if random.chance(20) { writes(session.block(), call) } else { None };
    by_registers.unwrap_or(vec![Act::Call(call)])
}
