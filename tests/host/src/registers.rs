//! The reader board's block of 24 bytes, from document 02's Q-4: what a write to it does, over anything that answers the calls, and
//! when its line is up. A second implementation: the block is read as numbers, and written from them.

use crate::buffer::Lent;
use crate::engine::{engines, Answer, Call, Engine, BLOCK_LENGTH};
use crate::found::Found;
use crate::layout;
use crate::model::Model;

/// What a caller does next: a call, or one byte written to a place of the block.
#[derive(Clone, Copy, PartialEq, Eq, Debug)]
pub enum Act {
    Call(Call),
    Write(u32, u8),
}

/// "stream (bytes 0 to 3), stamp (4 to 7), value (8 to 15), command (16), status (17), interrupt flags (18), interrupt mask (19),
/// reply stamp (20 to 23)"
#[derive(Clone, Copy, PartialEq, Eq, Debug)]
pub struct Block {
    pub stream: u32,
    pub stamp: u32,
    pub value: i64,
    pub command: u8,
    pub status: u8,
    pub flags: u8,
    pub mask: u8,
    pub reply: u32,
}

/// The flags: status was not 0; an output waited.
pub const REFUSED: u8 = 1;
pub const WAITING: u8 = 2;
const FLAGS: [u8; 2] = [REFUSED, WAITING];

/// "runs 64 moves"
pub const BUDGET: u32 = 64;

impl Block {
    /// None of "a block not 24 bytes long".
    pub fn read(bytes: &[u8]) -> Option<Block> {
        if bytes.len() != BLOCK_LENGTH {
            return None;
        }
        let word = |at: usize| u32::from_le_bytes(bytes[at..at + 4].try_into().unwrap());
        let value = i64::from_le_bytes(bytes[8..16].try_into().unwrap());
        Some(Block { stream: word(0), stamp: word(4), value, command: bytes[16], status: bytes[17], flags: bytes[18], mask: bytes[19], reply: word(20) })
    }

    pub fn bytes(&self) -> Vec<u8> {
        let single = [self.command, self.status, self.flags, self.mask];
        [&self.stream.to_le_bytes()[..], &self.stamp.to_le_bytes(), &self.value.to_le_bytes(), &single, &self.reply.to_le_bytes()].concat()
    }

    /// "status takes the call's number", "flag bit 0 is set if status isn't 0"
    fn ended(&mut self, number: u32) -> u32 {
        self.status = number as u8;
        self.flags |= if number == 0 { 0 } else { REFUSED };
        number
    }
}

/// The call that a write to the block starts: "Command 1 offers the reading, 2 collects [..], 3 runs 64 moves".
pub fn started(block: &[u8], at: u32, byte: u8) -> Option<Call> {
    let block = Block::read(block)?;
    match (at, byte) {
        (16, 1) => Some(Call::Reading(block.stream, block.stamp, block.value)),
        (16, 2) => Some(Call::Collect(block.stream)),
        (16, 3) => Some(Call::Run(BUDGET)),
        _ => None,
    }
}

/// The writes by which a board makes a call: those bytes of its numbers that the block does not hold yet, then the command. Every
/// run is one of 64 moves; an offer of progress and a move have no command.
pub fn writes(block: &[u8], call: Call) -> Option<Vec<Act>> {
    let mut wanted = Block::read(block)?;
    let command = match call {
        Call::Reading(stream, stamp, value) => {
            wanted = Block { stream, stamp, value, ..wanted };
            1
        }
        Call::Collect(stream) => {
            wanted.stream = stream;
            2
        }
        Call::Run(_) => 3,
        Call::Progress(..) | Call::Move(_) => return None,
    };
    let differ = wanted.bytes().into_iter().enumerate().filter(|(at, byte)| block[*at] != *byte);
    Some(differ.map(|(at, byte)| Act::Write(at as u32, byte)).chain([Act::Write(16, command)]).collect())
}

/// What stands behind a block.
pub trait Calls {
    fn call(&mut self, call: Call) -> Answer;
    /// "an output waits in a state that is not refused 15"
    fn waits(&self) -> bool;
}

#[derive(Clone)]
pub struct Board<C> {
    pub calls: C,
    pub block: Vec<u8>,
}

impl<C: Calls> Board<C> {
    pub fn new(calls: C) -> Board<C> {
        Board { calls, block: vec![0; BLOCK_LENGTH] }
    }

    pub fn act(&mut self, act: Act) -> Answer {
        match act {
            Act::Call(call) => self.calls.call(call),
            Act::Write(at, byte) => Answer { number: self.write(at, byte), ..Answer::default() },
        }
    }

    /// The number of a write, which leaves its block and what stands behind it.
    pub fn write(&mut self, at: u32, byte: u8) -> u32 {
        // "17, a block not 24 bytes long (it stays unchanged)"
        let Some(mut block) = Block::read(&self.block) else { return 17 };
        if let Some(call) = started(&self.block, at, byte) {
            let answer = self.calls.call(call);
            block.command = byte;
            block.ended(answer.number);
            // "(value and reply stamp are filled, or stay if refused)"
            if matches!(call, Call::Collect(_)) && answer.number == 0 {
                (block.value, block.reply) = (answer.value, answer.stamp);
            }
            // "When a command from 1 to 3 ends, bit 1 is set if an output waits in a state that is not refused 15."
            if self.calls.waits() {
                block.flags |= WAITING;
            }
            self.block = block.bytes();
            return answer.number;
        }
        match at {
            0..=15 | 19 => self.block[at as usize] = byte,
            // "Writing a 1 to a flag clears it." "the other bits of byte 18 stay"
            18 => {
                for flag in FLAGS.into_iter().filter(|flag| byte & flag != 0) {
                    block.flags &= !flag;
                }
                self.block = block.bytes();
            }
            // "a write outside bytes 0 to 16, 18 and 19, or a command other than 1 to 3 (only status and flag bit 0 change)"
            _ => {
                block.ended(17);
                self.block = block.bytes();
                return 17;
            }
        }
        // "any other that starts no command 0"
        0
    }
}

/// "A call on the block gives, beside the 0, 1 exactly if a flag and its mask bit are both set (the line is up), else 0."
pub fn line(block: &[u8]) -> (u32, u32) {
    match Block::read(block) {
        None => (17, 0),
        Some(block) => (0, FLAGS.iter().any(|flag| block.flags & flag != 0 && block.mask & flag != 0) as u32),
    }
}

impl Calls for Model {
    fn call(&mut self, call: Call) -> Answer {
        Model::call(self, call)
    }
    fn waits(&self) -> bool {
        (0..self.plan.len()).any(|s| self.plan[s].out && self.waiting(s).is_some())
    }
}

impl Calls for Found {
    fn call(&mut self, call: Call) -> Answer {
        Found::call(self, call)
    }
    fn waits(&self) -> bool {
        (0..self.plan.len()).any(|s| self.plan[s].out && self.waiting(s).is_some())
    }
}

/// No state is refused 15 by every call.
impl Calls for Option<Found> {
    fn call(&mut self, call: Call) -> Answer {
        self.as_mut().map_or(Answer { number: 15, ..Answer::default() }, |found| found.call(call))
    }
    fn waits(&self) -> bool {
        self.as_ref().is_some_and(Found::waits)
    }
}

/// An engine's direct calls on a state of its own. An output waits if one that holds anything could be collected.
#[derive(Clone)]
pub struct Direct {
    pub engine: Engine,
    pub state: Vec<u8>,
    /// the calls made, with their answers
    pub made: Vec<(Call, Answer)>,
}

impl Direct {
    pub fn on(engine: Engine, state: &[u8]) -> Direct {
        Direct { engine, state: state.to_vec(), made: vec![] }
    }
}

impl Calls for Direct {
    fn call(&mut self, call: Call) -> Answer {
        let answer = self.engine.call(&mut self.state, call);
        self.made.push((call, answer));
        answer
    }
    fn waits(&self) -> bool {
        let holds = |s: &usize| layout::is_output(&self.state, *s) && !layout::held(&self.state, *s).is_empty();
        let outputs = (0..self.state.len() / layout::RECORD).filter(holds);
        outputs.map(|s| Call::Collect(s as u32)).any(|collect| self.engine.call(&mut self.state.clone(), collect).number == 0)
    }
}

/// A reader board: one engine with a state and a block of its own, each lent at exactly its length.
pub struct Reader {
    pub engine: Engine,
    pub state: Lent,
    pub block: Lent,
}

/// A board for each engine, with the same bytes.
pub fn readers(state: &[u8], block: &[u8]) -> Vec<Reader> {
    engines().map(|engine| Reader { engine, state: Lent::of(state), block: Lent::of(block) }).into()
}

impl Reader {
    pub fn write(&mut self, at: u32, byte: u8) -> u32 {
        let number = self.engine.write(&mut self.state, &mut self.block, at, byte);
        assert!(self.state.untouched() && self.block.untouched(), "{}: written outside", self.engine.name);
        number
    }
}
