//! Document 01's replay over an engine: what the replay program prints for a plan and a trace. No bytes stand for a file that
//! can't be opened. "The replay program uses the longer state."

use crate::engine::{Call, Engine};
use crate::layout::Size;
use crate::plan::{number, parse_in, value};

/// The offer of a line without its ending byte; none for a line that could not be read.
pub fn offer(line: &[u8]) -> Option<Call> {
    if line.len() > 64 {
        return None;
    }
    let words: Vec<&[u8]> = line.split(|&c| c == b' ').collect();
    let field = |i: usize, key: &str| words.get(i).and_then(|w| w.strip_prefix(key.as_bytes()));
    let stream = number(field(0, "s=")?, 3)? as u32;
    match words.len() {
        2 => Some(Call::Progress(stream, number(field(1, "p=")?, 10)?)),
        3 => {
            let stamp = u32::try_from(number(field(1, "t=")?, 10)?).ok()?;
            Some(Call::Reading(stream, stamp, value(field(2, "v=")?)?))
        }
        _ => None,
    }
}

pub fn replay(engine: &Engine, plan: &[u8], trace: &[u8]) -> String {
    let mut printed = String::new();
    let mut state = vec![0; Size::Long.length()];
    let refused = engine.load(&mut state, plan);
    if refused != 0 {
        return format!("refused={refused}\n");
    }
    let streams = parse_in(Size::Long, plan).expect("a plan that load takes").len() as u32;
    let rounds = |state: &mut Vec<u8>, printed: &mut String| loop {
        let mut idle = true;
        loop {
            let moves = engine.call(state, Call::Run(1000)).moves;
            assert!(streams > 0 || moves == 0, "{}: {moves} moves of no equation", engine.name);
            idle &= moves == 0;
            if moves < 1000 {
                break;
            }
        }
        for s in 0..streams {
            loop {
                let event = engine.call(state, Call::Collect(s));
                if event.number != 0 {
                    break;
                }
                idle = false;
                *printed += &format!("s={s} t={} v={}\n", event.stamp, event.value);
            }
        }
        if idle {
            break;
        }
    };
    rounds(&mut state, &mut printed);
    let mut rest = trace;
    while !rest.is_empty() {
        let end = rest.iter().position(|&c| c == b'\n');
        let call = end.and_then(|end| offer(&rest[..end]));
        let (Some(end), Some(call)) = (end, call) else {
            printed += "refused=16\n";
            break;
        };
        rest = &rest[end + 1..];
        let number = engine.call(&mut state, call).number;
        if number != 0 {
            printed += &format!("refused={number}\n");
        }
        rounds(&mut state, &mut printed);
    }
    printed
}
