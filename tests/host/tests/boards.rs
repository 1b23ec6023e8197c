//! Random writes to a block of registers: any sequence of them against the same direct calls on a second state and against the models,
//! a board that only writes, and one state under calls and writes. Both engines make every write.

use host::engine::{Call, BLOCK_LENGTH};
use host::evaluator::HORIZON;
use host::found::Found;
use host::history::{any_acts, any_write, Session};
use host::model::Model;
use host::plan::{text_of, Op, Plan};
use host::random::{rounds, seed, sized_plan, Random};
use host::registers::{line, readers, started, Act, Block, Board, Calls, Direct, WAITING};
use Call::{Collect, Progress, Reading, Run};

/// The i-th write of a board: often the command that suits the stream in the block, a stream that has one, or a stamp that rises
/// with i; else any byte to any place or outside.
fn board_write(random: &mut Random, plan: &Plan, block: &[u8], i: u32) -> Act {
    let streams: Vec<usize> = (0..plan.len()).filter(|&s| plan[s].op == Op::In || plan[s].out).collect();
    match random.below(20) {
        0..=2 => Act::Write(16, random.below(5) as u8),
        3..=5 => {
            let out = plan.get(block[0] as usize).is_some_and(|stream| stream.out);
            Act::Write(16, if random.chance(40) { 3 } else { 1 + out as u8 })
        }
        6..=8 if !streams.is_empty() => Act::Write(0, random.pick(&streams) as u8),
        9..=10 => Act::Write(random.below(3) as u32 + 1, 0),
        11..=12 => Act::Write(4, random.next() as u8),
        13 => Act::Write(5, (i / 10) as u8),
        14 => Act::Write(random.below(2) as u32 + 6, 0),
        _ => any_write(random),
    }
}

/// Case 4.10: the second state has just the direct calls that the commands amount to; all 24 bytes are predicted by both models.
#[test]
fn case_4_10_random_writes_are_the_same_direct_calls() {
    // commands 1, 2, 3 done, refused; writes refused; others; both flags set by commands
    let (mut done, mut refused, mut others, mut flags) = ([0u64; 3], [0u64; 3], [0u64; 2], [0u64; 2]);
    let (all, mut wide) = (rounds(700), 0u64);
    for round in 0..all {
        let mut random = Random::of(41, round);
        let (size, plan) = sized_plan(&mut random, 10, 10);
        wide += (plan.len() > 32) as u64;
        let block = if random.chance(30) { random.bytes(BLOCK_LENGTH) } else { vec![0; BLOCK_LENGTH] };
        let loaded = Found::fresh_in(size, &plan).bytes();
        let mut boards = readers(&loaded, &block);
        let mut seconds: Vec<Direct> = boards.iter().map(|board| Direct::on(board.engine, &loaded)).collect();
        let mut model = Board { calls: Model::new(&plan), block: block.clone() };
        let mut found = Board { calls: Some(Found::fresh_in(size, &plan)), block };
        let mut list = vec![];
        for i in 0..200 {
            let Act::Write(at, byte) = board_write(&mut random, &plan, &model.block, i) else { unreachable!("a write") };
            list.push((at, byte));
            let story = || format!("seed {} round {round}\n{}{list:?}", seed(), text_of(&plan));
            let before = model.block.clone();
            let call = started(&before, at, byte);
            let wanted = (model.write(at, byte), found.write(at, byte));
            assert_eq!((wanted.0, &model.block), (wanted.1, &found.block), "the models\n{}", story());
            for (board, second) in boards.iter_mut().zip(&mut seconds) {
                let number = board.write(at, byte);
                if let Some(call) = call {
                    assert_eq!(number, second.call(call).number, "{}: {call:?}\n{}", board.engine.name, story());
                }
                assert!(board.state[..] == second.state[..], "{}: another state than the direct calls'\n{}", board.engine.name, story());
                assert_eq!((number, &board.block[..]), (wanted.0, &model.block[..]), "{} and the model\n{}", board.engine.name, story());
                assert_eq!(board.engine.line(&board.block), line(&model.block), "{}\n{}", board.engine.name, story());
            }
            assert!(boards[0].state[..] == found.calls.as_ref().unwrap().bytes()[..], "the model's state\n{}", story());
            match (call, wanted.0) {
                (Some(_), 0) => done[byte as usize - 1] += 1,
                (Some(_), _) => refused[byte as usize - 1] += 1,
                (None, number) => others[(number == 0) as usize] += 1,
            }
            for (bit, set) in flags.iter_mut().enumerate() {
                *set += (call.is_some() && (model.block[18] & !before[18]) >> bit & 1 == 1) as u64;
            }
        }
    }
    println!("seed {}: commands 1, 2, 3 done {done:?}, refused {refused:?}; writes refused {}, others {}; flags set by commands {flags:?}", seed(), others[0], others[1]);
    println!("seed {}: plans of more than 32 streams {wide}", seed());
    // a run is never refused here
    let met = [&done[..], &refused[..2], &others, &flags, &[20 * wide]].concat();
    assert!(all < 100 || met.iter().all(|&count| count > all / 4), "too few of a kind: {met:?}");
}

/// A board that only writes, but for offers of progress: it offers what a plan's inputs report, runs and collects by commands, and
/// knows by flag 1 that something waits. What it is handed is what the definition gives.
#[test]
fn a_board_that_only_writes() {
    let (mut events, mut full, mut rested) = (0u64, 0u64, 0u64);
    let all = rounds(250);
    for round in 0..all {
        let mut random = Random::of(42, round);
        let (size, plan) = sized_plan(&mut random, 16, 20);
        let mut session = Session::load_in(size, &plan);
        session.set_block(&random.bytes(BLOCK_LENGTH));
        let inputs = session.inputs();
        // works off until a run changes nothing and nothing waits
        let work = |session: &mut Session| {
            for _ in 0..60 {
                let before = session.state().to_vec();
                assert_eq!(session.write(18, WAITING), 0);
                assert_eq!(session.command(Run(64)), 0);
                let waits = Block::read(session.block()).unwrap().flags & WAITING != 0;
                let mut collected = false;
                for s in session.outputs() {
                    while session.command(Collect(s as u32)) == 0 {
                        collected = true;
                    }
                }
                assert_eq!(waits, collected, "flag 1\n{}", session.story());
                if session.state() == before {
                    return true;
                }
            }
            false
        };
        let mut ended = work(&mut session);
        for _ in 0..random.below(80) {
            if inputs.is_empty() || !ended {
                break;
            }
            let s = random.pick(&inputs);
            let stamp = session.known[s] + random.below(4);
            if stamp >= HORIZON {
                break;
            }
            if random.chance(15) {
                session.call(Progress(s as u32, stamp));
                continue;
            }
            let reading = Reading(s as u32, stamp as u32, random.value());
            match session.command(reading) {
                0 => {}
                9 => {
                    full += 1;
                    ended = work(&mut session);
                    session.command(reading);
                }
                number => panic!("refused {number}\n{}", session.story()),
            }
            if random.chance(8) {
                ended = work(&mut session);
            }
        }
        if ended && work(&mut session) && session.check_beginning() {
            rested += session.check_rest() as u64;
            session.check_missing();
        }
        events += session.handed.iter().map(|handed| handed.len() as u64).sum::<u64>();
    }
    println!("seed {}: {rested} of {all} boards at rest, {events} events handed out, {full} offers refused 9", seed());
    assert!(all < 100 || (rested * 2 > all && events > all && full > 0));
}

/// Direct calls and writes mixed on one state, with blocks of any contents, against the model of any state.
#[test]
fn calls_and_writes_on_one_state() {
    let (mut commands, mut all_waiting) = (0u64, 0u64);
    let all = rounds(400);
    for round in 0..all {
        let mut random = Random::of(43, round);
        let (size, plan) = sized_plan(&mut random, 8, 15);
        let mut session = Session::load_in(size, &plan);
        let block = random.bytes(BLOCK_LENGTH);
        session.set_block(&block);
        let mut board = Board { calls: Found::fresh_in(size, &plan), block };
        for _ in 0..60 {
            let acts = if random.chance(40) { (0..4).map(|_| any_write(&mut random)).collect() } else { any_acts(&mut random, &session) };
            for act in acts {
                commands += matches!(act, Act::Write(16, 1..=3)) as u64;
                let (answer, wanted) = (session.act(act), board.act(act));
                assert_eq!((answer, session.block()), (wanted, &board.block[..]), "{act:?}\n{}", session.story());
                assert!(session.state() == board.calls.bytes(), "{act:?}\n{}", session.story());
                all_waiting += board.calls.waits() as u64;
            }
        }
        session.check_beginning();
        session.check_missing();
    }
    println!("seed {}: {commands} commands among direct calls, an output waited after {all_waiting} acts", seed());
    assert!(all < 100 || (commands > 4 * all && all_waiting > 4 * all));
}
