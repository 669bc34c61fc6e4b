//! What the second implementation gives, in the proved code's words.

use jobdesk::{ANSWER_WORDS, Answer, ROOM_WORDS, THREADS};
use second::machine::one_step;
use second::{Call, Machine, Outcome, Reply, Rooms, Run, Value};

/// The answer that an outcome of a run is.
fn outcome(outcome: Outcome) -> Answer {
    match outcome {
        Outcome::Done => Answer::Done,
        Outcome::Spent => Answer::Spent,
        Outcome::NoRoom => Answer::NoRoom,
        Outcome::Stuck => Answer::Stuck,
        Outcome::Denied => Answer::Denied,
    }
}

/// The answer that a turn's answer is.
fn answer(answer: second::Answer) -> Answer {
    match answer {
        second::Answer::Taken => Answer::Taken,
        second::Answer::Done => Answer::Done,
        second::Answer::NoRoom => Answer::NoRoom,
        second::Answer::Stuck => Answer::Stuck,
        second::Answer::Denied => Answer::Denied,
    }
}

/// The words of what a call answers: the number, the thread, and the steps of each thread.
pub fn reply(reply: Reply) -> [u64; ANSWER_WORDS] {
    let (answer, thread, steps) = match reply {
        Reply::Step(second::Answer::Taken, thread) => (Answer::Taken, thread, one_step(thread)),
        Reply::Step(failed, thread) => (answer(failed), thread, [0; THREADS]),
        Reply::Run(Run { outcome: end, counts, thread }) => (outcome(end), thread, counts),
    };
    let [a, b, c, d, e, f, g, h] = steps;
    [answer.number(), thread as u64, a, b, c, d, e, f, g, h]
}

/// Makes the calls, and gives the words of their answers.
pub fn run(machine: &mut Machine, calls: &[Call]) -> Vec<u64> {
    calls.iter().flat_map(|&call| reply(machine.call(call))).collect()
}

/// The two words of a value, or of none.
pub fn value(value: Option<Value>) -> [u64; 2] {
    value.map_or([0; 2], |value| [value.kind() as u64 + 1, value.data() as u64])
}

/// Cells, keys, pairs, functions, frames and bindings in use, and threads that were started.
pub fn rooms(rooms: Rooms) -> [u64; ROOM_WORDS] {
    let Rooms { cells, keys, pairs, functions, frames, bindings, threads, .. } = rooms;
    [cells, keys, pairs, functions, frames, bindings, threads].map(|count| count as u64)
}
