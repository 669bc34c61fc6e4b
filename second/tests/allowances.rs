//! Runs with an allowance for each thread: counts, passing over, rounds, and what the desk prints.

mod setting;

use second::generate::{calls, calls_of, heavy, heavy_threads, job as generated};
use second::machine::{THREADS, under};
use second::{Answer, Call, Expr, Machine, Outcome, Reply, Run, bytes_of, desk, read, turns};
use setting::{job, machine, tower};

use Expr::{Number, Pair, Spawn, Sum, Top};

/// Adds so many sums, one in another: four steps each, and one.
fn sums(exprs: &mut Vec<Expr>, count: usize) -> u16 {
    exprs.push(Number(1));
    for _ in 0..count {
        let last = exprs.len() as u16 - 1;
        exprs.extend([Number(1), Sum(last, last + 1)]);
    }
    exprs.len() as u16 - 1
}

/// A job whose thread 0 starts a thread for each of some counts of sums, and has sums of its own. Each
/// start takes it four steps, of which the second starts the thread.
fn sharing(own: usize, others: &[usize]) -> Vec<Expr> {
    let mut exprs = Vec::new();
    let mut bodies: Vec<u16> = others.iter().map(|&count| sums(&mut exprs, count)).collect();
    let mut last = sums(&mut exprs, own);
    while let Some(body) = bodies.pop() {
        let next = exprs.len() as u16;
        exprs.extend([Spawn(body), Sum(next, last)]);
        last = next + 1;
    }
    exprs
}

/// Allowances of the first three threads; the others have none.
fn three([a, b, c]: [u64; 3]) -> [u64; THREADS] {
    [a, b, c, 0, 0, 0, 0, 0]
}

fn ends(machine: &mut Machine, allowances: [u64; 3], outcome: Outcome, counts: [u64; 3]) {
    let run = machine.run(three(allowances));
    assert_eq!(run, Run { outcome, counts: three(counts), thread: 0 });
}

/// The threads of the next so many turns.
fn order(machine: &mut Machine, turns: usize) -> Vec<usize> {
    let turn = |_| {
        let (answer, thread) = machine.step();
        assert_eq!(answer, Answer::Taken);
        thread
    };
    (0..turns).map(turn).collect()
}

/// Three threads with much to do, at the end of a round.
fn busy() -> Machine {
    let mut machine = machine(&sharing(9, &[9, 9]));
    assert_eq!(order(&mut machine, 12), [0, 0, 0, 1, 0, 1, 0, 1, 0, 1, 2, 0]);
    assert_eq!(order(&mut machine, 2), [1, 2]);
    assert_eq!((machine.live(), machine.due()), (0b111, 0));
    machine
}

#[test]
fn each_thread_has_its_own_count() {
    let exprs = sharing(1, &[2, 0]);
    let run = machine(&exprs).run([100; THREADS]);
    assert_eq!(run, Run { outcome: Outcome::Done, counts: three([13, 9, 1]), thread: 0 });
    // To the last step, with one left, and as much as there can be.
    ends(&mut machine(&exprs), [13, 9, 1], Outcome::Done, [13, 9, 1]);
    ends(&mut machine(&exprs), [14, 9, 1], Outcome::Done, [13, 9, 1]);
    ends(&mut machine(&exprs), [u64::MAX; 3], Outcome::Done, [13, 9, 1]);
}

#[test]
fn spent_when_every_unfinished_thread_is() {
    let exprs = sharing(1, &[2, 0]);
    for (allowances, rest) in [
        ([12, 9, 1], [1, 0, 0]),
        ([13, 8, 1], [0, 1, 0]),
        ([13, 9, 0], [0, 0, 1]),
        ([5, 2, 1], [8, 7, 0]),
    ] {
        let mut machine = machine(&exprs);
        ends(&mut machine, allowances, Outcome::Spent, allowances);
        assert_eq!(machine.result(), None);
        ends(&mut machine, [0; 3], Outcome::Spent, [0; 3]);
        ends(&mut machine, [100; 3], Outcome::Done, rest);
        ends(&mut machine, [0; 3], Outcome::Done, [0; 3]);
    }
}

/// The thread that is passed over takes up none of the steps of others.
#[test]
fn others_go_on() {
    let exprs = sharing(1, &[2, 0]);
    ends(&mut machine(&exprs), [100, 3, 100], Outcome::Spent, [13, 3, 1]);
    ends(&mut machine(&exprs), [6, 100, 100], Outcome::Spent, [6, 9, 1]);
    // Both threads have been started, and thread 0 has nothing allowed.
    let mut machine = machine(&exprs);
    ends(&mut machine, [6, 0, 0], Outcome::Spent, [6, 0, 0]);
    ends(&mut machine, [0, 100, 100], Outcome::Spent, [0, 9, 1]);
    ends(&mut machine, [100, 0, 0], Outcome::Done, [7, 0, 0]);
}

#[test]
fn no_allowance_at_all() {
    let mut machine = busy();
    let before = machine.clone();
    ends(&mut machine, [0; 3], Outcome::Spent, [0; 3]);
    // What is allowed to numbers that no thread has is of no use.
    let run = machine.run([0, 0, 0, 9, 9, 9, 9, u64::MAX]);
    assert_eq!((run.outcome, run.counts), (Outcome::Spent, [0; THREADS]));
    assert!(machine == before);
}

#[test]
fn a_thread_that_the_run_starts_has_its_own_allowance() {
    let exprs = sharing(0, &[9, 9]);
    ends(&mut machine(&exprs), [100, 0, 7], Outcome::Spent, [9, 0, 7]);
    ends(&mut machine(&exprs), [100, 7, 0], Outcome::Spent, [9, 7, 0]);
    // The last step that thread 0 is allowed starts a thread.
    ends(&mut machine(&exprs), [2, 37, 100], Outcome::Spent, [2, 37, 0]);
    ends(&mut machine(&exprs), [6, 36, 36], Outcome::Spent, [6, 36, 36]);
}

/// What is left to a thread that has ended does not make the run go on.
#[test]
fn allowance_left_to_an_ended_thread() {
    let mut machine = machine(&sharing(0, &[3]));
    ends(&mut machine, [100, 12, 0], Outcome::Spent, [5, 12, 0]);
    assert_eq!(machine.live(), 0b10);
    ends(&mut machine, [100, 0, 0], Outcome::Spent, [0, 0, 0]);
    ends(&mut machine, [100, 1, 0], Outcome::Done, [0, 1, 0]);
}

/// The turns after a run go on from the thread that stepped last.
#[test]
fn passing_over_leaves_no_trace() {
    for (allowances, next) in [
        // One step, which begins a round.
        ([1, 0, 0], [1, 2, 0, 1]),
        ([0, 1, 0], [2, 0, 1, 2]),
        ([0, 0, 1], [0, 1, 2, 0]),
        // The last of them is a round of its own.
        ([2, 0, 0], [1, 2, 0, 1]),
        ([0, 2, 0], [2, 0, 1, 2]),
        ([5, 1, 0], [1, 2, 0, 1]),
        // Passed over between two others, thread 1 waits for the next round.
        ([1, 0, 1], [0, 1, 2, 0]),
        ([1, 1, 0], [2, 0, 1, 2]),
        ([1, 2, 1], [2, 0, 1, 2]),
        ([2, 2, 2], [0, 1, 2, 0]),
    ] {
        let mut machine = busy();
        ends(&mut machine, allowances, Outcome::Spent, allowances);
        assert_eq!(order(&mut machine, 4), next, "{allowances:?}");
    }
}

/// A run begins with what is left of a round.
#[test]
fn runs_within_a_round() {
    for (allowances, next) in [
        ([1, 1, 1], [1, 2, 0, 1]),
        ([0, 1, 1], [0, 1, 2, 0]),
        // Neither of the two that are due: a new round.
        ([1, 0, 0], [1, 2, 0, 1]),
        ([0, 0, 1], [0, 1, 2, 0]),
        ([0, 0, 0], [1, 2, 0, 1]),
        ([3, 0, 1], [1, 2, 0, 1]),
    ] {
        let mut machine = busy();
        assert_eq!(order(&mut machine, 1), [0]);
        ends(&mut machine, allowances, Outcome::Spent, allowances);
        assert_eq!(order(&mut machine, 4), next, "{allowances:?}");
    }
}

/// A thread that was started in the round is in the next one, also where that begins because the others
/// of the round may not step.
#[test]
fn new_threads_and_rounds() {
    let mut machine = machine(&sharing(9, &[9, 9]));
    // Thread 0 starts thread 2 by its fifth step; thread 1 is due, and at its allowance.
    ends(&mut machine, [5, 0, 0], Outcome::Spent, [5, 0, 0]);
    assert_eq!((machine.live(), machine.due()), (0b111, 0b10));
    let mut other = machine.clone();
    ends(&mut other, [0, 0, 1], Outcome::Spent, [0, 0, 1]);
    assert_eq!(order(&mut other, 3), [0, 1, 2]);
    ends(&mut machine, [1, 0, 1], Outcome::Spent, [1, 0, 1]);
    assert_eq!(order(&mut machine, 3), [0, 1, 2]);
}

#[test]
fn allowances_are_of_one_run() {
    let mut machine = busy();
    ends(&mut machine, [3, 2, 1], Outcome::Spent, [3, 2, 1]);
    ends(&mut machine, [1, 2, 3], Outcome::Spent, [1, 2, 3]);
    // A turn has no allowance, and takes nothing from the next run's.
    assert_eq!(order(&mut machine, 3), [0, 1, 2]);
    ends(&mut machine, [2, 2, 2], Outcome::Spent, [2, 2, 2]);
}

/// Thread 0 is stuck after seven steps, and thread 1 goes on.
fn stuck() -> Machine {
    let mut exprs = Vec::new();
    let body = sums(&mut exprs, 9);
    let at = body + 1;
    exprs.extend([Spawn(body), Top, Number(1), Sum(at + 1, at + 2), Sum(at, at + 3)]);
    machine(&exprs)
}

#[test]
fn a_thread_that_fails() {
    let failed = |counts, thread| Run { outcome: Outcome::Stuck, counts: three(counts), thread };
    assert_eq!(stuck().run([100; THREADS]), failed([7, 5, 0], 0));
    assert_eq!(stuck().run(three([8, 0, 0])), failed([7, 0, 0], 0));
    assert_eq!(stuck().run(three([8, 2, 0])), failed([7, 2, 0], 0));
    // The failing step is not asked for where the allowance ends before it.
    let mut machine = stuck();
    ends(&mut machine, [7, 2, 0], Outcome::Spent, [7, 2, 0]);
    ends(&mut machine, [0, 3, 0], Outcome::Spent, [0, 3, 0]);
    assert_eq!(machine.run(three([1, 0, 0])), failed([0, 0, 0], 0));
    // A thread that has failed is passed over like another.
    ends(&mut machine, [0, 32, 0], Outcome::Spent, [0, 32, 0]);
    assert_eq!(machine.live(), 1);
    assert_eq!(machine.step(), (Answer::Stuck, 0));
}

/// A turn that fails in a new round leaves the old one, and who is due in it.
#[test]
fn a_turn_that_fails_changes_nothing() {
    let mut machine = stuck();
    ends(&mut machine, [7, 0, 0], Outcome::Spent, [7, 0, 0]);
    let before = machine.clone();
    assert_eq!(machine.run(three([9, 0, 0])).outcome, Outcome::Stuck);
    assert!(machine == before);
    assert_eq!((machine.turn(), machine.turn_among(0b01)), (Some(1), Some(0)));
    assert_eq!(machine.step(), (Answer::Taken, 1));
    assert_eq!(machine.step(), (Answer::Stuck, 0));
}

#[test]
fn the_desk_prints_the_count_of_thread_0() {
    let prints = |exprs: &[Expr], line: &str| {
        assert_eq!(desk(&job(0, exprs)), format!("accepted 0000000000000000 number\n{line}\n"));
    };
    prints(&sharing(1, &[2, 0]), "done 13 number 2");
    prints(&sharing(0, &[9, 9]), "done 9 number 1");
    // The thread has no room for frames: its own count is printed.
    let mut exprs = vec![Number(1)];
    tower(&mut exprs, 258);
    let body = exprs.len() as u16 - 1;
    exprs.push(Spawn(body));
    prints(&exprs, "no room 256");
    // Thread 0 has none, and the thread has ended.
    let mut exprs = vec![Number(1), Spawn(0)];
    tower(&mut exprs, 258);
    prints(&exprs, "no room 256");
}

#[test]
fn the_desk_allows_each_thread_100000() {
    let number = "accepted 0000000000000000 number\n";
    let mut job = heavy(40);
    assert_eq!(desk(&bytes_of(&job)), format!("{number}spent 100000\n"));
    // Thread 0 is at its end, and thread 1 spent.
    let last = job.last() as u16;
    job.exprs.push(Spawn(last));
    assert_eq!(desk(&bytes_of(&job)), format!("{number}spent 1\n"));
    // Thread 0 is spent, thread 1 at its end.
    job.exprs.truncate(last as usize + 1);
    job.exprs.extend([Number(1), Spawn(last + 1), Pair(last, last + 2)]);
    let pair = "accepted 0000000000000000 pair\n";
    assert_eq!(desk(&bytes_of(&job)), format!("{pair}spent 100000\n"));
    // Two threads take more than that together.
    assert_eq!(desk(&bytes_of(&heavy_threads(80, 2))), format!("{number}spent 100000\n"));
}

/// A run is its turns: those of the threads that are under their allowances, others passed over.
#[test]
fn a_run_is_its_turns() {
    let mut runs = 0;
    for seed in 0..1_500 {
        let (_, bytes) = generated(seed);
        let Ok(mut machine) = Machine::start(&bytes) else { continue };
        for call in calls_of(seed, &bytes) {
            let mut stepped = machine.clone();
            let reply = machine.call(call);
            match call {
                Call::Step => assert_eq!(reply, turn(&mut stepped), "seed {seed}"),
                Call::Run(allowances) => {
                    assert_eq!(reply, Reply::Run(run(&mut stepped, allowances)), "seed {seed}");
                    runs += (machine.rooms().threads > 1) as u64;
                }
            }
            assert!(machine == stepped, "seed {seed}");
        }
    }
    assert!(runs > 500);
}

/// A call of one turn.
fn turn(machine: &mut Machine) -> Reply {
    let Some(thread) = machine.turn() else { return Reply::Step(Answer::Done, 0) };
    Reply::Step(machine.step_of(thread), thread)
}

/// A run, turn by turn.
fn run(machine: &mut Machine, allowances: [u64; THREADS]) -> Run {
    let mut counts = [0; THREADS];
    loop {
        let left = std::array::from_fn(|thread| allowances[thread] - counts[thread]);
        let Some(thread) = machine.turn_among(under(&left)) else {
            let outcome = if machine.is_done() { Outcome::Done } else { Outcome::Spent };
            return Run { outcome, counts, thread: 0 };
        };
        let outcome = match machine.step_of(thread) {
            Answer::Taken | Answer::Done => {
                counts[thread] += 1;
                continue;
            }
            Answer::NoRoom => Outcome::NoRoom,
            Answer::Stuck => Outcome::Stuck,
            Answer::Denied => Outcome::Denied,
        };
        return Run { outcome, counts, thread };
    }
}

/// Lists of calls as they are written.
#[test]
fn calls_are_written_and_read() {
    let mut rng = second::generate::Rng::new(4);
    for call in calls(&mut rng, &[30, 7, 0, 1, 2, 3, 4, 5]) {
        assert_eq!(call.to_string().parse(), Ok(call));
    }
    assert_eq!("s".parse(), Ok(Call::Step));
    assert_eq!("a1,2,3,4,5,6,7,8".parse(), Ok(Call::Run([1, 2, 3, 4, 5, 6, 7, 8])));
    for text in
        ["", "a", "t", "s1", "a1", "a1,2,3,4,5,6,7", "a1,2,3,4,5,6,7,8,9", "a1,2,3,4,5,6,7,x"]
    {
        assert_eq!(text.parse::<Call>(), Err(()), "{text}");
    }
}

/// What a list of calls comes to in words.
#[test]
fn words() {
    let job = read(&job(0, &sharing(9, &[9, 9]))).unwrap();
    let words = turns::turns(&job, &[Call::Run(three([20, 0, 3])), Call::Step, Call::Step]);
    for word in [
        "another than thread 0 is passed over, without an allowance",
        "another than thread 0 is passed over that has used its allowance",
        "a run starts a thread that has no allowance",
        "a thread is passed over as the last of a round",
        "spent with a thread of the round still due",
        "a turn is of a thread at its allowance that a run has left due",
    ] {
        assert!(words.contains(word), "{word}");
    }
    assert!(!words.iter().any(|word| word.starts_with("thread 0 is passed over")));
}
