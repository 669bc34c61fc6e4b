//! Command 42: threads, their turns and their room.

mod common;
mod setting;

use common::{prints, refused, run, runs};
use second::job::UNUSED;
use second::{Answer, Expr, Kind, Machine, Outcome, Run, Shape, Type, check, from_hex, read};
use setting::{job, machine, tower};

use Expr::{
    Apply, Assign, Associate, Function, Grant, Limit, Look, NewCell, NewKey, Number, Pair, Part,
    Read, Spawn, Sum, Test, Top, Variable,
};

/// The keyed cell, the other one, a limit key and a grant key.
const KEYED: Expr = Variable(0);
const CELL: Expr = Variable(1);
const LIMIT: Expr = Variable(2);
const GRANT: Expr = Variable(3);

/// The threads that step, one after another.
fn order(exprs: &[Expr], turns: usize) -> Vec<usize> {
    let mut machine = machine(exprs);
    let turn = |_| {
        let (answer, thread) = machine.step();
        (answer == Answer::Taken).then_some(thread)
    };
    (0..turns).map_while(turn).collect()
}

/// A run with so many steps for each thread, of which the first three took these.
fn ends(machine: &mut Machine, each: u64, outcome: Outcome, [a, b, c]: [u64; 3], thread: usize) {
    let counts = [a, b, c, 0, 0, 0, 0, 0];
    assert_eq!(machine.run([each; 8]), Run { outcome, counts, thread });
}

/// Takes turns until a thread has the next one.
fn until(machine: &mut Machine, thread: usize) {
    while machine.turn() != Some(thread) {
        assert_eq!(machine.step().0, Answer::Taken);
    }
}

#[test]
fn a_thread_and_its_number() {
    // Thread 0 ends by its first step; thread 1 has one step to take.
    let exprs = [Number(5), Spawn(0)];
    prints(&job(0, &exprs), "accepted 0000000000000000 number\ndone 1 number 0\n");
    runs(&job(0, &exprs), Outcome::Done, 2);
    // 0 is a number like any other: 3 and 0 is 3.
    let exprs = [Number(3), Number(5), Spawn(1), Sum(0, 2)];
    prints(&job(0, &exprs), "accepted 0000000000000000 number\ndone 5 number 3\n");
    runs(&job(0, &exprs), Outcome::Done, 6);
}

#[test]
fn one_entry() {
    let accepted = check(&job(0, &[Top, Spawn(0), Top, Pair(1, 2)])).unwrap();
    // Eight declared types, then the key's.
    assert_eq!(accepted.exprs[1].entry, 9);
    assert_eq!(accepted.types[9], Type::unkeyed(Shape::Number));
    assert_eq!(accepted.types[10], Type::unkeyed(Shape::Limit(1)));
    assert_eq!(accepted.types[11], Type::unkeyed(Shape::Pair(9, 10)));
}

#[test]
fn the_body_has_no_effect() {
    let keyed = [KEYED, Read(0), Spawn(1)];
    refused(&job(0b1000, &keyed), 16, 2);
    // Whatever the rights: the thread has no key, and is denied.
    for rights in [0b10, 0b100, 0b1000] {
        let mut machine = Machine::start(&job(rights, &keyed)).unwrap();
        ends(&mut machine, 100, Outcome::Denied, [1, 2, 0], 1);
        assert_eq!(machine.turn(), Some(1));
    }
    // A grant drops the effect, and enables the key.
    let granted = [GRANT, KEYED, Read(1), Grant(0, 2), Spawn(3)];
    prints(&job(0, &granted), "accepted 0000000000000000 number\ndone 1 number 0\n");
    ends(&mut machine(&granted), 100, Outcome::Done, [1, 6, 0], 0);
    // A value's own key is not touched.
    let held = [Number(1), LIMIT, Associate(0, 1), Spawn(2)];
    assert_eq!(check(&job(0, &held)).unwrap().effect, 0);
    // A function has no effect until it is applied.
    let function = [KEYED, Read(0), Function(9, 0, 1), Spawn(2)];
    prints(&job(0, &function), "accepted 0000000000000000 number\ndone 1 number 0\n");
}

#[test]
fn sixteen_among_the_others() {
    // The lowest expression decides: 11 before 16, and 16 before 13 and before 14.
    let wrong = [Top, Read(0), KEYED, Read(2), Spawn(3), Pair(1, 4)];
    refused(&job(0, &wrong), 11, 1);
    let limit = |body| Limit(0, [UNUSED; 4], body);
    let first = [KEYED, Read(0), Spawn(1), KEYED, Read(3), limit(4), Pair(2, 5)];
    refused(&job(0, &first), 16, 2);
    let rights = [KEYED, Read(0), KEYED, Read(2), Spawn(3), Sum(1, 4)];
    refused(&job(0, &rights), 16, 4);
    // A 42 around it has no effect of its own.
    let effect = [KEYED, Read(0), Number(1), Spawn(2), Sum(1, 3)];
    refused(&job(0, &effect), 14, 4);
    prints(&job(0b1000, &effect), "accepted 0000000000000008 number\ndone 7 number 7\n");
}

#[test]
fn keys_are_not_handed_on() {
    // The thread looks at a key that thread 0 has: it takes the other branch, and is ended sooner.
    let looks = [LIMIT, KEYED, Read(1), Number(1), Look(0, 2, 3, 0), Spawn(4)];
    assert_eq!(check(&job(0b100, &looks)).unwrap().effect, 0);
    let mut machine = Machine::start(&job(0b100, &looks)).unwrap();
    ends(&mut machine, 100, Outcome::Done, [1, 4, 0], 0);
    // Under a grant as well.
    let granted =
        [GRANT, LIMIT, KEYED, Read(2), Number(1), Look(1, 3, 4, 0), Spawn(5), Grant(0, 6)];
    assert_eq!(check(&job(0b100, &granted)).unwrap().effect, 0);
    let mut machine = Machine::start(&job(0b100, &granted)).unwrap();
    ends(&mut machine, 100, Outcome::Done, [4, 4, 0], 0);
}

#[test]
fn bindings_are_those_in_force() {
    // A function's argument goes into a cell by a thread that its body starts.
    let exprs =
        [CELL, Variable(9), Assign(0, 1), Spawn(2), Function(9, 0, 3), Number(5), Apply(4, 5)];
    let mut called = machine(&exprs);
    ends(&mut called, 100, Outcome::Done, [6, 5, 0], 0);
    assert_eq!(called.cells()[1].data(), 5);
    // A new key is used by a thread that is started in its body.
    let own = [Variable(9), Part(0, 2), Number(1), Variable(9), Part(3, 1), Associate(2, 4)];
    let used = [Number(2), Sum(5, 6), Grant(1, 7), Spawn(8), LIMIT, NewKey(9, 4, 10, 9, 0)];
    let job = job(0, &[&own[..], &used].concat());
    assert_eq!(check(&job).unwrap().effect, 0);
    runs(&job, Outcome::Done, 20);
}

#[test]
fn turns_go_by_number() {
    // A new thread steps from the next round on.
    let two = [Number(1), Spawn(0), Number(2), Sum(1, 2)];
    assert_eq!(order(&two, 9), [0, 0, 0, 1, 0, 0]);
    // Thread 1 starts thread 2, which waits for thread 0 and thread 1.
    let nested = [Number(1), Spawn(0), Number(2), Sum(1, 2), Spawn(3), Number(3), Sum(4, 5)];
    assert_eq!(order(&nested, 20), [0, 0, 0, 1, 0, 1, 0, 1, 2, 1, 1]);
    // Thread 0 starts thread 2 while thread 1 has its turn still to come.
    let later = [Number(1), Number(1), Sum(0, 1), Spawn(2), Number(4), Spawn(4), Sum(3, 5)];
    assert_eq!(order(&later, 20), [0, 0, 0, 1, 0, 1, 0, 1, 2, 1, 1]);
}

#[test]
fn ended_threads_take_no_turn() {
    // Thread 1 ends in its first turn, thread 2 goes on.
    let exprs = [Number(1), Spawn(0), Number(2), Number(3), Sum(2, 3), Spawn(4), Sum(1, 5)];
    assert_eq!(order(&exprs, 20), [0, 0, 0, 1, 0, 0, 2, 2, 2, 2, 2]);
    let mut machine = machine(&exprs);
    ends(&mut machine, 100, Outcome::Done, [5, 1, 5], 0);
    assert_eq!(machine.step(), (Answer::Done, 0));
    ends(&mut machine, 3, Outcome::Done, [0; 3], 0);
}

#[test]
fn done_when_all_are() {
    // Thread 0 ends first, and its value is the job's.
    let exprs = [Number(1), Number(2), Sum(0, 1), Spawn(2)];
    let mut machine = machine(&exprs);
    for thread in [0, 1, 1, 1, 1] {
        assert_eq!(machine.step(), (Answer::Taken, thread));
        assert_eq!(machine.result(), None);
    }
    ends(&mut machine, 0, Outcome::Spent, [0; 3], 0);
    ends(&mut machine, 1, Outcome::Done, [0, 1, 0], 0);
    assert_eq!(machine.result().map(|value| (value.kind(), value.data())), Some((Kind::Number, 0)));
}

/// A thread that is stuck ends the run; the machine stays, and the same thread is asked again.
#[test]
fn a_thread_that_fails() {
    let stuck = [Top, Number(1), Sum(0, 1), Spawn(2), Number(5), Number(6), Sum(4, 5), Sum(3, 6)];
    refused(&job(0, &stuck), 11, 2);
    let mut machine = machine(&stuck);
    ends(&mut machine, 100, Outcome::Stuck, [7, 4, 0], 1);
    let before = machine.clone();
    assert_eq!(machine.step(), (Answer::Stuck, 1));
    ends(&mut machine, 5, Outcome::Stuck, [0; 3], 1);
    ends(&mut machine, 0, Outcome::Spent, [0; 3], 0);
    assert!(machine == before);
}

/// A function in a cell; its body starts a thread in each turn.
fn starting(count: u32, body: Expr) -> Vec<Expr> {
    vec![
        body,
        Spawn(0),
        Number(1),
        Number(1),
        Test(1, 2, 3, 0),
        Variable(9),
        Expr::Difference(5, 4),
        Variable(10),
        Read(7),
        Apply(8, 6),
        Variable(9),
        Number(3),
        Test(10, 9, 11, 0),
        Function(9, 0, 12),
        Variable(10),
        Assign(14, 13),
        Number(count),
        Apply(15, 16),
        Function(10, 6, 17),
        Number(0),
        Function(11, 0, 19),
        NewCell(5, 20),
        Apply(18, 21),
    ]
}

#[test]
fn eight_threads() {
    // Each turn but the last starts one.
    for (count, threads, outcome) in [(6, 7, "done"), (7, 8, "done"), (8, 8, "no room")] {
        let job = job(0, &starting(count, Number(4)));
        assert_eq!(check(&job).unwrap().kind, Kind::Number);
        let mut machine = Machine::start(&job).unwrap();
        let (ended, _) = run(&mut machine, 100_000);
        assert_eq!((ended.words(), machine.rooms().threads), (outcome, threads));
        // Those that have ended count, too.
        assert_eq!(machine.live().count_ones(), (outcome == "no room") as u32);
    }
    let mut machine = machine(&starting(9, Number(4)));
    let (_, taken) = run(&mut machine, 100_000);
    let before = machine.clone();
    ends(&mut machine, 5, Outcome::NoRoom, [0; 3], 0);
    assert_eq!(machine.step(), (Answer::NoRoom, 0));
    assert!(machine == before);
    runs(&job(0, &starting(9, Number(4))), Outcome::NoRoom, taken);
}

#[test]
fn frames_are_each_threads_own() {
    // 42 needs no frame: it goes through with 256, and its body with them all.
    for (frames, outcome) in [(256, Outcome::Done), (257, Outcome::NoRoom)] {
        let mut exprs = vec![Number(1), Spawn(0)];
        tower(&mut exprs, frames);
        assert_eq!(machine(&exprs).run([10_000; 8]).outcome, outcome, "{frames}");
    }
    // The thread's own frames are used up, those of thread 0 are not.
    let mut exprs = vec![Number(1)];
    tower(&mut exprs, 257);
    let body = exprs.len() as u16 - 1;
    exprs.extend([Spawn(body), Number(2)]);
    tower(&mut exprs, 200);
    let last = exprs.len() as u16 - 1;
    exprs.push(Pair(body + 1, last));
    let mut machine = machine(&exprs);
    let Run { outcome, counts, thread } = machine.run([10_000; 8]);
    assert_eq!((outcome, counts[1], thread, machine.turn()), (Outcome::NoRoom, 256, 1, Some(1)));
    assert_eq!((machine.rooms().deepest, machine.rooms().full()), (256, vec!["frames"]));
    assert!(machine.rooms().frames > 256);
}

#[test]
fn other_room_is_shared() {
    // Each of two threads makes pairs until there are no more.
    let pairs = [Number(1), Number(2), Pair(0, 1), Part(2, 1)];
    let mut exprs = starting(600, Number(4));
    exprs.splice(0..2, pairs);
    let moved = |expr: &mut Expr, place: usize| {
        if place >= 4 {
            expr.each_operand_mut(|operand| *operand += 2);
        }
    };
    exprs.iter_mut().enumerate().for_each(|(place, expr)| moved(expr, place));
    // Thread 1 runs the loop, and thread 0 too.
    let call = exprs.iter().position(|expr| matches!(expr, Number(600))).unwrap() as u16;
    let tail = [Variable(10), Read(call), Number(600), Apply(call + 1, call + 2)];
    exprs.truncate(call as usize);
    exprs.extend(tail);
    exprs.extend([Spawn(call + 3), Variable(10), Read(call + 5), Number(600)]);
    exprs.extend([Apply(call + 6, call + 7), Pair(call + 4, call + 8), Pair(call - 1, call + 9)]);
    exprs.extend([Function(10, 6, call + 10), Number(0), Function(11, 0, call + 12)]);
    exprs.extend([NewCell(5, call + 13), Apply(call + 11, call + 14)]);
    let job = job(0, &exprs);
    assert!(check(&job).is_ok());
    let mut machine = Machine::start(&job).unwrap();
    let Run { outcome, counts, thread } = machine.run([100_000; 8]);
    assert_eq!((outcome, machine.rooms().full()), (Outcome::NoRoom, vec!["pairs"]));
    // Thread 0 takes the last place.
    assert_eq!((thread, machine.turn()), (1, Some(1)));
    assert!(counts[0].abs_diff(counts[1]) < 20);
}

#[test]
fn values_are_dropped() {
    let bodies: [&[Expr]; 6] = [
        &[Number(1)],
        &[Number(1), Number(2), Pair(0, 1)],
        &[KEYED],
        &[KEYED, Read(0), Function(9, 0, 1)],
        &[LIMIT],
        &[GRANT],
    ];
    for body in bodies {
        let mut exprs = body.to_vec();
        exprs.push(Spawn(body.len() as u16 - 1));
        assert_eq!(check(&job(0, &exprs)).unwrap().kind, Kind::Number);
        let mut machine = machine(&exprs);
        assert_eq!(machine.run([100; 8]).outcome, Outcome::Done);
        assert_eq!(machine.result().unwrap().kind(), Kind::Number);
    }
}

/// Two threads count in one cell: what one adds between the other's read and its assignment is lost.
#[test]
fn cells_are_shared() {
    let count =
        |at: u16| [CELL, CELL, Read(at + 1), Number(1), Sum(at + 2, at + 3), Assign(at, at + 4)];
    let mut exprs = count(0).to_vec();
    exprs.push(Spawn(5));
    exprs.extend(count(7));
    exprs.push(Sum(6, 12));
    let mut machine = machine(&exprs);
    assert_eq!(machine.run([100; 8]).outcome, Outcome::Done);
    assert_eq!(machine.cells()[1].data(), 9);
}

#[test]
fn reading() {
    let place = job(0, &[]).len() as u32 - 1;
    let with = |bytes: &str| {
        let mut job = job(0, &[Number(1)]);
        job.pop();
        job.extend(from_hex(bytes).expect("hexadecimal digits"));
        job
    };
    refused(&with("42 0100 FF"), 6, place + 5);
    refused(&with("42 00"), 4, place + 5);
    refused(&with("42 0000 42 0000 FF"), 8, 0);
    refused(&with("42 0000 3003000000 FF"), 8, 1);
    refused(&with("43 0000 FF"), 2, place + 5);
    refused(&from_hex("42 0000").unwrap(), 3, 0);
    assert_eq!(read(&with("42 0000 FF")).unwrap().exprs[1], Spawn(0));
}

#[test]
fn a_thread_sees_what_is_bound_around_it() {
    // A variable of a function is not in scope in a thread beside it.
    let outside = [Number(1), Function(9, 0, 0), Variable(9), Spawn(2), Apply(1, 3)];
    refused(&job(0, &outside), 10, 2);
    let mut machine = machine(&[Variable(9), Spawn(0), Function(9, 0, 1), Number(4), Apply(2, 3)]);
    until(&mut machine, 1);
    assert_eq!(machine.entering(1), Some(0));
    assert_eq!(machine.step(), (Answer::Taken, 1));
    assert_eq!(machine.value(1).map(|value| value.data()), Some(4));
}
