//! `spawn`: what `explain` says at and around it, its entry in the type table, on generated jobs too;
//! that what is called closed is closed to threads; and that what the guide says of threads is so.

mod ends;

use ends::end_of_run;
use jobtext::decode::decode;
use jobtext::opens::{Open, Reach};
use jobtext::typing::work_out;
use jobtext::{assemble, dump, explain};
use second::desk::STEPS;
use second::generate::Rng;
use second::value::THREADS;
use second::{Answer, Job, Machine, Outcome, Run, Shape, Type};

const START: &str = "\
host depot under top
host north under depot
host south under depot
local slip under top
type minutes = number
type slot = (cell minutes)
type rule = (function minutes minutes {})
value north-1 : (cell @north minutes) = 480
value south-1 : (cell @south minutes) = 510
value depot-1 : (cell @depot minutes) = 9600
value kept : slot = 7
value north-key : (limit-key north)
value south-key : (limit-key south)
value depot-key : (limit-key depot)
value opens-north : (grant-key north)
";

/// The start with some rights and a job.
fn text(rights: &str, job: &str) -> String {
    format!("{START}rights {rights}\njob {job}\n")
}

/// The verdict in words. Its first line is the second implementation's.
fn said(rights: &str, job: &str) -> String {
    let text = text(rights, job);
    let made = assemble(&text).unwrap_or_else(|problems| panic!("{text}\n{problems:?}"));
    let said = explain(&made.bytes, Some(&made.symbols), true).text;
    assert_eq!(said.lines().next(), second::desk(&made.bytes).lines().next(), "{job}");
    said
}

/// Fails unless these lines stand in the verdict, in this order.
fn has_lines(rights: &str, job: &str, lines: &[&str]) {
    let said = said(rights, job);
    let mut all = said.lines();
    for line in lines {
        assert!(all.any(|found| found == *line), "{job}\nno `{line}` in\n{said}");
    }
}

/// The bytes of the start with some rights and a job.
fn bytes(rights: &str, job: &str) -> Vec<u8> {
    assemble(&text(rights, job)).unwrap_or_else(|problems| panic!("{job}\n{problems:?}")).bytes
}

const WANTED: &str = "wanted: an effect below {}, since a new thread has no key enabled";

#[test]
fn refused_effects() {
    has_lines(
        "{depot}",
        "(spawn (sum (read north-1) (read south-1)))",
        &[
            "refused 16 at 5",
            "A thread's body has an effect.",
            "expression 5, `spawn` (line 17, column 5):",
            "    (spawn (sum (read north-1) (read south-1)))",
            WANTED,
            "found:  {north south}",
            "not below: north under depot under top",
            "    touched in expression 1, (read north-1)",
            "not below: south under depot under top",
            "    touched in expression 3, (read south-1)",
        ],
    );
    // A grant that opens a part, and the key of a value that is touched.
    has_lines(
        "{depot}",
        "(spawn (grant opens-north (sum (read north-1) (read depot-1))))",
        &["refused 16 at 7", "found:  {depot}", "    touched in expression 4, (read depot-1)"],
    );
    has_lines(
        "{depot}",
        "(spawn (sum (associate 1 south-key) 2))",
        &["refused 16 at 5", "    touched in expression 4, (sum (associate 1 south-key) 2)"],
    );
    // A function's effect comes where it is applied.
    let reader = "(function x :minutes (read north-1))";
    has_lines(
        "{depot}",
        &format!("(spawn (apply {reader} 0))"),
        &["refused 16 at 5", WANTED, "    touched in expression 1, (read north-1)"],
    );
    has_lines("{}", &format!("(spawn {reader})"), &["accepted 0000000000000000 number"]);
    // A key of the job's own.
    let box_under = "(associate (new-cell :minutes 0) (first k))";
    has_lines(
        "{}",
        &format!("(new-key k slip :minutes top-key (spawn (read {box_under})))"),
        &["refused 16 at 7", "found:  {slip}", "not below: slip under top"],
    );
}

/// No key is handed on to a thread: not a right, not that of a grant around it. It opens a record by a
/// grant key inside, or uses what was read or put under another key for it.
#[test]
fn keys_from_inside() {
    has_lines("{north}", "(spawn (read north-1))", &["refused 16 at 2", "found:  {north}"]);
    let outside = "(grant opens-north (spawn (read north-1)))";
    has_lines("{north}", outside, &["refused 16 at 3", "found:  {north}"]);
    let asked = "(if-enabled :minutes north-key (spawn (read north-1)) 0)";
    has_lines("{north}", asked, &["refused 16 at 3", "found:  {north}"]);
    let inside = "(spawn (grant opens-north (read north-1)))";
    has_lines("{}", inside, &["accepted 0000000000000000 number", "effect: {}"]);
    let before = "(apply (function h :minutes (spawn (assign kept h))) (read north-1))";
    has_lines("{north}", before, &["accepted 0000000000000008 number"]);
    has_lines("{}", before, &["refused 14 at 7", "    touched in expression 6, (read north-1)"]);
    let handed = handed_over("north-1", "0");
    has_lines("{north}", &handed, &["accepted 0000000000000008 number"]);
    has_lines(
        "{}",
        &handed,
        &["refused 14 at 17", "    touched in expression 15, (associate north-1 (first k))"],
    );
    let mut machine = Machine::start(&bytes("{north}", &handed)).expect("a job that starts");
    assert_eq!(
        (machine.run([1_000; THREADS]).outcome, machine.cells()[3].data()),
        (Outcome::Done, 480)
    );
    // Nothing of a thread joins the effect, and what a limit shuts out it does not use.
    has_lines(
        "{south}",
        &format!("(limit [] {inside})"),
        &["accepted 0000000000000000 number", "    {} would be enough"],
    );
}

/// A job that puts a record under a key of its own and starts a thread that opens it; then more.
fn handed_over(cell: &str, more: &str) -> String {
    let thread = "(spawn (grant (second k) (assign kept (read r))))";
    format!(
        "(new-key k slip :minutes top-key (apply (function r :(cell @slip minutes) \
         (sum {thread} {more})) (associate {cell} (first k))))"
    )
}

/// The lowest expression decides; what is wrong inside comes first.
#[test]
fn in_order() {
    has_lines("{}", "(spawn (read 1))", &["refused 11 at 1"]);
    has_lines("{}", "(read (spawn (read north-1)))", &["refused 16 at 2"]);
    has_lines("{}", "(sum (read north-1) (spawn 1))", &["refused 14 at 4"]);
    has_lines("{}", "(spawn (limit [] (read north-1)))", &["refused 13 at 2"]);
    // It is a number without a key, whatever its body gives.
    has_lines("{}", "(read (spawn 1))", &["refused 11 at 2", "found:  number"]);
    for body in ["kept", "top-key", "(pair 1 2)", "(associate 1 south-key)", "(spawn 1)"] {
        let verdict = said("{}", &format!("(sum (spawn {body}) 1)"));
        assert!(verdict.starts_with("accepted 0000000000000000 number\n"), "{verdict}");
    }
}

#[test]
fn one_entry() {
    let job = bytes("{}", "(pair (spawn kept) 1)");
    let listing = decode(&job);
    let typing = work_out(&listing.job, &listing.exprs());
    let declared = listing.job.types.len() as u16;
    let number = Type::unkeyed(Shape::Number);
    let pair = Type::unkeyed(Shape::Pair(declared, declared + 1));
    assert_eq!(typing.table[declared as usize..], [number, number, pair]);
    let all: Vec<u16> = typing.typed.iter().map(|typed| typed.entry).collect();
    assert_eq!(all[1..], [declared, declared + 1, declared + 2]);
    assert!(typing.typed.iter().all(|typed| typed.effect == 0));
}

#[test]
fn threads_told() {
    let open = "(spawn (grant opens-north (assign kept (read north-1))))";
    has_lines(
        "{depot}",
        &format!("(sum {open} (spawn 1) (read south-1))"),
        &[
            "accepted 0000000000000010 number",
            "rights: {depot}",
            "    {south} would be enough",
            "threads: 2 places start one",
            "    expression 6 (line 17, column 10), (spawn (grant opens-north (assign kept (read ..))))",
            "    expression 8 (line 17, column 67), (spawn 1)",
            "    a new thread has no key enabled; grant keys lent open to it what is below north",
            "cells that the effect opens:",
            "    south-1 : (cell @south number)",
            "cells that a grant key lent to the job opens, beside the effect:",
            "    north-1 : (cell @north number)",
            "cells without a key, open to every job:",
            "    kept : (cell number)",
            "cells closed to the job:",
            "    depot-1 : (cell @depot number)",
        ],
    );
    let bare = "value r : (cell @top number) = 1\nrights {top}\njob (spawn 1)\n";
    let made = assemble(bare).expect("a text");
    let said = explain(&made.bytes, None, false).text;
    let lines = "threads: 1 place starts one\n    expression 1, (spawn 1)\n    \
                 a new thread has no key enabled, and no grant key is lent\n";
    assert!(said.contains(lines), "{said}");
    assert!(said.ends_with("cells closed to the job:\n    v0 : (cell @top number)\n"), "{said}");
    assert!(!explain(&bytes("{}", "1"), None, false).text.contains("thread"));
}

/// The rights enable nothing that a thread asks for. A function may run elsewhere, unless it is
/// applied where it is written.
#[test]
fn threads_that_ask() {
    let asks = "(if-enabled :minutes south-key (read south-1) 0)";
    let closed = "    `if-enabled` asks for south in a thread, where the rights enable nothing";
    let open = "    `if-enabled` asks for south, which the rights enable: \
                it may use south beside the effect";
    let south = "    south-1 : (cell @south number)";
    let (by_right, shut) = (
        "cells that the rights open by way of `if-enabled`, beside the effect:",
        "cells closed to the job:",
    );
    has_lines("{south}", &format!("(spawn {asks})"), &[closed, shut, south]);
    let bound = format!("(spawn (apply (function x :minutes {asks}) 0))");
    has_lines("{south}", &bound, &[closed, shut, south]);
    let handed = format!("(spawn (new-cell :rule (function x :minutes {asks})))");
    has_lines("{south}", &handed, &[open, by_right, south]);
    has_lines("{south}", &format!("(sum (spawn {asks}) {asks})"), &[closed, open, by_right, south]);
    let granted = "(spawn (if-enabled :minutes north-key (read north-1) 0))";
    let may = "which a grant key lent may enable: it may use north beside the effect";
    has_lines(
        "{depot}",
        granted,
        &[
            &format!("    `if-enabled` asks for north in a thread, {may}"),
            "cells that a grant key lent to the job opens, beside the effect:",
            "    north-1 : (cell @north number)",
        ],
    );
}

/// An expression that gives a number, of some depth; now and then a thread that needs a key.
fn number(rng: &mut Rng, depth: usize) -> String {
    let key = rng.pick(&["north-key", "south-key", "depot-key", "top-key"]);
    let cell = rng.pick(&["north-1", "south-1", "depot-1", "kept", "kept"]);
    if depth == 0 || rng.chance(15) {
        return if rng.chance(50) { "30".to_string() } else { format!("(read {cell})") };
    }
    let (a, b) = (number(rng, depth - 1), number(rng, depth - 1));
    match rng.below(15) {
        0 => format!("(sum {a} {b})"),
        1 => format!("(assign {cell} {a})"),
        2 => format!("(limit [{key}] {a})"),
        3 => format!("(apply (function x :minutes (sum x {a})) {b})"),
        4 => format!("(test :minutes {a} {b} (read {cell}))"),
        5 | 6 => format!("(if-enabled :minutes {key} {a} {b})"),
        7 | 8 => format!("(grant opens-north {a})"),
        9 => format!("(second (pair (spawn {a}) {b}))"),
        10 => format!("(spawn (assign kept (grant opens-north {a})))"),
        11 => format!("(sum (spawn (if-enabled :minutes {key} {a} 1)) {b})"),
        12 => format!("(apply (read (new-cell :rule (function x :minutes (spawn {a})))) {b})"),
        13 => handed_over(cell, &a),
        _ => format!("(spawn {a})"),
    }
}

/// Generated jobs; the bytes, and the tables.
fn jobs(count: u64) -> impl Iterator<Item = (Vec<u8>, Job)> {
    (0..count).map(|seed| {
        let mut rng = Rng::new(seed);
        let depth = 1 + rng.below(4);
        let job = number(&mut rng, depth);
        let rights = rng.pick(&["{}", "{north}", "{south}", "{north south}", "{depot}", "{top}"]);
        let bytes = bytes(rights, &job);
        let job = second::read(&bytes).expect("a job");
        (bytes, job)
    })
}

/// Verdict, text and type table of generated jobs; those that are accepted run without a failure.
#[test]
fn generated_jobs() {
    let mut seen = [0; 17];
    let mut most = 0;
    for (bytes, _) in jobs(4_000) {
        let text = dump(&bytes).0;
        assert_eq!(assemble(&text).map(|made| made.bytes), Ok(bytes.clone()), "{text}");
        let said = explain(&bytes, None, true).text;
        assert_eq!(said.lines().next(), second::desk(&bytes).lines().next(), "{text}");
        match second::check(&bytes) {
            Ok(accepted) => {
                seen[0] += 1;
                let listing = decode(&bytes);
                let typing = work_out(&listing.job, &listing.exprs());
                assert_eq!(
                    (typing.table, typing.typed),
                    (accepted.types, accepted.exprs),
                    "{text}"
                );
                let mut machine = Machine::start(&bytes).expect("a job that starts");
                let outcome = machine.run([STEPS; THREADS]).outcome;
                assert!(matches!(outcome, Outcome::Done | Outcome::NoRoom), "{outcome:?}\n{text}");
                most = most.max(machine.rooms().threads);
            }
            Err(refusal) => seen[refusal.number as usize] += 1,
        }
    }
    assert!([0, 13, 14, 16].iter().all(|&number| seen[number] > 50), "{seen:?}");
    assert!(most > 4, "at most {most} threads");
}

/// What a closed cell holds makes no difference, to no thread, although the rights may have its key;
/// what a grant key opens does now and then.
#[test]
fn closed_cells_are_closed() {
    let (mut closed, mut lent, mut granted) = (0, 0, 0);
    for (bytes, job) in jobs(4_000).filter(|(bytes, _)| second::check(bytes).is_ok()) {
        let exprs = decode(&bytes).exprs();
        if !exprs.iter().any(|expr| expr.row.word == "spawn") {
            continue;
        }
        let reach = Reach::new(&job, &exprs, &work_out(&job, &exprs));
        let of = |host: usize| job.types[job.hosts[host].ty as usize];
        let is_cell = |host: &usize| matches!(of(*host).shape, Shape::Cell(_));
        for (cell, host) in (0..job.hosts.len()).filter(is_cell).enumerate() {
            let mut other = job.clone();
            other.hosts[host].number ^= 1;
            let differs = || end_of_run(&job, 4_000, cell) != end_of_run(&other, 4_000, cell);
            match reach.open(of(host).key) {
                Open::Closed => {
                    assert!(!differs(), "{}", dump(&bytes).0);
                    closed += 1;
                    let asks = exprs.iter().any(|expr| expr.row.word == "if-enabled");
                    lent += (asks && job.names.set_below(1 << of(host).key, job.rights)) as usize;
                }
                Open::ByGrant => granted += differs() as usize,
                _ => {}
            }
        }
    }
    let counts = (closed, lent, granted);
    assert!(closed > 100 && lent > 50 && granted > 50, "{counts:?}");
}

/// The guide for writers of jobs.
fn guide() -> String {
    std::fs::read_to_string("../docs/JOBS.md").expect("the guide")
}

/// The guide's table of turns: who starts, reads and writes, in which round.
#[test]
fn turns() {
    let text = std::fs::read_to_string("../examples/turns.job").expect("the job");
    let bytes = assemble(&text).expect("a text").bytes;
    let exprs = decode(&bytes).exprs();
    let mut machine = Machine::start(&bytes).expect("a job that starts");
    let (mut round, mut rows) = (0, 0);
    while let Some(thread) = machine.turn() {
        round += (machine.due() == 0) as usize;
        let word = machine.waiting(thread).map(|expr| exprs[expr as usize].row.word);
        let reads = machine.entering(thread).is_none() && word == Some("read");
        let (threads, paid) = (machine.rooms().threads, machine.cells()[0].data());
        assert_eq!(machine.step(), (Answer::Taken, thread));
        let does = match (machine.rooms().threads, machine.cells()[0].data()) {
            (now, _) if now > threads => format!("starts thread {threads}"),
            (_, now) if now != paid => format!("writes {now}"),
            _ if reads => format!("reads {paid}"),
            _ => continue,
        };
        let (first, second) = if thread == 0 { (&*does, "") } else { ("", &*does) };
        let row = format!("| {round} | {first} | {second} |\n").replace("|  |", "| |");
        assert!(guide().contains(&row), "{row}");
        rows += 1;
    }
    assert_eq!((rows, machine.result().map(|value| value.data())), (5, Some(510)));
}

/// What a run of a job without rights comes to: outcome, steps of each thread, value; and the machine.
fn run(job: &str) -> (Outcome, [u64; THREADS], Option<u32>, Machine) {
    let mut machine = Machine::start(&bytes("{}", job)).expect("a job that starts");
    let Run { outcome, counts, .. } = machine.run([STEPS; THREADS]);
    let value = machine.result().map(|value| value.data());
    (outcome, counts, value, machine)
}

/// A job that waits until `kept` holds another number than 7, after it did something.
fn waiting(first: &str) -> String {
    let rule = "(function slot minutes {})";
    let differ = "(sum (difference 7 (read s)) (difference (read s) 7))";
    format!(
        "(apply (function wait :(cell {rule}) (second (pair \
         (assign wait (function s :slot (test :minutes {differ} (read s) (apply (read wait) s)))) \
         (sum {first} (apply (read wait) kept))))) (new-cell :{rule} (function s :slot 0)))"
    )
}

/// The guide's loop at a record that no thread sets, with so many tests more in each look: the steps
/// of thread 0 until there is no binding left.
fn waits_for_ever(tests: usize) -> u64 {
    let text = std::fs::read_to_string("../examples/four_drivers.job").expect("the job");
    let again = "(apply (read wait) s)";
    let test = "(test :minutes (difference 4294967295 (read s)) (read s) ";
    let more = format!("{}{again}{}", test.repeat(tests), ")".repeat(tests));
    let text = text.replace(again, &more).replace("(assign ann-sum ", "(assign bob-sum ");
    let bytes = assemble(&text).expect("a text").bytes;
    let mut machine = Machine::start(&bytes).expect("a job that starts");
    let Run { outcome, counts, .. } = machine.run([STEPS; THREADS]);
    assert_eq!((outcome, machine.rooms().bindings), (Outcome::NoRoom, 1_024));
    counts[0]
}

/// Thread 0 has what another has left, and each look at it takes a binding.
#[test]
fn waits() {
    let (outcome, _, value, _) = run(&waiting("(spawn (assign kept 9))"));
    assert_eq!((outcome, value), (Outcome::Done, Some(9)));
    let (plain, longer) = (waits_for_ever(0), waits_for_ever(1));
    let looks = (longer - plain) / 9;
    assert_eq!((longer - plain) % 9, 0, "{plain} and {longer}");
    assert!((950..1_024).contains(&looks) && plain / looks == 16, "{looks} looks, {plain} steps");
    for claim in
        ["after about a thousand looks, of 16 steps each", "each takes 9 steps and no binding"]
    {
        assert!(guide().contains(claim), "{claim}");
    }
}

/// Seven threads more have room, and the eighth has none, whether or not they are finished.
#[test]
fn the_ninth() {
    let starts = |count: usize| format!("(sum 0 {})", "(spawn 1) ".repeat(count));
    let (outcome, counts, value, machine) = run(&starts(7));
    assert_eq!((outcome, value, machine.rooms().threads), (Outcome::Done, Some(0), 8));
    assert!(counts[1..].iter().all(|&steps| steps == 1), "{counts:?}");
    let (outcome, _, _, machine) = run(&starts(8));
    assert_eq!((outcome, machine.rooms().threads, machine.live()), (Outcome::NoRoom, 8, 1));
    // A function that is applied eight times starts eight.
    let applied = "(apply f 0) ".repeat(8);
    let twice =
        format!("(apply (function f :rule (sum {applied})) (function x :minutes (spawn x)))");
    assert_eq!(run(&twice).0, Outcome::NoRoom);
}

/// The desk's second line for a job without rights.
fn ran_line(job: &str) -> String {
    let desk = second::desk(&bytes("{}", job));
    desk.lines().nth(1).expect("the line of a run").to_owned()
}

/// Thread 0 is finished after one step, and the job goes on; its value is thread 0's, and so are the
/// steps that are printed.
#[test]
fn thread_0_first() {
    let job = "(spawn (assign kept (sum 1 2 3)))";
    let (outcome, counts, value, machine) = run(job);
    assert_eq!((outcome, value, counts[0]), (Outcome::Done, Some(0), 1));
    assert!(counts[1] > 1, "{counts:?}");
    assert_eq!(machine.cells()[3].data(), 6);
    assert_eq!(ran_line(job), "done 1 number 0");
}

/// A thread has frames of its own, and one without room ends the run of all.
#[test]
fn room_of_a_thread() {
    let deep = |depth: usize| {
        format!("{}1{}", "(read (new-cell :minutes ".repeat(depth), "))".repeat(depth))
    };
    assert_eq!(run(&format!("(sum (spawn {}) {})", deep(120), deep(120))).0, Outcome::Done);
    let (outcome, _, value, machine) = run(&format!("(spawn {})", deep(129)));
    assert_eq!((outcome, value, machine.rooms().deepest), (Outcome::NoRoom, None, 256));
    // Bindings are shared. Thread 1 takes them all, and the job has no value, although thread 0 is
    // finished.
    let job = format!("(sum (spawn {}) 1)", waiting("0"));
    let (outcome, counts, value, _) = run(&job);
    assert_eq!((outcome, value), (Outcome::NoRoom, None));
    assert!(counts[0] < 10 && counts[1] > 10_000, "{counts:?}");
    assert_eq!(ran_line(&job), format!("no room {}", counts[1]));
}
