//! `if-enabled`: what `explain` says at and around it, on generated jobs too; and that what it calls
//! closed is closed.

mod ends;

use ends::end_of_run;
use jobtext::decode::decode;
use jobtext::opens::{Open, Reach};
use jobtext::typing::work_out;
use jobtext::{assemble, dump, explain};
use second::generate::Rng;
use second::{Job, Shape};

const START: &str = "\
host depot under top
host north under depot
host south under depot
type minutes = number
type record = (cell @north minutes)
value north-1 : record = 480
value south-1 : (cell @south minutes) = 510
value depot-1 : (cell @depot minutes) = 9600
value north-key : (limit-key north)
value south-key : (limit-key south)
value depot-key : (limit-key depot)
value closed-key : (limit-key @south north)
value north-opener : (grant-key north)
";

/// The verdict in words on the start with some rights and a job.
fn said(rights: &str, job: &str) -> String {
    let text = format!("{START}rights {rights}\njob {job}\n");
    let made = assemble(&text).unwrap_or_else(|problems| panic!("{text}\n{problems:?}"));
    explain(&made.bytes, Some(&made.symbols), false).text
}

/// Fails unless these lines stand in the verdict, in this order.
fn has_lines(rights: &str, job: &str, lines: &[&str]) {
    let said = said(rights, job);
    let mut all = said.lines();
    for line in lines {
        assert!(all.any(|found| found == *line), "{job}\nno `{line}` in\n{said}");
    }
}

#[test]
fn refused_kinds_and_types() {
    has_lines(
        "{}",
        "(if-enabled :minutes 1 2 3)",
        &["refused 11 at 3", "limit key: expression 0, 1", "wanted: a limit key", "found:  number"],
    );
    has_lines(
        "{}",
        "(if-enabled :minutes north-opener 2 3)",
        &["refused 11 at 3", "wanted: a limit key", "found:  (grant-key north)"],
    );
    has_lines(
        "{}",
        "(if-enabled :minutes north-key north-1 south-1)",
        &["refused 12 at 3", "branch if enabled: expression 1, north-1"],
    );
    has_lines(
        "{}",
        "(if-enabled :record north-key north-1 south-1)",
        &[
            "refused 12 at 3",
            "branch if not enabled: expression 2, south-1",
            "wanted: a subtype of (cell @north number)",
            "found:  (cell @south number)",
        ],
    );
}

/// A name comes from where it is not dropped.
#[test]
fn refused_effects() {
    let look = "(if-enabled :minutes north-key (read north-1) (read north-1))";
    let other = "    touched in expression 4, (read north-1)";
    has_lines("{}", look, &["refused 14 at 5", "found:  {north}", other]);
    has_lines("{depot}", &format!("(limit [] {look})"), &["refused 13 at 6", other]);
    has_lines(
        "{}",
        "(if-enabled :minutes north-key (sum (read north-1) (read south-1)) 0)",
        &["refused 14 at 7", "found:  {south}", "    touched in expression 4, (read south-1)"],
    );
    // The key's own key does not drop, and names above the key's name do not.
    has_lines(
        "{}",
        "(if-enabled :minutes closed-key (read north-1) 0)",
        &[
            "refused 14 at 4",
            "found:  {south}",
            "    touched in expression 4, (if-enabled :minutes closed-key (read north-1) 0)",
        ],
    );
    has_lines(
        "{}",
        "(if-enabled :minutes north-key (read depot-1) 0)",
        &["refused 14 at 4", "found:  {depot}", "    touched in expression 2, (read depot-1)"],
    );
}

/// The same of a grant, whose body comes last.
#[test]
fn a_grant_brings_no_name_of_its_body() {
    let text = "host depot under top\nvalue r : (cell @depot number) = 1\n\
                value g : (grant-key @depot depot)\nrights {}\njob (grant g (read r))\n";
    let made = assemble(text).expect("a text");
    let said = explain(&made.bytes, Some(&made.symbols), false).text;
    assert!(said.contains("touched in expression 3, (grant g (read r))"), "{said}");
}

#[test]
fn keys_asked_for() {
    let asks = "    `if-enabled` asks for south, which the rights enable";
    let south = "    south-1 : (cell @south number)";
    let by_grant = "cells that a grant key lent to the job opens, beside the effect:";
    let north = "    north-1 : (cell @north number)";
    let look = "(if-enabled :minutes south-key (read south-1) (read depot-1))";
    has_lines(
        "{top}",
        "(if-enabled :minutes south-key (read south-1) 0)",
        &[
            "accepted 0000000000000000 number",
            "    {} would be enough",
            &format!("{asks}: it may use south beside the effect"),
            "cells that the effect opens: none",
            "cells that the rights open by way of `if-enabled`, beside the effect:",
            south,
            by_grant,
            north,
            "cells closed to the job:",
            "    depot-1 : (cell @depot number)",
        ],
    );
    // What the branch uses is in the effect, so nothing more is open.
    has_lines("{depot}", look, &["rights: {depot}", asks, "cells that the effect opens:", south]);
    let look = "(if-enabled :minutes north-key (read north-1) 0)";
    let may = "which a grant key lent may enable: it may use north beside the effect";
    let line = format!("    `if-enabled` asks for north, {may}");
    has_lines("{}", look, &[&line, by_grant, north]);
}

#[test]
fn keys_not_lent() {
    let text = "host depot under top\nhost gate under depot\nvalue r : (cell @gate number) = 1\n\
                value k : (limit-key depot)\nrights {gate}\n\
                job (if-enabled :(number) k (read r) 0)\n";
    let made = assemble(text).expect("a text");
    let said = explain(&made.bytes, Some(&made.symbols), false).text;
    let asks = "`if-enabled` asks for depot, which the rights do not enable: it would use gate";
    assert!(said.contains(asks), "{said}");
    assert!(said.contains("cells closed to the job:\n    r : "), "{said}");
}

/// An expression that gives a number, of some depth.
fn number(rng: &mut Rng, depth: usize) -> String {
    let key = rng.pick(&["north-key", "south-key", "depot-key", "top-key", "closed-key"]);
    let cell = rng.pick(&["north-1", "south-1", "depot-1"]);
    if depth == 0 || rng.chance(30) {
        return if rng.chance(30) { "30".to_string() } else { format!("(read {cell})") };
    }
    let (a, b) = (number(rng, depth - 1), number(rng, depth - 1));
    match rng.below(10) {
        0 => format!("(sum {a} {b})"),
        1 => format!("(assign {cell} {a})"),
        2 => format!("(limit [{key}] {a})"),
        3 => format!("(apply (function x :minutes (sum x {a})) {b})"),
        4 if rng.chance(30) => format!("(grant north-opener {a})"),
        _ => format!("(if-enabled :minutes {key} {a} {b})"),
    }
}

/// Generated jobs; the bytes, and the tables.
fn jobs(count: u64) -> impl Iterator<Item = (Vec<u8>, Job)> {
    (0..count).map(|seed| {
        let mut rng = Rng::new(seed);
        let depth = 1 + rng.below(4);
        let job = number(&mut rng, depth);
        let rights = rng.pick(&["", "north", "south", "north south", "depot", "top"]);
        let made = assemble(&format!("{START}rights {{{rights}}}\njob {job}\n")).expect("a text");
        let job = second::read(&made.bytes).expect("a job");
        (made.bytes, job)
    })
}

#[test]
fn generated_jobs() {
    let mut seen = [0; 15];
    for (bytes, job) in jobs(4_000) {
        let verdict = second::check(&bytes);
        let first = match &verdict {
            Ok(it) => format!("accepted {:016x} {}", it.effect, it.kind.word()),
            Err(refusal) => format!("refused {} at {}", refusal.number, refusal.place),
        };
        assert_eq!(explain(&bytes, None, true).text.lines().next(), Some(&*first), "{job:?}");
        assert_eq!(assemble(&dump(&bytes).0).map(|made| made.bytes), Ok(bytes), "{job:?}");
        seen[verdict.err().map_or(0, |refusal| refusal.number) as usize] += 1;
    }
    assert!([0, 13, 14].iter().all(|&number| seen[number] > 100), "{seen:?}");
}

/// What a closed cell holds makes no difference; what an asked one holds does now and then.
#[test]
fn closed_cells_are_closed() {
    let (mut closed, mut asked) = (0, 0);
    for (bytes, job) in jobs(4_000).filter(|(bytes, _)| second::check(bytes).is_ok()) {
        let exprs = decode(&bytes).exprs();
        let reach = Reach::new(&job, &exprs, &work_out(&job, &exprs));
        let of = |host: usize| job.types[job.hosts[host].ty as usize];
        let is_cell = |host: &usize| matches!(of(*host).shape, Shape::Cell(_));
        for (cell, host) in (0..job.hosts.len()).filter(is_cell).enumerate() {
            let mut other = job.clone();
            other.hosts[host].number ^= 1;
            let differs = || end_of_run(&job, 2_000, cell) != end_of_run(&other, 2_000, cell);
            match reach.open(of(host).key) {
                Open::Closed => {
                    assert!(!differs(), "{}", dump(&bytes).0);
                    closed += 1;
                }
                Open::ByAsking => asked += differs() as usize,
                _ => {}
            }
        }
    }
    assert!(closed > 100 && asked > 10, "{closed} closed, {asked} asked for");
}
