//! `divide`: what `explain` says at and around it, its two entries in the type table, on generated
//! jobs too; and that what the guide says of shares is so.

use jobtext::decode::decode;
use jobtext::typing::work_out;
use jobtext::{assemble, dump, explain};
use second::generate::Rng;
use second::value::THREADS;
use second::{Kind, Machine, Outcome, Shape, Type};

const START: &str = "\
host depot under top
host payroll under depot
host roster under depot
type minutes = number
type shared = (pair minutes minutes)
value week : (cell @payroll minutes) = 1979
value shifts : (cell @roster minutes) = 7
value payroll-key : (limit-key payroll)
value roster-key : (limit-key roster)
";

/// The bytes of the start with some rights and a job.
fn bytes(rights: &str, job: &str) -> Vec<u8> {
    let text = format!("{START}rights {rights}\njob {job}\n");
    assemble(&text).unwrap_or_else(|problems| panic!("{text}\n{problems:?}")).bytes
}

/// Fails unless these lines stand in the verdict, in this order.
fn has_lines(rights: &str, job: &str, lines: &[&str]) {
    let text = format!("{START}rights {rights}\njob {job}\n");
    let made = assemble(&text).unwrap_or_else(|problems| panic!("{text}\n{problems:?}"));
    let said = explain(&made.bytes, Some(&made.symbols), true).text;
    let mut all = said.lines();
    for line in lines {
        assert!(all.any(|found| found == *line), "{job}\nno `{line}` in\n{said}");
    }
}

#[test]
fn refused_kinds() {
    let (dividend, divisor) = ("dividend: expression 0, week", "divisor: expression 1, shifts");
    let number = "wanted: a number";
    has_lines("{}", "(divide week 7)", &["refused 11 at 2", dividend, number]);
    has_lines("{}", "(divide 7 shifts)", &["refused 11 at 2", divisor, number]);
    // Of two, the first is told.
    has_lines("{}", "(divide week shifts)", &["refused 11 at 2", dividend, number]);
    let pair = "found:  (pair number number)";
    has_lines("{}", "(divide (divide 7 2) 2)", &["refused 11 at 4", number, pair]);
    has_lines("{}", "(sum 1 (divide 7 2))", &["refused 11 at 4", number, pair]);
}

/// Both numbers are touched, and what both operands use is used.
#[test]
fn effects_of_both() {
    let share = "(divide (read week) (read shifts))";
    has_lines("{payroll roster}", share, &["accepted 0000000000000018 pair"]);
    let of_week = "    touched in expression 1, (read week)";
    let of_shifts = "    touched in expression 3, (read shifts)";
    has_lines("{payroll}", share, &["refused 14 at 4", "found:  {payroll roster}", of_shifts]);
    has_lines("{roster}", share, &["refused 14 at 4", "found:  {payroll roster}", of_week]);
    let limited = format!("(limit [payroll-key] {share})");
    has_lines(
        "{depot}",
        &limited,
        &["refused 13 at 6", "    touched in expression 4, (read shifts)"],
    );
    for (share, name) in [
        ("(divide (associate 9 roster-key) 2)", "roster"),
        ("(divide 9 (associate 2 payroll-key))", "payroll"),
    ] {
        let touched = format!("    touched in expression 4, {share}");
        has_lines("{}", share, &["refused 14 at 4", &format!("found:  {{{name}}}"), &touched]);
    }
}

/// The parts have no key, whatever the numbers had.
#[test]
fn unkeyed_parts() {
    let share = "(divide (associate 9 roster-key) (associate 2 payroll-key))";
    has_lines(
        "{depot}",
        share,
        &["accepted 0000000000000018 pair", "gives:  (pair number number)"],
    );
    let kept = format!("(new-cell :shared {share})");
    has_lines("{depot}", &kept, &["gives:  (cell (pair number number))"]);
    has_lines("{depot}", &format!("(first {share})"), &["gives:  number"]);
    has_lines("{depot}", &format!("(second {share})"), &["gives:  number"]);
}

/// The number, then the pair, whose parts are both that number's entry.
#[test]
fn two_entries() {
    let job = bytes("{}", "(second (divide 7 2))");
    let listing = decode(&job);
    let typing = work_out(&listing.job, &listing.exprs());
    let declared = listing.job.types.len() as u16;
    let (number, quotient) = (Type::unkeyed(Shape::Number), declared + 2);
    let pair = Type::unkeyed(Shape::Pair(quotient, quotient));
    assert_eq!(typing.table[declared as usize..], [number, number, number, pair]);
    let entries: Vec<u16> = typing.typed.iter().map(|typed| typed.entry).collect();
    assert_eq!(entries, [declared, declared + 1, quotient + 1, quotient]);
}

/// An expression that gives a number, of some depth; now and then one of another kind.
fn number(rng: &mut Rng, depth: usize) -> String {
    let key = rng.pick(&["payroll-key", "roster-key", "top-key"]);
    let part = rng.pick(&["first", "second"]);
    if depth == 0 || rng.chance(20) {
        let leaf = rng.pick(&["0", "7", "1979", "4294967295", "(read week)", "(read shifts)"]);
        return if rng.chance(1) { "week".to_string() } else { leaf.to_string() };
    }
    let (a, b) = (number(rng, depth - 1), number(rng, depth - 1));
    match rng.below(12) {
        0 => format!("(sum {a} {b})"),
        1 => format!("(associate {a} {key})"),
        2 => format!("(limit [{key}] {a})"),
        3 => format!("(assign week {a})"),
        4 => format!("(apply (function s :shared (sum (first s) (second s))) (divide {a} {b}))"),
        5 => format!("({part} (read (new-cell :shared (divide {a} {b}))))"),
        6 if rng.chance(30) => format!("(divide {a} {b})"),
        _ => format!("({part} (divide {a} {b}))"),
    }
}

/// Verdict, text and type table of generated jobs; those that are accepted run without a failure.
#[test]
fn generated_jobs() {
    let mut seen = [0; 15];
    for seed in 0..4_000 {
        let mut rng = Rng::new(seed);
        let depth = 1 + rng.below(4);
        let job = number(&mut rng, depth);
        let rights = rng.pick(&["{}", "{payroll}", "{roster}", "{payroll roster}", "{depot}"]);
        let bytes = bytes(rights, &job);
        assert_eq!(assemble(&dump(&bytes).0).map(|made| made.bytes), Ok(bytes.clone()), "{job}");
        let said = explain(&bytes, None, true).text;
        let desk = second::desk(&bytes);
        assert_eq!(said.lines().next(), desk.lines().next(), "{job}");
        let accepted = match second::check(&bytes) {
            Ok(accepted) => accepted,
            Err(refusal) => {
                seen[refusal.number as usize] += 1;
                continue;
            }
        };
        seen[0] += 1;
        let listing = decode(&bytes);
        let typing = work_out(&listing.job, &listing.exprs());
        assert_eq!((typing.table, typing.typed), (accepted.types, accepted.exprs), "{job}");
        assert!(desk.contains("\ndone "), "{job}\n{desk}");
    }
    assert!([0, 11, 12, 13, 14].iter().all(|&number| seen[number] > 50), "{seen:?}");
}

/// The number that a job without records gives.
fn gives(job: &str) -> u32 {
    let mut machine = Machine::start(&bytes("{}", job)).expect("a job that starts");
    assert_eq!(machine.run([1_000; THREADS]).outcome, Outcome::Done, "{job}");
    let value = machine.result().expect("a value");
    assert!(value.is(Kind::Number) && value.key() == 0, "{job}");
    value.data()
}

/// No minute is lost; the parts of the guide, and the share that is rounded up.
#[test]
fn shares() {
    let some = [0, 1, 2, 3, 6, 7, 8, 1979, 65_535, 65_536, u32::MAX / 2, u32::MAX - 1, u32::MAX];
    let up = "(sum (first s) (test :minutes (second s) 1 0))";
    for (a, b) in some.into_iter().flat_map(|a| some.map(|b| (a, b))) {
        let share = gives(&format!("(first (divide {a} {b}))"));
        let rest = gives(&format!("(second (divide {a} {b}))"));
        assert_eq!(share as u64 * b as u64 + rest as u64, a as u64, "{a} over {b}");
        assert!(rest < b || (b, share) == (0, 0), "{a} over {b}");
        let rounded = gives(&format!("(apply (function s :shared {up}) (divide {a} {b}))"));
        assert_eq!(rounded, share + (rest > 0) as u32, "{a} over {b}");
    }
    let guide = std::fs::read_to_string("../docs/JOBS.md").expect("the guide");
    assert!(guide.contains(&format!("`{up}`")), "the guide rounds up in another way");
}

/// A job that divides 512 times, and then does more: a function of two divisions, and eight that
/// apply the one before twice.
fn dividing(more: &str) -> String {
    let last = format!("(sum (apply f8 7) {more})");
    (0..9).rev().fold(last, |rest, level: usize| {
        let does = match level.checked_sub(1) {
            None => "(sum (first (divide x 2)) (second (divide x 2)))".to_string(),
            Some(before) => format!("(sum (apply f{before} x) (apply f{before} x))"),
        };
        let rule = "(function minutes minutes {})";
        format!("(apply (function f{level} :{rule} {rest}) (function x :minutes {does}))")
    })
}

/// Each division that runs takes a pair: 512 have room, and one more has not.
#[test]
fn room() {
    let run = |more: &str| second::desk(&bytes("{}", &dividing(more)));
    assert!(run("0").contains("\ndone "), "{}", run("0"));
    assert!(run("(first (divide 7 2))").contains("\nno room "));
    assert!(run("(first (pair 7 2))").contains("\nno room "));
}
