//! Mistakes in a text: each is told with line and column, several at once, and none ends in a
//! panic.

use jobtext::{assemble, dump};
use second::generate::{Rng, job, tower};

const START: &str = "host depot under top\ntype minutes = number\n\
                     type record = (cell @depot minutes)\nvalue monday : record = 480\nrights {depot}\n";

/// What is wrong with the start and one more text, as `line:column: words`.
fn mistakes(text: &str) -> Vec<String> {
    let whole = format!("{START}{text}\n");
    let shown = |problem: &jobtext::problem::Problem| {
        let span = problem.span;
        format!("{}:{}: {}", span.line, span.column, problem.words)
    };
    assemble(&whole).map_or_else(|problems| problems.iter().map(shown).collect(), |_| vec![])
}

#[test]
fn places() {
    let cases = [
        ("job (read mondy)", "6:11: no variable or expression is called `mondy`; is it `monday`?"),
        ("job (raed monday)", "6:6: no command is called `raed`; is it `read`?"),
        ("job (sum 1", "6:5: `(` is not closed by `)`"),
        ("job (sum 1 2]", "6:13: wanted `)` for the `(` at 6:5, found `]`"),
        ("job (sum 1)", "6:5: `sum` lacks its second number: (sum FIRST-NUMBER SECOND-NUMBER)"),
        ("job (read monday 1)", "6:18: too much for `read`: (read CELL)"),
        ("job 4294967296", "6:5: 4294967296 is above 4294967295"),
        (
            "job 1 2",
            "6:7: wanted the next statement (host, local, type, value, rights, let, job ..), found `2`",
        ),
        ("job 1\nlet x = 2", "7:5: `job` on line 6 is the last expression"),
        ("type minutes = number\njob 1", "6:6: `minutes` is declared already"),
        ("type sum = number\njob 1", "6:6: `sum` is a word of the language, no symbol"),
        ("type 9x = number\njob 1", "6:6: `9x` is no symbol: a symbol begins with a letter"),
        ("rights {}\njob 1", "6:1: a second `rights`; the first is on line 5"),
        (
            "jop 1",
            "6:1: wanted the next statement (host, local, type, value, rights, let, job ..), found `jop`; is it `job`?",
        ),
        ("job (pair x (function x :minutes x))", "6:11: no variable or expression is called `x`"),
        ("job (pair (function x :minutes x) x)", "6:35: `x` is not bound here"),
        ("job (limit monday 1)", "6:12: wanted the limit keys, as `[key ..]` or `[]`"),
        ("job (limit [1 2 3 4 5] 1)", "6:12: a limit has at most 4 keys"),
        ("job (test :minuts 1 2 3)", "6:12: no type is called `minuts`; is it `minutes`?"),
        (
            "job (if-enabled :minutes top-key 1)",
            "6:5: `if-enabled` lacks its branch if not enabled: \
             (if-enabled :TYPE LIMIT-KEY BRANCH-IF-ENABLED BRANCH-IF-NOT-ENABLED)",
        ),
        ("job (if-enable 1)", "6:6: no command is called `if-enable`; is it `if-enabled`?"),
        ("job (divide 7)", "6:5: `divide` lacks its divisor: (divide DIVIDEND DIVISOR)"),
        ("job (divide 7 2 1)", "6:17: too much for `divide`: (divide DIVIDEND DIVISOR)"),
        ("job (devide 7 2)", "6:6: no command is called `devide`; is it `divide`?"),
        ("job (spawn)", "6:5: `spawn` lacks its body: (spawn BODY)"),
        ("job (spawn 1 2)", "6:14: too much for `spawn`: (spawn BODY)"),
        ("job (span 1)", "6:6: no command is called `span`; is it `spawn`?"),
        ("job $", "6:5: `$` has no meaning here"),
        ("raw 1 GG", "6:5: `1` is not two hexadecimal digits"),
        ("end\njob 1", "7:1: only `raw` may follow `end` or `raw`"),
        ("variable x = 64\njob x", "6:14: variables are numbered from 0 to 63"),
        ("job monday_2", "6:5: no variable or expression is called `monday_2`; is it `monday`?"),
    ];
    for (text, wanted) in cases {
        let found = mistakes(text);
        assert!(found.iter().any(|problem| problem == wanted), "{text}\n{wanted}\n{found:#?}");
    }
}

/// What reading refuses is told where it stands in the text.
#[test]
fn conditions() {
    let cases = [
        (
            "host agency under depot\ntype f = (function minutes minutes {depot agency})\njob 1",
            "7:10: a set is not reduced: agency lies below depot; leave it out",
        ),
        (
            "local a under depot\nhost b under a\njob 1",
            "7:1: a host name lies under a, which is a local name",
        ),
        ("value x : minutes = 1\njob 1", "6:7: a host value is a cell, a limit key or a grant key"),
        ("value x : (grant-key depot) = 1\njob 1", "6:7: a key has no number, and 1 is given"),
        (
            "job (new-key k depot :minutes top-key 1)",
            "6:5: depot is no local name, so no key can be made for it",
        ),
        ("type k = (limit-key none)\njob 1", "6:10: name 0 (none) cannot stand here"),
    ];
    for (text, wanted) in cases {
        let found = mistakes(text);
        assert_eq!(found, [wanted], "{text}");
    }
}

#[test]
fn several_at_once() {
    let text = "type a = (cel minutes)\nvalue b : rec = 4\nlet c = (sum x y)\njob (read d)";
    let found = mistakes(text);
    let lines: Vec<&str> = found.iter().filter_map(|problem| problem.split(':').next()).collect();
    assert_eq!(lines, ["6", "7", "8", "8", "9"], "{found:#?}");
}

#[test]
fn nothing_at_all() {
    for text in ["", "#", "\n\n", "job", "job 1", "rights {}"] {
        assert!(assemble(text).is_err(), "{text}");
    }
}

#[test]
fn deep_texts() {
    let text = dump(&second::bytes_of(&tower(512))).0;
    assert_eq!(assemble(&text).map(|made| made.bytes).ok(), Some(second::bytes_of(&tower(512))));
    for open in ["(", "[", "{", "(sum ", "(read (", ":", "@", "job (pair "] {
        assert!(assemble(&format!("job {}", open.repeat(100_000))).is_err());
    }
}

/// Texts of generated jobs with letters and words taken out, doubled and changed.
#[test]
fn damaged_texts() {
    let mut rng = Rng::new(5);
    for seed in 0..1_500 {
        let (_, bytes) = job(seed);
        let text: Vec<char> = dump(&bytes).0.chars().take(3_000).collect();
        for _ in 0..4 {
            let mut other = text.clone();
            for _ in 0..1 + rng.below(4) {
                damage(&mut rng, &mut other);
            }
            let other: String = other.into_iter().collect();
            if let Err(problems) = assemble(&other) {
                assert!(!problems.is_empty());
                problems.iter().for_each(|problem| assert!(!problem.show("x", &other).is_empty()));
            }
        }
    }
}

fn damage(rng: &mut Rng, text: &mut Vec<char>) {
    const LETTERS: &[char] = &[
        '(', ')', '[', ']', '{', '}', '@', ':', '=', '#', ' ', '\n', '0', '9', 'a', '-', 'é',
        '\u{0}',
    ];
    let at = rng.below(text.len() + 1);
    let end = (at + rng.below(12)).min(text.len());
    match rng.below(4) {
        0 => drop(text.drain(at..end)),
        1 => {
            let part: Vec<char> = text[at..end].to_vec();
            let to = rng.below(text.len() + 1);
            text.splice(to..to, part);
        }
        2 => text.insert(at, rng.pick(LETTERS)),
        _ if at < text.len() => text[at] = rng.pick(LETTERS),
        _ => {}
    }
}
