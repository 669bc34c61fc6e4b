//! `sheet` gives the lines of the second implementation, each with its name's symbol.

use jobtext::assemble;
use jobtext::sheet::sheet;
use second::generate::job;

const SEEDS: u64 = 4_000;

/// Fails unless the sheet is the second implementation's, with symbols that a dump has too.
fn holds(bytes: &[u8]) -> usize {
    let (text, accepted) = sheet(bytes, None);
    let (plain, hex) = (second::sheet(bytes), second::to_hex(bytes));
    assert_eq!(accepted, second::check(bytes).is_ok(), "{hex}");
    if !accepted {
        assert_eq!(text, plain, "{hex}");
        return 0;
    }
    assert_eq!(text.lines().count(), plain.lines().count(), "{hex}");
    let dumped = jobtext::dump(bytes).0;
    for (line, wanted) in text.lines().zip(plain.lines()) {
        let symbol = line.strip_prefix(wanted).and_then(|rest| rest.strip_prefix("  "));
        let declared = format!("host {} under ", symbol.expect("a symbol behind two blanks"));
        assert_eq!(dumped.matches(&declared).count(), 1, "{hex}");
    }
    // The dump is a text with the same symbols.
    let made = assemble(&dumped).expect("the dump is a text");
    assert_eq!(sheet(&made.bytes, Some(&made.symbols)), (text, true), "{hex}");
    plain.lines().count()
}

#[test]
fn generated_jobs() {
    let lines: Vec<usize> = (200_000..200_000 + SEEDS).map(|seed| holds(&job(seed).1)).collect();
    let with = lines.iter().filter(|&&lines| lines > 1).count();
    assert!(with > SEEDS as usize / 10, "only {with} sheets have more than one line");
}

#[test]
fn symbols_of_the_text() {
    let text = "host depot under top\nlocal slip under depot\nhost north-1 under depot\n\
                value n : (cell @north-1 number) = 3\nrights {depot}\njob (read n)\n";
    let made = assemble(text).expect("a text");
    let lines = " 2  1 no    0  depot\n 4  2 yes   1  north-1\n";
    assert_eq!(sheet(&made.bytes, Some(&made.symbols)), (lines.to_string(), true));
    let plain = " 2  1 no    0  host2\n 4  2 yes   1  host4\n";
    assert_eq!(sheet(&made.bytes, None), (plain.to_string(), true));
}
