//! The sheet of a job: columns, counts, refusals, and the sample jobs as they are recorded.

use std::fs;
use std::path::{Path, PathBuf};

use jobdesk::{Refusal, SHEET_BYTES, Tables, lent, sheet};

/// A job of some names, each a command and an upper name, and some host values: by a name's number a
/// cell with this key, by the first number past the names a limit key of the first declared name (of
/// the top where none is declared), which carries that name, and by the next one a grant key of it.
fn job(names: &[(u8, u8)], values: &[usize], rights: u64, expressions: &[u8]) -> Vec<u8> {
    let mut job: Vec<u8> = names.iter().flat_map(|&(command, upper)| [command, upper]).collect();
    job.extend([0x10, 0]);
    for key in 0..names.len() as u8 + 2 {
        job.extend([0x12, key, 0, 0]);
    }
    let first = if names.is_empty() { 1 } else { 2 };
    job.extend([0x14, first, first, 0x15, 0, first]);
    for &value in values {
        let number = (value < names.len() + 2) as u8;
        job.extend([0x20, value as u8 + 1, 0, number, 0, 0, 0]);
    }
    job.push(0x21);
    job.extend(rights.to_le_bytes());
    job.extend(expressions);
    job.push(0xFF);
    job
}

/// Reads variable `v`.
fn read(v: u8) -> [u8; 5] {
    [0x32, v, 0x39, 0, 0]
}

/// A depot (2) with a local name (3), two agencies (4 and 5) and one below the second (6), and a
/// workshop (7).
const TREE: [(u8, u8); 6] = [(1, 1), (2, 2), (1, 2), (1, 2), (1, 5), (1, 1)];

#[test]
fn a_line_for_each_host_name() {
    let values = [0, 1, 2, 4, 4, 6, 8, 9];
    // The depot's cell is read, and all but the workshop lies below the depot.
    let of_depot = sheet(&job(&TREE, &values, 1 << 2, &read(2)));
    let lines = " 2  1 yes   1\n 4  2 yes   2\n 5  2 yes   0\n 6  5 yes   1\n 7  1 no    0\n";
    assert_eq!((of_depot.text(), of_depot.refusal()), (lines, None));
    // An agency's cell is read; the rights lend more.
    let of_agency = sheet(&job(&TREE, &values, 1 << 2, &read(3)));
    let lines = " 2  1 no    1\n 4  2 yes   2\n 5  2 no    0\n 6  5 no    1\n 7  1 no    0\n";
    assert_eq!(of_agency.text(), lines);
    assert_eq!(of_agency.to_string(), lines);
    // The top's cell is read: everything is below the top.
    let of_top = sheet(&job(&TREE, &values, 1 << 1, &read(1)));
    assert!(of_top.text().lines().all(|line| &line[6..9] == "yes"));
}

#[test]
fn no_host_names() {
    let none = sheet(&job(&[], &[], 0, &[0x31]));
    assert_eq!((none.text(), none.refusal()), ("", None));
    let local = sheet(&job(&[(2, 1), (2, 2)], &[0, 1], 1 << 1, &read(1)));
    assert_eq!((local.text(), local.refusal()), ("", None));
}

#[test]
fn the_longest_sheet() {
    let names: Vec<(u8, u8)> = (1..63).map(|upper| (1, upper)).collect();
    // Each name is below the one before it; every cell is of the last one, and one is read.
    let text = sheet(&job(&names, &[63; 64], 1 << 41, &read(0)));
    assert_eq!((text.refusal(), text.text().len()), (None, SHEET_BYTES));
    let lines: Vec<&str> = text.text().lines().collect();
    assert_eq!((lines.len(), lines[0], lines[8]), (62, " 2  1 no    0", "10  9 no    0"));
    assert_eq!((lines[60], lines[61]), ("62 61 no    0", "63 62 yes  64"));
}

/// What a grant key opens is in no effect: `no ` is no promise.
#[test]
fn a_cell_that_a_grant_key_opens() {
    let expressions = [&[0x32, 0][..], &[0x32, 1], &[0x39, 1, 0], &[0x3D, 0, 0, 2, 0]].concat();
    let mut tables = Tables::new();
    let job = job(&[(1, 1)], &[4, 2], 0, &expressions);
    let session = tables.session(&job, &[jobdesk::Call::run_each(100)]).expect("an accepted job");
    assert_eq!(session.value.map(|value| value.data), Some(1));
    assert_eq!(sheet(&job).text(), " 2  1 no    1\n");
}

#[test]
fn refused() {
    let refused = sheet(&job(&TREE, &[7], 1 << 2, &read(0)));
    assert_eq!(refused.text(), "refused 14 at 1\n");
    assert_eq!(refused.refusal(), Some(Refusal { number: 14, place: 1 }));
    let long = sheet(&[&job(&[], &[], 0, &[0x31])[..], &[0; 20_000]].concat());
    assert_eq!(long.text(), "refused 7 at 27\n");
}

#[test]
fn lent_text() {
    let (tree, bare) = (job(&TREE, &[2], 1 << 2, &read(0)), job(&[], &[], 0, &[0x31]));
    for (job, number, told) in [(&tree[..], 0, [70, 0]), (&bare, 0, [0, 0]), (&[], 4, [15, 0])] {
        for length in [0, 14, SHEET_BYTES - 1] {
            let (mut text, mut out) = (vec![0xA5; length], [99; 2]);
            assert_eq!((lent::sheet(job, &mut text, &mut out), out), (1, [0, 0]));
            assert!(text.iter().all(|&byte| byte == 0xA5));
        }
        for length in [SHEET_BYTES, 2 * SHEET_BYTES] {
            let (mut text, mut out) = (vec![0xA5; length], [99; 2]);
            assert_eq!((lent::sheet(job, &mut text, &mut out), out), (number, told));
            assert_eq!(text[..told[0] as usize], *sheet(job).text().as_bytes());
            assert!(text[told[0] as usize..].iter().all(|&byte| byte == 0xA5));
        }
    }
}

/// The bytes of each sample job, and its file.
fn samples() -> Vec<(PathBuf, Vec<u8>)> {
    let list = |folder: &str| fs::read_dir(folder).expect("the examples");
    let all = list("../examples").chain(list("../examples/refused"));
    let paths = all.map(|entry| entry.expect("an entry").path());
    let files = paths.filter(|path| path.extension().is_some_and(|kind| kind == "hex"));
    files.map(|path| (path.clone(), bytes(&path))).collect()
}

/// The bytes of a hexadecimal file.
fn bytes(path: &Path) -> Vec<u8> {
    let text = fs::read_to_string(path).expect("a file");
    let lines = text.lines().map(|line| line.split('#').next().unwrap_or_default());
    let byte = |digits| u8::from_str_radix(digits, 16).expect("two digits");
    lines.flat_map(str::split_whitespace).map(byte).collect()
}

#[test]
fn sample_jobs() {
    let mut tables = Tables::new();
    let (mut accepted, mut refused) = (0, 0);
    for (path, job) in samples() {
        let sheet = sheet(&job);
        match tables.check(&job).err() {
            None => {
                accepted += 1;
                let recorded = fs::read_to_string(path.with_extension("sheet"));
                assert_eq!(Some(sheet.text()), recorded.ok().as_deref(), "{path:?}");
            }
            Some(Refusal { number, place }) => {
                refused += 1;
                assert_eq!(sheet.text(), format!("refused {number} at {place}\n"), "{path:?}");
            }
        }
        assert_eq!(sheet.refusal(), tables.check(&job).err(), "{path:?}");
    }
    assert!(accepted > 10 && refused > 12, "{accepted} accepted, {refused} refused");
}
