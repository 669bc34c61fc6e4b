//! The sheet: one line for each host name of an accepted job.

use second::desk;
use second::generate::{example, job as generated};
use second::names::bits;
use second::sheet::{Row, rows, sheet};
use second::{check, from_hex, read};

/// A job from its sections; rights are a set.
fn job(before: &str, rights: u64, exprs: &str) -> Vec<u8> {
    let rights: String = rights.to_le_bytes().map(|byte| format!("{byte:02x}")).concat();
    from_hex(&format!("{before} 21 {rights} {exprs} FF")).expect("hexadecimal digits")
}

/// The sheet of an accepted job, its lines without their line ends.
fn lines(job: &[u8], expected: &[&str]) {
    assert!(check(job).is_ok(), "{:?}", check(job).err());
    let text: String = expected.iter().map(|line| format!("{line}\n")).collect();
    assert_eq!(sheet(job), text);
}

/// A number; no host value is needed for it.
const NUMBER: &str = "3005000000";

/// Host names 2 under 1, 3 under 2, 4 under 3, 5 under 4, 6 under 2, 7 under 1. Types: 0 number;
/// cells with the keys 1 to 5 (types 1 to 5); 6 limit key and 7 grant key of 2; 8 grant key of 2 with
/// key 7; 9 limit key of 4. A host value of each but the number; value n is of type n + 1.
const HOSTS: &str = "0101 0102 0103 0104 0102 0101
    1000 12010000 12020000 12030000 12040000 12050000 140002 150002 150702 140004
    200100 07000000 200200 07000000 200300 07000000 200400 07000000 200500 07000000
    200600 00000000 200700 00000000 200800 00000000 200900 00000000";

/// The sheet of a job with these host names and values: what is said of each of the six names.
fn uses(rights: u64, exprs: &str, said: [&str; 6]) {
    let fixed = [" 2  1", " 3  2", " 4  3", " 5  4", " 6  2", " 7  1"];
    let cells = ["  1", "  1", "  1", "  1", "  0", "  0"];
    let expected: Vec<String> =
        (0..6).map(|i| format!("{} {} {}", fixed[i], said[i], cells[i])).collect();
    let expected: Vec<&str> = expected.iter().map(String::as_str).collect();
    lines(&job(HOSTS, rights, exprs), &expected);
}

#[test]
fn the_printed_example() {
    assert_eq!(sheet(&example(4)), " 2  1 yes   1\n");
    assert_eq!(rows(&example(4)), Ok(vec![Row { name: 2, upper: 1, used: true, cells: 1 }]));
    assert_eq!(sheet(&example(0)), "refused 14 at 1\n");
    assert_eq!(rows(&example(0)).map_err(|refusal| (refusal.number, refusal.place)), Err((14, 1)));
}

#[test]
fn a_refused_job_has_the_desks_line() {
    assert_eq!(sheet(&[]), "refused 4 at 0\n");
    assert_eq!(sheet(&[0x01, 1, 0x77]), "refused 2 at 2\n");
    assert_eq!(sheet(&job("0101", 0, "31 31")), "refused 8 at 0\n");
    let mut longer = example(4);
    longer.extend([0; 20_000]);
    assert_eq!(sheet(&longer), "refused 7 at 30\n");
}

#[test]
fn no_host_name_no_line() {
    assert_eq!(sheet(&job("", 0, NUMBER)), "");
    assert_eq!(sheet(&job("", 2, NUMBER)), "");
    assert_eq!(sheet(&job("0201 0202", 2, NUMBER)), "");
    // With a cell of name 1 that is used.
    assert_eq!(sheet(&job("1000 12010000 200100 07000000", 2, "3200 390000")), "");
}

#[test]
fn one_host_name_one_line() {
    lines(&job("0101", 0, NUMBER), &[" 2  1 no    0"]);
    lines(&job("0101", 2, NUMBER), &[" 2  1 no    0"]);
    lines(&job("0101", 4, NUMBER), &[" 2  1 no    0"]);
}

#[test]
fn local_names_have_no_line() {
    // Local names first, between and last; a host name lies only under host names.
    let names = "0201 0101 0203 0103 0205 0101";
    lines(&job(names, 0, NUMBER), &[" 3  1 no    0", " 5  3 no    0", " 7  1 no    0"]);
    let names = "0101 0202 0202 0102 0201 0105 0206 0203";
    lines(&job(names, 0, NUMBER), &[" 2  1 no    0", " 5  2 no    0", " 7  5 no    0"]);
}

#[test]
fn names_of_one_digit_and_of_two() {
    // 2 to 7 under 1; 8 under 7; 9 under 8; 10 under 9; 11 under 10; 12 under 1; 13 under 12.
    let names = "0101 0101 0101 0101 0101 0101 0107 0108 0109 010A 0101 010C";
    #[rustfmt::skip]
    let expected = [
        " 2  1 no    0", " 3  1 no    0", " 4  1 no    0", " 5  1 no    0", " 6  1 no    0",
        " 7  1 no    0", " 8  7 no    0", " 9  8 no    0", "10  9 no    0", "11 10 no    0",
        "12  1 no    0", "13 12 no    0",
    ];
    lines(&job(names, 0, NUMBER), &expected);
}

#[test]
fn as_many_names_as_there_may_be() {
    let names: String = (1..63).map(|upper| format!("01{upper:02x}")).collect();
    // A cell of the last name is read.
    let sheet = sheet(&job(&format!("{names} 1000 123F0000 200100 07000000"), 2, "3200 390000"));
    let lines: Vec<&str> = sheet.lines().collect();
    assert_eq!((sheet.len(), lines.len()), (868, 62));
    assert_eq!(lines[0], " 2  1 no    0");
    assert_eq!(lines[8..10], ["10  9 no    0", "11 10 no    0"]);
    assert_eq!(lines[60..], ["62 61 no    0", "63 62 yes   1"]);
}

#[test]
fn below_a_name_of_the_effect() {
    let (yes, no) = ("yes", "no ");
    // Nothing is used.
    uses(0, NUMBER, [no; 6]);
    uses(2, NUMBER, [no; 6]);
    uses(4, NUMBER, [no; 6]);
    // Cells with the keys 5, 4, 3, 2 and 1 are read: that name and those below it.
    uses(2, "3204 390000", [no, no, no, yes, no, no]);
    uses(2, "3203 390000", [no, no, yes, yes, no, no]);
    uses(2, "3202 390000", [no, yes, yes, yes, no, no]);
    uses(2, "3201 390000", [yes, yes, yes, yes, yes, no]);
    uses(2, "3200 390000", [yes; 6]);
    // The rights make no difference.
    uses(0x8, "3202 390000", [no, yes, yes, yes, no, no]);
    uses(0x4, "3202 390000", [no, yes, yes, yes, no, no]);
    uses(0x84, "3202 390000", [no, yes, yes, yes, no, no]);
    // A grant key with key 7, used; and beside it a cell with key 4.
    uses(2, "3207 3005000000 3D00000100", [no, no, no, no, no, yes]);
    uses(2, "3207 3203 390100 3D00000200", [no, no, no, no, no, yes]);
    uses(2, "3207 3005000000 3D00000100 3203 390300 330200 0400", [no, no, yes, yes, no, yes]);
}

#[test]
fn a_grant_drops_what_it_grants() {
    let (yes, no) = ("yes", "no ");
    // A cell with key 3 under a grant of 2; one with key 1.
    uses(0, "3206 3202 390100 3D00000200", [no; 6]);
    uses(2, "3206 3200 390100 3D00000200", [yes; 6]);
    // The cell with key 4 is read besides.
    uses(2, "3206 3202 390100 3D00000200 3203 390400 330300 0500", [no, no, yes, yes, no, no]);
}

#[test]
fn a_look_drops_in_its_first_branch() {
    let (yes, no) = ("yes", "no ");
    // A look at 2: the cell with key 3 in the first branch, and in the second.
    uses(0, "3205 3202 390100 3005000000 40000002000300 0000", [no; 6]);
    uses(4, "3205 3202 390100 3005000000 40000002000300 0000", [no; 6]);
    let second = "3205 3202 390100 3005000000 40000003000200 0000";
    uses(2, second, [no, yes, yes, yes, no, no]);
    // A look at 4 drops nothing of 3.
    uses(2, "3208 3202 390100 3005000000 40000002000300 0000", [no, yes, yes, yes, no, no]);
}

#[test]
fn a_function_is_used_when_it_is_called() {
    let (yes, no) = ("yes", "no ");
    uses(0, "3202 390000 350900000100", [no; 6]);
    let called = "3202 390000 350900000100 3005000000 3602000300";
    uses(2, called, [no, yes, yes, yes, no, no]);
}

#[test]
fn a_limit_keeps_the_effect() {
    let (yes, no) = ("yes", "no ");
    uses(2, "3205 3203 390100 3C010000FFFFFFFFFFFF0200", [no, no, yes, yes, no, no]);
    uses(2, "31 3203 390100 3C010000FFFFFFFFFFFF0200", [no, no, yes, yes, no, no]);
}

#[test]
fn a_new_keys_name_is_raised() {
    // Host name 2 under 1, local name 3 under 2, host names 4 under 2 and 5 under 1; a number gets
    // the new key and is reckoned with.
    let hosts = "0101 0202 0102 0101 1000 140002 200100 00000000";
    let body = "3005000000 3201 340200 01 3F01000300 3005000000 3A0004000500";
    let exprs = format!("3200 {body} 3E01 03 0000 0600 0000");
    lines(&job(hosts, 4, &exprs), &[" 2  1 yes   0", " 4  2 yes   0", " 5  1 no    0"]);
}

/// Types: 0 number; cells with the keys 0 to 4 (types 1 to 5); limit and grant keys of 2 (6 and 7);
/// limit and grant keys of 1 with key 2 (8 and 9). Host names 2 under 1, 3 under 2, 4 under 3.
fn lent(values: &[u8]) -> Vec<u8> {
    let types = "0101 0102 0103 1000 12000000 12010000 12020000 12030000 12040000
        140002 150002 140201 150201";
    let values: String = values.iter().map(|ty| format!("20{ty:02x}00 00000000")).collect();
    job(&format!("{types} {values}"), 0, NUMBER)
}

#[test]
fn cells_count_for_their_own_key() {
    lines(&lent(&[]), &[" 2  1 no    0", " 3  2 no    0", " 4  3 no    0"]);
    lines(&lent(&[3]), &[" 2  1 no    1", " 3  2 no    0", " 4  3 no    0"]);
    lines(&lent(&[4]), &[" 2  1 no    0", " 3  2 no    1", " 4  3 no    0"]);
    lines(&lent(&[5]), &[" 2  1 no    0", " 3  2 no    0", " 4  3 no    1"]);
    lines(&lent(&[5, 4, 5, 3, 5]), &[" 2  1 no    1", " 3  2 no    1", " 4  3 no    3"]);
}

#[test]
fn cells_of_names_0_and_1_count_on_no_line() {
    lines(&lent(&[1]), &[" 2  1 no    0", " 3  2 no    0", " 4  3 no    0"]);
    lines(&lent(&[2]), &[" 2  1 no    0", " 3  2 no    0", " 4  3 no    0"]);
    lines(&lent(&[1, 3, 2, 1]), &[" 2  1 no    1", " 3  2 no    0", " 4  3 no    0"]);
}

#[test]
fn keys_do_not_count() {
    for key in 6..10 {
        lines(&lent(&[key]), &[" 2  1 no    0", " 3  2 no    0", " 4  3 no    0"]);
        lines(&lent(&[key, 3, key, 5]), &[" 2  1 no    1", " 3  2 no    0", " 4  3 no    1"]);
    }
}

#[test]
fn ten_cells_and_more() {
    let nine = lent(&[&[3; 9][..], &[4; 10], &[5; 11]].concat());
    lines(&nine, &[" 2  1 no    9", " 3  2 no   10", " 4  3 no   11"]);
    lines(&lent(&[4; 64]), &[" 2  1 no    0", " 3  2 no   64", " 4  3 no    0"]);
    let mixed = lent(&[&[1; 20][..], &[5; 24], &[9; 20]].concat());
    lines(&mixed, &[" 2  1 no    0", " 3  2 no    0", " 4  3 no   24"]);
}

#[test]
fn only_host_values_count() {
    // Two types of cells with key 2, and one host value of the first; a limit key of 2. The job makes
    // a cell that gets key 2, and a function that takes such a cell.
    let before = "0101 1000 12020000 12020000 140002 200100 07000000 200300 00000000";
    let exprs = "3005000000 3700000000 3201 3F01000200 3005000000 350201000400 3303000500";
    lines(&job(before, 0, exprs), &[" 2  1 no    1"]);
}

#[test]
fn lines_have_their_columns() {
    let mut accepted = 0;
    for seed in 1..5_000 {
        let (_, bytes) = generated(seed);
        let printed = sheet(&bytes);
        let Ok(verdict) = check(&bytes) else {
            assert_eq!(printed, desk(&bytes), "seed {seed}");
            continue;
        };
        accepted += 1;
        let names = read(&bytes).expect("a job that can be read").names;
        let host: Vec<u8> = bits(names.host()).collect();
        assert_eq!(printed.len(), 14 * host.len(), "seed {seed}");
        for (line, name) in printed.as_bytes().chunks(14).zip(host) {
            let text = |from: usize, to: usize| std::str::from_utf8(&line[from - 1..to]).unwrap();
            assert_eq!([line[2], line[5], line[9], line[13]], *b"   \n");
            assert_eq!(text(1, 2), format!("{name:2}"), "seed {seed}");
            assert_eq!(text(4, 5), format!("{:2}", names.upper(name)), "seed {seed}");
            let used = bits(verdict.effect).any(|above| names.below(name, above));
            assert_eq!(text(7, 9), if used { "yes" } else { "no " }, "seed {seed}");
            assert!(text(11, 13).trim_start().parse::<u8>().is_ok_and(|count| count <= 64));
        }
    }
    assert!(accepted > 2_000);
}
