//! Makes the faulty parts: for each fault of `edits/`, copies of the files of the second
//! implementation that it changes, with the change made.

use std::collections::BTreeMap;
use std::fmt::Write;
use std::path::{Path, PathBuf};
use std::{env, fs};

/// The files of edits, each named after the file that its edits change unless they say another.
const PARTS: [&str; 9] =
    ["widths", "read", "tree", "check", "thread", "machine", "desk", "write", "sheet"];

/// What makes of the reader one that is given the widths, for the faults that are in these alone.
/// What a width leaves out of the operands is zeros.
const GIVEN: [[&str; 2]; 8] = [
    ["use crate::widths::{NO, WIDTHS};", "use crate::widths::NO;"],
    ["pub fn command(byte: u8)", "pub fn command(widths: &[u8; 256], byte: u8)"],
    ["WIDTHS[byte as usize]", "widths[byte as usize]"],
    ["pub fn width(byte: u8)", "pub fn width(widths: &[u8; 256], byte: u8)"],
    ["command(byte).map(", "command(widths, byte).map("],
    ["pub fn read(bytes: &[u8])", "pub fn read(widths: &[u8; 256], bytes: &[u8])"],
    ["command(byte) else", "command(widths, byte) else"],
    [
        r#"self.0.split_first_chunk().expect("operands of fixed width");"#,
        r#"(
            &[self.0, &[0; N]].concat()[..N].try_into().expect("operands of fixed width"),
            self.0.get(N..).unwrap_or_default(),
        );"#,
    ],
];

/// The reader of faulty widths.
const READ: &str = "
    pub mod read {
        pub fn read(bytes: &[u8]) -> Result<second::Job, second::Refusal> {
            crate::given::read::read(&super::widths::WIDTHS, bytes)
        }
    }
";

/// A text to be put in place of another.
#[derive(Default)]
struct Change {
    file: String,
    old: String,
    new: String,
}

struct Fault {
    number: u32,
    text: String,
    /// Whether it tells only where a field holds more than the proved code's words have room for.
    wide: bool,
    changes: Vec<Change>,
}

fn main() {
    let package = PathBuf::from(env::var_os("CARGO_MANIFEST_DIR").expect("cargo gives a folder"));
    let out = PathBuf::from(env::var_os("OUT_DIR").expect("cargo gives a folder"));
    let (sources, edits) = (package.join("../src"), package.join("edits"));
    println!("cargo:rerun-if-changed={}", edits.display());
    println!("cargo:rerun-if-changed={}", sources.display());
    let mut faults: Vec<Fault> = Vec::new();
    for part in PARTS {
        faults.extend(parse(part, &text_of(&edits.join(part).with_extension("edits"))));
    }
    faults.sort_by_key(|fault| fault.number);
    let (mut modules, mut list) = (String::new(), String::new());
    let mut given = BTreeMap::new();
    for [old, new] in GIVEN {
        edit(&mut given, "the given widths", &sources, ["read.rs", old, new]);
    }
    write_modules("given", &given, &out, &mut modules);
    for fault in &faults {
        let made = edited(fault, &sources);
        write_modules(&format!("fault_{}", fault.number), &made, &out, &mut modules);
        write_entry(fault, &made, &mut list);
    }
    let count = faults.len();
    let all = format!("{modules}\nstatic LIST: [Fault; {count}] = [\n{list}];\n");
    fs::write(out.join("all.rs"), all).expect("all.rs is written");
}

fn text_of(path: &Path) -> String {
    fs::read_to_string(path).unwrap_or_else(|error| panic!("{}: {error}", path.display()))
}

/// The faults of a file of edits. A line `fault N: TEXT` begins one; of one that tells only in fields
/// wider than a word's the text begins with `(wide)`. The texts of `old:` lines that
/// follow each other are lines of one text, and so are those of `new:` lines.
fn parse(part: &str, edits: &str) -> Vec<Fault> {
    let mut faults: Vec<Fault> = Vec::new();
    let (mut file, mut last) = (String::new(), "");
    for line in edits.lines().filter(|line| !line.is_empty()) {
        let (word, rest) = line.split_once(':').unwrap_or_else(|| panic!("{part}: {line}"));
        let rest = rest.strip_prefix(' ').unwrap_or(rest);
        if let Some(number) = word.strip_prefix("fault ") {
            let number = number.parse().unwrap_or_else(|_| panic!("{part}: {line}"));
            let wide = rest.starts_with("(wide) ");
            faults.push(Fault { number, text: rest.to_string(), wide, changes: Vec::new() });
            file = format!("{part}.rs");
        } else {
            let changes = &mut faults.last_mut().expect("a fault before its edits").changes;
            match word {
                "file" => file = rest.to_string(),
                "old" if last == "old" => {
                    add_line(&mut changes.last_mut().expect("an old").old, rest)
                }
                "old" => changes.push(Change {
                    file: file.clone(),
                    old: rest.to_string(),
                    ..Change::default()
                }),
                "new" if last == "new" => {
                    add_line(&mut changes.last_mut().expect("an old").new, rest)
                }
                "new" if last == "old" => {
                    changes.last_mut().expect("an old").new = rest.to_string()
                }
                _ => panic!("{part}: {line}"),
            }
        }
        last = word;
    }
    faults
}

fn add_line(text: &mut String, line: &str) {
    text.push('\n');
    text.push_str(line);
}

/// The files that a fault changes, as they are with it, by their names without `.rs`.
fn edited(fault: &Fault, sources: &Path) -> BTreeMap<String, String> {
    let who = format!("fault {}", fault.number);
    let mut made = BTreeMap::new();
    for Change { file, old, new } in &fault.changes {
        edit(&mut made, &who, sources, [file, old, new]);
    }
    if made.contains_key("thread") {
        // The machine has threads, and must have these.
        let uses = ["machine.rs", "use crate::thread::", "use super::thread::"];
        edit(&mut made, &who, sources, uses);
    }
    if made.contains_key("widths") && made.contains_key("read") {
        // The reader looks up widths, and must look up these.
        let uses = ["read.rs", "use crate::widths::", "use super::widths::"];
        edit(&mut made, &who, sources, uses);
    }
    made
}

/// Puts a text in place of another that stands once in a file.
fn edit(
    made: &mut BTreeMap<String, String>,
    who: &str,
    sources: &Path,
    [file, old, new]: [&str; 3],
) {
    let name = file.strip_suffix(".rs").expect("a file of Rust").to_string();
    let text = made.entry(name).or_insert_with(|| text_of(&sources.join(file)));
    let found = text.matches(old).count();
    assert_eq!(found, 1, "{who}: this is not in {file} once:\n{old}");
    *text = text.replacen(old, new, 1);
}

/// Writes the files, and declares them as modules of one.
fn write_modules(module: &str, made: &BTreeMap<String, String>, out: &Path, modules: &mut String) {
    writeln!(modules, "#[allow(unused, missing_docs, clippy::all)]\nmod {module} {{").unwrap();
    for (name, text) in made {
        let path = out.join(format!("{name}_{module}.rs"));
        fs::write(&path, text.replace("crate::", "second::")).expect("a faulty part is written");
        writeln!(modules, "    #[path = {path:?}]\n    pub mod {name};").unwrap();
    }
    if made.contains_key("widths") && !made.contains_key("read") {
        modules.push_str(READ);
    }
    modules.push_str("}\n");
}

/// The entry of a fault in the list.
fn write_entry(fault: &Fault, made: &BTreeMap<String, String>, list: &mut String) {
    let Fault { number, text, wide, .. } = fault;
    let told = if made.contains_key("widths") {
        "Sweep"
    } else if made.contains_key("write") {
        "Tables"
    } else if made.contains_key("sheet") {
        "Sheets"
    } else if made.contains_key("desk") {
        "Lines"
    } else {
        "Jobs"
    };
    write!(
        list,
        "    Fault {{ number: {number}, text: {text:?}, told: Told::{told}, wide: {wide}, "
    )
    .unwrap();
    list.push_str("parts: Parts { ");
    let parts = [
        ("read", "read"),
        ("tree", "tree"),
        ("check", "check_job"),
        ("machine", "runs"),
        ("desk", "desk"),
        ("write", "write"),
        ("sheet", "sheet"),
    ];
    for (name, function) in parts {
        let part = if name == "machine" { "run" } else { name };
        if made.contains_key(name) || name == "read" && made.contains_key("widths") {
            write!(list, "{part}: fault_{number}::{name}::{function}, ").unwrap();
        }
    }
    list.push_str("..Parts::OWN } },\n");
}
