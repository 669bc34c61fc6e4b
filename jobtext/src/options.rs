//! The words of the command line.

/// What `--help` prints.
pub const HELP: &str = "\
jobtext: jobs as text

  jobtext asm [--hex] [--force] [-o FILE] [FILE]       text to bytes
  jobtext dump [--hex] [--force] [-o FILE] [FILE]      bytes to text
  jobtext explain [--hex | --text] [--all] [--force] [-o FILE] [FILE]
                                                       the verdict in words
  jobtext sheet [--hex | --text] [--force] [-o FILE] [FILE]
                                                       a line for each host name, with its symbol

Without FILE, or with -, the input is standard input. The output goes to standard output, or with
-o to a file.

  --hex     the bytes are hexadecimal text, two digits each, with comments from # on
  --text    explain, sheet: the input is text; its own symbols and lines are shown
  --all     explain: the type and effect of each expression too
  --force   bytes may go to a terminal, or come from one
  --help    this page

Status: 0 done (explain, sheet: accepted); 1 the text has mistakes, the bytes do not read whole, or
the job is refused; 2 wrong words on the command line; 3 a file cannot be read or written.
The text form is described in docs/JOBS.md.
";

/// What is to be done.
#[derive(Clone, Copy, Debug, PartialEq, Eq)]
pub enum Action {
    Asm,
    Dump,
    Explain,
    Sheet,
    Help,
}

/// The command line.
#[derive(Clone, Debug)]
pub struct Options {
    pub action: Action,
    pub input: Option<String>,
    pub output: Option<String>,
    pub hex: bool,
    pub text: bool,
    pub all: bool,
    pub force: bool,
}

/// Reads the command line, or says what is wrong with it.
pub fn options(words: &[String]) -> Result<Options, String> {
    let mut options = Options {
        action: action(words)?,
        input: None,
        output: None,
        hex: false,
        text: false,
        all: false,
        force: false,
    };
    if options.action == Action::Help {
        return Ok(options);
    }
    let mut files = Vec::new();
    let mut rest = words[1..].iter();
    while let Some(word) = rest.next() {
        match (word.as_str(), options.action) {
            ("--hex", _) => options.hex = true,
            ("--force", _) => options.force = true,
            ("--text", Action::Explain | Action::Sheet) => options.text = true,
            ("--all", Action::Explain) => options.all = true,
            ("-o", _) => options.output = Some(rest.next().ok_or("-o needs a FILE")?.clone()),
            (other, _) if other.starts_with('-') && other != "-" => {
                return Err(format!("{} has no option `{other}`", words[0]));
            }
            _ => files.push(word),
        }
    }
    if files.len() > 1 {
        return Err("there is more than one FILE".to_string());
    }
    if options.hex && options.text {
        return Err("--hex and --text are not taken together".to_string());
    }
    options.input = files.first().filter(|&&file| file != "-").map(|&file| file.clone());
    Ok(options)
}

fn action(words: &[String]) -> Result<Action, String> {
    match words.first().map(String::as_str) {
        _ if words.iter().any(|word| word == "--help" || word == "-h") => Ok(Action::Help),
        Some("asm") => Ok(Action::Asm),
        Some("dump") => Ok(Action::Dump),
        Some("explain") => Ok(Action::Explain),
        Some("sheet") => Ok(Action::Sheet),
        Some("help") => Ok(Action::Help),
        Some(other) => Err(format!("`{other}` is none of asm, dump, explain and sheet")),
        None => Err("asm, dump, explain or sheet is wanted".to_string()),
    }
}
