//! Runs the programs `grounds` and `load` and compares what they write to standard
//! output and to standard error with what the reference says. What `load` writes is
//! piped into the program `panel` too, whose text must be the reference's.
//!
//! programs <grounds> <load> <panel> <file>..
//!
//! `grounds` is asked for every fact of the files, and for some numbers past them; of
//! files made on purpose; with words that name no fact; and with input that comes
//! in pieces, is too long, or cannot be read. `load` is asked for counts at their limits
//! and past them, and with words that are no three numbers.

#[path = "../draft.rs"]
mod draft;
#[path = "../large.rs"]
mod large;

use draft::{Draft, MOST_OWN_ITEMS, chain, stairs};
use reference::{grounds_text, load_output, numbers_in_words};
use std::ffi::OsStr;
use std::fs::File;
use std::io::{ErrorKind, Write};
use std::os::fd::OwnedFd;
use std::os::unix::ffi::OsStrExt;
use std::os::unix::net::UnixStream;
use std::process::{Command, ExitCode, Output, Stdio};
use std::thread::sleep;
use std::time::Duration;

/// The longest file that question 1 lets pass. One of that length is within the cap only
/// with unread facts.
const LONGEST: usize = 32_767;
/// Between two pieces of input, so that a read ends with the first.
const PAUSE: Duration = Duration::from_millis(20);

/// What a program is to write to standard output and to standard error.
struct Written {
    output: Vec<u8>,
    said: Said,
}

/// What stands on standard error.
enum Said {
    Nothing,
    /// One line that says which words the program takes.
    Usage,
    /// The line of a refusal.
    Line(String),
}

impl Written {
    fn output(output: Vec<u8>) -> Written {
        Written { output, said: Said::Nothing }
    }

    fn said(said: Said) -> Written {
        Written { output: vec![], said }
    }
}

/// A program under comparison.
struct Program<'p> {
    path: &'p str,
    /// How its line of usage begins.
    usage: &'static str,
    /// What it is to write, by its words and its input.
    expected: fn(&[&[u8]], &Input) -> Written,
}

fn grounds(path: &str) -> Program<'_> {
    let expected = |words: &[&[u8]], input: &Input| match (numbers_in_words(words), input.bytes()) {
        (None, _) => Written::said(Said::Usage),
        (Some([_]), None) => Written::output(vec![]),
        (Some([fact]), Some(file)) => Written::output(grounds_text(&file, fact).into_bytes()),
    };
    Program { path, usage: "usage: grounds FACT", expected }
}

/// The load reads no input.
fn load(path: &str) -> Program<'_> {
    let expected = |words: &[&[u8]], _: &Input| match loaded(words) {
        None => Written::said(Said::Usage),
        Some(Ok(file)) => Written::output(file),
        Some(Err(line)) => Written::said(Said::Line(line)),
    };
    Program { path, usage: "usage: load START FACTS RULES", expected }
}

/// The file of a load, or the line of its refusal, if the words are its numbers.
fn loaded(words: &[&[u8]]) -> Option<Result<Vec<u8>, String>> {
    let [start, facts, rules] = numbers_in_words(words)?;
    Some(load_output(start, facts, rules))
}

/// What stands behind the program's standard input.
#[derive(Clone)]
enum Input {
    /// A pipe into which these come one after another.
    Pieces(Vec<Vec<u8>>),
    /// A socket from which these can be read, but not that they end.
    Broken(Vec<u8>),
    /// A directory, which cannot be read.
    Directory,
    Closed,
}

impl Input {
    fn whole(bytes: &[u8]) -> Input {
        Input::Pieces(vec![bytes.to_vec()])
    }

    /// The bytes in pieces of this length.
    fn in_pieces(bytes: &[u8], length: usize) -> Input {
        Input::Pieces(bytes.chunks(length).map(<[u8]>::to_vec).collect())
    }

    /// What the program can read to the end.
    fn bytes(&self) -> Option<Vec<u8>> {
        match self {
            Input::Pieces(pieces) => Some(pieces.concat()),
            Input::Broken(_) | Input::Directory | Input::Closed => None,
        }
    }
}

/// One call of the program.
struct Trial {
    name: String,
    words: Vec<Vec<u8>>,
    input: Input,
}

impl Trial {
    fn new(name: String, words: &[&str], input: Input) -> Trial {
        let words = words.iter().map(|word| word.as_bytes().to_vec()).collect();
        Trial { name, words, input }
    }

    fn words(&self) -> Vec<&[u8]> {
        self.words.iter().map(Vec::as_slice).collect()
    }

    fn passes(&self, program: &Program) -> Result<(), String> {
        let output = self.call(program.path).map_err(|error| format!("{}: {error}", self.name))?;
        let expected = (program.expected)(&self.words(), &self.input);
        let said = String::from_utf8_lossy(&output.stderr);
        let one_line = said.find('\n') == Some(said.len().wrapping_sub(1));
        let said_right = match &expected.said {
            Said::Nothing => output.stderr.is_empty(),
            Said::Usage => one_line && said.starts_with(program.usage),
            Said::Line(line) => output.stderr == line.as_bytes(),
        };
        let ended = output.status.code().is_some();
        if ended && said_right && output.stdout == expected.output {
            return Ok(());
        }
        Err(format!(
            "{}: {}, wrote {:?} and to standard error {said:?}\nexpected {:?} and {}",
            self.name,
            output.status,
            String::from_utf8_lossy(&output.stdout),
            String::from_utf8_lossy(&expected.output),
            match &expected.said {
                Said::Nothing => "nothing",
                Said::Usage => "one line of usage",
                Said::Line(line) => line.trim_end(),
            },
        ))
    }

    /// The panel's text for what the load writes; where that is nothing, it is the text of
    /// an empty file.
    fn passes_into(&self, load: &Program, panel: &str) -> Result<(), String> {
        let failed = |error: std::io::Error| format!("{} into the panel: {error}", self.name);
        let output = self.call_into(load.path, panel).map_err(failed)?;
        let file = (load.expected)(&self.words(), &self.input).output;
        let text = reference::panel(&file);
        if output.stdout == text.as_bytes() && output.stderr.is_empty() {
            return Ok(());
        }
        let wrote = String::from_utf8_lossy(&output.stdout);
        let said = String::from_utf8_lossy(&output.stderr);
        Err(format!(
            "{} into the panel: wrote {wrote:?} and to standard error {said:?}\nexpected {text:?}",
            self.name
        ))
    }

    /// What the second program writes, whose input is the output of the first.
    fn call_into(&self, first: &str, second: &str) -> std::io::Result<Output> {
        let mut command = Command::new(first);
        command.args(self.words.iter().map(|word| OsStr::from_bytes(word)));
        command.stdin(Stdio::null()).stdout(Stdio::piped()).stderr(Stdio::null());
        let mut writer = command.spawn()?;
        let pipe = writer.stdout.take().expect("it was asked for");
        let mut command = Command::new(second);
        command.stdin(pipe).stdout(Stdio::piped()).stderr(Stdio::piped());
        let output = command.spawn()?.wait_with_output();
        writer.wait()?;
        output
    }

    fn call(&self, program: &str) -> std::io::Result<Output> {
        let mut command = match &self.input {
            Input::Closed => {
                let mut shell = Command::new("sh");
                shell.args(["-c", "exec \"$0\" \"$@\" <&-", program]);
                shell
            }
            _ => Command::new(program),
        };
        command.args(self.words.iter().map(|word| OsStr::from_bytes(word)));
        command.stdout(Stdio::piped()).stderr(Stdio::piped());
        match &self.input {
            Input::Pieces(pieces) => return call_in_pieces(command, pieces),
            Input::Broken(bytes) => command.stdin(broken(bytes)?),
            Input::Directory => command.stdin(File::open(".")?),
            Input::Closed => &mut command,
        };
        command.spawn()?.wait_with_output()
    }
}

/// The program may end before it has read all: then there is no one to write to.
fn call_in_pieces(mut command: Command, pieces: &[Vec<u8>]) -> std::io::Result<Output> {
    let mut child = command.stdin(Stdio::piped()).spawn()?;
    let mut pipe = child.stdin.take().expect("it was asked for");
    for (number, piece) in pieces.iter().enumerate() {
        if number > 0 {
            sleep(PAUSE);
        }
        match pipe.write_all(piece) {
            Err(error) if error.kind() == ErrorKind::BrokenPipe => break,
            written => written?,
        }
    }
    drop(pipe);
    child.wait_with_output()
}

/// The other end is closed while a byte sent to it is unread, so the read after the
/// last byte fails.
fn broken(bytes: &[u8]) -> std::io::Result<OwnedFd> {
    let (mut ours, mut theirs) = UnixStream::pair()?;
    theirs.write_all(&[0])?;
    ours.write_all(bytes)?;
    Ok(theirs.into())
}

type PlainRule<'a> = (usize, &'a [usize], &'a [usize]);

/// Fact 0, from nothing.
const ALWAYS: PlainRule = (0, &[], &[]);

fn file_of(facts: usize, rules: &[PlainRule]) -> Vec<u8> {
    let mut draft = Draft::new(facts);
    for (conclusion, premises, constraints) in rules {
        draft.rule(*conclusion, premises, constraints);
    }
    draft.bytes()
}

fn example_a() -> Vec<u8> {
    file_of(4, &[ALWAYS, (1, &[0], &[2]), (2, &[0], &[1]), (3, &[2], &[])])
}

/// A chain, and a rule that repeats its end until the file has this length; it is
/// then too long a rule.
fn long_file(length: usize) -> Vec<u8> {
    let mut draft = Draft::new(100);
    draft.rule(0, &[], &[]);
    chain(&mut draft, &(0..99).collect::<Vec<_>>());
    let missing = (length - draft.bytes().len()) / 2 - 1;
    draft.rule(99, &vec![98; missing], &[]);
    let bytes = draft.bytes();
    assert_eq!(bytes.len(), length);
    bytes
}

/// Every fact of a file, the count, and numbers past it.
fn every_fact(name: &str, file: &[u8]) -> Vec<Trial> {
    let facts = file.get(1).map_or(0, |&count| u32::from(count));
    let beyond = [255, 256, 65_536, u32::MAX - 255, u32::MAX];
    let asked = (0..=facts).chain(beyond);
    let trial = |fact: u32| {
        let word = fact.to_string();
        Trial::new(format!("{name}, fact {fact}"), &[&word], Input::whole(file))
    };
    asked.map(trial).collect()
}

/// The file with this fact named as unread so many times.
fn with_unread(fact: u8, times: usize, file: &[u8]) -> Vec<u8> {
    [&file[..2], &[7, fact].repeat(times), &file[2..]].concat()
}

/// Files with unread facts: a rule withheld, all of them, plain rules alone; and the longest.
fn unread_files() -> Vec<(&'static str, Vec<u8>)> {
    let full = large::full(|rule| rule % MOST_OWN_ITEMS).bytes();
    let room = (LONGEST - full.len()) / 2;
    vec![
        ("A, 2 unread", with_unread(2, 1, &example_a())),
        ("A, 2 and 1 unread", with_unread(2, 2, &with_unread(1, 1, &example_a()))),
        ("plain rules, 0 unread", with_unread(0, 1, &file_of(2, &[ALWAYS, (1, &[0], &[])]))),
        ("32,767 bytes, 250 unread", with_unread(250, room, &full)),
    ]
}

/// Files with nothing to ask for, with nothing derived, and with steps to leave out.
fn small_files() -> Vec<(&'static str, Vec<u8>)> {
    let diamond = [ALWAYS, (1, &[0], &[]), (2, &[0], &[]), (3, &[1, 2], &[]), (4, &[0], &[])];
    let old_order =
        [(2, &[][..], &[][..]), (1, &[0], &[]), ALWAYS, (3, &[1, 2], &[]), (4, &[2], &[])];
    let two_ways = [(0, &[][..], &[1][..]), (1, &[], &[0]), (2, &[0], &[]), (2, &[1], &[])];
    vec![
        ("no facts", file_of(0, &[])),
        ("no rules", file_of(2, &[])),
        ("a rule set aside", file_of(1, &[(0, &[], &[0])])),
        ("a diamond", file_of(5, &diamond)),
        ("old order", file_of(5, &old_order)),
        ("two ways", file_of(3, &two_ways)),
    ]
}

/// The longest files without unread facts that are accepted: 512 rules of 24 items.
fn full_files() -> Vec<(&'static str, Vec<u8>)> {
    large::FULL.map(|(name, premises)| (name, large::full(premises).bytes())).to_vec()
}

/// Files of many facts and rules, deep and shallow.
fn large_files() -> Vec<(&'static str, Vec<u8>)> {
    vec![
        ("512 rules and 16 constraint facts", large::exceptions(512, 16).bytes()),
        ("a ring", large::ring(512).bytes()),
        ("tangled", large::tangled(512).bytes()),
        ("a ladder", large::ladder(512).bytes()),
        ("a chain across words", large::words().bytes()),
        ("511 rules set aside", large::rivals(512).bytes()),
        ("stairs of 24 items", stairs(255, MOST_OWN_ITEMS - 1).bytes()),
    ]
}

/// A file for each refusal that the file's questions give, and more for the cap.
fn refused_files() -> Vec<(&'static str, Vec<u8>)> {
    let full = file_of(26, &[(25, &[1; MOST_OWN_ITEMS], &[])]);
    let unended = &full[..full.len() - 3];
    vec![
        ("no input", vec![]),
        ("10", vec![0x10]),
        ("10 01", vec![0x10, 1]),
        ("10 01 05", vec![0x10, 1, 5]),
        ("10 01 01", vec![0x10, 1, 1]),
        ("10 01 01 01", vec![0x10, 1, 1, 1]),
        ("10 01 02 00", vec![0x10, 1, 2, 0]),
        ("513 rules", large::ring(513).bytes()),
        ("10 00 1F 00 01", vec![0x10, 0, 0x1F, 0, 1]),
        ("10 00 1F 00 00 00", vec![0x10, 0, 0x1F, 0, 0, 0]),
        ("25 premises", file_of(26, &[ALWAYS, (25, &[0; 25], &[])])),
        ("24 premises, 1 constraint", file_of(26, &[ALWAYS, (25, &[0; 24], &[1])])),
        ("24 premises, then 25", file_of(26, &[ALWAYS, (1, &[0; 24], &[]), (25, &[0; 25], &[])])),
        ("25 items and nothing more", [unended, &[2, 1]].concat()),
        ("a 25th item that is cut", [unended, &[2]].concat()),
        ("a 25th item of a fact too high", [unended, &[2, 26]].concat()),
        ("unread after a rule", vec![0x10, 1, 1, 0, 7, 0, 0x1F, 0, 1]),
        ("unread too high after a rule", vec![0x10, 1, 1, 0, 7, 1, 0x1F, 0, 1]),
        ("unread and cut", vec![0x10, 1, 7]),
        ("stairs of 61 items", stairs(255, 60).bytes()),
        ("32,767 bytes, a rule too long", long_file(LONGEST)),
        ("32,768 bytes", [long_file(LONGEST), vec![0]].concat()),
        ("32,769 bytes", [long_file(LONGEST), vec![0, 0]].concat()),
        ("more than a pipe holds", vec![0x10; 1_000_000]),
    ]
}

/// Single words, between which a stroke stands.
const WORDS: &str = "|0|1|2|01|10|+1|-1| 1|1 |1\n|0x1|1.0|1,0|1a|a|\u{661}|-|--|-h|0000000000|\
    00000000000|0000000001|00000000001|1000000000|10000000000|4294967295|4294967296|4294967297|\
    8589934593|9999999999";

/// Words that are not text.
const OTHER_WORDS: [&[u8]; 3] = [b"\xFF", b"1\xFF", b"\xC3\x28"];

/// Words before a file of which facts 0 and 1 are derived.
fn trials_of_words(file: &[u8]) -> Vec<Trial> {
    let long = "1".repeat(300);
    let single = WORDS.split('|').chain([&long[..]]).map(|word| vec![word]);
    let other =
        [vec![], vec!["1", "1"], vec!["1", ""], vec!["", "1"], vec!["1", "x"], vec!["0"; 9]];
    let trial =
        |words: Vec<&str>| Trial::new(format!("words {words:?}"), &words, Input::whole(file));
    let mut trials: Vec<Trial> = single.chain(other).map(trial).collect();
    for word in OTHER_WORDS {
        let words = vec![word.to_vec()];
        trials.push(Trial { name: format!("word {word:?}"), words, input: Input::whole(file) });
    }
    trials
}

/// Input of other kinds, each with a word that names a fact and with one that does
/// not.
fn trials_of_input(file: &[u8]) -> Vec<Trial> {
    let accepted = large::full(|rule| rule % MOST_OWN_ITEMS).bytes();
    let longest = long_file(LONGEST);
    let too_long = [&longest[..], &[0]].concat();
    let inputs = [
        ("byte by byte", Input::in_pieces(file, 1)),
        ("two pieces", Input::in_pieces(file, file.len() - 1)),
        ("512 rules of 24 items in pieces", Input::in_pieces(&accepted, 10_000)),
        ("32,767 bytes in pieces", Input::in_pieces(&longest, 10_000)),
        ("32,768 bytes in pieces", Input::in_pieces(&too_long, LONGEST)),
        ("a read that fails", Input::Directory),
        ("a read that fails past the file", Input::Broken(file.to_vec())),
        ("a read that fails within the file", Input::Broken(file[..5].to_vec())),
        ("closed", Input::Closed),
    ];
    let trial = |name: &str, word: &str, input: &Input| {
        Trial::new(format!("{name}, word {word}"), &[word], input.clone())
    };
    inputs
        .iter()
        .flat_map(|(name, input)| ["1", "x"].map(|word| trial(name, word, input)))
        .collect()
}

/// Loads of counts at their limits and past them, some of which would pass in their low
/// bytes.
fn trials_of_counts() -> Vec<Trial> {
    let mut trials = Vec::new();
    for start in [0, 1, 1 << 31, u32::MAX] {
        for facts in [0, 1, 2, 4, 255, 256, 260, u32::MAX] {
            for rules in [0, 1, 2, 3, 4, 511, 512, 513, 65_537, u32::MAX] {
                let words = [start, facts, rules].map(|number| number.to_string());
                let words = words.each_ref().map(String::as_str);
                trials.push(Trial::new(format!("load {words:?}"), &words, Input::whole(&[])));
            }
        }
    }
    trials
}

/// Words of a load: each single word in each of the three places, and other counts of
/// words.
fn trials_of_load_words() -> Vec<Trial> {
    let long = "1".repeat(300);
    let right = ["0", "4", "1"];
    let more = "3|4|04|0000000004|00000000004|254|255|256|0000000255|511|512|513|0000000512";
    let mut rows: Vec<Vec<Vec<u8>>> = Vec::new();
    for place in 0..right.len() {
        let single = WORDS.split('|').chain(more.split('|')).chain([&long[..]]).map(str::as_bytes);
        for word in single.chain(OTHER_WORDS) {
            let mut words = right.map(|word| word.as_bytes().to_vec());
            words[place] = word.to_vec();
            rows.push(words.to_vec());
        }
    }
    let other: [&[&str]; 17] = [
        &[],
        &[""],
        &["0"],
        &["0 4 1"],
        &["0,4,1"],
        &["-h"],
        &["0", "4"],
        &["0 4", "1"],
        &["0", "4 1"],
        &["", ""],
        &["", "", ""],
        &["0", "4", "1", "1"],
        &["0", "4", "1", ""],
        &["", "0", "4", "1"],
        &["load", "0", "4", "1"],
        &["0", "256", "513", "x"],
        &["0"; 9],
    ];
    rows.extend(other.map(|words| words.iter().map(|word| word.as_bytes().to_vec()).collect()));
    let trial = |words: Vec<Vec<u8>>| {
        let text: Vec<_> = words.iter().map(|word| String::from_utf8_lossy(word)).collect();
        Trial {
            name: format!("load words {text:?}"),
            words: words.clone(),
            input: Input::whole(&[]),
        }
    };
    rows.into_iter().map(trial).collect()
}

/// Input that a load does not read.
fn trials_of_load_input() -> Vec<Trial> {
    let inputs = [
        ("an input", Input::whole(&example_a())),
        ("more than a pipe holds", Input::whole(&vec![0x10; 1_000_000])),
        ("a read that fails", Input::Directory),
        ("closed", Input::Closed),
    ];
    let mut trials = Vec::new();
    for (name, input) in inputs {
        for words in [["0", "4", "1"], ["0", "255", "512"], ["0", "0", "1"], ["0", "x", "1"]] {
            let name = format!("load {words:?}, {name}");
            trials.push(Trial::new(name, &words, input.clone()));
        }
    }
    trials
}

fn trials_of_loads() -> Vec<Trial> {
    let mut trials = trials_of_counts();
    trials.extend(trials_of_load_words());
    trials.extend(trials_of_load_input());
    trials
}

fn trials_of_grounds(paths: &[String]) -> Result<Vec<Trial>, String> {
    let mut trials = Vec::new();
    for path in paths {
        let file = std::fs::read(path).map_err(|error| format!("{path}: {error}"))?;
        trials.extend(every_fact(path, &file));
    }
    let a = example_a();
    let files = [small_files(), unread_files(), large_files(), full_files(), refused_files()];
    for (name, file) in files.concat() {
        trials.extend(every_fact(name, &file));
    }
    trials.extend(trials_of_words(&a));
    trials.extend(trials_of_input(&a));
    Ok(trials)
}

fn run_all(program: &Program, trials: &[Trial]) -> Result<(), String> {
    trials.iter().try_for_each(|trial| trial.passes(program))?;
    println!("{} calls of {} agree", trials.len(), program.path);
    Ok(())
}

fn run([grounds_path, load_path, panel]: [&str; 3], paths: &[String]) -> Result<(), String> {
    run_all(&grounds(grounds_path), &trials_of_grounds(paths)?)?;
    let load = load(load_path);
    run_all(&load, &trials_of_loads())?;
    let counts = trials_of_counts();
    counts.iter().try_for_each(|trial| trial.passes_into(&load, panel))?;
    println!("{} calls of {load_path} into {panel} agree", counts.len());
    Ok(())
}

fn main() -> ExitCode {
    let arguments: Vec<String> = std::env::args().skip(1).collect();
    let [grounds, load, panel, paths @ ..] = &arguments[..] else {
        eprintln!("usage: programs <grounds> <load> <panel> <file>..");
        return ExitCode::FAILURE;
    };
    match run([grounds, load, panel], paths) {
        Ok(()) => ExitCode::SUCCESS,
        Err(message) => {
            println!("FAIL: {message}");
            ExitCode::FAILURE
        }
    }
}
