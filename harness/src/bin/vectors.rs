//! Writes inputs with the outputs that are expected, for a reader that goes
//! through them once, front to back.
//!
//! vectors <path> <list>..
//!
//! The named cases of the lists come first, in their order, then cases without a
//! name, whose outputs are the reference's: those made on purpose, every cut of an
//! example under every operation, and random ones.
//!
//! The file is a row of rows. A row is two bytes of length, high byte first, and
//! that many bytes; all numbers have two bytes too. A row that stands in the file
//! already is not written again, unless that would be shorter: it has the length
//! FFFF, then the place of that row in four bytes. So each file is stored once. A
//! case is nine rows:
//!
//! - its numbers: the operation, from 1 in the order of `Operation::ALL`; the byte
//!   that every lent buffer holds throughout before the call; the asked fact, its
//!   high half and its low half; the lengths of the four buffers; and the reply in
//!   the order of the C structure, without the zeros at its end. Of two orders the reply goes
//!   on with the refusal number that the second operation gives, and the length of the order
//!   that is handed back;
//! - its name, or nothing;
//! - the file; of a load its start, facts and rules, each four bytes, high byte first;
//! - two more inputs, in the order of the operation's parameters;
//! - what is expected of the four buffers: the bytes up to the last that differs
//!   from the byte before the call. A panel's text and a load's file are in the first,
//!   and an order by ranks in the last, where the search has its order. An order that is
//!   handed back is expected there too: the reader copies it to the front of that buffer,
//!   which has three bytes more.
//!
//! After the last case stands an empty row, then the name of each operation.

#[path = "../caller.rs"]
mod caller;
#[path = "../cases.rs"]
mod cases;
#[path = "../counting.rs"]
mod counting;
#[path = "../directed.rs"]
mod directed;
#[path = "../draft.rs"]
mod draft;
#[path = "../files.rs"]
mod files;
#[path = "../large.rs"]
mod large;
#[path = "../layers.rs"]
mod layers;
#[path = "../list.rs"]
mod list;
#[path = "../loads.rs"]
mod loads;
#[path = "../notation.rs"]
mod notation;
#[path = "../random.rs"]
mod random;

use cases::{Case, Load, Operation, Reply, Tally, random_case};
use directed::{all_operations, directed_cases, examples};
use list::List;
use random::Random;
use std::collections::HashMap;
use std::process::ExitCode;

const SEED: u64 = 1;
const RANDOM_VECTORS: usize = 2_320;
/// The reader has some more room for the file, and this for each buffer.
const MOST_BYTES: usize = 1_441_000;
const MOST_LENT: usize = 16_384;
/// What the buffers of cases without a name hold.
const UNTOUCHED: u8 = 0xA5;
/// A random vector above the first size is large, above the second left out.
const LARGE: usize = 1_000;
const TOO_LARGE: usize = 8_000;
const MOST_LARGE: usize = 40;
const BUFFERS: usize = 4;
/// The buffer of an order that is handed back has so many bytes more.
const MORE_THAN_HANDED_BACK: usize = 3;
/// What a row that is named by its place has for its length.
const NAMED: u16 = 0xFFFF;

fn two_bytes(number: u32) -> [u8; 2] {
    u16::try_from(number).expect("a number fits in two bytes").to_be_bytes()
}

/// What stands in the place of the file.
fn file_row(case: &Case) -> Vec<u8> {
    if case.operation.reads_a_file() {
        return case.file.clone();
    }
    let Load { start, facts, rules } = case.load;
    [start, facts, rules].iter().flat_map(|number| number.to_be_bytes()).collect()
}

/// The inputs after the file.
fn inputs(case: &Case) -> [&[u8]; 2] {
    match case.operation {
        Operation::Accept | Operation::Search | Operation::Panel => [&[], &[]],
        Operation::Layered | Operation::Load => [&[], &[]],
        Operation::Run | Operation::AskOrder | Operation::AskList | Operation::Grounds => {
            [&case.rules, &[]]
        }
        Operation::Judge => [&case.rules, &case.set],
        Operation::Check => [&case.set, &case.proof],
        Operation::AskSet => [&case.set, &[]],
        Operation::AskRow => [&case.proof, &[]],
        Operation::Better => [&case.rules, &case.second],
    }
}

/// What stands in the places of the four buffers, of one thing for each buffer lent.
fn in_places<T>(operation: Operation, lent: &[T]) -> [Option<&T>; BUFFERS] {
    let in_the_last = matches!(operation, Operation::Layered | Operation::Better);
    let first = if in_the_last { BUFFERS - 1 } else { 0 };
    std::array::from_fn(|place| place.checked_sub(first).and_then(|buffer| lent.get(buffer)))
}

/// A row without the values at its end that are equal to this one.
fn without_end<T: PartialEq>(row: &[T], value: T) -> &[T] {
    let kept = row.iter().rposition(|other| *other != value).map_or(0, |last| last + 1);
    &row[..kept]
}

/// The reply with what is handed back in numbers and in a buffer, as the vectors have it. The
/// refusal of the C structure is what the second operation gives.
fn in_a_buffer(operation: Operation, fill: u8, expected: &Reply) -> Reply {
    let Reply { mut numbers, handed_back, mut buffers } = expected.clone();
    if operation == Operation::Better {
        numbers.extend([numbers[0], handed_back.len() as u32]);
        buffers.push([&handed_back[..], &[fill; MORE_THAN_HANDED_BACK]].concat());
    }
    Reply { numbers, handed_back, buffers }
}

/// The rows of a case.
fn vector(name: &str, case: &Case, fill: u8, expected: &Reply) -> Vec<Vec<u8>> {
    let expected = in_a_buffer(case.operation, fill, expected);
    let is_too_long = |buffer: &Vec<u8>| buffer.len() > MOST_LENT;
    assert!(!expected.buffers.iter().any(is_too_long), "{name}: too much is lent");
    let mut numbers = vec![case.operation as u32 + 1, u32::from(fill)];
    numbers.extend([case.asked >> 16, case.asked & 0xFFFF]);
    let buffers = in_places(case.operation, &expected.buffers);
    numbers.extend(buffers.map(|buffer| buffer.map_or(0, |buffer| buffer.len() as u32)));
    numbers.extend(without_end(&expected.numbers, 0));
    let numbers = numbers.into_iter().flat_map(two_bytes).collect();
    let mut rows = vec![numbers, name.as_bytes().to_vec(), file_row(case)];
    rows.extend(inputs(case).map(<[u8]>::to_vec));
    let written = |buffer: &Vec<u8>| without_end(buffer, fill).to_vec();
    rows.extend(buffers.map(|buffer| buffer.map(written).unwrap_or_default()));
    rows
}

/// The vectors written so far.
#[derive(Default)]
struct Vectors {
    bytes: Vec<u8>,
    places: HashMap<Vec<u8>, u32>,
    count: usize,
    large: usize,
    tally: Tally,
}

impl Vectors {
    fn put_row(&mut self, row: Vec<u8>) {
        if row.len() > size_of::<u32>() {
            if let Some(place) = self.places.get(&row) {
                self.bytes.extend(NAMED.to_be_bytes());
                self.bytes.extend(place.to_be_bytes());
                return;
            }
        }
        let length = u16::try_from(row.len()).ok().filter(|&length| length != NAMED);
        let place = u32::try_from(self.bytes.len()).expect("a place fits in four bytes");
        self.bytes.extend(length.expect("a row's length fits in two bytes").to_be_bytes());
        self.bytes.extend(&row);
        self.places.insert(row, place);
    }

    fn put(&mut self, name: &str, case: &Case, fill: u8, expected: &Reply) {
        self.tally.count(case.operation, case.met(expected));
        vector(name, case, fill, expected).into_iter().for_each(|row| self.put_row(row));
        self.count += 1;
    }

    fn put_unnamed(&mut self, case: &Case) {
        self.put("", case, UNTOUCHED, &case.expected(|_| UNTOUCHED));
    }

    /// Few random vectors may be large, so that the reader is quick.
    fn put_if_small(&mut self, case: &Case) {
        let expected = case.expected(|_| UNTOUCHED);
        let [second, third] = inputs(case).map(<[u8]>::len);
        let size = case.file.len() + second + third + case.lent.iter().sum::<usize>();
        if size > TOO_LARGE || (size > LARGE && self.large == MOST_LARGE) {
            return;
        }
        self.large += usize::from(size > LARGE);
        self.put("", case, UNTOUCHED, &expected);
    }

    fn end(&mut self) {
        self.put_row(vec![]);
        for name in Operation::ALL.map(Operation::name) {
            self.put_row(name.as_bytes().to_vec());
        }
    }
}

fn prefixes(file: &[u8]) -> Vec<Case> {
    let calls = all_operations(file);
    let cut = |length: usize| {
        calls.iter().map(move |call| Case { file: file[..length].to_vec(), ..call.clone() })
    };
    (0..file.len()).flat_map(cut).collect()
}

/// The questions on what a case hands over beside its file.
fn questions(case: &Case) -> Vec<Case> {
    let asked: &[Operation] = match case.operation {
        Operation::Run => &[Operation::AskOrder],
        Operation::Judge => &[Operation::AskList, Operation::AskSet],
        Operation::Check => &[Operation::AskRow],
        _ => &[],
    };
    asked.iter().map(|&operation| Case { operation, lent: vec![], ..case.clone() }).collect()
}

fn all_vectors(lists: &[String]) -> Result<Vectors, String> {
    let mut list = List::default();
    for path in lists {
        let text = std::fs::read_to_string(path).map_err(|error| format!("{path}: {error}"))?;
        list.read(&text).map_err(|message| format!("{path}: {message}"))?;
    }
    let mut vectors = Vectors::default();
    for named in &list.cases {
        vectors.put(&named.name, &named.case, named.fill, &named.expected);
    }
    for case in [directed_cases(), prefixes(&examples()[0].bytes())].concat() {
        vectors.put_unnamed(&case);
        questions(&case).iter().for_each(|question| vectors.put_unnamed(question));
    }
    for stream in 0..RANDOM_VECTORS as u64 {
        vectors.put_if_small(&random_case(&mut Random::new(SEED, stream)));
    }
    vectors.end();
    println!("{} named cases, {} vectors", list.cases.len(), vectors.count);
    Ok(vectors)
}

fn write(path: &str, lists: &[String]) -> Result<(), String> {
    let Vectors { bytes, tally, .. } = all_vectors(lists)?;
    let (table, all_met) = tally.table(true);
    print!("{table}");
    if !all_met {
        return Err("not every number and answer is among the vectors".to_string());
    }
    if bytes.len() > MOST_BYTES {
        return Err(format!("{} bytes are too many", bytes.len()));
    }
    std::fs::write(path, &bytes).map_err(|error| format!("{path}: {error}"))?;
    println!("{} bytes", bytes.len());
    Ok(())
}

fn main() -> ExitCode {
    let arguments: Vec<String> = std::env::args().skip(1).collect();
    let [path, lists @ ..] = &arguments[..] else {
        eprintln!("usage: vectors <path> <list>..");
        return ExitCode::FAILURE;
    };
    match write(path, lists) {
        Ok(()) => ExitCode::SUCCESS,
        Err(message) => {
            println!("FAIL: {message}");
            ExitCode::FAILURE
        }
    }
}
