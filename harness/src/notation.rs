//! The notation in which the list of named cases gives files, rows and bytes.

use crate::counting::{absences, count_to};
use crate::draft::{Draft, DraftRule, stairs};
use crate::large;
use crate::layers;
use reference::kind;
use std::collections::BTreeMap;
use std::str::FromStr;

type Bytes = Result<Vec<u8>, String>;

/// Bytes of the item that begins a file: kind and one byte of fact count.
const COUNT_BYTES: usize = 2;
/// Bytes of the item that ends a file: kind and two bytes of rule count.
const END_BYTES: usize = 3;

pub fn number<T: FromStr>(word: &str) -> Result<T, String> {
    word.trim().parse().map_err(|_| format!("not a number in range: {word:?}"))
}

/// Words, between which a comma may stand too.
fn words(text: &str) -> Vec<&str> {
    text.split([' ', ',']).filter(|word| !word.is_empty()).collect()
}

/// Two digits for each byte: `10 01 05`.
fn hexadecimal(text: &str) -> Bytes {
    let byte = |word: &str| {
        u8::from_str_radix(word, 16)
            .ok()
            .filter(|_| word.len() == 2)
            .ok_or_else(|| format!("not a byte: {word:?}"))
    };
    words(text).into_iter().map(byte).collect()
}

/// The bytes themselves after the word `hex`, or what `read` makes of the text
/// where that word is missing; `none` is no byte at all.
fn bytes_or(text: &str, read: impl FnOnce(&str) -> Bytes) -> Bytes {
    match text {
        "none" => Ok(vec![]),
        "hex" => Err("no byte after hex; none is no byte".to_string()),
        _ => text.strip_prefix("hex ").map_or_else(|| read(text), hexadecimal),
    }
}

/// Bytes in decimal, with `243 of 0` for that many equal ones.
pub fn bytes(text: &str) -> Bytes {
    bytes_or(text, |text| {
        let mut bytes = Vec::new();
        let mut rest = &words(text)[..];
        while let [first, after @ ..] = rest {
            rest = match after {
                ["of", byte, after @ ..] => {
                    bytes.extend(std::iter::repeat_n(number::<u8>(byte)?, number(first)?));
                    after
                }
                _ => {
                    bytes.push(number(first)?);
                    after
                }
            };
        }
        Ok(bytes)
    })
}

/// Rule numbers as 05 items, with `0 to 299` or `299 to 0` for all between.
pub fn rule_numbers(text: &str) -> Bytes {
    bytes_or(text, |text| {
        let mut numbers: Vec<u16> = Vec::new();
        let mut rest = &words(text)[..];
        while let [first, after @ ..] = rest {
            let first: u16 = number(first)?;
            rest = match after {
                ["to", last, after @ ..] => {
                    let last: u16 = number(last)?;
                    if first <= last {
                        numbers.extend(first..=last);
                    } else {
                        numbers.extend((last..=first).rev());
                    }
                    after
                }
                _ => {
                    numbers.push(first);
                    after
                }
            };
        }
        let item = |number: u16| {
            let [high, low] = number.to_be_bytes();
            [kind::RULE_NUMBER, high, low]
        };
        Ok(numbers.into_iter().flat_map(item).collect())
    })
}

/// Steps as 06 items: `(2,2) (3,3)`, each its fact and its rule, with
/// `(0,1) to (4,5)` for all between, which go up by one in both.
pub fn steps(text: &str) -> Bytes {
    bytes_or(text, |text| {
        let mut steps: Vec<(u8, u16)> = Vec::new();
        let words: Vec<&str> = text.split_whitespace().collect();
        let mut rest = &words[..];
        while let [first, after @ ..] = rest {
            let (fact, rule) = step(first)?;
            rest = match after {
                ["to", last, after @ ..] => {
                    let (last_fact, last_rule) = step(last)?;
                    steps.extend((fact..=last_fact).zip(rule..=last_rule));
                    if steps.last() != Some(&(last_fact, last_rule)) {
                        return Err(format!("not by one in both: {first} to {last}"));
                    }
                    after
                }
                _ => {
                    steps.push((fact, rule));
                    after
                }
            };
        }
        let item = |(fact, rule): (u8, u16)| {
            let [high, low] = rule.to_be_bytes();
            [kind::STEP, fact, high, low]
        };
        Ok(steps.into_iter().flat_map(item).collect())
    })
}

fn step(word: &str) -> Result<(u8, u16), String> {
    let inner = word.strip_prefix('(').and_then(|word| word.strip_suffix(')'));
    let (fact, rule) = inner
        .and_then(|inner| inner.split_once(','))
        .ok_or_else(|| format!("not a step: {word:?}"))?;
    Ok((number(fact)?, number(rule)?))
}

/// Lines of text, between which ` / ` stands.
pub fn lines(text: &str) -> Vec<u8> {
    let line = |line: &str| format!("{}\n", line.trim());
    text.split(" / ").map(line).collect::<String>().into_bytes()
}

/// A file: a name, bytes, equal bytes as `32765 of 02`, rules in the notation of
/// document 01, a large file by its builder, any of these without the item that ends
/// it after the word `unended`, any with unread facts as `unread 2, 5 to 7 in` before it,
/// or several of these with `then` between them.
pub fn file(text: &str, named: &BTreeMap<String, Vec<u8>>) -> Bytes {
    let mut bytes = Vec::new();
    for part in text.split(" then ") {
        bytes.extend(bytes_or(part.trim(), |part| file_part(part, named))?);
    }
    Ok(bytes)
}

fn file_part(part: &str, named: &BTreeMap<String, Vec<u8>>) -> Bytes {
    if let Some(bytes) = named.get(part) {
        return Ok(bytes.clone());
    }
    if let Some(file) = part.strip_prefix("unended ") {
        let mut bytes = file_part(file, named)?;
        bytes.truncate(bytes.len().saturating_sub(END_BYTES));
        return Ok(bytes);
    }
    if let Some((facts, file)) =
        part.strip_prefix("unread ").and_then(|part| part.split_once(" in "))
    {
        let mut bytes = file_part(file, named)?;
        if bytes.len() < COUNT_BYTES {
            return Err(format!("no count of facts: {file:?}"));
        }
        bytes.splice(COUNT_BYTES..COUNT_BYTES, unread(facts)?);
        return Ok(bytes);
    }
    if let Some((facts, rules)) = part.split_once(" facts") {
        return Ok(draft(number(facts)?, rules)?.bytes());
    }
    let draft = match words(part)[..] {
        [count, "of", byte] => {
            let [byte] = hexadecimal(byte)?[..] else { return Err(format!("one byte: {part:?}")) };
            return Ok(vec![byte; number(count)?]);
        }
        ["exceptions", rules, constraint_facts] => {
            large::exceptions(number(rules)?, number(constraint_facts)?)
        }
        ["ring", rules] => large::ring(number(rules)?),
        ["rivals", rules] => large::rivals(number(rules)?),
        ["tangled", rules] => large::tangled(number(rules)?),
        ["ladder", rules] => large::ladder(number(rules)?),
        ["words"] => large::words(),
        ["full", ..] => full(part)?,
        ["stairs", facts, premises] => stairs(number(facts)?, number(premises)?),
        ["layers", rules, items, ref name @ ..] => {
            layered(&name.join(" "), number(rules)?, number(items)?)?
        }
        _ => return Err(format!("not a file: {part:?}")),
    };
    Ok(draft.bytes())
}

/// A full file by its name: `full mixed`.
fn full(part: &str) -> Result<Draft, String> {
    let full = large::FULL.iter().find(|(name, _)| *name == part);
    let (_, premises) = full.ok_or_else(|| format!("not a file: {part:?}"))?;
    Ok(large::full(*premises))
}

/// A file of `layers.rs` by its name: `layers 254 1 ladder up`, of 254 rules with 1 item.
fn layered(name: &str, rules: usize, items: usize) -> Result<Draft, String> {
    let file = layers::FILES.iter().find(|(other, _)| *other == name);
    let (_, file) = file.ok_or_else(|| format!("not a file of layers: {name:?}"))?;
    Ok(file(rules, items))
}

/// The 07 items of unread facts.
fn unread(facts: &str) -> Bytes {
    Ok(facts_of(facts)?.into_iter().flat_map(|fact| [kind::UNREAD, fact]).collect())
}

/// Facts, which are written as premises are: `2, 5 to 7`, or `none`.
pub fn facts_of(text: &str) -> Bytes {
    let fact = |(kind, fact): (u8, u8)| (kind == kind::PREMISE).then_some(fact);
    let facts: Option<Vec<u8>> = match text.trim() {
        "none" => Some(vec![]),
        "" => None,
        text => items(text)?.into_iter().map(fact).collect(),
    };
    facts.ok_or_else(|| format!("not facts: {text:?}"))
}

/// What follows the count of facts: `; 0<; 1<0,!2`, with `0 to 8<9` for a rule for each of
/// these conclusions, and `9<5 out of 0 to 8` for rules that count.
fn draft(facts: u8, rules: &str) -> Result<Draft, String> {
    let mut draft = Draft::new(usize::from(facts));
    let mut parts = rules.split(';').map(str::trim);
    if parts.next() != Some("") {
        return Err(format!("not rules: {rules:?}"));
    }
    for rule in parts {
        let (conclusions, body) =
            rule.split_once('<').ok_or_else(|| format!("not a rule: {rule:?}"))?;
        if let Some((least, facts)) = body.split_once(" out of ") {
            counted(&mut draft, number(conclusions)?, number(least)?, facts)?;
            continue;
        }
        for conclusion in facts_of(conclusions)? {
            draft.rules.push(DraftRule { conclusion, items: items(body)? });
        }
    }
    Ok(draft)
}

/// The rules of `9<5 out of 0 to 8`: fact 9 is derived where at least 5 of these facts are
/// out. They count with the facts right above 9.
fn counted(draft: &mut Draft, conclusion: usize, least: usize, facts: &str) -> Result<(), String> {
    let facts: Vec<usize> = facts_of(facts)?.into_iter().map(usize::from).collect();
    if !(1..=facts.len()).contains(&least) {
        return Err(format!("{least} of {} facts", facts.len()));
    }
    let mut unused = conclusion + 1;
    let absent = absences(draft, &mut unused, &facts);
    let enough = count_to(draft, &mut unused, &absent, least);
    if unused > usize::from(draft.facts) {
        return Err(format!("{unused} facts are needed to count to {least}"));
    }
    draft.rule(conclusion, &[enough], &[]);
    Ok(())
}

/// The items of a rule: `0,!1`, with `24 of 0` or `24 of !1` for that many equal ones,
/// and `0 to 23` or `!0 to !23` for all between.
fn items(body: &str) -> Result<Vec<(u8, u8)>, String> {
    let mut items = Vec::new();
    let mut rest = &words(body)[..];
    while let [first, after @ ..] = rest {
        rest = match after {
            ["of", equal, after @ ..] => {
                items.extend(std::iter::repeat_n(item(equal)?, number(first)?));
                after
            }
            ["to", last, after @ ..] => {
                let ((kind, first), (same_kind, last)) = (item(first)?, item(last)?);
                if kind != same_kind {
                    return Err(format!("a premise to a constraint: {body:?}"));
                }
                items.extend((first..=last).map(|fact| (kind, fact)));
                after
            }
            _ => {
                items.push(item(first)?);
                after
            }
        };
    }
    Ok(items)
}

fn item(word: &str) -> Result<(u8, u8), String> {
    match word.strip_prefix('!') {
        Some(fact) => Ok((kind::CONSTRAINT, number(fact)?)),
        None => Ok((kind::PREMISE, number(word)?)),
    }
}
