// Holds a program to the Unicode Consortium's DerivedName.txt: names of syllables, and all others.
// The file alone says what is right: a syllable has its name there, and nothing else has one.

use crate::kinds::{by_value, in_buffer, refused};
use crate::letters::{is_syllable, Refusal, S_COUNT};
use crate::name_reading_cases::name_call;
use crate::naming::LONGEST;
use crate::naming_cases::naming_call;
use crate::published::{try_all, version, Trial};
use crate::run::Program;
use crate::wire::{elements_of, Width};
use std::collections::HashSet;
use std::fs;

/// What the first line of the file says after its hash, before the version.
const TITLE: &str = "DerivedName-";

/// A code point and its name, and the line that says so.
struct Named {
    line: usize,
    code: u32,
    name: String,
}

/// One code point, or the first and the last of a range.
fn codes(field: &str) -> Option<Vec<u32>> {
    let ends = field.trim().split("..");
    let codes: Result<Vec<u32>, _> = ends.map(|end| u32::from_str_radix(end, 16)).collect();
    codes.ok().filter(|codes| codes.len() <= 2)
}

/// Of a range both ends are taken; in the name of a range a star stands for the code point.
fn names_of_line(line: usize, text: &str) -> Option<Vec<Named>> {
    let (field, name) = text.split_once(';')?;
    let name = name.trim();
    let named = codes(field)?.into_iter().map(|code| Named {
        line,
        code,
        name: name.replace('*', &format!("{code:04X}")),
    });
    (!name.is_empty()).then(|| named.collect())
}

/// A line that is not understood is an error, since a line left out would not be missed.
fn names_of(text: &str) -> Result<Vec<Named>, String> {
    let mut names = Vec::new();
    for (index, line) in text.lines().enumerate() {
        if !line.trim().is_empty() && !line.starts_with('#') {
            let number = index + 1;
            let named = names_of_line(number, line);
            names.extend(named.ok_or(format!("line {number} has not a code point and a name"))?);
        }
    }
    Ok(names)
}

/// The name of a syllable is given and read. Any other code point has none here, and its name in
/// the file is read as no syllable's.
fn trials(named: &Named) -> [Trial; 2] {
    let bytes = elements_of(named.name.as_bytes());
    let refusal = |number| Refusal { number, place: 0 };
    let reading = name_call(named.name.as_bytes());
    let (naming, name, code) = if is_syllable(named.code) {
        let naming = naming_call(named.code, bytes.len());
        let name = in_buffer(&naming, Width::Byte, Ok(bytes));
        let code = by_value(&reading, Width::Byte, named.code, 0, 0);
        (naming, name, code)
    } else {
        let naming = naming_call(named.code, LONGEST);
        let name = refused(&naming, Width::Byte, refusal(4));
        let code = refused(&reading, Width::Byte, refusal(5));
        (naming, name, code)
    };
    [(naming, name), (reading, code)].map(|(call, published)| Trial {
        place: format!("line {}", named.line),
        call,
        published,
    })
}

/// What is tried of a file, and of how many syllables and others it has names.
pub struct Trials {
    version: String,
    pub syllables: usize,
    pub others: usize,
    trials: Vec<Trial>,
}

/// An error tells that this is not the file, or not the whole of it.
pub fn trials_of(text: &str) -> Result<Trials, String> {
    let version = version(text, TITLE)?.to_string();
    let names = names_of(text)?;
    let named = names.iter().filter(|named| is_syllable(named.code));
    let syllables: HashSet<u32> = named.clone().map(|named| named.code).collect();
    if syllables.len() != S_COUNT as usize || named.count() != syllables.len() {
        return Err("it does not name every syllable once".to_string());
    }
    Ok(Trials {
        version,
        syllables: syllables.len(),
        others: names.len() - syllables.len(),
        trials: names.iter().flat_map(trials).collect(),
    })
}

/// Gives the closing line, or reports on what differs.
pub fn check(program: &Program, path: &str) -> Result<String, Vec<String>> {
    let text = fs::read_to_string(path).map_err(|error| vec![format!("{path}: {error}")])?;
    let tried = trials_of(&text).map_err(|trouble| vec![format!("{path}: {trouble}")])?;
    let calls = try_all(program, tried.trials)?;
    println!("{calls} calls agree");
    Ok(format!(
        "{} names of syllables and {} of others agree ({})",
        tried.syllables, tried.others, tried.version
    ))
}
