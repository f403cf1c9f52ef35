// Holds a program to the Unicode Consortium's NormalizationTest.txt, within the rules' repertoire.
// The file alone says what is right: full parts are taken for its NFD, and joining for its NFC. So
// is mending of UTF-16, of the same texts as units.

use crate::cases::PARTS;
use crate::compare::{differences, MOST_REPORTED};
use crate::joining_cases::JOINED;
use crate::kinds::{in_buffer, kind_of, Kind};
use crate::letters::in_repertoire;
use crate::run::Program;
use crate::text_kinds::TextKind;
use crate::unit_mending_cases::MENDED_UNITS;
use crate::utf16::written;
use crate::wire::{elements_of, Answer, Call, Width};
use crate::words;
use std::collections::HashSet;
use std::fs;

/// What the first line of the file says after its hash, before the version.
const TITLE: &str = "NormalizationTest-";
const PART_ONE: &str = "@Part1";
/// The last line of the file.
const END: &str = "# EOF";
/// Source, NFC, NFD, NFKC and NFKD, which the file calls c1 to c5.
const COLUMNS: usize = 5;

struct Line {
    number: usize,
    in_part_one: bool,
    columns: Vec<Vec<u32>>,
}

/// What makes a form: a kind, and its call of a text with the answer that gives a form of it.
struct Form {
    kind: u32,
    asked: fn(&[u32], &[u32]) -> (Call, Answer),
}

const PARTED: Form = Form {
    kind: PARTS.number,
    asked: |text, form| asked_in_codes(&PARTS, text, form),
};
const COMPOSED: Form = Form {
    kind: JOINED.number,
    asked: |text, form| asked_in_codes(&JOINED, text, form),
};
const COMPOSED_IN_UNITS: Form = Form {
    kind: MENDED_UNITS.number,
    asked: asked_in_units,
};
const FORMS: [Form; 3] = [COMPOSED, PARTED, COMPOSED_IN_UNITS];

/// The room is enough for any answer that could be right.
fn asked_in_codes(kind: &TextKind, text: &[u32], form: &[u32]) -> (Call, Answer) {
    let call = kind.call(text, form.len().max(kind.growth * text.len()));
    let answer = in_buffer(&call, Width::Number, Ok(form.to_vec()));
    (call, answer)
}

fn asked_in_units(text: &[u32], form: &[u32]) -> (Call, Answer) {
    let (text, form) = (written(text), written(form));
    let call = MENDED_UNITS.call(&text, form.len().max(text.len()));
    let answer = in_buffer(&call, Width::Unit, Ok(elements_of(&form)));
    (call, answer)
}

impl Form {
    fn is_among(&self, kinds: &[&Kind]) -> bool {
        kinds.iter().any(|kind| kind.number == self.kind)
    }

    fn trial(&self, place: String, text: &[u32], form: &[u32]) -> Trial {
        let (call, published) = (self.asked)(text, form);
        Trial {
            place,
            call,
            published,
        }
    }
}

/// One of the file's own rules: the form of each source is the result. Columns are numbered as in
/// the file, from 1.
struct Rule {
    form: Form,
    result: usize,
    sources: &'static [usize],
}

const fn rule(form: Form, result: usize, sources: &'static [usize]) -> Rule {
    Rule {
        form,
        result,
        sources,
    }
}

/// The rules for NFC and NFD: those of the canonical columns, and those of the compatibility
/// columns. The latter hold for a line also where its canonical columns lie outside the repertoire.
const CANONICAL: [Rule; 3] = [
    rule(COMPOSED, 2, &[1, 2, 3]),
    rule(PARTED, 3, &[1, 2, 3]),
    rule(COMPOSED_IN_UNITS, 2, &[1, 2, 3]),
];
const COMPATIBILITY: [Rule; 3] = [
    rule(COMPOSED, 4, &[4, 5]),
    rule(PARTED, 5, &[4, 5]),
    rule(COMPOSED_IN_UNITS, 4, &[4, 5]),
];

/// One call, what a file says to it, and where it says so.
pub struct Trial {
    pub place: String,
    pub call: Call,
    pub published: Answer,
}

impl Line {
    fn column(&self, number: usize) -> &[u32] {
        &self.columns[number - 1]
    }

    /// Whether all columns that the rules name lie in the repertoire. They are among the sources.
    fn is_for(&self, rules: &[Rule]) -> bool {
        let mut columns = rules.iter().flat_map(|rule| rule.sources);
        columns.all(|&number| self.column(number).iter().copied().all(in_repertoire))
    }

    fn trials(&self, rules: &[Rule], kinds: &[&Kind]) -> Vec<Trial> {
        let mut trials = Vec::new();
        for rule in rules.iter().filter(|rule| rule.form.is_among(kinds)) {
            for &source in rule.sources {
                let (text, result) = (self.column(source), self.column(rule.result));
                let place = format!("line {}: c{} of c{source}", self.number, rule.result);
                trials.push(rule.form.trial(place, text, result));
            }
        }
        trials
    }
}

fn codes(column: &str) -> Option<Vec<u32>> {
    let words = column.split_whitespace();
    let codes: Result<Vec<u32>, _> = words.map(|word| u32::from_str_radix(word, 16)).collect();
    codes.ok().filter(|codes| !codes.is_empty())
}

/// Each column ends with a semicolon; after the last stands nothing but a comment.
fn columns(line: &str) -> Option<Vec<Vec<u32>>> {
    let data = line.split('#').next()?;
    let fields: Vec<&str> = data.split(';').collect();
    if fields.len() != COLUMNS + 1 || !fields[COLUMNS].trim().is_empty() {
        return None;
    }
    fields[..COLUMNS].iter().copied().map(codes).collect()
}

/// The lines with columns. A part's heading, a comment and an empty line have none; any other line
/// that is not understood is an error, since a line left out would not be missed.
fn lines_of(text: &str) -> Result<Vec<Line>, String> {
    let mut lines = Vec::new();
    let mut part = "";
    for (index, line) in text.lines().enumerate() {
        if line.starts_with('@') {
            part = line.split_whitespace().next().unwrap_or("");
        } else if !line.trim().is_empty() && !line.starts_with('#') {
            let number = index + 1;
            let columns = columns(line).ok_or(format!("line {number} has not five columns"))?;
            let in_part_one = part == PART_ONE;
            lines.push(Line {
                number,
                in_part_one,
                columns,
            });
        }
    }
    Ok(lines)
}

/// The file's own name and version, where its first and last lines are as published.
pub fn version<'text>(text: &'text str, expected: &str) -> Result<&'text str, String> {
    let first = text.lines().next().unwrap_or("");
    let title = first.trim_start_matches('#').trim();
    if !title.starts_with(expected) {
        return Err(format!("its first line does not say {expected}"));
    }
    if text.lines().last() != Some(END) {
        return Err(format!("its last line is not {END}"));
    }
    Ok(title)
}

/// The characters of the repertoire that part 1 does not list: by the file's second rule each is
/// its own NFC and NFD.
fn unlisted_characters(lines: &[Line]) -> Vec<u32> {
    let part_one = lines.iter().filter(|line| line.in_part_one);
    let listed: HashSet<u32> = part_one.flat_map(|line| line.column(1)).copied().collect();
    let characters = (0..=0x10_FFFF).filter(|&code| in_repertoire(code));
    characters.filter(|code| !listed.contains(code)).collect()
}

fn trials_of_character(code: u32, kinds: &[&Kind]) -> Vec<Trial> {
    let place = format!("{} in no line of part 1", words::code(code));
    let forms = FORMS.iter().filter(|form| form.is_among(kinds));
    forms
        .map(|form| form.trial(place.clone(), &[code], &[code]))
        .collect()
}

/// What is tried of a file, and how many lines and characters it is.
pub struct Trials {
    version: String,
    pub lines: usize,
    compatibility_lines: usize,
    pub characters: usize,
    trials: Vec<Trial>,
}

/// Of a program that has these kinds. An error tells that this is not the file, or not the whole of
/// it, or that it says nothing of these kinds.
pub fn trials_of(text: &str, kinds: &[&Kind]) -> Result<Trials, String> {
    if !FORMS.iter().any(|form| form.is_among(kinds)) {
        return Err("it has no form that these kinds make".to_string());
    }
    let version = version(text, TITLE)?.to_string();
    let lines = lines_of(text)?;
    if !lines.iter().any(|line| line.in_part_one) {
        return Err(format!("it has no {PART_ONE} with lines"));
    }
    let mut trials = Vec::new();
    let (mut canonical, mut compatibility) = (0, 0);
    for line in &lines {
        if line.is_for(&CANONICAL) {
            trials.extend(line.trials(&CANONICAL, kinds));
            canonical += 1;
        }
        if line.is_for(&COMPATIBILITY) {
            trials.extend(line.trials(&COMPATIBILITY, kinds));
            compatibility += 1;
        }
    }
    if canonical == 0 {
        return Err("it has no line in the repertoire".to_string());
    }
    let characters = unlisted_characters(&lines);
    for &code in &characters {
        trials.extend(trials_of_character(code, kinds));
    }
    Ok(Trials {
        version,
        lines: canonical,
        compatibility_lines: compatibility,
        characters: characters.len(),
        trials,
    })
}

/// Where the definition here parts from the file. Where none does, a program that agrees with the
/// definitions agrees with the file.
fn own_difference(trial: &Trial) -> Option<String> {
    let Trial {
        place,
        call,
        published,
    } = trial;
    let kind = kind_of(call);
    let own = (kind.answer)(call);
    if own == *published {
        return None;
    }
    let question = words::call_in_words(kind, call);
    let mut report = format!("{place}: {question}\n");
    report += &format!(
        "  published {}\n",
        words::answer_in_words(kind, call, published)
    );
    report += &format!("  here      {}", words::answer_in_words(kind, call, &own));
    Some(report)
}

/// Gives the number of calls that agree, or reports on what differs.
pub fn try_all(program: &Program, trials: Vec<Trial>) -> Result<usize, Vec<String>> {
    let reports = trials.iter().filter_map(own_difference);
    let reports: Vec<String> = reports.take(MOST_REPORTED).collect();
    if !reports.is_empty() {
        return Err(reports);
    }
    let calls: Vec<Call> = trials.into_iter().map(|trial| trial.call).collect();
    let reports = differences(program, &calls);
    if !reports.is_empty() {
        return Err(reports);
    }
    Ok(calls.len())
}

/// Gives the closing line, or reports on what differs.
pub fn check(program: &Program, path: &str, kinds: &[&Kind]) -> Result<String, Vec<String>> {
    let text = fs::read_to_string(path).map_err(|error| vec![format!("{path}: {error}")])?;
    let tried = trials_of(&text, kinds).map_err(|trouble| vec![format!("{path}: {trouble}")])?;
    let calls = try_all(program, tried.trials)?;
    println!(
        "{calls} calls agree; in {} lines the compatibility columns too",
        tried.compatibility_lines
    );
    Ok(format!(
        "{} lines and {} characters agree ({})",
        tried.lines, tried.characters, tried.version
    ))
}
