// The second program: checks a proved Hangul library from outside, by definitions of its own.
// It shares no code with the library, and reads only what the programs under test write.

mod appendix;
mod byte_kinds;
mod byte_texts;
mod cases;
mod compare;
mod compare_facts;
mod facts;
mod filler_cases;
mod filler_facts;
mod filler_texts;
mod fillers;
mod gathering;
mod gathering_cases;
mod gathering_facts;
mod joining;
mod joining_cases;
mod joining_facts;
mod kinds;
mod label_cases;
mod label_facts;
mod label_file;
mod label_texts;
mod label_writing_cases;
mod letter_facts;
mod letter_names;
mod letters;
mod listing;
mod mending;
mod mending_cases;
mod mending_facts;
mod mending_texts;
mod name_reading_cases;
mod name_texts;
mod naming;
mod naming_cases;
mod naming_facts;
mod printing;
mod published;
mod published_names;
mod random;
mod ranker;
mod ranking;
mod ranking_cases;
mod ranking_facts;
mod ranking_texts;
mod reading_cases;
mod reading_kinds;
mod run;
mod simple;
mod simple_cases;
mod simple_facts;
mod simple_texts;
mod stops;
mod store;
mod text_kinds;
mod texts;
mod unit_kinds;
mod unit_mending;
mod unit_mending_cases;
mod unit_mending_facts;
mod unit_mending_texts;
mod unit_reading_cases;
mod unit_texts;
mod unit_writing_cases;
mod utf16;
mod utf16_facts;
mod utf8;
mod utf8_facts;
mod wire;
mod words;
mod writing_cases;

use compare::Plan;
use kinds::Kind;
use run::Program;
use std::process::ExitCode;

const USAGE: &str = "usage:
  second compare PROGRAM [--seed S] [--calls N] [--chunk K] [--kinds LIST] [--under EMULATOR]
  second all PROGRAM [--kinds LIST] [--under EMULATOR]
  second stops PROGRAM [--kinds LIST] [--under EMULATOR]
  second published PROGRAM FILE_OF_NORMALIZATION_TESTS [--kinds LIST] [--under EMULATOR]
  second names PROGRAM FILE_OF_DERIVED_NAMES [--under EMULATOR]
  second lister PROGRAM [--under EMULATOR]
  second ranker PROGRAM [--under EMULATOR]
  second store FOLDER [--kinds LIST]
  second show FILE_OF_CALLS FILE_OF_ANSWERS
  second self
If no LIST is given, the kinds are those of the program calls: 1 to 19.
kinds:";

/// How the program is called, and what kinds of call it knows.
fn usage() -> String {
    let names = kinds::all().map(|kind| format!(" {} {}", kind.number, kind.name));
    USAGE.to_string() + &names.collect::<Vec<String>>().join(",")
}

/// What was asked for after the first words of a command line.
struct Options {
    seed: u64,
    calls: usize,
    chunk: Option<u64>,
    kinds: Vec<&'static Kind>,
    emulator: Option<String>,
}

impl Options {
    fn program(&self, path: &str) -> Program {
        Program::new(path, self.emulator.as_deref())
    }
}

fn number<Number: std::str::FromStr>(word: &str) -> Result<Number, String> {
    word.parse().map_err(|_| format!("{word} is no number"))
}

/// Options come in pairs of a name and a word; only those that the command knows are taken.
fn options(words: &[String], known: &[&str]) -> Result<Options, String> {
    let mut options = Options {
        seed: 1,
        calls: 20_000,
        chunk: None,
        kinds: kinds::OF_CALLS.to_vec(),
        emulator: None,
    };
    for pair in words.chunks(2) {
        let (name, word) = match pair {
            [name, word] => (name, word),
            _ => return Err(format!("{} stands without its word", pair[0])),
        };
        match name.as_str() {
            name if !known.contains(&name) => return Err(format!("{name} is not known here")),
            "--seed" => options.seed = number(word)?,
            "--calls" => options.calls = number(word)?,
            "--chunk" => options.chunk = Some(number(word)?),
            "--kinds" => options.kinds = kinds::chosen(word)?,
            _ => options.emulator = Some(word.clone()),
        }
    }
    Ok(options)
}

/// Reports go out as they are; the exit code says that there were some.
fn verdict(outcome: Result<String, Vec<String>>) -> ExitCode {
    match outcome {
        Ok(line) => {
            println!("{line}");
            ExitCode::SUCCESS
        }
        Err(reports) => {
            for report in reports {
                println!("{report}");
            }
            ExitCode::from(1)
        }
    }
}

fn compare(path: &str, words: &[String]) -> Result<ExitCode, String> {
    let known = ["--seed", "--calls", "--chunk", "--kinds", "--under"];
    let options = options(words, &known)?;
    let program = options.program(path);
    let plan = Plan {
        kinds: options.kinds,
        seed: options.seed,
        calls: options.calls,
        chunk: options.chunk,
    };
    let reports = compare::seeded(&program, &plan);
    if !reports.is_empty() {
        return Ok(verdict(Err(reports)));
    }
    let line = format!("{} calls agree ({})", plan.calls, plan.name());
    Ok(verdict(Ok(line)))
}

fn exhaustive(path: &str, words: &[String]) -> Result<ExitCode, String> {
    let options = options(words, &["--kinds", "--under"])?;
    let outcome = compare::exhaustive(&options.program(path), &options.kinds);
    Ok(verdict(
        outcome.map(|count| format!("{count} calls agree (exhaustive)")),
    ))
}

fn stops(path: &str, words: &[String]) -> Result<ExitCode, String> {
    let options = options(words, &["--kinds", "--under"])?;
    let outcome = stops::try_all(&options.program(path), &options.kinds);
    Ok(verdict(outcome.map(|count| format!("{count} stops agree"))))
}

fn published(path: &str, file: &str, words: &[String]) -> Result<ExitCode, String> {
    let options = options(words, &["--kinds", "--under"])?;
    let program = options.program(path);
    Ok(verdict(published::check(&program, file, &options.kinds)))
}

fn derived_names(path: &str, file: &str, words: &[String]) -> Result<ExitCode, String> {
    let program = options(words, &["--under"])?.program(path);
    Ok(verdict(published_names::check(&program, file)))
}

fn lister(path: &str, words: &[String]) -> Result<ExitCode, String> {
    let program = options(words, &["--under"])?.program(path);
    let outcome = listing::check(&program);
    Ok(verdict(outcome.map(|count| {
        format!("{count} texts are listed as they must be")
    })))
}

fn ranker(path: &str, words: &[String]) -> Result<ExitCode, String> {
    let program = options(words, &["--under"])?.program(path);
    let outcome = ranker::check(&program);
    Ok(verdict(outcome.map(|count| {
        format!("{count} images are ranked as they must be")
    })))
}

fn store(folder: &str, words: &[String]) -> Result<ExitCode, String> {
    let options = options(words, &["--kinds"])?;
    Ok(verdict(Ok(store::store(folder, &options.kinds)?)))
}

fn show(calls: &str, answers: &str) -> Result<ExitCode, String> {
    let outcome = store::show(calls, answers);
    Ok(outcome.map_or_else(
        |trouble| verdict(Err(vec![trouble])),
        |()| ExitCode::SUCCESS,
    ))
}

fn own_facts() -> ExitCode {
    let facts = facts::all();
    if facts.broken.is_empty() {
        return verdict(Ok(format!("{} facts hold", facts.held)));
    }
    let broken = facts
        .broken
        .into_iter()
        .map(|fact| format!("broken: {fact}"));
    verdict(Err(broken.collect()))
}

fn command(words: &[String]) -> Result<ExitCode, String> {
    let plain: Vec<&str> = words.iter().map(String::as_str).collect();
    match plain[..] {
        ["compare", path, ..] => compare(path, &words[2..]),
        ["all", path, ..] => exhaustive(path, &words[2..]),
        ["stops", path, ..] => stops(path, &words[2..]),
        ["published", path, file, ..] => published(path, file, &words[3..]),
        ["names", path, file, ..] => derived_names(path, file, &words[3..]),
        ["lister", path, ..] => lister(path, &words[2..]),
        ["ranker", path, ..] => ranker(path, &words[2..]),
        ["store", folder, ..] => store(folder, &words[2..]),
        ["show", calls, answers] => show(calls, answers),
        ["self"] => Ok(own_facts()),
        _ => Err(usage()),
    }
}

fn main() -> ExitCode {
    let words: Vec<String> = std::env::args().skip(1).collect();
    match command(&words) {
        Ok(code) => code,
        Err(trouble) => {
            eprintln!("{trouble}");
            ExitCode::from(2)
        }
    }
}
