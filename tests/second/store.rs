// Stores the small fixed calls with their expected answers as bytes, and shows such files in words.
// It runs no program and judges no answer: showing prints what the files hold.

use crate::kinds::{find, kind_of, Kind};
use crate::wire::{get_answer, get_call, put_answer, put_call, Call, Cursor};
use crate::words;
use std::fs;
use std::path::Path;

fn write(path: &Path, bytes: &[u8]) -> Result<(), String> {
    fs::write(path, bytes).map_err(|error| format!("{}: {error}", path.display()))
}

fn read(path: &str) -> Result<Vec<u8>, String> {
    fs::read(path).map_err(|error| format!("{path}: {error}"))
}

/// Writes the files stdin and stdout, for a program that has these kinds, into the folder, which is
/// made where it is missing.
pub fn store(folder: &str, kinds: &[&'static Kind]) -> Result<String, String> {
    let calls: Vec<Call> = kinds.iter().flat_map(|kind| (kind.stored)()).collect();
    let (mut input, mut output) = (Vec::new(), Vec::new());
    for call in &calls {
        let kind = kind_of(call);
        put_call(call, &kind.shape, &mut input);
        put_answer(&(kind.answer)(call), &kind.shape, &mut output);
    }
    let folder = Path::new(folder);
    fs::create_dir_all(folder).map_err(|error| format!("{}: {error}", folder.display()))?;
    write(&folder.join("stdin"), &input)?;
    write(&folder.join("stdout"), &output)?;
    Ok(format!(
        "{} calls stored, {} + {} bytes",
        calls.len(),
        input.len(),
        output.len()
    ))
}

/// Prints one call a line. An error tells where the files stop making sense.
pub fn show(calls_path: &str, answers_path: &str) -> Result<(), String> {
    let (calls, answers) = (read(calls_path)?, read(answers_path)?);
    let (mut calls, mut answers) = (Cursor::new(&calls), Cursor::new(&answers));
    while !calls.is_empty() {
        println!("{}", next_line(&mut calls, &mut answers)?);
    }
    match answers.left() {
        0 => Ok(()),
        count => Err(format!("{count} bytes of answers are left over")),
    }
}

fn next_line(calls: &mut Cursor, answers: &mut Cursor) -> Result<String, String> {
    let call = get_call(calls, |number| find(number).map(|kind| kind.shape));
    let call = call.ok_or("here stands a cut call or one of an unknown kind")?;
    let kind = kind_of(&call);
    let question = words::call_in_words(kind, &call);
    let answer = get_answer(answers, &call, &kind.shape);
    let answer = answer.ok_or(format!("{question} -> no whole answer"))?;
    Ok(format!(
        "{question} -> {}",
        words::answer_in_words(kind, &call, &answer)
    ))
}
