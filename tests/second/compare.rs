// Compares a program's answers with the definitions: seeded cases, and the exhaustive ones.
// It defines no answers and makes no cases; both come from the table of kinds.

use crate::kinds::{kind_of, Kind};
use crate::random::Random;
use crate::run::{Ending, Lack, Output, Program};
use crate::wire::{get_answer, put_call, Call, Cursor};
use crate::words;
use std::io::{self, Write};

pub const MOST_REPORTED: usize = 5;
/// Calls that are made and held at once; beyond this a new run of the program begins.
const CALLS_IN_ONE_RUN: usize = 250_000;

/// Feeds the calls to one run of the program. Gives a report for each difference, at most five.
pub fn differences(program: &Program, calls: &[Call]) -> Vec<String> {
    let feed = |pipe: &mut dyn Write| feed_calls(pipe, calls);
    match program.converse(feed, |output| check_answers(output, calls)) {
        Err(trouble) => vec![trouble],
        Ok((mut reports, ending)) => {
            // The end says something only where the program was let come to it.
            if reports.is_empty() && ending != Ending::Status(0) {
                return vec![format!("all answers agree, but the end was {ending:?}")];
            }
            if ending == Ending::Signal {
                reports.push("a signal ended the program".to_string());
            }
            reports
        }
    }
}

fn feed_calls(pipe: &mut dyn Write, calls: &[Call]) -> io::Result<()> {
    let mut bytes = Vec::new();
    for call in calls {
        bytes.clear();
        put_call(call, &kind_of(call).shape, &mut bytes);
        pipe.write_all(&bytes)?;
    }
    Ok(())
}

fn check_answers(output: &mut Output, calls: &[Call]) -> Vec<String> {
    let mut reports = Vec::new();
    for (index, call) in calls.iter().enumerate() {
        let kind = kind_of(call);
        match output.take(kind.shape.answer_bytes(call)) {
            Err(lack) => {
                reports.push(report_of_lack(index, kind, call, &lack));
                return reports;
            }
            Ok(bytes) => reports.extend(check_answer(index, kind, call, bytes)),
        }
        if reports.len() == MOST_REPORTED {
            return reports;
        }
    }
    reports.extend(check_that_nothing_follows(output));
    reports
}

pub fn check_answer(index: usize, kind: &Kind, call: &Call, bytes: &[u8]) -> Option<String> {
    let mut cursor = Cursor::new(bytes);
    let got = get_answer(&mut cursor, call, &kind.shape);
    let got = got.expect("the bytes were counted by the same shape");
    let expected = (kind.answer)(call);
    if got == expected {
        return None;
    }
    let mut report = format!("call {}: {}\n", index + 1, words::call_in_words(kind, call));
    report += &format!("  header   {:X?}\n", call.header());
    report += &format!(
        "  expected {}\n",
        words::answer_in_words(kind, call, &expected)
    );
    report += &format!("  got      {}\n", words::answer_in_words(kind, call, &got));
    report += &format!("  first in {}", words::first_difference(&expected, &got));
    Some(report)
}

fn report_of_lack(index: usize, kind: &Kind, call: &Call, lack: &Lack) -> String {
    let what = if lack.silent {
        "fell silent"
    } else {
        "ended its output"
    };
    let bytes = kind.shape.answer_bytes(call);
    let mut report = format!("call {}: {}\n", index + 1, words::call_in_words(kind, call));
    report += &format!("  header   {:X?}\n", call.header());
    report += &format!("  expected an answer of {bytes} bytes\n");
    report += &format!(
        "  got      {} bytes, then the program {what}",
        lack.bytes_got
    );
    report
}

fn check_that_nothing_follows(output: &mut Output) -> Option<String> {
    match output.rest(0) {
        Err(_) => Some("the program did not end at the end of its input".to_string()),
        Ok(bytes) if bytes.is_empty() => None,
        Ok(bytes) => {
            let front = &bytes[..bytes.len().min(16)];
            Some(format!(
                "after all answers the program wrote more: {front:02X?} .."
            ))
        }
    }
}

/// The cases of one kind: its edges on every other turn while they last, else seeded ones,
/// so that a short comparison has some of both. The meanest edges stand first in their list.
struct Source {
    kind: &'static Kind,
    edges: std::vec::IntoIter<Call>,
    random: Random,
    turn: usize,
}

impl Source {
    fn new(kind: &'static Kind, seed: u64, with_edges: bool) -> Source {
        let random = Random::for_kind(seed, kind.number);
        let edges = match with_edges {
            true => (kind.edges)().into_iter(),
            false => Vec::new().into_iter(),
        };
        Source {
            kind,
            edges,
            random,
            turn: 0,
        }
    }

    fn next(&mut self) -> Call {
        self.turn += 1;
        if self.turn % 2 == 1 {
            if let Some(call) = self.edges.next() {
                return call;
            }
        }
        (self.kind.random)(&mut self.random)
    }
}

/// What a seeded comparison is made of.
pub struct Plan {
    pub kinds: Vec<&'static Kind>,
    pub seed: u64,
    pub calls: usize,
    /// The number of a chunk where the plan is a part of a long run. Chunks have seeds of their
    /// own, and no edges: those are the same under every seed, and a long run would only repeat
    /// them.
    pub chunk: Option<u64>,
}

impl Plan {
    /// An even share of the calls to each kind, in shuffled order, so that what one kind leaves
    /// behind in the program meets every other kind.
    pub fn calls(&self) -> impl Iterator<Item = Call> {
        let seed = match self.chunk {
            Some(chunk) => Random::seed_of_chunk(self.seed, chunk),
            None => self.seed,
        };
        let kinds = self.kinds.iter();
        let source = |kind: &&'static Kind| Source::new(kind, seed, self.chunk.is_none());
        let mut sources: Vec<Source> = kinds.map(source).collect();
        let mut order: Vec<usize> = (0..self.calls).map(|call| call % sources.len()).collect();
        Random::new(seed).shuffle(&mut order);
        order.into_iter().map(move |index| sources[index].next())
    }

    /// What to say the calls are, after their number.
    pub fn name(&self) -> String {
        match self.chunk {
            Some(chunk) => format!("chunk {chunk} of seed {}", self.seed),
            None => format!("seed {}", self.seed),
        }
    }
}

/// The seeded comparison. Gives reports on what differs.
pub fn seeded(program: &Program, plan: &Plan) -> Vec<String> {
    let mut calls = plan.calls();
    loop {
        let part: Vec<Call> = calls.by_ref().take(CALLS_IN_ONE_RUN).collect();
        if part.is_empty() {
            return Vec::new();
        }
        let reports = differences(program, &part);
        if !reports.is_empty() {
            return reports;
        }
    }
}

/// The exhaustive comparison: all such calls of a kind in one run. Gives their number.
pub fn exhaustive(program: &Program, kinds: &[&Kind]) -> Result<usize, Vec<String>> {
    let mut total = 0;
    for kind in kinds {
        let calls = (kind.every)();
        let reports = differences(program, &calls);
        if !reports.is_empty() {
            return Err(reports);
        }
        println!("{}: {} calls agree", kind.name, calls.len());
        total += calls.len();
    }
    Ok(total)
}
