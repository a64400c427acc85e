//! Runs a program beside the oracle and reports the first difference.

use std::fmt;
use std::io::{self, Read, Write};
use std::ops::Range;
use std::path::{Path, PathBuf};
use std::process::{Command, Stdio};
use std::thread;

use crate::batch;
use crate::calls::{Call, Request};
use crate::entry::Entry;
use crate::generate::{self, Kind};
use crate::plan::Planner;
use crate::print::plan_form;
use crate::program;
use crate::shrink::shrink;

/// How the program is fed.
#[derive(Debug, Clone, Copy, PartialEq, Eq)]
pub enum Form {
    /// One process an input, as the plan program is run.
    Single,
    /// One process for many inputs, answers in the plan form.
    Batch,
    /// One process for many calls, answers in the full form.
    Calls,
}

#[derive(Debug, Clone)]
pub struct Program {
    pub path: PathBuf,
    pub arguments: Vec<String>,
}

/// An input with the oracle's answer to it.
#[derive(Debug, Clone)]
pub struct Case {
    pub seed: u64,
    pub input: Vec<u8>,
    pub expected: String,
}

#[derive(Debug, Clone)]
pub struct Difference {
    pub case: Case,
    /// The program's answer, if it gave one.
    pub found: Option<String>,
}

impl fmt::Display for Difference {
    fn fmt(&self, f: &mut fmt::Formatter<'_>) -> fmt::Result {
        writeln!(f, "difference at seed {}", self.case.seed)?;
        writeln!(f, "expected:\n{}", self.case.expected)?;
        match &self.found {
            Some(found) => write!(f, "found:\n{found}"),
            None => write!(f, "found: no answer"),
        }
    }
}

/// Seeds for one process, so that inputs and answers fit in memory.
const SEEDS_A_PROCESS: u64 = 2_000;

/// Compares over the seeds; the number of cases, or the first difference.
pub fn compare(
    program: &Program,
    kind: Kind,
    seeds: Range<u64>,
    form: Form,
    planner: Planner,
) -> io::Result<Result<usize, Difference>> {
    let mut compared = 0;
    let mut start = seeds.start;
    while start < seeds.end {
        let end = seeds.end.min(start + SEEDS_A_PROCESS);
        let cases: Vec<Case> = (start..end)
            .flat_map(|seed| cases(kind, seed, form, planner))
            .collect();
        compared += cases.len();
        let difference = match form {
            Form::Single => one_by_one(program, cases)?,
            Form::Batch | Form::Calls => together(program, cases)?,
        };
        if let Some(difference) = difference {
            return Ok(Err(difference));
        }
        start = end;
    }
    Ok(Ok(compared))
}

/// The cases of a seed: a list of frames has several.
#[must_use]
pub fn cases(kind: Kind, seed: u64, form: Form, planner: Planner) -> Vec<Case> {
    match form {
        Form::Single | Form::Batch => generate::input(kind, seed)
            .map(|input| Case {
                seed,
                expected: plan_form(&program::answer(planner, &input)),
                input,
            })
            .into_iter()
            .collect(),
        Form::Calls => generate::calls(kind, seed, planner)
            .into_iter()
            .map(|call| Case {
                seed,
                expected: call.answer(planner),
                input: call.bytes(),
            })
            .collect(),
    }
}

fn one_by_one(program: &Program, cases: Vec<Case>) -> io::Result<Option<Difference>> {
    for case in cases {
        let found = run(program, case.input.clone())?;
        if found != case.expected {
            return Ok(Some(Difference {
                case,
                found: Some(found),
            }));
        }
    }
    Ok(None)
}

fn together(program: &Program, cases: Vec<Case>) -> io::Result<Option<Difference>> {
    let mut input = Vec::new();
    for case in &cases {
        batch::push(&mut input, &case.input);
    }
    let output = run(program, input)?;
    let mut answers = batch::answers(&output).into_iter();
    for case in cases {
        let found = answers.next();
        if found.as_ref() != Some(&case.expected) {
            return Ok(Some(Difference { case, found }));
        }
    }
    Ok(None)
}

/// The standard output of the program for a standard input.
fn run(program: &Program, input: Vec<u8>) -> io::Result<String> {
    let mut process = Command::new(&program.path)
        .args(&program.arguments)
        .stdin(Stdio::piped())
        .stdout(Stdio::piped())
        .spawn()?;
    let mut stdin = process.stdin.take().expect("standard input is a pipe");
    let mut stdout = process.stdout.take().expect("standard output is a pipe");
    // Written beside the reading, or both sides could wait on a full pipe. A
    // program may stop reading early: its answer is compared all the same.
    let writer = thread::spawn(move || {
        let _ = stdin.write_all(&input);
    });
    let mut output = Vec::new();
    stdout.read_to_end(&mut output)?;
    let _ = writer.join();
    process.wait()?;
    Ok(String::from_utf8_lossy(&output).into_owned())
}

/// The difference on the smallest input that still shows it.
pub fn smallest(
    program: &Program,
    form: Form,
    planner: Planner,
    difference: Difference,
) -> Difference {
    let mut best = difference;
    let seed = best.case.seed;
    let (first, request) = match form {
        Form::Single | Form::Batch => (best.case.input.clone(), None),
        Form::Calls => match Call::read(&best.case.input) {
            Some(call) => (call.input, Some(call.request)),
            None => return best,
        },
    };
    let entry = match &request {
        None => Entry::Later,
        Some(Request::Frame { entry, .. }) => *entry,
        Some(Request::Candidates) => return best,
    };
    shrink(entry, &first, &mut |input| {
        let case = match &request {
            None => Case {
                seed,
                input: input.to_vec(),
                expected: plan_form(&program::answer(planner, input)),
            },
            Some(request) => {
                let call = Call {
                    request: request.clone(),
                    input: input.to_vec(),
                };
                Case {
                    seed,
                    input: call.bytes(),
                    expected: call.answer(planner),
                }
            }
        };
        let found = match form {
            Form::Single => one_by_one(program, vec![case]),
            Form::Batch | Form::Calls => together(program, vec![case]),
        };
        match found {
            Ok(Some(smaller)) => {
                best = smaller;
                true
            }
            Ok(None) | Err(_) => false,
        }
    });
    best
}

/// Writes a difference's input beside the other files of `directory`.
pub fn write_input(difference: &Difference, kind: Kind, directory: &Path) -> io::Result<PathBuf> {
    let name = format!("difference-{}-{}.bin", kind.name(), difference.case.seed);
    let path = directory.join(name);
    std::fs::write(&path, &difference.case.input)?;
    Ok(path)
}
