//! The stored answers: which cases are kept, and the files that keep them.

use std::collections::HashMap;

use crate::batch;
use crate::calls::{Call, Request};
use crate::entry::Entry;
use crate::generate::{self, Kind, document};
use crate::plan::Planner;
use crate::print::plan_form;
use crate::program;

/// How many cases of a kind are kept for each sort of answer, how long an input
/// and an answer may be, and how many seeds are tried.
struct Choice {
    kind: Kind,
    of_a_sort: usize,
    longest_input: usize,
    longest_answer: usize,
    seeds: u64,
}

const fn choice(kind: Kind, of_a_sort: usize, longest_input: usize) -> Choice {
    Choice {
        kind,
        of_a_sort,
        longest_input,
        longest_answer: 900,
        seeds: 4_000,
    }
}

const CHOICES: [Choice; 9] = [
    // Each once, whatever it answers.
    Choice {
        seeds: document::COUNT,
        ..choice(Kind::Document, usize::MAX, 500)
    },
    choice(Kind::Pages, 5, 700),
    choice(Kind::Edges, 4, 600),
    choice(Kind::Damage, 3, 600),
    Choice {
        seeds: 650,
        // 33 clips in both strips.
        ..choice(Kind::Limits, 2, 2_300)
    },
    choice(Kind::Tiny, 4, 400),
    choice(Kind::First, 3, 500),
    choice(Kind::Frames, 2, 600),
    choice(Kind::Candidates, 6, 140),
];

/// A case that is kept.
pub struct Kept {
    pub seed: u64,
    /// The program's answer to the call's input, where the program takes it.
    pub printed: Option<String>,
    pub call: Call,
    pub answer: String,
}

/// The files by name.
#[must_use]
pub fn files(planner: Planner) -> Vec<(String, Vec<u8>)> {
    let mut files = Vec::new();
    let (mut plan_in, mut plan_out) = (Vec::new(), String::new());
    let (mut calls_in, mut calls_out) = (Vec::new(), String::new());
    for choice in &CHOICES {
        let cases = cases(choice, planner);
        for case in &cases {
            if let Some(printed) = &case.printed {
                batch::push(&mut plan_in, &case.call.input);
                plan_out += printed;
                plan_out += batch::MARKER;
            }
            batch::push(&mut calls_in, &case.call.bytes());
            calls_out += &case.answer;
            calls_out += batch::MARKER;
        }
        let text: String = cases.iter().map(|case| text(choice.kind, case)).collect();
        files.push((format!("{}.txt", choice.kind.name()), text.into_bytes()));
    }
    files.push(("plan.in".to_owned(), plan_in));
    files.push(("plan.out".to_owned(), plan_out.into_bytes()));
    files.push(("calls.in".to_owned(), calls_in));
    files.push(("calls.out".to_owned(), calls_out.into_bytes()));
    files
}

/// The first cases of each sort, in the order of seeds.
fn cases(choice: &Choice, planner: Planner) -> Vec<Kept> {
    let mut sorts: HashMap<String, usize> = HashMap::new();
    let mut cases = Vec::new();
    for seed in 0..choice.seeds {
        for call in generate::calls(choice.kind, seed, planner) {
            let answer = call.answer(planner);
            let printed = generate::input(choice.kind, seed)
                .map(|input| plan_form(&program::answer(planner, &input)));
            if call.input.len() > choice.longest_input || answer.len() > choice.longest_answer {
                continue;
            }
            let kept = sorts.entry(sort(&call, &answer)).or_default();
            if *kept < choice.of_a_sort {
                *kept += 1;
                cases.push(Kept {
                    seed,
                    printed,
                    call,
                    answer,
                });
            }
        }
    }
    cases
}

/// Answers of one sort: the number of a refusal; else the counts of rectangles
/// and regions, from three on alike.
fn sort(call: &Call, answer: &str) -> String {
    let entry = match &call.request {
        Request::Frame {
            entry: Entry::First,
            ..
        } => "first",
        Request::Frame {
            entry: Entry::Later,
            ..
        } => "later",
        Request::Candidates => "candidates",
    };
    let mut words = answer.split_whitespace();
    let count = |name: &str| {
        let mut words = answer.split_whitespace();
        words.find(|word| *word == name);
        words
            .next()
            .map_or(0, |count| count.parse().unwrap_or(0).min(3))
    };
    match words.next() {
        Some("refused") => format!("{entry} refused {}", words.next().unwrap_or("")),
        Some("draw") => format!("{entry} {}", words.count().min(2)),
        _ => format!("{entry} {} {}", count("rectangles"), count("regions")),
    }
}

/// A case to read: what is lent, the input, what the program prints, what the
/// entry answers.
fn text(kind: Kind, case: &Kept) -> String {
    let Kept {
        seed,
        printed,
        call,
        answer,
    } = case;
    let mut text = format!("case {} {seed}\n", kind.name());
    for line in call.described() {
        text += &format!("  {line}\n");
    }
    if let Some(printed) = printed {
        text += "the program prints\n";
        text += &indented(printed);
    }
    text += "the entry answers\n";
    text += &indented(answer);
    text.push('\n');
    text
}

fn indented(text: &str) -> String {
    text.lines().map(|line| format!("  {line}\n")).collect()
}
