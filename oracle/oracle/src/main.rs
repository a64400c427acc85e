//! The command line. Every command that asks dew says so where dew's source is
//! not at hand, and fails.

mod arguments;

use std::io::{self, Read, Write};
use std::path::PathBuf;
use std::process::ExitCode;

use arguments::Arguments;
use oracle::answers;
use oracle::batch;
use oracle::calls::{self, Call};
use oracle::command::Op;
use oracle::compare::{self, Form, Program};
use oracle::describe;
use oracle::entry::{Entry, call};
use oracle::generate::{self, Kind};
use oracle::header::Header;
use oracle::model::{self, mistake::Mistake};
use oracle::panels::{
    run_lists,
    subject::{Subject, with_mistake},
};
use oracle::plan::Plan;
use oracle::planners;
use oracle::print::{full_form, plan_form};
use oracle::program;
use oracle::space::Space;

const USAGE: &str = "\
oracle plan                                 the plan program, by dew
oracle full [--first] [--space C,G,K,R,N,W] one call, everything it answers
oracle candidates                           header, y and words in, a row out
oracle batch                                many inputs of the plan program
oracle calls                                many calls, everything they answer
oracle generate --kind K --seeds A..B [--calls]
oracle compare --program P [--arg A].. --kind K --seeds A..B [--batch | --calls]
               [--shrink] [--out DIR]
oracle panels --seeds A..B
oracle answers --out DIR
with --model: by document 01's planner instead of dew; with --mistake NAME: by it with a mistake
";

fn main() -> ExitCode {
    match run(Arguments::new(std::env::args().skip(1))) {
        Ok(code) => code,
        Err(message) => {
            eprintln!("oracle: {message}");
            ExitCode::from(2)
        }
    }
}

fn run(mut arguments: Arguments) -> Result<ExitCode, String> {
    let command = arguments.command().ok_or(USAGE)?;
    match command.as_str() {
        "plan" => {
            let planner = planner(&mut arguments)?;
            arguments.finish()?;
            print(&plan_form(&program::answer(&planner, &input()?)))
        }
        "full" => full(arguments),
        "candidates" => {
            arguments.finish()?;
            print(&calls::answer_candidates(&input()?))
        }
        "batch" => {
            let planner = planner(&mut arguments)?;
            arguments.finish()?;
            each(|input| Ok(plan_form(&program::answer(&planner, input))))
        }
        "calls" => {
            let planner = planner(&mut arguments)?;
            arguments.finish()?;
            each(|bytes| {
                let call = Call::read(bytes).ok_or("a call's first bytes are missing")?;
                Ok(call.answer(&planner))
            })
        }
        "generate" => generate(arguments),
        "compare" => compare(arguments),
        "panels" => panels(arguments),
        "answers" => answers(arguments),
        _ => Err(USAGE.to_owned()),
    }
}

type Plans = Box<dyn Fn(&Header, Option<&[Op]>, &[Op]) -> Plan>;

/// Dew, or the model, or the model with a mistake.
fn planner(arguments: &mut Arguments) -> Result<Plans, String> {
    if let Some(name) = arguments.value("--mistake")? {
        let mistake = mistake(&name)?;
        return Ok(Box::new(move |header, old, new| {
            model::plan(header, old, new, Some(mistake))
        }));
    }
    if arguments.flag("--model") {
        return Ok(Box::new(planners::document));
    }
    let dew = planners::dew().ok_or("dew's source is not beside the repository")?;
    Ok(Box::new(dew))
}

fn full(mut arguments: Arguments) -> Result<ExitCode, String> {
    let planner = planner(&mut arguments)?;
    let entry = if arguments.flag("--first") {
        Entry::First
    } else {
        Entry::Later
    };
    let space = match arguments.value("--space")? {
        Some(items) => space(&items)?,
        None => Space::AMPLE,
    };
    arguments.finish()?;
    print(&full_form(&call(&planner, entry, &input()?, space)))
}

fn space(items: &str) -> Result<Space, String> {
    let items: Vec<usize> = items
        .split(',')
        .map(|items| {
            items
                .parse()
                .map_err(|_| format!("{items} is no number of items"))
        })
        .collect::<Result<_, _>>()?;
    let items: [usize; 6] = items
        .try_into()
        .map_err(|_| "space is lent in six numbers")?;
    Ok(Space::of_items(items))
}

fn generate(mut arguments: Arguments) -> Result<ExitCode, String> {
    let as_calls = arguments.flag("--calls");
    let kind = kind(&mut arguments)?;
    let seeds = arguments.seeds()?;
    let mut output = Vec::new();
    if as_calls {
        let planner = planner(&mut arguments)?;
        for seed in seeds {
            for call in generate::calls(kind, seed, &planner) {
                batch::push(&mut output, &call.bytes());
            }
        }
    } else {
        for seed in seeds {
            let input = generate::input(kind, seed)
                .ok_or_else(|| format!("{} are calls: add --calls", kind.name()))?;
            batch::push(&mut output, &input);
        }
    }
    arguments.finish()?;
    write(&output)
}

fn compare(mut arguments: Arguments) -> Result<ExitCode, String> {
    let form = match (arguments.flag("--batch"), arguments.flag("--calls")) {
        (false, false) => Form::Single,
        (true, false) => Form::Batch,
        (false, true) => Form::Calls,
        (true, true) => return Err("--batch and --calls are two forms".to_owned()),
    };
    let program = Program {
        path: arguments
            .value("--program")?
            .ok_or("--program is missing")?
            .into(),
        arguments: arguments.values("--arg")?,
    };
    let kind = kind(&mut arguments)?;
    let seeds = arguments.seeds()?;
    let directory = PathBuf::from(arguments.value("--out")?.unwrap_or_else(|| ".".to_owned()));
    let shrink = arguments.flag("--shrink");
    let planner = planner(&mut arguments)?;
    arguments.finish()?;
    if form != Form::Calls && generate::input(kind, 0).is_none() {
        return Err(format!("{} are calls: add --calls", kind.name()));
    }
    let outcome = compare::compare(&program, kind, seeds.clone(), form, &planner)
        .map_err(|error| format!("{}: {error}", program.path.display()))?;
    match outcome {
        Ok(cases) => {
            let text = format!(
                "{}: {cases} cases of seeds {}..{} alike\n",
                kind.name(),
                seeds.start,
                seeds.end
            );
            print(&text)
        }
        Err(mut difference) => {
            if shrink {
                difference = compare::smallest(&program, form, &planner, difference);
            }
            let path = compare::write_input(&difference, kind, &directory)
                .map_err(|error| format!("{}: {error}", directory.display()))?;
            let mut text = format!("{}: {difference}\n", kind.name());
            for line in described(form, &difference.case.input) {
                text += &format!("  {line}\n");
            }
            print(&format!("{text}input in {}\n", path.display()))?;
            Ok(ExitCode::FAILURE)
        }
    }
}

/// An input as lines to read.
fn described(form: Form, input: &[u8]) -> Vec<String> {
    match form {
        Form::Single | Form::Batch => describe::input(input),
        Form::Calls => Call::read(input).map_or_else(Vec::new, |call| call.described()),
    }
}

fn panels(mut arguments: Arguments) -> Result<ExitCode, String> {
    let seeds = arguments.seeds()?;
    let mistake = arguments.value("--mistake")?;
    let planner = planner(&mut arguments)?;
    arguments.finish()?;
    let outcome = match mistake {
        Some(name) => with_mistake(self::mistake(&name)?, |subject| {
            run_lists(seeds.clone(), &planner, subject)
        }),
        None => run_lists(seeds.clone(), &planner, &Subject::new(&planner)),
    };
    match outcome {
        Ok(tally) => print(&format!(
            "panels: {} lists of seeds {}..{}, {} frames, {} accepted, {} of them later ones, {} regions: no difference\n",
            seeds.end - seeds.start,
            seeds.start,
            seeds.end,
            tally.frames,
            tally.accepted,
            tally.later,
            tally.regions
        )),
        Err((seed, (frame, fault))) => {
            print(&format!("panels: list {seed}, frame {frame}: {fault:?}\n"))?;
            Ok(ExitCode::FAILURE)
        }
    }
}

fn answers(mut arguments: Arguments) -> Result<ExitCode, String> {
    let directory = PathBuf::from(arguments.value("--out")?.ok_or("--out is missing")?);
    let planner = planner(&mut arguments)?;
    arguments.finish()?;
    for (name, contents) in answers::files(&planner) {
        let path = directory.join(name);
        std::fs::write(&path, contents).map_err(|error| format!("{}: {error}", path.display()))?;
    }
    Ok(ExitCode::SUCCESS)
}

fn mistake(name: &str) -> Result<Mistake, String> {
    Mistake::named(name).ok_or_else(|| format!("no mistake is named {name}"))
}

fn kind(arguments: &mut Arguments) -> Result<Kind, String> {
    let name = arguments.value("--kind")?.ok_or("--kind is missing")?;
    Kind::named(&name).ok_or_else(|| {
        let names: Vec<&str> = Kind::ALL.iter().map(|(name, _)| *name).collect();
        format!("the kinds are {}", names.join(", "))
    })
}

/// Answers each input of a batch.
fn each(answer: impl Fn(&[u8]) -> Result<String, String>) -> Result<ExitCode, String> {
    let input = input()?;
    let inputs = batch::inputs(&input).ok_or("the last input is cut off")?;
    let mut output = Vec::new();
    for input in inputs {
        output.extend(answer(input)?.bytes());
        output.extend(batch::MARKER.bytes());
    }
    write(&output)
}

fn input() -> Result<Vec<u8>, String> {
    let mut input = Vec::new();
    io::stdin()
        .read_to_end(&mut input)
        .map_err(|error| error.to_string())?;
    Ok(input)
}

fn print(text: &str) -> Result<ExitCode, String> {
    write(text.as_bytes())
}

fn write(bytes: &[u8]) -> Result<ExitCode, String> {
    io::stdout()
        .write_all(bytes)
        .map_err(|error| error.to_string())?;
    Ok(ExitCode::SUCCESS)
}
