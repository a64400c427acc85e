//! Answers as text. The plan form is the plan program's, to the byte; the full
//! form says everything that an entry writes.

use std::fmt::Write;

use crate::candidates::candidates;
use crate::entry::Accepted;
use crate::refusal::Refusal;

/// What the plan program prints.
#[must_use]
pub fn plan_form(answer: &Result<Accepted, Refusal>) -> String {
    let accepted = match answer {
        Ok(accepted) => accepted,
        Err(refusal) => return format!("{refusal}\n"),
    };
    let plan = &accepted.plan;
    let mut text = format!("dirty {}\n", plan.dirty.len());
    for region in &plan.regions {
        let drawn = candidates(accepted.header, region.y, &plan.words)
            .expect("a planned region lies in a row of its own plan");
        let _ = write!(
            text,
            "region {} {} {} {} draw",
            region.x, region.y, region.width, region.height
        );
        numbers(&mut text, drawn);
    }
    let _ = writeln!(
        text,
        "regions {} pixels {}",
        plan.regions_transferred, plan.pixels_transferred
    );
    text
}

/// Everything: the edges' bits, a zero edge without its sign, since only that
/// sign is open.
#[must_use]
pub fn full_form(answer: &Result<Accepted, Refusal>) -> String {
    let accepted = match answer {
        Ok(accepted) => accepted,
        Err(refusal) => return format!("{refusal}\n"),
    };
    let plan = &accepted.plan;
    let mut text = format!(
        "accepted\ncommands {}\nrectangles {}\n",
        plan.commands_emitted,
        plan.dirty.len()
    );
    for rect in &plan.dirty {
        text += "rectangle";
        for edge in rect.edges() {
            let _ = write!(text, " {:016x}", unsigned_zero(edge).to_bits());
        }
        text.push('\n');
    }
    let _ = writeln!(
        text,
        "regions {} pixels {}",
        plan.regions_transferred, plan.pixels_transferred
    );
    for region in &plan.regions {
        let _ = writeln!(
            text,
            "region {} {} {} {}",
            region.x, region.y, region.width, region.height
        );
    }
    let (starts, entries) = plan.words.split_at(accepted.header.rows() as usize + 1);
    let _ = write!(text, "words {}\nstarts", plan.words.len());
    numbers(&mut text, starts);
    text += "entries";
    numbers(&mut text, entries);
    text += "space";
    for items in accepted.used.items() {
        let _ = write!(text, " {items}");
    }
    text.push('\n');
    text
}

/// What `candidates` answers.
#[must_use]
pub fn candidates_form(answer: &Result<&[u32], Refusal>) -> String {
    match answer {
        Ok(drawn) => {
            let mut text = String::from("draw");
            numbers(&mut text, drawn);
            text
        }
        Err(refusal) => format!("{refusal}\n"),
    }
}

/// Each number after a blank, then the line's end.
fn numbers(text: &mut String, numbers: &[u32]) {
    for number in numbers {
        let _ = write!(text, " {number}");
    }
    text.push('\n');
}

fn unsigned_zero(edge: f64) -> f64 {
    if edge == 0.0 { 0.0 } else { edge }
}
