//! Makes an input smaller while something holds of it: a difference is easier to
//! understand in two commands than in forty.

use crate::command::{Draw, Op};
use crate::entry::{Entry, read};
use crate::generate::edits;
use crate::header;
use crate::read::command_at;
use crate::write;

/// A smaller input for which `holds` still holds, or the input itself.
pub fn shrink(entry: Entry, input: &[u8], holds: &mut dyn FnMut(&[u8]) -> bool) -> Vec<u8> {
    let mut smallest = input.to_vec();
    while let Some(smaller) = smaller(entry, &smallest)
        .into_iter()
        .find(|smaller| smaller.len() < smallest.len() && holds(smaller))
    {
        smallest = smaller;
    }
    smallest
}

/// Inputs with one thing less.
fn smaller(entry: Entry, input: &[u8]) -> Vec<Vec<u8>> {
    let Ok(frame) = read(entry, input) else {
        return without_a_command(input);
    };
    let header = frame.header.bytes();
    let written = |old: &Option<Vec<Op>>, new: &[Op]| {
        let mut input = header.clone();
        if let Some(old) = old {
            input.extend(write::strip(old));
        }
        input.extend(write::strip(new));
        input
    };
    let mut inputs = Vec::new();
    if let Some(old) = &frame.old {
        // The same place in both strips first: it keeps the rest in step.
        for place in (0..old.len().min(frame.new.len())).rev() {
            let mut both = [old.clone(), frame.new.clone()];
            both.iter_mut().for_each(|ops| edits::remove(ops, place));
            let [old, new] = both;
            inputs.push(written(&Some(old), &new));
        }
        for fewer in fewer(old) {
            inputs.push(written(&Some(fewer), &frame.new));
        }
    }
    for fewer in fewer(&frame.new) {
        inputs.push(written(&frame.old, &fewer));
    }
    inputs
}

/// The operations without one, or without one glyph.
fn fewer(ops: &[Op]) -> Vec<Vec<Op>> {
    let mut lists = Vec::new();
    for place in 0..ops.len() {
        let mut fewer = ops.to_vec();
        edits::remove(&mut fewer, place);
        lists.push(fewer);
        if let Op::Draw(Draw::Run(run)) = &ops[place] {
            for glyph in 0..run.glyphs.len() {
                let mut run = run.clone();
                run.glyphs.remove(glyph);
                let mut fewer = ops.to_vec();
                fewer[place] = Op::Draw(Draw::Run(run));
                lists.push(fewer);
            }
        }
    }
    lists
}

/// The bytes without one command, for inputs that are refused.
fn without_a_command(input: &[u8]) -> Vec<Vec<u8>> {
    let mut inputs = Vec::new();
    let mut at = header::LENGTH;
    while let Some((length, _)) = input.get(at..).and_then(command_at) {
        let mut fewer = input.to_vec();
        fewer.drain(at..at + length);
        inputs.push(fewer);
        at += length;
    }
    inputs
}

#[cfg(test)]
mod tests {
    use super::shrink;
    use crate::entry::{Entry, call};
    use crate::generate::{self, Kind};
    use crate::model::{self, mistake::Mistake};
    use crate::planners::document;
    use crate::print::full_form;
    use crate::space::Space;

    /// A mistake's smallest input has few commands and still shows it.
    #[test]
    fn a_difference_is_made_small() {
        let wrong = |header: &_, old: Option<&[_]>, new: &[_]| {
            model::plan(header, old, new, Some(Mistake::OldCommandsForgotten))
        };
        let answer =
            |planner, input: &[u8]| full_form(&call(planner, Entry::Later, input, Space::AMPLE));
        let mut differs = |input: &[u8]| answer(&document, input) != answer(&wrong, input);
        let input = (0..)
            .filter_map(|seed| generate::input(Kind::Pages, seed))
            .find(|input| input.len() > 2_000 && differs(input))
            .expect("a seed that shows the mistake");
        let small = shrink(Entry::Later, &input, &mut differs);
        assert!(differs(&small));
        // A header, the forgotten command and two ENDs.
        assert!(small.len() <= 12 + 124 + 2, "{} bytes", small.len());
    }
}
