//! Many inputs through one process. In: each input after its length (u32, little
//! endian). Out: each answer, then a line with a single dot.

/// The line after an answer. No answer has such a line of its own.
pub const MARKER: &str = ".\n";

/// Appends an input with its length.
pub fn push(batch: &mut Vec<u8>, input: &[u8]) {
    let length = u32::try_from(input.len()).expect("an input has a length of 32 bits");
    batch.extend(length.to_le_bytes());
    batch.extend(input);
}

/// The inputs of a batch, or nothing where its last input is cut off.
#[must_use]
pub fn inputs(mut batch: &[u8]) -> Option<Vec<&[u8]>> {
    let mut inputs = Vec::new();
    while !batch.is_empty() {
        let (length, rest) = batch.split_first_chunk()?;
        let (input, rest) = rest.split_at_checked(u32::from_le_bytes(*length) as usize)?;
        inputs.push(input);
        batch = rest;
    }
    Some(inputs)
}

/// The answers of a batch. What follows the last marker is an answer that was
/// not finished, and is left out.
#[must_use]
pub fn answers(output: &str) -> Vec<String> {
    let mut answers = Vec::new();
    let mut answer = String::new();
    for line in output.split_inclusive('\n') {
        if line == MARKER {
            answers.push(std::mem::take(&mut answer));
        } else {
            answer += line;
        }
    }
    answers
}

#[cfg(test)]
mod tests {
    use super::{answers, inputs, push};

    #[test]
    fn inputs_are_found_again() {
        let mut batch = Vec::new();
        push(&mut batch, &[1, 2, 3]);
        push(&mut batch, &[]);
        push(&mut batch, &[4]);
        let three: Vec<&[u8]> = vec![&[1, 2, 3], &[], &[4]];
        assert_eq!(inputs(&batch), Some(three));
        assert_eq!(inputs(&batch[..batch.len() - 1]), None);
        assert_eq!(inputs(&[1, 0]), None);
    }

    #[test]
    fn an_unfinished_answer_is_left_out() {
        assert_eq!(answers("a\nb\n.\n.\nc\n"), ["a\nb\n", ""]);
    }
}
