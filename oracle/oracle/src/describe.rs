//! Inputs as lines to read: what each command says, then its bytes in hex.

use std::fmt::Write;

use kurbo::{Affine, Rect};

use crate::command::{Draw, Shape};
use crate::header::{self, Header};
use crate::read::{Operands, command_at};

/// The lines of an entry's input. Bytes that are no whole command come last, in
/// one line.
#[must_use]
pub fn input(bytes: &[u8]) -> Vec<String> {
    let Some((first, mut rest)) = bytes.split_at_checked(header::LENGTH) else {
        return vec![unread(bytes)];
    };
    let mut lines = vec![header_line(first)];
    while let Some((length, operands)) = command_at(rest) {
        let (command, after) = rest.split_at(length);
        lines.push(format!("{} = {}", says(operands.as_ref()), hex(command)));
        rest = after;
    }
    if !rest.is_empty() {
        lines.push(unread(rest));
    }
    lines
}

/// The lines of an input of `candidates`.
#[must_use]
pub fn candidates(bytes: &[u8]) -> Vec<String> {
    let (first, rest) = bytes.split_at(header::LENGTH);
    let mut lines = vec![header_line(first)];
    let (y, words) = rest.split_at(4);
    let number = |word: &[u8]| u32::from_le_bytes(word.try_into().expect("four bytes"));
    lines.push(format!("y {} = {}", number(y), hex(y)));
    for word in words.chunks_exact(4) {
        lines.push(format!("{} = {}", number(word), hex(word)));
    }
    lines
}

/// Bytes that say nothing.
fn unread(bytes: &[u8]) -> String {
    format!("{} bytes = {}", bytes.len(), hex(bytes))
}

fn header_line(bytes: &[u8]) -> String {
    let number = |at: usize| u32::from_le_bytes(bytes[at..at + 4].try_into().expect("four bytes"));
    let header = Header {
        width: number(0),
        height: number(4),
        band_height: number(8),
    };
    format!(
        "{} by {}, band {} = {}",
        header.width,
        header.height,
        header.band_height,
        hex(bytes)
    )
}

#[must_use]
pub fn hex(bytes: &[u8]) -> String {
    bytes.iter().fold(String::new(), |mut text, byte| {
        let _ = write!(text, "{byte:02x}");
        text
    })
}

fn says(operands: Option<&Operands>) -> String {
    let Some(operands) = operands else {
        return "END".to_owned();
    };
    match operands {
        Operands::Clip(bounds) => format!("CLIP {}", rect(*bounds)),
        Operands::Pop => "POP".to_owned(),
        Operands::Glyph(glyph) => format!(
            "GLYPH id {} at {} {} box {}",
            glyph.id,
            glyph.x,
            glyph.y,
            rect(glyph.bounds)
        ),
        Operands::Draw(Draw::Fill(fill), _) => format!("FILL {}", shape(fill)),
        Operands::Draw(Draw::Stroke(path, pen), _) => format!(
            "STROKE {} width {} {:?} limit {} {:?} {:?} dash {}",
            shape(path),
            pen.width,
            pen.join,
            pen.miter_limit,
            pen.start_cap,
            pen.end_cap,
            pen.dash
        ),
        Operands::Draw(Draw::Run(run), count) => format!(
            "RUN font {} size {} by {} brush {} box {} glyphs {count}",
            run.font,
            run.size,
            affine(run.affine),
            run.brush,
            rect(run.bounds)
        ),
        Operands::Draw(Draw::Scene(scene), _) => format!(
            "SCENE {} generation {} target {} by {} box {}",
            scene.content,
            scene.generation,
            scene.target,
            affine(scene.affine),
            rect(scene.bounds)
        ),
    }
}

fn shape(shape: &Shape) -> String {
    format!(
        "path {} box {} by {} brush {}",
        shape.path,
        rect(shape.bounds),
        affine(shape.affine),
        shape.brush
    )
}

fn rect(rect: Rect) -> String {
    numbers(&rect.edges())
}

fn affine(affine: Affine) -> String {
    numbers(&affine.0)
}

fn numbers(numbers: &[f64]) -> String {
    let texts: Vec<String> = numbers.iter().map(|number| format!("{number:?}")).collect();
    texts
        .join(" ")
        .replace(".0 ", " ")
        .trim_end_matches(".0")
        .to_owned()
}
