//! Draws an input and its plan as an SVG: the last page, the new page, and over the new page what changed, the regions to paint
//! anew with their numbers, and the band edges; beside them the regions with the commands that may touch them.
//!
//! `cargo run --example picture -- INPUT > picture.svg`

use std::env;
use std::fmt::Write;
use std::fs;
use std::process::ExitCode;

use sovdringa::strip::{Cap, Command, Join, Stroke, read};
use sovdringa::{Affine, Header, Plan, Rect, Refusal, Region, Space, plan_next_growing};

fn main() -> ExitCode {
    let arguments: Vec<String> = env::args().skip(1).collect();
    let [path] = &arguments[..] else {
        eprintln!("picture INPUT > picture.svg");
        return ExitCode::FAILURE;
    };
    let input = match fs::read(path) {
        Ok(input) => input,
        Err(error) => {
            eprintln!("picture: {path}: {error}");
            return ExitCode::FAILURE;
        }
    };
    match drawn(&input) {
        Ok(svg) => {
            print!("{svg}");
            ExitCode::SUCCESS
        }
        Err(refusal) => {
            eprintln!("picture: {refusal}");
            ExitCode::FAILURE
        }
    }
}

/// The picture of an input that has a plan.
fn drawn(input: &[u8]) -> Result<String, Refusal> {
    let mut space = Space::default();
    let plan = plan_next_growing(&mut space, input)?;
    let (_, pages) = read(input).expect("an input with a plan is whole");
    Ok(picture(&plan, &shown(&pages[0]), &shown(&pages[1])))
}

/// What a drawing command shows: its parts, each a box on the screen.
struct Shown {
    kind: Kind,
    parts: Vec<Rect>,
}

#[derive(Clone, Copy, PartialEq, Eq)]
enum Kind {
    Fill(u64),
    Stroke,
    Run,
    Scene,
}

/// The drawing commands of a page under their clips.
fn shown(page: &[Command]) -> Vec<Shown> {
    let mut clips: Vec<Rect> = Vec::new();
    let mut all = Vec::new();
    for command in page {
        let (kind, affine, boxes) = match command {
            Command::Clip(bounds) => {
                clips.push(
                    clips
                        .last()
                        .map_or(*bounds, |open| intersect(*open, *bounds)),
                );
                continue;
            }
            Command::Pop => {
                clips.pop();
                continue;
            }
            Command::Fill(shape) => (Kind::Fill(shape.brush), shape.affine, vec![shape.bounds]),
            Command::Stroke(shape, stroke) => {
                let w = reach(stroke);
                let Rect { x0, y0, x1, y1 } = shape.bounds;
                let grown = Rect::new(x0 - w, y0 - w, x1 + w, y1 + w);
                (Kind::Stroke, shape.affine, vec![grown])
            }
            Command::Run(run, glyphs) => {
                let boxes = glyphs.iter().map(|glyph| glyph.bounds).collect();
                (Kind::Run, run.affine, boxes)
            }
            Command::Scene(scene) => (Kind::Scene, scene.affine, vec![scene.bounds]),
            // A picture without it would be wrong.
            unknown => panic!("a command that is not drawn yet: {unknown:?}"),
        };
        let on_screen = |bounds| {
            let transformed = transform(affine, bounds);
            clips
                .last()
                .map_or(transformed, |open| intersect(transformed, *open))
        };
        let parts = boxes.into_iter().map(on_screen).collect();
        all.push(Shown { kind, parts });
    }
    all
}

fn intersect(a: Rect, b: Rect) -> Rect {
    let (x0, y0) = (a.x0.max(b.x0), a.y0.max(b.y0));
    Rect::new(x0, y0, a.x1.min(b.x1).max(x0), a.y1.min(b.y1).max(y0))
}

fn transform(affine: Affine, bounds: Rect) -> Rect {
    let [a, b, c, d, e, f] = affine.0;
    let corners = [
        (bounds.x0, bounds.y0),
        (bounds.x0, bounds.y1),
        (bounds.x1, bounds.y0),
        (bounds.x1, bounds.y1),
    ];
    let xs = corners.map(|(x, y)| a * x + c * y + e);
    let ys = corners.map(|(x, y)| b * x + d * y + f);
    let least = |numbers: [f64; 4]| numbers.into_iter().fold(f64::INFINITY, f64::min);
    let most = |numbers: [f64; 4]| numbers.into_iter().fold(f64::NEG_INFINITY, f64::max);
    Rect::new(least(xs), least(ys), most(xs), most(ys))
}

/// How far a stroke goes beyond its path's box.
fn reach(stroke: &Stroke) -> f64 {
    let join = match stroke.join {
        Join::Miter => stroke.miter_limit.max(1.0),
        Join::Bevel | Join::Round => 1.0,
    };
    let square = stroke.start_cap == Cap::Square || stroke.end_cap == Cap::Square;
    let cap = if square {
        std::f64::consts::SQRT_2
    } else {
        1.0
    };
    stroke.width / 2.0 * join.max(cap)
}

const INK: &str = "#1f2933";
const FAINT: &str = "#7b8794";
const CHANGED: &str = "#d64545";
const REGION: &str = "#1f6feb";
const FILLS: [&str; 6] = [
    "#eef2f6", "#dde7f0", "#f6ead7", "#c9dcc4", "#e6d9ec", "#d5e8e8",
];

const SCENE: &str = "fill=\"#e9d8fd\" stroke=\"#7b8794\" stroke-dasharray=\"4 2\"";

/// Width of the plan's panel and its greatest height, and the width of the column beside it.
const PANEL: f64 = 960.0;
const TALLEST: f64 = 960.0;
const COLUMN: f64 = 400.0;
const MARGIN: f64 = 28.0;
/// Left of the panels stand the numbers of the bands.
const GUTTER: f64 = 34.0;
/// Rows of text that the column holds at least, and regions that are listed at most.
const LINE: f64 = 17.0;
/// Where the list begins, below the legend.
const LIST_TOP: f64 = 188.0;
const LISTED: usize = 120;

fn picture(plan: &Plan<'_>, old: &[Shown], new: &[Shown]) -> String {
    let header = plan.header();
    let counts = plan.counts();
    let (width, height) = (f64::from(header.width), f64::from(header.height));
    let scale = (PANEL / width).min(TALLEST / height);
    let small = ((PANEL - MARGIN) / 2.0 / width).min(TALLEST / 2.0 / height);
    let left = MARGIN + GUTTER;
    let pages_top = 92.0;
    let plan_top = pages_top + height * small + 54.0;
    let list = listing(plan);
    let column_left = left + PANEL + MARGIN;
    let bottom = (plan_top + height * scale).max(pages_top + LIST_TOP + LINE * list.len() as f64);
    let (total_width, total_height) = (column_left + COLUMN + MARGIN, bottom + MARGIN);

    let mut svg = format!(
        "<svg xmlns=\"http://www.w3.org/2000/svg\" viewBox=\"0 0 {total_width:.0} {total_height:.0}\" width=\"{total_width:.0}\" \
         height=\"{total_height:.0}\" font-family=\"DejaVu Sans, Helvetica, Arial, sans-serif\" font-size=\"13\" fill=\"{INK}\">\n\
         <rect width=\"100%\" height=\"100%\" fill=\"#ffffff\"/>\n"
    );
    text(
        &mut svg,
        left,
        38.0,
        "font-size=\"21\" font-weight=\"bold\"",
        "A page turn and its plan",
    );
    let title = format!(
        "{} by {} pixels in bands of {}; rectangles changed: {}; regions to paint anew: {}, with {} of {} pixels",
        header.width,
        header.height,
        header.band_height,
        counts.rectangles,
        counts.regions,
        counts.pixels,
        u64::from(header.width) * u64::from(header.height)
    );
    text(&mut svg, left, 60.0, &format!("fill=\"{FAINT}\""), &title);

    for (place, (name, page)) in [("Last page", old), ("New page", new)]
        .into_iter()
        .enumerate()
    {
        let at = left + place as f64 * (PANEL + MARGIN) / 2.0;
        let name = format!("{name}: {} drawing commands", page.len());
        text(&mut svg, at, pages_top - 8.0, "font-weight=\"bold\"", &name);
        panel(&mut svg, header, at, pages_top, small, |svg| {
            page_boxes(svg, page, small, 1.0)
        });
    }

    text(
        &mut svg,
        left,
        plan_top - 10.0,
        "font-weight=\"bold\"",
        "The plan, over the new page",
    );
    panel(&mut svg, header, left, plan_top, scale, |svg| {
        page_boxes(svg, new, scale, 0.35);
        for rect in plan.rectangles() {
            let style = format!(
                "fill=\"{CHANGED}\" fill-opacity=\"0.35\" stroke=\"{CHANGED}\" stroke-width=\"1.2\""
            );
            boxed(svg, rect, scale, &style);
        }
    });
    band_edges(&mut svg, header, left, plan_top, scale);
    for (number, region) in plan.regions().enumerate() {
        numbered(&mut svg, number, region, left, plan_top, scale);
    }

    legend(&mut svg, column_left, pages_top);
    for (line, (style, content)) in list.iter().enumerate() {
        let y = pages_top + LIST_TOP + LINE * line as f64;
        text(&mut svg, column_left, y, style, content);
    }
    svg += "</svg>\n";
    svg
}

/// A screen at a place: what lies outside is cut off.
fn panel(
    svg: &mut String,
    header: Header,
    x: f64,
    y: f64,
    scale: f64,
    inside: impl FnOnce(&mut String),
) {
    let (width, height) = (
        f64::from(header.width) * scale,
        f64::from(header.height) * scale,
    );
    let _ = writeln!(
        svg,
        "<svg x=\"{x:.1}\" y=\"{y:.1}\" width=\"{width:.1}\" height=\"{height:.1}\">"
    );
    inside(svg);
    svg.push_str("</svg>\n");
    let _ = writeln!(
        svg,
        "<rect x=\"{x:.1}\" y=\"{y:.1}\" width=\"{width:.1}\" height=\"{height:.1}\" fill=\"none\" stroke=\"{INK}\"/>"
    );
}

fn page_boxes(svg: &mut String, page: &[Shown], scale: f64, opacity: f64) {
    let _ = writeln!(svg, "<g opacity=\"{opacity}\">");
    for shown in page {
        let style = match shown.kind {
            Kind::Fill(brush) => {
                let colour = FILLS[brush as usize % FILLS.len()];
                format!("fill=\"{colour}\" stroke=\"#b8c4d0\" stroke-width=\"0.8\"")
            }
            Kind::Stroke => format!("fill=\"{FAINT}\" fill-opacity=\"0.6\""),
            Kind::Run => format!("fill=\"{INK}\" fill-opacity=\"0.55\""),
            Kind::Scene => SCENE.to_owned(),
        };
        for part in &shown.parts {
            boxed(svg, *part, scale, &style);
        }
    }
    svg.push_str("</g>\n");
}

fn boxed(svg: &mut String, rect: Rect, scale: f64, style: &str) {
    let [x0, y0, x1, y1] = rect.edges().map(|edge| edge * scale);
    if x0 < x1 && y0 < y1 {
        let _ = writeln!(
            svg,
            "<rect x=\"{x0:.2}\" y=\"{y0:.2}\" width=\"{:.2}\" height=\"{:.2}\" {style}/>",
            x1 - x0,
            y1 - y0
        );
    }
}

/// The edges between bands, and the numbers of the bands beside them. Bands too low for a number have none.
fn band_edges(svg: &mut String, header: Header, left: f64, top: f64, scale: f64) {
    let band = f64::from(header.band_height) * scale;
    for row in 0..header.rows() {
        let y = top + f64::from(row) * band;
        if row > 0 && band > 3.0 {
            let _ = writeln!(
                svg,
                "<path d=\"M{:.1} {y:.1}H{:.1}\" stroke=\"{FAINT}\" stroke-dasharray=\"7 4\"/>",
                left - GUTTER + 8.0,
                left + f64::from(header.width) * scale
            );
        }
        if band > 16.0 {
            let within = band.min(f64::from(header.height) * scale - f64::from(row) * band);
            let style = format!("fill=\"{FAINT}\" text-anchor=\"end\" font-size=\"12\"");
            text(
                svg,
                left - 8.0,
                y + within / 2.0 + 4.0,
                &style,
                &row.to_string(),
            );
        }
    }
}

/// A region with its number, where there is room for it.
fn numbered(svg: &mut String, number: usize, region: Region, left: f64, top: f64, scale: f64) {
    let [x, y, width, height] =
        [region.x, region.y, region.width, region.height].map(|pixels| f64::from(pixels) * scale);
    let (x, y) = (left + x, top + y);
    let _ = writeln!(
        svg,
        "<rect x=\"{x:.1}\" y=\"{y:.1}\" width=\"{width:.1}\" height=\"{height:.1}\" fill=\"none\" stroke=\"{REGION}\" stroke-width=\"2\"/>"
    );
    let label = number.to_string();
    let size = 11.0_f64
        .min(width / (0.66 * label.len() as f64))
        .min(height);
    if size >= 5.0 {
        let style = format!(
            "font-size=\"{size:.1}\" font-weight=\"bold\" text-anchor=\"middle\" fill=\"#0b3d91\" stroke=\"#ffffff\" \
             stroke-width=\"2.4\" paint-order=\"stroke\""
        );
        text(
            svg,
            x + width / 2.0,
            y + height / 2.0 + size * 0.36,
            &style,
            &label,
        );
    }
}

fn legend(svg: &mut String, x: f64, top: f64) {
    text(svg, x, top - 8.0, "font-weight=\"bold\"", "Legend");
    let signs = [
        (
            format!("fill=\"{}\" stroke=\"#b8c4d0\"", FILLS[2]),
            "box of a fill, by its paint",
        ),
        (
            format!("fill=\"{INK}\" fill-opacity=\"0.55\""),
            "box of a glyph",
        ),
        (
            format!("fill=\"{FAINT}\" fill-opacity=\"0.6\""),
            "box of a stroke",
        ),
        (SCENE.to_owned(), "box of a scene"),
        (
            format!("fill=\"{CHANGED}\" fill-opacity=\"0.35\" stroke=\"{CHANGED}\""),
            "changed rectangle",
        ),
        (
            format!("fill=\"none\" stroke=\"{REGION}\" stroke-width=\"2\""),
            "region to paint anew, with its number",
        ),
    ];
    for (place, (style, meaning)) in signs.iter().enumerate() {
        let y = top + 6.0 + 22.0 * place as f64;
        let _ = writeln!(
            svg,
            "<rect x=\"{:.1}\" y=\"{y:.1}\" width=\"22\" height=\"13\" {style}/>",
            x + 1.0
        );
        text(svg, x + 34.0, y + 11.0, "", meaning);
    }
    let y = top + 6.0 + 22.0 * signs.len() as f64;
    let _ = writeln!(
        svg,
        "<path d=\"M{x:.1} {:.1}h24\" stroke=\"{FAINT}\" stroke-dasharray=\"7 4\"/>",
        y + 6.0
    );
    text(
        svg,
        x + 34.0,
        y + 11.0,
        "",
        "band edge, with the bands' numbers at the left",
    );
}

/// The column's lines: each band with its candidates, and its regions.
fn listing(plan: &Plan<'_>) -> Vec<(&'static str, String)> {
    const HEAD: &str = "font-weight=\"bold\"";
    const QUIET: &str = "font-size=\"12\" fill=\"#52606d\"";
    const PLAIN: &str =
        "font-size=\"12\" font-family=\"DejaVu Sans Mono, Menlo, Consolas, monospace\"";
    let header = plan.header();
    let mut lines = vec![(HEAD, "Regions: number, x, y, width, height".to_owned())];
    let mut band = None;
    for (number, region) in plan.regions().enumerate() {
        if number == LISTED {
            let more = plan.counts().regions - LISTED;
            lines.push((QUIET, format!("and {more} more")));
            break;
        }
        let row = region.y / header.band_height;
        if band != Some(row) {
            band = Some(row);
            let drawn = plan.candidates(region).unwrap_or_default();
            lines.push(("", String::new()));
            lines.push((HEAD, format!("Band {row}")));
            lines.push((QUIET, format!("draws commands {}", ranges(drawn))));
        }
        let Region {
            x,
            y,
            width,
            height,
        } = region;
        lines.push((
            PLAIN,
            format!("{number:>4}  {x:>5} {y:>5} {width:>5} {height:>5}"),
        ));
    }
    lines
}

/// Numbers that ascend, with runs of them as "first to last".
fn ranges(numbers: &[u32]) -> String {
    let mut ranges: Vec<(u32, u32)> = Vec::new();
    for number in numbers {
        match ranges.last_mut() {
            Some((_, last)) if *last + 1 == *number => *last = *number,
            _ => ranges.push((*number, *number)),
        }
    }
    let mut texts: Vec<String> = ranges
        .iter()
        .map(|(first, last)| match last - first {
            0 => first.to_string(),
            1 => format!("{first}, {last}"),
            _ => format!("{first} to {last}"),
        })
        .collect();
    if texts.len() > 6 {
        texts.truncate(6);
        texts.push("..".to_owned());
    }
    texts.join(", ")
}

fn text(svg: &mut String, x: f64, y: f64, style: &str, content: &str) {
    if !content.is_empty() {
        let _ = writeln!(
            svg,
            "<text x=\"{x:.1}\" y=\"{y:.1}\" xml:space=\"preserve\" {style}>{content}</text>"
        );
    }
}

#[test]
fn the_example_is_drawn_as_it_stands_in_the_repository() {
    let example = |name: &str| {
        let folder = std::path::Path::new(env!("CARGO_MANIFEST_DIR")).join("../../examples");
        fs::read(folder.join(name)).expect("a file of the examples")
    };
    let svg = drawn(&example("districts.bin")).expect("the example has a plan");
    assert!(
        svg.as_bytes() == example("districts.svg"),
        "draw it anew: cargo run --example picture -- ../../examples/districts.bin > ../../examples/districts.svg"
    );
}

#[test]
fn what_has_no_plan_has_no_picture() {
    assert_eq!(drawn(&[]).map_err(|refusal| refusal.number()), Err(2));
}
