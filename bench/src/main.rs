//! Times the proved planner beside dew's Rust, on the same page turns, in one process.
//!
//! - no argument: the tables
//! - `document FILE`: the same, put in the place of those that the file has
//! - `rows`: the names of the rows
//! - `one ROW COUNT`: plans one row's page turn so many times, ours alone, for a profiler; `one-dew` likewise, dew's alone

#[cfg(dew)]
mod dews;
mod ours;
mod pages;
mod timing;

use std::hint::black_box;
use std::process::ExitCode;

use oracle::header::Header;
use ours::Ours;
use pages::{Changes, PANEL, Turn, clipped_turn, glyph_turn, page_turn, rectangle_turn};

type Row = (String, Box<dyn Fn() -> Turn>);

fn row(name: impl Into<String>, turn: impl Fn() -> Turn + 'static) -> Row {
    (name.into(), Box::new(turn))
}

const fn banded(width: u32, height: u32, band_height: u32) -> Header {
    Header {
        width,
        height,
        band_height,
    }
}

/// The table's rows.
fn rows() -> Vec<Row> {
    let mut rows = vec![row("districts", pages::districts)];
    for changes in [Changes::Few, Changes::Many] {
        let name = changes.name();
        for commands in [50, 200, 1_000, 4_096] {
            rows.push(row(format!("commands-{commands}-{name}"), move || {
                page_turn(PANEL, commands, changes)
            }));
        }
        rows.push(row(format!("glyphs-16384-{name}"), move || {
            glyph_turn(16_384, changes)
        }));
        rows.push(row(format!("open-clips-32-{name}"), move || {
            clipped_turn(32, 1_000, changes)
        }));
        for band_height in [1, 16, 32_768] {
            rows.push(row(
                format!("band-height-{band_height}-{name}"),
                move || page_turn(banded(800, 480, band_height), 1_000, changes),
            ));
        }
    }
    rows.push(row("rectangles-2048", || rectangle_turn(PANEL, 2_048)));
    rows.push(row("rectangles-2048-one-band", || {
        rectangle_turn(banded(32_768, 480, 32_768), 2_048)
    }));
    rows.push(row("bands-32768-few", || {
        page_turn(banded(800, 32_768, 1), 1_000, Changes::Few)
    }));
    rows
}

/// Sizes that double, each under a name.
fn growth() -> Vec<(&'static str, Vec<(usize, Row)>)> {
    fn doubled(
        from: usize,
        to: usize,
        name: &'static str,
        turn: impl Fn(usize) -> Turn + Copy + 'static,
    ) -> (&'static str, Vec<(usize, Row)>) {
        let sizes = std::iter::successors(Some(from), |size| Some(size * 2));
        let rows = sizes
            .take_while(|size| *size <= to)
            .map(|size| (size, row(format!("{name} {size}"), move || turn(size))));
        (name, rows.collect())
    }
    vec![
        doubled(64, 4_096, "commands, few changes", |size| {
            page_turn(PANEL, size, Changes::Few)
        }),
        doubled(64, 4_096, "commands, many changes", |size| {
            page_turn(PANEL, size, Changes::Many)
        }),
        doubled(256, 16_384, "glyphs of a run, few changes", |size| {
            glyph_turn(size, Changes::Few)
        }),
        doubled(256, 16_384, "glyphs of a run, many changes", |size| {
            glyph_turn(size, Changes::Many)
        }),
        doubled(
            1,
            32,
            "open clips over 1,000 commands, few changes",
            |size| clipped_turn(size, 1_000, Changes::Few),
        ),
        doubled(64, 4_096, "rectangles", |size| rectangle_turn(PANEL, size)),
        doubled(64, 4_096, "rectangles of one band", |size| {
            rectangle_turn(banded(32_768, 480, 32_768), size)
        }),
        doubled(
            16,
            32_768,
            "bands, each one pixel high, 200 commands, many changes",
            |size| page_turn(banded(800, size as u32, 1), 200, Changes::Many),
        ),
    ]
}

/// Microseconds: ours; dew's plan; dew's new list. Dew's are missing without its source.
struct Times {
    ours: f64,
    dew: Option<(f64, f64)>,
}

fn time(turn: &Turn) -> (Ours, Times) {
    let mut ours = Ours::new(turn);
    #[cfg(dew)]
    {
        let dews = dews::Dews::new(turn);
        compare(&mut ours, &dews);
        let [own, plan, build] = timing::medians([
            &mut || {
                black_box(ours.plan().counts());
            },
            &mut || drop(black_box(dews.plan())),
            &mut || drop(black_box(dews.build())),
        ]);
        let dew = Some((plan, build));
        (ours, Times { ours: own, dew })
    }
    #[cfg(not(dew))]
    {
        let [own] = timing::medians([&mut || {
            black_box(ours.plan().counts());
        }]);
        let times = Times {
            ours: own,
            dew: None,
        };
        (ours, times)
    }
}

/// Both plans are the same, or their times would not compare.
#[cfg(dew)]
fn compare(ours: &mut Ours, dews: &dews::Dews) {
    let plan = ours.plan();
    let (dirty, regions, index) = dews.plan();
    let alike = plan
        .rectangles()
        .map(|rect| rect.edges())
        .eq(dirty.iter().map(kurbo::Rect::edges))
        && plan
            .regions()
            .map(|region| (region.x, region.y, region.width, region.height))
            .eq(regions
                .iter()
                .map(|region| (region.x, region.y, region.width, region.height)))
        && plan
            .regions()
            .zip(&regions)
            .all(|(ours, dews)| plan.candidates(ours) == Ok(index.candidates(*dews)));
    assert!(alike, "the plans differ");
}

/// The page turns, a row each, printed while they are measured.
fn table() -> String {
    let mut lines = Lines::default();
    lines.push("| Page turn | Bytes | Rectangles | Regions | Index words | Ours | dew | dew+list | dew / ours | dew+list / ours |".to_owned());
    lines.push("|---|--:|--:|--:|--:|--:|--:|--:|--:|--:|".to_owned());
    for (name, turn) in rows() {
        let (ours, times) = time(&turn());
        let counts = ours.counts;
        let dew = times.dew.map_or_else(
            || "– | – | – | –".to_owned(),
            |(plan, build)| {
                let (list, own) = (plan + build, times.ours);
                format!(
                    "{plan:.1} | {list:.1} | {:.2} | {:.2}",
                    plan / own,
                    list / own
                )
            },
        );
        lines.push(format!(
            "| {name} | {} | {} | {} | {} | {:.1} | {dew} |",
            ours.bytes(),
            counts.rectangles,
            counts.regions,
            counts.index_words,
            times.ours
        ));
    }
    lines.0
}

/// What doubles, with the times at both ends and the least and greatest factor of a doubling.
fn growth_table() -> String {
    let mut lines = Lines::default();
    lines.push("| What doubles | Sizes | Ours | A doubling | dew | A doubling |".to_owned());
    lines.push("|---|---|---|---|---|---|".to_owned());
    for (name, sizes) in growth() {
        let (mut ours, mut dew) = (Vec::new(), Vec::new());
        let (first, last) = (sizes[0].0, sizes[sizes.len() - 1].0);
        for (_, (_, turn)) in sizes {
            let (_, times) = time(&turn());
            ours.push(times.ours);
            dew.extend(times.dew.map(|(plan, _)| plan));
        }
        let (ours, dew) = (ends_and_factors(&ours), ends_and_factors(&dew));
        lines.push(format!("| {name} | {first} to {last} | {ours} | {dew} |"));
    }
    lines.0
}

fn ends_and_factors(times: &[f64]) -> String {
    let factors = times.windows(2).map(|pair| pair[1] / pair[0]);
    match (times.first(), times.last()) {
        (Some(first), Some(last)) => format!(
            "{first:.1} to {last:.1} | {:.2} to {:.2}",
            factors.clone().fold(f64::INFINITY, f64::min),
            factors.fold(0.0, f64::max)
        ),
        _ => "– | –".to_owned(),
    }
}

/// Lines that are printed and kept.
#[derive(Default)]
struct Lines(String);

impl Lines {
    fn push(&mut self, line: String) {
        println!("{line}");
        self.0 += &line;
        self.0.push('\n');
    }
}

/// Puts the tables where a document has others, between the lines that name them.
fn document(path: &str) -> Result<(), String> {
    let mut text = std::fs::read_to_string(path).map_err(|error| format!("{path}: {error}"))?;
    for (name, table) in [("page turns", table()), ("growth", growth_table())] {
        let (begin, end) = (
            format!("<!-- {name} -->\n"),
            format!("<!-- end of {name} -->"),
        );
        let from = text.find(&begin).map(|place| place + begin.len());
        let to = text.find(&end);
        match (from, to) {
            (Some(from), Some(to)) if from <= to => text.replace_range(from..to, &table),
            _ => return Err(format!("{path} has no place for the table of {name}")),
        }
    }
    std::fs::write(path, text).map_err(|error| format!("{path}: {error}"))
}

fn find(name: &str) -> Option<Turn> {
    rows()
        .into_iter()
        .chain(
            growth()
                .into_iter()
                .flat_map(|(_, rows)| rows)
                .map(|(_, row)| row),
        )
        .find(|(known, _)| known == name)
        .map(|(_, turn)| turn())
}

fn main() -> ExitCode {
    let arguments: Vec<String> = std::env::args().skip(1).collect();
    let words: Vec<&str> = arguments.iter().map(String::as_str).collect();
    match words[..] {
        [] => {
            println!("Microseconds a page turn, medians; docs/PERFORMANCE.md says of what.\n");
            table();
            println!();
            growth_table();
        }
        ["document", path] => {
            if let Err(message) = document(path) {
                eprintln!("bench: {message}");
                return ExitCode::FAILURE;
            }
        }
        ["rows"] => rows().iter().for_each(|(name, _)| println!("{name}")),
        [which @ ("one" | "one-dew"), name, count] => {
            let (Some(turn), Ok(count)) = (find(name), count.parse::<u64>()) else {
                eprintln!("bench: no such row, or no count (`rows` names them)");
                return ExitCode::FAILURE;
            };
            if which == "one" {
                let mut ours = Ours::new(&turn);
                (0..count).for_each(|_| {
                    black_box(ours.plan().counts());
                });
            } else {
                #[cfg(dew)]
                {
                    let dews = dews::Dews::new(&turn);
                    (0..count).for_each(|_| drop(black_box(dews.plan())));
                }
                #[cfg(not(dew))]
                eprintln!("bench: dew's source is not beside the repository");
            }
        }
        _ => {
            eprintln!("bench [document FILE | rows | one ROW COUNT | one-dew ROW COUNT]");
            return ExitCode::FAILURE;
        }
    }
    ExitCode::SUCCESS
}

/// Every page turn that is timed has the same plan by both.
#[cfg(dew)]
#[test]
fn plans_are_alike() {
    let largest = growth()
        .into_iter()
        .filter_map(|(_, mut rows)| Some(rows.pop()?.1));
    for (name, turn) in rows().into_iter().chain(largest) {
        println!("{name}");
        let turn = turn();
        compare(&mut Ours::new(&turn), &dews::Dews::new(&turn));
    }
}
