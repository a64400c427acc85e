//! The oracle's stand-in for kurbo beside a packaged kurbo: every operation that dew asks of a box, on the same operands.
//! Answers are compared by value and by bits, and counted apart. `oracle/compare-kurbo` compiles and runs this; it is in no
//! cargo package, since the oracle needs no registry.

#[path = "../oracle/src/random.rs"]
#[allow(dead_code)]
mod random;

use std::env;
use std::ops::Range;
use std::process::exit;

use random::Random;

/// Cases of one seed.
const CASES: u64 = 1_000;

/// Operands of a case: two boxes, an affine, and how far a box grows along x and y.
const OPERANDS: usize = 16;

type Operands = [f64; OPERANDS];

/// What an operation answers: edges, or sides, or 1 and 0 for true and false; as many of the four as it has.
type Answer = [f64; 4];

#[derive(Clone, Copy)]
struct Operation {
    name: &'static str,
    numbers: usize,
    /// Whether the operation is compared on these operands.
    applies: fn(&Operands) -> bool,
    ours: fn(&Operands) -> Answer,
    kurbos: fn(&Operands) -> Answer,
}

/// The stand-in beside kurbo, and then the proved definitions' choice between equal numbers beside kurbo: `as defined`.
const OPERATIONS: [Operation; 9] = [
    Operation {
        name: "intersect",
        numbers: 4,
        applies: |_| true,
        ours: |o| our_edges(our_box(o, 0).intersect(our_box(o, 4))),
        kurbos: |o| kurbos_edges(kurbos_box(o, 0).intersect(kurbos_box(o, 4))),
    },
    Operation {
        name: "union",
        numbers: 4,
        applies: |_| true,
        ours: |o| our_edges(our_box(o, 0).union(our_box(o, 4))),
        kurbos: |o| kurbos_edges(kurbos_box(o, 0).union(kurbos_box(o, 4))),
    },
    Operation {
        name: "inflate",
        numbers: 4,
        applies: |_| true,
        ours: |o| our_edges(our_box(o, 0).inflate(o[14], o[15])),
        kurbos: |o| kurbos_edges(kurbos_box(o, 0).inflate(o[14], o[15])),
    },
    Operation {
        name: "transform_rect_bbox",
        numbers: 4,
        applies: |_| true,
        ours: |o| our_edges(stand_in::Affine(coefficients(o)).transform_rect_bbox(our_box(o, 0))),
        kurbos: |o| {
            kurbos_edges(kurbo::Affine::new(coefficients(o)).transform_rect_bbox(kurbos_box(o, 0)))
        },
    },
    Operation {
        name: "width and height",
        numbers: 2,
        applies: |_| true,
        ours: |o| [our_box(o, 0).width(), our_box(o, 0).height(), 0.0, 0.0],
        kurbos: |o| {
            [
                kurbos_box(o, 0).width(),
                kurbos_box(o, 0).height(),
                0.0,
                0.0,
            ]
        },
    },
    Operation {
        name: "equality",
        numbers: 1,
        applies: |_| true,
        ours: |o| [flag(our_box(o, 0) == our_box(o, 4)), 0.0, 0.0, 0.0],
        kurbos: |o| [flag(kurbos_box(o, 0) == kurbos_box(o, 4)), 0.0, 0.0, 0.0],
    },
    Operation {
        name: "intersect as defined",
        numbers: 4,
        applies: |_| true,
        ours: |o| {
            let (x, y) = (larger(o[0], o[4]), larger(o[1], o[5]));
            [
                x,
                y,
                larger(smaller(o[2], o[6]), x),
                larger(smaller(o[3], o[7]), y),
            ]
        },
        kurbos: |o| kurbos_edges(kurbos_box(o, 0).intersect(kurbos_box(o, 4))),
    },
    Operation {
        name: "union as defined",
        numbers: 4,
        applies: |_| true,
        ours: |o| {
            [
                smaller(o[0], o[4]),
                smaller(o[1], o[5]),
                larger(o[2], o[6]),
                larger(o[3], o[7]),
            ]
        },
        kurbos: |o| kurbos_edges(kurbos_box(o, 0).union(kurbos_box(o, 4))),
    },
    // Number 9 refuses a corner that is not finite, so only finite ones are asked of the definition.
    Operation {
        name: "transform_rect_bbox as defined",
        numbers: 4,
        applies: |o| {
            corners(o, in_order)
                .iter()
                .flatten()
                .all(|edge| edge.is_finite())
        },
        ours: |o| bounding(o, in_order, smaller, larger),
        kurbos: |o| {
            kurbos_edges(kurbo::Affine::new(coefficients(o)).transform_rect_bbox(kurbos_box(o, 0)))
        },
    },
];

/// A mistake to plant in our place.
struct Mistake {
    name: &'static str,
    /// The operation, by its name.
    of: &'static str,
    /// Its wrong answer.
    ours: fn(&Operands) -> Answer,
    /// How it must be seen.
    class: Class,
}

const MISTAKES: [Mistake; 8] = [
    Mistake {
        name: "a high edge is not raised to the low one",
        of: "intersect",
        ours: |o| {
            [
                o[0].max(o[4]),
                o[1].max(o[5]),
                o[2].min(o[6]),
                o[3].min(o[7]),
            ]
        },
        class: Class::Value,
    },
    Mistake {
        name: "reversed boxes are put upright first",
        of: "union",
        ours: |o| our_edges(upright(our_box(o, 0)).union(upright(our_box(o, 4)))),
        class: Class::Value,
    },
    Mistake {
        name: "of two equal numbers the second",
        of: "union",
        ours: |o| {
            [
                smaller(o[4], o[0]),
                smaller(o[5], o[1]),
                larger(o[6], o[2]),
                larger(o[7], o[3]),
            ]
        },
        class: Class::SignOfZero,
    },
    Mistake {
        name: "one width for both axes",
        of: "inflate",
        ours: |o| our_edges(our_box(o, 0).inflate(o[14], o[14])),
        class: Class::Value,
    },
    Mistake {
        name: "a product is fused into the sum",
        of: "transform_rect_bbox",
        ours: |o| {
            bounding(
                o,
                |t, x, y| {
                    [
                        t[2].mul_add(y, t[0] * x) + t[4],
                        t[3].mul_add(y, t[1] * x) + t[5],
                    ]
                },
                f64::min,
                f64::max,
            )
        },
        class: Class::Value,
    },
    Mistake {
        name: "sums from right to left",
        of: "transform_rect_bbox",
        ours: |o| {
            bounding(
                o,
                |t, x, y| [t[0] * x + (t[2] * y + t[4]), t[1] * x + (t[3] * y + t[5])],
                smaller,
                larger,
            )
        },
        class: Class::Value,
    },
    Mistake {
        name: "sides without a sign",
        of: "width and height",
        ours: |o| {
            [
                our_box(o, 0).width().abs(),
                our_box(o, 0).height().abs(),
                0.0,
                0.0,
            ]
        },
        class: Class::Value,
    },
    Mistake {
        name: "edges by their bits",
        of: "equality",
        ours: |o| {
            [
                flag((0..4).all(|i| o[i].to_bits() == o[i + 4].to_bits())),
                0.0,
                0.0,
                0.0,
            ]
        },
        class: Class::Value,
    },
];

fn our_box(o: &Operands, at: usize) -> stand_in::Rect {
    stand_in::Rect::new(o[at], o[at + 1], o[at + 2], o[at + 3])
}

fn kurbos_box(o: &Operands, at: usize) -> kurbo::Rect {
    kurbo::Rect::new(o[at], o[at + 1], o[at + 2], o[at + 3])
}

fn coefficients(o: &Operands) -> [f64; 6] {
    [o[8], o[9], o[10], o[11], o[12], o[13]]
}

fn our_edges(b: stand_in::Rect) -> Answer {
    [b.x0, b.y0, b.x1, b.y1]
}

fn kurbos_edges(b: kurbo::Rect) -> Answer {
    [b.x0, b.y0, b.x1, b.y1]
}

fn flag(is: bool) -> f64 {
    f64::from(u8::from(is))
}

fn upright(b: stand_in::Rect) -> stand_in::Rect {
    stand_in::Rect::new(
        b.x0.min(b.x1),
        b.y0.min(b.y1),
        b.x0.max(b.x1),
        b.y0.max(b.y1),
    )
}

/// Of two equal numbers the first, as `larger` and `smaller` of crate `base_floats` have it.
fn larger(a: f64, b: f64) -> f64 {
    if a < b { b } else { a }
}

fn smaller(a: f64, b: f64) -> f64 {
    if b < a { b } else { a }
}

type Point = fn(&[f64; 6], f64, f64) -> [f64; 2];

/// "each operation rounded once, left to right"
fn in_order(t: &[f64; 6], x: f64, y: f64) -> [f64; 2] {
    [t[0] * x + t[2] * y + t[4], t[1] * x + t[3] * y + t[5]]
}

/// The corners of the first box, in the order of `transformRectBbox` of crate `kurbo_affine`.
fn corners(o: &Operands, point: Point) -> [[f64; 2]; 4] {
    [(0, 1), (2, 1), (0, 3), (2, 3)].map(|(x, y)| point(&coefficients(o), o[x], o[y]))
}

fn bounding(
    o: &Operands,
    point: Point,
    least: fn(f64, f64) -> f64,
    greatest: fn(f64, f64) -> f64,
) -> Answer {
    let corners = corners(o, point);
    let along = |axis: usize, of: fn(f64, f64) -> f64| {
        corners
            .map(|corner| corner[axis])
            .into_iter()
            .reduce(of)
            .unwrap_or(f64::NAN)
    };
    [
        along(0, least),
        along(1, least),
        along(0, greatest),
        along(1, greatest),
    ]
}

/// How two answers compare, the worst of their edges.
#[derive(Debug, Clone, Copy, PartialEq, Eq, PartialOrd, Ord)]
enum Class {
    SameBits,
    BothNan,
    SignOfZero,
    Value,
}

fn compare_edge(ours: f64, kurbos: f64) -> Class {
    if ours.to_bits() == kurbos.to_bits() {
        Class::SameBits
    } else if ours == kurbos {
        // Two patterns of one value: only zero has them.
        Class::SignOfZero
    } else if ours.is_nan() && kurbos.is_nan() {
        Class::BothNan
    } else {
        Class::Value
    }
}

fn compare(operation: &Operation, o: &Operands) -> Class {
    let (ours, kurbos) = ((operation.ours)(o), (operation.kurbos)(o));
    (0..operation.numbers)
        .map(|i| compare_edge(ours[i], kurbos[i]))
        .max()
        .unwrap_or(Class::SameBits)
}

/// A finite number, of a kind at which boxes go wrong.
fn number(random: &mut Random) -> f64 {
    let whole = random.between(-40, 40) as f64;
    let sign = random.pick(&[1.0, -1.0]);
    match random.below(20) {
        0..=3 => random.pick(&[0.0, -0.0]),
        4..=7 => whole,
        8 => whole + 0.5,
        9 => whole + 0.25,
        10 => random.pick(&[1.0, -1.0, 2.0]),
        11 => whole.next_up(),
        12 => whole.next_down(),
        13 => whole / 10.0,
        14 => sign * random.pick(&[f64::MAX, 1e308, 1e300, 2.0_f64.powi(1000)]),
        15 => sign * random.pick(&[5e-324, f64::MIN_POSITIVE, f64::MIN_POSITIVE / 2.0, 1e-310]),
        16 => sign * f64::from_bits(random.word() >> 12),
        17 => {
            sign * random.pick(&[
                2.0_f64.powi(53),
                2.0_f64.powi(53) - 1.0,
                2.0_f64.powi(-30),
                1.0 + 2.0_f64.powi(-30),
            ])
        }
        18 => sign * random.between(0, 1 << 53) as f64,
        _ => loop {
            let any = f64::from_bits(random.word());
            if any.is_finite() {
                break any;
            }
        },
    }
}

fn operands(random: &mut Random) -> Operands {
    let mut o = [0.0; OPERANDS];
    for operand in &mut o {
        *operand = number(random);
    }
    // Half of the boxes are put upright, and half of the second ones share edges with the first, up to the sign of a zero.
    for at in [0, 4] {
        if random.one_in(2) {
            for (low, high) in [(at, at + 2), (at + 1, at + 3)] {
                if o[high] < o[low] {
                    o.swap(low, high);
                }
            }
        }
    }
    if random.one_in(2) {
        for i in 0..4 {
            if !random.one_in(4) {
                o[4 + i] = if o[i] == 0.0 {
                    random.pick(&[0.0, -0.0])
                } else {
                    o[i]
                };
            }
        }
    }
    // A quarter of the affines only move, half scale, turn or slant by small numbers, the rest are any.
    let small =
        |random: &mut Random| random.pick(&[0.0, -0.0, 1.0, -1.0, 0.5, 2.0, 0.1, 1.0 / 3.0]);
    match random.below(4) {
        0 => (o[8], o[9], o[10], o[11]) = (1.0, 0.0, 0.0, 1.0),
        1 | 2 => (8..12).for_each(|i| o[i] = small(random)),
        _ => {}
    }
    o
}

/// What a kind of difference looks like at its simplest: operands made simpler one by one, as long as the difference stays.
fn simplest(operation: &Operation, o: &Operands, class: Class) -> Operands {
    let mut o = *o;
    for _ in 0..3 {
        for i in 0..OPERANDS {
            for simpler in [0.0_f64, 1.0, -1.0, -0.0, 2.0] {
                if o[i].to_bits() == simpler.to_bits() {
                    break;
                }
                let was = o[i];
                o[i] = simpler;
                if (operation.applies)(&o) && compare(operation, &o) == class {
                    break;
                }
                o[i] = was;
            }
        }
    }
    o
}

fn show(operation: &Operation, o: &Operands) {
    println!(
        "    boxes {:?} and {:?}, affine {:?}, grown by {:?}",
        &o[0..4],
        &o[4..8],
        &o[8..14],
        &o[14..16]
    );
    println!(
        "    ours {:?}, kurbo {:?}",
        (operation.ours)(o),
        (operation.kurbos)(o)
    );
}

/// Counts of one operation: cases, and edges by class.
#[derive(Default)]
struct Counts {
    cases: u64,
    edges: [u64; 4],
    examples: [Option<Operands>; 4],
}

impl Counts {
    fn add(&mut self, operation: &Operation, o: &Operands) {
        if !(operation.applies)(o) {
            return;
        }
        let (ours, kurbos) = ((operation.ours)(o), (operation.kurbos)(o));
        self.cases += 1;
        for i in 0..operation.numbers {
            let class = compare_edge(ours[i], kurbos[i]) as usize;
            self.edges[class] += 1;
        }
        let worst = compare(operation, o) as usize;
        if worst != 0 && self.examples[worst].is_none() {
            self.examples[worst] = Some(*o);
        }
    }

    fn worst(&self) -> Class {
        [Class::Value, Class::SignOfZero, Class::BothNan]
            .into_iter()
            .find(|&class| self.edges[class as usize] > 0)
            .unwrap_or(Class::SameBits)
    }

    fn print(&self, operation: &Operation) {
        let [same, nan, zero, value] = self.edges;
        println!(
            "{}: {} cases; of {} numbers {same} the same by bits, {zero} but for the sign of a zero, {nan} both NaN with other bits, {value} other values",
            operation.name,
            self.cases,
            operation.numbers as u64 * self.cases
        );
        for class in [Class::BothNan, Class::SignOfZero, Class::Value] {
            if let Some(example) = &self.examples[class as usize] {
                println!("  {class:?}, at its simplest:");
                show(operation, &simplest(operation, example, class));
            }
        }
    }
}

/// What the operands were like.
#[derive(Default)]
struct Kinds {
    boxes: u64,
    reversed: u64,
    zeros: u64,
    negative_zeros: u64,
    subnormal: u64,
    huge: u64,
    not_finite: u64,
}

impl Kinds {
    fn add(&mut self, o: &Operands) {
        for at in [0, 4] {
            self.boxes += 1;
            self.reversed += u64::from(o[at + 2] < o[at] || o[at + 3] < o[at + 1]);
        }
        for operand in o {
            self.zeros += u64::from(operand.to_bits() == 0);
            self.negative_zeros += u64::from(operand.to_bits() == 1 << 63);
            self.subnormal += u64::from(operand.is_subnormal());
            self.huge += u64::from(operand.abs() >= 1e300);
        }
        self.not_finite += u64::from(
            corners(o, in_order)
                .iter()
                .flatten()
                .any(|edge| !edge.is_finite()),
        );
    }

    fn print(&self) {
        println!(
            "operands: {} boxes, {} of them reversed; {} zeros, {} negative zeros, {} subnormal, {} of 1e300 or more; {} transformed boxes with a corner that is not finite",
            self.boxes,
            self.reversed,
            self.zeros,
            self.negative_zeros,
            self.subnormal,
            self.huge,
            self.not_finite
        );
    }
}

fn fail(text: &str) -> ! {
    eprintln!("compare-kurbo: {text}");
    exit(2);
}

/// Every operation that is given, over the same cases.
fn run(operations: &[Operation], seeds: Range<u64>) -> (Kinds, Vec<Counts>) {
    let mut kinds = Kinds::default();
    let mut counts: Vec<Counts> = operations.iter().map(|_| Counts::default()).collect();
    for seed in seeds {
        let mut random = Random::new("kurbo", seed);
        for _ in 0..CASES {
            let o = operands(&mut random);
            kinds.add(&o);
            for (operation, counts) in operations.iter().zip(&mut counts) {
                counts.add(operation, &o);
            }
        }
    }
    (kinds, counts)
}

/// The mistakes in the stand-in's place, each over ten seeds: a line for each, and whether all were seen.
fn plant() -> bool {
    let mut all = true;
    for Mistake {
        name,
        of,
        ours,
        class,
    } in MISTAKES
    {
        let wrong: Vec<Operation> = OPERATIONS
            .iter()
            .filter(|right| right.name == of)
            .map(|right| Operation { ours, ..*right })
            .collect();
        let seen = run(&wrong, 0..10).1.iter().map(Counts::worst).max();
        println!(
            "mistake in {of}: {name}: {}",
            if seen == Some(class) {
                "seen"
            } else {
                "not seen"
            }
        );
        all &= seen == Some(class);
    }
    all
}

fn main() {
    let arguments: Vec<String> = env::args().skip(1).collect();
    let [from, to] = arguments.as_slice() else {
        fail("use: compare FROM TO")
    };
    let (Ok(from), Ok(to)) = (from.parse::<u64>(), to.parse::<u64>()) else {
        fail("seeds are whole numbers")
    };
    if from >= to {
        fail("no seed to compare");
    }
    let (kinds, counts) = run(&OPERATIONS, from..to);
    println!("seeds {from} to {}, {CASES} cases each", to - 1);
    kinds.print();
    for (operation, counts) in OPERATIONS.iter().zip(&counts) {
        counts.print(operation);
    }
    let alike = counts.iter().all(|counts| counts.worst() < Class::Value);
    if !(plant() && alike) {
        exit(1);
    }
}
