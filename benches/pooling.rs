//! Times the fit in plain Rust. Prints the same lines as the program `timing`, for the same sweeps, and called with the
//! word `calls` those of the program `pace`.
mod fit;

use fit::{Absolute, Band, Bands, Entry, Limited, Loss, Reading, Squares, fit};
use std::env;
use std::fmt;
use std::fmt::Write;
use std::hint::black_box;
use std::time::Instant;

#[derive(Clone, Copy)]
enum Shape {
    Random,
    Rising,
    Falling,
}

impl fmt::Display for Shape {
    fn fmt(&self, f: &mut fmt::Formatter<'_>) -> fmt::Result {
        f.write_str(match self {
            Shape::Random => "random",
            Shape::Rising => "rising",
            Shape::Falling => "falling",
        })
    }
}

/// The numbers that both programs make their sweeps from.
struct Numbers(u64);

impl Numbers {
    fn below(&mut self, n: u64) -> u32 {
        self.0 = self
            .0
            .wrapping_mul(6_364_136_223_846_793_005)
            .wrapping_add(1_442_695_040_888_963_407);
        ((self.0 >> 33) % n) as u32
    }
}

fn made(shape: Shape, points: u32) -> Vec<(u16, u16, u16)> {
    let mut numbers = Numbers(u64::from(points));
    let rise = 65_536 / points;
    (0..points)
        .map(|i| {
            let level = match shape {
                Shape::Random => numbers.below(65_536),
                Shape::Rising => rise * i + numbers.below(4_096),
                Shape::Falling => rise * (points - 1 - i) + numbers.below(4_096),
            }
            .min(65_535);
            let high = (level + numbers.below(4_096)).min(65_535);
            let weight = numbers.below(1_000) + 1;
            (level as u16, high as u16, weight as u16)
        })
        .collect()
}

fn checksum(levels: &[u16]) -> u64 {
    levels.iter().fold(0, |sum: u64, level| {
        sum.wrapping_mul(1_000_003).wrapping_add(u64::from(*level))
    })
}

struct Sweep {
    shape: Shape,
    points: u32,
    turns: Option<u32>,
}

fn measure<L: Loss>(name: &str, loss: &L, sweep: &Sweep, entries: &[Entry<L::Point>]) {
    let mut levels = vec![0; entries.len()];
    fit(loss, entries, 65_535, &mut levels);
    let sum = checksum(&levels);
    print!("{name} {} {} {sum:016x}", sweep.shape, sweep.points);
    if let Some(turns) = sweep.turns {
        let start = Instant::now();
        for _ in 0..turns {
            fit(loss, black_box(entries), 65_535, &mut levels);
            black_box(&mut levels);
        }
        print!(" {}", start.elapsed().as_nanos() / u128::from(turns.max(1)));
    }
    println!();
}

fn numbered<P>(points: impl Iterator<Item = P>) -> Vec<Entry<P>> {
    (0..).zip(points).map(|(count, point)| Entry { count, point }).collect()
}

fn measure_all(sweep: &Sweep) {
    let made = made(sweep.shape, sweep.points);
    let readings = numbered(made.iter().map(|&(level, _, weight)| Reading { level, weight }));
    let bands = numbered(made.iter().map(|&(low, high, weight)| Band { low, high, weight }));
    measure("squares", &Squares, sweep, &readings);
    measure("absolute", &Absolute, sweep, &readings);
    measure("bands", &Bands, sweep, &bands);
    measure("limited", &Limited(Squares, 1_000_000), sweep, &readings);
}

#[derive(Clone, Copy)]
enum Order {
    Rising,
    Falling,
    Random,
}

impl Order {
    fn name(self) -> &'static str {
        match self {
            Order::Rising => "rising",
            Order::Falling => "falling",
            Order::Random => "random",
        }
    }

    fn count(self, i: u32) -> u32 {
        match self {
            Order::Rising => i * 16,
            Order::Falling => (1_024 - i) * 16,
            Order::Random => i.wrapping_mul(2_654_435_761) % 16_777_216,
        }
    }
}

fn reading(i: u32) -> Reading {
    Reading {
        level: (i.wrapping_mul(40_503) % 65_536) as u16,
        weight: (i % 512 + 1) as u16,
    }
}

fn add_all(points: &mut Vec<Entry<Reading>>, order: Order) {
    for i in 0..1_024 {
        let (count, point) = (order.count(i), reading(i));
        let place = points.binary_search_by_key(&count, |e| e.count);
        points.insert(place.expect_err("a new count"), Entry { count, point });
    }
}

/// Fits the points, and writes a line of text for each.
fn lay(points: &[Entry<Reading>], rows: &mut Vec<(u32, u16)>, text: &mut String) {
    let mut levels = vec![0; points.len()];
    fit(&Squares, points, 65_535, &mut levels);
    rows.clear();
    text.clear();
    for (point, level) in points.iter().zip(levels) {
        rows.push((point.count, level));
        writeln!(text, "{} {level}", point.count).expect("text takes all");
    }
}

/// Goes through the rows one by one, as the proved conversion does.
fn convert(rows: &[(u32, u16)], count: u32) -> u16 {
    let found = rows.iter().position(|row| row.0 >= count).expect("a row");
    let (k1, l1) = rows[found];
    if k1 == count {
        return l1;
    }
    let (k0, l0) = rows[found - 1];
    l0 + (u64::from(l1 - l0) * u64::from(count - k0) / u64::from(k1 - k0)) as u16
}

fn text_sum(text: &str) -> u64 {
    text.bytes().fold(0, |sum: u64, byte| {
        sum.wrapping_mul(1_000_003).wrapping_add(u64::from(byte))
    })
}

fn end_line(start: Instant, asked: Option<u32>, calls: u32) {
    if let Some(turns) = asked {
        let all = u128::from(turns) * u128::from(calls);
        print!(" {}", start.elapsed().as_nanos() / all.max(1));
    }
    println!();
}

fn measure_calls(asked: Option<u32>) {
    let turns = asked.unwrap_or(1);
    let (mut rows, mut text) = (Vec::new(), String::new());
    for order in [Order::Rising, Order::Falling, Order::Random] {
        let mut points = Vec::with_capacity(1_024);
        let start = Instant::now();
        for _ in 0..turns {
            points.clear();
            add_all(black_box(&mut points), order);
        }
        lay(&points, &mut rows, &mut text);
        print!("add {} {:016x}", order.name(), text_sum(&text));
        end_line(start, asked, 1_024);
    }
    let mut points = Vec::new();
    add_all(&mut points, Order::Rising);
    let start = Instant::now();
    for _ in 0..turns {
        lay(black_box(&points), &mut rows, &mut text);
    }
    print!("lay text {:016x}", text_sum(&text));
    end_line(start, asked, 1);
    let start = Instant::now();
    let mut sum = 0;
    for _ in 0..turns {
        let rows = black_box(&rows);
        sum = (0..1_000).map(|i| u64::from(convert(rows, i * 16 + 5))).sum();
    }
    print!("convert text {sum:016x}");
    end_line(start, asked, 1_000);
}

fn main() {
    let mut args = env::args().skip(1).peekable();
    let calls = args.next_if(|word| word == "calls").is_some();
    let asked = args
        .next()
        .map(|_| args.next().and_then(|n| n.parse::<u32>().ok()).expect("time N"));
    if calls {
        return measure_calls(asked);
    }
    for (points, often) in [(16, 64), (128, 8), (1_024, 1)] {
        for shape in [Shape::Random, Shape::Rising, Shape::Falling] {
            let turns = asked.map(|turns| turns * often);
            measure_all(&Sweep { shape, points, turns });
        }
    }
}
