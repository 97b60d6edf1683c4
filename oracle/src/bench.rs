//! The benchmarks: our calls, through the C interface, and the same tasks in Rust, from one program. docs/BENCHMARKS.md says what each is.
#![allow(dead_code, unused_imports)]

mod builds;
#[path = "bench/calls.rs"]
mod calls;
mod classes;
#[path = "bench/clock.rs"]
mod clock;
mod form;
mod graphs;
#[path = "bench/loops.rs"]
mod loops;
mod original;
#[path = "bench/pairs.rs"]
mod pairs;
#[path = "bench/planned.rs"]
mod planned;
mod random;
mod tables;
#[path = "bench/tables.rs"]
mod tables_to_build;
#[path = "bench/texts.rs"]
mod texts;
mod walks;
mod words;

use clock::{measure, Clock, Pair};
use pairs::{Build, Read, Scan, Way};
use random::Random;

const USAGE: &str = "bench time ROUNDS [NAME..]     the ratios
bench once ours|rust NAME      one run of one side, on a short text
bench names                    the names";

const NAMES: &[&str] = &[
    "read-short",
    "read-long",
    "read-string",
    "scan-short",
    "scan-encoder",
    "scan-json",
    "scan-long",
    "scan-string",
    "next-short",
    "planned-short",
    "planned-encoder",
    "planned-json",
    "planned-long",
    "planned-string",
    "gain-short",
    "gain-encoder",
    "gain-json",
    "gain-long",
    "gain-string",
    "loops-short",
    "loops-encoder",
    "loops-json",
    "loops-long",
    "loops-string",
    "build-dense-126",
    "build-dense-1024",
    "build-ladder-1024",
    "build-last-word-1024",
];

/// A text of so many bytes.
fn text(kind: &str, size: usize) -> Option<Vec<u8>> {
    let mut random = Random::new(1);
    Some(match kind {
        "short" => texts::text(&mut random, texts::ALL, size, 1, 5),
        "long" => texts::text(&mut random, texts::RUNS, size, 1_000, 20_000),
        "string" => texts::text(&mut random, texts::STRINGS, size, 1_000, 20_000),
        _ => return None,
    })
}

/// Graph words, and a text for them of so many bytes or a few more: those of an image of examples/, its sample again and again, or the lexer's.
fn lexed(kind: &str, size: usize) -> Option<(Vec<u16>, Vec<u8>)> {
    let name = match kind {
        "encoder" => "encoder-lines",
        "json" => "json",
        _ => return Some((texts::lexer(), text(kind, size)?)),
    };
    let file = |end: &str| std::fs::read(format!("examples/{name}.{end}")).expect("a file of examples/");
    let sample = file("sample");
    Some((calls::graph_of_image(&file("image")), sample.repeat(size.div_ceil(sample.len()))))
}

/// A table of a shape and a number of states, as `ladder-512`.
fn table(kind: &str) -> Option<Vec<u16>> {
    let (shape, states) = kind.rsplit_once('-')?;
    let states = form::number(states);
    Some(match shape {
        "dense" => tables_to_build::dense(&mut Random::new(1), states),
        "ladder" => tables_to_build::ladder(states),
        "last-word" => tables_to_build::last_word(states),
        _ => return None,
    })
}

/// The task of a name, and how many bytes it reads. A text has so many, a hundredth of them where each entry is a call.
fn pair(name: &str, size: usize) -> Option<(Box<dyn Pair>, usize)> {
    let (task, kind) = name.split_once('-')?;
    let (ways, size) = match task {
        "read" => return Some((Box::new(Read::new(texts::joined(), text(kind, size)?)), size)),
        "build" => return Some((Box::new(Build::new(table(kind)?)), 0)),
        "next" => ([Way::OurNext, Way::RustNext], size / 100),
        "scan" => ([Way::OurWalk, Way::RustWalk], size),
        "planned" => ([Way::OurPlan, Way::RustPlan], size),
        "gain" => ([Way::OurPlan, Way::OurWalk], size),
        "loops" => ([Way::RustPlan, Way::RustWalk], size),
        _ => return None,
    };
    let (graph, text) = lexed(kind, size)?;
    Some((Box::new(Scan::new(graph, text, ways)), size))
}

/// What the two sides of a task are called.
fn sides(name: &str) -> [&str; 2] {
    match name.split_once('-') {
        Some(("gain" | "loops", _)) => ["plan", "walk"],
        _ => ["ours", "Rust"],
    }
}

/// The ratios of the named tasks.
fn time(rounds: usize, names: &[&str]) -> Option<()> {
    let mut shown = [""; 2];
    for name in names {
        if sides(name) != shown {
            shown = sides(name);
            println!("{:<22}{:>13}{:>13}{:>9}{:>9}{:>9}", "", shown[0], shown[1], "ratio", "least", "greatest");
        }
        let (mut pair, bytes) = pair(name, 20_000_000)?;
        let times = measure(&mut *pair, rounds);
        let speed = |seconds: f64| match bytes {
            0 => format!("{:.3} ms", 1000.0 * seconds),
            _ => format!("{:.1} MB/s", bytes as f64 / seconds / 1e6),
        };
        let [ratio, least, greatest] = times.ratio;
        println!("{name:<22}{:>13}{:>13}{ratio:>9.3}{least:>9.3}{greatest:>9.3}", speed(times.ours), speed(times.rust));
    }
    Some(())
}

fn once(side: &str, name: &str) -> Option<()> {
    let (mut pair, _) = pair(name, 200_000)?;
    match side {
        "ours" => pair.ours(&mut Clock::default()),
        "rust" => pair.rust(&mut Clock::default()),
        _ => return None,
    }
    Some(())
}

fn main() {
    let args = std::env::args().skip(1).collect::<Vec<_>>();
    let args = args.iter().map(String::as_str).collect::<Vec<_>>();
    let done = match args[..] {
        ["time", rounds] => time(form::number(rounds), NAMES),
        ["time", rounds, ref names @ ..] => time(form::number(rounds), names),
        ["once", side, name] => once(side, name),
        ["names"] => Some(println!("{}", NAMES.join("\n"))),
        _ => None,
    };
    if done.is_none() {
        eprintln!("{USAGE}");
        std::process::exit(2);
    }
}
