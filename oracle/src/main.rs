//! The oracle: random cases, the original's answers to cases, and the stored lists. docs/ORACLE.md says what each is.

mod builds;
mod classes;
mod display;
mod form;
mod generated;
mod graphs;
mod original;
mod plans;
mod priorities;
mod random;
mod readings;
mod tables;
mod walks;
mod words;

use random::Random;
use std::io::{BufRead, Read, Write};

const USAGE: &str = "oracle cases NAME SEED COUNT
oracle answers NAME < cases
oracle list NAME IMAGE..
oracle print < image
oracle scan IMAGE < text
oracle program < cases of generated
NAME: classes, priorities, builds, display, readings, plans, generated";

fn main() {
    let args = std::env::args().skip(1).collect::<Vec<_>>();
    let args = args.iter().map(String::as_str).collect::<Vec<_>>();
    let done = match args[..] {
        ["cases", name, seed, count] => cases(name, form::number(seed), form::number(count)),
        ["answers", name] => answers(name),
        ["list", name, ref images @ ..] => list(name, images),
        ["print"] => print(),
        ["scan", path] => scan(path),
        ["program"] => program(),
        _ => None,
    };
    if done.is_none() {
        eprintln!("{USAGE}");
        std::process::exit(2);
    }
}

/// So many random cases, a line each; for generated code so many tables, with a line for each of their texts.
fn cases(name: &str, seed: usize, count: usize) -> Option<()> {
    let next: fn(&mut Random) -> String = match name {
        "classes" => |random| classes::random_case(random).line(),
        "priorities" => |random| priorities::random_case(random).line(),
        "builds" => |random| builds::random_case(random).line(),
        "display" => |random| display::random_case(random).line(),
        "readings" => |random| readings::random_case(random).line(),
        "plans" => |random| plans::random_case(random).line(),
        "generated" => |random| generated::random_cases(random).iter().map(readings::Case::line).collect::<Vec<_>>().join("\n"),
        _ => return None,
    };
    let mut random = Random::new(seed as u64);
    let mut out = std::io::BufWriter::new(std::io::stdout().lock());
    for _ in 0..count {
        writeln!(out, "{}", next(&mut random)).expect("standard output");
    }
    Some(())
}

fn answers(name: &str) -> Option<()> {
    let answer: fn(&str) -> String = match name {
        "classes" => |line| classes::Case::of_line(line).answer(),
        "priorities" => |line| priorities::Case::of_line(line).answer(),
        "builds" => |line| builds::Case::of_line(line).answer(),
        "display" => |line| display::Case::of_line(line).answer(),
        "readings" => |line| readings::Case::of_line(line).answer(),
        "plans" => |line| plans::Case::of_line(line).answer(),
        "generated" => generated::answer,
        _ => return None,
    };
    let mut out = std::io::BufWriter::new(std::io::stdout().lock());
    for line in std::io::stdin().lock().lines() {
        writeln!(out, "{}", answer(&line.expect("standard input"))).expect("standard output");
    }
    Some(())
}

fn list(name: &str, images: &[&str]) -> Option<()> {
    let images = images.iter().map(|path| image(path)).collect::<Vec<_>>();
    let bytes = match name {
        "classes" => classes::list(),
        "priorities" => priorities::list(),
        "builds" => builds::list(&images),
        "display" => display::list(),
        "readings" => readings::list(&images),
        "plans" => plans::list(&images),
        _ => return None,
    };
    std::io::stdout().write_all(&bytes).expect("standard output");
    Some(())
}

/// The words of an image and the sample text beside it.
fn image(path: &str) -> (Vec<u16>, Vec<u8>) {
    let read = |path: &str| std::fs::read(path).unwrap_or_else(|error| panic!("{path}: {error}"));
    (words_of_image(&read(path)), read(&path.replace(".image", ".sample")))
}

/// Low byte first.
fn words_of_image(bytes: &[u8]) -> Vec<u16> {
    bytes.chunks_exact(2).map(|pair| u16::from_le_bytes([pair[0], pair[1]])).collect()
}

/// What the graph printer prints for the image on standard input.
fn print() -> Option<()> {
    let mut bytes = Vec::new();
    std::io::stdin().read_to_end(&mut bytes).expect("standard input");
    std::io::stdout().write_all(builds::printed(&bytes).as_bytes()).expect("standard output");
    Some(())
}

/// The program of the generated code for the cases on standard input.
fn program() -> Option<()> {
    let lines = std::io::stdin().lock().lines().collect::<Result<Vec<_>, _>>().expect("standard input");
    std::io::stdout().write_all(generated::program(&lines).as_bytes()).expect("standard output");
    Some(())
}

/// The scan of the text on standard input by an image's graph.
fn scan(path: &str) -> Option<()> {
    let bytes = std::fs::read(path).unwrap_or_else(|error| panic!("{path}: {error}"));
    let mut text = Vec::new();
    std::io::stdin().read_to_end(&mut text).expect("standard input");
    for (leaf, start, end) in walks::scan(&builds::built(&words_of_image(&bytes)).graph, &text, 0) {
        match leaf {
            Some(leaf) => println!("token {leaf} {start} {end}"),
            None => println!("gap {start} {end}"),
        }
    }
    println!("ended");
    Some(())
}
