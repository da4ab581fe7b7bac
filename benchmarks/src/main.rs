//! The same inputs through the proved library and through the Rust, in one run: ratios, rates,
//! sizes. docs/BENCHMARKS.md says how to run it and what the figures are.

#[allow(dead_code)]
#[path = "../../oracle/trace/src/end.rs"]
mod end;
#[allow(dead_code)]
#[path = "../../oracle/trace/src/answer.rs"]
mod answer;
mod ours;
#[allow(dead_code)]
#[path = "../../oracle/trace/src/restatement.rs"]
mod restatement;
#[allow(dead_code)]
#[path = "../../oracle/generate/src/random.rs"]
mod random;
#[path = "../../oracle/trace/src/reader.rs"]
mod reader;
mod rust;
#[allow(dead_code)]
#[path = "../../oracle/trace/src/sensitivity.rs"]
mod sensitivity;
mod stack;
mod streams;

use std::env;
use std::hint::black_box;
use std::process;
use std::time::Instant;

/// Passes of each side over an input. The sides take turns, and the median counts.
const PASSES: usize = 101;

type Run<'a> = Box<dyn Fn() -> u64 + 'a>;

/// One input and the two sides that take it.
struct Pair<'a> {
    name: String,
    /// Calls in one pass.
    calls: usize,
    ours: Run<'a>,
    rust: Run<'a>,
}

fn seconds(run: &Run) -> f64 {
    let start = Instant::now();
    black_box(run());
    start.elapsed().as_secs_f64()
}

fn median(mut times: Vec<f64>) -> f64 {
    times.sort_by(f64::total_cmp);
    times[times.len() / 2]
}

/// Prints what both sides do in a second, and the ratio of their times.
fn measure(pair: &Pair) {
    assert_eq!(
        (pair.ours)(),
        (pair.rust)(),
        "{}: the answers differ",
        pair.name
    );
    let (mut ours, mut rust) = (Vec::new(), Vec::new());
    for _ in 0..PASSES {
        ours.push(seconds(&pair.ours));
        rust.push(seconds(&pair.rust));
    }
    let (ours, rust) = (median(ours), median(rust));
    let million = |time: f64| pair.calls as f64 / time / 1e6;
    let (name, ratio) = (&pair.name, ours / rust);
    println!(
        "{name:30} {:10.1} {:10.1} {ratio:7.2}",
        million(ours),
        million(rust)
    );
}

fn measure_all(all: &[streams::Stream]) {
    let bent = streams::bent();
    let channels = streams::channels();
    let notes = streams::notes();
    let messages = streams::messages();
    let bends: Vec<u16> = (0..0x4000).step_by(61).collect();
    let mut pairs = Vec::new();
    for stream in all {
        let bytes = &stream.bytes;
        pairs.push(Pair {
            name: format!("bytes lent, {}", stream.name),
            calls: bytes.len(),
            ours: Box::new(|| ours::replies_lent(bytes)),
            rust: Box::new(|| rust::replies_lent(bytes)),
        });
        pairs.push(Pair {
            name: format!("bytes by value, {}", stream.name),
            calls: bytes.len(),
            ours: Box::new(|| ours::replies(bytes)),
            rust: Box::new(|| rust::rust_replies(bytes)),
        });
    }
    pairs.push(Pair {
        name: "messages translated".into(),
        calls: messages.len(),
        ours: Box::new(|| ours::translations(&messages)),
        rust: Box::new(|| rust::rust_translations(&messages)),
    });
    pairs.push(Pair {
        name: "offsets read".into(),
        calls: channels.len(),
        ours: Box::new(|| ours::offsets(&bent, &channels)),
        rust: Box::new(|| rust::offsets(&bent, &channels)),
    });
    pairs.push(Pair {
        name: "allocator calls".into(),
        calls: notes.len(),
        ours: Box::new(|| ours::notes(&notes)),
        rust: Box::new(|| rust::rust_notes(&notes)),
    });
    pairs.push(Pair {
        name: "restatements written".into(),
        calls: bends.len(),
        ours: Box::new(|| ours::restatements(&bends)),
        rust: Box::new(|| rust::restatements(&bends)),
    });
    println!(
        "{:30} {:>10} {:>10} {:>7}",
        "million a second", "ours", "Rust", "ratio"
    );
    for pair in &pairs {
        measure(pair);
    }
}

/// The deepest stack of one byte, over all streams.
fn deepest(all: &[streams::Stream], byte: &mut dyn FnMut(u8)) -> usize {
    let streams = all.iter().map(|stream| &stream.bytes);
    let worst = streams::worst();
    let bytes = streams.chain(&worst).flatten();
    bytes
        .map(|b| stack::depth(&mut || byte(*b)))
        .max()
        .unwrap_or(0)
}

fn measure_room(all: &[streams::Stream]) {
    let mut mine = ours::End::new();
    let mut theirs = end::End::new();
    let ours = deepest(all, &mut |b| {
        black_box(mine.byte(b));
    });
    let rust = deepest(all, &mut |b| {
        black_box(rust::rust_byte(&mut theirs, b));
    });
    println!("\n{:30} {:>10} {:>10}", "bytes", "ours", "Rust");
    println!(
        "{:30} {:10} {:10}",
        "an end",
        ours::End::size(),
        size_of::<end::End>()
    );
    println!("{:30} {ours:10} {rust:10}", "deepest stack of a byte");
}

/// For the script `instructions`: one pass of one side, and nothing else.
fn once(side: &str, bytes: &[u8]) -> u64 {
    match side {
        "lent" => ours::replies_lent(bytes),
        "value" => ours::replies(bytes),
        "rust" => rust::replies_lent(bytes),
        _ => usage(),
    }
}

/// The same for the messages that are translated.
fn once_translated(side: &str) -> u64 {
    let messages = streams::messages();
    match side {
        "value" => ours::translations(&messages),
        "rust" => rust::rust_translations(&messages),
        _ => usage(),
    }
}

/// The same for the notes of the allocator.
fn once_noted(side: &str) -> u64 {
    let notes = streams::notes();
    match side {
        "value" => ours::notes(&notes),
        "rust" => rust::rust_notes(&notes),
        _ => usage(),
    }
}

fn usage() -> ! {
    eprintln!("benchmarks | benchmarks once lent|value|rust STREAM | benchmarks once SIDE worst N [before] | benchmarks once value|rust messages|notes");
    process::exit(2)
}

/// The bytes that the words name: a stream; or announcement N, or all of it but its last byte.
fn named(words: &[&str]) -> Vec<u8> {
    match words {
        ["worst", n, rest @ ..] => {
            let n: usize = n.parse().unwrap_or_else(|_| usage());
            let mut bytes = streams::worst()
                .into_iter()
                .nth(n)
                .unwrap_or_else(|| usage());
            if rest == ["before"] {
                bytes.pop();
            }
            bytes
        }
        [name] => {
            let stream = streams::all()
                .into_iter()
                .find(|stream| stream.name == *name);
            stream.unwrap_or_else(|| usage()).bytes
        }
        _ => usage(),
    }
}

fn main() {
    let words: Vec<String> = env::args().skip(1).collect();
    let words: Vec<&str> = words.iter().map(String::as_str).collect();
    match &words[..] {
        [] => {
            let all = streams::all();
            measure_all(&all);
            measure_room(&all);
        }
        ["once", side, "messages"] => {
            black_box(once_translated(side));
        }
        ["once", side, "notes"] => {
            black_box(once_noted(side));
        }
        ["once", side, what @ ..] => {
            black_box(once(side, &named(what)));
        }
        _ => usage(),
    }
}
