//! The program `generate`: prints a trace (docs/REPLAY.md), one item a line.
//!
//! - `generate SEED COUNT [KIND..]`: a random trace of COUNT items of the kinds named. The same
//!   words give the same trace.
//! - `generate --exhaustive NAME`: every case of a small table.
//! - `generate --triples SEED COUNT`: COUNT times a history, a restatement and a future, and the
//!   same restatement and future on a new end.

mod allocator;
mod bytes;
mod calls;
mod end;
mod exhaustive;
mod items;
mod midi2;
mod random;
mod receiver;
mod restatement;
mod scaling;
mod sender;
mod settings;
mod setup;
mod setup_file;
mod setup_tables;
mod ties;
mod translation;
mod triples;
mod ump;
mod values;
mod words;

use std::process::ExitCode;

use items::Items;
use random::Random;

/// What the phrases of a trace share: chance, the items so far, and what a kind remembers from one
/// phrase to the next.
struct Generator {
    random: Random,
    items: Items,
    /// The last status byte that was given to the end.
    status: Option<u8>,
    /// The layout that the allocator plays in.
    played: [u8; 2],
}

impl Generator {
    fn new(random: Random, items: Items) -> Self {
        Self {
            random,
            items,
            status: None,
            played: [7, 7],
        }
    }
}

/// A phrase: a few items of one kind that belong together.
type Phrase = fn(&mut Generator);

/// The kinds, and how often each is chosen beside the others; one with 0 only where it is named.
const KINDS: [(&str, Phrase, u32); 14] = [
    ("end", end::phrase, 6),
    ("layout", calls::layout, 3),
    ("ump", ump::phrase, 3),
    ("pitch", calls::pitch, 6),
    ("apply", calls::apply, 6),
    ("parameters", receiver::parameters, 6),
    ("receiver", receiver::receiver, 6),
    ("sender", sender::phrase, 4),
    ("allocator", allocator::phrase, 4),
    ("restatement", restatement::phrase, 1),
    ("translate", translation::phrase, 6),
    ("scale", scaling::phrase, 3),
    ("setup", setup::phrase, 2),
    ("lower_notes", allocator::lower_notes, 0),
];

const USAGE: &str = "usage: generate SEED COUNT [KIND..]
       generate --exhaustive NAME
       generate --triples SEED COUNT
KIND: end layout ump pitch apply parameters receiver sender allocator restatement translate scale
      setup (by default all of these) lower_notes
NAME: layouts packets constructors words announcements roles bytes classes sensitivities settings
      pitch scaling narrowing translations records ties setup_files short_setup_files setup_fields";

/// The kinds named, each as often as it is to be chosen; none for a name that is no kind.
fn chosen(names: &[String]) -> Option<Vec<Phrase>> {
    let known = |name: &String| KINDS.iter().any(|(kind, ..)| kind == name);
    if !names.iter().all(known) {
        return None;
    }
    let mut phrases = Vec::new();
    for (kind, phrase, weight) in KINDS {
        let times = match names.iter().any(|name| name == kind) {
            true => weight.max(1),
            false if names.is_empty() => weight,
            false => 0,
        };
        phrases.extend((0..times).map(|_| phrase));
    }
    Some(phrases)
}

/// Prints `count` items: phrases, one after another, the last one cut where the count ends.
fn random_trace(seed: u64, count: u64, phrases: &[Phrase]) {
    let mut generator = Generator::new(Random::new(seed), Items::printed(count));
    while generator.items.wanted() {
        let phrase = generator.random.one_of(phrases);
        phrase(&mut generator);
    }
}

fn run(words: &[String]) -> Option<()> {
    match words {
        [option, name] if option == "--exhaustive" => exhaustive::trace(name),
        [option, seed, count] if option == "--triples" => {
            triples::trace(seed.parse().ok()?, count.parse().ok()?);
            Some(())
        }
        [seed, count, names @ ..] => {
            let phrases = chosen(names)?;
            random_trace(seed.parse().ok()?, count.parse().ok()?, &phrases);
            Some(())
        }
        _ => None,
    }
}

fn main() -> ExitCode {
    let words: Vec<String> = std::env::args().skip(1).collect();
    match run(&words) {
        Some(()) => ExitCode::SUCCESS,
        None => {
            eprintln!("{USAGE}");
            ExitCode::from(2)
        }
    }
}
