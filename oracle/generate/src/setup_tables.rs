//! The tables of the setup file.

use crate::exhaustive::at_rest;
use crate::items::Items;
use crate::random::Random;
use crate::settings::{Settings, Zone};
use crate::setup::{read_item, write_item};
use crate::setup_file::{self, File};

/// How many good files are damaged in every byte.
const FILES: usize = 1000;

/// A good file. Of fifty one has the full 129 bytes and four have any size; the others are short.
fn good_file(random: &mut Random, number: usize) -> Vec<u8> {
    let (zones, channels, text) = match number % 50 {
        0 => (2, 16, 32),
        1..=4 => (random.below(3), random.below(17), random.below(33)),
        _ => (random.below(3), random.below(5), random.below(17)),
    };
    let layout = layout(random, zones);
    let settings = setup_file::settings(random, layout, channels as usize);
    let label = setup_file::label(random, text as usize);
    File::of(&settings, &label).bytes()
}

/// A legal layout with so many zones.
fn layout(random: &mut Random, zones: u64) -> [u8; 2] {
    loop {
        let layout = random.legal_layout();
        if layout.into_iter().filter(|members| *members > 0).count() as u64 == zones {
            return layout;
        }
    }
}

/// Item 90: good files as they are, every beginning of each, each with one byte more, and each with
/// every byte changed into every other.
pub fn files(items: &mut Items) {
    let mut random = Random::new(7);
    for number in 0..FILES {
        let file = good_file(&mut random, number);
        items.put(&read_item(&file));
        for length in 0..file.len() {
            items.put(&read_item(&file[..length]));
        }
        items.put(&read_item(&[&file[..], &[number as u8]].concat()));
        changed(items, &file);
    }
}

/// A file with every byte changed into every other.
fn changed(items: &mut Items, file: &[u8]) {
    for (place, byte) in file.iter().enumerate() {
        let mut changed = file.to_vec();
        for other in (0..=255).filter(|other| other != byte) {
            changed[place] = other;
            items.put(&read_item(&changed));
        }
    }
}

/// Zones and channels for the examples.
const LOWER: [u8; 7] = [0, 7, 2, 0, 48, 0, 3];
const UPPER: [u8; 7] = [1, 7, 96, 99, 96, 99, 4];
const LARGE: [u8; 7] = [0, 8, 2, 0, 48, 0, 3];
const NO_ZONE: [u8; 7] = [2, 7, 2, 0, 48, 0, 3];
const NO_MODE: [u8; 7] = [0, 7, 2, 0, 48, 0, 5];
const THIRD: [u8; 5] = [3, 0x40, 0, 0, 65];
const LAST: [u8; 5] = [15, 0x40, 0, 1, 64];
const REST: [u8; 5] = [4, 0x40, 0, 0, 64];
const NO_CHANNEL: [u8; 5] = [16, 0x40, 0, 0, 64];

/// Files at the edges of document 02, 2026-07, section by section.
fn examples() -> Vec<Vec<u8>> {
    let examples: [&[&[u8]]; 36] = [
        // The zones: counts, whole and cut entries, their order, the pair.
        &[&[]],
        &[&[3]],
        &[&[1]],
        &[&[1, 0, 0]],
        &[&[1], &NO_ZONE],
        &[&[1], &NO_ZONE[..6]],
        &[&[2], &UPPER, &LOWER],
        &[&[2], &LOWER, &LOWER],
        &[&[2], &LOWER, &NO_MODE],
        &[&[2], &UPPER, &NO_MODE],
        &[&[2], &UPPER, &NO_MODE[..6]],
        &[&[2], &LOWER, &UPPER],
        &[&[2], &LARGE, &UPPER],
        &[&[2], &LARGE, &UPPER, &[17]],
        &[&[2], &LARGE, &UPPER[..6]],
        &[&[2], &LARGE, &UPPER, &[0, 0]],
        &[&[2], &LOWER, &UPPER, &[0, 0]],
        // The channels.
        &[&[0]],
        &[&[0, 17]],
        &[&[0, 1], &REST],
        &[&[0, 1], &REST[..4]],
        &[&[0, 1], &NO_CHANNEL],
        &[&[0, 2], &THIRD, &THIRD],
        &[&[0, 2], &LAST, &THIRD],
        &[&[0, 2], &LAST, &NO_CHANNEL],
        &[&[0, 2], &THIRD, &LAST[..4]],
        &[&[0, 2], &THIRD, &LAST, &[0]],
        // The label and the end.
        &[&[0, 0]],
        &[&[0, 0, 33]],
        &[&[0, 0, 2, 0x20]],
        &[&[0, 0, 2, 0x1F]],
        &[&[0, 0, 2, 0x20, 0x7E]],
        &[&[0, 0, 2, 0x20, 0x7E, 0x20]],
        &[&[0, 0, 2, 0x20, 0x7F]],
        &[&[0, 0, 2, 0x1F, 0x7E, 0x20]],
        &[&[0, 0, 0]],
    ];
    examples.map(|parts| parts.concat()).to_vec()
}

/// Item 90: every file of up to two bytes, and the examples.
pub fn short_files(items: &mut Items) {
    items.put(&read_item(&[]));
    for first in 0..=255 {
        items.put(&read_item(&[first]));
        for second in 0..=255 {
            items.put(&read_item(&[first, second]));
        }
    }
    for file in examples() {
        items.put(&read_item(&file));
    }
}

/// Settings with the usual sensitivities, and every channel at rest.
fn usual(layout: [u8; 2]) -> Settings {
    let zone = Zone {
        manager: [2, 0],
        member: [48, 0],
        mode: 3,
    };
    at_rest(layout, [zone; 2])
}

/// Item 91: every byte in each field of a record, with and without members; every pair of member
/// counts up to 17; every byte at each place of a label, and every length of it; every length of the
/// buffer up to one past the largest file.
pub fn fields(items: &mut Items) {
    for layout in [[3, 2], [3, 0], [0, 2], [0, 0]] {
        let record = usual(layout).record();
        for field in 0..record.len() {
            let mut record = record.clone();
            for byte in 0..=255 {
                record[field] = byte;
                items.put(&write_item(&record, b"A", 24));
            }
        }
    }
    for lower in 0..=17 {
        for upper in 0..=17 {
            items.put(&write_item(&usual([lower, upper]).record(), b"", 18));
        }
    }
    labels(items);
    lengths(items);
}

fn labels(items: &mut Items) {
    let record = usual([0, 0]).record();
    for place in 0..3 {
        for byte in 0..=255 {
            let mut label = *b"A~ ";
            label[place] = byte;
            items.put(&write_item(&record, &label, 7));
        }
    }
    for length in 0..=255 {
        items.put(&write_item(&record, &vec![b'A'; length], 36));
    }
}

fn lengths(items: &mut Items) {
    let mut random = Random::new(1);
    let settings = setup_file::settings(&mut random, [7, 7], 16);
    let label = setup_file::label(&mut random, 32);
    for length in (0..=130).chain([512]) {
        items.put(&write_item(&settings.record(), &label, length));
    }
}
