//! The setup file, written and read.

use crate::restatement::spoil;
use crate::sender::length_near;
use crate::setup_file::{self, File};
use crate::Generator;

/// The longest file and the longest buffer of an item.
const LIMIT: usize = 512;

/// Bytes beside those of a label.
const NO_TEXT: [u8; 6] = [0x00, 0x0A, 0x1F, 0x7F, 0x80, 0xFF];

/// A file that is to be read.
pub fn read_item(file: &[u8]) -> Vec<u8> {
    let length = (file.len() as u16).to_be_bytes();
    [&[0x90], &length[..], file].concat()
}

/// A settings record and a label that are to be written into `length` bytes.
pub fn write_item(record: &[u8], label: &[u8], length: u16) -> Vec<u8> {
    let count = [label.len() as u8];
    [&[0x91], record, &count, label, &length.to_be_bytes()].concat()
}

/// How many channels are not at rest: often none or few.
fn channels(g: &mut Generator) -> usize {
    match g.random.below(8) {
        0 | 1 => 0,
        2..=5 => g.random.between(1, 4) as usize,
        6 => g.random.below(17) as usize,
        _ => 16,
    }
}

/// A label inside its limits: often none or a short one.
fn label(g: &mut Generator) -> Vec<u8> {
    let length = match g.random.below(8) {
        0 | 1 => 0,
        2..=5 => g.random.between(1, 6) as usize,
        6 => g.random.below(33) as usize,
        _ => 32,
    };
    setup_file::label(&mut g.random, length)
}

/// Puts one byte of a label past its limits, or makes the label too long.
fn spoil_label(g: &mut Generator, label: &mut Vec<u8>) {
    if label.is_empty() || g.random.once_in(2) {
        let length = match g.random.below(4) {
            0 => g.random.between(33, 255) as usize,
            1 => 255,
            _ => 33,
        };
        *label = setup_file::label(&mut g.random, length);
        return;
    }
    let place = g.random.below(label.len() as u64) as usize;
    label[place] = g.random.one_of(&NO_TEXT);
}

/// Writes a file, mostly of legal settings and a label inside its limits.
fn written(g: &mut Generator) {
    let (layout, channels, mut label) = (g.random.layout(), channels(g), label(g));
    let settings = setup_file::settings(&mut g.random, layout, channels);
    let mut record = settings.record();
    if g.random.once_in(4) {
        spoil(g, &mut record);
    }
    if g.random.once_in(6) {
        spoil_label(g, &mut label);
    }
    let needed = File::of(&settings, &label).bytes().len() as u64;
    let length = length_near(g, needed, LIMIT as u64) as u16;
    g.items.put(&write_item(&record, &label, length));
}

/// A file that the reader takes, in its parts.
fn good(g: &mut Generator) -> File {
    let (layout, channels, label) = (g.random.legal_layout(), channels(g), label(g));
    let settings = setup_file::settings(&mut g.random, layout, channels);
    File::of(&settings, &label)
}

/// Exchanges two entries.
fn exchange<T>(g: &mut Generator, entries: &mut [T]) {
    if let [first, .., last] = entries {
        if g.random.once_in(2) {
            std::mem::swap(first, last);
            return;
        }
        let before = g.random.below(entries.len() as u64 - 1) as usize;
        entries.swap(before, before + 1);
    }
}

/// Repeats an entry, as it is or with another byte in it.
fn repeat<const SIZE: usize>(g: &mut Generator, entries: &mut Vec<[u8; SIZE]>) {
    if entries.is_empty() {
        return;
    }
    let place = g.random.below(entries.len() as u64) as usize;
    let mut entry = entries[place];
    if g.random.once_in(2) {
        entry[g.random.below(SIZE as u64) as usize] = g.random.byte();
    }
    entries.insert(place + 1, entry);
}

/// Puts in a channel at rest, mostly where its number belongs and mostly one that is not there.
fn rest(g: &mut Generator, channels: &mut Vec<[u8; 5]>) {
    let number = g.random.channel();
    let place = match g.random.below(4) {
        0 => g.random.below(channels.len() as u64 + 1) as usize,
        _ => channels.partition_point(|entry| entry[0] < number),
    };
    channels.insert(place, [number, 0x40, 0x00, 0, 64]);
}

/// Puts one byte of an entry at its limit or past it.
fn limit<const SIZE: usize>(g: &mut Generator, entries: &mut [[u8; SIZE]], limits: [u8; SIZE]) {
    if entries.is_empty() {
        return;
    }
    let entry = g.random.below(entries.len() as u64) as usize;
    let field = g.random.below(SIZE as u64) as usize;
    let limit = limits[field];
    entries[entry][field] = g.random.one_of(&[0, limit, limit + 1, 128, 255]);
}

/// Gives both zones so many members that they are at the limit of 14 or past it.
fn crowd(g: &mut Generator, zones: &mut [[u8; 7]]) {
    if let [lower, upper] = zones {
        lower[1] = g.random.between(1, 15) as u8;
        upper[1] = match g.random.below(3) {
            0 => 15,
            _ => (g.random.between(14, 16) as u8)
                .saturating_sub(lower[1])
                .max(1),
        };
    }
}

/// Damages one part of a file, or the order of its parts.
fn damage_parts(g: &mut Generator, file: &mut File) {
    match g.random.below(9) {
        0 => exchange(g, &mut file.zones),
        1 => exchange(g, &mut file.channels),
        2 => repeat(g, &mut file.zones),
        3 => repeat(g, &mut file.channels),
        4 => rest(g, &mut file.channels),
        5 => limit(g, &mut file.zones, [1, 15, 96, 99, 96, 99, 4]),
        6 => limit(g, &mut file.channels, [15, 127, 127, 127, 127]),
        7 => crowd(g, &mut file.zones),
        _ => spoil_label(g, &mut file.label),
    }
}

/// Damages a file byte by byte: one changed, put in or taken out, or another end.
fn damage_bytes(g: &mut Generator, file: &mut Vec<u8>) {
    let length = file.len();
    let place = g.random.below(length as u64 + 1) as usize;
    match g.random.below(6) {
        0 | 1 if place < length => {
            file[place] = match g.random.below(3) {
                0 => file[place].wrapping_add(1),
                1 => file[place].wrapping_sub(1),
                _ => g.random.byte(),
            }
        }
        2 => file.insert(place, g.random.seven_or_so()),
        3 if place < length => drop(file.remove(place)),
        4 => file.truncate(place),
        _ => {
            let more = match g.random.below(8) {
                0 => g.random.below(LIMIT.saturating_sub(length) as u64 + 1),
                _ => g.random.between(1, 3) as u64,
            };
            file.extend((0..more).map(|_| g.random.seven_or_so()));
        }
    }
}

/// Reads a good file, or one with a few damages.
fn read(g: &mut Generator) {
    let mut file = good(g);
    for _ in 0..g.random.one_of(&[0, 0, 1, 1, 2]) {
        damage_parts(g, &mut file);
    }
    let mut bytes = file.bytes();
    for _ in 0..g.random.one_of(&[0, 0, 0, 1, 1, 2]) {
        damage_bytes(g, &mut bytes);
    }
    bytes.truncate(LIMIT);
    g.items.put(&read_item(&bytes));
}

/// Reads a file whose entries are by chance, most of their bytes inside the limits.
fn read_entries(g: &mut Generator) {
    let zone = |g: &mut Generator| {
        let [s, t] = [g.random.semitones(), g.random.cents()];
        let [a, b] = [g.random.semitones(), g.random.cents()];
        let mode = g.random.one_of(&[2, 3, 3, 3, 4, 4, 4, 5]);
        [g.random.below(3) as u8, g.random.count(), s, t, a, b, mode]
    };
    let channel = |g: &mut Generator| {
        let number = g.random.one_of(&[0, 1, 1, 2, 14, 15, 15, 16]);
        let [high, low] = [0x40, g.random.one_of(&[0, 0, 1, 127, 128])];
        let pressure = g.random.one_of(&[0, 0, 1, 127, 128]);
        let brightness = g.random.one_of(&[64, 64, 65, 127, 128]);
        [number, high, low, pressure, brightness]
    };
    let mut file = File {
        zones: (0..g.random.below(4)).map(|_| zone(g)).collect(),
        channels: (0..g.random.below(4)).map(|_| channel(g)).collect(),
        label: label(g),
    };
    if g.random.once_in(2) {
        file.zones.sort();
        file.channels.sort();
    }
    if g.random.once_in(4) {
        spoil_label(g, &mut file.label);
    }
    let mut bytes = file.bytes();
    if g.random.once_in(4) {
        damage_bytes(g, &mut bytes);
    }
    bytes.truncate(LIMIT);
    g.items.put(&read_item(&bytes));
}

/// Reads a short file of small numbers.
fn read_short(g: &mut Generator) {
    let mut byte = || match g.random.below(8) {
        0..=3 => g.random.below(3) as u8,
        4 | 5 => g.random.below(17) as u8,
        6 => g.random.one_of(&[0x20, 0x7E, 64, 96, 99, 127]),
        _ => g.random.byte(),
    };
    let length = byte() % 32;
    let bytes: Vec<u8> = (0..length).map(|_| byte()).collect();
    g.items.put(&read_item(&bytes));
}

/// Writes a file of legal settings, and reads it.
fn written_and_read(g: &mut Generator) {
    let (layout, channels, label) = (g.random.legal_layout(), channels(g), label(g));
    let settings = setup_file::settings(&mut g.random, layout, channels);
    let bytes = File::of(&settings, &label).bytes();
    let length = bytes.len() as u16 + g.random.one_of(&[0, 0, 1]);
    g.items.put(&write_item(&settings.record(), &label, length));
    g.items.put(&read_item(&bytes));
}

pub fn phrase(g: &mut Generator) {
    match g.random.below(12) {
        0..=3 => written(g),
        4 => written_and_read(g),
        5..=8 => read(g),
        9 | 10 => read_entries(g),
        _ => read_short(g),
    }
}

#[cfg(test)]
mod tests {
    use super::*;
    use crate::items::{Item, Items};
    use crate::random::Random;

    /// The answers of `trace`, a line an item.
    fn answers(items: &[Item]) -> Vec<String> {
        let mut text = String::new();
        for byte in items.concat() {
            text += &format!("{byte:02X} ");
        }
        let mut output = Vec::new();
        trace::run(text.as_bytes(), &mut output).expect("a text is read and written");
        let answers = String::from_utf8(output).expect("answers are text");
        answers.lines().map(str::to_string).collect()
    }

    fn decimal(bytes: &[u8]) -> String {
        bytes.iter().map(|byte| format!(" {byte}")).collect()
    }

    /// The file written here is the one that `trace` writes, and `trace` reads of it the settings
    /// and the label that it was made of.
    #[test]
    fn the_two_writers_agree() {
        let mut g = Generator::new(Random::new(3), Items::kept(0));
        for _ in 0..20_000 {
            let (layout, channels, label) =
                (g.random.legal_layout(), channels(&mut g), label(&mut g));
            let settings = setup_file::settings(&mut g.random, layout, channels);
            let file = File::of(&settings, &label).bytes();
            assert!(file.len() <= 129);
            let length = file.len() as u16;
            let items = [
                write_item(&settings.record(), &label, length),
                read_item(&file),
            ];
            let shown = [settings.shown_zones(), settings.shown_channels().join(" ")].join(" ");
            let expected = [
                format!("{length} :{}", decimal(&file)),
                format!("{shown} :{}", decimal(&label)),
            ];
            assert_eq!(answers(&items), expected);
        }
    }

    /// Of the phrases each sort of answer comes up often.
    #[test]
    fn every_sort_of_answer() {
        const COUNT: usize = 20_000;
        let mut g = Generator::new(Random::new(4), Items::kept(COUNT as u64));
        while g.items.wanted() {
            phrase(&mut g);
        }
        let items = g.items.take();
        let answers = answers(&items);
        assert_eq!(answers.len(), COUNT);
        for (operation, sorts) in [
            (0x90, &["!1", "!4", "!5", ""][..]),
            (0x91, &["!1 :", "!2 ", ""]),
        ] {
            let answers = items.iter().zip(&answers);
            let answers = answers.filter(|(item, _)| item[0] == operation);
            let mut counts = vec![0; sorts.len()];
            for (_, answer) in answers {
                let sort = sorts.iter().position(|sort| answer.starts_with(sort));
                counts[sort.expect("the last sort is any other")] += 1;
            }
            assert!(counts.iter().all(|count| *count > COUNT / 50), "{counts:?}");
        }
    }
}
