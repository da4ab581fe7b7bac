//! Triples: a random history on a new end, a restatement whose bytes arrive among real-time ones,
//! and a random future; then a new end that gets the same restatement alone, by item 72, and the
//! same future (document 01, "Demand 3 in detail").
//!
//! The comments of the trace are marks: `triple N` starts a triple; after `shown`, in each of its
//! two runs, stand the items whose answers are to be the same; `alone` starts the second run;
//! after `bytes` the restatement is written by item 70; `end` ends the triple. `expect WORDS` says
//! how the answer to the next item is to begin.

use crate::end::{self, byte, control};
use crate::items::{Item, Items, Printer};
use crate::random::Random;
use crate::settings::Settings;
use crate::Generator;

/// A history is cut here, but for what is put back and its last words.
const HISTORY: u64 = 60;
/// A future is cut here, but for the readings before and after it.
const FUTURE: u64 = 40;
/// The last message of a restatement is a pressure on channel 15.
const LAST_STATUS: u8 = 0xDF;

/// Prints `count` triples.
pub fn trace(seed: u64, count: u64) {
    let mut generator = Generator::new(Random::new(seed), Items::kept(0));
    let mut printer = Printer::new();
    for number in 1..=count {
        printer.comment(&format!("triple {number}"));
        triple(&mut generator, &mut printer);
    }
}

fn triple(g: &mut Generator, printer: &mut Printer) {
    let layout = g.random.legal_layout();
    let settings = Settings::random(&mut g.random, layout);
    let bytes = settings.bytes();
    // The last of the history and the first of the future are about this channel.
    let channel = g.random.channel();
    let history = history(g, channel);
    let arrival = arrival(g, &bytes);
    let future = future(g, channel);

    printer.item(&[0x00]);
    printer.items(&history);
    printer.comment("restatement");
    printer.items(&arrival);
    shown(printer, &settings, &future);
    printer.comment("alone");
    printer.item(&[0x00]);
    printer.item(&[&[0x72], &settings.record()[..]].concat());
    shown(printer, &settings, &future);
    written(printer, &settings, &bytes);
    printer.comment("end");
}

/// The readings that show the settings, and the future.
fn shown(printer: &mut Printer, settings: &Settings, future: &[Item]) {
    printer.comment("shown");
    let channels = settings.shown_channels().into_iter();
    let channels = channels.zip(settings.shown_offsets());
    let expected = [settings.shown_zones()]
        .into_iter()
        .chain(channels.flat_map(|(controls, offset)| [controls, offset]));
    for (item, words) in readings().iter().zip(expected) {
        printer.comment(&format!("expect {words}"));
        printer.item(item);
    }
    printer.items(future);
}

/// The bytes that arrived are those of item 70, in a buffer that they just fill.
fn written(printer: &mut Printer, settings: &Settings, bytes: &[u8]) {
    let length = bytes.len();
    let elements: Vec<String> = bytes.iter().map(u8::to_string).collect();
    printer.comment("bytes");
    printer.comment(&format!("expect {length} : {}", elements.join(" ")));
    let length = (length as u16).to_be_bytes();
    printer.item(&[&[0x70], &settings.record()[..], &length].concat());
}

/// The readings of the zones, and of every channel with its offset and the remainder.
fn readings() -> Vec<Item> {
    let channels = (0..16).flat_map(|channel| [vec![0x07, channel], vec![0x09, channel]]);
    [vec![0x06]].into_iter().chain(channels).collect()
}

/// What `make` puts, `count` items at most.
fn kept(g: &mut Generator, count: u64, make: impl Fn(&mut Generator)) -> Vec<Item> {
    g.items = Items::kept(count);
    make(g);
    g.items.take()
}

/// Calls on the end until the items have their count; the last are cut wherever they are.
fn play(g: &mut Generator) {
    while g.items.wanted() {
        end::calls(g);
    }
}

fn play_with_switches(g: &mut Generator) {
    while g.items.wanted() {
        end::switch(g);
        end::calls(g);
    }
}

/// Calls on a new end that leave its switches as new.
fn history(g: &mut Generator, channel: u8) -> Vec<Item> {
    g.status = None;
    let length = match g.random.below(8) {
        0 => 0,
        _ => g.random.below(HISTORY + 1),
    };
    // A switch that is put back may clear a number: in most histories none is moved, in the others
    // many are.
    let mut history = if g.random.once_in(4) {
        kept(g, length, play_with_switches)
    } else {
        let mut calls = kept(g, length, play);
        calls.retain(|item| !matches!(item[0], 0x04 | 0x05));
        calls
    };
    history.extend(put_back(&history));
    g.status = None;
    history.extend(kept(g, u64::MAX, |g| last_words(g, channel)));
    history
}

/// Puts back the switches that these items leave moved: in a new end RPN reception is on and NRPN
/// reception off.
fn put_back(items: &[Item]) -> Vec<Item> {
    let mut back = Vec::new();
    for (switch, new) in [(0x04, 1), (0x05, 0)] {
        let mut moved = [false; 16];
        for item in items.iter().filter(|item| item[0] == switch) {
            moved[usize::from(item[1] % 16)] = (item[2] != 0) != (new != 0);
        }
        let channels = (0..16).filter(|channel| moved[usize::from(*channel)]);
        back.extend(channels.map(|channel| vec![switch, channel, new]));
    }
    back
}

/// What a restatement has to undo, as the last of a history; no switch is moved.
fn last_words(g: &mut Generator, channel: u8) {
    match g.random.below(10) {
        0 => begun_message(g),
        1 => lone_halves(g, channel),
        2 => {
            let low = g.random.one_of(&[98, 100]);
            let number = g.random.one_of(&[[0, 0], [0, 6], [1, 2], [127, 127]]);
            end::select(g, channel, low, number);
        }
        3 => {
            control(g, channel, 121, 0);
            lone_halves(g, channel);
        }
        4 => {
            deep_layout(g);
            begun_message(g);
        }
        5 => deep_layout(g),
        6 => broken_restatement(g),
        _ => {}
    }
}

/// A status, and mostly a data byte too.
fn begun_message(g: &mut Generator) {
    let status = 0x80 + g.random.below(0x70) as u8;
    byte(g, status);
    if !g.random.once_in(4) {
        let first = g.random.seven();
        byte(g, first);
    }
}

/// One half of a number, on this channel and some others.
fn lone_halves(g: &mut Generator, channel: u8) {
    lone_half(g, channel, &[98, 99, 100, 101]);
    for _ in 0..g.random.below(4) {
        let other = g.random.channel();
        lone_half(g, other, &[98, 99, 100, 101]);
    }
}

/// A half by one of these controllers.
fn lone_half(g: &mut Generator, channel: u8, halves: &[u8]) {
    let (half, value) = (g.random.one_of(halves), g.random.one_of(&[0, 6, 127]));
    control(g, channel, half, value);
}

/// A layout with many members, its sensitivities, modes and controls moved.
fn deep_layout(g: &mut Generator) {
    let layouts = [[15, 0], [0, 15], [14, 0], [0, 14], [13, 1], [1, 13], [7, 7]];
    let [lower, upper] = g.random.one_of(&layouts);
    g.items.put(&[0x03, lower, upper]);
    for _ in 0..1 + g.random.below(3) {
        end::sensitivity(g);
        end::mode(g, [lower, upper]);
        end::expression(g);
    }
}

/// The first bytes of another restatement.
fn broken_restatement(g: &mut Generator) {
    let layout = g.random.legal_layout();
    let bytes = Settings::random(&mut g.random, layout).bytes();
    let length = match g.random.below(2) {
        0 => g.random.below(HISTORY),
        _ => g.random.below(bytes.len() as u64),
    };
    bytes[..length as usize].iter().for_each(|b| byte(g, *b));
}

/// The bytes of a restatement, each by one of the byte calls, with bytes F8 to FF before, between and
/// after them: none, at both ends alone, or from a few to several between each two.
fn arrival(g: &mut Generator, bytes: &[u8]) -> Vec<Item> {
    let density = g.random.below(5);
    kept(g, u64::MAX, |g| {
        for place in 0..=bytes.len() {
            let outside = place == 0 || place == bytes.len();
            let count = match density {
                0 => 0,
                1 => u64::from(outside) * g.random.below(4),
                2 => u64::from(g.random.once_in(30)),
                3 => u64::from(g.random.once_in(2)),
                _ => 1 + g.random.below(4),
            };
            for _ in 0..count {
                let real_time = 0xF8 + g.random.below(8) as u8;
                byte(g, real_time);
            }
            bytes.get(place).into_iter().for_each(|b| byte(g, *b));
        }
    })
}

/// Calls on the end after a restatement, and then its readings.
fn future(g: &mut Generator, channel: u8) -> Vec<Item> {
    g.status = Some(LAST_STATUS);
    let length = g.random.below(FUTURE + 1);
    let mut future = kept(g, length, |g| {
        first_words(g, channel);
        play(g);
    });
    future.extend(readings());
    future
}

/// What would show that something of the history is left, as the first of a future.
fn first_words(g: &mut Generator, channel: u8) {
    match g.random.below(8) {
        // Under the running status.
        0 => {
            for _ in 0..1 + g.random.below(4) {
                let data = g.random.seven();
                byte(g, data);
            }
        }
        // No number is selected.
        1 => end::data(g, channel),
        // Nor is half a number left.
        2 => {
            lone_halves(g, channel);
            end::data(g, channel);
        }
        3 => {
            g.items.put(&[0x05, channel, 1]);
            lone_half(g, channel, &[98, 99]);
            end::data(g, channel);
        }
        // Which channels are reset, and what a zone keeps.
        4 => {
            let [lower, upper] = g.random.layout();
            g.items.put(&[0x03, lower, upper]);
        }
        // A step goes on from the semitones and cents that are shown.
        5 => {
            control(g, channel, 101, 0);
            control(g, channel, 100, 0);
            for _ in 0..1 + g.random.below(3) {
                let step = g.random.one_of(&[96, 97]);
                control(g, channel, step, 0);
            }
        }
        _ => {}
    }
}
