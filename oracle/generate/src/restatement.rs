//! The restatement, written out and given to the end.

use crate::sender::length_near;
use crate::settings::Settings;
use crate::{end, Generator};

/// Bytes of a settings record before its channels.
const ZONES: usize = 12;

/// Settings, mostly legal, and their record.
fn settings(g: &mut Generator) -> (Settings, Vec<u8>) {
    let layout = g.random.layout();
    let settings = Settings::random(&mut g.random, layout);
    let mut record = settings.record();
    if g.random.once_in(4) {
        spoil(g, &mut record);
    }
    (settings, record)
}

/// Puts one field at its limit or past it.
pub fn spoil(g: &mut Generator, record: &mut [u8]) {
    let channel = ZONES + 4 * g.random.below(16) as usize;
    let zone = 2 + 5 * g.random.below(2) as usize;
    // Manager or members.
    let sensitivity = zone + g.random.one_of(&[0, 2]);
    match g.random.below(7) {
        0 | 1 => record[sensitivity] = g.random.one_of(&[96, 97, 127, 255]),
        2 | 3 => record[sensitivity + 1] = g.random.cents_at_limit(),
        4 => record[zone + 4] = g.random.one_of(&[0, 2, 3, 4, 5]),
        5 => record[channel] = g.random.one_of(&[0x3F, 0x40, 0xFF]),
        _ => record[channel + 2 + g.random.below(2) as usize] = g.random.one_of(&[127, 128, 255]),
    }
}

/// Writes a restatement into a buffer of bytes (16 of its messages have two) or of words.
fn written(g: &mut Generator) {
    let (settings, record) = settings(g);
    let words = settings.messages();
    let (operation, length) = match g.random.below(2) {
        0 => (0x70, length_near(g, 3 * words - 16, 1024)),
        _ => (0x71, length_near(g, words, 256)),
    };
    let mut item = vec![operation];
    item.extend(record);
    item.extend((length as u16).to_be_bytes());
    g.items.put(&item);
}

/// Gives the end a restatement after some play, and reads it.
fn given(g: &mut Generator) {
    for _ in 0..g.random.below(12) {
        end::change(g);
    }
    if g.random.once_in(2) {
        for channel in 0..16 {
            g.items.put(&[0x04, channel, 1]);
        }
    }
    let mut item = vec![0x72];
    item.extend(settings(g).1);
    g.items.put(&item);
    // The last message of a restatement is a pressure on channel 15.
    g.status = Some(0xDF);
    g.items.put(&[0x06]);
    for channel in 0..16 {
        end::read_channel(g, channel);
    }
    for _ in 0..g.random.below(4) {
        end::phrase(g);
    }
}

pub fn phrase(g: &mut Generator) {
    match g.random.below(2) {
        0 => written(g),
        _ => given(g),
    }
}
