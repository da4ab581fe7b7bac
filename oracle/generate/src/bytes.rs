//! The table of the byte reader: every byte in a set of its states, and the bytes of the system in
//! every place among messages.

use crate::items::Items;

/// The byte call by value, and the two on a lent end.
const CALLS: [u8; 3] = [0x01, 0x02, 0x08];

/// A new end that gets these bytes, and then the readings of channels.
fn arrive(items: &mut Items, bytes: &[u8], channels: &[u8]) {
    for call in CALLS {
        items.put(&[0x00]);
        for byte in bytes {
            items.put(&[call, *byte]);
        }
        for channel in channels {
            items.put(&[0x07, *channel]);
        }
    }
}

/// Bytes that bring a new reader to each state of the set: no running status, since it is new and
/// after F1, F4 or F5; each running status, alone and with each of three data bytes, which begin a
/// message, or are one under opcodes C and D.
fn states() -> Vec<Vec<u8>> {
    let mut states = vec![vec![]];
    for ended in [0xF1, 0xF4, 0xF5] {
        states.push(vec![0x90, 0x3C, ended]);
    }
    for status in 0x80..=0xEF {
        states.push(vec![status]);
        for first in [0x00, 0x40, 0x7F] {
            states.push(vec![status, first]);
        }
    }
    states
}

/// Each byte in each state, and three data bytes, which show what state it left.
fn each_byte(items: &mut Items) {
    for state in states() {
        let channel = state.first().map_or(0, |status| status & 0xF);
        for byte in 0..=255 {
            let bytes = [&state[..], &[byte, 0x01, 0x02, 0x03]].concat();
            arrive(items, &bytes, &[channel]);
        }
    }
}

/// Each byte of the system with up to two data bytes after it, in each place among a status byte
/// with four data bytes and another of the same opcode with two.
fn each_place(items: &mut Items) {
    for status in (0x80..=0xE0).step_by(0x10) {
        let messages = [status, 0x01, 0x02, 0x03, 0x04, status | 1, 0x05, 0x06];
        for place in 0..=messages.len() {
            let (before, after) = messages.split_at(place);
            for system in 0xF0..=0xFF {
                for count in 0..=2 {
                    let port = &[0x11, 0x12][..count];
                    let bytes = [before, &[system], port, after].concat();
                    arrive(items, &bytes, &[0, 1]);
                }
            }
        }
    }
}

pub fn table(items: &mut Items) {
    each_byte(items);
    each_place(items);
}
