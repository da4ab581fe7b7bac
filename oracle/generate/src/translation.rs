//! The translation to MIDI 2.0 words: runs of messages on one channel, and records set past their
//! limits.

use crate::Generator;

/// Controllers that the translation holds or looks at, and the steps, which it passes on.
const HELD: [u8; 13] = [0, 6, 6, 32, 38, 38, 96, 97, 98, 99, 100, 101, 121];

/// Parameter numbers: the announcement of a zone, RPN 0, null, halves of null, and on both sides of
/// the index from which a value is no longer extended by zeros.
const NUMBERS: [[u8; 2]; 10] = [
    [0, 6],
    [0, 6],
    [0, 0],
    [0, 0],
    [127, 127],
    [0, 127],
    [127, 0],
    [0, 31],
    [0, 32],
    [6, 6],
];

/// Values of the flags that some list of messages gives, and others.
const FLAGS: [u8; 9] = [0, 1, 2, 4, 5, 6, 12, 13, 14];
const OTHER_FLAGS: [u8; 12] = [3, 7, 8, 9, 10, 11, 15, 16, 17, 20, 128, 255];

/// The place of the flags among the eight bytes of a channel.
const FLAGS_FIELD: u8 = 7;

fn channel(g: &mut Generator) -> u8 {
    match g.random.below(4) {
        0 => g.random.byte() & 0xF,
        _ => g.random.one_of(&[0, 0, 9, 15]),
    }
}

fn message(g: &mut Generator, opcode: u8, channel: u8, first: u8, second: u8) {
    let [a, b, c, d] = g.random.word_of(opcode, channel, first, second);
    g.items.put(&[0x81, a, b, c, d]);
}

fn control(g: &mut Generator, channel: u8, controller: u8) {
    let value = g.random.seven();
    message(g, 0xB, channel, controller, value);
}

fn read(g: &mut Generator, channel: u8) {
    let given = match g.random.below(12) {
        0 => g.random.byte() & 0xF0 | channel,
        _ => channel,
    };
    g.items.put(&[0x83, given]);
}

fn flush(g: &mut Generator, channel: u8) {
    let group = match g.random.below(4) {
        0 => g.random.byte(),
        _ => 0,
    };
    let given = g.random.byte() & 0xF0 | channel;
    let given = g.random.one_of(&[channel, channel, given]);
    g.items.put(&[0x82, group, given]);
}

/// A number, its halves in either order, or one half of it.
fn select(g: &mut Generator, channel: u8) {
    let [msb, lsb] = match g.random.below(3) {
        0 => [g.random.seven(), g.random.seven()],
        _ => g.random.one_of(&NUMBERS),
    };
    let [upper, lower] = g.random.one_of(&[[101, 100], [101, 100], [99, 98]]);
    match g.random.below(8) {
        0 => message(g, 0xB, channel, upper, msb),
        1 => message(g, 0xB, channel, lower, lsb),
        2 => {
            message(g, 0xB, channel, lower, lsb);
            message(g, 0xB, channel, upper, msb);
        }
        _ => {
            message(g, 0xB, channel, upper, msb);
            message(g, 0xB, channel, lower, lsb);
        }
    }
}

/// A few data entries, whole or not, and steps among them.
fn enter(g: &mut Generator, channel: u8) {
    for _ in 0..1 + g.random.below(4) {
        let controller = g.random.one_of(&[6, 6, 38, 38, 96, 97]);
        control(g, channel, controller);
    }
}

/// An entry that waits, controller 121, and what may follow.
fn reset(g: &mut Generator, channel: u8) {
    select(g, channel);
    if !g.random.once_in(4) {
        control(g, channel, 6);
    }
    control(g, channel, 121);
    read(g, channel);
    for _ in 0..1 + g.random.below(3) {
        let next = g
            .random
            .one_of(&[38, 38, 6, 6, 98, 99, 100, 101, 121, 0xFF]);
        if next == 0xFF {
            flush(g, channel);
        } else {
            control(g, channel, next);
        }
        read(g, channel);
    }
}

/// A bank in one order or the other, one half alone or none, and program changes.
fn bank(g: &mut Generator, channel: u8) {
    for _ in 0..g.random.below(4) {
        let controller = g.random.one_of(&[0, 0, 32]);
        control(g, channel, controller);
    }
    for _ in 0..1 + g.random.below(2) {
        let program = g.random.seven();
        message(g, 0xC, channel, program, 0);
    }
}

/// Notes, pressures and bends.
fn play(g: &mut Generator, channel: u8) {
    let opcode = g.random.one_of(&[0x8, 0x9, 0x9, 0xA, 0xD, 0xE, 0xE]);
    let (first, second) = (g.random.seven(), g.random.seven());
    let second = match g.random.below(3) {
        0 => 0,
        _ => second,
    };
    message(g, opcode, channel, first, second);
}

/// A message of any sort, mostly a controller that is looked at.
fn any(g: &mut Generator, channel: u8) {
    match g.random.below(8) {
        0 => {
            let [a, b, c, d] = g.random.any_message();
            g.items.put(&[0x81, a, b, c, d]);
        }
        1 => {
            let [a, b, c, d] = g.random.bad_word();
            g.items.put(&[0x81, a, b, c, d]);
        }
        2 => flush(g, channel),
        _ => {
            let controller = g.random.one_of(&HELD);
            control(g, channel, controller);
        }
    }
}

fn field(g: &mut Generator) -> u8 {
    g.random.one_of(&[0, 1, 2, 3, 4, 5, 6, 7, 7, 7])
}

/// A value that the field may have.
fn allowed(g: &mut Generator, field: u8) -> u8 {
    match (field, g.random.below(3)) {
        (FLAGS_FIELD, _) => g.random.one_of(&FLAGS),
        (_, 0) => g.random.one_of(&[0, 1, 7, 32, 33, 127, 128]),
        _ => g.random.below(129) as u8,
    }
}

/// A value past the limits of the field, or any.
fn past(g: &mut Generator, field: u8) -> u8 {
    match (field, g.random.below(4)) {
        (_, 0) => g.random.byte(),
        (FLAGS_FIELD, _) => g.random.one_of(&OTHER_FLAGS),
        _ => g.random.one_of(&[129, 129, 130, 192, 254, 255]),
    }
}

/// Fields of a channel set to values that they may have.
fn set(g: &mut Generator, channel: u8) {
    for _ in 0..1 + g.random.below(8) {
        let field = field(g);
        let value = allowed(g, field);
        g.items.put(&[0x84, channel, field, value]);
    }
    read(g, channel);
}

/// A field of some channel set past its limits, calls on this channel and others, and the record
/// repaired or made new.
fn spoil(g: &mut Generator, channel: u8) {
    let (spoiled, field) = (g.random.byte() & 0xF, field(g));
    let value = past(g, field);
    g.items.put(&[0x84, spoiled, field, value]);
    for _ in 0..1 + g.random.below(3) {
        let called = g.random.one_of(&[channel, channel, spoiled]);
        any(g, called);
        read(g, called);
    }
    if g.random.once_in(8) {
        g.items.put(&[0x80]);
    } else {
        let value = allowed(g, field);
        g.items.put(&[0x84, spoiled, field, value]);
    }
    any(g, channel);
}

/// A byte past the eighth of a channel.
fn no_field(g: &mut Generator, channel: u8) {
    let field = g.random.one_of(&[8, 9, 15, 128, 255]);
    let value = g.random.byte();
    g.items.put(&[0x84, channel, field, value]);
}

pub fn phrase(g: &mut Generator) {
    let channel = channel(g);
    match g.random.below(100) {
        0..=19 => {
            select(g, channel);
            enter(g, channel);
        }
        20..=29 => select(g, channel),
        30..=39 => enter(g, channel),
        40..=49 => reset(g, channel),
        50..=59 => bank(g, channel),
        60..=67 => play(g, channel),
        68..=82 => any(g, channel),
        83..=86 => flush(g, channel),
        87..=91 => set(g, channel),
        92..=97 => spoil(g, channel),
        98 => no_field(g, channel),
        _ => g.items.put(&[0x80]),
    }
    if g.random.once_in(2) {
        read(g, channel);
    }
}
