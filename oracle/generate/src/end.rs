//! The end: streams of bytes, with set_layout, the reception switches and readings in between.

use crate::Generator;

/// Bytes that may stand anywhere and change nothing.
const HARMLESS: [u8; 9] = [0xF8, 0xF8, 0xFA, 0xFB, 0xFC, 0xFE, 0xFF, 0xF9, 0xFD];
/// Bytes that end the running status: F4 and F5 as often as the others together.
const BREAKING: [u8; 12] = [
    0xF0, 0xF1, 0xF2, 0xF3, 0xF6, 0xF7, 0xF4, 0xF4, 0xF4, 0xF5, 0xF5, 0xF5,
];

/// Gives the end one byte: by value, or lent to either of the two calls.
pub fn byte(g: &mut Generator, byte: u8) {
    let call = g.random.one_of(&[0x01, 0x02, 0x08]);
    g.items.put(&[call, byte]);
    match byte {
        0x80..=0xEF => g.status = Some(byte),
        0xF0..=0xF7 => g.status = None,
        _ => {}
    }
}

/// Now and then a byte of the system, between two bytes of a message.
fn between(g: &mut Generator) {
    match g.random.below(200) {
        0..=11 => {
            let harmless = g.random.one_of(&HARMLESS);
            byte(g, harmless);
        }
        12..=13 => {
            let breaking = g.random.one_of(&BREAKING);
            byte(g, breaking);
        }
        _ => {}
    }
}

/// A message, with its status or under the running one.
fn message(g: &mut Generator, status: u8, data: &[u8]) {
    if g.status != Some(status) || g.random.once_in(3) {
        byte(g, status);
    }
    for value in data {
        between(g);
        byte(g, *value);
    }
}

pub fn control(g: &mut Generator, channel: u8, controller: u8, value: u8) {
    message(g, 0xB0 | channel, &[controller, value]);
}

/// Selects a number of the kind whose lower half has the controller `low`: mostly both halves.
pub fn select(g: &mut Generator, channel: u8, low: u8, number: [u8; 2]) {
    let halves = g.random.one_of(&[1, 2, 3, 3, 3, 3, 3, 3, 3, 3]);
    let turned = g.random.once_in(6);
    if turned && halves & 2 != 0 {
        control(g, channel, low, number[1]);
    }
    if halves & 1 != 0 {
        control(g, channel, low + 1, number[0]);
    }
    if !turned && halves & 2 != 0 {
        control(g, channel, low, number[1]);
    }
}

/// A zone announcement, mostly on a manager's channel, and often play in the zone at once.
fn announcement(g: &mut Generator) {
    let channel = match g.random.below(8) {
        0 => g.random.channel(),
        _ => g.random.one_of(&[0, 15]),
    };
    select(g, channel, 100, [0, 6]);
    let controller = g.random.one_of(&[6, 6, 6, 6, 6, 6, 38, 96, 97]);
    let count = g.random.count();
    control(g, channel, controller, count);
    match g.random.below(4) {
        0 => {
            let count = g.random.count();
            control(g, channel, 6, count);
        }
        1 | 2 => mode(g, [count, count]),
        _ => {}
    }
}

/// A mode message on the lowest member of a zone with so many members (Lower's, Upper's), and what
/// a member is answered by its zone's mode.
pub fn mode(g: &mut Generator, [_, upper]: [u8; 2]) {
    let lowest = g.random.one_of(&[1, 15u8.saturating_sub(upper)]);
    let (number, value) = (g.random.one_of(&[126, 126, 127]), g.random.seven());
    control(g, lowest, number, value);
    for _ in 0..g.random.below(4) {
        let member = match g.random.below(2) {
            0 => lowest,
            _ => g.random.channel(),
        };
        let value = g.random.seven();
        match g.random.below(4) {
            0 => control(g, member, 0, value),
            1 => control(g, member, 32, value),
            2 => message(g, 0xC0 | member, &[value]),
            _ => message(g, 0xA0 | member, &[value, value]),
        }
    }
}

/// Some data entries and steps.
pub fn data(g: &mut Generator, channel: u8) {
    for _ in 0..1 + g.random.below(4) {
        let controller = g.random.one_of(&[6, 38, 96, 97]);
        let value = g.random.seven();
        control(g, channel, controller, value);
    }
}

/// RPN 0, with values where a step carries or stops.
pub fn sensitivity(g: &mut Generator) {
    let channel = g.random.channel();
    select(g, channel, 100, [0, 0]);
    if g.random.once_in(2) {
        let semitones = g.random.one_of(&[0, 1, 2, 48, 96, 126, 127]);
        let cents = g.random.one_of(&[0, 1, 98, 99, 100, 110, 127]);
        control(g, channel, 6, semitones);
        control(g, channel, 38, cents);
    }
    data(g, channel);
}

/// Another number of either kind, then data.
fn other_number(g: &mut Generator) {
    let channel = g.random.channel();
    let low = g.random.one_of(&[98, 98, 100]);
    if low == 98 && g.random.once_in(2) {
        g.items.put(&[0x05, channel, 1]);
    }
    let number = match g.random.below(4) {
        0 => [0, 6],
        1 => [0, 0],
        2 => [127, 127],
        _ => [g.random.seven(), g.random.seven()],
    };
    select(g, channel, low, number);
    data(g, channel);
}

/// Controller 121, then perhaps a lone half and data.
fn reset(g: &mut Generator) {
    let (channel, value) = (g.random.channel(), g.random.seven());
    control(g, channel, 121, value);
    if g.random.once_in(2) {
        let half = g.random.one_of(&[98, 99, 100, 101]);
        let value = g.random.one_of(&[0, 6, 127]);
        control(g, channel, half, value);
        data(g, channel);
    }
}

/// A bend, a pressure or a brightness.
pub fn expression(g: &mut Generator) {
    let channel = g.random.channel();
    let (first, second) = (g.random.seven(), g.random.seven());
    match g.random.below(3) {
        0 => message(g, 0xE0 | channel, &[first, second]),
        1 => message(g, 0xD0 | channel, &[first]),
        _ => control(g, channel, 74, first),
    }
}

/// Mode messages, bank select, program change, poly pressure and notes.
fn other_message(g: &mut Generator) {
    let channel = g.random.channel();
    let (first, second) = (g.random.seven(), g.random.seven());
    match g.random.below(8) {
        0..=2 => {
            let mode = g.random.one_of(&[126, 126, 127]);
            control(g, channel, mode, second);
        }
        3 => {
            let bank = g.random.one_of(&[0, 32]);
            control(g, channel, bank, second);
        }
        4 => message(g, 0xC0 | channel, &[first]),
        5 => message(g, 0xA0 | channel, &[first, second]),
        6 => {
            let controller = g.random.controller();
            control(g, channel, controller, second);
        }
        _ => {
            let status = g.random.one_of(&[0x80, 0x90]);
            message(g, status | channel, &[first, second]);
        }
    }
}

/// Bytes in no order.
fn noise(g: &mut Generator) {
    for _ in 0..1 + g.random.below(8) {
        let noise = match g.random.below(4) {
            0 => g.random.byte() | 0x80,
            1 => g.random.byte() | 0xF0,
            _ => g.random.seven(),
        };
        byte(g, noise);
    }
}

/// A message that another status breaks off.
fn broken_message(g: &mut Generator) {
    let status = 0x80 + g.random.below(0x70) as u8;
    let first = g.random.seven();
    byte(g, status);
    byte(g, first);
    if g.random.once_in(2) {
        byte(g, status);
    }
}

/// A port-select byte and up to two data bytes, the number of a port: before, in or after a message
/// and a second one under its running status.
fn port_select(g: &mut Generator) {
    let status = 0x80 + g.random.below(0x70) as u8;
    let place = g.random.below(6);
    for at in 0..6 {
        if at == place {
            let port_select = g.random.one_of(&[0xF4, 0xF5]);
            byte(g, port_select);
            for _ in 0..g.random.below(3) {
                let number = g.random.seven();
                byte(g, number);
            }
        }
        let value = match at {
            0 => status,
            _ => g.random.seven(),
        };
        byte(g, value);
    }
}

/// Moves one reception switch.
pub fn switch(g: &mut Generator) {
    let (switch, channel) = (g.random.one_of(&[0x04, 0x05]), g.random.channel_as_given());
    let on = match g.random.below(2) {
        0 => 1,
        _ => g.random.flag(),
    };
    g.items.put(&[switch, channel, on]);
}

/// Reads a channel, and its offset with the remainder.
pub fn read_channel(g: &mut Generator, channel: u8) {
    g.items.put(&[0x07, channel]);
    g.items.put(&[0x09, channel]);
}

/// Reads the zones and one channel or all of them.
pub fn read(g: &mut Generator) {
    match g.random.below(8) {
        0 => {
            g.items.put(&[0x06]);
            for channel in 0..16 {
                read_channel(g, channel);
            }
        }
        1..=3 => g.items.put(&[0x06]),
        _ => {
            let channel = g.random.channel_as_given();
            read_channel(g, channel);
        }
    }
}

/// A new end now and then, otherwise calls that change it.
pub fn change(g: &mut Generator) {
    match g.random.below(64) {
        0 => {
            g.items.put(&[0x00]);
            g.status = None;
        }
        choice => changing(g, choice),
    }
}

/// Calls that change the end, by a choice from 1 to 63.
fn changing(g: &mut Generator, choice: u64) {
    match choice {
        1..=2 => {
            let [lower, upper] = g.random.layout();
            g.items.put(&[0x03, lower, upper]);
            mode(g, [lower, upper]);
        }
        3..=6 => switch(g),
        7..=16 => announcement(g),
        17..=28 => sensitivity(g),
        29..=33 => other_number(g),
        34..=37 => reset(g),
        38..=48 => expression(g),
        49..=58 => other_message(g),
        59..=60 => noise(g),
        61 => broken_message(g),
        _ => port_select(g),
    }
}

pub fn phrase(g: &mut Generator) {
    change(g);
    if g.random.once_in(2) {
        read(g);
    }
}

/// Calls on one end: as a phrase, but never a new end.
pub fn calls(g: &mut Generator) {
    let choice = 1 + g.random.below(63);
    changing(g, choice);
    if g.random.once_in(2) {
        read(g);
    }
}
