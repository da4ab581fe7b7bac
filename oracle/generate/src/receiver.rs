//! The parameter state with its writers, and the receiver.

use crate::Generator;

/// Gives the parameter state a control change.
fn control(g: &mut Generator, channel: u8, controller: u8, value: u8) {
    let [a, b, c, d] = g.random.word_of(0xB, channel, controller, value);
    g.items.put(&[0x35, a, b, c, d]);
}

/// A data entry or a step.
fn data(g: &mut Generator, channel: u8) {
    let controller = g.random.one_of(&[6, 38, 96, 97]);
    let value = g.random.seven();
    control(g, channel, controller, value);
}

/// A number of either kind, whole or a half of it, then some data.
fn number(g: &mut Generator) {
    let channel = g.random.channel();
    let [_, high, low] = g.random.parameter();
    let first = g.random.one_of(&[98, 100, 100]);
    let halves = g.random.one_of(&[1, 2, 3, 3, 3, 3]);
    if halves & 1 != 0 {
        control(g, channel, first + 1, high & 0x7F);
    }
    if halves & 2 != 0 {
        control(g, channel, first, low & 0x7F);
    }
    for _ in 0..g.random.below(4) {
        data(g, channel);
    }
}

/// A call of one of the three writers.
fn written(g: &mut Generator) {
    let operation = g.random.one_of(&[0x31, 0x32, 0x33]);
    let mut item = vec![operation, g.random.channel_as_given()];
    match operation {
        0x32 => item.extend(g.random.change()),
        _ => item.extend(g.random.parameter()),
    }
    if operation == 0x33 {
        item.extend(g.random.fourteen_or_so().to_be_bytes());
    }
    g.items.put(&item);
}

pub fn parameters(g: &mut Generator) {
    match g.random.below(24) {
        0 => g.items.put(&[0x34]),
        1 => g.items.put(&[0x36]),
        2 | 3 => {
            let switch = g.random.one_of(&[0x37, 0x38]);
            let on = g.random.flag();
            g.items.put(&[switch, on]);
        }
        // NRPN reception is off at the start, and stays so unless it is turned on.
        4 => g.items.put(&[0x38, 1]),
        5 => {
            let [a, b, c, d] = g.random.bad_word();
            g.items.put(&[0x35, a, b, c, d]);
        }
        6 | 7 => {
            let [a, b, c, d] = g.random.any_message();
            g.items.put(&[0x35, a, b, c, d]);
        }
        8..=11 => written(g),
        12 => {
            let channel = g.random.channel();
            control(g, channel, 121, 0);
        }
        _ => number(g),
    }
    if g.random.once_in(2) {
        g.items.put(&[0x39]);
    }
}

/// Gives the receiver a word, with an event or without.
fn receive(g: &mut Generator, word: [u8; 4], event: Option<[u8; 5]>) {
    let mut item = vec![0x41];
    item.extend(word);
    match event {
        Some(event) => {
            item.push(g.random.one_of(&[1, 1, 1, 255]));
            item.extend(event);
        }
        None => {
            item.push(0);
            item.extend(g.random.parameter());
            item.extend(g.random.change());
        }
    }
    g.items.put(&item);
}

/// An announcement of a zone, mostly on a manager's channel.
fn announcement(g: &mut Generator) {
    let channel = match g.random.below(8) {
        0 => g.random.channel(),
        _ => g.random.one_of(&[0, 15]),
    };
    let change = match g.random.below(6) {
        0 => g.random.change(),
        1 => [0, g.random.one_of(&[15, 16, 127, 128, 135, 255])],
        _ => [0, g.random.count()],
    };
    let word = g.random.word_of(0xB, channel, 6, change[1] & 0x7F);
    let kind = g.random.one_of(&[0, 0, 2]);
    receive(g, word, Some([kind, 0, 6, change[0], change[1]]));
    if g.random.once_in(2) {
        mode(g, change[1]);
    }
}

/// A mode message on the lowest member of a zone with so many members, with an event or without,
/// and what a member is answered by its zone's mode.
fn mode(g: &mut Generator, members: u8) {
    let lowest = g.random.one_of(&[1, 15u8.saturating_sub(members)]);
    let (number, value) = (g.random.one_of(&[126, 126, 127]), g.random.seven());
    let word = g.random.word_of(0xB, lowest, number, value);
    let event = g.random.once_in(4).then_some([1, 0, 6, 0, 3]);
    receive(g, word, event);
    for _ in 0..g.random.below(4) {
        let (opcode, first) = g.random.one_of(&[(0xB, 0), (0xB, 32), (0xC, 5), (0xA, 60)]);
        let word = g.random.word_of(opcode, lowest, first, value);
        receive(g, word, None);
    }
}

/// An event of RPN 0, on any channel.
fn sensitivity(g: &mut Generator) {
    let (channel, [kind, data]) = (g.random.channel(), g.random.change());
    let controller = g.random.one_of(&[6, 38, 96, 97, 74]);
    let word = g.random.word_of(0xB, channel, controller, data & 0x7F);
    let named = g.random.one_of(&[0, 0, 0, 2]);
    receive(g, word, Some([named, 0, 0, kind, data]));
}

/// An event that no parameter state would give with this message.
fn strange_event(g: &mut Generator) {
    let word = g.random.any_message();
    let [a, b, c] = g.random.parameter();
    let [d, e] = g.random.change();
    receive(g, word, Some([a, b, c, d, e]));
}

/// A message without an event.
fn message(g: &mut Generator) {
    let word = g.random.any_message();
    receive(g, word, None);
}

/// Reads a channel, and its offset with the remainder.
fn read_channel(g: &mut Generator, channel: u8) {
    g.items.put(&[0x44, channel]);
    g.items.put(&[0x45, channel]);
}

fn read_channels(g: &mut Generator) {
    if g.random.once_in(3) {
        for channel in 0..16 {
            read_channel(g, channel);
        }
    } else {
        let channel = g.random.channel_as_given();
        read_channel(g, channel);
    }
}

pub fn receiver(g: &mut Generator) {
    match g.random.below(40) {
        0 => g.items.put(&[0x40]),
        1..=3 => {
            let [lower, upper] = g.random.layout();
            g.items.put(&[0x42, lower, upper]);
            mode(g, upper);
        }
        4..=9 => announcement(g),
        10..=16 => sensitivity(g),
        17..=19 => strange_event(g),
        20 => {
            let word = g.random.bad_word();
            let event = g.random.once_in(2).then_some([0, 0, 6, 0, 3]);
            receive(g, word, event);
        }
        _ => message(g),
    }
    match g.random.below(4) {
        0 => g.items.put(&[0x43]),
        1 => read_channels(g),
        _ => {}
    }
}
