//! Groups and channels, messages by their constructors, and the fields of words.

use crate::Generator;

/// The number of a call, now and then of none: the calls of items 16 and 17 have the numbers 0 to 3.
fn call(g: &mut Generator) -> u8 {
    match g.random.below(12) {
        0 => g.random.one_of(&[4, 5, 128, 255]),
        _ => g.random.below(4) as u8,
    }
}

/// A group or a channel, by its packet value 0 to 15 or its number 1 to 16, often at a limit.
fn packet(g: &mut Generator) {
    let call = call(g);
    let value = match g.random.below(4) {
        0 => g.random.byte(),
        1 => g.random.one_of(&[0, 1, 15, 16, 17, 128, 255]),
        _ => g.random.below(18) as u8,
    };
    g.items.put(&[0x16, call, value]);
}

/// A message, its data now and then past a limit.
fn made(g: &mut Generator) {
    let mut item = vec![0x17, call(g)];
    item.extend([g.random.channel_as_given(), g.random.channel_as_given()]);
    item.extend([g.random.seven_or_so(), g.random.seven_or_so()]);
    item.extend(g.random.fourteen_or_so().to_be_bytes());
    g.items.put(&item);
}

/// A word that is a message, or that lacks the word form, or nearly.
fn word(g: &mut Generator) {
    let [a, b, c, d] = match g.random.below(2) {
        0 => g.random.bad_word(),
        _ => g.random.any_message(),
    };
    g.items.put(&[0x18, a, b, c, d]);
}

pub fn phrase(g: &mut Generator) {
    match g.random.below(4) {
        0 => packet(g),
        1 => made(g),
        _ => word(g),
    }
}
