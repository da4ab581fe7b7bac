//! Scaling: widths and values, often at a limit.

use crate::Generator;

/// A width, now and then past the last one.
fn width(g: &mut Generator) -> u8 {
    match g.random.below(8) {
        0 => g.random.one_of(&[0, 1, 2, 31, 32, 33, 255]),
        1 => g.random.below(41) as u8,
        2 | 3 => g.random.one_of(&[7, 14, 16, 32]),
        _ => 1 + g.random.below(32) as u8,
    }
}

/// A value for the width: lowest, highest, one past it, beside the centre, any that fits, or any.
fn value(g: &mut Generator, width: u8) -> u32 {
    let past = 1u64 << width.min(32);
    let value = match g.random.below(8) {
        0 => u64::from(g.random.word()),
        1 => g.random.one_of(&[0, 1, past - 1, past, past + 1]),
        2 => past / 2 + g.random.below(2),
        3 => (past / 2).saturating_sub(1 + g.random.below(2)),
        4 => past - 1 - g.random.below(4).min(past - 1),
        _ => g.random.below(past),
    };
    value as u32
}

/// A value beside the one from which narrowing to the nearest goes up.
fn half(g: &mut Generator, s: u8, d: u8) -> u32 {
    let step = 1u64 << (s - d);
    let lowest = g.random.below(1 << d) * step;
    (lowest + step / 2 - g.random.below(2)) as u32
}

pub fn phrase(g: &mut Generator) {
    let operation = 0x86 + g.random.below(4) as u8;
    let (mut s, mut d) = (width(g), width(g));
    // Mostly in the order that the call takes.
    let widens = matches!(operation, 0x86 | 0x88);
    if (s > d) == widens && !g.random.once_in(8) {
        (s, d) = (d, s);
    }
    let value = match d < s && s <= 32 && g.random.once_in(3) {
        true => half(g, s, d),
        false => value(g, s),
    };
    let [a, b, c, e] = value.to_be_bytes();
    g.items.put(&[operation, a, b, c, e, s, d]);
}
