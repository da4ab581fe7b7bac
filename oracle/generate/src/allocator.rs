//! The note allocator.

use crate::items::Items;
use crate::Generator;

/// How the zone of a note is chosen, as given.
type Zone = fn(&mut Generator) -> u8;

/// Sets the release clock.
fn set_clock(items: &mut Items, clock: u32) {
    let [a, b, c, d] = clock.to_be_bytes();
    items.put(&[0x67, a, b, c, d]);
}

/// Sets the last release of a channel, as given.
pub fn set_release(items: &mut Items, channel: u8, release: u32) {
    let [a, b, c, d] = release.to_be_bytes();
    items.put(&[0x68, channel, a, b, c, d]);
}

/// A value of the clock or of a release: at a limit, small, or any.
fn release(g: &mut Generator) -> u32 {
    match g.random.below(8) {
        0..=3 => g.random.one_of(&[
            0,
            1,
            0x7FFF_FFFF,
            0x8000_0000,
            0xFFFF_FF00,
            0xFFFF_FFFE,
            0xFFFF_FFFF,
        ]),
        4..=6 => g.random.below(8) as u32,
        _ => g.random.word(),
    }
}

/// The members of a layout.
fn members([lower, upper]: [u8; 2]) -> Vec<u8> {
    (1..=lower).chain(15 - upper..15).collect()
}

/// A channel, mostly a member of the layout that is played.
fn member(g: &mut Generator) -> u8 {
    let members = members(g.played);
    match g.random.below(8) {
        0 => g.random.channel_as_given(),
        _ if members.is_empty() => g.random.channel(),
        _ => g.random.one_of(&members),
    }
}

/// A note, from a few, so that the same ones come again.
fn note(g: &mut Generator) -> u8 {
    match g.random.below(8) {
        0 => g.random.byte(),
        _ => g.random.one_of(&[60, 60, 61, 62, 188]),
    }
}

/// A note in the layout that is played.
fn note_on(g: &mut Generator, zone: Zone) {
    let [lower, upper] = match g.random.below(12) {
        0 => g.random.layout(),
        _ => g.played,
    };
    let (note, zone) = (note(g), zone(g));
    g.items.put(&[0x61, lower, upper, zone, note]);
}

fn note_off(g: &mut Generator) {
    let channel = member(g);
    g.items.put(&[0x62, channel]);
}

/// Notes on one member until its count stops at 255, and some back.
fn hammer(g: &mut Generator, zone: Zone) {
    let zone = u8::from(zone(g) != 0);
    let layout = if zone == 0 { [1, 0] } else { [0, 1] };
    for _ in 0..250 + g.random.below(12) {
        g.items.put(&[0x61, layout[0], layout[1], zone, 60]);
    }
    g.items.put(&[0x65]);
    for _ in 0..g.random.below(4) {
        g.items.put(&[0x62, 1 + 13 * zone]);
    }
    g.items.put(&[0x65]);
}

/// Lets go of every note on every channel, from a channel up.
fn let_go(g: &mut Generator) {
    let first = g.random.channel();
    for channel in first..first + 16 {
        for _ in 0..1 + g.random.below(3) {
            g.items.put(&[0x62, channel % 16]);
        }
    }
}

/// Releases of most members, equal or one apart.
fn releases(g: &mut Generator) {
    let (first, later) = (release(g), g.random.below(2) as u32);
    for channel in members(g.played) {
        if !g.random.once_in(6) {
            let later = g.random.one_of(&[0, 0, later]);
            set_release(&mut g.items, channel, first.wrapping_add(later));
        }
    }
}

/// One note on a few members, let go, releases that are equal or one apart, and the note again,
/// mostly with same-note on.
fn again(g: &mut Generator, zone: Zone) {
    let [lower, upper] = g.played;
    let (note, zone) = (note(g), zone(g));
    g.items.put(&[0x63, 0]);
    for _ in 0..2 + g.random.below(4) {
        g.items.put(&[0x61, lower, upper, zone, note]);
    }
    for channel in members(g.played) {
        g.items.put(&[0x62, channel]);
    }
    releases(g);
    let on = u8::from(!g.random.once_in(4));
    g.items.put(&[0x63, on]);
    for _ in 0..1 + g.random.below(4) {
        g.items.put(&[0x61, lower, upper, zone, note]);
    }
}

/// Notes that are let go while the clock steps from its highest value to 0, and notes after them.
fn step(g: &mut Generator, zone: Zone) {
    for _ in 0..2 + g.random.below(6) {
        note_on(g, zone);
    }
    let before = g.random.below(4) as u32;
    set_clock(&mut g.items, u32::MAX - before);
    for _ in 0..2 + g.random.below(8) {
        note_off(g);
    }
    for _ in 0..2 + g.random.below(6) {
        note_on(g, zone);
    }
}

/// The clock or a release, set.
fn set(g: &mut Generator) {
    let value = release(g);
    if g.random.once_in(4) {
        set_clock(&mut g.items, value);
    } else {
        let channel = member(g);
        set_release(&mut g.items, channel, value);
    }
}

fn phrase_in(g: &mut Generator, zone: Zone) {
    match g.random.below(2000) {
        0..=1 => hammer(g, zone),
        2..=19 => let_go(g),
        20..=29 => g.items.put(&[0x60]),
        30..=44 => g.items.put(&[0x64]),
        45..=99 => {
            let on = g.random.flag();
            g.items.put(&[0x63, on]);
        }
        100..=119 => g.played = g.random.legal_layout(),
        120..=149 => releases(g),
        150..=179 => again(g, zone),
        180..=189 => step(g, zone),
        190..=259 => set(g),
        260..=1089 => note_on(g, zone),
        _ => note_off(g),
    }
    if g.random.once_in(8) {
        g.items.put(&[0x65]);
    }
}

pub fn phrase(g: &mut Generator) {
    phrase_in(g, |g| g.random.flag());
}

/// The same with every note in the Lower zone, where each call is upstream's own.
pub fn lower_notes(g: &mut Generator) {
    phrase_in(g, |_| 0);
}
