//! The sending side.

use crate::Generator;

/// A buffer length beside what is needed: one short, exact, one more, none at all, or the limit.
pub fn length_near(g: &mut Generator, needed: u64, limit: u64) -> u64 {
    let length = match g.random.below(16) {
        0..=1 => 0,
        2..=5 => needed.saturating_sub(1),
        6..=11 => needed,
        12..=13 => needed + 1,
        14 => limit,
        _ => g.random.below(limit + 1),
    };
    length.min(limit)
}

fn zone_sensitivities(g: &mut Generator) {
    let [lower, upper] = g.random.layout();
    let zone = match g.random.below(4) {
        0 => g.random.flag(),
        _ => u8::from(upper > 0 && (lower == 0 || g.random.once_in(2))),
    };
    let members = if zone == 0 { lower } else { upper };
    let length = length_near(g, 4 * (1 + u64::from(members)), 80) as u8;
    let [s, t] = [g.random.semitones(), g.random.cents()];
    let [a, b] = [g.random.semitones(), g.random.cents()];
    g.items.put(&[0x53, lower, upper, zone, s, t, a, b, length]);
}

/// Near the limits of `note_messages`: most notes are accepted.
fn notes(g: &mut Generator) {
    let mut item = vec![0x55, g.random.channel_as_given(), g.random.seven()];
    item.push(match g.random.below(8) {
        0 => 0,
        1 => 1,
        _ => g.random.seven(),
    });
    item.extend(g.random.fourteen().to_be_bytes());
    item.extend([g.random.seven(), g.random.seven()]);
    // Now and then one field is past its limit.
    if g.random.once_in(3) {
        let field = g.random.one_of(&[2, 3, 4, 6, 7]);
        item[field] = g.random.one_of(&[0x40, 0x7F, 0x80, 0xFF]);
    }
    g.items.put(&item);
}

pub fn phrase(g: &mut Generator) {
    match g.random.below(7) {
        0 => {
            let kind = match g.random.below(16) {
                0 => g.random.byte(),
                _ => g.random.below(22) as u8,
            };
            let flags = [g.random.flag(), g.random.flag(), g.random.flag()];
            g.items.put(&[0x50, kind, flags[0], flags[1], flags[2]]);
        }
        1 => {
            let (zone, count) = (g.random.flag(), g.random.count());
            g.items.put(&[0x51, zone, count]);
        }
        2 => {
            let channel = g.random.channel_as_given();
            let (semitones, cents) = (g.random.semitones(), g.random.cents());
            g.items.put(&[0x52, channel, semitones, cents]);
        }
        3 | 4 => zone_sensitivities(g),
        5 => {
            let [lower, upper] = g.random.layout();
            let (zone, mono) = (g.random.flag(), g.random.flag());
            g.items.put(&[0x54, lower, upper, zone, mono]);
        }
        _ => notes(g),
    }
}
