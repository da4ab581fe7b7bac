//! Tables small enough to be gone through whole.

use crate::bytes;
use crate::calls::range;
use crate::items::Items;
use crate::midi2;
use crate::settings::{Channel, Settings, Zone};
use crate::setup_tables;
use crate::ties;
use crate::values::is_legal;

/// Sensitivities for the pitch functions: nothing, the usual ones, those whose range meets exact
/// halves (40/96, 81/92, 122/88), and the largest.
const SENSITIVITIES: [[u8; 2]; 13] = [
    [0, 0],
    [0, 1],
    [1, 0],
    [2, 0],
    [2, 50],
    [12, 0],
    [48, 0],
    [96, 0],
    [40, 96],
    [81, 92],
    [122, 88],
    [127, 99],
    [127, 127],
];

/// Sensitivities of a manager and of members for item 53: at their limits, and one past each.
const ZONES: [[u8; 4]; 7] = [
    [2, 0, 48, 0],
    [0, 1, 96, 99],
    [96, 99, 0, 50],
    [97, 0, 48, 0],
    [2, 100, 48, 0],
    [2, 0, 97, 0],
    [2, 0, 48, 100],
];

/// Prints the table `name`; none for a name that is no table.
pub fn trace(name: &str) -> Option<()> {
    let mut items = Items::printed(u64::MAX);
    match name {
        "layouts" => layouts(&mut items),
        "packets" => packets(&mut items),
        "constructors" => constructors(&mut items),
        "words" => words(&mut items),
        "announcements" => announcements(&mut items),
        "roles" => roles(&mut items),
        "bytes" => bytes::table(&mut items),
        "classes" => classes(&mut items),
        "sensitivities" => sensitivities(&mut items),
        "settings" => settings(&mut items),
        "pitch" => pitch(&mut items),
        "scaling" => midi2::scaling(&mut items),
        "narrowing" => midi2::narrowing(&mut items),
        "translations" => midi2::translations(&mut items),
        "records" => midi2::records_table(&mut items),
        "ties" => ties::table(&mut items),
        "setup_files" => setup_tables::files(&mut items),
        "short_setup_files" => setup_tables::short_files(&mut items),
        "setup_fields" => setup_tables::fields(&mut items),
        _ => return None,
    }
    Some(())
}

fn pairs(limit: u8) -> impl Iterator<Item = [u8; 2]> {
    (0..=limit).flat_map(move |lower| (0..=limit).map(move |upper| [lower, upper]))
}

/// Items 10 to 15 over every pair, zone, count and channel.
fn layouts(items: &mut Items) {
    for [lower, upper] in pairs(17) {
        items.put(&[0x10, lower, upper]);
        items.put(&[0x15, lower, upper]);
        for zone in 0..2 {
            items.put(&[0x13, lower, upper, zone]);
            items.put(&[0x14, lower, upper, zone]);
            for count in 0..=17 {
                items.put(&[0x11, lower, upper, zone, count]);
            }
        }
        for channel in 0..16 {
            items.put(&[0x12, lower, upper, channel]);
        }
    }
}

/// Item 16 with every byte, and a call's number past the last.
fn packets(items: &mut Items) {
    for call in 0..=4 {
        for value in 0..=255 {
            items.put(&[0x16, call, value]);
        }
    }
}

/// Item 17: every group and every channel as given; every two data bytes of a Control Change and a
/// Note On; every data byte of a Channel Pressure; every value of a Pitch Bend; and a number past
/// the last call.
fn constructors(items: &mut Items) {
    for call in 0..=4 {
        for [group, channel] in pairs(17) {
            items.put(&[0x17, call, group, channel, 0x7F, 0x01, 0x20, 0x01]);
        }
        for given in 18..=255 {
            items.put(&[0x17, call, given, 1, 0x7F, 0x01, 0x20, 0x01]);
            items.put(&[0x17, call, 1, given, 0x7F, 0x01, 0x20, 0x01]);
        }
    }
    for [high, low] in pairs(255) {
        items.put(&[0x17, 0, 0, 0, high, low, 0, 0]);
        items.put(&[0x17, 1, 0, 0, high, low, 0, 0]);
        items.put(&[0x17, 3, 0, 0, 0, 0, high, low]);
    }
    for pressure in 0..=255 {
        items.put(&[0x17, 2, 0, 0, pressure, 0, 0, 0]);
    }
}

/// Item 18: every message type, group, opcode and channel; and with each opcode every data byte
/// beside the limits of the other.
fn words(items: &mut Items) {
    for [high, low] in pairs(255) {
        items.put(&[0x18, high, low, 0x4A, 0x00]);
    }
    for opcode in 0..16 {
        for limit in [0x00, 0x01, 0x40, 0x7F, 0x80, 0x81, 0xFF] {
            for data in 0..=255 {
                items.put(&[0x18, 0x20, opcode << 4 | 1, data, limit]);
                items.put(&[0x18, 0x20, opcode << 4 | 1, limit, data]);
            }
        }
    }
}

/// Every announcement from every legal layout.
fn announcements(items: &mut Items) {
    for [lower, upper] in pairs(15).filter(|layout| is_legal(*layout)) {
        for (zone, status) in [(0, 0xB0), (1, 0xBF)] {
            for count in 0..=16 {
                items.put(&[0x40]);
                items.put(&[0x42, lower, upper]);
                // The other zone's sensitivity, so that a zone merely cut is seen to keep its own.
                let other = if zone == 0 { 0xBF } else { 0xB0 };
                items.put(&[0x41, 0x20, other, 0x06, 0x05, 1, 0, 0, 0, 0, 5]);
                items.put(&[0x41, 0x20, status, 0x06, count, 1, 0, 0, 6, 0, count]);
                items.put(&[0x43]);
            }
        }
    }
}

/// Every channel of every legal layout: its role, for each number that is taken modulo 16; what a
/// receiver makes of messages on it, in either mode; the replies of the three byte calls to a note, and
/// the channel's offset.
fn roles(items: &mut Items) {
    for [lower, upper] in pairs(15).filter(|layout| is_legal(*layout)) {
        for channel in 0..=255 {
            items.put(&[0x12, lower, upper, channel]);
        }
        items.put(&[0x40]);
        items.put(&[0x42, lower, upper]);
        for mode in [127, 126] {
            for lowest in [1, 15 - upper] {
                items.put(&[0x41, 0x20, 0xB0 | lowest, mode, 0, 0, 0, 0, 0, 0, 0]);
            }
            for channel in 0..16 {
                for [opcode, first] in [[0x90, 60], [0xA0, 60], [0xB0, 0], [0xB0, 7], [0xE0, 0]] {
                    items.put(&[0x41, 0x20, opcode | channel, first, 64, 0, 0, 0, 0, 0, 0]);
                }
            }
        }
        items.put(&[0x00]);
        items.put(&[0x03, lower, upper]);
        for channel in 0..16 {
            for call in [0x01, 0x02, 0x08] {
                for byte in [0x90 | channel, 60, 64] {
                    items.put(&[call, byte]);
                }
            }
            items.put(&[0x09, channel]);
        }
    }
}

/// Every kind with every flag, and the numbers past the last kind.
fn classes(items: &mut Items) {
    for kind in (0..=21).chain([128, 255]) {
        for flags in 0..8 {
            items.put(&[0x50, kind, flags >> 2, flags >> 1 & 1, flags & 1]);
        }
    }
}

/// Item 52: every semitones and cents, and every channel as given. Item 53, over every pair and
/// zone: every length of the buffer, and lengths beside the needed one with each of `ZONES`.
fn sensitivities(items: &mut Items) {
    for [semitones, cents] in pairs(255) {
        items.put(&[0x52, 9, semitones, cents]);
    }
    for channel in 0..=255 {
        items.put(&[0x52, channel, 2, 50]);
        items.put(&[0x52, channel, 96, 99]);
    }
    for [lower, upper] in pairs(17) {
        for (zone, members) in [(0, lower), (1, upper)] {
            for length in 0..=80 {
                items.put(&[0x53, lower, upper, zone, 2, 50, 48, 1, length]);
            }
            let needed = 4 * (1 + members);
            for length in [0, needed - 1, needed, needed + 1, 80] {
                for [s, t, a, b] in ZONES {
                    items.put(&[0x53, lower, upper, zone, s, t, a, b, length]);
                }
            }
        }
    }
}

/// Settings with these sensitivities and modes, and every channel at rest.
pub fn at_rest(layout: [u8; 2], zones: [Zone; 2]) -> Settings {
    Settings {
        layout,
        zones,
        channels: [Channel::REST; 16],
    }
}

/// Item 70 with every byte in each field of the zones, with members and without. Item 72 with every
/// semitones and cents that are legal, and what is shown then.
fn settings(items: &mut Items) {
    let usual = Zone {
        manager: [2, 0],
        member: [48, 0],
        mode: 3,
    };
    for layout in [[3, 2], [3, 0], [0, 2], [0, 0]] {
        let record = at_rest(layout, [usual; 2]).record();
        for field in 2..12 {
            for byte in 0..=255 {
                let mut item = [&[0x70], &record[..], &[0, 0]].concat();
                item[1 + field] = byte;
                items.put(&item);
            }
        }
    }
    for semitones in 0..=96 {
        for cents in 0..=99 {
            let zone = |manager, member| Zone {
                manager,
                member,
                mode: 3 + cents % 2,
            };
            let (given, turned) = ([semitones, cents], [96 - semitones, 99 - cents]);
            let zones = [zone(given, turned), zone(turned, given)];
            let record = at_rest([1, 1], zones).record();
            items.put(&[&[0x72], &record[..]].concat());
            items.put(&[0x06]);
        }
    }
}

fn bend_value(items: &mut Items, offset: i64, [semitones, cents]: [u8; 2]) {
    let [a, b, c, d] = (offset as i32).to_be_bytes();
    items.put(&[0x20, a, b, c, d, semitones, cents]);
}

/// Every bend as an offset, alone and with its remainder; the offsets on both sides of each step
/// from one bend to the next; and the limits.
fn pitch(items: &mut Items) {
    for sensitivity in SENSITIVITIES {
        let range = range(sensitivity);
        for value in 0..=0x3FFFu16 {
            let [high, low] = value.to_be_bytes();
            for operation in [0x21, 0x22] {
                items.put(&[operation, high, low, sensitivity[0], sensitivity[1]]);
            }
            let half = 2 * (i64::from(value) - 0x2000) + 1;
            let step = (half * range).div_euclid(16384);
            bend_value(items, step, sensitivity);
            bend_value(items, step + 1, sensitivity);
        }
        for offset in [range - 1, range, range + 1, 1, i64::from(i32::MAX)] {
            bend_value(items, offset, sensitivity);
            bend_value(items, -offset, sensitivity);
        }
        bend_value(items, 0, sensitivity);
        bend_value(items, i64::from(i32::MIN), sensitivity);
    }
}
