//! Settings, and their restatement as bytes, written by hand from document 01, "Restatement", and
//! document 02, 2026-01, and apart from that of `trace`; so are the offsets that the settings give,
//! with the remainders of document 02, 2026-04.

use crate::calls::range;
use crate::random::Random;

/// Semitones and cents.
type Sensitivity = [u8; 2];

#[derive(Clone, Copy)]
pub struct Zone {
    pub manager: Sensitivity,
    pub member: Sensitivity,
    pub mode: u8,
}

#[derive(Clone, Copy, PartialEq)]
pub struct Channel {
    pub bend: u16,
    pub pressure: u8,
    pub brightness: u8,
}

impl Channel {
    /// A channel at rest.
    pub const REST: Self = Self {
        bend: 0x2000,
        pressure: 0,
        brightness: 64,
    };

    /// A channel inside its limits.
    pub fn random(random: &mut Random) -> Self {
        Self {
            bend: random.fourteen(),
            pressure: random.seven(),
            brightness: random.seven(),
        }
    }
}

/// A settings record, S of docs/REPLAY.md.
pub struct Settings {
    /// The members of Lower and Upper.
    pub layout: [u8; 2],
    pub zones: [Zone; 2],
    pub channels: [Channel; 16],
}

/// Semitones from 0 to 96 and cents from 0 to 99, each often at a limit or as new.
fn sensitivity(random: &mut Random) -> Sensitivity {
    let semitones = match random.below(3) {
        0 => random.one_of(&[0, 1, 2, 48, 95, 96]),
        _ => random.below(97) as u8,
    };
    let cents = match random.below(2) {
        0 => random.one_of(&[0, 1, 50, 99]),
        _ => random.below(100) as u8,
    };
    [semitones, cents]
}

/// A zone inside its limits; the fields of an empty one are not read and may be anything.
fn zone(random: &mut Random, members: u8) -> Zone {
    if members == 0 && random.once_in(2) {
        return Zone {
            manager: [random.byte(), random.byte()],
            member: [random.byte(), random.byte()],
            mode: random.byte(),
        };
    }
    Zone {
        manager: sensitivity(random),
        member: sensitivity(random),
        mode: random.one_of(&[3, 4]),
    }
}

impl Settings {
    /// Settings with this layout, and every field that is read inside its limits.
    pub fn random(random: &mut Random, layout: [u8; 2]) -> Self {
        Self {
            layout,
            zones: layout.map(|members| zone(random, members)),
            channels: std::array::from_fn(|_| Channel::random(random)),
        }
    }

    /// S: the record as arguments of an item.
    pub fn record(&self) -> Vec<u8> {
        let mut record = self.layout.to_vec();
        for zone in self.zones {
            record.extend(zone.manager);
            record.extend(zone.member);
            record.push(zone.mode);
        }
        for channel in self.channels {
            record.extend(channel.bend.to_be_bytes());
            record.extend([channel.pressure, channel.brightness]);
        }
        record
    }

    /// How many messages the restatement has.
    pub fn messages(&self) -> u64 {
        let [lower, upper] = self.layout.map(u64::from);
        let zones = u64::from(lower > 0) + u64::from(upper > 0);
        108 + 5 * zones + 4 * (lower + upper)
    }

    /// The zones with members: the manager's channel, the lowest member, the count, the settings.
    fn active(&self) -> Vec<(u8, u8, u8, Zone)> {
        let ([lower, upper], [lower_zone, upper_zone]) = (self.layout, self.zones);
        let mut active = Vec::new();
        if lower > 0 {
            active.push((0, 1, lower, lower_zone));
        }
        if upper > 0 {
            active.push((15, 15 - upper, upper, upper_zone));
        }
        active
    }

    /// The restatement of legal settings.
    pub fn bytes(&self) -> Vec<u8> {
        let [lower, upper] = self.layout;
        let mut bytes = Vec::new();
        // A. Controller 121 on each channel.
        for channel in 0..16 {
            bytes.extend([0xB0 + channel, 121, 0]);
        }
        // B. Lower 7, Upper 7, and the layout.
        for (manager, members) in [(0, 7), (15, 7), (0, lower), (15, upper)] {
            rpn(&mut bytes, manager, 6, members);
        }
        self.sensitivities(&mut bytes);
        self.modes(&mut bytes);
        // E. The null number on each channel.
        for channel in 0..16 {
            bytes.extend([0xB0 + channel, 101, 127]);
            bytes.extend([0xB0 + channel, 100, 127]);
        }
        self.controls(&mut bytes);
        bytes
    }

    /// C. The sensitivities: the manager's, and those of the members from the lowest up.
    fn sensitivities(&self, bytes: &mut Vec<u8>) {
        for (manager, lowest, members, zone) in self.active() {
            group(bytes, manager, zone.manager);
            for member in lowest..lowest + members {
                group(bytes, member, zone.member);
            }
        }
    }

    /// D. The modes, on the lowest members: 126 with the count is mode 4, 127 with 0 mode 3.
    fn modes(&self, bytes: &mut Vec<u8>) {
        for (_, lowest, members, zone) in self.active() {
            match zone.mode {
                4 => bytes.extend([0xB0 + lowest, 126, members]),
                _ => bytes.extend([0xB0 + lowest, 127, 0]),
            }
        }
    }

    /// F. Bend, its lower seven bits first, then 74 and pressure of each channel.
    fn controls(&self, bytes: &mut Vec<u8>) {
        for (channel, set) in (0..16).zip(self.channels) {
            let [low, high] = [set.bend % 128, set.bend / 128].map(|half| half as u8);
            bytes.extend([0xE0 + channel, low, high]);
            bytes.extend([0xB0 + channel, 74, set.brightness]);
            bytes.extend([0xD0 + channel, set.pressure]);
        }
    }

    /// How the answer to item 06 is to begin once the settings are shown.
    pub fn shown_zones(&self) -> String {
        let [lower, upper] = self.layout;
        let mut shown = format!("{lower} {upper}");
        for (members, zone) in self.layout.into_iter().zip(self.zones) {
            shown += &match members {
                0 => " 2 0 48 0 3".to_string(),
                _ => {
                    let ([s, t], [a, b]) = (zone.manager, zone.member);
                    format!(" {s} {t} {a} {b} {}", zone.mode)
                }
            };
        }
        shown
    }

    /// How the answer to item 07 of each channel is to begin.
    pub fn shown_channels(&self) -> [String; 16] {
        self.channels.map(|channel| {
            format!(
                "{} {} {}",
                channel.bend, channel.pressure, channel.brightness
            )
        })
    }

    /// The answer to item 09 of each channel: its offset with the remainder.
    pub fn shown_offsets(&self) -> [String; 16] {
        let mut shown = std::array::from_fn(|_| "-".to_string());
        for (manager, lowest, members, zone) in self.active() {
            let part = |channel: u8, sensitivity| {
                let bend = self.channels[usize::from(channel)].bend;
                offset_with_remainder(bend, sensitivity)
            };
            let [offset, left] = part(manager, zone.manager);
            shown[usize::from(manager)] = format!("{offset} {left}");
            for member in lowest..lowest + members {
                let [own_offset, own_left] = part(member, zone.member);
                shown[usize::from(member)] = format!("{} {}", offset + own_offset, left + own_left);
            }
        }
        shown
    }
}

/// The offset of one bend, the nearest to its range × (bend − 8192) / 8191, and the remainder, from
/// −4095 to 4095 (document 02, 2026-04).
fn offset_with_remainder(bend: u16, sensitivity: Sensitivity) -> [i64; 2] {
    let raised = range(sensitivity) * (i64::from(bend) - 8192) + 4095;
    [raised.div_euclid(8191), raised.rem_euclid(8191) - 4095]
}

/// Registered parameter 0 0 or 0 6 (its lower half is `number`) and data entry MSB, each message
/// with its own status.
fn rpn(bytes: &mut Vec<u8>, channel: u8, number: u8, value: u8) {
    for (controller, data) in [(101, 0), (100, number), (6, value)] {
        bytes.extend([0xB0 + channel, controller, data]);
    }
}

/// The sensitivity of a channel: registered parameter 0 0 with the semitones, then data entry LSB
/// with the cents.
fn group(bytes: &mut Vec<u8>, channel: u8, [semitones, cents]: Sensitivity) {
    rpn(bytes, channel, 0, semitones);
    bytes.extend([0xB0 + channel, 38, cents]);
}

#[cfg(test)]
mod tests {
    use super::*;

    /// Document 02's own example, a bend at rest, and both ends of a range.
    #[test]
    fn offsets_with_remainders() {
        for (bend, expected) in [
            (12288, [240_029, 2461]),
            (8192, [0, 0]),
            (16383, [480_000, 0]),
            (0, [-480_059, 3269]),
        ] {
            assert_eq!(offset_with_remainder(bend, [48, 0]), expected);
        }
    }

    /// The sizes of document 01, "Bench examples", with the cents of document 02: 108 + 5z + 4m
    /// messages.
    #[test]
    fn sizes() {
        for (layout, messages, length) in
            [([0, 0], 108, 308), ([7, 7], 174, 506), ([15, 0], 173, 503)]
        {
            let settings = Settings::random(&mut Random::new(1), layout);
            assert_eq!(settings.messages(), messages);
            assert_eq!(settings.bytes().len(), length);
            assert_eq!(settings.record().len(), 76);
        }
    }
}
