//! The setup file, by hand from document 02, 2026-07, and apart from that of `trace`; and settings
//! with a label, by chance, whose file is short or long.

use crate::random::Random;
use crate::settings::{Channel, Settings};

/// A file in its parts. They may be damaged; the counts are those of the parts.
pub struct File {
    /// Zone, members, semitones and cents of the manager, of the members, mode.
    pub zones: Vec<[u8; 7]>,
    /// Number, bend MSB and LSB, pressure, brightness.
    pub channels: Vec<[u8; 5]>,
    pub label: Vec<u8>,
}

impl File {
    /// The file of legal settings and a label.
    pub fn of(settings: &Settings, label: &[u8]) -> Self {
        let mut zones = Vec::new();
        let [lower, upper] = settings.zones;
        for (number, zone) in [(0, lower), (1, upper)] {
            let members = settings.layout[usize::from(number)];
            if members > 0 {
                let ([s, t], [a, b]) = (zone.manager, zone.member);
                zones.push([number, members, s, t, a, b, zone.mode]);
            }
        }
        let mut channels = Vec::new();
        for (number, channel) in (0..16).zip(settings.channels) {
            if channel != Channel::REST {
                let [high, low] = [channel.bend >> 7, channel.bend & 0x7F].map(|half| half as u8);
                channels.push([number, high, low, channel.pressure, channel.brightness]);
            }
        }
        Self {
            zones,
            channels,
            label: label.to_vec(),
        }
    }

    pub fn bytes(&self) -> Vec<u8> {
        let mut bytes = vec![self.zones.len() as u8];
        self.zones.iter().for_each(|entry| bytes.extend(entry));
        bytes.push(self.channels.len() as u8);
        self.channels.iter().for_each(|entry| bytes.extend(entry));
        bytes.push(self.label.len() as u8);
        bytes.extend(&self.label);
        bytes
    }
}

/// A channel that is not at rest, often in one byte of its entry alone.
fn moved(random: &mut Random) -> Channel {
    let mut channel = Channel::REST;
    while channel == Channel::REST {
        match random.below(8) {
            0 => channel.bend = 0x2000 + u16::from(random.seven()),
            1 => channel.bend = u16::from(random.seven()) << 7,
            2 => channel.pressure = random.seven(),
            3 => channel.brightness = random.seven(),
            _ => channel = Channel::random(random),
        }
    }
    channel
}

/// Settings with this layout and so many channels that are not at rest, every field that is read
/// inside its limits.
pub fn settings(random: &mut Random, layout: [u8; 2], channels: usize) -> Settings {
    let mut settings = Settings::random(random, layout);
    settings.channels = [Channel::REST; 16];
    let mut numbers: Vec<usize> = (0..16).collect();
    for _ in 0..channels {
        let number = numbers.swap_remove(random.below(numbers.len() as u64) as usize);
        settings.channels[number] = moved(random);
    }
    settings
}

/// A label of this length, often with bytes at their limits.
pub fn label(random: &mut Random, length: usize) -> Vec<u8> {
    let mut byte = || match random.below(4) {
        0 => random.one_of(&[0x20, 0x21, 0x7D, 0x7E]),
        _ => random.between(0x20, 0x7E) as u8,
    };
    (0..length).map(|_| byte()).collect()
}
