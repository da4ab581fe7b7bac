//! The inputs, the same on every run.

use crate::random::Random;

/// Bytes of a stream.
const LENGTH: usize = 1 << 16;

/// Messages to translate.
const MESSAGES: usize = 1 << 14;

pub struct Stream {
    pub name: &'static str,
    pub bytes: Vec<u8>,
}

/// The zone announcement of RPN 6.
fn announcement(channel: u8, members: u8) -> [u8; 7] {
    [0xB0 | channel, 101, 0, 100, 6, 6, members]
}

fn fill(bytes: &mut Vec<u8>, mut more: impl FnMut(&mut Vec<u8>)) {
    while bytes.len() < LENGTH {
        more(bytes);
    }
    bytes.truncate(LENGTH);
}

fn value(random: &mut Random) -> u8 {
    random.below(128) as u8
}

/// Fifteen members play: for each note its set-up, then bends, pressures and brightness, each with
/// its own status, as an MPE controller sends them.
fn performance() -> Vec<u8> {
    let mut random = Random::new(1);
    let mut bytes = announcement(0, 15).to_vec();
    fill(&mut bytes, |bytes| {
        let channel = 1 + random.below(15) as u8;
        let (one, two) = (value(&mut random), value(&mut random));
        match random.below(16) {
            0 => bytes.extend([0x90 | channel, one, two | 1]),
            1 => bytes.extend([0x80 | channel, one, two]),
            2..=7 => bytes.extend([0xE0 | channel, one, two]),
            8..=11 => bytes.extend([0xD0 | channel, one]),
            _ => bytes.extend([0xB0 | channel, 74, two]),
        }
    });
    bytes
}

/// Zones are announced, and sensitivities set in semitones and cents, one after the other.
fn announcements() -> Vec<u8> {
    let mut random = Random::new(2);
    let mut bytes = Vec::new();
    fill(&mut bytes, |bytes| {
        if random.once_in(2) {
            let zone = random.one_of(&[0, 15]);
            bytes.extend(announcement(zone, random.below(16) as u8));
        } else {
            let channel = random.below(16) as u8;
            let (semitones, cents) = (random.below(97) as u8, random.below(100) as u8);
            bytes.extend([0xB0 | channel, 101, 0, 100, 0, 6, semitones, 38, cents]);
        }
    });
    bytes
}

fn random_bytes() -> Vec<u8> {
    let mut random = Random::new(3);
    (0..LENGTH).map(|_| random.byte()).collect()
}

pub fn all() -> Vec<Stream> {
    vec![
        Stream {
            name: "performance",
            bytes: performance(),
        },
        Stream {
            name: "announcements",
            bytes: announcements(),
        },
        Stream {
            name: "random",
            bytes: random_bytes(),
        },
    ]
}

/// Announcements that reset sixteen channels, each from another layout; the last byte does it.
pub fn worst() -> Vec<Vec<u8>> {
    let layouts: [&[(u8, u8)]; 4] = [&[], &[(0, 15)], &[(0, 7), (15, 7)], &[(15, 15)]];
    let mut streams = Vec::new();
    for layout in layouts {
        for channel in [0, 15] {
            let set_up = layout
                .iter()
                .flat_map(|(zone, members)| announcement(*zone, *members));
            streams.push(set_up.chain(announcement(channel, 15)).collect());
        }
    }
    streams
}

/// A zone of fifteen members, each of them bent.
pub fn bent() -> Vec<u8> {
    let bends = (0..16).flat_map(|channel| [0xE0 | channel, 17 * (channel & 7), 100 - channel]);
    announcement(0, 15).into_iter().chain(bends).collect()
}

/// Channels to read.
pub fn channels() -> Vec<u8> {
    let mut random = Random::new(4);
    (0..LENGTH).map(|_| random.below(16) as u8).collect()
}

/// Notes that start, and channels on which one ends.
pub fn notes() -> Vec<u8> {
    let mut random = Random::new(5);
    (0..LENGTH).map(|_| random.byte()).collect()
}

/// The word of a message of group 0, from its bytes.
fn word(bytes: &[u8]) -> u32 {
    let byte = |at: usize| u32::from(bytes.get(at).copied().unwrap_or(0));
    0x2000_0000 | byte(0) << 16 | byte(1) << 8 | byte(2)
}

/// The words of the performance; once in sixteen messages there is, among them, a parameter with its
/// number and both halves of its value, or a bank and its program.
pub fn messages() -> Vec<u32> {
    let mut random = Random::new(6);
    let bytes = performance();
    let (_, played) = bytes.split_at(announcement(0, 15).len());
    let mut words = Vec::new();
    for message in played.chunk_by(|_, next| *next < 0x80) {
        words.push(word(message));
        let channel = random.below(16) as u8;
        let (msb, lsb) = (value(&mut random), value(&mut random));
        let mut control = |index, value| words.push(word(&[0xB0 | channel, index, value]));
        match random.below(32) {
            0 => {
                let (number_msb, number_lsb) = random.one_of(&[(101, 100), (99, 98)]);
                control(number_msb, 0);
                control(number_lsb, value(&mut random));
                control(6, msb);
                control(38, lsb);
            }
            1 => {
                control(0, msb);
                control(32, lsb);
                words.push(word(&[0xC0 | channel, value(&mut random)]));
            }
            _ => {}
        }
    }
    assert!(words.len() >= MESSAGES, "the performance is too short");
    words.truncate(MESSAGES);
    words
}
