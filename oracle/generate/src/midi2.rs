//! The exhaustive tables of the translation to MIDI 2.0 words and of its scaling.

use crate::items::Items;
use crate::random::Random;

/// Widths up to this one are gone through value by value.
const WHOLE: u8 = 14;
/// The largest width of the tables: one past the last that the calls take.
const WIDTHS: u8 = 33;
/// Values taken by chance of a width that is not gone through.
const SAMPLES: usize = 100;

fn scale(items: &mut Items, operation: u8, value: u32, s: u8, d: u8) {
    let [a, b, c, e] = value.to_be_bytes();
    items.put(&[operation, a, b, c, e, s, d]);
}

/// The values of a width: all of a small one and the one past them; of another the limits, the
/// centre and its neighbours, and some by chance.
fn values(width: u8) -> Vec<u32> {
    if width <= WHOLE {
        return (0..=1 << width).collect();
    }
    let past = 1u64 << width.min(32);
    let centre = past / 2;
    let mut values = vec![0, 1, 2, past - 3, past - 2, past - 1, past];
    values.extend(centre - 2..=centre + 2);
    let mut random = Random::new(u64::from(width));
    values.extend((0..SAMPLES).map(|_| random.below(past)));
    let values = values.into_iter();
    values.filter_map(|value| value.try_into().ok()).collect()
}

/// Items 86 to 89 with every two widths, in either order, those past the last ones too.
pub fn scaling(items: &mut Items) {
    for s in 0..=WIDTHS {
        let values = values(s);
        for d in 0..=WIDTHS {
            for value in &values {
                for operation in 0x86..=0x89 {
                    scale(items, operation, *value, s, d);
                }
            }
        }
    }
}

/// Items 87 and 89 from every width above those gone through to every one of these: for each value
/// of the smaller width the lowest and the highest value of the larger one that are cut to it, and
/// the two between which the nearest value changes.
pub fn narrowing(items: &mut Items) {
    for s in WHOLE + 1..=32 {
        for d in 1..=WHOLE {
            let step = 1u32 << (s - d);
            for value in 0..1 << d {
                let lowest = value << (s - d);
                for above in [0, step / 2 - 1, step / 2, step - 1] {
                    scale(items, 0x87, lowest | above, s, d);
                    scale(items, 0x89, lowest | above, s, d);
                }
            }
        }
    }
}

/// The flags that some list of messages gives.
const FLAGS: [u8; 9] = [0, 1, 2, 4, 5, 6, 12, 13, 14];

/// Held bytes of a parameter number: nothing, a half, 0/0, 0/6, null, half of null, on both sides
/// of the index from which a value is no longer extended by zeros, and two others.
const NUMBERS: [[u8; 2]; 11] = [
    [0, 0],
    [1, 0],
    [0, 7],
    [1, 1],
    [1, 7],
    [128, 128],
    [1, 128],
    [128, 1],
    [1, 32],
    [1, 33],
    [64, 64],
];

/// Held bytes of the last controller 6.
const ENTRIES: [u8; 4] = [0, 1, 65, 128];

/// Held bytes of a bank.
const BANKS: [[u8; 2]; 5] = [[0, 0], [1, 1], [0, 65], [64, 1], [128, 128]];

/// The channel of the table `translations`.
const CHANNEL: u8 = 9;

/// The records, each with its number: every one of the flags with every number and entry. The
/// number that is not selected is another, and the banks go round, so that each comes with each of
/// the flags.
fn records() -> impl Iterator<Item = (usize, [u8; 8])> {
    let count = FLAGS.len() * NUMBERS.len() * ENTRIES.len();
    (0..count).map(|number| {
        let [flags, place] = [number / 44, number / 4 % 11];
        let [a, b] = NUMBERS[place];
        let [c, d] = NUMBERS[(place + 3) % 11];
        let (entry, [msb, lsb]) = (ENTRIES[number % 4], BANKS[number % 5]);
        (number, [a, b, c, d, entry, msb, lsb, FLAGS[flags]])
    })
}

fn set(items: &mut Items, channel: u8, record: [u8; 8]) {
    for (field, byte) in (0..).zip(record) {
        items.put(&[0x84, channel, field, byte]);
    }
}

/// Whether a message changes what is held, so that the record is to be set again after it.
fn changes(opcode: u8, first: u8) -> bool {
    match opcode {
        0xB => matches!(first, 0 | 6 | 32 | 38 | 98..=101 | 121),
        _ => opcode == 0xC,
    }
}

/// The messages with an opcode and a first data byte, and what is held then.
fn messages(items: &mut Items, group: u8, [opcode, first]: [u8; 2], record: [u8; 8]) {
    let status = opcode << 4 | CHANNEL;
    let seconds = match opcode {
        0xC | 0xD => 0..1,
        _ => 0..128,
    };
    for second in seconds {
        items.put(&[0x81, 0x20 | group, status, first, second]);
        if changes(opcode, first) {
            items.put(&[0x83, CHANNEL]);
            set(items, CHANNEL, record);
        }
    }
    items.put(&[0x83, CHANNEL]);
}

/// Items 81 and 82 on one channel from each of the records: all words of the channel, and the flush
/// with each group.
pub fn translations(items: &mut Items) {
    for (number, record) in records() {
        let group = number as u8 & 0xF;
        items.put(&[0x80]);
        set(items, CHANNEL, record);
        for opcode in 0x8..=0xE {
            for first in 0..128 {
                messages(items, group, [opcode, first], record);
            }
        }
        for group in 0..16 {
            items.put(&[0x82, group, CHANNEL]);
            items.put(&[0x83, CHANNEL]);
            set(items, CHANNEL, record);
        }
    }
}

/// Items 81 to 84 with every byte in every field of every channel: calls on that channel and on
/// another, which is read too, and a new record.
pub fn records_table(items: &mut Items) {
    for channel in 0..16u8 {
        for field in 0..8 {
            for byte in 0..=255u8 {
                let other = (channel + 1 + byte % 15) % 16;
                items.put(&[0x84, channel, field, byte]);
                items.put(&[0x81, 0x20, 0x90 | channel, 60, 64]);
                items.put(&[0x81, 0x21, 0xB0 | other, 101, 5]);
                items.put(&[0x83, other]);
                items.put(&[0x82, 0, other]);
                items.put(&[0x82, 0, channel]);
                items.put(&[0x83, channel]);
                items.put(&[0x80]);
            }
        }
    }
}
