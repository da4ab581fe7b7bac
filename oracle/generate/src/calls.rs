//! Calls without a state: layouts, pitch, and the steps of `apply`.

use crate::Generator;

pub fn layout(g: &mut Generator) {
    let [lower, upper] = g.random.layout();
    let operation = g
        .random
        .one_of(&[0x10, 0x11, 0x11, 0x12, 0x12, 0x13, 0x14, 0x15]);
    let mut item = vec![operation, lower, upper];
    match operation {
        0x11 => {
            let count = match g.random.below(8) {
                0 => g.random.byte(),
                _ => g.random.count(),
            };
            item.extend([g.random.flag(), count]);
        }
        0x12 => item.push(g.random.channel_as_given()),
        0x13 | 0x14 => item.push(g.random.flag()),
        _ => {}
    }
    g.items.put(&item);
}

/// The range of a sensitivity, in hundredths of a cent.
pub fn range([semitones, cents]: [u8; 2]) -> i64 {
    (i64::from(semitones & 0x7F) * 100 + i64::from(cents & 0x7F)) * 100
}

/// An offset for `pitch_bend_value`, often beside a limit or where the value steps.
fn offset(g: &mut Generator, range: i64) -> i32 {
    let sign = g.random.one_of(&[-1, 1]);
    let offset = match g.random.below(8) {
        0 => i64::from(g.random.word() as i32),
        1 => i64::from(
            g.random
                .one_of(&[i32::MIN, i32::MIN + 1, i32::MAX, 0, 1, -1, 25, -25]),
        ),
        2 => sign * (range + g.random.between(-2, 2)),
        // The value steps where 8192 × offset / range is a half.
        3..=5 => {
            let half = 2 * g.random.between(0, 8192) + 1;
            sign * (half * range / 16384 + g.random.between(-1, 1))
        }
        _ => g.random.between(-range - 10, range + 10),
    };
    offset as i32
}

pub fn pitch(g: &mut Generator) {
    let sensitivity = g.random.sensitivity();
    let mut item = Vec::new();
    if g.random.once_in(2) {
        item.push(0x20);
        item.extend(offset(g, range(sensitivity)).to_be_bytes());
    } else {
        item.push(g.random.one_of(&[0x21, 0x22]));
        item.extend(g.random.fourteen_or_so().to_be_bytes());
    }
    item.extend(sensitivity);
    g.items.put(&item);
}

/// A value for `apply`, often where a step carries or stops.
fn value(g: &mut Generator) -> u16 {
    let high = g.random.one_of(&[0, 1, 2, 3, 63, 125, 126, 127]);
    let low = g.random.one_of(&[0, 1, 98, 99, 100, 110, 126, 127]);
    match g.random.below(2) {
        0 => high << 7 | low,
        _ => g.random.fourteen_or_so(),
    }
}

pub fn apply(g: &mut Generator) {
    let mut item = vec![0x30];
    item.extend(g.random.parameter());
    item.extend(g.random.change());
    item.extend(value(g).to_be_bytes());
    g.items.put(&item);
}
