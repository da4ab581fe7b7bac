//! Ours: the offset with its remainder, from document 02, 2026-04. The offset is upstream's; the
//! remainder is reckoned here from the law d × (value − 8192) = 8191 × offset + r.
//!
//! The program stops where r is larger than document 02 says, or where upstream's offset of a
//! channel is not the sum of its own offsets of the channel's parts.

use zmidi_io::mpe::{self, MpeReceiver, MpeRole, MpeSensitivity, MpeZone};
use zmidi_ump::Channel;

/// A bend at rest.
const CENTER: i64 = 8192;
/// A product is divided by this to give an offset.
const DIVISOR: i64 = 8191;
/// The largest remainder of one bend; for a member two are added (document 02, 2026-04).
const LARGEST: i64 = 4095;

/// A bend and the sensitivity that it has.
type Part = (u16, MpeSensitivity);

/// d: the range of a sensitivity in hundredths of a cent, by hand. Semitones and cents have seven
/// bits.
fn range(sensitivity: MpeSensitivity) -> i64 {
    let [semitones, cents] =
        [sensitivity.semitones, sensitivity.cents].map(|half| i64::from(half & 0x7F));
    (semitones * 100 + cents) * 100
}

/// d × (value − 8192), with the low 14 bits of the value.
fn product((value, sensitivity): Part) -> i64 {
    range(sensitivity) * (i64::from(value & 0x3FFF) - CENTER)
}

/// What is left of a product once 8191 × offset is taken away; the program stops if that is beyond
/// the limit.
fn remainder(product: i64, offset: i32, limit: i64) -> i64 {
    let left = product - DIVISOR * i64::from(offset);
    assert!(
        (-limit..=limit).contains(&left),
        "upstream's offset {offset} leaves {left} of {product}, not from -{limit} to {limit}"
    );
    left
}

/// Upstream's offset of one bend, and its remainder: from −4095 to 4095 (document 02, 2026-04).
pub fn pitch_offset(value: u16, sensitivity: MpeSensitivity) -> (i32, i64) {
    let offset = mpe::pitch_offset(value, sensitivity);
    let left = remainder(product((value, sensitivity)), offset, LARGEST);
    (offset, left)
}

/// The manager's channel.
fn manager(zone: MpeZone) -> Channel {
    Channel::from_bits(match zone {
        MpeZone::Lower => 0,
        MpeZone::Upper => 15,
    })
}

/// What a channel's offset is added from: the manager's own part, and for a member its part too;
/// nothing for a channel without a role.
fn parts(receiver: &MpeReceiver, channel: Channel) -> Vec<Part> {
    let part = |channel, zone, is_manager| {
        let sensitivity = receiver.sensitivity(zone, is_manager);
        (receiver.pitch_bend(channel), sensitivity)
    };
    match receiver.layout().role(channel) {
        MpeRole::NoZone => vec![],
        MpeRole::Manager(zone) => vec![part(channel, zone, true)],
        MpeRole::Member(zone) => vec![part(manager(zone), zone, true), part(channel, zone, false)],
    }
}

/// Upstream's offset of a channel, and its remainder: from −4095 to 4095 for a manager, from −8190
/// to 8190 for a member (document 02, 2026-04); none for a channel without a role.
pub fn channel_pitch_offset(receiver: &MpeReceiver, channel: Channel) -> Option<(i32, i64)> {
    let parts = parts(receiver, channel);
    let offsets: Vec<i32> = parts
        .iter()
        .map(|(value, sensitivity)| pitch_offset(*value, *sensitivity).0)
        .collect();
    let added = (!offsets.is_empty()).then(|| offsets.iter().sum());
    let given = receiver.pitch_offset(channel);
    assert!(
        given == added,
        "upstream's offset of channel {} is {given:?}, and its parts are {offsets:?}",
        channel.index()
    );
    let limit = LARGEST * parts.len() as i64;
    let products = parts.into_iter().map(product).sum();
    given.map(|offset| (offset, remainder(products, offset, limit)))
}

#[cfg(test)]
mod tests {
    use super::*;

    #[test]
    fn a_range_is_taken_from_seven_bits_of_each_half() {
        for (semitones, cents, expected) in [
            (0, 0, 0),
            (0, 1, 100),
            (2, 50, 25_000),
            (48, 0, 480_000),
            (127, 127, 1_282_700),
            (255, 255, 1_282_700),
            (128, 128, 0),
        ] {
            assert_eq!(range(MpeSensitivity { semitones, cents }), expected);
        }
    }

    #[test]
    fn a_remainder_at_its_limit_is_taken() {
        for limit in [LARGEST, 2 * LARGEST] {
            assert_eq!(remainder(DIVISOR + limit, 1, limit), limit);
            assert_eq!(remainder(-DIVISOR - limit, -1, limit), -limit);
        }
    }

    #[test]
    #[should_panic(expected = "upstream's offset 1 leaves 4096 of 12287, not from -4095 to 4095")]
    fn a_remainder_above_its_limit_stops_the_program() {
        remainder(12_287, 1, LARGEST);
    }

    #[test]
    #[should_panic(expected = "upstream's offset 0 leaves -8191 of -8191, not from -8190 to 8190")]
    fn a_remainder_below_its_limit_stops_the_program() {
        remainder(-8191, 0, 2 * LARGEST);
    }
}
