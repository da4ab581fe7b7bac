//! Items 80 to 89: the values that upstream's comments name, each rule of the translation, the
//! refusals of document 02, 2026-02, and a second model held to upstream on random messages.

mod answers;
mod model;

use answers::{answers, hold};
use model::Held;

/// The answer with these two words.
fn two(first: u32, second: u32) -> String {
    format!("{first} {second}")
}

/// An item 81 with a Control Change of channel 0.
fn control(controller: u8, value: u8) -> String {
    format!("81 20 B0 {controller:02X} {value:02X}")
}

/// The answer to the last item of a trace.
fn last(items: &[String]) -> String {
    let answers = answers(&items.join("\n"));
    answers.lines().last().expect("it has items").into()
}

/// The answer to the last of these Control Changes on a new record.
fn after(controls: &[(u8, u8)]) -> String {
    let items: Vec<String> = controls.iter().map(|(c, v)| control(*c, *v)).collect();
    last(&items)
}

/// The bytes of channel 0 after these Control Changes.
fn bytes_after(controls: &[(u8, u8)]) -> String {
    let mut items: Vec<String> = controls.iter().map(|(c, v)| control(*c, *v)).collect();
    items.push("83 00".into());
    last(&items)
}

#[test]
fn documented_scalings() {
    hold(&[
        ("86 00 00 00 46 07 10", &0x8C30.to_string()),
        ("86 00 00 00 40 07 10", &0x8000.to_string()),
        ("88 00 00 00 7F 07 10", &0xFE00.to_string()),
        ("86 00 00 20 00 0E 20", &0x8000_0000u32.to_string()),
        ("86 00 00 00 7F 07 20", &u32::MAX.to_string()),
        ("86 00 00 00 01 01 20", &u32::MAX.to_string()),
        ("86 00 00 00 00 01 20", "0"),
        ("87 00 00 AE BA 10 07", &0x57.to_string()),
        ("89 00 00 15 FF 10 07", &0x0B.to_string()),
        ("89 00 00 FF FF 10 07", &0x7F.to_string()),
    ]);
}

#[test]
fn scalings_that_are_refused() {
    hold(&[
        ("86 00 00 00 00 00 07", "!1"),
        ("86 00 00 00 00 07 07", "!1"),
        ("86 00 00 00 00 08 07", "!1"),
        ("86 00 00 00 00 07 21", "!1"),
        ("86 00 00 00 00 07 FF", "!1"),
        ("86 00 00 00 80 07 08", "!1"),
        ("86 FF FF FF FF 1F 20", "!1"),
        ("87 00 00 00 00 07 00", "!1"),
        ("87 00 00 00 00 21 07", "!1"),
        ("87 00 00 00 00 07 08", "!1"),
        ("87 00 00 01 00 08 07", "!1"),
        ("87 FF FF FF FF 20 1F", &0x7FFF_FFFF.to_string()),
        ("88 00 00 00 00 01 07", "!1"),
        ("88 00 00 00 00 02 07", "0"),
        ("89 00 00 00 00 02 00", "!1"),
        ("89 00 00 00 03 02 01", "1"),
    ]);
}

#[test]
fn messages_that_hold_nothing() {
    hold(&[
        ("81 20 80 3C 40", &two(0x4080_3C00, 0x8000_0000)),
        ("81 2F 9F 3C 00", &two(0x4F8F_3C00, 0x8000_0000)),
        ("81 20 90 3C 01", &two(0x4090_3C00, 0x0200_0000)),
        ("81 20 A0 3C 7F", &two(0x40A0_3C00, u32::MAX)),
        ("81 20 B0 4A 41", &two(0x40B0_4A00, 0x8208_2082)),
        ("81 20 B0 60 00", &two(0x40B0_6000, 0)),
        ("81 20 B0 61 7F", &two(0x40B0_6100, u32::MAX)),
        ("81 20 D5 40 00", &two(0x40D5_0000, 0x8000_0000)),
        ("81 20 E0 00 40", &two(0x40E0_0000, 0x8000_0000)),
        ("81 20 E0 7F 7F", &two(0x40E0_0000, u32::MAX)),
        ("83 00", "0 0 0 0 0 0 0 0"),
    ]);
}

#[test]
fn banks() {
    hold(&[
        ("81 20 C0 05 00", &two(0x40C0_0000, 0x0500_0000)),
        ("81 20 B0 20 07", "-"),
        ("81 20 B0 00 03", "-"),
        ("83 00", "0 0 0 0 0 4 1 0"),
        ("81 20 C1 05 00", &two(0x40C1_0000, 0x0500_0000)),
        ("81 21 C0 05 00", &two(0x41C0_0001, 0x0500_0300)),
        ("83 00", "0 0 0 0 0 0 0 0"),
        ("81 20 C0 05 00", &two(0x40C0_0000, 0x0500_0000)),
        ("81 20 B0 20 07", "-"),
        ("81 20 C0 7F 00", &two(0x40C0_0001, 0x7F00_0007)),
        ("81 20 B0 00 7F", "-"),
        ("81 20 B0 20 7F", "-"),
        ("83 00", "0 0 0 0 0 128 128 0"),
        ("81 20 C0 00 00", &two(0x40C0_0001, 0x0000_7F7F)),
    ]);
}

#[test]
fn parameters() {
    let (bends, announced) = ([(101, 0), (100, 0)], [(101, 0), (100, 6)]);
    let then = |select: [(u8, u8); 2], more: &[(u8, u8)]| after(&[&select[..], more].concat());
    // The MPE Configuration Message goes out at controller 6, and again with the LSB.
    assert_eq!(then(announced, &[(6, 7)]), two(0x4020_0006, 7 << 25));
    let again = then(announced, &[(6, 7), (38, 1)]);
    assert_eq!(again, two(0x4020_0006, 7 << 25 | 1 << 18));
    // Another parameter is held.
    assert_eq!(then(bends, &[(6, 2)]), "-");
    let whole = then(bends, &[(6, 2), (38, 50)]);
    assert_eq!(whole, two(0x4020_0000, (2 << 7 | 50) << 18));
    for ends in [6, 98, 99, 100, 101] {
        let sent = then(bends, &[(6, 2), (ends, 9)]);
        assert_eq!(sent, two(0x4020_0000, 2 << 25));
    }
    // Index 31 is zero-extended, 32 and every NRPN are not.
    let highest = [(6, 127), (38, 127)];
    let zeros = two(0x4020_001F, 0xFFFC_0000);
    assert_eq!(then([(101, 0), (100, 31)], &highest), zeros);
    let repeated = two(0x4020_0020, u32::MAX);
    assert_eq!(then([(101, 0), (100, 32)], &highest), repeated);
    let assignable = two(0x4030_0000, u32::MAX);
    assert_eq!(then([(99, 0), (98, 0)], &highest), assignable);
    // The null number, a half and no number are not sent.
    for select in [
        [(101, 127), (100, 127)],
        [(99, 127), (98, 127)],
        [(101, 0), (101, 0)],
        [(98, 0), (98, 0)],
        [(96, 0), (96, 0)],
    ] {
        assert_eq!(then(select, &highest), "-");
    }
}

#[test]
fn a_reset_while_an_entry_waits() {
    let before = [(101, 0), (100, 0), (6, 2)];
    let reset = [&before[..], &[(121, 5)]].concat();
    assert_eq!(after(&reset), two(0x40B0_7900, 0x0A00_0000));
    assert_eq!(bytes_after(&reset), "1 1 0 0 3 0 0 13");
    // Controller 38 sends the held value alone, and the selection is null.
    let then = |more: &[(u8, u8)]| [&reset[..], more].concat();
    let sent = two(0x4020_0000, 2 << 25);
    for (next, bytes) in [
        (38, "128 128 128 128 3 0 0 1"),
        (6, "128 128 128 128 51 0 0 5"),
        (98, "128 128 128 51 0 0 0 2"),
        (99, "128 128 51 128 0 0 0 2"),
        (100, "128 51 128 128 0 0 0 1"),
        (101, "51 128 128 128 0 0 0 1"),
    ] {
        assert_eq!(after(&then(&[(next, 50)])), sent);
        assert_eq!(bytes_after(&then(&[(next, 50)])), bytes);
    }
    assert_eq!(after(&then(&[(38, 50), (38, 50)])), "-");
    let flushed: Vec<String> = reset.iter().map(|(c, v)| control(*c, *v)).collect();
    let flushed = [&flushed[..], &["82 F3 F0".into()]].concat();
    assert_eq!(last(&flushed), two(0x4320_0000, 2 << 25));
    // Without an entry that waits the selection is null at once.
    let null = [(101, 0), (100, 0), (121, 0)];
    assert_eq!(bytes_after(&null), "128 128 128 128 0 0 0 1");
}

/// The nine values of the flags and all values of each held byte are given by messages.
#[test]
fn every_accepted_value_is_given() {
    let lists: [(&str, &[(u8, u8)]); 9] = [
        ("0", &[]),
        ("1", &[(101, 0)]),
        ("2", &[(99, 0)]),
        ("4", &[(6, 0)]),
        ("5", &[(101, 0), (6, 0)]),
        ("6", &[(99, 0), (6, 0)]),
        ("12", &[(6, 0), (121, 0)]),
        ("13", &[(101, 0), (6, 0), (121, 0)]),
        ("14", &[(99, 0), (6, 0), (121, 0)]),
    ];
    for (flags, list) in lists {
        assert_eq!(bytes_after(list).split(' ').nth(7), Some(flags));
    }
    for (field, controller) in [101, 100, 99, 98, 6, 0, 32].into_iter().enumerate() {
        assert_eq!(bytes_after(&[]).split(' ').nth(field), Some("0"));
        for value in 0..128 {
            let byte = (value + 1).to_string();
            let bytes = bytes_after(&[(controller, value)]);
            assert_eq!(bytes.split(' ').nth(field), Some(&*byte));
        }
    }
}

#[test]
fn refusals() {
    hold(&[
        ("81 10 90 3C 40", "!1"),
        ("81 20 70 3C 40", "!1"),
        ("81 20 F0 3C 40", "!1"),
        ("81 20 90 BC 40", "!1"),
        ("81 20 90 3C C0", "!1"),
        ("81 20 C0 3C 01", "!1"),
        ("81 20 B0 86 00", "!1"),
        ("84 00 08 00", "!1"),
        ("84 00 FF 00", "!1"),
        ("84 1F 06 81", "ok"),
        ("83 FF", "0 0 0 0 0 0 129 0"),
        ("81 20 B3 06 40", "!1"),
        ("82 00 03", "!1"),
        ("83 03", "0 0 0 0 0 0 0 0"),
        ("84 0F 06 80", "ok"),
        ("81 20 B3 06 40", "-"),
        ("83 03", "0 0 0 0 65 0 0 4"),
        ("84 00 07 08", "ok"),
        ("82 00 03", "!1"),
        ("83 03", "0 0 0 0 65 0 0 4"),
        ("80", "ok"),
        ("82 00 03", "-"),
        ("83 03", "0 0 0 0 0 0 0 0"),
    ]);
    assert_eq!(answers("80 85"), "ok\n?\n");
    assert_eq!(answers("8A"), "?\n");
    assert_eq!(answers("86 00 00 00 00 07"), "?\n");
}

/// Numbers that look random: splitmix64.
struct Chance(u64);

impl Chance {
    fn below(&mut self, limit: u64) -> u64 {
        self.0 = self.0.wrapping_add(0x9E37_79B9_7F4A_7C15);
        let mut z = self.0;
        z = (z ^ (z >> 30)).wrapping_mul(0xBF58_476D_1CE4_E5B9);
        z = (z ^ (z >> 27)).wrapping_mul(0x94D0_49BB_1331_11EB);
        (z ^ (z >> 31)) % limit
    }

    fn one_of(&mut self, choices: &[u8]) -> u8 {
        choices[self.below(choices.len() as u64) as usize]
    }

    fn seven(&mut self) -> u8 {
        match self.below(2) {
            0 => self.one_of(&[0, 1, 6, 31, 32, 63, 64, 65, 126, 127]),
            _ => self.below(128) as u8,
        }
    }

    /// A value that the field may have.
    fn field(&mut self, field: u8) -> u8 {
        match (field, self.below(3)) {
            (7, _) => self.one_of(&[0, 1, 2, 4, 5, 6, 12, 13, 14]),
            (_, 0) => self.one_of(&[0, 1, 7, 32, 33, 128]),
            _ => self.below(129) as u8,
        }
    }
}

/// A trace, and the answers that the second model gives.
struct Held16 {
    channels: [Held; 16],
    items: Vec<String>,
    expected: Vec<String>,
}

impl Held16 {
    fn new() -> Self {
        Self {
            channels: [Held::of([0; 8]); 16],
            items: Vec::new(),
            expected: Vec::new(),
        }
    }

    fn put(&mut self, item: String, answer: String) {
        self.items.push(item);
        self.expected.push(answer);
    }

    /// An item that may give words.
    fn give(&mut self, item: String, group: u8, channel: u8, words: Option<[u32; 2]>) {
        let place = u32::from(group) << 24 | u32::from(channel) << 16;
        let answer = words.map_or("-".into(), |[first, data]| two(first + place, data));
        self.put(item, answer);
    }

    fn read(&mut self, channel: u8) {
        let bytes = self.channels[usize::from(channel)].bytes();
        let bytes: Vec<String> = bytes.map(|byte| byte.to_string()).into();
        self.put(format!("83 {channel:02X}"), bytes.join(" "));
    }

    fn set(&mut self, chance: &mut Chance, channel: u8) {
        let bytes: Vec<u8> = (0..8).map(|field| chance.field(field)).collect();
        for (field, byte) in bytes.iter().enumerate() {
            let item = format!("84 {channel:02X} {field:02X} {byte:02X}");
            self.put(item, "ok".into());
        }
        let bytes = bytes.try_into().expect("there are eight");
        self.channels[usize::from(channel)] = Held::of(bytes);
    }

    fn message(&mut self, chance: &mut Chance, channel: u8) {
        let opcode = chance.one_of(&[8, 9, 10, 11, 11, 11, 11, 11, 11, 11, 11, 12, 13, 14]);
        let held = [0, 32, 6, 6, 6, 38, 38, 96, 97, 98, 99, 100, 101, 121, 121];
        let first = match opcode {
            11 if chance.below(8) > 0 => chance.one_of(&held),
            _ => chance.seven(),
        };
        let second = match opcode {
            12 | 13 => 0,
            _ => chance.seven(),
        };
        let group = chance.below(16) as u8;
        let item = format!("81 2{group:X} {opcode:X}{channel:X} {first:02X} {second:02X}");
        let words = self.channels[usize::from(channel)].message(opcode, first, second);
        self.give(item, group, channel, words);
    }

    fn flush(&mut self, chance: &mut Chance, channel: u8) {
        let (group, more) = (chance.below(16) as u8, chance.below(16) as u8);
        let item = format!("82 {more:X}{group:X} {more:X}{channel:X}");
        let words = self.channels[usize::from(channel)].sent();
        self.give(item, group, channel, words);
    }
}

#[test]
fn the_second_model_gives_the_same() {
    for seed in 0..40 {
        let mut chance = Chance(seed);
        let mut held = Held16::new();
        for _ in 0..10_000 {
            let channel = chance.one_of(&[0, 0, 0, 9, 9, 15, 1, 4]);
            match chance.below(if seed % 2 == 0 { 38 } else { 40 }) {
                0..=30 => held.message(&mut chance, channel),
                31..=33 => held.flush(&mut chance, channel),
                34..=37 => held.read(channel),
                _ => held.set(&mut chance, channel),
            }
        }
        let answers = answers(&held.items.join("\n"));
        assert_eq!(answers.lines().count(), held.items.len());
        for (at, answer) in answers.lines().enumerate() {
            assert_eq!(
                answer, held.expected[at],
                "seed {seed}, item {at}: {}",
                held.items[at]
            );
        }
    }
}

/// The answer of the second model to items 86 to 89.
fn scaled(operation: u32, value: u32, s: u32, d: u32) -> Option<u32> {
    let (from, to) = match operation {
        0x86 => (1..d, 2..33),
        0x87 | 0x89 => (d + 1..33, 1..s),
        _ => (2..d, 3..33),
    };
    if !from.contains(&s) || !to.contains(&d) || u64::from(value) >= 2u64.pow(s) {
        return None;
    }
    Some(match operation {
        0x86 => model::widened(value, s, d),
        0x87 => model::narrowed(value, s, d),
        0x88 => model::widened_by_zeros(value, s, d),
        _ => model::narrowed_to_nearest(value, s, d),
    })
}

#[test]
fn the_second_scaling_gives_the_same() {
    let mut chance = Chance(7);
    let (mut items, mut expected) = (Vec::new(), Vec::new());
    for (s, d) in (0..36).flat_map(|s| (0..36).map(move |d| (s, d))) {
        let past = 1u64 << s.min(32);
        let centre = past / 2;
        let mut values = vec![
            0,
            1,
            centre.wrapping_sub(1),
            centre,
            centre + 1,
            past - 1,
            past,
        ];
        values.extend((0..12).map(|_| chance.below(past)));
        for value in values
            .into_iter()
            .filter_map(|value| u32::try_from(value).ok())
        {
            for operation in 0x86..=0x89 {
                items.push(format!(
                    "{operation:02X} {} {s:02X} {d:02X}",
                    hexadecimal(value)
                ));
                let answer = scaled(operation, value, s, d);
                expected.push(answer.map_or("!1".into(), |value| value.to_string()));
            }
        }
    }
    let answers = answers(&items.join("\n"));
    assert_eq!(answers.lines().count(), items.len());
    for (at, answer) in answers.lines().enumerate() {
        assert_eq!(answer, expected[at], "the answer to {}", items[at]);
    }
}

/// Four pairs of digits.
fn hexadecimal(value: u32) -> String {
    value
        .to_be_bytes()
        .map(|byte| format!("{byte:02X}"))
        .join(" ")
}
