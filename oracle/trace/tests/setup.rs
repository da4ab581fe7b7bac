//! Items 90 and 91: the setup file of document 02, 2026-07.

mod answers;
#[allow(dead_code)]
#[path = "../src/chance.rs"]
mod chance;

use answers::{answers, hold};
use chance::Chance;

/// Entries of zones and channels.
const LOWER: &str = "00 07 02 00 30 00 03";
const UPPER: &str = "01 07 60 63 60 63 04";
const THIRD: &str = "03 40 00 00 41";
const LAST: &str = "0F 40 00 01 40";
/// A channel at rest.
const REST: &str = "04 40 00 00 40";

/// Bytes as pairs of digits.
fn hexadecimal(bytes: &[u8]) -> String {
    let pairs: Vec<String> = bytes.iter().map(|byte| format!("{byte:02X}")).collect();
    pairs.join(" ")
}

/// The item that reads a file.
fn read(file: &str) -> String {
    let length = file.split_whitespace().count();
    format!("90 {:02X} {:02X} {file}", length / 256, length % 256)
}

/// The item that writes a record and a label into so many bytes.
fn write(record: &str, label: &str, length: usize) -> String {
    let count = label.split_whitespace().count();
    let [high, low] = [length / 256, length % 256];
    format!("91 {record} {count:02X} {label} {high:02X} {low:02X}")
}

/// A settings record: a layout, what is set for each zone, and every channel at rest.
fn record(layout: &str, zones: [&str; 2]) -> String {
    let [lower, upper] = zones;
    format!("{layout} {lower} {upper} {}", "20 00 00 40 ".repeat(16))
}

/// A settings record without zones; nothing of these is read.
fn no_zones() -> String {
    record("00 00", ["FF FF FF FF FF"; 2])
}

/// The answer with these zones, every channel at rest, and a label.
fn at_rest(zones: &str, label: &str) -> String {
    format!("{zones}{} :{label}", " 8192 0 64".repeat(16))
}

fn hold_files(files: &[(&str, &str)]) {
    for (file, answer) in files {
        hold(&[(&read(file), answer)]);
    }
}

#[test]
fn no_zones_channels_at_rest_and_no_label() {
    let zones = "0 0 2 0 48 0 3 2 0 48 0 3";
    hold(&[
        (&read("00 00 00"), &at_rest(zones, "")),
        (&write(&no_zones(), "", 4), "3 : 0 0 0 165"),
        (&write(&no_zones(), "", 3), "3 : 0 0 0"),
        (&write(&no_zones(), "", 2), "!2 3 2 : 165 165"),
        (&write(&no_zones(), "", 0), "!2 3 0 :"),
    ]);
}

#[test]
fn zones_that_are_refused() {
    hold_files(&[
        ("", "!4"),
        ("03", "!1"),
        ("FF", "!1"),
        ("01", "!4"),
        ("01 00 00", "!4"),
        // A whole entry, and one cut short, whatever it holds.
        ("01 02 07 02 00 30 00 03", "!1"),
        ("01 02 07 02 00 30 00", "!4"),
        ("01 FF FF FF FF FF FF", "!4"),
        (&format!("02 {UPPER} {LOWER}"), "!5"),
        (&format!("02 {LOWER} {LOWER}"), "!5"),
        (&format!("02 {UPPER} {UPPER}"), "!5"),
        // Repeated and out of range; repeated and cut short.
        (&format!("02 {LOWER} 00 07 02 00 30 00 05"), "!1"),
        (&format!("02 {LOWER} 00 07 02 00 30 00"), "!4"),
        // The first faulty entry decides.
        (&format!("02 00 10 02 00 30 00 03 {LOWER}"), "!1"),
        (&format!("02 {UPPER} {LOWER} 11"), "!5"),
        (&format!("02 {LOWER}"), "!4"),
    ]);
}

#[test]
fn each_byte_of_a_zone() {
    let limits = [(0, 1), (1, 15), (0, 96), (0, 99), (0, 96), (0, 99), (3, 4)];
    for (place, (lowest, highest)) in limits.into_iter().enumerate() {
        for byte in 0..=255 {
            let mut file = [1, 0, 7, 2, 50, 48, 1, 3, 0, 0];
            file[1 + place] = byte;
            let answer = answers(&read(&hexadecimal(&file)));
            let is_taken = (lowest..=highest).contains(&byte);
            assert_eq!(answer == "!1\n", !is_taken, "byte {byte} at {place}");
            assert_eq!(answer.starts_with('!'), !is_taken);
        }
    }
}

#[test]
fn the_pair_of_zones() {
    let pair = |lower: u8, upper: u8, then: &str| {
        format!("02 00 {lower:02X} 02 00 30 00 03 01 {upper:02X} 02 00 30 00 03 {then}")
    };
    hold_files(&[
        (&pair(8, 7, ""), "!1"),
        (&pair(8, 7, "11"), "!1"),
        (&pair(8, 7, "00 00"), "!1"),
        (&pair(14, 1, ""), "!1"),
        (&pair(15, 15, "00 00"), "!1"),
        (&pair(7, 7, ""), "!4"),
        (&pair(7, 7, "11"), "!1"),
        (&pair(13, 1, "00"), "!4"),
        (
            &pair(13, 1, "00 00"),
            &at_rest("13 1 2 0 48 0 3 2 0 48 0 3", ""),
        ),
        // A zone alone may have 15, and a faulty entry goes before the pair.
        (
            "01 01 0F 02 00 30 00 04 00 00",
            &at_rest("0 15 2 0 48 0 3 2 0 48 0 4", ""),
        ),
        (&pair(16, 7, ""), "!1"),
        ("02 00 08 02 00 30 00 03 01 07 02 00 30 00", "!4"),
    ]);
}

#[test]
fn channels_that_are_refused() {
    hold_files(&[
        ("00", "!4"),
        ("00 11", "!1"),
        ("00 01", "!4"),
        (&format!("00 01 {REST}"), "!5"),
        (&format!("00 01 {REST} 00"), "!5"),
        ("00 01 04 40 00 00", "!4"),
        ("00 01 10 40 00 00 40", "!1"),
        (&format!("00 02 {THIRD} {THIRD}"), "!5"),
        (&format!("00 02 {LAST} {THIRD} 00"), "!5"),
        (&format!("00 02 {LAST} 10 40 00 00 40"), "!1"),
        (&format!("00 02 {THIRD} {REST} 00"), "!5"),
        (&format!("00 02 {THIRD} 03 80 00 00 40 00"), "!1"),
        (&format!("00 02 {THIRD} 03 80 00 00"), "!4"),
        (&format!("00 02 {THIRD}"), "!4"),
        (&format!("00 02 {THIRD} {LAST}"), "!4"),
    ]);
    let channels: Vec<&str> = ["8192 0 64"; 3]
        .into_iter()
        .chain(["8192 0 65"])
        .chain(["8192 0 64"; 11])
        .chain(["8192 1 64"])
        .collect();
    let zones = "0 0 2 0 48 0 3 2 0 48 0 3";
    let answer = format!("{zones} {} :", channels.join(" "));
    hold_files(&[(&format!("00 02 {THIRD} {LAST} 00"), &answer)]);
}

#[test]
fn each_byte_of_a_channel() {
    for (place, highest, at_rest) in [
        (0, 15, None),
        (1, 127, Some(0x40)),
        (2, 127, Some(0x00)),
        (3, 127, Some(0)),
        (4, 127, Some(64)),
    ] {
        for byte in 0..=255 {
            // The number alone leaves the channel where it is: off rest.
            let brightness = if place == 0 { 65 } else { 64 };
            let mut file = [0, 1, 9, 0x40, 0x00, 0, brightness, 0];
            file[2 + place] = byte;
            let answer = answers(&read(&hexadecimal(&file)));
            if byte > highest {
                assert_eq!(answer, "!1\n");
            } else if at_rest == Some(byte) {
                assert_eq!(answer, "!5\n");
            } else {
                assert!(!answer.starts_with('!'));
            }
        }
    }
}

#[test]
fn labels_and_the_end() {
    let zones = "0 0 2 0 48 0 3 2 0 48 0 3";
    hold_files(&[
        ("00 00", "!4"),
        ("00 00 21", "!1"),
        ("00 00 FF", "!1"),
        ("00 00 20", "!4"),
        ("00 00 02 41", "!4"),
        ("00 00 02 1F", "!4"),
        ("00 00 02 20 7E", &at_rest(zones, " 32 126")),
        ("00 00 02 20 7E 20", "!4"),
        ("00 00 00 00", "!4"),
        ("00 00 02 1F 7E", "!1"),
        ("00 00 02 20 7F", "!1"),
        // A bad label, and a byte after it.
        ("00 00 02 20 7F 20", "!1"),
        ("00 00 01 80 20", "!1"),
    ]);
}

#[test]
fn labels_that_are_written() {
    hold(&[
        (&write(&no_zones(), "20 7E", 5), "5 : 0 0 2 32 126"),
        (&write(&no_zones(), "1F 7E", 0), "!1 :"),
        (&write(&no_zones(), "20 7F", 0), "!1 :"),
        (&write(&no_zones(), "80", 0), "!1 :"),
        (&write(&no_zones(), "FF", 1), "!1 : 165"),
        (&write(&no_zones(), &"41 ".repeat(32), 0), "!2 35 0 :"),
        (&write(&no_zones(), &"41 ".repeat(33), 0), "!1 :"),
        (&write(&no_zones(), &"41 ".repeat(255), 2), "!1 : 165 165"),
    ]);
}

#[test]
fn settings_that_are_written() {
    let refused = |record: &str| answers(&write(record, "", 0)) == "!1 :\n";
    let plain = "02 00 30 00 03";
    for zone in [
        "61 00 30 00 03",
        "02 64 30 00 03",
        "02 00 61 00 03",
        "02 00 30 64 03",
        "02 00 30 00 02",
        "02 00 30 00 05",
    ] {
        assert!(refused(&record("03 00", [zone, plain])));
        assert!(refused(&record("00 03", [plain, zone])));
        // Of an empty zone nothing is read.
        assert!(!refused(&record("03 00", [plain, zone])));
        assert!(!refused(&record("00 03", [zone, plain])));
    }
    for layout in ["08 07", "0E 01", "10 00", "00 10"] {
        assert!(refused(&record(layout, [plain; 2])));
    }
    let rest = record("00 00", [plain; 2]);
    for (channel, is_refused) in [
        ("3F FF 7F 7F", false),
        ("40 00 00 40", true),
        ("20 00 80 40", true),
        ("20 00 00 80", true),
    ] {
        let moved = rest.replacen("20 00 00 40", channel, 1);
        assert_eq!(refused(&moved), is_refused);
    }
    hold(&[(
        &write(&record("02 03", ["60 63 00 01 04", plain]), "41", 19),
        "18 : 2 0 2 96 99 0 1 4 1 3 2 0 48 0 3 0 1 65 165",
    )]);
}

#[test]
fn the_largest_file() {
    let record = format!(
        "07 07 {} {}",
        "02 00 30 00 03 ".repeat(2),
        "00 00 7F 7F ".repeat(16)
    );
    let label = "7E ".repeat(32);
    let whole = answers(&write(&record, &label, 512));
    assert!(whole.starts_with("129 : 2 0 7 2 0 48 0 3 1 7 2 0 48 0 3 16 0 0 0 127 127 1 0 0 "));
    assert!(whole.contains(&format!(" 32{}{}\n", " 126".repeat(32), " 165".repeat(383))));
    let exact = answers(&write(&record, &label, 129));
    let file = bytes_of(&exact);
    assert_eq!(file.len(), 129);
    let short = answers(&write(&record, &label, 128));
    assert_eq!(short, format!("!2 129 128 :{}\n", " 165".repeat(128)));
    assert!(answers(&read(&hexadecimal(&file))).starts_with("7 7 2 0 48 0 3 2 0 48 0 3 0 127 127 "));
    assert_eq!(answers(&read(&(hexadecimal(&file) + " 00"))), "!4\n");
}

/// The bytes after the colon of an answer.
fn bytes_of(answer: &str) -> Vec<u8> {
    let (_, bytes) = answer.split_once(" :").expect("it has a colon");
    let bytes = bytes.split_whitespace();
    bytes.map(|byte| byte.parse().expect("a byte")).collect()
}

/// The record and the label that an answer to item 90 shows, as arguments of item 91.
fn shown(answer: &str) -> (String, String) {
    let (settings, _) = answer.split_once(" :").expect("settings");
    let numbers: Vec<u16> = settings
        .split(' ')
        .map(|number| number.parse().expect("a number"))
        .collect();
    assert_eq!(numbers.len(), 60);
    let mut record: Vec<u8> = numbers[..12].iter().map(|number| *number as u8).collect();
    for channel in numbers[12..].chunks(3) {
        record.extend(channel[0].to_be_bytes());
        record.extend([channel[1] as u8, channel[2] as u8]);
    }
    (hexadecimal(&record), hexadecimal(&bytes_of(answer)))
}

/// A good file by chance, made of entries.
fn good_file(chance: &mut Chance) -> Vec<u8> {
    let mut byte = |lowest: u32, highest: u32| (lowest + chance.below(highest - lowest + 1)) as u8;
    let members = match byte(0, 3) {
        0 => vec![],
        1 => vec![(0, byte(1, 15))],
        2 => vec![(1, byte(1, 15))],
        _ => {
            let lower = byte(1, 13);
            vec![(0, lower), (1, byte(1, 14 - u32::from(lower)))]
        }
    };
    let mut file = vec![members.len() as u8];
    for (zone, members) in members {
        file.extend([zone, members]);
        file.extend([byte(0, 96), byte(0, 99), byte(0, 96), byte(0, 99)]);
        file.push(byte(3, 4));
    }
    let most = byte(0, 16);
    let channels: Vec<u8> = (0..16).filter(|_| byte(1, 16) <= most).collect();
    file.push(channels.len() as u8);
    for channel in channels {
        // A bend below the middle: off rest.
        file.extend([channel, byte(0, 63), byte(0, 127)]);
        file.extend([byte(0, 127), byte(0, 127)]);
    }
    let label = byte(0, 32);
    file.push(label);
    file.extend((0..label).map(|_| byte(0x20, 0x7E)));
    file
}

#[test]
fn what_is_read_is_written_as_it_was() {
    let mut chance = Chance(1);
    for _ in 0..20_000 {
        let file = good_file(&mut chance);
        let (record, label) = shown(&answers(&read(&hexadecimal(&file))));
        let answer = answers(&write(&record, &label, file.len()));
        assert!(answer.starts_with(&format!("{} :", file.len())));
        assert_eq!(bytes_of(&answer), file);
    }
}

/// A legal record by chance, and how it is shown: an empty zone as new.
fn legal_record(chance: &mut Chance) -> (Vec<u8>, Vec<u8>) {
    let layout = chance.one_of(&[[0, 0], [15, 0], [0, 15], [7, 7], [13, 1], [1, 2], [0, 3]]);
    let (mut record, mut shown) = (layout.to_vec(), layout.to_vec());
    for members in layout {
        let mut zone: [u8; 5] = std::array::from_fn(|_| chance.below(256) as u8);
        if members == 0 {
            record.extend(zone);
            shown.extend([2, 0, 48, 0, 3]);
            continue;
        }
        for (field, limit) in [(0, 97), (1, 100), (2, 97), (3, 100)] {
            zone[field] %= limit;
        }
        zone[4] = 3 + zone[4] % 2;
        record.extend(zone);
        shown.extend(zone);
    }
    for _ in 0..16 {
        let bend = chance.one_of(&[0x2000, 0x2000, 0x2001, 0x1FFF, 0, 0x3FFF, 0x2080]) as u16;
        let [high, low] = bend.to_be_bytes();
        let channel = [
            high,
            low,
            chance.one_of(&[0, 0, 1, 127]),
            chance.one_of(&[64, 64, 0, 65]),
        ];
        record.extend(channel);
        shown.extend(channel);
    }
    (record, shown)
}

#[test]
fn what_is_written_is_read_as_it_was() {
    let mut chance = Chance(2);
    for _ in 0..20_000 {
        let (record, expected) = legal_record(&mut chance);
        let length = chance.below(33);
        let label: Vec<u8> = (0..length).map(|_| 0x20 + chance.below(95) as u8).collect();
        let label = hexadecimal(&label);
        let answer = answers(&write(&hexadecimal(&record), &label, 129));
        let (count, _) = answer.split_once(' ').expect("a count");
        let count: usize = count.parse().expect("a count");
        let buffer = bytes_of(&answer);
        assert!(buffer[count..].iter().all(|byte| *byte == 0xA5));
        let read = answers(&read(&hexadecimal(&buffer[..count])));
        assert_eq!(shown(&read), (hexadecimal(&expected), label));
    }
}

#[test]
fn what_cannot_be_read_ends_the_run() {
    let bytes = |count| "00 ".repeat(count);
    let record = no_zones();
    for (trace, expected) in [
        ("90".to_string(), "?\n"),
        ("90 00".into(), "?\n"),
        ("90 00 01".into(), "?\n"),
        ("90 00 03 00 00".into(), "?\n"),
        ("90 00 00".into(), "!4\n"),
        ("90 00 01 03 00".into(), "!1\nok\n"),
        (format!("90 02 00 {}", bytes(511)), "?\n"),
        (format!("90 02 00 {}", bytes(512)), "!4\n"),
        (format!("90 02 00 {} 00", bytes(512)), "!4\nok\n"),
        // One above the limit, and nothing after it.
        ("00 90 02 01".into(), "ok\n?\n"),
        (format!("00 90 02 01 {}", bytes(513)), "ok\n?\n"),
        ("90 FF FF".into(), "?\n"),
        ("91".into(), "?\n"),
        (format!("91 {record}"), "?\n"),
        (format!("91 {record} 00"), "?\n"),
        (format!("91 {record} 00 00"), "?\n"),
        (format!("91 {record} 02 41 00 00"), "?\n"),
        (format!("91 {record} 01 41 02 01"), "?\n"),
        (format!("91 {record} 00 FF FF"), "?\n"),
        (format!("91 {record} 01 41 00 00 00"), "!2 4 0 :\nok\n"),
        ("8F".into(), "?\n"),
        ("92".into(), "?\n"),
    ] {
        assert_eq!(answers(&trace), expected, "the answers to {trace:?}");
    }
}
