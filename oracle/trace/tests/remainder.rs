//! Offsets with their remainders: document 02, 2026-04. The numbers are worked out by hand from
//! d × (value − 8192) = 8191 × offset + r, and not by upstream.

mod answers;

use answers::{answers, hold};

/// A bend on a channel of the receiver, without an event.
fn bend(status: u8, value: u16) -> String {
    let [low, high] = [value % 128, value / 128];
    format!("41 20 {status:02X} {low:02X} {high:02X} 00 00 00 00 00 00")
}

/// Semitones or cents of a channel of the receiver, by an event of RPN 0.
fn entry(status: u8, controller: u8, data: u8) -> String {
    let change = u8::from(controller == 38);
    format!("41 20 {status:02X} {controller:02X} {data:02X} 01 00 00 00 {change:02X} {data:02X}")
}

/// Gives the end the bytes, and then reads channels by item 09; the answers to these.
fn read_after(bytes: &str, channels: &[u8]) -> Vec<String> {
    let given = bytes.split(' ').map(|byte| format!("01 {byte}\n"));
    let read = channels.iter().map(|channel| format!("09 {channel:02X}\n"));
    let answers = answers(&given.chain(read).collect::<String>());
    let last = answers.lines().skip(bytes.split(' ').count());
    last.map(str::to_string).collect()
}

#[test]
fn one_bend() {
    hold(&[
        ("22 30 00 30 00", "240029 2461"),
        ("22 10 00 30 00", "-240029 -2461"),
        ("22 3F FF 30 00", "480000 0"),
        ("22 00 00 30 00", "-480059 3269"),
        ("22 20 01 30 00", "59 -3269"),
        ("22 1F FF 30 00", "-59 3269"),
        ("22 00 01 02 32", "-25000 0"),
        ("22 30 00 02 32", "12502 -3882"),
        ("22 30 00 28 60", "204825 25"),
        ("22 30 00 00 01", "50 50"),
        ("22 00 64 60 63", "-958177 -2993"),
        ("22 3F FE 7F 7F", "1282543 3287"),
        ("22 00 00 7F 7F", "-1282857 3287"),
    ]);
}

#[test]
fn a_bend_at_rest_and_a_range_of_nothing() {
    for sensitivity in ["00 00", "02 00", "30 00", "60 63", "7F 7F", "FF FF"] {
        hold(&[(&format!("22 20 00 {sensitivity}"), "0 0")]);
    }
    for value in ["00 00", "10 00", "3F FF", "FF FF"] {
        hold(&[
            (&format!("22 {value} 00 00"), "0 0"),
            (&format!("22 {value} 80 80"), "0 0"),
        ]);
    }
}

#[test]
fn the_largest_remainders_of_one_bend() {
    hold(&[
        ("22 3F 20 02 00", "19455 4095"),
        ("22 1F 21 02 00", "-545 4095"),
        ("22 20 DF 02 00", "545 -4095"),
        ("22 00 E0 02 00", "-19455 -4095"),
        ("22 21 4C 30 00", "19455 4095"),
        ("22 3E B3 30 00", "460545 -4095"),
        ("22 2A 94 60 63", "320655 4095"),
        ("22 35 6B 60 63", "649245 -4095"),
        ("22 2F 65 7F 7F", "617155 4095"),
        ("22 10 9B 7F 7F", "-617155 -4095"),
    ]);
}

#[test]
fn a_value_has_fourteen_bits_and_a_sensitivity_seven_and_seven() {
    hold(&[
        ("22 70 00 30 00", "240029 2461"),
        ("22 B0 00 B0 80", "240029 2461"),
        ("22 F0 00 30 80", "240029 2461"),
        ("22 40 00 7F 7F", "-1282857 3287"),
        ("22 FF FF FF FF", "1282700 0"),
        ("22 7F 20 82 80", "19455 4095"),
    ]);
}

#[test]
fn channels_of_the_receiver() {
    hold(&[
        ("40", "ok"),
        ("45 00", "-"),
        // Channels 0 to 3 and 13 to 15.
        ("42 03 02", "57359"),
        ("45 00", "0 0"),
        ("45 03", "0 0"),
        (&bend(0xE1, 12288), "1 0 0"),
        ("45 01", "240029 2461"),
        // The manager's bend counts for the manager, and is added in for each member.
        (&bend(0xE0, 12288), "1 0 1"),
        ("45 00", "10001 1809"),
        ("45 01", "250030 4270"),
        ("45 02", "10001 1809"),
        ("45 11", "250030 4270"),
        ("45 F0", "10001 1809"),
        ("45 04", "-"),
        ("45 0C", "-"),
        ("45 0F", "0 0"),
        ("45 0E", "0 0"),
        // The same below the centre, in Upper.
        (&bend(0xEF, 4096), "1 1 1"),
        (&bend(0xEE, 4096), "1 1 0"),
        ("45 0F", "-10001 -1809"),
        ("45 0E", "-250030 -4270"),
        ("45 0D", "-10001 -1809"),
        ("45 00", "10001 1809"),
    ]);
}

#[test]
fn the_largest_remainders_of_a_member() {
    hold(&[
        ("42 01 01", "49155"),
        (&bend(0xE0, 0x3F20), "1 0 1"),
        (&bend(0xE1, 0x214C), "1 0 0"),
        ("45 00", "19455 4095"),
        ("45 01", "38910 8190"),
        (&bend(0xE1, 0x3EB3), "1 0 0"),
        ("45 01", "480000 0"),
        (&bend(0xE0, 0x00E0), "1 0 1"),
        ("45 01", "441090 -8190"),
        (&bend(0xE1, 0x1EB4), "1 0 0"),
        ("45 01", "-38910 -8190"),
        // 2 semitones 50 cents of Upper's manager, 96 and 99 of its member.
        (&entry(0xBF, 38, 50), "3 1 1"),
        (&entry(0xBE, 6, 96), "3 1 0"),
        (&entry(0xBE, 38, 99), "3 1 0"),
        (&bend(0xEF, 0x33E5), "1 1 1"),
        (&bend(0xEE, 0x356B), "1 1 0"),
        ("45 0F", "15545 -4095"),
        ("45 0E", "664790 -8190"),
        (&bend(0xEF, 0x0C1B), "1 1 1"),
        (&bend(0xEE, 0x2A94), "1 1 0"),
        ("45 0E", "305110 8190"),
    ]);
}

#[test]
fn channels_of_the_end() {
    let zone = "B0 65 00 64 06 06 02";
    let channels = [0, 1, 2, 3, 15, 17];
    let read = read_after(&format!("{zone} E1 00 60"), &channels);
    assert_eq!(read, ["0 0", "240029 2461", "0 0", "-", "-", "240029 2461"]);
    // RPN 0 of the manager, 2/50, and of the members, 96/99.
    let ranges = "64 00 06 02 26 32 B1 65 00 64 00 06 60 26 63";
    let bends = "E0 65 67 E1 6B 6A E2 14 55";
    let read = read_after(&format!("{zone} {ranges} {bends}"), &channels[..4]);
    assert_eq!(read, ["15545 -4095", "664790 -8190", "336200 0", "-"]);
    assert_eq!(read_after("FF", &[0, 15]), ["-", "-"]);
}

/// A restatement brings the bends and the ranges, and so each offset and remainder.
#[test]
fn channels_of_a_restated_end() {
    let zones = "01 01 02 00 30 00 03 02 32 60 63 04";
    let rest = "20 00 00 40 ".repeat(12);
    let record = format!("{zones} 3F 20 00 40 21 4C 00 40 {rest} 35 6B 00 40 33 E5 00 40");
    let answers = answers(&format!("72 {record} 09 00 09 01 09 02 09 0D 09 0E 09 0F"));
    let expected = [
        "ok",
        "19455 4095",
        "38910 8190",
        "-",
        "-",
        "664790 -8190",
        "15545 -4095",
    ];
    assert_eq!(answers.lines().collect::<Vec<_>>(), expected);
}
