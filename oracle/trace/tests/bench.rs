//! The bench examples of document 01, the cents of document 02, 2026-01, its port-select bytes,
//! 2026-06, and the form of the input.

mod answers;

use answers::{answers, hold};

/// Items that give the end each byte.
fn bytes(bytes: &str) -> String {
    bytes
        .split(' ')
        .map(|byte| format!("01 {byte}\n"))
        .collect()
}

/// A settings record: a layout, what is set for each zone, and every channel at rest.
fn record(layout: &str, zones: [&str; 2]) -> String {
    let [lower, upper] = zones;
    format!("{layout} {lower} {upper} {}", "20 00 00 40 ".repeat(16))
}

/// A settings record with both zones 2/0, 48/0, mode 3.
fn settings(layout: &str) -> String {
    record(layout, ["02 00 30 00 03"; 2])
}

#[test]
fn layouts() {
    hold(&[
        ("10 0D 01", "13 1"),
        ("10 0F 00", "15 0"),
        ("10 07 07", "7 7"),
        ("10 08 07", "!1"),
        ("10 0E 01", "!1"),
        ("10 10 00", "!1"),
        ("11 07 07 00 0A", "10 4"),
        ("11 07 07 00 0E", "14 0"),
        ("11 07 07 01 00", "7 0"),
        ("11 07 07 00 10", "7 7"),
        ("12 0F 00 0F", "2 0"),
        ("13 00 03 00", "!3"),
        ("13 00 03 01", "12"),
    ]);
}

#[test]
fn pitch() {
    hold(&[
        ("20 00 00 27 10 02 00", "12288"),
        ("20 00 00 4E 1F 02 00", "16383"),
        ("20 FF FF B1 E1 02 00", "0"),
        ("21 00 00 30 00", "-480059"),
        ("21 3F FF 30 00", "480000"),
        ("21 30 00 30 00", "240029"),
        ("20 00 00 00 19 28 60", "8193"),
        ("20 FF FF FF E7 28 60", "8191"),
        ("20 80 00 00 00 02 00", "0"),
        ("20 80 00 00 00 00 00", "8192"),
    ]);
}

#[test]
fn steps_of_rpn_0() {
    // 2/98 up, 2/110 up, 3/0 down, 2/110 down.
    hold(&[
        ("30 00 00 00 02 00 01 62", "355"),
        ("30 00 00 00 02 00 01 6E", "384"),
        ("30 00 00 00 03 00 01 80", "355"),
        ("30 00 00 00 03 00 01 6E", "365"),
    ]);
}

#[test]
fn senders() {
    let before = " 804224895".repeat(15);
    hold(&[
        ("55 00 3C 00 20 00 40 00", "!1"),
        (
            "55 00 3C 01 20 00 40 00",
            "551551040 548424256 550502400 546323457",
        ),
        ("53 03 00 00 02 00 30 00 0F", &format!("!2 16 15 :{before}")),
        ("53 03 00 01 02 00 30 00 0F", &format!("!1 :{before}")),
        ("53 03 00 01 02 00 30 00 00", "!1 :"),
        ("50 14 01 01 00", "1"),
        ("50 15 01 01 00", "!1"),
        ("61 00 00 00 3C", "!3"),
        ("61 00 10 01 3C", "!1"),
    ]);
}

/// The words of a group on a channel.
fn group(channel: u32, semitones: u32, cents: u32) -> String {
    let data = [0x6500, 0x6400, 0x0600 + semitones, 0x2600 + cents];
    let words = data.map(|data| (0x20B0_0000 + (channel << 16) + data).to_string());
    words.join(" ")
}

#[test]
fn sensitivities_with_cents() {
    hold(&[
        ("52 00 02 32", &group(0, 2, 50)),
        ("52 1F 00 00", &group(15, 0, 0)),
        ("52 09 60 63", &group(9, 96, 99)),
        ("52 09 61 00", "!1"),
        ("52 09 60 64", "!1"),
        ("52 09 00 7F", "!1"),
        ("52 09 00 80", "!1"),
        ("52 09 00 FF", "!1"),
        (
            "53 00 02 01 02 01 60 63 0D",
            &format!(
                "12 : {} {} {} 804224895",
                group(15, 2, 1),
                group(13, 96, 99),
                group(14, 96, 99)
            ),
        ),
        ("53 00 02 01 02 64 60 63 00", "!1 :"),
        ("53 00 02 01 02 01 60 64 00", "!1 :"),
        ("53 00 02 01 02 01 60 63 00", "!2 12 0 :"),
    ]);
    let whole = answers("53 0F 00 00 60 63 60 63 40");
    assert!(whole.starts_with("64 : "));
    assert!(whole.ends_with(&(group(15, 96, 99) + "\n")));
}

#[test]
fn cents_in_settings() {
    let refused = |layout: &str, zones: [&str; 2]| {
        let answer = answers(&format!("70 {} 00 00", record(layout, zones)));
        answer == "!1 :\n"
    };
    let plain = "02 00 30 00 03";
    for (zone, is_refused) in [
        ("60 63 60 63 03", false),
        ("02 64 30 00 03", true),
        ("02 00 30 64 03", true),
        ("02 FF 30 FF 03", true),
    ] {
        assert_eq!(refused("03 00", [zone, plain]), is_refused);
        assert_eq!(refused("00 03", [plain, zone]), is_refused);
        assert_eq!(refused("03 04", [plain, zone]), is_refused);
        // Of an empty zone nothing is read.
        assert!(!refused("03 00", [plain, zone]));
        assert!(!refused("00 03", [zone, plain]));
        assert!(!refused("00 00", [zone, zone]));
    }
}

#[test]
fn restatement_sizes() {
    for (layout, messages, length) in [
        ("00 00", 108, 308),
        ("07 07", 174, 506),
        ("0F 00", 173, 503),
    ] {
        let record = settings(layout);
        let as_bytes = answers(&format!("70 {record} 04 00"));
        let as_words = answers(&format!("71 {record} 01 00"));
        assert!(as_bytes.starts_with(&format!("{length} : 176 121 0 ")));
        assert!(as_words.starts_with(&format!("{messages} : ")));
        let short = answers(&format!("70 {record} 00 01"));
        assert_eq!(short, format!("!2 {length} 1 : 165\n"));
        assert_eq!(answers(&format!("70 {record} 04 01")), "?\n");
        assert_eq!(answers(&format!("71 {record} 01 01")), "?\n");
    }
}

#[test]
fn a_restatement_is_shown() {
    let played = bytes("B0 65 00 64 06 06 05 E0 01 02 D3 07 B1 4A 11 63 05");
    let zones = "03 02 05 32 07 63 04 60 00 00 01 03 ".to_string();
    let record = zones + &"12 34 05 06 ".repeat(16);
    let answers = answers(&format!("{played} 72 {record} 06 07 09"));
    let last: Vec<&str> = answers.lines().rev().take(3).collect();
    assert_eq!(last[2], "ok");
    assert_eq!(last[1], "3 2 5 50 7 99 4 96 0 0 1 3");
    assert_eq!(last[0], "4660 5 6 - 1 0 -");
}

#[test]
fn the_offsets_example() {
    let read: String = (0..16)
        .map(|channel| format!("07 {channel:02X}\n"))
        .collect();
    let answers = answers(&(bytes("B0 65 00 64 06 06 02 E1 00 60") + &read));
    let offsets: Vec<&str> = answers
        .lines()
        .skip(10)
        .map(|line| line.split(' ').nth(3).expect("a channel has an offset"))
        .collect();
    assert_eq!(offsets[..3], ["0", "240029", "0"]);
    assert_eq!(offsets[3..], ["-"; 13]);
}

#[test]
fn bytes_of_every_class() {
    let all: String = (0..=255)
        .map(|byte| format!("00 01 90 01 3C 01 {byte:02X}\n"))
        .collect();
    let answers = answers(&all);
    let replies: Vec<&str> = answers.lines().skip(3).step_by(4).collect();
    assert_eq!(replies[0x40], "3 546323520 0");
    assert_eq!((replies[0x80], replies[0xEF]), ("0", "0"));
    for byte in [0xF0, 0xF1, 0xF2, 0xF3, 0xF4, 0xF5, 0xF6, 0xF7, 0xF9, 0xFD] {
        assert_eq!(replies[byte], "1");
    }
    for byte in [0xF8, 0xFA, 0xFB, 0xFC, 0xFE, 0xFF] {
        assert_eq!(replies[byte], format!("2 {byte}"));
    }
}

#[test]
fn port_select_ends_running_status() {
    for port_select in ["F4", "F5"] {
        let replies = |given: &str| answers(&bytes(&given.replace("PP", port_select)));
        let note = "3 546323520 0";
        assert_eq!(
            replies("90 3C 40 PP 01 02"),
            format!("0\n0\n{note}\n1\n1\n1\n")
        );
        assert_eq!(replies("90 3C PP 40 40"), "0\n0\n1\n1\n1\n");
        assert_eq!(replies("90 PP 90 3C 40"), format!("0\n1\n0\n0\n{note}\n"));
    }
    for kept in ["F9", "FD"] {
        let replies = answers(&bytes(&format!("90 3C {kept} 40")));
        assert_eq!(replies, "0\n0\n1\n3 546323520 0\n");
    }
}

#[test]
fn words_need_the_word_form() {
    hold(&[
        ("35 20 B0 65 00", "-"),
        ("35 2F B0 64 00", "-"),
        ("39", "1 0 R 0 0"),
        ("35 20 B0 E5 00", "!1"),
        ("35 20 B0 65 80", "!1"),
        ("35 10 B0 65 00", "!1"),
        ("35 20 70 65 00", "!1"),
        ("35 20 F0 65 00", "!1"),
        ("35 20 C0 65 01", "!1"),
        ("35 20 C0 65 00", "-"),
        ("41 20 D0 65 01 00 00 00 00 00 00", "!1"),
    ]);
}

#[test]
fn groups_and_channels() {
    for [by_value, by_number] in [["00", "01"], ["02", "03"]] {
        hold(&[
            (&format!("16 {by_value} 00"), "0"),
            (&format!("16 {by_value} 0F"), "15"),
            (&format!("16 {by_value} 10"), "!1"),
            (&format!("16 {by_value} FF"), "!1"),
            (&format!("16 {by_number} 00"), "!1"),
            (&format!("16 {by_number} 01"), "0"),
            (&format!("16 {by_number} 10"), "15"),
            (&format!("16 {by_number} 11"), "!1"),
            (&format!("16 {by_number} FF"), "!1"),
        ]);
    }
    hold(&[("16 04 00", "!1"), ("16 FF 01", "!1")]);
}

#[test]
fn constructors() {
    // 0x2FBF_4A7F, 0x2091_3C00, 0x20D0_7F00, 0x20E0_0040, 0x20E0_7F7F.
    hold(&[
        ("17 00 0F 0F 4A 7F 00 00", "801065599"),
        ("17 00 1F 2F 4A 7F FF FF", "801065599"),
        ("17 00 00 00 80 00 00 00", "!1"),
        ("17 00 00 00 00 80 00 00", "!1"),
        ("17 01 00 01 3C 00 00 00", "546388992"),
        ("17 01 00 01 80 00 00 00", "!1"),
        ("17 01 00 01 00 80 00 00", "!1"),
        ("17 02 00 00 7F FF FF FF", "550534912"),
        ("17 02 00 00 80 00 00 00", "!1"),
        ("17 03 00 00 FF FF 20 00", "551551040"),
        ("17 03 00 00 00 00 3F FF", "551583615"),
        ("17 03 00 00 00 00 40 00", "!1"),
        ("17 04 00 00 00 00 00 00", "!1"),
        ("17 FF 00 00 00 00 00 00", "!1"),
    ]);
}

#[test]
fn fields_of_words() {
    hold(&[
        ("18 20 80 00 00", "1 2 0 8 0 0 0"),
        ("18 2F 9F 7F 7F", "1 2 15 9 15 127 127"),
        ("18 25 A1 3C 40", "1 2 5 10 1 60 64"),
        ("18 20 B2 4A 01", "1 2 0 11 2 74 1"),
        ("18 20 C3 05 00", "1 2 0 12 3 5 0"),
        ("18 20 D4 7F 00", "1 2 0 13 4 127 0"),
        ("18 20 E5 01 40", "1 2 0 14 5 1 64"),
        ("18 20 C3 05 01", "0"),
        ("18 20 D4 7F 80", "0"),
        ("18 20 B2 CA 01", "0"),
        ("18 20 B2 4A 81", "0"),
        ("18 10 B2 4A 01", "0"),
        ("18 30 B2 4A 01", "0"),
        ("18 20 72 4A 01", "0"),
        ("18 20 F2 4A 01", "0"),
    ]);
}

#[test]
fn the_three_byte_calls_answer_alike() {
    // One of them gives each byte, in turn, to the same end.
    let bytes = "B0 65 00 64 06 06 02 E1 F8 00 60 F7 00 C3 05 06 90 3C 00";
    let calls = |calls: [&str; 3]| -> String {
        let calls = calls.into_iter().cycle();
        let items = bytes.split(' ').zip(calls);
        items
            .map(|(byte, call)| format!("{call} {byte}\n"))
            .collect()
    };
    let by_value = answers(&calls(["01", "01", "01"]));
    for turn in [
        ["08", "08", "08"],
        ["01", "02", "08"],
        ["08", "01", "02"],
        ["02", "08", "01"],
    ] {
        assert_eq!(answers(&calls(turn)), by_value);
    }
}

#[test]
fn what_cannot_be_read_ends_the_run() {
    for (trace, expected) in [
        ("", ""),
        ("# a comment", ""),
        ("00#\n60#\r64 ", "ok\nok\nok\n"),
        ("00 0", "ok\n?\n"),
        ("00 0 00", "ok\n?\n"),
        ("00 3a", "ok\n?\n"),
        ("01\t", "?\n"),
        ("01 9", "?\n"),
        ("01", "?\n"),
        ("08", "?\n"),
        ("16 00", "?\n"),
        ("17 00 00 00 00 00 00", "?\n"),
        ("18 20 B0 00", "?\n"),
        ("19 00", "?\n"),
        ("22 30 00 30", "?\n"),
        ("23 30 00 30 00", "?\n"),
        ("45", "?\n"),
        ("46 00", "?\n"),
        ("00 09", "ok\n?\n"),
        ("53 03 00 00 02 00 30 00", "?\n"),
        ("53 03 00 00 02 00 30 00 51", "?\n"),
        ("52 00 02", "?\n"),
        ("66", "?\n"),
        ("67 00 00 00", "?\n"),
        ("67 00 00 00 00", "ok\n"),
        ("68 00 00 00 00", "?\n"),
        ("68 00 00 00 00 00", "ok\n"),
        ("69", "?\n"),
        ("00 0A 00", "ok\n?\n"),
    ] {
        assert_eq!(answers(trace), expected, "the answers to {trace:?}");
    }
}
