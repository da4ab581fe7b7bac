//! Items 60 to 68: the ties of document 02, 2026-03, in both searches and both zones, and the
//! release clock.

mod answers;

use answers::hold;

#[test]
fn lower_fills_from_the_lowest_and_upper_from_the_highest() {
    hold(&[
        ("61 03 00 00 3C", "1"),
        ("61 03 00 00 3D", "2"),
        ("61 03 00 00 3E", "3"),
        ("61 03 00 00 3F", "1"),
        ("60", "ok"),
        ("61 00 03 01 3C", "14"),
        ("61 00 03 01 3D", "13"),
        ("61 00 03 01 3E", "12"),
        ("61 00 03 01 3F", "14"),
        ("65", "0 0 0 0 0 0 0 0 0 0 0 0 1 1 2 0 0"),
        // All channels but the manager's own, and with the other zone there.
        ("60", "ok"),
        ("61 00 0F FF 3C", "14"),
        ("61 00 0F FF 3C", "13"),
        ("61 0C 02 01 3C", "14"),
        ("61 0C 02 01 3C", "13"),
        ("61 0C 02 00 3C", "1"),
        ("61 0C 02 00 3C", "2"),
    ]);
}

#[test]
fn a_tie_of_the_same_note_search() {
    // The same note on three members, let go; then the same release on two, a latest one and none.
    for (play, off, tied, latest, other) in [
        ("61 03 00 00", ["62 01", "62 02", "62 03"], "1", "2", "3"),
        ("61 00 03 01", ["62 0E", "62 0D", "62 0C"], "14", "13", "12"),
    ] {
        let [note, another] = ["3C", "3D"].map(|note| format!("{play} {note}"));
        let release = |channel: &str, release: &str| {
            let channel: u8 = channel.parse().expect("it is a number");
            format!("68 {channel:02X} {release}")
        };
        hold(&[
            (&note, tied),
            (&note, latest),
            (&note, other),
            (off[0], "ok"),
            (off[1], "ok"),
            (off[2], "ok"),
            ("63 01", "ok"),
            // No tie: the latest release, which is the other one's.
            (&note, other),
            (off[2], "ok"),
            // Equal releases, larger than the other's.
            (&release(tied, "FF FF FF FF"), "ok"),
            (&release(latest, "FF FF FF FF"), "ok"),
            (&note, tied),
            (&note, latest),
            (&note, other),
            (off[0], "ok"),
            (off[1], "ok"),
            (off[2], "ok"),
            // A latest release goes before the tie of two others.
            (&release(tied, "00 00 00 05"), "ok"),
            (&release(latest, "00 00 00 06"), "ok"),
            (&release(other, "00 00 00 05"), "ok"),
            (&note, latest),
            // The other search: the smallest pair, and the tie of two.
            (&another, tied),
            (&another, other),
        ]);
    }
}

#[test]
fn a_tie_does_not_go_before_a_smaller_pair() {
    hold(&[
        // A smaller count on the lower channel, then an older release there.
        ("61 00 02 01 3C", "14"),
        ("61 00 02 01 3C", "13"),
        ("62 0D", "ok"),
        ("61 00 02 01 3C", "13"),
        ("62 0E", "ok"),
        ("62 0D", "ok"),
        ("68 0D 00 00 00 06", "ok"),
        ("68 0E 00 00 00 07", "ok"),
        ("61 00 02 01 3C", "13"),
        ("61 00 02 01 3C", "14"),
        // A lone member; then a smaller count beside it, and with equal counts the older release.
        ("60", "ok"),
        ("61 00 01 01 3C", "14"),
        ("61 00 01 01 3C", "14"),
        ("61 00 02 01 3C", "13"),
        ("61 00 02 01 3C", "13"),
        ("68 0E 00 00 00 01", "ok"),
        ("61 00 02 01 3C", "13"),
    ]);
}

#[test]
fn counts_of_255_tie_and_stay() {
    let mut items = vec![("61 00 02 01 3C", "14"), ("61 00 02 01 3C", "13")];
    items = items.repeat(255);
    items.extend([
        ("65", "0 0 0 0 0 0 0 0 0 0 0 0 0 255 255 0 0"),
        ("61 00 02 01 3C", "14"),
        ("61 00 02 01 3C", "14"),
        ("65", "0 0 0 0 0 0 0 0 0 0 0 0 0 255 255 0 0"),
        ("62 0D", "ok"),
        ("61 00 02 01 3C", "13"),
        ("68 0D 00 00 00 00", "ok"),
        ("61 00 02 01 3C", "14"),
    ]);
    hold(&items);
}

#[test]
fn the_clock_steps_to_0() {
    hold(&[
        // The release at 0 is the oldest, in both zones.
        ("67 FF FF FF FE", "ok"),
        ("61 02 03 00 3C", "1"),
        ("61 02 03 00 3C", "2"),
        ("61 02 03 01 3C", "14"),
        ("61 02 03 01 3C", "13"),
        ("61 02 03 01 3C", "12"),
        ("62 01", "ok"), // at 4,294,967,295
        ("62 02", "ok"), // at 0
        ("61 02 03 00 3C", "2"),
        ("61 02 03 00 3C", "1"),
        ("67 FF FF FF FE", "ok"),
        ("62 0E", "ok"),
        ("62 0D", "ok"),
        ("62 0C", "ok"), // at 1
        ("61 02 03 01 3C", "13"),
        ("61 02 03 01 3C", "12"),
        ("61 02 03 01 3C", "14"),
        // A release at 0 ties with none.
        ("60", "ok"),
        ("67 FF FF FF FF", "ok"),
        ("61 00 02 01 3C", "14"),
        ("62 0E", "ok"),
        ("61 00 02 01 3C", "14"),
        ("60", "ok"),
        ("61 00 02 01 3C", "14"),
        ("62 0E", "ok"),
        ("61 00 02 01 3C", "13"),
        // A note off that meets no note leaves the clock.
        ("60", "ok"),
        ("67 FF FF FF FE", "ok"),
        ("62 0E", "ok"),
        ("61 02 00 00 3C", "1"),
        ("61 02 00 00 3C", "2"),
        ("62 02", "ok"), // at 4,294,967,295
        ("62 01", "ok"), // at 0
        ("61 02 00 00 3C", "1"),
    ]);
}

#[test]
fn what_is_set_goes_with_a_reset() {
    hold(&[
        ("68 0E 00 00 00 01", "ok"),
        ("61 00 02 01 3C", "13"),
        ("64", "ok"),
        ("61 00 02 01 3C", "14"),
        ("60", "ok"),
        // A channel is taken modulo 16.
        ("68 FE 00 00 00 01", "ok"),
        ("61 00 02 01 3C", "13"),
        ("64", "ok"),
        ("67 FF FF FF FF", "ok"),
        ("64", "ok"),
        ("61 00 01 01 3C", "14"),
        ("62 0E", "ok"), // at 1
        ("61 00 02 01 3C", "13"),
    ]);
}

#[test]
fn refusals_leave_the_allocator() {
    hold(&[
        ("61 00 02 01 3C", "14"),
        ("61 02 00 01 3C", "!3"),
        ("61 00 10 01 3C", "!1"),
        ("61 08 07 01 3C", "!1"),
        ("65", "0 0 0 0 0 0 0 0 0 0 0 0 0 0 1 0 0"),
        ("61 00 02 01 3C", "13"),
    ]);
}
