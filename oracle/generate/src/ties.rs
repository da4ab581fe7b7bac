//! The table of the allocator's ties: the members of a small zone with each of a few counts, last
//! notes and releases, and two notes.

use crate::allocator::set_release;
use crate::items::Items;

/// The note that is played at last, and another.
const NOTE: u8 = 60;
const OTHER: u8 = 61;

/// The last note of a member, and whether it is held. A held note is the last one.
const SOUNDED: [(Option<u8>, bool); 5] = [
    (None, false),
    (Some(NOTE), false),
    (Some(OTHER), false),
    (Some(NOTE), true),
    (Some(OTHER), true),
];

const RELEASES: [u32; 3] = [0, 1, u32::MAX];

/// A member before the two notes.
#[derive(Clone, Copy)]
struct Member {
    channel: u8,
    last: Option<u8>,
    held: bool,
    release: u32,
}

/// A layout, and the zone that is played.
struct Played {
    layout: [u8; 2],
    zone: u8,
}

impl Played {
    fn note_on(&self, items: &mut Items, note: u8) {
        let [lower, upper] = self.layout;
        items.put(&[0x61, lower, upper, self.zone, note]);
    }

    /// Gives each member, free in a new allocator, its last note. The note goes to it since no
    /// other free member has the release 0; a held one has a larger count.
    fn sound(&self, items: &mut Items, members: &[Member]) {
        for member in members {
            set_release(items, member.channel, 1);
        }
        let (held, free): (Vec<&Member>, Vec<&Member>) = members.iter().partition(|m| m.held);
        for member in free.into_iter().chain(held) {
            let Some(note) = member.last else { continue };
            set_release(items, member.channel, 0);
            self.note_on(items, note);
            if !member.held {
                items.put(&[0x62, member.channel]);
            }
        }
    }

    /// Both notes, the counts after each.
    fn case(&self, items: &mut Items, members: &[Member], same_note: u8) {
        items.put(&[0x60]);
        self.sound(items, members);
        for member in members {
            set_release(items, member.channel, member.release);
        }
        items.put(&[0x63, same_note]);
        for _ in 0..2 {
            self.note_on(items, NOTE);
            items.put(&[0x65]);
        }
    }

    /// Every case of this many members; those named already have their states.
    fn cases(&self, items: &mut Items, members: &mut Vec<Member>, channels: &[u8]) {
        let Some((&channel, others)) = channels.split_first() else {
            self.case(items, members, 0);
            self.case(items, members, 1);
            return;
        };
        for (last, held) in SOUNDED {
            for release in RELEASES {
                members.push(Member {
                    channel,
                    last,
                    held,
                    release,
                });
                self.cases(items, members, others);
                members.pop();
            }
        }
    }
}

/// Items 60 to 65 and 68: zones of one to three members, Lower and Upper, alone and beside another zone;
/// each last note, held or free, and release of each member; same-note off and on.
pub fn table(items: &mut Items) {
    for count in 1..=3 {
        for other in [0, 2] {
            let lower: Vec<u8> = (1..=count).collect();
            let upper: Vec<u8> = (15 - count..15).collect();
            for (layout, zone, channels) in [([count, other], 0, lower), ([other, count], 1, upper)]
            {
                Played { layout, zone }.cases(items, &mut Vec::new(), &channels);
            }
        }
    }
}
