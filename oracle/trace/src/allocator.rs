//! The allocator of items 60 to 65, 67 and 68: upstream's `MpeNoteAllocator`, with the ties of document 02,
//! 2026-03, turned round in an Upper zone.
//!
//! Every call but `note_on` in an Upper zone is upstream's own on its own value, and that value
//! goes on from call to call. In an Upper zone the members that tie are found by hand, from
//! documents 01 and 02, and upstream's own call is made as well: its channel has to be the lowest
//! of them and its next value the one made by hand, or the program stops. Where one member stands
//! alone, upstream's answer and value are taken. Where several tie, the highest of them is.
//!
//! What this could hide: a member that ties and is left out by hand, where the proved library
//! leaves it out too; of the members found, upstream tests the lowest alone. A test holds the
//! choice to upstream's in a Lower zone, with the channels in the opposite order.

use std::cmp::Reverse;

use crate::allocator_fields::{get, set, Field};
use zmidi_io::mpe::{MpeLayout, MpeNoteAllocator, MpeZone};
use zmidi_ump::Channel;

/// The manager of the Upper zone; its members are the channels from 14 down.
const UPPER_MANAGER: u8 = 15;

/// A channel's last note as upstream's field has it: 0 is none.
fn last_note(note: u8) -> u32 {
    u32::from(0x80 | note & 0x7F)
}

/// Those of the channels with the smallest key, in the order given.
fn smallest<Key: Ord>(channels: Vec<u8>, key: impl Fn(u8) -> Key) -> Vec<u8> {
    let smallest = channels.iter().map(|channel| key(*channel)).min();
    let is_smallest = |channel: &u8| Some(key(*channel)) == smallest;
    channels.into_iter().filter(is_smallest).collect()
}

/// The members of the Upper zone that tie for a note, channels rising: with same-note on the free
/// ones whose last note is this one, of these the latest released; if there is none, those with the
/// smallest pair of held count and last release.
fn tied(allocator: &MpeNoteAllocator, layout: MpeLayout, note: u8) -> Vec<u8> {
    let held = |channel| get(allocator, Field::Active(channel));
    let release = |channel| get(allocator, Field::LastOff(channel));
    let had_note = |channel| get(allocator, Field::LastNote(channel)) == last_note(note);
    let members = UPPER_MANAGER - layout.members(MpeZone::Upper)..UPPER_MANAGER;
    let mut same_note: Vec<u8> = Vec::new();
    if allocator.same_note() {
        same_note.extend(members.clone().filter(|c| held(*c) == 0 && had_note(*c)));
    }
    if same_note.is_empty() {
        smallest(members.collect(), |c| (held(c), release(c)))
    } else {
        smallest(same_note, |c| Reverse(release(c)))
    }
}

/// The allocator with one note more on a channel.
fn with_note(allocator: MpeNoteAllocator, channel: u8, note: u8) -> MpeNoteAllocator {
    let mut next = allocator;
    let held = get(&next, Field::Active(channel));
    set(&mut next, Field::Active(channel), (held + 1).min(255));
    set(&mut next, Field::LastNote(channel), last_note(note));
    next
}

pub struct Allocator {
    /// Upstream's own value, for its own calls.
    pub upstream: MpeNoteAllocator,
}

impl Allocator {
    pub fn new() -> Self {
        Self {
            upstream: MpeNoteAllocator::new(),
        }
    }

    pub fn note_on(&mut self, layout: MpeLayout, zone: MpeZone, note: u8) -> Option<Channel> {
        match zone {
            MpeZone::Lower => self.upstream.note_on(layout, zone, note),
            MpeZone::Upper => self.upper_note_on(layout, note),
        }
    }

    fn upper_note_on(&mut self, layout: MpeLayout, note: u8) -> Option<Channel> {
        let before = self.upstream;
        let by_hand = |channel: Option<&u8>| match channel {
            Some(channel) => (
                Some(Channel::from_bits(*channel)),
                with_note(before, *channel, note),
            ),
            None => (None, before),
        };
        let tied = tied(&before, layout, note);
        let given = self.upstream.note_on(layout, MpeZone::Upper, note);
        assert_eq!(
            (given, self.upstream),
            by_hand(tied.first()),
            "upstream's note_on of {note} in {layout:?} is not that of the lowest of {tied:?}"
        );
        if tied.len() < 2 {
            return given;
        }
        let (highest, next) = by_hand(tied.last());
        self.upstream = next;
        highest
    }

    /// Sets the release clock.
    pub fn set_clock(&mut self, clock: u32) {
        set(&mut self.upstream, Field::Clock, clock);
    }

    /// Sets the last release of a channel.
    pub fn set_last_release(&mut self, channel: Channel, release: u32) {
        set(&mut self.upstream, Field::LastOff(channel.index()), release);
    }
}

#[cfg(test)]
mod tests {
    use super::*;
    use crate::chance::Chance;

    /// An allocator with few different numbers in its fields, so that members often tie.
    fn allocator(chance: &mut Chance) -> MpeNoteAllocator {
        let mut allocator = MpeNoteAllocator::new();
        let counts = chance.one_of(&[[0, 0, 0], [0, 0, 1], [1, 1, 2], [254, 255, 255]]);
        let releases = chance.one_of(&[[0, 0, 0], [0, 0, 1], [7, 8, 9], [0, u32::MAX, 1 << 31]]);
        for channel in 0..16 {
            let last = chance.one_of(&[0, last_note(60), last_note(60), last_note(61)]);
            let count = chance.one_of(&counts);
            set(&mut allocator, Field::Active(channel), count);
            set(&mut allocator, Field::LastNote(channel), last);
            let release = chance.one_of(&releases);
            set(&mut allocator, Field::LastOff(channel), release);
        }
        let clock = chance.one_of(&[0, 9, u32::MAX]);
        set(&mut allocator, Field::Clock, clock);
        allocator.set_same_note(chance.below(3) > 0);
        allocator
    }

    fn layout(chance: &mut Chance) -> MpeLayout {
        loop {
            let [lower, upper] = [0; 2].map(|_| chance.below(16) as u8);
            let lower = chance.one_of(&[0, lower]);
            if let Ok(layout) = MpeLayout::new(lower, upper) {
                return layout;
            }
        }
    }

    /// The allocator with the channels in the opposite order.
    fn mirrored(allocator: MpeNoteAllocator) -> MpeNoteAllocator {
        let mut mirror = allocator;
        for channel in 0..16 {
            for field in [Field::Active, Field::LastNote, Field::LastOff] {
                let number = get(&allocator, field(15 - channel));
                set(&mut mirror, field(channel), number);
            }
        }
        mirror
    }

    /// Upper's `note_on` by upstream's of the Lower zone, with the channels in the opposite order.
    fn by_mirror(
        allocator: MpeNoteAllocator,
        layout: MpeLayout,
        note: u8,
    ) -> (Option<Channel>, MpeNoteAllocator) {
        let mut mirror = mirrored(allocator);
        let [lower, upper] = [MpeZone::Lower, MpeZone::Upper].map(|zone| layout.members(zone));
        let layout = MpeLayout::new(upper, lower).expect("it is as legal");
        let channel = mirror.note_on(layout, MpeZone::Lower, note);
        let channel = channel.map(|channel| Channel::from_bits(15 - channel.index()));
        (channel, mirrored(mirror))
    }

    /// Was the member found by the same-note search?
    fn is_same_note(allocator: &MpeNoteAllocator, member: u8, note: u8) -> bool {
        allocator.same_note()
            && get(allocator, Field::Active(member)) == 0
            && get(allocator, Field::LastNote(member)) == last_note(note)
    }

    #[test]
    fn upper_is_upstreams_lower_with_the_channels_in_the_opposite_order() {
        let mut chance = Chance(202_603);
        let (mut ties, mut same_note_ties) = (0, 0);
        for _ in 0..200_000 {
            let (upstream, layout) = (allocator(&mut chance), layout(&mut chance));
            let note = chance.one_of(&[60, 60, 61, 62, 188]);
            let tied = tied(&upstream, layout, note);
            if tied.len() > 1 {
                ties += 1;
                same_note_ties += u32::from(is_same_note(&upstream, tied[0], note));
            }
            let mut turned = Allocator { upstream };
            let channel = turned.note_on(layout, MpeZone::Upper, note);
            let expected = by_mirror(upstream, layout, note);
            assert_eq!((channel, turned.upstream), expected, "{upstream:?}");
        }
        assert!(ties > 100_000 && same_note_ties > 15_000);
    }
}
