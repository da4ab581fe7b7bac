//! The Rust: upstream's ParameterState and MpeReceiver under the reader of `oracle/`, and its
//! Midi1ToMidi2Group, with the same answers as `ours`.

use crate::end::{End, Reply};
use crate::restatement::{ChannelSettings, Settings, ZoneSettings};
use zmidi_io::mpe::{MpeEvent, MpeLayout, MpeNoteAllocator, MpeSensitivity, MpeZone};
use zmidi_ump::translate::Midi1ToMidi2Group;
use zmidi_ump::Channel;

fn zone_code(zone: MpeZone) -> u64 {
    match zone {
        MpeZone::Lower => 0,
        MpeZone::Upper => 1,
    }
}

fn part_code(zone: MpeZone, manager: bool) -> u64 {
    2 * u64::from(manager) + zone_code(zone)
}

fn event_code(event: MpeEvent) -> u64 {
    match event {
        MpeEvent::NoZone => 0,
        MpeEvent::Zone { zone, manager } => 1 + 8 * part_code(zone, manager),
        MpeEvent::Layout { reset } => 2 + 8 * u64::from(reset),
        MpeEvent::Sensitivity { zone, manager } => 3 + 8 * part_code(zone, manager),
        MpeEvent::Mode { zone } => 4 + 8 * zone_code(zone),
        MpeEvent::Ignored => 5,
    }
}

fn reply_code(reply: Reply) -> u64 {
    match reply {
        Reply::Quiet => 0,
        Reply::Dropped => 1,
        Reply::RealTime(byte) => 2 + 4 * u64::from(byte),
        Reply::Message(word, event) => 3 + 4 * event_code(event) + 0x20_0000 * u64::from(word),
    }
}

/// The byte call, as a function of its own: the counterpart of `gurfemau_byte`.
#[no_mangle]
#[inline(never)]
pub extern "C" fn rust_byte(end: &mut End, byte: u8) -> u64 {
    reply_code(end.byte(byte))
}

/// The counterpart of `gurfemau_replies`: the loop may take the byte call in.
#[no_mangle]
#[inline(never)]
pub fn rust_replies(bytes: &[u8]) -> u64 {
    let mut end = End::new();
    let add = |sum: u64, byte: &u8| sum.wrapping_add(reply_code(end.byte(*byte)));
    bytes.iter().fold(0, add)
}

/// The counterpart of `ours::replies_lent`.
pub fn replies_lent(bytes: &[u8]) -> u64 {
    let mut end = End::new();
    let add = |sum: u64, byte: &u8| sum.wrapping_add(rust_byte(&mut end, *byte));
    bytes.iter().fold(0, add)
}

/// The counterpart of `gurfemau_translations`: the loop may take the call in.
#[no_mangle]
#[inline(never)]
pub fn rust_translations(words: &[u32]) -> u64 {
    let mut translator = Midi1ToMidi2Group::new();
    let mut sum = 0u64;
    for word in words {
        let code = match translator.translate_words(*word) {
            Some([a, b]) => u64::from(b) << 32 | u64::from(a),
            None => 0,
        };
        sum = sum.wrapping_add(code);
    }
    sum
}

#[inline(never)]
pub fn offsets(bytes: &[u8], channels: &[u8]) -> u64 {
    let mut end = End::new();
    for byte in bytes {
        end.byte(*byte);
    }
    let magnitude = |channel: &u8| {
        let offset = end.receiver.pitch_offset(Channel::from_bits(*channel));
        u64::from(offset.map_or(0, i32::unsigned_abs))
    };
    channels.iter().map(magnitude).fold(0, u64::wrapping_add)
}

/// A byte below 80 starts a note in a zone of fifteen members, any other ends one.
#[no_mangle]
#[inline(never)]
pub fn rust_notes(notes: &[u8]) -> u64 {
    let mut allocator = MpeNoteAllocator::new();
    let layout = MpeLayout::new(15, 0).expect("it is legal");
    let mut sum = 0u64;
    for byte in notes {
        if *byte < 0x80 {
            let channel = allocator.note_on(layout, MpeZone::Lower, *byte);
            sum = sum.wrapping_add(channel.map_or(0, |channel| u64::from(channel.index())));
        } else {
            allocator.note_off(Channel::from_bits(*byte));
        }
    }
    sum
}

/// Two zones of seven with this bend on every channel.
fn bent(bend: u16) -> Settings {
    let zone = || ZoneSettings {
        manager: MpeSensitivity::MANAGER_DEFAULT,
        member: MpeSensitivity::MEMBER_DEFAULT,
        mode: 3,
    };
    let channel = |_| ChannelSettings {
        bend,
        pressure: 0,
        brightness: 64,
    };
    Settings {
        lower: 7,
        upper: 7,
        zones: [zone(), zone()],
        channels: std::array::from_fn(channel),
    }
}

/// The restatement of `oracle/`, which is ours and no part of upstream, by upstream's messages.
#[inline(never)]
pub fn restatements(bends: &[u16]) -> u64 {
    let mut sum = 0u64;
    for bend in bends {
        let bytes = bent(*bend).bytes().unwrap_or_default();
        sum = sum.wrapping_add(bytes.iter().map(|b| u64::from(*b)).sum());
    }
    sum
}
