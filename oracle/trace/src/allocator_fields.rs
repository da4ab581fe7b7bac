//! The private fields of upstream's `MpeNoteAllocator`, read and set one number at a time.
//!
//! The places of the fields in memory are the compiler's to choose, so they are found by running,
//! from upstream's own derived `Debug`, which writes the fields by name: of a value that is all
//! zeros but for one byte, which is 1, it says which field is no longer 0. A byte that changes no
//! field is padding, and is never read. Each byte of each field has to be found exactly once, those
//! of a number beside each other; otherwise the program stops, as it does if the text has other
//! fields than those known here.
//!
//! What this could hide: a field taken for another, where the proved library has the same mistake.
//! The names are upstream's, and tests set each field, read it by name, and move it by calls.

use std::mem::MaybeUninit;
use std::sync::LazyLock;

use crate::debug_text::shape_and_numbers;
use zmidi_io::mpe::MpeNoteAllocator;

const CHANNELS: usize = 16;
/// Three fields a channel, the clock and the same-note option.
const FIELDS: usize = 3 * CHANNELS + 2;
/// The bytes that belong to a field; three more are padding.
const BYTES: usize = (1 + 1 + 4) * CHANNELS + 4 + 1;
const SIZE: usize = size_of::<MpeNoteAllocator>();

const _: () = assert!(SIZE == BYTES + 3);
// The lowest byte of a number stands first.
const _: () = assert!(cfg!(target_endian = "little"));

/// A field by upstream's name, with its channel.
#[derive(Clone, Copy, Debug)]
pub enum Field {
    Active(u8),
    LastNote(u8),
    LastOff(u8),
    Clock,
    SameNote,
}

impl Field {
    /// All fields, in the order of upstream's declaration.
    fn all() -> impl Iterator<Item = Self> {
        let of_channels = |field: fn(u8) -> Self| (0..CHANNELS as u8).map(field);
        let lists = [Self::Active, Self::LastNote, Self::LastOff].map(of_channels);
        lists
            .into_iter()
            .flatten()
            .chain([Self::Clock, Self::SameNote])
    }

    /// Its place among all. A channel past the last is no field.
    fn index(self) -> usize {
        if let Self::Active(channel) | Self::LastNote(channel) | Self::LastOff(channel) = self {
            assert!(
                usize::from(channel) < CHANNELS,
                "there is no channel {channel}"
            );
        }
        match self {
            Self::Active(channel) => usize::from(channel),
            Self::LastNote(channel) => CHANNELS + usize::from(channel),
            Self::LastOff(channel) => 2 * CHANNELS + usize::from(channel),
            Self::Clock => 3 * CHANNELS,
            Self::SameNote => 3 * CHANNELS + 1,
        }
    }

    /// Its bytes.
    fn width(self) -> usize {
        match self {
            Self::LastOff(_) | Self::Clock => 4,
            Self::Active(_) | Self::LastNote(_) | Self::SameNote => 1,
        }
    }

    /// The largest number that it may have; the option is 0 or 1.
    fn highest(self) -> u32 {
        match self {
            Self::LastOff(_) | Self::Clock => u32::MAX,
            Self::Active(_) | Self::LastNote(_) => 255,
            Self::SameNote => 1,
        }
    }
}

/// Where the first byte of each field stands.
static PLACES: LazyLock<[usize; FIELDS]> = LazyLock::new(places);

/// What upstream's `Debug` writes of an allocator, each number as `#` and the option as a number.
fn shape() -> String {
    let list = format!("[{}]", ["#"; CHANNELS].join(", "));
    format!(
        "MpeNoteAllocator {{ active: {list}, last_note: {list}, last_off: {list}, \
         clock: #, same_note: # }}"
    )
}

/// The fields by upstream's `Debug`, in the order of `Field::all`.
fn by_name(allocator: &MpeNoteAllocator) -> [u32; FIELDS] {
    let text = format!("{allocator:?}");
    let text = text.replace("false", "0").replace("true", "1");
    let (found, numbers) = shape_and_numbers(&text);
    assert_eq!(found, shape(), "upstream's allocator has other fields");
    numbers.try_into().expect("each # is a number")
}

/// An allocator whose bytes are 0, but for one that is 1.
fn with_one_at(place: usize) -> MpeNoteAllocator {
    let mut allocator = MaybeUninit::<MpeNoteAllocator>::zeroed();
    assert!(place < SIZE);
    // SAFETY: the place is inside the value. Every field is a u8, a u32 or a bool, and each of
    // these may have all its bytes 0, or one of them 1.
    unsafe {
        allocator.as_mut_ptr().cast::<u8>().add(place).write(1);
        allocator.assume_init()
    }
}

/// Which field the byte at a place belongs to, by its index, and the number that the field has
/// where this byte is 1; none for padding.
fn field_at(place: usize) -> Option<(usize, u32)> {
    let numbers = by_name(&with_one_at(place));
    let mut changed = (0..).zip(numbers).filter(|(_, number)| *number != 0);
    let found = changed.next();
    assert!(changed.next().is_none(), "one byte is in two fields");
    found
}

fn places() -> [usize; FIELDS] {
    assert_eq!(by_name(&MpeNoteAllocator::new()), [0; FIELDS]);
    let fields: Vec<_> = (0..SIZE).map(field_at).collect();
    assert_eq!(fields.iter().flatten().count(), BYTES, "other padding");
    let place_of = |field: Field, byte: usize| {
        let wanted = Some((field.index(), 1 << (8 * byte)));
        let place = fields.iter().position(|found| *found == wanted);
        place.expect("upstream's field has this byte")
    };
    let places: Vec<usize> = Field::all().map(|field| place_of(field, 0)).collect();
    for (field, first) in Field::all().zip(&places) {
        let bytes = (0..field.width()).map(|byte| place_of(field, byte));
        assert!(bytes.eq(*first..first + field.width()));
    }
    places.try_into().expect("each field has a place")
}

/// The number in a field; the option is 0 or 1.
pub fn get(allocator: &MpeNoteAllocator, field: Field) -> u32 {
    let bytes = std::ptr::from_ref(allocator).cast::<u8>();
    // SAFETY: so many bytes from this place on are those of the field, inside the value.
    unsafe {
        let first = bytes.add(PLACES[field.index()]);
        match field.width() {
            4 => first.cast::<u32>().read_unaligned(),
            _ => u32::from(first.read()),
        }
    }
}

/// Sets a field.
pub fn set(allocator: &mut MpeNoteAllocator, field: Field, number: u32) {
    assert!(number <= field.highest(), "{field:?} cannot be {number}");
    let bytes = std::ptr::from_mut(allocator).cast::<u8>();
    // SAFETY: as for `get`; and the field may have this number.
    unsafe {
        let first = bytes.add(PLACES[field.index()]);
        match field.width() {
            4 => first.cast::<u32>().write_unaligned(number),
            _ => first.write(number as u8),
        }
    }
}

#[cfg(test)]
mod tests {
    use super::*;
    use crate::chance::mixed;
    use zmidi_io::mpe::{MpeLayout, MpeZone};
    use zmidi_ump::Channel;

    #[test]
    fn the_fields_stand_in_the_order_of_their_indices() {
        assert!(Field::all().map(Field::index).eq(0..FIELDS));
        let bytes: usize = Field::all().map(Field::width).sum();
        assert_eq!(bytes, BYTES);
    }

    #[test]
    fn a_field_that_is_set_is_the_one_that_upstream_names() {
        let mut allocator = MpeNoteAllocator::new();
        let mut expected = [0; FIELDS];
        for round in 0..20 {
            for field in Field::all() {
                let index = field.index();
                let number = match round {
                    0 => field.highest(),
                    1 => 0,
                    _ => (mixed(round * FIELDS + index) >> 32) as u32 & field.highest(),
                };
                set(&mut allocator, field, number);
                expected[index] = number;
                assert_eq!(by_name(&allocator), expected);
                assert!(Field::all()
                    .map(|field| get(&allocator, field))
                    .eq(expected));
            }
        }
    }

    #[test]
    fn calls_move_the_fields_that_are_read() {
        let mut allocator = MpeNoteAllocator::new();
        let layout = MpeLayout::new(15, 0).expect("it is legal");
        for channel in 1..16 {
            let given = allocator.note_on(layout, MpeZone::Lower, 100 + channel);
            assert_eq!(given, Some(Channel::from_bits(channel)));
            assert_eq!(get(&allocator, Field::Active(channel)), 1);
            let note = u32::from(100 + channel);
            assert_eq!(get(&allocator, Field::LastNote(channel)), 0x80 + note);
            allocator.note_off(Channel::from_bits(channel));
            assert_eq!(get(&allocator, Field::Active(channel)), 0);
            let clock = u32::from(channel);
            assert_eq!(get(&allocator, Field::LastOff(channel)), clock);
            assert_eq!(get(&allocator, Field::Clock), clock);
        }
        allocator.set_same_note(true);
        assert_eq!(get(&allocator, Field::SameNote), 1);
        allocator.reset();
        let mut reset = [0; FIELDS];
        reset[Field::SameNote.index()] = 1;
        assert!(Field::all().map(|field| get(&allocator, field)).eq(reset));
    }

    #[test]
    fn fields_that_are_set_are_those_of_upstreams_equality() {
        let mut by_calls = MpeNoteAllocator::new();
        let layout = MpeLayout::new(0, 1).expect("it is legal");
        for note in [60, 61, 62] {
            by_calls.note_on(layout, MpeZone::Upper, note);
        }
        by_calls.note_off(Channel::from_bits(14));
        by_calls.set_same_note(true);
        let mut by_fields = MpeNoteAllocator::new();
        set(&mut by_fields, Field::Active(14), 2);
        set(&mut by_fields, Field::LastNote(14), 0x80 + 62);
        set(&mut by_fields, Field::LastOff(14), 1);
        set(&mut by_fields, Field::Clock, 1);
        assert_ne!(by_fields, by_calls);
        set(&mut by_fields, Field::SameNote, 1);
        assert_eq!(by_fields, by_calls);
    }
}
