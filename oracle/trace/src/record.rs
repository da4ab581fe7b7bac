//! The record of items 80 to 84: upstream's `Midi1ToMidi2Group`, with the refusals of document 02,
//! 2026-02, before its calls.
//!
//! Upstream's fields are private. Its calls work on its own value, unchanged. One field of it is
//! read and set by a stand-in of ours: the value is turned into its 128 bytes and back. The places
//! of the fields among these bytes are the compiler's to choose, so they are found by running, from
//! upstream's own derived `Debug`, which writes the fields by name.
//!
//! What this could hide: a field taken for another, where the proved library has the same mistake;
//! tests here and in `tests/translation.rs` move each field by messages. A record that is set holds
//! what no call of upstream need give together, so of such records upstream promises nothing.

use std::sync::LazyLock;

use crate::answer::Refusal;
use crate::debug_text::shape_and_numbers;
use zmidi_ump::translate::Midi1ToMidi2Group;
use zmidi_ump::{Channel, Group};

const CHANNELS: usize = 16;
/// The bytes of a channel: rpn two, nrpn two, data_msb, bank two, flags.
const FIELDS: usize = 8;
const FLAGS: usize = 7;
const SIZE: usize = CHANNELS * FIELDS;

// As many bytes as fields: none is padding.
const _: () = assert!(size_of::<Midi1ToMidi2Group>() == SIZE);

/// What upstream's `Debug` writes of a channel after its type's name, each number as `#`.
const SHAPE: &str = " { rpn: [Held(#), Held(#)], nrpn: [Held(#), Held(#)], \
    data_msb: Held(#), bank: [Held(#), Held(#)], flags: # }";

type Channels<T> = [[T; FIELDS]; CHANNELS];

/// Where each field stands among the bytes.
static PLACES: LazyLock<Channels<usize>> = LazyLock::new(places);

fn into_bytes(translator: Midi1ToMidi2Group) -> [u8; SIZE] {
    // SAFETY: the sizes are equal, and every byte belongs to a field.
    unsafe { std::mem::transmute(translator) }
}

fn from_bytes(bytes: [u8; SIZE]) -> Midi1ToMidi2Group {
    // SAFETY: the sizes are equal, and every field is a u8, which may have any value.
    unsafe { std::mem::transmute(bytes) }
}

/// The numbers of one channel in upstream's text of it, which must have the shape known here.
fn numbers_of(text: &str) -> [u8; FIELDS] {
    let text = &text[..=text.find('}').expect("a channel's text ends")];
    let (shape, numbers) = shape_and_numbers(text);
    assert_eq!(shape, SHAPE, "upstream's channel has other fields");
    let numbers: [u32; FIELDS] = numbers.try_into().expect("a channel has eight bytes");
    numbers.map(|number| u8::try_from(number).expect("a byte"))
}

/// The fields by upstream's `Debug`.
fn by_name(translator: &Midi1ToMidi2Group) -> Channels<u8> {
    let text = format!("{translator:?}");
    let channels: Vec<_> = text.split("ChannelState").skip(1).map(numbers_of).collect();
    channels.try_into().expect("a translator has 16 channels")
}

/// The places: where byte i has the value i, a field's value is its place.
fn places() -> Channels<usize> {
    let counted = std::array::from_fn(|place| place as u8);
    let places = by_name(&from_bytes(counted)).map(|channel| channel.map(usize::from));
    let mut all = places.concat();
    all.sort_unstable();
    assert!(all.into_iter().eq(0..SIZE), "two fields have one place");
    places
}

/// Is it a value that some list of messages gives the field?
fn is_given(field: usize, value: u8) -> bool {
    match field {
        FLAGS => matches!(value, 0 | 1 | 2 | 4 | 5 | 6 | 12 | 13 | 14),
        _ => value <= 128,
    }
}

pub struct Record {
    translator: Midi1ToMidi2Group,
}

impl Record {
    pub fn new() -> Self {
        Self {
            translator: Midi1ToMidi2Group::new(),
        }
    }

    /// The eight bytes of a channel.
    pub fn channel(&self, channel: Channel) -> [u8; FIELDS] {
        let bytes = into_bytes(self.translator);
        PLACES[usize::from(channel.index())].map(|place| bytes[place])
    }

    /// Sets one of the eight bytes of a channel.
    pub fn set(&mut self, channel: Channel, field: u8, value: u8) -> Result<(), Refusal> {
        let places = &PLACES[usize::from(channel.index())];
        let place = places.get(usize::from(field)).ok_or(Refusal::OutOfRange)?;
        let mut bytes = into_bytes(self.translator);
        bytes[*place] = value;
        self.translator = from_bytes(bytes);
        Ok(())
    }

    /// Every field of every channel has a value that some list of messages gives it; upstream is
    /// not called with another.
    fn allowed(&mut self) -> Result<&mut Midi1ToMidi2Group, Refusal> {
        let bytes = into_bytes(self.translator);
        let given = |channel: &[usize; FIELDS]| {
            let mut fields = channel.iter().enumerate();
            fields.all(|(field, place)| is_given(field, bytes[*place]))
        };
        if PLACES.iter().all(given) {
            Ok(&mut self.translator)
        } else {
            Err(Refusal::OutOfRange)
        }
    }

    /// Upstream's `translate_words`.
    pub fn translate(&mut self, word: u32) -> Result<Option<[u32; 2]>, Refusal> {
        Ok(self.allowed()?.translate_words(word))
    }

    /// Upstream's `flush`, and the words of what it gives.
    pub fn flush(&mut self, group: Group, channel: Channel) -> Result<Option<[u32; 2]>, Refusal> {
        let message = self.allowed()?.flush(group, channel);
        Ok(message.map(|message| message.two_words().expect("it is of MIDI 2.0")))
    }
}

#[cfg(test)]
mod tests {
    use super::*;
    use zmidi_ump::ump::Ump;
    use zmidi_ump::Midi1ChannelVoiceMessage;

    use crate::chance::mixed;

    /// Numbers that look random.
    fn byte(n: usize) -> u8 {
        (mixed(n) >> 56) as u8
    }

    fn everywhere() -> impl Iterator<Item = (Channel, u8)> {
        (0..16).flat_map(|channel| (0..8).map(move |field| (Channel::from_bits(channel), field)))
    }

    #[test]
    fn a_field_that_is_set_is_the_one_that_upstream_names() {
        let mut record = Record::new();
        let mut expected = [[0; FIELDS]; CHANNELS];
        for round in 0..4 {
            for (channel, field) in everywhere() {
                let index = usize::from(channel.index());
                let value = byte(round * SIZE + index * FIELDS + usize::from(field));
                assert!(record.set(channel, field, value).is_ok());
                expected[index][usize::from(field)] = value;
                assert_eq!(by_name(&record.translator), expected);
                assert_eq!(record.channel(channel), expected[index]);
            }
        }
    }

    #[test]
    fn a_new_record_is_all_zeros_and_so_is_one_that_was_reset() {
        let mut record = Record::new();
        assert_eq!(by_name(&record.translator), [[0; FIELDS]; CHANNELS]);
        for (channel, field) in everywhere() {
            assert!(record.set(channel, field, 255).is_ok());
        }
        assert!(record.set(Channel::from_bits(0), 8, 0).is_err());
        record.translator.reset();
        assert_eq!(by_name(&record.translator), [[0; FIELDS]; CHANNELS]);
    }

    #[test]
    fn one_field_past_its_limit_is_refused_on_every_channel() {
        for (channel, field) in everywhere() {
            for value in 0..=255 {
                let mut record = Record::new();
                assert!(record.set(channel, field, value).is_ok());
                let given = match field {
                    7 => [0, 1, 2, 4, 5, 6, 12, 13, 14].contains(&value),
                    _ => value <= 128,
                };
                let other = Channel::from_bits(channel.index() ^ 5);
                assert_eq!(record.translate(0x2090_3C40).is_ok(), given);
                assert_eq!(record.flush(Group::from_bits(0), other).is_ok(), given);
            }
        }
    }

    /// A message that looks random, mostly a Control Change that the translation holds.
    fn message(n: usize) -> Midi1ChannelVoiceMessage {
        let held = [101, 100, 6, 99, 98, 6, 38, 0, 32, 121, 96, 6, 38, 74];
        let data = u32::from(byte(7 * n) & 0x7F);
        let word = match n % 9 {
            0 => (0x208 + u32::from(byte(5 * n)) % 7) << 20 | data << 8,
            _ => 0x20B0_0000 | held[usize::from(byte(3 * n)) % held.len()] << 8 | data,
        };
        Midi1ChannelVoiceMessage::parse(&[word]).expect("it has the word form")
    }

    /// The words that the stub `ump` gives of a packet are those of upstream's call on words.
    #[test]
    fn the_words_of_a_packet_are_those_of_the_call_on_words() {
        let (mut by_word, mut by_packet) = (Midi1ToMidi2Group::new(), Midi1ToMidi2Group::new());
        for message in (0..100_000).map(message) {
            let packet = by_packet.translate(&Ump::Midi1ChannelVoice(message));
            let words = packet.map(|packet| packet.two_words().expect("it is of MIDI 2.0"));
            assert_eq!(words, by_word.translate_words(message.into_bits()));
        }
    }
}
