//! The arguments of an item, read from its bytes one after another.

use crate::answer::Refusal;
use crate::restatement::{ChannelSettings, Settings, ZoneSettings};
use zmidi_io::mpe::{MpeLayout, MpeSensitivity, MpeZone};
use zmidi_io::{Parameter, ParameterChange, ParameterEvent};
use zmidi_ump::controller::Rpn;
use zmidi_ump::{Channel, Group, Midi1ChannelVoiceMessage};

pub struct Arguments {
    bytes: std::vec::IntoIter<u8>,
}

/// Document 01's word form: message type 2, any group, opcode 8 to E, every reserved bit 0, and
/// bits 0 to 6 zero under opcodes C and D. Upstream's parse would clear the reserved bits.
fn has_word_form(word: u32) -> bool {
    let opcode = word >> 20 & 0xF;
    let reserved = match opcode {
        0xC | 0xD => 0x80FF,
        _ => 0x8080,
    };
    word >> 28 == 2 && (0x8..=0xE).contains(&opcode) && word & reserved == 0
}

impl Arguments {
    pub fn new(bytes: Vec<u8>) -> Self {
        Self {
            bytes: bytes.into_iter(),
        }
    }

    pub fn byte(&mut self) -> u8 {
        self.bytes.next().expect("an item is read whole")
    }

    pub fn two(&mut self) -> u16 {
        u16::from_be_bytes([self.byte(), self.byte()])
    }

    pub fn four(&mut self) -> u32 {
        u32::from_be_bytes([self.byte(), self.byte(), self.byte(), self.byte()])
    }

    /// So many bytes as they stand.
    pub fn bytes(&mut self, count: usize) -> Vec<u8> {
        self.bytes.by_ref().take(count).collect()
    }

    pub fn flag(&mut self) -> bool {
        self.byte() != 0
    }

    pub fn group(&mut self) -> Group {
        Group::from_bits(self.byte())
    }

    pub fn channel(&mut self) -> Channel {
        Channel::from_bits(self.byte())
    }

    pub fn zone(&mut self) -> MpeZone {
        match self.byte() {
            0 => MpeZone::Lower,
            _ => MpeZone::Upper,
        }
    }

    pub fn layout(&mut self) -> Result<MpeLayout, Refusal> {
        Ok(MpeLayout::new(self.byte(), self.byte())?)
    }

    pub fn sensitivity(&mut self) -> MpeSensitivity {
        MpeSensitivity {
            semitones: self.byte(),
            cents: self.byte(),
        }
    }

    /// A message given as a word.
    pub fn message(&mut self) -> Result<Midi1ChannelVoiceMessage, Refusal> {
        let word = self.four();
        if !has_word_form(word) {
            return Err(Refusal::OutOfRange);
        }
        Midi1ChannelVoiceMessage::parse(&[word]).ok_or(Refusal::OutOfRange)
    }

    /// P: a parameter.
    pub fn parameter(&mut self) -> Parameter {
        let (kind, msb, lsb) = (self.byte(), self.byte(), self.byte());
        match kind {
            0 => Parameter::Registered(Rpn::from_parts(msb, lsb)),
            1 => Parameter::NonRegistered { msb, lsb },
            _ => Parameter::Registered(Rpn::Other { msb, lsb }),
        }
    }

    /// C: a change.
    pub fn change(&mut self) -> ParameterChange {
        let (kind, data) = (self.byte(), self.byte());
        match kind {
            0 => ParameterChange::DataEntryMsb(data),
            1 => ParameterChange::DataEntryLsb(data),
            2 => ParameterChange::Increment,
            _ => ParameterChange::Decrement,
        }
    }

    /// P C: an event.
    pub fn event(&mut self) -> ParameterEvent {
        ParameterEvent {
            parameter: self.parameter(),
            change: self.change(),
        }
    }

    fn zone_settings(&mut self) -> ZoneSettings {
        ZoneSettings {
            manager: self.sensitivity(),
            member: self.sensitivity(),
            mode: self.byte(),
        }
    }

    fn channel_settings(&mut self) -> ChannelSettings {
        ChannelSettings {
            bend: self.two(),
            pressure: self.byte(),
            brightness: self.byte(),
        }
    }

    /// S: a settings record.
    pub fn settings(&mut self) -> Settings {
        Settings {
            lower: self.byte(),
            upper: self.byte(),
            zones: [self.zone_settings(), self.zone_settings()],
            channels: std::array::from_fn(|_| self.channel_settings()),
        }
    }
}

#[cfg(test)]
mod tests {
    use super::*;

    /// Document 01's word form is what upstream reads as a message and gives back unchanged, so
    /// with no reserved bit to clear.
    #[test]
    fn the_word_form_is_what_upstream_gives_back() {
        let tops = (0..=0xFFFFu32).map(|top| top << 16);
        let limits = [0x00, 0x01, 0x40, 0x7F, 0x80, 0x81, 0xFF];
        for top in tops {
            for first in limits {
                for second in limits {
                    let word = top | first << 8 | second;
                    let message = Midi1ChannelVoiceMessage::parse(&[word]);
                    let unchanged = message.is_some_and(|message| message.into_bits() == word);
                    assert_eq!(has_word_form(word), unchanged, "the word {word:08X}");
                }
            }
        }
    }
}
