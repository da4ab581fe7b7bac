//! Ours, in place of upstream's module `ump`: the three families that `translate.rs` names.

use crate::channel_voice1::Midi1ChannelVoiceMessage;
use crate::channel_voice2::Midi2ChannelVoiceMessage;
use crate::utility::UtilityMessage;

#[derive(Debug, Clone, Copy, PartialEq, Eq, Hash)]
pub enum Ump {
    Utility(UtilityMessage),
    Midi1ChannelVoice(Midi1ChannelVoiceMessage),
    Midi2ChannelVoice(Midi2ChannelVoiceMessage),
}

impl Ump {
    /// The words of a MIDI 2.0 message, by upstream's own `into_words`; none for another packet.
    pub fn two_words(self) -> Option<[u32; 2]> {
        match self {
            Self::Midi2ChannelVoice(message) => Some(message.into_words()),
            _ => None,
        }
    }
}
