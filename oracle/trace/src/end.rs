//! Ours: the end, from document 01: a reader, and over it upstream's parameter states, one a
//! channel, and upstream's receiver.

use crate::reader::{Heard, Reader};
use zmidi_io::mpe::{MpeEvent, MpeReceiver};
use zmidi_io::ParameterState;
use zmidi_ump::{Channel, Midi1ChannelVoiceMessage};

/// The reply to one byte.
pub enum Reply {
    Quiet,
    Dropped,
    RealTime(u8),
    Message(u32, MpeEvent),
}

pub struct End {
    reader: Reader,
    parameters: [ParameterState; 16],
    pub receiver: MpeReceiver,
}

impl End {
    pub fn new() -> Self {
        Self {
            reader: Reader::new(),
            parameters: [ParameterState::new(); 16],
            receiver: MpeReceiver::new(),
        }
    }

    pub fn parameters(&mut self, channel: Channel) -> &mut ParameterState {
        &mut self.parameters[usize::from(channel.index())]
    }

    pub fn byte(&mut self, byte: u8) -> Reply {
        match self.reader.hear(byte) {
            Heard::Quiet => Reply::Quiet,
            Heard::Dropped => Reply::Dropped,
            Heard::RealTime(byte) => Reply::RealTime(byte),
            Heard::Message(word) => Reply::Message(word, self.message(word)),
        }
    }

    /// The message reaches its channel's parameters, and then the receiver.
    fn message(&mut self, word: u32) -> MpeEvent {
        let message = Midi1ChannelVoiceMessage::parse(&[word]).expect("the reader gives messages");
        let parameter = self.parameters(message.channel()).receive(&message);
        self.receiver.receive(&message, parameter)
    }
}
