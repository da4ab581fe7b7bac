//! The items of a trace and their calls, in the order of docs/REPLAY.md.

use crate::allocator::Allocator;
use crate::answer::{self, numbers, ok, with_buffer, words, Answer, Refusal};
use crate::arguments::Arguments;
use crate::end::{End, Reply};
use crate::record::Record;
use crate::remainder;
use crate::restatement::{as_words, put};
use crate::sensitivity::{sensitivity_messages, zone_sensitivity_messages};
use crate::setup;
use zmidi_io::mpe::{
    self, mpe_class, MpeLayout, MpeMessage, MpeNoteAllocator, MpeReceiver, MpeZone,
};
use zmidi_io::parameters::{change_message, select_messages, value_messages};
use zmidi_io::ParameterState;
use zmidi_ump::scale;
use zmidi_ump::{
    Channel, Group, Midi1ChannelPressure, Midi1ChannelVoiceMessage, Midi1ControlChange,
    Midi1NoteOn, Midi1PitchBend,
};

/// The length of P, C and S in bytes.
const P: usize = 3;
const C: usize = 2;
const S: usize = 2 + 2 * 5 + 16 * 4;

/// What a buffer of words and a buffer of bytes hold before a call.
const WORD_BEFORE: u32 = 0x2FEF_7F7F;
const BYTE_BEFORE: u8 = 0xA5;

/// The longest file and the longest buffer of items 90 and 91.
const SETUP: u16 = 512;

/// The message kinds in upstream's order.
const KINDS: [MpeMessage; 21] = [
    MpeMessage::Mcm,
    MpeMessage::PitchBendSensitivity,
    MpeMessage::PitchBend,
    MpeMessage::ChannelPressure,
    MpeMessage::Brightness,
    MpeMessage::PolyPressure,
    MpeMessage::AllSoundOff,
    MpeMessage::ResetAllControllers,
    MpeMessage::LocalControl,
    MpeMessage::AllNotesOff,
    MpeMessage::OmniOff,
    MpeMessage::OmniOn,
    MpeMessage::MonoModeOn,
    MpeMessage::PolyModeOn,
    MpeMessage::OtherControlChange,
    MpeMessage::OtherRpn,
    MpeMessage::Nrpn,
    MpeMessage::ProgramChange,
    MpeMessage::BankSelect,
    MpeMessage::Note,
    MpeMessage::System,
];

/// The length of an operation's arguments, of which these have been read; up to a count that says
/// how many follow, if that has not been read. None for an unknown operation, and for a file with a
/// count above its limit.
pub fn length(operation: u8, read: &[u8]) -> Option<usize> {
    Some(match operation {
        0x00 | 0x06 | 0x34 | 0x36 | 0x39 | 0x40 | 0x43 | 0x60 | 0x64 | 0x65 | 0x80 => 0,
        0x01 | 0x02 | 0x07..=0x09 | 0x37 | 0x38 | 0x44 | 0x45 | 0x62 | 0x63 | 0x83 => 1,
        0x03 | 0x04 | 0x05 | 0x10 | 0x15 | 0x16 | 0x42 | 0x51 | 0x82 => 2,
        0x12..=0x14 | 0x52 | 0x84 => 3,
        0x11 | 0x18 | 0x21 | 0x22 | 0x35 | 0x50 | 0x54 | 0x61 | 0x67 | 0x81 => 4,
        0x68 => 5,
        0x20 | 0x86..=0x89 => 6,
        0x17 | 0x55 => 7,
        0x53 => 8,
        0x30 => P + C + 2,
        0x31 => 1 + P,
        0x32 => 1 + C,
        0x33 => 1 + P + 2,
        0x41 => 4 + 1 + P + C,
        0x70 | 0x71 => S + 2,
        0x72 => S,
        0x90 => match read {
            [high, low, ..] => 2 + file_length([*high, *low])?,
            _ => 2,
        },
        0x91 => match read.get(S) {
            Some(label) => S + 1 + usize::from(*label) + 2,
            None => S + 1,
        },
        _ => return None,
    })
}

/// The length of item 90's file, if it is inside its limit.
fn file_length(bytes: [u8; 2]) -> Option<usize> {
    let length = u16::from_be_bytes(bytes);
    (length <= SETUP).then_some(length.into())
}

/// An operation that takes a buffer's length has it last; the length stays inside its limit.
pub fn within_limit(operation: u8, bytes: &[u8]) -> bool {
    match (operation, bytes) {
        (0x53, [.., n]) => *n <= 80,
        (0x70, [.., high, low]) => u16::from_be_bytes([*high, *low]) <= 1024,
        (0x71, [.., high, low]) => u16::from_be_bytes([*high, *low]) <= 256,
        (0x91, [.., high, low]) => u16::from_be_bytes([*high, *low]) <= SETUP,
        _ => true,
    }
}

/// The five states that a trace works on.
pub struct States {
    end: End,
    parameters: ParameterState,
    receiver: MpeReceiver,
    allocator: Allocator,
    record: Record,
}

impl States {
    pub fn new() -> Self {
        Self {
            end: End::new(),
            parameters: ParameterState::new(),
            receiver: MpeReceiver::new(),
            allocator: Allocator::new(),
            record: Record::new(),
        }
    }

    /// Makes the call of one item and gives its answer line.
    pub fn answer(&mut self, operation: u8, arguments: &mut Arguments) -> String {
        match operation {
            0x53 => zone_sensitivity_item(arguments),
            0x70 => restatement_bytes_item(arguments),
            0x71 => restatement_words_item(arguments),
            0x91 => setup_written_item(arguments),
            _ => answer::text(self.plain_answer(operation, arguments)),
        }
    }

    fn plain_answer(&mut self, operation: u8, arguments: &mut Arguments) -> Answer {
        match operation {
            0x00..=0x0F | 0x72 => self.end_item(operation, arguments),
            0x10..=0x15 => layout_item(operation, arguments),
            0x16..=0x1F => word_item(operation, arguments),
            0x20..=0x2F => pitch_item(operation, arguments),
            0x30..=0x33 => parameter_item(operation, arguments),
            0x34..=0x3F => self.parameters_item(operation, arguments),
            0x40..=0x4F => self.receiver_item(operation, arguments),
            0x50..=0x5F => sender_item(operation, arguments),
            0x60..=0x6F => self.allocator_item(operation, arguments),
            0x80..=0x84 => self.record_item(operation, arguments),
            0x86..=0x89 => scale_item(operation, arguments),
            0x90 => setup_read_item(arguments),
            _ => unreachable!("an unknown operation has no length"),
        }
    }

    fn end_item(&mut self, operation: u8, arguments: &mut Arguments) -> Answer {
        let end = &mut self.end;
        match operation {
            0x00 => *end = End::new(),
            0x01 | 0x02 | 0x08 => return Ok(reply(end.byte(arguments.byte()))),
            0x03 => return set_layout(&mut end.receiver, arguments),
            0x04 => {
                let channel = arguments.channel();
                end.parameters(channel).set_rpn_reception(arguments.flag());
            }
            0x05 => {
                let channel = arguments.channel();
                end.parameters(channel).set_nrpn_reception(arguments.flag());
            }
            0x06 => return Ok(answer::zones(&end.receiver)),
            0x07 => return Ok(end_channel(end, arguments.channel())),
            0x09 => return Ok(channel_offset(&end.receiver, arguments.channel())),
            0x72 => restate(end, arguments),
            _ => unreachable!("an unknown operation has no length"),
        }
        ok()
    }

    fn parameters_item(&mut self, operation: u8, arguments: &mut Arguments) -> Answer {
        let state = &mut self.parameters;
        match operation {
            0x34 => *state = ParameterState::new(),
            0x35 => {
                let message = arguments.message()?;
                return Ok(answer::parameter_event(state.receive(&message)));
            }
            0x36 => state.reset_all_controllers(),
            0x37 => state.set_rpn_reception(arguments.flag()),
            0x38 => state.set_nrpn_reception(arguments.flag()),
            0x39 => return Ok(answer::parameters(state)),
            _ => unreachable!("an unknown operation has no length"),
        }
        ok()
    }

    fn receiver_item(&mut self, operation: u8, arguments: &mut Arguments) -> Answer {
        let receiver = &mut self.receiver;
        match operation {
            0x40 => *receiver = MpeReceiver::new(),
            0x41 => {
                let message = arguments.message()?;
                let given = arguments.flag();
                let event = given.then_some(arguments.event());
                return Ok(answer::event(receiver.receive(&message, event)));
            }
            0x42 => return set_layout(receiver, arguments),
            0x43 => return Ok(answer::zones(receiver)),
            0x44 => return Ok(answer::channel(receiver, arguments.channel())),
            0x45 => return Ok(channel_offset(receiver, arguments.channel())),
            _ => unreachable!("an unknown operation has no length"),
        }
        ok()
    }

    fn allocator_item(&mut self, operation: u8, arguments: &mut Arguments) -> Answer {
        let allocator = &mut self.allocator;
        match operation {
            0x60 => *allocator = Allocator::new(),
            0x61 => {
                let layout = arguments.layout()?;
                let (zone, note) = (arguments.zone(), arguments.byte());
                return channel_or_none(allocator.note_on(layout, zone, note));
            }
            0x62 => allocator.upstream.note_off(arguments.channel()),
            0x63 => allocator.upstream.set_same_note(arguments.flag()),
            0x64 => allocator.upstream.reset(),
            0x65 => return Ok(allocator_reading(&allocator.upstream)),
            0x67 => allocator.set_clock(arguments.four()),
            0x68 => {
                let channel = arguments.channel();
                allocator.set_last_release(channel, arguments.four());
            }
            _ => unreachable!("an unknown operation has no length"),
        }
        ok()
    }

    fn record_item(&mut self, operation: u8, arguments: &mut Arguments) -> Answer {
        let record = &mut self.record;
        match operation {
            0x80 => *record = Record::new(),
            0x81 => {
                let word = arguments.message()?.into_bits();
                return Ok(answer::translation(record.translate(word)?));
            }
            0x82 => {
                let group = arguments.group();
                let words = record.flush(group, arguments.channel())?;
                return Ok(answer::translation(words));
            }
            0x83 => return Ok(numbers(record.channel(arguments.channel()))),
            0x84 => {
                let (channel, field) = (arguments.channel(), arguments.byte());
                record.set(channel, field, arguments.byte())?;
            }
            _ => unreachable!("an unknown operation has no length"),
        }
        ok()
    }
}

fn reply(reply: Reply) -> String {
    match reply {
        Reply::Quiet => "0".into(),
        Reply::Dropped => "1".into(),
        Reply::RealTime(byte) => format!("2 {byte}"),
        Reply::Message(word, event) => format!("3 {word} {}", answer::event(event)),
    }
}

fn set_layout(receiver: &mut MpeReceiver, arguments: &mut Arguments) -> Answer {
    let layout = arguments.layout()?;
    Ok(receiver.set_layout(layout).to_string())
}

fn end_channel(end: &mut End, channel: Channel) -> String {
    let controls = answer::channel(&end.receiver, channel);
    controls + " " + &answer::parameters(end.parameters(channel))
}

/// A channel's offset with its remainder.
fn channel_offset(receiver: &MpeReceiver, channel: Channel) -> String {
    answer::offset(remainder::channel_pitch_offset(receiver, channel))
}

/// Gives the end a restatement, byte by byte; settings that are refused leave it alone.
fn restate(end: &mut End, arguments: &mut Arguments) {
    for byte in arguments.settings().bytes().unwrap_or_default() {
        end.byte(byte);
    }
}

fn layout_item(operation: u8, arguments: &mut Arguments) -> Answer {
    let layout = arguments.layout()?;
    match operation {
        0x10 => Ok(member_counts(layout)),
        0x11 => {
            let (zone, members) = (arguments.zone(), arguments.byte());
            Ok(member_counts(layout.with_mcm(zone, members)))
        }
        0x12 => Ok(answer::role(layout.role(arguments.channel()))),
        0x13 => channel_or_none(layout.lowest_member(arguments.zone())),
        0x14 => Ok(layout.members(arguments.zone()).to_string()),
        0x15 => Ok(u8::from(layout.is_active()).to_string()),
        _ => unreachable!("an unknown operation has no length"),
    }
}

fn member_counts(layout: MpeLayout) -> String {
    numbers([MpeZone::Lower, MpeZone::Upper].map(|zone| layout.members(zone)))
}

fn channel_or_none(channel: Option<Channel>) -> Answer {
    let channel = channel.ok_or(Refusal::None)?;
    Ok(channel.index().to_string())
}

fn word_item(operation: u8, arguments: &mut Arguments) -> Answer {
    match operation {
        0x16 => packet_item(arguments),
        0x17 => made_item(arguments),
        0x18 => Ok(arguments
            .message()
            .map_or_else(|_| "0".into(), |message| answer::fields(&message))),
        _ => unreachable!("an unknown operation has no length"),
    }
}

/// A group or a channel by its packet value or by its number.
fn packet_item(arguments: &mut Arguments) -> Answer {
    let (kind, value) = (arguments.byte(), arguments.byte());
    let index = match kind {
        0 => Group::new(value)?.index(),
        1 => Group::from_number(value)?.index(),
        2 => Channel::new(value)?.index(),
        3 => Channel::from_number(value)?.index(),
        _ => return Err(Refusal::OutOfRange),
    };
    Ok(index.to_string())
}

/// A message by its constructor.
fn made_item(arguments: &mut Arguments) -> Answer {
    use Midi1ChannelVoiceMessage as Message;
    let kind = arguments.byte();
    let (group, channel) = (arguments.group(), arguments.channel());
    let (first, second) = (arguments.byte(), arguments.byte());
    let bend = arguments.two();
    words(&[match kind {
        0 => Message::ControlChange(Midi1ControlChange::try_new(group, channel, first, second)?),
        1 => Message::NoteOn(Midi1NoteOn::try_new(group, channel, first, second)?),
        2 => Message::ChannelPressure(Midi1ChannelPressure::try_new(group, channel, first)?),
        3 => Message::PitchBend(Midi1PitchBend::try_new(group, channel, bend)?),
        _ => return Err(Refusal::OutOfRange),
    }])
}

fn pitch_item(operation: u8, arguments: &mut Arguments) -> Answer {
    match operation {
        0x20 => {
            let offset = arguments.four() as i32;
            Ok(mpe::pitch_bend_value(offset, arguments.sensitivity()).to_string())
        }
        0x21 => {
            let value = arguments.two();
            Ok(mpe::pitch_offset(value, arguments.sensitivity()).to_string())
        }
        0x22 => {
            let value = arguments.two();
            let offset = remainder::pitch_offset(value, arguments.sensitivity());
            Ok(answer::offset(Some(offset)))
        }
        _ => unreachable!("an unknown operation has no length"),
    }
}

fn parameter_item(operation: u8, arguments: &mut Arguments) -> Answer {
    match operation {
        0x30 => {
            let event = arguments.event();
            Ok(event.apply(arguments.two()).to_string())
        }
        0x31 => {
            let channel = arguments.channel();
            words(&select_messages(channel, arguments.parameter())?)
        }
        0x32 => {
            let channel = arguments.channel();
            words(&[change_message(channel, arguments.change())?])
        }
        0x33 => {
            let (channel, parameter) = (arguments.channel(), arguments.parameter());
            words(&value_messages(channel, parameter, arguments.two())?)
        }
        _ => unreachable!("an unknown operation has no length"),
    }
}

fn sender_item(operation: u8, arguments: &mut Arguments) -> Answer {
    match operation {
        0x50 => {
            let kind = KINDS.get(usize::from(arguments.byte()));
            let kind = *kind.ok_or(Refusal::OutOfRange)?;
            let (manager, transmit, mono) = (arguments.flag(), arguments.flag(), arguments.flag());
            Ok(answer::class(mpe_class(kind, manager, transmit, mono)))
        }
        0x51 => {
            let zone = arguments.zone();
            words(&mpe::mcm_messages(zone, arguments.byte())?)
        }
        0x52 => {
            let channel = arguments.channel();
            words(&sensitivity_messages(channel, arguments.sensitivity())?)
        }
        0x54 => {
            let layout = arguments.layout()?;
            let zone = arguments.zone();
            words(&[mpe::mode_message(layout, zone, arguments.flag())?])
        }
        0x55 => note_item(arguments),
        _ => unreachable!("an unknown operation has no length"),
    }
}

fn note_item(arguments: &mut Arguments) -> Answer {
    let channel = arguments.channel();
    let (note, velocity, bend) = (arguments.byte(), arguments.byte(), arguments.two());
    let (brightness, pressure) = (arguments.byte(), arguments.byte());
    words(&mpe::note_messages(
        channel, note, velocity, bend, brightness, pressure,
    )?)
}

fn zone_sensitivity_item(arguments: &mut Arguments) -> String {
    let (layout, zone) = (arguments.layout(), arguments.zone());
    let (manager, member) = (arguments.sensitivity(), arguments.sensitivity());
    let mut buffer = vec![WORD_BEFORE; usize::from(arguments.byte())];
    let words = layout.and_then(|layout| {
        let messages = zone_sensitivity_messages(layout, zone, manager, member)?;
        Ok(as_words(messages))
    });
    let answer = words.and_then(|words| put(&words, &mut buffer));
    with_buffer(answer, &buffer)
}

fn restatement_bytes_item(arguments: &mut Arguments) -> String {
    let bytes = arguments.settings().bytes();
    let mut buffer = vec![BYTE_BEFORE; usize::from(arguments.two())];
    let answer = bytes.and_then(|bytes| put(&bytes, &mut buffer));
    with_buffer(answer, &buffer)
}

fn restatement_words_item(arguments: &mut Arguments) -> String {
    let words = arguments.settings().words();
    let mut buffer = vec![WORD_BEFORE; usize::from(arguments.two())];
    let answer = words.and_then(|words| put(&words, &mut buffer));
    with_buffer(answer, &buffer)
}

fn allocator_reading(allocator: &MpeNoteAllocator) -> String {
    let counts = (0..16).map(|channel| allocator.active_notes(Channel::from_bits(channel)));
    numbers(counts.chain([u8::from(allocator.same_note())]))
}

fn scale_item(operation: u8, arguments: &mut Arguments) -> Answer {
    let scaled = match operation {
        0x86 => scale::upscale,
        0x87 => scale::downscale,
        0x88 => scale::zero_extend_upscale,
        0x89 => scale::zero_extend_downscale,
        _ => unreachable!("an unknown operation has no length"),
    };
    let (value, from, to) = (arguments.four(), arguments.byte(), arguments.byte());
    Ok(scaled(value, from, to)?.to_string())
}

fn setup_read_item(arguments: &mut Arguments) -> Answer {
    let length = arguments.two();
    let file = arguments.bytes(length.into());
    Ok(answer::setup(setup::read(&file)?))
}

fn setup_written_item(arguments: &mut Arguments) -> String {
    let settings = arguments.settings();
    let length = arguments.byte();
    let label = arguments.bytes(length.into());
    let mut buffer = vec![BYTE_BEFORE; usize::from(arguments.two())];
    let file = setup::written(&settings, &label);
    let answer = file.and_then(|file| put(&file, &mut buffer));
    with_buffer(answer, &buffer)
}
