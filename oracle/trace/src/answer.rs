//! Answers as text, by docs/REPLAY.md.

use std::fmt::Display;

use crate::restatement::Settings;
use zmidi_io::mpe::{MpeClass, MpeEvent, MpeReceiver, MpeRole, MpeZone};
use zmidi_io::{Parameter, ParameterChange, ParameterEvent, ParameterState};
use zmidi_ump::{Channel, Midi1ChannelVoiceMessage, UmpError};

/// Document 01's table of replies that decline, and those of document 02, 2026-07, in the order of
/// their numbers.
#[derive(Clone, Copy, PartialEq, Eq, PartialOrd, Ord)]
pub enum Refusal {
    OutOfRange,
    TooSmall {
        needed: usize,
        got: usize,
    },
    None,
    /// The file ends before or inside a section, or goes on after the label.
    WrongLength,
    /// An entry out of rising order, or a channel at rest.
    OutOfOrder,
}

/// An answer line, or the refusal that takes its place.
pub type Answer = Result<String, Refusal>;

impl From<UmpError> for Refusal {
    fn from(error: UmpError) -> Self {
        match error {
            UmpError::OutOfRange => Self::OutOfRange,
            UmpError::BufferTooSmall { needed, got } => Self::TooSmall { needed, got },
            other => unreachable!("no call of a trace gives {other}"),
        }
    }
}

pub fn ok() -> Answer {
    Ok("ok".into())
}

/// The text of an answer or a refusal.
pub fn text(answer: Answer) -> String {
    match answer {
        Ok(line) => line,
        Err(Refusal::OutOfRange) => "!1".into(),
        Err(Refusal::TooSmall { needed, got }) => format!("!2 {needed} {got}"),
        Err(Refusal::None) => "!3".into(),
        Err(Refusal::WrongLength) => "!4".into(),
        Err(Refusal::OutOfOrder) => "!5".into(),
    }
}

/// An answer or a refusal, then the whole buffer.
pub fn with_buffer<T: Display>(answer: Result<usize, Refusal>, buffer: &[T]) -> String {
    with_elements(text(answer.map(|count| count.to_string())), buffer)
}

/// A line, then a colon and each element.
fn with_elements<T: Display>(line: String, elements: &[T]) -> String {
    let mut line = line + " :";
    for element in elements {
        line += &format!(" {element}");
    }
    line
}

/// The settings of a setup file as in S, then its label.
pub fn setup((settings, label): (Settings, &[u8])) -> String {
    let mut set = [settings.lower, settings.upper].map(u16::from).to_vec();
    for zone in settings.zones {
        let (manager, member) = (zone.manager, zone.member);
        let sensitivities = [manager, member].map(|s| [s.semitones, s.cents]);
        set.extend(sensitivities.concat().into_iter().map(u16::from));
        set.push(zone.mode.into());
    }
    for channel in settings.channels {
        set.push(channel.bend);
        set.extend([channel.pressure, channel.brightness].map(u16::from));
    }
    with_elements(numbers(set), label)
}

/// Numbers with one space between.
pub fn numbers<T: Display>(numbers: impl IntoIterator<Item = T>) -> String {
    let words: Vec<String> = numbers.into_iter().map(|n| n.to_string()).collect();
    words.join(" ")
}

/// The words of messages.
pub fn words(messages: &[Midi1ChannelVoiceMessage]) -> Answer {
    Ok(numbers(messages.iter().map(|message| message.into_bits())))
}

/// What a translation gives: two words, or nothing.
pub fn translation(words: Option<[u32; 2]>) -> String {
    match words {
        Some(words) => numbers(words),
        None => "-".into(),
    }
}

/// An offset and its remainder, or none for a channel without a role.
pub fn offset(offset: Option<(i32, i64)>) -> String {
    match offset {
        Some((offset, remainder)) => format!("{offset} {remainder}"),
        None => "-".into(),
    }
}

/// The fields of a message by upstream's own cuts: message type, group, opcode, channel, and two
/// data bytes, the second 0 where the message has one.
pub fn fields(message: &Midi1ChannelVoiceMessage) -> String {
    use Midi1ChannelVoiceMessage as Message;
    macro_rules! fields {
        ($message:ident, $first:expr, $second:expr) => {
            numbers([
                1,
                $message.message_type().into_bits(),
                $message.group().index(),
                $message.opcode(),
                $message.channel().index(),
                $first,
                $second,
            ])
        };
    }
    match message {
        Message::NoteOff(m) => fields!(m, m.note(), m.velocity()),
        Message::NoteOn(m) => fields!(m, m.note(), m.velocity()),
        Message::PolyPressure(m) => fields!(m, m.note(), m.pressure()),
        Message::ControlChange(m) => fields!(m, m.index(), m.data()),
        Message::ProgramChange(m) => fields!(m, m.program(), 0),
        Message::ChannelPressure(m) => fields!(m, m.pressure(), 0),
        Message::PitchBend(m) => fields!(m, m.lsb(), m.msb()),
    }
}

fn zone_number(zone: MpeZone) -> u8 {
    match zone {
        MpeZone::Lower => 0,
        MpeZone::Upper => 1,
    }
}

pub fn role(role: MpeRole) -> String {
    match role {
        MpeRole::NoZone => "0".into(),
        MpeRole::Manager(zone) => format!("1 {}", zone_number(zone)),
        MpeRole::Member(zone) => format!("2 {}", zone_number(zone)),
    }
}

/// EVENT.
pub fn event(event: MpeEvent) -> String {
    match event {
        MpeEvent::NoZone => "0".into(),
        MpeEvent::Zone { zone, manager } => {
            format!("1 {} {}", zone_number(zone), u8::from(manager))
        }
        MpeEvent::Layout { reset } => format!("2 {reset}"),
        MpeEvent::Sensitivity { zone, manager } => {
            format!("3 {} {}", zone_number(zone), u8::from(manager))
        }
        MpeEvent::Mode { zone } => format!("4 {}", zone_number(zone)),
        MpeEvent::Ignored => "5".into(),
    }
}

/// PARAM.
pub fn parameter(parameter: Option<Parameter>) -> String {
    match parameter {
        None => "-".into(),
        Some(Parameter::Registered(rpn)) => {
            let (msb, lsb) = rpn.parts();
            format!("R {msb} {lsb}")
        }
        Some(Parameter::NonRegistered { msb, lsb }) => format!("N {msb} {lsb}"),
    }
}

fn change(change: ParameterChange) -> String {
    match change {
        ParameterChange::DataEntryMsb(data) => format!("0 {data}"),
        ParameterChange::DataEntryLsb(data) => format!("1 {data}"),
        ParameterChange::Increment => "2 0".into(),
        ParameterChange::Decrement => "3 0".into(),
    }
}

pub fn parameter_event(event: Option<ParameterEvent>) -> String {
    match event {
        None => "-".into(),
        Some(event) => parameter(Some(event.parameter)) + " " + &change(event.change),
    }
}

/// The reading of a parameter state.
pub fn parameters(state: &ParameterState) -> String {
    format!(
        "{} {} {}",
        u8::from(state.rpn_reception()),
        u8::from(state.nrpn_reception()),
        parameter(state.selection())
    )
}

/// The reading of a receiver's zones.
pub fn zones(receiver: &MpeReceiver) -> String {
    let layout = receiver.layout();
    let zones = [MpeZone::Lower, MpeZone::Upper];
    let mut reading = zones.map(|zone| layout.members(zone)).to_vec();
    for zone in zones {
        for manager in [true, false] {
            let sensitivity = receiver.sensitivity(zone, manager);
            reading.extend([sensitivity.semitones, sensitivity.cents]);
        }
        reading.push(receiver.mode(zone));
    }
    numbers(reading)
}

/// The reading of a receiver's channel.
pub fn channel(receiver: &MpeReceiver, channel: Channel) -> String {
    let offset = match receiver.pitch_offset(channel) {
        Some(offset) => offset.to_string(),
        None => "-".into(),
    };
    format!(
        "{} {} {} {offset}",
        receiver.pitch_bend(channel),
        receiver.pressure(channel),
        receiver.brightness(channel)
    )
}

pub fn class(class: MpeClass) -> String {
    match class {
        MpeClass::Mandatory => "0".into(),
        MpeClass::Optional => "1".into(),
        MpeClass::Prohibited => "2".into(),
    }
}
