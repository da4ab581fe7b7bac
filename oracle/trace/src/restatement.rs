//! Ours: the restatement, from document 01, "Restatement", groups A to F, with the cents of document
//! 02, 2026-01. Upstream has no such part; the messages are made by upstream's functions, those with
//! the cents by `sensitivity`.

use crate::answer::Refusal;
use crate::sensitivity::{control_change, zone_sensitivity_messages};
use zmidi_io::mpe::{mcm_messages, mode_message, MpeLayout, MpeSensitivity, MpeZone};
use zmidi_io::parameters::select_messages;
use zmidi_io::Parameter;
use zmidi_ump::controller::Rpn;
use zmidi_ump::{Channel, Group, Midi1ChannelPressure, Midi1PitchBend};
use zmidi_ump::{Midi1ChannelVoiceMessage as Message, UmpError};

pub struct ZoneSettings {
    pub manager: MpeSensitivity,
    pub member: MpeSensitivity,
    pub mode: u8,
}

pub struct ChannelSettings {
    pub bend: u16,
    pub pressure: u8,
    pub brightness: u8,
}

pub struct Settings {
    pub lower: u8,
    pub upper: u8,
    /// Lower, Upper.
    pub zones: [ZoneSettings; 2],
    pub channels: [ChannelSettings; 16],
}

type Messages = Result<Vec<Message>, UmpError>;

fn every_channel() -> impl Iterator<Item = Channel> {
    (0..16).map(Channel::from_bits)
}

impl ZoneSettings {
    fn is_legal(&self) -> bool {
        let sensitivities = [self.manager, self.member];
        let inside = |s: MpeSensitivity| s.semitones <= 96 && s.cents <= 99;
        sensitivities.into_iter().all(inside) && matches!(self.mode, 3 | 4)
    }
}

impl ChannelSettings {
    fn is_legal(&self) -> bool {
        self.bend <= 0x3FFF && self.pressure <= 127 && self.brightness <= 127
    }
}

impl Settings {
    /// The active zones with their settings, Lower first.
    pub fn active(&self) -> impl Iterator<Item = (MpeZone, &ZoneSettings)> {
        let [lower, upper] = &self.zones;
        let lower = (self.lower > 0).then_some((MpeZone::Lower, lower));
        let upper = (self.upper > 0).then_some((MpeZone::Upper, upper));
        lower.into_iter().chain(upper)
    }

    /// The layout, if every field that is read is inside its limits.
    pub fn legal_layout(&self) -> Result<MpeLayout, UmpError> {
        let layout = MpeLayout::new(self.lower, self.upper)?;
        let zones = self.active().all(|(_, zone)| zone.is_legal());
        let channels = self.channels.iter().all(ChannelSettings::is_legal);
        if zones && channels {
            Ok(layout)
        } else {
            Err(UmpError::OutOfRange)
        }
    }

    fn messages(&self) -> Messages {
        let layout = self.legal_layout()?;
        let groups = [
            resets()?,
            self.layouts()?,
            self.sensitivities(layout)?,
            self.modes(layout)?,
            nulls()?,
            self.controls()?,
        ];
        Ok(groups.concat())
    }

    /// B. Lower 7, Upper 7, Lower's members, Upper's members.
    fn layouts(&self) -> Messages {
        let groups = [
            mcm_messages(MpeZone::Lower, 7)?,
            mcm_messages(MpeZone::Upper, 7)?,
            mcm_messages(MpeZone::Lower, self.lower)?,
            mcm_messages(MpeZone::Upper, self.upper)?,
        ];
        Ok(groups.concat())
    }

    /// C. The sensitivities of each active zone.
    fn sensitivities(&self, layout: MpeLayout) -> Messages {
        let mut messages = Vec::new();
        for (zone, settings) in self.active() {
            let (manager, member) = (settings.manager, settings.member);
            messages.extend(zone_sensitivity_messages(layout, zone, manager, member)?);
        }
        Ok(messages)
    }

    /// D. The mode message of each active zone.
    fn modes(&self, layout: MpeLayout) -> Messages {
        self.active()
            .map(|(zone, settings)| mode_message(layout, zone, settings.mode == 4))
            .collect()
    }

    /// F. Bend, 74 and pressure of each channel.
    fn controls(&self) -> Messages {
        let group = Group::from_bits(0);
        let mut messages = Vec::new();
        for (channel, settings) in every_channel().zip(&self.channels) {
            let bend = Midi1PitchBend::try_new(group, channel, settings.bend)?;
            let pressure = Midi1ChannelPressure::try_new(group, channel, settings.pressure)?;
            messages.push(Message::PitchBend(bend));
            messages.push(control_change(channel, 74, settings.brightness)?);
            messages.push(Message::ChannelPressure(pressure));
        }
        Ok(messages)
    }

    /// The restatement as words.
    pub fn words(&self) -> Result<Vec<u32>, Refusal> {
        Ok(as_words(self.messages()?))
    }

    /// The restatement as bytes, each message with its own status.
    pub fn bytes(&self) -> Result<Vec<u8>, Refusal> {
        let mut bytes = Vec::new();
        for word in self.words()? {
            let [_, status, first, second] = word.to_be_bytes();
            bytes.extend([status, first]);
            if !matches!(status >> 4, 0xC | 0xD) {
                bytes.push(second);
            }
        }
        Ok(bytes)
    }
}

/// A. Controller 121 value 0 on each channel.
fn resets() -> Messages {
    every_channel()
        .map(|channel| control_change(channel, 121, 0))
        .collect()
}

/// E. The null number on each channel: 101 = 127, 100 = 127.
fn nulls() -> Messages {
    let mut messages = Vec::new();
    for channel in every_channel() {
        messages.extend(select_messages(channel, Parameter::Registered(Rpn::Null))?);
    }
    Ok(messages)
}

/// The words of messages.
pub fn as_words(messages: Vec<Message>) -> Vec<u32> {
    messages.into_iter().map(Message::into_bits).collect()
}

/// Copies the whole of `elements` into the start of `buffer`, or refuses and copies nothing.
pub fn put<T: Copy>(elements: &[T], buffer: &mut [T]) -> Result<usize, Refusal> {
    let (needed, got) = (elements.len(), buffer.len());
    let Some(start) = buffer.get_mut(..needed) else {
        return Err(Refusal::TooSmall { needed, got });
    };
    start.copy_from_slice(elements);
    Ok(needed)
}
