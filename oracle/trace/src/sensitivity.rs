//! Ours: the sensitivity messages with cents, from document 02, 2026-01. The first three messages of
//! each group are upstream's; the fourth, controller 38 with the cents, is made here.

use zmidi_io::mpe::{self, MpeLayout, MpeSensitivity, MpeZone};
use zmidi_ump::{
    Channel, Group, Midi1ChannelVoiceMessage as Message, Midi1ControlChange, UmpError,
};

/// The messages of a group that are upstream's.
const UPSTREAM: usize = 3;

/// A Control Change with Group 0.
pub fn control_change(channel: Channel, controller: u8, value: u8) -> Result<Message, UmpError> {
    Midi1ControlChange::try_new(Group::from_bits(0), channel, controller, value)
        .map(Message::ControlChange)
}

/// The fourth message of a group. Cents above 99 are out of range.
fn cents_message(channel: Channel, cents: u8) -> Result<Message, UmpError> {
    if cents > 99 {
        return Err(UmpError::OutOfRange);
    }
    control_change(channel, 38, cents)
}

/// The group of one channel.
pub fn sensitivity_messages(
    channel: Channel,
    sensitivity: MpeSensitivity,
) -> Result<[Message; 4], UmpError> {
    let [a, b, c] = mpe::sensitivity_messages(channel, sensitivity.semitones)?;
    Ok([a, b, c, cents_message(channel, sensitivity.cents)?])
}

/// The groups of a zone: upstream's messages of the whole zone, in a buffer for all sixteen
/// channels, and after those of each channel the fourth.
pub fn zone_sensitivity_messages(
    layout: MpeLayout,
    zone: MpeZone,
    manager: MpeSensitivity,
    member: MpeSensitivity,
) -> Result<Vec<Message>, UmpError> {
    let mut buffer = [control_change(Channel::from_bits(0), 0, 0)?; UPSTREAM * 16];
    let count = mpe::zone_sensitivity_messages(
        layout,
        zone,
        manager.semitones,
        member.semitones,
        &mut buffer,
    )?;
    let cents = std::iter::once(manager.cents).chain(std::iter::repeat(member.cents));
    let mut messages = Vec::new();
    for (group, cents) in buffer[..count].chunks_exact(UPSTREAM).zip(cents) {
        messages.extend(group);
        messages.push(cents_message(group[0].channel(), cents)?);
    }
    Ok(messages)
}

#[cfg(test)]
mod tests {
    use super::*;
    use zmidi_io::parameters::value_messages;
    use zmidi_io::Parameter;
    use zmidi_ump::controller::Rpn;

    /// A group is what upstream writes for the whole value of registered parameter 0 0.
    #[test]
    fn a_group_is_upstreams_value_messages() {
        let parameter = Parameter::Registered(Rpn::PitchBendSensitivity);
        for channel in (0..16).map(Channel::from_bits) {
            for semitones in 0..=96u8 {
                for cents in 0..=99u8 {
                    let value = u16::from(semitones) << 7 | u16::from(cents);
                    let sensitivity = MpeSensitivity { semitones, cents };
                    let group = sensitivity_messages(channel, sensitivity);
                    assert_eq!(group, value_messages(channel, parameter, value));
                    assert!(group.is_ok());
                }
            }
        }
    }
}
