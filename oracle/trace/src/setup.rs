//! Ours: the setup file, read and written, from document 02, 2026-07. Upstream has no such part; of
//! upstream is the test of a layout.
//!
//! The reader does not go through a file until something fails. The three counts say where each
//! part of the file would stand, whatever it holds. Each rule then names the parts that break it,
//! with their places, and of all these faults the leftmost decides. In a file without a fault each
//! zone and each channel looks for its own entry.

use crate::answer::Refusal;
use crate::restatement::{ChannelSettings, Settings, ZoneSettings};
use zmidi_io::mpe::{MpeLayout, MpeSensitivity, MpeZone};

/// The lowest and the highest value of a byte.
type Limits = [u8; 2];

/// A zone: its number, members, the manager's semitones and cents, the members', mode.
type ZoneEntry = [u8; 7];
const ZONE: [Limits; 7] = [[0, 1], [1, 15], [0, 96], [0, 99], [0, 96], [0, 99], [3, 4]];
const MOST_ZONES: u8 = 2;

/// A channel: its number, bend MSB and LSB, pressure, brightness.
type ChannelEntry = [u8; 5];
const CHANNEL: [Limits; 5] = [[0, 15], [0, 127], [0, 127], [0, 127], [0, 127]];
const MOST_CHANNELS: u8 = 16;

/// A byte of the label.
const TEXT: Limits = [0x20, 0x7E];
const MOST_TEXT: u8 = 32;

/// How a zone and a channel without an entry are read, whatever the number.
const NO_ZONE: ZoneEntry = [0, 0, 2, 0, 48, 0, 3];
const REST: ChannelEntry = [0, 0x40, 0x00, 0, 64];

fn is_within(byte: u8, [lowest, highest]: Limits) -> bool {
    (lowest..=highest).contains(&byte)
}

fn is_text(bytes: &[u8]) -> bool {
    bytes.iter().all(|byte| is_within(*byte, TEXT))
}

/// Apart from its number, does the entry say what is read without it?
fn is_at_rest(entry: ChannelEntry) -> bool {
    entry[1..] == REST[1..]
}

/// A faulty part: its place in the file and the refusal. Of two at one place the smaller number goes
/// first: in a whole entry 1 before 5, and an illegal pair of zones before the count that follows.
type Fault = (usize, Refusal);

/// A section: a count at `start`, then so many entries of SIZE bytes. The file may end before any
/// of these.
struct Section<'a, const SIZE: usize> {
    file: &'a [u8],
    start: usize,
}

impl<const SIZE: usize> Section<'_, SIZE> {
    /// The count, or none where the file has ended.
    fn count(&self) -> Option<u8> {
        self.file.get(self.start).copied()
    }

    /// Where an entry begins.
    fn place(&self, entry: usize) -> usize {
        self.start + 1 + SIZE * entry
    }

    /// Where the section ends. After a count that is missing there are no entries.
    fn end(&self) -> usize {
        self.place(self.count().map_or(0, usize::from))
    }

    /// The place of each entry, with the entry if the file has it whole.
    fn entries(&self) -> impl Iterator<Item = (usize, Option<[u8; SIZE]>)> + '_ {
        let places = (self.place(0)..self.end()).step_by(SIZE);
        places.map(|place| {
            let bytes = self.file.get(place..place + SIZE);
            (place, bytes.and_then(|bytes| bytes.try_into().ok()))
        })
    }

    /// The entries that the file has whole, with their places.
    fn whole(&self) -> impl Iterator<Item = (usize, [u8; SIZE])> + '_ {
        self.entries()
            .filter_map(|(place, entry)| Some((place, entry?)))
    }

    /// The entry with this number.
    fn entry_of(&self, number: u8) -> Option<[u8; SIZE]> {
        let mut entries = self.whole().map(|(_, entry)| entry);
        entries.find(|entry| entry[0] == number)
    }

    /// A count that is missing or above `most`.
    fn faulty_count(&self, most: u8) -> Vec<Fault> {
        match self.count() {
            None => vec![(self.start, Refusal::WrongLength)],
            Some(count) if count > most => vec![(self.start, Refusal::OutOfRange)],
            Some(_) => vec![],
        }
    }

    /// The entries that the file has not whole.
    fn cut_entries(&self) -> Vec<Fault> {
        self.entries()
            .filter(|(_, entry)| entry.is_none())
            .map(|(place, _)| (place, Refusal::WrongLength))
            .collect()
    }

    /// The whole entries with a byte past its limits.
    fn entries_out_of_range(&self, limits: [Limits; SIZE]) -> Vec<Fault> {
        let inside = |entry: [u8; SIZE]| {
            let mut bytes = entry.into_iter().zip(limits);
            bytes.all(|(byte, limits)| is_within(byte, limits))
        };
        self.whole()
            .filter(|(_, entry)| !inside(*entry))
            .map(|(place, _)| (place, Refusal::OutOfRange))
            .collect()
    }

    /// The whole entries with a number that is not above the one before.
    fn entries_out_of_order(&self) -> Vec<Fault> {
        let pairs = self.whole().zip(self.whole().skip(1));
        pairs
            .filter(|((_, before), (_, entry))| entry[0] <= before[0])
            .map(|(_, (place, _))| (place, Refusal::OutOfOrder))
            .collect()
    }
}

/// The sections of a file, each where the one before it ends.
struct Sections<'a> {
    file: &'a [u8],
    zones: Section<'a, 7>,
    channels: Section<'a, 5>,
    /// Its entries are the bytes.
    label: Section<'a, 1>,
}

impl<'a> Sections<'a> {
    fn of(file: &'a [u8]) -> Self {
        let zones = Section { file, start: 0 };
        let start = zones.end();
        let channels = Section { file, start };
        let start = channels.end();
        let label = Section { file, start };
        Self {
            file,
            zones,
            channels,
            label,
        }
    }

    /// Every faulty part. Behind a fault there may be more that only follow from it; they lie to its
    /// right, so that the leftmost is never one of them.
    fn faults(&self) -> Vec<Fault> {
        let faults = [
            self.zones.faulty_count(MOST_ZONES),
            self.zones.cut_entries(),
            self.zones.entries_out_of_range(ZONE),
            self.zones.entries_out_of_order(),
            self.illegal_pair(),
            self.channels.faulty_count(MOST_CHANNELS),
            self.channels.cut_entries(),
            self.channels.entries_out_of_range(CHANNEL),
            self.channels.entries_out_of_order(),
            self.resting_channels(),
            self.label.faulty_count(MOST_TEXT),
            self.faulty_label(),
            self.bytes_after_label(),
        ];
        faults.concat()
    }

    /// The pair of zones, which stands where their section ends.
    fn illegal_pair(&self) -> Vec<Fault> {
        let [lower, upper] = [0, 1].map(|number| self.zone(number)[1]);
        match MpeLayout::new(lower, upper) {
            Ok(_) => vec![],
            Err(_) => vec![(self.zones.end(), Refusal::OutOfRange)],
        }
    }

    /// The whole entries of channels at rest.
    fn resting_channels(&self) -> Vec<Fault> {
        self.channels
            .whole()
            .filter(|(_, entry)| is_at_rest(*entry))
            .map(|(place, _)| (place, Refusal::OutOfOrder))
            .collect()
    }

    /// A label that the file has not whole, or with a byte that is no text.
    fn faulty_label(&self) -> Vec<Fault> {
        let place = self.label.place(0);
        match self.label() {
            None => vec![(place, Refusal::WrongLength)],
            Some(label) if !is_text(label) => vec![(place, Refusal::OutOfRange)],
            Some(_) => vec![],
        }
    }

    /// Bytes where the file was to end.
    fn bytes_after_label(&self) -> Vec<Fault> {
        let end = self.label.end();
        match self.file.len() > end {
            true => vec![(end, Refusal::WrongLength)],
            false => vec![],
        }
    }

    /// What is read for a zone.
    fn zone(&self, number: u8) -> ZoneEntry {
        self.zones.entry_of(number).unwrap_or(NO_ZONE)
    }

    /// What is read for a channel.
    fn channel(&self, number: u8) -> ChannelEntry {
        self.channels.entry_of(number).unwrap_or(REST)
    }

    /// The part of the file that holds the label, if the file has it whole.
    fn label(&self) -> Option<&'a [u8]> {
        self.file.get(self.label.place(0)..self.label.end())
    }

    /// The settings of a file without a fault.
    fn settings(&self) -> Settings {
        let [lower, upper] = [0, 1].map(|number| self.zone(number));
        Settings {
            lower: lower[1],
            upper: upper[1],
            zones: [lower, upper].map(zone_settings),
            channels: std::array::from_fn(|number| channel_settings(self.channel(number as u8))),
        }
    }
}

fn zone_settings([_, _, s, t, a, b, mode]: ZoneEntry) -> ZoneSettings {
    let sensitivity = |semitones, cents| MpeSensitivity { semitones, cents };
    ZoneSettings {
        manager: sensitivity(s, t),
        member: sensitivity(a, b),
        mode,
    }
}

fn channel_settings([_, msb, lsb, pressure, brightness]: ChannelEntry) -> ChannelSettings {
    ChannelSettings {
        bend: u16::from(msb) * 128 + u16::from(lsb),
        pressure,
        brightness,
    }
}

/// The settings of a file and its label, or the refusal of its leftmost faulty part. The program
/// stops if a file that is taken is not the one that is written of what was read.
pub fn read(file: &[u8]) -> Result<(Settings, &[u8]), Refusal> {
    let sections = Sections::of(file);
    if let Some((_, refusal)) = sections.faults().into_iter().min() {
        return Err(refusal);
    }
    let settings = sections.settings();
    let label = sections.label().expect("a whole label is no fault");
    assert!(
        written(&settings, label) == Ok(file.to_vec()),
        "a file is read that is not written"
    );
    Ok((settings, label))
}

/// The file of legal settings and a label.
pub fn written(settings: &Settings, label: &[u8]) -> Result<Vec<u8>, Refusal> {
    settings.legal_layout()?;
    if label.len() > usize::from(MOST_TEXT) || !is_text(label) {
        return Err(Refusal::OutOfRange);
    }
    let zones: Vec<ZoneEntry> = zone_entries(settings);
    let channels: Vec<ChannelEntry> = channel_entries(settings);
    let mut file = vec![zones.len() as u8];
    file.extend(zones.concat());
    file.push(channels.len() as u8);
    file.extend(channels.concat());
    file.push(label.len() as u8);
    file.extend(label);
    Ok(file)
}

/// The entries of the zones with members.
fn zone_entries(settings: &Settings) -> Vec<ZoneEntry> {
    let entry = |(zone, set): (MpeZone, &ZoneSettings)| {
        let (number, members) = match zone {
            MpeZone::Lower => (0, settings.lower),
            MpeZone::Upper => (1, settings.upper),
        };
        let (manager, member) = (set.manager, set.member);
        [
            number,
            members,
            manager.semitones,
            manager.cents,
            member.semitones,
            member.cents,
            set.mode,
        ]
    };
    settings.active().map(entry).collect()
}

/// The entries of the channels that are not at rest.
fn channel_entries(settings: &Settings) -> Vec<ChannelEntry> {
    let entries = (0..16).zip(&settings.channels).map(|(number, set)| {
        let [msb, lsb] = [set.bend / 128, set.bend % 128].map(|half| half as u8);
        [number, msb, lsb, set.pressure, set.brightness]
    });
    entries.filter(|entry| !is_at_rest(*entry)).collect()
}
