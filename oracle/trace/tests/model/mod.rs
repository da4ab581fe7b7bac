//! A second translation, written by hand from the rules of M2-104 D.3, RP-015 and M2-115 as
//! upstream's comments tell them, apart from upstream's code: by bits, by named values and with no
//! bytes of a record.

/// Widening by bits: at or below the centre the value shifted; above it each bit below the value's
/// own equals the bit s - 1 places above it. A 1-bit value goes to 0 or to the highest.
pub fn widened(value: u32, s: u32, d: u32) -> u32 {
    let shifted = u64::from(value) << (d - s);
    if value <= 1 << (s - 1) && (s > 1 || value == 0) {
        return shifted as u32;
    }
    if s == 1 {
        return (0..d).fold(0, |all, bit| all | 1 << bit);
    }
    let mut bits = shifted;
    for place in (0..d - s).rev() {
        bits |= (bits >> (place + s - 1) & 1) << place;
    }
    bits as u32
}

/// The upper part of the value, where it is cut off.
pub fn narrowed(value: u32, s: u32, d: u32) -> u32 {
    (u64::from(value) / 2u64.pow(s - d)) as u32
}

pub fn widened_by_zeros(value: u32, s: u32, d: u32) -> u32 {
    (u64::from(value) * 2u64.pow(d - s)) as u32
}

/// The nearest value, halves up, and no more than the highest.
pub fn narrowed_to_nearest(value: u32, s: u32, d: u32) -> u32 {
    let step = 2u64.pow(s - d);
    let nearest = (2 * u64::from(value) + step) / (2 * step);
    nearest.min(2u64.pow(d) - 1) as u32
}

#[derive(Clone, Copy, PartialEq)]
enum Selected {
    Nothing,
    Registered,
    Assignable,
}

/// A parameter number: what came of its two halves.
#[derive(Clone, Copy, PartialEq)]
struct Number {
    msb: Option<u8>,
    lsb: Option<u8>,
}

impl Number {
    fn whole(self) -> Option<(u8, u8)> {
        Some((self.msb?, self.lsb?))
    }
}

const NULL: Number = Number {
    msb: Some(127),
    lsb: Some(127),
};

/// What is held of one channel.
#[derive(Clone, Copy)]
pub struct Held {
    registered: Number,
    assignable: Number,
    selected: Selected,
    /// The last controller 6.
    entry: Option<u8>,
    /// It is still to go out.
    waits: bool,
    /// Controller 121 came meanwhile.
    null_follows: bool,
    bank: Number,
}

fn value_of(byte: u8) -> Option<u8> {
    byte.checked_sub(1)
}

fn byte_of(value: Option<u8>) -> u8 {
    value.map_or(0, |value| value + 1)
}

impl Held {
    /// From the eight bytes, which must be such as messages give.
    pub fn of([a, b, c, d, entry, msb, lsb, flags]: [u8; 8]) -> Self {
        let number = |msb, lsb| Number {
            msb: value_of(msb),
            lsb: value_of(lsb),
        };
        Self {
            registered: number(a, b),
            assignable: number(c, d),
            selected: match flags % 4 {
                0 => Selected::Nothing,
                1 => Selected::Registered,
                _ => Selected::Assignable,
            },
            entry: value_of(entry),
            waits: flags >= 4,
            null_follows: flags >= 8,
            bank: number(msb, lsb),
        }
    }

    pub fn bytes(&self) -> [u8; 8] {
        let kind = match self.selected {
            Selected::Nothing => 0,
            Selected::Registered => 1,
            Selected::Assignable => 2,
        };
        let flags = kind + if self.waits { 4 } else { 0 } + if self.null_follows { 8 } else { 0 };
        [
            byte_of(self.registered.msb),
            byte_of(self.registered.lsb),
            byte_of(self.assignable.msb),
            byte_of(self.assignable.lsb),
            byte_of(self.entry),
            byte_of(self.bank.msb),
            byte_of(self.bank.lsb),
            flags,
        ]
    }

    /// The selected parameter's message with a 14-bit value; none without a whole number, and none
    /// for the null number. The first word comes without group and channel.
    fn parameter(&self, msb: u8, lsb: u8) -> Option<[u32; 2]> {
        let value = u32::from(msb) * 128 + u32::from(lsb);
        let (number, opcode) = match self.selected {
            Selected::Nothing => return None,
            Selected::Registered => (self.registered, 2),
            Selected::Assignable => (self.assignable, 3),
        };
        let (bank, index) = number.whole()?;
        if number == NULL {
            return None;
        }
        let data = if opcode == 2 && index <= 31 {
            widened_by_zeros(value, 14, 32)
        } else {
            widened(value, 14, 32)
        };
        Some([word(opcode, bank, index), data])
    }

    fn make_null(&mut self) {
        (self.registered, self.assignable) = (NULL, NULL);
        self.null_follows = false;
    }

    /// The entry that waits goes out with LSB 0, and a null selection follows it where 121 came.
    pub fn sent(&mut self) -> Option<[u32; 2]> {
        if !self.waits {
            return None;
        }
        let sent = self.entry.and_then(|msb| self.parameter(msb, 0));
        self.waits = false;
        if self.null_follows {
            self.make_null();
        }
        sent
    }

    /// Controllers 98 to 101.
    fn select(&mut self, controller: u8, value: u8) -> Option<[u32; 2]> {
        let sent = self.sent();
        let value = Some(value);
        match controller {
            98 => self.assignable.lsb = value,
            99 => self.assignable.msb = value,
            100 => self.registered.lsb = value,
            _ => self.registered.msb = value,
        }
        self.selected = match controller {
            98 | 99 => Selected::Assignable,
            _ => Selected::Registered,
        };
        self.entry = None;
        sent
    }

    /// Controller 6; that of registered 0/6 goes out at once.
    fn enter(&mut self, value: u8) -> Option<[u32; 2]> {
        let before = self.sent();
        (self.entry, self.waits) = (Some(value), true);
        let announces =
            self.selected == Selected::Registered && self.registered.whole() == Some((0, 6));
        match before {
            None if announces => self.sent(),
            _ => before,
        }
    }

    /// Controller 38.
    fn complete(&mut self, lsb: u8) -> Option<[u32; 2]> {
        if self.null_follows {
            return self.sent();
        }
        let msb = self.entry?;
        self.waits = false;
        self.parameter(msb, lsb)
    }

    fn controller(&mut self, controller: u8, value: u8) -> Option<[u32; 2]> {
        match controller {
            0 => {
                (self.bank.msb, self.bank.lsb) = (Some(value), Some(0));
                return None;
            }
            32 => {
                self.bank.lsb = Some(value);
                return None;
            }
            6 => return self.enter(value),
            38 => return self.complete(value),
            98..=101 => return self.select(controller, value),
            121 if self.waits => self.null_follows = true,
            121 => self.make_null(),
            _ => {}
        }
        Some([word(11, controller, 0), widened(value.into(), 7, 32)])
    }

    fn program(&mut self, program: u8) -> [u32; 2] {
        let Number { msb, lsb } = self.bank;
        self.bank = Number {
            msb: None,
            lsb: None,
        };
        let valid = msb.is_some() || lsb.is_some();
        let bank = u32::from(msb.unwrap_or(0)) * 256 + u32::from(lsb.unwrap_or(0));
        let data = u32::from(program) * 0x0100_0000 + bank;
        [word(12, 0, valid.into()), data]
    }

    /// What a message gives, the first word without group and channel.
    pub fn message(&mut self, opcode: u8, first: u8, second: u8) -> Option<[u32; 2]> {
        let velocity = |value: u8| widened(value.into(), 7, 16) * 0x1_0000;
        let whole = |value: u8| widened(value.into(), 7, 32);
        let bend = u32::from(second) * 128 + u32::from(first);
        Some(match opcode {
            8 => [word(8, first, 0), velocity(second)],
            9 if second == 0 => [word(8, first, 0), 0x8000_0000],
            9 => [word(9, first, 0), velocity(second)],
            10 => [word(10, first, 0), whole(second)],
            11 => return self.controller(first, second),
            12 => self.program(first),
            13 => [word(13, 0, 0), whole(first)],
            _ => [word(14, 0, 0), widened(bend, 14, 32)],
        })
    }
}

/// The first word of a MIDI 2.0 message, group and channel 0.
fn word(opcode: u32, first: u8, second: u8) -> u32 {
    0x4000_0000 + opcode * 0x10_0000 + u32::from(first) * 256 + u32::from(second)
}
