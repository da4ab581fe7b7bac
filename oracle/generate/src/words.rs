//! Messages as words, and the parameters and changes that go with them.

use crate::random::Random;

/// Controllers that the parameters or the receiver look at.
const CONTROLLERS: [u8; 15] = [
    0, 32, 74, 120, 121, 126, 127, 6, 38, 96, 97, 98, 99, 100, 101,
];

/// Numbers of parameters that somebody looks at.
const NUMBERS: [[u8; 2]; 10] = [
    [0, 0],
    [0, 6],
    [0, 1],
    [0, 2],
    [0, 3],
    [0, 4],
    [0, 5],
    [127, 127],
    [0, 127],
    [127, 0],
];

impl Random {
    /// A controller, mostly one that somebody looks at.
    pub fn controller(&mut self) -> u8 {
        match self.below(4) {
            0 => self.seven(),
            _ => self.one_of(&CONTROLLERS),
        }
    }

    /// A word with an opcode and its data, group 0 mostly.
    pub fn word_of(&mut self, opcode: u8, channel: u8, first: u8, second: u8) -> [u8; 4] {
        let group = match self.below(4) {
            0 => self.byte() & 0xF,
            _ => 0,
        };
        let second = match opcode {
            0xC | 0xD => 0,
            _ => second,
        };
        [0x20 | group, opcode << 4 | channel, first, second]
    }

    /// A message of any opcode.
    pub fn any_message(&mut self) -> [u8; 4] {
        let opcode = self.one_of(&[0x8, 0x9, 0xA, 0xB, 0xB, 0xB, 0xB, 0xC, 0xD, 0xE]);
        let (channel, second) = (self.channel(), self.seven());
        let first = match opcode {
            0xB => self.controller(),
            _ => self.seven(),
        };
        self.word_of(opcode, channel, first, second)
    }

    /// A word that lacks the word form, or nearly.
    pub fn bad_word(&mut self) -> [u8; 4] {
        let word = u32::from_be_bytes(self.any_message());
        let bad = match self.below(6) {
            0 => word | 0x8000,
            1 => word | 0x80,
            2 => word ^ 1 << self.below(32),
            3 => word & 0xFF0F_FFFF | (self.one_of(&[0x0, 0x7, 0xF]) << 20),
            4 => {
                let one_data = self.one_of(&[0x00C0_0000, 0x00D0_0000]);
                word & 0xFF0F_FF00 | one_data | self.one_of(&[0x01, 0x40, 0x7F])
            }
            _ => self.word(),
        };
        bad.to_be_bytes()
    }

    /// P: a parameter, as given.
    pub fn parameter(&mut self) -> [u8; 3] {
        let kind = self.one_of(&[0, 0, 0, 0, 1, 2, 2, 255]);
        let [mut high, mut low] = match self.below(3) {
            0 => [self.seven_or_so(), self.seven_or_so()],
            _ => self.one_of(&NUMBERS),
        };
        if self.once_in(10) {
            high |= self.byte() & 0x80;
            low |= self.byte() & 0x80;
        }
        [kind, high, low]
    }

    /// C: a change, as given.
    pub fn change(&mut self) -> [u8; 2] {
        let kind = self.one_of(&[0, 0, 1, 1, 2, 2, 3, 3, 255]);
        [kind, self.seven_or_so()]
    }
}
