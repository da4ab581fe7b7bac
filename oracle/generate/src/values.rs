//! Values of each sort of argument, often at or near a limit.

use crate::random::Random;

/// The layouts at the edges of what is legal.
const LAYOUTS: [[u8; 2]; 16] = [
    [0, 0],
    [15, 0],
    [0, 15],
    [14, 0],
    [0, 14],
    [13, 1],
    [1, 13],
    [7, 7],
    [8, 6],
    [6, 8],
    [1, 1],
    [1, 0],
    [0, 1],
    [3, 0],
    [0, 3],
    [10, 4],
];

const ILLEGAL_LAYOUTS: [[u8; 2]; 10] = [
    [8, 7],
    [7, 8],
    [14, 1],
    [1, 14],
    [15, 1],
    [15, 15],
    [16, 0],
    [0, 16],
    [255, 255],
    [0, 128],
];

pub fn is_legal([lower, upper]: [u8; 2]) -> bool {
    lower <= 15 && upper <= 15 && (lower == 0 || upper == 0 || lower + upper <= 14)
}

impl Random {
    /// Seven bits.
    pub fn seven(&mut self) -> u8 {
        match self.below(3) {
            0 => self.one_of(&[0, 1, 2, 6, 63, 64, 65, 98, 99, 100, 126, 127]),
            _ => self.byte() & 0x7F,
        }
    }

    /// A byte that should have seven bits, and now and then has eight.
    pub fn seven_or_so(&mut self) -> u8 {
        match self.below(8) {
            0 => self.one_of(&[127, 128, 129, 255]),
            1 => self.byte(),
            _ => self.seven(),
        }
    }

    /// A channel, often a manager or beside one.
    pub fn channel(&mut self) -> u8 {
        match self.below(3) {
            0 => self.one_of(&[0, 15]),
            1 => self.one_of(&[1, 2, 3, 7, 8, 12, 13, 14]),
            _ => self.byte() & 0xF,
        }
    }

    /// A channel as given, which the call takes modulo 16.
    pub fn channel_as_given(&mut self) -> u8 {
        let channel = self.channel();
        match self.below(12) {
            0 => self.byte() & 0xF0 | channel,
            _ => channel,
        }
    }

    /// A zone, or a flag, as given.
    pub fn flag(&mut self) -> u8 {
        match self.below(16) {
            0 => self.byte(),
            _ => self.byte() & 1,
        }
    }

    /// A member count, often at a limit.
    pub fn count(&mut self) -> u8 {
        match self.below(4) {
            0 => self.one_of(&[0, 1, 6, 7, 8, 13, 14, 15, 16, 17, 127]),
            _ => self.byte() & 0xF,
        }
    }

    pub fn legal_layout(&mut self) -> [u8; 2] {
        if self.once_in(2) {
            return self.one_of(&LAYOUTS);
        }
        loop {
            let layout = [self.byte() & 0xF, self.byte() & 0xF];
            if is_legal(layout) {
                return layout;
            }
        }
    }

    /// A layout as given, now and then an illegal one.
    pub fn layout(&mut self) -> [u8; 2] {
        match self.below(16) {
            0 => self.one_of(&ILLEGAL_LAYOUTS),
            1 => [self.byte(), self.byte()],
            2 => [self.byte() & 0x1F, self.byte() & 0x1F],
            _ => self.legal_layout(),
        }
    }

    /// Fourteen bits.
    pub fn fourteen(&mut self) -> u16 {
        match self.below(3) {
            0 => {
                let limits = [
                    0, 1, 0x7F, 0x80, 0x1FFF, 0x2000, 0x2001, 0x3F80, 0x3FFE, 0x3FFF,
                ];
                self.one_of(&limits)
            }
            _ => self.word() as u16 & 0x3FFF,
        }
    }

    /// A number that should have fourteen bits, and now and then has sixteen.
    pub fn fourteen_or_so(&mut self) -> u16 {
        match self.below(8) {
            0 => self.one_of(&[0x3FFF, 0x4000, 0x4001, 0x6000, 0xFFFF]),
            1 => self.word() as u16,
            _ => self.fourteen(),
        }
    }

    /// Semitones for a writer, whose limit is 96.
    pub fn semitones(&mut self) -> u8 {
        match self.below(6) {
            0 => self.one_of(&[0, 1, 2, 48, 95, 96, 96, 97, 127, 255]),
            _ => self.below(97) as u8,
        }
    }

    /// Cents at a limit, past it, or any.
    pub fn cents_at_limit(&mut self) -> u8 {
        match self.below(3) {
            0 => self.byte(),
            _ => self.one_of(&[0, 1, 50, 98, 99, 100, 127, 128, 255]),
        }
    }

    /// Cents for a writer, whose limit is 99.
    pub fn cents(&mut self) -> u8 {
        match self.below(4) {
            0 => self.cents_at_limit(),
            _ => self.below(100) as u8,
        }
    }

    /// A sensitivity, as given: semitones and cents.
    pub fn sensitivity(&mut self) -> [u8; 2] {
        let usual = [
            [0, 0],
            [0, 1],
            [2, 0],
            [12, 0],
            [24, 0],
            [48, 0],
            [96, 0],
            [40, 96],
            [81, 92],
            [122, 88],
            [127, 127],
            [128, 128],
        ];
        match self.below(3) {
            0 => self.one_of(&usual),
            1 => [self.seven(), 0],
            _ => [self.seven_or_so(), self.seven_or_so()],
        }
    }
}
