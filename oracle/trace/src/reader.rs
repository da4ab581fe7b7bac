//! Ours: the byte reader, from document 01, "A byte arrives", and document 02, 2026-06. Upstream has
//! no such part.

/// What one byte gives.
pub enum Heard {
    Quiet,
    Dropped,
    RealTime(u8),
    /// A whole message, as a word.
    Message(u32),
}

pub struct Reader {
    /// The running status, 80 to EF.
    status: Option<u8>,
    /// The first data byte of a begun message.
    first: Option<u8>,
}

/// Opcodes C and D take one data byte, the others two.
fn takes_one(status: u8) -> bool {
    matches!(status >> 4, 0xC | 0xD)
}

/// The word of a message: type 2, group 0, the status and the data bytes.
fn word(status: u8, first: u8, second: u8) -> u32 {
    u32::from_be_bytes([0x20, status, first, second])
}

impl Reader {
    pub fn new() -> Self {
        Self {
            status: None,
            first: None,
        }
    }

    pub fn hear(&mut self, byte: u8) -> Heard {
        match byte {
            0x00..=0x7F => self.data(byte),
            0x80..=0xEF => {
                self.status = Some(byte);
                self.first = None;
                Heard::Quiet
            }
            0xF8 | 0xFA | 0xFB | 0xFC | 0xFE | 0xFF => Heard::RealTime(byte),
            0xF9 | 0xFD => Heard::Dropped,
            // F4 and F5 too, since document 02, 2026-06.
            0xF0..=0xF7 => {
                self.status = None;
                self.first = None;
                Heard::Dropped
            }
        }
    }

    fn data(&mut self, byte: u8) -> Heard {
        let Some(status) = self.status else {
            return Heard::Dropped;
        };
        if takes_one(status) {
            return Heard::Message(word(status, byte, 0));
        }
        match self.first.take() {
            Some(first) => Heard::Message(word(status, first, byte)),
            None => {
                self.first = Some(byte);
                Heard::Quiet
            }
        }
    }
}
