//! The text of a trace, as pairs of hexadecimal digits.

use std::io::{self, BufReader, Read};

/// What the text has next.
pub enum Next {
    Pair(u8),
    End,
    Broken,
}

/// Reads pairs from a text of any length, part by part.
pub struct Pairs<R> {
    text: io::Bytes<BufReader<R>>,
    /// A pair has just been read, and nothing after it.
    joined: bool,
}

/// The value of a hexadecimal digit.
fn digit(character: u8) -> Option<u8> {
    let value = char::from(character).to_digit(16)?;
    Some(value as u8)
}

fn is_line_end(character: u8) -> bool {
    character == b'\n' || character == b'\r'
}

impl<R: Read> Pairs<R> {
    pub fn new(input: R) -> Self {
        Self {
            text: BufReader::with_capacity(1 << 16, input).bytes(),
            joined: false,
        }
    }

    fn character(&mut self) -> io::Result<Option<u8>> {
        self.text.next().transpose()
    }

    /// Skips a comment with its line end.
    fn skip_comment(&mut self) -> io::Result<()> {
        while let Some(character) = self.character()? {
            if is_line_end(character) {
                break;
            }
        }
        Ok(())
    }

    /// The pair that begins with the digit `high`.
    fn pair(&mut self, high: u8) -> io::Result<Next> {
        if self.joined {
            return Ok(Next::Broken);
        }
        let Some(low) = self.character()?.and_then(digit) else {
            return Ok(Next::Broken);
        };
        self.joined = true;
        Ok(Next::Pair(high << 4 | low))
    }

    /// The next pair. Spaces, line ends and comments before it are passed over.
    pub fn next(&mut self) -> io::Result<Next> {
        while let Some(character) = self.character()? {
            match (character, digit(character)) {
                (b' ' | b'\n' | b'\r', _) => self.joined = false,
                (b'#', _) => {
                    self.skip_comment()?;
                    self.joined = false;
                }
                (_, Some(high)) => return self.pair(high),
                _ => return Ok(Next::Broken),
            }
        }
        Ok(Next::End)
    }
}
