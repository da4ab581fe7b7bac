//! Answers a trace (docs/REPLAY.md) by the Rust: reads items from a text, makes each call on
//! upstream's own code, and writes one answer line for each.

mod allocator;
mod allocator_fields;
mod answer;
mod arguments;
#[cfg(test)]
mod chance;
mod debug_text;
mod end;
mod items;
mod pairs;
mod reader;
mod record;
mod remainder;
mod restatement;
mod sensitivity;
mod setup;

use std::io::{self, Read, Write};

use arguments::Arguments;
use items::States;
use pairs::{Next, Pairs};

/// What the input has next.
enum Item {
    Call(u8, Arguments),
    End,
    Broken,
}

/// Reads one item: an operation byte and its arguments.
fn next_item(pairs: &mut Pairs<impl Read>) -> io::Result<Item> {
    let operation = match pairs.next()? {
        Next::Pair(operation) => operation,
        Next::End => return Ok(Item::End),
        Next::Broken => return Ok(Item::Broken),
    };
    let mut bytes = Vec::new();
    loop {
        // Some items go on for as long as a count in them says.
        match items::length(operation, &bytes) {
            Some(length) if bytes.len() < length => {}
            Some(_) => break,
            None => return Ok(Item::Broken),
        }
        match pairs.next()? {
            Next::Pair(byte) => bytes.push(byte),
            Next::End | Next::Broken => return Ok(Item::Broken),
        }
    }
    if !items::within_limit(operation, &bytes) {
        return Ok(Item::Broken);
    }
    Ok(Item::Call(operation, Arguments::new(bytes)))
}

/// Answers every item of `input`, in order. What cannot be read ends the run with `?`.
pub fn run(input: impl Read, output: &mut impl Write) -> io::Result<()> {
    let mut pairs = Pairs::new(input);
    let mut states = States::new();
    loop {
        match next_item(&mut pairs)? {
            Item::Call(operation, mut arguments) => {
                writeln!(output, "{}", states.answer(operation, &mut arguments))?
            }
            Item::End => break,
            Item::Broken => {
                writeln!(output, "?")?;
                break;
            }
        }
    }
    output.flush()
}
