//! The items of a trace, up to a count: printed one a line, or kept.

use std::io::{self, BufWriter, StdoutLock, Write};

/// One operation byte and its arguments.
pub type Item = Vec<u8>;

/// Prints a trace on standard output.
pub struct Printer {
    output: BufWriter<StdoutLock<'static>>,
}

impl Printer {
    pub fn new() -> Self {
        Self {
            output: BufWriter::new(io::stdout().lock()),
        }
    }

    fn line(&mut self, line: &str) {
        // Who reads the trace may have seen enough of it.
        if writeln!(self.output, "{line}").is_err() {
            std::process::exit(0);
        }
    }

    pub fn item(&mut self, item: &[u8]) {
        let digit = |value: u8| char::from(b"0123456789ABCDEF"[usize::from(value)]);
        let mut line = String::with_capacity(3 * item.len());
        for (at, byte) in item.iter().enumerate() {
            if at > 0 {
                line.push(' ');
            }
            line.extend([digit(byte >> 4), digit(byte & 0xF)]);
        }
        self.line(&line);
    }

    pub fn items(&mut self, items: &[Item]) {
        items.iter().for_each(|item| self.item(item));
    }

    pub fn comment(&mut self, text: &str) {
        self.line(&format!("# {text}"));
    }
}

enum Place {
    Printed(Printer),
    Kept(Vec<Item>),
}

/// Where the phrases put their items.
pub struct Items {
    left: u64,
    place: Place,
}

impl Items {
    /// `count` items, to be printed.
    pub fn printed(count: u64) -> Self {
        Self {
            left: count,
            place: Place::Printed(Printer::new()),
        }
    }

    /// `count` items, to be kept.
    pub fn kept(count: u64) -> Self {
        Self {
            left: count,
            place: Place::Kept(Vec::new()),
        }
    }

    /// Whether the items are still short of their count.
    pub fn wanted(&self) -> bool {
        self.left > 0
    }

    /// Prints or keeps one item; nothing where the count is reached.
    pub fn put(&mut self, item: &[u8]) {
        if self.left == 0 {
            return;
        }
        self.left -= 1;
        match &mut self.place {
            Place::Printed(printer) => printer.item(item),
            Place::Kept(items) => items.push(item.to_vec()),
        }
    }

    /// The items that were kept so far.
    pub fn take(&mut self) -> Vec<Item> {
        match &mut self.place {
            Place::Printed(_) => Vec::new(),
            Place::Kept(items) => std::mem::take(items),
        }
    }
}
