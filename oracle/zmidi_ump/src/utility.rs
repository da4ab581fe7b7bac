//! Ours, in place of upstream's module `utility`: the one message that `translate.rs` fills
//! unused places with.

#[derive(Debug, Clone, Copy, PartialEq, Eq, Hash)]
pub struct Noop;

impl Noop {
    #[allow(clippy::new_without_default)]
    pub const fn new() -> Self {
        Self
    }
}

#[derive(Debug, Clone, Copy, PartialEq, Eq, Hash)]
pub enum UtilityMessage {
    Noop(Noop),
}
