//! Upstream's crate `zmidi_ump`, as far as the MPE part uses it. The modules are upstream's own
//! files; this file stands in for upstream's `lib.rs`, and `ump` and `utility` for its modules of
//! these names.

include!(concat!(env!("OUT_DIR"), "/modules.rs"));
pub mod ump;
pub mod utility;

pub use channel_voice1::*;
pub use packet::{Channel, Group, MessageType, UmpError, UmpWords};
