//! Upstream's crate `zmidi_io`, as far as the MPE part goes. The modules are upstream's own files;
//! this file stands in for upstream's `lib.rs`.

include!(concat!(env!("OUT_DIR"), "/modules.rs"));

pub use parameters::{Parameter, ParameterChange, ParameterEvent, ParameterState};
