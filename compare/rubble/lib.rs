// The crate's root. The files of rubble and the stand-ins are copied to OUT_DIR by build.rs, which writes modules.rs.
// rubble's uuid.rs indexes out of range on purpose, where a string is malformed.
#![allow(unconditional_panic, dead_code, unused_imports, unused_macros, unused_must_use, mismatched_lifetime_syntaxes, clippy::all)]

include!(concat!(env!("OUT_DIR"), "/modules.rs"));

pub use crate::error::Error;

/// Version 4.2; no compared path looks at it.
pub const BLUETOOTH_VERSION: u8 = 0x08;
