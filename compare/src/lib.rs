//! Both sides of the comparison. A request is a kind, numbers and octets; `ours` and `theirs` write its answer as octets, of the bit stream `stream`.
//! Where a zero length may end an area's records, `theirs` asks `padding`, for a player's name `names`, and for the settings of a connect request `settings`.
pub mod area;
pub mod counts;
pub mod device;
pub mod inputs;
pub mod made;
pub mod names;
pub mod ours;
pub mod padding;
pub mod request;
pub mod rng;
pub mod scanner;
pub mod settings;
pub mod shrink;
pub mod stream;
pub mod tables;
pub mod theirs;
pub mod wide;
