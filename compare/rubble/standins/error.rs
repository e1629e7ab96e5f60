// Stand-in: rubble's errors by the three names that its files use.
#[derive(Debug, Copy, Clone, PartialEq, Eq)]
pub enum Error {
    InvalidLength,
    InvalidValue,
    Eof,
}
