// Stand-in: sequence numbers of one bit.
#[derive(Debug, Copy, Clone, PartialEq, Eq)]
pub struct SeqNum(bool);

impl SeqNum {
    pub const ZERO: Self = SeqNum(false);
    pub const ONE: Self = SeqNum(true);
}

impl core::ops::Add for SeqNum {
    type Output = Self;
    fn add(self, other: Self) -> Self {
        SeqNum(self.0 ^ other.0)
    }
}

impl core::ops::AddAssign for SeqNum {
    fn add_assign(&mut self, other: Self) {
        *self = *self + other;
    }
}
