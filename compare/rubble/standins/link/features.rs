// Stand-in: no compared path exchanges features.
#[derive(Debug, Copy, Clone)]
pub struct FeatureSet;

impl FeatureSet {
    pub fn supported() -> Self {
        FeatureSet
    }
}

impl core::ops::BitAnd for FeatureSet {
    type Output = Self;
    fn bitand(self, _other: Self) -> Self {
        FeatureSet
    }
}
