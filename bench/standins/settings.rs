// What the settings of a drive say, without the text that says it.
use units::{Splits, Stride};

pub struct Settings {
    pub splits: Splits,
    pub stride: Stride,
    pub epsilon: u64,
    pub workers: u64,
    pub transactions: u64,
    pub keys: u64,
    pub dir: Option<String>,
}
