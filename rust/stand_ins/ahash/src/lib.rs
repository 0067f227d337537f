//! Stand-in for the names of ahash that the crate's texts use, over std's maps and a hasher of a few operations, so that the
//! baseline of a benchmark is not slowed down by std's own hasher.
use std::hash::{BuildHasher, Hasher};

pub type HashMap<K, V> = std::collections::HashMap<K, V, Folding>;
pub type HashSet<K> = std::collections::HashSet<K, Folding>;

pub trait HashMapExt {
    fn new() -> Self;
    fn with_capacity(capacity: usize) -> Self;
}

impl<K, V> HashMapExt for HashMap<K, V> {
    fn new() -> Self {
        Self::with_hasher(Folding)
    }
    fn with_capacity(capacity: usize) -> Self {
        Self::with_capacity_and_hasher(capacity, Folding)
    }
}

#[derive(Clone, Copy, Default)]
pub struct Folding;

impl BuildHasher for Folding {
    type Hasher = Folded;
    #[inline]
    fn build_hasher(&self) -> Folded {
        Folded(0x243f_6a88_85a3_08d3)
    }
}

/// Multiplies into 128 bits and folds the halves together, as ahash's fallback does.
pub struct Folded(u64);

impl Hasher for Folded {
    #[inline]
    fn write_u64(&mut self, value: u64) {
        let wide = u128::from(self.0 ^ value) * u128::from(0x5851_f42d_4c95_7f2d_u64);
        self.0 = (wide as u64) ^ ((wide >> 64) as u64);
    }
    fn write(&mut self, bytes: &[u8]) {
        for byte in bytes {
            self.write_u64(u64::from(*byte));
        }
    }
    #[inline]
    fn finish(&self) -> u64 {
        self.0.rotate_left((self.0 & 63) as u32)
    }
}
