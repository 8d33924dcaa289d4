//! Random numbers, and keys that go to a wanted place.
use crate::model::{hash_of, Hasher, NULL};

/// A generator of numbers that depends on its seed alone.
pub struct Random(pub u64);

impl Random {
    pub fn next(&mut self) -> u64 {
        self.0 = self.0.wrapping_add(0x9e37_79b9_7f4a_7c15);
        let mut z = self.0;
        z = (z ^ (z >> 30)).wrapping_mul(0xbf58_476d_1ce4_e5b9);
        z = (z ^ (z >> 27)).wrapping_mul(0x94d0_49bb_1331_11eb);
        z ^ (z >> 31)
    }

    pub fn below(&mut self, n: u64) -> u64 {
        self.next() % n
    }

    pub fn one_in(&mut self, n: u64) -> bool {
        self.below(n) == 0
    }

    pub fn pick<T: Copy>(&mut self, from: &[T]) -> T {
        from[self.below(from.len() as u64) as usize]
    }

    /// A value to store, 2^64-1 and 0 among them, never null.
    pub fn value(&mut self) -> u64 {
        match self.below(8) {
            0 => u64::MAX,
            1 => 0,
            2 => NULL - 1,
            3 => self.next().min(NULL - 1),
            _ => self.below(1000),
        }
    }
}

pub const HASHERS: [Hasher; 3] = [Hasher::Simple, Hasher::Murmur, Hasher::Fnv];

/// The key whose fmix64 this is.
pub fn unmix(hash: u64) -> u64 {
    // the inverses modulo 2^64 of the two multipliers; x ^ (x >> 33) is its own inverse
    let b = (hash ^ (hash >> 33)).wrapping_mul(0x9cb4_b2f8_1293_37db);
    let a = (b ^ (b >> 33)).wrapping_mul(0x4f74_430c_22a5_4005);
    a ^ (a >> 33)
}

/// A key with this hash. None for Fnv, which has no quick way back.
pub fn with_hash(hasher: Hasher, hash: u64) -> Option<u64> {
    match hasher {
        Hasher::Simple => Some(hash),
        Hasher::Murmur => Some(unmix(hash)),
        Hasher::Fnv => None,
    }
}

/// A key with this home in a table of `size` cells. One in four has a hash close below 2^64 where that can be had.
pub fn with_home(random: &mut Random, hasher: Hasher, size: u64, home: u64) -> u64 {
    if hasher == Hasher::Fnv {
        loop {
            let key = random.next();
            if hash_of(hasher, key) % size == home {
                return key;
            }
        }
    }
    let turns = match random.below(4) {
        0 => u64::MAX / size - random.below(3),
        1 => random.below(3),
        _ => random.next() / size,
    };
    let hash = (turns * size + home).max(1);
    with_hash(hasher, hash).unwrap()
}

/// A key whose hash is 0.
pub fn zero_hash(hasher: Hasher) -> u64 {
    match hasher {
        Hasher::Fnv => 0x3608_8742_53b9_6bd5,
        _ => 0,
    }
}
