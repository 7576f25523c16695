//! The random numbers and the digest of a stress run.

/// A generator of random numbers with 64 bits of state.
#[derive(Clone, Debug)]
pub struct Generator(u64);

impl Generator {
    /// The generator that begins at this seed.
    pub fn new(seed: u64) -> Self {
        Self(seed)
    }

    /// The next 64 bits.
    #[inline]
    pub fn next_number(&mut self) -> u64 {
        self.0 = self.0.wrapping_add(0x9E37_79B9_7F4A_7C15);
        let z = self.0;
        let z = (z ^ z >> 30).wrapping_mul(0xBF58_476D_1CE4_E5B9);
        let z = (z ^ z >> 27).wrapping_mul(0x94D0_49BB_1331_11EB);
        z ^ z >> 31
    }

    /// A word of 32 bits.
    #[inline]
    pub fn word(&mut self) -> u32 {
        (self.next_number() >> 32) as u32
    }

    /// A number below `k`, which is at least 1.
    #[inline]
    pub fn below(&mut self, k: u32) -> u32 {
        self.word() % k
    }

    /// A place in a list of `len`, which is at least 1 and has 32 bits.
    #[inline]
    pub fn place(&mut self, len: usize) -> usize {
        self.below(len as u32) as usize
    }

    /// True once in `k` times.
    #[inline]
    pub fn chance(&mut self, k: u32) -> bool {
        self.below(k) == 0
    }

    /// A word in which each bit is set once in four times.
    #[inline]
    pub fn mask(&mut self) -> u32 {
        self.word() & self.word()
    }
}

/// A digest of numbers.
#[derive(Clone, Copy, Debug, PartialEq, Eq)]
pub struct Digest(u64);

impl Digest {
    /// The digest of nothing.
    pub fn new() -> Self {
        Self(14_695_981_039_346_656_037)
    }

    /// Mixes a number in.
    #[inline]
    pub fn mix(&mut self, number: u32) {
        self.0 = (self.0 ^ u64::from(number)).wrapping_mul(1_099_511_628_211);
    }

    /// The digest so far.
    pub fn value(self) -> u64 {
        self.0
    }
}

impl Default for Digest {
    fn default() -> Self {
        Self::new()
    }
}

#[cfg(test)]
mod tests {
    use super::*;

    #[test]
    fn known_numbers() {
        // The first numbers of this well-known generator from seed 1234567.
        let mut generator = Generator::new(1_234_567);
        let numbers = [6_457_827_717_110_365_317, 3_203_168_211_198_807_973, 9_817_491_932_198_370_423];
        assert_eq!(numbers.map(|_| generator.next_number()), numbers);
        let mut upper = Generator::new(1_234_567);
        assert_eq!(upper.word(), (numbers[0] >> 32) as u32);
        assert_eq!(upper.below(10), (numbers[1] >> 32) as u32 % 10);
    }

    #[test]
    fn known_digest() {
        // Bytes give the digest that is known for the text "a".
        let mut digest = Digest::new();
        digest.mix(u32::from(b'a'));
        assert_eq!(digest.value(), 0xAF63_DC4C_8601_EC8C);
    }
}
