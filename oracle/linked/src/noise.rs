//! What stands in the slices before a call.

use judge::generate::random::Random;

/// Numbers to fill slices with.
const POOL: usize = 40_009;
/// Numbers between the beginnings of two fillings.
const STEP: usize = 7_919;
/// The longest filling, in numbers.
const LONGEST: usize = 16_000;

/// Random numbers, most of them such as the port writes itself; every filling begins elsewhere.
pub struct Noise {
    numbers: Vec<u32>,
    bytes: Vec<u8>,
    at: usize,
}

impl Noise {
    pub fn new(seed: u64) -> Self {
        let mut random = Random::of(&[seed]);
        let bounds = [2, 8, 65, 513, 4_161, 61_441, 1 << 32];
        let mut number = || {
            let bound = random.pick(&bounds);
            random.below(bound) as u32
        };
        let numbers: Vec<u32> = (0..POOL).map(|_| number()).collect();
        let bytes = numbers.iter().flat_map(|number| number.to_le_bytes()).collect();
        Self { numbers, bytes, at: 0 }
    }

    /// The fillings of a case depend on its number, not on the cases before it.
    pub fn begin(&mut self, case: u64) {
        self.at = (case % POOL as u64) as usize * STEP % (POOL - LONGEST);
    }

    /// Behind which place the next filling begins.
    pub fn place(&self) -> usize {
        self.at
    }

    pub fn set_place(&mut self, place: usize) {
        self.at = place;
    }

    /// Where the next filling begins.
    pub fn next_place(&mut self) -> usize {
        self.at = (self.at + STEP) % (POOL - LONGEST);
        self.at
    }
}

/// What a slice holds: numbers or bytes.
pub trait Element: Copy + Default + PartialEq + std::ops::BitOr<Output = Self> {
    /// The filling that begins at a place.
    fn filling(noise: &Noise, place: usize) -> &[Self];
}

impl Element for u32 {
    fn filling(noise: &Noise, place: usize) -> &[u32] {
        &noise.numbers[place..][..LONGEST]
    }
}

impl Element for u8 {
    fn filling(noise: &Noise, place: usize) -> &[u8] {
        &noise.bytes[4 * place..][..4 * LONGEST]
    }
}
