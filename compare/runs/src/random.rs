//! Random numbers that a seed decides.

/// SplitMix64.
pub struct Random(u64);

impl Random {
    /// The numbers of a seed.
    pub fn new(seed: u64) -> Self {
        Random(seed)
    }

    /// Any 64 bits.
    pub fn bits(&mut self) -> u64 {
        self.0 = self.0.wrapping_add(0x9E37_79B9_7F4A_7C15);
        let mut z = self.0;
        z = (z ^ (z >> 30)).wrapping_mul(0xBF58_476D_1CE4_E5B9);
        z = (z ^ (z >> 27)).wrapping_mul(0x94D0_49BB_1331_11EB);
        z ^ (z >> 31)
    }

    /// A number from 0 up to and with `most`.
    pub fn upto(&mut self, most: u64) -> u64 {
        ((self.bits() as u128 * (most as u128 + 1)) >> 64) as u64
    }

    /// Yes, once in `times`.
    pub fn once_in(&mut self, times: u64) -> bool {
        self.upto(times - 1) == 0
    }

    /// One of these, each as often as the number beside it says.
    pub fn weighted<C: Copy>(&mut self, choices: &[(u64, C)]) -> C {
        let all: u64 = choices.iter().map(|(weight, _)| weight).sum();
        let mut left = self.upto(all - 1);
        for &(weight, choice) in choices {
            if left < weight {
                return choice;
            }
            left -= weight;
        }
        unreachable!("less than all weights together is drawn")
    }

    /// One of these.
    pub fn one_of<C: Copy>(&mut self, choices: &[C]) -> C {
        choices[self.upto(choices.len() as u64 - 1) as usize]
    }
}
