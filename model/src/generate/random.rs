//! The random numbers behind the cases.

/// Numbers from a script, two bytes each; where it has ended, SplitMix64.
#[derive(Clone, Debug)]
pub struct Random {
    script: std::vec::IntoIter<u8>,
    state: u64,
}

impl Random {
    pub fn new(seed: u64) -> Random {
        Random { script: Vec::new().into_iter(), state: seed }
    }

    /// Numbers that a fuzzer chooses.
    pub fn scripted(script: &[u8]) -> Random {
        Random { script: Vec::from(script).into_iter(), state: 0 }
    }

    pub fn draw(&mut self) -> u64 {
        if let Some(low) = self.script.next() {
            let high = self.script.next().unwrap_or(0);
            return u64::from(u16::from_le_bytes([low, high]));
        }
        self.state = self.state.wrapping_add(0x9e37_79b9_7f4a_7c15);
        let mut z = self.state;
        z = (z ^ (z >> 30)).wrapping_mul(0xbf58_476d_1ce4_e5b9);
        z = (z ^ (z >> 27)).wrapping_mul(0x94d0_49bb_1331_11eb);
        z ^ (z >> 31)
    }

    /// A number under `limit`, which isn't 0.
    pub fn below(&mut self, limit: usize) -> usize {
        (self.draw() % limit as u64) as usize
    }

    pub fn between(&mut self, low: usize, high: usize) -> usize {
        low + self.below(high - low + 1)
    }

    pub fn chance(&mut self, percent: usize) -> bool {
        self.below(100) < percent
    }

    pub fn pick<T: Clone>(&mut self, of: &[T]) -> T {
        of[self.below(of.len())].clone()
    }

    pub fn bytes(&mut self, length: usize) -> Vec<u8> {
        (0..length).map(|_| self.draw() as u8).collect()
    }

    pub fn shuffle<T>(&mut self, of: &mut [T]) {
        for i in (1..of.len()).rev() {
            let j = self.below(i + 1);
            of.swap(i, j);
        }
    }
}
