//! Numbers that look random; the same seed gives the same ones on every machine.
pub struct Dice(u64);

impl Dice {
    /// Seeds that are near give sequences that are far apart.
    pub fn new(seed: u64) -> Dice {
        let mut dice = Dice(seed ^ 0x9E37_79B9_7F4A_7C15);
        for _ in 0..4 {
            dice.bits();
        }
        dice
    }

    /// 32 bits.
    pub fn bits(&mut self) -> u32 {
        self.0 = self.0.wrapping_mul(6364136223846793005).wrapping_add(1442695040888963407);
        let x = (self.0 >> 32) ^ (self.0 >> 29);
        (x.wrapping_mul(0xD6E8_FEB8_6659_FD93) >> 32) as u32
    }

    pub fn below(&mut self, n: usize) -> usize {
        self.bits() as usize % n
    }

    /// True so many times in a hundred.
    pub fn percent(&mut self, n: usize) -> bool {
        self.below(100) < n
    }

    pub fn byte(&mut self) -> u8 {
        self.bits() as u8
    }

    pub fn of<'a, A: ?Sized>(&mut self, l: &[&'a A]) -> &'a A {
        l[self.below(l.len())]
    }

    pub fn fill(&mut self, s: &mut [u8]) {
        for part in s.chunks_mut(4) {
            part.copy_from_slice(&self.bits().to_le_bytes()[..part.len()]);
        }
    }

    pub fn bytes(&mut self, n: usize) -> Vec<u8> {
        let mut s = vec![0; n];
        self.fill(&mut s);
        s
    }
}
