//! The sequence of draws that scripts use, and another generator for making up test cases.

const FACTOR: u32 = 1_664_525;
const SUMMAND: u32 = 1_013_904_223;

/// The draws of `fill` and `round`.
pub struct Draws {
    state: u32,
}

impl Draws {
    pub fn new(seed: u32) -> Self {
        Draws { state: seed }
    }

    /// 16 bits.
    #[inline]
    pub fn draw(&mut self) -> u32 {
        self.state = self.state.wrapping_mul(FACTOR).wrapping_add(SUMMAND);
        self.state >> 16
    }

    pub fn number(&mut self) -> u32 {
        let high = self.draw();
        high << 16 | self.draw()
    }

    pub fn numbers<const N: usize>(&mut self) -> [u32; N] {
        std::array::from_fn(|_| self.number())
    }
}

/// For test cases only (splitmix64): its low bits are as good as its high ones.
#[derive(Clone)]
pub struct Random {
    state: u64,
}

impl Random {
    pub fn new(seed: usize) -> Self {
        Random { state: seed as u64 }
    }

    pub fn next(&mut self) -> u64 {
        self.state = self.state.wrapping_add(0x9e37_79b9_7f4a_7c15);
        let mixed = (self.state ^ self.state >> 30).wrapping_mul(0xbf58_476d_1ce4_e5b9);
        let mixed = (mixed ^ mixed >> 27).wrapping_mul(0x94d0_49bb_1331_11eb);
        mixed ^ mixed >> 31
    }

    pub fn word(&mut self) -> u32 {
        self.next() as u32
    }

    pub fn below(&mut self, bound: usize) -> usize {
        (self.next() % bound as u64) as usize
    }

    pub fn one_in(&mut self, many: usize) -> bool {
        self.below(many) == 0
    }

    pub fn pick<T: Copy>(&mut self, list: &[T]) -> T {
        list[self.below(list.len())]
    }

    pub fn shuffle<T>(&mut self, list: &mut [T]) {
        for last in (1..list.len()).rev() {
            list.swap(last, self.below(last + 1));
        }
    }

    pub fn bytes(&mut self, count: usize) -> Vec<u8> {
        (0..count).map(|_| self.next() as u8).collect()
    }
}

#[cfg(test)]
mod tests {
    use super::*;

    #[test]
    fn draws_are_the_upper_halves() {
        // 0 -> 1,013,904,223 = 0x3c6ef35f -> 0x47502932
        let mut draws = Draws::new(0);
        assert_eq!((draws.draw(), draws.draw()), (0x3c6e, 0x4750));
        assert_eq!(Draws::new(0).number(), 0x3c6e_4750);
    }
}
