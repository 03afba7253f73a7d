//! Generators of texts and trees. Each is fixed by its seed and counts.

pub mod archive;
pub mod bytes;
pub mod column_out;
pub mod damage;
pub mod half_rows;
pub mod limits;
pub mod needs;
pub mod places;
pub mod sequences;
pub mod texts;
pub mod trees;

/// What generators hand their texts to.
pub type Visit<'a> = &'a mut dyn FnMut(&[u8]);

/// A small random number generator (splitmix64).
pub struct Random(u64);

impl Random {
    pub fn new(seed: u64) -> Random {
        Random(seed)
    }

    pub fn word(&mut self) -> u64 {
        self.0 = self.0.wrapping_add(0x9e37_79b9_7f4a_7c15);
        let mut word = self.0;
        word = (word ^ (word >> 30)).wrapping_mul(0xbf58_476d_1ce4_e5b9);
        word = (word ^ (word >> 27)).wrapping_mul(0x94d0_49bb_1331_11eb);
        word ^ (word >> 31)
    }

    /// 0 to `count` - 1.
    pub fn below(&mut self, count: usize) -> usize {
        (self.word() % count as u64) as usize
    }

    pub fn between(&mut self, least: usize, most: usize) -> usize {
        least + self.below(most - least + 1)
    }

    pub fn one_in(&mut self, count: usize) -> bool {
        self.below(count) == 0
    }

    pub fn pick<'a, T: ?Sized>(&mut self, from: &[&'a T]) -> &'a T {
        from[self.below(from.len())]
    }

    /// A character of any sort.
    pub fn character(&mut self) -> char {
        const ODD: [u32; 20] = [
            0xa0, 0xad, 0xb2, 0xb5, 0xbd, 0xdf, 0x3bc, 0x660, 0x665, 0x969, 0x2019, 0x200b, 0x2028,
            0x2160, 0x2460, 0x3000, 0xfeff, 0xff15, 0xfffd, 0x1d7d8,
        ];
        loop {
            let (least, most) = match self.below(8) {
                0 | 1 => (0x20, 0x7e),
                2 => (0, 0x1f),
                3 => (0x7f, 0xff),
                4 => (0x100, 0x7ff),
                5 => (0x800, 0xffff),
                6 => (0x1_0000, 0x10_ffff),
                _ => {
                    let odd = ODD[self.below(ODD.len())];
                    (odd, odd)
                }
            };
            if let Some(character) =
                char::from_u32(self.between(least as usize, most as usize) as u32)
            {
                return character;
            }
        }
    }
}
