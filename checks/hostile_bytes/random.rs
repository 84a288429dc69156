//! Numbers that are drawn from a seed, and what is drawn by them.

pub struct Random(u64);

/// Bytes at which readers turn: the ends of lines and words, the neighbours of digits and letters, and the first and last of what a key has.
const TURNS: &[u8] = b"\r\n\0\t %-+=#mM019/:@AFGafgVEN\x1f\x20\x21\x7e\x7f\x80\xff";

impl Random {
    pub fn new(seed: u64) -> Random {
        let mut random = Random(seed.wrapping_mul(0x9e37_79b9_7f4a_7c15) | 1);
        for _ in 0..8 {
            random.next();
        }
        random
    }

    // Marsaglia's xorshift, with the multiplication of Vigna
    pub fn next(&mut self) -> u64 {
        self.0 ^= self.0 >> 12;
        self.0 ^= self.0 << 25;
        self.0 ^= self.0 >> 27;
        self.0.wrapping_mul(0x2545_f491_4f6c_dd1d)
    }

    /// A number below `count`.
    pub fn below(&mut self, count: usize) -> usize {
        ((self.next() >> 11) % count as u64) as usize
    }

    /// Whether it is one of `count` equal chances.
    pub fn one_in(&mut self, count: usize) -> bool {
        self.below(count) == 0
    }

    pub fn pick<'a, T: ?Sized>(&mut self, choices: &[&'a T]) -> &'a T {
        choices[self.below(choices.len())]
    }

    /// A number from `least` to `most`: often one of the two or near them, else a small one or any.
    pub fn number(&mut self, least: u64, most: u64) -> u64 {
        let near = self.below(3) as u64;
        let drawn = match self.below(6) {
            0 => most.saturating_sub(near),
            1 => least.saturating_add(near),
            2 | 3 => least + self.below(100) as u64,
            _ => {
                let any = self.next() >> self.below(64);
                least + if most - least == u64::MAX { any } else { any % (most - least + 1) }
            }
        };
        drawn.clamp(least, most)
    }

    /// A byte: any, or one at which readers turn.
    pub fn byte(&mut self) -> u8 {
        if self.one_in(2) { self.next() as u8 } else { TURNS[self.below(TURNS.len())] }
    }

    /// The bytes of a key: mostly few and plain.
    pub fn key(&mut self) -> Vec<u8> {
        let len = match self.below(40) {
            0 => 250 - self.below(3),
            1 => 1 + self.below(250),
            _ => 1 + self.below(6),
        };
        let plain = !self.one_in(4);
        let mut key = Vec::new();
        while key.len() < len {
            let byte = if plain { b'a' + self.below(26) as u8 } else { self.byte() };
            if byte > 0x20 && byte != 0x7f {
                key.push(byte);
            }
        }
        key
    }

    /// The bytes of data: mostly few; seldom as many as there may be, or about as many.
    pub fn data(&mut self, most: usize) -> Vec<u8> {
        let len = match self.below(20_000) {
            0 => most - self.below(3),
            1..=300 => self.below(400),
            _ => self.below(12),
        };
        if len > 1_000 {
            return vec![self.byte(); len];
        }
        (0..len).map(|_| self.byte()).collect()
    }
}
