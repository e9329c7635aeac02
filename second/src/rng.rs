//! A small seeded source of numbers (splitmix64): the same seed gives the same
//! numbers on every machine.

pub struct Rng(u64);

impl Rng {
    /// Each case of each kind has a source of its own, so that it can be made
    /// again alone.
    pub fn for_case(seed: u64, kind: u64, index: u64) -> Self {
        let of_seed = Rng(seed).draw();
        let of_kind = Rng(of_seed ^ kind).draw();
        Rng(of_kind ^ index)
    }

    /// A source beside this one: whatever it draws, this one goes on the same.
    pub fn beside(&self) -> Self {
        Rng(Rng(!self.0).draw())
    }

    pub fn draw(&mut self) -> u64 {
        self.0 = self.0.wrapping_add(0x9E37_79B9_7F4A_7C15);
        let z = (self.0 ^ (self.0 >> 30)).wrapping_mul(0xBF58_476D_1CE4_E5B9);
        let z = (z ^ (z >> 27)).wrapping_mul(0x94D0_49BB_1331_11EB);
        z ^ (z >> 31)
    }

    /// A number in 0..n, for n above 0.
    pub fn below(&mut self, n: usize) -> usize {
        (self.draw() % n as u64) as usize
    }

    /// A number in low..=high.
    pub fn between(&mut self, low: i32, high: i32) -> i32 {
        let width = (i64::from(high) - i64::from(low) + 1) as u64;
        (i64::from(low) + (self.draw() % width) as i64) as i32
    }

    /// A number of minutes in 0..=high.
    pub fn up_to(&mut self, high: u32) -> u32 {
        (self.draw() % (u64::from(high) + 1)) as u32
    }

    pub fn one_in(&mut self, n: usize) -> bool {
        self.below(n) == 0
    }

    pub fn pick<T: Copy>(&mut self, choices: &[T]) -> T {
        choices[self.below(choices.len())]
    }
}
