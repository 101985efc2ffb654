//! Numbers that look drawn by lot and are the same for the same seed (the splitmix64 rule).

pub struct Rng {
    state: u64,
}

impl Rng {
    pub fn new(seed: u64) -> Rng {
        Rng { state: seed }
    }

    /// The next 64 bits.
    pub fn bits(&mut self) -> u64 {
        self.state = self.state.wrapping_add(0x9E37_79B9_7F4A_7C15);
        let mut z = self.state;
        z = (z ^ (z >> 30)).wrapping_mul(0xBF58_476D_1CE4_E5B9);
        z = (z ^ (z >> 27)).wrapping_mul(0x94D0_49BB_1331_11EB);
        z ^ (z >> 31)
    }

    /// A number from `least` to `most`, both included; `least` if they are the wrong way round.
    pub fn between(&mut self, least: u64, most: u64) -> u64 {
        if most <= least {
            return least;
        }
        let span = u128::from(most - least) + 1;
        least + (u128::from(self.bits()) % span) as u64
    }

    /// The same for the words of a table.
    pub fn word(&mut self, least: u32, most: u32) -> u32 {
        self.between(u64::from(least), u64::from(most)) as u32
    }

    /// An index below `count`; 0 if there is none.
    pub fn index(&mut self, count: usize) -> usize {
        self.between(0, (count as u64).saturating_sub(1)) as usize
    }

    /// True `part` times out of `whole`.
    pub fn chance(&mut self, part: u64, whole: u64) -> bool {
        self.between(1, whole) <= part
    }

    /// One of these. The list must not be empty; every list in this program is written out or known to have one.
    pub fn pick<A: Copy>(&mut self, list: &[A]) -> A {
        list[self.index(list.len())]
    }
}
