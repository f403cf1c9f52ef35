// A seeded generator (splitmix64) and the few draws that the cases need.
// It is not for secrets and takes nothing from the clock: one seed, one sequence.

pub struct Random {
    state: u64,
}

impl Random {
    pub fn new(seed: u64) -> Random {
        Random { state: seed }
    }

    /// A sequence of its own for each kind, so that a new kind leaves the others' cases alone.
    pub fn for_kind(seed: u64, kind: u32) -> Random {
        let mut mixer = Random::new(seed);
        let start = mixer.next() ^ (u64::from(kind) << 32);
        let mut random = Random::new(start);
        random.next();
        random
    }

    /// The seed of a chunk of a long run: the number, counted from 0, that the generator gives from
    /// the run's seed. It gives none twice before it has given all, so no two chunks have one seed.
    pub fn seed_of_chunk(seed: u64, chunk: u64) -> u64 {
        let mut random = Random::new(seed);
        for _ in 0..chunk {
            random.next();
        }
        random.next()
    }

    pub fn next(&mut self) -> u64 {
        self.state = self.state.wrapping_add(0x9E37_79B9_7F4A_7C15);
        let mut mixed = self.state;
        mixed = (mixed ^ (mixed >> 30)).wrapping_mul(0xBF58_476D_1CE4_E5B9);
        mixed = (mixed ^ (mixed >> 27)).wrapping_mul(0x94D0_49BB_1331_11EB);
        mixed ^ (mixed >> 31)
    }

    pub fn number(&mut self) -> u32 {
        (self.next() >> 32) as u32
    }

    /// 0 to bound - 1. The slight unevenness does no harm to cases.
    pub fn below(&mut self, bound: usize) -> usize {
        (self.next() % bound as u64) as usize
    }

    /// first to last, both included.
    pub fn between(&mut self, first: u32, last: u32) -> u32 {
        let count = u64::from(last) - u64::from(first) + 1;
        first + (self.next() % count) as u32
    }

    pub fn one_in(&mut self, count: usize) -> bool {
        self.below(count) == 0
    }

    pub fn pick<Item: Copy>(&mut self, items: &[Item]) -> Item {
        items[self.below(items.len())]
    }

    pub fn shuffle<Item>(&mut self, items: &mut [Item]) {
        for last in (1..items.len()).rev() {
            let other = self.below(last + 1);
            items.swap(last, other);
        }
    }
}
