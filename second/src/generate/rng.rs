//! A small seeded source of chance (splitmix64).

pub struct Rng(u64);

impl Rng {
    pub fn new(seed: u64) -> Rng {
        Rng(seed)
    }

    pub fn number(&mut self) -> u64 {
        self.0 = self.0.wrapping_add(0x9E37_79B9_7F4A_7C15);
        let mut z = self.0;
        z = (z ^ (z >> 30)).wrapping_mul(0xBF58_476D_1CE4_E5B9);
        z = (z ^ (z >> 27)).wrapping_mul(0x94D0_49BB_1331_11EB);
        z ^ (z >> 31)
    }

    /// A number under `bound`, which isn't 0.
    pub fn below(&mut self, bound: u64) -> u64 {
        ((u128::from(self.number()) * u128::from(bound)) >> 64) as u64
    }

    pub fn index(&mut self, bound: usize) -> usize {
        self.below(bound as u64) as usize
    }

    pub fn one_in(&mut self, bound: u64) -> bool {
        self.below(bound) == 0
    }

    pub fn pick<'a, T>(&mut self, from: &'a [T]) -> &'a T {
        &from[self.index(from.len())]
    }

    /// Lends one at random, if there is any.
    pub fn pick_mut<'a, T>(&mut self, from: &'a mut [T]) -> Option<&'a mut T> {
        let bound = from.len().max(1);
        from.get_mut(self.index(bound))
    }

    pub fn shuffle<T>(&mut self, list: &mut [T]) {
        for last in (1..list.len()).rev() {
            list.swap(last, self.index(last + 1));
        }
    }

    /// Puts one of the list into it a second time, if there is any.
    pub fn repeat<T: Clone>(&mut self, list: &mut Vec<T>) {
        if let Some(copy) = self.pick_mut(list).cloned() {
            list.insert(self.index(list.len() + 1), copy);
        }
    }

    /// Takes one out of the list, if there is any.
    pub fn remove<T>(&mut self, list: &mut Vec<T>) {
        if !list.is_empty() {
            list.remove(self.index(list.len()));
        }
    }

    /// Up to `most` bytes of any value.
    pub fn bytes(&mut self, most: usize) -> Vec<u8> {
        let length = self.index(most + 1);
        (0..length).map(|_| self.number() as u8).collect()
    }

    /// A number of any size, often near a power of two.
    pub fn any_size(&mut self) -> u64 {
        let number = self.number() >> self.below(64);
        match self.below(4) {
            0 => 1 << self.below(64),
            1 => (1 << self.below(64)) - 1,
            2 => u64::MAX - self.below(130),
            _ => number,
        }
    }
}
