//! Splitmix64: the same seed gives the same vectors everywhere.

/// What a generator starts from; a number gives figures too.
#[derive(Clone, Copy, Debug)]
pub struct Seed {
    number: u64,
    figures: bool,
}

impl Seed {
    /// The same trees with figures of 0.
    pub fn without_figures(number: u64) -> Seed {
        let figures = false;
        Seed { number, figures }
    }

    pub fn number(self) -> u64 {
        self.number
    }
}

impl From<u64> for Seed {
    fn from(number: u64) -> Seed {
        let figures = true;
        Seed { number, figures }
    }
}

pub struct Prng {
    state: u64,
    figures: Option<Box<Prng>>,
}

impl Prng {
    pub fn new(seed: impl Into<Seed>) -> Self {
        let Seed { number, figures } = seed.into();
        Prng {
            state: number,
            figures: figures.then(|| {
                Box::new(Prng {
                    state: number.rotate_left(32) ^ 107,
                    figures: None,
                })
            }),
        }
    }

    /// What figures are drawn from, `None` where all are to be 0.
    pub fn figures(&mut self) -> Option<&mut Prng> {
        self.figures.as_deref_mut()
    }

    /// Any number of 64 bits.
    pub fn draw(&mut self) -> u64 {
        self.state = self.state.wrapping_add(0x9E37_79B9_7F4A_7C15);
        let mut z = self.state;
        z = (z ^ z >> 30).wrapping_mul(0xBF58_476D_1CE4_E5B9);
        z = (z ^ z >> 27).wrapping_mul(0x94D0_49BB_1331_11EB);
        z ^ z >> 31
    }

    /// A number below the bound; 0 where the bound is 0.
    pub fn below(&mut self, bound: usize) -> usize {
        (self.draw() % bound.max(1) as u64) as usize
    }

    /// A number from `least` to `most`, both included.
    pub fn between(&mut self, least: usize, most: usize) -> usize {
        least + self.below(most.saturating_sub(least) + 1)
    }

    /// True so many times out of a hundred.
    pub fn percent(&mut self, chance: usize) -> bool {
        self.below(100) < chance
    }

    /// One of some things, `None` of none.
    pub fn one_of<'a, T>(&mut self, things: &'a [T]) -> Option<&'a T> {
        things.get(self.below(things.len()))
    }

    pub fn shuffle<T>(&mut self, things: &mut [T]) {
        for last in (1..things.len()).rev() {
            things.swap(last, self.below(last + 1));
        }
    }
}
