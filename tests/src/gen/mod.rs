//! Inputs for the tests, made by a fixed random sequence: the same seed makes the same inputs.

pub mod call;
pub mod change;
pub mod damage;
pub mod hierarchy;
pub mod ledger;
pub mod order;
pub mod policy;
pub mod script;

/// A sequence of numbers that a seed determines (splitmix64).
#[derive(Clone, Debug)]
pub struct Rng(u64);

impl Rng {
    pub fn new(seed: u64) -> Rng {
        Rng(seed)
    }

    /// The sequence of one case of a run.
    pub fn of_case(seed: u64, case: u64) -> Rng {
        let mut rng = Rng(seed);
        Rng(rng.draw() ^ Rng(case).draw())
    }

    pub fn draw(&mut self) -> u64 {
        self.0 = self.0.wrapping_add(0x9E37_79B9_7F4A_7C15);
        let mut mixed = self.0;
        mixed = (mixed ^ (mixed >> 30)).wrapping_mul(0xBF58_476D_1CE4_E5B9);
        mixed = (mixed ^ (mixed >> 27)).wrapping_mul(0x94D0_49BB_1331_11EB);
        mixed ^ (mixed >> 31)
    }

    /// A number below `bound`, which is not 0.
    pub fn below(&mut self, bound: u64) -> u64 {
        self.draw() % bound
    }

    /// A number from `low` to `high`, both among them.
    pub fn from_to(&mut self, low: u64, high: u64) -> u64 {
        low + self.below(high - low + 1)
    }

    /// A place in a list of this length, which is not 0.
    pub fn place(&mut self, length: usize) -> usize {
        self.below(length as u64) as usize
    }

    /// True in one of `of` draws.
    pub fn one_in(&mut self, of: u64) -> bool {
        self.below(of) == 0
    }

    pub fn pick<T: Clone>(&mut self, list: &[T]) -> T {
        list[self.place(list.len())].clone()
    }

    pub fn shuffle<T>(&mut self, list: &mut [T]) {
        for place in (1..list.len()).rev() {
            list.swap(place, self.place(place + 1));
        }
    }

    pub fn bytes(&mut self, length: usize) -> Vec<u8> {
        (0..length).map(|_| self.draw() as u8).collect()
    }
}

/// A number near `near`, or one that a narrower type or a product with 144 would take for it.
pub fn wild(rng: &mut Rng, near: u64) -> u64 {
    let low = rng.below(near.max(1));
    match rng.below(12) {
        0..=2 => near,
        3 => near.wrapping_add(1 + rng.below(8)),
        4 => 255,
        5 => 256 + low,
        6 => 65_536 + low,
        7 => (1 << 32) + low,
        8 => (1 << 60) + low,
        9 => (1 << 63) + low,
        10 => u64::MAX,
        _ => rng.draw(),
    }
}
