// SPDX-License-Identifier: LicenseRef-Wengeludo
//! Numbers drawn from a seed, by the generator of the tests.

#[path = "../../bindings/rust/tests/draw/splitmix.rs"]
mod splitmix;

pub use splitmix::Draw as Draws;

impl Draws {
    /// True so many times in a hundred.
    pub fn chance(&mut self, per_cent: usize) -> bool {
        self.below(100) < per_cent
    }

    pub fn pick<T: Copy>(&mut self, among: &[T]) -> T {
        among[self.below(among.len())]
    }

    /// A number about 0 with deviation 1, nearly normal.
    pub fn normal(&mut self) -> f64 {
        let sum: f64 = (0..12).map(|_| self.bits() as f64 / u64::MAX as f64).sum();
        sum - 6.0
    }
}
