//! A coset, and what the proved library computes over it.

use razgwilh::{encode, fold, interpolate, Fold, Refusal};

#[derive(Clone)]
pub struct Coset {
    pub offset: u64,
    pub basis: Vec<u64>,
}

impl Coset {
    pub fn of(offset: u64, basis: &[u64]) -> Coset {
        Coset { offset, basis: basis.to_vec() }
    }

    pub fn encode(&self, coefficients: &[u64]) -> Result<Vec<u64>, Refusal> {
        let mut values = vec![0; 1 << self.basis.len()];
        encode(self.offset, &self.basis, coefficients, &mut values)?;
        Ok(values)
    }

    pub fn interpolate(&self, word: &[u64]) -> Result<Vec<u64>, Refusal> {
        let mut coefficients = vec![0; word.len()];
        interpolate(self.offset, &self.basis, word, &mut coefficients)?;
        Ok(coefficients)
    }

    /// The points: the values of X.
    pub fn points(&self) -> Result<Vec<u64>, Refusal> {
        self.encode(&[0, 1])
    }

    /// The next coset, and the fold of the word over it.
    pub fn fold(
        &self,
        word: &[u64],
        step: usize,
        challenge: u64,
    ) -> Result<(Coset, Vec<u64>), Refusal> {
        let k = self.basis.len();
        let (mut values, mut basis) = (vec![0; word.len() >> step], vec![0; k - step]);
        let given = Fold { k, step, offset: self.offset, basis: &self.basis, word, challenge };
        let offset = fold(given, &mut values, &mut basis)?;
        Ok((Coset { offset, basis }, values))
    }

    pub fn next(&self, step: usize) -> Result<Coset, Refusal> {
        Ok(self.fold(&vec![0; 1 << self.basis.len()], step, 0)?.0)
    }
}
