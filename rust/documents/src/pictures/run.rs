//! A run, layer after layer, as the proved library computes it.

use crate::assignment::Assignment;
use crate::coset::Coset;
use razgwilh::{judge, prove, Refusal, Run};

/// The most points that a picture has room for are 2^6.
const LARGEST: usize = 6;

/// A run with one query.
pub struct Folding {
    /// The case's letter.
    pub case: String,
    pub k: usize,
    pub rate: usize,
    pub step: usize,
    pub challenges: Vec<u64>,
    /// Layers 0 to r.
    pub layers: Vec<Layer>,
    /// The last coefficients.
    pub last: Vec<u64>,
    /// The index that the query has in layer 0.
    pub query: usize,
    /// How many entries the judge reads.
    pub reads: u64,
}

pub struct Layer {
    pub coset: Coset,
    pub points: Vec<u64>,
    pub values: Vec<u64>,
}

impl Folding {
    /// What folds compute one by one is what the prover proves, and the judge accepts it.
    pub fn of(case: &str, assignment: &Assignment) -> Result<Folding, String> {
        let Assignment { k, rate, step, offset, basis, challenges, .. } = assignment;
        if *k.max(&basis.len()) > LARGEST {
            return Err(format!("k is over {LARGEST}, too large for a picture"));
        }
        let [query] = assignment.queries[..] else {
            return Err("a picture has one query".into());
        };
        let coset = Coset::of(*offset, basis);
        let word = coset.encode(&assignment.coefficients).map_err(shown)?;
        let (k, rate, step) = (*k, *rate, *step);
        let run = Run { k, rate, step, offset: *offset, basis, challenges, word: &word };
        let (mut store, mut last) = (vec![0; run.store_length()], vec![0; run.last_length()]);
        prove(run, &mut store, &mut last).map_err(shown)?;
        let reads = judge(run, &[query], &store, &last).map_err(shown)?.reads;
        let layers = layers(run).map_err(shown)?;
        compare(&layers, &store, &last)?;
        Ok(Folding {
            case: case.into(),
            k,
            rate,
            step,
            challenges: challenges.clone(),
            layers,
            last,
            query: query as usize,
            reads,
        })
    }

    pub fn rounds(&self) -> usize {
        self.challenges.len()
    }

    /// The query's index in a layer.
    pub fn visited(&self, layer: usize) -> usize {
        self.query >> (self.step * layer)
    }

    /// Whether the query reads the entry: it lies in the coset that the query visits.
    pub fn reads(&self, layer: usize, index: usize) -> bool {
        layer < self.rounds() && index >> self.step == self.visited(layer + 1)
    }

    /// Where an index of a layer stands, counted in halves of the distance of two indices of layer
    /// 0: above the middle of all those that fold to it.
    pub fn halves(&self, layer: usize, index: usize) -> usize {
        let folded = 1 << (self.step * layer);
        2 * index * folded + folded - 1
    }
}

impl Layer {
    fn new(coset: Coset, values: Vec<u64>) -> Result<Layer, Refusal> {
        Ok(Layer { points: coset.points()?, coset, values })
    }
}

/// By folds alone.
fn layers(run: Run) -> Result<Vec<Layer>, Refusal> {
    let mut layers = vec![Layer::new(Coset::of(run.offset, run.basis), run.word.to_vec())?];
    for (i, challenge) in run.challenges.iter().enumerate() {
        let (coset, values) = layers[i].coset.fold(&layers[i].values, run.step, *challenge)?;
        layers.push(Layer::new(coset, values)?);
    }
    Ok(layers)
}

/// The store has the layers between the first and the last, and the last coefficients are those of
/// the last layer.
fn compare(layers: &[Layer], store: &[u64], last: &[u64]) -> Result<(), String> {
    let [_, between @ .., end] = layers else { return Err("no round".into()) };
    let values: Vec<u64> = between.iter().flat_map(|layer| layer.values.clone()).collect();
    let coefficients = end.coset.interpolate(&end.values).map_err(shown)?;
    let (first, others) = coefficients.split_at(last.len());
    if values != store || first != last || others.iter().any(|other| *other != 0) {
        return Err("the folds and the prover differ".into());
    }
    Ok(())
}

fn shown(refusal: Refusal) -> String {
    refusal.to_string()
}
