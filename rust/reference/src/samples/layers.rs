//! Layouts, indices that go down their layers, the cosets of all layers, and lookups of a layer in
//! a store.

use super::table::{list, number, record_with, Value};
use crate::fold::Coset;
use crate::parameters::{all_up_to, Parameters};
use crate::protocol::cosets_from;
use crate::random::Random;

pub(super) fn layouts() -> Vec<Parameters> {
    all_up_to(6)
}

pub(super) fn layout_row(parameters: &Parameters) -> Value {
    let r = parameters.rounds();
    let members = [
        ("rounds", number(r)),
        ("last_count", number(parameters.last_count())),
        ("store_length", number(parameters.store_length())),
        ("dimensions", list((0..=r).map(|i| parameters.dimension(i)))),
        ("starts", list((1..r).map(|i| parameters.layer_start(i)))),
    ];
    record_with(parameters, members)
}

// Indices.

/// A drawn index and the last one for each of the layouts.
pub(super) fn queries() -> Vec<(Parameters, u64)> {
    let random = &mut Random::named("indices");
    let mut queries = Vec::new();
    for parameters in layouts() {
        let all = 1 << parameters.k;
        let two = [random.below(all - 1), all - 1];
        queries.extend(two.map(|query| (parameters, query as u64)));
    }
    queries
}

pub(super) fn index_row((parameters, query): &(Parameters, u64)) -> Value {
    let layers = 0..=parameters.rounds();
    let indices = list(layers.map(|i| parameters.index(*query, i)));
    record_with(parameters, [("query", number(query)), ("indices", indices)])
}

// Cosets.

/// All is drawn in the first. The others have a basis of powers of two, and one of them an
/// offset that is zero.
pub(super) fn first_cosets() -> Vec<(Parameters, Coset)> {
    let random = &mut Random::named("cosets");
    let mut drawn = |k, step| {
        let (offset, basis) = (random.number(), random.list(k as usize));
        (Parameters { k, rate: 1, step }, Coset { offset, basis })
    };
    let mut samples = vec![drawn(3, 1), drawn(4, 1), drawn(5, 2), drawn(4, 3)];
    for (parameters, first) in &mut samples[1..] {
        first.basis = (0..parameters.k).map(|place| 1 << place).collect();
    }
    samples[2].1.offset = 0;
    samples
}

pub(super) fn coset_row((parameters, first): &(Parameters, Coset)) -> Value {
    let cosets = cosets_from(*parameters, first);
    let bases = cosets.iter().map(|coset| format!("({})", list(&coset.basis)));
    let members = [
        ("offset", number(first.offset)),
        ("basis", list(&first.basis)),
        ("offsets", list(cosets.iter().map(|coset| coset.offset))),
        ("bases", list(bases)),
    ];
    record_with(parameters, members)
}

// Lookups.

/// A layer that is looked up in a store of so many entries.
pub(super) struct Lookup {
    parameters: Parameters,
    length: usize,
    layer: u64,
}

/// The store holds numbers in a row.
pub(super) fn lookup_row(Lookup { parameters, length, layer }: &Lookup) -> Value {
    let store: Vec<u64> = (11..).take(*length).collect();
    let range = parameters.layer_of_store(*length, *layer);
    let part = range.map_or(&[][..], |range| &store[range]);
    let members = [("store", list(&store)), ("layer", number(layer)), ("part", list(part))];
    record_with(parameters, members)
}

pub(super) fn lookups() -> Vec<Lookup> {
    of_all_layers().chain(of_no_layer()).collect()
}

/// Two rounds have one layer in the store, three have two and four have three.
fn of_all_layers() -> impl Iterator<Item = Lookup> {
    let all = [(3, 1, 1), (4, 2, 1), (5, 1, 2), (4, 1, 1), (5, 2, 1), (5, 1, 1)];
    all.into_iter().flat_map(|(k, rate, step)| {
        let parameters = Parameters { k, rate, step };
        let length = parameters.store_length();
        (1..parameters.rounds()).map(move |layer| Lookup { parameters, length, layer })
    })
}

/// Those that give the empty part.
fn of_no_layer() -> impl Iterator<Item = Lookup> {
    let three_rounds = (4, 1, 1);
    let all = [
        // Layers 0 and r, and one beyond r.
        (three_rounds, 8 + 4, 0),
        (three_rounds, 8 + 4, 3),
        (three_rounds, 8 + 4, 4),
        // Stores that are too short, too long and empty. In the first two there is room for the
        // layer and for those before it.
        (three_rounds, 8 + 3, 1),
        (three_rounds, 8 + 4 + 1, 2),
        (three_rounds, 0, 1),
        // Each kind of bad parameters alone, but that with k = 1 no rate and step are small
        // enough. With rates 0 and 7 and with step 4 the store has the length that their rounds
        // would need.
        ((1, 1, 1), 4, 1),
        ((21, 6, 3), 4, 1),
        ((3, 0, 1), 4 + 2, 1),
        ((9, 7, 1), 256, 1),
        ((3, 1, 0), 8, 1),
        ((9, 1, 4), 32, 1),
        ((3, 2, 2), 2, 1),
        ((2, 3, 1), 2, 1),
        // One round has no layers. In a store that is too long layer 1 would be all of it.
        ((2, 1, 1), 0, 1),
        ((3, 1, 2), 2, 1),
    ];
    all.into_iter().map(|((k, rate, step), length, layer)| {
        let parameters = Parameters { k, rate, step };
        Lookup { parameters, length, layer }
    })
}
