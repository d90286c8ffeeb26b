//! Encoding with symbols at chosen places, beside the baseline and beside recovery
//! from the same symbols at the same places, all others missing.

use std::hint::black_box;

use reference::curve::Curve;
use reference::generator::Generator;
use reference::sample::{self, places, Shape};

use crate::baseline::{self, Baseline};
use crate::timing::{self, Times};
use crate::{fixed, packed, print_row, shape, K, M, N, Q, SEED, SERIES};

const INPUTS: usize = 64;
const ORDERS: [u16; 9] = [0, 10, 20, 30, 37, 38, 45, 55, 63];

/// The symbols of a codeword at k places.
pub struct Input {
    pub places: Vec<u16>,
    pub symbols: Vec<u8>,
    /// The codeword with all other symbols missing.
    broken: Vec<u8>,
}

impl Input {
    fn new(generator: &mut Generator, shape: Shape, places: Vec<u16>) -> Input {
        let word = sample::codeword(generator, shape);
        Input {
            symbols: places::symbols_at(&places, &word),
            broken: places::known_at(&places, &word),
            places,
        }
    }
}

/// With arbitrary places that fix the codeword.
pub fn inputs(shape: Shape) -> Vec<Input> {
    let mut generator = Generator::with_seed(SEED);
    let input = |_| {
        let places = places::arbitrary_fixing(&mut generator, shape);
        Input::new(&mut generator, shape, places)
    };
    (0..INPUTS).map(input).collect()
}

/// With the places of the C example: in each column the first, and the second or the
/// third in turn.
fn inputs_of_the_example() -> Vec<Input> {
    let mut generator = Generator::with_seed(SEED);
    let places: Vec<u16> = (0..16).flat_map(|x| [4 * x, 4 * x + 1 + x % 2]).collect();
    let input = |_| Input::new(&mut generator, shape(), places.clone());
    (0..INPUTS).map(input).collect()
}

/// With places that don't fix the codeword: eight whole columns.
fn refused_inputs() -> Vec<Input> {
    let mut generator = Generator::with_seed(SEED);
    let input = |_| {
        let places = places::column_by_column(&mut generator, shape());
        Input::new(&mut generator, shape(), places)
    };
    (0..INPUTS).map(input).collect()
}

/// Rows of the table of the strap's operations.
pub fn print_rows(baseline: &Baseline) {
    let done = baseline::DONE;
    let refused = baseline::PLACES_LEAVE_SEVERAL;
    let kinds = [
        ("encode at any places", inputs(shape()), done),
        ("encode at the example's", inputs_of_the_example(), done),
        ("encode at columns, refused", refused_inputs(), refused),
    ];
    for (name, inputs, expected) in kinds {
        let times = times_beside_the_baseline(baseline, &inputs, expected);
        print_row(name, &times);
    }
}

fn times_beside_the_baseline(baseline: &Baseline, inputs: &[Input], expected: u32) -> Times {
    let inputs: Vec<([u16; K], [u8; K])> = inputs
        .iter()
        .map(|input| (fixed(input.places.clone()), fixed(input.symbols.clone())))
        .collect();
    for (places, symbols) in &inputs {
        let (mut ours, mut theirs) = ([99; N], [99; N]);
        let answer = packed(hermitian::encode_at(
            Q, SERIES, M, places, symbols, &mut ours,
        ));
        assert_eq!(answer, expected);
        assert_eq!(baseline.encode_at(places, symbols, &mut theirs), expected);
        assert_eq!(ours, theirs);
    }
    let (mut ours, mut theirs) = ([0; N], [0; N]);
    timing::compare(
        inputs.len(),
        || {
            for (places, symbols) in &inputs {
                let (places, symbols) = black_box((places, symbols));
                let _ = black_box(hermitian::encode_at(
                    Q, SERIES, M, places, symbols, &mut ours,
                ));
                black_box(&ours);
            }
        },
        || {
            for (places, symbols) in &inputs {
                let (places, symbols) = black_box((places, symbols));
                black_box(baseline.encode_at(places, symbols, &mut theirs));
                black_box(&theirs);
            }
        },
    )
}

/// The strap's order alone, with both kinds of places.
pub fn print_beside_recovery() {
    println!("| places | encode at, ns | recover, 32 missing, ns | encode at / recover |");
    println!("|---|---|---|---|");
    let kinds = [
        ("any", inputs(shape())),
        ("the example's", inputs_of_the_example()),
    ];
    for (name, inputs) in kinds {
        print_row_beside_recovery(name, shape(), &inputs);
    }
}

/// Several orders, with arbitrary places.
pub fn print_table() {
    println!("| m, k | encode at, ns | recover, n - k missing, ns | encode at / recover |");
    println!("|---|---|---|---|");
    for m in ORDERS {
        let shape = Shape::of(Curve::Q_IS_4, m);
        let name = format!("{m}, {}", shape.k);
        print_row_beside_recovery(&name, shape, &inputs(shape));
    }
}

fn print_row_beside_recovery(name: &str, shape: Shape, inputs: &[Input]) {
    assert_same_codewords(shape, inputs);
    let times = times_beside_recovery(shape, inputs);
    let (encoding, recovery) = (times.library, times.baseline);
    let ratio = encoding / recovery;
    println!("| {name} | {encoding:.0} | {recovery:.0} | {ratio:.2} |");
}

/// The message that recovery finds has the word that encoding writes.
fn assert_same_codewords(shape: Shape, inputs: &[Input]) {
    for input in inputs {
        let (mut word, mut message) = (vec![99; shape.n], vec![99; shape.k]);
        let (places, symbols) = (&input.places, &input.symbols);
        let encoded = hermitian::encode_at(Q, SERIES, shape.m, places, symbols, &mut word);
        let recovered = hermitian::recover(Q, SERIES, shape.m, &input.broken, &mut message);
        assert_eq!([packed(encoded), packed(recovered)], [baseline::DONE; 2]);
        assert_eq!(shape.word_of(&message), word);
    }
}

fn times_beside_recovery(shape: Shape, inputs: &[Input]) -> Times {
    let (mut word, mut message) = (vec![0; shape.n], vec![0; shape.k]);
    timing::compare(
        inputs.len(),
        || {
            for input in inputs {
                let Input {
                    places, symbols, ..
                } = black_box(input);
                let _ = black_box(hermitian::encode_at(
                    Q, SERIES, shape.m, places, symbols, &mut word,
                ));
                black_box(&word);
            }
        },
        || {
            for input in inputs {
                let broken = &black_box(input).broken;
                let _ = black_box(hermitian::recover(Q, SERIES, shape.m, broken, &mut message));
                black_box(&message);
            }
        },
    )
}
