//! Words that mislead the mender of request T-03. As if a codeword were near,
//! there is a polynomial f of order s = t + g that isn't 0 and whose product with
//! the word is a word of order m + s. But seldom is a codeword within t.
//!
//! Polynomials are given by their values at all places, and t is `radius`.

use super::{another_symbol, codeword, column_product, symbols, Shape};
use crate::code::Code;
use crate::generator::Generator;
use crate::linear;

/// How many polynomials the one with the most zeros is chosen from.
const TRIES: usize = 4;

/// s, the order of f.
pub fn order_of_f(shape: Shape, radius: usize) -> u16 {
    (radius + shape.curve.genus()) as u16
}

/// The word with `count` wrong symbols in as few columns as can be. The product
/// of x - a over these columns is an f if there are s / q of them or fewer, even
/// where `count` is above t.
pub fn with_wrong_columns(
    generator: &mut Generator,
    shape: Shape,
    word: &[u8],
    count: usize,
) -> Vec<u8> {
    let q = usize::from(shape.q());
    let columns = generator.permutation(usize::from(shape.field_size));
    let places = columns.iter().flat_map(|column| q * column..q * column + q);
    let mut wrong = word.to_vec();
    for place in places.take(count) {
        wrong[place] = another_symbol(generator, shape, word[place]);
    }
    wrong
}

/// The word with another symbol wherever an f is 0 that has more than t zeros. At
/// t = 0 there are none.
pub fn with_wrong_zeros(
    generator: &mut Generator,
    shape: Shape,
    word: &[u8],
    radius: usize,
) -> Vec<u8> {
    let f = with_many_zeros(generator, shape, radius);
    wrong_where_0(generator, shape, word, &f)
}

fn wrong_where_0(generator: &mut Generator, shape: Shape, word: &[u8], f: &[u8]) -> Vec<u8> {
    let mut wrong = word.to_vec();
    for (symbol, _) in wrong.iter_mut().zip(f).filter(|(_, &value)| value == 0) {
        *symbol = another_symbol(generator, shape, *symbol);
    }
    wrong
}

/// A quotient by an arbitrary f that is 0 in few columns.
pub fn quotient(generator: &mut Generator, shape: Shape, radius: usize) -> Vec<u8> {
    let f = with_few_zeros(generator, shape, radius);
    quotient_by(generator, shape, radius, &f)
}

/// A quotient by an f that is 0 nowhere.
pub fn quotient_without_zeros(generator: &mut Generator, shape: Shape, radius: usize) -> Vec<u8> {
    let f = without_zeros(generator, shape, radius);
    quotient_by(generator, shape, radius, &f)
}

/// A codeword of order m + s, where f is 1.
pub fn of_higher_order(generator: &mut Generator, shape: Shape, radius: usize) -> Vec<u8> {
    quotient_by(generator, shape, radius, &vec![1; shape.n])
}

/// The values of h / f, and any symbol where f is 0, for an h of order m + s. In
/// the columns where f has a zero, s / q of them or fewer, h is 0. A codeword
/// within t would be h / f everywhere, so there is none unless f divides h.
fn quotient_by(generator: &mut Generator, shape: Shape, radius: usize, f: &[u8]) -> Vec<u8> {
    let field = shape.curve.field();
    let columns = columns_with_zeros(shape, f);
    let order_of_product = u16::from(shape.q()) * columns.len() as u16;
    let order_of_rest = shape.m + order_of_f(shape, radius) - order_of_product;
    let rest = codeword(generator, Shape::of(shape.curve, order_of_rest));
    let mut word = symbols(generator, shape, shape.n);
    let points = shape.curve.points();
    for (place, point) in points.iter().enumerate() {
        if let Some(inverse) = field.inverse(f[place]) {
            let h = field.product(column_product(shape, &columns, point.x), rest[place]);
            word[place] = field.product(h, inverse);
        }
    }
    word
}

/// The x of each.
fn columns_with_zeros(shape: Shape, f: &[u8]) -> Vec<u8> {
    let columns = shape.curve.columns().into_iter();
    let columns = columns.zip(f.chunks(usize::from(shape.q())));
    let with_zeros = columns.filter(|(_, values)| values.contains(&0));
    with_zeros.map(|(x, _)| x).collect()
}

fn zero_count(f: &[u8]) -> usize {
    f.iter().filter(|&&value| value == 0).count()
}

/// An f that is 0 in s / q columns or fewer.
fn with_few_zeros(generator: &mut Generator, shape: Shape, radius: usize) -> Vec<u8> {
    let of_f = Shape::of(shape.curve, order_of_f(shape, radius));
    loop {
        let f = codeword(generator, of_f);
        if columns_with_zeros(shape, &f).len() <= of_f.columns_of_order() {
            return f;
        }
    }
}

/// The product of as many x^2 + b * x + c as the order s has room for, each of
/// them 0 nowhere.
fn without_zeros(generator: &mut Generator, shape: Shape, radius: usize) -> Vec<u8> {
    let field = shape.curve.field();
    let mut f = vec![1; shape.n];
    for _ in 0..order_of_f(shape, radius) / (2 * u16::from(shape.q())) {
        let [b, c] = quadratic_without_zeros(generator, shape);
        for (value, point) in f.iter_mut().zip(shape.curve.points()) {
            *value = field.product(*value, quadratic(shape, [b, c], point.x));
        }
    }
    f
}

fn quadratic_without_zeros(generator: &mut Generator, shape: Shape) -> [u8; 2] {
    let highest = shape.field_size - 1;
    loop {
        let coefficients = [(); 2].map(|()| generator.byte_from(0, highest));
        if (0..=highest).all(|x| quadratic(shape, coefficients, x) != 0) {
            return coefficients;
        }
    }
}

/// x^2 + b * x + c.
fn quadratic(shape: Shape, [b, c]: [u8; 2], x: u8) -> u8 {
    let field = shape.curve.field();
    field.sum(field.product(field.sum(x, b), x), c)
}

/// An f that is 0 at t arbitrary places and, except by chance, at more.
fn with_many_zeros(generator: &mut Generator, shape: Shape, radius: usize) -> Vec<u8> {
    let code = Code::of_order(shape.curve, order_of_f(shape, radius));
    let zero_at = |places: &[usize]| {
        let points = places.iter().map(|&place| code.points[place]);
        let equations = points.map(|point| code.term_values(point)).collect();
        let f = linear::nonzero_solution(shape.curve.field(), equations, code.terms.len());
        code.word_of(&f.expect("there are more than t terms"))
    };
    (0..TRIES)
        .map(|_| zero_at(&generator.permutation(shape.n)[..radius]))
        .max_by_key(|f| zero_count(f))
        .expect("several tries")
}

#[cfg(test)]
mod tests {
    use super::*;
    use crate::code;
    use crate::curve::Series;
    use crate::outcome::Outcome;

    type MakeWord = fn(&mut Generator, Shape, usize) -> Vec<u8>;

    fn is_codeword(shape: Shape, word: &[u8]) -> bool {
        let (q, series, m) = shape.numbers();
        code::unencode(q, series, m, word, &mut vec![0; shape.k]) == Outcome::ACCEPTED
    }

    /// Whether f isn't 0, is of order s, and its product with the word is a word
    /// of order m + s.
    fn leads(shape: Shape, radius: usize, f: &[u8], word: &[u8]) -> bool {
        let s = order_of_f(shape, radius);
        let field = shape.curve.field();
        let pairs = f.iter().zip(word);
        let product: Vec<u8> = pairs
            .map(|(&f, &symbol)| field.product(f, symbol))
            .collect();
        zero_count(f) < shape.n
            && is_codeword(Shape::of(shape.curve, s), f)
            && is_codeword(Shape::of(shape.curve, shape.m + s), &product)
    }

    #[test]
    fn the_divisor_of_a_quotient_leads() {
        let mut generator = Generator::with_seed(61);
        let kinds: [MakeWord; 3] = [with_few_zeros, without_zeros, |_, shape, _| {
            vec![1; shape.n]
        }];
        for (shape, radius) in Series::BOTH.into_iter().flat_map(Shape::every_mended_in) {
            for kind in kinds {
                let f = kind(&mut generator, shape, radius);
                let word = quotient_by(&mut generator, shape, radius, &f);
                assert!(leads(shape, radius, &f, &word), "{shape:?}");
            }
            let f = without_zeros(&mut generator, shape, radius);
            assert_eq!(zero_count(&f), 0);
        }
    }

    #[test]
    fn a_polynomial_with_more_than_t_zeros_leads() {
        let mut generator = Generator::with_seed(62);
        for (shape, radius) in Series::BOTH.into_iter().flat_map(Shape::every_mended_in) {
            let f = with_many_zeros(&mut generator, shape, radius);
            let s = usize::from(order_of_f(shape, radius));
            let zeros = if radius == 0 { 0..=0 } else { radius + 1..=s };
            assert!(zeros.contains(&zero_count(&f)), "{shape:?}");
            let word = codeword(&mut generator, shape);
            let wrong = wrong_where_0(&mut generator, shape, &word, &f);
            let differing = word.iter().zip(&wrong).filter(|(a, b)| a != b).count();
            assert_eq!(differing, zero_count(&f));
            assert!(leads(shape, radius, &f, &wrong), "{shape:?}");
        }
    }

    #[test]
    fn whole_columns_are_wrong() {
        let mut generator = Generator::with_seed(63);
        for shape in Shape::every_short() {
            let q = usize::from(shape.q());
            for count in 0..=shape.n {
                let word = symbols(&mut generator, shape, shape.n);
                let wrong = with_wrong_columns(&mut generator, shape, &word, count);
                let differences: Vec<u8> = word.iter().zip(&wrong).map(|(a, b)| a ^ b).collect();
                let columns = differences.chunks(q);
                assert_eq!(shape.n - zero_count(&differences), count);
                let right = columns.filter(|column| zero_count(column) == q).count();
                assert_eq!(right, (shape.n - count) / q);
            }
        }
    }
}
