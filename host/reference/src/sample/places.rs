//! Sets of k places, ascending, to put symbols at (request T-10).

use crate::code::MISSING;
use crate::generator::Generator;
use crate::outcome::Outcome;
use crate::sample::Shape;
use crate::systematic;

/// Whether the symbols at the places settle the codeword.
pub fn fix_the_codeword(shape: Shape, places: &[u16]) -> bool {
    let mut word = vec![0; shape.n];
    let zeros = vec![0; shape.k];
    let (q, series, m) = shape.numbers();
    systematic::encode_at(q, series, m, places, &zeros, &mut word) == Outcome::ACCEPTED
}

/// Any k places. Most such sets fix the codeword.
pub fn arbitrary(generator: &mut Generator, shape: Shape) -> Vec<u16> {
    first_k(shape, generator.permutation(shape.n))
}

/// Any k places that fix the codeword.
pub fn arbitrary_fixing(generator: &mut Generator, shape: Shape) -> Vec<u16> {
    loop {
        let places = arbitrary(generator, shape);
        if fix_the_codeword(shape, &places) {
            return places;
        }
    }
}

/// One arbitrary column after the other, the last one perhaps in part.
pub fn column_by_column(generator: &mut Generator, shape: Shape) -> Vec<u16> {
    let columns = generator.permutation(usize::from(shape.field_size));
    let places = columns.into_iter().flat_map(|x| column(shape, x));
    first_k(shape, places.collect())
}

/// Any k places in m / q columns, if there are so many. The product of x - a over
/// these columns a is 0 there, so the places don't fix the codeword.
pub fn in_few_columns(generator: &mut Generator, shape: Shape) -> Option<Vec<u16>> {
    let mut columns = generator.permutation(usize::from(shape.field_size));
    columns.truncate(shape.columns_of_order());
    let places = columns.into_iter().flat_map(|x| column(shape, x));
    let places: Vec<usize> = places.collect();
    let order = generator.permutation(places.len()).into_iter();
    (places.len() >= shape.k).then(|| first_k(shape, order.map(|i| places[i]).collect()))
}

/// As many places in one column as there are terms without x, in another as there
/// are terms with x to the power 1, and so on. These fix the codeword: take a
/// polynomial that is 0 there, by powers of y. The factor of the highest power is 0 in
/// each column with q places, one more than its degree, and so it is 0. Then the next
/// factor is 0 in each column with q - 1 places or more, and so on.
pub fn staircase(generator: &mut Generator, shape: Shape) -> Vec<u16> {
    let columns = generator.permutation(usize::from(shape.field_size));
    let terms = shape.curve.terms(shape.m);
    let mut places = Vec::new();
    for (x_power, x) in columns.into_iter().enumerate() {
        let steps = terms.iter().filter(|term| term.x_power == x_power).count();
        let inside = generator.permutation(usize::from(shape.q()));
        let column: Vec<usize> = column(shape, x).collect();
        places.extend(inside.into_iter().take(steps).map(|i| column[i]));
    }
    first_k(shape, places)
}

/// The places with another place instead of one of them; k is never n.
pub fn with_one_exchanged(generator: &mut Generator, shape: Shape, places: &[u16]) -> Vec<u16> {
    let mut exchanged: Vec<usize> = places.iter().map(|&place| usize::from(place)).collect();
    let others: Vec<usize> = (0..shape.n).filter(|p| !exchanged.contains(p)).collect();
    let left = generator.below(shape.k);
    exchanged[left] = others[generator.below(others.len())];
    first_k(shape, exchanged)
}

/// The symbols of a word at the places.
pub fn symbols_at(places: &[u16], word: &[u8]) -> Vec<u8> {
    let places = places.iter();
    places.map(|&place| word[usize::from(place)]).collect()
}

/// The word with its symbols at the places and the others missing.
pub fn known_at(places: &[u16], word: &[u8]) -> Vec<u8> {
    let mut broken = vec![MISSING; word.len()];
    for place in places.iter().map(|&place| usize::from(place)) {
        broken[place] = word[place];
    }
    broken
}

/// The places of a column.
fn column(shape: Shape, x: usize) -> std::ops::Range<usize> {
    let q = usize::from(shape.q());
    q * x..q * x + q
}

fn first_k(shape: Shape, places: Vec<usize>) -> Vec<u16> {
    let first = places.into_iter().take(shape.k);
    let mut places: Vec<u16> = first.map(|place| place as u16).collect();
    places.sort_unstable();
    places
}

#[cfg(test)]
mod tests {
    use super::*;
    use crate::curve::Curve;

    fn are_k_places(shape: Shape, places: &[u16]) -> bool {
        places.len() == shape.k
            && places.windows(2).all(|pair| pair[0] < pair[1])
            && places.iter().all(|&place| usize::from(place) < shape.n)
    }

    #[test]
    fn all_kinds_are_k_places() {
        let mut generator = Generator::with_seed(71);
        for shape in Shape::every_short_in_both_series() {
            let places = arbitrary(&mut generator, shape);
            assert!(are_k_places(shape, &places));
            let exchanged = with_one_exchanged(&mut generator, shape, &places);
            assert!(are_k_places(shape, &exchanged));
            let kept = exchanged.iter().filter(|p| places.contains(p)).count();
            assert_eq!(kept, shape.k - 1);
            let columns = column_by_column(&mut generator, shape);
            assert!(are_k_places(shape, &columns));
        }
    }

    #[test]
    fn a_word_at_some_places() {
        let word = [10, 11, 12, 13];
        assert_eq!(symbols_at(&[0, 2], &word), [10, 12]);
        assert_eq!(known_at(&[0, 2], &word), [10, 255, 12, 255]);
    }

    #[test]
    fn the_kinds_that_fix_the_codeword_do() {
        let mut generator = Generator::with_seed(72);
        for shape in Shape::every_short_in_both_series() {
            for _ in 0..8 {
                let staircase = staircase(&mut generator, shape);
                assert!(fix_the_codeword(shape, &staircase));
                let arbitrary = arbitrary_fixing(&mut generator, shape);
                assert!(fix_the_codeword(shape, &arbitrary));
            }
        }
    }

    #[test]
    fn places_in_few_columns_leave_several() {
        let mut generator = Generator::with_seed(73);
        for shape in Shape::every_short_in_both_series() {
            let are_enough = match shape.q() {
                2 => [2, 4, 6].contains(&shape.m),
                _ => shape.m >= 4,
            };
            let places = in_few_columns(&mut generator, shape);
            assert_eq!(places.is_some(), are_enough);
            if let Some(places) = places {
                assert!(are_k_places(shape, &places));
                assert!(!fix_the_codeword(shape, &places));
            }
        }
    }

    #[test]
    fn the_staircase_of_the_strap_goes_through_ten_columns() {
        let mut generator = Generator::with_seed(74);
        let shape = Shape::of(Curve::Q_IS_4, 37);
        let places = staircase(&mut generator, shape);
        let in_column = |x: u16| places.iter().filter(|&&place| place / 4 == x).count();
        let mut steps: Vec<usize> = (0..16).map(in_column).collect();
        steps.sort_unstable();
        assert_eq!(steps, [0, 0, 0, 0, 0, 0, 1, 2, 2, 3, 4, 4, 4, 4, 4, 4]);
    }
}
