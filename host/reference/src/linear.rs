//! Gauss elimination over a field.

use crate::field::Field;

/// The sum of each coefficient times its unknown is `value`.
#[derive(Clone, Debug)]
pub struct Equation {
    pub coefficients: Vec<u8>,
    pub value: u8,
}

/// How many solutions a system has.
#[derive(Clone, Debug, PartialEq, Eq)]
pub enum Solutions {
    None,
    One(Vec<u8>),
    /// Q to the power `free_unknowns` of them, and `free_unknowns` isn't 0.
    Several {
        free_unknowns: usize,
    },
}

/// Each equation must have `unknowns` coefficients.
pub fn solve(field: Field, mut equations: Vec<Equation>, unknowns: usize) -> Solutions {
    let rank = reduce(field, &mut equations, unknowns).len();
    // From the rank on every coefficient is 0, so a value must be 0 too.
    if equations.iter().skip(rank).any(|rest| rest.value != 0) {
        return Solutions::None;
    }
    if rank < unknowns {
        return Solutions::Several {
            free_unknowns: unknowns - rank,
        };
    }
    // At full rank equation number c says that unknown c is its value.
    let values = equations.iter().take(rank).map(|equation| equation.value);
    Solutions::One(values.collect())
}

/// A solution other than all 0 of the equations with these coefficients and the
/// value 0, if there is one. Each equation must have `unknowns` coefficients.
pub fn nonzero_solution(field: Field, rows: Vec<Vec<u8>>, unknowns: usize) -> Option<Vec<u8>> {
    let with_value_0 = |coefficients| Equation {
        coefficients,
        value: 0,
    };
    let mut equations: Vec<Equation> = rows.into_iter().map(with_value_0).collect();
    let pivots = reduce(field, &mut equations, unknowns);
    let free = (0..unknowns).find(|column| !pivots.contains(column))?;
    let mut solution = vec![0; unknowns];
    solution[free] = 1;
    // The other free unknowns are 0, and minus is plus in characteristic 2.
    for (equation, &pivot) in equations.iter().zip(&pivots) {
        solution[pivot] = equation.coefficients[free];
    }
    Some(solution)
}

/// The inverse of a square matrix, row by row, if it has one.
pub fn inverse(field: Field, rows: Vec<Vec<u8>>) -> Option<Vec<Vec<u8>>> {
    let size = rows.len();
    // Beside the matrix stands the unit matrix, which goes along.
    let with_unit_row = |(index, row): (usize, Vec<u8>)| Equation {
        coefficients: [row, unit_row(size, index)].concat(),
        value: 0,
    };
    let mut equations: Vec<Equation> = rows.into_iter().enumerate().map(with_unit_row).collect();
    let rank = reduce(field, &mut equations, size).len();
    let right_half = |equation: Equation| equation.coefficients[size..].to_vec();
    (rank == size).then(|| equations.into_iter().map(right_half).collect())
}

/// Zeros, and a 1 at one index.
fn unit_row(length: usize, index: usize) -> Vec<u8> {
    let mut row = vec![0; length];
    row[index] = 1;
    row
}

/// Each row of a matrix times the values.
pub fn product(field: Field, rows: &[Vec<u8>], values: &[u8]) -> Vec<u8> {
    let row_times_values = |row: &Vec<u8>| {
        let pairs = row.iter().zip(values);
        pairs.fold(0, |sum, (&entry, &value)| {
            field.sum(sum, field.product(entry, value))
        })
    };
    rows.iter().map(row_times_values).collect()
}

/// Brings the equations to reduced row echelon form, as far as their first
/// `unknowns` coefficients go, and gives the pivots' columns by row. Their number
/// is the rank.
fn reduce(field: Field, equations: &mut [Equation], unknowns: usize) -> Vec<usize> {
    let products = field.product_rows();
    let mut pivots = Vec::new();
    for column in 0..unknowns {
        let rank = pivots.len();
        let pivot = (rank..equations.len()).find(|&row| equations[row].coefficients[column] != 0);
        if let Some(pivot) = pivot {
            equations.swap(rank, pivot);
            let lead = equations[rank].coefficients[column];
            let inverse = field.inverse(lead).expect("a pivot isn't 0");
            scale(&mut equations[rank], &products[usize::from(inverse)]);
            clear_column(&products, equations, rank, column);
            pivots.push(column);
        }
    }
    pivots
}

/// Multiplies the equation by a symbol, whose products are given.
fn scale(equation: &mut Equation, products: &[u8]) {
    for entry in equation
        .coefficients
        .iter_mut()
        .chain([&mut equation.value])
    {
        *entry = products[usize::from(*entry)];
    }
}

/// Makes the coefficient of every other equation 0. That of the pivot is 1, and
/// before it the pivot's equation has only zeros.
fn clear_column(products: &[Vec<u8>], equations: &mut [Equation], pivot_row: usize, column: usize) {
    let pivot = equations[pivot_row].clone();
    for (row, equation) in equations.iter_mut().enumerate() {
        // Minus is plus in characteristic 2.
        let factor = usize::from(equation.coefficients[column]);
        if row != pivot_row && factor != 0 {
            add_multiple(equation, &pivot, &products[factor], column);
        }
    }
}

/// Adds the multiple of another equation whose factor's products are given, from
/// a column on.
fn add_multiple(equation: &mut Equation, other: &Equation, products: &[u8], column: usize) {
    let left = equation.coefficients[column..].iter_mut();
    for (left, &right) in left.zip(&other.coefficients[column..]) {
        *left ^= products[usize::from(right)];
    }
    equation.value ^= products[usize::from(other.value)];
}

#[cfg(test)]
mod tests {
    use super::*;

    fn equation(coefficients: &[u8], value: u8) -> Equation {
        Equation {
            coefficients: coefficients.to_vec(),
            value,
        }
    }

    #[test]
    fn no_equations_leave_every_unknown_free() {
        let several = Solutions::Several { free_unknowns: 3 };
        assert_eq!(solve(Field::OF_4, vec![], 3), several);
        assert_eq!(solve(Field::OF_4, vec![], 0), Solutions::One(vec![]));
    }

    #[test]
    fn a_pivot_may_stand_in_a_later_row() {
        let system = vec![equation(&[0, 2], 3), equation(&[3, 1], 0)];
        // 2 * b = 3 gives b = 2; then 3 * a = 2 gives a = 3.
        assert_eq!(solve(Field::OF_4, system, 2), Solutions::One(vec![3, 2]));
    }

    #[test]
    fn a_contradiction_is_found_at_any_rank() {
        let system = vec![equation(&[1, 2], 1), equation(&[2, 3], 3)];
        assert_eq!(solve(Field::OF_4, system, 2), Solutions::None);
    }

    #[test]
    fn repeated_equations_add_nothing() {
        let system = vec![equation(&[1, 2], 1), equation(&[2, 3], 2)];
        let several = Solutions::Several { free_unknowns: 1 };
        assert_eq!(solve(Field::OF_4, system, 2), several);
    }

    /// Every system of two equations in two unknowns over the field of 4.
    #[test]
    fn elimination_agrees_with_trying_every_value() {
        let field = Field::OF_4;
        for bits in 0..1 << 12 {
            let part = |index: u32| (bits >> (2 * index) & 3) as u8;
            let system = vec![
                equation(&[part(0), part(1)], part(2)),
                equation(&[part(3), part(4)], part(5)),
            ];
            assert_eq!(solve(field, system.clone(), 2), by_trial(field, &system));
        }
    }

    /// Every two equations with value 0 in two unknowns over the field of 4.
    #[test]
    fn a_nonzero_solution_is_found_if_there_is_one() {
        let field = Field::OF_4;
        for bits in 0..1 << 8 {
            let part = |index: u32| (bits >> (2 * index) & 3) as u8;
            let rows = vec![vec![part(0), part(1)], vec![part(2), part(3)]];
            let system: Vec<Equation> = rows.iter().map(|row| equation(row, 0)).collect();
            match nonzero_solution(field, rows, 2) {
                Some(solution) => {
                    assert_ne!(solution, [0, 0]);
                    assert!(solves(field, &system, &solution));
                }
                None => assert_eq!(by_trial(field, &system), Solutions::One(vec![0, 0])),
            }
        }
    }

    #[test]
    fn more_unknowns_than_equations_leave_a_nonzero_solution() {
        // b = 2 * c and a = 3 * c, with d free too but 0.
        let rows = vec![vec![0, 1, 2, 1], vec![1, 0, 3, 2]];
        let solution = nonzero_solution(Field::OF_4, rows, 4);
        assert_eq!(solution, Some(vec![3, 2, 1, 0]));
        assert_eq!(nonzero_solution(Field::OF_4, vec![], 1), Some(vec![1]));
        assert_eq!(nonzero_solution(Field::OF_4, vec![], 0), None);
    }

    /// Every matrix of two rows over the field of 4.
    #[test]
    fn an_inverse_is_found_if_there_is_one() {
        let field = Field::OF_4;
        for bits in 0..1 << 8 {
            let part = |index: u32| (bits >> (2 * index) & 3) as u8;
            let rows = vec![vec![part(0), part(1)], vec![part(2), part(3)]];
            let determinant = field.product(part(0), part(3)) ^ field.product(part(1), part(2));
            match inverse(field, rows.clone()) {
                Some(inverse) => {
                    assert_ne!(determinant, 0);
                    for values in [[1, 0], [0, 1], [2, 3]] {
                        let there = product(field, &rows, &values);
                        assert_eq!(product(field, &inverse, &there), values);
                    }
                }
                None => assert_eq!(determinant, 0),
            }
        }
    }

    fn solves(field: Field, system: &[Equation], values: &[u8]) -> bool {
        system.iter().all(|equation| {
            let products = equation.coefficients.iter().zip(values);
            let sum = products.fold(0, |sum, (&c, &v)| field.sum(sum, field.product(c, v)));
            sum == equation.value
        })
    }

    fn by_trial(field: Field, system: &[Equation]) -> Solutions {
        let candidates = (0..16).map(|bits| vec![bits >> 2, bits & 3]);
        let found: Vec<Vec<u8>> = candidates
            .filter(|values| solves(field, system, values))
            .collect();
        match found.len() {
            0 => Solutions::None,
            1 => Solutions::One(found[0].clone()),
            4 => Solutions::Several { free_unknowns: 1 },
            16 => Solutions::Several { free_unknowns: 2 },
            other => panic!("{other} solutions are not a power of 4"),
        }
    }
}
