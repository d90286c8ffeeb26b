use super::*;
use crate::case_record::{Runner, RECORD_LENGTH};
use std::collections::BTreeSet;

/// Each case with its line.
fn cases_and_lines() -> Vec<(Case, String)> {
    let mut runner = Runner::default();
    let with_line = |case: Case| {
        let line = runner.run(&case);
        (case, line)
    };
    chosen_columns_cases().into_iter().map(with_line).collect()
}

fn number(line: &str) -> u8 {
    let number = line.split(' ').nth(1).expect("a number");
    number.parse().expect("a number of 8 bits")
}

#[test]
fn the_cases_are_reproducible_and_fit_their_records() {
    let cases = chosen_columns_cases();
    assert_eq!(cases, chosen_columns_cases());
    assert!((5500..=6500).contains(&cases.len()), "{}", cases.len());
    for case in &cases {
        let record: [u8; RECORD_LENGTH] = case.to_record();
        assert_eq!(&Case::from_record(&record), case);
        assert!(b"XUR".contains(&case.op));
    }
}

#[test]
fn each_call_gets_every_answer_that_it_can_give() {
    let found: BTreeSet<(u8, u8)> = cases_and_lines()
        .iter()
        .map(|(case, line)| (case.op, number(line)))
        .collect();
    let checked = [0, 1, 2, 3, 4, 5, 18];
    let of_op = |op: u8, more: &[u8]| -> Vec<(u8, u8)> {
        let numbers = [checked.as_slice(), more].concat();
        numbers.into_iter().map(|number| (op, number)).collect()
    };
    let expected = [of_op(b'X', &[]), of_op(b'U', &[9]), of_op(b'R', &[9, 10])];
    assert_eq!(found, expected.concat().into_iter().collect());
}

/// The op, the list and the order of each case that is accepted.
fn accepted() -> BTreeSet<(u8, Vec<u8>, u16)> {
    let cases = cases_and_lines().into_iter();
    let accepted = cases.filter(|(_, line)| number(line) == 0);
    accepted
        .map(|(case, _)| (case.op, case.output, case.m))
        .collect()
}

#[test]
fn every_list_of_the_small_curve_is_accepted_at_every_order_below_its_n() {
    let accepted = accepted();
    for list in columns::every_list(Curve::Q_IS_2) {
        for op in *b"XUR" {
            for m in 0..2 * list.len() as u16 {
                assert!(accepted.contains(&(op, list.clone(), m)), "{list:?} {m}");
            }
        }
    }
}

#[test]
fn lists_of_every_length_are_accepted_at_the_lowest_order_and_at_the_highest() {
    let cases = cases_and_lines().into_iter();
    let large = cases.filter(|(case, line)| case.q == 4 && number(line) == 0);
    let large: BTreeSet<(u8, Vec<u8>, u16)> = large
        .map(|(case, _)| (case.op, case.output, case.m))
        .collect();
    for count in 1..=16 {
        for op in *b"XUR" {
            for m in [0, 4 * count as u16 - 1] {
                let of_length = large
                    .iter()
                    .filter(|(o, list, order)| (*o, list.len(), *order) == (op, count, m));
                let lists: BTreeSet<&Vec<u8>> = of_length.map(|(_, list, _)| list).collect();
                let with_0 = lists.iter().filter(|list| list[0] == 0).count();
                let least = match count {
                    16 => 1,
                    1 | 15 => 2,
                    _ => 3,
                };
                assert!(lists.len() >= least, "{count}");
                assert!(with_0 > 0 && (count == 16 || with_0 < lists.len()));
            }
        }
    }
}

#[test]
fn every_list_of_the_small_curve_is_refused_at_n_and_n_plus_1() {
    let found = cases_and_lines();
    let of_list = |(case, line): &(Case, String)| match number(line) {
        2 => Some((case.op, case.output.clone(), case.m)),
        _ => None,
    };
    let refused: BTreeSet<(u8, Vec<u8>, u16)> = found.iter().filter_map(of_list).collect();
    for list in columns::every_list(Curve::Q_IS_2) {
        let n = 2 * list.len() as u16;
        for op in *b"XUR" {
            for m in [n, n + 1] {
                assert!(refused.contains(&(op, list.clone(), m)), "{list:?} {m}");
            }
        }
    }
}

/// The plain call in series 1 ends its line in the same way.
#[test]
fn the_lines_of_the_full_list_are_those_of_the_plain_calls() {
    let mut compared = BTreeSet::new();
    for (case, line) in cases_and_lines() {
        let size = case.output.len();
        let is_full = case
            .output
            .iter()
            .copied()
            .eq(0..case.q.saturating_mul(case.q));
        if is_full && [4, 16].contains(&size) {
            let plain = Case {
                op: case.op.to_ascii_lowercase(),
                output: vec![case.round; usize::from(case.a)],
                a: 0,
                round: 0,
                ..case.clone()
            };
            let plain = match case.op {
                b'X' => Case { op: b'e', ..plain },
                _ => plain,
            };
            let plain_line = Runner::default().run(&plain);
            assert_eq!(plain_line[1..], line[1..]);
            compared.insert((case.op, case.q, number(&line)));
        }
    }
    // 1 and 18 are of other curves and lists.
    assert_eq!(compared.len(), 2 * (5 + 6 + 7));
}
