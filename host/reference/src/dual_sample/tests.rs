use super::refused::lowest_order;
use super::*;
use crate::case_record::{Runner, RECORD_LENGTH};
use crate::code;
use crate::dual;
use crate::outcome::Outcome;
use std::collections::BTreeSet;

const LONG_ROOM: usize = 560;

/// Each case with its line.
fn cases_and_lines() -> Vec<(Case, String)> {
    let mut runner = Runner::default();
    let with_line = |case: Case| {
        let line = runner.run(&case);
        (case, line)
    };
    dual_cases().into_iter().map(with_line).collect()
}

fn every_short_curve() -> impl Iterator<Item = Curve> {
    Series::BOTH.into_iter().flat_map(sample::short_curves)
}

#[test]
fn the_cases_are_reproducible_and_fit_their_records() {
    let cases = dual_cases();
    assert_eq!(cases, dual_cases());
    assert!((1100..=1500).contains(&cases.len()), "{}", cases.len());
    for case in &cases {
        let record: [u8; RECORD_LENGTH] = case.to_record();
        assert_eq!(&Case::from_record(&record), case);
        assert_eq!(case.op, b'v');
    }
}

/// The line without the second number, which is one of 4 only.
fn answer(line: &str) -> String {
    let parts: Vec<&str> = line.split([' ', '\n']).collect();
    assert_eq!((parts.len(), parts[0], parts[4]), (5, "v", ""), "{line}");
    assert!(parts[1] == "4" || parts[2] == "0", "{line}");
    format!("{} {}", parts[1], parts[3])
}

#[test]
fn every_answer_occurs_and_every_refusal_says_no() {
    let cases = cases_and_lines();
    let found: BTreeSet<String> = cases.iter().map(|(_, line)| answer(line)).collect();
    let refused = [1, 2, 3, 4, 17, 19].map(|number| format!("{number} no"));
    let accepted = ["0 yes".to_string(), "0 no".to_string()];
    assert_eq!(found, refused.into_iter().chain(accepted).collect());
}

/// From 2g - 1 on a yes and a no, below it 19 only.
#[test]
fn every_order_of_short_blocks_is_checked_or_refused_with_19() {
    let cases = cases_and_lines();
    let found: BTreeSet<(u8, u8, u16, String)> = cases
        .iter()
        .map(|(case, line)| (case.q, case.series, case.m, answer(line)))
        .collect();
    for curve in every_short_curve() {
        let (q, series) = (curve.q(), curve.series().number());
        for m in curve.orders() {
            let has = |answer: &str| found.contains(&(q, series, m, answer.to_string()));
            let is_low = m < lowest_order(curve);
            assert_eq!(
                ["0 yes", "0 no", "19 no"].map(has),
                [!is_low, !is_low, is_low],
                "{q} {series} {m}"
            );
        }
    }
}

/// Words of the order above are among those that get a no.
#[test]
fn a_yes_is_what_unencoding_accepts() {
    let mut checked = 0;
    for (case, line) in cases_and_lines() {
        if let "0 yes" | "0 no" = answer(&line).as_str() {
            let curve = Curve::named(case.q).expect("one of the three curves");
            let mut message = vec![0; curve.terms(case.m).len()];
            let outcome = code::unencode(case.q, case.series, case.m, &case.input, &mut message);
            assert_eq!(line == "v 0 0 yes\n", outcome == Outcome::ACCEPTED);
            checked += 1;
        }
    }
    assert!(checked >= 4 * (2 * 7 + 2 * 53) - 4, "{checked}");
}

/// At the first place and the last; 255 alone is a bad value too.
#[test]
fn the_lowest_bad_index_is_told() {
    let lines: BTreeSet<String> = cases_and_lines()
        .into_iter()
        .map(|(case, line)| format!("{} {line}", case.q))
        .collect();
    for line in [
        "2 v 4 0 no\n",
        "2 v 4 7 no\n",
        "4 v 4 0 no\n",
        "4 v 4 63 no\n",
    ] {
        assert!(lines.contains(line), "{line}");
    }
    let missing = cases_and_lines().into_iter().filter(|(case, line)| {
        let bad: Vec<&u8> = case.input.iter().filter(|&&value| value >= 16).collect();
        bad == [&255] && line.starts_with("v 4 ")
    });
    assert!(missing.count() >= 2 * 2 * 3 * 3);
}

/// The numbers of the checks that a call for words of the curve doesn't stand, in the
/// order of the checks.
fn faults(curve: Curve, call: &Check) -> Vec<u8> {
    let n = curve.point_count();
    let is_bad = |&value: &u8| value >= curve.field().size();
    let checks = [
        (1, ![2, 4, 8].contains(&call.q)),
        (17, ![1, 2].contains(&call.series)),
        (2, usize::from(call.m) >= n),
        (19, call.m < lowest_order(curve)),
        (3, call.word.len() != n),
        (4, call.word.iter().any(is_bad)),
    ];
    let failed = checks.into_iter().filter(|&(_, is_fault)| is_fault);
    failed.map(|(number, _)| number).collect()
}

/// On each curve in each series every fault comes alone, with each other one that can
/// come with it, and with all later ones.
#[test]
fn the_first_check_that_applies_decides() {
    let order_of_checks = [1, 17, 2, 19, 3, 4];
    for curve in Curve::ALL.into_iter().flat_map(Curve::in_both_series) {
        let mut found = BTreeSet::new();
        for call in checks(curve, &[0, lowest_order(curve)], LONG_ROOM) {
            let faults = faults(curve, &call);
            let (outcome, is_codeword) = dual::check(call.q, call.series, call.m, &call.word);
            assert_eq!(outcome.number, faults.first().copied().unwrap_or(0));
            assert!(faults.is_empty() || !is_codeword);
            found.insert(faults);
        }
        for (index, &first) in order_of_checks.iter().enumerate() {
            assert!(found.contains(&vec![first]), "{first}");
            for &second in &order_of_checks[index + 1..] {
                let pair = vec![first, second];
                assert_eq!(found.contains(&pair), pair != [2, 19], "{pair:?}");
            }
        }
        assert!(found.contains(&vec![1, 17, 2, 3, 4]));
    }
}

#[test]
fn the_calls_of_long_blocks_have_room() {
    for curve in Curve::Q_IS_8.in_both_series() {
        let calls = checks(curve, &[300], LONG_ROOM);
        assert_eq!(calls, checks(curve, &[300], LONG_ROOM));
        assert!(calls.iter().all(|call| call.word.len() <= LONG_ROOM));
        assert!(calls.iter().any(|call| call.word.len() == LONG_ROOM));
    }
}
