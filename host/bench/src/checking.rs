//! Checking beside unencoding: times of the library's two calls on the same words, after a
//! test that the check says yes exactly where unencoding succeeds.

use std::hint::black_box;

use crate::timing::{self, Times};
use crate::SERIES;

/// The order whose words are checked, with `name` behind the operation's own.
pub struct Order {
    pub name: &'static str,
    pub q: u8,
    pub m: u16,
    pub k: usize,
}

impl Order {
    /// Times on codewords and on the same with one symbol wrong.
    pub fn print_table<const N: usize>(&self, words: &[[u8; N]], damaged: &[[u8; N]]) {
        println!("| operation | check, ns | unencode, ns | check / unencode |");
        println!("|---|---|---|---|");
        let name = self.name;
        print_row(&format!("check{name}"), &self.times(words, true));
        let name = format!("check{name}, 1 wrong");
        print_row(&name, &self.times(damaged, false));
    }

    fn times<const N: usize>(&self, words: &[[u8; N]], are_codewords: bool) -> Times {
        let (q, m) = (self.q, self.m);
        let mut message = vec![0; self.k];
        for word in words {
            assert_eq!(hermitian::check(q, SERIES, m, word), Ok(are_codewords));
            let unencoded = hermitian::unencode(q, SERIES, m, word, &mut message);
            assert_eq!(unencoded.is_ok(), are_codewords);
        }
        timing::compare(
            words.len(),
            || {
                for word in words {
                    let _ = black_box(hermitian::check(q, SERIES, m, black_box(word)));
                }
            },
            || {
                for word in words {
                    let word = black_box(word);
                    let _ = black_box(hermitian::unencode(q, SERIES, m, word, &mut message));
                    black_box(&message);
                }
            },
        )
    }
}

/// The check is timed in the library's place, and unencoding in that of the baseline.
fn print_row(name: &str, times: &Times) {
    let ratio = times.library / times.baseline;
    println!(
        "| {name} | {:.0} | {:.0} | {ratio:.2} |",
        times.library, times.baseline
    );
}
