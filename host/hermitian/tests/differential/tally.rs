//! What the compared calls have answered so far.

use std::fmt;

use crate::comparison::Entry;

const NUMBERS: usize = 20;
const SERIES: usize = 2;
const CURVES: usize = 3;
const ORDERS: usize = 512;

/// Answers by entry and refusal number, 0 for an accepted call.
#[derive(Clone)]
pub struct Tally {
    answers: [[u64; NUMBERS]; Entry::COUNT],
    /// Accepted calls by entry, series and order, for q = 2, 4 and 8.
    accepted: [[[[u64; ORDERS]; CURVES]; SERIES]; Entry::COUNT],
}

impl Tally {
    pub fn new() -> Tally {
        Tally {
            answers: [[0; NUMBERS]; Entry::COUNT],
            accepted: [[[[0; ORDERS]; CURVES]; SERIES]; Entry::COUNT],
        }
    }

    pub fn count(&mut self, entry: Entry, q: u8, series: u8, m: u16, number: u8) {
        self.answers[entry as usize][usize::from(number)] += 1;
        if number == 0 {
            let of_entry = &mut self.accepted[entry as usize];
            of_entry[series_index(series)][curve_index(q)][usize::from(m)] += 1;
        }
    }

    pub fn add(&mut self, other: &Tally) {
        let counts = self.answers.as_flattened_mut().iter_mut();
        for (count, more) in counts.zip(other.answers.as_flattened()) {
            *count += more;
        }
        let mine = self.accepted.as_flattened_mut().as_flattened_mut();
        let others = other.accepted.as_flattened().as_flattened();
        let counts = mine.as_flattened_mut().iter_mut();
        for (count, more) in counts.zip(others.as_flattened()) {
            *count += more;
        }
    }

    pub fn of(&self, entry: Entry, number: u8) -> u64 {
        self.answers[entry as usize][usize::from(number)]
    }

    pub fn calls_of(&self, entry: Entry) -> u64 {
        self.answers[entry as usize].iter().sum()
    }

    pub fn accepted_at(&self, entry: Entry, q: u8, series: u8, m: u16) -> u64 {
        self.accepted[entry as usize][series_index(series)][curve_index(q)][usize::from(m)]
    }

    pub fn total(&self) -> u64 {
        self.answers.as_flattened().iter().sum()
    }
}

/// Of a curve number that an accepted call had.
fn curve_index(q: u8) -> usize {
    match q {
        2 => 0,
        4 => 1,
        8 => 2,
        _ => panic!("a call with q = {q} was accepted"),
    }
}

/// Of a series that an accepted call named.
fn series_index(series: u8) -> usize {
    match series {
        1 => 0,
        2 => 1,
        _ => panic!("a call with series {series} was accepted"),
    }
}

impl fmt::Display for Tally {
    fn fmt(&self, f: &mut fmt::Formatter<'_>) -> fmt::Result {
        writeln!(f, "{} calls compared; by refusal number:", self.total())?;
        write!(f, "{:>11}", "")?;
        for number in 0..NUMBERS {
            write!(f, "{number:>9}")?;
        }
        for entry in Entry::ALL {
            write!(f, "\n{:>11}", entry.name())?;
            for count in self.answers[entry as usize] {
                write!(f, "{count:>9}")?;
            }
        }
        Ok(())
    }
}
