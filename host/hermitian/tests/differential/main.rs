//! The library through its C entries beside the reference, on every kind of
//! call. Set HERMITIAN_SEED to repeat a run.

mod checking;
mod checking_faults;
mod column_faults;
mod columns;
mod comparison;
mod converting;
mod encoding_at;
mod guarded;
mod inputs;
mod long;
mod mending;
mod places;
mod tally;

use std::io::Write;
use std::time::{Instant, SystemTime, UNIX_EPOCH};

use comparison::Entry;
use reference::generator::Generator;
use tally::Tally;

const LEAST_CALLS: u64 = 200_000;
const LEAST_MEND_CALLS: u64 = 100_000;
const LEAST_LONG_RECOVERIES: u64 = 70_000;
const LEAST_CALLS_WITH_PLACES: u64 = 100_000;
const LEAST_CONVERSIONS: u64 = 100_000;
const LEAST_CALLS_ON_COLUMNS: u64 = 500_000;
const LEAST_CHECKS: u64 = 500_000;

type Group = (&'static str, fn(&mut Generator) -> Tally);

/// The mix follows what the reference costs: some microseconds at q = 2, up
/// to some milliseconds at the high orders of q = 4, and up to 0.1 s for one
/// elimination at q = 8.
const GROUPS: [Group; 43] = [
    ("every order", |g| inputs::at_every_order(g, 12)),
    ("strap blocks", |g| inputs::strap_blocks(g, 6_500)),
    ("faulty calls", |g| inputs::faulty(g, 80_000)),
    ("every byte", inputs::every_byte),
    ("every q and m", inputs::every_curve_number_and_order),
    ("every series", inputs::every_series),
    ("small whole words", inputs::every_small_word),
    ("small broken words", inputs::every_small_broken_word),
    ("mending, every order", |g| mending::at_every_order(g, 6)),
    ("mending, strap blocks", |g| mending::strap_blocks(g, 9_000)),
    ("mending, small words", mending::every_small_word),
    ("long, every order", long::at_every_order),
    ("long, missing symbols", |g| long::missing_symbols(g, 6)),
    ("long, faulty calls", |g| long::faulty(g, 9_000)),
    ("long, every m", long::every_order_of_16_bits),
    ("long, every series", long::every_series),
    ("places, every order", |g| places::at_every_order(g, 10)),
    ("places, strap blocks", |g| places::strap_blocks(g, 500)),
    ("places, faulty calls", |g| places::faulty(g, 30_000)),
    ("places, every fault", places::every_fault),
    (
        "places, every q and m",
        places::every_curve_number_and_order,
    ),
    ("places, every series", places::every_series),
    ("places, small blocks", places::every_small_set),
    ("converting, words", |g| converting::words(g, 6)),
    ("converting, small words", converting::every_small_word),
    ("converting, faulty calls", |g| {
        converting::faulty(g, 30_000)
    }),
    ("converting, every fault", converting::every_fault),
    (
        "converting, every q and series",
        converting::every_curve_number_and_series,
    ),
    ("columns, every order", |g| columns::at_every_order(g, 4)),
    ("columns, beside plain calls", |g| {
        columns::beside_plain_calls(g, 20)
    }),
    ("columns, small words", columns::every_small_word),
    ("columns, faulty calls", |g| column_faults::faulty(g, 30)),
    ("columns, every fault", column_faults::every_fault),
    (
        "columns, every q and m",
        column_faults::every_curve_number_and_order,
    ),
    ("checking, every order", |g| checking::at_every_order(g, 20)),
    ("checking, long words", checking::long_words),
    ("checking, every long order", checking::at_every_long_order),
    ("checking, small words", checking::every_small_word),
    ("checking, faulty calls", |g| {
        checking_faults::faulty(g, 30_000)
    }),
    ("checking, two faults", |g| {
        checking_faults::every_two_faults(g, 8)
    }),
    ("checking, every fault", checking_faults::every_fault),
    (
        "checking, every q and m",
        checking_faults::every_curve_number_and_order,
    ),
    ("checking, every series", checking_faults::every_series),
];

#[test]
fn the_library_answers_as_the_reference() {
    let seed = chosen_seed();
    say(&format!("HERMITIAN_SEED={seed}"));
    let mut all = Tally::new();
    for tally in run_groups(seed) {
        all.add(&tally);
    }
    say(&all.to_string());
    assert!(all.total() >= LEAST_CALLS);
    assert!(all.calls_of(Entry::Mend) >= LEAST_MEND_CALLS);
    assert!(all.calls_of(Entry::RecoverLong) >= LEAST_LONG_RECOVERIES);
    assert!(all.calls_of(Entry::EncodeAt) >= LEAST_CALLS_WITH_PLACES);
    assert!(all.calls_of(Entry::Convert) >= LEAST_CONVERSIONS);
    for entry in Entry::ON_COLUMNS {
        assert!(all.calls_of(entry) >= LEAST_CALLS_ON_COLUMNS);
    }
    assert!(all.calls_of(Entry::Check) >= LEAST_CHECKS);
    every_answer_occurred(&all);
    every_order_was_accepted(&all);
}

/// All groups at once: the library says that threads may call it together.
fn run_groups(seed: u64) -> Vec<Tally> {
    std::thread::scope(|scope| {
        let start =
            |(number, group)| scope.spawn(move || run_group(group, seed.wrapping_add(number)));
        let running: Vec<_> = (0..).zip(GROUPS).map(start).collect();
        let finished = running.into_iter().map(|group| group.join());
        finished
            .map(|tally| tally.expect("a group failed; its message is above"))
            .collect()
    })
}

/// Each group has its own seed, so that changing one leaves the others.
fn run_group((name, group): Group, seed: u64) -> Tally {
    let start = Instant::now();
    let tally = group(&mut Generator::with_seed(seed));
    let seconds = start.elapsed().as_secs_f64();
    say(&format!("{name}: {} calls, {seconds:.1} s", tally.total()));
    tally
}

fn chosen_seed() -> u64 {
    match std::env::var("HERMITIAN_SEED") {
        Ok(text) => text.parse().expect("HERMITIAN_SEED is a number below 2^64"),
        Err(_) => SystemTime::now()
            .duration_since(UNIX_EPOCH)
            .map_or(0, |time| time.as_nanos() as u64),
    }
}

/// Straight to standard error, which the test harness doesn't capture.
fn say(line: &str) {
    // A run without a terminal must not fail for it.
    let _ = writeln!(std::io::stderr(), "{line}");
}

/// Refusals 6 and 7 are those of sessions, which have no C entry; 8 no longer
/// occurs; a message always has a word; a whole word never leaves several
/// messages; 11 and 12 are those of mending, which has no 9 and no 10; 13 is the
/// field's; 14 is that of long recovery, which names no curve and so has no 1; 15 and
/// 16 are those of encoding at places, where k symbols always have a word otherwise;
/// the converter takes no order and any word; 18 is that of the calls on chosen columns,
/// which name no series and so have no 17; 19 is that of the check, which has no output of
/// another length and so no 5, and no 9 either.
fn every_answer_occurred(tally: &Tally) {
    for entry in Entry::ALL {
        for number in 0..=19 {
            let count = tally.of(entry, number);
            let possible = is_possible(entry, number);
            assert_eq!(count > 0, possible, "{} {number}", entry.name());
        }
    }
}

fn is_possible(entry: Entry, number: u8) -> bool {
    let recovers = matches!(
        entry,
        Entry::Recover | Entry::RecoverLong | Entry::RecoverOn
    );
    match number {
        1 => entry != Entry::RecoverLong,
        2 => entry != Entry::Convert,
        0 | 3 | 4 => true,
        5 => entry != Entry::Check,
        9 => recovers || matches!(entry, Entry::Unencode | Entry::UnencodeOn),
        10 => recovers,
        11 | 12 => entry == Entry::Mend,
        14 => entry == Entry::RecoverLong,
        15 | 16 => entry == Entry::EncodeAt,
        17 => !Entry::ON_COLUMNS.contains(&entry),
        18 => Entry::ON_COLUMNS.contains(&entry),
        19 => entry == Entry::Check,
        _ => false,
    }
}

/// From the order n - g on nothing is mended. Recovery of long blocks is a call of
/// its own, and they aren't mended. The converter takes no order. The calls on chosen
/// columns count as calls of series 1. Words are checked from the order 2g - 1 on.
fn every_order_was_accepted(tally: &Tally) {
    for (entry, series) in Entry::ALL.map(|entry| [(entry, 1), (entry, 2)]).concat() {
        for (q, n, g) in [(2, 8, 1), (4, 64, 6), (8, 512, 28)] {
            for m in 0..n {
                let possible = match entry {
                    Entry::Encode | Entry::Unencode => true,
                    Entry::EncodeAt | Entry::Recover => q != 8,
                    Entry::Mend => q != 8 && m < n - g,
                    Entry::RecoverLong => q == 8,
                    Entry::Convert => m == 0,
                    Entry::EncodeOn | Entry::UnencodeOn | Entry::RecoverOn => q != 8 && series == 1,
                    Entry::Check => m + 1 >= 2 * g,
                };
                let count = tally.accepted_at(entry, q, series, m);
                let name = entry.name();
                assert_eq!(count > 0, possible, "{name} at q = {q}, {series}, m = {m}");
            }
        }
    }
}
