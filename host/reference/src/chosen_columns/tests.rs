use super::*;
use crate::code::{self, MISSING};
use crate::curve::Curve;
use crate::generator::Generator;
use crate::sample::columns::{self, Block};
use crate::sample::{self, Shape};

type Call = fn(u8, &[u8], u16, &[u8], &mut [u8]) -> Outcome;

const NONE_FITS: Result<Vec<u8>, Outcome> = Err(Outcome::NO_MESSAGE_FITS);

/// The result of a call, or its refusal after a look that nothing was written.
fn run(
    call: Call,
    q: u8,
    columns: &[u8],
    m: u16,
    input: &[u8],
    length: usize,
) -> Result<Vec<u8>, Outcome> {
    let before: Vec<u8> = (100..).take(length).collect();
    let mut output = before.clone();
    match call(q, columns, m, input, &mut output) {
        Outcome::ACCEPTED => Ok(output),
        refusal => {
            assert_eq!(output, before, "a refusal leaves lent memory unchanged");
            Err(refusal)
        }
    }
}

fn decode(call: Call, block: &Block, word: &[u8]) -> Result<Vec<u8>, Outcome> {
    let Shape { m, k, .. } = block.shape;
    run(call, block.q(), &block.columns, m, word, k)
}

fn several(r: u16) -> Result<Vec<u8>, Outcome> {
    Err(Outcome::several_messages_fit(r))
}

/// All lists of the small curve, and five of each length of the large one.
fn lists(generator: &mut Generator) -> Vec<(Curve, Vec<u8>)> {
    let small = columns::every_list(Curve::Q_IS_2).map(|list| (Curve::Q_IS_2, list));
    let counts = (1..=16).flat_map(|count| [count; 5]);
    let large = counts.map(|count| {
        let list = columns::arbitrary(generator, Curve::Q_IS_4, count);
        (Curve::Q_IS_4, list)
    });
    small.chain(large).collect()
}

/// Every order of these lists.
fn blocks(generator: &mut Generator) -> Vec<Block> {
    let lists = lists(generator);
    let of_list = |(curve, list): &(Curve, Vec<u8>)| Block::every_order(*curve, list);
    lists.iter().flat_map(of_list).collect()
}

/// Value E of the paper, 1 + 2x + 3y: its word is 1 2 2 1 3 0 1 2 on all columns.
#[test]
fn value_e_on_some_of_its_columns() {
    let message = vec![1, 2, 3];
    let rows: [(&[u8], &[u8]); 4] = [
        (&[0, 1], &[1, 2, 2, 1]),
        (&[1, 3], &[2, 1, 1, 2]),
        (&[0, 2, 3], &[1, 2, 3, 0, 1, 2]),
        (&[0, 1, 2, 3], &[1, 2, 2, 1, 3, 0, 1, 2]),
    ];
    for (columns, word) in rows {
        let n = word.len();
        assert_eq!(run(encode_on, 2, columns, 3, &message, n), Ok(word.into()));
        assert_eq!(
            run(unencode_on, 2, columns, 3, word, 3),
            Ok(message.clone())
        );
        assert_eq!(run(recover_on, 2, columns, 3, word, 3), Ok(message.clone()));
    }
}

/// One column has 2 places, so the order 3 of value E is too high, and below it there
/// is only the constant term.
#[test]
fn one_column_of_the_small_curve() {
    for x in 0..4 {
        for m in [0, 1] {
            assert_eq!(run(encode_on, 2, &[x], m, &[3], 2), Ok(vec![3, 3]));
            assert_eq!(run(unencode_on, 2, &[x], m, &[2, 2], 1), Ok(vec![2]));
            assert_eq!(run(unencode_on, 2, &[x], m, &[2, 3], 1), NONE_FITS);
            assert_eq!(run(recover_on, 2, &[x], m, &[255, 1], 1), Ok(vec![1]));
            assert_eq!(run(recover_on, 2, &[x], m, &[255, 255], 1), several(1));
        }
        let too_high = Err(Outcome::ORDER_TOO_HIGH);
        assert_eq!(run(encode_on, 2, &[x], 2, &[3, 3], 2), too_high);
        assert_eq!(run(encode_on, 2, &[x], 3, &[1, 2, 3], 2), too_high);
    }
}

/// x, the message 0 1 of order 4, which at q = 4 takes two columns; and y, the message
/// 0 0 1 of order 5, whose column 1 holds 2 3 4 5 by value D of the paper.
#[test]
fn each_column_of_the_large_curve_holds_its_x_and_its_y() {
    let word = [3, 3, 3, 3, 9, 9, 9, 9, 15, 15, 15, 15];
    let columns = [3, 9, 15];
    let x = run(encode_on, 4, &columns, 4, &[0, 1], 12);
    assert_eq!(x, Ok(word.to_vec()));
    assert_eq!(run(unencode_on, 4, &columns, 4, &word, 2), Ok(vec![0, 1]));
    assert_eq!(run(unencode_on, 4, &[3, 9, 14], 4, &word, 2), NONE_FITS);
    let y = run(encode_on, 4, &[0, 1], 5, &[0, 0, 1], 8);
    assert_eq!(y, Ok(vec![0, 1, 6, 7, 2, 3, 4, 5]));
    let only_column = run(encode_on, 4, &[1], 3, &[7], 4);
    assert_eq!(only_column, Ok(vec![7; 4]));
}

/// Two columns of the small curve at order 2, k = 2: one of them leaves 1, x - a.
#[test]
fn a_whole_column_leaves_several() {
    for columns in [[0, 1], [0, 3], [1, 2], [2, 3]] {
        let one_column = [0, 0, 255, 255];
        assert_eq!(run(recover_on, 2, &columns, 2, &one_column, 2), several(1));
        let one_more = [0, 0, 255, 0];
        let zeros = Ok(vec![0, 0]);
        assert_eq!(run(recover_on, 2, &columns, 2, &one_more, 2), zeros);
        let one_wrong = [0, 1, 255, 0];
        assert_eq!(run(recover_on, 2, &columns, 2, &one_wrong, 2), NONE_FITS);
    }
}

#[test]
fn words_are_the_columns_of_the_plain_word() {
    let mut generator = Generator::with_seed(71);
    for block in blocks(&mut generator) {
        let message = sample::message(&mut generator, block.shape);
        let plain = Shape::of(block.shape.curve, block.shape.m).word_of(&message);
        let q = usize::from(block.q());
        let of_columns = block.columns.iter().flat_map(|&x| {
            let start = q * usize::from(x);
            plain[start..start + q].to_vec()
        });
        assert!(block.word_of(&message).into_iter().eq(of_columns));
    }
}

#[test]
fn words_give_their_message_back() {
    let mut generator = Generator::with_seed(72);
    for block in blocks(&mut generator) {
        let message = sample::message(&mut generator, block.shape);
        let word = block.word_of(&message);
        assert_eq!(decode(unencode_on, &block, &word), Ok(message.clone()));
        assert_eq!(decode(recover_on, &block, &word), Ok(message));
    }
}

#[test]
fn unencoding_is_recovery_of_a_whole_word_and_never_answers_10() {
    let mut generator = Generator::with_seed(73);
    let mut refused = 0;
    for block in blocks(&mut generator) {
        let word = block.codeword(&mut generator);
        let damaged = sample::damaged(&mut generator, block.shape, &word);
        let arbitrary = sample::symbols(&mut generator, block.shape, block.shape.n);
        for word in [word, damaged, arbitrary] {
            let answer = decode(unencode_on, &block, &word);
            assert_eq!(answer, decode(recover_on, &block, &word));
            match answer {
                Ok(message) => assert_eq!(block.word_of(&message), word),
                Err(refusal) => {
                    assert_eq!(refusal, Outcome::NO_MESSAGE_FITS);
                    refused += 1;
                }
            }
        }
    }
    assert!(refused > 1000, "{refused}");
}

/// At q = 2 every choice of known places is tried.
#[test]
fn m_plus_1_symbols_are_enough() {
    let mut generator = Generator::with_seed(74);
    for block in blocks(&mut generator) {
        let Shape { n, m, .. } = block.shape;
        let message = sample::message(&mut generator, block.shape);
        let word = block.word_of(&message);
        let enough = usize::from(m) + 1;
        for _ in 0..4 {
            let broken = sample::with_known(&mut generator, &word, enough);
            assert_eq!(decode(recover_on, &block, &broken), Ok(message.clone()));
        }
        if block.q() == 2 {
            let is_known = |bits: usize, place: usize| bits >> place & 1 == 1;
            for bits in (0..1usize << n).filter(|bits| bits.count_ones() as usize >= enough) {
                let mut broken = word.clone();
                for place in (0..n).filter(|&place| !is_known(bits, place)) {
                    broken[place] = MISSING;
                }
                assert_eq!(decode(recover_on, &block, &broken), Ok(message.clone()));
            }
        }
    }
}

#[test]
fn m_by_q_columns_leave_several_and_nothing_at_all_leaves_every_message() {
    let mut generator = Generator::with_seed(75);
    for block in blocks(&mut generator) {
        let shape = block.shape;
        let word = block.codeword(&mut generator);
        let nothing = vec![MISSING; shape.n];
        assert_eq!(
            decode(recover_on, &block, &nothing),
            several(shape.k as u16)
        );
        let count = shape.columns_of_order();
        let few = sample::with_known_columns(&mut generator, shape, &word, count);
        let refusal = decode(recover_on, &block, &few).expect_err("several fit");
        assert_eq!(refusal.number, 10);
        let enough = sample::with_known_columns(&mut generator, shape, &word, count + 1);
        assert!(decode(recover_on, &block, &enough).is_ok());
    }
}

/// Every broken word of up to 6 places, by trying every message.
#[test]
fn recovery_agrees_with_trying_every_message() {
    let lists = columns::every_list(Curve::Q_IS_2).filter(|list| list.len() < 4);
    let blocks = lists.flat_map(|list| Block::every_order(Curve::Q_IS_2, &list));
    for block in blocks.filter(|block| block.shape.k <= 4) {
        let Shape { n, k, .. } = block.shape;
        let messages: Vec<Vec<u8>> = (0..4u32.pow(k as u32))
            .map(|number| sample::numbered_word(number, 4)[..k].to_vec())
            .collect();
        let words: Vec<Vec<u8>> = messages.iter().map(|m| block.word_of(m)).collect();
        for number in 0..5u32.pow(n as u32) {
            let broken = &sample::numbered_word(number, 5)[..n];
            let agrees = |(&known, &symbol): (&u8, &u8)| known == MISSING || known == symbol;
            let fits = |index: &usize| broken.iter().zip(&words[*index]).all(agrees);
            let fitting: Vec<usize> = (0..words.len()).filter(fits).collect();
            let expected = match fitting.as_slice() {
                [] => NONE_FITS,
                [only] => Ok(messages[*only].clone()),
                several_fit => several(several_fit.len().ilog(4) as u16),
            };
            assert_eq!(decode(recover_on, &block, broken), expected);
        }
    }
}

/// Good and bad words of all orders, orders too high and slices of other lengths.
#[test]
fn the_full_list_gives_what_the_plain_calls_give_with_series_1() {
    let plain_call = |call: Call, q: u8, m: u16, input: &[u8], length: usize| {
        let columns: Vec<u8> = (0..q * q).collect();
        run(call, q, &columns, m, input, length)
    };
    let mut generator = Generator::with_seed(76);
    for shape in Shape::every_short() {
        let Shape { m, n, k, .. } = shape;
        let q = shape.q();
        let message = sample::message(&mut generator, shape);
        let word = shape.word_of(&message);
        let known = generator.below(n + 1);
        let broken = sample::with_known(&mut generator, &word, known);
        let inputs = [
            message,
            sample::damaged(&mut generator, shape, &broken),
            sample::damaged(&mut generator, shape, &word),
            word,
            broken,
            sample::symbols(&mut generator, shape, n),
            vec![MISSING; n],
            vec![shape.field_size; k],
            vec![254; n],
            vec![],
        ];
        for (m, length) in [(m, n), (m, k), (m, n + 1), (n as u16, k), (256 + m, n)] {
            for input in &inputs {
                for (call, plain) in [
                    (encode_on as Call, code::encode as PlainCall),
                    (unencode_on, code::unencode),
                    (recover_on, code::recover),
                ] {
                    let expected = run_plain(plain, q, m, input, length);
                    assert_eq!(plain_call(call, q, m, input, length), expected);
                }
            }
        }
    }
}

type PlainCall = fn(u8, u8, u16, &[u8], &mut [u8]) -> Outcome;

fn run_plain(
    call: PlainCall,
    q: u8,
    m: u16,
    input: &[u8],
    length: usize,
) -> Result<Vec<u8>, Outcome> {
    let mut output = vec![0; length];
    match call(q, 1, m, input, &mut output) {
        Outcome::ACCEPTED => Ok(output),
        refusal => Err(refusal),
    }
}

/// Each call starts with every fault and loses them one by one.
#[test]
fn refusals_come_in_the_order_of_the_checks() {
    let mut generator = Generator::with_seed(77);
    for block in blocks(&mut generator) {
        let Shape { n, k, .. } = block.shape;
        for (call, input, output) in [
            (encode_on as Call, k, n),
            (unencode_on, n, k),
            (recover_on, n, k),
        ] {
            refusals_up_to_the_order(call, &block, input, output);
            refusals_after_the_order(call, &block, input, output);
        }
    }
}

fn refusals_up_to_the_order(call: Call, block: &Block, input: usize, output: usize) {
    let Shape { n, m, .. } = block.shape;
    let bad = vec![block.shape.field_size; input + 1];
    for q in sample::BAD_CURVES {
        for order in [m, 64, u16::MAX] {
            for columns in [&block.columns[..], &[], &[1, 0], &[64]] {
                let outcome = run(call, q, columns, order, &bad, output + 1);
                assert_eq!(outcome, Err(Outcome::UNKNOWN_CURVE));
            }
        }
    }
    for columns in lists_that_are_none(block) {
        for order in [m, 64, u16::MAX] {
            let outcome = run(call, block.q(), &columns, order, &bad, output + 1);
            assert_eq!(outcome, Err(Outcome::BAD_COLUMNS), "{columns:?}");
        }
    }
    for order in [n as u16, n as u16 + 1, 64, 255, 256, 256 + m, u16::MAX] {
        let outcome = run(call, block.q(), &block.columns, order, &bad, output + 1);
        assert_eq!(outcome, Err(Outcome::ORDER_TOO_HIGH));
    }
}

/// Empty, with equal neighbours, descending, with a value that is no symbol.
fn lists_that_are_none(block: &Block) -> Vec<Vec<u8>> {
    let columns = &block.columns;
    let last = columns[columns.len() - 1];
    let mut lists = vec![vec![]];
    for index in 0..columns.len() {
        let mut repeated = columns.clone();
        repeated.insert(index, columns[index]);
        lists.push(repeated);
        if index > 0 {
            let mut swapped = columns.clone();
            swapped.swap(index - 1, index);
            lists.push(swapped);
        }
    }
    let size = block.shape.field_size;
    for bad in [size, size + 1, 128 + last, 255] {
        lists.push([columns.as_slice(), &[bad]].concat());
        lists.push([&columns[..columns.len() - 1], &[bad]].concat());
    }
    lists
}

fn refusals_after_the_order(call: Call, block: &Block, input: usize, output: usize) {
    let bad = block.shape.field_size;
    let call = |input: &[u8], length| {
        run(
            call,
            block.q(),
            &block.columns,
            block.shape.m,
            input,
            length,
        )
    };
    for length in [0, input - 1, input + 1, 72, 256 + input] {
        let outcome = call(&vec![bad; length], output + 1);
        assert_eq!(outcome, Err(Outcome::WRONG_INPUT_LENGTH));
    }
    for index in 0..input {
        for value in [bad, 254] {
            let mut values = vec![0; input];
            values[index..].fill(value);
            let outcome = call(&values, output + 1);
            assert_eq!(outcome, Err(Outcome::value_too_high(index as u16)));
        }
    }
    for length in [0, output - 1, output + 1, 72] {
        let outcome = call(&vec![0; input], length);
        assert_eq!(outcome, Err(Outcome::WRONG_OUTPUT_LENGTH));
    }
    assert_eq!(call(&vec![0; input], output), Ok(vec![0; output]));
}

/// 255 is a bad value in messages and whole words, and what is left open is looked at
/// only after the slice's length.
#[test]
fn missing_symbols_and_the_slice() {
    let word = [255, 0, 255, 1];
    let wrong_length = Err(Outcome::WRONG_OUTPUT_LENGTH);
    let bad_value = |index| Err(Outcome::value_too_high(index));
    assert_eq!(run(recover_on, 2, &[1, 3], 1, &word, 2), wrong_length);
    assert_eq!(run(recover_on, 2, &[1, 3], 1, &word, 1), NONE_FITS);
    assert_eq!(run(unencode_on, 2, &[1, 3], 1, &word, 2), bad_value(0));
    assert_eq!(run(encode_on, 2, &[1, 3], 3, &[0, 0, 255], 4), bad_value(2));
    let word = [255, 0, 254, 255];
    assert_eq!(run(recover_on, 2, &[1, 3], 1, &word, 2), bad_value(2));
}
