//! Calls of the encoder that puts symbols at chosen places, each held against what
//! it must give.

use hermitian::entries;
use reference::generator::Generator;
use reference::outcome::Outcome;
use reference::sample::places::symbols_at;
use reference::sample::Shape;
use reference::systematic;

use crate::comparison::Entry;
use crate::guarded::Guarded;
use crate::tally::Tally;

/// The arguments of one call.
pub struct Encoding {
    pub q: u8,
    pub series: u8,
    pub m: u16,
    pub places: Vec<u16>,
    pub symbols: Vec<u8>,
    pub word_length: usize,
}

impl Encoding {
    /// A call whose word has the length that its shape asks for.
    pub fn fitting(shape: Shape, places: Vec<u16>, symbols: Vec<u8>) -> Encoding {
        Encoding {
            q: shape.q(),
            series: shape.series(),
            m: shape.m,
            places,
            symbols,
            word_length: shape.n,
        }
    }
}

pub struct Comparison<'a> {
    pub generator: &'a mut Generator,
    pub tally: Tally,
}

impl Comparison<'_> {
    pub fn new(generator: &mut Generator) -> Comparison<'_> {
        Comparison {
            generator,
            tally: Tally::new(),
        }
    }

    /// Makes the call both ways and gives the refusal number of both.
    pub fn encode(&mut self, encoding: &Encoding) -> u8 {
        let before = self.generator.bytes(encoding.word_length);
        let mut word = before.clone();
        let Encoding {
            q,
            series,
            m,
            places,
            symbols,
            ..
        } = encoding;
        let outcome = systematic::encode_at(*q, *series, *m, places, symbols, &mut word);
        self.expect(encoding, &before, outcome, &word);
        outcome.number
    }

    /// A call with a known result.
    pub fn encode_to(&mut self, encoding: &Encoding, expected: Result<&[u8], Outcome>) {
        let before = self.generator.bytes(encoding.word_length);
        match expected {
            Ok(word) => self.expect(encoding, &before, Outcome::ACCEPTED, word),
            Err(refusal) => self.expect(encoding, &before, refusal, &before),
        }
    }

    /// Makes the call and demands this outcome and this word, and that nothing else
    /// was written.
    fn expect(&mut self, encoding: &Encoding, before: &[u8], expected: Outcome, right: &[u8]) {
        let places = Guarded::around(self.generator, &encoding.places);
        let symbols = Guarded::around(self.generator, &encoding.symbols);
        let mut word = Guarded::around(self.generator, before);
        let answer = call_library(encoding, &places, &symbols, &mut word);
        let described = || described(encoding, answer, word.lent(), expected, right);
        assert!(
            answer == expected.packed() && word.lent() == right,
            "{}",
            described()
        );
        assert!(places.is_unchanged(), "{}: places written", described());
        assert!(symbols.is_unchanged(), "{}: symbols written", described());
        assert!(word.guards_are_unchanged(), "{}: beside", described());
        if answer == 0 {
            is_codeword_with_the_symbols(encoding, word.lent());
        } else {
            assert!(word.is_unchanged(), "{}: word written", described());
        }
        let Encoding { q, series, m, .. } = *encoding;
        self.tally
            .count(Entry::EncodeAt, q, series, m, expected.number);
    }
}

fn call_library(
    encoding: &Encoding,
    places: &Guarded<u16>,
    symbols: &Guarded,
    word: &mut Guarded,
) -> u32 {
    let (places, symbols, word) = (places.lent(), symbols.lent(), word.lent_mut());
    // Safety: slices are never null, are aligned for what they hold and good for their
    // length, and the three come from different vectors.
    unsafe {
        entries::hermitian_encode_at(
            encoding.q,
            encoding.series,
            encoding.m,
            places.as_ptr(),
            places.len(),
            symbols.as_ptr(),
            symbols.len(),
            word.as_mut_ptr(),
            word.len(),
        )
    }
}

/// The symbols stand at the places, and unencoding works as for any other word.
fn is_codeword_with_the_symbols(encoding: &Encoding, word: &[u8]) {
    assert_eq!(symbols_at(&encoding.places, word), encoding.symbols);
    let mut message = vec![99; encoding.symbols.len()];
    let mut again = vec![99; word.len()];
    let Encoding { q, series, m, .. } = *encoding;
    let unencoded = hermitian::unencode(q, series, m, word, &mut message);
    let encoded = hermitian::encode(q, series, m, &message, &mut again);
    assert_eq!((unencoded, encoded), (Ok(()), Ok(())), "{word:?}");
    assert_eq!(again, word);
}

fn described(
    encoding: &Encoding,
    answer: u32,
    word: &[u8],
    expected: Outcome,
    right: &[u8],
) -> String {
    let Encoding {
        q,
        series,
        m,
        places,
        symbols,
        word_length,
    } = encoding;
    format!(
        "encode at q = {q}, series {series}, m = {m}, places {places:?}, symbols {symbols:?}, \
         word length {word_length}: the library answers {answer} with {word:?}, expected is {} with {right:?}",
        expected.packed()
    )
}
