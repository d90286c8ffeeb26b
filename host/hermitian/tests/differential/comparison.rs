//! One call of the library beside one call of the reference.

use hermitian::entries;
use reference::chosen_columns;
use reference::code;
use reference::conversion;
use reference::generator::Generator;
use reference::mend;
use reference::outcome::Outcome;
use reference::sample::Shape;

use crate::guarded::Guarded;
use crate::tally::Tally;

#[derive(Clone, Copy, Debug, PartialEq, Eq)]
pub enum Entry {
    Encode,
    Unencode,
    Recover,
    Mend,
    RecoverLong,
    EncodeAt,
    Convert,
    EncodeOn,
    UnencodeOn,
    RecoverOn,
    Check,
}

impl Entry {
    pub const COUNT: usize = 11;

    pub const ALL: [Entry; Entry::COUNT] = [
        Entry::Encode,
        Entry::Unencode,
        Entry::Recover,
        Entry::Mend,
        Entry::RecoverLong,
        Entry::EncodeAt,
        Entry::Convert,
        Entry::EncodeOn,
        Entry::UnencodeOn,
        Entry::RecoverOn,
        Entry::Check,
    ];

    /// The entries that name a curve and an order and take one input and outputs of some
    /// length. [`crate::long`], [`crate::encoding_at`], [`crate::converting`],
    /// [`crate::columns`] and [`crate::checking`] call the others.
    pub const OF_ORDERS: [Entry; 4] = [Entry::Encode, Entry::Unencode, Entry::Recover, Entry::Mend];

    /// The entries that take a list of columns.
    pub const ON_COLUMNS: [Entry; 3] = [Entry::EncodeOn, Entry::UnencodeOn, Entry::RecoverOn];

    pub fn name(self) -> &'static str {
        match self {
            Entry::Encode => "encode",
            Entry::Unencode => "unencode",
            Entry::Recover => "recover",
            Entry::Mend => "mend",
            Entry::RecoverLong => "long",
            Entry::EncodeAt => "encode at",
            Entry::Convert => "convert",
            Entry::EncodeOn => "encode on",
            Entry::UnencodeOn => "unencode on",
            Entry::RecoverOn => "recover on",
            Entry::Check => "check",
        }
    }

    pub fn output_count(self) -> usize {
        match self {
            Entry::Mend => 3,
            _ => 1,
        }
    }

    /// The length of the input that isn't refused.
    pub fn input_length(self, shape: Shape) -> usize {
        match self {
            Entry::Encode | Entry::EncodeAt | Entry::EncodeOn => shape.k,
            Entry::Unencode | Entry::Recover | Entry::Mend => shape.n,
            Entry::RecoverLong | Entry::Convert => shape.n,
            Entry::UnencodeOn | Entry::RecoverOn | Entry::Check => shape.n,
        }
    }

    /// The lengths of the outputs that aren't refused.
    pub fn output_lengths(self, shape: Shape) -> Vec<usize> {
        match self {
            Entry::Encode | Entry::EncodeAt | Entry::Convert | Entry::EncodeOn => vec![shape.n],
            Entry::Unencode | Entry::Recover | Entry::RecoverLong => vec![shape.k],
            Entry::UnencodeOn | Entry::RecoverOn => vec![shape.k],
            Entry::Mend => vec![shape.k, shape.n, shape.n],
            // The verdict.
            Entry::Check => vec![1],
        }
    }
}

/// The arguments of one call; the outputs' bytes are there to be left alone
/// or written over.
pub struct Call {
    pub entry: Entry,
    pub q: u8,
    /// 1 for the entries that take columns, which name none.
    pub series: u8,
    /// The list of an entry that takes one.
    pub columns: Option<Vec<u8>>,
    /// 0 for the converter, which takes none.
    pub m: u16,
    pub input: Vec<u8>,
    pub output_lengths: Vec<usize>,
}

impl Call {
    /// A call whose lengths are those that its shape asks for.
    pub fn fitting(entry: Entry, shape: Shape, input: Vec<u8>) -> Call {
        Call {
            entry,
            q: shape.q(),
            series: shape.series(),
            columns: None,
            m: shape.m,
            input,
            output_lengths: entry.output_lengths(shape),
        }
    }

    /// All that is lent to be read.
    fn inputs(&self) -> impl Iterator<Item = &Vec<u8>> {
        self.columns.iter().chain([&self.input])
    }
}

/// Makes the call both ways and compares all that they give. Returns what the outputs
/// then hold.
pub fn compare(call: &Call, generator: &mut Generator, tally: &mut Tally) -> Vec<Vec<u8>> {
    compare_with(
        |outputs| call_reference(call, outputs).packed(),
        call,
        generator,
        tally,
    )
}

/// Makes the call, demands the same answer and the same bytes as `expect` gives
/// and writes, and that the library wrote nothing else. Returns what the outputs then
/// hold.
pub fn compare_with(
    expect: impl FnOnce(&mut [Vec<u8>]) -> u32,
    call: &Call,
    generator: &mut Generator,
    tally: &mut Tally,
) -> Vec<Vec<u8>> {
    let lengths = call.output_lengths.iter();
    let before: Vec<Vec<u8>> = lengths.map(|&length| generator.bytes(length)).collect();
    let mut around = |bytes: &Vec<u8>| Guarded::around(generator, bytes);
    let inputs: Vec<Guarded> = call.inputs().map(&mut around).collect();
    let mut outputs: Vec<Guarded> = before.iter().map(around).collect();
    let answer = call_library(call, &inputs, &mut outputs);

    let mut expected_outputs = before;
    let expected = expect(&mut expected_outputs);

    let same_bytes = outputs.iter().map(Guarded::lent).eq(&expected_outputs);
    assert!(
        answer == expected && same_bytes,
        "{}: the library answers {answer} with {:?}, expected is {expected} with {expected_outputs:?}",
        described(call),
        outputs.iter().map(Guarded::lent).collect::<Vec<_>>()
    );
    assert!(
        inputs.iter().all(Guarded::is_unchanged),
        "{}: input written",
        described(call)
    );
    assert!(
        outputs.iter().all(Guarded::guards_are_unchanged),
        "{}: written beside an output",
        described(call)
    );
    assert!(
        answer == 0 || outputs.iter().all(Guarded::is_unchanged),
        "{}: refused, but an output is written",
        described(call)
    );
    let number = (answer >> 16) as u8;
    tally.count(call.entry, call.q, call.series, call.m, number);
    expected_outputs
}

/// Writes what is expected and gives its answer.
pub fn written(output: &mut [u8], expected: Result<&[u8], Outcome>) -> u32 {
    match expected {
        Ok(right) => {
            output.copy_from_slice(right);
            0
        }
        Err(refusal) => refusal.packed(),
    }
}

fn call_library(call: &Call, inputs: &[Guarded], outputs: &mut [Guarded]) -> u32 {
    match (call.entry, inputs, outputs) {
        (Entry::Encode, [message], [word]) => {
            call_plain(entries::hermitian_encode, call, message, word)
        }
        (Entry::Unencode, [word], [message]) => {
            call_plain(entries::hermitian_unencode, call, word, message)
        }
        (Entry::Recover, [word], [message]) => {
            call_plain(entries::hermitian_recover, call, word, message)
        }
        (Entry::Mend, [word], [message, mended, marks]) => {
            call_mend(call, word, message, mended, marks)
        }
        (Entry::Convert, [word], [out]) => call_convert(call, word, out),
        (Entry::EncodeOn, [columns, message], [word]) => {
            call_on(entries::hermitian_encode_on, call, columns, message, word)
        }
        (Entry::UnencodeOn, [columns, word], [message]) => {
            call_on(entries::hermitian_unencode_on, call, columns, word, message)
        }
        (Entry::RecoverOn, [columns, word], [message]) => {
            call_on(entries::hermitian_recover_on, call, columns, word, message)
        }
        _ => no_such_call(call),
    }
}

fn call_plain(entry: entries::Entry, call: &Call, input: &Guarded, output: &mut Guarded) -> u32 {
    let (input, output) = (input.lent(), output.lent_mut());
    // Safety: slices are never null and are good for their length, and the
    // two come from different vectors.
    unsafe {
        entry(
            call.q,
            call.series,
            call.m,
            input.as_ptr(),
            input.len(),
            output.as_mut_ptr(),
            output.len(),
        )
    }
}

fn call_mend(
    call: &Call,
    word: &Guarded,
    message: &mut Guarded,
    mended: &mut Guarded,
    marks: &mut Guarded,
) -> u32 {
    let word = word.lent();
    let (message, mended, marks) = (message.lent_mut(), mended.lent_mut(), marks.lent_mut());
    // Safety: as for the other entries; the four come from different vectors.
    unsafe {
        entries::hermitian_mend(
            call.q,
            call.series,
            call.m,
            word.as_ptr(),
            word.len(),
            message.as_mut_ptr(),
            message.len(),
            mended.as_mut_ptr(),
            mended.len(),
            marks.as_mut_ptr(),
            marks.len(),
        )
    }
}

fn call_convert(call: &Call, word: &Guarded, out: &mut Guarded) -> u32 {
    let (word, out) = (word.lent(), out.lent_mut());
    // Safety: as for the other entries; the two come from different vectors.
    unsafe {
        entries::hermitian_convert(
            call.q,
            call.series,
            word.as_ptr(),
            word.len(),
            out.as_mut_ptr(),
            out.len(),
        )
    }
}

fn call_on(
    entry: entries::EntryOn,
    call: &Call,
    columns: &Guarded,
    input: &Guarded,
    output: &mut Guarded,
) -> u32 {
    let (columns, input, output) = (columns.lent(), input.lent(), output.lent_mut());
    // Safety: as for the other entries; the three come from different vectors.
    unsafe {
        entry(
            call.q,
            columns.as_ptr(),
            columns.len(),
            call.m,
            input.as_ptr(),
            input.len(),
            output.as_mut_ptr(),
            output.len(),
        )
    }
}

fn call_reference(call: &Call, outputs: &mut [Vec<u8>]) -> Outcome {
    let (q, series, m, input) = (call.q, call.series, call.m, &call.input);
    match (call.entry, call.columns.as_deref(), outputs) {
        (Entry::Encode, None, [word]) => code::encode(q, series, m, input, word),
        (Entry::Unencode, None, [message]) => code::unencode(q, series, m, input, message),
        (Entry::Recover, None, [message]) => code::recover(q, series, m, input, message),
        (Entry::Convert, None, [out]) => conversion::convert(q, series, input, out),
        (Entry::EncodeOn, Some(columns), [word]) => {
            chosen_columns::encode_on(q, columns, m, input, word)
        }
        (Entry::UnencodeOn, Some(columns), [message]) => {
            chosen_columns::unencode_on(q, columns, m, input, message)
        }
        (Entry::RecoverOn, Some(columns), [message]) => {
            chosen_columns::recover_on(q, columns, m, input, message)
        }
        (Entry::Mend, None, [message, mended, marks]) => {
            let (outcome, count) = mend::mend(q, series, m, input, message, mended, marks);
            // From C the count is read from the marks.
            let ones = || marks.iter().filter(|&&mark| mark == 1).count();
            assert!(outcome != Outcome::ACCEPTED || usize::from(count) == ones());
            outcome
        }
        _ => no_such_call(call),
    }
}

fn no_such_call(call: &Call) -> ! {
    panic!("no such call: {}", described(call))
}

fn described(call: &Call) -> String {
    format!(
        "{} at q = {}, series {}, columns {:?}, m = {}, input {:?}, output lengths {:?}",
        call.entry.name(),
        call.q,
        call.series,
        call.columns,
        call.m,
        call.input,
        call.output_lengths
    )
}
