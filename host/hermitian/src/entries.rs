//! The C entries as `include/hermitian.h` declares them.

/// The shape of [`hermitian_encode`], [`hermitian_unencode`] and
/// [`hermitian_recover`]: q, the series, m, the input and its length, the output and
/// its length. The answer is the refusal number times 65536 plus the second number.
pub type Entry = unsafe extern "C" fn(u8, u8, u16, *const u8, usize, *mut u8, usize) -> u32;

/// The shape of [`hermitian_encode_on`], [`hermitian_unencode_on`] and
/// [`hermitian_recover_on`]: q, the columns and their count, m, the input and its
/// length, the output and its length.
pub type EntryOn =
    unsafe extern "C" fn(u8, *const u8, usize, u16, *const u8, usize, *mut u8, usize) -> u32;

extern "C" {
    /// # Safety
    ///
    /// Each pointer is good for the length after it and isn't null, not even
    /// beside the length 0; no two of the buffers overlap.
    pub fn hermitian_encode(
        q: u8,
        series: u8,
        m: u16,
        message: *const u8,
        message_length: usize,
        word: *mut u8,
        word_length: usize,
    ) -> u32;

    /// # Safety
    ///
    /// As for [`hermitian_encode`], and `places` is aligned for numbers of 16 bits.
    pub fn hermitian_encode_at(
        q: u8,
        series: u8,
        m: u16,
        places: *const u16,
        count: usize,
        symbols: *const u8,
        symbol_count: usize,
        word: *mut u8,
        word_length: usize,
    ) -> u32;

    /// # Safety
    ///
    /// As for [`hermitian_encode`].
    pub fn hermitian_unencode(
        q: u8,
        series: u8,
        m: u16,
        word: *const u8,
        word_length: usize,
        message: *mut u8,
        message_length: usize,
    ) -> u32;

    /// # Safety
    ///
    /// As for [`hermitian_encode`].
    pub fn hermitian_recover(
        q: u8,
        series: u8,
        m: u16,
        word: *const u8,
        word_length: usize,
        message: *mut u8,
        message_length: usize,
    ) -> u32;

    /// # Safety
    ///
    /// As for [`hermitian_encode`].
    pub fn hermitian_recover_long(
        series: u8,
        m: u16,
        word: *const u8,
        word_length: usize,
        message: *mut u8,
        message_length: usize,
        work: *mut u8,
        work_length: usize,
    ) -> u32;

    /// # Safety
    ///
    /// As for [`hermitian_encode`].
    pub fn hermitian_mend(
        q: u8,
        series: u8,
        m: u16,
        word: *const u8,
        word_length: usize,
        message: *mut u8,
        message_length: usize,
        mended: *mut u8,
        mended_length: usize,
        marks: *mut u8,
        marks_length: usize,
    ) -> u32;

    /// # Safety
    ///
    /// As for [`hermitian_encode`].
    pub fn hermitian_convert(
        q: u8,
        series: u8,
        word: *const u8,
        word_length: usize,
        out: *mut u8,
        out_length: usize,
    ) -> u32;

    /// # Safety
    ///
    /// As for [`hermitian_encode`], and `verdict`, which has no length, is good for one
    /// byte.
    pub fn hermitian_check(
        q: u8,
        series: u8,
        m: u16,
        word: *const u8,
        word_length: usize,
        verdict: *mut u8,
    ) -> u32;

    /// # Safety
    ///
    /// As for [`hermitian_encode`].
    pub fn hermitian_encode_on(
        q: u8,
        columns: *const u8,
        count: usize,
        m: u16,
        message: *const u8,
        message_length: usize,
        word: *mut u8,
        word_length: usize,
    ) -> u32;

    /// # Safety
    ///
    /// As for [`hermitian_encode`].
    pub fn hermitian_unencode_on(
        q: u8,
        columns: *const u8,
        count: usize,
        m: u16,
        word: *const u8,
        word_length: usize,
        message: *mut u8,
        message_length: usize,
    ) -> u32;

    /// # Safety
    ///
    /// As for [`hermitian_encode`].
    pub fn hermitian_recover_on(
        q: u8,
        columns: *const u8,
        count: usize,
        m: u16,
        word: *const u8,
        word_length: usize,
        message: *mut u8,
        message_length: usize,
    ) -> u32;
}
