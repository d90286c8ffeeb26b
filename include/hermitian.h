/*
 * Hermitian block code of the strap link: the eleven entries that C calls.
 *
 * The library turns a message of k symbols into a word of n symbols (a codeword:
 * values of a polynomial at the n points of a Hermitian curve), or finds the word
 * that has k given symbols at k chosen places; it reads whole words back, recovers
 * messages from words with missing symbols, mends whole words with wrong symbols,
 * and turns words of one strap series into words of the other. For a relay it tells
 * whether a whole word is a codeword, without reading it. It encodes, reads and
 * recovers short blocks of some columns alone, too. It is written and proved in
 * Rattle: on memory lent as described under "Memory" below, every call returns, stays
 * within its buffers and gives the one answer of the rules. Only hermitian_mend
 * corrects wrong symbols; the calls that unencode or recover say when no message fits.
 *
 *   q   blocks         n, length of a word   symbols     order m
 *   2   short            8                   0 to 3      0 to 7
 *   4   short           64                   0 to 15     0 to 63
 *   8   long           512                   0 to 63     0 to 511
 *
 * The strap uses q = 4, m = 37, k = 32. hermitian_message_length gives k for
 * every q and m. One symbol is one byte. m + 1 symbols of a word are always
 * enough to recover its message; fewer may be. Up to t wrong symbols of a whole
 * word of a short block are always mended, t being 10 for the strap.
 *
 * hermitian_encode, hermitian_unencode, hermitian_convert and hermitian_check take all
 * three q. Long blocks are recovered by hermitian_recover_long, which takes no q and is
 * lent memory to work in; the other six, hermitian_encode_at, hermitian_recover,
 * hermitian_mend and those on chosen columns, take short blocks only and refuse q = 8.
 *
 * Series. The places of a word are the points of the curve, column by column, the q
 * points of a column by y ascending. A column has one x, and each strap series lists
 * the columns in an order of its own:
 *
 *   1   x = 0, 1, 2, 3 and so on
 *   2   x = 0, then the powers of z, the symbol 2, from the power 0 on; for q = 4
 *       that is 0 1 2 4 8 3 6 12 11 5 10 7 14 15 13 9
 *
 * For q = 2 these are the same list. Each call but those on chosen columns names the
 * series, 1 or 2, of its places and words; messages have none. hermitian_convert turns a
 * word of one series into that of the other.
 *
 * Chosen columns. A junior strap sends fewer symbols. hermitian_encode_on,
 * hermitian_unencode_on and hermitian_recover_on take a list of c values x, at least one
 * and strictly ascending, and work on these columns only. For them n is q * c, places are
 * counted anew from 0, q * i + j being point j of column columns[i], and m must be below
 * this n; k is that of q and m as ever. No series is named. The word is what
 * hermitian_encode writes in these columns with series 1, and the full list, 0, 1, 2 and
 * so on up to q * q - 1, gives what the plain calls give with series 1. m + 1 symbols are
 * always enough here too, for every list of columns.
 *
 * An m of n or more, up to 65535, is refused. Earlier m was a uint8_t and no series was
 * named: a value up to 255 means what it meant, and series 1 gives what the calls gave,
 * but callers compiled then must be compiled anew.
 *
 * Memory. The library trusts these four points and can't check them:
 *   - Each pointer is good for as many bytes as the length beside it says; that to
 *     places for as many uint16_t, aligned as these must be; that to verdict, which has
 *     no length, for one byte.
 *   - No pointer is NULL, not even beside the length 0: pass the address of any
 *     object there. A NULL may work by luck, but nothing is promised of it.
 *   - No two buffers of a call overlap.
 *   - No other thread writes one of them, or reads an output, meanwhile.
 * Nor does anything check this header against the library's source: the two
 * are compared by tests (host/README.md).
 * Any length and any content are allowed: a wrong one is refused. The input is
 * never written. LENT OUTPUT IS UNCHANGED ON A REFUSAL, but for the verdict of
 * hermitian_check, which is written by every call, so that no old yes is read. The work
 * memory of hermitian_recover_long is no output: what it holds afterwards is left open
 * after a success and after refusals 9 and 10, and unchanged after the others.
 *
 * Threads. There is no state outside a call: no globals, no heap, no setup. Any
 * number of threads may call at once, each with output buffers of its own; they
 * may share an input. As built by the older kit (docs/PORT.md; not measured again
 * since), a call on a short block took less than 12 KiB of stack (measured and not
 * proved, in bytes: to encode at places 12144, and 7040 for q = 4 and an m up to 37;
 * 10352 to mend, and of the other calls 6512 at most, to recover on chosen columns), one
 * on a long block less than 14 KiB; from the platform it needs memcpy and memset.
 *
 * Linking. `rt lib` in crates/hermitian writes out/libhermitian.a there, for x86-64,
 * with all entries but hermitian_recover_long, which `rt lib` in crates/hermitian_long
 * writes to out/libhermitian_long.a; a program that doesn't call it needn't link that
 * one.
 */
#ifndef HERMITIAN_H
#define HERMITIAN_H

#include <stddef.h>
#include <stdint.h>

#ifdef __cplusplus
extern "C" {
#endif

/* Stands for a missing symbol; allowed in the words of hermitian_recover,
   hermitian_recover_long, hermitian_recover_on and hermitian_convert only. */
#define HERMITIAN_MISSING 255

/* The bytes that hermitian_recover_long is lent to work in. */
#define HERMITIAN_WORK_LENGTH 262144

/*
 * Why a call was refused. The checks run in this order, only 17 or 18 comes right
 * after 1, 12, 15 or 19 right after 2 and 14 right after 5, and the first that applies
 * decides. 6 and 7 belong to receiving sessions and 13 to the field's inverse, which C
 * doesn't call; the entries below never give them. 8 no longer occurs.
 */
enum hermitian_refusal {
    HERMITIAN_DONE = 0,
    /* q is none of 2, 4 and 8; for encode_at, recover, mend and the calls on chosen
       columns: q is neither 2 nor 4. */
    HERMITIAN_UNKNOWN_CURVE = 1,
    /* m is n or more: above 7 (q = 2), 63 (q = 4) or 511 (long blocks), up to
       65535; on c chosen columns: q * c or more. */
    HERMITIAN_ORDER_TOO_HIGH = 2,
    /* The input isn't as long as it must be: k for a message and for the symbols of
       encode_at, n for a word. */
    HERMITIAN_WRONG_INPUT_LENGTH = 3,
    /* An input byte is no symbol. Second number: the lowest index of such a
       byte, from 0. */
    HERMITIAN_NOT_A_SYMBOL = 4,
    /* An output isn't as long as it must be: n for a word and for marks, k for a
       message. */
    HERMITIAN_WRONG_OUTPUT_LENGTH = 5,
    /* Sessions: the place of an arrival is n or more. */
    HERMITIAN_PLACE_TOO_HIGH = 6,
    /* Sessions: the symbol of an arrival is no symbol of the curve. */
    HERMITIAN_ARRIVAL_NOT_A_SYMBOL = 7,
    /* No message has these symbols in its word: at least one of them is wrong. */
    HERMITIAN_NO_MESSAGE_FITS = 9,
    /* Too much is missing: two or more messages fit. Second number: r, where
       exactly (q * q) to the power r messages fit, 64 to the power r for a long
       block. Only from recover, recover_long and recover_on. */
    HERMITIAN_SEVERAL_MESSAGES_FIT = 10,
    /* No codeword differs from the word in at most t places. Only from mend. */
    HERMITIAN_NO_CODEWORD_NEAR = 11,
    /* n - m - 1 is less than g, so nothing is mended at this order: m is above 6
       (q = 2) or above 57 (q = 4). Only from mend. */
    HERMITIAN_ORDER_TOO_HIGH_TO_MEND = 12,
    /* The work memory isn't HERMITIAN_WORK_LENGTH bytes long. Only from
       recover_long, after 5. */
    HERMITIAN_WRONG_WORK_LENGTH = 14,
    /* The places aren't k in number, or not strictly ascending, or one of them is n
       or more, up to 65535. Only from encode_at, after 2. */
    HERMITIAN_BAD_PLACES = 15,
    /* The places don't fix the codeword: two codewords agree on all of them,
       whichever symbols come along. Only from encode_at, last. */
    HERMITIAN_PLACES_LEAVE_SEVERAL = 16,
    /* The series is neither 1 nor 2. After 1; the first check of recover_long. The
       calls on chosen columns name none. */
    HERMITIAN_BAD_SERIES = 17,
    /* The list of columns is empty, or not strictly ascending, or holds a value of
       q * q or more. Only from the calls on chosen columns, after 1. */
    HERMITIAN_BAD_COLUMNS = 18,
    /* Checking: the order is below 2g - 1, where g is 1 (q = 2), 6 (q = 4) or 28 (q = 8):
       m is 0 (q = 2), below 11 (q = 4) or below 55 (q = 8). Only from check, after 2. */
    HERMITIAN_ORDER_TOO_LOW_TO_CHECK = 19
};

/* Writes the word of a message: message_length must be k, word_length n. */
uint32_t hermitian_encode(uint8_t q, uint8_t series, uint16_t m,
                          const uint8_t *message, size_t message_length,
                          uint8_t *word, size_t word_length);

/* Writes the only word of a short block that has symbols[i] at place places[i], for
   all i: count and symbol_count must be k, word_length n. The places ascend strictly
   and are below n; place q * c + i is point i of column c, both from 0, in the list of
   the series. Which sets of k places will do depends on q, the series and m alone, not
   on the symbols. The word is a codeword like any other, and its message, which
   hermitian_unencode gives, isn't the symbols. HERMITIAN_MISSING counts as a bad value
   here. */
uint32_t hermitian_encode_at(uint8_t q, uint8_t series, uint16_t m,
                             const uint16_t *places, size_t count,
                             const uint8_t *symbols, size_t symbol_count,
                             uint8_t *word, size_t word_length);

/* Writes the message of a whole word: word_length must be n, message_length k.
   HERMITIAN_MISSING counts as a bad value here. */
uint32_t hermitian_unencode(uint8_t q, uint8_t series, uint16_t m,
                            const uint8_t *word, size_t word_length,
                            uint8_t *message, size_t message_length);

/* Writes the only message that fits a word of a short block in which
   HERMITIAN_MISSING stands at each missing place: word_length must be n,
   message_length k. */
uint32_t hermitian_recover(uint8_t q, uint8_t series, uint16_t m,
                           const uint8_t *word, size_t word_length,
                           uint8_t *message, size_t message_length);

/* Writes the only message that fits a word of a long block in which
   HERMITIAN_MISSING stands at each missing place: word_length must be 512,
   message_length k of q = 8, work_length HERMITIAN_WORK_LENGTH. It needs nothing of
   what the work memory holds. */
uint32_t hermitian_recover_long(uint8_t series, uint16_t m,
                                const uint8_t *word, size_t word_length,
                                uint8_t *message, size_t message_length,
                                uint8_t *work, size_t work_length);

/* Mends a whole word of a short block with wrong symbols: finds the only codeword that
   differs from it in at most t places, t being n - m - 1 - g halved and rounded down,
   where g is 1 (q = 2) or 6 (q = 4); at t = 0 only codewords pass. Writes its message,
   the codeword, and n marks, 1 where a symbol was changed and 0 elsewhere: the count of
   changes is that of the ones. word_length, mended_length and marks_length must be n,
   message_length k. HERMITIAN_MISSING counts as a bad value here. */
uint32_t hermitian_mend(uint8_t q, uint8_t series, uint16_t m,
                        const uint8_t *word, size_t word_length,
                        uint8_t *message, size_t message_length,
                        uint8_t *mended, size_t mended_length,
                        uint8_t *marks, size_t marks_length);

/* Writes a word of the named series as the word of the other one: each point keeps its
   symbol or HERMITIAN_MISSING. word_length and out_length must be n. The word may hold
   any symbols; that of a message becomes the message's word in the other series. */
uint32_t hermitian_convert(uint8_t q, uint8_t series,
                           const uint8_t *word, size_t word_length,
                           uint8_t *out, size_t out_length);

/* Tells whether a whole word is a codeword of the order m, without finding its message:
   writes 1 to *verdict for yes and 0 for no. A no isn't a refusal, and the call then
   returns 0, as with a yes; a refused call writes 0 too. Where the call isn't refused it
   says yes exactly when hermitian_unencode by the same q, series and m, lent memory for k
   symbols, succeeds. word_length must be n, and m 2g - 1 or more: from 1 (q = 2),
   11 (q = 4) or 55 (q = 8) on. HERMITIAN_MISSING counts as a bad value here. */
uint32_t hermitian_check(uint8_t q, uint8_t series, uint16_t m,
                         const uint8_t *word, size_t word_length,
                         uint8_t *verdict);

/* Writes the word of a message on chosen columns: message_length must be k,
   word_length q * count. */
uint32_t hermitian_encode_on(uint8_t q, const uint8_t *columns, size_t count, uint16_t m,
                             const uint8_t *message, size_t message_length,
                             uint8_t *word, size_t word_length);

/* Writes the message of a whole word on chosen columns: word_length must be q * count,
   message_length k. HERMITIAN_MISSING counts as a bad value here. */
uint32_t hermitian_unencode_on(uint8_t q, const uint8_t *columns, size_t count, uint16_t m,
                               const uint8_t *word, size_t word_length,
                               uint8_t *message, size_t message_length);

/* Writes the only message that fits a word on chosen columns in which HERMITIAN_MISSING
   stands at each missing place: word_length must be q * count, message_length k. */
uint32_t hermitian_recover_on(uint8_t q, const uint8_t *columns, size_t count, uint16_t m,
                              const uint8_t *word, size_t word_length,
                              uint8_t *message, size_t message_length);

/* What a call returned is 0 if it was done; otherwise it is the refusal number
   times 65536 plus the second number, which is 0 unless said above. */
static inline unsigned hermitian_number(uint32_t answer) { return (unsigned)(answer >> 16); }
static inline unsigned hermitian_second(uint32_t answer) { return (unsigned)(answer & 0xFFFFu); }

/* n, the length of a word of all columns; 0 if q names no curve. On chosen columns n is
   q * count. */
static inline size_t hermitian_word_length(uint8_t q) {
    return q == 2 || q == 4 || q == 8 ? (size_t)q * q * q : 0;
}

/* k, the length of a message: the number of terms x^i * y^j with j below q and
   weight q * i + (q + 1) * j up to m; 0 if q or m would be refused on all columns. On
   chosen columns k is the same, and m below q * count. */
static inline size_t hermitian_message_length(uint8_t q, uint16_t m) {
    size_t length = 0;
    size_t weight_of_y_part;
    if (m >= hermitian_word_length(q)) {
        return 0;
    }
    for (weight_of_y_part = 0; weight_of_y_part < (size_t)q * (q + 1u) && weight_of_y_part <= m;
         weight_of_y_part += q + 1u) {
        length += (m - weight_of_y_part) / q + 1;
    }
    return length;
}

#ifdef __cplusplus
}
#endif

#endif
