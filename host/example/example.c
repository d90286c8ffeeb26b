/* One message on its way: encoded, partly lost, recovered, and with wrong symbols
 * mended; then what a refusal looks like; then what a relay sees of it; then a payload
 * that can be read without a decoder; then a block of a series 2 strap; then a short block
 * from chosen columns of a junior strap; then a long block. Returns 1 if anything isn't as
 * it should be. */
#include <stdio.h>
#include <string.h>

#include "hermitian.h"

enum { Q = 4, SERIES = 1, M = 37, K = 32, N = 64 };
enum { JUNIOR_COLUMNS = 8, JUNIOR_M = 17, JUNIOR_K = 12, JUNIOR_N = 32 };
enum { LONG_Q = 8, LONG_M = 300, LONG_K = 273, LONG_N = 512 };

static int failures = 0;

static void expect(int holds, const char *what) {
    printf("  %s: %s\n", holds ? "ok" : "FAILED", what);
    if (!holds) {
        failures++;
    }
}

static void show(const char *title, const uint8_t *symbols, size_t length) {
    printf("%s", title);
    for (size_t i = 0; i < length; i++) {
        if (symbols[i] == HERMITIAN_MISSING) {
            putchar('.');
        } else {
            printf("%x", (unsigned)symbols[i]);
        }
    }
    putchar('\n');
}

/* What a person should read when a call was refused. */
static void explain(uint32_t answer) {
    unsigned second = hermitian_second(answer);
    switch (hermitian_number(answer)) {
    case HERMITIAN_DONE:
        puts("  done");
        break;
    case HERMITIAN_UNKNOWN_CURVE:
        puts("  refused: the curve number must be 2 or 4, or 8 for a long block");
        break;
    case HERMITIAN_ORDER_TOO_HIGH:
        puts("  refused: the order is too high for this curve or these columns");
        break;
    case HERMITIAN_WRONG_INPUT_LENGTH:
        puts("  refused: the input has the wrong length");
        break;
    case HERMITIAN_NOT_A_SYMBOL:
        printf("  refused: the input's byte %u is no symbol\n", second);
        break;
    case HERMITIAN_WRONG_OUTPUT_LENGTH:
        puts("  refused: the output buffer has the wrong length");
        break;
    case HERMITIAN_NO_MESSAGE_FITS:
        puts("  refused: no message fits; at least one symbol is wrong");
        break;
    case HERMITIAN_SEVERAL_MESSAGES_FIT:
        printf("  refused: too many symbols are missing; Q^%u messages fit\n", second);
        break;
    case HERMITIAN_NO_CODEWORD_NEAR:
        puts("  refused: too many symbols are wrong; no codeword is near");
        break;
    case HERMITIAN_ORDER_TOO_HIGH_TO_MEND:
        puts("  refused: nothing is mended at this order");
        break;
    case HERMITIAN_WRONG_WORK_LENGTH:
        puts("  refused: the work memory has the wrong length");
        break;
    case HERMITIAN_BAD_PLACES:
        puts("  refused: the places must be k in number, ascending and below n");
        break;
    case HERMITIAN_PLACES_LEAVE_SEVERAL:
        puts("  refused: the places don't fix the codeword at this order");
        break;
    case HERMITIAN_BAD_SERIES:
        puts("  refused: the series must be 1 or 2");
        break;
    case HERMITIAN_BAD_COLUMNS:
        puts("  refused: the columns must be at least one, ascending and below q * q");
        break;
    case HERMITIAN_ORDER_TOO_LOW_TO_CHECK:
        puts("  refused: words of an order as low as this aren't checked");
        break;
    default:
        printf("  refused: number %u, which this program doesn't know\n",
               hermitian_number(answer));
    }
}

static void make_message(uint8_t message[K]) {
    for (size_t i = 0; i < K; i++) {
        message[i] = (uint8_t)((7 * i + 3) % 16);
    }
}

/* Loses the first `count` of the places 0, 5, 10, ..., which come to every place once,
 * since 5 shares no factor with the lengths here, 32, 64 and 512. */
static void lose(uint8_t *word, size_t length, size_t count) {
    for (size_t i = 0; i < count; i++) {
        word[5 * i % length] = HERMITIAN_MISSING;
    }
}

/* Changes the symbols at the first `count` of the same places. */
static void damage(uint8_t word[N], size_t count) {
    for (size_t i = 0; i < count; i++) {
        word[5 * i % N] ^= 6;
    }
}

static void encode_and_unencode(const uint8_t message[K], uint8_t word[N]) {
    uint8_t read[K] = {0};
    expect(hermitian_encode(Q, SERIES, M, message, K, word, N) == HERMITIAN_DONE,
           "the message is encoded");
    show("word:     ", word, N);
    expect(hermitian_unencode(Q, SERIES, M, word, N, read, K) == HERMITIAN_DONE,
           "the word is unencoded");
    expect(memcmp(read, message, K) == 0, "the message came back");
}

static void lose_and_recover(const uint8_t message[K], const uint8_t word[N]) {
    uint8_t broken[N];
    uint8_t read[K] = {0};
    memcpy(broken, word, N);
    lose(broken, N, 26);
    show("arrived:  ", broken, N);
    expect(hermitian_recover(Q, SERIES, M, broken, N, read, K) == HERMITIAN_DONE,
           "the message is recovered with 26 symbols missing");
    expect(memcmp(read, message, K) == 0, "it is the message that was sent");
}

static void damage_and_mend(const uint8_t message[K], const uint8_t word[N]) {
    uint8_t wrong[N];
    uint8_t read[K] = {0};
    uint8_t mended[N] = {0};
    uint8_t marks[N] = {0};
    unsigned changes = 0;
    memcpy(wrong, word, N);
    damage(wrong, 10);
    show("arrived:  ", wrong, N);
    expect(hermitian_mend(Q, SERIES, M, wrong, N, read, K, mended, N, marks, N) == HERMITIAN_DONE,
           "the word is mended with 10 symbols wrong");
    show("mended:   ", mended, N);
    show("changed:  ", marks, N);
    for (size_t i = 0; i < N; i++) {
        changes += marks[i];
    }
    expect(changes == 10 && memcmp(mended, word, N) == 0 && memcmp(read, message, K) == 0,
           "10 changes give back the word and the message that were sent");

    memcpy(wrong, word, N);
    damage(wrong, 14);
    uint32_t answer = hermitian_mend(Q, SERIES, M, wrong, N, read, K, mended, N, marks, N);
    explain(answer);
    expect(hermitian_number(answer) == HERMITIAN_NO_CODEWORD_NEAR, "14 wrong symbols are too many");
}

static void refuse(const uint8_t word[N]) {
    uint8_t broken[N];
    uint8_t read[K];
    uint8_t untouched[K];
    memcpy(broken, word, N);
    memset(read, 0xAA, K);
    memset(untouched, 0xAA, K);
    lose(broken, N, 40);
    show("arrived:  ", broken, N);
    uint32_t answer = hermitian_recover(Q, SERIES, M, broken, N, read, K);
    explain(answer);
    expect(hermitian_number(answer) == HERMITIAN_SEVERAL_MESSAGES_FIT &&
               hermitian_second(answer) == 8,
           "24 symbols leave 8 of 32 open");

    memcpy(broken, word, N);
    broken[9] ^= 1;
    answer = hermitian_recover(Q, SERIES, M, broken, N, read, K);
    explain(answer);
    expect(hermitian_number(answer) == HERMITIAN_NO_MESSAGE_FITS, "a wrong symbol is noticed");

    broken[9] = 16;
    answer = hermitian_unencode(Q, SERIES, M, broken, N, read, K);
    explain(answer);
    expect(hermitian_number(answer) == HERMITIAN_NOT_A_SYMBOL && hermitian_second(answer) == 9,
           "the bad byte is named");

    answer = hermitian_recover(Q, SERIES, 256 + M, word, N, read, K);
    explain(answer);
    expect(hermitian_number(answer) == HERMITIAN_ORDER_TOO_HIGH,
           "an order of 293 isn't taken for 37, its low byte");
    expect(memcmp(read, untouched, K) == 0, "the refusals wrote nothing");
}

/* What a relay does with a block by a verdict. */
static void show_relayed(const char *title, const uint8_t word[N], uint8_t verdict) {
    show(title, word, N);
    puts(verdict ? "  passed on" : "  dropped");
}

/* A relay passes good blocks on and drops the others, and reads none of them. The verdict
 * of an earlier block is never left over. */
static void check_as_relay(const uint8_t word[N]) {
    uint8_t wrong[N];
    uint8_t verdict = 0xAA;
    uint32_t answer = hermitian_check(Q, SERIES, M, word, N, &verdict);
    show_relayed("checked:  ", word, verdict);
    expect(answer == HERMITIAN_DONE && verdict == 1, "a good block is a codeword");

    memcpy(wrong, word, N);
    wrong[9] ^= 1;
    answer = hermitian_check(Q, SERIES, M, wrong, N, &verdict);
    show_relayed("checked:  ", wrong, verdict);
    expect(answer == HERMITIAN_DONE && verdict == 0,
           "a block with one symbol changed is none, which isn't a refusal");

    verdict = 1;
    answer = hermitian_check(Q, SERIES, 10, word, N, &verdict);
    explain(answer);
    expect(hermitian_number(answer) == HERMITIAN_ORDER_TOO_LOW_TO_CHECK &&
               hermitian_second(answer) == 0 && verdict == 0,
           "an order of 10 is refused with 19, and the verdict is no");
}

/* Where a viewer finds the payload: in every column the first place, and with it the
 * second in even columns, the third in odd ones. That these places fix the codeword
 * was found by trying; no two rows, the same in all columns, do. */
static const uint16_t PLACES[K] = {
    0,  1,  4,  6,  8,  9,  12, 14, 16, 17, 20, 22, 24, 25, 28, 30,
    32, 33, 36, 38, 40, 41, 44, 46, 48, 49, 52, 54, 56, 57, 60, 62,
};

static void read_in_clear(const uint8_t word[N], uint8_t payload[K]) {
    for (size_t i = 0; i < K; i++) {
        payload[i] = word[PLACES[i]];
    }
}

static int is_payload(size_t place) {
    for (size_t i = 0; i < K; i++) {
        if (PLACES[i] == place) {
            return 1;
        }
    }
    return 0;
}

/* The block as 16 columns of 4 symbols, the payload in brackets. */
static void show_columns(const uint8_t word[N]) {
    for (size_t row = 0; row < Q; row++) {
        printf("          ");
        for (size_t column = 0; column < Q * Q; column++) {
            size_t place = Q * column + row;
            printf(is_payload(place) ? "[%x]" : " %x ", (unsigned)word[place]);
        }
        putchar('\n');
    }
}

static void send_in_clear(const uint8_t payload[K]) {
    uint8_t word[N] = {0};
    uint8_t again[N] = {0};
    uint8_t message[K] = {0};
    uint8_t read[K] = {0};
    expect(hermitian_encode_at(Q, SERIES, M, PLACES, K, payload, K, word, N) == HERMITIAN_DONE,
           "a word is found that has a payload at fixed places");
    show("payload:  ", payload, K);
    show_columns(word);
    read_in_clear(word, read);
    expect(memcmp(read, payload, K) == 0, "the payload is read without a decoder");

    memcpy(again, word, N);
    lose(again, N, 26);
    show("arrived:  ", again, N);
    expect(hermitian_recover(Q, SERIES, M, again, N, message, K) == HERMITIAN_DONE &&
               hermitian_encode(Q, SERIES, M, message, K, again, N) == HERMITIAN_DONE &&
               memcmp(again, word, N) == 0,
           "the word is recovered like any other with 26 symbols missing");

    uint16_t eight_columns[K];
    for (size_t i = 0; i < K; i++) {
        eight_columns[i] = (uint16_t)i;
    }
    uint32_t answer = hermitian_encode_at(Q, SERIES, M, eight_columns, K, payload, K, word, N);
    explain(answer);
    expect(hermitian_number(answer) == HERMITIAN_PLACES_LEAVE_SEVERAL,
           "two codewords agree on the first eight columns");
    expect(memcmp(again, word, N) == 0, "the refusal left the word as it was");
}

/* The columns of series 2: 0, then z to the power 0, 1, 2 and so on. */
static const uint8_t COLUMNS[Q * Q] = {0, 1, 2, 4, 8, 3, 6, 12, 11, 5, 10, 7, 14, 15, 13, 9};

/* The message 0 1 of order 4 is x: in its word each column holds its own x. */
static void show_columns_of_series_2(void) {
    static const uint8_t x[2] = {0, 1};
    uint8_t word[N] = {0};
    uint8_t columns[Q * Q];
    uint32_t answer = hermitian_encode(Q, 2, 4, x, 2, word, N);
    for (size_t column = 0; column < Q * Q; column++) {
        columns[column] = word[Q * column];
    }
    show("columns:  ", columns, Q * Q);
    expect(answer == HERMITIAN_DONE && memcmp(columns, COLUMNS, Q * Q) == 0,
           "series 2 lists the columns as 0 and the powers of z");
}

static void send_from_series_2(const uint8_t message[K], const uint8_t word_of_series_1[N]) {
    uint8_t sent[N] = {0};
    uint8_t converted[N] = {0};
    uint8_t before[N];
    uint8_t read[K] = {0};
    show_columns_of_series_2();
    expect(hermitian_encode(Q, 2, M, message, K, sent, N) == HERMITIAN_DONE,
           "the message is encoded by a strap of series 2");
    show("series 2: ", sent, N);
    expect(hermitian_convert(Q, 2, sent, N, converted, N) == HERMITIAN_DONE,
           "its word is converted to series 1");
    show("series 1: ", converted, N);
    expect(memcmp(converted, word_of_series_1, N) == 0,
           "the symbols are those of encoding in series 1");

    lose(sent, N, 26);
    show("series 2: ", sent, N);
    expect(hermitian_convert(Q, 2, sent, N, converted, N) == HERMITIAN_DONE,
           "the word is converted with 26 symbols missing");
    show("series 1: ", converted, N);
    expect(hermitian_recover(Q, 1, M, converted, N, read, K) == HERMITIAN_DONE &&
               memcmp(read, message, K) == 0,
           "the message is recovered in series 1");

    memcpy(before, converted, N);
    uint32_t answer = hermitian_convert(Q, 3, sent, N, converted, N);
    explain(answer);
    expect(hermitian_number(answer) == HERMITIAN_BAD_SERIES && hermitian_second(answer) == 0,
           "there is no series 3");
    expect(memcmp(before, converted, N) == 0, "the refusal left the word as it was");
}

/* The columns that a junior strap sends. Any eight would do. */
static const uint8_t CHOSEN[JUNIOR_COLUMNS] = {0, 2, 3, 5, 8, 9, 12, 15};

/* The word is a part of the message's word on all columns. */
static int is_part_of_whole_word(const uint8_t message[JUNIOR_K], const uint8_t word[JUNIOR_N]) {
    uint8_t whole[N] = {0};
    uint32_t answer = hermitian_encode(Q, 1, JUNIOR_M, message, JUNIOR_K, whole, N);
    for (size_t i = 0; i < JUNIOR_COLUMNS; i++) {
        if (memcmp(word + Q * i, whole + Q * CHOSEN[i], Q) != 0) {
            return 0;
        }
    }
    return answer == HERMITIAN_DONE;
}

static uint32_t recover_on_chosen(const uint8_t word[JUNIOR_N], uint8_t read[JUNIOR_K]) {
    memset(read, 0xAA, JUNIOR_K);
    return hermitian_recover_on(Q, CHOSEN, JUNIOR_COLUMNS, JUNIOR_M, word, JUNIOR_N, read,
                                JUNIOR_K);
}

static void refuse_columns(const uint8_t message[JUNIOR_K]) {
    static const uint8_t twice[JUNIOR_COLUMNS] = {0, 2, 3, 3, 8, 9, 12, 15};
    uint8_t word[JUNIOR_N];
    uint8_t untouched[JUNIOR_N];
    memset(word, 0xAA, JUNIOR_N);
    memset(untouched, 0xAA, JUNIOR_N);
    uint32_t answer = hermitian_encode_on(Q, twice, JUNIOR_COLUMNS, JUNIOR_M, message, JUNIOR_K,
                                          word, JUNIOR_N);
    explain(answer);
    expect(hermitian_number(answer) == HERMITIAN_BAD_COLUMNS && hermitian_second(answer) == 0,
           "no column can be named twice");

    answer = hermitian_encode_on(Q, CHOSEN, 4, JUNIOR_M, message, JUNIOR_K, word, JUNIOR_N);
    explain(answer);
    expect(hermitian_number(answer) == HERMITIAN_ORDER_TOO_HIGH,
           "an order of 17 is too high for the 16 points of four columns");
    expect(memcmp(word, untouched, JUNIOR_N) == 0, "the refusals wrote nothing");
}

static void send_from_junior_strap(const uint8_t message[JUNIOR_K]) {
    uint8_t word[JUNIOR_N] = {0};
    uint8_t read[JUNIOR_K] = {0};
    expect(hermitian_message_length(Q, JUNIOR_M) == JUNIOR_K,
           "a message of order 17 has 12 symbols");
    show("columns:  ", CHOSEN, JUNIOR_COLUMNS);
    show("message:  ", message, JUNIOR_K);
    uint32_t answer = hermitian_encode_on(Q, CHOSEN, JUNIOR_COLUMNS, JUNIOR_M, message, JUNIOR_K,
                                          word, JUNIOR_N);
    expect(answer == HERMITIAN_DONE, "the message is encoded on eight columns");
    show("word:     ", word, JUNIOR_N);
    expect(is_part_of_whole_word(message, word),
           "its word is that of a whole block in these columns");
    answer = hermitian_unencode_on(Q, CHOSEN, JUNIOR_COLUMNS, JUNIOR_M, word, JUNIOR_N, read,
                                   JUNIOR_K);
    expect(answer == HERMITIAN_DONE && memcmp(read, message, JUNIOR_K) == 0,
           "the word is unencoded");

    lose(word, JUNIOR_N, JUNIOR_N - JUNIOR_M - 1);
    show("arrived:  ", word, JUNIOR_N);
    expect(recover_on_chosen(word, read) == HERMITIAN_DONE && memcmp(read, message, JUNIOR_K) == 0,
           "the message is recovered from 18 symbols, one more than the order");

    lose(word, JUNIOR_N, JUNIOR_N - JUNIOR_K + 1);
    show("arrived:  ", word, JUNIOR_N);
    answer = recover_on_chosen(word, read);
    explain(answer);
    expect(hermitian_number(answer) == HERMITIAN_SEVERAL_MESSAGES_FIT &&
               hermitian_second(answer) == 1,
           "11 symbols leave one of 12 open");
    refuse_columns(message);
}

/* The memory that long blocks are recovered in, too large for some stacks. */
static uint8_t work[HERMITIAN_WORK_LENGTH];

static uint32_t recover_long_block(const uint8_t word[LONG_N], uint8_t read[LONG_K]) {
    memset(read, 0xAA, LONG_K);
    return hermitian_recover_long(SERIES, LONG_M, word, LONG_N, read, LONG_K, work, sizeof work);
}

static void lose_and_recover_long_block(void) {
    uint8_t message[LONG_K];
    uint8_t word[LONG_N] = {0};
    uint8_t read[LONG_K] = {0};
    uint8_t untouched[LONG_K];
    memset(untouched, 0xAA, LONG_K);
    for (size_t i = 0; i < LONG_K; i++) {
        message[i] = (uint8_t)((11 * i + 5) % 64);
    }
    expect(hermitian_message_length(LONG_Q, LONG_M) == LONG_K &&
               hermitian_word_length(LONG_Q) == LONG_N,
           "the lengths of a long block of order 300 are 273 and 512");
    uint32_t answer = hermitian_encode(LONG_Q, SERIES, LONG_M, message, LONG_K, word, LONG_N);
    expect(answer == HERMITIAN_DONE, "a long message is encoded");
    answer = hermitian_unencode(LONG_Q, SERIES, LONG_M, word, LONG_N, read, LONG_K);
    expect(answer == HERMITIAN_DONE && memcmp(read, message, LONG_K) == 0,
           "the long word is unencoded");

    lose(word, LONG_N, 211);
    expect(recover_long_block(word, read) == HERMITIAN_DONE && memcmp(read, message, LONG_K) == 0,
           "the long message is recovered with 211 symbols missing");

    answer = hermitian_recover_long(SERIES, LONG_M, word, LONG_N, read, LONG_K, work, 1);
    explain(answer);
    expect(hermitian_number(answer) == HERMITIAN_WRONG_WORK_LENGTH, "one byte is too little to work in");

    answer = hermitian_recover(LONG_Q, SERIES, LONG_M, word, LONG_N, read, LONG_K);
    explain(answer);
    expect(hermitian_number(answer) == HERMITIAN_UNKNOWN_CURVE,
           "plain recovery takes short blocks only");

    lose(word, LONG_N, 300);
    answer = recover_long_block(word, read);
    explain(answer);
    expect(hermitian_number(answer) == HERMITIAN_SEVERAL_MESSAGES_FIT &&
               hermitian_second(answer) == 61,
           "212 symbols leave 61 of 273 open");
    expect(memcmp(read, untouched, LONG_K) == 0, "the refusal wrote no message");
}

int main(void) {
    uint8_t message[K];
    uint8_t word[N] = {0};
    expect(hermitian_message_length(Q, M) == K && hermitian_word_length(Q) == N,
           "the strap's lengths are 32 and 64");
    make_message(message);
    show("message:  ", message, K);
    encode_and_unencode(message, word);
    lose_and_recover(message, word);
    damage_and_mend(message, word);
    refuse(word);
    check_as_relay(word);
    send_in_clear(message);
    send_from_series_2(message, word);
    send_from_junior_strap(message);
    lose_and_recover_long_block();
    puts(failures == 0 ? "all as expected" : "SOMETHING FAILED");
    return failures == 0 ? 0 : 1;
}
