/* Prints the time of one call of each operation in nanoseconds, the quickest of some
 * samples, a line for each: its name, a tab, its time. The argument is how many bytes
 * of the stack to leave unused, so that the calls' frames stand elsewhere. */

#include "hermitian.h"

#include <alloca.h>
#include <stdint.h>
#include <stdio.h>
#include <stdlib.h>
#include <string.h>
#include <time.h>

enum { Q = 4, SERIES = 1, M = 37, K = 32, N = 64 };
enum { LONG_Q = 8, LONG_M = 300, LONG_K = 273, LONG_N = 512 };
enum { INPUTS = 64, SAMPLES = 15, SAMPLE_NANOSECONDS = 1500000 };

struct input {
    uint8_t message[K], word[N], broken[N], wrong[N], symbols[K];
    uint16_t places[K];
    uint8_t long_message[LONG_K], long_word[LONG_N], long_broken[LONG_N];
};

static struct input inputs[INPUTS];

static uint8_t message[LONG_K], word[LONG_N], marks[N], work[HERMITIAN_WORK_LENGTH];

static uint32_t encode(const struct input *input) {
    return hermitian_encode(Q, SERIES, M, input->message, K, word, N);
}

static uint32_t unencode(const struct input *input) {
    return hermitian_unencode(Q, SERIES, M, input->word, N, message, K);
}

static uint32_t recover(const struct input *input) {
    return hermitian_recover(Q, SERIES, M, input->broken, N, message, K);
}

static uint32_t mend(const struct input *input) {
    return hermitian_mend(Q, SERIES, M, input->wrong, N, message, K, word, N, marks, N);
}

static uint32_t encode_at(const struct input *input) {
    return hermitian_encode_at(Q, SERIES, M, input->places, K, input->symbols, K, word, N);
}

static uint32_t convert(const struct input *input) {
    return hermitian_convert(Q, SERIES, input->word, N, word, N);
}

static uint32_t encode_long(const struct input *input) {
    return hermitian_encode(LONG_Q, SERIES, LONG_M, input->long_message, LONG_K, word, LONG_N);
}

static uint32_t unencode_long(const struct input *input) {
    return hermitian_unencode(LONG_Q, SERIES, LONG_M, input->long_word, LONG_N, message, LONG_K);
}

static uint32_t recover_long(const struct input *input) {
    return hermitian_recover_long(SERIES, LONG_M, input->long_broken, LONG_N, message, LONG_K,
                                  work, HERMITIAN_WORK_LENGTH);
}

typedef uint32_t operation(const struct input *);

static const struct row {
    const char *name;
    operation *call;
    int damaged; /* symbols missing or wrong */
} rows[] = {
    {"encode", encode, 0},
    {"unencode", unencode, 0},
    {"recover, 0 missing", recover, 0},
    {"recover, 1 missing", recover, 1},
    {"recover, 4 missing", recover, 4},
    {"recover, 10 missing", recover, 10},
    {"recover, 20 missing", recover, 20},
    {"recover, 26 missing", recover, 26},
    {"recover, 32 missing", recover, 32},
    {"mend, 0 wrong", mend, 0},
    {"mend, 1 wrong", mend, 1},
    {"mend, 10 wrong", mend, 10},
    {"encode at places", encode_at, 0},
    {"convert", convert, 0},
    {"long: encode", encode_long, 0},
    {"long: unencode", unencode_long, 0},
    {"long: recover, 10 missing", recover_long, 10},
};

static unsigned random_below(unsigned bound) {
    static uint64_t state = 37;
    state ^= state << 13;
    state ^= state >> 7;
    state ^= state << 17;
    return (unsigned)((state >> 32) % bound);
}

static void fill(uint8_t *symbols, size_t count, unsigned size) {
    size_t i;
    for (i = 0; i < count; i++)
        symbols[i] = (uint8_t)random_below(size);
}

/* All numbers below count, shuffled. */
static void shuffle(uint16_t *numbers, size_t count) {
    size_t i;
    for (i = 0; i < count; i++) {
        size_t other = random_below((unsigned)i + 1);
        numbers[i] = numbers[other];
        numbers[other] = (uint16_t)i;
    }
}

/* k places in ascending order and a codeword's symbols there. */
static void choose_places(struct input *input, const uint16_t *shuffled) {
    uint8_t chosen[N] = {0};
    size_t place, count = 0;
    for (place = 0; place < K; place++)
        chosen[shuffled[place]] = 1;
    for (place = 0; place < N; place++) {
        if (chosen[place]) {
            input->places[count] = (uint16_t)place;
            input->symbols[count++] = input->word[place];
        }
    }
}

static void prepare(struct input *input, int damaged) {
    uint16_t shuffled[LONG_N];
    int i;
    fill(input->message, K, Q * Q);
    fill(input->long_message, LONG_K, LONG_Q * LONG_Q);
    hermitian_encode(Q, SERIES, M, input->message, K, input->word, N);
    hermitian_encode(LONG_Q, SERIES, LONG_M, input->long_message, LONG_K, input->long_word, LONG_N);
    memcpy(input->broken, input->word, N);
    memcpy(input->wrong, input->word, N);
    memcpy(input->long_broken, input->long_word, LONG_N);
    shuffle(shuffled, LONG_N);
    for (i = 0; i < damaged; i++)
        input->long_broken[shuffled[i]] = HERMITIAN_MISSING;
    shuffle(shuffled, N);
    for (i = 0; i < damaged; i++) {
        input->broken[shuffled[i]] = HERMITIAN_MISSING;
        input->wrong[shuffled[i]] ^= (uint8_t)(1 + random_below(Q * Q - 1));
    }
    choose_places(input, shuffled);
}

static double now(void) {
    struct timespec time;
    clock_gettime(CLOCK_MONOTONIC, &time);
    return (double)time.tv_sec * 1e9 + (double)time.tv_nsec;
}

/* Nanoseconds of a call: all inputs, so many rounds. */
static double sample(operation *call, int rounds) {
    double start = now();
    int round, i;
    for (round = 0; round < rounds; round++) {
        for (i = 0; i < INPUTS; i++)
            call(&inputs[i]);
    }
    return (now() - start) / ((double)rounds * INPUTS);
}

static double quickest(operation *call) {
    double least = sample(call, 1);
    int rounds = 1 + (int)(SAMPLE_NANOSECONDS / (least * INPUTS));
    int i;
    for (i = 0; i < SAMPLES; i++) {
        double time = sample(call, rounds);
        if (time < least)
            least = time;
    }
    return least;
}

/* New inputs, each called with once: random places may leave several messages, and no
 * call may be refused otherwise. */
static void prepare_for(const struct row *row) {
    int i;
    for (i = 0; i < INPUTS; i++) {
        unsigned number;
        prepare(&inputs[i], row->damaged);
        number = hermitian_number(row->call(&inputs[i]));
        if (number != HERMITIAN_DONE && number != HERMITIAN_SEVERAL_MESSAGES_FIT &&
            number != HERMITIAN_PLACES_LEAVE_SEVERAL) {
            fprintf(stderr, "%s: refused with %u\n", row->name, number);
            exit(EXIT_FAILURE);
        }
    }
}

static void print_times(void) {
    size_t i;
    for (i = 0; i < sizeof rows / sizeof rows[0]; i++) {
        prepare_for(&rows[i]);
        printf("%s\t%.2f\n", rows[i].name, quickest(rows[i].call));
    }
}

int main(int count, char **arguments) {
    size_t unused = count > 1 ? (size_t)atoi(arguments[1]) : 0;
    volatile char *room = alloca(unused + 1);
    room[unused] = 0;
    print_times();
    return 0;
}
