/* Replays recorded cases through the library: a model's answers, in which the original agrees. Standard input has a case to a line;
 * tests/oracle/README.md has the format. It prints for each case how many calls there were, how many the library refused and how many
 * answers aren't the recorded ones, and ends with 1 where any isn't. */
#include "replay.h"

#include <inttypes.h>
#include <stdio.h>
#include <stdlib.h>

/* A case's numbers, and the 32-bit numbers taken out of them, of which there are no more. */
static uint64_t numbers[1 << 16];
static uint32_t taken[1 << 16];
static size_t size, at, taken_size;

static uint32_t *area;

/* Of a case. */
static uint64_t cases, calls, refused, differ;

void readable(bool possible) {
    if (!possible) {
        printf("case %" PRIu64 ": can't be read, at its number %zu\n", cases, at);
        exit(2);
    }
}

uint64_t one(void) {
    return *wides(1);
}

uint32_t small(void) {
    return *smalls(1);
}

const uint64_t *wides(uint64_t count) {
    readable(count <= size - at);
    at += count;
    return &numbers[at - count];
}

const uint32_t *smalls(uint64_t count) {
    const uint64_t *from = wides(count);
    uint32_t *list = &taken[taken_size];
    for (uint64_t i = 0; i < count; i++) {
        readable(from[i] <= UINT32_MAX);
        list[i] = (uint32_t)from[i];
    }
    taken_size += count;
    return list;
}

uint64_t width(uint64_t bits) {
    readable(bits <= 256);
    return (bits + 63) / 64;
}

uint32_t *lent(uint64_t length) {
    readable(length < UINT64_C(1) << 24);
    area = calloc(length, sizeof *area);
    readable(area != NULL);
    return area;
}

void counted(uint64_t refusal, bool same) {
    calls++;
    refused += refusal != 0;
    differ += !same;
}

void reply_told(nidskalm_reply reply) {
    const uint64_t *recorded = wides(2);
    counted(reply.refusal, reply.refusal == recorded[0] && reply.value == recorded[1]);
}

/* Reads a number whose first character was read, and answers the character behind it. */
static int read_number(int character) {
    readable(size < sizeof numbers / sizeof *numbers);
    numbers[size] = 0;
    while (character >= '0' && character <= '9') {
        numbers[size] = 10 * numbers[size] + (uint64_t)(character - '0');
        character = getchar();
    }
    size++;
    readable(character == ' ' || character == '\n' || character == EOF);
    return character;
}

/* Reads a line; whether there was one. */
static bool read_case(void) {
    int character = getchar();
    size = at = taken_size = 0;
    if (character == EOF) {
        return false;
    }
    while (character != '\n' && character != EOF) {
        character = character == ' ' ? getchar() : read_number(character);
    }
    return true;
}

static void replay_case(void) {
    calls = refused = differ = 0;
    switch (one()) {
    case 1: replay_moves(); break;
    case 2: replay_merges(); break;
    default: readable(false);
    }
    free(area);
    readable(at == size);
    printf("case %" PRIu64 ": %" PRIu64 " calls, %" PRIu64 " refused, %" PRIu64 " differ\n", cases, calls, refused, differ);
}

int main(void) {
    bool failed = false;
    for (cases = 1; read_case(); cases++) {
        replay_case();
        failed |= differ > 0;
    }
    return failed;
}
