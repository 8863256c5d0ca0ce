/* Replays recorded choices of a merge target through the library: the model's answers, in which the original agrees. Standard input has a
 * case to a line; tests/oracle/README.md has the format. It prints each answer, and after it the recorded one where that is another, and
 * ends with 1 where any is. */
#include <inttypes.h>
#include <stdbool.h>
#include <stdio.h>
#include <stdlib.h>

#include "nidskalm.h"

/* A case's numbers, and the 32-bit numbers taken out of them. */
static uint64_t numbers[1 << 16];
static uint32_t taken[1 << 16];
static size_t size, at, taken_size;

/* Numbers in a row, with their count. */
typedef struct {
    const uint32_t *items;
    size_t length;
} list;

static void readable(bool possible) {
    if (!possible) {
        printf("a case can't be read, at its number %zu\n", at);
        exit(2);
    }
}

static uint64_t one(void) {
    readable(at < size);
    return numbers[at++];
}

static list smalls(uint64_t count) {
    readable(count <= size - at && count <= sizeof taken / sizeof *taken - taken_size);
    list made = {&taken[taken_size], (size_t)count};
    for (size_t i = 0; i < made.length; i++) {
        uint64_t number = one();
        readable(number <= UINT32_MAX);
        taken[taken_size++] = (uint32_t)number;
    }
    return made;
}

/* As many items as the last start says. */
static list items_of(list starts) {
    return smalls(starts.items[starts.length - 1]);
}

/* The numbers of the next line, if there is one. */
static bool next_case(void) {
    int last;
    size = at = taken_size = 0;
    do {
        readable(size < sizeof numbers / sizeof *numbers);
        if (scanf("%" SCNu64, &numbers[size]) != 1) {
            break;
        }
        size++;
        last = getchar();
    } while (last == ' ');
    return size > 0;
}

static void print_answer(uint64_t refusal, uint64_t value) {
    if (refusal != 0) {
        printf("refused %" PRIu64, refusal);
    } else if (value == NIDSKALM_NONE) {
        printf("none");
    } else {
        printf("chunk %" PRIu64, value);
    }
}

/* One case: whether the answer is the recorded one. */
static bool replay(void) {
    uint64_t k = one(), m = one();
    list kinds = smalls(k), entries = smalls(k);
    list module_starts = smalls(k + 1), modules = items_of(module_starts);
    list importer_starts = smalls(m + 1), importers = items_of(importer_starts);
    list dynamic_starts = smalls(m + 1), dynamic_importers = items_of(dynamic_starts);
    list reached_starts = smalls(k + 1), reached = items_of(reached_starts);
    list side_effects = smalls(k), exports = smalls(m), candidate = smalls(one());
    uint64_t set0 = one(), set1 = one(), set2 = one(), set3 = one();
    uint64_t refusal = one(), value = one();
    readable(at == size);
    nidskalm_reply reply = nidskalm_chunk_optimization_graph_merge_target(
        k, m, kinds.items, kinds.length, entries.items, entries.length,
        module_starts.items, module_starts.length, modules.items, modules.length,
        importer_starts.items, importer_starts.length, importers.items, importers.length,
        dynamic_starts.items, dynamic_starts.length, dynamic_importers.items, dynamic_importers.length,
        reached_starts.items, reached_starts.length, reached.items, reached.length,
        side_effects.items, side_effects.length, exports.items, exports.length,
        candidate.items, candidate.length, set0, set1, set2, set3);
    bool same = reply.refusal == refusal && reply.value == value;
    print_answer(reply.refusal, reply.value);
    if (!same) {
        printf(", not ");
        print_answer(refusal, value);
    }
    printf("\n");
    return same;
}

int main(void) {
    bool same = true;
    while (next_case()) {
        same &= replay();
    }
    return same ? 0 : 1;
}
