/* Plans a small split through the C interface. At the repository's root:
 *
 *     tools/build.sh nidskalm
 *     cc -Iinclude examples/c/plan.c include/nidskalm_refusal.c -Ltarget/staticlib -lnidskalm -o target/plan && target/plan
 *
 * Every call is lent all that it reads. A program that makes many calls wraps them once, as here. */
#include <inttypes.h>
#include <stdio.h>
#include <stdlib.h>

#include "nidskalm.h"

/* ---- Moves: three atoms, two screens (entry bits), room for eight sets ---- */

enum { ATOMS = 3, DEPENDENCIES = 2, SCREENS = 2, SETS = 8 };

static const char *const names[ATOMS] = {"shared.js", "screen0.js", "screen1.js"};
/* Who wants an atom: bit 0 is screen 0, bit 1 is screen 1. Two screens fit into w = 1 number. */
static const uint64_t wanted_by[ATOMS] = {3, 1, 2};
/* Atoms 1 and 2 depend on atom 0. */
static const uint32_t starts[ATOMS + 1] = {0, 0, 1, 2};
static const uint32_t dependencies[DEPENDENCIES] = {0, 0};
/* Screen 0 starts in atom 1, screen 1 in atom 2. */
static const uint32_t hosts[SCREENS] = {1, 2};
/* screen1.js is certified: it stays in its chunk. */
static const uint32_t fixed[ATOMS] = {0, 0, 1};

#define LOAD \
    ATOMS, DEPENDENCIES, SCREENS, SETS, starts, ATOMS + 1, dependencies, DEPENDENCIES, hosts, SCREENS, fixed, ATOMS

/* A set as its bits: {0, 1}. */
static void print_set(uint64_t set) {
    const char *before = "";
    printf("{");
    for (int bit = 0; bit < 64; bit++) {
        if ((set >> bit & 1) == 0) continue;
        printf("%s%d", before, bit);
        before = ", ";
    }
    printf("}");
}

static void move(uint32_t *area, size_t length, uint32_t atom, uint64_t target) {
    nidskalm_move_reply reply = nidskalm_reduced_chunk_graph_try_move(LOAD, area, length, atom, &target, 1);
    printf("%s to ", atom < ATOMS ? names[atom] : "no atom");
    print_set(target);
    if (reply.refusal != 0) {
        printf(": refused %" PRIu64 ": %s\n", reply.refusal, nidskalm_refusal(reply.refusal));
    } else {
        printf(": %s\n", reply.accepted == 1 ? "accepted" : "rejected, two chunks would import each other");
    }
}

static void print_edges(const uint32_t *area, size_t length) {
    for (uint64_t k = 0;; k++) {
        nidskalm_edge_reply edge = nidskalm_reduced_chunk_graph_edge_at(LOAD, area, length, k);
        if (edge.found == 0) return;
        printf("chunk ");
        print_set(edge.from0);
        printf(" imports ");
        print_set(edge.to0);
        printf(", times: %" PRIu64 "\n", edge.multiplicity);
    }
}

static int moves(void) {
    const size_t length = NIDSKALM_MOVE_AREA(ATOMS, DEPENDENCIES, SCREENS, SETS);
    uint32_t *area = malloc(length * sizeof *area);
    if (area == NULL) return 1;
    nidskalm_reply reply = nidskalm_reduced_chunk_graph_new(LOAD, wanted_by, ATOMS, area, length);
    if (reply.refusal != 0) {
        printf("load: refused %" PRIu64 ": %s\n", reply.refusal, nidskalm_refusal(reply.refusal));
        free(area);
        return 1;
    }
    printf("load: %s\n", reply.value == 0 ? "acyclic" : "cyclic");
    move(area, length, 0, 1);
    move(area, length, 1, 3);
    move(area, length, 2, 1);
    move(area, length, 3, 1);
    print_edges(area, length);
    free(area);
    return 0;
}

/* ---- Merges: chunks 0 and 1 exist, 2 and 3 are to be created or merged ---- */

enum { CHUNKS = 8, MODULES = 4, ENTRIES = 16, INITIAL = 2, CANDIDATES = 2 };

#define SIZE CHUNKS, MODULES, ENTRIES, SCREENS

static int refused(const char *what, nidskalm_reply reply) {
    if (reply.refusal == 0) return 0;
    printf("%s: refused %" PRIu64 ": %s\n", what, reply.refusal, nidskalm_refusal(reply.refusal));
    return 1;
}

/* Chunks 0 and 1 hold modules 0 and 1. Modules 2 and 3 have sets of their own, so they get chunks 2 and 3, which need
 * creation. Module 0 depends on 1, and 3 on 2. */
static int load_chunks(uint32_t mode, uint32_t *area, size_t length) {
    const uint32_t module_starts[INITIAL + 1] = {0, 1, 2}, modules[INITIAL] = {0, 1}, effects[MODULES] = {0, 0, 0, 0};
    const uint32_t from[MODULES + 1] = {0, 1, 1, 1, 2}, to[2] = {1, 2};
    const uint64_t both = 3, second = 2;
    return refused("load", nidskalm_chunk_optimization_graph_new(
                               SIZE, INITIAL, mode, module_starts, INITIAL + 1, modules, INITIAL, &both, 0, modules, 0,
                               effects, MODULES, area, length)) ||
           refused("module 2", nidskalm_chunk_optimization_graph_init_module_assignment(
                                   SIZE, area, length, 2, &both, 1, effects, MODULES)) ||
           refused("module 3", nidskalm_chunk_optimization_graph_init_module_assignment(
                                   SIZE, area, length, 3, &second, 1, effects, MODULES)) ||
           refused("dependencies", nidskalm_chunk_optimization_graph_calc_chunk_dependencies(
                                       SIZE, area, length, from, MODULES + 1, to, 2));
}

/* Chunk 2 is proposed for chunk 0, and 3 for 1. In mode 0 the second warning doesn't see that 2 is now part of 0: both are
 * merged, and chunks 0 and 1 import each other. Where merged chunks stand for their target it does. */
static int merges(uint32_t mode) {
    const size_t length = NIDSKALM_MERGE_AREA(CHUNKS, MODULES, ENTRIES);
    const uint32_t proposals[CANDIDATES] = {0, 1}, bars[CANDIDATES] = {0, 0};
    uint32_t kinds[CANDIDATES], numbers[CANDIDATES];
    uint32_t *area = malloc(length * sizeof *area);
    if (area == NULL) return 1;
    int failed = load_chunks(mode, area, length) ||
                 refused("pass", nidskalm_chunk_optimization_graph_pass(
                                     SIZE, area, length, proposals, CANDIDATES, bars, CANDIDATES, kinds, CANDIDATES,
                                     numbers, CANDIDATES));
    for (uint32_t i = 0; !failed && i < CANDIDATES; i++) {
        printf("mode %" PRIu32 ": chunk %" PRIu32 " %s %" PRIu32 "\n", mode, INITIAL + i,
               kinds[i] == 0 ? "is merged into" : "is created with number", numbers[i]);
    }
    free(area);
    return failed;
}

int main(void) {
    return moves() || merges(0) || merges(1);
}
