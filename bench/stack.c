/* Measures how much stack each call of the library uses: runs it on a painted stack and looks how far the paint is gone.
   Fails where a call uses more than NIDSKALM_STACK bytes, or is refused. */
#include <pthread.h>
#include <stdio.h>
#include <stdlib.h>
#include <string.h>

#include "nidskalm.h"

enum { STACK = 4 << 20, A = 512, D = 8192, E = 256, N = 1024, C = 1024, M = 4096, L = 8192 };
/* Sets named at loading: above 128 of them a merge call takes its longer local arrays. */
enum { NAMED = 200 };

static uint32_t starts[A + 1], dependencies[D], hosts[E], fixed[A];
static uint64_t sets[A * 4], bits[4];
static uint32_t area[NIDSKALM_MOVE_AREA(A, D, E, N)], merge_area[NIDSKALM_MERGE_AREA(C, M, L)];
static uint32_t module_starts[2], list[NAMED], calc_starts[M + 1], effects[M], proposals[C], numbers[C], kinds[C];
static uint64_t a, d, n, refusal;

#define LOAD a, d, E, n, starts, a + 1, dependencies, d, hosts, E, fixed, a, area, sizeof area / sizeof *area
#define SIZE C, M, L, E, merge_area, sizeof merge_area / sizeof *merge_area

static void nothing(void) { refusal = 0; }
static void move_new(void) {
    refusal = nidskalm_reduced_chunk_graph_new(
        a, d, E, n, starts, a + 1, dependencies, d, hosts, E, fixed, a, sets, 4 * a, area, sizeof area / sizeof *area).refusal;
}
static void try_move(void) { refusal = nidskalm_reduced_chunk_graph_try_move(LOAD, 0, bits, 4).refusal; }
static void atom_set(void) { refusal = nidskalm_reduced_chunk_graph_atom_set(LOAD, 0).refusal; }
static void atom_count(void) { refusal = nidskalm_reduced_chunk_graph_atom_count(LOAD, bits, 4).refusal; }
static void multiplicity(void) { refusal = nidskalm_reduced_chunk_graph_multiplicity(LOAD, bits, 4, bits, 4).refusal; }
static void edge_count(void) { refusal = nidskalm_reduced_chunk_graph_edge_count(LOAD).refusal; }
static void has_cycle(void) { refusal = nidskalm_reduced_chunk_graph_has_cycle(LOAD).refusal; }
static void freedom(void) { refusal = nidskalm_reduced_chunk_graph_freedom(LOAD).refusal; }
static void rank(void) { refusal = nidskalm_reduced_chunk_graph_rank(LOAD, area, sizeof area / sizeof *area).refusal; }
static void chunk_count(void) { refusal = nidskalm_reduced_chunk_graph_chunk_count(LOAD).refusal; }
static void edge_at(void) { refusal = nidskalm_reduced_chunk_graph_edge_at(LOAD, 3).refusal; }

static void start_order(void) {
    static uint32_t chunks[A];
    refusal = nidskalm_reduced_chunk_graph_start_order(LOAD, 0, chunks, A).refusal;
}

static void merge_new(void) {
    refusal = nidskalm_chunk_optimization_graph_new(C, M, L, E, 1, 0, module_starts, 2, list, 1, sets, 4 * NAMED, list, NAMED,
        effects, M, merge_area, sizeof merge_area / sizeof *merge_area).refusal;
}
static void init_module(void) {
    static uint64_t next;
    const uint64_t set[4] = {++next, 0, 0, 7};
    refusal = nidskalm_chunk_optimization_graph_init_module_assignment(SIZE, 1, set, 4, effects, M).refusal;
}
static void add_module(void) { refusal = nidskalm_chunk_optimization_graph_add_module_to_chunk(SIZE, 2, 0, effects, M).refusal; }
static void register_index(void) {
    refusal = nidskalm_chunk_optimization_graph_register_chunk_graph_index(SIZE, 5, 0).refusal;
}
static void to_temp_idx(void) { refusal = nidskalm_chunk_optimization_graph_to_temp_idx(SIZE, 5).refusal; }
/* Module 2, of chunk 0, depends on module 1, of chunk 1. */
static void calc(void) {
    const uint32_t one = 1;
    for (int m = 3; m <= M; m++) calc_starts[m] = 1;
    refusal = nidskalm_chunk_optimization_graph_calc_chunk_dependencies(SIZE, calc_starts, M + 1, &one, 1).refusal;
}
static void warning(void) {
    refusal = nidskalm_chunk_optimization_graph_would_create_circular_dependency(SIZE, 1, 0).refusal;
}
static void is_reachable(void) { refusal = nidskalm_chunk_optimization_graph_is_reachable(SIZE, 1, 0).refusal; }
static void merge(void) { refusal = nidskalm_chunk_optimization_graph_merge_chunk_dependencies(SIZE, 0, 1).refusal; }
static void pass(void) {
    uint64_t count = merge_area[C * C + 1] - 1;
    refusal = nidskalm_chunk_optimization_graph_pass(SIZE, proposals, count, effects, count, kinds, count, numbers, count).refusal;
}

/* Every bit names a user entry, all of one module: all guards are asked. */
static void merge_target(void) {
    static uint32_t zeros[M + 1], users[C];
    for (int i = 0; i < C; i++) users[i] = 1;
    refusal = nidskalm_chunk_optimization_graph_merge_target(
        C, M, users, C, zeros, C, zeros, C + 1, zeros, 0, zeros, M + 1, zeros, 0, zeros, M + 1, zeros, 0,
        zeros, C + 1, zeros, 0, zeros, C, zeros, M, zeros, M, UINT64_MAX, UINT64_MAX, UINT64_MAX, UINT64_MAX).refusal;
}

static void *run(void *call) {
    (*(void (**)(void))call)();
    return NULL;
}

/* Bytes of a fresh stack that a call writes. */
static long used(void (*call)(void)) {
    static unsigned char *stack;
    if (stack == NULL && posix_memalign((void **)&stack, 4096, STACK) != 0) exit(2);
    memset(stack, 0xa5, STACK);
    pthread_attr_t attributes;
    pthread_t thread;
    pthread_attr_init(&attributes);
    pthread_attr_setstack(&attributes, stack, STACK);
    if (pthread_create(&thread, &attributes, run, &call) != 0) exit(2);
    pthread_join(thread, NULL);
    long low = 0;
    while (low < STACK && stack[low] == 0xa5) low++;
    return STACK - low;
}

static long most;
static int any_refused;

static void tell(const char *name, void (*call)(void)) {
    long bytes = used(call);
    int row = (int)refusal;
    bytes -= used(nothing);
    if (bytes > most) most = bytes;
    printf("| %s | %.1f KiB |", name, bytes / 1024.0);
    if (row != 0) printf(" refused %d", row), any_refused = 1;
    printf("\n");
}

/* Atom i depends on some of those before it; the first two on each other where the load is to be cyclic. */
static void load(uint64_t atoms, uint64_t entries, uint64_t room, int cyclic) {
    a = atoms, d = entries, n = room;
    uint32_t at = 0;
    for (uint64_t i = 0; i < a; i++) {
        starts[i] = at;
        if (cyclic && i == 0) dependencies[at++] = 1;
        for (uint64_t k = i * d / a; i > 0 && k < (i + 1) * d / a && at < d; k++) dependencies[at++] = (uint32_t)(k % i);
        sets[4 * i] = i + 2, sets[4 * i + 3] = i;
    }
    while (at < d) dependencies[at++] = 0;
    starts[a] = (uint32_t)d;
    for (int e = 0; e < E; e++) hosts[e] = (uint32_t)(e % a);
}

static void moves(const char *name, uint64_t atoms, uint64_t entries, uint64_t room, int cyclic) {
    load(atoms, entries, room, cyclic);
    printf("\nMove graph, %s\n\n| call | stack |\n|---|---|\n", name);
    tell("`new`", move_new);
    bits[0] = 1;
    tell("`try_move`, unseen set", try_move);
    tell("`try_move`, seen set", (bits[0] = 3, bits[3] = 1, try_move));
    tell("`atom_set`", atom_set);
    tell("`atom_count`", atom_count);
    tell("`multiplicity`", multiplicity);
    tell("`edge_count`", edge_count);
    tell("`chunk_count`", chunk_count);
    tell("`edge_at`", edge_at);
    tell("`rank`", rank);
    tell("`has_cycle`", has_cycle);
    tell("`freedom`", freedom);
    if (!cyclic) tell("`start_order`", start_order);
    bits[3] = 0;
}

/* Each atom depends on the next, the last on the first where the path is closed: the book's search goes as deep as there are atoms. */
static void path(const char *name, int closed) {
    a = A, d = closed ? A : A - 1, n = N;
    for (uint32_t i = 0; i < A; i++) starts[i] = i, dependencies[i] = (i + 1) % A;
    starts[A] = (uint32_t)d;
    printf("\nMove graph, %s\n\n| call | stack |\n|---|---|\n", name);
    tell("`new`", move_new);
    tell("`has_cycle`", has_cycle);
}

int main(void) {
    moves("48 atoms, 96 dependencies, N = 96", 48, 96, 96, 0);
    moves("512 atoms, 8,192 dependencies, N = 1,024, acyclic", A, D, N, 0);
    moves("512 atoms, 8,192 dependencies, N = 1,024, cyclic", A, D, N, 1);
    path("512 atoms in a row, N = 1,024", 0);
    path("512 atoms in a ring, N = 1,024", 1);
    printf("\nMerge graph, C = 1,024, %d sets named\n\n| call | stack |\n|---|---|\n", NAMED);
    module_starts[1] = 1;
    tell("`new`", merge_new);
    tell("`init_module_assignment`", init_module);
    tell("`add_module_to_chunk`", add_module);
    tell("`register_chunk_graph_index`", register_index);
    tell("`to_temp_idx`", to_temp_idx);
    tell("`calc_chunk_dependencies`", calc);
    tell("`would_create_circular_dependency`", warning);
    tell("`is_reachable`", is_reachable);
    tell("`merge_chunk_dependencies`", merge);
    tell("pass", pass);
    tell("`merge_target`", merge_target);
    printf("\nmost: %.1f KiB\n", most / 1024.0);
    return most <= NIDSKALM_STACK && !any_refused ? 0 : 1;
}
