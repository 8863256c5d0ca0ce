/* How free a plan is, against plain trials: random loads of up to 12 atoms, each pair tried on a copy of the area, and loads at the limits. */
#include <stdio.h>
#include <stdlib.h>
#include <string.h>

#include "nidskalm.h"

#define NONE 4294967295u
#define ATOMS 512
#define ENTRIES 8192
#define BITS 16
#define SETS 1024

static uint32_t starts[ATOMS + 1], dependencies[ENTRIES], hosts[BITS], fixed[ATOMS];
static uint64_t sets[ATOMS];
static uint32_t area[NIDSKALM_MOVE_AREA(ATOMS, ENTRIES, BITS, SETS)], copy[NIDSKALM_MOVE_AREA(ATOMS, ENTRIES, BITS, SETS)];
static uint64_t seed = 88172645463325252u;

static uint64_t chance(uint64_t below) {
    seed ^= seed << 13;
    seed ^= seed >> 7;
    seed ^= seed << 17;
    return seed % below;
}

typedef struct {
    uint64_t a, d, e, n;
    size_t length;
} size;

#define LOAD(s) (s).a, (s).d, (s).e, (s).n, starts, (s).a + 1, dependencies, (s).d, hosts, (s).e, fixed, (s).a

/* A load with d dependencies, some of its atoms fixed, and moves of it. */
static size load(uint64_t a, uint64_t d, uint64_t e, uint64_t n, uint64_t moves) {
    size s = {a, d, e, n, n * n + 24 * (a + n + d + e + 1)};
    for (uint64_t i = 0; i < a; i++) {
        fixed[i] = chance(5) == 0 ? (uint32_t)chance(3) : 0;
        sets[i] = i + 1;
    }
    for (uint64_t i = a; i > 1; i--) {
        uint64_t j = chance(i), kept = sets[i - 1];
        sets[i - 1] = sets[j];
        sets[j] = kept;
    }
    for (uint64_t i = 0; i <= a; i++) starts[i] = (uint32_t)(a == 0 ? 0 : d * i / a);
    for (uint64_t i = 0; i < a; i++)
        for (uint32_t k = starts[i]; k < starts[i + 1]; k++) dependencies[k] = (uint32_t)((i + 1 + chance(a - 1)) % a);
    for (uint64_t b = 0; b < e; b++) hosts[b] = a == 0 || chance(2) ? NONE : (uint32_t)chance(a);
    nidskalm_reply loaded = nidskalm_reduced_chunk_graph_new(LOAD(s), sets, a, area, s.length);
    if (loaded.refusal) printf("loading refused %d\n", (int)loaded.refusal);
    for (uint64_t i = 0; i < moves && a; i++) {
        uint64_t to = chance(((uint64_t)1 << e) - 1) % (2 * a) + 1;
        nidskalm_reduced_chunk_graph_try_move(LOAD(s), area, s.length, (uint32_t)chance(a), &to, 1);
    }
    return s;
}

/* The same by plain trials. */
static nidskalm_freedom_reply trials(size s) {
    nidskalm_freedom_reply all = {0, 0, 0, 0};
    for (uint32_t i = 0; i < s.a; i++) {
        uint64_t own = nidskalm_reduced_chunk_graph_atom_set(LOAD(s), area, s.length, i).set0;
        for (uint64_t to = 0; to < (uint64_t)1 << s.e; to++) {
            if (to == own || nidskalm_reduced_chunk_graph_atom_count(LOAD(s), area, s.length, &to, 1).value == 0) continue;
            memcpy(copy, area, s.length * sizeof *area);
            nidskalm_move_reply moved = nidskalm_reduced_chunk_graph_try_move(LOAD(s), copy, s.length, i, &to, 1);
            if (moved.refusal == 24) all.fixed++;
            else if (moved.refusal) printf("a trial is refused %d\n", (int)moved.refusal);
            else if (moved.accepted) all.accepted++;
            else all.rejected++;
        }
    }
    return all;
}

int main(void) {
    uint64_t wrong = 0, cyclic = 0, accepted = 0, rejected = 0, held = 0;
    for (int i = 0; i < 1500; i++) {
        uint64_t a = chance(9), d = a < 2 ? 0 : chance(2 * a + 1);
        size s = load(a, d, 5, a + 1 + chance(4), chance(12));
        memcpy(copy, area, s.length * sizeof *area);
        nidskalm_freedom_reply told = nidskalm_reduced_chunk_graph_freedom(LOAD(s), area, s.length);
        wrong += memcmp(copy, area, s.length * sizeof *area) != 0;
        nidskalm_freedom_reply tried = trials(s);
        wrong += memcmp(&told, &tried, sizeof told) != 0;
        cyclic += area[s.n * s.n + 2] == 0;
        accepted += told.accepted, rejected += told.rejected, held += told.fixed;
    }
    printf("freedom: 1500 loads, %d of them cyclic: %d accepted, %d rejected, %d fixed, %d wrong\n", (int)cyclic, (int)accepted, (int)rejected, (int)held, (int)wrong);
    size s = load(512, 0, 16, 1024, 0);
    for (int i = 0; i < 512; i++) fixed[i] = 0;
    nidskalm_reduced_chunk_graph_new(LOAD(s), sets, 512, area, s.length);
    nidskalm_freedom_reply most = nidskalm_reduced_chunk_graph_freedom(LOAD(s), area, s.length);
    printf("512 atoms: %d accepted, %d rejected, %d fixed\n", (int)most.accepted, (int)most.rejected, (int)most.fixed);
    most = nidskalm_reduced_chunk_graph_freedom(LOAD(s), area, s.length - 1);
    printf("a short area: refused %d\n", (int)most.refusal);
    return wrong != 0;
}
