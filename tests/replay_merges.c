/* A recorded case of the merge graph: each call's answer is compared with the recorded one, and at the end what the area shows, which is
 * read as docs/LAYOUT.md has it. */
#include "replay.h"

/* What every call is lent, and w, the numbers of a set. */
typedef struct {
    uint64_t c, m, l, e, w;
    const uint32_t *effects;
    uint32_t *area;
    size_t length;
} graph;

#define SIZES(x) (x)->c, (x)->m, (x)->l, (x)->e
#define LENT(x) SIZES(x), (x)->area, (x)->length

/* A call without a value: its refusal comes next in the record. */
static void done_told(nidskalm_reply reply) {
    counted(reply.refusal, reply.refusal == one() && reply.value == 0);
}

/* The list comes next in the record. */
static bool same_list(const uint32_t *list, uint64_t length) {
    const uint32_t *recorded = smalls(length);
    bool same = true;
    for (uint64_t i = 0; i < length; i++) {
        same = same && list[i] == recorded[i];
    }
    return same;
}

static void init_module_assignment(const graph *x) {
    uint32_t module = small();
    const uint64_t *bits = wides(x->w);
    done_told(nidskalm_chunk_optimization_graph_init_module_assignment(LENT(x), module, bits, x->w, x->effects, x->m));
}

static void calc_chunk_dependencies(const graph *x) {
    uint64_t count = one();
    const uint32_t *starts = smalls(x->m + 1);
    const uint32_t *dependencies = smalls(count);
    done_told(nidskalm_chunk_optimization_graph_calc_chunk_dependencies(LENT(x), starts, x->m + 1, dependencies, count));
}

/* The answer lists are lent with 7 everywhere. They are recorded whether the pass is refused or not. */
static void pass(const graph *x) {
    static uint32_t kinds[1024], numbers[1024];
    uint64_t count = one();
    readable(count <= 1024);
    const uint32_t *proposals = smalls(count);
    const uint32_t *bars = smalls(count);
    for (uint64_t i = 0; i < count; i++) {
        kinds[i] = numbers[i] = 7;
    }
    nidskalm_reply reply = nidskalm_chunk_optimization_graph_pass(LENT(x), proposals, count, bars, count, kinds, count, numbers, count);
    const uint64_t *recorded = wides(2);
    bool same_kinds = same_list(kinds, count);
    bool same_numbers = same_list(numbers, count);
    counted(reply.refusal, reply.refusal == recorded[0] && reply.value == recorded[1] && same_kinds && same_numbers);
}

/* A call with two numbers. */
static void pair(const graph *x, uint64_t kind) {
    uint32_t first = small();
    uint32_t second = small();
    switch (kind) {
    case 2: done_told(nidskalm_chunk_optimization_graph_add_module_to_chunk(LENT(x), first, second, x->effects, x->m)); break;
    case 3: done_told(nidskalm_chunk_optimization_graph_register_chunk_graph_index(LENT(x), first, second)); break;
    case 6: reply_told(nidskalm_chunk_optimization_graph_would_create_circular_dependency(LENT(x), first, second)); break;
    case 7: reply_told(nidskalm_chunk_optimization_graph_is_reachable(LENT(x), first, second)); break;
    default: done_told(nidskalm_chunk_optimization_graph_merge_chunk_dependencies(LENT(x), first, second)); break;
    }
}

/* Number i of the header, of a lane of the chunks, of the modules' first lane, of a lane of the list entries. */
static uint32_t header(const graph *x, uint64_t i) {
    return x->area[x->c * x->c + i];
}

static uint32_t chunk_lane(const graph *x, uint64_t lane, uint64_t i) {
    return x->area[x->c * x->c + 32 + lane * x->c + i];
}

static uint32_t module_chunk(const graph *x, uint64_t i) {
    return x->area[x->c * x->c + 32 + 32 * x->c + i];
}

static uint32_t entry_lane(const graph *x, uint64_t lane, uint64_t i) {
    return x->area[x->c * x->c + 32 + 32 * x->c + 32 * x->m + lane * x->l + i];
}

enum { HEADER_SETS = 3, HEADER_ENTRIES = 4, SET_CHUNKS = 16, SIDE_EFFECTS = 18, NEEDS_CREATION = 19, ENTRY_CHUNK = 0, ENTRY_MODULE = 1 };

/* The next number of a recorded list, or one that is in no list. */
static uint64_t next(const uint32_t *list, uint64_t length, uint64_t place) {
    return place < length ? list[place] : UINT64_MAX;
}

/* A chunk's dependencies, rising: their number and they come next in the record. */
static bool same_dependencies(const graph *x, uint64_t chunk) {
    uint64_t count = one(), found = 0;
    const uint32_t *recorded = smalls(count);
    bool same = true;
    for (uint64_t other = 0; other < x->c; other++) {
        if (x->area[chunk * x->c + other] != 0) {
            same = same && next(recorded, count, found) == other;
            found++;
        }
    }
    return same && found == count;
}

/* A chunk's modules, in their order. */
static bool same_modules(const graph *x, uint64_t chunk) {
    uint64_t count = one(), found = 0;
    const uint32_t *recorded = smalls(count);
    bool same = header(x, HEADER_ENTRIES) <= x->l;
    for (uint64_t entry = 0; same && entry < header(x, HEADER_ENTRIES); entry++) {
        if (entry_lane(x, ENTRY_CHUNK, entry) == chunk) {
            same = next(recorded, count, found) == entry_lane(x, ENTRY_MODULE, entry);
            found++;
        }
    }
    return same && found == count;
}

/* 10: a chunk, its two flags, its dependencies and its modules. */
static void chunk_told(const graph *x) {
    uint32_t chunk = small();
    readable(chunk < x->c);
    bool effects = one() == chunk_lane(x, SIDE_EFFECTS, chunk);
    bool needs = one() == chunk_lane(x, NEEDS_CREATION, chunk);
    bool dependencies = same_dependencies(x, chunk);
    bool modules = same_modules(x, chunk);
    counted(0, effects && needs && dependencies && modules);
}

/* Number i of a set in the area's table: two words of 32 bits. */
static uint64_t set_number(const graph *x, uint64_t set, uint64_t i) {
    uint64_t low = chunk_lane(x, 0, 8 * set + 2 * i), high = chunk_lane(x, 0, 8 * set + 2 * i + 1);
    return low | high << 32;
}

static bool is_set(const graph *x, uint64_t set, const uint64_t *bits) {
    bool same = true;
    for (uint64_t i = 0; i < 4; i++) {
        same = same && set_number(x, set, i) == (i < x->w ? bits[i] : 0);
    }
    return same;
}

/* The chunk of the set with these bits, which stands among `sets`, or None. */
static uint32_t set_chunk(const graph *x, uint64_t sets, const uint64_t *bits) {
    for (uint64_t set = 0; set < sets; set++) {
        if (is_set(x, set, bits)) {
            return chunk_lane(x, SET_CHUNKS, set);
        }
    }
    return NIDSKALM_NONE;
}

/* 11: all sets, and the chunk of each. */
static void sets_told(const graph *x) {
    uint64_t count = one();
    readable(count <= 2 * x->c);
    const uint64_t *bits = wides(count * x->w);
    const uint32_t *chunks = smalls(count);
    bool same = header(x, HEADER_SETS) == count;
    for (uint64_t set = 0; same && set < count; set++) {
        same = set_chunk(x, count, &bits[set * x->w]) == chunks[set];
    }
    counted(0, same);
}

/* 12: the chunk of each module, or None. */
static void module_chunks_told(const graph *x) {
    const uint32_t *chunks = smalls(x->m);
    bool same = true;
    for (uint64_t module = 0; module < x->m; module++) {
        same = same && module_chunk(x, module) == chunks[module];
    }
    counted(0, same);
}

static void call(const graph *x) {
    uint64_t kind = one();
    switch (kind) {
    case 1: init_module_assignment(x); break;
    case 2: case 3: case 6: case 7: case 8: pair(x, kind); break;
    case 4: reply_told(nidskalm_chunk_optimization_graph_to_temp_idx(LENT(x), small())); break;
    case 5: calc_chunk_dependencies(x); break;
    case 9: pass(x); break;
    case 10: chunk_told(x); break;
    case 11: sets_told(x); break;
    case 12: module_chunks_told(x); break;
    default: readable(false);
    }
}

/* The loading, whose lists and refusal come next in the record. */
static void load(graph *x) {
    uint64_t initial = one(), count = one();
    readable(initial <= 1024);
    const uint32_t *starts = smalls(initial + 1);
    const uint32_t *modules = smalls(count);
    uint64_t pairs = one();
    readable(pairs <= 1024);
    const uint64_t *sets = wides(pairs * x->w);
    const uint32_t *chunks = smalls(pairs);
    x->effects = smalls(x->m);
    done_told(nidskalm_chunk_optimization_graph_new(
        SIZES(x), initial, 0, starts, initial + 1, modules, count, sets, pairs * x->w, chunks, pairs, x->effects, x->m,
        x->area, x->length));
}

void replay_merges(void) {
    graph x = {.c = one()};
    x.m = one();
    x.l = one();
    x.e = one();
    x.w = width(x.e);
    readable(x.c <= 1024 && x.m <= 4096 && x.l <= 8192);
    x.length = NIDSKALM_MERGE_AREA(x.c, x.m, x.l);
    x.area = lent(x.length);
    load(&x);
    for (uint64_t left = one(); left > 0; left--) {
        call(&x);
    }
}
