/* A recorded case of the move graph: each call's answer is compared with the recorded one. */
#include <string.h>

#include "replay.h"

/* What every call is lent, and w, the numbers of a set. The recorded cases have no fixed atoms. */
typedef struct {
    uint64_t a, d, e, n, w;
    const uint32_t *starts, *dependencies, *hosts;
    uint32_t *area;
    size_t length;
} load;

#define LENT(x) (x)->a, (x)->d, (x)->e, (x)->n, (x)->starts, (x)->a + 1, (x)->dependencies, (x)->d, (x)->hosts, (x)->e, unmarked, (x)->a
#define AREA(x) (x)->area, (x)->length

static const uint32_t unmarked[512];

/* The set of w numbers that comes next in the record is this one of four. */
static bool same_set(uint64_t w, const uint64_t set[4]) {
    uint64_t recorded[4] = {0};
    memcpy(recorded, wides(w), w * sizeof *recorded);
    return memcmp(recorded, set, sizeof recorded) == 0;
}

static void set_told(uint64_t w, nidskalm_set_reply reply) {
    const uint64_t set[] = {reply.set0, reply.set1, reply.set2, reply.set3};
    bool row = one() == reply.refusal;
    bool same = same_set(w, set);
    counted(reply.refusal, row && same);
}

static void edge_told(uint64_t w, nidskalm_edge_reply reply) {
    const uint64_t from[] = {reply.from0, reply.from1, reply.from2, reply.from3};
    const uint64_t to[] = {reply.to0, reply.to1, reply.to2, reply.to3};
    bool row = one() == reply.refusal;
    bool found = one() == reply.found;
    bool same_from = same_set(w, from);
    bool same_to = same_set(w, to);
    bool times = one() == reply.multiplicity;
    counted(reply.refusal, row && found && same_from && same_to && times);
}

static void move_told(nidskalm_move_reply reply) {
    bool row = one() == reply.refusal;
    bool accepted = one() == reply.accepted;
    bool appeared = one() == reply.appeared;
    bool vanished = one() == reply.vanished;
    bool reached = one() == reply.reached;
    counted(reply.refusal, row && accepted && appeared && vanished && reached);
}

static void try_move(const load *x) {
    uint32_t atom = small();
    const uint64_t *bits = wides(x->w);
    move_told(nidskalm_reduced_chunk_graph_try_move(LENT(x), AREA(x), atom, bits, x->w));
}

static void atom_count(const load *x) {
    const uint64_t *bits = wides(x->w);
    reply_told(nidskalm_reduced_chunk_graph_atom_count(LENT(x), AREA(x), bits, x->w));
}

static void multiplicity(const load *x) {
    const uint64_t *from = wides(x->w);
    const uint64_t *to = wides(x->w);
    reply_told(nidskalm_reduced_chunk_graph_multiplicity(LENT(x), AREA(x), from, x->w, to, x->w));
}

/* The list has other numbers than atoms beforehand, and is recorded whole. */
static void start_order(const load *x) {
    static uint32_t chunks[1024];
    const uint64_t bit = one(), room = one();
    readable(room <= sizeof chunks / sizeof *chunks);
    for (uint32_t i = 0; i < room; i++) {
        chunks[i] = 1000000 + i;
    }
    const nidskalm_reply reply = nidskalm_reduced_chunk_graph_start_order(LENT(x), AREA(x), bit, chunks, room);
    bool row = one() == reply.refusal;
    bool value = one() == reply.value;
    bool same = memcmp(smalls(room), chunks, room * sizeof *chunks) == 0;
    counted(reply.refusal, row && value && same);
}

static void call(const load *x) {
    switch (one()) {
    case 1: try_move(x); break;
    case 2: set_told(x->w, nidskalm_reduced_chunk_graph_atom_set(LENT(x), AREA(x), small())); break;
    case 3: atom_count(x); break;
    case 4: multiplicity(x); break;
    case 5: reply_told(nidskalm_reduced_chunk_graph_edge_count(LENT(x), AREA(x))); break;
    case 8: reply_told(nidskalm_reduced_chunk_graph_chunk_count(LENT(x), AREA(x))); break;
    case 6: edge_told(x->w, nidskalm_reduced_chunk_graph_edge_at(LENT(x), AREA(x), one())); break;
    case 7: reply_told(nidskalm_reduced_chunk_graph_has_cycle(LENT(x), AREA(x))); break;
    case 9: start_order(x); break;
    default: readable(false);
    }
}

void replay_moves(void) {
    load x = {.a = one()};
    x.d = one();
    x.e = one();
    x.n = one();
    x.w = width(x.e);
    readable(x.a <= 512 && x.n <= 1024);
    x.starts = smalls(x.a + 1);
    x.dependencies = smalls(x.d);
    x.hosts = smalls(x.e);
    x.length = NIDSKALM_MOVE_AREA(x.a, x.d, x.e, x.n);
    x.area = lent(x.length);
    const uint64_t *sets = wides(x.a * x.w);
    reply_told(nidskalm_reduced_chunk_graph_new(LENT(&x), sets, x.a * x.w, AREA(&x)));
    for (uint64_t left = one(); left > 0; left--) {
        call(&x);
    }
}
