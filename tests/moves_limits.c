/* The move graph's calls at their limits. Each line is a case and what is answered: 100 for acyclic or accepted, 200 for cyclic or rejected,
 * else the row that refuses; or a number of the area. tests/expected/moves_limits.txt has what it prints. */
#include "limits.h"

/* The sizes and lists that every call is lent, each list as long as it has to be. */
typedef struct {
    uint64_t a, d, e, n;
    const uint32_t *starts, *dependencies, *hosts, *fixed;
} load;

#define LENT(x) (x).a, (x).d, (x).e, (x).n, (x).starts, (x).a + 1, (x).dependencies, (x).d, (x).hosts, (x).e, (x).fixed, (x).a

static const uint32_t zeros[514];
static const uint32_t nobody[10] = {
    NIDSKALM_NONE, NIDSKALM_NONE, NIDSKALM_NONE, NIDSKALM_NONE, NIDSKALM_NONE,
    NIDSKALM_NONE, NIDSKALM_NONE, NIDSKALM_NONE, NIDSKALM_NONE, NIDSKALM_NONE,
};

/* Loads, and says what is answered. */
static void loaded(const char *name, load x, const uint64_t *sets, size_t sets_length, uint32_t *area, size_t length) {
    nidskalm_reply reply = nidskalm_reduced_chunk_graph_new(LENT(x), sets, sets_length, area, length);
    say(name, reply.refusal != 0 ? row(reply) : 100 + 100 * reply.value);
}

static void moved(const char *name, load x, uint32_t *area, size_t length, uint32_t atom, const uint64_t *bits, size_t w) {
    nidskalm_move_reply reply = nidskalm_reduced_chunk_graph_try_move(LENT(x), area, length, atom, bits, w);
    const nidskalm_reply told = {reply.refusal, reply.accepted};
    say(name, reply.refusal != 0 ? row(told) : 200 - 100 * reply.accepted);
}

static void judged(const char *name, load x, const uint32_t *area, size_t length) {
    nidskalm_reply reply = nidskalm_reduced_chunk_graph_has_cycle(LENT(x), area, length);
    say(name, reply.refusal != 0 ? row(reply) : 100 + 100 * reply.value);
}

/* 0, 1, 2, .. */
static void number(uint64_t *list, size_t length) {
    for (size_t i = 0; i < length; i++) {
        list[i] = i;
    }
}

/* "A > 512": 512 atoms are loaded, each with a set of its own, and one set more. The last atom joins the first one, and goes on to the set
 * 600, then all places are taken. Of the empty sets 511 is the only one: 601 takes over its place, whose first word is number 511 of the
 * lanes, then 511 that of 600. */
static void most_atoms(void) {
    static uint32_t area[NIDSKALM_MOVE_AREA(512, 0, 10, 513)];
    static uint64_t sets[512];
    const uint64_t targets[] = {0, 600, 601, 511};
    const uint32_t *first_words = area + 513 * 513 + 24;
    const load x = {512, 0, 10, 513, zeros, zeros, nobody, zeros}, narrow = {512, 0, 10, 512, zeros, zeros, nobody, zeros};
    number(sets, LENGTH(sets));
    loaded("512 atoms with room for 512 sets", narrow, sets, LENGTH(sets), area, LENGTH(area));
    loaded("512 atoms", x, sets, LENGTH(sets), area, LENGTH(area));
    moved("the last one moves", x, area, LENGTH(area), 511, targets, 1);
    moved("to a new set", x, area, LENGTH(area), 511, targets + 1, 1);
    say("the last place", first_words[512]);
    moved("to another", x, area, LENGTH(area), 511, targets + 2, 1);
    say("the place of the empty set", first_words[511]);
    moved("and back", x, area, LENGTH(area), 511, targets + 3, 1);
    say("the last place", first_words[512]);
    moved("with room for 512 sets", narrow, area, LENGTH(area), 511, targets, 1);
}

/* A server up for a month: 10,000 moves to new sets with N = A + 1. */
static void month_of_moves(void) {
    static uint32_t area[NIDSKALM_MOVE_AREA(4, 0, 10, 5)];
    const uint64_t sets[] = {0, 1, 2, 3};
    const load x = {4, 0, 10, 5, zeros, zeros, nobody, zeros};
    uint64_t refused = 0, accepted = 0;
    loaded("four atoms with room for five sets", x, sets, LENGTH(sets), area, LENGTH(area));
    for (uint32_t k = 0; k < 10000; k++) {
        const uint64_t target = 4 + k % 1000;
        nidskalm_move_reply reply = nidskalm_reduced_chunk_graph_try_move(LENT(x), area, LENGTH(area), k % 4, &target, 1);
        refused += reply.refusal != 0;
        accepted += reply.accepted;
    }
    say("refused of 10000 moves", refused);
    say("accepted of them", accepted);
}

/* The two kept totals, by the questions; a row that refuses them counts 10,000. */
static void totals(load x, const uint32_t *area, size_t length) {
    nidskalm_reply chunks = nidskalm_reduced_chunk_graph_chunk_count(LENT(x), area, length);
    nidskalm_reply edges = nidskalm_reduced_chunk_graph_edge_count(LENT(x), area, length);
    say("chunks", chunks.value + 10000 * chunks.refusal);
    say("edges", edges.value + 10000 * edges.refusal);
}

/* The first atom depends on all 511 others, each in a set of its own. With it its edges go to a new set, then to that of atom 1, where the one
 * between the two goes. A refused move reports zeros. The last atom joins atom 2: one edge goes, and that to atom 2 is there already. Each total one too
 * high, at N×N + 3 and N×N + 4, is row 9. */
static void most_edges(void) {
    static uint32_t area[NIDSKALM_MOVE_AREA(512, 511, 10, 513)], starts[513], dependencies[511];
    static uint64_t sets[512];
    const uint64_t targets[] = {600, 1, 1, 2};
    const uint32_t atoms[] = {0, 0, 1, 511};
    const load x = {512, 511, 10, 513, starts, dependencies, nobody, zeros};
    number(sets, LENGTH(sets));
    fill(starts + 1, 512, 511);
    for (uint32_t k = 0; k < 511; k++) {
        dependencies[k] = k + 1;
    }
    loaded("511 edges", x, sets, LENGTH(sets), area, LENGTH(area));
    for (size_t k = 0; k < LENGTH(targets); k++) {
        nidskalm_move_reply reply = nidskalm_reduced_chunk_graph_try_move(LENT(x), area, LENGTH(area), atoms[k], targets + k, 1);
        say("refused by", reply.refusal);
        say("edges that appear", reply.appeared);
        say("edges that vanish", reply.vanished);
        totals(x, area, LENGTH(area));
    }
    for (size_t k = 3; k <= 4; k++) {
        area[513 * 513 + k] += 1;
        totals(x, area, LENGTH(area));
        area[513 * 513 + k] -= 1;
    }
    totals(x, area, LENGTH(area));
}

/* The load that the program `chain` writes for 512: each of 512 atoms depends on the next, atom 0 goes to set 513 and reaches the 511 others.
 * The last atom, which then goes to the empty set 1, reaches none; the one before it, in set 512, empty now, reaches it. */
static void longest_walk(void) {
    static uint32_t area[NIDSKALM_MOVE_AREA(512, 511, 10, 513)], starts[513], dependencies[511];
    static uint64_t sets[512];
    const uint64_t targets[] = {513, 1, 512};
    const uint32_t atoms[] = {0, 511, 510};
    const load x = {512, 511, 10, 513, starts, dependencies, nobody, zeros};
    for (uint32_t k = 0; k < 511; k++) {
        sets[k] = starts[k + 1] = dependencies[k] = k + 1;
    }
    sets[511] = 512;
    starts[512] = 511;
    loaded("a chain of 512", x, sets, LENGTH(sets), area, LENGTH(area));
    for (size_t k = 0; k < LENGTH(targets); k++) {
        nidskalm_move_reply reply = nidskalm_reduced_chunk_graph_try_move(LENT(x), area, LENGTH(area), atoms[k], targets + k, 1);
        say("refused by", reply.refusal);
        say("chunks that are reached", reply.reached);
    }
}

static void ranked(const char *name, load x, const uint32_t *first, const uint32_t *second, size_t length) {
    nidskalm_reply reply = nidskalm_reduced_chunk_graph_rank(LENT(x), first, length, second, length);
    say(name, reply.refusal != 0 ? row(reply) : 100 * reply.value);
}

/* 512 atoms without dependencies, twice: 0 for before, 100 for equal, 200 for after. The last atom's set alone differs, then atom 0's too, which
 * decides; then two atoms share a set. A number changed is row 9 of whichever area it is in. */
static void two_plans(void) {
    static uint32_t first[NIDSKALM_MOVE_AREA(512, 0, 10, 513)], second[NIDSKALM_MOVE_AREA(512, 0, 10, 513)];
    static uint64_t sets[512];
    const uint64_t targets[] = {600, 700, 1};
    const load x = {512, 0, 10, 513, zeros, zeros, nobody, zeros};
    number(sets, LENGTH(sets));
    loaded("512 atoms", x, sets, LENGTH(sets), first, LENGTH(first));
    loaded("512 atoms again", x, sets, LENGTH(sets), second, LENGTH(second));
    ranked("two plans alike", x, first, second, LENGTH(first));
    moved("the last atom of the first moves up", x, first, LENGTH(first), 511, targets, 1);
    ranked("the last atom decides", x, first, second, LENGTH(first));
    moved("atom 0 of the second moves up", x, second, LENGTH(second), 0, targets + 1, 1);
    ranked("atom 0 decides", x, first, second, LENGTH(first));
    moved("atom 0 of the second joins atom 1", x, second, LENGTH(second), 0, targets + 2, 1);
    ranked("fewer chunks decide", x, first, second, LENGTH(first));
    ranked("the other way round", x, second, first, LENGTH(first));
    ranked("one area twice", x, second, second, LENGTH(second));
    second[513 * 513 + 3] += 1;
    ranked("a wrong number in the second", x, first, second, LENGTH(first));
    ranked("in the first", x, second, first, LENGTH(first));
}

static void too_many_atoms(void) {
    static uint32_t area[NIDSKALM_MOVE_AREA(513, 0, 10, 513)];
    static uint64_t sets[513];
    const load x = {513, 0, 10, 513, zeros, zeros, nobody, zeros};
    number(sets, LENGTH(sets));
    loaded("513 atoms", x, sets, LENGTH(sets), area, LENGTH(area));
}

/* "N > 1,024" comes before the area's length: with room for 1,024 chunks the area is too short, with room for one more the number is
 * refused. */
static void most_chunks(const char *name, uint64_t n) {
    uint32_t area[24] = {0};
    const uint64_t set = 0;
    const load x = {1, 0, 1, n, zeros, zeros, nobody, zeros};
    loaded(name, x, &set, 1, area, LENGTH(area));
}

/* A = 0: N is 1 at least, 49 numbers are enough. */
static void no_atoms(void) {
    uint32_t area[49] = {0};
    const uint64_t set = 0;
    const load x = {0, 0, 0, 1, zeros, zeros, nobody, zeros}, narrow = {0, 0, 0, 0, zeros, zeros, nobody, zeros};
    loaded("no atoms with room for no set", narrow, &set, 0, area, LENGTH(area));
    loaded("no atoms", x, &set, 0, area, LENGTH(area));
    moved("none of them moves", x, area, LENGTH(area), 0, &set, 0);
    totals(x, area, LENGTH(area));
}

/* 256 bits: bit 255 alone, and a bit of each of the four numbers. 33 = 3×3 + 24 is the first number of the nodes' lanes. */
static void all_bits(void) {
    static uint32_t area[NIDSKALM_MOVE_AREA(2, 0, 256, 3)];
    static uint32_t hosts[256];
    const uint64_t sets[] = {0, 0, 0, UINT64_C(1) << 63, 1, 1, 1, 1};
    const load x = {2, 0, 256, 3, zeros, zeros, hosts, zeros};
    fill(hosts, LENGTH(hosts), NIDSKALM_NONE);
    hosts[255] = 1;
    loaded("256 bits", x, sets, LENGTH(sets), area, LENGTH(area));
    say("the facade edge", area[1]);
    say("word 7 of bit 255", area[33 + 7 * 3]);
    say("word 6 of the other set", area[33 + 6 * 3 + 1]);
    moved("a move to bit 255", x, area, LENGTH(area), 1, sets, 4);
    say("the facade edge", area[1]);
}

/* One atom asks for 124 numbers. */
static void sizes(void) {
    uint32_t area[127];
    const uint64_t set = 1;
    const load x = {1, 0, 1, 2, zeros, zeros, nobody, zeros};
    fill(area, LENGTH(area), 7);
    loaded("one number short", x, &set, 1, area, 123);
    loaded("three numbers too many", x, &set, 1, area, LENGTH(area));
    say("the header's sixth number", area[9]);
    say("the first one too many", area[124]);
    say("the last one", area[126]);
}

/* "mark at 4,294,967,295 clears marks and restarts": atom 0, which depends on atom 1, moves to a new set. The walk counter is number
 * 10 = 3×3 + 1, node 0's mark 60 = 3×3 + 24 + 9×3. */
static void last_mark(void) {
    uint32_t area[NIDSKALM_MOVE_AREA(2, 1, 2, 3)] = {0};
    const uint32_t starts[] = {0, 1, 1}, dependencies[] = {1};
    const uint64_t sets[] = {1, 2}, target = 3;
    const load x = {2, 1, 2, 3, starts, dependencies, nobody, zeros};
    loaded("two atoms", x, sets, LENGTH(sets), area, LENGTH(area));
    area[10] = UINT32_MAX;
    area[60] = 5;
    area[61] = 6;
    area[62] = UINT32_MAX;
    moved("a move after the last mark", x, area, LENGTH(area), 0, &target, 1);
    say("the walk counter", area[10]);
    say("the mark of node 0", area[60]);
    say("the mark of node 1", area[61]);
    say("the mark of node 2", area[62]);
}

/* Fixed atoms: row 24, the marks' number, and the flags, which stand in the atoms' second lane from 107 = 3×3 + 24 + 24×3 + 2 on. */
static void fixed_atoms(void) {
    uint32_t area[NIDSKALM_MOVE_AREA(2, 2, 2, 3)] = {0};
    const uint32_t starts[] = {0, 1, 2}, dependencies[] = {1, 0}, marks[] = {0, 7, 0}, other[] = {0, 1}, swapped[] = {7, 0};
    const uint64_t sets[] = {1, 2, 4}, target = 3;
    uint32_t *flags = area + 3 * 3 + 24 + 24 * 3 + 2;
    const load x = {2, 2, 2, 3, starts, dependencies, nobody, marks}, alike = {2, 2, 2, 3, starts, dependencies, nobody, other};
    const load changed = {2, 2, 2, 3, starts, dependencies, nobody, swapped};
    const size_t length = LENGTH(area);
    for (size_t count = 1; count <= 3; count++) {
        nidskalm_reply reply = nidskalm_reduced_chunk_graph_new(
            2, 2, 2, 3, starts, 3, dependencies, 2, nobody, 2, marks, count, sets, 2, area, length);
        say("a loading with 1, 2, 3 marks", reply.refusal != 0 ? row(reply) : 100 + 100 * reply.value);
    }
    say("the flag of atom 0", flags[0]);
    say("of atom 1, whose mark is 7", flags[1]);
    moved("atom 1 to another set", x, area, length, 1, sets, 1);
    moved("to its own", x, area, length, 1, sets + 1, 1);
    moved("to none", x, area, length, 1, sets + 2, 1);
    moved("to a list of no numbers", x, area, length, 1, sets, 0);
    moved("to a new one, in a cyclic graph", alike, area, length, 1, &target, 1);
    moved("atom 2", x, area, length, 2, sets, 1);
    moved("the marks the other way round", changed, area, length, 0, sets + 1, 1);
    for (size_t count = 1; count <= 3; count++) {
        nidskalm_reply reply = nidskalm_reduced_chunk_graph_edge_count(
            2, 2, 2, 3, starts, 3, dependencies, 2, nobody, 2, marks, count, area, length);
        say("a question with 1, 2, 3 marks", reply.refusal != 0 ? row(reply) : 100 + reply.value);
    }
    for (uint32_t kept = 0; kept <= 7; kept += kept == 0 ? 1 : 6) {
        flags[1] = kept;
        moved("with the flag 0, 1, 7", x, area, length, 1, sets, 1);
    }
    flags[1] = 1;
    moved("atom 0 joins it", x, area, length, 0, sets + 1, 1);
    say("the flag of atom 0", flags[0]);
    say("of atom 1", flags[1]);
}

/* Whether there is a cycle: no atom, two that depend on each other, 512 in a row, without and with the last one's dependency on the
 * first, and the rows 1 to 6 and 9. The acyclic flag of three nodes is number 11 = 3×3 + 2. */
static void verdicts(void) {
    static uint32_t area[NIDSKALM_MOVE_AREA(512, 512, 10, 1024)], starts[513], dependencies[512];
    static uint64_t sets[512];
    const uint32_t both[] = {0, 1, 2}, each_other[] = {1, 0}, itself[] = {0, 0}, host[] = {2, NIDSKALM_NONE}, falling[] = {0, 2, 1};
    load x = {0, 0, 0, 1, zeros, zeros, nobody, zeros};
    loaded("no atom", x, sets, 0, area, 100);
    judged("has it a cycle", x, area, 100);
    for (uint32_t i = 0; i < 512; i++) starts[i] = i, dependencies[i] = (i + 1) % 512, sets[i] = i;
    x = (load){2, 2, 2, 3, both, each_other, nobody, zeros};
    loaded("two that depend on each other", x, sets + 1, 2, area, LENGTH(area));
    judged("have they a cycle", x, area, LENGTH(area));
    moved("one joins the other", x, area, LENGTH(area), 0, sets + 2, 1);
    judged("have they one now", x, area, LENGTH(area));
    area[11] = 0;
    judged("with the flag of a cycle", x, area, LENGTH(area));
    area[11] = 1;
    judged("one number short", x, area, NIDSKALM_MOVE_AREA(2, 2, 2, 3) - 1);
    judged("room for two sets", (load){2, 2, 2, 2, both, each_other, nobody, zeros}, area, LENGTH(area));
    judged("falling starts", (load){2, 2, 2, 3, falling, each_other, nobody, zeros}, area, LENGTH(area));
    judged("a dependency on itself", (load){2, 2, 2, 3, both, itself, nobody, zeros}, area, LENGTH(area));
    judged("a host that is no atom", (load){2, 2, 2, 3, both, each_other, host, zeros}, area, LENGTH(area));
    for (uint32_t d = 511; d <= 512; d++) {
        starts[512] = d;
        x = (load){512, d, 10, 1024, starts, dependencies, nobody, zeros};
        loaded("512 atoms in a row", x, sets, 512, area, LENGTH(area));
        judged("have they a cycle", x, area, LENGTH(area));
    }
}

static void ordered(const char *name, load x, const uint32_t *area, size_t length, uint64_t bit, uint32_t *chunks, size_t room) {
    nidskalm_reply reply = nidskalm_reduced_chunk_graph_start_order(LENT(x), area, length, bit, chunks, room);
    say(name, reply.refusal != 0 ? row(reply) : 100 + reply.value);
}

/* The start order at its limits: 512 atoms in a row, each depending on the next and in the set of its number. Bit 9, held by none, fetches
 * nothing; bit 8 the sets from 256 on, the last atom's first. Then no atom at all, and a cycle that the bit doesn't reach. */
static void start_orders(void) {
    static uint32_t area[NIDSKALM_MOVE_AREA(512, 511, 10, 513)], starts[513], dependencies[511], chunks[513];
    static uint64_t sets[512];
    const load x = {512, 511, 10, 513, starts, dependencies, nobody, zeros};
    const size_t length = LENGTH(area);
    number(sets, LENGTH(sets));
    for (uint32_t i = 0; i < 511; i++) {
        starts[i] = i;
        dependencies[i] = i + 1;
    }
    starts[511] = starts[512] = 511;
    loaded("512 atoms in a row", x, sets, LENGTH(sets), area, length);
    fill(chunks, LENGTH(chunks), 9999);
    ordered("the chunks of bit 0 into 511 numbers", x, area, length, 0, chunks, 511);
    ordered("of bit 10 into 511 numbers", x, area, length, 10, chunks, 511);
    ordered("of bit 10 into 512 numbers", x, area, length, 10, chunks, 512);
    say("the first number", chunks[0]);
    ordered("of bit 9", x, area, length, 9, chunks, 512);
    say("the first number", chunks[0]);
    ordered("of bit 8 into 513 numbers", x, area, length, 8, chunks, 513);
    say("the first chunk", chunks[0]);
    say("the last chunk", chunks[255]);
    say("the number past it", chunks[256]);
    ordered("of bit 0", x, area, length, 0, chunks, 512);
    say("the first chunk", chunks[0]);
    say("the last chunk", chunks[510]);
    say("the number past it", chunks[511]);

    uint32_t small[NIDSKALM_MOVE_AREA(3, 2, 2, 4)] = {0};
    const uint32_t ring_starts[] = {0, 0, 1, 2}, ring[] = {2, 1};
    const load none = {0, 0, 1, 1, zeros, zeros, nobody, zeros}, apart = {3, 2, 2, 4, ring_starts, ring, nobody, zeros};
    const uint64_t three[] = {1, 2, 3};
    loaded("no atom", none, three, 0, small, LENGTH(small));
    ordered("its chunks", none, small, LENGTH(small), 0, chunks, 0);
    loaded("a cycle apart", apart, three, 3, small, LENGTH(small));
    ordered("the chunks beside it", apart, small, LENGTH(small), 0, chunks, 2);
}

int main(void) {
    most_atoms();
    month_of_moves();
    most_edges();
    longest_walk();
    two_plans();
    too_many_atoms();
    most_chunks("room for 1024 chunks in a short area", 1024);
    most_chunks("room for 1025 chunks", 1025);
    no_atoms();
    all_bits();
    sizes();
    last_mark();
    fixed_atoms();
    verdicts();
    start_orders();
    return 0;
}
