/* The merge graph's calls at their limits. Each line is a case and what is answered: 100 done, 200 no, 201 yes, 300 and the number of
 * candidates for a pass, else the row that refuses; or a number of the area or of an answer list. tests/expected/merge_limits.txt has
 * what it prints.
 *
 * Four chunks, modules, list entries and bits, two of the chunks initial where nothing else is said. Places of such an area: whether x
 * depends on y at 4×x + y; 16 = 4×4 is the first number of the header, 48 = 16 + 32 the first of the chunks' lanes. */
#include "limits.h"

enum {
    MADE = 17,
    SETS = 19,
    ENTRIES = 20,
    NO_FIELD = 22,
    EFFECTS = 48 + 18 * 4,
    NEEDS = 48 + 19 * 4,
    KEYS = 48 + 20 * 4,
    MODULE_CHUNKS = 48 + 32 * 4,
};

#define FOUR 4, 4, 4, 4
#define AREA area, LENGTH(area)

static uint32_t area[NIDSKALM_MERGE_AREA(4, 4, 4)];
static const uint32_t effects[] = {0, 0, 0, 5}, no_effects[4];

static void done(const char *name, nidskalm_reply reply) {
    say(name, reply.refusal != 0 ? row(reply) : 100 + reply.value);
}

static void said(const char *name, nidskalm_reply reply) {
    say(name, reply.refusal != 0 ? row(reply) : 200 + reply.value);
}

static void passed(const char *name, nidskalm_reply reply) {
    say(name, reply.refusal != 0 ? row(reply) : 300 + reply.value);
}

/* Two initial chunks: module 0 in the one, module 1 in the other, and bit 0 the first one's set. */
static void begin(void) {
    const uint32_t starts[] = {0, 1, 2}, modules[] = {0, 1}, chunks[] = {0};
    const uint64_t sets[] = {1};
    fill(AREA, 7);
    done("two initial chunks", nidskalm_chunk_optimization_graph_new(FOUR, 2, 0, starts, 3, modules, 2, sets, 1, chunks, 1, effects, 4, AREA));
}

/* Modules 2 and 3 in chunks that need creation; 0 depends on 1, and 3 on 2. */
static void two_candidates(void) {
    const uint64_t third = 4, fourth = 8;
    const uint32_t starts[] = {0, 1, 1, 1, 2}, dependencies[] = {1, 2};
    done("a set of its own", nidskalm_chunk_optimization_graph_init_module_assignment(FOUR, AREA, 2, &third, 1, effects, 4));
    done("another", nidskalm_chunk_optimization_graph_init_module_assignment(FOUR, AREA, 3, &fourth, 1, effects, 4));
    done("dependencies", nidskalm_chunk_optimization_graph_calc_chunk_dependencies(FOUR, AREA, starts, 5, dependencies, 2));
}

/* The warning says no although a loop runs through a chunk that was merged away: 2 is merged into 0, then 3 into 1, while 0 depends on 1
 * and 3 on 2. */
static void merges(void) {
    begin();
    two_candidates();
    said("2 into 0 warns", nidskalm_chunk_optimization_graph_would_create_circular_dependency(FOUR, AREA, 2, 0));
    done("2 into 0", nidskalm_chunk_optimization_graph_merge_chunk_dependencies(FOUR, AREA, 0, 2));
    said("3 into 1 warns", nidskalm_chunk_optimization_graph_would_create_circular_dependency(FOUR, AREA, 3, 1));
    done("3 into 1", nidskalm_chunk_optimization_graph_merge_chunk_dependencies(FOUR, AREA, 1, 3));
    said("0 reaches 2, which it took over", nidskalm_chunk_optimization_graph_is_reachable(FOUR, AREA, 0, 2));
}

/* A pass's answer lists. */
static uint32_t kinds[2], numbers[2];

static nidskalm_reply pass(const uint32_t *proposals, size_t proposals_length, const uint32_t *bars) {
    return nidskalm_chunk_optimization_graph_pass(FOUR, AREA, proposals, proposals_length, bars, 2, kinds, 2, numbers, 2);
}

static void say_lists(void) {
    say("the first kind", kinds[0]);
    say("the first number", numbers[0]);
    say("the second kind", kinds[1]);
    say("the second number", numbers[1]);
}

static void lend_sevens(void) {
    fill(kinds, 2, 7);
    fill(numbers, 2, 7);
}

/* The pass does the same two merges. A second one takes the same candidates again, and a third finds no numbers left. */
static void passes(void) {
    const uint32_t both[] = {0, 1}, second[] = {1, 1}, open[] = {0, 0}, barred[] = {3, 0};
    begin();
    two_candidates();
    lend_sevens();
    passed("a pass", pass(both, 2, open));
    say_lists();
    lend_sevens();
    passed("one proposal for two candidates", pass(second, 1, barred));
    say_lists();
    passed("a second pass, its first candidate barred", pass(second, 2, barred));
    say_lists();
    passed("a proposal that isn't initial", pass(barred, 2, barred));
    passed("a third pass", pass(second, 2, barred));
    say_lists();
}

/* A module listed twice counts where it was put last; what it depends on counts for both chunks. */
static void lists(void) {
    const uint64_t set = 4;
    const uint32_t starts[] = {0, 1, 1, 2, 2}, dependencies[] = {2, 0};
    begin();
    done("module 0 in chunk 1 too", nidskalm_chunk_optimization_graph_add_module_to_chunk(FOUR, AREA, 0, 1, effects, 4));
    done("the last list entry, module 2 in chunk 2",
         nidskalm_chunk_optimization_graph_init_module_assignment(FOUR, AREA, 2, &set, 1, effects, 4));
    done("each depends on the other", nidskalm_chunk_optimization_graph_calc_chunk_dependencies(FOUR, AREA, starts, 5, dependencies, 2));
    say("0 depends on 2", area[4 * 0 + 2]);
    say("1 depends on 2", area[4 * 1 + 2]);
    say("2 depends on 0", area[4 * 2 + 0]);
    say("2 depends on 1", area[4 * 2 + 1]);
    done("one entry past the last", nidskalm_chunk_optimization_graph_init_module_assignment(FOUR, AREA, 3, &set, 1, effects, 4));
}

#define ONE 1, 1, 1, 1
#define SMALL small, LENGTH(small)

/* One chunk, which is initial; and a pass where no chunk needs creation. */
static void smallest(void) {
    uint32_t small[NIDSKALM_MERGE_AREA(1, 1, 1)];
    const uint32_t starts[] = {0, 0}, none[] = {0};
    const uint64_t set = 1;
    fill(SMALL, 7);
    done("C = 1", nidskalm_chunk_optimization_graph_new(ONE, 1, 0, starts, 2, none, 0, &set, 0, none, 0, none, 1, SMALL));
    done("a set of its own", nidskalm_chunk_optimization_graph_init_module_assignment(ONE, SMALL, 0, &set, 1, none, 1));
    done("a module in the chunk", nidskalm_chunk_optimization_graph_add_module_to_chunk(ONE, SMALL, 0, 0, none, 1));
    said("it reaches itself", nidskalm_chunk_optimization_graph_is_reachable(ONE, SMALL, 0, 0));
    said("it is merged into itself", nidskalm_chunk_optimization_graph_would_create_circular_dependency(ONE, SMALL, 0, 0));
    passed("a pass over no candidate", nidskalm_chunk_optimization_graph_pass(ONE, SMALL, none, 0, none, 0, kinds, 0, numbers, 0));
}

/* All four chunks are initial, without a module or a set. */
static void whole(void) {
    const uint32_t starts[5] = {0}, none[] = {0};
    const uint64_t set = 4;
    fill(AREA, 7);
    done("initial = C", nidskalm_chunk_optimization_graph_new(FOUR, 4, 0, starts, 5, none, 0, &set, 0, none, 0, no_effects, 4, AREA));
    done("a set of its own", nidskalm_chunk_optimization_graph_init_module_assignment(FOUR, AREA, 0, &set, 1, no_effects, 4));
    done("the last key", nidskalm_chunk_optimization_graph_register_chunk_graph_index(FOUR, AREA, 3, 0));
    done("one past it", nidskalm_chunk_optimization_graph_register_chunk_graph_index(FOUR, AREA, 4, 0));
    area[NEEDS] = 1;
    done("an initial chunk that needs creation", nidskalm_chunk_optimization_graph_register_chunk_graph_index(FOUR, AREA, 3, 0));
}

/* Module 3 is listed with both chunks, and has side effects. */
static void loaded(void) {
    const uint32_t starts[] = {0, 2, 3}, modules[] = {3, 0, 3}, chunks[] = {0, 1};
    const uint64_t sets[] = {1, 2};
    fill(AREA, 7);
    done("a loading", nidskalm_chunk_optimization_graph_new(FOUR, 2, 0, starts, 3, modules, 3, sets, 2, chunks, 2, effects, 4, AREA));
    say("chunks made", area[MADE]);
    say("sets", area[SETS]);
    say("list entries", area[ENTRIES]);
    say("side effects of chunk 0", area[EFFECTS]);
    say("side effects of chunk 1", area[EFFECTS + 1]);
    say("key 1", area[KEYS + 1]);
    say("key 2", area[KEYS + 2]);
    say("chunk of module 0", area[MODULE_CHUNKS]);
    say("chunk of module 1", area[MODULE_CHUNKS + 1]);
    say("chunk of module 3, listed twice", area[MODULE_CHUNKS + 3]);
    say("a number of no field", area[NO_FIELD]);
    said("0 reaches 1", nidskalm_chunk_optimization_graph_is_reachable(FOUR, AREA, 0, 1));
}

/* A loading's lists, without side effects. */
typedef struct {
    uint64_t initial;
    const uint32_t *starts, *modules;
    size_t modules_length;
    const uint64_t *sets;
    size_t sets_length;
    const uint32_t *chunks;
    size_t chunks_length;
} load;

static void load_into(const char *name, load x, uint32_t *into, size_t length) {
    nidskalm_reply reply = nidskalm_chunk_optimization_graph_new(
        FOUR, x.initial, 0, x.starts, x.initial + 1, x.modules, x.modules_length, x.sets, x.sets_length, x.chunks, x.chunks_length,
        no_effects, 4, into, length);
    done(name, reply);
}

/* "a list entry is needed and L are in use"; row 17 comes before. */
static void list_entries(void) {
    const uint32_t more[] = {0, 4, 5}, all[] = {0, 4, 4}, modules[] = {0, 1, 2, 3, 0}, chunks[] = {0, 1};
    const uint64_t sets[] = {1, 2}, equal[] = {1, 1};
    load_into("one list entry too many", (load){2, more, modules, 5, sets, 2, chunks, 2}, AREA);
    load_into("and a set named twice", (load){2, more, modules, 5, equal, 2, chunks, 2}, AREA);
    say("list entries as before", area[ENTRIES]);
    load_into("all list entries", (load){2, all, modules, 4, sets, 2, chunks, 2}, AREA);
    say("list entries", area[ENTRIES]);
}

/* "one set named twice", row 16 comes before; "over C sets named at loading". */
static void named_sets(void) {
    const uint32_t starts[] = {0, 0, 0}, chunks[] = {0, 1, 1, 1, 1};
    const uint64_t equal[] = {3, 1, 3}, high[] = {16, 1, 16}, five[] = {0, 1, 2, 3, 4};
    load_into("a set named twice", (load){2, starts, starts, 0, equal, 3, chunks, 3}, AREA);
    load_into("a bit at E, in two equal sets", (load){2, starts, starts, 0, high, 3, chunks, 3}, AREA);
    load_into("C sets", (load){2, starts, starts, 0, five, 4, chunks, 4}, AREA);
    load_into("C + 1 sets", (load){2, starts, starts, 0, five, 5, chunks, 5}, AREA);
    load_into("a set without a chunk", (load){2, starts, starts, 0, five, 5, chunks, 4}, AREA);
}

/* "chunk not initial (at loading ..)", "module ≥ M" */
static void ranges(void) {
    const uint32_t starts[] = {0, 1, 1}, last[] = {3}, past[] = {4}, initial[] = {1}, other[] = {2};
    const uint64_t sets[] = {1};
    load_into("a set of a chunk that isn't initial", (load){2, starts, last, 1, sets, 1, other, 1}, AREA);
    load_into("a module that isn't there", (load){2, starts, past, 1, sets, 1, initial, 1}, AREA);
}

/* "initial chunks > C", and none; "area below C×C + 32×(C + M + L + 1)". */
static void initial_chunks(void) {
    uint32_t shorter[LENGTH(area) - 1];
    const uint32_t starts[6] = {0};
    const uint64_t set = 0;
    load_into("C + 1 initial chunks", (load){5, starts, starts, 0, &set, 0, starts, 0}, AREA);
    load_into("no initial chunk", (load){0, starts, starts, 0, &set, 0, starts, 0}, AREA);
    say("chunks made", area[MADE]);
    say("key 0", area[KEYS]);
    say("a number of no field", area[NO_FIELD]);
    fill(shorter, LENGTH(shorter), 7);
    load_into("an area one number short", (load){0, starts, starts, 0, &set, 0, starts, 0}, shorter, LENGTH(shorter));
    say("its first number", shorter[0]);
}

int main(void) {
    merges();
    passes();
    lists();
    smallest();
    whole();
    loaded();
    list_entries();
    named_sets();
    ranges();
    initial_chunks();
    return 0;
}
