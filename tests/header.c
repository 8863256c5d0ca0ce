/* Calls the library through include/nidskalm.h: P1 of document 01, and a warning. */
#include <stdio.h>

#include "nidskalm.h"

#define LOAD 3, 2, 2, 8, starts, 4, dependencies, 2, hosts, 2, fixed, 3

static const uint32_t starts[] = {0, 0, 1, 2}, dependencies[] = {0, 0}, hosts[] = {1, 2}, fixed[] = {0, 0, 1};
static uint32_t area[NIDSKALM_MOVE_AREA(3, 2, 2, 8)];

static int failed;

static void expect(const char *what, uint64_t refusal, uint64_t value, uint64_t row, uint64_t expected) {
    if (refusal != row || value != expected) {
        printf("header: %s answers %d, %d\n", what, (int)refusal, (int)value);
        failed = 1;
    }
}

/* Whether a move is accepted, the edges that appeared and vanished, and the chunks reached, as four digits. */
#define COUNTED(moved) ((moved).accepted * 1000 + (moved).appeared * 100 + (moved).vanished * 10 + (moved).reached)

static void moves(void) {
    const uint64_t sets[] = {3, 1, 2};
    const size_t length = sizeof area / sizeof *area;
    nidskalm_reply reply = nidskalm_reduced_chunk_graph_new(LOAD, sets, 3, area, length);
    expect("loading", reply.refusal, reply.value, 0, 0);
    nidskalm_move_reply moved = nidskalm_reduced_chunk_graph_try_move(LOAD, area, length, 0, &sets[1], 1);
    expect("a move", moved.refusal, COUNTED(moved), 0, 1120);
    moved = nidskalm_reduced_chunk_graph_try_move(LOAD, area, length, 1, &sets[0], 1);
    expect("a move that closes a cycle", moved.refusal, COUNTED(moved), 0, 0);
    moved = nidskalm_reduced_chunk_graph_try_move(LOAD, area, length, 3, &sets[0], 1);
    expect("a move of no atom", moved.refusal, COUNTED(moved), 10, 0);
    moved = nidskalm_reduced_chunk_graph_try_move(LOAD, area, length, 2, &sets[0], 1);
    expect("a move of a fixed atom", moved.refusal, COUNTED(moved), 24, 0);
    nidskalm_set_reply set = nidskalm_reduced_chunk_graph_atom_set(LOAD, area, length, 0);
    expect("an atom's set", set.refusal, set.set0, 0, 1);
    reply = nidskalm_reduced_chunk_graph_atom_count(LOAD, area, length, &sets[1], 1);
    expect("a count", reply.refusal, reply.value, 0, 2);
    reply = nidskalm_reduced_chunk_graph_multiplicity(LOAD, area, length, &sets[2], 1, &sets[1], 1);
    expect("a multiplicity", reply.refusal, reply.value, 0, 1);
    reply = nidskalm_reduced_chunk_graph_edge_count(LOAD, area, length);
    expect("the number of edges", reply.refusal, reply.value, 0, 1);
    reply = nidskalm_reduced_chunk_graph_chunk_count(LOAD, area, length);
    expect("the number of chunks", reply.refusal, reply.value, 0, 2);
    nidskalm_freedom_reply freedom = nidskalm_reduced_chunk_graph_freedom(LOAD, area, length);
    expect("freedom", freedom.refusal, freedom.accepted * 100 + freedom.rejected * 10 + freedom.fixed, 0, 111);
    nidskalm_edge_reply edge = nidskalm_reduced_chunk_graph_edge_at(LOAD, area, length, 0);
    expect("an edge", edge.refusal, edge.from0 * 100 + edge.to0 * 10 + edge.multiplicity, 0, 211);
    edge = nidskalm_reduced_chunk_graph_edge_at(LOAD, area, length, 1);
    expect("past the last edge", edge.refusal, edge.found, 0, 0);
    reply = nidskalm_reduced_chunk_graph_rank(LOAD, area, length, area, length);
    expect("a ranking with itself", reply.refusal, reply.value, 0, 1);
    reply = nidskalm_reduced_chunk_graph_rank(LOAD, area, length, area, length - 1);
    expect("a ranking with a short area", reply.refusal, reply.value, 3, 0);
    reply = nidskalm_reduced_chunk_graph_has_cycle(LOAD, area, length);
    expect("whether there is a cycle", reply.refusal, reply.value, 0, 0);
    reply = nidskalm_reduced_chunk_graph_has_cycle(LOAD, area, length - 1);
    expect("the same of a short area", reply.refusal, reply.value, 3, 0);
    uint32_t chunks[3] = {9, 9, 9};
    reply = nidskalm_reduced_chunk_graph_start_order(LOAD, area, length, 1, chunks, 3);
    expect("the number of chunks to fetch", reply.refusal, reply.value, 0, 2);
    expect("the chunks to fetch", 0, 100 * chunks[0] + 10 * chunks[1] + chunks[2], 0, 29);
    reply = nidskalm_reduced_chunk_graph_start_order(LOAD, area, length, 2, chunks, 2);
    expect("the chunks of no bit", reply.refusal, reply.value, 26, 0);
    reply = nidskalm_reduced_chunk_graph_start_order(LOAD, area, length, 1, chunks, 2);
    expect("a short list of chunks", reply.refusal, reply.value, 27, 0);
}

#define SIZE 4, 3, 4, 2, merge_area, sizeof merge_area / sizeof *merge_area

static void merges(void) {
    static uint32_t merge_area[NIDSKALM_MERGE_AREA(4, 3, 4)];
    const uint32_t module_starts[] = {0, 1, 2}, modules[] = {0, 1}, effects[] = {0, 0, 0};
    const uint32_t from[] = {0, 1, 1, 1}, to[] = {2}, proposal[] = {0}, bar[] = {0};
    const uint64_t set = 3;
    uint32_t kind[1] = {9}, number[1] = {9};
    nidskalm_reply reply = nidskalm_chunk_optimization_graph_new(
        4, 3, 4, 2, 2, 0, module_starts, 3, modules, 2, &set, 0, modules, 0, effects, 3,
        merge_area, sizeof merge_area / sizeof *merge_area);
    expect("loading chunks", reply.refusal, reply.value, 0, 0);
    reply = nidskalm_chunk_optimization_graph_init_module_assignment(SIZE, 2, &set, 1, effects, 3);
    expect("assigning a module", reply.refusal, reply.value, 0, 0);
    reply = nidskalm_chunk_optimization_graph_add_module_to_chunk(SIZE, 2, 3, effects, 3);
    expect("adding to no chunk", reply.refusal, reply.value, 16, 0);
    reply = nidskalm_chunk_optimization_graph_calc_chunk_dependencies(SIZE, from, 4, to, 1);
    expect("dependencies", reply.refusal, reply.value, 0, 0);
    reply = nidskalm_chunk_optimization_graph_is_reachable(SIZE, 0, 2);
    expect("a walk", reply.refusal, reply.value, 0, 1);
    reply = nidskalm_chunk_optimization_graph_would_create_circular_dependency(SIZE, 0, 2);
    expect("a warning", reply.refusal, reply.value, 0, 1);
    reply = nidskalm_chunk_optimization_graph_pass(SIZE, proposal, 1, bar, 1, kind, 1, number, 1);
    expect("the pass", reply.refusal, reply.value * 100 + kind[0] * 10 + number[0], 0, 100);
    reply = nidskalm_chunk_optimization_graph_register_chunk_graph_index(SIZE, 3, 2);
    expect("registering", reply.refusal, reply.value, 0, 0);
    reply = nidskalm_chunk_optimization_graph_to_temp_idx(SIZE, 3);
    expect("a registered chunk", reply.refusal, reply.value, 0, 2);
    reply = nidskalm_chunk_optimization_graph_merge_chunk_dependencies(SIZE, 1, 1);
    expect("merging with itself", reply.refusal, reply.value, 20, 0);
}

/* Two user-defined entries of three modules; the module of entry 1 imports that of entry 0, and module 2 is wanted by both. */
static void targets(void) {
    const uint32_t kinds[] = {1, 1}, entries[] = {0, 1}, module_starts[] = {0, 1, 2}, importer_starts[] = {0, 1, 1, 1};
    const uint32_t importers[] = {1}, none[] = {0, 0, 0, 0}, candidate[] = {2};
    nidskalm_reply reply = nidskalm_chunk_optimization_graph_merge_target(
        2, 3, kinds, 2, entries, 2, module_starts, 3, entries, 2, importer_starts, 4, importers, 1, none, 4, none, 0,
        none, 3, none, 0, none, 2, none, 3, candidate, 1, 3, 0, 0, 0);
    expect("a merge target", reply.refusal, reply.value, 0, 0);
    reply = nidskalm_chunk_optimization_graph_merge_target(
        2, 3, kinds, 2, entries, 2, module_starts, 3, entries, 2, importer_starts, 4, importers, 1, none, 4, none, 0,
        none, 3, none, 0, none, 2, none, 3, candidate, 1, 0, 0, 0, 0);
    expect("no merge target", reply.refusal, reply.value, 0, NIDSKALM_NONE);
    reply = nidskalm_chunk_optimization_graph_merge_target(
        2, 3, kinds, 1, entries, 2, module_starts, 3, entries, 2, importer_starts, 4, importers, 1, none, 4, none, 0,
        none, 3, none, 0, none, 2, none, 3, candidate, 1, 3, 0, 0, 0);
    expect("a list too short", reply.refusal, reply.value, 23, 0);
    const uint32_t classes[] = {0, 1, 0, 1, 1, 1, 1, 1};
    reply = nidskalm_chunk_optimization_graph_merge_target_by_classes(
        2, 3, kinds, 2, entries, 2, module_starts, 3, entries, 2, importer_starts, 4, importers, 1, none, 4, none, 0,
        none, 3, none, 0, none, 2, none, 3, candidate, 1, 3, 0, 0, 0, classes, 8);
    expect("a merge target by classes", reply.refusal, reply.value, 0, 0);
    reply = nidskalm_chunk_optimization_graph_merge_target_by_classes(
        2, 3, kinds, 2, entries, 2, module_starts, 3, entries, 2, importer_starts, 4, importers, 1, none, 4, none, 0,
        none, 3, none, 0, none, 2, none, 3, candidate, 1, 3, 0, 0, 0, classes, 7);
    expect("seven classes", reply.refusal, reply.value, 25, 0);
}

int main(void) {
    moves();
    merges();
    targets();
    puts(failed ? "header: FAILED" : "header: the C interface answers as it should");
    return failed;
}
