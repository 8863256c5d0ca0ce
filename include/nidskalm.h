/* nidskalm.h: trial moves and merge warnings over script chunks.
 *
 * Two state machines and a choice. The move graph (nidskalm_reduced_chunk_graph_*) holds atoms, each in one set of entry bits; it tries to
 * move an atom to another set and accepts exactly when the chunk graph then has no cycle. The merge graph
 * (nidskalm_chunk_optimization_graph_*) holds chunks, their modules and their dependencies; it warns of a merge exactly when the
 * source depends directly on the target, or the two fused lie on a cycle with another chunk, merges, and runs the pass
 * that decides about every chunk needing creation. Chunks merged away are not followed, unless they stand for their
 * target (a mode chosen by nidskalm_chunk_optimization_graph_new), where a direct dependency alone doesn't warn. The choice of a
 * merge target reads lent lists alone.
 *
 * The library is one archive, libnidskalm.a, which needs nothing but memcpy and memset:
 *
 *     cc -Iinclude examples/c/plan.c include/nidskalm_refusal.c -Ltarget/staticlib -lnidskalm -o plan
 *
 * or, from the archive that tools/pack.sh makes, with the flags of `pkg-config --cflags --libs nidskalm`. examples/c/plan.c
 * is a worked example. A call runs on the caller's stack: give a thread at least NIDSKALM_STACK bytes and its own needs.
 *
 * All state lies in a work area of 32-bit numbers that the caller lends. Between calls nobody else may write there.
 * Every list is a pointer and the count of its items. A pointer must be valid for that many items (any pointer for 0);
 * an area that is written and lists of answers must not overlap other lists. Nothing else is asked of the caller: whatever the
 * numbers, a call ends and answers, or is refused. A refused call writes nothing.
 *
 * A reply's `refusal` is 0, or the number of the first fitting row; where it isn't 0, the other fields are 0. Rows are
 * checked as listed, but merge calls check 14, 15; at loading then 16, 17, 19; later 21, the pass's lists by 15, then 16,
 * 20, 28, 18, 19. The rows:
 *    1  A > 512, D > 8,192, E > 256, N < A + 1 or N > 1,024
 *    2  a list of the load hasn't the length called for
 *    3  the area is too short
 *    4  starts don't begin at 0, fall, or don't end at D
 *    5  a dependency is no atom, or the atom itself
 *    6  a host is neither NIDSKALM_NONE nor an atom
 *    7  an entry set has a bit at or above E (loading)
 *    8  two atoms have equal sets (loading)
 *    9  the move area is inconsistent, or keeps another mark of an atom than is lent (later calls)
 *   10  no such atom
 *   11  a set isn't w numbers, or has a bit at or above E
 *   12  the target is the atom's present set
 *   14  C = 0 or > 1,024, M > 4,096, L > 8,192, E > 256, more than C initial chunks, more than C sets named at loading,
 *       more than 8,192 module dependencies
 *   15  a merge graph list's length is wrong, starts are faulty as in 4, or the area is too short
 *   16  no such module or key, a set as in 11, or a chunk that isn't initial (loading, proposals) or isn't made yet
 *       (elsewhere)
 *   17  one set named twice (loading)
 *   18  no room for a new chunk; or initial + created so far + candidates > C (pass)
 *   19  no room for a list entry
 *   20  source is target
 *   21  the merge area is inconsistent, or its merges run in a ring (later calls)
 *   23  over 1,024 kinds or 4,096 modules, a list of the wrong length, faulty starts, or a kind or index out of range
 *       (choice of a merge target)
 *   24  the atom is fixed: comes right after 10, whatever the set and the graph
 *   25  there aren't eight classes, one is neither 0 nor 1, or an odd one isn't 1; after 23
 *   26  the entry bit is E or more, or the graph has a cycle anywhere (start order)
 *   27  the start order's list holds fewer than A numbers; after 26
 *   28  source, target or a proposed chunk has been merged away, where merged chunks stand for their target; right after
 *       20
 *
 * A set of E bits is w = E / 64, rounded up, numbers of 64 bits, lowest first, bit 0 lowest.
 */
#ifndef NIDSKALM_H
#define NIDSKALM_H

#include <stddef.h>
#include <stdint.h>

#ifdef __cplusplus
extern "C" {
#endif

/* The library's version. */
#define NIDSKALM_VERSION_MAJOR 0
#define NIDSKALM_VERSION_MINOR 2
#define NIDSKALM_VERSION_PATCH 0

/* Bytes of stack that a call needs at most: what the calls at the limits were measured to use, rounded up. On a thread with
 * less, as one of 256 KiB, a call on a large load crashes. */
#define NIDSKALM_STACK 393216

/* No host, no proposal, no chunk. */
#define NIDSKALM_NONE UINT32_C(4294967295)

/* Numbers of 32 bits that an area must have at least. Sizes within the limits of row 1 or 14 don't overflow. */
#define NIDSKALM_MOVE_AREA(a, d, e, n) \
    ((uint64_t)(n) * (uint64_t)(n) + \
     UINT64_C(24) * ((uint64_t)(a) + (uint64_t)(n) + (uint64_t)(d) + (uint64_t)(e) + UINT64_C(1)))
#define NIDSKALM_MERGE_AREA(c, m, l) \
    ((uint64_t)(c) * (uint64_t)(c) + \
     UINT64_C(32) * ((uint64_t)(c) + (uint64_t)(m) + (uint64_t)(l) + UINT64_C(1)))

/* A refusal's row in words; "not refused" for 0. It is not in the library: compile nidskalm_refusal.c, beside this header,
 * with your program. The string is static. */
const char *nidskalm_refusal(uint64_t row);

typedef struct {
    uint64_t refusal, value;
} nidskalm_reply;

/* accepted is 1 or 0. Where it is 1: how many distinct edges the graph has after the move that it hadn't before
 * (appeared), and how many it had that it hasn't any more (vanished); an edge in both counts as neither; and how
 * many other chunks the atom's chunk reaches after the move (reached). Else zeros. */
typedef struct {
    uint64_t refusal, accepted, appeared, vanished, reached;
} nidskalm_move_reply;

/* A set by value; unused numbers are 0. */
typedef struct {
    uint64_t refusal, set0, set1, set2, set3;
} nidskalm_set_reply;

/* found is 1, or 0 past the last edge. */
typedef struct {
    uint64_t refusal, found, from0, from1, from2, from3, to0, to1, to2, to3, multiplicity;
} nidskalm_edge_reply;

/* For every atom and every occupied set other than its own, how many moves would be accepted, rejected, or refused as the
 * atom is fixed. They add up to atoms * (occupied sets - 1), or 0 without atoms. */
typedef struct {
    uint64_t refusal, accepted, rejected, fixed;
} nidskalm_freedom_reply;

/* ---- The move graph ----
 *
 * Every call is lent the load: A atoms, D dependencies, E entry bits, room for N sets; `starts` (A + 1) and
 * `dependencies` (D): atom i depends on dependencies[starts[i]] up to dependencies[starts[i + 1] - 1]; `hosts` (E): the
 * atom that hosts an entry bit, or NIDSKALM_NONE; `fixed` (A): a mark for each atom, nonzero where it is fixed: it
 * stays in its entry set. The area has at least NIDSKALM_MOVE_AREA(a, d, e, n) numbers. N is at least A + 1: when N sets
 * are registered and another is needed, the smallest empty one, as a number, gives up its place.
 *
 * Whole builds of some packages have more than 512 atoms or 256 entries, and are refused by row 1. A caller then fuses
 * atoms that are to lie in one chunk anyway, or loads one layer at a time (README.md, "Over the limits").
 */

/* Loads: `sets` holds the A entry sets, w numbers each, no two equal. Value 0 acyclic, 1 cyclic. */
nidskalm_reply nidskalm_reduced_chunk_graph_new(
    uint64_t a, uint64_t d, uint64_t e, uint64_t n,
    const uint32_t *starts, size_t starts_length,
    const uint32_t *dependencies, size_t dependencies_length,
    const uint32_t *hosts, size_t hosts_length,
    const uint32_t *fixed, size_t fixed_length,
    const uint64_t *sets, size_t sets_length,
    uint32_t *area, size_t area_length);

/* Tries to move an atom to the set `bits`: accepted, or rejected, and then the atom stays where it was. */
nidskalm_move_reply nidskalm_reduced_chunk_graph_try_move(
    uint64_t a, uint64_t d, uint64_t e, uint64_t n,
    const uint32_t *starts, size_t starts_length,
    const uint32_t *dependencies, size_t dependencies_length,
    const uint32_t *hosts, size_t hosts_length,
    const uint32_t *fixed, size_t fixed_length,
    uint32_t *area, size_t area_length,
    uint32_t atom, const uint64_t *bits, size_t bits_length);

/* The set that an atom is in. */
nidskalm_set_reply nidskalm_reduced_chunk_graph_atom_set(
    uint64_t a, uint64_t d, uint64_t e, uint64_t n,
    const uint32_t *starts, size_t starts_length,
    const uint32_t *dependencies, size_t dependencies_length,
    const uint32_t *hosts, size_t hosts_length,
    const uint32_t *fixed, size_t fixed_length,
    const uint32_t *area, size_t area_length,
    uint32_t atom);

/* The number of atoms in a set, 0 where it was never seen. */
nidskalm_reply nidskalm_reduced_chunk_graph_atom_count(
    uint64_t a, uint64_t d, uint64_t e, uint64_t n,
    const uint32_t *starts, size_t starts_length,
    const uint32_t *dependencies, size_t dependencies_length,
    const uint32_t *hosts, size_t hosts_length,
    const uint32_t *fixed, size_t fixed_length,
    const uint32_t *area, size_t area_length,
    const uint64_t *bits, size_t bits_length);

/* How many dependencies and facade edges lead from one set's chunk to another's; 0 where there is none. */
nidskalm_reply nidskalm_reduced_chunk_graph_multiplicity(
    uint64_t a, uint64_t d, uint64_t e, uint64_t n,
    const uint32_t *starts, size_t starts_length,
    const uint32_t *dependencies, size_t dependencies_length,
    const uint32_t *hosts, size_t hosts_length,
    const uint32_t *fixed, size_t fixed_length,
    const uint32_t *area, size_t area_length,
    const uint64_t *from, size_t from_length,
    const uint64_t *to, size_t to_length);

/* The number of distinct edges. */
nidskalm_reply nidskalm_reduced_chunk_graph_edge_count(
    uint64_t a, uint64_t d, uint64_t e, uint64_t n,
    const uint32_t *starts, size_t starts_length,
    const uint32_t *dependencies, size_t dependencies_length,
    const uint32_t *hosts, size_t hosts_length,
    const uint32_t *fixed, size_t fixed_length,
    const uint32_t *area, size_t area_length);

/* The number of chunks: sets that have an atom. */
nidskalm_reply nidskalm_reduced_chunk_graph_chunk_count(
    uint64_t a, uint64_t d, uint64_t e, uint64_t n,
    const uint32_t *starts, size_t starts_length,
    const uint32_t *dependencies, size_t dependencies_length,
    const uint32_t *hosts, size_t hosts_length,
    const uint32_t *fixed, size_t fixed_length,
    const uint32_t *area, size_t area_length);

/* The k-th edge, from 0, by rising source set, then target set. */
nidskalm_edge_reply nidskalm_reduced_chunk_graph_edge_at(
    uint64_t a, uint64_t d, uint64_t e, uint64_t n,
    const uint32_t *starts, size_t starts_length,
    const uint32_t *dependencies, size_t dependencies_length,
    const uint32_t *hosts, size_t hosts_length,
    const uint32_t *fixed, size_t fixed_length,
    const uint32_t *area, size_t area_length,
    uint64_t k);

/* Ranks the placements of two areas of one load and one n: fewer chunks first, then fewer distinct edges, then the atoms'
 * sets compared one by one as numbers from atom 0, the smaller first. Value 0: the first comes before the second, 1 equal
 * (every atom has the same set in both), 2 after. The rows of the first area come before those of the second. Both areas
 * are only read and may be one. */
nidskalm_reply nidskalm_reduced_chunk_graph_rank(
    uint64_t a, uint64_t d, uint64_t e, uint64_t n,
    const uint32_t *starts, size_t starts_length,
    const uint32_t *dependencies, size_t dependencies_length,
    const uint32_t *hosts, size_t hosts_length,
    const uint32_t *fixed, size_t fixed_length,
    const uint32_t *first, size_t first_length,
    const uint32_t *second, size_t second_length);

/* Whether the chunk graph of the placement has a cycle, found by a search of its own in the textbook's manner; no flag of
 * the area is read for it. Value 0 acyclic, 1 cyclic. */
nidskalm_reply nidskalm_reduced_chunk_graph_has_cycle(
    uint64_t a, uint64_t d, uint64_t e, uint64_t n,
    const uint32_t *starts, size_t starts_length,
    const uint32_t *dependencies, size_t dependencies_length,
    const uint32_t *hosts, size_t hosts_length,
    const uint32_t *fixed, size_t fixed_length,
    const uint32_t *area, size_t area_length);

/* The chunks to fetch for an entry bit, those whose set holds it and all they reach: each once, named by its lowest
 * atom, at every place the smallest set whose edges all lead to chunks listed before. `chunks` has at least A numbers;
 * the value says how many of them are written. The area is only read. */
nidskalm_reply nidskalm_reduced_chunk_graph_start_order(
    uint64_t a, uint64_t d, uint64_t e, uint64_t n,
    const uint32_t *starts, size_t starts_length,
    const uint32_t *dependencies, size_t dependencies_length,
    const uint32_t *hosts, size_t hosts_length,
    const uint32_t *fixed, size_t fixed_length,
    const uint32_t *area, size_t area_length,
    uint64_t bit, uint32_t *chunks, size_t chunks_length);

/* How free the plan is: each atom tried, without a move, with each occupied set other than its own. */
nidskalm_freedom_reply nidskalm_reduced_chunk_graph_freedom(
    uint64_t a, uint64_t d, uint64_t e, uint64_t n,
    const uint32_t *starts, size_t starts_length,
    const uint32_t *dependencies, size_t dependencies_length,
    const uint32_t *hosts, size_t hosts_length,
    const uint32_t *fixed, size_t fixed_length,
    const uint32_t *area, size_t area_length);

/* ---- The merge graph ----
 *
 * Every call is lent its sizes: room for C chunks, M modules, room for L list entries, E entry bits. The area has at
 * least NIDSKALM_MERGE_AREA(c, m, l) numbers; chunk x depends on chunk y where area[x * c + y] isn't 0. `side_effects`
 * has one number per module, nonzero means yes. A call without an answer gives value 0.
 */

/* Loads `initial` chunks: `module_starts` (initial + 1) and `modules` list their modules; set i of `sets` (w numbers
 * each) is the one of chunk set_chunks[i]. Where `mode` isn't 0, merged chunks stand for their target: a dependency on a
 * merged chunk, or of one, counts as on or of the chunk at the end of its merges. Choose it where the script writer
 * resolves an import of a merged chunk to its target: the warning then sees through what was merged away. With mode 0
 * it doesn't, as in the original. The smallest loop that this lets through: 0 depends on 1, and 3 on 2; merge 2 into 0,
 * then 3 into 1. Neither is warned of; then 0 depends on 1, and 1 on 2, which is 0. */
nidskalm_reply nidskalm_chunk_optimization_graph_new(
    uint64_t c, uint64_t m, uint64_t l, uint64_t e,
    uint64_t initial, uint32_t mode,
    const uint32_t *module_starts, size_t module_starts_length,
    const uint32_t *modules, size_t modules_length,
    const uint64_t *sets, size_t sets_length,
    const uint32_t *set_chunks, size_t set_chunks_length,
    const uint32_t *side_effects, size_t side_effects_length,
    uint32_t *area, size_t area_length);

/* Appends a module to the chunk of the set `bits`, or to a new chunk of that set, which then needs creation. */
nidskalm_reply nidskalm_chunk_optimization_graph_init_module_assignment(
    uint64_t c, uint64_t m, uint64_t l, uint64_t e,
    uint32_t *area, size_t area_length,
    uint32_t module, const uint64_t *bits, size_t bits_length,
    const uint32_t *side_effects, size_t side_effects_length);

/* Appends a module to a chunk. */
nidskalm_reply nidskalm_chunk_optimization_graph_add_module_to_chunk(
    uint64_t c, uint64_t m, uint64_t l, uint64_t e,
    uint32_t *area, size_t area_length,
    uint32_t module, uint32_t chunk,
    const uint32_t *side_effects, size_t side_effects_length);

/* Registers a chunk under a key below C, in the place of an older one. */
nidskalm_reply nidskalm_chunk_optimization_graph_register_chunk_graph_index(
    uint64_t c, uint64_t m, uint64_t l, uint64_t e,
    uint32_t *area, size_t area_length,
    uint32_t key, uint32_t chunk);

/* The chunk registered under a key, or NIDSKALM_NONE. */
nidskalm_reply nidskalm_chunk_optimization_graph_to_temp_idx(
    uint64_t c, uint64_t m, uint64_t l, uint64_t e,
    const uint32_t *area, size_t area_length,
    uint32_t key);

/* Adds to each chunk's dependencies the other chunks that its modules' dependencies are in: module i depends on
 * dependencies[starts[i]] up to dependencies[starts[i + 1] - 1]. `starts` has M + 1 numbers. */
nidskalm_reply nidskalm_chunk_optimization_graph_calc_chunk_dependencies(
    uint64_t c, uint64_t m, uint64_t l, uint64_t e,
    uint32_t *area, size_t area_length,
    const uint32_t *starts, size_t starts_length,
    const uint32_t *dependencies, size_t dependencies_length);

/* The warning before source is merged into target. Value 1 exactly when source depends directly on target, or the two
 * fused lie on a cycle with another chunk. It follows the dependencies that chunks have now. A merge takes those of its
 * source away, so no cycle through a chunk that was merged away is seen. Where merged chunks stand for their target:
 * value 1 exactly when the two fused lie on a cycle with another chunk, by the dependencies that count then. */
nidskalm_reply nidskalm_chunk_optimization_graph_would_create_circular_dependency(
    uint64_t c, uint64_t m, uint64_t l, uint64_t e,
    const uint32_t *area, size_t area_length,
    uint32_t source, uint32_t target);

/* Value 1 where `from` reaches `to` in one step or more. Where merged chunks stand for their target, each of the two
 * stands for the end of its merges, and the dependencies that count are followed. */
nidskalm_reply nidskalm_chunk_optimization_graph_is_reachable(
    uint64_t c, uint64_t m, uint64_t l, uint64_t e,
    const uint32_t *area, size_t area_length,
    uint32_t from, uint32_t to);

/* Gives target the dependencies of source, which loses them, whatever the warning would say: ask it first. Which mode, at
 * loading: where the script writer resolves an import of a merged chunk to its target, the nonzero one, in which the merge
 * is recorded and later warnings see through it. With mode 0 they don't, and two merges that nobody was warned of can leave
 * chunks that import each other: 0 on 1, 3 on 2; merge 2 into 0, then 3 into 1. */
nidskalm_reply nidskalm_chunk_optimization_graph_merge_chunk_dependencies(
    uint64_t c, uint64_t m, uint64_t l, uint64_t e,
    uint32_t *area, size_t area_length,
    uint32_t target, uint32_t source);

/* The pass over the chunks needing creation, in rising order. All four lists have one item for each: a proposed initial
 * chunk or NIDSKALM_NONE, a bar (nonzero bars merging), and the answers: kind 0 merged into chunk `number`, kind 1
 * created and registered under `number`. A chunk is merged into the proposed one if there is no bar and no warning, and
 * else created. Value: how many chunks needed creation. Which mode, at loading: where imports of a merged chunk are
 * resolved to its target, the nonzero one. There a chunk that was merged away is no candidate, and warnings see through
 * it. With mode 0 a pass can leave chunks that import each other although no merge was warned of (the loop at
 * nidskalm_chunk_optimization_graph_new). */
nidskalm_reply nidskalm_chunk_optimization_graph_pass(
    uint64_t c, uint64_t m, uint64_t l, uint64_t e,
    uint32_t *area, size_t area_length,
    const uint32_t *proposals, size_t proposals_length,
    const uint32_t *bars, size_t bars_length,
    uint32_t *kinds, size_t kinds_length,
    uint32_t *numbers, size_t numbers_length);

/* ---- The choice of a merge target ----
 *
 * k chunks and m modules; no area. A kind is 8 for a common chunk, whose entry module isn't read, else 1 (user-defined
 * entry) + 2 (imported dynamically) + 4 (emitted). List i of a list of lists is items[starts[i]] up to
 * items[starts[i + 1] - 1]. All lists are only read. */

/* The chunk that the candidate of the given set and modules may be merged into, or NIDSKALM_NONE. Bit b of the set names
 * chunk b; bits from k on are passed over. The target is the first named entry whose module all other named entries
 * import: of the user-defined and emitted ones, or of the others where none of these is named. There is none where a
 * common chunk is named, or where a guard bars it: a user entry must reach every named dynamic entry; where it has side
 * effects, no other chunk may reach one; and whoever imports a module of the candidate dynamically must be in its chunk,
 * or be a module of the candidate that nobody imports dynamically. A dynamic entry is barred where the candidate holds the
 * entry module of another named dynamic entry that has observable exports. No other entry is tried then. Refusal 23 only.
 * Where the kinds are those of the initial chunks, the pass can take the answer as proposal. */
nidskalm_reply nidskalm_chunk_optimization_graph_merge_target(
    uint64_t k, uint64_t m,
    const uint32_t *kinds, size_t kinds_length,                       /* k */
    const uint32_t *entry_modules, size_t entry_modules_length,       /* k */
    const uint32_t *module_starts, size_t module_starts_length,       /* k + 1: the modules of each chunk */
    const uint32_t *modules, size_t modules_length,
    const uint32_t *importer_starts, size_t importer_starts_length,   /* m + 1: who imports each module statically */
    const uint32_t *importers, size_t importers_length,
    const uint32_t *dynamic_importer_starts, size_t dynamic_importer_starts_length,   /* m + 1: dynamically */
    const uint32_t *dynamic_importers, size_t dynamic_importers_length,
    const uint32_t *reached_starts, size_t reached_starts_length,     /* k + 1: the dynamic entries that each chunk reaches */
    const uint32_t *reached, size_t reached_length,
    const uint32_t *side_effects, size_t side_effects_length,         /* k: of each chunk, nonzero means yes */
    const uint32_t *observable_exports, size_t observable_exports_length,   /* m: of each module, nonzero means yes */
    const uint32_t *candidate, size_t candidate_length,               /* the candidate's modules, any number */
    uint64_t set0, uint64_t set1, uint64_t set2, uint64_t set3);

/* The same by the bank's own classes of the entry kinds 0 to 7, in the place of 0 1 0 1 1 1 1 1: 0 dynamic, 1 user; odd kinds are user
 * entries. Refusals 23, then 25. */
nidskalm_reply nidskalm_chunk_optimization_graph_merge_target_by_classes(
    uint64_t k, uint64_t m,
    const uint32_t *kinds, size_t kinds_length,                       /* k */
    const uint32_t *entry_modules, size_t entry_modules_length,       /* k */
    const uint32_t *module_starts, size_t module_starts_length,       /* k + 1: the modules of each chunk */
    const uint32_t *modules, size_t modules_length,
    const uint32_t *importer_starts, size_t importer_starts_length,   /* m + 1: who imports each module statically */
    const uint32_t *importers, size_t importers_length,
    const uint32_t *dynamic_importer_starts, size_t dynamic_importer_starts_length,   /* m + 1: dynamically */
    const uint32_t *dynamic_importers, size_t dynamic_importers_length,
    const uint32_t *reached_starts, size_t reached_starts_length,     /* k + 1: the dynamic entries that each chunk reaches */
    const uint32_t *reached, size_t reached_length,
    const uint32_t *side_effects, size_t side_effects_length,         /* k: of each chunk, nonzero means yes */
    const uint32_t *observable_exports, size_t observable_exports_length,   /* m: of each module, nonzero means yes */
    const uint32_t *candidate, size_t candidate_length,               /* the candidate's modules, any number */
    uint64_t set0, uint64_t set1, uint64_t set2, uint64_t set3,
    const uint32_t *classes, size_t classes_length);                  /* 8 */

#ifdef __cplusplus
}
#endif

#endif
