/* Tiwelzam: the strict analysis of open hypergraphs, proved. Functions of the archive libexports.a.
 *
 * A drawing has n labelled nodes and m labelled operations; each operation has a list of sources and a list of
 * targets. It is handed over as six lists of 32-bit numbers:
 *
 *     w   n node labels           sl  m source lengths    sv  S source values
 *     x   m operation labels      tl  m target lengths    tv  T target values
 *
 * The values of all operations stand one behind the other, cut by the lengths. Maps from a first drawing into a
 * second are a list fw (for each node of the first the node it goes to) with its declared target wd (how many places
 * there are), and fx and xd for the operations. A boundary is the list of nodes where values go in, and the list of
 * those where they come out.
 *
 * REFUSALS. Any numbers may be given. Each function returns 0, or why it refuses:
 *
 *      1  a count or declared target is over its limit: 4,096 for nodes, operations, map entries, declared targets,
 *         boundary entries and input values, 16,384 for source values and for target values
 *      2  a length list has not m entries, or they do not sum to the count of its values
 *      3  a source or target value is not below n
 *      4  a map entry is not below its declared target
 *   5, 6  fw (fx) has another count than the first drawing, or wd (xd) is not the second drawing's
 *   7, 8  fw (fx) does not carry the labels
 *  9, 10  the maps do not carry some operation's sources (targets), in order, to those of its image
 *     11  an output or the workspace is shorter than needed
 *     12  a boundary entry is not below n
 *     13  evaluation: some operation lies on a cycle or behind one
 *     14  evaluation: an unknown label, or its operation has the wrong number of inputs or outputs
 *
 * A call gives the first that applies, in this order: 1 over everything lent; 2, then 3, of the first drawing, then of
 * the second; 4; 12; 11; 5 to 10; 13; 14. Each function's comment names those that it can give.
 *
 * MEMORY. A list is a pointer and a count. Nothing is allocated, nothing is kept, and only what is lent without
 * `const` is written.
 *
 *   - Outputs. The comment says how many words are written. An output that is longer keeps its tail; a refusal keeps
 *     all of it, and keeps the word that an answer would go into.
 *   - Workspace. W = 8(n + m) + 2(S + T) + 8 words (tiwelzam_workspace), of the second drawing where there are two.
 *     It may hold anything. Refused with 1, 2, 3, 4, 11 or 12, a call leaves it as it is; every other call leaves
 *     its first W words zero and the rest as it is.
 *
 * WHAT THE CALLER OWES. All that is proved is proved for pointers that are good:
 *
 *   - A pointer is aligned for uint32_t, has as many words behind it as its count says, and is not NULL. Where the
 *     count is 0 nothing behind it is looked at, so that any word's address will do.
 *   - What may be written overlaps nothing else that is lent to the same call. Lists that are only read may overlap.
 *   - While a call runs, no other thread writes what is lent, or reads what may be written. Apart from that, calls may
 *     run at the same time: they share nothing.
 */
#ifndef TIWELZAM_H
#define TIWELZAM_H

#include <stddef.h>
#include <stdint.h>

#ifdef __cplusplus
extern "C" {
#endif

/* A list that is read, and room that may be written, as two parameters each. */
#define TIWELZAM_LIST(name) const uint32_t *name, size_t name##_count
#define TIWELZAM_ROOM(name) uint32_t *name, size_t name##_count

/* The six lists of a drawing, as twelve parameters. */
#define TIWELZAM_DRAWING(p)                                                                         \
    TIWELZAM_LIST(p##w), TIWELZAM_LIST(p##x), TIWELZAM_LIST(p##sl), TIWELZAM_LIST(p##sv),           \
    TIWELZAM_LIST(p##tl), TIWELZAM_LIST(p##tv)

/* The maps of nodes and of operations with their declared targets. */
#define TIWELZAM_MAPS TIWELZAM_LIST(fw), uint32_t wd, TIWELZAM_LIST(fx), uint32_t xd

/* W: how many words of workspace a drawing with these counts needs. */
static inline size_t tiwelzam_workspace(size_t n, size_t m, size_t s, size_t t)
{
    return 8 * (n + m) + 2 * (s + t) + 8;
}

/* ---- Checks. No workspace. ------------------------------------------------------------------------------------- */

/* Whether the drawing is accepted: 0, 1, 2 or 3. */
uint32_t tiwelzam_check_drawing(TIWELZAM_DRAWING());

/* Whether both maps are accepted by themselves: 0, 1 or 4. */
uint32_t tiwelzam_check_maps(TIWELZAM_MAPS);

/* Whether the drawing and its boundary are accepted: 0, 1, 2, 3 or 12. */
uint32_t tiwelzam_check_boundary(TIWELZAM_DRAWING(), TIWELZAM_LIST(inputs), TIWELZAM_LIST(outputs));

/* ---- Tables: a length list, and a values list that it cuts. Refuse with 1, 2, 3 or 11. --------------------------- */

/* For each node the operations that list it as a source, ascending, once per listing: n lengths, S values. */
uint32_t tiwelzam_source_converse(TIWELZAM_DRAWING(), TIWELZAM_ROOM(lengths), TIWELZAM_ROOM(values),
                                  TIWELZAM_ROOM(ws));

/* The same for targets: n lengths, T values. */
uint32_t tiwelzam_target_converse(TIWELZAM_DRAWING(), TIWELZAM_ROOM(lengths), TIWELZAM_ROOM(values),
                                  TIWELZAM_ROOM(ws));

/* For each node, and each operation that lists it as a source, that operation's targets in order, repeats included:
 * n lengths, and as many values as tiwelzam_node_adjacency_size says. */
uint32_t tiwelzam_node_adjacency(TIWELZAM_DRAWING(), TIWELZAM_ROOM(lengths), TIWELZAM_ROOM(values),
                                 TIWELZAM_ROOM(ws));

/* For each operation, and each of its targets in order, the operations that list that node as a source, repeats
 * included: m lengths, and as many values as tiwelzam_operation_adjacency_size says. */
uint32_t tiwelzam_operation_adjacency(TIWELZAM_DRAWING(), TIWELZAM_ROOM(lengths), TIWELZAM_ROOM(values),
                                      TIWELZAM_ROOM(ws));

/* How many values the two write: at most 2^28, into *word. No workspace. Refuse with 1, 2 or 3. */
uint32_t tiwelzam_node_adjacency_size(TIWELZAM_DRAWING(), uint32_t *word);
uint32_t tiwelzam_operation_adjacency_size(TIWELZAM_DRAWING(), uint32_t *word);

/* ---- Cycles and layers ----------------------------------------------------------------------------------------- */

/* Whether no node lies on a directed cycle: 1 or 0 into *word. Refuses with 1, 2, 3 or 11. */
uint32_t tiwelzam_is_acyclic(TIWELZAM_DRAWING(), TIWELZAM_ROOM(ws), uint32_t *word);

/* For each operation its order, the steps of the longest chain that ends in it, and its mark, 0. An operation that
 * lies on a cycle or behind one is unplaced: order 0, mark 1. m orders, m marks. Refuses with 1, 2, 3 or 11. */
uint32_t tiwelzam_layer(TIWELZAM_DRAWING(), TIWELZAM_ROOM(orders), TIWELZAM_ROOM(marks), TIWELZAM_ROOM(ws));

/* The operations in exactly m layers: layer i has those of order i, ascending. m operations, layer by layer; m + 1
 * offsets, where each layer begins and last m; m marks. Refuses with 1, 2, 3 or 11. */
uint32_t tiwelzam_layered_operations(TIWELZAM_DRAWING(), TIWELZAM_ROOM(operations), TIWELZAM_ROOM(offsets),
                                     TIWELZAM_ROOM(marks), TIWELZAM_ROOM(ws));

/* Whether the offsets are sound: one more than the operations, first 0, never falling, last the operations' number.
 * 1 or 0 into *word. Refuses nothing. */
uint32_t tiwelzam_offsets_sound(TIWELZAM_LIST(operations), TIWELZAM_LIST(offsets), uint32_t *word);

/* Where one layer stands in the operations: its start into *start, its length into *count. For an unknown layer, or
 * where the offsets are not sound, both are 0. Refuses nothing. */
uint32_t tiwelzam_layer_at(TIWELZAM_LIST(operations), TIWELZAM_LIST(offsets), size_t layer, uint32_t *start,
                           uint32_t *count);

/* ---- Maps from a first drawing (c) into a second (d) ------------------------------------------------------------ */

/* Whether the maps are natural: 0, or 1 to 10. No workspace. */
uint32_t tiwelzam_validate(TIWELZAM_DRAWING(c), TIWELZAM_DRAWING(d), TIWELZAM_MAPS);

/* Whether no entry stands twice in fw, and none twice in fx: 1 or 0 into *word. The larger of wd and xd stands for W
 * here. Refuses with 1, 4 or 11. */
uint32_t tiwelzam_is_monomorphism(TIWELZAM_MAPS, TIWELZAM_ROOM(ws), uint32_t *word);

/* Whether the maps select a convex part: they are natural, no entry stands twice, and no directed path of one or more
 * operations from a selected node to a selected node begins with an unselected operation. 1 or 0 into *word; maps that
 * are not natural get 0 there. Refuses with 1, 2, 3, 4 or 11. */
uint32_t tiwelzam_is_convex_subgraph(TIWELZAM_DRAWING(c), TIWELZAM_DRAWING(d), TIWELZAM_MAPS, TIWELZAM_ROOM(ws),
                                     uint32_t *word);

/* ---- Evaluation ------------------------------------------------------------------------------------------------- */

/* Runs the drawing: n words of memory, all 0; the input values are stored at the inputs one by one, up to the end of
 * the shorter list; layer by layer, all operations of a layer read, then store. The values at the outputs are written
 * to `out`, as many as there are outputs. Refuses with 1, 2, 3, 12, 11, 13 or 14. The labels:
 *
 *         label  inputs, outputs   result
 *             0  1, one or more    each output is the input
 *             1  2, 1              sum modulo 2^32
 *             2  2, 1              larger minus smaller
 *          3, 4  one or more, 1    smallest, largest
 *             5  2, 1              the sum modulo 2^32, halved, rounded down
 *             6  3, 1              second if the first is not 0, else third
 *             7  one or more, 1    position from 0 of the first smallest
 *      16 .. 31  1, 1              input divided by 2^(label - 16), rounded down
 *    256 .. 511  0, 1              label - 256
 */
uint32_t tiwelzam_eval(TIWELZAM_DRAWING(), TIWELZAM_LIST(inputs), TIWELZAM_LIST(outputs), TIWELZAM_LIST(values),
                       TIWELZAM_ROOM(out), TIWELZAM_ROOM(ws));

#ifdef __cplusplus
}
#endif

#endif
