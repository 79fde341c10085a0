/* Every call on small examples, with the answer that each must give. Built and run by bindings/c/test. */
#include <stdio.h>
#include <string.h>

#include "tiwelzam.h"

/* ---- Drawings --------------------------------------------------------------------------------------------------- */

struct drawing {
    const uint32_t *w, *x, *sl, *sv, *tl, *tv;
    size_t n, m, s, t;
};

/* The six lists of a drawing with their counts; an array with its count; nothing. */
#define LISTS(d) (d).w, (d).n, (d).x, (d).m, (d).sl, (d).m, (d).sv, (d).s, (d).tl, (d).m, (d).tv, (d).t
#define LIST(array) array, sizeof(array) / sizeof *(array)
#define NOTHING words, 0

static const uint32_t words[4097]; /* zeros: labels, and an address where a count is 0 */
static const uint32_t ones[4] = {1, 1, 1, 1};

static const struct drawing none = {words, words, words, words, words, words, 0, 0, 0, 0};

/* No node, one operation with empty lists. */
static const struct drawing alone = {words, words, words, words, words, words, 0, 1, 0, 0};

/* D: operations 0 to 1, 1 to 2, 0 to 2. */
static const uint32_t d_from[] = {0, 1, 0}, d_to[] = {1, 2, 2};
static const struct drawing D = {words, words, ones, d_from, ones, d_to, 3, 3, 3, 3};

/* Its first operation alone, its first two, and two nodes. */
static const struct drawing first = {words, words, ones, d_from, ones, d_to, 2, 1, 1, 1};
static const struct drawing first_two = {words, words, ones, d_from, ones, d_to, 3, 2, 2, 2};
static const struct drawing two_nodes = {words, words, words, words, words, words, 2, 0, 0, 0};

/* One operation 0 to 0. */
static const struct drawing turn = {words, words, ones, words, ones, words, 1, 1, 1, 1};

/* Operations 0 to 1, 1 to 0, 1 to 2, none to 3. */
static const uint32_t around_lengths[] = {1, 1, 1, 0}, around_from[] = {0, 1, 1}, around_to[] = {1, 0, 2, 3};
static const struct drawing around = {words, words, around_lengths, around_from, ones, around_to, 4, 4, 3, 4};

/* None to 0, and (0, 0) to 1. */
static const uint32_t twice_lengths[] = {0, 2}, twice_to[] = {0, 1};
static const struct drawing twice = {words, words, twice_lengths, words, ones, twice_to, 2, 2, 2, 2};

/* (1, 1) to (2, 0), over three nodes. */
static const uint32_t pairs_lengths[] = {2}, pairs_from[] = {1, 1}, pairs_to[] = {2, 0};
static const struct drawing pairs = {words, words, pairs_lengths, pairs_from, pairs_lengths, pairs_to, 3, 1, 2, 2};

/* ---- Lent memory and what is expected of it ---------------------------------------------------------------------- */

#define NOISE 0xabababab
#define ROOM 16

static uint32_t a[ROOM], b[ROOM], c[ROOM], ws[256], word;
static int wrong, expected;

static void noise(void)
{
    memset(a, 0xab, sizeof a);
    memset(b, 0xab, sizeof b);
    memset(c, 0xab, sizeof c);
    memset(ws, 0xab, sizeof ws);
    word = NOISE;
}

static void expect(int holds, const char *what, int line)
{
    expected++;
    if (!holds) {
        wrong++;
        printf("example.c:%d: not so: %s\n", line, what);
    }
}

#define EXPECT(what) expect(what, #what, __LINE__)

/* Whether a room begins with this list and is noise behind it. */
static int holds(const uint32_t *room, const uint32_t *list, size_t count)
{
    for (size_t i = 0; i < ROOM; i++)
        if (room[i] != (i < count ? list[i] : NOISE))
            return 0;
    return 1;
}

#define HOLDS(room, ...) holds(room, (const uint32_t[]){__VA_ARGS__}, \
                               sizeof((const uint32_t[]){__VA_ARGS__}) / sizeof(uint32_t))
#define UNTOUCHED(room) holds(room, words, 0)

/* Whether so many words of the workspace are zero, and the rest noise. */
static int cleared(size_t count)
{
    for (size_t i = 0; i < sizeof ws / sizeof *ws; i++)
        if (ws[i] != (i < count ? 0 : NOISE))
            return 0;
    return 1;
}

static size_t need(struct drawing d)
{
    return tiwelzam_workspace(d.n, d.m, d.s, d.t);
}

/* ---- The calls ---------------------------------------------------------------------------------------------------- */

static void checks(void)
{
    static const uint32_t entries[] = {0, 2}, outside[] = {3}, wrapping[] = {1u << 31, 1u << 31, 3};
    EXPECT(tiwelzam_check_drawing(LISTS(none)) == 0);
    EXPECT(tiwelzam_check_drawing(LISTS(D)) == 0);
    struct drawing wide = none;
    wide.n = 4096;
    EXPECT(tiwelzam_check_drawing(LISTS(wide)) == 0);
    wide.n = 4097;
    EXPECT(tiwelzam_check_drawing(LISTS(wide)) == 1);
    struct drawing bad = D;
    bad.sl = wrapping;
    EXPECT(tiwelzam_check_drawing(LISTS(bad)) == 2);
    bad = D;
    bad.n = 2;
    EXPECT(tiwelzam_check_drawing(LISTS(bad)) == 3);

    EXPECT(tiwelzam_check_maps(LIST(entries), 3, NOTHING, 0) == 0);
    EXPECT(tiwelzam_check_maps(LIST(entries), 4097, NOTHING, 0) == 1);
    EXPECT(tiwelzam_check_maps(LIST(entries), 2, NOTHING, 0) == 4);

    EXPECT(tiwelzam_check_boundary(LISTS(D), LIST(entries), NOTHING) == 0);
    EXPECT(tiwelzam_check_boundary(LISTS(D), LIST(entries), LIST(outside)) == 12);
    EXPECT(tiwelzam_check_boundary(LISTS(bad), LIST(entries), LIST(outside)) == 3);
}

static void converses(void)
{
    noise();
    EXPECT(tiwelzam_source_converse(LISTS(D), LIST(a), LIST(b), LIST(ws)) == 0);
    EXPECT(HOLDS(a, 2, 1, 0) && HOLDS(b, 0, 2, 1) && cleared(need(D)));
    noise();
    EXPECT(tiwelzam_target_converse(LISTS(D), LIST(a), LIST(b), LIST(ws)) == 0);
    EXPECT(HOLDS(a, 0, 1, 2) && HOLDS(b, 0, 1, 2) && cleared(need(D)));
    noise();
    EXPECT(tiwelzam_target_converse(LISTS(D), LIST(a), b, 2, LIST(ws)) == 11);
    EXPECT(UNTOUCHED(a) && UNTOUCHED(b) && cleared(0));
}

static void adjacencies(void)
{
    noise();
    EXPECT(tiwelzam_node_adjacency(LISTS(pairs), LIST(a), LIST(b), LIST(ws)) == 0);
    EXPECT(HOLDS(a, 0, 4, 0) && HOLDS(b, 2, 0, 2, 0) && cleared(need(pairs)));
    noise();
    EXPECT(tiwelzam_operation_adjacency(LISTS(twice), LIST(a), LIST(b), LIST(ws)) == 0);
    EXPECT(HOLDS(a, 2, 0) && HOLDS(b, 1, 1) && cleared(need(twice)));
}

static void sizes(void)
{
    EXPECT(tiwelzam_node_adjacency_size(LISTS(pairs), &word) == 0 && word == 4);
    EXPECT(tiwelzam_operation_adjacency_size(LISTS(twice), &word) == 0 && word == 2);
    struct drawing bad = D;
    bad.n = 2;
    word = NOISE;
    EXPECT(tiwelzam_node_adjacency_size(LISTS(bad), &word) == 3 && word == NOISE);
}

static void cycles(void)
{
    noise();
    EXPECT(tiwelzam_is_acyclic(LISTS(none), LIST(ws), &word) == 0 && word == 1 && cleared(8));
    EXPECT(tiwelzam_is_acyclic(LISTS(alone), LIST(ws), &word) == 0 && word == 1);
    EXPECT(tiwelzam_is_acyclic(LISTS(D), LIST(ws), &word) == 0 && word == 1);
    noise();
    EXPECT(tiwelzam_is_acyclic(LISTS(around), LIST(ws), &word) == 0 && word == 0 && cleared(need(around)));
    noise();
    EXPECT(tiwelzam_is_acyclic(LISTS(D), ws, need(D) - 1, &word) == 11 && word == NOISE && cleared(0));
    EXPECT(tiwelzam_is_acyclic(LISTS(D), ws, need(D), &word) == 0 && word == 1 && cleared(need(D)));
}

static void layers(void)
{
    noise();
    EXPECT(tiwelzam_layer(LISTS(around), LIST(a), LIST(b), LIST(ws)) == 0);
    EXPECT(HOLDS(a, 0, 0, 0, 0) && HOLDS(b, 1, 1, 1, 0) && cleared(need(around)));
    noise();
    EXPECT(tiwelzam_layer(LISTS(twice), LIST(a), LIST(b), LIST(ws)) == 0);
    EXPECT(HOLDS(a, 0, 1) && HOLDS(b, 0, 0));
    noise();
    EXPECT(tiwelzam_layered_operations(LISTS(none), LIST(a), LIST(b), LIST(c), LIST(ws)) == 0);
    EXPECT(UNTOUCHED(a) && HOLDS(b, 0) && UNTOUCHED(c) && cleared(8));
    noise();
    EXPECT(tiwelzam_layered_operations(LISTS(around), LIST(a), LIST(b), LIST(c), LIST(ws)) == 0);
    EXPECT(HOLDS(a, 0, 1, 2, 3) && HOLDS(b, 0, 4, 4, 4, 4) && HOLDS(c, 1, 1, 1, 0) && cleared(need(around)));
    noise();
    EXPECT(tiwelzam_layered_operations(LISTS(around), LIST(a), b, 4, LIST(c), LIST(ws)) == 11);
    EXPECT(UNTOUCHED(a) && UNTOUCHED(b) && UNTOUCHED(c) && cleared(0));
}

static void lookup(void)
{
    static const uint32_t operations[] = {0, 2, 1}, offsets[] = {0, 2, 3, 3}, falling[] = {0, 2, 1, 3};
    uint32_t start, length;
    EXPECT(tiwelzam_offsets_sound(LIST(operations), LIST(offsets), &word) == 0 && word == 1);
    EXPECT(tiwelzam_offsets_sound(LIST(operations), LIST(falling), &word) == 0 && word == 0);
    EXPECT(tiwelzam_layer_at(LIST(operations), LIST(offsets), 1, &start, &length) == 0 && start == 2 && length == 1);
    EXPECT(tiwelzam_layer_at(LIST(operations), LIST(offsets), 3, &start, &length) == 0 && start == 0 && length == 0);
    EXPECT(tiwelzam_layer_at(LIST(operations), LIST(falling), 0, &start, &length) == 0 && start == 0 && length == 0);
}

static const uint32_t same[] = {0, 1, 2}, ends[] = {0, 2}, equal[] = {1, 1};

static void validation(void)
{
    static const uint32_t labels[] = {0, 1, 0};
    EXPECT(tiwelzam_validate(LISTS(D), LISTS(D), LIST(same), 3, LIST(same), 3) == 0);
    EXPECT(tiwelzam_validate(LISTS(D), LISTS(D), LIST(same), 4, LIST(same), 3) == 5);
    EXPECT(tiwelzam_validate(LISTS(D), LISTS(D), LIST(same), 3, same, 2, 3) == 6);
    struct drawing other = D;
    other.w = labels;
    EXPECT(tiwelzam_validate(LISTS(other), LISTS(D), LIST(same), 3, LIST(same), 3) == 7);
    other = D;
    other.x = labels;
    EXPECT(tiwelzam_validate(LISTS(other), LISTS(D), LIST(same), 3, LIST(same), 3) == 8);
    other = D;
    other.sv = same;
    EXPECT(tiwelzam_validate(LISTS(other), LISTS(D), LIST(same), 3, LIST(same), 3) == 9);
    other = D;
    other.tv = same;
    EXPECT(tiwelzam_validate(LISTS(other), LISTS(D), LIST(same), 3, LIST(same), 3) == 10);
}

static void monomorphisms(void)
{
    noise();
    EXPECT(tiwelzam_is_monomorphism(LIST(ends), 3, LIST(same), 4, LIST(ws), &word) == 0 && word == 1 && cleared(4));
    noise();
    EXPECT(tiwelzam_is_monomorphism(LIST(ends), 3, LIST(equal), 4, LIST(ws), &word) == 0 && word == 0 && cleared(4));
    noise();
    EXPECT(tiwelzam_is_monomorphism(LIST(ends), 3, LIST(equal), 4, ws, 3, &word) == 11 && word == NOISE && cleared(0));
}

static void convexity(void)
{
    noise();
    EXPECT(tiwelzam_is_convex_subgraph(LISTS(first), LISTS(D), same, 2, 3, same, 1, 3, LIST(ws), &word) == 0 && word == 1);
    EXPECT(cleared(need(D)));
    EXPECT(tiwelzam_is_convex_subgraph(LISTS(first_two), LISTS(D), LIST(same), 3, same, 2, 3, LIST(ws), &word) == 0 && word == 0);
    EXPECT(tiwelzam_is_convex_subgraph(LISTS(two_nodes), LISTS(D), LIST(ends), 3, NOTHING, 3, LIST(ws), &word) == 0 && word == 0);
    EXPECT(tiwelzam_is_convex_subgraph(LISTS(none), LISTS(D), NOTHING, 3, NOTHING, 3, LIST(ws), &word) == 0 && word == 1);
    EXPECT(tiwelzam_is_convex_subgraph(LISTS(turn), LISTS(turn), same, 1, 1, same, 1, 1, LIST(ws), &word) == 0 && word == 1);
    struct drawing node = two_nodes;
    node.n = 1;
    EXPECT(tiwelzam_is_convex_subgraph(LISTS(node), LISTS(turn), same, 1, 1, NOTHING, 1, LIST(ws), &word) == 0 && word == 0);
}

static void evaluation(void)
{
    static const uint32_t inputs[] = {0, 0}, values[] = {1, 2}, output[] = {0}, most[] = {0xffffffff};
    struct drawing node = two_nodes;
    node.n = 1;
    noise();
    EXPECT(tiwelzam_eval(LISTS(node), LIST(inputs), LIST(output), LIST(values), LIST(a), LIST(ws)) == 0);
    EXPECT(HOLDS(a, 2) && cleared(16));
    noise();
    EXPECT(tiwelzam_eval(LISTS(turn), LIST(inputs), LIST(output), LIST(values), LIST(a), LIST(ws)) == 13);
    EXPECT(UNTOUCHED(a) && cleared(need(turn)));

    /* A constant, and one operation from node 0 to node 1, with different labels. */
    uint32_t label = 511;
    struct drawing constant = {words, &label, words, words, ones, words, 1, 1, 0, 1};
    noise();
    EXPECT(tiwelzam_eval(LISTS(constant), NOTHING, LIST(output), NOTHING, LIST(a), LIST(ws)) == 0 && HOLDS(a, 255));
    label = 512;
    EXPECT(tiwelzam_eval(LISTS(constant), NOTHING, LIST(output), NOTHING, LIST(a), LIST(ws)) == 14);
    label = 16;
    struct drawing step = first;
    step.x = &label;
    noise();
    EXPECT(tiwelzam_eval(LISTS(step), output, 1, ones, 1, LIST(most), LIST(a), LIST(ws)) == 0 && HOLDS(a, 0xffffffff));
    label = 15;
    EXPECT(tiwelzam_eval(LISTS(step), output, 1, ones, 1, LIST(most), LIST(a), LIST(ws)) == 14);

    /* Which of two distances is smaller: the sample of the text program. */
    static const uint32_t labels[] = {2, 2, 7}, twos[] = {2, 2, 2}, from[] = {0, 1, 0, 2, 3, 4}, to[] = {3, 4, 5};
    static const uint32_t sample[] = {100, 90, 130};
    struct drawing distances = {words, labels, twos, from, ones, to, 6, 3, 6, 3};
    noise();
    EXPECT(tiwelzam_eval(LISTS(distances), LIST(same), to + 2, 1, LIST(sample), LIST(a), LIST(ws)) == 0);
    EXPECT(HOLDS(a, 0) && cleared(need(distances)));
}

int main(void)
{
    checks();
    converses();
    adjacencies();
    sizes();
    cycles();
    layers();
    lookup();
    validation();
    monomorphisms();
    convexity();
    evaluation();
    printf("%d expectations, %d wrong\n", expected, wrong);
    return wrong != 0;
}
