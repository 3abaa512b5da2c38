/* The calls of the library, for C. Link with libcapi.a, which `rt lib` in crates/capi writes to crates/capi/out.
 *
 * Every call works on tables that the caller lends, for a graph of n nodes (at most 512):
 *   edges  8 * n words: node p's row is the eight words from word 8 * p on, and node q is bit q % 64 of word q / 64 of the row
 *   nodes  5 * n numbers: for each node the least member of its group, the next greater (the greatest is followed by the least),
 *          the previous one, the mark, 1 for a hidden node, and the class, 0 to 255; nodes of one group have one class
 *   keys   2 * n numbers: for each node the open and the closed key
 * and, to keep up to eight states of that graph under names of 16 bytes, on
 *   store  TEGMULOS_STORE_WORDS(n) words, laid out as docs/STORE.md says; an opening makes it a store without states
 *
 * A call returns 0 if it was done, or the number of its refusal. A refused call leaves every table, store and buffer as it was, and
 * sets every number that it hands back to 0. Buffers may be longer than needed: what lies beyond is left as it was. A pointer to a
 * table or a buffer of length 0 must still be aligned and not NULL; tables, stores and buffers must not overlap.
 */
#ifndef TEGMULOS_H
#define TEGMULOS_H

#include <stddef.h>
#include <stdint.h>

#ifdef __cplusplus
extern "C" {
#endif

enum {
    TEGMULOS_NODES = 512,        /* nodes of a graph */
    TEGMULOS_UPDATES = 4096,     /* updates of a batch */
    TEGMULOS_UPDATE_NUMBERS = 4, /* numbers of an update */
    TEGMULOS_ROW_WORDS = 8,      /* words of a row */
    TEGMULOS_NODE_NUMBERS = 5,   /* numbers of a node */
    TEGMULOS_CLASSES = 256,      /* classes of nodes, from 0 on */
    TEGMULOS_STATES = 8,         /* states of a store */
    TEGMULOS_NAME_BYTES = 16,    /* bytes of a name */
    TEGMULOS_FILE_BYTES = 789002 /* no release is longer */
};

/* Words of a store for n nodes. */
#define TEGMULOS_STORE_WORDS(n) (1 + TEGMULOS_STATES * (3 + (TEGMULOS_ROW_WORDS + 1) * (n)))

/* The kinds of an update: the edge between u and v, u's mark, or u's class, which v is. */
enum { TEGMULOS_EDGE = 1, TEGMULOS_MARK = 2, TEGMULOS_CLASS = 3 };

/* The kinds of a group. */
enum { TEGMULOS_SINGLETON = 0, TEGMULOS_INDEPENDENT = 1, TEGMULOS_CLIQUE = 2 };

/* Results and answers. */
enum {
    TEGMULOS_DONE = 0,
    TEGMULOS_WRONG_SIZE = 11,    /* n over 512, a table, store or name of the wrong length, or a batch not in fours or too long */
    TEGMULOS_NO_GRAPH = 12,      /* the tables hold no graph, or the words are no store for n nodes */
    TEGMULOS_NO_KIND = 13,       /* an update of a kind other than 1 to 3 */
    TEGMULOS_NO_NODE = 14,       /* a node n or above; asked of a file, also a hidden one */
    TEGMULOS_WRONG_VALUE = 15,   /* one node where two are asked; in an update, a wanted or a v that its kind does not allow */
    TEGMULOS_ALREADY_HOLDS = 16, /* what is wanted holds already */
    TEGMULOS_SHORT_BUFFER = 18,  /* a buffer shorter than needed */
    TEGMULOS_NO_RELEASE = 19,    /* the bytes are no graph's release */
    TEGMULOS_OTHER_SIZE = 20,    /* a release, but for another n */
    TEGMULOS_NOT_KEPT = 21,      /* no state has the name */
    TEGMULOS_ALREADY_KEPT = 22,  /* a state has the name */
    TEGMULOS_FULL = 23,          /* eight states are kept */
    TEGMULOS_FROZEN = 24         /* an update of an edge that names a hidden node */
};

/* A graph of n nodes without edges, none hidden, all of class 0, and a store without states. 0, or 11. */
uint16_t tegmulos_open(size_t n, uint64_t *edges, size_t edges_len, uint16_t *nodes, size_t nodes_len, uint32_t *keys,
                       size_t keys_len, uint64_t *store, size_t store_len);

/* The graph kept under a name, in the lowest free place of the store. 0, or 11, 12, 22, 23. */
uint16_t tegmulos_keep(size_t n, const uint64_t *edges, size_t edges_len, const uint16_t *nodes, size_t nodes_len,
                       const uint32_t *keys, size_t keys_len, uint64_t *store, size_t store_len, const uint8_t *name,
                       size_t name_len);

/* The graph that is kept under a name, in the tables again; what they hold before is not looked at. 0, or 11, 12, 21. */
uint16_t tegmulos_restore(size_t n, uint64_t *edges, size_t edges_len, uint16_t *nodes, size_t nodes_len, uint32_t *keys,
                          size_t keys_len, const uint64_t *store, size_t store_len, const uint8_t *name, size_t name_len);

/* The name is struck, and its place cleared. 0, or 11, 12, 21. */
uint16_t tegmulos_drop(size_t n, uint64_t *store, size_t store_len, const uint8_t *name, size_t name_len);

/* A batch of updates, four numbers each: kind, u, v (0 in kind 2, a class in kind 3), wanted (0 in kind 3). What is wanted holds
 * after an accepted one: 1 that the edge is there or the node hidden, 0 that it is not; in kind 3, that u has the class. Each
 * writes one answer: the number of its refusal, tested in the order 13, 14 (u alone in kinds 2 and 3), 15, 24 (kind 1), 16, or
 * how many groups more there are, from -2 to 2. 0, or 11, 12, 18. */
uint16_t tegmulos_apply(size_t n, uint64_t *edges, size_t edges_len, uint16_t *nodes, size_t nodes_len, uint32_t *keys,
                        size_t keys_len, const uint16_t *batch, size_t batch_len, int16_t *answers, size_t answers_len);

/* The neighbours of p, ascending, each followed by the least member of its group: two numbers for each. `count` is how many
 * neighbours there are. 0, or 11, 12, 14, 18. */
uint16_t tegmulos_neighbours(size_t n, const uint64_t *edges, size_t edges_len, const uint16_t *nodes, size_t nodes_len,
                             const uint32_t *keys, size_t keys_len, uint16_t p, uint16_t *out, size_t out_len, uint16_t *count);

/* Whether p and q are neighbours: 1 or 0. 0, or 11, 12, 14, 15. */
uint16_t tegmulos_tied(size_t n, const uint64_t *edges, size_t edges_len, const uint16_t *nodes, size_t nodes_len,
                       const uint32_t *keys, size_t keys_len, uint16_t p, uint16_t q, uint16_t *yes);

/* The group of p: its least member, its kind, its size. 0, or 11, 12, 14. */
uint16_t tegmulos_group(size_t n, const uint64_t *edges, size_t edges_len, const uint16_t *nodes, size_t nodes_len,
                        const uint32_t *keys, size_t keys_len, uint16_t p, uint16_t *least, uint16_t *kind, uint16_t *size);

/* The release of the visible part: its m nodes, g groups, s superedges, and how many bytes it has, 10 + 6g + 2m + 6s. A group's
 * record is its mark, the count of its members, their class, the members. 0, or 11, 12, 18. */
uint16_t tegmulos_release(size_t n, const uint64_t *edges, size_t edges_len, const uint16_t *nodes, size_t nodes_len,
                          const uint32_t *keys, size_t keys_len, uint8_t *out, size_t out_len, uint16_t *m, uint16_t *g, uint32_t *s,
                          uint32_t *bytes);

/* A release read back into tables for n nodes: nodes that it lacks are hidden, of class 0, without edges. 0, or 11, 19, 20. */
uint16_t tegmulos_read(size_t n, uint64_t *edges, size_t edges_len, uint16_t *nodes, size_t nodes_len, uint32_t *keys,
                       size_t keys_len, const uint8_t *file, size_t file_len);

/* The neighbours of p, asked of a release, ascending, each followed by the least member of its group there: two numbers for each.
 * `count` is how many neighbours there are. 0, or 19, 14, 18. */
uint16_t tegmulos_file_neighbours(const uint8_t *file, size_t file_len, uint16_t p, uint16_t *out, size_t out_len,
                                  uint16_t *count);

/* How many edges separate p and q, asked of a release: 0 for a node and itself, 65535 if no chain of edges does. 0, or 19, 14. */
uint16_t tegmulos_file_distance(const uint8_t *file, size_t file_len, uint16_t p, uint16_t q, uint16_t *distance);

#ifdef __cplusplus
}
#endif

#endif
