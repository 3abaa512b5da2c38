/* Each of 0 1 2 tied to each of 3 4 5; 3 is hidden; the visible part is released, read back and asked; a state is kept and restored;
 * 5 gets a class of its own. */
#include <stdio.h>

#include "tegmulos.h"

enum { N = 6, NUMBERS = TEGMULOS_NODE_NUMBERS * N, STORE = TEGMULOS_STORE_WORDS(N), NAME = TEGMULOS_NAME_BYTES };
enum { UPDATES = 11, BATCH = TEGMULOS_UPDATE_NUMBERS * UPDATES };

static uint64_t edges[8 * N];
static uint16_t nodes[NUMBERS];
static uint32_t keys[2 * N];
static uint64_t store[STORE];
static const uint8_t name[NAME] = "first reading";

/* The nine edges, one node hidden, and an edge of that node to delete, which is refused. */
static const uint16_t batch[BATCH] = {
    TEGMULOS_EDGE, 0, 3, 1, TEGMULOS_EDGE, 0, 4, 1, TEGMULOS_EDGE, 0, 5, 1,
    TEGMULOS_EDGE, 1, 3, 1, TEGMULOS_EDGE, 1, 4, 1, TEGMULOS_EDGE, 1, 5, 1,
    TEGMULOS_EDGE, 2, 3, 1, TEGMULOS_EDGE, 2, 4, 1, TEGMULOS_EDGE, 2, 5, 1,
    TEGMULOS_MARK, 3, 0, 1, TEGMULOS_EDGE, 0, 3, 0,
};

/* 5 of class 1. */
static const uint16_t change[TEGMULOS_UPDATE_NUMBERS] = {TEGMULOS_CLASS, 5, 1, 0};

static void print_file(const uint8_t *file, uint32_t bytes) {
    for (uint32_t i = 0; i < bytes; i++) {
        printf("%02X%c", file[i], i + 1 == bytes ? '\n' : ' ');
    }
}

static void print_pairs(const char *name, const uint16_t *list, size_t count) {
    printf("%s, with their groups:", name);
    for (size_t i = 0; i < count; i++) {
        printf(" %u (%u)", list[2 * i], list[2 * i + 1]);
    }
    printf("\n");
}

int main(void) {
    int16_t answers[UPDATES];
    uint8_t file[128];
    uint16_t out[2 * N], count, m, g, least, kind, size, yes, distance;
    uint32_t s, bytes;

    printf("open: %u\n", tegmulos_open(N, edges, 8 * N, nodes, NUMBERS, keys, 2 * N, store, STORE));
    printf("apply: %u\n", tegmulos_apply(N, edges, 8 * N, nodes, NUMBERS, keys, 2 * N, batch, BATCH, answers, UPDATES));
    printf("answers:");
    for (int i = 0; i < UPDATES; i++) {
        printf(" %d", answers[i]);
    }
    printf("\n");
    tegmulos_tied(N, edges, 8 * N, nodes, NUMBERS, keys, 2 * N, 0, 3, &yes);
    printf("0 and 3 tied: %u\n", yes);
    tegmulos_group(N, edges, 8 * N, nodes, NUMBERS, keys, 2 * N, 4, &least, &kind, &size);
    printf("group of 4: least %u kind %u size %u\n", least, kind, size);
    tegmulos_neighbours(N, edges, 8 * N, nodes, NUMBERS, keys, 2 * N, 0, out, 2 * N, &count);
    print_pairs("neighbours of 0", out, count);
    printf("release: %u\n",
           tegmulos_release(N, edges, 8 * N, nodes, NUMBERS, keys, 2 * N, file, sizeof file, &m, &g, &s, &bytes));
    printf("visible %u groups %u superedges %u bytes %u\n", m, g, s, bytes);
    print_file(file, bytes);
    printf("keep: %u\n", tegmulos_keep(N, edges, 8 * N, nodes, NUMBERS, keys, 2 * N, store, STORE, name, NAME));
    printf("again: %u\n", tegmulos_keep(N, edges, 8 * N, nodes, NUMBERS, keys, 2 * N, store, STORE, name, NAME));
    printf("read: %u\n", tegmulos_read(N, edges, 8 * N, nodes, NUMBERS, keys, 2 * N, file, bytes));
    tegmulos_file_neighbours(file, bytes, 0, out, 2 * N, &count);
    print_pairs("neighbours of 0 in the file", out, count);
    tegmulos_file_distance(file, bytes, 0, 1, &distance);
    printf("distance of 0 and 1: %u\n", distance);
    printf("of 3, hidden: %u\n", tegmulos_file_neighbours(file, bytes, 3, out, 2 * N, &count));
    tegmulos_tied(N, edges, 8 * N, nodes, NUMBERS, keys, 2 * N, 0, 3, &yes);
    printf("as read, 0 and 3 tied: %u\n", yes);
    printf("restore: %u\n", tegmulos_restore(N, edges, 8 * N, nodes, NUMBERS, keys, 2 * N, store, STORE, name, NAME));
    tegmulos_tied(N, edges, 8 * N, nodes, NUMBERS, keys, 2 * N, 0, 3, &yes);
    printf("as kept, 0 and 3 tied: %u\n", yes);
    tegmulos_apply(N, edges, 8 * N, nodes, NUMBERS, keys, 2 * N, change, TEGMULOS_UPDATE_NUMBERS, answers, 1);
    printf("5 of class 1: %d\n", answers[0]);
    tegmulos_release(N, edges, 8 * N, nodes, NUMBERS, keys, 2 * N, file, sizeof file, &m, &g, &s, &bytes);
    printf("visible %u groups %u superedges %u bytes %u\n", m, g, s, bytes);
    print_file(file, bytes);
    printf("drop: %u\n", tegmulos_drop(N, store, STORE, name, NAME));
    printf("again: %u\n", tegmulos_drop(N, store, STORE, name, NAME));
    return 0;
}
