/* sorted WHAT CALLS: so many calls of make_sorted at widths and sizes that take turns, or so many puts that split a full leaf. */
#include <stdint.h>
#include <stdio.h>
#include <stdlib.h>
#include <string.h>

#include "../include/cherchivola.h"

enum { NODES = 3, CELLS = 16 };

static uint64_t nodes[CHERCHIVOLA_NODE_WORDS(NODES)], cells[CHERCHIVOLA_CELL_WORDS(CELLS)];
static uint8_t bytes[CHERCHIVOLA_KEY_BYTES(CELLS)];
static uint64_t full_nodes[CHERCHIVOLA_NODE_WORDS(NODES)], full_cells[CHERCHIVOLA_CELL_WORDS(CELLS)];
static uint8_t full_bytes[CHERCHIVOLA_KEY_BYTES(CELLS)];
#define LENT nodes, CHERCHIVOLA_NODE_WORDS(NODES), cells, CHERCHIVOLA_CELL_WORDS(CELLS), bytes, CHERCHIVOLA_KEY_BYTES(CELLS)

/* One label of a byte; refused calls end the program. */
static void put(uint8_t label) {
    size_t resting;
    uint64_t lacking;
    if (cherchivola_put(LENT, &label, 1, label, &resting, &lacking) != 0) exit(2);
}

static uint64_t nothing(long n) { return (uint64_t)n; }

static uint64_t sorted(long n) {
    uint64_t word = 0;
    size_t width = 1 + (size_t)n % 15;
    if (cherchivola_make_sorted(width, (size_t)n % (width + 1), &word) != 0) exit(2);
    return word;
}

/* What a split does beside the put itself: lent memory is made as it was. */
static uint64_t again(long n) {
    memcpy(nodes, full_nodes, sizeof nodes), memcpy(cells, full_cells, sizeof cells), memcpy(bytes, full_bytes, sizeof bytes);
    return nodes[2] + (uint64_t)n;
}

static uint64_t split(long n) {
    again(n);
    put((uint8_t)(2 * (n % 16)));
    return nodes[3];
}

int main(int argc, char **argv) {
    uint64_t (*run)(long) = NULL;
    const char *what = argc == 3 ? argv[1] : "";
    if (strcmp(what, "nothing") == 0) run = nothing;
    if (strcmp(what, "sorted") == 0) run = sorted;
    if (strcmp(what, "again") == 0) run = again;
    if (strcmp(what, "split") == 0) run = split;
    if (run == NULL) {
        fprintf(stderr, "sorted nothing|sorted|again|split CALLS\n");
        return 2;
    }
    if (cherchivola_clear(LENT) != 0) return 2;
    for (int k = 0; k < 15; k++) put((uint8_t)(2 * k + 1));
    memcpy(full_nodes, nodes, sizeof nodes), memcpy(full_cells, cells, sizeof cells), memcpy(full_bytes, bytes, sizeof bytes);
    long calls = atol(argv[2]);
    uint64_t sum = 0;
    for (long n = 0; n < calls; n++) sum = 31 * sum + run(n);
    printf("%llx\n", (unsigned long long)sum);
    return 0;
}
