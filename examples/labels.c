/*
 * Labels by which pictures are found again, in memory that this program lends: three static arrays, and nothing else. examples/run builds
 * and runs this.
 */
#include <inttypes.h>
#include <stdio.h>
#include <string.h>

#include "cherchivola.h"

enum { NODES = 3, CELLS = 4 }; /* at most four labels */

static uint64_t nodes[CHERCHIVOLA_NODE_WORDS(NODES)];
static uint64_t cells[CHERCHIVOLA_CELL_WORDS(CELLS)];
static uint8_t bytes[CHERCHIVOLA_KEY_BYTES(CELLS)];

/* Every call on the index takes the three of them, each with its length. */
#define LENT nodes, CHERCHIVOLA_NODE_WORDS(NODES), cells, CHERCHIVOLA_CELL_WORDS(CELLS), bytes, CHERCHIVOLA_KEY_BYTES(CELLS)

/* A text's bytes and their number. A label may have any bytes, zeros too. */
#define LABEL(text) (const uint8_t *)(text), strlen(text)

static void said(uint64_t number) {
    if (number == CHERCHIVOLA_ACCEPTED) {
        printf("ok\n");
    } else {
        printf("refused %" PRIu64 "\n", number);
    }
}

static void put(const char *label, uint64_t frame) {
    size_t resting = 0;
    uint64_t lacking = 0;
    uint64_t number = cherchivola_put(LENT, LABEL(label), frame, &resting, &lacking);
    printf("put %s %" PRIu64 ": ", label, frame);
    if (number == CHERCHIVOLA_ACCEPTED) {
        printf("ok, %zu slots rest\n", resting);
    } else if (number == CHERCHIVOLA_FEW_NODES) {
        printf("refused, %" PRIu64 " nodes lacking\n", lacking);
    } else {
        said(number);
    }
}

static void take_out(const char *label) {
    printf("remove %s: ", label);
    said(cherchivola_remove_key(LENT, LABEL(label)));
}

static void find(const char *label) {
    uint64_t frame = 0;
    uint64_t number = cherchivola_find(LENT, LABEL(label), &frame);
    printf("find %s: ", label);
    if (number == CHERCHIVOLA_ACCEPTED) {
        printf("frame %" PRIu64 "\n", frame);
    } else {
        said(number);
    }
}

/* All labels in the order of their bytes. The label itself stands in the lent bytes, at its cell. */
static void list(void) {
    uint64_t cell = 0, length = 0, frame = 0;
    printf("list:\n");
    for (uint64_t k = 0; cherchivola_kth(LENT, k, &cell, &length, &frame) == CHERCHIVOLA_ACCEPTED; k++) {
        printf("  %.*s, frame %" PRIu64 "\n", (int)length, (const char *)&bytes[CHERCHIVOLA_KEY_BYTES(cell)], frame);
    }
}

int main(void) {
    printf("before a clear, ");
    find("fox");
    printf("clear: ");
    said(cherchivola_clear(LENT));

    put("fox", 1204);
    put("deer", 1187);
    put("fox at the feeder", 1210);
    put("fox", 1300); /* filed already, and keeps its frame */
    list();

    find("deer");
    find("owl");
    take_out("deer");
    find("deer");

    put("marten", 1311);
    put("badger", 1312);
    put("owl", 1313); /* a fifth label finds no cell */
    list();

    take_out("marten");
    take_out("badger");
    put("fox at the feeder, in the rain, left", 1320);
    put("fox at the feeder, in the rain, right", 1321); /* a cell is free, and nodes for the common beginning are not */

    uint8_t byte = bytes[0];
    bytes[0] ^= 1; /* something else wrote into lent memory: a bit of the label in cell 0 */
    printf("one bit flipped, ");
    find("fox");
    put("owl", 1313);
    bytes[0] = byte;
    printf("and back, ");
    find("fox");
    return 0;
}
