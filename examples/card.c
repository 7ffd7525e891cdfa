/*
 * Labels on a card: the index is saved as an image, read back into other memory, and an image with a changed bit is turned away.
 * examples/run builds and runs this.
 */
#include <inttypes.h>
#include <stdio.h>
#include <string.h>

#include "cherchivola.h"

enum { NODES = 3, CELLS = 8, LATER_NODES = 5, LATER_CELLS = 20 };

/* Memory before the camera sleeps, the card, and memory after it wakes. */
static uint64_t nodes[CHERCHIVOLA_NODE_WORDS(NODES)];
static uint64_t cells[CHERCHIVOLA_CELL_WORDS(CELLS)];
static uint8_t bytes[CHERCHIVOLA_KEY_BYTES(CELLS)];
#define LENT nodes, CHERCHIVOLA_NODE_WORDS(NODES), cells, CHERCHIVOLA_CELL_WORDS(CELLS), bytes, CHERCHIVOLA_KEY_BYTES(CELLS)

static uint8_t card[CHERCHIVOLA_IMAGE_BYTES(CELLS)];

static uint64_t later_nodes[CHERCHIVOLA_NODE_WORDS(LATER_NODES)];
static uint64_t later_cells[CHERCHIVOLA_CELL_WORDS(LATER_CELLS)];
static uint8_t later_bytes[CHERCHIVOLA_KEY_BYTES(LATER_CELLS)];
#define LATER later_nodes, CHERCHIVOLA_NODE_WORDS(LATER_NODES), later_cells, CHERCHIVOLA_CELL_WORDS(LATER_CELLS), later_bytes, \
              CHERCHIVOLA_KEY_BYTES(LATER_CELLS)

static void put(const char *label, uint64_t frame) {
    size_t resting = 0;
    uint64_t lacking = 0;
    uint64_t number = cherchivola_put(LENT, (const uint8_t *)label, strlen(label), frame, &resting, &lacking);
    if (number != CHERCHIVOLA_ACCEPTED) printf("put %s: refused %" PRIu64 "\n", label, number);
}

/* Saves into so many bytes of the card: how many blocks were written. */
static size_t save(size_t room) {
    size_t blocks = 0;
    uint64_t number = cherchivola_save(LENT, card, room, &blocks);
    printf("save into %zu bytes: ", room);
    if (number == CHERCHIVOLA_ACCEPTED) {
        printf("blocks %zu\n", blocks);
    } else {
        printf("refused %" PRIu64 "\n", number);
    }
    return blocks;
}

/* Reads an image of so many bytes into the later memory. */
static void load(size_t length) {
    uint64_t entries = 0, told = 0;
    uint64_t number = cherchivola_load(LATER, card, length, &entries, &told);
    if (number == CHERCHIVOLA_ACCEPTED) {
        printf("load: entries %" PRIu64 "\n", entries);
    } else if (number == CHERCHIVOLA_BAD_CHECK) {
        printf("load: refused, bad block %" PRIu64 "\n", told);
    } else {
        printf("load: refused %" PRIu64 "\n", number);
    }
}

/* All labels of the later memory. */
static void list(void) {
    uint64_t cell = 0, length = 0, frame = 0;
    for (uint64_t k = 0; cherchivola_kth(LATER, k, &cell, &length, &frame) == CHERCHIVOLA_ACCEPTED; k++) {
        printf("  %.*s, frame %" PRIu64 "\n", (int)length, (const char *)&later_bytes[CHERCHIVOLA_KEY_BYTES(cell)], frame);
    }
}

int main(void) {
    cherchivola_clear(LENT);
    put("marten", 1311);
    put("fox", 1204);
    put("deer", 1187);
    save(511); /* one block takes 512 bytes */
    size_t blocks = save(sizeof card);
    load(512 * blocks);
    list();

    card[20] ^= 4; /* the card has lost a bit */
    load(512 * blocks);
    printf("and what was read before is still there:\n");
    list();
    return 0;
}
