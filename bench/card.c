/*
 * Saves the index of memory.h, loads its image, or does less with the same bytes, so many times. bench/card writes memory.h, builds this
 * and counts its instructions.
 *
 *     card WHAT COUNT
 */
#include <stdio.h>
#include <stdlib.h>
#include <string.h>

#include "cherchivola.h"

enum { MOST = 255 };

/* nodes, cells and bytes of an index, `image` and `entries`: what saving it must give, and how many entries it has */
#include "memory.h"

static uint64_t later_nodes[CHERCHIVOLA_NODE_WORDS(MOST)];
static uint64_t later_cells[CHERCHIVOLA_CELL_WORDS(MOST)];
static uint8_t later_bytes[CHERCHIVOLA_KEY_BYTES(MOST)];
static uint8_t out[CHERCHIVOLA_IMAGE_BYTES(MOST)];
static uint32_t sums[2];

#define LENT(nodes, cells, bytes) \
    nodes, CHERCHIVOLA_NODE_WORDS(MOST), cells, CHERCHIVOLA_CELL_WORDS(MOST), bytes, CHERCHIVOLA_KEY_BYTES(MOST)

static void fail(const char *what) {
    fprintf(stderr, "card: %s\n", what);
    exit(1);
}

__attribute__((noinline)) static void nothing(void) { __asm__ volatile(""); }

__attribute__((noinline)) static void save(void) {
    size_t blocks = 0;
    if (cherchivola_save(LENT(nodes, cells, bytes), out, sizeof out, &blocks) != 0 || 512 * blocks != sizeof image) fail("save");
}

__attribute__((noinline)) static void load(void) {
    uint64_t told = 0, many = 0;
    if (cherchivola_load(LENT(later_nodes, later_cells, later_bytes), image, sizeof image, &many, &told) != 0) fail("load");
    if (many != entries) fail("entries");
}

__attribute__((noinline)) static void audit(void) {
    if (cherchivola_audit(LENT(nodes, cells, bytes)) != 0) fail("audit");
}

__attribute__((noinline)) static void clear(void) {
    if (cherchivola_clear(LENT(later_nodes, later_cells, later_bytes)) != 0) fail("clear");
}

/* The image's bytes, one after the other. */
__attribute__((noinline, optimize("no-tree-loop-distribute-patterns", "no-tree-vectorize"))) static void copy(void) {
    for (size_t k = 0; k < sizeof image; k++) out[k] = image[k];
}

/* The check of each block, a word after the other. */
__attribute__((noinline)) static void check(void) {
    for (size_t block = 0; block < sizeof image / 512; block++) {
        uint32_t a = (uint32_t)block + 1, b = 0, word;
        for (size_t k = 0; k < 504; k += 4) {
            memcpy(&word, &image[512 * block + k], 4);
            a += word, b += a;
        }
        sums[0] = a, sums[1] = b;
        __asm__ volatile("" : : "r"(sums) : "memory");
    }
}

static const struct {
    const char *name;
    void (*run)(void);
} calls[] = {{"nothing", nothing}, {"save", save}, {"load", load}, {"audit", audit}, {"clear", clear}, {"copy", copy}, {"check", check}};

int main(int count, char **words) {
    if (count != 3) fail("WHAT COUNT");
    for (size_t k = 0; k < sizeof calls / sizeof *calls; k++) {
        if (strcmp(calls[k].name, words[1]) != 0) continue;
        for (long left = strtol(words[2], NULL, 10); left > 0; left--) calls[k].run();
        if (strcmp(words[1], "save") == 0 && words[2][0] != '0' && memcmp(out, image, sizeof image) != 0) fail("another image");
        return 0;
    }
    fail("no such call");
}
