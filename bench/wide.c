/* wide PEER CALLS: so many insertions from the back, each into a valid wide bank of width 24 with room, all accepted. */
#include <stdint.h>
#include <stdio.h>
#include <stdlib.h>
#include <string.h>

#include "../include/cherchivola.h"

typedef uint64_t insertion(uint8_t bank[25], size_t width, size_t i, size_t *slot, size_t *resting);

/* The same in plain Rust, after the same judgement by a loop (peers.rs). */
uint64_t plain_wide(uint8_t bank[25], size_t width, size_t i, size_t *slot, size_t *resting);

/* What a call costs by itself. */
__attribute__((noinline)) static uint64_t nothing(uint8_t bank[25], size_t width, size_t i, size_t *slot, size_t *resting) {
    __asm__ volatile("" : : "r"(bank), "r"(width), "r"(i), "r"(slot), "r"(resting) : "memory");
    return 0;
}

static insertion *peer(const char *name) {
    if (strcmp(name, "port") == 0) return cherchivola_wide_insert_from_back;
    if (strcmp(name, "plain") == 0) return plain_wide;
    return strcmp(name, "nothing") == 0 ? nothing : NULL;
}

int main(int argc, char **argv) {
    /* twelve slots in use, in an order that no simple rule makes */
    static const uint8_t start[25] = {12, 5, 17, 2, 20, 11, 8, 14, 23, 0, 19, 6, 10, 3, 22, 15, 1, 9, 13, 21, 7, 18, 4, 16, 12};
    insertion *insert = argc == 3 ? peer(argv[1]) : NULL;
    if (insert == NULL) {
        fprintf(stderr, "wide port|plain|nothing CALLS\n");
        return 2;
    }
    long calls = atol(argv[2]);
    uint8_t bank[25];
    uint64_t sum = 0, refused = 0;
    size_t slot = 0, resting = 0;
    for (long n = 0; n < calls; n++) {
        memcpy(bank, start, sizeof bank);
        refused += insert(bank, 24, (size_t)n % 13, &slot, &resting);
        for (int k = 0; k < 25; k++) sum = 31 * sum + bank[k];
        sum += slot + resting;
    }
    printf("%llx %llu refused\n", (unsigned long long)sum, (unsigned long long)refused);
    return 0;
}
