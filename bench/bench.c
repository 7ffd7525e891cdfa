/* bench PEER CALLS: so many insertions from the back, each on a valid word of width 15 with room, all accepted. */
#include <stdint.h>
#include <stdio.h>
#include <stdlib.h>
#include <string.h>

#include "../include/cherchivola.h"

typedef uint64_t insertion(uint64_t *word, size_t width, size_t i, size_t *slot, size_t *resting);

/* The Rust's own insertion with no judgement, and after the same judgement by plain loops (peers.rs). */
uint64_t rust_unchecked(uint64_t *word, size_t width, size_t i, size_t *slot, size_t *resting);
uint64_t rust_judged(uint64_t *word, size_t width, size_t i, size_t *slot, size_t *resting);

/* What a call costs by itself. */
__attribute__((noinline)) static uint64_t nothing(uint64_t *word, size_t width, size_t i, size_t *slot, size_t *resting) {
    __asm__ volatile("" : : "r"(word), "r"(width), "r"(i), "r"(slot), "r"(resting) : "memory");
    return 0;
}

static insertion *peer(const char *name) {
    if (strcmp(name, "port") == 0) return cherchivola_insert_from_back;
    if (strcmp(name, "unchecked") == 0) return rust_unchecked;
    if (strcmp(name, "judged") == 0) return rust_judged;
    return strcmp(name, "nothing") == 0 ? nothing : NULL;
}

int main(int argc, char **argv) {
    insertion *insert = argc == 3 ? peer(argv[1]) : NULL;
    if (insert == NULL) {
        fprintf(stderr, "bench port|unchecked|judged|nothing CALLS\n");
        return 2;
    }
    long calls = atol(argv[2]);
    uint64_t word = 0, sum = 0, refused = 0;
    size_t slot = 0, resting = 0;
    for (long n = 0; n < calls; n++) {
        /* seven slots in use, in an order that no simple rule makes */
        word = UINT64_C(0x526A0189D4B7EC37);
        refused += insert(&word, 15, (size_t)n & 7, &slot, &resting);
        sum += word ^ slot ^ resting;
    }
    printf("%llx %llu refused\n", (unsigned long long)sum, (unsigned long long)refused);
    return 0;
}
