/*
 * The camera with 24 frame buffers, too many for a slot word: its bank is 25 bytes, one for the size and one for each position.
 * examples/run builds and runs this.
 */
#include <inttypes.h>
#include <stdio.h>
#include <stdlib.h>
#include <string.h>

#include "cherchivola.h"

enum { BUFFERS = 24 };

static uint8_t bank[25]; /* all there is to keep */

/* Here a refusal would be a mistake of ours, so it ends the program. */
static void accepted(uint64_t number) {
    if (number != CHERCHIVOLA_ACCEPTED) {
        printf("refused %" PRIu64 "\n", number);
        exit(1);
    }
}

static size_t in_use(void) {
    size_t size = 0;
    accepted(cherchivola_wide_size(bank, BUFFERS, &size));
    return size;
}

/* So many frames arrive: each takes the next free buffer. The last one tells how many still rest. */
static void capture(size_t frames) {
    size_t resting = 0;
    printf("  %zu frames go into buffers", frames);
    while (frames-- > 0) {
        size_t buffer = 0;
        accepted(cherchivola_wide_insert_from_back(bank, BUFFERS, in_use(), &buffer, &resting));
        printf(" %zu", buffer);
    }
    printf("; still resting: %zu\n", resting);
}

/* A frame was stored on the card: its buffer rests behind all other free ones. */
static void release(size_t buffer) {
    accepted(cherchivola_wide_remove_slot(bank, BUFFERS, buffer));
    printf("  buffer %zu is released\n", buffer);
}

/* So many frames were nothing: their buffers go out next, as if they had never been taken. */
static void withdraw(size_t frames) {
    while (frames-- > 0) accepted(cherchivola_wide_remove_to_back(bank, BUFFERS, in_use() - 1));
}

/* How many are in use, and the free ones, the next first. */
static void show(void) {
    printf("  %zu in use; free, next first:", in_use());
    for (size_t position = BUFFERS; position-- > in_use();) {
        size_t buffer = 0;
        accepted(cherchivola_wide_get(bank, BUFFERS, position, &buffer));
        printf(" %zu", buffer);
    }
    printf("\n");
}

int main(void) {
    uint8_t before[25];
    size_t buffer = 99, resting = 98;
    printf("24 buffers, none in use\n");
    accepted(cherchivola_wide_empty(BUFFERS, bank));
    show();
    printf("A long burst\n");
    capture(20);
    printf("Two frames were stored on the card\n");
    release(3), release(7);
    show();
    memcpy(before, bank, sizeof bank);
    printf("A burst by a false trigger, and it is withdrawn, the last frame first\n");
    capture(5);
    withdraw(5);
    printf("  the bank is %s before that burst\n", memcmp(bank, before, sizeof bank) == 0 ? "that from" : "NOT that from");
    printf("A true burst takes all that rest\n");
    capture(6);
    show();
    uint64_t number = cherchivola_wide_insert_from_back(bank, BUFFERS, in_use(), &buffer, &resting);
    printf("One frame more is refused %" PRIu64 ", and nothing was written: buffer is still %zu, resting %zu\n", number, buffer, resting);
    bank[5] = bank[6];
    printf("A buffer that stands twice: refused %" PRIu64 "\n", cherchivola_wide_from_bytes(bank, BUFFERS, before));
    return 0;
}
