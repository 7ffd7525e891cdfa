/*
 * A burst of pictures, and what becomes of the frame buffers. The bank is one slot word; width 6 means six buffers. examples/run builds and
 * runs this.
 */
#include <inttypes.h>
#include <stdio.h>
#include <stdlib.h>

#include "cherchivola.h"

enum { BUFFERS = 6 };

static uint64_t bank; /* all there is to keep */

/* Here a refusal would be a mistake of ours, so it ends the program. */
static void accepted(uint64_t number) {
    if (number != CHERCHIVOLA_ACCEPTED) {
        printf("refused %" PRIu64 "\n", number);
        exit(1);
    }
}

static size_t in_use(void) {
    size_t size = 0;
    accepted(cherchivola_size(bank, BUFFERS, &size));
    return size;
}

/* A frame arrives: the next free buffer is handed out, and stands behind those in use. How many still rest is told with it. */
static void capture(const char *frame) {
    size_t buffer = 0, resting = 0;
    accepted(cherchivola_insert_from_back(&bank, BUFFERS, in_use(), &buffer, &resting));
    printf("  %s goes into buffer %zu; still resting: %zu\n", frame, buffer, resting);
}

/* Where a buffer stands: its position, which must be remembered by whoever wants to take its release back. */
static size_t position_of(size_t buffer) {
    size_t position = 0, found = 0;
    accepted(cherchivola_get(bank, BUFFERS, position, &found));
    while (found != buffer) accepted(cherchivola_get(bank, BUFFERS, ++position, &found));
    return position;
}

/* A frame was stored on the card: its buffer rests behind all other free ones. */
static void release(size_t buffer) {
    accepted(cherchivola_remove_slot(&bank, BUFFERS, buffer));
    printf("  buffer %zu is released\n", buffer);
}

/* The last release is taken back: its buffer is in use again, at the position that it had. */
static void take_back(size_t position) {
    size_t buffer = 0;
    accepted(cherchivola_insert_first_free(&bank, BUFFERS, position));
    accepted(cherchivola_get(bank, BUFFERS, position, &buffer));
    printf("  buffer %zu is in use again\n", buffer);
}

/* The last frame was nothing: its buffer goes out next, as if it had never been taken. */
static void withdraw_last(void) {
    size_t buffer = 0;
    accepted(cherchivola_get(bank, BUFFERS, in_use() - 1, &buffer));
    accepted(cherchivola_remove_to_back(&bank, BUFFERS, in_use() - 1));
    printf("  buffer %zu is withdrawn\n", buffer);
}

/* The free buffers in the order in which they will be handed out. The first place that is refused is that of a buffer in use. */
static void show(void) {
    size_t buffer = 0;
    printf("  word %016" PRIX64 ", %zu in use; free, next first:", bank, in_use());
    for (size_t k = 0; cherchivola_back_at_offset(bank, BUFFERS, k, &buffer) == CHERCHIVOLA_ACCEPTED; k++) printf(" %zu", buffer);
    printf("\n");
}

int main(void) {
    accepted(cherchivola_empty(BUFFERS, &bank));
    printf("Six buffers, none in use\n");
    show();

    printf("A burst of two frames\n");
    capture("frame 1");
    capture("frame 2");
    show();

    uint64_t before = bank;
    printf("Another burst, by a false trigger\n");
    capture("frame 3");
    capture("frame 4");
    printf("It is withdrawn, the last frame first\n");
    withdraw_last();
    withdraw_last();
    show();
    printf("  the word is %s before that burst\n", bank == before ? "that from" : "NOT that from");

    printf("One more, during which frame 1 is stored on the card\n");
    size_t position = position_of(0);
    capture("frame 5");
    release(0);
    capture("frame 6");
    printf("It is withdrawn too, the last call first\n");
    withdraw_last();
    take_back(position);
    withdraw_last();
    show();
    printf("  the word is %s before that burst\n", bank == before ? "that from" : "NOT that from");

    printf("A true burst gets the same buffers again\n");
    capture("frame 7");
    capture("frame 8");

    printf("Frame 1 was stored on the card\n");
    release(0);
    show();

    printf("Of all free buffers, the one released last is overwritten last\n");
    capture("frame 9");
    capture("frame 10");
    capture("frame 11");
    show();

    size_t buffer = 99, resting = 98;
    uint64_t number = cherchivola_insert_from_back(&bank, BUFFERS, in_use(), &buffer, &resting);
    printf("One frame more is refused %" PRIu64 ", and nothing was written: buffer is still %zu, resting %zu\n", number, buffer, resting);
    return number == CHERCHIVOLA_FULL ? 0 : 1;
}
