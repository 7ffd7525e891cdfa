/*
 * How many bytes of stack each call through C takes: it runs on a stack of its own, painted before, and the lowest byte that is another one
 * afterwards tells. What the same takes without the call is taken off. bench/depth builds and runs this.
 */
#define _DEFAULT_SOURCE
#include <stdio.h>
#include <stdlib.h>
#include <string.h>
#include <ucontext.h>

#include "cherchivola.h"

enum { MOST = 255, ROOM = 1 << 20, PAINT = 0xA5 };

static uint64_t nodes[CHERCHIVOLA_NODE_WORDS(MOST)];
static uint64_t cells[CHERCHIVOLA_CELL_WORDS(MOST)];
static uint8_t bytes[CHERCHIVOLA_KEY_BYTES(MOST)];
#define LENT nodes, CHERCHIVOLA_NODE_WORDS(MOST), cells, CHERCHIVOLA_CELL_WORDS(MOST), bytes, CHERCHIVOLA_KEY_BYTES(MOST)

static uint8_t image[CHERCHIVOLA_IMAGE_BYTES(MOST)];

static uint8_t stack[ROOM];
static ucontext_t here, there;

/* Two keys of 256 bytes that differ in the last, and numbers to lend. */
static uint8_t one[256], other[256], bank[25];
static uint64_t word, ikey, child, frame, lacking, entries, order, ikeys[15], children[16];
static size_t told, shifts, start, n, c, blocks, resting;

/* The calls, each with what makes it go deep. */
static void nothing(void) {}
static void insert_from_back(void) { cherchivola_insert_from_back(&word, 15, 0, &told, &n); }
static void rotate(void) { cherchivola_rotate(&word, 15, 0, 3); }
static void exchange(void) { cherchivola_exchange(&word, 15, 0, 3); }
static void remove_slot(void) { cherchivola_remove_slot(&word, 15, 0); }
static void wide_insert(void) { cherchivola_wide_insert_from_back(bank, 24, 0, &told, &n); }
static void wide_rotate(void) { cherchivola_wide_rotate(bank, 24, 0, 3); }
static void wide_remove_slot(void) { cherchivola_wide_remove_slot(bank, 24, 0); }
static void wide_make_sorted(void) { cherchivola_wide_make_sorted(24, 5, bank); }
static void key_new(void) { cherchivola_key_new(one, 256, &ikey, &shifts, &start); }
static void key_shift_by(void) { cherchivola_key_shift_by(one, 256, &ikey, &shifts, &start, 8); }
static void compare_keys(void) { cherchivola_compare_keys(one, 256, other, 256, &order); }
static void compare_suffix(void) { cherchivola_key_compare_suffix(one, 256, ikey, shifts, start, other + 8, 248, &order); }
static void find_position(void) { cherchivola_find_insert_position(n, ikeys, children, 5, &told); }
static void child_for(void) { cherchivola_child_for(n, ikeys, children, 5, &child); }
static void compare_key(void) { cherchivola_compare_key(n, ikeys, children, 5, 0, &order); }
static void insert_key(void) { cherchivola_insert_key_and_child(&n, ikeys, children, n, n + 1, 7); }
static void lengths(void) { cherchivola_lengths(LENT, &n, &c); }
static void clear(void) { cherchivola_clear(LENT); }
static void count(void) { cherchivola_count(LENT, &entries); }
static void audit(void) { cherchivola_audit(LENT); }
static void find(void) { cherchivola_find(LENT, other, 256, &frame); }
static void kth(void) { cherchivola_kth(LENT, 0, &child, &order, &frame); }
static void put(void) { cherchivola_put(LENT, other, 256, 7, &resting, &lacking); }
static void remove_key(void) { cherchivola_remove_key(LENT, other, 256); }
static void save(void) { cherchivola_save(LENT, image, sizeof image, &blocks); }
static void load(void) { cherchivola_load(LENT, image, 512 * blocks, &entries, &lacking); }

/* The bytes below the top that are written while this runs. */
static size_t written(void (*run)(void)) {
    size_t kept = 0;
    memset(stack, PAINT, sizeof stack);
    if (getcontext(&there) != 0) exit(2);
    there.uc_stack.ss_sp = stack;
    there.uc_stack.ss_size = sizeof stack;
    there.uc_link = &here;
    makecontext(&there, run, 0);
    if (swapcontext(&here, &there) != 0) exit(2);
    while (stack[kept] == PAINT) kept++;
    return sizeof stack - kept;
}

static void tell(const char *name, void (*run)(void)) { printf("%s: %zu\n", name, written(run) - written(nothing)); }

/* A memory of so many nodes, each the only child of the one before. */
static void chain(size_t many) {
    cherchivola_clear(LENT);
    memset(nodes, 0, sizeof nodes);
    for (size_t k = 0; k + 1 < many; k++) nodes[2 + 47 * k] = 2, nodes[2 + 47 * k + 17] = k + 1;
    nodes[2 + 47 * (many - 1)] = 1;
    nodes[2 + 47 * (many - 1) + 1] = UINT64_C(0x0123456789ABCDE0);
}

/* Keys whose way is the longest that an image makes: sixteen of the layers of a key of 256 bytes have two levels. */
static void long_way(void) {
    uint8_t label[256];
    cherchivola_clear(LENT);
    for (size_t layer = 0; layer < 16; layer++) {
        for (size_t k = 0; k < 15; k++) {
            memset(label, 'a', 8 * layer), memset(label + 8 * layer, 0, 8);
            label[8 * layer] = (uint8_t)k;
            if (cherchivola_put(LENT, label, 8 * layer + 8, 7, &resting, &lacking) != 0) exit(2);
        }
    }
    if (cherchivola_put(LENT, one, 256, 7, &resting, &lacking) != 0) exit(2);
    if (cherchivola_put(LENT, other, 256, 7, &resting, &lacking) != 0) exit(2);
}

/* The six calls that audit, on memory as it is and as the put leaves it; and a load of what was saved. */
static void tell_index(void) {
    tell("  audit", audit);
    tell("  kth", kth);
    tell("  put", put);
    tell("  find", find);
    tell("  save", save);
    tell("  remove_key", remove_key);
    tell("  load", load);
}

int main(void) {
    static const size_t ways[] = {1, 64, 128, 255}, layers[] = {4, 8, 16, 24};
    memset(one, 'a', sizeof one), memset(other, 'a', sizeof other), other[255] = 'b';
    cherchivola_empty(15, &word);
    tell("insert_from_back", insert_from_back), tell("rotate", rotate), tell("exchange", exchange), tell("remove_slot", remove_slot);
    tell("wide make_sorted", wide_make_sorted), tell("wide insert_from_back", wide_insert), tell("wide rotate", wide_rotate);
    tell("wide remove_slot", wide_remove_slot);
    tell("key_new", key_new), tell("key_compare_suffix, 256 bytes", compare_suffix), tell("key_shift_by", key_shift_by);
    tell("compare_keys, 256 bytes", compare_keys);
    tell("insert_key_and_child", insert_key), tell("find_insert_position", find_position), tell("child_for", child_for);
    tell("compare_key", compare_key), tell("lengths", lengths), tell("clear", clear), tell("count", count);
    cherchivola_put(LENT, one, 256, 7, &resting, &lacking);
    printf("one node, and a key of 256 bytes that becomes 32 layers\n");
    tell_index();
    for (size_t k = 0; k < sizeof layers / sizeof *layers; k++) {
        memset(other, 'a', sizeof other), other[8 * layers[k] - 8] = 'b';
        cherchivola_clear(LENT);
        cherchivola_put(LENT, one, 256, 7, &resting, &lacking);
        printf("one node, and a key of 256 bytes that becomes %zu layers\n", layers[k]);
        tell_index();
    }
    memset(other, 'a', sizeof other), other[255] = 'b';
    long_way();
    printf("32 layers, sixteen of two levels\n");
    tell_index();
    for (size_t k = 0; k < sizeof ways / sizeof *ways; k++) {
        chain(ways[k]);
        printf("a way of %zu nodes\n", ways[k]);
        tell_index();
    }
    return 0;
}
