/*
 * Reads calls, one a line, makes them through include/cherchivola.h and prints what each answers: the number returned, then every lent
 * number as it is afterwards. compare.py writes the lines and knows the answers.
 *
 * A line is a call's name without `cherchivola_`, its numbers in hex, and keys as `x` and hex. The lent numbers are among the numbers, with
 * what they hold before. Whatever is lent as a slice or an array ends where a page begins that nobody may touch, so that a read or a write
 * past it stops the program; beside each lent number stand two others that must stay.
 *
 * Calls on the index begin with the three lent lengths. Their memory is made by `memory` and stays from line to line; `fill` and `set`
 * write into it, `dump` prints all of it. After such a call come `kept` or `changed`, by all of memory before and after, and a sum of it.
 * `save` and `load` go on with the length of the buffer or image, which is lent from a card that stays too; `card` writes on it, and a sum
 * of what was lent of it comes before `kept` or `changed`.
 */
#define _DEFAULT_SOURCE
#include <inttypes.h>
#include <stdio.h>
#include <stdlib.h>
#include <string.h>
#include <sys/mman.h>
#include <unistd.h>

#include "../../include/cherchivola.h"

enum { NODES = 2 + 47 * 256, CELLS = 2 * 256, BYTES = 256 * 256, CARD = 512 * 140 };
enum { MOST_NUMBERS = 48, MOST_KEY = CARD, LINE = 2 * CARD + 4096 };

#define BESIDE UINT64_C(0x5EEDBE51DE5EED00)

/* One line, taken apart: its numbers, and its keys, which lie at the end of a guarded page. */
static uint64_t number[MOST_NUMBERS];
static int numbers, keys;
static uint8_t *key[2], *key_end[2];
static size_t key_length[2];

/* Lent numbers, each between two that must stay. The last three are for the fields of frame labels. */
static uint64_t lent_word[7];
static size_t lent_size[7];
static uint8_t lent_8[3];
static uint16_t lent_16[5];
static uint32_t lent_32[3];

/* An internode, and lent memory with its lengths: where each ends is a guarded page. What was there before a call is kept beside it. */
static uint64_t *ikeys, *children;
static uint8_t *nodes_end, *cells_end, *bytes_end, *card_end;
static size_t node_words, cell_words, byte_count;
static uint64_t all_nodes[NODES], all_cells[CELLS];
static uint8_t all_bytes[BYTES], all_card[CARD];

/* What one index call is lent. */
static uint64_t *nodes, *cells;
static uint8_t *bytes, *card;

/* Ends the program: the line can not be understood. */
static void fail(const char *why, const char *what) {
    fprintf(stderr, "calls: %s: %s\n", why, what);
    exit(2);
}

/* The end of so many bytes, behind which, and before which, nothing may be touched. */
static uint8_t *guarded(size_t room) {
    size_t page = (size_t)sysconf(_SC_PAGESIZE);
    size_t all = (room + page - 1) / page * page;
    uint8_t *start = mmap(NULL, all + 2 * page, PROT_NONE, MAP_PRIVATE | MAP_ANONYMOUS, -1, 0);
    if (start == MAP_FAILED || mprotect(start + page, all, PROT_READ | PROT_WRITE) != 0) fail("no memory", "mmap");
    return start + page + all;
}

/* Number k of the line. */
static uint64_t at(int k) {
    if (k >= numbers) fail("too few numbers", "line");
    return number[k];
}

/* Lends number k of the line as lent number `place`, 0 to 2. */
static uint64_t *word(int place, int k) {
    lent_word[2 * place + 1] = at(k);
    return &lent_word[2 * place + 1];
}

static size_t *size(int place, int k) {
    lent_size[2 * place + 1] = (size_t)at(k);
    return &lent_size[2 * place + 1];
}

/* Prints what a call returned. */
static void returned(uint64_t what) { printf("%" PRIx64, what); }

/* Prints a lent number as it is now. */
static void tell_word(int place) { printf(" %" PRIx64, lent_word[2 * place + 1]); }
static void tell_size(int place) { printf(" %zx", lent_size[2 * place + 1]); }

/* Writes the numbers beside those that are lent for fields. */
static void guard_fields(void) {
    lent_8[0] = lent_8[2] = 0x5E, lent_16[0] = lent_16[2] = lent_16[4] = 0x5EED, lent_32[0] = lent_32[2] = 0x5EED5EED;
}

/* Whether they are as they were. */
static int fields_alone(void) {
    return lent_8[0] == 0x5E && lent_8[2] == 0x5E && lent_16[0] == 0x5EED && lent_16[2] == 0x5EED && lent_16[4] == 0x5EED &&
           lent_32[0] == 0x5EED5EED && lent_32[2] == 0x5EED5EED;
}

/* Ends the line of a call, with a word where a number beside a lent one was written. */
static void end_line(void) {
    for (int k = 0; k < 7; k += 2) {
        if (lent_word[k] != BESIDE || lent_size[k] != BESIDE) printf(" beside");
        lent_word[k] = lent_size[k] = BESIDE;
    }
    if (!fields_alone()) printf(" beside");
    guard_fields();
    putchar('\n');
}

/* ---- slot words: lent number 0 is the word or the number told; its value before is the line's first or last number */

static void call_empty(void) { returned(cherchivola_empty(at(0), word(0, 1))), tell_word(0); }
static void call_make_sorted(void) { returned(cherchivola_make_sorted(at(0), at(1), word(0, 2))), tell_word(0); }
static void call_from_value(void) { returned(cherchivola_from_value(at(0), at(1), word(0, 2))), tell_word(0); }
static void call_size(void) { returned(cherchivola_size(at(0), at(1), size(0, 2))), tell_size(0); }
static void call_get(void) { returned(cherchivola_get(at(0), at(1), at(2), size(0, 3))), tell_size(0); }
static void call_back(void) { returned(cherchivola_back(at(0), at(1), size(0, 2))), tell_size(0); }
static void call_back_at_offset(void) { returned(cherchivola_back_at_offset(at(0), at(1), at(2), size(0, 3))), tell_size(0); }
static void call_set_size(void) { returned(cherchivola_set_size(word(0, 0), at(1), at(2))), tell_word(0); }
static void call_swap_free_slots(void) { returned(cherchivola_swap_free_slots(word(0, 0), at(1), at(2), at(3))), tell_word(0); }
static void call_remove(void) { returned(cherchivola_remove(word(0, 0), at(1), at(2))), tell_word(0); }
static void call_remove_to_back(void) { returned(cherchivola_remove_to_back(word(0, 0), at(1), at(2))), tell_word(0); }
static void call_exchange(void) { returned(cherchivola_exchange(word(0, 0), at(1), at(2), at(3))), tell_word(0); }
static void call_rotate(void) { returned(cherchivola_rotate(word(0, 0), at(1), at(2), at(3))), tell_word(0); }
static void call_insert_first_free(void) { returned(cherchivola_insert_first_free(word(0, 0), at(1), at(2))), tell_word(0); }
static void call_remove_slot(void) { returned(cherchivola_remove_slot(word(0, 0), at(1), at(2))), tell_word(0); }

static void call_insert_from_back(void) {
    returned(cherchivola_insert_from_back(word(0, 0), at(1), at(2), size(0, 3), size(1, 4)));
    tell_word(0), tell_size(0), tell_size(1);
}

/* ---- wide banks: the bank is the line's first key, 25 bytes, and its width the first number; a lent number's value before is the last */

static uint8_t *bank(int k) {
    if (k >= keys || key_length[k] != 25) fail("no bank of 25 bytes", "line");
    return key[k];
}

/* Prints a bank as it is now. */
static void tell_bank(int k) {
    printf(" x");
    for (int place = 0; place < 25; place++) printf("%02x", bank(k)[place]);
}

static void call_wide_empty(void) { returned(cherchivola_wide_empty(at(0), bank(0))), tell_bank(0); }
static void call_wide_make_sorted(void) { returned(cherchivola_wide_make_sorted(at(0), at(1), bank(0))), tell_bank(0); }
static void call_wide_size(void) { returned(cherchivola_wide_size(bank(0), at(0), size(0, 1))), tell_bank(0), tell_size(0); }
static void call_wide_get(void) { returned(cherchivola_wide_get(bank(0), at(0), at(1), size(0, 2))), tell_bank(0), tell_size(0); }
static void call_wide_back(void) { returned(cherchivola_wide_back(bank(0), at(0), size(0, 1))), tell_bank(0), tell_size(0); }
static void call_wide_insert_first_free(void) { returned(cherchivola_wide_insert_first_free(bank(0), at(0), at(1))), tell_bank(0); }
static void call_wide_remove(void) { returned(cherchivola_wide_remove(bank(0), at(0), at(1))), tell_bank(0); }
static void call_wide_remove_to_back(void) { returned(cherchivola_wide_remove_to_back(bank(0), at(0), at(1))), tell_bank(0); }
static void call_wide_remove_slot(void) { returned(cherchivola_wide_remove_slot(bank(0), at(0), at(1))), tell_bank(0); }
static void call_wide_exchange(void) { returned(cherchivola_wide_exchange(bank(0), at(0), at(1), at(2))), tell_bank(0); }
static void call_wide_rotate(void) { returned(cherchivola_wide_rotate(bank(0), at(0), at(1), at(2))), tell_bank(0); }

static void call_wide_from_bytes(void) {
    returned(cherchivola_wide_from_bytes(bank(0), at(0), bank(1)));
    tell_bank(0), tell_bank(1);
}

static void call_wide_insert_from_back(void) {
    returned(cherchivola_wide_insert_from_back(bank(0), at(0), at(1), size(0, 2), size(1, 3)));
    tell_bank(0), tell_size(0), tell_size(1);
}

/* ---- keys: a key's three numbers are the line's first three */

static void call_read_ikey(void) { returned(cherchivola_read_ikey(key[0], key_length[0], at(0))); }

static void call_compare_keys(void) {
    returned(cherchivola_compare_keys(key[0], key_length[0], key[1], key_length[1], word(0, 0)));
    tell_word(0);
}

typedef uint64_t move(const uint8_t *bytes, size_t length, uint64_t *ikey, size_t *shift_count, size_t *suffix_start);

static void moved(move *call) {
    returned(call(key[0], key_length[0], word(0, 0), size(0, 1), size(1, 2)));
    tell_word(0), tell_size(0), tell_size(1);
}

static void call_key_new(void) { moved(cherchivola_key_new); }
static void call_key_shift(void) { moved(cherchivola_key_shift); }
static void call_key_unshift(void) { moved(cherchivola_key_unshift); }
static void call_key_unshift_all(void) { moved(cherchivola_key_unshift_all); }

static void call_key_shift_by(void) {
    returned(cherchivola_key_shift_by(key[0], key_length[0], word(0, 0), size(0, 1), size(1, 2), at(3)));
    tell_word(0), tell_size(0), tell_size(1);
}

static void call_key_compare(void) {
    returned(cherchivola_key_compare(key[0], key_length[0], at(0), at(1), at(2), at(3), at(4), word(0, 5)));
    tell_word(0);
}

static void call_key_compare_suffix(void) {
    returned(cherchivola_key_compare_suffix(key[0], key_length[0], at(0), at(1), at(2), key[1], key_length[1], word(0, 3)));
    tell_word(0);
}

/* ---- an internode: n, fifteen ikeys and sixteen children are the line's first 32 numbers */

/* Writes the line's internode where it is lent. */
static void take_node(void) {
    for (int k = 0; k < 15; k++) ikeys[k] = at(1 + k);
    for (int k = 0; k < 16; k++) children[k] = at(16 + k);
}

/* Says where a question has changed the node. */
static void node_kept(void) {
    int kept = 1;
    for (int k = 0; k < 15; k++) kept &= ikeys[k] == at(1 + k);
    for (int k = 0; k < 16; k++) kept &= children[k] == at(16 + k);
    if (!kept) printf(" node changed");
}

static void call_find_insert_position(void) {
    take_node();
    returned(cherchivola_find_insert_position(at(0), ikeys, children, at(32), size(0, 33)));
    tell_size(0), node_kept();
}

static void call_compare_key(void) {
    take_node();
    returned(cherchivola_compare_key(at(0), ikeys, children, at(32), at(33), word(0, 34)));
    tell_word(0), node_kept();
}

static void call_child_for(void) {
    take_node();
    returned(cherchivola_child_for(at(0), ikeys, children, at(32), word(0, 33)));
    tell_word(0), node_kept();
}

static void call_insert_key_and_child(void) {
    take_node();
    returned(cherchivola_insert_key_and_child(size(0, 0), ikeys, children, at(32), at(33), at(34)));
    tell_size(0);
    for (int k = 0; k < 15; k++) printf(" %" PRIx64, ikeys[k]);
    for (int k = 0; k < 16; k++) printf(" %" PRIx64, children[k]);
}

/* ---- the index: the line's first three numbers are the lent lengths */

/* A sum of more bytes: the check of Ethernet and zip files. */
static uint32_t summed(uint32_t sum, const void *from, size_t many) {
    static uint32_t table[256];
    const uint8_t *byte = from;
    if (table[1] == 0) {
        for (uint32_t k = 0; k < 256; k++) {
            uint32_t rest = k;
            for (int bit = 0; bit < 8; bit++) rest = rest & 1 ? rest >> 1 ^ UINT32_C(0xEDB88320) : rest >> 1;
            table[k] = rest;
        }
    }
    sum = ~sum;
    while (many-- > 0) sum = table[(sum ^ *byte++) & 255] ^ sum >> 8;
    return ~sum;
}

/* Lends the beginning of memory, as much as the line's first three numbers say, at the ends of the guarded pages. */
static void lend(void) {
    if (at(0) > node_words || at(1) > cell_words || at(2) > byte_count) fail("more lent than there is", "line");
    nodes = (uint64_t *)(void *)nodes_end - at(0);
    cells = (uint64_t *)(void *)cells_end - at(1);
    bytes = bytes_end - at(2);
    memcpy(nodes, all_nodes, 8 * at(0));
    memcpy(cells, all_cells, 8 * at(1));
    memcpy(bytes, all_bytes, at(2));
}

/* Takes memory back, says whether it was changed, and tells its sum. */
static void take_back(void) {
    int kept = memcmp(nodes, all_nodes, 8 * at(0)) == 0 && memcmp(cells, all_cells, 8 * at(1)) == 0;
    kept = kept && memcmp(bytes, all_bytes, at(2)) == 0;
    memcpy(all_nodes, nodes, 8 * at(0));
    memcpy(all_cells, cells, 8 * at(1));
    memcpy(all_bytes, bytes, at(2));
    uint32_t sum = summed(summed(summed(0, all_nodes, 8 * node_words), all_cells, 8 * cell_words), all_bytes, byte_count);
    printf(" %s %" PRIx32, kept ? "kept" : "changed", sum);
}

#define LENT nodes, at(0), cells, at(1), bytes, at(2)

static void call_lengths(void) {
    lend(), returned(cherchivola_lengths(LENT, size(0, 3), size(1, 4)));
    tell_size(0), tell_size(1), take_back();
}

static void call_clear(void) { lend(), returned(cherchivola_clear(LENT)), take_back(); }
static void call_remove_key(void) { lend(), returned(cherchivola_remove_key(LENT, key[0], key_length[0])), take_back(); }
static void call_audit(void) { lend(), returned(cherchivola_audit(LENT)), take_back(); }

static void call_put(void) {
    lend(), returned(cherchivola_put(LENT, key[0], key_length[0], at(3), size(0, 4), word(0, 5)));
    tell_size(0), tell_word(0), take_back();
}

static void call_count(void) {
    lend(), returned(cherchivola_count(LENT, word(0, 3)));
    tell_word(0), take_back();
}

static void call_find(void) {
    lend(), returned(cherchivola_find(LENT, key[0], key_length[0], word(0, 3)));
    tell_word(0), take_back();
}

static void call_kth(void) {
    lend(), returned(cherchivola_kth(LENT, at(3), word(0, 4), word(1, 5), word(2, 6)));
    tell_word(0), tell_word(1), tell_word(2), take_back();
}

/* ---- the card: the line's fourth number is how much of it is lent, behind which is a guarded page */

static void lend_card(void) {
    if (at(3) > CARD) fail("more lent than there is", "card");
    card = card_end - at(3);
    memcpy(card, all_card, at(3));
}

/* Takes the card back, and tells the sum of what was lent. */
static void take_card(void) {
    memcpy(all_card, card, at(3));
    printf(" %" PRIx32, summed(0, card, at(3)));
}

static void call_save(void) {
    lend(), lend_card(), returned(cherchivola_save(LENT, card, at(3), size(0, 4)));
    tell_size(0), take_card(), take_back();
}

static void call_load(void) {
    lend(), lend_card(), returned(cherchivola_load(LENT, card, at(3), word(0, 4), word(1, 5)));
    tell_word(0), tell_word(1), take_card(), take_back();
}

/* ---- frame labels: one that is built ends where nothing may be touched, one that is read is the line's key */

/* Prints the bytes of a label that was built, with a word where the byte before it was written. */
static void tell_label(const uint8_t *label, size_t length) {
    for (size_t k = 0; k < length; k++) printf("%02x", label[k]);
    if (label[-1] != 0x5E) printf(" before");
}

static void call_label_build_first(void) {
    uint8_t *label = key_end[0] - 8;
    memset(label - 1, 0x5E, 9);
    cherchivola_label_build_first(at(0), at(1), at(2), label), tell_label(label, 8);
}

static void call_label_build_second(void) {
    uint8_t *label = key_end[0] - 9;
    memset(label - 1, 0x5E, 10);
    cherchivola_label_build_second(at(0), at(1), at(2), label), tell_label(label, 9);
}

static void call_label_read(void) {
    lent_8[1] = at(0), lent_16[1] = at(1), lent_32[1] = at(2), lent_16[3] = at(3);
    returned(cherchivola_label_read(key[0], key_length[0], &lent_8[1], &lent_16[1], &lent_32[1], &lent_16[3], word(0, 4)));
    printf(" %x %x %" PRIx32 " %x", lent_8[1], lent_16[1], lent_32[1], lent_16[3]), tell_word(0);
}

static void call_label_read_first(void) {
    lent_16[1] = at(0), lent_32[1] = at(1), lent_8[1] = at(2);
    returned(cherchivola_label_read_first(key[0], key_length[0], &lent_16[1], &lent_32[1], &lent_8[1], word(0, 3)));
    printf(" %x %" PRIx32 " %x", lent_16[1], lent_32[1], lent_8[1]), tell_word(0);
}

/* ---- lines that are no calls */

/* memory A B C: so many words of nodes, words of cells and bytes, all zero, as the card is then. */
static void make_memory(void) {
    if (at(0) > NODES || at(1) > CELLS || at(2) > BYTES) fail("too much", "memory");
    node_words = at(0), cell_words = at(1), byte_count = at(2);
    memset(all_nodes, 0, sizeof all_nodes), memset(all_cells, 0, sizeof all_cells), memset(all_bytes, 0, sizeof all_bytes);
    memset(all_card, 0, sizeof all_card);
}

/* fill SEED: any numbers, everywhere. */
static void fill_memory(void) {
    uint64_t x = at(0);
#define NEXT (x = x * UINT64_C(6364136223846793005) + UINT64_C(1442695040888963407))
    for (size_t k = 0; k < node_words; k++) all_nodes[k] = NEXT;
    for (size_t k = 0; k < cell_words; k++) all_cells[k] = NEXT;
    for (size_t k = 0; k < byte_count; k++) all_bytes[k] = (uint8_t)(NEXT >> 56);
}

/* set WHICH INDEX VALUE: a word of nodes (0), a word of cells (1) or a byte (2). */
static void set_memory(void) {
    if (at(0) == 0 && at(1) < node_words) all_nodes[at(1)] = at(2);
    if (at(0) == 1 && at(1) < cell_words) all_cells[at(1)] = at(2);
    if (at(0) == 2 && at(1) < byte_count) all_bytes[at(1)] = (uint8_t)at(2);
}

/* card PLACE xBYTES: these bytes come on the card. */
static void write_card(void) {
    if (keys != 1 || at(0) > CARD || key_length[0] > CARD - at(0)) fail("too much", "card");
    memcpy(all_card + at(0), key[0], key_length[0]);
}

/* dump: all of memory. */
static void dump_memory(void) {
    printf("dump");
    for (size_t k = 0; k < node_words; k++) printf(" %" PRIx64, all_nodes[k]);
    for (size_t k = 0; k < cell_words; k++) printf(" %" PRIx64, all_cells[k]);
    putchar(' ');
    for (size_t k = 0; k < byte_count; k++) printf("%02x", all_bytes[k]);
    putchar('\n');
}

struct named {
    const char *name;
    void (*run)(void);
};

static const struct named notes[] = {
    {"memory", make_memory}, {"fill", fill_memory}, {"set", set_memory}, {"card", write_card}, {"dump", dump_memory}};

#define CALL(name) {#name, call_##name}
static const struct named calls[] = {
    CALL(empty), CALL(make_sorted), CALL(from_value), CALL(size), CALL(get), CALL(back), CALL(back_at_offset), CALL(set_size),
    CALL(swap_free_slots), CALL(insert_from_back), CALL(insert_first_free), CALL(remove), CALL(remove_to_back), CALL(remove_slot),
    CALL(exchange), CALL(rotate), CALL(wide_empty), CALL(wide_make_sorted), CALL(wide_from_bytes), CALL(wide_size), CALL(wide_get),
    CALL(wide_back), CALL(wide_insert_from_back), CALL(wide_insert_first_free), CALL(wide_remove), CALL(wide_remove_to_back),
    CALL(wide_remove_slot), CALL(wide_exchange), CALL(wide_rotate), CALL(read_ikey), CALL(compare_keys), CALL(key_new), CALL(key_shift),
    CALL(key_shift_by), CALL(key_unshift), CALL(key_unshift_all), CALL(key_compare), CALL(key_compare_suffix),
    CALL(find_insert_position), CALL(compare_key), CALL(child_for), CALL(insert_key_and_child), CALL(lengths), CALL(clear), CALL(put),
    CALL(remove_key), CALL(find), CALL(kth), CALL(count), CALL(audit), CALL(save), CALL(load), CALL(label_build_first),
    CALL(label_build_second), CALL(label_read), CALL(label_read_first)};

/* What a digit stands for. */
static int digit(char hex) {
    const char *digits = "0123456789abcdef", *found = hex == 0 ? NULL : strchr(digits, hex);
    if (found == NULL) fail("no hex", "line");
    return (int)(found - digits);
}

/* Takes `x` and hex as the next key of the line. */
static void take_key(const char *hex) {
    size_t length = strlen(hex) / 2;
    if (keys == 2 || length > MOST_KEY) fail("a key too many or too long", hex);
    key[keys] = key_end[keys] - length;
    for (size_t k = 0; k < length; k++) key[keys][k] = (uint8_t)(16 * digit(hex[2 * k]) + digit(hex[2 * k + 1]));
    key_length[keys++] = length;
}

/* Takes the words of a line behind its name. */
static void take_words(void) {
    numbers = keys = 0;
    for (char *text = strtok(NULL, " \n"); text != NULL; text = strtok(NULL, " \n")) {
        if (text[0] == 'x') take_key(text + 1);
        else if (numbers == MOST_NUMBERS) fail("too many numbers", text);
        else number[numbers++] = strtoull(text, NULL, 16);
    }
}

/* Carries out one line. */
static void answer(const char *name) {
    for (size_t k = 0; k < sizeof notes / sizeof *notes; k++) {
        if (strcmp(notes[k].name, name) == 0) {
            notes[k].run();
            return;
        }
    }
    for (size_t k = 0; k < sizeof calls / sizeof *calls; k++) {
        if (strcmp(calls[k].name, name) == 0) {
            calls[k].run();
            end_line();
            return;
        }
    }
    fail("no such call", name);
}

int main(void) {
    static char line[LINE];
    key_end[0] = guarded(MOST_KEY), key_end[1] = guarded(MOST_KEY);
    ikeys = (uint64_t *)(void *)guarded(15 * 8) - 15, children = (uint64_t *)(void *)guarded(16 * 8) - 16;
    nodes_end = guarded(sizeof all_nodes), cells_end = guarded(sizeof all_cells), bytes_end = guarded(sizeof all_bytes);
    card_end = guarded(sizeof all_card);
    for (int k = 0; k < 7; k += 2) lent_word[k] = lent_size[k] = BESIDE;
    guard_fields();
    while (fgets(line, sizeof line, stdin) != NULL) {
        const char *name = strtok(line, " \n");
        if (name == NULL) continue;
        take_words();
        answer(name);
    }
    return 0;
}
