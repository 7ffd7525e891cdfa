/*
 * Cherchivola for C and C++: the frame-buffer bank of the camera (slot words, and wide banks for more than 15 buffers), its labels (keys),
 * one internode by itself, the label index in memory that the caller lends, its image on a card, and frame labels of both editions.
 *
 * Every call that can be refused returns 0 when it is accepted. Otherwise it returns the number of its refusal, and every number, word and
 * byte that was lent to it is as it was before, but for a number that is lent for what the refusal tells, and for an index that `load`
 * empties. Three calls are never refused: read_ikey returns the ikey, and the two that build a label return nothing.
 * Where several refusals apply, the lowest is returned; `load` has an order of its own. Any values are answered: there is nothing that a
 * caller has to test first.
 *
 * There is no state behind the calls, no allocation, no lock and no thread. No call keeps a pointer.
 *
 * What a caller owes:
 * - A lent pointer is not null, is aligned for its type and points to as many elements as the length behind it says; `ikeys` points to 15
 *   words, `children` to 16, a wide bank is 25 bytes, and a label that is built has the 8 or 9 bytes of its edition. Also where a length is
 *   0 the pointer is a valid one, such as that of an empty string.
 * - Nothing lent to a call overlaps anything else that is lent to it, and nobody else reads or writes it during the call. So a key that
 *   stands in lent memory is copied out before it is handed to remove_key.
 * - There is stack enough. Below each part stands how much its calls take.
 *
 * The calls are in libfirmware.a, which `rt lib` in crates/firmware proves and writes to crates/firmware/out. It is code for x86-64 and
 * links into x86-64 Linux programs only: not into a program for an Arm processor. It calls memcpy and memset of the C library, and nothing
 * else.
 */
#ifndef CHERCHIVOLA_H
#define CHERCHIVOLA_H

#include <stddef.h>
#include <stdint.h>

#ifdef __cplusplus
extern "C" {
#endif

/* What a call returns. */
enum {
    CHERCHIVOLA_ACCEPTED = 0,
    CHERCHIVOLA_WIDTH = 1,    /* the width is not 1 to 15, or for a wide bank not 16 to 24 */
    CHERCHIVOLA_WORD = 2,     /* the slot word or wide bank is not valid at this width */
    CHERCHIVOLA_NODE = 3,     /* the internode has over 15 ikeys, or they do not strictly rise */
    CHERCHIVOLA_POSITION = 4, /* a position, size or offset is out of range */
    CHERCHIVOLA_FULL = 5,     /* no slot is free, or the internode has 15 ikeys */
    CHERCHIVOLA_UNUSED = 6,   /* the slot is not in use */
    CHERCHIVOLA_KEY = 7,      /* the key is over 256 bytes, or its numbers are not those of its bytes */
    CHERCHIVOLA_SHIFT = 8,    /* the key has no such layer to shift to */
    CHERCHIVOLA_ORDER = 9,    /* with this ikey the internode would not strictly rise */
    CHERCHIVOLA_MEMORY = 10,  /* the lent lengths are wrong, or what stands in lent memory is no index */
    CHERCHIVOLA_STORED = 11,  /* the key is stored already */
    CHERCHIVOLA_MISSING = 12, /* the key is not stored, or there are no more than k entries */
    CHERCHIVOLA_NO_CELL = 13, /* no cell is free */
    CHERCHIVOLA_FEW_NODES = 14,    /* a cell is free, and too few nodes are */
    CHERCHIVOLA_IMAGE_LENGTH = 15, /* the image is no positive multiple of 512 bytes long */
    CHERCHIVOLA_BAD_CHECK = 16,    /* a block of the image does not agree with its check */
    CHERCHIVOLA_BAD_STREAM = 17,   /* what the blocks hold is not as it is written */
    CHERCHIVOLA_SHORT_BUFFER = 18, /* the buffer is too short for the image */
    CHERCHIVOLA_NO_LABEL = 19      /* the label is of an unknown edition, or not as long as those of its edition */
};

/* How one stands to the other, as the comparisons write it. */
enum {
    CHERCHIVOLA_LESS = 0,
    CHERCHIVOLA_EQUAL = 1,
    CHERCHIVOLA_GREATER = 2
};

/*
 * Slot words. The lowest four bits are the size, the next four the slot at position 0, and so on up to position width-1. What stands above
 * in a word from outside is not looked at; what a call leaves has zeros there, and a refused word stays as it was given. The first `size`
 * positions are in use, the others are free, and each slot from 0 to width-1 stands at one position. The free slot at position width-1
 * goes out next.
 *
 * Stack: under 150 bytes.
 */

/* Words made anew. Refused: 1, and make_sorted 4 for n over the width; then *word is as it was. */
uint64_t cherchivola_empty(size_t width, uint64_t *word);                 /* no slot in use; slot 0 goes out first */
uint64_t cherchivola_make_sorted(size_t width, size_t n, uint64_t *word); /* slots 0 to n-1 in use, in order */

/* A value from outside, written to *word without its bits above position width-1 where that is a valid word. Refused: 1, 2; then *word is
 * as it was. */
uint64_t cherchivola_from_value(uint64_t value, size_t width, uint64_t *word);

/* Questions: the answer is written to *told. Refused: 1, 2, and 4 for a place out of range; then *told is as it was. */
uint64_t cherchivola_size(uint64_t word, size_t width, size_t *told);          /* how many slots are in use */
uint64_t cherchivola_get(uint64_t word, size_t width, size_t i, size_t *told); /* the slot at position i */
uint64_t cherchivola_back(uint64_t word, size_t width, size_t *told);          /* the slot at the last position */
/* the free slot that is so many places before the last position */
uint64_t cherchivola_back_at_offset(uint64_t word, size_t width, size_t offset, size_t *told);

/* Changes of *word. Refused: 1, 2, and 4 for a place out of range; then *word is as it was. */
uint64_t cherchivola_set_size(uint64_t *word, size_t width, size_t n);                  /* only the size */
uint64_t cherchivola_swap_free_slots(uint64_t *word, size_t width, size_t i, size_t j); /* two free positions */
uint64_t cherchivola_remove(uint64_t *word, size_t width, size_t i);         /* the slot rests behind all free ones */
uint64_t cherchivola_remove_to_back(uint64_t *word, size_t width, size_t i); /* the slot goes out next */
uint64_t cherchivola_exchange(uint64_t *word, size_t width, size_t i, size_t j);        /* any two positions */
/* positions i to width-1 become old j to width-1, then old i to j-1 */
uint64_t cherchivola_rotate(uint64_t *word, size_t width, size_t i, size_t j);

/*
 * The slot at the back is put to use at position i and written to *slot; how many still rest, the width less the new size, is written to
 * *resting. Refused: 1, 2, 4, 5; then all three are as they were, so that a refusal tells nothing of what rests.
 */
uint64_t cherchivola_insert_from_back(uint64_t *word, size_t width, size_t i, size_t *slot, size_t *resting);

/*
 * The first free slot, the one that was removed last, is put to use at position i: what was removed at i goes back. So a burst is
 * withdrawn, last call first: insert_from_back at i by remove_to_back at i, remove at i by insert_first_free at i, and remove_slot by
 * insert_first_free at the position that the slot had. Refused: 1, 2, 4, 5; then *word is as it was.
 */
uint64_t cherchivola_insert_first_free(uint64_t *word, size_t width, size_t i);

/* As remove, at the position in use that holds the slot. Refused: 1, 2, 6; then *word is as it was. */
uint64_t cherchivola_remove_slot(uint64_t *word, size_t width, size_t slot);

/*
 * Wide banks, for widths 16 to 24: the same calls on 25 bytes. Byte 0 is the size, byte i+1 the slot at position i, and the bytes past
 * position width-1 are 0. The first `size` positions are in use, the others are free, and each slot from 0 to width-1 stands at one
 * position. The free slot at position width-1 goes out next.
 *
 * Stack: under 150 bytes, and 152 for wide_insert_from_back.
 */

/* Banks made anew. Refused: 1, and make_sorted 4 for n over the width; then the bank is as it was. */
uint64_t cherchivola_wide_empty(size_t width, uint8_t bank[25]);                 /* no slot in use; slot 0 goes out first */
uint64_t cherchivola_wide_make_sorted(size_t width, size_t n, uint8_t bank[25]); /* slots 0 to n-1 in use, in order */

/* Bytes from outside, written to the bank where they are a valid one. Refused: 1, 2; then the bank is as it was. */
uint64_t cherchivola_wide_from_bytes(const uint8_t bytes[25], size_t width, uint8_t bank[25]);

/* Questions: the answer is written to *told. Refused: 1, 2, and 4 for a place out of range; then *told is as it was. */
uint64_t cherchivola_wide_size(const uint8_t bank[25], size_t width, size_t *told);          /* how many slots are in use */
uint64_t cherchivola_wide_get(const uint8_t bank[25], size_t width, size_t i, size_t *told); /* the slot at position i */
uint64_t cherchivola_wide_back(const uint8_t bank[25], size_t width, size_t *told);          /* the slot at the last position */

/* Changes of the bank. Refused: 1, 2, and 4 for a place out of range; then the bank is as it was, byte for byte. */
uint64_t cherchivola_wide_remove(uint8_t bank[25], size_t width, size_t i);         /* the slot rests behind all free ones */
uint64_t cherchivola_wide_remove_to_back(uint8_t bank[25], size_t width, size_t i); /* the slot goes out next */
uint64_t cherchivola_wide_exchange(uint8_t bank[25], size_t width, size_t i, size_t j); /* any two positions */
/* positions i to width-1 become old j to width-1, then old i to j-1 */
uint64_t cherchivola_wide_rotate(uint8_t bank[25], size_t width, size_t i, size_t j);

/*
 * The slot at the back is put to use at position i and written to *slot; how many still rest, the width less the new size, is written to
 * *resting. Refused: 1, 2, 4, 5; then the bank and both numbers are as they were.
 */
uint64_t cherchivola_wide_insert_from_back(uint8_t bank[25], size_t width, size_t i, size_t *slot, size_t *resting);

/* The first free slot, the one that was removed last, is put to use at position i. Refused: 1, 2, 4, 5; then the bank is as it was. */
uint64_t cherchivola_wide_insert_first_free(uint8_t bank[25], size_t width, size_t i);

/* As remove, at the position in use that holds the slot. Refused: 1, 2, 6; then the bank is as it was. */
uint64_t cherchivola_wide_remove_slot(uint8_t bank[25], size_t width, size_t slot);

/*
 * Keys. A key is up to 256 bytes of the caller's. It is looked at eight bytes at a time, one layer after the other: beside the bytes stand
 * three numbers, which key_new makes and the shifts move. They are the eight bytes at the layer as a number (the ikey), how often the key
 * was shifted, and where the bytes behind those eight begin. Numbers that are not those of a layer of these bytes are refused with 7.
 *
 * Stack: compare_keys and key_compare_suffix take 112 bytes for each eight bytes that both keys have, 3.7 kB at most; all others under
 * 150 bytes.
 */

/*
 * The ikey at an offset: eight bytes from there on as one number, the first byte highest; bytes behind the last count as 0. Never refused,
 * and what it returns is the ikey: any number of bytes and any offset are taken.
 */
uint64_t cherchivola_read_ikey(const uint8_t *bytes, size_t length, size_t offset);

/* How key a stands to key b, byte by byte, and the shorter first where one begins the other. Refused: 7; then *order is as it was. */
uint64_t cherchivola_compare_keys(const uint8_t *a, size_t a_length, const uint8_t *b, size_t b_length, uint64_t *order);

/* The three numbers of a key at its first layer. Refused: 7; then they are as they were. */
uint64_t cherchivola_key_new(const uint8_t *bytes, size_t length, uint64_t *ikey, size_t *shift_count, size_t *suffix_start);

/*
 * A key moved to another layer: its three numbers are read and written. Refused: 7; and 8 for a shift with no more than eight bytes left,
 * for an unshift at the first layer, and for a shift_by that is no multiple of 8 or more than so many shifts would allow. Then all three
 * are as they were. unshift_all is never refused with 8.
 */
uint64_t cherchivola_key_shift(const uint8_t *bytes, size_t length, uint64_t *ikey, size_t *shift_count, size_t *suffix_start);
uint64_t cherchivola_key_shift_by(const uint8_t *bytes, size_t length, uint64_t *ikey, size_t *shift_count, size_t *suffix_start,
                                  size_t by); /* in bytes */
uint64_t cherchivola_key_unshift(const uint8_t *bytes, size_t length, uint64_t *ikey, size_t *shift_count, size_t *suffix_start);
uint64_t cherchivola_key_unshift_all(const uint8_t *bytes, size_t length, uint64_t *ikey, size_t *shift_count, size_t *suffix_start);

/*
 * How a key stands, at its layer alone, to one with this ikey and this many bytes left: by ikey, then by length, where all above 8 count as
 * one. So two longer keys with one ikey are equal here, and go on at the next layer. Refused: 7; then *order is as it was.
 */
uint64_t cherchivola_key_compare(const uint8_t *bytes, size_t length, uint64_t ikey, size_t shift_count, size_t suffix_start,
                                 uint64_t other_ikey, size_t other_length, uint64_t *order);

/* How a key's bytes from suffix_start on stand to other bytes, of any number. Refused: 7; then *order is as it was. */
uint64_t cherchivola_key_compare_suffix(const uint8_t *bytes, size_t length, uint64_t ikey, size_t shift_count, size_t suffix_start,
                                        const uint8_t *other, size_t other_length, uint64_t *order);

/*
 * An internode: n from 0 to 15, as many strictly rising ikeys, and one child more. The arrays always have 15 and 16 places; what stands in
 * places that are not in use is not looked at, and stays.
 *
 * Stack: under 1 KiB.
 */

/* The place of the first ikey that is not below the target, or n. Refused: 3; then *position is as it was. */
uint64_t cherchivola_find_insert_position(size_t n, const uint64_t ikeys[15], const uint64_t children[16], uint64_t target,
                                          size_t *position);

/* How the target stands to ikey p. Refused: 3, and 4 for p not below n; then *order is as it was. */
uint64_t cherchivola_compare_key(size_t n, const uint64_t ikeys[15], const uint64_t children[16], uint64_t target, size_t p,
                                 uint64_t *order);

/* The way down to the target: the child after the last ikey that is not above it. Refused: 3; then *child is as it was. */
uint64_t cherchivola_child_for(size_t n, const uint64_t ikeys[15], const uint64_t children[16], uint64_t target, uint64_t *child);

/*
 * Writes ikey p and child p+1; those from there on move up one, and *n grows by 1. Refused: 3, 4 for p over n, 5 with 15 ikeys, and 9 where
 * the ikey does not belong there; then *n, all ikeys and all children are as they were.
 */
uint64_t cherchivola_insert_key_and_child(size_t *n, uint64_t ikeys[15], uint64_t children[16], size_t p, uint64_t ikey, uint64_t child);

/*
 * The index: labels (keys of 0 to 256 bytes) with a frame number each, in memory that the caller lends to each call. It has three parts:
 * `nodes`, `cells` and `bytes`, for 1 to 255 nodes and 1 to 255 cells. A label takes one cell; up to 15 labels share a node. The lengths of
 * nodes and cells are in words, that of bytes in bytes:
 *
 *     static uint64_t nodes[CHERCHIVOLA_NODE_WORDS(8)];
 *     static uint64_t cells[CHERCHIVOLA_CELL_WORDS(40)];
 *     static uint8_t bytes[CHERCHIVOLA_KEY_BYTES(40)];
 *
 * Other lengths are refused with 10, and then nothing is read or written through the three pointers. Before the first call memory may
 * hold anything; `clear` makes an empty index of it, and `load` the one of an image. Every other call but `lengths` and `count` looks at
 * all of lent memory first, and is refused with 10 where that is no index by the rules of docs/LAYOUT.md: so is most damage, often a
 * single flipped bit. (Not seen is what leaves an index: another frame number, another byte far back in a long key.) What clear and
 * accepted calls leave is never refused with 10.
 *
 * Stack: `clear`, `lengths` and `count` take under 150 bytes. The others take 2 KiB and 400 bytes for each node on the longest way from
 * the root down through all layers, and 6 KiB at least. With 255 lent nodes 105 kB are enough, whatever stands in them.
 */
#define CHERCHIVOLA_NODE_WORDS(n) (2 + 47 * (size_t)(n))
#define CHERCHIVOLA_CELL_WORDS(c) (2 * (size_t)(c))
#define CHERCHIVOLA_KEY_BYTES(c) (256 * (size_t)(c))

/* How many nodes and cells these lengths are. It looks at lengths alone. Refused: 10; then *n and *c are as they were. */
uint64_t cherchivola_lengths(const uint64_t *nodes, size_t node_words, const uint64_t *cells, size_t cell_words, const uint8_t *bytes,
                             size_t byte_count, size_t *n, size_t *c);

/* Makes an empty index, whatever stood there. Refused: 10 for wrong lengths; then memory is as it was. */
uint64_t cherchivola_clear(uint64_t *nodes, size_t node_words, uint64_t *cells, size_t cell_words, uint8_t *bytes, size_t byte_count);

/*
 * Stores a new key with its frame number. How many slots rest in the leaf where the key is then, 15 less its size, goes into *resting.
 * Refused: 7, 10, 11; 13 where no cell is free; 14 where a cell is free and the key needs more nodes than are: how many more goes into
 * *lacking. Every other answer leaves *lacking as it was. Refused, *resting and memory are as they were.
 */
uint64_t cherchivola_put(uint64_t *nodes, size_t node_words, uint64_t *cells, size_t cell_words, uint8_t *bytes, size_t byte_count,
                         const uint8_t *key, size_t key_length, uint64_t frame, size_t *resting, uint64_t *lacking);

/*
 * Takes a key out; its cell is free again, and so are the nodes of the layers below the first that this leaves empty. Refused: 7, 10, 12;
 * then memory is as it was. (cherchivola_remove is the slot word's.)
 */
uint64_t cherchivola_remove_key(uint64_t *nodes, size_t node_words, uint64_t *cells, size_t cell_words, uint8_t *bytes,
                                size_t byte_count, const uint8_t *key, size_t key_length);

/* The frame number of a key. Refused: 7, 10, 12; then *frame is as it was. */
uint64_t cherchivola_find(const uint64_t *nodes, size_t node_words, const uint64_t *cells, size_t cell_words, const uint8_t *bytes,
                          size_t byte_count, const uint8_t *key, size_t key_length, uint64_t *frame);

/*
 * The entry with k entries before it, in the order of the keys' bytes: its cell, the length of its key and its frame number. The key stands
 * in `bytes` from 256 times the cell on. Refused: 10, and 12 for k not below the number of entries; then all three are as they were.
 */
uint64_t cherchivola_kth(const uint64_t *nodes, size_t node_words, const uint64_t *cells, size_t cell_words, const uint8_t *bytes,
                         size_t byte_count, uint64_t k, uint64_t *cell, uint64_t *key_length, uint64_t *frame);

/*
 * How many entries there are, as the index has it stored: it looks at the lengths alone, and takes tens of instructions where `find` takes
 * tens of thousands. After damage the number may be any; every other call refuses such memory with 10. Refused: 10 for wrong lengths; then
 * *count is as it was.
 */
uint64_t cherchivola_count(const uint64_t *nodes, size_t node_words, const uint64_t *cells, size_t cell_words, const uint8_t *bytes,
                           size_t byte_count, uint64_t *count);

/* Whether lent memory is an index, all of it. Refused: 10. */
uint64_t cherchivola_audit(const uint64_t *nodes, size_t node_words, const uint64_t *cells, size_t cell_words, const uint8_t *bytes,
                           size_t byte_count);

/*
 * The index on a card, as an image of blocks of 512 bytes. A block is 504 bytes of a stream and two words that check them. The stream is
 * the number of entries in 4 bytes, then for each entry, in key order, the length of its key in 2 bytes, the key, and its frame number
 * in 8; numbers have their lowest byte first, and zeros fill it up to a multiple of 504. An image holds entries and not memory: it can
 * be loaded into memory of another size. The image of an index with c cells takes CHERCHIVOLA_IMAGE_BYTES(c) at most, often far less.
 *
 * Stack: `save` takes 4 KiB and 400 bytes for each node on the longest way from the root down through all layers; with 255 lent nodes
 * 107 kB are enough. `load` takes 10 KiB at most.
 */
#define CHERCHIVOLA_IMAGE_BYTES(c) (512 * ((4 + 266 * (size_t)(c) + 503) / 504))

/*
 * Writes the image of the index into `out`, from its start on, and the number of its blocks into *blocks. Bytes behind the last block stay,
 * and the index is only read. Refused: 10, and 18 where `out` is too short; then all of `out`, and *blocks, are as they were.
 */
uint64_t cherchivola_save(const uint64_t *nodes, size_t node_words, const uint64_t *cells, size_t cell_words, const uint8_t *bytes,
                          size_t byte_count, uint8_t *out, size_t out_length, size_t *blocks);

/*
 * Makes of lent memory the index whose image this is, whatever stood there: it clears memory and puts each entry, in key order. The number
 * of entries is written into *entries. `image_length` is that of the image alone, 512 bytes for each block. Refused, in this order:
 *
 *     10  nodes, cells or bytes have wrong lengths
 *     15  the image is no positive multiple of 512 bytes long
 *     16  a block does not agree with its check; the number of the first such block, from 0, goes into *told. Where one aligned word of
 *         a block has changed, this is always found
 *     17  the stream is not one that `save` writes; the place in the stream where the first wrong part starts goes into *told
 *     13  the first key that finds no room finds no free cell
 *     14  it finds a cell, and too few free nodes; how many more it needs goes into *told
 *
 * With 10, 15, 16 and 17 memory is as it was; with 13 and 14 it is an empty index. A refusal leaves *entries as it was, and every answer
 * but 14, 16 and 17 leaves *told as it was. Keys put in their order leave leaves half full: an index may need more nodes after a load
 * than when it was saved, so that 14 can come up in memory of the same size.
 */
uint64_t cherchivola_load(uint64_t *nodes, size_t node_words, uint64_t *cells, size_t cell_words, uint8_t *bytes, size_t byte_count,
                          const uint8_t *image, size_t image_length, uint64_t *entries, uint64_t *told);

/*
 * Frame labels: what a camera stores a frame under. Edition 1 is 8 bytes: 1, two bytes of station, four of burst and one of frame. Edition
 * 2 is 9 bytes: 2, two of station, four of burst and two of frame. The highest byte of a field comes first, so that the index lists labels
 * of one edition by station, then burst, then frame, and all of edition 1 before those of edition 2. To the index they are keys as any.
 *
 * Stack: under 150 bytes.
 */

/* Writes a label. Never refused: each field has the type that its edition has room for. */
void cherchivola_label_build_first(uint16_t station, uint32_t burst, uint8_t frame, uint8_t label[8]);
void cherchivola_label_build_second(uint16_t station, uint32_t burst, uint16_t frame, uint8_t label[9]);

/*
 * Reads a label of either edition: 1 or 2 into *edition, and its fields. Refused: 19 where its first byte is another, and else where it has
 * not the length of its edition; the first byte goes into *told, or 0 where `length` is 0, and the other four are as they were. Accepted,
 * *told is as it was.
 */
uint64_t cherchivola_label_read(const uint8_t *label, size_t length, uint8_t *edition, uint16_t *station, uint32_t *burst,
                                uint16_t *frame, uint64_t *told);

/* The same by a reader that knows edition 1 alone: to it edition 2 is an unknown one, refused with 19 and 2 in *told. */
uint64_t cherchivola_label_read_first(const uint8_t *label, size_t length, uint16_t *station, uint32_t *burst, uint8_t *frame,
                                      uint64_t *told);

#ifdef __cplusplus
}
#endif

#endif
