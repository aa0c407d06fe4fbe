/* Pseudo-random inputs, sound and damaged, from one printed seed. */
#ifndef INPUTS_H
#define INPUTS_H

#include <stddef.h>
#include <stdint.h>
#include <string.h>

enum { GUARD = 32, ROOM = 288 };

/* A lent slice with guard bytes on both sides. */
typedef struct { uint8_t bytes[GUARD + ROOM + GUARD]; size_t len; } slice;

static uint64_t random_state;

static inline uint64_t random_word(void) {
    random_state ^= random_state >> 12;
    random_state ^= random_state << 25;
    random_state ^= random_state >> 27;
    return random_state * 2685821657736338717u;
}

/* A number below `end`. */
static inline uint32_t below(uint32_t end) { return (uint32_t)((random_word() >> 32) % end); }

/* True once in `times` on the average, never where that is 0. */
static inline int seldom(uint32_t times) { return times != 0 && below(times) == 0; }

static inline uint8_t *start_of(slice *s) { return s->bytes + GUARD; }

/* `len` bytes around a middle value, within `spread` of it. */
static inline void fill_near(slice *s, size_t len, uint32_t middle, uint32_t spread) {
    memset(s->bytes, 0xA5, sizeof s->bytes);
    s->len = len;
    for (size_t i = 0; i < len; i++) {
        int32_t value = (int32_t)middle + (int32_t)below(2 * spread + 1) - (int32_t)spread;
        start_of(s)[i] = (uint8_t)(value < 0 ? 0 : value > 255 ? 255 : value);
    }
}

/* Bytes of any value, or close to each other, so that ties come about. */
static inline void fill_samples(slice *s, size_t len) {
    static const uint32_t spreads[] = { 0, 1, 3, 20, 255 };
    fill_near(s, len, below(256), spreads[below(5)]);
}

/* A length, mostly the right one. */
static inline size_t length_near(size_t right, uint32_t times) {
    if (!seldom(times)) return right;
    switch (below(4)) {
    case 0: return 0;
    case 1: return right + 1;
    case 2: return right == 0 ? 1 : right - 1;
    default: return below(ROOM - 30);
    }
}

/* A block size, mostly an allowed one, each as often as the others. */
static inline size_t any_size(uint32_t times) {
    static const size_t allowed[] = { 4, 8, 16 };
    static const size_t others[] = { 0, 1, 2, 3, 5, 6, 7, 9, 12, 15, 17, 24, 32, 64, ((size_t)1 << 32) + 16, SIZE_MAX, SIZE_MAX / 4 + 1 };
    return seldom(times) ? others[below(sizeof others / sizeof *others)] : allowed[below(3)];
}

/* The side that slices are made for where n is the size: n itself where there is room for its blocks. */
static inline size_t side_for(size_t n) { return n <= 16 ? n : 16; }

/* The number of wedgelets for n, as document 01's rule gives it. */
static inline uint32_t wedgelets_for(size_t n) { return n == 4 ? 74 : n == 8 ? 498 : 2498; }

/* A pattern for n: none, all, single marks, random marks, dense and sparse. Below n = 16 words 1 to 3 are of no meaning and mostly not 0;
   at n = 4 word 0 seldom has a bit from 16 up. */
static inline void any_pattern(size_t n, uint64_t word[4]) {
    uint32_t kind = below(8);
    for (int k = 0; k < 4; k++) {
        uint64_t any = random_word();
        word[k] = kind == 0 ? 0 : kind == 1 ? UINT64_MAX : kind == 2 ? any & random_word() & random_word()
            : kind == 3 ? any | random_word() | random_word() : kind == 4 ? 0 : any;
    }
    if (kind == 4) word[n == 16 ? below(4) : 0] = (uint64_t)1 << below(n == 4 ? 16 : 64);
    if (n == 4 && kind != 5) word[0] &= 0xFFFF;
    if (n != 16 && seldom(2)) for (int k = 1; k < 4; k++) word[k] = random_word();
}

/* A table of rising values, seldom damaged: empty, too long, with equal neighbours or falling. */
static inline void fill_table(slice *s, uint32_t times) {
    static const uint32_t counts[] = { 1, 2, 3, 8, 32, 128, 256 };
    uint32_t count = counts[below(7)], left = 256;
    memset(s->bytes, 0xA5, sizeof s->bytes);
    s->len = 0;
    for (uint32_t value = 0; value < 256; value++, left--) {
        if (below(left) < count - s->len) start_of(s)[s->len++] = (uint8_t)value;
    }
    if (!seldom(times)) return;
    switch (below(4)) {
    case 0: s->len = 0; break;
    case 1: start_of(s)[s->len] = start_of(s)[s->len - 1]; s->len++; break;
    case 2: start_of(s)[s->len] = 0; s->len++; break;
    default: for (s->len = 0; s->len < 257; s->len++) start_of(s)[s->len] = (uint8_t)s->len; break;
    }
}

/* An offset, mostly one that a table of so many values can use, near 0 or not; seldom about the count, or out of range. */
static inline int32_t any_offset(size_t count, uint32_t times) {
    static const int32_t outside[] = { 256, -256, 257, -257, 1000, -1000, INT32_MAX, INT32_MIN };
    int32_t most = count == 0 ? 0 : count > 256 ? 255 : (int32_t)count - 1, range = below(2) ? 3 : 255;
    const int32_t about[] = { most, most + 1, most + 2, 255 };
    if (seldom(times)) return outside[below(8)];
    if (seldom(times)) return (below(2) ? 1 : -1) * about[below(4)];
    if (range > most) range = most;
    return (int32_t)below(2 * (uint32_t)range + 1) - range;
}

#endif
