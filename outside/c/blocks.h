/* What choices are timed on, blocks of noise with a table and a list, and a clock. */
#ifndef BLOCKS_H
#define BLOCKS_H

#include <time.h>

#include "fast.h"
#include "inputs.h"

/* The choice with the list lent, of libfile_calls.a. */
depth_bench_choice file_calls_choose(size_t n, const uint64_t *list, size_t list_len, size_t count, const uint8_t *border,
    size_t border_len, const uint8_t *original, size_t original_len, const uint8_t *table, size_t table_len, uint32_t reach,
    const uint8_t *texture, size_t texture_len);

enum { BLOCKS = 64, LIST = 14160, VALUES = 4, REACHES = 3 };

/* The lengths of the tables, and the reaches. */
static const size_t values_of[VALUES] = { 1, 3, 32, 256 };
static const uint32_t reach_of[REACHES] = { 0, 5, 255 };

static slice borders[BLOCKS], originals[BLOCKS], textures[BLOCKS], table;
static uint64_t list[LIST];
static size_t count;

/* The words of the list that is lent for n. */
static inline size_t list_words(size_t n) { return (4 * n - 4) * (4 * n - 5) * (n == 16 ? 4 : 1); }

static inline double now(void) {
    struct timespec t;
    clock_gettime(CLOCK_MONOTONIC, &t);
    return (double)t.tv_sec + 1e-9 * (double)t.tv_nsec;
}

/* Blocks of noise, a table of so many values, and the list for n. */
static inline void inputs(size_t n, size_t values) {
    for (int i = 0; i < BLOCKS; i++) {
        fill_near(&borders[i], 4 * n, 128, 100);
        fill_near(&originals[i], n * n, 128, 100);
        fill_near(&textures[i], n * n, 128, 100);
    }
    fill_near(&table, values, 0, 0);
    for (size_t i = 0; i < values; i++) start_of(&table)[i] = (uint8_t)((2 * i + 1) * 256 / (2 * values));
    count = fast_list(n, list);
}

#endif
