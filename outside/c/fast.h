/* The edge list and the choice by the bench's own method in C, for sound input: what the bench's speed is compared with. */
#ifndef FAST_H
#define FAST_H

#include "depth_bench.h"

/* Writes the edge list for n to 132, 756 or 14,160 words and answers its count of patterns. */
size_t fast_list(size_t n, uint64_t *list);

depth_bench_choice fast_choose(size_t n, const uint64_t *list, size_t count, const uint8_t *border, const uint8_t *original,
    const uint8_t *table, size_t table_len, uint32_t reach, const uint8_t *texture);

#endif
