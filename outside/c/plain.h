/* Prediction, the edge list and choice by plain loops in C, for sound input: what the bench's speed is compared with. A pattern is one word
   up to n = 8 and four words at n = 16, in a list too. */
#ifndef PLAIN_H
#define PLAIN_H

#include "depth_bench.h"

void plain_predict(size_t n, const uint64_t *pattern, const uint8_t *border, const uint8_t *table, size_t table_len, int32_t off0,
    int32_t off1, uint8_t *block);

/* Writes the edge list for n to 132, 756 or 14,160 words and answers its count of patterns. */
size_t plain_list(size_t n, uint64_t *list);

depth_bench_choice plain_choose(size_t n, const uint64_t *list, size_t count, const uint8_t *border, const uint8_t *original,
    const uint8_t *table, size_t table_len, uint32_t reach, const uint8_t *texture);

#endif
