/* The independent implementation behind C's calls: the library that outside/judge builds. */
#ifndef JUDGE_H
#define JUDGE_H

#include "depth_bench.h"

depth_bench_prediction judge_predict(size_t n, uint64_t word0, uint64_t word1, uint64_t word2, uint64_t word3,
    const uint8_t *border, size_t border_len, const uint8_t *table, size_t table_len, int32_t off0, int32_t off1, uint8_t *block,
    size_t block_len);
depth_bench_choice judge_choose(size_t n, const uint8_t *border, size_t border_len, const uint8_t *original, size_t original_len,
    const uint8_t *table, size_t table_len, uint32_t reach, const uint8_t *texture, size_t texture_len);
depth_bench_pattern judge_pattern_of(size_t n, uint32_t kind, uint32_t entry, const uint8_t *texture, size_t texture_len);

#endif
