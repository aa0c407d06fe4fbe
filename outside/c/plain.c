/* Prediction and choice by plain loops: offsets are tried for every side of every pattern, sample by sample, until one costs nothing; the
   edge list with every candidate sample by sample and every earlier entry compared. Each is compiled for patterns of one word and of four,
   so that one word costs no more than if there were no others. */
#include "plain.h"

#include <stdlib.h>

#define INLINE static inline __attribute__((always_inline))

/* The mark of sample i in a pattern of so many words. */
INLINE int mark(size_t words, const uint64_t *pattern, size_t i) { return (words == 1 ? pattern[0] >> i : pattern[i / 64] >> i % 64) & 1; }

/* The index of the nearest table value; of two equally near, the greater. */
static int32_t index_of(const uint8_t *table, size_t len, int32_t depth) {
    size_t best = 0;
    for (size_t k = 1; k < len; k++) if (abs(table[k] - depth) <= abs(table[best] - depth)) best = k;
    return (int32_t)best;
}

/* The depths of the side that holds (0,0) and of the other. */
INLINE void depths(size_t words, size_t n, const uint64_t *pattern, const uint8_t *left, int32_t depth[2]) {
    const uint8_t *top = left + 2 * n;
    size_t end = 2 * n - 1;
    int first = mark(words, pattern, 0), v = first != mark(words, pattern, n - 1), h = first != mark(words, pattern, (n - 1) * n);
    depth[0] = v == h ? (left[0] + top[0]) / 2 : h ? top[(n - 1) / 2] : left[(n - 1) / 2];
    depth[1] = v && h ? (left[n - 1] + top[n - 1]) / 2 : h ? left[n - 1] : v ? top[n - 1]
        : abs(left[0] - left[end]) > abs(top[0] - top[end]) ? left[end] : top[end];
}

static int32_t value_at(const uint8_t *table, size_t len, int32_t index) {
    return table[index < 0 ? 0 : index >= (int32_t)len ? (int32_t)len - 1 : index];
}

INLINE void predict(size_t words, size_t n, const uint64_t *pattern, const uint8_t *border, const uint8_t *table, size_t table_len,
    int32_t off0, int32_t off1, uint8_t *block) {
    int32_t depth[2], first = mark(words, pattern, 0);
    depths(words, n, pattern, border, depth);
    uint8_t unmarked = (uint8_t)value_at(table, table_len, index_of(table, table_len, depth[first]) + off0);
    uint8_t marked = (uint8_t)value_at(table, table_len, index_of(table, table_len, depth[!first]) + off1);
    for (size_t i = 0; i < n * n; i++) block[i] = mark(words, pattern, i) ? marked : unmarked;
}

void plain_predict(size_t n, const uint64_t *pattern, const uint8_t *border, const uint8_t *table, size_t table_len, int32_t off0,
    int32_t off1, uint8_t *block) {
    if (n == 16) predict(4, n, pattern, border, table, table_len, off0, off1, block);
    else predict(1, n, pattern, border, table, table_len, off0, off1, block);
}

/* The reach in use: offsets that the table can't use are not tried. */
static uint32_t reach_in_use(uint32_t reach, size_t table_len) { return reach < table_len ? reach : (uint32_t)table_len - 1; }

/* What the samples of one side cost at a value. */
INLINE uint32_t side_cost(size_t words, size_t samples, const uint64_t *pattern, int32_t side, const uint8_t *original, int32_t value) {
    uint32_t cost = 0;
    for (size_t i = 0; i < samples; i++) if (mark(words, pattern, i) == side) cost += (uint32_t)abs(original[i] - value);
    return cost;
}

/* The best offsets of a pattern, put into `best` where they cost less; the offsets tried for them are added to its count. */
INLINE void weigh(size_t words, size_t n, const uint64_t *pattern, const uint8_t *border, const uint8_t *original, const uint8_t *table,
    size_t table_len, uint32_t reach, uint32_t kind, uint32_t entry, depth_bench_choice *best) {
    int32_t depth[2], offset[2] = { 0, 0 }, first = mark(words, pattern, 0);
    uint32_t cost[2];
    depths(words, n, pattern, border, depth);
    for (int32_t side = 0; side < 2; side++) {
        int32_t index = index_of(table, table_len, depth[side != first]);
        cost[side] = UINT32_MAX;
        for (int32_t trial = 0; trial <= 2 * (int32_t)reach && cost[side] != 0; trial++, best->tried++) {
            int32_t off = trial % 2 ? -(trial / 2 + 1) : trial / 2;
            uint32_t now = side_cost(words, n * n, pattern, side, original, value_at(table, table_len, index + off));
            if (now < cost[side]) { cost[side] = now; offset[side] = off; }
        }
    }
    if (cost[0] + cost[1] < best->cost)
        *best = (depth_bench_choice){ 0, kind, entry, offset[0], offset[1], cost[0] + cost[1], best->tried };
}

/* Border point k, clockwise from (0,0). */
static void point(int32_t n, int32_t k, int32_t *x, int32_t *y) {
    int32_t m = n - 1;
    *x = k < m ? k : k < 2 * m ? m : k < 3 * m ? 3 * m - k : 0;
    *y = k < m ? 0 : k < 2 * m ? k - m : k < 3 * m ? m : 4 * m - k;
}

INLINE void candidate(size_t words, int32_t n, int32_t s, int32_t e, uint64_t *pattern) {
    int32_t xs, ys, xe, ye;
    point(n, s, &xs, &ys);
    point(n, e, &xe, &ye);
    for (size_t k = 0; k < words; k++) pattern[k] = 0;
    for (int32_t i = 0; i < n * n; i++)
        if ((xe - xs) * (i / n - ys) - (ye - ys) * (i % n - xs) > 0) pattern[words == 1 ? 0 : i / 64] |= (uint64_t)1 << i % 64;
    if (pattern[0] & 1) for (size_t k = 0; k < words; k++) pattern[k] ^= n == 4 ? 0xFFFF : UINT64_MAX;
}

INLINE int equal(size_t words, const uint64_t *a, const uint64_t *b) {
    for (size_t k = 0; k < words; k++) if (a[k] != b[k]) return 0;
    return 1;
}

INLINE size_t build(size_t words, size_t n, uint64_t *list) {
    static const uint64_t none[4];
    size_t count = 0;
    int32_t points = 4 * (int32_t)n - 4;
    for (int32_t s = 0; s < points; s++) for (int32_t e = 0; e < points; e++) {
        uint64_t pattern[4];
        size_t k = 0;
        candidate(words, (int32_t)n, s, e, pattern);
        while (k < count && !equal(words, list + words * k, pattern)) k++;
        if (equal(words, pattern, none) || k < count) continue;
        for (size_t w = 0; w < words; w++) list[words * count + w] = pattern[w];
        count++;
    }
    return count;
}

size_t plain_list(size_t n, uint64_t *list) { return n == 16 ? build(4, n, list) : build(1, n, list); }

INLINE depth_bench_choice choose(size_t words, size_t n, const uint64_t *list, size_t count, const uint8_t *border,
    const uint8_t *original, const uint8_t *table, size_t table_len, uint32_t reach, const uint8_t *texture) {
    uint64_t outline[4] = { 0, 0, 0, 0 };
    depth_bench_choice best = { 0, 0, 0, 0, 0, UINT32_MAX, 0 };
    for (size_t k = 0; k < count; k++)
        weigh(words, n, list + words * k, border, original, table, table_len, reach, 0, (uint32_t)k, &best);
    if (texture == NULL) return best;
    uint32_t sum = texture[0] + texture[n - 1] + texture[n * n - n] + texture[n * n - 1];
    for (size_t i = 0; i < n * n; i++) if (texture[i] > sum / 4) outline[i / 64] |= (uint64_t)1 << i % 64;
    weigh(words, n, outline, border, original, table, table_len, reach, 1, 0, &best);
    return best;
}

depth_bench_choice plain_choose(size_t n, const uint64_t *list, size_t count, const uint8_t *border, const uint8_t *original,
    const uint8_t *table, size_t table_len, uint32_t reach, const uint8_t *texture) {
    reach = reach_in_use(reach, table_len);
    return n == 16 ? choose(4, n, list, count, border, original, table, table_len, reach, texture)
        : choose(1, n, list, count, border, original, table, table_len, reach, texture);
}
