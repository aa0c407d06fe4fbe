/* The edge list and the choice by the bench's own method, in C, to compare speeds with; for sound input only. A choice, once a block: the
   index of the depth in each of the eight cases, the pattern of the samples below each value, and for each eight samples the sums by the
   byte that marks them. A side's cost is convex in the value, so the turn along the table is found by halving, and the best level is there
   or one step further; how many offsets a trial one by one takes follows from the best. The list: the marks of a row are a prefix or a
   suffix of it, and an equal entry is looked for among those with as many marks. Each is compiled for patterns of one word and of four. */
#include "fast.h"

#define INLINE static inline __attribute__((always_inline))

typedef struct { uint64_t below[257][4]; uint16_t sums[32][256]; size_t index[8]; } prepared;
typedef struct { const uint64_t *marks; uint32_t size, sum; } side;
typedef struct { size_t number; uint32_t cost; } trial;

/* No popcnt instruction, as in the library. */
INLINE uint32_t ones_of_word(uint64_t w) {
    w -= w >> 1 & 0x5555555555555555u;
    w = (w & 0x3333333333333333u) + (w >> 2 & 0x3333333333333333u);
    w = (w + (w >> 4)) & 0x0F0F0F0F0F0F0F0Fu;
    return (uint32_t)(w * 0x0101010101010101u >> 56);
}

INLINE uint32_t ones(size_t words, const uint64_t *part) {
    uint32_t sum = 0;
    for (size_t k = 0; k < words; k++) sum += ones_of_word(part[k]);
    return sum;
}

INLINE size_t mark(const uint64_t *pattern, size_t i) { return pattern[i / 64] >> i % 64 & 1; }

INLINE uint32_t apart(uint32_t a, uint32_t b) { return a < b ? b - a : a - b; }

static size_t index_of(const uint8_t *table, size_t len, uint32_t depth) {
    size_t best = 0;
    for (size_t k = 1; k < len; k++) if (apart(depth, table[k]) <= apart(depth, table[best])) best = k;
    return best;
}

/* The depth in a case: 4 for the side that does not hold (0,0), 2 for v, 1 for h. */
static uint32_t case_depth(size_t n, const uint8_t *left, size_t k) {
    const uint8_t *top = left + 2 * n;
    size_t end = 2 * n - 1, v = k / 2 % 2, h = k % 2;
    if (k < 4) return v == h ? (left[0] + top[0]) / 2u : h ? top[(n - 1) / 2] : left[(n - 1) / 2];
    return v && h ? (left[n - 1] + top[n - 1]) / 2u : h ? left[n - 1] : v ? top[n - 1]
        : apart(left[0], left[end]) > apart(top[0], top[end]) ? left[end] : top[end];
}

INLINE void prepare(size_t words, prepared *p, size_t n, const uint8_t *border, const uint8_t *original, const uint8_t *table,
    size_t table_len) {
    for (size_t v = 0; v < 257; v++) for (size_t w = 0; w < words; w++) p->below[v][w] = 0;
    for (size_t i = 0; i < n * n; i++) p->below[original[i] + 1][i / 64] |= (uint64_t)1 << i % 64;
    for (size_t v = 0; v < 256; v++) for (size_t w = 0; w < words; w++) p->below[v + 1][w] |= p->below[v][w];
    for (size_t r = 0; r < 8 * words; r++) p->sums[r][0] = 0;
    for (size_t i = 0; i < n * n; i++) {
        uint16_t *sums = p->sums[i / 8];
        size_t width = (size_t)1 << i % 8;
        for (size_t b = 0; b < width; b++) sums[width + b] = (uint16_t)(sums[b] + original[i]);
    }
    for (size_t k = 0; k < 8; k++) p->index[k] = index_of(table, table_len, case_depth(n, border, k));
}

INLINE uint32_t count_below(size_t words, const prepared *p, const uint64_t *part, size_t v) {
    uint32_t sum = 0;
    for (size_t w = 0; w < words; w++) sum += ones_of_word(part[w] & p->below[v][w]);
    return sum;
}

/* The sum of the samples that both patterns mark. */
INLINE uint32_t sum_of(size_t words, const prepared *p, const uint64_t *a, const uint64_t *b) {
    uint32_t sum = 0;
    for (size_t w = 0; w < words; w++) for (size_t k = 0; k < 8; k++) sum += p->sums[8 * w + k][(a[w] & b[w]) >> 8 * k & 255];
    return sum;
}

/* Samples below v cost v less the sample, the others the sample less v. */
INLINE uint32_t cost_at(size_t words, const prepared *p, side part, uint32_t v) {
    uint32_t count = count_below(words, p, part.marks, v), lower = sum_of(words, p, part.marks, p->below[v]);
    return part.sum + 2 * v * count - (2 * lower + v * part.size);
}

/* The last index of low .. high - 1, or low, of whose value plus `plus` less than half of the limit is below. */
INLINE size_t turn(size_t words, const prepared *p, side part, uint32_t limit, const uint8_t *table, size_t plus, size_t low, size_t high) {
    while (low + 1 < high) {
        size_t middle = (low + high) / 2;
        if (2 * count_below(words, p, part.marks, table[middle] + plus) < limit) low = middle; else high = middle;
    }
    return low;
}

/* The better of two levels; where they are next to each other as values the farther costs less. */
INLINE trial better(size_t words, const prepared *p, side part, uint32_t near, size_t near_number, uint32_t far, size_t far_number) {
    trial best = { far_number, cost_at(words, p, part, far) };
    if (near + 1 == far || far + 1 == near) return best;
    uint32_t cost = cost_at(words, p, part, near);
    return best.cost < cost ? best : (trial){ near_number, cost };
}

INLINE trial best_of_part(size_t words, const prepared *p, side part, const uint8_t *table, size_t len, size_t at, size_t reach) {
    size_t last = reach < len - 1 - at ? at + reach : len - 1, end = reach < at ? at - reach : 0;
    if (at < last && 2 * count_below(words, p, part.marks, table[at] + 1u) < part.size) {
        size_t low = turn(words, p, part, part.size, table, 1, at, last);
        return better(words, p, part, table[low], 2 * (low - at), table[low + 1], 2 * (low + 1 - at));
    }
    if (end < at && part.size < 2 * count_below(words, p, part.marks, table[at])) {
        size_t low = turn(words, p, part, part.size + 1, table, 0, end, at), near = at - low - 1;
        return better(words, p, part, table[low + 1], near == 0 ? 0 : 2 * near - 1, table[low], 2 * (at - low) - 1);
    }
    return (trial){ 0, cost_at(words, p, part, table[at]) };
}

/* How many offsets a trial one by one takes for a side: up to its best one where that costs nothing, else all. */
INLINE uint32_t tried(trial best, uint32_t reach) { return best.cost == 0 ? (uint32_t)best.number + 1 : 2 * reach + 1; }

/* The reach in use: offsets that the table can't use are not tried. */
static uint32_t reach_in_use(uint32_t reach, size_t table_len) { return reach < table_len ? reach : (uint32_t)table_len - 1; }

static int32_t offset_of(size_t t) { return t % 2 == 0 ? (int32_t)(t / 2) : -1 - (int32_t)(t / 2); }

static void contour_of(size_t n, const uint8_t *texture, uint64_t contour[4]) {
    uint32_t sum = texture[0] + texture[n - 1] + texture[n * n - n] + texture[n * n - 1];
    for (size_t i = 0; i < n * n; i++) if (texture[i] > sum / 4) contour[i / 64] |= (uint64_t)1 << i % 64;
}

INLINE depth_bench_choice choose(size_t words, size_t n, const uint64_t *list, size_t count, const uint8_t *border,
    const uint8_t *original, const uint8_t *table, size_t table_len, uint32_t reach, const uint8_t *texture) {
    prepared p;
    depth_bench_choice best = { 0, 0, 0, 0, 0, UINT32_MAX, 0 };
    uint64_t contour[4] = { 0, 0, 0, 0 }, rest[4];
    prepare(words, &p, n, border, original, table, table_len);
    if (texture != NULL) contour_of(n, texture, contour);
    for (size_t k = 0; k < count + (texture != NULL); k++) {
        const uint64_t *pattern = k < count ? list + words * k : contour;
        size_t origin = mark(pattern, 0), edges = 2 * (origin ^ mark(pattern, n - 1)) + (origin ^ mark(pattern, (n - 1) * n));
        for (size_t w = 0; w < words; w++) rest[w] = p.below[256][w] - pattern[w];
        side one = { pattern, ones(words, pattern), sum_of(words, &p, pattern, pattern) };
        side other = { rest, (uint32_t)(n * n) - one.size, sum_of(words, &p, rest, rest) };
        trial unmarked = best_of_part(words, &p, other, table, table_len, p.index[4 * origin + edges], reach);
        trial marked = best_of_part(words, &p, one, table, table_len, p.index[4 * !origin + edges], reach);
        best.tried += tried(unmarked, reach) + tried(marked, reach);
        if (unmarked.cost + marked.cost < best.cost)
            best = (depth_bench_choice){ 0, k >= count, k < count ? (uint32_t)k : 0, offset_of(unmarked.number), offset_of(marked.number),
                unmarked.cost + marked.cost, best.tried };
    }
    return best;
}

depth_bench_choice fast_choose(size_t n, const uint64_t *list, size_t count, const uint8_t *border, const uint8_t *original,
    const uint8_t *table, size_t table_len, uint32_t reach, const uint8_t *texture) {
    reach = reach_in_use(reach, table_len);
    return n == 16 ? choose(4, n, list, count, border, original, table, table_len, reach, texture)
        : choose(1, n, list, count, border, original, table, table_len, reach, texture);
}

/* Border point k, clockwise from (0,0). */
static void point(int32_t n, int32_t k, int32_t *x, int32_t *y) {
    int32_t m = n - 1;
    *x = k < m ? k : k < 2 * m ? m : k < 3 * m ? 3 * m - k : 0;
    *y = k < m ? 0 : k < 2 * m ? k - m : k < 3 * m ? m : 4 * m - k;
}

/* The marks of a row of n samples: those with `down` * x < `limit`. */
INLINE uint64_t row_marks(int32_t n, int32_t down, int32_t limit) {
    uint32_t all = ((uint32_t)1 << n) - 1;
    if (down == 0) return limit > 0 ? all : 0;
    if (down > 0) {
        uint32_t first = limit <= 0 ? 0 : ((uint32_t)limit - 1) / (uint32_t)down + 1;
        return first >= (uint32_t)n ? all : ((uint32_t)1 << first) - 1;
    }
    uint32_t from = limit > 0 ? 0 : (uint32_t)-limit / (uint32_t)-down + 1;
    return from >= (uint32_t)n ? 0 : all >> from << from;
}

INLINE void candidate(size_t words, int32_t n, int32_t s, int32_t e, uint64_t *pattern) {
    int32_t xs, ys, xe, ye, rows = 64 / n;
    point(n, s, &xs, &ys);
    point(n, e, &xe, &ye);
    int32_t right = xe - xs, down = ye - ys, limit = down * xs - right * ys;
    uint64_t turned = limit > 0 ? ((uint64_t)1 << n) - 1 : 0;
    for (size_t w = 0; w < words; w++) pattern[w] = 0;
    for (int32_t y = 0; y < n; y++, limit += right)
        pattern[words == 1 ? 0 : y / rows] |= (row_marks(n, down, limit) ^ turned) << (words == 1 ? y : y % rows) * n;
}

INLINE int equal(size_t words, const uint64_t *a, const uint64_t *b) {
    for (size_t k = 0; k < words; k++) if (a[k] != b[k]) return 0;
    return 1;
}

INLINE size_t build(size_t words, size_t n, uint64_t *list) {
    uint16_t first[257] = { 0 }, next[3541];
    size_t count = 0;
    int32_t points = 4 * (int32_t)n - 4;
    for (int32_t s = 0; s < points; s++) for (int32_t e = 0; e < points; e++) {
        uint64_t pattern[4];
        candidate(words, (int32_t)n, s, e, pattern);
        uint32_t marks = ones(words, pattern);
        if (marks == 0) continue;
        size_t k = first[marks];
        while (k != 0 && !equal(words, list + words * (k - 1), pattern)) k = next[k];
        if (k != 0) continue;
        for (size_t w = 0; w < words; w++) list[words * count + w] = pattern[w];
        count++;
        next[count] = first[marks];
        first[marks] = (uint16_t)count;
    }
    return count;
}

size_t fast_list(size_t n, uint64_t *list) { return n == 16 ? build(4, n, list) : build(1, n, list); }
