/* Includes the header twice and uses all that it declares, as C or C++. With DOUBLES defined the three calls are test doubles that stand
 * here; else they are the library's. Either way it prints nothing and ends with status 0. */
#include "depth_bench.h"
#include "depth_bench.h"

/* How many offsets are tried for the block in `main`. */
static const uint32_t offsets_tried = 356;

#ifdef DOUBLES
depth_bench_prediction depth_bench_predict(size_t n, uint64_t word0, uint64_t word1, uint64_t word2, uint64_t word3,
    const uint8_t *border, size_t border_len, const uint8_t *table, size_t table_len, int32_t off0, int32_t off1, uint8_t *block,
    size_t block_len) {
    int words = word1 == 0 && word2 == 0 && word3 == 0;
    depth_bench_prediction answer = { words && border[0] == 9 && border_len == 16 && n == 4 && off1 - off0 == 0 ? 0u : 1u, 12 };
    for (size_t i = 0; i < block_len; i++) block[i] = word0 >> i & 1 ? table[table_len - 1] : table[0];
    return answer;
}

depth_bench_choice depth_bench_choose(size_t n, const uint8_t *border, size_t border_len, const uint8_t *original, size_t original_len,
    const uint8_t *table, size_t table_len, uint32_t reach, const uint8_t *texture, size_t texture_len) {
    int lent = n * n == original_len && border_len == 4 * n && border[0] == table[0] && original[15] == table[table_len - 1];
    depth_bench_choice answer = { lent && texture == NULL && texture_len == 0 && reach == 1 ? 0u : 1u, 0, 0, 0, 0, 0, offsets_tried };
    return answer;
}

depth_bench_pattern depth_bench_pattern_of(size_t n, uint32_t kind, uint32_t entry, const uint8_t *texture, size_t texture_len) {
    depth_bench_pattern answer = { n == 4 && kind + entry == 0 && texture == NULL && texture_len == 0 ? 0u : 1u, { 0xFFF0, 0, 0, 0 } };
    return answer;
}
#endif

/* The calls by their types: another declaration would not go into these. */
typedef depth_bench_prediction (*predict_call)(size_t, uint64_t, uint64_t, uint64_t, uint64_t, const uint8_t *, size_t, const uint8_t *,
    size_t, int32_t, int32_t, uint8_t *, size_t);
typedef depth_bench_choice (*choose_call)(size_t, const uint8_t *, size_t, const uint8_t *, size_t, const uint8_t *, size_t, uint32_t,
    const uint8_t *, size_t);
typedef depth_bench_pattern (*pattern_call)(size_t, uint32_t, uint32_t, const uint8_t *, size_t);

static predict_call predict = depth_bench_predict;
static choose_call choose = depth_bench_choose;
static pattern_call pattern_of = depth_bench_pattern_of;

/* A block under a dark top row, which the first wedgelet, all rows but the first, predicts without a difference. */
int main(void) {
    uint8_t border[16], original[16], block[16];
    const uint8_t table[] = { 9, 200 };
    for (int i = 0; i < 16; i++) border[i] = i == 0 || i > 7 ? 9 : 200;
    for (int i = 0; i < 16; i++) original[i] = i < 4 ? 9 : 200;
    depth_bench_choice best = choose(4, border, sizeof border, original, sizeof original, table, sizeof table, 1, NULL, 0);
    if (best.refusal != 0 || best.kind != 0 || best.entry != 0 || best.off0 != 0 || best.off1 != 0) return 1;
    if (best.cost != 0 || best.tried != offsets_tried) return 1;
    depth_bench_pattern pattern = pattern_of(4, best.kind, best.entry, NULL, 0);
    if (pattern.refusal != 0 || pattern.word[0] != 0xFFF0 || (pattern.word[1] | pattern.word[2] | pattern.word[3]) != 0) return 2;
    const uint64_t *word = pattern.word;
    depth_bench_prediction made = predict(4, word[0], word[1], word[2], word[3], border, sizeof border, table, sizeof table, best.off0,
        best.off1, block, sizeof block);
    if (made.refusal != 0 || made.marks != 12) return 3;
    for (int i = 0; i < 16; i++) if (block[i] != original[i]) return 4;
    /* The fields by their types. */
    uint32_t *const numbers[] = { &made.refusal, &made.marks, &best.refusal, &best.kind, &best.entry, &best.cost, &best.tried,
        &pattern.refusal };
    int32_t *const offsets[] = { &best.off0, &best.off1 };
    if (*numbers[0] != 0 || *offsets[0] != 0) return 5;
    const int stack[] = { DEPTH_BENCH_STACK_PREDICT, DEPTH_BENCH_STACK_PATTERN_OF, DEPTH_BENCH_STACK_CHOOSE };
    return stack[0] > 0 && stack[1] > 0 && stack[2] > 0 ? 0 : 6;
}
