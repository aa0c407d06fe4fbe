/* Times the bench beside plain C, and beside its own method in C, in one run and prints the ratios. Answers are compared on every block
   that two of them see. */
#include <stdio.h>
#include <string.h>

#include "blocks.h"

/* The plain loops, compiled at -O2 and at -O3. */
#define PLAIN(level) \
    void plain_predict_##level(size_t, const uint64_t *, const uint8_t *, const uint8_t *, size_t, int32_t, int32_t, uint8_t *); \
    size_t plain_list_##level(size_t, uint64_t *); \
    depth_bench_choice plain_choose_##level(size_t, const uint64_t *, size_t, const uint8_t *, const uint8_t *, const uint8_t *, size_t, \
        uint32_t, const uint8_t *);
PLAIN(O2)
PLAIN(O3)

enum { BENCH = 0, PLAIN2 = 1, PLAIN3 = 2, SAME = 3 };
static uint8_t out[256];
static uint64_t check;

/* The plain loops take few blocks and rounds, at n = 16 a single block and two rounds: a choice of theirs takes a second there. */
static int plain_blocks(size_t n) { return n == 16 ? 1 : 2; }
static int plain_rounds(size_t n) { return n == 16 ? 2 : 6; }

/* A choice for block i, with the list lent or with the list built for it. */
static depth_bench_choice choose_with(int who, int built, size_t n, uint32_t reach, int i) {
    const uint8_t *b = start_of(&borders[i]), *o = start_of(&originals[i]), *t = start_of(&textures[i]), *v = start_of(&table);
    static uint64_t own[LIST];
    const uint64_t *l = built ? own : list;
    size_t c = count;
    if (who == BENCH && built) return depth_bench_choose(n, b, 4 * n, o, n * n, v, table.len, reach, t, n * n);
    if (who == BENCH) return file_calls_choose(n, list, list_words(n), count, b, 4 * n, o, n * n, v, table.len, reach, t, n * n);
    if (built) c = who == PLAIN2 ? plain_list_O2(n, own) : who == PLAIN3 ? plain_list_O3(n, own) : fast_list(n, own);
    switch (who) {
    case PLAIN2: return plain_choose_O2(n, l, c, b, o, v, table.len, reach, t);
    case PLAIN3: return plain_choose_O3(n, l, c, b, o, v, table.len, reach, t);
    default: return fast_choose(n, l, c, b, o, v, table.len, reach, t);
    }
}

/* Whether all answer the same: the plain loops for the blocks that they are timed on, the others for all. The lists that they build were
   compared before, so that at n = 16 the plain loops take the lent one alone. */
static int agree(size_t n, uint32_t reach) {
    for (int i = 0; i < BLOCKS; i++) for (int who = BENCH; who <= SAME; who++) for (int built = 0; built < 2; built++) {
        if ((who == PLAIN2 || who == PLAIN3) && (i >= plain_blocks(n) || (n == 16 && built))) continue;
        depth_bench_choice a = choose_with(BENCH, 0, n, reach, i), b = choose_with(who, built, n, reach, i);
        if (a.refusal != 0 || b.refusal != 0 || a.kind != b.kind || a.entry != b.entry) return 0;
        if (a.off0 != b.off0 || a.off1 != b.off1 || a.cost != b.cost || a.tried != b.tried) return 0;
    }
    return 1;
}

/* Seconds for one choice by each: the mean over the blocks of the least of several rounds. All take a block by turns, so that where the
   machine is slower for a while it is so for all, and all but the plain loops take all blocks in turn, so that branch prediction does not
   learn one block. */
static void choice_times(int built, size_t n, uint32_t reach, double mean[4]) {
    static double least[4][BLOCKS];
    for (int who = BENCH; who <= SAME; who++) for (int i = 0; i < BLOCKS; i++) least[who][i] = 1e9;
    for (int r = 0; r < 12; r++) for (int i = 0; i < BLOCKS; i++) for (int who = BENCH; who <= SAME; who++) {
        if ((who == PLAIN2 || who == PLAIN3) && (r >= plain_rounds(n) || i >= plain_blocks(n))) continue;
        double start = now();
        check += choose_with(who, built, n, reach, i).cost;
        double spent = now() - start;
        if (spent < least[who][i]) least[who][i] = spent;
    }
    for (int who = BENCH; who <= SAME; who++) {
        int blocks = who == PLAIN2 || who == PLAIN3 ? plain_blocks(n) : BLOCKS;
        mean[who] = 0;
        for (int i = 0; i < blocks; i++) mean[who] += least[who][i] / blocks;
    }
}

/* Seconds for a prediction by the bench and by the plain loops, by turns, of a pattern that is another one each time. */
static void predict_times(size_t n, double best[2]) {
    const uint8_t *v = start_of(&table);
    best[BENCH] = best[PLAIN2] = 1e9;
    for (int r = 0; r < 40; r++) for (int who = BENCH; who <= PLAIN2; who++) {
        double start = now();
        for (int i = 0; i < 2000; i++) {
            const uint8_t *b = start_of(&borders[i % BLOCKS]);
            uint64_t word[4] = { 0xFFFFFFFF00000000u ^ (uint64_t)i, UINT64_MAX, 0, (uint64_t)i << 40 };
            if (who == BENCH) depth_bench_predict(n, word[0], word[1], word[2], word[3], b, 4 * n, v, table.len, -1, 1, out, n * n);
            else plain_predict_O2(n, word, b, v, table.len, -1, 1, out);
            check += out[i % (n * n)];
        }
        double spent = (now() - start) / 2000;
        if (spent < best[who]) best[who] = spent;
    }
}

/* Seconds for building the list by each, by turns; the bench's is that of depth_bench_pattern_of, which builds it and takes an entry. */
static void list_times(size_t n, double best[4]) {
    static uint64_t own[LIST];
    for (int who = BENCH; who <= SAME; who++) best[who] = 1e9;
    for (int r = 0; r < (n == 16 ? 40 : 400); r++) for (int who = BENCH; who <= SAME; who++) {
        double start = now();
        switch (who) {
        case BENCH: check += depth_bench_pattern_of(n, 0, 0, NULL, 0).word[0]; break;
        case PLAIN2: check += plain_list_O2(n, own); break;
        case PLAIN3: check += plain_list_O3(n, own); break;
        default: check += fast_list(n, own); break;
        }
        double spent = now() - start;
        if (spent < best[who]) best[who] = spent;
    }
}

/* A line for each size; whether all lists are the same, the bench's by the patterns of all its entries. */
static int lists(void) {
    static uint64_t plain[LIST], fast[LIST];
    printf("| list | bench | plain C -O2 | plain C -O3 | same method -O3 | ratios |\n|---|---|---|---|---|---|\n");
    for (size_t n = 4; n <= 16; n *= 2) {
        double spent[4];
        size_t found = plain_list_O2(n, plain), words = n == 16 ? 4 : 1;
        if (fast_list(n, fast) != found || memcmp(plain, fast, sizeof plain[0] * words * found) != 0) return 0;
        for (size_t k = 0; k <= found; k++) {
            depth_bench_pattern p = depth_bench_pattern_of(n, 0, (uint32_t)k, NULL, 0);
            if ((p.refusal == 0) != (k < found) || (k < found && memcmp(p.word, plain + words * k, 8 * words) != 0)) return 0;
        }
        list_times(n, spent);
        printf("| n = %zu, %zu patterns | %.1f | %.1f | %.1f | %.1f | %.4f, %.4f, %.2f |\n", n, found, 1e6 * spent[BENCH],
            1e6 * spent[PLAIN2], 1e6 * spent[PLAIN3], 1e6 * spent[SAME], spent[BENCH] / spent[PLAIN2], spent[BENCH] / spent[PLAIN3],
            spent[BENCH] / spent[SAME]);
    }
    return 1;
}

/* Seconds for the checks of a choice: a reach of 256 is refused after the table is judged, and the words of a list that is lent. */
static double checks_time(int built, size_t n) {
    double best = 1e9;
    for (int r = 0; r < 9; r++) {
        double start = now();
        for (int i = 0; i < 1000; i++) check += choose_with(BENCH, built, n, 256, i % BLOCKS).refusal;
        double spent = (now() - start) / 1000;
        if (spent < best) best = spent;
    }
    return best;
}

/* A table of all sizes, table lengths and reaches; whether all answers agree. */
static int choices(int built) {
    printf("| choose, the list %s | reach 0 | reach 5 | reach 255 |\n|---|---|---|---|\n", built ? "built" : "lent");
    for (size_t n = 4; n <= 16; n *= 2) for (int v = 0; v < VALUES; v++) {
        printf("| n = %zu, %zu value%s |", n, values_of[v], values_of[v] == 1 ? "" : "s");
        inputs(n, values_of[v]);
        for (int r = 0; r < REACHES; r++) {
            double mean[4];
            if (!agree(n, reach_of[r])) { printf("\nanswers differ\n"); return 0; }
            choice_times(built, n, reach_of[r], mean);
            printf(" %.1f (%.4f, %.4f, %.2f) |", 1e6 * mean[BENCH], mean[BENCH] / mean[PLAIN2], mean[BENCH] / mean[PLAIN3],
                mean[BENCH] / mean[SAME]);
        }
        printf("\n");
    }
    return 1;
}

int main(void) {
    random_state = 20261115;
    printf("microseconds a list (ratios to plain C -O2, plain C -O3, the same method in C -O3)\n");
    if (!lists()) { printf("lists differ\n"); return 1; }
    printf("microseconds a choice (ratios to plain C -O2, plain C -O3, the same method in C -O3)\n");
    for (int built = 0; built < 2; built++) if (!choices(built)) return 1;
    for (size_t n = 4; n <= 16; n *= 2) {
        inputs(n, 256);
        printf("a refused choice, n = %zu, 256 values: %.2f microseconds with the list lent, %.2f where it would be built\n", n,
            1e6 * checks_time(0, n), 1e6 * checks_time(1, n));
    }
    for (size_t n = 8; n <= 16; n *= 2) {
        inputs(n, 256);
        double spent[2];
        predict_times(n, spent);
        printf("predict, n = %zu, 256 values: %.2f microseconds, ratio to plain C -O2 %.3f\n", n, 1e6 * spent[BENCH],
            spent[BENCH] / spent[PLAIN2]);
    }
    return check == 0;
}
