/* Times the choices of this build by turns with those of another one, call by call, and prints both times and their ratio: turns [ROUNDS].
   Where the machine is slower for a while, it is so for both. The calls of the other build have `other_` before their names
   (outside/bench-choice). It ends with status 1 where a choice is refused or the two records or costs differ. How many offsets were tried
   is not compared: another build may have no such field, or try offsets that the table can't use. */
#include <stdio.h>
#include <stdlib.h>

#include "blocks.h"

/* What either build answers: up to the cost all builds have the same fields, and past it there is room for more than any has. A struct of
   more than 16 bytes is returned in memory that the caller lends, so that a longer one does. */
typedef struct { uint32_t refusal, kind, entry; int32_t off0, off1; uint32_t cost, more[26]; } answer;

answer other_depth_bench_choose(size_t n, const uint8_t *border, size_t border_len, const uint8_t *original, size_t original_len,
    const uint8_t *table, size_t table_len, uint32_t reach, const uint8_t *texture, size_t texture_len);
answer other_file_calls_choose(size_t n, const uint64_t *list, size_t list_len, size_t count, const uint8_t *border, size_t border_len,
    const uint8_t *original, size_t original_len, const uint8_t *table, size_t table_len, uint32_t reach, const uint8_t *texture,
    size_t texture_len);

static answer own(depth_bench_choice c) { return (answer){ c.refusal, c.kind, c.entry, c.off0, c.off1, c.cost, { 0 } }; }

/* The choice for block i by this build or the other, with the list lent or with the list built for it. */
static answer choose(int other, int built, size_t n, uint32_t reach, int i) {
    const uint8_t *b = start_of(&borders[i]), *o = start_of(&originals[i]), *t = start_of(&textures[i]), *v = start_of(&table);
    size_t samples = n * n, words = list_words(n);
    if (other && built) return other_depth_bench_choose(n, b, 4 * n, o, samples, v, table.len, reach, t, samples);
    if (other) return other_file_calls_choose(n, list, words, count, b, 4 * n, o, samples, v, table.len, reach, t, samples);
    if (built) return own(depth_bench_choose(n, b, 4 * n, o, samples, v, table.len, reach, t, samples));
    return own(file_calls_choose(n, list, words, count, b, 4 * n, o, samples, v, table.len, reach, t, samples));
}

static int same(answer a, answer b) {
    return a.refusal == 0 && b.refusal == 0 && a.kind == b.kind && a.entry == b.entry && a.off0 == b.off0 && a.off1 == b.off1
        && a.cost == b.cost;
}

/* Seconds for one choice by each build: the mean over the blocks of the least of the rounds. Each is the first in every other round. */
static void times(int rounds, int built, size_t n, uint32_t reach, double mean[2]) {
    static double least[2][BLOCKS];
    for (int i = 0; i < BLOCKS; i++) least[0][i] = least[1][i] = 1e9;
    for (int r = 0; r < rounds; r++) for (int i = 0; i < BLOCKS; i++) {
        answer found[2];
        for (int turn = 0; turn < 2; turn++) {
            int other = (r + turn) % 2;
            double start = now();
            found[other] = choose(other, built, n, reach, i);
            double spent = now() - start;
            if (spent < least[other][i]) least[other][i] = spent;
        }
        if (!same(found[0], found[1])) { printf("\na choice is refused, or two records or costs differ\n"); exit(1); }
    }
    for (int other = 0; other < 2; other++) {
        mean[other] = 0;
        for (int i = 0; i < BLOCKS; i++) mean[other] += least[other][i] / BLOCKS;
    }
}

int main(int argc, char **argv) {
    int rounds = argc > 1 ? atoi(argv[1]) : 24;
    double low = 1e9, high = 0;
    if (argc > 2 || rounds < 1) { fprintf(stderr, "usage: turns [ROUNDS]\n"); return 2; }
    random_state = 20261115;
    printf("microseconds a choice: the other build, this one, and the ratio of this one to the other\n");
    for (int built = 0; built < 2; built++) {
        printf("| choose, the list %s | reach 0 | reach 5 | reach 255 |\n|---|---|---|---|\n", built ? "built" : "lent");
        for (size_t n = 4; n <= 16; n *= 2) for (int v = 0; v < VALUES; v++) {
            inputs(n, values_of[v]);
            printf("| n = %zu, %zu value%s |", n, values_of[v], values_of[v] == 1 ? "" : "s");
            for (int r = 0; r < REACHES; r++) {
                double mean[2];
                times(rounds, built, n, reach_of[r], mean);
                double ratio = mean[0] / mean[1];
                low = ratio < low ? ratio : low;
                high = ratio > high ? ratio : high;
                printf(" %.1f, %.1f, %.2f |", 1e6 * mean[1], 1e6 * mean[0], ratio);
            }
            printf("\n");
        }
    }
    printf("this build takes %.2f to %.2f of the other's time\n", low, high);
    return 0;
}
