/* Chooses the record that comes closest to one 8 by 8 block, gets its pattern, predicts the block from it, and prints both as text. The
 * differences between them, summed here, are the cost in the answer. */
#include <stdio.h>
#include <stdlib.h>

#include "depth_bench.h"

/* A row of eight samples, dark to bright. */
static void print_row(const uint8_t *row) {
    for (int x = 0; x < 8; x++) putchar(" .:-=+*#%@"[row[x] * 10 / 256]);
}

int main(void) {
    /* The neighbours: a left run that grows bright downward, and a dark top run. */
    uint8_t border[32], original[64], predicted[64], table[] = { 20, 40, 60, 120, 160, 210 };
    for (int i = 0; i < 16; i++) border[i] = i < 4 ? 30 : 215;
    for (int i = 0; i < 16; i++) border[16 + i] = 30;

    /* A bright object in the lower left of a dark block. */
    for (int y = 0; y < 8; y++) {
        for (int x = 0; x < 8; x++) original[y * 8 + x] = y > 3 + x / 2 ? 210 : 35 + x;
    }

    depth_bench_choice best = depth_bench_choose(8, border, sizeof border, original, sizeof original, table, sizeof table, 5, NULL, 0);
    depth_bench_pattern pattern = depth_bench_pattern_of(8, best.kind, best.entry, NULL, 0);
    const uint64_t *word = pattern.word;
    depth_bench_prediction made = depth_bench_predict(8, word[0], word[1], word[2], word[3], border, sizeof border, table, sizeof table,
        best.off0, best.off1, predicted, sizeof predicted);
    if (best.refusal != 0 || pattern.refusal != 0 || made.refusal != 0) {
        printf("refusals %u, %u and %u\n", best.refusal, pattern.refusal, made.refusal);
        return 1;
    }

    int sum = 0;
    for (int i = 0; i < 64; i++) sum += abs(predicted[i] - original[i]);
    printf("kind %u, entry %u, offsets %d and %d, cost %u, %u offsets tried\n", best.kind, best.entry, best.off0, best.off1, best.cost,
        best.tried);
    printf("pattern %016llx, %u samples marked, differences %d\n\n", (unsigned long long)word[0], made.marks, sum);
    printf("original    predicted\n");
    for (int y = 0; y < 8; y++) {
        print_row(original + 8 * y);
        printf("    ");
        print_row(predicted + 8 * y);
        printf("\n");
    }
    return (uint32_t)sum != best.cost;
}
