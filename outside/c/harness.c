/* Compares libdepth_bench.a with the independent implementation: harness SEED PREDICTIONS CHOICES PATTERNS LEVELS. It ends at the
 * first difference with the case and status 1. Every lent byte, and guard bytes around it, is compared before and after. The library gets
 * NULL for an empty slice where the case says so; the independent implementation always gets an address. */
#include <signal.h>
#include <stdio.h>
#include <stdlib.h>

#include "inputs.h"
#include "judge.h"

enum { PREDICT, CHOOSE, PATTERN, CALLS };

typedef struct { size_t n; uint64_t word[4]; int32_t off0, off1; slice border, table, block; int null; } predict_case;
typedef struct { size_t n; uint32_t reach; slice border, original, table, texture; int null; } choose_case;
typedef struct { size_t n; uint32_t kind, entry; slice texture; int null; } pattern_case;

static uint64_t seed;
static const char *part;
static unsigned long number;
static unsigned long seen[CALLS][25];

/* What the level law came to, for each size: kinds chosen, cases lowered until something was 0 and raised until something was 255, records
   outside the reach, and other answers where the number was not added to one of the three. */
enum { KIND_0, KIND_1, LOWERED, RAISED, OUTSIDE, BORDER_LEFT, ORIGINAL_LEFT, TABLE_LEFT, LEVEL_COUNTS };
static unsigned long level_seen[3][LEVEL_COUNTS];

static void show(const char *name, slice *s) {
    printf("  %s (%zu):", name, s->len);
    for (size_t i = 0; i < s->len; i++) printf(" %u", start_of(s)[i]);
    printf("\n");
}

static void differ(const char *what) {
    printf("seed %llu, %s, case %lu: %s\n", (unsigned long long)seed, part, number, what);
}

/* A call that reads or writes through NULL ends here. */
static void crashed(int signal_number) {
    (void)signal_number;
    differ("a call touched memory that is not there");
    fflush(stdout);
    _Exit(1);
}

static int same_slice(const slice *a, const slice *b) { return memcmp(a->bytes, b->bytes, sizeof a->bytes) == 0; }

/* Where the library finds a slice. */
static uint8_t *lent(slice *s, int null) { return null && s->len == 0 ? NULL : start_of(s); }

static int same_choice(depth_bench_choice a, depth_bench_choice b) {
    return a.refusal == b.refusal && a.kind == b.kind && a.entry == b.entry && a.off0 == b.off0 && a.off1 == b.off1 && a.cost == b.cost
        && a.tried == b.tried;
}

static int same_pattern(depth_bench_pattern a, depth_bench_pattern b) {
    return a.refusal == b.refusal && memcmp(a.word, b.word, sizeof a.word) == 0;
}

static void show_words(const uint64_t word[4]) {
    for (int k = 0; k < 4; k++) printf(" %016llx", (unsigned long long)word[k]);
    printf("\n");
}

/* One prediction, compared with the judge's. */
static int predict_differs(predict_case *c) {
    predict_case was = *c;
    slice expected = c->block;
    const uint64_t *w = c->word;
    depth_bench_prediction want = judge_predict(c->n, w[0], w[1], w[2], w[3], start_of(&c->border), c->border.len, start_of(&c->table),
        c->table.len, c->off0, c->off1, start_of(&expected), expected.len);
    depth_bench_prediction got = depth_bench_predict(c->n, w[0], w[1], w[2], w[3], lent(&c->border, c->null), c->border.len,
        lent(&c->table, c->null), c->table.len, c->off0, c->off1, lent(&c->block, c->null), c->block.len);
    seen[PREDICT][want.refusal]++;
    const char *what = got.refusal != want.refusal || got.marks != want.marks ? "predict: another answer"
        : !same_slice(&c->block, &expected) ? "predict: another block"
        : !same_slice(&c->border, &was.border) || !same_slice(&c->table, &was.table) ? "predict: an input was altered"
        : want.refusal != 0 && !same_slice(&c->block, &was.block) ? "predict: a refusal altered the block" : NULL;
    if (what == NULL) return 0;
    differ(what);
    printf("  n %zu off0 %d off1 %d words", c->n, c->off0, c->off1);
    show_words(c->word);
    printf("  refusal %u marks %u, expected %u %u\n", got.refusal, got.marks, want.refusal, want.marks);
    show("border", &was.border); show("table", &was.table); show("block", &c->block); show("expected", &expected);
    return 1;
}

/* A prediction for blocks of n by n; once in `times` each slice and each offset is damaged. */
static predict_case any_prediction(size_t n, uint32_t times) {
    predict_case c;
    size_t side = side_for(n);
    c.n = n;
    any_pattern(n, c.word);
    c.null = below(2) == 1;
    fill_samples(&c.border, length_near(4 * side, times));
    fill_table(&c.table, times);
    fill_samples(&c.block, length_near(side * side, times));
    c.off0 = any_offset(c.table.len, times);
    c.off1 = any_offset(c.table.len, times);
    return c;
}

/* One prediction in eight has a pattern of the wedgelet list. */
static int predict_once(void) {
    predict_case c = any_prediction(any_size(12), 12);
    if (seldom(8)) memcpy(c.word, judge_pattern_of(c.n, 0, below(wedgelets_for(c.n)), start_of(&c.table), 0).word, sizeof c.word);
    return predict_differs(&c);
}

/* One call for the pattern of a record, compared with the judge's. */
static int pattern_differs(pattern_case *c) {
    slice was = c->texture;
    depth_bench_pattern want = judge_pattern_of(c->n, c->kind, c->entry, start_of(&c->texture), c->texture.len);
    depth_bench_pattern got = depth_bench_pattern_of(c->n, c->kind, c->entry, lent(&c->texture, c->null), c->texture.len);
    seen[PATTERN][want.refusal]++;
    const char *what = !same_pattern(got, want) ? "pattern_of: another answer"
        : !same_slice(&c->texture, &was) ? "pattern_of: the texture was altered" : NULL;
    if (what == NULL) return 0;
    differ(what);
    printf("  n %zu kind %u entry %u\n", c->n, c->kind, c->entry);
    for (int i = 0; i < 2; i++) {
        const depth_bench_pattern *p = i == 0 ? &got : &want;
        printf("  %s %u:", i == 0 ? "got     " : "expected", p->refusal);
        show_words(p->word);
    }
    show("texture", &was);
    return 1;
}

static uint32_t any_kind(void) {
    static const uint32_t others[] = { 2, 3, 4, 255, 256, 257, 65536, INT32_MAX, (uint32_t)INT32_MAX + 1, UINT32_MAX };
    return seldom(12) ? others[below(10)] : below(2);
}

/* An entry: 0, one of the list, about its end, or far past it. */
static uint32_t any_entry(size_t n) {
    uint32_t count = wedgelets_for(n);
    switch (below(8)) {
    case 0: return count - 1 + below(3);
    case 1: return below(4000);
    case 2: return seldom(2) ? UINT32_MAX - below(2) : (uint32_t)random_word();
    case 3: case 4: return below(count);
    default: return 0;
    }
}

static int pattern_once(void) {
    pattern_case c;
    c.n = any_size(20);
    c.kind = any_kind();
    c.entry = any_entry(c.n);
    c.null = below(2) == 1;
    size_t side = side_for(c.n);
    fill_samples(&c.texture, seldom(4) ? 0 : length_near(side * side, 10));
    return pattern_differs(&c);
}

/* Every entry of each list, up to the first that the judge refuses. */
static int patterns_of_lists(void) {
    part = "lists";
    for (size_t n = 4; n <= 16; n *= 2) {
        pattern_case c = { .n = n, .null = 1 };
        unsigned long refused = seen[PATTERN][6];
        for (number = 0; seen[PATTERN][6] == refused; number++) {
            c.entry = (uint32_t)number;
            if (pattern_differs(&c)) return 1;
        }
        printf("wedgelets for n = %zu: %lu\n", n, number - 1);
    }
    return 0;
}

/* Sizes, lengths, kinds and entries, sound and wrong, each with each: where several are wrong, the first check answers. */
static int patterns_in_order(void) {
    static const size_t sizes[] = { 4, 8, 16, 0, 3, 5, 12, 32, ((size_t)1 << 32) + 4, ((size_t)1 << 32) + 8, ((size_t)1 << 32) + 16,
        (size_t)1 << 63, SIZE_MAX };
    static const size_t lengths[] = { 0, 1, 15, 16, 17, 63, 64, 65, 144, 255, 256, 257 };
    static const uint32_t kinds[] = { 0, 1, 2, 256, 257, UINT32_MAX }, entries[] = { 0, 1, 74, 498, 2498, 65536, UINT32_MAX };
    pattern_case c;
    part = "order of patterns";
    number = 0;
    for (int s = 0; s < 13; s++) for (int l = 0; l < 12; l++) for (int k = 0; k < 6; k++) for (int e = 0; e < 7; e++) {
        c.n = sizes[s];
        c.kind = kinds[k];
        c.entry = entries[e];
        c.null = number % 2 == 0;
        fill_samples(&c.texture, lengths[l]);
        if (pattern_differs(&c)) return 1;
        number++;
    }
    return 0;
}

/* A table of three values: sound, empty or not rising. */
static void small_table(slice *s, int fault) {
    fill_near(s, fault == 1 ? 0 : 3, 0, 0);
    for (size_t i = 0; i < s->len; i++) start_of(s)[i] = (uint8_t)(fault == 2 ? 128 : 100 + 20 * i);
}

/* The size in whose place another one's lengths are tried: 4 for 8, 8 for 16, 16 for all others. */
static size_t other_side(size_t n) { return n == 8 ? 4 : n == 16 ? 8 : 16; }

/* A length for the right one: the right one, one short, or that of another size. */
static size_t one_of(int k, size_t right, size_t other) { return k == 0 ? right : k == 1 ? right - 1 : other; }

static const size_t order_sizes[] = { 4, 8, 16, 5, 12, 32, ((size_t)1 << 32) + 16 };

/* Sizes, lengths, tables, patterns and offsets of a prediction, sound and wrong, each with each. */
static int predictions_in_order(void) {
    static const uint64_t words[] = { 0x10, 0x10000 };
    static const int32_t offsets[][2] = { { 2, -2 }, { 3, 0 }, { 0, -3 }, { -255, 255 }, { 256, 0 }, { 0, -256 }, { 3, 300 },
        { -256, -3 } };
    part = "order of predictions";
    number = 0;
    for (int s = 0; s < 7; s++) for (int b = 0; b < 3; b++) for (int o = 0; o < 3; o++) for (int t = 0; t < 3; t++)
        for (int w = 0; w < 4; w++) for (int f = 0; f < 8; f++) {
            size_t n = order_sizes[s], side = side_for(n), other = other_side(n);
            predict_case c = { .n = n, .word = { words[w % 2], w / 2 * UINT64_MAX, w / 2, 0 } };
            c.off0 = offsets[f][0];
            c.off1 = offsets[f][1];
            fill_samples(&c.border, one_of(b, 4 * side, 4 * other));
            small_table(&c.table, t);
            fill_samples(&c.block, one_of(o, side * side, other * other));
            if (predict_differs(&c)) return 1;
            number++;
        }
    return 0;
}

/* The lengths of tables with which offsets and reaches about the length are tried. */
static const size_t about_counts[] = { 1, 2, 3, 256 };

/* A table of so many values from 0 on, the last one 255 where there are more. */
static void spread_table(slice *s, size_t count) {
    fill_near(s, count, 0, 0);
    for (size_t i = 1; i < count; i++) start_of(s)[i] = (uint8_t)(255 * i / (count - 1));
}

/* Two offsets each with each: 0, and of both signs the table's length less 1, the length, 255 and 256; with both sides at the table's low
   end and at its high end. The pattern has all rows but the first. */
static int offsets_about_the_count(void) {
    part = "offsets about the table's length";
    number = 0;
    for (size_t n = 4; n <= 16; n *= 2) for (int t = 0; t < 4; t++) for (int i = 0; i < 9; i++) for (int j = 0; j < 9; j++)
        for (uint32_t depth = 0; depth < 256; depth += 255) {
            int32_t count = (int32_t)about_counts[t];
            const int32_t offsets[] = { 0, count - 1, 1 - count, count, -count, 255, -255, 256, -256 };
            predict_case c = { .n = n, .word = { n == 4 ? 0xFFF0 : UINT64_MAX << n, UINT64_MAX, UINT64_MAX, UINT64_MAX } };
            c.off0 = offsets[i];
            c.off1 = offsets[j];
            fill_near(&c.border, 4 * n, depth, 0);
            spread_table(&c.table, about_counts[t]);
            fill_samples(&c.block, n * n);
            if (predict_differs(&c)) return 1;
            number++;
        }
    return 0;
}

/* A reach: mostly small, or about what a table of so many values can use; seldom 255 or too far. */
static uint32_t any_reach(size_t count) {
    static const uint32_t often[] = { 0, 1, 2, 5, 17 };
    if (seldom(20)) return 256 + below(1000);
    if (seldom(20)) return 255;
    return seldom(8) && count >= 2 ? (uint32_t)count - 2 + below(4) : often[below(5)];
}

/* The chosen record's own pattern, predicted by the library, differs from the original by the cost in the answer. */
static const char *record_differs(choose_case *c, depth_bench_choice best) {
    depth_bench_pattern pattern = depth_bench_pattern_of(c->n, best.kind, best.entry, lent(&c->texture, c->null), c->texture.len);
    uint8_t block[256];
    const uint64_t *w = pattern.word;
    if (pattern.refusal != 0) return "choose: the record's pattern is refused";
    depth_bench_prediction made = depth_bench_predict(c->n, w[0], w[1], w[2], w[3], start_of(&c->border), c->border.len,
        start_of(&c->table), c->table.len, best.off0, best.off1, block, c->n * c->n);
    if (made.refusal != 0) return "choose: the record's prediction is refused";
    uint32_t sum = 0;
    for (size_t i = 0; i < c->n * c->n; i++) sum += (uint32_t)abs(block[i] - start_of(&c->original)[i]);
    return sum == best.cost ? NULL : "choose: the record's prediction does not have the cost in the answer";
}

/* A choice, the answer to it, and the one expected. */
static void show_choice(choose_case *c, depth_bench_choice got, depth_bench_choice want) {
    printf("  n %zu reach %u\n", c->n, c->reach);
    for (int i = 0; i < 2; i++) {
        const depth_bench_choice *a = i == 0 ? &got : &want;
        printf("  %s %u: %u %u %d %d cost %u tried %u\n", i == 0 ? "got     " : "expected", a->refusal, a->kind, a->entry, a->off0,
            a->off1, a->cost, a->tried);
    }
    show("border", &c->border); show("original", &c->original); show("table", &c->table); show("texture", &c->texture);
}

/* One choice, compared with the judge's. */
static int choose_differs(choose_case *c) {
    choose_case was = *c;
    depth_bench_choice want = judge_choose(c->n, start_of(&c->border), c->border.len, start_of(&c->original), c->original.len,
        start_of(&c->table), c->table.len, c->reach, start_of(&c->texture), c->texture.len);
    depth_bench_choice got = depth_bench_choose(c->n, lent(&c->border, c->null), c->border.len, lent(&c->original, c->null),
        c->original.len, lent(&c->table, c->null), c->table.len, c->reach, lent(&c->texture, c->null), c->texture.len);
    seen[CHOOSE][want.refusal]++;
    const char *what = !same_choice(got, want) ? "choose: another answer"
        : !same_slice(&c->border, &was.border) || !same_slice(&c->original, &was.original) || !same_slice(&c->table, &was.table)
        || !same_slice(&c->texture, &was.texture) ? "choose: an input was altered"
        : got.refusal == 0 ? record_differs(c, got) : NULL;
    if (what == NULL) return 0;
    differ(what);
    show_choice(&was, got, want);
    return 1;
}

/* A choice for blocks of n by n; once in `times` each slice is damaged, once in 20 the reach. Half of the choices have no texture. */
static choose_case any_choice(size_t n, uint32_t times) {
    choose_case c;
    size_t side = side_for(n);
    c.n = n;
    c.null = below(2) == 1;
    fill_samples(&c.border, length_near(4 * side, times));
    fill_samples(&c.original, length_near(side * side, times));
    fill_table(&c.table, times);
    fill_samples(&c.texture, below(2) ? 0 : length_near(side * side, times));
    c.reach = any_reach(c.table.len);
    return c;
}

/* Reaches about the table's length, and far above it. */
static int reaches_about_the_count(void) {
    part = "reaches about the table's length";
    number = 0;
    for (size_t n = 4; n <= 16; n *= 2) for (int t = 0; t < 4; t++) for (int r = 0; r < 5; r++) {
        uint32_t count = (uint32_t)about_counts[t];
        const uint32_t reaches[] = { count < 2 ? 0 : count - 2, count - 1, count, 255, 256 };
        if (count == 256 && r > 2) continue;
        choose_case c = { .n = n, .reach = reaches[r] };
        fill_samples(&c.border, 4 * n);
        fill_samples(&c.original, n * n);
        spread_table(&c.table, count);
        fill_samples(&c.texture, r % 2 == 0 ? 0 : n * n);
        if (choose_differs(&c)) return 1;
        number++;
    }
    return 0;
}

static int choose_once(void) {
    choose_case c = any_choice(any_size(20), 20);
    return choose_differs(&c);
}

/* Sizes, lengths, tables and reaches of a choice, sound and wrong, each with each; a reach above what the table can use is sound. */
static int choices_in_order(void) {
    static const uint32_t reaches[] = { 1, 3, 256 };
    part = "order of choices";
    number = 0;
    for (int s = 0; s < 7; s++) for (int b = 0; b < 3; b++) for (int o = 0; o < 3; o++) for (int x = 0; x < 4; x++)
        for (int t = 0; t < 3; t++) for (int r = 0; r < 3; r++) {
            size_t n = order_sizes[s], side = side_for(n), other = other_side(n);
            choose_case c = { .n = n, .reach = reaches[r] };
            fill_samples(&c.border, one_of(b, 4 * side, 4 * other));
            fill_samples(&c.original, one_of(o, side * side, other * other));
            fill_samples(&c.texture, x == 3 ? 0 : one_of(x, side * side, other * other));
            small_table(&c.table, t);
            if (choose_differs(&c)) return 1;
            number++;
        }
    return 0;
}

/* NULL with length 0 for each slice of each call in turn, and for every set of them together; n allowed and not. */
static int null_in_turn(void) {
    static const size_t sizes[] = { 4, 8, 16, 5 };
    part = "NULL";
    number = 0;
    for (int s = 0; s < 4; s++) for (unsigned empty = 1; empty < 16; empty++, number++) {
        predict_case p = any_prediction(sizes[s], 0);
        choose_case c = any_choice(sizes[s], 0);
        pattern_case t = { .n = sizes[s], .kind = empty % 2 };
        slice *of_predict[] = { &p.border, &p.table, &p.block }, *of_choose[] = { &c.border, &c.original, &c.table, &c.texture };
        for (int i = 0; i < 3; i++) if (empty >> i & 1) of_predict[i]->len = 0;
        for (int i = 0; i < 4; i++) if (empty >> i & 1) of_choose[i]->len = 0;
        p.null = c.null = t.null = 1;
        c.reach = 5;
        if (predict_differs(&p) || choose_differs(&c) || pattern_differs(&t)) return 1;
    }
    return 0;
}

/* Each refusal that a call can give has to have come up. */
static int all_seen(int call, const char *name, const int *numbers, int count) {
    int missing = 0;
    printf("%s:", name);
    for (int i = 0; i < count; i++) {
        printf(" refusal %d %lu times%s", numbers[i], seen[call][numbers[i]], i + 1 < count ? "," : "\n");
        missing |= seen[call][numbers[i]] == 0;
    }
    if (missing) printf("%s: a refusal never came up\n", name);
    return missing;
}

/* So many random cases of a call. */
static int repeat(const char *name, unsigned long times, int (*once)(void)) {
    part = name;
    for (number = 0; number < times; number++) if (once()) return 1;
    return 0;
}

/* Adds k to every sample of a slice; there is room for it. */
static void add_to(slice *s, int32_t k) {
    for (size_t i = 0; i < s->len; i++) start_of(s)[i] = (uint8_t)(start_of(s)[i] + k);
}

/* The choice with k added to border, original and table. */
static choose_case at_level(const choose_case *c, int32_t k) {
    choose_case other = *c;
    add_to(&other.border, k);
    add_to(&other.original, k);
    add_to(&other.table, k);
    return other;
}

/* Whether border, original or table has a value. */
static int has_value(choose_case *c, uint8_t value) {
    return memchr(start_of(&c->border), value, c->border.len) != NULL || memchr(start_of(&c->original), value, c->original.len) != NULL
        || memchr(start_of(&c->table), value, c->table.len) != NULL;
}

/* The counts for blocks of n by n. */
static unsigned long *counts_for(size_t n) { return level_seen[n == 4 ? 0 : n == 8 ? 1 : 2]; }

/* The least and the greatest number that leave border, original and table within 0 to 255. */
static void room_of(choose_case *c, int32_t *least, int32_t *most) {
    slice *all[] = { &c->border, &c->original, &c->table };
    *least = -255;
    *most = 255;
    for (int s = 0; s < 3; s++) for (size_t i = 0; i < all[s]->len; i++) {
        int32_t sample = start_of(all[s])[i];
        if (*least < -sample) *least = -sample;
        if (*most > 255 - sample) *most = 255 - sample;
    }
}

/* A table of rising values within `spread` of a middle value, `count` of them where there are so many. */
static void table_near(slice *s, uint32_t count, uint32_t middle, uint32_t spread) {
    uint32_t left = 2 * spread + 1;
    if (count > left) count = left;
    fill_near(s, 0, 0, 0);
    for (uint32_t value = middle - spread; s->len < count; value++, left--) {
        if (below(left) < count - s->len) start_of(s)[s->len++] = (uint8_t)value;
    }
}

/* The choice's original becomes the prediction of a record within the reach: the contour, or a wedgelet where there is no texture. */
static void show_record(choose_case *c) {
    uint32_t kind = c->texture.len != 0, entry = kind == 0 ? below(wedgelets_for(c->n)) : 0;
    size_t count = c->reach < c->table.len ? c->reach + 1 : c->table.len;
    depth_bench_pattern p = judge_pattern_of(c->n, kind, entry, start_of(&c->texture), c->texture.len);
    int32_t offset = any_offset(count, 0);
    judge_predict(c->n, p.word[0], p.word[1], p.word[2], p.word[3], start_of(&c->border), c->border.len, start_of(&c->table),
        c->table.len, offset, -offset, start_of(&c->original), c->original.len);
}

/* A sound choice with room below and above border, original and table. The original is a record's prediction where there is a texture, and
   in two of three without one. */
static choose_case choice_with_room(size_t n, int textured) {
    static const uint32_t spreads[] = { 1, 5, 20, 90 }, counts[] = { 1, 2, 3, 8, 32, 128 };
    uint32_t spread = spreads[below(4)], middle = spread + 1 + below(254 - 2 * spread);
    choose_case c = { .n = n, .null = below(2) == 1 };
    fill_near(&c.border, 4 * n, middle, spread);
    fill_near(&c.original, n * n, middle, below(2) * spread);
    table_near(&c.table, counts[below(6)], middle, spread);
    fill_near(&c.texture, textured ? n * n : 0, 128, 127);
    do c.reach = any_reach(c.table.len); while (c.reach > 255);
    if (textured || !seldom(3)) show_record(&c);
    return c;
}

/* The library's answer to a choice. */
static depth_bench_choice answer_to(choose_case *c) {
    return depth_bench_choose(c->n, lent(&c->border, c->null), c->border.len, lent(&c->original, c->null), c->original.len,
        lent(&c->table, c->null), c->table.len, c->reach, lent(&c->texture, c->null), c->texture.len);
}

/* A record's predictions with border and table of both choices, each compared with the judge's: the second is k above the first. */
static int rise_differs(choose_case *c, choose_case *other, int32_t k, const predict_case *record) {
    predict_case here = *record, there = *record;
    here.border = c->border; here.table = c->table;
    there.border = other->border; there.table = other->table;
    if (predict_differs(&here) || predict_differs(&there)) return 1;
    for (size_t i = 0; i < c->n * c->n; i++) {
        if (start_of(&there.block)[i] == start_of(&here.block)[i] + k) continue;
        differ("levels: the prediction does not rise by the number that was added");
        printf("  n %zu off0 %d off1 %d added %d words", c->n, record->off0, record->off1, k);
        show_words(record->word);
        show("border", &c->border); show("table", &c->table); show("block", &here.block); show("risen", &there.block);
        return 1;
    }
    return 0;
}

/* With k added the choice has the same answer, and the predictions of both records rise by k. */
static int level_differs(choose_case *c, depth_bench_choice best, int32_t k, const predict_case records[2]) {
    choose_case other = at_level(c, k);
    if (choose_differs(&other)) return 1;
    depth_bench_choice got = answer_to(&other);
    counts_for(c->n)[LOWERED] += k < 0 && has_value(&other, 0);
    counts_for(c->n)[RAISED] += k > 0 && has_value(&other, 255);
    if (same_choice(got, best)) return rise_differs(c, &other, k, &records[0]) || rise_differs(c, &other, k, &records[1]);
    differ("levels: another answer than before a number was added");
    printf("  added %d\n", k);
    show_choice(&other, got, best);
    return 1;
}

/* The chosen record, and one of any pattern, with an offset outside the reach where the table can use one. */
static void two_records(choose_case *c, depth_bench_choice best, predict_case records[2]) {
    size_t near = c->reach + 1, far = c->table.len > near ? c->table.len - near : 0;
    depth_bench_pattern p = depth_bench_pattern_of(c->n, best.kind, best.entry, lent(&c->texture, c->null), c->texture.len);
    records[0] = any_prediction(c->n, 0);
    records[1] = any_prediction(c->n, 0);
    memcpy(records[0].word, p.word, sizeof p.word);
    records[0].off0 = best.off0;
    records[0].off1 = best.off1;
    if (c->n == 4) records[1].word[0] &= 0xFFFF;
    records[1].off0 = any_offset(c->table.len, 0);
    records[1].off1 = far == 0 ? any_offset(c->table.len, 0) : (below(2) ? 1 : -1) * (int32_t)(near + below((uint32_t)far));
}

/* Counts the kind chosen, a record outside the reach, and other answers where k is not added to border, original or table. */
static void count_level(choose_case *c, depth_bench_choice best, int32_t k, const predict_case *record) {
    unsigned long *count = counts_for(c->n);
    choose_case left[] = { at_level(c, k), at_level(c, k), at_level(c, k) };
    left[0].border = c->border;
    left[1].original = c->original;
    left[2].table = c->table;
    for (int i = 0; i < 3; i++) count[BORDER_LEFT + i] += !same_choice(answer_to(&left[i]), best);
    count[best.kind == 0 ? KIND_0 : KIND_1]++;
    count[OUTSIDE] += (uint32_t)abs(record->off1) > c->reach;
}

/* One choice as it is, lowered until something is 0, raised until something is 255, and at a step between; half of them have a texture. */
static int levels_once(void) {
    choose_case c = choice_with_room((size_t)4 << number % 3, number / 3 % 2 == 0);
    predict_case records[2];
    int32_t least, most;
    if (choose_differs(&c)) return 1;
    depth_bench_choice best = answer_to(&c);
    if (best.refusal != 0) {
        differ("levels: a sound choice is refused");
        show_choice(&c, best, (depth_bench_choice){ 0 });
        return 1;
    }
    two_records(&c, best, records);
    room_of(&c, &least, &most);
    int32_t between = least + 1 + (int32_t)below((uint32_t)(most - least - 1));
    if (level_differs(&c, best, least, records) || level_differs(&c, best, most, records)) return 1;
    if (level_differs(&c, best, between, records)) return 1;
    count_level(&c, best, most, &records[1]);
    return 0;
}

/* Each size has to have come to all that is counted. */
static int levels_seen(void) {
    static const char *const names[] = { "kind 0", "kind 1", "lowered to 0", "raised to 255", "outside the reach",
        "another answer with the border left", "with the original left", "with the table left" };
    int missing = 0;
    for (int s = 0; s < 3; s++) {
        printf("levels, n = %d:", 4 << s);
        for (int i = 0; i < LEVEL_COUNTS; i++) {
            printf(" %s %lu times%s", names[i], level_seen[s][i], i + 1 < LEVEL_COUNTS ? "," : "\n");
            missing |= level_seen[s][i] == 0;
        }
    }
    if (missing) printf("levels: a count is 0\n");
    return missing;
}

int main(int argc, char **argv) {
    static const int of_predict[] = { 0, 1, 2, 3, 5, 4, 24 }, of_choose[] = { 0, 1, 2, 3, 4 }, of_pattern[] = { 0, 1, 2, 7, 21, 6 };
    if (argc != 6) {
        fprintf(stderr, "usage: harness SEED PREDICTIONS CHOICES PATTERNS LEVELS\n");
        return 2;
    }
    seed = strtoull(argv[1], NULL, 10);
    random_state = seed * 2 + 1;
    unsigned long predictions = strtoul(argv[2], NULL, 10), choices = strtoul(argv[3], NULL, 10), patterns = strtoul(argv[4], NULL, 10);
    unsigned long levels = strtoul(argv[5], NULL, 10);
    printf("seed %llu: %lu predictions, %lu choices, %lu patterns, %lu levels\n", (unsigned long long)seed, predictions, choices, patterns,
        levels);
    signal(SIGSEGV, crashed);
    if (null_in_turn() || patterns_in_order() || predictions_in_order() || choices_in_order() || patterns_of_lists()) return 1;
    if (offsets_about_the_count() || reaches_about_the_count()) return 1;
    if (repeat("predictions", predictions, predict_once) || repeat("patterns", patterns, pattern_once)) return 1;
    if (repeat("choices", choices, choose_once) || repeat("levels", levels, levels_once)) return 1;
    return all_seen(PREDICT, "predict", of_predict, 7) | all_seen(CHOOSE, "choose", of_choose, 5)
        | all_seen(PATTERN, "pattern_of", of_pattern, 6) | levels_seen();
}
