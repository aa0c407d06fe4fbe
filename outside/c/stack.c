/* Measures the stack that each call needs: stack SEED CASES. The calls run on a thread whose stack was painted before; the lowest byte
 * that has another colour after all cases is the deepest that was written. Each call is measured in two colours, since it may write one
 * of them itself. Fails where a call needs more than the header says. */
#include <pthread.h>
#include <stdio.h>
#include <stdlib.h>

#include "inputs.h"
#include "depth_bench.h"

enum { PREDICT, PATTERN, CHOOSE, CALLS, STACK = 1 << 20 };

typedef struct {
    size_t n;
    uint64_t word[4];
    int32_t off0, off1;
    uint32_t reach, kind, entry;
    slice border, table, samples, texture;
} input;

static uint8_t stack[STACK] __attribute__((aligned(4096)));
static input *inputs;
static unsigned long cases;
static int call;
static uint8_t *caller;
static volatile uint32_t accepted;

/* Inputs that are accepted, most of them, of all sizes, with the longest table and the farthest reach among them. */
static void fill_input(input *in, unsigned long i) {
    size_t n = any_size(10), side = side_for(n);
    in->n = n;
    any_pattern(n, in->word);
    in->reach = i % 3 == 0 ? 255 : below(257);
    in->kind = below(2);
    in->entry = in->kind == 1 ? 0 : below(wedgelets_for(n) + 1);
    fill_samples(&in->border, length_near(4 * side, 20));
    fill_table(&in->table, 20);
    in->off0 = any_offset(in->table.len, 20);
    in->off1 = any_offset(in->table.len, 20);
    fill_samples(&in->samples, length_near(side * side, 20));
    fill_samples(&in->texture, below(2) ? 0 : length_near(side * side, 20));
}

/* All cases of the call, one after the other, from one frame. */
static void *run(void *none) {
    caller = __builtin_frame_address(0);
    for (unsigned long i = 0; i < cases; i++) {
        input *in = &inputs[i];
        const uint8_t *border = start_of(&in->border), *table = start_of(&in->table), *texture = start_of(&in->texture);
        uint8_t *samples = start_of(&in->samples);
        switch (call) {
        case PREDICT:
            accepted += depth_bench_predict(in->n, in->word[0], in->word[1], in->word[2], in->word[3], border, in->border.len, table,
                in->table.len, in->off0, in->off1, samples, in->samples.len).refusal == 0;
            break;
        case PATTERN:
            accepted += depth_bench_pattern_of(in->n, in->kind, in->entry, texture, in->texture.len).refusal == 0;
            break;
        default:
            accepted += depth_bench_choose(in->n, border, in->border.len, samples, in->samples.len, table, in->table.len, in->reach,
                texture, in->texture.len).refusal == 0;
        }
    }
    return none;
}

/* The bytes between the caller's frame and the deepest byte written, with the stack painted in a colour. */
static long depth(uint8_t colour) {
    pthread_attr_t attributes;
    pthread_t thread;
    memset(stack, colour, STACK);
    accepted = 0;
    if (pthread_attr_init(&attributes) != 0 || pthread_attr_setstack(&attributes, stack, STACK) != 0
        || pthread_create(&thread, &attributes, run, NULL) != 0 || pthread_join(thread, NULL) != 0) {
        printf("stack: no thread\n");
        exit(1);
    }
    size_t deepest = 0;
    while (stack[deepest] == colour) deepest++;
    return caller - (stack + deepest);
}

int main(int argc, char **argv) {
    static const char *const names[] = { "predict", "pattern_of", "choose" };
    static const long stated[] = { DEPTH_BENCH_STACK_PREDICT, DEPTH_BENCH_STACK_PATTERN_OF, DEPTH_BENCH_STACK_CHOOSE };
    if (argc != 3) {
        fprintf(stderr, "usage: stack SEED CASES\n");
        return 2;
    }
    random_state = strtoull(argv[1], NULL, 10) * 2 + 1;
    cases = strtoul(argv[2], NULL, 10);
    inputs = calloc(cases, sizeof *inputs);
    int failed = inputs == NULL || cases == 0;
    for (unsigned long i = 0; !failed && i < cases; i++) fill_input(&inputs[i], i);
    for (call = 0; !failed && call < CALLS; call++) {
        long one = depth(0xA5), other = depth(0x5A), most = one > other ? one : other;
        printf("stack of %s: %ld bytes, stated %ld, %u of %lu cases accepted\n", names[call], most, stated[call], accepted, cases);
        failed |= most > stated[call] || accepted == 0;
    }
    if (failed) printf("stack: a call needs more than depth_bench.h says, or nothing was measured\n");
    return failed;
}
