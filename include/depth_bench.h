/* The depth edge bench for C: choose the record that comes closest to a block, get the pattern of a record, predict a block.
 *
 * A block is n rows of n depth samples, row by row, n = 4, 8 or 16. A pattern marks samples of a block, and is handed over as four words.
 * At n = 4 and 8 it is word 0 alone: bit y*n + x is the mark of the sample in column x of row y; words 1 to 3 are not read, judged or
 * counted where they are handed in, and are 0 in an answer. At n = 16 word k has rows 4k to 4k + 3, row by row, lowest bit first: bit
 * 16*(y % 4) + x of word y / 4 is the mark of the sample in column x of row y. A record is a pattern, named by its kind and entry, and two
 * offsets. The contour of a texture of n*n samples marks those that are greater than the sum of its four corner samples divided by 4,
 * rounded down. docs/REFERENCE.md has the whole.
 *
 * - A slice is a pointer and its length in bytes. Where the length is 0 the pointer may be NULL: nothing is read or written through it.
 *   A slice that is written (`block`) must not overlap another one.
 * - Every call checks its own input, reads and writes only inside the slices that it is lent, and ends. A refusal has its number in
 *   `refusal` (0: none) and 0 in all other fields, and alters nothing. The numbers stand at each call in the order of the checks.
 * - The calls keep no state and allocate nothing. They may be called from several threads at once, as long as no other thread uses a slice
 *   that is written.
 * - A call needs at most DEPTH_BENCH_STACK_.. bytes of stack, as measured over many inputs (outside/c/stack.c) and rounded up. Most of it
 *   is the wedgelet list, which depth_bench_choose and depth_bench_pattern_of build there.
 *
 * Link with libdepth_bench.a (x86-64). These are plain declarations: a function pointer or a test double takes any of the three names.
 */
#ifndef DEPTH_BENCH_H
#define DEPTH_BENCH_H

#include <stddef.h>
#include <stdint.h>

#ifdef __cplusplus
extern "C" {
#endif

enum { DEPTH_BENCH_STACK_PREDICT = 1024, DEPTH_BENCH_STACK_PATTERN_OF = 147456, DEPTH_BENCH_STACK_CHOOSE = 172032 };

/* marks: the number of marked samples of the pattern. */
typedef struct { uint32_t refusal, marks; } depth_bench_prediction;

/* kind: 0 a wedgelet (a straight edge), 1 the contour (the outline of the texture).
 * entry: the place in the wedgelet list for n, from 0; of the contour 0.
 * off0, off1: what is added to the table index of the unmarked and of the marked samples.
 * cost: the sum of absolute differences between the record's prediction and the original.
 * tried: how many offsets were tried in all. A side of a pattern is its unmarked or its marked samples. For each side of each wedgelet,
 *   and of the contour where a texture is lent, offsets are tried in the order 0, -1, 1, -2, 2 .. -r, r, where r is the lesser of reach and
 *   table_len - 1, up to the first that costs nothing on that side, which counts too, or all 2 * r + 1 where none does; a side without
 *   samples takes one. */
typedef struct { uint32_t refusal, kind, entry; int32_t off0, off1; uint32_t cost, tried; } depth_bench_choice;

/* The words of the pattern. At n = 4 it is the low 16 bits of word[0], at n = 8 all 64, and words 1 to 3 are 0; at n = 16 it is all four
 * words, word[k] having rows 4k to 4k + 3. */
typedef struct { uint32_t refusal; uint64_t word[4]; } depth_bench_pattern;

/* The sizes that the library was built with: an array of length -1 does not compile. */
typedef char depth_bench_size_t_has_8_bytes[sizeof(size_t) == 8 ? 1 : -1];
typedef char depth_bench_prediction_has_8_bytes[sizeof(depth_bench_prediction) == 8 ? 1 : -1];
typedef char depth_bench_choice_has_28_bytes[sizeof(depth_bench_choice) == 28 ? 1 : -1];
typedef char depth_bench_pattern_has_40_bytes[sizeof(depth_bench_pattern) == 40 ? 1 : -1];
typedef char depth_bench_pattern_words_at_8[offsetof(depth_bench_pattern, word) == 8 ? 1 : -1];

/* Writes the n*n predicted samples of the pattern word0 .. word3 to `block`; below n = 16 the pattern is word0 alone.
 * border: the 4n neighbours, left samples L0 to L(2n-1), downward, then top samples T0 to T(2n-1), rightward.
 * table: 1 to 256 depth values, strictly rising. off0 is for unmarked samples, off1 for marked ones.
 *   1   n is none of 4, 8 and 16
 *   2   border is not 4n bytes long, or block not n*n
 *   3   the table has no value or more than 256, or its values do not rise strictly
 *   5   n = 4 and word0 has a bit from 16 up
 *   4   an offset is outside -255 .. 255
 *   24  the absolute value of an offset is not below table_len */
depth_bench_prediction depth_bench_predict(size_t n, uint64_t word0, uint64_t word1, uint64_t word2, uint64_t word3,
    const uint8_t *border, size_t border_len, const uint8_t *table, size_t table_len, int32_t off0, int32_t off1, uint8_t *block,
    size_t block_len);

/* The record of least cost for the block `original`, out of all wedgelets of the list for n, the contour of `texture` where one is lent
 * (a texture of length 0 is none), and all offsets in -reach .. reach. Of these only -r .. r are tried, where r is the lesser of the
 * reach and table_len - 1: one further out predicts what one nearer to 0 does, and depth_bench_predict refuses it. So the record is one that
 * depth_bench_predict takes with the same table. A reach at or above table_len is no refusal.
 * Of records of equal cost the one that comes first is chosen: wedgelets before the contour, a lower entry before a higher one; then by
 * off0, then by off1, the one nearer to 0 first, and of two equally near the negative one.
 * Where the call is not refused, one whole number, negative or not, added to every byte of border, original and table, all of which stay
 * within 0 .. 255, leaves the answer as it is.
 *   1  n is none of 4, 8 and 16
 *   2  border is not 4n bytes long, original not n*n, or texture neither 0 nor n*n
 *   3  the table has no value or more than 256, or its values do not rise strictly
 *   4  reach is above 255 */
depth_bench_choice depth_bench_choose(size_t n, const uint8_t *border, size_t border_len, const uint8_t *original, size_t original_len,
    const uint8_t *table, size_t table_len, uint32_t reach, const uint8_t *texture, size_t texture_len);

/* The pattern of the record that `kind` and `entry` name: the entry of the wedgelet list for n, or the contour of `texture`, which is the
 * texture that was lent to the choice. With kind 0 the texture may be left out.
 *   1   n is none of 4, 8 and 16
 *   2   texture is neither 0 nor n*n bytes long
 *   7   kind is neither 0 nor 1, or kind is 1 and entry is not 0
 *   21  kind is 1 and there is no texture
 *   6   kind is 0 and entry is not below the number of wedgelets for n */
depth_bench_pattern depth_bench_pattern_of(size_t n, uint32_t kind, uint32_t entry, const uint8_t *texture, size_t texture_len);

#ifdef __cplusplus
}
#endif

#endif
