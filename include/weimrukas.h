/*
 * Weimrukas: eigenvalues and eigenvectors of symmetric matrices of coded barley lines by the Jacobi method in the
 * ordering of Brent and Luk, as plain sweeps or by a systolic array of tiles. Both give the same bits.
 *
 * `rt lib` in crates/capi proves the library and writes it for x86-64: link crates/capi/out/libcapi.a. `tools/install`
 * installs it as libweimrukas.
 *
 * Answers. Where nothing else is said a function answers 0, or the number of a refusal: 1 to 9 by document 01's table,
 * with what document 02 adds to 4 and takes from 1, and 10 by document 02:
 *
 *      1  order: outside 2 to WEIMRUKAS_MOST_LINES
 *      2  sweeps: above WEIMRUKAS_MOST_SWEEPS
 *      3  a slice or a sheet has another length
 *      4  line code: zero, or used before; a sheet of the long form of which no code is above 255
 *      5  entry: not finite
 *      6  entry a_ij and its mirror a_ji differ in bits
 *      7  lent bytes, text, registers, records or flags: too short
 *      8  end of a run: an entry is no longer finite
 *      9  square root: not a number, or below zero
 *     10  line code: in both of two sheets
 *
 * Where several apply, the first is answered that stands in the function's own list below. 5 and 6 set *row and
 * *column, from 1, to the first such entry in row order. No other answer sets them. A function that refuses leaves
 * everything lent as it was, unless its own comment says otherwise.
 *
 * Memory. A slice is a pointer and the number of its values, not of its bytes. Nothing that a function may write need
 * be set before the call, but for the words of a tick. These are the caller's fault: a null pointer, also for a slice
 * of no values; a length that is not that of the memory; and what a function may write overlapping anything else that
 * it is lent, which gives wrong results. Any other argument, whatever its value, is answered. Nothing is allocated or
 * kept, and no function calls any but memcpy, memmove and memset; threads may call them at the same time. 320 KiB of
 * stack are enough.
 *
 * Orders. n may be even or odd. There are N = (n + 1) / 2 processors, rounded down. A sweep has n - 1 steps where n is
 * even and n where it is odd. Where n is odd, a line 0 stands in the left register of processor 1, +0 throughout at
 * first, and processor 1 is always still, whatever its cells hold. Line 0 is in the list of pairs, as 0, and in the
 * tiles of an array by hand; matrices, results, sheets and listings have the lines 1 to n alone.
 *
 * A matrix is n * n doubles, row by row. A double that is not a number is always given back as 7FF8000000000000.
 *
 * Exact and rounded. A square root is exact if its square is the value itself; those of +0, -0 and +infinity are. A
 * pair takes two roots: that of 1 + xi * xi for its tangent t, where xi = (d / 2 - a / 2) / b, and that of 1 + t * t for
 * its cosine, each operation rounded before the root is taken. It is exact if both roots are, and also where b is zero;
 * it is rounded if one of them is not, and also where t is not a number. A pair that is still is always exact, as that
 * of processor 1 is where n is odd; one that turns may be either.
 *
 * Floating point. All that is said here holds in the default floating-point environment only: rounding to nearest,
 * subnormal values kept, no exception trapped. In another one a call may answer otherwise or leave other bits, and does
 * not tell. A program that is linked with -ffast-math or -Ofast, or loads a shared library that is, may have subnormal
 * values taken as zero everywhere from its start: weimrukas_root(2^-1060) then answers 0 with 2^-1060 as its root, and
 * a run turns no pair of such entries. With subnormal results alone set to zero such a run may answer 8. After
 * fesetround(FE_UPWARD) runs give other bits. weimrukas_environment_is_default tells.
 */
#ifndef WEIMRUKAS_H
#define WEIMRUKAS_H

#include <float.h>
#include <stddef.h>
#include <stdint.h>

/* On a pointer to what a function may write. */
#ifdef __cplusplus
#define WEIMRUKAS_RESTRICT
extern "C" {
#else
#define WEIMRUKAS_RESTRICT restrict
#endif

#define WEIMRUKAS_VERSION "0.9.0"

#define WEIMRUKAS_MOST_LINES 32 /* the largest order */
#define WEIMRUKAS_MOST_SWEEPS 16
#define WEIMRUKAS_MOST_PROCESSORS ((WEIMRUKAS_MOST_LINES + 1) / 2)

/*
 * The length of a sheet of order n: in the short form, where no code is above 255 and each has one byte, and in the
 * long form, where some code is and each has two. And bytes that are enough for the listing of either.
 */
#define WEIMRUKAS_SHEET_LENGTH(n) (2 + (n) + 4 * (n) * ((n) + 1))
#define WEIMRUKAS_LONG_SHEET_LENGTH(n) (2 + 2 * (n) + 4 * (n) * ((n) + 1))
#define WEIMRUKAS_TEXT_LENGTH(n) (15 + (n) * (23 + 17 * (n)))

/*
 * 1 if the calling thread rounds to nearest and keeps subnormal values, as results and as operands; otherwise 0. Each
 * operation is on volatile values, so none is left to the compiler, with -ffast-math neither; but with -mfpmath=387 it
 * looks at other registers than the library's. Whether an exception is trapped it does not tell.
 */
static inline int weimrukas_environment_is_default(void) {
    volatile double one = 1.0, little = DBL_EPSILON / 4, least = DBL_MIN, half = 0.5;
    volatile double above = one + little, below = one - little;
    volatile double subnormal = least * half, twice = subnormal + subnormal;
    return above == one && below == one && twice == least;
}

/* Sets *root to the f64 nearest to the exact square root of x, and *exact to 1 if it is exact, otherwise to 0. 9. */
uint8_t weimrukas_root(double x, double *WEIMRUKAS_RESTRICT root, uint8_t *WEIMRUKAS_RESTRICT exact);

/*
 * The parameters of a pair with the left line p and the right line q, from a = a_pp, d = a_qq and b = a_pq: *turn is 1
 * and *t, *c and *s are tangent, cosine and sine; or the pair is still, *turn is 0 and they are +0, 1 and +0. Where a, d
 * and b are finite, so are these. *exact is 1 if the pair is exact and 0 if it is rounded.
 */
void weimrukas_parameters(double a, double d, double b, uint8_t *WEIMRUKAS_RESTRICT turn, double *WEIMRUKAS_RESTRICT t,
                          double *WEIMRUKAS_RESTRICT c, double *WEIMRUKAS_RESTRICT s,
                          uint8_t *WEIMRUKAS_RESTRICT exact);

/*
 * The list of pairs of order n in a step, from 0: left[k - 1] and right[k - 1] become the registers of processor k, and
 * 0 above processor N. Where n is odd left[0] is 0, as line 0 always stands there. 1, which sets all to 0; 7 where left
 * or right has fewer than N values.
 */
uint8_t weimrukas_pairs(size_t n, size_t step, size_t *WEIMRUKAS_RESTRICT left, size_t left_length,
                        size_t *WEIMRUKAS_RESTRICT right, size_t right_length);

/*
 * The parameters of the N pairs of a step, from 0, found from the matrix as lent: t, c and s of processor k become
 * records[3 k - 3], [3 k - 2] and [3 k - 1]; still is +0, 1, +0, as processor 1 always is where n is odd. All of them
 * are finite. exact[k - 1] becomes 1 if the pair of processor k is exact and 0 if it is rounded. What follows stays, in
 * both. 1, 3, 5, 6; 7 where there are fewer than 3 N values or fewer than N flags.
 */
uint8_t weimrukas_records(size_t n, const double *matrix, size_t matrix_length, size_t step,
                          double *WEIMRUKAS_RESTRICT records, size_t records_length, uint8_t *WEIMRUKAS_RESTRICT exact,
                          size_t exact_length, size_t *WEIMRUKAS_RESTRICT row, size_t *WEIMRUKAS_RESTRICT column);

/*
 * The plain run of a number of sweeps: result becomes the matrix after them, vectors the eigenvectors, a column each.
 * The run ends after the first sweep in which every pair was still, a quiet one; further sweeps would change no bit.
 * *sweeps_made becomes the number of that sweep, from 1, or sweeps if none is quiet. *rounded becomes the number of
 * rounded pairs among all that it met, N in each step of these sweeps; further sweeps would add none. 1, 2, 3, 5, 6; 8,
 * which fills both results with +0. A refusal, 8 too, leaves *sweeps_made and *rounded as they were.
 */
uint8_t weimrukas_plain_run(size_t n, size_t sweeps, const double *matrix, size_t matrix_length,
                            double *WEIMRUKAS_RESTRICT result, size_t result_length, double *WEIMRUKAS_RESTRICT vectors,
                            size_t vectors_length, size_t *WEIMRUKAS_RESTRICT sweeps_made,
                            size_t *WEIMRUKAS_RESTRICT rounded, size_t *WEIMRUKAS_RESTRICT row,
                            size_t *WEIMRUKAS_RESTRICT column);

/*
 * The same by the array, with the same bits and answers; *ticks becomes the number of ticks that it made, those of
 * *sweeps_made sweeps. A refusal leaves it as it was.
 */
uint8_t weimrukas_array_run(size_t n, size_t sweeps, const double *matrix, size_t matrix_length,
                            double *WEIMRUKAS_RESTRICT result, size_t result_length, double *WEIMRUKAS_RESTRICT vectors,
                            size_t vectors_length, size_t *WEIMRUKAS_RESTRICT sweeps_made,
                            size_t *WEIMRUKAS_RESTRICT ticks, size_t *WEIMRUKAS_RESTRICT rounded,
                            size_t *WEIMRUKAS_RESTRICT row, size_t *WEIMRUKAS_RESTRICT column);

/*
 * The most that a run by the array can need, told before it is made; a run that makes all its sweeps needs just this.
 * *ticks becomes the number of its ticks, *values that of the values of the matrix and the eigenvectors that tiles set
 * on their wires, *parameters that of the parameters, a tangent each, that tiles off the diagonal receive. With
 * K = sweeps times the steps of a sweep they are 3 K + N, 8 N N K and 2 N (N - 1) K, where n is even and where it is
 * odd. A run that will answer 8 needs no more either. 1, 2.
 */
uint8_t weimrukas_forecast(size_t n, size_t sweeps, size_t *WEIMRUKAS_RESTRICT ticks, size_t *WEIMRUKAS_RESTRICT values,
                           size_t *WEIMRUKAS_RESTRICT parameters);

/*
 * Takes a sheet of either form apart: *n and *sweeps, n codes, and the whole matrix. The caller lends as many codes and
 * values as the order asks for, which is the sheet's first byte modulo 128. The sheet is of the long form if that byte
 * is 128 or more. 3 for fewer than 2 bytes; 1, 2, 3, 4, 5.
 */
uint8_t weimrukas_read_sheet(const uint8_t *sheet, size_t sheet_length, uint16_t *WEIMRUKAS_RESTRICT codes,
                             size_t codes_length, double *WEIMRUKAS_RESTRICT matrix, size_t matrix_length,
                             size_t *WEIMRUKAS_RESTRICT n, size_t *WEIMRUKAS_RESTRICT sweeps,
                             size_t *WEIMRUKAS_RESTRICT row, size_t *WEIMRUKAS_RESTRICT column);

/*
 * Puts a sheet together, in the long form exactly if some code is above 255; *written becomes the number of its bytes,
 * WEIMRUKAS_LONG_SHEET_LENGTH(n) or WEIMRUKAS_SHEET_LENGTH(n). Lent bytes beyond them stay. 1, 2, 3, 4, 5, 6; 7 for
 * fewer bytes than that. A refusal leaves *written as it was.
 */
uint8_t weimrukas_write_sheet(size_t n, size_t sweeps, const uint16_t *codes, size_t codes_length, const double *matrix,
                              size_t matrix_length, uint8_t *WEIMRUKAS_RESTRICT sheet, size_t sheet_length,
                              size_t *WEIMRUKAS_RESTRICT written, size_t *WEIMRUKAS_RESTRICT row,
                              size_t *WEIMRUKAS_RESTRICT column);

/*
 * Joins two sheets, each of either form, to one: the lines of the first and then those of the second, +0 between the two
 * groups, and the larger number of sweeps. Like any sheet it is of the long form exactly if some code is above 255. With
 * n lines in all *written becomes the number of its bytes, WEIMRUKAS_LONG_SHEET_LENGTH(n) or WEIMRUKAS_SHEET_LENGTH(n).
 * Lent bytes beyond them stay. Both sheets are only read. What the first sheet is refused by, by its bytes alone: 3 for
 * fewer than 2 bytes, 1, 2, 3, 4, 5; then what the second is, likewise; then 10; 1 where n is above
 * WEIMRUKAS_MOST_LINES; 7 for fewer bytes than the joint sheet has. 5 sets the row and the column in the sheet that is
 * refused; which of the two it is, is not told. A refusal leaves *written as it was.
 */
uint8_t weimrukas_join_sheets(const uint8_t *first, size_t first_length, const uint8_t *second, size_t second_length,
                              uint8_t *WEIMRUKAS_RESTRICT sheet, size_t sheet_length,
                              size_t *WEIMRUKAS_RESTRICT written, size_t *WEIMRUKAS_RESTRICT row,
                              size_t *WEIMRUKAS_RESTRICT column);

/*
 * Reads a sheet, runs the array and puts the printed sheet into text, as ASCII without a final zero; *printed becomes
 * the number of its bytes. The sweeps in it are the sheet's own, the ticks those that were made. The rest of text
 * stays. 3 for fewer than 2 bytes, 1, 2, 3, 4, 5, all of the sheet; 7 for a text shorter than
 * WEIMRUKAS_TEXT_LENGTH(n); 8. A refusal changes nothing of text and sets *printed to 0.
 */
uint8_t weimrukas_list(const uint8_t *sheet, size_t sheet_length, uint8_t *WEIMRUKAS_RESTRICT text, size_t text_length,
                       size_t *WEIMRUKAS_RESTRICT printed, size_t *WEIMRUKAS_RESTRICT row,
                       size_t *WEIMRUKAS_RESTRICT column);

/*
 * The array by hand. Its record is WEIMRUKAS_ARRAY_WORDS words: n, sweeps and the number of the next tick, and then
 * WEIMRUKAS_MOST_PROCESSORS rows of as many tiles, of which the first N of the first N rows are in use. A tile
 * has WEIMRUKAS_TILE_WORDS: the cells of the matrix (alpha, beta, gamma, delta: row by row) and of the eigenvectors,
 * the wires of the matrix and of the eigenvectors by the same corners, the tangents that it sends along its row and its
 * column, all as bits of doubles, its mark, its count of turns, and its count of rounded pairs.
 *
 * The mark of a tile in use is 1 if one of its cells was not finite after some tick, and stays so; otherwise it is 0.
 * Where a tile is marked at the end, the whole run by one call answers 8. Otherwise entry (r, c) of the results, both
 * from 1, stands at the end where it stood at first. Let i be r - 1 and j be c - 1 where n is even, and i = r and j = c
 * where it is odd: the first row and the first column of cells are then line 0's. The entry is with processor i / 2,
 * register i % 2 by rows and processor j / 2, register j % 2 by columns, processors from 0: that of the matrix is the
 * cell words[WEIMRUKAS_TILE(i / 2, j / 2) + 2 * (i % 2) + j % 2], that of the eigenvectors 4 words further.
 *
 * A tile on the diagonal counts the steps of the current sweep in which its pair turned: the first step of a sweep
 * begins the count anew, and a count of 65535 stays. Tiles off the diagonal keep theirs, which is 0 at the start. No
 * tick lowers the record's sweeps, so by hand all of them are made. With L steps in a sweep, sweep m is quiet if right
 * after the tick with number 3 (m L - 1), the first being 0, the counts of the N tiles in use on the diagonal are 0.
 *
 * A tile on the diagonal also counts the steps of the whole run in which its pair was rounded: no sweep begins this
 * count anew, and one of 65535 stays. Tiles off the diagonal keep theirs, which is 0 at the start. Where no tile is
 * marked at the end, the counts of the N tiles in use on the diagonal add up to the *rounded of the whole run.
 *
 * A record that a caller wrote may hold any words: each pattern of no number counts as 7FF8000000000000, each mark but
 * 0 as 1, each count above 65535 as 65535, and a tick that is made writes all words anew in that form.
 */
#define WEIMRUKAS_TILE_WORDS 21
#define WEIMRUKAS_ARRAY_WORDS (3 + WEIMRUKAS_MOST_PROCESSORS * WEIMRUKAS_MOST_PROCESSORS * WEIMRUKAS_TILE_WORDS)

/* Where the tile in row i and column j, both from 0, begins. */
#define WEIMRUKAS_TILE(i, j) (3 + (WEIMRUKAS_MOST_PROCESSORS * (i) + (j)) * WEIMRUKAS_TILE_WORDS)

/*
 * The array before its first tick. 1, 2, 3, 5, 6, each of which sets all words to 0 where there are
 * WEIMRUKAS_ARRAY_WORDS of them.
 */
uint8_t weimrukas_array_start(size_t n, size_t sweeps, const double *matrix, size_t matrix_length,
                              uint64_t *WEIMRUKAS_RESTRICT words, size_t words_length, size_t *WEIMRUKAS_RESTRICT row,
                              size_t *WEIMRUKAS_RESTRICT column);

/*
 * One tick: *made becomes 1. After the last tick, 3 sweeps (n - 1) + N in all where n is even and 3 sweeps n + N where
 * it is odd, the array has stopped: the words stay and *made becomes 0. 3 for other than WEIMRUKAS_ARRAY_WORDS words;
 * 1, 2, by the record's n and sweeps; each sets *made to 0.
 */
uint8_t weimrukas_array_tick(uint64_t *WEIMRUKAS_RESTRICT words, size_t words_length, uint8_t *WEIMRUKAS_RESTRICT made);

#undef WEIMRUKAS_RESTRICT

#ifdef __cplusplus
}
#endif

#endif
