/*
 * The eigenvalues of four coded lines: by plain sweeps, by the array in one call, and by the array tick by tick. First,
 * the most that the array's run can need.
 */
#include "weimrukas.h"

#include <math.h>
#include <stdio.h>
#include <stdlib.h>
#include <string.h>

/* A sheet of either form fits into SHEET bytes, and one of two more lines into JOINT. */
enum { N = 4, SWEEPS = 16, ENTRIES = N * N, SHEET = WEIMRUKAS_LONG_SHEET_LENGTH(N), TEXT = WEIMRUKAS_TEXT_LENGTH(N) };
enum { JOINT = WEIMRUKAS_LONG_SHEET_LENGTH(N + 2) };

static const uint16_t codes[N] = {7, 19, 42, 201};
static double matrix[ENTRIES] = {
    4.00,  1.00, 0.50,  0.25,
    1.00,  3.00, 0.75, -0.50,
    0.50,  0.75, 2.00,  1.25,
    0.25, -0.50, 1.25,  5.00,
};
static double result[ENTRIES], vectors[ENTRIES];
static size_t row, column;

/* Ends the program if a call was refused. */
static void accepted(int number) {
    if (number != 0) {
        fprintf(stderr, "refused %d\n", number);
        exit(1);
    }
}

static void forecast(void) {
    size_t ticks = 0, values = 0, parameters = 0;
    accepted(weimrukas_forecast(N, SWEEPS, &ticks, &values, &parameters));
    printf("forecast: at most %zu ticks, %zu values set on wires, %zu parameters received\n", ticks, values, parameters);
}

static void run(void) {
    double array_result[ENTRIES], array_vectors[ENTRIES];
    size_t sweeps = 0, ticks = 0, rounded = 0;
    accepted(weimrukas_plain_run(N, SWEEPS, matrix, ENTRIES, result, ENTRIES, vectors, ENTRIES, &sweeps, &rounded, &row,
                                 &column));
    printf("%zu sweeps made of %d, %zu pairs rounded\n", sweeps, SWEEPS, rounded);
    accepted(weimrukas_array_run(N, SWEEPS, matrix, ENTRIES, array_result, ENTRIES, array_vectors, ENTRIES, &sweeps,
                                 &ticks, &rounded, &row, &column));
    int same = memcmp(result, array_result, sizeof result) == 0 && memcmp(vectors, array_vectors, sizeof vectors) == 0;
    printf("%zu sweeps and %zu ticks of the array, %zu pairs rounded: %s by plain sweeps\n", sweeps, ticks, rounded,
           same ? "the same bits as" : "other bits than");
    for (size_t k = 0; k < N; k++) {
        printf("line %d: eigenvalue %.6f, eigenvector", codes[k], result[k * N + k]);
        for (size_t i = 0; i < N; i++) {
            printf(" %.6f", vectors[i * N + k]);
        }
        printf("\n");
    }
}

static void run_by_hand(void) {
    static uint64_t words[WEIMRUKAS_ARRAY_WORDS];
    uint8_t made = 1;
    accepted(weimrukas_array_start(N, SWEEPS, matrix, ENTRIES, words, WEIMRUKAS_ARRAY_WORDS, &row, &column));
    while (made) {
        accepted(weimrukas_array_tick(words, WEIMRUKAS_ARRAY_WORDS, &made));
    }
    int same = 0;
    for (size_t k = 0; k < ENTRIES; k++) {
        size_t i = k / N, j = k % N;
        const uint64_t *cell = words + WEIMRUKAS_TILE(i / 2, j / 2) + i % 2 * 2 + j % 2;
        same += memcmp(cell, result + k, sizeof *cell) == 0;
    }
    int rounded = 0;
    for (size_t k = 0; k < (N + 1) / 2; k++) {
        rounded += (int)words[WEIMRUKAS_TILE(k, k) + WEIMRUKAS_TILE_WORDS - 1];
    }
    printf("%d ticks by hand: %d of %d cells have the same bits, %d pairs rounded\n", (int)words[2], same, ENTRIES,
           rounded);
}

/* Joins a sheet with one of other lines, whose second code takes two bytes, and tries to join it with itself. */
static void join_sheet(const uint8_t *sheet, size_t length) {
    static const uint16_t other_codes[2] = {8, 300};
    static const double other_matrix[4] = {2.0, 0.5, 0.5, 1.0};
    uint8_t other[WEIMRUKAS_LONG_SHEET_LENGTH(2)], joint[JOINT];
    size_t other_length = 0, joint_length = 0;
    accepted(weimrukas_write_sheet(2, 4, other_codes, 2, other_matrix, 4, other, sizeof other, &other_length, &row,
                                   &column));
    accepted(weimrukas_join_sheets(sheet, length, other, other_length, joint, JOINT, &joint_length, &row, &column));
    printf("joint sheet of %zu bytes: order %d, %d sweeps\n", joint_length, joint[0] % 128, joint[1]);
    int number = weimrukas_join_sheets(sheet, length, sheet, length, joint, JOINT, &joint_length, &row, &column);
    printf("joined with itself: refused %d\n", number);
}

static void use_sheet(void) {
    uint8_t sheet[SHEET], text[TEXT];
    uint16_t read_codes[N];
    size_t written = 0, n = 0, sweeps = 0, printed = 0;
    accepted(weimrukas_write_sheet(N, SWEEPS, codes, N, matrix, ENTRIES, sheet, SHEET, &written, &row, &column));
    accepted(weimrukas_read_sheet(sheet, written, read_codes, N, matrix, ENTRIES, &n, &sweeps, &row, &column));
    printf("sheet of %zu bytes: order %zu, %zu sweeps, first code %d\n", written, n, sweeps, read_codes[0]);
    accepted(weimrukas_list(sheet, written, text, TEXT, &printed, &row, &column));
    const uint8_t *end = memchr(text, '\n', printed);
    printf("listing of %zu bytes: %.*s\n", printed, (int)(end - text), (const char *)text);
    join_sheet(sheet, written);
}

int main(void) {
    if (!weimrukas_environment_is_default()) {
        fprintf(stderr, "the floating-point environment is not the default one: the bits would not hold\n");
        return 1;
    }
    forecast();
    run();
    run_by_hand();
    use_sheet();
    matrix[1 * N + 2] = NAN;
    size_t sweeps = 0, rounded = 0;
    int number = weimrukas_plain_run(N, SWEEPS, matrix, ENTRIES, result, ENTRIES, vectors, ENTRIES, &sweeps, &rounded,
                                     &row, &column);
    printf("refused %d at row %zu, column %zu\n", number, row, column);
    return 0;
}
