/*
 * Tries weimrukas_environment_is_default in floating-point environments and shows what the library gives in each: the
 * root of 2^-1060, a run on ordinary entries and one on subnormal entries. The argument, `default` or `other`, says
 * what the environment at the start has to be. Ends with 1 if the test tells wrongly, or if the library gives other
 * bits in the default environment or none elsewhere.
 */
#include "weimrukas.h"

#include <fenv.h>
#include <stdio.h>
#include <string.h>
#include <xmmintrin.h>

enum { N = 4, SWEEPS = 4, ENTRIES = N * N };
/* Bits of the register MXCSR. */
enum { FLUSH_RESULTS = 0x8000, ZERO_OPERANDS = 0x0040 };
/* 2^-1060 in units of 2^-1074, the least value. */
#define SMALL ((uint64_t)1 << 14)

struct given {
    double root, ordinary[2][ENTRIES], subnormal[2][ENTRIES];
    int ordinary_answer, subnormal_answer;
};

struct setting {
    const char *name;
    int rounding;
    unsigned bits;
};

static const unsigned entries[ENTRIES] = {16, 4, 2, 1, 4, 12, 3, 2, 2, 3, 8, 5, 1, 2, 5, 20};
static struct given expected;

static double of_bits(uint64_t bits) {
    double x;
    memcpy(&x, &bits, sizeof x);
    return x;
}

static uint64_t bits_of(double x) {
    uint64_t bits;
    memcpy(&bits, &x, sizeof bits);
    return bits;
}

static int run(const double *matrix, double results[2][ENTRIES]) {
    size_t sweeps, rounded, row, column;
    return weimrukas_plain_run(N, SWEEPS, matrix, ENTRIES, results[0], ENTRIES, results[1], ENTRIES, &sweeps, &rounded,
                               &row, &column);
}

static struct given give(void) {
    struct given given;
    double ordinary[ENTRIES], subnormal[ENTRIES];
    uint8_t exact;
    for (int k = 0; k < ENTRIES; k++) {
        ordinary[k] = entries[k];
        subnormal[k] = of_bits(entries[k] * SMALL);
    }
    weimrukas_root(of_bits(SMALL), &given.root, &exact);
    given.ordinary_answer = run(ordinary, given.ordinary);
    given.subnormal_answer = run(subnormal, given.subnormal);
    return given;
}

/* Whether all is as it should be in the environment that is set. Leaves the default one. */
static int is_as_expected(const char *name, int is_default) {
    int told = weimrukas_environment_is_default();
    struct given given = give();
    fesetenv(FE_DFL_ENV);
    int same_root = bits_of(given.root) == bits_of(expected.root);
    int same_ordinary = memcmp(given.ordinary, expected.ordinary, sizeof given.ordinary) == 0;
    int same_subnormal = memcmp(given.subnormal, expected.subnormal, sizeof given.subnormal) == 0;
    int same = same_root && same_ordinary && same_subnormal;
    printf("%s: the test answers %d; root of 2^-1060 %016llX; ", name, told, (unsigned long long)bits_of(given.root));
    printf("ordinary run answers %d, %s bits; ", given.ordinary_answer, same_ordinary ? "the same" : "other");
    printf("subnormal run answers %d, %s bits\n", given.subnormal_answer, same_subnormal ? "the same" : "other");
    return told == is_default && same == is_default;
}

int main(int count, char **arguments) {
    static const struct setting settings[] = {
        {"rounding to nearest", FE_TONEAREST, 0},
        {"rounding upward", FE_UPWARD, 0},
        {"rounding downward", FE_DOWNWARD, 0},
        {"rounding toward zero", FE_TOWARDZERO, 0},
        {"subnormal results set to zero", FE_TONEAREST, FLUSH_RESULTS},
        {"subnormal operands taken as zero", FE_TONEAREST, ZERO_OPERANDS},
    };
    fenv_t start;
    fegetenv(&start);
    fesetenv(FE_DFL_ENV);
    expected = give();
    fesetenv(&start);
    int good = is_as_expected("at the start", count > 1 && strcmp(arguments[1], "default") == 0);
    for (size_t k = 0; k < sizeof settings / sizeof *settings; k++) {
        fesetround(settings[k].rounding);
        _mm_setcsr(_mm_getcsr() | settings[k].bits);
        good &= is_as_expected(settings[k].name, k == 0);
    }
    return good ? 0 : 1;
}
