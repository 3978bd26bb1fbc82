/*
 * Measures how many bytes of stack a call of each function takes at most, and prints a table in Markdown. Each call is
 * made on a stack that is filled with one byte before; the deepest byte that is another afterwards tells how far it
 * came. As a call may write just that byte, it is made again with another. What a call of nothing takes is taken off,
 * so that arguments on the stack and the return address count. All that is lent stands elsewhere. Ends with 1 if one of
 * the answers that a function has did not come.
 */
#define _DEFAULT_SOURCE

#include "weimrukas.h"

#include <math.h>
#include <stdio.h>
#include <string.h>
#include <sys/mman.h>
#include <ucontext.h>

enum { MOST = WEIMRUKAS_MOST_LINES, MOST_SWEEPS = WEIMRUKAS_MOST_SWEEPS, HALF = MOST / 2 };
enum { ENTRIES = (MOST + 1) * (MOST + 1), SHEET = WEIMRUKAS_LONG_SHEET_LENGTH(MOST + 1) };
enum { WORDS = WEIMRUKAS_ARRAY_WORDS, TEXT = WEIMRUKAS_TEXT_LENGTH(MOST) };
/* The page below the stack may not be touched. */
enum { STACK = 1 << 20, PAGE = 1 << 12, FIRST_FILL = 0x5A, SECOND_FILL = 0xA5 };

enum kind { FULL, DIAGONAL, HUGE_ENTRIES, NOT_FINITE, NOT_MIRRORED, KINDS };
/* What is lent one value short. */
enum missing { NOTHING, OF_MATRIX, OF_ROOM, MISSING };
/* The numbers by which a sheet is refused are 1 to this one. */
enum { DAMAGES = 5 };

struct sheet {
    uint8_t bytes[SHEET];
    size_t length;
};

/* What calls are lent, and what they write. */
static size_t n, sweeps, step, entries, room, words_length = WORDS;
static double value, pair[3], matrix[ENTRIES];
static uint16_t codes[MOST + 1];
static struct sheet sheet, second;
static uint64_t words[WORDS], words_before[WORDS];
static double root, t, c, s, records[3 * (HALF + 1)], result[ENTRIES], vectors[ENTRIES];
static size_t left[HALF + 1], right[HALF + 1], told[3], order, row, column;
static uint8_t answer, flag, turn, flags[HALF + 1], bytes[SHEET], text[TEXT];

static void call_nothing(void) {}

static void call_root(void) { answer = weimrukas_root(value, &root, &flag); }

static void call_parameters(void) {
    answer = 0;
    weimrukas_parameters(pair[0], pair[1], pair[2], &turn, &t, &c, &s, &flag);
}

static void call_pairs(void) { answer = weimrukas_pairs(n, step, left, room, right, room); }

static void call_records(void) {
    answer = weimrukas_records(n, matrix, entries, step, records, 3 * room, flags, room, &row, &column);
}

static void call_plain_run(void) {
    answer = weimrukas_plain_run(n, sweeps, matrix, entries, result, n * n, vectors, n * n, &told[0], &told[1], &row,
                                 &column);
}

static void call_array_run(void) {
    answer = weimrukas_array_run(n, sweeps, matrix, entries, result, n * n, vectors, n * n, &told[0], &told[1],
                                 &told[2], &row, &column);
}

static void call_forecast(void) { answer = weimrukas_forecast(n, sweeps, &told[0], &told[1], &told[2]); }

static void call_read_sheet(void) {
    answer = weimrukas_read_sheet(sheet.bytes, sheet.length, codes, n, result, n * n, &order, &told[0], &row, &column);
}

static void call_write_sheet(void) {
    answer = weimrukas_write_sheet(n, sweeps, codes, n, matrix, entries, bytes, room, &told[0], &row, &column);
}

static void call_join_sheets(void) {
    answer = weimrukas_join_sheets(sheet.bytes, sheet.length, second.bytes, second.length, bytes, room, &told[0], &row,
                                   &column);
}

static void call_list(void) {
    answer = weimrukas_list(sheet.bytes, sheet.length, text, room, &told[0], &row, &column);
}

static void call_array_start(void) {
    answer = weimrukas_array_start(n, sweeps, matrix, entries, words, words_length, &row, &column);
}

static void call_array_tick(void) {
    memcpy(words, words_before, sizeof words);
    answer = weimrukas_array_tick(words, words_length, &flag);
}

/* A function, the answers that have to come, those that came, by bits, and the most bytes of stack that a call took. */
struct function {
    const char *name;
    void (*call)(void);
    const char *answers;
    unsigned came;
    size_t most;
};

static struct function nothing = {"nothing", call_nothing, "0", 0, 0};
static struct function functions[] = {
    {"weimrukas_root", call_root, "0 9", 0, 0},
    {"weimrukas_parameters", call_parameters, "0", 0, 0},
    {"weimrukas_pairs", call_pairs, "0 1 7", 0, 0},
    {"weimrukas_records", call_records, "0 1 3 5 6 7", 0, 0},
    {"weimrukas_plain_run", call_plain_run, "0 1 2 3 5 6 8", 0, 0},
    {"weimrukas_array_run", call_array_run, "0 1 2 3 5 6 8", 0, 0},
    {"weimrukas_forecast", call_forecast, "0 1 2", 0, 0},
    {"weimrukas_read_sheet", call_read_sheet, "0 1 2 3 4 5", 0, 0},
    {"weimrukas_write_sheet", call_write_sheet, "0 1 2 3 4 5 6 7", 0, 0},
    {"weimrukas_join_sheets", call_join_sheets, "0 1 2 3 4 5 7 10", 0, 0},
    {"weimrukas_list", call_list, "0 1 2 3 4 5 7 8", 0, 0},
    {"weimrukas_array_start", call_array_start, "0 1 2 3 5 6", 0, 0},
    {"weimrukas_array_tick", call_array_tick, "0 1 2 3", 0, 0},
};
enum { FUNCTIONS = sizeof functions / sizeof *functions };

static unsigned char *stack;
static ucontext_t outside, inside;
static void (*entered)(void);

/* What a context needs on its stack before and after the call lies above what the call takes. */
static void enter(void) {
    volatile unsigned char above[PAGE];
    above[0] = above[PAGE - 1] = 0;
    entered();
    above[0] = above[PAGE - 1] = 1;
}

static size_t depth_over(unsigned char fill, void (*call)(void)) {
    memset(stack, fill, STACK);
    entered = call;
    getcontext(&inside);
    inside.uc_stack.ss_sp = stack;
    inside.uc_stack.ss_size = STACK;
    inside.uc_link = &outside;
    makecontext(&inside, enter, 0);
    swapcontext(&outside, &inside);
    size_t untouched = 0;
    while (stack[untouched] == fill) {
        untouched++;
    }
    return STACK - untouched;
}

static size_t larger(size_t x, size_t y) { return x > y ? x : y; }

static void measure(struct function *function) {
    size_t first = depth_over(FIRST_FILL, function->call), again = depth_over(SECOND_FILL, function->call);
    function->most = larger(function->most, larger(first, again) - nothing.most);
    function->came |= 1u << answer;
}

/* Measures the call that is meant, with what is lent now. */
static void measure_call(void (*call)(void)) {
    for (int k = 0; k < FUNCTIONS; k++) {
        if (functions[k].call == call) {
            measure(&functions[k]);
        }
    }
}

static void set_matrix(enum kind kind) {
    for (size_t i = 0; i < n; i++) {
        for (size_t j = 0; j < n; j++) {
            double full = kind == HUGE_ENTRIES ? DBL_MAX : 1.0 / (double)(1 + i + j);
            matrix[i * n + j] = kind == DIAGONAL && i != j ? 0.0 : full;
        }
    }
    if (n > 1 && kind == NOT_FINITE) {
        matrix[n * n - 1] = INFINITY;
    }
    if (n > 1 && kind == NOT_MIRRORED) {
        matrix[n * n - 2] = 2.0;
    }
}

/* Codes from the first one on. */
static void set_codes(size_t first) {
    for (size_t k = 0; k < n; k++) {
        codes[k] = (uint16_t)(first + k);
    }
}

/* Every code is above 255 in the long form, and none in the short one. */
static size_t first_code(int is_long) { return is_long ? 300 : 1; }

/* Runs, records, pairs and forecasts, and sheets written, of the order that is set. */
static void measure_matrix(enum kind kind, enum missing missing) {
    set_matrix(kind);
    entries = n * n - (missing == OF_MATRIX);
    room = (n + 1) / 2 - (missing == OF_ROOM);
    for (step = 0; step < 3; step++) {
        measure_call(call_pairs);
        measure_call(call_records);
    }
    measure_call(call_plain_run);
    measure_call(call_array_run);
    measure_call(call_forecast);
    measure_call(call_array_start);
    for (int is_long = 0; is_long < 2; is_long++) {
        room = (is_long ? WEIMRUKAS_LONG_SHEET_LENGTH(n) : WEIMRUKAS_SHEET_LENGTH(n)) - (missing == OF_ROOM);
        set_codes(first_code(is_long));
        measure_call(call_write_sheet);
        codes[1] = codes[0];
        measure_call(call_write_sheet);
    }
}

/* Writes a sheet with codes from the first one on, and damages it so that it is refused by that number, if by any. */
static void set_sheet(struct sheet *made, size_t lines, enum kind kind, size_t first, int damage) {
    n = lines;
    set_matrix(kind);
    set_codes(first);
    weimrukas_write_sheet(n, sweeps, codes, n, matrix, n * n, made->bytes, SHEET, &made->length, &row, &column);
    uint8_t *last = made->bytes + made->length - 8;
    switch (damage) {
    case 1: made->bytes[0] = (uint8_t)(made->bytes[0] / 128 * 128 + MOST + 1); break;
    case 2: made->bytes[1] = MOST_SWEEPS + 1; break;
    case 3: made->length--; break;
    case 4: made->bytes[2] = made->bytes[3] = 0; break;
    case 5: last[0] = 0x7F, last[1] = 0xF8; break;
    }
}

/* Sheets of an order, read and listed. */
static void measure_sheets(size_t lines) {
    for (int is_long = 0; is_long < 2; is_long++) {
        for (int damage = 0; damage <= DAMAGES; damage++) {
            for (enum kind kind = FULL; kind <= HUGE_ENTRIES; kind++) {
                set_sheet(&sheet, lines, kind, first_code(is_long), damage);
                room = WEIMRUKAS_TEXT_LENGTH(n);
                measure_call(call_read_sheet);
                measure_call(call_list);
                room--;
                measure_call(call_list);
            }
        }
    }
}

/* Sheets of two orders, joined: none damaged, the first, the second, or the first code of the first in both. */
static void measure_joinings(size_t lines, size_t others) {
    for (int is_long = 0; is_long < 4; is_long++) {
        for (int damage = 0; damage <= 2 * DAMAGES + 1; damage++) {
            size_t first = first_code(is_long % 2), after = first_code(is_long / 2) + lines;
            set_sheet(&sheet, lines, FULL, first, damage);
            set_sheet(&second, others, FULL, damage <= 2 * DAMAGES ? after : first, damage - DAMAGES);
            size_t joint = lines + others;
            room = joint > MOST ? SHEET : is_long ? WEIMRUKAS_LONG_SHEET_LENGTH(joint) : WEIMRUKAS_SHEET_LENGTH(joint);
            measure_call(call_join_sheets);
            room--;
            measure_call(call_join_sheets);
        }
    }
}

/* A start and each tick after it, up to one that is not made. */
static void measure_ticks(size_t lines, enum kind kind) {
    n = lines;
    sweeps = 1;
    set_matrix(kind);
    entries = n * n;
    call_array_start();
    do {
        memcpy(words_before, words, sizeof words);
        measure_call(call_array_tick);
    } while (flag == 1);
}

/* Records and lengths that are refused, and a record of no numbers. */
static void measure_wild_ticks(void) {
    memset(words_before, 0xFF, sizeof words);
    words_before[0] = MOST + 1;
    words_before[1] = MOST_SWEEPS;
    words_before[2] = 0;
    measure_call(call_array_tick);
    words_before[0] = MOST;
    measure_call(call_array_tick);
    words_before[1] = MOST_SWEEPS + 1;
    measure_call(call_array_tick);
    words_length--;
    measure_call(call_array_tick);
    measure_call(call_array_start);
    words_length++;
}

static void measure_numbers(void) {
    static const double values[] = {0.0, 0.25, 1.0, 2.0, 3.0, DBL_MIN / 4, DBL_MAX, INFINITY, NAN, -1.0};
    enum { VALUES = sizeof values / sizeof *values };
    for (int i = 0; i < VALUES; i++) {
        value = pair[0] = values[i];
        measure_call(call_root);
        for (int j = 0; j < VALUES * VALUES; j++) {
            pair[1] = values[j / VALUES];
            pair[2] = values[j % VALUES];
            measure_call(call_parameters);
        }
    }
}

static void measure_all(void) {
    static const size_t orders[] = {2, 3, MOST - 1, MOST, 1, MOST + 1};
    static const size_t numbers[] = {0, 1, MOST_SWEEPS, MOST_SWEEPS + 1};
    measure_numbers();
    for (int k = 0; k < 6; k++) {
        for (int l = 0; l < 4; l++) {
            for (enum kind kind = FULL; kind < KINDS; kind++) {
                for (enum missing missing = NOTHING; missing < MISSING; missing++) {
                    n = orders[k];
                    sweeps = numbers[l];
                    measure_matrix(kind, missing);
                }
            }
        }
    }
    for (int k = 0; k < 4; k++) {
        sweeps = MOST_SWEEPS;
        measure_sheets(orders[k]);
        measure_ticks(orders[k], FULL);
        measure_ticks(orders[k], HUGE_ENTRIES);
    }
    measure_wild_ticks();
    measure_joinings(2, 2);
    measure_joinings(2, MOST - 2);
    measure_joinings(MOST - 3, 2);
    measure_joinings(HALF, HALF);
    measure_joinings(MOST, MOST);
}

/* Whether the answers that came are those that have to. */
static int all_came(const struct function *function) {
    char came[64] = "";
    for (int k = 0; k <= 10; k++) {
        if (function->came >> k & 1) {
            size_t length = strlen(came);
            snprintf(came + length, sizeof came - length, length > 0 ? " %d" : "%d", k);
        }
    }
    if (strcmp(came, function->answers) != 0) {
        fprintf(stderr, "%s: %s came, and not %s\n", function->name, came, function->answers);
        return 0;
    }
    return 1;
}

int main(void) {
    unsigned char *memory = mmap(NULL, PAGE + STACK, PROT_READ | PROT_WRITE, MAP_PRIVATE | MAP_ANONYMOUS, -1, 0);
    if (memory == MAP_FAILED || mprotect(memory, PAGE, PROT_NONE) != 0) {
        perror("stack");
        return 1;
    }
    stack = memory + PAGE;
    measure(&nothing);
    measure_all();
    int good = 1;
    puts("| function | bytes of stack |\n|---|---|");
    for (int k = 0; k < FUNCTIONS; k++) {
        printf("| `%s` | %zu |\n", functions[k].name, functions[k].most);
        good &= all_came(&functions[k]);
    }
    return good ? 0 : 1;
}
