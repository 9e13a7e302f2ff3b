/* How much stack each call of the library takes. A call runs on a stack of its own that was painted before; the deepest byte that
 * lost its paint tells. Counted from the function that makes the call, so with arguments and return addresses. */
#include <stdio.h>
#include <string.h>
#include <ucontext.h>
#include "yakkurem.h"

enum { PERIODS = 96, MOST = 4096, BIG = 60000, STACK = 1 << 18, FILE_BYTES = 19 * PERIODS + 13 };

static uint16_t need[PERIODS], lowest[PERIODS], capacity[PERIODS], store[PERIODS], plan[PERIODS];
static uint32_t start[PERIODS], unit[PERIODS], upkeep[PERIODS];
static uint64_t costs[2 * (MOST + 1)];
static uint16_t choices[PERIODS * (MOST + 1)];
static uint8_t file[FILE_BYTES];
static size_t n, file_length;
static uint16_t opening, closing;
static const uint16_t stamp[2] = {17, 9816}; /* station and day number of every file */

#define DAY need, n, capacity, n, start, n, unit, n, upkeep, n, store, n, opening, closing
#define AREAS costs, sizeof costs / sizeof *costs, choices, sizeof choices / sizeof *choices
#define MEMORY AREAS, plan, PERIODS

static uint64_t answer[5], code;
static int64_t difference[1];

static void full(void) { code = yakkurem_full(DAY, MEMORY, answer); }
static void uncapped(void) { code = yakkurem_uncapped(DAY, MEMORY, answer); }
static void equal(void) { code = yakkurem_equal(DAY, MEMORY, answer); }
static void free_path(void) { code = yakkurem_free(DAY, costs, PERIODS, plan, PERIODS, answer); }
static void bounds(void) { code = yakkurem_bounds(lowest, n, DAY, AREAS, answer); }
static void big(void) { code = yakkurem_big(DAY, 1000, costs, 3 * PERIODS, plan, PERIODS, answer); }
static void weigh(void) { code = yakkurem_weigh(DAY, plan, PERIODS, answer); }
static void compare(void) { code = yakkurem_compare(DAY, plan, PERIODS, plan, PERIODS, difference); }
static void play(void) { code = yakkurem_play(DAY, plan, PERIODS, lowest, n, answer); }
static void write_file(void) {
    code = yakkurem_write(DAY, stamp[0], stamp[1], file, sizeof file, answer);
    if (code == 0) file_length = answer[0];
}
static void lookup(void) { code = yakkurem_lookup(file, file_length, n, answer); }
static void read_file(void) {
    code = yakkurem_read(
        file, file_length, stamp, 2, need, PERIODS, capacity, PERIODS, start, PERIODS, unit, PERIODS, upkeep, PERIODS, store, PERIODS, answer);
}
static void price(void) {
    code = 0;
    answer[0] = yakkurem_price(UINT64_MAX);
}

static void test_load(void) {
    code = yakkurem_test_load(
        7, n, need, PERIODS, capacity, PERIODS, start, PERIODS, unit, PERIODS, upkeep, PERIODS, store, PERIODS);
}

static const struct { const char *name; void (*call)(void); } calls[] = {
    {"yakkurem_full", full}, {"yakkurem_uncapped", uncapped}, {"yakkurem_equal", equal}, {"yakkurem_free", free_path},
    {"yakkurem_bounds", bounds}, {"yakkurem_big", big}, {"yakkurem_weigh", weigh}, {"yakkurem_compare", compare},
    {"yakkurem_play", play}, {"yakkurem_write", write_file}, {"yakkurem_read", read_file}, {"yakkurem_lookup", lookup},
    {"yakkurem_test_load", test_load}, {"yakkurem_price", price},
};
enum { CALLS = sizeof calls / sizeof *calls };

static unsigned char stack[STACK];
static unsigned char *top;
static ucontext_t outside, inside;
static void (*chosen)(void);

static void enter(void) {
    top = __builtin_frame_address(0);
    chosen();
    __asm__ volatile(""); /* so that the call is no jump */
}

/* The bytes below the caller's frame that the call touched. */
static size_t taken(void (*call)(void), unsigned char paint) {
    memset(stack, paint, sizeof stack);
    chosen = call;
    getcontext(&inside);
    inside.uc_stack.ss_sp = stack;
    inside.uc_stack.ss_size = sizeof stack;
    inside.uc_link = &outside;
    makecontext(&inside, enter, 0);
    swapcontext(&outside, &inside);
    size_t untouched = 0;
    while (stack[untouched] == paint) untouched++;
    return (size_t)(top - stack) - untouched;
}

/* Days of 1 to 96 periods: the whole need in one period or spread, half of it charge to hand on, with some to begin with, or spread and
 * as much as only a big day may need; costs at their limits or small, with and without start costs; capacities that can't bind, equal
 * ones that are just enough, and ones that are too small; a store limit in every other period, or none. The lowest needs are half the
 * needs, rounded down, and are what a plan is played against. The file that is read was written of the same day. */
static void make(size_t periods, int shape, int starts, uint16_t most, int limited) {
    n = periods;
    opening = shape == 3 ? 100 : 0;
    closing = shape == 3 ? MOST / 2 : 0;
    for (size_t i = 0; i < n; i++) {
        size_t whole = shape == 4 ? BIG : MOST - closing;
        int in_one = shape == 1 || shape == 2;
        need[i] = in_one ? (i == (shape == 1 ? 0 : n - 1) ? MOST : 0) : (uint16_t)(whole * (i + 1) / n - whole * i / n);
        lowest[i] = need[i] / 2;
        capacity[i] = most;
        start[i] = starts ? (i % 3 ? 1000000000 : 7) : 0;
        unit[i] = i % 5 ? 1000000 : 3;
        upkeep[i] = i % 2 ? 500000 : 1;
        store[i] = limited && i % 2 ? MOST / 2 : 65535;
    }
}

int main(void) {
    static const size_t sizes[] = {0, 1, 2, 95, 96};
    static const uint16_t capacities[] = {0, 43, 60, 4096, 65535};
    size_t deepest[CALLS] = {0}, accepted[CALLS] = {0};
    for (size_t s = 0; s < 5; s++)
        for (int shape = 0; shape < 5; shape++)
            for (size_t day = 0; day < 20; day++)
                for (size_t k = 0; k < CALLS; k++)
                    for (int paint = 0x55; paint <= 0xaa; paint += 0x55) {
                        make(sizes[s], shape, day % 10 < 5, capacities[day % 5], day < 10);
                        size_t bytes = taken(calls[k].call, (unsigned char)paint);
                        if (bytes > deepest[k]) deepest[k] = bytes;
                        accepted[k] += code == 0;
                    }
    printf("| Call | Stack, bytes |\n|---|---|\n");
    for (size_t k = 0; k < CALLS; k++) {
        if (accepted[k] == 0) {
            fprintf(stderr, "%s accepted nothing\n", calls[k].name);
            return 1;
        }
        printf("| `%s` | %zu |\n", calls[k].name, deepest[k]);
    }
    return 0;
}
