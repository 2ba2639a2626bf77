/* stack QUESTIONS: the greatest stack that each exported call uses, in bytes, over the questions of a file (src/lib.rs). Each call runs
   on its own stack, which is first filled with a pattern. The bytes that have changed when it returns were used. The bytes that an
   empty function uses are subtracted; the frame of the small function that makes the call is not. */
#define _GNU_SOURCE
#include <inttypes.h>
#include <stdio.h>
#include <stdlib.h>
#include <string.h>
#include <ucontext.h>

#include "belfrywool_calls.h"

enum { WORDS = 80, LINE = 1000000, STACK = 1 << 18, PAINT = 0xa7 };

static char line[LINE];
static uint8_t books[2][LINE / 2], output[LINE / 2], stack[STACK] __attribute__((aligned(64)));
static size_t lengths[2];
static uint64_t v[WORDS], numbers[64];
static double x[WORDS], out[64];
static uint16_t fates[BELFRY_ENTRIES];
static uint32_t steps;
static int64_t angles[4];
static ucontext_t here, there;
static size_t deepest; /* how deep the last call has changed the pattern */

static int is(const char *name) { return strcmp(line, name) == 0; }

/* Every argument is a word of the question, as a number or as a float, so that each call is written as it is declared. */
#define BOOK books[0], lengths[0]
#define SETTING x, x + 6, (uint32_t)v[9], v[10]
#define RAN numbers, out, numbers + 1, &steps
#define CALLS(CALL)                                                                                                         \
    CALL(date, (v[0], numbers))                                                                                             \
    CALL(day, (v[0], v[1], v[2], numbers))                                                                                  \
    CALL(twice, (v[0], numbers))                                                                                            \
    CALL(hour, (v[0], (uint32_t)v[1], numbers))                                                                             \
    CALL(sidereal, (v[0], v[1], (uint32_t)v[2], numbers))                                                                   \
    CALL(root, (x[0], out))                                                                                                 \
    CALL(sincos, (v[0], out))                                                                                               \
    CALL(passes, (BOOK))                                                                                                    \
    CALL(holds, (BOOK, books[1], lengths[1], numbers))                                                                      \
    CALL(position, (BOOK, v[0], v[1], out))                                                                                 \
    CALL(repair, (BOOK, output, (size_t)v[0], fates, numbers))                                                              \
    CALL(acceleration, (BOOK, x, (uint32_t)v[6], v[7], x + 8, out))                                                         \
    CALL(run, (BOOK, x, (uint32_t)v[6], v[7], x + 8, (uint32_t)v[14], v[15], (uint32_t)v[16], v + 17, RAN))                  \
    CALL(step, (BOOK, x, (uint32_t)v[6], v[7], x + 8, (uint32_t)v[14], v + 15, RAN))                                        \
    CALL(fixed, (v[0], x + 1, (uint32_t)v[7], out))                                                                         \
    CALL(sphere, (v[0], v[1], (uint32_t)v[2], x + 3, angles, out))                                                          \
    CALL(conic, (x[0], v[1], x + 2, numbers, out))                                                                          \
    CALL(pull, (BOOK, SETTING, v[11], v[12], x + 13, out))                                                                  \
    CALL(inject, (BOOK, SETTING, v[11], v[12], x + 13, out))                                                                \
    CALL(move, (BOOK, SETTING, v[11], v[12], x + 13, v[22], out))                                                           \
    CALL(fly, (BOOK, SETTING, v[11], v[12], x + 13, (uint32_t)v[22], v[23], (uint32_t)v[24], v + 25, RAN))                  \
    CALL(turn, (v[0], (uint32_t)v[1], v[2], v[3], x + 4, out))                                                              \
    CALL(orbit, (x[0], v[1], v[2], x + 3, numbers, out))                                                                    \
    CALL(clear, (v, x + 5))                                                                                                 \
    CALL(take, (v[0], v[1], x + 2, v + 11, x + 16))                                                                         \
    CALL(feed, (v[0], v[1], v[2], x + 3, v + 12, x + 17))                                                                   \
    CALL(frame, (v + 1, x + 6, v[0], out, numbers))                                                                         \
    CALL(motion, (v + 1, x + 6, v[0], out, numbers))

/* The names that questions have for calls. */
#define belfry_twice belfry_twice_julian_date
#define belfry_hour belfry_hour_angle
#define belfry_sincos belfry_sine_cosine
#define belfry_passes belfry_book_passes
#define belfry_holds belfry_book_holds
#define belfry_step belfry_single_step
#define belfry_fixed belfry_earth_fixed
#define belfry_sphere belfry_from_sphere
#define belfry_motion belfry_frame_motion
#define TEXT(name) TEXT_OF(name)
#define TEXT_OF(name) #name
#define NAME(name, arguments) {#name, TEXT(belfry_##name), 0},
static struct {
    const char *question, *call;
    size_t most;
} calls[] = {CALLS(NAME){"", "", 0}};

#define FUNCTION(name, arguments)                            \
    __attribute__((noinline)) static void on_##name(void) { \
        if (belfry_##name arguments == UINT64_MAX) abort();  \
    }
CALLS(FUNCTION)
__attribute__((noinline)) static void nothing(void) { __asm__ volatile(""); }
#define POINTER(name, arguments) on_##name,
static void (*const functions[])(void) = {CALLS(POINTER) nothing};

/* Runs a function on the filled stack. */
static void measure(void (*function)(void)) {
    static size_t painted = STACK; /* from here down the pattern is intact after the last call */
    size_t i;
    memset(stack + STACK - painted, PAINT, painted);
    if (getcontext(&there)) exit(2);
    there.uc_stack.ss_sp = stack;
    there.uc_stack.ss_size = sizeof stack;
    there.uc_link = &here;
    makecontext(&there, function, 0);
    if (swapcontext(&here, &there)) exit(2);
    for (i = 0; i < sizeof stack && stack[i] == PAINT; i++) continue;
    deepest = painted = sizeof stack - i;
}

static uint8_t digit(char c) { return (uint8_t)(c <= '9' ? c - '0' : c - 'a' + 10); }

static void set_book(int which, const char *digits) {
    for (lengths[which] = 0; digits[0] > ' '; digits += 2) books[which][lengths[which]++] = (uint8_t)(16 * digit(digits[0]) + digit(digits[1]));
}

int main(int count, char **words) {
    FILE *file = count == 2 ? fopen(words[1], "r") : NULL;
    const size_t last = sizeof calls / sizeof *calls - 1;
    size_t i, base;
    if (!file) {
        fprintf(stderr, "use: stack QUESTIONS\n");
        return 2;
    }
    measure(nothing);
    base = deepest;
    while (fgets(line, sizeof line, file)) {
        char *rest = strchr(line, ' ');
        if (!rest) return 2;
        *rest++ = '\0';
        if (is("book") || is("second")) {
            set_book(is("second"), rest);
            continue;
        }
        memset(v, 0, sizeof v);
        for (i = 0; i < WORDS && *rest && *rest != '\n'; i++) v[i] = strtoull(rest, &rest, 16);
        memcpy(x, v, sizeof x);
        for (i = 0; i < 4; i++) angles[i] = (int64_t)v[5 + i];
        for (i = 0; i < last && !is(calls[i].question); i++) continue;
        if (i == last) continue;
        measure(functions[i]);
        if (deepest > base && deepest - base > calls[i].most) calls[i].most = deepest - base;
    }
    for (i = 0; i < last; i++) printf("%s %zu\n", calls[i].call, calls[i].most);
    return fclose(file);
}
