/* What libbelfrywool has besides the proved calls: its version, the meanings of numbers, the length of a vector, and a test of the
   floating-point environment. Compile it with -ffp-contract=off and without -ffast-math. */
#include "belfrywool.h"

const char *belfry_version(void) { return BELFRYWOOL_VERSION; }

static const char *const refusals[] = {
    "the call has answered",
    "the book does not pass",
    "the step length is not an even number of milliseconds from 2 to 86,400,000",
    "a moment or its universal time is out of range",
    "a coefficient, J, A, K, DUT or the rule of the hour angle is not allowed",
    "the target is before the state, or not a whole number of steps away",
    "a used body has no record in the book that covers the moment",
    "a given state or a result is not finite",
    "there is no such date from 1950 to 2049",
    "the orbit is a parabola: c3 is zero",
    "the orbit is a straight line",
    "a root of a negative number, or of one that is not finite",
    "an angle is out of range",
    "the listing is not of the form",
    "the centre is not a body that the setting uses",
    "the acceleration stored with the state is not the one that the rule gives",
    "the input or the output has fewer than 8 bytes",
    "a magnitude of 10^12 or more has no place in the table",
    "the state is about another centre than the newer one, or not later",
};

static const char *const others[] = {
    "the budget is spent short of the target",
    "the run was refused, and the pane is as it was",
    "the moment is past the newer state",
    "the pane has fewer than two states, or the moment is before the older one",
    "the second book does not hold every entry of the first",
};

const char *belfry_meaning(uint64_t number) {
    if (number < sizeof refusals / sizeof *refusals) return refusals[number];
    if (number >= BELFRY_GOING && number - BELFRY_GOING < sizeof others / sizeof *others) return others[number - BELFRY_GOING];
    return "no call returns this number";
}

/* Sums and products that are computed when the program runs, not when it is compiled. */
static double sum(double x, double y) {
    volatile double a = x, b = y, c;
    c = a + b;
    return c;
}

static double product(double x, double y) {
    volatile double a = x, b = y, c;
    c = a * b;
    return c;
}

static uint64_t bits_of(double x) {
    uint64_t bits;
    memcpy(&bits, &x, sizeof bits);
    return bits;
}

static double float_of(uint64_t bits) {
    double x;
    memcpy(&x, &bits, sizeof x);
    return x;
}

unsigned belfry_environment(void) {
    /* The bits of 1 and -1, and floats of a half, a quarter and three quarters of the distance from 1 to the next float. They are given
       by their bits, so that no compiler computes them in another environment. */
    const uint64_t one = UINT64_C(0x3ff0000000000000), minus = UINT64_C(0xbff0000000000000);
    const double half = float_of(UINT64_C(0x3ca0000000000000)), quarter = float_of(UINT64_C(0x3c90000000000000));
    const double three = float_of(UINT64_C(0x3ca8000000000000)), next = float_of(one + 1);
    const double minus_quarter = float_of(UINT64_C(0xbc90000000000000)), minus_three = float_of(UINT64_C(0xbca8000000000000));
    const int up = bits_of(sum(1.0, three)) == one + 1 && bits_of(sum(-1.0, minus_three)) == minus + 1;
    const int down = bits_of(sum(1.0, quarter)) == one && bits_of(sum(-1.0, minus_quarter)) == minus;
    const int ties = bits_of(sum(1.0, half)) == one && bits_of(sum(next, half)) == one + 2;
    /* Products: the least normal float times 1/2, and the least float of all times 2 and times 2^52. */
    const int written = bits_of(product(float_of(UINT64_C(0x0010000000000000)), 0.5)) == UINT64_C(0x0008000000000000);
    const int read = bits_of(product(float_of(1), 2.0)) == 2 && bits_of(product(float_of(1), float_of(UINT64_C(0x4330000000000000)))) != 0;
    unsigned wrong = 0;
    if (!(up && down && ties)) wrong |= BELFRY_ROUNDING;
    if (!(written && read)) wrong |= BELFRY_SUBNORMALS;
    return wrong;
}

uint64_t bw_length(const double vector[3], double *length) {
    const double x = vector[0], y = vector[1], z = vector[2];
    return belfry_root((x * x + y * y) + z * z, length);
}
