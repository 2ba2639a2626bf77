/* memory BOOK ROUNDS SEED [spoil]: every exported call on buffers of exactly the given length, for valgrind. Inputs are made from the
   seed: sound ones, damaged ones, ones at an edge. Buffers that a call writes start undefined, unless the call may leave them
   unchanged. Everything that was written is read. With `spoil` a book is one byte shorter than the given length. Prints the number of
   calls and a checksum of everything they wrote. */
#include <stdio.h>
#include <stdlib.h>
#include <string.h>

#include "belfrywool_calls.h"

static uint64_t seed, calls, sum, spoil;

static uint64_t any(void) {
    uint64_t z = (seed += UINT64_C(0x9e3779b97f4a7c15));
    z = (z ^ (z >> 30)) * UINT64_C(0xbf58476d1ce4e5b9);
    z = (z ^ (z >> 27)) * UINT64_C(0x94d049bb133111eb);
    return z ^ (z >> 31);
}

static uint64_t below(uint64_t bound) { return any() % bound; }

static double bits(uint64_t pattern) {
    double x;
    memcpy(&x, &pattern, 8);
    return x;
}

/* Memory of exactly that many bytes. */
static void *exact(size_t length) {
    void *memory = malloc(length);
    if (!memory) exit(2);
    return memory;
}

static void *filled(size_t length, int byte) { return memset(exact(length), byte, length); }

/* Reads all of a buffer that was written, so that valgrind reports undefined bytes, and frees it. */
static void done(void *memory, size_t length) {
    const unsigned char *bytes = memory;
    for (size_t i = 0; i < length; i++) sum = sum * 31 + bytes[i];
    if (sum == 1) puts("");
    free(memory);
}

static uint64_t called(uint64_t number) {
    calls++;
    sum = sum * 31 + number;
    return number;
}

/* A book as it is given: whole, cut, with a byte changed, or empty. */
typedef struct { uint8_t *bytes; size_t length; } Book;

static Book some_book(const uint8_t *whole, size_t length) {
    size_t kept = below(3) ? length : below(8) ? below(length + 1) : below(9);
    Book book = {exact(kept - (spoil && kept)), kept};
    memcpy(book.bytes, whole, kept - (spoil && kept));
    if (kept > 8 && !below(3)) book.bytes[below(kept - 1)] ^= 1 << below(8);
    return book;
}

static double *some_floats(int count, double size) {
    double *x = exact(8 * count);
    for (int i = 0; i < count; i++) {
        double unit = (double)(any() >> 11) / 9007199254740992.0;
        x[i] = below(200) ? (2 * unit - 1) * size : bits(any());
    }
    return x;
}

static double *coefficients(void) {
    static const double nominal[6] = {398603.20, 4900.7589, 132715440000.0, 324769.50, 42977.799, 126710600.0};
    double *m = exact(sizeof nominal);
    memcpy(m, nominal, sizeof nominal);
    for (int i = 1; i < 6; i++) if (i > 2 || !below(4)) m[i] = below(3) ? 0 : m[i];
    if (!below(20)) m[below(6)] = bits(any());
    return m;
}

static double *extras(void) {
    double *x = exact(24);
    x[0] = below(2) ? 0.001623450 : 0;
    x[1] = 6378.1650;
    x[2] = below(4) ? 0 : 1000;
    if (!below(20)) x[below(3)] = bits(any());
    return x;
}

/* A state: position and velocity, and an acceleration if there is room. */
static double *coordinates(int count) {
    double *x = some_floats(count, 20000);
    for (int i = 3; i < count; i++) x[i] /= 4000;
    return x;
}

static uint64_t *guesses(void) {
    uint64_t *entries = exact(40);
    for (int i = 0; i < 5; i++) entries[i] = below(3) ? below(40) : any();
    return entries;
}

static void almanac(uint64_t moment, uint32_t dut) {
    uint64_t *three = filled(24, 0x5a), *one = filled(8, 0x5a);
    double *two = filled(16, 0x5a);
    called(belfry_date(below(37000), three));
    called(belfry_day(1949 + below(103), below(14), below(33), one));
    called(belfry_twice_julian_date(below(37000), one));
    called(belfry_hour_angle(moment, dut, one));
    called(belfry_sidereal(below(3), moment, dut, one));
    called(belfry_root(bits(any()), two));
    called(belfry_sine_cosine(below(UINT64_C(3700000000000)), two));
    done(three, 24), done(one, 8), done(two, 16);
}

static void about_books(Book book, uint64_t moment, uint32_t dut) {
    double *six = filled(48, 0x5a), *three = filled(24, 0x5a), *m = coefficients(), *at = coordinates(3);
    called(belfry_book_passes(book.bytes, book.length));
    called(belfry_position(book.bytes, book.length, below(8), moment, six));
    called(belfry_acceleration(book.bytes, book.length, m, dut, moment, at, three));
    done(six, 48), done(three, 24), done(m, 48), done(at, 24);
    size_t room = below(2) ? book.length + 100 : below(2000);
    uint8_t *output = filled(room, 0x5a);
    uint16_t *fates = filled(2 * BELFRY_ENTRIES, 0x5a);
    uint64_t *report = filled(56, 0x5a);
    called(belfry_repair(book.bytes, book.length, output, room, fates, report));
    done(output, room), done(fates, 2 * BELFRY_ENTRIES), done(report, 56);
}

static void about_the_earth(Book book, uint64_t moment, uint32_t dut) {
    double *m = coefficients(), *from = coordinates(6), *there = exact(48), *turned = filled(48, 0x5a), *figures = filled(40, 0x5a);
    uint64_t *start = guesses(), *reached = exact(8), *entries = exact(40), *names = filled(16, 0x5a);
    uint32_t *steps = exact(4), h = below(4) ? 60000 : (uint32_t)any();
    called(belfry_run(book.bytes, book.length, m, dut, moment, from, h, moment + UINT64_C(60000) * below(6), below(8), start, reached, there, entries, steps));
    done(reached, 8), done(there, 48), done(entries, 40), done(steps, 4);
    reached = exact(8), there = exact(48), entries = exact(40), steps = exact(4);
    called(belfry_single_step(book.bytes, book.length, m, dut, moment, from, h, start, reached, there, entries, steps));
    called(belfry_earth_fixed(moment, from, dut, turned));
    called(belfry_conic(m[0], moment, from, names, figures));
    done(reached, 8), done(there, 48), done(entries, 40), done(steps, 4), done(turned, 48), done(names, 16), done(figures, 40);
    double *sizes = some_floats(2, 7000), *six = filled(48, 0x5a);
    int64_t *angles = exact(32);
    for (int i = 0; i < 4; i++) angles[i] = below(9) ? (int64_t)below(UINT64_C(900000000001)) : (int64_t)any();
    called(belfry_from_sphere(below(3), moment, dut, sizes, angles, six));
    done(sizes, 16), done(angles, 32), done(six, 48), done(m, 48), done(from, 48), done(start, 40);
}

static void about_a_centre(Book book, uint64_t moment, uint32_t dut) {
    double *m = coefficients(), *x = extras(), *at = coordinates(3), *from = coordinates(6), *pull = filled(24, 0x5a), *state = filled(72, 0);
    uint64_t rule = below(8) ? below(2) : any(), centre = below(3) ? 1 : below(8);
    called(belfry_pull(book.bytes, book.length, m, x, dut, rule, moment, centre, at, pull));
    called(belfry_inject(book.bytes, book.length, m, x, dut, rule, moment, centre, from, state));
    double *moved = filled(72, 0x5a), *there = exact(72), *turned = filled(48, 0x5a), *figures = filled(40, 0x5a);
    uint64_t *start = guesses(), *reached = exact(8), *entries = exact(40), *names = filled(16, 0x5a);
    uint32_t *steps = exact(4);
    called(belfry_move(book.bytes, book.length, m, x, dut, rule, moment, centre, state, below(8), moved));
    called(belfry_fly(book.bytes, book.length, m, x, dut, rule, moment, centre, state, 60000, moment + UINT64_C(60000) * below(6), below(8), start, reached, there, entries, steps));
    called(belfry_turn(rule, dut, moment, centre, from, turned));
    called(belfry_orbit(m[0], moment, centre, from, names, figures));
    done(m, 48), done(x, 24), done(at, 24), done(from, 48), done(pull, 24), done(state, 72), done(moved, 72), done(there, 72), done(turned, 48);
    done(figures, 40), done(start, 40), done(reached, 8), done(entries, 40), done(names, 16), done(steps, 4);
}

static void the_pane(uint64_t moment) {
    uint64_t *pane = exact(40), centre = 1 + below(2);
    double *places = exact(144);
    for (int i = 0; i < 5; i++) pane[i] = below(9) ? 0 : any();
    memset(places, 0, 144);
    if (below(2)) {
        called(belfry_clear(pane, places));
    }
    for (int i = 0; i < 4; i++) {
        double *nine = coordinates(9), *position = exact(24);
        uint64_t *late = exact(8);
        if (below(2)) called(belfry_take(moment + 60000 * i, centre, nine, pane, places));
        else called(belfry_feed(below(2) ? 0 : below(110), moment + 60000 * i, below(6) ? centre : any(), nine, pane, places));
        uint64_t when = below(9) ? moment + below(200000) : any();
        called(belfry_frame(pane, places, when, position, late));
        done(position, 24), done(late, 8);
        double *motion = exact(48);
        late = exact(8);
        called(belfry_frame_motion(pane, places, when, motion, late));
        done(motion, 48), done(late, 8);
        done(nine, 72);
    }
    done(pane, 40), done(places, 144);
}

int main(int words, char **word) {
    if (words < 4) return 2;
    FILE *file = fopen(word[1], "rb");
    if (!file) return 2;
    static uint8_t whole[61440];
    size_t length = fread(whole, 1, sizeof whole, file);
    fclose(file);
    uint64_t rounds = strtoull(word[2], 0, 10), start = 0;
    seed = strtoull(word[3], 0, 10);
    spoil = words > 4;
    memcpy(&start, whole + 16, 8);
    for (uint64_t i = 0; i < rounds; i++) {
        Book book = some_book(whole, length);
        uint64_t moment = below(9) ? start + below(UINT64_C(2592000000)) : any();
        uint32_t dut = below(9) ? (uint32_t)below(100001) : (uint32_t)any();
        almanac(moment, dut);
        about_books(book, moment, dut);
        about_the_earth(book, moment, dut);
        about_a_centre(book, moment, dut);
        the_pane(moment);
        Book second = some_book(whole, length);
        uint64_t *missing = filled(8, 0x5a);
        called(belfry_book_holds(book.bytes, book.length, second.bytes, second.length, missing));
        done(missing, 8), done(second.bytes, second.length);
        done(book.bytes, book.length - (spoil && book.length));
    }
    printf("%llu calls, sum %016llx\n", (unsigned long long)calls, (unsigned long long)sum);
    return 0;
}
