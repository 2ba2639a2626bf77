/* c-link BOOK: document 01's figures by the calls of belfrywool_calls.h, and a flight to the Moon of the book. Numbers that are not
   whole are printed as their bits. */
#include <inttypes.h>
#include <stdio.h>
#include <string.h>

#include "belfrywool_calls.h"

enum { EARTH = 1, MOON = 2, MARS = 5 };

static void floats(const double *x, int count) {
    for (int i = 0; i < count; i++) {
        uint64_t bits;
        memcpy(&bits, &x[i], 8);
        printf(" %016" PRIx64, bits);
    }
    printf("\n");
}

static void refused(uint64_t number) { printf(" refused %" PRIu64 "\n", number); }

static void calendar(void) {
    const uint64_t days[] = {2922, 18321, 36524, 36525};
    uint64_t date[3], count, twice;
    for (int i = 0; i < 4; i++) {
        printf("date %" PRIu64 ":", days[i]);
        uint64_t number = belfry_date(days[i], date);
        if (number) refused(number);
        else printf(" %" PRIu64 " %" PRIu64 " %" PRIu64 "\n", date[0], date[1], date[2]);
    }
    printf("day 2001 2 29:");
    refused(belfry_day(2001, 2, 29, &count));
    belfry_day(2000, 2, 29, &count);
    belfry_twice_julian_date(count, &twice);
    printf("day 2000 2 29: %" PRIu64 ", twice the Julian date %" PRIu64 "\n", count, twice);
}

static void angles(void) {
    uint64_t parts;
    double both[2], value;
    belfry_hour_angle(UINT64_C(4322) * 86400000 + 82951000, 0, &parts);
    printf("hour angle: %" PRIu64 "\n", parts);
    printf("hour angle below 0h UT:");
    refused(belfry_hour_angle(34999, 35000, &parts));
    belfry_sidereal(1, UINT64_C(4322) * 86400000 + 82951000, 0, &parts);
    printf("sidereal, 1982: %" PRIu64 "\n", parts);
    printf("sidereal, a third rule:");
    refused(belfry_sidereal(2, 0, 0, &parts));
    belfry_sine_cosine(900000000000, both);
    printf("sine and cosine of a quarter:");
    floats(both, 2);
    printf("sine and cosine of a circle:");
    refused(belfry_sine_cosine(3600000000000, both));
    belfry_root(2.0, &value);
    printf("root of 2:");
    floats(&value, 1);
    printf("root of -1:");
    refused(belfry_root(-1.0, &value));
}

/* The bytes of a number, the lowest first. */
static uint8_t *put(uint8_t *at, uint64_t number, int bytes) {
    for (int i = 0; i < bytes; i++) *at++ = (uint8_t)(number >> (8 * i));
    return at;
}

enum { BOOK = 104 };

/* A book of one entry: the Moon from 0 to 2000, with three coefficients for each axis. */
static void moon_book(uint8_t book[BOOK], const double coefficients[9]) {
    uint8_t *at = put(put(book, BOOK, 4), 1, 4);
    at = put(put(put(put(put(at, 2, 2), 3, 2), 32, 4), 0, 8), 2000, 8);
    for (int i = 0; i < 9; i++) {
        uint64_t bits;
        memcpy(&bits, &coefficients[i], 8);
        at = put(at, bits, 8);
    }
}

static void positions(void) {
    uint8_t book[BOOK];
    double motion[6];
    const double series[9] = {1, 2, 3, 1, 2, 3, 1, 2, 3};
    const uint64_t moments[] = {0, 1000, 1999, 2000};
    moon_book(book, series);
    printf("book: %" PRIu64 ", cut short: %" PRIu64 "\n", belfry_book_passes(book, BOOK), belfry_book_passes(book, BOOK - 1));
    for (int i = 0; i < 4; i++) {
        uint64_t number = belfry_position(book, BOOK, 2, moments[i], motion);
        printf("Moon at %" PRIu64 ":", moments[i]);
        if (number) refused(number);
        else if (i < 2) floats(motion, 6);
        else printf(" covered\n");
    }
}

/* The report of a repair: entries kept of those looked at, bytes written, what changed, and the fate of each entry. */
static void repaired(const uint64_t report[7], const uint16_t *fates) {
    printf(" kept %" PRIu64 " of %" PRIu64 ", %" PRIu64 " bytes, changed", report[1], report[0], report[2]);
    for (int i = 3; i < 7; i++) printf(" %" PRIu64, report[i]);
    printf(", fates");
    for (uint64_t i = 0; i < report[0]; i++) printf(" %" PRIu16, fates[i]);
    printf("\n");
}

static void repairs(void) {
    uint8_t damaged[BOOK], whole[BOOK], output[BOOK + 8], again[BOOK + 8];
    static uint16_t fates[BELFRY_ENTRIES];
    uint64_t report[7];
    const double series[9] = {1, 2, 3, 1, 2, 3, 1, 2, 3};
    moon_book(whole, series);
    moon_book(damaged, series);
    put(put(damaged, 0, 4), 9, 4);
    memset(output, 7, sizeof output);
    belfry_repair(damaged, BOOK, output, sizeof output, fates, report);
    printf("repair, total 0 and count 9:");
    repaired(report, fates);
    printf("as it was: %d, behind it: %d\n", memcmp(output, whole, BOOK) == 0, output[BOOK]);
    belfry_repair(output, BOOK, again, sizeof again, fates, report);
    printf("repaired again:");
    repaired(report, fates);
    printf("repair into 7 bytes:");
    refused(belfry_repair(damaged, BOOK, output, 7, fates, report));
}

static void accelerations(void) {
    uint8_t book[BOOK];
    const double series[9] = {4, 0, 0, 0, 0, 0, 0, 0, 0};
    const double position[3] = {2, 0, 0};
    double coefficients[6] = {8, 0, 0, 0, 0, 0}, acceleration[3];
    moon_book(book, series);
    belfry_acceleration(book, BOOK, coefficients, 0, 0, position, acceleration);
    printf("Earth alone:");
    floats(acceleration, 1);
    coefficients[1] = 16;
    belfry_acceleration(book, BOOK, coefficients, 0, 0, position, acceleration);
    printf("with the Moon:");
    floats(acceleration, 1);
}

static const uint8_t empty[8] = {8};
static const double earth[6] = {8};

/* Whether the second book holds every entry of the first. */
static void held_line(const char *what, const uint8_t *first, size_t length, const uint8_t *second, size_t second_length) {
    uint64_t missing = 99;
    uint64_t number = belfry_book_holds(first, length, second, second_length, &missing);
    printf("%s:", what);
    if (number == BELFRY_HELD) printf(" every entry is held, %" PRIu64 "\n", missing);
    else if (number == BELFRY_NOT_HELD) printf(" entry %" PRIu64 " is missing\n", missing);
    else refused(number);
}

static void two_books(void) {
    uint8_t book[BOOK], other[BOOK];
    double series[9] = {1, 2, 3, 1, 2, 3, 1, 2, 0};
    moon_book(book, series);
    series[8] = -0.0;
    moon_book(other, series);
    held_line("the empty book beside the Moon's", empty, 8, book, BOOK);
    held_line("the Moon's beside the empty book", book, BOOK, empty, 8);
    held_line("the Moon's beside itself", book, BOOK, book, BOOK);
    held_line("the Moon's beside one with -0.0 for 0.0", book, BOOK, other, BOOK);
    held_line("the Moon's beside itself cut short", book, BOOK, book, BOOK - 1);
}

/* The state that a journey has reached, and guesses for the next call. */
struct place {
    uint64_t moment;
    double coordinates[6];
    uint64_t guesses[5];
};

/* One call of a journey, from `now` to `next`. */
static uint64_t portion(const struct place *now, uint32_t h, uint64_t target, uint32_t budget, struct place *next,
                        uint32_t *steps) {
    return belfry_run(empty, 8, earth, 0, now->moment, now->coordinates, h, target, budget, now->guesses, &next->moment,
                      next->coordinates, next->guesses, steps);
}

static void runs(void) {
    struct place now = {0, {2, 0, 0, 0, 4, 0}, {0}}, next;
    uint64_t number;
    uint32_t steps;
    number = portion(&now, 3, 0, 9, &next, &steps);
    printf("h 3: refused %" PRIu64 ", steps %" PRIu32 "\n", number, steps);
    number = portion(&now, 1000, 0, 9, &next, &steps);
    printf("at the target: steps %" PRIu32 ",", steps);
    floats(next.coordinates, 6);
    do {
        number = portion(&now, 1000, 5000, 2, &next, &steps);
        now = next;
        printf("%s: steps %" PRIu32 ", moment %" PRIu64 "\n", number ? "going" : "arrived", steps, now.moment);
    } while (number == BELFRY_GOING);
    number = belfry_single_step(empty, 8, earth, 0, now.moment, now.coordinates, 86400000, now.guesses, &next.moment,
                                next.coordinates, next.guesses, &steps);
    printf("a day's step, %s: steps %" PRIu32 ", moment %" PRIu64 "\n", number ? "going" : "arrived", steps, next.moment);
}

/* The centre, the kind and the figures of a conic, or its refusal. */
static void conic_told(uint64_t number, const uint64_t names[2], const double figures[5]) {
    if (number) {
        refused(number);
        return;
    }
    printf(" centre %" PRIu64 ", %s", names[0], names[1] == BELFRY_ELLIPSE ? "ellipse" : "hyperbola");
    floats(figures, 5);
}

static void states(void) {
    const double velocities[4][2] = {{0, 2}, {0, 4}, {2, 2}, {2, 0}};
    double coordinates[6] = {2}, turned[6], figures[5];
    uint64_t names[2];
    for (int i = 0; i < 4; i++) {
        coordinates[3] = velocities[i][0];
        coordinates[4] = velocities[i][1];
        uint64_t number = belfry_conic(8, 0, coordinates, names, figures);
        printf("conic:");
        conic_told(number, names, figures);
    }
    printf("Earth-fixed below 0h UT:");
    refused(belfry_earth_fixed(0, coordinates, 1, turned));
    coordinates[0] = 0;
    coordinates[2] = 3;
    coordinates[3] = 0;
    belfry_earth_fixed(0, coordinates, 0, turned);
    printf("Earth-fixed, 3 km up the axis:");
    floats(turned + 2, 1);
    belfry_turn(1, 0, 0, EARTH, coordinates, turned);
    printf("the same by the 1982 rule:");
    floats(turned + 2, 1);
}

/* A launch from the Cape, level and to the east, and a flight of an hour with only the Earth. */
static void launch(void) {
    const double sizes[2] = {6570, 7.8}, mass[6] = {398600.63};
    int64_t angles[4] = {283090000000, 2794570000000, 0, 900000000000};
    const uint64_t moment = UINT64_C(411264035000), guesses[5] = {0};
    double coordinates[6], there[6];
    uint64_t reached, entries[5];
    uint32_t steps;
    belfry_from_sphere(0, moment, 35000, sizes, angles, coordinates);
    printf("launch:");
    floats(coordinates, 6);
    belfry_run(empty, 8, mass, 35000, moment, coordinates, 60000, moment + 3600000, 100, guesses, &reached, there, entries,
               &steps);
    printf("after an hour, steps %" PRIu32 ":", steps);
    floats(there, 6);
    angles[2] = -900000000001;
    printf("path angle below -90 degrees:");
    refused(belfry_from_sphere(0, moment, 35000, sizes, angles, coordinates));
}

static const uint64_t minute = 60000, hour = 3600000;

/* The book of the flight below. */
static uint8_t lent[61440];
static size_t lent_length;

static double length(const double v[3]) {
    double value = 0;
    belfry_root((v[0] * v[0] + v[1] * v[1]) + v[2] * v[2], &value);
    return value;
}

/* The same for a journey about any centre: a whole state, with the acceleration after its six coordinates, and guesses. */
struct whole {
    uint64_t moment;
    double coordinates[9];
    uint64_t guesses[5];
};

/* The distance of a state from its centre, in km, and its speed, in km/s. */
static void told_from(const char *what, uint32_t steps, uint64_t centre, const double coordinates[6]) {
    printf("%s, steps %" PRIu32 ": %.3f km from centre %" PRIu64 ", %.6f km/s\n", what, steps, length(coordinates), centre,
           length(coordinates + 3));
}

static const double three[6] = {398600.63, 4902.6293, 132714110000};

/* J, A and K: the Earth's oblateness as JPL had it, and no sunlight. */
static const double oblate[3] = {0.001623450, 6378.1650, 0};

/* One call about a centre, to the target. */
static uint64_t flown(struct whole *now, uint64_t centre, uint64_t target, uint32_t *steps) {
    struct whole next;
    uint64_t number = belfry_fly(lent, lent_length, three, oblate, 35000, 0, now->moment, centre, now->coordinates,
                                 (uint32_t)minute, target, UINT32_MAX, now->guesses, &next.moment, next.coordinates,
                                 next.guesses, steps);
    *now = next;
    return number;
}

/* JPL's check case 1 under the oblate Earth, the Moon and the Sun: 58 hours about the Earth, a move to the Moon, four hours about it. */
static void to_the_moon(void) {
    const double injection[6] = {5936.9501, 2718.6042, -728.83219, -4.2284408, 8.5267773, -5.4530145};
    struct whole now = {UINT64_C(411331356297), {0}, {0}};
    const uint64_t reached = now.moment + 58 * hour;
    double moon[9], turned[6], acceleration[3], figures[5];
    uint64_t names[2], number;
    uint32_t steps;
    memcpy(now.coordinates, injection, sizeof injection);
    number = flown(&now, EARTH, reached, &steps);
    printf("without its acceleration: refused %" PRIu64 ", steps %" PRIu32 "\n", number, steps);
    belfry_inject(lent, lent_length, three, oblate, 35000, 0, now.moment, EARTH, injection, now.coordinates);
    printf("injected, with the acceleration:");
    floats(now.coordinates + 6, 3);
    flown(&now, EARTH, reached, &steps);
    told_from("toward the Moon", steps, EARTH, now.coordinates);
    belfry_move(lent, lent_length, three, oblate, 35000, 0, now.moment, EARTH, now.coordinates, MOON, moon);
    memcpy(now.coordinates, moon, sizeof moon);
    told_from("moved to the Moon", 0, MOON, now.coordinates);
    printf("turned about the Moon:");
    refused(belfry_turn(0, 35000, now.moment, MOON, now.coordinates, turned));
    printf("moved to Mars, which is not used:");
    refused(belfry_move(lent, lent_length, three, oblate, 35000, 0, now.moment, MOON, now.coordinates, MARS, moon));
    flown(&now, MOON, reached + 4 * hour, &steps);
    told_from("four hours on", steps, MOON, now.coordinates);
    printf("there:");
    floats(now.coordinates, 6);
    printf("its acceleration, as stored:");
    floats(now.coordinates + 6, 3);
    belfry_pull(lent, lent_length, three, oblate, 35000, 0, now.moment, MOON, now.coordinates, acceleration);
    printf("its acceleration, by the rule:");
    floats(acceleration, 3);
    number = belfry_orbit(three[1], now.moment, MOON, now.coordinates, names, figures);
    printf("its orbit:");
    conic_told(number, names, figures);
}

/* One line for a frame. */
static void frame_line(const uint64_t pane[5], const double places[18], uint64_t moment) {
    double position[3];
    uint64_t late;
    uint64_t number = belfry_frame(pane, places, moment, position, &late);
    printf("frame %" PRIu64 ":", moment);
    if (number == BELFRY_CURRENT) printf(" current, %.3f km\n", length(position));
    else if (number == BELFRY_LATE) printf(" late by %" PRIu64 " ms\n", late);
    else if (number == BELFRY_EMPTY) printf(" empty\n");
    else refused(number);
}

/* One line for a frame with velocity. */
static void motion_line(const uint64_t pane[5], const double places[18], uint64_t moment) {
    double motion[6];
    uint64_t late;
    uint64_t number = belfry_frame_motion(pane, places, moment, motion, &late);
    printf("motion %" PRIu64 ":", moment);
    if (number == BELFRY_CURRENT) floats(motion, 6);
    else if (number == BELFRY_LATE) printf(" late by %" PRIu64 " ms, %d\n", late, motion[5] != motion[5]);
    else if (number == BELFRY_EMPTY) printf(" empty\n");
    else refused(number);
}

/* The first minute of that flight in a pane, and a second one under a book without the Moon. */
static void live(void) {
    const double injection[6] = {5936.9501, 2718.6042, -728.83219, -4.2284408, 8.5267773, -5.4530145};
    const uint64_t start = UINT64_C(411331356297);
    const uint64_t moments[] = {start - 1, start, start + minute / 2, start + minute, start + minute + 1, start + 31 * minute};
    struct whole now = {start, {0}, {0}};
    uint64_t pane[5] = {0}, number;
    double places[18] = {0};
    uint32_t steps;
    belfry_inject(lent, lent_length, three, oblate, 35000, 0, start, EARTH, injection, now.coordinates);
    belfry_take(start, EARTH, now.coordinates, pane, places);
    frame_line(pane, places, start);
    printf("taken again:");
    refused(belfry_take(start, EARTH, now.coordinates, pane, places));
    for (int i = 1; i <= 2; i++) {
        number = flown(&now, EARTH, start + (uint64_t)i * minute, &steps);
        printf("fed: %d\n", belfry_feed(number, now.moment, EARTH, now.coordinates, pane, places) == BELFRY_TAKEN);
        memcpy(lent, empty, lent_length = sizeof empty);
    }
    for (int i = 0; i < 6; i++) frame_line(pane, places, moments[i]);
    for (int i = 0; i < 5; i++) motion_line(pane, places, moments[i]);
    belfry_clear(pane, places);
    frame_line(pane, places, start);
}

int main(int count, char **words) {
    FILE *file = count == 2 ? fopen(words[1], "rb") : NULL;
    if (!file) {
        fprintf(stderr, "c-link BOOK\n");
        return 2;
    }
    lent_length = fread(lent, 1, sizeof lent, file);
    fclose(file);
    calendar();
    angles();
    positions();
    two_books();
    repairs();
    accelerations();
    runs();
    states();
    launch();
    to_the_moon();
    live();
    return 0;
}
