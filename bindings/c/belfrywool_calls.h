/* The proved calls of Belfrywool. For structs and calls over them include belfrywool.h instead: it includes this file.

   Each call returns BELFRY_ACCEPTED, or the number of a refusal, BELFRY_REFUSED_.. . A call that refuses leaves the caller's memory
   unchanged. Runs and frames are exceptions: their comments say what they write.

   Memory. No call keeps a pointer, allocates memory, or reads or writes anything but its arguments. No pointer may be null, not even
   one to a book of length 0. The memory that a call writes must not overlap any other argument. There are no other conditions: every
   value of every number is allowed, and a call checks any bytes given as a book.

   Threads. The calls share no memory, so any number of threads may call them at the same time. Two threads must not write to the
   same memory.

   Stack. The greatest stack that a call used, in bytes, measured over 1000 questions to each; - means not measured. tests/stack --write
   writes this table.
     call                       aarch64    x86-64
     belfry_date                    208         8
     belfry_day                     208        16
     belfry_twice_julian_date        16         8
     belfry_hour_angle               16        16
     belfry_sidereal                 16        56
     belfry_root                     16        40
     belfry_sine_cosine              16         8
     belfry_book_passes              48        72
     belfry_book_holds               80       136
     belfry_position                 80       152
     belfry_repair                10336     10392
     belfry_acceleration           1792      2152
     belfry_run                    3840      5240
     belfry_single_step            3840      5224
     belfry_earth_fixed             224       120
     belfry_from_sphere             368       344
     belfry_conic                   120       272
     belfry_pull                   1904      2168
     belfry_inject                 1840      2104
     belfry_move                   2016      2280
     belfry_fly                    3376      4760
     belfry_turn                     16       120
     belfry_orbit                   128       272
     belfry_clear                    16         8
     belfry_take                     16        56
     belfry_feed                    352        32
     belfry_frame                    16         8
     belfry_frame_motion             16         8

   Floating-point environment. The proofs assume rounding to nearest, ties to even, and that subnormal numbers are kept.
   belfry_environment of belfrywool.h tests this for the calling thread.

   Moments are milliseconds of ephemeris time since 0h 1950 January 1. DUT is ephemeris time minus UT, in milliseconds.
   A setting is the gravitational coefficients of the bodies 1 to 6 (Earth, Moon, Sun, Venus, Mars, Jupiter) in km^3/s^2, and DUT.
   A state is a moment and six coordinates: x, y, z in km, then their rates in km/s, from a centre, the number of a body. A whole state
   has nine: after the six comes the acceleration there in km/s^2.

   Calls that take no centre are about the Earth. Calls that take no extras leave oblateness and sunlight out. Calls that take no rule
   use rule 0. Runs that take six coordinates start with the acceleration that the rule gives. */
#ifndef BELFRYWOOL_CALLS_H
#define BELFRYWOOL_CALLS_H

#include <stddef.h>
#include <stdint.h>

#ifdef __cplusplus
extern "C" {
#endif

/* What a call returns if it does not refuse. */
enum {
    BELFRY_ACCEPTED = 0,
    BELFRY_ARRIVED = 0, /* a run: the target is reached */
    BELFRY_GOING = 100, /* a run: the budget is spent short of the target */

    BELFRY_TAKEN = 0,       /* a state offered to the pane: it is the newer one now */
    BELFRY_UNCHANGED = 101, /* a run's answer: the run was refused, and the pane is unchanged */

    BELFRY_CURRENT = 0, /* a frame: there is a position */
    BELFRY_LATE = 102,  /* a frame: its moment is past the newer state */
    BELFRY_EMPTY = 103, /* a frame: fewer than two states, or its moment is before the older one */

    BELFRY_HELD = 0,      /* two books: the second holds every entry of the first */
    BELFRY_NOT_HELD = 104 /* two books: it does not */
};

/* The refusals. No call returns 13 or 17: only the programs that read listings do. */
enum {
    BELFRY_REFUSED_BOOK = 1,           /* the book does not pass */
    BELFRY_REFUSED_STEP = 2,           /* h is not allowed */
    BELFRY_REFUSED_MOMENT = 3,         /* a moment or UT is out of range */
    BELFRY_REFUSED_SETTING = 4,        /* a coefficient, J, A, K, DUT or the rule of the hour angle is not allowed */
    BELFRY_REFUSED_TARGET = 5,         /* the target is before the state, or not a whole number of steps away */
    BELFRY_REFUSED_COVER = 6,          /* a body has no cover */
    BELFRY_REFUSED_NOT_FINITE = 7,     /* a given state or a result is not finite */
    BELFRY_REFUSED_DATE = 8,           /* no such date from 1950 to 2049, or a day above 36524 */
    BELFRY_REFUSED_PARABOLA = 9,       /* c3 is zero */
    BELFRY_REFUSED_STRAIGHT_LINE = 10, /* n(C) is zero: the conic is a straight line */
    BELFRY_REFUSED_ROOT = 11,          /* root of a negative or non-finite number */
    BELFRY_REFUSED_ANGLE = 12,         /* an angle is out of range */
    BELFRY_REFUSED_LISTING = 13,       /* programs: a listing that is not of the form */
    BELFRY_REFUSED_CENTRE = 14,        /* no body of that number, or one that the setting does not use; Earth-fixed: not the Earth */
    BELFRY_REFUSED_STORED = 15,        /* a run: the acceleration stored with the state is not the rule's, by its bits */
    BELFRY_REFUSED_SHORT = 16,         /* a repair: an input or output of fewer than 8 bytes */
    BELFRY_REFUSED_LARGE = 17,         /* programs: a magnitude of 10^12 or more in a table */
    BELFRY_REFUSED_NOT_NEXT = 18       /* a state for the pane: about another centre, or not later */
};

/* Fates of the entries of a damaged book. A book can have BELFRY_ENTRIES entries: a fate below that is the entry's number in the new
   book. The others say why an entry is dropped. */
enum {
    BELFRY_ENTRIES = 2559,
    BELFRY_DROPPED_FIELDS = 3001,      /* fields not allowed */
    BELFRY_DROPPED_BLOCK = 3002,       /* its block lies outside the input */
    BELFRY_DROPPED_COEFFICIENT = 3003, /* a coefficient is not finite */
    BELFRY_DROPPED_OVERLAP = 3004,     /* it overlaps the last kept entry of its body */
    BELFRY_DROPPED_ROOM = 3005         /* the output has no room for it */
};

/* The kinds of conic. */
enum { BELFRY_ELLIPSE = 1, BELFRY_HYPERBOLA = 2 };

/* The bodies. */
enum { BELFRY_EARTH = 1, BELFRY_MOON = 2, BELFRY_SUN = 3, BELFRY_VENUS = 4, BELFRY_MARS = 5, BELFRY_JUPITER = 6 };

/* date: year, month and day of a day counted from 1950 January 1, which is 0. */
uint64_t belfry_date(uint64_t day, uint64_t date[3]);

/* count: the day of a date. */
uint64_t belfry_day(uint64_t year, uint64_t month, uint64_t day, uint64_t *count);

/* twice: twice the Julian date at 0h of a day. */
uint64_t belfry_twice_julian_date(uint64_t day, uint64_t *twice);

/* parts: the hour angle, in parts of 10^-10 degree. */
uint64_t belfry_hour_angle(uint64_t moment, uint32_t dut, uint64_t *parts);

/* parts: the same by a rule: 0 is the one above, 1 is the IAU 1982 expression for Greenwich mean sidereal time. Another rule is
   BELFRY_REFUSED_SETTING. */
uint64_t belfry_sidereal(uint64_t rule, uint64_t moment, uint32_t dut, uint64_t *parts);

/* value: the square root of x. */
uint64_t belfry_root(double x, double *value);

/* both: sine and cosine of an angle in parts of 10^-10 degree. */
uint64_t belfry_sine_cosine(uint64_t parts, double both[2]);

/* Whether a book passes. A book is `length` bytes at `book`. */
uint64_t belfry_book_passes(const uint8_t *book, size_t length);

/* motion: the position of a body at a moment, in km from the Earth, and then its velocity, in km/s. */
uint64_t belfry_position(const uint8_t *book, size_t length, uint64_t body, uint64_t moment, double motion[6]);

/* Saves what can be saved of a damaged book: writes a book that passes to `output`, at most 61440 bytes. Bytes after it stay unchanged.
   fates: the fate of each entry looked at. report: how many entries were looked at and how many kept, the bytes written, then 1 or 0
   for whether total, count, order and offsets changed. Returns BELFRY_ACCEPTED, BELFRY_REFUSED_SHORT, or BELFRY_REFUSED_BOOK for an
   input above 61440 bytes. */
uint64_t belfry_repair(const uint8_t *input, size_t length, uint8_t *output, size_t room,
                       uint16_t fates[BELFRY_ENTRIES], uint64_t report[7]);

/* acceleration: in km/s^2, at a position in km. */
uint64_t belfry_acceleration(const uint8_t *book, size_t length, const double coefficients[6], uint32_t dut,
                             uint64_t moment, const double position[3], double acceleration[3]);

/* Steps of h milliseconds from the state (moment, coordinates) to the moment `target`, at most `budget` of them.
   guesses: for each of the bodies 2 to 6 the entry of the book to try first, counted from 0; it may be wrong.
   Returns BELFRY_ARRIVED, BELFRY_GOING, or the number of the refusal. It always writes the last state reached to `reached` and `there`,
   guesses for the next call to `entries`, and the number of steps done to `steps`. The next call takes these and continues from there.
   Input and output are separate arrays. */
uint64_t belfry_run(const uint8_t *book, size_t length, const double coefficients[6], uint32_t dut, uint64_t moment,
                    const double coordinates[6], uint32_t h, uint64_t target, uint32_t budget,
                    const uint64_t guesses[5], uint64_t *reached, double there[6], uint64_t entries[5],
                    uint32_t *steps);

/* A run of one step to the moment one step on. */
uint64_t belfry_single_step(const uint8_t *book, size_t length, const double coefficients[6], uint32_t dut,
                            uint64_t moment, const double coordinates[6], uint32_t h, const uint64_t guesses[5],
                            uint64_t *reached, double there[6], uint64_t entries[5], uint32_t *steps);

/* turned: the state's six coordinates in axes that turn with the Earth. */
uint64_t belfry_earth_fixed(uint64_t moment, const double coordinates[6], uint32_t dut, double turned[6]);

/* Turns an injection as launch crews speak it, Earth-fixed, into the six coordinates of a state in 1950.0 axes at the moment. sizes:
   radius in km and speed in km/s. angles, in parts of 10^-10 degree: latitude and path angle from -90 to 90 degrees, longitude
   (eastward) and azimuth (from the north) within one circle; in the order latitude, longitude, path angle, azimuth. rule: as in
   belfry_sidereal. belfry_inject makes a whole state from the coordinates. */
uint64_t belfry_from_sphere(uint64_t rule, uint64_t moment, uint32_t dut, const double sizes[2], const int64_t angles[4],
                            double coordinates[6]);

/* The conic of a state about a centre of coefficient m. names: the number of the centre, and the kind.
   figures: a, e, p, q, and the far distance of an ellipse or the root of c3 of a hyperbola. */
uint64_t belfry_conic(double m, uint64_t moment, const double coordinates[6], uint64_t names[2], double figures[5]);

/* The calls about a centre, 1 to 6, under the whole setting. extras: J and A, the Earth's oblateness and radius in km, and K, the
   sunlight in km^3/s^2; a term whose J or K is 0 is left out. With K above 0 the Sun is looked up even if its coefficient is 0. A
   negative or not finite J, A or K is BELFRY_REFUSED_SETTING. rule is the rule of the hour angle, as in belfry_sidereal. A centre must
   be a body whose coefficient is above 0, else BELFRY_REFUSED_CENTRE. */

/* acceleration: as belfry_acceleration, for a craft at a position from the centre. */
uint64_t belfry_pull(const uint8_t *book, size_t length, const double coefficients[6], const double extras[3],
                     uint32_t dut, uint64_t rule, uint64_t moment, uint64_t centre, const double position[3],
                     double acceleration[3]);

/* state: the six coordinates of an injection, and then the acceleration that belfry_pull gives there. belfry_fly and belfry_move take
   such a state. If there is no acceleration, the refusal is that of belfry_pull. */
uint64_t belfry_inject(const uint8_t *book, size_t length, const double coefficients[6], const double extras[3],
                       uint32_t dut, uint64_t rule, uint64_t moment, uint64_t centre, const double coordinates[6],
                       double state[9]);

/* moved: the same craft about the centre `target_centre`: its coordinates minus those of that centre, seen from the old one, and a new
   acceleration. The moment stays. The stored acceleration is not read. A move to the same centre returns the state unchanged. */
uint64_t belfry_move(const uint8_t *book, size_t length, const double coefficients[6], const double extras[3],
                     uint32_t dut, uint64_t rule, uint64_t moment, uint64_t centre, const double coordinates[9],
                     uint64_t target_centre, double moved[9]);

/* As belfry_run, about the centre. The state that it writes has the same centre. The stored acceleration must be the rule's, to the
   bit, else BELFRY_REFUSED_STORED. This is checked at any budget, also at the target. The acceleration in `there` is the rule's again.
   */
uint64_t belfry_fly(const uint8_t *book, size_t length, const double coefficients[6], const double extras[3],
                    uint32_t dut, uint64_t rule, uint64_t moment, uint64_t centre, const double coordinates[9],
                    uint32_t h, uint64_t target, uint32_t budget, const uint64_t guesses[5], uint64_t *reached,
                    double there[9], uint64_t entries[5], uint32_t *steps);

/* turned: as belfry_earth_fixed, by the rule. A centre other than the Earth is BELFRY_REFUSED_CENTRE. This call and the next one do not
   read an acceleration: they take the first six coordinates of a whole state. */
uint64_t belfry_turn(uint64_t rule, uint32_t dut, uint64_t moment, uint64_t centre, const double coordinates[6],
                     double turned[6]);

/* As belfry_conic, with the state's centre as the first name. */
uint64_t belfry_orbit(double m, uint64_t moment, uint64_t centre, const double coordinates[6], uint64_t names[2],
                      double figures[5]);

/* The live pane: the last two states reached, in memory that the caller keeps. pane: how many states it holds, then moment and centre
   of the older and of the newer; places: the nine coordinates of the older and of the newer. Memory of zeros is an empty pane, and so
   is memory whose number of states is not 0, 1 or 2. If belfry_take or belfry_feed takes no state, every bit of the pane stays
   unchanged. */

/* Makes the pane empty: it then takes a state about any centre. Always returns 0. */
uint64_t belfry_clear(uint64_t pane[5], double places[18]);

/* Takes a whole state, if its centre is that of the newer one and its moment is later: BELFRY_TAKEN, else BELFRY_REFUSED_NOT_NEXT. */
uint64_t belfry_take(uint64_t moment, uint64_t centre, const double coordinates[9], uint64_t pane[5], double places[18]);

/* Takes the answer of belfry_fly. answer: the number that it returned. moment and coordinates: those that it wrote. centre: the one
   given to it. A refused run changes nothing, even if it did some steps: BELFRY_UNCHANGED. */
uint64_t belfry_feed(uint64_t answer, uint64_t moment, uint64_t centre, const double coordinates[9], uint64_t pane[5],
                     double places[18]);

/* What the pane shows at a moment: BELFRY_CURRENT, BELFRY_LATE, BELFRY_EMPTY, or BELFRY_REFUSED_NOT_FINITE. position: km from the
   centre, by the cubic through both states; at either end it is that of the state. late: milliseconds past the newer state. Both are
   always written. If the frame is not current, position becomes three NaNs, so that no older figure remains there. If it is not late,
   late becomes 0. */
uint64_t belfry_frame(const uint64_t pane[5], const double places[18], uint64_t moment, double position[3], uint64_t *late);

/* motion: the position as belfry_frame gives it, and then the velocity in km/s by the same cubic. Six NaNs if the frame is not
   current. */
uint64_t belfry_frame_motion(const uint64_t pane[5], const double places[18], uint64_t moment, double motion[6], uint64_t *late);

/* Whether the second book holds every entry of the first with the same coefficients: BELFRY_HELD, BELFRY_NOT_HELD, or
   BELFRY_REFUSED_BOOK if one of the two does not pass. missing: the number of the first entry that it does not hold, counted from 0;
   written only with BELFRY_NOT_HELD. */
uint64_t belfry_book_holds(const uint8_t *first, size_t length, const uint8_t *second, size_t second_length, uint64_t *missing);

#ifdef __cplusplus
}
#endif

#endif
