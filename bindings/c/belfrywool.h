/* Belfrywool for C and C++: structs, and calls over pointers to them.

   A bw_ call copies its structs into arrays, makes one proved call of belfrywool_calls.h, and copies the answer back. It returns what the
   proved call returns: 0 (BELFRY_ACCEPTED, BELFRY_ARRIVED, ..), one of the numbers 100 to 104, or a refusal (BELFRY_REFUSED_..). Check
   every return value: a call that refuses leaves the struct of its answer unchanged. Only bw_fly, bw_earth_run, bw_earth_step, bw_frame
   and bw_frame_motion always write theirs.

   belfrywool_calls.h says what holds for threads, stack, null pointers and the floating-point environment. Unlike there, the answer of
   a bw_ call may be one of its inputs: bw_fly(.., &answer.state, .., &answer) is fine. No memory is allocated. */
#ifndef BELFRYWOOL_H
#define BELFRYWOOL_H

#include <string.h>

#include "belfrywool_calls.h"

/* The version of this header. belfry_version() is that of the library. */
#define BELFRYWOOL_VERSION "0.2.0"
#define BELFRYWOOL_VERSION_MAJOR 0
#define BELFRYWOOL_VERSION_MINOR 2
#define BELFRYWOOL_VERSION_PATCH 0

/* The number at the end of the file name libbelfrywool.so.N. It changes if a function of the library changes, is added or is removed.
   bindings/c/abi compares the declarations with bindings/c/abi.txt. */
#define BELFRYWOOL_CALLS 2

#ifdef __cplusplus
extern "C" {
#endif

/* ---- in the library, besides the proved calls */

/* The version of the library, as BELFRYWOOL_VERSION. */
const char *belfry_version(void);

/* The meaning of a number that a call returned, in a plain sentence: a refusal 1 to 18, 100 to 104, or 0. Never null. */
const char *belfry_meaning(uint64_t number);

/* Tests the floating-point environment of the calling thread with a few sums and products: 0 if it is the one that the proofs
   assume, else BELFRY_ROUNDING, BELFRY_SUBNORMALS or their sum. */
unsigned belfry_environment(void);

/* The length of a vector, for example range or speed: the proved root of (x*x + y*y) + z*z, each operation rounded once. Refusals: 11,
   if that sum is not finite. */
uint64_t bw_length(const double vector[3], double *length);

enum {
    BELFRY_ROUNDING = 1,  /* results are not rounded to nearest, ties to even */
    BELFRY_SUBNORMALS = 2 /* subnormal numbers are read or written as zero */
};

/* ---- structs */

/* An ephemeris book: bytes that the caller keeps. */
struct bw_book {
    const uint8_t *bytes;
    size_t length;
};

/* The setting of a flight. coefficients: of the bodies 1 to 6, in km^3/s^2. j and a: oblateness and its radius in km. k: sunlight in
   km^3/s^2. dut: DUT in milliseconds. rule: the rule of the hour angle, 0 or 1. */
struct bw_setting {
    double coefficients[6];
    double j, a, k;
    uint32_t dut;
    uint64_t rule;
};

/* km and km/s. */
struct bw_motion {
    double position[3];
    double velocity[3];
};

/* A state without its acceleration, for example an injection. */
struct bw_coordinates {
    uint64_t moment;
    uint64_t centre;
    double position[3];
    double velocity[3];
};

/* A whole state; the acceleration is in km/s^2. */
struct bw_state {
    uint64_t moment;
    uint64_t centre;
    double position[3];
    double velocity[3];
    double acceleration[3];
};

/* For each of the bodies 2 to 6 the entry of the book to try first. Zeros are fine for a first run. */
struct bw_guesses {
    uint64_t entries[5];
};

/* The input of a run: steps of h milliseconds to the target, at most `budget` of them. */
struct bw_run {
    uint32_t h;
    uint64_t target;
    uint32_t budget;
    struct bw_guesses guesses;
};

/* The answer of a run: BELFRY_ARRIVED, BELFRY_GOING or a refusal; the last state reached; the steps done; guesses for the next run. */
struct bw_answer {
    uint64_t outcome;
    struct bw_state state;
    uint32_t steps;
    struct bw_guesses guesses;
};

/* kind is BELFRY_ELLIPSE or BELFRY_HYPERBOLA; last is the far distance in km of an ellipse, or the root of c3 in km/s of a hyperbola. */
struct bw_conic {
    uint64_t centre;
    uint64_t kind;
    double a, e, p, q, last;
};

/* The last two states reached. A pane of zeros is empty. */
struct bw_pane {
    uint64_t numbers[5];
    double places[18];
};

/* What a pane shows: BELFRY_CURRENT, BELFRY_LATE, BELFRY_EMPTY or BELFRY_REFUSED_NOT_FINITE. position: km from the centre; three NaNs
   unless the word is BELFRY_CURRENT. late: milliseconds; 0 unless the word is BELFRY_LATE. */
struct bw_shown {
    uint64_t word;
    double position[3];
    uint64_t late;
};

/* The same with the velocity. motion is six NaNs unless the word is BELFRY_CURRENT. */
struct bw_shown_motion {
    uint64_t word;
    struct bw_motion motion;
    uint64_t late;
};

/* An injection as launch crews speak it, Earth-fixed: km, km/s, and angles in parts of 10^-10 degree. */
struct bw_sphere {
    double radius, speed;
    int64_t latitude, longitude, path_angle, azimuth;
};

/* The report of a repair: entries looked at and kept, bytes written, 1 or 0 for what changed, and a fate for each entry looked at. */
struct bw_repaired {
    uint64_t looked, kept, written;
    uint64_t total_changed, count_changed, order_changed, offsets_changed;
    uint16_t fates[BELFRY_ENTRIES];
};

/* An order: setting, injection, step length and target. */
struct bw_order {
    struct bw_setting setting;
    struct bw_coordinates injection;
    uint32_t h;
    uint64_t target;
};

/* Setting and state of the calls about the Earth, which take no j, a, k, rule and centre. */
struct bw_earth_setting {
    double coefficients[6];
    uint32_t dut;
};

struct bw_earth_coordinates {
    uint64_t moment;
    double position[3];
    double velocity[3];
};

struct bw_earth_answer {
    uint64_t outcome;
    struct bw_earth_coordinates state;
    uint32_t steps;
    struct bw_guesses guesses;
};

/* ---- from structs to arrays and back; private */

static inline void bw_private_six(const double position[3], const double velocity[3], double six[6]) {
    memcpy(six, position, 3 * sizeof *six);
    memcpy(six + 3, velocity, 3 * sizeof *six);
}

static inline void bw_private_of_six(const double six[6], double position[3], double velocity[3]) {
    memcpy(position, six, 3 * sizeof *six);
    memcpy(velocity, six + 3, 3 * sizeof *six);
}

static inline void bw_private_nine(const struct bw_state *state, double nine[9]) {
    bw_private_six(state->position, state->velocity, nine);
    memcpy(nine + 6, state->acceleration, 3 * sizeof *nine);
}

static inline void bw_private_state(uint64_t moment, uint64_t centre, const double nine[9], struct bw_state *state) {
    state->moment = moment;
    state->centre = centre;
    bw_private_of_six(nine, state->position, state->velocity);
    memcpy(state->acceleration, nine + 6, 3 * sizeof *nine);
}

static inline void bw_private_extras(const struct bw_setting *setting, double extras[3]) {
    extras[0] = setting->j;
    extras[1] = setting->a;
    extras[2] = setting->k;
}

static inline uint64_t bw_private_conic(uint64_t number, const uint64_t names[2], const double figures[5], struct bw_conic *conic) {
    if (number == BELFRY_ACCEPTED) {
        conic->centre = names[0];
        conic->kind = names[1];
        conic->a = figures[0];
        conic->e = figures[1];
        conic->p = figures[2];
        conic->q = figures[3];
        conic->last = figures[4];
    }
    return number;
}

static inline uint64_t bw_private_number(const uint8_t *bytes, int count) {
    uint64_t number = 0;
    while (count-- > 0) number = number << 8 | bytes[count];
    return number;
}

static inline void bw_private_floats(const uint8_t *bytes, int count, double *floats) {
    int i;
    for (i = 0; i < count; i++) {
        const uint64_t bits = bw_private_number(bytes + 8 * i, 8);
        memcpy(&floats[i], &bits, sizeof bits);
    }
}

/* ---- books and orders */

/* Reads an order of 120 bytes, or of 144 with j, a and k. BELFRY_REFUSED_BOOK for any other length, as in the program strip. Nothing
   else is checked here: the calls do that. */
static inline uint64_t bw_order_read(const uint8_t *bytes, size_t length, struct bw_order *order) {
    double extras[3] = {0.0, 0.0, 0.0};
    if (length != 120 && length != 144) return BELFRY_REFUSED_BOOK;
    bw_private_floats(bytes, 6, order->setting.coefficients);
    order->injection.moment = bw_private_number(bytes + 48, 8);
    order->injection.centre = BELFRY_EARTH;
    bw_private_floats(bytes + 56, 3, order->injection.position);
    bw_private_floats(bytes + 80, 3, order->injection.velocity);
    order->h = (uint32_t)bw_private_number(bytes + 104, 4);
    order->setting.dut = (uint32_t)bw_private_number(bytes + 108, 4);
    order->target = bw_private_number(bytes + 112, 8);
    if (length == 144) bw_private_floats(bytes + 120, 3, extras);
    order->setting.j = extras[0];
    order->setting.a = extras[1];
    order->setting.k = extras[2];
    order->setting.rule = 0;
    return BELFRY_ACCEPTED;
}

/* Whether a book passes: 0, or 1. */
static inline uint64_t bw_book_passes(const struct bw_book *book) { return belfry_book_passes(book->bytes, book->length); }

/* Whether the second book holds every entry of the first: BELFRY_HELD, BELFRY_NOT_HELD with the number of the first entry that is
   missing, or 1. */
static inline uint64_t bw_book_holds(const struct bw_book *first, const struct bw_book *second, uint64_t *missing) {
    return belfry_book_holds(first->bytes, first->length, second->bytes, second->length, missing);
}

/* The position of a body, seen from the Earth, and its velocity. Refusals: 1, 3, 6, 7. */
static inline uint64_t bw_position(const struct bw_book *book, uint64_t body, uint64_t moment, struct bw_motion *motion) {
    double six[6];
    const uint64_t number = belfry_position(book->bytes, book->length, body, moment, six);
    if (number == BELFRY_ACCEPTED) bw_private_of_six(six, motion->position, motion->velocity);
    return number;
}

/* Saves what can be saved of a damaged book: writes a book that passes to `output`, of `room` bytes. `output` must not overlap the
   damaged book. Refusals: 16, 1. */
static inline uint64_t bw_repair(const struct bw_book *damaged, uint8_t *output, size_t room, struct bw_repaired *repair) {
    uint64_t report[7];
    const uint64_t number = belfry_repair(damaged->bytes, damaged->length, output, room, repair->fates, report);
    if (number == BELFRY_ACCEPTED) {
        repair->looked = report[0];
        repair->kept = report[1];
        repair->written = report[2];
        repair->total_changed = report[3];
        repair->count_changed = report[4];
        repair->order_changed = report[5];
        repair->offsets_changed = report[6];
    }
    return number;
}

/* ---- flights about any centre */

/* The acceleration in km/s^2 at a position from the centre in km. Refusals: 1, 4, 14, 3, 7, 6. */
static inline uint64_t bw_pull(const struct bw_book *book, const struct bw_setting *setting, uint64_t moment, uint64_t centre,
                               const double position[3], double acceleration[3]) {
    double extras[3], three[3];
    uint64_t number;
    bw_private_extras(setting, extras);
    number = belfry_pull(book->bytes, book->length, setting->coefficients, extras, setting->dut, setting->rule, moment, centre, position,
                         three);
    if (number == BELFRY_ACCEPTED) memcpy(acceleration, three, sizeof three);
    return number;
}

/* The whole state of an injection: its coordinates with the acceleration there. Refusals: 1, 4, 14, 3, 7, 6. */
static inline uint64_t bw_inject(const struct bw_book *book, const struct bw_setting *setting, const struct bw_coordinates *injection,
                                 struct bw_state *state) {
    double extras[3], six[6], nine[9];
    uint64_t number;
    bw_private_extras(setting, extras);
    bw_private_six(injection->position, injection->velocity, six);
    number = belfry_inject(book->bytes, book->length, setting->coefficients, extras, setting->dut, setting->rule, injection->moment,
                           injection->centre, six, nine);
    if (number == BELFRY_ACCEPTED) bw_private_state(injection->moment, injection->centre, nine, state);
    return number;
}

/* The same craft about another centre. Refusals: 1, 4, 14, 3, 7, 6. */
static inline uint64_t bw_move(const struct bw_book *book, const struct bw_setting *setting, const struct bw_state *state, uint64_t centre,
                               struct bw_state *moved) {
    double extras[3], nine[9], there[9];
    uint64_t number;
    bw_private_extras(setting, extras);
    bw_private_nine(state, nine);
    number = belfry_move(book->bytes, book->length, setting->coefficients, extras, setting->dut, setting->rule, state->moment,
                         state->centre, nine, centre, there);
    if (number == BELFRY_ACCEPTED) bw_private_state(state->moment, centre, there, moved);
    return number;
}

/* A run about the state's centre. Always writes the answer. Refusals: 1, 4, 14, 3, 7, 6, 15, 2, 5, and for a step 6 or 7. */
static inline uint64_t bw_fly(const struct bw_book *book, const struct bw_setting *setting, const struct bw_state *state,
                              const struct bw_run *run, struct bw_answer *answer) {
    double extras[3], nine[9], there[9];
    uint64_t reached, entries[5], number;
    uint32_t steps;
    bw_private_extras(setting, extras);
    bw_private_nine(state, nine);
    number = belfry_fly(book->bytes, book->length, setting->coefficients, extras, setting->dut, setting->rule, state->moment, state->centre,
                        nine, run->h, run->target, run->budget, run->guesses.entries, &reached, there, entries, &steps);
    bw_private_state(reached, state->centre, there, &answer->state);
    answer->outcome = number;
    answer->steps = steps;
    memcpy(answer->guesses.entries, entries, sizeof entries);
    return number;
}

/* Position and velocity in axes that turn with the Earth, which must be the centre. Refusals: 4, 14, 3, 7. */
static inline uint64_t bw_turn(uint64_t rule, uint32_t dut, const struct bw_coordinates *coordinates, struct bw_motion *turned) {
    double six[6], there[6];
    uint64_t number;
    bw_private_six(coordinates->position, coordinates->velocity, six);
    number = belfry_turn(rule, dut, coordinates->moment, coordinates->centre, six, there);
    if (number == BELFRY_ACCEPTED) bw_private_of_six(there, turned->position, turned->velocity);
    return number;
}

/* The conic about the centre, whose coefficient is m. Refusals: 4, 14, 7, 9, 10. */
static inline uint64_t bw_orbit(double m, const struct bw_coordinates *coordinates, struct bw_conic *conic) {
    double six[6], figures[5];
    uint64_t names[2], number;
    bw_private_six(coordinates->position, coordinates->velocity, six);
    number = belfry_orbit(m, coordinates->moment, coordinates->centre, six, names, figures);
    return bw_private_conic(number, names, figures, conic);
}

/* The coordinates of a state, without its acceleration. */
static inline struct bw_coordinates bw_coordinates_of(const struct bw_state *state) {
    struct bw_coordinates coordinates;
    coordinates.moment = state->moment;
    coordinates.centre = state->centre;
    memcpy(coordinates.position, state->position, sizeof state->position);
    memcpy(coordinates.velocity, state->velocity, sizeof state->velocity);
    return coordinates;
}

/* ---- the live pane */

/* Makes the pane empty. Always returns 0. */
static inline uint64_t bw_clear(struct bw_pane *pane) { return belfry_clear(pane->numbers, pane->places); }

/* Takes a state, if its centre is that of the newer one and its moment is later: BELFRY_TAKEN, or 18. */
static inline uint64_t bw_take(struct bw_pane *pane, const struct bw_state *state) {
    double nine[9];
    bw_private_nine(state, nine);
    return belfry_take(state->moment, state->centre, nine, pane->numbers, pane->places);
}

/* Takes the state of a run's answer: BELFRY_TAKEN, BELFRY_UNCHANGED if the run was refused, or 18. */
static inline uint64_t bw_feed(struct bw_pane *pane, const struct bw_answer *answer) {
    double nine[9];
    bw_private_nine(&answer->state, nine);
    return belfry_feed(answer->outcome, answer->state.moment, answer->state.centre, nine, pane->numbers, pane->places);
}

/* What the pane shows at a moment. Always writes the frame; returns its word. */
static inline uint64_t bw_frame(const struct bw_pane *pane, uint64_t moment, struct bw_shown *frame) {
    frame->word = belfry_frame(pane->numbers, pane->places, moment, frame->position, &frame->late);
    return frame->word;
}

/* As bw_frame, with the velocity. */
static inline uint64_t bw_frame_motion(const struct bw_pane *pane, uint64_t moment, struct bw_shown_motion *frame) {
    double six[6];
    frame->word = belfry_frame_motion(pane->numbers, pane->places, moment, six, &frame->late);
    bw_private_of_six(six, frame->motion.position, frame->motion.velocity);
    return frame->word;
}

/* ---- flights about the Earth, with neither oblateness nor sunlight, by rule 0 */

/* The acceleration in km/s^2 at a position in km. Refusals: 1, 4, 3, 7, 6. */
static inline uint64_t bw_earth_acceleration(const struct bw_book *book, const struct bw_earth_setting *setting, uint64_t moment,
                                             const double position[3], double acceleration[3]) {
    double three[3];
    const uint64_t number = belfry_acceleration(book->bytes, book->length, setting->coefficients, setting->dut, moment, position, three);
    if (number == BELFRY_ACCEPTED) memcpy(acceleration, three, sizeof three);
    return number;
}

static inline uint64_t bw_private_ran(uint64_t number, uint64_t reached, const double there[6], const uint64_t entries[5], uint32_t steps,
                                      struct bw_earth_answer *answer) {
    answer->outcome = number;
    answer->state.moment = reached;
    bw_private_of_six(there, answer->state.position, answer->state.velocity);
    answer->steps = steps;
    memcpy(answer->guesses.entries, entries, 5 * sizeof *entries);
    return number;
}

/* A run that starts with the acceleration that the rule gives. Always writes the answer. Refusals: 1, 4, 3, 7, 6, 2, 5, and for a step
   6 or 7. */
static inline uint64_t bw_earth_run(const struct bw_book *book, const struct bw_earth_setting *setting,
                                    const struct bw_earth_coordinates *from, const struct bw_run *run, struct bw_earth_answer *answer) {
    double six[6], there[6];
    uint64_t reached, entries[5], number;
    uint32_t steps;
    bw_private_six(from->position, from->velocity, six);
    number = belfry_run(book->bytes, book->length, setting->coefficients, setting->dut, from->moment, six, run->h, run->target, run->budget,
                        run->guesses.entries, &reached, there, entries, &steps);
    return bw_private_ran(number, reached, there, entries, steps, answer);
}

/* A run of one step, to the moment one step on. Always writes the answer. Refusals: those of bw_earth_run. */
static inline uint64_t bw_earth_step(const struct bw_book *book, const struct bw_earth_setting *setting,
                                     const struct bw_earth_coordinates *from, uint32_t h, const struct bw_guesses *guesses,
                                     struct bw_earth_answer *answer) {
    double six[6], there[6];
    uint64_t reached, entries[5], number;
    uint32_t steps;
    bw_private_six(from->position, from->velocity, six);
    number = belfry_single_step(book->bytes, book->length, setting->coefficients, setting->dut, from->moment, six, h, guesses->entries,
                                &reached, there, entries, &steps);
    return bw_private_ran(number, reached, there, entries, steps, answer);
}

/* Position and velocity in axes that turn with the Earth. Refusals: 4, 3, 7. */
static inline uint64_t bw_earth_fixed(const struct bw_earth_coordinates *coordinates, uint32_t dut, struct bw_motion *turned) {
    double six[6], there[6];
    uint64_t number;
    bw_private_six(coordinates->position, coordinates->velocity, six);
    number = belfry_earth_fixed(coordinates->moment, six, dut, there);
    if (number == BELFRY_ACCEPTED) bw_private_of_six(there, turned->position, turned->velocity);
    return number;
}

/* The conic about the Earth, whose coefficient is m. Refusals: 4, 7, 9, 10. */
static inline uint64_t bw_earth_conic(double m, const struct bw_earth_coordinates *coordinates, struct bw_conic *conic) {
    double six[6], figures[5];
    uint64_t names[2], number;
    bw_private_six(coordinates->position, coordinates->velocity, six);
    number = belfry_conic(m, coordinates->moment, six, names, figures);
    return bw_private_conic(number, names, figures, conic);
}

/* The coordinates of a launch crew's injection in 1950.0 axes, about the Earth. Refusals: 4, 3, 12, 7. */
static inline uint64_t bw_from_sphere(uint64_t rule, uint64_t moment, uint32_t dut, const struct bw_sphere *sphere,
                                      struct bw_coordinates *coordinates) {
    double sizes[2], six[6];
    int64_t angles[4];
    uint64_t number;
    sizes[0] = sphere->radius;
    sizes[1] = sphere->speed;
    angles[0] = sphere->latitude;
    angles[1] = sphere->longitude;
    angles[2] = sphere->path_angle;
    angles[3] = sphere->azimuth;
    number = belfry_from_sphere(rule, moment, dut, sizes, angles, six);
    if (number == BELFRY_ACCEPTED) {
        coordinates->moment = moment;
        coordinates->centre = BELFRY_EARTH;
        bw_private_of_six(six, coordinates->position, coordinates->velocity);
    }
    return number;
}


#ifdef __cplusplus
}
#endif

#endif
