/* caller QUESTIONS: asks the library each question of a file through belfrywool.h, and prints the answers. src/lib.rs describes a
   question. Compiles as C99 and as C++17. */
#include <inttypes.h>
#include <stdio.h>
#include <stdlib.h>
#include <string.h>

#include "belfrywool.h"

enum { WORDS = 80, LINE = 1000000 };

static char line[LINE];
static uint8_t books[2][LINE / 2], output[LINE / 2];
static struct bw_book book, second;
static uint64_t v[WORDS];

static double real(uint64_t bits) {
    double x;
    memcpy(&x, &bits, sizeof x);
    return x;
}

static uint64_t bits_of(double x) {
    uint64_t bits;
    memcpy(&bits, &x, sizeof bits);
    return x != x ? UINT64_C(0x7ff8000000000000) : bits;
}

static void floats(const uint64_t *from, int count, double *to) {
    int i;
    for (i = 0; i < count; i++) to[i] = real(from[i]);
}

static void tell(const double *x, int count) {
    int i;
    for (i = 0; i < count; i++) printf(" %" PRIx64, bits_of(x[i]));
}

static void tell_numbers(const uint64_t *x, int count) {
    int i;
    for (i = 0; i < count; i++) printf(" %" PRIx64, x[i]);
}

static void tell_motion(const double *position, const double *velocity) {
    tell(position, 3);
    tell(velocity, 3);
}

static struct bw_setting setting_of(const uint64_t *w) {
    struct bw_setting s;
    floats(w, 6, s.coefficients);
    s.j = real(w[6]);
    s.a = real(w[7]);
    s.k = real(w[8]);
    s.dut = (uint32_t)w[9];
    s.rule = w[10];
    return s;
}

static struct bw_coordinates coordinates_of(const uint64_t *w) {
    struct bw_coordinates c;
    c.moment = w[0];
    c.centre = w[1];
    floats(w + 2, 3, c.position);
    floats(w + 5, 3, c.velocity);
    return c;
}

static struct bw_state state_of(const uint64_t *w) {
    struct bw_state s;
    s.moment = w[0];
    s.centre = w[1];
    floats(w + 2, 3, s.position);
    floats(w + 5, 3, s.velocity);
    floats(w + 8, 3, s.acceleration);
    return s;
}

static void tell_state(const struct bw_state *s) {
    printf(" %" PRIx64, s->centre);
    tell_motion(s->position, s->velocity);
    tell(s->acceleration, 3);
}

static struct bw_earth_setting earth_setting_of(const uint64_t *w) {
    struct bw_earth_setting s;
    floats(w, 6, s.coefficients);
    s.dut = (uint32_t)w[6];
    return s;
}

static struct bw_earth_coordinates earth_coordinates_of(const uint64_t *w) {
    struct bw_earth_coordinates c;
    c.moment = w[0];
    floats(w + 1, 3, c.position);
    floats(w + 4, 3, c.velocity);
    return c;
}

static struct bw_run run_of(const uint64_t *w) {
    struct bw_run r;
    r.h = (uint32_t)w[0];
    r.target = w[1];
    r.budget = (uint32_t)w[2];
    memcpy(r.guesses.entries, w + 3, sizeof r.guesses.entries);
    return r;
}

static struct bw_pane pane_of(const uint64_t *w) {
    struct bw_pane p;
    memcpy(p.numbers, w, sizeof p.numbers);
    floats(w + 5, 18, p.places);
    return p;
}

static void tell_pane(const struct bw_pane *p) {
    tell_numbers(p->numbers, 5);
    tell(p->places, 18);
}

static void tell_conic(uint64_t number, const struct bw_conic *c) {
    const double figures[5] = {c->a, c->e, c->p, c->q, c->last};
    if (number == BELFRY_ACCEPTED) {
        printf(" %" PRIx64 " %" PRIx64, c->centre, c->kind);
        tell(figures, 5);
    }
}

static void tell_earth(const struct bw_earth_answer *a) {
    printf("%" PRIx64 " %" PRIx64, a->outcome, a->state.moment);
    tell_motion(a->state.position, a->state.velocity);
    tell_numbers(a->guesses.entries, 5);
    printf(" %" PRIx32, a->steps);
}

static uint64_t number(uint64_t n) {
    printf("%" PRIx64, n);
    return n;
}

static int is(const char *name) { return strcmp(line, name) == 0; }

static int almanac(void) {
    uint64_t out[3];
    double figures[2], three[3];
    if (is("date")) {
        if (!number(belfry_date(v[0], out))) tell_numbers(out, 3);
    } else if (is("day")) {
        if (!number(belfry_day(v[0], v[1], v[2], out))) tell_numbers(out, 1);
    } else if (is("twice")) {
        if (!number(belfry_twice_julian_date(v[0], out))) tell_numbers(out, 1);
    } else if (is("hour")) {
        if (!number(belfry_hour_angle(v[0], (uint32_t)v[1], out))) tell_numbers(out, 1);
    } else if (is("sidereal")) {
        if (!number(belfry_sidereal(v[0], v[1], (uint32_t)v[2], out))) tell_numbers(out, 1);
    } else if (is("root")) {
        if (!number(belfry_root(real(v[0]), figures))) tell(figures, 1);
    } else if (is("sincos")) {
        if (!number(belfry_sine_cosine(v[0], figures))) tell(figures, 2);
    } else if (is("length")) {
        floats(v, 3, three);
        if (!number(bw_length(three, figures))) tell(figures, 1);
    } else {
        return 0;
    }
    return 1;
}

static void tell_repair(uint64_t room) {
    static struct bw_repaired r;
    uint64_t i, sum = UINT64_C(0xcbf29ce484222325);
    memset(output, 0xa5, sizeof output);
    if (number(bw_repair(&book, output, (size_t)room, &r))) return;
    printf(" %" PRIx64 " %" PRIx64 " %" PRIx64 " %" PRIx64 " %" PRIx64 " %" PRIx64 " %" PRIx64, r.looked, r.kept, r.written, r.total_changed,
           r.count_changed, r.order_changed, r.offsets_changed);
    for (i = 0; i < r.looked; i++) printf(" %" PRIx16, r.fates[i]);
    for (i = 0; i < r.written; i++) sum = (sum ^ output[i]) * UINT64_C(0x100000001b3);
    printf(" %" PRIx64, sum);
    if (output[r.written] != 0xa5) printf(" written behind the book");
}

static int books_asked(void) {
    struct bw_motion motion;
    uint64_t missing;
    if (is("passes")) {
        number(bw_book_passes(&book));
    } else if (is("holds")) {
        if (number(bw_book_holds(&book, &second, &missing)) == BELFRY_NOT_HELD) tell_numbers(&missing, 1);
    } else if (is("position")) {
        if (!number(bw_position(&book, v[0], v[1], &motion))) tell_motion(motion.position, motion.velocity);
    } else if (is("repair")) {
        tell_repair(v[0]);
    } else {
        return 0;
    }
    return 1;
}

static int earth(void) {
    const struct bw_earth_setting setting = earth_setting_of(v);
    struct bw_earth_coordinates from = earth_coordinates_of(v + 7);
    struct bw_earth_answer answer;
    struct bw_coordinates made;
    struct bw_motion motion;
    struct bw_guesses guesses;
    struct bw_conic conic;
    struct bw_sphere sphere;
    struct bw_run run;
    double place[3], three[3];
    memset(&conic, 0, sizeof conic);
    if (is("run")) {
        run = run_of(v + 14);
        bw_earth_run(&book, &setting, &from, &run, &answer);
        tell_earth(&answer);
    } else if (is("step")) {
        memcpy(guesses.entries, v + 15, sizeof guesses.entries);
        bw_earth_step(&book, &setting, &from, (uint32_t)v[14], &guesses, &answer);
        tell_earth(&answer);
    } else if (is("acceleration")) {
        floats(v + 8, 3, place);
        if (!number(bw_earth_acceleration(&book, &setting, v[7], place, three))) tell(three, 3);
    } else if (is("fixed")) {
        from = earth_coordinates_of(v);
        if (!number(bw_earth_fixed(&from, (uint32_t)v[7], &motion))) tell_motion(motion.position, motion.velocity);
    } else if (is("conic")) {
        from = earth_coordinates_of(v + 1);
        tell_conic(number(bw_earth_conic(real(v[0]), &from, &conic)), &conic);
    } else if (is("sphere")) {
        sphere.radius = real(v[3]);
        sphere.speed = real(v[4]);
        sphere.latitude = (int64_t)v[5];
        sphere.longitude = (int64_t)v[6];
        sphere.path_angle = (int64_t)v[7];
        sphere.azimuth = (int64_t)v[8];
        if (!number(bw_from_sphere(v[0], v[1], (uint32_t)v[2], &sphere, &made))) tell_motion(made.position, made.velocity);
    } else {
        return 0;
    }
    return 1;
}

static int centre(void) {
    const struct bw_setting setting = setting_of(v);
    struct bw_coordinates from = coordinates_of(v + 11);
    struct bw_state state = state_of(v + 11);
    struct bw_answer answer;
    struct bw_motion motion;
    struct bw_conic conic;
    struct bw_run run;
    double place[3], three[3];
    memset(&conic, 0, sizeof conic);
    if (is("fly")) {
        run = run_of(v + 22);
        answer.state = state; /* the answer may be the input */
        bw_fly(&book, &setting, &answer.state, &run, &answer);
        printf("%" PRIx64 " %" PRIx64, answer.outcome, answer.state.moment);
        tell_state(&answer.state);
        tell_numbers(answer.guesses.entries, 5);
        printf(" %" PRIx32, answer.steps);
    } else if (is("inject")) {
        if (!number(bw_inject(&book, &setting, &from, &state))) {
            tell_motion(state.position, state.velocity);
            tell(state.acceleration, 3);
        }
    } else if (is("pull")) {
        floats(v + 13, 3, place);
        if (!number(bw_pull(&book, &setting, v[11], v[12], place, three))) tell(three, 3);
    } else if (is("move")) {
        if (!number(bw_move(&book, &setting, &state, v[22], &state))) tell_state(&state);
    } else if (is("turn")) {
        from = coordinates_of(v + 2);
        if (!number(bw_turn(v[0], (uint32_t)v[1], &from, &motion))) tell_motion(motion.position, motion.velocity);
    } else if (is("orbit")) {
        from = coordinates_of(v + 1);
        tell_conic(number(bw_orbit(real(v[0]), &from, &conic)), &conic);
    } else {
        return 0;
    }
    return 1;
}

static int live(void) {
    struct bw_state state;
    struct bw_answer answer;
    struct bw_pane pane;
    struct bw_shown frame;
    struct bw_shown_motion motion;
    if (is("clear")) {
        pane = pane_of(v);
        number(bw_clear(&pane));
        tell_pane(&pane);
    } else if (is("take")) {
        state = state_of(v);
        pane = pane_of(v + 11);
        number(bw_take(&pane, &state));
        tell_pane(&pane);
    } else if (is("feed")) {
        memset(&answer, 0, sizeof answer);
        answer.outcome = v[0];
        answer.state = state_of(v + 1);
        pane = pane_of(v + 12);
        number(bw_feed(&pane, &answer));
        tell_pane(&pane);
    } else if (is("frame")) {
        pane = pane_of(v + 1);
        number(bw_frame(&pane, v[0], &frame));
        tell(frame.position, 3);
        tell_numbers(&frame.late, 1);
    } else if (is("motion")) {
        pane = pane_of(v + 1);
        number(bw_frame_motion(&pane, v[0], &motion));
        tell_motion(motion.motion.position, motion.motion.velocity);
        tell_numbers(&motion.late, 1);
    } else {
        return 0;
    }
    return 1;
}

static uint8_t digit(char c) { return (uint8_t)(c <= '9' ? c - '0' : c - 'a' + 10); }

static struct bw_book bytes_of(const char *digits, uint8_t *to) {
    struct bw_book read;
    read.bytes = to;
    for (read.length = 0; digits[0] > ' '; digits += 2) to[read.length++] = (uint8_t)(16 * digit(digits[0]) + digit(digits[1]));
    return read;
}

int main(int count, char **words) {
    FILE *file = count == 2 ? fopen(words[1], "r") : NULL;
    int i;
    if (!file) {
        fprintf(stderr, "use: caller QUESTIONS\n");
        return 2;
    }
    while (fgets(line, sizeof line, file)) {
        char *rest = strchr(line, ' ');
        if (!rest) return 2;
        *rest++ = '\0';
        if (is("book")) {
            book = bytes_of(rest, books[0]);
        } else if (is("second")) {
            second = bytes_of(rest, books[1]);
        } else {
            memset(v, 0, sizeof v);
            for (i = 0; i < WORDS && *rest && *rest != '\n'; i++) v[i] = strtoull(rest, &rest, 16);
            if (!(almanac() || books_asked() || earth() || centre() || live())) return 2;
            printf("\n");
        }
    }
    return fclose(file);
}
