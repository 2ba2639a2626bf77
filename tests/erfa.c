/* Greenwich mean sidereal time by ERFA (eraGmst82, in doubles) and the answers of `ask` (in whole parts, rounded down).

     erfa lines RULE      one line of ask for each epoch: every day from 1950 to 2049 at 0h UT and at a time of that day
     erfa compare         reads the answers; prints their number and the greatest difference; the exit status is 1 if one is too great

   ERFA adds up seconds of up to 4.4 million, whose last place is 10^-9 s or 0.04 parts. An answer is rounded down, so it is up to one part
   below the value. It is therefore between 0 and 1 part below ERFA's, with a tolerance of 0.2. */
#include <erfa.h>
#include <inttypes.h>
#include <math.h>
#include <stdio.h>
#include <stdlib.h>
#include <string.h>

#define DAYS 36525
#define DAY UINT64_C(86400000)
#define CIRCLE 3600000000000.0
#define TURN 6.283185307179586476925287

/* The i-th epoch: 0h of a day, or a time of day that varies from day to day. */
static uint64_t epoch(uint64_t i) { return i / 2 * DAY + (i % 2 ? i / 2 * UINT64_C(55555553) % DAY : 0); }

/* How far an answer lies below ERFA's value, in parts. */
static double below(uint64_t ut, uint64_t parts) {
    double by_erfa = eraGmst82(2433282.5 + (double)(ut / DAY), (double)(ut % DAY) / DAY) / TURN * CIRCLE;
    return remainder(by_erfa - (double)parts, CIRCLE);
}

static int compare(void) {
    char line[64];
    double least = CIRCLE, most = -CIRCLE;
    uint64_t i = 0;
    int far = 0;
    for (; fgets(line, sizeof line, stdin); i++) {
        char *end;
        uint64_t parts = strtoull(line, &end, 10);
        if (end == line || *end != '\n' || i >= 2 * DAYS) return 1;
        double off = below(epoch(i), parts);
        least = fmin(least, off);
        most = fmax(most, off);
        far |= !(-0.2 < off && off < 1.2);
    }
    printf("%" PRIu64 " epochs, from %.3f to %.3f parts below ERFA\n", i, least, most);
    return far || i != 2 * DAYS;
}

int main(int words, char **word) {
    if (words == 2 && !strcmp(word[1], "compare")) return compare();
    if (words != 3 || strcmp(word[1], "lines")) return 2;
    for (uint64_t i = 0; i < 2 * DAYS; i++) printf("sidereal %s %" PRIu64 " 0\n", word[2], epoch(i));
}
