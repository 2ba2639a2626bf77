/* night ORDER BOOK FULLER: the Moon's record ends at 02:10, and at 02:13 a fuller book comes. Two frames for each minute. */
#include <belfrywool.h>
#include <stdio.h>
#include <stdlib.h>
static const uint64_t minute = 60000, two = 411357600000; /* milliseconds; 1963-01-14T02:00 */
static void must(int good, const char *what) {
    if (!good) exit(fprintf(stderr, "night: %s\n", what) > 0 ? 1 : 2);
}
static struct bw_book content(const char *name, uint8_t *bytes) {
    FILE *file = fopen(name, "rb");
    const struct bw_book book = {bytes, file ? fread(bytes, 1, 61440, file) : 0};
    must(file && fclose(file) == 0, name);
    return book;
}
static void show(const struct bw_pane *pane, uint64_t moment) {
    const unsigned second = (unsigned)(moment / 1000 % 86400);
    struct bw_shown frame;
    double range;
    printf("%02u:%02u:%02u ", second / 3600, second / 60 % 60, second % 60);
    if (bw_frame(pane, moment, &frame) == BELFRY_CURRENT && bw_length(frame.position, &range) == 0) printf("%10.1f km\n", range);
    else printf("       --- km  %s\n", belfry_meaning(frame.word));
}
int main(int count, char **words) {
    static uint8_t bytes[3][61440];
    struct bw_pane pane = {{0}, {0}};
    struct bw_order order;
    struct bw_answer now;
    must(count == 4, "use: night ORDER BOOK FULLER");
    struct bw_book text = content(words[1], bytes[0]), book = content(words[2], bytes[1]), fuller = content(words[3], bytes[2]);
    must(belfry_environment() == 0, "the floating-point environment is not that of the proofs");
    must(bw_order_read(text.bytes, text.length, &order) == 0, "an order has 120 or 144 bytes");
    must(bw_inject(&book, &order.setting, &order.injection, &now.state) == 0, "the injection is refused");
    for (struct bw_run run = {order.h, two, 1000, {{0}}}; run.target <= order.target; run.target += minute, run.guesses = now.guesses) {
        uint64_t missing, outcome = bw_fly(&book, &order.setting, &now.state, &run, &now), fed = bw_feed(&pane, &now);
        if (fed != BELFRY_TAKEN) printf("         %s\n", belfry_meaning(fed == BELFRY_UNCHANGED ? outcome : fed));
        show(&pane, run.target - minute / 2);
        show(&pane, run.target);
        if (run.target == two + 13 * minute && bw_book_holds(&book, &fuller, &missing) == BELFRY_HELD) book = fuller;
    }
}
