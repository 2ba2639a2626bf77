// night ORDER BOOK FULLER: the Moon's record ends at 02:10, and at 02:13 a fuller book comes. Two frames for each minute.
#include <belfrywool.h>
#include <cstdio>
#include <cstdlib>
#include <fstream>
#include <iterator>
#include <string>
constexpr std::uint64_t minute = 60000, two = 411357600000; // milliseconds; 1963-01-14T02:00
static void must(bool good, const char *what) { if (!good) std::exit(std::fprintf(stderr, "night: %s\n", what) > 0 ? 1 : 2); }
static bw_book content(const char *name, std::string &bytes) {
    std::ifstream file(name, std::ios::binary);
    must(file.good(), name);
    bytes.assign(std::istreambuf_iterator<char>(file), {});
    return {reinterpret_cast<const std::uint8_t *>(bytes.data()), bytes.size()};
}
static void show(const bw_pane &pane, std::uint64_t moment) {
    bw_shown frame;
    double range;
    const auto second = static_cast<unsigned>(moment / 1000 % 86400);
    std::printf("%02u:%02u:%02u ", second / 3600, second / 60 % 60, second % 60);
    if (bw_frame(&pane, moment, &frame) == BELFRY_CURRENT && bw_length(frame.position, &range) == 0) std::printf("%10.1f km\n", range);
    else std::printf("       --- km  %s\n", belfry_meaning(frame.word));
}
int main(int count, char **words) {
    std::string bytes[3];
    bw_order order;
    bw_answer now;
    bw_pane pane{};
    must(count == 4, "use: night ORDER BOOK FULLER");
    bw_book text = content(words[1], bytes[0]), book = content(words[2], bytes[1]), fuller = content(words[3], bytes[2]);
    must(belfry_environment() == 0, "the floating-point environment is not that of the proofs");
    must(bw_order_read(text.bytes, text.length, &order) == 0, "an order has 120 or 144 bytes");
    must(bw_inject(&book, &order.setting, &order.injection, &now.state) == 0, "the injection is refused");
    for (bw_run run{order.h, two, 1000, {}}; run.target <= order.target; run.target += minute, run.guesses = now.guesses) {
        std::uint64_t missing, outcome = bw_fly(&book, &order.setting, &now.state, &run, &now), fed = bw_feed(&pane, &now);
        if (fed != BELFRY_TAKEN) std::printf("         %s\n", belfry_meaning(fed == BELFRY_UNCHANGED ? outcome : fed));
        for (auto moment : {run.target - minute / 2, run.target}) show(pane, moment);
        if (run.target == two + 13 * minute && bw_book_holds(&book, &fuller, &missing) == BELFRY_HELD) book = fuller;
    }
}
