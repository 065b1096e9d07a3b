// powers: the power at every delay of curves with 4 runs of 255 ticks, run by run (Boddivarn) against a twin that goes tick by tick, in one run on one
// core (02, Req 05). The twin stands here alone. The load of the one-part board is taken off. Sums are compared, so a wrong power shows.
#include <cstdio>

#include "boards.h"
#include "hosted.h"

static const int CURVES = 200, DELAYS = 1022; // fastest 1, slowest 1,021

static Part make_long_part(Draw &draw) {
    Part part{1, 0, {}};
    std::set<int, std::greater<int>> savings;
    while (savings.size() < 4) savings.insert(between(draw, 1, 1000));
    for (int saving : savings) {
        part.runs.push_back({255, saving});
        part.power += 255 * saving;
    }
    part.power += between(draw, 0, 999);
    return part;
}

// The power at a delay, less the saving of each tick used; 0 off the curve.
static int by_ticks(const Part &part, int delay) {
    if (delay < part.fastest || delay > slowest(part)) return 0;
    int power = part.power, used = delay - part.fastest;
    for (size_t k = 0, run = 0, tick = 0; k < (size_t)used; k++) {
        power -= part.runs[run].saving;
        if (++tick == (size_t)part.runs[run].length) { run++; tick = 0; }
    }
    return power;
}

int main() {
    Draw draw(1);
    double ours = 0, theirs = 0;
    int differ = 0;
    for (int k = 0; k < CURVES; k++) {
        Board b;
        b.deadline = 4095;
        b.parts.push_back(make_long_part(draw));
        const Bytes file = file_of(b, {0});
        uint64_t runs = 0, ticks = 0;
        auto powers = [&](uint32_t delays) { return best_of_three([&] { runs = boddivarn_powers(file.data(), file.size(), 0, delays); }); };
        ours -= powers(0);
        ours += powers(DELAYS);
        theirs += best_of_three([&] { ticks = 0; for (int d = 0; d < DELAYS; d++) ticks += (uint64_t)by_ticks(b.parts[0], d); });
        differ += runs != ticks;
    }
    const double each = CURVES * (DELAYS - 1) / 1000.0;
    std::printf("\npowers at every delay of %d curves with 4 runs of 255 ticks: run by run %.1f ns, tick by tick %.1f ns, ratio %.4f; %d sums differ\n", CURVES, ours / each, theirs / each, ours / theirs, differ);
    return differ != 0;
}
