// compare BOARDS SEED: Boddivarn against LEMON's NetworkSimplex on the same boards, in one run on one core. Prints, by shape and size:
// loads; their growth; orders of each kind against a load of the board that they give and against LEMON's run on it; the main loop alone; how often
// advice was refused; and long streams of orders on a full board. Once with part numbers that rise along links, once with numbers in random order.
// A load is everything: the file read, loops and time judged, the budget solved from nothing. LEMON is timed on its run alone, with the network of
// Req 10 built beforehand. Each time is the best of three. Totals are compared, so a wrong answer shows.
#include <cmath>
#include <cstdio>
#include <cstdlib>
#include <ctime>

#include "hosted.h"
#include "lemon.h"
#include "nets.h"

static int differ = 0;
static unsigned asked = 0, refused = 0; // advice

static void same(int64_t ours, int64_t theirs) { differ += ours != theirs; }

static uint64_t load(const Bytes &file) { return boddivarn_load(file.data(), file.size(), 1); }

static uint64_t after(const Bytes &file, const Bytes &orders) { return boddivarn_orders(file.data(), file.size(), orders.data(), orders.size()); }

static Known known(const Bytes &file, const Bytes &orders) {
    Known k;
    boddivarn_known(file.data(), file.size(), orders.data(), orders.size(), k.loads.data(), k.times.data());
    return k;
}

// Whether what is held is what was advised, from what was known before: else the advice was refused, and the loads are the main loop's.
static void count_advice(const Net &net, const Known &before, const Known &held) {
    Known advised = before;
    uint32_t hint[130];
    boddivarn_advise(net.data(), advised.loads.data(), hint);
    asked++;
    refused += advised.loads != held.loads;
}

// ---- loads

// The ratio of total times is the first figure; then the geometric mean of the boards' ratios, and the worst.
struct Ratios {
    double ours = 0, theirs = 0, logs = 0, worst = 0;
    int count = 0;
    void add(double a, double b) { ours += a; theirs += b; logs += std::log(a / b); worst = std::max(worst, a / b); count++; }
    void print(const char *name, int parts) const {
        std::printf("%-8s %5d %6d %9.1f %9.1f %7.2f %7.2f %7.2f\n", name, parts, count, ours / count, theirs / count, ours / theirs, std::exp(logs / count), worst);
    }
};

static void time_load(const Board &b, const Names &names, Ratios &here, Ratios &all) {
    const Bytes file = file_of(b, names);
    const Flow flow(b);
    uint64_t total = 0;
    int64_t theirs = 0;
    const double us = best_of_three([&] { total = load(file); });
    const double lemon = best_of_three([&] { theirs = flow.total(); });
    same((int64_t)total, theirs);
    here.add(us, lemon);
    all.add(us, lemon);
    const Known start = at_slowest(b, names);
    count_advice(net_of(b, names, start.times), start, known(file, {}));
}

static void print_loads(int boards, bool shuffled, Draw &draw) {
    std::printf("\nloads, numbers %s\n%-8s %5s %6s %9s %9s %7s %7s %7s\n", shuffled ? "in random order" : "rising along links", "shape", "parts", "boards", "us ours", "us LEMON", "totals", "geo", "worst");
    double before = 0;
    std::string growth;
    for (int parts : {8, 16, 32, 64}) {
        Ratios all;
        for (const char *shape : SHAPES) {
            Ratios here;
            for (int percent : {0, 10, 30, 50, 75, 95})
                for (int k = 0; k < boards; k++) {
                    Board b;
                    if (make_board(b, shape, parts, percent, draw)) time_load(b, make_names(parts, shuffled, draw), here, all);
                }
            here.print(shape, parts);
        }
        all.print("all", parts);
        char text[64];
        std::snprintf(text, sizeof text, before > 0 ? ", %d parts %.1f us (%.2f times)" : "%d parts %.1f us", parts, all.ours / all.count, all.ours / all.count / before);
        growth += text;
        before = all.ours / all.count;
    }
    std::printf("growth of a load: %s\n", growth.c_str());
}

// ---- orders

struct Times { double order = 0, load = 0, lemon = 0; int count = 0; };

// Eight orders that follow each other on a loaded board, the load taken off.
static void time_orders(Board b, const char *kind, const Names &names, Draw &draw, Times &t) {
    const Bytes file = file_of(b, names);
    Bytes orders;
    Times here;
    while (here.count < 8) {
        const Board before = b;
        const Bytes earlier = orders;
        if (!make_order(b, kind, names, draw, orders)) break;
        const Known start = moved(known(file, earlier), before, b, names);
        count_advice(net_of(b, names, start.times), start, known(file, orders));
        const Bytes changed = file_of(b, names);
        const Flow flow(b);
        int64_t theirs = 0;
        here.load += best_of_three([&] { load(changed); });
        here.lemon += best_of_three([&] { theirs = flow.total(); });
        here.count++;
    }
    if (here.count == 0) return;
    uint64_t total = 0;
    const double loaded = best_of_three([&] { after(file, {}); });
    const double made = best_of_three([&] { total = after(file, orders); });
    same((int64_t)total, (int64_t)load(file_of(b, names)));
    t.order += made - loaded; t.load += here.load; t.lemon += here.lemon; t.count += here.count;
}

static void print_orders(int boards, int parts, bool shuffled, Draw &draw) {
    std::printf("\norders, %d parts, numbers %s\n%-13s %7s %9s %9s %9s %9s %9s   %s\n", parts, shuffled ? "in random order" : "rising along links", "kind", "orders", "us", "us load", "us LEMON", "of load", "of LEMON", "worst shape, of LEMON");
    for (const char *kind : KINDS) {
        Times all;
        const char *worst = "";
        double most = 0;
        for (const char *shape : SHAPES) {
            Times here;
            for (int percent : {10, 30, 50, 75})
                for (int k = 0; k < boards; k++) {
                    Board b;
                    if (make_board(b, shape, parts, percent, draw)) time_orders(b, kind, make_names(parts, shuffled, draw), draw, here);
                }
            if (here.count && here.order / here.lemon > most) { most = here.order / here.lemon; worst = shape; }
            all.order += here.order; all.load += here.load; all.lemon += here.lemon; all.count += here.count;
        }
        std::printf("%-13s %7d %9.1f %9.1f %9.1f %9.3f %9.3f   %s %.3f\n", kind, all.count, all.order / all.count, all.load / all.count, all.lemon / all.count, all.order / all.load, all.order / all.lemon, worst, most);
    }
}

// ---- the main loop alone, advice refused on purpose

static void print_loop(int boards, Draw &draw) {
    std::printf("\nthe main loop alone\n%-8s %5s %6s %9s %9s %9s\n", "shape", "parts", "boards", "us", "us worst", "us load");
    for (int parts : {8, 64}) for (const char *shape : SHAPES) {
        double sum = 0, most = 0, loads = 0;
        int count = 0;
        for (int percent : {0, 10, 30, 50, 75, 95}) for (int k = 0; k < boards; k++) {
            Board b;
            if (!make_board(b, shape, parts, percent, draw)) continue;
            const Bytes file = file_of(b, make_names(parts, false, draw));
            uint64_t total = 0;
            const double us = best_of_three([&] { total = boddivarn_by_loop(file.data(), file.size(), 1); });
            loads += best_of_three([&] { same((int64_t)load(file), (int64_t)total); });
            sum += us; most = std::max(most, us); count++;
        }
        std::printf("%-8s %5d %6d %9.1f %9.1f %9.1f\n", shape, parts, count, sum / count, most, loads / count);
    }
}

// ---- a full board

// As many orders as an order file holds, back and forth between two boards.
static void print_stream(const char *name, const Bytes &file, const Bytes &there, const Bytes &back) {
    Bytes orders;
    int count = 0;
    while (orders.size() + 3 <= 65536) {
        const Bytes &next = count++ % 2 ? back : there;
        orders.insert(orders.end(), next.begin(), next.end());
    }
    const std::clock_t begin = std::clock();
    after(file, orders);
    std::printf("%d %s orders: %.0f ms of processor time\n", count, name, 1000.0 * (std::clock() - begin) / CLOCKS_PER_SEC);
}

static void print_full(Draw &draw) {
    Board b;
    do make_board(b, "dense", 64, 50, draw); while (b.deadline < 200 || b.deadline > 4000);
    const Names names = make_names(64, false, draw);
    const Bytes file = file_of(b, names);
    std::printf("\na full board: 64 parts, %d links\n", (int)b.links.size());
    Bytes faster, slower, link, unlink;
    Board c = b;
    order_deadline(c, b.deadline - 50, faster);
    order_deadline(c, b.deadline, slower);
    if (order_new_link(c, names, draw, link)) { unlink = link; unlink[0] = 3; }
    print_stream("deadline", file, faster, slower);
    print_stream("link", file, link, unlink);
    auto cones = [&](uint32_t times) { return best_of_three([&] { for (size_t p = 0; p < 64; p++) boddivarn_upstream(file.data(), file.size(), p, times); }); };
    const double loads = cones(0), cone = cones(100);
    b.deadline = 1;
    const Bytes slow = file_of(b, names);
    const double judged = best_of_three([&] { boddivarn_load(slow.data(), slow.size(), 100); });
    std::printf("upstream of every part %.1f us; file, loops and times, refused by 10, %.1f us\n", (cone - loads) / 100, judged / 100);
}

int main(int argc, char **argv) {
    if (argc != 3) return 2;
    const int boards = std::atoi(argv[1]);
    Draw draw(std::strtoull(argv[2], nullptr, 10));
    std::printf("loads: times ours, over LEMON's: totals, the ratio of total times; geo, the geometric mean of the boards' ratios; worst, the greatest of them\n");
    for (bool shuffled : {false, true}) print_loads(boards, shuffled, draw);
    for (int parts : {8, 32, 64}) print_orders(boards, parts, false, draw);
    print_orders(boards, 64, true, draw);
    print_loop(boards, draw);
    print_full(draw);
    std::printf("\nadvice refused: %u of %u\n%d totals differ\n", refused, asked, differ);
    return differ != 0;
}
