// A board as the sheet that `hosted` reads a network from (`net_on`), and what is known before a load or an order: so the benchmark can ask for the
// same advice as the solver does, and see whether it was taken.
#pragma once
#include <array>

#include "boards.h"

using Net = std::array<uint32_t, 2048>;
struct Known { std::array<uint32_t, 448> loads{}; std::array<uint32_t, 130> times{}; };

using Links = std::vector<std::pair<int, int>>;

// The links by the parts' numbers, in ascending order.
inline Links named_links(const Board &b, const Names &names) {
    Links links;
    for (auto &link : b.links) links.push_back({names[link.first], names[link.second]});
    std::sort(links.begin(), links.end());
    return links;
}

inline Net net_of(const Board &b, const Names &names, const std::array<uint32_t, 130> &times) {
    const uint32_t n = (uint32_t)b.parts.size();
    Net net{};
    uint32_t arcs = 0;
    auto arc = [&](uint32_t tail, uint32_t head, uint32_t base) { net[arcs] = tail; net[448 + arcs] = head; net[896 + arcs] = base; arcs++; };
    std::vector<const Part *> part(n);
    for (uint32_t p = 0; p < n; p++) part[names[p]] = &b.parts[p];
    for (uint32_t p = 0; p < n; p++) arc(p, 64 + p, part[p]->fastest);
    for (auto &link : named_links(b, names)) arc(64 + link.first, link.second, 0);
    for (uint32_t p = 0; p < n; p++) arc(128, p, 0);
    for (uint32_t p = 0; p < n; p++) arc(64 + p, 129, 0);
    for (uint32_t p = 0; p < n; p++) for (size_t k = 0; k < part[p]->runs.size(); k++) {
        net[1344 + 4 * p + k] = part[p]->runs[k].length;
        net[1600 + 4 * p + k] = part[p]->runs[k].saving;
    }
    std::copy(times.begin(), times.end(), net.begin() + 1856);
    net[1986] = arcs; net[1987] = n; net[1988] = b.deadline;
    return net;
}

// Before a load: no loads, and all parts at their slowest.
inline Known at_slowest(const Board &b, const Names &names) {
    Known known;
    uint32_t last = b.deadline;
    auto link = b.links.begin();
    for (int p = 0; p < (int)b.parts.size(); p++) {
        const uint32_t end = known.times[names[p]] + slowest(b.parts[p]);
        known.times[64 + names[p]] = end;
        last = std::max(last, end);
        for (; link != b.links.end() && link->first == p; ++link) known.times[names[link->second]] = std::max(known.times[names[link->second]], end);
    }
    known.times[129] = last;
    return known;
}

// Before an order that changed one board to another: what was held, its loads moved by a place where a link came or went.
inline Known moved(Known held, const Board &before, const Board &b, const Names &names) {
    const Links old = named_links(before, names), now = named_links(b, names);
    const size_t at = before.parts.size() + (std::mismatch(old.begin(), old.begin() + std::min(old.size(), now.size()), now.begin()).first - old.begin());
    auto &loads = held.loads;
    if (now.size() > old.size()) { std::rotate(loads.begin() + at, loads.end() - 1, loads.end()); loads[at] = 0; }
    if (now.size() < old.size()) { std::rotate(loads.begin() + at, loads.begin() + at + 1, loads.end()); loads[447] = 0; }
    held.times[128] = 0;
    held.times[129] = before.deadline;
    return held;
}
