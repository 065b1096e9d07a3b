// What the crate `hosted` exports, and times.
#pragma once
#include <algorithm>
#include <chrono>
#include <cstddef>
#include <cstdint>

extern "C" {
// Loads the file so many times, and gives the total held, or 0 where it is refused.
uint64_t boddivarn_load(const uint8_t *file, size_t length, uint32_t times);
// Loads the file, makes the orders one after another until one takes no bytes, and gives the total held then.
uint64_t boddivarn_orders(const uint8_t *file, size_t length, const uint8_t *orders, size_t bytes);
// Loads the file once, solves its board so many times by the main loop, all advice refused, and gives the total.
uint64_t boddivarn_by_loop(const uint8_t *file, size_t length, uint32_t times);
// Advice on a network: loads to begin with, and then those advised; and the order in which arcs are best tried.
void boddivarn_advise(const uint32_t *net, uint32_t *loads, uint32_t *hint);
// What the advice for the next order begins with, after a file and orders: loads of 448 arcs, times of 130 nodes.
void boddivarn_known(const uint8_t *file, size_t length, const uint8_t *orders, size_t bytes, uint32_t *loads, uint32_t *times);
// Loads the file once, then asks so many times for the parts upstream of one.
uint64_t boddivarn_upstream(const uint8_t *file, size_t length, size_t part, uint32_t times);
// Loads the file and adds up the powers of a part at so many delays from 0 on; a delay off the curve counts 0.
uint64_t boddivarn_powers(const uint8_t *file, size_t length, size_t part, uint32_t delays);
}

// Microseconds, the best of three.
template <class Work> double best_of_three(Work work) {
    double best = 1e9;
    for (int k = 0; k < 3; k++) {
        const auto begin = std::chrono::steady_clock::now();
        work();
        best = std::min(best, std::chrono::duration<double, std::micro>(std::chrono::steady_clock::now() - begin).count());
    }
    return best;
}
