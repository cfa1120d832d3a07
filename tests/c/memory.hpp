// What a call is asked and what it is lent, and which number each call can give: the words that the model and the tests share.
#pragma once

#include <cstddef>
#include <cstdint>
#include <vector>

#include "flailreeve.h"

namespace model {

enum Call { setup, check, length, push_back, push_front, pop_back, pop_front, read_forward, read_backward, clear,
            quick_push_back, quick_push_front, quick_pop_back, quick_pop_front };
constexpr int calls = 14;
constexpr int numbers = 18;
constexpr int first_rule = 9, last_rule = 16;  // these numbers say which rule of a sound pool is broken
constexpr int quick_rest = 17;                 // and this one that a quick call met what no sound pool has
constexpr std::size_t book_words = 43;
static_assert(sizeof(flailreeve_book) == 2 * book_words, "a test goes over every word of the book");
constexpr const char *names[calls] = {"setup",           "check",            "length",         "push back",     "push front",
                                      "pop back",        "pop front",        "read forward",   "read backward", "clear",
                                      "quick push back", "quick push front", "quick pop back", "quick pop front"};

// The table of 01 with the numbers of 02 b), c) and d): which number each call can give. No call gives 3.
constexpr bool table[calls][numbers] = {
    // 0  1  2  3  4  5  6  7  8  9 10 11 12 13 14 15 16 17
    {1, 1, 1, 0, 0, 0, 0, 0, 0, 0, 0, 0, 0, 0, 0, 0, 0, 0},  // setup
    {1, 1, 0, 0, 0, 0, 0, 0, 0, 1, 1, 1, 1, 1, 1, 1, 1, 0},  // check
    {1, 1, 0, 0, 1, 0, 0, 0, 0, 1, 1, 1, 1, 1, 1, 1, 1, 0},  // length
    {1, 1, 0, 0, 1, 0, 1, 1, 0, 1, 1, 1, 1, 1, 1, 1, 1, 0},  // push back
    {1, 1, 0, 0, 1, 0, 1, 1, 0, 1, 1, 1, 1, 1, 1, 1, 1, 0},  // push front
    {1, 1, 0, 0, 1, 1, 0, 0, 0, 1, 1, 1, 1, 1, 1, 1, 1, 0},  // pop back
    {1, 1, 0, 0, 1, 1, 0, 0, 0, 1, 1, 1, 1, 1, 1, 1, 1, 0},  // pop front
    {1, 1, 0, 0, 1, 0, 0, 0, 1, 1, 1, 1, 1, 1, 1, 1, 1, 0},  // read forward
    {1, 1, 0, 0, 1, 0, 0, 0, 1, 1, 1, 1, 1, 1, 1, 1, 1, 0},  // read backward
    {1, 1, 0, 0, 1, 0, 0, 0, 0, 1, 1, 1, 1, 1, 1, 1, 1, 0},  // clear
    {1, 1, 0, 0, 1, 0, 1, 1, 0, 0, 0, 0, 0, 0, 0, 0, 0, 1},  // quick push back
    {1, 1, 0, 0, 1, 0, 1, 1, 0, 0, 0, 0, 0, 0, 0, 0, 0, 1},  // quick push front
    {1, 1, 0, 0, 1, 1, 0, 0, 0, 0, 0, 0, 0, 0, 0, 0, 0, 1},  // quick pop back
    {1, 1, 0, 0, 1, 1, 0, 0, 0, 0, 0, 0, 0, 0, 0, 0, 0, 1},  // quick pop front
};

// The checked call that a quick one stands for, and the quick call of a push or a pop. Every other call is its own.
inline bool is_quick(Call call) { return call >= quick_push_back; }
inline Call checked(Call call) { return is_quick(call) ? static_cast<Call>(call - quick_push_back + push_back) : call; }
inline Call quick_of(Call call)
{
    return push_back <= call && call <= pop_front ? static_cast<Call>(call - push_back + quick_push_back) : call;
}

inline bool pushes(Call call) { return checked(call) == push_back || checked(call) == push_front; }
inline bool pops(Call call) { return checked(call) == pop_back || checked(call) == pop_front; }
inline bool reads(Call call) { return call == read_forward || call == read_backward; }
inline bool at_back(Call call) { return checked(call) == push_back || checked(call) == pop_back; }
inline bool has_place(Call call) { return call != setup && !is_quick(call); }

// What a call is asked, beside the memory that it is lent.
struct Ask {
    Call call = check;
    std::uint16_t list = 0;
    std::uint64_t value = 0;
    std::size_t at = 0;
    std::uint16_t lists = 0;
    std::uint16_t shares[8] = {};
    std::uint16_t limits[8] = {};
};

// All memory that a call is lent. `word` is where a length, a value or a count is written.
struct Memory {
    std::vector<std::uint16_t> links;
    std::vector<std::uint64_t> values;
    flailreeve_book book = {};
    std::vector<std::uint64_t> out;
    std::uint64_t word = 0;
    flailreeve_place place = {};
};

}  // namespace model
