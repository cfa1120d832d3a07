// Random numbers from a fixed seed, and random pools, books and calls made of them.
#pragma once

#include <algorithm>

#include "model.hpp"

class Dice {
public:
    explicit Dice(std::uint64_t seed) : state(seed) {}

    std::uint64_t word()
    {
        std::uint64_t z = (state += 0x9e3779b97f4a7c15u);
        z = (z ^ (z >> 30)) * 0xbf58476d1ce4e5b9u;
        z = (z ^ (z >> 27)) * 0x94d049bb133111ebu;
        return z ^ (z >> 31);
    }

    // A number from low to high.
    std::size_t from(std::size_t low, std::size_t high) { return low + word() % (high - low + 1); }
    bool one_in(std::size_t n) { return word() % n == 0; }
    std::uint16_t half(std::size_t low, std::size_t high) { return static_cast<std::uint16_t>(from(low, high)); }

    template <typename T, std::size_t n>
    T one_of(const T (&choices)[n])
    {
        return choices[word() % n];
    }

    // A value to store; 0 and all ones among them.
    std::uint64_t value()
    {
        return one_in(16) ? 0 : one_in(16) ? ~std::uint64_t{0} : word();
    }

private:
    std::uint64_t state;
};

namespace model {

// Shares and limits that keep the rules in a pool of n slots, for one to eight lists.
inline void random_rules(Dice &dice, std::size_t n, Ask &ask)
{
    std::size_t left = n - 1;
    bool tight = dice.one_in(2);
    ask.lists = dice.half(1, 8);
    for (unsigned k = 0; k < 8; k++)
        ask.shares[k] = ask.limits[k] = 0;
    for (unsigned k = 0; k < ask.lists; k++) {
        std::size_t most = tight ? left : left / (ask.lists - k);
        ask.shares[k] = dice.one_in(3) ? 0 : dice.half(0, most);
        left -= ask.shares[k];
        ask.limits[k] = dice.one_in(3) ? static_cast<std::uint16_t>(n - 1) : dice.half(ask.shares[k], n - 1);
    }
}

// A random sound pool: the slots in any order, dealt out to the lists as far as limits and shares allow.
inline Queues random_queues(Dice &dice, std::size_t n)
{
    Ask ask;
    Memory m;
    Queues q;
    random_rules(dice, n, ask);
    m.links.assign(n, 0);
    m.values.assign(n, 0);
    set_up(ask, m, q);
    for (std::size_t i = q.free.size(); i > 1; i--)
        std::swap(q.free[i - 1], q.free[dice.from(0, i - 1)]);
    std::size_t tries = dice.one_in(4) ? 2 * n : dice.from(0, n);
    for (std::size_t i = 0; i < tries; i++) {
        ask.call = dice.one_in(2) ? push_back : push_front;
        ask.list = dice.half(0, q.list.size() - 1);
        ask.value = dice.value();
        push(ask, q);
    }
    return q;
}

// A list number; sometimes one that there is not.
inline std::uint16_t random_list(Dice &dice, std::size_t lists)
{
    const std::uint16_t strange[] = {static_cast<std::uint16_t>(lists), static_cast<std::uint16_t>(lists + 1), 8, 9, 255, 256,
                                     257, 32768, 65535};
    return dice.one_in(12) ? dice.one_of(strange) : dice.half(0, lists == 0 ? 0 : lists - 1);
}

// Where to read to, beside the buffer's end as often as before it, and some that would wrap.
inline std::size_t random_at(Dice &dice, std::size_t out, std::size_t length)
{
    const std::size_t all = ~std::size_t{0};
    const std::size_t choices[] = {0, out, out + 1, out + 2, out > length ? out - length : 0, out > length ? out - length + 1 : 1,
                                   dice.from(0, out), all, all - length + 1, all - dice.from(0, 8), all / 2 + 1,
                                   65536, 65536 + dice.from(0, out), static_cast<std::size_t>(std::uint64_t{1} << 32) + dice.from(0, out)};
    return dice.one_of(choices);
}

// A call on a pool whose longest list may have `length` elements; and a buffer for the reads.
inline Ask random_ask(Dice &dice, std::size_t lists, std::size_t length, Memory &m)
{
    static const Call common[] = {check, model::length, push_back, push_front, pop_back, pop_front, read_forward, read_backward, clear,
                                  quick_push_back, quick_push_front, quick_pop_back, quick_pop_front};
    Ask ask;
    ask.call = dice.one_of(common);
    ask.list = random_list(dice, lists);
    ask.value = dice.value();
    m.word = dice.word() | 1;
    m.out.resize(dice.one_in(3) ? length + dice.from(0, 3) : dice.from(0, length));
    for (std::uint64_t &cell : m.out)
        cell = dice.word();
    ask.at = random_at(dice, m.out.size(), length);
    return ask;
}

}  // namespace model
