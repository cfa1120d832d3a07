// Damaged pools: every word and value in turn, several words at once, the stored counts, and each rule broken by itself and with each
// other, in pools of every size. The model says by the definition which rule is broken first and where.
#pragma once

#include "ground.hpp"
#include "harm.hpp"

inline std::size_t longest(const model::Queues &q)
{
    std::size_t most = 0;
    for (const auto &list : q.list)
        most = std::max(most, list.size());
    return most;
}

// One word of the memory, in the order links, book.
inline std::uint16_t *word_of(model::Memory &m, std::size_t at)
{
    std::uint16_t *book = reinterpret_cast<std::uint16_t *>(&m.book);
    return at < m.links.size() ? &m.links[at] : book + (at - m.links.size());
}

class Damage {
public:
    Damage(Ground &lent, std::uint64_t seed) : ground(lent), dice(seed) {}

    void all()
    {
        no_list();
        for (std::size_t n = 2; n <= 64; n++)
            rules(n, n < 10 ? 24 : 2);
        for (std::size_t n : {65, 127, 128, 255, 256, 257, 511, 1000, 1024, 1025, 2048, 4095, 4096})
            rules(n, n < 1000 ? 3 : 2);
        for (unsigned i = 0; i < 120; i++) {
            sound_pool(dice.from(2, 9));
            each_word();
            some_words(40);
        }
        for (std::size_t n : {17, 33, 64}) {
            sound_pool(n);
            each_word();
        }
        for (std::size_t n : {2, 2, 3, 3, 4, 5, 6, 7, 8, 9, 17, 64, 65, 255, 256, 257, 258, 1024, 4095, 4096}) {
            sound_pool(n);
            each_count();
        }
        for (unsigned i = 0; i < 40; i++) {
            sound_pool(i % 10 == 0 ? dice.from(1000, 4096) : dice.from(100, 400));
            some_words(3);
        }
    }

    void say() const { std::printf("  %lu damages, %lu of them to an unsound pool, %lu by two rules at once\n", touched, unsound, pairs); }

private:
    Ground &ground;
    Dice dice;
    model::Queues q;
    model::Memory m;
    unsigned long touched = 0, unsound = 0, pairs = 0;

    void sound_pool(std::size_t n)
    {
        q = model::random_queues(dice, n);
        model::write_down(q, m);
    }

    // Some calls on a pool in which something was changed.
    void after()
    {
        model::Ask ask;
        ask.call = model::check;
        ground.spot = static_cast<Spot>(touched % 3);
        unsound += ground.run(ask, m, touched % 8 == 0) != 0;
        ask = model::random_ask(dice, m.book.lists, std::min<std::size_t>(longest(q), 4096), m);
        ground.run(ask, m, touched % 8 == 1);
        touched++;
    }

    // Every word and value of a pool is changed in turn: each of its bits by itself, and words to neighbouring, far and random
    // numbers.
    void each_word()
    {
        std::size_t n = m.links.size(), last = n + model::book_words - 1;
        for (std::size_t at = 0; at < n + model::book_words; at++) {
            std::uint16_t *word = word_of(m, at);
            std::uint16_t kept = *word;
            const std::uint16_t choices[] = {0, 1, static_cast<std::uint16_t>(n - 1), static_cast<std::uint16_t>(n),
                                             static_cast<std::uint16_t>(kept ^ 1), static_cast<std::uint16_t>(kept + 1),
                                             static_cast<std::uint16_t>(kept - 1), static_cast<std::uint16_t>(kept | 32768),
                                             dice.half(0, n), dice.half(0, 65535), *word_of(m, dice.from(0, last))};
            for (std::uint16_t other : choices)
                if (other != kept) {
                    *word = other;
                    after();
                }
            for (unsigned bit = 0; bit < 16; bit++) {
                *word = static_cast<std::uint16_t>(kept ^ (1u << bit));
                after();
            }
            *word = kept;
        }
        for (std::size_t slot = 0; slot < n; slot++) {
            std::uint64_t kept = m.values[slot];
            for (unsigned bit = 0; bit < 64; bit++) {
                m.values[slot] = kept ^ (std::uint64_t{1} << bit);
                after();
            }
            m.values[slot] = kept;
        }
    }

    // Two to four words at once, mostly set to slots: chains that cross, loop and end in the wrong place.
    void some_words(unsigned times)
    {
        const model::Memory whole = m;
        std::size_t n = m.links.size(), last = n + model::book_words - 1;
        for (unsigned i = 0; i < times; i++) {
            m = whole;
            for (std::size_t left = dice.from(2, 4); left > 0; left--) {
                std::uint16_t *word = word_of(m, dice.from(0, last));
                *word = dice.one_in(2) ? *word_of(m, dice.from(0, last)) : dice.half(0, n);
            }
            after();
        }
    }

    // The stored counts: each one higher or lower by one and in each of its bits, each two exchanged, and one higher and another lower so
    // that their sum stays what it was.
    void each_count()
    {
        const flailreeve_book kept = m.book;
        std::vector<std::uint16_t *> counts = {&m.book.free_count};
        for (std::size_t k = 0; k < kept.lists; k++)
            counts.push_back(&m.book.list[k].length);
        auto then = [&] {
            after();
            m.book = kept;
        };
        for (std::uint16_t *one : counts) {
            for (unsigned bit = 0; bit < 16; bit++) {
                *one = static_cast<std::uint16_t>(*one ^ 1u << bit);
                then();
            }
            ++*one;
            then();
            --*one;
            then();
            for (std::uint16_t *other : counts) {
                std::swap(*one, *other);
                then();
                ++*one;
                --*other;
                then();
            }
        }
    }

    // A pool with one empty list that may have nothing, and then with no list: all else is as a sound pool has it.
    void no_list()
    {
        for (std::size_t n = 2; n < 9; n++) {
            model::Ask ask;
            ask.call = model::setup;
            ask.lists = 1;
            m.links.assign(n, 0);
            m.values.assign(n, 0);
            model::set_up(ask, m, q);
            model::write_down(q, m);
            m.book.lists = 0;
            after();
        }
    }

    // Each rule is broken by itself and together with each other one. Where a pool has no slot to break it with, another is taken. A
    // pool of two slots has one slot: it is free and not wiped, or in a list that is over its limit, and not both.
    void rules(std::size_t n, unsigned times)
    {
        for (unsigned one = model::first_rule; one <= model::last_rule; one++)
            for (unsigned other = one; other <= model::last_rule; other++)
                for (unsigned left = other == one ? 4 * times : times; left > 0 && !(n == 2 && one == 14 && other == 15); left--) {
                    do
                        sound_pool(n);
                    while (!model::Harm(dice, q, m).breaks(other) || (other != one && !model::Harm(dice, q, m).breaks(one)));
                    pairs += other != one;
                    after();
                }
    }
};
