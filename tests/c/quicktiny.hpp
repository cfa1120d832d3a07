// Every tiny pool through the quick calls: 2, 3 and 4 slots, every choice of small numbers for the links and for the words of the book
// that a quick call may look at, both ends, push and pop. Each call is held against the reading of quick.hpp: the number, the value, every
// cell, every word of the book, and the guard words around all of them.
#pragma once

#include "ground.hpp"
#include "reasons.hpp"

class QuickTiny {
public:
    unsigned long pools = 0;

    // All pools of so many slots and lists, in which `list` is asked for. Of every so many, one is taken, so that the larger products end
    // soon; 1 takes all.
    void all(std::size_t slots, std::uint16_t lists, std::uint16_t list, unsigned every)
    {
        n = slots;
        ask.list = list;
        lay_out(lists);
        choose(lists);
        m.links.assign(n, 0);
        m.values.assign(n, 0);
        for (std::size_t i = 0; i < digits.size(); i++)
            *digits[i].word = digits[i].choices[0];
        std::vector<std::size_t> at(digits.size(), 0);
        for (unsigned long count = 0;; count++) {
            std::size_t i = 0;
            if (count % every == 0)
                one();
            while (i < digits.size() && ++at[i] == digits[i].choices.size())
                at[i++] = 0;
            if (i == digits.size())
                return;
            for (std::size_t k = 0; k <= i; k++)
                *digits[k].word = digits[k].choices[at[k]];
        }
    }

private:
    // What a call is lent, with guard words between the parts.
    struct Small {
        std::uint64_t guard0;
        std::uint64_t values[4];
        std::uint64_t guard1;
        std::uint16_t links[4];
        std::uint64_t guard2;
        flailreeve_book book;
        std::uint16_t guard3[5];
        std::uint64_t value;
        std::uint64_t guard4;
    };

    // A word of the pool or the book, and what it is set to.
    struct Digit {
        std::uint16_t *word;
        std::vector<std::uint16_t> choices;
    };

    std::size_t n = 0;
    model::Ask ask;
    model::Memory m;
    Small small = {};
    std::vector<Digit> digits;

    // Values that are all different, in slot 0 too. What no quick call may look at holds words that would show if it did.
    void lay_out(std::uint16_t lists)
    {
        std::memset(&small, 0xd6, sizeof small);
        for (std::size_t slot = 0; slot < n; slot++)
            small.values[slot] = 0x1111111100000000u * (slot + 1) + slot;
        small.book.lists = lists;
        for (unsigned k = 0; k < 2; k++)
            small.book.list[k] = {0, 0, 0, static_cast<std::uint16_t>(n - 1), 0};
    }

    // From the word that decides least to the one that decides most. Of pools of four slots the shares and limits are some.
    void choose(std::uint16_t lists)
    {
        const std::uint16_t top = static_cast<std::uint16_t>(n - 1), over = static_cast<std::uint16_t>(n);
        std::vector<std::uint16_t> all, some = {0, 1, over};
        for (std::uint16_t number = 0; number <= n; number++)
            all.push_back(number);
        unsigned asked = ask.list == 1, other = !asked;
        flailreeve_list &entry = small.book.list[asked], &beside = small.book.list[other];
        digits.clear();
        for (std::size_t slot = 1; slot < n; slot++)
            digits.push_back({&small.links[slot], all});
        digits.push_back({&entry.head, all});
        digits.push_back({&entry.tail, all});
        digits.push_back({&small.book.free_head, all});
        digits.push_back({&small.book.free_count, all});
        digits.push_back({&entry.length, all});
        digits.push_back({&entry.limit, n < 4 ? all : std::vector<std::uint16_t>{0, 2, top, over}});
        digits.push_back({&entry.share, n < 4 ? all : some});
        if (lists == 2) {
            digits.push_back({&beside.length, {0, top, over}});
            digits.push_back({&beside.share, some});
        }
    }

    // Slot 0's link and the words behind the links are other numbers each time, most of them slots, so that a call that takes one for a
    // link goes on.
    void beside_the_slots()
    {
        small.links[0] = static_cast<std::uint16_t>(pools % (n + 1));
        for (std::size_t slot = n; slot < 4; slot++)
            small.links[slot] = static_cast<std::uint16_t>(pools / 5 % (n + 1));
        small.guard2 = pools / 5 % (n + 1);
    }

    void one()
    {
        pools++;
        beside_the_slots();
        for (model::Call call : {model::quick_push_back, model::quick_push_front, model::quick_pop_back, model::quick_pop_front}) {
            ask.call = call;
            ask.value = 0xabcdef0123456789u;
            small.value = 0x7777777777777777u;
            std::copy(small.links, small.links + n, m.links.begin());
            std::copy(small.values, small.values + n, m.values.begin());
            m.book = small.book;
            m.word = small.value;
            unsigned why = 0;
            std::uint16_t number = quick::answer(ask, m, &why);
            Small want = small, got = small;
            std::copy(m.links.begin(), m.links.end(), want.links);
            std::copy(m.values.begin(), m.values.end(), want.values);
            want.book = m.book;
            want.value = m.word;
            std::uint16_t given = make(got);
            made++;
            reached[call][given < model::numbers ? given : 0]++;
            reasons::note(call, number, why);
            if (given != number)
                fail("%s gave %u for a pool of %zu slots, the reading says %u", model::names[call], given, n, number);
            if (std::memcmp(&got, &want, sizeof got) != 0)
                fail("%s gave %u for a pool of %zu slots and left another cell, word or guard word than the reading", model::names[call],
                     given, n);
        }
    }

    std::uint16_t make(Small &on) const
    {
        switch (ask.call) {
        case model::quick_push_back:
            return flailreeve_quick_push_back(on.links, n, on.values, n, &on.book, ask.list, ask.value);
        case model::quick_push_front:
            return flailreeve_quick_push_front(on.links, n, on.values, n, &on.book, ask.list, ask.value);
        case model::quick_pop_back:
            return flailreeve_quick_pop_back(on.links, n, on.values, n, &on.book, ask.list, &on.value);
        default:
            return flailreeve_quick_pop_front(on.links, n, on.values, n, &on.book, ask.list, &on.value);
        }
    }
};
