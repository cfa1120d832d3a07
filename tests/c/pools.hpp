// Document 01's own pools, with the cells that 01 writes down and the counts that 02 c) adds. They test the library, and the model too.
#pragma once

#include "ground.hpp"

class Pools {
public:
    void all()
    {
        marked();
        far_link();
        twice_visited();
        setup_sizes();
        setup_shares();
        reading_empty();
        limit_zero();
    }

private:
    model::Memory m;
    Ground ground;

    void fresh(std::size_t n)
    {
        m = {};
        m.links.assign(n, 0x5555);
        m.values.assign(n, 0x5555555555555555u);
    }

    // Makes a call, compared with the model as always; the number is the one that 01 says.
    void gives(std::uint16_t number, const model::Ask &ask, std::uint64_t word = 0)
    {
        model::Memory before = m;
        std::uint16_t got = model::answer(ask, m);
        ground.spot = static_cast<Spot>(made % 3);
        ground.run(ask, before);
        if (got != number)
            fail("the model gives %u for %s, document 01 says %u", got, model::names[ask.call], number);
        if (model::hands_out(ask.call) && m.word != word)
            fail("the model hands out %llu for %s", static_cast<unsigned long long>(m.word), model::names[ask.call]);
    }

    void set_up(std::uint16_t number, std::uint16_t lists, std::vector<std::uint16_t> shares, std::vector<std::uint16_t> limits)
    {
        model::Ask ask;
        ask.call = model::setup;
        ask.lists = lists;
        std::copy(shares.begin(), shares.end(), ask.shares);
        std::copy(limits.begin(), limits.end(), ask.limits);
        gives(number, ask);
    }

    void on(std::uint16_t number, model::Call call, std::uint16_t list, std::uint64_t value = 0, std::uint64_t word = 0)
    {
        model::Ask ask;
        ask.call = call;
        ask.list = list;
        ask.value = value;
        gives(number, ask, word);
    }

    void links_are(std::vector<std::uint16_t> want)
    {
        if (m.links != want)
            fail("the model's links are not those of document 01");
    }

    void word_is(std::uint16_t got, std::uint16_t want)
    {
        if (got != want)
            fail("a word of the model's book is %u, document 01 says %u", got, want);
    }

    // The stored lengths of lists 0 and 1 and the stored number of free slots.
    void counts_are(std::uint16_t zero, std::uint16_t one, std::uint16_t free)
    {
        if (m.book.list[0].length != zero || m.book.list[1].length != one || m.book.free_count != free)
            fail("the model's counts are %u, %u and %u, and by hand %u, %u and %u", m.book.list[0].length, m.book.list[1].length,
                 m.book.free_count, zero, one, free);
    }

    void place_is(std::uint16_t list, std::uint16_t position)
    {
        if (m.place.list != list || m.place.position != position)
            fail("the model's place is %u, %u, document 02 says %u, %u", m.place.list, m.place.position, list, position);
    }

    // P1 to P7, and P10 after P1.
    void marked()
    {
        using namespace model;
        fresh(6);
        set_up(0, 2, {2, 1}, {5, 3});
        links_are({0, 2, 3, 4, 5, 0});
        word_is(m.book.free_head, 1);
        counts_are(0, 0, 5);
        on(5, pop_back, 1);
        counts_are(0, 0, 5);
        on(0, push_back, 0, 20);
        counts_are(1, 0, 4);
        on(0, push_back, 0, 30);
        on(0, push_front, 0, 10);
        links_are({0, 1, 1, 1, 5, 0});
        word_is(m.book.list[0].head, 3);
        word_is(m.book.list[0].tail, 2);
        word_is(m.book.free_head, 4);
        counts_are(3, 0, 2);
        on(0, length, 0, 0, 3);
        on(0, push_back, 0, 40);
        links_are({0, 1, 5, 1, 2, 0});
        word_is(m.book.list[0].tail, 4);
        word_is(m.book.free_head, 5);
        counts_are(4, 0, 1);
        on(7, push_back, 0, 50);
        counts_are(4, 0, 1);
        on(0, push_back, 1, 60);
        counts_are(4, 1, 0);
        word_is(m.book.list[1].head, 5);
        word_is(m.book.free_head, 0);
        on(7, push_back, 1, 61);
        on(0, pop_front, 0, 0, 10);
        links_are({0, 2, 5, 0, 2, 0});
        word_is(m.book.list[0].head, 1);
        word_is(m.book.free_head, 3);
        counts_are(3, 1, 1);
        if (m.values[3] != 0)
            fail("the model's slot 3 still holds what was popped");
        on(0, push_back, 1, 61);
        word_is(m.links[3], 5);
        word_is(m.links[5], 3);
        counts_are(3, 2, 0);
        on(0, clear, 0);
        counts_are(0, 2, 3);
        on(0, clear, 0);
        counts_are(0, 2, 3);
        on(0, clear, 1);
        counts_are(0, 0, 5);
    }

    // P8: a live slot's link may be N or more. Its length is 3, and two slots are free.
    void far_link()
    {
        fresh(6);
        m.links = {0, 7, 5, 1, 1, 0};
        m.values = {0, 11, 0, 33, 44, 0};
        m.book.lists = 1;
        m.book.list[0] = {3, 4, 0, 5, 3};
        m.book.free_head = 2;
        m.book.free_count = 2;
        on(0, model::check, 0);
        on(0, model::length, 0, 0, 3);
        m.book.list[0].length = 2;
        on(16, model::check, 0);
        place_is(0, 0);
        m.book.list[0].length = 3;
        m.book.free_count = 3;
        on(16, model::check, 0);
        place_is(1, 0);
        m.values[5] = 1;
        on(14, model::check, 0);
        place_is(0, 5);
    }

    // P9: N-1 visits that end at the tail, and slot 3 belongs to nobody; whatever the counts are.
    void twice_visited()
    {
        fresh(4);
        m.links = {0, 2, 0, 0};
        m.values = {0, 0, 0, 0};
        m.book.lists = 1;
        for (std::uint16_t length : {0, 1, 2, 3, 4, 65535})
            for (std::uint16_t free : {0, 1, 2, 3, 4, 65535}) {
                m.book.list[0] = {1, 1, 0, 3, length};
                m.book.free_count = free;
                on(11, model::check, 0);
                place_is(0, 2);
            }
    }

    void setup_sizes()
    {
        const std::pair<std::size_t, std::uint16_t> cases[] = {{1, 1}, {2, 0}, {4096, 0}, {4097, 1}};
        for (const auto &one : cases) {
            fresh(one.first);
            set_up(one.second, 1, {1}, {1});
        }
    }

    void setup_shares()
    {
        fresh(6);
        set_up(0, 2, {2, 3}, {5, 3});
        set_up(2, 2, {3, 3}, {5, 3});
    }

    void reading_empty()
    {
        fresh(6);
        set_up(0, 1, {0}, {5});
        m.out.assign(4, 7);
        for (model::Call call : {model::read_forward, model::read_backward}) {
            model::Ask ask;
            ask.call = call;
            ask.at = 4;
            gives(0, ask, 0);
            ask.at = 5;
            gives(8, ask, 0);
        }
    }

    void limit_zero()
    {
        fresh(6);
        set_up(0, 2, {0, 0}, {0, 5});
        on(6, model::push_back, 0, 1);
        on(6, model::push_front, 0, 1);
    }
};
