// A pool that is broken by hand: what the tests of places and of counts share. They write down the number and the place that document
// 02's words give it, and so test the library, and the model too.
#pragma once

#include "ground.hpp"

class ByHand {
public:
    unsigned long pools = 0;

protected:
    model::Memory m;
    Ground ground;

    // Eight slots: list 0 is 3, 1, 6 and list 1 is 4; the free slots are 7, 2, 5. Shares 1 and 2, limits 5 and 4.
    void sound()
    {
        m = {};
        m.links = {0, 3 ^ 6, 5, 1, 0, 0, 1, 2};
        m.values = {0, 11, 0, 33, 44, 0, 66, 0};
        m.book.lists = 2;
        m.book.list[0] = {3, 6, 1, 5, 3};
        m.book.list[1] = {4, 4, 2, 4, 1};
        m.book.free_head = 7;
        m.book.free_count = 3;
        m.out.assign(8, 5);
    }

    // All nine calls give the number with the place, and then the pool is sound again. Some ask for a list that there is not, which is
    // seen later.
    void gives(std::uint16_t number, std::uint16_t list, std::uint16_t position)
    {
        for (int c = model::check; c <= model::clear; c++) {
            model::Ask ask;
            ask.call = static_cast<model::Call>(c);
            ask.list = c % 2 == 0 ? 0 : 9;
            one_gives(ask, number, list, position);
        }
        pools++;
        sound();
    }

    // The same on one list, with an `at` that a read may refuse.
    void gives_on(std::uint16_t asked, std::size_t at, std::uint16_t number, std::uint16_t list, std::uint16_t position)
    {
        for (int c = model::check; c <= model::clear; c++) {
            model::Ask ask;
            ask.call = static_cast<model::Call>(c);
            ask.list = asked;
            ask.at = at;
            one_gives(ask, number, list, position);
        }
        pools++;
        sound();
    }

    void gives_done()
    {
        model::Ask ask;
        if (ground.run(ask, m) != 0)
            fail("the model does not call a sound pool sound");
        sound();
    }

    // ---- the largest pool, 4,096 slots

    // So many lists, which may have every slot and have none; the free slots are 1, 2, .. 4095.
    void largest(std::uint16_t lists)
    {
        m.links.assign(4096, 0);
        m.values.assign(4096, 0);
        for (std::uint16_t slot = 1; slot < 4095; slot++)
            m.links[slot] = static_cast<std::uint16_t>(slot + 1);
        m.book = {};
        m.book.lists = lists;
        for (unsigned k = 0; k < lists; k++)
            m.book.list[k].limit = 4095;
        m.book.free_head = 1;
        m.book.free_count = 4095;
    }

    // The same, and list k has every slot, in the order of their numbers.
    void largest(std::uint16_t lists, unsigned k)
    {
        largest(lists);
        for (std::uint16_t slot = 1; slot < 4095; slot++)
            m.links[slot] = static_cast<std::uint16_t>((slot - 1) ^ (slot + 1));
        m.links[4095] = 4094;
        m.values.assign(4096, 7);
        m.values[0] = 0;
        m.book.list[k].head = 1;
        m.book.list[k].tail = 4095;
        m.book.list[k].length = 4095;
        m.book.free_head = 0;
        m.book.free_count = 0;
    }

private:
    void one_gives(const model::Ask &ask, std::uint16_t number, std::uint16_t list, std::uint16_t position)
    {
        model::Memory after = m;
        std::uint16_t said = model::answer(ask, after);
        if (said != number || after.place.list != list || after.place.position != position)
            fail("the model gives %u at %u, %u for %s, and by hand it is %u at %u, %u", said, after.place.list, after.place.position,
                 model::names[ask.call], number, list, position);
        ground.spot = static_cast<Spot>(ask.call % 3);
        ground.run(ask, m, ask.call % 4 == 1);
    }
};
