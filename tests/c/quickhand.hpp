// Quick calls on pools that are made by hand: a case on each side of every test, with the number that document 02 d)'s words give it. They
// test the library, and the reading of quick.hpp too.
#pragma once

#include "byhand.hpp"

class QuickByHand : private ByHand {
public:
    unsigned long cases = 0;

    void all()
    {
        steps();
        order();
        lists_and_counts();
        limits();
        lacks();
        pushed_slots();
        pushed_apart();
        empty_by_tail();
        pushed_counts();
        popped_slots();
        popped_counts();
        not_tested();
        largest_pool();
    }

private:
    static constexpr model::Call pb = model::quick_push_back, pf = model::quick_push_front;
    static constexpr model::Call ob = model::quick_pop_back, of = model::quick_pop_front;

    // The calls give the number, each on the pool as it stands; then it is sound again.
    void gives(std::uint16_t number, std::initializer_list<model::Call> calls, std::uint16_t list = 0)
    {
        for (model::Call call : calls) {
            model::Memory after = m;
            one(number, call, list, after);
        }
        sound();
    }

    void one(std::uint16_t number, model::Call call, std::uint16_t list, model::Memory &after)
    {
        model::Ask ask;
        ask.call = call;
        ask.list = list;
        ask.value = 0xabcdef0123456789u;
        m.word = after.word = 77;
        std::uint16_t said = model::answer(ask, after);
        if (said != number)
            fail("the reading gives %u for %s, and by hand it is %u (case %lu)", said, model::names[call], number, cases);
        ground.spot = static_cast<Spot>(cases % 3);
        ground.run(ask, m, after, number, cases % 2 == 0);
        cases++;
    }

    // One call on the sound pool, and what it leaves by hand: the links, the list's entry and the free record.
    void leaves(model::Call call, std::vector<std::uint16_t> links, flailreeve_list entry, std::uint16_t free_head,
                std::uint16_t free_count, std::uint64_t out)
    {
        model::Memory after = m;
        one(0, call, 0, after);
        const flailreeve_list &got = after.book.list[0];
        if (after.links != links || std::memcmp(&got, &entry, sizeof got) != 0 || after.book.free_head != free_head ||
            after.book.free_count != free_count || (model::pops(call) && after.word != out))
            fail("the reading of %s leaves something else than by hand", model::names[call]);
        sound();
    }

    // The sound pool: list 0 is 3, 1, 6 and list 1 is 4; the free slots are 7, 2, 5.
    void steps()
    {
        sound();
        leaves(pb, {0, 3 ^ 6, 5, 1, 0, 0, 1 ^ 7, 6}, {3, 7, 1, 5, 4}, 2, 2, 0);
        leaves(pf, {0, 3 ^ 6, 5, 1 ^ 7, 0, 0, 1, 3}, {7, 6, 1, 5, 4}, 2, 2, 0);
        leaves(ob, {0, 3, 5, 1, 0, 0, 7, 2}, {3, 1, 1, 5, 2}, 6, 4, 66);
        leaves(of, {0, 6, 5, 7, 0, 0, 1, 2}, {1, 6, 1, 5, 2}, 3, 4, 33);
        m.book.list[0].tail = 0;
        leaves(pf, {0, 3 ^ 6, 5, 1, 0, 0, 1, 0}, {7, 7, 1, 5, 4}, 2, 2, 0);
        m.links[3] = 0;
        leaves(of, {0, 3 ^ 6, 5, 7, 0, 0, 1, 2}, {0, 0, 1, 5, 2}, 3, 4, 33);
        gives(0, {pb, pf, ob, of}, 1);
    }

    // 1, then L, then 4, then the counts, then 5 to 7, then the rest.
    void order()
    {
        m.book.lists = 0;
        m.values.push_back(0);
        gives(1, {pb, pf, ob, of});
        m.book.lists = 9;
        gives(17, {pb, pf, ob, of}, 9);
        m.book.lists = 0;
        gives(17, {pb, pf, ob, of}, 65535);
        m.book.list[0].length = 8;
        gives(4, {pb, pf, ob, of}, 2);
        m.book.free_count = 8;
        gives(4, {pb, pf, ob, of}, 65535);
        m.book.list[0].length = m.book.list[0].limit = 8;
        gives(17, {pb, pf});
        m.book.list[0].length = m.book.list[0].limit = 7;
        gives(6, {pb, pf});
        m.book.list[0].length = 0;
        m.book.free_count = 8;
        gives(17, {ob, of});
        m.book.list[0].length = 0;
        m.book.list[0].head = m.book.list[0].tail = 9;
        m.book.free_count = 7;
        gives(5, {ob, of});
        m.book.list[0].limit = 3;
        m.book.free_head = 0;
        m.book.free_count = 0;
        gives(6, {pb, pf});
        m.book.free_head = 0;
        m.book.free_count = 0;
        gives(7, {pb, pf});
        m.book.list[0].tail = m.book.list[0].head = 9;
        m.book.free_count = 1;
        gives(7, {pb, pf});
    }

    void lists_and_counts()
    {
        for (std::uint16_t lists : {0, 9, 10, 255, 256, 257, 264, 32769, 65535}) {
            m.book.lists = lists;
            gives(17, {pb, pf, ob, of});
        }
        for (std::uint16_t lists : {1, 2, 3, 8}) {
            m.book.lists = lists;
            gives(0, {pb, pf, ob, of});
        }
        for (std::uint16_t count : {8, 9, 256, 263, 32768, 32771, 65535}) {
            m.book.list[0].length = count;
            gives(17, {pb, pf, ob, of});
            m.book.list[1].length = count;
            gives(17, {pb, pf, ob, of});
            m.book.list[2].length = count;  // no list: it is not looked at
            gives(0, {pb, pf, ob, of});
            m.book.lists = 8;
            m.book.list[7].length = count;
            gives(17, {pb, pf, ob, of});
            m.book.free_count = count;
            gives(17, {pb, pf, ob, of});
        }
        m.book.list[1].length = 7;
        gives(0, {pb, pf, ob, of});
        m.book.list[0].length = 7;
        gives(0, {ob, of});
        m.book.free_count = 7;
        gives(0, {pb, pf});
    }

    // 6 is equality: a list over its limit gets neither 6 nor 7. List 1 lacks one slot.
    void limits()
    {
        m.book.list[0].limit = 3;
        gives(6, {pb, pf});
        m.book.list[0].limit = 2;
        gives(0, {pb, pf});
        m.book.list[0].limit = 0;
        gives(0, {pb, pf});
        m.book.list[0].limit = 65535;
        gives(0, {pb, pf});
        m.book.list[0].limit = 2;
        m.book.free_count = 1;
        gives(0, {pb, pf});
        m.book.free_count = 1;
        gives(7, {pb, pf});
        m.book.free_count = 2;
        gives(0, {pb, pf});
        m.book.free_count = 1;
        m.book.list[0].share = 3;
        gives(7, {pb, pf});
        m.book.free_count = 1;
        m.book.list[0].share = 4;
        gives(0, {pb, pf});
    }

    // What is lacked is added up without wrapping, and by the stored lengths of the lists that there are.
    void lacks()
    {
        m.book.list[1].share = 3;
        gives(0, {pb, pf});
        m.book.list[1].share = 4;
        gives(7, {pb, pf});
        m.book.list[1].share = 65535;
        gives(7, {pb, pf});
        m.book.list[1].share = 4;
        m.book.list[1].length = 2;
        gives(0, {pb, pf});
        for (std::uint16_t rest : {0, 1, 2, 3, 32767}) {
            m.book.lists = 3;
            m.book.list[1].share = 32769;
            m.book.list[2].share = static_cast<std::uint16_t>(32768 + rest);
            gives(7, {pb, pf});
        }
        m.book.lists = 8;
        for (unsigned k = 1; k < 8; k++)
            m.book.list[k] = {0, 0, 65535, 0, 0};
        gives(7, {pb, pf});
        // Six times 8,192 and once 16,384 are 65,536, which is 0 in 16 bits.
        m.book.lists = 8;
        for (unsigned k = 1; k < 8; k++)
            m.book.list[k] = {0, 0, 8192, 0, 0};
        m.book.list[7].share = 16384;
        gives(7, {pb, pf});
        m.book.list[2].share = 65535;  // no list
        gives(0, {pb, pf});
        m.book.list[1].share = 0;  // more than its share is no lack below 0
        m.book.list[1].length = 7;
        m.book.lists = 3;
        m.book.list[2].share = 3;
        gives(7, {pb, pf});
    }

    void pushed_slots()
    {
        for (std::uint16_t slot : {0, 8, 9, 255, 256, 263, 4096, 32769, 65535}) {
            m.book.free_head = slot;
            gives(17, {pb, pf});
            m.book.free_head = slot;
            m.book.list[0].tail = 0;
            gives(17, {pb, pf});
            m.book.list[0].head = slot;
            gives(17, {pf});
            m.book.list[0].head = slot;
            gives(0, {pb});
            m.book.list[0].tail = slot;
            gives(slot == 0 ? 0 : 17, {pb});
            m.book.list[0].tail = slot;
            gives(0, {pf});
            m.links[7] = slot;  // it is copied and not tested
            gives(0, {pb, pf});
        }
    }

    // The free head and the end may be any two slots, and not one slot twice.
    void pushed_apart()
    {
        for (std::uint16_t slot : {1, 2, 4, 5}) {
            m.book.free_head = slot;
            gives(0, {pb, pf});
            m.book.list[0].head = m.book.list[0].tail = slot;
            gives(0, {pb, pf});
        }
        m.book.free_head = 6;
        gives(17, {pb});
        m.book.free_head = 6;
        gives(0, {pf});
        m.book.free_head = 3;
        gives(17, {pf});
        m.book.free_head = 3;
        gives(0, {pb});
        m.book.list[0].tail = 7;
        gives(17, {pb});
        m.book.list[0].head = 7;
        gives(17, {pf});
    }

    // The tail alone decides, whatever head and length are.
    void empty_by_tail()
    {
        for (std::uint16_t head : {0, 3, 7, 8, 65535}) {
            m.book.list[0].tail = 0;
            m.book.list[0].head = head;
            gives(0, {pb, pf});
        }
        m.book.list[0].length = 0;  // the chain stands, and the length says that there is none
        gives(0, {pb, pf});
        m.book.list[0] = {0, 0, 1, 5, 3};
        gives(0, {pb, pf});
    }

    // A push may make the length N-1 and the free count 0, and no more.
    void pushed_counts()
    {
        m.book.list[0].length = 6;
        gives(0, {pb, pf});
        m.book.list[0].length = 7;
        gives(17, {pb, pf});
        m.book.list[0].length = 7;
        m.book.list[0].tail = 0;
        gives(17, {pb, pf});
        m.book.free_count = 1;
        m.book.list[0].share = 4;
        gives(0, {pb, pf});
        m.book.free_count = 0;
        m.book.list[0].share = 4;
        gives(17, {pb, pf});
        m.book.free_count = 0;
        m.book.list[0].limit = 2;
        gives(17, {pb, pf});
    }

    void popped_slots()
    {
        for (std::uint16_t slot : {0, 8, 9, 255, 256, 263, 4096, 32769, 65535}) {
            m.book.list[0].tail = slot;
            gives(17, {ob});
            m.book.list[0].tail = slot;
            gives(0, {of});
            m.book.list[0].head = slot;
            gives(17, {of});
            m.book.list[0].head = slot;
            gives(0, {ob});
            m.links[6] = slot;
            gives(slot == 0 ? 0 : 17, {ob});
            m.links[3] = slot;
            gives(slot == 0 ? 0 : 17, {of});
            m.book.free_head = slot;  // it is copied and not tested
            gives(0, {ob, of});
            m.links[1] = slot;  // the neighbour's link is changed and not tested
            gives(0, {ob, of});
        }
        for (std::uint16_t slot : {1, 2, 4, 5, 7}) {
            m.links[6] = m.links[3] = slot;
            gives(0, {ob, of});
        }
        m.links[6] = 6;
        m.links[3] = 3;
        gives(17, {ob, of});
        m.links[6] = 3;
        m.links[3] = 6;
        gives(0, {ob, of});
        m.book.free_head = 6;  // the free head may be the slot that is popped
        gives(0, {ob, of});
    }

    // A pop may make the free count N-1 and no more; a length of 0 is 5, whatever the chain is.
    void popped_counts()
    {
        m.book.free_count = 6;
        gives(0, {ob, of});
        m.book.free_count = 7;
        gives(17, {ob, of});
        m.book.list[0].length = 1;
        gives(0, {ob, of});
        m.book.list[0].length = 0;
        gives(5, {ob, of});
        m.book.list[0].head = m.book.list[0].tail = 0;
        gives(17, {ob, of});
    }

    void not_tested()
    {
        m.links[0] = 9;
        m.values[0] = 9;
        gives(0, {pb, pf, ob, of});
        m.values[7] = 5;
        gives(0, {pb, pf, ob, of});
        m.values[6] = m.values[3] = 0;
        gives(0, {pb, pf, ob, of});
        for (unsigned k = 2; k < 8; k++)
            m.book.list[k] = {65535, 65535, 65535, 65535, 65535};
        gives(0, {pb, pf, ob, of});
        m.book.list[0].share = 65535;
        gives(0, {pb, pf, ob, of});
        m.book.list[1].limit = 65535;
        gives(0, {pb, pf, ob, of});
        m.book.list[1].head = m.book.list[1].tail = 65535;
        gives(0, {pb, pf, ob, of});
        m.book.list[1] = m.book.list[0];  // two lists have the same slots
        gives(0, {pb, pf, ob, of});
    }

    // Slot 4,095 is the last, and 4,095 the highest count.
    void largest_pool()
    {
        largest(2, 1);
        gives(7, {pb, pf}, 0);
        largest(2, 1);
        gives(6, {pb, pf}, 1);
        largest(2, 1);
        gives(0, {ob, of}, 1);
        largest(2);
        m.book.free_head = 4095;
        gives(0, {pb, pf});
        largest(2);
        m.book.free_head = 4096;
        gives(17, {pb, pf});
        largest(2);
        m.book.free_count = 4096;
        gives(17, {pb, pf, ob, of});
        largest(2);
        m.book.list[1].length = 4096;
        gives(17, {pb, pf, ob, of});
    }
};
