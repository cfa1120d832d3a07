// Pools that are broken by hand, each with the number from 9 to 15 and the place that document 02 b)'s words give it.
#pragma once

#include "byhand.hpp"

class Places : private ByHand {
public:
    using ByHand::pools;

    void all()
    {
        book();
        null_slot();
        lists();
        two_lists();
        free_chain();
        slots();
        limits();
        order();
        later_lists();
        later_rules();
        uncovered();
        largest_list();
        largest_free_chain();
        largest_lists();
    }

private:
    void book()
    {
        sound();
        for (std::uint16_t lists : {0, 9, 256 + 2, 65535}) {
            m.book.lists = lists;
            gives(9, 0, 0);
        }
        m.book.lists = 1;  // list 1 is no longer one of them, and its entry is not 0
        gives(9, 0, 0);
        m.book.list[0].limit = 8;
        gives(9, 0, 0);
        m.book.list[1].share = 5;
        gives(9, 0, 0);
        m.book.list[0] = {3, 6, 4, 5, 3};  // 4 and 4 are 8
        m.book.list[1] = {4, 4, 4, 4, 1};
        gives(9, 0, 0);
        for (unsigned k = 2; k < 8; k++)
            for (unsigned word = 0; word < 5; word++) {
                flailreeve_list &entry = m.book.list[k];
                std::uint16_t *const words[] = {&entry.head, &entry.tail, &entry.share, &entry.limit, &entry.length};
                *words[word] = 1;
                gives(9, 0, 0);
            }
    }

    void null_slot()
    {
        m.links[0] = 1;
        gives(10, 0, 0);
        m.values[0] = std::uint64_t{1} << 63;
        gives(10, 0, 0);
    }

    void lists()
    {
        m.book.list[0].head = 8;  // outside the pool at once
        gives(11, 0, 0);
        m.links[3] = 9;
        gives(11, 0, 1);
        m.links[6] = 1 ^ 8;  // after the last
        gives(11, 0, 3);
        m.links[6] = 1 ^ 3;  // back to the first
        gives(11, 0, 3);
        m.links[3] = 3;  // to itself
        gives(11, 0, 1);
        m.links[1] = 3;  // the chain ends too early, and 1 is not the tail
        gives(11, 0, 2);
        m.book.list[0].tail = 1;  // the walk goes on past the tail, to 0
        gives(11, 0, 3);
        m.book.list[0].tail = 0;
        gives(11, 0, 3);
        m.book.list[0].head = 6;  // the whole list, the other way round
        gives(11, 0, 3);
        m.book.list[0].head = 0;  // no slot, and a tail
        gives(11, 0, 0);
        m.book.list[1].head = 0;
        gives(11, 1, 0);
        m.book.list[1].tail = 5;
        gives(11, 1, 1);
    }

    void two_lists()
    {
        m.book.list[1].head = 1;  // list 0's: the later list is to blame
        gives(11, 1, 0);
        m.book.list[0] = {4, 4, 1, 5, 3};  // list 0 has list 1's slot, and it is list 0's ends that were written over
        gives(11, 1, 0);
        m.links[4] = 6;  // list 1 goes on into list 0
        gives(11, 1, 1);
        m.links[6] = 1 ^ 4;  // list 0 goes on into list 1, which is not walked yet: to 4, then 6 again
        gives(11, 0, 4);
        m.book.list[0].tail = 3;  // the tail of list 0 comes before list 1's slots
        m.book.list[1].head = 1;
        gives(11, 0, 3);
        m.links[3] = 2;  // list 0 goes into the free slots: 3, 2, then 5 XOR 3
        gives(11, 0, 3);
        m.book.lists = 8;  // the last list of eight
        m.book.list[7].tail = 2;
        gives(11, 7, 0);
    }

    void free_chain()
    {
        m.book.free_head = 8;
        gives(12, 0, 0);
        m.book.free_head = 4;  // list 1's
        gives(12, 0, 0);
        m.links[7] = 6;  // list 0's last
        gives(12, 0, 1);
        m.links[5] = 7;  // round
        gives(12, 0, 3);
        m.links[2] = 2;
        gives(12, 0, 2);
        m.links[5] = 65535;
        gives(12, 0, 3);
    }

    void slots()
    {
        m.book.free_head = 0;  // 2, 5 and 7 are in no chain
        gives(13, 0, 2);
        m.links[7] = 5;
        gives(13, 0, 2);
        m.links[2] = 0;
        gives(13, 0, 5);
        m.book.free_head = 2;
        gives(13, 0, 7);
        m.values[7] = 1;
        gives(14, 0, 7);
        m.values[7] = m.values[5] = m.values[2] = 1;  // along the chain 7 is the first
        gives(14, 0, 2);
        m.values[7] = m.values[5] = std::uint64_t{1} << 63;
        gives(14, 0, 5);
    }

    void limits()
    {
        m.book.list[0].limit = 2;
        gives(15, 0, 0);
        m.book.list[1] = {4, 4, 0, 0, 1};
        gives(15, 1, 0);
        m.book.list[0].limit = 1;
        m.book.list[1] = {4, 4, 0, 0, 1};
        gives(15, 0, 0);
        m.book.list[1] = {4, 4, 5, 5, 1};  // it lacks 4, and three slots are free
        gives(15, 2, 0);
        m.book.list[0].limit = 2;  // and list 0 is over its limit too
        m.book.list[1] = {4, 4, 5, 5, 1};
        gives(15, 0, 0);
        m.book.lists = 8;  // six more that have nothing and may have nothing
        m.book.list[1] = {4, 4, 5, 5, 1};
        gives(15, 8, 0);
        m.book.list[1] = {4, 4, 4, 4, 1};  // it lacks 3: covered
        gives_done();
    }

    // Two rules at once: the first is named.
    void order()
    {
        gives_done();
        m.book.list[0].limit = 8;
        m.links[0] = 1;
        gives(9, 0, 0);
        m.values[0] = 1;
        m.book.list[0].head = 8;
        gives(10, 0, 0);
        m.book.list[1].head = 8;
        m.book.free_head = 8;
        gives(11, 1, 0);
        m.links[7] = 8;  // 2 and 5 are lost too
        gives(12, 0, 1);
        m.links[7] = 0;
        m.values[7] = m.values[2] = 1;
        gives(13, 0, 2);
        m.values[2] = 1;
        m.book.list[0].limit = 1;
        gives(14, 0, 2);
    }

    // Lists after list 0, and one that is over its limit before a broken one.
    void later_lists()
    {
        for (std::uint16_t slot : {8, 9, 65535}) {
            m.book.list[1].head = slot;
            gives(11, 1, 0);
            m.links[4] = slot;
            gives(11, 1, 1);
            m.book.lists = 8;
            m.book.list[7].head = slot;
            gives(11, 7, 0);
        }
        m.book.list[0].limit = 2;
        m.book.list[1].head = 8;
        gives(11, 1, 0);
        m.book.list[0].limit = 2;
        m.book.list[1].tail = 5;
        gives(11, 1, 1);
        m.book.list[0].limit = 2;
        m.links[4] = 6;  // list 0's last
        gives(11, 1, 1);
    }

    // More of two rules at once: 9 in each of its parts with slot 0; 12 and 13 with what comes after them.
    void later_rules()
    {
        for (bool link : {true, false}) {
            for (std::uint16_t lists : {0, 1, 9}) {
                m.book.lists = lists;
                null_slot_too(link);
            }
            m.book.list[1].limit = 8;
            null_slot_too(link);
            m.book.list[1].share = 5;
            null_slot_too(link);
            m.book.list[0] = {3, 6, 4, 5, 3};
            m.book.list[1] = {4, 4, 4, 4, 1};
            null_slot_too(link);
            m.book.list[7].limit = 1;
            null_slot_too(link);
            m.book.list[2].head = 1;
            null_slot_too(link);
        }
        m.values[7] = 1;  // the first free slot is not wiped
        m.links[2] = 8;
        gives(12, 0, 2);
        m.values[7] = 1;
        m.links[5] = 7;
        gives(12, 0, 3);
        for (bool over : {true, false}) {
            over_or_lacking(over);
            m.links[7] = 8;
            gives(12, 0, 1);
            over_or_lacking(over);
            m.links[5] = 7;
            gives(12, 0, 3);
            over_or_lacking(over);
            m.links[7] = 5;
            gives(13, 0, 2);
            over_or_lacking(over);
            m.links[2] = 0;
            gives(13, 0, 5);
        }
    }

    void null_slot_too(bool link)
    {
        if (link)
            m.links[0] = 1;
        else
            m.values[0] = 1;
        gives(9, 0, 0);
    }

    // List 0 is over its limit, or list 1 lacks 4 where three slots are free.
    void over_or_lacking(bool over)
    {
        if (over)
            m.book.list[0].limit = 2;
        else
            m.book.list[1] = {4, 4, 5, 5, 1};
    }

    // The shares are not covered, no list is over its limit, and the one free slot is not wiped; and then it is.
    void uncovered()
    {
        for (bool wiped : {false, true}) {
            m.links = {0, 0, 0};
            m.values = {0, 11, wiped ? 0u : 22u};
            m.book = {};
            m.book.lists = 2;
            m.book.list[0] = {1, 1, 0, 2, 1};
            m.book.list[1] = {0, 0, 2, 2, 0};
            m.book.free_head = 2;
            m.book.free_count = 1;
            if (wiped)
                gives(15, 2, 0);
            else
                gives(14, 0, 2);
        }
    }

    // ---- the largest pool, up to its last place

    void largest_list()
    {
        largest(1, 0);
        gives_done();
        for (std::uint16_t tail : {0, 1, 4094, 4096}) {
            largest(1, 0);
            m.book.list[0].tail = tail;
            gives(11, 0, 4095);
        }
        largest(1, 0);
        m.links[4095] = 4094 ^ 1;  // back to the first
        gives(11, 0, 4095);
        largest(1, 0);
        m.links[4095] = 4094 ^ 4096;
        gives(11, 0, 4095);
        largest(1, 0);
        m.links[4094] = 4093 ^ 4096;
        gives(11, 0, 4094);
    }

    void largest_free_chain()
    {
        largest(1);
        gives_done();
        for (std::uint16_t next : {1, 4095, 4096}) {  // after the last: the first, itself, and one outside
            largest(1);
            m.links[4095] = next;
            gives(12, 0, 4095);
        }
        largest(1);
        m.links[4094] = 1;
        gives(12, 0, 4094);
        largest(1);
        m.links[4094] = 0;
        gives(13, 0, 4095);
        largest(1);
        m.values[4095] = 1;
        gives(14, 0, 4095);
    }

    void largest_lists()
    {
        largest(8, 7);
        gives_done();
        largest(8, 7);
        m.book.list[7].tail = 4094;
        gives(11, 7, 4095);
        largest(8, 7);
        m.book.list[7].head = 4096;
        gives(11, 7, 0);
        largest(8, 0);
        m.book.list[7].head = 4095;  // list 0's last
        gives(11, 7, 0);
        largest(8, 7);
        m.book.list[7].limit = 4094;
        gives(15, 7, 0);
        largest(8, 0);
        m.book.list[7].share = 1;  // and no slot is free
        gives(15, 8, 0);
    }
};
