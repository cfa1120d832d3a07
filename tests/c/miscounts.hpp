// Pools whose stored counts are wrong by hand, each with the number and the place that document 02 c)'s words give it: 16, after every
// other rule and before 4 to 8.
#pragma once

#include "byhand.hpp"

class Miscounts : private ByHand {
public:
    using ByHand::pools;

    void all()
    {
        sound();
        each_count();
        several();
        each_list();
        one_list();
        unused_entries();
        earlier_rules();
        not_fifteen();
        before_five();
        before_six_and_seven();
        before_eight();
        largest_pool();
        smallest_pool();
    }

private:
    static std::uint16_t half(unsigned word) { return static_cast<std::uint16_t>(word); }

    // The three stored counts of the pool. They are right as 3, 1 and 3.
    void counts(std::uint16_t zero, std::uint16_t one, std::uint16_t free)
    {
        m.book.list[0].length = zero;
        m.book.list[1].length = one;
        m.book.free_count = free;
    }

    // Every count but the right one, for each of the three.
    void each_count()
    {
        for (std::uint16_t wrong : {0, 1, 2, 3, 4, 7, 8, 256 + 1, 256 + 3, 4096 + 1, 4096 + 3, 32768 + 1, 32768 + 3, 65534, 65535}) {
            if (wrong != 3) {
                counts(wrong, 1, 3);
                gives(16, 0, 0);
                counts(3, 1, wrong);
                gives(16, 2, 0);
            }
            if (wrong != 1) {
                counts(3, wrong, 3);
                gives(16, 1, 0);
            }
        }
    }

    // More than one is wrong: the lowest list is named. Some have the right sum.
    void several()
    {
        counts(4, 2, 3);
        gives(16, 0, 0);
        counts(3, 2, 2);
        gives(16, 1, 0);
        counts(2, 1, 4);
        gives(16, 0, 0);
        counts(4, 0, 3);
        gives(16, 0, 0);
        counts(1, 3, 3);  // exchanged
        gives(16, 0, 0);
        counts(3, 3, 1);
        gives(16, 1, 0);
        counts(0, 0, 0);
        gives(16, 0, 0);
        counts(0, 0, 7);
        gives(16, 0, 0);
        counts(65535, 65535, 65535);
        gives(16, 0, 0);
    }

    // Two to eight lists, of which those from list 2 on may have nothing and have nothing.
    void each_list()
    {
        for (std::uint16_t lists = 2; lists <= 8; lists++) {
            m.book.lists = lists;
            gives_done();
            m.book.lists = lists;
            m.book.free_count = 4;
            gives(16, lists, 0);
            for (std::uint16_t k = 0; k < lists; k++)
                for (std::uint16_t later = k; later <= lists; later++) {
                    m.book.lists = lists;
                    m.book.list[k].length++;
                    (later < lists ? m.book.list[later].length : m.book.free_count)++;
                    gives(16, k, 0);
                }
        }
    }

    // One list of two elements, and one free slot.
    void one_list()
    {
        for (bool list_too : {false, true}) {
            m.links = {0, 2, 1, 0};
            m.values = {0, 11, 22, 0};
            m.book = {};
            m.book.lists = 1;
            m.book.list[0] = {1, 2, 0, 3, 2};
            m.book.free_head = 3;
            m.book.free_count = 2;
            m.book.list[0].length = half(list_too ? 1 : 2);
            gives(16, list_too ? 0 : 1, 0);
        }
    }

    // A stored length in an entry that is not used is 9, alone and with counts that are wrong.
    void unused_entries()
    {
        for (unsigned k = 2; k < 8; k++)
            for (std::uint16_t length : {1, 2, 128, 256, 4096, 32768, 65535}) {
                m.book.list[k].length = length;
                gives(9, 0, 0);
                m.book.list[k].length = length;
                counts(2, 1, 4);
                gives(9, 0, 0);
            }
    }

    // Every other rule comes first, whichever count is wrong too.
    void earlier_rules()
    {
        for (unsigned which = 0; which < 3; which++) {
            m.book.list[0].limit = 8;
            with(which, 9, 0, 0);
            m.links[0] = 1;
            with(which, 10, 0, 0);
            m.values[0] = 1;
            with(which, 10, 0, 0);
            m.links[6] = 1 ^ 8;
            with(which, 11, 0, 3);
            m.book.list[1].tail = 5;
            with(which, 11, 1, 1);
            m.links[2] = 2;
            with(which, 12, 0, 2);
            m.links[2] = 0;
            with(which, 13, 0, 5);
            m.values[5] = 1;
            with(which, 14, 0, 5);
            m.book.list[0].limit = 2;
            with(which, 15, 0, 0);
            m.book.list[1] = {4, 4, 0, 0, 1};
            with(which, 15, 1, 0);
            m.book.list[1] = {4, 4, 5, 5, 1};
            with(which, 15, 2, 0);
        }
    }

    void with(unsigned which, std::uint16_t number, std::uint16_t list, std::uint16_t position)
    {
        (which < 2 ? m.book.list[which].length : m.book.free_count)--;
        gives(number, list, position);
    }

    // 15 goes by the sequences: stored counts that would break its rule do not, and ones that would keep it do not mend it.
    void not_fifteen()
    {
        counts(6, 1, 3);  // over the limit of 5, by the book alone
        gives(16, 0, 0);
        counts(3, 5, 3);
        gives(16, 1, 0);
        counts(3, 1, 0);  // list 1 lacks one, and by the book no slot is free
        gives(16, 2, 0);
        counts(0, 0, 3);  // more is lacked by the book, and it is covered
        gives(16, 0, 0);
        m.book.list[0].limit = 2;
        counts(2, 1, 3);
        gives(15, 0, 0);
        m.book.list[0].limit = 2;
        counts(0, 0, 7);
        gives(15, 0, 0);
        m.book.list[1] = {4, 4, 5, 5, 5};  // it lacks 4, by the book nothing, and three slots are free
        gives(15, 2, 0);
        m.book.list[1] = {4, 4, 5, 5, 1};
        m.book.free_count = 7;
        gives(15, 2, 0);
    }

    // List 1 is empty, and slot 4 free; list 0 is as it was.
    void empty_list()
    {
        m.links[4] = 7;
        m.values[4] = 0;
        m.book.list[1] = {0, 0, 2, 4, 0};
        m.book.free_head = 4;
        m.book.free_count = 4;
    }

    // A pop of an empty list that has a length by the book; of one that has none by the book; and of one beside a wrong count.
    void before_five()
    {
        empty_list();
        gives_done();
        empty_list();
        m.book.list[1].length = 1;
        gives_on(1, 0, 16, 1, 0);
        counts(0, 1, 3);
        gives_on(0, 0, 16, 0, 0);
        empty_list();
        m.book.list[0].length = 4;
        gives_on(1, 0, 16, 0, 0);
        empty_list();
        m.book.free_count = 3;
        gives_on(1, 0, 16, 2, 0);
    }

    // A push on a list at its limit, by the sequence or by the book alone; and on one that no slot is free for, by either.
    void before_six_and_seven()
    {
        m.book.list[0].limit = 3;
        counts(2, 1, 3);
        gives_on(0, 0, 16, 0, 0);
        counts(5, 1, 3);
        gives_on(0, 0, 16, 0, 0);
        m.book.list[0].limit = 3;
        counts(3, 1, 4);
        gives_on(0, 0, 16, 2, 0);
        counts(3, 1, 1);  // list 1 lacks one, so by the book none is to spare
        gives_on(0, 0, 16, 2, 0);
        for (std::uint16_t free : {2, 4}) {
            m.book.list[1] = {4, 4, 4, 4, 1};  // it lacks three, so none is to spare
            m.book.free_count = free;
            gives_on(0, 0, 16, 2, 0);
        }
    }

    // A read whose buffer is too small, or is so by the book alone.
    void before_eight()
    {
        for (std::size_t at : {5, 6, 8, 9}) {
            counts(2, 1, 3);
            gives_on(0, at, 16, 0, 0);
            counts(4, 1, 3);
            gives_on(0, at, 16, 0, 0);
            counts(3, 1, 2);
            gives_on(0, at, 16, 2, 0);
        }
    }

    void largest_pool()
    {
        for (std::uint16_t wrong : {0, 1, 255, 256, 4094, 4096, 4097, 8191, 65535}) {
            largest(1, 0);
            m.book.list[0].length = wrong;
            gives(16, 0, 0);
            largest(8, 7);
            m.book.list[7].length = wrong;
            gives(16, 7, 0);
            largest(1);
            m.book.free_count = wrong;
            gives(16, 1, 0);
            largest(8);
            m.book.free_count = wrong;
            gives(16, 8, 0);
        }
        for (std::uint16_t wrong : {1, 256, 4095, 4096, 65535}) {
            largest(8, 0);
            m.book.free_count = wrong;
            gives(16, 8, 0);
            largest(8, 0);
            m.book.list[7].length = wrong;
            gives(16, 7, 0);
        }
    }

    // Two slots: slot 1 is a list's or free.
    void smallest_pool()
    {
        for (bool held : {false, true})
            for (std::uint16_t length : {0, 1, 2, 65535})
                for (std::uint16_t free : {0, 1, 2, 65535}) {
                    m.links = {0, 0};
                    m.values = {0, half(held)};
                    m.book = {};
                    m.book.lists = 1;
                    m.book.list[0] = {half(held), half(held), 0, 1, length};
                    m.book.free_head = half(!held);
                    m.book.free_count = free;
                    if (length != half(held))
                        gives(16, 0, 0);
                    else if (free != half(!held))
                        gives(16, 1, 0);
                    else
                        gives_done();
                }
    }
};
