// The quick calls as document 02 d) tells them, on any memory: an independent reading of its words.
//
// The slots that a call would touch are written down as a list, and the counts that it would leave as another, all as wide numbers.
// Then each slot is asked whether it is from 1 to N-1, each two whether they are the same, and each count whether it is from 0 to N-1.
// No slot's cells are looked at before it was asked. Every reason for 17 is noted, not the first alone, so that a test can tell whether
// each was met with no other beside it.
#pragma once

#include "memory.hpp"

namespace quick {

// Why 17 is given. The first is asked before 4, the next three between 4 and 5, the rest after 7.
enum Reason {
    lists,              // L is not 1 to 8
    length_above,       // the asked list's stored length is above N-1
    other_above,        // another list's stored length is above N-1
    free_above,         // the stored number of free slots is above N-1
    head_outside,       // a push: the free head is no slot
    end_outside,        // a push: the slot at the pushed end is none
    end_is_head,        // a push: the two are the same
    length_full,        // a push: the length would be N
    none_free,          // a push: the number of free slots would be below 0
    last_outside,       // a pop: the slot at the popped end is none
    neighbour_outside,  // a pop: its neighbour is none
    neighbour_same,     // a pop: the two are the same
    free_full,          // a pop: the number of free slots would be N
    reasons
};
constexpr const char *words[reasons] = {
    "the number of lists", "the list's own length", "another list's length", "the free count", "the free head outside",
    "the end outside", "the end that is the free head", "a length of N-1", "a free count of 0", "the popped slot outside",
    "the neighbour outside", "the neighbour that is the slot", "a free count of N-1"};

struct Answer {
    std::uint16_t number;
    unsigned why;  // a bit for each reason, where the number is 17
};

// The slots that a call would touch.
struct Touched {
    long slot[2];
    unsigned many;
};

constexpr unsigned bit(int reason) { return 1u << reason; }

class Reading {
public:
    Reading(const model::Ask &asked, const model::Memory &memory) : ask(asked), m(memory), n(static_cast<long>(memory.links.size())) {}

    Answer answer() const
    {
        long lists_there = m.book.lists;
        if (m.links.size() != m.values.size() || n < 2 || n > 4096)
            return {1, 0};
        if (lists_there < 1 || lists_there > 8)
            return {17, bit(lists)};
        if (ask.list >= lists_there)
            return {4, 0};
        if (unsigned why = counts_above())
            return {17, why};
        if (std::uint16_t number = refused_on_sound_pools())
            return {number, 0};
        unsigned why = slots_wrong() | counts_leave();
        return {static_cast<std::uint16_t>(why == 0 ? 0 : 17), why};
    }

    // The slots whose cells the call would read or write, as far as they can be known.
    Touched touched() const
    {
        if (model::pushes(ask.call))
            return {{m.book.free_head, end()}, entry().tail == 0 ? 1u : 2u};
        if (!in_pool(end()) || link(end()) == 0)
            return {{end(), 0}, 1};
        return {{end(), link(end())}, 2};
    }

private:
    const model::Ask &ask;
    const model::Memory &m;
    const long n;

    const flailreeve_list &entry() const { return m.book.list[ask.list]; }
    long end() const { return model::at_back(ask.call) ? entry().tail : entry().head; }
    long link(long slot) const { return m.links.at(static_cast<std::size_t>(slot)); }
    bool in_pool(long slot) const { return 1 <= slot && slot <= n - 1; }
    bool is_count(long count) const { return 0 <= count && count <= n - 1; }

    unsigned counts_above() const
    {
        unsigned why = is_count(m.book.free_count) ? 0 : bit(free_above);
        for (unsigned k = 0; k < m.book.lists; k++)
            if (!is_count(m.book.list[k].length))
                why |= bit(k == ask.list ? length_above : other_above);
        return why;
    }

    // 5, 6 or 7 by the stored counts, and 0 where none of them is given.
    std::uint16_t refused_on_sound_pools() const
    {
        long length = entry().length, limit = entry().limit, share = entry().share, lacks = 0;
        if (model::pops(ask.call))
            return length == 0 ? 5 : 0;
        if (length == limit)
            return 6;
        for (unsigned k = 0; k < m.book.lists; k++) {
            long lack = long{m.book.list[k].share} - long{m.book.list[k].length};
            lacks += lack > 0 ? lack : 0;
        }
        return length < limit && length >= share && m.book.free_count <= lacks ? 7 : 0;
    }

    unsigned slots_wrong() const
    {
        const bool pop = model::pops(ask.call);
        const int outside[] = {pop ? last_outside : head_outside, pop ? neighbour_outside : end_outside};
        const Touched slots = touched();
        unsigned why = 0;
        for (unsigned i = 0; i < slots.many; i++) {
            why |= in_pool(slots.slot[i]) ? 0 : bit(outside[i]);
            for (unsigned j = 0; j < i; j++)
                why |= slots.slot[i] != slots.slot[j] ? 0 : bit(pop ? neighbour_same : end_is_head);
        }
        return why;
    }

    unsigned counts_leave() const
    {
        const long more = model::pops(ask.call) ? -1 : 1;
        unsigned why = is_count(entry().length + more) ? 0 : bit(length_full);
        if (!is_count(m.book.free_count - more))
            why |= bit(model::pops(ask.call) ? free_full : none_free);
        return why;
    }
};

// A done push leaves this: the new slot is the free head, and the list's only one where the tail was 0.
inline void push(const model::Ask &ask, model::Memory &m)
{
    flailreeve_list &entry = m.book.list[ask.list];
    const std::uint16_t slot = m.book.free_head;
    std::uint16_t &end = model::at_back(ask.call) ? entry.tail : entry.head;
    m.book.free_head = m.links.at(slot);
    m.links.at(slot) = 0;
    if (entry.tail == 0) {
        entry.head = entry.tail = slot;
    } else {
        m.links.at(slot) = end;
        m.links.at(end) ^= slot;
        end = slot;
    }
    m.values.at(slot) = ask.value;
    entry.length++;
    m.book.free_count--;
}

// A done pop leaves this: the slot is wiped and is the free head, and the list is empty where it had no neighbour.
inline void pop(const model::Ask &ask, model::Memory &m)
{
    flailreeve_list &entry = m.book.list[ask.list];
    std::uint16_t &end = model::at_back(ask.call) ? entry.tail : entry.head;
    const std::uint16_t slot = end, neighbour = m.links.at(slot);
    end = neighbour;
    if (neighbour == 0)
        entry.head = entry.tail = 0;
    else
        m.links.at(neighbour) ^= slot;
    m.word = m.values.at(slot);
    m.values.at(slot) = 0;
    m.links.at(slot) = m.book.free_head;
    m.book.free_head = slot;
    entry.length--;
    m.book.free_count++;
}

// Any quick call on any memory: the number, and in m what the memory holds afterwards. `why`, where it is asked for, gets the reasons for
// 17.
inline std::uint16_t answer(const model::Ask &ask, model::Memory &m, unsigned *why = nullptr)
{
    const Answer given = Reading(ask, m).answer();
    if (why != nullptr)
        *why = given.why;
    if (model::pops(ask.call))
        m.word = 0;
    if (given.number == 0)
        model::pops(ask.call) ? pop(ask, m) : push(ask, m);
    return given.number;
}

}  // namespace quick
