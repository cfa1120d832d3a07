// The first rule of a sound pool that is broken, and where, as document 02 b) and c) tell it.
//
// Each rule is one function that answers whether it is broken and where; they are asked in the order of their numbers. The slots
// of a chain are first written down position by position, whatever they are; then they are judged. Only the slots of a chain that
// is whole are noted, for the chains that come after it.
#pragma once

#include <algorithm>

#include "memory.hpp"

namespace model {

// Do L, the shares and the limits keep the rules of the book in a pool of n slots? `share_of` and `limit_of` are eight each.
inline bool rules(std::size_t n, unsigned lists, const std::uint16_t *share_of, const std::uint16_t *limit_of)
{
    unsigned long sum = 0;
    bool kept = 1 <= lists && lists <= 8;
    for (unsigned k = 0; kept && k < 8; k++) {
        if (k < lists)
            kept = share_of[k] <= limit_of[k] && limit_of[k] + 1ul <= n;
        else
            kept = share_of[k] == 0 && limit_of[k] == 0;
        sum += share_of[k];
    }
    return kept && sum + 1 <= n;
}

inline bool rules(std::size_t n, const flailreeve_book &book)
{
    std::uint16_t share_of[8], limit_of[8];
    for (unsigned k = 0; k < 8; k++) {
        share_of[k] = book.list[k].share;
        limit_of[k] = book.list[k].limit;
        if (k >= book.lists && (book.list[k].head != 0 || book.list[k].tail != 0 || book.list[k].length != 0))
            return false;
    }
    return rules(n, book.lists, share_of, limit_of);
}

// A rule's number and the place, or 0 and no place.
struct Broken {
    std::uint16_t number;
    flailreeve_place place;
};

inline Broken broken(unsigned number, std::size_t list, std::size_t position)
{
    return {static_cast<std::uint16_t>(number), {static_cast<std::uint16_t>(list), static_cast<std::uint16_t>(position)}};
}

class Rules {
public:
    explicit Rules(const Memory &memory) : m(memory), n(memory.links.size()), chained(n, false), free(n, false) {}

    // The sizes fit, as 1 is asked before.
    Broken first()
    {
        if (!rules(n, m.book))
            return broken(9, 0, 0);
        if (m.links[0] != 0 || m.values[0] != 0)
            return broken(10, 0, 0);
        for (std::size_t k = 0; k < m.book.lists; k++) {
            Broken list = judge_list(k);
            if (list.number != 0)
                return list;
        }
        Broken rest = judge_free();
        if (rest.number == 0)
            rest = lost_slot();
        if (rest.number == 0)
            rest = unwiped_slot();
        if (rest.number == 0)
            rest = over_limit();
        if (rest.number == 0)
            rest = wrong_count();
        return rest;
    }

private:
    using Slots = std::vector<unsigned>;

    const Memory &m;
    std::size_t n;
    std::vector<bool> chained, free;  // is the slot in a chain that is whole; is that the free chain?
    std::vector<std::size_t> length_of;

    // The slots from `head` on: position by position, until 0, which is written down too, until one outside the pool, or until
    // there are more than the pool has. In a list the slot before is part of the link.
    Slots slots_from(unsigned head, bool of_list) const
    {
        Slots slots = {head};
        while (slots.back() != 0 && slots.back() < n && slots.size() <= n) {
            std::size_t many = slots.size();
            unsigned before = of_list && many > 1 ? slots[many - 2] : 0;
            slots.push_back(m.links[slots[many - 1]] ^ before);
        }
        return slots;
    }

    // The first position whose slot is N or more, or stands in an earlier chain or at an earlier position; past the end where there
    // is none.
    std::size_t first_bad(const Slots &slots) const
    {
        std::vector<std::size_t> earliest(n, slots.size());  // of each slot of the pool, the earliest position
        for (std::size_t position = slots.size(); position-- > 0;)
            if (slots[position] < n)
                earliest[slots[position]] = position;
        for (std::size_t position = 0; position < slots.size(); position++) {
            unsigned slot = slots[position];
            if (slot >= n || chained[slot] || earliest[slot] < position)
                return position;
        }
        return slots.size();
    }

    // Notes the slots of a chain that is whole, without the 0 at its end.
    static void note(const Slots &slots, std::vector<bool> &in)
    {
        for (std::size_t position = 0; position + 1 < slots.size(); position++)
            in[slots[position]] = true;
    }

    Broken judge_list(std::size_t k)
    {
        const Slots slots = slots_from(m.book.list[k].head, true);
        std::size_t position = first_bad(slots);
        if (position < slots.size())
            return broken(11, k, position);
        std::size_t length = slots.size() - 1;
        unsigned last = length == 0 ? 0 : slots[length - 1];
        if (last != m.book.list[k].tail)
            return broken(11, k, length);
        note(slots, chained);
        length_of.push_back(length);
        return broken(0, 0, 0);
    }

    Broken judge_free()
    {
        const Slots slots = slots_from(m.book.free_head, false);
        std::size_t position = first_bad(slots);
        if (position < slots.size())
            return broken(12, 0, position);
        note(slots, chained);
        note(slots, free);
        return broken(0, 0, 0);
    }

    Broken lost_slot() const
    {
        for (unsigned slot = 1; slot < n; slot++)
            if (!chained[slot])
                return broken(13, 0, slot);
        return broken(0, 0, 0);
    }

    Broken unwiped_slot() const
    {
        for (unsigned slot = 1; slot < n; slot++)
            if (free[slot] && m.values[slot] != 0)
                return broken(14, 0, slot);
        return broken(0, 0, 0);
    }

    std::size_t free_slots() const { return static_cast<std::size_t>(std::count(free.begin(), free.end(), true)); }

    // By the lengths of the chains: what the book says of them is asked for later.
    Broken over_limit() const
    {
        std::size_t lack = 0;
        for (std::size_t k = 0; k < m.book.lists; k++)
            if (length_of[k] > m.book.list[k].limit)
                return broken(15, k, 0);
        for (std::size_t k = 0; k < m.book.lists; k++)
            if (m.book.list[k].share > length_of[k])
                lack += m.book.list[k].share - length_of[k];
        return free_slots() < lack ? broken(15, m.book.lists, 0) : broken(0, 0, 0);
    }

    Broken wrong_count() const
    {
        for (std::size_t k = 0; k < m.book.lists; k++)
            if (m.book.list[k].length != length_of[k])
                return broken(16, k, 0);
        return m.book.free_count != free_slots() ? broken(16, m.book.lists, 0) : broken(0, 0, 0);
    }
};

inline Broken first_broken(const Memory &m)
{
    return Rules(m).first();
}

}  // namespace model
