// Damage to a sound pool by which a given rule is broken, and no rule before it.
#pragma once

#include "dice.hpp"

namespace model {

class Harm {
public:
    // q are the pool's sequences, m its cells.
    Harm(Dice &from, const Queues &sequences, Memory &memory) : dice(from), q(sequences), m(memory), n(sequences.n) {}

    // Breaks the rule of that number. Where the pool has no slot that it could be done with, it says so and changes nothing.
    bool breaks(unsigned number)
    {
        switch (number) {
        case 9:
            return book();
        case 10:
            return null_slot();
        case 11:
            return list();
        case 12:
            return free_chain();
        case 13:
            return lost_slot();
        case 14:
            return unwiped_slot();
        case 15:
            return dice.one_in(2) ? over_limit() || uncovered() : uncovered() || over_limit();
        default:
            return count();
        }
    }

private:
    Dice &dice;
    const Queues &q;
    Memory &m;
    const std::size_t n;

    static std::uint16_t half(std::size_t word) { return static_cast<std::uint16_t>(word); }

    // A slot number that the pool has not.
    std::uint16_t outside() { return dice.one_in(2) ? half(n) : dice.half(n, 65535); }

    // One bit, or any value but 0.
    std::uint64_t some_value() { return dice.one_in(2) ? std::uint64_t{1} << dice.from(0, 63) : dice.word() | 1; }

    bool book()
    {
        std::size_t lists = q.list.size();
        flailreeve_list &entry = m.book.list[dice.from(0, lists - 1)];
        switch (dice.from(0, lists < 8 ? 4 : 3)) {
        case 0: {
            const std::uint16_t strange[] = {0, 9, 10, 255, 256, 257, 65535};
            m.book.lists = dice.one_of(strange);
            return true;
        }
        case 1:
            entry.limit = outside();
            return true;
        case 2:
            entry.share = half(entry.limit + dice.from(1, 3));
            return true;
        case 3:  // each by itself would do
            for (std::size_t k = 0; k < lists; k++)
                m.book.list[k].share = m.book.list[k].limit = half(n - (lists > 1));
            return true;
        default: {
            flailreeve_list &unused = m.book.list[dice.from(lists, 7)];
            std::uint16_t *const words[] = {&unused.head, &unused.tail, &unused.share, &unused.limit, &unused.length};
            *dice.one_of(words) = dice.one_in(2) ? half(1u << dice.from(0, 15)) : dice.half(1, n - 1);
            return true;
        }
        }
    }

    bool null_slot()
    {
        if (dice.one_in(2))
            m.links[0] = dice.one_in(2) ? half(1u << dice.from(0, 15)) : dice.half(1, n);
        else
            m.values[0] = some_value();
        return true;
    }

    // A slot that must not come after position p of the slots: none, one outside the pool, one of these or of any other chain.
    std::uint16_t wrong_next(const std::vector<std::uint16_t> &slots, std::size_t p)
    {
        switch (dice.from(0, 3)) {
        case 0:
            return outside();
        case 1:
            return slots.empty() ? outside() : slots[dice.from(0, p == 0 ? slots.size() - 1 : p - 1)];
        case 2:
            return 0;
        default:
            return dice.half(1, n - 1);
        }
    }

    // Another slot at position p of a list, where p is up to its length; or another tail.
    bool list()
    {
        std::size_t k = dice.from(0, q.list.size() - 1);
        std::vector<std::uint16_t> slots;
        for (const Element &e : q.list[k])
            slots.push_back(e.slot);
        flailreeve_list &entry = m.book.list[k];
        std::uint16_t tail = entry.tail;
        if (dice.one_in(3)) {
            while (entry.tail == tail)
                entry.tail = dice.one_in(2) ? dice.half(0, n) : wrong_next(slots, 0);
            return true;
        }
        std::size_t p = dice.from(0, slots.size());
        std::uint16_t now = p < slots.size() ? slots[p] : 0;
        std::uint16_t other = now;
        while (other == now)
            other = wrong_next(slots, p);
        if (p == 0)
            entry.head = other;
        else
            m.links[slots[p - 1]] = half(other ^ (p > 1 ? slots[p - 2] : 0));
        return true;
    }

    // The free chain has the slot `next` at position p.
    void lead(std::size_t p, std::uint16_t next) { (p == 0 ? m.book.free_head : m.links[q.free[p - 1]]) = next; }

    // At position p of the free chain comes a slot outside the pool, of a list, or of the chain's own positions before.
    bool free_chain()
    {
        std::size_t p = dice.from(0, q.free.size());
        std::uint16_t next = outside();
        const std::deque<Element> &other = q.list[dice.from(0, q.list.size() - 1)];
        if (!other.empty() && dice.one_in(2))
            next = other[dice.from(0, other.size() - 1)].slot;
        else if (p > 0 && dice.one_in(2))
            next = q.free[dice.from(0, p - 1)];
        lead(p, next);
        return true;
    }

    // The free chain leaves slots out or ends too early.
    bool lost_slot()
    {
        if (q.free.empty())
            return list_lost_its_last();
        std::size_t p = dice.from(0, q.free.size() - 1);
        std::size_t again = dice.one_in(2) ? q.free.size() : dice.from(p + 1, q.free.size());
        lead(p, again < q.free.size() ? q.free[again] : 0);
        return true;
    }

    bool list_lost_its_last()
    {
        for (std::size_t k = 0; k < q.list.size(); k++) {
            const std::deque<Element> &list = q.list[k];
            std::size_t many = list.size();
            if (many == 0)
                continue;
            m.book.list[k].tail = many == 1 ? 0 : list[many - 2].slot;
            if (many == 1)
                m.book.list[k].head = 0;
            else
                m.links[list[many - 2].slot] = many == 2 ? 0 : list[many - 3].slot;
            return true;
        }
        return false;
    }

    // One to three, so that the lowest is not always the first along the chain.
    bool unwiped_slot()
    {
        if (q.free.empty())
            return false;
        for (std::size_t left = dice.from(1, 3); left > 0; left--)
            m.values[q.free[dice.from(0, q.free.size() - 1)]] = some_value();
        return true;
    }

    // One list, or each that has an element, may have fewer than it has.
    bool over_limit()
    {
        bool done = false, all = dice.one_in(2);
        std::size_t k = dice.from(0, q.list.size() - 1);
        for (std::size_t left = q.list.size(); left > 0 && (all || !done); left--, k = (k + 1) % q.list.size()) {
            flailreeve_list &entry = m.book.list[k];
            if (q.list[k].empty())
                continue;
            entry.limit = dice.one_in(2) ? half(q.list[k].size() - 1) : dice.half(0, q.list[k].size() - 1);
            entry.share = std::min(entry.share, entry.limit);
            done = true;
        }
        return done;
    }

    // One list lacks more than the free slots are, since others have what it is owed.
    bool uncovered()
    {
        std::size_t k = dice.from(0, q.list.size() - 1);
        std::size_t others = n - 1 - q.list[k].size() - q.free.size();
        if (others == 0)
            return false;
        for (std::size_t other = 0; other < q.list.size(); other++)
            m.book.list[other].share = 0;
        std::size_t owed = q.list[k].size() + q.free.size() + (dice.one_in(2) ? 1 : dice.from(1, others));
        m.book.list[k].share = half(owed);
        m.book.list[k].limit = std::max(m.book.list[k].limit, half(owed));
        return true;
    }

    // The stored length of list k, or the stored number of free slots where there is no list k.
    std::uint16_t &stored(std::size_t k) { return k < q.list.size() ? m.book.list[k].length : m.book.free_count; }

    // One stored count is another by one, by a bit or by anything; or one is higher and another lower by the same.
    bool count()
    {
        std::size_t k = dice.from(0, q.list.size());
        std::uint16_t &one = stored(k), &other = stored((k + dice.from(1, q.list.size())) % (q.list.size() + 1));
        std::uint16_t by = half(dice.one_in(2) ? 1 : dice.from(1, n));
        switch (dice.from(0, 3)) {
        case 0:
            one = half(dice.one_in(2) ? one + 1 : one - 1);
            return true;
        case 1:
            one = half(one ^ 1u << dice.from(0, 15));
            return true;
        case 2:
            one = half(one + dice.from(1, 65535));
            return true;
        default:
            one = half(one + by);
            other = half(other - by);
            return true;
        }
    }
};

}  // namespace model
