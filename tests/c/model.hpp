// The calls as document 01 tells them, over sequences: the independent model that a library is compared with.
//
// A list is a deque of slots with their values, the free slots are a deque, and the cells of a pool are written down from
// these deques. Whether given cells are sound is decided twice: by 01's definition with 02 c)'s clause, one by one, on sequences that
// are held against the cells (`fits`), with no record of slots met; and by the rules of 02 b) and c) (broken.hpp), which also say where
// it is not. The two must agree. On a sound pool a quick call is the checked one; on any memory quick.hpp says what it does.
#pragma once

#include <deque>

#include "broken.hpp"
#include "fail.hpp"
#include "quick.hpp"

namespace model {

// A slot that a list holds.
struct Element {
    std::uint16_t slot;
    std::uint64_t value;
};

// The lists of a pool and its free slots, as sequences.
struct Queues {
    std::size_t n = 0;
    std::vector<std::deque<Element>> list;
    std::vector<std::uint16_t> share;
    std::vector<std::uint16_t> limit;
    std::deque<std::uint16_t> free;
};

// What a list lacks of its share.
inline std::size_t lack(const Queues &q, std::size_t k)
{
    return q.share[k] > q.list[k].size() ? q.share[k] - q.list[k].size() : 0;
}

inline std::size_t lacks(const Queues &q)
{
    std::size_t sum = 0;
    for (std::size_t k = 0; k < q.list.size(); k++)
        sum += lack(q, k);
    return sum;
}

// 01: every slot from 1 to N-1 stands exactly once in all of the sequences together.
inline bool every_slot_once(const Queues &q)
{
    std::vector<unsigned> times(q.n, 0);
    std::vector<std::uint16_t> all(q.free.begin(), q.free.end());
    for (const auto &list : q.list)
        for (const Element &e : list)
            all.push_back(e.slot);
    for (std::uint16_t slot : all) {
        if (slot >= q.n)
            return false;
        times[slot]++;
    }
    for (std::size_t slot = 0; slot < q.n; slot++)
        if (times[slot] != (slot == 0 ? 0u : 1u))
            return false;
    return true;
}

// 01: head and tail are the first and last slot; a live slot's link is the XOR of the slots before and after it.
inline bool list_fits(const Memory &m, const std::deque<Element> &list, const flailreeve_list &entry)
{
    std::uint16_t first = list.empty() ? 0 : list.front().slot;
    std::uint16_t last = list.empty() ? 0 : list.back().slot;
    if (entry.head != first || entry.tail != last)
        return false;
    for (std::size_t i = 0; i < list.size(); i++) {
        unsigned before = i == 0 ? 0 : list[i - 1].slot;
        unsigned after = i + 1 == list.size() ? 0 : list[i + 1].slot;
        if (m.links[list[i].slot] != (before ^ after))
            return false;
    }
    return true;
}

// 01: the free head is the first free slot or 0; a free slot's link is the next free slot, 0 at the last; its value is 0.
inline bool free_fits(const Memory &m, const std::deque<std::uint16_t> &free)
{
    if (m.book.free_head != (free.empty() ? 0 : free.front()))
        return false;
    for (std::size_t i = 0; i < free.size(); i++) {
        if (m.links[free[i]] != (i + 1 == free.size() ? 0 : free[i + 1]))
            return false;
        if (m.values[free[i]] != 0)
            return false;
    }
    return true;
}

// 02 c): each stored length, and the stored number of free slots, is its sequence's length.
inline bool counts_fit(const flailreeve_book &book, const Queues &q)
{
    for (std::size_t k = 0; k < q.list.size(); k++)
        if (q.list[k].size() != book.list[k].length)
            return false;
    return q.free.size() == book.free_count;
}

// The definition of sound, for these sequences.
inline bool fits(const Memory &m, const Queues &q)
{
    if (!rules(q.n, m.book) || m.links[0] != 0 || m.values[0] != 0)
        return false;
    if (q.list.size() != m.book.lists || !every_slot_once(q) || !free_fits(m, q.free))
        return false;
    for (std::size_t k = 0; k < q.list.size(); k++)
        if (!list_fits(m, q.list[k], m.book.list[k]) || q.list[k].size() > m.book.list[k].limit)
            return false;
    return lacks(q) <= q.free.size() && counts_fit(m.book, q);
}

// The only sequences that can fit, if any do: each list is guessed from its tail backwards, since a link and the slot after
// determine the slot before, and no guess is longer than N-1. Whether they fit is decided by `fits` alone.
inline Queues guess(const Memory &m)
{
    Queues q;
    q.n = m.links.size();
    for (std::size_t k = 0; k < m.book.lists && k < 8; k++) {
        std::deque<Element> list;
        unsigned after = 0;
        unsigned slot = m.book.list[k].tail;
        while (slot != 0 && slot < q.n && list.size() < q.n) {
            list.push_front({static_cast<std::uint16_t>(slot), m.values[slot]});
            unsigned before = m.links[slot] ^ after;
            after = slot;
            slot = before;
        }
        q.list.push_back(list);
        q.share.push_back(m.book.list[k].share);
        q.limit.push_back(m.book.list[k].limit);
    }
    for (unsigned slot = m.book.free_head; slot != 0 && slot < q.n && q.free.size() < q.n; slot = m.links[slot])
        q.free.push_back(static_cast<std::uint16_t>(slot));
    return q;
}

inline bool sizes(const Memory &m)
{
    return m.links.size() == m.values.size() && 2 <= m.links.size() && m.links.size() <= 4096;
}

inline bool sound(const Memory &m)
{
    return sizes(m) && fits(m, guess(m));
}

// The cells and the book of a pool with these sequences, by the definition's own clauses.
inline void write_down(const Queues &q, Memory &m)
{
    m.links.assign(q.n, 0);
    m.values.assign(q.n, 0);
    m.book = {};
    m.book.lists = static_cast<std::uint16_t>(q.list.size());
    for (std::size_t k = 0; k < q.list.size(); k++) {
        const std::deque<Element> &list = q.list[k];
        m.book.list[k].share = q.share[k];
        m.book.list[k].limit = q.limit[k];
        m.book.list[k].head = list.empty() ? 0 : list.front().slot;
        m.book.list[k].tail = list.empty() ? 0 : list.back().slot;
        m.book.list[k].length = static_cast<std::uint16_t>(list.size());
        unsigned before = 0;
        for (auto e = list.begin(); e != list.end(); ++e) {
            unsigned after = e + 1 == list.end() ? 0 : (e + 1)->slot;
            m.links[e->slot] = static_cast<std::uint16_t>(before ^ after);
            m.values[e->slot] = e->value;
            before = e->slot;
        }
    }
    m.book.free_head = q.free.empty() ? 0 : q.free.front();
    m.book.free_count = static_cast<std::uint16_t>(q.free.size());
    for (std::size_t i = 0; i + 1 < q.free.size(); i++)
        m.links[q.free[i]] = q.free[i + 1];
}

// Setup's number, and the sequences of a fresh pool.
inline std::uint16_t set_up(const Ask &ask, const Memory &m, Queues &q)
{
    if (!sizes(m))
        return 1;
    if (!rules(m.links.size(), ask.lists, ask.shares, ask.limits))
        return 2;
    q = {};
    q.n = m.links.size();
    for (unsigned k = 0; k < ask.lists; k++) {
        q.list.emplace_back();
        q.share.push_back(ask.shares[k]);
        q.limit.push_back(ask.limits[k]);
    }
    for (std::size_t slot = 1; slot < q.n; slot++)
        q.free.push_back(static_cast<std::uint16_t>(slot));
    return 0;
}

// A push on a list below the number of lists.
inline std::uint16_t push(const Ask &ask, Queues &q)
{
    std::deque<Element> &list = q.list[ask.list];
    if (list.size() == q.limit[ask.list])
        return 6;
    if (list.size() >= q.share[ask.list] && q.free.size() <= lacks(q))
        return 7;
    Element e = {q.free.front(), ask.value};
    q.free.pop_front();
    if (at_back(ask.call))
        list.push_back(e);
    else
        list.push_front(e);
    return 0;
}

inline std::uint16_t pop(const Ask &ask, Queues &q, std::uint64_t &word)
{
    std::deque<Element> &list = q.list[ask.list];
    if (list.empty())
        return 5;
    Element e = at_back(ask.call) ? list.back() : list.front();
    if (at_back(ask.call))
        list.pop_back();
    else
        list.pop_front();
    q.free.push_front(e.slot);
    word = e.value;
    return 0;
}

inline std::uint16_t read(const Ask &ask, const Queues &q, Memory &m)
{
    const std::deque<Element> &list = q.list[ask.list];
    if (ask.at > m.out.size() || m.out.size() - ask.at < list.size())
        return 8;
    for (std::size_t i = 0; i < list.size(); i++)
        m.out[ask.at + i] = list[ask.call == read_forward ? i : list.size() - 1 - i].value;
    m.word = list.size();
    return 0;
}

// Has the call a length, a value or a count to hand out?
inline bool hands_out(Call call)
{
    return call == length || pops(call) || reads(call);
}

// A call on a sound pool whose sequences are q, from test 4 on. Sequences and the word change; the cells are not looked at.
inline std::uint16_t on_queues(const Ask &ask, Queues &q, Memory &m)
{
    if (ask.call == check)
        return 0;
    if (ask.list >= q.list.size())
        return 4;
    switch (checked(ask.call)) {
    case length:
        m.word = q.list[ask.list].size();
        return 0;
    case push_back:
    case push_front:
        return push(ask, q);
    case pop_back:
    case pop_front:
        return pop(ask, q, m.word);
    case read_forward:
    case read_backward:
        return read(ask, q, m);
    default:
        while (!q.list[ask.list].empty()) {
            q.free.push_front(q.list[ask.list].front().slot);
            q.list[ask.list].pop_front();
        }
        return 0;
    }
}

// The first rule that is broken, and none exactly where the definition calls the pool sound with these sequences.
inline Broken judge(const Memory &m, const Queues &q)
{
    Broken rule = first_broken(m);
    if ((rule.number == 0) != fits(m, q))
        fail("the model's rules give %u for a pool of %zu slots, and its definition of sound says otherwise", rule.number, q.n);
    return rule;
}

// Any call on any memory: the number, and in m what the memory holds afterwards. Every call but setup and the quick ones writes the
// place.
inline std::uint16_t answer(const Ask &ask, Memory &m)
{
    Queues q;
    std::uint16_t number;
    if (hands_out(ask.call))
        m.word = 0;
    if (is_quick(ask.call))
        return quick::answer(ask, m);
    if (ask.call == setup) {
        number = set_up(ask, m, q);
    } else {
        m.place = {0, 0};
        if (!sizes(m))
            return 1;
        q = guess(m);
        Broken rule = judge(m, q);
        m.place = rule.place;
        if (rule.number != 0)
            return rule.number;
        number = on_queues(ask, q, m);
    }
    if (number == 0)
        write_down(q, m);
    return number;
}

}  // namespace model
