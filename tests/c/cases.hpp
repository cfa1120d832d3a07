// Where the block can be when a call is made: for each call, number, place and size a random pool that has it there, and the
// question that gets that number.
#pragma once

#include <cstring>

#include "harm.hpp"

namespace cases {

enum Where { alone, first, middle, last, other_list, argument, value_word, read_buffer, free_slot, null_slot };
constexpr int wheres = 10;
constexpr const char *words[wheres] = {
    "as the only element of the list", "as the first element of the list", "in the middle of the list",
    "as the last element of the list", "in another list", "as the argument", "in the word for the value",
    "in the buffer of the read", "in a free slot", "in slot 0"};

struct Case {
    model::Call call;
    std::uint16_t number;
    Where where;
    std::size_t n;
};

using model::pops;
using model::pushes;
using model::reads;
inline bool in_the_list(Where where) { return where <= last; }

// The slots that a case cannot do without: in the list that is asked for, in another list, and free.
struct Needs {
    std::size_t list, other, free;
};

inline Needs needs(const Case &c)
{
    const std::size_t elements[] = {1, 2, 3, 2};
    bool done = c.number == 0;
    Needs need = {};
    if (in_the_list(c.where))
        need.list = elements[c.where];
    else if (pops(c.call) && done)
        need.list = 1;
    need.other = c.where == other_list;
    // A push takes a free slot. One that is refused by 7 is under its limit, so there is a slot that others hold or lack.
    need.free = (pushes(c.call) && done) || c.where == free_slot || (c.number == 7 && c.where != other_list) || c.number == 14;
    // A slot that is lost was one of the free slots, so that the lists keep theirs. A list that is over its limit has an element.
    need.free += c.number == 13;
    if (c.number == 15 && need.list + need.other == 0)
        need.list = 1;
    return need;
}

// Can there be such a case? The table says which numbers a call gives. A sound pool has 0 in its free slots and in slot 0, so
// that the block is there only if the pool is damaged or is not looked at; in a free slot it is never with a number that comes
// after 14, and in slot 0 never with one that comes after 10. A quick call looks at no such value. An empty list has it nowhere.
inline bool possible(const Case &c)
{
    if (!model::table[c.call][c.number])
        return false;
    if (c.where == argument && !pushes(c.call))
        return false;
    if (c.where == value_word && !pops(c.call))
        return false;
    if (c.where == read_buffer && !reads(c.call))
        return false;
    bool any_pool = c.call == model::setup || c.number == 1 || model::is_quick(c.call);
    if (c.where == free_slot && !any_pool && (c.number < model::first_rule || c.number > 14))
        return false;
    if (c.where == null_slot && !any_pool && c.number != 9 && c.number != 10)
        return false;
    if (c.number == 5 && in_the_list(c.where))
        return false;
    Needs need = needs(c);
    return need.list + need.other + need.free <= c.n - 1;
}

// A pool that a case is made in. `list` is the list that is asked for, `home` is the one that has the block if one has it.
struct Pool {
    model::Queues q;
    std::size_t list = 0, home = 0;
    model::Memory m;
    model::Ask ask;
};

// The lists with their elements: what the case needs, and some more where the case leaves it open. The rest is free.
inline void fill(Dice &dice, const Case &c, Pool &p)
{
    Needs need = needs(c);
    bool two = c.where == other_list || c.number == 7;
    std::size_t lists = dice.from(two ? 2 : 1, 8);
    p.q.n = c.n;
    p.q.list.resize(lists);
    p.list = dice.from(0, lists - 1);
    p.home = c.where == other_list ? (p.list + dice.from(1, lists - 1)) % lists : p.list;
    for (std::size_t slot = 1; slot < c.n; slot++)
        p.q.free.push_back(static_cast<std::uint16_t>(slot));
    for (std::size_t i = p.q.free.size(); i > 1; i--)
        std::swap(p.q.free[i - 1], p.q.free[dice.from(0, i - 1)]);
    std::size_t room = c.n - 1 - need.list - need.other - need.free;
    for (std::size_t k = 0; k < lists; k++) {
        bool fixed = k == p.list && (c.where == alone || c.number == 5);
        std::size_t more = fixed ? 0 : dice.from(0, dice.one_in(2) ? room : std::min<std::size_t>(room, 3));
        room -= more;
        more += k == p.list ? need.list : k == p.home ? need.other : 0;
        for (; more > 0; more--) {
            p.q.list[k].push_back({p.q.free.front(), dice.value()});
            p.q.free.pop_front();
        }
    }
}

// Shares and limits that the lists keep, and for which a push gets the case's number.
inline void rule(Dice &dice, const Case &c, Pool &p)
{
    std::size_t lists = p.q.list.size();
    bool done_push = pushes(c.call) && c.number == 0;
    std::size_t spare = p.q.free.size() - (done_push ? 1 : 0);
    std::size_t lacks_all = (p.list + dice.from(1, std::max<std::size_t>(lists, 2) - 1)) % lists;
    for (std::size_t k = 0; k < lists; k++) {
        std::size_t have = p.q.list[k].size();
        bool asked = k == p.list;
        std::size_t lack = dice.one_in(2) ? 0 : dice.from(0, spare);
        if (c.number == 7)
            lack = k == lacks_all ? spare : 0;
        if (c.number == 6 && asked)
            lack = 0;
        spare -= lack;
        std::size_t share = lack > 0 ? have + lack : dice.from(0, have);
        std::size_t least = std::max(share, have + (asked && (done_push || c.number == 7) ? 1 : 0));
        std::size_t limit = dice.one_in(2) ? c.n - 1 : dice.from(least, c.n - 1);
        p.q.share.push_back(static_cast<std::uint16_t>(share));
        p.q.limit.push_back(static_cast<std::uint16_t>(c.number == 6 && asked ? have : limit));
    }
}

// Breaks the rule of that number first; the block's slot keeps its value.
inline void damage(Dice &dice, const Case &c, Pool &p)
{
    const model::Memory whole = p.m;
    while (model::first_broken(p.m).number != c.number) {
        p.m = whole;
        model::Harm(dice, p.q, p.m).breaks(c.number);
        // The block was in this slot, and the rule is broken by that.
        if (c.where == free_slot && c.number == 14)
            p.m.values = whole.values;
        if (c.where == null_slot)
            p.m.values[0] = whole.values[0];
    }
}

// Changes words that a quick call looks at, until it gives 17. The values stay.
inline void damage_quick(Dice &dice, Pool &p)
{
    const model::Memory whole = p.m;
    do {
        p.m = whole;
        flailreeve_book &book = p.m.book;
        flailreeve_list &entry = book.list[p.list];
        std::uint16_t *const words[] = {&entry.head,        &entry.tail,       &entry.length, &book.free_head, &book.free_count, &book.lists,
                                        &p.m.links[entry.head], &p.m.links[entry.tail]};
        for (std::size_t left = dice.from(1, 3); left > 0; left--)
            *dice.one_of(words) = dice.half(0, dice.one_in(2) ? p.q.n : 65535);
    } while (quick::Reading(p.ask, p.m).answer().number != model::quick_rest);
}

// What setup is asked: the rules of the pool as it is, and for number 2 with something that breaks them.
inline void ask_setup(Dice &dice, const Case &c, Pool &p)
{
    p.ask.lists = static_cast<std::uint16_t>(p.q.list.size());
    std::copy(p.q.share.begin(), p.q.share.end(), p.ask.shares);
    std::copy(p.q.limit.begin(), p.q.limit.end(), p.ask.limits);
    if (c.number != 2)
        return;
    switch (dice.from(0, 3)) {
    case 0:
        p.ask.lists = 0;
        break;
    case 1:
        p.ask.lists = 9;
        break;
    case 2:
        p.ask.limits[p.list] = static_cast<std::uint16_t>(c.n);
        break;
    default:
        p.ask.shares[p.list] = static_cast<std::uint16_t>(p.ask.limits[p.list] + 1);
    }
}

// The buffer of a read and the place in it: with room for the list, or for number 8 without.
inline void ask_read(Dice &dice, const Case &c, Pool &p)
{
    std::size_t length = p.q.list[p.list].size();
    std::size_t out = c.number == 8 ? dice.from(1, length + 3) : length + dice.from(1, 3);
    std::size_t too_far = out >= length ? out - length + 1 : 0;
    p.m.out.resize(out);
    for (std::uint64_t &cell : p.m.out)
        cell = dice.value();
    p.ask.at = c.number == 8 ? dice.from(too_far, out + 1) : dice.from(0, out - length);
}

// Puts the block where the case has it, in the cells and words that are lent.
inline void put(Dice &dice, const Case &c, Pool &p, std::uint64_t block)
{
    std::deque<model::Element> &list = p.q.list[p.home];
    if (c.where == alone || c.where == first)
        list.front().value = block;
    if (c.where == middle)
        list[dice.from(1, list.size() - 2)].value = block;
    if (c.where == last)
        list.back().value = block;
    if (c.where == other_list)
        list[dice.from(0, list.size() - 1)].value = block;
    model::write_down(p.q, p.m);
    if (c.where == free_slot)
        p.m.values[p.q.free[dice.from(0, p.q.free.size() - 1)]] = block;
    if (c.where == null_slot)
        p.m.values[0] = block;
    p.m.word = c.where == value_word ? block : dice.word();
    p.ask.value = c.where == argument ? block : dice.value();
    if (c.where == read_buffer)
        p.m.out[dice.from(0, p.m.out.size() - 1)] = block;
}

inline Pool make(Dice &dice, const Case &c, std::uint64_t block)
{
    Pool p;
    fill(dice, c, p);
    rule(dice, c, p);
    std::size_t lists = p.q.list.size();
    const std::size_t missing[] = {lists, lists + 1, 8, 255, 65535};
    p.ask.call = c.call;
    p.ask.list = static_cast<std::uint16_t>(c.number == 4 ? dice.one_of(missing) : p.list);
    if (c.call == model::setup)
        ask_setup(dice, c, p);
    if (reads(c.call))
        ask_read(dice, c, p);
    put(dice, c, p, block);
    if (c.number == model::quick_rest)
        damage_quick(dice, p);
    else if (c.number >= model::first_rule)
        damage(dice, c, p);
    if (c.number == 1 && dice.one_in(2))
        p.m.links.resize(dice.one_in(2) ? c.n - 1 : c.n + 1);
    else if (c.number == 1)
        p.m.values.push_back(0);
    return p;
}

}  // namespace cases
