// Every tiny pool: the check is held against the set of all pools that have sequences, made by listing the sequences.
//
// Each way to put the slots 1 to N-1 in order and cut them into L lists and the free slots is written down as cells, with the
// counts that it has. These are all the sound pools there are; nothing is walked. Then every choice of links below 8, heads, tails
// and free head is handed to the check, with some counts; and where there are sequences, with every count that is near. Which rule
// is broken, and where, the model says of each.
#pragma once

#include <algorithm>
#include <numeric>
#include <unordered_map>

#include "ground.hpp"

class Tiny {
public:
    unsigned long pools = 0, sound_pools = 0, miscounted = 0, by_definition = 0;

    // All pools of n slots and these lists; shares and limits are one for each list. `every` n-th pool is held against the model's
    // definition of sound too.
    void all(std::size_t slots, const std::vector<std::uint16_t> &shares, const std::vector<std::uint16_t> &limits,
             unsigned long every)
    {
        n = slots;
        share = shares;
        limit = limits;
        list_sound_pools();
        m.links.resize(n);
        m.values.resize(n);
        // Which slots hold a value that is not 0. In pools of four slots not every choice is tried for each share and limit.
        const unsigned all_but_null = (1u << n) - 2;
        bool full = share.size() == 1 && (n < 4 || (share[0] == 0 && limit[0] == 3));
        for (unsigned mask = 0; mask < 1u << n; mask++)
            if (full || mask == 0 || mask == all_but_null || (n == 4 && share.size() == 1 && mask == 4 + 8))
                all_cells(mask, 0, every);
        if (n < 4)
            all_cells(0, 1, every);
        for (const model::Queues &q : shapes)
            call_everything(q);
    }

    // All books of n slots and up to three lists whose words are at most n, and some that are not so; over some pools that are sound
    // but for the book, and some that are not, with slot 0 as it should be and not.
    void books(std::size_t slots)
    {
        n = slots;
        m.links.assign(n, 0);
        m.values.assign(n, 0);
        for (unsigned cells = 0; cells < 12; cells++)
            for (std::uint16_t lists : {0, 1, 2, 3, 8, 9, 256, 257, 65535})
                for (unsigned strange = 0; strange <= 33; strange += lists < 8 || strange < 3 ? 1 : 31)
                    all_rules(cells, lists, strange);
    }

    void say() const
    {
        std::printf("  %lu pools through the check, %lu of them sound and %lu but for their counts, %lu by the definition of sound too\n",
                    pools, sound_pools, miscounted, by_definition);
        for (std::size_t slots = 2; slots <= 4; slots++) {
            std::printf("  of %zu slots:", slots);
            for (int number = model::first_rule; number <= model::last_rule; number++) {
                std::printf("%s %d %lu times", number == model::first_rule ? "" : ",", number, times[slots][number]);
                if (times[slots][number] == 0)
                    fail("%d was never given for a pool of %zu slots", number, slots);
            }
            std::printf("\n");
        }
    }

private:
    std::size_t n = 0;
    std::vector<std::uint16_t> share, limit;
    std::vector<model::Queues> shapes;
    std::unordered_map<std::uint64_t, std::size_t> shape_of;  // the cells of each sound pool, and which of the shapes it is
    model::Memory m;
    Ground ground;
    unsigned long times[5][model::numbers] = {};  // how often each number was given, by the number of slots

    // Links and book in one number: 3 bits are enough for each.
    std::uint64_t key(const std::uint16_t *links, const flailreeve_book &book) const
    {
        std::uint64_t k = links[0];
        for (std::size_t slot = 1; slot < n; slot++)
            k = k << 3 | links[slot];
        for (std::size_t i = 0; i < share.size(); i++)
            k = k << 6 | static_cast<unsigned>(book.list[i].head << 3) | book.list[i].tail;
        return k << 3 | book.free_head;
    }

    void list_sound_pools()
    {
        std::vector<std::uint16_t> order(n - 1);
        std::iota(order.begin(), order.end(), static_cast<std::uint16_t>(1));
        shapes.clear();
        shape_of.clear();
        do {
            model::Queues q;
            q.n = n;
            q.share = share;
            q.limit = limit;
            cut(order, 0, q);
        } while (std::next_permutation(order.begin(), order.end()));
    }

    // The slots from `at` on are cut into the lists that are still to come, and the rest is free.
    void cut(const std::vector<std::uint16_t> &order, std::size_t at, const model::Queues &so_far)
    {
        if (so_far.list.size() == share.size()) {
            model::Queues q = so_far;
            q.free.assign(order.begin() + static_cast<long>(at), order.end());
            keep(q);
            return;
        }
        for (std::size_t end = at; end <= order.size(); end++) {
            model::Queues q = so_far;
            q.list.emplace_back();
            for (std::size_t i = at; i < end; i++)
                q.list.back().push_back({order[i], 0});
            cut(order, end, q);
        }
    }

    void keep(const model::Queues &q)
    {
        for (std::size_t k = 0; k < q.list.size(); k++)
            if (q.list[k].size() > q.limit[k])
                return;
        if (model::lacks(q) > q.free.size())
            return;
        model::write_down(q, m);
        if (!shape_of.emplace(key(m.links.data(), m.book), shapes.size()).second)
            fail("two different sequences fit one pool of %zu slots", n);
        shapes.push_back(q);
    }

    // Every share and limit up to n of lists 0 and 1. `cells` says what the pool is like: from 4 on slot 1 is list 0's and from 8 on
    // list 1's, else all are free; bit 0 spoils slot 0's link and bit 1 its value. `strange` is 0, or says which count is one too high, from
    // 1 to 3 list 0's, list 1's and that of the free slots, or from 4 on which word of entries 2 to 7 is 1.
    void all_rules(unsigned cells, std::uint16_t lists, unsigned strange)
    {
        std::memset(&small, 0xd6, sizeof small);
        small.book = {};
        small.book.lists = lists;
        for (std::size_t slot = 0; slot < n; slot++) {
            small.values[slot] = slot == 0 ? cells >> 1 & 1 : 0;
            small.links[slot] = static_cast<std::uint16_t>(slot == 0 ? cells & 1 : slot + 1 < n ? slot + 1 : 0);
        }
        small.book.free_head = 1;
        small.book.free_count = static_cast<std::uint16_t>(n - 1);
        if (cells >= 4) {
            flailreeve_list &holder = small.book.list[cells >= 8];
            small.book.free_head = small.links[1];
            small.book.free_count--;
            holder.head = holder.tail = holder.length = 1;
            small.links[1] = 0;
        }
        flailreeve_list &one = small.book.list[0], &two = small.book.list[1];
        one.length += strange == 1;
        two.length += strange == 2;
        small.book.free_count += strange == 3;
        if (strange > 3)
            reinterpret_cast<std::uint16_t *>(&small.book)[1 + 5 * 2 + strange - 4] = 1;
        for (one.share = 0; one.share <= n; one.share++)
            for (one.limit = 0; one.limit <= n; one.limit++)
                for (two.share = 0; two.share <= n; two.share++)
                    for (two.limit = 0; two.limit <= n; two.limit++)
                        check(3);
    }

    // What the check is lent, with guard words between the parts.
    struct Small {
        std::uint64_t guard0;
        std::uint64_t values[4];
        std::uint64_t guard1;
        std::uint16_t links[4];
        std::uint64_t guard2;
        flailreeve_book book;
        std::uint16_t guard3[2];
        flailreeve_place place;
        std::uint16_t guard4[2];
    };
    Small small = {};

    // Goes through links, heads, tails and the free head. A value that is not 0 stands in each slot of the mask.
    void all_cells(unsigned mask, std::uint16_t null_link, unsigned long every)
    {
        std::vector<std::uint16_t *> digit;
        std::vector<std::uint16_t> top;
        std::memset(&small, 0xd6, sizeof small);
        small.book = {};
        small.book.lists = static_cast<std::uint16_t>(share.size());
        for (std::size_t slot = 0; slot < n; slot++) {
            small.values[slot] = mask >> slot & 1 ? 0x100000000u + slot : 0;
            small.links[slot] = slot == 0 ? null_link : 0;
        }
        for (std::size_t slot = 1; slot < n; slot++) {
            digit.push_back(&small.links[slot]);
            top.push_back(7);
        }
        for (std::size_t k = 0; k < share.size(); k++) {
            small.book.list[k].share = share[k];
            small.book.list[k].limit = limit[k];
            digit.push_back(&small.book.list[k].head);
            digit.push_back(&small.book.list[k].tail);
            top.insert(top.end(), 2, static_cast<std::uint16_t>(n));
        }
        digit.push_back(&small.book.free_head);
        top.push_back(static_cast<std::uint16_t>(n));
        for (bool more = true; more;) {
            std::size_t i = 0;
            one(mask, every);
            while (i < digit.size() && *digit[i] == top[i])
                *digit[i++] = 0;
            more = i < digit.size();
            if (more)
                ++*digit[i];
        }
    }

    // Where the cells have no sequences the counts are some or others, and no pool is sound. Where they have, it is sound with the counts of
    // the sequences alone; of any others the lowest list whose count is wrong is known here too.
    void one(unsigned mask, unsigned long every)
    {
        auto found = shape_of.find(key(small.links, small.book));
        if (found == shape_of.end()) {
            small.book.list[0].length = static_cast<std::uint16_t>(pools % (n + 1));
            small.book.list[1].length = static_cast<std::uint16_t>(share.size() > 1 ? pools / 7 % (n + 1) : 0);
            small.book.free_count = static_cast<std::uint16_t>(pools / 3 % (n + 1));
            judged(false, every);
            return;
        }
        const model::Queues &q = shapes[found->second];
        const bool two = share.size() > 1;
        bool wiped = (mask & 1) == 0;
        for (std::uint16_t slot : q.free)
            wiped = wiped && (mask >> slot & 1) == 0;
        for (std::uint16_t zero : near(q.list[0].size()))
            for (std::uint16_t first : two ? near(q.list[1].size()) : std::vector<std::uint16_t>(1))
                for (std::uint16_t free : near(q.free.size())) {
                    bool right = zero == q.list[0].size() && free == q.free.size() && (!two || first == q.list[1].size());
                    small.book.list[0].length = zero;
                    small.book.list[1].length = first;
                    small.book.free_count = free;
                    model::Broken rule = judged(wiped && right, every);
                    if (!wiped || right)
                        continue;
                    std::size_t list = zero != q.list[0].size() ? 0 : two && first != q.list[1].size() ? 1 : share.size();
                    if (rule.number != 16 || rule.place.list != list)
                        fail("the model gives %u and list %u for a pool of %zu slots that is miscounted in list %zu", rule.number,
                             rule.place.list, n, list);
                    miscounted++;
                }
    }

    // The counts that are tried: all up to one more than the pool has slots, and some that are far from this one.
    std::vector<std::uint16_t> near(std::size_t count) const
    {
        std::vector<std::uint16_t> all(n + 2);
        std::iota(all.begin(), all.end(), static_cast<std::uint16_t>(0));
        for (std::size_t far : {count + 256, count + 4096, count + 32768, std::size_t{65535}})
            all.push_back(static_cast<std::uint16_t>(far));
        return all;
    }

    model::Broken judged(bool sound, unsigned long every)
    {
        model::Broken rule = check(every);
        sound_pools += sound;
        if ((rule.number == 0) != sound)
            fail("the model gives %u for %s pool of %zu slots", rule.number, sound ? "a sound" : "an unsound", n);
        return rule;
    }

    // Hands the pool to the check and holds the number and the place against the model's. `every` n-th is held against the model's
    // definition of sound too.
    model::Broken check(unsigned long every)
    {
        std::copy(small.links, small.links + n, m.links.begin());
        std::copy(small.values, small.values + n, m.values.begin());
        m.book = small.book;
        model::Broken rule = pools % every == 0 ? model::judge(m, model::guess(m)) : model::first_broken(m);
        by_definition += pools % every == 0;
        pools++;
        small.place = {static_cast<std::uint16_t>(pools | 0x8000), static_cast<std::uint16_t>(~pools | 0x8000)};
        Small after = small;
        after.place = rule.place;
        std::uint16_t got = flailreeve_check(small.links, n, small.values, n, &small.book, &small.place);
        made++;
        places_compared++;
        reached[model::check][rule.number]++;
        times[n][rule.number]++;
        if (got != rule.number)
            fail("check gave %u for a pool of %zu slots, the model says %u", got, n, rule.number);
        if (small.place.list != rule.place.list || small.place.position != rule.place.position)
            fail("check gave %u at %u, %u for a pool of %zu slots, the model says at %u, %u", got, small.place.list, small.place.position, n,
                 rule.place.list, rule.place.position);
        if (std::memcmp(&after, &small, sizeof small) != 0)
            fail("check changed a pool of %zu slots, its book or a guard word", n);
        return rule;
    }

    // Every call on a sound pool, with every list number up to one too many and each cell of a buffer up to two too many.
    void call_everything(model::Queues q)
    {
        for (auto &list : q.list)
            for (model::Element &e : list)
                e.value = 0x0101010101010101u * e.slot;
        model::write_down(q, m);
        m.out.assign(n, 77);
        m.word = 99;
        for (int c = model::check; c < model::calls; c++) {
            model::Ask ask;
            ask.call = static_cast<model::Call>(c);
            ask.value = 0xfeedfeedfeedfeedu;
            for (ask.list = 0; ask.list <= share.size(); ask.list++)
                for (ask.at = 0; ask.at <= (model::reads(ask.call) ? n + 2 : 0); ask.at++) {
                    ground.spot = static_cast<Spot>(ask.at % 3);
                    ground.run(ask, m);
                }
        }
    }
};
