// Calls that are undone: a push by a pop at the same end, a pop by a push of what it gave, one press at a time and several in a row.
// Quick calls and checked ones are mixed, each pair of them. Each call is judged by the model as always. When a press is undone, every link, value and word of the book is held against a copy
// that was taken before the press, which the model has no part in.
#pragma once

#include "dice.hpp"
#include "ground.hpp"

class Undo {
public:
    explicit Undo(std::uint64_t seed) : dice(seed) {}

    // Random sound pools, their slots in any order; a third of them have no room for a push.
    void on_shapes(unsigned pools)
    {
        for (unsigned i = 0; i < pools; i++) {
            std::size_t n = i % 100 == 0 ? dice.from(65, 4096) : dice.from(2, i % 2 == 0 ? 64 : 8);
            model::Queues q = model::random_queues(dice, n);
            if (i % 3 == 0)
                fill(q);
            m = {};
            model::write_down(q, m);
            for (unsigned row = 0; row < 4; row++)
                presses(row % 2 == 0 ? 1 : dice.from(2, 8));
        }
    }

    // Pools from a setup on: calls that stay, and between them presses that are undone. They fill and then empty.
    void from_setups(unsigned pools)
    {
        static const model::Call filling[] = {model::push_back, model::push_front, model::quick_push_back, model::quick_pop_front};
        static const model::Call emptying[] = {model::quick_pop_back, model::pop_front, model::pop_back, model::quick_push_front, model::clear};
        for (unsigned i = 0; i < pools; i++) {
            std::size_t n = dice.from(2, i % 2 == 0 ? 64 : 8);
            set_up(n);
            for (std::size_t step = 0; step < 3 * n; step++) {
                make(random_press(step < 2 * n ? dice.one_of(filling) : dice.one_of(emptying)));
                if (step % 2 == 0)
                    presses(dice.one_in(4) ? dice.from(2, 12) : 1);
            }
        }
    }

    // How many presses were undone. A case that was never met would be a test that cannot fail.
    void say() const
    {
        std::printf("  %lu pushes taken back, %lu of the last free slot and %lu on an empty list; ", pushes, last_slot, on_empty);
        std::printf("%lu pops put back, %lu at the limit, %lu with no slot to spare (%lu at the share, %lu over it), ", pops, at_limit,
                    none_spare, at_share, over_share);
        std::printf("%lu of a full pool, %lu of a last element; %lu rows of several\n", full, last_element, several);
        met(last_slot, "push that had the last free slot was taken back");
        met(on_empty, "push on an empty list was taken back");
        met(at_limit, "pop from a list at its limit was put back");
        met(none_spare, "pop was put back where no slot was free but those that lists lack");
        met(at_share, "pop from a list at its share was put back where no slot was free but those that lists lack");
        met(over_share, "pop from a list over its share was put back where no slot was free but those that lists lack");
        met(full, "pop from a full pool was put back");
        met(last_element, "pop of a last element was put back");
        met(several, "row of several presses was undone");
        std::printf("  pushes and then pops: ");
        for (int how = 0; how < 4; how++)
            std::printf("%s%s by %s %lu", how == 0 ? "" : ", ", how / 2 ? "quick" : "checked", how % 2 ? "quick" : "checked", taken_back[how]);
        std::printf("; pops and then pushes: ");
        for (int how = 0; how < 4; how++)
            std::printf("%s%s by %s %lu", how == 0 ? "" : ", ", how / 2 ? "quick" : "checked", how % 2 ? "quick" : "checked", put_back[how]);
        std::printf("\n");
        for (int how = 0; how < 4; how++) {
            met(taken_back[how], "push of one of the two kinds was taken back by a pop of one of the two");
            met(put_back[how], "pop of one of the two kinds was put back by a push of one of the two");
        }
    }

private:
    // A press that was done, the value that it pushed or popped, and the memory before it.
    struct Press {
        model::Ask ask;
        std::uint64_t value;
        model::Memory before;
    };

    Dice dice;
    Ground ground;
    model::Memory m;
    std::vector<Press> done;
    unsigned long rows = 0, several = 0;
    unsigned long pushes = 0, last_slot = 0, on_empty = 0;
    unsigned long taken_back[4] = {}, put_back[4] = {};  // 2 more where the press was quick, 1 more where what undid it was
    unsigned long pops = 0, at_limit = 0, none_spare = 0, at_share = 0, over_share = 0, full = 0, last_element = 0;

    static void met(unsigned long times, const char *what)
    {
        if (times == 0)
            fail("no %s, so nothing is known of it", what);
    }

    // The checked call at the same end that undoes a call.
    static model::Call opposite(model::Call call)
    {
        switch (model::checked(call)) {
        case model::push_back:
            return model::pop_back;
        case model::push_front:
            return model::pop_front;
        case model::pop_back:
            return model::push_back;
        default:
            return model::push_front;
        }
    }

    // Each list in turn takes free slots as long as the pool stays sound: by the definition, so that no push need allow it.
    void fill(model::Queues &q)
    {
        for (std::size_t k = 0; k < q.list.size(); k++)
            while (q.list[k].size() < q.limit[k] && (model::lack(q, k) > 0 || model::lacks(q) < q.free.size())) {
                q.list[k].push_back({q.free.front(), dice.value()});
                q.free.pop_front();
            }
    }

    // A setup on memory that holds anything.
    void set_up(std::size_t n)
    {
        model::Ask ask;
        m = {};
        for (std::size_t slot = 0; slot < n; slot++) {
            m.links.push_back(static_cast<std::uint16_t>(dice.word()));
            m.values.push_back(dice.word());
        }
        ask.call = model::setup;
        model::random_rules(dice, n, ask);
        make(ask);
    }

    // Makes the call on the memory that the call before left, not on what the model says that it left. The word to hand a value out to
    // holds another before.
    std::uint16_t make(const model::Ask &ask)
    {
        m.word = dice.word() | 1;
        std::uint16_t number = ground.run(ask, m, dice.one_in(8));
        ground.left(m);
        return number;
    }

    model::Ask random_press(model::Call call)
    {
        model::Ask ask;
        ask.call = call;
        ask.list = dice.half(0, m.book.lists - 1u);
        ask.value = dice.value();
        return ask;
    }

    // Presses in a row, on one list or on several. Then those that were done are undone, the last one first.
    void presses(std::size_t many)
    {
        static const model::Call ends[] = {model::push_back, model::push_front, model::pop_back, model::pop_front, model::quick_push_back,
                                           model::quick_push_front, model::quick_pop_back, model::quick_pop_front};
        const model::Memory start = m;
        ground.spot = static_cast<Spot>(rows++ % 3);
        for (; many > 0; many--) {
            model::Ask ask = random_press(dice.one_of(ends));
            if (!done.empty() && dice.one_in(2))
                ask.list = done.back().ask.list;
            press(ask);
        }
        several += done.size() > 1;
        for (; !done.empty(); done.pop_back())
            undo(done.back());
        as_before(start, "a row of presses");
    }

    // A refused press leaves nothing to undo.
    void press(const model::Ask &ask)
    {
        Press one = {ask, ask.value, m};
        if (make(ask) != 0)
            return;
        if (!model::pushes(ask.call))
            one.value = m.word;
        done.push_back(one);
    }

    void undo(const Press &one)
    {
        model::Ask back;
        back.call = opposite(one.ask.call);
        if (dice.one_in(2))
            back.call = model::quick_of(back.call);
        back.list = one.ask.list;
        back.value = one.value;
        std::uint16_t number = make(back);
        if (number != 0)
            fail("%s was done, and %s to undo it was refused by %u", model::names[one.ask.call], model::names[back.call], number);
        if (model::pushes(one.ask.call) && m.word != one.value)
            fail("%s took %llu, and %s gave %llu back", model::names[one.ask.call], static_cast<unsigned long long>(one.value),
                 model::names[back.call], static_cast<unsigned long long>(m.word));
        as_before(one.before, model::names[one.ask.call]);
        count(one, 2 * model::is_quick(one.ask.call) + model::is_quick(back.call));
    }

    void as_before(const model::Memory &before, const char *what) const
    {
        same(what, "link", m.links.data(), before.links.data(), before.links.size());
        same(what, "value", m.values.data(), before.values.data(), before.values.size());
        same(what, "word of the book", reinterpret_cast<const std::uint16_t *>(&m.book),
             reinterpret_cast<const std::uint16_t *>(&before.book), model::book_words);
    }

    template <typename T>
    static void same(const char *what, const char *cell, const T *now, const T *before, std::size_t many)
    {
        cells_compared += many;
        if (std::memcmp(now, before, many * sizeof(T)) == 0)
            return;
        std::size_t at = 0;
        while (now[at] == before[at])
            at++;
        fail("%s was undone and left %s %zu at %llu, before it was %llu", what, cell, at,
             static_cast<unsigned long long>(now[at]), static_cast<unsigned long long>(before[at]));
    }

    // Which of the cases that could go wrong the press was.
    void count(const Press &one, int how)
    {
        model::Queues q = model::guess(one.before);
        std::size_t length = q.list[one.ask.list].size();
        if (model::pushes(one.ask.call)) {
            pushes++;
            taken_back[how]++;
            last_slot += q.free.size() == 1;
            on_empty += length == 0;
            return;
        }
        bool spare = q.free.size() > model::lacks(q);
        pops++;
        put_back[how]++;
        at_limit += length == q.limit[one.ask.list];
        none_spare += !spare;
        at_share += !spare && length == q.share[one.ask.list];
        over_share += !spare && length > q.share[one.ask.list];
        full += q.free.empty();
        last_element += length == 1;
    }
};
