// Makes one call on lent memory and holds everything that it leaves against the model: the number, the place, every cell, every
// guard word.
#pragma once

#include <csignal>
#include <unistd.h>

#include "counts.hpp"
#include "lent.hpp"
#include "model.hpp"

inline unsigned long made;            // calls made
inline unsigned long cells_compared;  // cells and words compared with the model's, or with those of before
inline unsigned long places_compared; // places compared with the model's, both words
inline unsigned long never_written;   // calls made on memory that cannot be written

// A call that touches memory it was not lent, or writes to what it may only read, ends here.
inline void on_fault(int)
{
    static const char words[] = ": a call touched memory that it was not lent, or wrote to memory that it may only read\n";
    (void)!write(STDOUT_FILENO, "tests/c: FAILED in ", 19);
    (void)!write(STDOUT_FILENO, doing, std::strlen(doing));
    (void)!write(STDOUT_FILENO, words, sizeof words - 1);
    _exit(1);
}

inline void catch_faults()
{
    struct sigaction act = {};
    act.sa_handler = on_fault;
    sigaction(SIGSEGV, &act, nullptr);
    sigaction(SIGBUS, &act, nullptr);
}

// The memory that is lent, one buffer for each pointer of the header.
class Ground {
public:
    // Makes the call on a copy of m and compares. With `locked`, a call that the model refuses finds links, values, the book
    // and the buffer in memory that cannot be written; and one that only reads finds links, values and the book so.
    std::uint16_t run(const model::Ask &ask, const model::Memory &m, bool locked = false)
    {
        model::Memory want = m;
        std::uint16_t number = model::answer(ask, want);
        run(ask, m, want, number, locked);
        return number;
    }

    // The same where the caller knows what is to come.
    void run(const model::Ask &ask, const model::Memory &m, const model::Memory &want, std::uint16_t number, bool locked = false)
    {
        lay(ask, m);
        bool refused = number != 0;
        bool lock = locked && (refused || only_reads(ask.call));
        if (lock)
            protect(true, refused);
        std::uint16_t got = call(ask);
        if (lock)
            protect(false, refused);
        never_written += lock;
        made++;
        if (got != number)
            fail("%s gave %u, the model says %u", model::names[ask.call], got, number);
        counts::count(ask.call, m.links.size(), got, want.place, m.book.lists);
        compare(ask, want);
    }

    // Makes the call on a copy of m and compares nothing; the number is the call's own.
    std::uint16_t only(const model::Ask &ask, const model::Memory &m)
    {
        lay(ask, m);
        made++;
        return call(ask);
    }

    // What the last call left: links, values, the book and the value handed out.
    void left(model::Memory &m)
    {
        m.links.assign(links.data(), links.data() + links.size());
        m.values.assign(values.data(), values.data() + values.size());
        m.book = *book.data();
        m.word = *value.data();
    }

    Spot spot = Spot::between;

private:
    Lent<std::uint16_t> links{4100};
    Lent<std::uint64_t> values{4100};
    Lent<flailreeve_book> book{1};
    Lent<std::uint64_t> out{4200};
    Lent<std::uint64_t> value{1};
    Lent<std::uint16_t> small{1};
    Lent<std::uint16_t> shares{8};
    Lent<std::uint16_t> limits{8};
    Lent<flailreeve_place> place{1};
    flailreeve_place laid = {};

    // What the place holds before a call: other words each time, and words that no place has, so that one that is not written, or
    // is written in half, is seen.
    static flailreeve_place no_place()
    {
        unsigned long mixed = made * 40503u + 12345;
        return {static_cast<std::uint16_t>(mixed | 0x8000), static_cast<std::uint16_t>(mixed >> 7 | 0x8000)};
    }

    void lay(const model::Ask &ask, const model::Memory &m)
    {
        std::uint16_t low = static_cast<std::uint16_t>(m.word);
        links.put(m.links.data(), m.links.size(), spot);
        values.put(m.values.data(), m.values.size(), spot);
        book.put(&m.book, 1, spot);
        out.put(m.out.data(), m.out.size(), spot);
        value.put(&m.word, 1, spot);
        small.put(&low, 1, spot);
        shares.put(ask.shares, 8, spot);
        limits.put(ask.limits, 8, spot);
        laid = no_place();
        place.put(&laid, 1, spot);
    }

    static bool only_reads(model::Call call)
    {
        return call == model::check || call == model::length || model::reads(call);
    }

    void protect(bool on, bool buffer_too)
    {
        on ? links.read_only() : links.writable();
        on ? values.read_only() : values.writable();
        on ? book.read_only() : book.writable();
        if (buffer_too)
            on ? out.read_only() : out.writable();
    }

    std::uint16_t call(const model::Ask &a)
    {
        std::uint16_t *l = links.data();
        std::uint64_t *v = values.data();
        std::size_t ln = links.size(), vn = values.size();
        flailreeve_book *b = book.data();
        flailreeve_place *p = place.data();
        switch (a.call) {
        case model::setup:
            return flailreeve_setup(l, ln, v, vn, a.lists, shares.data(), limits.data(), b);
        case model::check:
            return flailreeve_check(l, ln, v, vn, b, p);
        case model::length:
            return flailreeve_length(l, ln, v, vn, b, a.list, small.data(), p);
        case model::push_back:
            return flailreeve_push_back(l, ln, v, vn, b, a.list, a.value, p);
        case model::push_front:
            return flailreeve_push_front(l, ln, v, vn, b, a.list, a.value, p);
        case model::pop_back:
            return flailreeve_pop_back(l, ln, v, vn, b, a.list, value.data(), p);
        case model::pop_front:
            return flailreeve_pop_front(l, ln, v, vn, b, a.list, value.data(), p);
        case model::read_forward:
            return flailreeve_read_forward(l, ln, v, vn, b, a.list, out.data(), out.size(), a.at, small.data(), p);
        case model::read_backward:
            return flailreeve_read_backward(l, ln, v, vn, b, a.list, out.data(), out.size(), a.at, small.data(), p);
        case model::clear:
            return flailreeve_clear(l, ln, v, vn, b, a.list, p);
        default:
            return quick_call(a);
        }
    }

    std::uint16_t quick_call(const model::Ask &a)
    {
        std::uint16_t *l = links.data();
        std::uint64_t *v = values.data();
        std::size_t ln = links.size(), vn = values.size();
        flailreeve_book *b = book.data();
        switch (a.call) {
        case model::quick_push_back:
            return flailreeve_quick_push_back(l, ln, v, vn, b, a.list, a.value);
        case model::quick_push_front:
            return flailreeve_quick_push_front(l, ln, v, vn, b, a.list, a.value);
        case model::quick_pop_back:
            return flailreeve_quick_pop_back(l, ln, v, vn, b, a.list, value.data());
        default:
            return flailreeve_quick_pop_front(l, ln, v, vn, b, a.list, value.data());
        }
    }

    template <typename T>
    void same(const model::Ask &ask, const char *what, const T *got, const T *want, std::size_t many)
    {
        cells_compared += many;
        if (many == 0 || std::memcmp(got, want, many * sizeof(T)) == 0)
            return;
        std::size_t at = 0;
        while (got[at] == want[at])
            at++;
        fail("%s left %s %zu at %llu, the model says %llu", model::names[ask.call], what, at,
             static_cast<unsigned long long>(got[at]), static_cast<unsigned long long>(want[at]));
    }

    void compare(const model::Ask &ask, const model::Memory &want)
    {
        std::uint16_t low = static_cast<std::uint16_t>(want.word);
        flailreeve_place there = model::has_place(ask.call) ? want.place : laid;  // setup and the quick calls are lent none
        bool wide = model::pops(ask.call);
        same(ask, "link", links.data(), want.links.data(), want.links.size());
        same(ask, "value", values.data(), want.values.data(), want.values.size());
        same(ask, "word of the book", reinterpret_cast<const std::uint16_t *>(book.data()),
             reinterpret_cast<const std::uint16_t *>(&want.book), model::book_words);
        same(ask, "cell of the buffer", out.data(), want.out.data(), want.out.size());
        if (wide)
            same(ask, "the value handed out,", value.data(), &want.word, 1);
        else
            same(ask, "the length or count handed out,", small.data(), &low, 1);
        same(ask, "the place's list,", &place.data()->list, &there.list, 1);
        same(ask, "the place's position,", &place.data()->position, &there.position, 1);
        places_compared++;
        same(ask, "share", shares.data(), ask.shares, 8);
        same(ask, "limit", limits.data(), ask.limits, 8);
        if (!links.guarded() || !values.guarded() || !book.guarded() || !out.guarded() || !value.guarded() ||
            !small.guarded() || !shares.guarded() || !limits.guarded() || !place.guarded())
            fail("%s wrote beside a lent buffer", model::names[ask.call]);
    }
};
