// Where the block goes. A 64-bit block that nothing else holds is put wherever it can be when a call is made: into a list, into
// a push's argument, into the words and buffers that are lent, into a damaged pool's free slots. After every one of the fourteen
// calls, done or refused, the dead stack below the caller is searched for it; after setup, a pop and a clear both lent buffers
// and the book are too. It shows the counts, how deep each call's stack went, and which registers hold the block when a call
// returns.
//
//     block           shows how many copies lie in the dead stack
//     block FILE      and holds every case to no more of them than FILE says, which is what an earlier run has shown; an empty
//                     file says that there are none
#include <algorithm>
#include <cstdio>
#include <fstream>
#include <iterator>
#include <string>

#include "cases.hpp"
#include "lent.hpp"
#include "stack.hpp"

using cases::Case;

// The block is the sum of these two, so that no constant of the program is the block. No byte of it is one of the paints.
static volatile std::uint64_t half_of_block = 0x2d97a1c35b80e46fu;
static volatile std::uint64_t rest_of_block = 0x3fa3f133f347bceau;

static std::uint64_t block() { return half_of_block + rest_of_block; }

static Painted pool;

// The sizes at which every case is to be seen: the smallest and the largest pool, a small one, and the first that has the large
// record of slots met.
static constexpr std::size_t sizes[] = {2, 64, 257, 4096};

static struct {
    unsigned in_memory, most_in_stack, times;
    std::size_t depth, refused_depth;
    bool in_register[Registers::all];
} seen[model::calls];

// The same for each case: how often it was made at each size, and the most copies at any size.
static struct {
    unsigned times[std::size(sizes)], copies;
    std::size_t n;
} told[model::calls][model::numbers][cases::wheres];

static unsigned in_memory(const model::Memory &m)
{
    return copies_in(m.links.data(), m.links.size() * 2, block()) + copies_in(m.values.data(), m.values.size() * 8, block()) +
           copies_in(&m.book, sizeof m.book, block());
}

static std::string sentence(const Case &c)
{
    return std::string(model::names[c.call]) + " with number " + std::to_string(c.number) + " and the block " + cases::words[c.where];
}

// Is the block in none of the lent cells when the call has been done?
static bool ends_stay(const Case &c)
{
    bool front = c.where == cases::alone || c.where == cases::first;
    bool back = c.where == cases::alone || c.where == cases::last;
    bool end = cases::pops(c.call) && (model::at_back(c.call) ? back : front);
    return c.number == 0 && (c.call == model::setup || end || (c.call == model::clear && cases::in_the_list(c.where)));
}

// Writes down what a call has left.
static void note(const Case &c)
{
    auto &s = seen[c.call];
    auto &t = told[c.call][c.number][c.where];
    std::size_t depth = pool.stack.depth();
    unsigned copies = pool.stack.copies(block(), c.where == cases::argument);
    s.times++;
    s.depth = std::max(s.depth, c.number == 0 ? depth : 0);
    s.refused_depth = std::max(s.refused_depth, c.number != 0 ? depth : 0);
    s.most_in_stack = std::max(s.most_in_stack, copies);
    if (copies > t.copies) {
        t.copies = copies;
        t.n = c.n;
    }
    for (std::size_t i = 0; i < std::size(sizes); i++)
        t.times[i] += c.n == sizes[i];
    for (int r = 0; r < Registers::all && c.number == 0; r++) {
        const Registers &now = pool.registers;
        bool general = r < Registers::general;
        const std::uint64_t *at = general ? &now.word[r] : now.pair[r - Registers::general];
        s.in_register[r] |= copies_in(at, general ? 8 : 16, block()) != 0;
    }
    if (!ends_stay(c))
        return;
    s.in_memory += in_memory(pool.m);
    if (cases::pops(c.call) && pool.value != block())
        fail("%s handed out something else", model::names[c.call]);
}

// Makes a call twice from the same memory, on a stack painted in two colours: a byte that the call wrote differs from one of them.
static void make(Dice &dice, const Case &c)
{
    cases::Pool p = cases::make(dice, c, block());
    unsigned put = in_memory(p.m) + copies_in(p.m.out.data(), p.m.out.size() * 8, block()) + (p.m.word == block()) +
                   (p.ask.value == block());
    if (put != 1)
        fail("the block is in %u places, not %s alone", put, cases::words[c.where]);
    model::Memory after = p.m;
    if (model::answer(p.ask, after) != c.number)
        fail("there is another number for %s, with N = %zu", sentence(c).c_str(), c.n);
    for (unsigned char paint : {0x5a, 0xc3}) {
        pool.m = p.m;
        pool.value = p.m.word;
        std::uint16_t got = pool.call(p.ask, paint);
        if (got != c.number)
            fail("%s gave %u in a pool of %zu slots, not %u", model::names[c.call], got, c.n, c.number);
        if (model::has_place(c.call) && (pool.m.place.list != after.place.list || pool.m.place.position != after.place.position))
            fail("%s gave the place %u, %u in a pool of %zu slots, not %u, %u", model::names[c.call], pool.m.place.list,
                 pool.m.place.position, c.n, after.place.list, after.place.position);
        note(c);
    }
}

// What is done with each case that there can be.
template <typename Do>
static void every_case(std::size_t n, Do what)
{
    for (int call = 0; call < model::calls; call++)
        for (std::uint16_t number = 0; number < model::numbers; number++)
            for (int where = 0; where < cases::wheres; where++) {
                Case c = {static_cast<model::Call>(call), number, static_cast<cases::Where>(where), n};
                if (cases::possible(c))
                    what(c);
            }
}

// A PIN is entered and Cancel is pressed: a push and then a clear from the same caller, the stack as the push left it.
static struct {
    unsigned times, in_memory, in_stack;
} cancelled;

static void cancel(Dice &dice, std::size_t n)
{
    model::Queues q = model::random_queues(dice, n);
    model::Queues with = q;
    model::Ask ask;
    const model::Call any_push[] = {model::push_back, model::push_front, model::quick_push_back, model::quick_push_front};
    ask.call = dice.one_of(any_push);
    ask.list = dice.half(0, q.list.size() - 1);
    ask.value = block();
    if (model::push(ask, with) != 0)
        return;
    model::write_down(q, pool.m);
    std::uint16_t pushed = pool.call(ask, 0x5a);
    ask.call = model::clear;
    ask.value = 0;
    std::uint16_t cleared = pool.call(ask);
    if (pushed != 0 || cleared != 0)
        fail("a push gave %u, and a clear after it %u", pushed, cleared);
    cancelled.times++;
    cancelled.in_memory += in_memory(pool.m);
    cancelled.in_stack += pool.stack.copies(block(), false);
}

static void show()
{
    std::printf("%-17s %6s %18s %18s %12s %12s\n", "the block", "times", "in lent memory", "in the dead stack", "stack, bytes",
                "refused");
    for (int call = 0; call < model::calls; call++) {
        const auto &s = seen[call];
        std::printf("%-17s %6u ", model::names[call], s.times);
        if (call == model::setup || call == model::clear || cases::pops(static_cast<model::Call>(call)))
            std::printf("%18u ", s.in_memory);
        else
            std::printf("%18s ", "-");
        std::printf("%18u %12zu %12zu\n", s.most_in_stack, s.depth, s.refused_depth);
    }
    std::printf("a push and then a clear from one caller, %u times: in lent memory %u, in the dead stack %u\n", cancelled.times,
                cancelled.in_memory, cancelled.in_stack);
    for (int call = 0; call < model::calls; call++) {
        const char *between = " ";
        std::printf("registers that hold the block after %s:", model::names[call]);
        for (int r = 0; r < Registers::all; r++)
            if (seen[call].in_register[r]) {
                std::printf("%s%s", between, Registers::names[r]);
                between = ", ";
            }
        std::printf("%s\n", *between == ' ' ? " none" : "");
    }
}

// Every case that there can be has been made at every size; and each one that leaves copies in the dead stack is named.
static void show_cases()
{
    for (std::size_t i = 0; i < std::size(sizes); i++) {
        unsigned many = 0;
        every_case(sizes[i], [&](const Case &c) {
            many++;
            if (told[c.call][c.number][c.where].times[i] == 0)
                fail("%s was never made with N = %zu", sentence(c).c_str(), c.n);
        });
        std::printf("%u cases of a call, its number and the block's place were made with N = %zu\n", many, sizes[i]);
    }
    every_case(sizes[std::size(sizes) - 1], [](const Case &c) {
        const auto &t = told[c.call][c.number][c.where];
        if (t.copies != 0)
            std::printf("in the dead stack: %s, copies: %u (N = %zu)\n", sentence(c).c_str(), t.copies, t.n);
    });
}

static void hold()
{
    if (cancelled.times == 0 || cancelled.in_memory != 0 || cancelled.in_stack != 0)
        fail("a push and then a clear leave the block");
    for (model::Call call : {model::setup, model::pop_back, model::pop_front, model::clear, model::quick_pop_back, model::quick_pop_front})
        if (seen[call].in_memory != 0)
            fail("after %s the block is still in lent memory", model::names[call]);
    for (const auto &s : seen)
        if (std::max(s.depth, s.refused_depth) > 4608)  // 4.5 KiB, as the header says
            fail("a call uses %zu bytes of stack", std::max(s.depth, s.refused_depth));
    std::size_t record = 4096, room = 256;
    if (seen[model::check].depth >= record + room)
        fail("the check's stack, less its record of slots met, is %zu bytes, not under %zu", seen[model::check].depth - record, room);
}

// Holds every case to the copies in the dead stack that an earlier run has shown for it.
static void hold_copies(const char *file)
{
    std::ifstream from(file);
    if (!from)
        fail("%s cannot be read", file);
    std::string shown((std::istreambuf_iterator<char>(from)), std::istreambuf_iterator<char>());
    every_case(sizes[std::size(sizes) - 1], [&](const Case &c) {
        const auto &t = told[c.call][c.number][c.where];
        std::string words = "in the dead stack: " + sentence(c) + ", copies: ";
        std::size_t at = shown.find(words);
        unsigned long known = at == std::string::npos ? 0 : std::strtoul(shown.c_str() + at + words.size(), nullptr, 10);
        if (t.copies > known)
            fail("%s leaves it in the dead stack, copies: %u (N = %zu)", sentence(c).c_str(), t.copies, t.n);
    });
}

int main(int count, char **arguments)
{
    Dice dice(6);
    std::snprintf(doing, sizeof doing, "the search for the block");
    auto made = [&](const Case &c) { make(dice, c); };
    for (unsigned i = 0; i < 24; i++)
        every_case(dice.from(2, 12), made);
    // A broken rule is met in large pools once, the other numbers four times.
    auto no_rule = [&](const Case &c) {
        if (c.number < model::first_rule)
            make(dice, c);
    };
    for (std::size_t n : sizes) {
        every_case(n, made);
        for (unsigned i = 0; i < 3; i++)
            n < 257 ? every_case(n, made) : every_case(n, no_rule);
    }
    for (std::size_t n : {256, 1024, 4095})
        every_case(n, no_rule);
    for (unsigned i = 0; i < 400; i++)
        cancel(dice, dice.from(2, 12));
    for (std::size_t n : {64, 256, 257, 4096})
        for (unsigned i = 0; i < 12; i++)
            cancel(dice, n);
    show();
    show_cases();
    hold();
    if (count > 1)
        hold_copies(arguments[1]);
    return 0;
}
