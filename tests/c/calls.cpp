// The fourteen calls of a library, by way of include/flailreeve.h, against the model: 01's pools, pools broken or miscounted by hand,
// every tiny pool, random sequences, random sound pools, damaged ones, wrong sizes and wrong setups, presses undone; quick calls and
// checked ones mixed in all of these. Fixed seeds; it ends with the tables of numbers. quick.cpp has what is of quick calls alone.
#include <cstdlib>
#include <ctime>

#include "damage.hpp"
#include "miscounts.hpp"
#include "places.hpp"
#include "pools.hpp"
#include "tiny.hpp"
#include "undo.hpp"

static Ground ground;

static void now(const char *what)
{
    std::snprintf(doing, sizeof doing, "%s", what);
}

// Every tiny pool of 2, 3 and 4 slots with one or two lists.
static void tiny()
{
    Tiny tiny;
    for (std::uint16_t n = 2; n <= 3; n++)
        for (std::uint16_t limit = 0; limit < n; limit++)
            for (std::uint16_t share = 0; share <= limit; share++) {
                tiny.all(n, {share}, {limit}, 1);
                tiny.all(n, {share, 0}, {limit, static_cast<std::uint16_t>(n - 1)}, 5);
                tiny.all(n, {0, share}, {static_cast<std::uint16_t>(n - 1 - limit), limit}, 5);
            }
    for (std::uint16_t limit = 0; limit < 4; limit++)
        for (std::uint16_t share = 0; share <= limit; share++)
            tiny.all(4, {share}, {limit}, 11);
    tiny.all(4, {0, 0}, {3, 3}, 97);
    tiny.all(4, {0, 2}, {1, 2}, 97);
    tiny.all(4, {2, 0}, {3, 1}, 97);
    for (std::uint16_t n = 2; n <= 4; n++)
        tiny.books(n);
    tiny.say();
}

// A setup on memory that holds anything, then calls; the model keeps its deques and never looks at the cells.
static void sequence(Dice &dice, std::size_t n, unsigned many)
{
    model::Memory m, want;
    model::Queues q;
    model::Ask ask;
    m.links.resize(n);
    m.values.resize(n);
    for (std::size_t slot = 0; slot < n; slot++) {
        m.links[slot] = static_cast<std::uint16_t>(dice.word());
        m.values[slot] = dice.word();
    }
    ask.call = model::setup;
    model::random_rules(dice, n, ask);
    for (unsigned i = 0; i <= many; i++) {
        std::uint16_t number;
        want = m;
        if (model::hands_out(ask.call))
            want.word = 0;
        number = ask.call == model::setup ? model::set_up(ask, want, q) : model::on_queues(ask, q, want);
        if (number == 0)
            model::write_down(q, want);
        ground.spot = static_cast<Spot>(i % 3);
        ground.run(ask, m, want, number, i % 16 == 0);
        m = want;
        if (i % 64 == 0 && !model::sound(m))
            fail("the model's pool of %zu slots is not sound by its own definition", n);
        ask = model::random_ask(dice, q.list.size(), longest(q), m);
        if (ask.call == model::clear && !dice.one_in(8))
            ask.call = dice.one_in(2) ? model::push_front : model::quick_push_back;
        if (i / (n + 1) % 2 == 0 && model::pops(ask.call) && dice.one_in(2))
            ask.call = dice.one_in(2) ? model::push_back : model::quick_push_front;
    }
}

static void sequences()
{
    Dice dice(1);
    unsigned pools = 0;
    for (std::size_t n = 2; n <= 40; n++, pools++)
        sequence(dice, n, 1500);
    for (; pools < 400; pools++)
        sequence(dice, dice.from(2, 12), 400);
    for (std::size_t n : {63, 64, 65, 255, 256, 257, 511, 700})
        sequence(dice, n, 1200);
    for (std::size_t n : {1023, 2048, 4095, 4096})
        sequence(dice, n, 500);
    std::printf("  %u pools, each from a setup on\n", pools + 12);
}

// Random sound pools, their slots in any order, and a few calls on each.
static void shapes()
{
    Dice dice(2);
    model::Memory m;
    unsigned pools = 0;
    for (; pools < 6000; pools++) {
        std::size_t n = pools % 100 == 0 ? dice.from(2, 4096) : dice.from(2, pools % 3 == 0 ? 64 : 12);
        model::Queues q = model::random_queues(dice, n);
        model::write_down(q, m);
        for (unsigned i = 0; i < 8; i++) {
            model::Ask ask = model::random_ask(dice, q.list.size(), longest(q), m);
            ground.spot = static_cast<Spot>(i % 3);
            ground.run(ask, m, i == 0);
        }
    }
    std::printf("  %u pools\n", pools);
}

static void damage()
{
    Damage damage(ground, 3);
    damage.all();
    damage.say();
}

// All calls on buffers of every two lengths.
static void lengths()
{
    Dice dice(4);
    const std::size_t choices[] = {0, 1, 2, 3, 6, 7, 4095, 4096, 4097, 4100};
    unsigned pairs = 0;
    for (std::size_t links : choices)
        for (std::size_t values : choices) {
            model::Memory m;
            std::size_t n = std::min<std::size_t>(std::max<std::size_t>(links, 2), 4096);
            model::Queues q = model::random_queues(dice, n);
            model::write_down(q, m);
            m.links.resize(links, 0);
            m.values.resize(values, 0);
            // More than one thing is wrong: the sizes must still come first.
            if (pairs % 2 == 1 && links > 0)
                m.links[0] = 1;
            if (pairs % 3 == 1 && values > 0)
                m.values[0] = 1;
            for (int c = 0; c < model::calls; c++) {
                model::Ask ask = model::random_ask(dice, q.list.size(), longest(q), m);
                model::random_rules(dice, n, ask);
                ask.call = static_cast<model::Call>(c);
                ground.spot = static_cast<Spot>(c % 3);
                ground.run(ask, m, true);
            }
            pairs++;
        }
    std::printf("  %u pairs of lengths\n", pairs);
}

// Setups that keep the rules, and ones that break them by a little.
static unsigned random_setups()
{
    Dice dice(5);
    unsigned setups = 0;
    for (; setups < 6000; setups++) {
        model::Memory m;
        model::Ask ask;
        std::size_t n = setups % 50 == 0 ? dice.from(2, 4097) : dice.from(1, 20);
        m.links.assign(n, dice.half(0, 65535));
        m.values.assign(dice.one_in(20) ? n + 1 : n, dice.word());
        for (std::uint16_t *word = word_of(m, n); word < word_of(m, n) + model::book_words; word++)
            *word = static_cast<std::uint16_t>(dice.word());
        model::random_rules(dice, std::max<std::size_t>(n, 2), ask);
        const std::uint16_t strange[] = {0, 1, 7, 8, 9, 255, 256, 257, 65535};
        if (dice.one_in(6))
            ask.lists = dice.one_of(strange);
        if (dice.one_in(3))
            ask.shares[dice.from(0, 7)] = dice.half(0, dice.one_in(4) ? 65535 : n);
        if (dice.one_in(3))
            ask.limits[dice.from(0, 7)] = dice.half(0, dice.one_in(4) ? 65535 : n);
        ask.call = model::setup;
        ground.spot = static_cast<Spot>(setups % 3);
        ground.run(ask, m, setups % 4 == 0);
    }
    return setups;
}

// Any number of lists that ask for nothing.
static unsigned lists_that_ask_for_nothing()
{
    unsigned setups = 0;
    for (std::uint16_t lists : {0, 1, 2, 7, 8, 9, 256, 65535}) {
        model::Memory m;
        model::Ask ask;
        m.links.assign(5, 1);
        m.values.assign(5, 1);
        ask.call = model::setup;
        ask.lists = lists;
        ground.run(ask, m);
        setups++;
    }
    return setups;
}

// As many shares as there is room for, and one more; and shares whose sum would be small if it were kept in 16 bits.
static unsigned shares_at_the_edge()
{
    unsigned setups = 0;
    for (std::uint16_t lists = 1; lists <= 8; lists++) {
        model::Memory m;
        model::Ask ask;
        m.links.assign(4096, 1);
        m.values.assign(4096, 1);
        ask.call = model::setup;
        ask.lists = lists;
        for (unsigned k = 0; k < lists; k++)
            ask.shares[k] = ask.limits[k] = static_cast<std::uint16_t>(4095 / lists + (k == 0 ? 4095 % lists : 0));
        ground.run(ask, m);
        ask.shares[0]++;
        ask.limits[0]++;
        ground.run(ask, m);
        for (unsigned k = 0; k < lists; k++)
            ask.shares[k] = ask.limits[k] = 4095;
        ground.run(ask, m);
        setups += 3;
    }
    return setups;
}

static void setups()
{
    unsigned setups = random_setups();
    setups += lists_that_ask_for_nothing();
    setups += shares_at_the_edge();
    std::printf("  %u setups\n", setups);
}

static void pools()
{
    Pools().all();
    std::printf("  P1 to P10 and the others that document 01 lists\n");
}

static void places()
{
    Places places;
    places.all();
    std::printf("  %lu pools broken by hand, each with its number and place\n", places.pools);
}

static void miscounts()
{
    Miscounts miscounts;
    miscounts.all();
    std::printf("  %lu pools miscounted by hand, each with its number and place\n", miscounts.pools);
}

static void undo()
{
    Undo undo(6);
    undo.on_shapes(4000);
    undo.from_setups(200);
    undo.say();
}

int main(int argc, char **argv)
{
    const struct {
        const char *name;
        void (*run)();
    } stages[] = {{"pools", pools}, {"places", places}, {"miscounts", miscounts}, {"setups", setups}, {"lengths", lengths},
                  {"damage", damage}, {"undo", undo}, {"shapes", shapes}, {"sequences", sequences}, {"tiny", tiny}};
    bool only = argc > 1;
    catch_faults();
    for (const auto &stage : stages) {
        if (only && std::strcmp(argv[1], stage.name) != 0)
            continue;
        std::clock_t from = std::clock();
        now(stage.name);
        std::printf("%s\n", stage.name);
        stage.run();
        if (std::getenv("TESTS_C_TIMES") != nullptr)
            std::printf("  %.1f s\n", double(std::clock() - from) / CLOCKS_PER_SEC);
        std::fflush(stdout);
    }
    now("the table of numbers");
    if (!only) {
        counts::hold_table();
        counts::hold_rules();
    }
    std::printf("%lu calls, %lu cells and %lu places compared, %lu calls on memory that cannot be written\n", made, cells_compared,
                places_compared, never_written);
    return 0;
}
