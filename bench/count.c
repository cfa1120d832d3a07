/* The counted program of the fourteen calls: `count WORK N HELD LISTS TIMES` does one piece of work so many times. Two runs that differ in
 * TIMES alone differ by the instructions of that work and of the loop around it; over bench/nothing.c by the loop's alone. So the
 * loop must not depend on what the calls do: the pools are made before it, without a call, and the answers are looked at after it. */
#include <stdlib.h>
#include <string.h>

#include "flailreeve.h"

enum { POOLS = 16 }; /* a pool can be cleared once, so there is one for each time that a clear is counted */

static struct pool {
    uint16_t links[FLAILREEVE_LARGEST_POOL];
    uint64_t values[FLAILREEVE_LARGEST_POOL];
    struct flailreeve_book book;
} pools[POOLS];

static uint16_t shares[FLAILREEVE_BOOK_LISTS], limits[FLAILREEVE_BOOK_LISTS];
static uint64_t out[FLAILREEVE_LARGEST_POOL];
static struct flailreeve_place place;

/* Every call gives 0 here. A pool that is not sound, or work that is refused, must not be counted. */
static void must(unsigned numbers)
{
    if (numbers != FLAILREEVE_DONE)
        abort();
}

/* List 0 holds 1, 2, .. in the slots 1 to `held`; the other lists are empty, with share and limit 0. */
static void fill(struct pool *pool, size_t n, size_t held, uint16_t lists)
{
    for (size_t slot = 1; slot <= held; slot++) {
        pool->links[slot] = (uint16_t)((slot - 1) ^ (slot == held ? 0 : slot + 1));
        pool->values[slot] = slot;
    }
    for (size_t slot = held + 1; slot < n; slot++)
        pool->links[slot] = (uint16_t)(slot + 1 < n ? slot + 1 : 0);
    pool->book.lists = lists;
    pool->book.list[0] = (struct flailreeve_list){held > 0, (uint16_t)held, 0, limits[0], (uint16_t)held};
    pool->book.free_head = (uint16_t)(held + 1 < n ? held + 1 : 0);
    pool->book.free_count = (uint16_t)(n - 1 - held);
    must(flailreeve_check(pool->links, n, pool->values, n, &pool->book, &place));
}

/* What is counted, one function for each kind of work. `n` and `lists` are those of the pools. */
struct asked {
    size_t n;
    uint16_t lists;
    int times;
};

static unsigned pair(const struct asked *ask)
{
    struct pool *pool = pools;
    uint64_t value;
    unsigned numbers = 0;

    for (int i = 0; i < ask->times; i++) {
        numbers |= flailreeve_push_back(pool->links, ask->n, pool->values, ask->n, &pool->book, 0, (uint64_t)i + 1, &place);
        numbers |= flailreeve_pop_front(pool->links, ask->n, pool->values, ask->n, &pool->book, 0, &value, &place);
    }
    return numbers;
}

static unsigned quick(const struct asked *ask)
{
    struct pool *pool = pools;
    uint64_t value;
    unsigned numbers = 0;

    for (int i = 0; i < ask->times; i++) {
        numbers |= flailreeve_quick_push_back(pool->links, ask->n, pool->values, ask->n, &pool->book, 0, (uint64_t)i + 1);
        numbers |= flailreeve_quick_pop_front(pool->links, ask->n, pool->values, ask->n, &pool->book, 0, &value);
    }
    return numbers;
}

/* The other two ends. */
static unsigned quick_other(const struct asked *ask)
{
    struct pool *pool = pools;
    uint64_t value;
    unsigned numbers = 0;

    for (int i = 0; i < ask->times; i++) {
        numbers |= flailreeve_quick_push_front(pool->links, ask->n, pool->values, ask->n, &pool->book, 0, (uint64_t)i + 1);
        numbers |= flailreeve_quick_pop_back(pool->links, ask->n, pool->values, ask->n, &pool->book, 0, &value);
    }
    return numbers;
}

static unsigned check(const struct asked *ask)
{
    struct pool *pool = pools;
    unsigned numbers = 0;

    for (int i = 0; i < ask->times; i++)
        numbers |= flailreeve_check(pool->links, ask->n, pool->values, ask->n, &pool->book, &place);
    return numbers;
}

static unsigned length(const struct asked *ask)
{
    struct pool *pool = pools;
    uint16_t small;
    unsigned numbers = 0;

    for (int i = 0; i < ask->times; i++)
        numbers |= flailreeve_length(pool->links, ask->n, pool->values, ask->n, &pool->book, 0, &small, &place);
    return numbers;
}

static unsigned read(const struct asked *ask)
{
    struct pool *pool = pools;
    uint16_t small;
    unsigned numbers = 0;

    for (int i = 0; i < ask->times; i++)
        numbers |= flailreeve_read_forward(pool->links, ask->n, pool->values, ask->n, &pool->book, 0, out, ask->n, 0, &small, &place);
    return numbers;
}

static unsigned clear(const struct asked *ask)
{
    unsigned numbers = 0;

    for (int i = 0; i < ask->times; i++)
        numbers |= flailreeve_clear(pools[i].links, ask->n, pools[i].values, ask->n, &pools[i].book, 0, &place);
    return numbers;
}

static unsigned setup(const struct asked *ask)
{
    struct pool *pool = pools;
    unsigned numbers = 0;

    for (int i = 0; i < ask->times; i++)
        numbers |= flailreeve_setup(pool->links, ask->n, pool->values, ask->n, ask->lists, shares, limits, &pool->book);
    return numbers;
}

static const struct {
    const char *name;
    unsigned (*done)(const struct asked *ask);
} works[] = {{"pair", pair}, {"quick", quick}, {"quick-other", quick_other}, {"check", check}, {"length", length},
             {"read", read}, {"clear", clear}, {"setup", setup}};

int main(int argc, char **argv)
{
    struct asked ask;
    size_t held, work = 0;

    if (argc != 6)
        return 2;
    ask.n = strtoul(argv[2], NULL, 10);
    held = strtoul(argv[3], NULL, 10);
    ask.lists = (uint16_t)atoi(argv[4]);
    ask.times = atoi(argv[5]);
    if (ask.n > FLAILREEVE_LARGEST_POOL || held >= ask.n || ask.times > POOLS)
        return 2;
    while (work < sizeof works / sizeof works[0] && strcmp(argv[1], works[work].name) != 0)
        work++;
    if (work == sizeof works / sizeof works[0])
        return 2;
    limits[0] = (uint16_t)(ask.n - 1);
    for (int i = 0; i < (works[work].done == clear ? POOLS : 1); i++)
        fill(&pools[i], ask.n, held, ask.lists);
    must(works[work].done(&ask));
    return 0;
}
