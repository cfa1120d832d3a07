// Every refusal met once, in C++, over a pool as one struct, each shown with its text: what firmware would log.
#include "flailreeve_pool.h"

#include <cstdio>

namespace {

constexpr size_t slots = 4;
uint16_t links[slots];
uint64_t values[slots];
flailreeve_book book;
flailreeve_place place;
const flailreeve_pool pool = {links, slots, values, slots};

// List 0 may have all three slots and list 1 is owed one; list 2 may have none.
const uint16_t shares[FLAILREEVE_BOOK_LISTS] = {0, 1, 0};
const uint16_t limits[FLAILREEVE_BOOK_LISTS] = {3, 1, 0};

void show(const char *what, uint16_t number)
{
    uint8_t text[FLAILREEVE_TEXT_BYTES];
    const size_t bytes = flailreeve_text(number, text, sizeof text);

    std::printf("%-46s %2u %.*s", what, number, static_cast<int>(bytes), reinterpret_cast<const char *>(text));
    if (number >= FLAILREEVE_BROKEN_BOOK && number <= FLAILREEVE_WRONG_COUNT)
        std::printf(": list %u, position %u", place.list, place.position);
    std::printf("\n");
}

} // namespace

int main()
{
    uint16_t count;
    uint64_t value;
    uint64_t out[1];
    const flailreeve_pool odd = {links, slots, values, slots - 1};

    if (flailreeve_version() != FLAILREEVE_VERSION) {
        std::puts("the archive is for another version of the header");
        return 1;
    }
    show("setup of a pool whose buffers differ", flailreeve_pool_setup(&odd, 3, shares, limits, &book));
    show("setup with no list", flailreeve_pool_setup(&pool, 0, shares, limits, &book));
    show("setup with three lists", flailreeve_pool_setup(&pool, 3, shares, limits, &book));
    show("pop of an empty list", flailreeve_pool_pop_front(&pool, &book, 0, &value, &place));
    show("push on a list that may have none", flailreeve_pool_push_back(&pool, &book, 2, 1, &place));
    show("push on a list that there is not", flailreeve_pool_push_back(&pool, &book, 3, 1, &place));
    show("push of a first value", flailreeve_pool_push_back(&pool, &book, 0, 11, &place));
    show("push of a second value", flailreeve_pool_push_back(&pool, &book, 0, 12, &place));
    show("push of a third, where one slot is list 1's", flailreeve_pool_push_back(&pool, &book, 0, 13, &place));
    show("read of two values into one cell", flailreeve_pool_read_forward(&pool, &book, 0, out, 1, 0, &count, &place));
    values[3] = 1; // slot 3 is free, and something wrote to it
    show("length, after a free slot was written to", flailreeve_pool_length(&pool, &book, 0, &count, &place));
    show("quick pop, which does not look there", flailreeve_pool_quick_pop_front(&pool, &book, 0, &value));
    book.list[0].head = slots; // and something wrote to the book
    show("quick pop, where the head is no slot", flailreeve_pool_quick_pop_front(&pool, &book, 0, &value));
    show("check, which says where it is broken", flailreeve_pool_check(&pool, &book, &place));
    show("setup again, which wipes every slot", flailreeve_pool_setup(&pool, 3, shares, limits, &book));
    return 0;
}
