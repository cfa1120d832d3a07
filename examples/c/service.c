/* What field service reads from a damaged device: a pool is damaged in four ways, and each time a call says which rule is broken first
 * and where. A setup, which wipes every slot, makes the pool sound again. */
#include <stdio.h>
#include <stdlib.h>

#include "flailreeve.h"

enum { SLOTS = 8, PIN_BLOCKS = 0, KEY_EVENTS = 1, QUEUES = 2 };
static uint16_t links[SLOTS];
static uint64_t values[SLOTS];
static struct flailreeve_book book;
static struct flailreeve_place place;
static const uint16_t shares[FLAILREEVE_BOOK_LISTS] = {2, 1};
static const uint16_t limits[FLAILREEVE_BOOK_LISTS] = {2, 6};

/* One line of the report: the number with its text, and the place. */
static void report(uint16_t number)
{
    uint8_t text[FLAILREEVE_TEXT_BYTES];
    size_t bytes = flailreeve_text(number, text, sizeof text);

    printf("  number %u: %.*s; list %u, position %u\n", number, (int)bytes, (const char *)text, place.list, place.position);
}

/* A call that must be done. */
static void must(uint16_t number)
{
    if (number != FLAILREEVE_DONE) {
        report(number);
        exit(1);
    }
}

/* A PIN block in slot 1, key events in slots 2, 3 and 4; slots 5, 6 and 7 are free. */
static void start(void)
{
    must(flailreeve_setup(links, SLOTS, values, SLOTS, QUEUES, shares, limits, &book));
    must(flailreeve_push_back(links, SLOTS, values, SLOTS, &book, PIN_BLOCKS, 0x041234ffffffffff, &place));
    for (uint64_t key = 1; key <= 3; key++)
        must(flailreeve_push_back(links, SLOTS, values, SLOTS, &book, KEY_EVENTS, key, &place));
}

static void check(const char *what)
{
    uint16_t number;

    puts(what);
    number = flailreeve_check(links, SLOTS, values, SLOTS, &book, &place);
    report(number);
}

int main(void)
{
    if (flailreeve_version() != FLAILREEVE_VERSION) {
        puts("the archive is for another version of the header");
        return 1;
    }
    start();
    check("after a start");
    links[3] ^= 64;
    check("a bit of slot 3's link has flipped: list 1 is 2, 3 and then a slot that there is not");
    start();
    values[7] = 0x20;
    values[6] = 0x20;
    check("something wrote to slots 6 and 7, which are free: the lowest is named");
    start();
    book.free_head = 6;
    check("the free head was written over with 6: slot 5 is neither free nor in a list");
    start();
    book.list[KEY_EVENTS].length ^= 16;
    check("a bit of list 1's length in the book has flipped: its chain is whole, and the book says 19 where it has 3");
    start();
    check("after a setup and the same pushes");
    return 0;
}
