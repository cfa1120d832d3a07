/* The Cancel key: three queues in one pool, a flood of key events that cannot starve the PIN queue, and a clear. */
#include <stdio.h>
#include <stdlib.h>

#include "flailreeve.h"

/* The pool: 11 slots and the null slot, in the firmware's own memory. */
enum { SLOTS = 12 };
static uint16_t links[SLOTS];
static uint64_t values[SLOTS];
static struct flailreeve_book book;
static struct flailreeve_place place; /* where the pool is broken, if it is */

enum queue { PIN_BLOCKS, KEY_EVENTS, HOST_REPLIES, QUEUES };
static const char *const queue_names[QUEUES] = {"PIN blocks", "key events", "host replies"};
static const uint16_t shares[FLAILREEVE_BOOK_LISTS] = {3, 2, 2};  /* so many slots are kept for it */
static const uint16_t limits[FLAILREEVE_BOOK_LISTS] = {3, 11, 4}; /* and it never has more */

/* Eight letters as one value, so that a dump of the memory can be read. */
static uint64_t letters(const char *text)
{
    uint64_t value = 0;

    for (int i = 0; i < 8; i++)
        value = value << 8 | (unsigned char)text[i];
    return value;
}

/* A call that must be done. In firmware this would be the fault handler. */
static void must(uint16_t number)
{
    if (number != FLAILREEVE_DONE) {
        printf("refused by %u, list %u, position %u\n", number, place.list, place.position);
        exit(1);
    }
}

static void show_lengths(void)
{
    for (uint16_t queue = 0; queue < QUEUES; queue++) {
        uint16_t length;

        must(flailreeve_length(links, SLOTS, values, SLOTS, &book, queue, &length, &place));
        printf("  %-12s  share %u, limit %2u, holds %u\n", queue_names[queue], book.list[queue].share,
               book.list[queue].limit, length);
    }
}

/* The pool's memory as it is, looked at directly, not through a call. */
static void show_memory(void)
{
    for (int slot = 0; slot < SLOTS; slot++) {
        printf("  slot %2d  link %2u  value %016llx  ", slot, links[slot], (unsigned long long)values[slot]);
        for (int shift = 56; shift >= 0; shift -= 8) {
            int letter = (int)(values[slot] >> shift & 0xff);

            putchar(letter == 0 ? '.' : letter);
        }
        putchar('\n');
    }
}

/* A hundred keys arrive and nobody reads them. */
static void flood(void)
{
    int taken = 0;
    uint16_t number = FLAILREEVE_DONE;

    for (int key = 0; key < 100; key++) {
        uint16_t answer =
            flailreeve_push_back(links, SLOTS, values, SLOTS, &book, KEY_EVENTS, letters("KEYPRESS"), &place);

        if (answer == FLAILREEVE_DONE)
            taken++;
        else
            number = answer;
    }
    printf("100 key events: %d taken, the others refused by %u\n", taken, number);
}

int main(void)
{
    if (flailreeve_version() != FLAILREEVE_VERSION) {
        puts("the archive is for another version of the header");
        return 1;
    }
    must(flailreeve_setup(links, SLOTS, values, SLOTS, QUEUES, shares, limits, &book));
    must(flailreeve_push_back(links, SLOTS, values, SLOTS, &book, PIN_BLOCKS, letters("PINBLOK1"), &place));
    flood();
    must(flailreeve_push_back(links, SLOTS, values, SLOTS, &book, PIN_BLOCKS, letters("PINBLOK2"), &place));
    must(flailreeve_push_back(links, SLOTS, values, SLOTS, &book, PIN_BLOCKS, letters("PINBLOK3"), &place));
    must(flailreeve_push_back(links, SLOTS, values, SLOTS, &book, HOST_REPLIES, letters("HOSTACK1"), &place));
    puts("then two more PIN blocks and a host reply: all taken");
    show_lengths();
    puts("the memory before Cancel");
    show_memory();
    must(flailreeve_clear(links, SLOTS, values, SLOTS, &book, PIN_BLOCKS, &place));
    puts("the memory after Cancel");
    show_memory();
    show_lengths();
    return 0;
}
