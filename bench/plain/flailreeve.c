/* The ten calls in plain C, as a careful firmware engineer would write them, with the version and the texts: what the archive's cost
 * is held against, and what the faults of tests/c are planted in. The check is one pass over the pool and hands on what it found in
 * registers; the lengths it leaves in the book, where a call finds them. A call stores to no cell twice, and clears nothing that it
 * writes anyway. Where a pool is broken is worked out only when it is. The four quick calls stand in quick.c. */
#include "plain.h"

#include <string.h>

/* What a look at the pool found. It is two machine words, so that it is handed back in registers. */
struct found {
    size_t number; /* 0, or why the call is refused: 1, 9 to 16 or 4 */
    size_t spare;  /* free slots beyond those that lists still lack of their shares */
};

static struct found refused(size_t number, size_t list, size_t position, struct flailreeve_place *place)
{
    *place = (struct flailreeve_place){(uint16_t)list, (uint16_t)position};
    return (struct found){number, 0};
}

/* The rules of the book, for a book as it stands: L, shares and limits; from L on every word is 0. */
static inline bool book_keeps_rules(const struct flailreeve_book *book, size_t n)
{
    uint64_t four; /* of an entry's five words the first four, looked at as one */
    size_t k, sum = 0;

    if (book->lists < 1 || book->lists > FLAILREEVE_BOOK_LISTS)
        return false;
    for (k = 0; k < book->lists; k++) {
        if (book->list[k].share > book->list[k].limit || book->list[k].limit >= n)
            return false;
        sum += book->list[k].share;
    }
    for (; k < FLAILREEVE_BOOK_LISTS; k++) {
        memcpy(&four, &book->list[k], sizeof four);
        if ((four | book->list[k].length) != 0)
            return false;
    }
    return sum < n;
}

/* Something is wrong with the free slots: which rule is broken first, and where. `met` has the slots of the lists. The chain is
 * walked once more, now with marks, and then the slots are gone through by their numbers. */
static struct found free_refused(const uint16_t *links, const uint64_t *values, size_t n, size_t free_head, uint8_t *met,
                                 struct flailreeve_place *place)
{
    enum { FREE = 2 };
    size_t slot, position = 0;

    for (slot = free_head; slot < n && !met[slot]; slot = links[slot]) {
        met[slot] = FREE;
        position++;
    }
    if (slot != 0)
        return refused(FLAILREEVE_BROKEN_FREE_CHAIN, 0, position, place);
    for (slot = 1; slot < n; slot++)
        if (!met[slot])
            return refused(FLAILREEVE_LOST_SLOT, 0, slot, place);
    /* Neither: so there is a free slot whose value is not 0. */
    for (slot = 1; slot < n - 1; slot++)
        if (met[slot] == FREE && values[slot] != 0)
            break;
    return refused(FLAILREEVE_UNWIPED_SLOT, 0, slot, place);
}

/* Checks the pool in one pass over the book, the lists and the free slots, and then the list number. The walks stand here and not
 * in functions of their own: gcc reaches a local array in fewer instructions than one that is handed on by a pointer. Slots are
 * counted in 32 bits: with 64, gcc takes slot 0's value for a 0 that it has at hand and keeps it in the frame. The place is written
 * once, whatever is found. */
static struct found look(const uint16_t *links, size_t links_len, const uint64_t *values, size_t values_len,
                         const struct flailreeve_book *book, uint16_t wanted, struct flailreeve_place *place)
{
    uint8_t met[FLAILREEVE_LARGEST_POOL]; /* for each slot 1 where a list has it */
    size_t n = links_len;
    uint32_t left = (uint32_t)n - 1; /* slots that no list has: so many must be free */
    uint32_t taken = 0;              /* slots that the lists have, or still lack of their shares */
    size_t over;                     /* the lowest list that is over its limit, else L */
    size_t miscounted;               /* the lowest list whose length in the book is wrong, else L */
    size_t k, slot;

    if (!sizes_fit(links_len, values_len))
        return refused(FLAILREEVE_REFUSED_SIZES, 0, 0, place);
    if (!book_keeps_rules(book, n))
        return refused(FLAILREEVE_BROKEN_BOOK, 0, 0, place);
    if (links[0] != 0 || values[0] != 0)
        return refused(FLAILREEVE_BROKEN_NULL_SLOT, 0, 0, place);
    memset(met, 0, n);
    met[0] = 1; /* so that a walk stops at the chain's end as it does at a slot that it met before */
    over = miscounted = book->lists;
    for (k = 0; k < book->lists; k++) {
        const struct flailreeve_list *list = &book->list[k];
        uint32_t length = 0;
        size_t last = 0;

        slot = list->head;
        while (slot < n && !met[slot]) {
            size_t next = links[slot] ^ last;

            met[slot] = 1;
            length++;
            last = slot;
            slot = next;
        }
        if (slot != 0 || last != list->tail)
            return refused(FLAILREEVE_BROKEN_LIST, k, length, place);
        if (length > list->limit && over == book->lists)
            over = k;
        if (length != list->length && miscounted == book->lists)
            miscounted = k;
        left -= length;
        taken += length > list->share ? length : list->share;
    }
    /* Free slots need no mark: if the walk came to one twice it would go round, and not be at 0 after the last. */
    slot = book->free_head;
    for (uint32_t i = left; i > 0; i--) {
        if (slot >= n || met[slot] || values[slot] != 0)
            return free_refused(links, values, n, book->free_head, met, place);
        slot = links[slot];
    }
    if (slot != 0)
        return free_refused(links, values, n, book->free_head, met, place);
    /* More than N-1 are taken where the free slots do not cover what is lacked. */
    if (over != book->lists || taken >= n)
        return refused(FLAILREEVE_OVER_LIMIT, over, 0, place);
    if (miscounted != book->lists || left != book->free_count)
        return refused(FLAILREEVE_WRONG_COUNT, miscounted, 0, place);
    if (wanted >= book->lists)
        return refused(FLAILREEVE_REFUSED_NO_LIST, 0, 0, place);
    *place = (struct flailreeve_place){0, 0};
    return (struct found){FLAILREEVE_DONE, n - 1 - taken};
}

/* The rules of the book, for what setup is handed: L, shares and limits; from L on all are 0. */
static bool keeps_rules(uint16_t lists, const uint16_t shares[8], const uint16_t limits[8], size_t n)
{
    size_t k, sum = 0;

    if (lists < 1 || lists > FLAILREEVE_BOOK_LISTS)
        return false;
    for (k = 0; k < lists; k++) {
        if (shares[k] > limits[k] || limits[k] >= n)
            return false;
        sum += shares[k];
    }
    for (; k < FLAILREEVE_BOOK_LISTS; k++)
        if ((shares[k] | limits[k]) != 0)
            return false;
    return sum < n;
}

uint16_t flailreeve_setup(uint16_t *links, size_t links_len, uint64_t *values, size_t values_len, uint16_t lists,
                          const uint16_t shares[8], const uint16_t limits[8], struct flailreeve_book *book)
{
    size_t k;

    if (!sizes_fit(links_len, values_len))
        return FLAILREEVE_REFUSED_SIZES;
    if (!keeps_rules(lists, shares, limits, links_len))
        return FLAILREEVE_REFUSED_RULES;
    book->lists = lists;
    for (k = 0; k < lists; k++)
        book->list[k] = (struct flailreeve_list){0, 0, shares[k], limits[k], 0};
    for (; k < FLAILREEVE_BOOK_LISTS; k++)
        book->list[k] = (struct flailreeve_list){0};
    book->free_head = 1;
    book->free_count = (uint16_t)(links_len - 1);
    links[0] = 0;
    for (size_t slot = 1; slot < links_len - 1; slot++)
        links[slot] = (uint16_t)(slot + 1);
    links[links_len - 1] = 0;
    memset(values, 0, values_len * sizeof *values);
    return FLAILREEVE_DONE;
}

uint16_t flailreeve_check(const uint16_t *links, size_t links_len, const uint64_t *values, size_t values_len,
                          const struct flailreeve_book *book, struct flailreeve_place *place)
{
    /* Every sound book has a list 0, so 4 is never the answer. */
    return (uint16_t)look(links, links_len, values, values_len, book, 0, place).number;
}

uint16_t flailreeve_length(const uint16_t *links, size_t links_len, const uint64_t *values, size_t values_len,
                           const struct flailreeve_book *book, uint16_t list, uint16_t *length,
                           struct flailreeve_place *place)
{
    struct found found = look(links, links_len, values, values_len, book, list, place);

    *length = found.number == FLAILREEVE_DONE ? book->list[list].length : 0;
    return (uint16_t)found.number;
}

/* The slot at the free head becomes an end of the list. */
static inline uint16_t push(uint16_t *links, size_t links_len, uint64_t *values, size_t values_len,
                            struct flailreeve_book *book, uint16_t list, uint64_t value, enum end end,
                            struct flailreeve_place *place)
{
    struct found found = look(links, links_len, values, values_len, book, list, place);
    struct flailreeve_list *to;
    uint16_t *near_end, *far_end, slot, neighbour;

    if (found.number != FLAILREEVE_DONE)
        return (uint16_t)found.number;
    to = &book->list[list];
    if (to->length == to->limit)
        return FLAILREEVE_REFUSED_LIMIT;
    if (to->length >= to->share && found.spare == 0)
        return FLAILREEVE_REFUSED_KEPT;
    near_end = end == FRONT ? &to->head : &to->tail;
    far_end = end == FRONT ? &to->tail : &to->head;
    slot = book->free_head;
    neighbour = *near_end;
    book->free_head = links[slot];
    book->free_count--;
    to->length++;
    values[slot] = value;
    links[slot] = neighbour;
    *near_end = slot;
    if (neighbour != 0)
        links[neighbour] ^= slot;
    else
        *far_end = slot;
    return FLAILREEVE_DONE;
}

uint16_t flailreeve_push_back(uint16_t *links, size_t links_len, uint64_t *values, size_t values_len,
                              struct flailreeve_book *book, uint16_t list, uint64_t value, struct flailreeve_place *place)
{
    return push(links, links_len, values, values_len, book, list, value, BACK, place);
}

uint16_t flailreeve_push_front(uint16_t *links, size_t links_len, uint64_t *values, size_t values_len,
                               struct flailreeve_book *book, uint16_t list, uint64_t value, struct flailreeve_place *place)
{
    return push(links, links_len, values, values_len, book, list, value, FRONT, place);
}

/* The slot at an end of the list leaves it, is wiped and becomes the free head. */
static inline uint16_t pop(uint16_t *links, size_t links_len, uint64_t *values, size_t values_len,
                           struct flailreeve_book *book, uint16_t list, uint64_t *value, enum end end,
                           struct flailreeve_place *place)
{
    struct found found = look(links, links_len, values, values_len, book, list, place);
    struct flailreeve_list *from;
    uint16_t *near_end, *far_end, slot, neighbour;

    if (found.number == FLAILREEVE_DONE && book->list[list].length == 0)
        found.number = FLAILREEVE_REFUSED_EMPTY;
    if (found.number != FLAILREEVE_DONE) {
        *value = 0;
        return (uint16_t)found.number;
    }
    from = &book->list[list];
    near_end = end == FRONT ? &from->head : &from->tail;
    far_end = end == FRONT ? &from->tail : &from->head;
    slot = *near_end;
    neighbour = links[slot];
    *near_end = neighbour;
    if (neighbour != 0)
        links[neighbour] ^= slot;
    else
        *far_end = 0;
    *value = values[slot];
    values[slot] = 0;
    links[slot] = book->free_head;
    book->free_head = slot;
    book->free_count++;
    from->length--;
    return FLAILREEVE_DONE;
}

uint16_t flailreeve_pop_back(uint16_t *links, size_t links_len, uint64_t *values, size_t values_len,
                             struct flailreeve_book *book, uint16_t list, uint64_t *value, struct flailreeve_place *place)
{
    return pop(links, links_len, values, values_len, book, list, value, BACK, place);
}

uint16_t flailreeve_pop_front(uint16_t *links, size_t links_len, uint64_t *values, size_t values_len,
                              struct flailreeve_book *book, uint16_t list, uint64_t *value, struct flailreeve_place *place)
{
    return pop(links, links_len, values, values_len, book, list, value, FRONT, place);
}

/* Copies the list from one end to the other. */
static inline uint16_t read(const uint16_t *links, size_t links_len, const uint64_t *values, size_t values_len,
                            const struct flailreeve_book *book, uint16_t list, uint64_t *out, size_t out_len, size_t at,
                            uint16_t *count, enum end from, struct flailreeve_place *place)
{
    struct found found = look(links, links_len, values, values_len, book, list, place);
    size_t length, slot, last = 0;

    if (found.number == FLAILREEVE_DONE && (at > out_len || out_len - at < book->list[list].length))
        found.number = FLAILREEVE_REFUSED_BUFFER;
    if (found.number != FLAILREEVE_DONE) {
        *count = 0;
        return (uint16_t)found.number;
    }
    length = book->list[list].length;
    slot = from == FRONT ? book->list[list].head : book->list[list].tail;
    for (size_t i = 0; i < length; i++) {
        size_t next = links[slot] ^ last;

        out[at + i] = values[slot];
        last = slot;
        slot = next;
    }
    *count = (uint16_t)length;
    return FLAILREEVE_DONE;
}

uint16_t flailreeve_read_forward(const uint16_t *links, size_t links_len, const uint64_t *values, size_t values_len,
                                 const struct flailreeve_book *book, uint16_t list, uint64_t *out, size_t out_len,
                                 size_t at, uint16_t *count, struct flailreeve_place *place)
{
    return read(links, links_len, values, values_len, book, list, out, out_len, at, count, FRONT, place);
}

uint16_t flailreeve_read_backward(const uint16_t *links, size_t links_len, const uint64_t *values, size_t values_len,
                                  const struct flailreeve_book *book, uint16_t list, uint64_t *out, size_t out_len,
                                  size_t at, uint16_t *count, struct flailreeve_place *place)
{
    return read(links, links_len, values, values_len, book, list, out, out_len, at, count, BACK, place);
}

/* Pops at the front would free the first slot first. So the last slot becomes the free head, each slot is linked to the one
 * before it in the list, and the first slot to the free head of before. */
uint16_t flailreeve_clear(uint16_t *links, size_t links_len, uint64_t *values, size_t values_len,
                          struct flailreeve_book *book, uint16_t list, struct flailreeve_place *place)
{
    struct found found = look(links, links_len, values, values_len, book, list, place);
    struct flailreeve_list *from;
    size_t slot, first, last = 0;

    if (found.number != FLAILREEVE_DONE || book->list[list].length == 0)
        return (uint16_t)found.number;
    from = &book->list[list];
    first = from->head;
    slot = from->tail;
    while (slot != first) {
        size_t before = links[slot] ^ last;

        links[slot] = (uint16_t)before;
        values[slot] = 0;
        last = slot;
        slot = before;
    }
    links[first] = book->free_head;
    values[first] = 0;
    book->free_head = from->tail;
    book->free_count += from->length;
    from->head = from->tail = from->length = 0;
    return FLAILREEVE_DONE;
}

uint16_t flailreeve_version(void)
{
    return FLAILREEVE_VERSION;
}

size_t flailreeve_text(uint16_t number, uint8_t *out, size_t out_len)
{
    static const char *const texts[] = {
        "done",
        "the pool is too small or large, or its parts differ in length",
        "the lists, shares or limits asked for break the rules",
        "the pool or its book is damaged",
        "there is no such list",
        "the list is empty",
        "the list is at its limit",
        "no slot is free but those kept for other lists",
        "the buffer is too small",
        "the book's lists, shares or limits break the rules",
        "slot 0 is not zero",
        "a list's chain is broken",
        "the free chain is broken",
        "a slot is in no chain",
        "a free slot is not wiped",
        "a list is over its limit, or the shares are not covered",
        "a stored count is wrong",
        "a quick call cannot trust the book or a slot",
    };
    const char *text = "this version does not know the number";
    size_t bytes;

    if (number < sizeof texts / sizeof texts[0])
        text = texts[number];
    bytes = strlen(text);
    if (out_len < bytes)
        return 0;
    memcpy(out, text, bytes);
    return bytes;
}
