/* The four quick calls in plain C, as cheap as we can write them: what the archive's are held against, and what faults of tests/c are
 * planted in. Each tests the counts of all lists in one pass over the book, then the slots that it would touch, and stores nothing
 * before the last test. No slot but these is looked at, so the cost is the same for every N. */
#include "plain.h"

/* Compiled into its caller: a function of its own would be handed a push's value in a frame, and leave it in the dead stack. */
#if defined(__GNUC__)
#define COMPILED_IN static inline __attribute__((always_inline))
#else
#define COMPILED_IN static inline
#endif

/* What is asked first in all four: 1, the number of lists, 4 and the counts. A push gets what the lists lack of their shares, which may
 * be anything, so it is summed in 32 bits; a pop asks for none. The compiler lays the loop out eight times: a push and a pop take 17
 * instructions fewer so with one list, and 73 fewer with eight. */
COMPILED_IN uint16_t counts_refuse(size_t links_len, size_t values_len, const struct flailreeve_book *book, uint16_t list,
                                   uint32_t *lacks)
{
    size_t lists, top = links_len - 1;

    if (!sizes_fit(links_len, values_len))
        return FLAILREEVE_REFUSED_SIZES;
    lists = book->lists;
    if (lists < 1 || lists > FLAILREEVE_BOOK_LISTS)
        return FLAILREEVE_REFUSED_QUICK;
    if (list >= lists)
        return FLAILREEVE_REFUSED_NO_LIST;
#pragma GCC unroll 8
    for (size_t k = 0; k < FLAILREEVE_BOOK_LISTS && k < lists; k++) {
        uint16_t length = book->list[k].length;

        if (length > (uint16_t)top)
            return FLAILREEVE_REFUSED_QUICK;
        if (lacks && book->list[k].share > length)
            *lacks += (uint32_t)(book->list[k].share - length);
    }
    return book->free_count > (uint16_t)top ? FLAILREEVE_REFUSED_QUICK : FLAILREEVE_DONE;
}

/* The slot at the free head becomes an end of the list. The tail alone says whether the list is empty. */
COMPILED_IN uint16_t quick_push(uint16_t *links, size_t links_len, uint64_t *values, size_t values_len,
                                struct flailreeve_book *book, uint16_t list, uint64_t value, enum end end)
{
    uint32_t lacks = 0;
    uint16_t number = counts_refuse(links_len, values_len, book, list, &lacks);
    size_t fresh, beside, top = links_len - 1;
    struct flailreeve_list *entry;

    if (number != FLAILREEVE_DONE)
        return number;
    entry = &book->list[list];
    if (entry->length == entry->limit)
        return FLAILREEVE_REFUSED_LIMIT;
    if (entry->length >= entry->share && book->free_count <= lacks && entry->length < entry->limit)
        return FLAILREEVE_REFUSED_KEPT;
    fresh = book->free_head;
    if (fresh - 1 >= top || entry->length >= top || book->free_count == 0)
        return FLAILREEVE_REFUSED_QUICK;
    if (entry->tail != 0) {
        beside = end == FRONT ? entry->head : entry->tail;
        if (beside - 1 >= top || beside == fresh)
            return FLAILREEVE_REFUSED_QUICK;
        book->free_head = links[fresh];
        links[fresh] = (uint16_t)beside;
        links[beside] ^= (uint16_t)fresh;
        *(end == FRONT ? &entry->head : &entry->tail) = (uint16_t)fresh;
    } else {
        book->free_head = links[fresh];
        links[fresh] = 0;
        entry->head = (uint16_t)fresh;
        entry->tail = (uint16_t)fresh;
    }
    entry->length++;
    book->free_count--;
    values[fresh] = value;
    return FLAILREEVE_DONE;
}

uint16_t flailreeve_quick_push_back(uint16_t *links, size_t links_len, uint64_t *values, size_t values_len,
                                    struct flailreeve_book *book, uint16_t list, uint64_t value)
{
    return quick_push(links, links_len, values, values_len, book, list, value, BACK);
}

uint16_t flailreeve_quick_push_front(uint16_t *links, size_t links_len, uint64_t *values, size_t values_len,
                                     struct flailreeve_book *book, uint16_t list, uint64_t value)
{
    return quick_push(links, links_len, values, values_len, book, list, value, FRONT);
}

/* A pop that is refused hands out a 0. */
COMPILED_IN uint16_t nothing_out(uint16_t number, uint64_t *value)
{
    *value = 0;
    return number;
}

/* The slot at an end of the list leaves it, is wiped and becomes the free head. */
COMPILED_IN uint16_t quick_pop(uint16_t *links, size_t links_len, uint64_t *values, size_t values_len,
                               struct flailreeve_book *book, uint16_t list, uint64_t *value, enum end end)
{
    uint16_t beside, number = counts_refuse(links_len, values_len, book, list, NULL);
    size_t gone, top = links_len - 1;
    struct flailreeve_list *entry;

    if (number != FLAILREEVE_DONE)
        return nothing_out(number, value);
    entry = &book->list[list];
    if (entry->length == 0)
        return nothing_out(FLAILREEVE_REFUSED_EMPTY, value);
    gone = end == FRONT ? entry->head : entry->tail;
    if (gone - 1 >= top || book->free_count == (uint16_t)top)
        return nothing_out(FLAILREEVE_REFUSED_QUICK, value);
    beside = links[gone];
    if (beside != 0) {
        if (beside > (uint16_t)top || beside == gone)
            return nothing_out(FLAILREEVE_REFUSED_QUICK, value);
        links[beside] ^= (uint16_t)gone;
        *(end == FRONT ? &entry->head : &entry->tail) = beside;
    } else {
        entry->head = 0;
        entry->tail = 0;
    }
    entry->length--;
    book->free_count++;
    links[gone] = book->free_head;
    book->free_head = (uint16_t)gone;
    *value = values[gone];
    values[gone] = 0;
    return FLAILREEVE_DONE;
}

uint16_t flailreeve_quick_pop_back(uint16_t *links, size_t links_len, uint64_t *values, size_t values_len,
                                   struct flailreeve_book *book, uint16_t list, uint64_t *value)
{
    return quick_pop(links, links_len, values, values_len, book, list, value, BACK);
}

uint16_t flailreeve_quick_pop_front(uint16_t *links, size_t links_len, uint64_t *values, size_t values_len,
                                    struct flailreeve_book *book, uint16_t list, uint64_t *value)
{
    return quick_pop(links, links_len, values, values_len, book, list, value, FRONT);
}
