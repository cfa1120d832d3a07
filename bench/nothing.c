/* The fourteen calls and a queue that do nothing but return: what is counted over them is the bench's own loop, the arguments, the call
 * and the return, and bench/run subtracts it. A number is 0, so that the loop goes on as it does over a library that works. */
#include "flailreeve.h"
#include "queue.h"

/* All parameters are unused, as is meant. */
#pragma GCC diagnostic ignored "-Wunused-parameter"

uint16_t flailreeve_setup(uint16_t *links, size_t links_len, uint64_t *values, size_t values_len, uint16_t lists,
                          const uint16_t shares[8], const uint16_t limits[8], struct flailreeve_book *book)
{
    return 0;
}

uint16_t flailreeve_check(const uint16_t *links, size_t links_len, const uint64_t *values, size_t values_len,
                          const struct flailreeve_book *book, struct flailreeve_place *place)
{
    return 0;
}

uint16_t flailreeve_length(const uint16_t *links, size_t links_len, const uint64_t *values, size_t values_len,
                           const struct flailreeve_book *book, uint16_t list, uint16_t *length,
                           struct flailreeve_place *place)
{
    return 0;
}

uint16_t flailreeve_push_back(uint16_t *links, size_t links_len, uint64_t *values, size_t values_len,
                              struct flailreeve_book *book, uint16_t list, uint64_t value, struct flailreeve_place *place)
{
    return 0;
}

uint16_t flailreeve_push_front(uint16_t *links, size_t links_len, uint64_t *values, size_t values_len,
                               struct flailreeve_book *book, uint16_t list, uint64_t value, struct flailreeve_place *place)
{
    return 0;
}

uint16_t flailreeve_pop_back(uint16_t *links, size_t links_len, uint64_t *values, size_t values_len,
                             struct flailreeve_book *book, uint16_t list, uint64_t *value, struct flailreeve_place *place)
{
    return 0;
}

uint16_t flailreeve_pop_front(uint16_t *links, size_t links_len, uint64_t *values, size_t values_len,
                              struct flailreeve_book *book, uint16_t list, uint64_t *value, struct flailreeve_place *place)
{
    return 0;
}

uint16_t flailreeve_read_forward(const uint16_t *links, size_t links_len, const uint64_t *values, size_t values_len,
                                 const struct flailreeve_book *book, uint16_t list, uint64_t *out, size_t out_len,
                                 size_t at, uint16_t *count, struct flailreeve_place *place)
{
    return 0;
}

uint16_t flailreeve_read_backward(const uint16_t *links, size_t links_len, const uint64_t *values, size_t values_len,
                                  const struct flailreeve_book *book, uint16_t list, uint64_t *out, size_t out_len,
                                  size_t at, uint16_t *count, struct flailreeve_place *place)
{
    return 0;
}

uint16_t flailreeve_clear(uint16_t *links, size_t links_len, uint64_t *values, size_t values_len,
                          struct flailreeve_book *book, uint16_t list, struct flailreeve_place *place)
{
    return 0;
}

uint16_t flailreeve_quick_push_back(uint16_t *links, size_t links_len, uint64_t *values, size_t values_len,
                                    struct flailreeve_book *book, uint16_t list, uint64_t value)
{
    return 0;
}

uint16_t flailreeve_quick_push_front(uint16_t *links, size_t links_len, uint64_t *values, size_t values_len,
                                     struct flailreeve_book *book, uint16_t list, uint64_t value)
{
    return 0;
}

uint16_t flailreeve_quick_pop_back(uint16_t *links, size_t links_len, uint64_t *values, size_t values_len,
                                   struct flailreeve_book *book, uint16_t list, uint64_t *value)
{
    return 0;
}

uint16_t flailreeve_quick_pop_front(uint16_t *links, size_t links_len, uint64_t *values, size_t values_len,
                                    struct flailreeve_book *book, uint16_t list, uint64_t *value)
{
    return 0;
}

void queue_fill(int queue, size_t held) {}

void queue_push(int queue, uint64_t value) {}

uint64_t queue_pop(int queue)
{
    return 0;
}

size_t queue_length(int queue)
{
    return 0;
}

void queue_clear(int queue) {}
