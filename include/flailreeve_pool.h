/* For those who would rather not write four arguments each time: a pool as one struct, and the fourteen calls over it, inline. It
 * adds nothing to flailreeve.h, which says what each call does and gives, and what the caller owes; C11 and C++17.
 *
 * Where the compiler does not compile these into their caller, as without optimisation, each is a function, and its frame keeps
 * a copy of the value that a push is handed. The measurements of the stack are of flailreeve.h's functions. */
#ifndef FLAILREEVE_POOL_H
#define FLAILREEVE_POOL_H

#include "flailreeve.h"

/* The two buffers that the firmware lends, with their lengths in cells. */
struct flailreeve_pool {
    uint16_t *links;
    size_t links_len;
    uint64_t *values;
    size_t values_len;
};

#if defined(__GNUC__)
#define FLAILREEVE_INLINE __attribute__((warn_unused_result, nonnull, unused)) static inline
#else
#define FLAILREEVE_INLINE static inline
#endif

FLAILREEVE_INLINE uint16_t flailreeve_pool_setup(const struct flailreeve_pool *pool, uint16_t lists,
                                                 const uint16_t shares[8], const uint16_t limits[8],
                                                 struct flailreeve_book *book)
{
    return flailreeve_setup(pool->links, pool->links_len, pool->values, pool->values_len, lists, shares, limits, book);
}

FLAILREEVE_INLINE uint16_t flailreeve_pool_check(const struct flailreeve_pool *pool, const struct flailreeve_book *book,
                                                 struct flailreeve_place *place)
{
    return flailreeve_check(pool->links, pool->links_len, pool->values, pool->values_len, book, place);
}

FLAILREEVE_INLINE uint16_t flailreeve_pool_length(const struct flailreeve_pool *pool, const struct flailreeve_book *book,
                                                  uint16_t list, uint16_t *length, struct flailreeve_place *place)
{
    return flailreeve_length(pool->links, pool->links_len, pool->values, pool->values_len, book, list, length, place);
}

FLAILREEVE_INLINE uint16_t flailreeve_pool_push_back(const struct flailreeve_pool *pool, struct flailreeve_book *book,
                                                     uint16_t list, uint64_t value, struct flailreeve_place *place)
{
    return flailreeve_push_back(pool->links, pool->links_len, pool->values, pool->values_len, book, list, value, place);
}

FLAILREEVE_INLINE uint16_t flailreeve_pool_push_front(const struct flailreeve_pool *pool, struct flailreeve_book *book,
                                                      uint16_t list, uint64_t value, struct flailreeve_place *place)
{
    return flailreeve_push_front(pool->links, pool->links_len, pool->values, pool->values_len, book, list, value, place);
}

FLAILREEVE_INLINE uint16_t flailreeve_pool_pop_back(const struct flailreeve_pool *pool, struct flailreeve_book *book,
                                                    uint16_t list, uint64_t *value, struct flailreeve_place *place)
{
    return flailreeve_pop_back(pool->links, pool->links_len, pool->values, pool->values_len, book, list, value, place);
}

FLAILREEVE_INLINE uint16_t flailreeve_pool_pop_front(const struct flailreeve_pool *pool, struct flailreeve_book *book,
                                                     uint16_t list, uint64_t *value, struct flailreeve_place *place)
{
    return flailreeve_pop_front(pool->links, pool->links_len, pool->values, pool->values_len, book, list, value, place);
}

FLAILREEVE_INLINE uint16_t flailreeve_pool_read_forward(const struct flailreeve_pool *pool,
                                                        const struct flailreeve_book *book, uint16_t list, uint64_t *out,
                                                        size_t out_len, size_t at, uint16_t *count,
                                                        struct flailreeve_place *place)
{
    return flailreeve_read_forward(pool->links, pool->links_len, pool->values, pool->values_len, book, list, out, out_len,
                                   at, count, place);
}

FLAILREEVE_INLINE uint16_t flailreeve_pool_read_backward(const struct flailreeve_pool *pool,
                                                         const struct flailreeve_book *book, uint16_t list,
                                                         uint64_t *out, size_t out_len, size_t at, uint16_t *count,
                                                         struct flailreeve_place *place)
{
    return flailreeve_read_backward(pool->links, pool->links_len, pool->values, pool->values_len, book, list, out, out_len,
                                    at, count, place);
}

FLAILREEVE_INLINE uint16_t flailreeve_pool_clear(const struct flailreeve_pool *pool, struct flailreeve_book *book,
                                                 uint16_t list, struct flailreeve_place *place)
{
    return flailreeve_clear(pool->links, pool->links_len, pool->values, pool->values_len, book, list, place);
}

FLAILREEVE_INLINE uint16_t flailreeve_pool_quick_push_back(const struct flailreeve_pool *pool, struct flailreeve_book *book,
                                                           uint16_t list, uint64_t value)
{
    return flailreeve_quick_push_back(pool->links, pool->links_len, pool->values, pool->values_len, book, list, value);
}

FLAILREEVE_INLINE uint16_t flailreeve_pool_quick_push_front(const struct flailreeve_pool *pool, struct flailreeve_book *book,
                                                            uint16_t list, uint64_t value)
{
    return flailreeve_quick_push_front(pool->links, pool->links_len, pool->values, pool->values_len, book, list, value);
}

FLAILREEVE_INLINE uint16_t flailreeve_pool_quick_pop_back(const struct flailreeve_pool *pool, struct flailreeve_book *book,
                                                          uint16_t list, uint64_t *value)
{
    return flailreeve_quick_pop_back(pool->links, pool->links_len, pool->values, pool->values_len, book, list, value);
}

FLAILREEVE_INLINE uint16_t flailreeve_pool_quick_pop_front(const struct flailreeve_pool *pool, struct flailreeve_book *book,
                                                           uint16_t list, uint64_t *value)
{
    return flailreeve_quick_pop_front(pool->links, pool->links_len, pool->values, pool->values_len, book, list, value);
}

#undef FLAILREEVE_INLINE

#endif
