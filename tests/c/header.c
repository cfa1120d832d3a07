/* The headers compile as C11 by themselves and twice, and declare the functions as they are called. */
#include "flailreeve_pool.h"
#include "flailreeve.h"
#include "flailreeve_pool.h"
#include "flailreeve.h"

typedef uint16_t links_t;
typedef uint64_t values_t;
typedef struct flailreeve_book book_t;
typedef struct flailreeve_place place_t;

uint16_t (*const setup_is)(links_t *, size_t, values_t *, size_t, uint16_t, const uint16_t *, const uint16_t *, book_t *) =
    flailreeve_setup;
uint16_t (*const check_is)(const links_t *, size_t, const values_t *, size_t, const book_t *, place_t *) = flailreeve_check;
uint16_t (*const length_is)(const links_t *, size_t, const values_t *, size_t, const book_t *, uint16_t, uint16_t *,
                            place_t *) = flailreeve_length;
uint16_t (*const pushes_are[2])(links_t *, size_t, values_t *, size_t, book_t *, uint16_t, uint64_t, place_t *) = {
    flailreeve_push_back, flailreeve_push_front};
uint16_t (*const pops_are[2])(links_t *, size_t, values_t *, size_t, book_t *, uint16_t, uint64_t *, place_t *) = {
    flailreeve_pop_back, flailreeve_pop_front};
uint16_t (*const quick_pushes_are[2])(links_t *, size_t, values_t *, size_t, book_t *, uint16_t, uint64_t) = {
    flailreeve_quick_push_back, flailreeve_quick_push_front};
uint16_t (*const quick_pops_are[2])(links_t *, size_t, values_t *, size_t, book_t *, uint16_t, uint64_t *) = {
    flailreeve_quick_pop_back, flailreeve_quick_pop_front};
uint16_t (*const reads_are[2])(const links_t *, size_t, const values_t *, size_t, const book_t *, uint16_t, uint64_t *,
                               size_t, size_t, uint16_t *, place_t *) = {flailreeve_read_forward, flailreeve_read_backward};
uint16_t (*const version_is)(void) = flailreeve_version;
size_t (*const text_is)(uint16_t, uint8_t *, size_t) = flailreeve_text;
uint16_t (*const clear_is)(links_t *, size_t, values_t *, size_t, book_t *, uint16_t, place_t *) = flailreeve_clear;

/* The numbers of document 01, and those of 02 b), c) and d). */
_Static_assert(FLAILREEVE_DONE == 0 && FLAILREEVE_REFUSED_SIZES == 1 && FLAILREEVE_REFUSED_RULES == 2 && FLAILREEVE_REFUSED_UNSOUND == 3 &&
                   FLAILREEVE_REFUSED_NO_LIST == 4 && FLAILREEVE_REFUSED_EMPTY == 5 && FLAILREEVE_REFUSED_LIMIT == 6 && FLAILREEVE_REFUSED_KEPT == 7 &&
                   FLAILREEVE_REFUSED_BUFFER == 8,
               "the numbers are those of document 01");
_Static_assert(FLAILREEVE_BROKEN_BOOK == 9 && FLAILREEVE_BROKEN_NULL_SLOT == 10 && FLAILREEVE_BROKEN_LIST == 11 &&
                   FLAILREEVE_BROKEN_FREE_CHAIN == 12 && FLAILREEVE_LOST_SLOT == 13 && FLAILREEVE_UNWIPED_SLOT == 14 && FLAILREEVE_OVER_LIMIT == 15,
               "the numbers are those of document 02 b)");
_Static_assert(FLAILREEVE_WRONG_COUNT == 16, "the number is that of document 02 c)");
_Static_assert(FLAILREEVE_REFUSED_QUICK == 17, "the number is that of document 02 d)");
_Static_assert(FLAILREEVE_VERSION == 4, "the header with the quick calls is version 4");
