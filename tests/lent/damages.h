// Pools that are damaged in one cell or more, each with the number, the list and the position that document 02 b) and c) give it; for lent.c.
#ifndef DAMAGES_H
#define DAMAGES_H

#include <stddef.h>
#include <stdint.h>

// What one of the lent calls says: the number, and where the pool is broken, 0 where none applies.
struct refusal { uint16_t number, list, position; };

// The words of the book by their places in it.
enum {
    LISTS = 0, HEAD_0 = 1, TAIL_0 = 2, SHARE_0 = 3, LIMIT_0 = 4, LENGTH_0 = 5, HEAD_1 = 6, TAIL_1 = 7, SHARE_1 = 8, LIMIT_1 = 9, LENGTH_1 = 10,
    HEAD_2 = 11, TAIL_2 = 12, LENGTH_2 = 15, SHARE_7 = 38, LIMIT_7 = 39, LENGTH_7 = 40, FREE_HEAD = 41, FREE_COUNT = 42
};

enum cell { NONE, LINK, VALUE, WORD };
enum { STORES = 5 };

struct damage {
    const char *pool;
    struct { enum cell cell; size_t at; uint64_t to; } store[STORES];
    struct refusal right;
};

// Each is of the pool after P7 and a pop, six slots: list 0 is 1, 2 with share 2 and limit 5, list 1 is 5, 3 with share 1 and limit 3,
// and slot 4 is free. So the counts are 2, 2 and 1.
static const struct damage damages[] = {
    { "no list", { { WORD, LISTS, 0 } }, { 9, 0, 0 } },
    { "nine lists", { { WORD, LISTS, 9 } }, { 9, 0, 0 } },
    { "a list less", { { WORD, LISTS, 1 } }, { 9, 0, 0 } },
    { "a limit of N", { { WORD, LIMIT_0, 6 } }, { 9, 0, 0 } },
    { "a share above its limit", { { WORD, SHARE_0, 0 }, { WORD, SHARE_1, 4 } }, { 9, 0, 0 } },
    { "too many shares", { { WORD, SHARE_0, 5 } }, { 9, 0, 0 } },
    { "a head of list 2", { { WORD, HEAD_2, 1 } }, { 9, 0, 0 } },
    { "a tail of list 2", { { WORD, TAIL_2, 1 } }, { 9, 0, 0 } },
    { "a length of list 2", { { WORD, LENGTH_2, 1 } }, { 9, 0, 0 } },
    { "a share of list 7", { { WORD, SHARE_7, 1 } }, { 9, 0, 0 } },
    { "a limit of list 7", { { WORD, LIMIT_7, 1 } }, { 9, 0, 0 } },
    { "a length of list 7", { { WORD, LENGTH_7, 32768 } }, { 9, 0, 0 } },
    { "slot 0's link", { { LINK, 0, 1 } }, { 10, 0, 0 } },
    { "slot 0's value", { { VALUE, 0, UINT64_C(1) << 63 } }, { 10, 0, 0 } },
    { "a head outside the pool", { { WORD, HEAD_0, 6 } }, { 11, 0, 0 } },
    { "a link out of the pool", { { LINK, 1, 6 } }, { 11, 0, 1 } },
    { "a list that goes round", { { LINK, 2, 0 } }, { 11, 0, 2 } },
    { "a list that ends too early", { { LINK, 1, 0 } }, { 11, 0, 1 } },
    { "a tail before the end", { { WORD, TAIL_0, 1 } }, { 11, 0, 2 } },
    { "a tail and no head", { { WORD, HEAD_0, 0 } }, { 11, 0, 0 } },
    { "a head and no tail", { { WORD, TAIL_1, 0 } }, { 11, 1, 2 } },
    { "list 1 begins in list 0", { { WORD, HEAD_1, 1 } }, { 11, 1, 0 } },
    { "list 1 goes on into list 0", { { LINK, 3, 5 ^ 2 } }, { 11, 1, 2 } },
    { "list 0's tail and list 1's head", { { WORD, TAIL_0, 1 }, { WORD, HEAD_1, 1 } }, { 11, 0, 2 } },
    { "a free head outside the pool", { { WORD, FREE_HEAD, 6 } }, { 12, 0, 0 } },
    { "a free head in a list", { { WORD, FREE_HEAD, 3 } }, { 12, 0, 0 } },
    { "a free slot linked to itself", { { LINK, 4, 4 } }, { 12, 0, 1 } },
    { "a free slot linked to a list", { { LINK, 4, 1 } }, { 12, 0, 1 } },
    { "a free slot linked out of the pool", { { LINK, 4, 65535 } }, { 12, 0, 1 } },
    { "no free head", { { WORD, FREE_HEAD, 0 } }, { 13, 0, 4 } },
    { "a list that lost its last", { { LINK, 1, 0 }, { WORD, TAIL_0, 1 } }, { 13, 0, 2 } },
    { "two lost slots", { { LINK, 1, 0 }, { WORD, TAIL_0, 1 }, { WORD, FREE_HEAD, 0 } }, { 13, 0, 2 } },
    { "a free slot that is not wiped", { { VALUE, 4, 1 } }, { 14, 0, 4 } },
    { "its highest bit", { { VALUE, 4, UINT64_C(1) << 63 } }, { 14, 0, 4 } },
    { "free slots 4, 2 that are not wiped", { { LINK, 1, 0 }, { WORD, TAIL_0, 1 }, { LINK, 4, 2 }, { LINK, 2, 0 }, { VALUE, 4, 1 } }, { 14, 0, 2 } },
    { "list 0 over its limit", { { WORD, SHARE_0, 1 }, { WORD, LIMIT_0, 1 } }, { 15, 0, 0 } },
    { "list 1 over its limit", { { WORD, LIMIT_1, 1 } }, { 15, 1, 0 } },
    { "both over their limits", { { WORD, SHARE_0, 1 }, { WORD, LIMIT_0, 1 }, { WORD, LIMIT_1, 1 } }, { 15, 0, 0 } },
    { "shares that are not covered", { { WORD, SHARE_0, 0 }, { WORD, SHARE_1, 4 }, { WORD, LIMIT_1, 4 } }, { 15, 2, 0 } },
    { "limits before shares", { { WORD, SHARE_0, 1 }, { WORD, LIMIT_0, 1 }, { WORD, SHARE_1, 4 }, { WORD, LIMIT_1, 4 } }, { 15, 0, 0 } },
    { "15 by the chain, not by the length in the book", { { WORD, LIMIT_1, 1 }, { WORD, LENGTH_1, 1 } }, { 15, 1, 0 } },
    { "list 0's length one too high", { { WORD, LENGTH_0, 3 } }, { 16, 0, 0 } },
    { "list 0's length one too low", { { WORD, LENGTH_0, 1 } }, { 16, 0, 0 } },
    { "list 0's length 0", { { WORD, LENGTH_0, 0 } }, { 16, 0, 0 } },
    { "list 1's length one too high", { { WORD, LENGTH_1, 3 } }, { 16, 1, 0 } },
    { "list 1's length over its limit", { { WORD, LENGTH_1, 4 } }, { 16, 1, 0 } },
    { "a high bit of list 1's length", { { WORD, LENGTH_1, 2 + 32768 } }, { 16, 1, 0 } },
    { "the free count one too high", { { WORD, FREE_COUNT, 2 } }, { 16, 2, 0 } },
    { "the free count 0", { { WORD, FREE_COUNT, 0 } }, { 16, 2, 0 } },
    { "a high bit of the free count", { { WORD, FREE_COUNT, 1 + 256 } }, { 16, 2, 0 } },
    { "both lengths, and their sum is right", { { WORD, LENGTH_0, 3 }, { WORD, LENGTH_1, 1 } }, { 16, 0, 0 } },
    { "list 1's length and the free count exchanged", { { WORD, LENGTH_1, 1 }, { WORD, FREE_COUNT, 2 } }, { 16, 1, 0 } },
    { "all counts 65,535", { { WORD, LENGTH_0, 65535 }, { WORD, LENGTH_1, 65535 }, { WORD, FREE_COUNT, 65535 } }, { 16, 0, 0 } },
    { "9 before 10", { { WORD, LIMIT_0, 6 }, { LINK, 0, 1 } }, { 9, 0, 0 } },
    { "9 before 11", { { WORD, LIMIT_7, 1 }, { WORD, HEAD_0, 6 } }, { 9, 0, 0 } },
    { "10 before 11", { { LINK, 0, 1 }, { WORD, HEAD_0, 6 } }, { 10, 0, 0 } },
    { "11 before 12", { { WORD, HEAD_1, 0 }, { WORD, FREE_HEAD, 6 } }, { 11, 1, 0 } },
    { "12 before 13", { { LINK, 1, 0 }, { WORD, TAIL_0, 1 }, { LINK, 4, 4 } }, { 12, 0, 1 } },
    { "13 before 14", { { LINK, 1, 0 }, { WORD, TAIL_0, 1 }, { VALUE, 4, 1 } }, { 13, 0, 2 } },
    { "14 before 15", { { VALUE, 4, 1 }, { WORD, LIMIT_1, 1 } }, { 14, 0, 4 } },
    { "9 before 16", { { WORD, LENGTH_2, 2 }, { WORD, LENGTH_1, 0 } }, { 9, 0, 0 } },
    { "10 before 16", { { VALUE, 0, 1 }, { WORD, LENGTH_0, 0 } }, { 10, 0, 0 } },
    { "11 before 16", { { WORD, HEAD_1, 0 }, { WORD, LENGTH_0, 0 } }, { 11, 1, 0 } },
    { "12 before 16", { { LINK, 4, 4 }, { WORD, FREE_COUNT, 2 } }, { 12, 0, 1 } },
    { "13 before 16", { { WORD, FREE_HEAD, 0 }, { WORD, FREE_COUNT, 0 } }, { 13, 0, 4 } },
    { "14 before 16", { { VALUE, 4, 1 }, { WORD, LENGTH_1, 1 } }, { 14, 0, 4 } },
    { "15 before 16", { { WORD, LIMIT_1, 1 }, { WORD, LENGTH_0, 1 } }, { 15, 1, 0 } },
    { "15 of the shares before 16", { { WORD, SHARE_0, 0 }, { WORD, SHARE_1, 4 }, { WORD, LIMIT_1, 4 }, { WORD, FREE_COUNT, 2 } }, { 15, 2, 0 } },
};

#endif
