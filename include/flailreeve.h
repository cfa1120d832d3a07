/* Flailreeve's C face: lists for PIN pad firmware in one pool of memory that the firmware lends. Ten calls, and four
 * quick ones that do not check the pool.
 *
 * For C11 and C++17. The functions stand in an archive, libflailreeve.a; tools/archive builds it and prints its path. It is what
 * the proved crate `abi` is compiled to, uses no heap, keeps nothing between calls, and asks of the C library for memset
 * alone. docs/SPEED.md has what each call costs, its code and its stack.
 *
 * WHICH PROCESSOR. The archive is for x86-64 alone, since the toolchain compiles for nothing else: System V code for user
 * space, as on Linux. It uses the SSE2 registers, and the 128 bytes below the stack pointer, so an interrupt handler on the
 * same stack must leave both as they are. This header refuses a compiler for another processor. For those bench/plain has the
 * same functions in plain C, which pass the same tests and are not proved; define FLAILREEVE_PLAIN_C to use them.
 *
 * THE POOL is two buffers of equal length N: a 16-bit link and a 64-bit value for each slot. N runs from 2 to 4,096. Slot 0
 * is the null and never holds an element; slots 1 to N-1 do. A slot that no list holds is free, and a free slot's value
 * is 0: when a pop or a clear returns, each slot that it freed holds 0.
 *
 * THE BOOK is 43 words that say where the lists begin and end, how long each is and how many slots are free, and how much each
 * list is owed and may have. A list that holds less than its share is never refused a push for want of room; no list holds more
 * than its limit. The firmware may look at the book and copy it. It makes one by flailreeve_setup, and changes it by the other
 * calls alone. A display may show a list's `length` and the `free_count` straight from the book, without a call. They are right
 * where the pool is sound, and only a call's check vouches for that; flailreeve_length checks, and then gives the book's word.
 *
 * THE NUMBER. Every call returns one: 0 when the call was done, else the reason why it was refused. The tests run in one
 * order, and the first that applies is given: 1, then 2 in setup; in the other calls 1, then 9 to 16, then 4 to 8; the quick
 * calls have an order of their own, below. The numbers from 9 to 16 say which rule of a sound pool is broken. A REFUSED CALL
 * writes 0 to `length`, `value` or `count`, where it has one; and to `place`, where it has one, the list and the position that the
 * number sets, 0 where it sets none. It changes nothing else: not a link, not a value, not the book, not the buffer of a read.
 *
 * THE PLACE. Every call but setup and the quick ones writes one to `place`, whatever number it returns: a list and a position,
 * which say where the pool is broken. A word that says nothing is 0. So both are 0 with 0, 1, 4 to 8, 9 and 10. With 11 the place
 * is a list and a position in its chain, counted from 0 at the head. With 12 it is a position in the free chain. With 13 and 14
 * the position is a slot. With 15 it is the lowest list over its limit, or the number of lists where none is but the shares are
 * not covered. With 16 it is the lowest list whose length in the book is wrong, or the number of lists where only the free count
 * is. The list is 0 with 12, 13 and 14, and the position is 0 with 15 and 16. The firmware saves the place with the number, for
 * field service, and need not act on it.
 *
 * THE QUICK CALLS are a push and a pop at each end. A quick call does not go along the chains, so that its cost does not depend on
 * N. On a sound pool it gives the number and the value of the checked call, and leaves the same links, values and book. On any
 * other it takes the counts in the book as they are. It gives 1; 17 where the number of lists is not 1 to 8; 4; 17 where the
 * length of one of the lists, or the free count, is above N-1; 5, 6 or 7, by these counts; then 17 for the rest, else 0.
 * - What it sees, before it stores anything: a slot whose cells it would read or write and that is not from 1 to N-1; two such
 *   slots that a sound pool keeps apart and that are the same; a count that would go below 0 or above N-1. These are the rest.
 *   So whatever the memory holds, it touches no cell outside slots 1 to N-1.
 * - What it does not see: a head, a tail, a free head or a link that is wrong and yet a slot of the pool or 0, a slot that two
 *   chains have or none has, a free slot that is not wiped, slot 0, a number of lists or a count that is wrong and yet not too
 *   large, shares and limits that break the rules. On such a pool it may be done, and then a list may lose elements, which stay
 *   in memory, get those of another, or hand out a 0 that nobody pushed; and 4 to 7 may be given where nothing stands in the way.
 * It gives none of 9 to 16 and has no place. 17 is never given for a sound pool, so after it flailreeve_check says which rule is
 * broken, and where. Firmware that uses quick calls makes a check where there is time, as at a start or when no key is pressed.
 *
 * A BOUNCED KEY may be treated, as far as the pool and the book go, as if it had never been pressed. After a push that
 * returned 0, a pop at the same end of that list returns 0 with the value that was pushed, and every link, every value and
 * every word of the book, the counts among them, is as it was before the push. After a pop that returned 0, a push of its value
 * at the same end of that list returns 0, never 6 or 7, and all is as it was before the pop. This holds where nothing changes
 * the pool or the book between the two; of quick calls, one or both of the two, where the pool was sound before. The value then
 * stands where the pop wrote it, for the firmware to wipe.
 *
 * WHAT THE CALLER OWES. A call believes these, and no proof can see them; if one does not hold, the behaviour is undefined.
 * - No pointer is null, not even with a length of 0, and each is aligned: to 2 bytes for links, shares, limits, the book,
 *   `length`, `count` and `place`; to 8 bytes for values, `value` and `out`.
 * - The lengths that are handed over, `links_len`, `values_len` and `out_len`, are true. They count cells, not bytes; shares and
 *   limits have eight words each, whatever `lists` is. All of these can be read, and written where the parameter is not a pointer
 *   to const.
 * - No two buffers of one call overlap; `length`, `value`, `count`, `place` and the book are buffers too.
 * - No other thread and no interrupt handler touches these buffers while the call runs. Calls on different pools may run
 *   at the same time: nothing is shared.
 * - There is stack enough: a call uses up to 4.5 KiB (docs/SPEED.md has the bytes of each).
 * WHAT THE CALLER DOES NOT OWE. What the cells and the book hold may be anything: every call but setup and the quick ones checks
 * the whole pool before it acts, in time in proportion to N, and refuses by 9 to 16 one that is not sound. Damage that leaves it
 * sound, as another value in a list's slot, is not seen. What `place` held does not matter. List numbers, `at` and values may be
 * anything too. Every call ends.
 *
 * A RESET OR A POWER LOSS IN MID-CALL leaves what was stored until then, and no call undoes it. Where the memory kept what it
 * held, flailreeve_check tells whether the pool is sound; a sound pool may still have the last call done, not done, or an
 * element whose value is already wiped. To start again from a known state call flailreeve_setup: it asks nothing of what the
 * memory holds, and wipes every slot.
 *
 * WHAT IS LEFT TO THE FIRMWARE TO WIPE. The value that it hands to a push, in its own variables and, it being the seventh
 * argument, on its own stack; a value that a pop hands out; the copies that a read writes; and registers: after a done checked
 * pop rdi holds the value, and after a done quick push r10 does, until something else is put there.
 * After the other done calls no register does. In the dead stack below the caller no call, done or refused, leaves a copy of a
 * block that it was lent or handed. But a call saves there the registers that it must keep for its caller (rbx, rbp, r12 to
 * r15), so a block that the caller itself has in one of them is left there too. This is measured on the compiled archive, at
 * every byte, and not proved. */
#ifndef FLAILREEVE_H
#define FLAILREEVE_H

#if !defined(FLAILREEVE_PLAIN_C) && (!defined(__x86_64__) || defined(_WIN32))
#error "libflailreeve.a is for x86-64 and System V alone; elsewhere compile bench/plain/*.c and define FLAILREEVE_PLAIN_C"
#endif

#include <stddef.h>
#include <stdint.h>

#ifdef __cplusplus
extern "C" {
#endif

/* The sizes of document 01. */
enum {
    FLAILREEVE_BOOK_LISTS = 8,       /* lists that a book has room for */
    FLAILREEVE_SMALLEST_POOL = 2,    /* the smallest N */
    FLAILREEVE_LARGEST_POOL = 4096   /* the largest N */
};

/* The version of this header. It is raised when a function, the book or the meaning of a number changes. An archive answers
 * by flailreeve_version which header it is for; firmware asks once, before it calls anything else. */
#define FLAILREEVE_VERSION 4

/* The numbers that a call returns, and what to do about each. docs/REFUSALS.md has the same for field service. */
enum {
    FLAILREEVE_DONE = 0,             /* done */
    FLAILREEVE_REFUSED_SIZES = 1,    /* the lengths of links and values differ, or N is under 2 or over 4,096. The call is
                                        written wrongly: mend it */
    FLAILREEVE_REFUSED_RULES = 2,    /* setup's lists, shares or limits break the rules of the book. Ask for less */
    FLAILREEVE_REFUSED_UNSOUND = 3,  /* given by no call from version 2 on: 9 to 16 say which rule is broken */
    FLAILREEVE_REFUSED_NO_LIST = 4,  /* the list number is not below the number of lists. The call is written wrongly */
    FLAILREEVE_REFUSED_EMPTY = 5,    /* the list is empty: there is nothing to take. A quick call believes the book */
    FLAILREEVE_REFUSED_LIMIT = 6,    /* the list's length equals its limit. Take something out first, or drop the value */
    FLAILREEVE_REFUSED_KEPT = 7,     /* the list is under its limit but has its share, and no slot is free but those that the
                                        other lists still lack of theirs. As with 6, or wait until another list has less */
    FLAILREEVE_REFUSED_BUFFER = 8,   /* `at` is past the buffer's end, or there are fewer cells from `at` on than the list is
                                        long. Ask for the length, and lend so many cells */

    /* Something damaged the pool or its book. The first rule that is broken is named; behind it others may be. Do this in order:
       1. Save the number and the place, and what is asked for below. Save no value: it may be a block.
       2. Call setup. It wipes every slot, since what the lists held is still in memory; and it writes over links and book, so
          it must come after 1.
       3. Report what was saved. */
    FLAILREEVE_BROKEN_BOOK = 9,        /* the number of lists, a share, a limit or an unused entry breaks the rules. Save the
                                          book's 43 words */
    FLAILREEVE_BROKEN_NULL_SLOT = 10,  /* slot 0's link or value is not 0. Save which of them it is */
    FLAILREEVE_BROKEN_LIST = 11,       /* a list's chain leaves the pool, meets a slot again or does not end at its tail: list
                                          and position. Save the links and the book: an earlier list may be what was damaged */
    FLAILREEVE_BROKEN_FREE_CHAIN = 12, /* the free chain leaves the pool or meets a slot again: position. Save the links and
                                          the book */
    FLAILREEVE_LOST_SLOT = 13,         /* a slot is in no chain: the position is the slot. Save the links and the book, and
                                          whether the device was reset in mid-call */
    FLAILREEVE_UNWIPED_SLOT = 14,      /* a free slot's value is not 0: the position is the slot. Save what wrote last */
    FLAILREEVE_OVER_LIMIT = 15,        /* a list is longer than its limit, or the free slots do not cover the shares: the list,
                                          or the number of lists. Save the links and the book's 43 words */
    FLAILREEVE_WRONG_COUNT = 16,       /* a list's length in the book is wrong, or the free count is: the list, or the number of
                                          lists. Save the links and the book's 43 words, and whether a setup was cut short */

    FLAILREEVE_REFUSED_QUICK = 17      /* a quick call met a count or a slot that no sound pool has. Call flailreeve_check, and
                                          do as with the number that it gives, which is one of 9 to 16 */
};

/* Where a pool is broken: two words, no padding. THE PLACE above says what they hold. */
struct flailreeve_place {
    uint16_t list;     /* the list, or 0 */
    uint16_t position; /* the position in the chain or the slot, or 0 */
};

/* One list of the book. */
struct flailreeve_list {
    uint16_t head;   /* its first slot, 0 when it is empty */
    uint16_t tail;   /* its last slot, 0 when it is empty */
    uint16_t share;  /* so many slots are kept for it */
    uint16_t limit;  /* and more than so many it never has */
    uint16_t length; /* so many it has */
};

/* The book: 43 words, no padding. */
struct flailreeve_book {
    uint16_t lists;                                      /* how many lists there are, 1 to 8 */
    struct flailreeve_list list[FLAILREEVE_BOOK_LISTS];  /* entries from `lists` on are all 0 */
    uint16_t free_head;                                  /* the first free slot, 0 when none is free */
    uint16_t free_count;                                 /* so many slots are free */
};

/* The archive was compiled for this layout. */
#ifdef __cplusplus
#define FLAILREEVE_HOLDS(fact, words) static_assert(fact, words)
#else
#define FLAILREEVE_HOLDS(fact, words) _Static_assert(fact, words)
#endif
#ifndef FLAILREEVE_PLAIN_C
FLAILREEVE_HOLDS(sizeof(void *) == 8 && sizeof(size_t) == 8, "the archive is for x86-64: pointers and sizes of 8 bytes");
#endif
FLAILREEVE_HOLDS(sizeof(uint16_t) == 2 && sizeof(uint64_t) == 8, "a byte has 8 bits");
FLAILREEVE_HOLDS(sizeof(struct flailreeve_list) == 10, "a list of the book is five words");
FLAILREEVE_HOLDS(offsetof(struct flailreeve_list, head) == 0, "the head is a list's first word");
FLAILREEVE_HOLDS(offsetof(struct flailreeve_list, tail) == 2, "the tail is a list's second word");
FLAILREEVE_HOLDS(offsetof(struct flailreeve_list, share) == 4, "the share is a list's third word");
FLAILREEVE_HOLDS(offsetof(struct flailreeve_list, limit) == 6, "the limit is a list's fourth word");
FLAILREEVE_HOLDS(offsetof(struct flailreeve_list, length) == 8, "the length is a list's fifth word");
FLAILREEVE_HOLDS(sizeof(struct flailreeve_book) == 86, "the book is 43 words");
FLAILREEVE_HOLDS(offsetof(struct flailreeve_book, lists) == 0, "the number of lists is the book's first word");
FLAILREEVE_HOLDS(offsetof(struct flailreeve_book, list) == 2, "the lists begin at the book's second word");
FLAILREEVE_HOLDS(offsetof(struct flailreeve_book, free_head) == 82, "the free head is the book's last word but one");
FLAILREEVE_HOLDS(offsetof(struct flailreeve_book, free_count) == 84, "the free count is the book's last word");
FLAILREEVE_HOLDS(sizeof(struct flailreeve_place) == 4, "the place is two words");
FLAILREEVE_HOLDS(offsetof(struct flailreeve_place, list) == 0, "the list is the place's first word");
FLAILREEVE_HOLDS(offsetof(struct flailreeve_place, position) == 2, "the position is the place's second word");
#ifdef __cplusplus
FLAILREEVE_HOLDS(alignof(struct flailreeve_book) == 2, "the book is aligned as its words are");
FLAILREEVE_HOLDS(alignof(struct flailreeve_place) == 2, "the place is aligned as its words are");
#else
FLAILREEVE_HOLDS(_Alignof(struct flailreeve_book) == 2, "the book is aligned as its words are");
FLAILREEVE_HOLDS(_Alignof(struct flailreeve_place) == 2, "the place is aligned as its words are");
#endif
#undef FLAILREEVE_HOLDS

/* GCC and Clang warn where an answer is thrown away, since a clear whose refusal nobody reads has left the block where it
 * was, and where they see a null pointer. */
#if defined(__GNUC__)
#define FLAILREEVE_CALL __attribute__((warn_unused_result, nonnull))
#else
#define FLAILREEVE_CALL
#endif

/* Setup: makes a pool of free slots and the book of its lists, all empty. What the buffers held before doesn't matter and is
 * overwritten. `lists` is how many lists there are to be; list k gets shares[k] and limits[k].
 *
 * Gives 0: link 0 is 0, links 1 to N-1 are 2, 3, .. and the last 0; every value is 0; the free head is 1; every
 * list's length is 0 and the free count is N-1.
 * Gives 1: the lengths differ, or N is under 2 or over 4,096.
 * Gives 2: `lists` is not 1 to 8, a share is above its limit, a limit is above N-1, the shares add up to more than N-1, or a
 * share or limit from `lists` on is not 0.
 * Refused, it leaves links, values and the book as they were. */
FLAILREEVE_CALL uint16_t flailreeve_setup(uint16_t *links, size_t links_len, uint64_t *values, size_t values_len,
                                          uint16_t lists, const uint16_t shares[8], const uint16_t limits[8],
                                          struct flailreeve_book *book);

/* Check: is the pool with its book sound? It changes nothing but `*place`.
 *
 * Gives 0: it is sound. Every slot from 1 to N-1 is in one list or free, once; the links and the book say so; every free
 * slot's value is 0; the shares and limits hold; the lengths and the free count in the book are right.
 * Gives 1: the lengths differ, or N is under 2 or over 4,096.
 * Gives 9 to 16: it is not sound. The number is the first of these that applies, and the place goes with it.
 * - 9: the number of lists is not 1 to 8, a share is above its limit, a limit is above N-1, the shares add up to more than
 *   N-1, or an entry of the book from `lists` on is not 0 in every word.
 * - 10: link 0 or value 0 is not 0.
 * - 11: a list's chain is broken. The lists are walked in the order of their numbers, each from its head to its end; the slot
 *   after a slot is its link XOR the slot before it, and 0 is the end. The position is the first whose slot is N or more, or
 *   was met before, in this list or in an earlier one; or the chain's length, where its last slot is not the tail.
 * - 12: the free chain is broken. It is walked in the same way from the free head, where the slot after a slot is its link. The
 *   slots of the lists were met before; there is no tail.
 * - 13: a slot is in no chain. The position is the lowest such slot.
 * - 14: a free slot's value is not 0. The position is the lowest such slot.
 * - 15: a list is longer than its limit: the lowest such list. Or none is, and the free slots are fewer than what the lists
 *   lack of their shares: the list is then the number of lists. Both go by the chains, not by the counts in the book.
 * - 16: a count in the book is wrong. A list's length is not that of its chain: the lowest such list. Or each is, and the free
 *   count is not the number of free slots: the list is then the number of lists. */
FLAILREEVE_CALL uint16_t flailreeve_check(const uint16_t *links, size_t links_len, const uint64_t *values,
                                          size_t values_len, const struct flailreeve_book *book,
                                          struct flailreeve_place *place);

/* Length: how many elements a list has, from the book after the check. It changes nothing but `*length` and `*place`.
 *
 * Gives 0, and the length in `*length`.
 * Gives 1, 9 to 16: as check, with the place.
 * Gives 4: there is no list of that number.
 * Refused, it writes 0 to `*length`. */
FLAILREEVE_CALL uint16_t flailreeve_length(const uint16_t *links, size_t links_len, const uint64_t *values,
                                           size_t values_len, const struct flailreeve_book *book, uint16_t list,
                                           uint16_t *length, struct flailreeve_place *place);

/* Push back: a value becomes the last element of a list, in the slot at the free head. Only the new slot, the slot that was
 * last and, in the book, the list's ends, its length, the free head and the free count change.
 *
 * Gives 0: the value is in the list.
 * Gives 1, 9 to 16: as check, with the place.
 * Gives 4: there is no list of that number.
 * Gives 6: the list's length equals its limit.
 * Gives 7: the list is under its limit but has its share, and no slot is free, or those that are free are kept for other
 * lists.
 * Refused, it changes nothing but `*place`. */
FLAILREEVE_CALL uint16_t flailreeve_push_back(uint16_t *links, size_t links_len, uint64_t *values, size_t values_len,
                                              struct flailreeve_book *book, uint16_t list, uint64_t value,
                                              struct flailreeve_place *place);

/* Push front: as push back, at the other end: the value becomes the first element of the list, and the slot that was first
 * changes. Gives 0, 1, 9 to 16, 4, 6 or 7 as push back does; refused, it changes nothing but `*place`. */
FLAILREEVE_CALL uint16_t flailreeve_push_front(uint16_t *links, size_t links_len, uint64_t *values, size_t values_len,
                                               struct flailreeve_book *book, uint16_t list, uint64_t value,
                                               struct flailreeve_place *place);

/* Pop back: takes the last element out of a list. Its slot is wiped to 0 and becomes the free head. Only that slot, its
 * neighbour and, in the book, the list's ends, its length, the free head and the free count change.
 *
 * Gives 0, and the element in `*value`. The slot that held it holds 0.
 * Gives 1, 9 to 16: as check, with the place.
 * Gives 4: there is no list of that number.
 * Gives 5: the list is empty.
 * Refused, it writes 0 to `*value` and changes nothing else but `*place`. */
FLAILREEVE_CALL uint16_t flailreeve_pop_back(uint16_t *links, size_t links_len, uint64_t *values, size_t values_len,
                                             struct flailreeve_book *book, uint16_t list, uint64_t *value,
                                             struct flailreeve_place *place);

/* Pop front: as pop back, at the other end: it takes the first element. Gives 0, 1, 9 to 16, 4 or 5 as pop back does; refused,
 * it writes 0 to `*value` and changes nothing else but `*place`. */
FLAILREEVE_CALL uint16_t flailreeve_pop_front(uint16_t *links, size_t links_len, uint64_t *values, size_t values_len,
                                              struct flailreeve_book *book, uint16_t list, uint64_t *value,
                                              struct flailreeve_place *place);

/* Read forward: copies a list's elements, first to last, into `out` from out[at] on. The list keeps them. Every other cell
 * of `out` keeps what it held. Reading an empty list at at == out_len is done and writes nothing.
 *
 * Gives 0, and how many were written in `*count`.
 * Gives 1, 9 to 16: as check, with the place.
 * Gives 4: there is no list of that number.
 * Gives 8: at > out_len, or out_len - at is less than the list's length.
 * Refused, it writes 0 to `*count` and changes nothing else but `*place`. */
FLAILREEVE_CALL uint16_t flailreeve_read_forward(const uint16_t *links, size_t links_len, const uint64_t *values,
                                                 size_t values_len, const struct flailreeve_book *book, uint16_t list,
                                                 uint64_t *out, size_t out_len, size_t at, uint16_t *count,
                                                 struct flailreeve_place *place);

/* Read backward: as read forward, last to first. Gives 0, 1, 9 to 16, 4 or 8 as read forward does; refused, it writes 0 to
 * `*count` and changes nothing else but `*place`. */
FLAILREEVE_CALL uint16_t flailreeve_read_backward(const uint16_t *links, size_t links_len, const uint64_t *values,
                                                  size_t values_len, const struct flailreeve_book *book, uint16_t list,
                                                  uint64_t *out, size_t out_len, size_t at, uint16_t *count,
                                                  struct flailreeve_place *place);

/* Clear: empties a list, as popping its front until it is empty would. Every slot that it had is wiped to 0 and free. An
 * empty list is cleared too.
 *
 * Gives 0: the list is empty, its length in the book is 0, and every slot that it had holds 0 and is in the free count.
 * Gives 1, 9 to 16: as check, with the place.
 * Gives 4: there is no list of that number.
 * Refused, it changes nothing but `*place`: what the list held is still there. In a pool that is not sound, setup wipes every
 * slot. */
FLAILREEVE_CALL uint16_t flailreeve_clear(uint16_t *links, size_t links_len, uint64_t *values, size_t values_len,
                                          struct flailreeve_book *book, uint16_t list, struct flailreeve_place *place);

/* Quick push back: as push back, without the check. THE QUICK CALLS above says what it does not see.
 *
 * Gives 0: the value is in the slot that was the free head, and that slot is the list's last. Where the tail was 0, it is the
 * first too, whatever the head was.
 * Gives 1: the lengths differ, or N is under 2 or over 4,096.
 * Gives 4: there is no list of that number.
 * Gives 6: the list's length, as the book has it, equals its limit.
 * Gives 7: it is under the limit and not under the share, and the free count is no more than what the lists lack of their
 * shares, all by the book.
 * Gives 17: the number of lists is not 1 to 8, and then 4 is not asked; a list's length or the free count is above N-1, and then
 * 6 and 7 are not asked; or the free head, or the tail where it is not 0, is not from 1 to N-1; the two are the same; the length
 * is N-1, or the free count 0.
 * Refused, it changes nothing. */
FLAILREEVE_CALL uint16_t flailreeve_quick_push_back(uint16_t *links, size_t links_len, uint64_t *values, size_t values_len,
                                                    struct flailreeve_book *book, uint16_t list, uint64_t value);

/* Quick push front: as quick push back, at the other end. The tail alone says whether the list is empty; where it is not 0, the
 * head is tested in its place, and a head of 0 gives 17. */
FLAILREEVE_CALL uint16_t flailreeve_quick_push_front(uint16_t *links, size_t links_len, uint64_t *values, size_t values_len,
                                                     struct flailreeve_book *book, uint16_t list, uint64_t value);

/* Quick pop back: as pop back, without the check.
 *
 * Gives 0, and the value of the tail's slot in `*value`. The slot holds 0 and is the free head. Where its link was 0, head and
 * tail are 0.
 * Gives 1, 4: as quick push back.
 * Gives 5: the list's length, as the book has it, is 0.
 * Gives 17: as quick push back, before 4 and before 5; or the tail, or its link where it is not 0, is not from 1 to N-1; the two
 * are the same; the free count is N-1.
 * Refused, it writes 0 to `*value` and changes nothing else. */
FLAILREEVE_CALL uint16_t flailreeve_quick_pop_back(uint16_t *links, size_t links_len, uint64_t *values, size_t values_len,
                                                   struct flailreeve_book *book, uint16_t list, uint64_t *value);

/* Quick pop front: as quick pop back, at the other end: the head in place of the tail. */
FLAILREEVE_CALL uint16_t flailreeve_quick_pop_front(uint16_t *links, size_t links_len, uint64_t *values, size_t values_len,
                                                    struct flailreeve_book *book, uint16_t list, uint64_t *value);

/* ---- beside the fourteen calls */

/* The version of the header that the archive is for: FLAILREEVE_VERSION, or the two do not fit. */
uint16_t flailreeve_version(void);

/* The text of a number that a call returned, in English, printable ASCII, with no null behind it. It gives how many bytes it
 * wrote to `out` from its first byte on; every other byte keeps what it held. Where they do not all fit it gives 0 and
 * writes nothing; FLAILREEVE_TEXT_BYTES bytes are enough for any text. Every number has a text. */
enum { FLAILREEVE_TEXT_BYTES = 64 };
FLAILREEVE_CALL size_t flailreeve_text(uint16_t number, uint8_t *out, size_t out_len);

#undef FLAILREEVE_CALL

#ifdef __cplusplus
}
#endif

#endif
