// How often each call gave each number, how often each rule was broken in pools of each size and at which places; and the least that
// a whole run must reach. A case that was never met would be a test that cannot fail.
#pragma once

#include "fail.hpp"
#include "memory.hpp"

inline unsigned long reached[model::calls][model::numbers];

namespace counts {

// The sizes that are counted by themselves, and the others in spans: each span has the sizes from `from` to below the next.
constexpr std::size_t from[] = {2, 3, 4, 5, 6, 7, 8, 9, 10, 65, 257, 1025, 4097};
constexpr int spans = 12;
inline unsigned long rule[spans][model::last_rule + 1];

// The kinds of place, where a number has more than one.
enum Kind { list_at_head, list_further, list_zero, list_later, free_at_head, free_further, lost_one, lost_later, unwiped_one,
            unwiped_later, over_zero, over_later, uncovered, count_zero, count_later, count_free, kinds };
constexpr const char *words[kinds] = {
    "11 at position 0", "11 further on", "11 in list 0", "11 in a later list", "12 at position 0", "12 further on",
    "13 of slot 1", "13 of a later slot", "14 of slot 1", "14 of a later slot", "15 of list 0", "15 of a later list",
    "15 of the shares", "16 of list 0", "16 of a later list", "16 of the free slots"};
inline unsigned long kind[spans][kinds];

inline int span_of(std::size_t n)
{
    int span = 0;
    while (span + 1 < spans && n >= from[span + 1])
        span++;
    return span;
}

inline void count_kind(unsigned long (&to)[kinds], unsigned number, const flailreeve_place &place, unsigned lists)
{
    switch (number) {
    case 11:
        to[place.position == 0 ? list_at_head : list_further]++;
        to[place.list == 0 ? list_zero : list_later]++;
        break;
    case 12:
        to[place.position == 0 ? free_at_head : free_further]++;
        break;
    case 13:
        to[place.position == 1 ? lost_one : lost_later]++;
        break;
    case 14:
        to[place.position == 1 ? unwiped_one : unwiped_later]++;
        break;
    case 15:
        to[place.list == lists ? uncovered : place.list == 0 ? over_zero : over_later]++;
        break;
    case 16:
        to[place.list == lists ? count_free : place.list == 0 ? count_zero : count_later]++;
        break;
    }
}

inline void count(model::Call call, std::size_t n, unsigned number, const flailreeve_place &place, unsigned lists)
{
    reached[call][number]++;
    if (number < model::first_rule || number > model::last_rule)
        return;
    rule[span_of(n)][number]++;
    count_kind(kind[span_of(n)], number, place, lists);
}

// Every number that the table allows was given, and no other.
inline void hold_table()
{
    std::printf("%-17s", "times given");
    for (int number = 0; number < model::numbers; number++)
        std::printf("%9d", number);
    std::printf("\n");
    for (int call = 0; call < model::calls; call++) {
        std::printf("%-17s", model::names[call]);
        for (int number = 0; number < model::numbers; number++) {
            if (model::table[call][number])
                std::printf("%9lu", reached[call][number]);
            else
                std::printf("%9s", reached[call][number] == 0 ? "-" : "WRONG");
        }
        std::printf("\n");
    }
    for (int call = 0; call < model::calls; call++)
        for (int number = 0; number < model::numbers; number++) {
            if (model::table[call][number] && reached[call][number] == 0)
                fail("%s never gave %d", model::names[call], number);
            if (!model::table[call][number] && reached[call][number] != 0)
                fail("%s gave %d, which it never may", model::names[call], number);
        }
}

// So often each rule was broken in pools of each size, and in small ones so often at each kind of place: less than half of what a run
// has shown.
constexpr unsigned long least_small = 100, least_large = 30, least_kind = 25;

inline void show_rules()
{
    std::printf("%-14s", "pools of");
    for (int number = model::first_rule; number <= model::last_rule; number++)
        std::printf("%9d", number);
    std::printf("\n");
    for (int span = 0; span < spans; span++) {
        char sizes[32];
        std::snprintf(sizes, sizeof sizes, from[span] + 1 == from[span + 1] ? "%zu" : "%zu to %zu", from[span], from[span + 1] - 1);
        std::printf("%-14s", sizes);
        for (int number = model::first_rule; number <= model::last_rule; number++)
            std::printf("%9lu", rule[span][number]);
        std::printf("\n");
    }
    for (int which = 0; which < kinds; which++) {
        unsigned long all = 0;
        for (int span = 0; span < spans; span++)
            all += kind[span][which];
        std::printf("%s%s: %lu", which == 0 ? "" : ", ", words[which], all);
    }
    std::printf("\n");
}

// Can a pool of so many slots be broken there? A pool of two has one slot to be lost or not wiped, slot 1.
inline bool can_be(std::size_t n, int which) { return n > 2 || (which != lost_later && which != unwiped_later); }

// A pool of two slots can be broken by every rule.
inline void hold_rules()
{
    show_rules();
    for (int span = 0; span < spans; span++) {
        const unsigned long least = from[span] < 65 ? least_small : least_large;
        for (int number = model::first_rule; number <= model::last_rule; number++)
            if (rule[span][number] < least)
                fail("%d was given %lu times for pools of %zu slots and more, under %lu", number, rule[span][number], from[span], least);
        for (int which = 0; from[span] < 10 && which < kinds; which++)
            if (can_be(from[span], which) && kind[span][which] < least_kind)
                fail("%s was met %lu times in pools of %zu slots, under %lu", words[which], kind[span][which], from[span], least_kind);
    }
}

}  // namespace counts
