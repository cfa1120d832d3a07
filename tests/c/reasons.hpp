// How often each quick call gave each number and was refused by 17 for each reason, with no other reason beside it; and the least that a
// run must reach. A test of the library that is left out is seen only where nothing else refuses the call.
#pragma once

#include "counts.hpp"
#include "quick.hpp"

namespace reasons {

inline unsigned long alone[model::calls][quick::reasons];

// Can a call be refused for this reason?
inline bool belongs(int call, int reason)
{
    if (reason <= quick::free_above)
        return true;
    return (reason >= quick::last_outside) == model::pops(static_cast<model::Call>(call));
}

inline void note(model::Call call, std::uint16_t number, unsigned why)
{
    if (number != 17)
        return;
    for (int reason = 0; reason < quick::reasons; reason++)
        alone[call][reason] += why == quick::bit(reason);
}

// So often each number was given by each quick call, and each reason for 17 was met alone.
constexpr unsigned long least = 100;

inline void hold()
{
    for (int call = model::quick_push_back; call < model::calls; call++) {
        std::printf("%s gave", model::names[call]);
        for (int number = 0; number < model::numbers; number++) {
            if (model::table[call][number])
                std::printf("%s %d %lu times", number == 0 ? "" : ",", number, reached[call][number]);
            if (model::table[call][number] ? reached[call][number] < least : reached[call][number] != 0)
                fail("%s gave %d %lu times", model::names[call], number, reached[call][number]);
        }
        std::printf("; 17 for");
        for (int reason = 0; reason < quick::reasons; reason++) {
            if (!belongs(call, reason))
                continue;
            std::printf("%s %s %lu", reason == 0 ? "" : ",", quick::words[reason], alone[call][reason]);
            if (alone[call][reason] < least)
                fail("%s was refused for %s alone %lu times, under %lu", model::names[call], quick::words[reason], alone[call][reason],
                     least);
        }
        std::printf("\n");
    }
}

}  // namespace reasons
