// The sentence with which a test ends that found something wrong.
#pragma once

#include <cstdio>
#include <cstdlib>

// Says what is wrong and ends the run. What was being tested stands in `doing`, so that the sentence tells where.
inline char doing[256] = "nothing yet";

template <typename... Parts>
[[noreturn]] void fail(const char *words, Parts... parts)
{
    std::printf("tests/c: FAILED in %s: ", doing);
    std::printf(words, parts...);
    std::printf("\n");
    std::fflush(stdout);
    std::exit(1);
}
