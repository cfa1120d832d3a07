// Beside the fourteen calls: the version, the text of every number against crates/notices/stdout at every length of the buffer, and
// the calls over a pool as one struct against those of flailreeve.h. Usage: about NOTICES
#include "flailreeve_pool.h"

#include <cstdio>
#include <cstdlib>
#include <cstring>
#include <fstream>
#include <map>
#include <string>

namespace {

[[noreturn]] void fail(const char *what, const std::string &why)
{
    std::printf("tests/c: FAILED in %s: %s\n", what, why.c_str());
    std::exit(1);
}

void must_be(const char *what, unsigned long got, unsigned long wanted)
{
    if (got != wanted)
        fail(what, "got " + std::to_string(got) + ", wanted " + std::to_string(wanted));
}

// The last number that has a text of its own. What the numbers above it show stands in the notices under the next and under 65,535.
constexpr unsigned last_number = FLAILREEVE_REFUSED_QUICK;

// The notices, "number: text" a line.
std::map<unsigned, std::string> read_notices(const char *file)
{
    std::map<unsigned, std::string> notices;
    std::ifstream lines(file);
    std::string line;

    while (std::getline(lines, line)) {
        size_t colon = line.find(": ");

        if (colon == std::string::npos)
            fail("the notices", line);
        notices[static_cast<unsigned>(std::stoul(line))] = line.substr(colon + 2);
    }
    for (unsigned number = 0; number <= last_number + 1; number++)
        if (notices.count(number) == 0)
            fail("the notices", "there is none for " + std::to_string(number));
    if (notices.count(65535) == 0 || notices[65535] != notices[last_number + 1])
        fail("the notices", "two numbers that are not known have different texts");
    if (notices[last_number] == notices[65535])
        fail("the notices", "the last number has no text of its own");
    return notices;
}

// One number into a buffer of one length, with marks behind it.
void try_text(uint16_t number, const std::string &text, size_t places)
{
    uint8_t out[FLAILREEVE_TEXT_BYTES + 16];
    uint8_t wanted[sizeof out];
    size_t bytes = places < text.size() ? 0 : text.size();

    std::memset(out, 0xa5, sizeof out);
    std::memset(wanted, 0xa5, sizeof wanted);
    std::memcpy(wanted, text.data(), bytes);
    must_be("the count of a text", flailreeve_text(number, out, places), bytes);
    if (std::memcmp(out, wanted, sizeof out) != 0)
        fail("the bytes of a text", "number " + std::to_string(number) + " in " + std::to_string(places) + " places");
}

void texts(const char *file)
{
    const std::map<unsigned, std::string> notices = read_notices(file);
    unsigned long tried = 0;

    for (unsigned number = 0; number <= 65535; number++) {
        auto known = notices.find(number);
        const std::string &text = known == notices.end() ? notices.at(65535) : known->second;
        size_t most = number < 32 || number > 65530 ? FLAILREEVE_TEXT_BYTES + 2 : text.size();

        if (text.size() > FLAILREEVE_TEXT_BYTES)
            fail("the longest text", text);
        for (size_t places = most == text.size() ? most - 1 : 0; places <= most; places++, tried++)
            try_text(static_cast<uint16_t>(number), text, places);
    }
    std::printf("%lu texts written, of every number, and none where it did not fit\n", tried);
}

// What one sequence of calls leaves, by either form.
struct ground {
    uint16_t links[8];
    uint64_t values[8];
    flailreeve_book book;
    uint64_t out[8];
    flailreeve_place place;
    unsigned long answers;
};

void note(ground &g, unsigned long answer)
{
    g.answers = ((g.answers * 31 + answer) * 31 + g.place.list) * 31 + g.place.position;
    g.place = {0xa5a5, 0x5a5a};
}

const uint16_t shares[8] = {2, 1};
const uint16_t limits[8] = {5, 3};

void by_arguments(ground &g)
{
    uint16_t count = 0;
    uint64_t value = 0;

    note(g, flailreeve_setup(g.links, 8, g.values, 8, 2, shares, limits, &g.book));
    for (uint64_t k = 1; k <= 6; k++)
        note(g, flailreeve_push_back(g.links, 8, g.values, 8, &g.book, 0, 100 + k, &g.place));
    note(g, flailreeve_push_front(g.links, 8, g.values, 8, &g.book, 1, 200, &g.place));
    note(g, flailreeve_check(g.links, 8, g.values, 8, &g.book, &g.place));
    note(g, flailreeve_length(g.links, 8, g.values, 8, &g.book, 0, &count, &g.place));
    note(g, count);
    note(g, flailreeve_read_forward(g.links, 8, g.values, 8, &g.book, 0, g.out, 8, 1, &count, &g.place));
    note(g, count);
    note(g, flailreeve_pop_back(g.links, 8, g.values, 8, &g.book, 0, &value, &g.place));
    note(g, value);
    note(g, flailreeve_pop_front(g.links, 8, g.values, 8, &g.book, 0, &value, &g.place));
    note(g, value);
    note(g, flailreeve_read_backward(g.links, 8, g.values, 8, &g.book, 0, g.out, 8, 4, &count, &g.place));
    note(g, count);
    note(g, flailreeve_quick_push_back(g.links, 8, g.values, 8, &g.book, 1, 300));
    note(g, flailreeve_quick_push_front(g.links, 8, g.values, 8, &g.book, 0, 400));
    note(g, flailreeve_quick_pop_back(g.links, 8, g.values, 8, &g.book, 0, &value));
    note(g, value);
    note(g, flailreeve_quick_pop_front(g.links, 8, g.values, 8, &g.book, 1, &value));
    note(g, value);
    note(g, flailreeve_clear(g.links, 8, g.values, 8, &g.book, 1, &g.place));
    g.values[g.book.free_head] = 1;
    note(g, flailreeve_check(g.links, 8, g.values, 8, &g.book, &g.place));
    note(g, flailreeve_length(g.links, 8, g.values, 8, &g.book, 0, &count, &g.place));
    note(g, flailreeve_push_back(g.links, 8, g.values, 8, &g.book, 0, 1, &g.place));
    note(g, flailreeve_push_front(g.links, 8, g.values, 8, &g.book, 0, 1, &g.place));
    note(g, flailreeve_pop_back(g.links, 8, g.values, 8, &g.book, 0, &value, &g.place));
    note(g, flailreeve_pop_front(g.links, 8, g.values, 8, &g.book, 0, &value, &g.place));
    note(g, flailreeve_read_forward(g.links, 8, g.values, 8, &g.book, 0, g.out, 8, 1, &count, &g.place));
    note(g, flailreeve_read_backward(g.links, 8, g.values, 8, &g.book, 0, g.out, 8, 1, &count, &g.place));
    note(g, flailreeve_clear(g.links, 8, g.values, 8, &g.book, 0, &g.place));
}

void by_struct(ground &g)
{
    const flailreeve_pool pool = {g.links, 8, g.values, 8};
    uint16_t count = 0;
    uint64_t value = 0;

    note(g, flailreeve_pool_setup(&pool, 2, shares, limits, &g.book));
    for (uint64_t k = 1; k <= 6; k++)
        note(g, flailreeve_pool_push_back(&pool, &g.book, 0, 100 + k, &g.place));
    note(g, flailreeve_pool_push_front(&pool, &g.book, 1, 200, &g.place));
    note(g, flailreeve_pool_check(&pool, &g.book, &g.place));
    note(g, flailreeve_pool_length(&pool, &g.book, 0, &count, &g.place));
    note(g, count);
    note(g, flailreeve_pool_read_forward(&pool, &g.book, 0, g.out, 8, 1, &count, &g.place));
    note(g, count);
    note(g, flailreeve_pool_pop_back(&pool, &g.book, 0, &value, &g.place));
    note(g, value);
    note(g, flailreeve_pool_pop_front(&pool, &g.book, 0, &value, &g.place));
    note(g, value);
    note(g, flailreeve_pool_read_backward(&pool, &g.book, 0, g.out, 8, 4, &count, &g.place));
    note(g, count);
    note(g, flailreeve_pool_quick_push_back(&pool, &g.book, 1, 300));
    note(g, flailreeve_pool_quick_push_front(&pool, &g.book, 0, 400));
    note(g, flailreeve_pool_quick_pop_back(&pool, &g.book, 0, &value));
    note(g, value);
    note(g, flailreeve_pool_quick_pop_front(&pool, &g.book, 1, &value));
    note(g, value);
    note(g, flailreeve_pool_clear(&pool, &g.book, 1, &g.place));
    g.values[g.book.free_head] = 1;
    note(g, flailreeve_pool_check(&pool, &g.book, &g.place));
    note(g, flailreeve_pool_length(&pool, &g.book, 0, &count, &g.place));
    note(g, flailreeve_pool_push_back(&pool, &g.book, 0, 1, &g.place));
    note(g, flailreeve_pool_push_front(&pool, &g.book, 0, 1, &g.place));
    note(g, flailreeve_pool_pop_back(&pool, &g.book, 0, &value, &g.place));
    note(g, flailreeve_pool_pop_front(&pool, &g.book, 0, &value, &g.place));
    note(g, flailreeve_pool_read_forward(&pool, &g.book, 0, g.out, 8, 1, &count, &g.place));
    note(g, flailreeve_pool_read_backward(&pool, &g.book, 0, g.out, 8, 1, &count, &g.place));
    note(g, flailreeve_pool_clear(&pool, &g.book, 0, &g.place));
}

void both_forms()
{
    ground one, other;

    std::memset(&one, 0x5a, sizeof one);
    std::memset(&other, 0x5a, sizeof other);
    one.answers = other.answers = 0;
    by_arguments(one);
    by_struct(other);
    if (std::memcmp(&one, &other, sizeof one) != 0)
        fail("the calls over a pool as one struct", "they leave something else");
    std::printf("the calls over a pool as one struct leave what the fourteen calls leave\n");
}

} // namespace

int main(int argc, char **argv)
{
    if (argc != 2)
        fail("the call", "about NOTICES");
    must_be("the version", flailreeve_version(), FLAILREEVE_VERSION);
    texts(argv[1]);
    both_forms();
    return 0;
}
