// Memory to lend to a call: guard words around every buffer, and pages beyond it that nobody may touch.
#pragma once

#include <sys/mman.h>

#include <cstdint>
#include <cstring>

#include "fail.hpp"

// Where a buffer lies in its room.
enum class Spot {
    at_end,    // its last byte is the last before a page that cannot be touched
    at_start,  // its first byte is the first after such a page
    between,   // guard words on both sides, and no more than the alignment that the header asks for
};

// A buffer of up to `most` elements.
template <typename T>
class Lent {
public:
    explicit Lent(std::size_t most)
    {
        room_bytes = (most * sizeof(T) + 4 * guard_bytes + page - 1) / page * page;
        void *got = mmap(nullptr, room_bytes + 2 * page, PROT_NONE, MAP_PRIVATE | MAP_ANONYMOUS, -1, 0);
        if (got == MAP_FAILED)
            fail("no memory to lend");
        room = static_cast<unsigned char *>(got) + page;
        writable();
        put(nullptr, 0, Spot::between);
    }

    Lent(const Lent &) = delete;
    Lent &operator=(const Lent &) = delete;

    // Lays `many` elements at a spot, with guard words in all of the room that they leave beside them.
    void put(const T *from, std::size_t many, Spot spot)
    {
        count = many;
        std::size_t bytes = many * sizeof(T);
        if (spot == Spot::at_end)
            start = room + room_bytes - bytes;
        else if (spot == Spot::at_start)
            start = room;
        else
            start = room + guard_bytes + alignof(T);
        std::memset(before(), guard, static_cast<std::size_t>(start - before()));
        std::memset(start + bytes, guard, static_cast<std::size_t>(after() - (start + bytes)));
        if (many > 0)
            std::memcpy(start, from, bytes);
    }

    T *data() { return reinterpret_cast<T *>(start); }
    std::size_t size() const { return count; }
    void read_only() { protect(PROT_READ); }
    void writable() { protect(PROT_READ | PROT_WRITE); }

    // Are the guard words as they were laid?
    bool guarded() const
    {
        return all_guard(before(), start) && all_guard(start + count * sizeof(T), after());
    }

private:
    static constexpr std::size_t page = 65536;  // a multiple of every page size in use
    static constexpr std::size_t guard_bytes = 64;
    static constexpr unsigned char guard = 0xd6;

    unsigned char *room = nullptr;
    std::size_t room_bytes = 0;
    unsigned char *start = nullptr;
    std::size_t count = 0;

    unsigned char *before() const { return start - room < static_cast<long>(guard_bytes) ? room : start - guard_bytes; }
    unsigned char *after() const
    {
        unsigned char *end = start + count * sizeof(T);
        return room + room_bytes - end < static_cast<long>(guard_bytes) ? room + room_bytes : end + guard_bytes;
    }

    void protect(int how)
    {
        if (mprotect(room, room_bytes, how) != 0)
            fail("the lent memory could not be protected");
    }

    static bool all_guard(const unsigned char *from, const unsigned char *to)
    {
        for (; from < to; from++)
            if (*from != guard)
                return false;
        return true;
    }
};
