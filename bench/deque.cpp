// A queue as a std::deque, for bench/queue.c: a value is wiped by a store that the compiler cannot drop before it is popped. It
// checks nothing, and has no limit but the heap's.
#include <deque>

#include "queue.h"

static std::deque<uint64_t> queues[QUEUES];

static void wipe(uint64_t &value)
{
    *const_cast<volatile uint64_t *>(&value) = 0;
}

void queue_push(int queue, uint64_t value)
{
    queues[queue].push_back(value);
}

uint64_t queue_pop(int queue)
{
    uint64_t value = queues[queue].front();
    wipe(queues[queue].front());
    queues[queue].pop_front();
    return value;
}

void queue_fill(int queue, size_t held)
{
    for (size_t i = 1; i <= held; i++)
        queue_push(queue, i);
}

size_t queue_length(int queue)
{
    return queues[queue].size();
}

void queue_clear(int queue)
{
    for (uint64_t &value : queues[queue])
        wipe(value);
    queues[queue].clear();
}
