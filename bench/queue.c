/* The counted program of the heap list and of std::deque: `queue WORK N HELD LISTS TIMES`, as bench/count.c is for the fourteen calls. N
 * and LISTS change nothing. Over bench/nothing.c it counts the loop and the calls alone. */
#include <stdlib.h>
#include <string.h>

#include "queue.h"

int main(int argc, char **argv)
{
    size_t held;
    int times;

    if (argc != 6)
        return 2;
    held = strtoul(argv[3], NULL, 10);
    times = atoi(argv[5]);
    for (int queue = 0; queue < (strcmp(argv[1], "clear") == 0 ? QUEUES : 1); queue++)
        queue_fill(queue, held);
    if (strcmp(argv[1], "pair") == 0) {
        for (int i = 0; i < times; i++) {
            queue_push(0, (uint64_t)i + 1);
            (void)queue_pop(0);
        }
    } else if (strcmp(argv[1], "length") == 0) {
        for (int i = 0; i < times; i++)
            (void)queue_length(0);
    } else if (strcmp(argv[1], "clear") == 0 && times <= QUEUES) {
        for (int i = 0; i < times; i++)
            queue_clear(i);
    } else {
        return 2;
    }
    return 0;
}
