/* What bench/queue.c asks of a way to keep queues: a heap list (bench/heap.c), std::deque (bench/deque.cpp), or nothing at all
 * (bench/nothing.c). Queue numbers are 0 to 15, so that there is a queue for each time that a clear is counted. */
#ifndef QUEUE_H
#define QUEUE_H

#include <stddef.h>
#include <stdint.h>

#ifdef __cplusplus
extern "C" {
#endif

enum { QUEUES = 16 };

void queue_fill(int queue, size_t held);    /* an empty queue gets 1, 2, .. held */
void queue_push(int queue, uint64_t value); /* at the back */
uint64_t queue_pop(int queue);              /* at the front */
size_t queue_length(int queue);
void queue_clear(int queue);

#ifdef __cplusplus
}
#endif

#endif
