/* A queue as a doubly linked list on the heap, for bench/queue.c: a node for each value, wiped by a store that the compiler
 * cannot drop, then freed. It checks nothing, and has no limit but the heap's. */
#include <stdlib.h>

#include "queue.h"

struct node {
    struct node *next, *previous;
    uint64_t value;
};

static struct list {
    struct node *first, *last;
    size_t length;
} lists[QUEUES];

void queue_push(int queue, uint64_t value)
{
    struct list *list = &lists[queue];
    struct node *node = malloc(sizeof *node);

    if (node == NULL)
        abort();
    node->next = NULL;
    node->previous = list->last;
    node->value = value;
    if (list->last != NULL)
        list->last->next = node;
    else
        list->first = node;
    list->last = node;
    list->length++;
}

uint64_t queue_pop(int queue)
{
    struct list *list = &lists[queue];
    struct node *node = list->first;
    uint64_t value = node->value;

    list->first = node->next;
    if (list->first != NULL)
        list->first->previous = NULL;
    else
        list->last = NULL;
    list->length--;
    *(volatile uint64_t *)&node->value = 0;
    free(node);
    return value;
}

void queue_fill(int queue, size_t held)
{
    for (size_t i = 1; i <= held; i++)
        queue_push(queue, i);
}

size_t queue_length(int queue)
{
    return lists[queue].length;
}

void queue_clear(int queue)
{
    while (lists[queue].first != NULL)
        (void)queue_pop(queue);
}
