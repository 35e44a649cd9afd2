/* The stack that a piece of work takes, by paint. */
#define _POSIX_C_SOURCE 200809L
#include "stack.h"

#include <pthread.h>
#include <stdint.h>
#include <stdio.h>
#include <stdlib.h>

enum { STACK_BYTES = 4 * 1024 * 1024, PAGE = 65536 };

static const uint64_t PAINT = 0xC3A5C3A5C3A5C3A5;

struct task {
    void (*work)(void *);
    void *with;
    uintptr_t top;
};

static void *start(void *given)
{
    struct task *task = given;
    volatile char here = 0;
    task->top = (uintptr_t)&here;
    task->work(task->with);
    return NULL;
}

static void fail(const char *what)
{
    fprintf(stderr, "stack: %s\n", what);
    exit(2);
}

size_t stack_taken(void (*work)(void *), void *with)
{
    struct task task = {work, with, 0};
    pthread_attr_t how;
    pthread_t thread;
    void *room;
    if (posix_memalign(&room, PAGE, STACK_BYTES) != 0) fail("no memory for a stack");
    uint64_t *word = room;
    for (size_t i = 0; i < STACK_BYTES / sizeof *word; i++) word[i] = PAINT;
    if (pthread_attr_init(&how) != 0 || pthread_attr_setstack(&how, room, STACK_BYTES) != 0) fail("a thread cannot have this stack");
    if (pthread_create(&thread, &how, start, &task) != 0 || pthread_join(thread, NULL) != 0) fail("no thread could be run");
    pthread_attr_destroy(&how);
    size_t low = 0;
    while (low < STACK_BYTES / sizeof *word && word[low] == PAINT) low++;
    if (low == 0) fail("the work took more than the stack has");
    size_t taken = task.top - (uintptr_t)(word + low);
    free(room);
    return taken;
}
