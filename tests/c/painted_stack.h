/* How much stack a function uses: it runs on a painted stack, and the paint that is gone is counted.
 * Include it before any other header. */
#ifndef PAINTED_STACK_H
#define PAINTED_STACK_H

#define _POSIX_C_SOURCE 200809L

#include <pthread.h>
#include <stdint.h>
#include <stdio.h>
#include <stdlib.h>
#include <string.h>

#define STACK_BYTES (1 << 20)
#define PAINT 0xA7

static void *nothing(void *unused)
{
    return unused;
}

static size_t stack_used(void *(*body)(void *))
{
    uint8_t *stack = aligned_alloc(4096, STACK_BYTES);
    pthread_attr_t attributes;
    pthread_t thread;
    size_t clean = 0;

    if (!stack)
        exit(2);
    memset(stack, PAINT, STACK_BYTES);
    pthread_attr_init(&attributes);
    if (pthread_attr_setstack(&attributes, stack, STACK_BYTES) || pthread_create(&thread, &attributes, body, NULL))
        exit(2);
    pthread_join(thread, NULL);
    while (clean < STACK_BYTES && stack[clean] == PAINT)
        clean++;
    free(stack);
    return STACK_BYTES - clean;
}

/* What a body uses beyond an empty one; the exit status counts a body that uses more than the header allows. */
static int within(const char *what, void *(*body)(void *), int allowed)
{
    size_t base = stack_used(nothing), used = stack_used(body);

    used = used > base ? used - base : 0;
    printf("stack: %s %zu bytes, the header allows %d\n", what, used, allowed);
    return used <= (size_t)allowed;
}

#endif
