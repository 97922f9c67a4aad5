/* Measures the stack that the two calls take and holds it to the figures of the header: each call runs on a stack that was filled with a
   mark, and the deepest byte without the mark says how far it went. Ends with status 1 where a figure is too low. */
#define _XOPEN_SOURCE 600
#include <pthread.h>
#include <stdio.h>
#include <stdlib.h>
#include <string.h>
#include "tunebobbin.h"

#define SIZE ((size_t)1 << 18)
#define MARK 0xA5

/* one node of kind 0 with k 7, period and deadline 10, and a channel to the outside */
static const uint8_t table[16] = { 0x10, 0x40, 0x80, 0x00, 0x00, 0x50, 0x00, 0x50, 0x00, 0x00, 0x00, 0x38, 0x0F, 0xC0, 0x20, 0x00 };
static uint64_t list[4];
static size_t first, second, third;
static volatile char *before; /* where the stack stood at the call */

static void *check(void *none)
{
    volatile char here = 0;
    before = &here;
    tunebobbin_check_table(table, sizeof table, &first, &second, &third);
    return none;
}

static void *run(void *none)
{
    volatile char here = 0;
    before = &here;
    tunebobbin_run_table(table, sizeof table, 20, NULL, 0, list, 4, &first, &second, &third);
    return none;
}

/* The bytes of stack that a call takes. */
static size_t taken(void *(*call)(void *))
{
    pthread_attr_t attributes;
    pthread_t thread;
    void *stack = NULL;
    size_t deepest = 0, bytes;
    if (posix_memalign(&stack, 4096, SIZE) != 0)
        exit(2);
    memset(stack, MARK, SIZE);
    if (pthread_attr_init(&attributes) != 0 || pthread_attr_setstack(&attributes, stack, SIZE) != 0
        || pthread_create(&thread, &attributes, call, NULL) != 0 || pthread_join(thread, NULL) != 0)
        exit(2);
    while (((const unsigned char *)stack)[deepest] == MARK)
        deepest += 1;
    bytes = (size_t)(before - ((volatile char *)stack + deepest));
    free(stack);
    return bytes;
}

int main(void)
{
    size_t by_check = taken(check), by_run = taken(run);
    printf("stack: check %zu bytes of %d, run %zu bytes of %d\n", by_check, (int)TUNEBOBBIN_CHECK_STACK, by_run, (int)TUNEBOBBIN_RUN_STACK);
    return by_check > TUNEBOBBIN_CHECK_STACK || by_run > TUNEBOBBIN_RUN_STACK;
}
