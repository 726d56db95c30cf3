/* Prints how many bytes of stack each function takes, on an outline of 256 points: each runs on a painted stack of its own.

   gcc -static -O2 -Ic c/stack.c target/staticlib/libfirmware.a -pthread -o target/c_stack && target/c_stack */

#include "polygon.h"

#include <pthread.h>
#include <stdio.h>
#include <string.h>

#define STACK_BYTES (1 << 20)
#define PAINT 0xA5

static uint8_t stack[STACK_BYTES] __attribute__((aligned(4096)));

static uint8_t chain[105] = {103, 0, 4, 0, 0, 2, 0, 2, 255};
static uint8_t record[POLYGON_MOST_BYTES];
static struct polygon_written written;
static struct polygon_point vertices[POLYGON_MOST_VERTICES];
static struct polygon_reading reading;
static int32_t answer;

static void *nothing(void *unused)
{
    answer = 0;
    return unused;
}

static void *cheapest(void *unused)
{
    answer = polygon_cheapest(chain, sizeof chain, 5, false, 2, 1, record, sizeof record, &written);
    return unused;
}

static void *closest(void *unused)
{
    answer = polygon_closest(chain, sizeof chain, 5, true, 1000, record, sizeof record, &written);
    return unused;
}

static void *read_chain(void *unused)
{
    answer = polygon_read(chain, sizeof chain, vertices, POLYGON_MOST_VERTICES, &reading);
    return unused;
}

/* The bytes of the painted stack that a call changes, from the deepest on. */
static size_t deepest(void *(*call)(void *))
{
    pthread_attr_t attributes;
    pthread_t thread;
    size_t untouched = 0;

    memset(stack, PAINT, sizeof stack);
    pthread_attr_init(&attributes);
    pthread_attr_setstack(&attributes, stack, sizeof stack);
    pthread_create(&thread, &attributes, call, NULL);
    pthread_join(thread, NULL);
    while (untouched < sizeof stack && stack[untouched] == PAINT) {
        untouched++;
    }
    return sizeof stack - untouched;
}

static void tell(const char *name, void *(*call)(void *))
{
    size_t alone = deepest(nothing);
    size_t bytes = deepest(call) - alone;
    printf("%s: answer %d, %zu bytes\n", name, (int)answer, bytes);
}

int main(void)
{
    /* Codes of directions drawn at random; the last three bits are padding. */
    uint32_t state = 1;
    for (size_t i = 9; i < sizeof chain; i++) {
        state = state * 1103515245u + 12345u;
        chain[i] = (uint8_t)(state >> 16);
    }
    chain[sizeof chain - 1] &= 0xF8;
    tell("cheapest", cheapest);
    tell("closest", closest);
    tell("read", read_chain);
    return 0;
}
