/* Measures the stack that each function of the library takes for the rule file on standard input, and says it beside what the header
 * states: a line each for run, call and check. Then each of them is called on a thread with the stack that the header says a thread needs.
 *
 * A thread gets a stack that is painted all over. What it painted over when it ends is what it took; what a thread takes that calls nothing
 * comes off.
 */
#define _POSIX_C_SOURCE 200809L
#include "pegplanet.h"

#include <limits.h>
#include <pthread.h>
#include <stdio.h>
#include <stdlib.h>
#include <string.h>

enum { STACK = 1 << 20, PAINT = 0xA5, ROOM = 100000 };

static uint8_t file[60000], out[ROOM];
static size_t length;
static uint32_t scratch[PEGPLANET_SCRATCH_WORDS(60000, 3000, 1000, 1000)];

static void *nothing(void *unused) {
    return unused;
}

static void *run(void *unused) {
    pegplanet_run(file, length, 100000, 1000, out, ROOM);
    return unused;
}

static void *call(void *unused) {
    static uint64_t result[PEGPLANET_RESULT_WORDS];
    pegplanet_call(file, length, 3000, 1000, 1000, 100000, 1000, scratch, sizeof scratch / sizeof *scratch, out, ROOM, result, PEGPLANET_RESULT_WORDS);
    return unused;
}

static void *check(void *unused) {
    pegplanet_check(file, length);
    return unused;
}

static void need(int good, const char *what) {
    if (!good) {
        fprintf(stderr, "%s\n", what);
        exit(1);
    }
}

/* The bytes of its stack that a thread has written to. */
static size_t taken(void *(*start)(void *)) {
    static uint8_t *stack;
    pthread_attr_t with_stack;
    pthread_t thread;
    size_t left = 0;

    need(stack || posix_memalign((void **)&stack, 4096, STACK) == 0, "no memory for a stack");
    memset(stack, PAINT, STACK);
    need(pthread_attr_init(&with_stack) == 0 && pthread_attr_setstack(&with_stack, stack, STACK) == 0, "the stack is not taken");
    need(pthread_create(&thread, &with_stack, start, NULL) == 0 && pthread_join(thread, NULL) == 0, "the thread does not run");
    pthread_attr_destroy(&with_stack);
    while (left < STACK && stack[left] == PAINT) {
        left++;
    }
    return STACK - left;
}

/* A thread with a stack of so many bytes, which has no more behind it. */
static void on_thread(void *(*start)(void *), size_t bytes) {
    pthread_attr_t sized;
    pthread_t thread;

    need(pthread_attr_init(&sized) == 0 && pthread_attr_setstacksize(&sized, bytes) == 0, "the size of a stack is refused");
    need(pthread_create(&thread, &sized, start, NULL) == 0 && pthread_join(thread, NULL) == 0, "the thread does not run");
    pthread_attr_destroy(&sized);
}

int main(void) {
    size_t none = (taken(nothing), taken(nothing));

    length = fread(file, 1, sizeof file, stdin);
    printf("run %zu %d\n", taken(run) - none, PEGPLANET_RUN_STACK);
    printf("call %zu %d\n", taken(call) - none, PEGPLANET_CALL_STACK);
    printf("check %zu %d\n", taken(check) - none, PEGPLANET_CHECK_STACK);
    on_thread(run, PEGPLANET_THREAD_STACK(PEGPLANET_RUN_STACK));
    on_thread(call, PEGPLANET_THREAD_STACK(PEGPLANET_CALL_STACK));
    on_thread(check, PEGPLANET_THREAD_STACK(PEGPLANET_CHECK_STACK));
    return 0;
}
