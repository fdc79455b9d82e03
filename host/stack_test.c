/* How much stack rathunxa_work takes: calls with the largest plans and passages, on a thread whose stack of 256 KB was
   painted before. Fails where a call takes more than RATHUNXA_STACK. */
#define _XOPEN_SOURCE 700
#include "rathunxa.h"
#include <pthread.h>
#include <stdio.h>
#include <stdlib.h>
#include <string.h>

#define THREAD_STACK (256 * 1024)
#define PAINT 0xc5
#define NODE_INPUT 32768
#define NO_INPUT 65535
#define SEQ 3 /* it and the operators below have no third input */
#define OPERATORS 6
#define CONTEXTS 4
#define DRAWN 400

/* The thread has the upper half. The lower half is painted too, so that a call that goes too deep is seen. */
static _Alignas(4096) uint8_t memory[2 * THREAD_STACK];
static uint8_t *const stack = memory + THREAD_STACK;
static uint8_t output[32768];

_Static_assert(RATHUNXA_STACK < THREAD_STACK, "the thread has room for the call and for itself");

struct file {
    uint8_t bytes[2048];
    size_t length;
};

static struct {
    struct file plan, passage;
    struct rathunxa_answer answer;
    const uint8_t *frame; /* where the caller's own part of the stack ends */
} call;

static void *run(void *unused)
{
    call.frame = __builtin_frame_address(0);
    call.answer = rathunxa_work(call.plan.bytes, call.plan.length, call.passage.bytes, call.passage.length, output,
                                sizeof output);
    return unused;
}

static void on_painted_stack(void)
{
    pthread_attr_t attributes;
    pthread_t thread;
    memset(memory, PAINT, sizeof memory);
    if (pthread_attr_init(&attributes) || pthread_attr_setstack(&attributes, stack, THREAD_STACK) ||
        pthread_create(&thread, &attributes, run, NULL) || pthread_join(thread, NULL)) {
        printf("stack_test: no thread with a stack of its own\n");
        exit(2);
    }
    pthread_attr_destroy(&attributes);
}

/* Runs the call and gives the bytes between the caller's frame and the deepest one that was written. */
static size_t stack_used(void)
{
    const uint8_t *deepest = memory;
    on_painted_stack();
    while (*deepest == PAINT) deepest++;
    return (size_t)(call.frame - deepest);
}

static void put(struct file *file, int size, uint64_t value)
{
    for (int i = size - 1; i >= 0; i--) file->bytes[file->length++] = (uint8_t)(value >> (8 * i));
}

/* Ratio 10, all 8 loggers, all 32 kinds, the given number of nodes to come. Kind and logger numbers are places. */
static void begin_plan(int nodes)
{
    call.plan.length = 0;
    put(&call.plan, 2, 1);
    put(&call.plan, 4, 10);
    put(&call.plan, 2, RATHUNXA_LOGGERS);
    for (int i = 0; i < RATHUNXA_LOGGERS; i++) put(&call.plan, 2, (uint64_t)i);
    put(&call.plan, 2, RATHUNXA_KINDS);
    for (int i = 0; i < RATHUNXA_KINDS; i++) put(&call.plan, 2, (uint64_t)i);
    put(&call.plan, 2, (uint64_t)nodes);
}

/* The third input is put where the operator has one. */
static void put_node(int operator, int context, const int inputs[3])
{
    put(&call.plan, 1, (uint64_t)operator);
    put(&call.plan, 1, (uint64_t)context);
    put(&call.plan, 2, (uint64_t)inputs[0]);
    put(&call.plan, 2, (uint64_t)inputs[1]);
    put(&call.plan, 2, operator <= SEQ ? NO_INPUT : (uint64_t)inputs[2]);
}

static void begin_passage(int events)
{
    call.passage.length = 0;
    put(&call.passage, 2, (uint64_t)events);
}

static void put_event(int kind, int logger, uint64_t tick)
{
    put(&call.passage, 2, (uint64_t)kind);
    put(&call.passage, 2, (uint64_t)logger);
    put(&call.passage, 8, tick);
}

/* 16 nodes, each fed by the one before, with one operator and context. */
static void nested_plan(int operator, int context)
{
    begin_plan(RATHUNXA_NODES);
    put_node(operator, context, (int[]){0, 1, 2});
    for (int i = 1; i < RATHUNXA_NODES; i++) put_node(operator, context, (int[]){NODE_INPUT + i - 1, 1, 2});
}

/* 128 events of all loggers; after each `lefts` of kind 0 one of kind 1 or, every second time, of kind 2. */
static void rounds_passage(int lefts)
{
    begin_passage(RATHUNXA_EVENTS);
    for (int i = 0; i < RATHUNXA_EVENTS; i++) {
        int last = i % (lefts + 1) == lefts, kind = last ? 1 + i / (lefts + 1) % 2 : 0;
        put_event(kind, i % RATHUNXA_LOGGERS, (uint64_t)(80 + i % RATHUNXA_LOGGERS + 30 * (i / 8)));
    }
}

static size_t most_used, calls, ended[64];

static void measure(void)
{
    size_t used = stack_used();
    if (used > most_used) most_used = used;
    if (call.answer.number < 64) ended[call.answer.number]++;
    calls++;
}

/* Each operator in each context, with 1 to 17 that wait for one. */
static void nested_cases(void)
{
    for (int i = 0; i < OPERATORS * CONTEXTS * 17; i++) {
        nested_plan(1 + i / 17 / CONTEXTS, 1 + i / 17 % CONTEXTS);
        rounds_passage(1 + i % 17);
        measure();
    }
}

/* The left lists of all nodes filled to 16, and the middle lists where lefts do not take them, then events that meet
   them all. */
static void full_lists(int operator, int context)
{
    begin_plan(RATHUNXA_NODES);
    for (int i = 0; i < RATHUNXA_NODES; i++) put_node(operator, context, (int[]){i % 2 ? NODE_INPUT : 0, 1, 2});
    begin_passage(2 * RATHUNXA_WAITING + 1);
    for (int i = 0; i < RATHUNXA_WAITING; i++) put_event(0, i % RATHUNXA_LOGGERS, 80 + (uint64_t)(i / 8));
    for (int i = 0; i < RATHUNXA_WAITING; i++) put_event(1, i % RATHUNXA_LOGGERS, 180 + (uint64_t)(i / 8));
    put_event(2, 7, RATHUNXA_MAX_TICK);
    measure();
}

static uint64_t drawn_below(uint64_t n)
{
    static uint64_t state = 1;
    state = state * UINT64_C(6364136223846793005) + UINT64_C(1442695040888963407);
    return (state >> 33) % n;
}

static int drawn_input(int place)
{
    if (place == 0 || drawn_below(3) == 0) return (int)drawn_below(4);
    return NODE_INPUT + (int)drawn_below((uint64_t)place);
}

static void drawn_case(void)
{
    begin_plan(RATHUNXA_NODES);
    for (int i = 0; i < RATHUNXA_NODES; i++)
        put_node(1 + (int)drawn_below(OPERATORS), 1 + (int)drawn_below(CONTEXTS),
                 (int[]){drawn_input(i), drawn_input(i), drawn_input(i)});
    begin_passage(RATHUNXA_EVENTS);
    for (int i = 0; i < RATHUNXA_EVENTS; i++)
        put_event((int)drawn_below(4), (int)drawn_below(8), (uint64_t)(80 + 10 * i) + drawn_below(40));
    measure();
}

/* The largest files with a fault at their very end: a byte too many, a tick too large, an input too large. */
static void faulty_cases(void)
{
    nested_plan(4, 1);
    rounds_passage(3);
    call.passage.bytes[call.passage.length - 8] = 0x80;
    measure();
    put(&call.passage, 1, 0);
    call.passage.bytes[call.passage.length - 9] = 0;
    measure();
    call.plan.bytes[call.plan.length - 1] = RATHUNXA_KINDS;
    measure();
    call.plan.length = call.passage.length = 0;
    measure();
}

int main(void)
{
    nested_cases();
    for (int i = 0; i < OPERATORS * CONTEXTS; i++) full_lists(1 + i / CONTEXTS, 1 + i % CONTEXTS);
    for (int i = 0; i < DRAWN; i++) drawn_case();
    faulty_cases();
    for (int i = 0; i < 64; i++)
        if (ended[i]) printf("stack_test: %zu calls answered %d\n", ended[i], i);
    int failed = most_used > RATHUNXA_STACK;
    printf("stack_test: %zu calls; the deepest took %zu bytes of stack, the header allows %d%s\n", calls, most_used,
           RATHUNXA_STACK, failed ? ": FAILED" : "");
    return failed;
}
