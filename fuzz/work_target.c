/* The library against the second implementation on one fuzz input: the answer's four numbers, the bytes written, the
   bytes after them and the guard before the output must be the same, and the files unchanged. Each of the library's
   three pieces of memory ends where a page begins that nobody may touch, so a step past an end is a fault at once. */
#define _DEFAULT_SOURCE /* MAP_ANONYMOUS */
#include "input.h"
#include "rathunxa.h"
#include <inttypes.h>
#include <stdbool.h>
#include <stdio.h>
#include <stdlib.h>
#include <string.h>
#include <sys/mman.h>

#define ROOM 65536
#define PAGE 4096
#define GUARD 64
#define LENT 32768
#define NUMBERS 42

struct rathunxa_answer reference_work(const uint8_t *plan, size_t plan_len, const uint8_t *passage, size_t passage_len,
                                      uint8_t *output, size_t output_len);

struct piece {
    const uint8_t *at;
    size_t length;
};

/* Where the library's memory ends: plan, passage, output. */
static uint8_t *plan_end, *passage_end, *output_end;
/* What guard and output hold before each call. */
static uint8_t paint[GUARD + LENT];
static uint64_t answered[NUMBERS];

static uint8_t *end_of_room(void)
{
    uint8_t *room = mmap(NULL, ROOM + PAGE, PROT_READ | PROT_WRITE, MAP_PRIVATE | MAP_ANONYMOUS, -1, 0);
    if (room == MAP_FAILED || mprotect(room + ROOM, PAGE, PROT_NONE) != 0) {
        perror("work_target");
        exit(2);
    }
    return room + ROOM;
}

static void print_answered(void)
{
    fprintf(stderr, "answers, number:count");
    for (int i = 0; i < NUMBERS; i++)
        if (answered[i]) fprintf(stderr, " %d:%" PRIu64, i, answered[i]);
    fprintf(stderr, "\n");
}

int LLVMFuzzerInitialize(int *argc, char ***argv)
{
    (void)argc, (void)argv;
    plan_end = end_of_room();
    passage_end = end_of_room();
    output_end = end_of_room();
    for (size_t i = 0; i < sizeof paint; i++) paint[i] = (uint8_t)(i * 37 + (i >> 8) + 11);
    atexit(print_answered);
    return 0;
}

static void print_piece(const char *name, struct piece piece)
{
    fprintf(stderr, "%s: ", name);
    for (size_t i = 0; i < piece.length; i++) fprintf(stderr, "%02X", piece.at[i]);
    fprintf(stderr, "\n");
}

static void print_answer(const char *of, struct rathunxa_answer a)
{
    fprintf(stderr, "%s: %" PRIu64 " %" PRIu64 " %" PRIu64 " %" PRIu64 "\n", of, a.number, a.place, a.findings, a.bytes);
}

static bool same_answer(struct rathunxa_answer a, struct rathunxa_answer b)
{
    return a.number == b.number && a.place == b.place && a.findings == b.findings && a.bytes == b.bytes;
}

/* A copy that ends at `end`. */
static struct piece lent(struct piece from, uint8_t *end)
{
    memcpy(end - from.length, from.at, from.length);
    return (struct piece){end - from.length, from.length};
}

static bool same_piece(struct piece a, struct piece b)
{
    return memcmp(a.at, b.at, a.length) == 0;
}

/* The guard and the bytes after those written are as painted. */
static bool only_written(const uint8_t *memory, size_t length, size_t written)
{
    size_t after = GUARD + written;
    return written <= length && memcmp(memory, paint, GUARD) == 0 &&
           memcmp(memory + after, paint + after, length - written) == 0;
}

static bool agree(struct piece plan, struct piece passage, size_t length)
{
    static uint8_t other[GUARD + LENT];
    uint8_t *memory = output_end - length - GUARD;
    struct piece a = lent(plan, plan_end), b = lent(passage, passage_end);
    memcpy(memory, paint, GUARD + length);
    memcpy(other, paint, GUARD + length);
    struct rathunxa_answer one = rathunxa_work(a.at, a.length, b.at, b.length, memory + GUARD, length);
    struct rathunxa_answer two = reference_work(a.at, a.length, b.at, b.length, other + GUARD, length);
    bool same = same_answer(one, two) && memcmp(memory, other, GUARD + length) == 0;
    if (one.number < NUMBERS) answered[one.number]++;
    if (!same) {
        print_answer("library", one);
        print_answer("reference", two);
    }
    return same && only_written(memory, length, one.bytes) && same_piece(a, plan) && same_piece(b, passage);
}

int LLVMFuzzerTestOneInput(const uint8_t *data, size_t size)
{
    if (size < HEAD || size > ROOM) return 0;
    size_t length = number_at(data, 2), plan_length = number_at(data + 2, 2), rest = size - HEAD;
    if (length > LENT) length %= LENT;
    if (plan_length > rest) plan_length = rest;
    struct piece plan = {data + HEAD, plan_length}, passage = {plan.at + plan_length, rest - plan_length};
    if (agree(plan, passage, length)) return 0;
    print_piece("plan", plan);
    print_piece("passage", passage);
    fprintf(stderr, "output bytes lent: %zu\nwork_target: DIFFERENCE\n", length);
    abort();
}
