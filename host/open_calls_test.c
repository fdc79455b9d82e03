/* The two open calls from C: the examples J1 to J8, every word, the refusals 34 to 37 with their places, empty lists.
   Ratio 10 unless a line says otherwise; {1, 80} is logger place 1, tick 80. */
#include "rathunxa.h"
#include <stdio.h>
#include <stdlib.h>
#include <string.h>

_Static_assert(sizeof(struct rathunxa_timestamp) == 16, "logger, padding, tick");
_Static_assert(sizeof(struct rathunxa_join_answer) == 144, "two numbers and eight timestamps");
_Static_assert(sizeof(struct rathunxa_comparison) == 24, "two numbers, order, weakly before, padding");
_Static_assert(offsetof(struct rathunxa_comparison, place) == 8, "after the number");
_Static_assert(offsetof(struct rathunxa_comparison, order) == 16, "after the place");
_Static_assert(offsetof(struct rathunxa_comparison, weakly_before) == 17, "a byte after the order");
_Static_assert(RATHUNXA_INCOMPARABLE == 0 && RATHUNXA_BEFORE == 1, "numbers of the orders");
_Static_assert(RATHUNXA_AFTER == 2 && RATHUNXA_CONCURRENT == 3, "numbers of the orders");

typedef struct rathunxa_timestamp timestamp;

static int tested, failed;

#define LIST(...) (const timestamp[]){__VA_ARGS__}, sizeof((const timestamp[]){__VA_ARGS__}) / sizeof(timestamp)
#define LAST RATHUNXA_MAX_TICK
#define PAST (RATHUNXA_MAX_TICK + 1)

static void expect(int holds, const char *what)
{
    tested++;
    if (!holds) {
        failed++;
        printf("open_calls_test: FAILED: %s\n", what);
    }
}

/* A list in an allocation of just its size, so that a memory checker sees a read past its end. */
static timestamp *lent(const timestamp *list, size_t count)
{
    if (count == 0) return NULL;
    timestamp *copy = malloc(count * sizeof *copy);
    if (!copy) exit(2);
    memcpy(copy, list, count * sizeof *copy);
    return copy;
}

static struct rathunxa_join_answer join(uint64_t ratio, const timestamp *list, size_t count)
{
    timestamp *copy = lent(list, count);
    struct rathunxa_join_answer answer = rathunxa_join(ratio, copy, count);
    free(copy);
    return answer;
}

static int has_timestamps(const struct rathunxa_join_answer *answer, const timestamp *set, size_t count)
{
    timestamp wanted[RATHUNXA_LOGGERS];
    for (int i = 0; i < RATHUNXA_LOGGERS; i++) wanted[i] = (timestamp){RATHUNXA_BLANK_LOGGER, 0};
    for (size_t i = 0; i < count; i++) wanted[set[i].logger] = set[i];
    for (int i = 0; i < RATHUNXA_LOGGERS; i++) {
        const timestamp *s = &answer->timestamps[i];
        if (s->logger != wanted[i].logger || s->tick != wanted[i].tick) return 0;
    }
    return 1;
}

static void joins(const char *what, const timestamp *list, size_t count, const timestamp *set, size_t set_count)
{
    struct rathunxa_join_answer a = join(10, list, count);
    expect(a.number == RATHUNXA_OK && a.place == 0 && has_timestamps(&a, set, set_count), what);
}

static void join_gives(const char *what, uint64_t ratio, const timestamp *list, size_t count, uint64_t number,
                       uint64_t place)
{
    struct rathunxa_join_answer a = join(ratio, list, count);
    expect(a.number == number && a.place == place && has_timestamps(&a, NULL, 0), what);
}

static struct rathunxa_comparison compare(uint64_t ratio, const timestamp *first, size_t first_count,
                                          const timestamp *second, size_t second_count)
{
    timestamp *one = lent(first, first_count), *two = lent(second, second_count);
    struct rathunxa_comparison answer = rathunxa_compare(ratio, one, first_count, two, second_count);
    free(one);
    free(two);
    return answer;
}

static int has_reply(const struct rathunxa_comparison *answer, uint8_t order, bool weakly_before)
{
    return answer->order == order && answer->weakly_before == weakly_before;
}

static void replies(const char *what, const timestamp *first, size_t first_count, const timestamp *second,
                    size_t second_count, uint8_t order, bool weakly_before)
{
    struct rathunxa_comparison a = compare(10, first, first_count, second, second_count);
    expect(a.number == RATHUNXA_OK && a.place == 0 && has_reply(&a, order, weakly_before), what);
}

static void compare_gives(const char *what, uint64_t ratio, const timestamp *first, size_t first_count,
                          const timestamp *second, size_t second_count, uint64_t number, uint64_t place)
{
    struct rathunxa_comparison a = compare(ratio, first, first_count, second, second_count);
    expect(a.number == number && a.place == place && has_reply(&a, RATHUNXA_INCOMPARABLE, false), what);
}

static void test_examples(void)
{
    joins("J1", LIST({1, 80}, {1, 81}), LIST({1, 81}));
    joins("J2", LIST({1, 89}, {2, 90}), LIST({1, 89}, {2, 90}));
    joins("J3", LIST({1, 89}, {2, 100}), LIST({2, 100}));
    joins("J4", LIST({1, 80}, {2, 90}, {3, 100}), LIST({2, 90}, {3, 100}));
    joins("J4, another order", LIST({3, 100}, {1, 80}, {2, 90}), LIST({2, 90}, {3, 100}));
    replies("J5", LIST({1, 80}), LIST({2, 90}, {3, 100}), RATHUNXA_INCOMPARABLE, true);
    replies("J5, turned round", LIST({2, 90}, {3, 100}), LIST({1, 80}), RATHUNXA_INCOMPARABLE, false);
    joins("J6", LIST({2, 55}, {2, 55}), LIST({2, 55}));
    joins("J7", LIST({1, 80}, {1, 90}, {2, 80}, {2, 90}), LIST({1, 90}, {2, 90}));
    joins("J8", LIST({1, 0}, {1, LAST}), LIST({1, LAST}));
}

/* J4 in steps: the join of a pair is lent again together with the third. */
static void test_grouping(void)
{
    const timestamp all[3] = {{1, 80}, {2, 90}, {3, 100}};
    for (int alone = 0; alone < 3; alone++) {
        timestamp pair[2] = {all[(alone + 1) % 3], all[(alone + 2) % 3]}, list[3];
        struct rathunxa_join_answer inner = join(10, pair, 2);
        size_t count = 0;
        list[count++] = all[alone];
        for (int i = 0; i < RATHUNXA_LOGGERS && count < 3; i++)
            if (inner.timestamps[i].logger != RATHUNXA_BLANK_LOGGER) list[count++] = inner.timestamps[i];
        joins("J4, grouped", list, count, LIST({2, 90}, {3, 100}));
    }
}

static void test_replies(void)
{
    replies("before", LIST({1, 80}), LIST({1, 81}), RATHUNXA_BEFORE, true);
    replies("after", LIST({1, 81}), LIST({1, 80}), RATHUNXA_AFTER, false);
    replies("before, other loggers", LIST({1, 89}), LIST({2, 100}, {3, 105}), RATHUNXA_BEFORE, true);
    replies("after, other loggers", LIST({2, 100}, {3, 105}), LIST({1, 89}), RATHUNXA_AFTER, false);
    replies("before, both ends", LIST({0, 0}), LIST({7, LAST}), RATHUNXA_BEFORE, true);
    replies("after, both ends", LIST({7, LAST}), LIST({0, 0}), RATHUNXA_AFTER, false);
    replies("concurrent", LIST({1, 89}), LIST({2, 90}), RATHUNXA_CONCURRENT, true);
    replies("concurrent, turned round", LIST({2, 90}), LIST({1, 89}), RATHUNXA_CONCURRENT, true);
    replies("concurrent, itself", LIST({2, 55}, {3, 60}), LIST({3, 60}, {2, 55}, {2, 55}), RATHUNXA_CONCURRENT, true);
    replies("incomparable", LIST({1, 80}, {2, 80}), LIST({1, 81}, {2, 79}), RATHUNXA_INCOMPARABLE, false);
    replies("incomparable, turned round", LIST({1, 81}, {2, 79}), LIST({1, 80}, {2, 80}), RATHUNXA_INCOMPARABLE, false);
}

static void test_join_refusals(void)
{
    timestamp many[129];
    for (int i = 0; i < 129; i++) many[i] = (timestamp){7, LAST};
    struct rathunxa_join_answer full = join(RATHUNXA_MAX_RATIO, many, 128);
    expect(full.number == RATHUNXA_OK && has_timestamps(&full, many, 1), "128 entries, the largest ratio");
    join_gives("34: ratio 0", 0, LIST({1, 80}), 34, 0);
    join_gives("34: ratio 1,000,001", RATHUNXA_MAX_RATIO + 1, LIST({1, 80}), 34, 0);
    join_gives("34: largest number", UINT64_MAX, LIST({1, 80}), 34, 0);
    join_gives("34 before 35", 0, NULL, 0, 34, 0);
    join_gives("35: empty", 10, NULL, 0, 35, 0);
    many[0].logger = 8;
    join_gives("35: 129 entries, before 36", 10, many, 129, 35, 0);
    join_gives("36: logger 8", 10, LIST({1, 80}, {8, 80}), 36, 1);
    join_gives("36: logger 255", 10, LIST({255, 0}, {8, 80}), 36, 0);
    join_gives("36: tick 2^63", 10, LIST({1, 80}, {2, 80}, {3, PAST}), 36, 2);
    join_gives("36: largest number", 10, LIST({1, 80}, {2, UINT64_MAX}), 36, 1);
}

static void test_compare_refusals(void)
{
    timestamp many[129];
    for (int i = 0; i < 129; i++) many[i] = (timestamp){1, 80};
    struct rathunxa_comparison full = compare(1, many, 128, many, 128);
    expect(full.number == RATHUNXA_OK && has_reply(&full, RATHUNXA_CONCURRENT, true), "128 entries in both lists");
    compare_gives("34: ratio 0", 0, NULL, 0, NULL, 0, 34, 0);
    compare_gives("34: ratio 1,000,001", RATHUNXA_MAX_RATIO + 1, LIST({1, 80}), LIST({1, 80}), 34, 0);
    compare_gives("35: first empty", 10, NULL, 0, LIST({9, 80}), 35, 0);
    compare_gives("35: first over 128", 10, many, 129, LIST({1, 80}), 35, 0);
    compare_gives("35: second empty", 10, LIST({1, 80}, {2, 80}), NULL, 0, 35, 2);
    compare_gives("35: second over 128", 10, LIST({1, 80}), many, 129, 35, 1);
    compare_gives("36: in the first", 10, LIST({1, 80}, {8, 80}), NULL, 0, 36, 1);
    compare_gives("36: in the second", 10, LIST({1, 80}, {2, 80}), LIST({1, 80}, {1, PAST}), 36, 3);
    compare_gives("36 before 37", 10, LIST({1, 80}, {1, PAST}), LIST({1, 80}), 36, 1);
    compare_gives("37: one logger, two ticks", 10, LIST({1, 80}, {1, 81}), LIST({9, 80}), 37, 1);
    compare_gives("37: not with the first entry", 10, LIST({1, 80}, {2, 90}, {3, 100}), LIST({1, 80}), 37, 2);
    compare_gives("37: in the second", 10, LIST({1, 80}), LIST({3, 100}, {1, 80}), 37, 2);
}

int main(void)
{
    test_examples();
    test_grouping();
    test_replies();
    test_join_refusals();
    test_compare_refusals();
    printf("open_calls_test: %d tested, %d failed\n", tested, failed);
    return failed != 0;
}
