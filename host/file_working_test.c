/* File working from C: D1 to D4, the operators with a third input, the limits, each number 1 to 26 and 41 with its
   place, and which bytes of the output change. All that is expected is written by hand from document 01 and request
   Plan P: ratio 10, loggers 1 and 2, kinds 7 and 9, one node "kind 7, then kind 9". */
#include "rathunxa.h"
#include <stdio.h>
#include <stdlib.h>
#include <string.h>

_Static_assert(sizeof(struct rathunxa_answer) == 32, "four numbers");

#define GUARD 64
#define PAINT 0xee
#define RECENT 1
#define CHRONICLE 2
#define CONTINUOUS 3
#define CUMULATIVE 4
#define APERIODIC 4
#define ACCUMULATED 5
#define ABSENCE 6

static const uint8_t PLAN_P[] = {0, 1, 0, 0, 0, 10, 0, 2, 0, 1, 0, 2, 0,   2,
                                 0, 7, 0, 9, 0, 1,  3, 1, 0, 0, 0, 1, 255, 255};
enum { RATIO_AT = 2, LOGGERS_AT = 6, KINDS_AT = 12, NODES_AT = 18, NODE_AT = 20, CONTEXT_AT = 21 };

/* One node on the kinds 7, 9 and 11; its operator and context are put in. */
static const uint8_t PLAN_OF_THREE[] = {0, 1, 0, 0, 0, 10, 0, 2, 0, 1, 0, 2, 0, 3, 0, 7,
                                        0, 9, 0, 11, 0, 1, 0, 0, 0, 0, 0, 1, 0, 2};
enum { NODE_OF_THREE_AT = 22 };

/* Kind 7 at 1:80, kind 7 at 1:95, kind 9 at 2:110. */
static const uint8_t PASSAGE_D[] = {0, 3, 0, 7, 0, 1, 0, 0, 0, 0, 0, 0, 0, 80, 0, 7, 0, 1, 0,
                                    0, 0, 0, 0, 0, 0, 95, 0, 9, 0, 2, 0, 0, 0, 0, 0, 0, 0, 110};

/* Node 0 at 2:110 from 1,2, and so on. */
static const uint8_t D1[] = {0, 0, 0, 1, 0, 2, 0, 0, 0, 0, 0, 0, 0, 110, 0, 2, 0, 1, 0, 2};
static const uint8_t D2[] = {0, 0, 0, 1, 0, 2, 0, 0, 0, 0, 0, 0, 0, 110, 0, 2, 0, 0, 0, 2};
static const uint8_t D3[] = {0, 0, 0, 1, 0, 2, 0, 0, 0, 0, 0, 0, 0, 110, 0, 2, 0, 0, 0, 2,
                             0, 0, 0, 1, 0, 2, 0, 0, 0, 0, 0, 0, 0, 110, 0, 2, 0, 1, 0, 2};
static const uint8_t D4[] = {0, 0, 0, 1, 0, 2, 0, 0, 0, 0, 0, 0, 0, 110, 0, 3, 0, 0, 0, 1, 0, 2};

struct bytes {
    const uint8_t *at;
    size_t length;
};

#define ALL(array) (struct bytes){array, sizeof array}
#define NONE (struct bytes){NULL, 0}
#define ANSWER(...) (struct rathunxa_answer){__VA_ARGS__}

struct file {
    uint8_t bytes[2048];
    size_t length;
};

static int tested, failed;

static void expect(int holds, const char *what, size_t which)
{
    tested++;
    if (!holds) {
        failed++;
        printf("file_working_test: FAILED: %s (%zu)\n", what, which);
    }
}

/* Memory of just the size, so that a memory checker sees a read past its end. No bytes are lent as NULL. */
static uint8_t *room(size_t size)
{
    if (size == 0) return NULL;
    uint8_t *new = malloc(size);
    if (!new) exit(2);
    return new;
}

static uint8_t *lent(struct bytes file)
{
    uint8_t *copy = room(file.length);
    if (copy) memcpy(copy, file.at, file.length);
    return copy;
}

/* The findings at the front, and all behind them as painted, past the output's end too. */
static int holds_only(const uint8_t *output, size_t size, struct bytes findings)
{
    if (findings.length > size) return 0;
    for (size_t i = 0; i < findings.length; i++)
        if (output[i] != findings.at[i]) return 0;
    for (size_t i = findings.length; i < size; i++)
        if (output[i] != PAINT) return 0;
    return 1;
}

/* One call with output_length bytes lent must give the answer and write the findings and nothing else.
   `which` tells the cases of a loop apart. */
static void gives(const char *what, size_t which, struct bytes plan, struct bytes passage, size_t output_length,
                  struct rathunxa_answer wanted, struct bytes findings)
{
    uint8_t *plan_copy = lent(plan), *passage_copy = lent(passage), *output = room(output_length + GUARD);
    memset(output, PAINT, output_length + GUARD);
    struct rathunxa_answer a =
        rathunxa_work(plan_copy, plan.length, passage_copy, passage.length, output, output_length);
    expect(a.number == wanted.number && a.place == wanted.place, what, which);
    expect(a.findings == wanted.findings && a.bytes == wanted.bytes, what, which);
    expect(holds_only(output, output_length + GUARD, findings), what, which);
    expect(plan.length == 0 || memcmp(plan_copy, plan.at, plan.length) == 0, what, which);
    expect(passage.length == 0 || memcmp(passage_copy, passage.at, passage.length) == 0, what, which);
    free(plan_copy);
    free(passage_copy);
    free(output);
}

static void turns_back(const char *what, size_t which, struct bytes plan, struct bytes passage, uint64_t number,
                       uint64_t place)
{
    gives(what, which, plan, passage, 100, ANSWER(number, place, 0, 0), NONE);
}

static struct file file_of(struct bytes from)
{
    struct file file = {{0}, from.length};
    memcpy(file.bytes, from.at, from.length);
    return file;
}

static struct bytes bytes_of(const struct file *file)
{
    return (struct bytes){file->bytes, file->length};
}

static struct file plan_p(uint8_t context)
{
    struct file plan = file_of(ALL(PLAN_P));
    plan.bytes[CONTEXT_AT] = context;
    return plan;
}

static void put_event(struct file *passage, uint8_t kind, uint8_t logger, uint16_t tick)
{
    const uint8_t entry[12] = {0, kind, 0, logger, 0, 0, 0, 0, 0, 0, (uint8_t)(tick >> 8), (uint8_t)tick};
    memcpy(passage->bytes + passage->length, entry, sizeof entry);
    passage->length += sizeof entry;
    passage->bytes[1]++;
}

/* A kind at 1:80, 1:81 and so on. */
static struct file reports(uint8_t kind, uint8_t count)
{
    struct file passage = {{0}, 2};
    for (uint8_t i = 0; i < count; i++) put_event(&passage, kind, 1, 80 + i);
    return passage;
}

static struct file lefts(uint8_t count)
{
    return reports(7, count);
}

/* Findings "node 0 at 2:300 from i,last" for i from 0. */
static struct file pairs_with(uint8_t last, uint8_t count)
{
    struct file findings = {{0}, 0};
    for (uint8_t i = 0; i < count; i++) {
        const uint8_t finding[20] = {0, 0, 0, 1, 0, 2, 0, 0, 0, 0, 0, 0, 1, 44, 0, 2, 0, i, 0, last};
        memcpy(findings.bytes + findings.length, finding, sizeof finding);
        findings.length += sizeof finding;
    }
    return findings;
}

static void test_examples(void)
{
    const struct bytes findings[] = {ALL(D1), ALL(D2), ALL(D3), ALL(D4)};
    const uint64_t counts[] = {1, 1, 2, 1};
    for (uint8_t i = 0; i < 4; i++) {
        struct file plan = plan_p(i + 1);
        gives("D1 to D4", i + 1u, bytes_of(&plan), ALL(PASSAGE_D), 32768,
              ANSWER(0, 0, counts[i], findings[i].length), findings[i]);
    }
}

/* D1 needs 20 bytes: with fewer it gives 33 at event 2 and nothing is written. */
static void test_output_lengths(void)
{
    for (size_t length = 0; length <= 40; length++)
        if (length < 20)
            gives("D1, output of this length", length, ALL(PLAN_P), ALL(PASSAGE_D), length, ANSWER(33, 2, 0, 0), NONE);
        else
            gives("D1, output of this length", length, ALL(PLAN_P), ALL(PASSAGE_D), length, ANSWER(0, 0, 1, 20),
                  ALL(D1));
}

static struct file plan_of_three(uint8_t operator, uint8_t context)
{
    struct file plan = file_of(ALL(PLAN_OF_THREE));
    plan.bytes[NODE_OF_THREE_AT] = operator;
    plan.bytes[NODE_OF_THREE_AT + 1] = context;
    return plan;
}

/* Kind 7 at 1:80, kind 9 at 1:95, kind 11 at 2:110, kind 9 at 1:120. Aperiodic: the last finds nothing, since the third
   removed the left. Accumulated: all three in one. Absence: the middle blocks. */
static void test_intervals(void)
{
    static const uint8_t first_two[] = {0, 0, 0, 1, 0, 1, 0, 0, 0, 0, 0, 0, 0, 95, 0, 2, 0, 0, 0, 1};
    static const uint8_t all_three[] = {0, 0, 0, 1, 0, 2, 0, 0, 0, 0, 0, 0, 0, 110, 0, 3, 0, 0, 0, 1, 0, 2};
    struct file passage = {{0}, 2};
    put_event(&passage, 7, 1, 80);
    put_event(&passage, 9, 1, 95);
    put_event(&passage, 11, 2, 110);
    put_event(&passage, 9, 1, 120);
    for (uint8_t context = RECENT; context <= CUMULATIVE; context++) {
        struct file plan = plan_of_three(APERIODIC, context);
        gives("aperiodic", context, bytes_of(&plan), bytes_of(&passage), 100, ANSWER(0, 0, 1, 20), ALL(first_two));
        plan = plan_of_three(ACCUMULATED, context);
        gives("accumulated", context, bytes_of(&plan), bytes_of(&passage), 100, ANSWER(0, 0, 1, 22), ALL(all_three));
        gives("accumulated, 33", context, bytes_of(&plan), bytes_of(&passage), 21, ANSWER(33, 2, 0, 0), NONE);
        plan = plan_of_three(ABSENCE, context);
        gives("absence, blocked", context, bytes_of(&plan), bytes_of(&passage), 100, ANSWER(0, 0, 0, 0), NONE);
    }
}

/* Kind 7 at 1:80 and 1:95, kind 11 at 2:110 and, too late to take a finding back, kind 9 at 1:97: as D1 to D4. */
static void test_absence(void)
{
    const struct bytes findings[] = {ALL(D1), ALL(D2), ALL(D3), ALL(D4)};
    const uint64_t counts[] = {1, 1, 2, 1};
    struct file passage = {{0}, 2};
    put_event(&passage, 7, 1, 80);
    put_event(&passage, 7, 1, 95);
    put_event(&passage, 11, 2, 110);
    put_event(&passage, 9, 1, 97);
    for (uint8_t i = 0; i < 4; i++) {
        struct file plan = plan_of_three(ABSENCE, i + 1);
        gives("absence", i + 1u, bytes_of(&plan), bytes_of(&passage), 100, ANSWER(0, 0, counts[i], findings[i].length),
              findings[i]);
    }
}

/* 16 of kind 7 or 9 wait, the 17th gives 31. */
static void test_waiting_of_three(void)
{
    for (uint8_t i = 0; i < 4; i++) {
        uint8_t kind = i % 2 ? 9 : 7;
        struct file accumulated = plan_of_three(ACCUMULATED, i + 1), absence = plan_of_three(ABSENCE, i + 1);
        struct file full = reports(kind, 16), more = reports(kind, 17);
        gives("16 wait, accumulated", i, bytes_of(&accumulated), bytes_of(&full), 9, ANSWER(0, 0, 0, 0), NONE);
        gives("16 wait, absence", i, bytes_of(&absence), bytes_of(&full), 9, ANSWER(0, 0, 0, 0), NONE);
        gives("31, accumulated", i, bytes_of(&accumulated), bytes_of(&more), 9, ANSWER(31, 16, 0, 0), NONE);
        gives("31, absence", i, bytes_of(&absence), bytes_of(&more), 9, ANSWER(31, 16, 0, 0), NONE);
    }
}

/* Sixteen middles, a third after them, one more middle. */
static void test_room_for_middles(void)
{
    struct file accumulated = plan_of_three(ACCUMULATED, RECENT), absence = plan_of_three(ABSENCE, RECENT);
    struct file passage = reports(9, 16);
    put_event(&passage, 11, 1, 100);
    put_event(&passage, 9, 1, 101);
    gives("a third frees middles", 0, bytes_of(&accumulated), bytes_of(&passage), 9, ANSWER(0, 0, 0, 0), NONE);
    gives("a third frees none", 0, bytes_of(&absence), bytes_of(&passage), 9, ANSWER(31, 17, 0, 0), NONE);
}

static void test_waiting(void)
{
    for (uint8_t context = RECENT; context <= CUMULATIVE; context++) {
        struct file plan = plan_p(context), sixteen = lefts(16), more = lefts(17);
        gives("16 wait", context, bytes_of(&plan), bytes_of(&sixteen), 100, ANSWER(0, 0, 0, 0), NONE);
        gives("the 17th gives 31", context, bytes_of(&plan), bytes_of(&more), 100, ANSWER(31, 16, 0, 0), NONE);
    }
}

/* D1's finding leaves one waiting: recent removes only the candidate not taken. 15 more wait, the next gives 31. */
static void test_findings_before_31(void)
{
    struct file passage = file_of(ALL(PASSAGE_D));
    for (uint8_t i = 0; i < 16; i++) put_event(&passage, 7, 1, 120 + i);
    gives("31 after a finding", 0, ALL(PLAN_P), bytes_of(&passage), 100, ANSWER(31, 18, 1, 20), ALL(D1));
}

/* Continuous: a middle arrival makes a finding with each that waits. */
static void test_findings_of_an_event(void)
{
    struct file plan = plan_p(CONTINUOUS), eight = lefts(8), nine = lefts(9);
    put_event(&eight, 9, 2, 300);
    put_event(&nine, 9, 2, 300);
    struct file all = pairs_with(8, 8), most = pairs_with(9, 8), seven = pairs_with(9, 7);
    gives("8 findings", 0, bytes_of(&plan), bytes_of(&eight), 200, ANSWER(0, 0, 8, 160), bytes_of(&all));
    gives("8 findings in 160 bytes", 0, bytes_of(&plan), bytes_of(&eight), 160, ANSWER(0, 0, 8, 160), bytes_of(&all));
    gives("the 9th gives 32", 0, bytes_of(&plan), bytes_of(&nine), 200, ANSWER(32, 9, 8, 160), bytes_of(&most));
    gives("32 before 33", 0, bytes_of(&plan), bytes_of(&nine), 160, ANSWER(32, 9, 8, 160), bytes_of(&most));
    gives("33 at the 8th", 0, bytes_of(&plan), bytes_of(&nine), 159, ANSWER(33, 9, 7, 140), bytes_of(&seven));
}

static void test_no_bytes(void)
{
    const uint8_t no_events[] = {0, 0};
    gives("count 0", 0, ALL(PLAN_P), ALL(no_events), 100, ANSWER(0, 0, 0, 0), NONE);
    turns_back("passage of no bytes", 0, ALL(PLAN_P), NONE, RATHUNXA_PASSAGE_INCOMPLETE, 0);
    turns_back("plan of no bytes", 0, NONE, ALL(PASSAGE_D), RATHUNXA_PLAN_INCOMPLETE, 0);
    turns_back("both of no bytes", 0, NONE, NONE, RATHUNXA_PLAN_INCOMPLETE, 0);
    struct rathunxa_answer a = rathunxa_work(PLAN_P, sizeof PLAN_P, PASSAGE_D, sizeof PASSAGE_D, NULL, 0);
    expect(a.number == RATHUNXA_OUTPUT_FULL && a.place == 2 && a.findings == 0 && a.bytes == 0, "output NULL", 0);
    a = rathunxa_work(PLAN_P, sizeof PLAN_P, no_events, sizeof no_events, NULL, 0);
    expect(a.number == RATHUNXA_OK && a.findings == 0 && a.bytes == 0, "output NULL, count 0", 0);
    a = rathunxa_work(NULL, 0, NULL, 0, NULL, 0);
    expect(a.number == RATHUNXA_PLAN_INCOMPLETE && a.place == 0 && a.bytes == 0, "all NULL", 0);
}

/* A file cut at every byte gives the place where the piece that is cut begins. */
static void test_cuts(void)
{
    const uint64_t begins[] = {0,  0,  2,  2,  2,  2,  6,  6,  8,  8,  10, 10, 12, 12,
                               14, 14, 16, 16, 18, 18, 20, 20, 20, 20, 20, 20, 20, 20};
    for (size_t end = 0; end < sizeof PLAN_P; end++)
        turns_back("plan cut", end, (struct bytes){PLAN_P, end}, ALL(PASSAGE_D), RATHUNXA_PLAN_INCOMPLETE, begins[end]);
    for (size_t end = 0; end < sizeof PASSAGE_D; end++)
        turns_back("passage cut", end, ALL(PLAN_P), (struct bytes){PASSAGE_D, end}, RATHUNXA_PASSAGE_INCOMPLETE,
                   end < 2 ? 0 : end < 14 ? 2 : end < 26 ? 14 : 26);
}

struct fault {
    size_t at; /* from here on bytes of the file are replaced */
    uint8_t bytes[8];
    size_t length; /* how many */
    uint64_t number;
    uint64_t place;
};

static void test_plan_faults(void)
{
    const struct fault faults[] = {
        {0, {0, 0}, 2, RATHUNXA_PLAN_CLOCKS, 0},
        {0, {0, 2}, 2, RATHUNXA_PLAN_CLOCKS, 0},
        {RATIO_AT, {0, 0, 0, 0}, 4, RATHUNXA_PLAN_RATIO, RATIO_AT},
        {RATIO_AT, {0, 0x0f, 0x42, 0x41}, 4, RATHUNXA_PLAN_RATIO, RATIO_AT},
        {LOGGERS_AT, {0, 0}, 2, RATHUNXA_PLAN_LOGGERS, LOGGERS_AT},
        {LOGGERS_AT, {0, 9}, 2, RATHUNXA_PLAN_LOGGERS, LOGGERS_AT},
        {LOGGERS_AT + 4, {0, 1}, 2, RATHUNXA_PLAN_LOGGER, LOGGERS_AT + 4},
        {LOGGERS_AT + 4, {0, 0}, 2, RATHUNXA_PLAN_LOGGER, LOGGERS_AT + 4},
        {KINDS_AT, {0, 0}, 2, RATHUNXA_PLAN_KINDS, KINDS_AT},
        {KINDS_AT, {0, 33}, 2, RATHUNXA_PLAN_KINDS, KINDS_AT},
        {KINDS_AT + 4, {0, 7}, 2, RATHUNXA_PLAN_KIND, KINDS_AT + 4},
        {NODES_AT, {0, 0}, 2, RATHUNXA_PLAN_NODES, NODES_AT},
        {NODES_AT, {0, 17}, 2, RATHUNXA_PLAN_NODES, NODES_AT},
        {NODES_AT, {0, 2}, 2, RATHUNXA_PLAN_INCOMPLETE, sizeof PLAN_P},
        {NODE_AT, {0, 0, 9, 9, 9, 9, 9, 9}, 8, RATHUNXA_PLAN_OPERATOR, NODE_AT},
        {NODE_AT, {7, 0, 9, 9, 9, 9, 9, 9}, 8, RATHUNXA_PLAN_OPERATOR, NODE_AT},
        {NODE_AT, {3, 0, 9, 9, 9, 9, 9, 9}, 8, RATHUNXA_PLAN_CONTEXT, NODE_AT},
        {NODE_AT, {6, 5, 9, 9, 9, 9, 9, 9}, 8, RATHUNXA_PLAN_CONTEXT, NODE_AT},
        {NODE_AT, {3, 1, 0, 2, 0, 1, 9, 9}, 8, RATHUNXA_PLAN_INPUT, NODE_AT},
        {NODE_AT, {4, 1, 0, 0, 0x80, 0, 9, 9}, 8, RATHUNXA_PLAN_INPUT, NODE_AT},
        {NODE_AT, {1, 1, 0, 0, 0, 1, 0, 1}, 8, RATHUNXA_PLAN_THIRD, NODE_AT},
        {NODE_AT, {2, 1, 0, 0, 0, 1, 0x80, 0}, 8, RATHUNXA_PLAN_THIRD, NODE_AT},
        {NODE_AT, {3, 1, 0, 0, 0, 1, 0xff, 0xfe}, 8, RATHUNXA_PLAN_THIRD, NODE_AT},
        {NODE_AT, {4, 1, 0, 0, 0, 1, 0, 2}, 8, RATHUNXA_PLAN_THIRD, NODE_AT},
        {NODE_AT, {5, 1, 0, 0, 0, 1, 0x80, 0}, 8, RATHUNXA_PLAN_THIRD, NODE_AT},
        {NODE_AT, {6, 1, 0, 0, 0, 1, 0xff, 0xff}, 8, RATHUNXA_PLAN_THIRD, NODE_AT},
    };
    for (size_t i = 0; i < sizeof faults / sizeof faults[0]; i++) {
        struct file plan = file_of(ALL(PLAN_P));
        memcpy(plan.bytes + faults[i].at, faults[i].bytes, faults[i].length);
        turns_back("fault of the plan", i, bytes_of(&plan), NONE, faults[i].number, faults[i].place);
    }
}

static void test_passage_faults(void)
{
    const struct fault faults[] = {
        {0, {0, 129}, 2, RATHUNXA_PASSAGE_EVENTS, 0},
        {0, {0xff, 0xff}, 2, RATHUNXA_PASSAGE_EVENTS, 0},
        {0, {0, 4}, 2, RATHUNXA_PASSAGE_INCOMPLETE, sizeof PASSAGE_D},
        {0, {0, 2}, 2, RATHUNXA_PASSAGE_REST, 26},
        {0, {0, 0}, 2, RATHUNXA_PASSAGE_REST, 2},
        {2, {0, 8, 0, 8, 0x80}, 5, RATHUNXA_PASSAGE_KIND, 2},
        {14, {0, 7, 0, 3, 0x80}, 5, RATHUNXA_PASSAGE_LOGGER, 14},
        {30, {0x80}, 1, RATHUNXA_PASSAGE_TICK, 26},
        {30, {0xff}, 1, RATHUNXA_PASSAGE_TICK, 26},
    };
    for (size_t i = 0; i < sizeof faults / sizeof faults[0]; i++) {
        struct file passage = file_of(ALL(PASSAGE_D));
        memcpy(passage.bytes + faults[i].at, faults[i].bytes, faults[i].length);
        turns_back("fault of the passage", i, ALL(PLAN_P), bytes_of(&passage), faults[i].number, faults[i].place);
    }
}

static void test_bytes_left(void)
{
    struct file plan = file_of(ALL(PLAN_P)), passage = file_of(ALL(PASSAGE_D));
    plan.length++;
    passage.length += 13;
    turns_back("12 before 26", 0, bytes_of(&plan), bytes_of(&passage), RATHUNXA_PLAN_REST, sizeof PLAN_P);
    turns_back("26", 0, ALL(PLAN_P), bytes_of(&passage), RATHUNXA_PASSAGE_REST, sizeof PASSAGE_D);
}

int main(void)
{
    test_examples();
    test_output_lengths();
    test_intervals();
    test_absence();
    test_waiting_of_three();
    test_room_for_middles();
    test_waiting();
    test_findings_before_31();
    test_findings_of_an_event();
    test_no_bytes();
    test_cuts();
    test_plan_faults();
    test_passage_faults();
    test_bytes_left();
    printf("file_working_test: %d tested, %d failed\n", tested, failed);
    return failed != 0;
}
