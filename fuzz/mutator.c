/* How libFuzzer alters an input. One step in four is libFuzzer's own, on bytes, and most of those break a count or an
   entry; the others alter whole events, nodes and the output length, so that much of what is tried is worked and not
   turned back. */
#include "input.h"
#include <stdbool.h>
#include <string.h>

#define NODE 8
#define EVENT 12
#define MOST_NODES 16
#define MOST_EVENTS 128
#define NODE_INPUT 32768
#define NO_INPUT 65535
#define SEQ 3 /* it and the operators below have no third input */
#define OPERATORS 6

size_t LLVMFuzzerMutate(uint8_t *data, size_t size, size_t max_size);

/* The entries of a section; its count stands in the two bytes before them. */
struct section {
    uint8_t *entries;
    size_t count;
};

struct input {
    uint8_t *data, *end;
    size_t room; /* bytes that may be added */
    struct section clocks, loggers, kinds, nodes, events;
};

static uint64_t state;

/* SplitMix64. */
static uint64_t below(uint64_t limit)
{
    uint64_t z = state += UINT64_C(0x9e3779b97f4a7c15);
    z = (z ^ (z >> 30)) * UINT64_C(0xbf58476d1ce4e5b9);
    z = (z ^ (z >> 27)) * UINT64_C(0x94d049bb133111eb);
    return (z ^ (z >> 31)) % limit;
}

static void put_number(uint8_t *at, int size, uint64_t value)
{
    for (int i = size - 1; i >= 0; i--, value >>= 8) at[i] = (uint8_t)value;
}

static bool take_section(uint8_t **at, const uint8_t *end, size_t entry, struct section *section)
{
    if (end - *at < 2) return false;
    section->count = number_at(*at, 2);
    section->entries = *at + 2;
    if ((size_t)(end - section->entries) < section->count * entry) return false;
    *at = section->entries + section->count * entry;
    return true;
}

/* Finds the sections of an input that has them whole. */
static bool take_input(struct input *in)
{
    if (in->end - in->data < HEAD) return false;
    uint8_t *at = in->data + HEAD;
    size_t plan_length = number_at(in->data + 2, 2);
    if ((size_t)(in->end - at) < plan_length) return false;
    const uint8_t *plan_end = at + plan_length;
    return take_section(&at, plan_end, 4, &in->clocks) && take_section(&at, plan_end, 2, &in->loggers) &&
           take_section(&at, plan_end, 2, &in->kinds) && take_section(&at, plan_end, NODE, &in->nodes) &&
           at == plan_end && take_section(&at, in->end, EVENT, &in->events) && in->clocks.count > 0 &&
           in->loggers.count > 0 && in->kinds.count > 0 && in->nodes.count > 0 && in->events.count > 0;
}

static uint8_t *any_event(const struct input *in)
{
    return in->events.entries + EVENT * below(in->events.count);
}

static void set_count(struct section *section, size_t count)
{
    section->count = count;
    put_number(section->entries - 2, 2, count);
}

static void new_names(struct input *in)
{
    uint8_t *event = any_event(in);
    if (below(2)) memcpy(event, in->kinds.entries + 2 * below(in->kinds.count), 2);
    if (below(2)) memcpy(event + 2, in->loggers.entries + 2 * below(in->loggers.count), 2);
}

/* A tick at or next to another event's, or about one or two global ticks from it. */
static void new_tick(struct input *in)
{
    uint64_t ratio = number_at(in->clocks.entries, 4), tick = number_at(any_event(in) + 4, 8);
    uint64_t far = ratio * below(3) + below(2);
    bool back = below(2) && far <= tick;
    put_number(any_event(in) + 4, 8, back ? tick - far : tick + far);
}

static void swap_events(struct input *in)
{
    uint8_t *one = any_event(in), *other = any_event(in), kept[EVENT];
    memcpy(kept, one, EVENT);
    memmove(one, other, EVENT);
    memcpy(other, kept, EVENT);
}

/* Some events once more, at the end. */
static void repeat_events(struct input *in)
{
    size_t from = below(in->events.count), many = 1 + below(16);
    if (many > in->events.count - from) many = in->events.count - from;
    if (many * EVENT > in->room || in->events.count + many > MOST_EVENTS) return;
    memcpy(in->end, in->events.entries + EVENT * from, EVENT * many);
    in->end += EVENT * many;
    set_count(&in->events, in->events.count + many);
}

static void drop_event(struct input *in)
{
    uint8_t *event = any_event(in);
    memmove(event, event + EVENT, (size_t)(in->end - event) - EVENT);
    in->end -= EVENT;
    set_count(&in->events, in->events.count - 1);
}

static uint64_t any_input(const struct input *in, size_t earlier)
{
    return earlier > 0 && below(2) ? NODE_INPUT + below(earlier) : below(in->kinds.count);
}

static void fill_node(struct input *in, size_t place)
{
    uint8_t *node = in->nodes.entries + NODE * place;
    node[0] = (uint8_t)(1 + below(OPERATORS));
    node[1] = (uint8_t)(1 + below(4));
    put_number(node + 2, 2, any_input(in, place));
    put_number(node + 4, 2, any_input(in, place));
    put_number(node + 6, 2, node[0] <= SEQ ? NO_INPUT : any_input(in, place));
}

static void new_node(struct input *in)
{
    fill_node(in, below(in->nodes.count));
}

static void add_node(struct input *in)
{
    uint8_t *passage = in->nodes.entries + NODE * in->nodes.count;
    if (in->room < NODE || in->nodes.count >= MOST_NODES) return;
    memmove(passage + NODE, passage, (size_t)(in->end - passage));
    in->end += NODE;
    put_number(in->data + 2, 2, number_at(in->data + 2, 2) + NODE);
    set_count(&in->nodes, in->nodes.count + 1);
    fill_node(in, in->nodes.count - 1);
}

static void new_output(struct input *in)
{
    const uint64_t most[] = {64, 512, 4096, 32768};
    put_number(in->data, 2, below(most[below(4)] + 1));
}

size_t LLVMFuzzerCustomMutator(uint8_t *data, size_t size, size_t max_size, unsigned int seed)
{
    void (*const steps[])(struct input *) = {new_names,  new_tick, new_tick, swap_events, repeat_events,
                                             drop_event, new_node, add_node, new_output};
    state = seed;
    struct input in = {.data = data, .end = data + size, .room = max_size - size};
    if (below(4) == 0 || !take_input(&in)) return LLVMFuzzerMutate(data, size, max_size);
    steps[below(sizeof steps / sizeof steps[0])](&in);
    return (size_t)(in.end - data);
}
