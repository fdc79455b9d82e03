/* A fuzz input: how many output bytes are lent (2 bytes), the plan's length (2), the plan, the passage. */
#ifndef INPUT_H
#define INPUT_H

#include <stddef.h>
#include <stdint.h>

#define HEAD 4

static inline uint64_t number_at(const uint8_t *at, int size)
{
    uint64_t value = 0;
    for (int i = 0; i < size; i++) value = value << 8 | at[i];
    return value;
}

#endif
