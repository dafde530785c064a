// Numbers for the makers of inputs, the same each time.

#include <stdint.h>

// The next number of the generator splitmix64.
static uint64_t next(uint64_t *state)
{
    uint64_t z = *state += 0x9e3779b97f4a7c15;
    z = (z ^ z >> 30) * 0xbf58476d1ce4e5b9;
    z = (z ^ z >> 27) * 0x94d049bb133111eb;
    return z ^ z >> 31;
}

// One below the bound. The bounds here are small, so that no number is drawn noticeably more often.
static inline uint32_t draw(uint64_t *state, uint32_t bound)
{
    return next(state) % bound;
}
