#include "deliveries.h"

/* Splitmix64: every state gives another number, and neighbouring seeds give unlike ones. */
uint64_t next_random(uint64_t *state)
{
    *state += 0x9e3779b97f4a7c15u;
    uint64_t mixed = *state;
    mixed = (mixed ^ (mixed >> 30)) * 0xbf58476d1ce4e5b9u;
    mixed = (mixed ^ (mixed >> 27)) * 0x94d049bb133111ebu;
    return mixed ^ (mixed >> 31);
}

/* How many frames late a slice is by itself: five in eight come in time, two are one frame late, one is two. */
static size_t lateness(uint64_t random)
{
    static const size_t frames[8] = {0, 0, 0, 0, 0, 1, 1, 2};
    return frames[random % 8];
}

void show_deliveries(uint64_t seed, size_t count, size_t *deliveries)
{
    uint64_t state = seed;
    size_t latest = 0;
    for (size_t index = 0; index < count; index++) {
        size_t frame = index + 1;
        if (seed != 0) {
            frame += lateness(next_random(&state));
        }
        latest = frame > latest ? frame : latest;
        deliveries[index] = latest;
    }
}
