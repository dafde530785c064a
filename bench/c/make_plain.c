// Writes a large VOX file in the plain layout, 256 x 256 x 256 with 16,777,216 entries, 64 MiB and 60 bytes.
//
//     make_plain ordered FILE    each place once, x fastest, colour (x + y + z) % 256
//     make_plain random FILE     places in a pseudo-random order with repeats, a quarter of the entries of colour 0
//
// The same bytes each time.

#include <string.h>

#include "draw.h"
#include "put.h"

#define SIDE 256
#define ENTRIES (SIDE * SIDE * SIDE)
#define SEED 20240607

int main(int argc, char **argv)
{
    int is_random = argc == 3 && strcmp(argv[1], "random") == 0;
    if (argc != 3 || (!is_random && strcmp(argv[1], "ordered") != 0)) {
        fprintf(stderr, "usage: make_plain ordered|random FILE\n");
        return 2;
    }
    FILE *file = fopen(argv[2], "wb");
    if (!file) {
        perror(argv[2]);
        return 1;
    }
    put(file, "VOX ", 4);
    put_number(file, 150);
    put_head(file, "MAIN", 0, 40 + 4 * ENTRIES);
    put_head(file, "SIZE", 12, 0);
    for (int i = 0; i < 3; i++)
        put_number(file, SIDE);
    put_head(file, "XYZI", 4 + 4 * ENTRIES, 0);
    put_number(file, ENTRIES);

    uint64_t state = SEED;
    for (uint32_t i = 0; i < ENTRIES; i++) {
        uint64_t drawn = is_random ? next(&state) : 0;
        uint32_t place = is_random ? drawn % ENTRIES : i;
        uint32_t x = place % SIDE, y = place / SIDE % SIDE, z = place / (SIDE * SIDE);
        uint32_t colour = (x + y + z) % 256;
        if (is_random)
            colour = drawn >> 32 & 3 ? 1 + (drawn >> 34) % 255 : 0;
        uint8_t group[4] = {x, y, z, colour};
        put(file, group, 4);
    }
    if (fclose(file)) {
        perror(argv[2]);
        return 1;
    }
    return 0;
}
