// The parts of a VOX file, as the makers of inputs write them.

#include <stdint.h>
#include <stdio.h>
#include <stdlib.h>

static void put(FILE *file, const void *bytes, size_t length)
{
    if (fwrite(bytes, 1, length, file) != length) {
        perror("write");
        exit(1);
    }
}

static void put_number(FILE *file, uint32_t number)
{
    uint8_t bytes[4] = {number & 255, number >> 8 & 255, number >> 16 & 255, number >> 24};
    put(file, bytes, 4);
}

// A chunk's id, and its numbers of content bytes and of bytes of children.
static void put_head(FILE *file, const char *name, uint32_t content, uint32_t children)
{
    put(file, name, 4);
    put_number(file, content);
    put_number(file, children);
}
