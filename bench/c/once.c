// The peer of `voxdag look`: reads a file into memory once, and adds its numbers of 64 bits.
//
//     once FILE

#include <stdint.h>
#include <stdio.h>
#include <stdlib.h>

int main(int argc, char **argv)
{
    FILE *file = argc == 2 ? fopen(argv[1], "rb") : NULL;
    if (!file || fseek(file, 0, SEEK_END))
        return 1;
    long size = ftell(file);
    rewind(file);
    uint64_t *words = malloc((size_t)size + 8);
    if (!words || fread(words, 1, (size_t)size, file) != (size_t)size)
        return 1;
    uint64_t sum = 0;
    for (long i = 0; i < size / 8; i++)
        sum += words[i];
    printf("%llu\n", (unsigned long long)sum);
    return 0;
}
