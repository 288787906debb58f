/* What the programs share: the octets of a call, and standard input and output as a whole. */
#include <stdio.h>

#define CALL 160

static uint8_t *read_whole(size_t *size)
{
    size_t room = 1 << 20;
    uint8_t *data = malloc(room);
    *size = 0;
    for (size_t got; (got = fread(data + *size, 1, room - *size, stdin)) > 0;)
        if ((*size += got) == room)
            data = realloc(data, room *= 2);
    return data;
}

static void write_whole(const uint8_t *data, size_t size)
{
    if (fwrite(data, 1, size, stdout) != size || fflush(stdout))
        exit(1);
}
