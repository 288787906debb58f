/* G.722 by spandsp, in calls of 160 octets from one buffer in memory.
   spandsp code|decode PASSES <in >out
   Samples are 16 bits in the machine's order, of twice our scale. The last pass's output is written. */
#include <stdint.h>
#include <stdlib.h>
#include <string.h>
#include <spandsp.h>
#include "whole.h"

int main(int argc, char **argv)
{
    if (argc != 3)
        return 2;
    int coding = strcmp(argv[1], "code") == 0, passes = atoi(argv[2]);
    size_t size;
    uint8_t *in = read_whole(&size);
    size_t octets = coding ? size / 4 : size;
    uint8_t *out = calloc(octets + 1, 4);
    g722_encode_state_t *coder = g722_encode_init(NULL, 64000, 0);
    g722_decode_state_t *decoder = g722_decode_init(NULL, 64000, 0);
    for (int pass = 0; pass < passes; pass++)
        for (size_t i = 0; i < octets; i += CALL) {
            int n = octets - i < CALL ? octets - i : CALL;
            if (coding)
                g722_encode(coder, out + i, (int16_t *) in + 2 * i, 2 * n);
            else
                g722_decode(decoder, (int16_t *) out + 2 * i, in + i, n);
        }
    write_whole(out, coding ? octets : 4 * octets);
    return 0;
}
