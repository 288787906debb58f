/* G.722 by our own calls, from one buffer in memory.
   zelcandry code|decode|hear PASSES OCTETS <in >out
   OCTETS are those of a call; with 0 a pass is as many calls without an octet as it would be of 160. Samples and signals are two
   bytes, high byte first. The last pass's output is written, of hear all low signals and then all high ones. */
#include <stdint.h>
#include <stdlib.h>
#include <string.h>
#include <zelcandry.h>
#include "whole.h"

static void must(uint64_t answer)
{
    if (zelcandry_number(answer) != ZELCANDRY_DONE)
        exit(3);
}

int main(int argc, char **argv)
{
    if (argc != 4)
        return 2;
    int coding = strcmp(argv[1], "code") == 0, hearing = strcmp(argv[1], "hear") == 0, passes = atoi(argv[2]);
    size_t call = atoi(argv[3]), step = call ? call : CALL, size;
    uint8_t *in = read_whole(&size);
    size_t octets = coding ? size / 4 : size;
    uint8_t *out = calloc(octets + 1, 4), *high = out + 2 * octets;
    uint8_t coder[ZELCANDRY_CODER_BYTES] = ZELCANDRY_CODER_RESET;
    uint8_t decoder[ZELCANDRY_DECODER_BYTES] = ZELCANDRY_DECODER_RESET;
    for (int pass = 0; pass < passes; pass++)
        for (size_t i = 0; i < octets; i += step) {
            size_t n = octets - i < call ? octets - i : call;
            if (coding)
                must(zelcandry_code(coder, sizeof coder, in + 4 * i, 4 * n, out + i, n));
            else if (hearing)
                must(zelcandry_hear(decoder, sizeof decoder, 1, in + i, n, out + 2 * i, 2 * n, high + 2 * i, 2 * n));
            else
                must(zelcandry_decode(decoder, sizeof decoder, 1, in + i, n, out + 4 * i, 4 * n));
        }
    write_whole(out, coding ? octets : 4 * octets);
    return 0;
}
